/* The references of scripts/bench.
 *
 * Without arguments it does the work of `ipmitool sdr hex`: it reads an image from standard input, and writes the line of
 * each record, following the next ids from the first record. Statuses are those of the program. It accepts images of
 * version 1 with only `sdr` lines, checks each line by the same rules before it writes, and keeps the records in an
 * ordered tree. It does not name faults, has no limit of 64 MiB, and frees no memory before it ends.
 *
 * With `--expert` it does the same, but keeps no records: a table has the place of each id's line in the input, and lines
 * are written as they stand there.
 *
 * With `--events` it does the work of `sel list` in that way. It accepts only `sel` lines of threshold events with a time
 * of the clock and a sensor type that has a name.
 *
 * With `--memory IMAGE PROGRAM [WORD...]` it runs a program over an image, and prints its peak resident memory in KiB. */
#include <fcntl.h>
#include <spawn.h>
#include <stdbool.h>
#include <stdint.h>
#include <stdio.h>
#include <stdlib.h>
#include <string.h>
#include <sys/resource.h>
#include <sys/wait.h>
#include <unistd.h>

enum { NO_ID = 0xFFFF, HEADER_BYTES = 5, MOST_BYTES = 256 };

/* Keeps the output written so far: exit flushes it. */
_Noreturn static void stop(int status, const char *message)
{
    fprintf(stderr, "%s\n", message);
    exit(status);
}

_Noreturn static void refuse(void)
{
    stop(3, "image: not read");
}

/* The image as text. */

struct text {
    const unsigned char *start;
    size_t len;
};

static struct text read_input(void)
{
    size_t room = 1 << 16, len = 0;
    unsigned char *bytes = malloc(room);
    for (;;) {
        if (bytes == NULL)
            stop(5, "out of memory");
        ssize_t got = read(STDIN_FILENO, bytes + len, room - len);
        if (got < 0)
            stop(3, "cannot read standard input");
        if (got == 0)
            return (struct text){bytes, len};
        len += (size_t)got;
        if (len == room) {
            room *= 2;
            bytes = realloc(bytes, room);
        }
    }
}

/* Removes the first separator and the bytes before it from the text, and returns these bytes. The separator must be there. */
static struct text cut(struct text *rest, char separator)
{
    const unsigned char *at = memchr(rest->start, separator, rest->len);
    if (at == NULL)
        refuse();
    struct text piece = {rest->start, (size_t)(at - rest->start)};
    rest->start = at + 1;
    rest->len -= piece.len + 1;
    return piece;
}

static bool is(struct text text, const char *word)
{
    return text.len == strlen(word) && memcmp(text.start, word, text.len) == 0;
}

static unsigned digit(unsigned char c)
{
    if (c >= '0' && c <= '9')
        return c - '0';
    if (c >= 'a' && c <= 'f')
        return c - 'a' + 10;
    if (c >= 'A' && c <= 'F')
        return c - 'A' + 10;
    refuse();
}

static uint8_t byte_of(const unsigned char *digits)
{
    return (uint8_t)(digit(digits[0]) << 4 | digit(digits[1]));
}

static uint16_t id_of(struct text digits)
{
    if (digits.len != 4)
        refuse();
    return (uint16_t)(byte_of(digits.start) << 8 | byte_of(digits.start + 2));
}

/* The records, in an AA tree ordered by id. This is a balanced tree: a child is one level below its parent, except that
 * a right child may be on the same level, but never two in a row. So no path is longer than twice the logarithm of the
 * number of records. */

struct row {
    struct row *left, *right;
    unsigned level;
    uint16_t id, next, len;
    uint8_t bytes[];
};

/* Rotates a left child on its parent's level up: the parent becomes its right child. */
static struct row *skew(struct row *top)
{
    struct row *left = top->left;
    if (left == NULL || left->level != top->level)
        return top;
    top->left = left->right;
    left->right = top;
    return left;
}

/* If a row, its right child and that one's right child are on one level, moves the middle one up a level. */
static struct row *split(struct row *top)
{
    struct row *right = top->right;
    if (right == NULL || right->right == NULL || right->right->level != top->level)
        return top;
    top->right = right->left;
    right->left = top;
    right->level++;
    return right;
}

/* Inserts a row and returns the tree. An image with a repeated id is refused. */
static struct row *insert(struct row *top, struct row *row)
{
    if (top == NULL)
        return row;
    if (row->id == top->id)
        refuse();
    if (row->id < top->id)
        top->left = insert(top->left, row);
    else
        top->right = insert(top->right, row);
    return split(skew(top));
}

static const struct row *find(const struct row *top, uint16_t id)
{
    while (top != NULL && top->id != id)
        top = id < top->id ? top->left : top->right;
    return top;
}

/* Reads the record of a line `sdr ID NEXT HEX`. */
static struct row *read_row(struct text line, bool is_first)
{
    if (!is(cut(&line, ' '), "sdr"))
        refuse();
    uint16_t id = id_of(cut(&line, ' '));
    uint16_t next = id_of(cut(&line, ' '));
    /* HEX is the rest of the line. Another field would begin with a space, which is not a digit. */
    size_t len = line.len / 2;
    if (line.len % 2 != 0 || len < HEADER_BYTES || len > MOST_BYTES)
        refuse();
    struct row *row = malloc(sizeof *row + len);
    if (row == NULL)
        stop(5, "out of memory");
    *row = (struct row){.level = 1, .id = id, .next = next, .len = (uint16_t)len};
    for (size_t i = 0; i < len; i++)
        row->bytes[i] = byte_of(line.start + 2 * i);
    if (id == NO_ID || len != HEADER_BYTES + (size_t)row->bytes[4])
        refuse();
    if (is_first ? id != (row->bytes[0] | row->bytes[1] << 8) : id == 0)
        refuse();
    return row;
}

struct image {
    const struct row *first;
    struct row *rows;
};

static struct image read_image(struct text rest)
{
    struct image image = {NULL, NULL};
    if (!is(cut(&rest, '\n'), "ipmi-image 1"))
        refuse();
    for (;;) {
        struct text line = cut(&rest, '\n');
        if (is(line, "end")) {
            if (rest.len != 0)
                refuse();
            return image;
        }
        struct row *row = read_row(line, image.first == NULL);
        if (image.first == NULL)
            image.first = row;
        image.rows = insert(image.rows, row);
    }
}

static char *put_byte(char *to, unsigned byte)
{
    static const char digits[] = "0123456789abcdef";
    *to++ = digits[byte >> 4];
    *to++ = digits[byte & 15];
    return to;
}

static char *put_id(char *to, unsigned id)
{
    *to++ = ' ';
    return put_byte(put_byte(to, id >> 8), id & 0xFF);
}

static void write_row(const struct row *row)
{
    char line[sizeof "sdr 0000 0000 \n" + 2 * MOST_BYTES] = "sdr";
    char *to = put_id(put_id(line + 3, row->id), row->next);
    *to++ = ' ';
    for (size_t i = 0; i < row->len; i++)
        to = put_byte(to, row->bytes[i]);
    *to++ = '\n';
    fwrite(line, 1, (size_t)(to - line), stdout);
}

/* Marks an id as listed. Returns whether it already was. */
static bool is_listed_again(uint16_t id)
{
    static uint8_t listed[0x10000 / 8];
    uint8_t bit = (uint8_t)(1 << id % 8);
    bool again = (listed[id / 8] & bit) != 0;
    listed[id / 8] |= bit;
    return again;
}

static int end_by_cycle(unsigned id)
{
    fprintf(stderr, "cycle at %04Xh\n", id);
    return 1;
}

static int end_by_missing(unsigned id)
{
    fprintf(stderr, "record %04Xh not present\n", id);
    return 1;
}

/* Writes the records, following their next ids. Returns the status: 0 after a record whose next id is FFFFh. */
static int list(struct image image)
{
    const struct row *row = image.first;
    if (row != NULL)
        is_listed_again(row->id);
    while (row != NULL) {
        write_row(row);
        uint16_t next = row->next;
        if (next == NO_ID)
            return 0;
        /* The next id 0000h means the first record, which was already listed. */
        row = next == 0 ? image.first : find(image.rows, next);
        if (row == NULL)
            return end_by_missing(next);
        if (is_listed_again(row->id))
            return end_by_cycle(next);
    }
    return 0;
}

/* The expert's way: only the place of each line. */

enum { ID = 4, NEXT = 9, HEX = 14, ENTRY_BYTES = 16 };

struct place {
    uint32_t start;
    uint16_t len, next;
};

/* The value of each hex digit plus 1, and 0 for any other byte. */
static const uint8_t digit_plus_1[256] = {
    ['0'] = 1, 2, 3, 4, 5, 6, 7, 8, 9, 10, ['A'] = 11, 12, 13, 14, 15, 16, ['a'] = 11, 12, 13, 14, 15, 16};

/* The number of some hex digits, which become lower-case. It is above FFFFFFFh if one of them is none. */
static uint32_t number_at(unsigned char *digits, unsigned count)
{
    uint32_t number = 0, bad = 0;
    for (unsigned i = 0; i < count; i++) {
        uint32_t value = digit_plus_1[digits[i]] - 1u;
        bad |= value;
        number = number << 4 | (value & 15);
        digits[i] |= 0x20;
    }
    return number | (bad & 0xF0000000);
}

/* Whether all bytes are hex digits, which become lower-case. */
static bool are_digits(unsigned char *digits, size_t count)
{
    uint32_t bad = 0;
    for (size_t i = 0; i < count; i++) {
        bad |= digit_plus_1[digits[i]] - 1u;
        digits[i] |= 0x20;
    }
    return bad < 16;
}

/* The byte at an offset of a line's record, all of whose characters are digits. */
static unsigned byte_at(const unsigned char *line, unsigned offset)
{
    const unsigned char *digits = line + HEX + 2 * offset;
    return (digit_plus_1[digits[0]] - 1u) << 4 | (digit_plus_1[digits[1]] - 1u);
}

/* Notes the place of the line `sdr ID NEXT HEX`, or of a `sel` line, that begins at an offset. Returns its id. */
static uint16_t note_line(struct place *places, bool is_log, unsigned char *text, size_t start, size_t len, bool is_first)
{
    unsigned char *line = text + start;
    size_t bytes = (len - HEX) / 2;
    if (len < HEX + 2 * HEADER_BYTES || memcmp(line, is_log ? "sel " : "sdr ", ID) != 0 || line[NEXT - 1] != ' ' ||
        line[HEX - 1] != ' ')
        refuse();
    uint32_t id = number_at(line + ID, 4), next = number_at(line + NEXT, 4);
    if (id >= NO_ID || next > NO_ID || len % 2 != 0 || bytes > MOST_BYTES || !are_digits(line + HEX, len - HEX) ||
        bytes != (is_log ? ENTRY_BYTES : HEADER_BYTES + byte_at(line, 4)))
        refuse();
    if (is_first ? id != (byte_at(line, 0) | byte_at(line, 1) << 8) : id == 0)
        refuse();
    if (places[id].len != 0)
        refuse();
    places[id] = (struct place){(uint32_t)start, (uint16_t)(len + 1), (uint16_t)next};
    return (uint16_t)id;
}

/* The names of sensor types, from 01h on, and the words of threshold events. */
static const char *const sensor_types[] = {
    "Temperature", "Voltage", "Current", "Fan", "Physical Security", "Platform Security", "Processor", "Power Supply",
    "Power Unit", "Cooling Device", "Other Units-based Sensor", "Memory", "Drive Slot", "POST Memory Resize",
    "System Firmware Progress", "Event Logging Disabled", "Watchdog 1", "System Event", "Critical Interrupt", "Button",
    "Module", "Microcontroller", "Add-in Card", "Chassis", "Chip Set", "Other FRU", "Cable", "Terminator",
    "System Boot Initiated", "Boot Error", "OS Boot", "OS Stop", "Slot", "System ACPI Power State", "Watchdog 2",
    "Platform Alert", "Entity Presence", "Monitor ASIC", "LAN", "Management Subsystem Health", "Battery",
    "Session Audit", "Version Change", "FRU State"};
static const char *const threshold_events[] = {
    "Lower Non-critical going low", "Lower Non-critical going high", "Lower Critical going low",
    "Lower Critical going high", "Lower Non-recoverable going low", "Lower Non-recoverable going high",
    "Upper Non-critical going low", "Upper Non-critical going high", "Upper Critical going low",
    "Upper Critical going high", "Upper Non-recoverable going low", "Upper Non-recoverable going high"};

/* Writes a number below 100. */
static char *put_two(char *to, unsigned number)
{
    *to++ = (char)('0' + number / 10);
    *to++ = (char)('0' + number % 10);
    return to;
}

/* Writes the date of a day, counted from 1970-01-01. Years begin in March here, so that a leap day comes last. */
static char *put_date(char *to, unsigned day)
{
    unsigned count = day + 719468, of_era = count % 146097;
    unsigned year = (of_era - of_era / 1460 + of_era / 36524 - of_era / 146096) / 365;
    unsigned of_year = of_era - (365 * year + year / 4 - year / 100), month = (5 * of_year + 2) / 153;
    year += count / 146097 * 400 + (month > 9);
    to = stpcpy(put_two(put_two(to, year / 100), year % 100), "-");
    to = stpcpy(put_two(to, month > 9 ? month - 9 : month + 3), "-");
    return put_two(to, of_year - (153 * month + 2) / 5 + 1);
}

static char *put_time(char *to, uint32_t seconds)
{
    to = stpcpy(put_date(to, seconds / 86400), " ");
    to = stpcpy(put_two(to, seconds / 3600 % 24), ":");
    return put_two(stpcpy(put_two(to, seconds / 60 % 60), ":"), seconds % 60);
}

/* Writes what `sel list` prints of the event on a line. */
static void write_event(const unsigned char *line)
{
    char entry[128], *to = entry;
    uint32_t seconds = byte_at(line, 3) | byte_at(line, 4) << 8 | byte_at(line, 5) << 16 | byte_at(line, 6) << 24;
    unsigned type = byte_at(line, 10) - 1, event = byte_at(line, 12), offset = byte_at(line, 13) & 15;
    if (byte_at(line, 2) != 2 || seconds <= 0x20000000 || seconds == UINT32_MAX || (event & 127) != 1 ||
        type >= sizeof sensor_types / sizeof *sensor_types || offset >= sizeof threshold_events / sizeof *threshold_events)
        refuse();
    memcpy(to, line + ID, 4);
    to = put_time(stpcpy(to + 4, " | "), seconds);
    to = stpcpy(stpcpy(stpcpy(to, " | "), sensor_types[type]), " #0x");
    memcpy(to, line + HEX + 2 * 11, 2);
    to = stpcpy(stpcpy(to + 2, " | "), threshold_events[offset]);
    to = stpcpy(to, event > 127 ? " | Deasserted\n" : " | Asserted\n");
    fwrite(entry, 1, (size_t)(to - entry), stdout);
}

static int list_by_places(struct text text, bool is_log)
{
    static struct place places[0x10000];
    static const char head[] = "ipmi-image 1\n";
    unsigned char *bytes = (unsigned char *)text.start;
    size_t at = sizeof head - 1;
    bool is_first = true;
    uint16_t id = 0, first = 0;
    if (text.len > UINT32_MAX || text.len < at || memcmp(bytes, head, at) != 0)
        refuse();
    for (;; is_first = false) {
        const unsigned char *end = memchr(bytes + at, '\n', text.len - at);
        if (end == NULL)
            refuse();
        size_t len = (size_t)(end - bytes) - at;
        if (len == 3 && memcmp(bytes + at, "end", 3) == 0)
            break;
        id = note_line(places, is_log, bytes, at, len, is_first);
        if (is_first)
            first = id;
        at += len + 1;
    }
    if (at + 4 != text.len)
        refuse();
    if (is_first)
        return 0;
    is_listed_again(first);
    for (id = first;;) {
        if (is_log)
            write_event(bytes + places[id].start);
        else
            fwrite(bytes + places[id].start, 1, places[id].len, stdout);
        uint16_t next = places[id].next;
        if (next == NO_ID)
            return 0;
        id = next == 0 ? first : next;
        if (places[id].len == 0)
            return end_by_missing(next);
        if (is_listed_again(id))
            return end_by_cycle(next);
    }
}

/* Prints the peak memory of a run, which on Linux is in KiB. The output of the command is discarded. A child starts with
 * the memory of its parent, so the figure is at least the memory of this process, which is small. */
static void measure(const char *image, char **command)
{
    extern char **environ;
    posix_spawn_file_actions_t files;
    pid_t child;
    int status;
    struct rusage children;
    if (posix_spawn_file_actions_init(&files) != 0 ||
        posix_spawn_file_actions_addopen(&files, STDIN_FILENO, image, O_RDONLY, 0) != 0 ||
        posix_spawn_file_actions_addopen(&files, STDOUT_FILENO, "/dev/null", O_WRONLY, 0) != 0)
        stop(5, "out of memory");
    if (posix_spawn(&child, command[0], &files, NULL, command, environ) != 0)
        stop(1, "memory: the command cannot be run");
    if (waitpid(child, &status, 0) != child || status != 0)
        stop(1, "memory: the run did not end with status 0");
    getrusage(RUSAGE_CHILDREN, &children);
    printf("%ld\n", children.ru_maxrss);
}

int main(int argc, char **argv)
{
    int status = 0;
    setvbuf(stdout, NULL, _IOFBF, 1 << 16);
    if (argc == 1)
        status = list(read_image(read_input()));
    else if (argc == 2 && strcmp(argv[1], "--expert") == 0)
        status = list_by_places(read_input(), false);
    else if (argc == 2 && strcmp(argv[1], "--events") == 0)
        status = list_by_places(read_input(), true);
    else if (argc >= 4 && strcmp(argv[1], "--memory") == 0)
        measure(argv[2], argv + 3);
    else
        stop(2, "usage: bench_reference [--expert | --events | --memory IMAGE PROGRAM [WORD...]]");
    if (fflush(stdout) != 0 || ferror(stdout))
        stop(4, "write fault");
    return status;
}
