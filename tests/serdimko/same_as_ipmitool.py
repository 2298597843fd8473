"""Compares serdimko with the specified program on command lines: those of the tests' tables, and generated ones.

Both must have the same output and status, and the same message, except for what serdimko adds to a message about the
image. If the specified program refuses a line, serdimko must refuse it too, unless the line uses something that only
serdimko has.
"""
import glob
import multiprocessing
import os
import random
import re
import shlex
import shutil
import subprocess
import sys
import tempfile

SERDIMKO, IPMITOOL = sys.argv[1:]
GENERATED = 10_000
SEED = 20240229
# The largest number of differences to report, and the smallest number of lines for each status.
MOST_TOLD = 20
FEWEST = 500

# ---- the lines of the tests' tables

TABLES = "crates/ipmi_command_tests/src/command*/*.rt"


def table_lines():
    """Returns the words before the first bar of each line of a text constant that may be a command line.

    If there is a comma, words are split at commas, as in the tests. A line of output among them does no harm: both
    programs refuse its words.
    """
    lines = set()
    for file in sorted(glob.glob(TABLES)):
        with open(file, encoding="utf-8") as source:
            constants = re.findall(r'^ *const \w+: &str = "(.*?)";$', source.read(), re.M | re.S)
        # Constants of the other files also contain images and outputs.
        may_be_line = r"" if "/command_line/" in file else r"(sdr|sel|fru|image)\b(?! \d)|-"
        for constant in constants:
            for line in constant.split("\n"):
                text = line.split("|")[0]
                if re.match(may_be_line, text):
                    lines.add(tuple(text.split(",") if "," in text else text.split()))
    return sorted(lines)


# ---- generated lines

COMMANDS = [
    "sdr", "sdr list", "sdr elist", "sdr list KIND", "sdr elist KIND", "sdr get NAME", "sdr hex", "sdr info", "sel",
    "sel info", "sel list", "sel list N", "sel list first N", "sel list last N", "sel get N", "fru", "fru print",
    "fru print N", "image rewrite", "",
]
KINDS = ["all", "full", "compact", "event", "generic", "mclocator", "fru"]
NAMES = ["CPU1 Temp", "PS1 State0", "PSU1", "Temp", "BMC", "Log", "", "none", "list", "-", "a=b", "Größe"]
NUMBERS = [
    "0", "1", "2", "3", "7", "9", "10", "16", "22", "0x1", "0x16", "0x0016", "0xfe", "254", "255", "256", "65534",
    "65535", "65536", "0xffff", "0x10000", "0x", "00", "01", "+1", "-1", "1a", "ten", "",
]
OPTIONS = {
    "--from": ["0001", "0002", "0009", "000a", "0016", "FFFE", "0000", "ffff", "12", "0x01", "000g", ""],
    "--part": ["1", "2", "5", "16", "32", "253", "254", "0", "255", "01", "0x20", "five", ""],
    "--tries": ["0", "1", "5", "255", "256", "00", "-1", "five", ""],
}
UNREADABLE = ["none.image", ".", ""]
# Words to insert before a word, or to replace a word with.
ODD = [
    "--", "--help", "-h", "--version", "-V", "--strict", "--id", "help", "-", "", "--part", "--from", "--imge", "-x",
    "frob", "Sdr", "sdr", "sel", "fru", "list", "get", "first", "last", "print", "rewrite", "lst", "--tries=5",
]


def generated_line(rng, images):
    """Returns the words of a line, and the image for standard input."""
    words = []
    for word in rng.choice(COMMANDS).split():
        words.append(rng.choice({"KIND": KINDS, "NAME": NAMES, "N": NUMBERS}.get(word, [word])))
    options = [name for name in OPTIONS if rng.random() < 0.2]
    image = rng.choice(images)
    if rng.random() < 0.5:
        options.append("--image")
    # Most values are from the first half, so that most lines are commands.
    for name in options:
        values = OPTIONS.get(name, images + UNREADABLE)
        value = rng.choice(values if rng.random() < 0.3 else values[: len(values) // 2])
        place = rng.randint(0, len(words))
        words[place:place] = [name + "=" + value] if rng.random() < 0.3 else [name, value]
    if rng.random() < 0.2:
        place = rng.randint(0, len(words))
        words[place : place + rng.randint(0, 1)] = [rng.choice(ODD)]
    if words and rng.random() < 0.1:
        place = rng.randrange(len(words))
        words[place : place + 1] = rng.choice([[], [words[place]] * 2])
    return tuple(words), image


# ---- comparing the two programs

OWN = {
    "-h", "--help", "-V", "--version", "--strict", "--json", "--csv", "--label", "--id", "--type", "--entity", "--exclude", "--since",
    "--until", "--now", "--worse", "--cursor-file", "help", "sensor", "check", "metrics",
}
USAGE = b"usage: ipmitool [--image FILE] [--from HEX4] [--part N] [--tries N] fru|sdr|sel WORDS\n"
WHY_NOT_READ = b": (no such file|is a directory|part of its path is not a directory|too many symbolic links|file name too long|permission denied|longer than 64 MiB|input/output error)"
EXPLANATION = rb" \([^\n]+\)"
WHY_NO_HEADER = (
    rb"( \((it is empty: make an image with 'serdimko-live \.\.\. -- capture', and read it with --image FILE|compressed: unpack it first|line ends are CR LF: use LF alone|line ends are CR: use LF alone|begins with a byte order mark: save it without"
    rb"|is UTF-16 or UTF-32: save it as UTF-8|not an image: the first line has to be 'ipmi-image 1', 'ipmi-image 2' or 'ipmi-image 3', with a line feed and no space after it; 'serdimko-live ... -- capture' makes an image)\))"
)


def free_words(words):
    """The words that belong to no option."""
    free = []
    rest = iter(words)
    for word in rest:
        if word == "--":
            return free + list(rest)
        if word == "--image" or word in OPTIONS:
            next(rest, "")
        elif word == "-" or not word.startswith("-"):
            free.append(word)
    return free


def is_own(words):
    """Whether the line uses an option or a word that only serdimko has, or several names or ids."""
    names = [word.split("=")[0] for word in words]
    has = lambda command, word: word in names[names.index(command) :] if command in names else False
    free = free_words(words)
    return (
        not OWN.isdisjoint(names)
        or names.count("--image") > 1
        or has("sel", "elist")
        or has("sel", "tail")
        or has("fru", "list")
        or has("sdr", "type")
        or has("sdr", "entity")
        or (free[:2] in (["sdr", "get"], ["sel", "get"], ["fru", "print"]) and len(free) > 3)
    )


def image_of(words):
    """The name of the image in serdimko's messages, for a line that both accept."""
    name = "standard input"
    rest = iter(words)
    for word in rest:
        if word == "--":
            break
        if word.startswith("--image="):
            name = word.removeprefix("--image=")
        elif word == "--image":
            name = next(rest, "")
        elif word in OPTIONS:
            next(rest, "")
    return name.encode()


def wanted_message(message, words):
    """The pattern of serdimko's message if the specified program prints this one."""
    image = re.escape(image_of(words))
    if message == b"image: header\n":
        return image + b": header" + WHY_NO_HEADER + b"\n"
    if message == b"image: no end\n":
        return image + b": no end" + EXPLANATION + b"\n"
    if message.startswith(b"image line "):
        return image + b":" + re.escape(message.removeprefix(b"image line ")[:-1]) + EXPLANATION + b"\n"
    if message == b"cannot read \n":
        return rb"cannot read '': the file name is empty\n"
    if message.startswith(b"cannot read "):
        return re.escape(message[:-1]) + WHY_NOT_READ + b"\n"
    return re.escape(message)


def run(program, words, image):
    with open(image, "rb") as file:
        done = subprocess.run([program, *words], stdin=file, capture_output=True, timeout=60)
    return done.returncode, done.stdout, done.stderr


def compare(case):
    """Returns the status of the specified program, and the difference between the two programs or None."""
    words, image = case
    theirs = run(IPMITOOL, words, image)
    ours = run(SERDIMKO, words, image)
    status, out, message = theirs
    if status == 2 and not is_own(words):
        same = theirs == (2, b"", USAGE) and ours[:2] == (2, b"") and re.fullmatch(rb"[^\n]+\n", ours[2])
    elif status == 2 or image_of(words) == b"-":
        # The table tests/serdimko/lines has the expected results of serdimko for these lines.
        same = 0 <= ours[0] <= 5
    else:
        same = ours[:2] == (status, out) and re.fullmatch(wanted_message(message, words), ours[2])
    if same:
        return status, None
    return status, f"serdimko {shlex.join(words)} < {image}\n  ipmitool: {theirs!s:.300}\n  serdimko: {ours!s:.300}"


def main():
    lines = table_lines()
    with tempfile.TemporaryDirectory() as folder:
        for file in glob.glob("examples/*.image") + glob.glob("tests/serdimko/images/*.image"):
            shutil.copy(file, folder)
        os.chdir(folder)
        with open("empty.image", "wb"):
            pass
        images = sorted(glob.glob("*.image"))
        cases = [(words, image) for words in lines for image in images]
        rng = random.Random(SEED)
        cases += [generated_line(rng, images) for _ in range(GENERATED)]
        # The tables use this image.
        shutil.copy("three-rows.image", "a.image")
        with multiprocessing.Pool(4) as pool:
            found = pool.map(compare, cases, chunksize=50)
    differ = [text for _, text in found if text]
    for text in differ[:MOST_TOLD]:
        print(text)
    if differ:
        sys.exit(f"{len(differ)} of {len(cases)} lines differ")
    # With too few lines of a status, the comparison would show little.
    for status in range(4):
        count = [got for got, _ in found].count(status)
        if count < FEWEST:
            sys.exit(f"only {count} of {len(cases)} lines end with status {status}")


if __name__ == "__main__":
    main()
