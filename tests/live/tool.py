#!/usr/bin/env python3
"""Replaces `ipmitool .. exec` and FreeIPMI's `ipmi-raw` in tests: it answers the requests on its standard input like a
controller with the contents of the image TOOL_IMAGE, with the troubles in TOOL_TROUBLES:

busy=N        each Nth request is refused with C0h
most=N        a part of more than N bytes is refused with CAh; most=N,C with code C
cancel=N      each Nth part cancels the reservation      grant=N    an answer has at most N bytes of data
unreserved=1  there are no reservations: requests for one are refused with C1h, and 0000h is accepted as one
silent=N      each Nth request gets no answer
refuse=C,N    the Nth request is refused with code C; refuse=C,N,M also those after it, to the Mth
dead=N        from the Nth request on there is no answer
garbage=N     the Nth answer is malformed                cut=N      the tool exits in the middle of the Nth answer
long=N        the Nth answer is long and has no end      other=N    the Nth answer is one byte short
say=TEXT      the tool prints this error and exits       die=N      the tool exits before the Nth answer
warn=TEXT     the tool prints this before its first answer
hold=N        the Nth answer never comes; with 0 the tool reads nothing
read=N        the tool dies after N bytes of its input   print=N    the tool dies after N bytes of its output

TOOL_LOG gets one line per request: unit, network function, command and data."""
import os
import sys
import time

TROUBLES = dict(word.split("=", 1) for word in os.environ.get("TOOL_TROUBLES", "").split("|") if word)


def read_image(path):
    image = {"sdr": [], "sel": [], "fru": {}, "reading": {}, "info": {}}
    for line in open(path, encoding="latin-1").read().split("\n")[1:]:
        word, *fields = line.split(" ")
        data = bytes.fromhex(fields[-1]) if fields else b""
        if word in ("sdr", "sel"):
            image[word].append([int(fields[0], 16), fields[1], data])
        elif word == "fru":
            image["fru"][int(fields[0], 16)] = image["fru"].get(int(fields[0], 16), b"") + data
        elif word == "reading":
            image["reading"][int(fields[0], 16), int(fields[1], 16)] = data
        elif word == "info":
            image["info"][fields[0]] = data
    for shelf in ("sdr", "sel"):
        rows = image[shelf]
        for place, row in enumerate(rows):
            following = rows[place + 1][0] if place + 1 < len(rows) else 0xFFFF
            row[1] = following if row[1] == "-" else int(row[1], 16)
    return image


class Controller:
    def __init__(self, image):
        self.image = image
        self.given = 0
        self.current = dict.fromkeys(("sdr", "sel"), 0 if "unreserved" in TROUBLES else None)
        self.requests = 0
        self.parts = 0

    def happens(self, trouble):
        return trouble in TROUBLES and self.requests % int(TROUBLES[trouble]) == 0

    def answer(self, unit, function, command, data):
        """Returns a completion code and bytes, or None for no answer."""
        if self.requests + 1 >= int(TROUBLES.get("dead", 1 << 30)):
            return None
        if (function, command) == (0x06, 0x01):
            # not counted: ipmitool begins a session with this request
            return 0, bytes(15)
        self.requests += 1
        if TROUBLES.get("hold") == str(self.requests):
            hold()
        if self.happens("silent"):
            return None
        if self.happens("busy"):
            return 0xC0, b""
        if "refuse" in TROUBLES:
            code, *places = TROUBLES["refuse"].split(",")
            if int(places[0]) <= self.requests <= int(places[-1]):
                return int(code, 16), b""
        if function == 0x04 and command == 0x2D:
            reading = self.image["reading"].get((unit, data[0]))
            return (0, reading) if reading else (0xCB, b"")
        if function != 0x0A or unit != 0:
            return 0xC1, b""
        return self.storage(command, data)

    def storage(self, command, data):
        shelf = "sdr" if command < 0x30 else "sel"
        if command in (0x22, 0x42):
            if "unreserved" in TROUBLES:
                return 0xC1, b""
            self.given += 1
            self.current[shelf] = self.given
            return 0, self.given.to_bytes(2, "little")
        if command in (0x20, 0x40):
            info = self.image["info"].get(shelf)
            return (0, info) if info else (0xCB, b"")
        if command in (0x23, 0x43):
            return self.part(shelf, data)
        inventory = self.image["fru"].get(data[0])
        if inventory is None:
            return 0xCB, b""
        if command == 0x10:
            return 0, len(inventory).to_bytes(2, "little") + b"\0"
        offset = int.from_bytes(data[1:3], "little")
        code, piece = self.piece(inventory, offset, data[3])
        return (code, bytes([len(piece)]) + piece) if code == 0 else (code, b"")

    def part(self, shelf, data):
        reservation, identity = (int.from_bytes(data[i : i + 2], "little") for i in (0, 2))
        offset, count = data[4:6]
        self.parts += 1
        if "cancel" in TROUBLES and self.parts % int(TROUBLES["cancel"]) == 0:
            self.current[shelf] = None
        rows = self.image[shelf]
        row = next((row for row in rows if row[0] == identity or (identity == 0 and row is rows[0])), None)
        if row is None:
            return 0xCB, b""
        if offset > 0 and reservation != self.current[shelf]:
            return 0xC5, b""
        code, piece = self.piece(row[2], offset, len(row[2]) if count == 0xFF else count)
        return (0, row[1].to_bytes(2, "little") + piece) if code == 0 else (code, b"")

    @staticmethod
    def piece(whole, offset, count):
        if offset >= len(whole):
            return 0xC9, b""
        most, _, code = TROUBLES.get("most", "255").partition(",")
        if count > int(most):
            return int(code or "ca", 16), b""
        return 0, whole[offset : offset + min(count, int(TROUBLES.get("grant", 255)))]


def ipmitool_text(unit, function, command, answer):
    where = "Unable to send RAW command (channel=0x0 netfn=0x%x lun=0x%x cmd=0x%x" % (function, unit, command)
    if answer is None:
        return where + ")\n"
    code, data = answer
    if code:
        return where + " rsp=0x%x): some words of it\n" % code
    words = "".join(" %02x" % byte for byte in data)
    return "\n".join(words[i : i + 48] for i in range(0, max(len(words), 1), 48)) + "\n"


def freeipmi_text(command, answer):
    if answer is None:
        return "ipmi_cmd_raw: session timeout\n"
    code, data = answer
    return "rcvd: " + "".join("%02X " % byte for byte in bytes([command, code]) + data) + "\n"


def hold():
    """Never returns. The file TOOL_HELD says that it was called."""
    open(os.environ["TOOL_HELD"], "w", encoding="ascii").close()
    time.sleep(600)


def lines():
    """Returns the lines of standard input, up to the byte at which the tool dies."""
    left = int(TROUBLES.get("read", -1))
    line = b""
    while left != 0:
        byte = os.read(0, 1)
        if not byte:
            return
        left -= 1
        line += byte
        if byte == b"\n":
            yield line.decode("ascii")
            line = b""
    sys.exit(1)


def put(text, printed=[0]):
    """Prints the text, up to the byte at which the tool dies."""
    printed[0] += len(text)
    over = printed[0] - int(TROUBLES.get("print", printed[0] + 1))
    if over >= 0:
        text = text[: len(text) - over]
    sys.stdout.write(text)
    sys.stdout.flush()
    if over >= 0:
        sys.exit(1)


def send(controller, is_ipmitool, text):
    """Prints an answer, or what a trouble puts in its place."""
    happens = {trouble: TROUBLES.get(trouble) == str(controller.requests) for trouble in ("garbage", "cut", "long", "other", "die")}
    if happens["die"]:
        sys.exit(1)
    if happens["garbage"]:
        text = "no such thing\n"
    if happens["other"]:
        text = text.rstrip(" \n")[:-3] + text[len(text.rstrip(" \n")) :]
    if happens["long"]:
        text = " 00" * 5000
    if happens["cut"]:
        text = text[: len(text) // 2]
    put(text)
    if happens["cut"]:
        sys.exit(1)


def main():
    words = sys.argv[1:]
    is_ipmitool = words[-2:] == ["exec", "/dev/stdin"]
    unit = int(words[words.index("-l") + 1]) if is_ipmitool else 0
    if TROUBLES.get("hold") == "0":
        hold()
    if "say" in TROUBLES:
        sys.stderr.write(TROUBLES["say"] + "\n")
        sys.exit(1)
    put(TROUBLES.get("warn", ""))
    controller = Controller(read_image(os.environ["TOOL_IMAGE"]))
    log = open(os.environ.get("TOOL_LOG", "/dev/null"), "a", encoding="ascii")
    for line in lines():
        words = line.split()
        if words == ["echo", "."]:
            put(". \n")
            continue
        if is_ipmitool:
            assert words[0] == "raw", line
            function, command, *data = (int(word, 16) for word in words[1:])
        else:
            unit, function, command, *data = (int(word, 16) for word in words)
        log.write("%x %02x %02x %s\n" % (unit, function, command, bytes(data).hex()))
        log.flush()
        answer = controller.answer(unit, function, command, bytes(data))
        if is_ipmitool:
            send(controller, is_ipmitool, ipmitool_text(unit, function, command, answer))
        else:
            send(controller, is_ipmitool, freeipmi_text(command, answer))


if __name__ == "__main__":
    main()
