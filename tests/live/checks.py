#!/usr/bin/env python3
"""Runs `check` over a controller of which one sensor is critical, and which spoils requests: `checks.py PROGRAM` runs all cases,
`checks.py PROGRAM CASE` one. As the tool of scripts/live it spoils those of the case CHECK_CASE.

A case is five words: which requests it spoils, the dialect, the image, the trouble, and a number N.

turn     the Nth
second   every second from the Nth on
seed     by any trouble, drawn from the seed N, as the image is
held     the Nth gets no answer, so the deadline of scripts/live ends the run
"""
import collections
import multiprocessing
import os
import pathlib
import random
import re
import select
import subprocess
import sys
import tempfile
import time

sys.dont_write_bytecode = True
import tool

FOLDER = pathlib.Path(__file__).parent
SERVER = tool.read_image(FOLDER.parent.parent / "examples" / "server.image")
DIALECTS = ("ipmitool", "freeipmi")
GET_SENSOR_READING = (0x04, 0x2D)
# By these codes a controller says that it has no such reading (docs/DECISIONS.md, ipmi_raw), which is no failure: the sensor is counted.
ABSENT = {0xCB, 0xCC, 0xCD, 0xD5}
SEEDS = 1000
# so many seconds no run takes
PATIENCE = 120

# ---- the troubles

# The texts that an answer is cut to: nothing, half of it, and all but its line feed.
CUTS = {"cut": lambda text: 0, "cut-half": lambda text: len(text) // 2, "cut-end": lambda text: len(text) - 1}
# invalid command, invalid field, not present, not in this state, unspecified; cancelled; busy
CODES = {"refused-c1": 0xC1, "refused-cc": 0xCC, "refused-cb": 0xCB, "refused-d5": 0xD5, "refused-ff": 0xFF, "cancelled": 0xC5, "busy": 0xC0}
TROUBLES = ["silent", *CODES, *CUTS]
WITHOUT_CODE = {"silent", "dead", "held", "lost", *CUTS}


def any_trouble(chance):
    """One of the troubles, or any code, or a reservation that is lost, or the end of all answers."""
    drawn = chance.choice([*TROUBLES, "refused", "lost", "dead"])
    return "refused-%02x" % chance.randrange(1, 256) if drawn == "refused" else drawn


def code_of(trouble):
    """The completion code of a trouble that has one."""
    return CODES.get(trouble) or int(trouble.partition("-")[2], 16)


# ---- the images

# One sensor of each image is critical, as the server's image says by its reading; none of the others is.
CRITICAL = ["VRM1 Temp", "Fan3", "PSU2 State0", "Chassis Intr"]
WARNINGS = ["Outlet Temp", "VRM2 Temp", "PSU2 State1"]
FINE = ["CPU1 Temp", "Inlet Temp", "Fan1", "Fan4", "P12V", "PSU1 State0", "Drive1", "Watchdog"]
# without a reading, of another owner, and a locator
OTHERS = ["Missing Temp", "Other Temp", "BMC", "PSU1"]
IMAGES = {
    "first": ["PSU2 State0", "Outlet Temp", "CPU1 Temp", "Fan1"],
    "middle": ["BMC", "CPU1 Temp", "Chassis Intr", "VRM2 Temp", "Missing Temp"],
    "last": ["CPU1 Temp", "Fan1", "Other Temp", "VRM1 Temp"],
}


def row_of(name):
    """The first record of the server that ends in this name."""
    return next(row for row in SERVER["sdr"] if row[2].endswith(name.encode()))


def drawn_image(chance):
    """The names of an image: a critical sensor among others, in any order."""
    names = [chance.choice(CRITICAL)]
    for choices, most in (WARNINGS, 2), (FINE, 4), (OTHERS, 2):
        names += chance.sample(choices, chance.randint(0, most))
    chance.shuffle(names)
    return names


def image_of(names):
    """The server's image with only these records, in this order."""
    rows = [row_of(name) for name in names]
    following = [row[0] for row in rows[1:]] + [0xFFFF]
    return {**SERVER, "sdr": [[row[0], after, row[2]] for row, after in zip(rows, following)]}


# ---- the cases


class Case:
    """A case: the image, the words for the program, and which trouble each request has."""

    def __init__(self, words):
        self.words = words
        self.choice, self.dialect, self.image, self.trouble, number = words.split()
        self.number = int(number)
        self.chance = random.Random(words)
        self.by_script = self.choice == "held"
        self.options = ["--tries", "1"]
        names = IMAGES.get(self.image)
        if self.choice == "seed":
            names = drawn_image(self.chance)
            self.options = ["--tries", str(self.chance.randint(0, 2)), "--part", str(self.chance.choice([16, 22, 64, 254]))]
            self.rate = self.chance.choice([0.02, 0.05, 0.1, 0.3])
            self.by_script = self.number % 20 == 0
        self.names = names
        self.critical = next(name for name in names if name in CRITICAL)

    def trouble_of(self, request):
        """The trouble that this request has, if any; requests are counted from 1."""
        if self.choice == "seed":
            return any_trouble(self.chance) if self.chance.random() < self.rate else None
        if self.choice == "second":
            return self.trouble if request >= self.number and (request - self.number) % 2 == 0 else None
        return self.trouble if request == self.number else None


class Spoiled(tool.Controller):
    """The controller of a case: whether the whole reading of its critical sensor was sent (`was_read`), or was said to be absent."""

    def __init__(self, case):
        super().__init__(image_of(case.names))
        self.case = case
        record = row_of(case.critical)[2]
        self.sensor = (record[6] % 4, record[7])
        self.was_read = self.is_absent = self.is_dead = False
        # the requests, and those that were spoiled
        self.sent = self.struck = 0

    def reply(self, unit, line):
        """The text for a line of input, and whether the tool dies after it."""
        words = line.split()
        if words == ["echo", "."]:
            return ". \n", False
        if self.case.dialect == "ipmitool":
            words = words[1:]
        else:
            unit, words = int(words[0], 16), words[1:]
        function, command, *data = (int(word, 16) for word in words)
        self.sent += 1
        is_critical = (function, command) == GET_SENSOR_READING and (unit, data[0]) == self.sensor
        return self.spoil((unit, function, command, bytes(data)), is_critical, self.trouble_for(is_critical))

    def trouble_for(self, is_critical):
        """The trouble of this request. No seed denies the critical sensor."""
        trouble = "silent" if self.is_dead else self.case.trouble_of(self.sent)
        if trouble and trouble not in WITHOUT_CODE and is_critical and code_of(trouble) in ABSENT:
            if self.case.choice == "seed":
                return "refused-ff"
            self.is_absent = True
        return trouble

    def spoil(self, request, is_critical, trouble):
        """The text for a request with this trouble, and whether the tool dies after it."""
        self.struck += trouble is not None
        if trouble == "held":
            time.sleep(600)
        if trouble == "dead":
            self.is_dead = True
        if trouble == "lost":
            self.current = dict.fromkeys(self.current)
        if trouble in CUTS:
            text = self.text(request, self.answer(*request))
            return text[: CUTS[trouble](text)], True
        if trouble in (None, "lost"):
            self.was_read = self.was_read or is_critical
            return self.text(request, self.answer(*request)), False
        return self.text(request, None if trouble in WITHOUT_CODE else (code_of(trouble), b"")), False

    def text(self, request, answer):
        """The text of an answer, or of none, in the dialect of the tool."""
        unit, function, command, _ = request
        return tool.ipmitool_text(unit, function, command, answer) if self.case.dialect == "ipmitool" else tool.freeipmi_text(command, answer)


# What a run gave, whether the critical sensor was read, and the controller, if it was in this process.
Run = collections.namedtuple("Run", "status out err was_read controller")

# ---- as a tool of scripts/live


def be_tool():
    """Answers standard input, and leaves a file `read` if the critical sensor was read."""
    controller = Spoiled(Case(os.environ["CHECK_CASE"]))
    for line in sys.stdin:
        text, dies = controller.reply(0, line)
        sys.stdout.write(text)
        sys.stdout.flush()
        if controller.was_read:
            pathlib.Path(os.environ["CHECK_FOLDER"], "read").touch()
        if dies:
            sys.exit(1)


def by_script(case, folder):
    """Runs scripts/live, with this file as its tool."""
    here = str(pathlib.Path(__file__).resolve())
    settings = {"CHECK_CASE": case.words, "CHECK_FOLDER": folder, "IPMITOOL": here, "IPMI_RAW": here, "TMPDIR": folder}
    words = [FOLDER.parent.parent / "scripts" / "live", "--" + case.dialect, "--deadline", "1" if case.choice == "held" else str(PATIENCE)]
    done = subprocess.run([*words, "--", *case.options, "check"], env={**os.environ, **settings}, capture_output=True, text=True, check=False)
    return Run(done.returncode, done.stdout, done.stderr, pathlib.Path(folder, "read").exists(), None)


# ---- as the other end of the pipes


class Pipes:
    """The pipes of a folder, one pair for each logical unit, to the tools of a controller."""

    def __init__(self, controller, folder):
        self.controller = controller
        self.units, self.replies, self.lines = {}, {}, {}
        for unit in range(4 if controller.case.dialect == "ipmitool" else 1):
            names = [os.path.join(folder, "%s.%d" % (stream, unit)) for stream in ("requests", "replies")]
            for name in names:
                os.mkfifo(name)
            requests = os.open(names[0], os.O_RDONLY | os.O_NONBLOCK)
            self.units[requests], self.lines[requests] = unit, b""
            # also for reading, so that this does not wait for the program
            self.replies[requests] = os.open(names[1], os.O_RDWR)

    def close(self, requests):
        """Closes the pipes of a unit, as its tool's end does."""
        os.close(requests)
        os.close(self.replies.pop(requests))

    def serve(self, requests):
        """Answers what is there. False at the end of the requests, or of the tool."""
        piece = os.read(requests, 65536)
        *lines, self.lines[requests] = (self.lines[requests] + piece).split(b"\n")
        for line in lines:
            text, dies = self.controller.reply(self.units[requests], line.decode("ascii"))
            os.write(self.replies[requests], text.encode("ascii"))
            if dies:
                return False
        return piece != b""

    def converse(self, process):
        """Answers until the program has ended."""
        ended = os.pidfd_open(process.pid)
        poller = select.poll()
        for file in [ended, *self.replies]:
            poller.register(file, select.POLLIN)
        ready = []
        while all(file != ended for file, _ in ready):
            for file, _ in ready:
                if not self.serve(file):
                    poller.unregister(file)
                    self.close(file)
            ready = poller.poll(PATIENCE * 1000)
            if not ready:
                process.kill()
        os.close(ended)
        for requests in list(self.replies):
            self.close(requests)


def by_pipes(case, folder):
    """Runs the program itself."""
    controller = Spoiled(case)
    pipes = Pipes(controller, folder)
    words = [os.environ["SERDIMKO"], "--live", case.dialect + ":" + folder, *case.options, "check"]
    with subprocess.Popen(words, stdout=subprocess.PIPE, stderr=subprocess.PIPE, text=True) as process:
        pipes.converse(process)
        out, err = process.communicate()
    return Run(process.returncode, out, err, controller.was_read, controller)


# ---- what has to be


def faults_of(case, run):
    """What is wrong with a run. If the critical sensor was read, it must say so, and otherwise that it doesn't know."""
    first, *lines = run.out.split("\n")
    verdict = "status %d, %s" % (run.status, first)
    critical = [line for line in lines if line.startswith("critical: ")]
    if run.err:
        yield "says " + run.err
    if case.choice == "held":
        # scripts/live ends the program before its verdict
        if verdict != "status 3, IPMI UNKNOWN - no time left: --deadline 1":
            yield verdict
    elif run.was_read:
        if not re.match(r"status 2, IPMI CRITICAL - 1 of \d+ sensors?: %s \(" % case.critical, verdict):
            yield "%s was read: %s" % (case.critical, verdict)
        if len(critical) != 1 or not critical[0].startswith("critical: %s (" % case.critical):
            yield "%s was read: %s" % (case.critical, critical)
    elif run.controller and run.controller.is_absent:
        if critical or "; without a reading: " not in first:
            yield "%s has no reading: %s" % (case.critical, verdict)
    elif critical or not verdict.startswith("status 3, IPMI UNKNOWN - ") or verdict.endswith("- "):
        yield "%s was not read: %s" % (case.critical, verdict)


def run_case(words):
    """Runs a case. Returns its words, its status, its faults, and how many requests there were."""
    case = Case(words)
    with tempfile.TemporaryDirectory() as folder:
        run = by_script(case, folder) if case.by_script else by_pipes(case, folder)
    faults = list(faults_of(case, run))
    if case.choice in ("turn", "second") and case.number and not run.controller.struck:
        faults.append("no request was spoiled")
    return words, run.status, faults, run.controller and run.controller.sent


def fixed_cases(requests):
    """Each request in turn, and every second one, with each trouble."""
    for dialect, image, count in requests:
        for number in range(1, count + 1):
            for trouble in TROUBLES:
                yield f"turn {dialect} {image} {trouble} {number}"
                yield f"second {dialect} {image} {trouble} {number}"
            if image == "middle":
                yield f"held {dialect} {image} held {number}"


def results(pool):
    """The results of all cases. First those without troubles, which tell the number of requests."""
    quiet = pool.map(run_case, [f"turn {dialect} {image} none 0" for dialect in DIALECTS for image in IMAGES])
    yield from quiet
    requests = [(*words.split()[1:3], sent) for words, _, _, sent in quiet]
    seeds = [f"seed {DIALECTS[seed % 2]} drawn any {seed}" for seed in range(SEEDS)]
    # those that wait begin first
    cases = sorted([*fixed_cases(requests), *seeds], key=lambda words: not words.startswith("held"))
    yield from pool.imap_unordered(run_case, cases)


def all_cases():
    """Runs all cases, and prints what is wrong. Returns whether anything is."""
    failed, endings = False, collections.Counter()
    # a busy controller is asked again after half a second, so most runs wait
    with multiprocessing.Pool(8 * os.cpu_count()) as pool:
        for words, status, faults, _ in results(pool):
            endings[words.split()[0], status] += 1
            for fault in faults:
                failed = True
                print(f"{words}: {fault}")
    # the cases are worth nothing if all end alike
    for choice in "turn", "second", "seed":
        if min(endings[choice, 2], endings[choice, 3]) < 20:
            failed = True
            print(f"{choice}: {dict(endings)}")
    return failed


def main():
    """Runs all cases, or the one that is named."""
    os.environ["SERDIMKO"] = os.path.realpath(sys.argv[1])
    if len(sys.argv) > 2:
        print(run_case(sys.argv[2]))
    else:
        sys.exit(all_cases())


if __name__ == "__main__":
    if "CHECK_CASE" in os.environ:
        be_tool()
    else:
        main()
