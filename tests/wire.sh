#!/usr/bin/env bash
# Tests that a tool which dies is sent nothing but requests that read: it dies after each byte of its input, and after each byte of its
# output, in each dialect. What it is sent, also after its death, begins like what it is sent while it lives, and the run ends by name.
# `tests/wire.sh PROGRAM` tests that program. Without an argument, the one of this repository is built first.
set -uo pipefail
if [ $# -gt 0 ]; then
  SERDIMKO=$(realpath "$1")
  cd "$(dirname "$0")/.." || exit 1
else
  cd "$(dirname "$0")/.." || exit 1
  make -s build || exit 1
  SERDIMKO=$PWD/crates/serdimko/out/serdimko
fi
export SERDIMKO IPMITOOL=$PWD/tests/live/recorder IPMI_RAW=$PWD/tests/live/recorder
work=$(mktemp -d)
trap 'rm -rf "$work"' EXIT
export work TOOL_IMAGE=$work/image
printf 'ipmi-image 1\nsdr 0001 - 010051c001aa\nend\n' > "$TOOL_IMAGE"

# Prints the records while the tool has this trouble. Keeps what it was sent, both outputs and the status.
run() {
  local folder=$work/$1.$2
  mkdir -p "$folder/sent"
  TOOL_SENT=$folder/sent TOOL_TROUBLES=$2 timeout 60 scripts/live "--$1" -- --part 5 sdr hex > "$folder/out" 2> "$folder/err"
  echo $? > "$folder/status"
}
export -f run

# As many places as the dialogue has bytes, and some more.
{
  for trouble in read print; do
    for place in {0..160}; do echo "ipmitool $trouble=$place"; done
    for place in {0..80}; do echo "freeipmi $trouble=$place"; done
  done
  printf '%s alive=1\n' ipmitool freeipmi
} | xargs -P "$(nproc)" -n 2 bash -c 'run "$0" "$1"'

python3 - "$work" << 'END'
import os, sys

work = sys.argv[1]
failed = False


def fault(folder, what):
    global failed
    failed = True
    print("tests/wire.sh: %s: %s" % (folder, what))


def read(folder, name):
    return open(os.path.join(work, folder, name), "rb").read()


def sent(folder):
    return b"|".join(open(file.path, "rb").read() for file in os.scandir(os.path.join(work, folder, "sent")))


# Get Device ID, Reserve SDR Repository, and Get SDR of five bytes and then of the byte after them
dialogues = {
    "ipmitool": b"raw 0x06 0x01\necho .\nraw 0x0a 0x22\necho .\nraw 0x0a 0x23 0x01 0x00 0x00 0x00 0x00 0x05\necho .\n"
    b"raw 0x0a 0x23 0x01 0x00 0x00 0x00 0x05 0x01\necho .\n",
    "freeipmi": b"00 0A 22\n00 0A 23 01 00 00 00 00 05\n00 0A 23 01 00 00 00 05 01\n",
}
for tool, places in (("ipmitool", 161), ("freeipmi", 81)):
    dialogue = sent(tool + ".alive=1")
    if dialogue != dialogues[tool] or len(dialogue) >= places or read(tool + ".alive=1", "status") != b"0\n":
        fault(tool, "the dialogue: %r" % dialogue)
    died = 0
    for trouble in "read", "print":
        for place in range(places):
            folder = "%s.%s=%d" % (tool, trouble, place)
            if not dialogue.startswith(sent(folder)):
                fault(folder, "sent %r" % sent(folder))
            if read(folder, "status") == b"1\n":
                died += 1
                if not read(folder, "err").startswith(b"no reply from the controller: "):
                    fault(folder, "says %r" % read(folder, "err"))
            elif read(folder, "status") != b"0\n" or read(folder, "out") != read(tool + ".alive=1", "out"):
                fault(folder, "status %r" % read(folder, "status"))
    if died < len(dialogue):
        fault(tool, "died only %d times" % died)
sys.exit(failed)
END
failed=$?
mkdir "$work/all"
for folder in "$work"/*/sent; do
  for file in "$folder"/*; do cp "$file" "$work/all/$(basename "$file").$(basename "$(dirname "$folder")")"; done
done
tests/live/sent.py "$work/all" > "$work/count" || failed=1
exit $failed
