#!/usr/bin/env bash
# Sends TERM, HUP, INT and KILL to each process of a capture by scripts/live in turn: before the first request is read, after the tool's
# tenth, and while the file is written. Each run has to end, and may leave no process, no folder and no file. Also sends them to the whole
# group, and tests --deadline. The controller is played by tests/live/tool.py.
set -uo pipefail
if [ $# -gt 0 ]; then
  SERDIMKO=$(realpath "$1")
  cd "$(dirname "$0")/.." || exit 1
else
  cd "$(dirname "$0")/.." || exit 1
  make -s build || exit 1
  SERDIMKO=$PWD/crates/serdimko/out/serdimko
fi
export SERDIMKO IPMITOOL=$PWD/tests/live/tool.py TOOL_IMAGE=$PWD/examples/server.image
all=$(mktemp -d)
trap 'rm -rf "$all"' EXIT

# Becomes the script in a session of its own. A shell lets its background processes ignore SIGINT, so python3 resets that.
cat > "$all/run.py" << 'END'
import os, signal, sys
signal.signal(signal.SIGINT, signal.SIG_DFL)
os.setsid()
os.execvp(sys.argv[1], sys.argv[1:])
END
# Keeps the pipe in place of the file $1.part, in which the first 4096 bytes have room, and makes the file $2 once they are there.
cat > "$all/pipe.py" << 'END'
import array, fcntl, os, sys, termios, time
os.mkfifo(sys.argv[1] + ".part")
pipe = os.open(sys.argv[1] + ".part", os.O_RDONLY | os.O_NONBLOCK)
fcntl.fcntl(pipe, 1031, 4096)
held = array.array("i", [0])
while held[0] < 4096:
    time.sleep(0.02)
    fcntl.ioctl(pipe, termios.FIONREAD, held)
open(sys.argv[2], "w").close()
time.sleep(600)
END

# Waits at most 30 seconds until the command succeeds.
poll() {
  for _ in {1..600}; do
    if "$@"; then return 0; fi
    sleep 0.05
  done
  return 1
}

# Prints the processes of the session that are no zombies: id, parent and name of each, in the order of their ids.
processes() {
  ps -o pid=,ppid=,stat=,args= -s "$1" | awk '$3 !~ /^Z/' | sort -n
}

is_over() {
  [ -z "$(processes "$1")" ]
}

# Prints what each process of the session $1 is, one word a line: the id, and script, watcher, program, session, waiting or time.
roles() {
  processes "$1" | awk -v script="$1" '
    $1 == script { print $1, "script"; next }
    / sh -c / { print $1, "waiting"; next }
    /tool\.py/ { print $1, "session"; next }
    / --live / { print $1, "program"; next }
    / sleep 600/ { print $1, "time"; next }
    { print $1, "watcher" }'
}

# Runs a capture up to the phase $1, sends the signal $2 to the process with the role $3, or to the group, and checks what is left.
one() {
  local phase=$1 signal=$2 role=$3 what="$1, $2 to the $3" begin status wanted target
  local work=$all/$phase.$signal.$role
  # bash says there which of its processes a signal ended
  exec 2> /dev/null
  mkdir -p "$work/folders"
  export TMPDIR=$work/folders TOOL_HELD=$work/held TOOL_TROUBLES=
  case $phase in
    first) TOOL_TROUBLES='hold=0' ;;
    tenth) TOOL_TROUBLES='hold=10' ;;
    written)
      python3 "$all/pipe.py" "$work/image" "$work/held" &
      local pipe=$!
      poll test -e "$work/image.part"
      ;;
  esac
  python3 "$all/run.py" scripts/live --deadline 600 -H there capture -o "$work/image" > "$work/out" 2> "$work/err" &
  local script=$!
  poll test -e "$work/held" || echo "$what: it does not get there"
  # the pipe is opened before the process is the tool
  poll eval '[ "$(roles '"$script"' | grep -c -E "script|watcher|program|time")" = 4 ] && roles '"$script"' | grep -q session'
  roles "$script" > "$work/roles"
  target=$(awk -v role="$role" '$2 == role { print $1; exit }' "$work/roles")
  if [ "$role" = group ]; then target=-$script; fi
  if [ -z "$target" ]; then echo "$what: no such process in $(cut -d ' ' -f 2 "$work/roles" | tr '\n' ' ')"; target=-$script; fi
  begin=$(date +%s%N)
  kill "-$signal" -- "$target"
  if [ "$signal" = INT ] && [ "$role" != script ] && [ "$role" != group ]; then
    # only the script heeds it
    sleep 0.3
    if [ "$(roles "$script")" != "$(cat "$work/roles")" ]; then echo "$what: it was heeded"; fi
    kill -TERM "$script"
  fi
  if ! poll is_over "$script"; then
    echo "$what: after 30 seconds there is $(roles "$script" | tr '\n' ' ')"
    kill -KILL -- "-$script"
  fi
  echo "$what: $((($(date +%s%N) - begin) / 1000000)) ms" >> "$all/took"
  wait "$script" 2> /dev/null
  status=$?
  # a shell reports a signal as 128 and its number
  case $role:$signal in
    script:* | group:*) wanted=$((128 + $(kill -l "$signal"))) ;;
    *:INT) wanted=143 ;;
    program:*) wanted=$((128 + $(kill -l "$signal"))) ;;
    *) wanted=1 ;;
  esac
  if [ $status -ne $wanted ]; then echo "$what: status $status instead of $wanted"; fi
  case $role:$signal in
    script:* | group:* | *:INT) [ ! -s "$work/err" ] || echo "$what: says $(cat "$work/err")" ;;
    *) [ "$(wc -l < "$work/err")" -eq 1 ] || echo "$what: says $(cat "$work/err")" ;;
  esac
  [ -z "${pipe-}" ] || kill "$pipe"
  if [ -n "$(ls -A "$TMPDIR")" ]; then echo "$what: left the folder $(ls -A "$TMPDIR")"; fi
  if [ -e "$work/image" ] || [ -e "$work/image.part" ]; then echo "$what: left $(cd "$work" && echo image*)"; fi
}
export -f one poll processes is_over roles
export all

for phase in first tenth written; do
  for signal in TERM HUP INT KILL; do
    for role in script watcher program session waiting time; do
      echo "$phase $signal $role"
    done
    if [ "$signal" != KILL ]; then echo "$phase $signal group"; fi
  done
done > "$all/cases"
said=$(xargs -P 8 -L 1 bash -c 'one "$@"' one < "$all/cases" 2>&1)
if [ "$(wc -l < "$all/took")" -ne "$(wc -l < "$all/cases")" ]; then said+=" only $(wc -l < "$all/took") runs"; fi
if [ -n "${SIGNALS_TOOK:-}" ]; then cp "$all/took" "$SIGNALS_TOOK"; fi
[ -z "$said" ] || { echo "$said"; exit 1; }
