#!/usr/bin/env bash
# Tests scripts/live over a controller played by tests/live/tool.py, in each dialect. The output must be the same as over the image of the
# controller. Also tests the messages if there is no connection, or if it is lost.
set -uo pipefail
if [ $# -gt 0 ]; then
  SERDIMKO=$(realpath "$1")
  cd "$(dirname "$0")/.." || exit 1
else
  cd "$(dirname "$0")/.." || exit 1
  make -s build || exit 1
  SERDIMKO=$PWD/crates/serdimko/out/serdimko
fi
export SERDIMKO
export IPMITOOL=$PWD/tests/live/recorder IPMI_RAW=$PWD/tests/live/recorder TOOL_IMAGE=$PWD/examples/server.image TOOL_TROUBLES=
work=$(mktemp -d)
trap 'rm -rf "$work"' EXIT
export TMPDIR=$work/folders TOOL_LOG=$work/log TOOL_SENT=$work/sent
mkdir "$TMPDIR" "$TOOL_SENT"
failed=0

fault() {
  failed=1
  echo "tests/live.sh: $*"
}

# Runs the words over the controller, and sets `out`, `err` and `status`. It must leave nothing in TMPDIR.
live() {
  timeout 60 scripts/live "$@" > "$work/out" 2> "$work/err"
  status=$?
  if [ -n "$(ls -A "$TMPDIR")" ]; then fault "$*: left $(ls -A "$TMPDIR")"; fi
}

# The live output, messages and status must be those over the image.
same() {
  local dialect=$1
  shift
  "$SERDIMKO" --image "$TOOL_IMAGE" "$@" > "$work/wanted" 2> "$work/message"
  local wanted=$?
  live "$dialect" -- "$@"
  if [ "$status" -ne "$wanted" ]; then fault "$dialect $*: status $status instead of $wanted"; fi
  cmp -s "$work/wanted" "$work/out" || fault "$dialect $* ($TOOL_TROUBLES): differs from the image: $(diff "$work/wanted" "$work/out" | head -3)"
  cmp -s "$work/message" "$work/err" || fault "$dialect $* ($TOOL_TROUBLES): says $(cat "$work/err")"
}

# Checks the status and the whole message.
says() {
  local wanted=$1 message=$2
  shift 2
  live "$@"
  if [ "$status" -ne "$wanted" ]; then fault "$* ($TOOL_TROUBLES): status $status instead of $wanted"; fi
  if [ "$(cat "$work/err")" != "$message" ]; then fault "$* ($TOOL_TROUBLES): says $(cat "$work/err")"; fi
}

# A check over the controller, of which two sensors are critical, must say why it knows nothing, unless it has read one of them.
never_fine() {
  live "$@"
  case $status:$(head -n 1 "$work/out") in
    3:'IPMI UNKNOWN - '?* | 2:'IPMI CRITICAL - '?*) ;;
    *) fault "$* ($TOOL_TROUBLES): status $status, $(head -n 1 "$work/out")" ;;
  esac
  if [ -s "$work/err" ]; then fault "$* ($TOOL_TROUBLES): says $(cat "$work/err")"; fi
}

for dialect in --ipmitool --freeipmi; do
  host=-H
  if [ $dialect = --freeipmi ]; then host=-h; fi
  TOOL_TROUBLES=
  same $dialect sdr list all
  same $dialect sdr elist
  same $dialect sdr get 'CPU1 Temp'
  same $dialect sdr get 'no such name'
  same $dialect sdr info
  same $dialect sdr hex
  same $dialect sel list
  same $dialect sel list last 5
  same $dialect sel get 0x0016
  same $dialect sel info
  same $dialect fru
  same $dialect fru print 200
  same $dialect --part 254 fru print 0
  same $dialect check
  TOOL_TROUBLES='cancel=5'
  same $dialect sdr list
  same $dialect check --type fan
  TOOL_TROUBLES='cancel=13|grant=7'
  same $dialect sdr hex
  same $dialect sdr elist
  TOOL_TROUBLES='most=9'
  same $dialect fru
  TOOL_TROUBLES='busy=45'
  same $dialect sdr hex
  TOOL_TROUBLES='silent=45'
  same $dialect sdr hex
  TOOL_TROUBLES='unreserved=1'
  same $dialect sdr list
  same $dialect sel list

  # a refusal to read ahead is kept back, whatever its code: the third request is for the second record, the fourth for its header
  TOOL_TROUBLES='refuse=d4,3'
  same $dialect sdr hex
  for TOOL_TROUBLES in most=33,ff most=33,c9 most=33; do
    same $dialect --part 254 sdr elist
  done
  TOOL_TROUBLES='refuse=d4,3,4'
  says 1 'record 0002h refused with code D4h' $dialect -- --part 254 sdr hex
  if [ "$(cat "$work/out")" != "$("$SERDIMKO" --image "$TOOL_IMAGE" sdr hex | head -n 1)" ]; then
    fault "$dialect, refused: $(cat "$work/out")"
  fi
  says 1 'web17: record 0002h refused with code D4h' $dialect $host web17 sdr hex --part 254
  TOOL_TROUBLES='say=Error: Unable to establish LAN session'
  says 1 'no reply from the controller: Error: Unable to establish LAN session' $dialect -- sel list
  says 1 'no reply from the controller: Error: Unable to establish LAN session' $dialect -- sensor get CPU1 Temp
  says 1 'no reply from fe80::1: Error: Unable to establish LAN session' $dialect $host fe80::1 sel list
  says 1 'no reply from web17: Error: Unable to establish LAN session' $dialect $host web17 capture
  TOOL_TROUBLES='die=4'
  says 1 'no reply from the controller: the tool said nothing' $dialect -- sdr hex
  TOOL_TROUBLES='garbage=4'
  live $dialect -- --part 254 sdr hex
  if [ "$status" -ne 1 ] || ! grep -q '^no reply from the controller: no such thing' "$work/err"; then fault "garbage: $(cat "$work/err")"; fi
  for trouble in cut=4 long=4 other=1; do
    TOOL_TROUBLES=$trouble
    live $dialect -- --part 254 sdr hex
    if [ "$status" -ne 1 ] || ! grep -q '^no reply from the controller: ' "$work/err"; then fault "$trouble: status $status, $(cat "$work/err")"; fi
  done
  for TOOL_TROUBLES in cut=4 long=40 other=30 garbage=50 die=4 dead=20 refuse=ff,2 refuse=d4,40,44 refuse=ff,90 'say=Error: no | session'; do
    never_fine $dialect check --tries 1
  done
done
never_fine --ipmitool -H web17,web18 check

# Where one request in seven is busy, each part of an inventory has retries. The 256 bytes of device 0 are 14 parts, and there is a request
# for their size, so two requests are busy. The text has all fields, as the bytes of the image say, which are ASCII.
fields_of() {
  python3 - "$1" << 'END'
import sys
inventory = bytes.fromhex("".join(line.split()[2] for line in open(sys.argv[1], encoding="ascii") if line.startswith("fru 00 ")))
for area, first in ((2, 3), (3, 6), (4, 3)):
    at = inventory[area] * 8 + first
    while inventory[at] != 0xC1:
        after = at + 1 + (inventory[at] & 0x3F)
        print(inventory[at + 1 : after].decode("ascii"))
        at = after
END
}
fields_of "$TOOL_IMAGE" | grep . > "$work/fields"
for dialect in --ipmitool --freeipmi; do
  opening=0
  if [ $dialect = --ipmitool ]; then opening=1; fi
  TOOL_TROUBLES='busy=7'
  : > "$TOOL_LOG"
  says 0 '' $dialect -- --part 19 --tries 1 fru print 0
  sent=$(wc -l < "$TOOL_LOG")
  if [ "$sent" -ne $((opening + 17)) ]; then fault "$dialect, parts of a busy controller: $sent requests"; fi
  sed -n 's/^\(Chassis\|Board\|Product\) .*: //p' "$work/out" > "$work/printed"
  while read -r field; do
    grep -qxF -- "$field" "$work/printed" || fault "$dialect, parts of a busy controller: no $field"
  done < "$work/fields"
  same $dialect --part 19 --tries 1 fru print 0
  for command in fru 'fru list' 'fru --json'; do
    # shellcheck disable=SC2086  # the words of a command
    "$SERDIMKO" --image "$TOOL_IMAGE" $command > "$work/wanted"
    # shellcheck disable=SC2086
    live $dialect -- --records "$TOOL_IMAGE" --part 19 --tries 1 $command
    if [ "$status" -ne 0 ] || ! cmp -s "$work/wanted" "$work/out"; then fault "$dialect $command, parts of a busy controller: $(cat "$work/err")"; fi
  done
done
TOOL_TROUBLES=

# A machine that dies costs `--tries` + 1 requests, and Get Device ID.
for dialect in --ipmitool --freeipmi; do
  silence='ipmi_cmd_raw: session timeout'
  opening=0
  if [ $dialect = --ipmitool ]; then
    silence='Unable to send RAW command (channel=0x0 netfn=0x6 lun=0x0 cmd=0x1)'
    opening=1
  fi
  for answered in 0 1 3 40; do
    TOOL_TROUBLES=dead=$((answered + 1))
    : > "$TOOL_LOG"
    says 1 "no reply from the controller: $silence" $dialect -- --tries 2 capture -o "$work/dead"
    sent=$(wc -l < "$TOOL_LOG")
    if [ "$sent" -ne $((opening + answered + 4)) ]; then fault "$dialect, $TOOL_TROUBLES: $sent requests"; fi
    if [ "$(tail -n 1 "$TOOL_LOG")" != '0 06 01 ' ]; then fault "$dialect, $TOOL_TROUBLES: last $(tail -n 1 "$TOOL_LOG")"; fi
    if [ -e "$work/dead" ]; then fault "$dialect, $TOOL_TROUBLES: a file"; fi
  done
done
TOOL_TROUBLES=

# With the records of an image, a listing of sensors takes a request for the info and one for each of the 46 readings. An image with
# another time of the last erasure is not used, which is said. A file that is no image ends the run before the first request.
sed 's/^\(info sdr .\{20\}\)f1/\1f2/' "$TOOL_IMAGE" > "$work/older"
for dialect in --ipmitool --freeipmi; do
  # ipmitool also sends a Get Device ID on each of the three units
  opening=0
  if [ $dialect = --ipmitool ]; then opening=3; fi
  for command in sensor 'sdr elist' 'sel elist last 5' 'fru list' 'sdr list --json'; do
    # shellcheck disable=SC2086  # the words of a command
    "$SERDIMKO" --image "$TOOL_IMAGE" $command > "$work/wanted"
    # shellcheck disable=SC2086
    live $dialect -- --records "$TOOL_IMAGE" $command
    if [ "$status" -ne 0 ] || ! cmp -s "$work/wanted" "$work/out"; then fault "$dialect --records $command: $status, $(cat "$work/err")"; fi
  done
  : > "$TOOL_LOG"
  live $dialect -- --records "$TOOL_IMAGE" sensor
  sent=$(wc -l < "$TOOL_LOG")
  if [ "$sent" -ne $((opening + 47)) ]; then fault "$dialect --records: $sent requests"; fi
  says 0 "$work/older lacks sensor data records, or its info is not that of the controller: they are read from there" $dialect -- --records "$work/older" sdr hex
  "$SERDIMKO" --image "$TOOL_IMAGE" sdr hex | cmp -s - "$work/out" || fault "$dialect --records, an older image: differs"
  : > "$TOOL_LOG"
  says 3 "cannot read $work/none: no such file" $dialect -- --records "$work/none" sdr hex
  if [ -s "$TOOL_LOG" ]; then fault "$dialect --records, no file: sent $(cat "$TOOL_LOG")"; fi
done

# A warning of ipmitool as it opens its session is not taken for a reply.
TOOL_TROUBLES=$'warn=Unable to Get Channel Cipher Suites\n'
same --ipmitool sdr list
TOOL_TROUBLES=

# A capture must have the contents of the image from which the controller answers. Both are compared in the canonical spelling; the order
# of readings has no meaning.
in_order() {
  "$SERDIMKO" --image "$1" image rewrite > "$work/spelled" 2> "$work/message"
  grep -v '^reading ' "$work/spelled"
  grep '^reading ' "$work/spelled" | sort
}
in_order "$TOOL_IMAGE" > "$work/one"
captured() {
  local what=$1 file=$2
  in_order "$file" > "$work/other"
  cmp -s "$work/one" "$work/other" || fault "$what: the image differs: $(cat "$work/message" "$work/err") $(diff "$work/one" "$work/other" | head -n 3)"
}
for dialect in --ipmitool --freeipmi; do
  for TOOL_TROUBLES in '' 'cancel=13|grant=7' 'most=9' 'busy=50' 'silent=50' 'unreserved=1'; do
    live $dialect -- capture
    if [ "$status" -ne 0 ]; then fault "$dialect capture ($TOOL_TROUBLES): status $status"; fi
    captured "$dialect capture ($TOOL_TROUBLES)" "$work/out"
  done
  # to a file: in one step, and only if the connection was not lost
  TOOL_TROUBLES=
  live $dialect -- capture -o "$work/saved" --quiet
  if [ "$status" -ne 0 ] || [ -s "$work/out" ]; then fault "$dialect capture -o: status $status"; fi
  captured "$dialect capture -o" "$work/saved"
  echo before > "$work/saved"
  for TOOL_TROUBLES in 'die=9' 'garbage=130' 'cut=100'; do
    live $dialect -- capture -o "$work/saved"
    if [ "$status" -ne 1 ] || [ "$(cat "$work/saved")" != before ] || [ -e "$work/saved.part" ]; then
      fault "$dialect capture -o ($TOOL_TROUBLES): status $status, $(head -n 1 "$work/saved")"
    fi
  done
  # Without the fourth record and those after it the image is partial. The file is no image before.
  TOOL_TROUBLES='refuse=ff,6,7'
  says 1 'sdr: record 0004h refused with code FFh' $dialect -- --part 254 capture
  cp "$work/out" "$work/partial"
  says 1 'sdr: record 0004h refused with code FFh' $dialect -- --part 254 capture -o "$work/saved"
  cmp -s "$work/partial" "$work/saved" || fault "$dialect capture -o, partial: $(head -n 2 "$work/saved")"
  if [ "$(head -n 2 "$work/saved")" != $'ipmi-image 3\nlacks sdr 0004 ff' ]; then fault "$dialect, partial: $(head -n 2 "$work/saved")"; fi
  # a listing of the records ends where one is lacking, and one of the log is as over the machine
  "$SERDIMKO" --image "$work/saved" sdr hex > "$work/out" 2> "$work/err"
  if [ $? -ne 1 ] || [ "$(cat "$work/err")" != 'record 0004h refused with code FFh' ]; then fault "$dialect, partial sdr: $(cat "$work/err")"; fi
  "$SERDIMKO" --image "$TOOL_IMAGE" sdr hex | head -n 3 | cmp -s - "$work/out" || fault "$dialect, partial sdr: $(cat "$work/out")"
  "$SERDIMKO" --image "$work/saved" sel list > "$work/out" || fault "$dialect, partial sel: status $?"
  "$SERDIMKO" --image "$TOOL_IMAGE" sel list | cmp -s - "$work/out" || fault "$dialect, partial sel: differs"
  "$SERDIMKO" --image "$work/saved" image rewrite | cmp -s - "$work/saved" || fault "$dialect, partial: another spelling"
  # so ends a command that needs a record after that one, or an inventory that one may name
  for command in 'sdr elist' 'sel elist' 'fru list' 'sensor get CPU1' 'fru print 200'; do
    # shellcheck disable=SC2086  # the words of a command
    "$SERDIMKO" --image "$work/saved" $command > "$work/out" 2> "$work/err"
    if [ $? -ne 1 ] || ! grep -q 'refused with code FFh' "$work/err"; then fault "$dialect, partial $command: $(cat "$work/err")"; fi
  done
  # a whole image stays, but with --partial
  TOOL_TROUBLES=
  says 0 "$work/saved lacks sensor data records, or its info is not that of the controller: they are read from there" \
    $dialect -- --records "$work/saved" sdr hex
  "$SERDIMKO" --image "$TOOL_IMAGE" sdr hex | cmp -s - "$work/out" || fault "$dialect, --records of a partial image: differs"
  live $dialect -- capture -o "$work/saved"
  captured "$dialect capture -o after a partial image" "$work/saved"
  cp "$work/saved" "$work/whole"
  TOOL_TROUBLES='refuse=ff,6,7'
  says 1 "sdr: record 0004h refused with code FFh
$work/saved stays as it is, since this image is not whole: --partial replaces it" $dialect -- --part 254 capture -o "$work/saved"
  cmp -s "$work/whole" "$work/saved" || fault "$dialect capture -o: a whole image is gone"
  says 1 'sdr: record 0004h refused with code FFh' $dialect -- --part 254 capture --partial -o "$work/saved"
  cmp -s "$work/partial" "$work/saved" || fault "$dialect capture --partial -o: $(head -n 2 "$work/saved")"
done
TOOL_TROUBLES=
# It sends no more requests than necessary: one reservation for each shelf, and a refused request only once.
: > "$TOOL_LOG"
live --freeipmi -- --part 254 capture
if [ "$(grep -c -E '^0 0a (22|42)' "$TOOL_LOG")" -ne 2 ]; then fault 'capture: reservations'; fi
says 2 "--strict does not go with 'capture'" -- --strict capture
says 2 "unexpected word 'all' with 'capture'" -- capture all
says 2 "--output does not go with 'sdr'" -- -o x sdr

# A listing of sensors makes a request for a reservation, one for each of the 56 records, and one for each of the 46 readings.
: > "$TOOL_LOG"
live --freeipmi -- sensor
if [ "$(wc -l < "$TOOL_LOG")" -ne 103 ]; then fault "sensor: $(wc -l < "$TOOL_LOG") requests"; fi
# From a controller that gives at most 33 bytes, the 47 records of 38 bytes or more take a request more, and the first request is refused.
# If the refusal doesn't say that the request was too long, each header takes one request, and what follows it one for 32 bytes.
for trouble in most=33:151 most=33,ff:207; do
  TOOL_TROUBLES=${trouble%:*}
  : > "$TOOL_LOG"
  live --freeipmi -- sensor
  if [ "$(wc -l < "$TOOL_LOG")" -ne "${trouble#*:}" ]; then fault "sensor, $trouble: $(wc -l < "$TOOL_LOG") requests"; fi
done
TOOL_TROUBLES=

# ipmitool has one session for each unit used.
: > "$TOOL_LOG"
live --ipmitool -- sdr list all
if [ "$(cut -d ' ' -f 1 "$TOOL_LOG" | sort -u | tr '\n' ' ')" != '0 1 3 ' ]; then fault 'units'; fi
# A listing needs only one reservation.
if [ "$(grep -c '^0 0a 22' "$TOOL_LOG")" -ne 1 ]; then fault 'reservations'; fi

# `sensor get` finds all names in one walk: ten names take no more requests than a line for each sensor.
: > "$TOOL_LOG"
live --freeipmi -- sensor
if [ "$status" -ne 0 ]; then fault "sensor: status $status"; fi
requests=$(wc -l < "$TOOL_LOG")
mapfile -t names < <("$SERDIMKO" --image "$TOOL_IMAGE" sensor | cut -d '|' -f 1 | sed 's/ *$//' | head -n 10)
: > "$TOOL_LOG"
live --freeipmi -- sensor get "${names[@]}"
if [ "$status" -ne 0 ]; then fault "sensor get: status $status, $(cat "$work/err")"; fi
if [ "$(wc -l < "$TOOL_LOG")" -gt "$requests" ]; then fault "sensor get: $(wc -l < "$TOOL_LOG") requests, and $requests of all sensors"; fi
"$SERDIMKO" --image "$TOOL_IMAGE" sensor get "${names[@]}" > "$work/other"
cmp -s "$work/out" "$work/other" || fault 'sensor get: the blocks differ from those of the image'

# The last events take one walk, as all events do.
for command in list elist; do
  : > "$TOOL_LOG"
  live --freeipmi -- sel $command
  requests=$(wc -l < "$TOOL_LOG")
  : > "$TOOL_LOG"
  live --freeipmi -- sel $command last 5
  asked=$(wc -l < "$TOOL_LOG")
  if [ "$status" -ne 0 ] || [ "$asked" -ne "$requests" ]; then fault "sel $command last 5: status $status, $asked requests, and $requests of all events"; fi
done

# The newest events need no walk of the log: a request for its info, one for a reservation, and one for each of them. With the records of
# an image, the names take one more, for the info of these.
for count in 1 5; do
  : > "$TOOL_LOG"
  live --freeipmi -- --records "$TOOL_IMAGE" sel tail $count
  asked=$(wc -l < "$TOOL_LOG")
  "$SERDIMKO" --image "$TOOL_IMAGE" sel elist last $count > "$work/other"
  if [ "$status" -ne 0 ] || [ "$asked" -ne $((count + 3)) ]; then fault "sel tail $count: status $status, $asked requests"; fi
  cmp -s "$work/out" "$work/other" || fault "sel tail $count: the events differ from those of the image"
done

# A wrong command line starts no session, and is reported.
says 2 "unknown command 'srd': did you mean 'sdr'?" -- srd
says 2 '--image does not go with a live controller' -- --image x sdr
says 2 "'image rewrite' needs a saved image: write serdimko --image FILE image rewrite" -- image rewrite
says 2 'live: a command is missing, as in: live -I open sdr list' -I open
says 2 'live: a command is missing, as in: live -I open sdr list' -I sdr -vU sel -fcapture
says 2 'live: a command is missing, as in: live -I open sdr list' --freeipmi --password-prompt --host sdr -W sel --session-timeout 5
says 2 'live: all users would see the password of -P: use -E with IPMI_PASSWORD, or -f FILE' -P secret -- sdr
says 2 'live: all users would see the key of -k or -y: use -K with IPMI_KGKEY, or -Y' -k secret -- sdr
says 2 'live: all users would see the password of -p: use -P, or --config-file=FILE' --freeipmi -psecret -- sdr
says 2 'live: all users would see the password of -p: use -P, or --config-file=FILE' --freeipmi --password=secret -- sdr
says 2 'live: all users would see the key of -k: use -K, or --config-file=FILE' --freeipmi --k-g=secret -- sdr
says 2 'live: all users would see the password of -P: use -E with IPMI_PASSWORD, or -f FILE' -vPsecret sdr
for host in 'node[1-5]' a,b '[1-5]' '[::1],b' '[fe80::1]:623,c'; do
  says 2 "live: '$host' names several hosts: give one host" -H "$host" sdr
  says 2 "live: '$host' names several hosts: give one host" --freeipmi "-h$host" sdr
  says 2 "live: '$host' names several hosts: give one host" --freeipmi "--hostname=$host" -- sdr
done
for seconds in '' 0 -1 1.5 07 x; do
  says 2 "live: --deadline needs a number of seconds, not '$seconds'" --deadline "$seconds" sdr
  says 2 "live: --deadline needs a number of seconds, not '$seconds'" "--deadline=$seconds" -- sdr
done
live --help
if [ "$status" -ne 0 ] || ! grep -q '^usage: live ' "$work/out"; then fault '--help'; fi

# The words before a command are the tool's, whatever the values of its options are.
printf '#!/bin/sh\necho "$@" > "$TOOL_WORDS"\nexec "%s" "$@"\n' "$PWD/tests/live/tool.py" > "$work/tool"
chmod 755 "$work/tool"
export TOOL_WORDS=$work/words
"$SERDIMKO" --image "$TOOL_IMAGE" sel info > "$work/wanted"
given() {
  local wanted=$1
  shift
  IPMITOOL=$work/tool IPMI_RAW=$work/tool live "$@"
  if [ "$status" -ne 0 ] || ! cmp -s "$work/wanted" "$work/out"; then fault "$*: status $status, $(cat "$work/err")"; fi
  if [ "$(cat "$TOOL_WORDS")" != "$wanted" ]; then fault "$*: the tool is given $(cat "$TOOL_WORDS")"; fi
}
given '-N 2 -R 2 -l 0 exec /dev/stdin' sel info
given '-N 2 -R 2 -I open -l 0 exec /dev/stdin' --deadline 60 --ipmitool -I open sel info
given '-N 2 -R 2 -H [::1] -U sel -vf fru -vvUsdr -N 5 -l 0 exec /dev/stdin' -H '[::1]' -U sel --deadline=60 -vf fru -vvUsdr -N 5 sel info
given '-N 2 -R 2 -E -f -- -l 0 exec /dev/stdin' -E -f -- -- --part 20 sel info
given '-N 2 -R 2 new -l 0 exec /dev/stdin' new -- sel info
given '--session-timeout=4000 --retransmission-timeout=1000' --freeipmi sel info
given '--session-timeout=4000 --retransmission-timeout=1000 -P --user sel -h sdr --debug' -P --freeipmi --user sel -h sdr --debug sel info
given '--session-timeout=4000 --retransmission-timeout=1000 --hostname [::1]:623 -usel' --freeipmi --hostname '[::1]:623' --deadline 60 -usel -- sel info
live sensor get --strict -- 'CPU1 Temp'
if [ "$status" -ne 0 ]; then fault "-- in the program's words: status $status, $(cat "$work/err")"; fi
# Its list of commands is that of the program.
known=$(sed -n "s/^commands='\(.*\)'$/\1/p" scripts/live | tr ' ' '\n' | sort)
if [ -z "$known" ] || [ "$known" != "$("$SERDIMKO" help | sed -n '/^Commands/,/^$/s/^  \([a-z]*\).*/\1/p' | sort -u)" ]; then
  fault "its commands are" "$known"
fi

# The time is over, for the tool, the program and the file.
for dialect in --ipmitool --freeipmi; do
  TOOL_TROUBLES='hold=10' TOOL_HELD=$work/held IPMITOOL=$PWD/tests/live/tool.py IPMI_RAW=$PWD/tests/live/tool.py says 1 'live: there: no time left: --deadline 1' \
    $dialect -H there -h there --deadline 1 capture -o "$work/timed"
  if [ -e "$work/timed" ] || [ -e "$work/timed.part" ]; then fault 'a deadline: a file'; fi
  TOOL_TROUBLES='hold=10' TOOL_HELD=$work/held IPMITOOL=$PWD/tests/live/tool.py IPMI_RAW=$PWD/tests/live/tool.py never_fine \
    $dialect -H there -h there --deadline 1 check
  if [ "$(cat "$work/out")" != 'IPMI UNKNOWN - there: no time left: --deadline 1' ]; then fault "a deadline of a check: $(cat "$work/out")"; fi
done

# Its standard input is the program's.
printf '#!/bin/sh\ncat\n' > "$work/program"
chmod 755 "$work/program"
if [ "$(echo words | SERDIMKO=$work/program scripts/live sdr)" != words ]; then fault 'no standard input'; fi
if ! scripts/live sel info <&- | cmp -s - "$work/wanted"; then fault 'a closed standard input'; fi

# A file that can't be written: one line, at once if its folder can't be, and nothing is left.
says 4 "live: cannot write $work/none/image" capture -o "$work/none/image"
ln -s /dev/full "$work/full.part"
says 4 "cannot write $work/full" capture "--output=$work/full"
if [ -e "$work/full" ] || [ -L "$work/full.part" ]; then fault 'a full disk: a file is left'; fi
scripts/live capture > /dev/full 2> "$work/err"
if [ $? -ne 4 ] || [ "$(cat "$work/err")" != 'write fault' ]; then fault "a full disk: $(cat "$work/err")"; fi
TMPDIR=$work/none scripts/live capture -o "$work/image" > /dev/null 2> "$work/err"
status=$?
if [ "$status" -ne 1 ] || [ "$(cat "$work/err")" != "live: no room in $work/none" ] || [ -e "$work/image.part" ]; then fault "no TMPDIR: $status, $(cat "$work/err")"; fi
# A check says so on standard output.
TMPDIR=$work/none scripts/live check > "$work/out"
status=$?
if [ "$status" -ne 3 ] || [ "$(cat "$work/out")" != "IPMI UNKNOWN - no room in $work/none" ]; then fault "no TMPDIR for a check: $status, $(cat "$work/out")"; fi
SERDIMKO=$work/none scripts/live check > "$work/out" 2> /dev/null
status=$?
if [ "$status" -ne 3 ] || [ "$(cat "$work/out")" != "IPMI UNKNOWN - cannot run $work/none" ]; then fault "no program for a check: $status, $(cat "$work/out")"; fi
# Of two captures into a file one is refused.
(
  exec 9>> "$work/image.part"
  flock 9
  says 4 "live: cannot write $work/image: another run does" capture "-o$work/image"
  [ -e "$work/image.part" ] || fault 'two captures: the file of the first is gone'
  exit $failed
) || failed=1
live capture "-o$work/image"
if [ "$status" -ne 0 ] || [ -e "$work/image.part" ]; then fault "after another capture: $(cat "$work/err")"; fi

# A tool that does not exist.
IPMITOOL=$work/none
live -- sdr list
if [ "$status" -ne 1 ] || ! grep -q '^no reply from the controller: .*none' "$work/err"; then fault "no tool: status $status, $(cat "$work/err")"; fi
IPMITOOL=$PWD/tests/live/recorder

# The reader of the output may close it early.
scripts/live -- sdr list all 2> "$work/err" | true
if [ "${PIPESTATUS[0]}" -ne 141 ] || [ -s "$work/err" ]; then fault 'closed output'; fi

# Files in place of pipes, or no files.
mkdir "$work/plain"
says_of() {
  "$SERDIMKO" --live "$1" sdr list > "$work/out" 2> "$work/err"
  status=$?
  if [ "$status" -ne "$2" ] || [ "$(cat "$work/err")" != "$3" ]; then fault "--live $1: status $status, $(cat "$work/err")"; fi
}
says_of "ipmitool:$work/plain" 2 "--live: cannot open the pipes in '$work/plain': use serdimko-live"
touch "$work/plain/requests.0" "$work/plain/replies.0"
says_of "ipmitool:$work/plain" 1 'no reply from the controller: the tool said nothing'
says_of "$work/plain" 2 "--live '$work/plain' is not TOOL:FOLDER, which serdimko-live gives"

# When ended by a signal, it leaves no process and no folder. A shell makes its background processes ignore SIGINT.
for signal in INT TERM HUP; do
  TOOL_TROUBLES='silent=1' python3 -c '
import os, signal, sys
signal.signal(signal.SIGINT, signal.SIG_DFL)
os.setsid()
os.execvp(sys.argv[1], sys.argv[1:])' scripts/live -- --tries 255 sdr list > /dev/null 2>&1 &
  session=$!
  # the group is there when python3 has begun it, which takes time on a machine with load
  for _ in {1..100}; do
    if pgrep -g "$session" > /dev/null; then break; fi
    sleep 0.1
  done
  sleep 0.7
  kill "-$signal" -- "-$session" 2> /dev/null
  wait "$session" 2> /dev/null
  status=$?
  if [ $status -lt 128 ]; then fault "$signal: status $status"; fi
  for _ in 1 2 3 4 5 6 7 8 9 10; do
    if [ -z "$(ls -A "$TMPDIR")" ] && ! pgrep -g "$session" > /dev/null; then break; fi
    sleep 0.2
  done
  if [ -n "$(ls -A "$TMPDIR")" ]; then fault "$signal: left $(ls -A "$TMPDIR")"; rm -rf "${TMPDIR:?}"/*; fi
  if pgrep -g "$session" > /dev/null; then fault "$signal: left processes"; pkill -KILL -g "$session"; fi
done

# In all these runs each tool was sent only requests that read.
count=$(tests/live/sent.py "$TOOL_SENT" 2>&1) || fault "sent: $count"
if ! [ "$count" -gt 1000 ]; then fault "sent: only $count requests are kept"; fi
exit $failed
