#!/usr/bin/env bash
# Tests what the program reads: the file of `--image` or standard input, up to 64 MiB and no byte more, and nothing after a usage fault.
# Also tests a command line whose first word is empty, or with an argument that is not UTF-8, and that there is one message, after the
# last line.
set -uo pipefail
cd "$(dirname "$0")/.."
make -s crates/ipmitool/out/ipmitool || exit 1
program=$PWD/crates/ipmitool/out/ipmitool
work=$(mktemp -d)
trap 'rm -rf "$work"' EXIT
usage='usage: ipmitool [--image FILE] [--from HEX4] [--part N] [--tries N] fru|sdr|sel WORDS'
line='sdr 0001 ffff 010051c000'
failed=0

# Runs the command after the first three words, and checks its status, output and message.
expect() {
  local status=$1 out=$2 err=$3
  shift 3
  "$@" > "$work/out" 2> "$work/err"
  local got=$?
  if [ "$got" -ne "$status" ] || [ "$(cat "$work/out")" != "$out" ] || [ "$(cat "$work/err")" != "$err" ]; then
    failed=1
    echo "${*/$program/ipmitool}: status $got, $(head -c 200 "$work/out") $(head -c 200 "$work/err")"
  fi
}

# An image of 64 MiB: 13 + 25 + 12 + 10 * 6710881 + 4 bytes, mostly lines with one byte of an inventory.
{
  echo 'ipmi-image 1'
  echo "$line"
  echo 'fru fe 0000'
  for id in {0..102}; do
    hex=$(printf '%02x' "$id")
    yes "fru $hex 00" 2> /dev/null | head -n $((id < 102 ? 65535 : 26311))
  done
  echo 'end'
} > "$work/long"
if [ "$(wc -c < "$work/long")" -ne $((64 * 1024 * 1024)) ]; then
  echo "the long image has $(wc -c < "$work/long") bytes"
  exit 1
fi
expect 0 "$line" '' "$program" --image "$work/long" sdr hex < /dev/null
expect 0 "$line" '' "$program" < "$work/long"
echo >> "$work/long"
expect 3 '' "cannot read $work/long" "$program" --image "$work/long" < /dev/null
expect 3 '' 'cannot read standard input' "$program" sdr hex < "$work/long"

small=examples/three-rows.image
lines=$(grep '^sdr' "$small")
expect 0 "$lines" '' "$program" --image "$small" < /dev/null
expect 0 "$(tail -n 2 <<< "$lines")" '' "$program" sdr --from 0002 --image="$small" hex < /dev/null
expect 3 '' "cannot read $work/none" "$program" --image "$work/none" < "$small"
expect 3 '' "cannot read $work" "$program" --image "$work" < "$small"
expect 3 '' 'cannot read ' "$program" --image '' < "$small"
expect 3 '' "cannot read $work/a\\x0Ab\\x1B" "$program" --image "$work/a"$'\nb\e' < "$small"
expect 3 '' 'cannot read standard input' "$program" < "$work"

# After a usage fault nothing was read from standard input, and no file was opened.
expect 2 '' "$usage" "$program" sdr frob --image "$work/none" < "$small"
expect 2 "$(cat "$small")" "$usage" bash -c '"$0" sdr frob; status=$?; cat; exit $status' "$program" < "$small"

# Each command reads the image.
expect 3 '' "cannot read $work/none" "$program" fru --image "$work/none" < "$small"
expect 1 '' 'info not present' "$program" sel < "$small"

# An empty first word is the program's name too. An argument that is not UTF-8 is a usage fault.
expect 0 "$lines" '' bash -c 'exec -a "" "$0"' "$program" < "$small"
expect 0 "$lines" '' bash -c 'exec -a "" "$0" sdr hex' "$program" < "$small"
expect 2 '' "$usage" "$program" $'\xff' < "$small"
expect 2 '' "$usage" "$program" --image $'a\xff' < "$small"

# A write fault is reported once, whether it happens at the flush of a short output, or before the last line of a long one.
{
  echo 'ipmi-image 2'
  for id in {1..4000}; do printf 'sdr %04x - %02x%02x51c000\n' "$id" $((id % 256)) $((id / 256)); done
  echo 'end'
} > "$work/many"
expect 4 '' 'write fault' bash -c '"$0" < "$1" > /dev/full' "$program" "$small"
expect 4 '' 'write fault' bash -c '"$0" < "$1" > /dev/full' "$program" "$work/many"

# A message comes after the last line. If that cannot be flushed, only the write fault is reported.
printf '%s\n' 'ipmi-image 1' 'sdr 0001 0002 010051c000' 'end' > "$work/missing"
expect 1 $'sdr 0001 0002 010051c000\nrecord 0002h not present' '' bash -c '"$0" < "$1" 2>&1' "$program" "$work/missing"
expect 4 '' 'write fault' bash -c '"$0" < "$1" > /dev/full' "$program" "$work/missing"
exit "$failed"
