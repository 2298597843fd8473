#!/usr/bin/env bash
# Tests that serdimko prints what the specified program, ipmitool of this repository, prints for each command line that it accepts.
# tests/serdimko/same_as_ipmitool.py has the lines, and says in which messages the two may differ.
# `tests/same_as_ipmitool.sh SERDIMKO IPMITOOL` compares these two. Without arguments, those of this repository are built first.
set -uo pipefail
if [ $# -gt 0 ]; then
  serdimko=$(realpath "$1")
  ipmitool=$(realpath "$2")
  cd "$(dirname "$0")/.." || exit 1
else
  cd "$(dirname "$0")/.." || exit 1
  make -s build || exit 1
  serdimko=$PWD/crates/serdimko/out/serdimko
  ipmitool=$PWD/crates/ipmitool/out/ipmitool
fi
for program in "$serdimko" "$ipmitool"; do
  if [ ! -x "$program" ]; then
    echo "$program: no such program"
    exit 1
  fi
done
exec python3 tests/serdimko/same_as_ipmitool.py "$serdimko" "$ipmitool"
