#!/usr/bin/env bash
# Tests that a check is not OK and no WARNING over a machine with a critical sensor when requests fail. One failure is left out: a
# reading refused with CBh, CCh, CDh or D5h, by which a controller says that there is none. Then the line must count the sensor, and the
# check may be OK. The seeds draw none of these codes for that reading. tests/live/checks.py plays the machine, in each dialect, and refuses, cancels, leaves without an answer or cuts each request in turn, every second one, and those
# of 1,000 seeds. The check is CRITICAL if the whole reading of that sensor was sent, and otherwise UNKNOWN. Takes half a minute.
# `tests/check.sh PROGRAM` tests that program. Without an argument, the one of this repository is built first.
set -uo pipefail
if [ $# -gt 0 ]; then
  SERDIMKO=$(realpath "$1")
  cd "$(dirname "$0")/.." || exit 1
else
  cd "$(dirname "$0")/.." || exit 1
  make -s build || exit 1
  SERDIMKO=$PWD/crates/serdimko/out/serdimko
fi
export SERDIMKO
unset CHECK_CASE TOOL_TROUBLES
failed=0

# Over the machine of examples/server.image without troubles.
for dialect in --ipmitool --freeipmi; do
  said=$(IPMITOOL=$PWD/tests/live/tool.py IPMI_RAW=$PWD/tests/live/tool.py TOOL_IMAGE=$PWD/examples/server.image scripts/live $dialect check)
  status=$?
  for line in 'PSU2 State0 (Presence detected, Power Supply input lost (AC/DC))' 'Chassis Intr (General Chassis Intrusion)'; do
    if [ $status -ne 2 ] || ! grep -qxF "critical: $line" <<< "$said"; then
      failed=1
      echo "tests/check.sh: $dialect: status $status, without $line: $said"
    fi
  done
done

tests/live/checks.py "$SERDIMKO" || failed=1
exit $failed
