#!/usr/bin/env bash
# A record borrows from its cursor. A program that keeps a record over the cursor's next step must not compile, for that reason and no
# other. The same program must compile if it drops the record before the step.
set -uo pipefail
cd "$(dirname "$0")/.."
work=$(mktemp -d)
trap 'rm -rf "$work"' EXIT

mkdir -p "$work/crates/kept/src"
cp -r crates/ipmi_text crates/ipmi_bus crates/ipmi_image "$work/crates/"
rm -rf "$work"/crates/*/must-fail
grep -E '^(ipmi_text|ipmi_bus|ipmi_image):' crates.txt > "$work/crates.txt"
echo 'kept: ipmi_bus ipmi_image' >> "$work/crates.txt"
(cd "$work" && git init -q .)

program() {
  cat > "$work/crates/kept/src/main.rt" <<RATTLE
//! Takes two steps.
#![tactic(auto)]

use ipmi_bus::{Cursor, Shelf};
use ipmi_image::{Image, ImageController};

fn main(rt: HostRuntime) {
    let Ok(image) = Image::read(rt.alloc(), b"ipmi-image 1\nend\n") else {
        return;
    };
    let mut ctl = ImageController::new(image);
    let Ok(mut cursor) = Cursor::start(rt.alloc(), Shelf::Sdr, None, 32, 5) else {
        return;
    };
    let first = cursor.step(&mut ctl);
    $1
    let second = cursor.step(&mut ctl);
    $2
    let _ = second;
}
RATTLE
  (cd "$work/crates/kept" && rt try) > "$work/log" 2>&1
}

program 'let _ = first;' ''
if ! grep -q 'run=ended status=0' "$work/log"; then
  echo "a record dropped before the next step: does not run"
  tail -n 5 "$work/log"
  exit 1
fi
program '' 'let _ = first;'
if ! grep -qE 'error\[borrow-e0499\]' "$work/log" || [ "$(grep -cE '^[^ ]+: error' "$work/log")" -ne 1 ]; then
  echo "a record kept over the next step: no borrow error, or another error too"
  cat "$work/log"
  exit 1
fi
