#!/usr/bin/env bash
# Each line of tests/golden/commands is FILE, a status and words: over examples/server.image these print tests/golden/FILE.txt.
# What these files say comes from the standard and the definitions, never from what the program printed. Each command of README.md
# has a line if it prints something of an image. The examples of README.md are run too.
# `tests/golden.sh PROGRAM` tries that program; without a word the one of this repository is built first.
# shellcheck disable=SC2016  # backquotes in single quotes are those of Markdown
set -uo pipefail
[ $# -eq 0 ] || program=$(realpath "$1")
cd "$(dirname "$0")/.." || exit 1
[ $# -gt 0 ] || make -s build || exit 1
work=$(mktemp -d)
trap 'rm -rf "$work"' EXIT
ln -s "${program:-$PWD/crates/serdimko/out/serdimko}" "$work/serdimko"
failed=0

# What a command line prints, messages too, and its status.
run() {
  PATH=$work:$PATH bash -o pipefail -c "$1" < /dev/null 2>&1
  echo "status $?"
}

while read -r file status words; do
  diff -u --label "tests/golden/$file.txt" <(cat "tests/golden/$file.txt" && echo "status $status") \
    --label "serdimko $words" <(run "serdimko --image examples/server.image $words") || failed=1
done < tests/golden/commands

# An example is `$ `, its line and what that prints, to the end of its block.
awk '/^```/ { on = 0 } /^\$ serdimko / { on = any = 1 } on; END { if (!any) print "no example" }' README.md > "$work/examples"
grep '^\$ ' "$work/examples" | while IFS= read -r line; do
  echo "$line"
  run "${line#\$ }" | sed '/^status 0$/d'
done | diff -u --label README.md "$work/examples" --label 'the same, run' - || failed=1

# N is a number, and what stands for another argument is anything.
while read -r command; do
  pattern=$(sed -E 's/ N$/ [0-9]+/; s/ [A-Z]+$/ .+/' <<< "$command")
  cut -d ' ' -f 3- tests/golden/commands | grep -qxE -- "$pattern" || { echo "tests/golden/commands: no $command"; failed=1; }
done < <(sed '1,/^| words/d; /^$/,$d' README.md | cut -d '|' -f 2 | grep -o '`[^`]*`' | tr -d '`' | grep -vE '^(capture|help)')
exit "$failed"
