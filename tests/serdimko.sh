#!/usr/bin/env bash
# Tests serdimko on unusual command lines, tests/serdimko/lines, and on unusual inputs and outputs, tests/serdimko/inputs.
# `tests/serdimko.sh PROGRAM` tests that program. Without an argument, the one of this repository is built first.
#
# A case in these files is a line that bash runs, with columns below it. It ends with an empty line.
#   status N     the expected status; with pipes, that of the last command that failed
#   err TEXT     the next whole line of standard error; without any, standard error is empty
#   says TEXT    in place of err: a line of standard error contains this
#   out TEXT     the next whole line of standard output; without any, standard output is empty
#   out ...      more output may follow
#   has TEXT     in place of out: a line of standard output contains this
#   unless TEST  the case is skipped if this test succeeds
# Lines that begin with # are comments. Expected output comes from the manual, never from the program's own output.
set -uo pipefail
if [ $# -gt 0 ]; then
  program=$(realpath "$1")
  cd "$(dirname "$0")/.." || exit 1
else
  cd "$(dirname "$0")/.." || exit 1
  make -s build || exit 1
  program=$PWD/crates/serdimko/out/serdimko
fi
if [ ! -x "$program" ]; then
  echo "$program: no such program"
  exit 1
fi
tests=$PWD/tests/serdimko
work=$(mktemp -d)
trap 'rm -rf "$work"' EXIT
failed=0
told=

# The version is that of the file VERSION, and the program names the logic of the toolchain in which it is proved.
version=$("$program" --version)
if [ "$version" != "serdimko $(cat VERSION)
proved with Rattle, $(rt version | grep -o 'logic.*')" ]; then
  echo "--version: $version"
  exit 1
fi

# ---- the folder in which the lines are run

mkdir "$work/bin" "$work/files"
ln -s "$program" "$work/bin/serdimko"
# A command whose standard input is a terminal at which nobody types.
cat > "$work/bin/on_terminal" << 'END'
#!/usr/bin/env python3
import os, subprocess, sys
keyboard, terminal = os.openpty()
sys.exit(subprocess.call(sys.argv[1:], stdin=terminal))
END
chmod +x "$work/bin/on_terminal"
cp examples/*.image "$tests"/images/*.image "$work/files" || exit 1
cd "$work/files" || exit 1
: > empty
gzip -k server.image
# An event of this moment.
printf 'ipmi-image 1\nsel 0001 ffff 010002%s200004010401575250\nend\n' \
  "$(printf %08x "$(date +%s)" | sed 's/\(..\)\(..\)\(..\)\(..\)/\4\3\2\1/')" > now.image
# python3 can write these two even if their programs are not installed.
python3 -c '
import bz2, lzma
image = open("server.image", "rb").read()
open("server.image.xz", "wb").write(lzma.compress(image))
open("server.image.bz2", "wb").write(bz2.compress(image))
'
for name in größe 'a file' $'a\nb'; do echo 'no image' > "$name"; done
printf 'ipmi-image 1\nend\n' > ./-
echo 'no image' > secret
chmod 000 secret
ln -s loop loop
# Sparse files of zeros: of 64 MiB, and of one byte more.
truncate -s $((64 * 1024 * 1024)) longest
truncate -s $((64 * 1024 * 1024 + 1)) too_long
# Its listing is longer than a pipe holds.
{
  echo 'ipmi-image 2'
  for id in {1..9999}; do printf 'sdr %04x - %02x%02x51c000\n' "$id" $((id % 256)) $((id / 256)); done
  echo 'end'
} > many.image

# ---- the cases

# Prints the expected and the actual value of a column; for the first one of a case, also its place and its line.
differs() {
  failed=1
  [ -n "$told" ] || printf '%s\n' "tests/serdimko/$file:$number: $line"
  told=yes
  printf '  expected %s\n  got %s\n' "$1" "$2"
}

# Checks that the stream consists of these lines, or that each of these texts is in one of its lines. With `more`, other lines may follow.
check_stream() {
  local name=$1 lines=$2 more=$3 texts=$4 got=$work/$1 text came
  came="$name: $(head -c 500 "$got" | tr -d '\0')"
  if [ -n "$texts" ]; then
    while IFS= read -r text; do
      grep -qF -- "$text" "$got" || differs "$name with: $text" "$came"
    done <<< "${texts%$'\n'}"
  elif [ -n "$more" ]; then
    head -c "$(printf %s "$lines" | wc -c)" "$got" | cmp -s - <(printf %s "$lines") ||
      differs "$name to begin with: ${lines%$'\n'}" "$came"
  else
    cmp -s "$got" <(printf %s "$lines") || differs "$name: ${lines%$'\n'}" "$came"
  fi
}

# Runs the case that was read, if there is one.
run_case() {
  local got told=
  [ -n "$line" ] || return
  if [ -z "$status" ]; then
    differs 'a status in its columns' 'none'
  elif [ -z "$unless" ] || ! bash -c "$unless"; then
    PATH=$work/bin:$PATH timeout 60 bash -o pipefail -c "$line" < /dev/null > "$work/out" 2> "$work/err"
    got=$?
    [ "$got" -eq "$status" ] || differs "status $status" "status $got"
    check_stream err "$err" '' "$says"
    check_stream out "$out" "$more" "$has"
  fi
}

for file in lines inputs; do
  number=0
  at=0
  line=
  # The empty line after the last one ends the last case.
  while IFS= read -r text; do
    at=$((at + 1))
    case $text in
      '#'*) ;;
      '') run_case; line= ;;
      *)
        if [ -z "$line" ]; then
          line=$text number=$at status='' err='' says='' out='' more='' has='' unless=''
          continue
        fi
        value=${text#* }
        [ "$value" != "$text" ] || value=
        case ${text%% *} in
          status) status=$value ;;
          err) err+=$value$'\n' ;;
          says) says+=$value$'\n' ;;
          out) if [ "$value" = ... ]; then more=yes; else out+=$value$'\n'; fi ;;
          has) has+=$value$'\n' ;;
          unless) unless=$value ;;
          *) differs 'a column' "$text" ;;
        esac
        ;;
    esac
  done < <(cat "$tests/$file" && echo)
done
exit "$failed"
