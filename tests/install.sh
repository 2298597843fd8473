#!/usr/bin/env bash
# Tests `make install` and `make uninstall` in a copy of the files that they read, with a stub in place of the program. They install and
# remove the right files, build nothing, write nothing outside their folder, and need no toolchain. Also tests which files and which
# lines of crates.txt cause a program to be rebuilt.
# shellcheck disable=SC2016  # the backquotes in single quotes belong to a message
set -uo pipefail
cd "$(dirname "$0")/.." || exit 1
# The settings of a `make` that runs this test are not for the ones in it.
unset MAKEFLAGS MFLAGS MAKEOVERRIDES MAKELEVEL DESTDIR PREFIX
work=$(mktemp -d)
trap 'rm -rf "$work"' EXIT
chmod 755 "$work"
tree=$work/tree
to="$work/a destination"
failed=0

mkdir -p "$tree" "$work/bin"
cp -r Makefile VERSION docs completions scripts examples "$tree"
# Two programs over two libraries, with the tests of one of them.
cat > "$tree/crates.txt" << 'END'
# a comment
low: hex
high: low
serdimko: high
ipmitool: low

low_tests: low
END
for file in low/src/lib high/src/lib serdimko/src/main ipmitool/src/main low_tests/src/lib; do
  mkdir -p "$tree/crates/${file%/*}"
  touch "$tree/crates/$file.rt"
done
# A toolchain that leaves a trace if it is called.
printf '#!/bin/sh\npwd > "%s"\n' "$work/called" > "$work/bin/rt"
chmod 755 "$work/bin/rt"
PATH=$work/bin:$PATH

fault() {
  failed=1
  echo "$@"
}

run_make() {
  (cd "$tree" && make "$@") > "$work/out" 2> "$work/err"
}

# Prints the files below the destination, with their permissions.
files() {
  (cd "$to" 2> /dev/null && find . ! -type d -printf '%m %P\n' | LC_ALL=C sort -k 2)
}

expect_files() {
  local what=$1 wanted=$2
  if [ "$(files)" != "$wanted" ]; then fault "$what: the files are" "$(files)"; fi
}

state() {
  (cd "$tree" && find . -printf '%p %m %s %T@\n' | sort)
}

# If nothing is built: one line, which says what to do first.
if run_make install DESTDIR="$to"; then fault 'without a program: status 0'; fi
if [ "$(cat "$work/out" "$work/err" | wc -l)" -ne 1 ] || ! grep -q 'not built: run `make build` first' "$work/err"; then
  fault 'without a program:' "$(cat "$work/out" "$work/err")"
fi
expect_files 'without a program' ''

# If the program is older than its source, it is still only copied.
mkdir "$tree/crates/serdimko/out"
program=$tree/crates/serdimko/out/serdimko
printf '#!/bin/sh\necho stub\n' > "$program"
chmod 755 "$program"
touch -d '2001-01-01' "$program"
before=$(state)

(umask 077 && run_make install DESTDIR="$to") || fault 'install:' "$(cat "$work/err")"
expect_files 'install' '755 usr/local/bin/serdimko
755 usr/local/bin/serdimko-live
644 usr/local/share/bash-completion/completions/serdimko
644 usr/local/share/bash-completion/completions/serdimko-live
644 usr/local/share/man/man1/serdimko-live.1
644 usr/local/share/man/man1/serdimko.1
644 usr/local/share/zsh/site-functions/_serdimko
644 usr/local/share/zsh/site-functions/_serdimko-live'
if find "$to" -type d ! -perm 755 | grep .; then fault 'under umask 077 a folder is not readable by all'; fi
cmp "$program" "$to/usr/local/bin/serdimko" || fault 'the installed program differs'
cmp scripts/live "$to/usr/local/bin/serdimko-live" || fault 'the installed script differs'
for page in serdimko serdimko-live; do
  cmp "docs/$page.1" "$to/usr/local/share/man/man1/$page.1" || fault "the installed page $page differs"
done

# A second install changes nothing. An install with another name and another folder adds to it.
chmod 700 "$to/usr/local/bin"
run_make install DESTDIR="$to" || fault 'install again:' "$(cat "$work/err")"
[ "$(stat -c %a "$to/usr/local/bin")" = 700 ] || fault 'install again: it changed the permissions of an existing folder'
installed=$(files)
echo 'of others' > "$to/usr/local/bin/ipmitool.old"
run_make install DESTDIR="$to" PREFIX=/elsewhere NAME=ipmitool || fault 'install NAME=ipmitool:' "$(cat "$work/err")"
expect_files 'install NAME=ipmitool' "755 elsewhere/bin/ipmitool
755 elsewhere/bin/ipmitool-live
644 elsewhere/share/bash-completion/completions/ipmitool
644 elsewhere/share/bash-completion/completions/ipmitool-live
644 elsewhere/share/man/man1/ipmitool-live.1
644 elsewhere/share/man/man1/ipmitool.1
644 elsewhere/share/zsh/site-functions/_ipmitool
644 elsewhere/share/zsh/site-functions/_ipmitool-live
$(stat -c '%a' "$to/usr/local/bin/ipmitool.old") usr/local/bin/ipmitool.old
$installed"
if grep -rI serdimko "$to/elsewhere"; then fault 'NAME=ipmitool: a file still has the original name'; fi
grep -qx '.TH ipmitool 1 .*' "$to/elsewhere/share/man/man1/ipmitool.1" || fault 'NAME=ipmitool: the head of the page'
grep -qx '.TH ipmitool-live 1 .*' "$to/elsewhere/share/man/man1/ipmitool-live.1" || fault 'NAME=ipmitool: the page of live'
grep -qx 'complete -F _ipmitool ipmitool' "$to/elsewhere/share/bash-completion/completions/ipmitool" || fault 'NAME=ipmitool: bash'
grep -qx '#compdef ipmitool' "$to/elsewhere/share/zsh/site-functions/_ipmitool" || fault 'NAME=ipmitool: zsh'
grep -qx 'complete -F _ipmitool_live ipmitool-live' "$to/elsewhere/share/bash-completion/completions/ipmitool-live" ||
  fault 'NAME=ipmitool: bash of live'
grep -qx '#compdef ipmitool-live' "$to/elsewhere/share/zsh/site-functions/_ipmitool-live" || fault 'NAME=ipmitool: zsh of live'
# the completion of live finds the other one beside it
bash -c '. "$0" && declare -F _ipmitool' "$to/elsewhere/share/bash-completion/completions/ipmitool-live" > "$work/out" ||
  fault 'NAME=ipmitool: the completion of live alone'

# Uninstall removes exactly the installed files.
run_make uninstall DESTDIR="$to" || fault 'uninstall:' "$(cat "$work/err")"
run_make uninstall DESTDIR="$to" || fault 'uninstall again:' "$(cat "$work/err")"
run_make uninstall DESTDIR="$to" PREFIX=/elsewhere NAME=ipmitool || fault 'uninstall NAME=ipmitool:' "$(cat "$work/err")"
expect_files 'uninstall' "$(stat -c '%a' "$to/usr/local/bin/ipmitool.old") usr/local/bin/ipmitool.old"
rm "$to/usr/local/bin/ipmitool.old"

# A dash in a name is a dash on the page too. A ~ in PREFIX that no shell expanded means the home folder.
run_make install HOME="$to/home" PREFIX='~/.local' NAME=fru-reader || fault 'install PREFIX=~:' "$(cat "$work/err")"
grep -qxF 'fru\-reader \- list what a server management controller holds, live or saved' "$to/home/.local/share/man/man1/fru-reader.1" ||
  fault 'NAME=fru-reader: the name on the page'
grep -qF 'fru\-reader\-live \-' "$to/home/.local/share/man/man1/fru-reader-live.1" || fault 'NAME=fru-reader: the page of live'
run_make uninstall HOME="$to/home" PREFIX='~/.local' NAME=fru-reader || fault 'uninstall PREFIX=~:' "$(cat "$work/err")"
expect_files 'a name with a dash' ''

# In /usr the completion for zsh goes where Debian's zsh looks, or where ZSH says.
for zsh in vendor-completions site-functions; do
  words=(DESTDIR="$to" PREFIX=/usr)
  [ $zsh = vendor-completions ] || words+=("ZSH=$zsh")
  run_make install "${words[@]}" || fault 'install PREFIX=/usr:' "$(cat "$work/err")"
  [ -f "$to/usr/share/zsh/$zsh/_serdimko" ] || fault "install ${words[*]}: no completion for zsh"
  run_make uninstall "${words[@]}" || fault 'uninstall PREFIX=/usr:' "$(cat "$work/err")"
  expect_files "uninstall ${words[*]}" ''
done

# An invalid file name is refused.
for name in '' a/b ../x 'a b' 'a&b' -x; do
  if run_make install DESTDIR="$to" NAME="$name" || run_make uninstall DESTDIR="$to" NAME="$name"; then fault "NAME='$name' is accepted"; fi
done
expect_files 'an invalid name' ''

# A user who may not write to the checkout can install too. Only root can become another user.
if [ "$(id -u)" -eq 0 ] && chroot --userspec=65534:65534 / true 2> /dev/null; then
  mkdir "$work/of nobody"
  chown 65534:65534 "$work/of nobody"
  to="$work/of nobody"
  chroot --userspec=65534:65534 / sh -c 'cd "$0" && make -s install DESTDIR="$1"' "$tree" "$to" 2> "$work/err" ||
    fault 'install as another user:' "$(cat "$work/err")"
  expect_files 'install as another user' "$installed"
fi

if [ "$(state)" != "$before" ]; then
  fault 'the checkout has changed'
  diff <(echo "$before") <(state)
fi
if [ -e "$work/called" ]; then fault 'the toolchain was called'; fi

# A program is rebuilt for its source, but not for a test, a must-fail edit or a document.
is_built() {
  run_make -q "${2:-build}" || fault "the program would be rebuilt for $1"
}
is_stale() {
  if run_make -q "${2:-build}"; then fault "the program would not be rebuilt for $1"; fi
}
touch "$program"
find "$tree/crates.txt" "$tree/crates" -name out -prune -o -type f -exec touch -d '2001-01-01' {} +
for file in low/must-fail/a.edit low/must-fail/a.rt low/must-fail/a.antt low_tests/src/lib.rt low/README.md; do
  mkdir -p "$tree/crates/${file%/*}"
  touch -d '+1 hour' "$tree/crates/$file"
done
is_built 'a test or a must-fail edit'
for file in serdimko/src/main.rt low/src/lib.rt high/specs/A.antt; do
  mkdir -p "$tree/crates/${file%/*}"
  touch -d '+1 hour' "$tree/crates/$file"
  is_stale "$file"
  touch -d '2001-01-01' "$tree/crates/$file"
done
is_built 'no file'

# If crates.txt has changed, only the lines that the program depends on count, once `make` has built it.
touch -d '+1 hour' "$tree/crates.txt"
is_stale 'crates.txt, as it was not built by make'
run_make build || fault 'build:' "$(cat "$work/err")"
[ "$(cat "$work/called")" = "$tree/crates/serdimko" ] || fault 'the program was built in another folder'
is_built 'no line'
echo 'theirs: low' >> "$tree/crates.txt"
touch -d '+1 hour' "$tree/crates.txt"
is_built 'the line of another crate'
run_make demo -n
if grep -q 'rt run' "$work/out"; then fault 'make demo would build for the line of another crate'; fi
sed -i 's/^low: hex/low: hex jiff/' "$tree/crates.txt"
is_stale 'a line of a library'
run_make build || fault 'build:' "$(cat "$work/err")"
is_built 'a line that it was built by'
# The other program is built by its name only, and depends on its own lines.
is_stale 'a program that is not there' crates/ipmitool/out/ipmitool
exit "$failed"
