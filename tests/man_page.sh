#!/usr/bin/env bash
# Checks that the man page and the completions agree with README.md and docs/. On the page: commands, options with their numbers, statuses
# with their messages, the lines of an image and their faults, and each word that the definitions print in a column. In both completions:
# each option, and which words may follow which. The completion for bash is also run; the one for zsh is only read. groff must not warn
# about the pages.
# shellcheck disable=SC2016  # the backquotes in single quotes belong to Markdown
set -uo pipefail
cd "$(dirname "$0")/.." || exit 1
page=docs/serdimko.1
failed=0

# Checks that two lists are equal in any order. Otherwise prints what only one of them has.
same() {
  local what=$1 wanted=$2 got=$3 differ
  if [ -z "$wanted" ]; then
    failed=1
    echo "$what: not found"
  elif ! differ=$(diff <(sort -u <<< "$wanted") <(sort -u <<< "$got")); then
    failed=1
    echo "$what differ (<: only in README.md or docs/, >: only there)"
    grep '^[<>]' <<< "$differ"
  fi
}

# Prints the rows of the first table whose head begins with this cell, with a tab between cells. The file is README.md by default.
table() {
  awk -v head="| $1 |" '
    index($0, head) == 1 { on = 1; getline; next }
    on && !/^\|/ { exit }
    on { gsub(/\\\|/, "\001"); sub(/^\| /, ""); sub(/ \|$/, ""); gsub(/ \| /, "\t"); gsub(/\001/, "|"); print }
  ' "${2:-README.md}"
}

# Prints each text between backquotes on a line.
quoted() {
  grep -o '`[^`]*`' | sed -E 's/^` *//; s/ *`$//'
}

# Prints the paragraphs with a head in a section of the page: the head, a tab and the text. Several heads of one text are separate lines.
paragraphs() {
  awk -v section=".SH $1" '
    function flush(  i) { for (i = 1; i <= heads; i++) print head[i] "\t" text; heads = 0; text = "" }
    /^\.(SH|TP|PP|RS|RE)/ { flush() }
    /^\.SH / { on = $0 == section }
    /^\.T[PQ]$/ { next_is_head = on; next }
    {
      sub(/^\.[A-Z]+ ?/, ""); gsub(/\\f[A-Z]|[\\"]/, ""); gsub(/ +/, " "); sub(/ $/, ""); gsub(/ ,/, ",")
      if (next_is_head) { head[++heads] = $0; next_is_head = 0 } else if (heads) text = text " " $0
    }
    END { flush() }
  ' "$page"
}

heads() {
  paragraphs "$1" | cut -f 1
}

# Prints each head with the numbers in its text, in order.
numbers() {
  local head text
  while IFS=$'\t' read -r head text; do
    echo "$head:" "$(grep -oE '[0-9]+' <<< "$text" | tr '\n' ' ')"
  done
}

commands=$(table words | cut -f 1 | quoted)
options=$(table option | cut -f 1 | tr -d '`')
same 'the commands of the page' "$commands" "$(heads COMMANDS)"
same 'the options of the page' "$options" "$(heads OPTIONS)"
same 'the numbers of the options of the page' "$(table option | tr -d '`' | numbers)" "$(paragraphs OPTIONS | numbers)"

# Each status with its messages. For 2 and 3, only the status.
statuses=$({
  table status docs/messages.md | grep -v '^[23]'
  table 'status | message of `serdimko`' docs/messages.md
} | while IFS=$'\t' read -r status message _; do
  echo "$status"
  quoted <<< "$message" | sed "s/^/$status: /"
done)
same 'the statuses of the page' "$statuses" "$(heads 'EXIT STATUS' | awk '/^[0-9]+$/ { status = $0; print; next } { print status ": " $0 }')"
same 'the lines and faults of an image on the page' "$({ table line docs/image.md | grep HEX; table 'fault of a line' docs/messages.md; } | cut -f 1 | quoted)" "$(heads IMAGE)"

# The kinds, and the ranges next to them.
prose=$(awk '/^KIND is / { on = 1 } on && /^$/ { exit } on' README.md | tr '\n' ' ')
page_prose=$(awk '/^\.I KIND$/ { on = 1 } /^\.SH / { on = 0 } on && !/^\.PP/ { sub(/^\.[A-Z]+ /, ""); gsub(/[",]/, ""); print }' "$page" | tr '\n' ' ')
kinds=$(sed -E 's/\..*//' <<< "$prose" | quoted)
same 'the kinds of the page' "$kinds" "$(sed -E 's/^ *KIND is //; s/ *\..*//; s/ or / /' <<< "$page_prose" | tr -s ' ' '\n')"
same 'the ranges of the page' "$(echo "ranges: $prose" | tr ':' '\t' | numbers)" "$(echo "ranges: $page_prose" | tr ':' '\t' | numbers)"

# Which word may follow which words, according to the commands of README.md: a line `WORDS: WORD` each. Names and numbers are left out.
follows=$(while read -r command; do
  case $command in
    'help COMMAND') awk '$1 != "help" { print "help " $1 }' <<< "$commands" ;;
    *' KIND') for kind in $kinds; do echo "${command/KIND/$kind}"; done ;;
    *) sed -E 's/ [A-Z]+$//' <<< "$command" ;;
  esac
done <<< "$commands" | awk '{ before = ""; for (i = 1; i <= NF; i++) { print before ": " $i; before = before (i > 1 ? " " : "") $i } }')

# The same from the table of a completion.
table_of_words() {
  sed -nE "s/^ *'([^']*)'\) next='([^']*)' ;;\$/\1:\2/p" "$1" | while IFS=: read -r before words; do
    for word in $words; do echo "$before: $word"; done
  done
}

# groff must print nothing.
for file in "$page" docs/serdimko-live.1; do
  said=$(man --warnings -E UTF-8 -l -Tutf8 -Z "$file" 2>&1 > /dev/null)
  if [ -n "$said" ]; then
    failed=1
    echo "$file: $said"
  fi
done

# The words that the definitions print in the columns of a sensor data record, in an event and as a time.
printed=$({
  sed 's/^ *--.*//' crates/ipmi_records/specs/Columns.antt crates/ipmi_text/specs/Times.antt crates/ipmi_text/specs/Events.antt \
    crates/ipmi_events/specs/{SensorLines,States,Status,Shown,Discrete}.antt
  grep '^severity_word' crates/ipmi_events/specs/Severity.antt
} | grep -oE 'codes "[a-z][^"]*"' | sed -E 's/codes "//; s/ ?"$//' | grep -E '[a-z]')
shown=$(sed -E 's/^\.[A-Z]+ ?//; s/\\f[A-Z]|[\\"]//g; s/ +/ /g' "$page")
if [ "$(wc -l <<< "$printed")" -lt 20 ]; then
  failed=1
  echo "words of columns: only $(wc -l <<< "$printed")"
fi
while IFS= read -r words; do
  if ! grep -qE "(^|[^a-z])$words($|[^a-z])" <<< "$shown"; then
    failed=1
    echo "the page does not have: $words"
  fi
done <<< "$printed"

names=$(grep -oE -- '(^|, )--?[A-Za-z]+(-[a-z]+)*' <<< "$options" | sed 's/^, //')
long_names=$(grep '^--' <<< "$names")
for completion in completions/serdimko.bash completions/_serdimko; do
  same "the words of $completion" "$follows" "$(table_of_words "$completion")"
  same "the options of $completion" "$long_names" "$(grep -v '^ *#' "$completion" | grep -oE -- '--[a-z]+(-[a-z]+)*')"
done
same 'the options for zsh' "$names" "$(sed -nE "s/^ *'(--?[A-Za-z-]+):.*/\1/p" completions/_serdimko)"
if command -v zsh > /dev/null && ! zsh -n completions/_serdimko; then failed=1; fi

# Prints the offers of the completion for bash at the last of the words, or `files` if it leaves the word to bash's file names.
# shellcheck source=completions/serdimko.bash
source completions/serdimko.bash
compopt() { [ "$*" = '-o default' ] && echo files; }
offers() {
  COMP_WORDS=(serdimko "$@")
  COMP_CWORD=$#
  _serdimko
  [ "${#COMPREPLY[@]}" -eq 0 ] || printf '%s\n' "${COMPREPLY[@]}"
}
expect() {
  local wanted=$1
  shift
  if [ "$(offers "$@" | sort | tr '\n' ' ' | sed 's/ $//')" != "$wanted" ]; then
    failed=1
    echo "bash completes '$*' by: $(offers "$@" | tr '\n' ' ')"
  fi
}
run=$(cut -d : -f 1 <<< "$follows" | sort -u | while read -r before; do
  # shellcheck disable=SC2086
  offers $before '' | sed "s/^/$before: /"
done)
same 'the words that bash offers' "$follows" "$run"
same 'the options that bash offers' "$names" "$(offers -)"
expect files --image ''
expect files sdr --image = exa
expect list sdr --image = examples/server.image li
expect list sdr --image examples/server.image --part 4 li
expect '' --part ''
expect '' sel get --id ''
expect '' --label ''
expect 'critical warning' --worse ''
expect critical sel list --worse c
expect '--label' --json --label a=b --la
expect '--exclude' --exclude Fan1 --ex
expect '--csv --cursor-file --entity --exclude --help --id --image --json --label --live --now --openmetrics --output --partial --perfdata --quiet --records --separator --since --tries --type --until --version --worse' --strict --from=0001 --part 4 --image = x --
expect 'list' --strict -h sdr li
expect '' -- --
expect 'sdr sel sensor' -- s
expect '' sdr get ''
expect '' sdr info ''

# The completions of serdimko-live know the commands, and which options of the tools have a value, as the script does.
letters=$(grep -oE 'letters=[A-Za-z]+' scripts/live | cut -d = -f 2)
first=$(sed -n "s/^commands='\(.*\)'$/\1/p" scripts/live | tr ' ' '\n')
for completion in completions/serdimko-live.bash completions/_serdimko-live; do
  same "the options of the tools in $completion" "$letters" "$(grep -oE 'values=[A-Za-z]+' "$completion" | cut -d = -f 2)"
  same "the commands of $completion" "$first" "$(grep -oE '\(([a-z-]+\|)+help\)' "$completion" | tr -d '()' | tr '|' '\n' | grep -v '^--$')"
done
same 'the options of the page of serdimko-live' "$(scripts/live --help | grep -oE -- '--(ipmitool|freeipmi|deadline)')" \
  "$(page=docs/serdimko-live.1 heads OPTIONS | grep -oE -- '--[a-z]+')"
if command -v zsh > /dev/null && ! zsh -n completions/_serdimko-live; then failed=1; fi
# shellcheck source=completions/serdimko-live.bash
source completions/serdimko-live.bash
offers() {
  COMP_WORDS=(serdimko-live "$@")
  COMP_CWORD=$#
  _serdimko_live
  [ "${#COMPREPLY[@]}" -eq 0 ] || printf '%s\n' "${COMPREPLY[@]}"
}
expect 'capture check fru help metrics sdr sel sensor' ''
expect '--deadline --freeipmi --help --ipmitool' -
expect 'sdr sel sensor' -I open -H sdr -v s
expect 'capture check fru help metrics sdr sel sensor' -Hsdr ''
expect '' --deadline ''
expect files -vf ''
expect 'list' -I open -U sel sel li
expect 'list' -I open -- sdr li
expect '--tries' -I open -- --tr
expect files -U sel capture --output ''
expect files --freeipmi -u ''
expect 'sel sensor' --freeipmi -P se
exit "$failed"
