#!/usr/bin/env bash
# Checks that each bold name in docs/definitions.md is defined in the file linked after it.
set -uo pipefail
cd "$(dirname "$0")/.." || exit 1
# shellcheck disable=SC2016
quoted='`[A-Za-z_]+`'
failed=0
count=0
names=
while IFS= read -r token; do
  case $token in
    '**'*) names=$(grep -oE "$quoted" <<< "$token" | tr -d '`') ;;
    *)
      file=${token#../}
      for name in $names; do
        count=$((count + 1))
        if ! grep -qE "^[a-z ]*pub (record |data )?$name( |\$)" "$file"; then
          failed=1
          echo "docs/definitions.md: $file does not define $name"
        fi
      done
      names=
      ;;
  esac
done < <(tr '\n' ' ' < docs/definitions.md | grep -oE '\*\*[^*]*\*\*|\.\./crates/[^)]*')
if [ "$count" -lt 25 ]; then
  failed=1
  echo "docs/definitions.md: only $count names"
fi
exit "$failed"
