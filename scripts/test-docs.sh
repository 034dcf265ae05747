#!/usr/bin/env bash
# Compares docs/ARCHITECTURE.md with docs/SPECIFICATION.md and the crates: every numbered sentence is mapped, every path, definition, law, function
# and edit that is named exists, and a name with a file of definitions behind it stands in that file.
set -euo pipefail
cd "$(dirname "$0")/.."

map=docs/ARCHITECTURE.md
failed=0

# Every sentence, `**x.y**` in the specification, is in the first column of a table: alone, in a list (`3.1, 3.2`) or in a range (`5.2 to 5.5`).
mapped=$(grep -E '^\| [0-9]+\.[0-9]+' "$map" | sed -E 's/^\| (([0-9]+\.[0-9]+(, | to )?)+).*/\1/' | awk '
  { n = split($0, part, ", ")
    for (i = 1; i <= n; i++)
      if (split(part[i], end, " to ") == 2) {
        split(end[1], a, "."); split(end[2], b, ".")
        for (k = a[2]; k <= b[2]; k++) print a[1] "." k
      } else { gsub(/ /, "", part[i]); print part[i] } }')
sentences=$(grep -oE '^- \*\*[0-9]+\.[0-9]+\*\*' docs/SPECIFICATION.md | tr -d '* -')
for sentence in $sentences; do
  if ! grep -qxF "$sentence" <<<"$mapped"; then
    echo "FAILED sentence $sentence of the specification is not mapped"
    failed=1
  fi
done

# Every name in backticks, without arguments: a path that exists, or a word of the crates.
words=$(mktemp)
trap 'rm -f "$words"' EXIT
{
  find crates -name out -prune -o -type f \( -name '*.antt' -o -name '*.rt' \) -exec grep -hoE "[A-Za-z0-9_'-]+" {} +
  find crates -name out -prune -o -printf '%f\n'
  find crates -name out -prune -o \( -name '*.edit' -o -name '*.antt' \) -printf '%f\n' | sed -E 's/\.(edit|antt)$//'
} | LC_ALL=C sort -u >"$words"
# The path of a name: the letters R, M, L .. stand for the folders that the map gives them.
path_of() {
  local whole
  whole=$(tr '\n' ' ' <"$map" | grep -oE "\`${1%%/*}\` is \`crates/[a-z_]+/specs\`" | head -n 1 | sed -E 's/.* is `(.*)`/\1/' || true)
  if [ -z "$whole" ]; then
    echo "$1"
  elif [ -e "$whole/${1#*/}" ] || [ ! -e "${whole%/specs}/proofs/${1#*/}" ]; then
    echo "$whole/${1#*/}"
  else
    # laws and claims that rest on a definition which an edit changes
    echo "${whole%/specs}/proofs/${1#*/}"
  fi
}

# X stands for any name.
while read -r name; do
  case $name in
    X.antt | XLaws.antt) ;;
    */* | *.md | *.sh)
      name=$(path_of "$name")
      compgen -G "$name" >/dev/null || compgen -G "docs/$name" >/dev/null || { echo "FAILED no such path: $name"; failed=1; } ;;
    *)
      last=${name##*::}
      grep -qxF -- "$last" "$words" || { echo "FAILED no such name: $name"; failed=1; } ;;
  esac
done < <(tr '\n' ' ' <"$map" | sed -E 's/```[^`]*```//g' | grep -oE '`[^`]+`' | tr -d '`' | grep -E "^[A-Za-z][A-Za-z0-9_':./*-]*$" | sort -u)

# Every name right before its file, `name` (`file`), or its files: it stands in one of them.
while read -r group; do
  files=()
  for file in $(grep -oE '`[^` ]+\.antt`' <<<"$group" | tr -d '`'); do
    case $file in
      */*) files+=("$(path_of "$file")") ;;
      *) mapfile -t -O "${#files[@]}" files < <(find crates -path "*/specs/$file" -o -path "crates/*/proofs/$file") ;;
    esac
  done
  for name in $(grep -oE '`[^` ]+`' <<<"$group" | tr -d '`' | grep -vE '\.antt$'); do
    grep -qhE -- "(^|[^A-Za-z0-9_'′-])${name//./\\.}([^A-Za-z0-9_'′-]|$)" "${files[@]}" || { echo "FAILED $name is not in ${files[*]}"; failed=1; }
  done
done < <(tr '\n' ' ' <"$map" | grep -oE '(`[A-Za-z][^` /]*`(,| and)? )+(\(|of |in )`[^` ]+\.antt`(, `[^` ]+\.antt`)*')

if [ "$failed" -eq 0 ]; then
  echo "documents: $(wc -w <<<"$sentences") sentences mapped, every name exists, and stands in the file beside it"
fi
exit "$failed"
