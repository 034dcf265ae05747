#!/usr/bin/env bash
# Runs every command of the README as a new user would, in a fresh clone, and compares what is printed where the README shows it: a block
# marked sh is run, and a block marked text right behind it is what it must print on standard output. Not run are the package installs and the
# test command, and without gnuplot the pictures; it says so.
set -euo pipefail
cd "$(dirname "$0")/.."

place=$(mktemp -d)
trap 'rm -rf "$place"' EXIT
# A clone; or, where git does not trust the folder, its files as they are.
if ! git clone --quiet . "$place/clone" 2>/dev/null; then
  mkdir "$place/clone"
  tar -c --exclude=target --exclude=.git . | tar -x -C "$place/clone"
fi
# What is already proved here need not be proved again there.
if [ -d target ]; then cp -a target "$place/clone/target"; fi
cd "$place/clone"

# Block i is in the files i.sh and, where its output is shown, i.text.
awk -v place="$place" '
  /^```sh$/ { n++; out = place "/" n ".sh"; last = "sh"; next }
  /^```text$/ { if (last == "sh") out = place "/" n ".text"; else { print "a text block with no command before it: line " NR; exit 1 } last = "text"; next }
  /^```/ { if (out) close(out); out = ""; next }
  out { print > out }
  END { print n > (place "/count") }' README.md

count=$(cat "$place/count")
ran=0
for i in $(seq 1 "$count"); do
  block=$place/$i.sh
  grep -v -E '^(apt-get |bash test\.sh)' "$block" >"$place/run.sh" || continue
  if grep -q 'pictures/' "$place/run.sh" && ! command -v gnuplot >/dev/null; then
    echo "left out: block $i of the README draws a picture, and gnuplot is not here"
    continue
  fi
  if ! bash -euo pipefail "$place/run.sh" >"$place/got" 2>"$place/errors"; then
    echo "FAILED, block $i of the README:"
    cat "$block" "$place/errors"
    tail -n 20 "$place/got"
    exit 1
  fi
  if [ -f "$place/$i.text" ] && ! diff "$place/$i.text" "$place/got"; then
    echo "FAILED, block $i of the README prints something else:"
    cat "$block"
    exit 1
  fi
  ran=$((ran + 1))
done
echo "README: $ran of $count blocks of commands run in a fresh clone"
