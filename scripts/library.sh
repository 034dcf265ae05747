#!/usr/bin/env bash
# Builds the proved library for callers in C and Rust, target/staticlib/libcapi.a, unless it is there already for these very crates.
#
#   scripts/library.sh            builds it where it is missing or made from other crates than these
#   scripts/library.sh --check    builds nothing: exits 0 where it is there for these crates, else says what is wrong and exits 1
set -euo pipefail
cd "$(dirname "${BASH_SOURCE[0]}")/.."

check=0
case "$#,${1:-}" in
  0,) ;;
  1,--check) check=1 ;;
  *)
    echo "usage: library.sh [--check]" >&2
    exit 1
    ;;
esac

made=target/staticlib
sum=$(find crates.txt crates -path 'crates/*/out' -prune -o -type f -print0 | LC_ALL=C sort -z | xargs -0 sha256sum | sha256sum)
why=
if ! [ -f "$made/libcapi.a" ]; then
  why="is missing"
elif ! [ -f "$made/sum" ]; then
  why="was not built to its end"
elif [ "$(cat "$made/sum")" != "$sum" ]; then
  why="was built from other crates than those that are here now"
else
  exit 0
fi
if [ "$check" = 1 ]; then
  echo "The library $made/libcapi.a $why: run 'bash scripts/library.sh' at the root of the repository." >&2
  exit 1
fi

mkdir -p "$made"
rm -f "$made/sum"
if ! (cd crates/capi_c && rt lib) >target/staticlib.log 2>&1; then
  cat target/staticlib.log
  exit 1
fi
cp crates/capi_c/out/libcapi_c.a "$made/libcapi.a"
printf '%s\n' "$sum" >"$made/sum"
