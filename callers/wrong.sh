#!/usr/bin/env bash
# Compiles wrong.c with each mistake by itself, and requires that the compiler tells it, and that it tells nothing where there is none. As C and
# as C++, by the system's compilers, and by clang where it is installed.
set -euo pipefail
cd "$(dirname "${BASH_SOURCE[0]}")"

log=$(mktemp)
trap 'rm -f "$log"' EXIT

# Whether wrong.c compiles with these definitions and no diagnostic.
quiet() {
  $compiler -std="$standard" -Wall -Wextra -pedantic -Werror -O1 -I../include "$@" -c wrong.c -o /dev/null 2>"$log"
}

fail() {
  echo "FAILED $compiler $standard, $1"
  head -n 6 "$log"
  exit 1
}

# Each call, and the arrays of it that can be short.
calls="CHECK:SLOTS ZONE: STEP:SLOTS,ANSWER BATCH:SLOTS,ANSWER BATCH_FULL:ANSWER TABLE:SLOTS,WEIGHTS,ANSWER BRACKET:ANSWER
  PLOT:SLOTS,WEIGHTS,ANSWER,VALUES FILL_BOX_PLOT:SLOTS,WEIGHTS TABLE_REPORT:ANSWER MONITOR_REPORT:ANSWER SHIFT_WEIGHTS:WEIGHTS
  WEIGHTS_REPORT:ANSWER"

try() {
  compiler=$1
  standard=$2
  for entry in $calls; do
    call=${entry%%:*}
    quiet "-DCALL_$call" || fail "$call: it tells of a mistake where there is none"
    if [ "$call" != BATCH_FULL ]; then # what this one returns is no code
      if quiet "-DCALL_$call" -DIGNORED; then fail "$call: it does not tell of an ignored code"; fi
      grep -q -E 'unused-result|nodiscard' "$log" || fail "$call: it tells of something else than an ignored code"
    fi
    for array in $(tr , ' ' <<<"${entry#*:}"); do
      if quiet "-DCALL_$call" "-DSHORT_$array=1"; then fail "$call: it does not tell of a short array, $array"; fi
      grep -q -E 'stringop-over|array-bounds|fewer places' "$log" || fail "$call: it tells of something else than a short array, $array"
    done
  done
}

for family in "cc:c++ -x c++" "clang:clang++ -x c++"; do
  c=${family%%:*}
  cpp=${family#*:}
  if [ "$c" = clang ] && ! command -v clang++ >/dev/null; then
    echo "clang is not here: whether it tells of wrong calls was left out" >&2
    continue
  fi
  try "$c" c99
  try "$cpp" c++11
  try "$cpp" c++17
done
