#!/usr/bin/env bash
# The exact chance of a signal by period n, from an output of runs_table: scripts/bounds.sh FILE n
#
# Prints one line, `at least L and less than U`, with L rounded down and U rounded up to six places. All sums are of whole numbers. Where the
# file is a refusal or no whole output, or has no row n, it says so on standard error and exits 1.
set -euo pipefail
export LC_ALL=C

fail() { echo "bounds.sh: $*" >&2; exit 1; }

[ $# = 2 ] || fail "usage: bounds.sh FILE n"
file=$1 n=$2
[[ $n =~ ^[1-9][0-9]{0,8}$ ]] || fail "n must be a whole number from 1 on, and is '$n'"
if ! [ -f "$file" ] || ! [ -r "$file" ]; then fail "$file: no such file, or it cannot be read"; fi
command -v bc >/dev/null || fail "bc is missing (Debian: apt-get update && apt-get install -y bc)"

# The states and the row's `by`, once every line of the file is seen to be one of a whole output.
ends=0
if [ -z "$(tail -c 1 "$file" | tr -d '\n')" ]; then ends=1; fi
found=$(awk -F, -v file="$file" -v n="$n" -v ends="$ends" '
  function bad(why) { print "bounds.sh: " file ": " why > "/dev/stderr"; failed = 1; exit 1 }
  function broken() { bad("no whole output of runs_table: line " NR " is not the one expected") }
  BEGIN { split("5 25 50 75 95", percent, " ") }
  NR == 1 && /^refused,[0-9]+,[0-9]+$/ { bad("runs_table refused the text (" $0 "), so there is no table") }
  NR == 1 { if ($0 !~ /^standings,[1-9][0-9]*$/ || $2 > 1024) broken(); states = $2; next }
  NR == 2 { if ($0 != "n,chance,by,left") broken(); next }
  !mean && /^[1-9][0-9]*,[0-9]+,[0-9]+,[0-9]+$/ {
    if ($1 != NR - 2 || length($3) > 19) broken()
    horizon = $1
    if ($1 == n) by = $3
    next
  }
  !mean && horizon && /^arl,[0-9]+,[0-9]+,[0-9]+$/ { mean = 1; next }
  mean && q < 5 && $1 == "q" && $2 == percent[q + 1] && /^q,[0-9]+,(at,[0-9]+|between,[0-9]+,[0-9]+|open,[0-9]+|beyond,[0-9]+)$/ { q++; next }
  { broken() }
  END {
    if (failed) exit 1
    if (NR == 0) bad("no whole output of runs_table: the file is empty")
    if (q != 5) bad("no whole output of runs_table: it ends at line " NR)
    if (!ends) bad("no whole output of runs_table: its last line has no end")
    if (n > horizon + 0) bad("the table ends at period " horizon ", so it has no row " n)
    print states, by
  }' "$file") || exit 1
read -r states by <<<"$found"

# Millionths: by / 2^60 rounded down, and (by + n * (N + 1)) / 2^60 rounded up.
{ read -r low; read -r high; } < <(bc <<END
scale = 0
10^6 * $by / 2^60
(10^6 * ($by + $n * ($states + 1)) + 2^60 - 1) / 2^60
END
)
places() { printf '%d.%06d' $(($1 / 1000000)) $(($1 % 1000000)); }
if [ "$high" -gt 1000000 ]; then
  echo "at least $(places "$low") and at most 1"
else
  echo "at least $(places "$low") and less than $(places "$high")"
fi
