#!/usr/bin/env bash
# Tries the edges of the three built programs: inputs and outputs that are closed, cannot be read, are full, are cut short or come in pieces;
# reads and writes that are interrupted, take a part or break off; texts of 65,536 bytes, of one more and of 100 MB; line ends and byte order
# marks; a text without points; the most points and the longest output; the weights of every shift as a table's. Then the scripts that read an
# output, look for commands and look for the library, good cases and bad ones. Each check compares standard output, standard error and the exit
# status, all three exactly, and prints a line with what it tried. The first difference ends the script with status 1.
# shellcheck disable=SC2094 # one pipe is opened for reading and for writing
set -euo pipefail
cd "$(dirname "${BASH_SOURCE[0]}")/.."
export LC_ALL=C

for name in runs_table runs_monitor runs_weights; do
  if [ ! -x "target/bin/$name" ]; then
    echo "target/bin/$name is missing: build it with 'bash scripts/programs.sh' at the root of the repository" >&2
    exit 1
  fi
done
work=$(mktemp -d)
trap 'rm -rf "$work"' EXIT
checks=0

# check WHAT STATUS OUT ERR: compares what is in the files out and err and in the variable status with what is wanted. OUT and ERR are lines
# without their last LF, nothing where nothing may be printed, or @FILE for a file's contents.
check() {
  local name wanted
  for name in out err; do
    if [ $name = out ]; then wanted=$3; else wanted=$4; fi
    case $wanted in
      @*) cp "${wanted#@}" "$work/wanted" ;;
      '') : >"$work/wanted" ;;
      *) printf '%s\n' "$wanted" >"$work/wanted" ;;
    esac
    if ! cmp -s "$work/$name" "$work/wanted"; then
      echo "FAILED $1: another std$name than wanted (< got, > wanted)"
      diff "$work/$name" "$work/wanted" | head -n 6 || true
      exit 1
    fi
  done
  if [ "$status" != "$2" ]; then
    echo "FAILED $1: exit status $status, not $2"
    exit 1
  fi
  echo "same   $1"
  checks=$((checks + 1))
}

# Runs a command with what is lent as standard input.
run() {
  status=0
  "$@" >"$work/out" 2>"$work/err" || status=$?
}

# Runs a command whose output goes where descriptor 4 goes.
run_to_4() {
  status=0
  : >"$work/out"
  "$@" >&4 2>"$work/err" || status=$?
}

# One byte, a pause, one byte, a pause.
drip() {
  local text i
  text=$(cat "$1" && echo .)
  text=${text%.}
  for ((i = 0; i < ${#text}; i++)); do
    printf '%s' "${text:i:1}"
    sleep 0.002
  done
}

# times N LINE ...: the lines, N times over.
times() {
  local i n=$1
  shift
  for ((i = 0; i < n; i++)); do printf '%s\n' "$@"; done
}

# The lines of points, each with its period behind it: the number of its node's lines up to it.
periods() {
  awk -F, '{ print $0 "," ++points[$2] }'
}

# bytes FILE LENGTH: fails unless the file has so many bytes.
bytes() {
  if [ "$(wc -c <"$1")" != "$2" ]; then
    echo "FAILED: the text $1 has $(wc -c <"$1") bytes, not $2"
    exit 1
  fi
}

mkfifo "$work/fifo"
cc -std=c99 -Wall -Wextra -Werror -O1 -shared -fPIC scripts/faults.c -o "$work/faults.so"
long=$work/long-output # an output of over 65,536 bytes; of the weights program, the one line that it prints
cat >"$work/long.runs_table" <<'END'
weights,2898884,22978326,145927014,366516130,366516130,145927014,22978326,0
rule,1,1,1
horizon,4096
END
{ printf 'chart,0,1\nrule,1,1,1\n' && times 6551 point,0,0; } >"$work/long.runs_monitor"
echo shift,-150 >"$work/long.runs_weights"
for name in runs_table runs_monitor runs_weights; do
  if ! "target/bin/$name" <"$work/long.$name" >"$long.$name"; then
    echo "FAILED $name: it did not end well on a long output"
    exit 1
  fi
done

for name in runs_table runs_monitor runs_weights; do
  program=target/bin/$name
  case $name in
    runs_table) text=examples/western-electric-short ;;
    runs_monitor) text=examples/monitor-shift ;;
    runs_weights) text=examples/shift-0.5 ;;
  esac
  half=$(($(wc -c <"$text.txt") / 2))

  # What is read.
  run "$program" <&-
  check "$name: closed input" 1 '' 'Error: standard input: Bad file descriptor (os error 9)'
  run "$program" <"$work"
  check "$name: a directory as input" 1 '' 'Error: standard input: Is a directory (os error 21)'
  exec 3<>"$work/fifo"
  dd iflag=nonblock count=0 status=none <&3
  run "$program" <&3
  exec 3<&-
  check "$name: a pipe that is empty and does not wait" 1 '' 'Error: standard input: Resource temporarily unavailable (os error 11)'
  run "$program" </dev/null
  check "$name: no text at all" 0 'refused,16,1' ''
  run "$program" < <(drip "crates/$name/stdin")
  check "$name: a text that comes one byte at a time" 0 "@crates/$name/stdout" ''
  run "$program" < <(head -c "$half" "$text.txt" && sleep 0.2 && tail -c "+$((half + 1))" "$text.txt")
  check "$name: a text that comes in two pieces" 0 "@$text.out" ''
  run "$program" < <(sed 's/$/\r/' "$text.txt")
  check "$name: lines that end in CR LF" 0 'refused,16,1' ''
  run "$program" < <(printf '\357\273\277' && cat "$text.txt")
  check "$name: a byte order mark first" 0 'refused,16,1' ''
  run "$program" < <(head -c -1 "$text.txt")
  check "$name: no LF at the end" 0 "refused,16,$(wc -l <"$text.txt")" ''

  # What is written.
  exec 3<>"$work/fifo" 4>"$work/fifo" 3>&-
  run_to_4 env --default-signal=PIPE "$program" <"$text.txt"
  check "$name: a closed pipe as output, SIGPIPE as usual" 1 '' 'Error: standard output: Broken pipe (os error 32)'
  run_to_4 env --ignore-signal=PIPE "$program" <"$text.txt"
  check "$name: a closed pipe as output, SIGPIPE ignored" 1 '' 'Error: standard output: Broken pipe (os error 32)'
  run_to_4 env --ignore-signal=PIPE "$program" </dev/null
  check "$name: a refusal into a closed pipe, SIGPIPE ignored" 1 '' 'Error: standard output: Broken pipe (os error 32)'
  exec 4>/dev/full
  run_to_4 "$program" <"$text.txt"
  check "$name: a full device as output" 1 '' 'Error: standard output: No space left on device (os error 28)'
  run_to_4 "$program" </dev/null
  check "$name: a refusal to a full device" 1 '' 'Error: standard output: No space left on device (os error 28)'
  exec 4>&-
  status=0
  : >"$work/out"
  "$program" <"$text.txt" 2>"$work/err" >&- || status=$?
  check "$name: closed output" 1 '' 'Error: standard output: Bad file descriptor (os error 9)'
  exec 3<>"$work/fifo" 4>"$work/fifo" 5<"$work/fifo" 3>&-
  dd oflag=nonblock count=0 status=none >&4 </dev/null
  # The one line of the weights program fills no pipe: zeros do, which are taken out again.
  if [ $name = runs_weights ]; then dd bs=4096 count=4096 status=none >&4 </dev/zero 2>"$work/err" || true; fi
  run_to_4 "$program" <"$work/long.$name"
  exec 4>&-
  if [ $name = runs_weights ]; then tr -d '\0' <&5 >"$work/out"; else cat <&5 >"$work/out"; fi
  exec 5<&-
  head -c "$(wc -c <"$work/out")" "$long.$name" >"$work/cut"
  check "$name: a pipe as output that is full and does not wait" 1 "@$work/cut" 'Error: standard output: Resource temporarily unavailable (os error 11)'
  if cmp -s "$work/cut" "$long.$name"; then
    echo "FAILED $name: the pipe took all that there was"
    exit 1
  fi
  status=0
  { "$program" <"$work/long.$name" 2>"$work/err" || status=$?; echo "$status" >"$work/status"; } | { sleep 0.2 && cat >"$work/out"; }
  status=$(cat "$work/status")
  check "$name: a reader that waits, with $(wc -c <"$long.$name") bytes to come" 0 "@$long.$name" ''

  run bash -c 'ulimit -S -s 1024 && exec "$0"' "$program" <"$work/long.$name"
  check "$name: the same with a stack of 1 MiB" 0 "@$long.$name" ''

  # Reads and writes that fail on the way: faults.c makes them.
  faulty() { FAULT=$1 LD_PRELOAD=$work/faults.so run "$program" <"$text.txt"; }
  faulty read-interrupted
  check "$name: interrupted reads" 0 "@$text.out" ''
  faulty read-never
  check "$name: reads that are interrupted without end" 1 '' 'Error: standard input: operation interrupted'
  faulty read-breaks-off
  check "$name: an input that breaks off behind a whole text" 1 '' 'Error: standard input: Input/output error (os error 5)'
  faulty write-interrupted
  check "$name: interrupted writes" 0 "@$text.out" ''
  faulty write-short
  check "$name: writes that take a part" 0 "@$text.out" ''
  faulty write-breaks-off
  head -c 7 "$text.out" >"$work/cut"
  check "$name: an output that breaks off" 1 "@$work/cut" 'Error: standard output: Input/output error (os error 5)'

  # Too much to read: the program stops at 65,537 bytes.
  run timeout 300 "$program" < <(yes point,0,50000 2>/dev/null | head -c 100000000 2>/dev/null)
  check "$name: 100 MB of text" 0 'refused,17,0' ''
  run timeout 300 "$program" < <(yes point,0,50000 2>/dev/null)
  check "$name: a text without end" 0 'refused,17,0' ''
done

# A text without points has no output. Only standard error tells it from a text that could not be read; nothing is written, so that an output
# which takes nothing is no error.
none=examples/monitor-no-points.txt
run target/bin/runs_monitor <"$none"
check "runs_monitor: a text without points" 0 '' ''
run target/bin/runs_monitor < <(head -c -1 "$none")
check "runs_monitor: a text without points and without its last LF" 0 "refused,16,$(wc -l <"$none")" ''
FAULT=read-interrupted LD_PRELOAD=$work/faults.so run target/bin/runs_monitor <"$none"
check "runs_monitor: a text without points, interrupted reads" 0 '' ''
FAULT=read-breaks-off LD_PRELOAD=$work/faults.so run target/bin/runs_monitor <"$none"
check "runs_monitor: a text without points whose input breaks off" 1 '' 'Error: standard input: Input/output error (os error 5)'
exec 4>/dev/full
run_to_4 target/bin/runs_monitor <"$none"
exec 4>&-
check "runs_monitor: a text without points, a full device as output" 0 '' ''
exec 3<>"$work/fifo" 4>"$work/fifo" 3>&-
run_to_4 env --default-signal=PIPE target/bin/runs_monitor <"$none"
exec 4>&-
check "runs_monitor: a text without points, a closed pipe as output" 0 '' ''

# The longest texts. For the monitor: Western Electric, sixteen nodes in turn and readings of five digits, the last six of six. A reading of
# 50,001 lies in C1, so each eighth of a node signals by rule 6, eight in a row above the centre; 150,000 lies in S and signals by rule 0.
western_electric='rule,1,1,1
rule,2,3,64
rule,2,3,2
rule,4,5,96
rule,4,5,6
rule,8,8,112
rule,8,8,14'
{
  printf 'chart,50000,400\n%s\n' "$western_electric"
  times 284 point,{0..15},50001
  times 1 point,{0,1},50001 point,{2..7},150000
} >"$work/monitor"
bytes "$work/monitor" 65536
# 284 = 35 times 8 and 4 more; then nodes 0 to 7 have a fifth.
{
  {
    times 35 quiet,{0..15},1 quiet,{0..15},2 quiet,{0..15},3 quiet,{0..15},4 quiet,{0..15},5 quiet,{0..15},6 quiet,{0..15},7 signal,{0..15},8,64
    times 1 quiet,{0..15},1 quiet,{0..15},2 quiet,{0..15},3 quiet,{0..15},4 quiet,{0,1},5 signal,{2..7},5,1
  } | periods
  times 1 total,{0,1},285,35 total,{2..7},285,36 total,{8..15},284,35
} >"$work/monitor.out"
run target/bin/runs_monitor <"$work/monitor"
check "runs_monitor: a text of 65,536 bytes, 4,552 points on sixteen nodes" 0 "@$work/monitor.out" ''
if [ "$(wc -l <"$work/out")" != $((4552 + 16)) ]; then
  echo "FAILED: another number of lines than one for each point and each node"
  exit 1
fi
sed '$s/150000/1500000/' "$work/monitor" >"$work/monitor-17"
bytes "$work/monitor-17" 65537
run target/bin/runs_monitor <"$work/monitor-17"
check "runs_monitor: a text of 65,537 bytes" 0 'refused,17,0' ''
sed '$s/7,150000/16,50000/' "$work/monitor" >"$work/monitor-19"
bytes "$work/monitor-19" 65536
run target/bin/runs_monitor <"$work/monitor-19"
check "runs_monitor: a text of 65,536 bytes with node 16 in its last line" 0 "refused,19,$((8 + 4552))" ''

# The most points that a text can have: 6,551, with nodes and readings of one digit and one short rule.
bytes "$work/long.runs_monitor" $((10 + 11 + 10 * 6551))
if [ "$(tail -n 1 "$long.runs_monitor")" != total,0,6551,0 ]; then
  echo "FAILED: 6,551 points end in $(tail -n 1 "$long.runs_monitor"), not in total,0,6551,0"
  exit 1
fi
run target/bin/runs_monitor <"$work/long.runs_monitor"
{ seq 6551 | sed 's/^/quiet,0,/' | periods && echo total,0,6551,0; } >"$work/quiet.out"
check "runs_monitor: 6,551 points, none with a signal" 0 "@$work/quiet.out" ''
run target/bin/runs_monitor < <(cat "$work/long.runs_monitor" && echo point,0,0)
check "runs_monitor: 6,552 points" 0 'refused,17,0' ''
sed 's/point,0,0/point,0,9/' "$work/long.runs_monitor" >"$work/nines"
run target/bin/runs_monitor <"$work/nines"
{ times 6551 signal,0,1,1 | periods && echo total,0,6551,6551; } >"$work/nines.out"
check "runs_monitor: 6,551 points, each with a signal" 0 "@$work/nines.out" ''

# Points on every node, and on six of them over 999, in turn, each with a signal by seven rules.
{
  times 1 chart,0,1 && times 7 rule,1,1,1
  times 1000 point,{0..5},9 && times 100 point,{6..9},9 && times 135 point,0,9
  times 1 point,{10..15},9 point,{10..12},9
} >"$work/nodes"
bytes "$work/nodes" 65536
{
  sed -n -E 's/^point,([0-9]+),9$/signal,\1,1,127/p' "$work/nodes" | periods
  times 1 total,0,1135,1135 total,{1..5},1000,1000 total,{6..9},100,100 total,{10..12},2,2 total,{13..15},1,1
} >"$work/nodes.out"
run target/bin/runs_monitor <"$work/nodes"
check "runs_monitor: sixteen nodes, six of them with over 999 points" 0 "@$work/nodes.out" ''

# The longest output. Each point signals by seven rules: a quiet line is shorter by two bytes even where its n has four digits, and a mask of
# three digits takes seven rules. All points are on node 0, so that most periods have four digits, but for one on each other node, which also
# prints that node's total. The bytes were computed for every number of rules and every number of points of each node; no other choice has more.
# Three bytes of text are left, too few for one more point.
{
  times 1 chart,0,1 && times 7 rule,1,1,1
  times 6529 point,0,9 && times 1 point,{1..15},9
} >"$work/longest"
bytes "$work/longest" $((65536 - 3))
{
  { times 6529 signal,0,1,127 && times 1 signal,{1..15},1,127; } | periods
  times 1 total,0,6529,6529 total,{1..15},1,1
} >"$work/longest.out"
bytes "$work/longest.out" 129938
run target/bin/runs_monitor <"$work/longest"
check "runs_monitor: the longest output, 129,938 bytes" 0 "@$work/longest.out" ''

# For the table: a text of this length can only have too many rules, or a line that is not one.
{
  echo weights,0,536870912,0,0,536870912,0,0,0
  times 5950 rule,2,2,2
  times 3 rule,2,2,64
  echo horizon,4
} >"$work/table"
bytes "$work/table" 65536
run target/bin/runs_table <"$work/table"
check "runs_table: a text of 65,536 bytes with 5,953 rules" 0 'refused,2,0' ''
sed '$s/4/48/' "$work/table" >"$work/table-17"
bytes "$work/table-17" 65537
run target/bin/runs_table <"$work/table-17"
check "runs_table: a text of 65,537 bytes" 0 'refused,17,0' ''

# For the weights: a text of this length has a line too many, or one line with a number far too long.
times 8192 shift,0 >"$work/weights"
bytes "$work/weights" 65536
run target/bin/runs_weights <"$work/weights"
check "runs_weights: a text of 65,536 bytes with 8,192 lines" 0 'refused,16,2' ''
sed '$s/0/10/' "$work/weights" >"$work/weights-17"
bytes "$work/weights-17" 65537
run target/bin/runs_weights <"$work/weights-17"
check "runs_weights: a text of 65,537 bytes" 0 'refused,17,0' ''
{ printf shift, && head -c 65529 /dev/zero | tr '\0' 1 && echo; } >"$work/digits"
bytes "$work/digits" 65536
run target/bin/runs_weights <"$work/digits"
check "runs_weights: a text of 65,536 bytes with one number" 0 'refused,16,1' ''
sed 's/1$/11/' "$work/digits" >"$work/digits-17"
bytes "$work/digits-17" 65537
run target/bin/runs_weights <"$work/digits-17"
check "runs_weights: a text of 65,537 bytes with one number" 0 'refused,17,0' ''
for name in runs_table runs_monitor runs_weights; do
  run "target/bin/$name" < <(head -c 65536 /dev/zero)
  check "$name: 65,536 bytes of zeros" 0 'refused,16,1' ''
  run "target/bin/$name" < <(head -c 65537 /dev/zero)
  check "$name: 65,537 bytes of zeros" 0 'refused,17,0' ''
done

# From a shift to a table, for every shift: the printed line is the table text's first. With one rule on S and the horizon 1 the chance at 1 is
# S's weight, and what is left is the sum of all others.
shifted_tables() {
  local s
  for ((s = -150; s <= 150; s++)); do
    { echo "shift,$s" | target/bin/runs_weights && printf 'rule,1,1,1\nhorizon,1\n'; } | tee -a "$work/shifted" | target/bin/runs_table | sed -n 3p
  done
}
run shifted_tables
grep '^weights,' "$work/shifted" | while IFS=, read -r _ w0 w1 w2 w3 w4 w5 w6 w7; do
  echo "1,$((w0 << 30)),$((w0 << 30)),$(((w1 + w2 + w3 + w4 + w5 + w6 + w7) << 30))"
done >"$work/shifted.out"
check "runs_weights and runs_table: the weights of $(wc -l <"$work/shifted.out") shifts" 0 "@$work/shifted.out" ''
if [ "$(sort -u "$work/shifted.out" | wc -l)" != 151 ]; then
  echo "FAILED: the 301 shifts have not 151 different weights of S, one for each distance from the centre"
  exit 1
fi

# scripts/bounds.sh
table=examples/western-electric-in-control.out
run bash scripts/bounds.sh "$table" 1000
check "bounds: period 1,000" 0 'at least 0.999987 and less than 0.999988' ''
run bash scripts/bounds.sh "$table" 1
check "bounds: period 1" 0 'at least 0.002699 and less than 0.002700' ''
run bash scripts/bounds.sh "$table" 1001
check "bounds: a period beyond the table" 1 '' "bounds.sh: $table: the table ends at period 1000, so it has no row 1001"
for n in 0 -1 1.5 many 08 ''; do
  run bash scripts/bounds.sh "$table" "$n"
  check "bounds: the period '$n'" 1 '' "bounds.sh: n must be a whole number from 1 on, and is '$n'"
done
run bash scripts/bounds.sh examples/refused/10-states.out 1
check "bounds: a refusal" 1 '' "bounds.sh: examples/refused/10-states.out: runs_table refused the text (refused,10,0), so there is no table"
run bash scripts/bounds.sh "$work/none" 1
check "bounds: no file" 1 '' "bounds.sh: $work/none: no such file, or it cannot be read"
run bash scripts/bounds.sh "$work" 1
check "bounds: a directory" 1 '' "bounds.sh: $work: no such file, or it cannot be read"
run bash scripts/bounds.sh "$table"
check "bounds: no period" 1 '' 'bounds.sh: usage: bounds.sh FILE n'
part=$work/part
: >"$part"
run bash scripts/bounds.sh "$part" 1
check "bounds: an empty file" 1 '' "bounds.sh: $part: no whole output of runs_table: the file is empty"
head -n -1 "$table" >"$part"
run bash scripts/bounds.sh "$part" 1
check "bounds: an output without its last line" 1 '' "bounds.sh: $part: no whole output of runs_table: it ends at line 1007"
head -c -1 "$table" >"$part"
run bash scripts/bounds.sh "$part" 1
check "bounds: an output without its last LF" 1 '' "bounds.sh: $part: no whole output of runs_table: its last line has no end"
head -n 500 "$table" >"$part"
run bash scripts/bounds.sh "$part" 400
check "bounds: half of an output" 1 '' "bounds.sh: $part: no whole output of runs_table: it ends at line 500"
sed 7d "$table" >"$part"
run bash scripts/bounds.sh "$part" 400
check "bounds: an output without its row 5" 1 '' "bounds.sh: $part: no whole output of runs_table: line 7 is not the one expected"
run bash scripts/bounds.sh examples/monitor-shift.out 1
check "bounds: a monitor's output" 1 '' "bounds.sh: examples/monitor-shift.out: no whole output of runs_table: line 1 is not the one expected"
run bash scripts/bounds.sh crates/runs_weights/stdout 1
check "bounds: a line of weights" 1 '' "bounds.sh: crates/runs_weights/stdout: no whole output of runs_table: line 1 is not the one expected"
printf 'standings,1\nn,chance,by,left\n1,1152921504606846976,1152921504606846976,0\narl,1,0,0\n' >"$part"
printf 'q,%s,at,1\n' 5 25 50 75 95 >>"$part"
run bash scripts/bounds.sh "$part" 1
check "bounds: a chance of 1" 0 'at least 1.000000 and at most 1' ''

# pictures/series.sh: what it turns down is told before anything is drawn, so that a gnuplot which does nothing will do, and no picture is there.
mkdir "$work/drawer"
printf '#!/bin/sh\nexit 1\n' >"$work/drawer/gnuplot"
chmod +x "$work/drawer/gnuplot"
draw() { # WHY ARGUMENT ...: fails with this sentence, behind the script's name
  local why=$1
  shift
  PATH=$work/drawer:$PATH run bash pictures/series.sh "$work/series.svg" "$@"
  check "series: ${why#*: }" 1 '' "series.sh: $why"
  if [ -e "$work/series.svg" ]; then
    echo "FAILED: a picture is there"
    exit 1
  fi
}
shift_text=examples/monitor-shift.txt shift_out=examples/monitor-shift.out
bench_text=examples/monitor-bench.txt bench_out=examples/monitor-bench.out
draw "$work/none: no such file, or it cannot be read" "$shift_text" "$work/none"
draw "examples/refused/16-line.out: runs_monitor refused the text ($(cat examples/refused/16-line.out)), there is nothing to draw" \
  "$shift_text" examples/refused/16-line.out
draw "examples/monitor-no-points.txt: it has no points, there is nothing to draw" examples/monitor-no-points.txt "$shift_out"
draw "$table: not a monitor text (line 1)" "$table" "$shift_out"
draw "$table: not an output of runs_monitor (line 1)" "$shift_text" "$table"
draw "$bench_text: nodes 0, 3, 15 have points, pick one with --node" "$bench_text" "$bench_out"
draw "$bench_text: node 5 has no point; nodes that have: 0, 3, 15" --node 5 "$bench_text" "$bench_out"
draw "examples/monitor-centre.out: it has 13 points and the text 28: it does not belong to the text" "$shift_text" examples/monitor-centre.out
sed '1s/3/15/' "$bench_out" >"$part"
draw "$part: the periods of node 15 are not 1, 2, 3, .. (line 2)" --node 3 "$bench_text" "$part"
sed 's/signal,0,8,64,25/signal,0,8,128,25/' "$shift_out" >"$part"
draw "$part: the mask 128 in line 25 names a rule that the text does not have: it does not belong to the text" "$shift_text" "$part"
sed 's/,[0-9]*$//' "$shift_out" >"$part"
draw "$part: no period in line 1: an older runs_monitor printed it" "$shift_text" "$part"
head -n -1 "$shift_out" >"$part"
draw "$part: not a whole output of runs_monitor" "$shift_text" "$part"
sed '$s/28/29/' "$shift_out" >"$part"
draw "$part: the total of node 0 does not add up (line 29)" "$shift_text" "$part"

# scripts/needs.sh, in a folder of its own, with a PATH in which most commands are missing, and never as root.
room=$work/room
mkdir -p "$room/bin" "$room/here"
chmod 755 "$work" "$room" "$room/bin" "$room/here"
cp scripts/needs.sh "$room/needs.sh"
for command in bash id grep head; do ln -s "$(command -v "$command")" "$room/bin/$command"; done
lower=()
if [ "$(id -u)" = 0 ]; then lower=(setpriv --reuid=65534 --regid=65534 --clear-groups); fi
look() { run "${lower[@]}" env PATH="$room/bin" bash "$room/needs.sh" "$@" </dev/null; }
ask='Only root can install what is missing. Run this as root, then start again:
  apt-get update && apt-get install -y'
rust='cargo rustc'
if grep -qs '^VERSION_ID="12"' /etc/os-release; then rust='cargo-web rustc-web'; fi
look bash id
check "needs: all there" 0 '' ''
look bash rt bc
check "needs: rt is missing" 1 '' 'rt is missing: install the Rattle kit and put its bin folder in the PATH.'
look bash bc gcc cc g++ cargo
check "needs: commands are missing, not root" 1 '' "missing: bc gcc cc g++ cargo
$ask bc gcc libc6-dev g++ $rust"
look bash nonesuch
check "needs: a command of no known package" 1 '' 'nonesuch is missing, and no Debian package for it is known here.'
look bash --optional gnuplot id
check "needs: an optional command is missing" 0 '' \
  'gnuplot is not here. It is optional: what needs it is left out. Debian: apt-get update && apt-get install -y gnuplot-nox'
printf '#!/bin/sh\necho "cargo 1.65.0"\n' >"$room/bin/cargo"
chmod 755 "$room/bin/cargo"
look bash cargo
check "needs: an old cargo" 1 '' "cargo is here, but older than 1.85 or of no use: cargo 1.65.0
missing: cargo
$ask $rust"
printf '#!/bin/sh\necho "cargo 1.85.0 (d73d2caf9 2024-12-31)"\n' >"$room/bin/cargo"
look bash cargo
check "needs: a new cargo" 0 '' ''

# scripts/library.sh --check, in a small repository with a command rt that only makes a file, and called from another folder.
toy=$work/toy
mkdir -p "$toy/scripts" "$toy/crates/capi_c" "$toy/bin"
cp scripts/library.sh "$toy/scripts/"
echo 'capi_c staticlib:' >"$toy/crates.txt"
echo one >"$toy/crates/capi_c/one"
printf '#!/bin/sh\nmkdir -p out && echo made >out/libcapi_c.a\n' >"$toy/bin/rt"
chmod +x "$toy/bin/rt"
library() { run env PATH="$toy/bin:$PATH" bash -c 'cd / && bash "$@"' - "$toy/scripts/library.sh" "$@"; }
remedy="run 'bash scripts/library.sh' at the root of the repository."
library --check
check "library: missing" 1 '' "The library target/staticlib/libcapi.a is missing: $remedy"
library
check "library: made" 0 '' ''
library --check
check "library: there" 0 '' ''
echo two >"$toy/crates/capi_c/one"
library --check
check "library: made from other crates" 1 '' \
  "The library target/staticlib/libcapi.a was built from other crates than those that are here now: $remedy"
library
library --check
check "library: made again" 0 '' ''
rm "$toy/target/staticlib/sum"
library --check
check "library: not built to its end" 1 '' "The library target/staticlib/libcapi.a was not built to its end: $remedy"

echo "edges: $checks checks, 0 failed"
