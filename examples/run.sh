#!/usr/bin/env bash
# Runs every example through the built program that its first word asks for, and compares what it prints with the file beside it. Then looks
# whether the weights of the normal cores at 0, 0.5 and 1 sigma are those that runs_weights prints, and whether each node of a bench prints the
# same among the others and alone.
set -euo pipefail
cd "$(dirname "${BASH_SOURCE[0]}")"
bin=../target/bin

for program in runs_table runs_monitor runs_weights; do
  if [ ! -x "$bin/$program" ]; then
    echo "target/bin/$program is missing: build it with 'bash scripts/programs.sh' at the root of the repository" >&2
    exit 1
  fi
done

got=$(mktemp)
trap 'rm -f "$got"' EXIT
shopt -s nullglob
texts=(*.txt refused/*.txt)
failed=0

for text in "${texts[@]}"; do
  IFS=, read -r word _ <"$text" || true
  case $word in
    weights) program=runs_table ;;
    chart) program=runs_monitor ;;
    shift) program=runs_weights ;;
    *)
      echo "FAILED $text: its first word is none of 'weights', 'chart' and 'shift'"
      failed=$((failed + 1))
      continue
      ;;
  esac
  expected=${text%.txt}.out
  if [ ! -f "$expected" ]; then
    echo "FAILED $text: $expected is missing"
    failed=$((failed + 1))
  elif ! "$bin/$program" <"$text" >"$got"; then
    echo "FAILED $text: $program did not end well"
    failed=$((failed + 1))
  elif ! cmp -s "$got" "$expected"; then
    echo "FAILED $text: $program prints something else than $expected"
    diff "$got" "$expected" | head -n 6 || true
    failed=$((failed + 1))
  else
    echo "same   $text ($program)"
  fi
done

for expected in *.out refused/*.out; do
  if [ ! -f "${expected%.out}.txt" ]; then
    echo "FAILED $expected: no text belongs to it"
    failed=$((failed + 1))
  fi
done

if [ "${#texts[@]}" -eq 0 ]; then
  echo "FAILED: no example found"
  exit 1
fi

# The name says the shift; whole readings have weights of their own, and a chart has none.
lines=0 other=0
for text in *-in-control.txt *-shift-0.5.txt *-shift-1.txt; do
  case $text in
    monitor-* | *-whole-in-control.txt) continue ;;
    *-in-control.txt) shift=0 ;;
    *-shift-0.5.txt) shift=50 ;;
    *) shift=100 ;;
  esac
  lines=$((lines + 1))
  echo "shift,$shift" | "$bin/runs_weights" >"$got"
  if ! head -n 1 "$text" | cmp -s - "$got"; then
    echo "FAILED $text: its weights are not those that runs_weights prints for shift,$shift"
    other=$((other + 1))
  fi
done
if [ "$lines" -eq 0 ]; then
  echo "FAILED: no weights line found to compare with runs_weights"
  failed=$((failed + 1))
elif [ "$other" -gt 0 ]; then
  failed=$((failed + other))
else
  echo "same   $lines weights lines (runs_weights)"
fi

# The opening lines with the points of one node, and the lines that name it; a node without points has none.
other=0
for node in $(seq 0 15); do
  grep -E "^(chart|rule|point,$node)," monitor-bench.txt | "$bin/runs_monitor" >"$got"
  if ! sed -n "/^[a-z]*,$node,/p" monitor-bench.out | cmp -s - "$got"; then
    echo "FAILED monitor-bench.txt: node $node prints something else alone"
    other=$((other + 1))
  fi
done
if [ "$other" -gt 0 ]; then
  failed=$((failed + other))
else
  echo "same   16 nodes alone (runs_monitor)"
fi

if [ "$failed" -gt 0 ]; then
  echo "${#texts[@]} examples, $failed failed"
  exit 1
fi
echo "${#texts[@]} examples, 0 failed"
