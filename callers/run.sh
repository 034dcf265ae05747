#!/usr/bin/env bash
# Builds the models of a caller, runs them, and compares what each prints with soak.out or bench.out. Then tries the edges of the calls, and
# whether compilers tell of wrong ones. Fails at any difference.
set -euo pipefail
cd "$(dirname "${BASH_SOURCE[0]}")"
bash build.sh

failed=0
for program in soak_c soak_cpp soak_rust bench_c bench_cpp bench_rust; do
  got=../target/callers/$program.out
  expected=${program%%_*}.out
  if ! "../target/callers/$program" >"$got"; then
    echo "FAILED $program: it did not end well"
    failed=1
  elif ! cmp -s "$got" "$expected"; then
    echo "FAILED $program: it prints something else than $expected"
    diff "$got" "$expected" | head -n 6 || true
    failed=1
  else
    echo "same   $program"
  fi
done

for program in edges_c edges_cpp; do
  if ! "../target/callers/$program"; then
    echo "FAILED $program"
    failed=1
  else
    echo "passed $program"
  fi
done

if ! bash wrong.sh; then
  failed=1
else
  echo "passed wrong calls"
fi
exit "$failed"
