#!/usr/bin/env bash
# Installs what is missing. Proves every crate, tries every must-fail edit, runs every program; then builds the programs and tries their edges,
# compares the proved library with a second implementation, runs the examples and the callers in C, C++ and Rust, measures the library's stack,
# checks the documents' names, and runs the README's commands. The last line is the prover's own count; it is printed only where everything passed.
set -euo pipefail
cd "$(dirname "$0")"

bash scripts/needs.sh rt bc cargo rustc gcc cc g++ c++ --optional gnuplot clang

log=$(mktemp)
trap 'rm -f "$log"' EXIT

if ! rt ci >"$log" 2>&1; then
  cat "$log"
  exit 1
fi
grep -aE '^rt: ok' "$log" || true
# an edit that cannot be applied or read fails nothing there
if grep -aqE '^rt: ok.*, [0-9]+ bad' "$log"; then
  grep -aE 'BAD EDIT' "$log" || true
  exit 1
fi
verdict=$(tail -n 1 "$log")
if ! [[ $verdict =~ ^[0-9]+\ passed,\ 0\ failed ]]; then
  cat "$log"
  echo "no verdict: $verdict"
  exit 1
fi

bash scripts/programs.sh
bash scripts/test-edges.sh
bash bench/differential.sh
bash examples/run.sh | tail -n 1
bash callers/run.sh
cargo test --quiet --offline --manifest-path rust/Cargo.toml --target-dir target/rust-tests >/dev/null
bash scripts/test-stack.sh
bash scripts/test-docs.sh
bash scripts/test-readme.sh

echo "$verdict"
