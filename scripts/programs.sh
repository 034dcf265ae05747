#!/usr/bin/env bash
# Proves and builds the three programs for use, target/bin/runs_table, runs_monitor and runs_weights, over what earlier runs left.
set -euo pipefail
cd "$(dirname "${BASH_SOURCE[0]}")/.."

mkdir -p target/bin
for name in runs_table runs_monitor runs_weights; do
  # the program runs once, on a text of its own
  if ! (cd "crates/$name" && rt run <stdin) >"target/$name.log" 2>&1; then
    cat "target/$name.log"
    exit 1
  fi
  cp "crates/$name/out/$name" "target/bin/$name"
done
