#!/usr/bin/env bash
# Builds the static library of the proved crates and compares it with the second implementation on many inputs.
set -euo pipefail
cd "$(dirname "$0")"
bash ../scripts/library.sh
for test in differential plots steps shifts texts; do
  cargo run --release --offline --quiet --bin "$test"
done
