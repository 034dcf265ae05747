#!/usr/bin/env bash
# Measures the proved library against the second implementation, on the same inputs in one run.
set -euo pipefail
cd "$(dirname "$0")"
bash ../scripts/library.sh
cargo run --release --offline --quiet --bin speed
