#!/usr/bin/env bash
# Builds the static library of the proved crates, and into target/callers: two models of a caller from C, C++ and Rust, a soak of one core
# (soak_c, soak_cpp, soak_rust) and a bench of sixteen (bench_c, bench_cpp, bench_rust), and the edges of the calls from C and C++ (edges_c,
# edges_cpp).
set -euo pipefail
cd "$(dirname "${BASH_SOURCE[0]}")/.."
mkdir -p target/callers
bash scripts/library.sh

flags="-Wall -Wextra -pedantic -Werror -O2 -Iinclude"
library=target/staticlib/libcapi.a
for model in soak bench; do
  cc -std=c99 $flags "callers/$model.c" "$library" -o "target/callers/${model}_c"
  c++ -std=c++11 $flags -x c++ "callers/$model.c" -x none "$library" -o "target/callers/${model}_cpp"
done

# Each call of such a function goes by way of the one that edges.c puts before it.
wrap=
for name in batch table bracket plot table_report monitor_report weights_report; do wrap+=" -Wl,--wrap=catrovindy_$name"; done
cc -std=c99 $flags callers/edges.c "$library" $wrap -o target/callers/edges_c
c++ -std=c++11 $flags -x c++ callers/edges.c -x none "$library" $wrap -o target/callers/edges_cpp

cargo build --release --offline --quiet --manifest-path callers/Cargo.toml --target-dir target/callers/cargo
for model in soak bench; do cp "target/callers/cargo/release/$model" "target/callers/${model}_rust"; done
