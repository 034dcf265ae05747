#!/usr/bin/env bash
# Measures how much stack the library's functions take, and fails where one takes more than the header says.
set -euo pipefail
cd "$(dirname "${BASH_SOURCE[0]}")/.."
bash scripts/library.sh
mkdir -p target
cc -std=c99 -Wall -Wextra -Werror -O2 -Iinclude scripts/stack.c target/staticlib/libcapi.a -pthread -o target/stack
target/stack
