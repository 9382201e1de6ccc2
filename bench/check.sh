#!/bin/sh
# Builds the C event program and compares its output with every vector of tests/vectors, or of the folder given.
set -eu
vectors=${1:-}
[ -z "$vectors" ] || vectors=$(cd "$vectors" && pwd)
cd "$(dirname "$0")/.."
mkdir -p target/c
gcc -O2 -Wall -Wextra -Werror -std=c11 -o target/c/replay \
    bench/replay.c bench/keeper.c bench/accounts.c bench/mend.c bench/rules.c bench/questions.c bench/events.c bench/chip.c bench/sheets.c
exec tests/compare.sh target/c/replay "${vectors:-tests/vectors}"
