#!/bin/sh
# resets.sh: not proved; the file disk's journal through resets, cuts and failing syncs: every path of one store, of two and of an import, and STORES
# torn stores (10000) at each of four grains, from SEED (1). docs/TESTS.md says what is checked.
set -eu
cd "$(dirname "$0")/.."
[ -f target/staticlib/libkeeper.a ] || python3 tools/prove.py --lib keeper
gcc -std=c99 -O2 -Wall -Wextra -Werror -pedantic -Iinclude -Iexamples -Itests/plug -Itests/resets \
    tests/resets/*.c tests/plug/without.c examples/filedisk*.c target/staticlib/libkeeper.a -o target/resets
exec target/resets "${STORES:-10000}" "${SEED:-1}"
