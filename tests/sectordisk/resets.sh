#!/bin/sh
# resets.sh: not proved; the journal of the file disk on sectors through resets, cuts and failing syncs: every path of one store, of two and of an import, and STORES
# torn stores (10000), from SEED (1). docs/TESTS.md says what is checked.
set -eu
cd "$(dirname "$0")/../.."
. tests/sectordisk/libraries.sh
gcc -std=c99 -O2 -Wall -Wextra -Werror -pedantic $headers -Itests/sectordisk/plug \
    tests/sectordisk/resets/*.c tests/sectordisk/plug/without.c $driver $libraries -o target/sectordisk/resets
exec target/sectordisk/resets "${STORES:-10000}" "${SEED:-1}"
