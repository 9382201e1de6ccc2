#!/bin/sh
# plug.sh: not proved; builds the plug test over the disk on sectors and runs it: KILLS kills of a weaver (300), from SEED (1). docs/TESTS.md says what is
# checked. The books, the sheets carried and the devices are those of tests/plug; the header of the wrong drivers comes first, so that they take this one.
set -eu
cd "$(dirname "$0")/../.."
. tests/sectordisk/libraries.sh
gcc -std=c99 -D_POSIX_C_SOURCE=200809L -O2 -Wall -Wextra -Werror -pedantic $headers -Itests/plug -include tests/plug/count.h \
    -include tests/sectordisk/plug/without.h tests/sectordisk/plug/*.c tests/plug/books.c tests/plug/carried.c tests/plug/devices.c $driver $libraries \
    -o target/sectordisk/plug
exec target/sectordisk/plug "${KILLS:-300}" target/sectordisk/plug.disk "${SEED:-1}"
