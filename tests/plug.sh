#!/bin/sh
# plug.sh: not proved; builds the plug test and runs it: KILLS kills of a weaver (300), from SEED (1). docs/TESTS.md says what is checked.
set -eu
cd "$(dirname "$0")/.."
[ -f target/staticlib/libkeeper.a ] || python3 tools/prove.py --lib keeper
gcc -std=c99 -D_POSIX_C_SOURCE=200809L -O2 -Wall -Wextra -Werror -pedantic -Iinclude -Iexamples -Itests/plug -include tests/plug/count.h \
    tests/plug/*.c examples/filedisk*.c target/staticlib/libkeeper.a -o target/plug
exec target/plug "${KILLS:-300}" target/plug.disk "${SEED:-1}"
