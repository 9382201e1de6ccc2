#!/bin/sh
# weaver.sh: not proved; builds the firmware over the file disk on sectors, examples/weaver.c, and attacks it through its own commands
# (tests/sectordisk/weaver.c). It is read from the standard input, so that its header is this driver's.
set -eu
cd "$(dirname "$0")/../.."
. tests/sectordisk/libraries.sh
strict="-std=c99 -O1 -Wall -Wextra -Werror -pedantic $headers"
gcc $strict -x c - -x none $driver $libraries -o target/sectordisk/weaver <examples/weaver.c
gcc $strict -Dmain=weaver_main -x c -c - -o target/sectordisk/weaver-main.o <examples/weaver.c
gcc $strict tests/sectordisk/weaver.c target/sectordisk/weaver-main.o $driver $libraries -o target/sectordisk/weaver-test
exec target/sectordisk/weaver-test target/sectordisk/weaver-test.disk
