#!/bin/sh
# weaver.sh: not proved; builds the firmware over a file, examples/weaver.c, and attacks it through its own commands (tests/weaver.c).
set -eu
cd "$(dirname "$0")/.."
[ -f target/staticlib/libkeeper.a ] || python3 tools/prove.py --lib keeper
strict="-std=c99 -O1 -Wall -Wextra -Werror -pedantic -Iinclude -Iexamples"
gcc $strict examples/weaver.c examples/filedisk*.c target/staticlib/libkeeper.a -o target/weaver
gcc $strict -Dmain=weaver_main -c examples/weaver.c -o target/weaver-main.o
gcc $strict tests/weaver.c target/weaver-main.o examples/filedisk*.c target/staticlib/libkeeper.a -o target/weaver-test
exec target/weaver-test target/weaver-test.disk
