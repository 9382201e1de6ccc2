#!/bin/sh
# keeper_disk.sh: not proved; the disk on a device of sectors, include/keeper_disk.h, over the proved parts below it: plain tests, every path of one store
# of each kind through cuts and resets to DEPTH recoveries (1), cuts in a format, fallen bits, LISTS random lists (300) from SEED (1), and the wrong drivers.
set -eu
cd "$(dirname "$0")/.."
[ -f target/staticlib/libkeeper.a ] || python3 tools/prove.py --lib keeper
[ -f target/staticlib/libdisk.a ] || python3 tools/prove.py --lib disk
libraries="target/staticlib/libkeeper.a target/staticlib/libdisk.a"
if command -v g++ >/dev/null; then
    printf '#include "keeper_disk.h"\nint main() { return 0; }\n' | g++ -std=c++11 -Wall -Wextra -Werror -pedantic -Iinclude -x c++ -fsyntax-only -
else
    echo "no g++: the header is not read as C++"
fi
gcc -std=c99 -O1 -g -Wall -Wextra -Werror -pedantic -Iinclude -Itests/keeper_disk -fsanitize=address,undefined -fno-sanitize-recover=all \
    tests/keeper_disk/*.c $libraries -o target/keeper_disk
exec target/keeper_disk "${LISTS:-300}" "${SEED:-1}" "${DEPTH:-1}"
