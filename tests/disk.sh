#!/bin/sh
# disk.sh: the proved parts of a disk driver, as C links them, beside straightforward C (tests/disk.c); and the header as C++ reads it.
set -eu
cd "$(dirname "$0")/.."
make -s --no-print-directory target/staticlib/libdisk.a
# the only name that it needs from outside
needed=$(nm -u target/staticlib/libdisk.a | awk '$1 == "U" { print $2 }' | sort -u | tr '\n' ' ')
[ "$needed" = "memset " ] || {
    echo "libdisk.a needs these from outside, and not memset alone: $needed"
    exit 1
}
cc -std=c11 -O1 -Wall -Wextra -Werror -pedantic -Iinclude tests/disk.c target/staticlib/libdisk.a -o target/disk
if command -v g++ > /dev/null; then
    printf '#include "keeper_disk_inside.h"\n' | g++ -std=c++11 -Wall -Wextra -Werror -pedantic -Iinclude -x c++ -fsyntax-only -
else
    echo "no g++: the header is not read as C++"
fi
target/disk
