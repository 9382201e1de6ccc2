#!/bin/sh
# order.sh: not proved; the file disk's numbers are low byte first whatever the machine is: by a script that reads the file, and, where a compiler
# for a processor of the other order and qemu for it are installed, by what that one makes and reads.
set -eu
cd "$(dirname "$0")/.."
mkdir -p target/order
rm -f target/order/*
. tests/same.sh
# no part of the keeper is called, and none is linked
flags="-std=c99 -O1 -Wall -Wextra -Werror -pedantic -Iinclude -Iexamples -no-pie -Wl,--defsym=keeper_format=0,--defsym=keeper_restart=0"
sources="tests/order.c examples/filedisk.c examples/filedisk_bytes.c examples/filedisk_journal.c examples/filedisk_file.c"
gcc $flags $sources -o target/order/here
target/order/here make target/order/here.disk
listed=$(python3 tests/order.py target/order/here.disk)
same "as the layout is told" "$(target/order/here read target/order/here.disk)" "$listed"
same "the store is there" "$(echo "$listed" | grep -c '16909060 84281096 151653132\|^limits .* 3342$')" "2"
if command -v s390x-linux-gnu-gcc >/dev/null && command -v qemu-s390x >/dev/null; then
    s390x-linux-gnu-gcc -static $flags $sources -o target/order/other
    qemu-s390x target/order/other make target/order/other.disk
    same "the other order makes the same file" "$(cmp target/order/here.disk target/order/other.disk && echo alike)" "alike"
    same "it reads this one's" "$(qemu-s390x target/order/other read target/order/here.disk)" "$listed"
else
    echo "no s390x-linux-gnu-gcc or no qemu-s390x: not tried on a processor of the other byte order"
fi
echo "$passed passed, $failed failed"
[ "$failed" -eq 0 ]
