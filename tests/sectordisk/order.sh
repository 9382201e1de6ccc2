#!/bin/sh
# order.sh: not proved; the numbers of the file disk on sectors are low byte first, and where the layout says: by a script that reads the file.
set -eu
cd "$(dirname "$0")/../.."
. tests/sectordisk/libraries.sh
mkdir -p target/sectordisk/order
rm -f target/sectordisk/order/*
. tests/same.sh
gcc -std=c99 -O1 -Wall -Wextra -Werror -pedantic $headers tests/sectordisk/order.c $driver $libraries -o target/sectordisk/order/here
target/sectordisk/order/here make target/sectordisk/order/here.disk
listed=$(python3 tests/sectordisk/order.py target/sectordisk/order/here.disk)
same "as the layout is told" "$(target/sectordisk/order/here read target/sectordisk/order/here.disk)" "$listed"
same "the store is there" "$(echo "$listed" | grep -c '16909060 84281096 151653132\|^limits .* 3342$')" "2"
echo "$passed passed, $failed failed"
[ "$failed" -eq 0 ]
