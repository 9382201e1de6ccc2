#!/bin/sh
# sectors.sh: the program `starts` prints the table of the 600-record pack, which is compared with awk's; the headers with the static library, the
# table for C with all that it looks up; and that table with what the program prints.
set -eu
cd "$(dirname "$0")/.."
mkdir -p target
make -s --no-print-directory crates/starts/out/starts target/staticlib/libsectors.a
awk 'BEGIN { for (r = 0; r < 600; r++) print int(r / 6) * 100 + (r % 6) * 16 }' > target/starts.awk
crates/starts/out/starts > target/starts.out
cc -std=c11 -Wall -Wextra -Werror -pedantic -Iinclude tests/sectors.c target/staticlib/libsectors.a -o target/sectors
sed -n '/^ *[0-9]/s/[ ,]*\([0-9][0-9]*\),*/\1\n/gp' include/sectors_starts.h | sed '/^$/d' > target/starts.header
passed=0
failed=0
try() {
    if "$@"; then passed=$((passed + 1)); else failed=$((failed + 1)); fi
}
try cmp target/starts.out target/starts.awk
try cmp crates/starts/stdout target/starts.awk
try cmp target/starts.header target/starts.out
try target/sectors
echo "$passed passed, $failed failed"
[ "$failed" -eq 0 ]
