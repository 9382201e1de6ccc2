#!/bin/sh
# firmware.sh: builds the static library and three examples over it, the firmware, the scheduler, and a mill with its studios; what each prints is its .out file in examples/. And what the library calls.
set -eu
cd "$(dirname "$0")/.."
# the module that it is compiled from is kept for tests/cross, which would else prove the crate again
make -s --no-print-directory target/cross/module.bc
failed=0
for example in firmware scheduler studios; do
    cc -std=c11 -Wall -Wextra -Werror -pedantic -Iinclude "examples/$example.c" target/staticlib/libkeeper.a -o "target/$example"
    "target/$example" >"target/$example.out" || failed=$((failed + 1))
    diff "target/$example.out" "examples/$example.out" || failed=$((failed + 1))
done
# what a platform must have for the library: docs/USING.md names it
needed=$(nm -u target/staticlib/libkeeper.a | awk '$1 == "U" { print $2 }' | sort -u | tr '\n' ' ')
[ "$needed" = "memcpy memmove memset " ] || { echo "the library needs $needed"; failed=$((failed + 1)); }
echo "$((7 - failed)) passed, $failed failed"
[ "$failed" -eq 0 ]
