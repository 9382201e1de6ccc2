#!/bin/sh
# easy.sh: not proved; builds the test of include/keeper_easy.h as C99, C11 and C++ over the static library, and runs each.
set -eu
cd "$(dirname "$0")/.."
[ -f target/staticlib/libkeeper.a ] || python3 tools/prove.py --lib keeper
strict="-O1 -Wall -Wextra -Werror -pedantic -Iinclude"
passed=0
failed=0
built() {
    name=$1
    shift
    if "$@" $strict tests/easy.c -x none target/staticlib/libkeeper.a -o "target/easy-$name" && "target/easy-$name" >"target/easy-$name.out"; then
        passed=$((passed + 1))
    else
        failed=$((failed + 1))
    fi
    echo "$name: $(tail -n 1 "target/easy-$name.out")"
}
built c99 gcc -std=c99 -x c
built c11 gcc -std=c11 -x c
if command -v g++ >/dev/null; then
    built c++11 g++ -std=c++11 -x c++
    built c++20 g++ -std=c++20 -x c++
else
    echo "no g++: not built as C++"
fi
echo "$passed passed, $failed failed"
[ "$failed" -eq 0 ]
