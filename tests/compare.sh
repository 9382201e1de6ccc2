#!/bin/sh
# compare.sh PROGRAM FOLDER: runs an event program on every vector of the folder; each is one test.
set -eu
passed=0
failed=0
for input in "$2"/*.in; do
    if "$1" <"$input" | cmp -s - "${input%.in}.out"; then
        passed=$((passed + 1))
    else
        echo "$input: the output differs from ${input%.in}.out" >&2
        failed=$((failed + 1))
    fi
done
echo "$passed passed, $failed failed"
[ "$failed" -eq 0 ] && [ "$passed" -gt 0 ]
