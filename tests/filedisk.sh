#!/bin/sh
# filedisk.sh: not proved; the tests of the file disk: its header, journal and refusals (tests/filedisk.c), the highest number (tests/numbers.c), and
# system calls that fail (tests/faults.c), each also with the compiler's own checks of memory and numbers; and its header in C++.
set -eu
cd "$(dirname "$0")/.."
[ -f target/staticlib/libkeeper.a ] || python3 tools/prove.py --lib keeper
strict="-std=c99 -O1 -Wall -Wextra -Werror -pedantic -Iinclude -Iexamples"
checked="-g -fsanitize=address,undefined -fno-sanitize-recover=all"
wrapped="-Wl,--wrap=pread,--wrap=pwrite,--wrap=fsync"
passed=0
failed=0
# built NAME WORDS..: a test, built and run; its last line is shown
built() {
    name=$1
    shift
    if gcc $strict "$@" examples/filedisk*.c target/staticlib/libkeeper.a -o "target/$name" && "target/$name" "target/$name.disk" >"target/$name.out" 2>&1; then
        passed=$((passed + 1))
        echo "$name: $(tail -n 1 "target/$name.out")"
    else
        failed=$((failed + 1))
        cat "target/$name.out"
    fi
}
built filedisk-test tests/filedisk.c
built filedisk-checked $checked tests/filedisk.c
built numbers-test tests/numbers.c
built numbers-checked $checked tests/numbers.c
built faults-test $wrapped tests/faults.c
built faults-checked $checked $wrapped tests/faults.c
if command -v g++ >/dev/null; then
    for file in examples/filedisk*.c; do
        gcc $strict -c "$file" -o "target/$(basename "$file" .c).o"
    done
    cat >target/filedisk.cc <<'END'
#include "filedisk.h"
int main()
{
    FileDisk disk;
    FileBlocks blocks;
    return filedisk_file(&disk, &blocks, "/no/such/folder/disk", FILEDISK_NEW) == FILEDISK_DEVICE && disk.line[0] != 0 ? 0 : 1;
}
END
    if g++ -std=c++11 -Wall -Wextra -Werror -pedantic -Iinclude -Iexamples target/filedisk.cc target/filedisk*.o target/staticlib/libkeeper.a -o target/filedisk-c++ \
        && target/filedisk-c++; then
        passed=$((passed + 1))
    else
        failed=$((failed + 1))
        echo "the header does not do for C++"
    fi
else
    echo "no g++: not built as C++"
fi
echo "$passed passed, $failed failed"
[ "$failed" -eq 0 ]
