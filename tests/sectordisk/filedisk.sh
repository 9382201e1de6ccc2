#!/bin/sh
# filedisk.sh: not proved; the tests of the file disk on sectors: its header, journal and refusals (filedisk.c), the highest number (numbers.c), and
# system calls that fail (faults.c), each also with the compiler's own checks of memory and numbers; and its header in C++.
set -eu
cd "$(dirname "$0")/../.."
. tests/sectordisk/libraries.sh
strict="-std=c99 -O1 -Wall -Wextra -Werror -pedantic $headers"
checked="-g -fsanitize=address,undefined -fno-sanitize-recover=all"
wrapped="-Wl,--wrap=pread,--wrap=pwrite,--wrap=fsync"
folder=target/sectordisk
passed=0
failed=0
# built NAME WORDS..: a test, built and run; its last line is shown
built() {
    name=$1
    shift
    if gcc $strict "$@" $driver $libraries -o "$folder/$name" && "$folder/$name" "$folder/$name.disk" >"$folder/$name.out" 2>&1; then
        passed=$((passed + 1))
        echo "$name: $(tail -n 1 "$folder/$name.out")"
    else
        failed=$((failed + 1))
        cat "$folder/$name.out"
    fi
}
built filedisk-test tests/sectordisk/filedisk.c
built filedisk-checked $checked tests/sectordisk/filedisk.c
built numbers-test tests/sectordisk/numbers.c
built numbers-checked $checked tests/sectordisk/numbers.c
built faults-test $wrapped tests/sectordisk/faults.c
built faults-checked $checked $wrapped tests/sectordisk/faults.c
if command -v g++ >/dev/null; then
    for file in $driver; do
        gcc $strict -c "$file" -o "$folder/$(basename "$file" .c).o"
    done
    cat >$folder/filedisk.cc <<'END'
#include "filedisk.h"
int main()
{
    FileDisk disk;
    FileBlocks blocks;
    return filedisk_file(&disk, &blocks, "/no/such/folder/disk", FILEDISK_NEW) == FILEDISK_DEVICE && disk.line[0] != 0 ? 0 : 1;
}
END
    if g++ -std=c++11 -Wall -Wextra -Werror -pedantic $headers $folder/filedisk.cc $folder/filedisk*.o $libraries -o $folder/filedisk-c++ \
        && $folder/filedisk-c++; then
        passed=$((passed + 1))
    else
        failed=$((failed + 1))
        echo "the header does not do for C++"
    fi
else
    echo "no g++: not built as C++"
fi
echo "$passed passed, $failed failed"
[ "$failed" -eq 0 ]
