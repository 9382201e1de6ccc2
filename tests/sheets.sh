#!/bin/sh
# sheets.sh: not proved; builds the tools of design sheets, tools/export.c, import.c and sheet.c, with the compiler's own checks of memory and numbers,
# also over system calls that fail (tests/failing.c), and attacks them (tests/sheets.py).
set -eu
cd "$(dirname "$0")/.."
[ -f target/staticlib/libkeeper.a ] || python3 tools/prove.py --lib keeper
strict="-std=c99 -O1 -g -Wall -Wextra -Werror -pedantic -Iinclude -Iexamples -fsanitize=address,undefined -fno-sanitize-recover=all"
wrapped="-Wl,--wrap=pwrite,--wrap=write,--wrap=fsync,--wrap=link,--wrap=rename"
mkdir -p target/sheets
for tool in export import; do
    gcc $strict tools/$tool.c examples/filedisk*.c target/staticlib/libkeeper.a -o target/sheets/$tool-checked
    gcc $strict $wrapped tools/$tool.c tests/failing.c examples/filedisk*.c target/staticlib/libkeeper.a -o target/sheets/$tool-failing
done
gcc $strict tools/sheet.c -o target/sheets/sheet-checked
gcc $strict tests/sheets.c examples/filedisk*.c target/staticlib/libkeeper.a -o target/sheets/packs
exec python3 tests/sheets.py
