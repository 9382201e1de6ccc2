#!/bin/sh
# sheets.sh: not proved; builds the tools of design sheets over the disk on sectors, tools/export.c, import.c and sheet.c, with the compiler's own checks of
# memory and numbers, also over system calls that fail (tests/failing.c), and attacks them (tests/sectordisk/sheets.py).
set -eu
cd "$(dirname "$0")/../.."
. tests/sectordisk/libraries.sh
strict="-std=c99 -O1 -g -Wall -Wextra -Werror -pedantic $headers -fsanitize=address,undefined -fno-sanitize-recover=all"
wrapped="-Wl,--wrap=pwrite,--wrap=write,--wrap=fsync,--wrap=link,--wrap=rename"
mkdir -p target/sectordisk/sheets
for tool in export import; do
    gcc $strict tools/$tool.c $driver $libraries -o target/sectordisk/sheets/$tool-checked
    gcc $strict $wrapped tools/$tool.c tests/failing.c $driver $libraries -o target/sectordisk/sheets/$tool-failing
done
gcc $strict tools/sheet.c -o target/sectordisk/sheets/sheet-checked
gcc $strict tests/sectordisk/sheets.c $driver $libraries -o target/sectordisk/sheets/packs
exec python3 tests/sectordisk/sheets.py
