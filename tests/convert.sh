#!/bin/sh
# convert.sh: not proved; packs of every older layout of the file disk, made by tests/convert.py, converted by tools/convert.c (make convert), opened
# by the firmware of examples/weaver.c and read back.
set -eu
cd "$(dirname "$0")/.."
[ -f target/staticlib/libkeeper.a ] || python3 tools/prove.py --lib keeper
strict="-std=c99 -O1 -Wall -Wextra -Werror -pedantic -Iinclude -Iexamples -fsanitize=address,undefined -fno-sanitize-recover=all"
mkdir -p target/mend
gcc $strict tools/convert.c examples/filedisk*.c target/staticlib/libkeeper.a -o target/mend/convert-checked
gcc $strict tools/mend.c examples/filedisk*.c target/staticlib/libkeeper.a -o target/mend/mend-checked
gcc $strict examples/weaver.c examples/filedisk*.c target/staticlib/libkeeper.a -o target/weaver-checked
export ASAN_OPTIONS=detect_leaks=0 # a program that ends gives its memory back
folder=$(mktemp -d)
trap 'rm -rf "$folder"' EXIT
. tests/same.sh
# refused WHAT OLD LINE: status 1, that line, and nothing made
refused() {
    status=0
    line=$(target/mend/convert-checked "$2" "$folder/absent" 2>&1 >/dev/null) || status=$?
    same "$1" "$status $line $(ls "$folder" | grep -c absent || true)" "1 convert: $2: $3 0"
}
long_at() { od -An -tu4 -j "$2" -N 4 "$1" | tr -d ' '; }
number_at() { od -An -tu2 -j "$2" -N 2 "$1" | tr -d ' '; }

for version in 1 2 3; do
    for journal in none whole torn; do
        old="$folder/v$version-$journal"
        new="$old.new"
        python3 tests/convert.py "$old" $version $journal
        cp "$old" "$old.before"
        same "$old is refused, and says what to do" "$(target/weaver-checked "$old" show || echo "status $?")" \
            "$old: the disk has version $version of the layout, this program knows version 4: make convert OLD=.. NEW=.. makes a new file of it
status 1"
        same "mend of $old" "$(target/mend/mend-checked "$old" "$folder/absent" 2>&1 || echo "status $?")" \
            "mend: $old: it has an older layout: make convert OLD=.. NEW=.. makes a new file of it; mend that
status 1"
        same "convert of $old" "$(target/mend/convert-checked "$old" "$new")" \
            "$old has version $version of the layout; $new has version 4, with the same designs and pages"
        same "$old stays" "$(cmp "$old" "$old.before" && echo alike)" "alike"
        same "limit of account 1 in $new" "$(number_at "$new" 10754)" "$([ $journal = whole ] && echo 9 || echo 4)"
        same "the highest number in $new" "$(long_at "$new" 11776)" "0"
        same "$new" "$(target/weaver-checked "$new" show)" "design 101 page 0: 10 11 12 13
design 101 page 2: 16909060 16909061 16909062 16909063
design 102 page 5: 20 21 22 23"
        same "the highest number once it was opened" "$(long_at "$new" 11776)" "102"
        same "$new, woven further" "$(target/weaver-checked "$new" weave 1 0 7 && target/weaver-checked "$new" show | tail -n 2)" "design 102 page 0: 7 8 9 10
design 102 page 5: 20 21 22 23"
        same "$new again" "$(target/mend/convert-checked "$new" "$folder/absent" 2>&1 || echo "status $?")" "convert: $new: it has the layout of now: nothing is to be done
status 1"
    done
done

# a pack that restart turns away is converted as it is; mend takes it then. The second design's account becomes 9, which is none.
cp "$folder/v1-none.before" "$folder/wrong"
printf '\011' | dd of="$folder/wrong" bs=1 seek=9730 conv=notrunc 2>/dev/null
same "a wrong pack" "$(target/mend/convert-checked "$folder/wrong" "$folder/wrong.new" | tail -n 1)" "restart turns it away, as it would have the old one: make mend PACK=$folder/wrong.new"
same "mended" "$(target/mend/mend-checked "$folder/wrong.new" "$folder/wrong.mended" 2>/dev/null)" "slot design page old reason
1 102 account 9 there is no such account, so it becomes 0"
same "and read back" "$(target/weaver-checked "$folder/wrong.mended" show | tail -n 1)" "design 102 page 5: 20 21 22 23"

# what is refused
refused "no file" "$folder/nothing" "it cannot be opened: No such file or directory"
head -c 9000 "$folder/v3-none" >"$folder/short"
refused "a short file" "$folder/short" "the device failed: it is shorter than its tables"
cp "$folder/v3-none" "$folder/hurt"
printf 'x' | dd of="$folder/hurt" bs=1 seek=30 conv=notrunc 2>/dev/null
refused "a damaged header" "$folder/hurt" "the header block is damaged: its checksum is wrong"
cp "$folder/v3-none" "$folder/mine"
same "a file that is there" "$(target/mend/convert-checked "$folder/v1-none" "$folder/mine" 2>&1 || true)" "convert: $folder/mine: it is there already"
same "it stays" "$(cmp "$folder/mine" "$folder/v3-none" && echo alike)" "alike"

# a full disk leaves nothing half made (blocks of 512 bytes)
same "a full disk" "$( (trap '' XFSZ; ulimit -f 18; target/mend/convert-checked "$folder/v1-none" "$folder/full") 2>&1 || true)" "convert: $folder/full: the device failed in the format: format again"
same "nothing is left" "$(ls "$folder" | grep -c full || true)" "0"

# by make
made() { make --no-print-directory -s -o target/staticlib/libkeeper.a "$@" 2>&1; }
same "by make" "$(made convert OLD="$folder/v1-none" NEW="$folder/a blank")" "$folder/v1-none has version 1 of the layout; $folder/a blank has version 4, with the same designs and pages"
same "what is made by make" "$(target/weaver-checked "$folder/a blank" show | head -n 1)" "design 101 page 0: 10 11 12 13"
same "no name" "$(made convert OLD="$folder/v1-none" | head -n 1)" "make convert OLD=file NEW=file: which pack is to be converted, and into which new file?"
echo "$passed passed, $failed failed"
[ "$failed" -eq 0 ]
