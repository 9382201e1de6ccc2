#!/bin/sh
# mend.sh: not proved; packs as older boards left them, mended by tools/mend.c (make mend PACK=..), and what is on them then.
set -eu
cd "$(dirname "$0")/.."
[ -f target/staticlib/libkeeper.a ] || python3 tools/prove.py --lib keeper
strict="-std=c99 -O1 -Wall -Wextra -Werror -pedantic -Iinclude -Iexamples"
mkdir -p target/mend
gcc $strict tools/mend.c examples/filedisk*.c target/staticlib/libkeeper.a -o target/mend/mend
gcc $strict tests/mend.c examples/filedisk*.c target/staticlib/libkeeper.a -o target/mend/packs
folder=$(mktemp -d)
trap 'rm -rf "$folder"' EXIT
. tests/same.sh
# refused WHAT PACK LINE: status 1, that line, and nothing made
refused() {
    status=0
    line=$(target/mend/mend "$2" "$folder/none" 2>&1 >/dev/null) || status=$?
    same "$1" "$status $line $(ls "$folder" | grep -c none || true)" "1 mend: $2: $3 0"
}

# a pack that five steps change: restart turns it away, and takes what is made of it; the old one stays
target/mend/packs make "$folder/hurt" hurt
cp "$folder/hurt" "$folder/before"
same "restart of the hurt pack" "$(target/mend/packs look "$folder/hurt" || true)" "the tables break a rule"
cp "$folder/before" "$folder/hurt"
same "the list" "$(target/mend/mend "$folder/hurt" "$folder/mended" 2>"$folder/line")" "slot design page old reason
1 101 number 101 the slot's number stands in a lower slot, so the slot is emptied
1 101 account 1 the slot's number stands in a lower slot, so the slot is emptied
1 101 0 3 the slot's number stands in a lower slot, so the slot is emptied
3 0 account 1 the slot is empty, so its account is 0 and its map zero
2 102 account 9 there is no such account, so it becomes 0
0 101 2 60000 there is no such record, so the page is one of zeros
2 102 1 4 the record stands in another entry too, so it is in none
2 102 2 4 the record stands in another entry too, so it is in none"
same "the line" "$(cat "$folder/line")" "mend: $folder/hurt: 8 changes; the mended pack is $folder/mended"
same "the old pack" "$(cmp "$folder/hurt" "$folder/before" && echo alike)" "alike"
highest() { od -An -tu4 -j 11776 -N 4 "$1" | tr -d ' '; }
same "the highest number stays" "$(highest "$folder/mended")" "50"
cp "$folder/mended" "$folder/opened"
same "the mended pack" "$(target/mend/packs look "$folder/opened")" "design 101 account 1: 10 11 -
design 102 account 0: 20 - -"
same "the highest number once it was opened" "$(highest "$folder/opened")" "102"
same "mended again" "$(target/mend/mend "$folder/mended" "$folder/again")" "$folder/mended is sound: restart takes it as it is, nothing is written"

# a sound pack
target/mend/packs make "$folder/sound" sound
same "a sound pack" "$(target/mend/mend "$folder/sound" "$folder/none")" "$folder/sound is sound: restart takes it as it is, nothing is written"
same "no file of it" "$(ls "$folder" | grep -c "none\|part" || true)" "0"

# a parent that is not a lower account: no mending helps
target/mend/packs make "$folder/parents" parents
refused "a wrong parent" "$folder/parents" "restart turns it away still: an account's parent is not a lower account, and mending changes no parent"

# what is no pack, or not whole
refused "no file" "$folder/nothing" "it cannot be opened: No such file or directory"
echo "a letter" >"$folder/letter"
refused "a letter" "$folder/letter" "no disk of the keeper: another program's file, or its header block is damaged"
: >"$folder/empty"
refused "an empty file" "$folder/empty" "no disk of the keeper: never formatted, or a cut fell in the format"
head -c 9000 "$folder/hurt" >"$folder/short"
refused "a short file" "$folder/short" "the device failed: it is shorter than its tables"
printf 'X' | cat - "$folder/hurt" | head -c 9000 >"$folder/shifted"
refused "a shifted file" "$folder/shifted" "no disk of the keeper: another program's file, or its header block is damaged"

# a new file that is there already, or cannot be made, is left alone
echo "my own" >"$folder/mine"
same "a file that is there" "$(target/mend/mend "$folder/hurt" "$folder/mine" 2>&1 || true)" "mend: $folder/mine: it is there already"
same "it stays" "$(cat "$folder/mine")" "my own"
same "no folder" "$(target/mend/mend "$folder/hurt" "$folder/none/there" 2>&1 || true)" "mend: $folder/none/there: it cannot be made: No such file or directory"

# by make: a name with a blank in it, and no name
cp "$folder/before" "$folder/with blank"
made() { make --no-print-directory -s -o target/staticlib/libkeeper.a "$@" 2>&1; }
same "a blank in the name" "$(made mend PACK="$folder/with blank" | grep changes)" "mend: $folder/with blank: 8 changes; the mended pack is $folder/with blank.mended"
same "what is made of it" "$(cmp "$folder/mended" "$folder/with blank.mended" && echo alike)" "alike"
same "no name" "$(made mend | head -n 1)" "make mend PACK=file: which pack is to be mended?"
echo "$passed passed, $failed failed"
[ "$failed" -eq 0 ]
