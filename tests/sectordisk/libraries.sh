# libraries.sh: what the tests of this folder begin with, read by them: the proved libraries, built where they are not there, and the driver's files.
[ -f target/staticlib/libkeeper.a ] || python3 tools/prove.py --lib keeper
[ -f target/staticlib/libdisk.a ] || python3 tools/prove.py --lib disk
libraries="target/staticlib/libkeeper.a target/staticlib/libdisk.a"
headers="-Iinclude -Iexamples/sectordisk -Itests"
driver="examples/sectordisk/filedisk*.c"
mkdir -p target/sectordisk
