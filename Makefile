# make test: the gate. make replay: the event program on a readable example. make mutants: every wrong definition that a theorem must refuse.
# make starts: the first sectors of the 600-record pack's records, one a line. make mend: mends the pack file PACK into PACK.mended and lists the changes.
# make convert: the pack file OLD, of an older layout, as the new file NEW. make export: the design in slot SLOT of the pack file PACK as the new sheet file
# SHEET (REPLACE=1: in place of an older sheet). make import: the sheet SHEET as the design NUMBER of account ACCOUNT in the empty slot SLOT of PACK.
# make sheet: what the sheet SHEET holds, with a picture of its weave.
# make docs: what the documents take from the code, and whatever repeats the lent tables. make bench: the keeper's speed beside the C port's and the reference's (docs/BENCHMARKS.md).
# make plug: kills a weaver on a file disk, KILLS times, and checks every promise. make break: a wrong definition, WRONG, refused before your eyes.
# make timeline: a list of events, LIST, as one HTML file to look at. make misses: the misses of a list of page uses, TRACE, for 1 to 64 frames, and its reads from the disk with a chip of 1 to 256 pages. (docs/TESTS.md; what these are made of is tested, not proved.)
# make cross: the library for another processor, TARGET. make cross-test: each of them beside x86-64's own, by emulation (docs/USING.md, "Another processor").
.PHONY: test replay starts mend convert export import sheet named-pack named-files named-export named-import named-sheet mutants docs bench plug break misses timeline cross cross-test
LIST = examples/two-mills.txt
LIBRARY = target/staticlib/libkeeper.a
DISK_LIBRARY = target/staticlib/libdisk.a
SECTORS_LIBRARY = target/staticlib/libsectors.a
STARTS = crates/starts/out/starts
KILLS = 2000
TRACE = examples/traces/weaving.txt
# what the tools of packs are built over: the file disk, or, by DRIVER=examples/sectordisk, the one on sectors
DRIVER = examples
DRIVER_LIBRARIES = $(LIBRARY) $(if $(filter examples/sectordisk,$(DRIVER)),$(DISK_LIBRARY))
FILEDISK = $(wildcard $(DRIVER)/filedisk*.c)
# by the environment, so that a name may have blanks in it
export PACK OLD NEW SLOT ACCOUNT NUMBER SHEET
MODULE = target/cross/module.bc
SOURCES = crates.txt $(shell find crates -name out -prune -o \( -name '*.rt' -o -name '*.antt' \) -print)

test:
	bash .ci/run

replay:
	@python3 tools/prove.py replay
	@python3 tools/events.py encode $(LIST) > target/example.in
	@crates/replay/out/replay < target/example.in > target/example.out
	@echo && python3 tools/events.py show $(LIST) target/example.out

break:
	@python3 tools/break.py $(WRONG)

starts:
	@mkdir -p target
	@$(MAKE) -s --no-print-directory $(STARTS) > target/starts.log 2>&1 || { cat target/starts.log; false; }
	@$(STARTS)

named-pack:
	@[ -n "$$PACK" ] || { echo "make mend PACK=file: which pack is to be mended?"; exit 2; }

mend: named-pack $(DRIVER_LIBRARIES)
	@mkdir -p target/mend
	@gcc -std=c99 -O1 -Wall -Wextra -Iinclude -I$(DRIVER) tools/mend.c $(FILEDISK) $(DRIVER_LIBRARIES) -o target/mend/mend
	@target/mend/mend "$$PACK" "$$PACK.mended"

named-files:
	@[ -n "$$OLD" ] && [ -n "$$NEW" ] || { echo "make convert OLD=file NEW=file: which pack is to be converted, and into which new file?"; exit 2; }

convert: named-files $(DRIVER_LIBRARIES)
	@mkdir -p target/mend
	@gcc -std=c99 -O1 -Wall -Wextra -Iinclude -I$(DRIVER) tools/convert.c $(FILEDISK) $(DRIVER_LIBRARIES) -o target/mend/convert
	@target/mend/convert "$$OLD" "$$NEW"

named-export:
	@[ -n "$$PACK" ] && [ -n "$$SLOT" ] && [ -n "$$SHEET" ] || { echo "make export PACK=file SLOT=number SHEET=file: which design of which pack, and into which new file?"; exit 2; }

export: named-export $(DRIVER_LIBRARIES)
	@mkdir -p target/sheets
	@gcc -std=c99 -O1 -Wall -Wextra -Iinclude -I$(DRIVER) tools/export.c $(FILEDISK) $(DRIVER_LIBRARIES) -o target/sheets/export
	@target/sheets/export "$$PACK" "$$SLOT" "$$SHEET" $(if $(filter 1,$(REPLACE)),replace)

named-import:
	@[ -n "$$PACK" ] && [ -n "$$SLOT" ] && [ -n "$$ACCOUNT" ] && [ -n "$$NUMBER" ] && [ -n "$$SHEET" ] \
	|| { echo "make import PACK=file SLOT=number ACCOUNT=number NUMBER=number SHEET=file: which sheet, into which slot of which pack, who pays, and under which number?"; exit 2; }

import: named-import $(DRIVER_LIBRARIES)
	@mkdir -p target/sheets
	@gcc -std=c99 -O1 -Wall -Wextra -Iinclude -I$(DRIVER) tools/import.c $(FILEDISK) $(DRIVER_LIBRARIES) -o target/sheets/import
	@target/sheets/import "$$PACK" "$$SLOT" "$$ACCOUNT" "$$NUMBER" "$$SHEET"

named-sheet:
	@[ -n "$$SHEET" ] || { echo "make sheet SHEET=file: which sheet is to be shown?"; exit 2; }

sheet: named-sheet
	@mkdir -p target/sheets
	@gcc -std=c99 -O1 -Wall -Wextra -Iinclude tools/sheet.c -o target/sheets/sheet
	@target/sheets/sheet "$$SHEET"

mutants:
	python3 tests/mutants/run.py

docs:
	python3 tools/tables.py --write
	python3 tools/rows.py --write
	python3 tools/pictures.py --write
	python3 tools/spread.py --write
	python3 tools/starts.py --write
	python3 tools/counts.py --write docs/PROOF.md

bench: $(LIBRARY) $(DISK_LIBRARY)
	python3 bench/run.py

timeline: $(LIBRARY)
	@python3 tools/timeline.py $(LIST)

misses: $(LIBRARY)
	@python3 tools/misses.py $(TRACE)

plug: $(LIBRARY)
	KILLS=$(KILLS) tests/plug.sh

# a target that was not tried is refused before anything is proved for it
cross:
	@python3 tools/cross.py --tried "$(TARGET)" $(CROSS_CC)
	@$(MAKE) -s --no-print-directory $(MODULE)
	@python3 tools/cross.py "$(TARGET)" $(CROSS_CC)

cross-test: $(MODULE)
	@python3 tests/cross/run.py $(TARGET)

$(LIBRARY): $(SOURCES)
	@python3 tools/prove.py --lib keeper

$(DISK_LIBRARY): $(SOURCES)
	@python3 tools/prove.py --lib disk

$(SECTORS_LIBRARY): $(SOURCES)
	@python3 tools/prove.py --lib sectors

$(STARTS): $(SOURCES)
	@python3 tools/prove.py starts

# the library is built anew, and the module that it is compiled from is kept
$(MODULE): $(SOURCES)
	@python3 tools/prove.py --module keeper
