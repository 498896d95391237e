# `make` from a fresh clone: proves and builds the command, then translates and runs the datum example. `make more`: every test beside the gate, which is `bash .ci/run`.
# What it needs: the Rattle kit (`rt`, README.md says which); for `make more` also cargo, a C compiler and python3. Linux; on another processor than x86-64 tests/x86 runs the command.

SITE = --set R1=612512 --set R3=287512

.PHONY: all datum library more clean

all: target/tautgaff datum

# Every file that the command is made of.
SOURCES := crates.txt $(shell find crates command -type f -not -path '*/data/*' -not -path '*/out/*' 2>/dev/null)

target/tautgaff: $(SOURCES)
	@build/kit
	@build/prove tautgaff_command
	@command/link
	@echo "target/tautgaff: built"

datum: target/tautgaff
	@build/datum $(SITE)

# target/libtautgaff.a, for include/tautgaff.h and rust/
library:
	@build/kit
	@build/prove c_translate_c c_run_c
	@build/library

more: all
	@tests/more

clean:
	rm -rf target reference/target
