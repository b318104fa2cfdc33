# make run       proves the program and prints the enclosures of a sample file
# make test      all that the gate runs; its last line is 'N passed, 0 failed'
# make lib       proves the library for C, Rust and Python and writes it to target/lib, with its header
# make examples  prints a spectrum and a page of earthquakes by way of C, of Rust and of Python
# make bench     measures the library beside plain C doubles and Arb
# make longer    the tests of the program and of millionths on many more scenarios

export PATH := $(PATH):/opt/rattle/bin:$(HOME)/.cargo/bin
export PYTHONDONTWRITEBYTECODE := 1
SHELL := /bin/bash
CC := gcc
WARN := -Wall -Wextra -Werror
PROBE := target/tests/probe
PROGRAM := target/bin/enclosures
SAMPLE := tests/streams/sample
LIB := target/lib
# The hosts' programs, in C, Rust and Python: one answers the tests' questions, one prints a spectrum, one a sheet.
ASKS := target/hosts/c/ask target/hosts/rust/release/ask hosts/python/ask.py
SPECTRA := target/hosts/c/spectrum target/hosts/rust/release/examples/spectrum hosts/python/spectrum.py
SHEETS := target/hosts/c/sheet target/hosts/rust/release/examples/sheet hosts/python/sheet.py
BENCH := target/bench/bench
# rt keeps what it has proved in out/ of each crate; one at a time, so that none waits for another within rt.
LOGS := $(CURDIR)/target/tests
ALONE := flock $(LOGS)/lock

.PHONY: run test lib examples bench longer definitions outside hosts probe program need need_hosts need_bench need_test
.PHONY: test_logarithm test_records test_models test_answers test_millionths test_enclosures test_program_failures
.PHONY: test_hosts test_sheets test_sigma test_kinds test_contracts
.SILENT:

run: program
	$(PROGRAM) < $(SAMPLE).stdin

# rt ci proves every crate, tries the must-fail edits and runs the program; an edit that does not read is a fault here.
# Its last line comes at the end.
test: definitions
	set -o pipefail; verdict=$$(mktemp); \
	rt ci 2>&1 | tee $$verdict && tools/verdict $$verdict && $(MAKE) --no-print-directory -j 3 -O outside && \
	tail -n 1 $$verdict; \
	status=$$?; rm -f $$verdict; exit $$status

longer: program hosts
	python3 tests/test_enclosures.py $(PROGRAM) 1000000 2008
	python3 tests/test_millionths.py $(firstword $(ASKS)) 100000 2008

examples: hosts
	for example in $(SPECTRA) $(SHEETS); do echo "$$example"; echo; $$example || exit 1; echo; done

# The nanoseconds depend on the machine and on what else it does; the instructions do not.
bench: need_bench lib
	mkdir -p $(dir $(BENCH))
	$(CC) -O3 -std=c11 $(WARN) -D_GNU_SOURCE -I$(LIB) -o $(BENCH) bench/*.c $(LIB)/libfusnoch.a -lm -lflint-arb -lflint
	$(BENCH)
	echo
	bench/instructions $(BENCH)

# The tests outside Rattle of what the definitions say, and of the programs.
definitions: need_test
	tools/edits
	tools/contracts --check
	tools/logarithm_tables.py --check
	python3 tests/test_exact.py
	python3 tests/test_values.py
	python3 tests/test_coefficients.py
	cmp $(SAMPLE).stdin crates/enclosures/stdin
	cmp $(SAMPLE).stdout crates/enclosures/stdout

# The longest first, and with it the hosts' library, which most of the others wait for.
outside: test_enclosures test_hosts test_millionths test_records test_sheets test_answers test_kinds test_models
outside: test_contracts test_logarithm test_sigma test_program_failures

test_logarithm test_models: test_%: probe
	python3 tests/$@.py $(PROBE)

test_records: probe hosts
	python3 tests/$@.py $(firstword $(ASKS)) $(PROBE)

test_answers test_millionths: test_%: hosts
	python3 tests/$@.py $(firstword $(ASKS))

test_hosts: hosts
	python3 tests/$@.py $(ASKS) $(SPECTRA)

test_sheets: hosts
	python3 tests/$@.py $(ASKS) $(SHEETS)

test_sigma: hosts program
	python3 tests/$@.py $(firstword $(ASKS)) $(PROGRAM)

test_kinds: hosts
	python3 tests/$@.py $(LIB)

test_contracts:
	python3 tests/$@.py

test_enclosures test_program_failures: test_%: program
	python3 tests/$@.py $(PROGRAM)

# The crates of what the header has: the functions first, then the structs that they use.
HEADER := host host_theory engine_theory sheet_theory governing_theory

# The library for hosts: static and shared, and its header.
lib: need
	mkdir -p target/tests $(LIB)
	cd crates/host && $(ALONE) rt lib > $(LOGS)/host.log 2>&1 || { cat $(LOGS)/host.log; exit 1; }
	cp crates/host/out/libhost.a $(LIB)/libfusnoch.a
	$(CC) -shared -o $(LIB)/libfusnoch.so -Wl,--whole-archive $(LIB)/libfusnoch.a -Wl,--no-whole-archive
	tools/header $(HEADER:%=crates/%/src/lib.rt) > $(LIB)/fusnoch.h

# The hosts' programs; cargo finds its settings from the directory it runs in.
hosts: need_hosts lib
	mkdir -p target/hosts/c
	for program in ask spectrum sheet; do \
	    $(CC) -O2 -std=c99 $(WARN) -I$(LIB) -o target/hosts/c/$$program hosts/c/$$program.c hosts/c/ground_motion.c \
	        $(LIB)/libfusnoch.a || exit 1; \
	done
	cd hosts/rust && cargo build --quiet --offline --release --bins --examples

# A program over the proved libraries, for the tests.
probe: need
	mkdir -p target/tests
	cd crates/probes && $(ALONE) rt lib > $(LOGS)/probes.log 2>&1 || { cat $(LOGS)/probes.log; exit 1; }
	$(CC) -O2 -std=c99 $(WARN) -o $(PROBE) tests/probe.c crates/probes/out/libprobes.a

# The program, proved and run once, on no input.
program: need
	mkdir -p target/tests $(dir $(PROGRAM))
	cd crates/enclosures && $(ALONE) rt run < /dev/null > $(LOGS)/enclosures.log 2>&1 || { cat $(LOGS)/enclosures.log; exit 1; }
	cp crates/enclosures/out/enclosures $(PROGRAM)

need:
	tools/need

# One after the other, as only one can install at a time.
need_hosts: need
	tools/need hosts

need_bench: need
	tools/need arb memory

need_test: need
	tools/need hosts memory
