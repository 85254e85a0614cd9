# Two commands: `make demo` and `make test`. `make lib`, `make install` and `make example` are for programs that use the library; `make bench` measures.
.PHONY: test demo lib install uninstall example header python differential bench valgrind fuzz faults vectors cases

# rt uses all cores itself, and two runs of it at once would write the same files.
.NOTPARALLEL:

# The version stands in the file VERSION alone.
VERSION := $(shell cat VERSION)
MAJOR := $(firstword $(subst ., ,$(VERSION)))

# Everything that is built goes to target/. With TARGET=FOLDER the archive and the lister that stand in another folder are used as they are.
TARGET = target
ARCHIVE = $(TARGET)/staticlib/libchronicle_map_c.a
SHARED = $(TARGET)/lib/libchronicle_map.so.$(VERSION)
LISTER = $(TARGET)/bin/lister
CARGO = CARGO_TARGET_DIR=$(CURDIR)/target/cargo cargo

# The whole gate: all proofs, the must-fail edits (wrong changes that the prover must refuse), the programs and the tests.
test:
	.ci/run

# Proves the library and the lister, lists the sample store and looks up both orders of its pair.
demo:
	@examples/demo

# All that `make install` copies: the archive, the shared library made from it, and the lister. With include/chronicle_map.h a C program
# links target/staticlib/libchronicle_map_c.a or target/lib/libchronicle_map.so.
lib: $(SHARED) $(LISTER)

# rt is run only where a source is newer, so that `sudo make install` needs no rt in root's PATH. What rt builds stands in the crate's out/.
below = $(foreach path,$(filter-out %/out,$(wildcard $(1)/*)),$(path) $(call below,$(path)))
SOURCES := crates.txt $(filter %.rt %.antt,$(call below,crates))

target/staticlib/libchronicle_map_c.a: $(SOURCES)
	@mkdir -p $(@D)
	cd crates/chronicle_map_c && rt lib
	cp crates/chronicle_map_c/out/libchronicle_map_c.a $@

# rt run proves the lister, builds it and lists the sample store.
target/bin/lister: $(SOURCES)
	@mkdir -p $(@D)
	cd crates/lister && rt run < stdin
	cp crates/lister/out/lister $@

# Nothing but the functions of the header is exported, and nothing but the C library is needed. Its other two names are copies here, since
# rt ci refuses links in a checkout; what is installed has links.
ifneq ($(shell command -v gcc 2> /dev/null),)
$(SHARED): $(ARCHIVE)
	mkdir -p $(@D)
	echo '{ global: chronicle_map_*; local: *; };' > $(@D)/exports.map
	gcc -shared -o $@ -Wl,-soname,libchronicle_map.so.$(MAJOR) -Wl,--version-script,$(@D)/exports.map -Wl,--strip-debug \
		-Wl,-z,defs,-z,relro,-z,now,-z,noexecstack -Wl,--whole-archive $(ARCHIVE) -Wl,--no-whole-archive
	cp $@ $(@D)/libchronicle_map.so.$(MAJOR)
	cp $@ $(@D)/libchronicle_map.so
else
$(SHARED): $(ARCHIVE)
	@rm -f $@ $(@D)/libchronicle_map.so $(@D)/libchronicle_map.so.$(MAJOR)
	@echo "the shared library: skipped, there is no gcc on this machine"
endif

# Copies the header, both libraries, the pkg-config file, the lister and the manual pages to PREFIX. DESTDIR is put before each place.
# What was made is noted in DATADIR/chronicle_map/installed, and `make uninstall` with the same places goes by that.
PREFIX = /usr/local
BINDIR = $(PREFIX)/bin
LIBDIR = $(PREFIX)/lib
INCLUDEDIR = $(PREFIX)/include
DATADIR = $(PREFIX)/share
MANDIR = $(DATADIR)/man
INSTALL = install
PLACES = DESTDIR="$(DESTDIR)" PREFIX="$(PREFIX)" BINDIR="$(BINDIR)" LIBDIR="$(LIBDIR)" INCLUDEDIR="$(INCLUDEDIR)" DATADIR="$(DATADIR)" \
	MANDIR="$(MANDIR)"
install: lib
	@$(PLACES) INSTALL="$(INSTALL)" ARCHIVE="$(ARCHIVE)" SHARED="$(SHARED)" LISTER="$(LISTER)" tools/install

uninstall:
	@$(PLACES) tools/uninstall

# Builds the examples in C, looks up both keys of the sample store and one that is absent, looks up and sets delays by pair, replaces one
# by both kinds of store, adds a bulk for the fifth of six new keys, and looks up all pairs of channels quickly after one check.
CC99 = gcc -std=c99 -Wall -Wextra -Werror -Iinclude
example: $(ARCHIVE) header examples/pairs.store
	@mkdir -p target
	$(CC99) examples/lookup.c $(ARCHIVE) -o target/lookup
	$(CC99) examples/delay.c $(ARCHIVE) -o target/delay
	$(CC99) examples/replace.c $(ARCHIVE) -o target/replace
	$(CC99) examples/grow.c $(ARCHIVE) -o target/grow
	$(CC99) examples/plot.c $(ARCHIVE) -o target/plot
	target/lookup examples/pairs.store 1 2
	target/lookup examples/pairs.store 2 1
	target/lookup examples/pairs.store 1 3 || test $$? -eq 1
	target/delay examples/pairs.store 1 2
	target/delay examples/pairs.store 2 1
	target/delay examples/pairs.store 2 1 40
	target/delay examples/pairs.store 31 32 -25
	target/replace examples/pairs.store 1 2 32
	target/grow examples/pairs.store 6
	target/plot examples/pairs.store

# The out structs have the layout of the compiled functions' arrays, and a caller with an array of the earlier header does not compile.
header:
	gcc -std=c11 -Wall -Wextra -Werror -Iinclude -fsyntax-only tests/header/layout.c
	$(CC99) -fsyntax-only tests/header/old_array.c 2>&1 | grep -q "old_array.c.*error.*chronicle_map_lookup"

# The lister's sample without the length between block and image.
examples/pairs.store: crates/lister/stdin
	(head -c 71 $<; tail -c +76 $<) > $@

# The tests of the Python package, which loads the shared library of target/lib; then those of docs/FORMAT.md and README.
PYTHON = env -u CHRONICLE_MAP_LIB PYTHONDONTWRITEBYTECODE=1 PYTHONPATH="$(CURDIR)/bindings/python" python3
python: lib
	@command -v python3 > /dev/null || { echo "the Python tests: skipped, there is no python3 on this machine"; exit; }; \
	python3 -c 'import sys; sys.exit(sys.version_info < (3, 9))' || { echo "the Python tests: skipped, python3 is older than 3.9"; exit; }; \
	[ -e $(SHARED) ] || { echo "the Python tests: skipped, there is no shared library"; exit; }; \
	$(PYTHON) tests/run-python bindings/python/tests:bindings/python tests/format tests/readme

# The independent implementation's own tests, then the library against it: random stores, histories and damaged images.
differential: $(ARCHIVE)
	cd tests/reference && $(CARGO) test --release --offline -q
	cd bindings/rust && $(CARGO) test --offline -q
	cd tests/differential && $(CARGO) run --release --offline -q -- $(ARGS)

# Ratios against the independent implementation and, where Debian's libxxhash-dev and liblmdb-dev are installed, against the hash of
# the one and the lookup of the other; and the stack that each call needs. A part alone: ARGS="--chains --chain-calls", ARGS=--stack.
bench: $(ARCHIVE)
	cd tests/bench && $(CARGO) run --release --offline -q $(if $(wildcard /usr/include/xxhash.h),--features xxhash) \
		$(if $(wildcard /usr/include/lmdb.h),--features lmdb) -- $(ARGS)

# A short run of the differential tests under valgrind.
valgrind: $(ARCHIVE)
	cd tests/differential && $(CARGO) build --release --offline -q
	valgrind -q --error-exitcode=1 target/cargo/release/differential --count 400

# The fuzz target over arbitrary bytes, for SECONDS (clang's libFuzzer).
SECONDS = 120
fuzz: $(ARCHIVE)
	mkdir -p target/fuzz/corpus
	clang -O1 -g -fsanitize=fuzzer -Iinclude tests/fuzz/calls.c $(ARCHIVE) -o target/fuzz/calls
	tests/fuzz/seeds target/fuzz/seeds
	cd target/fuzz && ./calls -max_total_time=$(SECONDS) -max_len=70000 corpus seeds

# Plants faults (errors on purpose) in copies of the independent implementation and tests whether the differential tests find each; writes
# docs/TESTING.md's table.
faults:
	tests/faults/plant.py

# Generates the stored inputs of the lister again and compares what it prints.
cases: $(LISTER)
	tests/lister/make
	tests/lister-cases

# Computes the expected output of crates/vectors again, with Debian's xxhsum, and compares it with the stored one.
vectors:
	tests/regenerate-vectors --check
