# make           build/libzanthupra.a, the exported calls, proved and compiled, and its pkg-config file
# make install   both and the header under PREFIX (/usr/local); DESTDIR=dir stages them for a package
# make run       the script program, proved and built, on an example; each line of the example stands beside its answer.
#                Another script: make run IN=file
# make test      the tests: docs/TRACE.md held to the tree, the header's constants to the crates, the C tests, the Rust
#                tests; then every crate proved from nothing, every must-fail edit refused, every program run. The last line
#                is "N passed, 0 failed".
# make test-c    the C tests alone; make test-rust the twin's tests and the comparison alone
# make compare   random calls through the archive and the twin: make compare CALLS=10000000 SEED=7
# make bench     times of the calls beside the twin's; writes docs/performance.csv and draws docs/performance.svg
# make clean     removes build/
IN ?= examples/lesson.txt
PREFIX ?= /usr/local
VERSION = 0.1
SOURCES := $(shell find crates -name out -prune -o \( -name '*.rt' -o -name '*.antt' \) -print) crates.txt

CALLS ?= 100000
SEED ?= 14
CARGO = ZANTHUPRA_LIB_DIR='$(CURDIR)/build' CARGO_TARGET_DIR='$(CURDIR)/build/cargo' RUSTFLAGS=-Dwarnings cargo
QUIET = --manifest-path rust/Cargo.toml --offline --quiet

.PHONY: all install run test test-c test-rust compare bench clean FORCE
all: build/libzanthupra.a build/zanthupra.pc

build/libzanthupra.a: tools/build-archive $(SOURCES)
	@mkdir -p build
	@tools/build-archive $@

# written anew each time, as PREFIX may be another
build/zanthupra.pc: zanthupra.pc.in FORCE
	@mkdir -p build
	@sed 's|@PREFIX@|$(PREFIX)|; s|@VERSION@|$(VERSION)|' $< > $@

install: all
	@install -d '$(DESTDIR)$(PREFIX)/include' '$(DESTDIR)$(PREFIX)/lib/pkgconfig'
	@install -m 644 include/zanthupra.h '$(DESTDIR)$(PREFIX)/include'
	@install -m 644 build/libzanthupra.a '$(DESTDIR)$(PREFIX)/lib'
	@install -m 644 build/zanthupra.pc '$(DESTDIR)$(PREFIX)/lib/pkgconfig'

run:
	@mkdir -p build
	@(cd crates/script && rt run < /dev/null) > build/run.log 2>&1 || { tail -n 20 build/run.log; exit 1; }
	@crates/script/out/script < "$(IN)" | paste - "$(IN)"

# what takes seconds first; rt ci last: its verdict is the last line
test:
	@tools/check-trace
	@tests/check-constants
	@$(MAKE) -s test-c
	@$(MAKE) -s test-rust
	@tools/prove

test-c: all
	@tests/run-c

test-rust: all
	@$(CARGO) test $(QUIET) -p zanthupra_twin
	@$(MAKE) -s compare

compare: all
	@$(CARGO) run $(QUIET) --release -p compare -- $(CALLS) $(SEED)

bench: all
	@$(CARGO) run $(QUIET) --release -p bench -- --csv docs/performance.csv
	@tools/plot docs/performance.csv docs/performance.svg

clean:
	@rm -rf build
