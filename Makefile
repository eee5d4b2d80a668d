# Rigcactus: the library, the program over it, and what tries them. All that is built lies below target/.
#
#     make          the library (proved first) and the program, target/host/rigcactus
#     make run      prints receipts, cuts names in several scripts, reads timestamps, checks and compares records, lists the times of passes
#                   and prints them back as records, and adds up a day's money, of one desk and of two, for a reader to look at
#     make install PREFIX=..    installs the archive, the header, a file for pkg-config, the program and manual pages; DESTDIR=.. goes before
#                   PREFIX where they are only to be put, and make uninstall takes them away
#     make test     tries the library, the header and the program
#     make sanitize runs the program's tests, and damaged records, under AddressSanitizer and UBSan
#     make valgrind runs every command, and damaged records, under valgrind
#     make bench    compares speed with what would be used instead: Rust's standard library, glibc, expat, Boost.ICL
#     make bench-page    the same, and puts the tables into docs/BENCH.md
#     make compare-expat    compares the reader of markup with expat on a million texts, and has expat read printed records; it needs expat
#     make fuzz     fuzzes the services for half an hour, or for SECONDS=N; it needs clang with libFuzzer
#     make clean    removes target/

RUSTC ?= rustc
CFLAGS = -std=c11 -O2 -Wall -Wextra -Werror
CXXFLAGS = -std=c++11 -O2 -Wall -Wextra -Werror
RUSTFLAGS = --edition 2021 -O -D warnings
LINK_RUST = -L native=target/staticlib -l static=rigcactus

archive = target/staticlib/librigcactus.a
markup_archive = target/staticlib/libmarkup_bench.a
header = include/rigcactus.h
program = target/host/rigcactus
host_sources = $(wildcard host/*.c)
host_headers = $(wildcard host/*.h)
# All of the program but its commands, for tests that call it.
host_parts = $(filter-out host/rigcactus.c,$(host_sources))
SANITIZE = -g -fsanitize=address,undefined -fno-sanitize-recover=all
sanitized = target/sanitize/rigcactus target/sanitize/damage target/sanitize/moment

PREFIX = /usr/local
DESTDIR =
INSTALL = install
prefix = $(abspath $(PREFIX))
version = 0.4.0
records = $(wildcard tests/records/*.txt)
proved = $(shell find crates \( -name '*.rt' -o -name '*.antt' \) -not -path '*/must-fail/*' -not -path '*/out/*') crates.txt
# The services that the archive has. Adding one here has tests/services.rs try it.
services = rigcactus_cut rigcactus_tick rigcactus_check rigcactus_list rigcactus_compare rigcactus_print rigcactus_totals_start \
	rigcactus_totals_open rigcactus_totals_add rigcactus_totals_report
c_api = $(patsubst %,target/tests/c_api_%,1 2 3 4 5 6 7 8)
tests = target/tests/header_c $(c_api) target/tests/documents target/tests/services target/tests/stack target/tests/replay target/tests/planted target/tests/seeds \
	target/tests/markup_stack target/tests/markup_reader target/tests/moment target/tests/damage
places = 0 16 32 48
cxx = $(shell command -v $(CXX) 2> /dev/null)
can_sanitize = $(shell mkdir -p target && echo 'int main(void) { return 0; }' | $(CC) $(SANITIZE) -x c -o target/can_sanitize - 2> /dev/null && echo yes)
expat = $(shell $(CC) -include expat.h -fsyntax-only -x c /dev/null 2> /dev/null && echo yes)
boost = $(shell $(CXX) -include boost/version.hpp -fsyntax-only -x c++ /dev/null 2> /dev/null && echo yes)

.PHONY: all run install uninstall test sanitize valgrind bench bench-page compare-expat fuzz clean
.DELETE_ON_ERROR:
.SECONDARY:

all: $(archive) $(program)

# rt says a lot when it proves; it is shown only where it fails.
$(archive): $(proved)
	@mkdir -p target
	@echo 'proving and building $@'
	@cd crates/rigcactus_c && rt lib > ../../target/staticlib.out 2>&1 || { cat ../../target/staticlib.out; exit 1; }
	@mkdir -p $(@D) && cp crates/rigcactus_c/out/librigcactus_c.a $@

$(markup_archive): $(proved)
	@mkdir -p target
	@echo 'proving and building $@'
	@cd crates/markup_bench && rt lib > ../../target/staticlib.out 2>&1 || { cat ../../target/staticlib.out; exit 1; }
	@mkdir -p $(@D) && cp crates/markup_bench/out/libmarkup_bench.a $@

$(program): $(host_sources) $(host_headers) $(header) $(archive)
	@mkdir -p $(@D)
	$(CC) $(CFLAGS) -Wpedantic -Iinclude -o $@ $(host_sources) $(archive)

run: $(program)
	@echo
	@examples/receipt.sh
	@echo
	@examples/cut.sh
	@echo
	@examples/tick.sh
	@echo
	@examples/check.sh
	@echo
	@examples/list.sh
	@echo
	@examples/print.sh
	@echo
	@examples/compare.sh
	@echo
	@examples/totals.sh

# What is installed: a folder below PREFIX, the file's mode, and the file.
installed = lib:644:$(archive) include:644:$(header) lib/pkgconfig:644:target/rigcactus.pc bin:755:$(program) \
	share/man/man1:644:man/rigcactus.1 share/man/man3:644:man/rigcactus.3

install: all target/rigcactus.pc
	@for line in $(installed); do \
	  folder="$(DESTDIR)$(prefix)/$${line%%:*}"; file=$${line##*:}; mode=$${line#*:}; mode=$${mode%%:*}; \
	  $(INSTALL) -d "$$folder" && $(INSTALL) -m "$$mode" "$$file" "$$folder" && echo "installed $$folder/$${file##*/}" || exit 1; \
	done

uninstall:
	@for line in $(installed); do rm -f "$(DESTDIR)$(prefix)/$${line%%:*}/$${line##*/}" || exit 1; done

# Written each time, since PREFIX may be another.
.PHONY: target/rigcactus.pc
target/rigcactus.pc: rigcactus.pc.in
	@mkdir -p $(@D)
	@sed 's|@PREFIX@|$(prefix)|; s|@VERSION@|$(version)|' $< > $@

test: $(program) $(tests) $(if $(cxx),target/tests/header_cxx) $(if $(can_sanitize),$(sanitized))
	tests/run

sanitize: $(sanitized)
	tests/sanitize

valgrind: $(program) target/tests/damage
	tests/valgrind 7

target/tests/moment: tests/host/moment.c host/moment.c host/moment.h $(header)
	@mkdir -p $(@D)
	$(CC) $(CFLAGS) -Wpedantic -Iinclude -Ihost -o $@ $(filter %.c,$^)

target/tests/damage: tests/host/damage.c $(host_parts) $(host_headers) $(header) $(archive)
	@mkdir -p $(@D)
	$(CC) $(CFLAGS) -Wpedantic -Iinclude -Ihost -o $@ $(filter %.c,$^) $(archive)

target/sanitize/moment: tests/host/moment.c host/moment.c host/moment.h $(header)
	@mkdir -p $(@D)
	$(CC) $(CFLAGS) -Wpedantic $(SANITIZE) -Iinclude -Ihost -o $@ $(filter %.c,$^)

target/sanitize/damage: tests/host/damage.c $(host_parts) $(host_headers) $(header) $(archive)
	@mkdir -p $(@D)
	$(CC) $(CFLAGS) -Wpedantic $(SANITIZE) -Iinclude -Ihost -o $@ $(filter %.c,$^) $(archive)

target/sanitize/rigcactus: $(host_sources) $(host_headers) $(header) $(archive)
	@mkdir -p $(@D)
	$(CC) $(CFLAGS) -Wpedantic $(SANITIZE) -Iinclude -o $@ $(host_sources) $(archive)

target/tests/header_c: tests/header.c $(header) $(archive)
	@mkdir -p $(@D)
	$(CC) $(CFLAGS) -Wpedantic -Iinclude -o $@ $< $(archive)

target/tests/header_cxx: tests/header.c $(header) $(archive)
	@mkdir -p $(@D)
	$(CXX) $(CXXFLAGS) -Wpedantic -Iinclude -o $@ -x c++ $< -x none $(archive)

# The programs that docs/C-API.md shows, by their order there.
target/tests/c_api_%.c: docs/C-API.md
	@mkdir -p $(@D)
	awk '/^```c$$/ { n++; inside = n == $*; next } /^```$$/ { inside = 0 } inside' $< > $@

$(c_api): %: %.c $(header) $(archive)
	$(CC) $(CFLAGS) -Wpedantic -Iinclude -o $@ $< $(archive)

target/tests/documents: $(wildcard tests/documents/*.rs)
	@mkdir -p $(@D)
	$(RUSTC) $(RUSTFLAGS) -o $@ tests/documents/main.rs

target/tests/services: $(wildcard tests/*.rs) $(records) $(archive) Makefile
	@mkdir -p $(@D)
	$(RUSTC) $(RUSTFLAGS) $(services:%=--cfg %) -o $@ tests/services.rs $(LINK_RUST)

target/tests/stack: $(wildcard tests/*.rs) $(records) $(archive) Makefile
	@mkdir -p $(@D)
	$(RUSTC) $(RUSTFLAGS) $(services:%=--cfg %) -o $@ tests/stack.rs $(LINK_RUST)

# What the fuzzer does to an input, done to stored ones: the same source, without a fuzzer.
target/tests/libsecond.a: tests/fuzz/second.rs $(wildcard tests/*.rs)
	@mkdir -p $(@D)
	$(RUSTC) $(RUSTFLAGS) --crate-type staticlib -o $@ $<

target/tests/replay: tests/fuzz/services.c $(header) $(archive) target/tests/libsecond.a
	$(CC) $(CFLAGS) -DREPLAY -Iinclude -o $@ $< $(archive) target/tests/libsecond.a -lpthread -ldl -lm

target/tests/planted: tests/fuzz/services.c tests/fuzz/planted.c $(header) $(archive) target/tests/libsecond.a
	$(CC) $(CFLAGS) -DREPLAY -Iinclude $(services:%=-Wl,--wrap=%) -o $@ tests/fuzz/services.c tests/fuzz/planted.c $(archive) target/tests/libsecond.a -lpthread -ldl -lm

target/tests/seeds: tests/fuzz/seeds.rs tests/table.rs $(records) $(wildcard examples/names/* examples/records/*)
	@rm -rf $@ && mkdir -p $@
	$(RUSTC) $(RUSTFLAGS) -o target/tests/make_seeds $<
	target/tests/make_seeds $@

target/tests/markup_stack: tests/markup/stack.c $(markup_archive)
	@mkdir -p $(@D)
	$(CC) $(CFLAGS) -o $@ $< $(markup_archive)

target/tests/markup_reader: tests/markup/reader.rs tests/markup/names.rs tests/random.rs $(markup_archive)
	@mkdir -p $(@D)
	$(RUSTC) $(RUSTFLAGS) -o $@ $< -L native=target/staticlib -l static=markup_bench

# Not among the tests: expat is asked for nowhere else.
compare-expat: target/tests/compare_expat target/tests/print_expat
	target/tests/compare_expat
	target/tests/print_expat

target/tests/compare_expat: tests/markup/expat.c $(markup_archive)
	@mkdir -p $(@D)
	$(CC) $(CFLAGS) -o $@ $< $(markup_archive) -lexpat

target/tests/print_expat: tests/print/expat.c $(header) $(archive)
	@mkdir -p $(@D)
	$(CC) $(CFLAGS) -Iinclude -o $@ $< $(archive) -lexpat

# The fuzzer is led by the branches that are taken in the services and in the second implementations, both compiled for it here. Not among
# the tests either.
SECONDS ?= 1800
COVERAGE = -C codegen-units=1 -C passes=sancov-module $(patsubst %,-C llvm-args=-sanitizer-coverage-%,level=3 inline-8bit-counters pc-table trace-compares)

fuzz: $(archive)
	@tests/fuzz/run $(SECONDS)

target/fuzz/librigcactus.a: $(archive) tests/fuzz/instrument
	@mkdir -p $(@D)
	tests/fuzz/instrument $@

target/fuzz/libsecond.a: tests/fuzz/second.rs $(wildcard tests/*.rs)
	@mkdir -p $(@D)
	$(RUSTC) $(RUSTFLAGS) $(COVERAGE) --crate-type staticlib -o $@ $<

target/fuzz/services: tests/fuzz/services.c $(header) target/fuzz/librigcactus.a target/fuzz/libsecond.a
	clang $(CFLAGS) -O1 -g -fsanitize=fuzzer,address,undefined -fno-sanitize-recover=all -Iinclude -o $@ $< $(@D)/librigcactus.a $(@D)/libsecond.a -lpthread -ldl -lm

# The bench is linked with the services at four places, since their speed depends on that. Without expat nothing is there to compare
# checking, comparing and daily totals with, and listing is compared with Boost.ICL's sets as well.
benches = cut tick print $(if $(expat),check compare totals $(if $(boost),list))
bench: $(foreach bench,$(benches),$(places:%=target/bench/%/$(bench)))
	@bench/times
	@bench/instructions
	@bench/ratios measured glance shares growth

bench-page: bench
	bench/page

target/bench/%/librigcactus.a: $(archive) bench/place
	bench/place $* $@ $(services)

target/bench/%/cut: bench/cut.rs target/bench/%/librigcactus.a
	$(RUSTC) $(RUSTFLAGS) -o $@ $< -L native=$(@D) -l static=rigcactus

target/bench/%/tick: bench/tick.c bench/sides.h $(header) target/bench/%/librigcactus.a
	$(CC) $(CFLAGS) -Iinclude -o $@ $< $(@D)/librigcactus.a

target/bench/%/print: bench/print.c bench/sides.h $(header) target/bench/%/librigcactus.a
	$(CC) $(CFLAGS) -Iinclude -o $@ $< $(@D)/librigcactus.a

target/bench/%/check: bench/check.c bench/sides.h bench/records.h $(header) target/bench/%/librigcactus.a
	$(CC) $(CFLAGS) -Iinclude -o $@ $< $(@D)/librigcactus.a -lexpat

target/bench/%/compare: bench/compare.c bench/sides.h bench/records.h $(header) target/bench/compare_expat.o target/bench/%/librigcactus.a
	$(CC) $(CFLAGS) -Iinclude -o $@ $< target/bench/compare_expat.o $(@D)/librigcactus.a -lexpat

target/bench/%/list: bench/list.c bench/sides.h bench/records.h $(header) target/bench/list_expat_icl.o target/bench/%/librigcactus.a
	$(CC) $(CFLAGS) -Iinclude -o $@ $< target/bench/list_expat_icl.o $(@D)/librigcactus.a -lexpat -lstdc++ -lm

target/bench/%/totals: bench/totals.c bench/sides.h $(header) target/bench/totals_expat.o target/bench/%/librigcactus.a
	$(CC) $(CFLAGS) -Iinclude -o $@ $< target/bench/totals_expat.o $(@D)/librigcactus.a -lexpat

target/bench/totals_expat.o: bench/totals_expat.c bench/totals_expat.h
	@mkdir -p $(@D)
	$(CC) $(CFLAGS) -c -o $@ $<

target/bench/compare_expat.o: bench/compare_expat.c bench/compare_expat.h $(header)
	@mkdir -p $(@D)
	$(CC) $(CFLAGS) -Iinclude -c -o $@ $<

target/bench/list_expat_icl.o: bench/list_expat_icl.cpp bench/list_expat_icl.h $(header)
	@mkdir -p $(@D)
	$(CXX) -std=c++17 -O3 -Wall -Wextra -Werror -Iinclude -c -o $@ $<

clean:
	rm -rf target
