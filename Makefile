# The C side: the example firmware, the library for other processors and the benchmark. All that is made lies below target/.
#   make run      the library if need be, the example, and its run
#   make check    the example's output against examples/card.expected, its GSD file, the header in C99 and in C++17, lists
#                 of calls
#   make bench    instructions for each call and on the lent state (needs valgrind), entries that the lookup of each service
#                 point looks at (by rt, whatever LIB is), and octets per second
#   make cross    the library for the processors of cards, built and tried (see cross/cross.mk)
#   make install  header, library, the libraries that make cross built, and a pkg-config file, below PREFIX
#   make clean    removes what this file made; the libraries of x86-64 stay
# LIB=path takes another library than the repository's for run, check and bench. LENT=path takes another one for the bench
# loop on the lent state; with LENT= its column stays empty. BEFORE=folder is another tree of this repository with its
# libraries built and the same calls in the header, but for last arguments that it does not have yet: make bench then
# has a column with their instructions. LISTS=folder takes the lists of calls from another folder.

PROVED_LIB := target/staticlib/libcard.a
# A library for every x86-64: rt's default needs the instructions of its second level, and a library does not look for them.
ANY_CPU := --cpu x86-64
LIB ?= $(PROVED_LIB)
LENT ?= target/staticlib/liblent.a
BEFORE :=
LISTS ?= tests/vectors
OUT := target/c

# The base, document 01, is 1.0; with request n of document 02 it becomes 1.n. What stands of a request before the whole adds .1.
VERSION := 1.7.1
PREFIX ?= /usr/local

CC := gcc
CXX := g++
WARNINGS := -Wall -Wextra -Werror -pedantic -Wl,--fatal-warnings
CFLAGS := -std=c99 -O2 $(WARNINGS)
CXXFLAGS := -x c++ -std=c++17 -O2 $(WARNINGS)
CPPFLAGS := -Iinclude -Iexamples

# Under valgrind a smaller number does: the counts are the same in every cycle.
COUNTED_CYCLES := 200

HEADERS := include/dp.h examples/refusals.h examples/card.h
FIRMWARE := examples/card.c examples/older.c examples/panel.c examples/sensor.c examples/master.c examples/firmware.h \
    $(HEADERS)
WORKLOAD := bench/workload.c bench/workload.h $(HEADERS)

# The calls that cross/wrong-stations.c makes wrong.
WRAPPED := dp_read dp_write dp_start dp_gap dp_octet dp_tick dp_take_outputs dp_pending dp_window_read dp_window_write

# The programs whose instructions are counted.
COUNTED := bench $(if $(LENT),lent) $(if $(BEFORE),before)

.PHONY: run check check-example check-gsd check-header check-prototypes check-lists bench bench-native install clean FORCE

# Two runs of rt at once would write to the same files.
.NOTPARALLEL:

run: $(OUT)/card
	$(OUT)/card

include cross/cross.mk

# The sources of crates; beside them rt leaves what it made, in out/.
sources = $(shell find $(wildcard $(1:%=%/src) $(1:%=%/specs) $(1:%=%/proofs)) -type f)

# A library is proved again when something under crates/ is newer than it; that takes minutes. Its exports stand in a crate
# of their own, which ends in _c, since a crate is a library for other crates or for C, not both.
target/staticlib/lib%.a: crates.txt $(call sources,crates/*)
	cd crates/$*_c && rt lib $(ANY_CPU)
	mkdir -p $(@D)
	cp crates/$*_c/out/lib$*_c.a $@

$(OUT):
	mkdir -p $@

# Which libraries were linked: with another one everything is linked again.
$(OUT)/library: FORCE | $(OUT)
	@echo '$(LIB) $(LENT)' | cmp -s - $@ || echo '$(LIB) $(LENT)' >$@

$(OUT)/card: $(FIRMWARE) $(LIB) $(OUT)/library | $(OUT)
	$(CC) $(CPPFLAGS) $(CFLAGS) $(filter %.c,$(FIRMWARE)) $(LIB) -o $@

$(OUT)/header-c99: examples/header.c $(HEADERS) $(LIB) $(OUT)/library | $(OUT)
	$(CC) $(CPPFLAGS) $(CFLAGS) $< $(LIB) -o $@

$(OUT)/header-c++17: examples/header.c $(HEADERS) $(LIB) $(OUT)/library | $(OUT)
	$(CXX) $(CPPFLAGS) $(CXXFLAGS) $< -x none $(LIB) -o $@

# Bound at the start: valgrind would count the binding of memset as a part of the call that needs it first.
$(OUT)/bench: bench/bench.c $(WORKLOAD) $(LIB) $(OUT)/library | $(OUT)
	$(CC) $(CPPFLAGS) $(CFLAGS) $< bench/workload.c $(LIB) -Wl,-z,now -o $@

# $(1): a library of the tree BEFORE, $(2): what builds it there.
require_before = [ -f $(1) ] || { echo "BEFORE: $(1) is not there; in $(BEFORE), $(2) builds it" >&2; exit 1; }

# Another version is counted with the same telegrams, but what it makes of a repeat is its own, and a station that it refuses for a length
# of 0, or for a memory that its channels need, is left out.
$(OUT)/before: bench/bench.c $(WORKLOAD) FORCE | $(OUT)
	@$(call require_before,$(BEFORE)/$(PROVED_LIB),make $(PROVED_LIB))
	$(CC) $(CPPFLAGS) $(CFLAGS) -DOTHER_VERSION $< bench/workload.c $(BEFORE)/$(PROVED_LIB) -Wl,-z,now -o $@

# What the lookup of each service point says; what rt says itself goes to standard error.
$(OUT)/points: crates.txt $(call sources,crates/points crates/lookups) | $(OUT)
	(cd crates/lookups && rt run) >$@

$(OUT)/lent: bench/lent.c bench/lent.h $(WORKLOAD) $(LIB) $(LENT) $(OUT)/library | $(OUT)
	$(CC) $(CPPFLAGS) $(CFLAGS) $< bench/workload.c $(LENT) $(LIB) -Wl,-z,now -o $@

$(OUT)/lists: cross/lists.c $(HEADERS) $(LIB) $(OUT)/library | $(OUT)
	$(CC) $(CPPFLAGS) $(CFLAGS) $< $(LIB) -o $@

$(OUT)/lists-wrong: cross/lists.c cross/wrong-stations.c $(HEADERS) $(LIB) $(OUT)/library | $(OUT)
	$(CC) $(CPPFLAGS) $(CFLAGS) cross/lists.c cross/wrong-stations.c $(LIB) \
	    $(WRAPPED:%=-Wl,--wrap=%) -o $@

check: check-example check-gsd check-header check-prototypes check-lists
	@echo "check: all as expected"

check-example: $(OUT)/card
	$(OUT)/card >$(OUT)/card.out
	diff examples/card.expected $(OUT)/card.out

# The GSD file says of the card what the example starts it with, and a wrong one is noticed.
check-gsd:
	awk -f examples/gsd.awk examples/card.h examples/card.gsd
	examples/try-wrong-gsd

check-header: $(OUT)/header-c99 $(OUT)/header-c++17
	$(OUT)/header-c99
	$(OUT)/header-c++17

# The headers declare what the crates export, argument for argument: nothing else would notice a difference.
check-prototypes: | $(OUT)
	awk -f examples/prototypes.awk crates/card_c/src/lib.rt crates/lent_c/src/lib.rt >$(OUT)/exported
	awk -f examples/prototypes.awk include/dp.h bench/lent.h >$(OUT)/declared
	diff $(OUT)/exported $(OUT)/declared

# The lists' answers, and that wrong stations are noticed.
check-lists: $(OUT)/lists $(OUT)/lists-wrong $(X)/lists
	$(OUT)/lists $(X)/lists
	cross/try-wrong-stations $(OUT)/lists-wrong $(X)/lists

bench: $(if $(CARD),cross-tools $(CARDS:%=bench-%),bench-native)

bench-native: $(COUNTED:%=$(OUT)/%) $(OUT)/points
	@if command -v valgrind >/dev/null; then \
	    for program in $(COUNTED); do \
	        valgrind --tool=callgrind --callgrind-out-file=$(OUT)/$$program.callgrind \
	            $(OUT)/$$program $(COUNTED_CYCLES) >$(OUT)/callgrind.log 2>&1 \
	            || { cat $(OUT)/callgrind.log; exit 1; }; \
	    done; \
	    echo "Instructions for each call, counted by valgrind over $(COUNTED_CYCLES) cycles:"; \
	    awk -f bench/instructions.awk $(OUT)/bench.callgrind $(foreach kind,$(filter-out bench,$(COUNTED)), \
	        kind=$(kind) $(OUT)/$(kind).callgrind) kind=points $(OUT)/points; \
	else \
	    echo "valgrind is not installed: no instructions are counted"; \
	fi
	@$(OUT)/bench

install: $(PROVED_LIB)
	cross/install $(PROVED_LIB) '$(PREFIX)' $(VERSION) $(PROCESSORS)

clean:
	rm -rf $(OUT) $(X)
