# The library for the card's own processor: the module that was proved and built for x86-64, compiled for others by the
# toolchain's clang. Building needs no package, trying does; a library is there only once it was tried.
#   make cross               builds and tries the library for each processor of cross/processors.mk, and prints a table
#   make cross CARD=NAME     for the named ones alone
#   make bench CARD=NAME     instructions for each call there, by a trace, code and stack
#   make check-objects       compiles for all of them and looks at the objects; needs no package
#   make check-card          tries Cortex-M4 where the packages are, and says so where they are not
# CARD_FLAGS=.. are further words for clang. Both are taken from make's command line alone.
include cross/processors.mk

X := target/cross
CARD :=
CARD_FLAGS :=
CARDS := $(or $(CARD),$(PROCESSORS))
$(if $(filter-out $(PROCESSORS),$(CARDS)),$(error CARD is "$(CARD)"; known are $(PROCESSORS)))

# Looked for only where a recipe needs it.
TOOLCHAIN = $(patsubst %/START-HERE.md,%,$(shell rt doc))/toolchain/bin

# What the toolchain itself compiles the module with, beside the processor's own words.
IR_FLAGS := -ffunction-sections -fdata-sections -mllvm -trap-unreachable -mllvm -no-trap-after-noreturn \
    -mllvm -disable-machine-licm -mllvm -disable-postra-machine-licm -mllvm -sink-common-insts=false \
    --no-default-config -no-canonical-prefixes -fintegrated-cc1 -fno-crash-diagnostics -Werror

# A program that hangs has failed.
LIMIT := timeout 600

# A trace has a line for each instruction, and the counts are nearly the same in every cycle.
TRACED_CYCLES := 10

.PHONY: cross cross-tools check-objects check-card say-card $(PROCESSORS:%=bench-%)
.DELETE_ON_ERROR:

# Ends the recipe if a package for one of the named processors is missing.
define require_tools
@missing=$$(cross/missing-packages $(foreach card,$(1),$($(card)_TOOLS))); [ -z "$$missing" ] || { \
    echo "make: nothing was done. To try $(1) this machine lacks the Debian packages" >&2; \
    echo "    $$missing" >&2; exit 1; }
endef

# The example firmware, compiled by the first words and run by the second, over the library of a folder.
define try_example
$(1) $(CPPFLAGS) $(CFLAGS) $(filter %.c,$(FIRMWARE)) $(3)/libcard.a -o $(3)/card
$(LIMIT) $(2) $(3)/card </dev/null >$(3)/card.out
diff examples/card.expected $(3)/card.out
endef

cross: cross-tools $(CARDS:%=$(X)/%/libcard.a)
	@awk -f cross/table.awk $(CARDS:%=$(X)/%/size) $(CARDS:%=$(X)/%/answers)

# First of all: nothing is built that cannot be tried.
cross-tools:
	$(call require_tools,$(CARDS))

# A file that the rules below depend on is written only where its contents change: which toolchain there is, which lists
# there are, what was asked for.
keep_if_same = cmp -s - $@ || $(1) >$@

$(X):
	@mkdir -p $@

$(X)/toolchain: FORCE | $(X)
	@rt version | $(call keep_if_same,rt version)

$(X)/lists: FORCE | $(X)
	@ls $(LISTS)/*.in | $(call keep_if_same,ls $(LISTS)/*.in)

$(PROCESSORS:%=$(X)/%/asked): $(X)/%/asked: FORCE
	@mkdir -p $(@D)
	@echo '$(CARD_FLAGS)' | $(call keep_if_same,echo '$(CARD_FLAGS)')

# The module's text, and the object for x86-64.
$(X)/x86-64/card.ll: $(PROVED_LIB) $(X)/toolchain cross/toolchain cross/keep-module cross/widths.awk cross/cross.mk
	cross/keep-module $< $(@D) $(ANY_CPU)

# The text names x86-64 in four places. In two of them the processor's own empty module tells what belongs there; the
# processor's name and the probing of the stack, by x86-64's instructions, are left out. Where a number of 64 bits lies at
# multiples of eight octets, two numbers lie together as on x86-64 (widths.awk).
$(PROCESSORS:%=$(X)/%/card.o): $(X)/%/card.o: $(X)/x86-64/card.ll $(X)/%/asked cross/processors.mk
	$(TOOLCHAIN)/clang $($*_FLAGS) $(CARD_FLAGS) -S -emit-llvm -x c /dev/null -o $(@D)/empty.ll
	@grep -q '^target datalayout.*-i64:64[-"]' $(@D)/empty.ll || { \
	    echo "make: $* lays numbers of 64 bits out in another way than x86-64" >&2; exit 1; }
	sed -e "s|^target datalayout.*|$$(grep '^target datalayout' $(@D)/empty.ll)|" \
	    -e "s|^target triple.*|$$(grep '^target triple' $(@D)/empty.ll)|" \
	    -e 's/ "probe-stack"="inline-asm" "stack-probe-size"="[0-9]*"//' -e 's/ "target-cpu"="x86-64"//' \
	    -e '$(if $($*_TEXT),$$a $($*_TEXT))' $< >$(@D)/card.ll
	@! grep -in 'x86' $(@D)/card.ll || { echo "make: $(@D)/card.ll still names x86-64, as told above" >&2; exit 1; }
	$(TOOLCHAIN)/clang $($*_FLAGS) $(CARD_FLAGS) $(IR_FLAGS) -fstack-usage -c -x ir $(@D)/card.ll -o $@

$(PROCESSORS:%=$(X)/%/size): $(X)/%/size: $(X)/%/card.o cross/measure cross/stack.awk
	cross/measure $(@D) 0 0 $($*_NEEDS) >$@

# A call puts its return address on the stack, and a function may use 128 octets below its stack pointer.
$(X)/x86-64/size: $(X)/x86-64/card.ll cross/measure cross/stack.awk
	cross/measure $(@D) 8 128 memset >$@

check-objects: $(X)/x86-64/size $(PROCESSORS:%=$(X)/%/size)
	@cross/try-wrong-modules $(X)/x86-64/card.ll
	@awk -f cross/table.awk $^

# The library is there once the example firmware has printed what it has to and every list has its answers. With it lie
# the library for x86-64 that it is of and the further words that it was built with.
$(PROCESSORS:%=$(X)/%/libcard.a): $(X)/%/libcard.a: $(X)/%/card.o $(X)/%/size $(FIRMWARE) examples/card.expected \
    cross/lists.c $(X)/lists $(wildcard $(LISTS)/* cross/bare/*) cross/board
	$(call require_tools,$*)
	rm -rf $@ $(@D)/new && mkdir $(@D)/new
	$(TOOLCHAIN)/llvm-ar --format=gnu rcsD $(@D)/new/libcard.a $<
	$(call try_example,$($*_CC),$($*_RUN),$(@D)/new)
	$(if $($*_ALSO),$(call try_example,$($*_ALSO),$($*_RUN),$(@D)/new))
	$($*_CC) $(CPPFLAGS) $(CFLAGS) cross/lists.c $(@D)/new/libcard.a -o $(@D)/new/lists
	$(LIMIT) $($*_RUN) $(@D)/new/lists $(X)/lists </dev/null >$(@D)/new/answers
	cp $(PROVED_LIB) $(@D)/new/of.a
	cp $(@D)/asked $(@D)/new/flags
	mv $(@D)/new/answers $(@D)/new/of.a $(@D)/new/flags $(@D)
	mv $(@D)/new/libcard.a $@

say-card:
	@missing=$$(cross/missing-packages $(cortex-m4_TOOLS)); if [ -z "$$missing" ]; then \
	    echo "The library for Cortex-M4 is tried too."; else \
	    echo "The library for Cortex-M4 is not tried: this machine lacks the Debian packages $$missing."; fi

check-card: say-card
	@[ -n "$$(cross/missing-packages $(cortex-m4_TOOLS))" ] || $(MAKE) cross CARD=cortex-m4

# The calls of a library with their instructions, by a trace; $(1): the processor, $(2): the library, $(3): the result.
define trace_calls
	@$($(1)_CC) $(CPPFLAGS) $(CFLAGS) $(if $(filter before,$(3)),-DOTHER_VERSION) \
	    bench/bench.c bench/workload.c $(2) -o $(X)/$(1)/bench
	@QEMU_SINGLESTEP=1 QEMU_LOG=exec,nochain QEMU_LOG_FILENAME=$(X)/$(1)/trace \
	    $(LIMIT) $($(1)_RUN) $(X)/$(1)/bench $(TRACED_CYCLES) </dev/null >$(X)/$(1)/bench.out
	@$(if $($(1)_CYCLES),$($(1)_CYCLES) $(X)/$(1)/bench >$(X)/$(1)/disassembly)
	@awk -f cross/trace.awk $(if $($(1)_CYCLES),$(X)/$(1)/disassembly) $(X)/$(1)/trace >$(X)/$(1)/$(3)
	@rm $(X)/$(1)/trace
endef

$(PROCESSORS:%=bench-%): bench-%: $(X)/%/libcard.a bench/bench.c $(WORKLOAD) $(OUT)/points
	@$(if $(BEFORE),$(call require_before,$(BEFORE)/$<,make cross CARD=$*))
	$(if $(BEFORE),$(call trace_calls,$*,$(BEFORE)/$<,before))
	$(call trace_calls,$*,$<,calls)
	@echo "Instructions for each call on $*, by a trace under qemu over $(TRACED_CYCLES) cycles:"
	@awk -f bench/instructions.awk $(X)/$*/calls $(if $(BEFORE),kind=before $(X)/$*/before) kind=points $(OUT)/points
	@echo "Octets of code, and of stack that each call can need:"
	@awk '{ printf "  %-24s %8d\n", $$2, $$1 }' $(X)/$*/size
