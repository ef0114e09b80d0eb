# The library, its tests and the command for other machines: docs/TARGETS.md. A machine's compilers
# and its C library are those of Debian's packages; scripts/install-target-tools installs them.

TARGETS := powerpc64 s390x
# those that are asked for
CHOSEN := $(or $(TARGET),$(TARGETS))
ifneq ($(filter-out $(TARGETS),$(CHOSEN)),)
$(error TARGET is $(TARGET), and can be: $(TARGETS))
endif

.PHONY: test-targets $(TARGETS:%=test-%) bench-targets build/cases

ifdef TARGET
run: build/$(TARGET)/flakuzhen
	@scripts/target-tools run $(TARGET)
	@scripts/run-target $(TARGET) $< list --hex $(EXAMPLE)

lib: build/$(TARGET)/libflakuzhen.a build/$(TARGET)/libflakuzhen.so

command: build/$(TARGET)/flakuzhen
endif

$(TARGETS:%=build/%/libflakuzhen.a): build/%/libflakuzhen.a: $(PROVED) \
    scripts/static-lib scripts/target-clang
	scripts/static-lib build $* $@ $(BRIDGES)

$(TARGETS:%=build/%/libflakuzhen.so): build/%/libflakuzhen.so: build/%/libflakuzhen.a \
    include/flakuzhen.map host/Cargo.toml
	$(call MAKE_SHARED,$*-linux-gnu-gcc)

# ---- programs, with the archive and with the shared library ----

C_WORDS = -std=c99 -O2 -pedantic -Wall -Wextra -Werror -Iinclude -o $@ $(filter %.c,$^)

define program # SOURCE, without its ending
build/%/$(notdir $(1)): $(1).c include/flakuzhen.h build/%/libflakuzhen.a
	$$*-linux-gnu-gcc -static $$(C_WORDS) build/$$*/libflakuzhen.a

build/%/$(notdir $(1))-shared: $(1).c include/flakuzhen.h build/%/libflakuzhen.so
	$$*-linux-gnu-gcc $$(C_WORDS) build/$$*/libflakuzhen.so
endef

HEADER_TESTS := layout surface machine marshal
PROGRAMS := $(addprefix targets/,replay plan stack) $(HEADER_TESTS:%=host/flakuzhen/tests/%)
$(foreach source,$(PROGRAMS),$(eval $(call program,$(source))))

$(TARGETS:%=build/%/flakuzhen): build/%/flakuzhen: $(COMMAND_FROM) build/%/libflakuzhen.a
	$*-linux-gnu-gcc -static $(C_WORDS) build/$*/libflakuzhen.a

# ---- tests ----

build/cases: $(ARCHIVE) $(SECOND)
	cd host && cargo run $(CARGO_WORDS) --quiet -p compare --bin write-cases -- ../$@

test-targets: $(CHOSEN:%=test-%)

$(TARGETS:%=test-%): test-%: build/cases $(SHARED) \
    $(addprefix build/%/,flakuzhen replay $(HEADER_TESTS) $(HEADER_TESTS:=-shared))
	@scripts/target-tools run $*
	@$(MAKE) --no-print-directory dist TARGET=$* > /dev/null
	@scripts/test-target $* $(HEADER_TESTS)

build/x86_64/plan build/x86_64/stack: build/x86_64/%: targets/%.c include/flakuzhen.h $(ARCHIVE)
	@mkdir -p $(@D)
	$(CC) -static $(C_WORDS) $(ARCHIVE)

bench-targets: $(foreach target,x86_64 $(CHOSEN),build/$(target)/plan build/$(target)/stack)
	@scripts/target-tools run $(CHOSEN)
	@scripts/bench-targets $(CHOSEN)
