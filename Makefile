# make run    prove what the command needs, build it and list the call of figure 3-18
# make command  build/flakuzhen, the command
# make test   the whole gate: every proof, every must-fail edit, every comparison
# make lib    build/libflakuzhen.a and build/libflakuzhen.so, from proved code alone
# make examples  the same call planned, filled and read by a program in C and one in Rust, a variable
#             argument list walked in C, and plans kept and checked in both
# make install  the command with its manual page and completions, the libraries and the headers, under
#             PREFIX=/usr/local; make uninstall removes them
# make dist   build/dist/flakuzhen-VERSION-MACHINE.tar.gz: all that is installed, for machines without
#             a toolchain
# make fuzz   the command's readers on damaged inputs, under AddressSanitizer; SECONDS=n says for how
#             long
# make soak   the comparisons on fresh seeds; SECONDS=n says for how long
# make bench  the time of plans, sizes, filling, reading, walking, frames, storing and checking beside ordinary
#             Rust's, and the stack of each function; JOBS='plan sizes' names some
# make lint   what the gate does not ask: layout and clippy of the Rust code
# make sanitize  the C programs and the Rust tests under AddressSanitizer
# make clean  remove all that is built
#
# For other machines, with TARGET=powerpc64 or TARGET=s390x (docs/TARGETS.md, targets/targets.mk):
#
# make lib TARGET=..   build/TARGET/libflakuzhen.a and build/TARGET/libflakuzhen.so
# make run TARGET=..   the command there, under emulation
# make dist TARGET=..  the same to deploy there
# make test-targets    a file of cases replayed on both, under emulation; -j2 takes both at a time
# make bench-targets   the archives' sizes and the instructions of a plan

SECONDS = 600
PREFIX = /usr/local
CC = gcc

# the inputs of a proof: a change of any file or folder here proves the library again
PROVED_FROM := crates.txt $(wildcard HANDLES) \
    $(shell find $(wildcard crates/*/src crates/*/specs crates/*/proofs) -print 2>/dev/null)
# the crates that export functions, which are static libraries
BRIDGES := c_signatures c_plans c_listing c_fill c_read c_homes c_walk c_stored c_starts c_frames c_dump
# what is proved of these and of the second planner, for compiling: a module of each (scripts/static-lib)
PROVED := build/proved/all
ARCHIVE := build/libflakuzhen.a
# the second planner, for the comparisons: no part of the library, and not installed
SECOND := build/libsecond.a
SHARED := build/libflakuzhen.so
# a version's first number is the soname's
VERSION := $(shell sed -n 's/^version = "\(.*\)"$$/\1/p' host/Cargo.toml)
SONAME := libflakuzhen.so.$(firstword $(subst ., ,$(VERSION)))
# the links of the shared library libflakuzhen.so.VERSION in a folder: for programs that run, and for
# the linker
LINK_SHARED = ln -sf libflakuzhen.so.$(VERSION) $(1)/$(SONAME) && \
    ln -sf $(SONAME) $(1)/libflakuzhen.so
# makes a rule's shared library, by a compiler, of its archive, which comes first; the rule is named
# after the linker's name. Here copies stand for the links: `rt ci` refuses a link anywhere below the top
define MAKE_SHARED
rm -f $@ $@.*
$(1) -shared -o $@.$(VERSION) -Wl,-soname,$(SONAME) \
    -Wl,--version-script,include/flakuzhen.map -Wl,--no-undefined \
    -Wl,--whole-archive $< -Wl,--no-whole-archive
cp $@.$(VERSION) $(@D)/$(SONAME)
cp $@.$(VERSION) $@
endef
# the command is the same C on every machine
COMMAND := $(sort $(wildcard command/*.c))
COMMAND_FROM := $(COMMAND) command/command.h include/flakuzhen.h include/flakuzhen_text.h
EXAMPLE := examples/signatures/ppc64-figure-3-18.hex
# no network and no other versions than Cargo.lock's
CARGO_WORDS := --release --offline --locked

.PHONY: run test lib command examples install uninstall dist soak fuzz sanitize bench lint clean
.DELETE_ON_ERROR:

ifndef TARGET
run: build/flakuzhen
	@build/flakuzhen list --hex $(EXAMPLE)

lib: $(ARCHIVE) $(SHARED) $(SECOND)

command: build/flakuzhen
endif

build/flakuzhen: $(COMMAND_FROM) $(ARCHIVE)
	$(CC) $(C_WORDS) $(ARCHIVE)

test:
	@.ci/run

# each crate that exports functions is proved once, and the module that rattle then makes of it is compiled
# for every machine; no archive is written where one of them or anything below is not proved
$(PROVED): $(PROVED_FROM)
	@scripts/check-toolchain
	scripts/static-lib prove $(BRIDGES) c_second
	@touch $@

$(ARCHIVE): $(PROVED)
	scripts/static-lib build x86_64 $@ $(BRIDGES)

$(SECOND): $(PROVED)
	scripts/static-lib build x86_64 $@ c_second

$(SHARED): $(ARCHIVE) include/flakuzhen.map host/Cargo.toml
	$(call MAKE_SHARED,$(CC))

examples: $(ARCHIVE)
	$(CC) -Iinclude -o build/call examples/c/call.c command/signature_text.c $(ARCHIVE)
	build/call
	$(CC) -Iinclude -o build/variable examples/c/variable.c command/signature_text.c $(ARCHIVE)
	build/variable
	$(CC) -Iinclude -o build/stored examples/c/stored.c command/signature_text.c $(ARCHIVE)
	build/stored
	cd host && cargo run $(CARGO_WORDS) --quiet -p call
	cd host && cargo run $(CARGO_WORDS) --quiet -p call --bin stored

# DESTDIR is put before PREFIX where files are copied, and nowhere else
INSTALLED = $(DESTDIR)$(PREFIX)
DOC := share/doc/flakuzhen
# What is installed besides the libraries and the file for pkg-config: its folder under the prefix,
# and the file. The folder of documents is ours alone.
INSTALLED_FILES := \
    include:include/flakuzhen.h include:include/flakuzhen_text.h \
    share/man/man1:docs/flakuzhen.1 \
    share/bash-completion/completions:command/completions/flakuzhen \
    share/zsh/site-functions:command/completions/_flakuzhen \
    share/fish/vendor_completions.d:command/completions/flakuzhen.fish \
    $(addprefix $(DOC):,docs/COMPILERS.md docs/STORED.md command/signature_text.c \
        $(addprefix examples/c/,call.c variable.c stored.c))
folder_of = $(firstword $(subst :, ,$(1)))
file_of = $(lastword $(subst :, ,$(1)))

# Installs in a folder, for a prefix, what a machine has: FOLDER PREFIX COMMAND ARCHIVE SHARED
define INSTALL
install -d $(addprefix $(1)/,bin lib/pkgconfig $(sort $(foreach each,$(INSTALLED_FILES),$(call folder_of,$(each)))))
install -m 755 $(3) $(1)/bin/flakuzhen
install -m 644 $(4) $(1)/lib
install -m 755 $(5).$(VERSION) $(1)/lib
$(call LINK_SHARED,$(1)/lib)
sed -e 's|@PREFIX@|$(2)|' -e 's|@VERSION@|$(VERSION)|' include/flakuzhen.pc.in \
    > $(1)/lib/pkgconfig/flakuzhen.pc
$(foreach each,$(INSTALLED_FILES),install -m 644 $(call file_of,$(each)) $(1)/$(call folder_of,$(each)) &&) true
endef

install: build/flakuzhen $(ARCHIVE) $(SHARED)
	$(call INSTALL,$(INSTALLED),$(PREFIX),build/flakuzhen,$(ARCHIVE),$(SHARED))

# what install puts in place; folders stay, but for the one that is ours alone
uninstall:
	rm -f $(addprefix $(INSTALLED)/,bin/flakuzhen lib/pkgconfig/flakuzhen.pc \
	    $(addprefix lib/,libflakuzhen.a libflakuzhen.so $(SONAME) libflakuzhen.so.$(VERSION)) \
	    $(foreach each,$(INSTALLED_FILES),$(call folder_of,$(each))/$(notdir $(call file_of,$(each)))))
	[ ! -d $(INSTALLED)/$(DOC) ] || rmdir $(INSTALLED)/$(DOC)

# ---- something to deploy ----

DIST = flakuzhen-$(VERSION)-$(MACHINE)
DIST_FOLDER = build/$(MACHINE)

# the command is linked statically: it runs on every Linux of its machine
build/x86_64/flakuzhen: $(COMMAND_FROM) $(ARCHIVE)
	@mkdir -p $(@D)
	$(CC) -static $(C_WORDS) $(ARCHIVE)

ifndef TARGET
dist: MACHINE := x86_64
dist: build/x86_64/flakuzhen $(ARCHIVE) $(SHARED)
	@rm -rf build/dist/$(DIST) build/dist/$(DIST).tar.gz
	$(call INSTALL,build/dist/$(DIST),$${pcfiledir}/../..,$<,$(ARCHIVE),$(SHARED))
	@scripts/dist $(DIST)
else
dist: MACHINE := $(TARGET)
dist: build/$(TARGET)/flakuzhen build/$(TARGET)/libflakuzhen.a build/$(TARGET)/libflakuzhen.so
	@rm -rf build/dist/$(DIST) build/dist/$(DIST).tar.gz
	$(call INSTALL,build/dist/$(DIST),$${pcfiledir}/../..,$<,$(DIST_FOLDER)/libflakuzhen.a,$(DIST_FOLDER)/libflakuzhen.so)
	@scripts/dist $(DIST)
endif

soak: $(ARCHIVE) $(SECOND)
	cd host && cargo run $(CARGO_WORDS) --quiet -p compare --bin soak -- $(SECONDS)

fuzz: $(ARCHIVE)
	@scripts/fuzz $(SECONDS)

sanitize: $(ARCHIVE) $(SHARED) $(SECOND)
	@scripts/sanitize

# a profile of its own: with all optimisations and without the tests' checks of sums. JOBS names jobs of the program, else it does
# all; it fails where a row of whole plans passes twice ordinary Rust's time
bench: $(ARCHIVE) $(SECOND) build/x86_64/stack
	cd host && cargo run --profile bench --offline --locked --quiet -p compare --bin bench -- $(JOBS)
	@echo
	build/x86_64/stack

lint: $(ARCHIVE) $(SECOND)
	cd host && cargo fmt --check && cargo clippy $(CARGO_WORDS) --all-targets -- -D warnings

include targets/targets.mk

clean:
	rm -rf build host/target crates/*/out
