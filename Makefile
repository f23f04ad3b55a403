# make help lists the targets.
#
# ARCH is the processor that things are built for: x86_64 or aarch64, by default this machine's. What is built for the other one is
# linked by Debian's cross compiler and run by an emulator: answers are the same, times say nothing.
#
# LIB is what the checks try: library (the proved one), or literal (the literal C version under the library's names).
VERSION := $(shell sed -n 's/^.define DSR_VERSION_[MP][A-Z]* \([0-9]*\)$$/\1/p' c/dsr.h | paste -sd.)
# An incompatible change raises the major number; while that is 0, the minor one.
SONAME := libdsr.so.$(shell echo $(VERSION) | sed 's/^\(0\.[0-9]*\)\..*/\1/; s/^\([1-9][0-9]*\)\..*/\1/')
MACHINE := $(shell uname -m)
ARCH := $(MACHINE)
LIB := library
ENTRIES := header stream write read settle hunt

ifeq ($(filter $(ARCH),x86_64 aarch64),)
$(error ARCH is x86_64 or aarch64, not $(ARCH))
endif

ifeq ($(ARCH),$(MACHINE))
BUILD := target/outside
TOOLS :=
STATIC :=
RUN :=
SANITIZE := -g -fsanitize=address,undefined -fno-sanitize-recover=all
NOT_JUDGED :=
else
BUILD := target/outside/$(ARCH)
TOOLS := $(ARCH)-linux-gnu-
STATIC := -static
# rt links dsrlist for x86-64 with a shared C library: -L says where that is.
RUN := qemu-$(ARCH) -L /usr/$(ARCH)-linux-gnu
SANITIZE :=
NOT_JUDGED := "emulated, no time of a processor"
endif
OTHER_ARCH := $(filter-out $(MACHINE),x86_64 aarch64)

MADE := target/lib/$(ARCH)
ARCHIVE := $(MADE)/libdsr.a
SHARED := $(MADE)/libdsr.so.$(VERSION)
DSRLIST := target/bin/$(ARCH)/dsrlist
# The tool is built for this machine alone: Debian has no Rust library for the other one.
DSR := target/bin/$(MACHINE)/dsr
DSR_HERE := $(if $(filter $(MACHINE),$(ARCH)),$(DSR))
LITERAL := $(addprefix checks/literal/,header.c stream.c write.c read.c settle.c hunt.c)
HEADERS := c/dsr.h checks/literal/literal.h checks/drive/drive.h checks/drive/wide.h checks/bench/bench.h
WARN := -std=gnu11 -Wall -Wextra -Werror -Ic
PYTHON := /usr/bin/python3
CARGO := cargo
INDEPENDENT := checks/independent/target/release
RATTLE := crates.txt $(shell find crates -path '*/out' -prune -o \( -name '*.rt' -o -name '*.antt' \) -print)
FUZZ_SECONDS := 20

PREFIX := /usr/local
DESTDIR :=
BINDIR := $(PREFIX)/bin
LIBDIR := $(PREFIX)/lib
INCLUDEDIR := $(PREFIX)/include
MANDIR := $(PREFIX)/share/man
# Where the files go: below DESTDIR, if one is given.
INTO_BIN = $(DESTDIR)$(BINDIR)
INTO_LIB = $(DESTDIR)$(LIBDIR)
INTO_INCLUDE = $(DESTDIR)$(INCLUDEDIR)
INTO_MAN = $(DESTDIR)$(MANDIR)
INTO_DOC = $(DESTDIR)$(PREFIX)/share/doc/dsr
# What the man pages and help point to.
DOCUMENTS := docs/TOOL.md docs/TRUST.md docs/FORMAT.md
# Where each shell looks for completions.
COMPLETIONS = $(addprefix $(DESTDIR)$(PREFIX)/share/,bash-completion/completions/dsr zsh/site-functions/_dsr fish/vendor_completions.d/dsr.fish)

.PHONY: help sample test outside bench bench-tool lib dsrlist dsr install uninstall clean packages
.SECONDARY:
# rt and cargo take all processors by themselves, and two runs of rt would write the same files.
.NOTPARALLEL:
.DELETE_ON_ERROR:

help: ## this list
	@sed -n 's/^\([a-z][a-z-]*\):.*## \(.*\)/\1|\2/p' Makefile | while IFS='|' read -r name text; do printf 'make %-14s %s\n' "$$name" "$$text"; done
	@echo 'ARCH=x86_64 or aarch64 names another processor than that of this machine, $(MACHINE).'

sample: $(DSRLIST) ## proves and builds dsrlist, and lists the shipped sample with it
	$(RUN) $(DSRLIST) <crates/dsrlist/stdin

test: ## the gate: rt ci over every crate, then every check outside of Rattle
	@.ci/gate

outside: ## the gate without rt ci: every check outside of Rattle
	@.ci/gate outside

# All rows are printed before a target that was missed fails the whole.
bench: $(foreach p,$(ENTRIES),$(BUILD)/$(LIB)/bench-$(p)) ## the library's times against the literal C version
	@missed=0; for p in $(ENTRIES); do \
	    $(RUN) $(BUILD)/$(LIB)/bench-$$p $(if $(filter literal,$(LIB)),"the literal version against itself",$(NOT_JUDGED)) || missed=1; \
	done; exit $$missed

bench-tool: $(ARCHIVE) ## the time of dsr list over 10,000 files, against the library's readings and reading the files
	@cd rust/tool && $(CARGO) bench --quiet --offline --locked --bench list

lib: $(ARCHIVE) $(SHARED) ## the library: libdsr.a and libdsr.so in target/lib/ARCH

dsrlist: $(DSRLIST) ## the program dsrlist in target/bin/ARCH

dsr: $(DSR) ## the tool dsr in target/bin, for this machine, and target/dsr, a link to it

install: lib dsrlist $(DSR_HERE) ## library, header, dsr.pc, man pages, documents, dsrlist and dsr below PREFIX (/usr/local), in DESTDIR
	install -d $(INTO_BIN) $(INTO_LIB)/pkgconfig $(INTO_INCLUDE) $(INTO_MAN)/man1 $(INTO_MAN)/man3 $(INTO_DOC)
	install -m 755 $(DSRLIST) $(DSR_HERE) $(INTO_BIN)/
	install -m 644 $(ARCHIVE) $(INTO_LIB)/
	install -m 755 $(SHARED) $(INTO_LIB)/
	ln -sf $(notdir $(SHARED)) $(INTO_LIB)/$(SONAME)
	ln -sf $(SONAME) $(INTO_LIB)/libdsr.so
	install -m 644 c/dsr.h $(INTO_INCLUDE)/
	sed 's|@PREFIX@|$(PREFIX)|; s|@LIBDIR@|$(LIBDIR)|; s|@INCLUDEDIR@|$(INCLUDEDIR)|; s|@VERSION@|$(VERSION)|' c/dsr.pc.in >$(INTO_LIB)/pkgconfig/dsr.pc
	install -m 644 man/dsrlist.1 $(if $(DSR_HERE),man/dsr.1) $(INTO_MAN)/man1/
	install -m 644 man/dsr.3 $(INTO_MAN)/man3/
	install -m 644 $(DOCUMENTS) $(INTO_DOC)/
	$(if $(DSR_HERE),install -d $(dir $(COMPLETIONS)))
	$(if $(DSR_HERE),$(DSR) completion bash >$(word 1,$(COMPLETIONS)))
	$(if $(DSR_HERE),$(DSR) completion zsh >$(word 2,$(COMPLETIONS)))
	$(if $(DSR_HERE),$(DSR) completion fish >$(word 3,$(COMPLETIONS)))

uninstall: ## removes what make install put there
	rm -f $(INTO_BIN)/dsrlist $(INTO_BIN)/dsr $(INTO_MAN)/man1/dsr.1 $(COMPLETIONS) $(addprefix $(INTO_DOC)/,$(notdir $(DOCUMENTS))) $(addprefix $(INTO_LIB)/,libdsr.a libdsr.so $(SONAME) $(notdir $(SHARED)) pkgconfig/dsr.pc) \
	    $(INTO_INCLUDE)/dsr.h $(INTO_MAN)/man1/dsrlist.1 $(INTO_MAN)/man3/dsr.3

clean: ## removes all that was made
	rm -rf target rust/dsr/target rust/tool/target checks/independent/target

# What is missing of Debian's packages.
packages:
	@.ci/packages

# --- the proved code, compiled

# rt proves, and compiles for x86-64. The same crate, proved once more, is compiled by the same words for both (tools/compile); that the
# archive for x86-64 comes out as rt's own is a check (twin).
target/staticlib/libdsr.a: $(RATTLE)
	@tools/prove library dsr
	@mkdir -p $(@D)
	@cp crates/dsr/out/libdsr.a $@

target/lib/x86_64/libdsr.a: target/staticlib/libdsr.a
	@mkdir -p $(@D)
	@cp $< $@

target/compiled/aarch64/libdsr.a: target/staticlib/libdsr.a tools/compile
	@echo 'compiling dsr for aarch64'
	@tools/compile dsr target/compiled >target/compiling-dsr.log 2>&1 || { tail -n 20 target/compiling-dsr.log; exit 1; }

target/lib/aarch64/libdsr.a: target/compiled/aarch64/libdsr.a
	@mkdir -p $(@D)
	@cp $< $@

# The archive's code is position independent. The C library gives memset.
$(SHARED): $(ARCHIVE) c/dsr.map
	@.ci/packages $(ARCH)
	@$(TOOLS)gcc -shared -Wl,-soname,$(SONAME),--version-script,c/dsr.map,-z,relro,-z,now,-z,defs -Wl,--whole-archive $< -Wl,--no-whole-archive -o $@
	@ln -sf $(@F) $(MADE)/$(SONAME)
	@ln -sf $(SONAME) $(MADE)/libdsr.so

target/bin/dsrlist: $(RATTLE)
	@tools/prove program dsrlist
	@mkdir -p $(@D)
	@cp crates/dsrlist/out/dsrlist $@

target/bin/x86_64/dsrlist: target/bin/dsrlist
	@.ci/packages x86_64
	@mkdir -p $(@D)
	@cp $< $@

target/compiled/aarch64/dsrlist.o: target/bin/dsrlist tools/compile
	@echo 'compiling dsrlist for aarch64'
	@tools/compile dsrlist target/compiled >target/compiling-dsrlist.log 2>&1 || { tail -n 20 target/compiling-dsrlist.log; exit 1; }

# What the kit's C tells a program besides the C library is there for x86-64 alone.
target/bin/aarch64/dsrlist: target/compiled/aarch64/dsrlist.o tools/errno.c
	@.ci/packages aarch64
	@mkdir -p $(@D)
	@$(TOOLS)gcc $(STATIC) $^ -o $@

# The tool over the proved library. cargo knows best what has changed.
.PHONY: rust-tool
rust-tool: target/lib/$(MACHINE)/libdsr.a
	@cd rust/tool && $(CARGO) build --quiet --offline --locked --release

$(DSR): rust-tool
	@mkdir -p $(@D)
	@cmp -s rust/tool/target/release/dsr $@ || install -m 755 rust/tool/target/release/dsr $@
	@ln -sf bin/$(MACHINE)/dsr target/dsr

# The writer alone as one object, for a terminal that never reads.
writer: $(MADE)/dsr_write.o ## the writer alone as one object that wants memset only, target/lib/ARCH/dsr_write.o

$(MADE)/dsr_write.o: $(ARCHIVE)
	@.ci/packages $(ARCH)
	@$(TOOLS)ld -r --gc-sections -e dsr_write -u dsr_write $< -o $@

# --- the library, and the literal version in its place

$(BUILD)/library/%: WITH = $(ARCHIVE)
$(BUILD)/literal/%: WITH = $(LITERAL) checks/literal/as_library.c

LIBRARY_NEEDS := $(HEADERS) $(ARCHIVE)
LITERAL_NEEDS := $(HEADERS) $(LITERAL) checks/literal/as_library.c
compile = @mkdir -p $(@D) && $(TOOLS)gcc $(STATIC) $(WARN) $(1) $< $(2) $(WITH) -o $@

$(BUILD)/library/drive-%: checks/drive/%.c $(LIBRARY_NEEDS)
	$(call compile,-O2)

$(BUILD)/literal/drive-%: checks/drive/%.c $(LITERAL_NEEDS)
	$(call compile,-O3)

$(BUILD)/library/bench-%: checks/bench/%.c $(LIBRARY_NEEDS) $(LITERAL)
	$(call compile,-O3,$(LITERAL))

$(BUILD)/literal/bench-%: checks/bench/%.c $(LITERAL_NEEDS)
	$(call compile,-O3)

$(BUILD)/library/example: c/example.c $(LIBRARY_NEEDS)
	$(call compile,-O2)

$(BUILD)/literal/example: c/example.c $(LITERAL_NEEDS)
	$(call compile,-O2)

# Both readings of the sample are in plain C, with the literal version.
$(BUILD)/literal/sample-%: checks/samples/%.c $(LITERAL_NEEDS)
	$(call compile,-O2)

# Under the emulator there are no sanitizers. The library's settling is held to the literal version's.
$(BUILD)/library/fuzz: checks/fuzz/fuzz.c $(LIBRARY_NEEDS) $(LITERAL)
	$(call compile,-O2 $(SANITIZE),$(LITERAL))

$(BUILD)/literal/fuzz: checks/fuzz/fuzz.c $(LITERAL_NEEDS)
	$(call compile,-O1 $(SANITIZE))

$(BUILD)/library/stack: checks/terminal/stack.c $(LIBRARY_NEEDS)
	$(call compile,-O2)

# As an archive and as a shared library, for the Rust crate and the Python module.
$(BUILD)/libliteral.a: $(LITERAL_NEEDS)
	@mkdir -p $(BUILD)/objects
	cd $(BUILD)/objects && $(TOOLS)gcc $(WARN) -I $(abspath c) -fPIC -O3 -c $(abspath $(LITERAL) checks/literal/as_library.c)
	ar rcs $@ $(BUILD)/objects/*.o

$(BUILD)/libliteral.so: $(BUILD)/libliteral.a
	$(TOOLS)gcc -shared -Wl,--whole-archive $< -Wl,--no-whole-archive -o $@

# --- the checks

.PHONY: programs independent independent-build wrapper wrapper-literal example crctable sample-check listing readme-c readme-rust readme-printed crates-named installed man-pages versions \
    fuzz drawing drawing-check twin writer writer-size writer-alone stack

# What more than one check calls.
programs: $(foreach p,$(ENTRIES),$(BUILD)/$(LIB)/drive-$(p)) $(if $(filter literal,$(LIB)),$(addprefix $(BUILD)/,literal/sample-list libliteral.a libliteral.so))

# The independent implementation against the library (or, with LIB=literal, the literal version).
compare-%: $(BUILD)/$(LIB)/drive-% independent-build
	$(INDEPENDENT)/compare_$* $(RUN) $<

# The second program for parity (header) and CRC (stream).
second-%: $(BUILD)/$(LIB)/drive-%
	$(PYTHON) checks/second/$*.py $(RUN) $<

independent-build:
	@cd checks/independent && $(CARGO) build --quiet --offline --release

# The independent implementation's own tests.
independent:
	cd checks/independent && $(CARGO) test --quiet --offline --release --lib

# Bugs planted in the literal version, one at a time: the comparisons have to notice each (checks/planted/list). PLANTED is the words
# for checks/planted/run: with none, the comparisons also run whole with no bug planted.
.PHONY: planted
planted: independent-build ## plants bugs in the literal version: the comparisons have to notice each
	$(PYTHON) checks/planted/run $(PLANTED)

# The Rust package over the library, and over the literal version.
wrapper: $(ARCHIVE)
	CARGO="$(CARGO)" .ci/wrapper

wrapper-literal: $(BUILD)/libliteral.a
	CARGO="$(CARGO)" DSR_LIB_DIR=$(abspath $(BUILD)) DSR_LIB_NAME=literal .ci/wrapper $(abspath rust/dsr/target/literal)

# The tool as a user calls it, and its source.
.PHONY: tool
tool: target/lib/$(MACHINE)/libdsr.a target/bin/$(MACHINE)/dsrlist
	CARGO="$(CARGO)" .ci/tool

# The C example, held to what it has to print.
example: $(BUILD)/$(LIB)/example
	$(RUN) $< | diff - c/example.out

# The shipped sample and its listing: made anew by the maker, and listed by the literal reader and by dsrlist.
sample-check: $(BUILD)/literal/sample-make $(BUILD)/literal/sample-list $(DSRLIST)
	$(RUN) $(BUILD)/literal/sample-make | cmp - crates/dsrlist/stdin
	$(RUN) $(BUILD)/literal/sample-list <crates/dsrlist/stdin | diff - crates/dsrlist/stdout
	$(RUN) $(DSRLIST) <crates/dsrlist/stdin | diff - crates/dsrlist/stdout

listing: $(BUILD)/literal/sample-list $(DSRLIST)
	.ci/listing crates/dsrlist/stdin "$(RUN) $<" $(RUN) $(DSRLIST)

# The README's programs, taken out of it as printed, built and held to what the README says they print.
README := $(BUILD)/readme/$(LIB)

ifeq ($(LIB),library)
README_WITH := $(ARCHIVE)
README_ENV :=
else
README_WITH := $(BUILD)/libliteral.a
README_ENV := DSR_LIB_DIR=$(abspath $(BUILD)) DSR_LIB_NAME=literal
endif

readme-c: $(README_WITH)
	@mkdir -p $(README)/c
	for n in 1 2 3; do \
	    .ci/readme README.md c $$n >$(README)/c/talk$$n.c && \
	    .ci/readme README.md c $$n next >$(README)/c/output$$n && \
	    $(TOOLS)gcc $(STATIC) $(WARN) $(README)/c/talk$$n.c $(README_WITH) -o $(README)/c/talk$$n && \
	    $(RUN) $(README)/c/talk$$n | diff - $(README)/c/output$$n || exit 1; done

readme-rust: $(README_WITH)
	@mkdir -p $(README)/rust/src
	.ci/readme README.md rust 1 >$(README)/rust/src/main.rs
	.ci/readme README.md rust 1 next >$(README)/rust/output
	printf '%s\n' '[workspace]' '[package]' 'name = "talk"' 'version = "0.1.0"' 'edition = "2021"' '[dependencies]' 'dsr = { path = "$(abspath rust/dsr)" }' \
	    >$(README)/rust/Cargo.toml
	cd $(README)/rust && $(README_ENV) $(CARGO) run --quiet --offline >got
	diff $(README)/rust/got $(README)/rust/output

# README's commands themselves, as printed, in a copy of the repository; and errors planted in the page, which have to be noticed.
readme-printed: lib dsrlist dsr
	.ci/printed $(BUILD)/printed

# What make install puts into a folder of its own: the README's C programs are built against it as a user would.
installed: lib dsrlist dsr
	.ci/installed $(BUILD)/installed

# The header's version is everyone's.
versions:
	grep -qx 'version = "$(VERSION)"' rust/dsr/Cargo.toml
	grep -qx 'version = "$(VERSION)"' rust/tool/Cargo.toml
	grep -qx '__version__ = "$(VERSION)"' python/dsr.py
	grep -qx '.define DSR_VERSION_TEXT "$(VERSION)"' c/dsr.h
	grep -qx '_SONAME = "$(SONAME)"' python/dsr.py

man-pages:
	mandoc -Tlint -W warning man/dsrlist.1 man/dsr.1 man/dsr.3

# Code and tables together. The whole is what a program that calls every function links.
writer-size: $(MADE)/dsr_write.o $(ARCHIVE) ## octets of code and tables of the writer alone and of the whole library
	@$(TOOLS)size $(MADE)/dsr_write.o | awk 'NR == 2 { print "the writer alone, $(ARCH): " $$1 " octets" }'
	@$(TOOLS)size $(ARCHIVE) | awk 'NR == 2 { print "the whole library, $(ARCH): " $$1 " octets" }'

# On a bare machine: it wants memset and nothing else, has no data of its own, and writes what it has to with no C library.
writer-alone: $(MADE)/dsr_write.o writer-size
	[ "$$($(TOOLS)nm -u $< | sed 's/ *U //')" = memset ]
	[ "$$($(TOOLS)size $< | awk 'NR == 2 { print $$2 + $$3 }')" = 0 ]
	@mkdir -p $(BUILD)/library
	$(TOOLS)gcc $(WARN) -O2 -ffreestanding -nostdlib -static checks/terminal/freestanding.c $< -o $(BUILD)/library/freestanding
	$(RUN) $(BUILD)/library/freestanding

stack: $(BUILD)/library/stack ## octets of stack that a writing, a reading, a settling and a hunt used, on a painted stack
	@$(RUN) $<

# docs/DEVELOPING.md has a row for every crate.
crates-named:
	@sed -n 's/^\([a-z][a-z0-9_]*\)\( staticlib\)\{0,1\}:.*/\1/p' crates.txt | while read -r c; do \
	    grep -q "^| $$c |" docs/DEVELOPING.md || { echo "docs/DEVELOPING.md has no row for the crate $$c"; exit 1; }; done

fuzz: $(BUILD)/$(LIB)/fuzz ## random calls of the library for FUZZ_SECONDS, its promises checked after each
	ASAN_OPTIONS=detect_leaks=0 $(RUN) $< $(FUZZ_SECONDS)

drawing: ## docs/multiframe.svg anew
	$(PYTHON) docs/multiframe.py >docs/multiframe.svg

drawing-check:
	$(PYTHON) docs/multiframe.py | cmp - docs/multiframe.svg

# The compiler turns the CRC register's loop into a table of 256 octets by itself, if the loop keeps its shape: a small edit loses it
# silently, and packing and unpacking with it. The table is a section of its own, 100 (hex) octets long, and code refers to it.
crctable: $(ARCHIVE)
	$(TOOLS)objdump -h $< | grep -E '\.crctable[^ ]* +0*100 '
	$(TOOLS)objdump -r $< | grep -m 1 -E 'R_(X86_64_PC32|AARCH64_ADR_PREL_PG_HI21) .*\.crctable'

# What tools/compile made for x86-64 is what rt makes, octet for octet: by the same words, but for the target, it made that for aarch64.
twin: target/staticlib/libdsr.a target/compiled/aarch64/libdsr.a
	cmp target/compiled/x86_64/libdsr.a $<

# --- dsr.h's inline functions, as C99, C++11 and C++20

# With each compiler that is there, under more warnings than a caller will have. A dropped status has to be warned of.
FACE := $(BUILD)/$(LIB)/face
comma := ,
FACE_WARN := -Wall -Wextra -Wpedantic -Wconversion -Wsign-conversion -Werror -O2
FACE_WRAP := $(patsubst %,-Wl$(comma)--wrap=dsr_%,write read settle hunt read_bits)

.PHONY: c-face
c-face: $(README_WITH)
	@mkdir -p $(BUILD)/$(LIB)
	for cc in gcc clang; do command -v $$cc >/dev/null || continue; \
	    $$cc -x c++ -std=c++11 -Wold-style-cast -Werror -fsyntax-only c/dsr.h || exit 1; \
	    $$cc -std=c99 -Wall -Werror -Wno-unused-result -c checks/c/dropped.c -o /dev/null || exit 1; \
	    [ "$$($$cc -std=c99 -c checks/c/dropped.c -o /dev/null 2>&1 | grep -c 'warning:.*unused.result')" = 13 ] || exit 1; \
	    for std in 'c -std=c99' 'c++ -std=c++11' 'c++ -std=c++20'; do \
	        $$cc -x $$std $(FACE_WARN) checks/c/face.c checks/c/not_null.c -x none $(README_WITH) $(FACE_WRAP) -o $(FACE) && \
	        $(FACE) && $$cc -x $$std $(FACE_WARN) checks/c/pass.c -o $(FACE)-pass && $(FACE)-pass || exit 1; done; done

# --- the Python module

PYTHON_WITH := $(if $(filter literal,$(LIB)),$(BUILD)/libliteral.so,$(SHARED))

.PHONY: python readme-python
python: $(PYTHON_WITH)
	DSR_LIBRARY=$(abspath $<) $(PYTHON) -B python/test_dsr.py

readme-python: $(PYTHON_WITH)
	@mkdir -p $(README)/python
	.ci/readme README.md python 1 >$(README)/python/talk.py
	.ci/readme README.md python 1 next >$(README)/python/output
	DSR_LIBRARY=$(abspath $<) PYTHONPATH=python $(PYTHON) -B $(README)/python/talk.py | diff - $(README)/python/output
