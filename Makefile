# make               builds both programs into bin/, and runs them on a real page
# make rust          writes the crates as plain Rust for cargo, without contracts and not proved, to dist/rust and dist/rust.tar.gz
# make rust-test     builds these, compares the results with the proved build, and tests those for other machines
# make wasm          proves and builds the library as WebAssembly: bin/t85.wasm, with t85.mjs and t85.d.mts for JavaScript
# make arm           proves and builds the library for ARM: bin/aarch64/libt85.a and bin/aarch64/libt85.so.1.0.0
# make page          writes the page that shows a stream in a browser, dist/page/index.html
# make targets-test  tests these three: ARM under qemu, WebAssembly in node, and the page in Chromium
# make static        builds both programs again in bin/static/, statically linked with the C library, and tests them
# make library       builds bin/libt85.a and bin/libt85.so.1.0.0
# make test          the gate: checks the documents and runs `make lint`; then runs `rt ci`, which covers every proof, every edit
#                    that must fail and every test of the crates, and beside it `make checks`
# make proofs        only `rt ci`
# make checks        tests this file, the built programs and the library
# make turns         makes each memory allocation of the programs fail in turn
# make library-test  compares the library, as called from C and Python, with the programs; tests it installed; tests the wheel
# make wheel         builds a wheel of the Python module with the library inside, for `pip install`, in dist/
# make manuals       checks the manual pages
# make lint          runs the checkers of scripts, Python, C and documents that are installed
# make debian        builds the packages of packaging/debian into dist/, and runs lintian on them
# make jbig85        builds bin/libjbig85.a and bin/libjbig85.so.0: JBIG-KIT's functions for T.85 on the library
# make jbig          builds these, bin/libjbig.a and bin/libjbig.so.0: also JBIG-KIT's other functions, for one plane
#                    without layers
# make interop       exchanges streams with JBIG-KIT's programs and library, and compares the images; runs JBIG-KIT's own
#                    programs on the library (fetches JBIG-KIT's source with `apt-get`)
# make clients       runs Debian's printer drivers, TIFF tools and image programs on JBIG-KIT's library and on bin/libjbig.so.0
# make charts        encodes and decodes the CCITT test charts with programs and library, and compares with JBIG-KIT's
#                    programs (fetches the charts with `apt-get`)
# make libtiff       builds Debian's libtiff with the library instead of JBIG-KIT's, and exchanges TIFF files with Debian's
#                    tools (fetches libtiff's source with `apt-get`)
# make fuzz          calls the library with random streams for FUZZ_SECONDS, alongside JBIG-KIT's library
# make fuzz-python   does the same with the Python module, alongside the commands
# make fuzz-jbig     does the same with the functions of `make jbig`, alongside those of JBIG-KIT
# make bench         measures, and compares with JBIG-KIT and netpbm; no test depends on time
# make pictures      draws the pictures of README.md and docs/ that are made from streams
# make against       compares both programs with another build, in the folder OTHER
# make install       installs the programs and the library with their files; see docs/PACKAGING.md
# make install-jbig  installs what `make jbig` builds, in folders of its own
# make uninstall     removes what `make install` with the same variables installed
#
# CONTRIBUTING.md says what each target needs besides `rt`.

PREFIX ?= /usr/local
BINDIR ?= $(PREFIX)/bin
LIBDIR ?= $(PREFIX)/lib
INCLUDEDIR ?= $(PREFIX)/include
DATADIR ?= $(PREFIX)/share
MANDIR ?= $(DATADIR)/man
BASHDIR ?= $(DATADIR)/bash-completion/completions
ZSHDIR ?= $(DATADIR)/zsh/site-functions
FISHDIR ?= $(DATADIR)/fish/vendor_completions.d
# The Python module is installed only if this names a folder.
PYTHONDIR ?=
# The interpreter with which the module is tested.
PYTHON ?= python3
export PYTHON
# The prefix of the names of the programs, and of their files.
PROGRAM_PREFIX ?=
FUZZ_SECONDS ?= 600
# The file that lists the processor's instruction sets.
CPUINFO ?= /proc/cpuinfo

PROGRAMS = pbmtojbg85 jbgtopbm85
VERSION := $(shell cat VERSION)
SHARED = libt85.so.$(VERSION)
SONAME = libt85.so.1
CALLS = $(shell sed -n 's/^ *\(t85_.*\);/\1/p' t85.map)
MODULE = $(patsubst bindings/python/%,%,$(wildcard bindings/python/t85/*.py bindings/python/t85/py.typed))

BUILT = $(PROGRAMS:%=bin/%)
LIBRARY = bin/libt85.a bin/$(SHARED) bin/$(SONAME) bin/libt85.so
# The targets that first build the programs, and those that first build the library.
OF_PROGRAMS = show static turns library-test interop charts libtiff fuzz-python against bench pictures rust-test targets-test
OF_LIBRARY = library-test interop clients charts libtiff fuzz fuzz-python fuzz-jbig bench wheel pictures jbig85 jbig rust-test targets-test

# quoted TEXT: TEXT as one shell word, with its spaces
quoted = '$(subst ','\'',$(1))'
# at FOLDER: its destination, as one shell word
at = $(call quoted,$(DESTDIR)$(1))

show:
	bin/pbmtojbg85 examples/letter.pbm bin/letter.jbg
	bin/jbgtopbm85 --info bin/letter.jbg
	bin/jbgtopbm85 bin/letter.jbg bin/letter.pbm
	cmp bin/letter.pbm examples/letter.pbm && echo "decoded, it is examples/letter.pbm again"

build: $(BUILT)

library: $(LIBRARY)

$(OF_PROGRAMS): build
$(OF_LIBRARY): library

# `make install` by itself uses bin/ as it is. The other targets run `rt`, which knows what has changed.
ifneq ($(filter build checks $(OF_PROGRAMS),$(or $(MAKECMDGOALS),show)),)
.PHONY: $(BUILT)
endif
ifneq ($(filter library checks $(OF_LIBRARY),$(MAKECMDGOALS)),)
.PHONY: bin/libt85.a
endif

# The order of the command line is kept if files are removed, and for benchmarks.
# Dependencies cannot express this: these targets need nothing from the other targets on the command line.
ifneq ($(filter clean uninstall bench,$(MAKECMDGOALS)),)
.NOTPARALLEL:
endif

# One `rt` at a time, whichever `make` runs it: two would write the same files below crates/, and one uses the memory of
# the whole machine.
locked = mkdir -p bin && exec 9> bin/lock && flock 9

# proved CRATE,COMMAND,FILE: proves and builds a program or the library. The file that this makes is copied to bin/ under a
# temporary name and then renamed, so that nobody sees a partial file.
proved = $(locked) && echo "proving and building $(@F)" && \
	{ (cd crates/$(1) && $(2)) > bin/$(1).log 2>&1 9>&- || { cat bin/$(1).log; exit 1; }; } && \
	cp crates/$(1)/out/$(3) $@.$$$$ && mv -f $@.$$$$ $@

$(BUILT): bin/%: | processor
	@$(call proved,$*,rt run -- --help,$*)

bin/libt85.a: | processor
	@$(call proved,libt85,rt lib,liblibt85.a)

# Here these are copies, where the installation has links: `rt ci` does not accept links.
bin/$(SHARED): bin/libt85.a t85.map
	$(CC) $(LDFLAGS) -shared -Wl,-soname,$(SONAME) -Wl,--version-script=t85.map -Wl,--no-undefined-version -Wl,-z,defs \
		-Wl,-z,relro -Wl,-z,now -Wl,--whole-archive bin/libt85.a -Wl,--no-whole-archive -o $@.$$$$ && mv -f $@.$$$$ $@

bin/$(SONAME) bin/libt85.so: bin/$(SHARED)
	cp $< $@.$$$$ && mv -f $@.$$$$ $@

# JBIG-KIT's functions, in C, together with the library: a program linked with it needs nothing else.
jbig85: bin/libjbig85.so.0 bin/libjbig85.a

bin/libjbig85.a: bin/libt85.a $(wildcard bindings/jbig85/jbig85.[ch]) include/t85.h
	made=bin/jbig85.$$$$ && mkdir $$made && \
		$(CC) -std=c99 -O2 -fPIC -Wall -Wextra -Wpedantic $(CFLAGS) -I include -c bindings/jbig85/jbig85.c -o $$made/jbig85.o && \
		cp bin/libt85.a $$made && $(AR) rs $$made/libt85.a $$made/jbig85.o && mv -f $$made/libt85.a $@ && rm -r $$made

# The functions of both headers of JBIG-KIT, in C, together with the library.
jbig: bin/libjbig.so.0 bin/libjbig.a jbig85

bin/libjbig.a: bin/libt85.a $(wildcard bindings/jbig/*.[ch] bindings/jbig85/jbig85.[ch]) include/t85.h
	made=bin/jbig.$$$$ && mkdir $$made && cp bin/libt85.a $$made && for file in bindings/jbig/*.c bindings/jbig85/jbig85.c; do \
		$(CC) -std=c99 -O2 -fPIC -Wall -Wextra -Wpedantic $(CFLAGS) -D_GNU_SOURCE -I include -c $$file \
			-o $$made/$$(basename $$file .c).o || exit 1; done && \
		$(AR) rs $$made/libt85.a $$made/*.o && mv -f $$made/libt85.a $@ && rm -r $$made

# Each name has a version script in a folder of its own.
bin/libjbig.so.0: bindings/jbig/jbig.map
bin/libjbig85.so.0: bindings/jbig85/jbig85.map
bin/libjbig.so.0 bin/libjbig85.so.0: bin/%.so.0: bin/%.a
	$(CC) $(LDFLAGS) -shared -Wl,-soname,$*.so.0 -Wl,--version-script=$(filter %.map,$^) \
		-Wl,--no-undefined-version -Wl,-z,defs -Wl,-z,relro -Wl,-z,now -Wl,--whole-archive bin/$*.a \
		-Wl,--no-whole-archive -o $@.$$$$ && mv -f $@.$$$$ $@

# The same source without its contracts, with what cargo needs beside it. The archive has the same bytes each time.
rust:
	tools/plain_rust dist/rust
	cp include/t85.h t85.pc.in t85.map dist/rust/libt85
	tools/lock dist/rust
	tar --sort=name --mtime=@0 --owner=0 --group=0 --numeric-owner -C dist -cf - rust | gzip -n > dist/rust.tar.gz

rust-test:
	tests/plain_rust bin/rust bin
	tests/rust_targets bin/rust

# The proved library for other machines.
wasm:
	@$(locked) && tools/target wasm bin 9>&-
	tools/page bin/t85.mjs
	cp bindings/wasm/t85.d.mts bin

arm:
	@$(locked) && tools/target aarch64 bin/aarch64 9>&-

# If `make rust-test` has built the plain library for 32-bit memories, the page offers it, too, and says that it is not proved.
page: wasm
	tools/page bin/t85.wasm $(wildcard bin/rust/targets/wasm32-unknown-unknown/release/t85.wasm) dist/page/index.html

targets-test: arm page
	tests/targets bin
	tests/page.py bin dist/page/index.html

# Links the proved and compiled objects statically, so that no loader runs: starting takes half the instructions.
static:
	@mkdir -p bin/static
	@kit=$$(dirname "$$(rt doc)"); for program in $(PROGRAMS); do \
		made=bin/static/$$program && \
		$(CC) $(LDFLAGS) -static -o $$made.$$$$ crates/$$program/out/$$program.o \
			"$$kit/c/libos_c.a" "$$kit/c/liblibc_c.a" && mv -f $$made.$$$$ $$made || exit 1; \
	done
	tests/stored bin/static

# Warns if programs and library cannot run on this processor.
processor:
	@tools/processor $(call quoted,$(CPUINFO))

# Checks that the documents match the tree, and that clauses are readable.
documents:
	tools/model --check
	tools/clauses
	tools/weights --check
	tools/names
	tools/private
	tools/prose
	tools/generate --check
	tools/interface
	tools/recipes
	tools/figures
	tools/texts
	tools/links

lint:
	tools/lint

# `rt ci` proves from nothing, and keeps only the statements of a library.
proofs:
	@mkdir -p bin && echo "rt ci" && { tools/ci; echo $$? > bin/ci.status; } 2>&1 | tee bin/ci.log && \
		exit "$$(cat bin/ci.status)"

# The builds need libraries with their proofs, so they prove the crates below the programs once more. They run beside `rt ci`,
# at a lower priority, since its proofs and edits take longer.
test: documents lint
	@$(MAKE) --no-print-directory -j 2 proofs beside
	@tail -n 1 bin/ci.log

# (without make's job server, which cargo would look for in the tests)
beside:
	@MAKEFLAGS= nice -n 4 $(MAKE) --no-print-directory $(MAKEOVERRIDES) checks

# (in this order)
checks: build library
	tests/makefile
	tests/interface
	tests/abi
	tests/links
	tools/must-not-compile
	tests/turns bin
	tests/stored bin
	tests/closed bin
	tests/names bin
	tests/memory bin
	tests/instructions bin
	tests/options bin
	tests/readme bin
	tests/library bin
	tests/python bin
	tests/others bin

turns:
	tests/turns bin

library-test:
	tests/options bin
	tests/readme bin
	tests/library bin
	tests/python bin
	tests/abi
	tests/installed bin
	tests/wheel bin

# The Python module with the library inside.
wheel:
	tools/wheel bin/$(SHARED) dist

pictures:
	tools/pictures bin

manuals:
	tests/manuals

debian:
	tests/debian dist

interop: jbig
	tests/interop bin
	tests/jbig85 bin
	tests/jbig bin

# Runs the programs that are installed.
clients: jbig
	tests/clients bin

# The charts are fetched, since they may not be redistributed.
bin/charts:
	bench/charts $@

charts: bin/charts bin/libjbig85.a
	tests/library bin bin/charts/*.pbm
	tests/python bin bin/charts/*.pbm
	tests/interop bin bin/charts/*.pbm
	tests/jbig85 bin bin/charts/*.pbm

libtiff:
	tests/libtiff bin

fuzz:
	tests/fuzz bin $(FUZZ_SECONDS)

fuzz-python:
	tests/fuzz_python bin $(FUZZ_SECONDS)

fuzz-jbig:
	tests/fuzz_jbig bin $(FUZZ_SECONDS)

# Compares with another build: make against OTHER=folder
against:
	tests/against bin $(OTHER)

# If the charts cannot be fetched, they are left out.
bench:
	@[ -d bin/charts ] || bench/charts bin/charts || echo "the test charts of the CCITT are left out"
	bench/times --picture bench/times.svg bin $$(find bin/charts -name '*.pbm' 2> /dev/null | sort)
	bench/info bin/jbgtopbm85
	bench/decode bin/jbgtopbm85
	bench/encode bin/pbmtojbg85
	bench/plain bin/pbmtojbg85
	bench/classes bin $$(find bin/charts -name '*.pbm' 2> /dev/null | sort)
	bench/pieces
	bench/calls bin
	bench/formats bin $$(find bin/charts -name '*.pbm' 2> /dev/null | sort)
	bench/sizes bin
	bench/broken bin
	bench/many bin

# Installs what is in bin/, and first builds what is missing there.
install: install-programs install-library

# named FROM,TO: installs a file, adding the prefix to the names of the programs in it
upper = $(shell printf %s $(call quoted,$(1)) | tr a-z A-Z)
named = new=$$(mktemp) && sed -e 's/pbmtojbg85/$(PROGRAM_PREFIX)&/g; s/jbgtopbm85/$(PROGRAM_PREFIX)&/g' \
	-e 's/PBMTOJBG85/$(call upper,$(PROGRAM_PREFIX))&/g; s/JBGTOPBM85/$(call upper,$(PROGRAM_PREFIX))&/g' \
	$(1) > "$$new" && install -D -m 644 "$$new" $(2) && rm "$$new"

install-programs: $(BUILT)
	@for program in $(PROGRAMS); do \
		as=$(call quoted,$(PROGRAM_PREFIX))$$program && \
		install -D -m 755 bin/$$program $(call at,$(BINDIR))/"$$as" && \
		$(call named,man/$$program.1,$(call at,$(MANDIR))/man1/"$$as".1) && \
		$(call named,completions/bash/$$program,$(call at,$(BASHDIR))/"$$as") && \
		$(call named,completions/zsh/_$$program,$(call at,$(ZSHDIR))/_"$$as") && \
		$(call named,completions/fish/$$program.fish,$(call at,$(FISHDIR))/"$$as".fish) || exit 1; \
	done

# written TEXT: a folder as written in t85.pc, where a backslash precedes a space, quoted for sed
written = "$$(printf %s $(call quoted,$(1)) | sed -e 's/ /\\ /g' -e 's/[\\&|]/\\&/g')"

install-library: $(LIBRARY)
	install -D -m 644 bin/libt85.a $(call at,$(LIBDIR))/libt85.a
	install -D -m 644 bin/$(SHARED) $(call at,$(LIBDIR))/$(SHARED)
	ln -sf $(SHARED) $(call at,$(LIBDIR))/$(SONAME)
	ln -sf $(SONAME) $(call at,$(LIBDIR))/libt85.so
	install -D -m 644 include/t85.h $(call at,$(INCLUDEDIR))/t85.h
	new=$$(mktemp) && sed -e 's|@PREFIX@|'$(call written,$(PREFIX))'|; s|@LIBDIR@|'$(call written,$(LIBDIR))'|' \
		-e 's|@INCLUDEDIR@|'$(call written,$(INCLUDEDIR))'|; s|@VERSION@|$(VERSION)|' t85.pc.in > "$$new" && \
		install -D -m 644 "$$new" $(call at,$(LIBDIR))/pkgconfig/t85.pc && rm "$$new"
	@$(call named,man/t85.3,$(call at,$(MANDIR))/man3/t85.3)
	for call in $(CALLS); do ln -sf t85.3 $(call at,$(MANDIR))/man3/$$call.3 || exit 1; done
ifneq ($(PYTHONDIR),)
	for file in $(MODULE); do \
		install -D -m 644 bindings/python/$$file $(call at,$(PYTHONDIR))/$$file || exit 1; \
	done
endif
ifeq ($(DESTDIR),)
	@printf '%s%s\n' 'run `ldconfig` as root, and the loader finds $(SONAME); in a folder that it does not know set LD_LIBRARY_PATH=' \
		$(call quoted,$(LIBDIR))
endif

# In folders of its own, since JBIG-KIT's files have the same names. A program uses them only if it gets their path.
install-jbig: jbig
	for name in jbig jbig85; do \
		install -D -m 644 bin/lib$$name.so.0 $(call at,$(LIBDIR))/t85-jbig/lib$$name.so.0 && \
		ln -sf lib$$name.so.0 $(call at,$(LIBDIR))/t85-jbig/lib$$name.so && \
		install -D -m 644 bin/lib$$name.a $(call at,$(LIBDIR))/t85-jbig/lib$$name.a && \
		install -D -m 644 bindings/$$name/$$name.h $(call at,$(INCLUDEDIR))/t85-jbig/$$name.h && \
		new=$$(mktemp) && sed -e 's|@PREFIX@|'$(call written,$(PREFIX))'|; s|@LIBDIR@|'$(call written,$(LIBDIR))'|' \
			-e 's|@INCLUDEDIR@|'$(call written,$(INCLUDEDIR))'|; s|@VERSION@|$(VERSION)|' \
			bindings/$$name/t85-$$name.pc.in > "$$new" && \
		install -D -m 644 "$$new" $(call at,$(LIBDIR))/t85-jbig/pkgconfig/t85-$$name.pc && rm "$$new" || exit 1; done

uninstall:
	for program in $(PROGRAMS); do \
		as=$(call quoted,$(PROGRAM_PREFIX))$$program && \
		rm -f $(call at,$(BINDIR))/"$$as" $(call at,$(MANDIR))/man1/"$$as".1 $(call at,$(BASHDIR))/"$$as" \
			$(call at,$(ZSHDIR))/_"$$as" $(call at,$(FISHDIR))/"$$as".fish || exit 1; \
	done
	rm -f $(call at,$(LIBDIR))/libt85.a $(call at,$(LIBDIR))/libt85.so $(call at,$(LIBDIR))/$(SONAME) \
		$(call at,$(LIBDIR))/$(SHARED) $(call at,$(LIBDIR))/pkgconfig/t85.pc $(call at,$(INCLUDEDIR))/t85.h
	for name in jbig jbig85; do \
		rm -f $(call at,$(LIBDIR))/t85-jbig/lib$$name.so.0 $(call at,$(LIBDIR))/t85-jbig/lib$$name.so \
			$(call at,$(LIBDIR))/t85-jbig/lib$$name.a $(call at,$(LIBDIR))/t85-jbig/pkgconfig/t85-$$name.pc \
			$(call at,$(INCLUDEDIR))/t85-jbig/$$name.h || exit 1; done
	for folder in $(call at,$(LIBDIR))/t85-jbig/pkgconfig $(call at,$(LIBDIR))/t85-jbig $(call at,$(INCLUDEDIR))/t85-jbig; do \
		[ ! -d "$$folder" ] || rmdir --ignore-fail-on-non-empty "$$folder"; done
	for page in t85 $(CALLS); do rm -f $(call at,$(MANDIR))/man3/$$page.3 || exit 1; done
ifneq ($(PYTHONDIR),)
	for file in $(MODULE); do rm -f $(call at,$(PYTHONDIR))/$$file || exit 1; done
	rm -rf $(call at,$(PYTHONDIR))/t85/__pycache__
	[ ! -d $(call at,$(PYTHONDIR))/t85 ] || rmdir --ignore-fail-on-non-empty $(call at,$(PYTHONDIR))/t85
endif

clean:
	rm -rf bin dist crates/*/out

.PHONY: show build library rust rust-test wasm arm page targets-test static processor documents lint proofs test beside checks turns library-test wheel pictures manuals debian jbig85 jbig \
	interop clients charts libtiff fuzz fuzz-python fuzz-jbig against bench install install-programs install-library install-jbig uninstall clean
