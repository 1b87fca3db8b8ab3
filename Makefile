# make try: links the samples by the program before any proof
# make try-test: runs tests before any proof
# make demo: proves and builds pslink, two crates at a time, or SIDE=N, and links two samples
# make check: looks at a change without proving anything: how files are laid out, what is made of other files, links and sentences of pages, commits
# make format: lays out the files in Rattle, Python and JavaScript
# make generated: makes anew what scripts make of other files
# make test: the gate, which proves and tests everything
# make lib: proves and builds the library for C
# make install PREFIX=/opt/pslink: installs the program, the library, their manual pages, the documents, the samples and the bindings; without PREFIX in /usr/local; the library in LIBDIR, which is PREFIX/lib
# make install-program PREFIX=..: installs the program, its manual pages, the documents, and what shells, make and CMake read, without building the library
# make install-library PREFIX=..: installs the library, its header and manual page, what pkg-config and CMake read, the documents, the samples and the bindings, without building the program
# make uninstall PREFIX=/opt/pslink: removes what that installed
# make page: proves and builds the library for WebAssembly, web/out/pslink.wasm, and the page with it, web/out/pslink.html
# make everywhere: proves and builds the command for other systems, in everywhere/out: Linux on aarch64, Windows, node, and C for what else there is
# make dist: packs the same for people without the kit
# make release: makes the files of a release, in releases/VERSION: the page, the package for node, the archive of make dist, the packages for Python and Rust, and the programs for other systems
# make vectors: writes the cases of vectors/README.md
# make bench: times links of large files, of malicious input, and in one process; with OTHER=ARCHIVE also those of another library, below the same library/pslink.c
PREFIX ?= /usr/local
LIBDIR ?= $(PREFIX)/lib
# a relative path is one from this folder on
whole = $(if $(filter /%,$(firstword $(1))),$(1),$(CURDIR)/$(1))
AT = $(call whole,$(PREFIX))
LIB = $(call whole,$(LIBDIR))
INCLUDE = $(AT)/include
MAN = $(AT)/share/man
DOC = $(AT)/share/doc/pslink
BASH_FOLDER = $(AT)/share/bash-completion/completions
ZSH_FOLDER = $(AT)/share/zsh/site-functions
FISH_FOLDER = $(AT)/share/fish/vendor_completions.d
# the newest release of CHANGES.md, and the first one with the interface of the library that this one has
VERSION := $(firstword $(shell sed -n 's/^.. \([0-9.]*\)$$/\1/p' CHANGES.md))
FIRST = 0.3
LIBRARY = library/out
DIST = pslink-$(VERSION)-x86_64-linux
PACKED = $(LIBRARY)/$(DIST)
TARBALL = $(DIST).tar.gz
PROGRAM = crates/ps_linker
BINARY = $(PROGRAM)/out/ps_linker
# how many crates are proved side by side
SIDE ?= 2
CONFIG = $(LIB)/cmake/pslink
# which release is asked for and which there is, for CMake
VERSIONED = sed -e 's|@VERSION@|$(VERSION)|' -e 's|@FIRST@|$(FIRST)|' rules/pslink-config-version.cmake.in
# man NAME finds pslink(3) for each function of the header
CALLS = pslink_link pslink_text pslink_fault pslink_fault_text pslink_status pslink_release_number
# what the documents link to, beside them
# (and not what someone linked there)
SAMPLES = README.md make_samples.py relink.py compare.py disk.po big_host.code big_host.map big_library.code host.code host.map library.code \
	nine.code nine.map procedures.code procedures.map two_units.code two_units.map used.code using.code using.map
BESIDE = README.md CHANGES.md LICENSE NOTICES $(addprefix samples/,$(SAMPLES)) $(wildcard docs/*.md docs/*.json man/pslink.* web/README.md) $(addprefix docs/pictures/,picture.png volume.png) include/pslink.h releases/README.md vectors/README.md \
	$(addprefix bindings/python/,pyproject.toml build_backend.py LICENSE README.md pslink/__init__.py pslink/py.typed) \
	$(addprefix bindings/rust/,Cargo.toml build.rs LICENSE README.md src/lib.rs src/file.rs src/file_type.rs src/finding.rs src/name.rs src/raw.rs src/reason.rs tests/calls.rs) \
	$(wildcard bindings/rust/tests/samples/*)

.PHONY: try try-test demo build lib check format generated test bench vectors install install-program install-library install-built install-built-program install-built-library install-documents install-texts uninstall dist release page everywhere

# the commands that are tried: a file for each, with a word of it a line
TRIED = $(PROGRAM)/out/tried
try:
	@rm -rf $(TRIED) && mkdir -p $(TRIED)
	@printf '%s\n' link host.code demo.code library.code >$(TRIED)/link.args
	@printf '%s\n' link host.code demo.code using.code used.code >$(TRIED)/link_added.args
	@printf '%s\n' map --references host.code library.code >$(TRIED)/map.args
	@printf '%s\n' link host.code demo.code >$(TRIED)/refused.args
	@for case in $(TRIED)/*.args; do : >"$${case%.args}"; done
	cd $(PROGRAM) && rt try $(foreach name,host library using used,--data $(name).code=../../samples/$(name).code) --cases out/tried
	@echo 'pslink was tried on the samples, and nothing is proved yet: make demo proves pslink and builds it'

try-test:
	cd crates/ps_rows && rt try --test --seconds 600
	@echo 'these tests passed, but nothing is proved yet: make demo proves pslink, make test all there is'

demo: build
	@cd $(PROGRAM)/out && ./ps_linker link ../../../samples/host.code demo.code ../../../samples/library.code
	@cd $(PROGRAM)/out && ./ps_linker link ../../../samples/host.code used.code ../../../samples/using.code ../../../samples/used.code
	@echo 'pslink is proved and built: make install-program PREFIX=$$HOME/.local installs it'

# (where no file is newer than what was built, rt finds by itself that nothing is to be proved)
build:
	@if [ -e $(BINARY).stamp ] && [ -z "$$(find crates crates.txt -newer $(BINARY).stamp -type f ! -path '*/out/*')" ]; then \
	    cd $(PROGRAM) && rt run -- --version; \
	else \
	    $(MAKE) --no-print-directory -j $(SIDE) -f crates.mk TOP=$(notdir $(PROGRAM)) LAST='rt run -- --version'; \
	fi

check:
	@status=0; for part in style generated 'documents --read' commits; do .ci/$$part || status=1; done; exit $$status

format:
	.ci/style --write

generated:
	.ci/generated --write

test:
	.ci/run

# (where no file is newer than what was built, the library is not built again)
lib:
	@if [ ! -e $(LIBRARY)/libpslink.a ] || [ -n "$$(find crates crates.txt library include -newer $(LIBRARY)/libpslink.a -type f ! -path '*/out/*')" ]; then \
	    library/build; \
	fi

# (where nothing that the module is made from changed, it is not built again)
page:
	web/build
	python3 -B web/page/make_page.py

# (where nothing that it is made from changed, nothing is built again; the part `c` has the module of `make page` in it)
everywhere:
	web/build
	everywhere/build

bench: build lib
	python3 bench/large_files.py "$(BINARY)"
	python3 bench/in_process.py "$(BINARY)" $(LIBRARY) $(OTHER)

vectors:
	vectors/make_vectors.py

install: build lib install-built
	@echo '$(DESTDIR)$(AT)/bin/pslink is installed, and the library in $(DESTDIR)$(LIB)'

install-program: build install-built-program
	@echo '$(DESTDIR)$(AT)/bin/pslink is installed'

install-library: lib install-built-library
	@echo 'the library is installed in $(DESTDIR)$(LIB)'

# what is built already, put in place: the program and its manual pages, and the documents
install-built-program: install-documents install-texts
	library/folders "$(DESTDIR)" "$(DOC)" "$(AT)/bin" "$(MAN)/man1" "$(MAN)/man5"
	install -m 755 "$(BINARY)" "$(DESTDIR)$(AT)/bin/pslink"
	install -m 644 man/pslink.1 "$(DESTDIR)$(MAN)/man1/pslink.1"
	install -m 644 man/pslink.5 "$(DESTDIR)$(MAN)/man5/pslink.5"

# the documents, the samples, and the sources of the bindings; two pages link to the files of the release, which stay where they are
install-documents:
	library/folders "$(DESTDIR)" "$(DOC)"
	for file in $(BESIDE); do install -D -m 644 $$file "$(DESTDIR)$(DOC)/$$file" || exit 1; done
	sed -i 's|](releases/[0-9][^)]*)|](releases/README.md)|' "$(DESTDIR)$(DOC)/README.md"
	sed -i 's|\[\([^]]*\)\]([0-9][^)]*)|\1|' "$(DESTDIR)$(DOC)/releases/README.md"

# what shells, make and CMake read
install-texts:
	library/folders "$(DESTDIR)" "$(DOC)" "$(INCLUDE)" "$(CONFIG)" "$(BASH_FOLDER)" "$(ZSH_FOLDER)" "$(FISH_FOLDER)"
	install -m 644 completions/pslink.bash "$(DESTDIR)$(BASH_FOLDER)/pslink"
	install -m 644 completions/_pslink "$(DESTDIR)$(ZSH_FOLDER)/_pslink"
	install -m 644 completions/pslink.fish "$(DESTDIR)$(FISH_FOLDER)/pslink.fish"
	install -m 644 rules/pslink.mk "$(DESTDIR)$(INCLUDE)/pslink.mk"
	sed -e 's|@BIN@|$(AT)/bin|' rules/pslink-config.cmake.in >"$(DESTDIR)$(CONFIG)/pslink-config.cmake"
	$(VERSIONED) >"$(DESTDIR)$(CONFIG)/pslink-config-version.cmake"
	chmod 644 "$(DESTDIR)$(CONFIG)"/pslink-config*.cmake

# both
install-built: install-built-program install-built-library

# the library, its header and manual page, what pkg-config and CMake read, and the documents
install-built-library: install-documents
	library/folders "$(DESTDIR)" "$(DOC)" "$(INCLUDE)" "$(LIB)/pkgconfig" "$(CONFIG)" "$(MAN)/man3"
	install -m 644 man/pslink.3 "$(DESTDIR)$(MAN)/man3/pslink.3"
	for call in $(CALLS); do echo '.so man3/pslink.3' >"$(DESTDIR)$(MAN)/man3/$$call.3" && chmod 644 "$(DESTDIR)$(MAN)/man3/$$call.3" || exit 1; done
	install -m 644 include/pslink.h "$(DESTDIR)$(INCLUDE)/pslink.h"
	install -m 644 $(LIBRARY)/libpslink.a "$(DESTDIR)$(LIB)/libpslink.a"
	install -m 755 $(LIBRARY)/libpslink.so.3 "$(DESTDIR)$(LIB)/libpslink.so.3"
	ln -sf libpslink.so.3 "$(DESTDIR)$(LIB)/libpslink.so"
	sed -e 's|@PREFIX@|$(AT)|' -e 's|@LIBDIR@|$(LIB)|' -e 's|@VERSION@|$(VERSION)|' library/pslink.pc.in >"$(DESTDIR)$(LIB)/pkgconfig/pslink.pc"
	sed -e 's|@INCLUDE@|$(INCLUDE)|' library/pslinkConfig.cmake.in >"$(DESTDIR)$(CONFIG)/pslinkConfig.cmake"
	$(VERSIONED) >"$(DESTDIR)$(CONFIG)/pslinkConfigVersion.cmake"
	chmod 644 "$(DESTDIR)$(LIB)/pkgconfig/pslink.pc" "$(DESTDIR)$(CONFIG)"/pslinkConfig*.cmake

# what install-built puts in place, the folders that are pslink's own, and those that it made and that are empty now
uninstall:
	rm -f "$(DESTDIR)$(AT)/bin/pslink" "$(DESTDIR)$(INCLUDE)/pslink.h" "$(DESTDIR)$(INCLUDE)/pslink.mk"
	rm -f "$(DESTDIR)$(BASH_FOLDER)/pslink" "$(DESTDIR)$(ZSH_FOLDER)/_pslink" "$(DESTDIR)$(FISH_FOLDER)/pslink.fish"
	for name in libpslink.a libpslink.so libpslink.so.3 pkgconfig/pslink.pc; do rm -f "$(DESTDIR)$(LIB)/$$name" || exit 1; done
	for name in man1/pslink.1 man3/pslink.3 man5/pslink.5 $(CALLS:%=man3/%.3); do rm -f "$(DESTDIR)$(MAN)/$$name" || exit 1; done
	made=$$(sort -ru "$(DESTDIR)$(DOC)/FOLDERS" 2>/dev/null); rm -rf "$(DESTDIR)$(DOC)" "$(DESTDIR)$(CONFIG)" && \
	    printf '%s\n' "$$made" | while IFS= read -r folder; do rmdir "$(DESTDIR)$$folder" 2>/dev/null || :; done

# the program, the library and all that is read beside them, in one file, and what they need; the files have the time of a
# commit, so that cargo, make and ninja see a newer archive. (Of pcfiledir, pkg-config itself marks a blank.)
dist: build lib
	rm -rf "$(PACKED)"
	$(MAKE) --no-print-directory install-built PREFIX=/usr/local LIBDIR=/usr/local/lib DESTDIR="$(PACKED)/root"
	mv "$(PACKED)"/root/usr/local/* "$(PACKED)"
	rm -r "$(PACKED)/root" "$(PACKED)/share/doc/pslink/include" "$(PACKED)/share/doc/pslink/FOLDERS"
	mv "$(PACKED)"/share/doc/pslink/* "$(PACKED)"
	rm -r "$(PACKED)/share/doc"
	sed -i -e 's|^prefix=.*|prefix=$${pcfiledir}/../..|' -e 's|^libdir=.*|libdir=$${prefix}/lib|' -e 's|"||g' "$(PACKED)/lib/pkgconfig/pslink.pc"
	sed -i 's|"/usr/local/include"|"../include"|' "$(PACKED)/lib/cmake/pslink/pslinkConfig.cmake"
	sed -i 's|"/usr/local/bin" ||' "$(PACKED)/lib/cmake/pslink/pslink-config.cmake"
	library/needs "$(PACKED)/bin/pslink" "$(PACKED)/lib/libpslink.so.3" | tee "$(PACKED)/NEEDS"
	library/pack "$(PACKED)" $(DIST) "$(TARBALL)"

# what is built is packed, and is put into releases/VERSION once
release: build lib page everywhere
	releases/make
