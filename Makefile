# Kobdzila: builds, checks, measures and installs.
#
#   make            builds the programs into bin/ and libkobdzila into build/lib, msgfmt first, and compiles the PO files
#                   of examples/ with it. The first build proves everything; tools/build shows its progress
#   make msgfmt     builds bin/msgfmt alone; so do `make catserve` and `make catsession`
#   make check      every check: the proofs and tests of the gate (rt ci), then the scripts of tests/
#   make prove-anew  runs the gate without any earlier result of this machine, and prints each crate's verdict; it takes
#                   hours, and a release names what it said
#   make fuzz SECONDS=600   gives the C, and the proved part below it, that many seconds of chosen inputs for each target of
#                   fuzz/; it needs clang
#   make bench      times msgfmt compared with GNU msgfmt, scripts and a session; N=7 sets the number of rounds
#   make driver     builds bin/msgfmt-or-gnu, the msgfmt for build systems, bin/kob-compile, which compiles projects, and
#                   bin/kob-msgunfmt, which writes PO texts of MO files, if there is a C compiler; `make` does too
#   make library    builds libkobdzila, the look-ups for C, into build/lib, if there is a C compiler; `make` does too.
#                   CC, CPPFLAGS, CFLAGS and LDFLAGS count
#   make install    installs the programs, their man pages and completions under PREFIX (/usr/local), below DESTDIR if it
#                   is given. PROGRAM_PREFIX=kob- names them kob-msgfmt and so on, next to GNU's; kob-compile and
#                   kob-msgunfmt keep their names. What is in C is installed, too, if it was built; `make
#                   install_library` installs the library alone. LIBDIR is its folder (PREFIX/lib): LIBDIR=/usr/lib64,
#                   or /usr/lib/$(cc -print-multiarch) on Debian. ZSHDIR is that of zsh's functions
#                   (PREFIX/share/zsh/site-functions)
#   make dist       packs build/dist/kobdzila-VERSION-MACHINE-linux.tar.gz of what was built, with static programs
#   make sign KEY=FILE   signs build/dist/SHA256SUMS with an SSH key; KEY=NAME does with a key of gpg's
#   make wheel      packs the Python package into build/dist, of the library that was built; it needs Python's headers
#   make html       makes the site of the documents, build/html, with a search, by Sphinx; `make dist` packs it as well
#   make deb        packs it as four Debian packages, into build/deb
#   make verify TARBALL=FILE   proves and builds the commit that a tarball names, and compares every byte
#   make uninstall  removes what `make install` with the same variables has put there
#   make clean      removes what was built, and what the prover kept (crates/*/out)
#
# It needs the Rattle toolchain (the command rt), make, bash and Python 3. The checks and the bench also use gettext, gcc and
# valgrind; tests/lib/needs installs what is missing if it can, otherwise that part is skipped. A release needs git, gcc
# and binutils, and `make deb` debhelper. With cargo the crate for Rust is checked, and `make dist` packs it as well.
# STATIC= installs the programs that use the shared C library.
#
# MACHINE=aarch64 builds, installs and packs for that machine, into build/aarch64 (tools/machine): it needs Debian's
# gcc-aarch64-linux-gnu and libc6-dev-arm64-cross. The libraries in Rattle are proved once for all machines, and what is
# compiled from them for each.

PREFIX = /usr/local
DESTDIR =
PROGRAM_PREFIX =
DOCUMENTS = $(PROGRAM_PREFIX)kobdzila
libdir = $(PREFIX)/lib
LIBDIR = $(libdir)
MACHINE ?=
export MACHINE
BUILD := $(shell MACHINE=$(MACHINE) tools/machine build)
BIN := $(shell MACHINE=$(MACHINE) tools/machine bin)
$(if $(BIN),,$(error there is nothing for this machine))
STATIC = $(BUILD)/static
STRIP := $(shell MACHINE=$(MACHINE) tools/machine prefix)strip
N = 7
SECONDS = 600
RT = rt
export RT
version = $(shell cat VERSION)
# (each function of the library has a manual page, which is that of its group)
functions = $(shell sed -n 's/^    \(kob_[a-z_]*\);/\1/p' c/library/kobdzila.map)
library_pages = $(wildcard docs/man/*.3)
references = $(wildcard docs/reference/*.md)

EXAMPLES = fr pl
PROGRAMS = msgfmt catserve catsession
DRIVER = msgfmt-or-gnu
KEPT_NAMES = kob-compile kob-msgunfmt
COMPLETED = msgfmt msgfmt-or-gnu catsession

bindir = $(PREFIX)/bin
mandir = $(PREFIX)/share/man
docdir = $(PREFIX)/share/doc/$(DOCUMENTS)
bashdir = $(PREFIX)/share/bash-completion/completions
zshdir = $(PREFIX)/share/zsh/site-functions
ZSHDIR = $(zshdir)
fishdir = $(PREFIX)/share/fish/vendor_completions.d

includedir = $(PREFIX)/include
# (the library that is put before a program's own has a folder of its own, where no linker looks for one)
preloaddir = $(LIBDIR)/kobdzila
SHARED = libkobdzila.so.0
PRELOADED = libkobdzila-intl.so

.PHONY: all $(PROGRAMS) programs examples compiled_examples driver library check prove-anew fuzz bench dist sign wheel
.PHONY: html deb verify install install_program install_kept install_completions install_library uninstall uninstall_library
.PHONY: uninstall_completions clean

all:
	@tools/build
	@tools/build_driver

$(PROGRAMS):
	@tools/build $@

programs:
	@tools/build $(PROGRAMS)

examples: msgfmt compiled_examples

compiled_examples:
	@mkdir -p build/examples
	@for name in $(EXAMPLES); do \
	  bin/msgfmt -o build/examples/$$name.mo examples/$$name.po || exit 1; \
	  echo "build/examples/$$name.mo: $$(wc -c < build/examples/$$name.mo) bytes, compiled from examples/$$name.po"; \
	done

$(PROGRAMS:%=$(BIN)/%):
	@tools/build $(@F)

driver:
	@tools/build_driver

library:
	@tools/build library

check:
	@tests/run --gate

prove-anew:
	@tools/prove_anew

fuzz: programs
	@fuzz/proved
	@fuzz/run $(SECONDS)

bench: programs
	@bench/run --rounds $(N)
	@bench/scripts/run $(N)
	@bench/session/run $(N)

dist:
	@tools/dist

$(BUILD)/lib/libkobdzila.a:
	@tools/build library

wheel: $(BUILD)/lib/libkobdzila.a
	@tools/wheel

sign:
	@tools/sign "$(KEY)"

html:
	@tools/site

deb:
	@tools/deb

verify:
	@tools/verify_release "$(TARBALL)"

# (the pages and the completions name the programs and the documents as they are installed; without a program `strip`
# the programs and libraries keep their symbols. Programs that were linked without libraries are the ones to install)
page = tools/installed_page '$(PREFIX)' '$(PROGRAM_PREFIX)' '$(DOCUMENTS)'
completions = tools/completion/write
to = $(DESTDIR)
strip = ! command -v $(STRIP) > /dev/null || $(STRIP)

install: $(PROGRAMS:%=$(BIN)/%)
	install -d "$(to)$(docdir)/reference"
	install -m 644 $(references) "$(to)$(docdir)/reference"
	for name in $(PROGRAMS); do $(MAKE) -s install_program NAME=$$name || exit 1; done
	if [ -f $(BIN)/$(DRIVER) ]; then $(MAKE) -s install_program NAME=$(DRIVER); fi
	for name in $(KEPT_NAMES); do [ ! -f $(BIN)/$$name ] || $(MAKE) -s install_kept NAME=$$name || exit 1; done
	if [ -f $(BUILD)/lib/$(SHARED) ]; then $(MAKE) -s install_library; fi

# one program, $(NAME), with its page and its completions
install_program:
	install -d "$(to)$(bindir)" "$(to)$(mandir)/man1"
	made=$(STATIC)/$(NAME); [ -n "$(STATIC)" ] && [ -x $$made ] || made=$(BIN)/$(NAME); \
	install -m 755 $$made "$(to)$(bindir)/$(PROGRAM_PREFIX)$(NAME)"
	$(strip) "$(to)$(bindir)/$(PROGRAM_PREFIX)$(NAME)"
	$(page) docs/man/$(NAME).1 > "$(to)$(mandir)/man1/$(PROGRAM_PREFIX)$(NAME).1"
	chmod 644 "$(to)$(mandir)/man1/$(PROGRAM_PREFIX)$(NAME).1"
	case " $(COMPLETED) " in *" $(NAME) "*) \
	  $(MAKE) -s install_completions NAME=$(NAME) AS="$(PROGRAM_PREFIX)$(NAME)" ;; esac

# a program, $(NAME), whose name has no further prefix
install_kept:
	install -d "$(to)$(bindir)" "$(to)$(mandir)/man1"
	install -m 755 $(BIN)/$(NAME) "$(to)$(bindir)/$(NAME)"
	$(strip) "$(to)$(bindir)/$(NAME)"
	$(page) docs/man/$(NAME).1 > "$(to)$(mandir)/man1/$(NAME).1"
	chmod 644 "$(to)$(mandir)/man1/$(NAME).1"
	$(MAKE) -s install_completions NAME=$(NAME) AS=$(NAME)

# the completions of one program, $(NAME), which is called $(AS)
install_completions:
	install -d "$(to)$(bashdir)" "$(to)$(ZSHDIR)" "$(to)$(fishdir)"
	$(completions) bash $(NAME) '$(PROGRAM_PREFIX)' > "$(to)$(bashdir)/$(AS)"
	$(completions) zsh $(NAME) '$(PROGRAM_PREFIX)' > "$(to)$(ZSHDIR)/_$(AS)"
	$(completions) fish $(NAME) '$(PROGRAM_PREFIX)' > "$(to)$(fishdir)/$(AS).fish"
	chmod 644 "$(to)$(bashdir)/$(AS)" "$(to)$(ZSHDIR)/_$(AS)" "$(to)$(fishdir)/$(AS).fish"

# (pkg-config reads a blank in a path with a backslash before it; sed puts in what put_in makes of a text)
put_in = $(subst |,\|,$(subst &,\&,$(subst \,\\,$(1))))
below_prefix = $(subst @AT@,,$(subst @AT@$(PREFIX)/,$${prefix}/,@AT@$(LIBDIR)))
install_library:
	install -d "$(to)$(LIBDIR)/pkgconfig" "$(to)$(preloaddir)" "$(to)$(includedir)" "$(to)$(mandir)/man3"
	install -m 644 $(BUILD)/lib/libkobdzila.a "$(to)$(LIBDIR)/libkobdzila.a"
	$(strip) --strip-debug "$(to)$(LIBDIR)/libkobdzila.a"
	install -m 755 $(BUILD)/lib/$(SHARED) "$(to)$(LIBDIR)/$(SHARED)"
	ln -sf $(SHARED) "$(to)$(LIBDIR)/libkobdzila.so"
	install -m 755 $(BUILD)/lib/$(PRELOADED) "$(to)$(preloaddir)/$(PRELOADED)"
	$(strip) --strip-unneeded "$(to)$(LIBDIR)/$(SHARED)" "$(to)$(preloaddir)/$(PRELOADED)"
	install -m 644 include/kobdzila.h "$(to)$(includedir)/kobdzila.h"
	sed -e 's|@PREFIX@|$(call put_in,$(PREFIX))|' -e 's|@LIBDIR@|$(call put_in,$(below_prefix))|' \
	  -e 's|@VERSION@|$(version)|' -e '/^[a-z]*=/s/ /\\ /g' \
	  c/library/kobdzila.pc.in > "$(to)$(LIBDIR)/pkgconfig/kobdzila.pc"
	chmod 644 "$(to)$(LIBDIR)/pkgconfig/kobdzila.pc"
	for name in $(functions); do \
	  echo ".so man3/$$(basename "$$(grep -l "^\.BI* .*[ *]$$name(" $(library_pages))")" > "$(to)$(mandir)/man3/$$name.3"; done
	for page in $(library_pages); do $(page) $$page > "$(to)$(mandir)/man3/$${page##*/}" || exit 1; done
	chmod 644 $(functions:%="$(to)$(mandir)/man3/%.3") $(library_pages:docs/man/%="$(to)$(mandir)/man3/%")

uninstall_library:
	rm -f $(functions:%="$(to)$(mandir)/man3/%.3") $(library_pages:docs/man/%="$(to)$(mandir)/man3/%")
	rm -f "$(to)$(LIBDIR)/libkobdzila.a" "$(to)$(LIBDIR)/$(SHARED)" "$(to)$(LIBDIR)/libkobdzila.so"
	rm -f "$(to)$(includedir)/kobdzila.h" "$(to)$(LIBDIR)/pkgconfig/kobdzila.pc"
	rm -f "$(to)$(preloaddir)/$(PRELOADED)"
	rmdir "$(to)$(preloaddir)" 2> /dev/null || true

uninstall: uninstall_library
	for name in $(KEPT_NAMES); do rm -f "$(to)$(bindir)/$$name" "$(to)$(mandir)/man1/$$name.1"; done
	for name in $(KEPT_NAMES); do $(MAKE) -s uninstall_completions AS=$$name || exit 1; done
	for name in $(PROGRAMS) $(DRIVER); do rm -f "$(to)$(bindir)/$(PROGRAM_PREFIX)$$name"; done
	for name in $(PROGRAMS) $(DRIVER); do rm -f "$(to)$(mandir)/man1/$(PROGRAM_PREFIX)$$name.1"; done
	for name in $(COMPLETED); do $(MAKE) -s uninstall_completions AS="$(PROGRAM_PREFIX)$$name" || exit 1; done
	for page in $(notdir $(references)); do rm -f "$(to)$(docdir)/reference/$$page"; done
	rmdir "$(to)$(docdir)/reference" "$(to)$(docdir)" 2> /dev/null || true

uninstall_completions:
	rm -f "$(to)$(bashdir)/$(AS)" "$(to)$(ZSHDIR)/_$(AS)" "$(to)$(fishdir)/$(AS).fish"

clean:
	rm -rf bin build crates/*/out
