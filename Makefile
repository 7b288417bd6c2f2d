# Installs the program, the C library and the Python package, and packs them. `make` builds what is missing from `crates/*/out`: with all proofs,
# about an hour. What is there is taken as it is, also where the source is younger.
#
#   make install PREFIX=/usr/local DESTDIR=    make deb     dist/ringplan_VERSION_amd64.deb
#   make uninstall                             make dist    also a tarball of the commit, and SHA256SUMS
#   make test                                  every proof and every test: about 100 to 180 minutes on four processors
#
# LIBRARY is the static library; the shared one is linked beside it. `LIBRARY=` leaves the C library out.
PREFIX ?= /usr/local
DESTDIR ?=
DIST ?= dist
PYTHON ?= /usr/bin/env python3
# Where zsh looks for completions, below PREFIX. Below /usr, Debian's looks in another folder.
ZSH ?= share/zsh/site-functions
PROGRAM := crates/ringplan/out/ringplan
LIBRARY := crates/ringplan_c/out/libringplan_c.a
INSTALL := install

VERSION := $(shell sed -n 's/^pub(crate) const VERSION: &str = "\([^ ]*\) .*/\1/p' crates/ringplan_command/src/help.rt)
DEB := $(DIST)/ringplan_$(VERSION)_amd64.deb
TARBALL := $(DIST)/ringplan-$(VERSION).tar.gz
# What the call `ringplan_version` returns.
CALLS := 2
SHARED := $(if $(LIBRARY),$(dir $(LIBRARY))libringplan.so.$(CALLS))
# The toolchain's folder, which has the C side of the library's memory.
KIT = $(abspath $(dir $(shell readlink -f "$$(command -v rt)"))..)
TO = $(DESTDIR)$(PREFIX)

MODULES := $(shell cd python && find ringplan -name '*.py' -o -name py.typed)
TEXTS := README.md CHANGELOG.md $(shell find docs -type f ! -name '*.py' ! -name '*.pyc') $(wildcard c/*.c c/*.go c/*.py examples/*.bundle) c/jobs.h
PACKAGES := lib/python3/dist-packages
# What says to Python's tools that the package is installed, and which commands it has.
INFO := $(PACKAGES)/ringplan-$(VERSION).dist-info
OURS := $(PACKAGES)/ringplan $(INFO) share/doc/ringplan
COMMANDS := ringplan-run ringplan-import ringplan-merge ringplan-break
SHELLS := share/bash-completion/completions share/fish/vendor_completions.d
FILES := $(foreach it,ringplan $(COMMANDS),bin/$(it) share/man/man1/$(it).1 $(word 1,$(SHELLS))/$(it) $(word 2,$(SHELLS))/$(it).fish) $(ZSH)/_ringplan $(ZSH)/_ringplan-run \
    lib/libringplan.so lib/libringplan.so.$(CALLS) lib/pkgconfig/ringplan.pc include/ringplan.h

.PHONY: all install uninstall deb dist test
.DELETE_ON_ERROR:

all: $(PROGRAM) $(SHARED)

$(PROGRAM):
	cd crates/ringplan && rt run -- check < ../../examples/move_one_slot.bundle

crates/ringplan_c/out/libringplan_c.a:
	cd crates/ringplan_c && rt lib

$(SHARED): $(LIBRARY)
	$(CC) -shared -o $@ -Wl,-soname,$(notdir $@) -Wl,--whole-archive $(LIBRARY) -Wl,--no-whole-archive $(KIT)/c/liblibc_c.a -Wl,--exclude-libs,liblibc_c.a

install: all
	$(INSTALL) -d $(addprefix $(TO)/,$(sort $(dir $(FILES))))
	$(INSTALL) -m 755 $(PROGRAM) $(TO)/bin/ringplan
	$(PROGRAM) man > $(TO)/share/man/man1/ringplan.1
	$(PROGRAM) completions bash > $(TO)/share/bash-completion/completions/ringplan
	$(PROGRAM) completions zsh > $(TO)/$(ZSH)/_ringplan
	$(PROGRAM) completions fish > $(TO)/share/fish/vendor_completions.d/ringplan.fish
	for it in $(MODULES); do $(INSTALL) -D -m 644 python/$$it $(TO)/lib/python3/dist-packages/$$it || exit; done
	sed 's|@PYTHON@|$(PYTHON)|; s|@MODULE@|ringplan.run.__main__|' packaging/script.py.in > $(TO)/bin/ringplan-run
	sed 's|@PYTHON@|$(PYTHON)|; s|@MODULE@|ringplan.importing|' packaging/script.py.in > $(TO)/bin/ringplan-import
	sed 's|@PYTHON@|$(PYTHON)|; s|@MODULE@|ringplan.merging|' packaging/script.py.in > $(TO)/bin/ringplan-merge
	sed 's|@PYTHON@|$(PYTHON)|; s|@MODULE@|ringplan.breaks.__main__|' packaging/script.py.in > $(TO)/bin/ringplan-break
	chmod 755 $(addprefix $(TO)/bin/,$(COMMANDS))
	for it in $(COMMANDS); do packaging/man.py $(VERSION) $$it > $(TO)/share/man/man1/$$it.1 || exit; \
	    echo "eval \"\$$(register-python-argcomplete $$it 2> /dev/null)\"" > $(TO)/$(word 1,$(SHELLS))/$$it; \
	    echo "register-python-argcomplete --shell fish $$it 2> /dev/null | source" > $(TO)/$(word 2,$(SHELLS))/$$it.fish; done
	cp packaging/completions.zsh $(TO)/$(ZSH)/_ringplan-run
	chmod 644 $(addprefix $(TO)/,$(filter share/%,$(FILES)))
	packaging/info.py $(VERSION) $(TO)/$(PACKAGES)
	for it in $(TEXTS); do $(INSTALL) -D -m 644 $$it $(TO)/share/doc/ringplan/$$it || exit; done
	$(INSTALL) -m 644 packaging/copyright $(TO)/share/doc/ringplan
ifdef LIBRARY
	$(INSTALL) -m 644 $(SHARED) $(TO)/lib
	ln -sf $(notdir $(SHARED)) $(TO)/lib/libringplan.so
	$(INSTALL) -m 644 c/ringplan.h $(TO)/include
	sed 's|@PREFIX@|$(PREFIX)|; s|@VERSION@|$(VERSION)|' packaging/ringplan.pc.in > $(TO)/lib/pkgconfig/ringplan.pc
	chmod 644 $(TO)/lib/pkgconfig/ringplan.pc
else
	rmdir --ignore-fail-on-non-empty $(TO)/lib/pkgconfig $(TO)/include
endif

uninstall:
	rm -f $(addprefix $(TO)/,$(FILES))
	rm -rf $(addprefix $(TO)/,$(OURS))

deb: all
	LIBRARY=$(LIBRARY) packaging/deb.sh $(VERSION) $(DEB)

dist: deb
	git diff --quiet HEAD || echo "dist: the tarball is of the commit, without what was changed since" >&2
	git archive --prefix=ringplan-$(VERSION)/ -o $(TARBALL) HEAD
	cd $(DIST) && sha256sum $(notdir $(TARBALL) $(DEB)) > SHA256SUMS

test:
	.ci/run
