# make            whether there is a program: the release, or one that ./fretime --build proved and built; neither begins a proof
# make test       the program from outside; make prove: every proof from nothing first
# make install    programs, man pages, completions and documents below PREFIX; make uninstall takes them away
# make deb        a Debian package of the same, out/fretime_VERSION_amd64.deb, with ~dev for -dev
# make wheel      a wheel for Python, out/fretime-VERSION-py3-none-manylinux_2_34_x86_64.whl, with .dev0 for -dev
# make dist       what is installed, as a plain tar, out/fretime-VERSION-x86_64-linux.tar.gz
# make version    the version, which stands in the program's command line alone
# make clean      takes away out/, with these packages; what was proved and built in crates/ stays
# make help       prints these lines

PREFIX = /usr/local
BASHDIR = $(PREFIX)/share/bash-completion/completions
ZSHDIR = $(PREFIX)/share/zsh/site-functions
FISHDIR = $(PREFIX)/share/fish/vendor_completions.d
MANDIR = $(PREFIX)/share/man/man1
DOCDIR = $(PREFIX)/share/doc/fretime
DATADIR = $(PREFIX)/share/fretime
# of the newest version that has one
DATE := $(shell sed -n '/^\#\# \[[0-9].*\] - /{s/.* - //p;q}' CHANGELOG.md)

VERSION := $(shell sed -n 's/.*\.version("\([^"]*\)").*/\1/p' crates/*/src/*.rt)
INSTALLED = $(addprefix $(PREFIX)/bin/,$(COMMANDS)) $(addprefix $(MANDIR)/,$(COMMANDS:=.1)) $(addprefix $(BASHDIR)/,$(COMMANDS)) \
	$(addprefix $(ZSHDIR)/_,$(COMMANDS)) $(addprefix $(FISHDIR)/,$(COMMANDS:=.fish)) $(DATADIR) $(DOCDIR)
COMMANDS = fretime fretime_verilog fretime_prove
# the scripts, from Verilog to Verilog and to checked proofs, and their modules, which the examples lead to
VERILOG = fretime_verilog $(notdir $(wildcard examples/verilog/*.py))
PROOF = fretime_prove $(notdir $(wildcard examples/proof/*.py))
# the examples by their names, since the commands of documents leave other files beside them
CIRCUITS = $(addprefix examples/,$(addsuffix .aag,decoder four_latches free_latch inverted refused two_latches))
MATCH = $(addprefix examples/match/,$(addsuffix .v,asynchronous enable lines match stall synchronous) to_aiger.ys from_aiger.ys match.stim)
DESIGNS = $(addprefix examples/verilog/,$(addsuffix .v,crc datapath divider fir multiplier))
# the documents that are installed: all but those of work on the sources
DOCUMENTS = README.md CHANGELOG.md SECURITY.md examples/verilog/README.md $(wildcard crates/*/README.md) \
	$(filter-out $(addprefix docs/,ARCHITECTURE.md COSTS.md PROOFS.md TRAPS.md),$(wildcard docs/*.md))
STAGE = out/deb
# Debian has what comes before a version by a tilde.
DEB_VERSION = $(VERSION:-dev=~dev)
PACKAGE = out/fretime_$(DEB_VERSION)_amd64.deb
TARBALL = out/fretime-$(VERSION)-x86_64-linux.tar.gz
WHEELS = out
FILLED = sed -e 's/@VERSION@/$(VERSION)/' -e 's/@DATE@/$(DATE)/'

# A path with a blank would be two to make.
EMPTY =
PATHS = PREFIX DESTDIR BASHDIR ZSHDIR FISHDIR MANDIR DOCDIR DATADIR STAGE PACKAGE TARBALL WHEELS
WITH_BLANKS := $(strip $(foreach it,$(PATHS),$(if $(findstring $(EMPTY) $(EMPTY),$($(it)))$(findstring $(EMPTY)	$(EMPTY),$($(it))),$(it))))
ifneq ($(WITH_BLANKS),)
$(error $(firstword $(WITH_BLANKS)): a path here can't have a blank, and nothing was made)
endif

all:
	@./fretime --version

help:
	@sed -n -e '/^#/!q' -e 's/^# //p' Makefile

clean:
	rm -rf out

test:
	./test

prove:
	./test --proofs

version:
	@echo $(VERSION)

install: all
	install -d $(DESTDIR)$(PREFIX)/bin $(DESTDIR)$(MANDIR) $(DESTDIR)$(BASHDIR) $(DESTDIR)$(ZSHDIR) $(DESTDIR)$(FISHDIR) \
		$(DESTDIR)$(DATADIR)
	install -d $(addprefix $(DESTDIR)$(DOCDIR)/,docs/pictures release tests $(addprefix examples/,cluster match proof verilog) \
		$(dir $(filter crates/%,$(DOCUMENTS))))
	install -m 755 "$$(release/make --program)" $(DESTDIR)$(PREFIX)/bin/fretime
	for name in $(COMMANDS); do $(FILLED) install/$$name.1 > $(DESTDIR)$(MANDIR)/$$name.1; done
	chmod 644 $(addprefix $(DESTDIR)$(MANDIR)/,$(COMMANDS:=.1))
	for name in $(COMMANDS); do install -m 644 install/$$name.bash $(DESTDIR)$(BASHDIR)/$$name; done
	install -m 644 $(addprefix install/_,$(COMMANDS)) $(DESTDIR)$(ZSHDIR)
	install -m 644 $(addprefix install/,$(COMMANDS:=.fish)) $(DESTDIR)$(FISHDIR)
	for name in $(DOCUMENTS); do sed -E -f install/documents.sed $$name > $(DESTDIR)$(DOCDIR)/$$name; done
	chmod 644 $(addprefix $(DESTDIR)$(DOCDIR)/,$(DOCUMENTS))
	install -m 644 LICENSE-APACHE LICENSE-MIT $(DESTDIR)$(DOCDIR)
	install -m 644 release/record release/versions $(DESTDIR)$(DOCDIR)/release
	install -m 644 docs/reports.schema.json $(DESTDIR)$(DOCDIR)/docs
	install -m 644 docs/pictures/*.svg $(DESTDIR)$(DOCDIR)/docs/pictures
	install -m 644 $(CIRCUITS) examples/retimed.py $(DESTDIR)$(DOCDIR)/examples
	install -m 755 examples/cluster/* $(DESTDIR)$(DOCDIR)/examples/cluster
	install -m 644 $(MATCH) $(DESTDIR)$(DOCDIR)/examples/match
	install -m 644 examples/proof/ring.aag $(DESTDIR)$(DOCDIR)/examples/proof
	install -m 644 $(DESIGNS) $(DESTDIR)$(DOCDIR)/examples/verilog
	install -m 644 examples/verilog/*.py examples/proof/*.py $(DESTDIR)$(DATADIR)
	install -m 755 examples/verilog/fretime_verilog examples/proof/fretime_prove $(DESTDIR)$(DATADIR)
	ln -sfr $(addprefix $(DESTDIR)$(DATADIR)/,$(VERILOG)) $(DESTDIR)$(DOCDIR)/examples/verilog
	ln -sfr $(addprefix $(DESTDIR)$(DATADIR)/,$(PROOF)) $(DESTDIR)$(DOCDIR)/examples/proof
	ln -sfr $(addprefix $(DESTDIR)$(DATADIR)/,fretime_verilog fretime_prove) $(DESTDIR)$(PREFIX)/bin
	install -m 755 tests/checker.py tests/map_checker.py tests/witness_checker.py $(DESTDIR)$(DOCDIR)/tests

uninstall:
	rm -rf $(addprefix $(DESTDIR),$(INSTALLED))

# The licences stand in the file that Debian wants, and the man page and the list of changes are compressed. No file is younger than
# DATE, so that the same tree gives the same bytes.
deb wheel dist: export SOURCE_DATE_EPOCH = $(shell date -u -d $(DATE) +%s)
deb:
	rm -rf $(STAGE)
	$(MAKE) install DESTDIR=$(STAGE) PREFIX=/usr ZSHDIR=/usr/share/zsh/vendor-completions
	rm $(STAGE)/usr/share/doc/fretime/LICENSE-*
	install -m 644 install/debian/copyright $(STAGE)/usr/share/doc/fretime/copyright
	awk -v version=$(DEB_VERSION) -v date=$(DATE) -f install/debian/changelog.awk CHANGELOG.md | gzip -9n > $(STAGE)/usr/share/doc/fretime/changelog.gz
	gzip -9n $(STAGE)/usr/share/man/man1/*.1
	install -d $(STAGE)/usr/share/lintian/overrides $(STAGE)/DEBIAN
	install -m 644 install/debian/overrides $(STAGE)/usr/share/lintian/overrides/fretime
	cd $(STAGE) && find usr -type f | LC_ALL=C sort | xargs md5sum > DEBIAN/md5sums
	size=$$(du -ks $(STAGE)/usr | cut -f1) && sed -e 's/@VERSION@/$(DEB_VERSION)/' -e "s/@SIZE@/$$size/" install/debian/control > $(STAGE)/DEBIAN/control
	chmod -R u=rwX,go=rX $(STAGE)
	dpkg-deb --root-owner-group --build $(STAGE) $(PACKAGE)
	rm -rf $(STAGE)

wheel:
	install/python/wheel "$$(release/make --program)" $(VERSION) $(WHEELS)

# Below one folder, with the owner root and the same time for each file.
dist:
	rm -rf $(STAGE)
	$(MAKE) install DESTDIR=$(STAGE) PREFIX=/fretime-$(VERSION)
	chmod -R u=rwX,go=rX $(STAGE)
	tar --sort=name --owner=0 --group=0 --numeric-owner --format=ustar --mtime=@$$SOURCE_DATE_EPOCH -C $(STAGE) \
		-c fretime-$(VERSION) | gzip -9n > $(TARBALL)
	rm -rf $(STAGE)

.PHONY: all help clean test prove version install uninstall deb wheel dist
