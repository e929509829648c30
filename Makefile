# make: builds the program; make install PREFIX=..: puts it at PREFIX/bin/osm-tasks, with its manual page, documents and
# examples; make test: the tests; make dist: packs what make install would put, for any x86-64 Linux with its C library.
PREFIX ?= /usr/local
DESTDIR ?=
DOCUMENTS = README.md LICENSE docs/COMMANDS.md docs/EXTRACTS.md docs/MIRRORS.md docs/FROM-OSMOSIS.md \
	docs/FORMATS.md docs/PROMISES.md
PAGES = $(DESTDIR)$(PREFIX)/share/doc/osm-tasks
MANUALS = $(DESTDIR)$(PREFIX)/share/man/man1
ARCHIVE = osm-tasks-x86_64-linux

.PHONY: all install dist test

all:
	tools/build

install: all
	install -d "$(DESTDIR)$(PREFIX)/bin" "$(MANUALS)" "$(PAGES)/examples/results"
	install -m 755 crates/osm_cli/out/osm_cli "$(DESTDIR)$(PREFIX)/bin/osm-tasks"
	install -m 644 docs/osm-tasks.1 "$(MANUALS)"
	install -m 644 $(DOCUMENTS) "$(PAGES)"
	install -m 644 examples/*.* "$(PAGES)/examples"
	install -m 644 examples/results/*.* "$(PAGES)/examples/results"

dist:
	rm -rf out/$(ARCHIVE)
	$(MAKE) install DESTDIR="$(CURDIR)/out/$(ARCHIVE)/" PREFIX=
	tar -C out --sort=name --mtime=@0 --owner=0 --group=0 --numeric-owner -czf out/$(ARCHIVE).tar.gz $(ARCHIVE)
	@echo "out/$(ARCHIVE).tar.gz"

test:
	.ci/run
