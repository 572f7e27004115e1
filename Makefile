# Installs the C header and the static library, or packs them for a C user who has no prover. It builds nothing: ./run proves and makes
# the library.

PREFIX = /usr/local
INCLUDEDIR = $(PREFIX)/include
LIBDIR = $(PREFIX)/lib
DOCDIR = $(PREFIX)/share/doc/push_down_filter
DESTDIR =
INSTALL = install

HEADER = include/push_down_filter.h
LIBRARY = target/staticlib/libpush_down_filter.a
LICENCES = LICENSE NOTICE
PAGES = docs/FORMAT.md docs/MEANING.md docs/REWRITE.md docs/GLOSSARY.md

# The header alone says the version.
part = $(shell sed -n 's/^.define PUSH_DOWN_FILTER_VERSION_$(1) //p' $(HEADER))
VERSION := $(call part,MAJOR).$(call part,MINOR).$(call part,PATCH)

NAME = push_down_filter-$(VERSION)-x86_64-linux
PACKED = target/dist/$(NAME)

# Folders below the prefix are said by it, so that pkg-config --define-prefix can move them.
below = $(patsubst $(PREFIX)/%,$${prefix}/%,$(1))
pc = sed -e 's|@prefix@|$(1)|' -e 's|@includedir@|$(2)|' -e 's|@libdir@|$(3)|' -e 's|@version@|$(VERSION)|' \
	packaging/push_down_filter.pc.in

.PHONY: help install uninstall dist

help:
	@echo 'make install    the header, the library, its .pc file and the licence; PREFIX ($(PREFIX)), INCLUDEDIR, LIBDIR, DOCDIR, DESTDIR'
	@echo 'make uninstall  removes them again, with the same words'
	@echo 'make dist       $(PACKED).tar.gz: the same, with a README, the pages, the example and SHA256SUMS'
	@echo 'version $(VERSION); $(LIBRARY) is made by ./run'

$(LIBRARY):
	@echo '$@ is not there: ./run makes it' >&2; exit 1

install: $(LIBRARY)
	$(INSTALL) -d '$(DESTDIR)$(INCLUDEDIR)' '$(DESTDIR)$(LIBDIR)/pkgconfig' '$(DESTDIR)$(DOCDIR)'
	$(INSTALL) -m 644 $(HEADER) '$(DESTDIR)$(INCLUDEDIR)'
	$(INSTALL) -m 644 $(LIBRARY) '$(DESTDIR)$(LIBDIR)'
	$(INSTALL) -m 644 $(LICENCES) '$(DESTDIR)$(DOCDIR)'
	$(call pc,$(PREFIX),$(call below,$(INCLUDEDIR)),$(call below,$(LIBDIR))) >'$(DESTDIR)$(LIBDIR)/pkgconfig/push_down_filter.pc'

uninstall:
	rm -f '$(DESTDIR)$(INCLUDEDIR)/push_down_filter.h' '$(DESTDIR)$(LIBDIR)/libpush_down_filter.a'
	rm -f '$(DESTDIR)$(LIBDIR)/pkgconfig/push_down_filter.pc' $(LICENCES:%='$(DESTDIR)$(DOCDIR)/%')
	[ ! -d '$(DESTDIR)$(DOCDIR)' ] || rmdir --ignore-fail-on-non-empty '$(DESTDIR)$(DOCDIR)'

# Names, times and owners are fixed, so that the same files give the same archive.
dist: $(LIBRARY)
	rm -rf $(PACKED) $(PACKED).tar.gz
	$(INSTALL) -d $(PACKED)/include $(PACKED)/lib/pkgconfig
	$(INSTALL) -m 644 $(HEADER) $(PACKED)/include
	$(INSTALL) -m 644 $(LIBRARY) $(PACKED)/lib
	$(INSTALL) -m 644 $(LICENCES) packaging/README.md examples/c/example.c examples/expected.txt SECURITY.md $(PAGES) $(PACKED)
	$(call pc,$${pcfiledir}/../..,$${prefix}/include,$${prefix}/lib) >$(PACKED)/lib/pkgconfig/push_down_filter.pc
	cd $(PACKED) && find . -type f ! -name SHA256SUMS | LC_ALL=C sort | xargs sha256sum >SHA256SUMS
	tar --sort=name --mtime=@0 --owner=0 --group=0 --numeric-owner --mode=u=rwX,go=rX -C target/dist -cf - $(NAME) | gzip -9n >$(PACKED).tar.gz
	@echo $(PACKED).tar.gz
