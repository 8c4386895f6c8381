# Puts what stands in bin/, lib/, include/ and python/ where a Unix person looks for it, and takes it out again. Nothing is built.
# It is for GNU make.
#
#   make install [PREFIX=/usr/local] [DESTDIR=]      programs, library, header, pkg-config file, man pages, pages of docs, licences
#   make uninstall [PREFIX=/usr/local] [DESTDIR=]    takes out exactly these
#
# DESTDIR stands in front of each path, for who makes a package; what is installed knows nothing of it.

PREFIX = /usr/local
DESTDIR =
VERSION := $(shell cat VERSION)
ROOT = $(DESTDIR)$(PREFIX)

# The shared library, and what programs that are linked with it look for.
SHARED := libroskevad.so.$(VERSION)
SONAME := $(shell sed -n 's/^soname //p' tools/library_names.txt)
MAN_SECTIONS := 1 3 5
MAN := $(foreach section,$(MAN_SECTIONS),$(patsubst docs/man/%,man$(section)/%,$(wildcard docs/man/*.$(section))))
LICENCES := LICENSE-APACHE LICENSE-MIT js/NOTICES.txt
# The pages for those who use what is installed, and the pictures on them.
PAGES := $(sort $(wildcard docs/*.md docs/tutorials/*.md docs/pictures/*.png docs/plots/*.svg))
# The Python package, which the page to draw on needs.
PACKAGE := $(sort $(shell find python/roskevad -type f ! -path '*/__pycache__/*'))

# The folders that are ours alone, those within others first, and all files, by their paths from PREFIX.
OWN_FOLDERS := $(shell find python/roskevad -depth -type d ! -name __pycache__ | sed 's,^,share/roskevad/,') \
	share/roskevad/python share/roskevad \
	$(patsubst %/,share/doc/roskevad/%,$(sort $(filter-out docs/,$(dir $(PAGES))))) share/doc/roskevad/docs share/doc/roskevad
FOLDERS := bin lib/pkgconfig include $(MAN_SECTIONS:%=share/man/man%) $(OWN_FOLDERS)
FILES := bin/tile_editor bin/map_report bin/tile_page \
	lib/libroskevad.a lib/$(SHARED) lib/$(SONAME) lib/libroskevad.so lib/pkgconfig/roskevad.pc include/roskevad.h \
	$(MAN:%=share/man/%) $(PACKAGE:%=share/roskevad/%) share/roskevad/python/roskevad/libroskevad.so \
	$(addprefix share/doc/roskevad/,$(notdir $(LICENCES))) $(PAGES:%=share/doc/roskevad/%)

FILL_IN = sed -e 's|@PREFIX@|$(PREFIX)|' -e 's|@VERSION@|$(VERSION)|'

help:
	@sed -n '4,7s/^# *//p' Makefile

install:
	@case '$(PREFIX)' in /*) ;; *) echo "make: PREFIX is an absolute path: $(PREFIX)" >&2; exit 1 ;; esac
	for folder in $(FOLDERS); do install -d "$(ROOT)/$$folder" || exit 1; done
	install -m 755 bin/tile_editor bin/map_report "$(ROOT)/bin"
	$(FILL_IN) tools/install/tile_page.in >"$(ROOT)/bin/tile_page"
	chmod 755 "$(ROOT)/bin/tile_page"
	install -m 644 lib/libroskevad.a "$(ROOT)/lib"
	install -m 755 lib/libroskevad.so "$(ROOT)/lib/$(SHARED)"
	for name in $(SONAME) libroskevad.so; do ln -sfn $(SHARED) "$(ROOT)/lib/$$name" || exit 1; done
	$(FILL_IN) tools/install/roskevad.pc.in >"$(ROOT)/lib/pkgconfig/roskevad.pc"
	chmod 644 "$(ROOT)/lib/pkgconfig/roskevad.pc"
	install -m 644 include/roskevad.h "$(ROOT)/include"
	for page in $(MAN); do install -m 644 docs/man/$${page#*/} "$(ROOT)/share/man/$$page" || exit 1; done
	install -m 644 $(LICENCES) "$(ROOT)/share/doc/roskevad"
	for page in $(PAGES); do install -m 644 $$page "$(ROOT)/share/doc/roskevad/$$page" || exit 1; done
	for file in $(PACKAGE); do install -m 644 $$file "$(ROOT)/share/roskevad/$$file" || exit 1; done
	ln -sfn ../../../../lib/$(SHARED) "$(ROOT)/share/roskevad/python/roskevad/libroskevad.so"

# What Python keeps of the package beside it goes too.
uninstall:
	for file in $(FILES); do rm -f "$(ROOT)/$$file" || exit 1; done
	for folder in $(OWN_FOLDERS); do rm -rf "$(ROOT)/$$folder/__pycache__"; rmdir "$(ROOT)/$$folder" 2>/dev/null || :; done

.PHONY: help install uninstall
