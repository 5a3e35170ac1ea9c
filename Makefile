# Builds the programs, installs them, and packs them.
#
#     make                            builds the programs if they are not built yet or a source has changed
#     make lib                        builds the library for C in out/library, in the same way
#     make scan                       builds the recorder's loop of system calls, out/scan.so, with a C compiler
#     make page                       builds the planner as one page, out/precopy.html, and its WebAssembly module
#     make js                         makes the package for Node, out/js, which npm installs without a network
#     make docs                       makes docs/INDEX.md from the sources: public calls, clauses and definitions
#     make install PREFIX=/usr        installs below PREFIX: programs, tools, manuals, completions, documents, examples,
#                                     the page, the library with its header, and precopy.pc for pkg-config
#     make install-lib PREFIX=/usr    installs the library alone: archive, shared library, header, precopy.pc, and the
#                                     crate for Rust in share/precopy/rust
#     make uninstall PREFIX=/usr      removes what make install put there; make uninstall-lib, what make install-lib did
#     make deb                        makes packages for Debian in out/, by debhelper and dh-python: the programs, the
#                                     library, its header, the module for Python. After ./precopy it takes 26 minutes
#                                     of a processor, and more for the page's module
#     make dist                       makes a tarball for other systems in out/, and its checksum
#     make release                    makes all that users get of a version in out/release/, with checksums, and tags
#                                     the commit; the tree must have no changes
#
# DESTDIR stands in front of each path of an installation. BINDIR, LIBDIR, MANDIR, DOCDIR, BASHDIR, ZSHDIR, SYSTEMDDIR,
# LIBRARYDIR, INCLUDEDIR and SHAREDIR name single folders, and MAINTAINER who answers for a package.

PREFIX ?= /usr/local
PACK = dev/package
WHERE = --prefix "$(PREFIX)" --destdir "$(DESTDIR)" --bindir "$(BINDIR)" --libdir "$(LIBDIR)" --mandir "$(MANDIR)" \
	--docdir "$(DOCDIR)" --bashdir "$(BASHDIR)" --zshdir "$(ZSHDIR)" \
	--systemddir "$(SYSTEMDDIR)" --librarydir "$(LIBRARYDIR)" --includedir "$(INCLUDEDIR)" --sharedir "$(SHAREDIR)"

all: notices
	./precopy --help > /dev/null
	./precopy-view --help > /dev/null
	dev/build --if-needed precopy_schedule

notices:
	$(PACK) notices

lib: notices
	$(PACK) lib

scan:
	$(PACK) scan

page: notices
	dev/page-module --if-needed out/browser_planner.wasm
	dev/join-page out/browser_planner.wasm out/precopy.html

js: notices
	dev/page-module --if-needed out/browser_planner.wasm
	dev/js-package out/browser_planner.wasm out/js

docs:
	dev/index

install: all lib page
	$(PACK) install $(WHERE)

install-lib: lib
	$(PACK) install-lib $(WHERE)

uninstall uninstall-lib:
	$(PACK) $@ $(WHERE)

deb dist: all lib page
	$(PACK) $@ $(if $(MAINTAINER),--maintainer "$(MAINTAINER)")

release: all lib page
	$(PACK) $@ --output out/release $(if $(MAINTAINER),--maintainer "$(MAINTAINER)")

.PHONY: all notices lib scan page js docs install install-lib uninstall uninstall-lib deb dist release
