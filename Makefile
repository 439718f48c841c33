# What is built, installed and run. `rt` proves what it builds: a static library exists only where every function in it is proved.

CARGO = cargo --quiet
MANIFEST = --manifest-path rust/Cargo.toml --release --locked

# Where it is installed, by the command line or by the environment. Who makes a package has DESTDIR put before each place.
PREFIX ?= /usr/local
DESTDIR ?=
bindir = $(PREFIX)/bin
includedir = $(PREFIX)/include
libdir = $(PREFIX)/lib
mandir = $(PREFIX)/share/man
docdir = $(PREFIX)/share/doc/avsplus

# The interface's number is taken from the header and the version from the program, so that none can differ from them.
INTERFACE := $(shell sed -n 's/^.define AVSPLUS_VERSION \([0-9]*\)u$$/\1/p' include/avsplus.h)
VERSION := $(shell sed -n 's/^version = "\(.*\)"$$/\1/p' rust/cli/Cargo.toml)
$(if $(INTERFACE),,$(error include/avsplus.h has no AVSPLUS_VERSION))
$(if $(VERSION),,$(error rust/cli/Cargo.toml has no version))

LIBRARY = target/staticlib/libavsplus.a
SHARED = target/lib/libavsplus.so.$(INTERFACE)
PROGRAM = rust/target/release/avsplus

.PHONY: library program shared install uninstall sample test bench bench-links bench-memchr

# What could not be made whole is not left there.
.DELETE_ON_ERROR:

# The proved static library, target/staticlib/libavsplus.a.
library: $(LIBRARY)

# Proved again only where a source is newer. What `rt` itself keeps, in crates/NAME/out, is no source.
$(LIBRARY): crates.txt $(shell find crates -type f -not -path 'crates/*/out/*')
	scripts/library

# The command line, rust/target/release/avsplus.
program: $(PROGRAM)

$(PROGRAM): $(LIBRARY) $(shell find rust/Cargo.* rust/avsplus-sys rust/avsplus rust/cli -type f)
	scripts/needs cargo gcc ar
	$(CARGO) build $(MANIFEST) -p avsplus-cli
	touch $@

# The shared library, target/lib/libavsplus.so.N: the static one whole. It needs no other library but C's own, and would not link if it
# did.
shared: $(SHARED)

$(SHARED): $(LIBRARY) include/avsplus.h scripts/exports.map
	scripts/needs gcc
	mkdir -p $(@D)
	gcc -shared -nostdlib -o $@ -Wl,-soname,$(@F) -Wl,--version-script=scripts/exports.map -Wl,-z,defs,-z,text,-z,noexecstack \
		-Wl,--whole-archive $(LIBRARY) -Wl,--no-whole-archive -lc

# The header, both libraries, what pkg-config says of them, the program and its page, and the rules. All is made before any is put in
# place.
install: program shared
	@case "$(PREFIX)" in /*) ;; *) echo 'make install: PREFIX is not a whole path: $(PREFIX)' >&2; exit 1 ;; esac
	mkdir -p target/install
	$(PROGRAM) help --man >target/install/avsplus.1
	sed -e 's|@prefix@|$(PREFIX)|; s|@libdir@|$(libdir)|; s|@includedir@|$(includedir)|' \
		-e 's|@interface@|$(INTERFACE)|; s|@version@|$(VERSION)|' scripts/avsplus.pc.in >target/install/avsplus.pc
	install -D -m 644 include/avsplus.h "$(DESTDIR)$(includedir)/avsplus.h"
	install -D -m 644 $(LIBRARY) "$(DESTDIR)$(libdir)/libavsplus.a"
	install -D -m 644 $(SHARED) "$(DESTDIR)$(libdir)/$(notdir $(SHARED))"
	ln -sf $(notdir $(SHARED)) "$(DESTDIR)$(libdir)/libavsplus.so"
	install -D -m 644 target/install/avsplus.pc "$(DESTDIR)$(libdir)/pkgconfig/avsplus.pc"
	install -D -m 755 $(PROGRAM) "$(DESTDIR)$(bindir)/avsplus"
	install -D -m 644 target/install/avsplus.1 "$(DESTDIR)$(mandir)/man1/avsplus.1"
	install -D -m 644 docs/RULES.md "$(DESTDIR)$(docdir)/RULES.md"

# Removes what `make install` with the same PREFIX and DESTDIR puts there, and no folder.
uninstall:
	rm -f "$(DESTDIR)$(includedir)/avsplus.h"
	rm -f "$(DESTDIR)$(libdir)/libavsplus.a"
	rm -f "$(DESTDIR)$(libdir)/$(notdir $(SHARED))"
	rm -f "$(DESTDIR)$(libdir)/libavsplus.so"
	rm -f "$(DESTDIR)$(libdir)/pkgconfig/avsplus.pc"
	rm -f "$(DESTDIR)$(bindir)/avsplus"
	rm -f "$(DESTDIR)$(mandir)/man1/avsplus.1"
	rm -f "$(DESTDIR)$(docdir)/RULES.md"

# The sample, filed.
sample: program
	rust/target/release/avsplus file samples/two-groups.avs

# All tests: the gate.
test:
	.ci/run

# The library beside plain C and Rust.
bench: library
	scripts/needs cargo gcc ar
	$(CARGO) run $(MANIFEST) -p bench

# The same in nine links, each with the functions in another order: of each row and rival the median. LINKS=.. for another number.
bench-links: library
	scripts/bench-links $(or $(LINKS),9)

# The search beside the crate memchr too, from its Debian package, which nothing else here needs. The lock is made anew: the
# version is the one that is installed.
bench-memchr: library
	scripts/needs cargo gcc ar
	ls -d /usr/share/cargo/registry/memchr-* >/dev/null 2>&1 || { apt-get update && apt-get install -y librust-memchr-dev; }
	rm -f rust/bench-memchr/Cargo.lock
	cd rust/bench-memchr && $(CARGO) run --release
