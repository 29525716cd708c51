# Targets: see `make help`. The toolchain is the Rattle kit; its command is rt.
.DEFAULT_GOAL := help
.DELETE_ON_ERROR:
.NOTPARALLEL:
.PHONY: help run test check lib listing install uninstall header example images fuzz bench bench-search bench-against fmt
.PHONY: test-command test-division test-outside test-c test-install seeded-fault

help:
	@echo "make run           lists a shipped book of forty days: the model that the library infers from it"
	@echo "make test          the whole gate; its last line is 'N passed, 0 failed'"
	@echo
	@echo "scripts/plans --help   what the command plans does, over the library that 'make lib' builds"
	@echo "make images        the drawings under docs/images, anew"
	@echo
	@echo "make install       [PREFIX=/usr/local] [DESTDIR=]: libraries, headers, plans.pc, commands, module, man page"
	@echo "make uninstall     removes what that installed"
	@echo "make lib           target/staticlib/libplans.a and target/lib/libplans.so, for C; headers are in include/"
	@echo "make example       builds examples/*.c over it with gcc, runs them, and compares what they print"
	@echo "make listing       target/bin/listing: a book on standard input, its listing on standard output"
	@echo "make header        puts the version and the refusals' words into include/plans.h"
	@echo
	@echo "make check         proves what changed since the last check"
	@echo "make test-command  tests of the command plans and its module, the texts, the drawings and the listing program"
	@echo "make test-division that nothing which build reaches divides, in the sources and in the compiled archive"
	@echo "make test-outside  compares the library with an independent implementation on generated inputs"
	@echo "make test-c        the header and the library from C, with sanitizers and under valgrind"
	@echo "make test-install  an installation: every example built by pkg-config alone, and nothing left after uninstall"
	@echo "make seeded-fault  faults put into copies of the library, which test-outside must find"
	@echo "make fuzz SECONDS=600   the comparison of test-outside with new inputs, as long as asked"
	@echo "make bench         what calls cost, as multiples of one memset, beside a second implementation and beside expat"
	@echo "make bench-search SECONDS=300   looks for books that cost more"
	@echo "make bench-against BEFORE=FILE  builds and a walk against those by an earlier libplans.so, in one run"
	@echo "make fmt           puts every .rt and .antt file into the layout"

# What is proved and compiled: scripts/anew makes it where it was not made from the sources as they are. The kit is asked for only
# there, so that what is built can be installed without it.
LIBRARY := target/staticlib/libplans.a
SHARED := target/lib/libplans.so
LISTING := target/bin/listing
SONAME := libplans.so.$(firstword $(subst ., ,$(file < VERSION)))

# Where `make install` puts things; DESTDIR stands before every place. They reach scripts/install by the environment.
PREFIX ?= /usr/local
export PREFIX DESTDIR

# Every target that needs a tool or a setting asks for it here, so that a newcomer reads what is missing.
.PHONY: kit python seconds before always
kit:
	@command -v rt >/dev/null || { echo "make: the command 'rt' is missing: it comes with the Rattle kit (rattle-kit-13f)"; exit 1; }
seconds:
	@[ -n "$(SECONDS)" ] || { echo "make: say for how long, as SECONDS=300"; exit 1; }
before:
	@[ -f "$(BEFORE)" ] || { echo "make: say which libplans.so, as BEFORE=FILE"; exit 1; }
python:
	@command -v python3 >/dev/null || { echo "make: the command 'python3' is missing: it is in Debian's package python3"; exit 1; }

run: listing
	@target/bin/listing < examples/books/days.book

test: kit
	@scripts/gate

check: kit
	@scripts/proving . rt all check

lib: $(LIBRARY) $(SHARED)

$(LIBRARY): always
	@scripts/anew $@ scripts/archive

$(SHARED): $(LIBRARY) VERSION scripts/plans.map
	@command -v gcc >/dev/null || { echo "make: the command 'gcc' is missing: it is in Debian's package gcc"; exit 1; }
	@mkdir -p $(@D)
	@gcc -shared -nostartfiles -Wl,-soname,$(SONAME) -Wl,--version-script=scripts/plans.map -Wl,-z,defs -Wl,-z,now \
		-Wl,--whole-archive $(LIBRARY) -Wl,--no-whole-archive -o $@
	@cp --remove-destination $@ $(@D)/$(SONAME)

listing: $(LISTING)

$(LISTING): always
	@scripts/anew $@ scripts/program listing

install: python lib listing
	@scripts/install put

uninstall:
	@scripts/install remove

header: python
	@scripts/header

example: lib
	@scripts/example

images: python lib
	@scripts/images

test-command: python lib listing
	@scripts/test-command

test-division: python lib
	@scripts/test-division

test-outside: lib listing
	@scripts/test-outside

test-c: lib
	@scripts/test-c

test-install: lib listing
	@scripts/test-install

seeded-fault: lib listing
	@scripts/seeded-fault

fuzz: seconds lib listing
	@scripts/test-outside --seconds "$(SECONDS)"

bench: lib
	@scripts/bench

bench-search: seconds lib
	@scripts/bench search "$(SECONDS)"

bench-against: before lib
	@scripts/bench against $(SHARED) "$(BEFORE)"

fmt: kit
	@for crate in crates/*/; do (cd "$$crate" && rt fmt) || exit 1; done
