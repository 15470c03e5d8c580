#: make                       proves and builds the program, bin/aerodrome; needs the kit's command rt on the path, and 10 GB of disk
#: make try TRACE=FILE        judges a log in two or three minutes, without a proof; without TRACE a lost update; needs rt too
#: make logger                builds the logger for C, C++ and Rust programs; needs only gcc or clang, and binutils
#: make go                    builds the logger for Go programs, for Go 1.19 on linux/amd64; needs only gcc or clang, and binutils
#: make java                  builds the agent that logs Java programs; needs a JDK, ASM and jarjar (docs/install.md names Debian's packages)
#: make library               proves and builds the library for C; needs rt and ar
#: make install PREFIX=DIR    installs the program, scripts, logger, manual pages, pages for users and examples into DIR (default: /usr/local)
#: make uninstall PREFIX=DIR  removes the files that make install put there, and the folders that it made, if they are empty
#: make dist                  makes an archive for machines without the kit, out/dist/aerodrome-VERSION-linux-x86_64.tar.gz
#: make deb                   makes packages for Debian in out/dist; both need rt, and a JDK (WITHOUT=java leaves the agent out)
#: make edits                 tries every wrong body that the prover must refuse, and its harmless twin; needs rt
#: make test                  runs the gate: every proof, test and case, and the examples of the pages
#: make clean                 removes everything that was built, and everything that is kept of proofs
PREFIX ?= /usr/local
# What `make try` judges.
TRACE ?= examples/withdraw.std
# What the program is made of: no edit that must fail, no crate of tests, and not the library for C.
CRATES := $(filter-out %_tests crates/aero_c,$(wildcard crates/*))
SOURCES := HANDLES crates.txt $(shell find $(wildcard $(CRATES:=/src) $(CRATES:=/specs) $(CRATES:=/proofs)) -type f)
LIBRARY := $(shell find $(wildcard crates/aero_c/src crates/aero_c/specs crates/aero_c/proofs) -type f)

COMMANDS := $(patsubst commands/%,bin/%,$(wildcard commands/aerodrome-*))
LOGGER := $(wildcard logger/* logger/include/* logger/include/*/* logger/operators/*)
WRAPPERS := bin/aerodrome-cc bin/aerodrome-c++ bin/aerodrome-rustc bin/aerodrome-places
GO := $(wildcard go/*) logger/words.h
JAVA := java/build $(wildcard java/src/aerodrome/table java/src/aerodrome/*.java java/src/aerodrome/*/*.java)

.PHONY: all help try library logger go java edits test install files uninstall clean

all: bin/aerodrome $(COMMANDS)

$(COMMANDS): bin/%: commands/%
	@mkdir -p bin && ln -sf ../$< $@

help:
	@sed -n 's/^#: //p' $(firstword $(MAKEFILE_LIST))

# The program as it would be built, run on one trace.
try: export TRACE := $(TRACE)
try:
	@tools/try "$$TRACE"

bin/aerodrome: $(SOURCES)
	@tools/build

# The wrappers and aerodrome-places into bin/, and the object that the wrappers link into lib/aerodrome.
logger: $(WRAPPERS) lib/aerodrome/aerodrome-log.o

$(WRAPPERS) lib/aerodrome/aerodrome-log.o &: $(LOGGER)
	@logger/build .

# The wrapper into bin/, and the object that it gives to go into lib/aerodrome.
go: bin/aerodrome-go lib/aerodrome/aerodrome-go.o

bin/aerodrome-go lib/aerodrome/aerodrome-go.o &: $(GO)
	@go/build .

# The agent for Java, into lib/aerodrome.
java: lib/aerodrome/aerodrome-agent.jar

lib/aerodrome/aerodrome-agent.jar: $(JAVA)
	@java/build lib/aerodrome

library: lib/aerodrome/libaerodrome.a

lib/aerodrome/libaerodrome.a: $(SOURCES) $(LIBRARY)
	@tools/build library

# All of them, whatever has changed.
edits:
	@tools/edits

# `rt ci`, and then the cases, the checks of printed orders and cycles, and the pages, by what stands in tests/, on the program that it built.
test:
	@tests/all

install: bin/aerodrome
	@umask 022 && room=$$(mktemp -d) && trap 'rm -rf "$$room"' EXIT && $(MAKE) -s -o bin/aerodrome files DESTDIR="$$room/" && \
	tools/install "$$room/$(PREFIX)" "$(DESTDIR)$(PREFIX)"

uninstall:
	@tools/install --undo "$(DESTDIR)$(PREFIX)"

# What make install puts where.
# (bash looks for a command's completions in a file of the command's name)
files: TO := $(DESTDIR)$(PREFIX)
files:
	install -D -m 755 bin/aerodrome "$(TO)/bin/aerodrome"
	install -D -m 755 -t "$(TO)/bin" commands/aerodrome-*
	install -D -m 644 -t "$(TO)/lib/aerodrome/aerodrome_view" commands/aerodrome_view/*.py commands/aerodrome_view/page.css
	install -D -m 644 -t "$(TO)/lib/aerodrome/aerodrome_refine" commands/aerodrome_refine/*.py
	install -D -m 644 -t "$(TO)/share/man/man1" docs/*.1
	@for command in aerodrome aerodrome-merge aerodrome-refine aerodrome-page aerodrome-sarif aerodrome-go; do \
	install -D -m 644 completions/aerodrome.bash "$(TO)/share/bash-completion/completions/$$command"; done
	install -D -m 644 completions/_aerodrome "$(TO)/share/zsh/site-functions/_aerodrome"
	tools/user-pages "$(TO)/share/doc/aerodrome"
	install -D -m 644 -t "$(TO)/lib/cmake/aerodrome" packaging/cmake/*.cmake
	install -m 755 packaging/cmake/run-test "$(TO)/lib/cmake/aerodrome"
	@if [ -f lib/aerodrome/libaerodrome.a ]; then \
	install -D -m 644 lib/aerodrome/libaerodrome.a "$(TO)/lib/aerodrome/libaerodrome.a"; \
	install -D -m 644 include/aerodrome.h "$(TO)/include/aerodrome.h"; fi
	@if [ -f lib/aerodrome/aerodrome-agent.jar ]; then \
	install -D -m 644 lib/aerodrome/aerodrome-agent.jar "$(TO)/share/java/aerodrome-agent.jar"; fi
	@if command -v $${CC:-gcc} > /dev/null; then logger/build "$(TO)" && go/build "$(TO)"; \
	else echo "no $${CC:-gcc} here: the logger isn't installed"; fi

# What a release has for machines without the kit. WITHOUT may have java, library and older, which are left out then (tools/dist).
.PHONY: dist deb
dist deb: bin/aerodrome $(filter-out $(WITHOUT),java library)
	@WITHOUT="$(WITHOUT)" tools/$@

clean:
	rm -rf bin lib out crates/*/out
