# The doors of the repository; each is a line or two over `rt`.
#   make try ARGS="show examples/one_ant.world 12345"      a quick look, without a proof
#   make run ARGS="show examples/one_ant.world 12345"
#   make second                                           without the toolchain: the second program, unproved
#   make test · make documents · make library · make install PREFIX=DIR · make uninstall PREFIX=DIR · make dist · make deb · make bench
PREFIX ?= /usr/local
SHELL = bash
PROGRAM = crates/ants/out/ants
ARCHIVE = crates/ants_c/out/libants_c.a
SOURCES = crates.txt $(shell find crates -name out -prune -o \( -name '*.rt' -o -name '*.antt' \) -print)

.PHONY: build run try second test documents library install uninstall dist deb bench

build: $(PROGRAM)

# `rt run` builds before it runs, and there is no command that builds alone: so a command is run that needs no file.
$(PROGRAM): $(SOURCES)
	@cd crates/ants && rt run -- show - 1 < stdin > /dev/null
	@touch $@

run: build
	@$(PROGRAM) $(ARGS)

try:
	@.ci/try $(ARGS)

# The second program, written from docs/RULES.md and docs/COMMANDS.md alone: it needs only a C++17 compiler, and is not proved.
second: ants2

ants2: $(wildcard bench/second/*.cpp bench/second/*.hpp bench/second/commands/*.cpp)
	$(CXX) -std=c++17 -O2 -iquote bench/second -o $@ bench/second/*.cpp bench/second/commands/*.cpp

test:
	rt ci

documents:
	@.ci/make-documents
	@.ci/documents

# libants.a and libants.so, in library/.
library: library/libants.a library/libants.so

$(ARCHIVE): $(SOURCES)
	cd crates/ants_c && rt lib
	@touch $@

library/libants.a: $(ARCHIVE) library/link library/front.c library/command.c library/ants.h
	library/link $(ARCHIVE) library

library/libants.so: library/libants.a
	@[ -e $@ ] || library/link $(ARCHIVE) library

install: build library
	package/install "$(DESTDIR)$(PREFIX)" "$(PREFIX)"

uninstall:
	package/install --remove "$(DESTDIR)$(PREFIX)" "$(PREFIX)"

dist: build library
	package/make tar

deb: build library
	package/make deb

bench: build
	bench/run
	bench/saves
	bench/programs
	bench/workers
