# `make` shows the shipped example, proves and builds ./disruptor, and runs it; `make test` proves and tests everything; `make help` lists the rest.
program := crates/disruptor
log := make.log
sources = $(shell find crates \( -name '*.rt' -o -name '*.antt' \) -not -path '*/out/*')

.PHONY: all run try test check lib install install-lib dist bench bench-plots hello clean help

# (what `make lib` left may be installed by who has no kit)
ifneq ($(filter-out help clean bench-plots install install-lib,$(or $(MAKECMDGOALS),all)),)
ifeq ($(shell command -v rt),)
$(error rt is not on the path: install the Rattle kit of README.md, and put its folder bin on the path)
endif
endif

all: disruptor run

# The first time it is also run before any proof.
disruptor: crates.txt $(sources)
	@tools/prove.py --log $(log) $(if $(wildcard $@),,--try) disruptor -- drive '$(CURDIR)/examples/first_event.csv'
	@cp $(program)/out/disruptor $@

run: disruptor
	./disruptor drive examples/first_event.csv
	./disruptor replay --by ring examples/accounts.csv

# Before any proof: it shows what the program does, and proves nothing.
try:
	cd $(program) && rt try -- drive $(CURDIR)/examples/first_event.csv

test:
	tests/house.py
	tools/clauses.py --check
	tests/steps_in_laws.sh
	tests/everything.sh

check:
	$(if $(wildcard crates/$(or $(CRATE),none)/src),,$(error name a crate, as in: make check CRATE=dr_core))
	cd crates/$(CRATE) && rt check

PREFIX ?= /usr/local
into = $(DESTDIR)$(abspath $(PREFIX))

# What programs in other languages link.
lib: out/libdisruptor.a
.DELETE_ON_ERROR:
out/libdisruptor.a: crates.txt $(sources) $(shell find bindings include tools/library.sh tools/packages.sh -type f -not -path '*/target/*')
	@tools/prove.py --log $(log) dr_c
	@tools/library.sh out $(abspath $(PREFIX))
	@tools/packages.sh out

install: disruptor install-lib
	install -d $(into)/bin
	install -m 755 disruptor $(into)/bin
	find share -type f -exec install -D -m 644 '{}' '$(into)/{}' ';'
	install -D -m 644 -t '$(into)/share/doc/disruptor' docs/*.md

install-lib: lib
	install -d $(into)/lib/pkgconfig $(into)/lib/cmake/disruptor $(into)/include
	install -m 644 out/libdisruptor.a $(into)/lib
	cp -P out/libdisruptor.so* $(into)/lib
	sed 's|^prefix=.*|prefix=$(abspath $(PREFIX))|' out/disruptor.pc > $(into)/lib/pkgconfig/disruptor.pc
	install -m 644 include/* $(into)/include
	install -m 644 bindings/cpp/*.cmake $(into)/lib/cmake/disruptor
	tools/man_pages.py '$(into)/share/man/man3'

# For those who have no kit.
dist: lib
	@tools/dist.sh out

bench:
	@tools/prove.py --log $(log) disruptor_bench -- --list
	bench/exchanges.py table

bench-plots:
	bench/plots.py
	bench/tables.py
	bench/pages.py

hello:
	examples/hello.sh $(or $(DIR),$$(mktemp -d)/hello) $(FROM)

clean:
	rm -rf disruptor $(log) out crates/*/out

help:
	@echo 'On a machine of four processors:'
	@echo
	@echo '  make                      shows after a minute or two what the shipped example prints, proves and builds'
	@echo '                            ./disruptor, and runs it: 10 to 25 minutes from nothing, then seconds to minutes'
	@echo '  make try                  runs the shipped example before any proof: a minute or two'
	@echo '  make check CRATE=dr_core  proves one crate over what is kept: seconds, 1 to 5 minutes from nothing'
	@echo '  make test                 proves and tests everything: two hours and more; what passed is kept, as far as the kit keeps it'
	@echo '  make lib                  proves and builds in out/ the library for other languages, a wheel and a jar: some minutes'
	@echo '  make dist                 packs library, headers and packages in a tarball in out/, for those who have no kit'
	@echo '  make install PREFIX=/opt  installs program, libraries, headers and man pages there, or else in /usr/local; install-lib all but'
	@echo '                            the program'
	@echo '  make bench                events a second of core and ring: some minutes, and many where other work runs'
	@echo '  make bench-plots          draws what bench/measured holds, as docs/pictures, and writes its tables: seconds'
	@echo '  make hello DIR=../hello   starts a repository of your own in that folder, with a program over the ring, which is proved, built'
	@echo '                            and run: ten to 25 minutes; FROM=example_feeds takes another of crates/example_*'
	@echo '  make clean                removes what was built, and what proofs are kept'
	@echo
	@echo 'What is printed of proofs goes to $(log).'
