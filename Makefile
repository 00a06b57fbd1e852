# The tie-pattern stepper. The lines marked ## are what `make help` prints.
CC = gcc
CFLAGS = -std=c11 -O2 -Wall -Wextra -D_DEFAULT_SOURCE
LIB = target/staticlib/libwko.a
HEADERS = include/wko.h include/wko_frames.h
SOURCES := crates.txt $(shell find crates -name out -prune -o -name '*.rt' -print -o -name '*.antt' -print)
CRATES := $(shell sed 's/[^a-z0-9_].*//' crates.txt)
EXAMPLES = target/host/example target/host/link target/host/fill
TESTS = target/host/test_calls target/host/test_session target/host/test_hosts target/host/stack
MODELS = target/host/replay_records target/host/event_records target/host/sheet_answers target/host/step_counts
PROGRAMS = target/bin/round target/bin/step_kinds target/bin/replay target/bin/replay_events

.PHONY: help run kinds test lib host host-test install uninstall dev fmt edits rings graph tables trust size bench clean

help:
	@sed -n 's/^## //p' Makefile

## make run [SHEET=file]        prints the round of a sheet: docs/sample.sheet, or the file
SHEET = docs/sample.sheet
export SHEET # the shell reads it, so that a name may have spaces
run: target/bin/round
	@$(call watched,target/bin/round <"$$SHEET")

# These programs end with status 0: where one says something on standard error, the sheet is refused or the run has failed.
define watched
{ said=$$($(1) 2>&1 >&3); } 3>&1; status=$$?; \
[ -z "$$said" ] || printf '%s\n' "$$said" >&2; \
[ $$status -eq 0 ] && [ -z "$$said" ]
endef

## make kinds                   prints how many windows of n = 1 to 8 each rule follows by the symbol that they drop, and how many by another
kinds: target/bin/step_kinds
	@$(call watched,target/bin/step_kinds)

# rt leaves what it builds in a crate's out/.
.SECONDEXPANSION:
$(PROGRAMS): target/bin/%: crates/$$*/out/$$*
	@mkdir -p $(@D)
	@cp $< $@

# A program is built by rt ci, or else by running it, which is done here on its stored run.
$(foreach p,$(notdir $(PROGRAMS)),crates/$p/out/$p): $(SOURCES)
	@mkdir -p target
	@echo "building $(@F); what it rests on is proved first, some minutes where nothing is yet" >&2
	@(cd crates/$(@F) && rt run) <$(firstword $(wildcard crates/$(@F)/stdin) /dev/null) 2>target/$(@F).log | cmp - crates/$(@F)/stdout || \
	{ tail -n 20 target/$(@F).log; exit 1; }
	@touch $@ # it keeps its old time where nothing in it has changed

## make test                    the gate: proves all, tries the edits that must fail, runs the programs and host tests
test:
	@.ci/run

## make lib                     builds libwko.a and says where it and the header are
lib: $(LIB)
	@echo "library: $(LIB)"
	@echo "headers: $(HEADERS)"

$(LIB) target/staticlib/libwalk.a: target/staticlib/lib%.a: $(SOURCES)
	@mkdir -p $(@D)
	@echo "building $@; what it rests on is proved first, some minutes where nothing is yet" >&2
	@(cd crates/$* && rt lib) >target/$*.log 2>&1 || { tail -n 20 target/$*.log; exit 1; }
	@cp crates/$*/out/lib$*.a $@

## make install [PREFIX=dir]    headers, library, wko.pc for pkg-config and the manual page, below /usr/local or the directory; DESTDIR too
PREFIX = /usr/local
VERSION = $(shell sed -n 's/^.define WKO_LIBRARY_VERSION "\(.*\)"/\1/p' include/wko.h)
INSTALLED = $(HEADERS) lib/libwko.a lib/pkgconfig/wko.pc share/man/man3/wko.3
to = $(DESTDIR)$(abspath $(PREFIX))/

install: $(LIB)
	@install -d $(sort $(dir $(addprefix $(to),$(INSTALLED))))
	@install -m 644 $(HEADERS) $(to)include
	@install -m 644 $(LIB) $(to)lib
	@install -m 644 docs/wko.3 $(to)share/man/man3
	@sed -e 's|@PREFIX@|$(abspath $(PREFIX))|' -e 's|@VERSION@|$(VERSION)|' include/wko.pc.in >$(to)lib/pkgconfig/wko.pc
	@printf '%s\n' $(addprefix $(to),$(INSTALLED))

## make uninstall [PREFIX=dir]  removes these files
uninstall:
	@rm -f $(addprefix $(to),$(INSTALLED))

## make host                    builds the README's bench hosts: direct calls, frames over a link that loses some, and a start window from a pattern
host: $(EXAMPLES)
	@echo "bench hosts: $(EXAMPLES)"

$(EXAMPLES) target/host/tables: target/host/%: host/%.c $(HEADERS) $(LIB)
	@mkdir -p target/host
	@$(CC) $(CFLAGS) -Iinclude -o $@ $< $(LIB)

## make host-test               the host tests alone, on the library as it is built
host-test: $(TESTS) $(MODELS) $(EXAMPLES) $(PROGRAMS) target/host/tables target/host/print_round
	@for t in example link fill; do target/host/$$t | cmp - host/$$t.out || exit 1; done
	@host/wrong_hosts.sh
	@host/readme.sh
	@host/headers.sh
	@host/trace.sh
	@host/stored.sh
	@host/rounds.sh
	@host/install.sh
	@for t in $(TESTS); do $$t || exit 1; done
	@host/lost.sh
	@host/mistakes.sh

target/host/%: host/%.c $(wildcard host/*.h) host/reference.c host/session_model.c $(HEADERS) $(LIB)
	@mkdir -p target/host
	@$(CC) $(CFLAGS) -o $@ $< host/reference.c host/session_model.c $(LIB)

## make dev C=crate             checks one crate, in seconds: the loop of working on it, not the verdict
dev:
	@cd crates/$(crate) && rt check

## make edits C=crate           tries the edits of one crate that must fail, and prints the error that refused each
edits:
	@rt must-fail $(crate)

## make fmt                     lays out the sources, and names the edits that must fail whose text it has moved
fmt:
	@for c in $(CRATES); do (cd crates/$$c && rt fmt) || exit 1; done

# the crate that C names
crate = $(or $(C),$(error say which crate: make $@ C=crate, one of $(CRATES)))

## make rings                   draws the README's pictures of a round from what the program prints
rings: target/bin/round
	@target/bin/round <docs/picture/sheet | awk -f docs/picture/steps.awk
	@echo
	@target/bin/round <docs/picture/sheet | awk -f docs/picture/rings.awk

## make graph                   draws the README's picture of the crates from crates.txt
graph:
	@awk -f docs/picture/graph.awk crates.txt

## make tables                  prints the README's tables of a(n) and of the refusals
tables: target/host/tables
	@target/host/tables counts
	@echo
	@target/host/tables refusals

## make trust                   counts the lines to believe, the lines of proof and the lines of code, and names the toolchain
trust:
	@tools/trust.sh

## make size                    text and data of the library, and the stack that each call takes, measured
size: target/host/stack
	@size $(LIB)
	@target/host/stack

## make bench                   speed against plain C in the same run; a report, not a test
bench: target/host/bench target/host/print_round target/bin/round
	@target/host/bench
	@bench/round.sh

target/host/print_round: bench/print_round.c bench/baseline.c bench/baseline.h
	@mkdir -p target/host
	@$(CC) -std=c11 -O3 -Wall -Wextra -o $@ bench/print_round.c bench/baseline.c

target/host/bench: bench/bench.c bench/baseline.c bench/baseline.h $(HEADERS) $(LIB) target/staticlib/libwalk.a
	@mkdir -p target/host
	@$(CC) -std=c11 -O3 -D_DEFAULT_SOURCE -o $@ bench/bench.c bench/baseline.c $(LIB) target/staticlib/libwalk.a

## make clean                   removes target/ and crates/*/out/, with all that is built and proved here
clean:
	rm -rf target crates/*/out
