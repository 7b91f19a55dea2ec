# The everyday verbs. `make test` is the gate.
PREFIX ?= /usr/local
VERSION := $(shell sed -n 's/^.define CHAIN_REGISTER_VERSION "\(.*\)"$$/\1/p' include/chain_register.h)
.PHONY: help test check fmt dev lib install install-lib install-tool compare bench

help:
	@echo "make test          the gate: every proof, must-fail edit and program, and all other tests"
	@echo "make check         prove what has changed"
	@echo "make fmt           lay out every file"
	@echo "make dev CRATE=x   the edit loop for one crate"
	@echo "make lib           the library for C: target/lib/libchain_register.a and chain_register.h"
	@echo "make install       the tool and the library into PREFIX ($(PREFIX)); install-tool, install-lib: one of them"
	@echo "make compare       the programs beside the second program"
	@echo "make bench         the table of costs"

test:
	.ci/run

check:
	rt all check

fmt:
	for crate in crates/*/; do (cd $$crate && rt fmt) || exit 1; done

dev:
	cd crates/$(CRATE) && rt check

# It knows what has changed, so that the library is never older than the crates.
lib:
	tests/library

install: install-lib install-tool

# The library, its header, and what pkg-config tells of them: where PREFIX is and the header's version.
install-lib: lib
	install -d $(DESTDIR)$(PREFIX)/lib/pkgconfig $(DESTDIR)$(PREFIX)/include
	install -m 644 target/lib/libchain_register.a $(DESTDIR)$(PREFIX)/lib
	install -m 644 target/lib/chain_register.h $(DESTDIR)$(PREFIX)/include
	sed -e 's|@PREFIX@|$(abspath $(PREFIX))|' -e 's|@VERSION@|$(VERSION)|' include/chain_register.pc.in >target/lib/chain_register.pc
	install -m 644 target/lib/chain_register.pc $(DESTDIR)$(PREFIX)/lib/pkgconfig

# asks goes with the tool: it is for x86-64, and needs a C library of 2.34 or later.
install-tool:
	tests/on asks </dev/null
	install -d $(DESTDIR)$(PREFIX)/bin $(DESTDIR)$(PREFIX)/lib/chain
	install -m 755 tool/chain $(DESTDIR)$(PREFIX)/bin
	install -m 644 tool/*.py $(DESTDIR)$(PREFIX)/lib/chain
	install -m 755 crates/asks/out/asks $(DESTDIR)$(PREFIX)/lib/chain

compare:
	tests/compare/run ./asks ./chains

bench:
	bench/run
