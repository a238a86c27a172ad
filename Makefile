# The round store. `make demo` shows it; `make check` is the whole test.
CARGO = cargo --offline
ARCHIVES = probe_cipher probe_cmac probe_count pat

.PHONY: help vectors archives test check bench clean

help:
	@echo 'make demo      the command-line tool on a card image that somebody alters'
	@echo 'make check     the gate: every proof, must-fail edit and program, then every test'
	@echo 'make test      the tests in Rust alone'
	@echo 'make host-test the tests of the C side alone: header, calls, tool, installation'
	@echo 'make install   the library, its header and the tool into PREFIX, under DESTDIR if given; make uninstall removes them'
	@echo 'make bench     the speed of the proved code against other implementations, and docs/calls.svg; with BEFORE=FILE also'
	@echo '               over that of an older libpat.a'
	@echo 'make vectors   prove cipher and CMAC, and print the published vectors as the proved code computes them'
	@echo 'make clean     remove what was built'

vectors:
	cd crates/vectors && rt run

# The proved code for Rust and C to link: rt proves what goes into an archive.
archives:
	@for name in $(ARCHIVES); do host/staticlib.sh $$name || exit 1; done

test: archives
	$(CARGO) test

check:
	@CARGO='$(CARGO)' .ci/check $(HOST_TESTS)

bench: archives
	BEFORE='$(BEFORE)' $(CARGO) run --release --quiet -p bench -- --plot docs/calls.svg

clean:
	rm -rf target crates/*/out

include host/host.mk
