# Thin targets over the kit's command `rt`, which has to be on the path. `make help` lists them.

CONFIG ?= examples/router.toml
IN ?= examples/traffic.pcap
OUT ?= out/traffic
WORKERS ?= auto
PREFIX ?= /usr/local
NAME ?= run
TRIED ?= out/pktkit
LIBRARY ?= out/c/libhokhtura.a

BIN = $(DESTDIR)$(PREFIX)/bin
SHARE = $(DESTDIR)$(PREFIX)/share

.PHONY: help run try compare test build lib router dpdk try-dpdk install uninstall install-lib uninstall-lib dist deb bench

# The first of all targets is what `make` alone does.
help:
	@echo 'make run        forwards $(IN) by $(CONFIG), by a pktkit without proofs: 1 to 2 minutes'
	@echo 'make try        keeps a pktkit without proofs in $(TRIED), for pktkit ring and the other commands: the same'
	@echo 'make compare    the same by one thread, and that each port has the same bytes; after make run: 1 to 2 minutes'
	@echo 'make build      proves pktkit and what it stands on, and builds it: 35 to 95 minutes, then what has changed'
	@echo 'make lib        proves the C library and what it stands on, and leaves it in out/c: 35 to 95 minutes'
	@echo 'make router     builds the router of docs/ROUTER.md over the C library, which is made if it is not there'
	@echo 'make dpdk       builds the driver of rte_mempool of docs/DPDK.md over the C library, as make router: seconds'
	@echo 'make try-dpdk   runs DPDK'"'"'s own tests over the driver and the headers for its programs: 10 minutes'
	@echo 'make install    make build and lib; program, library, man page, completions go below PREFIX ($(PREFIX)): seconds'
	@echo 'make install-lib  the library alone: its headers, its archives, hokhtura.pc, manual pages'
	@echo 'make dist       packs what make build and make lib left into out/hokhtura-VERSION-x86_64-linux.tar.gz: seconds'
	@echo 'make deb        the same as Debian packages, in out: seconds'
	@echo 'make uninstall  removes these again: at once'
	@echo 'make test       the merge gate: every proof from nothing, mutants, tests, programs, documents: some hours'
	@echo 'make bench      measures one part against its yardstick, NAME=$(NAME): minutes, on a quiet machine'
	@echo
	@echo 'Minutes are of one processor; several work side by side where there are several. What can be set, as in'
	@echo 'make run WORKERS=0: CONFIG IN OUT WORKERS of run and compare, PREFIX DESTDIR of install, NAME of bench'

# Runs pktkit's main job on the examples, built without proofs, by so many workers, or as suits the processors: the
# report is printed, the captures of the ports are OUT.0.pcap, OUT.1.pcap and so on. What the build says is shown where
# the run fails.
run: WORDS = run --workers $(WORKERS) --config $(abspath $(CONFIG)) --in $(abspath $(IN)) --out $(abspath $(OUT))
run: LOG = $(abspath $(OUT)).log
run:
	@echo "make run: this pktkit is built without proofs, in a minute or so; make build proves it and builds it" >&2
	@mkdir -p $(dir $(LOG))
	@cd crates/pktkit && rt try -- $(WORDS) < /dev/null 2> $(LOG) || { cat $(LOG) >&2; exit 1; }
	@rm $(LOG)

# Keeps a pktkit built without proofs, with AddressSanitizer, at a path of its own. `make build` leaves a proved one.
try:
	@echo "make try: this pktkit is built without proofs, in a minute or so; make build proves it and builds it" >&2
	@tools/try-pktkit $(TRIED)
	@echo "make try: $(TRIED)"

# The same by one thread after `make run`, and that each port has the same bytes.
compare:
	@$(MAKE) --no-print-directory run WORKERS=0 OUT=$(OUT).alone
	@for port in $(OUT).alone.*.pcap; do cmp $$port $(OUT)$${port#$(OUT).alone} || exit 1; done
	@echo "compare: by one thread the same bytes at each port"

# The merge gate: the tests, built without proofs; every proof from nothing, the mutants and the programs; then that
# there is what refuses each wrong body of the table; the C library over what was proved, and its tests from C, C++
# and Rust; the packages; and, with the program that was proved there, the cases of tests/transcripts, runs over large
# captures, runs that are refused memory, and the commands of the documents.
test:
	tools/try-tests
	tools/run-gate rt ci
	tools/try-bodies
	ARCHIVE=$(CURDIR)/out/libcapi.a tools/try-capi
	PKTKIT=$(CURDIR)/crates/pktkit/out/pktkit ARCHIVE=$(CURDIR)/out/libcapi.a tools/try-dist
	PKTKIT=$(CURDIR)/crates/pktkit/out/pktkit tools/try-transcripts
	PKTKIT=$(CURDIR)/crates/pktkit/out/pktkit tools/try-runs
	PKTKIT=$(CURDIR)/crates/pktkit/out/pktkit tools/try-memory
	PKTKIT=$(CURDIR)/crates/pktkit/out/pktkit tools/try-docs

# Proves pktkit and what it stands on, and leaves the program in crates/pktkit/out. The program names the logic that its
# source was proved with. A toolchain of another logic proves it anew, and may not accept each proof.
build: LOGIC = $(lastword $(shell rt version))
build:
	@grep -qF '$(LOGIC)' crates/cli/src/command_line/help.rt || \
	  echo "make build: this toolchain's logic is $(LOGIC), and crates/cli/src/command_line/help.rt names another one" >&2
	cd crates/pktkit && rt run < /dev/null > /dev/null

# Proves the crate capi and what it stands on, and leaves the C library over it in out/c: libhokhtura.a, libhokhtura.so.
lib:
	cd crates/capi && rt lib > /dev/null
	@$(MAKE) --no-print-directory -C c OUT=$(CURDIR)/out/c

# The router of docs/ROUTER.md. LIBRARY=FILE links another archive.
router: $(LIBRARY)
	@mkdir -p out
	$(CC) -std=c11 -Wall -Wextra -Wpedantic -O2 -g $(CFLAGS) -Ic examples/router/router.c $(LIBRARY) -pthread -o out/router

# The driver of docs/DPDK.md, in out/dpdk.
dpdk: $(LIBRARY)
	@$(MAKE) --no-print-directory -C c/dpdk LIBRARY=$(abspath $(LIBRARY)) OUT=$(CURDIR)/out/dpdk

try-dpdk: $(LIBRARY)
	@LIBRARY=$(abspath $(LIBRARY)) tools/try-dpdk

out/c/libhokhtura.a:
	@$(MAKE) --no-print-directory lib

# The library below PREFIX, with hokhtura.h and hokhtura.pc.
install-lib: lib
	@$(MAKE) --no-print-directory -C c install OUT=$(CURDIR)/out/c PREFIX=$(PREFIX) DESTDIR=$(DESTDIR)

uninstall-lib:
	@$(MAKE) --no-print-directory -C c uninstall PREFIX=$(PREFIX) DESTDIR=$(DESTDIR)

install: build install-lib
	install -D -m 755 crates/pktkit/out/pktkit $(BIN)/pktkit
	install -D -m 644 man/pktkit.1 $(SHARE)/man/man1/pktkit.1
	install -D -m 644 completions/pktkit.bash $(SHARE)/bash-completion/completions/pktkit
	install -D -m 644 completions/_pktkit $(SHARE)/zsh/site-functions/_pktkit
	install -D -m 644 completions/pktkit.fish $(SHARE)/fish/vendor_completions.d/pktkit.fish

uninstall: uninstall-lib
	rm -f $(BIN)/pktkit $(SHARE)/man/man1/pktkit.1 $(SHARE)/bash-completion/completions/pktkit
	rm -f $(SHARE)/zsh/site-functions/_pktkit $(SHARE)/fish/vendor_completions.d/pktkit.fish

# What those need who have no Rattle: the proved program and the C library, packed. Each says what has to be made first.
dist:
	@tools/make-dist

deb:
	@tools/make-deb

# Measures one part against its yardstick: make bench NAME=run
bench:
	bench/run $(NAME)
