PREFIX ?= /usr/local
ZSHDIR ?= $(PREFIX)/share/zsh/site-functions
PACKAGES ?= out
# How much the toolchain does at once: a check takes up to some 3 GB.
RT_JOBS ?= $(shell nproc)
PROGRAM = crates/h2audit_cli/out/h2audit_cli
SPLIT = crates/h2audit_split/out/h2audit_split
# The capture whose report "make believed" computes from the definitions.
RUN ?= examples/negative_window.pcap
# Programs in Rust beside these, and how they are built: of Debian's crates alone.
RUST_PROGRAMS = h2audit-any h2audit-comment h2audit-import h2audit-merge h2audit-why
RUST_BUILT = companions/target/release
CARGO ?= cargo
# Programs in Python, the folders of their package, and what runs tests: Debian's, whose libraries they need.
PYTHON ?= /usr/bin/python3
PYTHON_PROGRAMS = h2audit-fleet h2audit-page h2audit-plot
PYTHON_PACKAGES = h2audit $(addprefix h2audit/,fleet page page/assets plot report)
BESIDE = $(RUST_PROGRAMS) $(PYTHON_PROGRAMS) h2audit-split
# What a build without proof is tried on, and where it is.
TRIED = examples/paused_stream_node.pcap
UNPROVED = out/unproved
# Rooms of tests of the programs beside h2audit, and of the rest: "make check" makes those of their runs that are quick.
PROGRAM_ROOMS = why imports page comment fleet
SOURCE_ROOMS = rust documents core
# The parts of "make check", the longest first.
CHECKS = tests split $(SOURCE_ROOMS) $(PROGRAM_ROOMS) layout
RUST_SOURCES := h2audit/report/kinds.txt $(shell find companions -name target -prune -o -type f -print)
SOURCES := crates.txt $(shell find crates -name out -prune -o -name '*.rt' -print -o -name '*.antt' -print)

.PHONY: try deps build companions install deb version release check $(CHECKS:%=check-%) audited test test-tools \
	bench believed pictures

# Builds all programs without proof, and shows the answer that the README begins with.
try:
	@$(MAKE) --no-print-directory --jobs=2 companions $(UNPROVED)/h2audit
	@H2AUDIT=$(UNPROVED)/h2audit $(RUST_BUILT)/h2audit-why --width 100 $(TRIED)
	@echo
	@echo 'Nothing of this h2audit was proved. It is $(UNPROVED)/h2audit; the programs in Rust beside it are in'
	@echo '$(RUST_BUILT), and run it where the variable H2AUDIT names it. "make build" proves it, and builds it.'

$(UNPROVED)/h2audit $(UNPROVED)/h2audit-split: $(SOURCES) tools/unproved.py
	@$(PYTHON) -m tools.unproved $(UNPROVED) $(@F)

# Installs the Debian packages that the programs in Rust and the tests need, as root.
deps:
	tools/deps.sh

# Proves all that the programs stand on, builds them, and leaves them as PROGRAM and SPLIT; and builds those in Rust.
# "make test" leaves the same programs, and after it nothing is proved here.
build: $(PROGRAM) $(SPLIT) companions

# Builds the programs in Rust, with no network: their crates are Debian's (librust-*-dev).
companions: $(RUST_BUILT)/built

$(RUST_BUILT)/built: $(RUST_SOURCES)
	@cd companions && $(CARGO) build --quiet --release --locked
	@touch $@
	@echo 'built: $(RUST_PROGRAMS:%=$(RUST_BUILT)/%)' >&2

# One call makes both.
$(PROGRAM) $(SPLIT) &: $(SOURCES)
	@RT_JOBS=$(RT_JOBS) tools/build.sh

# Puts the programs in place as h2audit and h2audit-split, with those beside them, man pages and completions.
install: share = $(DESTDIR)$(PREFIX)/share
install: $(PROGRAM) $(SPLIT) $(RUST_BUILT)/built
	install -D -m 755 $(PROGRAM) $(DESTDIR)$(PREFIX)/bin/h2audit
	install -D -m 755 $(SPLIT) $(DESTDIR)$(PREFIX)/bin/h2audit-split
	install -D -m 755 -t $(DESTDIR)$(PREFIX)/bin $(RUST_PROGRAMS:%=$(RUST_BUILT)/%) $(PYTHON_PROGRAMS:%=tools/%)
	$(foreach folder,$(PYTHON_PACKAGES),install -D -m 644 -t $(share)/h2audit/$(folder) \
		$(filter-out %/__pycache__,$(wildcard $(folder)/*.*)) &&) true
	install -D -m 644 -t $(share)/h2audit VERSION companions/why/schema.json companions/why/trace.schema.json
	install -D -m 644 -t $(share)/man/man1 tools/man/h2audit.1 $(BESIDE:%=tools/man/%.1)
	install -D -m 644 tools/completions/h2audit.bash $(share)/bash-completion/completions/h2audit
	$(foreach name,$(BESIDE),ln -sf h2audit $(share)/bash-completion/completions/$(name) &&) true
	install -D -m 644 -t $(DESTDIR)$(ZSHDIR) tools/completions/_h2audit
	install -D -m 644 -t $(share)/fish/vendor_completions.d tools/completions/h2audit.fish \
		$(BESIDE:%=tools/completions/%.fish)

# Builds a Debian package of what is installed, in the folder PACKAGES.
deb: $(PROGRAM) $(SPLIT) $(RUST_BUILT)/built
	@stage=$$(mktemp -d) && trap 'rm -r "$$stage"' EXIT && chmod 755 "$$stage" && mkdir -p $(PACKAGES) && \
		$(MAKE) --no-print-directory install DESTDIR="$$stage" PREFIX=/usr \
		ZSHDIR=/usr/share/zsh/vendor-completions > /dev/null && \
		tools/package/build_deb.sh "$$stage" "$(abspath $(PACKAGES))"

# Writes what VERSION says, and the date of its release, where they stand once more.
version:
	$(PYTHON) -m tools.version

# Makes a release of what VERSION names: a commit and a tag, which are not pushed.
release:
	@$(PYTHON) -m tools.release

# What tells in four minutes on four processors whether a change holds together, and proves nothing: layout, types of
# Python, the front end on every crate but the few lines of h2audit_cli, the tests of calls, the definitions to believe,
# their storeys, what sources call, form, clippy and own tests of the programs in Rust, and the tests of each program
# beside h2audit that take seconds. With CRATE=NAME it proves that crate.
check:
ifdef CRATE
	cd crates/$(CRATE) && rt check
else
	@$(MAKE) --no-print-directory --jobs=$(RT_JOBS) --output-sync=target $(CHECKS:%=check-%)
endif

check-layout:
	@rattle fmt --check $(filter-out crates.txt,$(SOURCES))

check-tests:
	@cd crates/crate_tests && rt try | diff stdout -

check-split:
	@cd crates/h2audit_split && rt try -- $$(cat args) | diff stdout -

$(PROGRAM_ROOMS:%=check-%): audited
$(PROGRAM_ROOMS:%=check-%) $(SOURCE_ROOMS:%=check-%): check-%:
	@$(PYTHON) -m tools.tests.run --quick $*

# A build of h2audit: the proved one, where it is newer than its sources, or else one without proof.
audited: companions
	@$(MAKE) --no-print-directory --question $(PROGRAM) 2> /dev/null || \
		$(MAKE) --no-print-directory $(UNPROVED)/h2audit

# The gate: proves the crates, tries the must-fail edits, runs the tests and the programs; and asks the programs, as
# both compilers built them, for whole reports and for parts. "rt ci" proves and tries all, each time.
test: companions
	RT_JOBS=$(RT_JOBS) rt ci
	$(PYTHON) -m tests.command_test $(PROGRAM) $(PROGRAM).by-rattle
	$(PYTHON) -m tests.reports_test $(PROGRAM) $(PROGRAM).by-rattle
	$(PYTHON) -m tests.split_test $(PROGRAM) $(SPLIT) $(SPLIT).by-rattle

# Tests what stands around the core: the programs in Rust and in Python, man pages, completions, recipes and package. It
# proves nothing. TESTS names some, as TESTS='why fleet/parts'.
test-tools:
	@$(PYTHON) -m tools.tests.run $(TESTS)

# Draws the pictures of docs/ anew.
pictures:
	$(PYTHON) -m tools.tests.page.plot_test --write
	$(PYTHON) -m tools.tests.page.browser_test --write
	tools/tests/documents/wireshark_picture.sh docs/pictures/wireshark_comments.png

# Measures time and memory on generated captures, beside cat. BENCH has more words for bench.measure, as
# make bench BENCH='--peer PROGRAM --shapes bulk,chatty 40'. Then the programs beside it, each beside what a user would
# take instead: imports beside the program in Python that they were, tshark and openssl; any, comment and merge;
# h2audit-fleet beside xargs, over sets of captures that BENCH_FLEET names, as BENCH_FLEET='1000 0.05 20 20'.
bench: $(PROGRAM) companions
	$(PYTHON) -m bench.measure $(PROGRAM) $(BENCH)
	$(PYTHON) -m bench.measure_import $(BENCH_IMPORT)
	$(PYTHON) -m bench.measure_companions $(PROGRAM) $(BENCH_COMPANIONS)
	$(PYTHON) -m bench.measure_fleet $(PROGRAM) $(BENCH_FLEET)

# Lists the definitions that a reader has to believe, with their lines, and marks those that the report of a capture
# used.
believed:
	@tools/by-definition --modules $(RUN) | $(PYTHON) -m tools.believed --used
