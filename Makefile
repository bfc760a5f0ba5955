# Two commands: `make demo` runs the main job, `make test` proves and tests everything.
.PHONY: demo test kit second cases zaru use lib bench look eva install installed more-edits

kit:
	@tools/need rt

# B of document 01 under both orders: the sum, and the lost share; then the order that loses it, found by what must hold
demo: kit
	@tools/need python3 python3
	@tools/prove run cases
	@tools/demo

# the second implementation's own tests
second:
	@tools/need cargo cargo
	cd second && cargo test --offline --quiet

# the stored cases are those that the second implementation writes
cases: second
	@mkdir -p target/cases
	cd second && cargo run --release --offline --quiet --bin cases -- ../target/cases/stdin ../target/cases/stdout 2>/dev/null
	cmp second/src/prelude.h share/prelude.h
	cmp target/cases/stdin crates/cases/stdin
	cmp target/cases/stdout crates/cases/stdout

# the proved program that the command zaru asks
zaru: kit
	@tools/prove cases

# the command line: its own tests, which compile C texts; the documents: what they name and what they paste; the run program on all its stored
# inputs
use: kit
	@tools/need python3 python3
	@tools/need cc build-essential
	@tools/prove cases run
	python3 -m unittest discover --quiet --start-directory zaru/tests
	tools/check-tour README.md examples/README.md docs/READING.md docs/JSON.md docs/TRAINING.md
	tools/check-docs --edits README.md docs/*.md
	tools/check-run

# target/staticlib/libzaru.a for C programs (header: lib/zaru.h), and its test
lib: kit
	tools/check-lib

# the command, its engine, the C library, its header, its pkg-config file and the hooks for C texts, below PREFIX (and that below DESTDIR, if it is set)
PREFIX ?= /usr/local
install: zaru lib
	tools/install "$(PREFIX)"

# is what `make install` puts into a temporary folder of use there?
installed: zaru lib
	@tools/need pkg-config pkgconf
	tools/check-install

# not part of the test: instructions and time a step of the sequential machine, beside two C interpreters where their folder is there, and an allotment of
# the bench
PEERS ?= ../shared/perf
bench: zaru
	@tools/need python3 python3
	@tools/need cc build-essential
	tools/bench "$(PEERS)"

# not part of the test: pictures of runs, shown by a real browser, as PNG files in target/look
look: zaru
	@tools/need python3 python3
	@tools/need chromium chromium
	tools/look

# not part of the test: what the value analysis Eva says of copies as C text, against what docs/RANGE-TOOL.md says
eva: zaru
	@tools/need python3 python3
	@tools/need cc build-essential
	@tools/need frama-c frama-c-base
	tools/check-tour docs/RANGE-TOOL.md

# not part of the test, for their time: further wrong definitions and programs that the prover must refuse
more-edits: kit
	tools/more-edits

# everything, each crate proved once; ends in 'N passed, 0 failed' if all of it passed
test: kit
	@tools/need cargo cargo
	@tools/need python3 python3
	tools/gate
