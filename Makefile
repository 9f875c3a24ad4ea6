# The commands of README.md. They need the Rattle toolchain (rt), and the tests also a C compiler and cargo.
.PHONY: test run library compare speed

# Everything: proofs, must-fail edits, programs; then the library from C and Rust, beside the second interpreter.
test:
	@tests/gate.sh

# Proves and builds the program, and runs it on the example of 01. (`rt run` runs what it has built, too, where there is no
# script: what that prints goes to its log.)
run:
	@tests/prove.sh station
	@cd crates/station && rt run >../../target/run.log 2>&1 || { cat ../../target/run.log; exit 1; }
	@mkdir -p target/bin && cp crates/station/out/station target/bin/station
	@cd crates/station/data && ../../../target/bin/station

# Proves and builds the static library for C and Rust.
library:
	@tests/prove.sh engine_c
	@tests/staticlib.sh

# Millions of cases against the second interpreter: make compare CASES=5000000 SEED=7
CASES ?= 1000000
SEED ?= 1
compare: library
	@cargo run -q --release --locked --manifest-path tests/Cargo.toml -p compare -- $(CASES) $(SEED)

# The tables of docs/PERFORMANCE.md.
speed: library
	@cargo run -q --release --locked --manifest-path tests/Cargo.toml -p speed
