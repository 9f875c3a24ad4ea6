#!/usr/bin/env bash
# Tests the built library as C and Rust programs use it, beside the second interpreter. `tests/staticlib.sh` has built it.
# The last line is 'N passed, M failed'.
set -u
cd "$(dirname "$0")/.."
# where rustup puts cargo, if that folder is not on the path
command -v cargo >/dev/null || PATH="$PATH:${HOME:-}/.cargo/bin"
library=target/staticlib/libengine.a
log=target/library.log
passed=0
failed=0

# One test: its name, and the command.
try() {
    local name=$1
    shift
    if "$@"; then
        passed=$((passed + 1))
        echo "ok $name"
    else
        failed=$((failed + 1))
        echo "FAILED $name"
    fi
}

# A command that counts its own tests: the lines of its output that fit the pattern say how many passed and failed. One
# that stops before it has counted is a failed test, too.
tally() {
    local name=$1 pattern=$2 status p f
    shift 2
    "$@" 2>&1 | tee "$log"
    status=${PIPESTATUS[0]}
    while read -r p f; do
        passed=$((passed + p))
        failed=$((failed + f))
    done < <(sed -nE "s/^$pattern.*/\1 \2/p" "$log")
    try "$name" test "$status" -eq 0
}

prints_the_example() { diff <("$@") crates/station/stdout; }

prints_the_lock() {
    diff <("$@") - <<'END'
step 4, instant 3: name 0 is 1
Finished after 5 steps
END
}

prints_the_flows() {
    diff <("$@") - <<'END'
level 0 to level 2
level 0 to level 3
level 1 to level 2
level 1 to level 3
claims side by side: refused 11 2
our claim below theirs: accepted 2 1
END
}

prints_the_bound() {
    diff <("$@") - <<'END'
lock and tilt: at most 10 moves
a run: 6 moves of at most 10, 13 steps less 7 instants
lock again and again: no bound
END
}

rust() {
    local command=$1 folder=$2
    shift 2
    cargo "$command" --locked --manifest-path "$folder/Cargo.toml" "$@"
}

counted='test result: [a-zA-Z]+\. ([0-9]+) passed; ([0-9]+) failed'
cc=(cc -std=c99 -Wall -Wextra -pedantic -Werror -I include)

try 'C: first_run builds' "${cc[@]}" bindings/c/first_run.c $library -o target/first_run
try 'C: first_run prints the example' prints_the_example target/first_run
try 'C: flows builds' "${cc[@]}" bindings/c/flows.c $library -o target/flows
try 'C: flows prints those of the boundary job' prints_the_flows target/flows
try 'C: move_bound builds' "${cc[@]}" bindings/c/move_bound.c $library -o target/move_bound
try 'C: move_bound prints the bound and a run' prints_the_bound target/move_bound
try 'C: edges builds' "${cc[@]}" bindings/c/edges.c $library -o target/edges
try 'C: edges' target/edges
try 'C: stack builds' cc -O2 -Wall -Wextra -I include tests/speed/stack.c $library -pthread -Wl,-z,now -o target/stack
try 'C: stack' target/stack
tally 'Rust: crate station' "$counted" rust test bindings/rust
try 'Rust: first_run prints the example' prints_the_example rust run bindings/rust -q --example first_run
try 'Rust: prism_lock prints its line' prints_the_lock rust run bindings/rust -q --example prism_lock
try 'Rust: boundary_job prints its flows' prints_the_flows rust run bindings/rust -q --example boundary_job
try 'Rust: move_bound prints the bound and a run' prints_the_bound rust run bindings/rust -q --example move_bound
tally 'Rust: tests' "$counted" rust test tests --release
tally 'Rust: comparison' '([0-9]+) passed, ([0-9]+) failed' rust run tests -q --release -p compare -- all

echo "$passed passed, $failed failed"
[ "$failed" -eq 0 ]
