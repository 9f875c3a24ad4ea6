#!/usr/bin/env bash
# All tests of the repository: the proofs, must-fail edits and programs, then the library that is built from
# what was proved. The last line is 'N passed, M failed'.
set -u
cd "$(dirname "$0")/.."
passed=0
failed=0

# Runs a command whose last line is 'N passed, M failed'. One that ends otherwise is a failed test. `rt ci` passes a
# must-fail edit that it cannot apply, and counts it as bad in its line 'rt: ok': it shows nothing, so it is a failed test.
stage() {
    local log status p f bad
    log=$(mktemp)
    "$@" 2>&1 | tee "$log"
    status=${PIPESTATUS[0]}
    read -r p f < <(tail -1 "$log" | sed -nE 's/^([0-9]+) passed, ([0-9]+) failed$/\1 \2/p')
    bad=$(sed -nE 's/^rt: ok.*, ([0-9]+) bad.*/\1/p' "$log" | tail -1)
    rm -f "$log"
    f=$((${f:-0} + ${bad:-0}))
    if [ "$status" -eq 0 ] && { [ -z "$p" ] || [ "$f" -gt 0 ]; }; then status=1; fi
    passed=$((passed + ${p:-0}))
    failed=$((failed + f + (status != 0 && f == 0)))
    return "$status"
}

stage rt ci && tests/staticlib.sh && stage tests/library.sh
status=$?
echo "$passed passed, $((failed + (status != 0 && failed == 0))) failed"
[ "$status" -eq 0 ] && [ "$failed" -eq 0 ]
