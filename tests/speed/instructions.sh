#!/bin/sh
# Instructions per step (of runs), per run (of waits) and per call (of check and flows), counted by valgrind: a busy
# machine does not change them.
#   tests/speed/instructions.sh [speed]       the program that cargo built, by default target/cargo/release/speed
# Each figure is the difference of two runs, so that what a run costs but once is left out; for a wait it is that of a
# run with limit 1,000,000 and one with limit 0.
set -eu
speed=${1:-$(dirname "$0")/../../target/cargo/release/speed}
scratch=$(mktemp -d)
trap 'rm -rf "$scratch"' EXIT

# Arguments: side, name, count. All instructions of the program.
total() {
    valgrind --tool=callgrind --callgrind-out-file="$scratch/out" "$speed" "$1" "$2" "$3" 2>&1 >"$scratch/said" |
        awk '/Collected/ { print $4 }'
}

# Arguments: side, name, count.
each() {
    printf '%10d' $((($(total "$1" "$2" $((2 * $3))) - $(total "$1" "$2" "$3")) / $3))
}

# Arguments: side, name.
whole() {
    printf '%10d' $(($(total "$1" "$2" 1000000) - $(total "$1" "$2" 0)))
}

printf '%-42s%10s%10s%10s\n' 'instructions' library plain resting
"$speed" names | while IFS= read -r name; do
    printf '%-42s' "$name"
    case $name in
    check* | flows*) each 0 "$name" 20 && each 1 "$name" 20 ;;
    wait*) whole 0 "$name" && whole 1 "$name" && whole 2 "$name" ;;
    *) each 0 "$name" 3000 && each 1 "$name" 3000 && each 2 "$name" 3000 ;;
    esac
    echo
done
