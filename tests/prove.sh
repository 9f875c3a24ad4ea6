#!/usr/bin/env bash
# Proves a crate and all that it uses: tests/prove.sh NAME. It shows each crate as it is proved, and says nothing of those
# that were proved before and have not changed.
set -u
cd "$(dirname "$0")/.."
mkdir -p target
log=$PWD/target/prove.log

# The crates of this repository that NAME uses, itself among them, by crates.txt.
count_used() {
    awk -v name="$1" '
        /^[a-z0-9_]+[^#]*:/ { crate = $1; sub(/:$/, "", crate); known[crate] = 1; sub(/^[^:]*:/, ""); uses[crate] = $0 }
        function reach(crate, parts, i, n) {
            if (!(crate in known) || crate in seen) return
            seen[crate] = 1
            total++
            n = split(uses[crate], parts, " ")
            for (i = 1; i <= n; i++) reach(parts[i])
        }
        END { reach(name); print total + 0 }' crates.txt
}

# One line for each crate that had to be proved.
show() {
    awk -v total="$(count_used "$1")" '
        /^crate [a-z0-9_]+: modules / { crate = substr($2, 1, length($2) - 1); unchanged = / checked=0$/ }
        /^logic=proved/ && !unchanged {
            if (!done++) print "Proving: of " total " crates those that are new or have changed. From nothing this takes some minutes."
            printf "%3d  %s proved\n", done, crate
            fflush()
        }'
}

(cd "crates/$1" && rt check) 2>&1 | tee "$log" | show "$1"
[ "${PIPESTATUS[0]}" -eq 0 ] && exit
cat "$log"
exit 1
