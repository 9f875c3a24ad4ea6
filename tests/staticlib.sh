#!/usr/bin/env bash
# Proves the static library for C and Rust, as far as that is still to do, and builds it: target/staticlib/libengine.a.
set -u
cd "$(dirname "$0")/.."
mkdir -p target/staticlib
log=$PWD/target/staticlib.log
made=crates/engine_c/out/libengine_c.a
library=target/staticlib/libengine.a

(cd crates/engine_c && rt lib) >"$log" 2>&1 || { cat "$log"; exit 1; }
# one that has not changed is left as it is, so that what links it need not be built again
cmp -s "$made" "$library" || cp "$made" "$library"
