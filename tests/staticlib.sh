#!/bin/sh
# The library for C and Rust: proves crates/host_c and all below it, and puts the archive where examples/, rust/ and the
# tests look for it, target/staticlib/libhost.a.
set -e
cd "$(dirname "$0")/.."
(cd crates/host_c && rt lib)
mkdir -p target/staticlib
cp crates/host_c/out/libhost_c.a target/staticlib/libhost.a
