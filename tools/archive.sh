#!/bin/sh
# Proves the exports and all that they stand on, and puts their archive where C and Rust look for it, target/staticlib/libcapi.a.
# What rt says is printed.
set -eu
root=$(cd "$(dirname "$(readlink -f "$0")")/.." && pwd)
place=$root/target/staticlib
cd "$root/crates/capi_c"
rt lib
mkdir -p "$place"
# Under the name of the crate behind the exports, as its callers know it. Moved, so that none finds half of it.
cp out/libcapi_c.a "$place/libcapi.a.new"
mv "$place/libcapi.a.new" "$place/libcapi.a"
