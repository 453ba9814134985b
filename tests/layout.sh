#!/usr/bin/env bash
# The layout of the sources: rt fmt, on a copy of each crate, changes no file. Prints what it would change.
set -uo pipefail
cd "$(dirname "$0")/.."
work=$(mktemp -d)
trap 'rm -rf "$work"' EXIT
cp crates.txt "$work"
status=0
for crate in crates/*; do
    mkdir -p "$work/$crate"
    cp -R "$crate"/{src,specs,proofs} "$work/$crate/" 2>/dev/null
    (cd "$work/$crate" && rt fmt) >"$work/log" 2>&1 || { cat "$work/log"; status=1; }
    for part in src specs proofs; do
        [ ! -d "$crate/$part" ] || diff -r "$crate/$part" "$work/$crate/$part" || status=1
    done
done
[ "$status" -ne 0 ] || echo "each file of $(ls -d crates/* | wc -l) crates is as rt fmt lays it out"
exit "$status"
