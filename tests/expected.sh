#!/usr/bin/env bash
# The gate cannot shrink unnoticed: tests/expected.txt lists by name all that has to run, a line each.
#   tests/expected.sh LOG      fails where a listed line did not run and pass, by the gate's log, and where something ran that
#                              is not listed. The second is a failure too, since what is not listed could be lost again unnoticed
#   tests/expected.sh --write  lists what stands in the tree; for whoever adds or takes away an edit, a test or an example. The
#                              change of the list then stands beside theirs for a reader
# An edit that nothing tries, since its folder is no listed crate's, fails both.
set -uo pipefail
export LC_ALL=C
cd "$(dirname "$0")/.."
list=tests/expected.txt
work=$(mktemp -d)
trap 'rm -rf "$work"' EXIT

# Edits where neither rt nor tests/spoiled.sh looks for them.
stray_edits() {
    local edit crate
    find . \( -path ./target -o -path ./rust/target -o -name .git \) -prune -o -name '*.edit' -print | sed 's/^\.\///' | sort | while IFS= read -r edit; do
        crate=${edit#crates/}
        crate=${crate%%/*}
        case $edit in
        "crates/$crate/must-fail/$(basename "$edit")") crates_listed | grep -qx "$crate" || echo "$edit" ;;
        "tests/spoiled/$(basename "$edit")") ;;
        *) echo "$edit" ;;
        esac
    done
}

# The rows of the computed examples, each under the comment above it, cut at its first point.
example_rows() {
    awk '
        FNR == 1 { name = FILENAME; sub(/.*\//, "", name); sub(/\.antt$/, "", name); label = "" }
        /^ *-- / { label = $0; sub(/^ *-- /, "", label); sub(/\..*/, "", label) }
        /^ +(∷ )?(row|yes|no) / { print "example " name ": " label }' crates/rules/specs/*.antt
}

# A program, with the number of lines that its output is held to.
program_lines() {
    echo "program $1: $(cat "crates/$1/stdout" 2>/dev/null | wc -l) lines"
}

# The Rust tests in cargo's output, as it runs them or as it lists them. A doc test's line number says nothing.
rust_tests() {
    sed -nE '
        s/^ +Running .*\/([A-Za-z0-9_]+)-[0-9a-f]+\)$/@\1/p
        s/^ +Doc-tests (.*)$/@\1, in its text/p
        s/ \(line [0-9]+\)//
        s/^test (.*) \.\.\. ok$/\1/p
        s/^(.*): test$/\1/p' | awk '/^@/ { from = substr($0, 2); next } { print "rust " from ": " $0 }'
}

# The crates, a static library too.
crates_listed() {
    sed -nE 's/^([A-Za-z0-9_]+)( [a-z0-9_=]+)*:.*/\1/p' crates.txt
}

# What stands in the tree, to be run.
in_tree() {
    local file name
    crates_listed | sed 's/^/crate /'
    for file in crates/*/must-fail/*.edit; do
        name=${file#crates/}
        echo "must-fail ${name%%/*}/$(basename "$file" .edit)"
    done
    for file in crates/*/src/main.rt; do
        name=${file#crates/}
        program_lines "${name%%/*}"
    done
    example_rows
    for file in tests/spoiled/*.edit; do
        echo "spoiled $(basename "$file" .edit)"
    done
    awk '/^faults! \{/ { on = 1 } on && /^ +[A-Za-z0-9]+: "/ { sub(/:.*/, ""); print "fault " $1 } /^\}/ { on = 0 }' rust/model/src/fault.rs
    sed -nE '/tests\/expected.sh/d; s/^run "([^"]*)".*/part \1/p; s/^counted (.*)/part \1/p' test
    sed -nE 's/^cargo_test ([a-z]+).*/part cargo \1/p' tests/rust.sh
    cargo test --quiet --offline --manifest-path rust/Cargo.toml --workspace --features compare/proved --no-run || return 1
    cargo test --offline --manifest-path rust/Cargo.toml --workspace --features compare/proved -- --list 2>&1 | rust_tests
}

# What ran and passed, by the log. Of a crate that it proved in an earlier run rt says that it is kept.
ran() {
    local name kept='is kept: an earlier run on this machine proved the same files over the same libraries'
    sed -nE "
        s/^rt: ([A-Za-z0-9_]+) (proved|$kept)\$/crate \1/p
        s/^rt: must-fail ([^ ]+)\.edit: refused, as it must be.*/must-fail \1/p
        s/^refused: spoiled ([^ ]+), as it must be.*/spoiled \1/p
        s/^noticed after +[0-9]+ calls: ([A-Za-z0-9]+):.*/fault \1/p
        s/^passed: (.*)/part \1/p" "$1"
    sed -nE "s/^rt: ([A-Za-z0-9_]+) ran, and wrote what its file stdout has\$/\1/p" "$1" | while read -r name; do program_lines "$name"; done
    ! grep -qE "^rt: rules (proved|$kept)\$" "$1" || example_rows
    rust_tests <"$1"
}

stray=$(stray_edits)
if [ -n "$stray" ]; then
    printf 'an edit that nothing tries: %s\n' $stray
    exit 1
fi
if [ "${1:-}" = --write ]; then
    in_tree >"$work/now" || exit 1
    sort "$work/now" >"$list"
    echo "$list lists $(wc -l <"$list") that have to run"
    exit
fi
[ -f "${1:-}" ] || { echo "usage: tests/expected.sh LOG, or --write"; exit 1; }
ran "$1" | sort >"$work/ran"
sort "$list" | comm -3 - "$work/ran" >"$work/differ"
sed -nE 's/^([^\t].*)/listed, and did not run or pass: \1/p; s/^\t(.*)/ran, and is not listed: \1/p' "$work/differ"
if [ -s "$work/differ" ]; then
    echo "tests/expected.sh --write lists what stands in the tree; look at the change of $list before it is kept"
    exit 1
fi
echo "all $(wc -l <"$list") that $list lists ran and passed"
