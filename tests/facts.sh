#!/usr/bin/env bash
# Each must-fail edit is refused at a fact. rt ci and rt must-fail say where an edit was refused first; here each is tried on a copy, and
# all that the check says is read: some need of a function, or some law or example, is not proved, and nothing is refused only for its
# shape, as it is where the edited code no longer has the parts that its proof names. What is refused for its shape says nothing about
# what the edit gets wrong. Where an edit names the example that has to refuse it, `example: NAME`, that one has to be among what does.
#   tests/facts.sh               every edit
#   tests/facts.sh CRATE [NAME]  the edits of one crate, or one of them
# First what has changed since it was last checked is, and then a copy of each crate unedited: where it fails by itself, that an edit is
# refused means nothing.
# Ends with 'N passed, M failed', a crate checked unedited or an edit refused being one passed; exits non-zero where one failed.
set -uo pipefail
cd "$(dirname "$0")/.."
source tests/common.sh
root=$PWD
work=$(mktemp -d)
trap 'rm -rf "$work"' EXIT
up_to_date ${1:+"$1"} || exit 1

# The edits of crate $1, or the one named $2.
edits_of() {
    local edit
    for edit in "crates/$1/must-fail/"${2:-*}.edit; do
        [ ! -f "$edit" ] || echo "$edit"
    done
}

# Checks crate $1 unedited; writes the verdict to $work/CRATE.unedited.res.
unedited() {
    local place=$work/$1.unedited
    stand_in "$place" "$1" "$1"
    if check_in "$place" "$1" "$1" >"$place.log" 2>&1; then
        echo "proved: $1 unedited, for its edits" >"$place.res"
    else
        echo "$1 NOT PROVED unedited: $(tail -n 1 "$place.log" | cut -c1-1000)" >"$place.res"
    fi
    rm -rf "$place"
}

# Tries edit $2 of crate $1; writes its verdict to $work/CRATE.NAME.res.
try() {
    local crate=$1 edit=$2 name place log found example
    name=$crate/$(basename "$edit" .edit)
    place=$work/$crate.${name#*/}
    log=$place.log
    example=$(sed -n 's/^example: //p' "$edit")
    stand_in "$place" "$crate" "$crate"
    if ! only_example "$place" "$edit" || ! apply "$edit" "$place/crates" "$crate"; then
        echo "must-fail $name: BAD EDIT: an old text is not in its file exactly once, or there is no such example" >"$place.res"
    elif check_in "$place" "$crate" "$crate" >"$log" 2>&1; then
        echo "must-fail $name: NOT REFUSED: the crate is still proved with this edit" >"$place.res"
    elif ! grep -q '^logic=not-proved' "$log"; then
        echo "must-fail $name: BAD EDIT: it did not reach the prover: $(tail -n 1 "$log" | cut -c1-1000)" >"$place.res"
    elif ! found=$(refusals "$log" '[^ ]*'); then
        echo "must-fail $name: no refusal: $(tail -n 1 "$log" | cut -c1-1000)" >"$place.res"
    elif at_no_fact "$found" >/dev/null; then
        echo "must-fail $name: refused for its shape: $(at_no_fact "$found" | head -n 1 | cut -c1-400)" >"$place.res"
    elif [ -n "$example" ] && ! grep -qE "^(\./)?proofs/Examples\.antt:.*: error: \`$example\`" <<<"$found"; then
        echo "must-fail $name: NOT REFUSED by the example $example" >"$place.res"
    else
        echo "at a fact: must-fail $name ($(head -n 1 <<<"$found" | grep -oE '[^ ]+:[0-9]+:[0-9]+' | head -n 1 | sed 's/^\.\///'))" >"$place.res"
    fi
    rm -rf "$place"
}

crates=${1:-$(crates_listed)}
tried=0
for crate in $crates; do
    [ -z "$(edits_of "$crate" "${2:-}")" ] || beside unedited "$crate"
    for edit in $(edits_of "$crate" "${2:-}"); do
        tried=$((tried + 1))
        beside try "$crate" "$edit"
    done
done
wait
all=$((tried + $(ls "$work"/*.unedited.res | wc -l)))
cat "$work"/*.res
good=$(cat "$work"/*.res | grep -cE '^(at a fact|proved): ')
echo "$good passed, $((all - good)) failed"
[ "$good" -eq "$all" ] && [ "$tried" -gt 0 ]
