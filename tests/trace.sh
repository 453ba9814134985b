#!/usr/bin/env bash
# docs/TRACE.md names every definition and every field of the two crates of rules, and nothing that is not there; and what it
# quotes stands in document 01 or 02, which are compared where the papers lie beside the repository. Of the computed examples it
# names what a row is made of; the tables themselves, and what only spells them shorter, are open to the proofs alone.
set -uo pipefail
cd "$(dirname "$0")/.."
papers=../shared/papers
defined=$(mktemp)
named=$(mktemp)
trap 'rm -f "$defined" "$named"' EXIT

# File.name for each public definition, record, data type and record field.
for file in crates/layout/specs/*.antt crates/rules/specs/*.antt; do
    case $file in */Examples.antt) passed='^unfoldable ' ;; *) passed='^pub mod ' ;; esac
    grep -vE "$passed" "$file" |
        sed -nE "s/^ *(unfoldable |abbrev )?pub (record |data )?([A-Za-z0-9_'-]+) .*/\3/p" |
        sed "s/^/$(basename "$file" .antt)./"
done | sort -u >"$defined"
grep -oE "\`[A-Z][A-Za-z0-9]+\.[A-Za-z0-9_'-]+\`" docs/TRACE.md | tr -d '`' | grep -v '\.antt$' | sort -u >"$named"

missing=$(comm -23 "$defined" "$named")
unknown=$(comm -13 "$defined" "$named")
[ -z "$missing" ] || printf 'not in docs/TRACE.md: %s\n' $missing
[ -z "$unknown" ] || printf 'in docs/TRACE.md, not defined: %s\n' $unknown
status=0
if [ -z "$missing$unknown" ]; then
    echo "docs/TRACE.md names all $(wc -l <"$defined") definitions"
else
    status=1
fi

# The rule of docs/TRACE.md's head: what stands between two `..` of a first column has to stand in the paper that heads it, word
# for word, and in the order of the row. Marks and the bars of tables are left out on both sides.
quotations() {
    local document=$1 paper=$papers/$2
    if [ ! -f "$paper" ]; then
        echo "document $document is not at hand ($paper): what docs/TRACE.md quotes of it was NOT compared with it"
        return 0
    fi
    awk -v document="$document" '
    function plain(t) {
        gsub(/\\?\|/, " ", t)
        gsub(/[*`]/, "", t)
        gsub(/[ \t]+/, " ", t)
        sub(/^ /, "", t)
        sub(/ $/, "", t)
        return t
    }
    function within_word(at) { return substr(paper, at - 1, 2) ~ /^[A-Za-z0-9][A-Za-z0-9]$/ }
    # the place in the paper behind words t, which begin at place `from` or later and cut no word; 0 where they do not stand there
    function behind(t, from,    at) {
        while (at = index(substr(paper, from), t)) {
            at += from - 1
            if (!within_word(at) && !within_word(at + length(t))) return at + length(t)
            from = at + 1
        }
        return 0
    }
    NR == FNR {
        if ($0 !~ /^\|[-|]+$/) paper = paper " " plain($0)
        next
    }
    index($0, "| Document " document " |") == 1 { quotes = 1; next }
    !/^\|/ { quotes = 0 }
    !quotes || /^\|[-|]+$/ || /^\| \(/ { next }
    {
        row = $0
        gsub(/\\\|/, " ", row)
        split(row, cells, "|")
        n = split(" " cells[2] " ", pieces, / \.\. /)
        at = 1
        for (i = 1; i <= n; i++) {
            words = plain(pieces[i])
            if (words == "") continue
            compared++
            at = behind(words, at)
            if (at) continue
            print "docs/TRACE.md:" FNR ": not in document " document ": " words
            bad = 1
            break
        }
    }
    END {
        if (!compared) print "docs/TRACE.md quotes nothing of document " document
        else if (!bad) print compared " quotations compared with document " document
        exit bad || !compared
    }' "$paper" docs/TRACE.md
}
quotations 01 01-scope.md || status=1
quotations 02 02-change-requests.md || status=1
exit "$status"
