#!/usr/bin/env bash
# The tests of the Rust side, over the proved archive in target/staticlib, its layout and its lints. Where rustfmt or clippy is
# missing that is a failure: a test that is not run has not passed. Ends with 'N passed, M failed'.
set -uo pipefail
cd "$(dirname "$0")/../rust"
passed=0
failed=0
log=$(mktemp)
trap 'rm -f "$log"' EXIT

# Runs a command of cargo as one test.
cargo_test() {
    if cargo "$@"; then
        passed=$((passed + 1))
        echo "passed: cargo $1"
    else
        failed=$((failed + 1))
        echo "FAILED: cargo $*"
    fi
}

cargo test --offline --workspace --no-fail-fast --features compare/proved 2>&1 | tee "$log"
status=${PIPESTATUS[0]}
while read -r good bad; do
    passed=$((passed + good))
    failed=$((failed + bad))
done < <(sed -nE 's/^test result: .* ([0-9]+) passed; ([0-9]+) failed;.*/\1 \2/p' "$log")
# A build that fails runs no test.
[ "$status" -eq 0 ] || [ "$failed" -gt 0 ] || failed=1
cargo_test fmt --check
cargo_test clippy --offline --workspace --all-targets --features compare/proved -- -D warnings

echo "$passed passed, $failed failed"
[ "$failed" -eq 0 ]
