#!/usr/bin/env bash
# All tests: the proof of every listed crate with its must-fail edits and programs (rt ci), then the tests of other
# kinds, each with the seconds that it took. The last line counts them all, 'N passed, M failed'; the exit status is 0
# only where nothing failed. A must-fail edit that cannot be applied or read is a failure, though rt ci only says so.
set -u
cd "$(dirname "$0")/.." || exit 1
log=$(mktemp) || exit 1
trap 'rm -f "$log"' EXIT
passed=0
failed=0

# Runs a test, shows what it prints, and adds the counts of its last line, which is 'N passed, M failed' after an
# optional 'name: '. A test that ends badly, or without that line, counts as a failure.
run() {
    local begun=$SECONDS
    echo "== $*"
    "$@" 2>&1 | tee "$log"
    local status=${PIPESTATUS[0]}
    echo "== $*: $((SECONDS - begun)) s"
    local line
    line=$(tail -n 1 "$log" | sed -n 's/^\([a-z]*: \)\{0,1\}\([0-9]*\) passed, \([0-9]*\) failed$/\2 \3/p')
    if [ -z "$line" ]; then
        echo "all.sh: '$*' ended without a count (exit status $status)"
        failed=$((failed + 1))
        return
    fi
    passed=$((passed + ${line% *}))
    failed=$((failed + ${line#* }))
    if [ "$status" -ne 0 ] && [ "${line#* }" -eq 0 ]; then
        echo "all.sh: '$*' ended with exit status $status"
        failed=$((failed + 1))
    fi
}

run rt ci
if grep -q '^rt: ok.*, [1-9][0-9]* bad' "$log"; then
    echo "all.sh: 'rt ci' met bad must-fail edits"
    failed=$((failed + 1))
fi
run bash tests/units.sh
run bash tests/stores.sh
run bash tests/papers.sh
run bash tests/listing.sh
run bash tests/outside.sh
run bash tests/wrong.sh

echo "$passed passed, $failed failed"
[ "$failed" -eq 0 ] && [ "$passed" -gt 0 ]
