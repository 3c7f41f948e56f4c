#!/usr/bin/env bash
# The library from outside, on what the proof built: the C examples with their expected outputs, and the tests of the
# Rust workspace, which compare the library with an independent model. The last line counts them, 'outside: N passed,
# M failed'.
set -u
cd "$(dirname "$0")/.." || exit 1
log=$(mktemp) || exit 1
trap 'rm -f "$log"' EXIT
passed=0
failed=0

pass() {
    passed=$((passed + 1))
}

fail() {
    failed=$((failed + 1))
    echo "outside: $1"
}

# The static library, made from the proved crates, for any x86-64; without it there is nothing to test.
library() {
    if (cd crates/goleuthan && rt lib --cpu=x86-64) > "$log" 2>&1 && [ -f crates/goleuthan/out/libgoleuthan.a ]; then
        pass
    else
        fail "'rt lib --cpu=x86-64' in crates/goleuthan made no library"
        cat "$log"
    fi
}

# example NAME: compiles examples/NAME.c without a warning, runs it, and compares what it prints with
# examples/NAME.expected.
example() {
    local program=target/outside/$1
    mkdir -p target/outside
    if ! sh rust/emulated/link.sh "examples/$1.c" "$program"; then
        fail "examples/$1.c does not build"
    elif ! sh scripts/run.sh "$program" > "$program.out"; then
        fail "examples/$1.c ends badly"
        cat "$program.out"
    elif ! diff "examples/$1.expected" "$program.out"; then
        fail "examples/$1.c prints something else"
    else
        pass
    fi
}

# The tests of the workspace; cargo says how many passed and failed for each of its test programs.
workspace() {
    local line status
    (
        cd rust || exit 1
        export CARGO_TARGET_DIR=../target/cargo
        cargo test --release --offline --locked --no-fail-fast -- --show-output
    ) 2>&1 | tee "$log"
    status=${PIPESTATUS[0]}
    local before=$failed
    while read -r line; do
        passed=$((passed + ${line% *}))
        failed=$((failed + ${line#* }))
    done < <(sed -n 's/^test result: .* \([0-9]*\) passed; \([0-9]*\) failed;.*/\1 \2/p' "$log")
    if [ "$status" -ne 0 ] && [ "$failed" -eq "$before" ]; then
        fail "cargo test ended with exit status $status"
    fi
}

library
example first_steps
example brown_out
example day_of_a_module
example no_results
example suppliers_buffer
example tracing
workspace

echo "outside: $passed passed, $failed failed"
[ "$failed" -eq 0 ] && [ "$passed" -gt 0 ]
