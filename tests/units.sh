#!/usr/bin/env bash
# The compiler keeps memory byte addresses and pool word numbers apart: code that uses one for the other is refused
# for its types.
# That the sources use these types wherever they should is looked for in their text (units.py).
set -u

root=$(cd "$(dirname "$0")/.." && pwd)
repo=$(mktemp -d)
trap 'rm -rf "$repo"' EXIT

mkdir "$repo/crates"
cp -r "$root/crates/refusals" "$root/crates/words" "$repo/crates"
rm -rf "$repo/crates/words/must-fail"
printf 'refusals:\nwords: refusals\n' > "$repo/crates.txt"

passed=0
failed=0

# crate NAME BODY: adds a crate whose one function has this body, and checks it; the status is the check's.
crate() {
    mkdir -p "$repo/crates/$1/src"
    echo "$1: words" >> "$repo/crates.txt"
    printf 'pub fn used() -> usize {\n    %s\n}\n' "$2" > "$repo/crates/$1/src/lib.rt"
    (cd "$repo/crates/$1" && rt check) > "$repo/$1.out" 2>&1
}

pass() {
    passed=$((passed + 1))
}

fail() {
    failed=$((failed + 1))
    echo "units: $1: $2"
    cat "$repo/$1.out"
}

# refused NAME BODY ERROR: the check must fail, and must say this error, which names the two types.
refused() {
    if crate "$1" "$2"; then
        fail "$1" "accepted, and must be refused"
    elif grep -qF "error[$3" "$repo/$1.out"; then
        pass
    else
        fail "$1" "refused, but not by the error [$3"
    fi
}

# accepted NAME BODY: without it a toolchain that refuses everything would pass.
accepted() {
    if crate "$1" "$2"; then
        pass
    else
        fail "$1" "refused, and must be accepted"
    fi
}

accepted each_for_itself 'words::PoolWord::from(u32::from(words::ByteAddr::from(7))).index()'
refused address_for_word 'words::PoolWord::index(words::ByteAddr::from(7))' \
    'mismatched-types]: expected `PoolWord`, found `ByteAddr`'
refused word_for_address 'u32::from(words::PoolWord::from(7)) as usize' \
    'unsatisfied-bound]: the trait bound `u32: From<PoolWord>` is not satisfied'
refused word_beside_address '(words::PoolWord::from(7) == words::ByteAddr::from(7)) as usize' \
    'mismatched-types]: `==` cannot compare `PoolWord` with `ByteAddr`'

# The text of the sources, and of wrong copies of them.
if counts=$(python3 "$root/tests/units.py"); then
    passed=$((passed + ${counts% *}))
    failed=$((failed + ${counts#* }))
else
    failed=$((failed + 1))
fi

echo "units: $passed passed, $failed failed"
[ "$failed" -eq 0 ]
