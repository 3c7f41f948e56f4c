#!/usr/bin/env bash
# The listing program on inputs of one kind each (tests/listing/NAME.in), against what the paper says of them
# (NAME.out); on large inputs; and where it cannot read or write.
set -u
cd "$(dirname "$0")/.." || exit 1
work=$(mktemp -d)
trap 'rm -rf "$work"' EXIT
passed=0
failed=0

# count NAME STATUS WHAT: counts a test, and where the status is not 0 writes what is wrong.
count() {
    if [ "$2" -eq 0 ]; then
        passed=$((passed + 1))
    else
        failed=$((failed + 1))
        echo "listing: $1: $3"
    fi
}

# listing: runs the program on standard input.
listing() {
    sh scripts/run.sh crates/rights_listing/out/rights_listing
}

# compare NAME INPUT EXPECTED: the output is the expected one, and nothing is said on standard error.
compare() {
    listing < "$2" > "$work/out" 2> "$work/err"
    cmp "$work/out" "$3" > "$work/differs" 2>&1 && [ ! -s "$work/err" ]
    count "$1" $? "$(cat "$work/differs" "$work/err")"
}

# says NAME SENTENCE: the last run wrote the sentence on standard error.
says() {
    [ "$(cat "$work/err")" = "$2" ]
    count "$1" $? "it says '$(cat "$work/err")'"
}

if ! (cd crates/rights_listing && rt run) < /dev/null > "$work/run" 2>&1; then
    cat "$work/run"
    echo "listing: 0 passed, 1 failed"
    exit 1
fi

for input in tests/listing/*.in; do
    name=$(basename "$input" .in)
    compare "$name" "$input" "tests/listing/$name.out"
done

# The README's command, with a file and with standard input; where all is proved already it says nothing of its own.
sh rights_listing.sh examples/rights.txt > "$work/out" 2> "$work/err"
cmp "$work/out" tests/listing/paper.out > "$work/differs" 2>&1
count rights_listing.sh $? "$(cat "$work/differs" "$work/err")"
sh rights_listing.sh < examples/rights.txt > "$work/out" 2> "$work/err"
cmp "$work/out" tests/listing/paper.out > "$work/differs" 2>&1 && [ ! -s "$work/err" ]
count standard_input $? "$(cat "$work/differs" "$work/err")"

# The same over a toolchain that only says that it proved one crate, the third, or that it did not prove another: a
# line for each as it is proved, and of a failed proof all that the toolchain said.
mkdir "$work/bin"
cat > "$work/bin/rt" <<'RT'
#!/bin/sh
case $(basename "$PWD") in
words) echo "logic=proved functions=20" ;;
table) [ -z "${UNPROVED-}" ] || { echo "logic=not-proved functions=25" >&2; exit 1; } ;;
esac
RT
chmod +x "$work/bin/rt"
PATH=$work/bin:$PATH sh rights_listing.sh examples/rights.txt > "$work/out" 2> "$work/err"
cmp "$work/out" tests/listing/paper.out > "$work/differs" 2>&1
count proving $? "$(cat "$work/differs")"
# the toolchain names each library that the program is made of
many=$(($(cd crates/rights_listing && rt check 2>&1 | grep -c '^library ') + 1))
says progress "proved 3 of $many: words"
PATH=$work/bin:$PATH UNPROVED=1 sh rights_listing.sh examples/rights.txt > "$work/out" 2> "$work/err"
[ $? -eq 1 ] && [ ! -s "$work/out" ] && grep -q '^logic=not-proved' "$work/err"
count unproved $? "$(cat "$work/out" "$work/err")"

# The most runs that a pool can have, and megabytes of lines of every kind.
python3 tests/listing/large.py "$work"
for name in most mixed; do
    compare "$name" "$work/$name.in" "$work/$name.out"
done

# It never stops without saying why.
listing < tests > "$work/out" 2> "$work/err"
says unread "The input cannot be read."
listing < tests/listing/paper.in > /dev/full 2> "$work/err"
says unwritten "The output cannot be written."
printf 'S 0 0 4 1' | listing > /dev/full 2> "$work/err"
says last_unwritten "The output cannot be written."
# Room for the numbers and not for the listing: a file of one kilobyte at most.
awk 'BEGIN { for (w = 0; w < 500; w += 2) print "S 0 " 4 * w " 4 1" }' > "$work/some.in"
(trap '' XFSZ; ulimit -f 1; listing < "$work/some.in" > "$work/out" 2> "$work/err")
says listing_unwritten "The output cannot be written."

echo "listing: $passed passed, $failed failed"
[ "$failed" -eq 0 ] && [ "$passed" -gt 0 ]
