#!/bin/sh
# rights_listing.sh [FILE]: proves and builds the listing program where that is not done yet, and runs it on FILE, or on
# standard input. Each crate that is proved has a line on standard error; standard output is the program's alone.
set -eu
root=$(cd "$(dirname "$0")" && pwd)
if [ $# -gt 1 ]; then
    echo "Usage: sh rights_listing.sh [FILE]" >&2
    exit 2
fi
if [ $# -eq 1 ] && [ ! -r "$1" ]; then
    echo "The file $1 cannot be read." >&2
    exit 2
fi
if ! command -v rt > /dev/null; then
    echo "The Rattle toolchain's command rt is not on the path." >&2
    exit 2
fi
log=$(mktemp)
trap 'rm -f "$log"' EXIT

# The crates that the program is made of, each after those that it uses, and the program last.
crates=$(awk -F: '
    function add(name, used, n) {
        if (!(name in uses) || name in seen) return
        seen[name]
        for (n = split(uses[name], used, " "); n > 0; n--) add(used[n])
    }
    !/^#/ { uses[$1] = $2; line[NR] = $1 }
    END { add("rights_listing"); for (n = 1; n <= NR; n++) if (line[n] in seen) print line[n] }' "$root/crates.txt")
many=$(echo "$crates" | wc -l)

program=$root/crates/rights_listing/out/rights_listing
if [ ! -f "$program" ]; then
    echo "Proving and building; this takes some minutes the first time." >&2
fi
count=0
for name in $crates; do
    count=$((count + 1))
    # a library is built, and the program too, which is then run once on nothing
    made=lib
    [ "$name" != rights_listing ] || made=run
    if ! (cd "$root/crates/$name" && rt $made) < /dev/null > "$log" 2>&1; then
        cat "$log" >&2
        exit 1
    fi
    # the toolchain says this where it proved a crate now
    if grep -q '^logic=proved' "$log"; then
        echo "proved $count of $many: $name" >&2
    fi
done
if [ $# -eq 1 ]; then
    sh "$root/scripts/run.sh" "$program" < "$1"
else
    sh "$root/scripts/run.sh" "$program"
fi
