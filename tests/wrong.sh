#!/usr/bin/env bash
# Wrong programs, each one line away from ours: the checker must refuse each for a fact.
#
# tests/wrong/CRATE/NAME.edit has the lines `file:`, `old:`, `new:` and `twin:`, after a comment that says what is
# wrong. The text `old` stands once in the file of the crate. With `new` in its place the crate must not be proved.
# With `twin`, which has the same shape and means what `old` means, it must: so that what is refused is the meaning,
# and not the text. Goals and facts are named after the words of a condition, so an edit of one keeps these words, and
# gives one of its names another value inside of it.
#
# Edits are checked in a copy of the crates, over what the check of the crate as it is kept there, so that one costs
# seconds and not a whole check. Of what refuses each a line is printed. With names of crates, only theirs.
cd "$(dirname "$0")/.." || exit 1
exec python3 -B tests/wrong.py "$@"
