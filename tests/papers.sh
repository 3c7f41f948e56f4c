#!/usr/bin/env bash
# The pages are held to the tree, a test a page: each name in `code` in docs/PROMISES.md and docs/READING.md is
# defined in a crate or is a wrong program's, each file that they give is there, every wrong program is named, every
# file of definitions is on the reader's path or marked inner, and no promise rests on an inner one; README.md shows
# lines that other tests run. Pages that are wrong in one way each must be found out.
cd "$(dirname "$0")/.." || exit 1
exec python3 -B tests/papers.py
