#!/usr/bin/env bash
# The source has one loop of stores. A contract sees the pool at entry and at exit only; that nothing is stored and
# stored back in between is read off the shape of the code, and this test holds the code to that shape. It must also
# refuse wrong sources, made from the real text, and accept harmless ones.
cd "$(dirname "$0")/.." || exit 1
exec python3 -B tests/stores/run.py
