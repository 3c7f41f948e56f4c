#!/bin/sh
# run.sh PROGRAM ARGUMENTS: runs a program for x86-64; on a machine of another kind, under its qemu-x86_64 and with the
# toolchain's C library.
set -eu
program=$1
shift
if [ "$(uname -m)" = x86_64 ]; then
    exec "$program" "$@"
fi
lib=$(dirname "$(dirname "$(readlink -f "$(command -v rt)")")")/toolchain/lib
if ! command -v qemu-x86_64 > /dev/null; then
    echo "There is no qemu-x86_64 on the path: $program cannot run on this machine." >&2
    exit 1
fi
exec qemu-x86_64 "$lib/ld-linux-x86-64.so.2" --library-path "$lib" "$program" "$@"
