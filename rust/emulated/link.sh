#!/bin/sh
# link.sh SOURCE.c PROGRAM: compiles a C program with the header and links it with the proved library, which is for
# x86-64, and so is PROGRAM: scripts/run.sh runs it on any machine.
#
# On a machine of another kind its clang and ld.lld make code for x86-64, and the toolchain that proves the library has
# a C library for that.
set -eu
root=$(cd "$(dirname "$0")/../.." && pwd)
library=$root/crates/goleuthan/out/libgoleuthan.a
flags="-std=c11 -O2 -Wall -Wextra -Werror"

if [ ! -f "$library" ]; then
    echo "The proved library $library is missing: run 'rt lib --cpu=x86-64' in crates/goleuthan first." >&2
    exit 1
fi

if [ "$(uname -m)" = x86_64 ]; then
    # shellcheck disable=SC2086
    exec "${CC:-cc}" $flags -I "$root/include" -o "$2" "$1" "$library"
fi

lib=$(dirname "$(dirname "$(readlink -f "$(command -v rt)")")")/toolchain/lib
# the headers of this machine's C library serve: what a program here includes is the same on both
cc=${CC:-cc}
headers="-nostdinc -isystem $("$cc" -print-file-name=include) -isystem /usr/include/$("$cc" -dumpmachine) -isystem /usr/include"
# shellcheck disable=SC2086
clang --target=x86_64-unknown-linux-gnu -fPIE $flags $headers -I "$root/include" -c -o "$2.o" "$1"
ld.lld -pie -dynamic-linker "$lib/ld-linux-x86-64.so.2" -o "$2" "$lib/Scrt1.o" "$lib/crti.o" \
    "$lib/crtbeginS.o" "$2.o" "$library" "$lib/libc.so.6" "$lib/libc_nonshared.a" "$lib/libgcc.a" "$lib/crtendS.o" \
    "$lib/crtn.o"
rm -f "$2.o"
