#!/bin/sh
# aarch64.sh CC QEMU OUT: makes the archive for aarch64 and puts it into OUT. Then builds the example of a host over it, and runs it under qemu on the
# frames of examples/host.hex. What lacks a tool is a line 'skipped: ..'.
set -eu
cc=$1 qemu=$2 out=$3
here=$(cd "$(dirname "$0")" && pwd)
top=$(dirname "$here")
crate=$top/crates/nd_c

skip() {
    echo "skipped: aarch64: $1 is not there"
    exit 0
}

# Prints the archives below a folder that are for aarch64.
archives() {
    find "$1" -name libnd_c.a -exec sh -c 'readelf -h "$1" 2>/dev/null | grep -q AArch64' sh {} \; -print
}

command -v rt >/dev/null || skip rt
[ -d "$crate" ] || skip crates/nd_c
command -v readelf >/dev/null || skip readelf
objcopy=${cc%gcc}objcopy
command -v "$objcopy" >/dev/null || skip "$objcopy"
mkdir -p "$out"
kept=$(mktemp)
trap 'rm -f "$kept"' EXIT
[ ! -f "$crate/out/libnd_c.a" ] || cp -p "$crate/out/libnd_c.a" "$kept"
(cd "$crate" && rt lib --target aarch64-unknown-linux-gnu)
archive=$(archives "$crate/out" | head -n 1)
[ -n "$archive" ] || { echo "FAILED: rt lib made no archive for aarch64"; exit 1; }
"$objcopy" --redefine-syms="$here/c/memory.names" "$archive" "$out/libnd_c.a"
# The archive for this machine comes back where `rt lib` overwrote it.
[ "$archive" != "$crate/out/libnd_c.a" ] || { rm "$archive"; [ ! -s "$kept" ] || cp -p "$kept" "$archive"; }
command -v "$cc" >/dev/null || skip "$cc"
"$cc" -std=c11 -D_POSIX_C_SOURCE=200809L -O2 -Wall -Wextra -Werror -static -I"$top/include" -o "$out/host" \
    "$top/examples/c/host.c" "$here/c/heap.c" "$out/libnd_c.a"
command -v "$qemu" >/dev/null || skip "$qemu"
"$qemu" "$out/host" 34:56:78:9a:bc:de word:0 < "$top/examples/host.hex" | cmp - "$top/examples/host.txt"
echo "passed: the example of a host on aarch64"
