#!/bin/sh
# The packets of a picture of 2048 x 1080, sized, written and read: bench/packet/run.sh [ROUNDS]
# It builds a static library with C wrappers in a temporary copy of the crates, and compares sizes with the same in C, reading
# with an MD5 of as many bytes.
set -eu
here=$(cd "$(dirname "$0")" && pwd)
kit=${KIT:-$(dirname "$(dirname "$(readlink -f "$(command -v rt)")")")}
work=$(mktemp -d)
trap 'rm -rf "$work"' EXIT
"$here/../../.ci/copy-crates" "$work" mast_base codec_terms band_map packet_head packet_reading packet_size
crate=$work/crates/packet_bench
mkdir -p "$crate/src" "$crate/specs" "$crate/proofs/packet_blocks"
: > "$crate/specs/Lib.antt"
cp "$here/wrappers.txt" "$crate/src/lib.rt"
cp "$here/invariants.txt" "$crate/proofs/packet_blocks/Invariants.antt"
echo "packet_bench staticlib: mast_base codec_terms band_map packet_head packet_reading packet_size md5" >> "$work/crates.txt"
(cd "$crate" && rt lib)
clang -O3 -march=x86-64-v2 -o "$work/main" "$here/main.c" "$here/size.c" "$crate/out/libpacket_bench.a" \
    "$kit/c/liblibc_c.a" "$kit/c/libos_c.a"
"$work/main" "${1:-200}"
