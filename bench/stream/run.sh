#!/bin/sh
# Codestreams, by turns, best of several: bench/stream/run.sh [STREAM]
#   the survey of a codestream against an MD5 of its bytes;
#   reading it to its coefficients against opj_decompress, where that is there, which makes samples of them too;
#   the writing of the codestream of a picture of 2048 x 1080 by bench/frames.py, and its sizes at all cuts and back.
# Without STREAM the codestream is that picture's at the least cut that has at most 1,302,083 bytes, the most of a frame.
# It builds a static library with C wrappers in a temporary copy of the crates.
set -eu
here=$(cd "$(dirname "$0")" && pwd)
kit=${KIT:-$(dirname "$(dirname "$(readlink -f "$(command -v rt)")")")}
crates="mast_base codec_terms codec_laws picture_bands picture_sets picture_blocks block_packets cinema_stream stream_reader stream_survey"
work=$(mktemp -d)
trap 'rm -rf "$work"' EXIT
"$here/../../.ci/copy-crates" "$work" $crates
crate=$work/crates/stream_bench
mkdir -p "$crate/src" "$crate/specs" "$crate/proofs"
: > "$crate/specs/Lib.antt"
: > "$crate/proofs/Lib.antt"
cp "$here/wrappers.txt" "$crate/src/lib.rt"
for walk in walk_up walk_down; do
    mkdir "$crate/proofs/$walk"
    sed "s/WALK/$walk/" "$here/invariants.txt" > "$crate/proofs/$walk/Invariants.antt"
done
echo "stream_bench staticlib: $crates md5" >> "$work/crates.txt"
(cd "$crate" && rt lib)
clang -O3 -march=x86-64-v2 -o "$work/main" "$here/main.c" "$crate/out/libstream_bench.a" \
    "$kit/c/liblibc_c.a" "$kit/c/libos_c.a"
"$here/../frames.py" 2048 1080 > "$work/frame.rgb"
"$work/main" "$work/frame.rgb" "$work/made.j2c" "$@"
