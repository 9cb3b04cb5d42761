#!/bin/sh
# Compares code-blocks with the same design in C, and with a walk over every sample: bench/block/run.sh [ROUNDS]
# It builds a static library with C wrappers in a temporary copy of the crates.
set -eu
here=$(cd "$(dirname "$0")" && pwd)
kit=${KIT:-$(dirname "$(dirname "$(readlink -f "$(command -v rt)")")")}
crates="mast_base codec_terms mq_coder block_contexts block_sets block_passes block_coder"
work=$(mktemp -d)
trap 'rm -rf "$work"' EXIT
"$here/../../.ci/copy-crates" "$work" $crates
mkdir -p "$work/crates/block_bench/src" "$work/crates/block_bench/specs"
: > "$work/crates/block_bench/specs/Lib.antt"
mkdir -p "$work/crates/block_bench/proofs/greatest"
: > "$work/crates/block_bench/proofs/Lib.antt"
cp "$here/invariant.txt" "$work/crates/block_bench/proofs/greatest/Invariants.antt"
cp "$here/wrappers.txt" "$work/crates/block_bench/src/lib.rt"
cp "$here/walk.txt" "$work/crates/block_bench/src/walk.rt"
echo "block_bench staticlib: $crates" >> "$work/crates.txt"
(cd "$work/crates/block_bench" && rt lib)
clang -O3 -march=x86-64-v2 -c -o "$work/blocks.o" "$here/blocks.c"
gcc -O2 -o "$work/main" "$here/main.c" "$work/blocks.o" "$work/crates/block_bench/out/libblock_bench.a" \
    "$kit/c/liblibc_c.a" "$kit/c/libos_c.a" -lm
"$work/main" "${1:-10}"
