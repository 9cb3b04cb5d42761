#!/bin/sh
# Compares the arithmetic coder with the same algorithm in C: bench/mq/run.sh [ROUNDS]
# It builds a static library with C wrappers in a temporary copy of the crates.
set -eu
top=$(cd "$(dirname "$0")/../.." && pwd)
kit=$(dirname "$(dirname "$(readlink -f "$(command -v rt)")")")
work=$(mktemp -d)
trap 'rm -rf "$work"' EXIT
"$top/.ci/copy-crates" "$work" mq_coder
mkdir -p "$work/crates/mq_bench/src" "$work/crates/mq_bench/specs"
: > "$work/crates/mq_bench/specs/Lib.antt"
cp "$top/bench/mq/wrappers.txt" "$work/crates/mq_bench/src/lib.rt"
echo "mq_bench staticlib: mast_base mq_coder" >> "$work/crates.txt"
(cd "$work/crates/mq_bench" && rt lib)
clang -O3 -march=x86-64-v2 -DNAME=clang_list -c -o "$work/clang_list.o" "$top/bench/mq/list.c"
gcc -O2 -DNAME=gcc_list -c -o "$work/gcc_list.o" "$top/bench/mq/list.c"
gcc -O2 -o "$work/main" "$top/bench/mq/main.c" "$work/clang_list.o" "$work/gcc_list.o" \
    "$work/crates/mq_bench/out/libmq_bench.a" "${KIT:-$kit}/c/liblibc_c.a" "${KIT:-$kit}/c/libos_c.a"
"$work/main" "${1:-10}"
