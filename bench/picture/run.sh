#!/bin/sh
# Compares the picture's kernels with the same loops in C: bench/picture/run.sh [ROUNDS]
# Each kernel has its loops in C and a comparison in NAME.c, and its wrappers for C in NAME.txt. They are built as a
# static library in a temporary copy of the crates.
set -eu
here=$(cd "$(dirname "$0")" && pwd)
kit=${KIT:-$(dirname "$(dirname "$(readlink -f "$(command -v rt)")")")}
rounds=${1:-25}
work=$(mktemp -d)
trap 'rm -rf "$work"' EXIT

# The kernel of this name, over these crates.
compare() {
    name=$1
    shift
    copy=$work/$name
    mkdir "$copy"
    "$here/../../.ci/copy-crates" "$copy" "$@"
    mkdir -p "$copy/crates/picture_bench/src" "$copy/crates/picture_bench/specs"
    : > "$copy/crates/picture_bench/specs/Lib.antt"
    cp "$here/$name.txt" "$copy/crates/picture_bench/src/lib.rt"
    echo "picture_bench staticlib: $*" >> "$copy/crates.txt"
    (cd "$copy/crates/picture_bench" && rt lib)
    for compiler in "gcc -O2" "clang -O3 -march=x86-64-v2"; do
        command -v "${compiler%% *}" > /dev/null || continue
        $compiler -o "$copy/main" "$here/$name.c" "$copy/crates/picture_bench/out/libpicture_bench.a" \
            "$kit/c/liblibc_c.a" "$kit/c/libos_c.a"
        echo "$name against $compiler:"
        "$copy/main" "$rounds"
    done
}

compare quantiser codec_terms quantiser
compare colour mast_base xyz_convert
compare wave dwt97
compare whole mast_base codec_terms xyz_convert picture_planes picture_bands
