#!/bin/sh
# A sound track's frames mixed from one asset, 16 channels one to one and by a full matrix: bench/sound/run.sh [FRAMES [ROUNDS]]
# It builds a static library with C wrappers in a temporary copy of the crates, and compares with the same loops in C.
set -eu
here=$(cd "$(dirname "$0")" && pwd)
kit=${KIT:-$(dirname "$(dirname "$(readlink -f "$(command -v rt)")")")}
work=$(mktemp -d)
trap 'rm -rf "$work"' EXIT
"$here/../../.ci/copy-crates" "$work" mast_base mast_world film_project film_reader pcm_mix
crate=$work/crates/sound_bench
mkdir -p "$crate/src" "$crate/specs"
: > "$crate/specs/Lib.antt"
cp "$here/wrappers.txt" "$crate/src/lib.rt"
echo "sound_bench staticlib: mast_base mast_world film_project film_reader pcm_mix" >> "$work/crates.txt"
(cd "$crate" && rt lib)
gcc -O2 -o "$work/main" "$here/main.c" "$crate/out/libsound_bench.a" "$kit/c/liblibc_c.a" "$kit/c/libos_c.a"
"$work/main" "${1:-10000}" "${2:-3}"
