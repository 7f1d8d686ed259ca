#!/bin/sh
# Builds wsn_wire's mask as a static library, in a repository of its own in a temporary folder, links it to
# measure.c, and prints the speeds. It requires rt and a C compiler.
set -eu
here=$(cd "$(dirname "$0")" && pwd)
crate=$here/../../crates/wsn_wire
work=$(mktemp -d)
trap 'rm -rf "$work"' EXIT

mkdir -p "$work/crates/wsn_wire" "$work/crates/mask_c/src"
cp -r "$crate/src" "$crate/specs" "$crate/proofs" "$work/crates/wsn_wire/"
cp "$here/library.txt" "$work/crates/mask_c/src/lib.rt"
printf 'wsn_wire: arrayvec\nmask_c staticlib: wsn_wire\n' > "$work/crates.txt"
git init -q "$work"
(cd "$work/crates/mask_c" && rt lib) > "$work/log" 2>&1 || { cat "$work/log"; exit 1; }
"${CC:-cc}" -O2 -o "$work/measure" "$here/measure.c" "$work/crates/mask_c/out/libmask_c.a"

grep -m 1 'model name' /proc/cpuinfo
nproc | sed 's/^/processors: /'
rt version
grep -o 'cpu=[^ ]*' "$work/log" | tail -1
"$work/measure"
