#!/bin/sh
# Builds program.txt over wsn_text, in a repository of its own in a temporary folder, and prints the speeds. It
# requires rt.
set -eu
here=$(cd "$(dirname "$0")" && pwd)
crate=$here/../../crates/wsn_text
work=$(mktemp -d)
trap 'rm -rf "$work"' EXIT

mkdir -p "$work/crates/wsn_text" "$work/crates/text_speed/src"
cp -r "$crate/src" "$crate/specs" "$crate/proofs" "$work/crates/wsn_text/"
cp "$here/program.txt" "$work/crates/text_speed/src/main.rt"
printf 'wsn_text: simdutf8\ntext_speed: wsn_text simdutf8\n' > "$work/crates.txt"
git init -q "$work"

grep -m 1 'model name' /proc/cpuinfo
nproc | sed 's/^/processors: /'
rt version
(cd "$work/crates/text_speed" && rt run) > "$work/log" 2>&1 || { cat "$work/log"; exit 1; }
grep -o 'cpu=[^ ]*' "$work/log" | tail -1
"$work/crates/text_speed/out/text_speed"
