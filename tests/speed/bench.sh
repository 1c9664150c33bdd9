#!/usr/bin/env bash
# Times how fast messages are read and written, from memory to memory: bench.sh WORD, with a word of tests/speed/bench/main.rt.in. The program is
# no crate of this repository: it is proved and built in a copy of the crates.
set -eu
[ $# = 1 ] || { sed -n 's/.*"\([a-z-]*\)" =>.*/\1/p' "$(dirname "$0")/bench/main.rt.in"; exit 2; }
word=$1
cd "$(dirname "$0")/../../crates"
folder=$(mktemp -d)
trap 'rm -rf "$folder"' EXIT
cp -r . "$folder/crates"
cp ../crates.txt "$folder"
echo "bench: ber_core ill_read ill_write" >>"$folder/crates.txt"
mkdir -p "$folder/crates/bench/src"
for file in ../tests/speed/bench/*.rt.in; do
    cp "$file" "$folder/crates/bench/src/$(basename "$file" .in)"
done
(cd "$folder/crates/bench" && rt run >/dev/null 2>&1)
time "$folder/crates/bench/out/bench" "$word"
