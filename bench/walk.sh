#!/bin/sh
# Times the walk of a rank file by rows, fields and numbers beside plain Rust: walk.sh FILE
# The timing program is proved and built in a repository of its own in a temporary folder, so it is no part of the gate.
set -e
here=$(cd "$(dirname "$0")" && pwd)
command -v rustc >/dev/null || { echo "bench: skipped, there is no rustc"; exit 0; }
repository=$(mktemp -d)
trap 'rm -rf "$repository"' EXIT
mkdir -p "$here/out" "$repository/crates/walk/src" "$repository/crates/walk/proofs/walk" "$repository/crates/walk/specs"
(cd "$repository" && git init -q .)
cp "$here/../HANDLES" "$repository/"
for crate in place_base record_files place_edges; do
    rm -rf "$repository/crates/$crate"
    cp -r "$here/../crates/$crate" "$repository/crates/"
done
grep -E '^(place_base|record_files|place_edges):' "$here/../crates.txt" >"$repository/crates.txt"
echo 'walk: record_files place_edges place_base' >>"$repository/crates.txt"
cp "$here/walk/main.txt" "$repository/crates/walk/src/main.rt"
cp "$here/walk/Invariants.antt.txt" "$repository/crates/walk/proofs/walk/Invariants.antt"
: >"$repository/crates/walk/specs/Lib.antt"
: >"$repository/crates/walk/proofs/Lib.antt"
(cd "$repository/crates/walk" && rt run) >&2
rustc -O -o "$here/out/walk_plain" "$here/walk/plain.rs"
for turn in 1 2 3; do
    ours=$("$repository/crates/walk/out/walk" "$1")
    plain=$("$here/out/walk_plain" "$1")
    [ "${ours% *}" = "${plain% *}" ] || { echo "bench: another sum"; exit 1; }
    echo "walk ${ours#* } ms, plain ${plain#* } ms, ratio $(awk "BEGIN { printf \"%.2f\", ${ours#* } / ${plain#* } }")"
done
