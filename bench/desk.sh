#!/bin/sh
# Times the desk's clerks beside plain Rust with no lock: desk.sh [REQUESTS], by default 3500000.
# The timing program is proved and built in a repository of its own in a temporary folder, so it is no part of the gate.
set -e
here=$(cd "$(dirname "$0")" && pwd)
count=${1:-3500000}
command -v rustc >/dev/null || { echo "bench: skipped, there is no rustc"; exit 0; }
repository=$(mktemp -d)
trap 'rm -rf "$repository"' EXIT
mkdir -p "$here/out" "$repository/crates/desk_times/src" "$repository/crates/desk_times/proofs" "$repository/crates/desk_times/specs"
(cd "$repository" && git init -q .)
cp "$here/../HANDLES" "$repository/"
for crate in place_base record_files place_edges run_frame market interleaving_core placement_file registration_desk; do
    rm -rf "$repository/crates/$crate"
    cp -r "$here/../crates/$crate" "$repository/crates/"
    grep -E "^$crate:" "$here/../crates.txt" >>"$repository/crates.txt"
done
echo 'desk_times: place_base place_edges placement_file registration_desk' >>"$repository/crates.txt"
cp "$here/desk/main.txt" "$repository/crates/desk_times/src/main.rt"
: >"$repository/crates/desk_times/specs/Lib.antt"
: >"$repository/crates/desk_times/proofs/Lib.antt"
(cd "$repository/crates/desk_times" && rt run) >&2
rustc -O -o "$here/out/desk_plain" "$here/desk/plain.rs"
# all candidates are placed, and each is asked for once, in an order that the map does not have
awk -v n="$count" 'BEGIN { print "candidate,programme"; for (k = 0; k < n; k++) printf "%.0f,%d\n", 10000000000 + 7 * k, 101 + k % 60000 }' >"$here/out/desk_placement"
awk -v n="$count" 'BEGIN { print "candidate"; for (k = 0; k < n; k++) printf "%.0f\n", 10000000000 + 7 * ((k * 7919) % n) }' >"$here/out/desk_requests"
for turn in 1 2 3; do
    plain=$("$here/out/desk_plain" "$here/out/desk_placement" "$here/out/desk_requests")
    for clerks in 1 4 64; do
        ours=$("$repository/crates/desk_times/out/desk_times" "$here/out/desk_placement" "$here/out/desk_requests" "$clerks")
        [ "${ours% *}" = "${plain% *}" ] || { echo "bench: another number of registrations"; exit 1; }
        echo "$clerks clerks ${ours#* } ms, plain ${plain#* } ms, ratio $(awk "BEGIN { printf \"%.2f\", ${ours#* } / ${plain#* } }")"
    done
done
