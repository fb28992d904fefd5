#!/bin/sh
# Times the making of a market and a turn of its rounds beside plain Rust over the same words: turns.sh SEED CANDIDATES PROGRAMMES TYPES
# The timing program is proved and built in a repository of its own in a temporary folder, so it is no part of the gate.
set -e
here=$(cd "$(dirname "$0")" && pwd)
command -v rustc >/dev/null || { echo "bench: skipped, there is no rustc"; exit 0; }
repository=$(mktemp -d)
trap 'rm -rf "$repository"' EXIT
crates='market case_maker interleaving_core word_rule full_flags claim_words commit_book gate_workers truncation round_rerun'
mkdir -p "$here/out" "$repository/crates/turns/src" "$repository/crates/turns/proofs/main" "$repository/crates/turns/specs"
(cd "$repository" && git init -q .)
cp "$here/../HANDLES" "$repository/"
for crate in $crates; do
    cp -r "$here/../crates/$crate" "$repository/crates/"
    grep "^$crate:" "$here/../crates.txt" >>"$repository/crates.txt"
done
echo 'turns: market case_maker gate_workers round_rerun' >>"$repository/crates.txt"
cp "$here/turns/main.txt" "$repository/crates/turns/src/main.rt"
cp "$here/turns/Invariants.antt.txt" "$repository/crates/turns/proofs/main/Invariants.antt"
: >"$repository/crates/turns/specs/Lib.antt"
: >"$repository/crates/turns/proofs/Lib.antt"
(cd "$repository/crates/turns" && rt run -- 1 0 0 1 1) >&2
cp "$repository/crates/turns/out/turns" "$here/out/turns"
rustc -O -o "$here/out/team" "$here/team.rs"
for time in 1 2 3; do
    for workers in 1 4; do
        ours=$("$here/out/turns" "$@" "$workers")
        plain=$("$here/out/team" "$@" "$workers")
        [ "${ours#* * }" = "${plain#* * * }" ] || { echo "bench: another placement: $ours, $plain"; exit 1; }
        echo "$ours $plain" | awk -v workers="$workers" '{
            printf "%d workers: made %d ms, plain %d, ratio %.2f; ", workers, $1, $9 + $10, $1 / ($9 + $10 + 0.001)
            printf "a turn %.1f ns, plain %.1f, ratio %.2f\n", $2 * 1e6 / ($8 + 0.001), $11 * 1e6 / ($8 + 0.001), $2 / ($11 + 0.001) }'
    done
done
