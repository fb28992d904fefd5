#!/bin/sh
# Counts the seat words that claimants read where most programmes are full early, with and without flags:
#     flags.sh [CANDIDATES PROGRAMMES QUOTA]
# Each candidate lists twelve programmes of the one score type. A gate of the counting program counts the readings of
# one worker. Without flags a claimant reads each entry up to the one that it takes: that number comes from the placement.
# The counting program is proved and built in a repository of its own in a temporary folder, so it is no part of the gate.
set -e
here=$(cd "$(dirname "$0")" && pwd)
[ $# -eq 3 ] || set -- 1000000 1000 50
repository=$(mktemp -d)
trap 'rm -rf "$repository"' EXIT
mkdir -p "$here/out" "$repository/crates"
(cd "$repository" && git init -q .)
cp "$here/../HANDLES" "$repository/"
cp -r "$here"/../crates/* "$repository/crates/"
cp "$here/../crates.txt" "$repository/"
mkdir -p "$repository/crates/flags/src" "$repository/crates/flags/proofs" "$repository/crates/flags/specs"
echo 'flags: place_run place_edges gate_workers' >>"$repository/crates.txt"
cp "$here/flags/main.txt" "$repository/crates/flags/src/main.rt"
: >"$repository/crates/flags/specs/Lib.antt"
: >"$repository/crates/flags/proofs/Lib.antt"
(cd "$repository/crates/flags" && rt run) >&2
flags=$repository/crates/flags/out/flags

python3 - "$@" "$repository" <<'PYTHON'
import random
import sys
candidates, programmes, quota = (int(word) for word in sys.argv[1:4])
draw = random.Random(7)
with open(sys.argv[4] + "/programmes.csv", "w") as out:
    out.write("programme,type,quota\n")
    out.writelines("%d,SAY,%d\n" % (code + 1, quota) for code in range(programmes))
with open(sys.argv[4] + "/candidates.csv", "w") as out, open(sys.argv[4] + "/ranks.csv", "w") as ranks:
    out.write("candidate,list\n")
    ranks.write("candidate,type,rank\n")
    for number in range(1, candidates + 1):
        codes = draw.sample(range(1, programmes + 1), 12)
        out.write("%d,%s\n" % (number, ";".join(map(str, codes))))
        ranks.write("%d,SAY,%d\n" % (number, number))
PYTHON
files="$repository/programmes.csv $repository/candidates.csv $repository/ranks.csv"
# shellcheck disable=SC2086
read_words=$("$flags" place $files --workers 1 2>&1 >"$repository/placement.csv")
python3 - "$repository" "$read_words" <<'PYTHON'
import sys
without = 0
with open(sys.argv[1] + "/candidates.csv") as listed, open(sys.argv[1] + "/placement.csv") as placed:
    next(listed), next(placed)
    for wishes, row in zip(listed, placed):
        wishes, held = wishes.strip().split(",")[1].split(";"), row.strip().split(",")[1]
        without += len(wishes) if held == "-" else wishes.index(held) + 1
read = int(sys.argv[2])
print("%d seat words read by claimants, %d without flags: %.3f" % (read, without, read / without))
PYTHON
