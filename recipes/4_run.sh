#!/bin/sh
# Places, explains and audits, in the folder of the three files, and keeps all of it in a folder of results:
#     recipes/4_run.sh [RESULTS]
# RESULTS, `results` where nothing is said, is there only if all went well; a folder of that name must not be there yet.
# In it are copies of the three files, on which the runs were made, so that no export that goes on can come between
# them; placement.csv, base.csv, reasons.csv, audit.txt; program.txt, the sum of the program; and SHA256SUMS of all these.
# Another program than `place` is named by the variable PLACE. The status is that of the run which was refused.
set -u
results=${1:-results} place=${PLACE:-place}
if [ -e "$results" ]; then echo "$results is there already" >&2; exit 73; fi
umask 027
mkdir -p "$(dirname "$results")" && new=$(mktemp -d "$results.new.XXXXXX") || exit 73
trap 'rm -rf "$new"' EXIT
trap 'exit 130' INT
trap 'exit 143' TERM
cp programmes.csv candidates.csv ranks.csv "$new" || exit 4

# run COMMAND TEXT WORD..: the text of a command, whole
run() {
    command=$1 text=$2
    shift 2
    "$place" "$command" "$new/programmes.csv" "$new/candidates.csv" "$new/ranks.csv" "$@" >"$new/$text" && return
    refused=$?
    echo "$place $command ended with status $refused" >&2
    exit $refused
}

run place placement.csv
run base base.csv
run reasons reasons.csv
run audit audit.txt "$new/placement.csv"
sha256sum "$(command -v "$place")" >"$new/program.txt" && (cd "$new" && sha256sum -- *) >"$new.sums" &&
    mv "$new.sums" "$new/SHA256SUMS" && chmod 750 "$new" && mv "$new" "$results"
