#!/bin/sh
# For cron: runs 4_run.sh in the folder of the three files, one run at a time, and keeps the results of every night:
#     15 3 * * *  recipes/nightly.sh /srv/placement >>/var/log/place.log 2>&1
# The results of a run lie in runs/DATE-TIME, and `results` is a link to the last run that went well: it changes at once
# and whole, and stays as it was where a run is refused. One line of log a run. Status 75: another run is at work.
set -u
here=$(cd "$(dirname "$0")" && pwd) || exit
cd "$1" || exit
said() { echo "$(date -Is) place: $*"; }
exec 9>.lock || exit
flock -n 9 || { said "another run is at work"; exit 75; }
if [ -e results ] && [ ! -L results ]; then said "results is no link"; exit 73; fi
# A run that follows within a second waits for a name of its own.
while run=runs/$(date +%Y%m%d-%H%M%S); [ -e "$run" ]; do sleep 1; done
began=$(date +%s)
refused=$("$here/4_run.sh" "$run" 2>&1 9>&-)
status=$?
if [ $status -ne 0 ]; then
    said "status $status:" $refused
    exit $status
fi
ln -sfn "$run" results.new && mv -T results.new results || exit
said "done in $(($(date +%s) - began)) s, $run, sums $(sha256sum <"$run/SHA256SUMS" | cut -c 1-16)"
