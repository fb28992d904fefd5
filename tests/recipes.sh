#!/bin/bash
# Follows the recipes from nothing on made raw data, by both roads: from a database, and from a spreadsheet's exports.
# Build the program first, as with ./place. Skipped with a word where a tool is missing.
set -u
top=$(cd "$(dirname "$0")/.." && pwd)
recipes=$top/recipes
export PLACE=$top/crates/place_program/out/place_program
for tool in python3 sqlite3 flock sha256sum; do
    command -v $tool >/dev/null || { echo "recipes: skipped, there is no $tool"; exit 0; }
done
room=$(mktemp -d) || exit 1
trap 'rm -rf "$room"' EXIT

# not WHAT: ends the test, with what did not come out as it should
not() {
    echo "recipes: not so: $*" >&2
    exit 1
}

sql() {
    sqlite3 office.db <"$recipes/$1" || not "$1 runs"
}

# From the raw data to results that are loaded again.
follow() {
    sql 2_look.sql >told
    cut -d' ' -f1,2,3 told | sort >kinds
    cmp -s kinds - <<'KINDS' || not "the planted mistakes are told, in $PWD: $(cat told)"
F06 score twice
F06 tie not
F06 wish twice
F07 unknown programme
F07 unknown programme
F08 list too
score of a
score of nobody
KINDS
    sql 2_mend_made_office.sql
    [ -z "$(sql 2_look.sql)" ] || not "nothing is told once all is mended"
    sql 3_files.sql
    "$recipes/4_run.sh" || not "the files are placed"
    (cd results && sha256sum --check --quiet SHA256SUMS) || not "the sums are those of the results"
    sql 5_load.sql >summary
    (cd results && "$top/tools/check_placement" programmes.csv candidates.csv ranks.csv placement.csv base.csv) >checked ||
        not "the checker finds the placement right: $(cat checked)"
}

"$recipes/made_office.py" "$room/raw" >"$room/wrong" || not "the raw data are made"
mkdir "$room/database" "$room/exports" "$room/drawn" "$room/night"
cp "$room/raw/office.db" "$room/database"
cp "$room"/raw/*.csv "$room/exports"

cd "$room/database" || exit 1
cp office.db unmended.db
follow
cd "$room/exports" || exit 1
sql 1_from_exports.sql
follow
cmp "$room/database/results/placement.csv" results/placement.csv || not "both roads come to the same"

# What is published has a row for each programme, and the loaded numbers are those of the texts.
[ "$(wc -l <published_base.csv)" = "$(wc -l <results/base.csv)" ] || not "base ranks are published of each programme"
placed=$(awk -F, 'FNR > 1 && $2 != "-"' results/placement.csv | wc -l)
[ "$(head -1 summary)" = "placed $placed of 20000" ] || not "the summary: $(head -1 summary)"
"$top/tools/report" results/{programmes,candidates,placement,base}.csv >report.html || not "the page is written"
who=$(sed -n 4p results/candidates.csv | cut -d, -f1)
(cd results && "$top/tools/explain" "$who") | grep -q "^candidate $who holds" || not "a candidate is explained"

# A second run does not touch the results that are there, and a refused one leaves none.
"$recipes/4_run.sh" 2>/dev/null && not "results are overwritten"
cp ../database/{programmes,candidates,ranks}.csv "$room/night"
cd "$room/night" || exit 1
echo '1,101;x' >>candidates.csv
"$recipes/4_run.sh" 2>notes
[ $? = 3 ] && grep -q '^fault candidates ' notes && [ "$(ls | tr '\n' ' ')" = 'candidates.csv notes programmes.csv ranks.csv ' ] ||
    not "a refused run says why, and leaves nothing"

# Bars: their mistakes are told, nobody behind one is placed, and seats of such a programme stay free.
cp -r ../database "$room/bars" && rm -r "$room/bars/results" && cd "$room/bars" || exit 1
sqlite3 office.db 'create table bar (code integer, rank); insert into bar select code, 300 from programme where code % 3 = 0;
    insert into bar values (299999999, 300); insert into bar select min(code), 0 from programme where code % 3 > 0;
    insert into bar select min(code), 300 from bar;'
sql 3_bars.sql >told
cut -d' ' -f1,2,3,4 told | sed -E 's/( [0-9]+)+$//' >kinds
printf '%s\n' 'F03 or F04 bar' 'bar twice' 'bar of no programme' | cmp -s kinds - || not "wrong bars are told: $(cat told)"
sqlite3 office.db 'delete from bar where rank = 0 or code = 299999999 or rowid not in (select min(rowid) from bar group by code)'
[ -z "$(sql 3_bars.sql)" ] || not "no bar is told once all is mended"
"$recipes/4_run.sh" || not "files with bars are placed"
(cd results && "$top/tools/check_placement" programmes.csv candidates.csv ranks.csv placement.csv base.csv) >checked ||
    not "the checker finds a placement with bars right: $(cat checked)"
sql 5_load.sql >summary
sqlite3 office.db 'select count(*), max(base.base) <= 300, sum(base.held) < sum(base.quota)
    from bar join base using (code)' >held
[ "$(cat held)" = "$(sqlite3 office.db 'select count(*) from bar')|1|1" ] || not "bars keep ranks out: $(cat held)"
[ "$(sqlite3 office.db "select count(*) > 0 from reason where reason = 'BAR' and base = 300")" = 1 ] ||
    not "the bar is a reason"
cd "$room/night" || exit 1

# Nights: one that goes well, one that is refused, one beside another.
cp ../database/candidates.csv .
"$recipes/nightly.sh" . >log && [ -L results ] && cmp -s results/placement.csv ../database/results/placement.csv ||
    not "a night goes well: $(cat log)"
before=$(readlink results)
echo '1,101;x' >>candidates.csv
"$recipes/nightly.sh" . >log
[ $? = 3 ] && grep -q 'status 3: fault candidates ' log && [ "$(readlink results)" = "$before" ] ||
    not "a refused night leaves the last results: $(cat log)"
flock .lock "$recipes/nightly.sh" . >log
[ $? = 75 ] && [ "$(ls runs)" = "${before#runs/}" ] || not "one run at a time: $(cat log)"

# With drawn numbers the same is placed.
cd "$room/drawn" || exit 1
cp ../database/unmended.db office.db
sql 2_look.sql >told
sql 2_mend_made_office.sql
sql 3_pseudonyms.sql
sql 3_files.sql
"$recipes/4_run.sh" || not "files with drawn numbers are placed"
sql 5_load.sql >summary
cmp results/base.csv ../database/results/base.csv || not "drawn numbers change no base rank"
cmp <(sqlite3 office.db 'select * from held order by number') \
    <(cd ../database && sqlite3 office.db 'select * from held order by number') || not "drawn numbers lead back"
cut -d, -f1 candidates.csv | grep -q '^1[0-9]\{10\}$' && not "no candidate's own number is in the files"
echo "recipes: as they should"
