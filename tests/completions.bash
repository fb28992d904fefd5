#!/usr/bin/env bash
# The completions of bash offer what the grammar of the words has, and no file where a number or an option stands.

cd "$(dirname "$0")/.." || exit 1
for program in place place-desk; do
    source "completions/bash/$program" || exit 1
done
room=$(mktemp -d) || exit 1
trap 'rm -rf "$room"' EXIT
: >"$room/ranks.csv"
: >"$room/ranks of all.csv"
failed=0

# offers OFFERS PROGRAM WORD..: behind the words, the last of which is being written, exactly these are offered.
offers() {
    local wanted=$1 function
    shift
    COMP_WORDS=("$@") COMP_CWORD=$(($# - 1))
    function=$(complete -p "$1" | sed 's/.*-F \([^ ]*\) .*/\1/')
    "$function" "$1" "${COMP_WORDS[COMP_CWORD]}"
    # bash sorts the names of files itself, by the language of who types
    case ${COMPREPLY[0]} in /*) mapfile -t COMPREPLY < <(printf '%s\n' "${COMPREPLY[@]}" | LC_ALL=C sort) ;; esac
    if [ "$(IFS=,; echo "${COMPREPLY[*]}")" != "$wanted" ]; then
        echo "completions: '$*' is offered '${COMPREPLY[*]}', not '$wanted'" >&2
        failed=1
    fi
}

files="$room/ranks of all.csv,$room/ranks.csv"
offers place,base,reasons,fixed,sweep,audit,second,make place ''
offers base place b
offers '' place x
for command in place base reasons fixed; do
    offers "$files" place "$command" "$room/ra"
    offers "$files" place "$command" p.csv c.csv "$room/ra"
    offers --workers place "$command" p.csv c.csv r.csv ''
    offers 4 place "$command" p.csv c.csv r.csv --workers 4
    offers '' place "$command" p.csv c.csv r.csv --workers 4 "$room/ra"
done
offers "$files" place audit p.csv c.csv r.csv "$room/ra"
offers --workers place audit p.csv c.csv r.csv placed.csv -
offers "$files" place second p.csv c.csv r.csv placed.csv "$room/ra"
offers --workers place second p.csv c.csv r.csv placed.csv came.csv -
offers "$files" place sweep p.csv c.csv "$room/ra"
offers '' place sweep p.csv c.csv r.csv "$room/ra"
offers '' place sweep p.csv c.csv r.csv 101 0 "$room/ra"
offers --workers place sweep p.csv c.csv r.csv 101 0 2 ''
offers 8 place sweep p.csv c.csv r.csv 101 0 2 --workers 8
offers '' place make "$room/ra"
offers --workers place make 7 300 40 5 ''
offers 1,2,4,8,16,32,64 place make 7 300 40 5 --workers ''
offers '' place unknown "$room/ra"
offers "$files" place-desk "$room/ra"
offers "$files" place-desk placed.csv "$room/ra"
offers --clerks place-desk placed.csv asked.csv ''
offers 2 place-desk placed.csv asked.csv --clerks 2
offers '' place-desk placed.csv asked.csv --clerks 2 ''
if command -v zsh >/dev/null; then zsh -n completions/zsh/_place || failed=1; fi
exit $failed
