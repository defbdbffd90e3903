#!/usr/bin/env bash
# marked.sh PROGRAM: what expat makes of white space in the texts of entities (tests/marked.txt). The program, told by --marked that
# the texts are past line ends, gives expat's value; and some of these values are others without --marked. Where Python has expat,
# the stored lines are compared with what it says now.
set -u
program=$1
tests=$(dirname "$0")
cases=0
wrong=0
differing=0

replay() { # =VALUE TEXT NAME=TEXT..
    local expected=${1#=} text=$2 entity
    local -a options=()
    shift 2
    for entity; do options+=(--entity "$entity"); done
    cases=$((cases + 1))
    [ "$("$program" normalize "${options[@]}" -- "$text" && echo .)" = "$expected." ] || differing=$((differing + 1))
    [ "$("$program" normalize --marked "${options[@]}" -- "$text" && echo .)" = "$expected." ] && return
    wrong=$((wrong + 1))
    echo "expat gives ${expected@Q}: ${text@Q} with ${*@Q}"
}

while IFS= read -r line; do
    readarray -d $'\t' -t fields < <(printf %s "$line")
    for i in "${!fields[@]}"; do printf -v "fields[$i]" %b "${fields[i]}"; done
    replay "${fields[@]}"
done < <(grep -v '^#' "$tests/marked.txt")
if python3 -c 'import xml.parsers.expat' 2>/dev/null; then
    python3 -B "$tests/expat_marked.py" | diff "$tests/marked.txt" - || wrong=$((wrong + 1))
fi
echo "$cases documents, $wrong wrong; $differing read otherwise without the mark"
[ "$wrong" -eq 0 ] && [ "$cases" -gt 200 ] && [ "$differing" -gt 20 ]
