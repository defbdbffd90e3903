#!/usr/bin/env bash
# nmtokens.sh PROGRAM: what expat makes of attributes that are declared NMTOKENS (tests/nmtokens.txt). The program gives expat's value,
# and with --null its tokens; and most of these values are others where the attribute is only normalized. Where Python has expat, the
# stored lines are compared with what it says now.
set -u
program=$1
tests=$(dirname "$0")
cases=0
wrong=0
differing=0

replay() { # =VALUE TEXT NAME=TEXT..
    local expected=${1#=} text=${2-} entity
    local -a options=()
    shift $(($# < 2 ? $# : 2)) # an empty value at the end of a line is no field
    for entity; do options+=(--entity "$entity"); done
    cases=$((cases + 1))
    [ "$("$program" normalize --marked "${options[@]}" -- "$text" && echo .)" = "$expected." ] || differing=$((differing + 1))
    [ "$("$program" nmtokens --marked "${options[@]}" -- "$text" && echo .)" = "$expected." ] &&
        [ "$("$program" nmtokens --marked --null "${options[@]}" -- "$text" | tr '\0' ' ' && echo .)" = "${expected:+$expected }." ] && return
    wrong=$((wrong + 1))
    echo "expat gives ${expected@Q}: ${text@Q} with ${*@Q}"
}

while IFS= read -r line; do
    readarray -d $'\t' -t fields < <(printf %s "$line")
    for i in "${!fields[@]}"; do printf -v "fields[$i]" %b "${fields[i]}"; done
    replay "${fields[@]}"
done < <(grep -v '^#' "$tests/nmtokens.txt")
if python3 -c 'import xml.parsers.expat' 2>/dev/null; then
    python3 -B "$tests/expat_nmtokens.py" | diff "$tests/nmtokens.txt" - || wrong=$((wrong + 1))
fi
echo "$cases documents, $wrong wrong; $differing read otherwise without the second stage"
[ "$wrong" -eq 0 ] && [ "$cases" -gt 600 ] && [ "$differing" -gt 300 ]
