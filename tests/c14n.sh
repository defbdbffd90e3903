#!/usr/bin/env bash
# c14n.sh PROGRAM: what libxml2's Canonical XML makes of attribute values and of text (tests/c14n.txt); the program gives the same. Where
# xmllint is, the stored lines are compared with what it says now.
set -u
program=$1
tests=$(dirname "$0")
cases=0
wrong=0
changed=0

gives() { # OPTION VALUE RESULT
    [ "$("$program" c14n "$1" -- "$2" && echo .)" = "$3." ] && return
    wrong=$((wrong + 1))
    echo "libxml2 gives ${3@Q}: $1 ${2@Q}"
}

while IFS= read -r line; do
    readarray -d $'\t' -t fields < <(printf %s "$line")
    for i in 0 1 2; do printf -v "fields[$i]" %b "${fields[i]#=}"; done
    cases=$((cases + 1))
    [ "${fields[1]}" = "${fields[2]}" ] || changed=$((changed + 1))
    gives --attribute "${fields[0]}" "${fields[1]}"
    gives --text "${fields[0]}" "${fields[2]}"
done < <(grep -v '^#' "$tests/c14n.txt")
if command -v xmllint >/dev/null && command -v python3 >/dev/null; then
    python3 "$tests/c14n_libxml2.py" | diff "$tests/c14n.txt" - || wrong=$((wrong + 1))
fi
echo "$cases documents, $wrong wrong; in $changed attribute and text differ"
[ "$wrong" -eq 0 ] && [ "$cases" -gt 300 ] && [ "$changed" -gt 100 ]
