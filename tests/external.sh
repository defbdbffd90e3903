#!/usr/bin/env bash
# external.sh PROGRAM: what expat says of external entities in attribute values (tests/external.txt). The program refuses by 27 the
# documents in which expat finds an error, and no other; of the others it gives expat's value. Where Python has expat, the stored
# lines are compared with what it says now.
set -u
program=$1
tests=$(dirname "$0")
cases=0
wrong=0

# The options for the declarations: a name before a text in quotes, or before an external identifier.
declare_entities() { # DECLARATION..
    local declaration name body
    options=()
    for declaration in "$@"; do
        name=${declaration%% *} body=${declaration#* }
        case $body in
        '"'*) options+=(--entity "$name=${body:1:-1}") ;;
        *) options+=(--external "$name") ;;
        esac
    done
}

replay() { # VERDICT VALUE DECLARATION..
    local verdict=$1 value=$2
    shift 2
    declare_entities "$@"
    cases=$((cases + 1))
    case $verdict in
    =*) [ "$("$program" normalize "$value" "${options[@]}" && echo .)" = "${verdict#=}." ] && return ;;
    15 | 16)
        [[ $("$program" normalize "$value" "${options[@]}" 2>&1) == "govlezna: refusal 27: "* ]] &&
            [[ $("$program" canonical "$value" "${options[@]}" 2>&1) == "govlezna: refusal 27: "* ]] && return
        ;;
    esac
    wrong=$((wrong + 1))
    echo "expat says $verdict: $value with ${*@Q}"
}

while IFS= read -r line; do
    readarray -d $'\t' -t fields < <(printf %s "$line")
    replay "${fields[@]}"
done < <(grep -v '^#' "$tests/external.txt")
if python3 -c 'import xml.parsers.expat' 2>/dev/null; then
    python3 "$tests/expat_external.py" | diff "$tests/external.txt" - || wrong=$((wrong + 1))
fi
echo "$cases documents, $wrong wrong"
[ "$wrong" -eq 0 ] && [ "$cases" -gt 40 ]
