#!/usr/bin/env bash
# declarations.sh PROGRAM: what expat and libxml2 make of texts of entity declarations in XML 1.0 (tests/declarations.txt), and OpenJDK in XML 1.1
# (tests/declarations_1.1.txt). The program takes and refuses the same, with the same names and texts, but where a line says why not: char, name
# and wide are taken, other is refused by 21. The standard's example, 3.3.3, is read through the table that its declarations give. Where Python has expat and
# there is libxml2, and where there is a Java, the stored lines are compared with what they say now.
set -u
program=$1
tests=$(dirname "$0")
cases=0
wrong=0
declare -A reasons=()

room=$(mktemp -d)
trap 'rm -rf "$room"' EXIT

# The answer in JSON to the text, without declarations that an earlier one shadows. Nothing is started but the program.
ask() { # VERSION
    printf %b "$text" >"$room/text"
    "$program" declarations --json --version "$1" "$room/text" >"$room/answer"
    IFS= read -r answer <"$room/answer"
    [[ $answer != *'"shadowed":true'* ]] ||
        answer=$(sed -E 's/\{"name":"[^"]*","text":"([^"\\]|\\.)*","shadowed":true\},?//g; s/,\]/]/' "$room/answer")
}

judge() { # VERSION VERDICTS REASON DEFINITIONS
    local answer expected
    ask "$1"
    printf -v expected %b "$4"
    cases=$((cases + 1))
    reasons[$3]=$((${reasons[$3]:-0} + 1))
    case $2$3 in
    *other) [[ $answer == *'"number":21,'* ]] && return ;;
    *char | *name | *wide | +*-) [[ $answer == *'"number":0,'*"\"definitions\":$expected}" ]] && return ;;
    *) [[ $answer =~ \"number\":(12|13|14|15|21), ]] && return ;;
    esac
    wrong=$((wrong + 1))
    echo "XML $1: verdict $2, reason $3, $4: $text: $answer"
}

while IFS= read -r line && IFS=$'\t' read -r verdict reason definitions <&3; do
    IFS=$'\x1f' read -r one other older text known <<<"${line//$'\t'/$'\x1f'}"
    judge 1.0 "$one$other" "$older" "$known"
    [ "$definitions" != = ] || definitions=$known
    judge 1.1 "$verdict" "$reason" "$definitions"
done < <(grep -v '^#' "$tests/declarations.txt") 3< <(grep -v '^#' "$tests/declarations_1.1.txt")

example=$room/example
printf '<!ENTITY d "&#xD;">\n<!ENTITY a "&#xA;">\n<!ENTITY da "&#xD;&#xA;">\n' >"$example"
example() { # VALUE NORMALIZED
    cases=$((cases + 1))
    [ "$("$program" normalize --declarations "$example" -- "$1" && echo .)" = "$2." ] && return
    wrong=$((wrong + 1))
    echo "3.3.3: ${1@Q}"
}
example $'\n\nxyz' '  xyz'
example '&d;&d;A&a;&#x20;&a;B&da;' '  A   B  '
example '&#xd;&#xd;A&#xa;&#xa;B&#xd;&#xa;' $'\r\rA\n\nB\r\n'

if python3 -c 'import ctypes.util, xml.parsers.expat; exit(ctypes.util.find_library("xml2") is None)' 2>/dev/null; then
    python3 -B "$tests/parsers_declarations.py" | diff "$tests/declarations.txt" - || wrong=$((wrong + 1))
fi
if command -v java >/dev/null; then
    java "$tests/JdkDeclarations.java" "$tests/declarations.txt" 2>/dev/null | diff "$tests/declarations_1.1.txt" - || wrong=$((wrong + 1))
fi
echo "$cases answers, $wrong wrong; other than the parsers: ${reasons[char]} char, ${reasons[name]} name, ${reasons[other]} other"
[ "$wrong" -eq 0 ] && [ "$cases" -gt 6000 ] && [ "${reasons[char]}" -gt 200 ] && [ "${reasons[name]}" -gt 100 ] && [ "${reasons[other]}" -gt 20 ]
