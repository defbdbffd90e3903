#!/usr/bin/env bash
# characters.sh PROGRAM: which characters OpenJDK's parser takes in attribute values (tests/characters.txt). The program, by --strict,
# takes the same, and refuses the others by the number of how they came; without --strict it takes some of those. Where there is a Java,
# the stored lines are compared with what its parser says now.
set -u
program=$1
tests=$(dirname "$0")
room=$(mktemp -d)
trap 'rm -rf "$room"' EXIT
cases=0
wrong=0
lenient=0

# A marked list of the one name e, whose text is the rest of the pool. A file takes U+0000, which no argument can.
give() { # VALUE TEXT
    local length
    printf %b "$1" >"$room/value"
    printf %b "e$2" >"$room/pool"
    length=$(($(wc -c <"$room/pool") - 1))
    printf '%b' '\x03\x01\x00\x00\x00\x00\x01\x01\x00\x00\x00' "\\x$(printf %x "$length")" '\x00\x00' >"$room/list"
}

number() { # OPTIONS..: 0, or the refusal's
    local answer
    answer=$("$program" normalize --json "$@" --version "$version" --file "$room/value" --table "$room/list" "$room/pool")
    [[ $answer =~ \"number\":([0-9]+) ]] && echo "${BASH_REMATCH[1]}"
}

# The numbers that the program may answer by: raw characters are refused by 26, others by 25, or by what stands before it.
while IFS=$'\t' read -r answer version value entity; do
    give "$value" "${entity#e=}"
    case $answer$value$entity in
    +*) numbers=0 ;;
    *'&#'*) numbers='25 14 15' ;;
    *) numbers=26 ;;
    esac
    found=$(number --strict)
    cases=$((cases + 1))
    [ "$numbers" = 0 ] || [ "$(number)" != 0 ] || lenient=$((lenient + 1))
    [[ " $numbers " = *" $found "* ]] && continue
    wrong=$((wrong + 1))
    echo "OpenJDK's answer is $answer, the program's $found: version $version, $value $entity"
done < <(grep -v '^#' "$tests/characters.txt")
if command -v java >/dev/null; then
    java "$tests/JdkCharacters.java" | diff "$tests/characters.txt" - || wrong=$((wrong + 1))
fi
echo "$cases documents, $wrong wrong; $lenient taken without --strict alone"
[ "$wrong" -eq 0 ] && [ "$cases" -gt 250 ] && [ "$lenient" -gt 50 ]
