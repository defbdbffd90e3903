#!/usr/bin/env bash
# used.sh PROGRAM: the names that reading a value looks up (tests/used.txt, by the harness's own reading of the documents). The program
# lists them in this order, says what each is bound to, and gives the number that the reading ends with.
set -u
program=$1
tests=$(dirname "$0")
room=$(mktemp -d)
trap 'rm -rf "$room"' EXIT
cases=0
wrong=0

write() { # HEXADECIMAL FILE
    local digits=${1#-}
    printf "$(sed 's/../\\x&/g' <<<"$digits")" >"$2"
}

while read -r rule version depth limit text list pool _ number names; do
    options=(--version "$version" --depth "$depth" --limit "$limit")
    [ "$rule" = strict ] && options+=(--strict)
    write "$text" "$room/text"
    write "$list" "$room/list"
    write "$pool" "$room/pool"
    found=$("$program" used --json --file "$room/text" --table "$room/list" "$room/pool" "${options[@]}")
    cases=$((cases + 1))
    [[ $found == '{"command":"used","number":'"$number,"*'"names":'"$names}" ]] && continue
    wrong=$((wrong + 1))
    echo "$number, names $names expected: $found"
    echo "    $rule $version $depth $limit $text $list $pool"
done < <(grep -v '^#' "$tests/used.txt")
echo "$cases values, $wrong wrong"
[ "$wrong" -eq 0 ] && [ "$cases" -gt 300 ]
