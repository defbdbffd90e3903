#!/usr/bin/env bash
# The place of a refusal takes no further walk of the library: of a value that is refused each call that walks is made once, and of 16
# the least depth is asked for besides. And
# cli/place.c, which looks for the place, reads a text at a depth once: where every text opens the next one twice, that is the difference
# between a moment and years. Says each case that fails.
set -u
cd "$(dirname "$0")/.." || exit 2
room=$(mktemp -d)
trap 'rm -rf "$room"' EXIT
cases=0
wrong=0
wraps=()
for name in $(sed -n 's/^WRAP(\(govlezna_[a-z_]*\),.*/\1/p' tests/place_calls.c); do wraps+=("-Wl,--wrap=$name"); done
cc -std=c11 -O2 -Wall -Wextra -Werror -Iinclude cli/*.c tests/place_calls.c target/staticlib/libgovlezna.a "${wraps[@]}" -o "$room/program" ||
    exit 2

# finds NUMBER PLACE ARGUMENTS..: refused with this place, by one walk.
finds() {
    local number=$1 place=$2 walks=1
    shift 2
    [ "$number" != 16 ] || walks=2
    rm -f "$room/calls"
    CALLS=$room/calls timeout 60 "$room/program" "$@" </dev/null >"$room/out" 2>"$room/err"
    cases=$((cases + 1))
    [[ $(head -n 1 "$room/err") == "govlezna: refusal $number: "*": $place, line 1" ]] && [ "$(cat "$room/calls")" = "$walks" ] && return
    wrong=$((wrong + 1))
    echo "wrong: $* (walks: $(cat "$room/calls"))" | head -c 300
    head -c 300 "$room/err"
}

repeat() { # COUNT TEXT
    yes "$2" | head -n "$1" | tr -d '\n'
}

# A million openings, then each way to be refused.
repeat 999999 '&e;' >"$room/most"
for last in '10 &b:0..1' '11 &b;:1..2' '12 &#+1;:0..5' '13 &#;:0..3' '15 &#0;:0..4' '27 &x;:0..3' '25 &#1;:0..4' '16 &d;:0..1'; do
    number=${last%% *} text=${last#* }
    from=${text#*:} text=${text%:*}
    start=$((2999997 + ${from%..*})) end=$((2999997 + ${from#*..}))
    place="bytes $start..$end of the text"
    [ $((end - start)) -gt 1 ] || place="byte $start of the text"
    [ "$number" -ne 16 ] || place='byte 0 of the text of the entity d'
    { cat "$room/most"; printf %s "$text"; } >"$room/value"
    finds "$number" "$place" normalize --file "$room/value" --limit 1000000 --strict --entity 'e=p' --entity 'd=&e;' --external x --depth 1
done
{ cat "$room/most"; printf '&e;&e;'; } >"$room/value"
finds 17 'byte 3000000 of the text' normalize --file "$room/value" --limit 1000000 --entity 'e=p&#65;q'
finds 17 'byte 1 of the text of the entity e' canonical --file "$room/value" --limit 999999 --entity 'e=p&f;' --entity f=q
finds 11 'byte 7 of the text' unescape '&amp;p&b;' --entity amp=x
finds 27 'bytes 1..6 of the text' unescape 'p&amp;' --external amp
finds 11 'byte 3 of the text of the entity e' nmtokens 'p &e;' --entity 'e=p &b;'
finds 26 'byte 1 of the text of the entity e' canonical 'p &e;' --entity $'e=p\x01' --strict

# Each text opens the next one twice, 128 times over.
chain=()
for i in {1..127}; do chain+=(--entity "e$i=&e$((i + 1));&e$((i + 1));"); done
chain+=(--entity e128=)
finds 17 'byte 6 of the text of the entity e126' normalize '&e1;' --limit 1000000 "${chain[@]}"
finds 11 'bytes 7..11 of the text' normalize '&e110;&boom;' --limit 1000000 "${chain[@]}"
echo "$cases cases, $wrong wrong"
[ "$wrong" -eq 0 ]
