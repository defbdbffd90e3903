#!/usr/bin/env bash
# cli.sh PROGRAM: runs the command line program on results, refusals, bad options and bad files. Says each case that fails.
set -u
program=$1
room=$(mktemp -d)
trap 'rm -rf "$room"' EXIT
cases=0
wrong=0
input=/dev/null

run() {
    "$program" "$@" <"$input" >"$room/out" 2>"$room/err"
    status=$?
    cases=$((cases + 1))
}

# expect CONDITION-STATUS ARGUMENTS..: counts a case that went wrong, and shows it.
expect() {
    local good=$1
    shift
    [ "$good" -eq 0 ] && return
    wrong=$((wrong + 1))
    echo "wrong: $program ${*@Q} (status $status)"
    head -c 600 "$room/out"
    head -c 600 "$room/err"
}

# gives RESULT ARGUMENTS..: status 0, these bytes on standard output, nothing on standard error.
gives() {
    local result=$1
    shift
    run "$@"
    [ "$status" -eq 0 ] && printf %s "$result" | cmp -s - "$room/out" && [ ! -s "$room/err" ]
    expect $? "$@"
}

# nulls RESULT ARGUMENTS..: the same, where each . of the result is a zero byte.
nulls() {
    local result=$1
    shift
    run "$@"
    [ "$status" -eq 0 ] && printf %s "$result" | tr . '\0' | cmp -s - "$room/out" && [ ! -s "$room/err" ]
    expect $? "$@"
}

# refuses NUMBER PLACE ARGUMENTS..: status 1, nothing on standard output, the number and the place on standard error; and the
# same number in JSON.
refuses() {
    local number=$1 place=$2
    shift 2
    run "$@"
    [ "$status" -eq 1 ] && [ ! -s "$room/out" ] && [[ $(cat "$room/err") == "govlezna: refusal $number: "*"$place"* ]]
    expect $? "$@"
    run "$1" --json "${@:2}"
    [ "$status" -eq 1 ] && [ ! -s "$room/err" ] && [[ $(cat "$room/out") == "{\"command\":\"$1\",\"number\":$number,"*"}" ]]
    expect $? "$1" --json "${@:2}"
    place_is_the_librarys "$number"
    expect $? "$1" --json "${@:2}"
}

# The place in the last answer in JSON is the library's, where the refusal has one.
place_is_the_librarys() { # NUMBER
    case $1 in
    5 | 10 | 17 | 26 | 27) grep -qE '"first":([0-9]+),.*"start":\1,' "$room/out" ;;
    11) grep -qE '"first":([0-9]+),"second":([0-9]+),.*"start":\1,"end":\2,' "$room/out" ;;
    esac
}

# shows LINES ARGUMENTS..: status 1, exactly these lines on standard error.
shows() {
    local lines=$1
    shift
    run "$@"
    [ "$status" -eq 1 ] && [ ! -s "$room/out" ] && printf '%s\n' "$lines" | cmp -s - "$room/err"
    expect $? "$@"
}

# misused WORDS ARGUMENTS..: status 2, nothing on standard output, the words on standard error.
misused() {
    local words=$1
    shift
    run "$@"
    [ "$status" -eq 2 ] && [ ! -s "$room/out" ] && [[ $(cat "$room/err") == *"$words"* ]]
    expect $? "$@"
}

# lists NUMBER NAMES ARGUMENTS..: the names on standard output; with a number other than 0 also status 1 and the refusal on standard error.
lists() {
    local number=$1 names=$2
    shift 2
    run used "$@"
    [ "$status" -eq $((number != 0)) ] && printf %s "$names" | cmp -s - "$room/out" &&
        if [ "$number" -eq 0 ]; then [ ! -s "$room/err" ]; else [[ $(cat "$room/err") == "govlezna: refusal $number: "* ]]; fi
    expect $? used "$@"
}

# needs DEPTH ARGUMENTS..: the least depth, in JSON too. A value is read alike there and at 128; one less is refused by 16, which says
# what would do.
needs() {
    local depth=$1
    shift
    gives "$depth"$'\n' depth "$@"
    gives "{\"command\":\"depth\",\"number\":0,\"least_depth\":$depth}"$'\n' depth --json "$@"
    run normalize --json "$@"
    cp "$room/out" "$room/deepest"
    run normalize --json "$@" --depth "$depth"
    [ "$status" -eq 0 ] && cmp -s "$room/deepest" "$room/out"
    expect $? normalize --json "$@" --depth "$depth"
    [ "$depth" -gt 0 ] || return
    too_deep "$depth" normalize "$@" --depth $((depth - 1))
}

# too_deep DEPTH COMMAND ARGUMENTS..: refused by 16; the last line says that this depth would do, and JSON too. In the place of a depth
# `none`, or `none N`, where no depth would do, since 128 is refused by another number.
too_deep() {
    local depth=$1 last='no --depth up to 128 would do' field='"least_depth":null,"at_128":'
    shift
    case $depth in
    none) field+=16 ;;
    none*) last+=": with 128 it is refusal ${depth#none }: " field+=${depth#none } ;;
    *) last="--depth $depth would do" field="\"least_depth\":$depth" ;;
    esac
    run "$@"
    [ "$status" -eq 1 ] && [[ $(head -n 1 "$room/err") == 'govlezna: refusal 16: '* ]] &&
        [[ $(tail -n 1 "$room/err") == "govlezna: $last"* ]] &&
        [[ $depth == none\ * || $(tail -n 1 "$room/err") == "govlezna: $last" ]]
    expect $? "$@"
    run "$1" --json "${@:2}"
    [ "$status" -eq 1 ] && [ ! -s "$room/err" ] && grep -qE "\"number\":16,.*$field[,}]" "$room/out"
    expect $? "$1" --json "${@:2}"
}

results() {
    gives 'a&lt;b&gt;&amp;&apos;&quot;&#13;' escape $'a<b>&\'"\r'
    gives '&lt;&gt;"' escape --level 1 '<>"'
    gives "&lt;>'" escape --level=2 "<>'"
    gives 'a&lt;b&#9;&#10;' escape --level 3 $'a<b\t\n'
    gives '' escape ''
    gives $'a&lt;b>&amp;\'&quot;&#xD;&#xA;&#x9;' c14n --attribute $'a<b>&\'"\r\n\t'
    gives $'a&lt;b&gt;&amp;\'"&#xD;\n\t' c14n --text $'a<b>&\'"\r\n\t'
    gives '' c14n --text ''
    gives 'AA<½' unescape '&#x41;&#65;&lt;&#xBD;'
    gives 'X sail ' unescape '&amp; &e; ' --entity amp=X --entity e=sail --entity e=boom
    gives $'& sail a\t' normalize $'&amp;\t&e;&#9;' --entity amp=X --entity 'e=sail&#x20;a'
    gives 'Panel Großsegel &lt;3&gt;' canonical 'Panel &sail; <3>' --entity sail='Gro&#xDF;segel'
    gives 'a&#133;b' canonical 'a&#x85;b' --version 1.1
    gives $'a\xC2\x85b' canonical 'a&#x85;b' --version 1.0
    gives 'a b' normalize 'a b' --depth 0
    gives 'xx' normalize '&a;' --entity 'a=&b;&b;' --entity b=x --depth 2 --limit 3
    gives 'x' normalize '&e;' --entity e=x --external e
    gives '&' normalize '&amp;' --external amp
    gives 'ab' normalize 'a&e;b' --entity e= --entity 'never=&f;' --external f
    gives '  A   B ' normalize '&d;&d;A&a;&#x20;&a;B&da;' --entity d=$'\r' --entity a=$'\n' --entity da=$'\r\n'
    gives '  A   B  ' normalize '&d;&d;A&a;&#x20;&a;B&da;' --marked --entity d=$'\r' --entity a=$'\n' --entity da=$'\r\n'
    gives $'½ \xC2\x85\xE2\x80\xA8' normalize '&h;&n;' --entity h=½ --entity $'n=\t\xC2\x85\xE2\x80\xA8' --version 1.1 --marked --depth 2
    gives ½ normalize '&h;' --entity h=½ --version 1.1 --marked --depth 1
    gives ' ' normalize '&n;' --entity $'n=\xC2\x85' --version 1.1
    gives 'a b  ' normalize $'a\r\nb&e;' --marked --entity $'e=\r\n'
    gives '  ' normalize '&a;' --marked --entity 'a=&e;' --entity $'e=\r\n'
    gives '&#133;  ' canonical '&e;' --marked --entity $'e=\xC2\x85\r\n' --version 1.1
    gives $'a\x01 ' normalize $'a&#1;\t' --strict --version 1.1
    gives $'\x7F' normalize $'\x7F' --strict
    gives $'\x7F\x01' normalize '&e;' --strict --version 1.1 --entity $'e=\x7F\x01'
    gives $'\xC2\x80' normalize '&e;' --strict --version 1.1 --entity $'e=\xC2\x80' --marked --depth 1
    gives x normalize $'&\x01;' --strict --entity $'\x01=x'
    gives '  ' normalize $'\xC2\x85\xE2\x80\xA8' --strict --version 1.1
    gives $'\x01' normalize $'\x01'
    gives $'&lt;\x01' canonical '<&#1;' --strict --version 1.1
    gives 'p1 p2' nmtokens $'  p1 \t p2\n'
    gives $'p1 p2\np3' nmtokens ' p1  p2&#10;p3 '
    gives $'p1\np2\\u0009q\np3\n' nmtokens --lines ' p1  p2&#9;q &e;' --entity 'e=  p3 '
    gives $'p1\\u000a\\u000dp2\n\\\\u000a\n' nmtokens --lines 'p1&#10;&#13;p2 \u000a'
    gives $'\\u0001\\u007f\\u0085\\u009f\\u2028\\u2029\\ufffe\xC2\xA0ß€𝄞\n' nmtokens --lines '&#1;&#x7F;&#x85;&#x9F;&#x2028;&#x2029;&#xFFFE;&#xA0;ß€𝄞'
    nulls $'p1\n\\\x01.p2.' nmtokens --null 'p1&#10;\&#1;  p2'
    nulls $'a.b.' nmtokens --null --lines 'a b'
    gives '' nmtokens --null ' '
    gives '' nmtokens --lines $' \t '
    gives '' nmtokens ''
    gives 'A B' nmtokens '&d;&d;A&a;&#x20;&a;B&da;' --marked --entity d=$'\r' --entity a=$'\n' --entity da=$'\r\n'
    gives 'a b' nmtokens $'a\xC2\x85\xE2\x80\xA8b' --version 1.1
    gives $'\xC2\xA0 \xE3\x80\x80' nmtokens $' \xC2\xA0  \xE3\x80\x80'
    gives $'\r\n\t' unescape '&e;' --marked --entity $'e=\r\n\t'
    gives $'a\nb\nc' eols $'a\r\nb\rc'
    gives $'\n' eols $'\r\xC2\x85' --version 2
    gives 'a b' trim $' \t a b\r\n'
    gives 'a  ' trim --start '  a  '
    gives '  a' trim --end '  a  '
    gives '' trim '   '
    gives '<![CDATA[]]]]><![CDATA[>]]]]><![CDATA[>]]>' cdata ']]>]]>'
    gives '<![CDATA[]]>' cdata ''
    gives $'UTF-8, 3 bytes\n' check 'aß'
    gives $'UTF-8, 1 bytes\ntable valid, 2 definitions\n' check a --entity a=b --entity c=
    gives $'UTF-8, 1 bytes\ntable valid, 3 definitions\n' check a --external a --entity b=c --external b
    gives $'UTF-8, 1 bytes\ntable valid, 2 definitions\n' check a --marked --external a --entity b=c
    gives $'UTF-8, 1 bytes\ntable valid, 0 definitions\n' check a --marked
    gives '--level' escape -- --level
    gives '-' escape -- -
}

# The names that reading a value asks the table for: those of replacement texts too, each once, and none after a refusal.
names() {
    local nested=(--entity 'e=&f;x' --entity 'f=&lt;' --entity f= --external g)
    lists 0 '' 'a b'
    lists 0 '' '&amp;&#65;' --entity amp=X
    lists 0 $'e: text\nf: text\nlt: predefined\n' '&e;&f;&e;&lt;' "${nested[@]}"
    lists 0 $'e: text\nf: text\nlt: predefined\n' '&e;' "${nested[@]}" --marked --strict --version 1.1
    lists 0 $'panel: text\nsail: text\nlt: predefined\n' 'Panel &panel; &lt;3>' --entity 'panel=&sail; top' --entity sail=Fock --entity boom=Baum
    lists 0 $'lt: text\n' '&lt;' --entity lt=x
    lists 11 $'e: text\nf: text\nlt: predefined\nu: unknown\n' '&e;&u;&gt;' "${nested[@]}"
    lists 11 $': unknown\n' '&;&lt;'
    lists 11 $'a&b: unknown\n' '&a&b;'
    lists 27 $'g: external\n' '&g;&e;' "${nested[@]}"
    lists 27 $'f: text\na: text\ng: external\n' '&f;&a;&e;' --entity 'a=x&g;' --entity f= --external g
    lists 17 $'e: text\n' '&e;&gt;' "${nested[@]}" --limit 0
    lists 17 $'e: text\nf: text\n' '&e;&gt;' "${nested[@]}" --limit 1
    lists 17 $'gt: predefined\ne: text\nf: text\nlt: predefined\n' '&gt;&e;&e;&apos;' "${nested[@]}" --limit 3
    lists 16 $'e: text\n' '&e;&gt;' "${nested[@]}" --depth 1
    lists 16 '' '&e;' "${nested[@]}" --depth 0
    lists 10 $'lt: predefined\n' '&lt;&e' "${nested[@]}"
    lists 15 $'lt: predefined\n' '&lt;&#0;&e;' "${nested[@]}"
    lists 25 $'lt: predefined\n' '&lt;&#1;&e;' "${nested[@]}" --strict
    lists 26 $'lt: predefined\n' $'&lt;\x01&e;' "${nested[@]}" --strict
    lists 26 $'h: text\ngt: predefined\n' '&h;&e;' --entity $'h=&gt;\x01&lt;' --strict
    lists 26 $'h: text\n' '&h;&e;' --entity $'h=\x01&lt;' --strict --depth 1
    lists 2 '' '&e;' --entity e=x --depth 129
    lists 9 '' '&e;' --entity =x
    lists 0 $'a?b: text\n' $'&a\nb;' --entity $'a\nb=x'
    lists 0 $'a: text\n' '&a;' --entity "a=$(printf '%065535d' 0)"
}

# chain COUNT LAST: options for entities n1, n2 .., of which each has a reference to the next for its text, and the last this text.
chain() {
    local i
    options=()
    for ((i = 1; i < $1; i++)); do
        options+=(--entity "n$i=&n$((i + 1));")
    done
    options+=(--entity "n$1=$2")
}

depths() {
    local command
    needs 0 ''
    needs 0 'a b'
    needs 0 ½
    needs 1 '&lt;'
    needs 1 '&amp;&#9;' --entity 'amp=&lt;'
    needs 1 $'a\tb' --version 1.1
    needs 1 ½ --version 1.1
    needs 1 ½ --version 1.1 --marked
    needs 1 '&e;' --entity e=x --external f
    needs 2 '&e;' --entity 'e=&f;' --entity f=x
    needs 2 '&lt;' --entity $'lt=\t'
    needs 1 '&e;' --entity e=½
    needs 2 '&e;' --entity e=½ --version 1.1
    needs 1 '&e;' --entity e=½ --version 1.1 --marked
    needs 2 '&a;&x;&b;' --entity 'a=&d;' --entity d=y --entity x=z --entity 'b=&x;'
    needs 3 '&a;&b;&lt;' --entity 'a=&b;&c;' --entity b=x --entity 'c=&b;'
    needs 2 '&e;' --entity 'e=&f;' --entity f=x --limit 2
    refuses 17 ': byte 0 of the text of the entity e' depth '&e;' --entity 'e=&f;' --entity f=x --limit 1
    refuses 17 ': byte 0 of the text of the entity e' depth '&e;' --entity 'e=&e;' --limit 2
    refuses 32 'no depth up to 128 is enough: byte 1 of the text of the entity e' depth '&e;' --entity 'e=x&e;' --limit 1000000
    chain 128 x
    needs 128 '&n1;' "${options[@]}"
    chain 129 x
    refuses 32 ': byte 0 of the text of the entity n128' depth 'a &n1;' "${options[@]}"
    too_deep none normalize '&n1;' "${options[@]}"
    chain 127 'a&u;'
    refuses 11 ': byte 2 of the text of the entity n127' depth '&n1;' "${options[@]}"
    too_deep 'none 11' normalize '&n1;' "${options[@]}" --depth 127
    chain 128 'a&u;'
    refuses 32 ': byte 1 of the text of the entity n128' depth '&n1;' "${options[@]}"
    refuses 3 '' depth a --limit 1000001
    refuses 4 '' depth a --version 3
    refuses 9 ': --entity number 1' depth a --entity =x
    refuses 27 ': bytes 2..5 of the text' depth 'a &e;' --external e
    refuses 13 ': bytes 1..4 of the text of the entity e' depth 'a &e;' --entity 'e=x&#;' --marked
    for command in normalize canonical nmtokens used 'normalize --strict' 'canonical --strict --version 1.1'; do
        too_deep 2 $command '&e;b' --entity $'e=a\t' --depth 0
        too_deep none $command '&e;' --entity 'e=&e;' --depth 1
        too_deep 'none 17' $command '&e;' --entity 'e=&e;' --depth 1 --limit 3
    done
    too_deep 'none 26' normalize $'\t\x01' --strict --depth 0
    too_deep 'none 26' used $'&e;\x01&u;' --entity e=½ --strict --version 1.1 --depth 1
    too_deep 3 canonical '&e;&f;' --strict --entity $'e=\t' --entity 'f=&e;' --depth 1
    shows 'govlezna: refusal 16: the depth is used up: byte 5 of the text of the entity sail, line 1
    Fock &lt;3>
         ^
govlezna: opened from byte 6 of the text, line 1
    Panel &sail;
          ^
govlezna: --depth 2 would do' normalize 'Panel &sail;' --entity 'sail=Fock &lt;3>' --depth 1
    shows 'govlezna: refusal 32: no depth up to 128 is enough: byte 2 of the text of the entity e, line 1
    x &e;
      ^
govlezna: opened from byte 1 of the text, line 1
    a&e;
     ^' depth 'a&e;' --entity 'e=x &e;'
}

json() {
    gives '{"command":"used","number":0,"names":[{"name":"e","bound":"text"},{"name":"lt","bound":"predefined"}]}'$'\n' \
        used --json '&e;' --entity 'e=&lt;'
    gives '{"command":"used","number":0,"names":[]}'$'\n' used --json ''
    run used --json $'&e;&"\n;' --entity e=
    [ "$status" -eq 1 ] && [ ! -s "$room/err" ] && [ "$(cat "$room/out")" = '{"command":"used","number":11,"words":"unknown entity","first":4,"second":6,"start":4,"end":6,"line":1,"names":[{"name":"e","bound":"text"},{"name":"\"\u000a","bound":"unknown"}]}' ]
    expect $? used --json unknown
    gives '{"command":"escape","number":0,"length":4,"result":"&lt;"}'$'\n' escape --json '<'
    gives '{"command":"c14n","number":0,"length":5,"result":"&#xD;"}'$'\n' c14n --text --json $'\r'
    gives '{"command":"unescape","number":0,"length":4,"result":"\"\\\u000a\u007f"}'$'\n' unescape --json $'"\\\n\x7F'
    gives '{"command":"canonical","number":0,"length":4,"openings":1,"result":"sail"}'$'\n' canonical '&e;' --entity e=sail --json
    gives '{"command":"trim","number":0,"start":1,"length":1,"result":"a"}'$'\n' trim --json ' a '
    gives '{"command":"cdata","number":0,"pieces":[[0,2],[2,3],[5,1]]}'$'\n' cdata --json ']]>]]>'
    gives '{"command":"check","number":0,"length":0,"definitions":0}'$'\n' check --json ''
    gives '{"command":"check","number":0,"length":0,"definitions":1}'$'\n' check --json --marked --entity e=x ''
    gives '{"command":"normalize","number":0,"length":2,"openings":1,"result":"  "}'$'\n' normalize --json '&e;' --marked --entity $'e=\r\n'
    gives '{"command":"normalize","number":0,"length":1,"openings":0,"result":"\u0001"}'$'\n' normalize --json '&#1;' --strict --version 1.1
    gives '{"command":"nmtokens","number":0,"length":5,"openings":1,"tokens":[[0,1],[2,3]],"result":"a b\u000ac"}'$'\n' \
        nmtokens --json ' a &e;' --entity 'e= b&#10;c'
    gives '{"command":"nmtokens","number":0,"length":0,"openings":0,"tokens":[],"result":""}'$'\n' nmtokens --json '  '
    run canonical --json 'x &e;' --strict --version 1.1 --entity $'e=\x01\r\n\xEF\xBF\xBE'
    [ "$status" -eq 1 ] && [ "$(cat "$room/out")" = '{"command":"canonical","number":26,"words":"a character that may not stand here in this version of XML","first":3,"second":0,"entity":"e","opened":2,"start":3,"end":6,"line":2,"character":"U+FFFE"}' ]
    expect $? canonical --json strict
    run normalize --json 'x&#xFFFE;' --strict
    [ "$status" -eq 1 ] && [ "$(cat "$room/out")" = '{"command":"normalize","number":25,"words":"a reference to a character that this version of XML does not allow","first":0,"second":0,"start":1,"end":9,"line":1,"character":"U+FFFE"}' ]
    expect $? normalize --json strict
    run check --json a --external a --entity b=c --entity =d
    [ "$status" -eq 1 ] && [ "$(cat "$room/out")" = '{"command":"check","number":9,"words":"a definition with an empty name, or with a name or text that is not UTF-8","first":18,"second":0,"option":"--entity","occurrence":2}' ]
    expect $? check --json names the option
    run normalize --json 'x &e;' --entity $'e=\r\n\r&b;'
    [ "$status" -eq 1 ] && [ "$(cat "$room/out")" = '{"command":"normalize","number":11,"words":"unknown entity","first":4,"second":5,"entity":"e","opened":2,"start":4,"end":5,"line":3}' ]
    expect $? normalize --json nested
}

refusals() {
    refuses 2 ': --depth 129' normalize a --depth 129
    refuses 2 ': --depth 18446744073709551615' canonical a --depth 18446744073709551615
    refuses 3 ': --limit 1000001' canonical a --limit 1000001
    refuses 4 ': --level 4, expected 0, 1, 2 or 3' escape a --level 4
    refuses 4 ': --version 3, expected 1.0 or 1.1' eols a --version 3
    refuses 4 ': --version 255, expected 1.0 or 1.1' normalize a --version=255
    for command in escape unescape normalize canonical nmtokens eols trim cdata check used depth; do
        refuses 5 ': byte 1 of the text, line 1' "$command" $'a\xFF'
    done
    refuses 5 ': byte 1 of the text, line 1' c14n $'a\xFF' --attribute
    refuses 5 ': byte 1 of the text, line 1' c14n $'a\xFF' --text
    refuses 9 ': --entity number 2' unescape a --entity a=b --entity =c
    refuses 9 ': --entity number 1' check a --entity $'a=\xFF'
    refuses 9 ': --external number 1' check a --entity a=b --external ''
    refuses 9 ': --entity number 2' check a --entity a=b --external c --external d --entity =e
    refuses 9 ': --entity number 2' check a --marked --entity a=b --external c --external d --entity =e
    refuses 9 ': --external number 1' check a --external '' --marked
    refuses 10 ': byte 2 of the text' unescape 'a &b'
    refuses 10 ': byte 0 of the text' unescape '&a&b;'
    refuses 11 ': bytes 1..4 of the text' normalize '&a&b;'
    refuses 11 ': byte 1 of the text' unescape '&;'
    for before in 0 1 2 3 4 5 6 7; do
        text=$(printf '&lt;%.0s' $(seq "$before"))
        [ "$before" -gt 0 ] || text=
        refuses 11 ": byte $((4 * before + 1)) of the text" unescape "$text&x;&y;&gt;&gt;"
        refuses 13 ": bytes $((4 * before))..$((4 * before + 3))" normalize "$text&#;&y;&gt;"
    done
    refuses 12 ': bytes 0..5' unescape '&#+1;'
    refuses 13 ': bytes 4..10' normalize '&lt;&#X41;'
    refuses 14 ', 55296: bytes 0..8' unescape '&#xD800;'
    refuses 15 ': bytes 1..5' canonical 'a&#0;'
    refuses 16 ': byte 1 of the text' normalize $'a\t' --depth 0
    refuses 16 ': byte 0 of the text of the entity e' normalize '&e;' --version 2 --entity e=½ --depth 1
    refuses 16 ': byte 3 of the text of the entity e' normalize '&e;' --version 2 --marked --entity $'e=½a\t' --depth 1
    refuses 16 ': byte 0 of the text' normalize ½ --version 2 --marked --depth 0
    refuses 11 ': byte 4 of the text of the entity e' normalize '&e;' --version 2 --marked --entity $'e=½\r&b;' --depth 2
    refuses 17 ': byte 0 of the text of the entity e' normalize '&e;' --marked --entity 'e=&e;' --limit 2 --depth 3
    refuses 17 ': byte 0 of the text' normalize '&e;' --entity e=½ --limit 0
    refuses 17 ': byte 0 of the text of the entity e' normalize '&e;' --entity 'e=&e;' --limit 2 --depth 3
    refuses 17 ': byte 5 of the text' normalize 'a &e;&e;' --entity 'e=&f;' --entity f=x --limit 2
    refuses 27 ': bytes 2..5 of the text' normalize 'a &e; b' --external e --entity e=x
    refuses 27 ': bytes 2..5 of the text' canonical 'a &e; b' --external e --limit 0
    refuses 27 ': bytes 0..5 of the text' unescape '&amp;' --external amp
    refuses 27 ': bytes 0..4 of the text' normalize '&lt;' --external lt
    refuses 27 ': bytes 2..5 of the text' nmtokens 'a &e;' --external e
    refuses 11 ': byte 3 of the text of the entity e' nmtokens 'a &e;' --entity 'e=b &f;'
    refuses 17 ': byte 0 of the text' nmtokens '&e;' --entity e=b --limit 0
    refuses 4 '' nmtokens a --version 3
    refuses 27 ': bytes 1..4 of the text of the entity a' normalize 'q &a;' --entity 'a=x&e;' --external e
    refuses 16 ': byte 0 of the text' normalize '&e;' --external e --depth 0
    strict_refusals
}

strict_refusals() {
    local before
    refuses 26 ', U+0001: byte 0 of the text' normalize $'\x01\t' --strict --depth 0
    refuses 16 ': byte 0 of the text' normalize $'\t\x01' --strict --depth 0
    refuses 26 ', U+0080: bytes 1..3 of the text' normalize $'\r\xC2\x80' --strict --version 1.1
    refuses 26 ', U+FFFF: bytes 2..5 of the text' canonical $'é\xEF\xBF\xBFa' --strict
    refuses 11 ': byte 1 of the text' normalize $'&\x01;' --strict
    refuses 10 ': byte 0 of the text' normalize $'&\x01' --strict
    refuses 25 ', U+0001: bytes 1..5 of the text' normalize 'a&#1;' --strict
    refuses 25 ', U+FFFF: bytes 0..8 of the text' normalize '&#65535;' --strict --version 1.1
    refuses 15 ': bytes 0..4 of the text' normalize '&#0;' --strict
    refuses 16 ': byte 0 of the text of the entity e' normalize '&e;' --strict --version 1.1 --entity $'e=\xC2\x80' --depth 1
    for before in '' '&lt;' '&lt;&a;' '&a;&gt;&a;' '&a;&a;&amp;&a;'; do
        refuses 26 ", U+0001: byte $((${#before} + 1)) of the text" normalize "$before"$'x\x01&a;\x01&#1;' --strict --entity a=b
        refuses 25 ", U+0008: bytes ${#before}..$((${#before} + 4)) of the text" normalize "$before"$'&#8;&a;\x01' --strict --entity a=b
        refuses 26 ', U+000B: byte 2 of the text of the entity e' normalize "$before"$'&e;\x01' --strict --entity a=b --entity $'e=é\x0B'
        refuses 26 ', U+FFFE: bytes 3..6 of the text of the entity f' normalize "$before"'x&e;&f;' --strict --version 1.1 \
            --entity $'a=\x01' --entity $'e=\x7F&f;\xEF\xBF\xBE' --entity $'f=\x01\xC2\x80\xEF\xBF\xBE'
        refuses 25 ', U+FFFE: bytes 4..12 of the text of the entity f' canonical "$before"'x&e;&f;' --strict --version 1.1 \
            --entity $'a=\x01' --entity $'e=\x7F&\x01;&f;\xEF\xBF\xBE' --entity $'f=\x01\xC2\x80a&#xFFFE;' --entity $'\x01=\x02'
    done
    shows 'govlezna: refusal 26: a character that may not stand here in this version of XML, U+0007: byte 5 of the text of the entity sail, line 1
    Fock ? top
         ^
govlezna: opened from byte 6 of the text, line 1
    Panel &sail;
          ^' normalize 'Panel &sail;' --strict --entity $'sail=Fock \x07 top'
}

# The line and the carets: below entities, on a later line, in a long line, under characters of several bytes.
places() {
    shows 'govlezna: refusal 11: unknown entity: bytes 3..7 of the text of the entity sail, line 1
    a &boom; b
       ^^^^
govlezna: opened from byte 5 of the text, line 2
    ab &panel; c
       ^' normalize $'x\nab &panel; c' --entity 'panel=&sail;' --entity 'sail=a &boom; b'
    shows 'govlezna: refusal 27: the entity is external: it has no text here, and may not stand in an attribute value: bytes 4..10 of the text, line 1
    Cut &plan; here
        ^^^^^^' normalize 'Cut &plan; here' --external plan
    shows 'govlezna: refusal 10: no ; after &: byte 6 of the text, line 2
     ß?&c
       ^' unescape $'\r\n\tß\x01&c'
    shows "govlezna: refusal 5: the text is not UTF-8: byte 80 of the text, line 1
    ...$(printf 'b%.0s' {1..50})?$(printf 'c%.0s' {1..25})...
       $(printf ' %.0s' {1..50})^" trim "$(printf 'b%.0s' {1..80})"$'\xFF'"$(printf 'c%.0s' {1..80})"
}

# Carets stand by columns: under wide characters two, under combining ones none, whatever the locale.
carets() {
    local locale
    for locale in C C.UTF-8; do
        LC_ALL=$locale shows 'govlezna: refusal 11: unknown entity: bytes 7..11 of the text, line 1
    漢字&帆b;
         ^^^' normalize '漢字&帆b;'
        LC_ALL=$locale shows $'govlezna: refusal 11: unknown entity: byte 8 of the text, line 1
    e\xCC\x81\xE2\x80\x8Dx&b; a
       ^' normalize $'e\xCC\x81\xE2\x80\x8Dx&b; a'
    done
    shows $'govlezna: refusal 10: no ; after &: byte 22 of the text, line 1
    Ａｱ👍か\xE3\x82\x99\xE1\x84\x80\xE1\x85\xA1&b
             ^' unescape $'Ａｱ👍か\xE3\x82\x99\xE1\x84\x80\xE1\x85\xA1&b'
    shows "govlezna: refusal 10: no ; after &: byte 240 of the text, line 1
    ...$(printf '漢%.0s' {1..25})&$(printf '字%.0s' {1..13})...
       $(printf '  %.0s' {1..25})^" unescape "$(printf '漢%.0s' {1..80})&$(printf '字%.0s' {1..80})"
    shows "govlezna: refusal 10: no ; after &: byte 200 of the text, line 1
    ...$(printf '\xCC\x81%.0s' {1..50})&$(printf '\xCC\x81%.0s' {1..25})...
       ^" unescape "$(printf '\xCC\x81%.0s' {1..100})&$(printf '\xCC\x81%.0s' {1..100})"
}

bytes() { # COUNT FILE
    head -c "$1" /dev/zero | tr '\0' a >"$2"
}

files() {
    printf 'a<b' >"$room/text"
    printf '\1\0\0\0\0\1\1\0\0\0\4\0\0' >"$room/list"
    printf esail >"$room/pool"
    gives 'a&lt;b' escape --file "$room/text"
    input=$room/text
    gives 'a&lt;b' escape
    gives 'a&lt;b' escape --file -
    gives 'a&lt;b' escape -
    input=/dev/null
    line_ends_dropped
    gives 'sail' unescape '&e;' --table "$room/list" "$room/pool"
    gives $'UTF-8, 0 bytes\ntable valid, 1 definitions\n' check --table "$room/list" "$room/pool"
    refuses 7 ': byte 0 of the list' check a --table "$room/text" "$room/pool"
    head -c 12 "$room/list" >"$room/cut"
    refuses 7 ': byte 12 of the list' check a --table "$room/cut" "$room/pool"
    refuses 8 ': byte 0 of the list' unescape a --table "$room/list" "$room/text"
    printf '\2\0\0\0\0\1\0' >"$room/list"
    refuses 27 ': bytes 1..4 of the text' unescape 'a&e;' --table "$room/list" "$room/pool"
    head -c 3 "$room/list" >"$room/cut"
    refuses 7 ': byte 0 of the list' check a --table "$room/cut" "$room/pool"
    printf '\3\1\0\0\0\0\1\1\0\0\0\4\0\0' >"$room/list"
    gives 'sail' unescape '&e;' --table "$room/list" "$room/pool"
    gives $'UTF-8, 0 bytes\ntable valid, 1 definitions\n' check --table "$room/list" "$room/pool"
    printf 'e\r\n\r\n' >"$room/pool"
    gives '    ' normalize '&e;' --table "$room/list" "$room/pool"
    printf 'e\n&b;' >"$room/pool"
    refuses 11 ': byte 2 of the text of the entity e' normalize '&e;' --table "$room/list" "$room/pool"
    refuses 8 ': byte 1 of the list' check a --table "$room/list" "$room/text"
    head -c 13 "$room/list" >"$room/cut"
    refuses 7 ': byte 13 of the list' check a --table "$room/cut" "$room/pool"
    printf '\3' >"$room/cut"
    refuses 7 ': byte 1 of the list' check a --table "$room/cut" "$room/pool"
    printf '\3\3\0' >"$room/cut"
    refuses 7 ': byte 1 of the list' normalize a --table "$room/cut" "$room/pool"
    printf '\1\0\0\0\0\1\1\0\0\0\4\0\3\0' >"$room/cut"
    refuses 7 ': byte 12 of the list' canonical a --table "$room/cut" "$room/pool"
    printf 'a\0b' >"$room/zero"
    gives '{"command":"normalize","number":0,"length":3,"openings":0,"result":"a\u0000b"}'$'\n' normalize --json --file "$room/zero"
    refuses 26 ', U+0000: byte 1 of the text' normalize --file "$room/zero" --strict
    printf '\1\0\0\0\0\1\1\0\0\0\4\0\0' >"$room/list"
    printf 'eab\0c' >"$room/pool"
    refuses 26 ', U+0000: byte 2 of the text of the entity e' normalize 'x&e;' --table "$room/list" "$room/pool" --strict --version 1.1
    misused "$room/none: No such file" escape --file "$room/none"
    misused "$room/none: No such file" unescape a --table "$room/list" "$room/none"
    misused "$room: Is a directory" escape --file "$room"
    full_disk escape a
    full_disk --help
    full_disk --about
}

# One line end at the end of a file or of standard input, and none of an argument; nothing of a text that is too long.
line_ends_dropped() {
    local end
    for end in '' '\n' '\r\n' '\r'; do
        printf "name$end" >"$room/line"
        gives name escape --chomp --file "$room/line"
        input=$room/line
        gives name escape --chomp
        gives name escape - --chomp
        input=/dev/null
        printf "name\n$end" >"$room/line"
        [ -z "$end" ] || gives $'name\n' escape --chomp --file "$room/line" --level 1
    done
    printf 'name\n' >"$room/line"
    gives 'name&#10;' escape --level 3 --file "$room/line"
    gives '' escape --chomp --file /dev/null
    misused '--chomp: the text is no file' escape --chomp a
    misused '--chomp: the text is no file' escape --chomp -- -
    bytes 16777216 "$room/line"
    printf '\r\n' >>"$room/line"
    gives $'UTF-8, 16777216 bytes\n' check --chomp --file "$room/line"
    refuses 1 'over 16,777,216 bytes' check --file "$room/line"
    printf b >>"$room/line"
    refuses 1 'over 16,777,216 bytes' check --chomp --file "$room/line"
    bytes 16777216 "$room/line"
    printf '\nb' >>"$room/line"
    refuses 1 'over 16,777,216 bytes' check --chomp --file "$room/line"
}

# Files of declarations: their tables in words, values read through them, and faults, whose place is that in the file.
declarations() {
    local office=$room/office.ent faulty=$room/faulty.ent
    printf '<!ENTITY maker "Gro&#xDF;">\r\n<!ENTITY sail \x27Fock\r\nof &maker;\x27>\n<!ENTITY maker "other"><!ENTITY two\r"&#xD;&#xA;&#38;" >' >"$office"
    gives $'maker = Groß\nsail = Fock<U+000A>of &maker;\nmaker = other (shadowed)\ntwo = <U+000D><U+000A>&\n' declarations "$office"
    gives '{"command":"declarations","number":0,"list":50,"pool":45,"definitions":[{"name":"maker","text":"Groß","shadowed":false},{"name":"sail","text":"Fock\u000aof &maker;","shadowed":false},{"name":"maker","text":"other","shadowed":true},{"name":"two","text":"\u000d\u000a&","shadowed":false}]}'$'\n' \
        declarations --json "$office"
    input=$office
    gives $'maker = Groß\nsail = Fock<U+000A>of &maker;\nmaker = other (shadowed)\ntwo = <U+000D><U+000A>&\n' declarations
    gives 'Groß' unescape '&maker;' --declarations -
    input=/dev/null
    gives '' declarations
    gives '{"command":"declarations","number":0,"list":2,"pool":0,"definitions":[]}'$'\n' declarations --json
    gives 'x Fock of Groß' normalize 'x &sail;' --declarations "$office"
    gives 'Fock of Groß&#9;' canonical '&sail;&#9;' --declarations="$office"
    gives $'Fock\nof\nGroß\n' nmtokens --lines ' &sail; ' --declarations "$office"
    gives $'Fock\nof &maker;' unescape '&sail;' --declarations "$office"
    gives $'UTF-8, 1 bytes\ntable valid, 4 definitions\n' check a --declarations "$office"
    lists 0 $'sail: text\nmaker: text\n' '&sail;' --declarations "$office"
    refuses 10 ': byte 2 of the text of the entity two' normalize 'a&two;' --declarations "$office"
    refuses 11 ': bytes 1..5 of the text, line 1' normalize '&boom;' --declarations "$office"
    # The line ends of the version, in every command.
    printf '<!ENTITY\xC2\x85a "x\xE2\x80\xA8\r\xC2\x85y">' >"$office"
    gives $'a = x<U+000A><U+000A>y\n' declarations --version 1.1 "$office"
    gives $'x\n\ny' unescape '&a;' --declarations "$office" --version 2
    gives $'UTF-8, 0 bytes\ntable valid, 1 definitions\n' check '' --declarations "$office" --version 1.1
    gives 'x  y' normalize '&a;' --declarations "$office" --version 1.1
    shows "govlezna: refusal 21: not of the form <!ENTITY name 'text'>: bytes 8..10 of $office, line 1
    <!ENTITY?a \"x?
            ^" declarations "$office"
    refuses 4 '' declarations "$office" --version 3
    declaration_faults "$office"
}

# fault NUMBER PLACE BYTES: of a file with these bytes, as printf has them, by the command and by the option, which answers before the text.
fault() {
    printf "$3" >"$faulty"
    refuses "$1" "${2//FILE/$faulty}" declarations "$faulty" "${@:4}"
    refuses "$1" "${2//FILE/$faulty}" unescape $'\xFF' --declarations "$faulty" "${@:4}"
    lists "$1" '' '&lt;' --declarations "$faulty" "${@:4}"
}

declaration_faults() { # FILE
    local faulty=$1 name
    fault 21 ': the end of FILE, line 1' '<!ENTITY a "x"'
    fault 21 ': the end of FILE, line 2' '<!ENTITY a "x"\n'
    fault 21 ': byte 14 of FILE, line 2' '<!ENTITY a\r\n"x%%">'
    fault 21 ': byte 17 of FILE, line 5' '<!ENTITY a\r\r\n\n"\r\n%%">'
    fault 21 ': byte 17 of FILE, line 2' '<!ENTITY a "\xC2\x85\r\xC2\x85%%">' --version 1.1
    fault 21 ': byte 17 of FILE, line 1' '<!ENTITY a "\xC2\x85\xE2\x80\xA8%%">' --version 1.1
    fault 21 ': bytes 8..10 of FILE, line 1' '<!ENTITYß "x">'
    fault 21 ': byte 0 of FILE, line 1' 'a'
    fault 21 ': bytes 0..3 of FILE, line 1' '\xEF\xBB\xBF<!ENTITY a "x">'
    fault 21 ': byte 11 of FILE, line 1' '<!ENTITY a SYSTEM "x">'
    fault 21 ': byte 15 of FILE, line 1' "<!ENTITY a '' >>"
    fault 5 ': byte 13 of FILE, line 2' '<!ENTITY a\n"x\xFF">'
    fault 12 ': bytes 16..21 of FILE, line 2' '<!ENTITY a\r\n"&a;&#+1;">'
    fault 13 ': bytes 18..27 of FILE, line 1' '<!ENTITY a "&#65;;&#1\r\n&#2;&#0;">'
    fault 14 ', 55296: bytes 21..29 of FILE, line 1' '<!ENTITY a "ß;&é;ß&#xD800;">'
    fault 15 ': bytes 38..42 of FILE, line 2' '<!ENTITY a "&#65;&b;"><!ENTITY b\n"ßß&#0;&#0;">'
    name=$(printf 'n%.0s' {1..256})
    fault 22 ': byte 265 of FILE, line 1' "<!ENTITY $name ''>"
    fault 21 ': byte 265 of FILE, line 1' "<!ENTITY $name''>"
    bytes 65536 "$room/value"
    { printf '<!ENTITY a "'; cat "$room/value"; printf '">'; } >"$faulty"
    refuses 22 ": byte 65548 of $faulty, line 1" declarations "$faulty"
    for name in {1..4096}; do echo "<!ENTITY a$name ''>"; done >"$faulty"
    gives $'UTF-8, 0 bytes\ntable valid, 4096 definitions\n' check --declarations "$faulty"
    echo '<' >>"$faulty"
    refuses 22 "of $faulty, line 4097" declarations "$faulty"
    bytes 65535 "$room/value"
    for name in {1..17}; do printf '<!ENTITY a "'; cat "$room/value"; printf '">'; done >"$faulty"
    refuses 23 '1,048,576' declarations "$faulty"
    refuses 23 '1,048,576' normalize a --declarations "$faulty"
    bytes 16777217 "$faulty"
    refuses 1 '16,777,216' declarations "$faulty"
}

# full_disk ARGUMENTS..: status 2, and the reason, where nothing can be written.
full_disk() {
    "$program" "$@" </dev/null >/dev/full 2>"$room/err"
    status=$?
    cases=$((cases + 1))
    : >"$room/out"
    [ "$status" -eq 2 ] && [ "$(cat "$room/err")" = 'govlezna: standard output: No space left on device' ]
    expect $? "$@" '>/dev/full'
}

# The greatest text and one byte more, from a file and from a stream without end; the greatest table and one byte more.
sizes() {
    bytes 16777216 "$room/most"
    bytes 16777217 "$room/over"
    run escape --file "$room/most"
    [ "$status" -eq 0 ] && cmp -s "$room/most" "$room/out"
    expect $? escape the greatest text
    full_disk escape --file "$room/most"
    refuses 1 'over 16,777,216 bytes' escape --file "$room/over"
    input=/dev/zero
    refuses 1 'over 16,777,216 bytes' check
    input=/dev/null
    bytes 49154 "$room/list"
    refuses 7 ': byte 0 of the list' check a --table "$room/list" /dev/null
    bytes 49155 "$room/list"
    refuses 6 'too long' check a --table "$room/list" /dev/null
    printf e >"$room/pool"
    printf '\2\0\0\0\0\1%.0s' {1..8192} >"$room/externals"
    { cat "$room/externals"; printf '\0'; } >"$room/list"
    gives $'UTF-8, 1 bytes\ntable valid, 8192 definitions\n' check a --table "$room/list" "$room/pool"
    { cat "$room/externals"; printf '\0\0'; } >"$room/list"
    refuses 7 ': byte 49153 of the list' check a --table "$room/list" "$room/pool"
    { printf '\3'; cat "$room/externals"; printf '\0'; } >"$room/list"
    gives $'UTF-8, 1 bytes\ntable valid, 8192 definitions\n' check a --table "$room/list" "$room/pool"
    { printf '\3'; cat "$room/externals"; printf '\0\0'; } >"$room/list"
    refuses 6 'too long' check a --table "$room/list" "$room/pool"
    { cat "$room/externals"; printf '\2\0\0\0\0\1\0'; } >"$room/list"
    refuses 6 'too long' check a --table "$room/list" "$room/pool"
    printf '\0' >"$room/list"
    bytes 1048577 "$room/pool"
    refuses 6 'too long' check a --table "$room/list" "$room/pool"
}

# reports ACCEPTED REFUSED VALUES BYTES ARGUMENTS..: the table of a rehearsal, in which all words begin in one column, and the same in JSON. REFUSED
# is each number with its count, as `11=2 16=1`; the numbers have some words.
reports() {
    local accepted=$1 refused=$2 values=$3 bytes=$4 table rows= row
    shift 4
    table="$accepted  accepted"$'\n'
    for row in $refused; do
        table+="${row#*=}  refusal ${row%=*}: words"$'\n'
        rows+="{\"number\":${row%=*},\"words\":\"words\",\"count\":${row#*=}},"
    done
    table+="$values  values"$'\n'"$bytes  bytes of the accepted ones, normalized"
    run rehearse "$@"
    [ "$status" -eq 0 ] && [ ! -s "$room/err" ] &&
        [ "$(sed 's/^ *//; s/\(refusal [0-9]*: \)..*/\1words/' "$room/out")" = "$table" ] &&
        [ "$(awk '{ match($0, /^ *[0-9]+ */); print RLENGTH }' "$room/out" | sort -u | wc -l)" -eq 1 ]
    expect $? rehearse "$@"
    run rehearse --json "$@"
    [ "$status" -eq 0 ] && [ ! -s "$room/err" ] && [ "$(sed 's/"words":"[^"][^"]*"/"words":"words"/g' "$room/out")" = \
        "{\"command\":\"rehearse\",\"number\":0,\"values\":$values,\"accepted\":$accepted,\"refused\":[${rows%,}],\"length\":$bytes}" ]
    expect $? rehearse --json "$@"
}

rehearsals() {
    local sail=(--entity e=sail)
    printf 'a&e;&b;½' >"$room/job"
    printf '0 4\n4 3\n9 0\n' >"$room/spans"
    gives $'2  accepted\n1  refusal 11: unknown entity\n3  values\n5  bytes of the accepted ones, normalized\n' \
        rehearse "$room/job" --spans "$room/spans" "${sail[@]}"
    reports 2 11=1 3 5 "$room/job" --spans "$room/spans" "${sail[@]}"
    reports 1 16=2 3 0 "$room/job" --spans "$room/spans" "${sail[@]}" --depth 0
    reports 1 '11=1 17=1' 3 0 "$room/job" --spans "$room/spans" "${sail[@]}" --limit 0
    reports 1 '11=1 27=1' 3 0 "$room/job" --spans "$room/spans" --external e
    # Overlaps, parts of a character, blanks, a last line without an end, CR LF; nothing at all.
    printf ' 0\t2 \r\n1 3\r\n0 9\n7 1\n8 1\n7 2' >"$room/spans"
    reports 2 '5=2 10=1 11=1' 6 6 "$room/job" --spans "$room/spans" "${sail[@]}"
    reports 0 '' 0 0 "$room/job" --spans /dev/null
    reports 0 '' 0 0 /dev/null --lines
    # Lines of the text: by LF, CR or both, the last one without.
    printf 'a\r\n&e;\r\n\n\r&b;\tb' >"$room/job"
    reports 4 11=1 5 5 "$room/job" --lines "${sail[@]}"
    input=$room/job
    reports 4 11=1 5 5 - --lines "${sail[@]}"
    reports 4 11=1 5 5 --lines "${sail[@]}"
    input=/dev/null
    printf '<!ENTITY e "sail">' >"$room/office"
    reports 4 11=1 5 5 "$room/job" --lines --declarations "$room/office"
    # More than one call takes.
    yes 'a&lt;' | head -n 200000 >"$room/job"
    reports 200000 '' 200000 400000 "$room/job" --lines
    awk 'BEGIN { for (i = 0; i < 70000; i++) print 6 * i, 3 }' >"$room/spans"
    reports 0 10=70000 70000 0 "$room/job" --spans "$room/spans"
    spans_outside
    yes '' | head -c 16777217 >"$room/job"
    refuses 1 'over 16,777,216 bytes' rehearse "$room/job" --lines
    head -c 16777216 "$room/job" >"$room/most"
    gives $'16777216  accepted\n16777216  values\n       0  bytes of the accepted ones, normalized\n' rehearse "$room/most" --lines
    progress
}

# A span that leaves the text, with its line; after what the library asks of text, settings and table.
spans_outside() {
    printf '½abc' >"$room/job"
    printf '0 5\n5 0\n4 2\n9 9\n' >"$room/spans"
    shows "govlezna: refusal 31: more than 65,536 spans, or one that leaves the text: bytes 8..11 of $room/spans, line 3
    4 2
    ^^^
govlezna: the text has 5 bytes" rehearse "$room/job" --spans "$room/spans"
    refuses 31 ", line 3" rehearse "$room/job" --spans "$room/spans"
    grep -q "\"first\":2,\"second\":0,\"file\":\"$room/spans\",\"start\":8,\"end\":11,\"line\":3,\"length\":5}" "$room/out"
    expect $? the place of refusal 31 in JSON
    refuses 2 ': --depth 129' rehearse "$room/job" --spans "$room/spans" --depth 129
    refuses 9 ': --entity number 1' rehearse "$room/job" --spans "$room/spans" --entity =a
    printf '1 18446744073709551615\n' >"$room/spans"
    refuses 31 ", line 1" rehearse "$room/job" --spans "$room/spans"
    input=$room/spans
    refuses 31 "of standard input, line 1" rehearse "$room/job" --spans -
    input=/dev/null
    awk 'BEGIN { for (i = 0; i < 70000; i++) print 0, 2; print 6, 0 }' >"$room/spans"
    refuses 31 ", line 70001" rehearse "$room/job" --spans "$room/spans"
    grep -q '"first":70000,' "$room/out"
    expect $? the index of refusal 31 in JSON
    printf '\xff' >>"$room/job"
    refuses 5 ': byte 5 of the text' rehearse "$room/job" --spans "$room/spans"
    for line in '' ' ' '1' '1 ' '1 2 3' '1 2x' '-1 2' '1 +2' '1,2' '18446744073709551616 0' '0 99999999999999999999'; do
        printf '0 0\n%s\n' "$line" >"$room/spans"
        misused "govlezna: $room/spans: line 2: expected START LENGTH" rehearse "$room/job" --spans "$room/spans"
    done
    misused '/dev/zero: over 268,435,456 bytes' rehearse "$room/job" --spans /dev/zero
}

# On a terminal, and from the second second on: forty texts of 65,535 CRs in turn, more than the library keeps, until that takes long enough.
# Python has the terminal; without it nothing is asked.
progress() {
    local i lines=100
    command -v python3 >/dev/null || return
    for i in {0..39}; do printf "\\1\\$(printf %o "$i")\\0\\0\\0\\1\\50\\0\\0\\0\\377\\377"; done >"$room/list"
    printf '\0' >>"$room/list"
    { printf %s {a..z} {A..N}; printf '%065535d' 0 | tr 0 '\r'; } >"$room/pool"
    cat >"$room/terminal.py" <<'END'
import os, pty, subprocess, sys, time
master, slave = pty.openpty()
start = time.monotonic()
child = subprocess.Popen(sys.argv[1:], stdin=subprocess.DEVNULL, stdout=subprocess.PIPE, stderr=slave)
os.close(slave)
shown = b''
try:
    while part := os.read(master, 4096):
        shown += part
except OSError:
    pass
child.stdout.read()
took = time.monotonic() - start
print(child.wait(), f'{took:.1f}', shown.replace(b'\r\n', b'\n').replace(b'\r', b'|').decode().strip())
END
    while :; do
        yes "$(printf '&%s;' {a..z} {A..N})" | head -n "$lines" >"$room/job"
        python3 "$room/terminal.py" "$program" rehearse "$room/job" --lines --table "$room/list" "$room/pool" >"$room/out"
        [[ $(cat "$room/out") == '0 '[01].* && $lines -lt 100000 ]] || break
        lines=$((2 * lines))
    done
    status=0 cases=$((cases + 1))
    grep -qE "^0 [0-9.]+ (\|govlezna: [0-9]+ of $lines values)*\|govlezna: $lines of $lines values$" "$room/out"
    expect $? rehearse with progress
    python3 "$room/terminal.py" "$program" rehearse /dev/null --lines >"$room/out"
    grep -qE '^0 [0-9.]+ $' "$room/out"
    expect $? rehearse without progress
}

# The library gets windows of the text, the first of 64 bytes and each twice as long (cli/pieces.c); the pieces are those of
# the whole text. Cuts and characters at the ends of the first windows; then nothing but cuts, which take about a second.
sections() {
    local cut=']]>' between=']]]]><![CDATA[>' before middle text
    for before in {59..65} {187..193} {443..449}; do
        for middle in ']]>' ']]]>]]>' 'ß]]>' ']€]>]]>' ']]𝄞'; do
            text=$(printf 'a%.0s' $(seq "$before"))$middle$(printf 'b%.0s' {1..70})
            gives "<![CDATA[${text//"$cut"/$between}]]>" cdata "$text"
        done
    done
    text=$(printf 'a%.0s' {1..100})
    gives '{"command":"cdata","number":0,"pieces":[[0,102],[102,103],[205,101]]}'$'\n' cdata --json "$text]]>$text]]>$text"
    yes "$cut" | tr -d '\n' | head -c 16777216 >"$room/cuts"
    { printf '<![CDATA['; sed "s/$cut/$between/g" "$room/cuts"; printf ']]>'; } >"$room/sections"
    timeout 60 "$program" cdata --file "$room/cuts" >"$room/out" 2>"$room/err"
    status=$?
    cases=$((cases + 1))
    [ "$status" -eq 0 ] && cmp -s "$room/sections" "$room/out"
    expect $? cdata 16 MiB of cuts
}

# The library gets windows of the list, as above (cli/tokens.c): tokens and characters at the ends of the first windows, and
# nothing but tokens, which take about a second.
tokens() {
    local before text
    for before in {61..66} {125..130} {253..258}; do
        text=$(printf 'a%.0s' $(seq "$before"))
        gives "$text"$'\nb\n' nmtokens --lines "$text  b"
        gives "$text"$'ß\nc\n' nmtokens --lines "$text"'ß c'
        gives "$text"$'€𝄞\n' nmtokens --lines " $text€𝄞"
    done
    yes p1 | tr '\n' ' ' | head -c 16777216 >"$room/ids"
    tr ' ' '\n' <"$room/ids" >"$room/lines"
    echo >>"$room/lines"
    timeout 60 "$program" nmtokens --lines --file "$room/ids" >"$room/out" 2>"$room/err"
    status=$?
    cases=$((cases + 1))
    [ "$status" -eq 0 ] && cmp -s "$room/lines" "$room/out"
    expect $? nmtokens 16 MiB of tokens
}

usage() {
    misused 'not an option of this command' normalize a --lines
    misused 'not an option of this command' nmtokens a --strict
    misused '--json is given too' nmtokens a --lines --json
    misused '--json is given too' nmtokens a --null --json
    misused 'not an option of this command' normalize a --null
    misused 'govlezna COMMAND'
    misused 'a: --about stands alone' --about a
    misused 'frobnicate: no such command, expected escape, unescape, ' frobnicate a
    misused '--frobnicate: no such option, escape takes --level, --file, --chomp, --json' escape a --frobnicate
    misused '-x: no such option, eols takes --version, --file' eols a -x
    misused '--depth: not an option of this command, escape takes --level, --file, --chomp, --json' escape a --depth 3
    misused 'not an option of this command' depth a --depth 3
    misused 'not an option of this command' depth a --strict
    misused 'not an option of this command' depth a --lines
    misused 'not an option of this command' unescape a --version 1.1
    misused '--level: its value is missing, expected 0, 1, 2 or 3' escape a --level
    misused '--level x: expected 0, 1, 2 or 3' escape a --level x
    misused '--level -1: expected 0, 1, 2 or 3' escape a --level -1
    misused '--level 1x: expected 0, 1, 2 or 3' escape a --level 1x
    misused '--level : expected 0, 1, 2 or 3' escape a --level=
    misused '--level 256: expected 0, 1, 2 or 3' escape a --level 256
    misused '--version 1.2: expected 1.0 or 1.1' normalize a --version 1.2
    misused '--version 256: expected 1.0 or 1.1' eols a --version=256
    misused '--depth 18446744073709551616: expected a number from 0 to 128' normalize a --depth 18446744073709551616
    misused '--limit many: expected a number from 0 to 1,000,000' normalize a --limit many
    misused '--limit: its value is missing, expected a number from 0 to 1,000,000' normalize a --limit
    misused 'given twice' escape a --level 1 --level 2
    misused 'a second text' escape a b
    misused 'the text is given too' escape a --file b
    misused 'the text is given too' escape - --file b
    misused 'a second text' escape - a
    misused 'a second text' escape a -
    misused 'given twice' escape --chomp --chomp -
    misused 'expected --attribute or --text' c14n a
    misused '--text is given too' c14n a --attribute --text
    misused 'not an option of this command' escape a --text
    misused 'takes no value after =' c14n --text=a
    misused '--entity b: expected NAME=TEXT' unescape a --entity b
    misused 'at most 255 bytes' unescape a --entity "$(printf 'n%.0s' {1..256})=b"
    misused 'at most 255 bytes' unescape a --external "$(printf 'n%.0s' {1..256})"
    misused '--table is given too' check a --external b --table d e
    misused 'not an option of this command' escape a --external b
    misused '--table is given too' check a --marked --table d e
    misused 'not an option of this command' eols a --marked
    misused 'given twice' check a --marked --marked
    misused 'takes no value' check a --marked=1
    misused 'not an option of this command' unescape a --strict
    misused 'given twice' normalize a --strict --strict
    misused 'takes no value' canonical a --strict=1
    misused 'not an option of this command' used a --level 1
    misused 'not an option of this command' used a --start
    misused 'at most 65,535 bytes' unescape a --entity "b=$(head -c 65536 /dev/zero | tr '\0' a)"
    misused 'two files' unescape a --table b
    misused '--table is given too' unescape a --entity b=c --table d e
    misused '--table is given too' unescape a --declarations b --table d e
    misused 'is given too' check a --declarations b --entity c=d
    misused 'is given too' check a --external c --declarations b
    misused 'is given too' normalize a --declarations b --marked
    misused 'given twice' used a --declarations b --declarations c
    misused 'its value is missing' used a --declarations
    misused 'standard input is the text' normalize --declarations -
    misused 'standard input is the text' normalize --file - --declarations -
    misused 'without --declarations' check a --version 1.1
    misused 'not an option of this command' escape a --declarations b
    misused 'not an option of this command' declarations b --file c
    misused 'not an option of this command' declarations b --declarations c
    misused 'not an option of this command' declarations b --depth 1
    misused 'a second file' declarations b c
    misused "$room/none: No such file" declarations "$room/none"
    misused "$room/none: No such file" check a --declarations "$room/none"
    misused 'expected --spans FILE or --lines' rehearse b
    misused '--lines is given too' rehearse b --spans c --lines
    misused 'a second file' rehearse b c --lines
    misused 'its value is missing, expected a file of lines START LENGTH' rehearse b --spans
    misused 'standard input is the text' rehearse --spans -
    misused 'standard input is the declarations' rehearse b --spans - --declarations -
    misused 'not an option of this command' rehearse b --lines --strict
    misused 'not an option of this command' rehearse b --lines --chomp
    misused 'not an option of this command' rehearse --file b --lines
    misused 'not an option of this command' depth b --spans c
    misused "$room/none: No such file" rehearse "$room/none" --lines
    misused "$room/none: No such file" rehearse "$room/text" --spans "$room/none"
    misused '--end is given too' trim a --start --end
    misused 'takes no value' trim a --start=2
    run --help
    grep -q '^Offsets count bytes from 0' "$room/out"
    expect $? --help says what offsets are
    [ "$status" -eq 0 ] && grep -q '^Examples:' "$room/out" && [ ! -s "$room/err" ]
    expect $? --help
}

results
names
depths
json
refusals
places
carets
files
declarations
sizes
sections
tokens
rehearsals
usage
echo "$cases runs, $wrong wrong"
[ "$wrong" -eq 0 ]
