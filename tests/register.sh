#!/usr/bin/env bash
# register.sh PROGRAM: the command register of the command line program: its file byte for byte, refusals that leave it, damaged files,
# several processes at once, a disk that is full. Says each case that fails.
set -u
program=$(readlink -f "$1")
here=$(dirname "$(readlink -f "$0")")
room=$(mktemp -d)
trap 'rm -rf "$room"' EXIT
cd "$room" || exit 2
cases=0
wrong=0

# expect CONDITION-STATUS WHAT..: counts a case that went wrong, and shows it.
expect() {
    local good=$1
    shift
    cases=$((cases + 1))
    [ "$good" -eq 0 ] && return
    wrong=$((wrong + 1))
    echo "wrong: ${*@Q} (status ${status:-none})"
    head -c 600 out err
}

run() {
    "$program" register "$@" </dev/null >out 2>err
    status=$?
}

# gives OUTPUT ARGUMENTS..: status 0, this on standard output, nothing on standard error.
gives() {
    local output=$1
    shift
    run "$@"
    [ "$status" -eq 0 ] && printf "$output" | cmp -s - out && [ ! -s err ]
    expect $? "$@"
}

# makes FILE ARGUMENTS..: adds the first form of a register that is missing, and says that it is new.
makes() {
    run "$@"
    [ "$status" -eq 0 ] && [ "$(cat out)" = 1 ] && [ "$(cat err)" = "govlezna: $1: a new register" ]
    expect $? "$@"
}

# holds BYTES FILE: the file's bytes, as printf writes them; nothing that was written on the way lies beside it.
holds() {
    printf "$1" | cmp -s - "$2" && nothing_left
    expect $? "$2" holds "$1"
}

nothing_left() {
    [ -z "$(find . -name '.govlezna-*')" ]
}

# preloaded VARIABLES.. -- ARGUMENTS..: runs the program with tests/register_calls.c in it.
preloaded() {
    preload "$@"
    "${command[@]}" </dev/null >out 2>err
    status=$?
}

preload() {
    command=(env "LD_PRELOAD=$room/calls.so" ASAN_OPTIONS=verify_asan_link_order=0)
    while [ "$1" != -- ]; do command+=("$1"); shift; done
    command+=("$program" register "${@:2}")
}

# paused CALL ARGUMENTS..: starts the program, and returns once it waits at this call for the file `go`; `paused` is the process.
paused() {
    rm -f go reached
    preload CALLS=reached "PAUSES=$1" -- "${@:2}"
    "${command[@]}" </dev/null >paused.out 2>paused.err &
    paused=$!
    for _ in {1..500}; do
        grep -qsx "$1" reached && return
        sleep 0.02
    done
    expect 1 "${@:2}" reaches "$1"
}

# refuses NUMBER WORDS FILE ARGUMENTS..: status 1, the number and the words, in JSON too; the file stays what it is, or missing.
refuses() {
    local number=$1 words=$2 file=$3 before=missing
    shift 2
    [ -e "$file" ] && before=$(stat -c %i "$file") && cp "$file" before
    run "$@"
    [ "$status" -eq 1 ] && [ ! -s out ] && [[ $(cat err) == "govlezna: refusal $number: "*"$words"* ]]
    expect $? "$@"
    run "$@" --json
    [ "$status" -eq 1 ] && [ ! -s err ] && [[ $(cat out) == '{"command":"register","number":'"$number,"*"}" ]]
    expect $? "$@" --json
    if [ "$before" = missing ]; then [ ! -e "$file" ]; else [ "$(stat -c %i "$file")" = "$before" ] && cmp -s "$file" before; fi
    expect $? "$@" leaves the file
}

misused() {
    local words=$1
    shift
    run "$@"
    [ "$status" -eq 2 ] && [ ! -s out ] && [[ $(cat err) == *"$words"* ]]
    expect $? "$@"
}

results() {
    makes names add a
    holds '\1\0\0\0\1\0\0\0a' names
    gives '1\n' names add ½
    gives '2\n' names add a
    holds '\1\0\0\0\2\0\0\0a\2\0\0\0\1\0\0\0½' names
    gives '2 a\n1 ½\n' names list
    gives '{"command":"register","number":0,"action":"list","used":19,"entries":[["a",2],["½",1]]}\n' names list --json
    gives '{"command":"register","number":0,"action":"count","count":2,"used":19}\n' --json names count a
    gives '0\n' names count b
    gives '1\n' names withdraw a
    gives '0\n' names withdraw a
    holds '\2\0\0\0\1\0\0\0½' names
    gives '1\n' names add a # at the end again
    gives '{"command":"register","number":0,"action":"add","count":1,"used":27}\n' names add --empty '' --json
    gives '1 ½\n1 a\n1 \n' names list
    gives '1\n' names add -- --room
    gives '1\n' names count --room 0 -- --room
    gives '1\n' names add $'a\n2 b\\'
    gives '1 ½\n1 a\n1 \n1 --room\n1 a\\u000a2 b\\\\\n' names list
    gives '1 ½\0001 a\0001 \0001 --room\0001 a\n2 b\\\0' names list --null
    run names withdraw $'a\n2 b\\'
    for form in ½ a '' --room; do run names withdraw --empty -- "$form"; done
    holds '' names
    printf 'from a file' >form
    gives '1\n' names add --file form
    printf 'from a file' | "$program" register names add >out 2>err
    [ "$(cat out)" = 2 ]
    expect $? a form from standard input
    printf 'from a file\n' | "$program" register names count - --chomp >out 2>err
    [ "$(cat out)" = 2 ]
    expect $? a form from standard input without its line end
    chmod 640 names
    gives '3\n' names add 'from a file'
    [ "$(stat -c %a names)" = 640 ]
    expect $? the mode of the file stays
    ln -s names link
    gives '4\n' link add 'from a file'
    [ -L link ] && [ "$("$program" register names count 'from a file')" = 4 ]
    expect $? a link is followed
}

refusals() {
    refuses 5 'not UTF-8: byte 1' none add $'a\xFF'
    refuses 30 ': 0 bytes are used, the form takes 9 more, and --room allows 8' none add a --room 8
    makes small add a --room 9
    refuses 30 ': 9 bytes are used, the form takes 9 more, and --room allows 9' small add b --room 9
    refuses 30 ': 9 bytes are used, the form takes 8 more, and --room allows 9' small add '' --empty --room 0
    gives '2\n' small add a --room 0 # never less than the file
    refuses 29 'not in the register' small withdraw b
    refuses 30 ': 9 bytes are used, the form takes 9 more, and --room allows 17' small add b --room 17
    grep -q '"used":9,"needed":9,"room":17}' out
    expect $? small add b --room 17 --json
    gives '1\n' small add b --room 18
    gives '1\n' small add c --room 18446744073709551615 # no more memory is taken than the form needs
    makes large add a --room 18446744073709551615
    printf '\1\0\0\0\377\377\377\377a' >most
    refuses 30 ": it is the form's count" most add a
    gives '4294967295\n' most count a
    refuses 29 'not in the register' most withdraw b
}

# The canonical form of a value, written and registered in one: a refused value changes nothing, and no form is empty by mistake.
canonical_forms() {
    local sail=(--entity 'sail=Gro&#xDF;segel')
    makes panels add --canonical 'Panel &sail; <3>' "${sail[@]}"
    holds '\32\0\0\0\1\0\0\0Panel Großsegel &lt;3&gt;' panels
    "$program" canonical 'Panel &sail; <3>' "${sail[@]}" | "$program" register panels add >out 2>err
    [ "$(cat out)" = 2 ]
    expect $? the form that canonical writes
    gives '2\n' panels count 'Panel &s; &lt;&#51;>' --canonical --entity s=Großsegel
    printf 'Panel\tGroßsegel <3>' >value
    gives '1\n' panels withdraw --canonical --file value
    gives '0\n' panels withdraw --canonical 'Panel Großsegel <3>' --strict --depth 1 --limit 0
    gives '1\n' panels add --canonical $'a\xC2\x85b' --version 1.1
    gives '1\n' panels count 'a b'
    gives '1\n' panels count --canonical $'a\nb'
    refuses 11 'unknown entity: bytes 7..11 of the text, line 1' panels add --canonical 'Panel &boom;'
    refuses 11 'of the text of the entity e, line 1' panels count --canonical '&e;' --entity 'e=&boom;'
    refuses 26 'U+0001: byte 0 of the text' panels withdraw --canonical $'\x01' --strict
    refuses 9 '--entity number 1' panels add --canonical a --entity =x
    refuses 11 'unknown entity' unmade add --canonical 'Panel &boom;'
    "$program" canonical 'Panel &boom;' 2>/dev/null | "$program" register unmade add >out 2>err
    status=$?
    [ "$status" -eq 2 ] && [ ! -s out ] && [ ! -e unmade ] && [ "$(cat err)" = 'govlezna: register: the form is empty; give --empty if that is meant' ]
    expect $? the form of a refused value, piped
    misused 'the form is empty' panels add ''
    misused 'the form is empty' panels withdraw ''
    misused 'the form is empty' panels count --canonical '&e;' --entity e=
    makes unnamed add --canonical '&e;' --entity e= --empty
    holds '\0\0\0\0\1\0\0\0' unnamed
}

# A register that is missing: a mistyped path does not read as 0, and a refused or failed change makes none.
missing() {
    local action call
    for action in 'count a' list 'withdraw a'; do
        run absent $action
        [ "$status" -eq 1 ] && [ ! -s out ] && [ "$(cat err)" = 'govlezna: absent: there is no such register' ]
        expect $? absent $action
        run absent $action --json
        [ "$status" -eq 1 ] && [ ! -s err ] && [ "$(cat out)" = '{"command":"register","number":null,"words":"there is no such register"}' ]
        expect $? absent $action --json
    done
    for call in write 'fsync file' fchmod rename; do
        preloaded "FAILS=$call" -- absent add a
        [ "$status" -eq 2 ] && [ ! -s out ] && [ ! -e absent ] && nothing_left
        expect $? "$call" fails for a new register
    done
    printf '%03000d' 1 >form
    (ulimit -f 2; "$program" register absent add --file form; echo $?) 2>&1 >out | cat >err
    [ "$(cat out)" = 2 ] && grep -q 'File too large' err && [ ! -e absent ] && nothing_left
    expect $? a full disk for a new register
    paused write absent add a
    kill $paused
    touch go
    wait $paused 2>/dev/null
    gives '1\n' absent count a # the signal waited
}

damage() {
    damaged 1 0 'it is cut: fewer than 8 bytes' '\1\0\0\0\1\0\0'
    damaged 2 9 'it is cut: fewer than 8 bytes' '\1\0\0\0\1\0\0\0a\0'
    damaged 1 0 'it is cut: its form is longer' '\2\0\0\0\1\0\0\0a'
    damaged 2 9 'its count is 0' '\1\0\0\0\1\0\0\0a\1\0\0\0\0\0\0\0b'
    damaged 1 0 'its form is not UTF-8' '\1\0\0\0\1\0\0\0\303'
    damaged 3 18 'its form stands before it too' '\1\0\0\0\1\0\0\0a\1\0\0\0\1\0\0\0b\1\0\0\0\2\0\0\0a'
    damaged 2 8 'its form stands before it too' '\0\0\0\0\1\0\0\0\0\0\0\0\1\0\0\0'
    # The first of two faults, whichever it is.
    damaged 2 9 'its form stands before it too' '\1\0\0\0\1\0\0\0a\1\0\0\0\1\0\0\0a\1\0\0\0\0\0\0\0b'
    damaged 2 9 'its count is 0' '\1\0\0\0\1\0\0\0a\1\0\0\0\0\0\0\0b\1\0\0\0\1\0\0\0a'
}

damaged() { # ENTRY OFFSET WORDS BYTES
    local action
    printf "$4" >damaged
    for action in 'add a' 'withdraw zz' 'count a' list; do
        refuses 28 "entry $1, at byte $2 of $room/damaged: $3" damaged $action
    done
    refuses 5 'not UTF-8' damaged count $'\xFF' # before 28
}

misuse() {
    misused 'expected FILE and one of add' names
    misused 'expected add, withdraw, count or list' names put a
    misused 'takes no form' names list a
    misused 'takes no form' names list -
    misused 'takes no form' names list --chomp
    misused '--null: only list' names count a --null
    misused '--json is given too' names list --null --json
    misused 'a second text' names add a b
    misused 'expected a number' names add a --room x
    misused 'not an option of this command' names add a --level 1
    misused '--entity: goes with --canonical' names add a --entity e=x
    misused '--strict: goes with --canonical' names count a --strict
    misused 'takes no form' names list --canonical
    misused 'takes no form' names list --empty
    misused 'no regular file' . count a
    misused 'No such file or directory' missing/names add a
    "$program" escape --room 5 a >out 2>err
    [ $? -eq 2 ]
    expect $? --room of another command
}

# Four processes add at once, and one reads meanwhile: every add counts, and no reader sees half a file.
at_once() {
    local turn
    makes shared add all
    for turn in 1 2 3 4; do
        (for _ in {1..25}; do "$program" register shared add "form $turn" && "$program" register shared add all; done >/dev/null) &
    done
    for _ in {1..40}; do
        run shared list
        [ "$status" -eq 0 ] || break
    done
    expect "$status" reading while others write
    wait
    gives '101\n' shared count all
    for turn in 1 2 3 4; do gives '25\n' shared count "form $turn"; done
}

# A disk that is full in the middle of the file: it stays as it was.
full_disk() {
    printf '%03000d' 1 >form
    makes long add --file form
    cp long before
    (trap '' XFSZ; ulimit -f 2; "$program" register long add a) >out 2>err
    [ $? -eq 2 ] && [ ! -s out ] && cmp -s long before && nothing_left
    expect $? a disk that is full
}

# What lies beside a register has no say, and is left as it is.
neighbours() {
    local name
    makes a.new add x
    makes a add y
    holds '\1\0\0\0\1\0\0\0x' a.new
    holds '\1\0\0\0\1\0\0\0y' a
    printf kept >precious
    ln -s precious b.new
    makes b add y
    holds kept precious
    [ -L b.new ]
    expect $? a link beside the register
    mkdir c.new # as a file of another user, nothing that can be written
    makes c add y
    holds '\1\0\0\0\1\0\0\0y' c
    name=$(printf '%0255d' 1) # the longest one
    makes "$name" add y
}

# What fails on the way, or ends the process, leaves the register whole and nothing beside it; but kill -9 may leave the other file.
ends_of_a_change() {
    local call signal one='\1\0\0\0\1\0\0\0a'
    mkdir ends
    for call in write 'fsync file' fchmod rename; do
        printf "$one" >ends/r
        preloaded "FAILS=$call" -- ends/r add a
        [ "$status" -eq 2 ] && [ ! -s out ] && [[ $(cat err) == *': Input/output error' ]] && is_alone "$one"
        expect $? "$call" fails
    done
    for signal in HUP TERM; do
        paused 'fsync file' ends/r add b
        kill "-$signal" $paused
        touch go
        wait $paused
        run ends/r list
        [ "$status" -eq 0 ] && [ "$(ls -A ends)" = r ]
        expect $? "$signal" during a change
    done
    cp long ends/r
    (ulimit -f 2; "$program" register ends/r add a; echo $?) 2>&1 >out | cat >err
    cmp -s long ends/r && [ "$(ls -A ends)" = r ] && [ "$(cat out)" = 2 ] && grep -q 'File too large' err
    expect $? a file that may not grow
    for call in write 'fsync file' fchmod rename; do
        printf "$one" >ends/r
        preloaded "KILLED=$call" -- ends/r add a
        [ "$status" -eq 137 ] && printf "$one" | cmp -s - ends/r
        expect $? killed at "$call"
        gives '2\n' ends/r add a
    done
    preloaded KILLED=write -- ends/killed add a
    gives '' ends/killed list # the empty register
    gives '1\n' ends/killed add a
} 2>/dev/null # where the shell says which processes were killed

is_alone() { # BYTES
    printf "$1" | cmp -s - ends/r && [ "$(ls -A ends)" = r ]
}

# A change whose answer cannot be told: the message says that it was made, and only then.
answers_lost() {
    makes told add a
    lost /dev/full 'No space left on device; the change was made' told add a
    lost /dev/full 'No space left on device; the change was made' told withdraw a --json
    lost /dev/full 'No space left on device' told count a
    lost /dev/full 'No space left on device' told withdraw b --json
    (sleep 0.3; "$program" register told add a 2>err; echo $? >status) | true
    [ "$(cat status err)" = $'2\ngovlezna: standard output: Broken pipe; the change was made' ]
    expect $? told add a '| true'
    gives '2\n' told count a
}

lost() { # WHERE WORDS ARGUMENTS..
    local where=$1 words=$2
    shift 2
    "$program" register "$@" </dev/null >"$where" 2>err
    status=$?
    : >out
    [ "$status" -eq 2 ] && [ "$(cat err)" = "govlezna: standard output: $words" ]
    expect $? "$@" ">$where"
}

# A change is on the disk before it is told: the file before it has its name, then the folder that has the name.
on_the_disk() {
    mkdir -p folders/kept
    makes folders/kept/r add a
    rm -f calls
    preloaded CALLS=calls -- folders/kept/r add a
    [ "$(cat out)" = 2 ] && [ "$(grep -v fchown calls | tr '\n' ,)" = 'write,fchmod,fsync file,rename,fsync folder,' ]
    expect $? the order of a change: "$(cat calls)"
    cd folders/kept || exit 2
    CALLS=calls LD_PRELOAD=$room/calls.so ASAN_OPTIONS=verify_asan_link_order=0 "$program" register r add a >out 2>err
    tail -n 1 calls | grep -qx 'fsync folder'
    expect $? the current folder
    cd "$room" || exit 2
    preloaded 'FAILS=fsync folder' -- folders/kept/r add a
    [ "$status" -eq 2 ] && [ ! -s out ] && grep -q 'the change was made, but its folder may not be on the disk: Input/output error' err
    expect $? a folder that cannot be put on the disk
    gives '4\n' folders/kept/r count a
}

# A change keeps the owner and the group where that is allowed, and does not part hard links.
owners() {
    makes one add a
    ln one two
    cp one before
    misused 'it has several hard links, which a change would part' one add a
    misused 'it has several hard links' two withdraw a
    cmp -s one before && [ one -ef two ]
    expect $? hard links stay
    gives '1\n' two count a
    rm two
    gives '2\n' one add a
    cp "$program" ours
    chmod 711 . ours
    if ! setpriv --reuid 1234 --regid 1234 --clear-groups ./ours --help >out 2>err; then
        echo 'skipped: the owner of a register, since no other user can be had'
        return
    fi
    chown 1234:2345 one
    chmod 640 one
    gives '3\n' one add a
    [ "$(stat -c '%u:%g %a' one)" = '1234:2345 640' ]
    expect $? the owner and the group stay "$(stat -c '%u:%g %a' one)"
    mkdir shared-folder
    chmod 777 shared-folder
    as_another '1:2345 660' '1234:2345 660' # the group alone
    as_another '1:1 676' '1234:1234 666' # neither; what the group was allowed goes to no other
}

as_another() { # BEFORE AFTER: the owner, the group and the mode of a register that user 1234 of the group 2345 changes
    cp one shared-folder/r
    chown "${1% *}" shared-folder/r
    chmod "${1#* }" shared-folder/r
    setpriv --reuid 1234 --regid 1234 --groups 2345 ./ours register shared-folder/r add a >out 2>err
    status=$?
    [ "$status" -eq 0 ] && [ "$(stat -c '%u:%g %a' shared-folder/r)" = "$2" ]
    expect $? owner "$1" becomes "$(stat -c '%u:%g %a' shared-folder/r)", not "$2"
}

# What is no register's file is refused at once, in words.
strange_files() {
    local action
    mkdir folder
    mkfifo pipe
    ln -s pipe link-to-pipe
    ln -s folder/missing nowhere
    ln -s no-folder/missing further
    ln -s circle circle
    for action in 'add a' 'withdraw a' 'count a' list; do
        at_once_refused 'no regular file' pipe $action
        at_once_refused 'no regular file' link-to-pipe $action
        at_once_refused 'no regular file' folder $action
        at_once_refused 'no regular file' /dev/null $action
        at_once_refused 'a link to a file that is missing' nowhere $action
        at_once_refused 'a link to a file that is missing' further $action
        at_once_refused 'symbolic links' circle $action
    done
    [ -z "$(ls -A folder)" ]
    expect $? nothing is made where a link leads
}

at_once_refused() { # WORDS ARGUMENTS..
    timeout 5 "$program" register "${@:2}" </dev/null >out 2>err
    status=$?
    [ "$status" -eq 2 ] && [ ! -s out ] && [[ $(cat err) == *"$1"* ]]
    expect $? "${@:2}"
}

# A process that waits for another's change says so after a second, can be stopped, and then has its turn.
waiting() {
    local waiter
    makes waited add a
    paused 'fsync file' waited add a
    "$program" register waited add a </dev/null >/dev/null 2>&1 &
    waiter=$!
    sleep 0.1
    kill $waiter
    wait $waiter 2>/dev/null
    [ $? -eq 143 ] && kill -0 $paused
    expect $? who waits can be stopped
    : >out >err
    "$program" register waited add a </dev/null >out 2>err &
    waiter=$!
    for _ in {1..500}; do
        [ ! -s err ] || break
        sleep 0.02
    done
    [ ! -s out ] && [ "$(cat err)" = "govlezna: $room/waited: waiting for another process that changes it" ]
    expect $? waiting for another process
    touch go
    wait $paused
    wait $waiter
    status=$?
    [ "$status" -eq 0 ] && [ "$(cat out)" = 3 ]
    expect $? a turn after another process
}

# Whatever of standard input, output and error is closed: no message gets into a register, and a result that is lost is told.
closed_descriptors() {
    local answers closed
    printf '\1\0\0\0\1\0\0\0a' >register
    while read -r answers closed; do
        cp register closed
        without "$closed" closed withdraw absent
        [ "$status" -eq 1 ] && cmp -s register closed
        expect $? withdraw an absent form "$closed"
        without "$closed" closed count a
        [ "$status" -eq "$answers" ]
        expect $? count a "$closed"
        without "$closed" closed add a
        [ "$status" -eq "$answers" ] && printf '\1\0\0\0\2\0\0\0a' | cmp -s - closed
        expect $? add a "$closed"
    done <<<$'0 <&-\n0 2>&-\n0 <&- 2>&-\n2 >&-\n2 >&- 2>&-\n2 <&- >&-\n2 <&- >&- 2>&-'
    for closed in 'register closed add' canonical 'check --file -'; do # no text is not the empty text
        "$program" $closed >out 2>err <&-
        status=$?
        [ "$status" -eq 2 ] && [ ! -s out ] && [[ $(cat err) == 'govlezna: standard input: '* ]]
        expect $? "$closed" '<&-'
    done
}

without() { # CLOSED ARGUMENTS..
    local closed=$1
    shift
    eval '"$program" register "$@" </dev/null >out 2>err' "$closed"
    status=$?
}

cc -std=c11 -O1 -shared -fPIC "$here/register_calls.c" -o calls.so -ldl || exit 2
results
refusals
canonical_forms
missing
damage
misuse
at_once
full_disk
neighbours
ends_of_a_change
answers_lost
on_the_disk
owners
strange_files
waiting
closed_descriptors
echo "$cases cases, $wrong wrong"
[ "$wrong" -eq 0 ]
