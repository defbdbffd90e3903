#!/usr/bin/env bash
# register_soak.sh PROGRAM [SECONDS]: two processes at once change one register; each change is killed (kill -9) after a random time, and some
# have descriptors closed. Then a disk that is full. Each change that was answered is there afterwards, nothing is there that was not asked for,
# and whoever reads meanwhile finds a valid register. Says what is wrong, and how many changes were answered and killed.
set -u
program=$(readlink -f "$1")
seconds=${2:-20}
room=$(mktemp -d)
trap 'rm -rf "$room"' EXIT
cd "$room" || exit 2

# change NAME ARGUMENTS..: one change, killed after up to $most microseconds. Sets `answered` if the change is known to be made: by the count,
# or by a message where the count could not be told. That of another worker has another name.
change() {
    local name=$1 closed=('' '' '' '<&-' '2>&-' '<&- 2>&-' '>&-') delay
    shift
    printf -v delay '0.%06d' $((RANDOM % most + 1))
    eval 'timeout -s KILL "$delay" "$program" register "$@" </dev/null >"$name.out" 2>"$name.err"' "${closed[RANDOM % 7]}"
    status=$?
    changes=$((changes + 1))
    [ "$status" -ne 137 ] || killed=$((killed + 1))
    answered=
    if [ -s "$name.out" ] || grep -q 'the change was made' "$name.err" 2>/dev/null; then answered=1 told=$((told + 1)); fi
}

# worker NAME: adds and withdraws forms of its own until the time is over. NAME.forms gets a line for each: must it be there, must it not, or is
# either right, since the change was not answered. NAME.common gets how often the common form was asked for, and how often that was answered.
worker() {
    local name=$1 i asked=0 common=0 changes=0 killed=0 told=0 state
    for ((i = 0; SECONDS < seconds; i++)); do
        change "$name" soak add "$name $i"
        state=${answered:+there}
        if [ -n "$answered" ] && ((RANDOM % 3 == 0)); then
            change "$name" soak withdraw "$name $i"
            state=${answered:+gone}
        fi
        echo "${state:-either} $name $i" >>"$name.forms"
        asked=$((asked + 1))
        change "$name" soak add common
        [ -z "$answered" ] || common=$((common + 1))
        change "$name" soak withdraw absent # is refused, in words
        "$program" register soak list >/dev/null 2>"$name.damage" || { cat "$name.damage"; echo "after $name $i"; return 1; }
    done
    echo "$asked $common $changes $killed $told" >"$name.counts"
}

# The register against what the workers know.
compare() {
    local asked common changes killed told lowest=1 highest=1 state form count line wrong=0
    declare -A counts=()
    while read -r count form; do counts[$form]=$count; done < <("$program" register soak list)
    while read -r state form; do
        count=${counts[$form]:-0}
        unset "counts[$form]"
        case $state$count in
        there1 | gone0 | either[01]) ;;
        *) wrong=1; echo "wrong: $form should be $state, its count is $count" ;;
        esac
    done < <(cat ./*.forms)
    while read -r asked common changes killed told; do
        lowest=$((lowest + common)) highest=$((highest + asked))
        echo "$changes changes, $killed killed, $told answered"
    done < <(cat ./*.counts)
    count=${counts[common]:-0}
    unset 'counts[common]'
    echo "common: $count; at least $lowest were answered, at most $highest asked for"
    [ "$count" -ge "$lowest" ] && [ "$count" -le "$highest" ] || wrong=1
    for form in "${!counts[@]}"; do wrong=1; echo "wrong: nobody asked for $form"; done
    return "$wrong"
}

# How long a change takes here, in microseconds.
measure() {
    local start=${EPOCHREALTIME/./}
    for _ in {1..20}; do "$program" register measured add a >/dev/null 2>&1; done
    echo $(((${EPOCHREALTIME/./} - start) / 20))
}

killed_at_random() {
    local first second
    most=$(($(measure) * 3))
    "$program" register soak add common >/dev/null 2>&1
    SECONDS=0
    worker one & first=$!
    worker two & second=$!
    wait "$first"; first=$?
    wait "$second"; second=$?
    [ "$first" -eq 0 ] && [ "$second" -eq 0 ] && compare
} 2>/dev/null # where the shell says which processes were killed

# On a disk of 64 KiB: two processes add forms of 2,000 bytes until none fits, then what is there is what was answered. Where no byte is left, no
# change is made, and nothing is left behind.
fill_disk() {
    local one two action
    mount -t tmpfs -o size=64k tmpfs disk && cd disk || return 1
    "$program" register r add first >"$room/first.full" 2>/dev/null
    fill one & one=$!
    fill two & two=$!
    wait $one $two
    grep -q 'No space left' "$room"/*.why || { echo 'the disk never was full'; return 1; }
    "$program" register r list | sed 's/ 0*$//' | sort >"$room/listed"
    { echo '1 first'; cat "$room"/{one,two}.full; } | sort | diff - "$room/listed" || return 1
    head -c 65536 /dev/zero >filler 2>/dev/null
    cp r "$room/before"
    for action in 'new add a' 'r add a' 'r withdraw first'; do
        "$program" register $action >"$room/out" 2>&1
        [ $? -eq 2 ] && cmp r "$room/before" && [ "$(ls -A)" = $'filler\nr' ] || { ls -la; echo "wrong: $action on a full disk"; return 1; }
    done
    rm filler
    [ "$("$program" register r withdraw first)" = 0 ] || return 1
    echo "a full disk: $(wc -l <"$room/listed") forms answered, and there"
}

fill() { # NAME
    local i zeros
    printf -v zeros '%02000d' 0
    for i in {1..40}; do
        "$program" register r add "$1 $i $zeros" >/dev/null 2>>"$room/$1.why" && echo "1 $1 $i"
    done >"$room/$1.full"
}

killed_at_random || exit 1
mkdir disk
export -f fill_disk fill
export program room
# A mount in a name space of its own is gone with it.
if unshare --map-root-user --mount mount -t tmpfs tmpfs disk 2>/dev/null; then
    unshare --map-root-user --mount bash -c fill_disk
else
    echo 'skipped: a full disk, since no file system can be mounted here'
fi
