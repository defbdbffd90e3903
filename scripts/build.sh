# Sourced by the scripts, after tools.sh: builds what is missing or older than its sources. `root` is the repository's
# folder. Progress goes to standard error.

version=$(sed -n 's/^#define GOVLEZNA_VERSION "\(.*\)"$/\1/p' "$root/include/govlezna.h")
build=$root/target/build
archive=$root/target/staticlib/libgovlezna.a
started=$root/target/library.start # while the library is proved and compiled; where nobody does that, it was cut off
warnings=(-Wall -Wextra -Werror -pedantic)

# is_older FILE SOURCE..: is the file missing, or older than one of these files and folders?
is_older() {
    local file=$1
    shift
    [ ! -e "$file" ] || [ -n "$(find "$@" -newer "$file" -print -quit)" ]
}

# The crates that the static library is made of, lowest first, as crates.txt lists them; the last is govlezna_c, which exports the calls.
library_crates() {
    awk -F: '{ sub(/#.*/, "") }
        NF == 2 { sub(/ .*/, "", $1); name[++count] = $1; uses[$1] = $2 }
        END {
            needed["govlezna_c"] = 1
            for (i = count; i > 0; i--)
                if (needed[name[i]]) { parts = split(uses[name[i]], part, " "); for (k = 1; k <= parts; k++) needed[part[k]] = 1 }
            for (i = 1; i <= count; i++) if (needed[name[i]]) print name[i]
        }' "$root/crates.txt"
}

# locked COMMAND..: runs it while no other run proves or builds here. What it starts holds the lock too, as long as it runs. The lock is on
# this file, since make clean removes target/; where the file system has no locks, it runs without.
locked() {
    local lock status=0
    if [ -n "${building:-}" ]; then
        "$@"
        return
    fi
    exec {lock}<"$root/scripts/build.sh"
    flock --nonblock "$lock" || status=$?
    if [ "$status" -eq 1 ]; then
        echo "another run proves or builds here: waiting for it" >&2
        flock "$lock"
    fi
    building=1 status=0
    "$@" || status=$?
    building=
    exec {lock}<&-
    return "$status"
}

# interruptible COMMAND..: runs it in a process group of its own, which ends where this script is interrupted: what a shell starts in the
# background, as rt does its provers, does not mind ^C.
interruptible() {
    local status=0 signal
    set -m
    ("$@") </dev/null &
    group=$!
    set +m
    for signal in INT TERM HUP; do trap "end_group $signal" "$signal"; done
    wait "$group" || status=$?
    trap - INT TERM HUP
    return "$status"
}

# Ends what was started, and then this script by the same signal.
end_group() { # SIGNAL
    trap - INT TERM HUP
    kill -TERM -- "-$group" 2>/dev/null
    wait "$group"
    kill "-$1" $$
}

# Says each crate that is proved, as long as the file START is there and this script runs. rt writes a line `crate NAME: ..` for each one
# whose proof it has checked; of one that has not changed since, it says nothing.
watch_proofs() { # START LOG
    local told=0 proved=() over=
    while [ -z "$over" ] && kill -0 $$ 2>/dev/null; do
        [ -e "$1" ] || over=1
        mapfile -t proved < <(sed -n 's/^crate \([a-z0-9_]*\): .*/\1/p' "$2")
        for (( ; told < ${#proved[@]}; told++)); do echo "proved: ${proved[told]}" >&2; done
        [ -n "$over" ] || sleep 1
    done
}

# rt lib proves the crates below first. The archive of govlezna_c goes by the library's own name, and is renamed into place. It is for any
# x86-64 processor; the kit's own choice wants SSE4.2 and POPCNT.
prove_and_compile() {
    (cd "$root/crates/govlezna_c" && rt lib --cpu x86-64) && mkdir -p "${archive%/*}" &&
        cp "$root/crates/govlezna_c/out/libgovlezna_c.a" "$archive.new" && mv -f "$archive.new" "$archive"
}

# Is the library missing, half made, or older than a source of its crates?
archive_is_old() {
    local crate folder sources=("$root/crates.txt")
    [ ! -e "$started" ] || return 0
    for crate in $(library_crates); do
        for folder in "$root/crates/$crate"/{src,specs,proofs}; do
            if [ -d "$folder" ]; then sources+=("$folder"); fi
        done
    done
    is_older "$archive" "${sources[@]}"
}

# ready [compiler]: is there what a build needs? Asked before anything is proved, and told in one line.
ready() {
    if archive_is_old && ! command -v rt >/dev/null; then
        echo "rt is not in the PATH: the Rattle kit is needed" >&2
        return 1
    fi
    if ! mkdir -p "$build" 2>/dev/null || [ ! -w "$root/target" ] || [ ! -w "$build" ]; then
        echo "$root/target cannot be written, and all is built there" >&2
        return 1
    fi
    [ $# -eq 0 ] || need_compiler
}

# Proves what is not proved yet, and compiles the library.
build_archive() {
    archive_is_old || return 0
    ready && locked build_archive_now
}

# Another run may have built it while this one waited.
build_archive_now() {
    local watcher log=$root/target/library.log
    archive_is_old || return 0
    echo "proving $(library_crates | wc -l) crates and compiling the library; the first time takes some minutes" >&2
    touch "$started"
    : >"$log"
    watch_proofs "$started" "$log" &
    watcher=$!
    if ! interruptible prove_and_compile >"$log" 2>&1; then
        tail -n 20 "$log" >&2
        rm -f "$archive"
    fi
    rm -f "$started"
    wait "$watcher"
    [ -e "$archive" ]
}

# The archive's code is position independent, so that the shared library is made of it; it exports the calls alone.
shared_is_old() {
    archive_is_old || is_older "$build/libgovlezna.so" "$archive" "$root/scripts/govlezna.map"
}

build_shared() {
    shared_is_old || return 0
    ready compiler && locked build_shared_now
}

build_shared_now() {
    shared_is_old || return 0
    build_archive_now || return 1
    "${compiler[@]}" -shared -o "$build/libgovlezna.so.new" -Wl,--whole-archive "$archive" -Wl,--no-whole-archive \
        "-Wl,--version-script=$root/scripts/govlezna.map" "-Wl,-soname,libgovlezna.so.${version%%.*}" \
        -Wl,-z,defs -Wl,-z,now &&
        mv -f "$build/libgovlezna.so.new" "$build/libgovlezna.so"
}

cli_is_old() {
    archive_is_old || is_older "$build/govlezna" "$archive" "$root/cli" "$root/include"
}

build_cli() {
    cli_is_old || return 0
    ready compiler && locked build_cli_now
}

# Renamed into place: the old one may be running.
build_cli_now() {
    cli_is_old || return 0
    build_archive_now || return 1
    "${compiler[@]}" -std=c11 -O2 "${warnings[@]}" "-I$root/include" "$root"/cli/*.c "$archive" -o "$build/govlezna.new" &&
        mv -f "$build/govlezna.new" "$build/govlezna"
}
