#!/usr/bin/env bash
# The first runs of ./govlezna, in a copy without target/ whose path has a space: what it says, when it builds, and what it
# refuses before it proves anything. In the place of rt stands a script that writes down that it was called, and gives the
# lines on each crate that rt writes and the archive of this repository; at the end one that refuses a crate.
set -eu
cd "$(dirname "$0")/.."
room=$(mktemp -d)
copy="$room/a copy"
archive=$PWD/target/staticlib/libgovlezna.a
trap 'chmod -R u+w "$room"; rm -rf "$room"' EXIT
trap 'echo "wrong at line $LINENO; said:"; cat "$room/said"' ERR
chmod 755 "$room"
mkdir -p "$room/bin" "$room/few" "$copy/crates/text" "$copy/crates/govlezna_c"
cp -R govlezna crates.txt scripts cli include "$copy"
cp -R crates/text/src "$copy/crates/text"
cp -R crates/govlezna_c/src "$copy/crates/govlezna_c"
: >"$room/calls"
chmod 666 "$room/calls"

cat >"$room/bin/rt" <<END
#!/bin/sh
echo "\$1" >>"$room/calls"
[ "\${PWD##*/}" = govlezna_c ] || exit 1
for crate in text utils govlezna_c; do sleep 1; echo "crate \$crate: modules loaded=2 checked=1"; done
mkdir -p out && cp "$archive" out/libgovlezna_c.a
END
chmod +x "$room/bin/rt"
export PATH=$room/bin:$PATH
unset CC

# refused WORDS COMMAND..: status 2, one line with the words on standard error, and rt was not called.
refused() {
    local words=$1 status=0
    shift
    : >"$room/calls"
    "$@" >"$room/out" 2>"$room/said" || status=$?
    [ "$status" -eq 2 ] && [ ! -s "$room/out" ] && [ ! -s "$room/calls" ] && [ "$(wc -l <"$room/said")" -eq 1 ] &&
        grep -qF "$words" "$room/said"
}

# Does the process run? One that ended may still be there for whoever started it.
runs() { # PID
    [ -r "/proc/$1/stat" ] && ! grep -q ') Z ' "/proc/$1/stat"
}

# As somebody who may not write where the permissions forbid it: root may.
as_user() {
    if [ "$(id -u)" -eq 0 ]; then setpriv --reuid=65534 --regid=65534 --clear-groups "$@"; else "$@"; fi
}

# Without a compiler, without rt.
for tool in bash sed awk find dirname readlink mkdir wc touch tail rm grep sleep cp mv flock; do ln -s "$(type -P "$tool")" "$room/few/$tool"; done
refused 'rt is not in the PATH' env "PATH=$room/few" "$copy/govlezna" escape '<'
ln -s "$room/bin/rt" "$room/few/rt"
refused 'Debian packages: gcc libc6-dev: failed' env "PATH=$room/few" "$copy/govlezna" escape '<'
refused 'CC is no-such-cc: ' env CC=no-such-cc "$copy/govlezna" escape '<'

# The help, before anything is built.
rm -rf "$copy/target"
"$copy/govlezna" escape --help >"$room/help" 2>"$room/said"
[ ! -s "$room/said" ]
[ ! -s "$room/calls" ]
[ ! -e "$copy/target" ]
if "$copy/govlezna" --help >/dev/full 2>"$room/said"; then false; fi
status=0
"$copy/govlezna" 2>"$room/said" || status=$?
[ "$status" -eq 2 ]
cmp "$room/help" "$room/said"

# A folder that cannot be written.
chmod a-w "$copy"
refused 'a copy/target cannot be written' as_user "$copy/govlezna" escape '<'
chmod u+w "$copy"

# The first run, by a link to the wrapper.
ln -s "$copy/govlezna" "$room/bin/linked"
[ "$(cd / && linked escape '<' 2>"$room/said")" = '&lt;' ]
cat "$room/said"
[ "$(grep '^proved: ' "$room/said")" = $'proved: text\nproved: utils\nproved: govlezna_c' ]
grep -q '^proving 38 crates and compiling the library' "$room/said"
linked --help | cmp - "$room/help"
"$copy/target/build/govlezna" --help | cmp - "$room/help"

# Nothing is built twice, and what is built runs where nothing can be written.
: >"$room/calls"
chmod -R a-w "$copy"
[ "$(as_user "$copy/govlezna" escape '<' 2>&1)" = '&lt;' ]
chmod -R u+w "$copy"
[ ! -s "$room/calls" ]

# The program is built anew where its source has changed, by the compiler that CC says; the library where one of its has.
printf '#!/bin/sh\necho "$1" >"%s/compiled"\nexec cc "$@"\n' "$room" >"$room/bin/other-cc"
chmod +x "$room/bin/other-cc"
touch "$copy/cli/help.c"
[ "$(CC='other-cc -g' "$copy/govlezna" escape '<' 2>&1)" = '&lt;' ]
[ "$(cat "$room/compiled")" = -g ]
[ ! -s "$room/calls" ]
touch "$copy/crates/text/src/lib.rt"
[ "$("$copy/govlezna" escape '<' 2>"$room/said")" = '&lt;' ]
grep -qx lib "$room/calls"
if grep -qv '^prov' "$room/said"; then false; fi

# Two runs at once while all has to be built: the second waits, and says so; nothing is built twice. rt says NOT PROVED where it is
# called while another one runs.
mv "$room/bin/rt" "$room/bin/one-rt"
printf '#!/bin/sh\nmkdir "%s/proving" || { echo "text NOT PROVED"; exit 1; }\none-rt "$@"\nrmdir "%s/proving"\n' "$room" "$room" >"$room/bin/rt"
chmod +x "$room/bin/rt"
rm -rf "$copy/target"
: >"$room/calls"
"$copy/govlezna" escape '<' >"$room/first" 2>"$room/first.said" &
while [ ! -d "$room/proving" ]; do sleep 0.1; done
[ "$("$copy/govlezna" escape '>' 2>"$room/said")" = '&gt;' ]
wait $!
[ "$(cat "$room/first")" = '&lt;' ]
[ "$(cat "$room/said")" = 'another run proves or builds here: waiting for it' ]
[ "$(cat "$room/calls")" = lib ]

# A program that is being written is not run: it is renamed into place. What is left of a build that was cut off is built anew.
cat >"$room/bin/slow-cc" <<'END'
#!/bin/sh
for word; do out=$word; done
: >"$out"
exec 3>>"$out"
sleep 2
exec cc "$@"
END
chmod +x "$room/bin/slow-cc"
touch "$copy/cli/help.c"
CC=slow-cc "$copy/govlezna" escape '<' >"$room/first" 2>"$room/first.said" &
sleep 1
[ "$("$copy/govlezna" escape '>' 2>"$room/said")" = '&gt;' ]
wait $!
[ "$(cat "$room/first")" = '&lt;' ]
touch "$copy/target/library.start"
echo cut >"$copy/target/staticlib/libgovlezna.a"
[ "$("$copy/govlezna" escape '<' 2>"$room/said")" = '&lt;' ]

# ^C ends what was started, also what a shell started in the background, where ^C is ignored.
printf '#!/bin/sh\n(sleep 300) & echo $! >"%s/prover"; wait\n' "$room" >"$room/bin/rt"
touch "$copy/crates/text/src/lib.rt"
rm -f "$room/prover"
set -m
"$copy/govlezna" escape '<' >"$room/out" 2>"$room/said" &
run=$!
set +m
while [ ! -s "$room/prover" ]; do sleep 0.1; done
kill -INT -- "-$run"
status=0
wait "$run" || status=$?
[ "$status" -eq 130 ]
for _ in {1..50}; do runs "$(cat "$room/prover")" || break; sleep 0.1; done
if runs "$(cat "$room/prover")"; then kill "$(cat "$room/prover")"; false; fi

printf '#!/bin/sh\necho "text NOT PROVED"\nexit 1\n' >"$room/bin/rt"
rm -rf "$copy/target"
status=0
"$copy/govlezna" escape '<' >"$room/out" 2>"$room/said" || status=$?
[ "$status" -eq 2 ] && [ ! -s "$room/out" ] && grep -q 'text NOT PROVED' "$room/said"
