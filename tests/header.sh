#!/usr/bin/env bash
# header.sh [HEADER]: what include/govlezna.h says. Its comments name refusals by its constants and not by number, each call has its
# refusals, each call with a table says what to hand over for none; its examples are so, and the command line program has words for
# each number (tests/header.c).
set -eu
cd "$(dirname "$0")/.."
header=${1:-include/govlezna.h}
room=$(mktemp -d)
trap 'rm -rf "$room"' EXIT

sed -n 's/^#define GOVLEZNA_\([A-Z0-9_]*\) [0-9].*/\1/p' "$header" | sort >"$room/constants"
sed -n '/^#define GOVLEZNA_NO_MORE/,$p' "$header" >"$room/calls"
grep '^ \*' "$room/calls" | grep -oE '\b[A-Z]+(_[A-Z0-9]+)+\b' | sed 's/^GOVLEZNA_//' | sort -u >"$room/named"
if comm -13 "$room/constants" "$room/named" | grep .; then echo "no constants"; exit 1; fi
if comm -23 "$room/constants" "$room/named" | grep .; then echo "constants that no call names"; exit 1; fi
if grep -nE 'Refusals: [0-9]|refused by [0-9]|refusal [0-9]' "$header"; then exit 1; fi

# Each comment above declarations, on one line with the first of them.
awk '/^\/\*/ { block = "" } { block = block " " $0 } /\);$/ { print block; block = "" }' "$room/calls" >"$room/blocks"
if grep '^ /\*' "$room/blocks" | grep -v 'Refusals, in this order: '; then exit 1; fi
if grep 'const uint8_t \*list' "$room/blocks" | grep -v 'for none the list { 0 } of length 1, and NULL with length 0'; then exit 1; fi

# Each call is marked, so that its number is not left unread; which every standard takes, and a compiler without such marks.
if ! grep -q '^GOVLEZNA_MUST_USE$' "$header" || grep -B 1 '^uint32_t govlezna_' "$header" | grep -vE '^(GOVLEZNA_MUST_USE|uint32_t govlezna_.*|--)$'; then
    echo "a call that is not marked"
    exit 1
fi
marked=$(grep -c '^GOVLEZNA_MUST_USE$' "$header") calls=$(grep -c '^uint32_t govlezna_' "$header")
[ "$marked" -eq "$calls" ] || { echo "$marked marks of $calls calls"; exit 1; }
cp "$header" "$room/govlezna.h"
printf '#include "govlezna.h"\nuint32_t read(uint64_t a[2]);\nuint32_t read(uint64_t a[2]) { return govlezna_check_utf8(NULL, 0, a); }\n' >"$room/read"
printf '#include "govlezna.h"\nvoid left(uint64_t a[2]);\nvoid left(uint64_t a[2]) { govlezna_check_utf8(NULL, 0, a); }\n' >"$room/left"
for standard in c11 c17 c2x c++11 c++14 c++17 c++20; do
    language=c
    [[ $standard != c++* ]] || language=c++
    strict=(cc "-std=$standard" -x "$language" -Wall -Wextra -Werror -pedantic "-I$room" -c -o "$room/object")
    "${strict[@]}" "$room/read"
    if "${strict[@]}" "$room/left" 2>"$room/said"; then echo "$standard: an unread number passes"; exit 1; fi
    grep -q 'unused-result' "$room/said"
    "${strict[@]}" -U__GNUC__ "$room/read"
done

cc -std=c11 -O2 -Wall -Wextra -Werror -pedantic -Iinclude tests/header.c cli/words.c target/staticlib/libgovlezna.a \
    -o "$room/header"
"$room/header" $(sed -n 's/^#define GOVLEZNA_[A-Z0-9_]* \([0-9][0-9]*\).*/\1/p' "$header")
