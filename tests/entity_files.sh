#!/usr/bin/env bash
# entity_files.sh PROGRAM: the files of entity declarations that Debian's packages have (tests/entity_files.txt), as they are and without comments. Of
# those that are declarations alone the program gives expat's names and texts; of the others the first fault is where the harness's own reading
# has it. The packages are installed where they are missing; a file that is another than the one stored is left out.
set -u
program=$1
tests=$(dirname "$0")
. "$tests/../scripts/tools.sh"
room=$(mktemp -d)
trap 'rm -rf "$room"' EXIT
cases=0
wrong=0
taken=0

[ -d /usr/share/xml/w3c-sgml-lib ] && [ -d /usr/share/xml/docbook ] && [ -d /usr/share/sgml/html/entities ] ||
    install_packages docbook-xml sgml-data w3c-sgml-lib || exit 1

digits() {
    sha256sum | head -c 16
}

# Names and texts without those that an earlier one shadows, and without the five that XML declares itself.
definitions() {
    local string='"([^"\\]|\\.)*"'
    sed -E "s/.*\"definitions\"://; s/\\}\$//; s/\\{\"name\":$string,\"text\":$string,\"shadowed\":true\\},?//g" "$room/answer" |
        sed -E "s/\\{\"name\":\"(lt|gt|amp|apos|quot)\",\"text\":$string,\"shadowed\":false\\},?//g; s/,\\]/]/" | tr -d '\n'
}

while IFS=$'\t' read -r file kind hash expected; do
    [ -e "$file" ] || continue
    case $kind in
    whole) cp "$file" "$room/text" ;;
    bare) perl -0777 -pe 's/<!--.*?-->/ /gs' "$file" >"$room/text" ;;
    esac
    [ "$(digits <"$room/text")" = "$hash" ] || continue
    "$program" declarations --json "$room/text" >"$room/answer"
    cases=$((cases + 1))
    if [[ $expected == 0\ * ]]; then
        found="0 $(definitions | grep -o '"shadowed":false' | wc -l) $(definitions | digits)"
        taken=$((taken + 1))
    else
        [[ $(cat "$room/answer") =~ \"number\":([0-9]+),.*\"first\":([0-9]+),\"second\":([0-9]+) ]]
        found="${BASH_REMATCH[1]} ${BASH_REMATCH[2]} ${BASH_REMATCH[3]}"
    fi
    [ "$found" = "$expected" ] && continue
    wrong=$((wrong + 1))
    echo "$file, $kind: $expected expected, $found found"
done < <(grep -v '^#' "$tests/entity_files.txt")
echo "$cases texts, $wrong wrong; $taken taken"
[ "$wrong" -eq 0 ] && [ "$cases" -gt 100 ] && [ "$taken" -gt 50 ]
