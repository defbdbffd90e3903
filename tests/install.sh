#!/usr/bin/env bash
# Installs into a temporary folder, and uses what is there: the program, the static library, and by pkg-config the shared one. Then
# removes it. Where it may not go is refused before anything is written.
set -eu
cd "$(dirname "$0")/.."
room=$(mktemp -d)
trap 'rm -rf "$room"' EXIT
export PKG_CONFIG_PATH=$room/lib/pkgconfig
strict=(-std=c11 -O2 -Wall -Wextra -Werror -pedantic)

make --silent install "PREFIX=$room"
[ "$("$room/bin/govlezna" unescape '&lt;')" = '<' ]
cmp NOTICE "$room/share/doc/govlezna/NOTICE"
# What is installed does not speak of the folders it was built in.
if grep -n target/ "$room/include/govlezna.h"; then exit 1; fi

cc "${strict[@]}" examples/names.c $(pkg-config --cflags --libs govlezna) -o "$room/shared"
LD_LIBRARY_PATH=$room/lib "$room/shared" | diff - examples/names.expected
LD_LIBRARY_PATH=$room/lib ldd "$room/shared" | grep -q "libgovlezna.so.1 => $room/lib/"

cc "${strict[@]}" examples/names.c $(pkg-config --cflags govlezna) "$room/lib/libgovlezna.a" -o "$room/static"
"$room/static" | diff - examples/names.expected

# The shared library exports the calls that the header declares, and nothing else.
grep -o 'govlezna_[a-z0-9_]*(' include/govlezna.h | tr -d '(' | sort -u >"$room/declared"
nm -D --defined-only "$room/lib/libgovlezna.so" | sed -n 's/.* T \([^@]*\).*/\1/p' | sort >"$room/exported"
diff "$room/declared" "$room/exported"
[ "$(wc -l <"$room/exported")" -eq 24 ]

# No call allocates, or asks anything else of the system: the library calls these alone.
if nm -u "$room/lib/libgovlezna.a" | grep -o ' U .*' | grep -vxE ' U mem(cpy|move|set|cmp)'; then exit 1; fi

# One version, in the header, in the file names, for pkg-config and by the program, which names the calls and the limits.
version=$(sed -n 's/^#define GOVLEZNA_VERSION "\(.*\)"$/\1/p' include/govlezna.h)
[ -e "$room/lib/libgovlezna.so.$version" ]
[ "$(pkg-config --modversion govlezna)" = "$version" ]
"$room/bin/govlezna" --about >"$room/about"
[ "$(head -n 1 "$room/about")" = "govlezna $version" ]
grep -o 'govlezna_[a-z0-9_]*' "$room/about" | sort | diff "$room/declared" -
grep -q '16,777,216 bytes' "$room/about"
grep -q "^## $version" CHANGELOG.md
[ "$("$room/bin/govlezna" normalize --version 1.1 a)" = a ]

# Packages are made below DESTDIR, and name PREFIX alone; LIBDIR may be elsewhere.
make --silent install PREFIX=/usr "DESTDIR=$room/package"
grep -qx 'prefix=/usr' "$room/package/usr/lib/pkgconfig/govlezna.pc"
grep -qx 'libdir=${prefix}/lib' "$room/package/usr/lib/pkgconfig/govlezna.pc"
make --silent install PREFIX=/usr LIBDIR=/usr/lib/x86_64-linux-gnu "DESTDIR=$room/multiarch"
grep -qx 'libdir=${prefix}/lib/x86_64-linux-gnu' "$room/multiarch/usr/lib/x86_64-linux-gnu/pkgconfig/govlezna.pc"
[ -e "$room/multiarch/usr/lib/x86_64-linux-gnu/libgovlezna.a" ]
[ ! -e "$room/multiarch/usr/lib/libgovlezna.a" ]

# refused WORDS ARGUMENTS..: of make, which says why in one line of its own, and writes nothing.
refused() {
    local words=$1
    shift
    if make --silent "$@" "DESTDIR=$room/none" >"$room/said" 2>&1; then echo "make $* passes"; exit 1; fi
    grep -qF "$words" "$room/said"
    [ ! -e "$room/none" ]
}
for target in install uninstall; do
    refused 'PREFIX must start with /: it is empty' "$target" PREFIX=
    refused 'PREFIX must start with /: relative' "$target" PREFIX=relative
    refused 'LIBDIR must start with /: lib' "$target" PREFIX=/usr LIBDIR=lib
    refused 'LIBDIR must start with /: it is empty' "$target" PREFIX=/usr LIBDIR=
done

# From another folder, by a path with a space. Nothing that was installed is left by uninstall, and nothing else goes.
mkdir -p "$room/a tree/target" "$room/elsewhere"
cp -Rp Makefile NOTICE crates.txt scripts cli include "$room/a tree"
cp -Rp target/staticlib target/build "$room/a tree/target"
mkdir "$room/multiarch/usr/share/doc/other"
(cd "$room/elsewhere" && make --silent -f "../a tree/Makefile" install PREFIX=/opt/g "DESTDIR=$room/far")
[ "$("$room/far/opt/g/bin/govlezna" unescape '&gt;')" = '>' ]
(cd "$room/elsewhere" && make --silent -f "../a tree/Makefile" uninstall PREFIX=/opt/g "DESTDIR=$room/far")
[ -z "$(find "$room/far" ! -type d)" ]
[ ! -e "$room/far/opt/g/share/doc/govlezna" ]
make --silent uninstall PREFIX=/usr LIBDIR=/usr/lib/x86_64-linux-gnu "DESTDIR=$room/multiarch"
[ -z "$(find "$room/multiarch" ! -type d)" ]
[ -d "$room/multiarch/usr/share/doc/other" ]
(cd "$room/elsewhere" && make --silent -f "../a tree/Makefile" clean)
[ ! -e "$room/a tree/target" ]
[ -e "$room/a tree/scripts/build.sh" ]
