#!/usr/bin/env bash
# What the examples do beyond what they print: definitions that do not fit are refused, and the pieces of a long text take time that
# grows with its length. Each example is compiled with another main. A loop that hands over all of the text, or all of the rest of it,
# for each piece would take minutes on these 3 MiB of `]]>`, in any language; these take a moment.
set -eu
cd "$(dirname "$0")/.."
room=$(mktemp -d)
trap 'rm -rf "$room"' EXIT
trap 'echo "wrong at line $LINENO"' ERR
strict=(-O2 -Wall -Wextra -Werror -pedantic -Iinclude)
library=target/staticlib/libgovlezna.a
count=1048576
awk -v n="$count" 'BEGIN { printf "<![CDATA["; for (i = 0; i < n; i++) printf "]]]]><![CDATA[>"; printf "]]>" }' >"$room/expected"

# The sections of these pieces, by each language.
{ sed 's/^int main(void)/int example(void)/' examples/names.c; cat <<END; } >"$room/names.c"
int main(void)
{
    static char text[3 * $count];
    for (size_t i = 0; i < sizeof text; i++)
        text[i] = "]]>"[i % 3];
    write_cdata(text, sizeof text);
    return 0;
}
END
cc -std=c11 "${strict[@]}" "$room/names.c" "$library" -o "$room/names"
timeout 60 "$room/names" | head -c -1 | cmp - "$room/expected"

{ sed 's/^int main()/void example()/' examples/canonical.cpp; cat <<END; } >"$room/canonical.cpp"
static bool refuses(std::size_t name, std::size_t text)
{
    Table table;
    try {
        table.define(std::string(name, 'n'), std::string(text, 't'));
    } catch (const std::length_error &) {
        return table.list.empty() && table.pool.empty();
    }
    return false;
}

int main()
{
    std::string text;
    for (int i = 0; i < $count; i++)
        text += "]]>";
    std::cout << cdata(text);
    return refuses(256, 0) && refuses(300, 1) && refuses(1, 65536) && refuses(1, 65539) && !refuses(255, 65535) ? 0 : 1;
}
END
c++ -std=c++17 "${strict[@]}" "$room/canonical.cpp" "$library" -o "$room/cpp"
timeout 60 "$room/cpp" >"$room/out"
cmp "$room/out" "$room/expected"

if command -v rustc >/dev/null; then
    { sed 's/^fn main()/#[allow(dead_code)]\nfn example()/' examples/canonical.rs; cat <<END; } >"$room/canonical.rs"
fn refuses(name: usize, text: usize) -> bool {
    let mut table = Table::default();
    table.define(&"n".repeat(name), &"t".repeat(text)).is_none() && table.list.is_empty() && table.pool.is_empty()
}

fn main() {
    print!("{}", cdata(&"]]>".repeat($count)).ok().unwrap());
    assert!(refuses(256, 0) && refuses(300, 1) && refuses(1, 65536) && refuses(1, 65539) && !refuses(255, 65535));
}
END
    rustc --edition 2021 -O -D warnings -L native=target/staticlib -l static=govlezna "$room/canonical.rs" -o "$room/rust"
    timeout 60 "$room/rust" >"$room/out"
    cmp "$room/out" "$room/expected"
fi

if command -v python3 >/dev/null; then
    cc -shared -o "$room/libgovlezna.so" -Wl,--whole-archive "$library" -Wl,--no-whole-archive
    cat >"$room/examples.py" <<END
import sys

sys.path.insert(0, "examples")
sys.dont_write_bytecode = True
import canonical


def refuses(name, text):
    try:
        canonical.entity_table({"n" * name: "t" * text})
    except ValueError:
        return True
    return False


sys.stdout.write(canonical.cdata("]]>" * $count))
assert refuses(256, 0) and refuses(300, 1) and refuses(1, 65536) and refuses(1, 65539) and not refuses(255, 65535)
END
    timeout 120 python3 "$room/examples.py" "$room/libgovlezna.so" >"$room/out"
    cmp "$room/out" "$room/expected"
fi
