#!/usr/bin/env bash
# harness_imports.sh [FOLDER]: no circle of imports in harness/src, neither of files nor of folders. A file imports what it names by a
# path from `crate`, `super` or a module that it declares; where two files lie in different folders, the one folder imports the other.
set -eu
cd "$(dirname "$0")/.."
cd "${1:-harness/src}"
room=$(mktemp -d)
trap 'rm -rf "$room"' EXIT

find . -name '*.rs' | sed 's|^\./||' | sort >"$room/files"
# Prints each import as a pair. A folder's own file, x/mod.rs or x.rs beside x/, is x/mod.
awk '
    function is_name(token) { return token ~ /^[A-Za-z_]/ }

    # The next token after a path, which is printed; of a group each path.
    function follow(path, at) {
        if (tokens[at] == "{") {
            for (at++; tokens[at] != "}" && at <= count; at += tokens[at] == ",") at = follow(path, at)
            return at + 1
        }
        if (tokens[at] == "super") sub(/\/?[^\/]*$/, "", path)
        else if (is_name(tokens[at]) && tokens[at] != "self" && tokens[at] != "crate") path = path (path == "" ? "" : "/") tokens[at]
        if (tokens[at + 1] == "::") return follow(path, at + 2)
        imports(path)
        return at + 1
    }

    function imports(path) {
        while (path != "" && !(path in node)) sub(/\/?[^\/]*$/, "", path)
        pair(here, path == "" ? "main" : node[path])
    }

    # The first parts in which two files differ: the files themselves, or folders that they lie in.
    function pair(from, to,    i, left, right, one, other) {
        split(from, left, "/"); split(to, right, "/")
        one = left[1]; other = right[1]
        for (i = 2; one == other && i in left && i in right; i++) { one = one "/" left[i]; other = other "/" right[i] }
        if (one != other) print one, other
    }

    function read(file,    line, text) {
        count = 0; split("", tokens); split("", declared)
        while ((getline line <file) > 0) {
            sub(/\/\/.*/, "", line)
            if (match(line, /mod [a-z_0-9]+;/)) declared[substr(line, RSTART + 4, RLENGTH - 5)] = 1
            for (text = line; match(text, /[A-Za-z_][A-Za-z_0-9]*|::|[^ ]/); text = substr(text, RSTART + RLENGTH))
                tokens[++count] = substr(text, RSTART, RLENGTH)
        }
    }

    { path = $0; sub(/(\/mod)?\.rs$/, "", path); files[$0] = path; node[path] = path }
    END {
        for (file in files) for (path = files[file]; sub(/\/[^\/]*$/, "", path);) node[path] = path "/mod"
        for (file in files) {
            path = files[file]; here = node[path]
            read(file)
            for (at = 1; at <= count; at++) {
                if (tokens[at + 1] != "::" || tokens[at - 1] == "::") continue
                if (tokens[at] == "crate") at = follow("", at) - 1
                else if (tokens[at] == "super" || tokens[at] in declared) at = follow(path == "main" ? "" : path, at) - 1
            }
        }
    }' "$room/files" | sort -u >"$room/imports"
if ! tsort "$room/imports" >"$room/order" 2>"$room/circles"; then
    sed 's/^tsort: .*input contains a loop:$/a circle:/; s/^tsort: /    /' "$room/circles"
    exit 1
fi
