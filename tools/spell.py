#!/usr/bin/env python3
"""Brings this repository's own definitions and lemmas to the spelling of today's library: words in snake case.

usage: python3 tools/spell.py [--list]        at the top of the repository, once, right after the kit's port.py
       python3 tools/spell.py --answers CRATE..   later: the lemmas beside the answers of these crates' functions

It renames what specs/ and proofs/ declare (camel case and dashes become `_`) wherever a file of this repository names it: in .antt files, in
ghost lines and clauses of .rt files, in must-fail edits, and, between backticks, in comments and pages. Types, modules, functions of src/, exported C
names and strings stay. A name that a file brings in from a library stays in that file. --list prints the table and what falls together, and writes nothing.
"""

import collections
import glob
import os
import re
import sys

WORD = r"[^\s(){}.;,@\"«»\[\]\\`:|=]+"
IMPORT = re.compile(r"(?m)^[ \t]*(?:pub |ghost )*use ([^\s{};]+)\.\{([^}]*)\}")
DECLARED = re.compile(r"^[ \t]*((?:(?:pub|abbrev|unfoldable|open|private|mutual) )*)(%s(?: %s)*?)((?: \{[^}]*\})*) :(?= |$)" % (WORD, WORD))
GENERATED = re.compile(r":.*(\btie\.|\blts\.|-lts\.|Need-|\bstatement\b)")
# Lemmas that the port respelled, whose name a definition gets now. `no_room` is a definition too, in another crate.
APART = {it: it + "_lem" for it in "list_length no_table nothing_left one_more plain_at read_at trim_end trim_start walked_by".split()}
# A parameter that the port took for a name with a type in it.
GARBLED = {"in_List": "in_list"}
IN_FILES = {
    "./crates/table_declarations/proofs/Outcomes.antt": {"no_room": "no_room_lem"},
}


def respelled(name):
    name = re.sub(r"(?<=[a-z0-9])([A-Z])(?=[a-z])", lambda it: "_" + it[1].lower(), name)
    name = re.sub(r"(?<=[a-z0-9])([A-Z]+)", lambda it: "_" + it[1].lower(), name)
    return name.replace("-", "_").replace("′", "'")


def files(*ends):
    for folder, dirs, names in os.walk("."):
        dirs[:] = sorted(it for it in dirs if it not in (".git", "out", "target"))
        for name in sorted(names):
            if name.endswith(ends):
                yield os.path.join(folder, name)


def read(path):
    with open(path, encoding="utf-8", newline="") as it:
        return it.read()


def declared():
    """Returns each name that specs/ and proofs/ declare, with its files."""
    found = collections.defaultdict(set)
    for path in files(".antt"):
        is_proof = os.path.basename(path) == "Proof.antt"
        for line in read(path).split("\n"):
            it = DECLARED.match(line)
            if not it or line.lstrip().startswith("--"):
                continue
            if is_proof and (GENERATED.search(line) or it[2].startswith(("invariant-", "decreases-"))):
                continue
            for name in it[2].split():
                found[name].add(path)
    return found


def table():
    names = declared()
    new = {it: respelled(it) for it in names if re.match(r"[^\W\d_A-Z]", it) and respelled(it) != it}
    of_camel = {new[it] for it in new if re.search("[A-Z]", it)}
    # a lemma that would have a definition's name
    new.update((it, new[it] + "_lem") for it in new if "-" in it and (new[it] in of_camel or new[it] in names))
    new.update(APART)
    return {it: to for it, to in new.items() if it in names or it in APART}, names


def is_ours(module, crates):
    parts = module.replace("·", ".").split(".")
    return len(parts) > 1 and parts[0] == "Rattle" and parts[1] in crates


def foreign(text, crates):
    """The names that a file brings in from a library."""
    out = set()
    for module, names in IMPORT.findall(text):
        if not is_ours(module, crates):
            out.update(it.split(" as ")[0].strip() for it in names.split(","))
    return out


def in_code(code, names):
    return re.sub(WORD, lambda it: names.get(it[0], it[0]), code)


def in_ticks(comment, names):
    return re.sub(r"`[^`\n]*`", lambda it: in_code(it[0], names), comment)


def after_the_port(names, all_names):
    """What the port respelled in code alone: edits and pages follow it."""
    now = {names.get(it, it) for it in all_names}

    class Both(dict):
        def get(self, word, other):
            if word in names:
                return names[word]
            new = respelled(word)
            return new if new in now and re.match(r"[a-z]", word) else other

        __contains__ = names.__contains__

    return Both()


def turned(path, text, names):
    if path.endswith(".antt"):
        token = r'--[^\n]*|"(?:[^"\\\n]|\\.)*"|' + WORD
        return re.sub(token, lambda it: in_ticks(it[0], names) if it[0].startswith("--") else it[0] if it[0][0] == '"' else names.get(it[0], it[0]), text)
    if path.endswith(".rt"):
        token = r'//[^\n]*|b?"(?:[^"\\\n]|\\.)*"|b?\'(?:[^\'\\\n]|\\.)\'|' + WORD
        return re.sub(token, lambda it: in_ticks(it[0], names) if it[0].startswith("//") else names.get(it[0], it[0]) if it[0][0] not in "b\"'" or it[0] in names else it[0], text)
    if path.endswith(".edit"):
        lines = text.split("\n")
        return "\n".join(in_code(it, names) if it.startswith(("old:", "new:")) else in_ticks(it, names) for it in lines)
    return in_ticks(text, names)


def answers(crates):
    """Respells what an Answers.antt or Invariants.antt declares beside its goals, in that file."""
    for path in files("Answers.antt", "Invariants.antt"):
        if path.split(os.sep)[2] not in crates:
            continue
        text = read(path)
        names = re.findall(r"(?m)^(?:(?:pub|abbrev|unfoldable) )*(%s) :(?! goal\.)(?= )" % WORD, text)
        new = {it: respelled(it) for it in names if "-" in it}
        taken = set(re.findall(WORD, text))
        if any(it in taken for it in new.values()):
            print("falls together:", path, [it for it in new.values() if it in taken])
            continue
        now = re.sub(r"--[^\n]*|(?<![^\s(){}\[\],;])" + WORD, lambda it: in_ticks(it[0], new) if it[0].startswith("--") else new.get(it[0], it[0]), text)
        if now != text:
            with open(path, "w", encoding="utf-8", newline="") as it:
                it.write(now)
            print(path)


def main():
    if "--answers" in sys.argv:
        return answers(sys.argv[2:])
    crates = {it.split(":")[0].split()[0] for it in read("crates.txt").split("\n") if ":" in it and not it.startswith("#")}
    names, all_names = table()
    if "--list" in sys.argv:
        for old, new in sorted(names.items()):
            print(old, new)
        back = collections.defaultdict(set)
        for old, new in names.items():
            back[new].add(old)
        for new, olds in sorted(back.items()):
            if len(olds) > 1 or new in all_names:
                print("together:", new, sorted(olds), "and one of that name" if new in all_names else "", {it: sorted(all_names[it])[:3] for it in [*olds, new] if it in all_names})
        for path in files(".antt", ".rt"):
            text = read(path)
            words = set(re.findall(WORD, re.sub(r"--[^\n]*|//[^\n]*", "", text)))
            away = foreign(text, crates)
            here = collections.defaultdict(set)
            for it in words:
                here[names[it] if it in names and it not in away else it].add(it)
            for new, olds in sorted(here.items()):
                if len(olds) > 1:
                    print("in one file:", path, new, sorted(olds))
        return
    both = after_the_port(names, all_names)
    for path in [*files(".antt", ".rt", ".edit", ".md")]:
        if path.startswith("./docs/PORT"):
            continue
        text = read(path)
        away = foreign(text, crates) if path.endswith((".antt", ".rt")) else set()
        if path.endswith((".edit", ".md")):
            now = turned(path, text, both)
            if now != text:
                with open(path, "w", encoding="utf-8", newline="") as it:
                    it.write(now)
                print(path)
            continue
        here = {old: new for old, new in names.items() if old not in away and (path.endswith(".antt") or old not in APART)}
        now = turned(path, text, {**here, **IN_FILES.get(path, {}), **GARBLED})
        if now != text:
            with open(path, "w", encoding="utf-8", newline="") as it:
                it.write(now)
            print(path)


if __name__ == "__main__":
    main()
