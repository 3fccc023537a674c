#!/usr/bin/env python3
"""Respell this repository's own definitions and lemmas: words in snake case, types and modules in camel case.

Run it once, at the top of the repository, after the toolchain's own script has turned the files. It renames what specs/,
proofs/ and the fields of their records define, in every .antt file and in the clauses of every .rt file. Names of goals,
of types, of constructors and of src/ stay. With --list it prints the new names and changes nothing.
"""
import glob
import re
import sys

NAME = r"[^\s(){}.;,@\"«»\[\]\\]+"
MARKS = r"(?:(?:pattern|unfoldable|abbrev|axiom|pub) )*"
TOKEN = re.compile(r"--[^\n]*|//[^\n]*|\"(?:[^\"\\\n]|\\.)*\"|«[^»\n]*»|" + NAME)

# Names that would fall together with another one, or with a word of the toolchain, get one of their own.
OWN = {
    "all_in": "all_seen_in",
    "children-below": "children_lie_below",
    "cut-both": "cut_both_is",
    "node-from": "node_from_is",
    "node_at": "entry_node",
    "on-grid": "along_on_grid",
}


def sources():
    specs = glob.glob("crates/*/specs/**/*.antt", recursive=True)
    proofs = glob.glob("crates/*/proofs/**/*.antt", recursive=True)
    return sorted(specs + proofs), sorted(glob.glob("crates/*/src/**/*.rt", recursive=True))


def read(path):
    with open(path, encoding="utf-8") as it:
        return it.read()


def defined(text):
    """Yields the names that a file of definitions, lemmas or answers declares, but for those of goals."""
    for line in text.split("\n"):
        found = re.match(rf"{MARKS}(?:record |data )?({NAME})(?:\s+[({{].*?)?\s+:\s(.*)", line)
        if found and not line.startswith(("use", "--", " ")):
            if not re.match(r"goal\.", found[2]):
                yield found[1]
        # The field of a record, or a lemma that stands in a mutual block.
        found = re.match(rf"\s+(?:abbrev )?(?:pub )?({NAME})\s+:\s", line)
        if found:
            yield found[1]


def respelled(name):
    """The name in snake case, or as it is where it is a type's."""
    if name[0].isupper() or not re.fullmatch(r"[A-Za-z0-9_'-]+", name):
        return name
    name = re.sub(r"(?<=[a-z0-9])([A-Z])", lambda it: "_" + it[1].lower(), name)
    return name.replace("-", "_")


def new_names():
    antt, _ = sources()
    names = {name for path in antt for name in defined(read(path))}
    turned = {name: OWN.get(name, respelled(name)) for name in sorted(names)}
    return {old: new for old, new in turned.items() if new != old}


def turned(text, names):
    def one(found):
        it = found[0]
        if it.startswith(("--", "//", '"', "«")):
            return it
        # What follows a dot is a field or a step of a function's proof, not one of the names in OWN.
        if it in names and text[found.start() - 1 : found.start()] == ".":
            return respelled(it)
        return names.get(it, it)

    return TOKEN.sub(one, text)


def main():
    names = new_names()
    if "--list" in sys.argv:
        for old, new in names.items():
            print(old, new)
        return
    antt, code = sources()
    for path in antt + code:
        text = read(path)
        after = turned(text, names)
        if after != text:
            with open(path, "w", encoding="utf-8") as it:
                it.write(after)
    print(len(names), "names respelled")


main()
