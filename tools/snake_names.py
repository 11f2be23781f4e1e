#!/usr/bin/env python3
"""Spells the definitions and lemmas of this repository as today's Rattle spells its own: words in snake case.

usage: python3 tools/snake_names.py          at the top of the repository, once, after the kit's port.py

It takes each name that a file of specs/ or a lemma file of proofs/ declares (a definition, a lemma, a field, a
constructor) and that has a dash, or a capital after a small letter, and writes it with underscores wherever it stands in
crates/: in .antt files and in the clauses and ghost items of .rt files. Types, modules, functions of src/ and strings keep
their names. What a function's own proof declares keeps its name, since it follows a goal's. Where a lemma and a definition
would have one name, the lemma gets _lem; APART names the other words that would fall together.
It is not run a second time: nothing is left for it then.
"""

import os
import re
import sys

NAME = r"[A-Za-z][\w'-]*"
DECLARED = re.compile(rf"(?m)^[ ]*(?:(?:pub|abbrev|unfoldable) )*({NAME})(?: \{{[^{{}}\n]*\}})* :(?=\s)")
TOKEN = re.compile(r"(?<![\w'◌-])[A-Za-z][\w'-]*(?![\w'◌])")
# A clause, a ghost item or a ghost block of a .rt file.
GHOST = re.compile(r"(?m)^ *ghost use [^;]*;|^ *(?:pub )?ghost [^;{]*[;{][^}]*\}?|\b(?:requires|ensures)\*?(?: \w+)? \{.*\}$")

# What would otherwise fall together with a word of another library or with a definition, and is neither lemma nor definition.
APART = {"start-in": "start_is_in", "start-work": "started_work", "bit-and": "bit_and_lem", "bit-or": "bit_or_lem"}
# Lemmas that the kit's script had already turned to the spelling of a definition.
LEMMAS = ["row_in", "row_words", "left_over", "left_after", "position_at", "has_room", "labels_in"]


def snake(name):
    return re.sub(r"(?<=[a-z0-9])[A-Z]", lambda m: "_" + m[0].lower(), name).replace("-", "_")


def files(end):
    for top, dirs, names in os.walk("crates"):
        dirs[:] = sorted(d for d in dirs if d != "out")
        for it in sorted(names):
            if it.endswith(end):
                yield os.path.join(top, it)


def is_lemma_file(path):
    """A file of specs/, or one directly in proofs/ or in a folder of lemmas: none of a function's own."""
    steps = path.split(os.sep)
    return steps[2] == "specs" or steps[2] == "proofs" and steps[-1] not in ("Proof.antt", "Answers.antt", "Invariants.antt")


def read(path):
    with open(path, encoding="utf-8") as f:
        return f.read()


def declared():
    found = {}
    for path in files(".antt"):
        if is_lemma_file(path):
            for name in DECLARED.findall(read(path)):
                found.setdefault(name, set()).add(path)
    return found


def table():
    """The names to be turned. A dash beside a definition of the same words marks the lemma about it."""
    known = declared()
    turned_to = {it for it in known if "_" in it or "-" not in it and snake(it) != it for it in [snake(it)]}
    found = {}
    for name in known:
        new = snake(name)
        if name[0].islower() and new != name:
            found[name] = APART.get(name, new + "_lem" if "-" in name and new in turned_to else new)
    return found


def turned(text, names):
    return TOKEN.sub(lambda m: names.get(m[0], m[0]), text)


def turn_antt(text, names, path):
    for it in LEMMAS if "/proofs/" in path and not path.startswith("crates/bodies/") else []:
        text = re.sub(rf"(?<![\w'.-]){it}(?![\w'-])", it + "_lem", text)
    return turned(text, names)


def turn_rt(text, names):
    return GHOST.sub(lambda m: turned(m[0], names), text)


def clashes(names):
    """Places where a new name is already a word of a file, and names that fall together."""
    said = []
    new = {}
    for a, b in sorted(names.items()):
        if b in new:
            said.append(f"{a} and {new[b]} would both be {b}")
        new[b] = a
    for path in [it for it in files(".antt") if is_lemma_file(it)] + list(files(".rt")):
        text = read(path)
        if path.endswith(".antt"):
            text = turn_antt(text, {}, path)
        text = re.sub(r"Rattle(\.[\w'-]+)+(?=\.[\w{'])", "", text)
        words = set(TOKEN.findall(text)) if path.endswith(".antt") else {w for m in GHOST.finditer(text) for w in TOKEN.findall(re.sub(r"^(requires|ensures)[*]? \w+", "", m[0]))}
        for a in sorted(words & set(names)):
            if names[a] in words:
                said.append(f"{path}: {a} beside {names[a]}")
        if path.endswith(".rt"):
            params = set(re.findall(r"[(,]\s*(?:mut )?(\w+): ", text))
            for a in sorted(words & set(names)):
                if names[a] in params:
                    said.append(f"{path}: {a} beside a parameter {names[a]}")
    return said


def main():
    names = table()
    said = clashes(names)
    if "--look" in sys.argv:
        print("\n".join(said))
        print(len(names), "names,", len(said), "clashes")
        return 0
    if said:
        print("\n".join(said))
        return 1
    for path in list(files(".antt")) + list(files(".rt")):
        old = read(path)
        new = turn_antt(old, names, path) if path.endswith(".antt") else turn_rt(old, names)
        if new != old:
            with open(path, "w", encoding="utf-8") as f:
                f.write(new)
    print(len(names), "names")
    return 0


if __name__ == "__main__":
    raise SystemExit(main())
