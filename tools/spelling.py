#!/usr/bin/env python3
"""Brings the names of specs/ and proofs/ to one spelling: words in snake case, a dash only where it joins the name of a definition to another.

usage: python3 tools/spelling.py [--check]        at the top of the repository, once, after the kit's own script has turned it

What turns: in .antt files and in the contracts of .rt files each name of the tables below, as a whole word; in must-fail edits the names of the first
table. What stays: functions of src/, types, names of C, strings, inputs and outputs. It goes by spelling and is not to be run twice.
"""

import os
import re
import sys

HERE = os.path.dirname(os.path.dirname(os.path.realpath(__file__)))
WORD = re.compile(r"[^\s(){}.;,@\"«»\[\]`'|]+'*")
CAMEL = re.compile(r"[a-z][A-Za-z0-9_-]*[a-z0-9][A-Z][A-Za-z0-9_-]*'*$")

# Lemmas that the words of specs/ fall together with once those are in snake case: a lemma of its function's name ends in _lem.
FALLS_TOGETHER = {
    "same_key": "same_key_lem",
    "is_free": "is_free_lem",
    "place_at": "place_at_lem",
    "each_of": "each_of_lem",
    "second_at": "second_at_lem",
    "numbers_fit": "numbers_fit_lem",
}
# the files in which each of those is the lemma, and not a function of src/ or its proof
LEMMA_OF = {
    "same_key": ["collector/proofs/Meeting.antt", "collector/proofs/feeding/meet_page/Proof.antt"],
    "is_free": ["collector/proofs/Places.antt", "collector/proofs/Fresh.antt", "collector/proofs/Hold.antt", "collector/proofs/Holdings.antt", "collector/proofs/Meeting.antt", "collector/proofs/Room.antt", "collector/proofs/Search.antt", "collector/proofs/Wrong.antt", "collector/proofs/Keeps.antt", "collector/proofs/OnePlace.antt", "collector/proofs/Used.antt", "collector/proofs/Run.antt"],
    "place_at": ["image/proofs/Standing.antt", "image/proofs/head/read_places/Proof.antt"],
    "each_of": ["mt1/proofs/Several.antt", "writer/proofs/BySystem.antt", "reader/proofs/RowsStanding.antt"],
    "second_at": ["writer/proofs/Cutting.antt", "writer/proofs/render/render/Proof.antt"],
    "numbers_fit": ["writer/proofs/HeaderRecords.antt"],
}
# words of the library that a lemma's name joins to another by a dash
LIBRARY = set(
    "append length take drop get_or set replicate map reverse sum count filter fold leb ltb eqb cond bit_and bit_or bit_xor add sub mul div mod pow min max cons nil snoc not and or".split()
)


def files(root):
    for folder, dirs, names in os.walk(os.path.join(root, "crates")):
        dirs[:] = sorted(d for d in dirs if d != "out")
        for n in sorted(names):
            if n.endswith((".antt", ".rt", ".edit")):
                yield os.path.join(folder, n)


def bare(text):
    return re.sub(r"--[^\n]*", "", text)


def declared(text):
    """The names that a file of antt declares, each with whether it stands at the margin."""
    found = []
    for m in re.finditer(r"(?m)^([ \t]*)((?:abbrev |unfoldable |pub |record |data |ruleset )*)([^\s:(){}]+)\s+(?:\([^\n]*\)|\{[^\n]*\})?\s*:(?!:)", bare(text)):
        found.append((m.group(3), m.group(1) == "", m.group(2)))
    return found


def snake(name):
    return re.sub(r"(?<=[a-z0-9])([A-Z])", lambda m: "_" + m.group(1).lower(), name.replace("getD", "get_or"))


def main(argv):
    check = "--check" in argv
    texts = {p: open(p, encoding="utf-8").read() for p in files(HERE)}
    crates = os.path.join(HERE, "crates")
    words, defined, lemmas, fields = set(), set(LIBRARY), set(), set()
    for p, t in texts.items():
        if p.endswith(".antt"):
            words |= set(WORD.findall(bare(t)))
            own = os.path.relpath(p, crates).split(os.sep)
            for name, margin, marks in declared(t):
                if own[1] == "specs" or "abbrev" in marks or "unfoldable" in marks:
                    defined.add(snake(name))
                elif margin and len(own) == 3:
                    lemmas.add(name)
                elif not margin:
                    fields.add(name)
        elif p.endswith(".rt"):
            words |= set(WORD.findall(re.sub(r"//[^\n]*|\"(?:[^\"\\\n]|\\.)*\"", "", t)))
    table = {}
    for w in sorted(words):
        if CAMEL.match(w):
            table[w] = snake(w)
    # a dash stays where one side of it is the name of a definition, or a symbol
    taken = set(words) | set(table.values())
    dashed = {}
    for name in sorted(lemmas - fields):
        parts = name.split("-")
        if len(parts) < 2 or name in table or not all(parts) or not re.match(r"[a-z]", name):
            continue
        new = parts[0]
        for i in range(1, len(parts)):
            left, right = "_".join(parts[:i]), "_".join(parts[i:])
            joins = left in defined or right in defined or parts[i - 1] in defined or parts[i] in defined or not re.match(r"[A-Za-z0-9_]+'*$", parts[i - 1] + parts[i].rstrip("'")) or parts[i][0].isupper()
            new += ("-" if joins else "_") + parts[i]
        if new != name and new not in taken:
            dashed[name] = new
            taken.add(new)
    changed = 0
    for p, t in texts.items():
        own = os.path.relpath(p, crates).replace(os.sep, "/")
        antt = p.endswith(".antt")

        def turn(m):
            w, at = m.group(0), m.start()
            if w in FALLS_TOGETHER:
                if antt and own in LEMMA_OF[w] and t[at - 1 : at] != ".":
                    return FALLS_TOGETHER[w]
                return w
            if w in table:
                return table[w]
            if antt and w in dashed and t[at - 1 : at] != ".":
                return dashed[w]
            return w

        new = WORD.sub(turn, t)
        if new != t:
            changed += 1
            if not check:
                with open(p, "w", encoding="utf-8") as f:
                    f.write(new)
    print(f"spelling: {len(table)} names to snake case, {len(dashed)} lemmas whose dash joins no definition's name, {changed} files" + (" would change" if check else " changed"))
    return 0


if __name__ == "__main__":
    raise SystemExit(main(sys.argv[1:]))
