#!/usr/bin/env python3
"""Brings this repository's own definitions, lemmas, fields and constructors to snake case, after port.py.

usage: python3 tools/port_names.py --before   before port.py, then commit: quotes put_at, which port.py takes for a sign that the files were turned already
       python3 tools/port_names.py            after port.py, at the top of the repository
       python3 tools/port_names.py --list     prints the names it would turn, and where two would fall together; writes nothing

Only names of antt are turned: those that stand in a .antt file of crates/ in mixed case with a small first letter. They are turned in .antt and .rt files of crates/.
Functions of src/ are in snake case already; types, modules and variants keep their capitals; a dash still joins two names; getD is the library's get_or.
A lemma that would have its definition's name gets _lem (LEMMAS). A module's other name in a file, put·is, is put_is.
"""

import os
import re
import sys
from collections import defaultdict

TOKEN = re.compile(r"[^\s(){};,.@\"«»◌]+")
HUMP = re.compile(r"[a-z0-9₀-₉'][A-Z]")


# Lemmas whose name, as port.py spells it, is that of a definition in snake case: the files that declare or cite each.
LEMMAS = {
    "all_set": ["apages/proofs/OnesLaws", "card/proofs/TallyLaws"],
    "as_is": ["counts/proofs/TableLaws", "card/proofs/SoundTests", "session/proofs/FitTests", "store/proofs/ViewLaws"],
    "at_c": ["promises_crash/proofs/Wakes"],
    "at_top": ["promises_crash/proofs/Leaves/LeavesSync", "promises_crash/proofs/Leaves/LeavesUnmount"],
    "by_number": ["promises_crash/proofs/Along/AlongCalls"],
    "get_rows": ["promises_answers/proofs/Numbers/NumbersFile"],
    "run_ok": ["entries/proofs/ChangeLaws"],
}


def files(endings):
    for folder, dirs, names in os.walk("crates"):
        dirs[:] = sorted(d for d in dirs if d != "out")
        for n in sorted(names):
            if n.endswith(endings):
                yield os.path.join(folder, n)


def snake(part):
    if part == "getD":
        return "get_or"
    if not part[:1].islower() or not HUMP.search(part):
        return part
    return re.sub(r"(?<=[a-z0-9₀-₉'])([A-Z])", r"_\1", part).lower()


def turned(word):
    return "-".join(snake(p) for p in word.split("-"))


def words(text):
    return TOKEN.findall(text)


def names():
    """The words of .antt files that have another spelling in snake case."""
    found = defaultdict(set)
    for p in files((".antt",)):
        with open(p, encoding="utf-8") as f:
            for line in f:
                code = line if line.startswith("  --") else line.split("-- ")[0]
                for w in words(code):
                    if turned(w) != w and not w.startswith("Rattle"):
                        found[w].add(p)
    return found


def lemmas(path, text):
    for word, where in LEMMAS.items():
        if path[len("crates/") : -len(".antt")] in where:
            text = re.sub(rf"(?<![\w.'-]){word}(?![\w'-])", word + "_lem", text)
    return text


def aliases(text):
    """A namespace is a module: put·is, the name of one in a file, is put_is."""
    return re.sub(r"(?<=[a-z])·is\b", "_is", text)


def rewrite(turn):
    changed = 0
    for p in files((".antt", ".rt")):
        with open(p, encoding="utf-8") as f:
            old = f.read()
        new = turn(p, old)
        if new != old:
            changed += 1
            with open(p, "w", encoding="utf-8") as f:
                f.write(new)
    print(changed, "files")


def main():
    if "--before" in sys.argv:
        rewrite(lambda p, t: t if p.endswith(".rt") else re.sub(r"\bput_at\b", "«put_at»", t) if "promises_tight/specs/" in p else t)
        return
    found = names()
    table = {w: turned(w) for w in found}
    back = defaultdict(set)
    for w, t in table.items():
        back[t].add(w)
    where = defaultdict(set)
    for p in files((".antt", ".rt")):
        with open(p, encoding="utf-8") as f:
            for w in words(f.read()):
                where[w].add(p)
    for t, ws in sorted(back.items()):
        if len(ws) > 1:
            print("together:", t, sorted(ws))
        for w in ws:
            both = where[t] & found[w]
            if both:
                print("beside:", w, t, sorted(both))
            elif where[t]:
                print("elsewhere:", w, t, sorted(where[t])[:3])
    print(len(table), "names")
    if "--list" in sys.argv:
        print(" ".join(f"{w}>{t}" for w, t in sorted(table.items())))
        return
    rewrite(lambda p, t: TOKEN.sub(lambda m: table.get(m[0], m[0]), lemmas(p, aliases(t.replace("«put_at»", "put_at")))))


main()
