#!/usr/bin/env python3
"""Counts, in crates/*/src, the places that docs/DESIGN-PASS.md speaks of: python3 tools/places.py [POINT] [-v] [ROOT]; -v prints each place."""

import glob
import re
import sys

KEYWORDS = set("as break const continue crate else enum extern false fn for if impl in let loop match mod mut pub ref return self Self struct true type use "
               "where while".split())


def functions(text):
    """Name, parameters, clauses, body and line of each function with a body."""
    for m in re.finditer(r"^[ \t]*(?:pub )?(?:extern \"C\" )?fn (\w+)", text, re.M):
        at = text.index("(", m.end())
        depth, i = 0, at
        while True:
            depth += {"(": 1, ")": -1}.get(text[i], 0)
            i += 1
            if depth == 0:
                break
        indent = re.match(r"[ \t]*", text[text.rfind("\n", 0, m.start() + 1) + 1:]).group(0)
        end = text.index("\n" + indent + "}", i)
        head, _, body = text[i:end].partition("{\n" if "\n" + indent + "{\n" not in text[i:end] else "\n" + indent + "{\n")
        yield m.group(1), " ".join(text[at + 1:i - 1].split()), head, body, text.count("\n", 0, m.start()) + 1


def sources(root):
    for path in sorted(glob.glob(f"{root}/crates/*/src/*.rt")):
        with open(path, encoding="utf-8") as f:
            yield path[len(root) + 1:], f.read()


def lines(root, pattern):
    """The lines of code, comments and clauses left out, in which the pattern stands, once for each time."""
    for path, text in sources(root):
        for n, line in enumerate(text.split("\n"), 1):
            code = line.split("//")[0]
            if re.match(r"\s*(requires|ensures|ghost)\b", code):
                continue
            for _ in re.findall(pattern, code):
                yield f"{path}:{n}: {line.strip()}"


def own_options(root):
    """Enums of two variants, of which one or both hold a value."""
    for path, text in sources(root):
        for m in re.finditer(r"^(?:pub )?enum (\w+)[^{\n]*\{(.*?)\n\}", text, re.S | re.M):
            variants = re.findall(r"^    (\w+)(\(.*\))?,", m.group(2), re.M)
            if len(variants) == 2 and any(v for _, v in variants):
                yield f"{path}: enum {m.group(1)}"


def flags_beside(root):
    """Structs with a number or an answer beside a value."""
    for path, text in sources(root):
        for m in re.finditer(r"struct (\w+)[^{;]*\{(.*?)\n\}", text, re.S):
            if re.search(r"\b(number: u32|answer: Answer)", m.group(2)):
                yield f"{path}: struct {m.group(1)}"


def refusals(root):
    """Calls that give a refusal by its number, and functions that answer one."""
    yield from lines(root, r"\b(?:refusal|no_lined|no_report|no_figures|no_listing)\([0-9n]+\)|\bstays\([\w:]+, [0-9n]+\)")
    for path, text in sources(root):
        for name, _, _, body, _ in functions(text):
            if name.endswith("_number"):
                for n in re.findall(r"return ([1-9][0-9]*);", body):
                    yield f"{path}: {name} gives {n}"


def shape(params, body):
    """The tokens of a function with names by their order, numbers alike."""
    names = {}
    out = []
    for token in re.findall(r"\w+|[^\w\s]", params + " => " + "\n".join(l.split("//")[0] for l in body.split("\n"))):
        if token in KEYWORDS or not re.match(r"\w", token):
            out.append(token)
        elif token[0].isdigit():
            out.append("0")
        else:
            out.append(names.setdefault(token, f"v{len(names)}"))
    return tuple(t for t in out if t not in (",", "&", "mut"))


def twins(root):
    """Functions of some size that are alike but for names, types and numbers (the exports for C aside)."""
    seen = {}
    for path, text in sources(root):
        if "_c/" in path:
            continue
        for name, params, _, body, _ in functions(text):
            tokens = shape(params, body)
            if body.count("\n") >= 2 or len(tokens) >= 20:
                seen.setdefault(tokens, []).append(f"{path}: {name}")
    for group in seen.values():
        if len(group) > 1:
            yield " = ".join(group)


def facts(root):
    """Facts that stand in the requires of three functions or more."""
    count = {}
    for path, text in sources(root):
        for name, _, head, _, _ in functions(text):
            asked = " ".join(re.findall(r"requires[^{]*\{(.*)\}", head))
            for fact in set(re.findall(r"\b(LaidOut|PairIn|RunsOk|InLimits|FitOf|FitOn|CanSync|CanMount|CanEdit|Walked|IsPages)\b", asked)) | (
                    {"fits"} if "(fits " in asked or " fits " in asked else set()) | ({"sector inside"} if re.search(r"512 \* \w+(\.\w+)*\.0 \+ 512 ≤", asked) else set()):
                count.setdefault(fact, []).append(f"{path}: {name}")
    for fact, where in sorted(count.items()):
        if len(where) >= 3:
            for w in where:
                yield f"{fact}: {w}"


def together(root):
    """Functions with an image and a geometry beside it."""
    for path, text in sources(root):
        for name, params, _, _, _ in functions(text):
            if re.search(r"\b(?:card|work|img): &(?:mut )?\[u8\]", params) and re.search(r": Geo\b", params):
                yield f"{path}: {name}({params})"


def steps(root):
    """Functions that choose by the number of a step."""
    for path, text in sources(root):
        for name, _, _, _, _ in functions(text):
            if name in ("mount_step", "sync_step", "unmount_step"):
                yield f"{path}: {name}"


POINTS = {
    "1a own Option or Result": own_options,
    "1b number or answer beside a value": flags_beside,
    "1c numbers for refusals": refusals,
    "1d bits as numbers 0 and 1": lambda r: [f"{p}: {n}" for p, t in sources(r) for n, q, h, _, _ in functions(t) if re.search(r"\b(?:v|bit): u8\b", q) and "< 2" in h],
    "2 twins": twins,
    "3a loops that count by hand": lambda r: list(lines(r, r"\bwhile ")),
    "3b ranges that are walked by an index": lambda r: list(lines(r, r"\bfor \w+ in [^{]*\.\.")),
    "4a compared through .0": lambda r: list(lines(r, r"[\w.]+\.0 (?:==|!=|<=|<|>=|>) [\w.()]+\.0\b")),
    "4b widened by as": lambda r: list(lines(r, r"\bas u64\b")) + list(lines(r, r"\b(?:x|b|s\[[^\]]*\]) as u32\b")),
    "4c copied, filled, compared, converted by hand": lambda r: [f"{p}: {n}" for p, t in sources(r) for n, _, _, _, _ in functions(t) if n in (
        "wide", "fill", "clear", "put_bytes", "put_same", "word_at", "put_word", "same", "word64", "same_stamp", "one_if", "up_to", "ones_of", "put_zeros")],
    "5a facts in three contracts or more": facts,
    "5b image and geometry together": together,
    "5c parts of 512, 128 or 16 bytes cut by hand": lambda r: list(lines(r, r"\+ (?:512|128|16)(?:;|\])")),
    "6 a buffer and its length": lambda r: [f"{p}: {n}" for p, t in sources(r) for n, q, _, _, _ in functions(t) if re.search(r"order: &.*\b(?:n|last): usize|name: &\[u8\], n: usize|n: u32, b: &\[u8\]", q)],
    "7 step by number": steps,
}


def main():
    arguments = [a for a in sys.argv[1:] if a != "-v"]
    point = next((a for a in arguments if a in {k.split()[0] for k in POINTS} or a in "12345678"), "")
    root = next((a.rstrip("/") for a in arguments if a != point), ".")
    for name, find in POINTS.items():
        if name.startswith(point):
            found = list(find(root))
            print(f"{name}: {len(found)}")
            if "-v" in sys.argv:
                for place in found:
                    print(f"    {place}")


main()
