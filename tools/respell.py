#!/usr/bin/env python3
"""Spells this repository's own definitions, lemmas, fields and constructors as today's library does: words in snake case.

usage: python3 tools/respell.py [--dry]      at the top of the repository

A dash stays where it joins the names of two functions, as in `big_endian-bytes_of`. A lemma that would fall
together with the definition that it is about gets `_lem` behind its name. Names of a library, labels that the
check makes, functions of src/, strings, inputs and outputs are left as they are.
"""
import collections
import os
import re
import sys

NAME = r"[A-Za-z_][\w']*(?:-[\w']+)*"
DECLARED = re.compile(r"(?m)^([ \t]*)(?:(?:abbrev|unfoldable|pub) )*(" + NAME + r") : (.*)$")
IMPORT = re.compile(r"(?m)^[ \t]*(?:pub )?(?:ghost )?use ([\w.'·◌≡]+)\.\{([^}]*)\}")
BINDER = re.compile(r"[({]([^:(){}]*) :")
TOKEN = re.compile(r"(?<![\w'.-])((?:" + NAME + r"\.)*)(" + NAME + r")")
FIELD = re.compile(r"(?<=[\w')\]}])\.(" + NAME + r")")
# names of functions of the library, as they stand in names of lemmas
LIBRARY = {"length", "take", "drop", "append", "set", "get_or", "map", "sum", "neg"}


def files(ends):
    for folder, inner, names in os.walk("crates"):
        inner[:] = sorted(n for n in inner if n != "out")
        for n in sorted(names):
            if n.endswith(ends):
                yield os.path.join(folder, n)


def is_old(name):
    return not name[0].isupper() and ("-" in name or re.search(r"[a-z0-9][A-Z]", name))


def words(name):
    name = re.sub(r"([a-z0-9])([A-Z]+)(?![a-z])", lambda m: m[1] + "_" + m[2].lower(), name)
    return re.sub(r"([a-z0-9])([A-Z])", lambda m: m[1] + "_" + m[2].lower(), name)


def answers(path):
    return "/proofs/" in path and os.path.basename(path) in ("Answers.antt", "Invariants.antt")


def own_path(path, crates):
    parts = path.split(".")
    return len(parts) > 1 and parts[0] == "Rattle" and parts[1] in crates


def declared(crates):
    """Each name that a file of ours declares: whether some file of specs/ does, and whether one is a field or a local."""
    specs, all_names, labels, fields = set(), set(), set(), set()
    for path in files(".antt"):
        with open(path) as f:
            text = f.read()
        for m in DECLARED.finditer(text):
            if answers(path) and m[3].startswith("goal."):
                labels.add(m[2])
                continue
            all_names.add(m[2])
            if m[1] and m[0].strip().startswith("pub "):
                fields.add(m[2])
            elif "/specs/" in path:
                specs.add(m[2])
        for m in BINDER.finditer(text):
            all_names.update(n for n in m[1].split() if re.fullmatch(NAME, n) and is_old(n))
    return specs, all_names, labels, fields


def new_names(specs, all_names, fields):
    plain = {n for n in specs if "-" not in n} | LIBRARY
    new = {}
    for n in sorted(all_names):
        if is_old(n):
            cut = [i for i, c in enumerate(n) if c == "-" and n[:i] in plain and n[i + 1:] in plain]
            parts = [n[:cut[0]], n[cut[0] + 1:]] if cut and n not in specs | fields else [n]
            new[n] = "-".join(words(p).replace("-", "_") for p in parts)
    # what falls together: the definition has the plain name
    groups = collections.defaultdict(set)
    for n in all_names:
        groups[new.get(n, n)].add(n)
    for to, names in sorted(groups.items()):
        if len(names) > 1 and to not in KEPT_TOGETHER:
            first = min(names, key=lambda n: ("-" in n, n not in specs, n == to, n))
            for n in names - {first}:
                new[n] = to + "_lem"
    return new | FIELDS


# an own field and an own name beside it, which never stand in one scope
KEPT_TOGETHER = {"in_a", "in_b"}
# a field and a lemma of one name: the field keeps the plain name, the lemma stands in one file
FIELDS = {"globals-fit": "globals_fit"}
LEMMAS = {"crates/script/proofs/LimitsLaws.antt": {"globals-fit": "globals_fit_lem"}}


def blanked(text, rust):
    """Where a name may stand: comments and strings are left out."""
    pattern = r'//[^\n]*|"(?:\\.|[^"\\])*"' if rust else r"(?<!\S)--[^\n]*"
    return [m.span() for m in re.finditer(pattern, text)]


def turned(path, text, new, crates, labels):
    rust = path.endswith(".rt")
    foreign, own = set(), set()
    for m in IMPORT.finditer(text):
        for n in m[2].split(","):
            (own if own_path(m[1], crates) else foreign).add(n.strip().split(" as ")[0])
    here = {m[2] for m in DECLARED.finditer(text)}
    theirs = foreign - own - here
    out = [] if not rust else blanked(text, True)
    clashes = set()
    # a function and its definition may share a name, a parameter and a word of its clauses may not
    bare = set(re.findall(r"\b(\w+): ", text)) if rust else {m[2] for m in TOKEN.finditer(text) if not m[1]}
    used = set()

    def inside(i):
        return any(a <= i < b for a, b in out)

    def token(m):
        before, name = m[1], m[2]
        path_parts = before.split(".")[:-1]
        head = before
        if path_parts and (path_parts[0] == "Rattle" or path_parts[0] in ("goal",)):
            return m[0]
        if path_parts and not path_parts[-1][0].isupper():
            # projections: each part behind the first is a field
            first = path_parts[0]
            parts = [named(first)] + [fielded(p) for p in path_parts[1:]] + [fielded(name)]
            return ".".join(parts)
        return head + (named(name) if not path_parts else of_module(name))

    def named(n):
        if n in new and n not in theirs and (not rust or n in own) and (n not in labels or not answers(path)):
            if new[n] in bare and new[n] not in new and new[n] not in KEPT_TOGETHER:
                clashes.add((n, new[n]))
            used.add(n)
            return new[n]
        return n

    def of_module(n):
        return new.get(n, n)

    def fielded(n):
        return new.get(n, n) if n not in labels else n

    result, at = [], 0
    for m in TOKEN.finditer(text):
        if inside(m.start()):
            continue
        result.append(text[at:m.start()])
        result.append(token(m))
        at = m.end()
    result.append(text[at:])
    text = "".join(result)
    # fields of what stands in brackets, as `(f x).held`
    if not rust:
        text = re.sub(r"(?<=[)\]])\.(" + NAME + r")", lambda m: "." + fielded(m[1]), text)
    else:
        text = re.sub(r"(?<=\))\.(" + NAME + r")", lambda m: "." + (fielded(m[1]) if is_old(m[1]) else m[1]), text)
    return text, clashes


def main():
    crates = set(os.listdir("crates"))
    specs, all_names, labels, fields = declared(crates)
    new = new_names(specs, all_names, fields)
    dry = "--dry" in sys.argv
    wrong = 0
    for path in files((".antt", ".rt")):
        with open(path) as f:
            was = f.read()
        text, clashes = turned(path, was, new | LEMMAS.get(path, {}), crates, labels)
        for n, to in sorted(clashes):
            print(f"{path}: {n} would fall together with {to}")
            wrong += 1
        if text != was and not dry:
            with open(path, "w") as f:
                f.write(text)
    for n in sorted(new):
        if "--names" in sys.argv or new[n].endswith("_lem") or "-" in new[n]:
            print(f"{n} -> {new[n]}")
    print(f"{len(new)} names, {wrong} clashes")


if __name__ == "__main__":
    main()
