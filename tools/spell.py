#!/usr/bin/env python3
"""Brings the repository's own definitions and lemmas to the spelling of today's Rattle, once, after port.py.

usage: python3 tools/spell.py [--dry]     at the top of the repository

Names that specs/*.antt and proofs/*.antt declare: camel case of a definition becomes snake case; a dash between plain words becomes an
underscore, and stays between two definitions' names. A lemma whose name would then be a definition's gets `_lem`. Types, modules, the names
of src/, strings and the files of one function's proof keep theirs.
"""
import os
import re
import sys

DRY = "--dry" in sys.argv
END = r"\s(){}\[\],;.:=?λ⌜⌝`\"|&<>"
DECLARED = re.compile(r"^\s*((?:abbrev|unfoldable|pub)\s+)*([^" + END + r"]+)\s+(?:\([^)]*\)\s*|\{[^}]*\}\s*)*:(?=\s|$)")
TYPE = re.compile(r"^(?:pub\s+)?(?:record|data)\s+([^" + END + r"]+)")
TOKEN = re.compile(r"(?<![^" + END + r"])[^" + END + r"]+")
STD = set("length take drop append get_or sum map set zeros false true suc pow add mul sub div mod le lt ltb leb eqb all any find reverse".split())


def files():
    for folder, dirs, names in os.walk("crates"):
        dirs[:] = sorted(d for d in dirs if d != "out")
        for n in sorted(names):
            if n.endswith((".antt", ".rt")):
                yield os.path.join(folder, n)


def own(path):
    """Whether the file is a module of definitions or lemmas, and not a file of one function's proof."""
    return path.endswith(".antt") and path.split("/")[2] in ("specs", "proofs") and len(path.split("/")) == 4


def names():
    found, types = {}, set()
    for p in files():
        if not own(p):
            continue
        lines = open(p, encoding="utf-8").read().splitlines()
        for i, l in enumerate(lines):
            if l.lstrip().startswith("--"):
                continue
            t = TYPE.match(l)
            if t:
                types.add(t.group(1))
            m = DECLARED.match(l)
            if m and m.group(2) not in ("use", "where", "module", "pub"):
                found.setdefault(m.group(2), set()).add("definition" if "abbrev" in l.split(":")[0] or "unfoldable" in l.split(":")[0] or "/specs/" in p else "lemma")
    return found, types


def snake(part):
    if re.match(r"[A-Z]", part):
        return part
    return re.sub(r"(?<=[a-z0-9])([A-Z])", lambda m: "_" + m.group(1).lower(), part)


def spelled(name, words):
    if name.startswith("◌") or "◌" in name or "→" in name:
        return name
    parts = [snake(p) for p in name.split("-")]
    if not all(parts):
        return name
    if not re.match(r"[a-z]", parts[0]) and len(parts) == 1:
        return name
    out, last = parts[0], parts[0]
    for p in parts[1:]:
        joins = (last in words or out in words or re.match(r"[A-Z]", last)) and p in words
        out += ("-" if joins else "_") + p
        last = p
    return out


def main():
    found, types = names()
    words = {snake(n) for n, k in found.items() if "definition" in k and "-" not in n} | STD
    new = {n: spelled(n, words) for n in found if n not in types}
    used = {}
    for n, s in new.items():
        used.setdefault(s, []).append(n)
    for s, ns in sorted(used.items()):
        if len(ns) > 1:
            keep = [n for n in ns if "definition" in found[n]] or [n for n in ns if n == s] or ns[:1]
            for n in ns:
                if n != keep[0]:
                    new[n] = s + "_lem"
                    print(f"falls together: {ns}: {n} is now {new[n]}")
    new = {n: s for n, s in new.items() if n != s}
    print(f"{len(new)} names of {len(found)}")
    if DRY:
        for n, s in sorted(new.items()):
            print(n, s)
        return
    for p in files():
        text = open(p, encoding="utf-8").read()
        out = []
        for l in text.splitlines(keepends=True):
            if p.endswith(".rt"):
                # strings and the code itself keep their words
                if '"' in l or not re.search(r"ghost|requires|ensures|^\s*//|≡|→|×", l):
                    out.append(l)
                    continue
            out.append(TOKEN.sub(lambda m: new.get(m.group(0), m.group(0)), l))
        if "".join(out) != text:
            open(p, "w", encoding="utf-8").write("".join(out))


main()
