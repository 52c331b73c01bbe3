#!/usr/bin/env python3
"""Brings the repository's own definitions and lemmas to today's spelling: snake case, a dash only between two names, capitals only in types and modules.

usage: tools/respell.py [--list]      at the top of the repository, once, right after port.py

A name is the repository's own if a file of specs/ or a lemma file of proofs/ declares it and no file of the kit does. Its parts between dashes are turned one by one
(`quotaBy` is `quota_by`; a refusal's number `OUT-OF-RANGE` is `out_of_range_number`); a dash stays where the parts on both sides are names of definitions (`length-paste`), else it is `_`.
Functions of src/, exported C names, strings, fields and types keep their names. Turned are .antt files, the clauses and ghost lines of .rt files, and the texts of
must-fail edits. Where a lemma would fall together with a definition, the lemma gets `_lem`. --list prints old and new names and writes nothing.
"""
import collections
import os
import re
import sys

KIT = "/opt/rattle/rattle"
TOKEN = re.compile(r"[A-Za-z_][\w'\-ℕℤ₀-₉]*")
DECLARED = re.compile(r"^\s*(?:(?:abbrev|unfoldable|pub)\s+)*([A-Za-z_][\w'\-ℕℤ₀-₉]*)\s*:(?!:)")
SHAPED = re.compile(r"^\s*(?:pub\s+)?(?:record|data)\s+([A-Za-z_][\w'\-]*)")
DEFINED = re.compile(r"^\s*(?:(?:pub\s+)?(?:abbrev|unfoldable)\s+(?:pub\s+)?)([A-Za-z_][\w'\-]*)\s*:(?!:)")
STD = "append take drop length get_or set sum min max map paste pick when replicate reverse".split()


def files(root, endings):
    for folder, dirs, names in os.walk(root):
        dirs[:] = sorted(d for d in dirs if d != "out")
        for n in sorted(names):
            if n.endswith(endings):
                yield os.path.join(folder, n)


def read(p):
    with open(p, encoding="utf-8", errors="replace") as f:
        return f.read()


def kit_names():
    found = set()
    for p in files(KIT, (".antt",)):
        for l in read(p).split("\n"):
            m = DECLARED.match(l) or SHAPED.match(l)
            if m:
                found.add(m[1])
    return found


def snake(part):
    if part[:1].isupper():
        return part
    return re.sub(r"(?<=[a-z0-9])([A-Z])", lambda m: "_" + m[1].lower(), part)


def table():
    declared = collections.defaultdict(set)
    defined = set(STD)
    own_defined = set()
    for p in files("crates", (".antt",)):
        if os.path.basename(p) == "Proof.antt":
            continue
        for l in read(p).split("\n"):
            m = DECLARED.match(l) or SHAPED.match(l)
            if m:
                declared[m[1]].add(p)
            m = DEFINED.match(l) or SHAPED.match(l)
            if m:
                defined.add(m[1])
                own_defined.add(m[1])
    kit = kit_names()
    turned = {}
    for name in declared:
        if name in kit:
            continue
        if re.fullmatch(r"[A-Z][A-Z-]+", name):
            turned[name] = name.lower().replace("-", "_") + "_number"
            continue
        parts = name.split("-")
        new = snake(parts[0])
        for a, b in zip(parts, parts[1:]):
            new += ("-" if a in defined and b in defined else "_") + snake(b)
        if new != name:
            turned[name] = new
    # a name that is read behind a dot is a field: it has no `_lem`
    fields = set()
    for p in files("crates", (".antt",)):
        if os.path.basename(p) != "Proof.antt":
            for l in read(p).split("\n"):
                if not l.lstrip().startswith("use "):
                    fields |= set(re.findall(r"(?<=[\w)\]]\.)([A-Za-z_][\w'\-]*)", l.split("--")[0]))
    # of names that would fall together the definition has the name, and a lemma is `.._lem`
    groups = collections.defaultdict(set)
    for name in declared:
        groups[turned.get(name, name)].add(name)
    for new, olds in sorted(groups.items()):
        if len(olds) > 1:
            first = sorted(olds, key=lambda n: (n not in own_defined, "-" in n, n))
            for n in first[1:]:
                if n in fields:
                    print(f"a field: {n} -> {new}", file=sys.stderr)
                    continue
                if n in kit:
                    print(f"fall together: {n} of the kit's names with {first[0]}", file=sys.stderr)
                if n in own_defined:
                    print(f"fall together: two definitions {sorted(olds)} -> {new}", file=sys.stderr)
                turned[n] = new + "_lem"
    # names that would fall together with another of the same file
    for p in files("crates", (".antt",)):
        if os.path.basename(p) == "Proof.antt":
            continue
        words = set(TOKEN.findall("\n".join(l.split("--")[0] for l in read(p).split("\n"))))
        back = collections.defaultdict(set)
        for w in words:
            back[turned.get(w, w)].add(w)
        for new, olds in back.items():
            if len(olds) > 1:
                print(f"fall together: {p}: {sorted(olds)} -> {new}", file=sys.stderr)
    return turned, declared


def antt(text, turned):
    def turn(m):
        new = turned.get(m[0], m[0])
        # behind a dot stands a step of a function's proof or a function of src/, not a lemma
        return m[0] if new.endswith("_lem") and "-" not in m[0] and text[m.start() - 1:m.start()] == "." else new

    return TOKEN.sub(turn, text)


def rt(text, turned):
    """Clauses and ghost lines alone."""
    out, i = [], 0
    head = re.compile(r"(?m)^\s*ghost use [^;]*;|\b(?:requires|ensures)\*?(?:\s+\w+)?\s*\{")
    for m in head.finditer(text):
        if m.start() < i:
            continue
        out.append(text[i:m.start()])
        j = m.end()
        if m[0].endswith("{"):
            deep = 1
            while deep:
                deep += (text[j] == "{") - (text[j] == "}")
                j += 1
        out.append(antt(text[m.start():j], turned))
        i = j
    return "".join(out) + text[i:]


def edit(text, turned):
    return "\n".join(l[:5] + antt(l[5:], turned) if l.startswith(("old: ", "new: ")) else l for l in text.split("\n"))


def main():
    turned, declared = table()
    if "--list" in sys.argv:
        for old in sorted(turned):
            print(old, turned[old], *sorted(declared[old])[:2])
        return
    for p in files("crates", (".antt", ".rt", ".edit")):
        text = read(p)
        if p.endswith(".edit"):
            specs = re.search(r"(?m)^file: (specs|proofs)/", text)
            new = edit(text, turned) if specs else text
        else:
            new = antt(text, turned) if p.endswith(".antt") else rt(text, turned)
        if new != text:
            with open(p, "w", encoding="utf-8") as f:
                f.write(new)


main()
