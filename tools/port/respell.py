#!/usr/bin/env python3
"""Brings the repository's own definitions and lemmas to the spelling of today's Rattle.

usage: tools/port/respell.py [--list]      at the top of the repository, right after port.py

Definitions, lemmas, fields and constructors of specs/ and proofs/ are in snake case. A dash of a lemma's name stays where it
joins two names (`length-drop`), and is `_` before or after a plain word; a field has no dash. What std names itself, what
src/ names and what Rattle makes keep their spelling. Two names that fall together keep apart by `_lem`, for the lemma.
--list prints the table, old and new, and writes nothing.
"""
import os
import re
import sys

TOP = os.getcwd()
STD = "/opt/rattle/rattle"
SIGNATURE = re.compile(r"^(\s*)(?:(abbrev|unfoldable) )?(?:pub )?([^\s(){}.,;:\"]+) :(?= |$)")
TYPE = re.compile(r"^\s*(?:pub )?(record|data) ([^\s(){}.,;:]+)")
TOKEN = re.compile(r"[^\s(){}.,;:\"λ∀∃|=→×⊎¬«»]+")
# words that std's own lemmas take as names
WORDS = set("add sub mul div mod pow suc min max lt le ge gt eq neg abs not and or cond length set get_or append map take drop sum "
            "fold filter reverse replicate zip all any head tail last nth count round floor ceil shl shr sqrt log exp ln".split())


# names that may be alike: one is a field or stands in another module
ALIKE = {"init-difficulty", "init-stability", "next-difficulty", "putOff", "hasRoom", "notFound", "setsFirst", "noneDue", "isOdd"}
CHOSEN = {"none-due": "is_none_due", "is-nan": "is_nan_lem", "of-bits": "of_bits_lem"}
# what port.py had renamed to a name that is now a definition's: folder, name, new name
MOVED = [("crates/elementary/proofs/powf/", "is_odd", "is_odd_lem")]


def files(root, kinds):
    for folder, dirs, names in os.walk(root):
        dirs[:] = sorted(d for d in dirs if d not in ("out", ".git", "target"))
        for n in sorted(names):
            if n.endswith(kinds):
                yield os.path.join(folder, n)


def names_in(paths):
    """name -> set of kinds: spec (a definition of specs/), member (a field or constructor), lemma."""
    found = {}
    for p in paths:
        spec = "/specs/" in p
        inside = None
        for line in open(p, encoding="utf-8"):
            if line.lstrip().startswith("--"):
                continue
            t = TYPE.match(line)
            if t:
                inside = t.group(1)
                continue
            m = SIGNATURE.match(line)
            if m and (" : tie." in line or "statement M" in line or "-spec : " in line):
                continue
            if m:
                indent, mark, name = m.groups()
                if not indent:
                    inside = None
                kind = "member" if inside and len(indent) == 2 else "spec" if spec or mark else "lemma"
                found.setdefault(name, set()).add(kind)
            elif line[:1].strip():
                inside = None
    return found


def snake(word):
    word = re.sub(r"(?<=[a-z0-9])(?=[A-Z][a-z])|(?<=[a-z])(?=[A-Z])", "_", word)
    return word.lower() if word[:1].islower() else word


def spelled(name, kinds, known):
    if name[:1].isupper() or "◌" in name:
        return name
    parts = [snake(p) for p in name.split("-")]
    if "member" in kinds:
        return "_".join(parts)
    out = parts[0]
    for i in range(1, len(parts)):
        whole = out in known and "_".join(parts[i:]) in known
        out += ("-" if whole else "_") + parts[i]
    return out


def main():
    own = names_in(files(os.path.join(TOP, "crates"), (".antt",)))
    std = set()
    for part in ("logic", "std", "core", "std_alloc", "std_collections", "std_heap", "std_io"):
        std |= set(names_in(files(os.path.join(STD, part), (".antt",))))
    source = set()
    for p in files(os.path.join(TOP, "crates"), (".rt",)):
        source |= set(re.findall(r"\bfn ([a-z_0-9]+)", open(p, encoding="utf-8").read()))
    known = WORDS | source | {snake(n) for n, k in own.items() if "spec" in k and "-" not in n}
    table, taken = {}, set()
    order = sorted(own, key=lambda n: ("spec" not in own[n], "-" in n, n))
    for name in order:
        if name in std or name == "_":
            continue
        new = CHOSEN.get(name) or spelled(name, own[name], known)
        if new != name:
            while name not in ALIKE and (new in taken or (new in own and new != name)):
                new += "_lem"
            table[name] = new
        taken.add(new)
    if "--list" in sys.argv[1:]:
        for a, b in sorted(table.items()):
            print(a, b, ",".join(sorted(own[a])))
        for p in files(os.path.join(TOP, "crates"), (".antt", ".rt")):
            tokens = set(TOKEN.findall("\n".join(l for l in open(p, encoding="utf-8") if not l.lstrip().startswith(("--", "//")))))
            for t in sorted(tokens & set(table)):
                if table[t] in tokens:
                    print("together:", p[len(TOP) + 1:], t, table[t])
        return

    def turned(text, more):
        return TOKEN.sub(lambda m: more.get(m.group(0)) or table.get(m.group(0), m.group(0)), text)

    changed = 0
    for p in files(os.path.join(TOP, "crates"), (".antt", ".rt")):
        text = open(p, encoding="utf-8").read()
        if p.endswith(".antt"):
            new = turned(text, {a: b for folder, a, b in MOVED if p[len(TOP) + 1:].startswith(folder)})
        else:
            # of a source file, its ghost lines and clauses: no name of the code is in the table but such as stand there
            new = TOKEN.sub(lambda m: table.get(m.group(0), m.group(0)) if not re.fullmatch(r"[a-z0-9_]+", m.group(0)) else m.group(0), text)
        if new != text:
            open(p, "w", encoding="utf-8").write(new)
            changed += 1
    print(f"respell: {len(table)} names, {changed} files")


main()
