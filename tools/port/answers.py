#!/usr/bin/env python3
"""Turns the old Proof.antt of a crate into Invariants.antt and Answers.antt.

usage: tools/port/answers.py CRATE [FUNCTION..]     at the top of the repository

It goes by what `rt check --generated DIR --old-names` says of each function: the old and the new name of each goal, step and
field. Answers that only say `search rules`, `tt` or `omega arith` are left out, since the check tries these. What it cannot
turn is printed, as 'left:'.
"""
import json
import os
import re
import shutil
import subprocess
import sys

WORD = r"[^\s(){}.,;:\"]+"


def tokens_of(text):
    return set(re.findall(r"[^\s(){}.,;:\"λ]+", text))


def chunks(text):
    """Top-level pieces: comments that stand right above belong to what follows."""
    out, now = [], []
    for line in text.split("\n"):
        starts = line[:1].strip() and not line.startswith("--")
        if line.startswith("--") or (starts and not continues(now, line)):
            if now and any(l.strip() for l in now) and not only_comments(now):
                out.append("\n".join(now).rstrip())
                now = []
        now.append(line)
    if any(l.strip() for l in now):
        out.append("\n".join(now).rstrip())
    return out


def only_comments(lines):
    return all(l.startswith("--") or not l.strip() for l in lines)


def name_of(line):
    m = re.match(r"(?:(?:abbrev|unfoldable|pub) )*(" + WORD + r")", line)
    return m.group(1) if m else None


def continues(now, line):
    """Whether this line is a clause of the declaration that `now` holds."""
    body = [l for l in now if l.strip() and not l.startswith("--")]
    if not body:
        return True
    if line.startswith("unfolding ") or line[0] in ")}]":
        return True
    if line.startswith(("use ", "module ", "open ", "pub ", "abbrev ", "unfoldable ")):
        return False
    head = name_of(body[0])
    return line.split()[0].split("(")[0] == head and not re.match(WORD + r" :( |$)", line)


SOURCES = {}


def source_of(callee):
    """What the source says of `crate::module::f`: the names of its clauses, and its `&mut` parameters."""
    if callee not in SOURCES:
        out = dict(requires=[], ensures=[], lent=[])
        crate, name = callee.split("::")[0].replace("-", "_"), callee.split("::")[-1]
        for folder, _, files in sorted(os.walk(os.path.join("crates", crate, "src"))):
            for f in files:
                text = open(os.path.join(folder, f), encoding="utf-8").read()
                m = re.search(r"\bfn " + re.escape(name) + r"\b[^(]*\((.*?)\)(?: -> [^\n]*)?\n((?:    [^\n]*\n|\n)*?)\{", text, re.S)
                if m:
                    out["lent"] = re.findall(r"(\w+): &mut ", m.group(1))
                    for kind in ("requires", "ensures"):
                        out[kind] = re.findall(r"(?m)^    " + kind + r" (\w+) \{", m.group(2))
        SOURCES[callee] = out
    return SOURCES[callee]


def clause(names, rest):
    """`1.0` of three clauses is the second's name."""
    if len(names) < 2 or not rest:
        return rest
    k = 0
    while k < len(names) - 1 and k < len(rest) and rest[k] == "1":
        k += 1
    if k == len(names) - 1:
        return [names[k]] + rest[k:]
    if k < len(rest) and rest[k] == "0":
        return [names[k]] + rest[k + 1:]
    return rest


def by_clauses(code, names):
    """The tuple that ends an answer, as a record with the clauses' names."""
    body = code.rstrip()
    parts = []
    while len(parts) < len(names) - 1:
        if not body.endswith(")"):
            return code
        depth, commas = 0, []
        for i in range(len(body) - 1, -1, -1):
            if body[i] in ")]}":
                depth += 1
            elif body[i] in "([{":
                depth -= 1
            elif body[i] == "," and depth == 1:
                commas.append(i)
            if depth == 0:
                break
        commas = [k for k in commas if body[k + 1:-1].strip()]
        before = body[:i].rstrip()
        if len(commas) != 1 or (parts and before) or (not parts and not re.search(r"(=| in|\()$", before)):
            return code
        if not parts:
            head = body[:i]
        parts.append(body[i + 1:commas[0]].strip())
        body = body[commas[0] + 1:-1].strip().rstrip(",").rstrip()
    parts.append(body)
    return head + "record { " + "; ".join(f"{n} = {p}" for n, p in zip(names, parts)) + " }"


class Function:
    def __init__(self, d, own):
        self.needs = [(a, b) for a, b in d["needs"]]
        self.asked_at = d["asked_at"]
        self.loops = d["loops"]
        self.own = own
        self.asked = d.get("asked", {})
        # an argument that is a pattern had a made name: `.args .t3` is `.args .row`
        self.args = {tuple(re.findall(r"\.([\w-]+)", a)): re.findall(r"\.([\w-]+)", b) for a, b in d.get("args", [])}
        self.changed = d["changed"]
        names = d["places_by_name"]
        self.places = {}
        self.new = {}
        for i, p in enumerate(d["places"]):
            old, parent, step, callee, renamed = p
            self.places[norm(old)] = dict(parent=norm(parent) if parent else None, step=(norm(step[0]), step[1]), callee=callee,
                                          renamed=dict(renamed), arms=d["arms"][i], clauses=d["clauses"][i], name=names[i])
            self.new[names[i]] = norm(old)

    def chain(self, place):
        out = []
        while place:
            out.append(place)
            place = self.places[place]["parent"]
        return out

    def resolve(self, var, place, path, left):
        """`resolve_step`, with the names of clauses and of what is lent, where the old path has numbers."""
        out = self.resolve_step(var, place, path, left).split(".")
        if len(out) < 3:
            return ".".join(out)
        if out[1] == "requires":
            return ".".join(out[:2] + clause(source_of(self.own)["requires"], out[2:]))
        here = [self.places[q] for q in self.chain(place) if self.places[q]["step"][1] == out[1] and self.places[q]["callee"]]
        if here:
            source = source_of(here[0]["callee"])
            if out[2] == "ensures" and len(out) > 3:
                return ".".join(out[:3] + clause(source["ensures"], out[3:]))
            if out[2] in ("new", "auto") and len(out) > 3 and out[3].isdigit() and int(out[3]) < len(source["lent"]):
                return ".".join(out[:3] + [source["lent"][int(out[3])]] + out[4:])
        return ".".join(out)

    def resolve_step(self, var, place, path, left):
        """var.path at the place, as today's names have it; path is what follows the variable."""
        start, at = place, place
        i = 0
        while i < len(path) and path[i] == "before":
            at = self.places[at]["parent"]
            if at is None and any(x in ("args", "ranges", "requires") for x in path):
                return self.resolve_step(var, place, [x for x in path if x != "before"], left)
            if at is None:
                left.append(f"{var}.{'.'.join(path)}: too many before")
                return var + "." + ".".join(path)
            i += 1
        rest = path[i:]
        if not rest:
            return ".".join([var] + path[:i])
        first = norm(rest[0])
        for q in self.chain(start):
            arm = self.places[q]["arms"]
            if not arm:
                continue
            for field, step, given in arm[2]:
                if norm(step) == first and given and rest[1:1 + len(given)] == given:
                    return ".".join([var, arm[0], field] + rest[1 + len(given):])
        p = self.places[at]
        if first == p["step"][0] and p["step"][1]:
            more = rest[1:]
            if more and more[0] in p["renamed"]:
                more = [p["renamed"][more[0]]] + more[1:]
            return ".".join([var, p["step"][1]] + more)
        if rest[0] in ("args", "ranges", "requires", "well-formed", "utf8", "lifetimes"):
            if tuple(rest[:2]) in self.args:
                rest = self.args[tuple(rest[:2])] + rest[2:]
            return ".".join([var, "well_formed" if rest[0] == "well-formed" else rest[0]] + rest[1:])
        # a step's old name stands for one place only: more places may lie between today, or the name was respelt as a lemma's
        for name in (first, re.sub(r"_lem(?=\d*$)", "", first), first.replace("_Is", "_").lower()):
            there = [self.places[q] for q in self.chain(start) if self.places[q]["step"][0] == name and self.places[q]["step"][1]]
            if len(there) == 1:
                more = rest[1:]
                if more and more[0] in there[0]["renamed"]:
                    more = [there[0]["renamed"][more[0]]] + more[1:]
                return ".".join([var, there[0]["step"][1]] + more)
        left.append(f"{var}.{'.'.join(path)}: at {at} no step {rest[0]} but {p['step']}")
        return ".".join([var] + rest)


def norm(name):
    return name.replace("-", "_") if name else name


def match_need(fn, raw, used):
    """The index of the need that the old file names raw (without `Need-`)."""
    wanted = norm(re.sub(r"^overflow-", "", raw))
    for i, (old, new) in enumerate(fn.needs):
        if norm(old) == wanted and i not in used:
            return i
    for i, (old, new) in enumerate(fn.needs):
        if norm(re.sub(r"^(overflow|bounds|nonzero)[-_]", "", old)) == wanted and i not in used:
            return i
    return None


def turn_paths(text, var, place, fn, left):
    """Resolves var.a.b.c of a variable at a place, and `let x = var.before in` that names an earlier place."""
    while True:
        m = re.search(r"let (" + WORD + r") = " + re.escape(var) + r"((?:\.before)*) in(?=\s)\s*", text)
        if not m:
            break
        alias, befores = m.group(1), m.group(2)
        head, tail = text[:m.start()], text[m.end():]
        tail = re.sub(r"(?<![\w.'-])" + re.escape(alias) + r"(?![\w'-])", lambda _: var + befores, tail)
        text = head + tail
    pattern = r"(?<![\w.'₀-])" + re.escape(var) + r"((?:\.[\w'₀-]+)+)"
    return re.sub(pattern, lambda m: fn.resolve(var, place, m.group(1)[1:].split("."), left), text)


TRIVIAL = re.compile(r"^(search rules|tt|omega arith|search \(rules\)|refl)$")


def turn_file(path, module, fn, crate):
    text = open(path, encoding="utf-8").read()
    text = re.sub(r"\n\s*where\n", "\n  where\n", text)
    left, uses, notes, helpers, answers, invariants = [], [], [], [], [], []
    used, renamed, trivial = set(), {}, {}
    for chunk in chunks(text):
        lines = chunk.split("\n")
        code = [l for l in lines if l.strip() and not l.startswith("--")]
        comment = [l for l in lines if l.startswith("--")]
        if not code:
            notes += comment
            continue
        head = code[0]
        if head.startswith(("use ", "open use")):
            notes += comment
            uses += [c for c in join_uses(code)]
            continue
        if "tie.close" in chunk or re.search(r"_spec :|-spec :", head):
            continue
        m = re.match(r"abbrev (?:pub )?(" + WORD + r") : tie\.(invariant|decreases)-(" + WORD + ")", head)
        if m:
            invariants.append((comment, m.group(2), m.group(3), "\n".join(code[1:])))
            continue
        m = re.match(r"(?:pub )?(" + WORD + r") : tie\.Need-(" + WORD + r")", head)
        if m:
            i = match_need(fn, m.group(2), used)
            body = "\n".join(code[1:])
            plain = re.sub(r"^" + re.escape(m.group(1)) + r"[^=]*= *", "", body).strip()
            if i is None:
                if not TRIVIAL.match(plain):
                    left.append(f"no goal for {m.group(2)}: {plain[:200]}")
                continue
            used.add(i)
            if TRIVIAL.match(plain):
                trivial[i] = plain
                continue
            renamed[m.group(1)] = fn.needs[i][1]
            answers.append((comment, m.group(1), fn.needs[i][1], norm(fn.asked_at[i][0]), body))
            continue
        helpers.append((comment, code))
    # a place is named only where a goal of it is answered
    for place in sorted(set(norm(q) for _, code in helpers for q in re.findall(r"tie\.(" + WORD + r")", "\n".join(code)))):
        if place not in fn.places or any(a[3] == place for a in answers):
            continue
        at = [i for i in range(len(fn.needs)) if norm(fn.asked_at[i][0]) == place]
        at.sort(key=lambda i: i not in trivial)
        if not at:
            left.append(f"no goal is asked at {place}, which a helper names")
            continue
        new = fn.needs[at[0]][1]
        uses.append("use Rattle.std.proofs.Common.{rules}")
        uses.append("use Rattle.std.proofs.Common.{arith}")
        answers.append(([], new, new, place, f"{new} c = {trivial.get(at[0], 'search rules')}"))
    write(path, module, fn, crate, left, uses, notes, helpers, answers, invariants, renamed)
    return left


def join_uses(code):
    out = []
    for l in code:
        if l.startswith(("use ", "open use ", "pub use ")):
            out.append(l)
        else:
            out[-1] += " " + l.strip()
    return out


def unbound(text):
    """A variable that a λ binds again is that one: `(λ l.i. f l.i)` is `(λ i. f i)`."""
    at = 0
    while True:
        at = text.find("(λ l.", at)
        if at < 0:
            return text
        depth, end = 0, at
        while end < len(text):
            depth += {"(": 1, ")": -1}.get(text[end], 0)
            end += 1
            if depth == 0:
                break
        name = re.match(r"\(λ l\.([\w'₀-]+)", text[at:]).group(1)
        inner = re.sub(r"\bl\." + re.escape(name) + r"(?![\w'₀-])", name, text[at:end])
        text = text[:at] + inner + text[end:]
        at += 1


def prune(uses, body):
    have = tokens_of(body)
    flat = body
    out = []
    for u in uses:
        m = re.match(r"use (.*?)\.\{(.*)\}$", u)
        if m:
            keep = []
            for n in [x.strip() for x in m.group(2).split(",") if x.strip()]:
                local = n.split(" as ")[-1]
                parts = [p for p in local.split("◌") if p]
                if all(p in have or (not p[0].isalnum() and p in flat) for p in parts):
                    keep.append(n)
            if keep:
                out.append(f"use {m.group(1)}.{{{', '.join(keep)}}}")
            continue
        m = re.match(r"use (\S+)(?: as (\S+))?$", u)
        if m:
            local = m.group(2) or m.group(1).split(".")[-1]
            if re.search(r"(?<![\w.])" + re.escape(local) + r"\.", flat):
                out.append(u)
            continue
        out.append(u)
    return out


def write(path, module, fn, crate, left, uses, notes, helpers, answers, invariants, renamed):
    folder = os.path.dirname(path)
    uses = [u for u in uses if not re.search(r"\.(Statement\.\{statement\}|Tie as tie)$", u)]
    if invariants:
        body = []
        for comment, kind, loop, code in invariants:
            k = next(i for i, l in enumerate(fn.loops) if norm(l[0][0]) == norm(loop))
            (old, new), names = fn.loops[k]
            m = re.match(r"((?:unfolding .*\n)?)" + re.escape(f"{kind}-{loop}") + r"((?:\s+[^\s=]+)*)\s+=(.*)", code, re.S)
            if not m:
                left.append(f"{kind}-{loop}: its clause is not read")
                continue
            args = m.group(2).split()
            wanted = [("initial." + n if c else n) for n, c in zip(names, fn.changed[k])] + [n for n, c in zip(names, fn.changed[k]) if c]
            if len(args) != len(wanted):
                left.append(f"{kind}-{loop}: {len(args)} arguments, {len(wanted)} variables: {args} {wanted}")
            rhs = m.group(3)
            table = {a: "l." + w for a, w in zip(args, wanted) if a != "_"}
            rhs = re.sub(r"(?<![\w.'₀◌-])[A-Za-z_][\w'₀-]*", lambda q: table.get(q.group(0), q.group(0)), rhs)
            rhs = unbound(rhs)
            body.append("\n".join(comment + [f"abbrev pub {kind}-{new} : goal.{kind}-{new}", f"{m.group(1)}{kind}-{new} l ={rhs}"]))
        text = "\n\n".join(body)
        out = "\n".join(notes + prune(uses, text) + [f"use Rattle.{crate}.proofs.{module}.Given as goal"]) + "\n\n" + text + "\n"
        open(os.path.join(folder, "Invariants.antt"), "w", encoding="utf-8").write(out)
    if answers or left:
        body = []
        for comment, code in helpers:
            text = "\n".join(code)
            for var, place in re.findall(r"\((\w+) : tie\.(" + WORD + r")", text):
                if norm(place) in fn.places:
                    text = turn_paths(text, var, norm(place), fn, left)
                else:
                    left.append(f"no place {place}")
            text = re.sub(r"tie\.(" + WORD + r")((?: (?:invariant|decreases)-[\w-]+)*)",
                          lambda m: "goal." + fn.places[norm(m.group(1))]["name"] if norm(m.group(1)) in fn.places else m.group(0), text)
            body.append("\n".join(comment + [text]))
        for comment, old, new, place, code in answers:
            code = re.sub(r"(?<=[ (,])(" + WORD + r")(?= c\b)", lambda q: renamed.get(q.group(1), q.group(1)), code)
            code = re.sub(r"(?m)^" + re.escape(old) + r"(?= )", new, code)
            code = re.sub(r"(?m)^(" + re.escape(new) + r" \w+) κs(?= |$)", r"\1", code)
            var = re.search(r"(?m)^" + re.escape(new) + r" (\w+)", code)
            if var and place in fn.places:
                code = turn_paths(code, var.group(1), place, fn, left)
            clauses = [fn.asked[n] for n, m in fn.needs if m == new and len(fn.asked.get(n, [])) > 1]
            if clauses:
                code = by_clauses(code, clauses[0])
            body.append("\n".join(comment + [f"pub {new} : goal.{new}", code]))
        text = "\n\n".join(body)
        top = [] if invariants else notes
        out = "\n".join(top + prune(uses, text) + [f"use Rattle.{crate}.proofs.{module}.Goals as goal"]) + "\n\n" + text + "\n"
        open(os.path.join(folder, "Answers.antt"), "w", encoding="utf-8").write(out)
    os.remove(path)
    if not os.listdir(folder):
        os.rmdir(folder)


def main():
    crate, only = sys.argv[1], sys.argv[2:]
    top = os.path.abspath(os.path.join("crates", crate))
    out = f"/tmp/old-names/{crate}"
    shutil.rmtree(out, ignore_errors=True)
    said = subprocess.run(["rt", "check", "--generated", out, "--old-names"], cwd=top, capture_output=True, text=True)
    table = os.path.join(out, "names.json")
    if not os.path.exists(table):
        sys.exit("answers: no names: " + (said.stdout + said.stderr)[-3000:])
    names = json.load(open(table))
    for folder, dirs, files in sorted(os.walk(os.path.join(top, "proofs"))):
        if "Proof.antt" not in files:
            continue
        module = os.path.relpath(folder, os.path.join(top, "proofs")).replace("/", ".")
        path = os.path.join(folder, "Proof.antt")
        text = open(path, encoding="utf-8").read()
        if only and module not in only:
            continue
        key = f"Rattle-{crate}-proofs.{module}.Lts"
        if "tie.close" not in text or key not in names or "needs" not in names[key]:
            print(f"left: {module}: not turned" + ("" if "tie.close" in text else " (a walk by hand)"))
            continue
        for l in turn_file(path, module, Function(names[key], f"{crate}::" + module.replace(".", "::")), crate):
            print(f"left: {module}: {l}")


if __name__ == "__main__":
    main()
