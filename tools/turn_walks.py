#!/usr/bin/env python3
"""Turns the proof of a function from an older Rattle's Proof.antt into Invariants.antt and Answers.antt.

usage: python3 tools/turn_walks.py NAMES CRATE [FUNCTION..]

NAMES is the names.json that 'rt check --generated DIR --old-names' writes for the crate in the folder CRATE, behind port.py and respell.py.
Each goal gets its new name, each step is cited by its new name, and a lemma about a place becomes one about the place of the goal that
cites it. What is left by hand is printed; 'rt check' decides.
"""
import json
import os
import re
import sys

NAME = r"[^\s(){}.;,@\"«»\[\]\\λ]+"
PREFIXES = ("overflow-", "nonzero-", "slice-bounds-", "offset-bounds-", "bounds-")


def norm(s):
    return s.replace("_", "-").lower()


def contracts(root):
    """The names of the clauses of each function of src/, by its last two parts."""
    out = {}
    for folder, _, names in os.walk(os.path.join(root, "src")):
        for n in names:
            if not n.endswith(".rt"):
                continue
            text = open(os.path.join(folder, n), encoding="utf-8").read()
            for m in re.finditer(r"\bfn (\w+)", text):
                rest = text[m.end():]
                stop = re.search(r"^\{|^\}", rest, re.M)
                head = rest[: stop.start()] if stop else rest
                out[m.group(1)] = (re.findall(r"^\s+requires\*? ?(\w*) ?\{", head, re.M), re.findall(r"^\s+ensures\*? ?(\w*) ?\{", head, re.M))
    return out


def all_contracts(crates):
    return {c: contracts(os.path.join(crates, c)) for c in os.listdir(crates) if os.path.isdir(os.path.join(crates, c, "src"))}


def nested(digits, clauses):
    """A path into a tuple of clauses, which pairs the first with the rest, by their names."""
    at = 0
    while at < len(clauses) - 1 and digits and digits[0] in "01":
        first = digits[0] == "0"
        digits = digits[1:]
        if first:
            break
        at += 1
    return [clauses[at]] + digits


def paired(parts):
    return parts[0] if len(parts) == 1 else f"({parts[0]}, {paired(parts[1:])})"


def parts_of(name, n):
    """The paths to the n parts of a tuple that pairs the first with the rest."""
    return [name + ".1" * i + (".0" if i < n - 1 else "") for i in range(n)]


class Function:
    def __init__(self, path, of, known, crate):
        self.path, self.of, self.known, self.crate = path, of, known, crate
        self.notes = []
        self.steps, self.callee = {}, {}
        for old, up, (step, new), callee, _ in of["places"]:
            if step:
                self.steps.setdefault(norm(step), new)
                if callee:
                    self.callee[new] = callee
        self.arms = {}
        for arm in of["arms"]:
            for new, step, fields in (arm or [None, 0, []])[2]:
                if not new.endswith("-own"):
                    self.arms.setdefault((norm(step), *fields), [arm[0], new])
        self.goals = {}
        for old, new in of["needs"]:
            self.goals.setdefault(norm(old), new)
        self.at = {new: at[1] for (old, new), at in zip(of["needs"], of["asked_at"])}
        self.name = path.split(".")[-1]

    def clauses(self, callee, which):
        parts = callee.split("::")
        row = self.known.get(parts[0], {}).get(parts[-1])
        return [] if row is None else row[which]

    def own(self, which):
        row = self.known.get(self.crate, {}).get(self.name)
        return [] if row is None else row[which]

    def goal(self, need, decl):
        for it in (norm(need), norm(decl)):
            if it in self.goals:
                return self.goals[it]
            for p in PREFIXES:
                if it.startswith(p) and it[len(p):] in self.goals:
                    return self.goals[it[len(p):]]
        for old, new in self.of["needs"]:
            if norm(new) == norm(need):
                return new
        return None

    def walk(self, parts):
        """A path behind a place: without what leads back, by the new names."""
        parts = [p for p in parts if p != "before"]
        if not parts:
            return "c"
        head, rest = parts[0], parts[1:]
        clauses = []
        for n in range(len(parts), 1, -1):
            found = self.arms.get((norm(head), *parts[1:n]))
            if found:
                return ".".join(["c"] + found + parts[n:])
        if head in ("args", "lifetimes", "ranges"):
            new = head
        elif head == "requires":
            new, clauses = head, self.own(0)
        else:
            new = self.steps.get(norm(head)) or self.steps.get(norm(re.sub("_lem$", "", head)))
            if new is None:
                self.notes.append(f"step {head}")
                new = head
            if len(rest) > 1 and rest[0] in ("new", "auto") and rest[1].isdigit():
                names = self.of["params"].get(self.callee.get(new, ""), [])
                at = 1
                while at < len(rest) and rest[at] == "1":
                    at += 1
                if at < len(rest) and rest[at] == "0" and at - 1 < len(names):
                    rest = [rest[0], names[at - 1]] + rest[at + 1:]
            if rest and rest[0] in ("ensures", "requires"):
                clauses = self.clauses(self.callee.get(new, ""), 1 if rest[0] == "ensures" else 0)
                clauses = [rest[0]] + clauses if len(clauses) > 1 else []
        if head == "requires" and rest and rest[0].isdigit() and len(clauses) > 1:
            rest = nested(rest, clauses)
        elif clauses and len(rest) > 1 and rest[1].isdigit():
            rest = [rest[0]] + nested(rest[1:], clauses[1:])
        return ".".join(["c", new] + rest)

    def pair(self, m):
        """A call's clauses as the tuple that they were."""
        clauses = self.clauses(self.callee.get(m.group(1), ""), 1)
        if len(clauses) < 2:
            return m.group(0)
        return paired([m.group(0) + "." + n for n in clauses])

    def body(self, text, place=None, state="c"):
        states = {"c", state}
        alias = re.compile(r"let (" + NAME + r") = (" + NAME + r")((?:\.before)*) in\s*")

        def drop(m):
            if m.group(2) in states:
                states.add(m.group(1))
                return ""
            return m.group(0)

        while True:
            new = alias.sub(drop, text)
            if new == text:
                break
            text = new
        for s in sorted(states, key=len, reverse=True):
            text = re.sub(r"(?<![\w.'-])" + re.escape(s) + r"((?:\.[^\s(){}.;,\[\]]+)+)", lambda m: "\x00" + self.walk(m.group(1)[1:].split("."))[1:], text)
            if s not in ("c", "at"):
                text = re.sub(r"(?<![\w.'\x00-])" + re.escape(s) + r"(?![\w'-])", "\x00", text)
        text = text.replace("\x00", "c")
        text = re.sub(r"not-(?:true|false) _ (c\.[^\s(){},]+)", r"\1", text)
        text = re.sub(r"\((c\.[^\s(){},]+)\)", r"\1", text)
        text = re.sub(r"(?<!at )(?<!at\n)(?<![\w.])c\.([^\s(){}.,]+)\.ensures(?![\w.-])", self.pair, text)
        for m in list(re.finditer(r"let (\w+) = \((c\.[^\s(),]+\.ensures\.\w+), (c\.[^\s(),]+\.ensures\.\w+)\) in\s*", text)):
            text = text.replace(m.group(0), "")
            text = re.sub(r"(?<![\w.'-])" + m.group(1) + r"\.0(?![\w'-])", m.group(2), text)
            text = re.sub(r"(?<![\w.'-])" + m.group(1) + r"\.1(?![\w'-])", m.group(3), text)
        return text.replace(" κs =", " =").replace("λ κs. ", "")


def split_top(text):
    out, depth, cur = [], 0, ""
    for ch in text:
        if ch in "([{":
            depth += 1
        elif ch in ")]}":
            depth -= 1
        if ch == "," and depth == 0:
            out.append(cur)
            cur = ""
        else:
            cur += ch
    if cur.strip():
        out.append(cur)
    return [o.strip() for o in out]


def as_record(text, clauses):
    """The tuple that ends the text, as a record by the names of the clauses."""
    t = text.rstrip()
    if not t.endswith(")"):
        return None
    depth = 0
    for i in range(len(t) - 1, -1, -1):
        if t[i] == ")":
            depth += 1
        elif t[i] == "(":
            depth -= 1
            if depth == 0:
                break
    before, inner = t[:i], t[i + 1 : -1]
    if before.strip() and not re.search(r"(=|\bin)\s*$", before):
        return None
    parts = split_top(inner)
    if len(parts) != len(clauses):
        return None
    return before + "record {\n" + "".join(f"      {n} = {p};\n" for n, p in zip(clauses, parts)) + "    }"


def open_end(text, clauses):
    """The term that ends the text, which is a tuple, as a record by the names of the clauses."""
    cut, depth = 0, 0
    for m in re.finditer(r"[(\[{]|[)\]}]|(?<= )in(?=\s)|(?<= )=(?=\s)", text):
        if m.group(0) in "([{":
            depth += 1
        elif m.group(0) in ")]}":
            depth -= 1
        elif depth == 0 and (m.group(0) == "in" or cut == 0):
            cut = m.end()
    term = text[cut:].strip()
    if term.startswith(("rw ", "simp ", "search ", "elim ", "omega ", "grind ")):
        return None
    return text[:cut] + " let both = " + term + " in record { " + "; ".join(f"{n} = {w}" for n, w in zip(clauses, parts_of("both", len(clauses)))) + " }"


def blocks(text):
    lines = text.split("\n")
    head, i = [], 0
    while i < len(lines) and (lines[i].startswith("--") or lines[i].startswith("use ") or not lines[i].strip()):
        if lines[i].startswith("--") and any(l.startswith("use ") for l in head):
            break
        head.append(lines[i])
        i += 1
    out, cur = [], []
    for l in lines[i:]:
        if not l.strip():
            if cur and cur[-1] != "":
                cur.append("")
            continue
        if not l.startswith((" ", ")")) and cur and cur[-1] == "":
            out.append("\n".join(cur).rstrip())
            cur = []
        cur.append(l)
    if cur:
        out.append("\n".join(cur).rstrip())
    return head, out


def snake_local(name):
    return name.replace("-", "_")


def turn(path, fun, where):
    text = open(path, encoding="utf-8").read()
    head, parts = blocks(text)
    comments = [l for l in head if l.startswith("--")]
    uses = [l for l in head if l.startswith("use ") and not re.search(r"\.(Statement\.\{statement\}|Tie as tie)$", l)]
    module = "Rattle." + fun.crate + ".proofs." + fun.path
    kept, helpers, invariants, goals = [], {}, [], []
    for b in parts:
        first = next((l for l in b.split("\n") if not l.startswith("--")), "")
        m = re.match(r"abbrev (" + NAME + r") : tie\.((?:invariant|decreases)-" + NAME + ")", first)
        if m:
            invariants.append((m.group(2), m.group(1), b))
            continue
        if re.match(r"pub \S+[-_]spec : ", first):
            continue
        m = re.match(r"(" + NAME + r") : tie\.Need-(" + NAME + ")", first)
        if m:
            goals.append((m.group(1), m.group(2), b))
            continue
        if re.search(r"\(\w+ : tie\.", b):
            helpers[first.split(" ")[0]] = b
            continue
        if "tie." in b:
            fun.notes.append("tie in: " + first)
        kept.append(b)
    loops = {}
    for (name, variables), changed in zip(fun.of["loops"], fun.of["changed"]):
        loops[norm(name[0])] = (name[1], variables, changed)
    inv_text = []
    for kind, decl, b in invariants:
        word, loop = kind.split("-", 1)
        row = loops.get(norm(loop))
        if row is None:
            fun.notes.append("loop " + kind)
            continue
        new, variables, changed = row
        lines = b.split("\n")
        comment = [l for l in lines if l.startswith("--")]
        unfolding = [l for l in lines if l.startswith("unfolding ")]
        eq = "\n".join(l for l in lines if not l.startswith("--") and not l.startswith("unfolding "))
        eq = eq.split("\n", 1)[1]
        left, right = eq.split(" =", 1)
        names = left.split()[1:]
        flags = changed + [False] * (len(variables) - len(changed))
        want = [("l." if not c else "l.initial.") + v for v, c in zip(variables, flags)] + ["l." + v for v, c in zip(variables, flags) if c]
        if len(names) != len(want):
            fun.notes.append(f"invariant {kind}: {names} for {want}")
            want = (want + ["l.?"] * 20)[: len(names)]
        for n, w in sorted(zip(names, want), key=lambda x: -len(x[0])):
            if n != "_":
                right = re.sub(r"(?<![\w.'₀-])" + re.escape(n) + r"(?![\w'₀-])", lambda m: "\x00" + w[1:], right)
        right = right.replace("\x00", "l")
        inv_text.append("\n".join(comment + [f"abbrev pub {word}-{new} : goal.{word}-{new}"] + unfolding + [f"{word}-{new} l ={right}"]))
    # what the invariants name stands with them
    low, names_low = [], []
    todo = " ".join(inv_text)
    moved = True
    pool = list(kept)
    while moved:
        moved = False
        for b in list(pool):
            decls = re.findall(r"^(?:(?:pub|abbrev|record|data|unfoldable) )*(" + NAME + r")(?= )", b, re.M)
            decls = [d for d in decls if d not in ("module", "unfolding", "--", "infix")]
            if any(re.search(r"(?<![\w.'-])" + re.escape(d) + r"(?![\w'-])", todo) for d in decls):
                pool.remove(b)
                low.append(b)
                todo += " " + b
                moved = True
    low = [b for b in kept if b in low]
    kept = [b for b in kept if b not in low]
    done, answers = {}, []

    def helper(name, place):
        key = (name, place)
        if key in done:
            return done[key]
        new = snake_local(name)
        n = sum(1 for k in done if k[0] == name)
        if n:
            new += f"_{n + 1}"
        done[key] = new
        b = helpers[name]
        state = re.search(r"\((\w+) : tie\.", b).group(1)
        b = re.sub(r"\((\w+) : tie\." + NAME + r"(?: [^()]*)?\)", f"(c : goal.{place})", b)
        b = fun.body(b, place, state)
        b = cite(b, place, name)
        b = re.sub(r"(?m)^" + re.escape(name) + r"(?= )", new, b)
        answers.append(b)
        return new

    def cite(b, place, but=None):
        for h in helpers:
            if h != but and re.search(r"(?<![\w.'-])" + re.escape(h) + r"(?![\w'-]| = )", b):
                new = helper(h, place)
                b = re.sub(r"(?<![\w.'-])" + re.escape(h) + r"(?![\w'-]| = )", new, b)
        return b

    for decl, need, b in goals:
        new = fun.goal(need, decl)
        if new is None:
            fun.notes.append(f"goal {need}")
            new = need
        lines = b.split("\n")
        comment = [l for l in lines if l.startswith("--")]
        lines = [l for l in lines if not l.startswith("--")]
        unfolding = [l for l in lines if l.startswith("unfolding ")]
        eq = "\n".join(l for l in lines[1:] if not l.startswith("unfolding "))
        eq = fun.body(eq, fun.at.get(new))
        eq = cite(eq, fun.at.get(new, "?"))
        eq = re.sub(r"^" + re.escape(decl) + r"(?= )", new, eq)
        clauses = fun.own(1) if new.startswith("returns") else []
        if "-requires" in new:
            callee = next((fun.callee[s] for s in fun.callee if new.startswith(s + "-requires")), None)
            if callee is None:
                callee = next((c for c in fun.callee.values() if new.startswith(c.split("::")[-1])), "")
            clauses = fun.clauses(callee, 0)
        if len(clauses) > 1:
            it = as_record(eq, clauses) or open_end(eq, clauses)
            if it is None:
                fun.notes.append(f"clauses of {new}")
            else:
                eq = it
        answers.append("\n".join(comment + [f"pub {new} : goal.{new}"] + unfolding + [eq]))
    folder = os.path.dirname(path)
    low_names = []
    for i, b in enumerate(low):
        b = re.sub(r"^(record|abbrev|data|unfoldable) (?!pub )", r"\1 pub ", b, flags=re.M) if not b.startswith("record") else re.sub(r"^record ", "pub record ", b, flags=re.M)
        if b.lstrip().startswith("pub record") or "\npub record" in b:
            b = re.sub(r"^  (?!pub )(" + NAME + r") : ", r"  pub \1 : ", b, flags=re.M)
        elif re.match(NAME + r" :", b):
            b = "pub " + b
        low[i] = b
        low_names += re.findall(r"^(?:(?:pub|abbrev|record|data|unfoldable) )+(" + NAME + r")(?= )", b, re.M)
    if inv_text:
        out = comments + uses + [f"use {module}.Given as goal", ""] + ["\n\n".join(low + inv_text)]
        open(os.path.join(folder, "Invariants.antt"), "w", encoding="utf-8").write("\n".join(out) + "\n")
    if answers:
        more = [f"use {module}.Invariants.{{{', '.join(low_names)}}}"] if low_names else []
        out = comments + uses + more + [f"use {module}.Goals as goal", ""] + ["\n\n".join((low if not inv_text else []) + kept + answers)]
        open(os.path.join(folder, "Answers.antt"), "w", encoding="utf-8").write("\n".join(out) + "\n")
    os.remove(path)
    for n in fun.notes:
        print(f"by hand: {fun.crate}.{fun.path}: {n}")


def main(argv):
    names, where = argv[0], os.path.abspath(argv[1])
    only = argv[2:]
    of = json.load(open(names))
    crate = os.path.basename(where)
    known = all_contracts(os.path.dirname(where))
    for folder, dirs, files in os.walk(os.path.join(where, "proofs")):
        if "Proof.antt" not in files:
            continue
        path = os.path.relpath(folder, os.path.join(where, "proofs")).replace(os.sep, ".")
        if only and path not in only:
            continue
        it = of.get(f"Rattle-{crate}-proofs.{path}.Lts")
        if it is None:
            print(f"by hand: {crate}.{path}: no names")
            continue
        turn(os.path.join(folder, "Proof.antt"), Function(path, it, known, crate), where)


if __name__ == "__main__":
    main(sys.argv[1:])
