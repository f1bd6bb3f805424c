#!/usr/bin/env python3
"""Brings the repository's own names of specs/ and proofs/ to snake case, once, behind port.py.

usage: python3 tools/respell.py [--list] FOLDER     FOLDER holds crates/; --list prints each name with its new one, and writes nothing

A definition, lemma, field, constructor or local variable in lowerCamel or with dashes becomes snake case; types and modules keep their
capitals. Names of Rattle's library and those that Rattle makes for a function's proof stay: only a name that the repository declares, or
binds in a file of specs/ or of lemmas, is turned. Where two names would fall together, the run stops and names them.
"""
import collections
import os
import re
import sys

WORD = r"[^\s(){}.;,@\"«»\[\]\\]+"
TOKEN = re.compile(r"--[^\n]*|//[^\n]*|\"(?:[^\"\\\n]|\\.)*\"|" + WORD)
TICKED = re.compile(r"`([^`\n]+)`")
DECLARED = re.compile(r"^ *(?:(?:unfoldable|abbrev|pub|record|data|ruleset) +)*(" + WORD + r")(?: +(?:\([^()]*(?:\([^()]*\)[^()]*)*\)|\{[^{}]*\}))* :(?: |$)", re.M)
TURNS = re.compile(r"^◌?[a-z][A-Za-z0-9]*(?:-[A-Za-z0-9]+)*['₀-₉]*◌?$")
# Fields of records, which are no lemmas.
FIELDS = {"undone-raises", "no-turns"}
# Lemmas whose names are in snake case already, and would be those of a definition.
LEMMAS = {"numbers_fit": "numbers_fit_lem", "on_row": "on_row_lem", "same_step": "same_step_lem"}
# The new names of definitions, which a lemma's may not be: such a lemma ends in _lem.
TAKEN = set()


def plain(name):
    return re.sub(r"(?<=[a-z0-9])([A-Z])", r"_\1", name).lower().replace("-", "_")


def snake(name):
    if name in LEMMAS:
        return LEMMAS[name]
    out = plain(name)
    return out + "_lem" if "-" in name and out in TAKEN and name not in FIELDS else out


def turns(name):
    return name in LEMMAS or TURNS.match(name) and ("-" in name or re.search(r"[a-z0-9][A-Z]", name)) and plain(name) != name


def files(root):
    for folder, dirs, names in os.walk(os.path.join(root, "crates")):
        dirs[:] = sorted(d for d in dirs if d not in ("out", ".git"))
        for n in sorted(names):
            yield os.path.join(folder, n)


def is_walk(path):
    """A proof of a function, beside which Rattle has names of its own."""
    return os.path.basename(path) in ("Proof.antt", "Answers.antt", "Invariants.antt") and os.sep + "Laws" + os.sep not in path


def own_imports(text):
    """The names that a file imports from outside the repository's specs/ and proofs/."""
    out = set()
    for m in re.finditer(r"use ([^\s;{]+?)(?:\.\{([^}]*)\})?;?$", text, re.M):
        path, names = m.group(1), m.group(2)
        if names is None or OWN.match(path):
            continue
        for n in names.split(","):
            n = n.strip()
            if n:
                out.add(n.split(" as ")[0].strip())
    return out


OWN = None


def main(argv):
    global OWN
    listing = "--list" in argv
    root = [a for a in argv if not a.startswith("--")][0]
    crates = sorted(os.listdir(os.path.join(root, "crates")))
    OWN = re.compile(r"Rattle\.(" + "|".join(crates) + r")\.(specs|proofs)\b\b(?!\.declared)(?!(?<=proofs)[\w.+]*\.(Statement|Tie|Goals|Given)\b)")
    texts = {}
    for p in files(root):
        if p.endswith((".antt", ".rt", ".edit")):
            texts[p] = open(p, encoding="utf-8").read()
    every = set()
    for p, t in texts.items():
        if p.endswith(".antt") and not is_walk(p):
            every |= {m.group(1) for m in DECLARED.finditer(t)}
    declared = {n for n in every if turns(n)}
    TAKEN.update(plain(n) for n in every if "-" not in n and n not in LEMMAS)
    # fields of records and several names under one signature are among those; operators too
    bare = {n.strip("◌") for n in declared if n.startswith("◌")}
    declared |= bare
    outside = collections.defaultdict(set)
    for p, t in texts.items():
        for n in own_imports(t):
            if n in declared:
                outside[n].add(p)
    return declared, outside, texts, root, listing


def local_names(text):
    """Names that a file of specs/ or of lemmas binds in a term."""
    out = set()
    for m in re.finditer(r"λ ([^.]*)\.(?=\s)|\(((?:" + WORD + r" )+): |let (" + WORD + r")|\{((?:" + WORD + r" )+): |(?:elim|\||\[) ([^↦\n]*)↦", text):
        for g in m.groups():
            if g:
                out |= {w for w in re.findall(WORD, g) if turns(w)}
    for line in text.split("\n"):
        if re.match(r"^ *" + WORD + r"( [^:=]*)? =($| )", line):
            out |= {w for w in re.findall(WORD, line.split(" =")[0])[1:] if turns(w)}
    return out


def turn(path, text, names):
    def lemma(m):
        """A name of LEMMAS is a function's too: behind a dot, and in code, it stays."""
        return path.endswith(".antt") and m.string[m.start() - 1 : m.start()] not in (".", "`")

    def word(m):
        w = m.group(0)
        if w in LEMMAS:
            return LEMMAS[w] if lemma(m) else w
        if w.startswith(("--", "//")):
            return TICKED.sub(lambda k: "`" + re.sub(WORD, lambda x: snake(x.group(0)) if x.group(0) in names - set(LEMMAS) else x.group(0), k.group(1)) + "`", w)
        if w.startswith('"'):
            return w
        return snake(w) if w in names else w

    return TOKEN.sub(word, text)


def run(argv):
    declared, outside, texts, root, listing = main(argv)
    bad = 0
    by_new = collections.defaultdict(set)
    for n in declared:
        by_new[snake(n)].add(n)
    clash = []
    out = {}
    for p, t in texts.items():
        words = set(re.findall(WORD, re.sub(r"--[^\n]*|//[^\n]*", "", t)))
        skip = {n for n in declared if p in outside.get(n, ())}
        names = declared - skip
        if p.endswith(".antt") and not is_walk(p):
            names |= {n for n in local_names(t) if n not in own_imports(t)}
        used = {n for n in names if n in words}
        news = collections.defaultdict(set)
        for n in used:
            news[snake(n)].add(n)
        for new, olds in news.items():
            if new in words or len(olds) > 1:
                clash.append((p, sorted(olds), new))
        new_text = turn(p, t, names)
        if new_text != t:
            out[p] = new_text
    for p, olds, new in clash:
        print("together:", os.path.relpath(p, root), olds, new)
    for n in sorted(outside):
        print("outside:", n, len(outside[n]), [os.path.relpath(x, root) for x in sorted(outside[n])][:2])
    if listing:
        for n in sorted(declared):
            print("name:", n, snake(n))
        return 0
    for p, t in out.items():
        with open(p, "w", encoding="utf-8") as f:
            f.write(t)
    print(len(out), "files")
    return 0


if __name__ == "__main__":
    sys.exit(run(sys.argv[1:]))
