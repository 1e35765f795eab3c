#!/usr/bin/env python3
"""Brings the definitions and lemmas of this repository to the spelling of today's Rattle, after the kit's own script has run.

usage: tools/respell.py          at the top of the repository; run once

A word is in snake case: noRuns becomes no_runs, lowest-given lowest_given. A dash stays where it joins two definitions, as in codes-length.
A name that the library has, that Rattle makes, or that stands in src/ as Rust keeps its spelling. A type keeps its capitals.
A name whose new spelling another name has already in some file that knows it stays as it is, and is printed.
"""

import os
import re

NAME = r'[^\s(){}.;,@"«»:]+'
TOKEN = re.compile(rf"(?<![^\s(){{}}.;,@\"«»:]){NAME}")
HEAD = re.compile(rf"^(\s*)((?:(?:abbrev|unfoldable|pub|opaque|data|record|ruleset)\s+)*)({NAME})((?: [({{].*?)?)\s:(?=\s|$)")
RECORD = re.compile(rf"^\s*(?:pub )?(?:record|data) ({NAME})")
USE = re.compile(r"^\s*(?:pub )?(?:ghost )?use ([^\s;{]+)(\{[^}]*\})?(?: as (\S+))?", re.M)
# Words of lists and numbers that a lemma may be about.
WORDS = set("length append take drop map get_or set sum replicate reverse sets suc mod div cond min".split())

# A lemma that would have its definition's name, and a name that says what its lemma is about.
GIVEN = {it: it.replace("-", "_") + "_lem" for it in "rule-move on_line far-of without-logs lanes-text cell-value value-at from-before goes_in ranked-marks in-run".split()}
GIVEN["cell-of"] = "cell-group-place"
# Fields of a record of src/, which a definition of the same name does not meet.
APART = {"spareAims", "spareMarks", "spareWords"}


def files(ends):
    for top, dirs, names in os.walk("crates"):
        dirs[:] = sorted(d for d in dirs if d not in ("out", "target"))
        for name in sorted(names):
            if name.endswith(ends):
                yield os.path.join(top, name)


def read(path):
    with open(path, encoding="utf-8") as f:
        return f.read()


def is_walk(path):
    """A proof of one function, whose own names are those that Rattle asks for."""
    return "/proofs/" in path and os.path.basename(path) in ("Proof.antt", "Answers.antt", "Invariants.antt")


def imported(text):
    """The names that a file takes from elsewhere: those of the library, and those of this repository."""
    theirs, ours = set(), set()
    for use in USE.finditer(text):
        path, names, alias = use[1], use[2], use[3]
        is_ours = path.startswith("Rattle.") and path.split(".")[1] in CRATES
        for it in (names or "").strip("{}").split(","):
            words = it.split()
            if not words:
                continue
            (ours if is_ours else theirs).add(words[0])
            if len(words) == 3:
                # an alias is the file's own word
                ours.add(words[2])
    return theirs, ours


def is_camel(name):
    return name[0].islower() and re.search(r"[a-z0-9][A-Z]", name)


def snake(name):
    return re.sub(r"(?<=[a-z0-9])([A-Z])", lambda m: "_" + m[1].lower(), name)


def spelled(name, nouns):
    """The new spelling of a name of this repository."""
    parts = name.split("-")
    # getD is the library's get_or
    parts = ["get_or" if p == "getD" else snake(p) if p and p[0].islower() else p for p in parts]
    out = parts[0]
    for i, p in enumerate(parts[1:]):
        out += ("-" if parts[i] in nouns and p in nouns else "_") + p
    return out


CRATES = set(os.listdir("crates"))


def main():
    texts = {p: read(p) for p in files((".antt", ".rt", ".edit"))}
    antt = {p: t for p, t in texts.items() if p.endswith(".antt")}
    declared, defined = set(), set()
    for p, t in antt.items():
        if is_walk(p):
            continue
        for line in t.split("\n"):
            m = HEAD.match(line)
            if m:
                declared.add(m[3])
                if "abbrev" in m[2] or "unfoldable" in m[2]:
                    defined.add(m[3])
            m = RECORD.match(line)
            if m:
                declared.add(m[1])
    nouns = {snake(n) for n in defined if "-" not in n} | WORDS
    # what is bound in a file of laws: parameters, lambdas, lets, patterns
    turned = {}
    for n in declared:
        if "-" in n or is_camel(n):
            new = spelled(n, nouns)
            if new != n:
                turned[n] = new
    turned.update({a: b for a, b in GIVEN.items() if a in declared})
    # fields are turned as names are; a library's field of the same spelling is not among the declared
    locals_of = {}
    for p, t in antt.items():
        if is_walk(p):
            continue
        theirs, _ = imported(t)
        body = "\n".join(l.split("--")[0] if l.lstrip().startswith("--") else l for l in t.split("\n") if not re.match(r"\s*(pub )?use ", l))
        mine = {}
        for m in TOKEN.finditer(body):
            n = m[0]
            if m.start() and body[m.start() - 1] == ".":
                continue
            if n in turned or n in theirs or n in declared:
                continue
            if ("-" in n.strip("-") and re.match(r"^[A-Za-z]", n)) or is_camel(n):
                mine[n] = spelled(n, set())
        locals_of[p] = {a: b for a, b in mine.items() if a != b}
    # names that would fall together
    stays = set()
    by_new = {}
    for a, b in sorted(turned.items()):
        by_new.setdefault(b, []).append(a)
    for p, t in texts.items():
        if p.endswith(".rt"):
            # a parameter or a local of the source hides a definition of its name
            names = set(re.findall(r"(?:\blet (?:mut )?|[(,]\s*(?:mut )?)([a-z]\w*)(?=\s*[:=])", t))
            for a, b in turned.items():
                if b in names and re.search(rf"(?<![\w.-]){re.escape(a)}(?![\w'-])", t):
                    print(f"look: {p}: {a} would be hidden by {b}")
                    stays.add(a)
            continue
        words = {m[0] for m in TOKEN.finditer(t) if t[m.start() - 1 : m.start()] != "."}
        loc = locals_of.get(p, {})
        for b, olds in by_new.items():
            here = [a for a in olds if a in words and a not in APART]
            if not here:
                continue
            clash = [b] if b in words and b not in turned else []
            clash += here[1:]
            clash += [a for a, c in loc.items() if c == b]
            if clash:
                print(f"look: {p}: {here[0]} and {clash} would be {b}")
                stays.update(here)
    for n in sorted(stays):
        turned.pop(n, None)
    for p, loc in locals_of.items():
        words = set(TOKEN.findall(antt[p]))
        for a in [a for a, b in loc.items() if b in words or b in {turned.get(w, w) for w in words}]:
            print(f"look: {p}: the file's own {a} stays")
            loc.pop(a)
    # the files are written
    count = 0
    for p, t in texts.items():
        theirs, _ = imported(t)
        loc = dict(locals_of.get(p, {}))
        words = set(re.findall(r"[\w'-]+", t))
        for a in re.findall(r" as ([a-z]\w*[A-Z]\w*)(?=[,}\s;])", t):
            # a file's own word for what it imports
            if snake(a) not in words and a not in turned:
                loc[a] = snake(a)
        walk = is_walk(p)

        def put(m):
            n = m[0]
            if n in theirs:
                return n
            before = t[m.start() - 1] if m.start() else ""
            if before == ".":
                # a field, or a name behind its module: of a walk, also what Rattle makes
                if walk and re.search(r"(?:\b(?:tie|goal)|\bc(?:\.before)*(?:\.[\w-]+)?)\.$", t[max(0, m.start() - 200) : m.start()]) and not n in FIELDS:
                    return n
                return turned.get(n, n)
            return turned.get(n, loc.get(n, n))

        new = TOKEN.sub(put, t)
        if new != t:
            count += 1
            with open(p, "w", encoding="utf-8") as f:
                f.write(new)
    print(f"{len(turned)} names turned in {count} files; {len(stays)} stay")


# Fields of this repository's own records that a walk reads through what Rattle makes.
FIELDS = set()

if __name__ == "__main__":
    main()
