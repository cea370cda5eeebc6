#!/usr/bin/env python3
"""Brings the definitions and lemmas of this repository to the kit's spelling.

usage: python3 tools/respell.py [--list]     at the top of the repository, once, after the kit's own script

Functions, lemmas, fields and constructors of specs/ and proofs/ go to snake case, facts (definitions that end in a Type) to upper camel case.
A name goes over wherever the repository's own name is meant: not in comments, not in strings, not where a file imports the same name from a library.
Names that the kit makes (goals, steps) and functions of src/ keep their spelling. --list prints the names, old and new, and writes nothing.
"""

import os
import re
import sys

# Names that would fall together with another, and what each is called.
OWN = {
    "Every-pile": "EachPileStands",
    "getD-places": "get_or-places",
    "read-++": "read-++",
}
MADE = ("Answers.antt", "Invariants.antt", "Choices.antt", "Proof.antt")
HEAD = re.compile(r"^(?P<in>\s*)(?:(?:abbrev|unfoldable)\s+)?(?:pub\s+)?(?:(?P<kind>record|data|ruleset)\s+)?(?P<name>[^\s:(){};,.]+)(?P<args>(?:\s*[({].*?)?)\s:\s(?P<type>.*)$")
WORD = re.compile(r"[^\s(){}\[\],;.λ\"]+")
LIBRARY = re.compile(r"use (?:Rattle\.std|borrow|lib|Prim|Mathlib|mathlib)\b[^{]*\{([^}]*)\}")


def sources(root):
    for folder, dirs, files in os.walk(os.path.join(root, "crates")):
        dirs[:] = sorted(d for d in dirs if d != "out")
        for f in sorted(files):
            if f.endswith((".antt", ".rt")):
                yield os.path.join(folder, f)


def declared(path):
    """The names that a file of specs/ or of lemmas declares, with whether each is a fact."""
    if not path.endswith(".antt") or (os.path.basename(path) in MADE and "/proofs/" in path):
        return
    with open(path, encoding="utf-8") as f:
        lines = f.read().split("\n")
    for line in lines:
        m = HEAD.match(line)
        if m and not line.lstrip().startswith(("use ", "--", "let ")):
            yield m["name"], m["kind"] in ("record", "data") or bool(re.search(r"Type 0(?: where)?$", m["type"].strip()))


def camel(name):
    return "".join(p[:1].upper() + p[1:] for p in name.split("-"))


def spelled(name, fact):
    if name in OWN.values():
        return name
    if name in OWN:
        return OWN[name]
    if fact:
        return camel(name)
    return name.replace("-", "_")


def renamed(root):
    facts = {}
    for path in sources(root):
        for name, fact in declared(path):
            facts[name] = facts.get(name, False) or fact
    to = {n: spelled(n, f) for n, f in facts.items()}
    return {n: t for n, t in to.items() if t != n}, set(facts)


def turned(text, names, antt):
    """The text with each of the names turned, but for comments and strings."""
    out = []
    for line in text.split("\n"):
        mark = re.search(r"(?:^|\s)--(?:\s|$)" if antt else r"(?:^|\s)//", line)
        code, rest = (line[: mark.start()], line[mark.start() :]) if mark else (line, "")
        if not antt and '"' in code:
            out.append(line)
            continue
        out.append(WORD.sub(lambda m: names.get(m[0], m[0]), code) + rest)
    return "\n".join(out)


def main(argv):
    root = "."
    names, known = renamed(root)
    fallen = {}
    for n in known:
        fallen.setdefault(names.get(n, n), []).append(n)
    for t, olds in sorted(fallen.items()):
        if len(olds) > 1:
            print(f"fall together: {t}: {', '.join(sorted(olds))}")
    if "--list" in argv:
        for n in sorted(names):
            print(n, names[n])
        return 0
    for path in sources(root):
        with open(path, encoding="utf-8") as f:
            text = f.read()
        library = {w.strip() for m in LIBRARY.finditer(text) for w in m[1].split(",")}
        mine = {n: t for n, t in names.items() if n not in library}
        new = turned(text, mine, path.endswith(".antt"))
        if new != text:
            with open(path, "w", encoding="utf-8") as f:
                f.write(new)
    print(f"{len(names)} names turned")
    return 0


if __name__ == "__main__":
    raise SystemExit(main(sys.argv))
