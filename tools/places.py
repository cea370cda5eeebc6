#!/usr/bin/env python3
"""Lists the places that docs/DESIGN-PASS.md counts, in this tree or at a commit: places.py [-v] [COMMIT].

Each line of output is a command's number and how many lines it finds; with -v the lines follow. What a command finds is a place to
read: the page says how many of the finds are places of its point."""
import collections
import re
import subprocess
import sys

LOUD = "-v" in sys.argv
COMMIT = next((a for a in sys.argv[1:] if not a.startswith("-")), None)


def git(*words):
    return subprocess.run(["git", *words], capture_output=True, text=True, check=False).stdout


def files(pattern):
    if COMMIT:
        names = git("ls-tree", "-r", "--name-only", COMMIT).split("\n")
    else:
        names = git("ls-files").split("\n")
    return [n for n in names if re.fullmatch(pattern, n)]


def text(name):
    if COMMIT:
        return git("show", f"{COMMIT}:{name}")
    with open(name) as f:
        return f.read()


SOURCES = {n: text(n) for n in files(r"crates/\w+/src/\w+\.rt")}


def found(title, hits):
    print(f"{title}: {len(hits)}")
    if LOUD:
        for hit in hits:
            print("   ", hit)


def lines(title, pattern, spare=r"^\s*(//|ghost use|ensures|requires)"):
    hits = []
    for name, whole in SOURCES.items():
        for number, line in enumerate(whole.split("\n"), 1):
            if re.search(pattern, line) and not re.search(spare, line):
                hits.append(f"{name[7:]}:{number}: {line.strip()}")
    found(title, hits)


def signatures():
    for name, whole in SOURCES.items():
        for m in re.finditer(r"\bfn (\w+)(<[^(]*>)?\(([^)]*)\)", whole):
            yield name[7:], m.group(1), [p.strip() for p in m.group(3).split(",") if p.strip()]


def together():
    """Pairs of parameters, by name and type, that three or more functions take."""
    pairs = collections.defaultdict(set)
    for name, function, params in signatures():
        params = [p for p in params if ":" in p]
        for i, one in enumerate(params):
            for other in params[i + 1:]:
                pairs[f"{one}, {other}"].add(f"{name} {function}")
    return [f"{p}: {len(f)}" for p, f in sorted(pairs.items()) if len(f) >= 3]


def facts():
    """Facts about one value that three or more functions require or promise, the value's name left out."""
    seen = collections.defaultdict(set)
    for name, whole in SOURCES.items():
        function = ""
        for line in whole.split("\n"):
            m = re.search(r"\bfn (\w+)", line)
            if m:
                function = m.group(1)
            m = re.match(r"\s*(requires|ensures)[^{]*\{(.*)\}\s*;?$", line)
            if m:
                for fact in re.split(r" × ", m.group(2)):
                    fact = re.sub(r"[()]", "", fact).strip()
                    seen[fact].add(f"{name} {function}")
    return [f"{f}: {len(w)}" for f, w in sorted(seen.items()) if len(w) >= 3]


lines("1.1 enums", r"^\s*(pub(\(\w+\))? )?enum ")
lines("1.2 refusals in an Option", r"Option<Refusal>")
lines("1.3 flags", r"(->|\w:) bool\b")
lines("1.4 places and numbers as results", r"-> (usize|u8)\b")
lines("1.5 branches that return an error", r"return Err\(|=> Err\(")
found("2.1 functions of one name in two files or more", sorted(
    f"{n}: {len(w)}" for n, w in collections.Counter(f for _, f, _ in set((a, b, ()) for a, b, _ in signatures())).items() for w in [range(w)] if len(w) > 1))
lines("2.2 constants", r"^\s*(pub(\(\w+\))? )?(const|static) ")
lines("3.1 loops", r"^\s*('\w+: )?(for|while|loop)\b")
lines("4.1 matches on an Option or Result that only rewrap", r"^\s*(None|Some\(\w+\)|Ok\(\w*\(?\)?\)|Err\(\w+\)) => (None|Some\(.*\)|Ok\(.*\)|Err\(.*\)|true|false|\w+),?$")
lines("4.2 comparisons of one case or field after another", r"fn (is|same|rank\w*|is_before|is_consulting|is_waiting|min\w*|max\w*|sooner\w*)\(")
lines("4.3 functions that convert or print", r"fn (\w+_of|numbers?\w*|told\w*|say\w*|put_\w+|to_\w+|\w+_bits|name)\b")
found("5.1 facts in three or more contracts", facts())
found("5.2 pairs of parameters in three or more functions", together())
lines("6.1 a buffer and a place or length in it", r"(&mut \[\w+\]|&\[\w+\]|&mut Vec<\w+>)(, \w+: \w+)*, \w+: (usize|u64)|^\s*(at|left|end|rest|count): ")
lines("6.2 indexing", r"\w\[\w+( [+-] \w+)*\]")
lines("7.1 flags and kinds as parameters", r"(,|\() ?\w+: (bool|Sought|Layer|Timer|Pile)\b")
lines("7.2 boxed or dynamic steps", r"\bdyn\b|Box<|: fn\(")
answers = files(r"crates/\w+/proofs/.*Answers\.antt")
print(f"8.1 files of answers: {len(answers)}, lines: {sum(text(n).count(chr(10)) for n in answers)}")
proofs = files(r"crates/\w+/proofs/.*\.antt")
print(f"8.2 files in proofs/: {len(proofs)}, lines: {sum(text(n).count(chr(10)) for n in proofs)}")
