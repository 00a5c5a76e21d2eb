#!/usr/bin/env python3
"""Brings the repository's own definitions and lemmas to today's spelling. Run once, at the top, after the kit's port.py.

A name of specs/ or proofs/ is in snake case. A dash joins two names, as in `less-take`; a plain word, as in
`partly_first`, is added with `_`. Names of src/ and names of the library stay. Stops where two names fall together.
"""
import collections
import glob
import re
import sys

# a name: what stands between spaces, brackets, dots, commas and the like
NAME = re.compile(r"[^\s(){}\[\].,;:=|`\"⌜⌝]+")
SIGNATURE = re.compile(r"^\s*(?:unfoldable |abbrev )?(?:pub )?(?:unfoldable |abbrev )?((?:[^\s(){}:=;,.]+ )+): ")
IMPORT = re.compile(r"\buse ((?:Prim|native|mathlib|borrow|lib|denote|Rattle\.std|Rattle\.core)[\w.◌·'-]*)(?:\.\{([^}]*)\})?")
# words of the library that a dash may join
WORDS = set("zero suc length append map take drop get_or set neg add mul sub mod div lt le eq sum prod not".split())


def snake(word):
    word = word.replace("getD", "get_or")
    return re.sub(r"(?<=[a-z0-9])[A-Z]", lambda m: "_" + m.group(0).lower(), word) if word[:1].islower() else word


def files(*patterns):
    return sorted(f for p in patterns for f in glob.glob(p))


def text(f):
    with open(f, encoding="utf-8") as h:
        return h.read()


LEMMAS = files("crates/*/specs/*.antt", "crates/*/proofs/*.antt")
PROOFS = files("crates/*/proofs/*/Proof.antt", "crates/*/proofs/*/*/Proof.antt")
SOURCES = files("crates/*/src/*.rt")
PAGES = files("docs/*.md", "README.md")
EDITS = files("crates/*/must-fail/*.edit")

outside = set()
for f in LEMMAS + PROOFS + SOURCES:
    for m in IMPORT.finditer(text(f)):
        if m.group(2):
            outside |= set(w for part in m.group(2).split(",") for w in part.split())
        else:
            outside.add(m.group(1).split(".")[-1])

declared = set()
for f in LEMMAS:
    for line in text(f).splitlines():
        m = SIGNATURE.match(line)
        if m and not line.lstrip().startswith("--"):
            declared |= set(m.group(1).split()) - {"pub", "record", "data", "abbrev", "unfoldable", "module"}

functions = set()
for f in SOURCES:
    functions |= set(re.findall(r"\bfn (\w+)", text(f)))

# what a dash may join: the functions that are defined at the top of a file or of a module, and no lemma
plain = set()
for f in LEMMAS:
    for line in text(f).splitlines():
        m = re.match(r"^(?:  )?(?:unfoldable |abbrev )?(?:pub )?(?:unfoldable |abbrev )?([^\s(){}:=;,.-]+) : (.*)$", line)
        if m and not re.search("[≡≢<≤×⊎]", m.group(2)) and (line[0] != " " or re.match("  (unfoldable|abbrev|pub)", line)):
            plain.add(snake(m.group(1)))


def joins(word):
    word = snake(word)
    return word in plain or word in WORDS or not re.match(r"\w", word) or word[0] in "𝟘𝟙ℕ"


def turned(name):
    parts = name.split("-")
    out = snake(parts[0])
    for p in parts[1:]:
        out += ("-" if joins(p) and len(p.rstrip("'")) > 0 and (len(p) > 1 or not p.isascii() or not p.isalpha()) else "_") + snake(p)
    return out


# What would fall together with another name: a fact about `a` or `b`, and a lemma that has its function's name.
names = {"plain_value": "plain_value_lem", "value-at": "value_at_lem", "open-job": "open_job_lem"}
for word in "below degree lead length table".split():
    for side in "ab":
        names[f"{word}-{side}"] = f"{word}_of_{side}"

for n in sorted(declared):
    if n in names:
        continue
    if n in outside or n in functions or n[:1].isupper():
        continue
    t = turned(n)
    if t != n:
        names[n] = t

# two names that fall together
into = collections.defaultdict(set)
for n in declared:
    into[names.get(n, n)].add(n)
bad = [(t, sorted(ns)) for t, ns in into.items() if len(ns) > 1] + [(t, [n, "of the library"]) for n, t in names.items() if t in outside]
if bad:
    for t, ns in bad:
        print(f"falls together: {', '.join(ns)} -> {t}", file=sys.stderr)
    sys.exit(1)


def respelled(m):
    return names.get(m.group(0), m.group(0))


def code(s):
    """A line of a clause or proof: every name."""
    return NAME.sub(respelled, s)


changed = 0
for f in LEMMAS + PROOFS:
    old = text(f)
    new = code(old)
    if new != old:
        changed += 1
        open(f, "w", encoding="utf-8").write(new)

# In a source file only what is ghost and what a comment names; a name that looks like a word of the code is one of specs/
# there only where it has a dash or a capital inside, which no name of src/ has.
for f in SOURCES + EDITS:
    old = text(f)
    new = NAME.sub(lambda m: respelled(m) if re.search(r"-|[a-z0-9][A-Z]", m.group(0)) else m.group(0), old)
    if new != old:
        changed += 1
        open(f, "w", encoding="utf-8").write(new)

# In a page what stands in backquotes
for f in PAGES:
    old = text(f)
    new = re.sub(r"`[^`\n]*`", lambda q: code(q.group(0)), old)
    if new != old:
        changed += 1
        open(f, "w", encoding="utf-8").write(new)

print(f"{len(names)} names respelled in {changed} files")
