#!/usr/bin/env python3
"""Places of the design pass: prints, for each of its points, the lines of crates/*/src that it speaks of, and how many.

    tools/places.py            in this checkout
    tools/places.py FOLDER     in another one
"""
import collections
import difflib
import pathlib
import re
import sys

ROOT = pathlib.Path(sys.argv[1] if len(sys.argv) > 1 else pathlib.Path(__file__).parent.parent)


def lines(kind):
    for path in sorted(ROOT.glob(f"crates/*/{kind}")):
        for number, text in enumerate(path.read_text().splitlines(), 1):
            yield path.relative_to(ROOT), number, text


def signatures():
    """Every function: its place, its name, its parameters and its result."""
    for path in sorted(ROOT.glob("crates/*/src/*.rt")):
        text = path.read_text()
        for match in re.finditer(r"^ *(?:pub )?(?:extern \"C\" )?fn (\w+)(?:<[^(]*>)?\(([^)]*)\)(?: -> ([^\n{]+))?", text, re.M):
            place = f"{path.relative_to(ROOT)}:{text[:match.start()].count(chr(10)) + 1}"
            params = [p.strip() for p in re.sub(r"\s+", " ", match[2]).split(",") if p.strip()]
            yield place, match[1], params, (match[3] or "").strip()


def show(point, title, places):
    print(f"{point}. {title}: {len(places)}")
    for place in places:
        print(f"     {place}")


def matching(pattern, skip=r"^\s*(//|ensures|requires|ghost)"):
    return [f"{p}:{n}: {t.strip()}" for p, n, t in lines("src/*.rt") if re.search(pattern, t) and not re.search(skip, t)]


codes = r"\b(number|kind|stage|side|zero|halt|found|ended|failed|written|unread|unwritten|spent|flag)\s*: (u8|u32|bool)\b"
numbers = [f"{place}: fn {name} -> {result}" for place, name, params, result in signatures() if re.search(r"number$|^flag$", name) and result == "u32"]
show(1, "numbers for kinds and refusals, flags beside values", matching(codes) + numbers)

bodies = collections.defaultdict(list)
for path in sorted(ROOT.glob("crates/*/src/*.rt")):
    text = path.read_text()
    for match in re.finditer(r"^( *)(?:pub )?fn (\w+).*?\n\1}", text, re.M | re.S):
        code = re.sub(r"\b(?:ensures|requires)\b.*", "", match[0])
        tokens = re.findall(r"[A-Za-z_]\w*|\d+|[^\s\w]", code)
        place = f"{path.relative_to(ROOT)}:{text[:match.start()].count(chr(10)) + 1}: fn {match[2]}"
        bodies[str(path).split("crates/")[1].split("/")[0]].append((place, tokens))
twins = []
for functions in bodies.values():
    for i, (place, tokens) in enumerate(functions):
        for other, others in functions[:i]:
            if len(tokens) > 40 and difflib.SequenceMatcher(None, tokens, others, autojunk=False).ratio() > 0.8:
                twins.append(f"{place} is like {other.rsplit(' ', 1)[1]}")
show(2, "functions of one crate that are nearly the same text", twins)

show(3, "`while`, and `for` over a range", matching(r"^\s*while ") + matching(r"\bfor \w+ in \(?[\w.]+\.\."))

written = r"fn (eq|cmp|clone|from|to|default|blank|fresh|flag|copy|fmt|byte_at|number4|put_\w+|clear|unit)(_\w+)?\("
show(4, "equality, copying, conversion, printing by hand", matching(written))

facts = collections.defaultdict(list)
for path, number, text in lines("src/*.rt"):
    match = re.match(r"\s*requires (?:\w+ )?\{ (.*) \}", text)
    if match:
        fact = re.sub(r"\b(ta|tb|t|s|a|b|r|row|part|u|w|u\.old|before|points|values|out|entries)(\.(old|now|entry))?\b", "_", match[1])
        facts[fact].append(f"{path}:{number}: {match[1]}")
repeated = [place for places in facts.values() if len(places) > 2 for place in places]
groups = [f"{place}: fn {name}, {len(params)} parameters" for place, name, params, result in signatures() if len(params) > 5]
show(5, "facts in three contracts or more, and more than five parameters", repeated + groups)

beside = [f"{place}: fn {name}({', '.join(params)})" for place, name, params, result in signatures()
          if any("&" in p and "[" in p for p in params) and any(re.match(r"(count|len|length|need|d|at|from|left): usize", p) for p in params)]
pairs = matching(r"^\s*(pub )?(count|len|length): (usize|u32),")
show(6, "lengths and indices beside a buffer", beside + pairs)

show(7, "switches on a number", matching(r"\bmatch (kind|stage|number)\b") + matching(r"\bif (kind|stage|side) =="))

answers = collections.Counter(str(path).split("/")[1] for pattern in ("proofs/*/Answers.antt", "proofs/*/*/Answers.antt") for path, number, text in lines(pattern) if re.match(r"pub \S+ : goal\.", text))
print(f"8. answers in proof files: {sum(answers.values())} ({', '.join(f'{crate} {count}' for crate, count in sorted(answers.items()))})")
