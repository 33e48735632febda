#!/usr/bin/env python3
"""Counts the places of docs/DESIGN-PASS.md, points 1 to 7, in crates/*/src.

usage, at the top of the repository: python3 tools/places.py [POINT]
With a point it prints that point's places, else how many places each point has.
"""
import collections
import pathlib
import re
import sys

WITH = "At Byte Value Given Known Pass Free Good GoodMap Accepted Done There Count Slot Bytes Next Fits Whole Onward Counted Read Cbfs Same Both Primary OfSize".split()
WITHOUT = ("None Nothing Nowhere NoPlace Omitted Unknown Wrong Other Lowest Last Neither Refused Stop Stopped Fault Uncounted Failed Over Missing Unfit NoSize "
           "NoSignature NoGoodMap WrongLength NotGuidText Undecided Unfits Unsized Breaks").split()
FLAGS = "answer|good|named|sized|identified|placed|typed"
STANDS_FOR_NONE = (r"for any other (byte|text)|, or (the length|their count)|rule that .* breaks?, or 0|where there is none|\(SLOTS: of all\)|offends, or 0|0 where none|"
                   r"has this size now, 0 where|link to a row: none|or 0, and how many|0 where two")
KEYWORDS = set("fn let mut if else while for in match return loop break continue true false as pub const struct enum impl ref move".split())
CONVERTS = (r"^(pub )?fn (number|code|carried_of|guid_of|name_of|copy|copy_bytes|copy_block|copy_halves|same|same_from|zero_from|is_zero|offset_from|mark_word|rule_of)\b|"
            r"^pub fn fill\(|fn size_from\(tag")
SIZES = r"16|32|64|near|far|head|tail"
TOGETHER = r"\bfirsts: |\blows: |\brows: &|\bspots: &|\bmatches: &|out: &mut \[u8\], at: usize|\bkept: &|\bolds: &|n: u64, shape: Shape"


def sources():
    for path in sorted(pathlib.Path("crates").glob("*/src/**/*.rt")):
        yield str(path), path.read_text().split("\n")


def items(lines, start):
    """The heads that match, with the lines of their blocks: (line number, head, block)."""
    i = 0
    while i < len(lines):
        if re.match(start, lines[i]):
            j = i
            while j < len(lines) and not re.match(r"^\s*\}", lines[j]) and not lines[j].endswith(";"):
                j += 1
            yield i + 1, lines[i], lines[i + 1 : j]
            i = j
        i += 1


def enums():
    for path, lines in sources():
        for at, head, block in items(lines, r"^\s*(pub )?enum "):
            cases = [m.group(1) for m in (re.match(r"\s*([A-Z]\w*)", x) for x in block) if m]
            if any(c in WITH for c in cases) and any(c in WITHOUT for c in cases):
                yield f"{path}:{at}: {head.strip(' {')}"


def matching(pattern, *, code=True):
    for path, lines in sources():
        for at, line in enumerate(lines, 1):
            is_comment = line.lstrip().startswith("//")
            if is_comment != code and re.search(pattern, line):
                yield f"{path}:{at}: {line.strip()}"


def flags():
    for path, lines in sources():
        for at, head, block in items(lines, r"^\s*(pub )?struct \w+.*\{"):
            for k, line in enumerate(block):
                if re.match(rf"\s*(pub )?({FLAGS}): ", line):
                    yield f"{path}:{at + 1 + k}: {line.strip()}"


def functions():
    """(place, name, body) of each function, the body with its names, numbers and constants taken out."""
    for path, lines in sources():
        i = 0
        while i < len(lines):
            m = re.match(r"^(\s*)(?:pub )?(?:const |extern \"C\" )*fn (\w+)", lines[i])
            if m:
                end = next((j for j in range(i, len(lines)) if lines[j] == m.group(1) + "}"), i)
                start = next((j for j in range(i, end) if lines[j].rstrip().endswith("{") and not re.match(r"\s*(requires|ensures|×)", lines[j])), i)
                body = "\n".join(x.strip() for x in lines[start + 1 : end] if not x.strip().startswith("//"))
                words = re.findall(r"\w+|[^\w\s]", body)
                yield f"{path}:{i + 1}: {m.group(2)}", len(body.split("\n")), " ".join(w if w in KEYWORDS or not w[0].isalnum() else "x" for w in words)
                i = end
            i += 1


def twins():
    """Functions of three lines or more whose bodies are the same but for names and numbers, and functions of a crate whose names differ only in a size or a side."""
    bodies, names = collections.defaultdict(list), collections.defaultdict(list)
    for place, size, body in functions():
        if size >= 3:
            bodies[body].append(place)
        name = place.split()[-1]
        if re.search(SIZES, name):
            names[place.split("/src/")[0], re.sub(SIZES, "_", name)].append(place)
    groups = [g for g in [*bodies.values(), *names.values()] if len(g) > 1]
    yield from sorted({place for group in groups for place in group})


def facts():
    """The facts that stand in the `requires` of three functions or more, buffers' and numbers' names taken out."""
    count = collections.Counter()
    for _, lines in sources():
        inside = False
        for line in lines:
            if line.strip().startswith("requires"):
                inside = True
            elif line.strip().startswith(("ensures", "{")):
                inside = False
            if inside:
                text = re.sub(r"^\s*requires (\w+ )?\{|\}\s*$", "", line)
                for fact in text.split(" × "):
                    fact = re.sub(r"\b\w+\.(now|old)\b", "_", fact.strip(" ×()}{"))
                    if fact:
                        count[fact] += 1
    for fact, n in count.most_common():
        if n >= 3:
            yield from [f"{n} times: {fact}"] * n


POINTS = {
    "1a own enums shaped like Option or Result": enums,
    "1b flags with a value beside them": flags,
    "1c kinds as numbers": lambda: matching(r"^pub const [A-Z]+: u8 = "),
    "1d numbers that stand for none": lambda: matching(STANDS_FOR_NONE, code=False),
    "2 functions that differ only in names, numbers, a size or a side": twins,
    "3 loops that count by hand": lambda: matching(r"^\s*(while|loop)\b"),
    "4 conversions, copies and comparisons by hand": lambda: matching(CONVERTS),
    "5 facts in the requires of three functions or more": facts,
    "6 lines that pass parallel arrays, or a buffer with its place or its length": lambda: matching(TOGETHER),
    "7 switches on which test to run": lambda: matching(r"^\s*(if octets::same\(key, b.name=|match rule )|enum (Area|Pair)Rule"),
}

for name, places in POINTS.items():
    found = list(places())
    if len(sys.argv) == 1:
        print(f"{len(found):4} {name}")
    elif name.startswith(sys.argv[1]):
        print(f"{name}:", *found, sep="\n  ")
