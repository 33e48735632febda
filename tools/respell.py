#!/usr/bin/env python3
"""Brings this repository's own definitions and lemmas to snake case, once, after the kit's port.py.

usage, at the top of the repository: python3 tools/respell.py

Every name of antt that begins in lower case and has an upper-case letter gets underscores (`usedOffends` becomes `used_offends`), as do the parts of
a lemma's name that a dash joins (`length-rangesOf` becomes `length-ranges_of`) and the names of fields in specs/ (`len-guid` becomes `len_guid`).
`getD` in a lemma's name is `get_or`, as the library has it. A lemma that would then have a definition's name gets its dash back (APART).
Functions of src/, exported names, strings, inputs and outputs keep their names: a text in quotes is left as it is.
It goes over crates/*/src, specs and proofs, the must-fail edits, and the names between backticks in README.md and docs/. It refuses to write
where two names of one file would fall together. Edits and pages also follow what port.py has respelled in the sources.
"""

import os
import re

TOKEN = re.compile(r"[^\s(){}\[\],;.:λ«»\"`|]+")
CAMEL = re.compile(r"(?:^|(?<=-))[a-z][a-z0-9']*[A-Z]")
FIELD = re.compile(r"(?m)^ +pub ([a-z][\w']*(?:-[\w']+)+) +:")
# A lemma, the module that declares it, and its crate.
APART = [
    ("area_in", "fmd_check", "Listed"),
    ("count_by", "fmd_lines", "Listings"),
    ("digits_in", "text_words", "Numerals"),
    ("first_block", "gpt_string_model", "Stands"),
    ("in_head", "gpt_calls", "Found"),
    ("is_found", "fmap", "Called"),
    ("map_rows", "fmap_rules", "Good"),
    ("some_below", "fmap", "Finding"),
    ("value_in", "text_words", "Numerals"),
]


def snake(name):
    name = re.sub(r"(?:^|(?<=-))getD(?![A-Za-z])", "get_or", name)
    parts = name.split("-")
    return "-".join(re.sub(r"(?<=[a-z0-9'_])([A-Z])", part_of, it) if it[:1].islower() else it for it in parts)


def part_of(match):
    before = match.string[match.start() - 1]
    return ("" if before == "_" else "_") + match[1].lower()


def sources(endings):
    for folder, folders, names in os.walk("crates"):
        folders[:] = sorted(it for it in folders if it != "out")
        for name in sorted(names):
            if name.endswith(endings):
                yield os.path.join(folder, name)


def read(path):
    with open(path, encoding="utf-8") as f:
        return f.read()


def outside_quotes(line, turn, chars):
    """The line with turn applied to what stands outside text in quotes; chars: also outside characters in quotes."""
    parts = re.split(r"""("(?:[^"\\]|\\.)*"|b'(?:[^'\\]|\\.)')""" if chars else r'("(?:[^"\\]|\\.)*")', line)
    return "".join(it if i % 2 else turn(it) for i, it in enumerate(parts))


def apart(texts):
    for name, crate, module in APART:
        dashed = name.replace("_", "-")
        home = f"crates/{crate}/proofs/{module}.antt"
        imports = re.compile(rf"(?m)^use Rattle\.{crate}\.proofs\.{module}\.\{{[^}}]*(?<![\w-]){name}(?![\w-])[^}}]*\}}")
        for path, text in texts.items():
            if path == home or imports.search(text):
                texts[path] = re.sub(rf"(?<![\w.'-]){name}(?![\w'-])", dashed, text)


def main():
    texts = {path: read(path) for path in sources((".antt", ".rt"))}
    apart(texts)
    words = {path: set(TOKEN.findall(re.sub(r"\.[\w'-]+", "", text))) for path, text in texts.items()}
    fields = {name for path, text in texts.items() if "/specs/" in path for name in FIELD.findall(text)}
    every = {it for text in texts.values() for it in TOKEN.findall(text)}
    turned = {it: snake(it) for it in every if CAMEL.search(it)}
    turned |= {it: it.replace("-", "_") for it in fields}
    bad = 0
    for path, found in words.items():
        if not path.endswith(".antt"):
            continue
        new = {}
        for it in found:
            to = turned.get(it, it)
            if new.setdefault(to, it) != it and it in turned:
                print(f"{path}: {it} and {new[to]} would both be {to}")
                bad += 1
    if bad:
        return 1
    turn = lambda part: TOKEN.sub(lambda m: turned.get(m[0], m[0]), part)
    known = every | set(turned.values())
    follow = lambda m: turned.get(m[0], snake(m[0]) if CAMEL.search(m[0]) and m[0] not in every and snake(m[0]) in known else m[0])
    for path, text in texts.items():
        new = "".join(outside_quotes(line, turn, path.endswith(".rt")) for line in text.splitlines(keepends=True))
        if new != read(path):
            with open(path, "w", encoding="utf-8") as f:
                f.write(new)
    for path in sources((".edit",)):
        text = read(path)
        new = "".join(outside_quotes(line, lambda part: TOKEN.sub(follow, part), True) if re.match(r"(old|new): ", line) else line for line in text.splitlines(keepends=True))
        if new != text:
            with open(path, "w", encoding="utf-8") as f:
                f.write(new)
    pages = ["README.md"] + [os.path.join(d, f) for d, _, fs in os.walk("docs") for f in fs if f.endswith(".md")]
    for path in pages:
        text = read(path)
        new = re.sub(r"`[^`\n]+`", lambda m: TOKEN.sub(follow, m[0]), text)
        if new != text:
            with open(path, "w", encoding="utf-8") as f:
                f.write(new)
    return 0


if __name__ == "__main__":
    raise SystemExit(main())
