#!/usr/bin/env python3
"""Spells the repository's own definitions, laws, labels and constructors as Rattle spells its own.

usage: python3 tools/spell.py [--list]      at the top, once, after /opt/rattle/port/port.py

Words are in snake case, types and modules in camel case. Names of functions in src/, exported names, strings, inputs and
outputs stay. Where a law's name would fall together with a definition's, the law's name ends in _lem.
"""

import collections
import os
import re
import sys

# A fact is spelled as a type wherever it appears in a name.
KEPT = {"is_IsWord", "all_Typed", "is_Signed"}
# The library's words that stood in names of ours.
LIBRARY = {"natAbs": "nat_abs", "getD": "get_or"}
# Laws whose names would be those of definitions.
LAWS = ["add_six", "after_line", "ended_at", "no_place", "one_more", "part_in", "part_then", "read_some", "rest_end", "step_line"]
# The same, in one file, where a label has that name too.
LAW_OF = {"crates/cbf_format/proofs/OctetLaws.antt": "good-text"}
# The same, where the name is also a label's elsewhere.
LAW_OF = {"crates/cbf_format/proofs/OctetLaws.antt": "good-text"}

WORD = re.compile(r"(?<![\w'\\])[a-z][\w']*")
COMMENT = {".antt": re.compile(r"--.*"), ".rt": re.compile(r"//.*")}
HEAD = re.compile(r"^(\s*)(?:pub )?(record|data)\b")
LABEL = re.compile(r"^(\s*)(?:pub )?([a-z][\w']*(?:-[\w']+)+)\s*:")


def files(*endings):
    for folder, dirs, names in os.walk("crates"):
        dirs[:] = sorted(d for d in dirs if d != "out")
        for name in sorted(names):
            if name.endswith(endings):
                yield os.path.join(folder, name)


def read(path):
    with open(path, encoding="utf-8") as f:
        return f.read()


def snake(word):
    return LIBRARY.get(word) or re.sub(r"(?<=[a-z0-9])([A-Z])", lambda m: "_" + m.group(1).lower(), word)


def camel_words():
    """Every word of code that begins small and has a capital in it."""
    found = set()
    for path in files(".antt", ".rt"):
        text = COMMENT[os.path.splitext(path)[1]].sub("", read(path))
        text = re.sub(r'"[^"\n]*"', "", text)
        found |= {w for w in WORD.findall(text) if re.search("[A-Z]", w)}
    return {w: snake(w) for w in found - KEPT}


def labels():
    """Labels of records and constructors that have a dash."""
    found = set()
    for path in files(".antt"):
        inside = None
        for line in COMMENT[".antt"].sub("", read(path)).splitlines():
            if not line.strip():
                continue
            depth = len(line) - len(line.lstrip())
            head = HEAD.match(line)
            if head and line.rstrip().endswith("where"):
                inside = depth
                continue
            if inside is not None and depth <= inside:
                inside = None
            label = LABEL.match(line)
            if inside is not None and label:
                found.add(label.group(2))
    return {w: w.replace("-", "_") for w in found}


def main(argv):
    words, marked = camel_words(), labels()
    table = [(re.compile(rf"(?<![\w'.-]){w}(?![\w'-])"), w + "_lem") for w in LAWS]
    if argv == ["--list"]:
        for old, new in sorted((words | marked).items()):
            print(old, new)
        return 0
    dashed = re.compile(r"(?<![\w'-])(" + "|".join(sorted(map(re.escape, marked), key=len, reverse=True)) + r")(?![\w'-])")
    plain = re.compile(r"(?<![\w'\\])(" + "|".join(sorted(words, key=len, reverse=True)) + r")(?![\w'])")
    changed = collections.Counter()
    for path in list(files(".antt", ".rt", ".edit")):
        old = text = read(path)
        if path.endswith(".antt"):
            for law, new in table:
                text = law.sub(new, text)
            if path in LAW_OF:
                law = LAW_OF[path]
                text = re.sub(rf"(?<![\w'.-]){law}(?![\w'-])", law.replace("-", "_") + "_lem", text)
            if path in LAW_OF:
                law = LAW_OF[path]
                text = re.sub(rf"(?<![\w'.-]){law}(?![\w'-])", law.replace("-", "_") + "_lem", text)
        text = dashed.sub(lambda m: marked[m.group(1)], text)
        text = plain.sub(lambda m: words[m.group(1)], text)
        if text != old:
            with open(path, "w", encoding="utf-8") as f:
                f.write(text)
            changed[os.path.splitext(path)[1]] += 1
    pages = [os.path.join("docs", n) for n in sorted(os.listdir("docs")) if n.endswith(".md")]
    for path in pages + ["README.md", "CONTRIBUTING.md", "crates/README.md"]:
        old = read(path)
        text = re.sub(r"`[^`\n]+`", lambda m: plain.sub(lambda w: words[w.group(1)], m.group(0)), old)
        if text != old:
            with open(path, "w", encoding="utf-8") as f:
                f.write(text)
            changed[".md"] += 1
    print(f"spell: {len(words)} words, {len(marked)} labels; files changed: {dict(changed)}")
    return 0


if __name__ == "__main__":
    raise SystemExit(main(sys.argv[1:]))
