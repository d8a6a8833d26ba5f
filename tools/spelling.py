#!/usr/bin/env python3
"""Spells this repository's own definitions, fields and lemmas in snake case, as today's Rattle does.

usage: python3 tools/spelling.py [--pages]      at the top of the repository, after port.py of the kit

A word in lower camel case becomes one in snake case: `isSetUp` is `is_set_up`. It goes by text, over crates/*/src, specs, proofs and
must-fail; strings keep their text. In must-fail edits it also turns the operators, projections and paths, which port.py leaves.
With --pages it turns the same words in README.md and docs/*.md alone, by the list that the first form writes to tools/spelling.txt.
"""
import os
import re
import sys

# Words of Rattle's library, and a word that a line of text holds.
KEPT = re.compile(r"^(mut_Tells|uint_Tells|uint_Makes|walk_Meets|not_T|read_Some)$")
# A tactic of today has the plain word.
OTHER = {"firstOf": "first_some"}
# Lemmas that would now have the name of what they speak of, and the crates whose proofs have them.
LEMMAS = {
    "first_then": ("statements",),
    "has_room": ("guarantee",),
    "head_at": ("pool",),
    "kept_payload": ("rules",),
    "numbers_after": ("guarantee",),
    "row_is": ("bench",),
    "same_view": ("views",),
    "signed_by": ("protocol",),
    "told_at": ("pool",),
    "view_in": ("views", "service", "votes"),
}
PART = re.compile(r"(?<![\w'])[a-z][\w']*[A-Z][\w']*")
STRING = re.compile(r'b?"(?:[^"\\\n]|\\.)*"')


def snake(word):
    if word in OTHER:
        return OTHER[word]
    return re.sub(r"(?<=[a-z0-9])([A-Z])", r"_\1", word).lower()


def words(text):
    return PART.sub(lambda m: m.group() if KEPT.match(m.group()) else snake(m.group()), text)


def lemmas(path, text):
    crate = path.split(os.sep)[path.split(os.sep).index("crates") + 1]
    text = re.sub(r"(?<![\w'])first_of(?![\w'])", "first_some", text)
    for word, crates in LEMMAS.items():
        if crate in crates and os.sep + "proofs" + os.sep in path:
            text = re.sub(rf"(?<![\w'.]){word}(?![\w'-])", word + "_lem", text)
    return text


def code(text):
    """A source file: what stands in strings stays."""
    out, at = [], 0
    for m in STRING.finditer(text):
        out += [words(text[at:m.start()]), m.group()]
        at = m.end()
    return "".join(out) + words(text[at:])


def edit(text):
    lines = []
    for line in text.split("\n"):
        if re.match(r"(old|new): ", line):
            line = re.sub(r"Rattle·(\w+)·(specs|proofs)\.\2", r"Rattle.\1.\2", line)
            line = re.sub(r"Rattle·(\w+)", r"Rattle.\1", line)
            line = re.sub(r"(?<![\w'])_([^\s\w_{}(),.]+)_(?![\w'])", r"◌\1◌", line)
            line = line.replace("if_then_else_", "if◌then◌else◌")
            line = re.sub(r"(?<=[\w)'])  ?\.(?=[a-z0-9])", ".", line)
            line = line.replace("getD ", "get_or ").replace("⌜ ", "").replace(" ⌝", "")
            line = words(line)
        lines.append(line)
    return "\n".join(lines)


def files(root):
    for folder, dirs, names in os.walk(os.path.join(root, "crates")):
        dirs[:] = sorted(d for d in dirs if d != "out")
        for n in sorted(names):
            if n.endswith((".rt", ".antt", ".edit")):
                yield os.path.join(folder, n)


def pages(root):
    with open(os.path.join(root, "tools", "spelling.txt")) as f:
        table = dict(line.split() for line in f)
    docs = os.path.join(root, "docs")
    for p in [os.path.join(root, "README.md")] + [os.path.join(docs, n) for n in sorted(os.listdir(docs)) if n.endswith(".md")]:
        with open(p) as f:
            old = f.read()
        new = PART.sub(lambda m: table.get(m.group(), m.group()), old)
        if new != old:
            with open(p, "w") as f:
                f.write(new)


def main(argv):
    if argv == ["--pages"]:
        return pages(".")
    if argv or not os.path.isdir("crates"):
        raise SystemExit(__doc__)
    table = {}
    for p in files("."):
        with open(p) as f:
            old = f.read()
        if p.endswith(".antt") or p.endswith(".rt"):
            for m in PART.finditer(old if p.endswith(".antt") else STRING.sub("", old)):
                if not KEPT.match(m.group()):
                    table[m.group()] = snake(m.group())
        new = edit(old) if p.endswith(".edit") else code(old) if p.endswith(".rt") else words(lemmas(p, old))
        if new != old:
            with open(p, "w") as f:
                f.write(new)
    with open(os.path.join("tools", "spelling.txt"), "w") as f:
        for w in sorted(table):
            f.write(f"{w} {table[w]}\n")


if __name__ == "__main__":
    main(sys.argv[1:])
