#!/usr/bin/env python3
"""Takes the library's `if◌then◌else◌` in the place of this repository's own, which stood in crates/protocol/specs/Lists.antt.

usage: python3 tools/library_if.py      at the top of the repository, once; then `rt fmt` in each crate

`rt ci` refuses an own operator under the name of one of the library's. The two have one meaning, and although the own one was at 10 and the library's is at 5,
what follows `else` reaches equally far.
"""
import os
import re

NAME = "if◌then◌else◌"
OWN = re.compile(r"(?m)^use Rattle\.protocol\.specs\.Lists\.\{([^}]*)\}\n")
PRELUDE = re.compile(r"(?m)^(use Rattle\.std\.specs\.Prelude\.\{)([^}]*)(\}\n)")

for folder, _, names in os.walk("crates"):
    for name in names:
        path = os.path.join(folder, name)
        if not name.endswith(".antt") or "/out/" in path:
            continue
        with open(path) as f:
            text = old = f.read()
        if path == "crates/protocol/specs/Lists.antt":
            text = re.sub(r"(?m)^infixr 10 if◌then◌else◌\nabbrev pub if◌then◌else◌ :.*\nif true .*\nif false .*\n\n", "\n", text)
            needs = True
        else:
            found = OWN.search(text)
            needs = bool(found) and NAME in [it.strip() for it in found[1].split(",")]
            if needs:
                left = [it.strip() for it in found[1].split(",") if it.strip() != NAME]
                text = OWN.sub("use Rattle.protocol.specs.Lists.{" + ", ".join(left) + "}\n" if left else "", text, count=1)
        if needs:
            if PRELUDE.search(text):
                text = PRELUDE.sub(lambda m: m[1] + m[2] + ", " + NAME + m[3], text, count=1)
            else:
                text = re.sub(r"(?m)^use ", "use Rattle.std.specs.Prelude.{" + NAME + "}\nuse ", text, count=1)
        if text != old:
            with open(path, "w") as f:
                f.write(text)
