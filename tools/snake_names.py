#!/usr/bin/env python3
"""Brings definitions and lemmas to snake case, as the library spells its own: sheetOf becomes sheet_of.

usage: python3 tools/snake_names.py      at the top of the repository

It goes through the .antt files, the clauses of .rt files, the edits under must-fail/ and the pages. A word is respelled where it begins
with a small letter and has a capital in it. Names that would fall together with another definition get the names below.
"""

import os
import re

WORD = re.compile(r"(?<![A-Za-z0-9_'])[a-z][a-z0-9]*[A-Z][A-Za-z0-9']*(?![A-Za-z0-9_])")
KEPT = {"qN"}
OTHER = {"paramsOf": "tree_params"}
# Lemmas that have the name a definition gets, with the crates whose proofs name them.
LEMMAS = {
    "kind_ok": ["asking"],
    "first_below": ["asking"],
    "args_by": ["grammar"],
    "same_params": ["language"],
    "sign_at": ["letters"],
    "args_at": ["naming"],
    "made_in": ["resolving"],
}


def snake(word):
    if word in KEPT:
        return word
    return OTHER.get(word) or re.sub(r"[A-Z]", lambda m: "_" + m[0].lower(), word)


def files():
    for top in ("crates", "docs", "README.md"):
        if os.path.isfile(top):
            yield top
        for folder, dirs, names in os.walk(top):
            dirs[:] = sorted(d for d in dirs if d not in ("out", "data"))
            for name in sorted(names):
                if name.endswith((".antt", ".rt", ".edit", ".md")):
                    yield os.path.join(folder, name)


def lemmas(path, text):
    for name, crates in LEMMAS.items():
        if any(path.startswith("crates/%s/proofs/" % crate) for crate in crates):
            text = re.sub(r"(?<![\w.'-])%s(?![\w.'-])" % name, name + "-law", text)
    return text


def main():
    for path in files():
        with open(path, encoding="utf-8") as f:
            text = f.read()
        new = WORD.sub(lambda m: snake(m[0]), lemmas(path, text))
        if new != text:
            with open(path, "w", encoding="utf-8") as f:
                f.write(new)


if __name__ == "__main__":
    main()
