#!/usr/bin/env python3
"""Sets the public functions of two checkouts side by side: those that one of them lacks, or whose head or clauses differ.

    tools/publics.py OLD NEW     folders with crates/; prints a table for docs/DESIGN-PASS.md

The programs are left out: nothing calls them.
"""
import glob
import re
import sys

PROGRAMS = ("desk", "examples", "bench", "reading_bench")


def publics(root):
    found = {}
    for path in sorted(glob.glob(f"{root}/crates/*/src/**/*.rt", recursive=True)):
        crate = path.split("/crates/")[1].split("/")[0]
        if crate in PROGRAMS:
            continue
        text = open(path).read()
        owner = ""
        for m in re.finditer(r"^(impl\b[^\n{]*|( *)pub fn .*)", text, re.M):
            if m.group(1).startswith("impl"):
                owner = re.sub(r"<'[^>]*>", "", re.sub(r"^impl(<[^{]*?>)? (?=[A-Z])", "", m.group(1))).split(" for ")[-1].strip()
                continue
            head = re.match(r" *pub fn (\w+)(?:[^{]|\{[^}]*\})*?(?=\n *\{|;\n)", text[m.start():])
            words = re.sub(r"\s+", " ", head.group(0).strip()).replace("( ", "(").replace(", )", ")")
            found[crate, (owner + "::" if m.group(2) else "") + head.group(1)] = words
    return found


def cell(words):
    return "`" + words.replace("|", "\\|") + "`" if words else ""


def main():
    old, new = publics(sys.argv[1]), publics(sys.argv[2])
    print("| function | before | now |\n|---|---|---|")
    for name in sorted(set(old) | set(new)):
        if old.get(name) != new.get(name):
            print(f"| {name[0]} `{name[1]}` | {cell(old.get(name))} | {cell(new.get(name))} |")


main()
