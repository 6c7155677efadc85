#!/usr/bin/env python3
"""Counts, for each kind of older form, the places of crates/*/src where it may stand.

    tools/forms.py [-v] [KIND ..]     at the top of the repository; -v prints each place

The kinds are those of docs/DESIGN-PASS.md. A place that is printed is a candidate, to be read: the page says what became of it.
"""
import collections
import glob
import re
import sys


def sources():
    return sorted(glob.glob("crates/*/src/**/*.rt", recursive=True))


def crate(path):
    return path.split("/")[1]


def lines_with(*patterns):
    """Lines that fit a pattern, comments aside."""
    found = []
    for path in sources():
        for number, line in enumerate(open(path), 1):
            if line.strip().startswith("//") or line.startswith("ghost use"):
                continue
            if any(re.search(p, line) for p in patterns):
                found.append((f"{path}:{number}", line.strip()))
    return found


def heads(path):
    """Each function of a file: its line, its name, its parameters, its result, and its clauses."""
    text = open(path).read()
    for m in re.finditer(r"\bfn (\w+)(?:<[^(]*?>)?\(((?:[^()]|\([^()]*\))*)\)(?: -> ([^\n{]*))?", text):
        rest = text[m.end():]
        clauses = re.match(r"(?:\s*(?:requires|ensures)[^\n]*\n?(?:        [^\n]*\n)*)*", rest).group(0)
        params = []
        for part in re.split(r",(?![^<\[(]*[>\])])", m.group(2)):
            part = part.strip()
            if ":" in part:
                name, kind = part.split(":", 1)
                params.append((name.replace("mut ", "").strip(), kind.strip()))
        yield text.count("\n", 0, m.start()) + 1, m.group(1), params, (m.group(3) or "").strip(), clauses


def own_results():
    """1: a bool that says whether a change was made, an Option of nothing, a bare number as an error, a number for a kind, a flag in a struct."""
    found = []
    for path in sources():
        for line, name, params, result, _ in heads(path):
            changes = any("&mut" in kind for _, kind in params) or "&mut self" in open(path).read().split("\n")[line - 1]
            if result == "bool" and changes:
                found.append((f"{path}:{line}", f"{name}: a bool for a change made or not"))
            if "Option<()>" in result:
                found.append((f"{path}:{line}", f"{name}: an Option of nothing"))
            if re.search(r"Result<.*, (u8|u16|u32|u64|usize)>$", result):
                found.append((f"{path}:{line}", f"{name}: a bare number as the error"))
            if name in ("number", "place", "named", "reason", "depth", "slot") and result in ("u8", "u32", "usize"):
                found.append((f"{path}:{line}", f"{name}: a number, 0 where there is none"))
    found += lines_with(r"^\s+(pub )?\w+: bool,$", r"^(pub )?enum Piece\b", r"None => 0,", r"None => return 0")
    return found


def twins():
    """2: functions of one crate, or of two, whose bodies are one but for names and numbers."""
    shapes = collections.defaultdict(list)
    for path in sources():
        text = open(path).read()
        # The brace of a body stands on a line of its own after clauses, else at the end of the head.
        for m in re.finditer(r"^([ ]*)(?:pub(?:\([a-z]+\))? )?fn (\w+)(?:[^\n]*(?:\n(?!\1\{\n)(?!\1\}\n)[^\n]*)*?\n\1|[^\n]*)\{\n((?:[^\n]*\n)*?)\1\}", text, re.M):
            body = m.group(3)
            shape = re.sub(r"\s+", " ", re.sub(r"\b\w+\b", "x", body))
            if len(shape) >= 60:
                shapes[shape].append((f"{path}:{text.count(chr(10), 0, m.start()) + 1}", m.group(2)))
    found = []
    for members in shapes.values():
        if len(members) > 1:
            found += [(place, name + ", as " + ", ".join(n for p, n in members if p != place)) for place, name in members]
    return sorted(found)


def index_loops():
    """3: loops that step an index or a counter by hand."""
    return lines_with(
        r"^\s*while .*[<>]",
        r"^\s*while let Some\((step|last|inner)\)",
        r"^\s*for \w+ in (0|from)\.\.",
        r"^\s*\w*(count|at|n|skip|rest|left)\w* [+-]= 1;",
    )


def by_hand():
    """4: equality, copying, conversion and printing written by hand."""
    found = lines_with(r"\bfn (is|same_name|is_same)\b", r"\.is\(Kind::", r"=> \w+::\w+ \{ place \},?$")
    for path in sources():
        for line, name, params, result, _ in heads(path):
            if re.search(r"&'static str", result) or name.endswith("_text") or name == "sentence":
                found.append((f"{path}:{line}", f"{name}: a value's text"))
    return sorted(set(found))


def repeated_facts():
    """5: a fact that three or more functions of a crate require, and three or more parameters that three or more of its functions share."""
    facts = collections.defaultdict(list)
    groups = collections.defaultdict(list)
    for path in sources():
        for line, name, params, _, clauses in heads(path):
            for m in re.finditer(r"requires(?: \w+)? \{ (.*?) \}\n", clauses):
                facts[crate(path), m.group(1)].append(f"{path}:{line}")
            named = sorted(set(params))
            for i, a in enumerate(named):
                for b in named[i + 1:]:
                    groups[crate(path), a, b].append(f"{path}:{line}")
    found = [(", ".join(w), f"{k[0]}: {k[1]}") for k, w in facts.items() if len(w) >= 3]
    found += [(", ".join(w), f"{k[0]}: {k[1][0]}: {k[1][1]} with {k[2][0]}: {k[2][1]}") for k, w in groups.items() if len(w) >= 4]
    return sorted(found, key=lambda f: f[1])


def buffers():
    """6: a buffer with a length or a count beside it, arenas of positions, lists searched by hand."""
    return lines_with(
        r"^\s+(pub )?(count|len|nodes|conditions|items|params|entries|owed): usize,$",
        r"^\s+(pub )?(rows|slots|records|nodes|flags|facts): (&'\w+ mut )?\[",
        r"&mut \[\w+(; \d+)?\]\)? ?(->|,|\))",
    )


def switches():
    """7: a parameter that only says which of some ways to go."""
    found = []
    for path in sources():
        for line, name, params, _, _ in heads(path):
            for p, kind in params:
                if kind in ("bool", "Run", "Placed", "Column", "Kind", "Operator", "Asked", "DomainName", "ProverName"):
                    found.append((f"{path}:{line}", f"{name}({p}: {kind})"))
    return found


def proofs():
    """8: lines of proofs, and answers by hand."""
    found = []
    for path in sorted(glob.glob("crates/*/proofs/**/*.antt", recursive=True)):
        text = open(path).read()
        if path.endswith("/Answers.antt"):
            found += [(path, m.group(0)) for m in re.finditer(r"^pub [\w.-]+ :", text, re.M)]
    return found


KINDS = {
    "results": own_results,
    "twins": twins,
    "loops": index_loops,
    "by_hand": by_hand,
    "facts": repeated_facts,
    "buffers": buffers,
    "switches": switches,
    "proofs": proofs,
}


def main():
    verbose = "-v" in sys.argv
    wanted = [a for a in sys.argv[1:] if a != "-v"] or list(KINDS)
    for kind in wanted:
        found = KINDS[kind]()
        print(f"{kind}: {len(found)}")
        if verbose:
            for place, what in found:
                print(f"  {place}: {what}")


if __name__ == "__main__":
    main()
