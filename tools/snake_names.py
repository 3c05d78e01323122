#!/usr/bin/env python3
"""Brings the names of definitions, lemmas and record fields to snake case, and facts to camel case.

usage: python3 tools/snake_names.py            at the top of the repository

It was run once, when the repository moved to the Rattle of rattle-kit-13f, whose words are in snake case; it is kept so that
the renaming can be made again and looked at. It goes by text: a name is one that crates/*/specs or crates/*/proofs declares with
a dash in it, or one of LOCAL. `length-x` keeps its dash, which joins the names of two functions. Functions of src/, strings, inputs
and outputs keep their names. In answers and invariants it also writes the names of functions as the sources spell them, where an
older Rattle wrote their underscores as dashes. It says which new names were there already, so that no two fall together unseen.
"""

import os
import re
import sys

WORD = r"[A-Za-z_][\w']*(?:-[\w'*+]+)+"
TOKEN = re.compile(r"(?<![\w'◌-])" + WORD)
DECLARED = re.compile(r"^\s*(?:(?:abbrev|unfoldable|pub|data|record)\s+)*([A-Za-z_][\w'◌-]*(?:\s+[A-Za-z_][\w'-]*)*)\s*:\s")
GOAL = re.compile(r":\s*(?:goal|need|given)\.")
# names of variables and of lemmas whose signature another script had split
LOCAL = "at-to block-is eight-bytes folded-map-more header-asked in-it is-high is-kind is-low is-root its-width text-is word-of-eight".split()
FACTS = {"Lead-up": "LeadUp"}
MOVED = {"getD-pack": "get_or-pack"}
# functions of std that the proofs cite by their calls
STD = """as_bytes as_chunks as_slice as_str copy_from_slice from_le_bytes from_residual is_ascii_digit is_empty is_some push_str saturating_sub
split_at starts_with to_le_bytes write_str""".split()


def files(*endings):
    for top in ("crates", "docs", "README.md"):
        if os.path.isfile(top):
            yield top
        for folder, inner, names in os.walk(top):
            inner[:] = sorted(d for d in inner if d not in ("out", "data"))
            yield from (os.path.join(folder, n) for n in sorted(names) if n.endswith(endings))


def read(path):
    with open(path, encoding="utf-8") as f:
        return f.read()


def declared():
    """The names with a dash that the repository itself declares."""
    found = set(LOCAL)
    for path in files(".antt"):
        if not path.startswith("crates"):
            continue
        for line in read(path).splitlines():
            head = DECLARED.match(line)
            if not head or GOAL.search(line) or line.lstrip().startswith(("use ", "let ", "in ", "--")):
                continue
            found.update(n for n in head[1].split() if "-" in n)
    return found


def new_name(old):
    if old in FACTS or old in MOVED:
        return FACTS.get(old) or MOVED[old]
    if old.startswith("length-"):
        return "length-" + old[7:].replace("-", "_")
    return old.replace("-", "_")


def functions():
    """The functions of src/ and STD that have an underscore, longest first."""
    names = set(STD)
    for path in files(".rt"):
        names.update(re.findall(r"\bfn (\w+_\w+)", read(path)))
    return sorted(names, key=len, reverse=True)


def call_spelling(token, names):
    for name in names:
        token = re.sub(r"(?<![\w'])" + name.replace("_", "-") + r"(?![\w'])", name, token)
    return token


def main():
    own = {n: new_name(n) for n in declared() if new_name(n) != n}
    calls = functions()
    before = {}
    for path in files(".antt", ".rt"):
        for name in set(re.findall(r"[\w']+(?:-[\w']+)*", read(path))):
            before.setdefault(name, []).append(path)
    for path in files(".antt", ".rt", ".edit", ".md"):
        old = read(path)
        answers = os.path.basename(path) in ("Answers.antt", "Invariants.antt")
        text = TOKEN.sub(lambda m: own.get(m[0]) or (call_spelling(m[0], calls) if answers else m[0]), old)
        if text != old:
            with open(path, "w", encoding="utf-8") as f:
                f.write(text)
    for old, new in sorted(own.items()):
        if new in before:
            print(f"look: {old} is {new} now, which was there in {' '.join(before[new][:6])}")
    print(f"{len(own)} names")


if __name__ == "__main__":
    sys.exit(main())
