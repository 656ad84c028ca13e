#!/usr/bin/env python3
"""Spells the repository's own definitions and lemmas as today's Rattle does: words in snake case, with no dash and no middle dot.

usage: tools/respell.py            at the top, right after port.py, once
       tools/respell.py --list     the names only, old and new

Run in the commit that docs/PORT.md names. Only names that a file of specs/ or proofs/ declares are turned, in .antt files, in clauses and imports of
.rt files and in must-fail edits; Rust's names, types, modules, strings and the names of std stay. A lemma that would get the name of a
definition or of a function gets `_lem`.
"""

import collections
import glob
import re
import sys

DECLARED = re.compile(r"^(\s*)((?:abbrev |unfoldable |opaque )?(?:pub )?)([^\s(){}:,.;\"]+(?: [^\s(){}:,.;\"]+)*) :(?: (.*)|)$")
TOKEN = re.compile(r"[^\s(){}\[\],;.\"]+")
IMPORT = re.compile(r"^\s*(?:ghost )?(?:pub )?use ([^\s{;]+)")

# Names that would fall together with a crate's or with one of std's.
SPECIAL = {"writtenOrder": "written_order_of"}


def files(*kinds):
    out = []
    for kind in kinds:
        out += glob.glob(f"crates/*/{kind}", recursive=True)
    return sorted(set(p for p in out if "/out/" not in p))


def snake(name):
    name = name.replace("·", "_").replace("-", "_")
    name = re.sub(r"(?<=[a-z0-9])([A-Z])", lambda m: "_" + m[1].lower(), name)
    return name


def turned():
    """Old name to new, of each name that has to turn."""
    declared, foreign = collections.defaultdict(set), set()
    for path in files("specs/**/*.antt", "proofs/**/*.antt"):
        kind = path.split("/")[2]
        for line in open(path, encoding="utf-8"):
            m = DECLARED.match(line)
            if m and not (m[4] or "").startswith("tie."):
                for name in m[3].split():
                    declared[name].add(kind)
    for path in files("specs/**/*.antt", "proofs/**/*.antt", "src/*.rt"):
        for line in open(path, encoding="utf-8"):
            m = IMPORT.match(line)
            if m and (not m[1].startswith("Rattle.") or m[1].startswith("Rattle.std.")):
                foreign |= set(TOKEN.findall(line))
    functions = {n for path in files("src/*.rt") for n in re.findall(r"\bfn (\w+)", open(path, encoding="utf-8").read())}
    kept = {n for n in declared if not wants(n)}
    out = {}
    taken = {n: "kept" for n in kept}
    # definitions first, so that a lemma gives way
    for name in sorted((n for n in declared if wants(n)), key=lambda n: ("specs" not in declared[n], "-" in n, n)):
        if name in foreign or re.match(r"(invariant|decreases)-loop\d*$", name):
            continue
        new = SPECIAL.get(name) or snake(name)
        if new in taken or new in foreign or "-" in name and new in functions:
            new += "_lem"
        if new in taken or new in foreign:
            raise SystemExit(f"{name}: {new} is taken")
        taken[new] = name
        out[name] = new
    return out


def wants(name):
    if re.match(r"[^a-zμ]", name):
        return False
    return bool(re.search(r"[A-Z·]|(?<=.)-(?=.)", name)) and not name.startswith("μ-")


def in_antt(text, names):
    # quoted text and comments go along: comments name definitions too
    return TOKEN.sub(lambda m: names.get(m[0], m[0]), text)


def main(argv):
    names = turned()
    if argv == ["--list"]:
        for old, new in sorted(names.items()):
            print(old, new)
        return 0
    if argv:
        print(__doc__)
        return 2
    # a name of one word with capitals is no name of Rust's, and one with a dash is no token of its text
    for path in files("specs/**/*.antt", "proofs/**/*.antt", "src/*.rt", "must-fail/*.edit"):
        with open(path, encoding="utf-8") as f:
            old = f.read()
        new = in_antt(old, names)
        if new != old:
            with open(path, "w", encoding="utf-8") as f:
                f.write(new)
    print(f"respell: {len(names)} names")
    return 0


if __name__ == "__main__":
    raise SystemExit(main(sys.argv[1:]))
