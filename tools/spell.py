#!/usr/bin/env python3
"""Spells the repository's own definitions and lemmas as the library spells its own: in snake case.

usage: tools/spell.py [--check]      at the top of the repository; --check prints the new names and writes nothing

It was run once, after the kit's port.py, when the repository was brought to a newer Rattle, and is kept so that the step can be
made again on an older commit. A name that specs/ or proofs/ of a crate declares loses its dashes and capitals within (act-of becomes
act_of, foundNodes becomes found_nodes). A name that begins with a type or a fact, or that has a symbol in it, keeps its dash, as the
library's own do. Names that Rattle makes (goals, steps, arms) and names of the code in src/ are left as they are.
It stops, and writes nothing, where two names would fall together.
"""
import os
import re
import sys

# Names whose new spelling the rule doesn't give.
SPECIAL = {"Part-edges": "PartEdges", "bit-and": "has-bit_and", "bit-or": "has-bit_or"}

# Names of fields of the repository's own records, which stand behind a dot too, and where names that Rattle makes are spelled
# the same, what stands before the dot.
FIELDS = {"leads-on": "", "short-of": "", "opened-once": "", "reply-is": "", "count-is": "ensures"}

HEAD = re.compile(r"^ *(?:abbrev |unfoldable |pub |data |record )*((?:[^\s:(){},;.=λ]+ )*[^\s:(){},;.=λ]+) (?:[({].*[)}] )?: (.*)$")
TOKEN = re.compile(r"[^\s(){};,.@\"⟦⟧⌜⌝«»`]+")


# Other names that files of src/ give what they import.
ALIASES = ["holder-of", "taken-by", "outcome-of"]


def files(ending):
    for folder, dirs, names in os.walk("crates"):
        dirs[:] = sorted(d for d in dirs if d != "out")
        for name in sorted(names):
            if name.endswith(ending):
                yield os.path.join(folder, name)


def read(path):
    with open(path, encoding="utf-8") as f:
        return f.read()


def declared():
    """The names that specs/ and proofs/ declare by a signature, but for goals' answers."""
    found = set()
    for path in files(".antt"):
        for line in read(path).splitlines():
            line = line.split("-- ")[0]
            hit = HEAD.match(line)
            if hit and not hit.group(2).startswith("goal."):
                found |= {n for n in hit.group(1).split() if n not in ("pub", "abbrev", "unfoldable", "data", "record", "let", "module")}
    return found


def spelled(name):
    if name in SPECIAL:
        return SPECIAL[name]
    if not re.fullmatch(r"[a-z][A-Za-z0-9']*(?:[-_][A-Za-z0-9']+)*", name):
        return name
    name = re.sub(r"(?<=[a-z0-9])([A-Z])(?=[a-z])", lambda m: "_" + m.group(1).lower(), name)
    return name.replace("-", "_")


def turn(text, names):
    """The text with the names turned, but behind a dot, where a name is a field, unless the dot is that of a path of a module."""

    def put(hit):
        before = text[max(0, hit.start() - 120) : hit.start()]
        if before.endswith("."):
            of_path = re.search(r"(Rattle(?:\.\w+)*\.[A-Z]\w*|\bequivalence)\.$", before)
            of_record = hit.group(0) in FIELDS and before.endswith(FIELDS[hit.group(0)] + ".")
            if not of_path and not of_record:
                return hit.group(0)
        return names.get(hit.group(0), hit.group(0))

    return TOKEN.sub(put, text)


def turn_code(text, names):
    """A file of src/: its comments and code stay; only words with a dash or a capital within occur in clauses alone."""
    return "\n".join(line if line.lstrip().startswith("//") else turn(line, names) for line in text.split("\n"))


def turn_page(text, names):
    """A page: only what stands in it as code is turned."""
    return re.sub(r"`[^`\n]+`", lambda m: "`" + turn(m.group(0)[1:-1], names) + "`", text)


def main():
    names = {n: spelled(n) for n in sorted(declared()) + ALIASES if spelled(n) != n}
    words = set()
    for path in files(".antt"):
        words |= {w.group(0) for w in re.finditer(r"(?<!\.)" + TOKEN.pattern, read(path))}
    bad = False
    new = {}
    for old in sorted(names):
        if names[old] in words or names[old] in new:
            print(f"falls together: {old} and {names[old]}")
            bad = True
        new[names[old]] = old
    if bad or "--check" in sys.argv:
        print("\n".join(f"{old} {names[old]}" for old in sorted(names)))
        return 1 if bad else 0
    ways = [(path, turn) for path in files(".antt")]
    ways += [(path, turn_code) for path in list(files(".rt")) + list(files(".edit"))]
    ways += [(os.path.join("docs", name), turn_page) for name in sorted(os.listdir("docs")) if name.endswith(".md")] + [("README.md", turn_page)]
    for path, way in ways:
        text = read(path)
        turned = way(text, names)
        if turned != text:
            with open(path, "w", encoding="utf-8") as f:
                f.write(turned)
    print(f"{len(names)} names")
    return 0


if __name__ == "__main__":
    sys.exit(main())
