#!/usr/bin/env python3
"""Counts the places of each point of docs/DESIGN-PASS.md in crates/*/src, and the answers in crates/*/proofs.

    python3 tools/places.py                 the counts, a line for each kind of place
    python3 tools/places.py loops arms      each place of these kinds, with its line
    python3 tools/places.py --at COMMIT     the same of a commit
"""
import re
import subprocess
import sys
from collections import defaultdict

WORDS = {
    "if", "else", "match", "for", "in", "while", "let", "mut", "return", "fn", "pub", "crate", "self", "Self", "impl",
    "struct", "enum", "break", "as", "true", "false", "loop", "move", "ref", "where", "use", "const", "dyn",
}


def files(commit, folder, ending):
    """Each file of crates/NAME/FOLDER with its text."""
    if commit:
        names = subprocess.run(["git", "ls-tree", "-r", "--name-only", commit, "crates"], capture_output=True, text=True, check=True).stdout
    else:
        names = subprocess.run(["git", "ls-files", "--cached", "--others", "--exclude-standard", "crates"], capture_output=True, text=True, check=True).stdout
    for name in sorted(set(names.split("\n"))):
        parts = name.split("/")
        if len(parts) < 4 or parts[2] != folder or not name.endswith(ending):
            continue
        if commit:
            yield name, subprocess.run(["git", "show", f"{commit}:{name}"], capture_output=True, text=True, check=True).stdout
        else:
            try:
                yield name, open(name, encoding="utf-8").read()
            except FileNotFoundError:
                pass


def blank_comments(text):
    return re.sub(r"//[^\n]*", lambda m: " " * len(m.group()), text)


def close(text, start, pair="{}"):
    """The place behind the bracket that closes the one at start."""
    depth = 0
    for at in range(start, len(text)):
        if text[at] == pair[0]:
            depth += 1
        elif text[at] == pair[1]:
            depth -= 1
            if depth == 0:
                return at + 1
    return len(text)


class Function:
    """A function of a file: its name, parameters, clauses and body."""

    def __init__(self, name, path, line, params, clauses, body):
        self.name, self.path, self.line = name, path, line
        self.params, self.clauses, self.body = params, clauses, body

    def place(self):
        return f"{self.path}:{self.line}: {self.name}"


def functions(path, text):
    text = blank_comments(text)
    found = []
    for m in re.finditer(r"\bfn (\w+)\s*(?:<[^(]*?>)?\s*\(", text):
        after = close(text, m.end() - 1, "()")
        params = text[m.end():after - 1]
        clauses, at = [], after
        while at < len(text):
            c = re.compile(r"\s*(requires|ensures)\*?( \w+)?\s*\{").search(text, at)
            stop = re.compile(r"[;{]").search(text, at)
            if c and stop and c.end() - 1 == stop.start():
                end = close(text, stop.start())
                clauses.append((c.group(1), text[stop.start() + 1:end - 1].strip()))
                at = end
            else:
                break
        stop = re.compile(r"[;{]").search(text, at)
        body = ""
        if stop and text[stop.start()] == "{":
            body = text[stop.start():close(text, stop.start())]
        found.append(Function(m.group(1), path, text.count("\n", 0, m.start()) + 1, params, clauses, body))
    return found


def lines_with(pattern):
    regex = re.compile(pattern)

    def find(sources):
        for path, text in sources:
            for number, line in enumerate(blank_comments(text).split("\n"), 1):
                if regex.search(line):
                    yield f"{path}:{number}: {line.strip()}"

    return find


def comments_with(pattern):
    regex = re.compile(pattern)

    def find(sources):
        for path, text in sources:
            for number, line in enumerate(text.split("\n"), 1):
                if line.strip().startswith("//") and regex.search(line):
                    yield f"{path}:{number}: {line.strip()}"

    return find


def two_way_enums(sources):
    """Enums of two variants, one of which at least holds something."""
    for path, text in sources:
        plain = blank_comments(text)
        for m in re.finditer(r"\benum (\w+)[^{]*\{", plain):
            body = plain[m.end():close(plain, m.end() - 1) - 1]
            flat = re.sub(r"\([^)]*\)", "()", re.sub(r"\{[^}]*\}", "()", body))
            variants = [v.strip() for v in flat.split(",") if v.strip()]
            if len(variants) == 2 and any("()" in v for v in variants):
                yield f"{path}:{plain.count(chr(10), 0, m.start()) + 1}: {m.group(1)} {{{', '.join(variants)}}}"


def shape(body):
    out, names = [], {}
    for token in re.findall(r"[A-Za-z_]\w*|\d\w*|'.'|\S", body):
        if token in WORDS:
            out.append(token)
        elif re.match(r"[A-Za-z_]", token):
            out.append(names.setdefault(token, f"n{len(names)}"))
        elif re.match(r"\d|'", token):
            out.append("L")
        else:
            out.append(token)
    return out


def twins(sources):
    """Functions with bodies of one shape: the same words and marks, other names and literals."""
    groups = defaultdict(list)
    for path, text in sources:
        for f in functions(path, text):
            if not f.body or "/tests" in path or path.endswith("tests.rt"):
                continue
            tokens = shape(f.body)
            if len(tokens) >= 14:
                groups[" ".join(tokens)].append(f)
    for group in groups.values():
        if len(group) > 1:
            yield " ~ ".join(f.place() for f in group)


def table_matches(sources):
    """Functions that are one match whose arms are literals or names of variants: a test, a conversion or a printing."""
    for path, text in sources:
        for f in functions(path, text):
            m = re.match(r"\{\s*match [^{]*\{(.*)\}\s*\}$", f.body, re.S)
            if not m:
                continue
            arms = re.findall(r"=>\s*([^,{]+(?:\{[^}]*\})?)", m.group(1))
            plain = all(re.match(r"^(Some\()?(\w+::)*[\w']+(\(\w*\))?\)?\s*$|^b?'.'\s*$|^\*?\w+\s*$|^unreachable\(\)\s*$", a.strip()) for a in arms)
            if arms and plain and len(arms) > 1:
                yield f.place()


def copied_fields(sources):
    """Fields that a literal takes over from another value of the same type, one by one."""
    regex = re.compile(r"^\s*(\w+): (\w+(?:\.\w+)*)\.(\w+),$")
    for path, text in sources:
        for number, line in enumerate(text.split("\n"), 1):
            m = regex.match(line)
            if m and m.group(1) == m.group(3):
                yield f"{path}:{number}: {line.strip()}"


def digits_by_hand(sources):
    for path, text in sources:
        for f in functions(path, text):
            if re.search(r"b'0' \+|- b'0'|< b'0'|% 10|/ 10", f.body):
                yield f.place()


VALUE = re.compile(r"\b(self|hub|result|store|core|ledger|graph|lines|list|steps|requests|order|chosen|found)\.(old|new|now)\b|\bresult\b")


def repeated_terms(sources):
    """Terms in brackets, of 30 letters or more, in the contracts of three or more functions of a crate."""
    where = defaultdict(lambda: defaultdict(set))
    for path, text in sources:
        crate = path.split("/")[1]
        for f in functions(path, text):
            for _, clause in f.clauses:
                for m in re.finditer(r"\(", clause):
                    term = clause[m.start():close(clause, m.start(), "()")]
                    term = re.sub(r"\s+", " ", VALUE.sub("V", term))
                    if len(term) >= 30:
                        where[crate][term].add(f"{path}:{f.line}")
                whole = re.sub(r"\s+", " ", VALUE.sub("V", clause))
                where[crate][whole].add(f"{path}:{f.line}")
    for crate, terms in where.items():
        for term, at in sorted(terms.items()):
            if len(at) >= 3:
                yield f"{crate}: {len(at)} functions: {term[:150]}"


def companions(sources):
    """Three parameters or more, of the same names, that three or more functions of a crate take."""
    sets = defaultdict(set)
    for path, text in sources:
        if "/tests" in path or path.endswith("tests.rt"):
            continue
        for f in functions(path, text):
            names = re.findall(r"(?:^|,)\s*(?:mut )?(\w+)\s*:", re.sub(r"<[^>]*>", "", f.params))
            if re.search(r"\bself\b", f.params):
                names.append("self")
            if f.body and len(names) >= 3:
                sets[(path.split("/")[1], frozenset(names))].add(f.place())
    keys = list(sets)
    groups = defaultdict(set)
    for crate, names in keys:
        for other, more in keys:
            common = names & more
            if crate == other and len(common) >= 3:
                groups[(crate, common)] |= sets[(crate, names)] | sets[(other, more)]
    for (crate, names), at in sorted(groups.items(), key=lambda kv: (kv[0][0], sorted(kv[0][1]))):
        if len(at) >= 3:
            yield f"{crate}: {', '.join(sorted(names))}: {len(at)} functions"


def joined_requires(sources):
    for path, text in sources:
        for f in functions(path, text):
            for kind, clause in f.clauses:
                if kind == "requires" and "×" in clause:
                    yield f"{f.place()}: {clause[:110]}"


def arrays_in_structs(sources):
    """Structs with an array and a count beside it, or with two arrays of one length."""
    for path, text in sources:
        plain = blank_comments(text)
        for m in re.finditer(r"\bstruct (\w+)[^{;(]*\{", plain):
            body = plain[m.end():close(plain, m.end() - 1) - 1]
            sizes = re.findall(r"\[[\w<>]+; (\w+)\]", body)
            counted = re.search(r"\b(count|len|used): usize", body) and (sizes or "[u8]" in body)
            parallel = [s for s in set(sizes) if sizes.count(s) > 1]
            if counted or parallel:
                said = ", ".join((["a count"] if counted else []) + [f"{sizes.count(s)} arrays of {s}" for s in parallel])
                yield f"{path}:{plain.count(chr(10), 0, m.start()) + 1}: {m.group(1)}: {said}"


def counted_lists(sources):
    """Functions that fill a lent list or buffer from the front and answer how far, or answer a count with an array."""
    for path, text in sources:
        for m in re.finditer(r"\bfn (\w+)[^{;]*?->\s*(usize|Result<usize, \w+>|\(usize, \[[^)]*\))", blank_comments(text), re.S):
            head = m.group(0)
            if re.search(r"&mut \[", head) or "(usize, [" in head:
                yield f"{path}:{text.count(chr(10), 0, m.start()) + 1}: {m.group(1)}"


def answers(commit):
    for path, text in files(commit, "proofs", "Answers.antt"):
        for number, line in enumerate(text.split("\n"), 1):
            if re.match(r"pub \S+ : .*goal\.", line):
                yield f"{path}:{number}: {line.strip()}"


def lemmas(commit):
    for path, text in files(commit, "proofs", ".antt"):
        if path.endswith(("Answers.antt", "Invariants.antt")):
            continue
        for number, line in enumerate(text.split("\n"), 1):
            if re.match(r"(pub |abbrev |unfoldable )*[^\s:()|-]\S* : ", line):
                yield f"{path}:{number}: {line.strip()[:150]}"


ARMS = r"None => None\b|Some\(\w+\) => Ok\(|None => Err\(|Some\((\w+)\) => Err\(\1\)|Err\((\w+)\) => (Some|Err)\(\(?\w*,? ?\2\)|Some\(_\) => true|None => (true|false)\b|None => \{\}|None => Ok\(\(\)\)|None => \w+,$"

KINDS = [
    ("1", "arms", "arms of a match that a method of Option or Result does", lines_with(ARMS)),
    ("1", "refusals_as_options", "a refusal answered as an Option", lines_with(r"-> Option<\w*(Refusal|Fault|Refused)>")),
    ("1", "stand_ins", "a number that stands for none", comments_with(r", or (32|all of them|0) (if|where)")),
    ("1", "numbers_for_kinds", "a number kept or passed for a kind or a refusal", lines_with(r"\b(kind|code|status): u32|\b(Refused|Code)\(u32\)")),
    ("1", "two_way_enums", "an enum of two variants, of which one holds something", two_way_enums),
    ("2", "twins", "groups of functions of one shape", twins),
    ("3", "while_loops", "loops by while, but while let", lines_with(r"^\s*('\w+: )?while (?!let)")),
    ("3", "range_loops", "loops over a range", lines_with(r"\bfor \w+ in \(?[\w.()]*\.\.")),
    ("4", "table_matches", "a function that is a match from a value to a constant", table_matches),
    ("4", "copied_fields", "fields copied one by one", copied_fields),
    ("4", "digits", "digits read or written by hand", digits_by_hand),
    ("5", "repeated_terms", "a term or clause in the contracts of three functions or more", repeated_terms),
    ("5", "companions", "three parameters or more that go together in three functions or more", companions),
    ("5", "joined_requires", "a requires that joins facts by ×", joined_requires),
    ("6", "arrays", "a struct with an array and a count, or with arrays of one length", arrays_in_structs),
    ("6", "counted_lists", "a function that fills a list from the front and answers how far", counted_lists),
    ("7", "function_tables", "function pointers, dyn, a match on a step to run", lines_with(r"\bdyn |: fn\(|\[fn\(|match \w*(mode|op|phase|stage)\w* ")),
]


def main():
    words = sys.argv[1:]
    commit = ""
    if "--at" in words:
        at = words.index("--at")
        commit = words[at + 1]
        del words[at:at + 2]
    sources = list(files(commit, "src", ".rt"))
    for point, name, meaning, find in KINDS:
        found = list(find(sources))
        if not words:
            print(f"{point}  {name:20} {len(found):4}  {meaning}")
        elif name in words:
            print("\n".join(found))
    for name, find, meaning in (("answers", answers, "answers in proof files"), ("lemmas", lemmas, "lemmas and definitions in proofs/")):
        found = list(find(commit))
        if not words:
            print(f"8  {name:20} {len(found):4}  {meaning}")
        elif name in words:
            print("\n".join(found))


main()
