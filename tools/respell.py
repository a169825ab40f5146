#!/usr/bin/env python3
"""Brings the repository's own definitions and lemmas to today's spelling, after port.py: functions and fields in snake case,
facts in camel case, a dash in a lemma's name only between two names. Functions of src/, exported names and strings keep theirs.

usage: tools/respell.py        in the repository, once: rewrites specs/, proofs/, the clauses of src/, must-fail/, README and docs/
       tools/respell.py list   prints the renamings, and names that fall together
"""
import glob, os, re, sys

TOKEN = re.compile(r"[^\s(){}\[\];,.:\"|@`⌜⌝!?=]+")
# Names that a lemma's name may join by a dash beside the repository's own definitions.
STD = "length append take drop set map sum get_or cons nil suc zero add mul sub div mod ltb leb eqb and or true false".split()

# Lemmas that port.py, or this script, would give the name of their function.
LEMMAS = {"first_below": "first_below_lem", "left_out": "left_out_lem", "cut_off": "cut_off_lem", "row-by": "row_by_lem", "same-numbers": "same_numbers_lem"}


def declarations():
    """Each declared name with (kind, file): kind is fact, record, field or other."""
    found = []
    for path in sorted(glob.glob("crates/*/specs/**/*.antt", recursive=True) + glob.glob("crates/*/proofs/**/*.antt", recursive=True)):
        record = None
        lines = open(path, encoding="utf-8").read().split("\n")
        for line in lines:
            depth = len(line) - len(line.lstrip())
            if line.strip() and record is not None and depth <= record:
                record = None
            m = re.match(r"\s*((?:abbrev |unfoldable |pub |ruleset |record |data )*)([^\s:(){},;=]+)((?: \(.*\)| \{.*\})*) :(?: |$)(.*)", line)
            if not m or line.lstrip().startswith("--") or m.group(2) in ("let", "in", "where"):
                continue
            inside = record is not None and depth > record
            name, rest = m.group(2), m.group(4)
            if re.search(r"\b(record|data) ", m.group(1)):
                kind, record = "record", depth
            elif inside:
                kind = "field"
            elif re.search(r"(^|→ )Type 0$", rest):
                kind = "fact"
            else:
                kind = "other"
            found.append((name, kind, path))
    return found


def of_a_function(path):
    """Whether a file is of one function's proof, where most names are goals."""
    return re.search(r"/proofs/(.*/)?[a-z+][a-z_0-9+]*/[A-Z]\w*\.antt$", path) is not None


def snake(word):
    return re.sub(r"(?<=[a-z0-9])([A-Z])", lambda m: "_" + m.group(1).lower(), word)


def camel(word):
    return word[0].upper() + word[1:]


def renamings():
    found = declarations()
    facts = {n for n, k, p in found if k == "fact" and re.match(r"[a-z]", n) and re.search("[A-Z]", n)}
    own = {n for n, k, p in found if "/specs/" in p}
    words = set()
    for n in own | facts:
        words.add(camel(n) if n in facts else snake(n) if n[:1].islower() else n)
    words |= set(STD)
    new = {}

    def word(w):
        if w in facts:
            return camel(w)
        if re.match(r"[a-z]", w) and not re.fullmatch(r"[A-Z_0-9]+", w):
            return snake(w)
        return w

    for n, k, p in found:
        parts = [word(w) for w in n.split("-")]
        if len(parts) == 1 or of_a_function(p):
            made = "-".join(parts)
        elif k == "field":
            made = "_".join(parts)
        else:
            # the longest runs of parts that are names, which dashes join
            runs, i = [], 0
            while i < len(parts):
                j = len(parts)
                while j > i + 1 and "_".join(parts[i:j]) not in words:
                    j -= 1
                runs.append("_".join(parts[i:j]))
                i = j
            joined = all(r in words for r in runs) or runs[0] == "length"
            made = ("-" if joined else "_").join(runs)
        if made != n:
            new[n] = made
    # a lemma that would have its function's name gets `_lem`, a field `_is`
    made = {}
    for n, m in new.items():
        made.setdefault(m, []).append(n)
    kinds = {}
    for n, k, p in found:
        kinds.setdefault(n, set()).add(k)
    for m, olds in made.items():
        if len(olds) > 1:
            for n in olds:
                if "-" in n:
                    new[n] = m + ("_is" if "field" in kinds[n] else "_lem")
    new.update(LEMMAS)
    return new, found


def turned(text, new):
    def one(m):
        word = m.group(0)
        if word in LEMMAS and "-" not in word and "." in (text[m.start() - 1 : m.start()], text[m.end() : m.end() + 1]):
            return word
        return new.get(word, word)

    return TOKEN.sub(one, text)


def quoted(text, new):
    """Prose: names in backquotes, and those that no English word is spelled like."""
    text = re.sub(r"`[^`\n]+`", lambda m: turned(m.group(0), new), text)
    return turned(text, {n: m for n, m in new.items() if re.search("[a-z][A-Z]", n)})


def source(text, new):
    """A file: its comments are prose."""
    made = []
    for line in text.split("\n"):
        m = re.match(r"(.*?)(--(?: .*)?|//.*|#.*)?$", line) if not line.lstrip().startswith(("--", "//", "# ")) else re.match(r"()(.*)$", line)
        made.append(turned(m.group(1), new) + quoted(m.group(2) or "", new))
    return "\n".join(made)


def main():
    new, found = renamings()
    declared = {}
    for n, k, p in found:
        declared.setdefault(n, set()).add(p)
    for n, m in sorted(new.items()):
        if len(sys.argv) > 1:
            print(n, "->", m)
        if m in declared and m not in new:
            print(f"falls together: {n} and {m}, of {sorted(declared[m])[:3]}", file=sys.stderr)
    back = {}
    for n, m in new.items():
        if m in back:
            print(f"falls together: {n} and {back[m]} as {m}", file=sys.stderr)
        back[m] = n
    if len(sys.argv) > 1:
        return
    paths = [p for pattern in ("crates/**/*.antt", "crates/**/*.rt", "crates/**/*.edit") for p in glob.glob(pattern, recursive=True)]
    for path in paths:
        text = open(path, encoding="utf-8").read()
        to = source(text, {n: m for n, m in new.items() if path.endswith(".antt") or "-" in n or n not in LEMMAS})
        if to != text:
            open(path, "w", encoding="utf-8").write(to)
    for path in ["README.md"] + glob.glob("docs/*.md") + glob.glob("docs/changes/*.md"):
        text = open(path, encoding="utf-8").read()
        to = quoted(text, {n: m for n, m in new.items() if "-" in n or n not in LEMMAS})
        if to != text:
            open(path, "w", encoding="utf-8").write(to)


if __name__ == "__main__":
    main()
