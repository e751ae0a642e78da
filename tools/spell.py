#!/usr/bin/env python3
"""Spells the repository's own names as today's Rattle spells names: definitions, lemmas, constructors and fields in snake case
(`new-record` becomes `new_record`), types and facts in camel case (`Quotient-here` becomes `QuotientHere`).

usage: tools/spell.py [FOLDER]     at the top of the repository, or FOLDER; run once, right after the toolchain's own port.py

What counts as own: what the files of specs/ (and the lemma files right in proofs/) declare. It is renamed in every .antt and .rt file of
crates/, in the edits, and between backticks in the pages. Names of functions, of files and of anything in strings stay.
A line that begins 'meets:' names two spellings that would fall together in one file; then nothing is written.
"""
import glob
import os
import re
import sys

top = sys.argv[1] if len(sys.argv) > 1 else "."
os.chdir(top)
NAME = r'[^\s(){}.;,@"«»`]+'
DECLARED = re.compile(r"(?m)^ *(?:(?:pub|abbrev|unfoldable|data|record) )*(" + NAME + r")(?: \{[^{}\n]*\})* :(?!:)")
DASHED = re.compile(r"(?<=[\w'])-(?=\w)")

antt = sorted(glob.glob("crates/*/specs/**/*.antt", recursive=True) + glob.glob("crates/*/proofs/**/*.antt", recursive=True))
own = set()
for path in antt:
    if re.match(r"crates/\w+/specs/|crates/\w+/proofs/[^/]+$", path):
        for m in DECLARED.finditer(open(path).read()):
            if DASHED.search(m[1]):
                own.add(m[1])


def spelled(name):
    if name[0].isupper():
        return "".join(part[:1].upper() + part[1:] for part in name.split("-"))
    return DASHED.sub("_", name)


new = {name: spelled(name) for name in own}
token = re.compile(NAME)

# A definition may have the name of the function that it is the meaning of: a clause cannot call the program.
functions = set()
for path in glob.glob("crates/*/src/**/*.rt", recursive=True):
    functions |= set(re.findall(r"\bfn (\w+)", open(path).read()))


def turned(text):
    return token.sub(lambda m: new.get(m[0], m[0]), text)


def turned_code(text, comment):
    """A file of code or of antt: comments only between backticks."""
    out = []
    for line in text.split("\n"):
        at = line.find(comment) if comment == "//" else (0 if re.match(r" *-- ", line) else line.find(" -- "))
        code, said = (line, "") if at < 0 else (line[:at], line[at:])
        out.append(turned(code) + re.sub(r"`[^`\n]*`", lambda m: turned(m[0]), said))
    return "\n".join(out)


def turned_page(text):
    def one(m):
        if "/" in m[0] or re.search(r"\.(job|answer|edit|md|txt)", m[0]):
            return m[0]
        return turned(m[0])

    return re.sub(r"`[^`\n]*`", one, text)


jobs = [(p, lambda t: turned_code(t, "--")) for p in antt]
jobs += [(p, lambda t: turned_code(t, "//")) for p in sorted(glob.glob("crates/*/src/**/*.rt", recursive=True))]
jobs += [(p, turned) for p in sorted(glob.glob("crates/*/must-fail/*.edit"))]
jobs += [(p, turned_page) for p in sorted(glob.glob("docs/**/*.md", recursive=True) + ["README.md"])]
writes, meets = [], 0
for path, turn in jobs:
    text = open(path).read()
    after = turn(text)
    if after != text:
        writes.append((path, after))
    if path.endswith((".antt", ".rt")):
        had = set(token.findall(text))
        for name in sorted(had & own):
            if new[name] in had and (new[name] not in functions or "/specs/" in path):
                print(f"meets: {path}: {name} and {new[name]}")
                meets += 1
if meets:
    sys.exit(1)
for path, after in writes:
    with open(path, "w") as f:
        f.write(after)
print(f"{len(new)} names, {len(writes)} files")
