#!/usr/bin/env python3
"""Respells the repository's own dashed names of specs/ and proofs/, as `rows-grow`, to `rows_grow`, and a
dashed type, as `Keeps-its-book`, to `KeepsItsBook`. Run once, at the top, after the kit's port.py.

It respells definitions, lemmas, fields, constructors and local names wherever they stand in .antt files, in
the clauses of .rt files, and between backticks in docs/ and README.md. Names of the library, names that the
check makes (goals, steps, their fields), comments, strings and functions of src/ keep their spelling. It
lists the names that stand in both spellings already, and writes only with --write: read that list first.
"""
import os
import re
import sys

WORD = r"[A-Za-z][A-Za-z0-9_']*(?:-[A-Za-z0-9_']+)+"
# definitions of specs/ whose snake-case names are those of functions of src/
OTHER = {"all-below": "each_below", "rows-below": "rows_each_below", "cause-number": "number_of_cause",
         "grade-number": "number_of_grade", "notes-needed": "notes_for"}


def files(*ends):
    for top in ("crates", "docs", "README.md"):
        if os.path.isfile(top):
            if top.endswith(ends):
                yield top
            continue
        for folder, dirs, names in os.walk(top):
            dirs[:] = sorted(d for d in dirs if d != "out")
            for name in sorted(names):
                if name.endswith(ends):
                    yield os.path.join(folder, name)


def read(path):
    with open(path, encoding="utf-8") as f:
        return f.read()


def bare(text):
    """The text of an .antt file without comments and strings."""
    return re.sub(r'"(?:[^"\\\n]|\\.)*"|(?<![^\s(])--[^\n]*', " ", text)


def own_names():
    own = set()
    for path in files(".antt"):
        text = bare(read(path))
        for m in re.finditer(rf"(?m)^\s*(?:abbrev |unfoldable |ruleset )*(?:pub )?(?:abbrev |unfoldable )?(?:record |data |ruleset )?({WORD})\s+(?=[:({{])(?P<rest>[^\n]*)", text):
            if not re.search(r":\s*goal\." + re.escape(m.group(1)) + r"\b", m.group(0)):
                own.add(m.group(1))
        # local names: of lets, binders and named fields
        own.update(re.findall(rf"\blet ({WORD})\b", text))
        for group in re.findall(r"[({]([^(){}:]*?) : ", text):
            own.update(w for w in group.split() if re.fullmatch(WORD, w))
        own.update(re.findall(rf"λ ({WORD})\.", text))
    return own


def imported():
    """Names that files take from outside the repository."""
    ours = {d for d in os.listdir("crates")}
    names = set()
    for path in files(".antt", ".rt"):
        for module, group in re.findall(r"(?m)^\s*(?:ghost )?use ([\w.+'-]+)\.\{([^}]*)\}", read(path)):
            parts = module.split(".")
            if parts[0] != "Rattle" or parts[1] not in ours:
                names.update(w for w in re.split(r"[,\s]+", group) if "-" in w)
    return names


def respelled(name):
    if name in OTHER:
        return OTHER[name]
    if name[0].isupper():
        return "".join(p[0].upper() + p[1:] for p in name.split("-"))
    return name.replace("-", "_")


def main():
    own = own_names()
    foreign = imported()
    clash = sorted(own & foreign)
    new = {n: respelled(n) for n in own if n not in foreign}
    words = set()
    for path in files(".antt", ".rt"):
        words.update(re.findall(r"[A-Za-z][A-Za-z0-9_']*(?:-[A-Za-z0-9_']+)*", read(path)))
    together = sorted(n for n in new if new[n] in words)
    if len(set(new.values())) != len(new):
        together.append("two dashed names become one")
    print(f"{len(new)} names; kept for the library's sake: {clash}")
    print(f"these stand in both spellings already: {together}")
    if "--write" not in sys.argv:
        return 0
    token = re.compile(r"(?<![A-Za-z0-9_'-])(" + WORD + r")(?![A-Za-z0-9_'-])")

    def one(m):
        if m.string[:m.start()].endswith("c.") and m.group(1) in OTHER:
            return m.group(1).replace("-", "_")
        return new.get(m.group(1), m.group(1))

    def turn(text):
        return token.sub(one, text)

    keep = {".antt": r'"(?:[^"\\\n]|\\.)*"|(?<![^\s(])--[^\n]*', ".rt": r'b?"(?:[^"\\]|\\.)*"|//[^\n]*', ".md": None}
    for path in files(".antt", ".rt", ".md"):
        text = read(path)
        end = os.path.splitext(path)[1]
        if end == ".md":
            out = re.sub(r"`[^`\n]*`", lambda m: turn(m.group(0)), text)
        else:
            out, at = [], 0
            for m in re.finditer(keep[end], text):
                out += [turn(text[at:m.start()]), m.group(0)]
                at = m.end()
            out = "".join(out + [turn(text[at:])])
        if out != text:
            with open(path, "w", encoding="utf-8") as f:
                f.write(out)
    return 0


sys.exit(main())
