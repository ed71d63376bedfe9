#!/usr/bin/env python3
"""Spells the repository's own definitions and lemmas in snake case, as the kit spells its own: anyWild becomes any_wild, rows-add-up
becomes rows_add_up. A lemma that would then have a definition's name gets _lem. Types, modules, facts in upper camel case, functions of
src/, names from the kit and names that Rattle makes (returns-.., loop-..) keep their spelling.

usage: python3 tools/snake_case_names.py            at the top of the repository, with everything committed; then rt fmt in each crate
"""

import collections
import os
import re

NAME = re.compile(r"[^\W\d][\w'-]*")
DECLARED = re.compile(r"(?m)^[ \t]*(?:(?:abbrev|unfoldable|pub|syntax) )*([^\W\d][\w'-]*)((?: [\w'-]+| \([^)]*\)| \{[^}]*\})*)\s*:(?=\s)")
USE = re.compile(r"(?m)^[ \t]*(?:pub )?use ([^\s{]+?)\.\{([^}]*)\}")
FIELDS = re.compile(r"(?m)^([ \t]*)(?:(?:pub|abbrev) )*record [^\n]*\bwhere\n((?:\1[ \t]+[^\n]*\n)+)")
GOAL = re.compile(r"(?m)^[ \t]*(?:(?:abbrev|pub) )*([^\W\d][\w'-]*) : (?:goal|need|Goals|Given)\.")
STRING = re.compile(r'"(?:\\.|[^"\\\n])*"')
NOTHING = re.compile(r"(?!)")
MADE = re.compile(r"(returns|loop|invariant|decreases)-|overflow_|.*-(requires(-.*)?|preserved|init|ensures)$")
PAGES = (".md", ".sh")


def texts(ending):
    for folder, dirs, files in os.walk("crates"):
        dirs[:] = sorted(d for d in dirs if d != "out")
        for file in sorted(files):
            if file.endswith(ending):
                yield os.path.join(folder, file)


def read(path):
    with open(path, encoding="utf-8") as file:
        return file.read()


def without_comments(text):
    """The text without comments and strings."""
    return re.sub(r"--[^\n]*", "", STRING.sub('""', text))


def snake(name):
    name = name.replace("getD", "get_or").replace("-", "_")
    return re.sub(r"_?[A-Z]", lambda m: "_" + m[0][-1].lower(), name)


def is_camel(name):
    return name[0].islower() and re.search(r"[a-z0-9][A-Z]", name) is not None


def is_spelled_anew(name):
    return name[0].islower() and ("-" in name or is_camel(name))


def own_names():
    """The names that specs/ and proofs/ declare or bind and that neither the kit nor Rattle made."""
    names = set()
    for path in texts(".antt"):
        text = without_comments(read(path))
        made = {m[1] for m in GOAL.finditer(text)} | foreign(text)
        bound = {m[0] for m in NAME.finditer(text) if is_spelled_anew(m[0]) and text[m.start() - 1] != "."}
        names |= ({m[1] for m in DECLARED.finditer(text)} | bound) - made
    return {n for n in names if not n[0].isupper() and not MADE.match(n)}


def table(names, own):
    """From each name that changes to its new spelling: a definition's first, then a lemma's, which makes way; a record's own fields keep clear
    of both."""
    taken = {n for n in names if not is_camel(n) and "-" not in n}
    new = {}
    for name in sorted(n for n in names if is_camel(n) and "-" not in n):
        new[name] = snake(name)
    taken |= set(new.values())
    for name in sorted(n for n in names if "-" in n):
        new[name] = snake(name) + ("_lem" if snake(name) in taken and name not in own else "")
    return new


def foreign(text):
    """The names that a file takes from the kit."""
    crates = {"Rattle." + c for c in os.listdir("crates")}
    names = set()
    for m in USE.finditer(text):
        if ".".join(m[1].split(".")[:2]) not in crates or m[1].endswith((".Goals", ".Given")):
            names |= set(NAME.findall(m[2]))
    return names


def fields():
    """The fields of the repository's own records."""
    names = set()
    for path in texts(".antt"):
        for m in FIELDS.finditer(without_comments(read(path))):
            names |= {f[1] for f in DECLARED.finditer(m[2])}
    return names


def spelled(text, new, kept=(), own=(), dashed=True, strings=STRING):
    """The text with each whole name of the table in its new spelling, but in strings; a dashed one behind a dot only where it is a record's own
    field, since Rattle makes the others."""
    quoted = {i for m in strings.finditer(text) for i in range(*m.span())}

    def turn(m):
        name = m[0]
        made = text[m.start() - 1 : m.start()] == "." and name not in own
        if m.start() in quoted or name in kept or name not in new or ("-" in name and (made or not dashed)):
            return name
        return new[name]

    return NAME.sub(turn, text)


def page(text, new):
    """A page of prose: a word with a dash is a name only in backquotes."""
    text = spelled(text, new, dashed=False, strings=NOTHING)
    return re.sub(r"`[^`\n]*`", lambda m: spelled(m[0], new, strings=NOTHING), text)


def write(path, text, turned):
    if turned != text:
        with open(path, "w", encoding="utf-8") as file:
            file.write(turned)


def main():
    own = fields()
    new = table(own_names(), own)
    fallen = collections.Counter(new[n] for n in new if n not in own)
    assert max(fallen.values(), default=1) == 1, fallen.most_common(9)
    for path in texts(".antt"):
        text = read(path)
        write(path, text, spelled(text, new, foreign(text), own))
    for path in texts((".rt", ".edit")):
        text = read(path)
        write(path, text, spelled(text, new, dashed=path.endswith(".edit")))
    pages = ["README.md", *(os.path.join("docs", f) for f in sorted(os.listdir("docs")) if f.endswith(PAGES)), *(os.path.join("tests", f) for f in sorted(os.listdir("tests")))]
    for path in pages:
        text = read(path)
        write(path, text, page(text, new))
    print(f"{len(new)} names spelled anew")


main()
