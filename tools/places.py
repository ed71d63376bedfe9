#!/usr/bin/env python3
"""Lists the places of the crates' src/ that docs/DESIGN-PASS.md counts: `python3 tools/places.py`, at the top, prints each point's count and its places."""

import difflib
import itertools
import re
import subprocess
from collections import defaultdict

FUNCTION = re.compile(r'^( *)(pub(?:\([a-z]+\))? )?(extern "C" )?fn (\w+)[^(]*\((.*?)\)(?: -> ([^\n{]+?))?(?: \{\n|\n(.*?)^\1\{\n)(.*?)^\1\}', re.M | re.S)
STRUCT = re.compile(r"^( *)(?:pub(?:\([a-z]+\))? )?struct (\w+)[^{;]*\{\n(.*?)^\1\}", re.M | re.S)
NUMBERED = re.compile(r"\b(refusal|fault|faulty|wrong|none|full|tag|letter|kind|class): (u8|u64|usize|bool)\b")


def sources():
    names = subprocess.run(["git", "ls-files", "crates/*/src/*.rt"], capture_output=True, text=True, check=True).stdout.split()
    return {name: re.sub(r"^\s*//.*\n", "", open(name).read(), flags=re.M) for name in names}


def functions(files):
    for name, text in files.items():
        for found in FUNCTION.finditer(text):
            params = [p.strip() for p in re.split(r",\s*(?![^<\[(]*[>\])])", found[5]) if p.strip()]
            yield {"name": f"{name} {found[4]}", "params": params, "result": (found[6] or "").strip(), "contract": found[7] or "", "body": found[8]}


def numbers_for_kinds(files):
    for f in functions(files):
        if NUMBERED.search(", ".join(f["params"])) or f["result"] == "u8":
            yield f["name"]
    for name, text in files.items():
        for found in STRUCT.finditer(text):
            if NUMBERED.search(found[3]):
                yield f"{name} {found[2]}"


def twins(files):
    """Pairs of functions whose bodies agree in four tokens of five, of at least fifteen."""
    words = [(f["name"], re.findall(r"\w+|[^\w\s]", f["body"])) for f in functions(files)]
    for (a, x), (b, y) in itertools.combinations([w for w in words if len(w[1]) >= 15], 2):
        if difflib.SequenceMatcher(None, x, y, autojunk=False).ratio() >= 0.8:
            yield f"{a} = {b}"


def lines_with(pattern):
    def search(files):
        for name, text in files.items():
            for line in text.split("\n"):
                if re.search(pattern, line):
                    yield f"{name} {line.strip()}"

    return search


def travelling(files):
    """Clauses that stand in the `requires` of three functions, and runs of three parameters that three functions have."""
    clauses, runs = defaultdict(set), defaultdict(set)
    for f in functions(files):
        for clause in re.findall(r"requires (?:\w+ )?\{ (.*) \}", f["contract"]):
            for part in clause.split(" × "):
                clauses[re.sub(r"\.(old|now)\b|[()]", "", part).strip()].add(f["name"])
        for i in range(len(f["params"]) - 2):
            runs[", ".join(f["params"][i : i + 3])].add(f["name"])
    for kind in (clauses, runs):
        for what, where in kind.items():
            if len(where) >= 3:
                yield f"{what}: {len(where)} functions"


def with_a_length(files):
    """Parameters: a lent slice with a place or a length of it beside it, or slices that are parts of one thing."""
    for f in functions(files):
        params = ", ".join(f["params"])
        if re.search(r"\[\w+\], (at|end|next|len|count|places): usize|counts: &(mut )?\[u64\], shortfalls", params):
            yield f["name"]


POINTS = [
    ("1 numbers for kinds and refusals, flags beside values", numbers_for_kinds),
    ("2 twins", twins),
    ("3 loops that count by hand", lines_with(r"^\s*(while|loop)\b")),
    ("4 conversions by `as`", lines_with(r"\bas [ui](8|16|32|64|128|size)\b")),
    ("5 clauses and parameters that travel together", travelling),
    ("6 slices with a place or a length beside them", with_a_length),
    ("7 steps by a switch, tables of functions", lines_with(r"\bmatch (step|stage|state|phase|mode)\b|\bdyn\b|[:(] ?fn\(")),
]

for title, places in POINTS:
    found = list(places(sources()))
    print(f"{title}: {len(found)}")
    for place in found:
        print(f"    {place}")
