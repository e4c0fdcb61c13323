#!/usr/bin/env python3
"""Brings the names of definitions, fields and lemmas to snake case.

Run once at the top of the repository, after the toolchain's own port script. It makes two passes over names:
a name that the .antt files declare in lower camel case is respelled wherever it stands as a word in .antt and .rt
files, edits and documents; then one with dashes is, in .antt files alone, since prose has words with dashes of its own.
Comments keep their words, and goals and steps, which the check names, keep their spelling. No other word of the
sources, and no string, is spelled like a name that is turned here.

It prints the new names that stood there already: a definition may have the name of the function whose answer it is,
and of a field of another record. Where it would have had the name of a function that does something else, OTHER
names it anew. A lemma that would have had the name of a definition or of a function gets `_lem`.
"""

import glob
import re
import sys

NAME = r"[A-Za-z_][A-Za-z0-9_'-]*"
WORD = re.compile(r"(?<![A-Za-z0-9_'])" + NAME)
DECLARED = re.compile(r"\s*(?:abbrev |unfoldable |pub )*(" + NAME + r")\s*(?:\{[^}]*\} *|\([^)]*\) *)*:")
RULESET = re.compile(r"(?:pub )?ruleset (" + NAME + r")")
CAMEL = re.compile(r"(?<=[a-z0-9])([A-Z])")
COMMENT = {".antt": re.compile(r"(?:^|\s)--(?:\s|$)"), ".rt": re.compile(r"(?:^|\s)//(?:\s|$)")}
# Local names that no line declares by itself.
LOCAL = {"undoneHost"}
# Definitions that would have the name of a function that does something else: the sum over all pairs and the bytes of
# one value; a line as it is written and the function that reads it.
OTHER = {
    "roomBytes": "total_room_bytes",
    "headingLine": "rendered_heading",
    "nameLine": "rendered_name",
    "paramLine": "rendered_param",
    "valueLine": "rendered_value",
    "headLine": "rendered_head",
    "itemLine": "rendered_item",
    "behindType": "rendered_datum",
    "bindLine": "rendered_bind",
}
# The same where the toolchain's script respelled it: the value in front of bytes, and a row's value by its number.
PORTED = {"value_at": "front_value"}
# Fields that would have the name of a definition.
FIELDS = {"names-at": "names_from", "outcomes-at": "outcomes_from"}


def files(*patterns):
    found = []
    for pattern in patterns:
        found += [f for f in glob.glob(pattern, recursive=True) if "/out/" not in f]
    return sorted(found)


def antt():
    return files("crates/*/specs/**/*.antt", "crates/*/proofs/**/*.antt")


def rest():
    return files("crates/*/src/**/*.rt", "crates/*/must-fail/*.edit", "docs/*.md", "README.md")


def read(f):
    with open(f, encoding="utf-8") as opened:
        return opened.read()


def declared():
    """The names that .antt files declare, but for the answers to goals, which the check names."""
    found = set(LOCAL)
    for f in antt():
        for line in read(f).split("\n"):
            for pattern in (DECLARED, RULESET):
                m = pattern.match(line)
                if m and "goal." not in line:
                    found.add(m.group(1))
    return found


def words():
    found = set()
    for f in antt() + rest():
        found.update(WORD.findall(read(f)))
    return found


def respelled(line, mark, turned):
    at = mark.search(line) if mark else None
    code, prose = (line[: at.start()], line[at.start() :]) if at else (line, "")
    return WORD.sub(lambda m: turned.get(m.group(0), m.group(0)), code) + prose


def respell(turned, among):
    for f in among:
        text = read(f)
        mark = COMMENT.get(f[f.rfind(".") :])
        new = "\n".join(respelled(line, mark, turned) for line in text.split("\n"))
        if new != text:
            with open(f, "w", encoding="utf-8") as opened:
                opened.write(new)
    print(f"{len(turned)} names respelled")


def camel():
    seen = words()
    turned = {}
    for name in sorted(declared()):
        if name[0].islower() and CAMEL.search(name):
            turned[name] = OTHER.get(name) or CAMEL.sub(lambda m: "_" + m.group(1).lower(), name)
            if turned[name] in seen:
                print(f"falls together: {name} and {turned[name]}")
    respell(turned, antt() + rest())


def ported():
    """A definition stands in no path and behind no dot; the function's goals do."""
    for f in antt():
        text = read(f)
        new = text
        for old, name in PORTED.items():
            new = re.sub(r"(?<![A-Za-z0-9_'.-])" + old + r"(?![A-Za-z0-9_'-])", name, new)
        if new != text:
            with open(f, "w", encoding="utf-8") as opened:
                opened.write(new)


def dashed():
    seen = words()
    turned = {}
    for name in sorted(declared()):
        if "-" in name and name[0].islower():
            new = FIELDS.get(name) or name.replace("-", "_")
            if new in seen:
                print(f"falls together: {name} and {new}")
                new += "_lem"
            turned[name] = new
            seen.add(new)
    respell(turned, antt())


if __name__ == "__main__":
    if not glob.glob("crates.txt"):
        sys.exit("run this at the top of the repository")
    camel()
    ported()
    dashed()
