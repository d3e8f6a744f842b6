#!/usr/bin/env python3
"""Spells the repository's definitions and lemmas as the installed Rattle does: words in snake case, types in camel case.

usage: python3 tools/respell.py [PATH..]      at the top of the checkout; with no path, the sources, definitions and proofs of every crate

respell.tsv has a row for each name: the old spelling, a tab, the new one. A dash stays in a lemma's name where it joins two names.
Whole words turn, in code and clauses; strings and comments stay, and so does what src/ declares.
It is for the landed text alone: a step of today's proofs may rightly have a name that stands in the table, as insert-right in tree_edits.
"""

import pathlib
import re
import sys

WORD = re.compile(r'[^\s(){}.;,@"«»]+')
QUIET = {".antt": re.compile(r'"(?:[^"\\\n]|\\.)*"|--[^\n]*'), ".rt": re.compile(r'"(?:[^"\\\n]|\\.)*"|//[^\n]*')}


def respelled(text, names, quiet):
    def turn(code):
        return WORD.sub(lambda m: names.get(m.group(), m.group()), code)

    out, at = [], 0
    for m in quiet.finditer(text):
        out += [turn(text[at : m.start()]), m.group()]
        at = m.end()
    return "".join(out) + turn(text[at:])


def main():
    rows = pathlib.Path(__file__).with_name("respell.tsv").read_text().splitlines()
    names = dict(row.split("\t") for row in rows)
    paths = [pathlib.Path(p) for p in sys.argv[1:]]
    for path in paths or sorted(pathlib.Path("crates").glob("*/*/**/*")):
        if path.suffix in QUIET:
            text = path.read_text()
            new = respelled(text, names, QUIET[path.suffix])
            if new != text:
                path.write_text(new)


main()
