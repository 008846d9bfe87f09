#!/usr/bin/env python3
"""Spells the names of this repository's definitions and lemmas in snake case, by respell.tsv beside this file.

usage: tools/respell.py FOLDER

FOLDER is the top of a checkout in which the kit's port.py has run. Run it once, before any edit by hand.
A row of the table is a name of before, a tab, and the name of today; whole words alone turn.
  .antt  every word of the code but those that a Proof.antt declares itself or has behind a dot and that are no record's field;
         in a comment the words in camel case, and those in backticks
  .rt    every word, in a comment as above
Where a lemma would have a definition's name, the table gives it the ending _lem.
"""

import glob
import os
import re
import sys

HERE = os.path.dirname(os.path.realpath(__file__))
WORD = re.compile(r'[^\s(){}.;,@"«»`]+')
COMMENT = {".antt": re.compile(r"(?m)(?<![^\s])--.*$"), ".rt": re.compile(r"//.*$", re.M)}
CAMEL = re.compile(r"[a-z][a-z0-9]*[A-Z]\w*")
DECLARED = re.compile(r'(?m)^ *(?:pub |abbrev |unfoldable )*([^\s(){}.;,@"«»:]+)(?: \{[^{}]*\})* :')
FIELD = re.compile(r'(?m)^ +pub ([^\s(){}.;,@"«»:]+) :')


def table():
    with open(os.path.join(HERE, "respell.tsv"), encoding="utf-8") as it:
        return dict(line.rstrip("\n").split("\t") for line in it)


def in_comment(text, names):
    """A comment turns its names in camel case, and each name in backticks."""
    spans = re.sub(r"`([^`\n]*)`", lambda m: "`" + in_code(m[1], names) + "`", text)
    return CAMEL.sub(lambda m: names.get(m[0], m[0]), spans)


def in_code(text, names):
    return WORD.sub(lambda m: names.get(m[0], m[0]), text)


def in_proof(text, names, fields):
    """A proof that walks the code has labels of the toolchain: names that it declares, and names behind a dot."""
    own = set(DECLARED.findall(text))

    def turned(m):
        word, before = m[0], text[m.start() - 1 : m.start()]
        if word in own and "-" in word or before == "." and "-" in word and word not in fields:
            return word
        return names.get(word, word)

    return WORD.sub(turned, text)


def respelled(path, text, names, fields):
    kind = os.path.splitext(path)[1]
    out, at = [], 0
    for m in [*COMMENT[kind].finditer(text), None]:
        code = text[at : m.start() if m else len(text)]
        out.append(in_proof(code, names, fields) if path.endswith("/Proof.antt") else in_code(code, names))
        if m:
            out.append(in_comment(m[0], names))
            at = m.end()
    return "".join(out)


def main(top):
    names = table()
    paths = [p for end in ("rt", "antt") for p in glob.glob(f"{top}/crates/*/*/**/*.{end}", recursive=True) if "/out/" not in p]
    texts = {}
    for p in paths:
        with open(p, encoding="utf-8") as it:
            texts[p] = it.read()
    fields = {f for p, t in texts.items() if p.endswith(".antt") for f in FIELD.findall(t)}
    for p, text in texts.items():
        new = respelled(p, text, names, fields)
        if new != text:
            with open(p, "w", encoding="utf-8") as it:
                it.write(new)


if __name__ == "__main__":
    main(sys.argv[1])
