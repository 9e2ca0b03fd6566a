#!/usr/bin/env python3
"""Brings the names of definitions and lemmas to today's spelling, by the table respell.tsv beside this file.

usage: python3 tools/respell.py [FOLDER]

Run once, at the top of the repository (or with its folder), right after /opt/rattle/port/port.py.
Definitions and lemmas are in snake case; a dash joins two names, as in `length-append`. Where a lemma would get the name of
its definition it ends in `_lem`. Functions of src/, exported C names, strings, inputs and outputs keep their names.
In proofs/FUNCTION/ a name behind a dot is one that Rattle makes, unless it is a field of a record of ours: it stays.
"""

import glob
import os
import re
import sys

HERE = os.path.dirname(os.path.abspath(__file__))
TABLE = dict(line.rstrip("\n").split("\t") for line in open(os.path.join(HERE, "respell.tsv"), encoding="utf-8"))
WORD = re.compile(r"[^\s(){}.;,@\"«»⌜⌝`]+")
COMMENT = re.compile(r"--[^\n]*|//[^\n]*")
SPAN = re.compile(r"`[^`\n]*`")
CAMEL = {a for a in TABLE if "-" not in a and re.search("[a-z][A-Z]", a)}
FIELD = re.compile(r"^[ \t]+(?:pub )?([^\s(){}.;,@\"«»:]+)[ \t]*:(?= |$)", re.M)


def fields(root):
    found = set()
    for path in glob.glob(root + "/crates/*/specs/**/*.antt", recursive=True):
        text = open(path, encoding="utf-8").read()
        for block in re.split(r"(?m)^(?=\S)", text):
            if re.match(r"(abbrev |unfoldable |pub )*record ", block):
                found |= set(FIELD.findall(block))
    return found


def words(text, made, own):
    """Each word of the table; where names behind a dot are Rattle's, those stay that no record of ours has as a field."""

    def one(m):
        if made and m.start() and text[m.start() - 1] == "." and m[0] not in own:
            return m[0]
        return TABLE.get(m[0], m[0])

    return WORD.sub(one, text)


def prose(text):
    """In a comment: names in camel case, and what stands between back quotes."""
    text = SPAN.sub(lambda m: words(m[0], False, ()), text)
    return re.sub(r"[A-Za-z0-9_']+", lambda m: TABLE[m[0]] if m[0] in CAMEL else m[0], text)


def code(text, made, own):
    out, at = [], 0
    for m in COMMENT.finditer(text):
        out += [words(text[at : m.start()], made, own), prose(m[0])]
        at = m.end()
    return "".join(out) + words(text[at:], made, own)


def main(root):
    own = fields(root)
    turned = 0
    for path in sorted(glob.glob(root + "/**/*", recursive=True)):
        if not os.path.isfile(path) or "/out/" in path or "/target/" in path or "/tools/respell" in path:
            continue
        inside = os.path.relpath(path, root)
        old = None
        if inside.startswith("crates/") and path.endswith((".rt", ".antt")):
            old = open(path, encoding="utf-8").read()
            made = bool(re.match(r"crates/[^/]+/proofs/.+/", inside))
            new = code(old, made, own)
        elif path.endswith(".md") or (inside.startswith("tests/") and path.endswith((".sh", ".tsv", ".txt"))):
            old = open(path, encoding="utf-8").read()
            new = prose(old)
        if old is not None and new != old:
            open(path, "w", encoding="utf-8").write(new)
            turned += 1
    print(f"respell: {turned} files")


if __name__ == "__main__":
    main(sys.argv[1] if len(sys.argv) > 1 else ".")
