#!/usr/bin/env python3
"""Spells the repository's own definitions and lemmas as today's Rattle does: words in snake case, types and modules in camel case.

usage: python3 tools/spelling.py        at the top of a repository that the kit's port.py has just turned, once

Each line of tools/spelling.tsv has a name as it was and as it is. A dash becomes `_` where it only joins words; where a lemma would then
have its function's name, it has `_lem` behind it. The crate `bytes` is called `octets`, since the kit has a library of that name.
"""
import os
import pathlib
import re

# a text stays as it is, and is no name
TOKEN = re.compile(r'''"[^"\n]*"|[^\s(){}\[\];,.:"|@λ⌜⌝`]+''')
HERE = pathlib.Path(__file__).resolve().parent


def table():
    lines = (HERE / "spelling.tsv").read_text().splitlines()
    return dict(line.split("\t") for line in lines)


def turned(text, names, remark):
    """The text with each name as it is now; in a remark, which is what `remark` begins, only names that no word of English has."""
    plain = {old: new for old, new in names.items() if "-" not in old}
    lines = []
    for line in text.split("\n"):
        found = re.search(remark, line)
        at = found.start() if found else len(line)
        code = TOKEN.sub(lambda m: names.get(m[0], m[0]), line[:at])
        lines.append(code + TOKEN.sub(lambda m: plain.get(m[0], m[0]), line[at:]))
    return "\n".join(lines)


def renamed(text):
    text = re.sub(r"\bRattle([.·])bytes(?=[.·])", r"Rattle\1octets", text)
    return re.sub(r"(?<![\w:])bytes::", "octets::", text)


def main():
    names = table()
    for path in sorted(pathlib.Path("crates").rglob("*")):
        if path.suffix not in (".antt", ".rt", ".edit") or "out" in path.parts:
            continue
        text = path.read_text()
        now = renamed(turned(text, names, r"(^|\s)--(\s|$)" if path.suffix == ".antt" else r"(^|\s)//"))
        if now != text:
            path.write_text(now)
    if os.path.isdir("crates/bytes"):
        os.rename("crates/bytes", "crates/octets")
        listed = pathlib.Path("crates.txt")
        listed.write_text(re.sub(r"\bbytes\b", "octets", listed.read_text()))


main()
