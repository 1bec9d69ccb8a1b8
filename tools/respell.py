#!/usr/bin/env python3
"""Brings the repository's own definitions and lemmas to the spelling of today's Rattle, once, after the port's script.

A word in camel case (`fieldBits`) becomes one in snake case (`field_bits`), in specs/, proofs/, the clauses of src/, edits and
docs/. A word that begins with a capital is a type, a fact or a module and stays. In the name of a definition or lemma of the
repository's own a dash stays where it joins two names of definitions, and becomes an underscore where it joins plain words.
Where a lemma's name falls together with a definition's, the lemma gets `_lem`; names that fall together otherwise are printed,
and then nothing is written. Run at the top of the tree that the port's script has left: python3 tools/respell.py [FOLDER]
"""

import collections
import pathlib
import re
import sys

TOP = pathlib.Path(sys.argv[1]) if len(sys.argv) > 1 else pathlib.Path(".")
TOKEN = re.compile(r"(?<![A-Za-z0-9_'\-.])[A-Za-z][A-Za-z0-9_'\-]*(?!\.[a-zA-Z])|[A-Za-z][A-Za-z0-9_'\-]*")
WORD = re.compile(r"[A-Za-z][A-Za-z0-9_'\-]*")
HEAD = re.compile(r"^((?:abbrev |unfoldable |pub |record |data )*)([a-z][A-Za-z0-9_'\-]*)(?: :| *\()", re.M)
# Names of the library that a lemma's name may join to one of ours.
LIBRARY = {"length", "take", "drop", "map", "append", "replicate", "sets", "get_or", "zero", "suc", "cond", "flat_map", "filter"}


def snake(token):
    parts = token.split("-")
    return "-".join(p if p[:1].isupper() else re.sub(r"([a-z0-9])([A-Z])", lambda m: m[1] + "_" + m[2].lower(), p) for p in parts)


def own_names():
    defined, lemmas = set(), set()
    for path in list(TOP.glob("crates/*/specs/*.antt")) + list(TOP.glob("crates/*/proofs/*.antt")):
        for marks, name in HEAD.findall(path.read_text()):
            (defined if "abbrev" in marks or "unfoldable" in marks or re.fullmatch("[a-z]+[A-Z][A-Za-z]*", name) else lemmas).add(name)
    return defined, lemmas - defined


def respelled(name, known):
    parts = snake(name).split("-")
    said = last = parts[0]
    for part in parts[1:]:
        joins = (last in known or last[:1].isupper()) and (part in known or part[:1].isupper())
        said += ("-" if joins else "_") + part
        last = part if joins else last + "_" + part
    return said


def new_names():
    defined, lemmas = own_names()
    known = {snake(n) for n in defined if "-" not in n} | LIBRARY
    turned = {n: respelled(n, known) for n in defined}
    taken = collections.Counter(turned.values())
    clash = [n for n, many in taken.items() if many > 1]
    for n in sorted(lemmas):
        new = respelled(n, known)
        turned[n] = new + "_lem" if new in taken else new
    taken = collections.Counter(turned.values())
    return turned, clash + [n for n, many in taken.items() if many > 1]


def main():
    turned, clash = new_names()
    for new in sorted(clash):
        print("fall together:", new)
    if clash:
        return 1

    def in_antt(match):
        token = match[0]
        alone = not match.string[: match.start()].endswith(".") and not re.match(r"\.[A-Za-z]", match.string[match.end() :])
        if token in turned and (alone or re.search("[a-z][A-Z]", token)):
            return turned[token]
        return snake(token) if token[:1].islower() or "-" in token else token

    def in_code(match):
        token = match[0]
        return snake(token) if token[:1].islower() and re.search("[a-z][A-Z]", token) else token

    count = 0
    for pattern in ("specs/**/*.antt", "proofs/**/*.antt", "src/*.rt", "must-fail/*.edit", "tried/*.edit"):
        for path in TOP.glob("crates/*/" + pattern):
            text = path.read_text()
            of_antt = path.suffix == ".antt" or path.suffix == ".edit" and re.search(r"^file: \S+\.antt", text, re.M)
            lines = text.splitlines(True)
            new = "".join(WORD.sub(in_antt if of_antt and not line.startswith("file:") else in_code, line)
                          if path.suffix != ".rt" or '"' not in line else line for line in lines)
            if new != text:
                path.write_text(new)
                count += 1
    for path in TOP.glob("docs/*.md"):
        text = path.read_text()
        new = re.sub(r"`[^`\n]+`", lambda code: WORD.sub(lambda m: turned.get(m[0], m[0]), code[0]), text)
        if new != text:
            path.write_text(new)
    print(f"{sum(1 for a, b in turned.items() if a != b)} names respelled in {count} files")
    return 0


sys.exit(main())
