#!/usr/bin/env python3
"""Brings the repository's own definitions and lemmas to the spelling of today's Rattle, after port.py has turned the rest.

usage: tools/respell.py [--list]        at the top of the repository, once; --list prints the renamings and writes nothing

Words become snake case: packPositions is pack_positions. A dash stays where it joins the names of two definitions, as in
length-bits, and becomes an underscore where it joins a plain word, as in field_in_byte. Fields and constructors have no
dash. Types, modules, functions of src/ and what the language itself makes (goals and steps) keep their names. A name that
would fall together with another one gets _lem. It goes over specs/, proofs/*.antt, the clauses of src/, the proofs of
functions and the must-fail edits.
"""

import glob
import os
import re
import sys

TOKEN = re.compile(r"[^\s(){}\[\],;.«»\"`|]+")
USE = re.compile(r"(?m)^\s*(?:pub |ghost )*use ([^\s{;]+?)(?:\.\{([^}]*)\})?(?: as (\S+?))?;?$")
DECLARED = re.compile(r"(?m)^\s*(?:(?:unfoldable|abbrev|pub|opaque) )*(?:(?:record|data) )?([^\s(){}:,]+)(?= [:({])")
DEFINED = re.compile(r"(?m)^(?:unfoldable |abbrev )(?:pub )?([^\s(){}:]+) :|^pub (?:record|data) (\S+)")
FIELD = re.compile(r"(?m)^  +(?:pub )?([^\s(){}:,.]+) :(?!=)")

WORDS = set("a all among and any as at back before behind below between beside by down each few first from here in is it".split())
WORDS |= set("last less more most next no none not of on one only or other out over rest same self so some the to two up with".split())


def read(path):
    with open(path, encoding="utf-8") as f:
        return f.read()


def bare(text):
    return re.sub(r"(?m)--.*$", "", text)


def snake(part):
    return re.sub(r"(?<=[a-z0-9])([A-Z])", lambda m: "_" + m[1].lower(), part) if part[:1].islower() else part


def is_candidate(token):
    camel = token[:1].islower() and re.search(r"[a-z0-9][A-Z]", token)
    dashed = re.search(r"[\w₀-₉?]-\w", token)
    return bool(camel or dashed) and not token.startswith("-")


def renamings(root):
    crates = sorted(os.listdir(f"{root}/crates"))
    own = tuple(f"Rattle.{c}." for c in crates)
    stated = sorted(glob.glob(f"{root}/crates/*/specs/**/*.antt", recursive=True) + glob.glob(f"{root}/crates/*/proofs/*.antt"))
    walked = sorted(glob.glob(f"{root}/crates/*/proofs/*/**/*.antt", recursive=True))
    sources = sorted(glob.glob(f"{root}/crates/*/src/**/*.rt", recursive=True))
    library, used, fields, known, plain = set(), set(), set(), set(), set()
    for path in stated + walked + sources:
        for module, names, _ in USE.findall(read(path)):
            if not module.startswith(own):
                library |= {n.strip().split(" as ")[0] for n in names.split(",")}
    for path in stated:
        text = bare(read(path))
        used |= set(TOKEN.findall(text))
        known |= {a or b for a, b in DEFINED.findall(text)}
        for block in re.findall(r"(?m)^(?:pub )?(?:record|data)[^\n]*(?:\n(?:  .*)?)*", text):
            fields |= set(FIELD.findall(block))
    for path in sources:
        plain |= set(re.findall(r"\b([a-z]\w*): ", read(path)))
    known = {snake(k) for k in known if "-" not in k} | {n for n in library if "-" not in n} - WORDS

    def spelled(token):
        parts = [snake(p) for p in token.split("-")]
        new = parts[0]
        for last, part in zip(parts, parts[1:]):
            joins = token not in fields and last in known and part in known
            new += ("-" if joins else "_") + part
        return new

    turned = {t: spelled(t) for t in sorted(used) if is_candidate(t) and t not in library}
    turned = {t: n for t, n in turned.items() if t != n}
    taken = (used | library | plain) - set(turned)
    seen = set()
    # A definition keeps the plain form, and a lemma beside it gives way.
    for token in sorted(list(turned), key=lambda t: ("-" in t, t)):
        new = turned[token]
        if "-" not in token and new in taken and new not in library and new not in plain:
            turned[new] = f"{new}_lem"
            taken.discard(new)
        same_field = token in fields and new in fields
        while new in seen or (new in taken and not same_field):
            new += "_lem"
        turned[token] = new
        seen.add(new)
    return turned


def made_names(path, text):
    """The names in the proof of a function that the language makes: goals, steps and places, which keep their spelling."""
    return set(re.findall(r"tie\.([^\s(){},.]+)", text)) | set(re.findall(r"\.((?:if|loop|After|In|At)\S*)", text))


def turn(text, turned, but=()):
    return TOKEN.sub(lambda m: turned.get(m[0], m[0]) if m[0] not in but else m[0], text)


def main():
    root = "."
    turned = renamings(root)
    if "--list" in sys.argv:
        for token, new in turned.items():
            print(token, new)
        return
    crates = f"{root}/crates/*"
    paths = []
    for kind in ("specs/**/*.antt", "proofs/**/*.antt", "src/**/*.rt", "must-fail/*.edit"):
        paths += glob.glob(f"{crates}/{kind}", recursive=True)
    for path in sorted(p for p in paths if "/out/" not in p):
        text = read(path)
        in_function = re.search(r"/proofs/[^/]+/", path)
        new = turn(text, turned, made_names(path, text) if in_function else ())
        if new != text:
            with open(path, "w", encoding="utf-8") as f:
                f.write(new)


if __name__ == "__main__":
    main()
