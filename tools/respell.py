#!/usr/bin/env python3
"""Respells the names of this repository's own definitions and lemmas, once, after port.py: words in snake case, types and facts
in camel case.

usage: python3 tools/respell.py          at the top of the repository: rewrites crates/*/{src,specs,proofs,must-fail}
       python3 tools/respell.py --list   prints each old name with its new one, and changes nothing

A name is taken where specs/ or proofs/ define it: a definition, a lemma, a record, a field or a constructor. It is respelled
wherever it stands as a word, in comments too. Functions of src/, inputs and outputs keep their names, and a definition may have
the name of the function that it is the meaning of. Two names that would be one, or a new name that specs/ or proofs/ have
already, are an error, and nothing is written.
"""
import os
import re
import sys

WORD = r"[A-Za-z_][A-Za-z0-9_'\-]*"
TOKEN = re.compile(r"(?<![A-Za-z0-9_'\-])" + WORD)
TOP = re.compile(r"^(?:abbrev |unfoldable )*(?:pub )?(?:record |data )?(" + WORD + r")(?= [^:=]*:|:)", re.M)
FIELD = re.compile(r"^\s+(?:pub )?(" + WORD + r") : ", re.M)
GOAL = re.compile(r"^(?:abbrev )?(?:pub )?(" + WORD + r") : goal\.", re.M)


# names whose plain respelling is another item's, or reads badly
BY_HAND = {"commandIn": "command_fields_in", "getD-below": "get_or_below"}


def texts(kinds):
    for folder, dirs, files in os.walk("crates"):
        dirs[:] = sorted(d for d in dirs if d != "out")
        parts = folder.split(os.sep)
        if len(parts) < 3 or parts[2] not in kinds:
            continue
        for f in sorted(files):
            if f.endswith((".rt", ".antt", ".edit")):
                path = os.path.join(folder, f)
                with open(path, encoding="utf-8") as it:
                    yield path, it.read()


def respelled(name):
    tail = name[len(name.rstrip("'")):]
    bare = name[: len(name) - len(tail)] if tail else name
    if bare[0].isupper():
        return "".join(p[:1].upper() + p[1:] for p in bare.split("-")) + tail
    bare = re.sub(r"(?<=[a-z0-9])([A-Z])", lambda m: "_" + m.group(1).lower(), bare)
    return bare.replace("-", "_") + tail


def names():
    goals, found = set(), set()
    for path, text in texts({"specs", "proofs"}):
        goals.update(GOAL.findall(text))
        found.update(TOP.findall(text))
        found.update(FIELD.findall(text))
    turned = {n: BY_HAND.get(n) or respelled(n) for n in found - goals}
    return {old: new for old, new in turned.items() if old != new}


def main():
    turned = names()
    if "--list" in sys.argv:
        for old in sorted(turned):
            print(old, turned[old])
        return 0
    used = set()
    for path, text in texts({"specs", "proofs"}):
        used.update(TOKEN.findall(re.sub(r"Rattle\.[\w.+]*", "", text)))
    twice = sorted({n for n in turned.values() if list(turned.values()).count(n) > 1})
    taken = sorted(n for n in turned.values() if n in used)
    if twice or taken:
        print("two names would be one:", *twice, "\ntaken already:", *taken)
        return 1
    for path, text in texts({"src", "specs", "proofs", "must-fail"}):
        new = TOKEN.sub(lambda m: turned.get(m.group(0), m.group(0)), text)
        if new != text:
            with open(path, "w", encoding="utf-8") as it:
                it.write(new)
    return 0


sys.exit(main())
