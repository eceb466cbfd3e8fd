#!/usr/bin/env python3
"""Brings the definitions and lemmas of this repository to the library's spelling.

usage: python3 tools/respell.py      once, at the top of the repository, after the toolchain's own script

A function, a constructor, a field and a lemma are in snake case (up_to, free_after, up_to-change); a fact keeps
its capital and has no dash (LawOfTheLedger). Names that the check makes up, and locals of three letters, stay.
Files of Rust code have such names in clauses alone, so the text of a file is turned as a whole; strings have none.
"""
import os
import re

# what the check made up, or what belongs to the library
LEFT = re.compile(r"^(in-|returns-|if-|overflow-|not-Unreadable|b'|cases_Bool|slice_eq-|Decides-|After-|n[A-Z0-9]{1,3}$)")
NAME = re.compile(r"(?<![\w'-])[A-Za-z_][A-Za-z0-9_'-]*")


def turned(name):
    if LEFT.match(name):
        return name
    if name.startswith("getD-"):
        return "get_or-" + name[len("getD-"):]
    if re.match(r"^[a-z].*[A-Z]", name):
        return re.sub(r"(?<=[a-z0-9])[A-Z]", lambda m: "_" + m.group(0).lower(), name)
    if re.match(r"^[A-Z][A-Za-z0-9]*(-[a-z]+)+$", name):
        return "".join(w[:1].upper() + w[1:] for w in name.split("-"))
    return name


def main():
    changed = {}
    for folder, dirs, files in os.walk("crates"):
        dirs[:] = [d for d in dirs if d != "out"]
        for f in sorted(files):
            if not f.endswith((".rt", ".antt", ".edit")):
                continue
            path = os.path.join(folder, f)
            with open(path, encoding="utf-8") as it:
                old = it.read()

            def one(m):
                new = turned(m.group(0))
                if new != m.group(0):
                    changed[m.group(0)] = new
                return new

            new = NAME.sub(one, old)
            if new != old:
                with open(path, "w", encoding="utf-8") as it:
                    it.write(new)
    for name in sorted(changed):
        print(name, "->", changed[name])


main()
