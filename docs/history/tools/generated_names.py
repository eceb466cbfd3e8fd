#!/usr/bin/env python3
"""Brings the names that the check makes up, in the answers and invariants of this repository, to their new spelling.

usage: python3 tools/generated_names.py      at the top of the repository; it can be run again

Names of Rust keep their underscores there (copy_from_slice, not copy-from-slice), and in_ok-x, in_err-x,
invariant_of-x and overflow_add-x are spelled so.
"""
import os
import re

LIBRARY = ["copy_from_slice", "from_residual", "split_at_mut", "to_le_bytes", "from_le_bytes", "extend_from_slice",
           "push_str", "as_bytes", "get_mut", "as_str", "is_empty", "checked_add", "checked_mul", "checked_sub",
           "write_all", "read_to_end", "as_slice", "with_capacity", "split_first", "into_iter", "as_mut"]


def rust_names():
    names = set(LIBRARY)
    for folder, dirs, files in os.walk("crates"):
        dirs[:] = [d for d in dirs if d != "out"]
        for f in files:
            if f.endswith(".rt"):
                with open(os.path.join(folder, f), encoding="utf-8") as it:
                    names |= set(re.findall(r"\b[a-z][a-z0-9]*(?:_[a-z0-9]+)+\b", it.read()))
    return sorted(names, key=len, reverse=True)


NAMES = [(n.replace("_", "-"), n) for n in rust_names()]
FIXED = [("in-ok-", "in_ok-"), ("in-err-", "in_err-"), ("invariant-of-", "invariant_of-"), ("type-inv", "type_inv"), ("in-default", "in_default"), ("overflow-add-", "overflow_add-"),
         ("overflow-sub-", "overflow_sub-"), ("overflow-mul-", "overflow_mul-")]


def part(name):
    for old, new in FIXED:
        name = name.replace(old, new)
    for old, new in NAMES:
        name = re.sub(r"(?<![A-Za-z0-9_'])" + re.escape(old) + r"(?![A-Za-z0-9_'])", new, name)
    return name


def turned(text):
    # a path from the facts of a place or of a loop, and a goal
    text = re.sub(r"(?<![\w'.-])(c|l|goal)((?:\.[\w'·-]+)+)", lambda m: m.group(1) + ".".join(part(p) for p in m.group(2).split(".")), text)
    # the definition of a goal's answer
    own = set(re.findall(r"(?m)^(?:abbrev )?pub ([\w'·-]+) : (?:goal|\(g)", text))
    for name in own:
        new = part(name)
        if new != name:
            text = re.sub(r"(?m)^((?:abbrev )?pub )?" + re.escape(name) + r"(?=[ :])", lambda m: (m.group(1) or "") + new, text)
    return text


def main():
    for folder, dirs, files in os.walk("crates"):
        dirs[:] = [d for d in dirs if d != "out"]
        for f in files:
            if f in ("Answers.antt", "Invariants.antt"):
                path = os.path.join(folder, f)
                with open(path, encoding="utf-8") as it:
                    old = it.read()
                new = turned(old)
                if new != old:
                    with open(path, "w", encoding="utf-8") as it:
                        it.write(new)
                    print(path)


main()
