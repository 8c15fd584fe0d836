#!/usr/bin/env python3
"""Brings the names of this repository's definitions and lemmas to one spelling.

usage: python3 tools/respell.py     at the top of a checkout, once, after the kit's port.py and before any edit by hand

A name with dashes, as first-run, becomes first_run, and one that begins with a capital, as First-run, becomes FirstRun.
A few names are listed below. Names that the kit makes (goals, steps) and names of its library stay, and so do
functions, types and fields of src/, strings, inputs and outputs. It stops, with nothing written, where two names would fall together.
"""

import os
import re
import sys

SPECIAL = {
    "reasonOf": "reason_of",
    "messageOf": "message_of",
    "fromSets": "from_sets",
    "numberOf": "number_of",
    # own_held is a ghost member of the trait of value sets
    "own-held": "own_sets_held",
}
# port.py has respelled that lemma already
LEMMAS = {"own_held": "own_sets_held"}
NAME = re.compile(r"[\w'·]+(?:-[\w'·]+)+|[\w'·]+")
USE = re.compile(r"^\s*(?:ghost |pub )*use ([\w'·.+-]+?)(?:\.\{([^}]*)\})?(?: as ([\w'-]+))?;?\s*$", re.M)
DECLARED = re.compile(r"^\s*(?:abbrev |unfoldable |pub )*([\w'·]+(?:-[\w'·]+)*) :(?!=)", re.M)


def respelled(name):
    if name in SPECIAL:
        return SPECIAL[name]
    if "-" not in name:
        return name
    if name[0].isupper():
        return "".join(part[0].upper() + part[1:] for part in name.split("-"))
    return name.replace("-", "_")


def crates(root):
    return sorted(d for d in os.listdir(os.path.join(root, "crates")) if os.path.isdir(os.path.join(root, "crates", d)))


def files(root):
    for crate in crates(root):
        top = os.path.join(root, "crates", crate)
        for folder in ("specs", "proofs", "src"):
            for where, dirs, names in os.walk(os.path.join(top, folder)):
                dirs.sort()
                for name in sorted(names):
                    path = os.path.join(where, name)
                    if path.endswith(".antt") or (folder == "src" and path.endswith(".rt")):
                        # a folder of a function's proof has names that the kit makes
                        kind = "code" if folder == "src" else "answers" if folder == "proofs" and where != os.path.join(top, "proofs") else "lemmas"
                        yield path, kind


def imported(text, own):
    """The names that a file imports from this repository, and those that it imports from elsewhere."""
    ours, theirs = set(), set()
    for path, items, alias in USE.findall(text):
        parts = path.split(".")
        mine = parts[0] == "Rattle" and len(parts) > 2 and parts[1] in own and parts[2] in ("specs", "proofs")
        made = mine and (parts[-1] in ("Goals", "Given") or "declared" in parts)
        names = [n.strip() for item in items.split(",") for n in item.split(" as ")] if items else []
        (ours if mine and not made else theirs).update(n for n in names if n)
        if alias:
            ours.add(alias)
    return ours, theirs


def fields(text):
    found = set()
    for block in re.finditer(r"^( *)(?:pub )?record .*$\n((?:\1 +.*\n)*)", text, re.M):
        found.update(DECLARED.findall(block.group(2)))
    return found


def main():
    root = os.getcwd()
    own = set(crates(root))
    texts = {path: (kind, open(path, encoding="utf-8").read()) for path, kind in files(root)}
    shared = set()
    for kind, text in texts.values():
        if kind == "lemmas":
            shared |= fields(text)
    written = {}
    for path, (kind, text) in texts.items():
        ours, theirs = imported(text, own)
        if kind == "answers":
            local = {n for n in DECLARED.findall(text) if f"goal.{n}" not in text}
            wanted = ours | shared | local
            turn = {n for n in NAME.findall(text) if n in wanted and n not in theirs}
        elif kind == "code":
            turn = {n for n in NAME.findall(text) if n in ours}
        else:
            turn = {n for n in NAME.findall(text) if n not in theirs}
        change = {n: respelled(n) for n in turn if respelled(n) != n}
        if kind == "lemmas":
            change |= {n: LEMMAS[n] for n in turn if n in LEMMAS}
        # the parts of a path are no names of the file
        present = set(NAME.findall(USE.sub(lambda m: m.group(2) or "", text)))
        for old, new in change.items():
            if new in present or list(change.values()).count(new) > 1:
                sys.exit(f"respell: {path}: {old} would fall together with another {new}; nothing was written")
        new = NAME.sub(lambda m: change.get(m.group(), m.group()), text)
        if new != text:
            written[path] = new
    for path, text in written.items():
        with open(path, "w", encoding="utf-8") as f:
            f.write(text)
    print(f"respell: {len(written)} of {len(texts)} files changed")


main()
