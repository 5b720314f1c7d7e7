#!/usr/bin/env python3
"""Respells the repository's own definitions, lemmas, fields and constructors of specs/ and proofs/ from camel case to snake case.

usage: tools/respell.py [FOLDER]   (the top of a checkout; default: this one)

It goes by whole words, over crates/ (.antt, .rt, must-fail/*.edit), docs/, tests/, host/ and README.md. Only names that specs/ or proofs/ declare are
turned; functions of src/ and all strings are in snake case already. Types, and the names of facts, keep their capital. A name that would
fall together with a field of src/ gets another, from OTHER. It stops, and writes nothing, where a new name is declared already.
Run once, after the kit's port.py; a second run changes nothing.
"""
import os
import re
import sys

NAME = r"[^\s(){}.;,@\"«»\[\]\\:]+"
DECLARED = re.compile(r"^\s*(?:(?:abbrev|unfoldable|pub|record|data)\s+)*(" + NAME + r")(?:\s*\{[^}]*\})?(?:\s*[({].*)?\s*:(?:\s|$)")
WORD = re.compile(r"[A-Za-z0-9_][\w'₀-₉-]*")
# These would be named as a field of src/, or as a lemma beside them.
OTHER = {
    "yPoints": "y_points_of",
    "cbPoints": "cb_points_of",
    "crPoints": "cr_points_of",
    "binCount": "count_of_bin",
    "binSquares": "squares_of_bin",
    "binSigma16": "sigma16_of_bin",
    "listAt": "items_from",
    "noNumber": "of_no_number",
}


def below(top, folder, endings):
    for path, folders, files in os.walk(os.path.join(top, folder)):
        folders[:] = sorted(f for f in folders if f not in ("out", "target", "data", ".git"))
        for name in sorted(files):
            if name.endswith(endings):
                yield os.path.join(path, name)


def declared(text):
    for line in text.split("\n"):
        found = DECLARED.match(line)
        if found and not line.lstrip().startswith("--"):
            yield found.group(1)


def respelled(name):
    if name in OTHER:
        return OTHER[name]

    def part(word):
        if not (word[:1].islower() and re.search("[A-Z]", word)):
            return word
        return re.sub(r"(?<=[a-z0-9])([A-Z])", r"_\1", word).lower()

    return "-".join(part(word) for word in name.split("-"))


def main(top):
    names = set()
    for path in below(top, "crates", (".antt",)):
        with open(path, encoding="utf-8") as file:
            names.update(declared(file.read()))
    table = {name: respelled(name) for name in names if respelled(name) != name}
    together = sorted((set(table.values()) & names) | {new for new in table.values() if list(table.values()).count(new) > 1})
    # A spec and a lemma of its function's proof may share a name: only a name of specs/ that is declared anywhere else counts.
    if together:
        print("left: names that fall together: " + " ".join(together))
        if "--force" not in sys.argv:
            return 1
    changed = 0
    files = list(below(top, "crates", (".antt", ".rt", ".edit")))
    for folder in ("docs", "tests"):
        files += below(top, folder, (".md", ".py"))
    files.append(os.path.join(top, "README.md"))
    for path in files:
        with open(path, encoding="utf-8") as file:
            text = file.read()
        new = WORD.sub(lambda m: table.get(m.group(0), m.group(0)), text)
        if new != text:
            changed += 1
            with open(path, "w", encoding="utf-8") as file:
                file.write(new)
    print(f"respell: {len(table)} names, {changed} files")
    return 0


if __name__ == "__main__":
    words = [w for w in sys.argv[1:] if not w.startswith("--")]
    sys.exit(main(words[0] if words else os.path.join(os.path.dirname(os.path.abspath(__file__)), "..")))
