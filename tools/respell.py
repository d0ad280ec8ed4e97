#!/usr/bin/env python3
"""Brings the repository's own definitions, lemmas and fields to snake case, after port.py turned the rest.

usage: tools/respell.py            at the top of the repository, once, on the commit that port.py's changes made
       tools/respell.py --words    prints the words, old and new, and changes nothing

Names that specs/*.antt and proofs/*.antt define are turned, in every .antt and .rt file: `readBook` and `read-book` become
`read_book`. Where a definition and a lemma would come to one name, or one file uses both, the lemma gets `_lem` at its end.
Functions of src/, strings, inputs, outputs and names of the library stay as they are.
"""
import collections
import os
import re
import sys

OWN = set(os.listdir("crates"))
TOKEN = re.compile(r"[^\s(){}.;,@\"«»\[\]\\]+")
USE = re.compile(r"(?m)^\s*(?:ghost )?(?:pub )?use ([\w.·+'-]+?)(?:\.\{([^}]*)\})?(?: as (\S+?))?;?$")
DEFINES = re.compile(
    r"\s*(?:pub |abbrev |unfoldable |opaque |irreducible )*(?:data |record |module )?(?:pub )?"
    r"([^\s:(){}\[\]]+)\s*(?:\([^)]*\)\s*|\{[^}]*\}\s*)*:(?!=)"
)
# lemmas that the library's script already turned, and that now bear the name of a definition which their files use
TURNED = ["same_kind", "slot_held", "same_flag", "each_at", "no_answer", "first_code", "call_fits", "by_length", "read_as"]
# lemmas whose new name is that of a definition elsewhere, used in the same file
BESIDE = ["lines-of", "is-group", "mask-of", "frame-of", "line-of", "up-to", "found-at", "at-byte"]


def files(*ends):
    for folder, dirs, names in os.walk("crates"):
        dirs[:] = sorted(d for d in dirs if d != "out")
        for name in sorted(names):
            if name.endswith(ends):
                yield os.path.join(folder, name)


def read(path):
    with open(path, encoding="utf-8") as f:
        return f.read()


def defined():
    names = set()
    for crate in sorted(OWN):
        for part in ("specs", "proofs"):
            folder = os.path.join("crates", crate, part)
            for name in sorted(os.listdir(folder)) if os.path.isdir(folder) else []:
                if name.endswith(".antt"):
                    for line in read(os.path.join(folder, name)).splitlines():
                        found = DEFINES.match(line)
                        if found and not line.strip().startswith("--"):
                            names.add(found.group(1))
    return names


def of_the_library():
    names = set()
    for path in files(".antt", ".rt"):
        for module, items, _ in USE.findall(read(path)):
            parts = module.split(".")
            if not (parts[0] == "Rattle" and parts[1] in OWN):
                names.update(item.strip().split(" as ")[0] for item in items.split(","))
    return names


def snake(name):
    return re.sub(r"([a-z0-9])([A-Z])", lambda m: m.group(1) + "_" + m.group(2).lower(), name).replace("-", "_")


def words():
    kept = of_the_library()
    turned = [n for n in sorted(defined()) if re.match(r"[a-z]", n) and re.search(r"[A-Z]|-", n) and n not in kept]
    by_new = collections.defaultdict(list)
    for name in turned:
        by_new[snake(name)].append(name)
    out = {}
    for new, olds in by_new.items():
        for old in olds:
            out[old] = new + "_lem" if "-" in old and (len(olds) > 1 or old in BESIDE) else new
    return out


def turn(path, new):
    text = read(path)
    camel_only = path.endswith(".rt")

    def one(m):
        word = m.group(0)
        if word in new and not (camel_only and "-" in word):
            return new[word]
        if not camel_only and word in TURNED and text[m.start() - 1 : m.start()] != ".":
            return word + "_lem"
        return word

    out = TOKEN.sub(one, text)
    if out != text:
        with open(path, "w", encoding="utf-8") as f:
            f.write(out)


if __name__ == "__main__":
    new = words()
    if "--words" in sys.argv[1:]:
        for old in sorted(new):
            print(old, new[old])
    else:
        for path in list(files(".antt", ".rt")):
            turn(path, new)
