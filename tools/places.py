#!/usr/bin/env python3
"""tools/places.py [--list] [POINT ..]: places in crates/*/src where a form of today's Rattle may say more, counted by rule

The points are those of docs/DESIGN-PASS.md. A rule finds candidates: whether one is to be changed is for a reader, and the page says
of each kind that is left why it is. With --list every place is printed, `file:line what`. Run at the top of a checkout."""
import argparse, collections, glob, os, re, sys

ENUM = re.compile(r"^\s*(?:pub )?enum (\w+) \{\n(.*?)^\s*\}", re.M | re.S)
STRUCT = re.compile(r"^\s*(?:pub )?struct (\w+)(?:<[^>]*>)? \{\n(.*?)^\s*\}", re.M | re.S)
FN = re.compile(r"^( *)((?:pub(?:\(\w+\))? )?(?:extern \"C\" )?fn (\w+).*?)^\1\{\n(.*?)^\1\}", re.M | re.S)
ONE_LINE = re.compile(r"^( *)((?:pub(?:\(\w+\))? )?(?:extern \"C\" )?fn (\w+)[^\n]*) \{\n(.*?)^\1\}", re.M | re.S)
NONE_VALUE = re.compile(r"//.*\b(0 where|0 for|or 0\b|or 64\b|or their number|or the number|their number where|none at all|where there is none)")
BY_HAND = set("same number from_number of_number kind code wide low minus least lesser larger either both flag put print".split())
TOKEN = re.compile(r"\w+|[^\w\s]")


def files():
    for path in sorted(glob.glob("crates/*/src/**/*.rt", recursive=True)):
        if not path.endswith("pop/src/table.rt"):  # a table that was made
            yield path, open(path).read()


def at(text, where):
    return text.count("\n", 0, where) + 1


def functions():
    for path, text in files():
        seen = set()
        for rule in (ONE_LINE, FN):
            for m in rule.finditer(text):
                if m.start(3) not in seen and "\nfn " not in m.group(2) and "{\n" not in m.group(2).split("requires")[0].split("ensures")[0]:
                    seen.add(m.start(3))
                    yield path, at(text, m.start(3)), m.group(3), m.group(2), m.group(4)


def point1():
    for path, text in files():
        for m in ENUM.finditer(text):
            variants = re.findall(r"^\s*(\w+)(\([^)]*\))?,", re.sub(r"//.*", "", m.group(2)), re.M)
            if any(held for _, held in variants) or len(variants) == 2:
                yield path, at(text, m.start(1)), "enum " + m.group(1) + ": " + ", ".join(n + h for n, h in variants)
        for m in STRUCT.finditer(text):
            for field in re.findall(r"(\w+): bool,", m.group(2)):
                yield path, at(text, m.start(1)), f"struct {m.group(1)}: the flag {field}"
        for number, line in enumerate(text.split("\n"), 1):
            if NONE_VALUE.search(line):
                yield path, number, "a number for none: " + line.strip()


def shape(body):
    return TOKEN.findall(re.sub(r"//.*", "", body))


def twins(a, b):
    """Whether two bodies differ only in words, of which at most two pairs are unlike."""
    if len(a) != len(b) or len(a) < 14:
        return False
    pairs = {(x, y) for x, y in zip(a, b) if x != y}
    return len(pairs) <= 2 and all(re.match(r"\w", x) and re.match(r"\w", y) for x, y in pairs)


def point2():
    known = [(p, n, name, shape(body)) for p, n, name, _, body in functions()]
    for i, (p, n, name, a) in enumerate(known):
        for q, k, other, b in known[:i]:
            if twins(a, b):
                yield p, n, f"{name} is as {other}, {q}:{k}"


def point3():
    for path, text in files():
        for number, line in enumerate(text.split("\n"), 1):
            if re.search(r"^\s*(while |loop \{)", line):
                yield path, number, line.strip()


def point4():
    for path, number, name, head, body in functions():
        if name in BY_HAND:
            yield path, number, "fn " + name


def point5():
    lists = collections.Counter()
    for path, number, name, head, body in functions():
        between = re.search(r"\((.*?)\)(?: ->|\n|$)", head, re.S)
        names = re.findall(r"(\w+): ", between.group(1)) if between else []
        if len(names) >= 7:
            yield path, number, f"{len(names)} parameters: {name}({', '.join(names)})"
        for fact in set(re.findall(r"\b([A-Z]\w+ [a-z.]+(?: [a-z.]+)*(?:\.old|\.now))", " ".join(re.findall(r"requires[^{]*\{(.*?)\}\n", head, re.S)))):
            lists[(path.split("/")[1], re.sub(r"\.(old|now)", "", fact))] += 1
    for (crate, fact), n in sorted(lists.items()):
        if n >= 3:
            yield f"crates/{crate}/src", 0, f"asked of {n} functions: {fact}"


def point6():
    for path, text in files():
        for number, line in enumerate(text.split("\n"), 1):
            if re.search(r"\w\[\.\.\w+\]|: &?(mut )?\[\w+; \w+\]|= \[\w+; \w+\]", line) and not line.lstrip().startswith(("//", "ghost")):
                yield path, number, line.strip()


def point7():
    for path, text in files():
        for m in re.finditer(r"match (\w[\w.]*) \{\n(.*?)^\s*\}\n", text, re.M | re.S):
            calls = re.findall(r"=> (?:\{\s*)?[\w:]+\(", m.group(2))
            if len(calls) >= 2 and len(calls) == m.group(2).count("=>"):
                yield path, at(text, m.start()), f"match {m.group(1)}: each arm is a call"


def point8():
    answer = re.compile(r"^(?:pub )?(\S+) : goal\.[^\n]*\n(?:unfolding[^\n]*\n)?\1[^=\n]* =((?:.|\n)*?)(?=\n\n|\Z)", re.M)
    for path in sorted(glob.glob("crates/*/proofs/**/Answers.antt", recursive=True)):
        text = open(path).read()
        for m in answer.finditer(text):
            if m.group(2).strip() == "search rules":
                yield path, at(text, m.start()), m.group(1)


POINTS = [point1, point2, point3, point4, point5, point6, point7, point8]


def main():
    parser = argparse.ArgumentParser(description=__doc__, formatter_class=argparse.RawDescriptionHelpFormatter)
    parser.add_argument("--list", action="store_true", help="print every place")
    parser.add_argument("points", nargs="*", type=int, metavar="POINT")
    words = parser.parse_args()
    for n in words.points or range(1, len(POINTS) + 1):
        places = list(POINTS[n - 1]())
        print(f"point {n}: {len(places)}")
        for path, line, what in places if words.list else ():
            print(f"  {path}:{line} {what}")


if __name__ == "__main__":
    main()
