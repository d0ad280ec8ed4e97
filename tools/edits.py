#!/usr/bin/env python3
"""Brings the texts of edits over to today's spelling, and says which do not stand in today's files.

usage: tools/edits.py LANDED    rewrites crates/*/must-fail/*.edit, crates/*/must-fail-more/*.edit and tests/wrong-definitions.edits, each from its text at the commit LANDED
       tools/edits.py --check   says each edit of which a text does not stand once in today's file, pair after pair; status 1 where there is one

An edit was written for the file as it was at LANDED, where each of its old texts stands once. That line is found in today's file (the
lines of both are set side by side in one spelling), and the texts are turned: words by the words that tools/respell.py lists for the
tree of the commit that docs/PORT.md names second, then fields, the state of arguments, operators and the form of clauses. A text of a
function's body that stands in the same line today stays as it is. What this cannot turn is written out in BY_HAND below, today's
texts beside the name of the edit. CRATES_LEFT names crates whose code is written anew: their edits are left alone.
"""
import difflib
import glob
import io
import os
import re
import subprocess
import sys
import tarfile
import tempfile

ROOT = os.path.dirname(os.path.dirname(os.path.abspath(__file__)))
CRATES_LEFT = ["ask", "replay", "book_file", "check_book", "tidy_book"]
LIST = "tests/wrong-definitions.edits"
TOKEN = re.compile(r"[^\s(){}.;,@\"«»\[\]\\]+")
# names that the library has under another name
LIBRARY = {"getD": "get_or", "linesOf": "lines_of", "the-variants": "TheVariants"}
# by the path of an edit, or by the label of an edit of LIST: today's texts, old and new, pair after pair
BY_HAND = {
    # the argument `result` is `res` now
    "crates/global_cache/must-fail/more/conflicts_equal.edit": [
        ("src/slot.rt", "return buffer::get(slot, 1) != res;", "return buffer::get(slot, 1) == res;"),
    ],
    "crates/global_cache/must-fail/more/write_depth.edit": [("src/slot.rt", "slot[2] = required;", "slot[2] = res;")],
    # one import has the words of many
    "crates/definition/must-fail/more/reading_passes_last.edit": [
        ("specs/GlobalCache.antt", "Prelude.{ℕ,", "Prelude.{[], ℕ,"),
        (
            "specs/GlobalCache.antt",
            "r.required_depth ∷ r.passes ∷ r.nested_goals",
            "r.required_depth ∷ (r.nested_goals ++ (r.passes ∷ []))",
        ),
    ],
    "a cycle path has the steps of the frames that it does not pass": [
        ("specs/Stack.antt", "Prelude.{ℕ,", "Prelude.{drop, ℕ,"),
        (
            "specs/Stack.antt",
            "cycle_step_kinds s head = step_kinds (take (length s - suc head) s)",
            "cycle_step_kinds s head = step_kinds (drop (length s - suc head) s)",
        ),
    ],
    "the last free entry is not used": [
        (
            "specs/Evaluate.antt",
            "elim (leb (2 * h.goals) (length g.provisional_cache)) [",
            "elim (leb (2 * h.goals) (length g.provisional_cache + 1)) [",
        ),
        ("specs/Evaluate.antt", "Prelude.{ℕ,", "Prelude.{◌+◌, ℕ,"),
    ],
    "a coinductive call holds by itself": [
        ("specs/Sets.antt", "Prelude.{Bool,", "Prelude.{eqb, Bool,"),
        (
            "specs/Sets.antt",
            "holds reading s (Call goal kind lower) = s goal",
            "holds reading s (Call goal kind lower) = s goal || eqb (Rattle.definition.specs.Paths.kind_number kind) 2",
        ),
    ],
    "undecided lines are read inverted": [
        ("specs/Sets.antt", "Prelude.{Bool,", "Prelude.{not, Bool,"),
        ("specs/Sets.antt", "holds reading s UndecidedLine = reading", "holds reading s UndecidedLine = not reading"),
    ],
    "one round too few for the least set": [
        ("specs/Sets.antt", "Prelude.{Bool,", "Prelude.{pred, Bool,"),
        ("specs/Sets.antt", "iter b.header.goals (round b reading) no_goals", "iter (pred b.header.goals) (round b reading) no_goals"),
    ],
    "one round too few for the greatest set": [
        ("specs/Sets.antt", "Prelude.{Bool,", "Prelude.{pred, Bool,"),
        ("specs/Sets.antt", "iter b.header.goals (round b reading) (all_goals b)", "iter (pred b.header.goals) (round b reading) (all_goals b)"),
    ],
    "only refused books never come to an unreachable branch": [
        (
            "specs/Always.antt",
            "NeverUnreachable = (bytes cache work : List ℕ) (goal depth : ℕ) → (query bytes cache work",
            "NeverUnreachable = (bytes cache work : List ℕ) (goal depth : ℕ) → (query [] cache work",
        ),
    ],
    "the claim of a kind asks for books without the other kind": [
        ("specs/Statement.antt", "Prelude.{◌≡◌,", "Prelude.{◌-◌, ◌≡◌,"),
        ("specs/Statement.antt", "l.second ≢ kind_number kind", "l.second ≢ 2 - kind_number kind"),
    ],
}


def git(*words, text=True):
    return subprocess.run(["git", *words], cwd=ROOT, check=True, capture_output=True, text=text).stdout


def read(path):
    with open(os.path.join(ROOT, path), encoding="utf-8") as f:
        return f.read()


def respelled():
    """The words of tools/respell.py: old and new."""
    commit = read("docs/PORT.md").split("\n")[1].strip()
    with tempfile.TemporaryDirectory() as folder:
        with tarfile.open(fileobj=io.BytesIO(git("archive", commit, "crates", text=False))) as files:
            files.extractall(folder, filter="data")
        out = subprocess.run([sys.executable, os.path.join(ROOT, "tools/respell.py"), "--words"], cwd=folder, check=True, capture_output=True, text=True)
    return dict(line.split() for line in out.stdout.splitlines())


def snake(name):
    return re.sub(r"([a-z0-9])([A-Z])", lambda m: m.group(1) + "_" + m.group(2).lower(), name).replace("-", "_")


class Spelling:
    def __init__(self, words):
        self.words = words | LIBRARY
        texts = [read(p) for part in ("specs", "src", "proofs") for p in glob.glob(f"crates/*/{part}/**/*.*t", root_dir=ROOT, recursive=True)]
        self.today = {word for text in texts for word in TOKEN.findall(text)}

    def word(self, word):
        if word in self.words:
            return self.words[word]
        return snake(word) if snake(word) in self.today and word not in self.today else word

    def turn(self, text, changed=()):
        """A text of specs/ or of a clause; `changed`: the arguments that the clause's function may write."""
        text = re.sub(r"Rattle·(\w+)·specs\.specs\.", r"Rattle.\1.specs.", text)
        text = re.sub(r"Rattle·(\w+)\.", r"Rattle.\1.", text)
        text = re.sub(r"\b(?:lib|Prim|mathlib)(?:\.[A-Z]\w*)+\.(?=\w)", "Rattle.std.specs.Prelude.", text)
        text = re.sub(r"(?<![^\s({,])_([^\w\s]+)_(?![^\s)},])", r"◌\1◌", text)
        text = re.sub(r"\(now \((\w+) \.entry\)\)|now \((\w+) \.entry\)", lambda m: (m[1] or m[2]) + (".old" if (m[1] or m[2]) in changed else ".now"), text)
        text = re.sub(r"\(now \((\w+) \.exit\)\)|now \((\w+) \.exit\)", lambda m: (m[1] or m[2]) + ".new", text)
        text = re.sub(r"ensures ([\w ]*)\{ λ (\w+)\. ⌜ (.*) ⌝ \}", lambda m: f"ensures {m[1]}{{ " + re.sub(rf"(?<![\w.]){m[2]}(?![\w'])", "result", m[3]) + " }", text)
        text = re.sub(r"^r ≡ ", "result ≡ ", text)
        text = re.sub(r"^⌜ (.*) r ⌝$", r"{ \1 result }", text)
        text = re.sub(r" ⌝$", " }", text)
        text = text.replace("⌜ ", "").replace(" ⌝", "")
        return fields(TOKEN.sub(lambda m: self.word(m[0]), text.replace("′", "'")))


ATOM = re.compile(r"[\w'«»][\w'.«»]*$")


def fields(text):
    """`f .x` and `(g a .x)` as `f.x` and `(g a).x`."""
    while m := re.search(r"(?<=[\w')]) \.([a-z]\w*)", text):
        begin, atoms = m.start(), 0
        while True:
            end = begin - (atoms > 0)
            if atoms and text[end : end + 1] != " ":
                break
            if text[end - 1 : end] == ")":
                k, deep = end - 1, 1
                while deep and k > 0:
                    k -= 1
                    deep += {")": 1, "(": -1}.get(text[k], 0)
                if deep:
                    break
                begin = k
            elif (atom := ATOM.search(text[:end])) and atom[0] != "elim" and not atom[0].endswith("."):
                begin = atom.start()
            else:
                break
            atoms += 1
        target = text[begin : m.start()]
        tight = (f"({target})" if atoms > 1 else target) + "." + m[1]
        if text[begin - 1 : begin] == "(" and text[m.end() : m.end() + 1] == ")" and begin > 0:
            text = text[: begin - 1] + tight + text[m.end() + 1 :]
        else:
            text = text[:begin] + tight + text[m.end() :]
    return text


def same(line):
    """A line in which two spellings of it are equal."""
    line = re.sub(r"now \((\w+) \.(?:entry|exit)\)|(?<![\w.])(\w+)\.(?:now|old|new)(?![\w])|now (\w+)", lambda m: m[1] or m[2] or m[3], line)
    line = re.sub(r"λ \w+\. ⌜|\bresult\b|\bres\b|\br\b|⌝|⌜", "", line)
    return re.sub(r"[\s(){}_◌·.-]|specs", "", line).lower().replace("getd", "getor")


def line_map(then, now):
    """By line of the file then, its line in today's; by the lines' text, and by likeness where the text differs."""
    a, b = [same(x) for x in then], [same(x) for x in now]
    out = {}
    for kind, i1, i2, j1, j2 in difflib.SequenceMatcher(None, a, b, autojunk=False).get_opcodes():
        if kind == "equal":
            out.update(zip(range(i1, i2), range(j1, j2)))
        elif kind == "replace":
            for i in range(i1, i2):
                like = [(difflib.SequenceMatcher(None, a[i], b[j]).ratio(), -j) for j in range(j1, j2)]
                if like and max(like)[0] > 0.6:
                    out[i] = -max(like)[1]
    for i, line in enumerate(a):
        if i not in out and line and a.count(line) == 1 and b.count(line) == 1:
            out[i] = b.index(line)
    return out


def written(lines, i):
    """The arguments that the function whose clause stands in line i may write."""
    while i >= 0 and not re.search(r"\bfn\b", lines[i]):
        i -= 1
    head = []
    while 0 <= i < len(lines) and not re.search(r"requires|ensures|\{$", lines[i]):
        head.append(lines[i])
        i += 1
    if 0 <= i < len(lines):
        head.append(lines[i].split("requires")[0].split("ensures")[0])
    return set(re.findall(r"(\w+): &mut", " ".join(head))) | ({"self"} if "&mut self" in " ".join(head) else set())


class Edit:
    """Pairs of texts for files of one crate."""

    def __init__(self, name, crate, pairs):
        self.name, self.crate, self.pairs = name, crate, pairs


def read_edit(path, text):
    crate, pairs, file, old = path.split("/")[1], [], None, None
    for line in text.splitlines():
        word, _, rest = line.partition(": ")
        if word == "file":
            file = rest
        elif word == "old":
            old = rest
        elif word in ("new", "new:") and old is not None:
            pairs.append((file, old, rest))
            old = None
        elif line.strip() and not line.startswith("#"):
            sys.exit(f"{path}: not a line of an edit: {line}")
    return Edit(path, crate, pairs)


def read_list(text):
    """The edits of LIST, each with the numbers of its lines 'find' and 'with'."""
    out, edit = [], None
    for number, line in enumerate(text.splitlines()):
        word, _, rest = line.partition(": ")
        if line.startswith("#") or not line.strip():
            edit = None if not line.strip() else edit
            continue
        if edit is None:
            edit = Edit("", "definition", [])
            edit.file, edit.finds, edit.puts, edit.lines = "", [], [], []
            out.append(edit)
        if word == "label":
            edit.name = rest
        elif word == "crate":
            edit.crate = rest
        elif word == "file":
            edit.file = rest
        elif word == "find":
            edit.finds.append(rest)
            edit.lines.append([number, None])
        elif word == "with":
            edit.puts.append(rest)
            edit.lines[-1][1] = number
    for edit in out:
        edit.pairs = [(edit.file, find, put) for find, put in zip(edit.finds, edit.puts, strict=True)]
    return out


def wrong(edit, text_of):
    """What is wrong with an edit, if anything."""
    texts = {}
    for file, old, new in edit.pairs:
        if file not in texts:
            texts[file] = text_of(f"crates/{edit.crate}/{file}")
        if texts[file].count(old) != 1:
            return f"found {texts[file].count(old)} times in {file}: {old.strip()}"
        if old == new:
            return f"changes nothing in {file}: {old.strip()}"
        texts[file] = texts[file].replace(old, new)
    return "" if edit.pairs else "it changes nothing"


class Turner:
    def __init__(self, landed):
        self.landed, self.spelling, self.files, self.maps = landed, Spelling(respelled()), {}, {}

    def then(self, path):
        if path not in self.files:
            self.files[path] = git("show", f"{self.landed}:{path}")
        return self.files[path]

    def turned(self, edit):
        """Today's pairs of an edit of LANDED, and what could not be turned."""
        if edit.name in BY_HAND:
            return BY_HAND[edit.name], ""
        thens, nows, out = {}, {}, []
        for file, old, new in edit.pairs:
            path = f"crates/{edit.crate}/{file}"
            if file not in thens:
                thens[file], nows[file] = self.then(path), read(path)
                if path not in self.maps:
                    self.maps[path] = line_map(thens[file].splitlines(), nows[file].splitlines())
            then, now = thens[file], nows[file]
            if then.count(old) != 1:
                return [], f"at {self.landed} found {then.count(old)} times: {old}"
            i = then[: then.index(old)].count("\n")
            j = self.maps[path].get(i)
            if j is None:
                return [], f"{file}: no line today for line {i + 1}: {old}"
            there = now.splitlines()[j]
            changed = written(then.splitlines(), i) if path.endswith(".rt") else ()
            body = path.endswith(".rt") and not re.search(r"⌜|⌝|ghost|[a-z][A-Z]|\w \.\w", old)
            tries = [(old, new)] if body else []
            tries.append((self.spelling.turn(old, changed), self.spelling.turn(new, changed)))
            for a, b in tries:
                if now.count(a) == 1 and a in there and a != b:
                    break
            else:
                return [], f"{file}: turned into {tries[-1][0]!r}, but today's line is {there!r}"
            out.append((file, a, b))
            thens[file], nows[file] = then.replace(old, new), now.replace(a, b)
        return out, ""


def put(path, text):
    with open(os.path.join(ROOT, path), "w", encoding="utf-8") as f:
        f.write(text)


def render(before, pairs):
    """The text of an edit with other pairs: its comments stay where they are, further pairs go to the end."""
    out, left, file = [], list(pairs), None
    for line in before.splitlines():
        word = line.partition(": ")[0]
        if word == "old" and left:
            out.append(f"old: {left[0][1]}")
        elif word in ("new", "new:") and left:
            out.append(f"new: {left[0][2]}")
            file = left.pop(0)[0]
        else:
            out.append(line)
    for further, old, new in left:
        out += ([] if further == file else [f"file: {further}"]) + [f"old: {old}", f"new: {new}"]
        file = further
    return "\n".join(out) + "\n"


def paths():
    return sorted(p for folder in ("must-fail", "must-fail-more") for p in glob.glob(f"crates/*/{folder}/*.edit", root_dir=ROOT))


def rewrite(landed):
    turner, left, changed = Turner(landed), [], 0
    for path in paths():
        if path.split("/")[1] in CRATES_LEFT:
            continue
        then = path.replace("/must-fail-more/", "/must-fail/more/")
        before = git("show", f"{landed}:{then}")
        pairs, said = turner.turned(read_edit(then, before))
        if said:
            left.append(f"{path}: {said}")
            continue
        after = render(before, pairs)
        changed += after != before
        put(path, after)
    before = git("show", f"{landed}:{LIST}")
    lines = before.splitlines()
    more = []
    for edit in read_list(before):
        pairs, said = turner.turned(edit)
        if said:
            left.append(f"{LIST}: {edit.name}: {said}")
            continue
        for (a, b), (_, old, new) in zip(edit.lines, pairs):
            lines[a], lines[b] = f"find: {old}", f"with: {new}"
        more.append((edit.lines[-1][1], [f"{w}: {t}" for _, old, new in pairs[len(edit.lines):] for w, t in (("find", old), ("with", new))]))
    for at, further in sorted(more, reverse=True):
        lines[at + 1 : at + 1] = further
    put(LIST, "\n".join(lines) + "\n")
    print("\n".join(left))
    print(f"{changed} edits changed; {len(left)} left")
    return 1 if left else 0


def check():
    said = []
    edits = [read_edit(path, read(path)) for path in paths()]
    listed = read_list(read(LIST))
    for edit in edits + listed:
        bad = wrong(edit, lambda path: read(path) if os.path.isfile(os.path.join(ROOT, path)) else "")
        if bad:
            said.append(f"{edit.name}: {bad}")
    print("\n".join(said + [f"{len(edits)} must-fail edits, {len(listed)} of {LIST}; {len(said)} do not apply"]))
    return 1 if said else 0


def main(args):
    if args == ["--check"]:
        return check()
    if len(args) == 1 and not args[0].startswith("-"):
        return rewrite(args[0])
    print(__doc__)
    return 2


if __name__ == "__main__":
    raise SystemExit(main(sys.argv[1:]))
