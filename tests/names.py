"""What the files of a crate declare, bring in and name: antt files of specs/ and proofs/, Rattle files of src/."""
import collections
import os
import re
import sys

Token = collections.namedtuple("Token", "text line column gap")  # gap: whether a space stands before it
# module: the path that a `use` line names, in parts; item: the name in its braces, None where it is the module itself
Import = collections.namedtuple("Import", "name module item line")


# ---- antt

TOKEN = re.compile(r'\{-.*?-\}|--[^\n]*|"(?:\\.|[^"\\])*"|«[^»\n]*»|[(){}.;,@]|[^\s(){}.;,@"«»]+', re.S)
MARKS = ("pub", "unfoldable", "abbrev", "opaque", "axiom")


def tokens(text, line=1):
    """Without comments and quoted texts. An escaped name is the bare one."""
    out, at = [], 0
    for m in TOKEN.finditer(text):
        line += text.count("\n", at, m.start())
        at, word = m.start(), m[0]
        if word.startswith(("--", "{-", '"')):
            continue
        if word[0] == "«":
            word = word[1:-1]
        out.append(Token(word, line, at - text.rfind("\n", 0, at) - 1, at == 0 or text[at - 1].isspace()))
    return out


def parts(name):
    """What is written of an operator between its arguments: `||` of `◌||◌`."""
    return [p for p in name.split("◌") if p] if "◌" in name else []


def module_key(path):
    """(crate, 'specs' or 'proofs', module ..) of a path as Rattle.book.specs.Lines; None for another."""
    return tuple(path[1:]) if path[0] == "Rattle" and len(path) > 2 else None


def imported(ts, k, path):
    """The imports of the `use` at token k, and the place of the token behind it."""
    line, module = ts[k].line, []
    k += 1
    while ts[k].text != "{":
        module.append(ts[k].text)
        k += 1
        if k + 1 < len(ts) and ts[k].text == "." and not ts[k].gap:
            k += 1
        elif k + 1 < len(ts) and ts[k].text == "as":
            return [Import(ts[k + 1].text, module, None, line)], k + 2
        else:
            return [Import(module[-1], module, None, line)], k
    items, item = [], []
    while ts[k].text != "}":
        k += 1
        if ts[k].text not in (",", "}"):
            item.append(ts[k].text)
        elif item:
            if "." in item or "*" in item:
                sys.exit(f"{path}:{line}: a path or `*` in braces is not understood")
            items.append(Import(item[-1], module, item[0], line))  # the last of `a as b`
            item = []
    return items, k + 1


def is_label(ts, k, inside):
    """Whether token k names a field or an argument that is given: { name = ..; name = .. }."""
    after = ts[k + 1].text if k + 1 < len(ts) else ""
    return inside == "{" and after in ("=", ":") and ts[k - 1].text in ("{", ";")


def named(ts):
    """Each token that names something, with what follows it after tight dots, `a.b.c`; without projections, ` .field`."""
    brackets, out = [""], []
    for k, t in enumerate(ts):
        if t.text in ("(", "{"):
            brackets.append(t.text)
        elif t.text in (")", "}"):
            brackets[1:] and brackets.pop()
        elif t.text in (".", ";", ",", "@") or (k and ts[k - 1].text == "." and not t.gap):
            continue
        elif not is_label(ts, k, brackets[-1]):
            path, j = [t.text], k + 1
            while j + 1 < len(ts) and ts[j].text == "." and not (ts[j].gap or ts[j + 1].gap or ts[j + 1].text in "({"):
                path.append(ts[j + 1].text)
                j += 2
            out.append(path)
    return out


class Scope:
    """The names that a file brings in or declares, and which of them were written so far."""

    def __init__(self, imports, own):
        self.own, self.written = own, set()
        self.by_name, self.by_word = collections.defaultdict(list), collections.defaultdict(set)
        for i in imports:
            self.by_name[i.name].append((module_key(i.module), i.item))
        for name in [*own, *self.by_name]:
            for word in (name, *parts(name)):
                self.by_word[word].add(name)

    def meant(self, path):
        """The (module, name) pairs that a path in a text may mean; the module is None for the file's own."""
        found, none, whole = set(), set(), module_key(path)
        if whole:
            found |= {(whole[:k], whole[k]) for k in range(2, len(whole))}
        for name in self.by_word.get(path[0], none) | self.by_word.get(path[0].strip("◌"), none):
            self.written.add(name)
            if name in self.own:
                found.add((None, name))
            for key, item in self.by_name.get(name, ()):
                if key and item:
                    found.add((key, item))
                elif key:  # a module, or one name of it
                    found |= {((*key, *path[1:k]), path[k]) for k in range(1, len(path))} | {(key[:-1], key[-1])}
        return found


def declared(ts, k):
    """The names that a declaration at token k declares; none where no declaration starts there."""
    while ts[k].text in MARKS:
        k += 1
    if ts[k].text in ("data", "record", "ruleset") and ts[k + 1].text != "{":
        return [ts[k + 1].text]
    names = []
    while k < len(ts) and ts[k].text not in (*"(){}.;,@=:", "unfolding", "module", "mutual"):
        names.append(ts[k].text)
        k += 1
    if len(names) == 1 and k < len(ts) and ts[k].text == "{":  # levels
        while ts[k].text != "}":
            k += 1
        k += 1
    return names if k < len(ts) and ts[k].text == ":" else []


class Module:
    """A file of specs/ or proofs/."""

    def __init__(self, root, path):
        self.path = path
        crate, *rest = path[: -len(".antt")].split("/")[1:]
        self.key = (crate, *(rest[:-1] if rest[-1] == "Lib" else rest))
        with open(os.path.join(root, path)) as f:
            self.text = f.read()
        ts, k, self.imports = tokens(self.text), 0, []
        while k < len(ts) and ts[k].column == 0:
            head = k + (ts[k].text == "pub")
            if ts[head].text == "mod":
                k = head + 2
            elif ts[k].text == "use":
                found, k = imported(ts, k, path)
                self.imports += found
            elif "use" in [t.text for t in ts[k : k + 3]]:
                sys.exit(f"{path}:{ts[k].line}: `pub use` is not understood")
            else:
                break
        self.declare(ts[k:])

    def declare(self, ts):
        """Finds the declarations, at the left edge and in blocks, the tokens of each, and members: constructors and fields.
        What stands outside, as the parameters of a block do, belongs to None."""
        self.lines, self.members, self.bodies = {}, {}, collections.defaultdict(list)
        columns, owner, line, inner = [0], None, 0, 0
        for k, t in enumerate(ts):
            if t.line != line and t.column in columns:
                columns = [c for c in columns if c <= t.column]
                names, block = declared(ts, k), t.text in ("module", "mutual")
                inner = t.column + 2 if {"data", "record"} & {x.text for x in ts[k : k + 3]} else 0
                if block:  # its declarations stand where the first does
                    start = k if t.text == "mutual" else next(j for j in range(k, len(ts)) if ts[j].text == "where")
                    columns.append(ts[start + 1].column)
                if block or t.text.startswith("infix"):
                    owner = None
                elif names or t.text in self.lines:
                    owner = names[0] if names else t.text
                    self.lines.setdefault(owner, t.line)
            elif t.line != line and t.column == inner:
                self.members.update({name: owner for name in declared(ts, k)})
            line = t.line
            self.bodies[owner].append(t)

    def of_goal(self, name):
        """Whether the type of a declaration is one that the checker made of the code: `loop-i-init : goal.loop-i-init`."""
        made = {i.name for i in self.imports if i.module[-1] in ("Goals", "Given") and i.module[0] == "Rattle"}
        ts = [t.text for t in self.bodies[name]]
        return ":" in ts and ts[ts.index(":") + 1] in made

    def cites(self):
        """By declaration the (module, name) pairs that it names; and every name that the file writes."""
        scope, found = Scope(self.imports, {*self.lines, *self.members}), {}
        for owner, ts in self.bodies.items():
            found[owner] = {(module or self.key, name) for path in named(ts) for module, name in scope.meant(path)}
        around = found.pop(None, set())
        return {name: found[name] | around for name in self.lines}, scope.written


# ---- Rattle

CLAUSE = re.compile(r"^(?:\s+(?:requires|ensures)|[ \t]+ghost (?!use ))\b[^{\n]*\{", re.M)
TACTIC = re.compile(r"^\s*#!?\[tactic\(([^\n]*)\)\]$", re.M)
USE = re.compile(r"^(?:pub )?use ([\w:]+?)(?:::\{([^}]*)\})?(?: as (\w+))?;", re.M)
GHOST_USE = re.compile(r"^ghost use ([^;]*);", re.M)
ITEM = re.compile(r"^( *)(?:pub )?(extern \"C\" )?(?:fn|struct|enum|impl) (\w+)([^\n]*)", re.M)
CALL = re.compile(r"(?<![\w:.])((?:\w+::)*)(\w+)\(|\.(\w+)\(")
PASSED = re.compile(r"(?<=[(,])\s*(\w+)(?=\s*[,)])")  # an argument that is one name, of a function perhaps


def blank(text):
    """Spaces in place of a text, its lines kept."""
    return re.sub(r"[^\n]", " ", text)


def closing(text, at):
    """The place behind the brace that closes the one at text[at]."""
    depth = 0
    for k in range(at, len(text)):
        depth += (text[k] == "{") - (text[k] == "}")
        if depth == 0:
            return k + 1
    return len(text)


def line_of(text, at):
    return text.count("\n", 0, at) + 1


class Source:
    """A file of src/: its code, without comments, `use` lines and contracts; its contracts; and what it brings in."""

    def __init__(self, root, path):
        self.path = path
        self.crate, _, *rest = path[: -len(".rt")].split("/")[1:]
        self.module = "::".join([self.crate, *(rest[:-1] if rest[-1] in ("lib", "main") else rest)])
        with open(os.path.join(root, path)) as f:
            text = re.sub(r"//[^\n]*", lambda m: blank(m[0]), f.read())
        self.contracts = []
        for m in reversed(list(CLAUSE.finditer(text))):
            end = closing(text, m.end() - 1)
            self.contracts += tokens(text[m.end() - 1 : end], line_of(text, m.end()))
            text = text[: m.start()] + blank(text[m.start() : end]) + text[end:]
        for m in TACTIC.finditer(text):  # the lemmas that a function's proof may use
            self.contracts += tokens(self.in_proofs(m[1]), line_of(text, m.start()))
        text = TACTIC.sub(lambda m: blank(m[0]), text)
        self.children = set(re.findall(r"^(?:pub )?mod (\w+);", text, re.M))
        self.ghosts, self.uses = [], {}  # antt imports; by name its path and line
        self.code = USE.sub(self.add_use, GHOST_USE.sub(self.add_ghost, text))
        self.find_functions()

    def in_proofs(self, words):
        """Paths of an attribute, crate::proofs::M::f, as those of antt."""
        return re.sub(r"\bcrate::", f"Rattle.{self.crate}.", words).replace("::", ".")

    def add_ghost(self, m):
        self.ghosts += imported(tokens("use " + m[1], line_of(m.string, m.start())), 0, self.path)[0]
        return blank(m[0])

    def add_use(self, m):
        for item in filter(str.strip, m[2].split(",")) if m[2] else [m[1].split("::")[-1]]:
            name, _, other = item.strip().partition(" as ")
            path = m[1] + "::" + name if m[2] and name != "self" else m[1]
            name = path.rpartition("::")[2]
            self.uses[(m[3] if not m[2] else "") or other or name] = (self.whole(path), line_of(m.string, m.start()))
        return blank(m[0])

    def whole(self, path):
        """A path from its crate on."""
        first, _, rest = path.partition("::")
        if first == "crate":
            return self.crate + "::" + rest
        return self.module + "::" + path if first in self.children else path

    def find_functions(self):
        """Functions by whole path: their line, their body, and whether something outside calls them."""
        self.functions, self.types, of_type, of_trait = {}, set(), "", False
        for m in ITEM.finditer(self.code):
            word = m[0].split()
            if "fn" not in word:
                of_type = "::" + m[3] if "impl" in word else ""
                of_trait = "impl" in word and " for " in m[4]
                self.types.add(m[3])
                continue
            at = self.code.find("{", m.end(3))
            path = self.module + (of_type if m[1] else "") + "::" + m[3]
            # by C, by the start of the program, or by whoever calls a method of the trait
            outside = bool(m[2]) or (m[3] == "main" and self.path.endswith("src/main.rt")) or bool(m[1] and of_trait)
            self.functions[path] = (line_of(self.code, m.start()), self.code[m.end(3) : closing(self.code, at)], outside)

    def called(self, path, body):
        """The paths of the functions that a function's body calls; `.name` for a method of whatever type."""
        found = {self.module + "::" + m[1] for m in PASSED.finditer(body)}
        for m in CALL.finditer(body):
            if m[3]:
                found.add("." + m[3])
                continue
            first, _, rest = (m[1] + m[2]).partition("::")
            if first == "Self":
                found.add(path.rpartition("::")[0] + "::" + rest)
            elif first in self.uses:
                found.add(self.uses[first][0] + (rest and "::" + rest))
            elif first in self.types or not rest:
                found.add(self.module + "::" + m[1] + m[2])
            else:
                found.add(self.whole(m[1] + m[2]))
        return found

    def writes(self, name):
        """Whether the code has a name that is brought in: a module or function only before `::` or `(`."""
        after = r"\s*(?:::|\()" if name[0].islower() else r"\b"
        return bool(re.search(rf"(?<![\w.:]){name}{after}", self.code))
