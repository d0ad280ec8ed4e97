#!/usr/bin/env python3
"""Turns the walks of an older Rattle, proofs/F/Proof.antt, to Invariants.antt and Answers.antt.

usage: tools/answers.py CRATE NAMES OLD [FUNCTION ..]      at the top of the repository

NAMES is the names.json that 'rt check --generated DIR --old-names' writes for the crate, OLD the commit that landed before the
port, whose walks give the order of the goals. A walk that is turned goes; what could not be turned is said, and stays as it is
in comments that begin with '-- left:'. Nothing is proved by it: rt check decides.
"""
import json
import os
import re
import subprocess
import sys

NAME = r"[^\s(){}.;,@\"«»\[\]\\:λ→×]+"
PATH = re.compile(r"(?<![\w.'’₀-])(" + NAME + r")((?:\." + NAME + r")+)")
dash = lambda s: s.replace("_", "-")


def git(*words):
    return subprocess.run(["git", *words], capture_output=True, text=True, errors="replace").stdout


def sources():
    text = {}
    for folder, dirs, names in os.walk("crates"):
        dirs[:] = [d for d in dirs if d != "out"]
        for n in names:
            if n.endswith(".rt"):
                path = os.path.join(folder, n)
                text[path] = open(path, encoding="utf-8").read()
    return text


SOURCE = sources()
WORDS = {dash(w): w for w in re.findall(r"\b[a-z]\w*_\w+\b", "\n".join(SOURCE.values()))}
plain = lambda s: dash(s).lower().replace("«", "").replace("»", "")


def found_in(name, rest, flags=0):
    """The file of a function, by its whole name, and the match of `rest` behind `fn NAME` in it; nothing where there is none."""
    parts = name.split("::")
    for n in range(len(parts) - 1, 0, -1):
        base = "crates/" + parts[0] + "/src" + "".join("/" + p for p in parts[1:n])
        for path in (base + ".rt", base + "/lib.rt", base + "/main.rt", base + "/mod.rt"):
            found = path in SOURCE and re.search(r"fn " + re.escape(parts[-1]) + rest, SOURCE[path], flags)
            if found:
                return SOURCE[path], found
    return "", None


def parameters(name):
    """A function's parameters, as they are written."""
    found = found_in(name, r"\s*(?:<[^>]*>)?\(([^)]*)\)")[1]
    return found.group(1) if found else ""


def mut_params(name):
    """The names of a function's `&mut` parameters."""
    return [p.split(":")[0].strip().split()[-1] for p in parameters(name).split(",") if re.search(r":\s*&('\w+ )?mut ", p)]


def clauses(name, kind):
    """The names of a function's clauses of a kind, where it has several."""
    found = found_in(name, r"\s*(?:<[^>]*>)?\([^)]*\)[^{;]*?(?:requires|ensures)?.*?\n *\{\n", re.S)[1]
    names = re.findall(r"(?m)^ +" + kind + r" (\w+) \{", found.group(0)) if found else []
    return names if len(names) > 1 else []


class Function:
    def __init__(self, info, name, cycle=False):
        self.name = name
        self.cycle = cycle
        self.info = info
        self.needs = info["needs"]
        self.autos, self.loop_vars = {}, {}
        lent = mut_params(name)
        for ((old, new), variables), flags in zip(info["loops"], info["changed"]):
            self.loop_vars[plain(old)] = variables
            self.autos[plain(old)] = [v for v, f in zip(variables, flags) if f and v in lent]
        self.steps, self.called = {}, {}
        self.params = info["params"]
        for old, parent, (a, b), callee, _ in info["places"]:
            if a:
                self.steps.setdefault(plain(a), b)
                if callee:
                    self.called[plain(a)] = callee
        self.places = {dash(p[0]): n for p, n in zip(info["places"], info["places_by_name"])}
        self.arms = []
        for arm in info["arms"]:
            if arm:
                for field, old, path in arm[2]:
                    if path or not field.endswith("-own"):
                        self.arms.append((plain(old), [dash(x) for x in path], arm[0], field))
        self.matches = {}
        for place, arm in zip(info["places"], info["arms"]):
            if arm and place[0].startswith("At-match"):
                for field, old, path in arm[2]:
                    if not path and old.startswith("match"):
                        self.matches.setdefault(place[0], (arm[0], field))
        self.arms.sort(key=lambda a: -len(a[1]))
        self.typed = {plain(step): var for place in info["typed"] for var, step in place}

    def path(self, segments):
        while segments and segments[0] == "before":
            segments = segments[1:]
        segments = ["type_inv" if s == "type-inv" else s for s in segments]
        segments = ["requires" if s == "pre" and i == 0 else s for i, s in enumerate(segments)]
        if not segments:
            return ""
        first, rest = plain(segments[0]), segments[1:]
        if first == "well-formed":
            return "." + ".".join(["well_formed", *rest])
        if first not in self.steps and first.endswith("-lem"):
            first = first[:-4]
        if re.match(r"match\d*$", first) and rest[:1] and "At-" + first + "-" + rest[0] in self.matches:
            arm, own = self.matches["At-" + first + "-" + rest[0]]
            return "." + ".".join([arm, own, *rest]) + ("?" if arm.startswith("in_default") and rest[0].startswith("keys") else "")
        for old, path, arm, field in self.arms:
            if old == first and [dash(x) for x in rest[: len(path)]] == path:
                return "." + ".".join([arm, field, *rest[len(path) :]])
        if first == "args" and rest[:1] == ["result"] and re.search(r"\bres: ", parameters(self.name)):
            rest = ["res", *rest[1:]]
            segments = ["args", *rest]
        if first == "requires" and self.cycle and rest[:1] == ["0"]:
            return ".decreases" + "".join("." + r for r in rest[1:])
        if first == "requires" and self.cycle and rest[:1] == ["1"]:
            rest = rest[1:]
            segments = ["requires", *rest]
        if first == "requires" and rest[:1] and rest[0].isdigit():
            own = clauses(self.name, "requires")
            if int(rest[0]) < len(own):
                return "." + ".".join(["requires", own[int(rest[0])], *rest[1:]])
        if first in self.typed and first not in self.called:
            return ".type_inv." + self.typed[first] + "".join("." + r for r in rest if r != "given")
        if first in self.steps:
            new = self.steps[first]
            older = {"taken": "true", "left": "false", "inv": "invariant", "last": "new"}
            if first in self.called:
                older["kept"] = "auto"
                older.pop("left")
            elif not re.match(r"(if|.*loop.*-test)", first):
                older.pop("left")
                older.pop("last")
            if rest:
                rest = [older.get(rest[0], rest[0]), *rest[1:]]
            if rest[:1] in (["new"], ["auto"]) and first in self.called:
                after, n = rest[1:], 0
                while after[:1] == ["1"]:
                    after, n = after[1:], n + 1
                params = self.params.get(self.called[first], [])
                if after[:1] == ["0"] and n < len(params):
                    rest = [rest[0], params[n], *after[1:]]
            if rest[:1] == ["auto"] and first in self.autos:
                names = self.autos[first]
                if len(rest) == 1 and "kept" in self.loop_vars[first]:
                    rest = ["kept"]
                elif len(rest) == 1 and names:
                    rest = ["auto", names[0]]
                elif rest[1:2] and rest[1].isdigit() and int(rest[1]) < len(names):
                    rest = ["auto", names[int(rest[1])], *rest[2:]]
            if rest[:1] == ["ensures"] and rest[1:2] and rest[1].isdigit() and first in self.called:
                names = clauses(self.called[first], "ensures")
                if int(rest[1]) < len(names):
                    rest = ["ensures", names[int(rest[1])], *rest[2:]]
            of_field = new.startswith("if-not-") and re.search(r"!" + re.escape(new[7:].split("-")[0]) + r"\.\w+\b(?!\()", found_in(self.name, r"\b")[0])
            if new.startswith("if-not-") and not of_field and rest in (["true"], ["false"]):
                return "." + new + "." + rest[0] + "!"
            return "." + ".".join([new, *[WORDS.get(r, r) for r in rest]])
        return "." + ".".join(WORDS.get(dash(s), s) if s not in ("0", "1") else s for s in segments)


def blocks(text):
    out, now = [], []
    for line in text.split("\n"):
        if line.strip() == "" and now:
            out.append(now)
            now = []
        elif line.strip() != "":
            now.append(line)
    if now:
        out.append(now)
    return out


ARG = r"(\w+(?:\.before)*|\([^()]*\)(?:\.before)*)"


def inlined(text):
    """Helpers that take the facts known at a place are written out where they are used: no type of today's names those facts."""
    bodies, order, out = {}, [], []
    for block in blocks(text):
        code = [l for l in block if not l.startswith("--")]
        if not code or any(l.startswith(("unfolding ", "use ", "pub ")) for l in code):
            out.append("\n".join(block))
            continue
        whole = "\n".join(code)
        need = re.match(r"^(\S+) : tie\.Need-", whole)
        path = re.match(r"^abbrev (\S+) : tie\.[^\n→]*→ tie\.[^\n→]*\n\1 (\w+) = ([^\n]*)$", whole)
        helper = re.match(r"(?s)^(abbrev )?(\S+) : \((\w+) : tie\.[^()]*\)\s*(?:→ )?(.*?)\n\2 (\w+) =\s*(.*)$", whole)
        if need:
            c = re.match(r"(?s)^[^\n]*\n" + re.escape(need.group(1)) + r" (\w+) =\s*(.*)$", whole)
            if c:
                bodies[need.group(1)] = (c.group(1), " ".join(c.group(2).split()))
                order.append(need.group(1))
            out.append("\n".join(block))
        elif path:
            bodies[path.group(1)] = (path.group(2), path.group(3))
            order.append(path.group(1))
        elif helper:
            name, var, kind, var2, body = helper.group(2), helper.group(3), helper.group(4), helper.group(5), helper.group(6)
            body = " ".join(body.split())
            if kind.startswith("("):
                kind = None
            if kind and not helper.group(1) and not re.match(r"tie\.", kind):
                kind = re.sub(r"(?<![\w.'’₀-])" + re.escape(var) + r"(?![\w'’₀-])", var2, " ".join(kind.split()))
                body = f"let it : {kind} = {body} in it"
            bodies[name] = (var2, body)
            order.append(name)
        else:
            out.append("\n".join(block))
    text = "\n\n".join(out)
    if not bodies:
        return text
    known = {"c"} | set(re.findall(r"let (\w+) = \w+(?:\.before)+ in", text))
    for again in range(12):
        for name in reversed(order):
            var, body = bodies[name]
            simple = re.fullmatch(r"[^\s()]+", body)

            def use(m):
                root = re.match(r"\(?([\w-]+)", m.group(2)).group(1)
                ahead = text[m.end() : m.end() + 2]
                if root not in known or ahead == " =" or (text[m.start() - 1 : m.start()] in "\n" and re.match(r" [\w]", ahead)):
                    return m.group(0)
                arg = m.group(2)
                if re.fullmatch(r"\(\S+\)", arg):
                    arg = arg[1:-1]
                inner = re.sub(r"(?<![\w.'’₀-])" + re.escape(var) + r"(?![\w'’₀-])", lambda k: arg, body)
                return inner if simple else "(" + inner + ")"

            text = re.sub(r"(?<![\w.'’₀-])(" + re.escape(name) + r") " + ARG + r"(?![\w'-])", use, text)
        old = None
        while old != text:
            old, text = text, re.sub(r"(?<![\w'’₀-])\((\w[\w'’₀-]*(?:\.[\w'’₀-]+)*)\)", r"\1", text)
        for alias in re.findall(r"let (\w+) = (?:" + "|".join(known) + r")(?:\.before)* in", text):
            known.add(alias)
    return text


LET = re.compile(r"let (\S+) = (c(?:\.[^\s(){},;]+)?) in\s*")


def expanded(chunk, imported):
    """Names for parts of what is known are written out, so that a path shows the step that it begins with."""
    at = 0
    while True:
        m = LET.search(chunk, at)
        if not m:
            return chunk
        name, path = m.group(1), m.group(2)
        depth, end = 0, m.end()
        while end < len(chunk):
            depth += {"(": 1, "[": 1, "{": 1, ")": -1, "]": -1, "}": -1}.get(chunk[end], 0)
            if depth < 0:
                break
            end += 1
        rest, tail = chunk[m.end() : end], chunk[end:]
        if re.search(r"(λ[^.\n]*(?<![\w'-])" + re.escape(name) + r"(?![\w'-])[^.\n]*\.|\(" + re.escape(name) + r" :|let " + re.escape(name) + r" )", rest):
            at = m.end()
            continue
        rest = re.sub(r"(?<![\w.'’₀-])" + re.escape(name) + r"(?![\w'’₀-])" + (r"(?=\.)" if name in imported else ""), lambda k: path, rest)
        chunk, at = chunk[: m.start()] + rest + tail, m.start()


def recorded(text, names):
    """The tuple that a body ends with, where it has a part for each of several clauses, as a record."""
    end = text.rstrip()
    if len(names) < 2 or not end.endswith(")"):
        return text
    depth, at = 0, len(end) - 1
    while at >= 0:
        depth += {")": 1, "(": -1}.get(end[at], 0)
        if depth == 0:
            break
        at -= 1
    if at and not re.search(r"(=|in|^)\s*$", end[:at]):
        return text
    parts, depth, now = [], 0, ""
    for ch in end[at + 1 : -1]:
        depth += {"(": 1, "[": 1, "{": 1, ")": -1, "]": -1, "}": -1}.get(ch, 0)
        if ch == "," and depth == 0:
            parts.append(now)
            now = ""
        else:
            now += ch
    if now.strip():
        parts.append(now)
    if len(parts) != len(names):
        return text
    return end[:at] + "record {\n" + "".join(f"      {n} = {p.strip()};\n" for n, p in zip(names, parts)) + "    }"


def straight(text, name):
    """The walk of a cycle of calls in the form of a walk of one function."""
    lts = re.escape(name) + r"-lts\."
    text = re.sub(r"(?m)^(\S+) : \(t : ℕ\) → " + lts + r"(Need-\S+).*$", r"\1 : tie.\2", text)
    text = re.sub(r"(?m)^(\S+) : " + lts + r"(invariant|InvT|decreases|MeasureT)-", r"\1 : tie.\2-", text)
    text = re.sub(r"(?m)^(" + re.escape(name) + r"-\S+) t (\w+)", r"\1 \2", text)
    text = re.sub(r"(?ms)^pub \+.*\Z", "", text)
    for alias, place in re.findall(r"(?m)^abbrev (\S+) : ℕ → Type 0\n\1 t = " + lts + r"(\S+) .*$", text):
        text = re.sub(r"(?m)^abbrev " + re.escape(alias) + r" : .*\n.*\n", "", text)
        text = re.sub(r"\(t : ℕ\) \((\w+) : " + re.escape(alias) + r" t\)", r"(\1 : tie." + place + ")", text)
    for helper in re.findall(r"(?m)^(?:abbrev )?(\S+) : \(\w+ : tie\.", text):
        text = re.sub(r"(?<![\w.'₀-])" + re.escape(helper) + r" t ", helper + " ", text)
    keep = [b for b in blocks(text) if re.match(r"use |(abbrev )?\S+ : (\(\w+ : )?tie", ([l for l in b if not l.startswith("--")] or [""])[0]) or name not in b[0]]
    return "\n\n".join("\n".join(b) for b in keep)


def closing(text, at):
    depth = 0
    for i in range(at, len(text)):
        depth += {"(": 1, ")": -1}.get(text[i], 0)
        if depth == 0:
            return i
    return len(text)


def parted(text, name):
    """Of the walk of a cycle of several functions, what speaks of one, in the form of a walk of one function."""
    lts = re.escape(name) + r"-lts\."
    lines, inside = [], False
    for line in text.split("\n"):
        if line.startswith("module _ "):
            inside = "head"
        if inside == "head":
            if line.endswith(" where"):
                inside = True
            continue
        if inside and line and not line.startswith(" "):
            inside = False
        lines.append(line[2:] if inside and line.startswith("  ") else line)
    out, helpers = [], []
    for block in blocks("\n".join(lines)):
        comments = [l for l in block if l.startswith("--")]
        code = [l for l in block if not l.startswith("--")]
        if code and code[0].startswith("use "):
            out.append("\n".join(code))
            continue
        if not code:
            continue
        own = re.match(r"(?:pub )?(?:abbrev )?(\S+) :", code[0])
        if not own:
            continue
        at = next((i for i, l in enumerate(code) if i and (l + " ").startswith(own.group(1) + " ")), None)
        if at is None:
            continue
        sig, clause = " ".join(" ".join(code[:at]).split()), code[at:]
        if not re.search(lts, sig) or own.group(1).startswith("μ") or re.search(r"-(claims|at|below) :", sig):
            continue
        m = re.match(r"(\S+) : \(t : ℕ\) → " + lts + r"(Need-\S+)", sig)
        if m:
            clause[0] = re.sub(r"^(\S+) t ", r"\1 ", clause[0])
            out.append("\n".join(comments + [f"{m.group(1)} : tie.{m.group(2)}"] + clause))
            continue
        m = re.match(r"(abbrev \S+) : " + lts + r"(invariant|InvT|decreases|MeasureT)-(\S+)$", sig)
        if m:
            out.append("\n".join(comments + [f"{m.group(1)} : tie.{m.group(2)}-{m.group(3)}"] + clause))
            continue
        m = re.match(r"(abbrev \S+) : " + lts + r"(\S+) C A P[^→]*→ " + lts + r"(\S+) C A P", sig)
        if m:
            out.append("\n".join(comments + [f"{m.group(1)} : tie.{m.group(2)} → tie.{m.group(3)}"] + clause))
            continue
        m = re.match(r"(\S+) : \(t : ℕ\) (\((\w+) : " + lts + r"(\S+))", sig)
        if m:
            end = closing(sig, m.start(2))
            clause[0] = re.sub(r"^(\S+) t ", r"\1 ", clause[0])
            helpers.append(m.group(1))
            out.append("\n".join(comments + [f"{m.group(1)} : ({m.group(3)} : tie.{m.group(4)}){sig[end + 1 :]}"] + clause))
            continue
        print("parted: left", sig[:100])
    text = "\n\n".join(out)
    for helper in helpers:
        text = re.sub(r"(?<![\w.'₀-])" + re.escape(helper) + r" t ", helper + " ", text)
    return text


def turn(folder, fn, crate, path, old_text, cycle=None, several=False):
    text = open(os.path.join(folder, "Proof.antt"), encoding="utf-8").read().replace(".«record»", ".record")
    if several:
        text, old_text = parted(text, cycle), parted(old_text, cycle)
    elif cycle:
        text, old_text = straight(text, cycle), straight(old_text, cycle)
    prefix = fn.name.split("::")[-1] + "-" if several else ""
    text = inlined(text)
    left = []
    old_needs = re.findall(r"(?m)^\s*\S+ : (?:\([^)]*\) → )?tie\.Need-(\S+)", old_text)
    by_old = {dash(a): b for a, b in fn.needs}
    uses = [l for l in text.split("\n") if l.startswith("use ") and not re.search(r"\.(Statement|Tie)\b", l)]
    body = "\n".join(l for l in text.split("\n") if not l.startswith("use "))
    loops = list(fn.info["loops"])
    changed = list(fn.info["changed"])
    inv, ans, renamed = [], [], {}
    need_at = 0
    pending = []
    for block in blocks(body):
        comments = [l for l in block if l.startswith("--")]
        code = [l for l in block if not l.startswith("--")]
        if not code:
            pending += comments
            continue
        head = code[0]
        m = re.match(r"^pub (\S+) : \{M : Type 1\} → statement M", head)
        if m:
            pending = []
            continue
        m = re.match(r"^abbrev (\S+) : tie\.(invariant|InvT|decreases|MeasureT)-(\S+)", head)
        if m:
            name, kind, label = m.group(1), m.group(2), m.group(3)
            kind = "invariant" if kind in ("invariant", "InvT") else "decreases"
            found = [i for i, l in enumerate(loops) if dash(l[0][0]) == dash(label)]
            if not found:
                left.append("\n".join(block))
                continue
            (old, new), names = loops[found[0]]
            clause = "\n".join(code[1:])
            cm = re.match(r"^(\S+)((?: [^\s=]+)*) =\s*", clause)
            args = cm.group(2).split()
            flags = changed[found[0]]
            order = [("l.initial." if f else "l.", n) for n, f in zip(names, flags)]
            order += [("l.", n) for n, f in zip(names, flags) if f]
            rhs = clause[cm.end() :]
            if len(args) != len(order):
                left.append("\n".join(block))
                continue
            table = {a: o[0] + o[1] for a, o in zip(args, order) if a != "_"}
            rhs = re.sub(r"(?<![\w.'’₀-])(" + "|".join(sorted(map(re.escape, table), key=len, reverse=True)) + r")(?![\w'’₀-])", lambda k: table[k.group(1)], rhs)
            new = prefix + new
            inv.append((comments + [f"abbrev pub {kind}-{new} : goal.{kind}-{new}"] + [f"{kind}-{new} l = {rhs}"]))
            renamed[name] = f"{kind}-{new}"
            continue
        m = re.match(r"^(abbrev )?(\S+) : (?:(.*) → )?tie\.Need-(\S+)", head)
        if m and not m.group(3):
            old = dash(old_needs[need_at]) if need_at < len(old_needs) else None
            need_at += 1
            new = by_old.get(old)
            if new is None and old:
                new = by_old.get(re.sub(r"-holds$", "-init", re.sub(r"-less$", "-smaller", re.sub(r"-again$", "-preserved", old))))
            rest = "\n".join(code[1:])
            rhs = re.sub(r"^\S+( [^=\n]*?)? =\s*", "", re.sub(r"(?m)^unfolding .*\n", "", rest), count=1).strip()
            cited = len(re.findall(r"(?<![\w.'’₀-])" + re.escape(m.group(2)) + r" (?:c\b|\w+\b)", "\n".join(l for b in blocks(body) for l in b if not l.startswith(m.group(2) + " ")))) > 0
            if rhs == "search rules" and not cited:
                pending = []
                continue
            if new is None:
                left.append("-- no goal: " + str(old) + "\n" + "\n".join(block))
                pending = []
                continue
            unf = [l for l in code[1:] if l.startswith("unfolding ")]
            clause = [l for l in code[1:] if not l.startswith("unfolding ")]
            first = re.sub(r"^\S+", prefix + new + (" t" if cycle else ""), clause[0]).replace(" κs", "", 1)
            ans.append((pending + comments, [f"pub {prefix}{new} : goal.{prefix}{new}"] + unf, [first] + clause[1:]))
            pending = []
            continue
        # a helper
        ans.append((pending + comments, None, code))
        pending = []
        hm = re.match(r"^(?:abbrev )?(\S+) : \((\w+) : tie\.([^\s)]+)", head)
        if hm and re.search(r"→ tie\.\S+", head) and re.search(r"= \w+(\.before)+$", "\n".join(code)):
            code[0] = re.sub(r"→ tie\.\S+", "→ tie." + hm.group(3), head)

    def paths(chunk):
        chunk = expanded(chunk, imported)

        def one(m):
            root, segs = m.group(1), m.group(2)[1:].split(".")
            if root == "c":
                out = root + fn.path(segs)
                if out.endswith("?"):
                    return "(opened " + out[:-1] + ")"
                return "(ap not " + out[:-1] + ")" if out.endswith("!") else out
            if root[0].islower() and not root.startswith("goal"):
                return root + "".join("." + (WORDS.get(s, s) if "-" in s else s) for s in segs)
            return m.group(0)
        out = PATH.sub(one, chunk)
        while re.search(r"\(\(([^()]*)\)\)", out):
            out = re.sub(r"\(\(([^()]*)\)\)", r"(\1)", out)
        out = re.sub(r"\(not-(?:true|false) [^\s()]+ \(ap not ([^\s()]+)\)\)", r"\1", out)
        out = re.sub(r"not-(?:true|false) [^\s()]+ \(ap not ([^\s()]+)\)", r"\1", out)
        def typed(m):
            named.add(fn.places.get(dash(m.group(1)), m.group(1)))
            return fn.places.get(dash(m.group(1)), m.group(1))
        return re.sub(r"tie\.([^\s()]+)((?: (?:" + ("|".join(map(re.escape, renamed)) or "!") + r"))*)", typed, out)

    named = set()
    imported = {w.strip() for l in uses for w in re.sub(r"^.*\{|\}.*$", "", l).split(",")}
    lines = []
    for comments, sig, clause in ans:
        if sig is None:
            lines += comments + paths("\n".join(clause)).split("\n") + [""]
        else:
            goal = sig[0].split()[1][len(prefix) :]
            body = paths("\n".join(clause))
            if goal.startswith("returns"):
                body = recorded(body, clauses(fn.name, "ensures"))
            for step, callee in fn.called.items():
                if goal.startswith(fn.steps[step] + "-requires") and not (several and callee.rsplit("::", 1)[0] == fn.name.rsplit("::", 1)[0] and callee.split("::")[-1] in path):
                    body = recorded(body, clauses(callee, "requires"))
            lines += comments + sig + body.split("\n") + [""]
    module = f"Rattle.{crate}.proofs.{path}"
    def write(name, module_name, rows):
        have = ""
        if several and os.path.exists(os.path.join(folder, name)):
            have = open(os.path.join(folder, name), encoding="utf-8").read()
        with open(os.path.join(folder, name), "w", encoding="utf-8") as f:
            f.write(have)
            places = [f"use {module}.Goals.{{{', '.join(sorted(named))}}}"] if named and module_name == "Goals" else []
            if any("(opened " in r for r in rows):
                places.append("use borrow.Enum.Refused.{opened}")
            if any("(ap not " in r for r in rows):
                places.append("use Rattle.std.proofs.Common.{ap, not}")
            f.write("\n".join(uses + [f"use {module}.{module_name} as goal"] + places + [""] + rows).rstrip("\n") + "\n")
    if inv:
        rows = []
        for block in inv:
            rows += block + [""]
        write("Invariants.antt", "Given", rows)
    if lines:
        write("Answers.antt", "Goals", lines)
    if not several:
        os.remove(os.path.join(folder, "Proof.antt"))
    if left:
        where = os.path.join(folder, "Answers.antt")
        have = open(where, encoding="utf-8").read() if os.path.exists(where) else "\n".join(uses + [f"use {module}.Goals as goal", ""])
        with open(where, "w", encoding="utf-8") as f:
            f.write(have + "\n" + "\n".join("-- left: " + l for b in left for l in b.split("\n")) + "\n")
        print(f"{folder}: {len(left)} left")


def main():
    crate, names, commit = sys.argv[1:4]
    only = sys.argv[4:]
    info = json.load(open(names, encoding="utf-8"))
    top = f"crates/{crate}/proofs"
    for folder, dirs, files in sorted(os.walk(top)):
        if "Proof.antt" not in files:
            continue
        rel = os.path.relpath(folder, top)
        path = rel.replace("/", ".")
        if only and path not in only:
            continue
        key = f"Rattle-{crate}-proofs.{path}.Lts"
        names_of = [k for k in info if k.startswith(f"Rattle-{crate}-proofs.{path}.Lts-")]
        if len(names_of) == 1:
            turn(folder, Function(info[names_of[0]], "::".join([crate, *path.replace("+", "").split(".")])), crate, path, git("show", f"{commit}:{folder}/Proof.antt"), dash(names_of[0].split(".Lts-")[1]))
            continue
        if len(names_of) > 1:
            for k in names_of:
                name = k.split(".Lts-")[1]
                was = [f for f in git("ls-tree", "-r", "--name-only", commit, top).split("\n") if re.search(r"/\+[^/]*/Proof.antt$", f)]
                turn(folder, Function(info[k], crate + "::" + name, True), crate, path, git("show", f"{commit}:{was[0]}"), dash(name), True)
            os.remove(os.path.join(folder, "Proof.antt"))
            continue
        if key not in info:
            print(f"{folder}: not in {names}")
            continue
        turn(folder, Function(info[key], "::".join([crate, *path.split(".")])), crate, path, git("show", f"{commit}:{folder}/Proof.antt"))


main()
