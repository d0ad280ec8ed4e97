"""How much machine stack the functions of a static library take, read off its machine code (x86-64, `objdump`)."""
import collections
import re
import subprocess

Instruction = collections.namedtuple("Instruction", "at word operands target")  # target: what a relocation names
Call = collections.namedtuple("Call", "callee depth")  # depth: bytes below the caller's return address when it is made

HEAD = re.compile(r"^([0-9a-f]+) <(.+)>:$")
SECTION = re.compile(r"^Disassembly of section (.+):$")
CODE = re.compile(r"^\s*([0-9a-f]+):\t(\S+(?: (?:cs|data16|rep\S*))*)\s*(.*?)\s*(?:#.*)?$")
RELOCATION = re.compile(r"^\s*[0-9a-f]+: R_X86_64_(\S+)\s+(.+?)([+-]0x[0-9a-f]+)?$")
SYMBOL = re.compile(r"^([0-9a-f]+) .{7} (\S+)\s+[0-9a-f]+ +(?:\.hidden )?(.+)$")
PADDING = re.compile(r"nop|int3|xchg|data16|cs|ud2")
ENDS = ("ret", "retq", "ud2", "hlt")


class Unknown(Exception):
    """Something that the reading does not cover."""


def objdump(*words):
    return subprocess.run(["objdump", *words], stdout=subprocess.PIPE, text=True, check=True).stdout


class Function:
    def __init__(self, name, section):
        self.name, self.section, self.code = name, section, []

    def fail(self, i, why):
        raise Unknown(f"{self.name} at {i.at:x}: {i.word} {i.operands}: {why}")

    def effect(self, i):
        """By how much an instruction lowers the stack pointer."""
        if re.fullmatch("pushq?", i.word):
            return 8
        if re.fullmatch("popq?", i.word) and i.operands != "%rsp":
            return -8
        m = re.fullmatch(r"(\$|-?)0x([0-9a-f]+)(?:\(%rsp\))?,%rsp", i.operands)
        if m and i.word in ("sub", "subq", "add", "addq", "lea"):
            n = int(m[2], 16) - (1 << 64 if m[2].startswith("ffffffff") else 0)
            return n if i.word.startswith("sub") or m[1] == "-" else -n
        changed = i.operands.endswith("%rsp") and i.word not in ("cmp", "test")
        if changed or i.word in ("leave", "enter", "pushf", "popf"):
            self.fail(i, "the stack pointer is changed in a way that is not understood")
        return 0

    def is_table(self, k):
        """Whether the jump at place k goes by a table of the function's own places, as a match is compiled."""
        return any(i.word == "movslq" and ",4)," in i.operands for i in self.code[max(0, k - 8) : k])

    def depths(self):
        """The depth before each instruction, and the depth at which it jumps by tables."""
        places = {i.at: k for k, i in enumerate(self.code)}
        depth, tables, left = {}, set(), [(0, 0)]
        while True:
            while left:
                k, d = left.pop()
                i = self.code[k]
                if depth.setdefault(k, d) != d:
                    self.fail(i, f"reached at two depths, {depth[k]} and {d}")
                after = d + self.effect(i)
                goes = re.fullmatch("j[a-z]+", i.word)
                if goes and i.operands.startswith("*"):
                    self.is_table(k) or self.fail(i, "a jump that is not by a table")
                    tables.add(after)
                elif goes and not i.target and int(i.operands.split()[0], 16) in places:
                    left.append((places[int(i.operands.split()[0], 16)], after))
                if i.word not in ENDS and i.word != "jmp" and k + 1 < len(self.code):
                    left.append((k + 1, after))
                left = [(j, e) for j, e in left if depth.get(j) != e]
            rest = [k for k, i in enumerate(self.code) if k not in depth and not PADDING.match(i.word)]
            if not rest:
                return depth
            if len(tables) != 1:
                self.fail(self.code[rest[0]], f"not reached, with tables at {len(tables)} depths")
            left = [(rest[0], *tables)]


class Library:
    def __init__(self, path):
        self.functions, self.starts, self.symbols = {}, {}, {}
        for line in objdump("-t", path).splitlines():
            m = SYMBOL.match(line)
            if m:
                self.symbols[m[3]] = (m[2], int(m[1], 16))
        function, section = None, ""
        for line in objdump("-dr", "--no-show-raw-insn", path).splitlines():
            if m := SECTION.match(line):
                section = m[1]
            elif m := HEAD.match(line):
                function = Function(m[2], section)
                self.functions[m[2]] = self.starts[(section, int(m[1], 16))] = function
            elif m := CODE.match(line):
                function.code.append(Instruction(int(m[1], 16), m[2], m[3], None))
            elif m := RELOCATION.match(line):
                function.code[-1] = function.code[-1]._replace(target=(m[1], m[2], m[3]))
        self.measured = {f.name: self.measure(f) for f in self.functions.values()}

    def callee(self, f, i):
        """The name of the function that an instruction calls or jumps to; a name outside the library as it is."""
        if i.target:
            _, name, by = i.target
            if by != "-0x4":
                f.fail(i, "a target inside a function")
            section, at = self.symbols.get(name, ("*UND*", 0))
            if section == "*UND*":
                return name
        else:
            section, at = f.section, int(i.operands.split()[0], 16)
        if (section, at) not in self.starts:
            f.fail(i, "a target that is no function")
        return self.starts[(section, at)].name

    def measure(self, f):
        """The most bytes that a function takes itself, its return address among them, and its calls."""
        most, calls, own = 8, [], {i.at for i in f.code}
        for k, d in f.depths().items():
            i = f.code[k]
            most = max(most, 8 + d + max(0, f.effect(i)))
            if i.word.startswith("call"):
                if i.operands.startswith("*"):
                    f.fail(i, "an indirect call")
                calls.append(Call(self.callee(f, i), 8 + d))
            elif re.fullmatch("j[a-z]+", i.word) and not i.operands.startswith("*"):
                if i.target or int(i.operands.split()[0], 16) not in own:  # a call in place of the return
                    calls.append(Call(self.callee(f, i), d))
        return most, calls
