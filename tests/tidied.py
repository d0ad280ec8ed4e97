"""Calls that tidy a book (document 02, item 1), with what the oracle makes of them; and a call as antt text."""
from collections import Counter

import cases

MOST_BYTES = 640  # of a book
REFUSED = [1, 2, 3, 4, 14]

HEAD = """-- Made by tests/definition.
use Prim.Native.Nat.{ℕ}
use mathlib.Core.Path.{◌≡◌, refl}
use mathlib.Core.List.{List, ◌∷◌}
use Rattle.definition.proofs.Example.{bytes}
use Rattle.tidy.specs.Reply.{Reply, response_code, tidy}

-- what the C function returns, then the output
abbrev told : Reply → List ℕ
told r = response_code r.response ∷ r.out
"""


class Call:
    def __init__(self, name, book, out):
        self.name, self.book, self.out = name, book, out
        self.code, self.after = None, None

    def refusal(self):
        return self.code // 65536

    def changed(self):
        return self.refusal() == 0 and self.after != self.book

    def output(self):
        """How the output is, where it is not as long as the book."""
        return "empty" if not self.out else "shorter" if len(self.out) < len(self.book) else "longer"


def output(book, k):
    """The output of the k-th book: of twenty, one each is empty, shorter by a byte or a line, and longer by as much."""
    by = (1, 16)[k // 20 % 2]
    length = {17: 0, 18: max(len(book) - by, 0), 19: len(book) + by}.get(k % 20, len(book))
    return bytes(128 + i % 128 for i in range(length))


def told(oracle, calls, reading):
    """The calls with codes and outputs filled in."""
    given = "".join("%s %s\n" % (c.book.hex(), c.out.hex()) for c in calls)
    lines = oracle("tidied", *(["--reading", reading] if reading else []), given=given.encode()).decode().splitlines()
    for call, line in zip(calls, lines, strict=True):
        code, after = line.split(" ")
        call.code, call.after = int(code), bytes.fromhex(after)
    return calls


def some(oracle, count, seed, reading=None):
    """Four of five are drafts; the others are refused, each number as often, mostly with an output for 14 too."""
    if count == 0:
        return []

    def of_class(name, made, turn):
        small = [c for c in cases.read(oracle("gen", name, str(seed), str(made))) if len(c.book) <= MOST_BYTES]
        return told(oracle, [Call(c.name, c.book, output(c.book, turn(k))) for k, c in enumerate(small)], reading)

    each = -(-count // 20)
    damaged = of_class("damaged-book", 40 * each + 100, lambda k: 17 + k % 4)
    refused = [c for number in REFUSED[:4] for c in [c for c in damaged if c.refusal() == number][:each]]
    return (refused + of_class("drafts", 4 * count, lambda k: k))[:count]


def lacking(asked, calls):
    """What there is too little of, in words; None where there is enough, or nothing was asked for."""
    if len(calls) < asked:
        return "%d tidied books, fewer than the %d asked for" % (len(calls), asked)
    if not asked:
        return None
    refused = Counter(c.refusal() for c in calls)
    outputs = {c.output() for c in calls if c.refusal() == 14}
    missing = [what for what, there in [
        ("is changed by tidying", any(c.changed() for c in calls)),
        ("is plain already", any(c.refusal() == 0 and not c.changed() for c in calls)),
        *[("is refused by %d" % number, refused[number]) for number in REFUSED],
        *[("has an output that is refused and %s" % how, how in outputs) for how in ("empty", "shorter", "longer")],
    ] if not there]
    return "no book " + ", ".join(missing) if missing else None


def theorem(k, call):
    return ("\n-- %s\ncase%d : told (tidy (%s) (%s)) ≡ %d ∷ %s\ncase%d = refl\n"
            % (call.name, k, cases.number(call.book), cases.number(call.out), call.code, cases.number(call.after), k))
