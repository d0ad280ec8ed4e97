"""The case format of the oracle (oracle/README.md), read; and a case as antt text."""


class Case:
    def __init__(self, name, comments):
        self.name, self.comments = name, comments
        self.book, self.cache, self.queries, self.is_text = b"", b"", [], False

    def goals(self):
        """The header's number of goals, 0 where there is none."""
        try:
            return int(self.book[3:6])
        except ValueError:
            return 0


def read(text):
    """The cases of a file. A query is [goal, depth, work length, answer, refusal, cache afterwards or None]."""
    found, lines, i, comments, case = [], text.split(b"\n"), 0, [], None
    while i < len(lines):
        line = lines[i]
        i += 1
        if line.startswith(b"#"):
            comments.append(line[1:].strip().decode())
            continue
        word, rest = line[:1], line[2:]
        if word == b"b":
            case = Case(rest.decode(), comments)
            found.append(case)
        elif word == b"t":
            case.book = b"".join(l + b"\n" for l in lines[i:i + int(rest)])
            case.is_text = True
            i += int(rest)
        elif word == b"x":
            case.book = bytes.fromhex(rest.decode())
        elif word == b"z":
            case.cache = bytes(int(rest))
        elif word == b"c":
            case.cache = bytes.fromhex(rest.decode())
        elif word == b"q":
            case.queries.append([int(x) for x in rest.split()] + [None])
        elif word == b"k":
            case.queries[-1][5] = bytes.fromhex(rest.decode())
        elif word == b"p":
            raise SystemExit("the original panics in case %s" % case.name)
        comments = []
    return found


def number(bs):
    """Bytes as one number, for `bytes` of crates/definition/proofs/Example.antt."""
    return "bytes %d 0x%s" % (len(bs), bs[::-1].hex() or "0")


def expected(case, seen):
    """The queries as records `Expected`; of the workspace all bytes are compared after the first query, and `seen` after the others."""
    cache, rows = case.cache, []
    for goal, depth, work, answer, refusal, after in case.queries:
        cache = cache if after is None else after
        rows.append("record { goal = %d; depth = %d; work_length = %d; answer = %d; refusal = %d; work_byte = %d; work_seen = %d; cache = %s }"
                    % (goal, depth, work, answer, refusal, 7 if 1 <= refusal <= 9 else 0, min(work, seen if rows else work), number(cache)))
    return rows
