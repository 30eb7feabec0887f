#!/usr/bin/env python3
"""Makes what the program crates/fittings reads and must write from the table of fittings.

    tools/make_fittings.py             write crates/fittings/stdin and crates/fittings/stdout
    tools/make_fittings.py --check     compare them with what would be written

The table is crates/spec/specs/Fittings.antt: its definitions between THE TABLE and THE STATEMENT are read and worked out as they
stand there. stdin is each module as a byte that is its length, then its bytes. stdout is a line for each: its number; number, offset,
index and value; the header words; the counts; the four stores.

Exit status: 0 written, or both are the same; 1 one differs; 2 bad usage, or the table is not as expected.
"""

import pathlib
import re
import sys

ROOT = pathlib.Path(__file__).resolve().parent.parent
TABLE = ROOT / "crates/spec/specs/Fittings.antt"
CRATE = ROOT / "crates/fittings"
COUNT = 14


def bytes_of(word):
    return list(word.to_bytes(4, "little"))


# What the table cites of other files of the definition, and of the library.
KNOWN = {
    "ascii": (1, lambda text: list(text.encode("ascii"))),
    "bytes_of": (1, bytes_of),
    "long_bytes": (1, lambda v: list(v.to_bytes(8, "little"))),
    "joined": (2, lambda f, xs: [b for x in xs for b in apply(f, [x])]),
    "take": (2, lambda n, xs: xs[:n]),
    "no_words": (0, lambda: [0] * 5),
    "counts": (4, lambda *c: list(c)),
    "lent": (4, lambda *s: dict(zip(("instructions", "log", "strings", "types"), s))),
    "fitting": (2, lambda s, x: (s, x)),
    "true": (0, lambda: True),
    "false": (0, lambda: False),
    "[]": (0, lambda: []),
}


def apply(function, arguments):
    arity, body = function
    if len(arguments) != arity:
        raise ValueError("arguments")
    return body(*arguments)


class Term:
    """One right-hand side, worked out with the names that it cites."""

    def __init__(self, tokens, names):
        self.tokens, self.names, self.at = tokens, names, 0

    def peek(self):
        return self.tokens[self.at] if self.at < len(self.tokens) else None

    def take(self, token=None):
        found = self.peek()
        if found is None or token not in (None, found):
            raise ValueError(f"{token} expected, {found} found")
        self.at += 1
        return found

    def whole(self):
        value = self.sum()
        if self.peek() is not None:
            raise ValueError(f"{self.peek()} left")
        return value

    def sum(self):
        left = self.application()
        if self.peek() == "∷":
            self.take()
            return [left] + self.sum()
        if self.peek() == "++":
            self.take()
            return left + self.sum()
        return left

    def application(self):
        head, arguments = self.atom(), []
        while self.peek() not in (None, ")", "}", ";", "∷", "++"):
            arguments.append(self.atom())
        if isinstance(head, tuple) and callable(head[-1]):
            return apply(head, arguments) if arguments or head[0] == 0 else head
        if arguments:
            raise ValueError("no function")
        return head

    def atom(self):
        token = self.take()
        if token == "(":
            value = self.sum()
            self.take(")")
            return value
        if token == "record":
            return self.record()
        if token[0].isdigit():
            return int(token, 0)
        if token[0] == '"':
            return token[1:-1]
        value = self.names[token]
        return value[1]() if isinstance(value, tuple) and value[0] == 0 else value

    def record(self):
        fields = {}
        self.take("{")
        while self.peek() != "}":
            name = self.take()
            self.take("=")
            fields[name] = self.sum()
            if self.peek() == ";":
                self.take()
        self.take("}")
        return fields


def defined(names, parameters, tokens):
    return len(parameters), lambda *values: Term(tokens, {**names, **dict(zip(parameters, values))}).whole()


def table():
    text = TABLE.read_text()
    text = text[text.index("-- THE TABLE") : text.index('-- "Fitting 6 prints')]
    text = re.sub(r"--.*", "", text)
    names = dict(KNOWN)
    for piece in re.split(r"(?m)^(?:abbrev|unfoldable) pub .*$", text)[1:]:
        left, right = piece.split("=", 1)
        name, *parameters = left.split()
        names[name] = defined(names, parameters, re.findall(r"[(){};]|[^\s(){};]+", right))
    return names["fittings"][1]()


def stdin(fittings):
    return b"".join(bytes([len(module)]) + bytes(module) for module, _ in fittings)


def stdout(fittings):
    lines = []
    for index, (_, shown) in enumerate(fittings, 1):
        said, stores = shown["said"], shown["stores"]
        parts = [[said[k] for k in ("number", "offset", "index", "value")], said["header"], said["counts"]]
        parts.append([int(said["plain"]), said["breaks"]])
        parts += [stores[k] for k in ("instructions", "log", "strings", "types")]
        lines.append(f"{index}:" + " |".join("".join(f" {n}" for n in part) for part in parts) + "\n")
    return "".join(lines).encode()


def main():
    if sys.argv[1:] not in ([], ["--check"]):
        print(__doc__, file=sys.stderr)
        return 2
    try:
        fittings = table()
        if len(fittings) != COUNT:
            raise ValueError(f"{len(fittings)} fittings")
        made = {CRATE / "stdin": stdin(fittings), CRATE / "stdout": stdout(fittings)}
    except (OSError, KeyError, ValueError, TypeError, IndexError) as e:
        print(f"{TABLE}: not as expected: {e!r}", file=sys.stderr)
        return 2
    status = 0
    for path, content in made.items():
        if len(sys.argv) == 1:
            path.write_bytes(content)
        elif not path.is_file() or path.read_bytes() != content:
            print(f"{path} is not what the table says", file=sys.stderr)
            status = 1
    return status


if __name__ == "__main__":
    sys.exit(main())
