#!/usr/bin/env python3
"""Spells the definitions and lemmas of this repository in snake case: each name that a file of specs/ or proofs/ declares.

usage: python3 tools/respell.py [--table]      at the top; --table prints the rows, old and new, and writes nothing

A dash between two small words becomes an underscore, and a hump as in 'frontOf' too. A type keeps its capital, and the dash beside
it, as in 'AllBytes-append'. Comments turn in code spans, and where the name has a hump. Strings stay. A name stays where its new
spelling stands in a file that has the old one; the script says so. It was run once, before any proof had the names of goals.
"""

import glob
import re
import sys

DECLARED = re.compile(
    r"^( *)((?:(?:pub|abbrev|unfoldable|record|data|mutual) +)*)([^\s(){}.;,@\"«»:]+)((?: \{[^{}\n]*\}| \([^()\n]*\))*) :(?= |$)", re.M
)
WORD = re.compile(r"[^\s(){}.;,@\"«»:\[\]`]+")
QUIET = re.compile(r'"(?:[^"\\\n]|\\.)*"|--[^\n]*|//[^\n]*')
SPAN = re.compile(r"`[^`\n]*`")
GHOST_USE = re.compile(r"ghost use [^;]*;")
USE = re.compile(r"^ *(?:ghost )?use (\S+?)\.\{([^}]*)\}", re.M)
# Labels that the prover makes or asks for.
MADE = re.compile(r"(?:invariant|decreases|ghost|loop|returns|goal)-|.*-(?:requires|ensures|preserved|initially)$")


def spelled(name):
    if not name[:1].islower() or MADE.match(name):
        return name
    parts = name.split("-")
    parts = [re.sub(r"(?<=[a-z0-9])[A-Z]", lambda m: "_" + m[0].lower(), p) if p[:1].islower() else p for p in parts]
    new = parts[0]
    for a, b in zip(parts, parts[1:]):
        new += ("_" if re.match(r"[a-z0-9]", b) and re.search(r"[a-z0-9']$", a) and not re.match(r"[A-Z]", a) else "-") + b
    return new


def files():
    got = []
    for kind in ("specs", "proofs"):
        got += glob.glob(f"crates/*/{kind}/**/*.antt", recursive=True)
    return sorted(got + glob.glob("crates/*/src/**/*.rt", recursive=True))


def foreign(text):
    """The names that a text imports from a library: they stay in it."""
    own = tuple(f"Rattle.{c[7:]}." for c in glob.glob("crates/*"))
    lists = [m[2] for m in USE.finditer(text) if not m[1].startswith(own)]
    return {n.strip().split(" as ")[-1] for names in lists for n in names.split(",")}


def turned(text, table, code):
    def words(s):
        def word(m):
            # A name that is spelled like one of the source turns alone: not in a path, not in code.
            if re.fullmatch(r"\w+", m[0]) and not re.search("[A-Z]", m[0]) and (code or s[: m.start()][-1:] == "." or s[m.end() :][:1] == "."):
                return m[0]
            return table.get(m[0], m[0])

        return WORD.sub(word, s)

    def quiet(s):
        if s[0] == '"':
            return s
        s = SPAN.sub(lambda m: words(m[0]), s)
        return WORD.sub(lambda m: table[m[0]] if m[0] in table and re.search("[A-Z]", m[0]) and "-" not in m[0] else m[0], s)

    out, at = [], 0
    for m in QUIET.finditer(text):
        out += [words(text[at : m.start()]), quiet(m[0])]
        at = m.end()
    return "".join(out + [words(text[at:])])


def main(argv):
    texts = {p: open(p, encoding="utf-8").read() for p in files()}
    same = {}
    for p, t in texts.items():
        if p.endswith(".antt"):
            for m in DECLARED.finditer(t):
                same.setdefault(spelled(m[3]), set()).add(m[3])
    # Of names that fall together one keeps the plain spelling, a definition with a hump before the others; a law beside it is '.._lem'.
    table = {}
    for new, olds in same.items():
        humps = sorted(o for o in olds if re.search("[a-z0-9][A-Z]", o))
        firsts = humps[:1] or [new]
        for old in sorted(olds):
            to = new if old in firsts or not olds & set(firsts) else new + "_lem"
            if to != old:
                table[old] = to
    kept = {}
    for p, t in texts.items():
        t = QUIET.sub(" ", t)
        if p.endswith(".rt"):
            t = " ".join(GHOST_USE.findall(t))
        has = {m[0] for m in WORD.finditer(t) if t[m.end() :][:1] != "." and t[: m.start()][-1:] != "."}
        new = {}
        for old in sorted(has & set(table)):
            if table[old] in has - set(table) or table[old] in new:
                kept[old] = p
            new[table[old]] = old
    for old in sorted(kept):
        print(f"stays: {old}, beside {table.pop(old)} in {kept[old]}", file=sys.stderr)
    if argv == ["--table"]:
        print("\n".join(f"{a}\t{b}" for a, b in sorted(table.items())))
        return
    for p, t in texts.items():
        lent = foreign(t)
        n = turned(t, {a: b for a, b in table.items() if a not in lent}, p.endswith(".rt"))
        if n != t:
            with open(p, "w", encoding="utf-8") as f:
                f.write(n)


if __name__ == "__main__":
    main(sys.argv[1:])
