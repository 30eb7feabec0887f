#!/usr/bin/env python3
"""Makes the built-in grammar from the files of the crate rspirv 0.11.0+1.5.4.

    tools/make_table.py SRC                  write Table.antt to standard output
    tools/make_table.py SRC --bytes          write the raw grammar bytes instead
    tools/make_table.py SRC --code           write the function that holds them, run.rt, instead
    tools/make_table.py SRC --index          write the function that holds its index, index.rt, instead
    tools/make_table.py SRC --check FILE     compare FILE with what would be written

SRC is the folder with the crate's sources. Four files of it are read:

    binary/assemble.rs                 the operand kinds, numbered in this order
    grammar/autogen_table.rs           the rows and their operands
    binary/autogen_parse_operand.rs    the parameters of enumerants
    spirv/autogen_spirv.rs             opcodes and enumerants (from the crate spirv 0.2.0+1.5.4)

The counts and the sha256 of the bytes are tested before anything is written.

Exit status: 0 written, or FILE is the same; 1 FILE differs; 2 bad usage, or the files of SRC
are missing or are not those of this version.
"""

import argparse
import collections
import hashlib
import pathlib
import re
import struct
import sys
import textwrap

# An item of the grammar: its first byte, and the layout of all its bytes.
LAYOUT = {
    "row": (1, "<BH"),  # opcode
    "operand": (2, "<BBB"),  # operand kind, quantifier
    "enumerant": (3, "<BBI"),  # operand kind, value
    "parameter": (4, "<BB"),  # operand kind
}

QUANTIFIERS = {"One": 0, "ZeroOrOne": 1, "ZeroOrMore": 2}

# The operand kinds that only rows use, numbered after the arms of `Operand`.
ROW_KINDS = [
    "IdResultType",
    "IdResult",
    "LiteralContextDependentNumber",
    "PairLiteralIntegerIdRef",
    "PairIdRefLiteralInteger",
    "PairIdRefIdRef",
]

# What has to come out.
COUNTS = {"row": 560, "operand": 2139, "enumerant": 662, "parameter": 91}
LENGTH = 12251
SHA256 = "a08b6128193e82a7c26b075284a7a6f1903afaf5d706d899302669e2993150b2"

HEAD = """\
-- The built-in grammar (SPIR-V 1.5 revision 4), item by item: every row with its operands, then kind by kind
-- every enumerant with its parameters. Quantifiers: 0 One, 1 ZeroOrOne, 2 ZeroOrMore. The names are the crate's.
-- Made by tools/make_table.py from the files of the crate rspirv 0.11.0+1.5.4. Not to be changed by hand.
use Rattle.std.specs.Prelude.{List, [], ◌∷◌}
use Rattle.spec.specs.Grammar.{Item, row, operand, enumerant, parameter}

-- the built-in grammar's items
unfoldable pub table : List Item
table =
"""


CODE = """\
// The built-in grammar's bytes. Made by tools/make_table.py from the files of the crate rspirv 0.11.0+1.5.4. Not to be
// changed by hand.
ghost use Rattle.std.specs.Prelude.{◌≡◌};
ghost use Rattle.spec.specs.Builtin.{builtin};

// The built-in grammar as one run of bytes, lent from where it lies in the program.
pub fn bytes() -> &'static [u8; %d]
    ensures { result.now ≡ builtin }
{
    b"\\
%s"
}

// The same bytes as a value.
pub fn table() -> [u8; %d]
    ensures { result ≡ builtin }
{
    *bytes()
}
"""

INDEX = """\
// The built-in grammar's index, prepared. Made by tools/make_table.py from the files of the crate rspirv 0.11.0+1.5.4. Not to be
// changed by hand.
ghost use Rattle.spec.specs.Builtin.{builtin};
ghost use Rattle.grammar.specs.Index.{Indexed};

static INDEX: [u16; %d] = [
%s
];

// The index of the built-in grammar, lent from where it lies in the program: guesses, the count of rows and enumerants, and their
// places.
pub fn prepared() -> &'static [u16; %d]
    ensures { Indexed builtin result.now }
{
    &INDEX
}
"""

# How many guesses an index begins with: one for each opcode below 512, and 1,024 that all else shares.
OPCODES, SHARED = 512, 1024


def fail(message):
    """Ends the program with exit status 2."""
    print(f"{pathlib.Path(sys.argv[0]).stem}: {message}", file=sys.stderr)
    sys.exit(2)


def expect(what, found, wanted):
    """Ends the program unless `found` is what is wanted."""
    if found != wanted:
        fail(f"{what}: found {found}, expected {wanted}")


def read_kinds(assemble):
    """The number of each operand kind: the arms of `Operand` from 1 on, then the kinds of rows."""
    arms = re.findall(r"dr::Operand::(\w+)\(", assemble)
    expect("arms of Operand", len(arms), 45)
    return {name: number for number, name in enumerate(arms + ROW_KINDS, start=1)}


def read_values(spirv):
    """For each mask and each enum, its names with their values; a name's aliases come after it."""
    values = {}
    for kind, body in re.findall(r"pub (?:struct|enum) (\w+) (?:: u32 )?\{([^}]*)\}", spirv):
        values[kind] = {name: int(value) for name, value in re.findall(r"(\w+) = (\d+)u32", body)}
    for kind, body in re.findall(r"^impl (\w+) \{\n(.*?)^\}", spirv, re.S | re.M):
        for alias, name in re.findall(r"pub const (\w+): \w+ =\s+\w+::(\w+);", body):
            values[kind][alias] = values[kind][name]
    return values


def read_rows(table, opcodes):
    """For each opcode, its name and operands. Where two rows have one opcode, the crate finds the first."""
    rows = {}
    lists = r"\s*\[[^]]*\],\s*\[[^]]*\],\s*\[([^]]*)\]"  # capabilities, extensions, operands
    for name, operands in re.findall(r"inst!\(\s*(\w+)," + lists, table):
        rows.setdefault(opcodes[name], (name, re.findall(r"\((\w+), (\w+)\)", operands)))
    return rows


def read_parameters(parse, values):
    """For each (kind, value) that has parameters, their kinds: the functions parse_*_arguments."""
    parameters = {}
    functions = r"fn parse_\w+_arguments\([^)]*: spirv::(\w+),\n(.*?)\n    \}\n"
    for kind, body in re.findall(functions, parse, re.S):
        arm = rf"spirv::{kind}::(\w+)(.*?)(?=spirv::{kind}::|\Z)"
        found = [(values[kind][name], code) for name, code in re.findall(arm, body, re.S)]
        order = [value for value, _ in found]
        expect(f"order of the parameters of {kind}", order, sorted(set(order)))
        for value, code in found:
            parameters[kind, value] = re.findall(r"dr::Operand::(\w+)\(", code)
    return parameters


def first_names(names):
    """For each value, the first of its names."""
    return {value: name for name, value in reversed(names.items())}


def read(folder, name):
    """The text of a file."""
    return (folder / name).read_text(encoding="utf-8")


def make_lines(src):
    """The grammar as lines: the items of each, perhaps none, and the words that stand beside them."""
    kinds = read_kinds(read(src, "binary/assemble.rs"))
    values = read_values(read(src, "spirv/autogen_spirv.rs"))
    rows = read_rows(read(src, "grammar/autogen_table.rs"), values["Op"])
    parameters = read_parameters(read(src, "binary/autogen_parse_operand.rs"), values)

    lines = []
    in_rows = kinds | {"LiteralInteger": kinds["LiteralInt32"]}  # one kind, with another name in rows
    for opcode, (name, operands) in sorted(rows.items()):
        items = [("operand", in_rows[kind], QUANTIFIERS[quantifier]) for kind, quantifier in operands]
        lines.append(([("row", opcode)] + items, name))

    for kind, number in kinds.items():
        lines.append(([], f"kind {number}, {kind}" + ("" if kind in values else ": no enumerants")))
        for value, name in sorted(first_names(values.get(kind, {})).items()):
            items = [("parameter", kinds[parameter]) for parameter in parameters.get((kind, value), [])]
            lines.append(([("enumerant", number, value)] + items, name))
    return lines


def make_bytes(lines):
    """The grammar bytes, numbers low byte first. They are what is expected."""
    items = [item for line, _ in lines for item in line]
    made = b"".join(struct.pack(LAYOUT[name][1], LAYOUT[name][0], *numbers) for name, *numbers in items)
    expect("items", dict(collections.Counter(name for name, *_ in items)), COUNTS)
    expect("bytes", len(made), LENGTH)
    expect("sha256", hashlib.sha256(made).hexdigest(), SHA256)
    return made


def make_text(lines):
    """The file Table.antt."""
    made = HEAD
    for items, words in lines:
        shown = "".join(" ".join(map(str, item)) + " ∷ " for item in items)
        made += f"    {shown}{' ' if items else ''}-- {words}\n"
    return (made + "    []\n").encode("utf-8")


def make_code(raw):
    """The file run.rt, with 24 bytes to a line."""
    shown = ["".join(f"\\x{byte:02x}" for byte in raw[at : at + 24]) for at in range(0, len(raw), 24)]
    return (CODE % (len(raw), "\\\n".join(shown), len(raw))).encode("utf-8")


def guess_place(kind, value):
    """Where the guess for a row (kind 0, its opcode as value) or an enumerant stands: as grammar's index has it."""
    return value if kind == 0 and value < OPCODES else OPCODES + (kind * 116 + value) % SHARED


def make_index(lines):
    """The file index.rt: guesses of the rank to look at first, then the count of rows and enumerants and their places."""
    guesses, places, at = [0] * (OPCODES + SHARED), [], 0
    for name, *numbers in (item for line, _ in lines for item in line):
        if name in ("row", "enumerant"):
            kind, value = [0, *numbers][-2:]
            guesses[guess_place(kind, value)] = len(places)
            places.append(at)
        at += struct.calcsize(LAYOUT[name][1])
    made = guesses + [len(places)] + places
    # as the layout has it: lines of 99 at most
    numbers = ", ".join(map(str, made)) + ","
    shown = textwrap.fill(numbers, 99, initial_indent="    ", subsequent_indent="    ")
    return (INDEX % (len(made), shown, len(made))).encode("utf-8")


def deliver(made, check, source, counted):
    """Writes what is made, or says whether a file is the same."""
    if check is None:
        sys.stdout.buffer.write(made)
    elif check.read_bytes() == made:
        print(f"{check}: the same; {counted}")
    else:
        print(f"{check}: not what is made from {source}")
        sys.exit(1)


def main():
    usage = argparse.ArgumentParser(description=__doc__, formatter_class=argparse.RawDescriptionHelpFormatter)
    usage.add_argument("src", metavar="SRC", type=pathlib.Path)
    form = usage.add_mutually_exclusive_group()
    form.add_argument("--bytes", action="store_true")
    form.add_argument("--code", action="store_true")
    form.add_argument("--index", action="store_true")
    usage.add_argument("--check", metavar="FILE", type=pathlib.Path)
    asked = usage.parse_args()
    try:
        lines = make_lines(asked.src)
        raw = make_bytes(lines)
        if asked.bytes:
            made = raw
        elif asked.code:
            made = make_code(raw)
        elif asked.index:
            made = make_index(lines)
        else:
            made = make_text(lines)
        counts = ", ".join(f"{count} {name}s" for name, count in COUNTS.items())
        deliver(made, asked.check, asked.src, f"{LENGTH} bytes, {counts}")
    except OSError as problem:
        fail(problem)
    except KeyError as name:
        fail(f"the name {name} has no number")


if __name__ == "__main__":
    main()
