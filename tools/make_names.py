#!/usr/bin/env python3
"""Makes the names of the listing from the files of the crate rspirv 0.11.0+1.5.4.

    tools/make_names.py SRC OTHER                  write NameTable.antt to standard output
    tools/make_names.py SRC OTHER --bytes          write the run of bytes instead
    tools/make_names.py SRC OTHER --code           write the function that holds it, run.rt, instead
    tools/make_names.py SRC OTHER --index          write the function that holds its index, index.rt, instead
    tools/make_names.py SRC OTHER --check FILE     compare FILE with what would be written

SRC is the folder with the crate's sources, as for tools/make_table.py. Three files of it are read:

    binary/assemble.rs                 the operand kinds, numbered in this order
    grammar/autogen_table.rs           the names of opcodes
    spirv/autogen_spirv.rs             enumerants and the two sets of extended instructions (from the crate spirv 0.2.0+1.5.4)

OTHER is a folder with the one file that was not published with them:

    binary/autogen_disas_operand.rs    the names of mask bits

That an opcode has the same name in the grammar's table and in `spirv::Op`, and the count and the sha256 of what is made, are tested
before anything is written.

Exit status: 0 written, or FILE is the same; 1 FILE differs; 2 bad usage, or the files are missing or are not those of this version.
"""

import argparse
import hashlib
import pathlib
import re
import struct
import sys
import textwrap

sys.dont_write_bytecode = True  # the import leaves no file beside the tools
from make_table import deliver, expect, fail, first_names, read, read_kinds, read_rows, read_values

# The set of the opcodes, and those of extended instructions with the enums that have them. Other sets are operand kinds.
OPCODES = 0
EXTENDED = {"GLSL.std.450": (46, "GLOp"), "OpenCL.std": (47, "CLOp")}
SETS = 48

# How many slots the index has, after a number for each set: as few as `make_shifts` can do with.
SLOTS = 3021

# What has to come out.
COUNT = 1466
LENGTH = 32077
SHA256 = "73778c427cc517311fcae2f28a6b51d9f410372755ae1636e5f158cccac389cb"

HEAD = """\
-- The names that the listing prints, set by set and number by number: opcodes (set 0), the enumerants of each operand kind (its number) and
-- the extended instructions of GLSL.std.450 (46) and OpenCL.std (47). A mask has a name for each bit, and None for 0; a bit that the grammar
-- has under two names has both.
-- Made by tools/make_names.py from the files of the crate rspirv 0.11.0+1.5.4. Not to be changed by hand.
use Rattle.std.specs.Prelude.{ℕ, List, [], ◌∷◌}
use Prim.Native.String.{String}
use Rattle.spec.specs.Base.{ascii}

-- a name: its set, its number there, and its text
pub record Name : Type 0 where
  pub set : ℕ
  pub number : ℕ
  pub text : List ℕ

-- a name by its parts
abbrev pub name : ℕ → ℕ → String → Name
name s n t = record { set = s; number = n; text = ascii t }

-- the names, rising by set and number
unfoldable pub name_table : List Name
name_table =
"""

CODE = """\
// The names as bytes, a line for each. Made by tools/make_names.py from the files of the crate rspirv 0.11.0+1.5.4. Not to be changed by
// hand.
ghost use Rattle.std.specs.Prelude.{◌≡◌};
ghost use Rattle.lookup.specs.Run.{name_run};

// The names as one run of bytes, lent from where it lies in the program: of each its set, its number, the length of its text, and its
// text.
pub fn bytes() -> &'static [u8; %d]
    ensures { result.now ≡ name_run }
{
    b"\\
%s"
}

// The same bytes as a value.
pub fn table() -> [u8; %d]
    ensures { result ≡ name_run }
{
    *bytes()
}
"""

INDEX = """\
// The index of the names, prepared. Made by tools/make_names.py from the files of the crate rspirv 0.11.0+1.5.4. Not to be changed by hand.
ghost use Rattle.lookup.specs.Run.{name_run, Indexed};

static INDEX: [u16; %d] = [
%s
];

// The index of the names, lent from where it lies in the program: a shift for each set, then slots with places.
pub fn prepared() -> &'static [u16; %d]
    ensures { Indexed name_run result.now }
{
    &INDEX
}
"""


def read_bits(disassemble, values):
    """For each mask, the text of each bit, where it has two names both; and None for 0."""
    masks = {}
    bodies = r"impl Disassemble for spirv::(\w+) \{(.*?)\n\}"
    for kind, body in re.findall(bodies, disassemble, re.S):
        texts = {0: "None"}
        for constant, name in re.findall(r"::(\w+)\) \{\s*bits\.push\(\"(\w+)\"\)", body):
            value = values[kind][constant]
            texts[value] = f"{texts[value]}|{name}" if value in texts else name
        expect(f"order of the bits of {kind}", list(texts), sorted(texts))
        expect(f"bits of {kind}", set(texts), {0, *values[kind].values()})
        masks[kind] = texts
    return masks


def make_sets(src, other):
    """The sets in their order: the number of each, what it is, and its texts by number."""
    kinds = read_kinds(read(src, "binary/assemble.rs"))
    values = read_values(read(src, "spirv/autogen_spirv.rs"))
    rows = read_rows(read(src, "grammar/autogen_table.rs"), values["Op"])
    masks = read_bits(read(other, "binary/autogen_disas_operand.rs"), values)

    opcodes = {opcode: name for opcode, (name, _) in rows.items()}
    expect("opcodes whose name is another in spirv::Op", opcodes.items() ^ first_names(values["Op"]).items(), set())
    made = [(OPCODES, "opcodes", opcodes)]
    for kind, number in kinds.items():
        if kind in values:
            made.append((number, f"kind {number}, {kind}", masks.get(kind) or first_names(values[kind])))
    for name, (number, enum) in EXTENDED.items():
        made.append((number, f"extended instructions of {name}", first_names(values[enum])))
    return [(number, words, dict(sorted(texts.items()))) for number, words, texts in made]


def make_text(sets):
    """The file NameTable.antt."""
    made = HEAD
    for number, words, texts in sets:
        made += f"    -- {words}\n"
        made += "".join(f'    name {number} {value} "{text}" ∷\n' for value, text in texts.items())
    return (made + "    []\n").encode("utf-8")


def make_items(sets):
    """The names one after the other: the bytes before each text, and the text."""
    items = [
        (struct.pack("<BIB", number, value, len(text)), text) for number, _, texts in sets for value, text in texts.items()
    ]
    expect("names", len(items), COUNT)
    return items


def make_bytes(items):
    """The run of bytes. It is what is expected."""
    made = b"".join(key + text.encode("ascii") for key, text in items)
    expect("bytes", len(made), LENGTH)
    expect("sha256", hashlib.sha256(made).hexdigest(), SHA256)
    return made


def make_code(items):
    """The file run.rt."""
    shown = ["".join(f"\\x{byte:02x}" for byte in key) + text for key, text in items]
    return (CODE % (LENGTH, "\\\n".join(shown), LENGTH)).encode("utf-8")


def make_shifts(sets):
    """For each set how far its numbers are shifted, so that no two names have one slot: large sets first, each as little as will do."""
    shifts, used = [0] * SETS, set()
    for number, _, texts in sorted(sets, key=lambda one: -len(one[2])):
        def slots(shift):
            return {(shift + value) % SLOTS for value in texts}

        shifts[number] = next(s for s in range(SLOTS) if len(slots(s)) == len(texts) and not slots(s) & used)
        used |= slots(shifts[number])
    return shifts


def make_index(sets, items):
    """The file index.rt: a shift for each set, then for each slot the place of its name, or 0."""
    shifts = make_shifts(sets)
    slots, at = [0] * SLOTS, 0
    for key, text in items:
        number, value, _ = struct.unpack("<BIB", key)
        slots[(shifts[number] + value) % SLOTS] = at
        at += len(key) + len(text)
    made = shifts + slots
    # as the layout has it: lines of 99 at most
    numbers = ", ".join(map(str, made)) + ","
    shown = textwrap.fill(numbers, 99, initial_indent="    ", subsequent_indent="    ")
    return (INDEX % (len(made), shown, len(made))).encode("utf-8")


def main():
    usage = argparse.ArgumentParser(description=__doc__, formatter_class=argparse.RawDescriptionHelpFormatter)
    usage.add_argument("src", metavar="SRC", type=pathlib.Path)
    usage.add_argument("other", metavar="OTHER", type=pathlib.Path)
    form = usage.add_mutually_exclusive_group()
    form.add_argument("--bytes", action="store_true")
    form.add_argument("--code", action="store_true")
    form.add_argument("--index", action="store_true")
    usage.add_argument("--check", metavar="FILE", type=pathlib.Path)
    asked = usage.parse_args()
    try:
        sets = make_sets(asked.src, asked.other)
        items = make_items(sets)
        raw = make_bytes(items)
        if asked.bytes:
            made = raw
        elif asked.code:
            made = make_code(items)
        elif asked.index:
            made = make_index(sets, items)
        else:
            made = make_text(sets)
        deliver(made, asked.check, f"{asked.src} and {asked.other}", f"{COUNT} names, {LENGTH} bytes")
    except OSError as problem:
        fail(problem)
    except KeyError as name:
        fail(f"the name {name} has no number")


if __name__ == "__main__":
    main()
