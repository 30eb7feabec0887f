//! Refusals: a number, a place, a value, and a sentence for each number. What to do about each is in docs/REFERENCE.md, which has the same
//! sentences ("In words").

use crate::{kind, opcode_name};
use std::error::Error;
use std::fmt;

/// Why an input is refused.
///
/// ```
/// let refused = kollafrin::Module::load_builtin(b"no shader").unwrap_err();
/// assert_eq!(refused.to_string(), "1 at byte 8: the module ends inside its header");
/// ```
#[derive(Clone, Copy, Debug, Default, PartialEq, Eq, Hash)]
pub struct Refusal {
    /// The number of the refusal, 1 to 33; [`sentence`] says what it means.
    pub number: u32,
    /// The place: a byte offset into the module. 0 for 2, 3, 24 and 29 to 33.
    pub offset: u32,
    /// The instruction or record, from 1; 0 where the header or the grammar is at fault, and for 29, 31 and 32. After 30, count + 1
    /// means that log or string bytes are left over, or that the records end inside a function.
    pub index: u32,
    /// For 5 the opcode, for 10 the enumerant, else 0.
    pub value: u32,
    /// Which of the two causes 9 has: true where the words of the instruction are all in the module, and a value or mask is missing at
    /// their end; false where the module ends. False for every other number.
    pub missing: bool,
}

impl Refusal {
    /// What is wrong, in a sentence.
    pub fn sentence(&self) -> &'static str {
        if self.missing {
            MISSING
        } else {
            sentence(self.number)
        }
    }

    /// Number, place and value, as they stand before the sentence.
    pub(crate) fn head(&self, f: &mut fmt::Formatter<'_>) -> fmt::Result {
        write!(f, "{}", self.number)?;
        match self.number {
            1 => write!(f, " at byte {}", self.offset),
            4..=23 | 25..=28 => write!(f, " at byte {}, instruction {}", self.offset, self.index),
            30 | 33 => write!(f, " at record {}", self.index),
            _ => Ok(()),
        }
    }
}

impl fmt::Display for Refusal {
    fn fmt(&self, f: &mut fmt::Formatter<'_>) -> fmt::Result {
        self.head(f)?;
        match self.number {
            5 => write!(f, ", opcode {}", self.value)?,
            10 => write!(f, ", value {}", self.value)?,
            _ => (),
        }
        write!(f, ": {}", self.sentence())
    }
}

impl Error for Refusal {}

/// Why two grammars are not joined.
///
/// ```
/// let (one, other) = ([1, 14, 0, 2, 11, 0], [1, 14, 0]);
/// let unjoined = kollafrin::join(&one, &other).unwrap_err();
/// assert_eq!(unjoined.to_string(), "34: OpMemoryModel: the two grammars have row 14 each in its own way");
/// ```
#[derive(Clone, Copy, Debug, Default, PartialEq, Eq, Hash)]
pub struct Unjoined {
    /// 24 where one of the two, or both together, are not well-formed; 34 where they clash. [`sentence`] says what it means.
    pub number: u32,
    /// After 34, where no rows clash, the kind of the lowest enumerant that does; else 0.
    pub place: u32,
    /// After 34 the lowest opcode that clashes or, where `place` is not 0, the value of that enumerant; else 0.
    pub value: u32,
}

impl Unjoined {
    /// The name of the instruction whose row clashes, where a row does and its opcode has a name.
    pub fn instruction(&self) -> Option<String> {
        match (self.number, self.place) {
            (34, 0) => opcode_name(u16::try_from(self.value).ok()?).ok()?,
            _ => None,
        }
    }

    /// The name of the kind of which an enumerant clashes, where one does.
    pub fn kind(&self) -> Option<&'static str> {
        match self.number {
            34 => kind::name(u8::try_from(self.place).ok()?),
            _ => None,
        }
    }

    /// What is wrong, by these names.
    pub fn words(&self) -> String {
        let what = match (self.number, self.kind()) {
            (34, Some(kind)) => format!("{kind} {}", self.value),
            (34, None) => format!("row {}", self.value),
            _ => return sentence(self.number).into(),
        };
        let name = self.instruction().map_or(String::new(), |name| format!("{name}: "));
        format!("{name}the two grammars have {what} each in its own way")
    }
}

impl fmt::Display for Unjoined {
    fn fmt(&self, f: &mut fmt::Formatter<'_>) -> fmt::Result {
        write!(f, "{}: {}", self.number, self.words())
    }
}

impl Error for Unjoined {}

/// The second sentence of 9; [`sentence`] has the first.
pub const MISSING: &str = "a value or mask that belongs to an operand is missing at the end of the instruction's words";

/// A sentence for each number, 0 to 35.
pub fn sentence(number: u32) -> &'static str {
    match number {
        0 => "the input is accepted",
        1 => "the module ends inside its header",
        2 => "the first word is not the magic number: this is no SPIR-V module",
        3 => "the first word is the magic number in the other byte order: the bytes of every word are swapped",
        4 => "the instruction says that it has no words",
        5 => "the opcode is not known to this grammar",
        6 => "the instruction's words end where an operand has to begin",
        7 => "words are left over after the last operand that the instruction has in this grammar",
        8 => "the instruction's words end inside an operand",
        9 => "the module ends inside an operand",
        10 => "the value or mask is not known to this grammar",
        11 => "a string is not well-formed UTF-8",
        12 => "the literal's type has a width that is not read",
        13 => "the embedded opcode is not known to this grammar",
        14 => "the embedded operation has operands that are not read there",
        15 => "a function begins inside a function",
        16 => "the module ends inside a function",
        17 => "a function ends where none has begun",
        18 => "a function parameter stands outside a function",
        19 => "a block begins outside a function",
        20 => "a block begins inside a block",
        21 => "a block is not ended",
        22 => "a terminator stands outside a block",
        23 => "the instruction is read in a block alone, and stands outside",
        24 => "the grammar is not well-formed",
        25 => "there is no room for another instruction record",
        26 => "there is no room in the operand log",
        27 => "there is no room for the string's bytes",
        28 => "there is no room for another type entry",
        29 => "the output is too short",
        30 => "a record breaks the layout of the stores, or has no name in a listing",
        31 => "the module has more than 67,108,864 bytes",
        32 => "the output is too short for the text",
        33 => "the function or block number is not the one that the tags call for",
        34 => "the two grammars have a row or an enumerant each in its own way",
        35 => "the output is too short for the two grammars joined",
        _ => "this number is not given",
    }
}
