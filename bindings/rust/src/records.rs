//! Records taken apart: instructions and their operands.

use crate::c::RECORD;
use crate::{kind, presence};

/// One instruction.
///
/// ```
/// let bytes = std::fs::read("../../samples/function.spv")?;
/// let module = kollafrin::Module::load_builtin(&bytes)?;
/// // OpReturn stands in the first block of the first function
/// let last = module.instructions().find(|i| i.opcode == 253).unwrap();
/// assert_eq!((last.tag, last.function, last.block), (15, 1, 1));
/// // types stand in no function
/// let void = module.instructions().find(|i| i.opcode == 19).unwrap();
/// assert_eq!((void.tag, void.function, void.block), (11, 0, 0));
/// # Ok::<(), Box<dyn std::error::Error>>(())
/// ```
#[derive(Clone, Copy, Debug, PartialEq, Eq)]
pub struct Instruction<'a> {
    /// The opcode.
    pub opcode: u16,
    /// The section: 1 capabilities, 2 extensions, 3 imports, 4 memory model, 5 entry points, 6 execution modes, 7 strings and sources,
    /// 8 names, 9 notes of what processed the module, 10 annotations, 11 types, constants and globals; 12 function, 13 parameter,
    /// 14 label, 15 in a block, 16 function end.
    pub tag: u32,
    /// The byte offset in the module.
    pub offset: u32,
    /// The result type.
    pub result_type: Option<u32>,
    /// The result id.
    pub result_id: Option<u32>,
    /// The number of words it was read from.
    pub word_count: u32,
    /// The number of its function in the module, the first being 1; 0 for tags 1 to 11, also where such an instruction stands in a function.
    pub function: u32,
    /// The number of its block in the function, the first being 1; 0 for every tag but 14 and 15.
    pub block: u32,
    operands: Operands<'a>,
}

impl<'a> Instruction<'a> {
    /// The operands in their order, result type and result id aside.
    pub fn operands(&self) -> Operands<'a> {
        self.operands
    }
}

/// The instructions of a module, see [`crate::Module::instructions`].
#[derive(Clone, Debug)]
pub struct Instructions<'a> {
    records: std::slice::ChunksExact<'a, u32>,
    log: &'a [u8],
    strings: &'a [u8],
}

impl<'a> Instructions<'a> {
    pub(crate) fn of(words: &'a [u32], log: &'a [u8], strings: &'a [u8]) -> Instructions<'a> {
        Instructions { records: words.chunks_exact(RECORD), log, strings }
    }
}

impl<'a> Iterator for Instructions<'a> {
    type Item = Instruction<'a>;

    fn next(&mut self) -> Option<Instruction<'a>> {
        let r = self.records.next()?;
        let present = r[0] >> 16;
        Some(Instruction {
            opcode: r[0] as u16,
            tag: r[1],
            offset: r[2],
            result_type: if present & presence::RESULT_TYPE != 0 { Some(r[3]) } else { None },
            result_id: if present & presence::RESULT_ID != 0 { Some(r[4]) } else { None },
            word_count: r[7],
            function: r[8],
            block: r[9],
            operands: Operands { log: self.log.get(r[5] as usize..).unwrap_or(&[]), strings: self.strings, left: r[6] },
        })
    }

    fn size_hint(&self) -> (usize, Option<usize>) {
        self.records.size_hint()
    }
}

impl ExactSizeIterator for Instructions<'_> {}

/// One operand.
#[derive(Clone, Copy, Debug, PartialEq, Eq)]
pub struct Operand<'a> {
    /// The operand kind, 1 to 45; 33 is an id. docs/REFERENCE.md of the repository has a table of all of them.
    pub kind: u8,
    /// Its value.
    pub value: Value<'a>,
}

/// The value of an operand.
#[derive(Clone, Copy, Debug, PartialEq, Eq)]
pub enum Value<'a> {
    /// One word: ids, enumerants, masks, literals, the bits of a float.
    Word(u32),
    /// Two words, of kinds 36 and 38: a literal of 64 bits, or the bits of a double.
    Long(u64),
    /// A string, of kind 40. Those of a loaded module are well-formed UTF-8.
    Text(&'a [u8]),
}

/// The operands of an instruction, see [`Instruction::operands`].
#[derive(Clone, Copy, Debug, PartialEq, Eq)]
pub struct Operands<'a> {
    log: &'a [u8],
    strings: &'a [u8],
    left: u32,
}

impl<'a> Iterator for Operands<'a> {
    type Item = Operand<'a>;

    fn next(&mut self) -> Option<Operand<'a>> {
        if self.left == 0 {
            return None;
        }
        let kind = *self.log.first()?;
        let long = matches!(kind, kind::LITERAL_INT64 | kind::LITERAL_FLOAT64 | kind::LITERAL_STRING);
        let body = self.log.get(1..if long { 9 } else { 5 })?;
        let word = |at: usize| u32::from_le_bytes([body[at], body[at + 1], body[at + 2], body[at + 3]]);
        let value = match kind {
            kind::LITERAL_INT64 | kind::LITERAL_FLOAT64 => Value::Long(u64::from(word(0)) | u64::from(word(4)) << 32),
            kind::LITERAL_STRING => Value::Text(self.strings.get(word(0) as usize..word(0) as usize + word(4) as usize)?),
            _ => Value::Word(word(0)),
        };
        self.log = &self.log[1 + body.len()..];
        self.left -= 1;
        Some(Operand { kind, value })
    }
}
