//! Whether a module is plain, and where it is not.

use kollafrin::Records;

const SPEC_CONSTANT_OP: u16 = 52;

/// Where a module is not plain.
pub struct Fault {
    /// The byte: a byte after a string, the word of an embedded opcode, or the first after the last whole word.
    pub offset: usize,
    /// Its instruction, from 1; none after the last.
    pub index: Option<usize>,
    /// What stands there.
    pub words: &'static str,
}

/// Where an accepted module is not plain, by the load's own word (docs/REFERENCE.md, "Plain form").
pub fn fault(records: Records<'_>) -> Option<Fault> {
    if records.is_plain() {
        return None;
    }
    let offset = records.breaks() as usize;
    let at = records.instructions().enumerate().find(|(_, i)| offset < (i.offset + 4 * i.word_count) as usize);
    Some(match at {
        None => Fault { offset, index: None, words: "bytes are left over after the last whole word" },
        Some((index, i)) if i.opcode == SPEC_CONSTANT_OP => {
            Fault { offset, index: Some(index + 1), words: "the embedded opcode's word has more than an opcode" }
        }
        Some((index, _)) => Fault { offset, index: Some(index + 1), words: "a byte that is not zero stands after a string's end" },
    })
}

/// The first byte in which two runs differ, if there is one: where one ends before the other, its end.
pub fn differs(one: &[u8], other: &[u8]) -> Option<usize> {
    if one == other {
        return None;
    }
    let both = one.len().min(other.len());
    Some(one.iter().zip(other).position(|(a, b)| a != b).unwrap_or(both))
}
