//! The library's functions. Every lent store is filled with a pattern first, so that what a call leaves alone can be seen.

use compare::books::Turn;
use compare::reading::Stores;

#[path = "../../../bindings/rust/src/c.rs"]
mod c;

// The reading's lengths of a record are the header's.
const _: () = assert!(c::RECORD == compare::reading::RECORD && c::OLD_RECORD == compare::books::OLD_RECORD);

/// What a word or byte of a lent store holds before the call.
pub fn word_before(n: usize) -> u32 {
    0xA5C3_0000 ^ (n as u32).wrapping_mul(0x9E37_79B1)
}

pub fn byte_before(n: usize) -> u8 {
    0x5A ^ (n as u8).wrapping_mul(0x9D)
}

const ANSWER_BEFORE: u32 = 0xDEAD_BEEF;

fn words(length: usize) -> Vec<u32> {
    (0..length).map(word_before).collect()
}

fn bytes(length: usize) -> Vec<u8> {
    (0..length).map(byte_before).collect()
}

/// A load's answer and the whole lent slices after it.
#[derive(Clone, Debug, PartialEq, Eq)]
pub struct Loaded {
    pub returned: u32,
    pub answer: [u32; 16],
    pub instructions: Vec<u32>,
    pub log: Vec<u8>,
    pub strings: Vec<u8>,
    pub types: Vec<u32>,
}

impl Loaded {
    pub fn number(&self) -> u32 {
        self.answer[0]
    }
    pub fn offset(&self) -> usize {
        self.answer[1] as usize
    }
    /// Instructions, log bytes, string bytes, type entries.
    pub fn counts(&self) -> [usize; 4] {
        [4, 5, 6, 7].map(|n| self.answer[n] as usize)
    }
    pub fn header(&self) -> [u32; 5] {
        [8, 9, 10, 11, 12].map(|n| self.answer[n])
    }
}

/// Loads by the built-in grammar, or by the bytes of one. `rooms` are the lengths of the slices: words, bytes, bytes, words.
pub fn load(module: &[u8], grammar: Option<&[u8]>, rooms: [usize; 4]) -> Loaded {
    let (mut instructions, mut log) = (words(rooms[0]), bytes(rooms[1]));
    let (mut strings, mut types) = (bytes(rooms[2]), words(rooms[3]));
    let mut answer = [ANSWER_BEFORE; 16];
    // Safety, here and below: each pointer comes from a live slice with its own length, and no two of the written ones overlap.
    let returned = unsafe {
        match grammar {
            Some(grammar) => c::kollafrin_load(
                module.as_ptr(),
                module.len(),
                grammar.as_ptr(),
                grammar.len(),
                instructions.as_mut_ptr(),
                instructions.len(),
                log.as_mut_ptr(),
                log.len(),
                strings.as_mut_ptr(),
                strings.len(),
                types.as_mut_ptr(),
                types.len(),
                &mut answer,
            ),
            None => c::kollafrin_load_builtin(
                module.as_ptr(),
                module.len(),
                instructions.as_mut_ptr(),
                instructions.len(),
                log.as_mut_ptr(),
                log.len(),
                strings.as_mut_ptr(),
                strings.len(),
                types.as_mut_ptr(),
                types.len(),
                &mut answer,
            ),
        }
    };
    Loaded { returned, answer, instructions, log, strings, types }
}

/// A writer's, joining's or standing's answer; the whole lent output after the first two.
#[derive(Clone, Debug, PartialEq, Eq)]
pub struct Written {
    pub returned: u32,
    pub answer: [u32; 4],
    pub out: Vec<u8>,
}

/// What is written: bytes in one of the two orders, or the text.
#[derive(Clone, Copy, Debug, PartialEq, Eq)]
pub enum Form {
    Parse,
    Module,
    Text,
}

pub fn write(form: Form, header: [u32; 5], s: &Stores, output: usize) -> Written {
    let call = match form {
        Form::Parse => c::kollafrin_write_parse_order,
        Form::Module => c::kollafrin_write_module_order,
        Form::Text => c::kollafrin_disassemble,
    };
    let mut out = bytes(output);
    let mut answer = [ANSWER_BEFORE; 4];
    let [records, log, strings] = s.counts;
    let returned = unsafe {
        call(
            &header,
            s.instructions.as_ptr(),
            s.instructions.len(),
            s.log.as_ptr(),
            s.log.len(),
            s.strings.as_ptr(),
            s.strings.len(),
            records,
            log,
            strings,
            out.as_mut_ptr(),
            out.len(),
            &mut answer,
        )
    };
    Written { returned, answer, out }
}

/// Two grammars joined.
pub fn join(first: &[u8], second: &[u8], output: usize) -> Written {
    let mut out = bytes(output);
    let mut answer = [ANSWER_BEFORE; 4];
    let returned =
        unsafe { c::kollafrin_join(first.as_ptr(), first.len(), second.as_ptr(), second.len(), out.as_mut_ptr(), out.len(), &mut answer) };
    Written { returned, answer, out }
}

/// A turn's answer and the whole lent output after it.
#[derive(Clone, Debug, PartialEq, Eq)]
pub struct Turned {
    pub returned: u32,
    pub answer: [u32; 4],
    pub out: Vec<u32>,
}

/// A book turned.
pub fn turn(turn: Turn, s: &Stores, output: usize) -> Turned {
    let call = match turn {
        Turn::New => c::kollafrin_new_book,
        Turn::Old => c::kollafrin_old_book,
    };
    let mut out = words(output);
    let mut answer = [ANSWER_BEFORE; 4];
    let [records, log, strings] = s.counts;
    let returned = unsafe {
        call(
            s.instructions.as_ptr(),
            s.instructions.len(),
            s.log.as_ptr(),
            s.log.len(),
            s.strings.as_ptr(),
            s.strings.len(),
            records,
            log,
            strings,
            out.as_mut_ptr(),
            out.len(),
            &mut answer,
        )
    };
    Turned { returned, answer, out }
}

pub fn standing(s: &Stores) -> Written {
    let mut answer = [ANSWER_BEFORE; 4];
    let [records, log, strings] = s.counts;
    let returned = unsafe {
        c::kollafrin_standing(
            s.instructions.as_ptr(),
            s.instructions.len(),
            s.log.as_ptr(),
            s.log.len(),
            s.strings.as_ptr(),
            s.strings.len(),
            records,
            log,
            strings,
            &mut answer,
        )
    };
    Written { returned, answer, out: vec![] }
}

/// Whether the library has the version that it is declared with here.
pub fn same_version() -> bool {
    unsafe { c::kollafrin_version() == c::VERSION }
}

/// The length said of the built-in grammar, and an output of that many bytes after the call.
pub fn builtin(output: usize) -> (usize, Vec<u8>) {
    let mut out = bytes(output);
    let length = unsafe { c::kollafrin_builtin(out.as_mut_ptr(), out.len()) };
    (length, out)
}
