//! Stores that are kept from one load to the next, and the records in them.

use crate::c::RECORD;
use crate::{door, old_book, room, Error, Instructions, Module, Refusal, MOST_MODULE_BYTES};

/// Stores for loads, one after the other: they grow where a longer module comes, and are not cleared in between.
///
/// ```
/// let mut stores = kollafrin::Stores::default();
/// let bytes = [0x0723_0203u32, 0x0001_0000, 0, 0, 0, 0x0003_000E, 0, 1].map(u32::to_le_bytes).concat();
/// let (records, refusal) = stores.load(&bytes, None)?;
/// assert_eq!(refusal, None);
/// assert_eq!(records.instructions().map(|i| i.opcode).collect::<Vec<_>>(), [14]);
/// let (records, refusal) = stores.load(&bytes[..28], None)?;
/// assert_eq!(refusal.unwrap().to_string(), "9 at byte 28, instruction 1: the module ends inside an operand");
/// assert_eq!(records.instructions().len(), 0);
/// # Ok::<(), kollafrin::Error>(())
/// ```
#[derive(Debug, Default)]
pub struct Stores {
    instructions: Vec<u32>,
    log: Vec<u8>,
    strings: Vec<u8>,
    types: Vec<u32>,
}

impl Stores {
    /// Loads a module by a grammar, or by the built-in one where none is given: its records, of a refused one those of the instructions
    /// before the fault, and the refusal.
    pub fn load(&mut self, bytes: &[u8], grammar: Option<&[u8]>) -> Result<(Records<'_>, Option<Refusal>), Error> {
        let words = if bytes.len() > MOST_MODULE_BYTES { 0 } else { (bytes.len() / 4).saturating_sub(5) };
        room::grow(&mut self.instructions, RECORD * words)?;
        room::grow(&mut self.log, 9 * words)?;
        room::grow(&mut self.strings, 4 * words)?;
        room::grow(&mut self.types, 3 * words)?;
        let (mut answer, Stores { instructions, log, strings, types }) = ([0; 16], self);
        let number = match grammar {
            Some(grammar) => door::load(bytes, grammar, instructions, log, strings, types, &mut answer)?,
            None => door::load_builtin(bytes, instructions, log, strings, types, &mut answer)?,
        };
        let mut header = [0; 5];
        header.copy_from_slice(&answer[8..13]);
        let records = Records {
            header,
            instructions: first(instructions, RECORD * answer[4] as usize),
            log: first(log, answer[5] as usize),
            strings: first(strings, answer[6] as usize),
            types: first(types, 3 * answer[7] as usize),
            plain: answer[13] == 1,
            breaks: answer[14],
        };
        let missing = number == 9 && records.next() + 4 * word_count(bytes, records.next()) <= bytes.len();
        let refusal = Refusal { number, offset: answer[1], index: answer[2], value: answer[3], missing };
        Ok((records, if number == 0 { None } else { Some(refusal) }))
    }
}

/// The first elements, so many where there are so many.
fn first<T>(store: &[T], count: usize) -> &[T] {
    store.get(..count).unwrap_or(store)
}

/// The word count of the instruction at a place, 0 where there is none.
pub fn word_count(bytes: &[u8], at: usize) -> usize {
    bytes.get(at + 2..at + 4).map_or(0, |b| usize::from(u16::from_le_bytes([b[0], b[1]])))
}

/// Header words and records, borrowed: what the writers, the listing and [`Records::standing`] take. [`Module::records`] gives those of a
/// module, and [`Stores::load`] those that it has loaded.
#[derive(Clone, Copy, Debug)]
pub struct Records<'a> {
    pub(crate) header: [u32; 5],
    pub(crate) instructions: &'a [u32],
    pub(crate) log: &'a [u8],
    pub(crate) strings: &'a [u8],
    pub(crate) types: &'a [u32],
    pub(crate) plain: bool,
    pub(crate) breaks: u32,
}

/// Header words and stores alone: whether the bytes that they were loaded from were plain is not asked.
impl PartialEq for Records<'_> {
    fn eq(&self, other: &Self) -> bool {
        self.parts() == other.parts()
    }
}

impl Eq for Records<'_> {}

impl<'a> Records<'a> {
    /// Header words and stores.
    pub(crate) fn parts(self) -> ([u32; 5], &'a [u32], &'a [u8], &'a [u8], &'a [u32]) {
        (self.header, self.instructions, self.log, self.strings, self.types)
    }

    /// Whether the bytes were plain, see [`Module::is_plain`].
    pub fn is_plain(self) -> bool {
        self.plain
    }

    /// The lowest byte offset that breaks plain form, see [`Module::breaks`].
    pub fn breaks(self) -> u32 {
        self.breaks
    }

    /// The bytes in the order read, see [`Module::write_parse_order`].
    pub fn write_parse_order(self) -> Result<Vec<u8>, Error> {
        self.write(door::write_parse_order)
    }

    /// The bytes in module order, see [`Module::write_module_order`].
    pub fn write_module_order(self) -> Result<Vec<u8>, Error> {
        self.write(door::write_module_order)
    }

    /// Writes into no room at first: bad records are refused before anything else is (30), and good ones for want of room (29), since
    /// there is always a header. Only then is memory asked for, by the end of the last record: neither order writes more.
    fn write(self, call: impl Fn(Records<'_>, &mut [u8], &mut [u32; 4]) -> Result<u32, Error>) -> Result<Vec<u8>, Error> {
        let mut answer = [0; 4];
        match call(self, &mut [], &mut answer)? {
            29 => (),
            number => return Err(refused(number, answer)),
        }
        let mut bytes = room::zeros(self.next())?;
        match call(self, &mut bytes, &mut answer)? {
            0 => {
                bytes.truncate(answer[2] as usize + ((answer[3] as usize) << 32));
                Ok(bytes)
            }
            number => Err(refused(number, answer)),
        }
    }

    /// The listing for people, see [`Module::disassemble`].
    pub fn disassemble(self) -> Result<String, Error> {
        let mut room = 256 + 4 * (self.instructions.len() + self.log.len() + self.strings.len());
        loop {
            let (mut bytes, mut answer) = (room::zeros(room)?, [0; 4]);
            match door::disassemble(self, &mut bytes, &mut answer)? {
                0 => {
                    bytes.truncate(answer[2] as usize + ((answer[3] as usize) << 32));
                    return Ok(String::from_utf8_lossy(&bytes).into_owned());
                }
                32 => room = room.saturating_mul(2),
                number => return Err(refused(number, answer)),
            }
        }
    }

    /// Whether the records stand, see [`Module::standing`].
    pub fn standing(self) -> Result<bool, Error> {
        let mut answer = [0; 4];
        match door::standing(self, &mut answer)? {
            0 => Ok(answer[2] == 1),
            number => Err(refused(number, answer)),
        }
    }

    /// The instruction words as those of an old book, see [`Module::old_book`].
    pub fn old_book(self) -> Result<Vec<u32>, Error> {
        old_book(self.instructions, self.log, self.strings)
    }

    /// The five header words: magic number, version, generator, bound, reserved.
    pub fn header(self) -> [u32; 5] {
        self.header
    }

    /// Major and minor version.
    pub fn version(self) -> (u8, u8) {
        ((self.header[1] >> 16) as u8, (self.header[1] >> 8) as u8)
    }

    /// The instructions in the order they were read.
    pub fn instructions(self) -> Instructions<'a> {
        Instructions::of(self.instructions, self.log, self.strings)
    }

    /// The words of the instruction records, ten each.
    pub fn instruction_words(self) -> &'a [u32] {
        self.instructions
    }

    /// The bytes of the operand log.
    pub fn log(self) -> &'a [u8] {
        self.log
    }

    /// The bytes of all strings, one after the other.
    pub fn strings(self) -> &'a [u8] {
        self.strings
    }

    /// The words of the type entries, three each.
    pub fn type_words(self) -> &'a [u32] {
        self.types
    }

    /// Where the last record ends, as a byte offset in the module: the next instruction would start there.
    fn next(self) -> usize {
        self.instructions.chunks_exact(RECORD).last().map_or(20, |record| record[2] as usize + 4 * record[7] as usize)
    }

    /// The records as a module of their own.
    pub fn to_module(self) -> Result<Module, Error> {
        Ok(Module {
            header: self.header,
            instructions: room::copy(self.instructions)?,
            log: room::copy(self.log)?,
            strings: room::copy(self.strings)?,
            types: room::copy(self.types)?,
            plain: self.plain,
            breaks: self.breaks,
        })
    }
}

/// The refusal of a writer or of standing: a number, and the index of a record.
fn refused(number: u32, answer: [u32; 4]) -> Error {
    Error::Refused(Refusal { number, index: answer[1], ..Refusal::default() })
}
