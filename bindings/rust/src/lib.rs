//! Loads SPIR-V modules into records and writes them back.
//!
//! The work is done by the library kollafrin, whose every function is proved against its contract. This crate is a thin, safe
//! cover: a [`Module`] owns its records, and a [`Refusal`] says what is wrong with an input and where. No call panics, whatever its
//! input, and a call that lacks memory answers [`Error::NoMemory`]; a clone of a module alone ends the program then, as any clone
//! does. A library with another [`VERSION`] than this crate is an [`Error::Version`], and none of its other functions is called.
//!
//! ```
//! let bytes = std::fs::read("../../samples/colour.spv")?;
//! let module = kollafrin::Module::load_builtin(&bytes)?;
//! for instruction in module.instructions() {
//!     println!("{} {}", instruction.offset, instruction.opcode);
//! }
//! assert_eq!(module.write_parse_order()?, bytes);
//! # Ok::<(), Box<dyn std::error::Error>>(())
//! ```
//!
//! Of an input that is refused the error says why, and [`Refusal::told`] by which names:
//!
//! ```
//! let bytes = std::fs::read("../../samples/third-bad.spv")?;
//! let (module, refusal) = kollafrin::Module::load_builtin_kept(&bytes)?;
//! assert_eq!(module.instructions().len(), 2);
//! assert_eq!(refusal.unwrap().to_string(), "4 at byte 40, instruction 3: the instruction says that it has no words");
//! # Ok::<(), Box<dyn std::error::Error>>(())
//! ```
//!
//! A call takes stack, on x86-64 up to 120,000 bytes for [`Module::load`] and 92,000 for [`Module::load_builtin`] (60,000 and 32,000
//! for a module of 16,384 bytes or less), 1,500 for the writers, [`Module::standing`], [`new_book`] and [`old_book`], 47,000 for
//! [`Module::disassemble`], 60,000 for [`join`], 5,000 for the built-in grammar's bytes, 500 for any other function of the library; this
//! crate's own functions come on top. A thread that has less left ends with a fault.
//!
//! Linking needs the archive `libkollafrin.a`, made by `tools/archive` for x86-64. It is looked for in the folder
//! `target/staticlib` of the repository, or where the environment variable `KOLLAFRIN_LIB` says.
//!
//! The stores, the kinds of operands, grammars, the order of faults, both orders of writing and what to do about each refusal are
//! told on one page, docs/REFERENCE.md of the repository.

#![warn(missing_docs)]
#![deny(unsafe_code)]

mod books;
mod c;
#[allow(unsafe_code)]
mod door;
mod error;
mod kinds;
mod records;
mod refusal;
mod room;
mod stores;
mod told;

pub use books::{new_book, old_book};
pub use c::{OLD_RECORD, RECORD, VERSION};
pub use error::Error;
pub use kinds::{kind, presence, tag};
pub use records::{Instruction, Instructions, Operand, Operands, Value};
pub use refusal::{sentence, Refusal, Unjoined, MISSING};
pub use room::reserve;
pub use stores::{Records, Stores};
pub use told::{opcode_name, Told, BUILTIN};

/// The longest module that is read, in bytes. A longer one is refused with 31.
pub const MOST_MODULE_BYTES: usize = 67_108_864;

/// The longest grammar that is well-formed, in bytes.
pub const MOST_GRAMMAR_BYTES: usize = 65_535;

/// The bytes of the built-in grammar, the one [`Module::load_builtin`] goes by.
pub fn builtin() -> Result<Vec<u8>, Error> {
    let mut bytes = room::zeros(door::builtin(&mut [])?)?;
    door::builtin(&mut bytes)?;
    Ok(bytes)
}

/// Two grammars joined into one: the rows and enumerants of both, those that are in both taken once (docs/REFERENCE.md, "Joining
/// grammars"), in any order. An [`Unjoined`] where one of them, or both together, are not well-formed, or where they clash.
pub fn join(first: &[u8], second: &[u8]) -> Result<Vec<u8>, Error> {
    let most = MOST_GRAMMAR_BYTES.min(first.len().saturating_add(second.len()));
    let (mut bytes, mut answer) = (room::zeros(most)?, [0; 4]);
    match door::join(first, second, &mut bytes, &mut answer)? {
        0 => {
            bytes.truncate(answer[3] as usize);
            Ok(bytes)
        }
        number => Err(Error::Unjoined(Unjoined { number, place: answer[1], value: answer[2] })),
    }
}

/// What a load keeps of a module: its five header words and four stores.
///
/// The stores are those of the library. Instructions: ten words each, which are opcode + 65536 × (1 for a result type, 2 for
/// a result id), section tag, byte offset, result type or 0, result id or 0, start in the operand log, operand count, word
/// count, function number or 0, block number or 0. The operand log: a kind byte, then 4 bytes, 8 for kinds 36, 38 and 40. String
/// bytes without their zeros. Types: id, width, and 1 for unsigned, 2 for signed, 3 for float.
///
/// Two are equal where header words and stores are, whatever the bytes that they were loaded from.
#[derive(Clone, Debug, Default)]
pub struct Module {
    header: [u32; 5],
    instructions: Vec<u32>,
    log: Vec<u8>,
    strings: Vec<u8>,
    types: Vec<u32>,
    plain: bool,
    breaks: u32,
}

impl PartialEq for Module {
    fn eq(&self, other: &Module) -> bool {
        self.records() == other.records()
    }
}

impl Eq for Module {}

impl std::hash::Hash for Module {
    fn hash<H: std::hash::Hasher>(&self, state: &mut H) {
        self.records().parts().hash(state);
    }
}

impl Module {
    /// Loads a module by the bytes of a grammar, as docs/REFERENCE.md says ("Grammars"); 24 where they are not well-formed.
    pub fn load(bytes: &[u8], grammar: &[u8]) -> Result<Module, Error> {
        whole(Module::load_kept(bytes, grammar)?)
    }

    /// Loads a module by the built-in grammar.
    pub fn load_builtin(bytes: &[u8]) -> Result<Module, Error> {
        whole(Module::load_builtin_kept(bytes)?)
    }

    /// As [`Module::load`], with the records of the instructions before the fault where the module is refused, which is then no error.
    pub fn load_kept(bytes: &[u8], grammar: &[u8]) -> Result<(Module, Option<Refusal>), Error> {
        Module::kept(bytes, Some(grammar))
    }

    /// As [`Module::load_kept`], by the built-in grammar.
    pub fn load_builtin_kept(bytes: &[u8]) -> Result<(Module, Option<Refusal>), Error> {
        Module::kept(bytes, None)
    }

    /// Stores that suffice for any module of this length, and a copy of what the load kept in them.
    fn kept(bytes: &[u8], grammar: Option<&[u8]>) -> Result<(Module, Option<Refusal>), Error> {
        let mut stores = Stores::default();
        let (records, refusal) = stores.load(bytes, grammar)?;
        Ok((records.to_module()?, refusal))
    }

    /// A module of records from elsewhere. Nothing is checked here: the writers and [`Module::standing`] refuse with 30 what
    /// breaks the layout of the stores (docs/REFERENCE.md, "Writing"); they do not look at function and block numbers. Words past the
    /// last whole record are left out.
    pub fn from_stores(header: [u32; 5], mut instructions: Vec<u32>, log: Vec<u8>, strings: Vec<u8>, types: Vec<u32>) -> Module {
        instructions.truncate(instructions.len() / RECORD * RECORD);
        Module { header, instructions, log, strings, types, plain: false, breaks: 0 }
    }

    /// A module of an old book, whose instruction records have [`OLD_RECORD`] words each: [`new_book`] turns them, and says what is refused.
    ///
    /// ```
    /// use kollafrin::Module;
    /// let module = Module::load_builtin(&std::fs::read("../../samples/function.spv")?)?;
    /// let old = module.old_book()?;
    /// let (log, strings, types) = (module.log().to_vec(), module.strings().to_vec(), module.type_words().to_vec());
    /// assert_eq!(Module::from_old_book(module.header(), &old, log, strings, types)?, module);
    /// # Ok::<(), Box<dyn std::error::Error>>(())
    /// ```
    pub fn from_old_book(header: [u32; 5], instructions: &[u32], log: Vec<u8>, strings: Vec<u8>, types: Vec<u32>) -> Result<Module, Error> {
        Ok(Module::from_stores(header, new_book(instructions, &log, &strings)?, log, strings, types))
    }

    /// Whether the load that made this was accepted and the bytes were plain: no bytes after the last whole word, only zeros after
    /// the ends of strings, embedded opcodes below 65,536. Of records from elsewhere: no.
    pub fn is_plain(&self) -> bool {
        self.plain
    }

    /// The lowest byte offset that breaks plain form in the bytes of an accepted load, else 0.
    pub fn breaks(&self) -> u32 {
        self.breaks
    }

    /// The bytes of the module: header words and instructions as they were read. Of a plain module ([`Module::is_plain`]) these
    /// are the bytes it was loaded from.
    pub fn write_parse_order(&self) -> Result<Vec<u8>, Error> {
        self.records().write_parse_order()
    }

    /// The bytes of the module in the order of its sections, then function by function, with the header that the crate rspirv writes:
    /// of the version major and minor alone, the bound, and constants. Of several memory models the last alone is written.
    pub fn write_module_order(&self) -> Result<Vec<u8>, Error> {
        self.records().write_module_order()
    }

    /// The module as text, for people: four lines for the header, then a line for each instruction in module order, by its names
    /// (docs/REFERENCE.md, "The listing"). 30 where a record breaks the layout or lacks a name.
    pub fn disassemble(&self) -> Result<String, Error> {
        self.records().disassemble()
    }

    /// Whether the module stands: its sections come first and in order, no parameter follows a label in its function, exactly one
    /// memory model is given, and no function without a label follows one with a label. On a module that stands both orders of
    /// writing agree after the header.
    pub fn standing(&self) -> Result<bool, Error> {
        self.records().standing()
    }

    /// The instruction words as those of an old book, [`OLD_RECORD`] each, see [`old_book`]; header words, log, strings and types are the same
    /// there. 30 and 33 can only be of records from elsewhere.
    pub fn old_book(&self) -> Result<Vec<u32>, Error> {
        self.records().old_book()
    }

    /// Header words and records, borrowed.
    pub fn records(&self) -> Records<'_> {
        Records {
            header: self.header,
            instructions: &self.instructions,
            log: &self.log,
            strings: &self.strings,
            types: &self.types,
            plain: self.plain,
            breaks: self.breaks,
        }
    }

    /// The five header words: magic number, version, generator, bound, reserved.
    pub fn header(&self) -> [u32; 5] {
        self.header
    }

    /// Major and minor version.
    pub fn version(&self) -> (u8, u8) {
        self.records().version()
    }

    /// The instructions in the order they were read.
    pub fn instructions(&self) -> Instructions<'_> {
        self.records().instructions()
    }

    /// The words of the instruction records, ten each.
    pub fn instruction_words(&self) -> &[u32] {
        &self.instructions
    }

    /// The bytes of the operand log.
    pub fn log(&self) -> &[u8] {
        &self.log
    }

    /// The bytes of all strings, one after the other.
    pub fn strings(&self) -> &[u8] {
        &self.strings
    }

    /// The words of the type entries, three each.
    pub fn type_words(&self) -> &[u32] {
        &self.types
    }
}

fn whole((module, refusal): (Module, Option<Refusal>)) -> Result<Module, Error> {
    match refusal {
        None => Ok(module),
        Some(refusal) => Err(Error::Refused(refusal)),
    }
}
