//! Refusals for people: by the names of instructions and of operand kinds. Whatever is told here is found out by calls of the library.

use crate::c::RECORD;
use crate::stores::word_count;
use crate::{builtin, kind, tag, Error, Module, Refusal, Stores};
use std::collections::BTreeMap;
use std::fmt;

/// What the built-in grammar is called.
pub const BUILTIN: &str = "SPIR-V 1.5 revision 4";

/// A refusal of a load, with the names that a person needs; see [`Refusal::told`].
#[derive(Clone, Debug, PartialEq, Eq)]
pub struct Told {
    /// The refusal.
    pub refusal: Refusal,
    /// The name of the instruction at fault, where there is one and it has a name.
    pub instruction: Option<String>,
    /// Of 10, the name of the kind of which the value or mask is not known.
    pub kind: Option<&'static str>,
    /// What is wrong, by these names.
    pub words: String,
}

impl fmt::Display for Told {
    fn fmt(&self, f: &mut fmt::Formatter<'_>) -> fmt::Result {
        self.refusal.head(f)?;
        write!(f, ": {}", self.words)
    }
}

impl Refusal {
    /// The refusal of a load of these bytes by this grammar, the built-in one where none is given, by the names of instruction and kind.
    ///
    /// ```
    /// let bytes = [0x0723_0203u32, 0x0001_0600, 0, 0, 0, 0x0002_0011, 5283].map(u32::to_le_bytes).concat();
    /// let (_, refusal) = kollafrin::Module::load_builtin_kept(&bytes)?;
    /// assert_eq!(
    ///     refusal.unwrap().told(&bytes, None)?.to_string(),
    ///     "10 at byte 24, instruction 1: OpCapability: Capability 5283 is not known to this grammar, SPIR-V 1.5 revision 4"
    /// );
    /// # Ok::<(), kollafrin::Error>(())
    /// ```
    pub fn told(&self, bytes: &[u8], grammar: Option<&[u8]>) -> Result<Told, Error> {
        let start = if self.index == 0 { None } else { start(bytes, self.index) };
        let instruction = match start {
            Some(at) => opcode_name(u16::from_le_bytes([bytes[at], bytes[at + 1]]))?,
            None => None,
        };
        let kind = match start {
            Some(at) if self.number == 10 => unknown_kind(self, bytes, at, grammar)?,
            _ => None,
        };
        // 13 and 14 name the place after the embedded opcode's word
        let embedded =
            (self.offset as usize).checked_sub(4).and_then(|at| bytes.get(at..at + 2)).map_or(0, |b| u16::from_le_bytes([b[0], b[1]]));
        let what = match self.number {
            5 => format!("opcode {} is not known to this grammar", self.value),
            10 => format!("{} {} is not known to this grammar", kind.unwrap_or("the value or mask"), self.value),
            13 => format!("the embedded opcode {embedded} is not known to this grammar"),
            14 => match opcode_name(embedded)? {
                Some(name) => format!("{name} has operands that are not read in an embedded operation"),
                None => self.sentence().into(),
            },
            _ => self.sentence().into(),
        };
        let by = if grammar.is_none() && what.ends_with("this grammar") { format!(", {BUILTIN}") } else { String::new() };
        // of a module that is cut short the instruction is as good as any
        let name = instruction.as_ref().filter(|_| self.number != 9 || self.missing).map_or(String::new(), |name| format!("{name}: "));
        Ok(Told { refusal: *self, instruction, kind, words: format!("{name}{what}{by}") })
    }
}

/// Where the instruction of an index starts, if it has its first word: the word counts before it lead there.
fn start(bytes: &[u8], index: u32) -> Option<usize> {
    let mut at = 20;
    for _ in 1..index {
        match word_count(bytes, at) {
            0 => return None,
            words => at += 4 * words,
        }
    }
    bytes.get(at..at + 4).map(|_| at)
}

/// The name of an opcode as the [listing](Module::disassemble) has it, which is that of the built-in grammar.
///
/// ```
/// assert_eq!(kollafrin::opcode_name(17)?.as_deref(), Some("OpCapability"));
/// assert_eq!(kollafrin::opcode_name(65535)?, None);
/// # Ok::<(), kollafrin::Error>(())
/// ```
pub fn opcode_name(opcode: u16) -> Result<Option<String>, Error> {
    // an instruction of one word; what number its function and its block have is not looked at
    let record = |opcode: u16, tag, i: u32| -> [u32; RECORD] { [u32::from(opcode), tag, 20 + 4 * i, 0, 0, 0, 0, 1, 0, 0] };
    // a listing of the instruction in a block, or of what is left of that where it begins or ends function or block, under the tag that it
    // has there: how many records of `before` it follows, and at which of `after` it goes on
    let before = [(54, tag::FUNCTION), (248, tag::LABEL)];
    let after = [(253, tag::BLOCK), (56, tag::FUNCTION_END)];
    let in_block = (1..=tag::TYPE_CONSTANT_GLOBAL).chain([tag::FUNCTION_PARAMETER, tag::BLOCK]).map(|tag| (tag, 2, 0));
    for (tag, first, next) in in_block.chain([(tag::BLOCK, 2, 1), (tag::FUNCTION, 0, 1), (tag::LABEL, 1, 0), (tag::FUNCTION_END, 1, 2)]) {
        let all = [&before[..first], &[(opcode, tag)], &after[next..]].concat();
        let records = all.iter().zip(0..).flat_map(|(&(opcode, tag), i)| record(opcode, tag, i)).collect();
        match Module::from_stores([0; 5], records, vec![], vec![], vec![]).disassemble() {
            Ok(text) => {
                // module order: sections first, a parameter behind its function
                let line = match tag {
                    1..=tag::TYPE_CONSTANT_GLOBAL => 0,
                    tag::FUNCTION_PARAMETER => 1,
                    _ => first,
                };
                return Ok(text.lines().nth(4 + line).map(String::from));
            }
            Err(Error::Refused(_)) => (),
            Err(other) => return Err(other),
        }
    }
    Ok(None)
}

/// The kind of the value or mask that is refused by 10: the one of which a grammar has to list it for the load to get past it. Looked for by
/// halves, on the instruction alone: none where that is not refused in the same way.
fn unknown_kind(refusal: &Refusal, bytes: &[u8], at: usize, grammar: Option<&[u8]>) -> Result<Option<&'static str>, Error> {
    let own;
    let grammar = match grammar {
        Some(grammar) => grammar,
        None => {
            own = builtin()?;
            &own
        }
    };
    let end = (at + 4 * word_count(bytes, at)).min(bytes.len());
    let alone = [&bytes[..20], &bytes[at..end]].concat();
    let mut stores = Stores::default();
    let mut refused = |grammar: &[u8]| {
        let (_, refusal) = stores.load(&alone, Some(grammar))?;
        Ok(refusal.map(|r| (r.number, r.offset as usize, r.value)))
    };
    let here = (refusal.offset as usize).checked_sub(at).map(|offset| (10, 20 + offset, refusal.value));
    let mut kinds: Vec<u8> = (kind::IMAGE_OPERANDS..=kind::CAPABILITY).chain(kind::RAY_FLAGS..=kind::FRAGMENT_SHADING_RATE).collect();
    if refused(grammar)? != here || refused(&with(grammar, &kinds, refusal.value))? == here {
        return Ok(None);
    }
    while kinds.len() > 1 {
        let half = kinds.split_off(kinds.len() / 2);
        if refused(&with(grammar, &kinds, refusal.value))? == here {
            kinds = half;
        }
    }
    Ok(kind::name(kinds[0]))
}

/// A grammar that lists a value of these kinds, of masks each of its bits, besides what a well-formed one lists.
fn with(grammar: &[u8], kinds: &[u8], value: u32) -> Vec<u8> {
    let rows = grammar.chunks(3).take_while(|item| item[0] < 3).count() * 3;
    let mut enumerants: BTreeMap<(u8, u32), Vec<u8>> = BTreeMap::new();
    let mut rest = &grammar[rows..];
    let mut last = (0, 0);
    while let [item, kind, more @ ..] = rest {
        rest = match (item, more) {
            (3, [a, b, c, d, more @ ..]) => {
                last = (*kind, u32::from_le_bytes([*a, *b, *c, *d]));
                enumerants.entry(last).or_default();
                more
            }
            _ => {
                enumerants.entry(last).or_default().extend([4, *kind]);
                more
            }
        };
    }
    for &kind in kinds {
        if matches!(kind, kind::IMAGE_OPERANDS..=kind::KERNEL_PROFILING_INFO | kind::RAY_FLAGS | kind::FRAGMENT_SHADING_RATE) {
            for bit in (0..32).map(|i| 1 << i).filter(|bit| value & bit != 0) {
                enumerants.entry((kind, bit)).or_default();
            }
        } else {
            enumerants.entry((kind, value)).or_default();
        }
    }
    let mut all = grammar[..rows].to_vec();
    for ((kind, value), parameters) in enumerants {
        all.extend([3, kind]);
        all.extend(value.to_le_bytes());
        all.extend(parameters);
    }
    all
}
