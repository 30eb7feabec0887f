//! The crate rspirv, asked through the oracle's own code.

use crate::reading::{Row, ONE, ZERO_OR_MORE, ZERO_OR_ONE};
use std::cell::Cell;

#[allow(dead_code, clippy::all)]
mod oracle {
    include!(concat!(env!("OUT_DIR"), "/oracle.rs"));

    /// The oracle's line for a module, then its lines of records, of module-order bytes and of the text.
    pub fn answer(bytes: &[u8]) -> String {
        run(bytes, &Options { full: true, disas: true, records: true })
    }

    /// Whether the crate's decoder knows a value of an enumerant kind.
    pub fn knows(kind: u8, value: u32) -> bool {
        matches!(read_kind(kind, &mut Decoder::new(&value.to_le_bytes())), Some(Ok(())))
    }

    /// Opcode and operands (kind, quantifier's number) of a row.
    pub fn row(opcode: u16) -> Option<(u16, Vec<(u8, u8)>)> {
        let row = grammar::CoreInstructionTable::lookup_opcode(opcode)?;
        let operands = row.operands.iter().map(|o| {
            let quantifier = match o.quantifier {
                grammar::OperandQuantifier::One => super::ONE,
                grammar::OperandQuantifier::ZeroOrOne => super::ZERO_OR_ONE,
                grammar::OperandQuantifier::ZeroOrMore => super::ZERO_OR_MORE,
            };
            (grammar_kind(o.kind), quantifier)
        });
        Some((row.opcode as u16, operands.collect()))
    }

    pub fn decoder_calls(bytes: &[u8], script: &str) -> String {
        ops(bytes, script)
    }

    /// The name of an opcode in the crate's table.
    pub fn opcode_name(opcode: u16) -> Option<&'static str> {
        Some(grammar::CoreInstructionTable::lookup_opcode(opcode)?.opname)
    }

    /// The name of an opcode as an operand of OpSpecConstantOp.
    pub fn embedded_name(opcode: u32) -> Option<String> {
        Some(format!("{:?}", grammar::CoreInstructionTable::lookup_opcode(u16::try_from(opcode).ok()?)?.opcode))
    }

    /// The name of an instruction in one of the two sets that are recognised.
    pub fn extended_name(set: &[u8], number: u32) -> Option<&'static str> {
        Some(match set {
            b"GLSL.std.450" => grammar::GlslStd450InstructionTable::lookup_opcode(number)?.opname,
            _ => grammar::OpenCLStd100InstructionTable::lookup_opcode(number)?.opname,
        })
    }

    /// The name of a value of an enumerant kind, or the names of a mask's bits.
    pub fn enumerant_name(kind: u8, value: u32) -> Option<String> {
        let bytes = value.to_le_bytes();
        let mut decoder = Decoder::new(&bytes);
        macro_rules! names {
            (masks: $($mask:literal $bits:ident,)* values: $($kind:literal $value:ident,)*) => {
                match kind {
                    $($mask => decoder.$bits().ok().map(|v| v.disassemble()),)*
                    $($kind => decoder.$value().ok().map(|v| format!("{v:?}")),)*
                    _ => None,
                }
            };
        }
        names!(
            masks: 1 image_operands, 2 fp_fast_math_mode, 3 selection_control, 4 loop_control, 5 function_control, 6 memory_semantics,
                7 memory_access, 8 kernel_profiling_info, 41 ray_flags, 45 fragment_shading_rate,
            values: 9 source_language, 10 execution_model, 11 addressing_model, 12 memory_model, 13 execution_mode, 14 storage_class,
                15 dim, 16 sampler_addressing_mode, 17 sampler_filter_mode, 18 image_format, 19 image_channel_order,
                20 image_channel_data_type, 21 fp_rounding_mode, 22 linkage_type, 23 access_qualifier,
                24 function_parameter_attribute, 25 decoration, 26 built_in, 27 scope, 28 group_operation, 29 kernel_enqueue_flags,
                30 capability, 42 ray_query_intersection, 43 ray_query_committed_intersection_type,
                44 ray_query_candidate_intersection_type,
        )
    }
}

thread_local! {
    static ASKING: Cell<bool> = const { Cell::new(false) };
}

/// The crate's panics are answers and stay silent; all others are told as ever.
pub fn silence_the_crate() {
    let told = std::panic::take_hook();
    std::panic::set_hook(Box::new(move |what| {
        if !ASKING.with(|asking| asking.get()) {
            told(what);
        }
    }));
}

fn asking<T>(ask: impl FnOnce() -> T) -> T {
    ASKING.with(|asking| asking.set(true));
    let answer = ask();
    ASKING.with(|asking| asking.set(false));
    answer
}

/// How many words the oracle's records have. They lack function and block number.
const ORACLE_RECORD: usize = 8;

/// The oracle's records with the two numbers, which follow from the tags alone: 12 begins a function, 14 a block of it, and the numbers of
/// a record are those reached with its own tag, of which a block's is kept for 14 and 15 alone, and none for 1 to 11.
fn numbered(records: &[u32]) -> Vec<u32> {
    let (mut function, mut block) = (0, 0);
    let mut all = vec![];
    for record in records.chunks_exact(ORACLE_RECORD) {
        let tag = record[1];
        match tag {
            12 => (function, block) = (function + 1, 0),
            14 => block += 1,
            _ => (),
        }
        all.extend(record);
        all.extend(match tag {
            14 | 15 => [function, block],
            12 | 13 | 16 => [function, 0],
            _ => [0, 0],
        });
    }
    all
}

/// What the crate says of a module.
#[derive(Clone, Debug, Default)]
pub struct Answer {
    /// None is a panic.
    pub number: Option<u32>,
    /// Of a panic the start of the instruction.
    pub offset: usize,
    pub index: usize,
    pub value: u32,
    /// Major, minor, bound, where the header was read.
    pub header: Option<(u32, u32, u32)>,
    /// The words of the instruction records, with function and block number.
    pub instructions: Vec<u32>,
    pub log: Vec<u8>,
    pub strings: Vec<u8>,
    /// The words of the type entries.
    pub types: Vec<u32>,
    /// Module-order bytes of an accepted module.
    pub module: Option<Vec<u8>>,
    /// The text of an accepted module.
    pub text: Option<Vec<u8>>,
    /// The oracle's first line.
    pub line: String,
}

fn field<'a>(line: &'a str, key: &str) -> Option<&'a str> {
    line.split(' ').find_map(|part| part.strip_prefix(key)?.strip_prefix('='))
}

fn number<T: std::str::FromStr>(line: &str, key: &str) -> Option<T> {
    field(line, key).map(|text| text.parse().unwrap_or_else(|_| panic!("the oracle's {key}: {line}")))
}

fn unhex(text: &str) -> Vec<u8> {
    let digit = |d: u8| (d as char).to_digit(16).expect("a hex digit") as u8;
    text.as_bytes().chunks_exact(2).map(|two| 16 * digit(two[0]) + digit(two[1])).collect()
}

/// `[1, 2, 3]`
fn numbers(text: &str) -> impl Iterator<Item = u32> + '_ {
    text.trim_matches(['[', ']']).split(", ").map(|n| n.parse().expect("a number of the oracle's"))
}

/// Puts a module to the crate. The oracle loads it twice, with its recorder and bare; should the two differ, that is an error.
pub fn answer(bytes: &[u8]) -> Result<Answer, String> {
    let text = asking(|| oracle::answer(bytes));
    let mut lines = text.lines();
    let line = lines.next().unwrap_or_default().to_string();
    if line.contains("RECORDER-DIFFERS") || line.starts_with("state") {
        return Err(line);
    }
    let panic = line.starts_with("panic");
    let mut all = Answer {
        number: if panic { None } else { Some(line.split(' ').next().unwrap_or_default().parse().map_err(|_| line.clone())?) },
        offset: number(&line, if panic { "at" } else { "off" }).unwrap_or(0),
        index: number(&line, "idx").unwrap_or(0),
        value: number(&line, "val").unwrap_or(0),
        ..Answer::default()
    };
    if let (Some(version), Some(bound)) = (field(&line, "version"), number(&line, "bound")) {
        let (major, minor) = version.split_once('.').ok_or(line.clone())?;
        all.header = Some((major.parse().map_err(|_| line.clone())?, minor.parse().map_err(|_| line.clone())?, bound));
    }
    for more in lines {
        let (key, rest) = more.trim_start().split_once(' ').unwrap_or((more.trim(), ""));
        match key {
            "record" => all.instructions.extend(numbers(rest)),
            "log" => all.log = unhex(rest),
            "strings" => all.strings = unhex(rest),
            "type" => all.types.extend(numbers(rest)),
            "module" => all.module = Some(unhex(rest)),
            "|" => match &mut all.text {
                None => all.text = Some(rest.into()),
                Some(text) => {
                    text.push(b'\n');
                    text.extend(rest.bytes());
                }
            },
            _ => (), // the dump of an instruction, which the records repeat
        }
    }
    all.instructions = numbered(&all.instructions);
    all.line = line;
    Ok(all)
}

/// Whether the crate's decoder, asked for a value of this kind with one word left, knows it.
pub fn knows(kind: u8, value: u32) -> bool {
    asking(|| oracle::knows(kind, value))
}

/// Every row the crate looks up.
pub fn rows() -> Vec<Row> {
    (0..=u16::MAX).filter_map(oracle::row).map(|(opcode, operands)| Row { opcode, operands }).collect()
}

/// Decoder calls one after the other, in the oracle's words.
pub fn decoder_calls(bytes: &[u8], script: &str) -> String {
    asking(|| oracle::decoder_calls(bytes, script))
}

/// Names as the crate's text has them.
pub use oracle::{embedded_name, enumerant_name, extended_name, opcode_name};
