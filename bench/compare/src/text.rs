//! The listing for the cutters over any records, read from the wish for it and from the crate's disassemble.rs. Names are asked of the
//! crate; nothing else is shared with it, and nothing with the library.

use crate::krate;
use crate::reading::{check_records, Stores, Written, RECORD};

/// An instruction of a good record.
struct Line {
    tag: u32,
    opcode: u16,
    result_type: Option<u32>,
    result_id: Option<u32>,
    operands: Vec<Operand>,
}

enum Operand {
    Number(u8, u64),
    Text(Vec<u8>),
}

/// Number, index and text: 30 for the first record that module order finds bad or that lacks a name, then 32 for an output too short.
pub fn disassemble(header: [u32; 5], stores: &Stores, output: usize) -> Written {
    let fault = check_records(stores, true).err();
    let good = fault.map_or(stores.counts[0], |index| stores.counts[0].min(index - 1));
    let lines: Vec<Line> = (0..good).map(|n| line(stores, n)).collect();
    let unnamed = lines.iter().position(|l| words(l, None).is_none()).map(|n| n + 1);
    if let Some(index) = unnamed.or(fault) {
        return Written { number: 30, index, bytes: vec![] };
    }
    let bytes = text(header, &lines).into_bytes();
    if bytes.len() > output {
        return Written { number: 32, ..Written::default() };
    }
    Written { number: 0, index: 0, bytes }
}

/// The instruction of a record that was found good.
fn line(stores: &Stores, n: usize) -> Line {
    let record = &stores.instructions[RECORD * n..];
    let number = |b: &[u8]| b.iter().rev().fold(0, |n, b| n << 8 | u64::from(*b));
    let mut log = &stores.log[record[5] as usize..];
    let mut operands = vec![];
    for _ in 0..record[6] {
        let (kind, length) = (log[0], if matches!(log[0], 36 | 38 | 40) { 9 } else { 5 });
        operands.push(match kind {
            40 => {
                let (start, length) = (number(&log[1..5]) as usize, number(&log[5..9]) as usize);
                Operand::Text(stores.strings[start..start + length].to_vec())
            }
            _ => Operand::Number(kind, number(&log[1..length])),
        });
        log = &log[length..];
    }
    Line {
        tag: record[1],
        opcode: record[0] as u16,
        result_type: (record[0] & 0x1_0000 != 0).then_some(record[3]),
        result_id: (record[0] & 0x2_0000 != 0).then_some(record[4]),
        operands,
    }
}

/// The whole text: the header's four lines, sections 1 to 11 with the last MemoryModel only, then the functions.
fn text(header: [u32; 5], lines: &[Line]) -> String {
    let mut all = vec![format!(
        "; SPIR-V\n; Version: {}.{}\n; Generator: rspirv\n; Bound: {}",
        header[1] >> 16 & 0xFF,
        header[1] >> 8 & 0xFF,
        header[3]
    )];
    let last_model = lines.iter().rposition(|l| l.tag == 4);
    let mut put = |l: &Line| all.push(words(l, extended(l, lines)).expect("every name is there"));
    for tag in 1..=11 {
        lines.iter().enumerate().filter(|(n, l)| l.tag == tag && (tag != 4 || Some(*n) == last_model)).for_each(|(_, l)| put(l));
    }
    let inside: Vec<&Line> = lines.iter().filter(|l| l.tag >= 12).collect();
    for function in inside.split_inclusive(|l| l.tag == 16) {
        for tags in [&[12][..], &[13], &[14, 15], &[16]] {
            function.iter().filter(|l| tags.contains(&l.tag)).for_each(|l| put(l));
        }
    }
    all.join("\n")
}

/// The name that stands in place of the number of an extended instruction, where it is in a block and its set is recognised.
fn extended(l: &Line, lines: &[Line]) -> Option<&'static str> {
    let [Operand::Number(33, set), Operand::Number(35, number), ..] = l.operands[..] else { return None };
    if l.opcode != 12 || l.tag != 15 {
        return None;
    }
    let names = lines.iter().filter(|i| i.tag == 3 && i.result_id == Some(set as u32)).filter_map(|i| match i.operands.first() {
        Some(Operand::Text(name)) if matches!(&name[..], b"GLSL.std.450" | b"OpenCL.std") => Some(&name[..]),
        _ => None,
    });
    krate::extended_name(names.last()?, number as u32)
}

/// An instruction's text, with a name in place of its second operand; none where a name is missing.
fn words(l: &Line, extended: Option<&str>) -> Option<String> {
    let mut all = String::new();
    if let Some(id) = l.result_id {
        all += &format!("%{id} = ");
    }
    all += &format!("Op{}", krate::opcode_name(l.opcode)?);
    if let Some(id) = l.result_type {
        all += &format!("  %{id}");
        all += if l.operands.is_empty() { "" } else { " " };
    }
    for (n, o) in l.operands.iter().enumerate() {
        all.push(' ');
        match extended {
            Some(name) if n == 1 => all += name,
            _ => all += &operand(o)?,
        }
    }
    Some(all)
}

fn operand(o: &Operand) -> Option<String> {
    Some(match o {
        Operand::Number(31..=33, id) => format!("%{id}"),
        Operand::Number(34..=36, n) => n.to_string(),
        Operand::Number(37, bits) => format!("0x{bits:08X}"),
        Operand::Number(38, bits) => format!("0x{bits:016X}"),
        Operand::Number(39, opcode) => krate::embedded_name(*opcode as u32)?,
        Operand::Number(kind, value) => krate::enumerant_name(*kind, *value as u32)?,
        Operand::Text(bytes) => {
            let quoted = bytes.iter().map(|b| match b {
                b'"' | b'\\' => format!("\\{}", *b as char),
                0x20..=0x7E => (*b as char).to_string(),
                _ => format!("\\x{b:02X}"),
            });
            format!("\"{}\"", quoted.collect::<String>())
        }
    })
}
