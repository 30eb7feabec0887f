//! Seeded inputs for `against` and `cases`. Nothing here judges anything: a wrong guess of the
//! grower only makes a module that is refused.

use crate::reading::*;
use std::collections::HashMap;

/// Splitmix64: small, seeded, repeatable.
pub struct Rng(pub u64);

impl Rng {
    pub fn next(&mut self) -> u64 {
        self.0 = self.0.wrapping_add(0x9E37_79B9_7F4A_7C15);
        let mut z = self.0;
        z = (z ^ (z >> 30)).wrapping_mul(0xBF58_476D_1CE4_E5B9);
        z = (z ^ (z >> 27)).wrapping_mul(0x94D0_49BB_1331_11EB);
        z ^ (z >> 31)
    }
    pub fn below(&mut self, n: usize) -> usize {
        (self.next() % n as u64) as usize
    }
    pub fn chance(&mut self, percent: usize) -> bool {
        self.below(100) < percent
    }
    pub fn pick<T: Copy>(&mut self, from: &[T]) -> T {
        from[self.below(from.len())]
    }
}

pub fn bytes_of(words: &[u32]) -> Vec<u8> {
    words.iter().flat_map(|w| w.to_le_bytes()).collect()
}

/// The header that docs/REFERENCE.md calls H.
pub const H: [u32; 5] = [MAGIC, 0x0001_0000, 0, 0, 0];

/// H and these words, as bytes.
pub fn module(words: &[u32]) -> Vec<u8> {
    let mut all = H.to_vec();
    all.extend(words);
    bytes_of(&all)
}

/// An instruction's words from opcode and the words after the first.
pub fn inst(opcode: u16, rest: &[u32]) -> Vec<u32> {
    let mut words = vec![(rest.len() as u32 + 1) << 16 | u32::from(opcode)];
    words.extend(rest);
    words
}

/// A string as words, with its zero.
pub fn text(bytes: &[u8]) -> Vec<u32> {
    let mut all = bytes.to_vec();
    all.push(0);
    all.resize(all.len().div_ceil(4) * 4, 0);
    all.chunks(4).map(|c| u32::from_le_bytes([c[0], c[1], c[2], c[3]])).collect()
}

/// Grammar bytes of rows and enumerants, well-formed or not.
pub fn grammar_bytes(rows: &[(u16, &[(u8, u8)])], enumerants: &[(u8, u32, &[u8])]) -> Vec<u8> {
    let mut out = vec![];
    for (opcode, operands) in rows {
        out.push(1);
        out.extend(opcode.to_le_bytes());
        operands.iter().for_each(|(kind, quantifier)| out.extend([2, *kind, *quantifier]));
    }
    for (kind, value, parameters) in enumerants {
        out.extend([3, *kind]);
        out.extend(value.to_le_bytes());
        parameters.iter().for_each(|kind| out.extend([4, *kind]));
    }
    out
}

/// The four slice lengths that always suffice: W records, 9W log bytes, 4W string bytes, W entries.
pub fn enough(module: &[u8]) -> [usize; 4] {
    let w = (module.len() / 4).saturating_sub(5);
    [RECORD * w, 9 * w, 4 * w, 3 * w]
}

/// How much of a row's optional and repeated operands an instruction gets.
#[derive(Clone, Copy, PartialEq, Eq)]
pub enum Fill {
    Full,
    Random,
}

/// Grows modules from a grammar, keeping track of what later literals need.
pub struct Grower<'a> {
    pub rng: Rng,
    grammar: &'a Grammar,
    /// id to (width, float), as far as the grower knows
    types: HashMap<u32, (u32, bool)>,
    ids: Vec<u32>,
    last_id: u32,
}

impl<'a> Grower<'a> {
    pub fn new(grammar: &'a Grammar, seed: u64) -> Grower<'a> {
        Grower { rng: Rng(seed), grammar, types: HashMap::new(), ids: vec![], last_id: 0 }
    }

    /// Forget the ids of the module before.
    pub fn start(&mut self) {
        self.types.clear();
        self.ids.clear();
        self.last_id = 0;
    }

    fn id(&mut self) -> u32 {
        match self.rng.below(10) {
            0..=6 if !self.ids.is_empty() => self.rng.pick(&self.ids),
            0..=8 => 1 + self.rng.below(30) as u32,
            _ => self.rng.next() as u32,
        }
    }

    fn literal_words(&mut self, id: u32) -> Vec<u32> {
        let long = matches!(self.types.get(&id), Some((64, _)));
        (0..if long { 2 } else { 1 }).map(|_| self.rng.next() as u32 >> self.rng.below(32)).collect()
    }

    fn string(&mut self) -> Vec<u32> {
        const PIECES: [&str; 12] = ["a", "b", "main", "\\", "\"", "ä", "€", "𝄞", "\u{7f}", "\u{800}", "\u{d7ff}", "\u{10ffff}"];
        let mut s = vec![];
        for _ in 0..self.rng.below(5) {
            s.extend(self.rng.pick(&PIECES).as_bytes());
        }
        let mut words = text(&s);
        if self.rng.chance(4) && s.len() % 4 < 3 {
            *words.last_mut().unwrap() |= 0x0100_0000; // padding that is not zero
        }
        words
    }

    fn enumerant_value(&mut self, kind: u8) -> u32 {
        let listed: Vec<u32> = self.grammar.enumerants.iter().filter(|e| e.kind == kind).map(|e| e.value).collect();
        if listed.is_empty() {
            return 0;
        }
        let mut value = self.rng.pick(&listed);
        if is_mask(kind) {
            while self.rng.chance(50) {
                value |= self.rng.pick(&listed);
            }
        }
        value
    }

    /// The words of one operand that asks nothing of its row.
    fn operand(&mut self, kind: u8) -> Vec<u32> {
        match kind {
            31..=33 => vec![self.id()],
            34 | 35 => vec![self.rng.next() as u32 >> self.rng.below(32)],
            40 => self.string(),
            50 | 51 => vec![self.id(), self.id()],
            _ => {
                let value = self.enumerant_value(kind);
                self.enumerant(kind, value)
            }
        }
    }

    fn enumerant(&mut self, kind: u8, value: u32) -> Vec<u32> {
        let mut words = vec![value];
        for parameter in self.grammar.parameters(kind, value) {
            words.extend(self.operand(parameter));
        }
        words
    }

    fn embedded(&mut self, number: u32) -> Vec<u32> {
        let mut words = vec![number];
        if self.rng.chance(3) {
            words[0] |= 0x0001_0000; // high bits are not looked at
        }
        let operands = self.grammar.row(number as u16).map_or(vec![], |r| r.operands.clone());
        for (kind, _) in operands {
            if !matches!(kind, 39 | 46..=49) {
                words.extend(self.operand(kind));
            }
        }
        words
    }

    /// An instruction of this row. `wish`, where the row has that kind: the value of the first
    /// operand of an enumerant kind, or the number embedded at 39.
    pub fn instruction(&mut self, row: &Row, fill: Fill, wish: Option<(u8, u32)>) -> Vec<u32> {
        let mut rest = vec![];
        let (mut result_type, mut result_id, mut selector) = (None, None, None);
        let mut wish = wish;
        for (n, &(kind, quantifier)) in row.operands.iter().enumerate() {
            let times = match (quantifier, fill) {
                (ONE, _) => 1,
                (ZERO_OR_ONE, Fill::Full) => 1,
                (_, Fill::Full) => 2,
                (ZERO_OR_ONE, _) => self.rng.below(2),
                _ => self.rng.below(4),
            };
            if times == 0 {
                break;
            }
            for _ in 0..times {
                match kind {
                    46 => {
                        let mut numeric: Vec<u32> = self.types.keys().copied().collect();
                        numeric.sort();
                        let id = if !numeric.is_empty() && self.rng.chance(80) { self.rng.pick(&numeric) } else { self.id() };
                        result_type = Some(id);
                        rest.push(id);
                    }
                    47 => {
                        let id = if self.rng.chance(6) { self.id() } else { self.last_id + 1 };
                        self.last_id += 1;
                        result_id = Some(id);
                        rest.push(id);
                    }
                    48 => {
                        let words = self.literal_words(result_type.unwrap_or(0));
                        rest.extend(words);
                    }
                    49 => {
                        let words = self.literal_words(selector.unwrap_or(0));
                        rest.extend(words);
                        rest.push(self.id());
                    }
                    39 => {
                        let number = match wish.take() {
                            Some((39, number)) => number,
                            _ => {
                                let n = self.rng.below(self.grammar.rows.len());
                                u32::from(self.grammar.rows[n].opcode)
                            }
                        };
                        let words = self.embedded(number);
                        rest.extend(words);
                    }
                    34 if matches!(row.opcode, 21 | 22) => {
                        let widths: &[u32] = if self.rng.chance(92) { &[8, 16, 32, 64, 64] } else { &[0, 1, 24, 65, 128] };
                        let number = if n == 1 { self.rng.pick(widths) } else { self.rng.pick(&[0, 1, 1, 2]) };
                        rest.push(number);
                    }
                    _ if wish.is_some_and(|w| w.0 == kind) => {
                        let words = self.enumerant(kind, wish.take().unwrap().1);
                        rest.extend(words);
                    }
                    _ => {
                        let words = self.operand(kind);
                        if selector.is_none() {
                            selector = Some(words[0]);
                        }
                        rest.extend(words);
                    }
                }
            }
        }
        if let Some(id) = result_id {
            self.ids.push(id);
            let known = match row.opcode {
                21 => Some((rest[1], false)),
                22 => Some((rest[1], true)),
                opcode if is_type(opcode) => None,
                _ => result_type.and_then(|t| self.types.get(&t).copied()),
            };
            if let Some(known) = known {
                self.types.insert(id, known);
            }
        }
        inst(row.opcode, &rest)
    }

    fn any_row(&mut self, wanted: impl Fn(Kind) -> bool) -> Option<Row> {
        let rows: Vec<&Row> = self.grammar.rows.iter().filter(|r| wanted(layout_kind(r.opcode))).collect();
        if rows.is_empty() {
            return None;
        }
        Some(rows[self.rng.below(rows.len())].clone())
    }

    fn header(&mut self) -> Vec<u32> {
        if self.rng.chance(30) {
            return H.to_vec();
        }
        vec![MAGIC, self.rng.next() as u32, self.rng.next() as u32, self.rng.next() as u32 >> 20, self.rng.next() as u32]
    }

    /// A module of about this many instructions. Orderly ones have sections and parameters first,
    /// the others tags 1 to 11 anywhere. Most are accepted.
    pub fn module(&mut self, steps: usize, orderly: bool) -> Vec<u8> {
        self.start();
        let mut words = self.header();
        let mut state = State::Outside;
        let mut tag = 1u32; // orderly: the section reached; 12 once a function has begun
        let mut after_label = false;
        if self.rng.chance(60) && !orderly {
            for _ in 0..self.rng.below(4) {
                let opcode = if self.rng.chance(60) { 21 } else { 22 };
                if let Some(row) = self.grammar.row(opcode).cloned() {
                    words.extend(self.instruction(&row, Fill::Random, None));
                }
            }
        }
        for _ in 0..steps {
            let dice = self.rng.below(100);
            let small = |k: Kind| matches!(k, Kind::Line | Kind::Variable);
            let row = if dice < 1 {
                self.any_row(|_| true)
            } else {
                match state {
                    State::Outside if orderly && tag <= 11 => {
                        tag += if self.rng.chance(40) { 1 } else { 0 };
                        let now = tag;
                        if now == 4 {
                            tag = 5;
                        }
                        if now == 12 {
                            self.any_row(|k| k == Kind::Function)
                        } else {
                            self.any_row(|k| k == Kind::Tag(now) || now == 11 && small(k))
                        }
                    }
                    State::Outside if orderly => self.any_row(|k| k == Kind::Function),
                    State::Outside => match dice {
                        0..=14 => self.any_row(small),
                        15..=34 => self.any_row(|k| k == Kind::Function),
                        35..=54 => self.any_row(|k| k == Kind::Tag(11)),
                        _ => {
                            let tag = 1 + self.rng.below(10) as u32;
                            self.any_row(|k| k == Kind::Tag(tag))
                        }
                    },
                    State::Function => match dice {
                        0..=19 if !(orderly && after_label) => self.any_row(|k| k == Kind::FunctionParameter),
                        20..=59 => self.any_row(|k| k == Kind::Label),
                        60..=84 => self.any_row(|k| k == Kind::FunctionEnd),
                        85..=91 if !orderly => self.any_row(|k| k == Kind::Line),
                        _ if !orderly => self.any_row(|k| matches!(k, Kind::Tag(_))),
                        _ => self.any_row(|k| k == Kind::Label),
                    },
                    State::Block => match dice {
                        0..=54 => self.any_row(|k| k == Kind::Other),
                        55..=64 => self.any_row(small),
                        65..=89 => self.any_row(|k| k == Kind::Terminator),
                        90..=92 if !orderly => self.any_row(|k| k == Kind::FunctionParameter),
                        _ if !orderly => self.any_row(|k| matches!(k, Kind::Tag(_))),
                        _ => self.any_row(|k| k == Kind::Terminator),
                    },
                }
            };
            let Some(row) = row else { continue };
            if let Ok((tag, next)) = layout(layout_kind(row.opcode), state) {
                state = next;
                after_label = tag != 12 && (after_label || tag == 14);
            }
            words.extend(self.instruction(&row, Fill::Random, None));
        }
        if self.rng.chance(97) {
            words.extend(closing(state));
        }
        let mut bytes = bytes_of(&words);
        if self.rng.chance(5) {
            for _ in 0..1 + self.rng.below(3) {
                bytes.push(self.rng.next() as u8);
            }
        }
        bytes
    }

    /// A copy with one to three faults.
    pub fn damage(&mut self, module: &[u8]) -> Vec<u8> {
        let mut bytes = module.to_vec();
        for _ in 0..1 + self.rng.below(3) * self.rng.below(2) {
            if bytes.len() < 24 {
                break;
            }
            let starts = starts(&bytes);
            let start = if starts.is_empty() { 20 } else { self.rng.pick(&starts) };
            let word = self.rng.below(bytes.len() / 4) * 4;
            match self.rng.below(14) {
                0 => {
                    let n = self.rng.below(bytes.len());
                    bytes.truncate(n);
                }
                1 => {
                    let n = 20 + self.rng.below(bytes.len() - 20);
                    bytes.truncate(n);
                }
                2 => {
                    let n = self.rng.below(bytes.len());
                    bytes[n] ^= 1 << self.rng.below(8);
                }
                3 => {
                    let n = 20 + self.rng.below(bytes.len() - 20);
                    bytes[n] = self.rng.next() as u8;
                }
                4 | 5 if start + 4 <= bytes.len() => {
                    let count = u16::from_le_bytes([bytes[start + 2], bytes[start + 3]]);
                    let count = match self.rng.below(4) {
                        0 => count.wrapping_add(1),
                        1 => count.wrapping_sub(1),
                        2 => self.rng.below(12) as u16,
                        _ => self.rng.next() as u16,
                    };
                    bytes[start + 2..start + 4].copy_from_slice(&count.to_le_bytes());
                }
                6 if start + 4 <= bytes.len() => {
                    let n = self.rng.below(self.grammar.rows.len());
                    let opcode = if self.rng.chance(80) { self.grammar.rows[n].opcode } else { self.rng.next() as u16 };
                    bytes[start..start + 2].copy_from_slice(&opcode.to_le_bytes());
                }
                7 => {
                    bytes.drain(word..word + 4);
                }
                8 => {
                    let new = self.rng.next() as u32 >> self.rng.below(32);
                    bytes.splice(word..word, new.to_le_bytes());
                }
                9 if starts.len() > 1 => {
                    // leave an instruction out
                    let n = self.rng.below(starts.len());
                    let end = starts.get(n + 1).copied().unwrap_or(bytes.len());
                    bytes.drain(starts[n]..end);
                }
                10 if starts.len() > 1 => {
                    // an instruction a second time, somewhere
                    let n = self.rng.below(starts.len());
                    let end = starts.get(n + 1).copied().unwrap_or(bytes.len());
                    let copy = bytes[starts[n]..end].to_vec();
                    bytes.splice(start..start, copy);
                }
                _ => {
                    let new = match self.rng.below(3) {
                        0 => self.rng.below(70) as u32,
                        1 => 1 << self.rng.below(32),
                        _ => self.rng.next() as u32,
                    };
                    bytes[word..word + 4].copy_from_slice(&new.to_le_bytes());
                }
            }
        }
        bytes
    }
}

/// Offsets of the instructions, as far as word counts lead.
pub fn starts(bytes: &[u8]) -> Vec<usize> {
    let (mut at, mut all) = (20, vec![]);
    while at + 4 <= bytes.len() {
        let count = usize::from(u16::from_le_bytes([bytes[at + 2], bytes[at + 3]]));
        all.push(at);
        if count == 0 {
            break;
        }
        at += 4 * count;
    }
    all
}

/// Words that lead from outside to a state: OpFunction, OpLabel.
pub fn opening(state: State) -> Vec<u32> {
    let function = inst(54, &[90, 91, 0, 92]);
    match state {
        State::Outside => vec![],
        State::Function => function,
        State::Block => [function, inst(248, &[93])].concat(),
    }
}

/// Words that lead from a state to outside: OpReturn, OpFunctionEnd.
pub fn closing(state: State) -> Vec<u32> {
    match state {
        State::Outside => vec![],
        State::Function => inst(56, &[]),
        State::Block => [inst(253, &[]), inst(56, &[])].concat(),
    }
}

pub const STATES: [(State, &str); 3] = [(State::Outside, "outside"), (State::Function, "function"), (State::Block, "block")];
