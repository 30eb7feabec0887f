//! Inputs that are grown: modules of any size from the grammar, and longer shaders from the project's own.

use crate::grow::{bytes_of, inst, text, Rng, H};
use crate::reading::{is_mask, layout_kind, Grammar, Kind, Row, ONE, ZERO_OR_ONE};

/// What the results of a module are.
#[derive(Clone, Copy, PartialEq, Eq)]
pub enum Results {
    /// Of scalar types, each with the next id: as many type entries as there are results.
    Rising,
    /// Of scalar types, with ids from 100 to 32,767 over and over.
    Low,
    /// Of scalar types, with ids that fall, all above 32,768.
    Falling,
    /// Of vector types, each with the next id: no type entries but those of the eleven scalar types.
    Vectors,
}

impl Results {
    pub fn named(name: &str) -> Option<Results> {
        Some(match name {
            "rising" => Results::Rising,
            "low" => Results::Low,
            "falling" => Results::Falling,
            "vectors" => Results::Vectors,
            _ => return None,
        })
    }
}

/// Width, and the words after it: signedness of an integer, none of a float.
const SCALARS: [(u32, &[u32]); 11] =
    [(8, &[0]), (8, &[1]), (16, &[0]), (16, &[1]), (32, &[0]), (32, &[1]), (64, &[0]), (64, &[1]), (16, &[]), (32, &[]), (64, &[])];

struct Growing<'a> {
    rng: Rng,
    grammar: &'a Grammar,
    words: Vec<u32>,
    results: Results,
    last: u32,
}

impl Growing<'_> {
    fn new_id(&mut self) -> u32 {
        self.last = match self.results {
            Results::Rising | Results::Vectors => self.last + 1,
            Results::Low => 100 + (self.last - 100 + 1) % 32_668,
            Results::Falling => self.last - 1,
        };
        self.last
    }

    /// An id of those given lately.
    fn id(&mut self) -> u32 {
        let back = self.rng.below(64) as u32;
        match self.results {
            Results::Falling => self.last.saturating_add(back),
            _ => self.last.saturating_sub(back).max(1),
        }
    }

    /// The index of a scalar type and the id to give as a result type: its own, or its vector's.
    fn result_type(&mut self) -> (usize, u32) {
        let n = self.rng.below(SCALARS.len());
        (n, 1 + n as u32 + if self.results == Results::Vectors { 11 } else { 0 })
    }

    fn operand(&mut self, kind: u8, out: &mut Vec<u32>) {
        match kind {
            31..=33 => out.push(self.id()),
            34 | 35 => out.push(self.rng.below(100) as u32),
            40 => out.extend(text(&b"a name of some length"[..self.rng.below(22)])),
            50 | 51 => out.extend([self.id(), self.id()]),
            _ => {
                let listed: Vec<u32> = self.grammar.enumerants.iter().filter(|e| e.kind == kind).map(|e| e.value).collect();
                let mut value = self.rng.pick(&listed);
                if is_mask(kind) && self.rng.chance(30) {
                    value |= self.rng.pick(&listed);
                }
                out.push(value);
                for parameter in self.grammar.parameters(kind, value) {
                    self.operand(parameter, out);
                }
            }
        }
    }

    fn instruction(&mut self, row: &Row) {
        let mut rest = vec![];
        for &(kind, quantifier) in &row.operands {
            let times = match quantifier {
                ONE => 1,
                ZERO_OR_ONE => self.rng.below(2),
                _ => self.rng.below(4),
            };
            for _ in 0..times {
                match kind {
                    46 => rest.push(self.result_type().1),
                    47 => rest.push(self.new_id()),
                    _ => self.operand(kind, &mut rest),
                }
            }
            if times == 0 {
                break;
            }
        }
        self.words.extend(inst(row.opcode, &rest));
    }
}

/// A module of at least this many bytes and not many more. Eleven scalar types and a vector type of each come first; an eighth of the
/// bytes are constants of scalar types (none with `Vectors`); the rest are functions of one block of 200 instructions, drawn evenly
/// from the grammar's rows that stand in a block alone.
pub fn module(grammar: &Grammar, results: Results, least: usize) -> Vec<u8> {
    let rows: Vec<&Row> = grammar.rows.iter().filter(|r| layout_kind(r.opcode) == Kind::Other).collect();
    let last = if results == Results::Falling { u32::MAX - 100 } else { 100 };
    let mut all = Growing { rng: Rng(1), grammar, words: H.to_vec(), results, last };
    all.words.extend(inst(17, &[1]));
    all.words.extend(inst(14, &[0, 1]));
    for (n, (width, signedness)) in SCALARS.iter().enumerate() {
        let opcode = if signedness.is_empty() { 22 } else { 21 };
        all.words.extend(inst(opcode, &[&[1 + n as u32, *width], *signedness].concat()));
    }
    for n in 0..SCALARS.len() as u32 {
        all.words.extend(inst(23, &[12 + n, 1 + n, 4]));
    }
    all.words.extend(inst(19, &[23]));
    all.words.extend(inst(33, &[24, 23]));
    while results != Results::Vectors && 32 * all.words.len() < least {
        let (n, result_type) = all.result_type();
        let mut rest = vec![result_type, all.new_id()];
        rest.extend((0..if SCALARS[n].0 == 64 { 2 } else { 1 }).map(|_| all.rng.next() as u32));
        all.words.extend(inst(43, &rest));
    }
    while 4 * all.words.len() < least {
        let (function, label) = (all.new_id(), all.new_id());
        all.words.extend(inst(54, &[23, function, 0, 24]));
        all.words.extend(inst(248, &[label]));
        for _ in 0..200 {
            let row = rows[all.rng.below(rows.len())];
            all.instruction(row);
            if 4 * all.words.len() + 8 >= least {
                break;
            }
        }
        all.words.extend(inst(253, &[]));
        all.words.extend(inst(56, &[]));
    }
    bytes_of(&all.words)
}

/// An ill-meant module of so many bytes at most: an integer type and undefined values with falling ids, the greatest first. Each is of that
/// type, or of the value before it.
pub fn undefined(chained: bool, most: usize) -> Vec<u8> {
    let mut words = H.to_vec();
    words[3] = u32::MAX;
    words.extend([inst(17, &[1]), inst(14, &[0, 1]), inst(21, &[1, 32, 0])].concat());
    let (mut of, mut id) = (1, u32::MAX);
    while 4 * words.len() + 12 <= most {
        id -= 1;
        words.extend(inst(1, &[of, id]));
        of = if chained { id } else { 1 };
    }
    bytes_of(&words)
}

/// A longer shader from one of the project's own: its declarations once, its functions this many times under new names, and a main
/// that calls what was main, one after the other.
pub fn shader(source: &str, copies: usize) -> String {
    let begins = |line: &str| line.starts_with("void ") || line.starts_with("float ");
    let split = source.lines().position(begins).expect("a function");
    let (head, functions): (Vec<&str>, Vec<&str>) = (source.lines().take(split).collect(), source.lines().skip(split).collect());
    let names: Vec<&str> = functions
        .iter()
        .filter(|line| begins(line))
        .map(|line| line.split_once(' ').expect("a type and a name").1.split('(').next().expect("a name"))
        .collect();
    let mut out = head.join("\n") + "\n";
    for n in 0..copies {
        for line in &functions {
            out += &renamed(line, &names, n);
            out.push('\n');
        }
    }
    out += "void main() {\n";
    (0..copies).for_each(|n| out += &format!("    main_{n}();\n"));
    out + "}\n"
}

/// The line with `_n` after each of the names, where it stands as a whole word.
fn renamed(line: &str, names: &[&str], n: usize) -> String {
    let part = |c: char| c.is_ascii_alphanumeric() || c == '_';
    let mut out = String::new();
    let mut rest = line;
    while !rest.is_empty() {
        let end = rest.find(|c| !part(c)).unwrap_or(rest.len());
        let (word, after) = rest.split_at(end.max(if end == 0 { rest.chars().next().map_or(1, char::len_utf8) } else { end }));
        out += word;
        if names.contains(&word) {
            out += &format!("_{n}");
        }
        rest = after;
    }
    out
}
