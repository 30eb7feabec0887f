//! The inputs: systematic ones once, random ones in rounds. All of them follow from the seed, whatever the number of threads.

use crate::judge::Judge;
use compare::books::{old_of, Turn};
use compare::cases::{self, Input};
use compare::grow::*;
use compare::joining;
use compare::reading::*;
use std::sync::Arc;

/// A part of the work, done by one thread.
pub type Job<'a> = Box<dyn Fn(&mut Judge) + Send + Sync + 'a>;

/// Everything that is listed rather than drawn.
pub fn systematic<'a>(builtin: &'a Grammar, shaders: &'a [Vec<u8>], seed: u64) -> Vec<Job<'a>> {
    let mut jobs: Vec<Job> = vec![];
    jobs.push(Box::new(huge));
    jobs.push(Box::new(|judge| cases::fittings().iter().for_each(|m| judge.module("fittings", m))));
    let cases = Arc::new(cases::all(builtin));
    for part in 0..16 {
        let cases = cases.clone();
        jobs.push(Box::new(move |judge| cases.iter().skip(part).step_by(16).for_each(|case| named(judge, &case.input))));
    }
    for part in 0..builtin.rows.len().div_ceil(16) {
        jobs.push(Box::new(move |judge| rows(judge, builtin, part * 16, seed)));
    }
    let wishes = wishes(builtin);
    for part in 0..wishes.len().div_ceil(64) {
        let some: Vec<(u8, u32)> = wishes.iter().skip(64 * part).take(64).copied().collect();
        jobs.push(Box::new(move |judge| wished(judge, builtin, &some, mix(seed, part as u64))));
    }
    for kind in (1..=30).chain(41..=45) {
        jobs.push(Box::new(move |judge| enumerant_calls(judge, builtin, kind)));
    }
    for width in (0..=130).chain([255, 256, 0x4000_0000, u32::MAX]) {
        jobs.push(Box::new(move |judge| widths(judge, width)));
    }
    for length in 0..18 {
        jobs.push(Box::new(move |judge| strings(judge, length)));
    }
    for bound in [0, 2_048, 2_049, 2_560, 2_561, 8_192, 32_768, 32_769, 491_520, 491_521, u32::MAX] {
        jobs.push(Box::new(move |judge| typed_ids(judge, bound)));
    }
    for bound in [0, 2_561, 32_769, u32::MAX] {
        jobs.push(Box::new(move |judge| untyped_ids(judge, bound)));
    }
    // types come to the 65,536th entry, or constants do
    for entries in [3_000, 65_530, 65_533] {
        for bound in [0, u32::MAX] {
            jobs.push(Box::new(move |judge| late_ids(judge, entries, bound)));
        }
    }
    for (n, shader) in shaders.iter().enumerate() {
        jobs.push(Box::new(move |judge| whole_shader(judge, shader, mix(seed, 1000 + n as u64))));
    }
    jobs
}

/// A seed from two numbers.
pub fn mix(a: u64, b: u64) -> u64 {
    Rng(a.wrapping_mul(0xD134_2543_DE82_EF95) ^ b).next()
}

/// 31, and modules of exactly the most bytes.
fn huge(judge: &mut Judge) {
    let mut m = vec![0; MOST_MODULE_BYTES + 1];
    judge.load("huge", &m, None, [64; 4]);
    judge.load("huge", &m, Some(&[5]), [64; 4]);
    judge.load("huge", &m, Some(&[]), [64; 4]);
    m[..20].copy_from_slice(&module(&[]));
    judge.load("huge", &m, None, [64; 4]);
    m.pop();
    judge.load("huge", &m, None, [64; 4]);
    m[20..24].copy_from_slice(&0x0001_013Du32.to_le_bytes());
    judge.load("huge", &m, None, [64; 4]);
}

// TYPES OF IDS, at every border of the index by which the library finds them

/// Where the index changes its ways: sixteen ids to a number of marks; slots of an id's own, and shared ones; the ids that have marks,
/// in short modules and long ones; the greatest guess.
const BORDERS: [u32; 10] = [16, 512, 2_048, 2_560, 8_192, 30_720, 32_768, 65_536, 491_520, 1 << 31];

/// A module is short up to so many bytes.
const SHORT: usize = 16_384;

/// Rising ids around the borders, and some that share a slot with those.
fn border_ids() -> Vec<u32> {
    let around = |b: &u32| [b - 2, b - 1, *b, b + 1, b + 2_047, b + 2_048];
    let mut ids: Vec<u32> = BORDERS.iter().flat_map(around).chain([u32::MAX - 1, u32::MAX]).collect();
    ids.sort();
    ids.dedup();
    ids
}

/// The orders in which ids come: rising, falling, from both ends in turn.
fn orders(ids: &[u32]) -> [Vec<u32>; 3] {
    let zigzag = (0..ids.len()).map(|n| if n % 2 == 0 { ids[n / 2] } else { ids[ids.len() - 1 - n / 2] });
    [ids.to_vec(), ids.iter().rev().copied().collect(), zigzag.collect()]
}

/// A constant by an id's type. A literal that is read by a wrong type has another length, and is refused.
fn constant(id: u32, width: u32) -> Vec<u32> {
    let literal: &[u32] = if width == 64 { &[7, 1] } else { &[7] };
    inst(43, &[&[id, 200_000 + id % 100], literal].concat())
}

/// Each id as a type of this width, and a constant of it.
fn as_types(ids: &[u32], width: u32) -> Vec<u32> {
    ids.iter().flat_map(|id| [inst(21, &[*id, width, 0]), constant(*id, width)].concat()).collect()
}

/// Each id as a value of the type with id 1, which has 32 bits, and a constant by it.
fn as_values(ids: &[u32]) -> Vec<u32> {
    ids.iter().flat_map(|id| [inst(1, &[1, *id]), constant(*id, 32)].concat()).collect()
}

/// A module with this bound in its header and a type with id 1, filled up to so many bytes by a structure.
fn bounded(bound: u32, words: &[u32], bytes: usize) -> Vec<u8> {
    let mut all = H.to_vec();
    all[3] = bound;
    all.extend(inst(21, &[1, 32, 0]));
    let missing = (bytes / 4).saturating_sub(all.len() + words.len());
    if missing >= 2 {
        all.extend(inst(30, &vec![3; missing - 1]));
    }
    all.extend(words);
    bytes_of(&all)
}

/// Ids that get a type in one order and another type in another, in short modules and long ones.
fn typed_ids(judge: &mut Judge, bound: u32) {
    let orders = orders(&border_ids());
    for first in &orders {
        for second in &orders {
            let twice = [as_types(first, 64), as_types(second, 32), as_values(first), as_types(second, 16)].concat();
            for bytes in [0, SHORT, SHORT + 4] {
                judge.module("types by id", &bounded(bound, &twice, bytes));
            }
        }
    }
}

/// An id that has no type, where all others around the borders have one of two words: its constant has one.
fn untyped_ids(judge: &mut Judge, bound: u32) {
    let ids = border_ids();
    for id in &ids {
        let others: Vec<u32> = ids.iter().copied().filter(|other| other != id).collect();
        for order in orders(&others) {
            for bytes in [0, SHORT + 4] {
                judge.module("ids without a type", &bounded(bound, &[as_types(&order, 64), constant(*id, 32)].concat(), bytes));
            }
        }
    }
}

/// Ids that get a type after so many others have one.
fn late_ids(judge: &mut Judge, entries: u32, bound: u32) {
    let [rising, falling, zigzag] = orders(&border_ids());
    let before: Vec<u32> = (0..entries).flat_map(|n| inst(1, &[1, 100_000 + n])).collect();
    let after = [as_types(&rising, 64), as_types(&falling, 32), as_values(&zigzag)].concat();
    judge.module("types after many", &bounded(bound, &[before, after].concat(), 0));
}

fn named(judge: &mut Judge, input: &Input) {
    match input {
        Input::Load { module, grammar: None, rooms } if *rooms == enough(module) => judge.module("named modules", module),
        Input::Load { module, grammar, rooms } => {
            judge.load("named grammars and rooms", module, grammar.as_deref(), *rooms);
        }
        Input::Records { header, stores, output } => judge.records("named records", *header, stores, *output),
        Input::Books { stores } => books("named books", judge, stores),
        Input::Turned { turn, stores, output, turned } => {
            judge.turn_to("named books and what comes of them", *turn, stores, *output, turned)
        }
    }
}

/// A new book and the old one with the first eight words of each record: both turns, into outputs exactly long enough, a word and a record
/// short, longer and empty.
fn books(group: &'static str, judge: &mut Judge, new: &Stores) {
    for (turn, stores) in [(Turn::New, old_of(new)), (Turn::Old, new.clone())] {
        let (from, to) = turn.lengths();
        let needed = to * new.counts[0].min(stores.instructions.len() / from + 2);
        for output in [needed, needed.saturating_sub(1), needed.saturating_sub(to), needed + 7, 0] {
            judge.turn(group, turn, &stores, output);
        }
    }
}

/// The state after a row in a state, where the layout lets it.
fn after(opcode: u16, state: State) -> State {
    layout(layout_kind(opcode), state).map_or(state, |(_, next)| next)
}

/// Sixteen rows: each at every word count in every layout state, and cut at every byte.
fn rows(judge: &mut Judge, builtin: &Grammar, from: usize, seed: u64) {
    let mut grower = Grower::new(builtin, mix(seed, from as u64));
    for row in builtin.rows.iter().skip(from).take(16) {
        for (state, _) in STATES {
            let before = opening(state);
            for fill in [Fill::Full, Fill::Random] {
                grower.start();
                let mut words = grower.instruction(row, fill, None);
                let full = words.len();
                words.extend([1, 2]);
                for count in 0..=words.len() {
                    let mut cut = words[..count.max(1)].to_vec();
                    cut[0] = (count as u32) << 16 | u32::from(row.opcode);
                    judge.module("rows at every word count", &module(&[&before[..], &cut, &closing(after(row.opcode, state))].concat()));
                    // the row at the module's end, whole and a word short
                    if fill == Fill::Full && (count == full || count < 3) {
                        judge.module("rows at every word count", &module(&[&before[..], &cut].concat()));
                        judge.module("rows at every word count", &module(&[&before[..], &cut[..cut.len() - 1]].concat()));
                    }
                }
                if fill == Fill::Full {
                    let whole = module(&[&before[..], &words[..full]].concat());
                    for length in whole.len() - 4 * full..whole.len() {
                        judge.module("rows cut at every byte", &whole[..length]);
                    }
                }
            }
        }
    }
}

/// Values wished for in a row of their kind: every enumerant, its neighbours, every bit and pairs of bits of masks, small and
/// large numbers; embedded opcodes: every row, its neighbours, numbers that are no row, high bits.
fn wishes(grammar: &Grammar) -> Vec<(u8, u32)> {
    let mut all: Vec<(u8, u32)> = vec![];
    for e in &grammar.enumerants {
        all.extend([(e.kind, e.value), (e.kind, e.value.wrapping_sub(1)), (e.kind, e.value.wrapping_add(1))]);
    }
    for kind in (1..=30).chain(41..=45) {
        match is_mask(kind) {
            true => all.extend((0..32).flat_map(|n| [(kind, 1 << n), (kind, 1 << n | 1), (kind, 1 << n | 2)])),
            false => all.extend((0..100).chain([u32::MAX, 1 << 31, 1 << 16]).map(|value| (kind, value))),
        }
    }
    for row in &grammar.rows {
        let opcode = u32::from(row.opcode);
        all.extend([(39, opcode), (39, opcode + 1), (39, opcode.wrapping_sub(1)), (39, opcode | 0x8000_0000)]);
    }
    all.extend((0..0x3_0000).step_by(0x153).map(|number| (39, number)));
    all.sort();
    all.dedup();
    all
}

/// Each wish in the first row that has its kind, at every word count and a word short.
fn wished(judge: &mut Judge, builtin: &Grammar, wishes: &[(u8, u32)], seed: u64) {
    let mut grower = Grower::new(builtin, seed);
    for &(kind, value) in wishes {
        let Some(row) = builtin.rows.iter().find(|r| r.operands.iter().any(|o| o.0 == kind)) else { continue };
        let group = if kind == 39 { "embedded opcodes" } else { "enumerants" };
        grower.start();
        let mut words = grower.instruction(row, Fill::Full, Some((kind, value)));
        words.push(3);
        let state = if layout(layout_kind(row.opcode), State::Outside).is_ok() { State::Outside } else { State::Block };
        for count in 1..=words.len() {
            let mut cut = words[..count].to_vec();
            cut[0] = (count as u32) << 16 | u32::from(row.opcode);
            judge.module(group, &module(&[&opening(state)[..], &cut, &closing(after(row.opcode, state))].concat()));
            if count + 2 >= words.len() {
                judge.module(group, &module(&[&opening(state)[..], &cut[..cut.len() - 1]].concat()));
            }
        }
    }
}

/// One kind's values by the crate's decoder call and, in the library, as the operand of a row of its own.
fn enumerant_calls(judge: &mut Judge, builtin: &Grammar, kind: u8) {
    let of_kind: Vec<&Enumerant> = builtin.enumerants.iter().filter(|e| e.kind == kind).collect();
    let needed: Vec<u8> = of_kind.iter().flat_map(|e| e.parameters.iter().copied()).chain([kind]).collect();
    let row = [(kind, ONE)];
    let rows: [(u16, &[(u8, u8)]); 5] = [(54, &[]), (56, &[]), (248, &[]), (253, &[]), (0xF000, &row)];
    let enumerants: Vec<(u8, u32, &[u8])> =
        builtin.enumerants.iter().filter(|e| needed.contains(&e.kind)).map(|e| (e.kind, e.value, &e.parameters[..])).collect();
    let grammar = grammar_bytes(&rows, &enumerants);
    let mut values: Vec<u32> = of_kind.iter().flat_map(|e| [e.value, e.value.wrapping_sub(1), e.value.wrapping_add(1)]).collect();
    values.extend((0..32).flat_map(|n| [1u32 << n, (1 << n) - 1, 1 << n | 1, !(1 << n)]));
    values.extend([0, u32::MAX, 4428, 7000]);
    values.sort();
    values.dedup();
    for value in values {
        let mut parameters = vec![value];
        if judge.builtin.knows(kind, value) {
            for parameter in judge.builtin.parameters(kind, value) {
                parameters.push(if parameter == 40 {
                    0x6261
                } else {
                    judge.builtin.enumerants.iter().find(|e| e.kind == parameter).map_or(1, |e| e.value)
                });
            }
        }
        let m = module(&[inst(54, &[]), inst(248, &[]), inst(0xF000, &parameters), inst(253, &[]), inst(56, &[])].concat());
        judge.enumerant("enumerants by the decoder's call", &grammar, &m, 32, kind, value);
    }
}

/// A type of this width with constants and switches of one and two words, ids defined twice.
fn widths(judge: &mut Judge, width: u32) {
    let define = |float: bool, id: u32, width: u32, sign: u32| if float { inst(22, &[id, width]) } else { inst(21, &[id, width, sign]) };
    let mut put = |parts: &[&[u32]]| judge.module("literals at every width", &module(&parts.concat()));
    for float in [false, true] {
        for long in 0..4u32 {
            let literal: Vec<u32> = (0..long).map(|n| 7 + n).collect();
            let constant = |opcode| inst(opcode, &[&[2, 3][..], &literal].concat());
            put(&[&define(float, 2, width, long), &constant(43)]);
            put(&[&define(float, 2, width, 1), &constant(50)]);
            let pair = [&literal[..], &[6]].concat();
            let switches = [inst(251, &[&[4, 5][..], &pair, &pair].concat()), inst(251, &[&[4, 5][..], &pair].concat())];
            let value = inst(1, &[2, 4]);
            for switch in switches {
                let body = [&opening(State::Block)[..], &switch, &inst(56, &[])].concat();
                put(&[&define(float, 2, width, 0), &value, &body]);
                put(&[&define(float, 2, width, 0), &define(!float, 2, 64, 0), &value, &inst(19, &[4]), &body]);
                put(&[&define(float, 2, 64, 0), &value, &define(float, 2, width, 0), &inst(46, &[2, 4]), &body]);
            }
        }
    }
}

/// Sequences that are not well-formed UTF-8, one of each kind: stray, overlong, surrogate, too large, cut.
const ILL_FORMED: [&[u8]; 20] = [
    &[0x80],
    &[0xBF],
    &[0xC0, 0x80],
    &[0xC1, 0xBF],
    &[0xC2],
    &[0xC2, 0x41],
    &[0xE0, 0x9F, 0xBF],
    &[0xE0, 0xA0],
    &[0xE1, 0x80, 0xC0],
    &[0xED, 0xA0, 0x80],
    &[0xED, 0xBF, 0xBF],
    &[0xEF, 0x7F, 0x80],
    &[0xF0, 0x8F, 0xBF, 0xBF],
    &[0xF0, 0x90, 0x80],
    &[0xF1, 0x80, 0x80, 0x41],
    &[0xF4, 0x90, 0x80, 0x80],
    &[0xF5, 0x80, 0x80, 0x80],
    &[0xF8, 0x88, 0x80, 0x80],
    &[0xFE],
    &[0xFF],
];

/// A string of this length in OpString and OpEntryPoint: every byte after its zero, every word count, every cut; in its middle
/// what is not UTF-8.
fn strings(judge: &mut Judge, length: usize) {
    let group = "strings";
    let text_of = |bytes: &[u8]| [bytes, &vec![0; 4 * (bytes.len() / 4 + 1) - bytes.len()]].concat();
    let string_of = |bytes: &[u8], words: u32| [module(&[(2 + words) << 16 | 7, 1]), text_of(bytes)].concat();
    let words = (length / 4 + 1) as u32;
    let letters: Vec<u8> = (0..length).map(|n| b'a' + n as u8).collect();
    let whole = string_of(&letters, words);
    for claimed in 0..words + 4 {
        judge.module(group, &string_of(&letters, claimed));
        judge.module(group, &[string_of(&letters, claimed), module(&[])[..12].to_vec()].concat());
    }
    for cut in 20..whole.len() {
        judge.module(group, &whole[..cut]);
    }
    for at in 28 + length + 1..whole.len() {
        for byte in [1, 0x41, 0x80, 0xFF] {
            let mut padded = whole.clone();
            padded[at] = byte;
            judge.module(group, &padded);
        }
    }
    for bad in ILL_FORMED {
        for at in 0..=length {
            let mut text = letters.clone();
            text.splice(at..at, bad.iter().copied());
            judge.module(group, &string_of(&text, (text.len() / 4 + 1) as u32));
            // the bad bytes last before the zero, and the zero missing
            judge.module(group, &string_of(&text, (text.len() / 4) as u32));
        }
    }
    for first in 0..=255u8 {
        let mut text = letters.clone();
        text.push(first);
        text.extend([0x80, 0x80, 0x80].iter().take(length % 4));
        judge.module(group, &string_of(&text, (text.len() / 4 + 1) as u32));
    }
    let entry = [&[0, 1][..], &text(&letters), &[5, 6]].concat();
    judge.module(group, &module(&inst(15, &entry)));
    judge.module(group, &module(&[inst(15, &entry), inst(5, &[&[1][..], &text(&letters)].concat()), inst(5, &[2, 0])].concat()));
}

/// A real shader as it is, cut at some bytes, in every store a word or byte short of what it needs.
fn whole_shader(judge: &mut Judge, shader: &[u8], seed: u64) {
    judge.module("shaders", shader);
    let mut rng = Rng(seed);
    for _ in 0..40 {
        let cut = rng.below(shader.len() + 1);
        judge.module("shaders", &shader[..cut]);
    }
    judge.any_numbers("records with any function and block numbers", shader, || random_number(&mut rng));
    judge.there_and_back("books turned and back", shader);
    (0..20).for_each(|_| random_books(judge, &mut rng, shader));
    let load = load_with(shader, judge.builtin, enough(shader));
    let [records, log, strings, types] = load.counts();
    let need = [RECORD * records, log, strings, 3 * types];
    judge.load("shaders, tight rooms", shader, None, need);
    for store in 0..4 {
        let mut rooms = need;
        rooms[store] = rooms[store].saturating_sub(1);
        judge.load("shaders, tight rooms", shader, None, rooms);
    }
}

// --------------------------------------------------------------------------------- Random rounds

/// One round of random inputs, some 900 of them.
pub fn round(judge: &mut Judge, builtin: &Grammar, shaders: &[Vec<u8>], seed: u64) {
    let mut grower = Grower::new(builtin, seed);
    let mut grown: Vec<Vec<u8>> = vec![];
    for n in 0..60 {
        let steps = 1 + grower.rng.below(if n % 10 == 0 { 60 } else { 14 });
        let m = grower.module(steps, n % 3 == 0);
        judge.module("random modules", &m);
        grown.push(m);
    }
    for m in &grown {
        let damaged = grower.damage(m);
        judge.module("damaged modules", &damaged);
    }
    for m in grown.iter().take(30) {
        let cut = grower.rng.below(m.len() + 1);
        judge.module("cut modules", &m[..cut]);
    }
    for m in grown.iter().take(30) {
        let other = grower.rng.below(grown.len());
        let spliced = splice(&mut grower.rng, m, &grown[other]);
        judge.module("spliced modules", &spliced);
    }
    for _ in 0..if shaders.is_empty() { 0 } else { 12 } {
        let one = grower.rng.below(shaders.len());
        let other = grower.rng.below(shaders.len());
        let m = match grower.rng.below(4) {
            0 => {
                let cut = grower.rng.below(shaders[one].len() + 1);
                shaders[one][..cut].to_vec()
            }
            1 => splice(&mut grower.rng, &shaders[one], &shaders[other]),
            _ => grower.damage(&shaders[one]),
        };
        judge.module("shaders, damaged", &m);
    }
    for m in grown.iter().take(30) {
        let rooms = random_rooms(&mut grower.rng, &load_with(m, builtin, enough(m)));
        judge.load("random rooms", m, None, rooms);
    }
    random_functions(judge, &mut grower.rng);
    random_strings(judge, &mut grower.rng);
    random_grammars(judge, &mut grower.rng);
    random_joins(judge, &mut grower.rng);
    random_triples(judge, &mut grower.rng);
    for m in grown.iter().take(30) {
        random_records(judge, &mut grower.rng, m);
        unnamed_records(judge, &mut grower.rng, m);
        judge.any_numbers("records with any function and block numbers", m, || random_number(&mut grower.rng));
    }
    for m in grown.iter().take(12) {
        judge.there_and_back("books turned and back", m);
        random_books(judge, &mut grower.rng, m);
    }
}

/// A number that is near those that functions and blocks have, or any.
fn random_number(rng: &mut Rng) -> u32 {
    match rng.below(3) {
        0 => rng.next() as u32,
        1 => u32::MAX - rng.below(3) as u32,
        _ => rng.below(4) as u32,
    }
}

/// Rooms near what the load needs, some of them short.
fn random_rooms(rng: &mut Rng, load: &Load) -> [usize; 4] {
    let [records, log, strings, types] = load.counts();
    [RECORD * records, log, strings, 3 * types].map(|n| if rng.chance(60) { n + rng.below(3) } else { rng.below(n + 2) })
}

/// The head of one module up to an instruction, the tail of another from one; or an instruction of the other put in.
fn splice(rng: &mut Rng, one: &[u8], other: &[u8]) -> Vec<u8> {
    let boundary = |rng: &mut Rng, m: &[u8]| {
        let all: Vec<usize> = starts(m).into_iter().filter(|at| *at <= m.len()).collect();
        if all.is_empty() {
            m.len()
        } else {
            rng.pick(&all)
        }
    };
    let (at, from) = (boundary(rng, one), boundary(rng, other));
    let end = match rng.below(2) {
        0 => other.len(),
        _ => starts(other).into_iter().find(|s| *s > from).unwrap_or(other.len()).min(other.len()),
    };
    let tail: &[u8] = if end < other.len() || rng.chance(20) { &one[at..] } else { &[] };
    [&one[..at], &other[from.min(end)..end], tail].concat()
}

/// Small modules, for standing: mostly one MemoryModel, and functions without a body ahead of those with one; some have a capability
/// or a parameter that comes late.
fn random_functions(judge: &mut Judge, rng: &mut Rng) {
    for _ in 0..30 {
        let mut words = inst(17, &[1]);
        let models = if rng.chance(70) { 1 } else { rng.below(3) };
        (0..models).for_each(|_| words.extend(inst(14, &[0, 1])));
        let functions = rng.below(6);
        let declarations = rng.below(functions + 1);
        for n in 0..functions {
            words.extend(inst(54, &[1, 2, 0, 3]));
            (0..rng.below(3)).for_each(|_| words.extend(inst(55, &[1, 4])));
            if (n >= declarations) != rng.chance(10) {
                words.extend([inst(248, &[5]), inst(253, &[])].concat().repeat(1 + rng.below(2)));
                (0..rng.below(20) / 19).for_each(|_| words.extend(inst(55, &[1, 4])));
            }
            words.extend(inst(56, &[]));
        }
        if rng.chance(10) {
            words.extend(inst(17, &[1]));
        }
        judge.module("random functions", &module(&words));
    }
}

/// Strings of bytes at the edges of Unicode's table.
fn random_strings(judge: &mut Judge, rng: &mut Rng) {
    const EDGES: [u8; 32] = [
        0x00, 0x01, 0x41, 0x7F, 0x80, 0x8F, 0x90, 0x9F, 0xA0, 0xBF, 0xC0, 0xC1, 0xC2, 0xDF, 0xE0, 0xE1, 0xEC, 0xED, 0xEE, 0xEF, 0xF0, 0xF1,
        0xF3, 0xF4, 0xF5, 0xFF, 0x80, 0xBF, 0x80, 0x90, 0xA0, 0x41,
    ];
    for _ in 0..30 {
        let words = 1 + rng.below(3);
        let mut bytes: Vec<u8> = (0..4 * words).map(|_| rng.pick(&EDGES)).collect();
        if rng.chance(70) {
            let at = bytes.len() - 1 - rng.below(4);
            bytes[at..].fill(0);
        }
        let claimed = words as u32 + if rng.chance(10) { rng.below(4) as u32 } else { 0 };
        let mut all = module(&[(claimed + 2) << 16 | 7, 1]);
        all.extend(bytes);
        if rng.chance(10) {
            all.truncate(all.len() - rng.below(6));
        }
        judge.module("random strings", &all);
    }
}

/// A small grammar that mostly keeps the rules.
fn random_grammar(rng: &mut Rng) -> Vec<u8> {
    const OPCODES: [u16; 26] =
        [1, 5, 8, 14, 17, 19, 21, 22, 43, 50, 52, 54, 55, 56, 59, 61, 71, 128, 248, 249, 251, 253, 300, 317, 330, 65535];
    const KINDS: [u8; 16] = [33, 33, 34, 34, 40, 40, 31, 32, 35, 50, 51, 7, 9, 25, 26, 45];
    let mut rows: Vec<(u16, Vec<(u8, u8)>)> = vec![];
    for opcode in OPCODES {
        if rng.chance(30) {
            continue;
        }
        let mut operands = vec![];
        match opcode {
            21 => operands.extend([(47, 0), (34, 0), (34, 0)]),
            22 => operands.extend([(47, 0), (34, 0)]),
            _ => {
                if rng.chance(40) || matches!(opcode, 43 | 50) {
                    operands.push((46, 0));
                }
                if rng.chance(50) {
                    operands.push((47, 0));
                }
                match opcode {
                    52 if rng.chance(80) => operands.push((39, 0)),
                    251 if rng.chance(80) => operands.push((33, 0)),
                    _ => (),
                }
                for _ in 0..rng.below(3) {
                    operands.push((rng.pick(&KINDS), rng.pick(&[0, 0, 1, 2])));
                }
                match opcode {
                    43 | 50 if rng.chance(80) => operands.push((48, 0)),
                    251 if operands.contains(&(33, 0)) => operands.push((49, 2)),
                    _ => (),
                }
            }
        }
        rows.push((opcode, operands));
    }
    let mut values: Vec<(u8, u32, Vec<u8>)> = vec![];
    for (kind, value) in
        [(7u8, 0u32), (7, 1), (7, 4), (7, 0x8000_0000), (9, 0), (9, 3), (9, 900), (25, 1), (25, 7), (26, 2), (45, 0), (45, 2)]
    {
        if rng.chance(25) {
            continue;
        }
        let mut parameters = vec![];
        if matches!(kind, 7 | 25) && value != 0 {
            for _ in 0..rng.below(3) {
                parameters.push(rng.pick(&[33, 34, 31, 40, 9, 26, 45]));
            }
        }
        values.push((kind, value, parameters));
    }
    let rows: Vec<(u16, &[(u8, u8)])> = rows.iter().map(|r| (r.0, &r.1[..])).collect();
    let values: Vec<(u8, u32, &[u8])> = values.iter().map(|v| (v.0, v.1, &v.2[..])).collect();
    grammar_bytes(&rows, &values)
}

/// Well-formed grammars with modules grown from them, whole, damaged and with tight rooms; grammars with a byte changed, left
/// out or put in.
fn random_grammars(judge: &mut Judge, rng: &mut Rng) {
    for _ in 0..6 {
        let bytes = random_grammar(rng);
        let Some(grammar) = Grammar::read(&bytes).filter(|g| !g.rows.is_empty()) else {
            judge.load("broken grammars", &module(&[]), Some(&bytes), [0; 4]);
            continue;
        };
        let mut grower = Grower::new(&grammar, rng.next());
        let mut last = vec![];
        for n in 0..4 {
            let steps = 1 + grower.rng.below(8);
            let m = grower.module(steps, n == 0);
            judge.load("random grammars", &m, Some(&bytes), enough(&m));
            let damaged = grower.damage(&m);
            judge.load("random grammars", &damaged, Some(&bytes), enough(&damaged));
            let rooms = random_rooms(&mut grower.rng, &load_with(&m, &grammar, enough(&m)));
            judge.load("random grammars, random rooms", &m, Some(&bytes), rooms);
            last = m;
        }
        for _ in 0..4 {
            let changed = damaged_grammar(rng, &bytes);
            judge.load("broken grammars", &last, Some(&changed), enough(&last));
        }
    }
}

/// Two grammars joined, into outputs exactly long enough, a byte short, longer and empty.
fn join_all(judge: &mut Judge, group: &'static str, first: &[u8], second: &[u8]) {
    let needed = joining::join(first, second, usize::MAX).bytes.len();
    for output in [needed, needed.saturating_sub(1), needed + 5, 0] {
        judge.join(group, first, second, output);
    }
}

/// Some of the rows and enumerants of a grammar, each with this chance in a hundred, as bytes.
fn part(rng: &mut Rng, grammar: &Grammar, percent: usize) -> Vec<u8> {
    let rows: Vec<(u16, &[(u8, u8)])> = grammar.rows.iter().filter(|_| rng.chance(percent)).map(|r| (r.opcode, &r.operands[..])).collect();
    let values: Vec<(u8, u32, &[u8])> =
        grammar.enumerants.iter().filter(|_| rng.chance(percent)).map(|e| (e.kind, e.value, &e.parameters[..])).collect();
    grammar_bytes(&rows, &values)
}

/// A grammar with some of its rows and enumerants given other operands and parameters, and so one that mostly clashes with it.
fn other_ways(rng: &mut Rng, grammar: &Grammar, percent: usize) -> Vec<u8> {
    let mut other = grammar.clone();
    for row in &mut other.rows {
        if rng.chance(percent) && !matches!(row.opcode, 21 | 22) {
            row.operands.push((rng.pick(&[33, 34, 9]), rng.pick(&[0, 1, 2])));
        }
    }
    for e in &mut other.enumerants {
        if rng.chance(percent) && matches!(e.kind, 7 | 25) && e.value != 0 {
            e.parameters.push(rng.pick(&[33, 34]));
        }
    }
    part(rng, &other, 100)
}

/// A grammar with an enumerant more of a kind that others have as a parameter, itself with one.
fn with_owner(rng: &mut Rng, bytes: &[u8], kind: u8) -> Vec<u8> {
    let house = grammar_bytes(&[], &[(kind, 70_000 + rng.below(9) as u32, &[33][..])]);
    let joined = joining::join(bytes, &house, usize::MAX);
    if joined.number == 0 {
        joined.bytes
    } else {
        house
    }
}

/// A grammar with a byte changed, left out or put in, or cut.
fn damaged_grammar(rng: &mut Rng, bytes: &[u8]) -> Vec<u8> {
    let mut changed = bytes.to_vec();
    if changed.is_empty() {
        return vec![9];
    }
    let at = rng.below(changed.len());
    match rng.below(4) {
        0 => changed[at] = rng.below(60) as u8,
        1 => {
            changed.remove(at);
        }
        2 => changed.insert(at, rng.below(5) as u8),
        _ => changed.truncate(at),
    }
    changed
}

/// Rows without operands whose opcodes are in a range, and the parameters of an enumerant.
fn long_grammar(opcodes: std::ops::Range<u16>, parameters: usize) -> Vec<u8> {
    let rows: Vec<(u16, &[(u8, u8)])> = opcodes.map(|opcode| (opcode, &[][..])).collect();
    let ids = vec![33; parameters];
    let values: Vec<(u8, u32, &[u8])> = if parameters == 0 { vec![] } else { vec![(25, 1, &ids[..])] };
    grammar_bytes(&rows, &values)
}

/// Pairs whose union has just so many bytes as a grammar may, or one more or less, some rows being in both.
fn long_joins(judge: &mut Judge, rng: &mut Rng) {
    for (rows, parameters) in [(21_845, 0), (21_842, 2), (21_842, 1)] {
        let (start, shared) = (1_000 + rng.below(9_000) as u16, rng.below(2_000) as u16);
        let cut = start + 2_000 + rng.below(15_000) as u16;
        let first = long_grammar(start..cut, parameters);
        let second = long_grammar(cut - shared..start + rows, 0);
        join_all(judge, "joined grammars, long", &first, &second);
        join_all(judge, "joined grammars, long", &second, &first);
    }
}

/// Grammars joined: parts of one, which share rows; parts with a byte or more changed; two that have nothing to do with each other; with
/// the built-in one; and such that are flat alone and not together.
fn random_joins(judge: &mut Judge, rng: &mut Rng) {
    for _ in 0..6 {
        let bytes = random_grammar(rng);
        let other = random_grammar(rng);
        join_all(judge, "joined grammars, any two", &bytes, &other);
        let Some(grammar) = Grammar::read(&bytes) else {
            join_all(judge, "joined grammars, one broken", &bytes, &[]);
            join_all(judge, "joined grammars, one broken", &[], &bytes);
            continue;
        };
        let (one, two) = (part(rng, &grammar, 60), part(rng, &grammar, 60));
        join_all(judge, "joined grammars, parts of one", &one, &two);
        let percent = rng.pick(&[4, 30]);
        let changed = other_ways(rng, &grammar, percent);
        join_all(judge, "joined grammars, some changed", &one, &changed);
        join_all(judge, "joined grammars, some changed", &changed, &two);
        let damaged = damaged_grammar(rng, &two);
        join_all(judge, "joined grammars, a byte changed", &one, &damaged);
        join_all(judge, "joined grammars, a byte changed", &damaged, &one);
        let kind = rng.pick(&[9, 26, 45]);
        let owner = with_owner(rng, &two, kind);
        join_all(judge, "joined grammars, kinds with parameters", &one, &owner);
        join_all(judge, "joined grammars, kinds with parameters", &owner, &one);
    }
    let house = long_grammar(61_440..61_440 + rng.below(9) as u16, 0);
    let builtin = judge.builtin_bytes;
    join_all(judge, "joined grammars, built-in", builtin, &house);
    let damaged = damaged_grammar(rng, builtin);
    join_all(judge, "joined grammars, built-in", &damaged, builtin);
    let some = part(rng, judge.builtin, 50);
    join_all(judge, "joined grammars, built-in", &some, builtin);
    if rng.chance(10) {
        long_joins(judge, rng);
    }
}

/// Three grammars: parts of one, some changed, one broken, one that has a kind with parameters which another has as a parameter, and such
/// that are too long only all together. Each of the three comes at each place.
fn random_triples(judge: &mut Judge, rng: &mut Rng) {
    let turned = |judge: &mut Judge, group, a: &[u8], b: &[u8], c: &[u8]| {
        [[a, b, c], [b, c, a], [c, a, b]].into_iter().for_each(|all| judge.triple(group, all));
    };
    for _ in 0..4 {
        let bytes = random_grammar(rng);
        let Some(grammar) = Grammar::read(&bytes) else {
            let other = random_grammar(rng);
            turned(judge, "three grammars, one broken", &bytes, &other, &[]);
            continue;
        };
        let [one, two, three] = [50, 50, 50].map(|percent| part(rng, &grammar, percent));
        turned(judge, "three grammars, parts of one", &one, &two, &three);
        let changed = other_ways(rng, &grammar, 10);
        turned(judge, "three grammars, some changed", &one, &two, &changed);
        let damaged = damaged_grammar(rng, &three);
        turned(judge, "three grammars, a byte changed", &one, &two, &damaged);
        let kind = rng.pick(&[9, 26, 45]);
        let user = grammar_bytes(&[], &[(25, 90_000, &[kind][..])]);
        let owner = with_owner(rng, &three, kind);
        turned(judge, "three grammars, kinds with parameters", &user, &two, &owner);
    }
    if rng.chance(10) {
        // one row too many, or just so many as there may be
        let rows = 21_845 + rng.below(2) as u16;
        let (start, cut, end) = (1_000, 1_000 + rows / 3, 1_000 + 2 * (rows / 3));
        let shared = rng.below(3_000) as u16;
        let parts = [long_grammar(start..cut, 0), long_grammar(cut - shared..end, 0), long_grammar(end - shared..start + rows, 0)];
        turned(judge, "three grammars, long", &parts[0], &parts[1], &parts[2]);
    }
}

/// The records of a module, as they are and with one thing changed.
fn random_records(judge: &mut Judge, rng: &mut Rng, module: &[u8]) {
    let load = load_with(module, judge.builtin, enough(module));
    let mut s = Stores::of(&load);
    let ample = 20 + 4 * load.instructions.iter().map(|r| r[7] as usize).sum::<usize>();
    change(rng, &mut s);
    let output = match rng.below(5) {
        0 => rng.below(ample + 1),
        1 => ample - 1,
        _ => ample + rng.below(9),
    };
    judge.records("random records", load.header, &s, output);
}

/// The book of a module as it is, with one thing changed, with other function and block numbers in a record, and with both.
fn random_books(judge: &mut Judge, rng: &mut Rng, module: &[u8]) {
    let load = load_with(module, judge.builtin, enough(module));
    let mut s = Stores::of(&load);
    if rng.chance(40) {
        change(rng, &mut s);
    }
    let records = s.instructions.len() / RECORD;
    if records > 0 && rng.chance(50) {
        let at = RECORD * rng.below(records) + 8 + rng.below(2);
        s.instructions[at] = random_number(rng);
    }
    if rng.chance(30) {
        s.instructions.extend((0..rng.below(2 * RECORD)).map(|n| n as u32));
        s.log.extend([33, 1, 2]);
        s.strings.extend(b"x");
    }
    books("random books", judge, &s);
}

/// One thing changed in records: a field, a log byte, a string byte, a count, a slice; or nothing.
fn change(rng: &mut Rng, s: &mut Stores) {
    match rng.below(7) {
        0 | 1 if !s.instructions.is_empty() => {
            let at = rng.below(s.instructions.len());
            let old = s.instructions[at];
            s.instructions[at] = match rng.below(8) {
                0 => rng.next() as u32,
                1 => 0,
                2 => old ^ 1 << rng.below(32),
                _ => old.wrapping_add(rng.pick(&[1, u32::MAX, 4, 65536, 2])),
            };
        }
        2 | 3 if !s.log.is_empty() => {
            let at = rng.below(s.log.len());
            s.log[at] = rng.pick(&[0, 1, 33, 34, 36, 40, 45, 46]);
        }
        4 if !s.strings.is_empty() => {
            let at = rng.below(s.strings.len());
            s.strings[at] = rng.pick(&[0, 0x80, 0xC2, 97]);
        }
        5 => {
            let at = rng.below(3);
            s.counts[at] = s.counts[at].wrapping_add(rng.pick(&[1, usize::MAX]));
        }
        6 => match rng.below(4) {
            0 => s.instructions.truncate(s.instructions.len().saturating_sub(1 + rng.below(RECORD + 1))),
            1 => s.log.truncate(s.log.len().saturating_sub(1 + rng.below(9))),
            2 => s.strings.truncate(s.strings.len().saturating_sub(1 + rng.below(9))),
            _ => {
                // an instruction less, or two in the other order
                let n = s.counts[0];
                if n > 1 && rng.chance(50) {
                    let at = RECORD * rng.below(n - 1);
                    (0..RECORD).for_each(|field| s.instructions.swap(at + field, at + RECORD + field));
                } else if n > 0 {
                    let at = RECORD * rng.below(n);
                    s.instructions.drain(at..at + RECORD);
                    s.counts[0] -= 1;
                }
            }
        },
        _ => (),
    }
}

/// The records of a module with other values in operands, and with other opcodes in blocks: their layout is good, and names are missing.
fn unnamed_records(judge: &mut Judge, rng: &mut Rng, module: &[u8]) {
    let load = load_with(module, judge.builtin, enough(module));
    let mut s = Stores::of(&load);
    let ample = 20 + 4 * load.instructions.iter().map(|r| r[7] as usize).sum::<usize>();
    for _ in 0..if load.instructions.is_empty() { 0 } else { 1 + rng.below(3) } {
        let n = rng.below(load.instructions.len());
        let record = load.instructions[n];
        if record[1] == 15 && rng.chance(50) {
            // an opcode that the layout does not know either stands in a block as any other
            s.instructions[RECORD * n] = record[0] & !0xFFFF | rng.pick(&[13, 330, 400, 0x3FFF, 0x7000, 0xFFFF]);
        } else if record[6] > 0 {
            let value = record[5] as usize + 1;
            let word = rng.pick(&[0, 1, 2, 3, 8, 24, 0x30, 0x100, 0x3F00, 0x8000, 5283, 6000, 0x1_0000, 0x8000_0000, u32::MAX]);
            if s.log[value - 1] != 40 {
                s.log[value..value + 4].copy_from_slice(&word.to_le_bytes());
            }
        }
    }
    judge.records("records without names", load.header, &s, 8 * ample + rng.below(9));
}
