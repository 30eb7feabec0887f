//! Writes a fixed sample of the crate's answers, for the replay that needs no Rust.
//!
//!     sample FILE              write it
//!     sample --check FILE      say whether FILE is what would be written
//!
//! The modules are chosen here, every answer is the crate's. crates/replay/data/README.md describes the file.

use compare::cases::{self, Input};
use compare::grow::*;
use compare::krate::{self, Answer};
use compare::reading::*;
use compare::GRAMMAR;
use std::cmp::Reverse;
use std::collections::{BTreeMap, BinaryHeap, HashSet};

/// The longest module and the longest text taken, and the most bytes of the whole file.
const MOST_MODULE: usize = 256;
const MOST_TEXT: usize = 1_000;
const MOST_FILE: usize = 164_000;

/// What a module shows, in words: `number 6`, `cell 3 block`, `tag 14 2 1` with function and block number, `kind 40`.
type Feature = String;

struct Candidate {
    module: Vec<u8>,
    answer: Answer,
    features: Vec<Feature>,
}

impl Candidate {
    fn of(module: Vec<u8>) -> Option<Candidate> {
        if module.len() > MOST_MODULE {
            return None;
        }
        let answer = krate::answer(&module).expect("the oracle's two loads agree");
        answer.number?; // a panic is no answer
        if answer.text.as_ref().is_some_and(|text| text.len() > MOST_TEXT) {
            return None;
        }
        let mut features = features(&module, &answer);
        features.sort();
        features.dedup();
        Some(Candidate { module, answer, features })
    }

    fn bytes(&self) -> Vec<u8> {
        let a = &self.answer;
        let order: &[u8] = a.module.as_deref().unwrap_or(&[]);
        let text: &[u8] = a.text.as_deref().unwrap_or(&[]);
        let mut header = [0; 5];
        if let Some((major, minor, bound)) = a.header {
            let words: Vec<u32> = self.module[..20].chunks(4).map(|b| u32::from_le_bytes(b.try_into().unwrap())).collect();
            header.copy_from_slice(&words);
            assert_eq!((header[1] >> 16 & 0xFF, header[1] >> 8 & 0xFF, header[3]), (major, minor, bound), "the crate's header");
        }
        let numbers = [
            self.module.len() as u32,
            a.number.expect("no panic"),
            a.offset as u32,
            a.index as u32,
            a.value,
            (a.instructions.len() / RECORD) as u32,
            a.log.len() as u32,
            a.strings.len() as u32,
            a.types.len() as u32 / 3,
            order.len() as u32,
        ];
        let mut all = bytes_of(&numbers);
        all.extend(bytes_of(&header));
        all.extend(bytes_of(&[text.len() as u32]));
        all.extend(&self.module);
        all.extend(bytes_of(&a.instructions));
        all.extend(&a.log);
        all.extend(&a.strings);
        all.extend(bytes_of(&a.types));
        all.extend(order);
        all.extend(text);
        all
    }
}

fn features(module: &[u8], a: &Answer) -> Vec<Feature> {
    let number = a.number.unwrap_or(99);
    let mut all = vec![format!("number {number}"), format!("tail {} {}", module.len() % 4, number == 0)];
    if matches!(number, 1 | 6..=13) {
        all.push(format!("number {number} at {} of {}", a.offset % 20 / 4, a.index.min(3)));
    }
    let (mut state, mut before) = (State::Outside, 0);
    for record in a.instructions.chunks_exact(RECORD) {
        let opcode = record[0] as u16;
        let tag = record[1];
        all.push(format!("tag {tag} {} {}", record[8].min(2), record[9].min(2)));
        if tag == 15 && !matches!(before, 14 | 15) {
            all.push(format!("block that goes on after tag {before}"));
        }
        before = tag;
        all.push(format!("cell {:?} {state:?}", layout_kind(opcode)));
        all.push(format!("row {opcode}"));
        all.push(format!("presence {} {}", record[0] >> 16, record[6].min(4)));
        if let Ok((_, next)) = layout(layout_kind(opcode), state) {
            state = next;
        }
    }
    // the instruction at fault: its kind in the layout's state, its opcode
    if let (15..=23, Some(first)) = (number, module.get(a.offset..a.offset + 2)) {
        all.push(format!("cell {:?} {state:?}", layout_kind(u16::from_le_bytes([first[0], first[1]]))));
    }
    if matches!(number, 16 | 21) {
        all.push(format!("number {number} at the end: {}", a.offset == module.len() / 4 * 4));
    }
    let mut at = 0;
    while let Some(kind) = a.log.get(at) {
        all.push(format!("kind {kind}"));
        if is_enumerant_kind(*kind) {
            all.push(format!("enumerant {kind} {:?}", &a.log[at + 1..at + 5]));
        }
        if *kind == 40 {
            all.push(format!("string {}", a.log[at + 5] % 9));
        }
        at += if matches!(kind, 36 | 38 | 40) { 9 } else { 5 };
    }
    all.extend(a.types.chunks_exact(3).map(|t| format!("type {} {}", t[1].min(129), t[2])));
    if let Some(order) = &a.module {
        all.push(format!(
            "module order keeps the length {}, the bytes {}",
            order.len() == module.len(),
            order[20..] == module[20..order.len()]
        ));
    }
    all
}

/// Modules to choose from: the named ones, every row in every state, every enumerant, embedded opcodes, random ones.
fn pool(grammar: &Grammar) -> Vec<Vec<u8>> {
    let mut all = cases::fittings();
    for case in cases::all(grammar) {
        match case.input {
            Input::Load { module, grammar: None, .. } if module.len() <= MOST_MODULE => all.push(module),
            _ => (),
        }
    }
    let mut grower = Grower::new(grammar, 20);
    let after = |opcode, state| layout(layout_kind(opcode), state).map_or(state, |(_, next)| next);
    for row in &grammar.rows {
        for (state, _) in STATES {
            grower.start();
            let words = grower.instruction(row, Fill::Random, None);
            all.push(module(&[opening(state), words, closing(after(row.opcode, state))].concat()));
        }
    }
    let wishes = grammar.enumerants.iter().map(|e| (e.kind, e.value)).chain(grammar.rows.iter().map(|r| (39, u32::from(r.opcode))));
    for (kind, value) in wishes {
        let Some(row) = grammar.rows.iter().find(|r| r.operands.iter().any(|o| o.0 == kind)) else { continue };
        grower.start();
        let words = grower.instruction(row, Fill::Random, Some((kind, value)));
        let state = if layout(layout_kind(row.opcode), State::Outside).is_ok() { State::Outside } else { State::Block };
        all.push(module(&[opening(state), words, closing(after(row.opcode, state))].concat()));
    }
    for n in 0..6000 {
        let steps = 1 + grower.rng.below(7);
        let grown = grower.module(steps, n % 3 == 0);
        if n % 4 == 0 {
            all.push(grower.damage(&grown));
        }
        all.push(grown);
    }
    all
}

/// What must be shown counts so much, and more than what may be.
const MUST: usize = 60;

fn worth(feature: &Feature) -> usize {
    match feature.split(' ').next() {
        Some("number" | "cell" | "tag" | "kind") => MUST,
        Some("row") => 16,
        Some("enumerant") => 8,
        _ => 10,
    }
}

fn sample() -> (Vec<u8>, String) {
    let grammar = Grammar::read(GRAMMAR).expect("well-formed");
    let mut seen = HashSet::new();
    let candidates: Vec<Candidate> = pool(&grammar).into_iter().filter(|m| seen.insert(m.clone())).filter_map(Candidate::of).collect();
    let everything: HashSet<&Feature> = candidates.iter().flat_map(|c| &c.features).collect();

    // the fittings first, then whatever shows most that is new for its length
    let fittings = cases::fittings();
    let sizes: Vec<usize> = candidates.iter().map(|c| c.bytes().len()).collect();
    let mut taken: Vec<usize> = (0..candidates.len()).filter(|n| fittings.contains(&candidates[*n].module)).collect();
    let mut length: usize = 4 + taken.iter().map(|n| sizes[*n]).sum::<usize>();
    let mut shown: HashSet<&Feature> = taken.iter().flat_map(|n| &candidates[*n].features).collect();
    let gain =
        |n: usize, shown: &HashSet<&Feature>| -> usize { candidates[n].features.iter().filter(|f| !shown.contains(*f)).map(worth).sum() };
    // a gain only falls as more is shown, so a candidate is looked at again only when its old gain leads
    let mut heap: BinaryHeap<(usize, Reverse<usize>)> =
        (0..candidates.len()).filter(|n| !taken.contains(n)).map(|n| (gain(n, &shown) * 1000 / sizes[n], Reverse(n))).collect();
    while let Some((rate, Reverse(n))) = heap.pop() {
        let now = gain(n, &shown) * 1000 / sizes[n];
        if now == 0 {
            continue;
        }
        if now < rate {
            heap.push((now, Reverse(n)));
        } else if length + sizes[n] <= MOST_FILE {
            length += sizes[n];
            shown.extend(&candidates[n].features);
            taken.push(n);
        }
    }

    let mut file = (taken.len() as u32).to_le_bytes().to_vec();
    taken.iter().for_each(|n| file.extend(candidates[*n].bytes()));
    let mut counts: BTreeMap<&str, [usize; 2]> = BTreeMap::new();
    for f in &everything {
        let entry = counts.entry(f.split(' ').next().unwrap()).or_default();
        entry[0] += usize::from(shown.contains(*f));
        entry[1] += 1;
    }
    let mut told = format!("{} modules of {} candidates, {} bytes", taken.len(), candidates.len(), file.len());
    for (what, [has, of]) in &counts {
        told += &format!("\n  {what}: {has} of {of}");
    }
    let lost: Vec<&&Feature> = everything.iter().filter(|f| !shown.contains(**f) && worth(f) == MUST).collect();
    assert!(lost.is_empty(), "not shown: {lost:?}");
    check_cover(&shown);
    (file, told)
}

/// Every number the crate gives, every layout cell, every operand kind that a module can bring into the log, every tag in a first and a
/// second function and block, a block that goes on after a parameter.
fn check_cover(shown: &HashSet<&Feature>) {
    let has = |f: String| assert!(shown.contains(&f), "not shown: {f}");
    (0..=23).filter(|n| *n != 14).for_each(|n| has(format!("number {n}")));
    (1..=45).filter(|kind| !matches!(kind, 6 | 8 | 19 | 20 | 27 | 29 | 41..=45)).for_each(|kind| has(format!("kind {kind}")));
    (1..=11).for_each(|tag| has(format!("tag {tag} 0 0")));
    for function in 1..=2 {
        [12, 13, 16].iter().for_each(|tag| has(format!("tag {tag} {function} 0")));
        (1..=2).for_each(|block| [14, 15].iter().for_each(|tag| has(format!("tag {tag} {function} {block}"))));
    }
    has("block that goes on after tag 13".to_string());
    let mut kinds: Vec<Kind> = (1..=11).map(Kind::Tag).collect();
    kinds.extend([Kind::Line, Kind::Variable, Kind::Function, Kind::FunctionParameter, Kind::Label, Kind::Terminator]);
    kinds.extend([Kind::FunctionEnd, Kind::Other]);
    for kind in kinds {
        STATES.iter().for_each(|(state, _)| has(format!("cell {kind:?} {state:?}")));
    }
}

fn main() {
    krate::silence_the_crate();
    let args: Vec<String> = std::env::args().skip(1).collect();
    match args.iter().map(|a| a.as_str()).collect::<Vec<_>>()[..] {
        ["--check", path] => {
            let same = std::fs::read(path).is_ok_and(|given| given == sample().0);
            println!("{path}: {}", if same { "what the crate says" } else { "NOT what would be written" });
            std::process::exit(if same { 0 } else { 1 });
        }
        [path] => {
            let (file, told) = sample();
            std::fs::write(path, file).expect("the file is written");
            println!("{told}");
        }
        _ => {
            eprintln!("usage: sample FILE | sample --check FILE");
            std::process::exit(2);
        }
    }
}
