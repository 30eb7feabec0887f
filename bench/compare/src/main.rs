//! The library against the crate rspirv and a separate reading of what it is to do. See README.md.
//!
//!     compare [--seed S] [--threads T] [--million N | --minutes M] [--samples FOLDER]...

mod inputs;
mod judge;
mod library;

use compare::reading::{is_mask, Grammar, BROKEN, STANDING};
use compare::{krate, GRAMMAR};
use judge::{Judge, Tally, KIND_NAMES, NUMBERED, TURNED};
use std::path::Path;
use std::sync::atomic::{AtomicU64, Ordering};
use std::time::{Duration, Instant};

/// Random rounds of a quick run.
const QUICK_ROUNDS: u64 = 560;

/// When a run ends: after so many rounds, so many inputs, or so much time.
#[derive(Clone, Copy)]
enum End {
    Rounds(u64),
    Inputs(u64),
    Time(Duration),
}

struct Words {
    seed: u64,
    threads: usize,
    end: End,
    samples: Vec<String>,
}

fn words() -> Result<Words, String> {
    let threads = std::thread::available_parallelism().map_or(1, |n| n.get());
    let mut words = Words { seed: 1, threads, end: End::Rounds(QUICK_ROUNDS), samples: vec![] };
    let mut args = std::env::args().skip(1);
    while let Some(word) = args.next() {
        let value = args.next().ok_or(format!("{word} needs a value"))?;
        let number = || value.parse::<u64>().map_err(|_| format!("{word} needs a number, not {value}"));
        match word.as_str() {
            "--seed" => words.seed = number()?,
            "--threads" => words.threads = number()?.max(1) as usize,
            "--million" => words.end = End::Inputs(1_000_000 * number()?),
            "--minutes" => words.end = End::Time(Duration::from_secs(60 * number()?)),
            "--samples" => words.samples.push(value),
            _ => return Err(format!("no such word: {word}")),
        }
    }
    if words.samples.is_empty() {
        words.samples.push(concat!(env!("CARGO_MANIFEST_DIR"), "/../../samples").to_string());
    }
    Ok(words)
}

/// Every .spv file in a folder and the folders below it, in the order of their names.
fn modules_in(folder: &Path, into: &mut Vec<Vec<u8>>) {
    let Ok(entries) = std::fs::read_dir(folder) else { return };
    let mut paths: Vec<_> = entries.flatten().map(|e| e.path()).collect();
    paths.sort();
    for path in paths {
        if path.is_dir() {
            modules_in(&path, into);
        } else if path.extension().is_some_and(|e| e == "spv") {
            into.extend(std::fs::read(path));
        }
    }
}

/// The library's version; the built-in grammar: the library's bytes, the reading's, and what the crate looks up.
fn tables(grammar: &Grammar) -> Vec<String> {
    let mut wrong = vec![];
    if !library::same_version() {
        wrong.push("the library's version".to_string());
    }
    let (length, bytes) = library::builtin(GRAMMAR.len() + 3);
    let past: Vec<u8> = (GRAMMAR.len()..GRAMMAR.len() + 3).map(library::byte_before).collect();
    if length != GRAMMAR.len() || bytes[..GRAMMAR.len()] != *GRAMMAR || bytes[GRAMMAR.len()..] != past {
        wrong.push("the library's built-in grammar".to_string());
    }
    for short in [0, 1, GRAMMAR.len() - 1] {
        let (length, bytes) = library::builtin(short);
        if length != GRAMMAR.len() || bytes.iter().enumerate().any(|(n, b)| *b != library::byte_before(n)) {
            wrong.push(format!("the library's built-in grammar, output of {short} bytes"));
        }
    }
    if krate::rows() != grammar.rows {
        wrong.push("the rows, by the crate's lookup".to_string());
    }
    for kind in (1..=30).chain(41..=45) {
        let some = (0..70_000).chain((0..32).map(|n| 1u32 << n)).chain((70_000..u32::MAX).step_by(65_521));
        if let Some(value) = some.into_iter().find(|v| krate::knows(kind, *v) != grammar.knows(kind, *v)) {
            wrong.push(format!("kind {kind}, value {value}, by the crate's decoder"));
        }
        let listed = grammar.enumerants.iter().filter(|e| e.kind == kind && !(is_mask(kind) && e.value == 0));
        if let Some(e) = listed.into_iter().find(|e| !krate::knows(kind, e.value)) {
            wrong.push(format!("kind {kind}, enumerant {}, by the crate's decoder", e.value));
        }
    }
    wrong
}

fn print(tally: &Tally) {
    for (name, group) in &tally.groups {
        println!("{name}: {} inputs, {} accepted", group.inputs, group.accepted);
    }
    let numbers: Vec<String> = tally.numbers.iter().enumerate().map(|(n, times)| format!("{n}:{times}")).collect();
    println!("numbers {}", numbers.join(" "));
    println!("layout cells (outside, function, block)");
    for (name, cells) in KIND_NAMES.iter().zip(&tally.cells) {
        println!("  {name}: {} {} {}", cells[0], cells[1], cells[2]);
    }
    let kinds: Vec<String> = tally.kinds.iter().enumerate().skip(1).map(|(n, times)| format!("{n}:{times}")).collect();
    println!("log kinds {}", kinds.join(" "));
    println!("plain modules given back by parse order: {}; standing: {}", tally.plain, tally.standing);
    let broken: Vec<String> = BROKEN.iter().zip(&tally.broken[1..]).map(|(what, times)| format!("{what} {times}")).collect();
    println!("not plain: {}", broken.join(", "));
    let but_for: Vec<String> = STANDING.iter().zip(tally.but_for).map(|(rule, times)| format!("{rule} {times}")).collect();
    println!("standing but for one rule: {}", but_for.join(", "));
    let numbered: Vec<String> = NUMBERED.iter().zip(tally.numbered).map(|(what, times)| format!("{what} {times}")).collect();
    println!("function and block numbers: {}", numbered.join(", "));
    for (into, times) in ["new", "old"].iter().zip(&tally.turned) {
        let numbers: Vec<String> = TURNED.iter().zip(times).map(|(number, times)| format!("{number}:{times}")).collect();
        println!("turned into {into} books: {}", numbers.join(" "));
    }
    for (rule, times) in &tally.let_through {
        println!("let through: {rule}: {times}");
    }
}

/// What a run must show: every number, every layout cell, every log kind, plain form broken in every way, each rule of standing broken
/// alone, function and block numbers past the first and from 1 again, every number of both turns of a book, a third of the random modules
/// accepted.
fn missing(tally: &Tally) -> Vec<String> {
    let mut all = vec![];
    all.extend(tally.numbers.iter().enumerate().filter(|(_, times)| **times == 0).map(|(n, _)| format!("number {n}")));
    for (name, cells) in KIND_NAMES.iter().zip(&tally.cells) {
        let states = ["outside", "function", "block"];
        all.extend(cells.iter().zip(states).filter(|(times, _)| **times == 0).map(|(_, state)| format!("layout cell {name}, {state}")));
    }
    all.extend(tally.kinds.iter().enumerate().skip(1).filter(|(_, times)| **times == 0).map(|(n, _)| format!("log kind {n}")));
    all.extend(BROKEN.iter().zip(&tally.broken[1..]).filter(|(_, times)| **times == 0).map(|(what, _)| format!("not plain: {what}")));
    all.extend(STANDING.iter().zip(tally.but_for).filter(|(_, times)| *times == 0).map(|(rule, _)| format!("standing but for: {rule}")));
    all.extend(NUMBERED.iter().zip(tally.numbered).filter(|(_, times)| *times == 0).map(|(what, _)| format!("numbers: {what}")));
    for (into, times) in ["new", "old"].iter().zip(&tally.turned) {
        let none = TURNED.iter().zip(times).filter(|(number, times)| **times == 0 && (*into, **number) != ("new", 33));
        all.extend(none.map(|(number, _)| format!("turned into {into} books: {number}")));
    }
    let random = tally.groups.get("random modules").copied().unwrap_or_default();
    if 3 * random.accepted < random.inputs {
        all.push(format!("a third of the random modules accepted: {} of {}", random.accepted, random.inputs));
    }
    all
}

fn main() {
    let words = words().unwrap_or_else(|what| {
        eprintln!("{what}\nusage: compare [--seed S] [--threads T] [--million N | --minutes M] [--samples FOLDER]...");
        std::process::exit(2);
    });
    krate::silence_the_crate();
    let began = Instant::now();
    let grammar = Grammar::read(GRAMMAR).expect("data/grammar.bin is well-formed");
    let mut shaders = vec![];
    words.samples.iter().for_each(|folder| modules_in(Path::new(folder), &mut shaders));
    let mut total = Tally::default();
    for what in tables(&grammar) {
        total.differences += 1;
        println!("DIFFERENCE in tables: {what}");
    }

    let jobs = inputs::systematic(&grammar, &shaders, words.seed);
    let (next_job, next_round, done) = (AtomicU64::new(0), AtomicU64::new(0), AtomicU64::new(0));
    let tallies = std::thread::scope(|scope| {
        let workers: Vec<_> = (0..words.threads)
            .map(|_| {
                std::thread::Builder::new()
                    .stack_size(64 << 20)
                    .spawn_scoped(scope, || {
                        let mut judge = Judge { builtin: &grammar, builtin_bytes: GRAMMAR, tally: Tally::default() };
                        // a job's inputs do not depend on what the thread did before
                        let mut all = Tally::default();
                        while let Some(job) = jobs.get(next_job.fetch_add(1, Ordering::Relaxed) as usize) {
                            job(&mut judge);
                            done.fetch_add(judge.tally.inputs, Ordering::Relaxed);
                            all.add(std::mem::take(&mut judge.tally));
                        }
                        loop {
                            let round = next_round.fetch_add(1, Ordering::Relaxed);
                            let over = match words.end {
                                End::Rounds(rounds) => round >= rounds,
                                End::Inputs(inputs) => done.load(Ordering::Relaxed) >= inputs,
                                End::Time(time) => began.elapsed() >= time,
                            };
                            if over {
                                break;
                            }
                            inputs::round(&mut judge, &grammar, &shaders, inputs::mix(words.seed, round));
                            done.fetch_add(judge.tally.inputs, Ordering::Relaxed);
                            all.add(std::mem::take(&mut judge.tally));
                        }
                        all
                    })
                    .expect("a thread starts")
            })
            .collect();
        workers.into_iter().map(|w| w.join().expect("a thread ends")).collect::<Vec<_>>()
    });
    tallies.into_iter().for_each(|tally| total.add(tally));

    print(&total);
    total.shown.iter().for_each(|text| println!("{text}"));
    let missing = missing(&total);
    missing.iter().for_each(|what| println!("MISSING: {what}"));
    println!(
        "seed {}, {} shaders, {} inputs put to the crate too, {} s",
        words.seed,
        shaders.len(),
        total.with_crate,
        began.elapsed().as_secs()
    );
    println!("compared {} inputs, {} differences", total.inputs, total.differences);
    std::process::exit(if total.differences == 0 && missing.is_empty() { 0 } else { 1 });
}
