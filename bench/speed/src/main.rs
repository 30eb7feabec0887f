//! The library's speed beside the crate's: see README.md.

mod grown;
mod library;

// Of these, only what makes inputs is used here.
#[allow(dead_code)]
#[path = "../../compare/src/grow.rs"]
mod grow;
#[allow(dead_code)]
#[path = "../../compare/src/reading.rs"]
mod reading;

use library::{Order, Stores};
use rspirv::binary::{Assemble, Disassemble};
use std::hint::black_box;
use std::process::{exit, Command};
use std::sync::atomic::{AtomicBool, Ordering};
use std::time::{Duration, Instant};
use std::{env, fs, thread};

/// The functions measured.
const MEASURED: [&str; 10] = [
    "crate-load",
    "crate-load-drop",
    "load-builtin",
    "load",
    "load-builtin-new",
    "crate-assemble",
    "parse-order",
    "module-order",
    "crate-disassemble",
    "disassemble",
];

/// A case that takes more nanoseconds than this is stopped.
const LONGEST: i64 = 20_000_000_000;

/// A call that takes fewer nanoseconds than this is short.
const SHORT: i64 = 10_000_000;

// ------------------------------------------------------------------------------------- Clocks

extern "C" {
    fn clock_gettime(clock: i32, time: *mut [i64; 2]) -> i32;
}

const OF_PROCESS: i32 = 2;
const OF_THREAD: i32 = 3;

/// Nanoseconds of processor time.
fn clock(which: i32) -> i64 {
    let mut time = [0; 2];
    assert_eq!(unsafe { clock_gettime(which, &mut time) }, 0, "a clock of processor time");
    time[0] * 1_000_000_000 + time[1]
}

/// All that is measured goes on in here, so that callgrind can tell it from the rest.
#[no_mangle]
#[inline(never)]
pub extern "C" fn measured_call(call: &mut &mut dyn FnMut()) {
    call()
}

/// The nanoseconds of a call, or the least of several: by the clock of the day, and of the thread's processor time.
#[derive(Clone, Copy)]
struct Took {
    by_day: i64,
    of_thread: i64,
}

impl Took {
    /// Of short calls the best is one that nothing broke into, and the clock of the day is fine. Other programs are sure to break into
    /// a long one, which is therefore taken by processor time; the steps of that are too coarse for short ones.
    fn nanoseconds(self) -> i64 {
        if self.by_day < SHORT {
            self.by_day
        } else {
            self.of_thread
        }
    }

    fn least(self, other: Took) -> Took {
        Took { by_day: self.by_day.min(other.by_day), of_thread: self.of_thread.min(other.of_thread) }
    }
}

fn timed(mut call: impl FnMut()) -> Took {
    let mut call: &mut dyn FnMut() = &mut call;
    let (start, by_day) = (clock(OF_THREAD), Instant::now());
    measured_call(&mut call);
    let by_day = by_day.elapsed().as_nanos() as i64;
    Took { by_day, of_thread: clock(OF_THREAD) - start }
}

// ---------------------------------------------------------------------------------- One case

/// A function made ready for an input.
fn ready(function: &str, bytes: Vec<u8>) -> Box<dyn FnMut() -> Took> {
    let krate = |bytes: &[u8]| rspirv::dr::load_bytes(bytes).unwrap_or_else(|e| panic!("the crate refuses: {e:?}"));
    let loaded = |bytes: &[u8]| {
        let mut stores = Stores::new(bytes.len());
        assert_eq!(stores.load_builtin(bytes), 0, "the library refuses at byte {}", stores.answer[1]);
        stores
    };
    match function {
        "crate-load" => Box::new(move || {
            let mut held = None;
            let time = timed(|| held = rspirv::dr::load_bytes(black_box(&bytes)).ok());
            assert!(held.is_some(), "the crate refuses");
            time
        }),
        "crate-load-drop" => Box::new(move || timed(|| drop(black_box(rspirv::dr::load_bytes(black_box(&bytes)))))),
        "load" => {
            let (grammar, mut stores) = (library::builtin(), Stores::new(bytes.len()));
            Box::new(move || timed(|| assert_eq!(stores.load(black_box(&bytes), &grammar), 0)))
        }
        "load-builtin" => {
            let mut stores = Stores::new(bytes.len());
            Box::new(move || timed(|| assert_eq!(stores.load_builtin(black_box(&bytes)), 0)))
        }
        "load-builtin-new" => Box::new(move || {
            let mut held = None;
            timed(|| {
                let mut stores = Stores::new(bytes.len());
                assert_eq!(stores.load_builtin(black_box(&bytes)), 0);
                held = Some(stores);
            })
        }),
        "crate-assemble" => {
            let module = krate(&bytes);
            Box::new(move || {
                let mut held = vec![];
                let time = timed(|| held = black_box(&module).assemble());
                assert_eq!(4 * held.len(), bytes.len());
                time
            })
        }
        "parse-order" | "module-order" => {
            let stores = loaded(&bytes);
            let (order, must_be) = if function == "parse-order" {
                (Order::Parse, bytes.clone())
            } else {
                (Order::Module, krate(&bytes).assemble().iter().flat_map(|w| w.to_le_bytes()).collect())
            };
            let mut out = vec![0; bytes.len()];
            assert_eq!(stores.write(order, &mut out), (0, bytes.len()));
            assert!(out == must_be, "other bytes than the module's, or than the crate's");
            Box::new(move || timed(|| assert_eq!(black_box(&stores).write(order, &mut out).0, 0)))
        }
        "crate-disassemble" => {
            let module = krate(&bytes);
            Box::new(move || {
                let mut held = String::new();
                let time = timed(|| held = black_box(&module).disassemble());
                assert!(held.starts_with("; SPIR-V"));
                time
            })
        }
        "disassemble" => {
            let stores = loaded(&bytes);
            // no text is longer than sixteen times its module here; else the call says so
            let mut out = vec![0; 16 * bytes.len() + 256];
            Box::new(move || timed(|| assert_eq!(black_box(&stores).write(Order::Text, &mut out).0, 0)))
        }
        // a module with a header alone: what each call costs before the first instruction
        "load-header" => {
            let (grammar, mut stores) = (library::builtin(), Stores::new(20));
            Box::new(move || timed(|| assert_eq!(stores.load(black_box(&bytes[..20]), &grammar), 0)))
        }
        "load-builtin-header" => {
            let mut stores = Stores::new(20);
            Box::new(move || timed(|| assert_eq!(stores.load_builtin(black_box(&bytes[..20])), 0)))
        }
        _ => panic!("no function {function}"),
    }
}

/// The best of many calls in nanoseconds, and how many they were: four calls at least, and as many as take `least` nanoseconds.
/// Ends the process, and says so, when getting ready and the first call take too long.
fn best(function: &str, bytes: Vec<u8>, least: i64) -> (i64, usize) {
    static CALLED: AtomicBool = AtomicBool::new(false);
    thread::spawn(|| loop {
        thread::sleep(Duration::from_millis(50));
        if !CALLED.load(Ordering::Relaxed) && clock(OF_PROCESS) > LONGEST {
            println!("stopped");
            exit(0);
        }
    });
    let empty = (0..1000).map(|_| timed(|| ()).by_day).min().unwrap_or(0);
    let mut call = ready(function, bytes);
    let first = call();
    CALLED.store(true, Ordering::Relaxed);
    // the first call touches every page; it counts only where it is too long to be made again
    if first.of_thread > LONGEST / 4 {
        return (first.nanoseconds(), 1);
    }
    let mut best = call();
    let (mut all, mut turns) = (best.of_thread, 1);
    while turns < 4 || all < least {
        let now = call();
        best = best.least(now);
        all += now.of_thread;
        turns += 1;
    }
    ((best.nanoseconds() - empty).max(1), turns)
}

// ---------------------------------------------------------------------------- Many in turn

/// Nanoseconds for all modules, one after the other: the best of five passes. The library's stores are lent again and again.
fn pass(function: &str, modules: &[Vec<u8>]) -> i64 {
    let longest = modules.iter().map(Vec::len).max().unwrap_or(0);
    let (mut stores, mut out) = (Stores::new(longest), vec![0; longest]);
    let krate = |bytes: &[u8]| rspirv::dr::load_bytes(bytes).expect("it was taken before");
    let empty = (0..1000).map(|_| timed(|| ()).by_day).min().unwrap_or(0);
    let mut one = |bytes: &[u8]| match function {
        "crate-load" => {
            let mut held = None;
            let time = timed(|| held = rspirv::dr::load_bytes(black_box(bytes)).ok());
            assert!(held.is_some());
            time
        }
        "load-builtin" => timed(|| assert_eq!(stores.load_builtin(black_box(bytes)), 0)),
        "crate-assemble" => {
            let (module, mut held) = (krate(bytes), vec![]);
            let time = timed(|| held = black_box(&module).assemble());
            assert!(!held.is_empty());
            time
        }
        _ => {
            stores.load_builtin(bytes);
            timed(|| assert_eq!(black_box(&stores).write(Order::Parse, &mut out).0, 0))
        }
    };
    let mut whole = || modules.iter().map(|bytes| one(bytes).by_day - empty).sum();
    (0..5).map(|_| whole()).min().unwrap_or(0)
}

/// Those of the files that the crate and the library both take, in turn: so no call meets what the one before it met.
fn corpus(files: &[String]) {
    let read = files.iter().map(|file| fs::read(file).unwrap_or_else(|e| panic!("{file}: {e}")));
    let both = |bytes: &Vec<u8>| {
        let taken = std::panic::catch_unwind(|| rspirv::dr::load_bytes(bytes).is_ok());
        taken.unwrap_or(false) && Stores::new(bytes.len()).load_builtin(bytes) == 0
    };
    let modules: Vec<Vec<u8>> = read.filter(both).collect();
    let bytes: usize = modules.iter().map(Vec::len).sum();
    println!("{} of {} modules, {bytes} bytes", modules.len(), files.len());
    for (krate, library) in [("crate-load", "load-builtin"), ("crate-assemble", "parse-order")] {
        let [first, second] = [krate, library].map(|function| bytes as f64 * 1e3 / pass(function, &modules) as f64);
        println!("{krate} {first:.0} MB/s, {library} {second:.0} MB/s, ratio {:.2}", second / first);
    }
}

// ---------------------------------------------------------------------------------- The tables

fn own() -> Command {
    Command::new(env::current_exe().expect("this program"))
}

/// The time in nanoseconds, in a process of its own; none when it was stopped.
fn time(function: &str, file: &str) -> Option<f64> {
    let out = own().args(["time", function, file]).output().expect("this program runs");
    let said = String::from_utf8_lossy(&out.stdout).trim().to_string();
    match said.split(' ').next().and_then(|n| n.parse::<f64>().ok()) {
        Some(time) if out.status.success() => Some(time),
        _ if said == "stopped" => None,
        _ => panic!("{function} on {file}: {said} {}", String::from_utf8_lossy(&out.stderr)),
    }
}

/// A line for each file and function: input, bytes, function, megabytes (10^6 bytes) a second, or `stopped`, or `not run`.
fn measure(files: &[String]) {
    let mut stopped: Vec<(String, &str)> = vec![];
    for file in files {
        let length = fs::metadata(file).expect("the input").len() as f64;
        let name = file.rsplit('/').next().unwrap_or(file).trim_end_matches(".spv");
        let kind = name.trim_end_matches(|c: char| c.is_ascii_digit()).to_string();
        for function in MEASURED {
            // What was stopped on a smaller input of the kind is not tried on a larger one. Where load_builtin is stopped, so would be
            // all that loads.
            let hopeless = |f| stopped.contains(&(kind.clone(), f));
            let said = if hopeless(function) || hopeless("load-builtin") && !function.starts_with("crate") {
                "not run".to_string()
            } else {
                match time(function, file) {
                    Some(time) => format!("{:.3}", length * 1e3 / time),
                    None => {
                        stopped.push((kind.clone(), function));
                        "stopped".to_string()
                    }
                }
            };
            println!("{name}\t{length}\t{function}\t{said}");
        }
    }
}

/// What `measure` said of one run: for each input in turn its bytes and what was said of each function.
type Said = Vec<(String, String, Vec<(String, String)>)>;

fn said(file: &str) -> Said {
    let mut all: Said = vec![];
    for line in fs::read_to_string(file).expect("what was measured").lines() {
        let [name, bytes, function, said] = line.split('\t').collect::<Vec<_>>()[..] else { continue };
        let at = all.iter().position(|one| one.0 == name).unwrap_or_else(|| {
            all.push((name.into(), bytes.into(), vec![]));
            all.len() - 1
        });
        all[at].2.push((function.into(), said.into()));
    }
    all
}

/// The tables of one run, or of a run before and one after.
fn show(before: Said, after: Said) {
    let of = |all: &Said, name: &str, function: &str| -> Option<String> {
        let of_input = &all.iter().find(|one| one.0 == name)?.2;
        Some(of_input.iter().find(|one| one.0 == function)?.1.clone())
    };
    let speed = |said: &Option<String>| match said.as_deref().map(|s| (s, s.parse::<f64>())) {
        None => "–".to_string(),
        Some((_, Ok(s))) if s < 10.0 => format!("{s:.2}"),
        Some((_, Ok(s))) => format!("{s:.0}"),
        Some((said, _)) => said.to_string(),
    };
    let ratio = |a: &Option<String>, b: &Option<String>| match (a.as_deref().map(str::parse::<f64>), b.as_deref().map(str::parse::<f64>)) {
        (Some(Ok(a)), Some(Ok(b))) => format!("{:.2}", a / b),
        _ => "–".to_string(),
    };
    let tables: [(&[&str], &[&str]); 3] = [
        (&["crate-load", "crate-load-drop"], &["load", "load-builtin", "load-builtin-new"]),
        (&["crate-assemble"], &["parse-order", "module-order"]),
        (&["crate-disassemble", "spirv-tools"], &["disassemble"]),
    ];
    for (krate, library) in tables {
        print!("| input | bytes | {}", krate.join(" | "));
        library.iter().for_each(|f| print!(" | {f} before | after | ratio"));
        println!(" |\n|---|{}", "--:|".repeat(1 + krate.len() + 3 * library.len()));
        for (name, bytes, _) in &before {
            print!("| {name} | {bytes}");
            for function in krate {
                print!(" | {}", speed(&of(&after, name, function).or(of(&before, name, function))));
            }
            for function in library {
                let (first, then) = (of(&before, name, function), of(&after, name, function));
                let ratio = match then {
                    Some(_) => ratio(&then, &of(&after, name, krate[0])),
                    None => ratio(&first, &of(&before, name, krate[0])),
                };
                print!(" | {} | {} | {ratio}", speed(&first), speed(&then));
            }
            println!(" |");
        }
        println!();
    }
}

/// Instructions executed in one call, by callgrind.
fn instructions(function: &str, file: &str, profile: &str) -> Option<f64> {
    let out = Command::new("valgrind")
        .args(["--tool=callgrind", "--toggle-collect=measured_call", &format!("--callgrind-out-file={profile}")])
        .arg(env::current_exe().expect("this program"))
        .args(["once", function, file])
        .output()
        .ok()?;
    let said = String::from_utf8_lossy(&out.stderr);
    let line = said.lines().find(|line| line.contains("Collected : "))?;
    line.rsplit(' ').next()?.parse().ok()
}

/// The instructions for each byte of the input, of each file and function; then those for a header alone, and the time it takes.
fn counts(files: &[String]) {
    let names: Vec<&str> = files.iter().map(|f| f.rsplit('/').next().unwrap_or(f).trim_end_matches(".spv")).collect();
    println!("| function | {} |\n|---|{}", names.join(" | "), "--:|".repeat(files.len()));
    for function in MEASURED {
        let cells = files.iter().map(|file| {
            let length = fs::metadata(file).expect("the input").len() as f64;
            instructions(function, file, "/dev/null").map_or("no callgrind".into(), |n| format!("{:.1}", n / length))
        });
        println!("| {function} | {} |", cells.collect::<Vec<String>>().join(" | "));
    }
    println!("\n| a header alone | instructions | µs |\n|---|--:|--:|");
    for function in ["load-header", "load-builtin-header"] {
        let count = instructions(function, &files[0], "/dev/null").map_or("no callgrind".into(), |n| n.to_string());
        println!("| {function} | {count} | {:.1} |", time(function, &files[0]).unwrap_or(f64::NAN) / 1e3);
    }
}

fn main() {
    assert!(library::same_version(), "the library has another version than its declarations");
    let args: Vec<String> = env::args().skip(1).collect();
    let read = |file: &str| fs::read(file).unwrap_or_else(|e| panic!("{file}: {e}"));
    match args.iter().map(String::as_str).collect::<Vec<_>>()[..] {
        ["shader", source, copies] => {
            print!("{}", grown::shader(&String::from_utf8_lossy(&read(source)), copies.parse().expect("how many")))
        }
        ["module", results, megabytes, out] => {
            let grammar = reading::Grammar::read(&library::builtin()).expect("the built-in grammar is well-formed");
            let megabytes: usize = megabytes.parse().expect("how many MB");
            // 64 MB are the longest that are loaded: 67,108,864 bytes
            let length = megabytes * 1_048_576 - 1024;
            let bytes = match results {
                "undefined" | "chained" => grown::undefined(results == "chained", length),
                _ => {
                    let results = grown::Results::named(results).expect("rising, low, falling, vectors, undefined or chained");
                    grown::module(&grammar, results, length)
                }
            };
            fs::write(out, bytes).expect("the module is written");
        }
        ["time", function, file] => {
            let (time, turns) = best(function, read(file), 500_000_000);
            println!("{time} {turns}");
        }
        ["once", function, file] => {
            println!("{:.3} s", ready(function, read(file))().of_thread as f64 / 1e9);
        }
        ["corpus", ..] => corpus(&args[1..]),
        ["measure", ..] => measure(&args[1..]),
        ["show", before] => show(said(before), vec![]),
        ["show", before, after] => show(said(before), said(after)),
        ["counts", ..] => counts(&args[1..]),
        ["profile", function, file, out] => match instructions(function, file, out) {
            Some(n) => println!("{n} instructions"),
            None => println!("no callgrind"),
        },
        _ => {
            eprintln!("see README.md; functions: {}", MEASURED.join(", "));
            exit(2);
        }
    }
}
