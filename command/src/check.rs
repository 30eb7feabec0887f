//! `check`: every file, and every .spv below a folder.

use crate::call::{Call, Command, Stop, ACCEPTED, FAILED, REFUSED};
use crate::files::{self, Found};
use crate::json::Object;
use crate::out::{Out, A_WHILE};
use crate::{plain, standing};
use kollafrin::{opcode_name, Error, Stores};
use std::collections::BTreeMap;
use std::path::Path;
use std::sync::atomic::{AtomicUsize, Ordering};
use std::sync::mpsc::{channel, RecvTimeoutError};
use std::thread;

pub const COMMAND: Command = Command {
    name: "check",
    usage: "kollafrin check [--plain] [--standing] [--grammar FILE] [--json] PATH...",
    does: "Loads every file, and every .spv below a folder: a line for each that is refused,\nand a last one with how many were accepted and refused.",
    options: &["--plain", "--standing", "--grammar"],
    paths: (1, usize::MAX),
    run,
};

/// What is said of a file.
#[derive(Default)]
struct Verdict {
    /// For standard output, line by line.
    lines: Vec<String>,
    /// For standard error: why the file cannot be read.
    unread: Option<String>,
    refused: bool,
    not_plain: bool,
    not_standing: bool,
}

fn run(call: &Call) -> Result<u8, Stop> {
    let grammar = files::grammar(call)?;
    let found = files::all(&call.paths);
    let mut out = Out::of_many(found.len());
    let threads = thread::available_parallelism().map_or(1, usize::from).min(found.len());
    let next = AtomicUsize::new(0);
    let (sender, receiver) = channel();
    let (mut accepted, mut refused, mut unread, mut not_plain, mut not_standing) = (0, 0, 0, 0, 0);
    thread::scope(|scope| {
        for _ in 0..threads {
            let (sender, next, found, grammar) = (sender.clone(), &next, &found, grammar.as_deref());
            scope.spawn(move || {
                let (mut stores, mut bytes) = (Stores::default(), Vec::new());
                loop {
                    let index = next.fetch_add(1, Ordering::Relaxed);
                    let Some(found) = found.get(index) else { return };
                    // nobody listens once the output is closed
                    if sender.send((index, verdict(call, found, grammar, &mut stores, &mut bytes))).is_err() {
                        return;
                    }
                }
            });
        }
        drop(sender);
        // those that are there before their turn
        let mut early: BTreeMap<usize, Verdict> = BTreeMap::new();
        let mut told = 0;
        let receiver = receiver;
        while told < found.len() {
            match receiver.recv_timeout(A_WHILE) {
                Ok((index, verdict)) => drop(early.insert(index, verdict)),
                Err(RecvTimeoutError::Timeout) => out.flush()?,
                Err(RecvTimeoutError::Disconnected) => return Err(Stop::Failed("a thread ended before its time".into())),
            }
            while let Some(verdict) = early.remove(&told) {
                told += 1;
                for line in &verdict.lines {
                    out.line(line)?;
                }
                if let Some(why) = &verdict.unread {
                    out.complain(why)?;
                    unread += 1;
                } else if verdict.refused {
                    refused += 1;
                } else {
                    accepted += 1;
                }
                not_plain += usize::from(verdict.not_plain);
                not_standing += usize::from(verdict.not_standing);
            }
            out.done(told);
        }
        Ok(())
    })?;
    let counts = [
        (accepted, "accepted", true),
        (refused, "refused", true),
        (not_plain, "not plain", call.plain),
        (not_standing, "not standing", call.standing),
        (unread, "not read", unread > 0 || call.json),
    ];
    let counts = counts.iter().filter(|count| count.2);
    if call.json {
        out.line(&counts.fold(Object::new(), |object, (count, name, _)| object.plain(&name.replace(' ', "_"), count)).end())?;
    } else {
        out.line(&counts.map(|(count, name, _)| format!("{count} {name}")).collect::<Vec<_>>().join(", "))?;
    }
    out.flush()?;
    Ok(if unread > 0 {
        FAILED
    } else if refused > 0 {
        REFUSED
    } else {
        ACCEPTED
    })
}

fn verdict(call: &Call, found: &Found, grammar: Option<&[u8]>, stores: &mut Stores, bytes: &mut Vec<u8>) -> Verdict {
    let unread = |path: &Path, why: String| {
        let lines = if call.json { vec![Object::new().text("file", &path.to_string_lossy()).text("error", &why).end()] } else { vec![] };
        Verdict { lines, unread: Some(why), ..Verdict::default() }
    };
    let path = match found {
        Ok(path) => path,
        Err((path, fault)) => return unread(path, files::unread(path, fault)),
    };
    match files::read(path, bytes) {
        Ok(()) => {
            looked_at(call, path, bytes, grammar, stores).unwrap_or_else(|error| unread(path, format!("{}: {error}", path.display())))
        }
        Err(fault) => unread(path, files::unread(path, &fault)),
    }
}

fn looked_at(call: &Call, path: &Path, bytes: &[u8], grammar: Option<&[u8]>, stores: &mut Stores) -> Result<Verdict, Error> {
    let mut verdict = Verdict::default();
    let object = Object::new().text("file", &path.to_string_lossy());
    let (records, refusal) = stores.load(bytes, grammar)?;
    if let Some(refusal) = refusal {
        let told = refusal.told(bytes, grammar)?;
        verdict.refused = true;
        verdict.lines.push(if call.json { crate::text::refused(object, &told).end() } else { format!("{}: {told}", path.display()) });
        return Ok(verdict);
    }
    let mut object = object.plain("accepted", true);
    if call.plain {
        let fault = plain::fault(records);
        verdict.not_plain = fault.is_some();
        object = object.plain("plain", fault.is_none());
        if let Some(fault) = fault {
            object = object.plain("plain_offset", fault.offset).text("plain_words", fault.words);
            if !call.json {
                let instruction = fault.index.map_or(String::new(), |index| format!(", instruction {index}"));
                verdict.lines.push(format!("{}: not plain at byte {}{instruction}: {}", path.display(), fault.offset, fault.words));
            }
        }
    }
    if call.standing {
        verdict.not_standing = !records.standing()?;
        object = object.plain("standing", !verdict.not_standing);
        if let Some((index, words)) = standing::fault(records).filter(|_| verdict.not_standing) {
            let place = match records.instructions().nth(index) {
                Some(i) => {
                    object = object.plain("standing_offset", i.offset).plain("standing_index", index + 1);
                    let name = opcode_name(i.opcode)?.map_or(String::new(), |name| format!("{name}: "));
                    format!(" at byte {}, instruction {}: {name}", i.offset, index + 1)
                }
                None => ": ".into(),
            };
            object = object.text("standing_words", words);
            if !call.json {
                verdict.lines.push(format!("{}: not standing{place}{words}", path.display()));
            }
        }
    }
    if call.json {
        verdict.lines.push(object.end());
    }
    Ok(verdict)
}
