//! `book`: a module's records as a file, and such a file turned into last season's and back. docs/REFERENCE.md ("The file of a book") has
//! what is in it.

use crate::call::{Call, Command, Stop, ACCEPTED};
use crate::files;
use crate::json::Object;
use crate::out::{self, Out};
use crate::restore;
use crate::text;
use kollafrin::{Error, Records, Stores, Told, OLD_RECORD, RECORD};
use std::path::Path;

pub const COMMAND: Command = Command {
    name: "book",
    usage: "kollafrin book load|old|new [--force] [--grammar FILE] [--json] FILE -o OUT",
    does: "load: loads a module and writes its records to OUT, a new book. old: turns a new book, with\nten words to a record, into an old one, with eight. new: turns an old book into a new one.",
    options: &["--force", "--grammar", "-o"],
    paths: (2, 2),
    run,
};

/// A kind of book: what it is called, and how many words a record has.
#[derive(Clone, Copy, PartialEq, Eq)]
struct Kind(&'static str, usize);

const NEW: Kind = Kind("new", RECORD);
const OLD: Kind = Kind("old", OLD_RECORD);

fn run(call: &Call) -> Result<u8, Stop> {
    let Some(to) = &call.out else { return Err(Stop::Wrong(format!("it is called as: {}", COMMAND.usage))) };
    let path = &call.paths[1];
    let mut out = Out::new();
    let (kind, bytes) = match call.paths[0].to_str() {
        Some("load") => (NEW, load(call, &mut out, path)?),
        Some("old" | "new") if call.grammar.is_some() => return Err(Stop::Wrong("book: --grammar is an option of load alone".into())),
        Some("old") => (OLD, turn(call, &mut out, path, NEW)?),
        Some("new") => (NEW, turn(call, &mut out, path, OLD)?),
        _ => return Err(Stop::Wrong(format!("book: there is no {}: it is called as: {}", call.paths[0].display(), COMMAND.usage))),
    };
    let a = if kind == OLD { "an old" } else { "a new" };
    let said = format!("{}: {} bytes, {} as {a} book", to.display(), bytes.len(), path.display());
    if to.as_os_str() == "-" {
        out.put(&bytes)?;
        out.flush()?;
        out::complain(&said);
        return Ok(ACCEPTED);
    }
    restore::write(to, &bytes, call.force)?;
    if call.json {
        let object = Object::new().text("file", &path.to_string_lossy()).plain("accepted", true).text("out", &to.to_string_lossy());
        out.line(&object.plain("bytes", bytes.len()).text("book", kind.0).plain("instructions", word(&bytes, 0)).end())?;
    } else {
        out.line(&said)?;
    }
    out.flush()?;
    Ok(ACCEPTED)
}

/// The book of a module, which is a new one.
fn load(call: &Call, out: &mut Out, path: &Path) -> Result<Vec<u8>, Stop> {
    let grammar = files::grammar(call)?;
    let bytes = files::read_one(path)?;
    let mut stores = Stores::default();
    let records = text::accepted(call, out, path, &bytes, grammar.as_deref(), &mut stores)?;
    book_of(records).ok_or_else(|| files::failed(path, &Error::NoMemory))
}

/// Header words and records as the bytes of a book; none where there is no memory.
fn book_of(records: Records<'_>) -> Option<Vec<u8>> {
    let (words, types) = (records.instruction_words(), records.type_words());
    let counts = [words.len() / RECORD, records.log().len(), records.strings().len(), types.len() / 3];
    let mut bytes = room(NEW.length(counts.map(|count| count as u64)))?;
    bytes.extend(counts.iter().flat_map(|count| (*count as u32).to_le_bytes()));
    bytes.extend(records.header().iter().chain(words).flat_map(|word| word.to_le_bytes()));
    bytes.extend(records.log());
    bytes.extend(records.strings());
    bytes.extend(types.iter().flat_map(|word| word.to_le_bytes()));
    Some(bytes)
}

/// Reads a book of a kind, and gives the bytes of the other: the records are turned, and all else is copied.
fn turn(call: &Call, out: &mut Out, path: &Path, from: Kind) -> Result<Vec<u8>, Stop> {
    let book = files::read_book(path, HEAD, |head| NEW.length(counts(head)))?;
    let length = from.length(counts(&book.bytes));
    if book.length != Some(length) {
        return Err(unlike(call, out, path, from, &book));
    }
    let [records, log, strings, _] = counts(&book.bytes).map(|count| count as usize);
    let log_at = HEAD + 4 * from.1 * records;
    let no_memory = || files::failed(path, &Error::NoMemory);
    let mut words = room((from.1 * records) as u64).ok_or_else(no_memory)?;
    words.extend(book.bytes[HEAD..log_at].chunks_exact(4).map(|bytes| word(bytes, 0)));
    let (log, strings) = book.bytes[log_at..log_at + log + strings].split_at(log);
    let turned = if from == OLD { kollafrin::new_book(&words, log, strings) } else { kollafrin::old_book(&words, log, strings) };
    let turned = match turned {
        Ok(turned) => turned,
        Err(Error::Refused(refusal)) => {
            let told = Told { refusal, instruction: None, kind: None, words: refusal.sentence().into() };
            return Err(text::end(call, out, path, &told));
        }
        Err(error) => return Err(files::failed(path, &error)),
    };
    let to = if from == OLD { NEW } else { OLD };
    let mut bytes = room(to.length(counts(&book.bytes))).ok_or_else(no_memory)?;
    bytes.extend(&book.bytes[..HEAD]);
    bytes.extend(turned.iter().flat_map(|word| word.to_le_bytes()));
    bytes.extend(&book.bytes[log_at..]);
    Ok(bytes)
}

/// The bytes before the records: four counts and five header words.
const HEAD: usize = 36;

impl Kind {
    /// How many bytes a book of this kind has with these counts: instructions, log bytes, string bytes, type entries.
    fn length(self, [records, log, strings, types]: [u64; 4]) -> u64 {
        HEAD as u64 + 4 * self.1 as u64 * records + log + strings + 12 * types
    }
}

/// The counts of a book; of what ends inside them, 0 for those that are not there.
fn counts(bytes: &[u8]) -> [u64; 4] {
    [0, 1, 2, 3].map(|n| word(bytes, 4 * n).into())
}

fn word(bytes: &[u8], at: usize) -> u32 {
    bytes.get(at..at + 4).map_or(0, |b| u32::from_le_bytes([b[0], b[1], b[2], b[3]]))
}

/// Room for so many elements; none where there is no memory.
fn room<T>(count: u64) -> Option<Vec<T>> {
    let mut room = Vec::new();
    room.try_reserve_exact(usize::try_from(count).ok()?).ok()?;
    Some(room)
}

/// The end that a file makes which is no book of this kind; where objects are asked for, it is one before.
fn unlike(call: &Call, out: &mut Out, path: &Path, kind: Kind, book: &files::Book) -> Stop {
    let (other, a) = if kind == NEW { (OLD, "an old") } else { (NEW, "a new") };
    let all = counts(&book.bytes);
    let asked = if book.bytes.len() < HEAD { None } else { Some(kind.length(all)) };
    let has = match book.length {
        Some(length) => format!("it has {length} bytes"),
        None => format!("it has more than {} bytes", NEW.length(all)),
    };
    let why = match asked {
        None => format!("{has}, and counts and header words alone are {HEAD}"),
        Some(asked) if book.length == Some(other.length(all)) => format!("{has} and its counts ask for {asked}: it is as long as {a} book"),
        Some(asked) => format!("{has}, and its counts ask for {asked}"),
    };
    let words = format!("this is no {} book: {why}", kind.0);
    let mut object = Object::new().text("file", &path.to_string_lossy()).plain("accepted", false);
    if let Some(length) = book.length {
        object = object.plain("bytes", length);
    }
    if let Some(asked) = asked {
        object = object.plain("asked", asked);
    }
    let said = if call.json { out.line(&object.text("words", &words).end()) } else { Ok(()) };
    said.and_then(|()| out.flush()).map_or_else(|stop| stop, |()| Stop::Refused(format!("{}: {words}", path.display())))
}
