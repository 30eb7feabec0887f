//! Files and folders, and the grammar that is lent.

use crate::call::{Call, Stop};
use kollafrin::{Error, Module, Refusal, MOST_GRAMMAR_BYTES, MOST_MODULE_BYTES};
use std::fs::{self, File};
use std::io::{self, Read};
use std::path::{Path, PathBuf};

/// Reads a file, or standard input where the path is `-`, into a buffer that is kept: of one that is longer than any module, a byte more
/// than a module has at most, so that the load refuses it.
pub fn read(path: &Path, bytes: &mut Vec<u8>) -> io::Result<()> {
    at_most(path, bytes, MOST_MODULE_BYTES as u64 + 1)
}

fn at_most(path: &Path, bytes: &mut Vec<u8>, most: u64) -> io::Result<()> {
    bytes.clear();
    if path.as_os_str() == "-" {
        return io::stdin().lock().take(most).read_to_end(bytes).map(drop);
    }
    let file = File::open(path)?;
    let expected = file.metadata().map_or(0, |about| about.len()).min(most);
    kollafrin::reserve(bytes, expected as usize + 1).map_err(|_| io::Error::from(io::ErrorKind::OutOfMemory))?;
    file.take(most).read_to_end(bytes).map(drop)
}

/// A book as it was read, and how long it is: of one that is longer than any book with its counts no more is read than that tells, and how
/// long it is is not known where it is no file.
pub struct Book {
    pub bytes: Vec<u8>,
    pub length: Option<u64>,
}

/// Reads a book: the bytes before its records, and as many more as these say that a book has at most.
pub fn read_book(path: &Path, head: usize, most: impl Fn(&[u8]) -> u64) -> Result<Book, Stop> {
    let failed = |fault: io::Error| Stop::Failed(unread(path, &fault));
    let (mut from, whole): (Box<dyn Read>, _) = if path.as_os_str() == "-" {
        (Box::new(io::stdin().lock()), None)
    } else {
        let file = File::open(path).map_err(failed)?;
        let whole = file.metadata().ok().filter(|about| about.is_file()).map(|about| about.len());
        (Box::new(file), whole)
    };
    let mut bytes = Vec::new();
    from.by_ref().take(head as u64).read_to_end(&mut bytes).map_err(failed)?;
    let most = most(&bytes);
    let expected = whole.map_or(0, |length| length.min(most) as usize);
    kollafrin::reserve(&mut bytes, expected).map_err(|_| failed(io::ErrorKind::OutOfMemory.into()))?;
    from.take((most + 1).saturating_sub(bytes.len() as u64)).read_to_end(&mut bytes).map_err(failed)?;
    let read = bytes.len() as u64;
    Ok(Book { length: if read > most { whole } else { Some(read) }, bytes })
}

/// Reads the one file of a call.
pub fn read_one(path: &Path) -> Result<Vec<u8>, Stop> {
    let mut bytes = Vec::new();
    read(path, &mut bytes).map_err(|fault| Stop::Failed(unread(path, &fault)))?;
    Ok(bytes)
}

/// What is said of a file that cannot be read.
pub fn unread(path: &Path, fault: &io::Error) -> String {
    format!("{}: cannot be read: {fault}", path.display())
}

/// What is said where memory, or the library that fits, is not there.
pub fn failed(path: &Path, error: &Error) -> Stop {
    Stop::Failed(format!("{}: {error}", path.display()))
}

/// The grammar that is lent, if one is. One that is not well-formed ends the run here, before any module is refused for it.
pub fn grammar(call: &Call) -> Result<Option<Vec<u8>>, Stop> {
    let Some(path) = &call.grammar else { return Ok(None) };
    let bytes = read_grammar(path)?;
    match refusal(&bytes).map_err(|error| failed(path, &error))? {
        None => Ok(Some(bytes)),
        Some(refusal) => Err(Stop::Refused(format!("{}: {refusal}", path.display()))),
    }
}

/// Reads a grammar: of a file that is longer than any, a byte more than a grammar has at most, so that it is refused.
pub fn read_grammar(path: &Path) -> Result<Vec<u8>, Stop> {
    let mut bytes = Vec::new();
    at_most(path, &mut bytes, MOST_GRAMMAR_BYTES as u64 + 1).map_err(|fault| Stop::Failed(unread(path, &fault)))?;
    Ok(bytes)
}

/// What a load says of a grammar that is not well-formed.
pub fn refusal(grammar: &[u8]) -> Result<Option<Refusal>, Error> {
    match Module::load(&[], grammar) {
        Err(Error::Refused(refusal)) => Ok(Some(refusal).filter(|refusal| refusal.number == 24)),
        other => other.map(|_| None),
    }
}

/// A file to look at, or a path that cannot be read and why.
pub type Found = Result<PathBuf, (PathBuf, io::Error)>;

/// The files that are meant: each path, and of a folder every file below it whose name ends in `.spv`, by name.
pub fn all(paths: &[PathBuf]) -> Vec<Found> {
    let mut found = Vec::new();
    for path in paths {
        if path.as_os_str() != "-" && path.is_dir() {
            below(path, &mut found);
        } else {
            found.push(Ok(path.clone()));
        }
    }
    found
}

fn below(folder: &Path, found: &mut Vec<Found>) {
    let entries = fs::read_dir(folder).and_then(|entries| entries.collect::<io::Result<Vec<_>>>());
    let mut entries = match entries {
        Ok(entries) => entries,
        Err(fault) => return found.push(Err((folder.to_path_buf(), fault))),
    };
    entries.sort_by_key(|entry| entry.file_name());
    for entry in entries {
        let path = entry.path();
        // a link to a folder is not followed, so that there is no way round
        if entry.file_type().is_ok_and(|kind| kind.is_dir()) {
            below(&path, found);
        } else if path.extension().is_some_and(|end| end == "spv") && fs::metadata(&path).map_or(true, |about| about.is_file()) {
            found.push(Ok(path));
        }
    }
}
