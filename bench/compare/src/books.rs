//! A separate reading of last season's books: the request's sentences, over the check of records as the reading of writers has it.

use crate::reading::{check_records_of, Stores, RECORD};

/// "The shops hold stores with eight-word records."
pub const OLD_RECORD: usize = 8;

/// "Turn an old book into a new one, and a new one back": what a book is turned into.
#[derive(Clone, Copy, Debug, PartialEq, Eq)]
pub enum Turn {
    New,
    Old,
}

impl Turn {
    /// The words of a record before and after.
    pub fn lengths(self) -> (usize, usize) {
        match self {
            Turn::New => (OLD_RECORD, RECORD),
            Turn::Old => (RECORD, OLD_RECORD),
        }
    }
}

/// The book with the first eight words of each record, and of what is left behind the last one as many.
pub fn old_of(new: &Stores) -> Stores {
    let instructions = new.instructions.chunks(RECORD).flat_map(|record| record.iter().take(OLD_RECORD)).copied().collect();
    Stores { instructions, ..new.clone() }
}

/// What a turn answers, and the words that it writes.
#[derive(Clone, Debug, Default, PartialEq, Eq)]
pub struct Turned {
    pub number: u32,
    pub index: usize,
    pub records: usize,
    pub words: Vec<u32>,
}

fn refused(number: u32, index: usize) -> Turned {
    Turned { number, index, ..Turned::default() }
}

/// "Function number and block number, both from 1, 0 where the instruction has tag 1 to 11. A block number starts again with each function.
/// Tags 12, 13 and 16 have block 0." By counting, of every record anew: functions up to it, and labels since the last of these.
pub fn called_for(tags: &[u32]) -> Vec<[u32; 2]> {
    let of = |n: usize| {
        let up_to = &tags[..=n];
        let function = up_to.iter().filter(|tag| **tag == 12).count() as u32;
        let since = up_to.iter().rposition(|tag| *tag == 12).unwrap_or(0);
        let block = up_to[since..].iter().filter(|tag| **tag == 14).count() as u32;
        match tags[n] {
            14 | 15 => [function, block],
            12 | 13 | 16 => [function, 0],
            _ => [0, 0],
        }
    };
    (0..tags.len()).map(of).collect()
}

/// A book turned, into an output of this many words.
pub fn turn(turn: Turn, book: &Stores, output: usize) -> Turned {
    let (from, to) = turn.lengths();
    // "30 for a book that breaks its layout", "any other call over records as parse order does"
    let pieces = match check_records_of(from, book, false) {
        Ok(pieces) => pieces,
        Err(index) => return refused(30, index),
    };
    let tags: Vec<u32> = pieces.iter().map(|piece| piece.tag).collect();
    let records: Vec<&[u32]> = book.instructions.chunks(from).take(book.counts[0]).collect();
    let numbers = called_for(&tags);
    // "33 at the first record whose added numbers disagree"
    if turn == Turn::Old {
        if let Some(n) = (0..records.len()).find(|n| records[*n][8..] != numbers[*n]) {
            return refused(33, n + 1);
        }
    }
    // "25 for a short output": "the room in records, plus 1"
    let room = output / to;
    if room < records.len() {
        return refused(25, room + 1);
    }
    let all = records.iter().zip(numbers);
    let words = all.flat_map(|(record, numbers)| [&record[..8], &numbers].concat().into_iter().take(to)).collect();
    Turned { number: 0, index: 0, records: records.len(), words }
}
