//! Last season's books: the stores of a module whose instruction records have eight words, without function and block number, and how they
//! are turned into those of today and back. Log and strings are the same in both.

use crate::c::{OLD_RECORD, RECORD};
use crate::{door, room, Error, Refusal};

/// The three stores that a turn looks at, as long as they count.
#[derive(Clone, Copy)]
pub struct Book<'a> {
    pub records: &'a [u32],
    pub log: &'a [u8],
    pub strings: &'a [u8],
}

/// The instruction words of an old book, [`OLD_RECORD`] each, as those of a new one, [`RECORD`] each: behind the eight words of a record
/// stand the function and the block number that the tags call for. 30 where a record breaks the layout of the stores, judged as
/// [`crate::Module::write_parse_order`] judges it. Words past the last whole record are left out.
///
/// ```
/// // OpMemoryModel Logical GLSL450, and an OpFunction that is not ended
/// let old = [14, 4, 20, 0, 0, 0, 2, 3, 0x0003_0036, 12, 32, 1, 2, 10, 2, 5];
/// let log = [11, 0, 0, 0, 0, 12, 1, 0, 0, 0, 5, 0, 0, 0, 0, 33, 3, 0, 0, 0];
/// let new = kollafrin::new_book(&old, &log, &[])?;
/// assert_eq!(new[..10], [14, 4, 20, 0, 0, 0, 2, 3, 0, 0]);
/// assert_eq!(new[10..], [0x0003_0036, 12, 32, 1, 2, 10, 2, 5, 1, 0]);
/// assert_eq!(kollafrin::old_book(&new, &log, &[])?, old);
/// # Ok::<(), kollafrin::Error>(())
/// ```
pub fn new_book(instructions: &[u32], log: &[u8], strings: &[u8]) -> Result<Vec<u32>, Error> {
    turned(door::new_book, [OLD_RECORD, RECORD], Book { records: instructions, log, strings })
}

/// The instruction words of a new book, [`RECORD`] each, as those of an old one, [`OLD_RECORD`] each. 30 as [`new_book`] has it; then 33 where
/// function or block number of a record is not the one that the tags call for.
///
/// ```
/// let (mut new, log) = ([14, 4, 20, 0, 0, 0, 2, 3, 0, 0], [11, 0, 0, 0, 0, 12, 1, 0, 0, 0]);
/// assert_eq!(kollafrin::old_book(&new, &log, &[])?, new[..8]);
/// new[9] = 1;
/// assert_eq!(
///     kollafrin::old_book(&new, &log, &[]).unwrap_err().to_string(),
///     "33 at record 1: the function or block number is not the one that the tags call for"
/// );
/// # Ok::<(), kollafrin::Error>(())
/// ```
pub fn old_book(instructions: &[u32], log: &[u8], strings: &[u8]) -> Result<Vec<u32>, Error> {
    turned(door::old_book, [RECORD, OLD_RECORD], Book { records: instructions, log, strings })
}

/// A book turned, into an output that all its records fit.
fn turned(
    call: impl Fn(Book<'_>, &mut [u32], &mut [u32; 4]) -> Result<u32, Error>,
    [from, to]: [usize; 2],
    book: Book<'_>,
) -> Result<Vec<u32>, Error> {
    let (mut words, mut answer) = (room::zeros(book.records.len() / from * to)?, [0; 4]);
    match call(book, &mut words, &mut answer)? {
        0 => Ok(words),
        number => Err(Error::Refused(Refusal { number, index: answer[1], ..Refusal::default() })),
    }
}
