//! All that is unsafe in this crate: the functions of the library, on slices, memory of zeros, and advice on memory. A slice passes as its
//! pointer and its length, a reference to an array as its pointer. No function is called of a library with another version than the
//! declarations here: each asks for the version first, which costs less than to remember it.

use crate::books::Book;
use crate::{c, Error, Records};
use std::alloc::{alloc_zeroed, Layout};

/// An element of a store.
pub trait Element: Copy {}
impl Element for u8 {}
impl Element for u32 {}

/// So many zeros. Memory that is never written to is not taken up, which is why a store may be far larger than what it comes to hold.
pub fn zeros<T: Element>(count: usize) -> Result<Vec<T>, Error> {
    let layout = Layout::array::<T>(count).map_err(|_| Error::NoMemory)?;
    if count == 0 {
        return Ok(Vec::new());
    }
    // Safety: the layout has a size over 0. It is that of a vector with room for `count` elements, of the allocator that vectors use, and
    // zero bytes are so many elements, since an element is a u8 or a u32.
    let mut store = unsafe {
        let start = alloc_zeroed(layout).cast::<T>();
        if start.is_null() {
            return Err(Error::NoMemory);
        }
        Vec::from_raw_parts(start, count, count)
    };
    in_large_pages(&mut store);
    Ok(store)
}

/// Asks for large pages for much memory, where the system has them: it is filled from its start on, and of the time that a large file takes
/// beside the load most would go into memory that is given 4 KiB at a time. Less is left alone, since a large page is taken up whole.
#[cfg(target_os = "linux")]
pub fn in_large_pages<T>(memory: &mut [T]) {
    use std::ffi::{c_int, c_void};
    extern "C" {
        // of the C library that Rust's own rests on
        fn madvise(start: *mut c_void, length: usize, advice: c_int) -> c_int;
    }
    const MADV_HUGEPAGE: c_int = 14;
    const PAGE: usize = 1 << 21;
    let range = memory.as_mut_ptr_range();
    let (first, end) = ((range.start as usize + PAGE - 1) / PAGE * PAGE, range.end as usize / PAGE * PAGE);
    if end >= first + 4 * PAGE {
        // Safety: these pages lie in a live slice that is borrowed to be written, and the advice changes nothing that stands in them. Where it
        // is not taken nothing is different, so that the answer is of no use.
        unsafe { madvise(first as *mut c_void, end - first, MADV_HUGEPAGE) };
    }
}

#[cfg(not(target_os = "linux"))]
pub fn in_large_pages<T>(_: &mut [T]) {}

/// An error where a library has another version than the declarations.
fn fits(version: u32) -> Result<(), Error> {
    if version == c::VERSION {
        Ok(())
    } else {
        Err(Error::Version(version))
    }
}

fn same_version() -> Result<(), Error> {
    // Safety: it takes nothing and reads nothing that changes.
    fits(unsafe { c::kollafrin_version() })
}

pub fn builtin(out: &mut [u8]) -> Result<usize, Error> {
    same_version()?;
    // Safety: the pointer is that of a live slice with its length, borrowed to be written.
    Ok(unsafe { c::kollafrin_builtin(out.as_mut_ptr(), out.len()) })
}

pub fn load(
    module: &[u8],
    grammar: &[u8],
    instructions: &mut [u32],
    log: &mut [u8],
    strings: &mut [u8],
    types: &mut [u32],
    answer: &mut [u32; 16],
) -> Result<u32, Error> {
    same_version()?;
    // Safety: each pointer is that of a live slice with its own length, or of the answer's array. Those that are written are borrowed
    // mutably, so that no two overlap. The library reads and writes nothing else, and keeps no pointer.
    Ok(unsafe {
        c::kollafrin_load(
            module.as_ptr(),
            module.len(),
            grammar.as_ptr(),
            grammar.len(),
            instructions.as_mut_ptr(),
            instructions.len(),
            log.as_mut_ptr(),
            log.len(),
            strings.as_mut_ptr(),
            strings.len(),
            types.as_mut_ptr(),
            types.len(),
            answer,
        )
    })
}

pub fn load_builtin(
    module: &[u8],
    instructions: &mut [u32],
    log: &mut [u8],
    strings: &mut [u8],
    types: &mut [u32],
    answer: &mut [u32; 16],
) -> Result<u32, Error> {
    same_version()?;
    // Safety: each pointer is that of a live slice with its own length, or of the answer's array. Those that are written are borrowed
    // mutably, so that no two overlap. The library reads and writes nothing else, and keeps no pointer.
    Ok(unsafe {
        c::kollafrin_load_builtin(
            module.as_ptr(),
            module.len(),
            instructions.as_mut_ptr(),
            instructions.len(),
            log.as_mut_ptr(),
            log.len(),
            strings.as_mut_ptr(),
            strings.len(),
            types.as_mut_ptr(),
            types.len(),
            answer,
        )
    })
}

/// A writer of the library, or its listing: all take the same, and answer alike.
type Writer = unsafe extern "C" fn(
    *const [u32; 5],
    *const u32,
    usize,
    *const u8,
    usize,
    *const u8,
    usize,
    usize,
    usize,
    usize,
    *mut u8,
    usize,
    *mut [u32; 4],
) -> u32;

fn write(writer: Writer, records: Records<'_>, out: &mut [u8], answer: &mut [u32; 4]) -> Result<u32, Error> {
    same_version()?;
    // Safety: as for a load: live slices with their lengths, the header's array, and output and answer, which are borrowed mutably.
    Ok(unsafe {
        writer(
            &records.header,
            records.instructions.as_ptr(),
            records.instructions.len(),
            records.log.as_ptr(),
            records.log.len(),
            records.strings.as_ptr(),
            records.strings.len(),
            records.instructions.len() / c::RECORD,
            records.log.len(),
            records.strings.len(),
            out.as_mut_ptr(),
            out.len(),
            answer,
        )
    })
}

pub fn write_parse_order(records: Records<'_>, out: &mut [u8], answer: &mut [u32; 4]) -> Result<u32, Error> {
    write(c::kollafrin_write_parse_order, records, out, answer)
}

pub fn write_module_order(records: Records<'_>, out: &mut [u8], answer: &mut [u32; 4]) -> Result<u32, Error> {
    write(c::kollafrin_write_module_order, records, out, answer)
}

pub fn disassemble(records: Records<'_>, out: &mut [u8], answer: &mut [u32; 4]) -> Result<u32, Error> {
    write(c::kollafrin_disassemble, records, out, answer)
}

pub fn standing(records: Records<'_>, answer: &mut [u32; 4]) -> Result<u32, Error> {
    same_version()?;
    // Safety: as for a load: live slices with their lengths, and the answer, which alone is written and is borrowed mutably.
    Ok(unsafe {
        c::kollafrin_standing(
            records.instructions.as_ptr(),
            records.instructions.len(),
            records.log.as_ptr(),
            records.log.len(),
            records.strings.as_ptr(),
            records.strings.len(),
            records.instructions.len() / c::RECORD,
            records.log.len(),
            records.strings.len(),
            answer,
        )
    })
}

/// A turn of a book: both take the same, and answer alike.
type Turn =
    unsafe extern "C" fn(*const u32, usize, *const u8, usize, *const u8, usize, usize, usize, usize, *mut u32, usize, *mut [u32; 4]) -> u32;

/// Turns a book with records of so many words.
fn turn(turn: Turn, record: usize, book: Book<'_>, out: &mut [u32], answer: &mut [u32; 4]) -> Result<u32, Error> {
    same_version()?;
    // Safety: as for a load: live slices with their lengths, and output and answer, which are borrowed mutably.
    Ok(unsafe {
        turn(
            book.records.as_ptr(),
            book.records.len(),
            book.log.as_ptr(),
            book.log.len(),
            book.strings.as_ptr(),
            book.strings.len(),
            book.records.len() / record,
            book.log.len(),
            book.strings.len(),
            out.as_mut_ptr(),
            out.len(),
            answer,
        )
    })
}

pub fn new_book(book: Book<'_>, out: &mut [u32], answer: &mut [u32; 4]) -> Result<u32, Error> {
    turn(c::kollafrin_new_book, c::OLD_RECORD, book, out, answer)
}

pub fn old_book(book: Book<'_>, out: &mut [u32], answer: &mut [u32; 4]) -> Result<u32, Error> {
    turn(c::kollafrin_old_book, c::RECORD, book, out, answer)
}

pub fn join(first: &[u8], second: &[u8], out: &mut [u8], answer: &mut [u32; 4]) -> Result<u32, Error> {
    same_version()?;
    // Safety: as for a load: live slices with their lengths, and output and answer, which are borrowed mutably.
    Ok(unsafe { c::kollafrin_join(first.as_ptr(), first.len(), second.as_ptr(), second.len(), out.as_mut_ptr(), out.len(), answer) })
}

#[cfg(test)]
mod tests {
    use super::*;

    #[test]
    fn another_version_is_an_error() {
        assert_eq!(same_version(), Ok(()));
        assert_eq!(fits(c::VERSION + 1), Err(Error::Version(c::VERSION + 1)));
        assert_eq!(fits(0), Err(Error::Version(0)));
    }

    #[test]
    fn more_than_there_can_be() {
        assert_eq!(zeros::<u8>(usize::MAX / 2), Err(Error::NoMemory));
        assert_eq!(zeros::<u32>(usize::MAX / 2), Err(Error::NoMemory));
        assert_eq!(zeros::<u32>(usize::MAX), Err(Error::NoMemory));
        assert_eq!(zeros::<u8>(0), Ok(vec![]));
        assert_eq!(zeros::<u32>(3), Ok(vec![0; 3]));
    }
}
