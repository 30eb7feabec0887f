//! Memory for stores and outputs. Where there is none, that is an error: the program goes on.

pub use crate::door::zeros;
use crate::door::{in_large_pages, Element};
use crate::Error;

/// A store of so many elements or more: the one that is there where it suffices, with what it holds, else a new one of zeros.
pub fn grow<T: Element>(store: &mut Vec<T>, count: usize) -> Result<(), Error> {
    if store.len() < count {
        *store = Vec::new();
        *store = zeros(count)?;
    }
    Ok(())
}

/// Room for so many bytes more, as for those of a file that is to be loaded: where there is no memory, that is an error; where they are many,
/// in large pages, so that reading them takes less time.
///
/// ```
/// let mut bytes = Vec::new();
/// kollafrin::reserve(&mut bytes, 20)?;
/// assert!(bytes.is_empty() && bytes.capacity() >= 20);
/// # Ok::<(), kollafrin::Error>(())
/// ```
pub fn reserve(bytes: &mut Vec<u8>, more: usize) -> Result<(), Error> {
    bytes.try_reserve(more).map_err(|_| Error::NoMemory)?;
    in_large_pages(bytes.spare_capacity_mut());
    Ok(())
}

/// The same elements, in memory of their own.
pub fn copy<T: Element>(store: &[T]) -> Result<Vec<T>, Error> {
    let mut exact = Vec::new();
    exact.try_reserve_exact(store.len()).map_err(|_| Error::NoMemory)?;
    exact.extend_from_slice(store);
    Ok(exact)
}

#[cfg(test)]
mod tests {
    use super::*;

    #[test]
    fn a_store_that_suffices_stays() {
        let mut store = vec![1u8, 2, 3];
        assert_eq!((grow(&mut store, 3), &store[..]), (Ok(()), &[1, 2, 3][..]));
        assert_eq!((grow(&mut store, 4), &store[..]), (Ok(()), &[0; 4][..]));
        assert_eq!((grow(&mut store, usize::MAX), &store[..]), (Err(Error::NoMemory), &[][..]));
    }

    #[test]
    fn a_copy_has_no_room_behind() {
        assert_eq!(copy(&[1u32, 2]).map(|copy| copy.capacity()), Ok(2));
    }
}
