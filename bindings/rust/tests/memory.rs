//! Where memory lacks: an allocator that refuses what is larger than a test allows, and keeps the largest request.

use kollafrin::{builtin, join, new_book, Error, Module, Refusal};
use std::alloc::{GlobalAlloc, Layout, System};
use std::cell::Cell;

thread_local! {
    static ALLOWED: Cell<usize> = const { Cell::new(usize::MAX) };
    static LARGEST: Cell<usize> = const { Cell::new(0) };
}

struct Allowing;

impl Allowing {
    fn allows(size: usize) -> bool {
        LARGEST.with(|largest| largest.set(largest.get().max(size)));
        size <= ALLOWED.with(Cell::get)
    }
}

// Safety: the system's allocator, or no memory.
unsafe impl GlobalAlloc for Allowing {
    unsafe fn alloc(&self, layout: Layout) -> *mut u8 {
        if Allowing::allows(layout.size()) {
            System.alloc(layout)
        } else {
            std::ptr::null_mut()
        }
    }
    unsafe fn dealloc(&self, start: *mut u8, layout: Layout) {
        System.dealloc(start, layout)
    }
}

#[global_allocator]
static ALLOCATOR: Allowing = Allowing;

/// What a call answers where no allocation over `most` bytes is allowed, and the largest that it asked for.
fn with_at_most<T>(most: usize, call: impl FnOnce() -> T) -> (T, usize) {
    LARGEST.with(|largest| largest.set(0));
    ALLOWED.with(|allowed| allowed.set(most));
    let said = call();
    ALLOWED.with(|allowed| allowed.set(usize::MAX));
    (said, LARGEST.with(Cell::get))
}

/// A header and so many OpCapability Matrix, of two words each.
fn module(count: usize) -> Vec<u8> {
    let header = [0x0723_0203, 0x0001_0000, 0, 0, 0];
    header.iter().chain([0x0002_0011, 0].repeat(count).iter()).flat_map(|w: &u32| w.to_le_bytes()).collect()
}

#[test]
fn stores_of_a_load() {
    let bytes = module(1000);
    let whole = Module::load_builtin(&bytes).unwrap();
    for most in [1, 8_000, 18_000, 24_000, 79_999] {
        assert_eq!(with_at_most(most, || Module::load_builtin(&bytes)).0, Err(Error::NoMemory), "{most}");
        assert_eq!(with_at_most(most, || Module::load_builtin_kept(&bytes)).0, Err(Error::NoMemory), "{most}");
        assert_eq!(with_at_most(most, || Module::load(&bytes, &[])).0, Err(Error::NoMemory), "{most}");
    }
    assert_eq!(with_at_most(80_000, || Module::load_builtin(&bytes)), (Ok(whole), 80_000));
}

#[test]
fn output_of_a_write() {
    let bytes = module(1000);
    let loaded = Module::load_builtin(&bytes).unwrap();
    assert_eq!(with_at_most(8_019, || loaded.write_parse_order()).0, Err(Error::NoMemory));
    assert_eq!(with_at_most(8_019, || loaded.write_module_order()).0, Err(Error::NoMemory));
    assert_eq!(with_at_most(8_020, || loaded.write_parse_order()), (Ok(bytes), 8_020));
    assert_eq!(with_at_most(8_020, || loaded.write_module_order().map(|bytes| bytes.len())), (Ok(8_020), 8_020));
    assert_eq!(with_at_most(0, || loaded.standing()), (Ok(false), 0));
}

#[test]
fn output_of_a_turn() {
    let loaded = Module::load_builtin(&module(1000)).unwrap();
    let old = loaded.old_book().unwrap();
    assert_eq!(with_at_most(31_999, || loaded.old_book()).0, Err(Error::NoMemory));
    assert_eq!(with_at_most(32_000, || loaded.old_book()), (Ok(old.clone()), 32_000));
    assert_eq!(with_at_most(39_999, || new_book(&old, loaded.log(), &[])).0, Err(Error::NoMemory));
    assert_eq!(with_at_most(40_000, || new_book(&old, loaded.log(), &[]).map(|words| words.len())), (Ok(10_000), 40_000));
}

#[test]
fn the_grammar() {
    assert_eq!(with_at_most(12_250, builtin).0, Err(Error::NoMemory));
    assert_eq!(with_at_most(12_251, builtin).1, 12_251);
    let (house, grammar) = ([1, 0x00, 0xF0, 2, 33, 0], builtin().unwrap());
    assert_eq!(with_at_most(12_256, || join(&grammar, &house)).0, Err(Error::NoMemory));
    assert_eq!(with_at_most(12_257, || join(&grammar, &house).map(|bytes| bytes.len())), (Ok(12_257), 12_257));
}

/// Records are checked before memory is asked for: what they claim to need is a terabyte, and nothing is asked for.
#[test]
fn records_that_claim_a_terabyte() {
    let records = [14, 4, 20, 0, 0, 0, 0, 65_535, 0, 0].repeat(4_000_000);
    let claimed = Module::from_stores([0; 5], records, vec![], vec![], vec![]);
    let refused = Error::Refused(Refusal { number: 30, index: 1, ..Refusal::default() });
    assert_eq!(with_at_most(0, || claimed.write_parse_order()), (Err(refused), 0));
    assert_eq!(with_at_most(0, || claimed.write_module_order()), (Err(refused), 0));
    assert_eq!(with_at_most(0, || claimed.standing()), (Err(refused), 0));
}
