//! What judges the library, and inputs to try it on.

// The oracle's second copy of the crate's tracker looks for these at the root.
#[allow(unused_imports)]
use rspirv::{binary, dr, grammar, spirv};

/// The crate's answers.
pub mod krate;

/// A separate reading of what a load and a write are to do.
pub mod reading;

/// A separate reading of the listing for the cutters.
pub mod text;

/// A separate reading of two grammars joined.
pub mod joining;

/// A separate reading of last season's books.
pub mod books;

/// Seeded inputs: modules grown from a grammar, damaged copies.
pub mod grow;

/// Named inputs.
pub mod cases;

/// The built-in grammar's bytes as `tools/make_table.py SRC --bytes` makes them from the crate's files. A run holds them against
/// the crate's own lookups, and the library's bytes against them.
pub const GRAMMAR: &[u8] = include_bytes!("../data/grammar.bin");
