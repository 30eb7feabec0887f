//! What stands in the way of an answer.

use crate::{Refusal, Unjoined};
use std::fmt;

/// Why a call gives no module, bytes or answer.
#[derive(Clone, Copy, Debug, PartialEq, Eq, Hash)]
pub enum Error {
    /// The input is refused.
    Refused(Refusal),
    /// Two grammars are not joined.
    Unjoined(Unjoined),
    /// There is no memory for what the call gives.
    NoMemory,
    /// The library that is linked has this version, and not the one that this crate is written for.
    Version(u32),
}

impl fmt::Display for Error {
    fn fmt(&self, f: &mut fmt::Formatter<'_>) -> fmt::Result {
        match self {
            Error::Refused(refusal) => refusal.fmt(f),
            Error::Unjoined(unjoined) => unjoined.fmt(f),
            Error::NoMemory => f.write_str("no memory"),
            Error::Version(other) => write!(f, "the library has version {other}, and this crate is for version {}", crate::VERSION),
        }
    }
}

impl std::error::Error for Error {}
