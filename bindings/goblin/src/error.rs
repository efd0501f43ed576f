//! Errors, as goblin has them.
//!
//! The library refuses with a number of its own. Where goblin's error of the same fault has numbers that are at hand, they
//! are in its variant or text; elsewhere the text is the library's.

use core::fmt;
use std::io;

/// Why something was not read or written.
#[non_exhaustive]
#[derive(Debug)]
pub enum Error {
    /// The bytes contradict the format, and how.
    Malformed(String),
    /// A magic number that is none of the format's.
    BadMagic(u64),
    /// An offset or a length that the bytes do not have, from scroll.
    Scroll(scroll::Error),
    /// A buffer is too short for so many of what it is said to have.
    BufferTooShort(usize, &'static str),
    /// An error of the system; out of memory is one of the kind `OutOfMemory`.
    IO(io::Error),
}

/// The result of a call that may fail.
pub type Result<T, E = Error> = core::result::Result<T, E>;

impl std::error::Error for Error {
    fn source(&self) -> Option<&(dyn std::error::Error + 'static)> {
        match self {
            Error::IO(it) => Some(it),
            Error::Scroll(it) => Some(it),
            _ => None,
        }
    }
}

impl From<io::Error> for Error {
    fn from(it: io::Error) -> Self {
        Error::IO(it)
    }
}

impl From<scroll::Error> for Error {
    fn from(it: scroll::Error) -> Self {
        Error::Scroll(it)
    }
}

impl From<core::num::TryFromIntError> for Error {
    fn from(it: core::num::TryFromIntError) -> Self {
        Error::Malformed(format!("Integer do not fit: {it}"))
    }
}

impl From<core::convert::Infallible> for Error {
    fn from(it: core::convert::Infallible) -> Self {
        match it {}
    }
}

impl fmt::Display for Error {
    fn fmt(&self, f: &mut fmt::Formatter<'_>) -> fmt::Result {
        match self {
            Error::IO(it) => write!(f, "{it}"),
            Error::Scroll(it) => write!(f, "{it}"),
            Error::BadMagic(it) => write!(f, "Invalid magic number: 0x{it:x}"),
            Error::Malformed(it) => write!(f, "Malformed entity: {it}"),
            Error::BufferTooShort(n, what) => write!(f, "Buffer is too short for {n} {what}"),
        }
    }
}
