//! Images made by hand, and what calls are handed.

pub(crate) use crate::shared::{directory_at, function_at, piece_at, record_range};
use pe_core::{ByteRange, Error, ParseMode, ParseOptions, Reason};
use pe_frame::Stack;
pub(crate) use pe_images::{
    headers_alone, image, object, pointer_below_64, put, resources, te, te_with_debug, with_debug,
    with_every_directory, with_exports, with_functions, with_imports, with_resources,
};
use pe_unwind::Arm64RuntimeFunction;

pub(crate) const MODES: [ParseMode; 2] = [ParseMode::Strict, ParseMode::Permissive];

/// The default options of images in which an RVA is a file offset.
pub(crate) fn flat() -> ParseOptions {
    ParseOptions {
        resolve_rva: false,
        ..ParseOptions::default()
    }
}

/// The buffer with this byte at this offset.
pub(crate) fn with_byte(mut bytes: Vec<u8>, offset: usize, byte: u8) -> Vec<u8> {
    put(&mut bytes, &[(offset, &[byte])]);
    bytes
}

/// The buffer with these bytes at this offset.
pub(crate) fn with_part(mut bytes: Vec<u8>, offset: usize, part: &[u8]) -> Vec<u8> {
    put(&mut bytes, &[(offset, part)]);
    bytes
}

pub(crate) fn stack_at(start: u64, bytes: &[u8]) -> Stack<'_> {
    Stack { start, bytes }
}

pub(crate) fn range_at(offset: usize, length: usize) -> ByteRange {
    ByteRange { offset, length }
}

pub(crate) fn arm64_function(begin_address: u32, unwind_data: u32) -> Arm64RuntimeFunction {
    Arm64RuntimeFunction {
        begin_address,
        unwind_data,
    }
}

/// What may have failed.
pub(crate) trait Fails: Drop {
    fn error(self) -> Option<Error>;
}

impl Fails for Error {
    fn error(self) -> Option<Error> {
        Some(self)
    }
}

impl Fails for Option<Error> {
    fn error(self) -> Option<Error> {
        self
    }
}

impl<T: Drop> Fails for Result<T, Error> {
    fn error(self) -> Option<Error> {
        self.err()
    }
}

impl<T: Drop> Fails for Option<Result<T, Error>> {
    fn error(self) -> Option<Error> {
        self?.err()
    }
}

/// Bytes that end too soon: where, and how many are needed.
pub(crate) fn short(at: usize, needed: usize) -> Option<(usize, usize)> {
    Some((at, needed))
}

/// The same of what failed.
pub(crate) fn short_in<T: Fails>(found: T) -> Option<(usize, usize)> {
    match found.error() {
        Some(Error::Short { at, needed }) => Some((at, needed)),
        _ => None,
    }
}

/// What is malformed.
pub(crate) fn reason_in<T: Fails>(found: T) -> Option<Reason> {
    match found.error() {
        Some(Error::Malformed(reason)) => Some(reason),
        _ => None,
    }
}
