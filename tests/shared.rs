//! What is passed to calls across the crates and to those of the library for C: the tests of both have a copy.

use pe_core::{DataDirectory, SectionTable};
use pe_edit::RecordRange;
use pe_frame::MemoryPiece;
use pe_images::{headers_alone, put};
use pe_unwind::RuntimeFunction;
use std::alloc::{AllocError, Global};

pub(crate) fn directory_at(virtual_address: u32, size: u32) -> DataDirectory {
    DataDirectory {
        virtual_address,
        size,
    }
}

pub(crate) fn piece_at(start: u64, offset: u64, length: u64) -> MemoryPiece {
    MemoryPiece {
        start,
        offset,
        length,
    }
}

pub(crate) fn record_range(offset: u64, length: u64) -> RecordRange {
    RecordRange { offset, length }
}

pub(crate) fn function_at(
    begin_address: u32,
    end_address: u32,
    unwind_info_address: u32,
) -> RuntimeFunction {
    RuntimeFunction {
        begin_address,
        end_address,
        unwind_info_address,
    }
}

/// A section whose RVAs 0x1000 to 0x11FF are the bytes from 0 on.
pub(crate) const SECTION: SectionTable = SectionTable {
    name: *b".text\0\0\0",
    virtual_size: 0x200,
    virtual_address: 0x1000,
    size_of_raw_data: 0x200,
    pointer_to_raw_data: 0,
    pointer_to_relocations: 0,
    pointer_to_linenumbers: 0,
    number_of_relocations: 0,
    number_of_linenumbers: 0,
    characteristics: 0,
};

/// A section by its RVA and its virtual size, its raw pointer and its raw size.
pub(crate) fn section(
    virtual_address: u32,
    virtual_size: u32,
    pointer_to_raw_data: u32,
    size_of_raw_data: u32,
) -> SectionTable {
    SectionTable {
        virtual_size,
        virtual_address,
        size_of_raw_data,
        pointer_to_raw_data,
        ..SECTION
    }
}

/// The bytes of these words.
pub(crate) fn bytes_of_words(alloc: Global, words: &[u64]) -> Result<Vec<u8>, AllocError> {
    let mut bytes = Vec::new(alloc);
    for word in words {
        bytes.extend_from_slice(&u64::to_le_bytes(*word))?;
    }
    Ok(bytes)
}

/// The names of the texts of version information, by the numbers that the library for C gives them.
pub(crate) const VERSION_NAMES: [&str; 12] = [
    "Comments",
    "CompanyName",
    "FileDescription",
    "FileVersion",
    "InternalName",
    "LegalCopyright",
    "LegalTrademarks",
    "OriginalFilename",
    "PrivateBuild",
    "ProductName",
    "ProductVersion",
    "SpecialBuild",
];

/// An image of 0x605 bytes with code at the RVA 0x1000, resources at 0x2000, and five bytes after its sections.
pub(crate) fn with_two_sections(alloc: Global) -> Result<Vec<u8>, AllocError> {
    let mut bytes = headers_alone(alloc)?;
    bytes.resize(0x605, 0x33)?;
    put(
        &mut bytes,
        &[
            (0x7E, &[2, 0]),
            (0xC8, &[0, 0x30]),
            (0x110, &[0, 0x20, 0, 0, 0x10, 0, 0, 0]),
            (
                0x180,
                b".text\0\0\0\0\x01\0\0\0\x10\0\0\0\x02\0\0\0\x02\0\0",
            ),
            (
                0x1A8,
                b".rsrc\0\0\0\x10\0\0\0\0\x20\0\0\0\x02\0\0\0\x04\0\0",
            ),
            (0x600, b"after"),
        ],
    );
    Ok(bytes)
}
