//! What calls are handed, and what they hand out, as plain numbers.

pub(crate) use super::shared::{
    bytes_of_words, directory_at as directory, function_at, piece_at, record_range, section,
};
pub(crate) use calls_base::image::Image;
pub(crate) use calls_base::kept_sections::{KeptSections, NO_SECTIONS};
pub(crate) use calls_base::numbers::Failure;
pub(crate) use calls_base::ranges::{NO_BYTES, Range};
pub(crate) use calls_base::results::{DONE, NOTHING, ROOM};
pub(crate) use calls_base::text_runs::Run;
pub(crate) use calls_base::view::View;
pub(crate) use pe_core::{DataDirectory, RangeEntry, SectionTable};
pub(crate) use pe_edit::RecordRange;
pub(crate) use pe_frame::MemoryPiece;
use pe_images::image as bytes_of;
pub(crate) use pe_images::put;
pub(crate) use pe_unwind::RuntimeFunction;
pub(crate) use std::alloc::{AllocError, Global};
use std::mem::size_of;
use std::ptr::read;
use std::slice::from_raw_parts;
pub(crate) use std::test::Fail;

pub(crate) const STRICT: u32 = 0;

pub(crate) const PERMISSIVE: u32 = 1;

/// Added to a mode: the image is as loaded.
pub(crate) const MAPPED: u32 = 2;

/// The numbers of errors, as a program in C knows them.
pub(crate) const SHORT: u32 = 2;

pub(crate) const BAD_MAGIC: u32 = 3;

pub(crate) const HEADER_POINTER: u32 = 4;

pub(crate) const IMPORT_NAME: u32 = 5;

pub(crate) const STRING_TABLE: u32 = 6;

pub(crate) const CERTIFICATE_REVISION: u32 = 7;

pub(crate) const CERTIFICATE_TYPE: u32 = 8;

pub(crate) const CERTIFICATE_SIZE: u32 = 9;

pub(crate) const CERTIFICATE_TABLE: u32 = 10;

pub(crate) const UNMAPPED: u32 = 11;

pub(crate) const DEBUG_BOUNDS: u32 = 12;

pub(crate) const DEBUG_SIZE: u32 = 13;

pub(crate) const DEBUG_DATA: u32 = 14;

pub(crate) const POGO_SIZE: u32 = 15;

pub(crate) const POGO_NAME: u32 = 16;

pub(crate) const EXCEPTION_SIZE: u32 = 17;

pub(crate) const EXCEPTION_OFFSET: u32 = 18;

pub(crate) const EXCEPTION_BOUNDS: u32 = 19;

pub(crate) const FUNCTION_INDEX: u32 = 20;

pub(crate) const FUNCTION_LINK: u32 = 21;

pub(crate) const FUNCTION_CYCLE: u32 = 22;

pub(crate) const UNWIND_VERSION: u32 = 23;

pub(crate) const UNWIND_CODE: u32 = 24;

pub(crate) const ARM64_VERSION: u32 = 25;

pub(crate) const ARM64_STREAM: u32 = 26;

pub(crate) const ARM64_CUT: u32 = 27;

pub(crate) const RESOURCE_BOUNDS: u32 = 28;

pub(crate) const RESOURCE_STRING: u32 = 30;

pub(crate) const TE_SIZE: u32 = 31;

pub(crate) const NO_OPTIONAL_HEADER: u32 = 32;

pub(crate) const WRITE_ALIGNMENT: u32 = 33;

pub(crate) const WRITE_SYMBOLS: u32 = 34;

pub(crate) const WRITE_OVERLAP: u32 = 35;

pub(crate) const WRITE_SECTION: u32 = 36;

pub(crate) const WRITE_FIT: u32 = 37;

pub(crate) const SIGN_NO_DIRECTORY: u32 = 201;

pub(crate) const SIGN_TABLE_NOT_LAST: u32 = 202;

pub(crate) const SIGN_HEADERS: u32 = 203;

pub(crate) const SIGN_SECTION: u32 = 204;

pub(crate) const SIGN_TABLE_OFFSET: u32 = 205;

pub(crate) const DIRECTORY_BLOCK_SIZE: u32 = 301;

pub(crate) const DIRECTORY_BLOCK_TRUNCATED: u32 = 302;

pub(crate) const DIRECTORY_NO_ARGUMENT: u32 = 303;

pub(crate) const DIRECTORY_VA_BELOW_BASE: u32 = 304;

pub(crate) const DIRECTORY_CLR_HEADER_SIZE: u32 = 305;

pub(crate) const DIRECTORY_STREAM_NAME: u32 = 306;

pub(crate) const DIRECTORY_DELAY_IMPORT_NAME: u32 = 307;

pub(crate) const DIRECTORY_BOUND_IMPORT_NAME: u32 = 308;

pub(crate) const DIRECTORY_RELOCATION_KIND: u32 = 309;

pub(crate) const DIRECTORY_RELOCATION_OUTSIDE: u32 = 310;

pub(crate) const TREE_NOT_DIRECTORY: u32 = 401;

pub(crate) const TREE_NOT_DATA: u32 = 402;

pub(crate) const TREE_NO_ENTRIES: u32 = 403;

pub(crate) const DUMP_SIGNATURE: u32 = 551;

pub(crate) const DUMP_VERSION: u32 = 552;

pub(crate) const DUMP_DIRECTORY: u32 = 553;

pub(crate) const DUMP_LOCATION: u32 = 554;

pub(crate) const DUMP_LIST_SIZE: u32 = 555;

pub(crate) const DUMP_ENTRY_SIZE: u32 = 556;

pub(crate) const DUMP_TEXT: u32 = 557;

pub(crate) const DUMP_CONTEXT_SIZE: u32 = 558;

pub(crate) const DUMP_CONTEXT_FLAGS: u32 = 559;

pub(crate) const DUMP_MACHINE: u32 = 560;

pub(crate) const PDB20: u32 = 601;

pub(crate) const PDB_PORTABLE: u32 = 602;

pub(crate) const PDB_MAGIC: u32 = 603;

pub(crate) const PDB_BLOCK_SIZE: u32 = 604;

pub(crate) const PDB_FILE_SIZE: u32 = 605;

pub(crate) const PDB_BLOCK_MAP: u32 = 606;

pub(crate) const PDB_BLOCK: u32 = 607;

pub(crate) const PDB_DIRECTORY: u32 = 608;

pub(crate) const PDB_NO_STREAM: u32 = 609;

pub(crate) const PDB_STREAM_SIZE: u32 = 610;

pub(crate) const PDB_INFO_VERSION: u32 = 612;

pub(crate) const PDB_DBI_SIGNATURE: u32 = 613;

pub(crate) const PDB_DBI_VERSION: u32 = 614;

pub(crate) const PDB_DBI_PARTS: u32 = 615;

pub(crate) const PDB_SECTION_HEADERS: u32 = 616;

pub(crate) const PDB_RECORD_SIZE: u32 = 617;

pub(crate) const PDB_RECORD_TRUNCATED: u32 = 618;

pub(crate) const PDB_NAME: u32 = 619;

pub(crate) const PDB_NAMES_SIGNATURE: u32 = 623;

pub(crate) const PDB_CONTRIBUTIONS_VERSION: u32 = 624;

pub(crate) const PDB_CONTRIBUTIONS_SIZE: u32 = 625;

pub(crate) const PDB_ANNOTATION: u32 = 626;

pub(crate) const PDB_INLINE_DEPTH: u32 = 627;

pub(crate) const X64: u16 = 0x8664;

pub(crate) const ARM64: u16 = 0xAA64;

/// What a failure is before each call.
pub(crate) const NO_FAILURE: Failure = Failure {
    offset: 91,
    needed: 92,
    value: 93,
    result: 94,
    spare: 95,
};

/// What a range is before a call that hands out another.
pub(crate) const UNTOUCHED: [u64; 2] = [0x7777, 0x77];

/// What a byte of a room that is written is before a call, and what its length is.
pub(crate) const OLD: u8 = 0xEE;

pub(crate) const OLD_LENGTH: u64 = 0x7777;

/// A walk that is over.
pub(crate) const OVER: [u64; 2] = [0, 0];

pub(crate) const NO_RANGE: Range = Range {
    offset: 0,
    length: 0,
};

/// What a room for texts has before a call.
pub(crate) const RUN: Run = Run {
    start: 0x7777,
    end: 0x77,
    text: 7,
};

pub(crate) fn range(offset: u64, length: u64) -> Range {
    Range { offset, length }
}

pub(crate) fn untouched() -> Range {
    range(0x7777, 0x77)
}

pub(crate) fn of_range(range: Range) -> [u64; 2] {
    let Range { offset, length } = range;
    [offset, length]
}

/// The headers' word on an image of a machine, with one section and no directories.
pub(crate) fn image(machine: u16) -> Image {
    Image {
        base: 0x1_4000_0000,
        sections_offset: 0x148,
        checksum_offset: 0x98,
        certificate_entry_offset: 0xE8,
        entry: 0x1000,
        file_alignment: 0x200,
        mode: STRICT,
        section_alignment: 0x1000,
        size_of_image: 0x2000,
        size_of_headers: 0x200,
        checksum: 0,
        time_date_stamp: 0,
        number_of_directories: 16,
        directories: [directory(0, 0); 16],
        machine,
        width: 64,
        number_of_sections: 1,
        characteristics: 0x22,
        subsystem: 3,
        dll_characteristics: 0,
    }
}

/// The same image with a data directory, by its index.
pub(crate) fn having(image: Image, index: usize, directory: DataDirectory) -> Image {
    let mut directories = image.directories;
    directories[index] = directory;
    Image {
        directories,
        ..image
    }
}

/// The same image, read in another mode.
pub(crate) fn in_mode(image: &Image, mode: u32) -> Image {
    Image { mode, ..*image }
}

/// One section: the addresses from 0x1000 up to 0x2000 are the offsets from 0 on.
pub(crate) fn sections() -> [SectionTable; 1] {
    [section(0x1000, 0x1000, 0, 0x1000)]
}

/// An entry of an index before it is written.
pub(crate) const LEFT_ENTRY: RangeEntry = RangeEntry {
    start: 77,
    number: 78,
};

/// The entry of an index from which all RVAs belong to the section with this index plus 1.
pub(crate) fn from_start(number: u64) -> [RangeEntry; 1] {
    [RangeEntry { start: 0, number }]
}

/// What a call that writes a file says of it without room: `DONE` for the `ROOM` that it returns of each that it would write.
pub(crate) fn asked(number: u32) -> u32 {
    if number == ROOM { DONE } else { number }
}

/// The image, without an index of its sections.
pub(crate) fn view<'a>(
    bytes: &'a [u8],
    image: &'a Image,
    sections: &'a [SectionTable],
) -> View<'a> {
    View {
        bytes,
        image,
        sections,
        index: &[],
    }
}

/// What a record of numbers is before a call that hands out another: 9 in each byte.
pub(crate) fn filled<T: Copy>() -> T {
    let bytes = [0x0909_0909_0909_0909u64; 256];
    unsafe { read(&bytes as *const [u64; 256] as *const T) }
}

/// Whether a record is as before.
pub(crate) fn is_filled<T: Copy>(record: &T) -> bool {
    raw(record).iter().all(|byte| *byte == 9)
}

/// The bytes of a record of numbers, which has no padding.
pub(crate) fn raw<T: Copy>(record: &T) -> &[u8] {
    unsafe { from_raw_parts(record as *const T as *const u8, size_of::<T>()) }
}

/// All bytes as one piece of memory, from this address on.
pub(crate) fn piece(start: u64, bytes: &[u8]) -> [MemoryPiece; 1] {
    [piece_at(start, 0, bytes.len() as u64)]
}

/// Numbers of four bytes, one after the other.
pub(crate) fn words(alloc: Global, numbers: &[u32]) -> Result<Vec<u8>, AllocError> {
    let mut bytes = bytes_of(alloc, 4 * numbers.len(), &[])?;
    for (number, word) in numbers.iter().zip(bytes.chunks_exact_mut(4)) {
        word.copy_from_slice(&number.to_le_bytes());
    }
    Ok(bytes)
}
