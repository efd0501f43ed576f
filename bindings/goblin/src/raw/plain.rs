//! Reads that this crate makes itself, since no call of the library returns what they read, and why none does. Where a call returns a
//! range and not its numbers, the range is the call's and the numbers are read here. `tools/try_goblin --check` has the same list, and
//! refuses a function that it does not name.
//!
//! At an offset that a caller names, of bytes that need not be an image:
//!
//! - `bytes_at`, `part_at`, `from`: the bytes alone; `record`: a record of a type that the caller chooses, by scroll;
//! - `text_up_to`: a text that another byte than zero ends, in a [`Strtab`](crate::strtab::Strtab) of a caller;
//! - `fields_32`, `fields_64`, `dos_header`, `data_directory`: a header that stands alone; `pe_c_headers` reads those of an image;
//! - `export_directory`: an export directory that stands alone; `pe_c_export_directory` reads that of an image;
//! - `resource_directory`: a resource directory that stands alone, also one whose entries are truncated, which
//!   `pe_c_resource_directory_at` refuses; `pe_c_resource_root` reads the first one of an image.
//!
//! Of an image or an object:
//!
//! - `words`, `halves`: the RVAs of names and the indices of names as they stand, of which the list of exports leaves out those that
//!   lead to no export;
//! - `address_table`: the slots of imports as they stand, which are addresses of another run, or the list of imports again;
//! - `tls_slot`: what the loader wrote to the slot whose address `pe_c_tls` returns;
//! - `word_at`: the words of an ARM64 record, whose fields `pe_c_arm64_unwind_record` returns, but not their reserved bits;
//! - `resource_entry`: both words of an entry as they stand: `pe_c_next_resource_item` reads the name of one that has a name, refuses the
//!   entry where that is truncated, and returns the name in place of its offset, and of an id 16 bits;
//! - `resource_data_entry`: a data entry at any depth: `pe_c_next_resource_leaf` returns those below a language, without the reserved word;
//! - `version_string`: a version string with its length and the length of its value, which `pe_c_next_version_block` uses and does not
//!   return;
//! - `code_units`: UTF-16 that must be a text, where `pe_c_utf16_text` writes one of what is none too;
//! - `coff_relocation`, `auxiliary`: relocations and auxiliary records of objects, which no call reads;
//! - `long_name_offset`: the offset that the name of a symbol is, where `pe_c_symbol_name` returns the text there;
//! - `short`, `pogo_error`, `string_table_size`: the numbers of an error, where a call returns its kind alone.

use super::{slice, Range, Refusal};
use crate::error;
use crate::pe::data_directories::DataDirectory;
use crate::pe::export::ExportDirectoryTable;
use crate::pe::header::DosHeader;
use crate::pe::import::Bitfield;
use crate::pe::optional_header as optional;
use crate::pe::relocation::Relocation;
use crate::pe::resource::{ImageResourceDirectory, ResourceDataEntry, ResourceEntry};
use crate::pe::symbol;
use scroll::{ctx::TryFromCtx, Pread};

/// So many bytes at an offset that a caller names.
pub(crate) fn bytes_at(bytes: &[u8], at: usize, count: usize) -> error::Result<&[u8]> {
    match part_at(bytes, at, count) {
        Some(found) => Ok(found),
        None if at >= bytes.len() => Err(scroll::Error::BadOffset(at).into()),
        None => Err(scroll::Error::TooBig { size: count, len: bytes.len() - at }.into()),
    }
}

/// The same where there may be no byte at the offset if the count is 0.
pub(crate) fn part_at(bytes: &[u8], at: usize, count: usize) -> Option<&[u8]> {
    bytes.get(at..at.checked_add(count)?)
}

/// The bytes from an offset on that a caller names.
pub(crate) fn from(bytes: &[u8], at: usize) -> error::Result<&[u8]> {
    let rest = bytes.get(at..).filter(|it| !it.is_empty());
    Ok(rest.ok_or(scroll::Error::BadOffset(at))?)
}

/// A record at an offset that a caller names, as scroll reads it.
pub(crate) fn record<'a, T>(bytes: &'a [u8], at: usize) -> error::Result<T>
where
    T: TryFromCtx<'a, scroll::Endian, Error = scroll::Error>,
{
    Ok(bytes.pread_with(at, scroll::LE)?)
}

/// The text at an offset that a caller names, up to a byte other than zero, or the end.
pub(crate) fn text_up_to(bytes: &[u8], at: usize, end: u8) -> error::Result<&str> {
    let rest = bytes.get(at..).ok_or(scroll::Error::BadOffset(at))?;
    let text = rest.split(|it| *it == end).next().ok_or(scroll::Error::BadOffset(at))?;
    core::str::from_utf8(text).map_err(|_| super::not_utf8(text))
}

/// The little-endian numbers of a table.
fn numbers<const WIDTH: usize, T>(table: &[u8], number: fn([u8; WIDTH]) -> T) -> error::Result<Vec<T>> {
    let mut found = super::list(table.len() / WIDTH)?;
    found.extend(table.chunks_exact(WIDTH).filter_map(|it| it.try_into().ok()).map(number));
    Ok(found)
}

// ---- headers that stand alone: pe_c_headers reads those of an image

type Fields = (optional::StandardFields, optional::WindowsFields);

pub(crate) fn fields_32(bytes: &[u8], at: usize) -> error::Result<Fields> {
    let standard: optional::StandardFields32 = record(bytes, at)?;
    let windows: optional::WindowsFields32 = record(bytes, at + optional::SIZEOF_STANDARD_FIELDS_32)?;
    Ok((standard.into(), windows.into()))
}

pub(crate) fn fields_64(bytes: &[u8], at: usize) -> error::Result<Fields> {
    let standard: optional::StandardFields64 = record(bytes, at)?;
    Ok((standard.into(), record(bytes, at + optional::SIZEOF_STANDARD_FIELDS_64)?))
}

/// Of a file that need not be an image.
pub(crate) fn dos_header(bytes: &[u8]) -> error::Result<DosHeader> {
    record(bytes, 0)
}

pub(crate) fn data_directory(bytes: &[u8], at: usize) -> error::Result<DataDirectory> {
    record(bytes, at)
}

// ---- exports and imports

pub(crate) fn export_directory(bytes: &[u8], at: usize) -> error::Result<ExportDirectoryTable> {
    record(bytes, at)
}

/// The numbers of a table that pe_c_export_tables returns as a range.
pub(crate) fn words(bytes: &[u8], range: Range) -> error::Result<Vec<u32>> {
    numbers(slice(bytes, range)?, u32::from_le_bytes)
}

/// The same of numbers of 16 bits.
pub(crate) fn halves(bytes: &[u8], range: Range) -> error::Result<Vec<u16>> {
    numbers(slice(bytes, range)?, u16::from_le_bytes)
}

/// An address table up to a zero or the end of the bytes, or `None` where it has more than `most` addresses: no call returns it
/// as it stands.
pub(crate) fn address_table<'a, T: Bitfield<'a>>(
    bytes: &'a [u8],
    start: usize,
    most: usize,
) -> error::Result<Option<Vec<u64>>> {
    let (mut at, mut count) = (start, 0);
    while record::<T>(bytes, at).is_ok_and(|it| !it.is_zero()) {
        count += 1;
        if count > most {
            return Ok(None);
        }
        at += T::size_of();
    }
    let mut found = super::list(count)?;
    for index in 0..count {
        found.push(record::<T>(bytes, start + index * T::size_of())?.into());
    }
    Ok(Some(found))
}

// ---- debug data: a refusal has no numbers

/// scroll's error of the first field that is not all there, of fields one after the other at an offset.
pub(crate) fn short(bytes: &[u8], mut at: usize, fields: &[usize]) -> error::Error {
    for field in fields {
        if let Err(error) = bytes_at(bytes, at, *field) {
            return error;
        }
        at += field;
    }
    Refusal::SHORT.into()
}

/// So many numbers one after the other: the record's own fields.
fn words_at<const COUNT: usize>(bytes: &[u8], at: usize) -> error::Result<[u32; COUNT]> {
    let mut found = [0; COUNT];
    for (index, word) in found.iter_mut().enumerate() {
        *word = record(bytes, at + 4 * index)?;
    }
    Ok(found)
}

/// goblin's error of an entry of POGO data that the library refuses as truncated, with its numbers, which a refusal has not.
pub(crate) fn pogo_error(data: &[u8]) -> error::Error {
    let words = match words_at::<2>(data, 0) {
        Err(short) => return short,
        Ok(words) => words,
    };
    let [rva, size] = words;
    let name = data.get(8..).unwrap_or_default();
    error::Error::Malformed(match name.iter().position(|it| *it == 0) {
        None if name.is_empty() => {
            format!("Offset 0x8 is too big for containing name field of POGO entry (rva {rva:#x} and size {size:#X})")
        }
        None => format!("Cannot find null-terminator for POGO entry (rva {rva:#x} and size {size:#X})"),
        Some(end) => {
            format!("Offset {:#x} exceeds buffer length {:#x}", (8 + end + 1).next_multiple_of(4), data.len())
        }
    })
}

// ---- unwind data: pe_c_arm64_unwind_record returns the fields of these words, and not the words

pub(crate) fn word_at(bytes: &[u8], at: usize) -> error::Result<u32> {
    record(bytes, at)
}

// ---- resources: nodes of the tree and version strings as they stand

pub(crate) fn resource_directory(bytes: &[u8], at: usize) -> error::Result<ImageResourceDirectory> {
    record(bytes, at)
}

pub(crate) fn resource_entry(bytes: &[u8]) -> error::Result<ResourceEntry> {
    record(bytes, 0)
}

pub(crate) fn resource_data_entry(bytes: &[u8], at: usize) -> error::Result<ResourceDataEntry> {
    record(bytes, at)
}

/// A version string: its length, its value's length, its type, its key, and where its value starts.
pub(crate) struct VersionString<'a> {
    pub len: u16,
    pub value_len: u16,
    pub kind: u16,
    pub key: &'a [u8],
    pub value: usize,
}

/// The version string at an offset, or `None` where its length is 0.
pub(crate) fn version_string(bytes: &[u8], at: usize) -> error::Result<Option<VersionString<'_>>> {
    let len: u16 = record(bytes, at)?;
    if len == 0 {
        return Ok(None);
    }
    let (value_len, kind) = (record(bytes, at + 2)?, record(bytes, at + 4)?);
    let units = bytes.get(at + 6..).unwrap_or_default();
    let count = 2 * units.chunks_exact(2).take_while(|it| **it != [0, 0]).count();
    let value = (at + 6 + count + 2).next_multiple_of(4);
    Ok(Some(VersionString { len, value_len, kind, key: &units[..count], value }))
}

/// The UTF-16 code units of a text, which a call returns as a range; `None` where they are an odd number of bytes.
pub(crate) fn code_units(bytes: &[u8]) -> Option<impl Iterator<Item = u16> + '_> {
    let units = bytes.chunks_exact(2);
    units.remainder().is_empty().then(|| units.filter_map(|it| it.try_into().ok()).map(u16::from_le_bytes))
}

// ---- the other directories

/// What the loader wrote to a TLS slot: pe_c_tls returns its address.
pub(crate) fn tls_slot(bytes: &[u8], at: usize) -> Option<u32> {
    record(bytes, at).ok()
}

// ---- objects: no call reads relocations and auxiliary records of symbols

pub(crate) fn coff_relocation(table: &[u8], at: usize) -> Option<Relocation> {
    record(table, at).ok()
}

/// The offset in the string table without its size field that a name of four zeros and a number is.
pub(crate) fn long_name_offset(name: &[u8; 8]) -> Option<u32> {
    let [0, _, _, _, offset @ ..] = *name else { return None };
    Some(u32::from_le_bytes(offset).wrapping_sub(4))
}

/// An auxiliary record of a symbol.
pub(crate) fn auxiliary<'a, T>(table: &'a [u8], index: usize) -> Option<T>
where
    T: TryFromCtx<'a, scroll::Endian, Error = scroll::Error>,
{
    record(table, index.checked_mul(symbol::COFF_SYMBOL_SIZE)?).ok()
}

/// The size of a string table, which its first field is: for the error of one that is truncated.
pub(crate) fn string_table_size(bytes: &[u8], at: usize) -> error::Result<u32> {
    record(bytes, at)
}
