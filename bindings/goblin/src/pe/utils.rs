//! The section map: from RVAs to file offsets. A section covers the RVAs from its own on, and its bytes are in the file from
//! its raw pointer on. <https://learn.microsoft.com/windows/win32/debug/pe-format#section-table-section-headers>

use super::data_directories::DataDirectory;
use super::options::ParseOptions;
use super::section_table::SectionTable;
use crate::error;
use crate::raw::{self, Index, View};

/// Whether an RVA is at least the first and below the second.
pub fn is_in_range(rva: usize, r1: usize, r2: usize) -> bool {
    (r1..r2).contains(&rva)
}

/// The file offset of an RVA, or `None` where no section maps it. It may be past the end of the file.
pub fn find_offset(rva: usize, sections: &[SectionTable], file_alignment: u32, opts: &ParseOptions) -> Option<usize> {
    if !opts.resolve_rva {
        return Some(rva);
    }
    // No section maps an RVA above 32 bits: one ends there.
    let rva = u32::try_from(rva).ok()?;
    let info = raw::image_with(Index::Export, DataDirectory::default(), file_alignment, opts);
    let by = |sections: &[_]| View::of(&[], &info, sections).offset(rva);
    let first = raw::first_around(sections, rva).map_or(&[][..], core::slice::from_ref);
    by(first).or_else(|| by(&raw::sections_of(sections).ok()?))
}

/// The same, and an error with a text in place of `None`.
pub fn find_offset_or(
    rva: usize,
    sections: &[SectionTable],
    file_alignment: u32,
    opts: &ParseOptions,
    msg: &str,
) -> error::Result<usize> {
    find_offset(rva, sections, file_alignment, opts).ok_or_else(|| error::Error::Malformed(msg.to_owned()))
}

/// The text at an RVA. Errors: `Malformed` where it is unmapped; `Scroll` where the offset is past the end or the text is not
/// UTF-8.
pub fn try_name<'a>(
    bytes: &'a [u8],
    rva: usize,
    sections: &[SectionTable],
    file_alignment: u32,
    opts: &ParseOptions,
) -> error::Result<&'a str> {
    match find_offset(rva, sections, file_alignment, opts) {
        Some(offset) => raw::text_up_to_zero(bytes, offset),
        None => Err(error::Error::Malformed(format!("Cannot find name from rva {rva:#x} in sections: {sections:?}"))),
    }
}

/// The record at a directory's RVA in a file, as scroll reads it.
pub fn get_data<'a, T>(
    bytes: &'a [u8],
    sections: &[SectionTable],
    directory: DataDirectory,
    file_alignment: u32,
) -> error::Result<T>
where
    T: scroll::ctx::TryFromCtx<'a, scroll::Endian, Error = scroll::Error>,
{
    get_data_with_opts(bytes, sections, directory, file_alignment, &ParseOptions::default())
}

/// The record at a directory's RVA, as scroll reads it. Errors: `Malformed` where the RVA is unmapped; scroll's.
pub fn get_data_with_opts<'a, T>(
    bytes: &'a [u8],
    sections: &[SectionTable],
    directory: DataDirectory,
    file_alignment: u32,
    opts: &ParseOptions,
) -> error::Result<T>
where
    T: scroll::ctx::TryFromCtx<'a, scroll::Endian, Error = scroll::Error>,
{
    let rva = directory.virtual_address;
    let offset = find_offset_or(rva as usize, sections, file_alignment, opts, &rva.to_string())?;
    raw::record(bytes, offset)
}

/// How many bytes there are from a length to the next multiple of an alignment.
pub(crate) fn padding(length: usize, alignment: usize) -> usize {
    length.next_multiple_of(alignment.max(1)) - length
}
