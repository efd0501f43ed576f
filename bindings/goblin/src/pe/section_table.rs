//! Section headers: where each section is in memory and in the file.
//! <https://learn.microsoft.com/windows/win32/debug/pe-format#section-table-section-headers>

use super::header;
use super::relocation::Relocations;
use crate::error;
use crate::raw::{self, Refusal};
use crate::strtab::Strtab;
use core::fmt;
use pe_c::sys;
use scroll::{ctx, Pwrite};
use std::borrow::Cow;

/// A section header, `IMAGE_SECTION_HEADER`, and the name that it leads to. The fields of the header stand one after the other, as the
/// library takes them.
#[repr(C)]
#[derive(PartialEq, Clone, Default)]
pub struct SectionTable {
    /// The name in the string table.
    pub real_name: Option<String>,
    /// Padded with zeros; a slash and a number where the name is in the string table.
    pub name: [u8; 8],
    /// Bytes in memory.
    pub virtual_size: u32,
    /// RVA of its first byte.
    pub virtual_address: u32,
    /// Bytes in the file.
    pub size_of_raw_data: u32,
    /// File offset of its first byte.
    pub pointer_to_raw_data: u32,
    /// File offset; 0 in images.
    pub pointer_to_relocations: u32,
    /// File offset, or 0.
    pub pointer_to_linenumbers: u32,
    /// 0 in images.
    pub number_of_relocations: u16,
    /// The number of COFF line numbers.
    pub number_of_linenumbers: u16,
    /// `IMAGE_SCN_` flags.
    pub characteristics: u32,
}

impl fmt::Debug for SectionTable {
    /// In the order of goblin's fields.
    fn fmt(&self, f: &mut fmt::Formatter<'_>) -> fmt::Result {
        f.debug_struct("SectionTable")
            .field("name", &self.name)
            .field("real_name", &self.real_name)
            .field("virtual_size", &self.virtual_size)
            .field("virtual_address", &self.virtual_address)
            .field("size_of_raw_data", &self.size_of_raw_data)
            .field("pointer_to_raw_data", &self.pointer_to_raw_data)
            .field("pointer_to_relocations", &self.pointer_to_relocations)
            .field("pointer_to_linenumbers", &self.pointer_to_linenumbers)
            .field("number_of_relocations", &self.number_of_relocations)
            .field("number_of_linenumbers", &self.number_of_linenumbers)
            .field("characteristics", &self.characteristics)
            .finish()
    }
}

/// Bytes of a section header in a file.
pub const SIZEOF_SECTION_TABLE: usize = 40;

/// Greatest offset that a slash and a decimal number have room for, and greatest with two slashes and base 64.
const DECIMAL_MAX: usize = 9_999_999;
const BASE_64_MAX: usize = (1 << 36) - 1;
const BASE_64: &[u8; 64] = b"ABCDEFGHIJKLMNOPQRSTUVWXYZabcdefghijklmnopqrstuvwxyz0123456789+/";

impl SectionTable {
    fn with_name(it: &sys::Section, real_name: Option<String>) -> Self {
        SectionTable {
            name: it.name,
            real_name,
            virtual_size: it.virtual_size,
            virtual_address: it.virtual_address,
            size_of_raw_data: it.size_of_raw_data,
            pointer_to_raw_data: it.pointer_to_raw_data,
            pointer_to_relocations: it.pointer_to_relocations,
            pointer_to_linenumbers: it.pointer_to_linenumbers,
            number_of_relocations: it.number_of_relocations,
            number_of_linenumbers: it.number_of_linenumbers,
            characteristics: it.characteristics,
        }
    }

    /// Of an object, whose string table is passed without its size field. What is read of it is taken from how many bytes are left.
    pub(crate) fn of_object(it: &sys::Section, names: Option<&Strtab<'_>>, left: &mut usize) -> error::Result<Self> {
        let section = Self::with_name(it, None);
        let offset = section.name_offset().ok().flatten();
        let offset = offset.and_then(|it| it.checked_sub(header::SIZEOF_STRING_TABLE_SIZE));
        let Some((length, name)) = offset.and_then(|it| names?.text_and_length(it)) else { return Ok(section) };
        take(length, left)?;
        Ok(SectionTable { real_name: name.map(owned).transpose()?, ..section })
    }

    /// Of an image, with its name in the string table, if it has one. The name is taken from how many bytes are left.
    pub(crate) fn of_image(it: &sys::Section, name: Option<&str>, left: &mut usize) -> error::Result<Self> {
        take(name.map_or(0, str::len), left)?;
        Ok(Self::with_name(it, name.map(owned).transpose()?))
    }

    /// Reads the header at an offset and the name that it leads to, and moves the offset. Errors: `Malformed` where it is
    /// truncated, and those of [`SectionTable::name_offset`]; `Scroll` where the name is past the end; out of memory.
    pub fn parse(bytes: &[u8], offset: &mut usize, string_table_offset: usize) -> error::Result<Self> {
        let found = raw::sections(bytes, &header::section_headers_at(*offset, 1))?;
        let mut section = Self::with_name(found.first().ok_or(Refusal::SHORT)?, None);
        if let Some(index) = section.name_offset()? {
            let at = string_table_offset.saturating_add(index);
            section.real_name = Some(owned(raw::text_up_to_zero(bytes, at)?)?);
        }
        *offset += SIZEOF_SECTION_TABLE;
        Ok(section)
    }

    /// The offset in the string table that the name is, or `None` where the name stands here. Error: `Malformed` where what
    /// follows the slash is no number.
    pub fn name_offset(&self) -> error::Result<Option<usize>> {
        match self.name {
            [b'/', b'/', ..] => base_64(short(&self.name[2..])).map(Some),
            [b'/', ..] => decimal(short(&self.name[1..])).map(Some),
            _ => Ok(None),
        }
    }

    /// Makes the name an offset in the string table. Error: `Malformed` where it is 64 GiB or more.
    pub fn set_name_offset(&mut self, idx: usize) -> error::Result<()> {
        if idx > BASE_64_MAX {
            return Err(error::Error::Malformed(format!("Invalid section name offset: {idx}")));
        }
        let mut name = [0; 8];
        if idx <= DECIMAL_MAX {
            let text = format!("/{idx}");
            name[..text.len()].copy_from_slice(text.as_bytes());
        } else {
            name[..2].copy_from_slice(b"//");
            for (at, digit) in name[2..].iter_mut().rev().enumerate() {
                *digit = BASE_64[idx >> (6 * at) & 63];
            }
        }
        self.name = name;
        Ok(())
    }

    /// The name in the string table, or the one that stands here. Error: `Scroll` where it is not UTF-8.
    pub fn name(&self) -> error::Result<&str> {
        match &self.real_name {
            Some(it) => Ok(it),
            None => raw::text_up_to_zero(&self.name, 0),
        }
    }

    /// The bytes of the section in the file, or `None` where they are not all there.
    pub fn data<'a>(&self, pe_bytes: &'a [u8]) -> error::Result<Option<Cow<'a, [u8]>>> {
        let (at, count) = (self.pointer_to_raw_data as usize, self.size_of_raw_data as usize);
        Ok(raw::bytes_at(pe_bytes, at, count).ok().or((count == 0).then_some(&[][..])).map(Cow::Borrowed))
    }

    /// Offsets of its first byte in the file and after its last.
    pub(crate) fn file_range(&self) -> (u64, u64) {
        let start = u64::from(self.pointer_to_raw_data);
        (start, start + u64::from(self.size_of_raw_data))
    }

    /// Whether both have a byte of the file.
    pub fn overlaps_with(&self, other: &SectionTable) -> bool {
        let ((start, end), (other_start, other_end)) = (self.file_range(), other.file_range());
        start.max(other_start) < end.min(other_end)
    }

    /// The relocations of a section of an object. Error: `Scroll` where they are truncated.
    pub fn relocations<'a>(&self, bytes: &'a [u8]) -> error::Result<Relocations<'a>> {
        Relocations::parse(bytes, self.pointer_to_relocations as usize, self.number_of_relocations.into())
    }
}

/// Takes a name from how many bytes are left. Many headers may name one long text, of which each has a copy, or which is none: all
/// together are no longer than the file, or it is an error.
fn take(length: usize, left: &mut usize) -> error::Result<()> {
    let error = || error::Error::Malformed("section names are longer than the file".to_owned());
    *left = left.checked_sub(length).ok_or_else(error)?;
    Ok(())
}

/// A copy of a name, in memory that is reserved first.
fn owned(name: &str) -> error::Result<String> {
    let mut copy = raw::text_with_room(name.len())?;
    copy.push_str(name);
    Ok(copy)
}

/// A name up to its first zero.
fn short(name: &[u8]) -> &[u8] {
    name.split(|it| *it == 0).next().unwrap_or(name)
}

fn decimal(digits: &[u8]) -> error::Result<usize> {
    let text = String::from_utf8_lossy(digits);
    text.parse().map_err(|why| error::Error::Malformed(format!("Invalid indirect section name /{text}: {why}")))
}

fn base_64(digits: &[u8]) -> error::Result<usize> {
    let value = |it: &u8| BASE_64.iter().position(|digit| digit == it);
    digits.iter().try_fold(0, |sum, it| Some(sum * 64 + value(it)?)).ok_or_else(|| {
        let text = String::from_utf8_lossy(digits);
        error::Error::Malformed(format!("Invalid indirect section name //{text}: base64 decoding failed"))
    })
}

impl ctx::SizeWith<scroll::Endian> for SectionTable {
    fn size_with(_: &scroll::Endian) -> usize {
        SIZEOF_SECTION_TABLE
    }
}

impl ctx::TryIntoCtx<scroll::Endian> for &SectionTable {
    type Error = error::Error;

    /// Writes the header. Error: `Scroll` where the buffer is too short.
    fn try_into_ctx(self, bytes: &mut [u8], ctx: scroll::Endian) -> error::Result<usize> {
        let offset = &mut 0;
        bytes.gwrite(&self.name[..], offset)?;
        bytes.gwrite_with(self.virtual_size, offset, ctx)?;
        bytes.gwrite_with(self.virtual_address, offset, ctx)?;
        bytes.gwrite_with(self.size_of_raw_data, offset, ctx)?;
        bytes.gwrite_with(self.pointer_to_raw_data, offset, ctx)?;
        bytes.gwrite_with(self.pointer_to_relocations, offset, ctx)?;
        bytes.gwrite_with(self.pointer_to_linenumbers, offset, ctx)?;
        bytes.gwrite_with(self.number_of_relocations, offset, ctx)?;
        bytes.gwrite_with(self.number_of_linenumbers, offset, ctx)?;
        bytes.gwrite_with(self.characteristics, offset, ctx)?;
        Ok(*offset)
    }
}

impl ctx::TryIntoCtx<scroll::Endian> for SectionTable {
    type Error = error::Error;

    fn try_into_ctx(self, bytes: &mut [u8], ctx: scroll::Endian) -> error::Result<usize> {
        (&self).try_into_ctx(bytes, ctx)
    }
}

impl ctx::IntoCtx<scroll::Endian> for SectionTable {
    /// Panics where the buffer is too short, as in goblin.
    fn into_ctx(self, bytes: &mut [u8], ctx: scroll::Endian) {
        bytes.pwrite_with(self, 0, ctx).expect("room for a section header");
    }
}

pub const IMAGE_SCN_TYPE_NO_PAD: u32 = 0x0000_0008;
pub const IMAGE_SCN_CNT_CODE: u32 = 0x0000_0020;
pub const IMAGE_SCN_CNT_INITIALIZED_DATA: u32 = 0x0000_0040;
pub const IMAGE_SCN_CNT_UNINITIALIZED_DATA: u32 = 0x0000_0080;
pub const IMAGE_SCN_LNK_OTHER: u32 = 0x0000_0100;
pub const IMAGE_SCN_LNK_INFO: u32 = 0x0000_0200;
pub const IMAGE_SCN_LNK_REMOVE: u32 = 0x0000_0800;
pub const IMAGE_SCN_LNK_COMDAT: u32 = 0x0000_1000;
pub const IMAGE_SCN_GPREL: u32 = 0x0000_8000;
pub const IMAGE_SCN_MEM_PURGEABLE: u32 = 0x0002_0000;
pub const IMAGE_SCN_MEM_16BIT: u32 = 0x0002_0000;
pub const IMAGE_SCN_MEM_LOCKED: u32 = 0x0004_0000;
pub const IMAGE_SCN_MEM_PRELOAD: u32 = 0x0008_0000;
pub const IMAGE_SCN_ALIGN_1BYTES: u32 = 0x0010_0000;
pub const IMAGE_SCN_ALIGN_2BYTES: u32 = 0x0020_0000;
pub const IMAGE_SCN_ALIGN_4BYTES: u32 = 0x0030_0000;
pub const IMAGE_SCN_ALIGN_8BYTES: u32 = 0x0040_0000;
pub const IMAGE_SCN_ALIGN_16BYTES: u32 = 0x0050_0000;
pub const IMAGE_SCN_ALIGN_32BYTES: u32 = 0x0060_0000;
pub const IMAGE_SCN_ALIGN_64BYTES: u32 = 0x0070_0000;
pub const IMAGE_SCN_ALIGN_128BYTES: u32 = 0x0080_0000;
pub const IMAGE_SCN_ALIGN_256BYTES: u32 = 0x0090_0000;
pub const IMAGE_SCN_ALIGN_512BYTES: u32 = 0x00A0_0000;
pub const IMAGE_SCN_ALIGN_1024BYTES: u32 = 0x00B0_0000;
pub const IMAGE_SCN_ALIGN_2048BYTES: u32 = 0x00C0_0000;
pub const IMAGE_SCN_ALIGN_4096BYTES: u32 = 0x00D0_0000;
pub const IMAGE_SCN_ALIGN_8192BYTES: u32 = 0x00E0_0000;
pub const IMAGE_SCN_ALIGN_MASK: u32 = 0x00F0_0000;
pub const IMAGE_SCN_LNK_NRELOC_OVFL: u32 = 0x0100_0000;
pub const IMAGE_SCN_MEM_DISCARDABLE: u32 = 0x0200_0000;
pub const IMAGE_SCN_MEM_NOT_CACHED: u32 = 0x0400_0000;
pub const IMAGE_SCN_MEM_NOT_PAGED: u32 = 0x0800_0000;
pub const IMAGE_SCN_MEM_SHARED: u32 = 0x1000_0000;
pub const IMAGE_SCN_MEM_EXECUTE: u32 = 0x2000_0000;
pub const IMAGE_SCN_MEM_READ: u32 = 0x4000_0000;
pub const IMAGE_SCN_MEM_WRITE: u32 = 0x8000_0000;
