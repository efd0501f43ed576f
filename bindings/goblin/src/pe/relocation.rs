//! Relocations of objects, which a linker applies, and base relocations of images, which the loader applies.
//! <https://learn.microsoft.com/windows/win32/debug/pe-format#coff-relocations-object-only>,
//! <https://learn.microsoft.com/windows/win32/debug/pe-format#the-reloc-section-image-only>

use super::data_directories::DataDirectory;
use super::options::ParseOptions;
use super::section_table::SectionTable;
use crate::error;
use crate::raw::{self, Index, Refusal, View};
use core::iter::FusedIterator;
use pe_c::sys;
use scroll::{IOread, IOwrite, Pread, Pwrite, SizeWith};

/// Bytes of a [`Relocation`].
pub const COFF_RELOCATION_SIZE: usize = 10;

pub const IMAGE_REL_I386_ABSOLUTE: u16 = 0x0000;
pub const IMAGE_REL_I386_DIR16: u16 = 0x0001;
pub const IMAGE_REL_I386_REL16: u16 = 0x0002;
pub const IMAGE_REL_I386_DIR32: u16 = 0x0006;
pub const IMAGE_REL_I386_DIR32NB: u16 = 0x0007;
pub const IMAGE_REL_I386_SEG12: u16 = 0x0009;
pub const IMAGE_REL_I386_SECTION: u16 = 0x000A;
pub const IMAGE_REL_I386_SECREL: u16 = 0x000B;
pub const IMAGE_REL_I386_TOKEN: u16 = 0x000C;
pub const IMAGE_REL_I386_SECREL7: u16 = 0x000D;
pub const IMAGE_REL_I386_REL32: u16 = 0x0014;
pub const IMAGE_REL_AMD64_ABSOLUTE: u16 = 0x0000;
pub const IMAGE_REL_AMD64_ADDR64: u16 = 0x0001;
pub const IMAGE_REL_AMD64_ADDR32: u16 = 0x0002;
pub const IMAGE_REL_AMD64_ADDR32NB: u16 = 0x0003;
pub const IMAGE_REL_AMD64_REL32: u16 = 0x0004;
pub const IMAGE_REL_AMD64_REL32_1: u16 = 0x0005;
pub const IMAGE_REL_AMD64_REL32_2: u16 = 0x0006;
pub const IMAGE_REL_AMD64_REL32_3: u16 = 0x0007;
pub const IMAGE_REL_AMD64_REL32_4: u16 = 0x0008;
pub const IMAGE_REL_AMD64_REL32_5: u16 = 0x0009;
pub const IMAGE_REL_AMD64_SECTION: u16 = 0x000A;
pub const IMAGE_REL_AMD64_SECREL: u16 = 0x000B;
pub const IMAGE_REL_AMD64_SECREL7: u16 = 0x000C;
pub const IMAGE_REL_AMD64_TOKEN: u16 = 0x000D;
pub const IMAGE_REL_AMD64_SREL32: u16 = 0x000E;
pub const IMAGE_REL_AMD64_PAIR: u16 = 0x000F;
pub const IMAGE_REL_AMD64_SSPAN32: u16 = 0x0010;
/// A relocation of an object.
#[repr(C)]
#[derive(Debug, Copy, Clone, PartialEq, Default, Pread, Pwrite, IOread, IOwrite, SizeWith)]
pub struct Relocation {
    /// Where it is applied, from the start of the section, plus the section's `virtual_address`.
    pub virtual_address: u32,
    /// Index of the symbol whose address is taken.
    pub symbol_table_index: u32,
    /// `IMAGE_REL_`, by machine.
    pub typ: u16,
}

/// The relocations of a section of an object, one after the other.
#[derive(Default)]
pub struct Relocations<'a> {
    offset: usize,
    relocations: &'a [u8],
}

impl<'a> Relocations<'a> {
    /// So many relocations at an offset. Error: `Scroll` where they are truncated.
    pub fn parse(bytes: &'a [u8], offset: usize, number: usize) -> error::Result<Relocations<'a>> {
        let size = number.saturating_mul(COFF_RELOCATION_SIZE);
        Ok(Relocations { offset: 0, relocations: raw::bytes_at(bytes, offset, size)? })
    }
}

impl Iterator for Relocations<'_> {
    type Item = Relocation;

    fn next(&mut self) -> Option<Relocation> {
        let found = raw::coff_relocation(self.relocations, self.offset)?;
        self.offset += COFF_RELOCATION_SIZE;
        Some(found)
    }
}

impl FusedIterator for Relocations<'_> {}

/// The base relocations of an image, in blocks, each of a page. goblin's names of this and of what follows are inferred.
#[derive(Debug, Copy, Clone, PartialEq, Default)]
pub struct RelocationData<'a> {
    bytes: &'a [u8],
}

/// The base relocations of a page.
#[derive(Debug, Copy, Clone, PartialEq)]
pub struct RelocationBlock<'a> {
    /// RVA of the page.
    pub rva: u32,
    /// Bytes of the block, with its header of eight bytes.
    pub size: u32,
    bytes: &'a [u8],
}

/// A base relocation as it stands.
#[derive(Debug, Copy, Clone, PartialEq)]
pub struct RelocationWord {
    /// The type and the offset.
    pub value: u16,
}

impl RelocationWord {
    /// `IMAGE_REL_BASED_`.
    pub fn reloc_type(&self) -> u8 {
        (self.value >> 12) as u8
    }

    /// Where it is applied, from the start of the page.
    pub fn offset(&self) -> u16 {
        self.value & 0xfff
    }
}

/// Bytes of a block's header.
const BLOCK_HEADER_SIZE: u64 = 8;
/// `IMAGE_REL_BASED_HIGHADJ`, the type that has an argument.
const HIGHADJ: u32 = 4;
/// How many are taken a call.
const TAKEN: usize = 16;

impl<'a> RelocationData<'a> {
    /// The base relocations of a directory in a file.
    pub fn parse(
        bytes: &'a [u8],
        dd: DataDirectory,
        sections: &[SectionTable],
        file_alignment: u32,
    ) -> error::Result<Self> {
        Self::parse_with_opts(bytes, dd, sections, file_alignment, &ParseOptions::default())
    }

    /// The base relocations of a directory. Errors: `Malformed` where it is unmapped or ends past the file.
    pub fn parse_with_opts(
        bytes: &'a [u8],
        dd: DataDirectory,
        sections: &[SectionTable],
        file_alignment: u32,
        opts: &ParseOptions,
    ) -> error::Result<Self> {
        let (info, sections) =
            (raw::image_with(Index::BaseRelocation, dd, file_alignment, opts), raw::sections_of(sections)?);
        Ok(Self::of(View::of(bytes, &info, &sections))?.unwrap_or_default())
    }

    pub(crate) fn of(view: View<'a, '_>) -> error::Result<Option<Self>> {
        let found = view.relocation_blocks().map_err(|it| match it {
            Refusal::UNMAPPED => error::Error::Malformed(format!(
                "Cannot map base reloc rva {:#x} into offset",
                view.directory(Index::BaseRelocation).virtual_address
            )),
            other => view.refused(Index::BaseRelocation, other),
        })?;
        found.map(|it| Ok(RelocationData { bytes: view.slice(it)? })).transpose()
    }

    /// The blocks.
    pub fn blocks(&self) -> RelocationBlockIterator<'a> {
        RelocationBlockIterator { bytes: self.bytes, walk: Some(raw::whole(self.bytes)) }
    }
}

/// Blocks of base relocations, one after the other.
#[derive(Debug, Copy, Clone)]
pub struct RelocationBlockIterator<'a> {
    bytes: &'a [u8],
    walk: Option<sys::Range>,
}

impl<'a> Iterator for RelocationBlockIterator<'a> {
    type Item = error::Result<RelocationBlock<'a>>;

    fn next(&mut self) -> Option<Self::Item> {
        let before = self.walk;
        let found = raw::step(&mut self.walk, |walk| raw::next_relocation_block(self.bytes, walk))?;
        let found = found.map_err(|it| match before {
            Some(walk) => raw::with_numbers(it, raw::relocation_block_failure(self.bytes, &walk)),
            None => it,
        });
        Some(found.and_then(|it| {
            let size = raw::narrow(it.entries.length + BLOCK_HEADER_SIZE)?;
            Ok(RelocationBlock { rva: it.page_rva, size, bytes: raw::slice(self.bytes, it.entries)? })
        }))
    }
}

impl FusedIterator for RelocationBlockIterator<'_> {}

impl<'a> RelocationBlock<'a> {
    /// The base relocations of the block.
    pub fn words(&self) -> RelocationWordIterator<'a> {
        let batch = raw::Batch::new(raw::whole(self.bytes));
        RelocationWordIterator { bytes: self.bytes, batch, argument: None }
    }
}

/// Base relocations, one after the other. That after one of type `IMAGE_REL_BASED_HIGHADJ` is its argument.
#[derive(Debug, Copy, Clone)]
pub struct RelocationWordIterator<'a> {
    bytes: &'a [u8],
    batch: raw::Batch<sys::Range, sys::Relocation, TAKEN>,
    argument: Option<u16>,
}

impl RelocationWordIterator<'_> {
    /// The next word, which the library has as a relocation whose page is at 0.
    fn next_of_list(&mut self) -> error::Result<Option<u16>> {
        if self.batch.taken() == 0 {
            let bytes = self.bytes;
            self.batch.fill(|walk, room| raw::list_relocations(bytes, 0, walk, room))?;
        }
        let Some(it) = self.batch.next() else { return Ok(None) };
        self.argument = if it.kind == HIGHADJ { Some(raw::narrow(it.argument)?) } else { None };
        Ok(Some(raw::narrow(u64::from(it.kind) << 12 | it.rva)?))
    }
}

impl Iterator for RelocationWordIterator<'_> {
    type Item = error::Result<RelocationWord>;

    fn next(&mut self) -> Option<Self::Item> {
        let word = match self.argument.take() {
            Some(argument) => Ok(Some(argument)),
            None => self.next_of_list(),
        };
        Some(word.transpose()?.map(|value| RelocationWord { value }))
    }
}

impl FusedIterator for RelocationWordIterator<'_> {}
