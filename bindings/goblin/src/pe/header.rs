//! The headers of an image: the DOS header, whose last field is the offset of the PE signature, then the COFF header and the
//! optional header. <https://learn.microsoft.com/windows/win32/debug/pe-format#file-headers>

use super::optional_header::OptionalHeader;
use super::options::ParseOptions;
use super::section_table::{SectionTable, SIZEOF_SECTION_TABLE};
use super::symbol::SymbolTable;
use crate::error;
use crate::raw;
use crate::strtab::Strtab;
use core::iter::FusedIterator;
use pe_c::sys::{self, ImageInfo};
use scroll::{ctx, IOread, IOwrite, Pread, Pwrite, SizeWith};

/// `IMAGE_DOS_SIGNATURE`, "MZ".
pub const DOS_MAGIC: u16 = 0x5a4d;
/// Of the field that holds the offset of the PE signature.
pub const PE_POINTER_OFFSET: u32 = 0x3c;
/// Of the DOS stub.
pub const DOS_STUB_OFFSET: u32 = PE_POINTER_OFFSET + 4;
/// Bytes of a [`CoffHeader`].
pub const SIZEOF_COFF_HEADER: usize = 20;
/// `IMAGE_NT_SIGNATURE`, "PE\0\0".
pub const PE_MAGIC: u32 = 0x0000_4550;
/// Bytes of the PE signature.
pub const SIZEOF_PE_MAGIC: usize = 4;
/// The signature of a TE image, "VZ".
pub const TE_MAGIC: u16 = 0x5a56;
/// Bytes of a TE header.
#[cfg(feature = "te")]
pub(crate) const SIZEOF_TE_HEADER: usize = 40;

/// Any machine.
pub const COFF_MACHINE_UNKNOWN: u16 = 0x0;
/// Matsushita AM33.
pub const COFF_MACHINE_AM33: u16 = 0x1d3;
/// x64.
pub const COFF_MACHINE_X86_64: u16 = 0x8664;
/// ARM.
pub const COFF_MACHINE_ARM: u16 = 0x1c0;
/// ARM64.
pub const COFF_MACHINE_ARM64: u16 = 0xaa64;
/// ARM Thumb-2.
pub const COFF_MACHINE_ARMNT: u16 = 0x1c4;
/// EFI byte code.
pub const COFF_MACHINE_EBC: u16 = 0xebc;
/// x86.
pub const COFF_MACHINE_X86: u16 = 0x14c;
/// Itanium.
pub const COFF_MACHINE_IA64: u16 = 0x200;
/// Mitsubishi M32R.
pub const COFF_MACHINE_M32R: u16 = 0x9041;
/// MIPS16.
pub const COFF_MACHINE_MIPS16: u16 = 0x266;
/// MIPS with an FPU.
pub const COFF_MACHINE_MIPSFPU: u16 = 0x366;
/// MIPS16 with an FPU.
pub const COFF_MACHINE_MIPSFPU16: u16 = 0x466;
/// PowerPC.
pub const COFF_MACHINE_POWERPC: u16 = 0x1f0;
/// PowerPC with floating point.
pub const COFF_MACHINE_POWERPCFP: u16 = 0x1f1;
/// MIPS.
pub const COFF_MACHINE_R4000: u16 = 0x166;
/// RISC-V of 32 bits.
pub const COFF_MACHINE_RISCV32: u16 = 0x5032;
/// RISC-V of 64 bits.
pub const COFF_MACHINE_RISCV64: u16 = 0x5064;
/// RISC-V of 128 bits.
pub const COFF_MACHINE_RISCV128: u16 = 0x5128;
/// Hitachi SH3.
pub const COFF_MACHINE_SH3: u16 = 0x1a2;
/// Hitachi SH3 DSP.
pub const COFF_MACHINE_SH3DSP: u16 = 0x1a3;
/// Hitachi SH4.
pub const COFF_MACHINE_SH4: u16 = 0x1a6;
/// Hitachi SH5.
pub const COFF_MACHINE_SH5: u16 = 0x1a8;
/// Thumb.
pub const COFF_MACHINE_THUMB: u16 = 0x1c2;
/// MIPS of Windows CE.
pub const COFF_MACHINE_WCEMIPSV2: u16 = 0x169;

/// The header of a DOS program.
#[repr(C)]
#[derive(Debug, PartialEq, Copy, Clone, Default, Pread, Pwrite, SizeWith)]
pub struct DosHeader {
    /// [`DOS_MAGIC`].
    pub signature: u16,
    /// Bytes on the last page.
    pub bytes_on_last_page: u16,
    /// Pages of 512 bytes.
    pub pages_in_file: u16,
    /// The number of relocations.
    pub relocations: u16,
    /// In 16 bytes.
    pub size_of_header_in_paragraphs: u16,
    /// In 16 bytes.
    pub minimum_extra_paragraphs_needed: u16,
    /// In 16 bytes.
    pub maximum_extra_paragraphs_needed: u16,
    /// The stack segment at the start.
    pub initial_relative_ss: u16,
    /// The stack pointer at the start.
    pub initial_sp: u16,
    /// The checksum.
    pub checksum: u16,
    /// The instruction pointer at the start.
    pub initial_ip: u16,
    /// The code segment at the start.
    pub initial_relative_cs: u16,
    /// Offset of the relocations.
    pub file_address_of_relocation_table: u16,
    /// Which overlay it is.
    pub overlay_number: u16,
    /// Reserved.
    pub reserved: [u16; 4],
    /// Of the maker.
    pub oem_id: u16,
    /// Of the maker.
    pub oem_info: u16,
    /// Reserved.
    pub reserved_2: [u16; 10],
    /// Offset of the PE signature.
    pub pe_pointer: u32,
}

impl DosHeader {
    /// Reads the header. Errors: `Scroll` where it is truncated; `BadMagic`.
    pub fn parse(bytes: &[u8]) -> error::Result<Self> {
        let header = raw::dos_header(bytes)?;
        match header.signature {
            DOS_MAGIC => Ok(header),
            magic => Err(error::Error::BadMagic(magic.into())),
        }
    }
}

impl From<&sys::DosHeader> for DosHeader {
    fn from(it: &sys::DosHeader) -> Self {
        DosHeader {
            signature: it.signature,
            bytes_on_last_page: it.bytes_on_last_page,
            pages_in_file: it.pages_in_file,
            relocations: it.relocations,
            size_of_header_in_paragraphs: it.size_of_header_in_paragraphs,
            minimum_extra_paragraphs_needed: it.minimum_extra_paragraphs,
            maximum_extra_paragraphs_needed: it.maximum_extra_paragraphs,
            initial_relative_ss: it.initial_relative_ss,
            initial_sp: it.initial_sp,
            checksum: it.checksum,
            initial_ip: it.initial_ip,
            initial_relative_cs: it.initial_relative_cs,
            file_address_of_relocation_table: it.relocations_offset,
            overlay_number: it.overlay_number,
            reserved: it.reserved,
            oem_id: it.oem_id,
            oem_info: it.oem_information,
            reserved_2: it.reserved2,
            pe_pointer: it.pe_pointer,
        }
    }
}

/// What follows the DOS header, up to the PE signature: as a rule a program that says that it needs Windows.
#[derive(Debug, PartialEq, Copy, Clone, Default)]
pub struct DosStub<'a> {
    /// Its bytes, with the Rich header.
    pub data: &'a [u8],
}

impl ctx::TryIntoCtx<scroll::Endian> for DosStub<'_> {
    type Error = error::Error;

    fn try_into_ctx(self, bytes: &mut [u8], _: scroll::Endian) -> error::Result<usize> {
        Ok(bytes.pwrite(self.data, 0)?)
    }
}

/// The Rich header: which tools made the objects of an image. <https://www.ntcore.com/files/richsign.htm>
#[derive(Debug, PartialEq, Copy, Clone, Default)]
pub struct RichHeader<'a> {
    /// What the header is XORed with.
    pub key: u32,
    /// The entries, 8 bytes each, XORed with the key.
    pub data: &'a [u8],
    /// Bytes between the mark at the start and the entries.
    pub padding_size: usize,
    /// Offset of the mark at the start.
    pub start_offset: u32,
    /// Offset of the mark after the entries.
    pub end_offset: u32,
}

/// An entry of a Rich header.
#[derive(Debug, PartialEq, Copy, Clone, Default)]
pub struct RichMetadata {
    /// The build of the tool.
    pub build: u16,
    /// Which tool it is.
    pub product: u16,
    /// How many objects it made.
    pub use_count: u32,
}

/// The entries of a Rich header, one after the other.
#[derive(Debug, Copy, Clone)]
pub struct RichMetadataIterator<'a> {
    data: &'a [u8],
    key: u32,
    walk: Option<sys::Range>,
}

/// Of the mark "DanS" and of the three numbers after it, which are 0, in bytes: the library finds no header without them.
const RICH_START: u64 = 16;

impl<'a> RichHeader<'a> {
    /// Finds the Rich header of an image. Error: `Malformed` where the DOS header is truncated.
    pub fn parse(bytes: &'a [u8]) -> error::Result<Option<Self>> {
        let Some(found) = raw::rich_header(bytes)? else { return Ok(None) };
        let start = found.entries.offset.saturating_sub(RICH_START);
        Ok(Some(RichHeader {
            key: found.key,
            data: raw::slice(bytes, found.entries)?,
            padding_size: RICH_START as usize - 4,
            start_offset: raw::narrow(start)?,
            end_offset: raw::narrow(found.entries.offset + found.entries.length)?,
        }))
    }

    /// The entries.
    pub fn metadatas(&self) -> RichMetadataIterator<'a> {
        RichMetadataIterator { data: self.data, key: self.key, walk: Some(raw::whole(self.data)) }
    }
}

impl Iterator for RichMetadataIterator<'_> {
    type Item = error::Result<RichMetadata>;

    fn next(&mut self) -> Option<Self::Item> {
        let found = raw::step(&mut self.walk, |walk| raw::next_rich_entry(self.data, self.key, walk))?;
        Some(found.map(|it| RichMetadata { build: it.build, product: it.product, use_count: it.count }))
    }
}

impl FusedIterator for RichMetadataIterator<'_> {}

/// The COFF header, which images and objects have.
#[repr(C)]
#[derive(Debug, PartialEq, Copy, Clone, Default, Pread, Pwrite, IOread, IOwrite, SizeWith)]
pub struct CoffHeader {
    /// `COFF_MACHINE_`.
    pub machine: u16,
    /// The number of section headers.
    pub number_of_sections: u16,
    /// Seconds since 1970, or a hash in a reproducible build.
    pub time_date_stamp: u32,
    /// Offset of the symbols; 0 where there are none.
    pub pointer_to_symbol_table: u32,
    /// The number of symbols, with their auxiliary records.
    pub number_of_symbol_table: u32,
    /// Bytes of the optional header.
    pub size_of_optional_header: u16,
    /// `IMAGE_FILE_` flags.
    pub characteristics: u16,
}

impl From<&sys::CoffHeader> for CoffHeader {
    fn from(it: &sys::CoffHeader) -> Self {
        CoffHeader {
            machine: it.machine,
            number_of_sections: it.number_of_sections,
            time_date_stamp: it.time_date_stamp,
            pointer_to_symbol_table: it.pointer_to_symbol_table,
            number_of_symbol_table: it.number_of_symbol_table,
            size_of_optional_header: it.size_of_optional_header,
            characteristics: it.characteristics,
        }
    }
}

impl CoffHeader {
    /// Reads the header at an offset, and moves the offset. Error: `Scroll` where it is truncated.
    pub fn parse(bytes: &[u8], offset: &mut usize) -> error::Result<Self> {
        let header = raw::coff_header(bytes, *offset)?;
        *offset += SIZEOF_COFF_HEADER;
        Ok(header)
    }

    /// The section headers at an offset, with their long names; moves the offset.
    pub fn sections(&self, bytes: &[u8], offset: &mut usize) -> error::Result<Vec<SectionTable>> {
        self.sections_with_opts(bytes, offset, &ParseOptions::default())
    }

    /// The same with options, which change nothing. Errors: `Malformed` where they are truncated, and where what is read of long
    /// names is longer than the bytes; out of memory. A long name that the string table does not have is no error: `real_name` is
    /// `None`.
    pub fn sections_with_opts(
        &self,
        bytes: &[u8],
        offset: &mut usize,
        _opts: &ParseOptions,
    ) -> error::Result<Vec<SectionTable>> {
        let info = section_headers_at(*offset, self.number_of_sections);
        let found = raw::sections(bytes, &info)?;
        *offset += SIZEOF_SECTION_TABLE * found.len();
        let names = self.strings(bytes).ok().flatten();
        let (mut sections, mut left) = (raw::list(found.len())?, bytes.len());
        for header in &found {
            sections.push(SectionTable::of_object(header, names.as_ref(), &mut left)?);
        }
        Ok(sections)
    }

    /// The symbols, or `None` where the header names none. Error: `Scroll` where they are truncated.
    pub fn symbols<'a>(&self, bytes: &'a [u8]) -> error::Result<Option<SymbolTable<'a>>> {
        Ok(raw::symbols_of(bytes, self)?.map(SymbolTable::of))
    }

    /// The string table after the symbols, without its size field, or `None` where there are no symbols or the file ends
    /// after them. Errors: `Scroll` where its size is truncated, `Malformed` where its texts are.
    pub fn strings<'a>(&self, bytes: &'a [u8]) -> error::Result<Option<Strtab<'a>>> {
        raw::strings_of(bytes, self)
    }
}

/// Bytes of the field that holds the size of a string table.
pub(crate) const SIZEOF_STRING_TABLE_SIZE: usize = 4;

/// An image that has nothing but section headers at an offset.
pub(crate) fn section_headers_at(offset: usize, number_of_sections: u16) -> ImageInfo {
    ImageInfo { sections_offset: offset as u64, number_of_sections, ..Default::default() }
}

/// All headers of an image.
#[derive(Debug, PartialEq, Copy, Clone, Default)]
pub struct Header<'a> {
    /// At the start of the file.
    pub dos_header: DosHeader,
    /// Between the DOS header and the PE signature.
    pub dos_stub: DosStub<'a>,
    /// Which tools made the image.
    pub rich_header: Option<RichHeader<'a>>,
    /// [`PE_MAGIC`].
    pub signature: u32,
    /// After the PE signature.
    pub coff_header: CoffHeader,
    /// After the COFF header.
    pub optional_header: Option<OptionalHeader>,
}

impl<'a> Header<'a> {
    /// Reads the headers of an image, strictly.
    pub fn parse(bytes: &'a [u8]) -> error::Result<Self> {
        Self::parse_with_opts(bytes, &ParseOptions::default())
    }

    /// Reads the headers of an image. Errors: `Malformed` where they are truncated, and in strict mode where the PE header
    /// overlaps the DOS header; `BadMagic`.
    pub fn parse_with_opts(bytes: &'a [u8], opts: &ParseOptions) -> error::Result<Self> {
        Ok(Self::with_info(bytes, opts)?.0)
    }

    /// The same with the library's record of them.
    pub(crate) fn with_info(bytes: &'a [u8], opts: &ParseOptions) -> error::Result<(Self, ImageInfo)> {
        let mode = raw::mode_of(opts);
        let found = raw::image(bytes, mode).map_err(|it| it.of_headers(bytes, mode))?;
        let info = found.ok_or_else(|| error::Error::Malformed("no headers".to_owned()))?;
        let found = raw::headers(bytes, mode).map_err(|it| it.of_headers(bytes, mode))?;
        let headers = found.ok_or_else(|| error::Error::Malformed("no headers".to_owned()))?;
        let header = Header {
            dos_header: (&headers.dos).into(),
            dos_stub: DosStub { data: raw::slice(bytes, headers.dos_stub)? },
            rich_header: RichHeader::parse(bytes)?,
            signature: headers.signature,
            coff_header: (&headers.coff).into(),
            optional_header: OptionalHeader::of(&headers)?,
        };
        Ok((header, info))
    }

    /// Bytes from the start of the file to the end of the optional header, or of a longer DOS stub.
    pub(crate) fn written_len(&self) -> usize {
        let coff = self.dos_header.pe_pointer as usize + SIZEOF_PE_MAGIC + SIZEOF_COFF_HEADER;
        let end = coff + self.optional_header.map_or(0, |it| it.written_len());
        end.max(DOS_STUB_OFFSET as usize + self.dos_stub.data.len())
    }
}

impl ctx::TryIntoCtx<scroll::Endian> for Header<'_> {
    type Error = error::Error;

    /// Writes each header at its offset. Errors: `Scroll` where the buffer is too short, and those of the optional header.
    fn try_into_ctx(self, bytes: &mut [u8], ctx: scroll::Endian) -> error::Result<usize> {
        bytes.pwrite_with(self.dos_header, 0, ctx)?;
        bytes.pwrite_with(self.dos_stub, DOS_STUB_OFFSET as usize, ctx)?;
        let offset = &mut (self.dos_header.pe_pointer as usize);
        bytes.gwrite_with(self.signature, offset, ctx)?;
        bytes.gwrite_with(self.coff_header, offset, ctx)?;
        if let Some(optional_header) = self.optional_header {
            bytes.gwrite_with(optional_header, offset, ctx)?;
        }
        Ok(*offset)
    }
}

/// The header of a TE image: what UEFI keeps of the headers of a PE image.
#[cfg(feature = "te")]
#[repr(C)]
#[derive(Debug, PartialEq, Copy, Clone, Default, Pread, Pwrite, SizeWith)]
pub struct TeHeader {
    /// [`TE_MAGIC`].
    pub signature: u16,
    /// `COFF_MACHINE_`.
    pub machine: u16,
    /// The number of section headers.
    pub number_of_sections: u8,
    /// `IMAGE_SUBSYSTEM_`.
    pub subsystem: u8,
    /// Bytes of the headers that this one stands for.
    pub stripped_size: u16,
    /// RVA where execution starts, less what is stripped.
    pub entry_point: u32,
    /// RVA of the code, less what is stripped.
    pub base_of_code: u32,
    /// The preferred virtual address of the image.
    pub image_base: u64,
    /// The base relocations.
    pub reloc_dir: super::data_directories::DataDirectory,
    /// The debug data.
    pub debug_dir: super::data_directories::DataDirectory,
}

#[cfg(feature = "te")]
fn too_small(size: u16) -> String {
    format!("stripped size {size} smaller than the TE header, which has {SIZEOF_TE_HEADER} bytes")
}

#[cfg(feature = "te")]
impl TeHeader {
    /// Reads the header at an offset, and moves the offset; its RVAs are those of the file as it is. Errors: `Scroll` where it
    /// is truncated; `BadMagic`; `Malformed` where the stripped size is below its own.
    pub fn parse(bytes: &[u8], offset: &mut usize) -> error::Result<Self> {
        let header = raw::te_header(bytes, *offset)?;
        *offset += SIZEOF_TE_HEADER;
        Ok(header)
    }

    /// By how much RVAs and offsets are less than in the image that was stripped.
    pub(crate) fn rva_offset(&self) -> error::Result<u32> {
        let by = self.stripped_size.checked_sub(SIZEOF_TE_HEADER as u16);
        Ok(by.ok_or_else(|| error::Error::Malformed(too_small(self.stripped_size)))?.into())
    }

    /// The section headers at an offset, whose RVAs and file offsets are those of the file as it is; moves the offset. Errors:
    /// `Malformed` where they are truncated, and out of memory.
    pub fn sections(&self, bytes: &[u8], offset: &mut usize) -> error::Result<Vec<SectionTable>> {
        let by = self.rva_offset()?;
        let info = section_headers_at(*offset, self.number_of_sections.into());
        let found = raw::sections(bytes, &info)?;
        *offset += SIZEOF_SECTION_TABLE * found.len();
        let mut sections = raw::list(found.len())?;
        for header in &found {
            let section = SectionTable::of_object(header, None, &mut 0)?;
            sections.push(SectionTable {
                virtual_address: section.virtual_address.wrapping_sub(by),
                pointer_to_raw_data: section.pointer_to_raw_data.wrapping_sub(by),
                ..section
            });
        }
        Ok(sections)
    }
}
