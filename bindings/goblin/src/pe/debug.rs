//! Debug data: a directory of entries, each of which says which type of record it leads to and where that is. CodeView records
//! name the PDB file of the image: a debugger finds it by their GUID and age.
//! <https://learn.microsoft.com/windows/win32/debug/pe-format#the-debug-section>

use super::data_directories::DataDirectory;
use super::options::ParseOptions;
use super::section_table::SectionTable;
use crate::error;
use crate::raw::{self, Index, Refusal, View};
use core::iter::FusedIterator;
use pe_c::sys;
use scroll::{Pread, Pwrite, SizeWith};

pub const IMAGE_DEBUG_DIRECTORY_SIZE: usize = 0x1C;
pub const IMAGE_DEBUG_TYPE_UNKNOWN: u32 = 0;
pub const IMAGE_DEBUG_TYPE_COFF: u32 = 1;
pub const IMAGE_DEBUG_TYPE_CODEVIEW: u32 = 2;
pub const IMAGE_DEBUG_TYPE_FPO: u32 = 3;
pub const IMAGE_DEBUG_TYPE_MISC: u32 = 4;
pub const IMAGE_DEBUG_TYPE_EXCEPTION: u32 = 5;
pub const IMAGE_DEBUG_TYPE_FIXUP: u32 = 6;
pub const IMAGE_DEBUG_TYPE_OMAP_TO_SRC: u32 = 7;
pub const IMAGE_DEBUG_TYPE_OMAP_FROM_SRC: u32 = 8;
pub const IMAGE_DEBUG_TYPE_BORLAND: u32 = 9;
pub const IMAGE_DEBUG_TYPE_RESERVED10: u32 = 10;
pub const IMAGE_DEBUG_TYPE_BBT: u32 = IMAGE_DEBUG_TYPE_RESERVED10;
pub const IMAGE_DEBUG_TYPE_CLSID: u32 = 11;
pub const IMAGE_DEBUG_TYPE_VC_FEATURE: u32 = 12;
pub const IMAGE_DEBUG_TYPE_POGO: u32 = 13;
pub const IMAGE_DEBUG_TYPE_ILTCG: u32 = 14;
pub const IMAGE_DEBUG_TYPE_MPX: u32 = 15;
pub const IMAGE_DEBUG_TYPE_REPRO: u32 = 16;
pub const IMAGE_DEBUG_TYPE_EMBEDDEDPORTABLEPDB: u32 = 17;
pub const IMAGE_DEBUG_TYPE_SPGO: u32 = 18;
pub const IMAGE_DEBUG_TYPE_PDBCHECKSUM: u32 = 19;
pub const IMAGE_DEBUG_TYPE_EX_DLLCHARACTERISTICS: u32 = 20;
pub const IMAGE_DEBUG_TYPE_PERFMAP: u32 = 21;
pub const CODEVIEW_PDB70_MAGIC: u32 = 0x5344_5352;
pub const CODEVIEW_PDB20_MAGIC: u32 = 0x3031_424e;
pub const CODEVIEW_CV50_MAGIC: u32 = 0x3131_424e;
pub const CODEVIEW_CV41_MAGIC: u32 = 0x3930_424e;
pub const IMAGE_DLLCHARACTERISTICS_EX_CET_COMPAT: u32 = 0x1;
pub const IMAGE_DLLCHARACTERISTICS_EX_CET_COMPAT_STRICT_MODE: u32 = 0x2;
pub const IMAGE_DLLCHARACTERISTICS_EX_CET_SET_CONTEXT_IP_VALIDATION_RELAXED_MODE: u32 = 0x4;
pub const IMAGE_DLLCHARACTERISTICS_EX_CET_DYNAMIC_APIS_ALLOW_IN_PROC_ONLY: u32 = 0x8;
pub const IMAGE_DLLCHARACTERISTICS_EX_CET_RESERVED_1: u32 = 0x10;
pub const IMAGE_DLLCHARACTERISTICS_EX_CET_RESERVED_2: u32 = 0x20;
pub const IMAGE_DLLCHARACTERISTICS_EX_FORWARD_CFI_COMPAT: u32 = 0x40;
pub const IMAGE_DLLCHARACTERISTICS_EX_HOTPATCH_COMPATIBLE: u32 = 0x80;
pub const IMAGE_DEBUG_POGO_SIGNATURE_LTCG: u32 = 0x4C544347;
pub const IMAGE_DEBUG_POGO_SIGNATURE_PGU: u32 = 0x50475500;
pub const POGO_SIGNATURE_SIZE: usize = core::mem::size_of::<u32>();
/// An entry of the debug directory, `IMAGE_DEBUG_DIRECTORY`.
#[repr(C)]
#[derive(Debug, PartialEq, Copy, Clone, Default, Pread, Pwrite, SizeWith)]
pub struct ImageDebugDirectory {
    /// Reserved.
    pub characteristics: u32,
    /// Seconds since 1970, or a hash in a reproducible build.
    pub time_date_stamp: u32,
    /// Of the record's format.
    pub major_version: u16,
    /// Of the record's format.
    pub minor_version: u16,
    /// `IMAGE_DEBUG_TYPE_`.
    pub data_type: u32,
    /// Bytes of the record.
    pub size_of_data: u32,
    /// RVA of the record, or 0. In an image as loaded the record is read there.
    pub address_of_raw_data: u32,
    /// File offset of the record. In a file it is read there.
    pub pointer_to_raw_data: u32,
}

/// The entries of a debug directory, one after the other.
#[derive(Debug, Copy, Clone)]
pub struct ImageDebugDirectoryIterator<'a> {
    data: &'a [u8],
    rva_offset: u32,
}

impl Iterator for ImageDebugDirectoryIterator<'_> {
    type Item = error::Result<ImageDebugDirectory>;

    fn next(&mut self) -> Option<Self::Item> {
        let mut walk = Some(raw::whole(self.data));
        let found = raw::step(&mut walk, |walk| raw::next_debug_entry(self.data, walk))?;
        self.data = raw::left(self.data, walk);
        Some(found.map(|it| ImageDebugDirectory {
            characteristics: it.characteristics,
            time_date_stamp: it.time_date_stamp,
            major_version: it.major_version,
            minor_version: it.minor_version,
            data_type: it.data_type,
            size_of_data: it.size_of_data,
            // In a TE image both count from the start of the headers that were stripped.
            address_of_raw_data: it.address_of_raw_data.wrapping_sub(self.rva_offset),
            pointer_to_raw_data: it.pointer_to_raw_data.wrapping_sub(self.rva_offset),
        }))
    }

    fn size_hint(&self) -> (usize, Option<usize>) {
        raw::items_left(self.data, IMAGE_DEBUG_DIRECTORY_SIZE)
    }
}

impl FusedIterator for ImageDebugDirectoryIterator<'_> {}
impl ExactSizeIterator for ImageDebugDirectoryIterator<'_> {}

impl ImageDebugDirectoryIterator<'_> {
    /// The first entry of a type, among those that are left.
    pub fn find_type(&self, data_type: u32) -> Option<ImageDebugDirectory> {
        self.filter_map(Result::ok).find(|it| it.data_type == data_type)
    }
}

/// The entries of a debug directory, and the records of six types.
#[derive(Debug, PartialEq, Clone, Default)]
pub struct DebugData<'a> {
    data: &'a [u8],
    rva_offset: u32,
    /// The CodeView record, if it is one of PDB 7.0.
    pub codeview_pdb70_debug_info: Option<CodeviewPDB70DebugInfo<'a>>,
    /// The CodeView record, if it is one of PDB 2.0.
    pub codeview_pdb20_debug_info: Option<CodeviewPDB20DebugInfo<'a>>,
    /// The record of VC features.
    pub vcfeature_info: Option<VCFeatureInfo>,
    /// The record of extended DLL characteristics.
    pub ex_dll_characteristics_info: Option<ExDllCharacteristicsInfo>,
    /// The record of a reproducible build.
    pub repro_info: Option<ReproInfo<'a>>,
    /// The POGO record: the parts that the linker joined.
    pub pogo_info: Option<POGOInfo<'a>>,
}

impl<'a> DebugData<'a> {
    /// The debug data of a directory in a file.
    pub fn parse(
        bytes: &'a [u8],
        dd: DataDirectory,
        sections: &[SectionTable],
        file_alignment: u32,
    ) -> error::Result<Self> {
        Self::parse_with_opts(bytes, dd, sections, file_alignment, &ParseOptions::default())
    }

    /// The debug data of a directory. Errors: `Malformed` where it is unmapped, in strict mode where it ends past the file, and
    /// those of the records.
    pub fn parse_with_opts(
        bytes: &'a [u8],
        dd: DataDirectory,
        sections: &[SectionTable],
        file_alignment: u32,
        opts: &ParseOptions,
    ) -> error::Result<Self> {
        Self::parse_with_opts_and_fixup(bytes, dd, sections, file_alignment, opts, 0)
    }

    /// The same of a TE image, whose entries count from the start of the headers that were stripped: by so many bytes more
    /// than the file's.
    pub fn parse_with_opts_and_fixup(
        bytes: &'a [u8],
        dd: DataDirectory,
        sections: &[SectionTable],
        file_alignment: u32,
        opts: &ParseOptions,
        rva_offset: u32,
    ) -> error::Result<Self> {
        let (info, sections) = (raw::image_with(Index::Debug, dd, file_alignment, opts), raw::sections_of(sections)?);
        let view = View::of(bytes, &info, &sections);
        Ok(Self::at(view, rva_offset)?.unwrap_or(DebugData { rva_offset, ..Default::default() }))
    }

    /// Of an image.
    pub(crate) fn of(view: View<'a, '_>) -> error::Result<Option<Self>> {
        Self::at(view, 0)
    }

    /// By the first entry of each type, whose records are read one by one; `None` without a directory.
    fn at(view: View<'a, '_>, rva_offset: u32) -> error::Result<Option<Self>> {
        let Some(range) = view.debug_entries().map_err(|it| directory_error(view, it))? else {
            return Ok(None);
        };
        let data = view.slice(range)?;
        let (bytes, mode, entries) = (view.bytes, view.info.mode, ImageDebugDirectoryIterator { data, rva_offset });
        let mut debug = DebugData { data, rva_offset, ..Default::default() };
        if let Some(entry) = &entries.find_type(IMAGE_DEBUG_TYPE_CODEVIEW) {
            debug.codeview_pdb70_debug_info = CodeviewPDB70DebugInfo::of(bytes, entry, mode)?;
            debug.codeview_pdb20_debug_info = CodeviewPDB20DebugInfo::of(bytes, entry, mode)?;
        }
        if let Some(entry) = &entries.find_type(IMAGE_DEBUG_TYPE_VC_FEATURE) {
            debug.vcfeature_info = Some(VCFeatureInfo::of(bytes, entry, mode)?);
        }
        if let Some(entry) = &entries.find_type(IMAGE_DEBUG_TYPE_EX_DLLCHARACTERISTICS) {
            debug.ex_dll_characteristics_info = Some(ExDllCharacteristicsInfo::of(bytes, entry, mode)?);
        }
        if let Some(entry) = &entries.find_type(IMAGE_DEBUG_TYPE_REPRO) {
            debug.repro_info = Some(ReproInfo::of(bytes, entry, mode)?);
        }
        if let Some(entry) = &entries.find_type(IMAGE_DEBUG_TYPE_POGO) {
            debug.pogo_info = POGOInfo::of(bytes, entry, mode)?;
        }
        Ok(Some(debug))
    }

    /// The GUID of the PDB file.
    pub fn guid(&self) -> Option<[u8; 16]> {
        self.codeview_pdb70_debug_info.map(|it| it.signature)
    }

    /// The first entry of a type.
    pub fn find_type(&self, data_type: u32) -> Option<ImageDebugDirectory> {
        self.entries().find_type(data_type)
    }

    /// The entries.
    pub fn entries(&self) -> ImageDebugDirectoryIterator<'a> {
        ImageDebugDirectoryIterator { data: self.data, rva_offset: self.rva_offset }
    }
}

/// The error of a directory, with goblin's text.
fn directory_error(view: View<'_, '_>, refusal: Refusal) -> error::Error {
    let DataDirectory { virtual_address, size } = view.directory(Index::Debug);
    match (refusal, view.offset(virtual_address)) {
        (Refusal::UNMAPPED, _) => {
            error::Error::Malformed(format!("Cannot map ImageDebugDirectory rva {virtual_address:#x} into offset"))
        }
        (Refusal::DEBUG_BOUNDS, Some(offset)) => error::Error::Malformed(format!(
            "ImageDebugDirectory offset {offset:#x} and size {size:#x} exceeds the bounds of the bytes size {:#x}. \
             This may indicate a packed binary.",
            view.bytes.len()
        )),
        (other, _) => other.into(),
    }
}

/// The error of a record, with goblin's text. The record's fields are read one after the other, of so many bytes each.
fn record_error(
    bytes: &[u8],
    entry: &ImageDebugDirectory,
    mode: u32,
    fields: &[usize],
    refusal: Refusal,
) -> error::Error {
    match refusal {
        Refusal::SHORT => raw::short(bytes, raw::place(entry, mode), fields),
        Refusal::DEBUG_DATA => error::Error::Malformed(format!("ImageDebugDirectory seems corrupted: {entry:?}")),
        Refusal::DEBUG_SIZE => {
            error::Error::Malformed(format!("ImageDebugDirectory size of data seems wrong: {:?}", entry.size_of_data))
        }
        other => other.into(),
    }
}

/// What a call returns of a type of records that each entry of the type has.
fn there<T>(found: Option<T>) -> error::Result<T> {
    Ok(found.ok_or(Refusal::SHORT)?)
}

/// The functions that read a record of an image, the second with its doc.
macro_rules! parse {
    ($(#[$doc:meta])* $result:ty) => {
        /// The record of an entry in a file.
        pub fn parse(bytes: &'a [u8], idd: &ImageDebugDirectory) -> error::Result<$result> {
            Self::parse_with_opts(bytes, idd, &ParseOptions::default())
        }

        $(#[$doc])*
        pub fn parse_with_opts(
            bytes: &'a [u8],
            idd: &ImageDebugDirectory,
            opts: &ParseOptions,
        ) -> error::Result<$result> {
            Self::of(bytes, idd, raw::mode_of(opts))
        }
    };
}

/// A CodeView record of PDB 7.0.
#[repr(C)]
#[derive(Debug, PartialEq, Copy, Clone, Default)]
pub struct CodeviewPDB70DebugInfo<'a> {
    /// [`CODEVIEW_PDB70_MAGIC`].
    pub codeview_signature: u32,
    /// The GUID as it is in the file: a little-endian u32, two u16, then 8 bytes.
    pub signature: [u8; 16],
    /// Grows by one each time the PDB is written.
    pub age: u32,
    /// The name of the PDB file, as a rule with a zero after it.
    pub filename: &'a [u8],
}

impl<'a> CodeviewPDB70DebugInfo<'a> {
    parse! {
        /// The record of an entry, or `None` where it is of another kind, and in permissive mode where it is too small. Errors:
        /// `Malformed` where it is too small or its name is truncated, `Scroll` where its fields are.
        Option<Self>
    }

    fn of(bytes: &'a [u8], entry: &ImageDebugDirectory, mode: u32) -> error::Result<Option<Self>> {
        let found = raw::symbol_key_of(bytes, mode, &raw::entry_of(entry));
        let found = found.map_err(|it| record_error(bytes, entry, mode, &[4, 16, 4], it))?;
        let made = found.map(|it| {
            Ok(CodeviewPDB70DebugInfo {
                codeview_signature: CODEVIEW_PDB70_MAGIC,
                signature: it.guid,
                age: it.age,
                filename: raw::slice(bytes, it.name)?,
            })
        });
        made.transpose()
    }
}

/// The record of VC features: the counts that `dumpbin /headers` shows.
#[repr(C)]
#[derive(Debug, PartialEq, Copy, Clone, Default)]
pub struct VCFeatureInfo {
    /// "Pre-VC++ 11.00".
    pub pre_vc_plusplus_count: u32,
    /// "C/C++".
    pub c_and_cplusplus_count: u32,
    /// "/GS".
    pub guard_stack_count: u32,
    /// "/sdl".
    pub sdl_count: u32,
    /// "guardN".
    pub guard_count: u32,
}

impl<'a> VCFeatureInfo {
    parse! {
        /// The record of an entry. Error: `Scroll` where it is truncated.
        Self
    }

    fn of(bytes: &[u8], entry: &ImageDebugDirectory, mode: u32) -> error::Result<Self> {
        let found = raw::vc_features_of(bytes, mode, &raw::entry_of(entry));
        let found = found.map_err(|it| record_error(bytes, entry, mode, &[4; 5], it))?;
        there(found.map(VCFeatureInfo::from))
    }
}

impl From<sys::VcFeatures> for VCFeatureInfo {
    fn from(it: sys::VcFeatures) -> Self {
        VCFeatureInfo {
            pre_vc_plusplus_count: it.pre_vc_plusplus_count,
            c_and_cplusplus_count: it.c_and_cplusplus_count,
            guard_stack_count: it.guard_stack_count,
            sdl_count: it.sdl_count,
            guard_count: it.guard_count,
        }
    }
}

/// A CodeView record of PDB 2.0.
#[repr(C)]
#[derive(Debug, PartialEq, Copy, Clone, Default)]
pub struct CodeviewPDB20DebugInfo<'a> {
    /// [`CODEVIEW_PDB20_MAGIC`].
    pub codeview_signature: u32,
    /// 0 where the symbols are in a file of their own.
    pub codeview_offset: u32,
    /// Time stamp of the PDB file, seconds since 1970.
    pub signature: u32,
    /// Grows by one each time the PDB is written.
    pub age: u32,
    /// The name of the PDB file, as a rule with a zero after it.
    pub filename: &'a [u8],
}

impl<'a> CodeviewPDB20DebugInfo<'a> {
    parse! {
        /// The record of an entry, or `None` where it is of another kind, and in permissive mode where it is too small. Errors:
        /// `Malformed` where it is too small or its name is truncated, `Scroll` where its fields are.
        Option<Self>
    }

    fn of(bytes: &'a [u8], entry: &ImageDebugDirectory, mode: u32) -> error::Result<Option<Self>> {
        let found = raw::pdb20_of(bytes, mode, &raw::entry_of(entry));
        let found = found.map_err(|it| record_error(bytes, entry, mode, &[4; 4], it))?;
        let made = found.map(|it| {
            Ok(CodeviewPDB20DebugInfo {
                codeview_signature: CODEVIEW_PDB20_MAGIC,
                codeview_offset: it.offset,
                signature: it.signature,
                age: it.age,
                filename: raw::slice(bytes, it.name)?,
            })
        });
        made.transpose()
    }
}

/// What marks a reproducible build.
#[derive(Debug, PartialEq, Copy, Clone)]
pub enum ReproInfo<'a> {
    /// The time stamp of the entry is the hash, as lld has it.
    TimeDateStamp(u32),
    /// The record has the hash, as Microsoft's linker has it.
    Buffer {
        /// Bytes of the hash.
        length: u32,
        /// The hash.
        buffer: &'a [u8],
    },
}

impl<'a> ReproInfo<'a> {
    parse! {
        /// The record of an entry. Errors: `Scroll` where its length is truncated, `Malformed` where its hash is.
        Self
    }

    fn of(bytes: &'a [u8], entry: &ImageDebugDirectory, mode: u32) -> error::Result<Self> {
        let found = raw::repro_of(bytes, mode, &raw::entry_of(entry));
        let it = there(found.map_err(|it| record_error(bytes, entry, mode, &[4], it))?)?;
        Ok(match it.has_hash {
            0 => Self::TimeDateStamp(entry.time_date_stamp),
            _ => Self::Buffer { length: raw::narrow(it.hash.length)?, buffer: raw::slice(bytes, it.hash)? },
        })
    }
}

/// The record of extended DLL characteristics.
#[repr(C)]
#[derive(Debug, PartialEq, Copy, Clone, Default)]
pub struct ExDllCharacteristicsInfo {
    /// `IMAGE_DLLCHARACTERISTICS_EX_` flags.
    pub characteristics_ex: u32,
}

impl<'a> ExDllCharacteristicsInfo {
    parse! {
        /// The record of an entry. Error: `Scroll` where it is truncated.
        Self
    }

    fn of(bytes: &[u8], entry: &ImageDebugDirectory, mode: u32) -> error::Result<Self> {
        let found = raw::characteristics_of(bytes, mode, &raw::entry_of(entry));
        let found = found.map_err(|it| record_error(bytes, entry, mode, &[4], it))?;
        Ok(ExDllCharacteristicsInfo { characteristics_ex: there(found)? })
    }
}

/// The POGO record: the parts that the linker joined, by profile where the build was guided by one.
#[repr(C)]
#[derive(Debug, PartialEq, Copy, Clone, Default)]
pub struct POGOInfo<'a> {
    /// [`IMAGE_DEBUG_POGO_SIGNATURE_LTCG`] or [`IMAGE_DEBUG_POGO_SIGNATURE_PGU`].
    pub signature: u32,
    /// The entries.
    pub data: &'a [u8],
}

/// A part that the linker joined.
#[derive(Debug, PartialEq, Copy, Clone, Default)]
pub struct POGOInfoEntry<'a> {
    /// RVA of the part.
    pub rva: u32,
    /// Bytes of the part.
    pub size: u32,
    /// The name of the part, with its final zero.
    pub name: &'a [u8],
}

/// The entries of a POGO record, one after the other.
#[derive(Debug, Copy, Clone)]
pub struct POGOEntryIterator<'a> {
    data: &'a [u8],
}

impl<'a> POGOInfo<'a> {
    parse! {
        /// The record of an entry, or `None` where its signature is another. Errors: `Scroll` where its signature is truncated,
        /// `Malformed` where it has no entries or they are truncated.
        Option<Self>
    }

    fn of(bytes: &'a [u8], entry: &ImageDebugDirectory, mode: u32) -> error::Result<Option<Self>> {
        let found = raw::pogo_of(bytes, mode, &raw::entry_of(entry));
        let found = found.map_err(|it| pogo_error(bytes, entry, mode, it))?;
        let made = found.map(|it| Ok(POGOInfo { signature: it.signature, data: raw::slice(bytes, it.entries)? }));
        made.transpose()
    }

    /// The entries.
    pub fn entries(&self) -> POGOEntryIterator<'a> {
        POGOEntryIterator { data: self.data }
    }
}

/// The error of a POGO record, with goblin's text.
fn pogo_error(bytes: &[u8], entry: &ImageDebugDirectory, mode: u32, refusal: Refusal) -> error::Error {
    let (start, size) = (raw::place(entry, mode), entry.size_of_data);
    match refusal {
        Refusal::POGO_SIZE => error::Error::Malformed(format!(
            "ImageDebugDirectory size_of_data {size:#x} is smaller or equal to POGO_SIGNATURE_SIZE \
             {POGO_SIGNATURE_SIZE:#x}"
        )),
        Refusal::DEBUG_DATA => error::Error::Malformed(format!(
            "ImageDebugDirectory offset_start {:#x} or offset_end {:#x} exceed the bounds of the bytes size {:#x}",
            start + POGO_SIGNATURE_SIZE,
            start + size as usize,
            bytes.len()
        )),
        other => record_error(bytes, entry, mode, &[POGO_SIGNATURE_SIZE], other),
    }
}

impl<'a> Iterator for POGOEntryIterator<'a> {
    type Item = error::Result<POGOInfoEntry<'a>>;

    fn next(&mut self) -> Option<Self::Item> {
        let data = self.data;
        let mut walk = raw::whole(data);
        let found = raw::next_pogo_entry(data, &mut walk).transpose()?;
        self.data = raw::left(data, found.is_ok().then_some(walk));
        Some(match found {
            Ok(it) => raw::slice(data, it.name).map(|name| POGOInfoEntry { rva: it.rva, size: it.size, name }),
            Err(_) => Err(raw::pogo_error(data)),
        })
    }
}

impl FusedIterator for POGOEntryIterator<'_> {}
