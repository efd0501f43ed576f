// Made by tools/make_sys of bindings/pe.h, which is the place to change.

//! The calls and records of `pe.h`, for callers that want no allocation at all. The docs are its comments.
//!
//! The head of `pe.h` has what its caller owes. In short: every pointer is valid for its type and its length, `out`, walks and
//! `room` overlap no other argument, and every value of every field is legal. A call returns [`DONE`] and fills `out`, or another
//! number and leaves it unchanged; the numbers of errors are those of [`Error`]. The types of the crate's root over records of
//! the same names lend what a range leads to.

#[cfg(doc)]
use crate::Error;

/// The call succeeded.
pub const DONE: u32 = 0;
/// There is nothing of the kind, or the walk is over.
pub const NOTHING: u32 = 100;
/// The array is too small.
pub const ROOM: u32 = 101;
/// Accepts what the head of pe.h lists; a mode without it is strict.
pub const PERMISSIVE: u32 = 1;
/// Added to a mode: the bytes are an image as loaded.
pub const MAPPED: u32 = 2;
/// By [`pe_c_overlay`].
pub const RANGE_OVERLAY: u32 = 1;
/// By [`pe_c_string_table`].
pub const RANGE_STRING_TABLE: u32 = 2;
/// By [`pe_c_debug_entries`].
pub const RANGE_DEBUG_ENTRIES: u32 = 3;
/// By [`pe_c_signature`].
pub const PART_SIGNATURE: u32 = 1;
/// By [`pe_c_algorithm_identifier`].
pub const PART_ALGORITHM: u32 = 2;
/// By [`pe_c_indirect_data`].
pub const PART_INDIRECT_DATA: u32 = 3;
/// By [`pe_c_image_data`].
pub const PART_IMAGE_DATA: u32 = 4;
/// By [`pe_c_signer`].
pub const PART_SIGNER: u32 = 5;
/// By [`pe_c_attribute`].
pub const PART_ATTRIBUTE: u32 = 6;
/// By [`pe_c_opus_info`].
pub const PART_OPUS_INFO: u32 = 7;
/// By [`pe_c_x509`].
pub const PART_X509: u32 = 8;
/// By [`pe_c_extension`].
pub const PART_EXTENSION: u32 = 9;
/// By [`pe_c_key_usage`].
pub const PART_KEY_USAGE: u32 = 10;
/// By [`pe_c_name`].
pub const PART_NAME: u32 = 11;
/// By [`pe_c_time`].
pub const PART_TIME: u32 = 12;
/// By [`pe_c_time_stamp`].
pub const PART_TIME_STAMP: u32 = 13;
/// By [`pe_c_certificate_failure`].
pub const FAILED_CERTIFICATE: u32 = 1;
/// By [`pe_c_relocation_block_failure`].
pub const FAILED_RELOCATION_BLOCK: u32 = 2;
/// By [`pe_c_relocation_failure`].
pub const FAILED_RELOCATION: u32 = 3;
/// By [`pe_c_bound_import_failure`].
pub const FAILED_BOUND_IMPORT: u32 = 4;
/// By [`pe_c_symbol_name_failure`].
pub const FAILED_SYMBOL_NAME: u32 = 5;
/// By [`pe_c_library_failure`].
pub const FAILED_LIBRARY: u32 = 6;
/// By [`pe_c_import_failure`].
pub const FAILED_IMPORT: u32 = 7;
/// By [`pe_c_resource_leaf_failure`].
pub const FAILED_RESOURCE_LEAF: u32 = 8;
/// By [`pe_c_arm64_record_failure`].
pub const FAILED_ARM64_RECORD: u32 = 9;
/// By [`pe_c_delay_import_failure`].
pub const FAILED_DELAY_IMPORT: u32 = 10;
/// By [`pe_c_delayed_function_failure`].
pub const FAILED_DELAYED_FUNCTION: u32 = 11;
/// By [`pe_c_directory_failure`].
pub const FAILED_DIRECTORY: u32 = 12;
/// By [`pe_c_image_failure`].
pub const FAILED_IMAGE: u32 = 13;
/// By [`pe_c_te_failure`].
pub const FAILED_TE: u32 = 14;
/// By [`pe_c_debug_failure`].
pub const FAILED_DEBUG_RECORD: u32 = 15;
/// By [`pe_c_sections_failure`].
pub const FAILED_SECTIONS: u32 = 16;
/// Threads.
pub const THREAD_LIST_STREAM: u32 = 3;
/// Modules.
pub const MODULE_LIST_STREAM: u32 = 4;
/// Pieces of memory.
pub const MEMORY_LIST_STREAM: u32 = 5;
/// The exception.
pub const EXCEPTION_STREAM: u32 = 6;
/// The system.
pub const SYSTEM_INFO_STREAM: u32 = 7;
/// Pieces of memory of a full dump.
pub const MEMORY64_LIST_STREAM: u32 = 9;
/// Handles.
pub const HANDLE_DATA_STREAM: u32 = 12;
/// Function tables of code that was made as the process ran, as bytes.
pub const FUNCTION_TABLE_STREAM: u32 = 13;
/// Modules that were unloaded.
pub const UNLOADED_MODULE_LIST_STREAM: u32 = 14;
/// The process.
pub const MISC_INFO_STREAM: u32 = 15;
/// Regions of memory.
pub const MEMORY_INFO_LIST_STREAM: u32 = 16;
/// More on threads.
pub const THREAD_INFO_LIST_STREAM: u32 = 17;
/// Names of threads.
pub const THREAD_NAMES_STREAM: u32 = 24;
/// No stream: what [`pe_c_dump_record`] takes for the entries of the directory.
pub const DUMP_ENTRIES: u32 = 0;

/// A range of the bytes of the image.
#[repr(C)]
#[derive(Clone, Copy, Debug, Default, PartialEq, Eq)]
#[cfg_attr(feature = "serde", derive(serde::Serialize))]
pub struct Range {
    /// From the start of the bytes.
    pub offset: u64,
    /// Bytes.
    pub length: u64,
}
const _: () = assert!(core::mem::size_of::<Range>() == 16);

/// A data directory.
///
/// Both fields are 0 where it is absent.
#[repr(C)]
#[derive(Clone, Copy, Debug, Default, PartialEq, Eq)]
#[cfg_attr(feature = "serde", derive(serde::Serialize))]
pub struct Directory {
    /// RVA; of the certificate table a file offset.
    pub virtual_address: u32,
    /// Bytes.
    pub size: u32,
}
const _: () = assert!(core::mem::size_of::<Directory>() == 8);

/// The headers of an image.
///
/// Without an optional header the numbers that it has are 0, and its directories are absent.
#[repr(C)]
#[derive(Clone, Copy, Debug, Default, PartialEq, Eq)]
#[cfg_attr(feature = "serde", derive(serde::Serialize))]
pub struct ImageInfo {
    /// ImageBase, the preferred virtual address of the image; add RVAs to it.
    pub base: u64,
    /// Offset of the section headers.
    pub sections_offset: u64,
    /// Offset of the field CheckSum, 4 bytes; 0 without an optional header.
    pub checksum_offset: u64,
    /// Offset of directory `PE_C_DIRECTORY_SECURITY`, 8 bytes; 0 without that entry.
    pub certificate_entry_offset: u64,
    /// RVA of the entry point.
    pub entry: u32,
    /// Bytes; a power of two, or no RVA of a file is mapped.
    pub file_alignment: u32,
    /// How the image is read: [`PERMISSIVE`], [`MAPPED`], both or 0, that of the call of [`pe_c_image`]. A caller may
    /// change it.
    pub mode: u32,
    /// Bytes: sections start at multiples of it in memory.
    pub section_alignment: u32,
    /// Bytes of the image in memory.
    pub size_of_image: u32,
    /// Bytes of the headers in the file, rounded up to the file alignment.
    pub size_of_headers: u32,
    /// CheckSum, as the file has it; 0 in most that are no drivers.
    pub checksum: u32,
    /// Seconds since 1970, or a hash in a reproducible build.
    pub time_date_stamp: u32,
    /// Those that the optional header has, at most 16; the others are absent.
    pub number_of_directories: u32,
    /// By their indices, `PE_C_DIRECTORY_EXPORT` and so on.
    pub directories: [Directory; 16],
    /// `IMAGE_FILE_MACHINE_AMD64` 0x8664, `_ARM64` 0xAA64, `_I386` 0x14C, or another.
    pub machine: u16,
    /// 64 for PE32+, 32 for PE32, 0 without an optional header.
    pub width: u16,
    /// The number of section headers.
    pub number_of_sections: u16,
    /// `IMAGE_FILE_` flags; `IMAGE_FILE_DLL` 0x2000.
    pub characteristics: u16,
    /// `IMAGE_SUBSYSTEM_`: 1 native, 2 Windows GUI, 3 Windows console, 10 EFI, or another.
    pub subsystem: u16,
    /// `IMAGE_DLLCHARACTERISTICS_` flags.
    pub dll_characteristics: u16,
}
const _: () = assert!(core::mem::size_of::<ImageInfo>() == 208);

/// A section header, `IMAGE_SECTION_HEADER`.
#[repr(C)]
#[derive(Clone, Copy, Default, PartialEq, Eq)]
#[cfg_attr(feature = "serde", derive(serde::Serialize))]
pub struct Section {
    /// Padded with zeros; a name of 8 bytes is not NUL-terminated.
    #[cfg_attr(feature = "serde", serde(serialize_with = "crate::serialized::name"))]
    pub name: [u8; 8],
    /// Bytes in memory.
    pub virtual_size: u32,
    /// RVA of its first byte.
    pub virtual_address: u32,
    /// Bytes in the file.
    pub size_of_raw_data: u32,
    /// File offset of its first byte.
    pub pointer_to_raw_data: u32,
    /// File offset; 0 in images.
    pub pointer_to_relocations: u32,
    /// File offset, or 0.
    pub pointer_to_linenumbers: u32,
    /// 0 in images.
    pub number_of_relocations: u16,
    /// The number of COFF line numbers.
    pub number_of_linenumbers: u16,
    /// `IMAGE_SCN_` flags.
    pub characteristics: u32,
}
const _: () = assert!(core::mem::size_of::<Section>() == 40);

/// An entry of an index of the sections, which [`pe_c_index`] makes, or of pieces of memory, which [`pe_c_memory_runs`]
/// makes on the way: the RVAs or addresses from `start` up to the start of the next entry.
#[repr(C)]
#[derive(Clone, Copy, Debug, Default, PartialEq, Eq)]
pub struct RangeEntry {
    /// The first one.
    pub start: u64,
    /// Index of the section or piece that has them, plus 1; 0 where none does.
    pub number: u64,
}
const _: () = assert!(core::mem::size_of::<RangeEntry>() == 16);

/// An image as calls take it: its bytes, what [`pe_c_image`] and [`pe_c_sections`] returned of them, and an index of
/// the sections or none.
///
/// A caller makes one view and passes it to all calls. Digests, certificates, edits, the string table and bound imports
/// need no sections: of these the view may have none.
#[repr(C)]
#[derive(Clone, Copy, Debug)]
pub struct View {
    /// The bytes of the image.
    pub bytes: *const u8,
    /// Of the bytes.
    pub length: usize,
    /// Its headers, which say how it is read; not NULL.
    pub image: *const ImageInfo,
    /// Its section headers.
    pub sections: *const Section,
    /// Of the sections.
    pub count: usize,
    /// What [`pe_c_index`] made of these sections; NULL for no index.
    pub index: *const RangeEntry,
    /// Of the index; 0 for no index, and then calls test the sections in turn.
    pub entries: usize,
}
const _: () = assert!(core::mem::size_of::<View>() == 56);

/// The sections of the last RVAs of a walk, which calls over exports, imports, delay imports, resources and the records
/// of a plan test before the others: the RVAs of a table mostly lie in one section or two.
///
/// `kept` of such a walk is all 0 at the start, and only these calls read and write it. Where a caller changes it and
/// sections overlap, they may return an offset by another section, and no other harm is done; a number past the last
/// section maps nothing.
#[repr(C)]
#[derive(Clone, Copy, Debug, Default, PartialEq, Eq)]
pub struct KeptSections {
    /// Index of a section plus 1; 0 for none, as at the start of a walk; 0xFFFFFFFF for none, and the walk keeps no
    /// more, where that of an RVA may share some with an earlier one.
    pub first: u32,
    /// The same of the one that was kept before it.
    pub second: u32,
}
const _: () = assert!(core::mem::size_of::<KeptSections>() == 8);

/// `IMAGE_DOS_HEADER`, in its layout.
///
/// Windows reads the first field and the last alone.
#[repr(C)]
#[derive(Clone, Copy, Debug, Default, PartialEq, Eq)]
#[cfg_attr(feature = "serde", derive(serde::Serialize))]
pub struct DosHeader {
    /// `e_magic`: 0x5A4D, "MZ".
    pub signature: u16,
    /// `e_cblp`.
    pub bytes_on_last_page: u16,
    /// `e_cp`: of 512 bytes.
    pub pages_in_file: u16,
    /// `e_crlc`: how many.
    pub relocations: u16,
    /// `e_cparhdr`: of 16 bytes.
    pub size_of_header_in_paragraphs: u16,
    /// `e_minalloc`.
    pub minimum_extra_paragraphs: u16,
    /// `e_maxalloc`.
    pub maximum_extra_paragraphs: u16,
    /// `e_ss`.
    pub initial_relative_ss: u16,
    /// `e_sp`.
    pub initial_sp: u16,
    /// `e_csum`.
    pub checksum: u16,
    /// `e_ip`.
    pub initial_ip: u16,
    /// `e_cs`.
    pub initial_relative_cs: u16,
    /// `e_lfarlc`: file offset of the relocations.
    pub relocations_offset: u16,
    /// `e_ovno`.
    pub overlay_number: u16,
    /// `e_res`.
    pub reserved: [u16; 4],
    /// `e_oemid`.
    pub oem_id: u16,
    /// `e_oeminfo`.
    pub oem_information: u16,
    /// `e_res2`.
    pub reserved2: [u16; 10],
    /// `e_lfanew`: file offset of the PE signature.
    pub pe_pointer: u32,
}
const _: () = assert!(core::mem::size_of::<DosHeader>() == 64);

/// `IMAGE_FILE_HEADER`.
#[repr(C)]
#[derive(Clone, Copy, Debug, Default, PartialEq, Eq)]
#[cfg_attr(feature = "serde", derive(serde::Serialize))]
pub struct CoffHeader {
    /// Seconds since 1970, or a hash in a reproducible build.
    pub time_date_stamp: u32,
    /// File offset of the COFF symbols, or 0.
    pub pointer_to_symbol_table: u32,
    /// Their entries of 18 bytes, auxiliary records included.
    pub number_of_symbol_table: u32,
    /// `IMAGE_FILE_MACHINE_`.
    pub machine: u16,
    /// The number of section headers.
    pub number_of_sections: u16,
    /// Bytes; 0 where there is no optional header.
    pub size_of_optional_header: u16,
    /// `IMAGE_FILE_` flags.
    pub characteristics: u16,
}
const _: () = assert!(core::mem::size_of::<CoffHeader>() == 20);

/// `IMAGE_OPTIONAL_HEADER32` or `IMAGE_OPTIONAL_HEADER64`.
#[repr(C)]
#[derive(Clone, Copy, Debug, Default, PartialEq, Eq)]
#[cfg_attr(feature = "serde", derive(serde::Serialize))]
pub struct OptionalHeader {
    /// Preferred virtual address of the image.
    pub image_base: u64,
    /// Bytes of the stack to reserve.
    pub size_of_stack_reserve: u64,
    /// Bytes of the stack to commit.
    pub size_of_stack_commit: u64,
    /// Bytes of the heap to reserve.
    pub size_of_heap_reserve: u64,
    /// Bytes of the heap to commit.
    pub size_of_heap_commit: u64,
    /// Bytes of all sections of code.
    pub size_of_code: u32,
    /// Bytes of all sections of initialized data.
    pub size_of_initialized_data: u32,
    /// Bytes of all sections of uninitialized data.
    pub size_of_uninitialized_data: u32,
    /// RVA, or 0.
    pub address_of_entry_point: u32,
    /// RVA.
    pub base_of_code: u32,
    /// RVA; 0 in PE32+, which has no such field.
    pub base_of_data: u32,
    /// Bytes.
    pub section_alignment: u32,
    /// Bytes.
    pub file_alignment: u32,
    /// Reserved.
    pub win32_version_value: u32,
    /// Bytes in memory.
    pub size_of_image: u32,
    /// Bytes in the file, rounded up to the file alignment.
    pub size_of_headers: u32,
    /// `CheckSum`, as the file has it.
    pub check_sum: u32,
    /// Reserved.
    pub loader_flags: u32,
    /// Directories, as the header says.
    pub number_of_rva_and_sizes: u32,
    /// Those of them that are kept, at most 16.
    pub number_of_directories: u32,
    /// 0x10B in PE32, 0x20B in PE32+.
    pub magic: u16,
    /// The major version of the operating system that is required.
    pub major_operating_system_version: u16,
    /// The minor version of the operating system that is required.
    pub minor_operating_system_version: u16,
    /// The major version of the image.
    pub major_image_version: u16,
    /// The minor version of the image.
    pub minor_image_version: u16,
    /// The major version of the subsystem.
    pub major_subsystem_version: u16,
    /// The minor version of the subsystem.
    pub minor_subsystem_version: u16,
    /// `IMAGE_SUBSYSTEM_`.
    pub subsystem: u16,
    /// `IMAGE_DLLCHARACTERISTICS_` flags.
    pub dll_characteristics: u16,
    /// The major version of the linker.
    pub major_linker_version: u8,
    /// The minor version of the linker.
    pub minor_linker_version: u8,
}
const _: () = assert!(core::mem::size_of::<OptionalHeader>() == 120);

/// All numbers of the headers of an image.
///
/// Without an optional header its numbers and both offsets are 0, and all directories are absent.
#[repr(C)]
#[derive(Clone, Copy, Debug, Default, PartialEq, Eq)]
#[cfg_attr(feature = "serde", derive(serde::Serialize))]
#[non_exhaustive]
pub struct Headers {
    /// The optional header.
    pub optional: OptionalHeader,
    /// Between the DOS header and the PE signature; no bytes where these overlap.
    pub dos_stub: Range,
    /// Offset of the optional header.
    pub optional_offset: u64,
    /// Offset of the data directories, 8 bytes each.
    pub directories_offset: u64,
    /// The DOS header.
    pub dos: DosHeader,
    /// The COFF header.
    pub coff: CoffHeader,
    /// 0x4550, "PE".
    pub signature: u32,
    /// By their indices; absent from `number_of_directories` on.
    pub directories: [Directory; 16],
}
const _: () = assert!(core::mem::size_of::<Headers>() == 368);

/// A COFF symbol, `IMAGE_SYMBOL`, with what its entry says of others.
#[repr(C)]
#[derive(Clone, Copy, Default, PartialEq, Eq)]
#[cfg_attr(feature = "serde", derive(serde::Serialize))]
pub struct SymbolEntry {
    /// Its auxiliary records, 18 bytes each, up to the end of the table.
    pub auxiliary: Range,
    /// Index of its entry in the table; auxiliary records count.
    pub index: u64,
    /// Padded with zeros; or 4 zeros, and the offset of a longer name in the string table.
    #[cfg_attr(feature = "serde", serde(serialize_with = "crate::serialized::name"))]
    pub name: [u8; 8],
    /// By the storage class, for instance an offset in the section.
    pub value: u32,
    /// Offset of the name in the string table, from its size field; 0 where `name` has it.
    pub string_offset: u32,
    /// From 1; 0 `IMAGE_SYM_UNDEFINED`, -1 `_ABSOLUTE`, -2 `_DEBUG`.
    pub section_number: i16,
    /// `IMAGE_SYM_TYPE_` and `IMAGE_SYM_DTYPE_`.
    pub kind: u16,
    /// `IMAGE_SYM_CLASS_`.
    pub storage_class: u8,
    /// Auxiliary records that follow.
    pub number_of_aux_symbols: u8,
    /// 0
    #[cfg_attr(feature = "serde", serde(skip))]
    pub spare: u16,
}
const _: () = assert!(core::mem::size_of::<SymbolEntry>() == 48);

/// A walk over symbols, which skips auxiliary records.
#[repr(C)]
#[derive(Clone, Copy, Debug, Default, PartialEq, Eq)]
pub struct SymbolWalk {
    /// The symbol table.
    pub table: Range,
    /// The index of the next symbol's entry.
    pub next: u64,
}
const _: () = assert!(core::mem::size_of::<SymbolWalk>() == 24);

/// The Rich header.
#[repr(C)]
#[derive(Clone, Copy, Debug, Default, PartialEq, Eq)]
pub struct RichHeader {
    /// 8 bytes each, XORed with the key; a walk through them.
    pub entries: Range,
    /// How many entries there are.
    pub count: u64,
    /// What the header is XORed with.
    pub key: u32,
    /// Of the DOS header, the DOS stub and the entries: the linker takes it as the key.
    pub checksum: u32,
    /// 1 where they are equal, so that nobody changed what the checksum covers; else 0.
    pub key_is_checksum: u32,
    /// 0
    pub spare: u32,
}
const _: () = assert!(core::mem::size_of::<RichHeader>() == 40);

/// An entry of a Rich header.
#[repr(C)]
#[derive(Clone, Copy, Debug, Default, PartialEq, Eq)]
#[cfg_attr(feature = "serde", derive(serde::Serialize))]
pub struct RichEntry {
    /// The build of the tool.
    pub build: u16,
    /// Which tool it is.
    pub product: u16,
    /// How many objects it made.
    pub count: u32,
}
const _: () = assert!(core::mem::size_of::<RichEntry>() == 8);

/// An entry of the debug directory, `IMAGE_DEBUG_DIRECTORY`.
#[repr(C)]
#[derive(Clone, Copy, Debug, Default, PartialEq, Eq)]
#[cfg_attr(feature = "serde", derive(serde::Serialize))]
pub struct DebugEntry {
    /// Reserved.
    pub characteristics: u32,
    /// Seconds since 1970, or a hash in a reproducible build.
    pub time_date_stamp: u32,
    /// Of the record's format.
    pub major_version: u16,
    /// Of the record's format.
    pub minor_version: u16,
    /// `IMAGE_DEBUG_TYPE_CODEVIEW` 2, `_VC_FEATURE` 12, `_POGO` 13, `_REPRO` 16, `_EMBEDDEDPORTABLEPDB` 17,
    /// `_PDBCHECKSUM` 19, `_EX_DLLCHARACTERISTICS` 20, or another.
    pub data_type: u32,
    /// Bytes of the record.
    pub size_of_data: u32,
    /// RVA of the record, or 0; in an image as loaded the library reads it there.
    pub address_of_raw_data: u32,
    /// File offset of the record; in a file the library reads it there.
    pub pointer_to_raw_data: u32,
}
const _: () = assert!(core::mem::size_of::<DebugEntry>() == 28);

/// A CodeView record of PDB 7.0 ("RSDS"): a symbol server files the PDB under its name, GUID and age.
#[repr(C)]
#[derive(Clone, Copy, Debug, Default, PartialEq, Eq)]
pub struct Key {
    /// As in the file: little-endian u32, u16, u16, then 8 bytes.
    pub guid: [u8; 16],
    /// Grows by one each time the PDB is written.
    pub age: u32,
    /// 0
    pub spare: u32,
    /// The rest of the record: the PDB file's name, as a rule with a zero after it.
    pub name: Range,
}
const _: () = assert!(core::mem::size_of::<Key>() == 40);

/// A CodeView record of PDB 2.0 ("NB10").
#[repr(C)]
#[derive(Clone, Copy, Debug, Default, PartialEq, Eq)]
pub struct Pdb20 {
    /// The rest of the record: the PDB file's name, as a rule with a zero after it.
    pub name: Range,
    /// 0 where the symbols are in a file of their own.
    pub offset: u32,
    /// Time stamp of the PDB, seconds since 1970.
    pub signature: u32,
    /// Grows by one each time the PDB is written.
    pub age: u32,
    /// 0
    pub spare: u32,
}
const _: () = assert!(core::mem::size_of::<Pdb20>() == 32);

/// VC features: the counts that dumpbin /headers shows.
#[repr(C)]
#[derive(Clone, Copy, Debug, Default, PartialEq, Eq)]
#[cfg_attr(feature = "serde", derive(serde::Serialize))]
pub struct VcFeatures {
    /// "Pre-VC++ 11.00".
    pub pre_vc_plusplus_count: u32,
    /// "C/C++".
    pub c_and_cplusplus_count: u32,
    /// "/GS".
    pub guard_stack_count: u32,
    /// "/sdl".
    pub sdl_count: u32,
    /// "guardN".
    pub guard_count: u32,
}
const _: () = assert!(core::mem::size_of::<VcFeatures>() == 20);

/// Repro: the same sources build the same image.
#[repr(C)]
#[derive(Clone, Copy, Debug, Default, PartialEq, Eq)]
pub struct Repro {
    /// Empty unless `has_hash`.
    pub hash: Range,
    /// 1; or 0, and the image's time stamps are a hash.
    pub has_hash: u32,
    /// 0
    pub spare: u32,
}
const _: () = assert!(core::mem::size_of::<Repro>() == 24);

/// POGO: the parts of the image's sections, such as ".text$mn".
#[repr(C)]
#[derive(Clone, Copy, Debug, Default, PartialEq, Eq)]
pub struct Pogo {
    /// A walk for [`pe_c_next_pogo_entry`], at its start.
    pub entries: Range,
    /// 0x4C544347 (LTCG) or 0x50475500 (PGU).
    pub signature: u32,
    /// 0
    pub spare: u32,
}
const _: () = assert!(core::mem::size_of::<Pogo>() == 24);

/// An entry of a POGO record.
#[repr(C)]
#[derive(Clone, Copy, Debug, Default, PartialEq, Eq)]
pub struct PogoEntry {
    /// With its final zero.
    pub name: Range,
    /// RVA of the part.
    pub rva: u32,
    /// Bytes of the part.
    pub size: u32,
}
const _: () = assert!(core::mem::size_of::<PogoEntry>() == 24);

/// A portable PDB in the image itself, of .NET.
#[repr(C)]
#[derive(Clone, Copy, Debug, Default, PartialEq, Eq)]
pub struct EmbeddedPdb {
    /// Raw Deflate data.
    pub compressed: Range,
    /// Bytes of the PDB, as the record states it.
    pub uncompressed_size: u32,
    /// 0
    pub spare: u32,
}
const _: () = assert!(core::mem::size_of::<EmbeddedPdb>() == 24);

/// A checksum of the PDB file, of .NET: of its bytes with zeros in place of the PDB's id.
#[repr(C)]
#[derive(Clone, Copy, Debug, Default, PartialEq, Eq)]
pub struct PdbChecksum {
    /// The name of the algorithm, as "SHA256", not NUL-terminated.
    pub algorithm: Range,
    /// The rest of the record.
    pub checksum: Range,
}
const _: () = assert!(core::mem::size_of::<PdbChecksum>() == 32);

/// Debug records, each with its own result: [`DONE`], and then the record is here; [`NOTHING`] or an error, and then it
/// is as it was.
///
/// [`NOTHING`] also where no entry of its type is read.
#[repr(C)]
#[derive(Clone, Copy, Debug, Default, PartialEq, Eq)]
pub struct DebugRecords {
    /// The CodeView record, if it is one of PDB 7.0.
    pub key: Key,
    /// The CodeView record, if it is one of PDB 2.0.
    pub pdb20: Pdb20,
    /// The Repro record.
    pub repro: Repro,
    /// The POGO record, if it has one of the two signatures.
    pub pogo: Pogo,
    /// The portable PDB in the image.
    pub embedded: EmbeddedPdb,
    /// The checksum of the PDB file.
    pub checksum: PdbChecksum,
    /// The record of VC features.
    pub features: VcFeatures,
    /// Extended DLL characteristics, `IMAGE_DLLCHARACTERISTICS_EX_` flags.
    pub characteristics: u32,
    /// Of each of these fields its result.
    pub key_result: u32,
    /// Of each of these fields its result.
    pub pdb20_result: u32,
    /// Of each of these fields its result.
    pub repro_result: u32,
    /// Of each of these fields its result.
    pub pogo_result: u32,
    /// Of these too.
    pub embedded_result: u32,
    /// Of these too.
    pub checksum_result: u32,
    /// Of these too.
    pub features_result: u32,
    /// Of these too.
    pub characteristics_result: u32,
}
const _: () = assert!(core::mem::size_of::<DebugRecords>() == 232);

/// The header of a TE image, `EFI_TE_IMAGE_HEADER`.
///
/// Its RVAs are reduced by `rva_offset`.
#[repr(C)]
#[derive(Clone, Copy, Debug, Default, PartialEq, Eq)]
#[cfg_attr(feature = "serde", derive(serde::Serialize))]
pub struct TeHeader {
    /// Preferred virtual address of the image.
    pub image_base: u64,
    /// RVA of the entry point.
    pub entry_point: u32,
    /// RVA of the code.
    pub base_of_code: u32,
    /// The base relocations; the RVA is reduced where it is absent too.
    pub reloc_dir: Directory,
    /// The debug directory; both fields are 0 where it is absent.
    pub debug_dir: Directory,
    /// How many bytes the file is shorter: `stripped_size` less 40.
    pub rva_offset: u32,
    /// 0x5A56, "VZ".
    pub signature: u16,
    /// `IMAGE_FILE_MACHINE_`.
    pub machine: u16,
    /// Bytes of headers that were stripped.
    pub stripped_size: u16,
    /// The number of section headers.
    pub number_of_sections: u8,
    /// `IMAGE_SUBSYSTEM_`.
    pub subsystem: u8,
    /// 0
    #[cfg_attr(feature = "serde", serde(skip))]
    pub spare: u32,
}
const _: () = assert!(core::mem::size_of::<TeHeader>() == 48);

/// What is wrong with headers, with a directory or with an item of a walk.
///
/// A number that the error does not have here is 0.
#[repr(C)]
#[derive(Clone, Copy, Debug, Default, PartialEq, Eq)]
pub struct Failure {
    /// Offset, from the start of the bytes unless the call says otherwise, of what is truncated or refused, or where it
    /// ends after the bytes that hold it.
    pub offset: u64,
    /// Bytes that are needed.
    pub needed: u64,
    /// The number that is refused: a magic number, an RVA, a size.
    pub value: u64,
    /// The error.
    pub result: u32,
    /// 0
    pub spare: u32,
}
const _: () = assert!(core::mem::size_of::<Failure>() == 32);

/// An attribute certificate, `WIN_CERTIFICATE`.
#[repr(C)]
#[derive(Clone, Copy, Debug, Default, PartialEq, Eq)]
pub struct Certificate {
    /// What follows the header of 8 bytes.
    pub body: Range,
    /// dwLength: bytes of header and body.
    pub length: u32,
    /// `WIN_CERT_REVISION_1_0` 0x100 or `_2_0` 0x200.
    pub revision: u16,
    /// `WIN_CERT_TYPE_X509` 1, `_PKCS_SIGNED_DATA` 2, `_RESERVED_1` 3, `_TS_STACK_SIGNED` 4.
    pub kind: u16,
}
const _: () = assert!(core::mem::size_of::<Certificate>() == 24);

/// Why an element is refused.
#[repr(C)]
#[derive(Clone, Copy, Debug, Default, PartialEq, Eq)]
pub struct SignatureFailure {
    /// Of the element, or of the range that is not inside the bytes.
    pub offset: u64,
    /// `_TAG`: the tag that is there; `_LENGTH_OCTETS`: octets of the length after its first; `_PAST_PARENT`: bytes of
    /// the content; [`Error::SHORT`]: bytes of the range; else 0.
    pub value: u64,
    /// `_TRUNCATED`, `_PAST_PARENT`: bytes that the parent has left; `_TRAILING`: bytes that follow; else 0.
    pub left: u64,
    /// `_TAG`: the tag that the grammar has there; else 0.
    pub expected: u32,
    /// What the call returned.
    pub result: u32,
}
const _: () = assert!(core::mem::size_of::<SignatureFailure>() == 32);

/// An object identifier.
#[repr(C)]
#[derive(Clone, Copy, Debug, Default, PartialEq, Eq)]
pub struct Oid {
    /// Its content.
    pub octets: Range,
    /// `PE_C_OID_`, of the group that the field has.
    pub id: u32,
    /// 0
    pub spare: u32,
}
const _: () = assert!(core::mem::size_of::<Oid>() == 24);

/// An algorithm, AlgorithmIdentifier.
#[repr(C)]
#[derive(Clone, Copy, Debug, Default, PartialEq, Eq)]
pub struct Algorithm {
    /// Of algorithms.
    pub oid: Oid,
    /// Whole.
    pub parameters: Range,
}
const _: () = assert!(core::mem::size_of::<Algorithm>() == 40);

/// An element of DER.
#[repr(C)]
#[derive(Clone, Copy, Debug, Default, PartialEq, Eq)]
pub struct DerElement {
    /// All octets: tag, length and content.
    pub whole: Range,
    /// The content.
    pub content: Range,
    /// The identifier octet, such as 0x30 for a SEQUENCE, 4 for an OCTET STRING.
    pub tag: u32,
    /// 0
    pub spare: u32,
}
const _: () = assert!(core::mem::size_of::<DerElement>() == 40);

/// A signature: ContentInfo, SignedData, EncapsulatedContentInfo.
#[repr(C)]
#[derive(Clone, Copy, Debug, Default, PartialEq, Eq)]
pub struct SignedData {
    /// Of what is signed, by content types.
    pub content_type: Oid,
    /// An INTEGER, which is 1 in Authenticode.
    pub version: Range,
    /// A walk for [`pe_c_next_element`], each for [`pe_c_algorithm_identifier`].
    pub digest_algorithms: Range,
    /// What is signed, whole: for [`pe_c_indirect_data`], or in a time stamp for [`pe_c_time_stamp`].
    pub content: Range,
    /// What messageDigest is the digest of: the content of `content`.
    pub digested: Range,
    /// A walk, each for [`pe_c_x509`].
    pub certificates: Range,
    /// A walk over certificate revocation lists.
    pub crls: Range,
    /// A walk, each for [`pe_c_signer`].
    pub signers: Range,
    /// 1 where what is signed is there, 0 where it is detached.
    pub has_content: u32,
    /// 0
    pub spare: u32,
}
const _: () = assert!(core::mem::size_of::<SignedData>() == 144);

/// What Authenticode signs, SpcIndirectDataContent.
#[repr(C)]
#[derive(Clone, Copy, Debug, Default, PartialEq, Eq)]
pub struct SpcIndirectData {
    /// By content types; of an image `PE_C_OID_SPC_PE_IMAGE_DATA`.
    pub value_type: Oid,
    /// Whole; of an image for [`pe_c_image_data`].
    pub value: Range,
    /// Of the digest.
    pub digest_algorithm: Algorithm,
    /// Of what [`pe_c_digest_ranges`] says.
    pub digest: Range,
}
const _: () = assert!(core::mem::size_of::<SpcIndirectData>() == 96);

/// What a signature says of an image as a file, SpcPeImageData.
#[repr(C)]
#[derive(Clone, Copy, Debug, Default, PartialEq, Eq)]
pub struct SpcPeImageData {
    /// A BIT STRING, not used.
    pub flags: Range,
    /// Whole: \[2\] with the text \<\<\<Obsolete>>>, or \[1\] with page hashes.
    pub file: Range,
}
const _: () = assert!(core::mem::size_of::<SpcPeImageData>() == 32);

/// A signer, SignerInfo.
///
/// Its certificate is the one with this issuer and serial number. Its signature is over the octet `signed_first` and
/// the bytes of `signed_rest`; without signed attributes over what is signed, the field `digested`.
#[repr(C)]
#[derive(Clone, Copy, Debug, Default, PartialEq, Eq)]
pub struct SignerInfo {
    /// An INTEGER, which is 1 with an issuer and a serial number.
    pub version: Range,
    /// Whole, for [`pe_c_name`].
    pub issuer: Range,
    /// Serial number, an INTEGER: two's complement, the high byte first.
    pub serial: Range,
    /// Of the certificate, where there is no issuer.
    pub key_identifier: Range,
    /// Of `messageDigest`, and of what is signed.
    pub digest_algorithm: Algorithm,
    /// A walk for [`pe_c_next_element`], each for [`pe_c_attribute`].
    pub signed_attributes: Range,
    /// The octets of the signed attributes after their tag.
    pub signed_rest: Range,
    /// Of the signature.
    pub signature_algorithm: Algorithm,
    /// The signature.
    pub signature: Range,
    /// A walk, each for [`pe_c_attribute`].
    pub unsigned_attributes: Range,
    /// 1 where there are signed attributes, else 0.
    pub has_signed_attributes: u32,
    /// 0x31, the tag of a SET, in place of their own tag; 0 without them.
    pub signed_first: u32,
}
const _: () = assert!(core::mem::size_of::<SignerInfo>() == 216);

/// An attribute of a signer.
///
/// Its values are a walk for [`pe_c_next_element`], mostly of one:
///
/// ```text
/// PE_C_OID_MESSAGE_DIGEST      an OCTET STRING, whose content is the digest
/// PE_C_OID_SIGNING_TIME        for pe_c_time
/// PE_C_OID_SPC_SP_OPUS_INFO    for pe_c_opus_info
/// PE_C_OID_COUNTER_SIGNATURE   for pe_c_signer: its messageDigest is the digest of the signature of this signer
/// PE_C_OID_TIME_STAMP_TOKEN    for pe_c_signature, whose content is for pe_c_time_stamp
/// PE_C_OID_NESTED_SIGNATURE    each for pe_c_signature
/// ```
#[repr(C)]
#[derive(Clone, Copy, Debug, Default, PartialEq, Eq)]
pub struct SignerAttribute {
    /// By attributes.
    pub kind: Oid,
    /// A walk over its values.
    pub values: Range,
}
const _: () = assert!(core::mem::size_of::<SignerAttribute>() == 40);

/// What a signer says of the program, SpcSpOpusInfo.
#[repr(C)]
#[derive(Clone, Copy, Debug, Default, PartialEq, Eq)]
pub struct SpcOpusInfo {
    /// The name of the program.
    pub program_name: Range,
    /// Where more is said.
    pub more_info: Range,
    /// 0x80 for UTF-16, the high byte first; 0x81 for ASCII; 0 without a name.
    pub program_name_tag: u32,
    /// 0x80 for a URL in ASCII; 0xA1 for an object, 0xA2 for a file; 0 without one.
    pub more_info_tag: u32,
}
const _: () = assert!(core::mem::size_of::<SpcOpusInfo>() == 40);

/// A certificate of X.509, of those in a signature.
///
/// The issuer's signature is over the bytes of `to_be_signed`.
#[repr(C)]
#[derive(Clone, Copy, Debug, Default, PartialEq, Eq)]
pub struct X509Certificate {
    /// Whole.
    pub to_be_signed: Range,
    /// Serial number, an INTEGER: two's complement, the high byte first.
    pub serial: Range,
    /// Whole, for [`pe_c_name`].
    pub issuer: Range,
    /// Whole, for [`pe_c_name`].
    pub subject: Range,
    /// The first time when it is valid: whole, for [`pe_c_time`].
    pub not_before: Range,
    /// The last one: whole, for [`pe_c_time`].
    pub not_after: Range,
    /// Whole: SubjectPublicKeyInfo.
    pub public_key: Range,
    /// A walk for [`pe_c_next_element`], each for [`pe_c_extension`].
    pub extensions: Range,
    /// Of the signature.
    pub signature_algorithm: Algorithm,
    /// The bits of the BIT STRING, without the octet before them.
    pub signature: Range,
}
const _: () = assert!(core::mem::size_of::<X509Certificate>() == 184);

/// An extension of a certificate.
#[repr(C)]
#[derive(Clone, Copy, Debug, Default, PartialEq, Eq)]
pub struct X509Extension {
    /// By extensions.
    pub kind: Oid,
    /// The content of its OCTET STRING: an element.
    pub value: Range,
    /// 1 where it is critical, else 0.
    pub critical: u32,
    /// 0
    pub spare: u32,
}
const _: () = assert!(core::mem::size_of::<X509Extension>() == 48);

/// A walk over the attributes of a name.
#[repr(C)]
#[derive(Clone, Copy, Debug, Default, PartialEq, Eq)]
pub struct NameWalk {
    /// The bytes of the name that are left.
    pub left: Range,
    /// Where the relative distinguished name ends that is read.
    pub rdn_end: u64,
}
const _: () = assert!(core::mem::size_of::<NameWalk>() == 24);

/// An attribute of a name.
#[repr(C)]
#[derive(Clone, Copy, Debug, Default, PartialEq, Eq)]
pub struct NameAttribute {
    /// By attributes of names.
    pub kind: Oid,
    /// The content of the value.
    pub value: Range,
    /// Of the value: PrintableString 0x13, UTF8String 0x0C, IA5String 0x16, BMPString 0x1E, ..
    pub tag: u32,
    /// 1 where it is the first of its relative distinguished name, else 0.
    pub starts_rdn: u32,
}
const _: () = assert!(core::mem::size_of::<NameAttribute>() == 48);

/// A time in UTC.
#[repr(C)]
#[derive(Clone, Copy, Debug, Default, PartialEq, Eq)]
pub struct UtcTime {
    /// 0 to 9999.
    pub year: u32,
    /// 1 to 12.
    pub month: u32,
    /// 1 to 31; that a month has fewer days is not tested.
    pub day: u32,
    /// 0 to 23.
    pub hour: u32,
    /// 0 to 59.
    pub minute: u32,
    /// 0 to 59; a fraction is left out. A time stamp may have one; that a certificate and a signing time have none (RFC
    /// 5280, RFC 5652) is not tested.
    pub second: u32,
}
const _: () = assert!(core::mem::size_of::<UtcTime>() == 24);

/// What a time-stamp token says, TSTInfo.
#[repr(C)]
#[derive(Clone, Copy, Debug, Default, PartialEq, Eq)]
pub struct TstInfo {
    /// An INTEGER, which is 1.
    pub version: Range,
    /// The policy, an object identifier.
    pub policy: Range,
    /// Of the digest.
    pub digest_algorithm: Algorithm,
    /// Of the signature that is stamped, the field `signature` of its signer.
    pub digest: Range,
    /// Serial number of the token, an INTEGER.
    pub serial: Range,
    /// Whole, for [`pe_c_time`].
    pub time: Range,
    /// How exact the time is: whole.
    pub accuracy: Range,
    /// The number of who asked, an INTEGER.
    pub nonce: Range,
    /// Who stamps, a GeneralName.
    pub authority: Range,
}
const _: () = assert!(core::mem::size_of::<TstInfo>() == 168);

/// A part of any kind: [`pe_c_signature_part`] writes the field of one kind.
#[repr(C)]
#[derive(Clone, Copy, Debug, Default, PartialEq, Eq)]
pub struct AnyPart {
    /// [`PART_SIGNATURE`].
    pub signature: SignedData,
    /// [`PART_ALGORITHM`].
    pub algorithm: Algorithm,
    /// [`PART_INDIRECT_DATA`].
    pub indirect_data: SpcIndirectData,
    /// [`PART_IMAGE_DATA`].
    pub image_data: SpcPeImageData,
    /// [`PART_SIGNER`].
    pub signer: SignerInfo,
    /// [`PART_ATTRIBUTE`].
    pub attribute: SignerAttribute,
    /// [`PART_OPUS_INFO`].
    pub opus_info: SpcOpusInfo,
    /// [`PART_X509`].
    pub x509: X509Certificate,
    /// [`PART_EXTENSION`].
    pub extension: X509Extension,
    /// [`PART_NAME`].
    pub name: NameWalk,
    /// [`PART_TIME`].
    pub time: UtcTime,
    /// [`PART_TIME_STAMP`].
    pub time_stamp: TstInfo,
    /// [`PART_KEY_USAGE`].
    pub key_usage: u32,
    /// Is never written.
    pub spare: u32,
}
const _: () = assert!(core::mem::size_of::<AnyPart>() == 1064);

/// What an Authenticode digest covers: hash the ranges in their order, and then so many zeros.
#[repr(C)]
#[derive(Clone, Copy, Debug, Default, PartialEq, Eq)]
pub struct Digest {
    /// In the order of the file; those that are not needed are at the end, and empty.
    pub ranges: [Range; 4],
    /// 0 to 7.
    pub zeros: u64,
}
const _: () = assert!(core::mem::size_of::<Digest>() == 72);

/// The checksum that an image should have.
///
/// Windows tests it for drivers and boot files.
#[repr(C)]
#[derive(Clone, Copy, Debug, Default, PartialEq, Eq)]
pub struct ChecksumField {
    /// File offset of the field that holds it, 4 bytes, little-endian.
    pub offset: u64,
    /// What the field has to hold; what it holds makes no difference.
    pub value: u32,
    /// 0
    pub spare: u32,
}
const _: () = assert!(core::mem::size_of::<ChecksumField>() == 16);

/// An entry of the x64 function table, `RUNTIME_FUNCTION`.
#[repr(C)]
#[derive(Clone, Copy, Debug, Default, PartialEq, Eq)]
#[cfg_attr(feature = "serde", derive(serde::Serialize))]
pub struct Function {
    /// RVA of its first byte.
    pub begin: u32,
    /// RVA after its last byte.
    pub end: u32,
    /// RVA of its unwind record; an odd one is a link: the RVA of another entry, plus 1.
    pub unwind: u32,
}
const _: () = assert!(core::mem::size_of::<Function>() == 12);

/// A walk over x64 unwind codes.
#[repr(C)]
#[derive(Clone, Copy, Debug, Default, PartialEq, Eq)]
pub struct Walk {
    /// The code bytes that are left, 2 for each slot.
    pub left: Range,
    /// Of the unwind record, 1 or 2.
    pub version: u8,
    /// Its number, as in [`Code::operand`]; 0 without one.
    pub frame_register: u8,
    /// 0
    pub spare: [u8; 6],
}
const _: () = assert!(core::mem::size_of::<Walk>() == 24);

/// An x64 unwind record, `UNWIND_INFO`.
#[repr(C)]
#[derive(Clone, Copy, Debug, Default, PartialEq, Eq)]
pub struct Record {
    /// A walk for [`pe_c_next_code`], at its start.
    pub codes: Walk,
    /// What follows the handler's RVA, up to the end of the file; empty without a handler.
    pub handler_data: Range,
    /// RVA of the handler, or 0.
    pub handler: u32,
    /// The function whose record continues this one; 0 unless `is_chained`.
    pub chained: Function,
    /// 1 or 0.
    pub is_chained: u32,
    /// Bytes: subtract them from the frame register to get the base of saves.
    pub frame_register_offset: u32,
    /// Bytes.
    pub size_of_prolog: u8,
    /// 0 none, 1 exception handler (also with both flags), 2 termination handler.
    pub handler_kind: u8,
    /// 0
    pub spare: [u8; 6],
}
const _: () = assert!(core::mem::size_of::<Record>() == 72);

/// An x64 unwind code, `UNWIND_CODE`.
#[repr(C)]
#[derive(Clone, Copy, Debug, Default, PartialEq, Eq)]
pub struct Code {
    /// Bytes from the start of the prolog to the end of the instruction; undo the code at this offset and after it.
    pub code_offset: u8,
    /// `PE_C_PUSH` .. `PE_C_NOOP`.
    pub operation: u8,
    /// A register: 0 to 15 rax, rcx, rdx, rbx, rsp, rbp, rsi, rdi, r8 .. r15; 17 to 32 xmm0 .. xmm15; or as the
    /// operation says; else 0.
    pub operand: u8,
    /// 1: once `PE_C_SET_FRAME` has run, `value` counts from the frame register minus `frame_register_offset`. Before
    /// that, and if this is 0, it counts from rsp.
    pub from_frame: u8,
    /// Bytes, or as the operation says; else 0.
    pub value: u32,
}
const _: () = assert!(core::mem::size_of::<Code>() == 8);

/// How codes are read: two fields of their unwind record, for [`pe_c_all_codes`].
#[repr(C)]
#[derive(Clone, Copy, Debug, Default, PartialEq, Eq)]
pub struct CodeForm {
    /// Of the record, 1 or 2.
    pub version: u8,
    /// Number of the frame register; 0 without one.
    pub frame_register: u8,
}
const _: () = assert!(core::mem::size_of::<CodeForm>() == 2);

/// An entry of the scope table of a C handler: a `__try` block.
#[repr(C)]
#[derive(Clone, Copy, Debug, Default, PartialEq, Eq)]
#[cfg_attr(feature = "serde", derive(serde::Serialize))]
pub struct Scope {
    /// RVAs of the first guarded byte and after the last one.
    pub begin: u32,
    /// RVAs of the first guarded byte and after the last one.
    pub end: u32,
    /// RVA of the filter or of the `__finally` block; 1 means `EXCEPTION_EXECUTE_HANDLER`.
    pub handler: u32,
    /// RVA of the `__except` block; 0 for `__finally`.
    pub target: u32,
}
const _: () = assert!(core::mem::size_of::<Scope>() == 16);

/// Where a plan stands: a walk over the records of a function, up to the root of its chain. `pe_c_plan_from` starts it.
#[repr(C)]
#[derive(Clone, Copy, Debug, Default, PartialEq, Eq)]
pub struct Plan {
    /// Unwind RVA of the next record.
    pub unwind: u32,
    /// 1 after the root or an error, else 0.
    pub is_over: u32,
    /// An unwind RVA on the way: if it comes again, the chain never ends.
    pub saved: u32,
    /// 0
    pub spare: u32,
    /// Records returned since that RVA was saved.
    pub steps: u64,
    /// Records after which another RVA is saved.
    pub limit: u64,
}
const _: () = assert!(core::mem::size_of::<Plan>() == 32);

/// A plan, step by step.
///
/// It starts as `PE_C_EMPTY` with what `pe_c_plan_from` returns. The plan of another function of the same image may
/// start in the same walk, at `&walk.plan`, with `kept` as the last steps left it: that spares its first search.
#[repr(C)]
#[derive(Clone, Copy, Debug, Default, PartialEq, Eq)]
pub struct PlanWalk {
    /// Where it stands.
    pub plan: Plan,
    /// The sections of its last RVAs.
    pub kept: KeptSections,
}
const _: () = assert!(core::mem::size_of::<PlanWalk>() == 40);

/// The registers of a thread that unwinding restores.
#[repr(C)]
#[derive(Clone, Copy, Debug, Default, PartialEq, Eq)]
#[cfg_attr(feature = "serde", derive(serde::Serialize))]
pub struct Registers {
    /// By their numbers: rax, rcx, rdx, rbx, rsp, rbp, rsi, rdi, r8 .. r15; rsp is `general[4]`.
    pub general: [u64; 16],
    /// Of xmm0 .. xmm15 the low half and then the high half, as CONTEXT has them.
    pub xmm: [u64; 32],
    /// The instruction pointer.
    pub rip: u64,
}
const _: () = assert!(core::mem::size_of::<Registers>() == 392);

/// A frame of a stack walk.
///
/// A caller sets all fields but `address` and `interrupted`. A step changes `registers` and `interrupted`, or after an
/// error `address`.
#[repr(C)]
#[derive(Clone, Copy, Debug, Default, PartialEq, Eq)]
pub struct Frame {
    /// Inside the function; after a step those of its caller.
    pub registers: Registers,
    /// The one that [`Error::MISSING`], `_BAD_ADDRESS` or `_NOT_RISING` speaks of.
    pub address: u64,
    /// The one that [`pe_c_find_function`] returned.
    pub function: Function,
    /// `rip` less the address where the image is loaded.
    pub rva: u32,
    /// 0, or where [`pe_c_find_function`] returned [`NOTHING`] 1: a leaf function, of which neither `function` nor
    /// `rva` is read.
    pub leaf: u32,
    /// After a step 1 where an interrupt stopped the caller: its rip is the instruction that is about to run. Else 0:
    /// it is a return address.
    pub interrupted: u32,
}
const _: () = assert!(core::mem::size_of::<Frame>() == 424);

/// A piece of memory, as `MINIDUMP_MEMORY_DESCRIPTOR` and `_DESCRIPTOR64` say it.
#[repr(C)]
#[derive(Clone, Copy, Debug, Default, PartialEq, Eq)]
#[cfg_attr(feature = "serde", derive(serde::Serialize))]
pub struct MemoryPiece {
    /// Address of the first byte.
    pub start: u64,
    /// Of the first byte in the memory that is passed, as a minidump file.
    pub offset: u64,
    /// Bytes; those past the last address have none.
    pub length: u64,
}
const _: () = assert!(core::mem::size_of::<MemoryPiece>() == 24);

/// A module of a process: its image, which has `size_of_image` bytes where it is loaded.
///
/// What the view leads to stays readable as long as the record is passed. One whose image is not at hand has no bytes
/// and no sections, and an image of which `size_of_image` is set: frames are found in it by its addresses alone, as
/// guesses.
#[repr(C)]
#[derive(Clone, Copy, Debug)]
pub struct Module {
    /// The image.
    pub image: View,
    /// Of [`pe_c_function_table`], on ARM64 [`pe_c_arm64_table`]; all 0 where that returned [`NOTHING`]: no records
    /// describe its functions. Walks take the whole entries of any range that is inside the bytes, so of a damaged
    /// table those that are there.
    pub table: Range,
    /// Address where it is loaded.
    pub base: u64,
}
const _: () = assert!(core::mem::size_of::<Module>() == 80);

/// A walk of a stack on x64, and the frame that was returned last.
///
/// For a walk from the start set the registers to those of the thread, `remaining` to how many frames are wanted at
/// most, and all else to 0.
#[repr(C)]
#[derive(Clone, Copy, Debug, Default, PartialEq, Eq)]
pub struct StackWalk {
    /// Inside the function of the frame.
    pub registers: Registers,
    /// How many frames follow at most; 0 once the walk is over.
    pub remaining: u64,
    /// Of a walk that is over, as `address` of a frame; else 0.
    pub address: u64,
    /// 0 before the first call, else 1.
    pub has_returned: u32,
    /// `PE_C_WAY_*`.
    pub way: u32,
    /// 1 where the function of the frame has called: rip is the return address. 0 where rip is the instruction that is
    /// about to run. It is 0 by `PE_C_WAY_RECORDS` too where no call precedes rip, as where a return address was
    /// overwritten.
    pub has_called: u32,
    /// `PE_C_END_*` of a walk that is over.
    pub end: u32,
    /// A result, for `PE_C_END_RECORDS`, `_LONG_CHAIN` and `_STEP`; else 0.
    pub error: u32,
    /// 1 where a call found that the pieces of memory lie in it, ascend and do not overlap: later calls test only those
    /// that they read. 0 before the first call, and where the caller wants them tested again.
    pub is_searched: u32,
    /// 1 where the frame may be wrong: nothing proves that it is the caller, or it follows a frame of which this holds.
    pub is_guess: u32,
    /// 0
    pub spare: u32,
}
const _: () = assert!(core::mem::size_of::<StackWalk>() == 440);

/// An entry of the ARM64 function table.
#[repr(C)]
#[derive(Clone, Copy, Debug, Default, PartialEq, Eq)]
#[cfg_attr(feature = "serde", derive(serde::Serialize))]
pub struct Arm64Function {
    /// RVA of its first byte.
    pub begin: u32,
    /// Packed unwind data, or the RVA of its unwind record: its two lowest bits say which.
    pub unwind: u32,
}
const _: () = assert!(core::mem::size_of::<Arm64Function>() == 8);

/// Packed unwind data of an ARM64 function.
///
/// The fields mean nothing unless `is_packed`.
#[repr(C)]
#[derive(Clone, Copy, Debug, Default, PartialEq, Eq)]
#[cfg_attr(feature = "serde", derive(serde::Serialize))]
pub struct Arm64Packed {
    /// 0: `unwind` is the RVA of a record; 1 a function; 2 a fragment; 3 reserved.
    pub flag: u32,
    /// Bytes.
    pub function_length: u32,
    /// Bytes of stack that the function allocates.
    pub frame_size: u32,
    /// RegF: 0, or the number of saved registers from d8 on, less 1.
    pub reg_f: u32,
    /// RegI: the number of saved registers from x19 on.
    pub reg_i: u32,
    /// H: 1 where x0 .. x7 are stored at the start of the function.
    pub h: u32,
    /// CR: 0 x29 and lr are not saved, 1 lr is, 2 and 3 both are, with 2 signed.
    pub cr: u32,
    /// 1 unless `flag` is 0.
    pub is_packed: u32,
}
const _: () = assert!(core::mem::size_of::<Arm64Packed>() == 32);

/// An ARM64 unwind record (.xdata).
#[repr(C)]
#[derive(Clone, Copy, Debug, Default, PartialEq, Eq)]
pub struct Arm64Record {
    /// A walk for [`pe_c_next_arm64_scope`], at its start.
    pub scopes: Range,
    /// The code bytes, for [`pe_c_arm64_codes`].
    pub codes: Range,
    /// What follows the handler's RVA, up to the end of the file; empty without a handler.
    pub handler_data: Range,
    /// RVA of the handler, or 0.
    pub handler: u32,
    /// 1 or 0.
    pub has_handler: u32,
    /// Bytes.
    pub function_length: u32,
    /// 1 where the one epilog has no scope: its codes start at `epilog_start`.
    pub epilog_in_header: u32,
    /// Index of that epilog's first code byte; else 0.
    pub epilog_start: u32,
    /// 0
    pub version: u32,
}
const _: () = assert!(core::mem::size_of::<Arm64Record>() == 72);

/// An epilog scope: where an epilog of an ARM64 function is, and where its codes are.
#[repr(C)]
#[derive(Clone, Copy, Debug, Default, PartialEq, Eq)]
#[cfg_attr(feature = "serde", derive(serde::Serialize))]
pub struct Arm64Scope {
    /// Bytes, from the start of the function to that of the epilog.
    pub start_offset: u32,
    /// Index of the epilog's first code byte, for [`pe_c_arm64_codes`].
    pub start_index: u32,
    /// Bits 18 to 21.
    pub reserved: u32,
    /// The whole entry.
    pub word: u32,
}
const _: () = assert!(core::mem::size_of::<Arm64Scope>() == 16);

/// A walk over ARM64 unwind codes.
#[repr(C)]
#[derive(Clone, Copy, Debug, Default, PartialEq, Eq)]
pub struct Arm64Walk {
    /// The code bytes that are left.
    pub left: Range,
    /// Bytes, from the start of the record's codes to these.
    pub offset: u64,
}
const _: () = assert!(core::mem::size_of::<Arm64Walk>() == 24);

/// An ARM64 unwind code.
#[repr(C)]
#[derive(Clone, Copy, Debug, Default, PartialEq, Eq)]
pub struct Arm64Code {
    /// Bytes, from the start of the record's codes to this one.
    pub offset: u32,
    /// Bytes of the code, 1 to 5.
    pub length: u32,
    /// `PE_C_ARM64_ALLOC_SMALL` .. `PE_C_ARM64_RESERVED`.
    pub kind: u32,
    /// A register, or as the kind says; else 0.
    pub operand: u32,
    /// Bytes, or as the kind says; else 0.
    pub value: u32,
    /// Of `PE_C_ARM64_SAVE_ANY_REG`; else 0.
    pub flags: u32,
}
const _: () = assert!(core::mem::size_of::<Arm64Code>() == 24);

/// The registers of a thread on ARM64 that unwinding restores.
#[repr(C)]
#[derive(Clone, Copy, Debug, Default, PartialEq, Eq)]
#[cfg_attr(feature = "serde", derive(serde::Serialize))]
pub struct Arm64Registers {
    /// x0 .. x30: the frame pointer is `general[29]`, the link register `general[30]`.
    pub general: [u64; 31],
    /// d8 .. d15, the low halves of v8 .. v15.
    pub floats: [u64; 8],
    /// The stack pointer.
    pub sp: u64,
    /// The instruction pointer.
    pub pc: u64,
}
const _: () = assert!(core::mem::size_of::<Arm64Registers>() == 328);

/// A frame of a stack walk on ARM64.
///
/// A caller sets all fields but `address` and `interrupted`. A step changes `registers` and `interrupted`, or after an
/// error `address`.
#[repr(C)]
#[derive(Clone, Copy, Debug, Default, PartialEq, Eq)]
pub struct Arm64Frame {
    /// Inside the function; after a step those of its caller.
    pub registers: Arm64Registers,
    /// The one that [`Error::MISSING`], `_BAD_ADDRESS` or `_NOT_RISING` speaks of.
    pub address: u64,
    /// The one that [`pe_c_find_arm64_function`] returned.
    pub function: Arm64Function,
    /// `pc` less the address where the image is loaded.
    pub rva: u32,
    /// 0, or where [`pe_c_find_arm64_function`] returned [`NOTHING`] 1: a leaf function, of which neither `function`
    /// nor `rva` is read.
    pub leaf: u32,
    /// After a step 1 where no call left the caller: its pc is the instruction that is about to run. Else 0.
    pub interrupted: u32,
    /// 0
    pub spare: u32,
}
const _: () = assert!(core::mem::size_of::<Arm64Frame>() == 360);

/// A walk of a stack on ARM64, and the frame that was returned last, as [`StackWalk`].
#[repr(C)]
#[derive(Clone, Copy, Debug, Default, PartialEq, Eq)]
pub struct Arm64StackWalk {
    /// Inside the function of the frame.
    pub registers: Arm64Registers,
    /// How many frames follow at most; 0 once the walk is over.
    pub remaining: u64,
    /// Of a walk that is over, as `address` of a frame; else 0.
    pub address: u64,
    /// 0 before the first call, else 1.
    pub has_returned: u32,
    /// `PE_C_WAY_*`.
    pub way: u32,
    /// 1 where the function of the frame has called: pc is the return address. 0 where pc is the instruction that is
    /// about to run.
    pub has_called: u32,
    /// `PE_C_END_*` of a walk that is over.
    pub end: u32,
    /// A result, for `PE_C_END_RECORDS` and `_STEP`; else 0.
    pub error: u32,
    /// As in [`StackWalk`].
    pub is_searched: u32,
    /// As in [`StackWalk`].
    pub is_guess: u32,
    /// 0
    pub spare: u32,
}
const _: () = assert!(core::mem::size_of::<Arm64StackWalk>() == 376);

/// Where a walk over exports stands.
#[repr(C)]
#[derive(Clone, Copy, Debug, Default, PartialEq, Eq)]
pub struct Exports {
    /// RVAs of names, 4 bytes each.
    pub names: Range,
    /// For each name the index of its RVA in `addresses`, 2 bytes each.
    pub ordinals: Range,
    /// RVAs of what is exported, 4 bytes each.
    pub addresses: Range,
    /// Index of the next name.
    pub next: u64,
    /// The export directory: an RVA inside it is that of a forwarder's text.
    pub directory: Directory,
}
const _: () = assert!(core::mem::size_of::<Exports>() == 64);

/// A walk over exports.
///
/// It starts as `PE_C_EMPTY` with what [`pe_c_export_tables`] returns.
#[repr(C)]
#[derive(Clone, Copy, Debug, Default, PartialEq, Eq)]
pub struct ExportWalk {
    /// Where it stands.
    pub exports: Exports,
    /// The sections of its last RVAs.
    pub kept: KeptSections,
}
const _: () = assert!(core::mem::size_of::<ExportWalk>() == 72);

/// An export.
#[repr(C)]
#[derive(Clone, Copy, Debug, Default, PartialEq, Eq)]
pub struct Export {
    /// UTF-8, without its final zero.
    pub name: Range,
    /// The forwarder's text, "DLL.NAME" or "DLL.#ORDINAL": UTF-8, without its final zero; empty unless `is_forwarder`,
    /// and where no text is there.
    pub forwarder: Range,
    /// File offset of the RVA; 0 unless `has_offset`.
    pub offset: u64,
    /// RVA of what is exported, or of the forwarder's text.
    pub rva: u32,
    /// 1 where the RVA is mapped, else 0.
    pub has_offset: u32,
    /// Index in the table of RVAs, as of [`pe_c_export_at`].
    pub index: u32,
    /// 1 where the RVA lies in the export directory, else 0.
    pub is_forwarder: u32,
}
const _: () = assert!(core::mem::size_of::<Export>() == 56);

/// The export directory's table of RVAs, which has all exports by their index, also those without a name.
#[repr(C)]
#[derive(Clone, Copy, Debug, Default, PartialEq, Eq)]
pub struct AddressTable {
    /// Of the DLL: UTF-8, without its final zero; empty unless `has_name`.
    pub name: Range,
    /// RVAs of what is exported, 4 bytes each.
    pub addresses: Range,
    /// The export directory: an RVA inside it is that of a forwarder's text.
    pub directory: Directory,
    /// Ordinal of the export with the index 0.
    pub ordinal_base: u32,
    /// 1 where the directory has a name that is mapped and is UTF-8 text, else 0.
    pub has_name: u32,
}
const _: () = assert!(core::mem::size_of::<AddressTable>() == 48);

/// An export by its index.
#[repr(C)]
#[derive(Clone, Copy, Debug, Default, PartialEq, Eq)]
pub struct Exported {
    /// The forwarder's text, "DLL.NAME" or "DLL.#ORDINAL": UTF-8, without its final zero; empty unless `is_forwarder`,
    /// and where no text is there.
    pub forwarder: Range,
    /// Its index plus `ordinal_base`.
    pub ordinal: u64,
    /// RVA of what is exported, or of the forwarder's text; 0 for an unused ordinal.
    pub rva: u32,
    /// 1 or 0.
    pub is_forwarder: u32,
}
const _: () = assert!(core::mem::size_of::<Exported>() == 32);

/// The export directory itself, `IMAGE_EXPORT_DIRECTORY`.
#[repr(C)]
#[derive(Clone, Copy, Debug, Default, PartialEq, Eq)]
#[cfg_attr(feature = "serde", derive(serde::Serialize))]
#[non_exhaustive]
pub struct ExportFields {
    /// Reserved.
    pub characteristics: u32,
    /// Seconds since the start of 1970, or a hash.
    pub time_date_stamp: u32,
    /// Of the directory.
    pub major_version: u16,
    /// Of the directory.
    pub minor_version: u16,
    /// RVA of the DLL's name, or 0.
    pub name: u32,
    /// Ordinal of the export with the index 0.
    pub base: u32,
    /// Entries of the table of RVAs.
    pub number_of_functions: u32,
    /// Entries of the table of names, and of that of indices.
    pub number_of_names: u32,
    /// RVA of the table of RVAs.
    pub address_of_functions: u32,
    /// RVA of the table of names.
    pub address_of_names: u32,
    /// RVA of the table of indices.
    pub address_of_name_ordinals: u32,
}
const _: () = assert!(core::mem::size_of::<ExportFields>() == 40);

/// The tables of an image of which names are read, each by itself, and the result of each: [`DONE`], [`NOTHING`] where
/// the image has none, or the error.
///
/// One that is not there is empty.
#[repr(C)]
#[derive(Clone, Copy, Debug, Default, PartialEq, Eq)]
pub struct NameSources {
    /// The function table; there is none on x86.
    pub functions: Range,
    /// The symbol table, entries of 18 bytes; there is none in an image as loaded: no section has it.
    pub symbols: Range,
    /// The string table, with the longer names of symbols.
    pub strings: Range,
    /// The tables of the export directory.
    pub exports: Exports,
    /// How many numbers [`pe_c_function_names`] needs room for.
    pub room: u64,
    /// Errors are those of [`pe_c_function_table`] and [`pe_c_arm64_table`].
    pub functions_result: u32,
    /// Those of [`pe_c_headers`] and [`pe_c_coff_symbols`].
    pub symbols_result: u32,
    /// Those of [`pe_c_headers`] and [`pe_c_coff_strings`].
    pub strings_result: u32,
    /// Those of [`pe_c_export_tables`].
    pub exports_result: u32,
}
const _: () = assert!(core::mem::size_of::<NameSources>() == 136);

/// An address in the code of an image.
#[repr(C)]
#[derive(Clone, Copy, Debug, Default, PartialEq, Eq)]
#[cfg_attr(feature = "serde", derive(serde::Serialize))]
pub struct CodeAddress {
    /// The address.
    pub rva: u32,
    /// 0 where the code there was about to run, as in the top frame of a stack. Else it is a return address: the byte
    /// before it is looked up, as a call may be the last of its function.
    pub is_return: u32,
}
const _: () = assert!(core::mem::size_of::<CodeAddress>() == 8);

/// What names an address.
#[repr(C)]
#[derive(Clone, Copy, Debug, Default, PartialEq, Eq)]
pub struct FunctionName {
    /// UTF-8, without its final zero. Empty without a name, and where the name is not text, or is longer than 4,095
    /// bytes.
    pub name: Range,
    /// RVA that has the name.
    pub start: u32,
    /// How far after it the address is.
    pub offset: u32,
    /// What names it: 0 nothing, 1 a COFF symbol, 2 an export.
    pub source: u32,
    /// 1 where it is only the last name before the address, in an image without a function table; it may be that of
    /// another function. Else 0.
    pub is_nearest: u32,
}
const _: () = assert!(core::mem::size_of::<FunctionName>() == 32);

/// Where a walk over libraries stands.
#[repr(C)]
#[derive(Clone, Copy, Debug, Default, PartialEq, Eq)]
pub struct Libraries {
    /// File offset of the next record of the import directory.
    pub next: u64,
    /// 1 after the last library or an error, else 0.
    pub is_over: u32,
    /// 0
    pub spare: u32,
}
const _: () = assert!(core::mem::size_of::<Libraries>() == 16);

/// Where a walk over the imports of a library stands.
#[repr(C)]
#[derive(Clone, Copy, Debug, Default, PartialEq, Eq)]
pub struct Imports {
    /// The entries of the list that are left: 8 bytes each in PE32+, else 4.
    pub left: Range,
    /// RVA of the next import's slot in the address table.
    pub rva: u64,
}
const _: () = assert!(core::mem::size_of::<Imports>() == 24);

/// A walk over libraries.
///
/// It starts as `PE_C_EMPTY` with what [`pe_c_import_libraries`] returns.
#[repr(C)]
#[derive(Clone, Copy, Debug, Default, PartialEq, Eq)]
pub struct LibraryWalk {
    /// Where it stands.
    pub libraries: Libraries,
    /// The sections of its last RVAs.
    pub kept: KeptSections,
}
const _: () = assert!(core::mem::size_of::<LibraryWalk>() == 24);

/// A walk over the imports of a library.
#[repr(C)]
#[derive(Clone, Copy, Debug, Default, PartialEq, Eq)]
pub struct ImportWalk {
    /// Where it stands; at the start that of the library.
    pub imports: Imports,
    /// The sections of its last RVAs.
    pub kept: KeptSections,
}
const _: () = assert!(core::mem::size_of::<ImportWalk>() == 32);

/// A DLL that an image imports from, `IMAGE_IMPORT_DESCRIPTOR`.
#[repr(C)]
#[derive(Clone, Copy, Debug, Default, PartialEq, Eq)]
pub struct Library {
    /// Of the DLL: UTF-8, without its final zero.
    pub name: Range,
    /// Where a walk over its imports starts; imports.left is {0, 0} where the RVA of the list is unmapped, and nowhere
    /// else: the signature of the DOS header is at the offset 0.
    pub imports: Imports,
    /// RVA of the list; where it is 0, the list is the address table.
    pub lookup_table_rva: u32,
    /// 0, or not 0 where the imports are bound.
    pub time_date_stamp: u32,
    /// Index of the first forwarder, or -1.
    pub forwarder_chain: u32,
    /// RVA of the DLL's name.
    pub name_rva: u32,
    /// RVA of the slots that the loader fills.
    pub address_table_rva: u32,
    /// 0
    pub spare: u32,
}
const _: () = assert!(core::mem::size_of::<Library>() == 64);

/// An import.
#[repr(C)]
#[derive(Clone, Copy, Debug, Default, PartialEq, Eq)]
pub struct Import {
    /// UTF-8, without its final zero; empty unless `has_name`.
    pub name: Range,
    /// RVA of the slot that the loader fills.
    pub rva: u64,
    /// The ordinal; with a name its hint, an index into the DLL's table of names.
    pub ordinal: u32,
    /// 1 or 0.
    pub has_name: u32,
}
const _: () = assert!(core::mem::size_of::<Import>() == 32);

/// A walk over the imports of all libraries.
///
/// It starts as `PE_C_EMPTY` with what [`pe_c_import_libraries`] returns as `libraries`.
#[repr(C)]
#[derive(Clone, Copy, Debug, Default, PartialEq, Eq)]
pub struct LibraryImports {
    /// The libraries after the one that is walked over.
    pub libraries: Libraries,
    /// The imports that this one has left.
    pub imports: Imports,
    /// Of this one: UTF-8, without its final zero.
    pub library_name: Range,
    /// How many libraries were begun; 0 before the first.
    pub begun: u64,
}
const _: () = assert!(core::mem::size_of::<LibraryImports>() == 64);

/// An import, and the library that it is from.
#[repr(C)]
#[derive(Clone, Copy, Debug, Default, PartialEq, Eq)]
pub struct LibraryImport {
    /// What [`pe_c_next_import`] returns.
    pub import: Import,
    /// Of the DLL: UTF-8, without its final zero.
    pub library_name: Range,
    /// Index of the library in the order of the import directory.
    pub library: u64,
    /// RVA of the hint, which the name follows; 0 unless `import.has_name`.
    pub hint_rva: u32,
    /// 0
    pub spare: u32,
}
const _: () = assert!(core::mem::size_of::<LibraryImport>() == 64);

/// An entry of the delay import directory, `IMAGE_DELAYLOAD_DESCRIPTOR`.
///
/// Addresses are RVAs where bit 0 of the attributes is set, else virtual addresses, as linkers before Visual C++ 7
/// wrote them.
#[repr(C)]
#[derive(Clone, Copy, Debug, Default, PartialEq, Eq)]
pub struct DelayDescriptor {
    /// Flags, of which bit 0 is defined.
    pub attributes: u32,
    /// Where the DLL's name is.
    pub name: u32,
    /// Where the DLL's handle is written when it is loaded.
    pub module_handle: u32,
    /// Where the functions' addresses are written.
    pub import_address_table: u32,
    /// Where the table of what is imported is.
    pub import_name_table: u32,
    /// Where the addresses are if the DLL has the time stamp; 0 for none.
    pub bound_import_address_table: u32,
    /// Where a copy of the address table is, to unload the DLL; 0 for none.
    pub unload_information_table: u32,
    /// Of the DLL to which the image is bound; 0 where it is not bound.
    pub time_date_stamp: u32,
}
const _: () = assert!(core::mem::size_of::<DelayDescriptor>() == 32);

/// Where a walk over what is imported of a DLL stands.
#[repr(C)]
#[derive(Clone, Copy, Debug, Default, PartialEq, Eq)]
pub struct DelayedFunctions {
    /// Its table from the next number on: 8 bytes each in PE32+, else 4.
    pub left: Range,
    /// Those of the DLL's entry.
    pub attributes: u32,
    /// 0
    pub spare: u32,
}
const _: () = assert!(core::mem::size_of::<DelayedFunctions>() == 24);

/// A walk over the DLLs.
///
/// It starts as `PE_C_EMPTY` with what [`pe_c_delay_imports`] returns.
#[repr(C)]
#[derive(Clone, Copy, Debug, Default, PartialEq, Eq)]
pub struct DelayImportWalk {
    /// Those of the directory that are left.
    pub entries: Range,
    /// The sections of its last RVAs.
    pub kept: KeptSections,
}
const _: () = assert!(core::mem::size_of::<DelayImportWalk>() == 24);

/// A walk over what is imported of a DLL.
#[repr(C)]
#[derive(Clone, Copy, Debug, Default, PartialEq, Eq)]
pub struct DelayedFunctionWalk {
    /// Where it stands; at the start that of the DLL.
    pub functions: DelayedFunctions,
    /// The sections of its last RVAs.
    pub kept: KeptSections,
}
const _: () = assert!(core::mem::size_of::<DelayedFunctionWalk>() == 32);

/// A DLL that is loaded later.
#[repr(C)]
#[derive(Clone, Copy, Debug, Default, PartialEq, Eq)]
pub struct DelayImport {
    /// Of the DLL: UTF-8, without its final zero.
    pub name: Range,
    /// Where a walk over its functions starts.
    pub functions: DelayedFunctions,
    /// The entry.
    pub descriptor: DelayDescriptor,
}
const _: () = assert!(core::mem::size_of::<DelayImport>() == 72);

/// What is imported of a DLL that is loaded later.
#[repr(C)]
#[derive(Clone, Copy, Debug, Default, PartialEq, Eq)]
pub struct DelayedFunction {
    /// UTF-8, without its final zero; empty unless `has_name`.
    pub name: Range,
    /// The ordinal; with a name its hint, an index into the DLL's table of names.
    pub ordinal: u32,
    /// 1 or 0.
    pub has_name: u32,
}
const _: () = assert!(core::mem::size_of::<DelayedFunction>() == 24);

/// A walk over the functions of all DLLs that are loaded later.
///
/// It starts as `PE_C_EMPTY` with what [`pe_c_delay_imports`] returns as `libraries`.
#[repr(C)]
#[derive(Clone, Copy, Debug, Default, PartialEq, Eq)]
pub struct LibraryFunctions {
    /// The entries of the directory after that of the DLL that is walked over.
    pub libraries: Range,
    /// The functions that this one has left.
    pub functions: DelayedFunctions,
    /// Of this one: UTF-8, without its final zero.
    pub library_name: Range,
    /// How many DLLs were begun; 0 before the first.
    pub begun: u64,
}
const _: () = assert!(core::mem::size_of::<LibraryFunctions>() == 64);

/// A function, and the DLL that it is of.
#[repr(C)]
#[derive(Clone, Copy, Debug, Default, PartialEq, Eq)]
pub struct LibraryFunction {
    /// What [`pe_c_next_delayed_function`] returns.
    pub function: DelayedFunction,
    /// Of the DLL: UTF-8, without its final zero.
    pub library_name: Range,
    /// Index of the DLL in the order of the delay import directory.
    pub library: u64,
}
const _: () = assert!(core::mem::size_of::<LibraryFunction>() == 48);

/// A bound import, `IMAGE_BOUND_IMPORT_DESCRIPTOR`.
#[repr(C)]
#[derive(Clone, Copy, Debug, Default, PartialEq, Eq)]
pub struct BoundImport {
    /// UTF-8, not NUL-terminated.
    pub name: Range,
    /// 8 bytes each; a walk through the DLLs that this one forwards to.
    pub forwarders: Range,
    /// Of the DLL.
    pub time_date_stamp: u32,
    /// 0
    pub spare: u32,
}
const _: () = assert!(core::mem::size_of::<BoundImport>() == 40);

/// A DLL that another one forwards to, `IMAGE_BOUND_FORWARDER_REF`.
#[repr(C)]
#[derive(Clone, Copy, Debug, Default, PartialEq, Eq)]
pub struct BoundForwarder {
    /// UTF-8, not NUL-terminated.
    pub name: Range,
    /// Of the DLL.
    pub time_date_stamp: u32,
    /// 0
    pub spare: u32,
}
const _: () = assert!(core::mem::size_of::<BoundForwarder>() == 24);

/// The fixed file information, `VS_FIXEDFILEINFO`.
#[repr(C)]
#[derive(Clone, Copy, Debug, Default, PartialEq, Eq)]
#[cfg_attr(feature = "serde", derive(serde::Serialize))]
pub struct Version {
    /// 0xFEEF04BD.
    pub signature: u32,
    /// Of this record: major in the high 16 bits, minor in the low.
    pub struct_version: u32,
    /// 1.2.3.4 is 0x00010002 and 0x00030004.
    pub file_version_ms: u32,
    /// 1.2.3.4 is 0x00010002 and 0x00030004.
    pub file_version_ls: u32,
    /// Likewise.
    pub product_version_ms: u32,
    /// Likewise.
    pub product_version_ls: u32,
    /// Which bits of `file_flags` are valid.
    pub file_flags_mask: u32,
    /// `VS_FF_` flags.
    pub file_flags: u32,
    /// `VOS_`.
    pub file_os: u32,
    /// `VFT_`: 1 application, 2 DLL, 3 driver.
    pub file_type: u32,
    /// `VFT2_`.
    pub file_subtype: u32,
    /// A FILETIME, mostly 0.
    pub file_date_ms: u32,
    /// A FILETIME, mostly 0.
    pub file_date_ls: u32,
}
const _: () = assert!(core::mem::size_of::<Version>() == 52);

/// A block of version information, which is a tree of them.
///
/// The first block, `VS_VERSION_INFO`, is all of it; its value is the fixed file information. It contains
/// StringFileInfo, with a string table for each language, whose blocks are strings with any key; and VarFileInfo, with
/// Translation, whose value is a language and a code page, `uint16_t` each, for each language of the file.
#[repr(C)]
#[derive(Clone, Copy, Debug, Default, PartialEq, Eq)]
pub struct VersionBlock {
    /// UTF-16 code units, little-endian, without the zero that ends them.
    pub key: Range,
    /// A text in UTF-16, which ends at the first zero, or binary data.
    pub value: Range,
    /// A walk over the blocks that it contains.
    pub children: Range,
    /// 1 where the value is a text, 0 where it is binary data.
    pub value_type: u32,
    /// 1 where the key is eight hexadecimal digits, as that of a string table; else 0.
    pub has_language: u32,
    /// The language identifier that the first four digits are; else 0.
    pub language: u32,
    /// The code page that the last four digits are; else 0.
    pub code_page: u32,
}
const _: () = assert!(core::mem::size_of::<VersionBlock>() == 64);

/// What names a type, a resource or a language: an id, or a name.
#[repr(C)]
#[derive(Clone, Copy, Debug, Default, PartialEq, Eq)]
pub struct ResourceName {
    /// UTF-16 code units, little-endian, without a final zero; the empty range with an id.
    pub name: Range,
    /// Below 2^16; 0 with a name.
    pub id: u32,
    /// 1 with a name, 0 with an id.
    pub has_name: u32,
}
const _: () = assert!(core::mem::size_of::<ResourceName>() == 24);

/// A leaf of a resource tree.
#[repr(C)]
#[derive(Clone, Copy, Debug, Default, PartialEq, Eq)]
pub struct ResourceLeaf {
    /// An id is `RT_` of winuser.h.
    pub resource_type: ResourceName,
    /// The resource among those of its type.
    pub name: ResourceName,
    /// An id is a language identifier; 0 for any language.
    pub language: ResourceName,
    /// The empty range where `content_result` is not [`DONE`].
    pub content: Range,
    /// [`DONE`], or why the content is not in the file: [`Error::UNMAPPED`], [`Error::RESOURCE_BOUNDS`].
    pub content_result: u32,
    /// RVA of the content.
    pub rva: u32,
    /// Bytes of the content.
    pub size: u32,
    /// Of texts in the content, mostly 0.
    pub code_page: u32,
}
const _: () = assert!(core::mem::size_of::<ResourceLeaf>() == 104);

/// `IMAGE_RESOURCE_DIRECTORY_ENTRY`.
#[repr(C)]
#[derive(Clone, Copy, Debug, Default, PartialEq, Eq)]
pub struct ResourceEntry {
    /// With bit 31 the offset of a name, else an id.
    pub name_or_id: u32,
    /// With bit 31 the offset of a directory, else that of a data entry.
    pub offset_to_data_or_directory: u32,
}
const _: () = assert!(core::mem::size_of::<ResourceEntry>() == 8);

/// Where a walk over leaves stands.
///
/// The ranges of entries, 8 bytes each, count from the start of the tree.
#[repr(C)]
#[derive(Clone, Copy, Debug, Default, PartialEq, Eq)]
pub struct ResourceWalk {
    /// The data of the resource directory.
    pub tree: Range,
    /// The types that are left.
    pub types: Range,
    /// The names that are left of a type.
    pub names: Range,
    /// The languages that are left of a name.
    pub languages: Range,
    /// The entry of this type.
    pub resource_type: ResourceEntry,
    /// The entry of this name.
    pub name: ResourceEntry,
}
const _: () = assert!(core::mem::size_of::<ResourceWalk>() == 80);

/// A walk over leaves.
///
/// It starts as `PE_C_EMPTY` with what [`pe_c_resource_leaves`] returns.
#[repr(C)]
#[derive(Clone, Copy, Debug, Default, PartialEq, Eq)]
pub struct LeafWalk {
    /// Where it stands.
    pub leaves: ResourceWalk,
    /// The sections of its last RVAs.
    pub kept: KeptSections,
}
const _: () = assert!(core::mem::size_of::<LeafWalk>() == 88);

/// A directory of the tree, `IMAGE_RESOURCE_DIRECTORY`.
#[repr(C)]
#[derive(Clone, Copy, Debug, Default, PartialEq, Eq)]
pub struct ResourceDirectory {
    /// Reserved.
    pub characteristics: u32,
    /// Seconds since the start of 1970, mostly 0.
    pub time_date_stamp: u32,
    /// Of the resources.
    pub major_version: u16,
    /// Of the resources.
    pub minor_version: u16,
    /// Which come first.
    pub number_of_named_entries: u16,
    /// Which follow them.
    pub number_of_id_entries: u16,
    /// A walk for [`pe_c_next_resource_item`]: of 65,535 entries at most.
    pub entries: Range,
}
const _: () = assert!(core::mem::size_of::<ResourceDirectory>() == 32);

/// An entry of a directory, by its name.
#[repr(C)]
#[derive(Clone, Copy, Debug, Default, PartialEq, Eq)]
pub struct ResourceItem {
    /// What names it.
    pub name: ResourceName,
    /// Of the directory to which it leads, or of the data entry, from the start of the tree.
    pub offset: u32,
    /// 1 where it leads to a directory, else 0.
    pub is_directory: u32,
}
const _: () = assert!(core::mem::size_of::<ResourceItem>() == 32);

/// A resource in one language.
///
/// Its ranges are those of an array of bytes that is passed beside it.
#[repr(C)]
#[derive(Clone, Copy, Debug, Default, PartialEq, Eq)]
pub struct Resource {
    /// An id is `RT_` of winuser.h.
    pub resource_type: ResourceName,
    /// The resource among those of its type; Windows looks names up in upper case.
    pub name: ResourceName,
    /// Its bytes.
    pub content: Range,
    /// Below 2^16.
    pub language: u32,
    /// Of texts in the content; most linkers write 0.
    pub code_page: u32,
}
const _: () = assert!(core::mem::size_of::<Resource>() == 72);

/// A string of version information.
///
/// Its ranges are those of an array of bytes that is passed beside it.
#[repr(C)]
#[derive(Clone, Copy, Debug, Default, PartialEq, Eq)]
pub struct VersionString {
    /// UTF-16 code units, little-endian, without a final zero.
    pub name: Range,
    /// Likewise, with a final zero.
    pub text: Range,
}
const _: () = assert!(core::mem::size_of::<VersionString>() == 32);

/// A language and a code page.
#[repr(C)]
#[derive(Clone, Copy, Debug, Default, PartialEq, Eq)]
pub struct VersionLanguage {
    /// As 0x409 for English (United States).
    pub language: u16,
    /// As 1200 for UTF-16.
    pub code_page: u16,
}
const _: () = assert!(core::mem::size_of::<VersionLanguage>() == 4);

/// The strings of a language and a code page: so many of an array, one after the other.
#[repr(C)]
#[derive(Clone, Copy, Debug, Default, PartialEq, Eq)]
pub struct VersionTable {
    /// The index of the first.
    pub first: u32,
    /// How many there are.
    pub count: u32,
    /// In which the key of the table is written.
    pub language: VersionLanguage,
}
const _: () = assert!(core::mem::size_of::<VersionTable>() == 12);

/// The TLS directory, `IMAGE_TLS_DIRECTORY`.
#[repr(C)]
#[derive(Clone, Copy, Debug, Default, PartialEq, Eq)]
pub struct TlsDirectory {
    /// Where the data starts of which each thread gets a copy.
    pub start_address_of_raw_data: u64,
    /// Where this data ends.
    pub end_address_of_raw_data: u64,
    /// Where the loader writes the number of the slot that leads to a copy.
    pub address_of_index: u64,
    /// Where the table of callbacks is; 0 where there are none.
    pub address_of_callbacks: u64,
    /// How many zeros follow the data in a copy, in bytes.
    pub size_of_zero_fill: u32,
    /// Bits 20 to 23: the alignment, 1 to 14 for 1 to 8192 bytes.
    pub characteristics: u32,
}
const _: () = assert!(core::mem::size_of::<TlsDirectory>() == 40);

/// `IMAGE_LOAD_CONFIG_DIRECTORY32` or `IMAGE_LOAD_CONFIG_DIRECTORY64`, up to the guard flags.
///
/// A field that the structure is too short for, or the image, is 0, and so is the field of its name with `has_`, which
/// else is 1. The addresses are virtual addresses, mostly 0 where there is nothing: less `image->base` one is an RVA,
/// for [`pe_c_offset`].
#[repr(C)]
#[derive(Clone, Copy, Debug, Default, PartialEq, Eq)]
pub struct LoadConfig {
    /// Where the security cookie is.
    pub security_cookie: u64,
    /// x86: where the table of exception handlers is, their RVAs, sorted, 4 bytes each.
    pub se_handler_table: u64,
    /// How many entries it has.
    pub se_handler_count: u64,
    /// Where the pointer is to what checks the target of an indirect call.
    pub guard_cf_check_function_pointer: u64,
    /// Where the pointer is to what checks the target and calls it.
    pub guard_cf_dispatch_function_pointer: u64,
    /// Where the table is of the functions that may be called indirectly, sorted: an RVA each, 4 bytes, then
    /// `guard_flags` >> 28 bytes more.
    pub guard_cf_function_table: u64,
    /// How many entries it has.
    pub guard_cf_function_count: u64,
    /// Bytes of the structure, as it says itself.
    pub size: u32,
    /// Seconds since 1970.
    pub time_date_stamp: u32,
    /// `IMAGE_GUARD_` flags.
    pub guard_flags: u32,
    /// Major part of a version.
    pub major_version: u16,
    /// Minor part of a version.
    pub minor_version: u16,
    /// Where DLLs that the image imports are looked for, flags of LoadLibraryEx.
    pub dependent_load_flags: u16,
    /// 0
    pub spare: u16,
    /// 1 or 0, and so all that follow.
    pub has_time_date_stamp: u8,
    /// 1 or 0.
    pub has_major_version: u8,
    /// 1 or 0.
    pub has_minor_version: u8,
    /// 1 or 0.
    pub has_dependent_load_flags: u8,
    /// 1 or 0.
    pub has_security_cookie: u8,
    /// 1 or 0.
    pub has_se_handler_table: u8,
    /// 1 or 0.
    pub has_se_handler_count: u8,
    /// 1 or 0.
    pub has_guard_cf_check_function_pointer: u8,
    /// 1 or 0.
    pub has_guard_cf_dispatch_function_pointer: u8,
    /// 1 or 0.
    pub has_guard_cf_function_table: u8,
    /// 1 or 0.
    pub has_guard_cf_function_count: u8,
    /// 1 or 0.
    pub has_guard_flags: u8,
}
const _: () = assert!(core::mem::size_of::<LoadConfig>() == 88);

/// A walk over the entries of a table.
#[repr(C)]
#[derive(Clone, Copy, Debug, Default, PartialEq, Eq)]
pub struct GuardEntries {
    /// From the next entry to the end of the bytes; of no bytes where the table starts past it.
    pub entries: Range,
    /// How many entries are left.
    pub count: u64,
    /// Bytes of flags that an entry has after its RVA; of handlers 0.
    pub flag_size: u32,
    /// 0
    pub spare: u32,
}
const _: () = assert!(core::mem::size_of::<GuardEntries>() == 32);

/// An entry of a table of a load configuration.
#[repr(C)]
#[derive(Clone, Copy, Debug, Default, PartialEq, Eq)]
pub struct GuardEntry {
    /// The flags that follow the RVA.
    pub flag_bytes: Range,
    /// An RVA.
    pub rva: u32,
    /// Their first byte, `IMAGE_GUARD_FLAG_` flags; 0 where there is none.
    pub flags: u32,
}
const _: () = assert!(core::mem::size_of::<GuardEntry>() == 24);

/// A block of base relocations, `IMAGE_BASE_RELOCATION`.
#[repr(C)]
#[derive(Clone, Copy, Debug, Default, PartialEq, Eq)]
pub struct RelocationBlock {
    /// 2 bytes each; a walk through the relocations of the block.
    pub entries: Range,
    /// RVA of the page that they count from.
    pub page_rva: u32,
    /// 0
    pub spare: u32,
}
const _: () = assert!(core::mem::size_of::<RelocationBlock>() == 24);

/// A base relocation.
#[repr(C)]
#[derive(Clone, Copy, Debug, Default, PartialEq, Eq)]
pub struct Relocation {
    /// RVA of what to change; in a hostile block it may pass 32 bits.
    pub rva: u64,
    /// `IMAGE_REL_BASED_` of winnt.h, below 16.
    pub kind: u32,
    /// Low 16 bits of the number that `IMAGE_REL_BASED_HIGHADJ` (4) changes; else 0.
    pub argument: u32,
}
const _: () = assert!(core::mem::size_of::<Relocation>() == 16);

/// The CLR header, `IMAGE_COR20_HEADER`.
#[repr(C)]
#[derive(Clone, Copy, Debug, Default, PartialEq, Eq)]
pub struct ClrHeader {
    /// Bytes of the header, as it says itself: 72 or more.
    pub cb: u32,
    /// The version of the runtime that is needed.
    pub major_runtime_version: u16,
    /// The version of the runtime that is needed, minor part.
    pub minor_runtime_version: u16,
    /// The metadata.
    pub metadata: Directory,
    /// `COMIMAGE_FLAGS_`.
    pub flags: u32,
    /// A metadata token; an RVA with `COMIMAGE_FLAGS_NATIVE_ENTRYPOINT` (0x10).
    pub entry_point_token: u32,
    /// Managed resources.
    pub resources: Directory,
    /// The strong name signature.
    pub strong_name_signature: Directory,
    /// 0
    pub code_manager_table: Directory,
    /// Fixups of tables of virtual functions.
    pub vtable_fixups: Directory,
    /// 0
    pub export_address_table_jumps: Directory,
    /// Of code that was compiled ahead of time (ReadyToRun), else 0.
    pub managed_native_header: Directory,
}
const _: () = assert!(core::mem::size_of::<ClrHeader>() == 72);

/// A walk over the streams of metadata.
#[repr(C)]
#[derive(Clone, Copy, Debug, Default, PartialEq, Eq)]
pub struct MetadataStreams {
    /// The metadata, from which the offsets of streams count.
    pub metadata: Range,
    /// The stream headers that are left, and the rest of the metadata.
    pub headers: Range,
    /// How many streams are left.
    pub count: u16,
    /// 0
    pub spare: u16,
    /// 0
    pub spare_too: u32,
}
const _: () = assert!(core::mem::size_of::<MetadataStreams>() == 40);

/// The root of the metadata.
#[repr(C)]
#[derive(Clone, Copy, Debug, Default, PartialEq, Eq)]
pub struct Metadata {
    /// Such as "v4.0.30319", up to the first zero, and the zeros after it; UTF-8 is not tested.
    pub version: Range,
    /// A walk for [`pe_c_next_metadata_stream`], at its start.
    pub streams: MetadataStreams,
    /// Of the format of metadata.
    pub major_version: u16,
    /// Of the format of metadata.
    pub minor_version: u16,
    /// Reserved.
    pub flags: u16,
    /// 0
    pub spare: u16,
}
const _: () = assert!(core::mem::size_of::<Metadata>() == 64);

/// A stream of CLR metadata.
#[repr(C)]
#[derive(Clone, Copy, Debug, Default, PartialEq, Eq)]
pub struct MetadataStream {
    /// Without its final zero; at most 31 bytes.
    pub name: Range,
    /// The stream's bytes; empty unless `has_content`.
    pub content: Range,
    /// Of the stream, from the start of the metadata.
    pub offset: u32,
    /// Of the stream in bytes.
    pub size: u32,
    /// 1 where the stream lies in the metadata, else 0.
    pub has_content: u32,
    /// 0
    pub spare: u32,
}
const _: () = assert!(core::mem::size_of::<MetadataStream>() == 48);

/// A text in the bytes.
#[repr(C)]
#[derive(Clone, Copy, Debug, Default, PartialEq, Eq)]
pub struct TextInBytes {
    /// What stands before the first zero.
    pub text: Range,
    /// 1 where a zero follows: then bytes + text.offset is a string of C; else 0.
    pub is_terminated: u32,
    /// 0
    pub spare: u32,
}
const _: () = assert!(core::mem::size_of::<TextInBytes>() == 24);

/// Room for what the calls that take runs find out of names and lists; what is in it has no meaning to callers, and
/// what is in it after a call is left open.
///
/// Names that share a text are read together as far as there are runs: a hostile file may let all of them start in one
/// long text. Others are read to their end each, so NULL and 0 do where a caller has no such files.
#[repr(C)]
#[derive(Clone, Copy, Debug, Default, PartialEq, Eq)]
pub struct Run {
    /// The offset of a name.
    pub start: u64,
    /// The offset of the zero after it.
    pub end: u64,
    /// Where the longest text starts that ends there.
    pub text: u64,
}
const _: () = assert!(core::mem::size_of::<Run>() == 24);

/// A COFF symbol with its name.
#[repr(C)]
#[derive(Clone, Copy, Debug, Default, PartialEq, Eq)]
pub struct NamedSymbol {
    /// The symbol.
    pub symbol: SymbolEntry,
    /// UTF-8, not NUL-terminated; empty after an error.
    pub name: Range,
    /// What [`pe_c_symbol_name`] returns: [`DONE`], or the error of this name alone.
    pub name_result: u32,
    /// 0
    pub spare: u32,
}
const _: () = assert!(core::mem::size_of::<NamedSymbol>() == 72);

/// A walk over COFF symbols with their names: of an object what [`pe_c_coff_symbols`] and [`pe_c_coff_strings`] return.
///
/// Without a string table the range is empty.
#[repr(C)]
#[derive(Clone, Copy, Debug, Default, PartialEq, Eq)]
pub struct NamedSymbolWalk {
    /// What [`pe_c_coff_symbols`] returns.
    pub symbols: SymbolWalk,
    /// What [`pe_c_coff_strings`] returns.
    pub strings: Range,
}
const _: () = assert!(core::mem::size_of::<NamedSymbolWalk>() == 40);

/// What is read of an item: the fields of its kind alone.
#[repr(C)]
#[derive(Clone, Copy, Debug, Default, PartialEq, Eq)]
pub struct FailedItem {
    /// A walk that is a range.
    pub range: Range,
    /// Of a walk over bound imports, or of symbols.
    pub table: Range,
    /// Of symbols.
    pub strings: Range,
    /// Of a symbol, or the offset of section headers.
    pub index: u64,
    /// A walk over libraries.
    pub libraries: Libraries,
    /// A walk over imports.
    pub imports: Imports,
    /// A walk over leaves.
    pub leaves: ResourceWalk,
    /// A walk over the functions of a DLL that is loaded later.
    pub functions: DelayedFunctions,
    /// A function on ARM64.
    pub function: Arm64Function,
    /// The RVA of the page of a block, the index of a directory, or a mode.
    pub number: u32,
    /// As which record that of an entry is read, as of [`pe_c_debug_failure`].
    pub record: u32,
    /// Of the debug directory.
    pub entry: DebugEntry,
    /// How many section headers there are.
    pub number_of_sections: u16,
    /// Is never read.
    pub spare: u16,
}
const _: () = assert!(core::mem::size_of::<FailedItem>() == 248);

/// The header, `MINIDUMP_HEADER`.
#[repr(C)]
#[derive(Clone, Copy, Debug, Default, PartialEq, Eq)]
#[cfg_attr(feature = "serde", derive(serde::Serialize))]
#[non_exhaustive]
pub struct DumpInfo {
    /// Entries of 12 bytes.
    pub directory: Range,
    /// What the writer was asked for, `MINIDUMP_TYPE`.
    pub flags: u64,
    /// A793h in the low 16 bits; the others are the writer's own.
    pub version: u32,
    /// The number of entries of the directory.
    pub number_of_streams: u32,
    /// Mostly 0.
    pub check_sum: u32,
    /// When the dump was written, in seconds since 1970.
    pub time_date_stamp: u32,
}
const _: () = assert!(core::mem::size_of::<DumpInfo>() == 40);

/// Where bytes are, `MINIDUMP_LOCATION_DESCRIPTOR`.
///
/// One of no bytes says that there are none.
#[repr(C)]
#[derive(Clone, Copy, Debug, Default, PartialEq, Eq)]
#[cfg_attr(feature = "serde", derive(serde::Serialize))]
pub struct DumpLocation {
    /// In bytes.
    pub size: u32,
    /// Offset in the dump.
    pub rva: u32,
}
const _: () = assert!(core::mem::size_of::<DumpLocation>() == 8);

/// An entry of the directory, `MINIDUMP_DIRECTORY`.
#[repr(C)]
#[derive(Clone, Copy, Debug, Default, PartialEq, Eq)]
#[cfg_attr(feature = "serde", derive(serde::Serialize))]
#[non_exhaustive]
pub struct DumpEntry {
    /// `PE_C_*_STREAM`; 0 is none.
    pub stream_type: u32,
    /// Where the stream is.
    pub location: DumpLocation,
}
const _: () = assert!(core::mem::size_of::<DumpEntry>() == 12);

/// The memory of a stack, `MINIDUMP_MEMORY_DESCRIPTOR`.
///
/// It may be empty: the pieces of memory have what there is of it.
#[repr(C)]
#[derive(Clone, Copy, Debug, Default, PartialEq, Eq)]
#[cfg_attr(feature = "serde", derive(serde::Serialize))]
#[non_exhaustive]
pub struct DumpThreadStack {
    /// Address of the first byte.
    pub start_of_memory_range: u64,
    /// Where its bytes are: nowhere at offset 0, which full dumps say, where the header is.
    pub memory: DumpLocation,
}
const _: () = assert!(core::mem::size_of::<DumpThreadStack>() == 16);

/// A thread, `MINIDUMP_THREAD`.
#[repr(C)]
#[derive(Clone, Copy, Debug, Default, PartialEq, Eq)]
#[cfg_attr(feature = "serde", derive(serde::Serialize))]
#[non_exhaustive]
pub struct DumpThread {
    /// The ID of the thread.
    pub thread_id: u32,
    /// 0 if it runs.
    pub suspend_count: u32,
    /// The priority class of the process.
    pub priority_class: u32,
    /// The priority of the thread.
    pub priority: u32,
    /// Address of its environment block.
    pub teb: u64,
    /// The memory of its stack.
    pub stack: DumpThreadStack,
    /// No bytes where it has none.
    pub thread_context: DumpLocation,
}
const _: () = assert!(core::mem::size_of::<DumpThread>() == 48);

/// The version of a module, `VS_FIXEDFILEINFO`.
///
/// A signature of 0 says that there is none.
#[repr(C)]
#[derive(Clone, Copy, Debug, Default, PartialEq, Eq)]
#[cfg_attr(feature = "serde", derive(serde::Serialize))]
#[non_exhaustive]
pub struct DumpVersion {
    /// FEEF04BDh.
    pub signature: u32,
    /// The version of this structure.
    pub struc_version: u32,
    /// Major part in the upper 16 bits, minor part in the lower.
    pub file_version_ms: u32,
    /// Build and revision.
    pub file_version_ls: u32,
    /// Of the product: major and minor part.
    pub product_version_ms: u32,
    /// Build and revision.
    pub product_version_ls: u32,
    /// Which bits of the flags are valid.
    pub file_flags_mask: u32,
    /// `VS_FF_*`.
    pub file_flags: u32,
    /// `VOS_*`.
    pub file_os: u32,
    /// `VFT_*`.
    pub file_type: u32,
    /// `VFT2_*`.
    pub file_subtype: u32,
    /// The date of the file, upper half.
    pub file_date_ms: u32,
    /// Lower half.
    pub file_date_ls: u32,
}
const _: () = assert!(core::mem::size_of::<DumpVersion>() == 52);

/// A module, `MINIDUMP_MODULE`.
#[repr(C)]
#[derive(Clone, Copy, Debug, Default, PartialEq, Eq)]
#[cfg_attr(feature = "serde", derive(serde::Serialize))]
#[non_exhaustive]
pub struct DumpModule {
    /// Address where it is loaded.
    pub base_of_image: u64,
    /// SizeOfImage of its image.
    pub size_of_image: u32,
    /// CheckSum of its image.
    pub check_sum: u32,
    /// TimeDateStamp of its image.
    pub time_date_stamp: u32,
    /// Its path, for [`pe_c_dump_text`].
    pub module_name_rva: u32,
    /// Its version.
    pub version_info: DumpVersion,
    /// Its CodeView record, which [`pe_c_codeview`] reads as a range. No bytes where there is none.
    pub cv_record: DumpLocation,
    /// Its `IMAGE_DEBUG_MISC`.
    pub misc_record: DumpLocation,
    /// 0
    #[cfg_attr(feature = "serde", serde(skip))]
    pub spare: u32,
}
const _: () = assert!(core::mem::size_of::<DumpModule>() == 96);

/// The name of a thread, `MINIDUMP_THREAD_NAME`.
#[repr(C)]
#[derive(Clone, Copy, Debug, Default, PartialEq, Eq)]
#[cfg_attr(feature = "serde", derive(serde::Serialize))]
#[non_exhaustive]
pub struct DumpThreadName {
    /// For [`pe_c_dump_text`].
    pub rva_of_thread_name: u64,
    /// The ID of the thread.
    pub thread_id: u32,
    /// 0
    #[cfg_attr(feature = "serde", serde(skip))]
    pub spare: u32,
}
const _: () = assert!(core::mem::size_of::<DumpThreadName>() == 16);

/// A module that was unloaded, `MINIDUMP_UNLOADED_MODULE`.
#[repr(C)]
#[derive(Clone, Copy, Debug, Default, PartialEq, Eq)]
#[cfg_attr(feature = "serde", derive(serde::Serialize))]
#[non_exhaustive]
pub struct DumpUnloaded {
    /// Address where it was loaded.
    pub base_of_image: u64,
    /// In bytes.
    pub size_of_image: u32,
    /// `CheckSum` of its image.
    pub check_sum: u32,
    /// `TimeDateStamp` of its image.
    pub time_date_stamp: u32,
    /// For [`pe_c_dump_text`].
    pub module_name_rva: u32,
}
const _: () = assert!(core::mem::size_of::<DumpUnloaded>() == 24);

/// More on a thread, `MINIDUMP_THREAD_INFO`.
#[repr(C)]
#[derive(Clone, Copy, Debug, Default, PartialEq, Eq)]
#[cfg_attr(feature = "serde", derive(serde::Serialize))]
#[non_exhaustive]
pub struct DumpThreadInfo {
    /// The ID of the thread.
    pub thread_id: u32,
    /// `MINIDUMP_THREAD_INFO_*`: 2 is the thread that wrote the dump.
    pub dump_flags: u32,
    /// An HRESULT of the writer.
    pub dump_error: u32,
    /// 259 while it runs.
    pub exit_status: u32,
    /// In 100 ns since 1601.
    pub create_time: u64,
    /// When it ended, likewise.
    pub exit_time: u64,
    /// In 100 ns.
    pub kernel_time: u64,
    /// Likewise.
    pub user_time: u64,
    /// Of its function.
    pub start_address: u64,
    /// The processors on which it may run.
    pub affinity: u64,
}
const _: () = assert!(core::mem::size_of::<DumpThreadInfo>() == 64);

/// A handle, `MINIDUMP_HANDLE_DESCRIPTOR`.
#[repr(C)]
#[derive(Clone, Copy, Debug, Default, PartialEq, Eq)]
#[cfg_attr(feature = "serde", derive(serde::Serialize))]
#[non_exhaustive]
pub struct DumpHandle {
    /// The value of the handle.
    pub handle: u64,
    /// For [`pe_c_dump_text`]; 0 if there is none.
    pub type_name_rva: u32,
    /// Likewise.
    pub object_name_rva: u32,
    /// Its attributes.
    pub attributes: u32,
    /// What its holder may do.
    pub granted_access: u32,
    /// How many handles its object has.
    pub handle_count: u32,
    /// How many references its object has.
    pub pointer_count: u32,
}
const _: () = assert!(core::mem::size_of::<DumpHandle>() == 32);

/// A region of memory, `MINIDUMP_MEMORY_INFO`.
#[repr(C)]
#[derive(Clone, Copy, Debug, Default, PartialEq, Eq)]
#[cfg_attr(feature = "serde", derive(serde::Serialize))]
#[non_exhaustive]
pub struct DumpRegion {
    /// Address of the first byte.
    pub base_address: u64,
    /// Address of the allocation that it is part of.
    pub allocation_base: u64,
    /// In bytes.
    pub region_size: u64,
    /// `PAGE_*`.
    pub allocation_protect: u32,
    /// `MEM_COMMIT`, `MEM_RESERVE` or `MEM_FREE`.
    pub state: u32,
    /// `PAGE_*`.
    pub protect: u32,
    /// `MEM_IMAGE`, `MEM_MAPPED` or `MEM_PRIVATE`.
    pub memory_type: u32,
}
const _: () = assert!(core::mem::size_of::<DumpRegion>() == 40);

/// The exception that a dump was written for, `MINIDUMP_EXCEPTION_STREAM`.
#[repr(C)]
#[derive(Clone, Copy, Debug, Default, PartialEq, Eq)]
#[cfg_attr(feature = "serde", derive(serde::Serialize))]
#[non_exhaustive]
pub struct DumpException {
    /// The ID of the thread.
    pub thread_id: u32,
    /// The code, as C0000005h.
    pub exception_code: u32,
    /// 1 if the thread cannot go on, or 0.
    pub exception_flags: u32,
    /// As the file says, so it may be above 15.
    pub number_parameters: u32,
    /// Address, in the process, of another exception that it belongs to, or 0.
    pub exception_record: u64,
    /// Of the instruction.
    pub exception_address: u64,
    /// Parameters: of an access violation 0 for a read, 1 for a write, 8 for execution, and the address.
    pub exception_information: [u64; 15],
    /// Of the thread as it crashed.
    pub thread_context: DumpLocation,
}
const _: () = assert!(core::mem::size_of::<DumpException>() == 160);

/// The system, `MINIDUMP_SYSTEM_INFO`.
#[repr(C)]
#[derive(Clone, Copy, Debug, Default, PartialEq, Eq)]
#[cfg_attr(feature = "serde", derive(serde::Serialize))]
#[non_exhaustive]
pub struct DumpSystem {
    /// 9 x64, 12 ARM64, 0 x86: of which machine the contexts are.
    pub processor_architecture: u16,
    /// The family of the processor.
    pub processor_level: u16,
    /// Its model and stepping.
    pub processor_revision: u16,
    /// The number of processors.
    pub number_of_processors: u8,
    /// `VER_NT_*`.
    pub product_type: u8,
    /// The version of the system, major part.
    pub major_version: u32,
    /// Minor part.
    pub minor_version: u32,
    /// The build of the system.
    pub build_number: u32,
    /// `VER_PLATFORM_*`.
    pub platform_id: u32,
    /// The name of the service pack, for [`pe_c_dump_text`].
    pub csd_version_rva: u32,
    /// `VER_SUITE_*`.
    pub suite_mask: u16,
    /// 0
    #[cfg_attr(feature = "serde", serde(skip))]
    pub spare: u16,
}
const _: () = assert!(core::mem::size_of::<DumpSystem>() == 32);

/// How long a process ran.
#[repr(C)]
#[derive(Clone, Copy, Debug, Default, PartialEq, Eq)]
#[cfg_attr(feature = "serde", derive(serde::Serialize))]
#[non_exhaustive]
pub struct DumpTimes {
    /// In seconds since 1970.
    pub process_create_time: u32,
    /// In seconds.
    pub process_user_time: u32,
    /// In seconds, in the kernel.
    pub process_kernel_time: u32,
}
const _: () = assert!(core::mem::size_of::<DumpTimes>() == 12);

/// The speed of the processor.
#[repr(C)]
#[derive(Clone, Copy, Debug, Default, PartialEq, Eq)]
#[cfg_attr(feature = "serde", derive(serde::Serialize))]
#[non_exhaustive]
pub struct DumpPower {
    /// The most that it may have, in MHz.
    pub processor_max_mhz: u32,
    /// What it had, in MHz.
    pub processor_current_mhz: u32,
    /// The limit that was set, in MHz.
    pub processor_mhz_limit: u32,
    /// The deepest idle state that it may have.
    pub processor_max_idle_state: u32,
    /// The idle state that it had.
    pub processor_current_idle_state: u32,
}
const _: () = assert!(core::mem::size_of::<DumpPower>() == 20);

/// What is known of a process, `MINIDUMP_MISC_INFO` and `_2`.
///
/// What is not there is 0.
#[repr(C)]
#[derive(Clone, Copy, Debug, Default, PartialEq, Eq)]
#[cfg_attr(feature = "serde", derive(serde::Serialize))]
#[non_exhaustive]
pub struct DumpProcess {
    /// As the writer says it.
    pub size_of_info: u32,
    /// `MINIDUMP_MISC1_*`.
    pub flags1: u32,
    /// With bit 0 of the flags.
    pub process_id: u32,
    /// With bit 1.
    pub process_times: DumpTimes,
    /// 1 with bit 2 in a stream of 44 bytes or more, else 0.
    pub has_processor_power: u32,
    /// The speed of the processor.
    pub processor_power: DumpPower,
}
const _: () = assert!(core::mem::size_of::<DumpProcess>() == 48);

/// A piece of memory, as [`pe_c_next_frame`] takes it with the bytes of the dump as its memory.
#[repr(C)]
#[derive(Clone, Copy, Debug, Default, PartialEq, Eq)]
#[cfg_attr(feature = "serde", derive(serde::Serialize))]
pub struct DumpPiece {
    /// Where its bytes are.
    pub memory: MemoryPiece,
    /// How many more bytes the dump says it has, which a truncated file does not have.
    pub lost: u64,
}
const _: () = assert!(core::mem::size_of::<DumpPiece>() == 32);

/// A walk over the pieces of a full dump.
#[repr(C)]
#[derive(Clone, Copy, Debug, Default, PartialEq, Eq)]
pub struct Memory64Walk {
    /// Those that are left, 16 bytes each.
    pub entries: Range,
    /// Offset of the bytes of the next piece.
    pub next: u64,
}
const _: () = assert!(core::mem::size_of::<Memory64Walk>() == 24);

/// A record of any kind: [`pe_c_dump_record`] writes the field of one kind.
#[repr(C)]
#[derive(Clone, Copy, Debug, Default, PartialEq, Eq)]
#[non_exhaustive]
pub struct DumpAnyRecord {
    /// [`THREAD_LIST_STREAM`].
    pub thread: DumpThread,
    /// [`MODULE_LIST_STREAM`].
    pub loaded: DumpModule,
    /// [`MEMORY_LIST_STREAM`].
    pub memory: DumpPiece,
    /// [`EXCEPTION_STREAM`].
    pub exception: DumpException,
    /// [`MEMORY64_LIST_STREAM`].
    pub memory64: Memory64Walk,
    /// [`HANDLE_DATA_STREAM`].
    pub handle: DumpHandle,
    /// [`UNLOADED_MODULE_LIST_STREAM`].
    pub unloaded: DumpUnloaded,
    /// [`MEMORY_INFO_LIST_STREAM`].
    pub region: DumpRegion,
    /// [`THREAD_INFO_LIST_STREAM`].
    pub thread_info: DumpThreadInfo,
    /// [`THREAD_NAMES_STREAM`].
    pub thread_name: DumpThreadName,
    /// [`SYSTEM_INFO_STREAM`].
    pub system: DumpSystem,
    /// [`MISC_INFO_STREAM`].
    pub process: DumpProcess,
    /// [`DUMP_ENTRIES`].
    pub entry: DumpEntry,
    /// Is never written.
    pub spare: u32,
}
const _: () = assert!(core::mem::size_of::<DumpAnyRecord>() == 632);

/// The registers of a thread on x64, CONTEXT.
#[repr(C)]
#[derive(Clone, Copy, Debug, Default, PartialEq, Eq)]
#[cfg_attr(feature = "serde", derive(serde::Serialize))]
pub struct Context {
    /// `xmm` is 0 where it was not saved.
    pub registers: Registers,
    /// `CONTEXT_*`: bit 3 says that xmm was saved.
    pub context_flags: u32,
    /// The flags of the processor.
    pub eflags: u32,
}
const _: () = assert!(core::mem::size_of::<Context>() == 400);

/// The registers of a thread on ARM64, `ARM64_NT_CONTEXT`.
#[repr(C)]
#[derive(Clone, Copy, Debug, Default, PartialEq, Eq)]
#[cfg_attr(feature = "serde", derive(serde::Serialize))]
pub struct Arm64Context {
    /// d8 to d15 are 0 where they were not saved.
    pub registers: Arm64Registers,
    /// `CONTEXT_ARM64_*`: bit 2 says that they were.
    pub context_flags: u32,
    /// The flags of the processor.
    pub cpsr: u32,
}
const _: () = assert!(core::mem::size_of::<Arm64Context>() == 336);

/// The registers of a thread on any machine: [`pe_c_read_dump_context`] writes those of one.
#[repr(C)]
#[derive(Clone, Copy, Debug, Default, PartialEq, Eq)]
#[non_exhaustive]
pub struct DumpAnyContext {
    /// On x64.
    pub x64: Context,
    /// On ARM64.
    pub arm64: Arm64Context,
}
const _: () = assert!(core::mem::size_of::<DumpAnyContext>() == 736);

/// What a PDB says of itself.
///
/// Streams are numbers for [`pe_c_pdb_stream`], or 0xFFFF for none.
#[repr(C)]
#[derive(Clone, Copy, Debug, Default, PartialEq, Eq)]
#[cfg_attr(feature = "serde", derive(serde::Serialize))]
#[non_exhaustive]
pub struct PdbInfo {
    /// The GUID, as [`Key`] has it.
    pub guid: [u8; 16],
    /// A walk over the modules, at its start, in the DBI stream, stream 3.
    pub modules: Range,
    /// The section contributions in the DBI stream: which module has which code.
    pub contributions: Range,
    /// The version of the info stream, 20000404 in what linkers write.
    pub version: u32,
    /// When the PDB was made, in seconds since 1970, or a number of the linker's.
    pub time_stamp: u32,
    /// How often the PDB was written; it may be greater than that of the image.
    pub age: u32,
    /// The age that [`Key`] of the image has.
    pub dbi_age: u32,
    /// The size of a block in bytes.
    pub block_size: u32,
    /// How many blocks the file has.
    pub number_of_blocks: u32,
    /// How many streams it has.
    pub number_of_streams: u32,
    /// [`DONE`], or why the DBI stream is refused: then what is read of it is 0, and streams are none.
    pub dbi_result: u32,
    /// `IMAGE_FILE_MACHINE_` of the image.
    pub machine: u16,
    /// Bit 0: linked incrementally; bit 1: private symbols are stripped; bit 2: has types that contradict one another.
    pub flags: u16,
    /// The version of the linker: bit 15 is set, then 7 bits and 8 bits, major and minor.
    pub build: u16,
    /// The stream of symbols: those that are public, and global ones.
    pub symbol_stream: u16,
    /// The stream with the section headers of the image.
    pub section_headers: u16,
    /// Those before a tool moved the code of the image, by which symbols count then.
    pub original_section_headers: u16,
    /// Where an RVA was before that, for [`pe_c_pdb_moved_rva`].
    pub omap_to_source: u16,
    /// Where an RVA of that is now.
    pub omap_from_source: u16,
}
const _: () = assert!(core::mem::size_of::<PdbInfo>() == 96);

/// A module, an object that was linked.
#[repr(C)]
#[derive(Clone, Copy, Debug, Default, PartialEq, Eq)]
pub struct PdbModule {
    /// In the DBI stream, without its final zero: the path of the object, or "* Linker *".
    pub name: Range,
    /// The path of the library that it is from, or of the object.
    pub file: Range,
    /// A walk over its symbols, at its start, in its stream; no bytes without any.
    pub symbols: Range,
    /// Its lines in its stream.
    pub lines: Range,
    /// Where its first code is in the section.
    pub code_offset: u32,
    /// How many bytes that is.
    pub code_size: u32,
    /// The number of that section, from 1 on.
    pub section: u16,
    /// Bit 0: written since the last link; bit 1: edit and continue.
    pub flags: u16,
    /// Its stream, or 0xFFFF without debug information.
    pub stream: u16,
    /// How many source files it has.
    pub number_of_files: u16,
}
const _: () = assert!(core::mem::size_of::<PdbModule>() == 80);

/// The record of a symbol.
#[repr(C)]
#[derive(Clone, Copy, Debug, Default, PartialEq, Eq)]
pub struct PdbSymbol {
    /// The record: the number of the bytes after that number, its kind, its content.
    pub range: Range,
    /// UTF-8, without its final zero; of a public symbol as linkers have it, mangled; of a procedure as in the source;
    /// no bytes of other records.
    pub name: Range,
    /// The RVA of a public symbol or procedure, where `result` is [`DONE`]; else 0.
    pub rva: u32,
    /// The size of a procedure's code in bytes; else 0.
    pub size: u32,
    /// The offset in its section.
    pub section_offset: u32,
    /// Of a public symbol bit 0: code; bit 1: a function; bit 2: managed code; bit 3: MSIL; of a procedure
    /// `CV_PROCFLAGS`.
    pub flags: u32,
    /// The number of its section, from 1 on.
    pub section: u16,
    /// `S_PUB32` 0x110E; of procedures `S_LPROC32` 0x110F, `S_GPROC32` 0x1110, 0x1146, 0x1147; or another.
    pub kind: u16,
    /// [`DONE`]; [`NOTHING`] without an RVA; or the number of an error of this record alone, and then no other field
    /// than `range` and `kind` is set.
    pub result: u32,
}
const _: () = assert!(core::mem::size_of::<PdbSymbol>() == 56);

/// A line of a source file, and its code.
#[repr(C)]
#[derive(Clone, Copy, Debug, Default, PartialEq, Eq)]
pub struct PdbLine {
    /// Where its code starts.
    pub rva: u32,
    /// How many bytes of code there are from there to the end of the subsection; the line's own may end before, at the
    /// next row.
    pub code_size: u32,
    /// The source file, for [`pe_c_pdb_file_name`].
    pub file: u32,
    /// The line, from 1 on; in an index also 0, 0xF00F00 and 0xFEEFEE, which are none.
    pub line: u32,
    /// The column, from 1 on; 0 where there is none.
    pub column: u32,
}
const _: () = assert!(core::mem::size_of::<PdbLine>() == 20);

/// An entry of an index of lines.
#[repr(C)]
#[derive(Clone, Copy, Debug, Default, PartialEq, Eq)]
pub struct PdbLineEntry {
    /// The line.
    pub line: PdbLine,
    /// Which one it is among those of the module.
    pub index: u32,
}
const _: () = assert!(core::mem::size_of::<PdbLineEntry>() == 24);

/// RVAs that are of one module.
#[repr(C)]
#[derive(Clone, Copy, Debug, Default, PartialEq, Eq)]
pub struct PdbModuleRange {
    /// The first RVA.
    pub start: u32,
    /// How many there are; 0 of a contribution in no section.
    pub size: u32,
    /// Which module it is, in the order of [`pe_c_list_pdb_modules`], from 0 on; it may be of none.
    pub module_index: u32,
}
const _: () = assert!(core::mem::size_of::<PdbModuleRange>() == 12);

/// An inlined function whose code is at an RVA, and which line of it that is.
#[repr(C)]
#[derive(Clone, Copy, Debug, Default, PartialEq, Eq)]
pub struct PdbInlined {
    /// Its name in the stream of ids, as in the source but without its scope, UTF-8, without its final zero; where
    /// `name_result` is [`DONE`].
    pub name: Range,
    /// The namespace that it is in, there too; no bytes in none.
    pub scope: Range,
    /// Which function it is: the index of its record in the stream of ids.
    pub id: u32,
    /// Of a member function its class, an index of the stream of types; else 0.
    pub class_type: u32,
    /// Its source file, for [`pe_c_pdb_file_name`], where `line_result` is [`DONE`].
    pub file: u32,
    /// The line, from 1 on; of a function that another one is inlined in, that of the call; or 0.
    pub line: u32,
    /// Where the code of that line starts, from the start of the procedure.
    pub code_offset: u32,
    /// How many bytes that is.
    pub code_size: u32,
    /// [`DONE`]; [`NOTHING`] without a name; or why the stream of ids, or the function's record in it, is refused.
    pub name_result: u32,
    /// [`DONE`]; [`NOTHING`] without a line; or why the lines of the module's inlined functions are refused.
    pub line_result: u32,
}
const _: () = assert!(core::mem::size_of::<PdbInlined>() == 64);

#[rustfmt::skip]
extern "C" {
    /// The number of the ABI is in the name of this call, and grows with each change that breaks callers.
    ///
    /// A program refers to the name from each file that includes pe.h, so it does not link with an archive of another
    /// ABI. Returns the number.
    pub fn pe_c_abi_5() -> u32;
    /// Writes the text of a result to the start of the array, in UTF-8, with a zero after it; where the array is too
    /// small as much of it as has room before the zero.
    ///
    /// Returns the length of the whole text in bytes, which is below 128.
    ///
    /// ```c
    /// char text[128];
    /// pe_c_text(result, text, sizeof text);
    /// printf("%s\n", text);
    /// ```
    pub fn pe_c_text(number: u32, room: *mut u8, length: usize) -> usize;
    /// Reads the headers of an image, which are at the same offsets in a file and in memory.
    ///
    /// Errors: [`Error::SHORT`], [`Error::BAD_MAGIC`] of the DOS header; [`Error::HEADER_POINTER`] in strict mode;
    /// [`Error::SHORT`], [`Error::BAD_MAGIC`] of the PE signature; [`Error::SHORT`] of the COFF header;
    /// [`Error::SHORT`], [`Error::BAD_MAGIC`] of the optional header; [`Error::SHORT`] of its fields and directories.
    pub fn pe_c_image(bytes: *const u8, length: usize, mode: u32, out: *mut ImageInfo) -> u32;
    /// Writes the section headers to the start of the array, `image->number_of_sections` of them, from
    /// `image->sections_offset` on; of `image` nothing else is read, so it reads those of an object too.
    ///
    /// The rest of the array is unchanged, and all of it after an error.
    ///
    /// Errors: [`ROOM`] where the array has fewer entries; [`Error::SHORT`] where the section headers are truncated.
    pub fn pe_c_sections(
        bytes: *const u8,
        length: usize,
        image: *const ImageInfo,
        room: *mut Section,
        entries: usize,
    ) -> u32;
    /// Returns the file offset of an RVA, by the first section that covers it; in an image as loaded the RVA itself.
    ///
    /// The bytes are not read, and the offset may be past their end. [`NOTHING`] where no section covers the RVA, or
    /// the file alignment is not a power of two. A section's data start at its raw pointer rounded down to a multiple
    /// of 512. Of a file whose alignment is below 512, as iPXE's, every call that maps RVAs so finds other offsets than
    /// a reader that does not round.
    pub fn pe_c_offset(view: *const View, rva: u32, out: *mut u64) -> u32;
    /// Reads all numbers of the headers of an image, which are at the same offsets in a file and in memory.
    ///
    /// Errors are those of [`pe_c_image`].
    pub fn pe_c_headers(bytes: *const u8, length: usize, mode: u32, out: *mut Headers) -> u32;
    /// Makes an index of the sections at the start of the array, and writes how many entries it has: two for each
    /// section.
    ///
    /// The array has to have four for each, of which the second half is left open; what follows is unchanged. Calls
    /// that take a view with these entries return what they return without them, and map each RVA by it: in steps that
    /// grow with the logarithm of the number of sections, not with that number itself: 65,535 in a hostile file. So do
    /// steps and walks of stacks, with scans. What maps no RVA still looks at all of them: [`pe_c_rva`], which maps an
    /// offset, [`pe_c_overlay`] and the lists of their names. Few calls, and images with few sections, as most, gain
    /// nothing by it. No entries, and [`DONE`], where no section is searched: in an image as loaded, and where the file
    /// alignment is not a power of two. An index in the view that is passed makes no difference. An index of other
    /// sections gives wrong offsets, and no other harm. With an index a walk keeps no sections, and needs none; nor
    /// does it under 32 sections or fewer, which are searched for less. Else a call over exports, imports, delay
    /// imports, resources or the records of a plan tests the section or two that its walk keeps, and searches all of
    /// them only for an RVA elsewhere; all other calls search all for each RVA. A section that may share an RVA with an
    /// earlier one, whose size is rounded up to a page, is not kept.
    ///
    /// Errors: [`ROOM`] where the array has too few entries; then `written` is how many it has to have.
    pub fn pe_c_index(view: *const View, room: *mut RangeEntry, entries: usize, written: *mut u64) -> u32;
    /// Returns the index of the section that maps an RVA: the first that covers it, by which [`pe_c_offset`] maps it.
    ///
    /// [`NOTHING`] where none does, and in an image as loaded, where no section maps RVAs. It never returns an error.
    pub fn pe_c_section_at(view: *const View, rva: u32, out: *mut u64) -> u32;
    /// Returns the bytes that the RVAs of a section are mapped to, one after the other, up to the end of the bytes.
    ///
    /// In an image as loaded they stand at the section's RVA, as many as its virtual size says, or its raw size where
    /// that is 0. [`NOTHING`] without any. It never returns an error.
    pub fn pe_c_section_range(view: *const View, section: *const Section, out: *mut Range) -> u32;
    /// Returns the bytes from an RVA to the end of what its section has in the file: the first section that covers the
    /// RVA, by which [`pe_c_offset`] maps it.
    ///
    /// In an image as loaded they go from the RVA to the end of the bytes. [`NOTHING`] where no section covers the RVA,
    /// and where the file has no byte there. It never returns an error.
    pub fn pe_c_range_at(view: *const View, rva: u32, out: *mut Range) -> u32;
    /// Returns the RVA that leads to a file offset, by the first section whose RVAs are mapped to it.
    ///
    /// Where sections share RVAs, [`pe_c_offset`] may map that RVA by another. In an image as loaded an offset is its
    /// own RVA. [`NOTHING`] where no section is mapped to the offset, and where the RVA has more than 32 bits. It never
    /// returns an error.
    pub fn pe_c_rva(view: *const View, offset: u64, out: *mut u32) -> u32;
    /// Writes the image as a loader lays it out to the start of the array, as many bytes as `size_of_image` says, and
    /// that size to `written`: at each RVA the byte of the file at the offset to which [`pe_c_offset`] maps it; where
    /// it maps it to none that of the headers, which are `size_of_headers` bytes at the start of the file; zeros
    /// elsewhere.
    ///
    /// What follows in the array is unchanged. The array does not overlap the file; it may be NULL if `room_length` is
    /// 0. The bytes at RVAs that the file maps are read of it with [`MAPPED`] as they are of the file; where no section
    /// covers an RVA, which of the file is [`Error::UNMAPPED`], so are those of the headers or zeros. `size_of_image`
    /// is what the headers say: up to 4 GB of a short file. Under many sections make an index first: without one each
    /// of them is searched for among all.
    ///
    /// Errors: [`ROOM`] where the array is smaller; then it is unchanged, and `written` is how many bytes it has to
    /// have.
    pub fn pe_c_map(view: *const View, room: *mut u8, room_length: usize, written: *mut u64) -> u32;
    /// Relocates an image as loaded, which [`pe_c_map`] wrote to the array, by the base relocations of the view: adds
    /// `difference`, the new base less the one that the image has, modulo 2^64, to the field of its header that has the
    /// base, and to each number that they name.
    ///
    /// No other byte changes. They are read from the bytes of the view, which the array does not overlap. [`NOTHING`]
    /// where the image has none; then it is unchanged.
    ///
    /// Errors, after which it is unchanged: [`Error::UNMAPPED`], [`Error::SHORT`] of the directory;
    /// [`Error::DIRECTORY_RELOCATION_OUTSIDE`] where the array does not have that field, or a number, in turn with
    /// [`Error::DIRECTORY_BLOCK_SIZE`], [`Error::DIRECTORY_BLOCK_TRUNCATED`], [`Error::SHORT`] and
    /// [`Error::DIRECTORY_NO_ARGUMENT`] of blocks and entries, and [`Error::DIRECTORY_RELOCATION_KIND`] of a type other
    /// than `IMAGE_REL_BASED_ABSOLUTE`, `_HIGH`, `_LOW`, `_HIGHLOW` and `_DIR64`.
    pub fn pe_c_relocate(view: *const View, difference: u64, room: *mut u8, room_length: usize) -> u32;
    /// Returns the range of a kind.
    ///
    /// [`NOTHING`] without one, and of another kind. Errors: those of the function of the kind.
    pub fn pe_c_image_range(view: *const View, kind: u32, out: *mut Range) -> u32;
    /// Returns the bytes of a directory by its index, `PE_C_DIRECTORY_BASERELOC` and others, as RVAs lead to them.
    ///
    /// [`NOTHING`] where it is absent. Errors: [`Error::UNMAPPED`], [`Error::SHORT`].
    pub fn pe_c_directory_table(view: *const View, index: u32, out: *mut Range) -> u32;
    /// Returns the name of a section in the string table: UTF-8, not NUL-terminated.
    ///
    /// [`NOTHING`] where its header has the name itself, and where no string is at the offset, NUL-terminated and
    /// UTF-8.
    ///
    /// Error: [`Error::SHORT`] where the table is not inside the bytes.
    pub fn pe_c_long_section_name(
        bytes: *const u8,
        length: usize,
        table: *const Range,
        section: *const Section,
        out: *mut Range,
    ) -> u32;
    /// Reads the header of an object, the 20 bytes at its start.
    ///
    /// Any bytes are such a header: look at `machine`.
    ///
    /// Error: [`Error::SHORT`].
    pub fn pe_c_coff(bytes: *const u8, length: usize, out: *mut CoffHeader) -> u32;
    /// Returns a walk over the symbols of an object or of an image, with the range of their table.
    ///
    /// [`NOTHING`] where the header's pointer to them is 0.
    ///
    /// Error: [`Error::SHORT`] where the table is truncated; a pointer past the end of the bytes is that even with 0
    /// entries.
    pub fn pe_c_coff_symbols(bytes: *const u8, length: usize, coff: *const CoffHeader, out: *mut SymbolWalk) -> u32;
    /// Returns the string table of an object or of an image, from its size field on.
    ///
    /// [`NOTHING`] where the header's pointer to the symbols is 0, and where the bytes end after these.
    ///
    /// Errors: [`Error::SHORT`] where the symbols are truncated; [`Error::STRING_TABLE`] where the string table is.
    pub fn pe_c_coff_strings(bytes: *const u8, length: usize, coff: *const CoffHeader, out: *mut Range) -> u32;
    /// Reads the next symbol of a walk.
    ///
    /// Error: [`Error::SHORT`] where the table is not inside the bytes.
    pub fn pe_c_next_symbol(bytes: *const u8, length: usize, walk: *mut SymbolWalk, out: *mut SymbolEntry) -> u32;
    /// Returns the name of the symbol in an entry of a symbol table: UTF-8, not NUL-terminated, in the entry or in the
    /// string table.
    ///
    /// A name there is read to its end. [`NOTHING`] past the last entry. Without a string table pass an empty range.
    ///
    /// Errors: [`Error::SHORT`] where the symbol table, then where the string table is not inside the bytes;
    /// [`Error::STRING_TABLE`] where no string is at the offset, NUL-terminated and UTF-8, or where the name in the
    /// entry is not UTF-8.
    pub fn pe_c_symbol_name(
        bytes: *const u8,
        length: usize,
        table: *const Range,
        strings: *const Range,
        index: u64,
        out: *mut Range,
    ) -> u32;
    /// Returns the Rich header.
    ///
    /// [`NOTHING`] where the bytes before the PE header have none.
    ///
    /// Error: [`Error::SHORT`] of the DOS header.
    pub fn pe_c_rich_header(bytes: *const u8, length: usize, out: *mut RichHeader) -> u32;
    /// Returns the next entry.
    ///
    /// `key` is that of the header, and the walk starts as its entries.
    ///
    /// Error: [`Error::SHORT`] of the entry.
    pub fn pe_c_next_rich_entry(
        bytes: *const u8,
        length: usize,
        key: u32,
        walk: *mut Range,
        out: *mut RichEntry,
    ) -> u32;
    /// Returns the next entry of the debug directory.
    ///
    /// Errors: [`Error::SHORT`] where the walk is not inside the bytes, or its last entry is truncated.
    pub fn pe_c_next_debug_entry(bytes: *const u8, length: usize, walk: *mut Range, out: *mut DebugEntry) -> u32;
    /// Returns the symbol key of a CodeView record that stands alone, as a minidump has one of each module: no other
    /// debug data is read, and no damage there is an error.
    ///
    /// [`NOTHING`] where it is not a record of PDB 7.0.
    ///
    /// Errors: [`Error::SHORT`] where the range is not inside the bytes; [`Error::DEBUG_SIZE`] where it has fewer than
    /// 24 bytes.
    pub fn pe_c_codeview(bytes: *const u8, length: usize, record: *const Range, out: *mut Key) -> u32;
    /// Returns the symbol key: the record of the first CodeView entry, if it is one of PDB 7.0.
    ///
    /// [`NOTHING`] also without such an entry. It reads no other entry's record: it is the field `key` of what
    /// [`pe_c_debug_data`] reads.
    ///
    /// Errors: those of [`pe_c_debug_entries`], then those of `key` of [`pe_c_debug_record`].
    pub fn pe_c_symbol_key(view: *const View, out: *mut Key) -> u32;
    /// Reads the record of the first entry of each type.
    ///
    /// A truncated last entry is none. It always returns [`DONE`]: each record has a result of its own, the error of
    /// [`pe_c_debug_entries`], or else as of [`pe_c_debug_record`].
    pub fn pe_c_debug_data(view: *const View, out: *mut DebugRecords) -> u32;
    /// Reads the record of an entry that the caller has, in a mode, by the type that the entry says.
    ///
    /// It always returns [`DONE`]: each record has a result of its own, [`NOTHING`] of another type.
    ///
    /// Errors: of `key` [`Error::DEBUG_SIZE`] where the entry's size is below 24, in strict mode, and [`NOTHING`] in
    /// permissive mode; [`Error::SHORT`] of the first 24 bytes; [`Error::DEBUG_DATA`] of the name. Of `pdb20` the same
    /// with 16 for 24. Of `repro` [`Error::SHORT`] of the hash's length; [`Error::DEBUG_DATA`] of the hash. Of `pogo`
    /// [`Error::SHORT`] of the signature; [`Error::POGO_SIZE`] where the entry's size is at most 4;
    /// [`Error::DEBUG_DATA`] of the entries. Of `embedded` [`Error::DEBUG_SIZE`] where the entry's size is below 8;
    /// [`Error::SHORT`] of the first 8 bytes; [`Error::BAD_MAGIC`]; [`Error::DEBUG_DATA`] of the compressed data. Of
    /// `checksum` [`Error::DEBUG_DATA`]; [`Error::DEBUG_SIZE`] where no zero ends the name of the algorithm. Of
    /// `features` and `characteristics` [`Error::SHORT`], whatever the entry's size is.
    pub fn pe_c_debug_record(
        bytes: *const u8,
        length: usize,
        mode: u32,
        entry: *const DebugEntry,
        out: *mut DebugRecords,
    ) -> u32;
    /// Reads the header of a TE image, the 40 bytes at its start.
    ///
    /// Errors: [`Error::SHORT`]; [`Error::BAD_MAGIC`]; [`Error::TE_SIZE`] where fewer than 40 bytes were stripped.
    pub fn pe_c_te(bytes: *const u8, length: usize, out: *mut TeHeader) -> u32;
    /// Writes the section headers of a TE image to the start of the array, `te->number_of_sections` of them, their RVAs
    /// and raw pointers reduced by `te->rva_offset`.
    ///
    /// The rest of the array is unchanged, and all of it after an error.
    ///
    /// Errors: [`ROOM`] where the array is smaller; [`Error::SHORT`] where the section headers are truncated.
    pub fn pe_c_te_sections(
        bytes: *const u8,
        length: usize,
        te: *const TeHeader,
        room: *mut Section,
        entries: usize,
    ) -> u32;
    /// Returns the entries of the debug directory as a walk for [`pe_c_next_te_debug_entry`].
    ///
    /// [`NOTHING`] where the directory is absent. Error: [`Error::DEBUG_BOUNDS`].
    pub fn pe_c_te_debug_entries(bytes: *const u8, length: usize, te: *const TeHeader, out: *mut Range) -> u32;
    /// Reads the next entry, the RVA and the file offset of its record reduced by `te->rva_offset`.
    ///
    /// The calls that take an entry read its record with [`MAPPED`].
    ///
    /// Error: [`Error::SHORT`] where an entry is truncated.
    pub fn pe_c_next_te_debug_entry(
        bytes: *const u8,
        length: usize,
        te: *const TeHeader,
        walk: *mut Range,
        out: *mut DebugEntry,
    ) -> u32;
    /// Returns the next attribute certificate.
    ///
    /// The walk starts as the range of the directory: `virtual_address` and size of
    /// `image.directories[PE_C_DIRECTORY_SECURITY]`. The body of the last certificate may end past the table, not past
    /// the file.
    ///
    /// Errors: [`Error::CERTIFICATE_TABLE`] where the walk is not inside the bytes; [`Error::SHORT`] of the header;
    /// [`Error::CERTIFICATE_SIZE`], [`Error::CERTIFICATE_REVISION`], [`Error::CERTIFICATE_TYPE`].
    pub fn pe_c_next_certificate(bytes: *const u8, length: usize, walk: *mut Range, out: *mut Certificate) -> u32;
    /// Reads the part that a range starts with, as one of a kind, [`PART_SIGNATURE`] and others, into the field of the
    /// kind alone.
    ///
    /// The other fields are unchanged, and none need be initialised. [`NOTHING`] of another kind. Errors: those of the
    /// function of the kind, below.
    pub fn pe_c_signature_part(
        bytes: *const u8,
        length: usize,
        range: *const Range,
        kind: u32,
        failure: *mut SignatureFailure,
        out: *mut AnyPart,
    ) -> u32;
    /// Returns the next element of a list: certificates, signers, attributes, their values, extensions, algorithms.
    ///
    /// The walk starts as the range of the list. A member of the list that another call refuses does not end the walk.
    pub fn pe_c_next_element(
        bytes: *const u8,
        length: usize,
        walk: *mut Range,
        failure: *mut SignatureFailure,
        out: *mut DerElement,
    ) -> u32;
    /// Finds an attribute of a signer by the id of its type, such as `PE_C_OID_MESSAGE_DIGEST`: the first in a walk
    /// over `signed_attributes` or `unsigned_attributes`.
    ///
    /// Moves `walk` past it, so that the next call finds the next one. [`NOTHING`] where there is none; then `walk` is
    /// at its end. The id 0 is that of every type that has none here. An attribute before it that is refused is an
    /// error, after which `walk` is past that one; after another error it is over.
    pub fn pe_c_find_attribute(
        bytes: *const u8,
        length: usize,
        walk: *mut Range,
        id: u32,
        failure: *mut SignatureFailure,
        out: *mut SignerAttribute,
    ) -> u32;
    /// Returns the next attribute of a name, in the order of the name: the country mostly first.
    pub fn pe_c_next_name_attribute(
        bytes: *const u8,
        length: usize,
        walk: *mut NameWalk,
        failure: *mut SignatureFailure,
        out: *mut NameAttribute,
    ) -> u32;
    /// Returns what the Authenticode digest of an image covers.
    ///
    /// Errors: those of [`pe_c_image`]; [`Error::NO_OPTIONAL_HEADER`].
    pub fn pe_c_digest_ranges(view: *const View, out: *mut Digest) -> u32;
    /// Returns the checksum that an image should have, and where its field is.
    ///
    /// Errors: those of [`pe_c_image`]; [`Error::NO_OPTIONAL_HEADER`].
    pub fn pe_c_checksum(view: *const View, out: *mut ChecksumField) -> u32;
    /// Writes the file with a certificate to the start of the array, and its length to `written`: zeros up to a
    /// multiple of eight bytes, the certificate, zeros again, the entry of the certificate directory and the checksum.
    ///
    /// What the digest covers stays as it was. The rest of the array is unchanged, and all of it after an error. The
    /// array overlaps neither the file nor the certificate; it may be NULL if `room_length` is 0, and the certificate
    /// if `certificate_length` is. `certificate` is one or more entries of a certificate table (`WIN_CERTIFICATE`),
    /// each but the last with its padding to a multiple of eight bytes; `placement` is `PE_C_AFTER` or `PE_C_IN_PLACE`.
    ///
    /// Errors: those of [`pe_c_image`]; [`Error::NO_OPTIONAL_HEADER`]; [`Error::SIGN_NO_DIRECTORY`] where the image has
    /// fewer than five directories; [`Error::CERTIFICATE_TABLE`] where the table passes the end of the file,
    /// [`Error::SIGN_TABLE_NOT_LAST`] where it ends before that; [`Error::SIGN_HEADERS`], [`Error::SIGN_SECTION`] where
    /// headers or the data of a section end after the start of the table, or after the end of the file without one;
    /// [`Error::SIGN_TABLE_OFFSET`] where the certificate is to go after others whose table is not at a multiple of
    /// eight; [`Error::SHORT`], [`Error::CERTIFICATE_SIZE`] of a certificate shorter than eight bytes, or than its
    /// first entry says; [`Error::SIGN_TOO_LARGE`] where the file with it has 2^32 bytes or more; [`ROOM`].
    pub fn pe_c_attach(
        view: *const View,
        certificate: *const u8,
        certificate_length: usize,
        placement: u32,
        room: *mut u8,
        room_length: usize,
        written: *mut u64,
    ) -> u32;
    /// Writes the file without certificates to the start of the array, and its length to `written`: all before the
    /// certificate table, with zeros in the entry of the certificate directory, and the checksum.
    ///
    /// An image without certificates stays as it is, but for its checksum. The rest of the array is unchanged, and all
    /// of it after an error. The array does not overlap the file; it may be NULL if `room_length` is 0.
    ///
    /// Errors: those of [`pe_c_attach`] up to [`Error::SIGN_SECTION`]; [`ROOM`].
    pub fn pe_c_detach(view: *const View, room: *mut u8, room_length: usize, written: *mut u64) -> u32;
    /// Writes the sections of the view into the array: for each its data at `pointer_to_raw_data`, its header, and
    /// zeros after the data up to a multiple of `unit` bytes, no zeros where that is 0.
    ///
    /// The headers are written one after the other, from `next` on, which moves past them.
    ///
    /// Errors: [`Error::WRITE_OVERLAP`] where two sections that are not equal share a byte of the file;
    /// [`Error::WRITE_SECTION`] where the data of one are not in the file; [`Error::WRITE_FIT`] where a piece does not
    /// fit into the array.
    pub fn pe_c_write_sections(view: *const View, unit: u32, room: *mut u8, room_length: usize, next: *mut u64) -> u32;
    /// Writes the certificates into the array, one after the other from the offset of their directory on.
    ///
    /// Puts the offset after the last one to `out`, 0 where none is written. The sections of the view make no
    /// difference.
    ///
    /// Errors: those of [`pe_c_image`]; in strict mode those of [`pe_c_next_certificate`], of all certificates;
    /// [`Error::NO_OPTIONAL_HEADER`]; [`Error::WRITE_FIT`] where a certificate does not fit into the array.
    pub fn pe_c_write_certificates(view: *const View, room: *mut u8, room_length: usize, out: *mut u64) -> u32;
    /// Writes the image into the array: the DOS header, the stub, the PE signature, the COFF header and the optional
    /// header where the headers have them; the sections of the view as [`pe_c_write_sections`] does, up to multiples of
    /// the file alignment, with their headers in the section table; the certificates.
    ///
    /// Puts to `written` the greatest of three offsets: the start of the section table, the end of the data of the last
    /// section with the greatest raw pointer, the end of the certificates. Without a section the first may lie past the
    /// end of the array. With [`ROOM`] `written` is the greatest end of what is written.
    ///
    /// Errors: those of [`pe_c_image`]; in strict mode those of [`pe_c_next_certificate`], of all certificates;
    /// [`Error::NO_OPTIONAL_HEADER`]; [`Error::WRITE_ALIGNMENT`] where the file alignment is no power of two;
    /// [`Error::WRITE_SYMBOLS`] where the pointer to COFF symbols is not 0; [`Error::WRITE_OVERLAP`],
    /// [`Error::WRITE_SECTION`] as of [`pe_c_write_sections`]; [`Error::WRITE_FIT`] where no array is long enough;
    /// [`ROOM`].
    pub fn pe_c_write_image(view: *const View, room: *mut u8, room_length: usize, written: *mut u64) -> u32;
    /// Writes the whole file into the array, and over it what [`pe_c_write_image`] writes, but no zeros after sections.
    ///
    /// So COFF symbols and bytes between sections and after them stay as they are in the file. An image without
    /// certificates whose sections are unchanged comes back byte for byte. Puts to `written` the greater of the file's
    /// length and of what [`pe_c_write_image`] puts there, which may lie past the end of the array as there. With
    /// [`ROOM`] `written` is the length of the file, or the greatest end of what is written over it if that is greater.
    ///
    /// Errors: those of [`pe_c_write_image`] but for [`Error::WRITE_ALIGNMENT`] and [`Error::WRITE_SYMBOLS`].
    pub fn pe_c_write_whole(view: *const View, room: *mut u8, room_length: usize, written: *mut u64) -> u32;
    /// Returns the range of the function table of an image for a machine, 0x8664 for x64 or 0xAA64 for ARM64,
    /// `IMAGE_FILE_MACHINE_*`.
    ///
    /// [`NOTHING`] without one, in an image for another machine, and for other numbers.
    ///
    /// Errors: [`Error::EXCEPTION_SIZE`], [`Error::UNMAPPED`], [`Error::EXCEPTION_OFFSET`],
    /// [`Error::EXCEPTION_BOUNDS`].
    pub fn pe_c_exception_table(view: *const View, machine: u32, out: *mut Range) -> u32;
    /// Returns the function that covers an RVA, by binary search, or [`NOTHING`].
    ///
    /// In a table sorted by start RVA that is the last function that starts at or before the RVA, if the RVA is before
    /// its end; in any other table it is some function that covers the RVA, or [`NOTHING`].
    ///
    /// Errors: [`Error::SHORT`] where the table is not inside the bytes.
    pub fn pe_c_find_function(
        bytes: *const u8,
        length: usize,
        table: *const Range,
        rva: u32,
        out: *mut Function,
    ) -> u32;
    /// Returns the unwind record of an unwind RVA, the field `unwind` of a function of this table, which
    /// [`pe_c_function_table`] returned.
    ///
    /// An odd one is a link to another entry of the table; links are followed to their end.
    ///
    /// Errors: [`Error::SHORT`] where the table is not inside the bytes; [`Error::UNMAPPED`], [`Error::FUNCTION_LINK`],
    /// [`Error::FUNCTION_CYCLE`] of the links; [`Error::UNMAPPED`], [`Error::SHORT`], [`Error::UNWIND_VERSION`] of the
    /// record.
    pub fn pe_c_unwind_record(view: *const View, table: *const Range, unwind: u32, out: *mut Record) -> u32;
    /// Returns the scope table in a record's `handler_data` as a walk for [`pe_c_next_scope`].
    ///
    /// [`NOTHING`] where it is truncated. Only a handler such as `__C_specific_handler` has one: the caller knows it by
    /// the handler's RVA. Functions may share one table: n hostile bytes have n/12 functions of n/16 scopes. Bound what
    /// you read for all of them.
    ///
    /// Errors: [`Error::SHORT`] where `handler_data` is not inside the bytes.
    pub fn pe_c_scope_table(bytes: *const u8, length: usize, handler_data: *const Range, out: *mut Range) -> u32;
    /// Returns the next entry of a scope table.
    ///
    /// Errors: [`Error::SHORT`] where the walk is not inside the bytes, or its last entry is truncated.
    pub fn pe_c_next_scope(bytes: *const u8, length: usize, walk: *mut Range, out: *mut Scope) -> u32;
    /// Returns the next record of a plan: that of the function, then that of the function to which it is chained, and
    /// so on.
    ///
    /// [`NOTHING`] after the root. The table is the one that the function is from: pass the same one at each step.
    ///
    /// Errors: those of [`pe_c_unwind_record`] for the next record; [`Error::FUNCTION_CYCLE`] if, and only if, the
    /// chain of a plan that `pe_c_plan_from` started never ends. Records may be returned before that error. Such a plan
    /// is over after at most 3 * 2^32 records; a plan with other fields may never be over.
    pub fn pe_c_next_record(view: *const View, table: *const Range, walk: *mut PlanWalk, out: *mut Record) -> u32;
    /// Finds the registers of a function's caller, from those inside the function, in its prolog and epilogs too, and
    /// writes them over those of the frame.
    ///
    /// It undoes the records of `frame->function`, which is of the table, up to the root of their chain, or runs what
    /// is left of an epilog. Where that ends with a jump to an RVA, it runs it up to the jump, and undoes the records
    /// of the function that the table has there, if they can be read: the jump may go on in a part of the function. A
    /// leaf function returns to the word at rsp; of it neither the view nor the table nor the code is read.
    ///
    /// `memory` has the bytes of all pieces of the stack, as a minidump file has, and `pieces` says where each is; a
    /// stack in one piece is a list of one. The byte at an address is that of the first piece that has it, so eight
    /// bytes may stand in pieces that touch. Pieces in ascending order that do not overlap are searched by halving, any
    /// others in turn for each byte. Each call tests all pieces once. After [`Error::MISSING`] a caller reads a piece
    /// that has the eight bytes at `frame->address`, and makes the same call again.
    ///
    /// In the top frame, and in one that an interrupt stopped, `frame->rva` is that of the instruction which is about
    /// to run: look the function up by it, and pass in `code` the bytes of the function from it to
    /// `frame->function`.end, as the image has them at [`pe_c_offset`]. In every other frame it is that of a return
    /// address, which may lie at the end of the function: look the function up by `frame->rva` - 1, and pass no code.
    /// Without code epilogs are not recognized.
    ///
    /// Errors: [`Error::SHORT`] where a piece is not inside the memory. Of a leaf function [`Error::MISSING`] of the
    /// return address, and [`Error::BAD_ADDRESS`] where it is the last word below 2^64. Of any other [`Error::SHORT`]
    /// where the table is not inside the bytes; for each record those of [`pe_c_unwind_record`], and
    /// [`Error::LONG_CHAIN`] where more than 32 are chained, as in each loop. In an epilog for each instruction
    /// [`Error::MISSING`], [`Error::BAD_ADDRESS`]. Else, and at the target of its jump, for each record
    /// [`Error::SHORT`], [`Error::UNWIND_CODE`] of its codes, [`Error::BAD_OPERATION`], [`Error::BAD_ADDRESS`] of its
    /// frame register; for each code [`Error::BAD_OPERATION`], [`Error::BAD_ADDRESS`], [`Error::MISSING`]; then
    /// [`Error::MISSING`], [`Error::BAD_ADDRESS`] of the return address. Last [`Error::NOT_RISING`], but for
    /// interrupts: so a walk ends.
    pub fn pe_c_step(
        view: *const View,
        table: *const Range,
        code: *const u8,
        code_length: usize,
        memory: *const u8,
        memory_length: usize,
        pieces: *const MemoryPiece,
        piece_count: usize,
        frame: *mut Frame,
    ) -> u32;
    /// Returns the next frames of a stack walk on x64: first the top frame, and then the caller of each, through the
    /// modules of a process.
    ///
    /// Each of `frames` is the walk as it is after a frame, and `count` how many there are. [`NOTHING`] where the walk
    /// was over before all were filled: `walk->end` says why, and the others stay unchanged. An array of no entries is
    /// always filled. The caller keeps the walk between two calls, and may copy it.
    ///
    /// An address is that of the first module that has it: by binary search in modules in ascending order that do not
    /// overlap, in any others in turn. The modules are tested in each call, and may differ from call to call. `memory`
    /// and `pieces` are as in [`pe_c_step`]. The first call of a walk tests all pieces. Where they ascend and do not
    /// overlap it sets `walk->is_searched`, of a walk that is over too, and later calls find a piece by halving and
    /// test only those that they read: pass the same pieces in all calls of a walk, or set `walk->is_searched` to 0 for
    /// others. With others a word may be unknown, as [`Error::MISSING`], or be one of another piece that has the
    /// address; no byte outside of the memory is ever read.
    ///
    /// In each frame the function is looked up by rip, or by the byte before it where the function has called. Its
    /// epilogs are known by their code in the image, and a jump out of it is followed. Where no records describe the
    /// code of the top frame, or of one that was interrupted, the caller is found by the return address at rsp, if a
    /// call ends there or it is in a module without an image, else by the first of 128 words from rsp on that is after
    /// a call in an executable section: the last section of its module that starts at or before the call's last byte is
    /// asked, so sections have to be in ascending order. In a frame that has called it is the first such word. In a
    /// module with an image the frame pointer comes before such a word where rbp leads to two words, the frame pointer
    /// of the caller, which is higher or 0, and at or above rsp a return address. In a module without one, where none
    /// is found, each address of such a module is a return address: rbp leads on, else the first such word does. In a
    /// module with a table that has no function there, the word whose call, E8, leads nearest before the frame among
    /// such code comes before all but a call at rsp and a frame pointer that leads lower on the stack. What is found so
    /// may be wrong: `walk->is_guess` says so of each frame, but not of the caller of code in a module with a table
    /// that has no function there, if both are executable and a call ends at the return address: that is a leaf
    /// function. Without such a call a leaf function of a module, which was jumped to, returns to executable code. Only
    /// past an interrupt may the stack pointer not rise.
    ///
    /// Errors, which change nothing: [`Error::SHORT`] where the table of a module is not inside its bytes, or, where
    /// `walk->is_searched` is 0, a piece not inside the memory.
    pub fn pe_c_next_frames(
        modules: *const Module,
        module_count: usize,
        memory: *const u8,
        memory_length: usize,
        pieces: *const MemoryPiece,
        piece_count: usize,
        walk: *mut StackWalk,
        frames: *mut StackWalk,
        frame_count: usize,
        count: *mut u64,
    ) -> u32;
    /// Returns the function that covers an RVA, by binary search, or [`NOTHING`].
    ///
    /// In a table sorted by start RVA that is the last function that starts at or before the RVA, if it is long enough;
    /// in any other table it is some function that covers the RVA, or [`NOTHING`]. The length is packed into the entry,
    /// or stands in the first word of its unwind record.
    ///
    /// Errors: [`Error::SHORT`] where the table is not inside the bytes; of that record [`Error::UNMAPPED`], and
    /// [`Error::SHORT`] where its first word is truncated.
    pub fn pe_c_find_arm64_function(view: *const View, table: *const Range, rva: u32, out: *mut Arm64Function) -> u32;
    /// Returns the fields of packed unwind data.
    ///
    /// It always returns [`DONE`].
    pub fn pe_c_arm64_packed_fields(function: *const Arm64Function, out: *mut Arm64Packed) -> u32;
    /// Returns the unwind record of a function.
    ///
    /// [`NOTHING`] where its unwind data is packed.
    ///
    /// Errors: those of [`pe_c_arm64_table`], also where the data is packed; [`Error::UNMAPPED`], [`Error::SHORT`],
    /// [`Error::ARM64_VERSION`] of the record.
    pub fn pe_c_arm64_unwind_record(view: *const View, function: *const Arm64Function, out: *mut Arm64Record) -> u32;
    /// Returns the next epilog scope of a record.
    ///
    /// Functions may share one record: n hostile bytes have n/8 functions of 65,535 scopes, or of n/4 if that is less.
    /// Bound what you read for all of them.
    ///
    /// Errors: [`Error::SHORT`] where the walk is not inside the bytes, or its last scope is truncated.
    pub fn pe_c_next_arm64_scope(bytes: *const u8, length: usize, walk: *mut Range, out: *mut Arm64Scope) -> u32;
    /// Returns a walk over a record's codes.
    ///
    /// `start` is the index of the first code byte: 0 for the prolog, `start_index` of a scope or `epilog_start` for an
    /// epilog.
    ///
    /// Errors: [`Error::SHORT`] where the codes are not inside the bytes; [`Error::ARM64_STREAM`] where their length is
    /// not a multiple of 4, is above 4,294,967,292, or is below the start.
    pub fn pe_c_arm64_codes(
        bytes: *const u8,
        length: usize,
        codes: *const Range,
        start: u64,
        out: *mut Arm64Walk,
    ) -> u32;
    /// Finds the registers of a function's caller, from those inside the function, and writes them over those of the
    /// frame.
    ///
    /// It undoes the codes of `frame->function`, which are those of its unwind record or what its packed unwind data
    /// stand for: after the prolog all of them, inside of it and in an epilog those that are left. It takes a signature
    /// off the link register. The caller of a leaf function goes on at the link register; of it neither the view nor
    /// the memory is read.
    ///
    /// `memory` and `pieces` are as in [`pe_c_step`]. After [`Error::MISSING`] a caller reads a piece that has the
    /// eight bytes at `frame->address`, and makes the same call again.
    ///
    /// In the top frame, and after a step that set `frame->interrupted` to 1, `frame->rva` is that of the instruction
    /// which is about to run: look the function up by it. In every other frame it is that of a return address, which
    /// may lie at the end of the function: look the function up by `frame->rva` - 4. Only the top frame can be one of a
    /// leaf function. A step may leave the stack pointer where it is, before a prolog has moved it: end a walk where
    /// one does so in any other frame.
    ///
    /// Errors: [`Error::SHORT`] where a piece is not inside the memory. Of a leaf function no other. Of the record
    /// [`Error::UNMAPPED`], [`Error::SHORT`], [`Error::ARM64_VERSION`]; then [`Error::ARM64_CUT`] of a code up to the
    /// first `PE_C_ARM64_END`, in an epilog of its codes too. Or [`Error::BAD_OPERATION`] where packed unwind data have
    /// no canonical prolog. For each code [`Error::BAD_OPERATION`], [`Error::BAD_ADDRESS`], [`Error::MISSING`]. Last
    /// [`Error::NOT_RISING`] where the caller's stack pointer is below that of the function.
    pub fn pe_c_step_arm64(
        view: *const View,
        memory: *const u8,
        memory_length: usize,
        pieces: *const MemoryPiece,
        piece_count: usize,
        frame: *mut Arm64Frame,
    ) -> u32;
    /// As [`pe_c_next_frames`], on ARM64.
    ///
    /// In each frame the function is looked up by pc, or by the call, four bytes before it, where the function has
    /// called. Where no unwind data describe the code of the top frame, or of one that was interrupted, the caller is
    /// found by the link register, if a call ends there or it is in a module without an image, else by the first of 128
    /// words from the stack pointer on that is, without its signature, after a call in an executable section; in a
    /// frame that has called by the first such word. In a module, also one without an image, x29 comes before such a
    /// word, as rbp does on x64; the stack pointer is then that after the two words, and may be too low. In a module
    /// without an image, where none is found, it is the first word that is an address of such a module. The stack
    /// pointer may stay where it is in the first two alone, and sink past an interrupt alone.
    ///
    /// Errors, which change nothing: those of [`pe_c_next_frames`].
    pub fn pe_c_next_arm64_frames(
        modules: *const Module,
        module_count: usize,
        memory: *const u8,
        memory_length: usize,
        pieces: *const MemoryPiece,
        piece_count: usize,
        walk: *mut Arm64StackWalk,
        frames: *mut Arm64StackWalk,
        frame_count: usize,
        count: *mut u64,
    ) -> u32;
    /// Returns the fields of the export directory, whatever its tables are.
    ///
    /// [`NOTHING`] without a directory.
    ///
    /// Errors: [`Error::UNMAPPED`], [`Error::SHORT`] of its 40 bytes.
    pub fn pe_c_export_directory(view: *const View, out: *mut ExportFields) -> u32;
    /// Returns the tables of the export directory, where a walk starts.
    ///
    /// [`NOTHING`] without a directory.
    ///
    /// Errors: [`Error::UNMAPPED`], [`Error::SHORT`] of the directory, then of the table of RVAs, of names and of
    /// indices.
    pub fn pe_c_export_tables(view: *const View, out: *mut Exports) -> u32;
    /// Returns the table of RVAs of the export directory, the ordinal base and the DLL's name.
    ///
    /// [`NOTHING`] without a directory.
    ///
    /// Errors: those of [`pe_c_export_tables`].
    pub fn pe_c_export_addresses(view: *const View, out: *mut AddressTable) -> u32;
    /// Reads the tables of which [`pe_c_function_names`] reads names.
    ///
    /// One that is damaged does not cost the others. Always returns [`DONE`].
    pub fn pe_c_name_tables(view: *const View, out: *mut NameSources) -> u32;
    /// Writes to `names` what names each of these addresses, in their order; the rest of `names` is unchanged.
    ///
    /// It is
    ///
    /// ```text
    /// - the last function symbol at or before the address within its function: a COFF symbol of the type 0x20 and the class
    ///   IMAGE_SYM_CLASS_EXTERNAL or IMAGE_SYM_CLASS_STATIC. Of several at one RVA it is the first of the table. A function is an
    ///   entry of the function table, also one whose unwind record is chained to another;
    /// - else the export that starts the function, of several the first of the name table. A forwarder is none;
    /// - in an image without a function table the last symbol or export at or before the address, a symbol where both are at one RVA;
    /// - else nothing, also where no function of the table has the address: a leaf function needs no entry there.
    /// ```
    ///
    /// `room` has to have as many numbers as `sources` says; what is in it then is left open. What has a name is sorted
    /// in it, so that n entries of the tables and m addresses take as long as (n + m) log n steps, and to read at most
    /// 4,096 bytes a name.
    ///
    /// Errors: [`ROOM`] where `room` or `names` is too short.
    pub fn pe_c_function_names(
        view: *const View,
        sources: *const NameSources,
        addresses: *const CodeAddress,
        address_count: usize,
        room: *mut u64,
        room_entries: usize,
        names: *mut FunctionName,
        name_entries: usize,
    ) -> u32;
    /// Returns where a walk over libraries starts.
    ///
    /// [`NOTHING`] without a directory.
    ///
    /// Errors: [`Error::UNMAPPED`].
    pub fn pe_c_import_libraries(view: *const View, out: *mut Libraries) -> u32;
    /// Returns the bytes of the directory: the table that the next two calls take.
    ///
    /// [`NOTHING`] where it is absent.
    ///
    /// Error: [`Error::SHORT`].
    pub fn pe_c_bound_imports(view: *const View, out: *mut Range) -> u32;
    /// Returns version information as a walk over its blocks, of which the first is all of it.
    ///
    /// Its content is not read yet, so the errors of version strings and of fixed file information are not among its
    /// errors.
    pub fn pe_c_version_blocks(view: *const View, out: *mut Range) -> u32;
    /// Returns the range of the manifest, an XML text.
    pub fn pe_c_manifest(view: *const View, out: *mut Range) -> u32;
    /// Returns where a walk over leaves starts; they come in the order of the entries of directories.
    ///
    /// [`NOTHING`] where the directory is absent, and in permissive mode where its data is too short for a directory.
    ///
    /// Errors: [`Error::UNMAPPED`], [`Error::SHORT`] of the root directory; [`Error::RESOURCE_BOUNDS`] where the data
    /// that the data directory names ends past the end of the file, and in strict mode where the root or its entries
    /// are not all inside the data.
    pub fn pe_c_resource_leaves(view: *const View, out: *mut ResourceWalk) -> u32;
    /// Returns the root of the resource tree, the directory whose entries are types; [`pe_c_resource_directory_at`]
    /// returns the others.
    ///
    /// [`NOTHING`] where [`pe_c_resource_leaves`] returns it. In permissive mode the `entries` of a root are empty
    /// where they are not all inside the data, and its two numbers of entries are as they stand. The tree, which
    /// [`pe_c_next_resource_item`] takes, is that of [`pe_c_resource_leaves`]. Errors: those of
    /// [`pe_c_resource_leaves`].
    pub fn pe_c_resource_root(view: *const View, out: *mut ResourceDirectory) -> u32;
    /// Returns the directory at an offset of a tree, which is that of a walk over leaves: at 0 the root, whose entries
    /// are types, else one to which an entry leads.
    ///
    /// A hostile tree may lead to a directory again, or many times: bound what you follow.
    ///
    /// Errors: [`Error::SHORT`] where the tree is not inside the bytes, or the directory or its entries are not inside
    /// the tree.
    pub fn pe_c_resource_directory_at(
        bytes: *const u8,
        length: usize,
        tree: *const Range,
        offset: u32,
        out: *mut ResourceDirectory,
    ) -> u32;
    /// Returns the next entry of a directory of a tree: those with a name first.
    ///
    /// Errors: [`Error::SHORT`] where the walk is not inside the bytes, or an entry is truncated, after which the walk
    /// is over; [`Error::SHORT`] where the tree is not inside the bytes, or a name is not inside the tree, after which
    /// the walk is past its entry.
    pub fn pe_c_next_resource_item(
        bytes: *const u8,
        length: usize,
        tree: *const Range,
        walk: *mut Range,
        out: *mut ResourceItem,
    ) -> u32;
    /// Returns the fixed file information in the content of a leaf of type 16 (`RT_VERSION`).
    ///
    /// [`NOTHING`] where it has none.
    ///
    /// Errors: [`Error::SHORT`] where the content is not inside the bytes; [`Error::SHORT`], [`Error::RESOURCE_STRING`]
    /// of the version strings; [`Error::SHORT`] of the fixed file information.
    pub fn pe_c_fixed_version_in(bytes: *const u8, length: usize, content: *const Range, out: *mut Version) -> u32;
    /// Returns the value of a name in the content of such a leaf, as [`pe_c_version_text`] does.
    ///
    /// [`NOTHING`] without a string of that name, and for another number.
    ///
    /// Errors: [`Error::SHORT`] where the content is not inside the bytes; [`Error::SHORT`], [`Error::RESOURCE_STRING`]
    /// of the version strings.
    pub fn pe_c_version_text_in(
        bytes: *const u8,
        length: usize,
        content: *const Range,
        name: u32,
        out: *mut Range,
    ) -> u32;
    /// Writes the image with these resources in place of those that it has to the start of the array, and its length,
    /// which is that of the file or more, or less without resources, to `written`.
    ///
    /// The rest of the array is unchanged, and all of it after an error. `data` has the names and the contents, and may
    /// be `bytes`. The array overlaps none of the others; it may be NULL if `room_length` is 0, the resources if
    /// `resource_count` is, and the data if `data_length` is. The resources are sorted by type, name and language:
    /// names before ids, names by their code units, ids and languages by their numbers. No two have the same type, name
    /// and language. They go over the data of their section if they fit there, no other section follows it in memory
    /// before their end, and no debug data and no base relocation lie in it; then no byte of the file moves. Otherwise
    /// they go to the end of the image, into their own section if it is the last or into a new one, and what follows
    /// the data of the sections in the file moves by the bytes that are added, a multiple of the file alignment; so do
    /// the pointers to COFF symbols and to the data of debug entries there. Without resources the entry of the resource
    /// directory becomes one of zeros. The section that they are in goes if it is the last one in the section table, in
    /// memory and in the file, and not the only one, the image ends with it, nothing else is in it and no debug data
    /// follow it: then what follows its data in the file moves back, and so does the pointer to COFF symbols. Otherwise
    /// the section stays, with zeros in the place of its data if nothing else is in them.
    ///
    /// Errors: those of [`pe_c_image`]; [`Error::EDIT_RECORD`] where a range is not inside the data, or an id or a
    /// language is not below 2^16; [`Error::EDIT_NAMES`] where the names have more than 16 MiB, each counted as often
    /// as a resource has it; [`Error::EDIT_CONTENTS`] where the contents, counted likewise, have more than 16 times the
    /// bytes of the data and of 1 MiB, since each is written as often as a resource has it;
    /// [`Error::NO_OPTIONAL_HEADER`]; [`Error::EDIT_NO_DIRECTORY`] where the image has fewer than three directories;
    /// [`Error::EDIT_SIGNED`] where it has certificates; [`Error::EDIT_TOO_MANY`], [`Error::EDIT_NAME`],
    /// [`Error::EDIT_ORDER`], [`Error::EDIT_TABLES_TOO_LARGE`], [`Error::EDIT_TOO_LARGE`] of the resources;
    /// [`Error::EDIT_HEADERS`] where the directories end after the start of the section table; [`Error::SHORT`] where
    /// that is truncated; [`Error::EDIT_ALIGNMENT`] where that of sections is below 4096, or that of their data below
    /// 512 or no power of two; of a new section, [`Error::EDIT_IMAGE_TOO_LARGE`] where its RVA or the offset of its
    /// data is not below 2^32, and [`Error::EDIT_TOO_LARGE`] of the resources at its RVA;
    /// [`Error::EDIT_NO_HEADER_ROOM`] where no 40 zeros follow the section table in the headers, there are 65,535
    /// sections, or the PE signature lies in the DOS header; [`Error::EDIT_IMAGE_TOO_LARGE`] where the image ends after
    /// 4 GB; [`Error::EDIT_SECTION`] where the data of the sections do not end in the file, at a multiple of the file
    /// alignment; [`Error::EDIT_SHARED_SECTION`] where the entry point or a directory leads after the image in memory;
    /// [`Error::EDIT_SYMBOLS`] where COFF symbols start before the end of the data and end after it;
    /// [`Error::EDIT_OVERLAP`] where a section ends after the image in memory, or shares bytes with the headers;
    /// [`Error::EDIT_DEBUG_DATA`] where the debug entries do not lie between the section headers and the data of that
    /// section, or the data of one neither end before these nor start after those of all sections; [`ROOM`].
    pub fn pe_c_edit(
        view: *const View,
        resources: *const Resource,
        resource_count: usize,
        data: *const u8,
        data_length: usize,
        room: *mut u8,
        room_length: usize,
        written: *mut u64,
    ) -> u32;
    /// Writes a block of version information to the start of the array, with zeros up to a multiple of four bytes,
    /// where the next block starts, and its length with them to `written`.
    ///
    /// The rest of the array is unchanged, and all of it after an error. `key` is UTF-16 code units, little-endian,
    /// without a final zero; `is_text` is 0, or another number where the value is a text, which has a final zero;
    /// `children` are the blocks in it, as this call writes them, one after the other. The array overlaps none of the
    /// others; each may be NULL if its length is 0. <https://learn.microsoft.com/windows/win32/menurc/vs-versioninfo>
    ///
    /// Errors: [`Error::BLOCK_KEY`] where the key has an odd number of bytes, or a code unit of zero;
    /// [`Error::BLOCK_TEXT`] where the value is a text of an odd number of bytes; [`Error::BLOCK_TOO_LONG`] where the
    /// block has more than 65,535 bytes; [`ROOM`].
    pub fn pe_c_write_block(
        key: *const u8,
        key_length: usize,
        is_text: u32,
        value: *const u8,
        value_length: usize,
        children: *const u8,
        children_length: usize,
        room: *mut u8,
        room_length: usize,
        written: *mut u64,
    ) -> u32;
    /// Writes version information, the content of a resource of type 16 (`RT_VERSION`), to the start of the array, and
    /// its length to `written`.
    ///
    /// The rest of the array is unchanged, and all of it after an error. `tables` are the tables of strings,
    /// `translations` the languages and code pages that the file supports, each in its order; `texts` has the names and
    /// the texts. The array overlaps none of the others; each may be NULL if its length is 0.
    ///
    /// Errors: [`Error::SHORT`] where a range of a string is not inside the texts, or the strings of a table are not
    /// all there; [`Error::BLOCK_TOO_LONG`] where the tables have more than 65,535 bytes by the lengths of names and
    /// texts; [`Error::BLOCK_KEY`] where a name has an odd number of bytes, or a code unit of zero;
    /// [`Error::BLOCK_TEXT`] where a text has an odd number of bytes; [`Error::BLOCK_TOO_LONG`] where a string, a
    /// table, or a block of these has more than 65,535 bytes: of the blocks the first refusal, each after those that
    /// are in it; [`ROOM`].
    pub fn pe_c_write_version(
        fixed: *const Version,
        tables: *const VersionTable,
        table_count: usize,
        strings: *const VersionString,
        string_count: usize,
        translations: *const VersionLanguage,
        translation_count: usize,
        texts: *const u8,
        texts_length: usize,
        room: *mut u8,
        room_length: usize,
        written: *mut u64,
    ) -> u32;
    /// Returns the TLS directory.
    ///
    /// [`NOTHING`] where the directory is absent.
    ///
    /// Errors: [`Error::UNMAPPED`], [`Error::SHORT`].
    pub fn pe_c_tls(view: *const View, out: *mut TlsDirectory) -> u32;
    /// Returns the callbacks of a TLS directory as a walk.
    ///
    /// [`NOTHING`] where it has no table of them.
    ///
    /// Errors: [`Error::DIRECTORY_VA_BELOW_BASE`], [`Error::UNMAPPED`].
    pub fn pe_c_tls_callbacks(view: *const View, tls: *const TlsDirectory, out: *mut Range) -> u32;
    /// Returns the next callback, a virtual address.
    ///
    /// Error: [`Error::SHORT`] where the bytes end before the table does.
    pub fn pe_c_next_tls_callback(view: *const View, walk: *mut Range, out: *mut u64) -> u32;
    /// Returns the load configuration.
    ///
    /// [`NOTHING`] where the directory is absent. The size in the data directory is not used.
    ///
    /// Errors: [`Error::UNMAPPED`]; [`Error::SHORT`] of the 4 bytes of its size.
    pub fn pe_c_load_config(view: *const View, out: *mut LoadConfig) -> u32;
    /// Returns the field with a number, `PE_C_CONFIG_`.
    ///
    /// [`NOTHING`] where the image has no load configuration or this is too short for the field, and for other numbers.
    ///
    /// Errors: those of [`pe_c_load_config`].
    pub fn pe_c_load_config_field(view: *const View, field: u32, out: *mut u64) -> u32;
    /// Returns a walk over the table with a number, `PE_C_GUARD_`.
    ///
    /// [`NOTHING`] where the image has no load configuration or this has no such table, and for other numbers.
    ///
    /// Errors: those of [`pe_c_load_config`]; [`Error::DIRECTORY_VA_BELOW_BASE`], [`Error::UNMAPPED`].
    pub fn pe_c_guard_table(view: *const View, table: u32, out: *mut GuardEntries) -> u32;
    /// Returns the CLR header.
    ///
    /// [`NOTHING`] where the directory is absent. The size in the data directory is not used.
    ///
    /// Errors: [`Error::UNMAPPED`], [`Error::SHORT`] of its 72 bytes; [`Error::DIRECTORY_CLR_HEADER_SIZE`].
    pub fn pe_c_clr_header(view: *const View, out: *mut ClrHeader) -> u32;
    /// Returns the root of the metadata of a CLR header.
    ///
    /// Errors: [`Error::UNMAPPED`]; [`Error::SHORT`] of the metadata, then of the root's first 16 bytes;
    /// [`Error::BAD_MAGIC`]; [`Error::SHORT`] of the rest of the root.
    pub fn pe_c_clr_metadata(view: *const View, header: *const ClrHeader, out: *mut Metadata) -> u32;
    /// Returns the next stream of the metadata.
    ///
    /// Errors: [`Error::SHORT`] of the stream header's first 8 bytes; [`Error::DIRECTORY_STREAM_NAME`] where its name
    /// does not end in 32 bytes; [`Error::SHORT`] of the zeros after the name, up to a multiple of 4.
    pub fn pe_c_next_metadata_stream(
        bytes: *const u8,
        length: usize,
        walk: *mut MetadataStreams,
        out: *mut MetadataStream,
    ) -> u32;
    /// Writes the text of a GUID, the first 16 of these bytes, as those of [`Key`].
    ///
    /// Errors: [`Error::SHORT`] where there are fewer; [`ROOM`].
    pub fn pe_c_guid_text(
        guid: *const u8,
        guid_length: usize,
        form: u32,
        room: *mut u8,
        room_length: usize,
        written: *mut u64,
    ) -> u32;
    /// Writes the text of a range in UTF-16 as UTF-8.
    ///
    /// U+FFFD stands for a surrogate without a partner, zeros in the text are characters, and an odd byte at the end is
    /// left out.
    ///
    /// Errors: [`Error::SHORT`] where the range is not inside the bytes; [`ROOM`].
    pub fn pe_c_utf16_text(
        bytes: *const u8,
        length: usize,
        range: *const Range,
        room: *mut u8,
        room_length: usize,
        written: *mut u64,
    ) -> u32;
    /// Returns the text in a range up to its first zero, and whether a zero follows it, in the range or right after it.
    ///
    /// Error: [`Error::SHORT`] where the range is not inside the bytes.
    pub fn pe_c_text_in(bytes: *const u8, length: usize, range: *const Range, out: *mut TextInBytes) -> u32;
    /// Lists the functions of a table as [`pe_c_function_at`] reads them, from the index `next` on, which moves past
    /// them.
    ///
    /// Errors: [`ROOM`]; [`Error::SHORT`] where the table is not inside the bytes.
    pub fn pe_c_list_functions(
        bytes: *const u8,
        length: usize,
        table: *const Range,
        next: *mut u64,
        entries: *mut Function,
        number_of_entries: usize,
        written: *mut u64,
    ) -> u32;
    /// Lists the unwind codes of a walk.
    ///
    /// Errors: [`ROOM`]; those of [`pe_c_next_code`].
    pub fn pe_c_list_codes(
        bytes: *const u8,
        length: usize,
        walk: *mut Walk,
        entries: *mut Code,
        number_of_entries: usize,
        written: *mut u64,
    ) -> u32;
    /// Lists all codes of a record, of which these are the bytes of its codes alone.
    ///
    /// It keeps no walk: `written` is set after an error and after [`ROOM`] too, to the number of codes before it,
    /// which are written. A record has at most 255 codes.
    ///
    /// Errors: [`ROOM`] where bytes are left after `number_of_entries` codes, whatever they start with; those of
    /// [`pe_c_next_code`].
    pub fn pe_c_all_codes(
        bytes: *const u8,
        length: usize,
        form: *const CodeForm,
        entries: *mut Code,
        number_of_entries: usize,
        written: *mut u64,
    ) -> u32;
    /// Lists the functions of an ARM64 table as [`pe_c_arm64_function_at`] reads them, from the index `next` on, which
    /// moves past them.
    ///
    /// Errors: [`ROOM`]; [`Error::SHORT`] where the table is not inside the bytes.
    pub fn pe_c_list_arm64_functions(
        bytes: *const u8,
        length: usize,
        table: *const Range,
        next: *mut u64,
        entries: *mut Arm64Function,
        number_of_entries: usize,
        written: *mut u64,
    ) -> u32;
    /// Lists the ARM64 unwind codes of a walk.
    ///
    /// Errors: [`ROOM`]; those of [`pe_c_next_arm64_code`].
    pub fn pe_c_list_arm64_codes(
        bytes: *const u8,
        length: usize,
        walk: *mut Arm64Walk,
        entries: *mut Arm64Code,
        number_of_entries: usize,
        written: *mut u64,
    ) -> u32;
    /// Lists the exports that have a name, and reads names and forwarders' texts together where they share much.
    ///
    /// With two runs for each entry that the name table has left, or more, a call takes about as long as to sort these
    /// and to read each byte a few times, however many of the texts overlap. A call looks at no more entries for that
    /// than there are runs.
    ///
    /// Errors: [`ROOM`]; [`Error::SHORT`] where the tables are not inside the bytes.
    pub fn pe_c_list_exports(
        view: *const View,
        walk: *mut ExportWalk,
        runs: *mut Run,
        number_of_runs: usize,
        entries: *mut Export,
        number_of_entries: usize,
        written: *mut u64,
    ) -> u32;
    /// Lists the libraries of an import directory, and reads the names together, and looks for the ends of the lists of
    /// imports together.
    ///
    /// With two runs for each library that is left, or more, this takes about as long as to sort these and to read each
    /// byte a few times, at most ten, however many share a text or a list. Errors: [`ROOM`]; those of
    /// [`pe_c_next_library`].
    pub fn pe_c_list_libraries(
        view: *const View,
        walk: *mut LibraryWalk,
        runs: *mut Run,
        number_of_runs: usize,
        entries: *mut Library,
        number_of_entries: usize,
        written: *mut u64,
    ) -> u32;
    /// Lists the imports of a library, and reads the names together, with a run for each import that is left, or more.
    ///
    /// Errors: [`ROOM`]; those of [`pe_c_next_import`].
    pub fn pe_c_list_imports(
        view: *const View,
        walk: *mut ImportWalk,
        runs: *mut Run,
        number_of_runs: usize,
        entries: *mut Import,
        number_of_entries: usize,
        written: *mut u64,
    ) -> u32;
    /// Lists the imports of all libraries, one library after the other, and reads the names of the libraries and of the
    /// imports together.
    ///
    /// With a run for each of the entries and one for each library that is left, or more, a call takes about as long as
    /// to sort these and to read each byte a few times, however many names share a text. With fewer, as with none,
    /// further names are read to their end each, also those of libraries without an import. Libraries may share a list,
    /// whose imports are listed for each of them: `number_of_entries` bounds what a call takes.
    ///
    /// Errors: [`ROOM`]; those of [`pe_c_next_library`] and [`pe_c_next_import`], in the order of the walk.
    pub fn pe_c_list_all_imports(
        view: *const View,
        walk: *mut LibraryImports,
        runs: *mut Run,
        number_of_runs: usize,
        entries: *mut LibraryImport,
        number_of_entries: usize,
        written: *mut u64,
    ) -> u32;
    /// Lists all exports as [`pe_c_export_at`] reads them, from the index `next` on, which moves past them, and reads
    /// the texts of forwarders together, with a run for each of the entries, or more.
    ///
    /// Errors: [`ROOM`]; [`Error::SHORT`] where the table is not inside the bytes.
    pub fn pe_c_list_export_addresses(
        view: *const View,
        table: *const AddressTable,
        next: *mut u64,
        runs: *mut Run,
        number_of_runs: usize,
        entries: *mut Exported,
        number_of_entries: usize,
        written: *mut u64,
    ) -> u32;
    /// Lists the long names of the sections of an image, from the index `next` on, which moves past them: what
    /// [`pe_c_long_section_name`] returns of each, and an empty range where that returns [`NOTHING`].
    ///
    /// `table` is the string table. Names are read together, with a run for each of the entries, or more: an image may
    /// have 65,535 sections, and one string for all of them. Of an image the call reads the bytes and the sections
    /// alone, so with those of an object, and any record as `image`, it lists the names of that.
    ///
    /// Errors: [`ROOM`]; [`Error::SHORT`] where a section is left, and `table` is not inside the bytes.
    pub fn pe_c_list_long_section_names(
        view: *const View,
        table: *const Range,
        next: *mut u64,
        runs: *mut Run,
        number_of_runs: usize,
        entries: *mut Range,
        number_of_entries: usize,
        written: *mut u64,
    ) -> u32;
    /// Lists the symbols of a walk as [`pe_c_next_symbol`] returns them, each with what [`pe_c_symbol_name`] returns of
    /// it.
    ///
    /// Names are read together where they share much, as by [`pe_c_list_exports`], here with one run for each entry
    /// that the symbol table has left, or more; the string table stays as it is.
    ///
    /// Errors: [`ROOM`]; [`Error::SHORT`] where the symbol table is not inside the bytes.
    pub fn pe_c_list_symbols(
        bytes: *const u8,
        length: usize,
        walk: *mut NamedSymbolWalk,
        runs: *mut Run,
        number_of_runs: usize,
        entries: *mut NamedSymbol,
        number_of_entries: usize,
        written: *mut u64,
    ) -> u32;
    /// Lists the leaves of a resource tree.
    ///
    /// Errors: [`ROOM`]; those of [`pe_c_next_resource_leaf`].
    pub fn pe_c_list_resource_leaves(
        view: *const View,
        walk: *mut LeafWalk,
        entries: *mut ResourceLeaf,
        number_of_entries: usize,
        written: *mut u64,
    ) -> u32;
    /// Lists blocks of version information.
    ///
    /// Errors: [`ROOM`]; those of [`pe_c_next_version_block`].
    pub fn pe_c_list_version_blocks(
        bytes: *const u8,
        length: usize,
        walk: *mut Range,
        entries: *mut VersionBlock,
        number_of_entries: usize,
        written: *mut u64,
    ) -> u32;
    /// Lists the blocks of base relocations.
    ///
    /// Errors: [`ROOM`]; those of [`pe_c_next_relocation_block`].
    pub fn pe_c_list_relocation_blocks(
        bytes: *const u8,
        length: usize,
        walk: *mut Range,
        entries: *mut RelocationBlock,
        number_of_entries: usize,
        written: *mut u64,
    ) -> u32;
    /// Lists the relocations of a block, whose page RVA is `page_rva`.
    ///
    /// Errors: [`ROOM`]; those of [`pe_c_next_relocation`].
    pub fn pe_c_list_relocations(
        bytes: *const u8,
        length: usize,
        page_rva: u32,
        walk: *mut Range,
        entries: *mut Relocation,
        number_of_entries: usize,
        written: *mut u64,
    ) -> u32;
    /// Lists the DLLs of a delay import directory, and reads the names together, with a run for each of the entries, or
    /// more.
    ///
    /// Errors: [`ROOM`]; those of [`pe_c_next_delay_import`].
    pub fn pe_c_list_delay_imports(
        view: *const View,
        walk: *mut DelayImportWalk,
        runs: *mut Run,
        number_of_runs: usize,
        entries: *mut DelayImport,
        number_of_entries: usize,
        written: *mut u64,
    ) -> u32;
    /// Lists what is imported of a DLL that is loaded later, and reads the names together, with a run for each of the
    /// entries, or more.
    ///
    /// Errors: [`ROOM`]; those of [`pe_c_next_delayed_function`].
    pub fn pe_c_list_delayed_functions(
        view: *const View,
        walk: *mut DelayedFunctionWalk,
        runs: *mut Run,
        number_of_runs: usize,
        entries: *mut DelayedFunction,
        number_of_entries: usize,
        written: *mut u64,
    ) -> u32;
    /// Lists the functions of all delay-loaded DLLs, one DLL after the other, and reads the names of the DLLs and of
    /// their functions together.
    ///
    /// With a run for each of the entries and one for each DLL that is left, or more, a call takes about as long as to
    /// sort these and to read each byte a few times, however many names share a text; and without an index in the view
    /// it tests the sections in turn for each address. With fewer runs, as with none, further names are read to their
    /// end each, also those of DLLs without a function. DLLs may share a table, whose functions are listed for each of
    /// them: `number_of_entries` bounds what a call takes.
    ///
    /// Errors: [`ROOM`]; those of [`pe_c_next_delay_import`] and [`pe_c_next_delayed_function`], in the order of the
    /// walk.
    pub fn pe_c_list_all_delayed_functions(
        view: *const View,
        walk: *mut LibraryFunctions,
        runs: *mut Run,
        number_of_runs: usize,
        entries: *mut LibraryFunction,
        number_of_entries: usize,
        written: *mut u64,
    ) -> u32;
    /// Lists bound imports as [`pe_c_next_bound_import`] returns them, and reads the names together, with a run for
    /// each of the entries, or more.
    ///
    /// `table` is the range of the directory. Errors: [`ROOM`]; those of [`pe_c_next_bound_import`].
    pub fn pe_c_list_bound_imports(
        bytes: *const u8,
        length: usize,
        table: *const Range,
        walk: *mut Range,
        runs: *mut Run,
        number_of_runs: usize,
        entries: *mut BoundImport,
        number_of_entries: usize,
        written: *mut u64,
    ) -> u32;
    /// Lists the same of the DLLs that a DLL forwards to, as [`pe_c_next_bound_forwarder`] returns them.
    ///
    /// The 8 bytes of a DLL are read as those of a forwarder are: a walk through the whole directory, at first a copy
    /// of `table`, lists the names and time stamps of all DLLs and their forwarders, in their order, where to list the
    /// forwarders of each would cost a text that they share for each. Errors: [`ROOM`]; those of
    /// [`pe_c_next_bound_forwarder`].
    pub fn pe_c_list_bound_forwarders(
        bytes: *const u8,
        length: usize,
        table: *const Range,
        walk: *mut Range,
        runs: *mut Run,
        number_of_runs: usize,
        entries: *mut BoundForwarder,
        number_of_entries: usize,
        written: *mut u64,
    ) -> u32;
    /// Lists the entries of a POGO record.
    ///
    /// Errors: [`ROOM`]; those of [`pe_c_next_pogo_entry`].
    pub fn pe_c_list_pogo_entries(
        bytes: *const u8,
        length: usize,
        walk: *mut Range,
        entries: *mut PogoEntry,
        number_of_entries: usize,
        written: *mut u64,
    ) -> u32;
    /// Lists the entries of a table of a load configuration.
    ///
    /// Errors: [`ROOM`]; those of [`pe_c_next_guard_entry`].
    pub fn pe_c_list_guard_entries(
        bytes: *const u8,
        length: usize,
        walk: *mut GuardEntries,
        entries: *mut GuardEntry,
        number_of_entries: usize,
        written: *mut u64,
    ) -> u32;
    /// Returns the next library.
    ///
    /// The directory ends at a record whose name or address table has the RVA 0. A list whose RVA is unmapped is empty.
    /// Names and lists that overlap are read once each.
    ///
    /// Errors: [`Error::SHORT`] where the record is truncated; [`Error::UNMAPPED`], [`Error::IMPORT_NAME`] of the name;
    /// [`Error::SHORT`] where no zero entry ends the list.
    pub fn pe_c_next_library(view: *const View, walk: *mut LibraryWalk, out: *mut Library) -> u32;
    /// Returns the next import of a library.
    ///
    /// Errors: [`Error::SHORT`] where the walk is not inside the bytes, or its last entry is truncated;
    /// [`Error::UNMAPPED`] of the RVA in the entry; [`Error::SHORT`] of the hint there; [`Error::IMPORT_NAME`] of the
    /// name.
    pub fn pe_c_next_import(view: *const View, walk: *mut ImportWalk, out: *mut Import) -> u32;
    /// Returns the function with an index, from 0.
    ///
    /// Errors: [`Error::SHORT`] where the table is not inside the bytes; [`Error::FUNCTION_INDEX`] where it has no such
    /// entry.
    pub fn pe_c_function_at(
        bytes: *const u8,
        length: usize,
        table: *const Range,
        index: u64,
        out: *mut Function,
    ) -> u32;
    /// Returns the export with an index, from 0.
    ///
    /// [`NOTHING`] where the table has no such entry.
    ///
    /// Errors: [`Error::SHORT`] where the table is not inside the bytes.
    pub fn pe_c_export_at(view: *const View, table: *const AddressTable, index: u64, out: *mut Exported) -> u32;
    /// Returns why an item of a kind is refused that bytes alone have: [`FAILED_CERTIFICATE`], `_RELOCATION_BLOCK`,
    /// `_RELOCATION`, `_BOUND_IMPORT`, `_SYMBOL_NAME`, `_IMAGE`, `_TE`, `_DEBUG_RECORD`, `_SECTIONS`.
    ///
    /// [`NOTHING`] of another kind.
    pub fn pe_c_item_failure(
        bytes: *const u8,
        length: usize,
        kind: u32,
        item: *const FailedItem,
        out: *mut Failure,
    ) -> u32;
    /// Returns why an item of another of these kinds is refused.
    ///
    /// [`NOTHING`] of any else.
    pub fn pe_c_image_item_failure(view: *const View, kind: u32, item: *const FailedItem, out: *mut Failure) -> u32;
    /// Of [`pe_c_unwind_record`], which takes the same.
    ///
    /// [`Error::FUNCTION_LINK`]: `value`, the link, which is odd: the RVA of no entry, plus 1;
    /// [`Error::FUNCTION_CYCLE`]: `value`, the unwind RVA from which links never end; [`Error::UNWIND_VERSION`]:
    /// `value`.
    pub fn pe_c_unwind_record_failure(view: *const View, table: *const Range, unwind: u32, out: *mut Failure) -> u32;
    /// Of [`pe_c_next_code`].
    ///
    /// [`Error::UNWIND_CODE`]: `value`, the second byte of the code: its operation, and what that takes above.
    pub fn pe_c_code_failure(bytes: *const u8, length: usize, walk: *const Walk, out: *mut Failure) -> u32;
    /// Of [`pe_c_next_arm64_code`].
    ///
    /// [`Error::ARM64_CUT`]: `offset`, of the code, from the start of the stream; [`Error::ARM64_STREAM`]: `value`, how
    /// many bytes are left.
    pub fn pe_c_arm64_code_failure(bytes: *const u8, length: usize, walk: *const Arm64Walk, out: *mut Failure) -> u32;
    /// Reads the header of a minidump, and tests that its directory is inside the bytes.
    ///
    /// Errors: [`Error::SHORT`] where there are fewer than 32 bytes; [`Error::DUMP_SIGNATURE`];
    /// [`Error::DUMP_VERSION`]; [`Error::DUMP_DIRECTORY`].
    pub fn pe_c_dump(bytes: *const u8, length: usize, out: *mut DumpInfo) -> u32;
    /// Returns the range of the stream of a kind, that of the first entry of the kind, or [`NOTHING`].
    ///
    /// Errors: [`Error::DUMP_LOCATION`] where the directory or the stream is not inside the bytes.
    pub fn pe_c_dump_stream(
        bytes: *const u8,
        length: usize,
        directory: *const Range,
        stream_type: u32,
        out: *mut Range,
    ) -> u32;
    /// Returns the range of a string, in UTF-16LE without its final zero.
    ///
    /// `rva` is what a record says.
    ///
    /// Errors: [`Error::DUMP_LOCATION`] where its length is not inside the bytes; [`Error::DUMP_TEXT`] where that is
    /// odd; [`Error::DUMP_LOCATION`] where the string is not inside the bytes.
    pub fn pe_c_dump_text(bytes: *const u8, length: usize, rva: u64, out: *mut Range) -> u32;
    /// Reads the record with an index of the stream of a kind, [`THREAD_LIST_STREAM`] and others, into the field of
    /// that kind; with [`DUMP_ENTRIES`] of the directory.
    ///
    /// The other fields are unchanged, and none need be initialised. [`NOTHING`] past the last record, and of another
    /// kind. What a stream says in one record has index 0: the exception, the system, the process, the walk over the
    /// memory of a full dump. The functions below return the field of one kind each.
    ///
    /// Errors: those of the function of the kind.
    pub fn pe_c_dump_record(
        bytes: *const u8,
        length: usize,
        stream: *const Range,
        kind: u32,
        index: u64,
        out: *mut DumpAnyRecord,
    ) -> u32;
    /// Returns the next piece of memory of a full dump.
    ///
    /// Errors: [`Error::SHORT`] where the entries are not inside the bytes, or the last one is truncated.
    pub fn pe_c_next_memory64(bytes: *const u8, length: usize, walk: *mut Memory64Walk, out: *mut DumpPiece) -> u32;
    /// Reads a context of a machine, 9 for x64 or 12 for ARM64, `PROCESSOR_ARCHITECTURE_*`, into the field of that
    /// machine: that of the exception, or of a thread.
    ///
    /// The other field is unchanged, and none need be initialised. The functions below return the field of one machine
    /// each.
    ///
    /// Errors: [`Error::DUMP_MACHINE`] of another machine; those of the function of the machine.
    pub fn pe_c_read_dump_context(
        bytes: *const u8,
        length: usize,
        location: *const DumpLocation,
        machine: u32,
        out: *mut DumpAnyContext,
    ) -> u32;
    /// Returns [`DONE`] where an image is that of a module: its time stamp and its size are the module's.
    ///
    /// [`NOTHING`] where it is another one, or has no optional header. The checksum is not asked.
    pub fn pe_c_is_image_of(image: *const ImageInfo, module: *const DumpModule) -> u32;
    /// Writes the memory of pieces in any order to `runs`, as pieces that ascend and do not overlap, and to `written`
    /// how many there are: an address is that of the first of the pieces that has it.
    ///
    /// Two that follow one another in memory and in the file are one. In such pieces [`pe_c_next_frame`] looks an
    /// address up by binary search. `entries` has to have four entries for each piece, and `runs` two; what is in these
    /// entries then is left open, and so is what is in these runs after those that are written. The rest of both is
    /// unchanged.
    ///
    /// Errors, which change nothing: [`Error::SHORT`] if a piece ends past offset 2^64 - 1; [`ROOM`].
    pub fn pe_c_memory_runs(
        pieces: *const MemoryPiece,
        piece_count: usize,
        entries: *mut RangeEntry,
        number_of_entries: usize,
        runs: *mut MemoryPiece,
        number_of_runs: usize,
        written: *mut u64,
    ) -> u32;
    /// Writes to `found`, for each of the ranges that are asked for, whose offset is an address and whose length how
    /// many bytes from it on at most, the range of `memory` where these bytes are: those of the run that has the
    /// address, up to its end.
    ///
    /// Where no run has it the range has no bytes. `written` is how many ranges are asked for; the rest of `found` is
    /// unchanged. A range ends at the first address that the dump has no byte of, or has elsewhere: so the images of
    /// modules are found that the dump's own memory has, for [`pe_c_image`] with [`MAPPED`]. The pieces are runs, as
    /// [`pe_c_memory_runs`] writes them: they are tested once a call, and a search by halves finds each range.
    ///
    /// Errors, which change nothing: [`Error::SHORT`] if a piece is not inside `memory`; [`Error::OUT_OF_ORDER`] if
    /// pieces overlap or do not ascend; [`ROOM`] where there is room for fewer ranges than are asked for.
    pub fn pe_c_memory_ranges(
        memory: *const u8,
        memory_length: usize,
        pieces: *const MemoryPiece,
        piece_count: usize,
        asked: *const Range,
        asked_count: usize,
        found: *mut Range,
        found_count: usize,
        written: *mut u64,
    ) -> u32;
    /// Reads what a PDB says of itself.
    ///
    /// A DBI stream that is missing, as in PDBs of compilers, or damaged costs its own fields alone.
    ///
    /// Errors: [`Error::SHORT`] where there are fewer than 56 bytes; [`Error::PDB20`], [`Error::PDB_PORTABLE`],
    /// [`Error::PDB_MAGIC`]; [`Error::PDB_BLOCK_SIZE`]; [`Error::PDB_FILE_SIZE`]; [`Error::PDB_BLOCK_MAP`],
    /// [`Error::PDB_BLOCK`], [`Error::PDB_DIRECTORY`] of the directory; those of [`pe_c_pdb_stream`] for the info
    /// stream, [`Error::SHORT`] where it has fewer than 28 bytes, [`Error::PDB_INFO_VERSION`].
    pub fn pe_c_pdb(bytes: *const u8, length: usize, out: *mut PdbInfo) -> u32;
    /// Returns [`DONE`] where a PDB is that of an image with this key: its GUID and the age of its DBI stream are those
    /// of the key; [`NOTHING`] where it is another one.
    ///
    /// The age of the info stream says nothing: tools raise it that change the PDB alone.
    ///
    /// Error: `pdb->dbi_result`, where the DBI stream is refused.
    pub fn pe_c_is_pdb_of(key: *const Key, pdb: *const PdbInfo) -> u32;
    /// Writes to the start of `room` where the directory lists the blocks of each stream: `pdb->number_of_streams`
    /// numbers.
    ///
    /// By them [`pe_c_pdb_stream`] opens a stream without the sizes of those before it: who opens many makes them once.
    ///
    /// Errors: those of the directory of [`pe_c_pdb`]; [`ROOM`].
    pub fn pe_c_pdb_starts(bytes: *const u8, length: usize, room: *mut u64, entries: usize, written: *mut u64) -> u32;
    /// Copies the stream with a number to the start of `room`.
    ///
    /// `starts` is what [`pe_c_pdb_starts`] wrote, or NULL and 0. With another start it copies other bytes of the file,
    /// or returns an error. A call reads the list of the directory's blocks and the blocks of the stream; without
    /// starts also the sizes of the streams before it.
    ///
    /// Errors: those of the directory of [`pe_c_pdb`]; [`Error::PDB_NO_STREAM`]; [`Error::PDB_STREAM_SIZE`];
    /// [`Error::PDB_DIRECTORY`] where its blocks are not all listed; [`Error::PDB_BLOCK`]; [`ROOM`].
    pub fn pe_c_pdb_stream(
        bytes: *const u8,
        length: usize,
        starts: *const u64,
        number_of_starts: usize,
        index: u32,
        room: *mut u8,
        room_length: usize,
        written: *mut u64,
    ) -> u32;
    /// Returns the range of the file that has the bytes of the stream with a number in their order, so that no copy of
    /// them is needed: [`NOTHING`] where its blocks do not follow one another, as they do in what most linkers write.
    ///
    /// It reads the directory alone, and no block of the stream: of a file that is read in parts the others may be
    /// missing. `starts` is as for [`pe_c_pdb_stream`].
    ///
    /// Errors: those of [`pe_c_pdb_stream`] but [`ROOM`].
    pub fn pe_c_pdb_stream_range(
        bytes: *const u8,
        length: usize,
        starts: *const u64,
        number_of_starts: usize,
        index: u32,
        out: *mut Range,
    ) -> u32;
    /// Lists the modules, and moves the walk past them.
    ///
    /// `bytes` are those of the DBI stream, stream 3; the walk starts as `pdb->modules`.
    ///
    /// Errors: [`ROOM`] where there are no entries; [`Error::SHORT`] where the walk is not inside the bytes, or fewer
    /// than 64 are left; [`Error::PDB_NAME`]. After another than [`ROOM`] the walk is over.
    pub fn pe_c_list_pdb_modules(
        bytes: *const u8,
        length: usize,
        walk: *mut Range,
        entries: *mut PdbModule,
        number_of_entries: usize,
        written: *mut u64,
    ) -> u32;
    /// Lists the records of symbols, and moves the walk past them: those of the stream of symbols, by a walk that
    /// starts as all of its bytes, or of the stream of a module, by one that starts as the `symbols` of the module.
    ///
    /// Public symbols and procedures are read; of other records, as those of variables and ends of scopes, there is no
    /// more than where they are. `sections` are the bytes of the stream `pdb->section_headers`. Of one record alone
    /// `result` says: [`NOTHING`] without an RVA, since it is another record or in no section; [`Error::SHORT`] where
    /// its content is truncated; [`Error::PDB_NAME`].
    ///
    /// Errors: [`ROOM`] where there are no entries; [`Error::PDB_SECTION_HEADERS`]; [`Error::SHORT`] where the walk is
    /// not inside the bytes, or fewer than 4 are left; [`Error::PDB_RECORD_SIZE`]; [`Error::PDB_RECORD_TRUNCATED`].
    /// After another than [`ROOM`] the walk is over.
    pub fn pe_c_list_pdb_symbols(
        bytes: *const u8,
        length: usize,
        sections: *const u8,
        sections_length: usize,
        walk: *mut Range,
        entries: *mut PdbSymbol,
        number_of_entries: usize,
        written: *mut u64,
    ) -> u32;
    /// Makes an index of the symbols of a kind, `PE_C_PDB_PUBLICS` or `PE_C_PDB_PROCEDURES`, by their RVAs at the start
    /// of `room`, in ascending order.
    ///
    /// An entry is the RVA times 2^32 plus the offset of the record. `symbols` is a walk as of
    /// [`pe_c_list_pdb_symbols`]. Public symbols that are no functions, procedures without code and symbols without an
    /// RVA are left out. n records take n log n steps.
    ///
    /// Errors: [`Error::PDB_SECTION_HEADERS`]; [`Error::SHORT`] where the range is not inside the bytes;
    /// [`Error::PDB_SYMBOLS_SIZE`]; [`Error::SHORT`], [`Error::PDB_RECORD_SIZE`], [`Error::PDB_RECORD_TRUNCATED`] of a
    /// record; [`ROOM`].
    pub fn pe_c_pdb_index(
        kind: u32,
        bytes: *const u8,
        length: usize,
        symbols: *const Range,
        sections: *const u8,
        sections_length: usize,
        room: *mut u64,
        entries: usize,
        written: *mut u64,
    ) -> u32;
    /// Finds the symbol of an RVA by an index that [`pe_c_pdb_index`] made of these bytes and sections: of
    /// `PE_C_PDB_PUBLICS` the last function that starts at or before the RVA, which may end before it; of
    /// `PE_C_PDB_PROCEDURES` the one whose code has the RVA.
    ///
    /// Of several at one RVA it is that of the last record. [`NOTHING`] without one. It takes log n steps. By entries
    /// that do not ascend it finds some record, or none.
    ///
    /// Errors: [`Error::PDB_SECTION_HEADERS`]; those of the record that is found: [`Error::SHORT`],
    /// [`Error::PDB_RECORD_SIZE`], [`Error::PDB_RECORD_TRUNCATED`].
    pub fn pe_c_find_pdb_symbol(
        kind: u32,
        bytes: *const u8,
        length: usize,
        sections: *const u8,
        sections_length: usize,
        index: *const u64,
        entries: usize,
        rva: u32,
        out: *mut PdbSymbol,
    ) -> u32;
    /// Finds the symbol of an RVA without an index: what [`pe_c_find_pdb_symbol`] finds by one that [`pe_c_pdb_index`]
    /// makes of these arguments.
    ///
    /// It reads all records once, which for a few RVAs takes less than to make an index. [`NOTHING`] without one.
    ///
    /// Errors: those of [`pe_c_pdb_index`] but [`ROOM`], then those of the record that is found.
    pub fn pe_c_read_pdb_symbol(
        kind: u32,
        bytes: *const u8,
        length: usize,
        symbols: *const Range,
        sections: *const u8,
        sections_length: usize,
        rva: u32,
        out: *mut PdbSymbol,
    ) -> u32;
    /// Makes an index of the lines of a module by their RVAs at the start of `room`, in ascending order.
    ///
    /// `bytes` are those of the stream of the module, and `lines` is its range of them. Rows outside of the code of
    /// their subsection, and those in no section, are left out. n rows take n log n steps.
    ///
    /// Errors: [`Error::PDB_SECTION_HEADERS`]; [`Error::SHORT`] where the range is not inside the bytes;
    /// [`Error::PDB_SYMBOLS_SIZE`]; [`Error::SHORT`] and [`Error::PDB_RECORD_TRUNCATED`] of a subsection or a block of
    /// rows; [`ROOM`].
    pub fn pe_c_pdb_lines(
        bytes: *const u8,
        length: usize,
        lines: *const Range,
        sections: *const u8,
        sections_length: usize,
        room: *mut PdbLineEntry,
        entries: usize,
        written: *mut u64,
    ) -> u32;
    /// Finds the line of an RVA by an index that [`pe_c_pdb_lines`] made: that of the last row at or before the RVA, of
    /// several at one RVA the last of the module.
    ///
    /// [`NOTHING`] where no row has it, and where its code is of no line. It takes log n steps. By entries that do not
    /// ascend it finds some line, or none.
    pub fn pe_c_find_pdb_line(index: *const PdbLineEntry, entries: usize, rva: u32, out: *mut PdbLine) -> u32;
    /// Finds the line of an RVA without an index: what [`pe_c_find_pdb_line`] finds by one that [`pe_c_pdb_lines`]
    /// makes of these arguments.
    ///
    /// It reads all rows once. [`NOTHING`] without one.
    ///
    /// Errors: those of [`pe_c_pdb_lines`] but [`ROOM`].
    pub fn pe_c_read_pdb_line(
        bytes: *const u8,
        length: usize,
        lines: *const Range,
        sections: *const u8,
        sections_length: usize,
        rva: u32,
        out: *mut PdbLine,
    ) -> u32;
    /// Returns the range of the source files of a module in its stream.
    ///
    /// `lines` is its range of lines. [`NOTHING`] without files.
    ///
    /// Errors: [`Error::SHORT`] where the range is not inside the bytes; [`Error::SHORT`],
    /// [`Error::PDB_RECORD_TRUNCATED`] of a subsection before.
    pub fn pe_c_pdb_files(bytes: *const u8, length: usize, lines: *const Range, out: *mut Range) -> u32;
    /// Returns the range of the name of a source file in `names`, the bytes of the stream that
    /// [`pe_c_pdb_named_stream`] returns of "/names": the path, without its final zero.
    ///
    /// `files` is what [`pe_c_pdb_files`] returned of the stream of the module, and `file` what a line has.
    ///
    /// Errors: [`Error::SHORT`] where the range is not inside the bytes; [`Error::SHORT`],
    /// [`Error::PDB_RECORD_TRUNCATED`] of the record of the file; [`Error::SHORT`] where there are fewer than 12 bytes
    /// of names, [`Error::PDB_NAMES_SIGNATURE`], [`Error::PDB_RECORD_TRUNCATED`]; [`Error::PDB_NAME`].
    pub fn pe_c_pdb_file_name(
        bytes: *const u8,
        length: usize,
        files: *const Range,
        names: *const u8,
        names_length: usize,
        file: u32,
        out: *mut Range,
    ) -> u32;
    /// Returns where the code at an RVA is by an OMAP table, whose bytes are those of its stream: by `omap_to_source`
    /// of [`PdbInfo`] where an RVA of the image was when it was linked, by `omap_from_source` where one of then is now.
    ///
    /// [`NOTHING`] where it is nowhere. Other calls then take the stream `original_section_headers`, and RVAs of then.
    /// It is looked up by halves: where rows do not ascend, some row or none is taken. It never returns an error.
    pub fn pe_c_pdb_moved_rva(bytes: *const u8, length: usize, rva: u32, out: *mut u32) -> u32;
    /// Writes to the start of `room` which RVAs are of which module: a range for each section contribution, in their
    /// order.
    ///
    /// `contributions` are those of [`pe_c_pdb`] in `bytes`, the DBI stream, stream 3. In what linkers write ranges
    /// ascend and do not overlap; where two have an RVA, the first counts.
    ///
    /// Errors: [`Error::PDB_SECTION_HEADERS`]; [`Error::SHORT`] where the range is not inside the bytes, or has fewer
    /// than 4 that are some; [`Error::PDB_CONTRIBUTIONS_VERSION`]; [`Error::PDB_CONTRIBUTIONS_SIZE`]; [`ROOM`].
    pub fn pe_c_pdb_module_ranges(
        bytes: *const u8,
        length: usize,
        contributions: *const Range,
        sections: *const u8,
        sections_length: usize,
        room: *mut PdbModuleRange,
        entries: usize,
        written: *mut u64,
    ) -> u32;
    /// Writes to the start of `room` where each record of the stream of ids starts, for [`pe_c_find_pdb_inlined`].
    ///
    /// `bytes` are those of the stream, stream 4. n records take n steps.
    ///
    /// Errors: [`Error::SHORT`] where there are fewer than 56 bytes; [`Error::PDB_RECORD_TRUNCATED`] where the records
    /// pass the end; [`Error::SHORT`], [`Error::PDB_RECORD_SIZE`], [`Error::PDB_RECORD_TRUNCATED`] of a record;
    /// [`ROOM`].
    pub fn pe_c_pdb_ids(bytes: *const u8, length: usize, room: *mut u64, entries: usize, written: *mut u64) -> u32;
    /// Writes the inlined functions whose code is at an RVA to the start of `room`, the innermost first: each is
    /// inlined in the one after it, and the last in the procedure.
    ///
    /// None where the RVA is of the procedure alone; an RVA before the procedure counts as its start. `bytes` are those
    /// of the stream of `module`, and `procedure` is what [`pe_c_find_pdb_symbol`] found in it. `ids` are the bytes of
    /// the stream of ids, and `starts` what [`pe_c_pdb_ids`] wrote: with another start a function has another name, or
    /// none. Without ids the functions have lines alone. There is always room in 64 entries. A call reads the records
    /// of the procedure, and for each function found those of the module's inlined functions up to its own.
    ///
    /// Errors: [`Error::SHORT`] where the symbols of the module are not inside the bytes; [`Error::SHORT`],
    /// [`Error::PDB_RECORD_SIZE`], [`Error::PDB_RECORD_TRUNCATED`] of a record from that of the procedure to its end;
    /// of that of an inlined function [`Error::SHORT`], [`Error::PDB_ANNOTATION`]; [`Error::PDB_INLINE_DEPTH`];
    /// [`ROOM`].
    pub fn pe_c_find_pdb_inlined(
        bytes: *const u8,
        length: usize,
        module: *const PdbModule,
        procedure: *const PdbSymbol,
        rva: u32,
        ids: *const u8,
        ids_length: usize,
        starts: *const u64,
        number_of_starts: usize,
        room: *mut PdbInlined,
        entries: usize,
        written: *mut u64,
    ) -> u32;
    /// Returns the number of the stream with a name, such as "/names", by the bytes of the info stream, stream 1.
    ///
    /// [`NOTHING`] without one. Error: [`Error::SHORT`] or [`Error::PDB_RECORD_TRUNCATED`] where the names of streams
    /// pass the end of the bytes.
    pub fn pe_c_pdb_named_stream(
        bytes: *const u8,
        length: usize,
        name: *const u8,
        name_length: usize,
        out: *mut u32,
    ) -> u32;
}

/// Returns the range of the bytes after the headers and the raw data of all sections, which no loader reads: where
/// installers keep their archives, and signed images their certificates.
///
/// It may hold what headers lead to: the certificate table, COFF symbols. [`NOTHING`] where no byte follows, and in an
/// image as loaded. It never returns an error.
///
/// # Safety
///
/// As of [`pe_c_image_range`], which it calls.
#[rustfmt::skip]
pub unsafe extern "C" fn pe_c_overlay(view: *const View, out: *mut Range) -> u32 {
    unsafe { pe_c_image_range(view, RANGE_OVERLAY, out) }
}

/// Returns the COFF string table, from its size field on.
///
/// [`NOTHING`] where the image has no COFF symbols, where the bytes end after them, and in an image as loaded.
///
/// Errors: [`Error::SHORT`] of the headers and of the symbols; [`Error::STRING_TABLE`] where the table is truncated.
///
/// # Safety
///
/// As of [`pe_c_image_range`], which it calls.
#[rustfmt::skip]
pub unsafe extern "C" fn pe_c_string_table(view: *const View, out: *mut Range) -> u32 {
    unsafe { pe_c_image_range(view, RANGE_STRING_TABLE, out) }
}

/// Returns the entries of the debug directory as a walk for [`pe_c_next_debug_entry`].
///
/// [`NOTHING`] without a directory.
///
/// Errors: [`Error::UNMAPPED`]; [`Error::DEBUG_BOUNDS`] in strict mode.
///
/// # Safety
///
/// As of [`pe_c_image_range`], which it calls.
#[rustfmt::skip]
pub unsafe extern "C" fn pe_c_debug_entries(view: *const View, out: *mut Range) -> u32 {
    unsafe { pe_c_image_range(view, RANGE_DEBUG_ENTRIES, out) }
}

/// Returns the range of the function table, entries of 12 bytes.
///
/// [`NOTHING`] without one, or for a machine other than x64.
///
/// Errors: [`Error::EXCEPTION_SIZE`], [`Error::UNMAPPED`], [`Error::EXCEPTION_OFFSET`], [`Error::EXCEPTION_BOUNDS`].
///
/// # Safety
///
/// As of [`pe_c_exception_table`], which it calls.
#[rustfmt::skip]
pub unsafe extern "C" fn pe_c_function_table(view: *const View, out: *mut Range) -> u32 {
    unsafe { pe_c_exception_table(view, 0x8664, out) }
}

/// Returns the range of the function table, entries of 8 bytes.
///
/// [`NOTHING`] without one, or for a machine other than ARM64.
///
/// Errors: [`Error::EXCEPTION_SIZE`], [`Error::UNMAPPED`], [`Error::EXCEPTION_OFFSET`], [`Error::EXCEPTION_BOUNDS`].
///
/// # Safety
///
/// As of [`pe_c_exception_table`], which it calls.
#[rustfmt::skip]
pub unsafe extern "C" fn pe_c_arm64_table(view: *const View, out: *mut Range) -> u32 {
    unsafe { pe_c_exception_table(view, 0xAA64, out) }
}

/// Returns the entries of the delay import directory, where a walk starts.
///
/// [`NOTHING`] where the directory is absent.
///
/// Errors: [`Error::UNMAPPED`], [`Error::SHORT`].
///
/// # Safety
///
/// As of [`pe_c_directory_table`], which it calls.
#[rustfmt::skip]
pub unsafe extern "C" fn pe_c_delay_imports(view: *const View, out: *mut Range) -> u32 {
    unsafe { pe_c_directory_table(view, 13, out) }
}

/// Returns the blocks of the base relocations as a walk.
///
/// [`NOTHING`] where the directory is absent.
///
/// Errors: [`Error::UNMAPPED`], [`Error::SHORT`].
///
/// # Safety
///
/// As of [`pe_c_directory_table`], which it calls.
#[rustfmt::skip]
pub unsafe extern "C" fn pe_c_relocation_blocks(view: *const View, out: *mut Range) -> u32 {
    unsafe { pe_c_directory_table(view, 5, out) }
}

/// Returns the next code of a record, in the order in which they are undone: the last instruction of the prolog first.
///
/// Errors: [`Error::SHORT`] where the walk is not inside the bytes, or a code is truncated; [`Error::UNWIND_CODE`] for
/// an invalid code.
///
/// # Safety
///
/// As of [`pe_c_list_codes`], which it calls.
#[rustfmt::skip]
pub unsafe extern "C" fn pe_c_next_code(bytes: *const u8, length: usize, walk: *mut Walk, out: *mut Code) -> u32 {
    let mut written = 0;
    let result = unsafe { pe_c_list_codes(bytes, length, walk, out, 1, &mut written) };
    if result == DONE && written == 0 { NOTHING } else { result }
}

/// Returns the next code.
///
/// The walk does not stop at `PE_C_ARM64_END` and `PE_C_ARM64_END_C`, since the codes of epilogs follow; the caller
/// stops there.
///
/// Errors: [`Error::SHORT`] where the walk is not inside the bytes; [`Error::ARM64_STREAM`] where its offset plus the
/// bytes left is not a multiple of 4 or is above 4,294,967,292, as in no walk of [`pe_c_arm64_codes`];
/// [`Error::ARM64_CUT`] for a truncated code.
///
/// # Safety
///
/// As of [`pe_c_list_arm64_codes`], which it calls.
#[rustfmt::skip]
pub unsafe extern "C" fn pe_c_next_arm64_code(
    bytes: *const u8,
    length: usize,
    walk: *mut Arm64Walk,
    out: *mut Arm64Code,
) -> u32 {
    let mut written = 0;
    let result = unsafe { pe_c_list_arm64_codes(bytes, length, walk, out, 1, &mut written) };
    if result == DONE && written == 0 { NOTHING } else { result }
}

/// Returns the next export.
///
/// Entries are skipped whose name is unmapped, not NUL-terminated or not UTF-8, or whose index is past the table of
/// RVAs. Each name and each forwarder's text is read to its end, so texts that overlap are read once each.
///
/// Errors: [`Error::SHORT`] where the tables are not inside the bytes.
///
/// # Safety
///
/// As of [`pe_c_list_exports`], which it calls.
#[rustfmt::skip]
pub unsafe extern "C" fn pe_c_next_export(view: *const View, walk: *mut ExportWalk, out: *mut Export) -> u32 {
    let mut written = 0;
    let result = unsafe { pe_c_list_exports(view, walk, core::ptr::null_mut(), 0, out, 1, &mut written) };
    if result == DONE && written == 0 { NOTHING } else { result }
}

/// Returns the next DLL.
///
/// The directory ends with its bytes, or at an entry without the address of a name.
///
/// Errors: [`Error::SHORT`] of the entry; [`Error::DIRECTORY_VA_BELOW_BASE`], [`Error::UNMAPPED`],
/// [`Error::DIRECTORY_DELAY_IMPORT_NAME`] of the name; [`Error::DIRECTORY_VA_BELOW_BASE`], [`Error::UNMAPPED`] of the
/// table of functions.
///
/// # Safety
///
/// As of [`pe_c_list_delay_imports`], which it calls.
#[rustfmt::skip]
pub unsafe extern "C" fn pe_c_next_delay_import(
    view: *const View,
    walk: *mut DelayImportWalk,
    out: *mut DelayImport,
) -> u32 {
    let mut written = 0;
    let result = unsafe { pe_c_list_delay_imports(view, walk, core::ptr::null_mut(), 0, out, 1, &mut written) };
    if result == DONE && written == 0 { NOTHING } else { result }
}

/// Returns the next function of a DLL.
///
/// Errors: [`Error::SHORT`] where the bytes end before the table does; of an import by name
/// [`Error::DIRECTORY_VA_BELOW_BASE`], [`Error::UNMAPPED`] of its address, [`Error::SHORT`] of the hint there,
/// [`Error::DIRECTORY_DELAY_IMPORT_NAME`].
///
/// # Safety
///
/// As of [`pe_c_list_delayed_functions`], which it calls.
#[rustfmt::skip]
pub unsafe extern "C" fn pe_c_next_delayed_function(
    view: *const View,
    walk: *mut DelayedFunctionWalk,
    out: *mut DelayedFunction,
) -> u32 {
    let mut written = 0;
    let result = unsafe { pe_c_list_delayed_functions(view, walk, core::ptr::null_mut(), 0, out, 1, &mut written) };
    if result == DONE && written == 0 { NOTHING } else { result }
}

/// Returns the next DLL.
///
/// The walk starts as a copy of the table. The list ends with the table, or at an entry without a name.
///
/// Errors: [`Error::SHORT`] of the entry and its forwarders; [`Error::SHORT`] where the table is not inside the bytes;
/// [`Error::DIRECTORY_BOUND_IMPORT_NAME`].
///
/// # Safety
///
/// As of [`pe_c_list_bound_imports`], which it calls.
#[rustfmt::skip]
pub unsafe extern "C" fn pe_c_next_bound_import(
    bytes: *const u8,
    length: usize,
    table: *const Range,
    walk: *mut Range,
    out: *mut BoundImport,
) -> u32 {
    let mut written = 0;
    let result = unsafe { pe_c_list_bound_imports(bytes, length, table, walk, core::ptr::null_mut(), 0, out, 1, &mut written) };
    if result == DONE && written == 0 { NOTHING } else { result }
}

/// Returns the next DLL that a DLL forwards to.
///
/// The walk starts as the `forwarders` of that.
///
/// Errors: [`Error::SHORT`] of the entry; [`Error::SHORT`] where the table is not inside the bytes;
/// [`Error::DIRECTORY_BOUND_IMPORT_NAME`].
///
/// # Safety
///
/// As of [`pe_c_list_bound_forwarders`], which it calls.
#[rustfmt::skip]
pub unsafe extern "C" fn pe_c_next_bound_forwarder(
    bytes: *const u8,
    length: usize,
    table: *const Range,
    walk: *mut Range,
    out: *mut BoundForwarder,
) -> u32 {
    let mut written = 0;
    let result = unsafe { pe_c_list_bound_forwarders(bytes, length, table, walk, core::ptr::null_mut(), 0, out, 1, &mut written) };
    if result == DONE && written == 0 { NOTHING } else { result }
}

/// Returns the next block.
///
/// A walk ends with its bytes, or at a block of length 0. Unlike other walks this one may go on after an error, with
/// the block after that which has the error; it is over where a call returns [`NOTHING`].
///
/// Errors: [`Error::SHORT`] where the block is truncated, which ends the walk; [`Error::RESOURCE_STRING`] where its
/// length is below 6, which ends the walk, or its key has no zero code unit in it, after which the walk goes on.
///
/// # Safety
///
/// As of [`pe_c_list_version_blocks`], which it calls.
#[rustfmt::skip]
pub unsafe extern "C" fn pe_c_next_version_block(
    bytes: *const u8,
    length: usize,
    walk: *mut Range,
    out: *mut VersionBlock,
) -> u32 {
    let mut written = 0;
    let result = unsafe { pe_c_list_version_blocks(bytes, length, walk, out, 1, &mut written) };
    if result == DONE && written == 0 { NOTHING } else { result }
}

/// Returns the next leaf.
///
/// A content that is not in the file is no error of its leaf.
///
/// Errors: [`Error::SHORT`] where the walk is not inside the bytes, or its entries are not inside its tree; of the
/// entry of a type or a name [`Error::TREE_NOT_DIRECTORY`], [`Error::SHORT`] of its directory and of the entries there,
/// [`Error::TREE_NO_ENTRIES`]; of the entry of a language [`Error::TREE_NOT_DATA`], [`Error::SHORT`] of its data entry;
/// [`Error::SHORT`] of a name.
///
/// # Safety
///
/// As of [`pe_c_list_resource_leaves`], which it calls.
#[rustfmt::skip]
pub unsafe extern "C" fn pe_c_next_resource_leaf(
    view: *const View,
    walk: *mut LeafWalk,
    out: *mut ResourceLeaf,
) -> u32 {
    let mut written = 0;
    let result = unsafe { pe_c_list_resource_leaves(view, walk, out, 1, &mut written) };
    if result == DONE && written == 0 { NOTHING } else { result }
}

/// Returns the next block.
///
/// [`NOTHING`] also where a block of zeros, page and size, ends the list.
///
/// Errors: [`Error::SHORT`] of the header; [`Error::DIRECTORY_BLOCK_SIZE`]; [`Error::DIRECTORY_BLOCK_TRUNCATED`].
///
/// # Safety
///
/// As of [`pe_c_list_relocation_blocks`], which it calls.
#[rustfmt::skip]
pub unsafe extern "C" fn pe_c_next_relocation_block(
    bytes: *const u8,
    length: usize,
    walk: *mut Range,
    out: *mut RelocationBlock,
) -> u32 {
    let mut written = 0;
    let result = unsafe { pe_c_list_relocation_blocks(bytes, length, walk, out, 1, &mut written) };
    if result == DONE && written == 0 { NOTHING } else { result }
}

/// Returns the next relocation of a block.
///
/// `page_rva` is that of the block, and the walk starts as its entries. Those of kind `IMAGE_REL_BASED_ABSOLUTE` (0),
/// which fill up a block, are returned too.
///
/// Errors: [`Error::SHORT`] of the entry; [`Error::DIRECTORY_NO_ARGUMENT`].
///
/// # Safety
///
/// As of [`pe_c_list_relocations`], which it calls.
#[rustfmt::skip]
pub unsafe extern "C" fn pe_c_next_relocation(
    bytes: *const u8,
    length: usize,
    page_rva: u32,
    walk: *mut Range,
    out: *mut Relocation,
) -> u32 {
    let mut written = 0;
    let result = unsafe { pe_c_list_relocations(bytes, length, page_rva, walk, out, 1, &mut written) };
    if result == DONE && written == 0 { NOTHING } else { result }
}

/// Returns the next entry of a table.
///
/// Error: [`Error::SHORT`] where the bytes end before the table does, or the walk is not inside them.
///
/// # Safety
///
/// As of [`pe_c_list_guard_entries`], which it calls.
#[rustfmt::skip]
pub unsafe extern "C" fn pe_c_next_guard_entry(
    bytes: *const u8,
    length: usize,
    walk: *mut GuardEntries,
    out: *mut GuardEntry,
) -> u32 {
    let mut written = 0;
    let result = unsafe { pe_c_list_guard_entries(bytes, length, walk, out, 1, &mut written) };
    if result == DONE && written == 0 { NOTHING } else { result }
}

/// Returns the next entry of a POGO record.
///
/// Errors: [`Error::SHORT`] where the walk is not inside the bytes, or fewer than 8 bytes are left;
/// [`Error::POGO_NAME`] where the name is not NUL-terminated, or its padding to a multiple of 4 bytes is truncated.
///
/// # Safety
///
/// As of [`pe_c_list_pogo_entries`], which it calls.
#[rustfmt::skip]
pub unsafe extern "C" fn pe_c_next_pogo_entry(
    bytes: *const u8,
    length: usize,
    walk: *mut Range,
    out: *mut PogoEntry,
) -> u32 {
    let mut written = 0;
    let result = unsafe { pe_c_list_pogo_entries(bytes, length, walk, out, 1, &mut written) };
    if result == DONE && written == 0 { NOTHING } else { result }
}

/// Returns the next frame of a stack walk on x64, in the walk: what [`pe_c_next_frames`] returns of one, which tests
/// the modules in each call.
///
/// Errors, which change nothing: those of [`pe_c_next_frames`].
///
/// # Safety
///
/// As of [`pe_c_next_frames`], which it calls.
#[rustfmt::skip]
pub unsafe extern "C" fn pe_c_next_frame(
    modules: *const Module,
    module_count: usize,
    memory: *const u8,
    memory_length: usize,
    pieces: *const MemoryPiece,
    piece_count: usize,
    walk: *mut StackWalk,
) -> u32 {
    let (mut found, mut written) = (StackWalk::default(), 0);
    unsafe { pe_c_next_frames(modules, module_count, memory, memory_length, pieces, piece_count, walk, &mut found, 1, &mut written) }
}

/// The same on ARM64.
///
/// Errors, which change nothing: those of [`pe_c_next_frames`].
///
/// # Safety
///
/// As of [`pe_c_next_arm64_frames`], which it calls.
#[rustfmt::skip]
pub unsafe extern "C" fn pe_c_next_arm64_frame(
    modules: *const Module,
    module_count: usize,
    memory: *const u8,
    memory_length: usize,
    pieces: *const MemoryPiece,
    piece_count: usize,
    walk: *mut Arm64StackWalk,
) -> u32 {
    let (mut found, mut written) = (Arm64StackWalk::default(), 0);
    unsafe { pe_c_next_arm64_frames(modules, module_count, memory, memory_length, pieces, piece_count, walk, &mut found, 1, &mut written) }
}

/// Returns the function with an index, from 0.
///
/// Errors: [`Error::SHORT`] where the table is not inside the bytes; [`Error::FUNCTION_INDEX`] where it has no such
/// entry.
///
/// # Safety
///
/// As of [`pe_c_list_arm64_functions`], which it calls.
#[rustfmt::skip]
pub unsafe extern "C" fn pe_c_arm64_function_at(
    bytes: *const u8,
    length: usize,
    table: *const Range,
    mut index: u64,
    out: *mut Arm64Function,
) -> u32 {
    let mut written = 0;
    let result = unsafe { pe_c_list_arm64_functions(bytes, length, table, &mut index, out, 1, &mut written) };
    if result == DONE && written == 0 { crate::Error::FUNCTION_INDEX.number() } else { result }
}

/// Reads the symbol in an entry of a symbol table.
///
/// [`NOTHING`] past the last entry. Auxiliary records have entries of their own, and nothing in these says that they
/// are no symbols.
///
/// Error: [`Error::SHORT`] where the table is not inside the bytes.
///
/// # Safety
///
/// As of [`pe_c_next_symbol`], which it calls.
#[rustfmt::skip]
pub unsafe extern "C" fn pe_c_symbol(
    bytes: *const u8,
    length: usize,
    table: *const Range,
    index: u64,
    out: *mut SymbolEntry,
) -> u32 {
    let mut walk = SymbolWalk { table: unsafe { *table }, next: index };
    unsafe { pe_c_next_symbol(bytes, length, &mut walk, out) }
}

/// Returns the fixed file information.
///
/// [`NOTHING`] also where version information has none. A damaged string is an error too: without the strings the same
/// is read by [`pe_c_fixed_version_in`], of the first 92 bytes of what [`pe_c_version_blocks`] returns.
///
/// Errors: those of [`pe_c_version_blocks`], then those of [`pe_c_fixed_version_in`].
///
/// # Safety
///
/// As of [`pe_c_version_blocks`] and [`pe_c_fixed_version_in`], which it calls.
#[rustfmt::skip]
pub unsafe extern "C" fn pe_c_fixed_version(view: *const View, out: *mut Version) -> u32 {
    let mut found = Range::default();
    let result = unsafe { pe_c_version_blocks(view, &mut found) };
    if result == DONE { unsafe { pe_c_fixed_version_in((*view).bytes, (*view).length, &found, out) } } else { result }
}

/// Returns the value of a name, `PE_C_COMMENTS` .. `PE_C_SPECIAL_BUILD`: UTF-16 code units, little-endian, with the
/// zeros after the text, which ends at the first zero.
///
/// [`NOTHING`] also without a string of that name, and for another number.
///
/// Errors: those of [`pe_c_version_blocks`], then those of [`pe_c_version_text_in`].
///
/// # Safety
///
/// As of [`pe_c_version_blocks`] and [`pe_c_version_text_in`], which it calls.
#[rustfmt::skip]
pub unsafe extern "C" fn pe_c_version_text(view: *const View, name: u32, out: *mut Range) -> u32 {
    if name > 11 {
        return NOTHING;
    }
    let mut found = Range::default();
    let result = unsafe { pe_c_version_blocks(view, &mut found) };
    if result == DONE { unsafe { pe_c_version_text_in((*view).bytes, (*view).length, &found, name, out) } } else { result }
}

/// Reads a signature: the body of a certificate, or the value of an attribute that is a nested signature or a time
/// stamp.
///
/// Errors, then: [`Error::SIGNATURE_CONTENT_TYPE`] where the content is no signed data.
///
/// # Safety
///
/// As of [`pe_c_signature_part`], which it calls.
#[rustfmt::skip]
pub unsafe extern "C" fn pe_c_signature(
    bytes: *const u8,
    length: usize,
    range: *const Range,
    failure: *mut SignatureFailure,
    out: *mut SignedData,
) -> u32 {
    let mut found = core::mem::MaybeUninit::<AnyPart>::uninit();
    let result = unsafe { pe_c_signature_part(bytes, length, range, PART_SIGNATURE, failure, found.as_mut_ptr()) };
    if result == DONE {
        unsafe { *out = (*found.as_ptr()).signature };
    }
    result
}

/// Reads an algorithm.
///
/// # Safety
///
/// As of [`pe_c_signature_part`], which it calls.
#[rustfmt::skip]
pub unsafe extern "C" fn pe_c_algorithm_identifier(
    bytes: *const u8,
    length: usize,
    range: *const Range,
    failure: *mut SignatureFailure,
    out: *mut Algorithm,
) -> u32 {
    let mut found = core::mem::MaybeUninit::<AnyPart>::uninit();
    let result = unsafe { pe_c_signature_part(bytes, length, range, PART_ALGORITHM, failure, found.as_mut_ptr()) };
    if result == DONE {
        unsafe { *out = (*found.as_ptr()).algorithm };
    }
    result
}

/// Reads what Authenticode signs: the content of a signature with the type `PE_C_OID_SPC_INDIRECT_DATA`.
///
/// # Safety
///
/// As of [`pe_c_signature_part`], which it calls.
#[rustfmt::skip]
pub unsafe extern "C" fn pe_c_indirect_data(
    bytes: *const u8,
    length: usize,
    range: *const Range,
    failure: *mut SignatureFailure,
    out: *mut SpcIndirectData,
) -> u32 {
    let mut found = core::mem::MaybeUninit::<AnyPart>::uninit();
    let result = unsafe { pe_c_signature_part(bytes, length, range, PART_INDIRECT_DATA, failure, found.as_mut_ptr()) };
    if result == DONE {
        unsafe { *out = (*found.as_ptr()).indirect_data };
    }
    result
}

/// Reads what a signature says of an image as a file.
///
/// # Safety
///
/// As of [`pe_c_signature_part`], which it calls.
#[rustfmt::skip]
pub unsafe extern "C" fn pe_c_image_data(
    bytes: *const u8,
    length: usize,
    range: *const Range,
    failure: *mut SignatureFailure,
    out: *mut SpcPeImageData,
) -> u32 {
    let mut found = core::mem::MaybeUninit::<AnyPart>::uninit();
    let result = unsafe { pe_c_signature_part(bytes, length, range, PART_IMAGE_DATA, failure, found.as_mut_ptr()) };
    if result == DONE {
        unsafe { *out = (*found.as_ptr()).image_data };
    }
    result
}

/// Reads a signer of a signature, or a counter-signature.
///
/// # Safety
///
/// As of [`pe_c_signature_part`], which it calls.
#[rustfmt::skip]
pub unsafe extern "C" fn pe_c_signer(
    bytes: *const u8,
    length: usize,
    range: *const Range,
    failure: *mut SignatureFailure,
    out: *mut SignerInfo,
) -> u32 {
    let mut found = core::mem::MaybeUninit::<AnyPart>::uninit();
    let result = unsafe { pe_c_signature_part(bytes, length, range, PART_SIGNER, failure, found.as_mut_ptr()) };
    if result == DONE {
        unsafe { *out = (*found.as_ptr()).signer };
    }
    result
}

/// Reads an attribute of a signer.
///
/// # Safety
///
/// As of [`pe_c_signature_part`], which it calls.
#[rustfmt::skip]
pub unsafe extern "C" fn pe_c_attribute(
    bytes: *const u8,
    length: usize,
    range: *const Range,
    failure: *mut SignatureFailure,
    out: *mut SignerAttribute,
) -> u32 {
    let mut found = core::mem::MaybeUninit::<AnyPart>::uninit();
    let result = unsafe { pe_c_signature_part(bytes, length, range, PART_ATTRIBUTE, failure, found.as_mut_ptr()) };
    if result == DONE {
        unsafe { *out = (*found.as_ptr()).attribute };
    }
    result
}

/// Reads what a signer says of the program.
///
/// # Safety
///
/// As of [`pe_c_signature_part`], which it calls.
#[rustfmt::skip]
pub unsafe extern "C" fn pe_c_opus_info(
    bytes: *const u8,
    length: usize,
    range: *const Range,
    failure: *mut SignatureFailure,
    out: *mut SpcOpusInfo,
) -> u32 {
    let mut found = core::mem::MaybeUninit::<AnyPart>::uninit();
    let result = unsafe { pe_c_signature_part(bytes, length, range, PART_OPUS_INFO, failure, found.as_mut_ptr()) };
    if result == DONE {
        unsafe { *out = (*found.as_ptr()).opus_info };
    }
    result
}

/// Reads a certificate.
///
/// # Safety
///
/// As of [`pe_c_signature_part`], which it calls.
#[rustfmt::skip]
pub unsafe extern "C" fn pe_c_x509(
    bytes: *const u8,
    length: usize,
    range: *const Range,
    failure: *mut SignatureFailure,
    out: *mut X509Certificate,
) -> u32 {
    let mut found = core::mem::MaybeUninit::<AnyPart>::uninit();
    let result = unsafe { pe_c_signature_part(bytes, length, range, PART_X509, failure, found.as_mut_ptr()) };
    if result == DONE {
        unsafe { *out = (*found.as_ptr()).x509 };
    }
    result
}

/// Reads an extension of a certificate.
///
/// # Safety
///
/// As of [`pe_c_signature_part`], which it calls.
#[rustfmt::skip]
pub unsafe extern "C" fn pe_c_extension(
    bytes: *const u8,
    length: usize,
    range: *const Range,
    failure: *mut SignatureFailure,
    out: *mut X509Extension,
) -> u32 {
    let mut found = core::mem::MaybeUninit::<AnyPart>::uninit();
    let result = unsafe { pe_c_signature_part(bytes, length, range, PART_EXTENSION, failure, found.as_mut_ptr()) };
    if result == DONE {
        unsafe { *out = (*found.as_ptr()).extension };
    }
    result
}

/// Returns what a key is for, of an extension with the type `PE_C_OID_KEY_USAGE`: 0x80 digitalSignature, 0x40
/// contentCommitment, 0x20 keyEncipherment, 0x10 dataEncipherment, 8 keyAgreement, 4 keyCertSign, 2 cRLSign, 1
/// encipherOnly, 0x8000 decipherOnly.
///
/// [`NOTHING`] where the value has no bits, more than 16, or unused bits that are more than 7 or not 0. `range` is that
/// of the extension.
///
/// # Safety
///
/// As of [`pe_c_signature_part`], which it calls.
#[rustfmt::skip]
pub unsafe extern "C" fn pe_c_key_usage(
    bytes: *const u8,
    length: usize,
    range: *const Range,
    failure: *mut SignatureFailure,
    out: *mut u32,
) -> u32 {
    let mut found = core::mem::MaybeUninit::<AnyPart>::uninit();
    let result = unsafe { pe_c_signature_part(bytes, length, range, PART_KEY_USAGE, failure, found.as_mut_ptr()) };
    if result == DONE {
        unsafe { *out = (*found.as_ptr()).key_usage };
    }
    result
}

/// Returns a walk over the attributes of a name: of an issuer or a subject.
///
/// # Safety
///
/// As of [`pe_c_signature_part`], which it calls.
#[rustfmt::skip]
pub unsafe extern "C" fn pe_c_name(
    bytes: *const u8,
    length: usize,
    range: *const Range,
    failure: *mut SignatureFailure,
    out: *mut NameWalk,
) -> u32 {
    let mut found = core::mem::MaybeUninit::<AnyPart>::uninit();
    let result = unsafe { pe_c_signature_part(bytes, length, range, PART_NAME, failure, found.as_mut_ptr()) };
    if result == DONE {
        unsafe { *out = (*found.as_ptr()).name };
    }
    result
}

/// Reads a time: the end of a validity, the value of signingTime, the time of a time stamp.
///
/// Errors, then: [`Error::SIGNATURE_BAD_TIME`] where it is no UTCTime or GeneralizedTime, not in the form of RFC 5280
/// (seconds, and Z), or has a number that no time has.
///
/// # Safety
///
/// As of [`pe_c_signature_part`], which it calls.
#[rustfmt::skip]
pub unsafe extern "C" fn pe_c_time(
    bytes: *const u8,
    length: usize,
    range: *const Range,
    failure: *mut SignatureFailure,
    out: *mut UtcTime,
) -> u32 {
    let mut found = core::mem::MaybeUninit::<AnyPart>::uninit();
    let result = unsafe { pe_c_signature_part(bytes, length, range, PART_TIME, failure, found.as_mut_ptr()) };
    if result == DONE {
        unsafe { *out = (*found.as_ptr()).time };
    }
    result
}

/// Reads what a time stamp says: the content of a signature with the type `PE_C_OID_TST_INFO`.
///
/// # Safety
///
/// As of [`pe_c_signature_part`], which it calls.
#[rustfmt::skip]
pub unsafe extern "C" fn pe_c_time_stamp(
    bytes: *const u8,
    length: usize,
    range: *const Range,
    failure: *mut SignatureFailure,
    out: *mut TstInfo,
) -> u32 {
    let mut found = core::mem::MaybeUninit::<AnyPart>::uninit();
    let result = unsafe { pe_c_signature_part(bytes, length, range, PART_TIME_STAMP, failure, found.as_mut_ptr()) };
    if result == DONE {
        unsafe { *out = (*found.as_ptr()).time_stamp };
    }
    result
}

/// Returns the entry of the directory with an index, or [`NOTHING`].
///
/// Errors: [`Error::DUMP_LOCATION`] where the directory is not inside the bytes.
///
/// # Safety
///
/// As of [`pe_c_dump_record`], which it calls.
#[rustfmt::skip]
pub unsafe extern "C" fn pe_c_dump_entry_at(
    bytes: *const u8,
    length: usize,
    directory: *const Range,
    index: u64,
    out: *mut DumpEntry,
) -> u32 {
    let mut found = core::mem::MaybeUninit::<DumpAnyRecord>::uninit();
    let result = unsafe { pe_c_dump_record(bytes, length, directory, DUMP_ENTRIES, index, found.as_mut_ptr()) };
    if result == DONE {
        unsafe { *out = (*found.as_ptr()).entry };
    }
    result
}

/// Returns the thread with an index in the stream of threads, or [`NOTHING`].
///
/// Errors: [`Error::DUMP_LOCATION`] where the stream is not inside the bytes; [`Error::SHORT`] where it has fewer than
/// 4 bytes; [`Error::DUMP_LIST_SIZE`] where it has another size than the number of threads and so many threads.
///
/// # Safety
///
/// As of [`pe_c_dump_record`], which it calls.
#[rustfmt::skip]
pub unsafe extern "C" fn pe_c_dump_thread_at(
    bytes: *const u8,
    length: usize,
    stream: *const Range,
    index: u64,
    out: *mut DumpThread,
) -> u32 {
    let mut found = core::mem::MaybeUninit::<DumpAnyRecord>::uninit();
    let result = unsafe { pe_c_dump_record(bytes, length, stream, THREAD_LIST_STREAM, index, found.as_mut_ptr()) };
    if result == DONE {
        unsafe { *out = (*found.as_ptr()).thread };
    }
    result
}

/// The same of modules, which stand in no order.
///
/// Errors: those of [`pe_c_dump_thread_at`].
///
/// # Safety
///
/// As of [`pe_c_dump_record`], which it calls.
#[rustfmt::skip]
pub unsafe extern "C" fn pe_c_dump_module_at(
    bytes: *const u8,
    length: usize,
    stream: *const Range,
    index: u64,
    out: *mut DumpModule,
) -> u32 {
    let mut found = core::mem::MaybeUninit::<DumpAnyRecord>::uninit();
    let result = unsafe { pe_c_dump_record(bytes, length, stream, MODULE_LIST_STREAM, index, found.as_mut_ptr()) };
    if result == DONE {
        unsafe { *out = (*found.as_ptr()).loaded };
    }
    result
}

/// The same of names of threads.
///
/// Errors: those of [`pe_c_dump_thread_at`].
///
/// # Safety
///
/// As of [`pe_c_dump_record`], which it calls.
#[rustfmt::skip]
pub unsafe extern "C" fn pe_c_dump_thread_name_at(
    bytes: *const u8,
    length: usize,
    stream: *const Range,
    index: u64,
    out: *mut DumpThreadName,
) -> u32 {
    let mut found = core::mem::MaybeUninit::<DumpAnyRecord>::uninit();
    let result = unsafe { pe_c_dump_record(bytes, length, stream, THREAD_NAMES_STREAM, index, found.as_mut_ptr()) };
    if result == DONE {
        unsafe { *out = (*found.as_ptr()).thread_name };
    }
    result
}

/// Returns the unloaded module with an index in their stream, or [`NOTHING`].
///
/// Errors: [`Error::DUMP_LOCATION`] where the stream is not inside the bytes; [`Error::SHORT`] where its header is
/// truncated; [`Error::DUMP_ENTRY_SIZE`] where its records are smaller than their fields; [`Error::DUMP_LIST_SIZE`]
/// where they start in the header, or end past the stream.
///
/// # Safety
///
/// As of [`pe_c_dump_record`], which it calls.
#[rustfmt::skip]
pub unsafe extern "C" fn pe_c_dump_unloaded_at(
    bytes: *const u8,
    length: usize,
    stream: *const Range,
    index: u64,
    out: *mut DumpUnloaded,
) -> u32 {
    let mut found = core::mem::MaybeUninit::<DumpAnyRecord>::uninit();
    let result = unsafe { pe_c_dump_record(bytes, length, stream, UNLOADED_MODULE_LIST_STREAM, index, found.as_mut_ptr()) };
    if result == DONE {
        unsafe { *out = (*found.as_ptr()).unloaded };
    }
    result
}

/// The same of thread information.
///
/// Errors: those of [`pe_c_dump_unloaded_at`].
///
/// # Safety
///
/// As of [`pe_c_dump_record`], which it calls.
#[rustfmt::skip]
pub unsafe extern "C" fn pe_c_dump_thread_info_at(
    bytes: *const u8,
    length: usize,
    stream: *const Range,
    index: u64,
    out: *mut DumpThreadInfo,
) -> u32 {
    let mut found = core::mem::MaybeUninit::<DumpAnyRecord>::uninit();
    let result = unsafe { pe_c_dump_record(bytes, length, stream, THREAD_INFO_LIST_STREAM, index, found.as_mut_ptr()) };
    if result == DONE {
        unsafe { *out = (*found.as_ptr()).thread_info };
    }
    result
}

/// The same of handles.
///
/// Errors: those of [`pe_c_dump_unloaded_at`].
///
/// # Safety
///
/// As of [`pe_c_dump_record`], which it calls.
#[rustfmt::skip]
pub unsafe extern "C" fn pe_c_dump_handle_at(
    bytes: *const u8,
    length: usize,
    stream: *const Range,
    index: u64,
    out: *mut DumpHandle,
) -> u32 {
    let mut found = core::mem::MaybeUninit::<DumpAnyRecord>::uninit();
    let result = unsafe { pe_c_dump_record(bytes, length, stream, HANDLE_DATA_STREAM, index, found.as_mut_ptr()) };
    if result == DONE {
        unsafe { *out = (*found.as_ptr()).handle };
    }
    result
}

/// The same of regions of memory.
///
/// Errors: those of [`pe_c_dump_unloaded_at`].
///
/// # Safety
///
/// As of [`pe_c_dump_record`], which it calls.
#[rustfmt::skip]
pub unsafe extern "C" fn pe_c_dump_region_at(
    bytes: *const u8,
    length: usize,
    stream: *const Range,
    index: u64,
    out: *mut DumpRegion,
) -> u32 {
    let mut found = core::mem::MaybeUninit::<DumpAnyRecord>::uninit();
    let result = unsafe { pe_c_dump_record(bytes, length, stream, MEMORY_INFO_LIST_STREAM, index, found.as_mut_ptr()) };
    if result == DONE {
        unsafe { *out = (*found.as_ptr()).region };
    }
    result
}

/// Returns the piece of memory with an index in [`MEMORY_LIST_STREAM`], or [`NOTHING`].
///
/// Errors: those of [`pe_c_dump_thread_at`].
///
/// # Safety
///
/// As of [`pe_c_dump_record`], which it calls.
#[rustfmt::skip]
pub unsafe extern "C" fn pe_c_dump_memory_at(
    bytes: *const u8,
    length: usize,
    stream: *const Range,
    index: u64,
    out: *mut DumpPiece,
) -> u32 {
    let mut found = core::mem::MaybeUninit::<DumpAnyRecord>::uninit();
    let result = unsafe { pe_c_dump_record(bytes, length, stream, MEMORY_LIST_STREAM, index, found.as_mut_ptr()) };
    if result == DONE {
        unsafe { *out = (*found.as_ptr()).memory };
    }
    result
}

/// Reads the exception, by its stream.
///
/// Errors: [`Error::DUMP_LOCATION`] where the stream is not inside the bytes; [`Error::SHORT`] where it has fewer than
/// 168 bytes.
///
/// # Safety
///
/// As of [`pe_c_dump_record`], which it calls.
#[rustfmt::skip]
pub unsafe extern "C" fn pe_c_dump_exception(
    bytes: *const u8,
    length: usize,
    stream: *const Range,
    out: *mut DumpException,
) -> u32 {
    let mut found = core::mem::MaybeUninit::<DumpAnyRecord>::uninit();
    let result = unsafe { pe_c_dump_record(bytes, length, stream, EXCEPTION_STREAM, 0, found.as_mut_ptr()) };
    if result == DONE {
        unsafe { *out = (*found.as_ptr()).exception };
    }
    result
}

/// Reads the system, by its stream.
///
/// Errors: [`Error::DUMP_LOCATION`] where the stream is not inside the bytes; [`Error::SHORT`] where it has fewer than
/// 56 bytes.
///
/// # Safety
///
/// As of [`pe_c_dump_record`], which it calls.
#[rustfmt::skip]
pub unsafe extern "C" fn pe_c_dump_system(
    bytes: *const u8,
    length: usize,
    stream: *const Range,
    out: *mut DumpSystem,
) -> u32 {
    let mut found = core::mem::MaybeUninit::<DumpAnyRecord>::uninit();
    let result = unsafe { pe_c_dump_record(bytes, length, stream, SYSTEM_INFO_STREAM, 0, found.as_mut_ptr()) };
    if result == DONE {
        unsafe { *out = (*found.as_ptr()).system };
    }
    result
}

/// Reads what is known of the process, by its stream.
///
/// Errors: [`Error::DUMP_LOCATION`] where the stream is not inside the bytes; [`Error::SHORT`] where it has fewer than
/// 24 bytes.
///
/// # Safety
///
/// As of [`pe_c_dump_record`], which it calls.
#[rustfmt::skip]
pub unsafe extern "C" fn pe_c_dump_process(
    bytes: *const u8,
    length: usize,
    stream: *const Range,
    out: *mut DumpProcess,
) -> u32 {
    let mut found = core::mem::MaybeUninit::<DumpAnyRecord>::uninit();
    let result = unsafe { pe_c_dump_record(bytes, length, stream, MISC_INFO_STREAM, 0, found.as_mut_ptr()) };
    if result == DONE {
        unsafe { *out = (*found.as_ptr()).process };
    }
    result
}

/// Returns a walk over the pieces of memory of a full dump, by [`MEMORY64_LIST_STREAM`].
///
/// It reads each size once.
///
/// Errors: [`Error::DUMP_LOCATION`] where the stream is not inside the bytes; [`Error::SHORT`] where it has fewer than
/// 16 bytes; [`Error::DUMP_LIST_SIZE`] where it has another size than so many entries; [`Error::DUMP_LOCATION`] where
/// the bytes of the pieces end past offset 2^64 - 1.
///
/// # Safety
///
/// As of [`pe_c_dump_record`], which it calls.
#[rustfmt::skip]
pub unsafe extern "C" fn pe_c_dump_memory64(
    bytes: *const u8,
    length: usize,
    stream: *const Range,
    out: *mut Memory64Walk,
) -> u32 {
    let mut found = core::mem::MaybeUninit::<DumpAnyRecord>::uninit();
    let result = unsafe { pe_c_dump_record(bytes, length, stream, MEMORY64_LIST_STREAM, 0, found.as_mut_ptr()) };
    if result == DONE {
        unsafe { *out = (*found.as_ptr()).memory64 };
    }
    result
}

/// Reads a context of x64: that of the exception, or of a thread.
///
/// Errors: [`Error::DUMP_LOCATION`] where it is not inside the bytes; [`Error::DUMP_CONTEXT_SIZE`] where it has fewer
/// than 1,232 bytes; [`Error::DUMP_MACHINE`] where its flags are not of x64; [`Error::DUMP_CONTEXT_FLAGS`] where
/// control or integer registers were not saved.
///
/// # Safety
///
/// As of [`pe_c_read_dump_context`], which it calls.
#[rustfmt::skip]
pub unsafe extern "C" fn pe_c_dump_context(
    bytes: *const u8,
    length: usize,
    location: *const DumpLocation,
    out: *mut Context,
) -> u32 {
    let mut found = core::mem::MaybeUninit::<DumpAnyContext>::uninit();
    let result = unsafe { pe_c_read_dump_context(bytes, length, location, 9, found.as_mut_ptr()) };
    if result == DONE {
        unsafe { *out = (*found.as_ptr()).x64 };
    }
    result
}

/// The same of ARM64, whose contexts have 912 bytes.
///
/// Errors: those of [`pe_c_dump_context`].
///
/// # Safety
///
/// As of [`pe_c_read_dump_context`], which it calls.
#[rustfmt::skip]
pub unsafe extern "C" fn pe_c_dump_context_arm64(
    bytes: *const u8,
    length: usize,
    location: *const DumpLocation,
    out: *mut Arm64Context,
) -> u32 {
    let mut found = core::mem::MaybeUninit::<DumpAnyContext>::uninit();
    let result = unsafe { pe_c_read_dump_context(bytes, length, location, 12, found.as_mut_ptr()) };
    if result == DONE {
        unsafe { *out = (*found.as_ptr()).arm64 };
    }
    result
}

/// Returns why [`pe_c_image`] refuses the bytes in this mode.
///
/// [`NOTHING`] where it does not. It never returns an error.
///
/// A number that is refused has its offset, and `needed` is how many bytes it has. [`Error::SHORT`] has `offset` and
/// `needed`.
///
/// # Safety
///
/// As of [`pe_c_item_failure`], which it calls.
#[rustfmt::skip]
pub unsafe extern "C" fn pe_c_image_failure(bytes: *const u8, length: usize, mode: u32, out: *mut Failure) -> u32 {
    let item = FailedItem { number: mode, ..Default::default() };
    unsafe { pe_c_item_failure(bytes, length, FAILED_IMAGE, &item, out) }
}

/// Returns what is wrong with a directory, `PE_C_DIRECTORY_EXPORT` and so on: the result of the call that reads it, and
/// the numbers of that error.
///
/// [`NOTHING`] where that call returns no error, and of a directory that no call reads. It never returns an error.
///
/// The calls: [`pe_c_export_tables`], [`pe_c_import_libraries`], [`pe_c_resource_leaves`]; [`pe_c_function_table`], of
/// ARM64 [`pe_c_arm64_table`]; [`pe_c_next_certificate`] of the first certificate, in an image as loaded of what is at
/// that offset; [`pe_c_relocation_blocks`], [`pe_c_debug_entries`], [`pe_c_tls`], [`pe_c_load_config`],
/// [`pe_c_bound_imports`], [`pe_c_delay_imports`], [`pe_c_clr_header`].
///
/// The numbers: of [`Error::SHORT`] `offset` and `needed`; of [`Error::CERTIFICATE_SIZE`] `needed`; of
/// [`Error::UNMAPPED`] `value`, the RVA; of [`Error::EXCEPTION_SIZE`], [`Error::CERTIFICATE_REVISION`],
/// [`Error::CERTIFICATE_TYPE`] and [`Error::DIRECTORY_CLR_HEADER_SIZE`] `value`; of [`Error::EXCEPTION_OFFSET`]
/// `offset`; of [`Error::EXCEPTION_BOUNDS`], [`Error::DEBUG_BOUNDS`], [`Error::RESOURCE_BOUNDS`] and
/// [`Error::CERTIFICATE_TABLE`] `offset`, where the table ends.
///
/// # Safety
///
/// As of [`pe_c_image_item_failure`], which it calls.
#[rustfmt::skip]
pub unsafe extern "C" fn pe_c_directory_failure(view: *const View, index: u32, out: *mut Failure) -> u32 {
    let item = FailedItem { number: index, ..Default::default() };
    unsafe { pe_c_image_item_failure(view, FAILED_DIRECTORY, &item, out) }
}

/// Returns why [`pe_c_sections`] refuses the section headers of an image, whatever room it is given.
///
/// [`NOTHING`] where it does not. It never returns an error. The failure is [`Error::SHORT`], with the offset of the
/// headers and the bytes that they need. Of [`pe_c_te_sections`] it is what this call returns with the
/// `sections_offset` 40.
///
/// # Safety
///
/// As of [`pe_c_item_failure`], which it calls.
#[rustfmt::skip]
pub unsafe extern "C" fn pe_c_sections_failure(
    bytes: *const u8,
    length: usize,
    image: *const ImageInfo,
    out: *mut Failure,
) -> u32 {
    let item = FailedItem { index: unsafe { (*image).sections_offset }, number_of_sections: unsafe { (*image).number_of_sections }, ..Default::default() };
    unsafe { pe_c_item_failure(bytes, length, FAILED_SECTIONS, &item, out) }
}

/// Returns why [`pe_c_te`] refuses the bytes.
///
/// [`NOTHING`] where it does not. It never returns an error.
///
/// # Safety
///
/// As of [`pe_c_item_failure`], which it calls.
#[rustfmt::skip]
pub unsafe extern "C" fn pe_c_te_failure(bytes: *const u8, length: usize, out: *mut Failure) -> u32 {
    let item = FailedItem { number: 0, ..Default::default() };
    unsafe { pe_c_item_failure(bytes, length, FAILED_TE, &item, out) }
}

/// Returns what is wrong with the record of an entry of the debug directory that is read as one of these, whatever the
/// entry's type is: its result by [`pe_c_debug_record`], and the numbers of that error.
///
/// [`NOTHING`] where that is no error, and of a kind that is none of these. It never returns an error.
///
/// The numbers: of [`Error::SHORT`] `offset` and `needed`; of [`Error::DEBUG_DATA`] `needed`; of [`Error::DEBUG_SIZE`]
/// and [`Error::POGO_SIZE`] `value`, the size that the entry says; of [`Error::BAD_MAGIC`] `value`.
///
/// # Safety
///
/// As of [`pe_c_item_failure`], which it calls.
#[rustfmt::skip]
pub unsafe extern "C" fn pe_c_debug_failure(
    bytes: *const u8,
    length: usize,
    mode: u32,
    entry: *const DebugEntry,
    kind: u32,
    out: *mut Failure,
) -> u32 {
    let item = FailedItem { entry: unsafe { *entry }, number: mode, record: kind, ..Default::default() };
    unsafe { pe_c_item_failure(bytes, length, FAILED_DEBUG_RECORD, &item, out) }
}

/// Of [`pe_c_next_library`].
///
/// [`Error::UNMAPPED`], [`Error::IMPORT_NAME`]: `value`, the RVA of the library's name.
///
/// # Safety
///
/// As of [`pe_c_image_item_failure`], which it calls.
#[rustfmt::skip]
pub unsafe extern "C" fn pe_c_library_failure(view: *const View, walk: *const Libraries, out: *mut Failure) -> u32 {
    let item = FailedItem { libraries: unsafe { *walk }, ..Default::default() };
    unsafe { pe_c_image_item_failure(view, FAILED_LIBRARY, &item, out) }
}

/// Of [`pe_c_next_import`].
///
/// [`Error::UNMAPPED`], [`Error::IMPORT_NAME`]: `value`, the RVA of the hint before the name.
///
/// # Safety
///
/// As of [`pe_c_image_item_failure`], which it calls.
#[rustfmt::skip]
pub unsafe extern "C" fn pe_c_import_failure(view: *const View, walk: *const Imports, out: *mut Failure) -> u32 {
    let item = FailedItem { imports: unsafe { *walk }, ..Default::default() };
    unsafe { pe_c_image_item_failure(view, FAILED_IMPORT, &item, out) }
}

/// Of [`pe_c_next_resource_leaf`].
///
/// [`Error::TREE_NOT_DIRECTORY`], [`Error::TREE_NOT_DATA`], [`Error::TREE_NO_ENTRIES`]: `offset`, of what the entry
/// leads to, from the first directory.
///
/// # Safety
///
/// As of [`pe_c_image_item_failure`], which it calls.
#[rustfmt::skip]
pub unsafe extern "C" fn pe_c_resource_leaf_failure(
    view: *const View,
    walk: *const ResourceWalk,
    out: *mut Failure,
) -> u32 {
    let item = FailedItem { leaves: unsafe { *walk }, ..Default::default() };
    unsafe { pe_c_image_item_failure(view, FAILED_RESOURCE_LEAF, &item, out) }
}

/// Of [`pe_c_next_certificate`].
///
/// [`Error::CERTIFICATE_TABLE`]: `offset`, where the walk ends; [`Error::CERTIFICATE_SIZE`]: `needed`, the length that
/// the certificate states; [`Error::CERTIFICATE_REVISION`], [`Error::CERTIFICATE_TYPE`]: `value`.
///
/// # Safety
///
/// As of [`pe_c_item_failure`], which it calls.
#[rustfmt::skip]
pub unsafe extern "C" fn pe_c_certificate_failure(
    bytes: *const u8,
    length: usize,
    walk: *const Range,
    out: *mut Failure,
) -> u32 {
    let item = FailedItem { range: unsafe { *walk }, ..Default::default() };
    unsafe { pe_c_item_failure(bytes, length, FAILED_CERTIFICATE, &item, out) }
}

/// Of [`pe_c_next_relocation_block`].
///
/// [`Error::DIRECTORY_BLOCK_SIZE`]: `value`, the size; [`Error::DIRECTORY_BLOCK_TRUNCATED`]: `needed`, the size, and
/// `value`, how many bytes are left.
///
/// # Safety
///
/// As of [`pe_c_item_failure`], which it calls.
#[rustfmt::skip]
pub unsafe extern "C" fn pe_c_relocation_block_failure(
    bytes: *const u8,
    length: usize,
    walk: *const Range,
    out: *mut Failure,
) -> u32 {
    let item = FailedItem { range: unsafe { *walk }, ..Default::default() };
    unsafe { pe_c_item_failure(bytes, length, FAILED_RELOCATION_BLOCK, &item, out) }
}

/// Of [`pe_c_next_relocation`], which takes the same `page_rva`.
///
/// [`Error::DIRECTORY_NO_ARGUMENT`]: `value`, the RVA of the relocation.
///
/// # Safety
///
/// As of [`pe_c_item_failure`], which it calls.
#[rustfmt::skip]
pub unsafe extern "C" fn pe_c_relocation_failure(
    bytes: *const u8,
    length: usize,
    page_rva: u32,
    walk: *const Range,
    out: *mut Failure,
) -> u32 {
    let item = FailedItem { range: unsafe { *walk }, number: page_rva, ..Default::default() };
    unsafe { pe_c_item_failure(bytes, length, FAILED_RELOCATION, &item, out) }
}

/// Of [`pe_c_arm64_unwind_record`].
///
/// [`Error::ARM64_VERSION`]: `value`; those of the table as in [`pe_c_directory_failure`].
///
/// # Safety
///
/// As of [`pe_c_image_item_failure`], which it calls.
#[rustfmt::skip]
pub unsafe extern "C" fn pe_c_arm64_record_failure(
    view: *const View,
    function: *const Arm64Function,
    out: *mut Failure,
) -> u32 {
    let item = FailedItem { function: unsafe { *function }, ..Default::default() };
    unsafe { pe_c_image_item_failure(view, FAILED_ARM64_RECORD, &item, out) }
}

/// Of [`pe_c_next_delay_import`].
///
/// [`Error::DIRECTORY_VA_BELOW_BASE`]: `value`, the address; [`Error::DIRECTORY_DELAY_IMPORT_NAME`]: `offset`.
///
/// # Safety
///
/// As of [`pe_c_image_item_failure`], which it calls.
#[rustfmt::skip]
pub unsafe extern "C" fn pe_c_delay_import_failure(view: *const View, walk: *const Range, out: *mut Failure) -> u32 {
    let item = FailedItem { range: unsafe { *walk }, ..Default::default() };
    unsafe { pe_c_image_item_failure(view, FAILED_DELAY_IMPORT, &item, out) }
}

/// Of [`pe_c_next_delayed_function`].
///
/// The same numbers.
///
/// # Safety
///
/// As of [`pe_c_image_item_failure`], which it calls.
#[rustfmt::skip]
pub unsafe extern "C" fn pe_c_delayed_function_failure(
    view: *const View,
    walk: *const DelayedFunctions,
    out: *mut Failure,
) -> u32 {
    let item = FailedItem { functions: unsafe { *walk }, ..Default::default() };
    unsafe { pe_c_image_item_failure(view, FAILED_DELAYED_FUNCTION, &item, out) }
}

/// Of [`pe_c_next_bound_import`], which takes the same `table`.
///
/// [`Error::DIRECTORY_BOUND_IMPORT_NAME`]: `offset`, from the start of `table`.
///
/// # Safety
///
/// As of [`pe_c_item_failure`], which it calls.
#[rustfmt::skip]
pub unsafe extern "C" fn pe_c_bound_import_failure(
    bytes: *const u8,
    length: usize,
    table: *const Range,
    walk: *const Range,
    out: *mut Failure,
) -> u32 {
    let item = FailedItem { range: unsafe { *walk }, table: unsafe { *table }, ..Default::default() };
    unsafe { pe_c_item_failure(bytes, length, FAILED_BOUND_IMPORT, &item, out) }
}

/// Of [`pe_c_symbol_name`], which takes the same.
///
/// [`Error::STRING_TABLE`]: `offset`, from the start of `strings`, unless the name is in the entry itself.
///
/// # Safety
///
/// As of [`pe_c_item_failure`], which it calls.
#[rustfmt::skip]
pub unsafe extern "C" fn pe_c_symbol_name_failure(
    bytes: *const u8,
    length: usize,
    table: *const Range,
    strings: *const Range,
    index: u64,
    out: *mut Failure,
) -> u32 {
    let item = FailedItem { table: unsafe { *table }, strings: unsafe { *strings }, index, ..Default::default() };
    unsafe { pe_c_item_failure(bytes, length, FAILED_SYMBOL_NAME, &item, out) }
}
