//! What `{:?}` shows of an image with every directory, of a TE image and of an object. The texts are those of a derived
//! `Debug`, field by field from the bytes; the image's own leaves out the bytes that it was read from.

use crate::frames::shown;
use crate::images::{headers_alone, image, put, te_with_debug, with_every_directory};
use pe_core::{Header, ParseOptions};
use pe_image::{Coff, PE, TE};
use pe_resource::{ImageResourceDirectory, ResourceString};
use pe_unwind::RuntimeFunctionIterator;
use std::fmt::Debug;
use std::test::Fail;

/// The section at 0x148, and what stands before the directories.
const SECTIONS: &str =
    "sections: [SectionTable { name: [46, 97, 108, 108, 0, 0, 0, 0], virtual_size: 2048, \
virtual_address: 4096, size_of_raw_data: 2048, pointer_to_raw_data: 512, pointer_to_relocations: 0, \
pointer_to_linenumbers: 0, number_of_relocations: 0, number_of_linenumbers: 0, characteristics: 0 }], size: 0, \
name: Some(\"all.dll\"), is_lib: true, is_64: true, entry: 4148, image_base: 6442450944";

/// The export directory at 0x300, and the tables at 0x340, 0x350 and 0x360.
const EXPORT_DATA: &str =
    "export_data: Some(ExportData { directory: ExportDirectoryTable { characteristics: 0, \
time_date_stamp: 0, major: 0, minor: 0, name_rva: 4400, ordinal_base: 1, address_table_entries: 2, \
number_of_name_pointers: 2, address_table_rva: 4416, name_pointer_rva: 4432, ordinal_table_rva: 4448 }, \
name: Some(\"all.dll\"), addresses: [32, 16, 0, 0, 0, 48, 0, 0], names: [112, 17, 0, 0, 116, 17, 0, 0], \
ordinals: [1, 0, 0, 0] })";

/// The records at 0x400 and 0x414, and their lists at 0x450 and 0x480.
const IMPORT_DATA: &str =
    "import_data: Some(ImportData { import_data: [SyntheticImportDirectoryEntry { \
import_directory_entry: ImportDirectoryEntry { lookup_table_rva: 4688, time_date_stamp: 0, forwarder_chain: 0, \
name_rva: 4672, address_table_rva: 4720 }, name: \"b.dll\", \
lookups: [5, 0, 0, 0, 0, 0, 0, 128, 144, 18, 0, 0, 0, 0, 0, 0] }, SyntheticImportDirectoryEntry { \
import_directory_entry: ImportDirectoryEntry { lookup_table_rva: 0, time_date_stamp: 0, forwarder_chain: 0, \
name_rva: 4680, address_table_rva: 4736 }, name: \"a.dll\", lookups: [152, 18, 0, 0, 0, 0, 0, 0] }] })";

/// What the tables of both directories name.
const NAMED: &str = "exports: [Export { name: \"f\", rva: 12288, offset: None }, \
Export { name: \"g\", rva: 4128, offset: Some(544) }], \
imports: [Import { name: None, dll: \"b.dll\", ordinal: 5, rva: 4720 }, \
Import { name: Some(\"h\"), dll: \"b.dll\", ordinal: 7, rva: 4728 }, \
Import { name: Some(\"ij\"), dll: \"a.dll\", ordinal: 9, rva: 4736 }], libraries: [\"a.dll\", \"b.dll\"]";

/// The table of three entries at 0x640, and the records at 0x6A0 and 0x6C0.
const DEBUG: &str = "debug_data: Some(DebugData { table: [\
0, 0, 0, 0, 68, 51, 34, 17, 0, 0, 0, 0, 16, 0, 0, 0, 0, 0, 0, 0, 0, 0, 0, 0, 0, 0, 0, 0, \
0, 0, 0, 0, 0, 0, 0, 0, 0, 0, 0, 0, 2, 0, 0, 0, 30, 0, 0, 0, 0, 0, 0, 0, 160, 6, 0, 0, \
0, 0, 0, 0, 0, 0, 0, 0, 0, 0, 0, 0, 13, 0, 0, 0, 16, 0, 0, 0, 0, 0, 0, 0, 192, 6, 0, 0], rva_offset: 0, \
codeview_pdb70_debug_info: Some(CodeviewPDB70DebugInfo { codeview_signature: 1396986706, \
signature: [16, 17, 18, 19, 20, 21, 22, 23, 24, 25, 26, 27, 28, 29, 30, 31], age: 9, \
filename: [97, 46, 112, 100, 98, 0] }), codeview_pdb20_debug_info: None, vcfeature_info: None, \
ex_dll_characteristics_info: None, repro_info: Some(TimeDateStamp(287454020)), \
pogo_info: Some(POGOInfo { signature: 1280590663, bytes: [0, 16, 0, 0, 3, 0, 0, 0, 46, 109, 110, 0] }) })";

/// The function table, the relocations at 0x600, and the certificates at 0xA00.
const OTHERS: &str =
    "exception_data: Some(ExceptionData { offset: 512, size: 24, file_alignment: 512 }), \
relocation_data: Some(RelocationData { bytes: [0, 16, 0, 0, 16, 0, 0, 0, 8, 160, 16, 160, 0, 0, 0, 0] }), \
certificates: [AttributeCertificate { length: 9, revision: Revision2_0, certificate_type: PkcsSignedData, \
certificate: [170] }, AttributeCertificate { length: 10, revision: Revision1_0, certificate_type: X509, \
certificate: [187, 204] }]";

/// The resources at 0x500.
const RESOURCES: &str =
    "resource_data: Some(ResourceData { image_resource_directory: ImageResourceDirectory { \
characteristics: 0, time_date_stamp: 0, major_version: 0, minor_version: 0, number_of_named_entries: 0, \
number_of_id_entries: 2 }, version_info: Some(VersionInfo { fixed_info: Some(VsFixedFileInfo { \
signature: 4277077181, struct_version: 65536, file_version_ms: 196619, file_version_ls: 206438400, \
product_version_ms: 0, product_version_ls: 0, file_flags_mask: 0, file_flags: 0, file_os: 0, file_type: 0, \
file_subtype: 0, file_date_ms: 0, file_date_ls: 0 }), string_info: StringFileInfo { comments: Some([66, 0, 0, 0]), \
company_name: None, file_description: None, file_version: None, internal_name: None, legal_copyright: None, \
legal_trademarks: None, original_filename: None, private_build: None, product_name: None, product_version: None, \
special_build: None } }), manifest_data: Some(ManifestData { bytes: [60, 97, 62] }), \
table: [16, 0, 0, 0, 32, 0, 0, 128, 24, 0, 0, 0, 56, 0, 0, 128] })";

/// All fields but the bytes, in their order. The header's own text has a test of its own.
#[test]
fn every_directory_of_an_image(rt: HostRuntime) -> Result<(), Fail> {
    let alloc = rt.alloc();
    let bytes = with_every_directory(alloc)?;
    let pe = PE::parse(alloc, &bytes)?;
    let header = shown(alloc, &pe.header)?;
    let want = format!(in alloc;
        "PE {{ header: {header}, {SECTIONS}, {EXPORT_DATA}, {IMPORT_DATA}, {NAMED}, {DEBUG}, {OTHERS}, {RESOURCES} }}"
    )?;
    assert_eq!(rt; shown(alloc, &pe)?.as_str(), want.as_str());
    Ok(())
}

/// A TE image from whose headers 0x100 bytes more than its own were dropped: addresses and raw pointers are less by so
/// many, and the table of debug entries is as it stands in the file.
#[test]
fn te_image(rt: HostRuntime) -> Result<(), Fail> {
    let alloc = rt.alloc();
    let mut bytes = te_with_debug(alloc)?;
    put(
        &mut bytes,
        &[
            (8, &[0x34, 0x11, 0, 0, 0, 0x12, 0, 0]),
            (16, &[0, 0, 0, 0x80, 1, 0, 0, 0]),
            (24, &[0, 0x20, 0, 0, 8]),
            (40, b".te"),
            (48, &[0x11, 0, 0, 0, 0, 0x11, 0, 0, 0x12, 0, 0, 0, 0x50, 1]),
            (64, &[0x21, 0, 0, 0, 0x22, 0, 0, 0, 0x23, 0, 0x24, 0]),
            (76, &[0x20, 0, 0, 0x60]),
        ],
    );
    let te = TE::parse(alloc, &bytes)?;
    assert_eq!(rt;
        shown(alloc, &te)?.as_str(),
        "TE { header: TeHeader { signature: 23126, machine: 34404, number_of_sections: 1, subsystem: 10, \
stripped_size: 296, entry_point: 4148, base_of_code: 4352, image_base: 6442450944, \
reloc_dir: DataDirectory { virtual_address: 7936, size: 8 }, \
debug_dir: DataDirectory { virtual_address: 80, size: 56 } }, \
sections: [SectionTable { name: [46, 116, 101, 0, 0, 0, 0, 0], virtual_size: 17, virtual_address: 4096, \
size_of_raw_data: 18, pointer_to_raw_data: 80, pointer_to_relocations: 33, pointer_to_linenumbers: 34, \
number_of_relocations: 35, number_of_linenumbers: 36, characteristics: 1610612768 }], \
debug_data: DebugData { table: [\
0, 0, 0, 0, 0, 0, 0, 0, 0, 0, 0, 0, 2, 0, 0, 0, 30, 0, 0, 0, 144, 1, 0, 0, 0, 32, 0, 0, \
0, 0, 0, 0, 68, 51, 34, 17, 0, 0, 0, 0, 16, 0, 0, 0, 0, 0, 0, 0, 0, 0, 0, 0, 0, 0, 0, 0], rva_offset: 256, \
codeview_pdb70_debug_info: Some(CodeviewPDB70DebugInfo { codeview_signature: 1396986706, \
signature: [16, 17, 18, 19, 20, 21, 22, 23, 24, 25, 26, 27, 28, 29, 30, 31], age: 9, \
filename: [97, 46, 112, 100, 98, 0] }), codeview_pdb20_debug_info: None, vcfeature_info: None, \
ex_dll_characteristics_info: None, repro_info: Some(TimeDateStamp(287454020)), pogo_info: None }, rva_offset: 256 }"
    );
    Ok(())
}

/// An object with four bytes of an optional header, a section, a symbol and a string.
#[test]
fn object(rt: HostRuntime) -> Result<(), Fail> {
    let alloc = rt.alloc();
    let bytes = image(
        alloc,
        89,
        &[
            (0, &[0x4C, 1, 1, 0, 4, 3, 2, 1, 64, 0, 0, 0]),
            (12, &[1, 0, 0, 0, 4, 0, 5, 1]),
            (24, b".data"),
            (32, &[9, 0, 0, 0, 10, 0, 0, 0, 11, 0, 0, 0, 12, 0, 0, 0]),
            (48, &[13, 0, 0, 0, 14, 0, 0, 0, 15, 0, 16, 0, 17]),
            (64, b"main\0\0\0\0\x01\0\0\0\x02\0\x03\0\x04\0"),
            (82, b"\x07\0\0\0ab\0"),
        ],
    )?;
    let coff = Coff::parse(alloc, &bytes)?;
    assert_eq!(rt;
        shown(alloc, &coff)?.as_str(),
        "Coff { header: CoffHeader { machine: 332, number_of_sections: 1, time_date_stamp: 16909060, \
pointer_to_symbol_table: 64, number_of_symbol_table: 1, size_of_optional_header: 4, characteristics: 261 }, \
sections: [SectionTable { name: [46, 100, 97, 116, 97, 0, 0, 0], virtual_size: 9, virtual_address: 10, \
size_of_raw_data: 11, pointer_to_raw_data: 12, pointer_to_relocations: 13, pointer_to_linenumbers: 14, \
number_of_relocations: 15, number_of_linenumbers: 16, characteristics: 17 }], \
symbols: Some(SymbolTable { bytes: [109, 97, 105, 110, 0, 0, 0, 0, 1, 0, 0, 0, 2, 0, 3, 0, 4, 0] }), \
strings: Some(Strtab { bytes: [7, 0, 0, 0, 97, 98, 0] }) }"
    );
    Ok(())
}

/// The directories that the header counts are shown, and of entries that are left, and of strings, the bytes.
#[test]
fn directories_and_bytes(rt: HostRuntime) -> Result<(), Fail> {
    let alloc = rt.alloc();
    let mut bytes = headers_alone(alloc)?;
    put(
        &mut bytes,
        &[(0xFC, &[1]), (0x100, &[8, 0, 0, 0, 9, 0, 0, 0])],
    );
    let header = Header::parse_with_opts(&bytes, &ParseOptions::default())?;
    let optional = header.optional_header.ok_or("no optional header")?;
    let text = shown(alloc, &optional.data_directories)?;
    let want = "[DataDirectory { virtual_address: 8, size: 9 }]";
    assert_eq!(rt; text.as_str(), want);
    let text = shown(alloc, &RuntimeFunctionIterator::new(&[1, 2]))?;
    assert_eq!(rt; text.as_str(), "RuntimeFunctionIterator { bytes: [1, 2] }");
    let one = ImageResourceDirectory {
        number_of_id_entries: 1,
        ..ImageResourceDirectory::default()
    };
    let text = shown(alloc, &one.next_iter(1, &[9, 1, 2, 3, 4, 5, 6, 7, 8])?)?;
    let want = "ResourceEntryIterator { bytes: [1, 2, 3, 4, 5, 6, 7, 8] }";
    assert_eq!(rt; text.as_str(), want);
    let string = [0x10, 0, 2, 0, 1, 0, 0x41, 0, 0, 0, 0, 0, 0x42, 0, 0, 0];
    let text = shown(alloc, &ResourceString::parse(&string, &mut 0)?)?;
    let want =
        "Some(ResourceString { len: 16, value_len: 2, text_type: 1, key: [65, 0], value: [66, 0, 0, 0] })";
    assert_eq!(rt; text.as_str(), want);
    Ok(())
}
