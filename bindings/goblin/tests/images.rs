//! What this crate adds to goblin's own tests, which `tools/try_goblin` runs: limits, errors, writing, numbers that no other
//! reader of goblin's has.

use goblin::container::{Container, Ctx, Endian};
use goblin::error::Error;
use goblin::pe::certificate_table::{AttributeCertificate, AttributeCertificateRevision, AttributeCertificateType};
use goblin::pe::data_directories::DataDirectory;
use goblin::pe::exception::{
    ExceptionData, Register, RuntimeFunctionIterator, UnwindCode, UnwindInfo, UnwindOperation,
};
use goblin::pe::export::{Export, ExportAddressTableEntry, ExportData, Reexport};
use goblin::pe::header::{Header, COFF_MACHINE_X86_64, PE_MAGIC};
use goblin::pe::import::{Import, ImportData};
use goblin::pe::load_config::LoadConfigData;
use goblin::pe::options::{Limits, ParseMode, ParseOptions};
use goblin::pe::relocation::RelocationData;
use goblin::pe::resource::{ResourceData, ResourceEntry, ResourceString, IMAGE_RESOURCE_DATA_IS_DIRECTORY};
use goblin::pe::section_table::SectionTable;
use goblin::pe::utils::find_offset;
use goblin::pe::{Coff, PE};
use goblin::strtab::Strtab;
use goblin::{peek, Hint, Object};
use scroll::{Pread, Pwrite};

/// An x64 image of a DLL: some code, exception data, a debug record.
const IMAGE: &[u8] = include_bytes!(concat!(env!("CARGO_MANIFEST_DIR"), "/../../crates/peinfo/data/i.bin"));

/// The image with bytes at an offset changed.
fn with(offset: usize, bytes: &[u8]) -> Vec<u8> {
    let mut image = IMAGE.to_vec();
    image[offset..][..bytes.len()].copy_from_slice(bytes);
    image
}

/// Offset of the PE signature, and of a data directory.
fn pe_offset() -> usize {
    IMAGE.pread_with::<u32>(0x3c, scroll::LE).unwrap() as usize
}

fn directory_offset(index: usize) -> usize {
    pe_offset() + 24 + 112 + 8 * index
}

/// The error of an image.
fn refused(bytes: &[u8]) -> String {
    format!("{:?}", PE::parse(bytes).expect_err("a damaged image"))
}

#[test]
fn has_the_numbers_of_its_headers() {
    let pe = PE::parse(IMAGE).unwrap();
    let header = pe.header.optional_header.unwrap();
    assert_eq!((pe.header.signature, pe.header.coff_header.machine), (PE_MAGIC, COFF_MACHINE_X86_64));
    assert_eq!((header.standard_fields.magic, pe.is_64), (0x20b, true));
    let at = pe_offset();
    let number = |offset: usize| IMAGE.pread_with::<u32>(at + offset, scroll::LE).unwrap();
    assert_eq!(header.standard_fields.base_of_code, number(44));
    assert_eq!(
        (header.windows_fields.size_of_image, header.windows_fields.section_alignment),
        (number(80), number(56))
    );
    assert_eq!(header.windows_fields.number_of_rva_and_sizes, 16);
    assert_eq!(pe.header.dos_header.pe_pointer as usize, at);
    assert_eq!(pe.header.dos_stub.data, &IMAGE[0x40..at]);
}

#[test]
fn errors_have_goblins_variants_and_numbers() {
    assert!(matches!(PE::parse(&with(0, b"ZM")), Err(Error::BadMagic(0x4d5a))));
    assert!(matches!(PE::parse(&with(pe_offset(), b"NE")), Err(Error::BadMagic(0x454e))));
    assert!(matches!(PE::parse(&with(pe_offset() + 24, &[7, 1])), Err(Error::BadMagic(0x107))));
    assert_eq!(refused(b"M"), r#"Malformed("cannot parse DOS signature (offset 0x0)")"#);
    assert_eq!(refused(&IMAGE[..60]), r#"Malformed("cannot parse PE header pointer (offset 0x3c)")"#);
    let size = directory_offset(3) + 4;
    let text = "Scroll(BadInput { size: 13, msg: \"invalid exception directory table size\" })";
    assert_eq!(refused(&with(size, &[13, 0, 0, 0])), text);
    let debug = with(directory_offset(6), &[0, 0, 0, 0x70, 28, 0, 0, 0]);
    assert_eq!(refused(&debug), r#"Malformed("Cannot map ImageDebugDirectory rva 0x70000000 into offset")"#);
}

/// The image without its certificate, 0x400 bytes: those of its one section are at 0x200, for the RVAs from 0x1000 on. One of its
/// directories has this address and this size, and bytes follow it.
fn with_directory(index: usize, address: u32, size: u32, after: &[u8]) -> Vec<u8> {
    let mut image = with(directory_offset(4), &[0; 8]);
    image.truncate(0x400);
    image.pwrite_with(address, directory_offset(index), scroll::LE).unwrap();
    image.pwrite_with(size, directory_offset(index) + 4, scroll::LE).unwrap();
    [&image, after].concat()
}

/// The last three bytes are at the RVA 0x11fd.
#[test]
fn errors_of_directories_have_their_numbers() {
    let error_of = |index, rva, size| refused(&with_directory(index, rva, size, &[]));
    for (index, size, needed) in [(5, 119, 119), (9, 1, 40), (10, 1, 4), (14, 1, 72)] {
        assert_eq!(error_of(index, 0x11fd, size), format!("Scroll(TooBig {{ size: {needed}, len: 3 }})"));
    }
    for index in [9, 10, 14] {
        let said = error_of(index, 0x0765_4321, 64);
        assert!(said.starts_with(r#"Malformed("RVA 0x7654321 maps to no file offset"#), "{said}");
    }
    let text = r#"Malformed("exception directory ends at file offset 0x414, past the end of the file")"#;
    assert_eq!(error_of(3, 0x11fc, 24), text);
    let text = r#"Malformed("resource data ends at file offset 0x41d, past the bytes that hold it")"#;
    assert_eq!(error_of(2, 0x11ed, 0x30), text);
}

/// goblin's texts of what is wrong with a certificate, and scroll's error of a header that is truncated.
#[test]
fn errors_of_certificates_have_goblins_texts() {
    let error_of = |bytes: &[u8]| refused(&with_directory(4, 0x400, bytes.len() as u32, bytes));
    assert_eq!(error_of(&[16, 0, 0, 0, 0, 2]), "Scroll(BadOffset(1030))");
    let size = r#"Malformed("Unable to extract certificate. Probably cert_size:65536 is malformed")"#;
    assert_eq!(error_of(&[8, 0, 1, 0, 0, 2, 2, 0]), size);
    assert_eq!(error_of(&[8, 0, 0, 0, 0, 3, 2, 0]), r#"Malformed("Invalid certificate attribute revision")"#);
    assert_eq!(error_of(&[8, 0, 0, 0, 0, 2, 9, 0]), r#"Malformed("Invalid attribute certificate type")"#);
}

/// goblin's texts of what is wrong with unwind records and codes.
#[test]
fn errors_of_unwind_codes_have_goblins_texts() {
    let version = UnwindInfo::parse(&[3, 0, 0, 0], 0).expect_err("a record of version 3");
    assert_eq!(version.to_string(), "Malformed entity: unsupported unwind code version (3)");
    for (code, text) in [
        (0x2b, "unknown unwind op code (11)"),
        (0x21, "invalid op info (2) for UWOP_ALLOC_LARGE"),
        (0x3a, "invalid op info (3) for UWOP_PUSH_MACHFRAME"),
        (0x01, "truncated"),
    ] {
        // A code that is read, and this one.
        let bytes = [1, 4, 2, 0, 4, 0x50, 2, code];
        let info = UnwindInfo::parse(&bytes, 0).unwrap();
        let said = info.unwind_codes().last().unwrap().expect_err("a code that is refused").to_string();
        assert_eq!(said, format!("Malformed entity: {text}"));
        let folded = info.unwind_codes().fold(String::new(), |all, it| it.err().map_or(all, |it| it.to_string()));
        assert_eq!(folded, said);
    }
}

/// The library's texts, with their numbers, of a block of base relocations whose size is odd, or more than the directory has.
#[test]
fn errors_of_relocation_blocks_have_their_numbers() {
    for (size, text) in [
        (9_u8, "base relocation block of 9 bytes: the size is below 8 or odd"),
        (12, "base relocation block truncated: 12 bytes needed, 8 left"),
    ] {
        let mut bytes = with_directory(5, 0x11e0, 16, &[]);
        // The block before it has no relocations.
        bytes[0x3e0..0x3f0].copy_from_slice(&[0, 0x10, 0, 0, 8, 0, 0, 0, 0, 0x20, 0, 0, size, 0, 0, 0]);
        let pe = PE::parse(&bytes).unwrap();
        let mut blocks = pe.relocation_data.as_ref().unwrap().blocks();
        assert!(blocks.next().unwrap().is_ok());
        assert_eq!(blocks.next().unwrap().expect_err("a block").to_string(), format!("Malformed entity: {text}"));
    }
}

/// Two sections, of which the first has data where the second starts, but is too short in memory to cover it.
#[test]
fn an_rva_is_mapped_by_the_first_section_that_covers_it() {
    let section = |virtual_address, virtual_size, size_of_raw_data, pointer_to_raw_data| SectionTable {
        virtual_address,
        virtual_size,
        size_of_raw_data,
        pointer_to_raw_data,
        ..Default::default()
    };
    let sections = [section(0x1000, 0x10, 0x3000, 0x400), section(0x2000, 0x1000, 0x1000, 0x4400)];
    let offset = |rva| find_offset(rva, &sections, 0x200, &ParseOptions::default());
    assert_eq!(
        [0xfff, 0x1004, 0x1fff, 0x2004, 0x3000].map(offset),
        [None, Some(0x404), Some(0x13ff), Some(0x4404), None]
    );
    // The record of IMAGE's first function, found by the second of two sections that may have it.
    let pe = PE::parse(IMAGE).unwrap();
    let data = pe.exception_data.as_ref().unwrap();
    let function = data.get_function(0).unwrap();
    let before = section((function.unwind_info_address & !0xfff) - 0x1000, 1, 0x2000, 0);
    let with_one_more: Vec<_> = [before].into_iter().chain(pe.sections.iter().cloned()).collect();
    let records = [&pe.sections, &with_one_more].map(|it| format!("{:?}", data.get_unwind_info(function, it).unwrap()));
    assert_eq!(records[0], records[1]);
}

#[test]
fn permissive_mode_drops_what_is_damaged() {
    let damaged = with(directory_offset(3) + 4, &[13, 0, 0, 0]);
    let opts = ParseOptions::default().with_parse_mode(ParseMode::Permissive);
    let pe = PE::parse_with_opts(&damaged, &opts).unwrap();
    assert!(pe.exception_data.is_none() && !pe.sections.is_empty());
}

/// A file of entries of an import directory that name one list, which is as long as the file.
fn with_many_imports() -> Vec<u8> {
    let mut bytes = vec![0; 0x8000];
    for at in (0..0x4000).step_by(20) {
        for (field, number) in [(0, 0x4100_u32), (12, 0x4080), (16, 0x7ff8)] {
            bytes.pwrite_with(number, at + field, scroll::LE).unwrap();
        }
    }
    bytes[0x3ffc..0x4080].fill(0);
    bytes[0x4080..0x4086].copy_from_slice(b"a.dll\0");
    for at in (0x4100..0x7ff0).step_by(8) {
        bytes.pwrite_with(1_u64 << 63 | 7, at, scroll::LE).unwrap();
    }
    bytes
}

#[test]
fn more_imports_than_the_limit_are_an_error() {
    let bytes = with_many_imports();
    let opts = ParseOptions { resolve_rva: false, ..Default::default() };
    let directory = DataDirectory { virtual_address: 20, size: 20 };
    let found = ImportData::parse_with_opts::<u64>(&bytes, directory, &[], 0, &opts);
    let text = r#"Malformed("image has more imports than the limit of 1048576")"#;
    assert_eq!(format!("{:?}", found.expect_err("some 800 lists of 2,000 imports")), text);
    let limits = Limits { imports: 0, ..Limits::default() };
    assert!(PE::parse_with_limits(IMAGE, &ParseOptions::default(), &limits).is_ok());
}

/// An image whose exports are so many names, each at a place of its own inside one text of so many bytes, and forwarders inside it.
fn with_one_text(count: usize, length: usize) -> Vec<u8> {
    let (mut image, at) = (IMAGE.to_vec(), IMAGE.len());
    let (addresses, names, ordinals, text) = (at + 40, at + 40 + 4 * count, at + 40 + 8 * count, at + 40 + 10 * count);
    image.resize(text + length, b'a');
    image[at..text].fill(0);
    image.push(0);
    // The image is read as loaded: RVAs are offsets.
    for (field, number) in [(20, count), (24, count), (28, addresses), (32, names), (36, ordinals)] {
        image.pwrite_with(number as u32, at + field, scroll::LE).unwrap();
    }
    for index in 0..count {
        image.pwrite_with((text + index) as u32, addresses + 4 * index, scroll::LE).unwrap();
        image.pwrite_with((text + index) as u32, names + 4 * index, scroll::LE).unwrap();
        image.pwrite_with(index as u16, ordinals + 2 * index, scroll::LE).unwrap();
    }
    let size = (image.len() - at) as u32;
    image[directory_offset(1)..directory_offset(16)].fill(0);
    image.pwrite_with(at as u32, directory_offset(0), scroll::LE).unwrap();
    image.pwrite_with(size, directory_offset(0) + 4, scroll::LE).unwrap();
    image
}

#[test]
fn longer_names_than_the_limit_are_an_error() {
    let (count, length) = (100, 1000);
    let image = with_one_text(count, length);
    let bytes: usize = (0..count).map(|index| length - index).sum();
    for parse_mode in [ParseMode::Strict, ParseMode::Permissive] {
        let opts = ParseOptions { resolve_rva: false, parse_mode, ..Default::default() };
        let of = |names| PE::parse_with_limits(&image, &opts, &Limits { names, ..Limits::default() });
        // Each forwarder is a text without a dot, so that the export is skipped.
        let pe = of(2 * bytes).unwrap();
        assert!(pe.exports.is_empty() && pe.export_data.unwrap().export_address_table.len() == count);
        for names in [0, bytes - 1, bytes, 2 * bytes - 1] {
            let text = format!("Malformed entity: image has longer names than the limit of {names}");
            assert_eq!(of(names).expect_err("names above the limit").to_string(), text);
        }
    }
}

/// The first library has an import past the end, the second perhaps a name that is no text.
#[test]
fn the_error_of_a_library_is_before_that_of_an_import() {
    let mut bytes = with_many_imports();
    bytes[60..80].fill(0);
    bytes.pwrite_with(u64::from(u32::MAX >> 1), 0x4100, scroll::LE).unwrap();
    let opts = ParseOptions { resolve_rva: false, ..Default::default() };
    let directory = DataDirectory { virtual_address: 20, size: 20 };
    let mut of = |name: u32, text: &[u8]| {
        bytes.pwrite_with(name, 40 + 12, scroll::LE).unwrap();
        bytes[0x4090..][..text.len()].copy_from_slice(text);
        ImportData::parse_with_opts::<u64>(&bytes, directory, &[], 0, &opts).expect_err("damage").to_string()
    };
    let [import, library] = [of(0x4080, b""), of(0x4090, b"\xff\0")];
    assert!(import.starts_with("Malformed entity: truncated: 2 bytes needed at offset 0x"), "{import}");
    assert!(library.starts_with("Malformed entity: import name at RVA 0x"), "{library}");
}

/// Names that are longer in sum than the image are those of names read one by one.
#[test]
fn exports_inside_one_text_have_their_names() {
    let (count, length) = (300, 1000);
    let mut image = with_one_text(count, length);
    let (addresses, text) = (IMAGE.len() + 40, IMAGE.len() + 40 + 10 * count);
    for index in 0..count {
        image.pwrite_with(index as u32 + 1, addresses + 4 * index, scroll::LE).unwrap();
    }
    let opts = ParseOptions { resolve_rva: false, ..Default::default() };
    let all: Vec<_> = (0..count).map(|index| ("a".repeat(length - index), index + 1)).collect();
    let found = |image: &[u8]| {
        let exports = PE::parse_with_opts(image, &opts).unwrap().exports;
        exports.iter().map(|it| (it.name.unwrap().to_owned(), it.rva)).collect::<Vec<_>>()
    };
    assert_eq!(found(&image), all);
    // Those that reach a byte that is no text are skipped, whether few or many of them are read a call.
    for last in [5, 100, 250] {
        image[text + last] = 0xff;
        assert_eq!(found(&image), all[last + 1..]);
    }
}

/// Libraries whose names start inside one text, the first with imports that do.
#[test]
fn imports_inside_one_text_have_their_names() {
    let (libraries, count, length) = (200, 400, 1000);
    let (list, text) = (20 + 20 * (libraries + 1), 20 + 20 * (libraries + 1) + 8 * (count + 1));
    let mut bytes = vec![0; text + 2 + length + 1];
    for index in 0..libraries {
        let lookups = if index == 0 { list } else { list + 8 * count };
        for (field, number) in [(0, lookups), (12, text + 2 + index), (16, list + 8 * count)] {
            bytes.pwrite_with(number as u32, 20 + 20 * index + field, scroll::LE).unwrap();
        }
    }
    for index in 0..count {
        bytes.pwrite_with((text + index) as u64, list + 8 * index, scroll::LE).unwrap();
    }
    bytes[text + 2..text + 2 + length].fill(b'a');
    let opts = ParseOptions { resolve_rva: false, ..Default::default() };
    let directory = DataDirectory { virtual_address: 20, size: 20 };
    let data = ImportData::parse_with_opts::<u64>(&bytes, directory, &[], 0, &opts).unwrap();
    let names: Vec<_> = data.import_data.iter().map(|it| it.name.len()).collect();
    assert_eq!(names, (0..libraries).map(|index| length - index).collect::<Vec<_>>());
    let imports = Import::parse::<u64>(&bytes, &data, &[]).unwrap();
    let names: Vec<_> = imports.iter().map(|it| (it.name.len(), it.dll.len(), it.rva)).collect();
    assert_eq!(names, (0..count).map(|index| (length - index, length, text + index)).collect::<Vec<_>>());
}

/// A file whose directory of imports names one list of ordinals and slots.
#[test]
fn names_ordinals() {
    let mut bytes = with_many_imports();
    bytes[20..60].fill(0);
    for (field, number) in [(0, 0x4100_u32), (12, 0x4080), (16, 0x7ff8)] {
        bytes.pwrite_with(number, 20 + field, scroll::LE).unwrap();
    }
    bytes[0x4108..0x4110].fill(0);
    let opts = ParseOptions { resolve_rva: false, ..Default::default() };
    let directory = DataDirectory { virtual_address: 20, size: 20 };
    let data = ImportData::parse_with_opts::<u64>(&bytes, directory, &[], 0, &opts).unwrap();
    let imports = Import::parse::<u64>(&bytes, &data, &[]).unwrap();
    let found: Vec<_> = imports.iter().map(|it| (&*it.name, it.dll, it.ordinal, it.offset, it.size)).collect();
    assert_eq!(found, [("ORDINAL 7", "a.dll", 7, 0x7ff8, 8)]);
}

/// An object with many sections, whose names are all the same text of the string table, half of the file.
#[test]
fn section_names_longer_than_the_file_are_an_error() {
    let (count, length) = (100_usize, 4_000_usize);
    let at = 20 + 40 * count;
    let mut bytes = vec![b'a'; at + 4 + length + 1];
    bytes[..at + 4].fill(0);
    bytes[at + 4 + length] = 0;
    bytes.pwrite_with(count as u16, 2, scroll::LE).unwrap();
    bytes.pwrite_with(at as u32, 8, scroll::LE).unwrap();
    bytes.pwrite_with((4 + length + 1) as u32, at, scroll::LE).unwrap();
    bytes[20..22].copy_from_slice(b"/4");
    let coff = Coff::parse(&bytes).unwrap();
    assert_eq!((coff.sections.len(), coff.sections[0].name().unwrap().len()), (count, length));
    for section in 0..count {
        bytes[20 + 40 * section..][..2].copy_from_slice(b"/4");
    }
    let error = Coff::parse(&bytes).expect_err("400,000 bytes of names in a file of 8,000");
    assert_eq!(error.to_string(), "Malformed entity: section names are longer than the file");
    // So is as much of it that is read and is no text; where it is less a section has no such name.
    bytes[at + 4 + length - 1] = 0xff;
    let error = Coff::parse(&bytes).expect_err("400,000 bytes of no names");
    assert_eq!(error.to_string(), "Malformed entity: section names are longer than the file");
    for section in 2..count {
        bytes[20 + 40 * section..][..2].fill(0);
    }
    assert_eq!(Coff::parse(&bytes).unwrap().sections[1].real_name, None);
}

/// An image with so many sections, each without bytes, and a string table, which has one symbol before it.
fn with_sections_named(names: &[String], strings: &[u8]) -> Vec<u8> {
    let mut image = IMAGE[..directory_offset(16)].to_vec();
    image[directory_offset(0)..].fill(0);
    for name in names {
        image.extend(name.as_bytes());
        image.resize(image.len() + 40 - name.len(), 0);
    }
    let symbols = image.len();
    image.resize(symbols + 18, 0);
    image.extend((4 + strings.len() as u32).to_le_bytes());
    image.extend(strings);
    let at = pe_offset();
    image.pwrite_with(names.len() as u16, at + 6, scroll::LE).unwrap();
    for (field, number) in [(12, symbols), (16, 1)] {
        image.pwrite_with(number as u32, at + field, scroll::LE).unwrap();
    }
    image
}

/// Half of the sections have names that reach a byte which is no text, and cost more than the image has bytes; the others end at the
/// end of that text.
#[test]
fn long_names_of_many_sections_are_found() {
    let (count, length) = (300, 2_000);
    let offset = |i: usize| if i % 2 == 0 { i } else { length - 1 - i % 20 };
    let names: Vec<_> = (0..count).map(|i| format!("/{}", 4 + offset(i))).collect();
    let mut strings = vec![b'a'; length + 1];
    (strings[1_000], strings[length]) = (0xff, 0);
    let image = with_sections_named(&names, &strings);
    let pe = PE::parse(&image).unwrap();
    let found: Vec<_> = pe.sections.iter().map(|it| it.real_name.as_ref().map(String::len)).collect();
    assert_eq!(found, (0..count).map(|i| (i % 2 == 1).then_some(1 + i % 20)).collect::<Vec<_>>());
}

/// The same long name of each section: each by itself 65,535 names of 4 MB that are no text take minutes.
#[test]
fn section_names_of_an_image_in_one_text_are_read_in_time() {
    let with_one_name = |count: usize, length: usize, last: u8| {
        let mut strings = vec![b'a'; length + 1];
        (strings[length - 1], strings[length]) = (last, 0);
        with_sections_named(&vec!["/4".to_owned(); count], &strings)
    };
    let image = with_one_name(3, 100, b'z');
    let pe = PE::parse(&image).unwrap();
    assert!(pe.sections.len() == 3 && pe.sections.iter().all(|it| it.name().unwrap().len() == 100));
    let image = with_one_name(65_535, 4_000_000, 0xff);
    let start = std::time::Instant::now();
    let pe = PE::parse(&image).unwrap();
    assert!(pe.sections.len() == 65_535 && pe.sections.iter().all(|it| it.real_name.is_none()));
    assert!(start.elapsed() < std::time::Duration::from_secs(20), "{:?}", start.elapsed());
    let error = PE::parse(&with_one_name(3, 10_000, b'z')).expect_err("30,000 bytes of names").to_string();
    assert_eq!(error, "Malformed entity: section names are longer than the file");
}

#[test]
fn writes_what_it_has_read() {
    let pe = PE::parse(IMAGE).unwrap();
    let mut copy = vec![0; IMAGE.len()];
    let end = copy.pwrite_with(pe, 0, scroll::LE).unwrap();
    assert_eq!(&copy[..end], &IMAGE[..end]);
    let (one, other) = (PE::parse(&copy).unwrap(), PE::parse(IMAGE).unwrap());
    assert_eq!(one.header, other.header);
    assert_eq!(one.sections, other.sections);
    assert_eq!(one.debug_data, other.debug_data);
}

#[test]
fn a_write_that_does_not_fit_changes_nothing() {
    let mut copy = vec![0xcc; IMAGE.len() / 2];
    let error = copy.pwrite_with(PE::parse(IMAGE).unwrap(), 0, scroll::LE).expect_err("half a buffer");
    assert!(error.to_string().contains("Buffer is too short for"), "{error:?}");
    assert!(copy.iter().all(|it| *it == 0xcc));
    let mut pe = PE::parse(IMAGE).unwrap();
    let twin = SectionTable { virtual_size: 1, ..pe.sections[0].clone() };
    pe.sections.push(twin);
    let mut copy = vec![0xcc; IMAGE.len()];
    let error = copy.pwrite_with(pe, 0, scroll::LE).expect_err("two sections with the same bytes");
    assert!(error.to_string().contains("Overlapping"), "{error}");
    assert!(copy.iter().all(|it| *it == 0xcc));
}

/// The image with a certificate of so many bytes of body, alone, where the file ends.
fn with_certificate(body: &[u8]) -> PE<'_> {
    let mut pe = PE::parse(IMAGE).unwrap();
    let length = 8 + body.len() as u32;
    let entry = DataDirectory { virtual_address: IMAGE.len() as u32, size: length.next_multiple_of(8) };
    pe.header.optional_header.as_mut().unwrap().data_directories.data_directories[4] = Some((0, entry));
    pe.certificates = vec![AttributeCertificate {
        length,
        revision: AttributeCertificateRevision::Revision2_0,
        certificate_type: AttributeCertificateType::PkcsSignedData,
        certificate: body,
    }];
    pe
}

#[test]
fn certificates_and_empty_sections_may_end_the_buffer() {
    for count in [0, 1, 7, 8, 16] {
        let body = vec![0xab; count];
        let mut pe = with_certificate(&body);
        let end = IMAGE.len() + (8 + count).next_multiple_of(8);
        pe.sections.push(SectionTable { pointer_to_raw_data: end as u32, ..Default::default() });
        let mut copy = vec![0xcc; end];
        assert_eq!(copy.pwrite_with(pe, 0, scroll::LE).unwrap(), end);
        assert_eq!(copy[IMAGE.len() + 8..][..count], body);
        assert!(copy[IMAGE.len() + 8 + count..].iter().all(|it| *it == 0));
    }
}

/// The error of a write of the image with changed values, which leaves the buffer as it is.
fn unwritten(change: impl FnOnce(&mut PE<'_>)) -> String {
    let mut pe = PE::parse(IMAGE).unwrap();
    change(&mut pe);
    let mut copy = vec![0xcc; IMAGE.len()];
    let error = copy.pwrite_with(pe, 0, scroll::LE).expect_err("values that do not fit");
    assert!(copy.iter().all(|it| *it == 0xcc), "{error}");
    error.to_string()
}

#[test]
fn a_write_of_changed_values_that_does_not_fit_changes_nothing() {
    const STUB: &[u8] = &[7; IMAGE.len()];
    let error = unwritten(|pe| pe.header.dos_stub.data = STUB);
    // With the feature `rest` errors are those of goblin 0.2.1, which has no such one of its own.
    let kind = if cfg!(feature = "rest") { "Malformed entity: " } else { "" };
    assert_eq!(error, format!("{kind}Buffer is too short for {} bytes", IMAGE.len() + 64));
    let error = unwritten(|pe| {
        let header = pe.header.optional_header.as_mut().unwrap();
        header.standard_fields.magic = 0x10b;
        header.windows_fields.image_base = 1 << 40;
    });
    assert_eq!(error, "Malformed entity: 0x10000000000 does not fit PE32");
    let (pe, mut copy) = (PE::parse(IMAGE).unwrap(), vec![0xcc; IMAGE.len()]);
    for (offset, alignment) in [(usize::MAX, 512), (usize::MAX - 39, 512), (0, usize::MAX), (IMAGE.len() - 39, 1)] {
        let error = pe.write_sections(&mut copy, &mut { offset }, Some(alignment), scroll::LE).expect_err("no room");
        assert!(error.to_string().contains("Buffer is too short for"), "{error}");
        assert!(copy.iter().all(|it| *it == 0xcc));
    }
}

#[test]
fn digest_covers_all_but_the_checksum_and_the_certificates() {
    let pe = PE::parse(IMAGE).unwrap();
    let parts: Vec<u8> = pe.authenticode_ranges().flatten().copied().collect();
    let checksum = pe_offset() + 24 + 64;
    let entry = directory_offset(4);
    let table = IMAGE.pread_with::<u32>(entry, scroll::LE).unwrap() as usize;
    let covered = [&IMAGE[..checksum], &IMAGE[checksum + 4..entry], &IMAGE[entry + 8..table]].concat();
    assert!(parts == covered && table < IMAGE.len() && table % 8 == 0);
}

#[test]
fn headers_stand_alone() {
    let header = Header::parse(IMAGE).unwrap();
    let at = pe_offset() + 24;
    let alone: goblin::pe::optional_header::OptionalHeader = IMAGE.pread_with(at, scroll::LE).unwrap();
    let found = header.optional_header.unwrap();
    assert_eq!((alone.standard_fields, alone.windows_fields), (found.standard_fields, found.windows_fields));
    assert!(Coff::parse(&IMAGE[pe_offset() + 4..]).is_ok());
}

/// Of an image as loaded, whose RVAs are offsets.
fn as_loaded() -> ParseOptions {
    ParseOptions { resolve_rva: false, ..ParseOptions::default() }
}

/// So many zeros with parts at their offsets.
fn made(length: usize, parts: &[(usize, &[u8])]) -> Vec<u8> {
    let mut bytes = vec![0; length];
    for (at, part) in parts {
        bytes[*at..][..part.len()].copy_from_slice(part);
    }
    bytes
}

#[test]
fn an_export_directory_has_its_numbers_and_its_table() {
    let words = |words: &[u32]| words.iter().flat_map(|it| it.to_le_bytes()).collect::<Vec<_>>();
    // Flags, time, version 4.3, no name, the ordinal base, three RVAs, no names, where the RVAs are.
    let directory = words(&[1, 2, 0x3_0004, 0, 5, 3, 0, 0x80, 0, 0]);
    // The second RVA is inside the directory, the third stands for an ordinal that is not used.
    let bytes = made(0x100, &[(0x40, &directory), (0x80, &words(&[0x1000, 0x90, 0])), (0x90, b"A.B\0")]);
    let place = DataDirectory { virtual_address: 0x40, size: 0x60 };
    let data = ExportData::parse_with_opts(&bytes, place, &[], 0x200, &as_loaded()).unwrap();
    let found = data.export_directory_table;
    assert_eq!((found.export_flags, found.time_date_stamp), (1, 2));
    assert_eq!((found.major_version, found.minor_version), (4, 3));
    assert_eq!((found.ordinal_base, found.address_table_entries, found.number_of_name_pointers), (5, 3, 0));
    assert_eq!((found.name_rva, found.export_address_table_rva), (0, 0x80));
    use goblin::pe::export::ExportAddressTableEntry::{ExportRVA, ForwarderRVA};
    assert_eq!(data.export_address_table, [ExportRVA(0x1000), ForwarderRVA(0x90), ExportRVA(0)]);
}

#[test]
fn the_first_resource_directory_has_its_numbers_also_without_its_entries() {
    // Flags, time, version 4.3, three entries with a name and two with an id; each entry has an id and leads to a data entry.
    let directory = [1, 0, 0, 0, 2, 0, 0, 0, 4, 0, 3, 0, 3, 0, 2, 0];
    let bytes = made(0x100, &[(0x40, &directory), (0x50, &[7; 40])]);
    let read = |size: u32, parse_mode| {
        let place = DataDirectory { virtual_address: 0x40, size };
        ResourceData::parse_with_opts(&bytes, place, &[], 0x200, &as_loaded().with_parse_mode(parse_mode))
    };
    for (size, parse_mode, entries) in
        [(56, ParseMode::Strict, 5), (56, ParseMode::Permissive, 5), (55, ParseMode::Permissive, 0)]
    {
        let data = read(size, parse_mode).unwrap();
        let found = data.image_resource_directory;
        assert_eq!((found.characteristics, found.time_date_stamp), (1, 2));
        assert_eq!((found.major_version, found.minor_version), (4, 3));
        assert_eq!((found.number_of_named_entries, found.number_of_id_entries, data.count()), (3, 2, 5));
        assert_eq!(data.entries().count(), entries);
    }
    assert!(read(55, ParseMode::Strict).is_err());
}

#[test]
fn forwarders_in_one_text_without_an_end_are_read_in_time() {
    // 65,536 RVAs of a text that goes to the end of a megabyte: 47 GB of bytes, were each end looked for.
    let count = 1 << 16;
    let mut directory = vec![0; 40];
    directory[20..24].copy_from_slice(&u32::to_le_bytes(count));
    directory[28..32].copy_from_slice(&u32::to_le_bytes(0x40));
    let table: Vec<u8> = (0..count).flat_map(|_| 0x50_000u32.to_le_bytes()).collect();
    let text = vec![b'.'; 0xb0_000];
    let bytes = made(0x100_000, &[(4, &directory), (0x40, &table), (0x50_000, &text)]);
    let place = DataDirectory { virtual_address: 4, size: 0xff_000 };
    let start = std::time::Instant::now();
    let data = ExportData::parse_with_opts(&bytes, place, &[], 0x200, &as_loaded()).unwrap();
    assert_eq!(data.export_address_table.len(), 65_536);
    assert!(start.elapsed().as_secs() < 10, "{:?}", start.elapsed());
}

#[test]
fn exports_of_tables_that_a_caller_has_are_under_the_limit() {
    // 65,536 names, each a megabyte without an end: 64 GiB of bytes, were all of them read.
    let (count, bytes) = (1 << 16, vec![b'a'; 1 << 20]);
    let data = ExportData {
        export_name_pointer_table: vec![0; count],
        export_ordinal_table: vec![0; count],
        export_address_table: vec![ExportAddressTableEntry::ExportRVA(1)],
        ..Default::default()
    };
    let error = Export::parse_with_opts(&bytes, &data, &[], 0x200, &as_loaded()).expect_err("64 GiB of names");
    assert_eq!(error.to_string(), "Malformed entity: image has longer names than the limit of 67108864");
    let bytes = made(0x20, &[(1, b"a\0b.c\0")]);
    let [name, of_no_dot, forwarder] = [1, 1, 3];
    let data = ExportData {
        export_name_pointer_table: vec![name, name, name, 0x40],
        export_ordinal_table: vec![0, 1, 2, 0],
        export_address_table: vec![
            ExportAddressTableEntry::ExportRVA(7),
            ExportAddressTableEntry::ForwarderRVA(of_no_dot),
            ExportAddressTableEntry::ForwarderRVA(forwarder),
        ],
        ..Default::default()
    };
    let found = Export::parse_with_opts(&bytes, &data, &[], 0x200, &as_loaded()).unwrap();
    let found: Vec<_> = found.iter().map(|it| (it.name, it.rva, it.reexport)).collect();
    let reexport = Reexport::DLLName { export: "c", lib: "b" };
    assert_eq!(found, [(Some("a"), 7, None), (Some("a"), 3, Some(reexport))]);
}

/// A directory at each offset of a list, whose one entry leads to the offset beside it.
fn with_directories(links: &[(u32, u32)]) -> Vec<u8> {
    let mut tree = vec![0; 0x200];
    for (from, to) in links {
        tree.pwrite_with(1_u16, *from as usize + 14, scroll::LE).unwrap();
        tree.pwrite_with(IMAGE_RESOURCE_DATA_IS_DIRECTORY | to, *from as usize + 20, scroll::LE).unwrap();
    }
    tree
}

#[test]
fn a_loop_of_resource_directories_is_an_error_with_goblins_offset() {
    let walk = |tree: &[u8], from: u32| {
        let entry = ResourceEntry::from(u64::from(IMAGE_RESOURCE_DATA_IS_DIRECTORY | from));
        entry.recursive_next_depth(tree, |it| it.data_is_directory()).map_err(|it| it.to_string())
    };
    // 0x20 .. 0xa0 leads to 0x60; the loop has three directories. goblin names the first that is met again.
    let tree = with_directories(&[(0x20, 0x40), (0x40, 0x60), (0x60, 0x80), (0x80, 0xa0), (0xa0, 0x60)]);
    for (from, again) in [(0x20, 0x60), (0x40, 0x60), (0x60, 0x60), (0x80, 0x80), (0xa0, 0xa0)] {
        let text =
            format!("Malformed entity: Cycle detected in resource directory at offset {:#x}", 1_u32 << 31 | again);
        assert_eq!(walk(&tree, from), Err(text));
    }
    // A long way without a loop, to a leaf.
    let links: Vec<_> = (0..15).map(|it| (0x20 * it, 0x20 * it + 0x20)).collect();
    let mut tree = with_directories(&links);
    tree.pwrite_with(0x1f0_u32, 0x1d4, scroll::LE).unwrap();
    let leaf = walk(&tree, 0).unwrap().expect("a leaf after fourteen directories");
    assert_eq!(leaf.offset_to_data(), Some(0x1f0));
}

#[test]
fn a_version_string_whose_value_has_no_bytes_may_end_them() {
    // Its length, no value, of type 1, the key "a", and zeros up to a multiple of four.
    let string = [12, 0, 0, 0, 1, 0, b'a', 0, 0, 0, 0, 0];
    let mut offset = 0;
    let found = ResourceString::parse(&string, &mut offset).unwrap().expect("a string");
    assert_eq!((found.key_string().as_deref(), found.value, offset), (Some("a"), &[][..], 12));
    // Without the zeros the value would start past the end.
    let mut offset = 0;
    assert!(ResourceString::parse(&string[..10], &mut offset).is_err() && offset == 0);
}

#[test]
fn base_relocations_are_the_words_of_their_block() {
    // A block of the page 0x3000: one of type 3, one of type 4 and its argument, one of type 0.
    let block = [0, 0x30, 0, 0, 16, 0, 0, 0, 0x10, 0x30, 0x20, 0x40, 0x34, 0x12, 0, 0];
    let bytes = made(20, &[(4, &block)]);
    let place = DataDirectory { virtual_address: 4, size: 16 };
    let data = RelocationData::parse_with_opts(&bytes, place, &[], 0x200, &as_loaded()).unwrap();
    let blocks = data.blocks().collect::<Result<Vec<_>, _>>().unwrap();
    assert_eq!((blocks.len(), blocks[0].rva, blocks[0].size), (1, 0x3000, 16));
    let words = blocks[0].words().map(|it| it.unwrap().value).collect::<Vec<_>>();
    assert_eq!(words, [0x3010, 0x4020, 0x1234, 0]);
}

#[test]
fn a_load_configuration_has_the_fields_of_its_size() {
    let parts: [(usize, &[u8]); 8] = [
        (4, &176u32.to_le_bytes()),
        (4 + 12, &0x11u32.to_le_bytes()),
        (4 + 16, &0x22u32.to_le_bytes()),
        (4 + 76, &0x33u16.to_le_bytes()),
        (4 + 80, &0x44u64.to_le_bytes()),
        (4 + 150, &0xffffu16.to_le_bytes()),
        (4 + 160, &0x1_8000_5000u64.to_le_bytes()),
        (4 + 168, &7u64.to_le_bytes()),
    ];
    let bytes = made(0x200, &parts);
    let place = DataDirectory { virtual_address: 4, size: 176 };
    let found = LoadConfigData::parse_with_opts(&bytes, place, &[], 0x200, &as_loaded(), true).unwrap().directory;
    assert_eq!((found.size, found.guard_flags), (176, Some(0)));
    assert_eq!((found.global_flags_clear, found.global_flags_set), (Some(0x11), Some(0x22)));
    assert_eq!((found.csd_version, found.edit_list), (Some(0x33), Some(0x44)));
    assert_eq!(found.code_integrity_catalog, Some(0xffff));
    assert_eq!(found.guard_address_taken_iat_entry_table, Some(0x1_8000_5000));
    assert_eq!(found.guard_address_taken_iat_entry_count, Some(7));
    assert_eq!((found.guard_long_jump_target_table, found.guard_memcpy_function_pointer), (None, None));
}

#[test]
fn iterators_go_on_by_folding_where_they_were() {
    // Five functions more than an iterator takes a call, the last with the start 69.
    let functions = (1..=69u32).flat_map(|it| [it, it + 1, 0]).flat_map(u32::to_le_bytes).collect::<Vec<_>>();
    let bytes = made(4 + functions.len(), &[(4, &functions)]);
    let place = DataDirectory { virtual_address: 4, size: functions.len() as u32 };
    let data = ExceptionData::parse_with_opts(&bytes, place, &[], 0x200, &as_loaded()).unwrap();
    let starts = |it: RuntimeFunctionIterator<'_>| it.map(|it| it.unwrap().begin_address).collect::<Vec<_>>();
    assert_eq!(starts(data.functions()), (1..=69).collect::<Vec<_>>());
    let mut some = data.functions();
    assert_eq!(some.by_ref().take(66).count(), 66);
    assert_eq!((some.len(), some.fold(0, |sum, it| sum + it.unwrap().begin_address)), (3, 67 + 68 + 69));
}

#[test]
fn codes_of_a_record_end_at_the_first_that_is_none() {
    // Version 1, a prolog of 6 bytes, three slots: pushes of rbx and rdi, and an operation of version 2.
    let record = [1, 6, 3, 0, 6, 0x30, 2, 0x70, 1, 0x0b, 0, 0];
    let info = UnwindInfo::parse(&record, 0).unwrap();
    let push = |code_offset, it| UnwindCode { code_offset, operation: UnwindOperation::PushNonVolatile(Register(it)) };
    let mut codes = info.unwind_codes();
    assert_eq!(codes.next().unwrap().unwrap(), push(6, 3));
    assert_eq!(codes.next().unwrap().unwrap(), push(2, 7));
    assert!(codes.next().unwrap().is_err());
    assert!(codes.next().is_none());
    let kinds = info.unwind_codes().fold(Vec::new(), |mut all, it| {
        all.push(it.is_ok());
        all
    });
    assert_eq!(kinds, [true, true, false]);
}

#[test]
fn codes_go_on_by_folding_where_they_were() {
    // Version 1 and 21 slots: pushes of rax to r15 and rax to rbx, and an operation that no version has.
    let slots = (0..20u8).flat_map(|at| [at, at << 4]).chain([20, 0x0f, 0, 0]);
    let record = [1, 20, 21, 0].into_iter().chain(slots).collect::<Vec<_>>();
    let info = UnwindInfo::parse(&record, 0).unwrap();
    let push = |at| UnwindCode { code_offset: at, operation: UnwindOperation::PushNonVolatile(Register(at % 16)) };
    let pushes = (0..20).map(push).collect::<Vec<_>>();
    for taken in 0..=22 {
        let mut codes = info.unwind_codes();
        let mut found = codes.by_ref().take(taken).map(|it| it.ok()).collect::<Vec<_>>();
        let (least, most) = codes.clone().size_hint();
        let left = codes.clone().count();
        assert!(least <= left && left <= most.unwrap(), "after {taken}");
        found = codes.fold(found, |mut all, it| {
            all.push(it.ok());
            all
        });
        assert_eq!(found.pop(), Some(None), "after {taken}");
        assert_eq!(found.into_iter().collect::<Option<Vec<_>>>().as_ref(), Some(&pushes), "after {taken}");
    }
}

#[test]
fn a_section_header_is_shown_in_the_order_of_goblins_fields() {
    let section = SectionTable { name: *b".text\0\0\0", virtual_address: 0x1000, ..Default::default() };
    let shown = format!("{section:?}");
    assert!(shown.starts_with("SectionTable { name: [46, 116, 101, 120, 116, 0, 0, 0], real_name: None, virtual_size: 0, virtual_address: 4096,"));
    assert!(shown.ends_with("number_of_linenumbers: 0, characteristics: 0 }"));
}

#[test]
fn string_tables_end_their_texts_by_any_byte() {
    assert_eq!(Strtab::new(b"ab|c", b'|').to_vec().unwrap(), ["ab", "c"]);
    assert_eq!(Strtab::new(b"ab\0c", 0).to_vec().unwrap(), ["ab", "c"]);
    assert_eq!(Strtab::new(b"ab\0\xff\0", 0).get_at(3), None);
}

/// A TE image of the image, without base relocations and debug data: forty bytes stand for the headers up to the section headers.
fn te_image() -> Vec<u8> {
    let pe = pe_offset();
    let sections = pe + 24 + usize::from(IMAGE.pread_with::<u16>(pe + 20, scroll::LE).unwrap());
    let mut bytes = b"VZ".to_vec();
    // Machine, number of sections, subsystem, what is stripped; entry, base of code and image; two directories.
    bytes.extend([&IMAGE[pe + 4..pe + 7], &[10], &(sections as u16).to_le_bytes()].concat());
    bytes.extend([&IMAGE[pe + 40..pe + 56], &[0; 16], &IMAGE[sections..]].concat());
    bytes
}

#[test]
fn a_file_is_what_its_first_bytes_say() {
    let object = &IMAGE[pe_offset() + 4..];
    assert!(matches!(Object::parse(IMAGE), Ok(Object::PE(pe)) if pe.entry == 0x1000));
    assert!(matches!(Object::parse(&te_image()), Ok(Object::TE(te)) if te.header.image_base == 0x1_4000_0000));
    assert!(matches!(Object::parse(object), Ok(Object::COFF(coff)) if coff.header.machine == COFF_MACHINE_X86_64));
    assert!(matches!(Object::parse(b"sixteen bytes of"), Ok(Object::Unknown(0x206e_6565_7478_6973))));
    #[cfg(not(feature = "rest"))]
    assert!(matches!(Object::parse(b"\x7fELF\x02\x01\x01\x00 and more"), Ok(Object::Unknown(0x1_0102_464c_457f))));
    assert!(matches!(Object::parse(&IMAGE[..15]), Err(Error::Malformed(_))));
    let mut file = std::io::Cursor::new(te_image());
    file.set_position(100);
    assert!(matches!(peek(&mut file), Ok(Hint::TE)));
    assert_eq!(file.position(), 0);
}

#[test]
fn a_context_has_a_width_and_an_order() {
    let context = Ctx::new(Container::Little, Endian::Big);
    assert_eq!((context.size(), context.is_big(), context.is_little_endian()), (4, false, false));
    assert_eq!(Ctx::from(Container::Big).size(), 8);
    assert!(!Ctx::from(Endian::Big).is_little_endian());
    assert_eq!(Ctx::default(), Ctx::from(Container::default()));
}
