//! The lists of pe_directories: delay-loaded DLLs, what is imported of each, the names of bound imports. All images are made by
//! hand from the layouts.

use crate::directories::{at, image_of};
use crate::images::image;
use crate::refusing::Refusing;
use crate::shared::section;
use pe_core::{Error, ParseOptions, Reason, SectionTable, Strtab};
use pe_directories::{
    BoundImportDirectory, DelayImport, DelayImports, DelayedFunction, DirectoryError, GuardTable,
    ImageBytes, IndexedImage, LoadConfig, long_section_name, long_section_names,
};
use std::alloc::{AllocError, Allocator, Global};
use std::process::Abort;
use std::test::Fail;

/// Two entries, for `a.dll` and `b.dll`, by RVAs. The table of both is at 0x80: `f` with hint 5, the ordinal 7, `long` with
/// hint 6.
pub(crate) fn two_dlls(alloc: Global) -> Result<Vec<u8>, AllocError> {
    image(
        alloc,
        0xA0,
        &[
            (0x00, &[1, 0, 0, 0, 0x60, 0x10]),
            (0x10, &[0x80, 0x10]),
            (0x20, &[1, 0, 0, 0, 0x66, 0x10]),
            (0x30, &[0x80, 0x10]),
            (0x60, b"a.dll\0b.dll\0"),
            (0x6C, b"\x05\0f\0\x06\0long\0"),
            (0x80, &[0x6C, 0x10]),
            (0x84, &[7, 0, 0, 0x80, 0x70, 0x10]),
        ],
    )
}

/// The entries of `two_dlls`.
pub(crate) fn entries_of<'a>(image: &ImageBytes<'a>) -> Result<DelayImports<'a>, DirectoryError> {
    DelayImports::parse(image, at(0x1000, 0x60))
}

/// What is imported of the DLL of the first entry.
fn functions_of<'a, A: Allocator + Copy + Drop>(
    alloc: A,
    image: &ImageBytes<'a>,
) -> Result<Vec<DelayedFunction<'a>, A>, DirectoryError> {
    let indexed = IndexedImage::new(alloc, image)?;
    let dlls = entries_of(image)?.dlls(alloc, &indexed)?;
    dlls[0].entry.functions(alloc, &indexed)
}

/// The refusal of the list of functions, after these bytes are put into `two_dlls`.
fn refusal_with(alloc: Global, pieces: &[(usize, &[u8])]) -> Result<DirectoryError, Fail> {
    let mut bytes = two_dlls(alloc)?;
    for (offset, piece) in pieces {
        bytes[*offset..*offset + piece.len()].copy_from_slice(piece);
    }
    match functions_of(alloc, &image_of(&bytes, false)) {
        Ok(_) => Err(Fail::new("a list without a refusal")),
        Err(error) => Ok(error),
    }
}

/// The first refusal of the walk, with its numbers: of the table, of a number, or the end of the bytes.
#[test]
fn refuses_as_the_walk(rt: HostRuntime) -> Result<(), Fail> {
    let alloc = rt.alloc();
    // shows: pe_directories/src/delay_import_list.rt named_dll DelayImportName
    // The names of the DLLs: the second is not UTF-8, then the first is not mapped.
    assert_matches!(rt; refusal_with(alloc, &[(0x67, &[0xFF])])? =>
        DirectoryError::DelayImportName(0x66));
    assert_matches!(rt; refusal_with(alloc, &[(0x67, &[0xFF]), (0x05, &[0x30])])? =>
        DirectoryError::Image(Error::Malformed(Reason::Unmapped(0x3060))));
    // A virtual address below the image base.
    assert_matches!(rt; refusal_with(alloc, &[(0x00, &[0])])? =>
        DirectoryError::VaBelowBase(0x1060));
    // shows: pe_directories/src/image_bytes.rt offset_of_va_by Unmapped
    // One that is not mapped.
    assert_matches!(rt; refusal_with(alloc, &[(0x00, &[0]), (0x04, &[0x60, 0x30, 0x40])])? =>
        DirectoryError::Image(Error::Malformed(Reason::Unmapped(0x3060))));
    // shows: pe_directories/src/delay_import_list.rt named_function DelayImportName
    // The third name, then the first hint before it.
    assert_matches!(rt; refusal_with(alloc, &[(0x75, &[0xFF])])? =>
        DirectoryError::DelayImportName(0x72));
    assert_matches!(rt; refusal_with(alloc, &[(0x75, &[0xFF]), (0x80, &[0x9F, 0x10])])? =>
        DirectoryError::Image(Error::Short { at: 0x9F, needed: 2 }));
    // The bytes end before a zero number, after a name that is refused, and after two that are not.
    let numbers = [1, 0, 0, 0x80].repeat(alloc, 5)?;
    assert_matches!(rt; refusal_with(alloc, &[(0x75, &[0xFF]), (0x8C, &numbers)])? =>
        DirectoryError::DelayImportName(0x72));
    assert_matches!(rt; refusal_with(alloc, &[(0x8C, &numbers)])? =>
        DirectoryError::Image(Error::Short { at: 0, needed: 4 }));
    // The table is not mapped.
    assert_matches!(rt; refusal_with(alloc, &[(0x11, &[0x30])])? =>
        DirectoryError::Image(Error::Malformed(Reason::Unmapped(0x3080))));
    // Half an entry after the second.
    let bytes = two_dlls(alloc)?;
    let image = image_of(&bytes, false);
    let indexed = IndexedImage::new(alloc, &image)?;
    let entries = DelayImports::parse(&image, at(0x1000, 0x50))?;
    assert_matches!(rt; entries.dlls(alloc, &indexed) =>
        Err(DirectoryError::Image(Error::Short { at: 0, needed: 32 })));
    Ok(())
}

/// Refuses the first request of a call, then the second instead and so on, until it asks for no more. Every other run has to
/// return `Memory`. How many requests were refused.
fn refuse_in_turn(
    rt: &impl Abort,
    alloc: Global,
    call: impl Fn(&Refusing<Global>) -> Result<usize, DirectoryError>,
    want: usize,
) -> Result<u32, Fail> {
    for k in 0..100 {
        let refusing = Refusing::new(alloc, k);
        let answer = call(&refusing);
        if refusing.has_refused() {
            assert!(rt;
                matches!(answer, Err(DirectoryError::Image(Error::Memory(_)))),
                "request {k}"
            );
        } else {
            assert_eq!(rt; answer?, want);
            return Ok(k);
        }
    }
    Err(Fail::new("there is no end of requests"))
}

#[test]
fn refused_memory(rt: HostRuntime) -> Result<(), Fail> {
    let alloc = rt.alloc();
    let bytes = two_dlls(alloc)?;
    let image = image_of(&bytes, false);
    let refused = refuse_in_turn(
        &rt,
        alloc,
        |alloc| Ok(functions_of(alloc, &image)?.len()),
        3,
    )?;
    assert!(rt; refused >= 7, "{refused} of delay imports");
    let directory = BoundImportDirectory {
        bytes: b"\0\0\0\0\x08\0\0\0name\0",
    };
    let refused = refuse_in_turn(
        &rt,
        alloc,
        |alloc| Ok(directory.names(alloc)?.name(8)?.len()),
        4,
    )?;
    assert!(rt; refused >= 2, "{refused} of bound imports");
    Ok(())
}

/// Where the texts of `many_names` are.
#[derive(Clone, Copy, Debug)]
enum Texts {
    /// One text, in which the offsets rise.
    Rising,
    /// One text, in which the offsets fall.
    Falling,
    /// Two texts by turns.
    Two,
}

const COUNT: u32 = 100_000;

const LENGTH: u32 = 0x8_0000;

impl Texts {
    /// The offset of hint and name number `i`, at least two bytes before a zero.
    fn offset(self, i: u32) -> u32 {
        match self {
            Texts::Rising => i,
            Texts::Falling => COUNT - i,
            Texts::Two => i + i % 2 * (LENGTH / 2),
        }
    }

    /// The bytes of an image of PE32: two texts, which are one but for `Two`, then a table of numbers that lead into them.
    fn image(self, alloc: Global) -> Result<Vec<u8>, AllocError> {
        let mut bytes = vec![in alloc; b'a'; LENGTH as usize]?;
        bytes[LENGTH as usize - 1] = 0;
        if let Texts::Two = self {
            bytes[LENGTH as usize / 2 - 1] = 0;
        }
        for i in 0..COUNT {
            bytes.extend_from_slice(&u32::to_le_bytes(0x1000 + self.offset(i)))?;
        }
        bytes.extend_from_slice(&[0; 4])?;
        Ok(bytes)
    }

    /// The length of name number `i`: from after its hint up to the zero.
    fn name_length(self, i: u32) -> u32 {
        let end = match self {
            Texts::Two if i.is_multiple_of(2) => LENGTH / 2 - 1,
            _ => LENGTH - 1,
        };
        end - (self.offset(i) + 2)
    }
}

/// As many sections as there may be, of which the last covers all bytes.
fn most_sections(alloc: Global) -> Result<Vec<SectionTable>, AllocError> {
    let empty = section(0x1000, 0, 0, 0);
    let mut sections = vec![in alloc; empty; 65_534]?;
    sections.push(SectionTable {
        size_of_raw_data: 0x1000_0000,
        ..empty
    })?;
    Ok(sections)
}

/// 100,000 names in texts of 512 KiB, after as many sections as there may be. Name by name, and section by section, this would
/// take minutes.
#[test]
fn many_names_in_long_texts(rt: HostRuntime) -> Result<(), Fail> {
    let alloc = rt.alloc();
    let sections = most_sections(alloc)?;
    for texts in [Texts::Rising, Texts::Falling, Texts::Two] {
        let bytes = texts.image(alloc)?;
        let image = ImageBytes {
            bytes: &bytes,
            sections: &sections,
            file_alignment: 0x200,
            image_base: 0x40_0000,
            is_64: false,
            opts: ParseOptions::default(),
        };
        let indexed = IndexedImage::new(alloc, &image)?;
        let entry = DelayImport {
            attributes: 1,
            name: 0x1000,
            module_handle: 0,
            import_address_table: 0,
            import_name_table: 0x1000 + LENGTH,
            bound_import_address_table: 0,
            unload_information_table: 0,
            time_date_stamp: 0,
        };
        let functions = entry.functions(alloc, &indexed)?;
        assert_eq!(rt; functions.len(), COUNT as usize);
        for (i, function) in functions.iter().enumerate() {
            let DelayedFunction::Name { name, .. } = function else {
                return Err(Fail::new("an ordinal"));
            };
            assert_eq!(rt;
                name.len(),
                texts.name_length(i as u32) as usize,
                "{i} of {texts:?}"
            );
        }
    }
    Ok(())
}

/// 65,535 sections whose names start in one text of 8 MiB: name by name this would take minutes.
#[test]
fn many_long_section_names(rt: HostRuntime) -> Result<(), Fail> {
    let alloc = rt.alloc();
    let mut bytes = vec![in alloc; b'a'; 0x80_0000]?;
    bytes.push(0)?;
    let strings = Strtab { bytes: &bytes };
    let mut sections = most_sections(alloc)?;
    for i in 0..sections.len() {
        let mut name = *b"/0000000";
        let mut left = 4 + i;
        for digit in name[1..].iter_mut().rev() {
            *digit = b'0' + (left % 10) as u8;
            left /= 10;
        }
        sections[i].name = name;
    }
    let names = long_section_names(alloc, &sections, &strings)?;
    assert_eq!(rt; names.len(), sections.len());
    for (i, name) in names.iter().enumerate() {
        assert_eq!(rt; name.map(str::len), Some(0x80_0000 - 4 - i));
    }
    assert!(rt;
        long_section_name(&sections[5], &strings).is_some_and(|name| name.len() == 0x80_0000 - 9)
    );
    Ok(())
}

/// 20,000 entries whose names lie in one text of 512 KiB.
#[test]
fn many_dlls_in_one_text(rt: HostRuntime) -> Result<(), Fail> {
    let alloc = rt.alloc();
    let count: u32 = 20_000;
    let mut bytes = Vec::new(alloc);
    for i in 0..count {
        let mut entry = [0; 32];
        entry[0] = 1;
        entry[4..8].copy_from_slice(&u32::to_le_bytes(0x1000 + count * 32 + 9 * i));
        bytes.extend_from_slice(&entry)?;
    }
    bytes.extend_from_slice(&vec![in alloc; b'a'; LENGTH as usize]?)?;
    bytes.push(0)?;
    let mut image = image_of(&bytes, false);
    let sections = most_sections(alloc)?;
    image.sections = &sections;
    let indexed = IndexedImage::new(alloc, &image)?;
    let dlls = DelayImports::new(&bytes[..count as usize * 32]).dlls(alloc, &indexed)?;
    assert_eq!(rt; dlls.len(), count as usize);
    for (i, dll) in dlls.iter().enumerate() {
        assert_eq!(rt; dll.name.len(), LENGTH as usize - 9 * i);
    }
    Ok(())
}

/// Names at every kind of offset: in the text, at its zero, at the end, past the end, and the greatest offset, whose text goes on
/// after it.
#[test]
fn names_of_bound_imports(rt: HostRuntime) -> Result<(), Fail> {
    let alloc = rt.alloc();
    let directory = BoundImportDirectory {
        bytes: b"one.dll\0\xFFtwo.dll\0six",
    };
    let names = directory.names(alloc)?;
    // shows: pe_directories/src/bound_names.rt name BoundImportName
    for (offset, name) in [
        (0, Some("one.dll")),
        (4, Some("dll")),
        (7, Some("")),
        (8, None),
        (9, Some("two.dll")),
        (16, Some("")),
        (17, None),
        (20, None),
        (0xFFFF, None),
    ] {
        match names.name(offset) {
            Ok(read) => assert_eq!(rt; Some(read), name),
            Err(DirectoryError::BoundImportName(at)) => {
                assert_eq!(rt; (at, None), (offset, name));
            }
            Err(_) => return Err(Fail::new("another refusal")),
        }
    }
    let mut bytes = vec![in alloc; b'a'; 0x1_0000]?;
    bytes.extend_from_slice(b"bc\0")?;
    let names = BoundImportDirectory { bytes: &bytes }.names(alloc)?;
    assert_eq!(rt; names.name(0xFFFF)?, "abc");
    assert!(rt;
        BoundImportDirectory { bytes: b"" }
            .names(alloc)?
            .name(0)
            .is_err()
    );
    Ok(())
}

/// A directory that is one text of 1 MiB: 120,000 entries and forwarders have names in it. Name by name this would take
/// minutes.
#[test]
fn many_bound_imports_in_one_text(rt: HostRuntime) -> Result<(), Fail> {
    let alloc = rt.alloc();
    let mut bytes = vec![in alloc; b'a'; 0x10_0000]?;
    bytes.push(0)?;
    let directory = BoundImportDirectory { bytes: &bytes };
    let names = directory.names(alloc)?;
    let mut read = 0u32;
    for import in directory.imports() {
        let Ok(import) = import else {
            break;
        };
        for forwarder in import.forwarders() {
            // `aa` is the offset 0x6161.
            let name = names.name(forwarder?.name)?;
            assert_eq!(rt; name.len(), 0x10_0000 - 0x6161);
            read = read.wrapping_add(1);
        }
        assert_eq!(rt; names.name(import.name)?.len(), 0x10_0000 - 0x6161);
    }
    // 5 entries, each with 0x6161 forwarders.
    assert_eq!(rt; read, 5 * 0x6161);
    Ok(())
}

// ---- load configurations: every field at its offset, and the tables that they lead to

/// The tables of an image of x86 that lld-link 14 linked with `/safeseh /guard:cf,longjmp,ehcont`: their RVAs, addresses and
/// numbers of entries, here from offset 0x100 on, and a table of import addresses with two bytes of flags an entry.
fn with_tables(flags: u32) -> [u8; 0x200] {
    let mut bytes = [0; 0x200];
    let mut put = |offset: usize, number: u32| {
        bytes[offset..offset + 4].copy_from_slice(&number.to_le_bytes());
    };
    put(0, 188);
    put(64, 0x40_1100);
    put(68, 1);
    put(80, 0x40_1104);
    put(84, 3);
    put(88, flags);
    put(112, 0x40_1110);
    put(116, 1);
    put(164, 0x40_1114);
    put(168, 1);
    for (k, rva) in [0x1035, 0x1000, 0x1010, 0x1020, 0x102C, 0x1034]
        .into_iter()
        .enumerate()
    {
        put(0x100 + 4 * k, rva);
    }
    bytes
}

/// The RVAs of a table whose entries have no flags.
fn are(entries: GuardTable, rvas: &[u32]) -> Result<bool, Fail> {
    let mut left = rvas;
    for entry in entries {
        let entry = entry?;
        if left.is_empty() || left[0] != entry.rva || !entry.flags.is_empty() {
            return Ok(false);
        }
        left = &left[1..];
    }
    Ok(left.is_empty())
}

#[test]
fn tables_that_are_not_there(rt: HostRuntime) -> Result<(), Fail> {
    // The table of exception handlers: its address, and how many entries it has.
    let parsed = |address: u32, count: u32| {
        let mut bytes = with_tables(0);
        bytes[64..68].copy_from_slice(&address.to_le_bytes());
        bytes[68..72].copy_from_slice(&count.to_le_bytes());
        bytes
    };
    let bytes = parsed(0x40_11F8, u32::MAX);
    let image = image_of(&bytes, false);
    let config = LoadConfig::parse(&image, at(0x1000, 64))?;
    let mut entries = config.se_handlers(&image)?;
    assert!(rt; matches!(entries.next(), Some(Ok(_))));
    assert!(rt; matches!(entries.next(), Some(Ok(_))));
    assert_matches!(rt; entries.next() =>
        Some(Err(DirectoryError::Image(Error::Short { at: 0, needed: 4 }))));
    assert!(rt; entries.next().is_none());
    for (address, count) in [(0, 7), (0x3F_FFFF, 0), (0x50_0000, 0)] {
        let bytes = parsed(address, count);
        let image = image_of(&bytes, false);
        let config = LoadConfig::parse(&image, at(0x1000, 64))?;
        assert!(rt; config.se_handlers(&image)?.next().is_none());
    }
    let bytes = parsed(0x3F_FFFF, 1);
    let image = image_of(&bytes, false);
    let config = LoadConfig::parse(&image, at(0x1000, 64))?;
    assert_matches!(rt; config.se_handlers(&image) => Err(DirectoryError::VaBelowBase(0x3F_FFFF)));
    let bytes = parsed(0x50_0000, 1);
    let image = image_of(&bytes, false);
    let config = LoadConfig::parse(&image, at(0x1000, 64))?;
    assert_matches!(rt; config.se_handlers(&image) =>
        Err(DirectoryError::Image(Error::Malformed(Reason::Unmapped(0x10_0000)))));
    // A load configuration without these fields has no tables.
    let image = image_of(&[4, 0, 0, 0], true);
    let config = LoadConfig::parse(&image, at(0x1000, 64))?;
    assert!(rt; are(config.guard_cf_functions(&image)?, &[])?);
    assert_eq!(rt; config.flag_size(), 0);
    Ok(())
}
