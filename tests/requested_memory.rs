//! How many bytes each call that takes memory asks for, in all of its requests: what its result needs, and what it sorts or keeps
//! on the way. A definition says nothing of it, so no proof sees room that is asked for and not used. Nor does one see a limit:
//! each of these calls may return `Memory`, and here most read more things than a limit of a round number would let them.

use crate::directories::{at, image_of};
use crate::exports::one_section;
use crate::images::{
    flat, put, te, with_every_directory, with_exports, with_imports, with_resources,
};
use crate::imports::{image_by, sharing};
use crate::minidumps::with_stream;
use crate::plans::{chain, offset_of, plan};
use crate::refusing::Refusing;
use crate::resources::EMPTY;
use crate::sections::counting;
use pe_core::{
    Export, ExportData, Import, ImportData, ParseOptions, SectionIndex, SectionTable, Strtab,
    SymbolTable, SyntheticImportDirectoryEntry, TeHeader, texts_at,
};
use pe_directories::{
    BoundImportDirectory, DelayImports, DelayedDll, DelayedFunction, ImageBytes, IndexedImage,
};
use pe_image::{Coff, PE, TE};
use pe_minidump::{AddressIndex, AddressRange, Dump, module_ranges};
use pe_records::{AttributeCertificate, enumerate_certificates};
use pe_resource::{ResourceString, VersionField};
use pe_unwind::UnwindInfo;
use std::alloc::{AllocError, Allocator, Global};
use std::mem::size_of;
use std::process::Abort;
use std::test::Fail;

/// How many things each call reads: one, where room for a round number of them would be seen, and many, where room for a number
/// of bytes in place of things would be. The last is above 2^17, 150,000 and 200,000.
const COUNTS: [u32; 4] = [1, 3, 1000, 201_000];

/// The size of an offset.
const OFFSET: usize = size_of::<usize>();

/// The size of a text.
const TEXT: usize = size_of::<&str>();

/// The size of a text that may be absent.
const FOUND: usize = size_of::<Option<&str>>();

/// The size of the start and the end of a list.
const LIST: usize = 2 * OFFSET;

/// The size of a lookup entry with the name of its DLL and the RVA of its address.
const ENTRY: usize = TEXT + 16;

/// The size of an entry of an index: the first address, and the number of the range or the section that has it.
const INDEX_ENTRY: usize = 16;

/// How many bytes a call may ask for.
#[derive(Clone, Copy)]
struct Room {
    least: usize,
    most: usize,
}

impl Room {
    const NONE: Room = Room { least: 0, most: 0 };

    /// And a list that is reserved once.
    fn list(self, count: usize, size: usize) -> Room {
        Room {
            least: self.least + count * size,
            most: self.most + count * size,
        }
    }

    /// And a list that grows. At its end it has room for at most twice its things, or for eight; the shorter ones before it had
    /// room for as many together.
    fn growing(self, count: usize, size: usize) -> Room {
        let most = if count == 0 { 0 } else { 4 * count + 16 };
        Room {
            least: self.least + count * size,
            most: self.most + most * size,
        }
    }

    /// And short texts that are read at once.
    fn texts(self, count: usize) -> Room {
        self.list(count, FOUND)
    }

    /// And the index of so many sections or ranges: two entries for each, and as many while they are merged.
    fn index(self, count: usize) -> Room {
        self.growing(2 * count, INDEX_ENTRY)
            .growing(2 * count, INDEX_ENTRY)
    }

    /// And named exports: the offsets of their names, the names, the exports.
    fn exports(self, count: usize) -> Room {
        self.list(count, OFFSET)
            .texts(count)
            .list(count, size_of::<Export<'_>>())
    }

    /// And the records of an import directory: the offsets of their names, the names, the offsets of their lists, these sorted,
    /// the lists that no other covers, the records.
    fn records(self, count: usize, lists: usize) -> Room {
        self.list(count, OFFSET)
            .texts(count)
            .list(count, OFFSET)
            .growing(count, OFFSET)
            .growing(lists, LIST)
            .list(count, size_of::<SyntheticImportDirectoryEntry<'_>>())
    }

    /// And imports: their entries, the offsets of their names, the names, the imports.
    fn imports(self, count: usize) -> Room {
        self.growing(count, ENTRY)
            .list(count, OFFSET)
            .texts(count)
            .list(count, size_of::<Import<'_>>())
    }

    /// And the names of DLLs, by a map: the offsets of the names of all records, and the names at each offset.
    fn libraries(self, records: usize, offsets: usize) -> Room {
        self.list(records, OFFSET)
            .texts(offsets)
            .list(offsets, TEXT)
    }

    /// The call asked for this.
    fn check(self, rt: &impl Abort, asked: &Refusing<Global>, what: &str, count: usize) {
        let bytes = asked.bytes_asked();
        let Room { least, most } = self;
        assert!(rt;
            least <= bytes && bytes <= most,
            "{what} of {count}: {bytes} bytes, not {least} to {most}"
        );
    }
}

/// An allocator that grants each request.
fn granting(alloc: Global) -> Refusing<Global> {
    Refusing::new(alloc, u32::MAX)
}

/// These numbers of 32 bits.
fn push_numbers(bytes: &mut Vec<u8>, numbers: &[u32]) -> Result<(), AllocError> {
    for number in numbers {
        bytes.extend_from_slice(&number.to_le_bytes())?;
    }
    Ok(())
}

#[test]
fn sections(rt: HostRuntime) -> Result<(), Fail> {
    let alloc = rt.alloc();
    let bytes = vec![in alloc; 0; 40 * 65_535]?;
    for count in [0, 1, 3, 1000, 65_535] {
        let asked = granting(alloc);
        let read = counting(count).sections(&asked, &bytes, 0)?;
        let room = Room::NONE.list(usize::from(count), size_of::<SectionTable>());
        room.check(&rt, &asked, "sections", read.len());
        let asked = granting(alloc);
        SectionIndex::new(&asked, &read, 0x200, &ParseOptions::default())?;
        let room = Room::NONE.index(usize::from(count));
        room.check(&rt, &asked, "an index", read.len());
        let asked = granting(alloc);
        SectionIndex::new(&asked, &read, 0x200, &flat())?;
        Room::NONE.check(&rt, &asked, "no index", read.len());
    }
    let bytes = te(alloc)?;
    let asked = granting(alloc);
    let read = TeHeader::parse(&bytes)?.sections(&asked, &bytes)?;
    let room = Room::NONE.list(1, size_of::<SectionTable>());
    room.check(&rt, &asked, "sections of a TE image", read.len());
    Ok(())
}

/// Texts of five bytes, and long ones: of these each offset is sorted, and start, end and text are kept, unless one run was enough.
#[test]
fn texts(rt: HostRuntime) -> Result<(), Fail> {
    let alloc = rt.alloc();
    for count in COUNTS {
        let count = count as usize;
        for length in [5, 64] {
            let mut text = vec![in alloc; b'a'; length]?;
            text.push(0)?;
            let bytes = text.repeat(alloc, count)?;
            let mut offsets = Vec::with_capacity(alloc, count)?;
            for i in 0..count {
                offsets.push(i * text.len())?;
            }
            let asked = granting(alloc);
            assert_eq!(rt; texts_at(&asked, &bytes, &offsets)?.len(), count);
            Room::NONE.texts(count).check(&rt, &asked, "texts", count);
            // By turns the last and the others, so that reading them one by one is given up. Of short ones half of them do.
            let is_long = length == 64;
            let others = if is_long { count } else { count.div_ceil(2) };
            let bytes = &bytes[..others * text.len()];
            let mut turns = Vec::with_capacity(alloc, 2 * others)?;
            for offset in &offsets[..others] {
                turns.push(*offset)?;
                turns.push(bytes.len() - text.len())?;
            }
            let asked = granting(alloc);
            assert_eq!(rt; texts_at(&asked, bytes, &turns)?.len(), 2 * others);
            let room = Room::NONE.texts(2 * others);
            let later = if is_long { 2 * others } else { 0 };
            let most = room
                .growing(later, OFFSET)
                .growing(others, LIST + FOUND)
                .most;
            Room { most, ..room }.check(&rt, &asked, "texts by turns", count);
        }
    }
    Ok(())
}

/// A string table of one letter each, and symbols with these names.
#[test]
fn symbols(rt: HostRuntime) -> Result<(), Fail> {
    let alloc = rt.alloc();
    for count in COUNTS {
        let mut strings = Vec::new(alloc);
        push_numbers(&mut strings, &[4 + 2 * count])?;
        let mut rows = Vec::new(alloc);
        for i in 0..count {
            strings.extend_from_slice(b"s\0")?;
            push_numbers(&mut rows, &[0, 4 + 2 * i, 0, 0])?;
            rows.extend_from_slice(&[0; 2])?;
        }
        let count = count as usize;
        let strings = Strtab { bytes: &strings };
        let asked = granting(alloc);
        assert_eq!(rt; strings.to_vec(&asked)?.len(), count);
        let room = Room::NONE.list(count, TEXT);
        room.check(&rt, &asked, "strings", count);
        let asked = granting(alloc);
        let names = SymbolTable { bytes: &rows }.names(&asked, &strings)?;
        assert_eq!(rt; names.len(), count);
        let room = Room::NONE
            .growing(count, OFFSET)
            .texts(count)
            .list(count, TEXT);
        room.check(&rt, &asked, "names of symbols", count);
    }
    Ok(())
}

/// Adds an export directory, which has the RVA `start`, and after it so many exports, all with the name `f`.
fn push_exports(bytes: &mut Vec<u8>, start: u32, count: u32) -> Result<(), AllocError> {
    let name = start + 40;
    let addresses = name + 4;
    push_numbers(bytes, &[0, 0, 0, name, 0, count, count, addresses])?;
    push_numbers(bytes, &[addresses + 4 * count, addresses + 8 * count])?;
    bytes.extend_from_slice(b"f\0\0\0")?;
    for number in [0x1000, name] {
        for _ in 0..count {
            push_numbers(bytes, &[number])?;
        }
    }
    for i in 0..count {
        bytes.extend_from_slice(&u16::to_le_bytes((i % 0x1_0000) as u16))?;
    }
    Ok(())
}

#[test]
fn exports(rt: HostRuntime) -> Result<(), Fail> {
    let alloc = rt.alloc();
    for count in COUNTS {
        let mut bytes = Vec::new(alloc);
        push_exports(&mut bytes, 0, count)?;
        let data = ExportData::parse_with_opts(&bytes, at(0, 40), &[], 0x200, &flat())?;
        let asked = granting(alloc);
        let exports = Export::parse_with_opts(&asked, &bytes, &data, &[], 0x200, &flat())?;
        assert_eq!(rt; exports.len(), count as usize);
        let room = Room::NONE.exports(exports.len());
        room.check(&rt, &asked, "exports", exports.len());
    }
    Ok(())
}

/// An import directory at offset 0, of records that each have a name and a list of one import of their own.
fn importing(alloc: Global, count: u32) -> Result<Vec<u8>, AllocError> {
    let mut after = b"a.dll\0\0\0".repeat(alloc, count as usize)?;
    let mut list = [0; 16];
    list[7] = 0x80;
    after.extend_from_slice(&list.repeat(alloc, count as usize)?)?;
    sharing(alloc, count, &after, (0, 8 * count), (8, 16))
}

/// The data of that directory.
fn data_of<'a, A: Allocator + Copy + Drop>(
    alloc: A,
    bytes: &'a [u8],
) -> pe_core::Result<ImportData<'a, A>> {
    ImportData::parse_with_opts(alloc, bytes, at(0, 0), &[], 0, &flat(), true)
}

#[test]
fn imports(rt: HostRuntime) -> Result<(), Fail> {
    let alloc = rt.alloc();
    let index = SectionIndex::new(alloc, &[], 0, &flat())?;
    for count in COUNTS {
        let bytes = importing(alloc, count)?;
        let count = count as usize;
        let asked = granting(alloc);
        let data = data_of(&asked, &bytes)?;
        let room = Room::NONE.records(count, count);
        room.check(&rt, &asked, "import records", count);
        let asked = granting(alloc);
        assert_eq!(rt; data.libraries(&asked)?.len(), 1);
        let room = Room::NONE.list(count, TEXT);
        room.check(&rt, &asked, "libraries", count);
        let asked = granting(alloc);
        let names = data.libraries_with_map(&asked, &image_by(&bytes, &index))?;
        assert_eq!(rt; names.len(), 1);
        let room = Room::NONE.libraries(count, count);
        room.check(&rt, &asked, "libraries by a map", count);
        let asked = granting(alloc);
        let imports = Import::parse_with_opts(&asked, &bytes, &data, &[], 0, &flat(), true)?;
        assert_eq!(rt; imports.len(), count);
        let room = Room::NONE.imports(count);
        room.check(&rt, &asked, "imports", count);
        let most = count / 2;
        let asked = granting(alloc);
        let imports = Import::parse_at_most(&asked, &image_by(&bytes, &index), &data, true, most)?;
        assert_eq!(rt; imports.len(), most);
        let room = Room::NONE.imports(most);
        room.check(&rt, &asked, "the first imports", most);
    }
    Ok(())
}

#[test]
fn certificates(rt: HostRuntime) -> Result<(), Fail> {
    let alloc = rt.alloc();
    for count in COUNTS {
        let mut bytes = Vec::new(alloc);
        for _ in 0..count {
            push_numbers(&mut bytes, &[16, 0x0002_0200, 0, 0])?;
        }
        let count = count as usize;
        let asked = granting(alloc);
        let found = enumerate_certificates(&asked, &bytes, 0, bytes.len())?.len();
        assert_eq!(rt; found, count);
        let room = Room::NONE.growing(count, size_of::<AttributeCertificate<'_>>());
        room.check(&rt, &asked, "certificates", count);
    }
    Ok(())
}

/// A plan is reserved once, for as many records as it has.
#[test]
fn plans(rt: HostRuntime) -> Result<(), Fail> {
    let alloc = rt.alloc();
    for count in COUNTS {
        let bytes = chain(alloc, count - 1, offset_of(count - 1))?;
        let asked = granting(alloc);
        let records = plan(&asked, &bytes, 12, 0x1005)?.ok_or("no function")?;
        assert_eq!(rt; records.len(), count as usize);
        let room = Room::NONE.list(records.len(), size_of::<UnwindInfo<'_>>());
        room.check(&rt, &asked, "a plan", records.len());
    }
    Ok(())
}

/// A text of version information: its code units, then its bytes. A version in digits.
#[test]
fn version_texts(rt: HostRuntime) -> Result<(), Fail> {
    let alloc = rt.alloc();
    for count in COUNTS {
        let count = count as usize;
        let value = b"v\0".repeat(alloc, count)?;
        let mut offset = 0;
        let mut string = ResourceString::parse(&EMPTY, &mut offset)?.ok_or("no string")?;
        string.value = &value;
        let asked = granting(alloc);
        let text = string.value_string(&asked)?.ok_or("no text")?;
        assert_eq!(rt; text.len(), count);
        let room = Room::NONE.growing(count, 2).growing(count, 1);
        room.check(&rt, &asked, "a value", count);
    }
    let asked = granting(alloc);
    let version = VersionField::from_ms_ls(0xFFFF_FFFF, 0xFFFF_FFFF).to_string(&asked)?;
    assert_eq!(rt; version.as_str(), "65535.65535.65535.65535");
    let room = Room::NONE.growing(version.len(), 1);
    room.check(&rt, &asked, "a version", version.len());
    Ok(())
}

/// A table of functions at offset 4 that all have the name at offset 2, and a directory of DLLs that all have the name at offset 0
/// and that table. Where the directory starts.
fn delaying(alloc: Global, count: u32) -> Result<(Vec<u8>, usize), AllocError> {
    let mut bytes = Vec::new(alloc);
    bytes.extend_from_slice(b"d\0f\0")?;
    for _ in 0..count {
        push_numbers(&mut bytes, &[0x1000])?;
    }
    push_numbers(&mut bytes, &[0])?;
    let start = bytes.len();
    for _ in 0..count {
        push_numbers(&mut bytes, &[1, 0x1000, 0, 0x1004, 0x1004, 0, 0, 0])?;
    }
    Ok((bytes, start))
}

#[test]
fn delay_imports(rt: HostRuntime) -> Result<(), Fail> {
    let alloc = rt.alloc();
    let sections = [SectionTable {
        size_of_raw_data: 0x1000_0000,
        virtual_size: 0x1000_0000,
        pointer_to_raw_data: 0,
        ..one_section()[0]
    }];
    for count in COUNTS {
        let (bytes, start) = delaying(alloc, count)?;
        let count = count as usize;
        let image = ImageBytes {
            sections: &sections,
            ..image_of(&bytes, false)
        };
        let asked = granting(alloc);
        let indexed = IndexedImage::new(&asked, &image)?;
        let room = Room::NONE.index(1);
        room.check(&rt, &asked, "an indexed image", 1);
        let dlls = DelayImports::new(&bytes[start..]).dlls(&asked, &indexed)?;
        assert_eq!(rt; dlls.len(), count);
        let names = room.growing(count, OFFSET).texts(count);
        let room = names.list(count, size_of::<DelayedDll<'_>>());
        room.check(&rt, &asked, "delay-loaded DLLs", count);
        let functions = dlls[0].entry.functions(&asked, &indexed)?;
        assert_eq!(rt; functions.len(), count);
        let names = room.growing(count, OFFSET).texts(count);
        let room = names.list(count, size_of::<DelayedFunction<'_>>());
        room.check(&rt, &asked, "delay-loaded functions", count);
    }
    Ok(())
}

/// A name at each offset of the directory, of which 65,536 can be named.
#[test]
fn bound_imports(rt: HostRuntime) -> Result<(), Fail> {
    let alloc = rt.alloc();
    for count in [0, 1, 1000, 0x1_0000, 0x2_0000] {
        let bytes = b"a\0".repeat(alloc, count / 2)?;
        let asked = granting(alloc);
        BoundImportDirectory { bytes: &bytes }.names(&asked)?;
        let named = bytes.len().min(0x1_0000);
        let room = Room::NONE.list(named, OFFSET).texts(named);
        room.check(&rt, &asked, "bound imports", count);
    }
    Ok(())
}

/// The image with imports, in which the one DLL has so many by the ordinal 7, and which has as many exports, all with the name
/// `f`, and certificates.
fn with_many(alloc: Global, count: u32) -> Result<Vec<u8>, AllocError> {
    let mut bytes = with_imports(alloc)?;
    // The section has the RVAs from 0x1000 on, and starts at the file offset 0x200.
    let rva = |offset: usize| offset as u32 + 0xE00;
    put(
        &mut bytes,
        &[(0x150, &[0, 0, 0, 0x10]), (0x158, &[0, 0, 0, 0x10])],
    );
    bytes.resize(0x800, 0)?;
    let lookups = rva(bytes.len()).to_le_bytes();
    put(&mut bytes, &[(0x260, &lookups)]);
    for _ in 0..count {
        push_numbers(&mut bytes, &[7, 0x8000_0000])?;
    }
    push_numbers(&mut bytes, &[0, 0])?;
    let start = rva(bytes.len());
    put(&mut bytes, &[(0xC8, &start.to_le_bytes()), (0xCC, &[40])]);
    push_exports(&mut bytes, start, count)?;
    bytes.resize(bytes.len().next_multiple_of(8), 0)?;
    let table = u32::to_le_bytes(bytes.len() as u32);
    let size = u32::to_le_bytes(8 * count);
    put(&mut bytes, &[(0xE8, &table), (0xEC, &size)]);
    for _ in 0..count {
        push_numbers(&mut bytes, &[8, 0x0002_0200])?;
    }
    Ok(bytes)
}

/// A whole image asks for what its parts do.
#[test]
fn whole_images(rt: HostRuntime) -> Result<(), Fail> {
    let alloc = rt.alloc();
    for (bytes, count) in [
        (with_exports(alloc)?, 0),
        (with_imports(alloc)?, 0),
        (with_resources(alloc)?, 0),
        (with_every_directory(alloc)?, 0),
        (with_many(alloc, 1000)?, 1000),
        (with_many(alloc, 201_000)?, 201_000),
    ] {
        let asked = granting(alloc);
        let pe = PE::parse(&asked, &bytes)?;
        let sections = pe.sections.len();
        let names = pe
            .export_data
            .as_ref()
            .map_or(0, |data| data.names.len() / 4);
        let records = pe
            .import_data
            .as_ref()
            .map_or(0, |data| data.import_data.len());
        if count > 0 {
            assert_eq!(rt; (pe.exports.len(), pe.imports.len()), (count, count));
            assert_eq!(rt; pe.certificates.len(), count);
        }
        // Without exports and imports there is no index.
        let is_indexed = pe.export_data.is_some() || pe.import_data.is_some();
        let room = Room::NONE
            .list(sections, size_of::<SectionTable>())
            .index(if is_indexed { sections } else { 0 })
            .exports(names)
            .records(records, records)
            .imports(pe.imports.len())
            .libraries(records, records)
            .growing(pe.certificates.len(), size_of::<AttributeCertificate<'_>>());
        room.check(&rt, &asked, "an image", sections);
    }
    Ok(())
}

#[test]
fn te_images_and_objects(rt: HostRuntime) -> Result<(), Fail> {
    let alloc = rt.alloc();
    let bytes = te(alloc)?;
    let asked = granting(alloc);
    let count = TE::parse(&asked, &bytes)?.sections.len();
    let room = Room::NONE.list(count, size_of::<SectionTable>());
    room.check(&rt, &asked, "a TE image", count);
    for count in [1, 65_535] {
        let mut bytes = vec![in alloc; 0; 20 + 40 * count]?;
        bytes[2..4].copy_from_slice(&u16::to_le_bytes(count as u16));
        let asked = granting(alloc);
        assert_eq!(rt; Coff::parse(&asked, &bytes)?.sections.len(), count);
        let room = Room::NONE.list(count, size_of::<SectionTable>());
        room.check(&rt, &asked, "an object", count);
    }
    Ok(())
}

/// The index of ranges of addresses, each of one address.
#[test]
fn indexes_of_addresses(rt: HostRuntime) -> Result<(), Fail> {
    let alloc = rt.alloc();
    for count in COUNTS {
        let mut ranges = Vec::new(alloc);
        for start in 0..u64::from(count) {
            ranges.push(AddressRange { start, size: 1 })?;
        }
        let asked = granting(alloc);
        let index = AddressIndex::new(&asked, &ranges)?;
        let last = ranges.len() - 1;
        assert_eq!(rt; index.find(last as u64), Some(last));
        let room = Room::NONE.index(ranges.len());
        room.check(&rt, &asked, "an index of addresses", ranges.len());
    }
    Ok(())
}

/// The ranges of modules, and of pieces of memory without bytes.
#[test]
fn ranges_of_minidumps(rt: HostRuntime) -> Result<(), Fail> {
    let alloc = rt.alloc();
    // A module has 108 bytes: to make 201,000 takes minutes under the tests' checks.
    for count in [1u32, 3, 1000, 20_100] {
        let things = count as usize;
        let room = Room::NONE.growing(things, size_of::<AddressRange>());
        let mut stream = vec![in alloc; 0; 4 + 108 * things]?;
        put(&mut stream, &[(0, &count.to_le_bytes())]);
        let bytes = with_stream(alloc, 4, &stream)?;
        let list = Dump::parse(&bytes)?.modules()?.ok_or("no modules")?;
        let asked = granting(alloc);
        assert_eq!(rt; module_ranges(&asked, &list)?.len(), things);
        room.check(&rt, &asked, "ranges of modules", things);
        let mut stream = vec![in alloc; 0; 4 + 16 * things]?;
        put(&mut stream, &[(0, &count.to_le_bytes())]);
        let bytes = with_stream(alloc, 5, &stream)?;
        let dump = Dump::parse(&bytes)?;
        let list = dump.memory_list()?.ok_or("no memory")?;
        let asked = granting(alloc);
        assert_eq!(rt; dump.memory_ranges(&asked, &list)?.len(), things);
        room.check(&rt, &asked, "ranges of memory", things);
    }
    Ok(())
}
