//! Which section maps an RVA, and the bytes to which a section maps its RVAs.

use super::made;
use super::made::*;
use crate::base::pe_c_index;
use crate::headers::maps::{
    pe_c_map, pe_c_range_at, pe_c_relocate, pe_c_rva, pe_c_section_at, pe_c_section_range,
};

pub(crate) fn aligned(file_alignment: u32, mode: u32) -> Image {
    Image {
        file_alignment,
        ..in_mode(&image(X64), mode)
    }
}

fn index_at(image: &Image, sections: &[SectionTable], rva: u32) -> (u32, u64) {
    let view = view(&[], image, sections);
    let mut out = 9;
    (pe_c_section_at(&view, rva, &mut out), out)
}

/// The first section that covers an RVA: up to its raw size, a page at a time, and its virtual size likewise. The third lies over
/// the first two.
#[test]
fn sections_of_rvas(rt: HostRuntime) {
    let sections = [
        section(0x1000, 0x1001, 0x200, 0x1800),
        section(0x4000, 0, 0x1A00, 0x200),
        section(0x1000, 0x9000, 0x200, 0x9000),
    ];
    let image = aligned(0x200, STRICT);
    for (rva, number, index) in [
        (0xFFF, NOTHING, 9),
        (0x1000, DONE, 0),
        (0x27FF, DONE, 0),
        (0x2800, DONE, 2),
        (0x41FF, DONE, 1),
        (0x4200, DONE, 2),
        (0xA000, NOTHING, 9),
    ] {
        let found = index_at(&image, &sections, rva);
        assert_eq!(rt; found, (number, index), "{rva:#x}");
    }
    for other in [aligned(0x300, STRICT), aligned(0x200, MAPPED)] {
        assert_eq!(rt; index_at(&other, &sections, 0x1000), (NOTHING, 9));
    }
}

fn range_of(image: &Image, length: usize, section: &SectionTable) -> (u32, [u64; 2]) {
    let bytes = [0; 0x1000];
    let view = view(&bytes[..length], image, &[]);
    let mut out = untouched();
    let number = pe_c_section_range(&view, section, &mut out);
    (number, of_range(out))
}

/// The raw pointer is rounded down to 512 and the end up to the file alignment; a virtual size that is smaller is rounded up to a
/// page. The bytes end where the file does.
#[test]
fn ranges_of_sections(rt: HostRuntime) {
    let image = aligned(0x200, STRICT);
    for (section, number, range) in [
        (section(0x1000, 0x300, 0x400, 0x300), DONE, [0x400, 0x400]),
        (section(0x1000, 0, 0x450, 0x1B0), DONE, [0x400, 0x200]),
        (section(0x1000, 1, 0x400, 0xB00), DONE, [0x400, 0xC00]),
        (section(0x1000, 0x2000, 0xE00, 0x1000), DONE, [0xE00, 0x200]),
        (section(0x1000, 0x2000, 0x1000, 0x1000), NOTHING, UNTOUCHED),
    ] {
        assert_eq!(rt; range_of(&image, 0x1000, &section), (number, range));
    }
    // as loaded: at the RVA, as many as the virtual size says, or the raw size where that is 0
    let loaded = aligned(0, MAPPED);
    let found = range_of(&loaded, 0x1000, &section(0x800, 0x301, 0, 9));
    assert_eq!(rt; found, (DONE, [0x800, 0x301]));
    let found = range_of(&loaded, 0x1000, &section(0x800, 0, 0, 9));
    assert_eq!(rt; found, (DONE, [0x800, 9]));
}

fn range_at(bytes: &[u8], image: &Image, sections: &[SectionTable], rva: u32) -> (u32, [u64; 2]) {
    let view = view(bytes, image, sections);
    let mut out = untouched();
    (pe_c_range_at(&view, rva, &mut out), of_range(out))
}

/// The bytes of two sections, of which the second has fewer in the file than in memory, and a file that ends inside the third.
#[test]
fn ranges_from_rvas(rt: HostRuntime) {
    let bytes = [0; 0x900];
    let sections = [
        section(0x1000, 0x200, 0x400, 0x200),
        section(0x2000, 0x5000, 0x600, 0x200),
        section(0x8000, 0x400, 0x800, 0x400),
        section(0x1000, 0x2000, 0, 0x2000),
    ];
    let image = aligned(0x200, STRICT);
    for (rva, number, range) in [
        (0xFFF, NOTHING, UNTOUCHED),
        (0x11FF, DONE, [0x5FF, 1]),
        // The fourth section covers it.
        (0x1200, DONE, [0x200, 0x700]),
        (0x2200, NOTHING, UNTOUCHED),
        (0x8010, DONE, [0x810, 0xF0]),
        (0x8100, NOTHING, UNTOUCHED),
    ] {
        let found = range_at(&bytes, &image, &sections, rva);
        assert_eq!(rt; found, (number, range), "{rva:#x}");
    }
    let image = aligned(0x200, MAPPED);
    for (rva, want) in [(0x8FF, (DONE, [0x8FF, 1])), (0x900, (NOTHING, UNTOUCHED))] {
        assert_eq!(rt; range_at(&bytes, &image, &sections, rva), want);
    }
}

/// The RVA of an offset, by the first section that holds it.
#[test]
fn rvas_of_offsets(rt: HostRuntime) {
    let sections = [
        section(0x1000, 0x200, 0x400, 0x200),
        section(0x5000, 0x1000, 0x500, 0x1000),
        section(0xFFFF_FF00, 0x200, 0x2000, 0x200),
    ];
    let rva_of = |image: &Image, offset: u64| {
        let view = view(&[], image, &sections);
        let mut out = 9;
        (pe_c_rva(&view, offset, &mut out), out)
    };
    let image = aligned(0x200, STRICT);
    for (offset, number, rva) in [
        (0x3FF, NOTHING, 9),
        (0x5FF, DONE, 0x11FF),
        // The second section's raw pointer is rounded down to 400h.
        (0x600, DONE, 0x5200),
        (0x1400, NOTHING, 9),
        (0x20FF, DONE, u32::MAX),
        (0x2100, NOTHING, 9),
    ] {
        assert_eq!(rt; rva_of(&image, offset), (number, rva), "{offset:#x}");
    }
    let image = aligned(0x200, MAPPED);
    assert_eq!(rt; rva_of(&image, 0x1_0000_0000), (NOTHING, 9));
    assert_eq!(rt; rva_of(&image, 0xFFFF_FFFF), (DONE, u32::MAX));
}

// ---- the image as a loader lays it out, and base relocations applied to it

/// An image of 0x28 bytes with headers of 5, which is mapped byte by byte.
fn small(mode: u32) -> Image {
    Image {
        file_alignment: 1,
        size_of_image: 0x28,
        size_of_headers: 5,
        ..in_mode(&image(X64), mode)
    }
}

/// Bytes from 1 on.
fn numbered() -> [u8; 0x204] {
    let mut bytes = [0; 0x204];
    for i in 0..0x204 {
        bytes[i] = (i % 251) as u8 + 1;
    }
    bytes
}

/// The second section starts in the first, which comes first; the data of the third start at a multiple of 512, and pass the end of the file.
fn three_sections() -> [SectionTable; 3] {
    [
        section(0x8, 0, 0x200, 4),
        section(0xA, 0, 0, 6),
        section(0x20, 0, 0x20C, 9),
    ]
}

/// What is written at each RVA, by hand: the byte of the file is its offset modulo 251, plus 1.
const LOADED: [u8; 0x28] = [
    1, 2, 3, 4, 5, 0, 0, 0, //
    11, 12, 13, 14, 3, 4, 5, 6, //
    0, 0, 0, 0, 0, 0, 0, 0, //
    0, 0, 0, 0, 0, 0, 0, 0, //
    11, 12, 13, 14, 0, 0, 0, 0,
];

#[test]
fn images_as_loaded(rt: HostRuntime) {
    let (bytes, image, sections) = (numbered(), small(STRICT), three_sections());
    let view = view(&bytes, &image, &sections);
    let (mut room, mut written) = ([7; 0x2A], 0);
    let found = (pe_c_map(&view, &mut room, &mut written), written);
    assert_eq!(rt; found, (DONE, 0x28));
    assert_eq!(rt; (&room[..0x28], &room[0x28..]), (&LOADED[..], &[7, 7][..]));
    let (mut small, mut needed) = ([7; 0x27], 0);
    let found = (pe_c_map(&view, &mut small, &mut needed), needed);
    assert_eq!(rt; found, (ROOM, 0x28));
    assert_eq!(rt; small, [7; 0x27]);
}

/// As loaded already: the bytes, with zeros after them.
#[test]
fn images_that_are_loaded(rt: HostRuntime) {
    let (image, mut room, mut written) = (small(MAPPED), [7; 0x28], 0);
    let bytes = [9; 0x20];
    let found = pe_c_map(&view(&bytes, &image, &[]), &mut room, &mut written);
    assert_eq!(rt; found, DONE);
    let found = (&room[..0x20], &room[0x20..]);
    assert_eq!(rt; found, (&[9; 0x20][..], &[0; 8][..]));
}

/// An image as loaded with a table at its start, of so many bytes; the field of its base is at 0x30.
fn relocatable(size: u32) -> Image {
    let image = Image {
        checksum_offset: 0x58,
        ..in_mode(&image(X64), MAPPED)
    };
    having(image, 5, directory(0, size))
}

/// What is at 0x30 after -1 in each number of `numbers_of_each_type` and a difference of 0x1_2345_8001.
const MOVED: [u8; 24] = [
    0x00, 0x80, 0x45, 0x23, 0x01, 0x00, 0x00, 0x00, // the base
    0x00, 0x80, 0x45, 0x23, 0x01, 0x00, 0x00, 0x00, // DIR64
    0x00, 0x80, 0x45, 0x23, 0x00, 0x80, 0x44, 0x23, // HIGHLOW, LOW, HIGH
];

/// DIR64 at 0x38, HIGHLOW at 0x40, LOW at 0x44, HIGH at 0x46; then a block that is filled up at 0xFFF.
#[test]
fn numbers_of_each_type(rt: HostRuntime) -> Result<(), Fail> {
    let numbers = [0, 16, 0x3040_A038, 0x1046_2044, 0, 12, 0x0FFF];
    let table = words(rt.alloc(), &numbers)?;
    let image = relocatable(28);
    let view = view(&table, &image, &[]);
    let mut room = [0xFF; 0x48];
    let difference: u64 = 0x1_2345_8001;
    assert_eq!(rt; pe_c_relocate(&view, difference, &mut room), DONE);
    let found = (&room[..0x30], &room[0x30..]);
    assert_eq!(rt; found, (&[0xFF; 0x30][..], &MOVED[..]));
    let found = pe_c_relocate(&view, 0u64.wrapping_sub(difference), &mut room);
    assert_eq!(rt; found, DONE);
    // what a HIGH gets of the low 16 bits is no carry, so that it comes back only by differences that have none
    let found = (&room[..0x46], room[0x46], room[0x47]);
    assert_eq!(rt; found, (&[0xFF; 0x46][..], 0xFE, 0xFF));
    Ok(())
}

/// The first relocation of each table is good, and is not applied.
#[test]
fn refused_relocations(rt: HostRuntime) -> Result<(), Fail> {
    for (table, want) in [
        ([0, 16, 0x7040_A038, 0], DIRECTORY_RELOCATION_KIND),
        ([0, 16, 0xA041_A038, 0], DIRECTORY_RELOCATION_OUTSIDE),
        ([0, 12, 0x4040_A038, 0], DIRECTORY_NO_ARGUMENT),
    ] {
        let bytes = words(rt.alloc(), &table)?;
        let image = relocatable(16);
        let mut room = [0xFF; 0x48];
        let number = pe_c_relocate(&view(&bytes, &image, &[]), 5, &mut room);
        assert_eq!(rt; (number, room), (want, [0xFF; 0x48]));
    }
    let bytes = words(rt.alloc(), &[0, 9, 0])?;
    let mut room = [0xFF; 0x48];
    for (image, size, want) in [
        (relocatable(12), 0x48, DIRECTORY_BLOCK_SIZE),
        (in_mode(&relocatable(12), STRICT), 0x48, UNMAPPED),
        (relocatable(12), 0x37, DIRECTORY_RELOCATION_OUTSIDE),
        (relocatable(0), 0x48, NOTHING),
    ] {
        let number = pe_c_relocate(&view(&bytes, &image, &[]), 5, &mut room[..size]);
        assert_eq!(rt; (number, room), (want, [0xFF; 0x48]));
    }
    Ok(())
}

// ---- an index of the sections, and what calls return by it

/// A section of so many bytes in memory and in the file.
fn same_size(rva: u32, offset: u32, size: u32) -> SectionTable {
    made::section(rva, size, offset, size)
}

/// The second lies over the end of the first and the start of the third, the fourth over all; the fifth is alone.
fn five_sections() -> [SectionTable; 5] {
    [
        same_size(0x2000, 0x400, 0x2000),
        same_size(0x3000, 0x2400, 0x3000),
        same_size(0x5000, 0x5400, 0x2000),
        same_size(0x1000, 0x7400, 0x8000),
        same_size(0x20000, 0xF400, 0x1000),
    ]
}

fn view_of<'a>(
    bytes: &'a [u8],
    image: &'a Image,
    sections: &'a [SectionTable],
    index: &'a [RangeEntry],
) -> View<'a> {
    View {
        index,
        ..made::view(bytes, image, sections)
    }
}

/// The RVAs of each piece: its first, one inside, its last.
const RVAS: [u32; 16] = [
    0, 0xFFF, 0x1000, 0x1FFF, 0x2000, 0x3000, 0x3FFF, 0x4000, 0x5FFF, 0x6000, 0x6FFF, 0x7000,
    0x8FFF, 0x9000, 0x20000, 0x20FFF,
];

/// For each of them the index of the first section that covers it; 9 without one.
const OWNERS: [u64; 16] = [9, 9, 3, 3, 0, 0, 0, 1, 1, 2, 2, 3, 3, 9, 4, 4];

/// Two entries for each section, and RVAs are mapped by them as without: by the first section that covers each.
#[test]
fn rvas_by_an_index(rt: HostRuntime) {
    let (bytes, image, sections) = ([0; 0x10400], aligned(0x200, STRICT), five_sections());
    let without = view_of(&bytes, &image, &sections, &[]);
    let mut room = [LEFT_ENTRY; 23];
    let mut written = 0;
    assert_eq!(rt; pe_c_index(&without, &mut room, &mut written), DONE);
    assert_eq!(rt; written, 10);
    for entry in &room[20..] {
        assert_eq!(rt; (entry.start, entry.number), (77, 78));
    }
    let with = view_of(&bytes, &image, &sections, &room[..10]);
    for i in 0..16 {
        let number = if OWNERS[i] == 9 { NOTHING } else { DONE };
        for view in [&without, &with] {
            let mut out = 9;
            let found = (pe_c_section_at(view, RVAS[i], &mut out), out);
            assert_eq!(rt; found, (number, OWNERS[i]));
        }
    }
    // Four entries are needed for each section.
    assert_eq!(rt; pe_c_index(&without, &mut room[..19], &mut written), ROOM);
    assert_eq!(rt; written, 20);
}

/// Entries that no call made: a section is tested before it maps an RVA, and one that there is not maps none.
#[test]
fn indices_that_lie(rt: HostRuntime) {
    let (bytes, image, sections) = ([0; 0x10400], aligned(0x200, STRICT), five_sections());
    for (number, result, owner) in [(4, DONE, 3), (5, NOTHING, 9), (u64::MAX, NOTHING, 9)] {
        let entry = RangeEntry {
            start: 0x2000,
            number,
        };
        let index = [entry];
        let view = view_of(&bytes, &image, &sections, &index);
        let (mut out, mut range) = (9, untouched());
        let found = (pe_c_section_at(&view, 0x2004, &mut out), out);
        assert_eq!(rt; found, (result, owner));
        assert_eq!(rt; pe_c_range_at(&view, 0x2004, &mut range), result);
        let expected = if owner == 3 {
            [0x8404, 0x6FFC]
        } else {
            UNTOUCHED
        };
        assert_eq!(rt; of_range(range), expected);
    }
}
