//! Images whose resources are changed: the bytes that are written, and numbers in refusals. The image has two sections, of which
//! the second has the resources, and five bytes after them. Its checksum is at 0xD0, the entry of the resource directory at
//! 0x110, and the header of the resource section at 0x1A8. The checksum that is expected is pefile's of the same bytes.

use crate::images::with_part;
use crate::resources_written::list;
use crate::shared::with_two_sections;
use crate::signing::OLD;
use pe_core::{Header, ParseOptions};
use pe_edit::{Leaves, Resource, ResourceKey};
use pe_images::put;
use pe_rewrite::{RewriteError, edited_len, write_edited};
use std::alloc::Global;
use std::test::Fail;

/// The content of the resource, 0x100 bytes with the others.
const CONTENT: [u8; 0x100] = [0x5A; 0x100];

/// The length of the image, and that of its resources with one leaf of this content.
const LENGTH: usize = 0x605;

/// The checksum of the image that has them.
const CHECKSUM: [u8; 4] = [0x19, 0x49, 0, 0];

fn header_of(bytes: &[u8]) -> Result<Header<'_>, pe_core::Error> {
    Header::parse_with_opts(bytes, &ParseOptions::default())
}

/// A resource of the type 10.
fn resource(name: u16, content: &[u8]) -> Resource<'_> {
    Resource {
        resource_type: ResourceKey::Id(10),
        name: ResourceKey::Id(name),
        language: 0x409,
        code_page: 1252,
        content,
    }
}

/// The error of an edit, the same by both calls; the buffer stays as it was.
fn refused(alloc: Global, bytes: &[u8], leaves: &[Resource<'_>]) -> Result<String, Fail> {
    let header = header_of(bytes)?;
    let mut out = vec![in alloc; OLD; LENGTH]?;
    let Err(error) = write_edited(bytes, &header, &list(leaves), &mut out) else {
        return Err("an image is written".into());
    };
    if !out.iter().all(|byte| *byte == OLD) {
        return Err("the buffer has changed".into());
    }
    let Err(same) = edited_len(bytes, &header, &list(leaves)) else {
        return Err("an image has a length".into());
    };
    let shown = format!(in alloc; "{error:?}")?;
    if shown != format!(in alloc; "{same:?}")? {
        return Err("the calls return two errors".into());
    }
    Ok(shown)
}

/// Without leaves the section goes, with its header and its data, and what follows these moves back.
#[test]
fn the_last_section_goes_with_its_resources(rt: HostRuntime) -> Result<(), Fail> {
    let bytes = with_two_sections(rt.alloc())?;
    let header = header_of(&bytes)?;
    let mut out = vec![in rt.alloc(); OLD; LENGTH]?;
    let less = LENGTH - 0x200;
    assert_eq!(rt; edited_len(&bytes, &header, &list(&[]))?, less);
    assert_eq!(rt; write_edited(&bytes, &header, &list(&[]), &mut out)?, less);
    assert_eq!(rt; &out[0x7E..0x80], [1, 0].as_slice());
    assert_eq!(rt; &out[0xC8..0xCC], [0, 0x20, 0, 0].as_slice());
    assert_eq!(rt; &out[0x110..0x118], [0; 8].as_slice());
    assert_eq!(rt; &out[0x118..0x1A8], &bytes[0x118..0x1A8]);
    assert_eq!(rt; &out[0x1A8..0x1D0], [0; 40].as_slice());
    assert_eq!(rt; &out[0x1D0..0x400], &bytes[0x1D0..0x400]);
    assert_eq!(rt; &out[0x400..less], b"after".as_slice());
    assert!(rt; out[less..].iter().all(|byte| *byte == OLD));
    Ok(())
}

/// It stays, as zeros, where the image has more pages; and as it is where the entry point leads into it.
#[test]
fn another_section_stays_without_resources(rt: HostRuntime) -> Result<(), Fail> {
    for (offset, part, is_kept) in [(0xC9, &[0x40][..], false), (0xA1, &[0x20][..], true)] {
        let bytes = with_part(with_two_sections(rt.alloc())?, offset, part);
        let mut out = vec![in rt.alloc(); OLD; LENGTH]?;
        let length = write_edited(&bytes, &header_of(&bytes)?, &list(&[]), &mut out)?;
        assert_eq!(rt; length, LENGTH);
        assert_eq!(rt; &out[..0x110], &bytes[..0x110]);
        assert_eq!(rt; &out[0x110..0x118], [0; 8].as_slice());
        assert_eq!(rt; &out[0x118..0x400], &bytes[0x118..0x400]);
        let data = if is_kept { 0x33 } else { 0 };
        assert!(rt; out[0x400..0x600].iter().all(|byte| *byte == data));
        assert_eq!(rt; &out[0x600..], b"after".as_slice());
    }
    Ok(())
}

/// A checksum that is not 0 is made good.
#[test]
fn the_checksum_is_that_of_the_file(rt: HostRuntime) -> Result<(), Fail> {
    let bytes = with_part(with_two_sections(rt.alloc())?, 0xD0, &[1]);
    let mut out = vec![in rt.alloc(); OLD; LENGTH]?;
    write_edited(
        &bytes,
        &header_of(&bytes)?,
        &list(&[resource(1, &CONTENT)]),
        &mut out,
    )?;
    assert_eq!(rt; &out[0xD0..0xD4], CHECKSUM.as_slice());
    Ok(())
}

#[test]
fn numbers_in_refusals(rt: HostRuntime) -> Result<(), Fail> {
    let leaves = [resource(1, &CONTENT)];
    // shows: pe_rewrite/src/place.rt target_before NoDirectory
    // shows: pe_rewrite/src/place.rt require_headers Headers
    // shows: pe_rewrite/src/place.rt require_headers Alignment
    // shows: pe_rewrite/src/room.rt room_with NoHeaderRoom
    for (offset, part, text) in [
        (0x8C, &[0, 0][..], "Image(Malformed(NoOptionalHeader))"),
        (0xFC, &[2][..], "NoDirectory(2)"),
        (0xFC, &[1][..], "NoDirectory(1)"),
        (0x120, &[0, 6, 0, 0, 8][..], "Signed"),
        (0x8C, &[0x60][..], "Headers(240)"),
        (0x7E, &[255][..], "Image(Short { at: 0, needed: 10584 })"),
        (0xB1, &[8][..], "Alignment(2048)"),
        (0xB5, &[1][..], "Alignment(256)"),
        (0xB5, &[6][..], "Alignment(1536)"),
        // Not in place, and by its size of 0 the headers have no room for another section header.
        (0x111, &[0x30][..], "NoHeaderRoom(464)"),
        (0x1BC, &[0x80, 3][..], "NoHeaderRoom(464)"),
        (0x1BD, &[6][..], "NoHeaderRoom(464)"),
        (0x1BD, &[0][..], "NoHeaderRoom(464)"),
        (0xA1, &[0x21][..], "NoHeaderRoom(464)"),
        (0x100, &[0, 0x21][..], "NoHeaderRoom(464)"),
        (0x84, &[0, 5][..], "NoHeaderRoom(464)"),
        (0x84, &[0, 3, 0, 0, 15][..], "NoHeaderRoom(464)"),
        (0x191, &[4][..], "NoHeaderRoom(464)"),
        (0x18D, &[0x20][..], "NoHeaderRoom(464)"),
        (0x195, &[0][..], "NoHeaderRoom(464)"),
    ] {
        let bytes = with_part(with_two_sections(rt.alloc())?, offset, part);
        let shown = refused(rt.alloc(), &bytes, &leaves)?;
        assert_eq!(rt; shown.as_str(), text);
    }
    let bytes = with_two_sections(rt.alloc())?;
    let unsorted = [resource(2, b""), resource(1, b"")];
    let shown = refused(rt.alloc(), &bytes, &unsorted)?;
    assert_eq!(rt; shown.as_str(), "Leaves(Order(1))");
    Ok(())
}

/// The image without resources, whose headers have room for another section header.
fn without_resources(alloc: Global) -> Result<Vec<u8>, Fail> {
    let mut bytes = with_two_sections(alloc)?;
    put(&mut bytes, &[(0xCC, &[0, 2]), (0x110, &[0; 8])]);
    Ok(bytes)
}

#[test]
fn numbers_in_refusals_at_the_end(rt: HostRuntime) -> Result<(), Fail> {
    let leaves = [resource(1, &CONTENT)];
    // shows: pe_rewrite/src/room.rt room_with Section
    // shows: pe_rewrite/src/place.rt require_alone SharedSection
    // shows: pe_rewrite/src/room.rt room_with Symbols
    // shows: pe_rewrite/src/room.rt require_last Overlap
    for (offset, part, text) in [
        (0x1D0, &[1][..], "NoHeaderRoom(464)"),
        (0x1F7, &[1][..], "NoHeaderRoom(464)"),
        (0xCC, &[0xF7, 1][..], "NoHeaderRoom(464)"),
        (0xC8, &[1, 0xF0, 0xFF, 0xFF][..], "ImageTooLarge"),
        (0x98, &[0, 0xFE, 0xFF, 0xFF][..], "ImageTooLarge"),
        (0x1B8, &[1, 2][..], "Section(2)"),
        (0x1B9, &[4][..], "Section(2)"),
        (0xA1, &[0x30][..], "SharedSection(12320)"),
        (0x100, &[0, 0x30][..], "SharedSection(12288)"),
        (0x128, &[0, 0x30][..], "SharedSection(12288)"),
        (0x84, &[0, 5, 0, 0, 15][..], "Symbols(1280)"),
        (0x1B4, &[0, 0x40][..], "Overlap(1)"),
        (0x18A, &[1][..], "Overlap(0)"),
    ] {
        let bytes = with_part(without_resources(rt.alloc())?, offset, part);
        let shown = refused(rt.alloc(), &bytes, &leaves)?;
        assert_eq!(rt; shown.as_str(), text);
    }
    Ok(())
}

/// Two entries at 0x200 in the file, at the RVA 0x1000: the data of the first are 0x100 bytes in a section, those of the second are
/// five bytes after all sections.
fn with_debug_data(alloc: Global) -> Result<Vec<u8>, Fail> {
    let mut bytes = without_resources(alloc)?;
    put(
        &mut bytes,
        &[
            (0x130, &[0, 0x10, 0, 0, 56]),
            (0x210, &[0, 1, 0, 0]),
            (0x218, &[0, 5, 0, 0]),
            (0x22C, &[5, 0, 0, 0]),
            (0x234, &[0, 6, 0, 0]),
            (0x600, b"PDB70"),
        ],
    );
    Ok(bytes)
}

/// The pointer to the data after the sections moves with them, by the size of the new section, and no other.
#[test]
fn pointers_of_debug_data_move(rt: HostRuntime) -> Result<(), Fail> {
    let bytes = with_debug_data(rt.alloc())?;
    let mut out = vec![in rt.alloc(); OLD; LENGTH + 0x200]?;
    let leaves = [resource(1, &CONTENT)];
    write_edited(&bytes, &header_of(&bytes)?, &list(&leaves), &mut out)?;
    assert_eq!(rt; &out[0x200..0x234], &bytes[0x200..0x234]);
    assert_eq!(rt; &out[0x234..0x238], [0, 8, 0, 0].as_slice());
    assert_eq!(rt; &out[0x238..0x600], &bytes[0x238..0x600]);
    assert_eq!(rt; &out[0x800..], b"PDB70".as_slice());
    Ok(())
}

/// Refused at the entry whose data are only in part after those of the sections, or get an offset of more than 32 bits; and at the
/// first entry, where they are not between the section headers and the data.
#[test]
fn debug_data_that_can_not_move(rt: HostRuntime) -> Result<(), Fail> {
    let leaves = [resource(1, &CONTENT)];
    // shows: pe_rewrite/src/room.rt require_debug DebugData
    for (offset, part, text) in [
        (0x210, &[1][..], "DebugData(512)"),
        (0x234, &[0, 0xFE, 0xFF, 0xFF][..], "DebugData(540)"),
        (0x130, &[0xF7, 1, 0, 0][..], "DebugData(503)"),
        (0x134, &[32, 4][..], "DebugData(512)"),
    ] {
        let bytes = with_part(with_debug_data(rt.alloc())?, offset, part);
        let shown = refused(rt.alloc(), &bytes, &leaves)?;
        assert_eq!(rt; shown.as_str(), text);
    }
    Ok(())
}

/// A new section after the two, and what follows the sections after it.
#[test]
fn bytes_of_a_new_section(rt: HostRuntime) -> Result<(), Fail> {
    let bytes = with_part(without_resources(rt.alloc())?, 0x84, &[0, 6]);
    let leaves = [resource(1, &CONTENT)];
    let header = header_of(&bytes)?;
    let mut out = vec![in rt.alloc(); OLD; LENGTH + 0x201]?;
    let found = edited_len(&bytes, &header, &list(&leaves))?;
    assert_eq!(rt; found, LENGTH + 0x200);
    let found = write_edited(&bytes, &header, &list(&leaves), &mut out)?;
    assert_eq!(rt; found, LENGTH + 0x200);
    let mut wanted = vec![in rt.alloc(); 0; 0x600]?;
    put(&mut wanted, &[(0, &bytes[..0x600])]);
    put(
        &mut wanted,
        &[
            (0x7E, &[3, 0]),
            (0x84, &[0, 8]),
            (0x98, &[0, 2]),
            (0xC8, &[0, 0x40]),
            (0x110, &[0, 0x30, 0, 0, 0x58, 1, 0, 0]),
            (
                0x1D0,
                b".rsrc\0\0\0\x58\x01\0\0\0\x30\0\0\0\x02\0\0\0\x06\0\0",
            ),
            (0x1F4, &[0x40, 0, 0, 0x40]),
        ],
    );
    assert_eq!(rt; &out[..0x600], wanted.as_slice());
    assert_eq!(rt; &out[0x658..0x758], CONTENT.as_slice());
    assert!(rt; out[0x758..0x800].iter().all(|byte| *byte == 0));
    assert_eq!(rt; &out[0x800..], b"after\xEE".as_slice());
    Ok(())
}

/// The resources that have no room in the last section get some there, and no section more.
#[test]
fn the_last_section_grows(rt: HostRuntime) -> Result<(), Fail> {
    let bytes = with_two_sections(rt.alloc())?;
    let leaves = [resource(1, &CONTENT), resource(2, &CONTENT)];
    let mut out = vec![in rt.alloc(); OLD; LENGTH + 0x200]?;
    let header = header_of(&bytes)?;
    let found = write_edited(&bytes, &header, &list(&leaves), &mut out)?;
    assert_eq!(rt; found, LENGTH + 0x200);
    assert_eq!(rt; &out[0x7E..0x80], [2, 0].as_slice());
    assert_eq!(rt;
        &out[0x1B0..0x1C0],
        b"\x88\x02\0\0\0\x20\0\0\0\x04\0\0\0\x04\0\0".as_slice()
    );
    assert_eq!(rt; &out[0x588..0x688], CONTENT.as_slice());
    assert_eq!(rt; &out[0x800..], b"after".as_slice());
    // With room in its data, but none in the image in memory, no byte is added.
    let short = with_part(with_two_sections(rt.alloc())?, 0xC8, &[0x57, 0x21]);
    let length = write_edited(&short, &header_of(&short)?, &list(&leaves[..1]), &mut out)?;
    assert_eq!(rt; length, LENGTH);
    assert_eq!(rt; &out[0xC8..0xCC], [0, 0x30, 0, 0].as_slice());
    Ok(())
}

/// Where the resources of an image with room for a section header go: in place, or into a new section, and then the data of the
/// old ones stay.
fn is_in_place(alloc: Global, bytes: &[u8]) -> Result<bool, Fail> {
    let mut out = vec![in alloc; OLD; LENGTH + 0x200]?;
    let leaves = [resource(1, &CONTENT)];
    let length = write_edited(bytes, &header_of(bytes)?, &list(&leaves), &mut out)?;
    if length == LENGTH {
        return Ok(true);
    }
    if length != LENGTH + 0x200 || out[0x7E] != bytes[0x7E] + 1 {
        return Err("no new section".into());
    }
    if out[0x200..0x600] != bytes[0x200..0x600] || &out[0x800..] != b"after".as_slice() {
        return Err("the old data have changed".into());
    }
    Ok(false)
}

/// Debug data stay where they are, in the resource section by their file offset or by their RVA.
#[test]
fn debug_data_in_the_resource_section(rt: HostRuntime) -> Result<(), Fail> {
    for (rva, pointer, in_place) in [
        ([0x80, 0x11], [0x80, 3], true),
        ([0, 0], [0xFB, 3], true),
        ([0, 0], [0xFC, 3], false),
        ([0, 0], [0, 5], false),
        ([0, 0], [0, 6], true),
        ([0, 0x21], [0, 5], false),
        ([0, 0x21], [0, 0], false),
        // The five bytes end where the section starts in memory, or after that; or start where it ends.
        ([0xFB, 0x1F], [0x80, 3], true),
        ([0xFC, 0x1F], [0x80, 3], false),
        ([0, 0x30], [0, 6], true),
    ] {
        let mut bytes = with_part(with_two_sections(rt.alloc())?, 0xCC, &[0, 2]);
        put(
            &mut bytes,
            &[
                (0x130, &[0, 0x10, 0, 0, 28]),
                (0x210, &[5, 0, 0, 0]),
                (0x214, &rva),
                (0x216, &[0, 0]),
                (0x218, &pointer),
                (0x21A, &[0, 0]),
            ],
        );
        assert_eq!(rt; is_in_place(rt.alloc(), &bytes)?, in_place);
    }
    // The entries themselves: after the section headers; before the section, 17 of them; 19, of which the last reaches into it.
    for (rva, size, in_place) in [
        ([0xE4, 1], [28, 0], true),
        ([0, 0x10], [0xF0, 1], true),
        ([0, 0x10], [0x14, 2], false),
    ] {
        let mut bytes = with_part(with_two_sections(rt.alloc())?, 0x200, &[0; 0x200]);
        put(
            &mut bytes,
            &[(0xCC, &[0, 2]), (0x130, &rva), (0x134, &size)],
        );
        let leaves = [resource(1, &CONTENT)];
        let length = edited_len(&bytes, &header_of(&bytes)?, &list(&leaves))?;
        assert_eq!(rt; length == LENGTH, in_place);
    }
    Ok(())
}

/// The resources do not grow over a section that has no data, `.bss` at the RVA 0x3000.
#[test]
fn a_section_without_data_is_not_covered(rt: HostRuntime) -> Result<(), Fail> {
    let content = vec![in rt.alloc(); 0x5A; 5120]?;
    let leaves = [resource(1, &content)];
    for (address, room) in [(0x30, "NoHeaderRoom(504)"), (0x40, "")] {
        let mut bytes = with_two_sections(rt.alloc())?;
        bytes.resize(0x2400, 0)?;
        put(
            &mut bytes,
            &[
                (0x7E, &[3, 0]),
                (0xC8, &[0, 0x50]),
                (0x1B8, &[0, 0x20]),
                (0x1D0, b".bss\0\0\0\0\0\x10\0\0\0"),
                (0x1DD, &[address]),
            ],
        );
        if room.is_empty() {
            let length = edited_len(&bytes, &header_of(&bytes)?, &list(&leaves))?;
            assert_eq!(rt; length, 0x2400);
        } else {
            let shown = refused(rt.alloc(), &bytes, &leaves)?;
            assert_eq!(rt; shown.as_str(), room);
        }
    }
    Ok(())
}

/// Without a resource directory a section at the RVA 0 has no resources: they go into a new one.
#[test]
fn a_section_at_rva_0_stays(rt: HostRuntime) -> Result<(), Fail> {
    let mut bytes = without_resources(rt.alloc())?;
    put(
        &mut bytes,
        &[
            (0xA0, &[0, 0x20]),
            (0x18C, &[0, 0]),
            (0x200, b"IMPORTANT DATA"),
        ],
    );
    assert!(rt; !is_in_place(rt.alloc(), &bytes)?);
    Ok(())
}

/// Not loaded: debug data at the RVA 0 share no byte of memory with the section, however many they are.
#[test]
fn debug_data_that_are_not_loaded(rt: HostRuntime) -> Result<(), Fail> {
    let mut bytes = with_part(with_two_sections(rt.alloc())?, 0xCC, &[0, 2]);
    bytes.resize(0x3605, 0)?;
    put(
        &mut bytes,
        &[
            (0x130, &[0, 0x10, 0, 0, 28]),
            (0x210, &[0, 0x30, 0, 0, 0, 0, 0, 0, 5, 6, 0, 0]),
        ],
    );
    let leaves = [resource(1, &CONTENT)];
    let length = edited_len(&bytes, &header_of(&bytes)?, &list(&leaves))?;
    assert_eq!(rt; length, 0x3605);
    Ok(())
}

/// A block of base relocations of this size with one, for the page of this number of 256 bytes.
fn block_of(page: u8, size: u8, relocation: [u8; 2]) -> [u8; 12] {
    [
        0,
        page,
        0,
        0,
        size,
        0,
        0,
        0,
        relocation[0],
        relocation[1],
        0,
        0,
    ]
}

/// Resources are not written over what a base relocation changes: the table, at the RVA 0x1000, has a block with one.
#[test]
fn base_relocations_in_the_resource_section(rt: HostRuntime) -> Result<(), Fail> {
    for (page, size, relocation, in_place) in [
        // DIR64 (10) of 8 bytes, HIGHLOW (3) of 4, ABSOLUTE (0) of none.
        (0x20, 12, [0, 0xA1], false),
        (0x20, 12, [0xFC, 0x3F], false),
        (0x20, 12, [0, 1], true),
        (0x10, 12, [0, 0xA1], true),
        (0x10, 12, [0xF8, 0xAF], true),
        (0x10, 12, [0xF9, 0xAF], false),
        (0x10, 12, [0xFC, 0x3F], true),
        (0x10, 12, [0xFD, 0x3F], false),
        (0x30, 12, [0, 0xA0], true),
        // HIGH (1) and LOW (2) of 2; LOONGARCH64_MARK_LA (8) of 16.
        (0x10, 12, [0xFE, 0x1F], true),
        (0x10, 12, [0xFF, 0x2F], false),
        (0x10, 12, [0xF0, 0x8F], true),
        (0x10, 12, [0xF1, 0x8F], false),
        // The block ends after the table.
        (0x10, 14, [0, 0xA1], false),
    ] {
        let block = block_of(page, size, relocation);
        let mut bytes = with_part(with_two_sections(rt.alloc())?, 0xCC, &[0, 2]);
        put(
            &mut bytes,
            &[(0x128, &[0, 0x10, 0, 0, 12]), (0x200, &block)],
        );
        assert_eq!(rt; is_in_place(rt.alloc(), &bytes)?, in_place);
    }
    Ok(())
}

/// IA64_IMM64 (9) changes a bundle that starts before its RVA, at a multiple of 16: the section ends at the RVA 0x3008.
#[test]
fn base_relocations_of_bundles(rt: HostRuntime) -> Result<(), Fail> {
    for (relocation, in_place) in [([9, 0x90], false), ([9, 0x80], true), ([0x10, 0x90], true)] {
        let mut bytes = with_part(with_two_sections(rt.alloc())?, 0xCC, &[0, 2]);
        put(
            &mut bytes,
            &[
                (0xC8, &[0, 0x40]),
                (0x110, &[8]),
                (0x128, &[0, 0x10, 0, 0, 12]),
                (0x1B4, &[8]),
                (0x200, &block_of(0x30, 12, relocation)),
            ],
        );
        assert_eq!(rt; is_in_place(rt.alloc(), &bytes)?, in_place);
    }
    Ok(())
}

/// The table in the headers, at 0x40, which no section maps; and one at 0x3000, which is nowhere.
#[test]
fn base_relocations_in_the_headers(rt: HostRuntime) -> Result<(), Fail> {
    for (rva, in_place) in [([0x40, 0], false), ([0, 0x30], true)] {
        let mut bytes = with_part(with_two_sections(rt.alloc())?, 0xCC, &[0, 2]);
        put(
            &mut bytes,
            &[
                (0x40, &block_of(0x20, 12, [0, 0xA1])),
                (0x128, &rva),
                (0x12C, &[12]),
            ],
        );
        assert_eq!(rt; is_in_place(rt.alloc(), &bytes)?, in_place);
    }
    Ok(())
}

/// Nor do they go into a new section where one changes what is after the image: HIGHLOW of 4 bytes, of which the last is the first
/// there.
#[test]
fn base_relocations_after_the_image(rt: HostRuntime) -> Result<(), Fail> {
    let leaves = [resource(1, &CONTENT)];
    for (relocation, text) in [([0xFD, 0x3F], "SharedSection(4096)"), ([0xFC, 0x3F], "")] {
        let mut bytes = without_resources(rt.alloc())?;
        put(
            &mut bytes,
            &[
                (0x128, &[0, 0x10, 0, 0, 12]),
                (0x200, &block_of(0x20, 12, relocation)),
            ],
        );
        // shows: pe_rewrite/src/relocation.rt require_unrelocated SharedSection
        if text.is_empty() {
            assert!(rt; !is_in_place(rt.alloc(), &bytes)?);
        } else {
            let shown = refused(rt.alloc(), &bytes, &leaves)?;
            assert_eq!(rt; shown.as_str(), text);
        }
    }
    Ok(())
}

#[test]
fn texts_of_refusals(rt: HostRuntime) -> Result<(), Fail> {
    for (error, text) in [
        (
            RewriteError::Section(1),
            "data of section 1 start in the headers, end after the end of the file, or are not aligned to 512",
        ),
        (
            RewriteError::NoRoom {
                needed: 656,
                room: 512,
            },
            "resources of 0x290 bytes do not fit into the 0x200 bytes of their section's data, or into the image in memory",
        ),
    ] {
        let shown = format!(in rt.alloc(); "{error}")?;
        assert_eq!(rt; shown.as_str(), text);
    }
    Ok(())
}
