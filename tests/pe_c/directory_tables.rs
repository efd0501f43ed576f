//! The fields of the export directory, and the directories of a resource tree with their entries.

use super::exports::with_exports;
use super::made::*;
use super::resource_leaves::{of_size, with_tree};
use super::steps::{pe_c_next_relocation, pe_c_next_relocation_block};
use crate::directories::{
    pe_c_directory_table, pe_c_export_directory, pe_c_next_resource_item, pe_c_next_tls_callback,
    pe_c_resource_directory_at, pe_c_resource_root, pe_c_tls, pe_c_tls_callbacks,
};
use calls_directories::directories::base_relocations::{Relocation, RelocationBlock};
use calls_directories::directories::tables::{ExportFields, ResourceDirectory, ResourceItem};
use calls_directories::resources::leaves::ResourceName;
use pe_directories::TlsDirectory;

/// The fields in the order of winnt.h.
type Fields = ([u32; 2], [u16; 2], [u32; 7]);

const NO_FIELDS: Fields = ([0x0909_0909; 2], [0x0909; 2], [0x0909_0909; 7]);

/// With the RVA and the size 0 the directory is absent.
fn fields_of(bytes: &[u8], address: u32) -> (u32, Fields) {
    let image = having(image(X64), 0, directory(address, u32::from(address != 0)));
    let mut out: ExportFields = filled();
    let answer = pe_c_export_directory(&view(bytes, &image, &sections()), &mut out);
    let ExportFields {
        characteristics,
        time_date_stamp,
        major_version,
        minor_version,
        name,
        base,
        number_of_functions,
        number_of_names,
        address_of_functions,
        address_of_names,
        address_of_name_ordinals,
    } = out;
    let rest = [
        name,
        base,
        number_of_functions,
        number_of_names,
        address_of_functions,
        address_of_names,
        address_of_name_ordinals,
    ];
    let versions = [major_version, minor_version];
    (answer, ([characteristics, time_date_stamp], versions, rest))
}

/// Each field at the offset of winnt.h.
#[test]
fn fields_of_the_export_directory(rt: HostRuntime) -> Result<(), Fail> {
    let mut bytes = with_exports(rt.alloc())?;
    put(
        &mut bytes,
        &[
            (0x10, &[0x44, 0x33, 0x22, 0x11, 0x88, 0x77, 0x66, 0x55]),
            (0x18, &[0x02, 0x01, 0x04, 0x03, 0x0C, 0x0B, 0x0A, 0x09]),
            (0x20, &[0x07, 0x80]),
        ],
    );
    let (stamps, versions) = ([0x1122_3344, 0x5566_7788], [0x0102, 0x0304]);
    let rest = [0x090A_0B0C, 0x8007, 3, 6, 0x1050, 0x1060, 0x1080];
    let want = (stamps, versions, rest);
    assert_eq!(rt; fields_of(&bytes, 0x1010), (DONE, want));
    assert_eq!(rt; fields_of(&bytes, 0), (NOTHING, NO_FIELDS));
    assert_eq!(rt; fields_of(&bytes, 0x1088).0, DONE);
    assert_eq!(rt; fields_of(&bytes, 0x1089), (SHORT, NO_FIELDS));
    Ok(())
}

/// The numbers of a directory, and the range of its entries.
type Numbers = ([u32; 2], [u16; 4], [u64; 2]);

const NO_DIRECTORY: Numbers = ([0x0909_0909; 2], [0x0909; 4], [0x0909_0909_0909_0909; 2]);

fn numbers_of(directory: ResourceDirectory) -> Numbers {
    let ResourceDirectory {
        characteristics,
        time_date_stamp,
        major_version,
        minor_version,
        number_of_named_entries,
        number_of_id_entries,
        entries,
    } = directory;
    let counts = [
        major_version,
        minor_version,
        number_of_named_entries,
        number_of_id_entries,
    ];
    let stamps = [characteristics, time_date_stamp];
    (stamps, counts, of_range(entries))
}

fn directory_at(bytes: &[u8], tree: Range, offset: u32) -> (u32, Numbers) {
    let mut out: ResourceDirectory = filled();
    let answer = pe_c_resource_directory_at(bytes, &tree, offset, &mut out);
    (answer, numbers_of(out))
}

fn first_of(bytes: &[u8], image: &Image) -> (u32, Numbers) {
    let mut out: ResourceDirectory = filled();
    let answer = pe_c_resource_root(&view(bytes, image, &sections()), &mut out);
    (answer, numbers_of(out))
}

#[test]
fn first_directories(rt: HostRuntime) -> Result<(), Fail> {
    let mut bytes = with_tree(rt.alloc())?;
    put(&mut bytes, &[(0x20, &[0x44, 0x33, 0x22, 0x11])]);
    let root = ([0x1122_3344, 0], [0, 0, 1, 1], [0x30, 16]);
    let read = |image: &Image| first_of(&bytes, image);
    assert_eq!(rt; read(&of_size(0x8E)), (DONE, root));
    assert_eq!(rt; read(&image(X64)), (NOTHING, NO_DIRECTORY));
    assert_eq!(rt; read(&of_size(0x8F)), (RESOURCE_BOUNDS, NO_DIRECTORY));
    Ok(())
}

/// The root and the directory of its first entry; the root is refused where its entries end past the tree by a byte.
#[test]
fn directories_of_a_tree(rt: HostRuntime) -> Result<(), Fail> {
    let mut bytes = with_tree(rt.alloc())?;
    put(
        &mut bytes,
        &[
            (0x20, &[0x44, 0x33, 0x22, 0x11, 0x88, 0x77, 0x66, 0x55]),
            (0x28, &[0x02, 0x01, 0x04, 0x03]),
        ],
    );
    let tree = range(0x20, 142);
    let root = (
        [0x1122_3344, 0x5566_7788],
        [0x0102, 0x0304, 1, 1],
        [0x30, 16],
    );
    assert_eq!(rt; directory_at(&bytes, tree, 0), (DONE, root));
    let second = ([0, 0], [0, 0, 0, 1], [0x50, 8]);
    assert_eq!(rt; directory_at(&bytes, tree, 0x20), (DONE, second));
    let cut = directory_at(&bytes, range(0x20, 0x1F), 0);
    assert_eq!(rt; cut, (SHORT, NO_DIRECTORY));
    Ok(())
}

/// Name, id and whether it has a name, the offset and whether it leads to a directory; and the walk.
type Item = ([u64; 2], [u32; 4], [u64; 2]);

fn item(bytes: &[u8], tree: Range, walk: &mut Range) -> (u32, Item) {
    let name = ResourceName {
        name: range(1, 2),
        id: 3,
        has_name: 4,
    };
    let mut out = ResourceItem {
        name,
        offset: 5,
        is_directory: 6,
    };
    let answer = pe_c_next_resource_item(bytes, &tree, walk, &mut out);
    let ResourceItem {
        name,
        offset,
        is_directory,
    } = out;
    let numbers = [name.id, name.has_name, offset, is_directory];
    (answer, (of_range(name.name), numbers, of_range(*walk)))
}

const NO_ITEM: ([u64; 2], [u32; 4]) = ([1, 2], [3, 4, 5, 6]);

/// A named entry that leads to a directory, and one with an id that leads to a data entry.
#[test]
fn entries_of_a_directory(rt: HostRuntime) -> Result<(), Fail> {
    let bytes = with_tree(rt.alloc())?;
    let tree = range(0x20, 142);
    let mut walk = range(0x30, 16);
    let named = ([0xAA, 4], [0, 1, 0x20, 1], [0x38, 8]);
    assert_eq!(rt; item(&bytes, tree, &mut walk), (DONE, named));
    let with_id = ([0, 0], [3, 0, 0x68, 0], [0x40, 0]);
    assert_eq!(rt; item(&bytes, tree, &mut walk), (DONE, with_id));
    let want = (NOTHING, (NO_ITEM.0, NO_ITEM.1, [0x40, 0]));
    assert_eq!(rt; item(&bytes, tree, &mut walk), want);
    // a name that ends past the tree by a byte costs its own entry alone
    let mut walk = range(0x30, 16);
    let want = (SHORT, (NO_ITEM.0, NO_ITEM.1, [0x38, 8]));
    assert_eq!(rt; item(&bytes, range(0x20, 141), &mut walk), want);
    assert_eq!(rt; item(&bytes, range(0x20, 141), &mut walk), (DONE, with_id));
    Ok(())
}

// ---- the TLS directory of an image, and its callbacks, one a step

/// What `out` is before each call.
pub(crate) const NONE: TlsDirectory = TlsDirectory {
    start_address_of_raw_data: 1,
    end_address_of_raw_data: 2,
    address_of_index: 3,
    address_of_callbacks: 4,
    size_of_zero_fill: 5,
    characteristics: 6,
};

/// Three numbers of a table of callbacks, and the directory at RVA 0x1018. The image base is 0x1_4000_0000.
fn with_tls(alloc: Global) -> Result<Vec<u8>, AllocError> {
    words(
        alloc,
        &[
            0x40002000, 1, 0x40002010, 1, 0, 0, 0x40001040, 1, 0x40001048, 1, 0x40001050, 1,
            0x40001000, 1, 12, 0x00300000,
        ],
    )
}

fn of_tls(image: Image) -> Image {
    having(image, 9, directory(0x1018, 40))
}

fn read(bytes: &[u8], image: &Image) -> (u32, TlsDirectory) {
    let mut out = NONE;
    let answer = pe_c_tls(&view(bytes, image, &sections()), &mut out);
    (answer, out)
}

#[test]
fn directories_of_both_widths(rt: HostRuntime) -> Result<(), Fail> {
    let bytes = with_tls(rt.alloc())?;
    let wide = of_tls(image(X64));
    let want = TlsDirectory {
        start_address_of_raw_data: 0x1_4000_1040,
        end_address_of_raw_data: 0x1_4000_1048,
        address_of_index: 0x1_4000_1050,
        address_of_callbacks: 0x1_4000_1000,
        size_of_zero_fill: 12,
        characteristics: 0x0030_0000,
    };
    assert_eq!(rt; read(&bytes, &wide), (DONE, want));
    let narrow = Image { width: 32, ..wide };
    let want = TlsDirectory {
        start_address_of_raw_data: 0x4000_1040,
        end_address_of_raw_data: 1,
        address_of_index: 0x4000_1048,
        address_of_callbacks: 1,
        size_of_zero_fill: 0x4000_1050,
        characteristics: 1,
    };
    assert_eq!(rt; read(&bytes, &narrow), (DONE, want));
    assert_eq!(rt; read(&bytes, &image(X64)), (NOTHING, NONE));
    assert_eq!(rt; read(&bytes[..63], &wide), (SHORT, NONE));
    Ok(())
}

fn callbacks(bytes: &[u8], image: &Image, address_of_callbacks: u64) -> (u32, [u64; 2]) {
    let tls = TlsDirectory {
        address_of_callbacks,
        ..NONE
    };
    let mut out = untouched();
    let answer = pe_c_tls_callbacks(&view(bytes, image, &sections()), &tls, &mut out);
    (answer, of_range(out))
}

#[test]
fn tables_of_callbacks(rt: HostRuntime) -> Result<(), Fail> {
    let bytes = with_tls(rt.alloc())?;
    let image = of_tls(image(X64));
    assert_eq!(rt; callbacks(&bytes, &image, 0x1_4000_1008), (DONE, [8, 56]));
    assert_eq!(rt; callbacks(&bytes, &image, 0), (NOTHING, UNTOUCHED));
    let found = callbacks(&bytes, &image, 0x1_3FFF_FFFF);
    assert_eq!(rt; found, (DIRECTORY_VA_BELOW_BASE, UNTOUCHED));
    let found = callbacks(&bytes, &image, 0x1_4000_2000);
    assert_eq!(rt; found, (UNMAPPED, UNTOUCHED));
    // After the end of the bytes no number is left.
    assert_eq!(rt; callbacks(&bytes, &image, 0x1_4000_1041), (DONE, [65, 0]));
    Ok(())
}

fn step(bytes: &[u8], image: &Image, walk: [u64; 2]) -> (u32, u64, [u64; 2]) {
    let mut walk = range(walk[0], walk[1]);
    let mut out = 7;
    let answer = pe_c_next_tls_callback(&view(bytes, image, &[]), &mut walk, &mut out);
    (answer, out, of_range(walk))
}

#[test]
fn callbacks_in_turn(rt: HostRuntime) -> Result<(), Fail> {
    let bytes = with_tls(rt.alloc())?;
    let wide = image(X64);
    let found = step(&bytes, &wide, [0, 64]);
    assert_eq!(rt; found, (DONE, 0x1_4000_2000, [8, 56]));
    let found = step(&bytes, &wide, [8, 56]);
    assert_eq!(rt; found, (DONE, 0x1_4000_2010, [16, 48]));
    assert_eq!(rt; step(&bytes, &wide, [16, 48]), (NOTHING, 7, [16, 48]));
    let narrow = Image { width: 32, ..wide };
    let found = step(&bytes, &narrow, [8, 56]);
    assert_eq!(rt; found, (DONE, 0x4000_2010, [12, 52]));
    // The bytes end before the table does.
    assert_eq!(rt; step(&bytes, &narrow, [64, 0]), (SHORT, 7, OVER));
    assert_eq!(rt; step(&bytes, &wide, [57, 7]), (SHORT, 7, OVER));
    Ok(())
}

// ---- blocks of base relocations, one a step, and the relocations of a block

/// At offset 4: a block with two entries, and one with a HIGHADJ, its argument, and a HIGHADJ that has none.
pub(crate) fn two_blocks(alloc: Global) -> Result<Vec<u8>, AllocError> {
    let numbers = [0, 0x1000, 12, 0x3FFF_A008, 0x5000, 14, 0x8765_4010, 0x4020];
    words(alloc, &numbers)
}

#[test]
fn tables_of_blocks(rt: HostRuntime) -> Result<(), Fail> {
    let bytes = two_blocks(rt.alloc())?;
    for (address, size, want) in [
        (0x1004, 26, (DONE, [4, 26])),
        (0x1004, 29, (SHORT, UNTOUCHED)),
        (0, 0, (NOTHING, UNTOUCHED)),
    ] {
        let image = having(image(X64), 5, directory(address, size));
        let mut out = untouched();
        let answer = pe_c_directory_table(&view(&bytes, &image, &sections()), 5, &mut out);
        assert_eq!(rt; (answer, of_range(out)), want);
    }
    Ok(())
}

/// The result of a step, the page and the entries of the block, and what is left.
fn next_block(bytes: &[u8], walk: [u64; 2]) -> (u32, u32, [u64; 2], [u64; 2]) {
    let mut walk = range(walk[0], walk[1]);
    let mut out = RelocationBlock {
        entries: untouched(),
        page_rva: 7,
        spare: 0,
    };
    let answer = pe_c_next_relocation_block(bytes, &mut walk, &mut out);
    (answer, out.page_rva, of_range(out.entries), of_range(walk))
}

#[test]
fn blocks_in_turn(rt: HostRuntime) -> Result<(), Fail> {
    let bytes = two_blocks(rt.alloc())?;
    let found = next_block(&bytes, [4, 26]);
    assert_eq!(rt; found, (DONE, 0x1000, [12, 4], [16, 14]));
    let found = next_block(&bytes, [16, 14]);
    assert_eq!(rt; found, (DONE, 0x5000, [24, 6], [30, 0]));
    let found = next_block(&bytes, [30, 0]);
    assert_eq!(rt; found, (NOTHING, 7, UNTOUCHED, [30, 0]));
    for (walk, answer) in [([4, 7], SHORT), ([4, 11], DIRECTORY_BLOCK_TRUNCATED)] {
        assert_eq!(rt; next_block(&bytes, walk), (answer, 7, UNTOUCHED, OVER));
    }
    // A page and a size of 0 end the list, whatever follows.
    let zeros = words(rt.alloc(), &[0, 0, 0x1000, 8])?;
    let found = next_block(&zeros, [0, 16]);
    assert_eq!(rt; found, (NOTHING, 7, UNTOUCHED, [0, 16]));
    for (page, size) in [(0x1000, 0), (0x1000, 7), (0x1000, 9)] {
        let bytes = words(rt.alloc(), &[page, size, 0, 0])?;
        let found = next_block(&bytes, [0, 16]);
        assert_eq!(rt; found, (DIRECTORY_BLOCK_SIZE, 7, UNTOUCHED, OVER));
    }
    Ok(())
}

/// The result of a step, the relocation's RVA, kind and argument, and what is left.
fn next_relocation(bytes: &[u8], page_rva: u32, walk: [u64; 2]) -> (u32, [u64; 3], [u64; 2]) {
    let mut walk = range(walk[0], walk[1]);
    let mut out = Relocation {
        rva: 7,
        kind: 8,
        argument: 9,
    };
    let answer = pe_c_next_relocation(bytes, page_rva, &mut walk, &mut out);
    let fields = [out.rva, u64::from(out.kind), u64::from(out.argument)];
    (answer, fields, of_range(walk))
}

#[test]
fn relocations_in_turn(rt: HostRuntime) -> Result<(), Fail> {
    let bytes = two_blocks(rt.alloc())?;
    for (page, walk, want) in [
        (0x1000, [12, 4], (DONE, [0x1008, 10, 0], [14, 2])),
        (0x1000, [14, 2], (DONE, [0x1FFF, 3, 0], [16, 0])),
        (0x1000, [16, 0], (NOTHING, [7, 8, 9], [16, 0])),
        (0x5000, [24, 6], (DONE, [0x5010, 4, 0x8765], [28, 2])),
        (0x5000, [28, 2], (DIRECTORY_NO_ARGUMENT, [7, 8, 9], OVER)),
        (0x5000, [28, 1], (SHORT, [7, 8, 9], OVER)),
        (u32::MAX, [14, 2], (DONE, [0x1_0000_0FFE, 3, 0], [16, 0])),
    ] {
        assert_eq!(rt; next_relocation(&bytes, page, walk), want);
    }
    Ok(())
}
