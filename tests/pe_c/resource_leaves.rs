//! The leaves of a resource tree, one a step.

use super::made::*;
use super::steps::pe_c_next_resource_leaf;
use crate::resources::pe_c_resource_leaves;
use calls_directories::resources::leaves::{LeafWalk, ResourceLeaf, ResourceLeaves, ResourceName};
use pe_images::image as bytes_of;
use pe_resource::ResourceEntry;

/// The data of the resource directory, 142 bytes at offset 0x20 of 174: a type with the name `AB`, whose name 1 has two
/// languages, and a type with the id 3, which leads to a data entry. Each byte is where Microsoft's page puts it. The content
/// of the first language is the five bytes at offset 4; that of the second has an RVA that no section maps.
pub(crate) fn with_tree(alloc: Global) -> Result<Vec<u8>, AllocError> {
    bytes_of(
        alloc,
        0xAE,
        &[
            (0x04, b"abcde"),
            (0x2C, &[1, 0, 1, 0]),
            (0x30, &[0x88, 0, 0, 0x80, 0x20, 0, 0, 0x80]),
            (0x38, &[3, 0, 0, 0, 0x68, 0, 0, 0]),
            (0x4E, &[1, 0]),
            (0x50, &[1, 0, 0, 0, 0x38, 0, 0, 0x80]),
            (0x66, &[2, 0]),
            (0x68, &[0x09, 0x04, 0, 0, 0x58, 0, 0, 0]),
            (0x70, &[0x07, 0x04, 0, 0, 0x68, 0, 0, 0]),
            (0x78, &[0x04, 0x10, 0, 0, 5, 0, 0, 0, 0xE4, 0x04]),
            (0x88, &[0x00, 0x20, 0, 0, 6, 0, 0, 0]),
            (0xA8, &[2, 0, 0x41, 0, 0x42, 0]),
        ],
    )
}

/// An image whose resource directory has so many bytes, from offset 0x20 on.
pub(crate) fn of_size(size: u32) -> Image {
    having(image(X64), 2, directory(0x1020, size))
}

const NO_NAME: ResourceName = ResourceName {
    name: Range {
        offset: 1,
        length: 2,
    },
    id: 3,
    has_name: 4,
};

/// What `out` is before each call.
pub(crate) const NO_LEAF: ResourceLeaf = ResourceLeaf {
    resource_type: NO_NAME,
    name: NO_NAME,
    language: NO_NAME,
    content: Range {
        offset: 5,
        length: 6,
    },
    content_result: 7,
    rva: 8,
    size: 9,
    code_page: 10,
};

const NO_ENTRY: ResourceEntry = ResourceEntry {
    name_or_id: 0,
    offset_to_data_or_directory: 0,
};

/// A walk from these ranges.
pub(crate) fn walk(tree: Range, types: Range, names: Range, languages: Range) -> LeafWalk {
    LeafWalk {
        leaves: ResourceLeaves {
            tree,
            types,
            names,
            languages,
            resource_type: NO_ENTRY,
            name: NO_ENTRY,
        },
        kept: NO_SECTIONS,
    }
}

fn flat_name(name: ResourceName) -> [u64; 4] {
    let [offset, length] = of_range(name.name);
    [offset, length, u64::from(name.id), u64::from(name.has_name)]
}

/// Names and content of a leaf; the result of its content, RVA, size and code page.
fn flat(leaf: ResourceLeaf) -> ([[u64; 4]; 3], [u64; 2], [u32; 4]) {
    let names = [
        flat_name(leaf.resource_type),
        flat_name(leaf.name),
        flat_name(leaf.language),
    ];
    let numbers = [leaf.content_result, leaf.rva, leaf.size, leaf.code_page];
    (names, of_range(leaf.content), numbers)
}

/// The four ranges of a walk, and its two entries.
fn flat_walk(walk: LeafWalk) -> ([[u64; 2]; 4], [ResourceEntry; 2]) {
    let walk = walk.leaves;
    let ranges = [
        of_range(walk.tree),
        of_range(walk.types),
        of_range(walk.names),
        of_range(walk.languages),
    ];
    (ranges, [walk.resource_type, walk.name])
}

pub(crate) fn start(bytes: &[u8], image: &Image) -> (u32, LeafWalk) {
    let mut out = walk(range(1, 2), range(3, 4), range(5, 6), range(7, 8));
    let answer = pe_c_resource_leaves(&view(bytes, image, &sections()), &mut out.leaves);
    (answer, out)
}

fn step(bytes: &[u8], image: &Image, walk: &mut LeafWalk) -> (u32, ResourceLeaf) {
    let mut out = NO_LEAF;
    let answer = pe_c_next_resource_leaf(&view(bytes, image, &sections()), walk, &mut out);
    (answer, out)
}

#[test]
fn leaves_in_turn(rt: HostRuntime) -> Result<(), Fail> {
    let bytes = with_tree(rt.alloc())?;
    let image = of_size(0x8E);
    let (answer, mut walk) = start(&bytes, &image);
    assert_eq!(rt; answer, DONE);
    let ranges = [[0x20, 0x8E], [16, 16], [0, 0], [0, 0]];
    assert_eq!(rt; flat_walk(walk), (ranges, [NO_ENTRY, NO_ENTRY]));
    let (answer, leaf) = step(&bytes, &image, &mut walk);
    assert_eq!(rt; answer, DONE);
    let named = [0xAA, 4, 0, 1];
    let names = [named, [0, 0, 1, 0], [0, 0, 0x409, 0]];
    assert_eq!(rt; flat(leaf), (names, [4, 5], [DONE, 0x1004, 5, 1252]));
    let entries = [
        ResourceEntry::from(0x8000_0088_8000_0020),
        ResourceEntry::from(0x0000_0001_8000_0038),
    ];
    let ranges = [[0x20, 0x8E], [24, 8], [0x38, 0], [0x50, 8]];
    assert_eq!(rt; flat_walk(walk), (ranges, entries));
    let (answer, leaf) = step(&bytes, &image, &mut walk);
    assert_eq!(rt; answer, DONE);
    let names = [named, [0, 0, 1, 0], [0, 0, 0x407, 0]];
    assert_eq!(rt; flat(leaf), (names, OVER, [UNMAPPED, 0x2000, 6, 0]));
    let (answer, leaf) = step(&bytes, &image, &mut walk);
    assert_eq!(rt; answer, TREE_NOT_DIRECTORY);
    assert_eq!(rt; flat(leaf), flat(NO_LEAF));
    let over = ([OVER; 4], [NO_ENTRY, NO_ENTRY]);
    assert_eq!(rt; flat_walk(walk), over);
    let (answer, _) = step(&bytes, &image, &mut walk);
    assert_eq!(rt; answer, NOTHING);
    // Data past the end of the directory are none.
    let (answer, _) = start(&bytes, &of_size(0x8F));
    assert_eq!(rt; answer, RESOURCE_BOUNDS);
    Ok(())
}
