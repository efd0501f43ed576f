//! What stands beside the resources of an image, or in their section, when these are changed: each case is an image made by hand of
//! several sections. `tools/random_edits` draws such cases by chance, and reads what is written by a reader of its own.
#![allow(clippy::cloned_ref_to_slice_refs)]

mod running;

use running::{put, run, utf16, version_block, Folder};
use std::fs;

/// Data directories.
const RESOURCES: usize = 2;
const RELOCATIONS: usize = 5;
const DEBUG: usize = 6;
/// Where the section headers start, and the data of the first section.
const HEADERS: usize = 0x148;
const START: usize = 0x400;

/// A section: its name, its RVA, its size in memory and its bytes, which are padded to a multiple of 0x200.
type Section<'a> = (&'a [u8], u32, u32, &'a [u8]);

fn u32_at(bytes: &[u8], offset: usize) -> usize {
    u32::from_le_bytes(bytes[offset..offset + 4].try_into().unwrap()) as usize
}

fn words(words: &[u32]) -> Vec<u8> {
    words.iter().flat_map(|it| it.to_le_bytes()).collect()
}

/// An image of x64 with these sections and directories, each its index, RVA and size. It has no entry point.
fn image(sections: &[Section<'_>], directories: &[(usize, u32, u32)]) -> Vec<u8> {
    let mut bytes = vec![0; START];
    put(&mut bytes, 0, b"MZ");
    put(&mut bytes, 0x3C, &words(&[0x40]));
    put(&mut bytes, 0x40, b"PE\0\0");
    put(&mut bytes, 0x44, &[0x64, 0x86, sections.len() as u8, 0]);
    put(&mut bytes, 0x54, &[0xF0, 0, 0x22, 0]);
    put(&mut bytes, 0x58, &[0x0B, 2]);
    put(&mut bytes, 0x78, &words(&[0x1000, 0x200]));
    put(&mut bytes, 0x94, &words(&[START as u32]));
    put(&mut bytes, 0xC4, &words(&[16]));
    for (index, rva, size) in directories {
        put(&mut bytes, 0xC8 + 8 * index, &words(&[*rva, *size]));
    }
    for (index, (name, rva, size, content)) in sections.iter().enumerate() {
        let (row, pointer) = (HEADERS + 40 * index, bytes.len() as u32);
        let padded = content.len().next_multiple_of(0x200);
        put(&mut bytes, row, name);
        put(&mut bytes, row + 8, &words(&[*size, *rva, padded as u32, pointer]));
        bytes.extend_from_slice(content);
        bytes.resize(pointer as usize + padded, 0);
        put(&mut bytes, 0x90, &words(&[(rva + size).next_multiple_of(0x1000)]));
    }
    bytes
}

/// A resource section at an RVA, of so many bytes: one resource of type 10 with the id 1 in the language 0x409.
fn resources(rva: u32, content: &[u8], size: usize) -> Vec<u8> {
    let levels = [0, 0, 0, 1 << 16, 10, 1 << 31 | 24, 0, 0, 0, 1 << 16, 1, 1 << 31 | 48, 0, 0, 0, 1 << 16, 0x409, 72];
    let mut bytes = words(&levels);
    bytes.extend(words(&[rva + 88, content.len() as u32, 0, 0]));
    bytes.extend_from_slice(content);
    bytes.resize(bytes.len().max(size), 0);
    bytes
}

/// What `pe set-resource` writes of an image where the resource 10, `name` has this content.
fn edited(folder: &Folder, bytes: &[u8], name: &str, content: &[u8]) -> Vec<u8> {
    let (file, content) = (folder.file("a.exe", bytes), folder.file("content", content));
    let out = folder.0.join("b.exe").to_str().unwrap().to_string();
    assert_eq!(run(&["set-resource", "--replace", &file, &out, "10", name, &content]), Default::default());
    let which = ["extract", &out, "resource", "--type", "10", "--name", name, "-"];
    assert_eq!(run(&which).0.as_bytes(), fs::read(content).unwrap());
    fs::read(out).unwrap()
}

/// The offsets of the bytes of a section, by its header.
fn data_of(bytes: &[u8], index: usize) -> std::ops::Range<usize> {
    let row = HEADERS + 40 * index;
    let start = u32_at(bytes, row + 20);
    start..start + u32_at(bytes, row + 16)
}

/// A CodeView record in the section of the resources, after them: the debug entry leads to it as before, whether it has an RVA or not.
#[test]
fn debug_data_among_the_resources_stay() {
    let folder = Folder::new("edits-debug");
    let record = b"RSDS0123456789abcdef\x01\0\0\0a.pdb\0";
    for rva in [0, 0x2300] {
        let entry = words(&[0, 0, 0, 2, record.len() as u32, rva, 0x600 + 0x300]);
        let mut section = resources(0x2000, b"old", 0x400);
        put(&mut section, 0x300, record);
        let sections: [Section<'_>; 2] = [(b".rdata", 0x1000, 28, &entry), (b".rsrc", 0x2000, 0x400, &section)];
        let bytes = image(&sections, &[(RESOURCES, 0x2000, 91), (DEBUG, 0x1000, 28)]);
        for length in [10, 400_000] {
            let written = edited(&folder, &bytes, "1", &vec![b'z'; length]);
            let at = u32_at(&written, data_of(&written, 0).start + 24);
            assert_eq!(&written[at..at + record.len()], record, "{rva:x} {length}");
        }
    }
}

/// The data of the resources reach further than their pages, after which a section without data starts.
#[test]
fn resources_end_before_a_section_without_data() {
    let folder = Folder::new("edits-bss");
    let section = resources(0x2000, b"old", 0x2000);
    let sections: [Section<'_>; 3] =
        [(b".text", 0x1000, 4, b"code"), (b".rsrc", 0x2000, 0x200, &section), (b".bss", 0x3000, 0x1000, b"")];
    let bytes = image(&sections, &[(RESOURCES, 0x2000, 91)]);
    for (length, count) in [(0xF00, 3), (5120, 4)] {
        let written = edited(&folder, &bytes, "1", &vec![b'z'; length]);
        assert_eq!(written[0x46], count);
        let rows = (0..count as usize).map(|it| HEADERS + 40 * it);
        let ranges: Vec<_> = rows.map(|it| (u32_at(&written, it + 12), u32_at(&written, it + 8))).collect();
        assert!(ranges.windows(2).all(|it| it[0].0 + it[0].1 <= it[1].0), "{ranges:x?}");
    }
}

/// Without a resource directory its RVA is 0, and so is that of a section.
#[test]
fn a_section_at_rva_0_is_no_resource_section() {
    let folder = Folder::new("edits-zero");
    let sections: [Section<'_>; 2] = [(b".data", 0, 14, b"IMPORTANT DATA"), (b".text", 0x1000, 4, b"code")];
    let written = edited(&folder, &image(&sections, &[]), "1", b"new");
    assert_eq!(&written[data_of(&written, 0)][..14], b"IMPORTANT DATA");
    assert_eq!((written[0x46], u32_at(&written, 0xC8 + 8 * RESOURCES)), (3, 0x2000));
    // The new section goes again with what is in it.
    let (file, out) = (folder.file("c.exe", &written), folder.0.join("d.exe").to_str().unwrap().to_string());
    assert_eq!(run(&["remove-resource", &file, &out, "10", "1"]), Default::default());
    assert_eq!(fs::read(out).unwrap(), image(&sections, &[]));
}

/// A loader adds a number to the eight bytes at the RVA 0x2100: they are no content of a resource.
#[test]
fn what_base_relocations_change_stays() {
    let folder = Folder::new("edits-relocated");
    for (relocation, count) in [([0, 0xA1], 4), ([0, 1], 3)] {
        let section = resources(0x2000, b"old", 0x400);
        let block = [&words(&[0x2000, 12])[..], &relocation, &[0, 0]].concat();
        let sections: [Section<'_>; 3] =
            [(b".text", 0x1000, 4, b"code"), (b".rsrc", 0x2000, 0x400, &section), (b".reloc", 0x3000, 12, &block)];
        let bytes = image(&sections, &[(RESOURCES, 0x2000, 91), (RELOCATIONS, 0x3000, 12)]);
        let written = edited(&folder, &bytes, "1", &[b'z'; 0x150]);
        assert_eq!(written[0x46], count);
        let is_kept = written[data_of(&written, 1)] == bytes[data_of(&bytes, 1)];
        assert_eq!(is_kept, count == 4);
    }
}

/// 22 KB, of which as many resources as fit share 24,000 bytes: they are not written for each, where that is too much.
#[test]
fn contents_that_resources_share_are_bounded() {
    let folder = Folder::new("edits-shared");
    let made = |count: u32| {
        let mut tree =
            vec![0, 0, 0, 1 << 16, 10, 1 << 31 | 24, 0, 0, 0, 1 << 16, 1, 1 << 31 | 48, 0, 0, 0, count << 16];
        tree.extend((0..count).flat_map(|it| [it + 1, 64 + 8 * count]));
        tree.extend([0x1000 + 80 + 8 * count, 24_000, 0, 0]);
        let section = [words(&tree), vec![b'x'; 24_000]].concat();
        image(&[(b".rsrc", 0x1000, section.len() as u32, &section)], &[(RESOURCES, 0x1000, section.len() as u32)])
    };
    // 16 times the bytes that there are and 1 MiB, by 24,000: 715 contents.
    let written = edited(&folder, &made(700), "2", b"new");
    assert!(written.len() > 700 * 24_000, "{}", written.len());
    let bytes = made(720);
    let (file, content) = (folder.file("c.exe", &bytes), folder.file("new", b"new"));
    let out = folder.0.join("d.exe").to_str().unwrap().to_string();
    let (said, error, status) = run(&["set-resource", &file, &out, "10", "2", &content]);
    assert_eq!((said.as_str(), status, fs::metadata(&out).is_ok()), ("", 1, false));
    assert!(error.contains("contents of the resources, which share bytes, are too large"), "{error}");
    assert!(error.ends_with("with a copy for each they have more than 16 times the bytes that there are\n"), "{error}");
}

/// A block of version information, with the zeros up to a multiple of four that blocks after it need.
fn block(key: &str, value: &[u8], is_text: bool, children: &[Vec<u8>]) -> Vec<u8> {
    let mut block = version_block(key, value, is_text, children);
    block.resize(block.len().next_multiple_of(4), 0);
    block
}

/// Version information with blocks that few readers know: this version of the file, and these values of the string `OWN`.
fn version(number: u8, values: [&str; 2], more: &[Vec<u8>]) -> Vec<u8> {
    let inner = block(
        "Inner",
        &[1, 2, 3, 4],
        false,
        &[block("Deep", &[5, 6, 7, 8], false, &[block("Deeper", &[9, 9], false, &[])])],
    );
    let first = [block("OWN", &utf16(values[0]), true, &[inner.clone()]), block("binary", &[7, 0, 7, 0], false, &[])];
    let second = [block("Comments", &utf16("stays"), true, &[]), block("own", &utf16(values[1]), true, &[])];
    let tables = |it: &[Vec<u8>]| [block("040904b0", b"", true, &[it, more].concat())];
    let pairs = [block("Translation", &[9, 4, 0xB0, 4], false, &[]), block("Other", &[1, 2], false, &[])];
    let infos = [
        block("stringfileinfo", b"", true, &tables(&first)),
        block("Unknown", &[3, 4], false, &[inner]),
        block("StringFileInfo", b"", true, &tables(&second)),
        block("VarFileInfo", b"", true, &pairs),
    ];
    let fixed =
        [&words(&[0xFEEF_04BD, 0x1_0000, 0, u32::from(number) << 16, 7, 7]), &[0xA5; 28][..], &[1, 2, 3, 4]].concat();
    block("VS_VERSION_INFO", &fixed, false, &infos)
}

/// Numbers and strings change, whatever the case of their names. All else stays: a second block of strings, whose name may be in other
/// letters; another `Var`; a block that is not known, and what is in it or in a string; a binary string.
#[test]
fn version_information_keeps_its_blocks() {
    let folder = Folder::new("edits-version");
    let mut section = resources(0x2000, &version(2, ["a", "b"], &[]), 0x800);
    // The resource is of type 16.
    put(&mut section, 16, &[16]);
    let sections: [Section<'_>; 2] = [(b".text", 0x1000, 4, b"code"), (b".rsrc", 0x2000, 0x800, &section)];
    let file = folder.file("a.exe", &image(&sections, &[(RESOURCES, 0x2000, 0x800)]));
    let (out, content) = (folder.0.join("b.exe"), folder.0.join("content"));
    let (out, content) = (out.to_str().unwrap(), content.to_str().unwrap());
    let words = ["set-version", &file, out, "--file-version", "0.0.9.0", "--string", "Own=longer than it was"];
    assert_eq!(run(&words), Default::default());
    assert_eq!(run(&["extract", out, "resource", "--type", "16", "--name", "1", content]).2, 0);
    let wanted = version(9, ["longer than it was"; 2], &[block("FileVersion", &utf16("0.0.9.0"), true, &[])]);
    assert!(fs::read(content).unwrap() == wanted);
    // What is in the first block of strings is shown, though its name is in other letters.
    let said = run(&["show", out, "version", "--json"]).0;
    assert!(said.contains("\"OWN\":\"longer than it was\""), "{said}");
}
