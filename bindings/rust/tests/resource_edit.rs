//! Resources and version information that are changed, of images made by hand. What is written is read back by the walks of the
//! library, which are other code; its bytes are tested in the tests of the library for C.

use crate::made;

use pe_c::{sys, Error, Image, Mode, ResourceEditor, ResourceKey, VersionInfo};

fn strict(bytes: &[u8]) -> Image<'_> {
    Image::parse(bytes, Mode::Strict).unwrap()
}

/// Type, name and language of each leaf as texts and numbers, and its content.
fn leaves_of(image: &Image<'_>) -> Vec<(String, String, u16, Vec<u8>)> {
    let editor = ResourceEditor::of(image).unwrap();
    let row = |(place, content): (&(ResourceKey, ResourceKey, u16), &pe_c::ResourceContent<'_>)| {
        (place.0.to_string_lossy(), place.1.to_string_lossy(), place.2, content.bytes.to_vec())
    };
    editor.resources().map(row).collect()
}

fn row(kind: &str, name: &str, language: u16, content: &[u8]) -> (String, String, u16, Vec<u8>) {
    (kind.into(), name.into(), language, content.into())
}

#[test]
fn resources_are_set_and_removed() {
    let bytes = made::editable();
    let image = strict(&bytes);
    let mut editor = ResourceEditor::of(&image).unwrap();
    let (kind, one) = (ResourceKey::Id(24), ResourceKey::Id(1));
    assert_eq!(editor.languages(&kind, &one), [0x407]);
    assert_eq!(editor.languages(&kind, &ResourceKey::Id(2)), []);
    assert_eq!(editor.get(&(kind.clone(), one.clone(), 0x407)).unwrap().bytes, &b"<old/>"[..]);
    // In any order: names come before ids, and ids rise.
    editor.set(10.into(), "Z".into(), 0x409, vec![1, 2]);
    editor.set(10.into(), 7.into(), 0x409, &b""[..]);
    editor.set("b".into(), 1.into(), 0, &b"x"[..]);
    editor.set(kind.clone(), one.clone(), 0x407, &b"<new/>"[..]);
    editor.set(kind.clone(), one.clone(), 0x40C, &b"<fr/>"[..]);
    let written = editor.write().unwrap();
    let image = strict(&written);
    let rows = [
        row("b", "1", 0, b"x"),
        row("10", "Z", 0x409, &[1, 2]),
        row("10", "7", 0x409, b""),
        row("24", "1", 0x407, b"<new/>"),
        row("24", "1", 0x40C, b"<fr/>"),
    ];
    assert_eq!(leaves_of(&image), rows);
    // Names are looked up by the library's walk over the file, whose order is that of the file.
    let types: Vec<_> = image.resource_leaves().unwrap().unwrap().map(|it| it.unwrap().resource_type).collect();
    assert_eq!(types.len(), 5);
    // What was written is written again as it is.
    let mut editor = ResourceEditor::of(&image).unwrap();
    assert_eq!(editor.write().unwrap(), written);
    let place = (ResourceKey::Id(10), ResourceKey::from("Z"), 0x409);
    assert_eq!(editor.remove(&place).unwrap().bytes, &[1, 2][..]);
    assert_eq!(editor.remove(&place), None);
    let less = editor.write().unwrap();
    assert_eq!(leaves_of(&strict(&less)), [&rows[..1], &rows[2..]].concat());
}

#[test]
fn edits_are_refused() {
    let bytes = made::editable();
    let image = strict(&bytes);
    let mut editor = ResourceEditor::of(&image).unwrap();
    // As long as the section's data: with the directories it is too long for them, and they grow. Longer than the file.
    for length in [0x400, bytes.len() + 1] {
        editor.set(24.into(), 1.into(), 0x407, vec![b'x'; length]);
        let written = editor.write().unwrap();
        assert!(written.len() > bytes.len());
        let leaves = leaves_of(&strict(&written));
        assert_eq!(leaves.len(), 1);
    }
    let signed = made::with_certificates();
    let editor = ResourceEditor::of(&strict(&signed)).unwrap();
    assert_eq!(editor.resources().count(), 0);
    assert_eq!(editor.write(), Err(Error::EDIT_SIGNED));
    // The directory does not start its section.
    let elsewhere = made::with_resources();
    assert_eq!(ResourceEditor::of(&strict(&elsewhere)).unwrap().write(), Err(Error::EDIT_NO_HEADER_ROOM));
}

/// An image as a packer leaves it: its first section has no raw data, and a resource of 6 bytes is there at RVA 1010h. The resources of
/// `made::editable`, with this one more, are in the second section.
fn packed() -> Vec<u8> {
    let bytes = made::editable();
    let mut editor = ResourceEditor::of(&strict(&bytes)).unwrap();
    editor.set(10.into(), 7.into(), 0x409, &b"inside"[..]);
    let mut bytes = editor.write().unwrap();
    let leaves: Vec<_> = strict(&bytes).resource_leaves().unwrap().unwrap().map(|it| it.unwrap().rva).collect();
    let mut put = |at: usize, number: u32| bytes[at..at + 4].copy_from_slice(&number.to_le_bytes());
    // The directory, SizeOfImage and a checksum.
    put(0xD8, 0x2000);
    put(0x90, 0x3000);
    put(0x98, 1);
    for (rva, new) in leaves.iter().zip([0x1010, leaves[1] + 0x1000]) {
        let entry = (0x400..0x800).step_by(4).find(|it| bytes[*it..*it + 4] == rva.to_le_bytes()).unwrap();
        bytes[entry..entry + 4].copy_from_slice(&u32::to_le_bytes(new));
    }
    bytes[0x46] = 2;
    bytes.copy_within(0x148..0x170, 0x170);
    bytes[0x17C..0x180].copy_from_slice(&0x2000u32.to_le_bytes());
    bytes[0x148..0x150].copy_from_slice(b"UPX0\0\0\0\0");
    for (at, number) in [(0x150, 0x1000), (0x154, 0x1000), (0x158, 0), (0x15C, 0x400), (0x16C, 0xE000_0080u32)] {
        bytes[at..at + 4].copy_from_slice(&number.to_le_bytes());
    }
    bytes
}

#[test]
fn data_in_other_sections_stay_there() {
    let bytes = packed();
    let image = strict(&bytes);
    let (place, kind) = ((ResourceKey::Id(10), ResourceKey::Id(7), 0x409), ResourceKey::Id(24));
    let mut editor = ResourceEditor::of(&image).unwrap();
    assert_eq!(editor.get(&place).unwrap().bytes, &b""[..]);
    assert_eq!(editor.get(&(kind.clone(), 1.into(), 0x407)).unwrap().bytes, &b"<old/>"[..]);
    // In place, and at the end of the image.
    for length in [5, 0x1000] {
        editor.set(kind.clone(), 1.into(), 0x407, vec![b'x'; length]);
        let written = editor.write().unwrap();
        let image = strict(&written);
        assert_eq!(written.len() > bytes.len(), length == 0x1000);
        assert_eq!(image.info().checksum, image.checksum().unwrap().value);
        let leaves: Vec<_> = image.resource_leaves().unwrap().unwrap().map(|it| it.unwrap()).collect();
        assert_eq!((leaves.len(), leaves[0].rva, leaves[0].size), (2, 0x1010, 6));
        assert_eq!(leaves[1].content().unwrap(), vec![b'x'; length]);
    }
    // What is set is written as any other, and what is removed is gone.
    editor.set(10.into(), 7.into(), 0x409, &b"new"[..]);
    assert_eq!(leaves_of(&strict(&editor.write().unwrap()))[0], row("10", "7", 0x409, b"new"));
    let mut editor = ResourceEditor::of(&image).unwrap();
    editor.remove(&place);
    assert_eq!(leaves_of(&strict(&editor.write().unwrap())), [row("24", "1", 0x407, b"<old/>")]);
}

#[test]
fn shared_contents_are_written_up_to_a_bound() {
    let bytes = made::editable();
    let image = strict(&bytes);
    let content = vec![b'x'; 0x8_0000];
    let edited = |count: u16| {
        let mut editor = ResourceEditor::of(&image).unwrap();
        // Each one a part of the content, and so shared with the others.
        for id in 0..count {
            editor.set(10.into(), id.into(), 0x409, &content[usize::from(id)..]);
        }
        editor.write()
    };
    assert_eq!(leaves_of(&strict(&edited(40).unwrap())).len(), 41);
    assert_eq!(edited(60).err(), Some(Error::EDIT_CONTENTS));
    // Contents that are not shared are as large as they are.
    let mut editor = ResourceEditor::of(&image).unwrap();
    for id in 0..60u16 {
        editor.set(10.into(), id.into(), 0x409, content.clone());
    }
    assert!(editor.write().unwrap().len() > 60 * content.len());
}

#[test]
fn version_information_keeps_what_is_not_set() {
    let bytes = made::with_resources();
    let image = strict(&bytes);
    let leaf = image.resource_leaves().unwrap().unwrap().next().unwrap().unwrap();
    let mut version = VersionInfo::of(leaf.content().unwrap()).unwrap().unwrap();
    let before = (version.file_version().unwrap(), version.product_version().unwrap());
    let fixed = image.version().unwrap().unwrap();
    assert_eq!(before, (fixed.file_version(), fixed.product_version()));
    assert_eq!(version.set_string("ProductName", "other \u{1F600}"), Ok(1));
    assert_eq!(version.set_string("New", ""), Ok(1));
    version.set_product_version([9, 8, 7, 65535]);
    let content = version.to_bytes().unwrap();
    assert_eq!(content.len() % 4, 0);
    let read = VersionInfo::of(&content).unwrap().unwrap();
    assert_eq!(read, version);
    let strings: Vec<_> = read.strings().collect();
    let string = |name: &str, text: &str| ("040904b0".to_string(), name.to_string(), text.to_string());
    let wanted =
        [string("CompanyName", "Größe & Söhne \u{1F600}"), string("ProductName", "other \u{1F600}"), string("New", "")];
    assert_eq!(strings, wanted);
    assert_eq!((read.file_version().unwrap(), read.product_version().unwrap()), (before.0, [9, 8, 7, 65535]));
}

#[test]
fn strings_are_set_by_their_names_without_case() {
    let mut version = VersionInfo::new(0x409);
    for (name, text) in
        [("CompanyName", "A"), ("companyname", "B"), ("\u{4100}", "1"), ("\u{6100}", "2"), ("COMPANY", "3")]
    {
        assert_eq!(version.set_string(name, text), Ok(1));
    }
    // One string of the two names, as VerQueryValue finds it; code units that differ in a letter's byte alone are others.
    let read = VersionInfo::of(&version.to_bytes().unwrap()).unwrap().unwrap();
    let names: Vec<_> = read.strings().map(|it| (it.1, it.2)).collect();
    let wanted = [("CompanyName", "B"), ("\u{4100}", "1"), ("\u{6100}", "2"), ("COMPANY", "3")];
    assert_eq!(names, wanted.map(|it| (it.0.to_string(), it.1.to_string())));
    assert_eq!((read.string("COMPANYNAME").as_deref(), read.string("company").as_deref()), (Some("B"), Some("3")));
}

#[test]
fn version_information_is_made() {
    let mut version = VersionInfo::new(0x407);
    assert_eq!(version.file_version(), Some([0; 4]));
    version.set_file_version([1, 2, 3, 4]);
    // dwSignature, dwStrucVersion, dwFileVersionMS and LS after the head of 6 bytes and the key of 32.
    let content = version.to_bytes().unwrap();
    assert_eq!(content[40..56], [0xBD, 4, 0xEF, 0xFE, 0, 0, 1, 0, 2, 0, 1, 0, 4, 0, 3, 0]);
    assert_eq!(version.set_string("a\0b", ""), Err(Error::BLOCK_KEY));
    assert_eq!(version.set_string("a", "b\0"), Err(Error::BLOCK_TEXT));
    assert_eq!(version.set_string("a", &"x".repeat(32_767)), Ok(1));
    assert_eq!(version.to_bytes(), Err(Error::BLOCK_TOO_LONG));
    assert_eq!(VersionInfo::of(&[]), Ok(None));
    assert_eq!(VersionInfo::of(&[9, 0, 0, 0, 0, 0, 0, 0]), Err(Error::SHORT));
}

/// Numbers that differ, the same in each run.
struct Seeds(u64);

impl Seeds {
    fn below(&mut self, n: usize) -> usize {
        self.0 = self.0.wrapping_mul(0x5851_F42D_4C95_7F2D).wrapping_add(0x1405_7B7E_F767_814F);
        (self.0 >> 33) as usize % n
    }
}

/// A copy with a few bytes changed, and one in four truncated.
fn damaged(bytes: &[u8], seeds: &mut Seeds) -> Vec<u8> {
    let mut copy = bytes.to_vec();
    for _ in 0..=seeds.below(6) {
        // The headers and the first bytes of each section say most.
        let at = if seeds.below(2) == 0 { seeds.below(0x200.min(copy.len())) } else { seeds.below(copy.len()) };
        copy[at] = [0, 1, 0x7F, 0x80, 0xFF, seeds.below(256) as u8][seeds.below(6)];
    }
    if seeds.below(4) == 0 {
        copy.truncate(seeds.below(bytes.len() + 1));
    }
    copy
}

/// Whether the call for C writes an image with a resource of four bytes. After an error its room is as it was, and the length too but
/// where the room is too small.
fn edits_by_call(image: &Image<'_>, length: usize) -> bool {
    let name = sys::ResourceName { id: 10, ..Default::default() };
    let content = sys::Range { offset: 0, length: 4 };
    let record = sys::Resource { resource_type: name, name, content, language: 0, code_page: 0 };
    let (view, data) = (sys::View::of(image.bytes(), image.info(), &[], &[]), [1, 2, 3, 4]);
    let (mut room, mut out) = (vec![0xA5; length], 0xA5);
    // SAFETY: each pointer and length are those of one slice or one record, lent for the call; the room is apart from the others.
    let answer = unsafe {
        let (room, length) = (room.as_mut_ptr(), room.len());
        sys::pe_c_edit(&view, &record, 1, data.as_ptr(), 4, room, length, &mut out)
    };
    assert!(answer == 0 || room.iter().all(|it| *it == 0xA5));
    assert!(answer == 0 || if answer == sys::ROOM { out > length as u64 } else { out == 0xA5 });
    answer == 0
}

#[test]
fn damaged_images_are_edited_or_refused() {
    let bytes = made::editable();
    let mut editor = ResourceEditor::of(&strict(&bytes)).unwrap();
    editor.set(10.into(), "LONG".into(), 0x409, vec![7; 0x1000]);
    let roots = [bytes.clone(), editor.write().unwrap(), made::with_named_resources(), made::with_resources()];
    let (mut seeds, mut written, mut refused) = (Seeds(59), 0, 0);
    for number in 0..2_000 {
        let copy = damaged(&roots[number % roots.len()], &mut seeds);
        let Ok(image) = Image::parse(&copy, Mode::Permissive) else {
            refused += 1;
            continue;
        };
        edits_by_call(&image, copy.len() + 0x2000);
        edits_by_call(&image, seeds.below(copy.len() + 1));
        let Ok(mut editor) = ResourceEditor::of(&image) else {
            refused += 1;
            continue;
        };
        let length = [5, 0x300, 0x3000][number % 3];
        editor.set(10.into(), "NEW".into(), 0x409, vec![9; length]);
        let Ok(file) = editor.write() else {
            refused += 1;
            continue;
        };
        // What is written has the resources that were asked for.
        let image = Image::parse(&file, Mode::Permissive).unwrap();
        let again = ResourceEditor::of(&image).unwrap();
        assert!(again.resources().eq(editor.resources()), "{number}");
        written += 1;
    }
    assert!(written > 200 && refused > 200, "{written} written, {refused} refused");
}
