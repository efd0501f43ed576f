//! What `{:?}` prints: names as text, contents by their length, and of no record the file. Expected texts come from how the images
//! are made.

use crate::made;
use crate::made::*;
use crate::reading::{print_all, read_dump, read_others, Seen, MOST_PRINTED};
use pe_c::{Coff, Guid, Image, Layout, Mode, Name, ResourceKey, Te, Text, VersionInfo};

const MEBIBYTE: usize = 1 << 20;

fn permissive(bytes: &[u8]) -> Image<'_> {
    Image::parse(bytes, Mode::Permissive).unwrap()
}

/// The bytes, followed by others up to a mebibyte.
fn long(mut bytes: Vec<u8>) -> Vec<u8> {
    bytes.resize(MEBIBYTE, 0xCC);
    bytes
}

#[test]
fn nothing_prints_the_file() {
    let mut seen = Seen::printing(8);
    let own = [editable(), with_calls(), with_arm64_calls(), with_names_in_one_text(), with_late_names_in_one_text()];
    for bytes in made::all().into_iter().chain(others()).map(|(_, it)| it).chain(own).map(long) {
        for mode in [Mode::Strict, Mode::Permissive] {
            for layout in [Layout::File, Layout::Mapped] {
                seen.add(print_all(&bytes, mode, layout, 8));
            }
        }
    }
    for bytes in [object(), te_image(), object_with_names_in_one_text(2000, 2000, 2000)].map(long) {
        read_others(&bytes, &mut seen);
    }
    for bytes in [dump(), full_dump(X64), full_dump(ARM64)].map(long) {
        read_dump(&bytes, &mut seen);
    }
    assert!(seen.printed > 1000, "{seen:?}");
}

/// Names of 1 MiB of characters that are escaped, and 65,535 sections.
#[test]
fn long_names_and_many_sections_are_cut() {
    let mut made = Made::new(X64);
    made.size_of_image = 0x200_0000;
    let name = made.put(&[&vec![1; MEBIBYTE], &b"\0"[..]].concat());
    let hint = made.put(b"\0\0");
    made.content.extend(vec![1; MEBIBYTE]);
    made.put(b"\0");
    let lookups = made.put(&[u64::from(hint), 0].map(u64::to_le_bytes).concat());
    let directory = made.put_words(&[lookups, 0, 0, name, 0x8000, 0, 0, 0, 0, 0]);
    made.directory(IMPORTS, directory, 40);
    let (names, index) = (made.put_words(&[name]), made.put(&[0; 4]));
    let directory = made.next();
    made.put_words(&[0, 0, 0, name, 5, 1, 1, directory + 40, names, index, 0x1004]);
    made.directory(EXPORTS, directory, 44);
    let bytes = made.image();
    let image = permissive(&bytes);
    let export = image.exports().unwrap().next().unwrap().unwrap();
    let cut = format!("\"{}\".. <1048576 bytes>", "\\u{1}".repeat(256));
    assert_eq!(
        format!("{export:?}"),
        format!("Export {{ name: {cut}, rva: 4100, offset: Some(1028), index: 0, forwarder: None }}")
    );
    let import = image.imports().unwrap().next().unwrap().unwrap();
    assert_eq!((import.library.len(), import.import.name.unwrap().len()), (MEBIBYTE, MEBIBYTE));
    assert!(format!("{import:?}").len() <= MOST_PRINTED);

    let mut bytes = SMALL.to_vec();
    let start = usize::from(u16::from_le_bytes([bytes[0x3C], 0]));
    bytes[start + 6..][..2].copy_from_slice(&[0xFF, 0xFF]);
    bytes.resize(3 * MEBIBYTE, 1);
    let (image, object) = (permissive(&bytes), Coff::parse(&bytes[start + 4..]).unwrap());
    assert_eq!(image.sections().len(), 65_535);
    for shown in [format!("{image:?}"), format!("{object:?}")] {
        assert!(shown.len() <= MOST_PRINTED && shown.contains("<65519 others>]"), "{shown}");
    }
}

/// The text that `{:?}` prints of a name in UTF-8, as that of an export of `with_exports`.
fn shown_of(name: &[u8]) -> String {
    let mut made = Made::new(X64);
    let name = made.put(&[name, b"\0"].concat());
    let directory = made.next();
    made.put_words(&[0, 0, 0, name, 5, 0, 0, 0, 0, 0]);
    made.directory(EXPORTS, directory, 40);
    // A DLL has the name too: that of an import is read as UTF-8.
    let records = made.put_words(&[0x1000, 0, 0, name, 0x8000, 0, 0, 0, 0, 0]);
    made.directory(IMPORTS, records, 40);
    let bytes = made.image();
    let image = permissive(&bytes);
    let library = image.libraries().unwrap().next().unwrap().unwrap();
    let shown = format!("{library:?}");
    shown["Library { name: ".len()..shown.find(", raw: ").unwrap()].to_string()
}

#[test]
fn names_are_texts_with_escapes() {
    assert_eq!(shown_of(b"a.dll"), r#""a.dll""#);
    assert_eq!(shown_of(b"\"\\\n\x7F'"), r#""\"\\\n\u{7f}'""#);
    assert_eq!(shown_of("ä€".as_bytes()), "\"ä€\"");
    // 256 bytes are printed, and no part of a character.
    assert_eq!(shown_of(&[b'a'; 256]), format!("\"{}\"", "a".repeat(256)));
    assert_eq!(shown_of(&[b'a'; 257]), format!("\"{}\".. <257 bytes>", "a".repeat(256)));
    let euros = "€".repeat(86);
    assert_eq!(shown_of(euros.as_bytes()), format!("\"{}\".. <258 bytes>", "€".repeat(85)));
    let late = format!("{}€€", "a".repeat(253));
    assert_eq!(shown_of(late.as_bytes()), format!("\"{}€\".. <259 bytes>", "a".repeat(253)));
}

#[test]
fn names_in_utf_16_are_texts() {
    let text = |text: &str| format!("{:?}", Text(&text.encode_utf16().flat_map(u16::to_le_bytes).collect::<Vec<_>>()));
    assert_eq!(text("Ä\u{1}\"😀"), "Text(\"Ä\\u{1}\\\"😀\")");
    assert_eq!(text("a\0b"), "Text(\"a\")");
    assert_eq!(format!("{:?}", Text(&[0, 0xD8, b'a', 0, b'b'])), "Text(\"\u{FFFD}a\")");
    assert_eq!(text(&"a".repeat(128)), format!("Text(\"{}\")", "a".repeat(128)));
    assert_eq!(text(&"a".repeat(129)), format!("Text(\"{}\".. <258 bytes>)", "a".repeat(128)));
    // The pair that starts at the last unit is left out.
    let cut = format!("{}😀a", "a".repeat(127));
    assert_eq!(text(&cut), format!("Text(\"{}\".. <260 bytes>)", "a".repeat(127)));
    assert_eq!(format!("{:?}", ResourceKey::from("ICON")), "Name(\"ICON\")");
    assert_eq!(format!("{:?}", ResourceKey::from(16)), "Id(16)");
}

/// Names and object identifiers of signatures are cut too.
#[test]
fn long_names_of_signatures_are_cut() {
    let element = |tag: u8, content: &[u8]| {
        let length = (content.len() as u32).to_be_bytes();
        let octets = &length[content.len().leading_zeros() as usize / 8 - 4..];
        let long = if content.len() < 128 { vec![] } else { vec![0x80 + octets.len() as u8] };
        [&[tag], long.as_slice(), octets, content].concat()
    };
    // An attribute `CN` in a relative distinguished name.
    let name_of = |kind: &[u8]| {
        let value = element(0x0C, &[b'a'; 100_000]);
        element(0x30, &element(0x31, &element(0x30, &[element(6, kind), value].concat())))
    };
    let name = name_of(&[0x55, 4, 3]);
    assert_eq!(format!("{:?}", Name::from_der(&name)), format!("Name(\"CN={}\"..)", "a".repeat(253)));
    let (name, other) = (name_of(&[0x55, 4, 3]), name_of(&[0x2A; 50_000]));
    for name in [Name::from_der(&name), Name::from_der(&other)] {
        let attribute = name.attributes().next().unwrap();
        assert!(format!("{attribute:?} {:?}", attribute.as_ref().map(|it| it.kind())).len() <= MOST_PRINTED);
    }
}

#[test]
fn records_are_short() {
    let guid = "Guid({497B72F6-390A-44FC-878E-5A2D63B6CC4B})";
    assert_eq!(format!("{:?}", Guid(GUID)), guid);
    let bytes = with_debug();
    let image = permissive(&bytes);
    let key = format!("SymbolKey {{ guid: {guid}, age: 1, name_bytes: \"a.pdb\\0\" }}");
    assert_eq!(format!("{:?}", image.symbol_key().unwrap().unwrap()), key);
    assert_eq!(format!("{:?}", image.repro().unwrap().unwrap()), "Hash(<4 bytes>)");
    let part = image.pogo().unwrap().unwrap().entries().next().unwrap().unwrap();
    assert_eq!(format!("{part:?}"), "PogoEntry { rva: 4096, size: 16, name_bytes: \".text$mn\\0\" }");
    assert!(format!("{image:?}").ends_with("sections: [\".rdata\"], .. }"), "{image:?}");
    let section = format!("{:?}", image.sections()[0]);
    assert!(section.starts_with("Section { name: \".rdata\", virtual_size: 512, virtual_address: 4096,"), "{section}");

    let bytes = with_imports();
    let import = permissive(&bytes).imports().unwrap().next().unwrap().unwrap();
    let own = "Import { name: Some(\"Sleep\"), ordinal: 42, rva: 32768 }";
    assert!(format!("{import:?}")
        .starts_with(&format!("LibraryImport {{ library: \"KERNEL32.dll\", index: 0, import: {own},")));

    let bytes = with_certificates();
    let certificate = permissive(&bytes).certificates().next().unwrap().unwrap();
    assert_eq!(format!("{certificate:?}"), "Certificate { length: 9, revision: 512, kind: 2, body: <1 bytes> }");
    let bytes = te_image();
    assert!(format!("{:?}", Te::parse(&bytes).unwrap()).ends_with("sections: [\".text\"] }"));
    let bytes = with_functions();
    let image = permissive(&bytes);
    let functions = image.functions().unwrap().unwrap();
    let handler = functions.record(functions.get(0).unwrap()).unwrap().handler().unwrap();
    let left = bytes.len()
        - usize::try_from(functions.record(functions.get(0).unwrap()).unwrap().raw().handler_data.offset).unwrap();
    assert_eq!(format!("{handler:?}"), format!("Exception(4352, <{left} bytes>)"));
    let mut version = VersionInfo::new(0x409);
    version.set_string("CompanyName", &"a".repeat(10_000)).unwrap();
    assert!(format!("{version:?}")
        .starts_with("VersionInfo { root: Block { key: Text(\"VS_VERSION_INFO\"), is_text: false,"));
}
