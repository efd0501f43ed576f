//! Version information by its blocks.

use crate::made::{with_resources, with_version_strings, SMALL};
use pe_c::{Error, Image, Mode, VersionBlock, VersionLanguage};

fn strict(bytes: &[u8]) -> Image<'_> {
    Image::parse(bytes, Mode::Strict).unwrap()
}

/// The first block of an image, which is all of its version information.
fn root<'a>(image: &Image<'a>) -> VersionBlock<'a> {
    image.version_blocks().unwrap().next().unwrap().unwrap()
}

/// All strings: their language, key and value.
fn strings(bytes: &[u8]) -> Vec<(Option<VersionLanguage>, String, String)> {
    let mut found = Vec::new();
    for info in root(&strict(bytes)).children().flatten() {
        for table in info.children().flatten() {
            for string in table.children().flatten() {
                found.push((table.language, string.key.to_string_lossy(), string.text().to_string_lossy()));
            }
        }
    }
    found
}

#[test]
fn strings_with_any_key() {
    let bytes = with_version_strings(&[("Mine", "own"), ("Größe", "7\u{1F600}"), ("Empty", "")]);
    let english = Some(VersionLanguage { language: 0x409, code_page: 1200 });
    let wanted = [("Mine", "own"), ("Größe", "7\u{1F600}"), ("Empty", "")];
    assert_eq!(strings(&bytes), wanted.map(|(key, value)| (english, key.to_string(), value.to_string())));
}

#[test]
fn the_first_block_is_all() {
    let bytes = with_resources();
    let image = strict(&bytes);
    let mut blocks = image.version_blocks().unwrap();
    let first = blocks.next().unwrap().unwrap();
    assert_eq!(first.key.to_string_lossy(), "VS_VERSION_INFO");
    assert_eq!((first.value.len(), first.is_text, first.language), (52, false, None));
    assert!(blocks.next().is_none() && blocks.next().is_none());
    let mut infos = first.children();
    let info = infos.next().unwrap().unwrap();
    assert_eq!(
        (info.key.to_string_lossy().as_str(), info.value, info.is_text),
        ("StringFileInfo", [].as_slice(), true)
    );
    assert!(infos.next().is_none());
    // The halves of the signature 0xFEEF04BD, the first of 13 numbers.
    assert_eq!(first.languages().next(), Some(VersionLanguage { language: 0x4BD, code_page: 0xFEEF }));
    assert_eq!(first.languages().count(), 13);
    assert!(strict(SMALL).version_blocks().unwrap().next().is_none());
}

/// The items of the one string table: keys and errors.
fn keys(bytes: &[u8]) -> Vec<Result<String, Error>> {
    let image = strict(bytes);
    let info = root(&image).children().next().unwrap().unwrap();
    let table = info.children().next().unwrap().unwrap();
    table.children().map(|string| string.map(|string| string.key.to_string_lossy())).collect()
}

/// An endless key costs its block; a wrong length ends the table, and one of 0 does so without an error.
#[test]
fn errors_of_blocks() {
    let bytes = with_version_strings(&[("AA", "x"), ("BB", "y"), ("CC", "z")]);
    let key = |text: &str| Ok(text.to_string());
    assert_eq!(keys(&bytes), [key("AA"), key("BB"), key("CC")]);
    // Each string has 16 bytes: a head of 6, the key at 6, the value at 12.
    let start = bytes.windows(6).position(|part| part == b"B\0B\0\0\0").unwrap() - 6;
    let having = |offset: usize, part: &[u8]| {
        let mut bytes = bytes.clone();
        bytes[start + offset..][..part.len()].copy_from_slice(part);
        keys(&bytes)
    };
    assert_eq!(having(6, b"BBBBBBBBBB"), [key("AA"), Err(Error::RESOURCE_STRING), key("CC")]);
    assert_eq!(having(0, &[5, 0]), [key("AA"), Err(Error::RESOURCE_STRING)]);
    assert_eq!(having(0, &[33, 0]), [key("AA"), Err(Error::SHORT)]);
    assert_eq!(having(0, &[0, 0]), [key("AA")]);
}
