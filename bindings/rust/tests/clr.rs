//! The CLR header of images, the root of their metadata, and its streams.

use crate::facts::as_loaded;
use crate::made::*;
use pe_c::{sys, Directory, Error, Image, Layout, MetadataStream, Mode};

fn strict(bytes: &[u8]) -> Image<'_> {
    Image::parse(bytes, Mode::Strict).unwrap()
}

/// File offset of the metadata, which follow the header of 72 bytes, and of their two stream headers.
const METADATA: usize = OFFSET as usize + 72;
const FIRST: usize = METADATA + 32;
const SECOND: usize = FIRST + 12;

/// The image with other bytes at an offset.
fn changed(at: usize, part: &[u8]) -> Vec<u8> {
    let mut bytes = with_clr();
    bytes[at..at + part.len()].copy_from_slice(part);
    bytes
}

fn stream<'a>(name: &'a [u8], content: Option<&'a [u8]>, offset: u32, size: u32) -> MetadataStream<'a> {
    record!(MetadataStream::default(); name: name, content: content, offset: offset, size: size)
}

fn streams_of<'a>(image: &Image<'a>) -> Vec<Result<MetadataStream<'a>, Error>> {
    let mut streams = image.clr().unwrap().unwrap().metadata().unwrap().streams();
    let items = streams.by_ref().collect();
    assert!(streams.next().is_none());
    items
}

#[test]
fn clr_headers_are_read() {
    let directory = |virtual_address, size| Directory { virtual_address, size };
    let wanted = sys::ClrHeader {
        cb: 72,
        major_runtime_version: 2,
        minor_runtime_version: 5,
        metadata: directory(0x1048, 76),
        flags: 1,
        entry_point_token: 0x0600_0001,
        resources: directory(0x2000, 16),
        strong_name_signature: directory(0x2010, 128),
        code_manager_table: directory(0, 0),
        vtable_fixups: directory(0x2090, 8),
        export_address_table_jumps: directory(0, 0),
        managed_native_header: directory(0, 0),
    };
    let bytes = with_clr();
    let image = strict(&bytes);
    assert_eq!(image.clr().unwrap().unwrap().header(), &wanted);
    assert!(strict(&with_debug()).clr().unwrap().is_none());
    let metadata = image.clr().unwrap().unwrap().metadata().unwrap();
    assert_eq!((metadata.version(), metadata.version_bytes), ("v4.0.30319", &b"v4.0.30319\0\0"[..]));
    assert_eq!((metadata.major_version, metadata.minor_version, metadata.flags), (1, 1, 0));
    assert_eq!(metadata.bytes, &bytes[METADATA..METADATA + 76]);
}

#[test]
fn metadata_streams_are_read() {
    let tables = stream(b"#~", Some(b"\0TABLES\0"), 0x40, 8);
    let strings = stream(b"#Strings", None, 0x48, 5);
    let bytes = with_clr();
    let image = strict(&bytes);
    assert_eq!(streams_of(&image), [Ok(tables), Ok(strings)]);
    let memory = as_loaded(&image);
    let module = Image::parse_as(&memory, Mode::Strict, Layout::Mapped).unwrap();
    assert_eq!(streams_of(&module), [Ok(tables), Ok(strings)]);
    // one byte less, and the second stream ends where the metadata do
    let inside = stream(strings.name, Some(b"\0Aa\0"), strings.offset, 4);
    assert_eq!(streams_of(&strict(&changed(SECOND + 4, &[4]))), [Ok(tables), Ok(inside)]);
    // an empty stream at the end is there, one after it is not
    let empty = |offset: u32, content| stream(strings.name, content, offset, 0);
    let of = |offset| changed(SECOND, &[offset, 0, 0, 0, 0]);
    assert_eq!(streams_of(&strict(&of(76)))[1], Ok(empty(76, Some(b""))));
    assert_eq!(streams_of(&strict(&of(77)))[1], Ok(empty(77, None)));
    // the number of streams follows the version text and the flags
    assert_eq!(streams_of(&strict(&changed(METADATA + 30, &[0]))), []);
    assert_eq!(streams_of(&strict(&changed(METADATA + 30, &[1]))), [Ok(tables)]);
}

/// The second stream of an image, by its name.
fn second(bytes: &[u8]) -> Result<Vec<u8>, Error> {
    let image = strict(bytes);
    let streams = streams_of(&image);
    assert_eq!(streams.len(), 2);
    streams[1].map(|it| it.name.to_vec())
}

#[test]
fn damaged_streams_are_refused() {
    // the metadata's size is at 12: they end after 7 bytes of the second header, in its name, and in the zeros after that
    assert_eq!(second(&changed(OFFSET as usize + 12, &[44 + 7])), Err(Error::SHORT));
    assert_eq!(second(&changed(OFFSET as usize + 12, &[44 + 16])), Err(Error::DIRECTORY_STREAM_NAME));
    assert_eq!(second(&changed(OFFSET as usize + 12, &[44 + 17])), Err(Error::SHORT));
    assert_eq!(second(&changed(OFFSET as usize + 12, &[44 + 20])), Ok(b"#Strings".to_vec()));
    assert_eq!(Error::DIRECTORY_STREAM_NAME.number(), 306);
}

/// A name has at most 32 bytes with its zero.
#[test]
fn long_names_of_streams_are_refused() {
    let mut made = Made::new(X64);
    made.content = with_clr()[OFFSET as usize..SECOND + 8].to_vec();
    made.content.extend([b'n'; 32]);
    made.content.extend([0; 32]);
    made.content[12] = 116;
    made.directory(CLR, ADDRESS, 72);
    assert_eq!(second(&made.image()), Err(Error::DIRECTORY_STREAM_NAME));
    let last = SECOND - OFFSET as usize + 8 + 31;
    made.content[last] = 0;
    assert_eq!(second(&made.image()), Ok(vec![b'n'; 31]));
}

#[test]
fn damaged_clr_headers_are_refused() {
    let refused = |bytes: &[u8]| strict(bytes).clr().unwrap_err();
    assert_eq!(refused(&changed(OFFSET as usize, &[71])), Error::DIRECTORY_CLR_HEADER_SIZE);
    assert_eq!(Error::DIRECTORY_CLR_HEADER_SIZE.number(), 305);
    assert_eq!(refused(&with_clr()[..OFFSET as usize + 71]), Error::SHORT);
    let mut made = Made::new(X64);
    made.directory(CLR, 0x9000, 72);
    assert_eq!(refused(&made.image()), Error::UNMAPPED);
    let refused = |bytes: &[u8]| strict(bytes).clr().unwrap().unwrap().metadata().unwrap_err();
    // the metadata's RVA, their size, the signature, the length of the version text
    assert_eq!(refused(&changed(OFFSET as usize + 8, &[0, 0x90])), Error::UNMAPPED);
    assert_eq!(refused(&changed(OFFSET as usize + 12, &[0, 0x10])), Error::SHORT);
    assert_eq!(refused(&changed(OFFSET as usize + 12, &[15])), Error::SHORT);
    assert_eq!(refused(&changed(METADATA, b"BSJA")), Error::BAD_MAGIC);
    assert_eq!(refused(&changed(METADATA + 12, &[57])), Error::SHORT);
    assert_eq!(refused(&changed(METADATA + 12, &[0xFF; 4])), Error::SHORT);
}
