//! Signatures: one that osslsigncode made, field by field at the offsets that `openssl asn1parse` prints, elements that are
//! refused, times, and what hostile elements cost.

use crate::errors::refused;
use crate::signature_bytes::signature;
use pe_pkcs7::{
    Attribute, ContentInfo, Element, Elements, Extension, NameAttributes, SignatureError,
    SignedData, Time, ToBeSigned, algorithm_number, element_at,
};
use std::test::Fail;

/// An element by what `openssl asn1parse` prints of it: its offset, the length of its header (`hl=`) and of its content
/// (`l=`).
fn at(tag: u8, offset: usize, header: usize, length: usize) -> Element {
    Element {
        tag,
        offset,
        content: offset + header,
        end: offset + header + length,
    }
}

fn tag_at(offset: usize, expected: u8, found: u8) -> SignatureError {
    SignatureError::Tag {
        offset,
        expected,
        found,
    }
}

fn trailing_at(offset: usize, left: usize) -> SignatureError {
    SignatureError::Trailing { offset, left }
}

fn past_parent(offset: usize, length: u32, left: usize) -> SignatureError {
    SignatureError::PastParent {
        offset,
        length,
        left,
    }
}

fn length_octets(offset: usize, octets: u8) -> SignatureError {
    SignatureError::LengthOctets { offset, octets }
}

/// The key usage of an extension whose value is these octets, an `OCTET STRING`.
fn key_usage(bytes: &[u8]) -> std::result::Result<Option<u16>, SignatureError> {
    let extension = Extension {
        kind: at(6, 0, 0, 0),
        critical: None,
        value: element_at(bytes, 0)?,
    };
    extension.key_usage(bytes)
}

#[test]
fn key_usages(rt: HostRuntime) -> Result<(), Fail> {
    for (bytes, want) in [
        (&b"\x04\x04\x03\x02\x02\x84"[..], Some(0x84)),
        (b"\x04\x04\x03\x02\x00\x85", Some(0x85)),
        (b"\x04\x04\x03\x02\x07\x80", Some(0x80)),
        (b"\x04\x05\x03\x03\x07\x84\x80", Some(0x8084)),
        // Unused bits that are set, and more than an octet has.
        (b"\x04\x04\x03\x02\x07\x84", None),
        (b"\x04\x04\x03\x02\x03\x84", None),
        (b"\x04\x05\x03\x03\x07\x80\xC0", None),
        (b"\x04\x04\x03\x02\xFF\x84", None),
        (b"\x04\x04\x03\x02\x08\x00", None),
        (b"\x04\x05\x03\x03\x08\x80\x00", None),
        // No octet of bits, and three.
        (b"\x04\x03\x03\x01\x00", None),
        (b"\x04\x06\x03\x04\x00\x80\x80\x80", None),
    ] {
        assert_eq!(rt; key_usage(bytes)?, want);
    }
    Ok(())
}

/// The certificate of the signature, where the octet at `offset` is another.
fn certificate_with(
    mut bytes: Vec<u8>,
    offset: usize,
    octet: u8,
) -> std::result::Result<ToBeSigned, SignatureError> {
    bytes[offset] = octet;
    ToBeSigned::parse(&bytes, at(0x30, 174, 4, 256))
}

#[test]
fn what_stands_in_version_and_extensions(rt: HostRuntime) -> Result<(), Fail> {
    let tag = tag_at(180, 2, 4);
    assert!(rt; refused(certificate_with(signature(rt.alloc())?, 180, 4), tag));
    let trailing = trailing_at(182, 1);
    // Without its octet, an INTEGER and an OCTET STRING.
    let found = certificate_with(signature(rt.alloc())?, 181, 0);
    assert!(rt; refused(found, SignatureError::EmptyContent(180)));
    let mut bytes = signature(rt.alloc())?;
    bytes[180] = 4;
    assert!(rt; refused(certificate_with(bytes, 181, 0), trailing));
    let tag = tag_at(395, 0x30, 0x31);
    let found = certificate_with(signature(rt.alloc())?, 395, 0x31);
    assert!(rt; refused(found, tag));
    Ok(())
}

#[test]
fn refused_elements(rt: HostRuntime) -> Result<(), Fail> {
    let truncated = SignatureError::Truncated { offset: 3, left: 1 };
    assert!(rt; refused(element_at(b"\0\0\0\x04", 3), truncated));
    let none = SignatureError::Truncated { offset: 3, left: 0 };
    assert!(rt; refused(element_at(b"", 3), none));
    assert!(rt;
        refused(
            element_at(b"\0\0\0\x1F\x01\0", 3),
            SignatureError::TagNumber(3)
        )
    );
    let found = element_at(b"\0\0\0\x30\x80\0\0", 3);
    assert!(rt; refused(found, SignatureError::IndefiniteLength(3)));
    // `openssl asn1parse` prints EOC.
    for tag in [0x00, 0x20] {
        let found = element_at(&[0, 0, 0, tag, 0, 5, 0], 3);
        assert!(rt; refused(found, SignatureError::EndOfContents(3)));
    }
    // It prints BAD INTEGER, BAD OBJECT, BAD BOOLEAN, BAD ENUMERATED; `openssl pkey` refuses a key of such bits.
    for tag in [0x02, 0x06, 0x01, 0x0A, 0x03] {
        let found = element_at(&[0, 0, 0, tag, 0, 5, 0], 3);
        assert!(rt; refused(found, SignatureError::EmptyContent(3)));
    }
    let long = length_octets(3, 8);
    assert!(rt; refused(element_at(b"\0\0\0\x04\x88\x80\0\0\0\0\0\0\0", 3), long));
    let truncated = SignatureError::Truncated { offset: 3, left: 3 };
    assert!(rt; refused(element_at(b"\0\0\0\x04\x82\x01", 3), truncated));
    let found = element_at(b"\0\0\0\x04\x81\x01\0", 3);
    assert!(rt; refused(found, SignatureError::LengthForm(3)));
    let found = element_at(b"\0\0\0\x04\x82\0\x80", 3);
    assert!(rt; refused(found, SignatureError::LengthForm(3)));
    let past = past_parent(3, 2, 1);
    assert!(rt; refused(element_at(b"\0\0\0\x04\x02\0", 3), past));
    let past = past_parent(3, 0x12345678, 2);
    assert!(rt; refused(element_at(b"\0\0\0\x04\x84\x12\x34\x56\x78\0\0", 3), past));
    Ok(())
}

#[test]
fn lengths(rt: HostRuntime) -> Result<(), Fail> {
    let mut bytes = vec![in rt.alloc(); 0u8; 70_000]?;
    for (head, content) in [
        (&b"\x04\x00"[..], 0),
        (b"\x04\x7F", 127),
        (b"\x04\x81\x80", 128),
        (b"\x04\x81\xFF", 255),
        (b"\x04\x82\x01\x00", 256),
        (b"\x04\x82\xFF\xFF", 65_535),
        (b"\x04\x83\x01\x00\x00", 65_536),
    ] {
        for (slot, byte) in bytes.iter_mut().skip(5).zip(head.iter()) {
            *slot = *byte;
        }
        assert_eq!(rt; element_at(&bytes, 5)?, at(4, 5, head.len(), content));
    }
    Ok(())
}

#[test]
fn refused_fields(rt: HostRuntime) -> Result<(), Fail> {
    let whole = |bytes: &[u8]| element_at(bytes, 0);
    // A SEQUENCE with a SEQUENCE that is empty, with an INTEGER in place of the value, with a NULL after the value.
    let missing = b"\x30\x05\x06\x03\x55\x04\x03";
    let found = Attribute::parse(missing, whole(missing)?);
    assert!(rt; refused(found, SignatureError::Missing(7)));
    let other = b"\x30\x08\x06\x03\x55\x04\x03\x02\x01\x05";
    let tag = tag_at(7, 0x31, 2);
    assert!(rt; refused(Attribute::parse(other, whole(other)?), tag));
    let more = b"\x30\x09\x06\x03\x55\x04\x03\x31\x00\x05\x00";
    let trailing = trailing_at(9, 2);
    assert!(rt; refused(Attribute::parse(more, whole(more)?), trailing));
    // id-data, 1.2.840.113549.1.7.1.
    let data = b"\x30\x0F\x06\x09\x2A\x86\x48\x86\xF7\x0D\x01\x07\x01\xA0\x02\x05\x00";
    let info = ContentInfo::parse(data)?;
    let found = SignedData::parse(data, &info);
    assert!(rt; refused(found, SignatureError::ContentType(2)));
    // The parent of the attribute ends before its value does.
    let past = b"\x30\x07\x06\x03\x55\x04\x03\x31\x02\x05\x00";
    let error = past_parent(7, 2, 0);
    assert!(rt; refused(Attribute::parse(past, whole(past)?), error));
    Ok(())
}

/// A name of one attribute: the name in its `SEQUENCE`, the relative distinguished name in its `SET`.
#[test]
fn name_of_one_attribute(rt: HostRuntime) -> Result<(), Fail> {
    let bytes = b"\x30\x0B\x31\x09\x30\x07\x06\x03\x55\x04\x03\x0C\x00";
    let mut attributes = NameAttributes::parse(bytes, element_at(bytes, 0)?)?;
    let first = attributes.next().ok_or("no attribute")??;
    assert!(rt; first.starts_rdn && first.value == at(0x0C, 11, 2, 0));
    Ok(())
}

#[test]
fn texts(rt: HostRuntime) -> Result<(), Fail> {
    for (error, want) in [
        (
            length_octets(0x1A, 8),
            "length of the element at offset 0x1a has 8 octets, more than 4",
        ),
        (
            past_parent(0x1A, 7, 2),
            "element at offset 0x1a truncated: content of 7 bytes, 2 left",
        ),
        (
            tag_at(0x1A, 6, 0x30),
            "element at offset 0x1a has the tag 0x30, not 0x06",
        ),
        (
            trailing_at(0x1A, 2),
            "2 bytes after the last field, at offset 0x1a",
        ),
    ] {
        assert_eq!(rt; error.to_string(rt.alloc())?.as_str(), want);
    }
    Ok(())
}

/// The time in a text: an element with this tag, and one byte before it.
fn time(text: &[u8], tag: u8) -> std::result::Result<Time, SignatureError> {
    Time::parse(text, at(tag, 0, 1, text.len() - 1))
}

/// The octets that `openssl asn1parse -genstr OID:..` writes.
#[test]
fn older_algorithms(rt: HostRuntime) {
    // sha1WithRSA, 1.3.14.3.2.29; md2WithRSAEncryption, 1.2.840.113549.1.1.2; shaWithRSAEncryption, 1.3.14.3.2.15, which has none.
    for (octets, number) in [
        (b"\x2B\x0E\x03\x02\x1D".as_slice(), 220),
        (b"\x2A\x86\x48\x86\xF7\x0D\x01\x01\x02", 221),
        (b"\x2B\x0E\x03\x02\x0F", 0),
    ] {
        assert_eq!(rt; algorithm_number(octets), number);
    }
}

#[test]
fn times(rt: HostRuntime) -> Result<(), Fail> {
    for (text, tag, year) in [
        (&b" 491231235959Z"[..], 0x17, 2049),
        (b" 500101000000Z", 0x17, 1950),
        (b" 20500101000000Z", 0x18, 2050),
        (b" 20500101000000.5Z", 0x18, 2050),
        (b" 20500101000000.125Z", 0x18, 2050),
        (b" 20500101000000.05Z", 0x18, 2050),
    ] {
        assert_eq!(rt; time(text, tag)?.year, year);
    }
    for (text, tag) in [
        // Without seconds, with a zone, with another letter, with no digit, in the other form.
        (&b" 4912312359Z"[..], 0x17),
        (b" 491231235959+0100", 0x17),
        (b" 491231235959z", 0x17),
        (b" 4912312359:9Z", 0x17),
        (b" 20500101000000Z", 0x17),
        (b" 491231235959Z", 0x18),
        (b" 20500101000000.Z", 0x18),
        (b" 20500101000000,5Z", 0x18),
        (b" 20500101000000.xZ", 0x18),
        // A fraction whose last digit is 0.
        (b" 20240101000000.0Z", 0x18),
        (b" 20500101000000.50Z", 0x18),
        // Numbers that no time has.
        (b" 491331235959Z", 0x17),
        (b" 490031235959Z", 0x17),
        (b" 491232235959Z", 0x17),
        (b" 491200235959Z", 0x17),
        (b" 491231245959Z", 0x17),
        (b" 491231236059Z", 0x17),
        (b" 491231235960Z", 0x17),
        // A text.
        (b" 491231235959Z", 0x0C),
        (b" ", 0x17),
    ] {
        assert!(rt; refused(time(text, tag), SignatureError::BadTime(0)));
    }
    Ok(())
}

#[test]
fn a_million_empty_elements(rt: HostRuntime) -> Result<(), Fail> {
    let mut bytes = vec![in rt.alloc(); 0u8; 2_000_000]?;
    for slot in bytes.iter_mut().step_by(2) {
        *slot = 5;
    }
    let parent = at(0x30, 0, 0, bytes.len());
    let mut count = 0;
    for element in Elements::new(&bytes, parent) {
        assert_eq!(rt; element?.tag, 5);
        count += 1;
    }
    assert_eq!(rt; count, 1_000_000);
    Ok(())
}

#[test]
fn ten_thousand_deep(rt: HostRuntime) -> Result<(), Fail> {
    // Each SEQUENCE has four octets of header, and the others in it.
    let mut bytes = Vec::new(rt.alloc());
    for depth in 0..10_000u32 {
        let length = 4 * (9_999 - depth);
        if length < 256 {
            // The last ones would have shorter headers.
            break;
        }
        bytes.push(0x30)?;
        bytes.push(0x82)?;
        bytes.push((length >> 8) as u8)?;
        bytes.push((length & 0xFF) as u8)?;
    }
    let depth = bytes.len() / 4;
    while bytes.len() < 40_000 {
        bytes.push(0)?;
    }
    let mut inner = element_at(&bytes, 0)?;
    let mut count = 1;
    while inner.tag == 0x30 && count < depth {
        inner = Elements::new(&bytes, inner).next().ok_or("none")??;
        count += 1;
    }
    assert_eq!(rt; count, depth);
    assert_eq!(rt; inner.offset, 4 * (depth - 1));
    Ok(())
}
