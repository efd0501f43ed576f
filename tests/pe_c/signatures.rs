//! Signatures: one that osslsigncode made, field by field at the offsets that `openssl asn1parse` prints, after some bytes that are
//! no part of it; what is refused, and where.

use super::made::*;
use super::signature_bytes::signature;
use crate::signatures::{
    AnyPart, PART_ALGORITHM, PART_ATTRIBUTE, PART_EXTENSION, PART_IMAGE_DATA, PART_INDIRECT_DATA,
    PART_KEY_USAGE, PART_NAME, PART_OPUS_INFO, PART_SIGNATURE, PART_SIGNER, PART_TIME,
    PART_TIME_STAMP, PART_X509, pe_c_find_attribute, pe_c_next_element, pe_c_next_name_attribute,
    pe_c_signature_part,
};
use calls_signatures::elements::{DerElement, Oid};
use calls_signatures::name::NamePart;
use calls_signatures::refused::SignatureFailure;
use calls_signatures::signer::SignerAttribute;

/// How many bytes stand before the signature.
const BEFORE: u64 = 10;

/// A range that no call returns.
const NO: Range = Range {
    offset: 77,
    length: 78,
};

/// What `failure` is before each call.
const UNTOUCHED: SignatureFailure = SignatureFailure {
    offset: 1,
    value: 2,
    left: 3,
    expected: 4,
    result: 5,
};

const NO_OID: Oid = Oid {
    octets: NO,
    id: 79,
    spare: 80,
};

/// The signature after other bytes.
fn file(alloc: Global) -> Result<Vec<u8>, AllocError> {
    let mut bytes = Vec::new(alloc);
    for _ in 0..BEFORE {
        bytes.push(0x30)?;
    }
    for byte in &signature(alloc)? {
        bytes.push(*byte)?;
    }
    Ok(bytes)
}

/// A range by what `openssl asn1parse` prints of an element of the signature, its offset and the lengths of its header and its
/// content.
fn whole(offset: u64, header: u64, length: u64) -> Range {
    range(BEFORE + offset, header + length)
}

/// The range of its content.
fn content(offset: u64, header: u64, length: u64) -> Range {
    range(BEFORE + offset + header, length)
}

fn same(one: Range, other: Range) -> bool {
    one.offset == other.offset && one.length == other.length
}

fn is_oid(oid: Oid, octets: Range, id: u32) -> bool {
    same(oid.octets, octets) && oid.id == id && oid.spare == 0
}

fn is_untouched(failure: &SignatureFailure) -> bool {
    is_failure(failure, 5, 1, 2, (3, 4))
}

/// Whether these are its numbers; the last are how many bytes are left and the tag that is expected.
fn is_failure(
    failure: &SignatureFailure,
    number: u32,
    offset: u64,
    value: u64,
    others: (u64, u32),
) -> bool {
    (failure.result, failure.offset, failure.value) == (number, offset, value)
        && (failure.left, failure.expected) == others
}

/// What a call returns of a part of a kind, and what it writes.
fn part(bytes: &[u8], range: &Range, kind: u32, failure: &mut SignatureFailure) -> (u32, AnyPart) {
    let mut out = filled();
    let result = pe_c_signature_part(bytes, range, kind, failure, &mut out);
    (result, out)
}

#[test]
fn signed_data(rt: HostRuntime) -> Result<(), Fail> {
    let bytes = file(rt.alloc())?;
    let mut failure = UNTOUCHED;
    let all = range(BEFORE, bytes.len() as u64 - BEFORE);
    let (result, found) = part(&bytes, &all, PART_SIGNATURE, &mut failure);
    let out = found.signature;
    assert_eq!(rt; result, DONE);
    assert!(rt; is_untouched(&failure));
    assert!(rt; is_oid(out.content_type, content(45, 2, 10), 4));
    assert!(rt; same(out.version, content(23, 2, 1)));
    assert!(rt; same(out.digest_algorithms, content(26, 2, 15)));
    assert!(rt; same(out.content, whole(59, 2, 105)));
    assert!(rt; same(out.digested, content(59, 2, 105)));
    assert!(rt; same(out.certificates, content(166, 4, 350)));
    assert!(rt; same(out.crls, NO_RANGE));
    assert!(rt; same(out.signers, content(520, 4, 1393)));
    assert_eq!(rt; (out.has_content, out.spare), (1, 0));
    Ok(())
}

#[test]
fn indirect_data(rt: HostRuntime) -> Result<(), Fail> {
    let bytes = file(rt.alloc())?;
    let mut failure = UNTOUCHED;
    let (result, found) = part(&bytes, &whole(59, 2, 105), PART_INDIRECT_DATA, &mut failure);
    let out = found.indirect_data;
    assert_eq!(rt; result, DONE);
    assert!(rt; is_oid(out.value_type, content(63, 2, 10), 5));
    assert!(rt; same(out.value, whole(75, 2, 38)));
    assert!(rt; is_oid(out.digest_algorithm.oid, content(119, 2, 9), 203));
    assert!(rt; same(out.digest_algorithm.parameters, whole(130, 2, 0)));
    assert!(rt; same(out.digest, content(132, 2, 32)));
    let (result, found) = part(&bytes, &out.value, PART_IMAGE_DATA, &mut failure);
    let data = found.image_data;
    assert_eq!(rt; result, DONE);
    assert!(rt; same(data.flags, content(77, 2, 2)));
    assert!(rt; same(data.file, whole(83, 2, 30)));
    let one = whole(187, 2, 10);
    let (result, found) = part(&bytes, &one, PART_ALGORITHM, &mut failure);
    let algorithm = found.algorithm;
    assert_eq!(rt; result, DONE);
    assert!(rt; is_oid(algorithm.oid, content(189, 2, 8), 215));
    assert!(rt; same(algorithm.parameters, NO_RANGE));
    assert!(rt; is_untouched(&failure));
    Ok(())
}

fn no_element() -> DerElement {
    DerElement {
        whole: NO,
        content: NO,
        tag: 6,
        spare: 7,
    }
}

/// The next element of a walk that has one.
fn next(bytes: &[u8], walk: &mut Range) -> Result<DerElement, Fail> {
    let (mut failure, mut out) = (UNTOUCHED, no_element());
    match pe_c_next_element(bytes, walk, &mut failure, &mut out) {
        DONE => Ok(out),
        _ => Err(Fail::from("no element")),
    }
}

#[test]
fn signers(rt: HostRuntime) -> Result<(), Fail> {
    let bytes = file(rt.alloc())?;
    let mut walk = content(520, 4, 1393);
    let element = next(&bytes, &mut walk)?;
    assert!(rt; same(element.whole, whole(524, 4, 1389)));
    assert!(rt; same(element.content, content(524, 4, 1389)));
    assert_eq!(rt; (element.tag, element.spare), (0x30, 0));
    let (mut failure, mut out) = (UNTOUCHED, no_element());
    // The walk is over, and stays so.
    for _ in 0..2 {
        let result = pe_c_next_element(&bytes, &mut walk, &mut failure, &mut out);
        assert_eq!(rt; result, NOTHING);
        assert_eq!(rt; (walk.offset, walk.length), (BEFORE + 1917, 0));
    }
    assert!(rt; same(out.whole, NO));
    let (result, found) = part(&bytes, &element.whole, PART_SIGNER, &mut failure);
    let signer = found.signer;
    assert_eq!(rt; result, DONE);
    assert!(rt; same(signer.version, content(528, 2, 1)));
    assert!(rt; same(signer.issuer, whole(533, 2, 12)));
    assert!(rt; same(signer.serial, content(547, 2, 2)));
    assert!(rt; same(signer.key_identifier, NO_RANGE));
    assert!(rt; is_oid(signer.digest_algorithm.oid, content(553, 2, 9), 203));
    assert!(rt; same(signer.signed_attributes, content(566, 3, 187)));
    // The octets after the tag, from the length on.
    let rest = range(BEFORE + 567, 189);
    assert!(rt; same(signer.signed_rest, rest));
    assert!(rt; is_oid(signer.signature_algorithm.oid, content(758, 2, 8), 215));
    assert!(rt; same(signer.signature, content(768, 2, 71)));
    assert!(rt; same(signer.unsigned_attributes, content(841, 4, 1072)));
    let found = (signer.has_signed_attributes, signer.signed_first);
    assert_eq!(rt; found, (1, 0x31));
    assert!(rt; is_untouched(&failure));
    Ok(())
}

/// The attribute with this number in a walk over attributes.
fn attribute(bytes: &[u8], mut walk: Range, id: u32) -> Result<SignerAttribute, Fail> {
    while walk.length > 0 {
        let element = next(bytes, &mut walk)?;
        let (said, found) = part(bytes, &element.whole, PART_ATTRIBUTE, &mut UNTOUCHED);
        if said == DONE && found.attribute.kind.id == id {
            return Ok(found.attribute);
        }
    }
    Err(Fail::from("no attribute"))
}

#[test]
fn attributes(rt: HostRuntime) -> Result<(), Fail> {
    let bytes = file(rt.alloc())?;
    let signed = content(566, 3, 187);
    let digest = attribute(&bytes, signed, 102)?;
    assert!(rt; is_oid(digest.kind, content(658, 2, 9), 102));
    assert!(rt; same(digest.values, content(669, 2, 34)));
    let mut times = attribute(&bytes, signed, 103)?.values;
    let value = next(&bytes, &mut times)?.whole;
    let mut failure = UNTOUCHED;
    let (result, found) = part(&bytes, &value, PART_TIME, &mut failure);
    let time = found.time;
    assert_eq!(rt; result, DONE);
    assert_eq!(rt; (time.year, time.month, time.day), (2026, 11, 27));
    let mut values = attribute(&bytes, signed, 109)?.values;
    let value = next(&bytes, &mut values)?.whole;
    let (said, found) = part(&bytes, &value, PART_OPUS_INFO, &mut failure);
    let opus = found.opus_info;
    assert_eq!(rt; said, DONE);
    assert!(rt; same(opus.program_name, content(725, 2, 5)));
    assert!(rt; same(opus.more_info, content(734, 2, 20)));
    assert_eq!(rt; (opus.program_name_tag, opus.more_info_tag), (0x81, 0x80));
    assert!(rt; is_untouched(&failure));
    Ok(())
}

#[test]
fn time_stamps(rt: HostRuntime) -> Result<(), Fail> {
    let bytes = file(rt.alloc())?;
    let mut values = attribute(&bytes, content(841, 4, 1072), 111)?.values;
    let token = next(&bytes, &mut values)?.whole;
    let mut failure = UNTOUCHED;
    let (said, found) = part(&bytes, &token, PART_SIGNATURE, &mut failure);
    let signed = found.signature;
    assert_eq!(rt; said, DONE);
    assert_eq!(rt; signed.content_type.id, 3);
    assert!(rt; same(signed.content, whole(926, 2, 113)));
    let (result, found) = part(&bytes, &signed.content, PART_TIME_STAMP, &mut failure);
    let stamp = found.time_stamp;
    assert_eq!(rt; result, DONE);
    assert!(rt; same(stamp.version, content(930, 2, 1)));
    assert!(rt; same(stamp.policy, content(933, 2, 4)));
    assert!(rt; is_oid(stamp.digest_algorithm.oid, content(943, 2, 9), 203));
    assert!(rt; same(stamp.digest, content(956, 2, 32)));
    assert!(rt; same(stamp.serial, content(990, 2, 9)));
    assert!(rt; same(stamp.time, whole(1001, 2, 15)));
    assert!(rt; same(stamp.accuracy, whole(1018, 2, 10)));
    assert!(rt; same(stamp.nonce, content(1030, 2, 9)));
    assert!(rt; same(stamp.authority, NO_RANGE));
    let (said, found) = part(&bytes, &stamp.time, PART_TIME, &mut failure);
    let time = found.time;
    assert_eq!(rt; said, DONE);
    assert_eq!(rt; (time.year, time.month, time.day), (2023, 11, 14));
    assert_eq!(rt; (time.hour, time.minute, time.second), (22, 13, 20));
    assert!(rt; is_untouched(&failure));
    Ok(())
}

#[test]
fn certificates(rt: HostRuntime) -> Result<(), Fail> {
    let bytes = file(rt.alloc())?;
    let mut walk = content(166, 4, 350);
    let element = next(&bytes, &mut walk)?;
    let mut failure = UNTOUCHED;
    let (said, found) = part(&bytes, &element.whole, PART_X509, &mut failure);
    let out = found.x509;
    assert_eq!(rt; said, DONE);
    assert!(rt; same(out.to_be_signed, whole(174, 4, 256)));
    assert!(rt; same(out.serial, content(183, 2, 2)));
    assert!(rt; same(out.issuer, whole(199, 2, 12)));
    assert!(rt; same(out.subject, whole(247, 2, 53)));
    assert!(rt; same(out.not_before, whole(215, 2, 13)));
    assert!(rt; same(out.not_after, whole(230, 2, 15)));
    assert!(rt; same(out.public_key, whole(302, 2, 89)));
    assert!(rt; same(out.extensions, content(395, 2, 37)));
    assert!(rt; is_oid(out.signature_algorithm.oid, content(436, 2, 8), 215));
    // The BIT STRING without the octet before its bits.
    assert!(rt; same(out.signature, content(447, 2, 71)));
    let mut extensions = out.extensions;
    for (kind, id, value, critical) in [
        (content(399, 2, 3), 402, content(407, 2, 4), 1),
        (content(415, 2, 3), 407, content(420, 2, 12), 0),
    ] {
        let element = next(&bytes, &mut extensions)?.whole;
        let (said, found) = part(&bytes, &element, PART_EXTENSION, &mut failure);
        let found = found.extension;
        assert_eq!(rt; said, DONE);
        assert!(rt; is_oid(found.kind, kind, id));
        assert!(rt; same(found.value, value));
        assert_eq!(rt; (found.critical, found.spare), (critical, 0));
    }
    let extension = whole(397, 2, 14);
    let (said, found) = part(&bytes, &extension, PART_KEY_USAGE, &mut failure);
    let usage = found.key_usage;
    assert_eq!(rt; said, DONE);
    assert_eq!(rt; usage, 0x80);
    assert!(rt; is_untouched(&failure));
    Ok(())
}

const NO_PART: NamePart = NamePart {
    kind: NO_OID,
    value: NO,
    tag: 6,
    starts_rdn: 7,
};

#[test]
fn names(rt: HostRuntime) -> Result<(), Fail> {
    let bytes = file(rt.alloc())?;
    let mut failure = UNTOUCHED;
    let subject = whole(247, 2, 53);
    let (result, found) = part(&bytes, &subject, PART_NAME, &mut failure);
    let mut walk = found.name;
    assert_eq!(rt; result, DONE);
    assert!(rt; same(walk.left, content(247, 2, 53)));
    assert_eq!(rt; walk.rdn_end, 0);
    // The second relative distinguished name has two attributes.
    for (kind, id, value, tag, starts_rdn) in [
        (content(253, 2, 3), 303, content(258, 2, 2), 0x13, 1),
        (content(266, 2, 3), 308, content(271, 2, 3), 0x0C, 1),
        (content(278, 2, 3), 307, content(283, 2, 5), 0x0C, 0),
        (content(294, 2, 3), 301, content(299, 2, 1), 0x0C, 1),
    ] {
        let mut part = NO_PART;
        let result = pe_c_next_name_attribute(&bytes, &mut walk, &mut failure, &mut part);
        assert_eq!(rt; result, DONE);
        assert!(rt; is_oid(part.kind, kind, id));
        assert!(rt; same(part.value, value));
        assert_eq!(rt; (part.tag, part.starts_rdn), (tag, starts_rdn));
    }
    let mut part = NO_PART;
    for _ in 0..2 {
        let result = pe_c_next_name_attribute(&bytes, &mut walk, &mut failure, &mut part);
        assert_eq!(rt; result, NOTHING);
    }
    assert_eq!(rt; part.tag, 6);
    assert!(rt; is_untouched(&failure));
    Ok(())
}

/// The result of a walk over elements of all bytes from offset 3 on, and the failure.
fn refused(bytes: &[u8]) -> (u32, SignatureFailure) {
    let mut walk = range(3, (bytes.len() as u64).saturating_sub(3));
    let (mut failure, mut out) = (UNTOUCHED, no_element());
    let result = pe_c_next_element(bytes, &mut walk, &mut failure, &mut out);
    (result, failure)
}

/// A sample of failures: each number of an error goes to a field of its own.
#[test]
fn refused_elements(rt: HostRuntime) {
    let elements: [(&[u8], u32, u64, u64); 4] = [
        (b"\0\0\0\x04", 501, 0, 1),
        (b"\0\0\0\x1F\x01\0", 502, 0, 0),
        (b"\0\0\0\x04\x88\x80\0\0\0\0\0\0\0", 504, 8, 0),
        (b"\0\0\0\x04\x84\x12\x34\x56\x78\0\0", 506, 0x12345678, 2),
    ];
    for (bytes, number, value, left) in elements {
        let (result, failure) = refused(bytes);
        assert!(rt; result == number && is_failure(&failure, number, 3, value, (left, 0)));
    }
    // A walk that is not inside the bytes is over after that.
    let mut walk = range(2, 3);
    let (mut failure, mut out) = (UNTOUCHED, no_element());
    let result = pe_c_next_element(b"\x05\0\x05\0", &mut walk, &mut failure, &mut out);
    assert!(rt; result == 2 && is_failure(&failure, 2, 2, 3, (0, 0)));
    assert_eq!(rt; (walk.offset, walk.length), (0, 0));
    // A tag that an attribute does not have, and the month 13.
    let tag = b"\x30\x08\x06\x03\x55\x04\x03\x02\x01\x05";
    let (result, found) = part(tag, &range(0, 10), PART_ATTRIBUTE, &mut failure);
    let attribute = found.attribute;
    assert!(rt; result == 508 && is_failure(&failure, 508, 7, 2, (0, 0x31)));
    assert!(rt; is_filled(&attribute));
    let month = b"\0\x17\x0D261327010004Z";
    let (result, found) = part(month, &range(1, 15), PART_TIME, &mut failure);
    let time = found.time;
    assert!(rt; result == 511 && is_failure(&failure, 511, 1, 0, (0, 0)));
    assert!(rt; is_filled(&time));
}

/// `contentType` at 1, `messageDigest` at 18, an attribute without values at 35, `messageDigest` at 42.
const SOUGHT: &[u8] = b"\0\
    \x30\x0F\x06\x09\x2A\x86\x48\x86\xF7\x0D\x01\x09\x03\x31\x02\x04\x00\
    \x30\x0F\x06\x09\x2A\x86\x48\x86\xF7\x0D\x01\x09\x04\x31\x02\x04\x00\
    \x30\x05\x06\x03\x55\x04\x03\
    \x30\x0F\x06\x09\x2A\x86\x48\x86\xF7\x0D\x01\x09\x04\x31\x02\x04\x00";

#[test]
fn attributes_of_a_type(rt: HostRuntime) {
    let mut walk = range(1, 58);
    let (mut failure, mut out) = (
        UNTOUCHED,
        SignerAttribute {
            kind: NO_OID,
            values: NO,
        },
    );
    let result = pe_c_find_attribute(SOUGHT, &mut walk, 102, &mut failure, &mut out);
    assert!(rt; result == DONE && is_untouched(&failure));
    let found = (out.kind.octets.offset, out.kind.octets.length, out.kind.id);
    assert_eq!(rt; found, (22, 9, 102));
    assert_eq!(rt; (out.values.offset, out.values.length), (33, 2));
    assert_eq!(rt; (walk.offset, walk.length), (35, 24));
    let result = pe_c_find_attribute(SOUGHT, &mut walk, 102, &mut failure, &mut out);
    assert!(rt; result == 507 && is_failure(&failure, 507, 42, 0, (0, 0)));
    assert_eq!(rt; (walk.offset, walk.length, out.values.offset), (42, 17, 33));
    let result = pe_c_find_attribute(SOUGHT, &mut walk, 102, &mut failure, &mut out);
    let found = (result, out.values.offset, walk.offset, walk.length);
    assert_eq!(rt; found, (DONE, 57, 59, 0));
    let result = pe_c_find_attribute(SOUGHT, &mut walk, 102, &mut failure, &mut out);
    assert_eq!(rt; (result, walk.offset, walk.length), (NOTHING, 59, 0));
    walk = range(2, 58);
    let result = pe_c_find_attribute(SOUGHT, &mut walk, 102, &mut failure, &mut out);
    assert!(rt; result == 2 && is_failure(&failure, 2, 2, 58, (0, 0)));
    assert_eq!(rt; (walk.offset, walk.length), (0, 0));
}
