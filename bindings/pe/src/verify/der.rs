//! The few elements of DER that the library has no call for: what RSASSA-PSS is by, hashes of pages, lists of digests, and where an
//! element ends
//! ([X.690](https://www.itu.int/rec/T-REC-X.690), 8.1).

use super::hashing::Hash;
use pe_c::{Algorithm, KnownOid};
use std::ops::Range;

pub const INTEGER: u8 = 0x02;
pub const OCTET_STRING: u8 = 0x04;
pub const OBJECT_IDENTIFIER: u8 = 0x06;
pub const SEQUENCE: u8 = 0x30;
pub const SET: u8 = 0x31;
pub const BIT_STRING: u8 = 0x03;
/// `[0]`, and `[1]` in place of a tag of its own.
const EXPLICIT: u8 = 0xA0;
const MONIKER: u8 = 0xA1;

/// An element: its tag, its content, and the bytes after it.
pub struct Element<'a> {
    pub tag: u8,
    pub content: &'a [u8],
    pub rest: &'a [u8],
}

/// The element that bytes start with, where all of it is there. Its length has at most four bytes of its own.
pub fn element(bytes: &[u8]) -> Option<Element<'_>> {
    let (&[tag, first], rest) = bytes.split_first_chunk()?;
    let count = usize::from(first & 0x7F);
    let (length, rest) = match first {
        0..=0x7F => (count, rest),
        0x81..=0x84 => {
            let (digits, rest) = rest.split_at_checked(count)?;
            (digits.iter().fold(0, |length, digit| length << 8 | usize::from(*digit)), rest)
        }
        _ => return None,
    };
    let (content, rest) = rest.split_at_checked(length)?;
    Some(Element { tag, content, rest })
}

/// The elements that follow each other, up to what is none.
pub fn elements(bytes: &[u8]) -> impl Iterator<Item = Element<'_>> {
    std::iter::successors(element(bytes), |it| element(it.rest))
}

/// The content of an element of this tag that bytes start with, and the bytes after it.
pub fn content_of(bytes: &[u8], tag: u8) -> Option<(&[u8], &[u8])> {
    element(bytes).filter(|it| it.tag == tag).map(|it| (it.content, it.rest))
}

/// What a signature of RSASSA-PSS is by ([RFC 8017](https://www.rfc-editor.org/rfc/rfc8017), A.2.3).
#[derive(Clone, Copy, Debug, PartialEq, Eq)]
pub struct Pss {
    pub hash: Hash,
    /// The digest of the mask.
    pub mask: Hash,
    /// Bytes of the salt.
    pub salt: u16,
}

/// The parameters of the algorithm, if it is RSASSA-PSS and they are among those that are known here.
pub fn pss_of(algorithm: Algorithm<'_>) -> Option<Pss> {
    let is_pss = algorithm.oid().known() == Some(KnownOid::RSA_PSS);
    is_pss.then(|| pss_at(algorithm.parameters())).flatten()
}

fn pss_at(parameters: &[u8]) -> Option<Pss> {
    // What is left out is by SHA-1.
    let mut found = Pss { hash: Hash::Sha1, mask: Hash::Sha1, salt: 20 };
    let (mut rest, after) = content_of(parameters, SEQUENCE)?;
    let mut last = 0;
    while let Some(field) = element(rest) {
        // Each stands once, in this order.
        if field.tag <= last {
            return None;
        }
        last = field.tag;
        match field.tag {
            0xA0 => found.hash = hash_at(field.content)?,
            0xA1 => found.mask = mask_at(field.content)?,
            0xA2 => found.salt = number_of(content_of(field.content, INTEGER)?.0)?,
            // The trailer, which has one value.
            0xA3 if number_of(content_of(field.content, INTEGER)?.0)? == 1 => (),
            _ => return None,
        }
        rest = field.rest;
    }
    (rest.is_empty() && after.is_empty()).then_some(found)
}

fn number_of(digits: &[u8]) -> Option<u16> {
    let value = |it: &[u8]| it.iter().fold(0, |number, digit| number << 8 | u16::from(*digit));
    (digits.first()? < &0x80 && digits.len() <= 2).then(|| value(digits))
}

/// The digits of a part of a text, as a number.
pub fn number_at(text: &[u8], part: Range<usize>) -> Option<u32> {
    let digit = |number: u32, it: &u8| it.is_ascii_digit().then(|| 10 * number + u32::from(it - b'0'));
    text.get(part)?.iter().try_fold(0, digit)
}

/// The digest by which an algorithm signs, by its object identifier and what follows: RSA of PKCS #1 v1.5, and ECDSA.
pub fn hash_of_signature(algorithm: &[u8]) -> Option<Hash> {
    match content_of(algorithm, OBJECT_IDENTIFIER)?.0 {
        [0x2A, 0x86, 0x48, 0x86, 0xF7, 0x0D, 1, 1, 5] | [0x2A, 0x86, 0x48, 0xCE, 0x3D, 4, 1] => Some(Hash::Sha1),
        [0x2A, 0x86, 0x48, 0x86, 0xF7, 0x0D, 1, 1, 11] | [0x2A, 0x86, 0x48, 0xCE, 0x3D, 4, 3, 2] => Some(Hash::Sha256),
        [0x2A, 0x86, 0x48, 0x86, 0xF7, 0x0D, 1, 1, 12] | [0x2A, 0x86, 0x48, 0xCE, 0x3D, 4, 3, 3] => Some(Hash::Sha384),
        [0x2A, 0x86, 0x48, 0x86, 0xF7, 0x0D, 1, 1, 13] | [0x2A, 0x86, 0x48, 0xCE, 0x3D, 4, 3, 4] => Some(Hash::Sha512),
        _ => None,
    }
}

/// The digest of an algorithm's object identifier.
fn hash_at(algorithm: &[u8]) -> Option<Hash> {
    match content_of(content_of(algorithm, SEQUENCE)?.0, OBJECT_IDENTIFIER)?.0 {
        [0x2B, 0x0E, 3, 2, 0x1A] => Some(Hash::Sha1),
        [0x60, 0x86, 0x48, 1, 0x65, 3, 4, 2, 1] => Some(Hash::Sha256),
        [0x60, 0x86, 0x48, 1, 0x65, 3, 4, 2, 2] => Some(Hash::Sha384),
        [0x60, 0x86, 0x48, 1, 0x65, 3, 4, 2, 3] => Some(Hash::Sha512),
        _ => None,
    }
}

/// The algorithm and the digest of a `DigestInfo`.
pub fn digest_info(info: &[u8]) -> Option<(Hash, &[u8])> {
    let (info, _) = content_of(info, SEQUENCE)?;
    let algorithm = element(info)?;
    Some((hash_at(info)?, content_of(algorithm.rest, OCTET_STRING)?.0))
}

/// `id-mgf1`, 1.2.840.113549.1.1.8.
const MGF1: &[u8] = &[0x2A, 0x86, 0x48, 0x86, 0xF7, 0x0D, 1, 1, 8];

fn mask_at(algorithm: &[u8]) -> Option<Hash> {
    let (kind, parameters) = content_of(content_of(algorithm, SEQUENCE)?.0, OBJECT_IDENTIFIER)?;
    (kind == MGF1).then(|| hash_at(parameters)).flatten()
}

/// The start of `SPC_PE_IMAGE_PAGE_HASHES_V1_OBJID`, 1.3.6.1.4.1.311.2.3.1, and of V2, which ends with 2: SHA-1 and SHA-256.
const PAGE_HASHES: &[u8] = &[0x2B, 6, 1, 4, 1, 0x82, 0x37, 2, 3];

/// By what the pages of an image are hashed, and the tables of the hashes: attributes of the moniker that the link of an
/// `SpcPeImageData` is.
pub fn page_hashes(value: &[u8]) -> Vec<(Hash, &[u8])> {
    attributes_of(value).map_or(Vec::new(), |set| elements(set).filter_map(|it| page_hashes_at(it.content)).collect())
}

fn attributes_of(value: &[u8]) -> Option<&[u8]> {
    let (_flags, rest) = content_of(content_of(value, SEQUENCE)?.0, BIT_STRING)?;
    let moniker = content_of(content_of(rest, EXPLICIT)?.0, MONIKER)?.0;
    let (_class, data) = content_of(moniker, OCTET_STRING)?;
    Some(content_of(content_of(data, OCTET_STRING)?.0, SET)?.0)
}

fn page_hashes_at(attribute: &[u8]) -> Option<(Hash, &[u8])> {
    let (kind, values) = content_of(attribute, OBJECT_IDENTIFIER)?;
    let hash = match kind.strip_prefix(PAGE_HASHES)? {
        [1] => Hash::Sha1,
        [2] => Hash::Sha256,
        _ => return None,
    };
    Some((hash, content_of(content_of(values, SET)?.0, OCTET_STRING)?.0))
}

/// What an entry of the certificate table is filled up to.
const ALIGNMENT: usize = 8;

/// How many bytes of an entry are neither its signed data nor zeros that fill it up. No signature covers them, and a program may
/// carry data there ([MS13-098](https://learn.microsoft.com/security-updates/securitybulletins/2013/ms13-098)).
pub fn bytes_after(body: &[u8]) -> usize {
    let rest = element(body).map_or(&[][..], |it| it.rest);
    match rest.len() < ALIGNMENT && rest.iter().all(|it| *it == 0) {
        true => 0,
        false => rest.len(),
    }
}

#[cfg(test)]
mod tests {
    use super::*;

    /// The parameters that `openssl req -sigopt rsa_padding_mode:pss -sha256 -sigopt rsa_pss_saltlen:32` writes.
    #[test]
    fn parameters_of_pss() {
        let sha256 = [0x30, 0x0B, 6, 9, 0x60, 0x86, 0x48, 1, 0x65, 3, 4, 2, 1];
        let mgf1 = [&[0x30, 0x18, 6, 9][..], MGF1, &sha256].concat();
        let fields = [&[0xA0, 0x0D][..], &sha256, &[0xA1, 0x1A], &mgf1, &[0xA2, 3, 2, 1, 32]].concat();
        let whole = [&[0x30, fields.len() as u8][..], &fields].concat();
        assert_eq!(pss_at(&whole), Some(Pss { hash: Hash::Sha256, mask: Hash::Sha256, salt: 32 }));
        assert_eq!(pss_at(&[0x30, 0]), Some(Pss { hash: Hash::Sha1, mask: Hash::Sha1, salt: 20 }));
        assert_eq!(pss_at(&whole[..whole.len() - 1]), None);
        assert_eq!(pss_at(&[0x30, 5, 0xA2, 3, 2, 1, 0x80]), None);
        let sequence = |fields: &[&[u8]]| {
            let fields = fields.concat();
            pss_at(&[&[0x30, fields.len() as u8][..], &fields].concat()).map(|it| it.salt)
        };
        let (salt, trailer): (&[u8], &[u8]) = (&[0xA2, 3, 2, 1, 32], &[0xA3, 3, 2, 1, 1]);
        assert_eq!(sequence(&[salt, trailer]), Some(32));
        assert_eq!([sequence(&[trailer, salt]), sequence(&[salt, salt]), sequence(&[&[0xA3, 3, 2, 1, 2]])], [None; 3]);
        assert_eq!(pss_at(&[]), None);
    }

    #[test]
    fn what_fills_an_entry_up_is_no_data() {
        assert_eq!(bytes_after(&[0x30, 1, 7, 0, 0, 0, 0, 0]), 0);
        assert_eq!(bytes_after(&[0x30, 1, 7, 0, 1]), 2);
        assert_eq!(bytes_after(&[0x30, 1, 7, 0, 0, 0, 0, 0, 0, 0, 0]), 8);
        assert_eq!(bytes_after(&[0x30, 0x82, 0, 1, 7, 9]), 1);
        assert_eq!(bytes_after(&[0x30, 0x80, 7]), 0);
    }
}
