//! Lists of revoked certificates (CRL), in files that are given. A list is of an issuer, which signed it, and has the serial numbers
//! of certificates, each with the time from which on it is revoked ([RFC 5280](https://www.rfc-editor.org/rfc/rfc5280), 5.1).

use super::der::{content_of, element, elements, hash_of_signature, number_at, BIT_STRING, INTEGER, SEQUENCE};
use super::hashing::Hash;
use pe_c::Time;
use std::collections::BTreeMap;
use std::path::Path;

/// `UTCTime` and `GeneralizedTime`.
const TIMES: [u8; 2] = [0x17, 0x18];
const HEAD: &str = "-----BEGIN X509 CRL-----";
const FOOT: &str = "-----END X509 CRL-----";

pub struct List {
    /// The name in DER.
    pub issuer: Vec<u8>,
    /// What is signed, by what digest, and the signature.
    pub signed: Vec<u8>,
    pub hash: Option<Hash>,
    pub signature: Vec<u8>,
    /// By the digits of their serial numbers, the first of which is not 0.
    revoked: BTreeMap<Vec<u8>, Time>,
}

/// A time of X.509. Years of two digits are from 1950 on.
fn time_of(tag: u8, text: &[u8]) -> Option<Time> {
    let century = |year: u32| if year < 50 { 2000 + year } else { 1900 + year };
    let (year, rest) = match tag {
        0x17 => (century(number_at(text, 0..2)?), text.get(2..)?),
        _ => (number_at(text, 0..4)?, text.get(4..)?),
    };
    let [month, day, hour, minute] = [0, 2, 4, 6].map(|at| number_at(rest, at..at + 2));
    Some(Time { year, month: month?, day: day?, hour: hour?, minute: minute?, second: number_at(rest, 8..10)? })
}

fn without_zeros(number: &[u8]) -> Vec<u8> {
    number.iter().copied().skip_while(|it| *it == 0).collect()
}

/// A serial number, and since when it is revoked.
fn entry_of(entry: &[u8]) -> Option<(Vec<u8>, Time)> {
    let (serial, rest) = content_of(entry, INTEGER)?;
    let time = element(rest)?;
    Some((without_zeros(serial), time_of(time.tag, time.content)?))
}

impl List {
    /// A list in DER.
    fn of(bytes: &[u8]) -> Option<List> {
        let (parts, _) = content_of(bytes, SEQUENCE)?;
        let (fields, rest) = content_of(parts, SEQUENCE)?;
        let algorithm = element(rest)?;
        let (unused_bits, signature) = content_of(algorithm.rest, BIT_STRING)?.0.split_first()?;
        let fields = content_of(fields, INTEGER).map_or(fields, |version| version.1);
        let names = element(fields)?.rest;
        let issuer = element(names)?;
        let entries = elements(issuer.rest).find(|it| !TIMES.contains(&it.tag));
        let entries = entries.filter(|it| it.tag == SEQUENCE).map_or(&[][..], |it| it.content);
        Some(List {
            issuer: names[..names.len() - issuer.rest.len()].to_vec(),
            signed: parts[..parts.len() - rest.len()].to_vec(),
            hash: hash_of_signature(algorithm.content).filter(|_| *unused_bits == 0),
            signature: signature.to_vec(),
            revoked: elements(entries).map(|it| entry_of(it.content)).collect::<Option<_>>()?,
        })
    }

    /// Since when a certificate is revoked, where it is.
    pub fn since(&self, serial: &[u8]) -> Option<Time> {
        self.revoked.get(serial).copied()
    }
}

/// The lists of a file, in DER or in PEM.
pub fn read(path: &Path) -> Result<Vec<List>, String> {
    let bytes = crate::files::whole(path).map_err(|error| error.to_string())?;
    let of_pem = |text: &str| {
        let digits: String = text.split_once(FOOT)?.0.split_whitespace().collect();
        List::of(&openssl::base64::decode_block(&digits).ok()?)
    };
    let found: Option<Vec<List>> = match std::str::from_utf8(&bytes).ok().filter(|it| it.contains(HEAD)) {
        Some(text) => text.split(HEAD).skip(1).map(of_pem).collect(),
        None => List::of(&bytes).map(|it| vec![it]),
    };
    found.ok_or("no list of revoked certificates, in DER or PEM".to_string())
}

#[cfg(test)]
mod tests {
    use super::*;

    #[test]
    fn times_have_two_or_four_digits_of_a_year() {
        let time = |tag, text: &[u8]| time_of(tag, text).map(|it| it.to_string());
        assert_eq!(time(0x17, b"491231235958Z").unwrap(), "2049-12-31T23:59:58Z");
        assert_eq!(time(0x17, b"500102030405Z").unwrap(), "1950-01-02T03:04:05Z");
        assert_eq!(time(0x18, b"20500102030405Z").unwrap(), "2050-01-02T03:04:05Z");
        assert_eq!([time(0x17, b"4912312359"), time(0x18, b"2050x102030405Z")], [None, None]);
    }
}
