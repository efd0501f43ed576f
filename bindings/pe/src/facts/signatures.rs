//! The fields of a signature: the signers with their certificates, times and algorithms. They are shown as the file has them;
//! `verify` compares them with the file.

use super::{hex_of, Refusal};
use crate::verify::hashing::Hash;
use pe_c::{Name, Oid, SignatureError, Signer, X509};
use serde::Serialize;
use std::collections::BTreeMap;

/// Why a part of a signature is refused, and where.
#[derive(Clone, Debug, PartialEq, Eq, Serialize)]
pub struct SignatureRefusal {
    #[serde(flatten)]
    pub refusal: Refusal,
    /// From the start of the signature.
    pub offset: u64,
}

impl From<SignatureError> for SignatureRefusal {
    fn from(error: SignatureError) -> SignatureRefusal {
        let refusal = Refusal { text: error.to_string(), ..Refusal::from(error.error) };
        SignatureRefusal { refusal, offset: error.offset }
    }
}

/// An algorithm as text: its name, or its object identifier.
pub fn algorithm_of(oid: Oid<'_>) -> String {
    match (Hash::of(oid), oid.known()) {
        (Some(hash), _) => hash.name().to_string(),
        (None, Some(known)) => known.name().replace('_', " "),
        (None, None) => oid.to_string(),
    }
}

/// How many bytes of a name are told. Many signers may name one certificate.
const NAME: usize = 4096;

/// A name as RFC 4514 has it.
pub fn text_of(name: Name<'_>) -> String {
    match name.der().len() {
        0..=NAME => name.to_string(),
        length => format!("a name of {length} bytes"),
    }
}

/// The certificate of a signer.
#[derive(Clone, Debug, Serialize)]
pub struct Certificate {
    /// As RFC 4514 has it.
    pub subject: String,
    pub issuer: String,
    pub serial_hex: String,
    /// Thumbprints: hashes of all of it.
    pub sha1_hex: String,
    pub sha256_hex: String,
    /// By RFC 3339. Null where the time is none.
    pub not_before: Option<String>,
    pub not_after: Option<String>,
}

impl Certificate {
    pub fn of(certificate: &X509<'_>) -> Certificate {
        Certificate {
            subject: text_of(certificate.subject()),
            issuer: text_of(certificate.issuer()),
            serial_hex: hex_of(certificate.serial()),
            sha1_hex: hex_of(&Hash::Sha1.digest([certificate.der()].into_iter())),
            sha256_hex: hex_of(&Hash::Sha256.digest([certificate.der()].into_iter())),
            not_before: certificate.not_before().ok().map(|it| it.to_string()),
            not_after: certificate.not_after().ok().map(|it| it.to_string()),
        }
    }
}

/// The certificates of a signature, by what names them.
#[derive(Default)]
pub struct Certificates<'a> {
    by_serial: BTreeMap<(&'a [u8], &'a [u8]), X509<'a>>,
    by_key: BTreeMap<&'a [u8], X509<'a>>,
    by_subject: BTreeMap<&'a [u8], Vec<X509<'a>>>,
}

/// How many certificates of a chain are told: a chain of signers has three or four.
const CHAIN: usize = 16;
/// How many certificates of one name are tried as the issuer. An authority that renews its certificate has two or three.
const ONE_NAME: usize = 8;

impl<'a> Certificates<'a> {
    /// Those that are not refused. Of two with one issuer and serial number the first counts.
    pub fn of(signature: &pe_c::Signature<'a>) -> Certificates<'a> {
        let mut found = Certificates::default();
        for certificate in signature.certificates().flatten() {
            let issuer = certificate.issuer().der();
            found.by_serial.entry((issuer, certificate.serial())).or_insert(certificate);
            if let Ok(Some(key)) = certificate.key_identifier() {
                found.by_key.entry(key).or_insert(certificate);
            }
            let namesakes = found.by_subject.entry(certificate.subject().der()).or_default();
            if namesakes.len() < ONE_NAME {
                namesakes.push(certificate);
            }
        }
        found
    }

    /// The certificate that a signer names.
    pub fn of_signer(&self, signer: &Signer<'a>) -> Option<X509<'a>> {
        match signer.key_identifier() {
            Some(key) => self.by_key.get(key).copied(),
            None => self.by_serial.get(&(signer.issuer().der(), signer.serial())).copied(),
        }
    }

    /// All of them, in no order.
    pub fn all(&self) -> impl Iterator<Item = X509<'a>> + '_ {
        self.by_serial.values().copied()
    }

    /// The certificate of the issuer of one, which has its name and no other key identifier, and is none of these: where several do,
    /// the first that signed it, and where that is not known of any, the first.
    fn issuer(
        &self,
        certificate: &X509<'a>,
        before: &[X509<'a>],
        is_signed_by: &dyn Fn(&X509<'a>, &X509<'a>) -> bool,
    ) -> Option<X509<'a>> {
        let namesakes = self.by_subject.get(certificate.issuer().der())?;
        let fits = |it: &&X509<'a>| has_key(it, certificate) && !before.iter().any(|known| known.der() == it.der());
        let mut fitting = namesakes.iter().filter(fits);
        let first = fitting.clone().next()?;
        let signing = fitting.clone().nth(1).and_then(|_| fitting.find(|it| is_signed_by(certificate, it)));
        Some(*signing.unwrap_or(first))
    }

    /// The certificates from this one on, each followed by that of its issuer, as far as they are here.
    pub fn chain(&self, first: X509<'a>, is_signed_by: &dyn Fn(&X509<'a>, &X509<'a>) -> bool) -> Vec<X509<'a>> {
        let mut chain = vec![first];
        while let Some(last) = chain.last().filter(|it| !is_self_issued(it) && chain.len() < CHAIN) {
            match self.issuer(last, &chain, is_signed_by) {
                Some(issuer) => chain.push(issuer),
                None => break,
            }
        }
        chain
    }
}

/// Whether a certificate has the key that another says its issuer has, or one of both says none.
fn has_key(issuer: &X509<'_>, certificate: &X509<'_>) -> bool {
    match (certificate.issuer_key_identifier(), issuer.key_identifier()) {
        (Ok(Some(said)), Ok(Some(own))) => said == own,
        _ => true,
    }
}

/// Whether a certificate is by its own word.
pub fn is_self_issued(certificate: &X509<'_>) -> bool {
    certificate.subject() == certificate.issuer()
}

impl std::fmt::Display for SignatureRefusal {
    fn fmt(&self, f: &mut std::fmt::Formatter<'_>) -> std::fmt::Result {
        self.refusal.fmt(f)
    }
}
