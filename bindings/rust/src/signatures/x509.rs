//! The X.509 certificates of a signature.

use super::error::{read, require_tag};
use super::{list, of, Algorithm, Elements, KnownOid, Name, Oid, SignatureError, Time};
use crate::shown::shown;
use crate::sys;
use core::iter::FusedIterator;

/// Tags of DER: an `OCTET STRING`, a `SEQUENCE`, and `[0]` of a string.
const OCTET_STRING: u32 = 0x04;
const SEQUENCE: u32 = 0x30;
const TAGGED_STRING_0: u32 = 0x80;

/// A certificate of X.509: whose key it is, by whose word, and when it is valid
/// ([RFC 5280](https://www.rfc-editor.org/rfc/rfc5280), 4.1). An entry of the certificate table is a [`Certificate`](crate::Certificate).
///
/// ```
/// # #[path = "../../tests/made/mod.rs"] mod made;
/// # let bytes = made::signature();
/// use pe_c::Signature;
///
/// let signature = Signature::parse(&bytes)?;
/// for certificate in signature.certificates() {
///     let certificate = certificate?;
///     assert_eq!(certificate.not_before()?.to_string(), "2026-11-27T01:00:04Z");
///     assert_eq!(certificate.key_usage()?, Some(0x80)); // digitalSignature
/// }
/// # Ok::<(), Box<dyn std::error::Error>>(())
/// ```
#[derive(Clone, Copy)]
pub struct X509<'a> {
    bytes: &'a [u8],
    whole: sys::Range,
    parts: sys::X509Certificate,
}

shown! { X509<'_> { whole, parts; .. } }

list! {
    /// The certificates of a signature, in any order. One that is refused is an error of its own, and others follow it.
    X509s: X509, X509::at
}

impl<'a> X509s<'a> {
    pub(super) fn new(elements: Elements<'a>) -> Self {
        X509s(elements)
    }
}

impl<'a> X509<'a> {
    fn at(bytes: &'a [u8], whole: sys::Range) -> Result<Self, SignatureError> {
        Ok(X509 { bytes, whole, parts: read(bytes, sys::pe_c_x509, whole)? })
    }

    /// All of it, as DER: what a library of cryptography reads.
    pub fn der(&self) -> &'a [u8] {
        of(self.whole, self.bytes)
    }

    /// The serial number: two's complement, the high byte first.
    pub fn serial(&self) -> &'a [u8] {
        of(self.parts.serial, self.bytes)
    }

    /// By whose word it is.
    pub fn issuer(&self) -> Name<'a> {
        Name::from_der(of(self.parts.issuer, self.bytes))
    }

    /// Whose key it is.
    pub fn subject(&self) -> Name<'a> {
        Name::from_der(of(self.parts.subject, self.bytes))
    }

    /// The first time when it is valid.
    ///
    /// # Errors
    ///
    /// [`Error::SIGNATURE_BAD_TIME`](crate::Error::SIGNATURE_BAD_TIME).
    pub fn not_before(&self) -> Result<Time, SignatureError> {
        Time::at(self.bytes, self.parts.not_before)
    }

    /// The last time when it is valid.
    ///
    /// # Errors
    ///
    /// As [`X509::not_before`].
    pub fn not_after(&self) -> Result<Time, SignatureError> {
        Time::at(self.bytes, self.parts.not_after)
    }

    /// The public key with its algorithm, `SubjectPublicKeyInfo`: an element of DER.
    pub fn public_key(&self) -> &'a [u8] {
        of(self.parts.public_key, self.bytes)
    }

    /// What the issuer's signature is over.
    pub fn to_be_signed(&self) -> &'a [u8] {
        of(self.parts.to_be_signed, self.bytes)
    }

    /// The algorithm of the issuer's signature.
    pub fn signature_algorithm(&self) -> Algorithm<'a> {
        Algorithm { bytes: self.bytes, parts: self.parts.signature_algorithm }
    }

    /// The issuer's signature.
    pub fn signature(&self) -> &'a [u8] {
        of(self.parts.signature, self.bytes)
    }

    /// The extensions.
    pub fn extensions(&self) -> Extensions<'a> {
        Extensions(Elements::new(self.bytes, self.parts.extensions))
    }

    /// What the key is for: 0x80 `digitalSignature`, 0x40 `contentCommitment`, 0x20 `keyEncipherment`, 0x10 `dataEncipherment`, 8
    /// `keyAgreement`, 4 `keyCertSign`, 2 `cRLSign`, 1 `encipherOnly`, 0x8000 `decipherOnly`. `None` without the extension, and where
    /// its bits are not as DER has them.
    ///
    /// # Errors
    ///
    /// Those of the extensions up to this one, and of its value.
    pub fn key_usage(&self) -> Result<Option<u32>, SignatureError> {
        match self.extension(KnownOid::KEY_USAGE)? {
            Some(extension) => super::signer::key_usage_at(self.bytes, extension.whole),
            None => Ok(None),
        }
    }

    /// What else the key is for, such as 1.3.6.1.5.5.7.3.3, code signing ([RFC 5280], 4.2.1.12). `None` without the extension: then
    /// it is for all that [`X509::key_usage`] allows.
    ///
    /// [RFC 5280]: https://www.rfc-editor.org/rfc/rfc5280
    ///
    /// # Errors
    ///
    /// Those of the extensions up to this one, and of its value.
    pub fn key_purposes(&self) -> Result<Option<KeyPurposes<'a>>, SignatureError> {
        let Some(list) = self.value_of(KnownOid::EXTENDED_KEY_USAGE)? else { return Ok(None) };
        require_tag(&list, SEQUENCE)?;
        Ok(Some(KeyPurposes(Elements::new(self.bytes, list.content))))
    }

    /// What its issuer calls the key, mostly a digest of it. `None` without the extension.
    ///
    /// # Errors
    ///
    /// As [`X509::key_purposes`].
    pub fn key_identifier(&self) -> Result<Option<&'a [u8]>, SignatureError> {
        let Some(value) = self.value_of(KnownOid::SUBJECT_KEY_IDENTIFIER)? else { return Ok(None) };
        require_tag(&value, OCTET_STRING)?;
        Ok(Some(of(value.content, self.bytes)))
    }

    /// The [`X509::key_identifier`] of its issuer's certificate, where the issuer has several keys. `None` without the extension, and
    /// where it does not have it.
    ///
    /// # Errors
    ///
    /// As [`X509::key_purposes`].
    pub fn issuer_key_identifier(&self) -> Result<Option<&'a [u8]>, SignatureError> {
        let Some(value) = self.value_of(KnownOid::AUTHORITY_KEY_IDENTIFIER)? else { return Ok(None) };
        require_tag(&value, SEQUENCE)?;
        let first = Elements::new(self.bytes, value.content).next().transpose()?;
        Ok(first.filter(|it| it.tag == TAGGED_STRING_0).map(|it| of(it.content, self.bytes)))
    }

    /// The first extension of a kind.
    fn extension(&self, kind: KnownOid) -> Result<Option<Extension<'a>>, SignatureError> {
        let mut extensions = self.extensions();
        extensions.find(|it| it.as_ref().map_or(true, |it| it.kind() == kind)).transpose()
    }

    /// The element that is the value of an extension.
    fn value_of(&self, kind: KnownOid) -> Result<Option<sys::DerElement>, SignatureError> {
        match self.extension(kind)? {
            Some(extension) => Elements::new(self.bytes, extension.parts.value).next().transpose(),
            None => Ok(None),
        }
    }
}

/// What a key is for, as object identifiers. It is over after an error.
#[derive(Clone, Debug)]
pub struct KeyPurposes<'a>(Elements<'a>);

impl<'a> Iterator for KeyPurposes<'a> {
    type Item = Result<Oid<'a>, SignatureError>;

    fn next(&mut self) -> Option<Self::Item> {
        Some(self.0.next()?.and_then(|element| Oid::of_element(self.0.bytes, &element)))
    }
}

impl FusedIterator for KeyPurposes<'_> {}

/// An extension of a certificate.
#[derive(Clone, Copy)]
pub struct Extension<'a> {
    bytes: &'a [u8],
    whole: sys::Range,
    parts: sys::X509Extension,
}

shown! { Extension<'_> { whole, parts; .. } }

list! {
    /// The extensions of a certificate. One that is refused is an error of its own, and others follow it.
    Extensions: Extension, |bytes, whole| Ok(Extension { bytes, whole, parts: read(bytes, sys::pe_c_extension, whole)? })
}

impl<'a> Extension<'a> {
    /// Which extension it is.
    pub fn kind(&self) -> Oid<'a> {
        Oid::new(self.bytes, self.parts.kind)
    }

    /// Whether a reader that does not know it has to refuse the certificate.
    pub fn is_critical(&self) -> bool {
        self.parts.critical == 1
    }

    /// Its value, an element of DER.
    pub fn value(&self) -> &'a [u8] {
        of(self.parts.value, self.bytes)
    }
}
