//! What an Authenticode signature says: what is signed, by whom, when, and what a verifier hashes. Nothing is verified here. A
//! signature is the body of a [`Certificate`] of kind 2, PKCS #7 signed data; a time stamp and a nested signature are attributes of
//! a signer, and signatures again. See [RFC 5652](https://www.rfc-editor.org/rfc/rfc5652), and Microsoft's "Windows Authenticode
//! Portable Executable Signature Format".

mod error;
mod name;
mod object_id;
mod signer;
mod time;
mod x509;

pub use error::SignatureError;
pub use name::{Name, NameAttribute, NameAttributes};
pub use object_id::{KnownOid, Oid};
pub use signer::{Attribute, Attributes, OpusInfo, Signer, Signers};
pub use time::{Time, TimeStamp};
pub use x509::{Extension, Extensions, KeyPurposes, X509s, X509};

use crate::shown::{self, shown};
use crate::sys;
use crate::Certificate;
use core::fmt;
use core::iter::FusedIterator;
use error::read;

/// The bytes of a range that the library returned; none of the range of what is absent.
fn of(range: sys::Range, bytes: &[u8]) -> &[u8] {
    range.of(bytes).unwrap_or_default()
}

/// The range of all of them.
fn all(bytes: &[u8]) -> sys::Range {
    sys::Range { offset: 0, length: bytes.len() as u64 }
}

/// A signature: PKCS #7 signed data.
///
/// ```
/// # let bytes: &[u8] = include_bytes!(concat!(env!("CARGO_MANIFEST_DIR"), "/../../crates/peinfo/data/i.bin"));
/// use pe_c::{Image, Mode, Signature};
///
/// let image = Image::parse(bytes, Mode::Strict)?;
/// for certificate in image.certificates() {
///     match Signature::parse(certificate?.body) {
///         Ok(signature) => {
///             for signer in signature.signers().flatten() {
///                 println!("signed by {} {:02x?}", signer.issuer(), signer.serial());
///             }
///         }
///         Err(error) => println!("no signature: {error}"),
///     }
/// }
/// # Ok::<(), pe_c::Error>(())
/// ```
#[derive(Clone, Copy)]
pub struct Signature<'a> {
    bytes: &'a [u8],
    parts: sys::SignedData,
}

shown! { Signature<'_> { parts; .. } }

impl<'a> Signature<'a> {
    /// Reads the signature that the bytes start with; bytes after it pad it. Offsets in errors count from the start of the bytes.
    ///
    /// # Errors
    ///
    /// [`Error::SIGNATURE_CONTENT_TYPE`](crate::Error::SIGNATURE_CONTENT_TYPE) where the content is no signed data, and those of
    /// every element that is read: see [`SignatureError`].
    pub fn parse(bytes: &'a [u8]) -> Result<Self, SignatureError> {
        Signature::at(bytes, all(bytes))
    }

    fn at(bytes: &'a [u8], range: sys::Range) -> Result<Self, SignatureError> {
        Ok(Signature { bytes, parts: read(bytes, sys::pe_c_signature, range)? })
    }

    /// The type of what is signed: [`KnownOid::SPC_INDIRECT_DATA`] of an image, [`KnownOid::TST_INFO`] of a time stamp.
    pub fn content_type(&self) -> Oid<'a> {
        Oid::new(self.bytes, self.parts.content_type)
    }

    /// What is signed: an element of DER. `None` where it is detached.
    pub fn content(&self) -> Option<&'a [u8]> {
        (self.parts.has_content == 1).then(|| of(self.parts.content, self.bytes))
    }

    /// What the attribute `messageDigest` of a signer is the digest of: the content without its tag and length. `None` where it is
    /// detached.
    pub fn digested(&self) -> Option<&'a [u8]> {
        (self.parts.has_content == 1).then(|| of(self.parts.digested, self.bytes))
    }

    /// What Authenticode signs: the digest of the image. `None` where something else is signed.
    ///
    /// # Errors
    ///
    /// Those of the elements that it has.
    pub fn indirect_data(&self) -> Result<Option<IndirectData<'a>>, SignatureError> {
        if self.parts.content_type.id != KnownOid::SPC_INDIRECT_DATA.number() || self.parts.has_content == 0 {
            return Ok(None);
        }
        let parts = read(self.bytes, sys::pe_c_indirect_data, self.parts.content)?;
        Ok(Some(IndirectData { bytes: self.bytes, parts }))
    }

    /// What a time stamp says, where the signature is one. `None` where something else is signed.
    ///
    /// # Errors
    ///
    /// Those of the elements that it has.
    pub fn time_stamp(&self) -> Result<Option<TimeStamp<'a>>, SignatureError> {
        if self.parts.content_type.id != KnownOid::TST_INFO.number() || self.parts.has_content == 0 {
            return Ok(None);
        }
        TimeStamp::at(self.bytes, self.parts.content).map(Some)
    }

    /// The digest algorithms of all signers.
    pub fn digest_algorithms(&self) -> Algorithms<'a> {
        Algorithms(Elements::new(self.bytes, self.parts.digest_algorithms))
    }

    /// The certificates, in any order. One that is refused is an error of its own, and others follow it.
    pub fn certificates(&self) -> X509s<'a> {
        X509s::new(Elements::new(self.bytes, self.parts.certificates))
    }

    /// The signers: one in Authenticode.
    pub fn signers(&self) -> Signers<'a> {
        Signers::new(Elements::new(self.bytes, self.parts.signers))
    }

    /// The certificate of a signer, by its issuer and its serial number, among those of this signature. `None` where it is not
    /// there, or named by its key. Certificates that are refused are skipped.
    pub fn certificate_of(&self, signer: &Signer<'_>) -> Option<X509<'a>> {
        let issuer = signer.issuer().der();
        self.certificates()
            .flatten()
            .find(|it| !issuer.is_empty() && it.issuer().der() == issuer && it.serial() == signer.serial())
    }
}

impl<'a> Certificate<'a> {
    /// The signature that it holds. `None` where it is of another kind than PKCS #7, `WIN_CERT_TYPE_PKCS_SIGNED_DATA`.
    ///
    /// # Errors
    ///
    /// Those of [`Signature::parse`]. Offsets count from the start of the body.
    pub fn signature(&self) -> Result<Option<Signature<'a>>, SignatureError> {
        match self.kind {
            2 => Signature::parse(self.body).map(Some),
            _ => Ok(None),
        }
    }
}

/// What Authenticode signs, `SpcIndirectDataContent`: the digest of an image.
#[derive(Clone, Copy)]
pub struct IndirectData<'a> {
    bytes: &'a [u8],
    parts: sys::SpcIndirectData,
}

shown! { IndirectData<'_> { parts; .. } }

impl<'a> IndirectData<'a> {
    /// The type of what is signed: [`KnownOid::SPC_PE_IMAGE_DATA`] of an image.
    pub fn value_type(&self) -> Oid<'a> {
        Oid::new(self.bytes, self.parts.value_type)
    }

    /// What else is said of it, an element of DER: of an image `SpcPeImageData`. Empty where there is nothing.
    pub fn value(&self) -> &'a [u8] {
        of(self.parts.value, self.bytes)
    }

    /// The algorithm of the digest.
    pub fn digest_algorithm(&self) -> Algorithm<'a> {
        Algorithm { bytes: self.bytes, parts: self.parts.digest_algorithm }
    }

    /// The digest: of what [`Image::digest_ranges`](crate::Image::digest_ranges) says.
    pub fn digest(&self) -> &'a [u8] {
        of(self.parts.digest, self.bytes)
    }
}

/// An algorithm: of a digest, a signature or a key.
#[derive(Clone, Copy)]
pub struct Algorithm<'a> {
    bytes: &'a [u8],
    parts: sys::Algorithm,
}

impl fmt::Debug for Algorithm<'_> {
    fn fmt(&self, f: &mut fmt::Formatter<'_>) -> fmt::Result {
        let parameters = shown::Bytes(self.parameters());
        f.debug_struct("Algorithm").field("oid", &self.oid()).field("parameters", &parameters).finish()
    }
}

impl<'a> Algorithm<'a> {
    /// Which algorithm it is.
    pub fn oid(&self) -> Oid<'a> {
        Oid::new(self.bytes, self.parts.oid)
    }

    /// Its parameters, an element of DER; mostly NULL. Empty where they are absent.
    pub fn parameters(&self) -> &'a [u8] {
        of(self.parts.parameters, self.bytes)
    }
}

/// A walk over the elements of a list. It is over after an error.
#[derive(Clone)]
pub(crate) struct Elements<'a> {
    bytes: &'a [u8],
    walk: sys::Range,
    is_over: bool,
}

shown! { Elements<'_> { walk, is_over; .. } }

impl<'a> Elements<'a> {
    fn new(bytes: &'a [u8], walk: sys::Range) -> Self {
        Elements { bytes, walk, is_over: false }
    }
}

impl Iterator for Elements<'_> {
    type Item = Result<sys::DerElement, SignatureError>;

    fn next(&mut self) -> Option<Self::Item> {
        if self.is_over {
            return None;
        }
        let item = error::step(self.bytes, sys::pe_c_next_element, &mut self.walk).transpose();
        self.is_over = !matches!(item, Some(Ok(_)));
        item
    }
}

/// Declares an iterator over a list in a signature: its items, and how one is read of the bytes and the range of its element.
macro_rules! list {
    ($(#[$doc:meta])* $name:ident: $item:ident, $read:expr) => {
        $(#[$doc])*
        #[derive(Clone, Debug)]
        pub struct $name<'a>(pub(super) crate::signatures::Elements<'a>);

        impl<'a> Iterator for $name<'a> {
            type Item = Result<$item<'a>, crate::signatures::SignatureError>;

            fn next(&mut self) -> Option<Self::Item> {
                let bytes = self.0.bytes;
                Some(self.0.next()?.and_then(|element| $read(bytes, element.whole)))
            }
        }

        impl core::iter::FusedIterator for $name<'_> {}
    };
}

use list;

list! {
    /// Algorithms. One that is refused is an error of its own, and others follow it.
    Algorithms: Algorithm, |bytes, range| Ok(Algorithm { bytes, parts: read(bytes, sys::pe_c_algorithm_identifier, range)? })
}

impl FusedIterator for Elements<'_> {}
