//! The signers of a signature, and their attributes.

use super::error::{find_attribute, look, read};
use super::{list, of, Algorithm, Elements, KnownOid, Name, Oid, Signature, SignatureError, Time};
use crate::shown::shown;
use crate::sys;
use alloc::string::String;

/// A signer of a signature, or a counter-signature, `SignerInfo`. A verifier takes the certificate of this issuer and serial number,
/// compares [`message_digest`](Signer::message_digest) with the digest of what is signed, and checks the signature over
/// [`signed_bytes`](Signer::signed_bytes).
///
/// ```
/// # #[path = "../../tests/made/mod.rs"] mod made;
/// # let bytes = made::signature();
/// use pe_c::Signature;
///
/// let signature = Signature::parse(&bytes)?;
/// let signer = signature.signers().next().expect("it has a signer")?;
/// assert_eq!((signer.issuer().to_string().as_str(), signer.serial()), ("CN=R", [4, 3].as_slice()));
/// let certificate = signature.certificate_of(&signer).expect("its certificate is there");
/// assert_eq!(certificate.subject().to_string(), "CN=A,OU=Two+O=Probe,C=DE");
/// # Ok::<(), Box<dyn std::error::Error>>(())
/// ```
#[derive(Clone, Copy)]
pub struct Signer<'a> {
    bytes: &'a [u8],
    parts: sys::SignerInfo,
}

shown! { Signer<'_> { parts; .. } }

list! {
    /// The signers of a signature. One that is refused is an error of its own, and others follow it.
    Signers: Signer, Signer::at
}

impl<'a> Signers<'a> {
    pub(super) fn new(elements: Elements<'a>) -> Self {
        Signers(elements)
    }
}

impl<'a> Signer<'a> {
    fn at(bytes: &'a [u8], range: sys::Range) -> Result<Self, SignatureError> {
        Ok(Signer { bytes, parts: read(bytes, sys::pe_c_signer, range)? })
    }

    /// The issuer of the certificate. It is empty where the certificate is named by [`key_identifier`](Signer::key_identifier).
    pub fn issuer(&self) -> Name<'a> {
        Name::from_der(of(self.parts.issuer, self.bytes))
    }

    /// The serial number of the certificate: two's complement, the high byte first.
    pub fn serial(&self) -> &'a [u8] {
        of(self.parts.serial, self.bytes)
    }

    /// The subject key identifier of the certificate. `None` where it is named by issuer and serial number.
    pub fn key_identifier(&self) -> Option<&'a [u8]> {
        (self.parts.issuer.length == 0).then(|| of(self.parts.key_identifier, self.bytes))
    }

    /// The algorithm of [`message_digest`](Signer::message_digest), and of the digest that is signed.
    pub fn digest_algorithm(&self) -> Algorithm<'a> {
        Algorithm { bytes: self.bytes, parts: self.parts.digest_algorithm }
    }

    /// The algorithm of the signature.
    pub fn signature_algorithm(&self) -> Algorithm<'a> {
        Algorithm { bytes: self.bytes, parts: self.parts.signature_algorithm }
    }

    /// The signature. A counter-signature and a time stamp have the digest of these bytes.
    pub fn signature(&self) -> &'a [u8] {
        of(self.parts.signature, self.bytes)
    }

    /// What the signature is over: one octet, then these bytes. `None` where there are no signed attributes: then it is over
    /// [`Signature::digested`].
    pub fn signed_bytes(&self) -> Option<(u8, &'a [u8])> {
        let first = self.parts.signed_first as u8;
        (self.parts.has_signed_attributes == 1).then(|| (first, of(self.parts.signed_rest, self.bytes)))
    }

    /// The signed attributes.
    pub fn signed_attributes(&self) -> Attributes<'a> {
        Attributes(Elements::new(self.bytes, self.parts.signed_attributes))
    }

    /// The unsigned attributes: time stamps, nested signatures.
    pub fn unsigned_attributes(&self) -> Attributes<'a> {
        Attributes(Elements::new(self.bytes, self.parts.unsigned_attributes))
    }

    /// The digest of what is signed. `None` without the attribute, and where its value is no `OCTET STRING`.
    ///
    /// # Errors
    ///
    /// Those of the attributes up to this one, and of its value.
    pub fn message_digest(&self) -> Result<Option<&'a [u8]>, SignatureError> {
        let value = self.signed_value(KnownOid::MESSAGE_DIGEST)?;
        Ok(value.filter(|it| it.tag == 4).map(|it| of(it.content, self.bytes)))
    }

    /// The type of what is signed, as the signer has it: that of [`Signature::content_type`] ([RFC 5652], 11.1). `None` without the
    /// attribute, as of a counter-signature.
    ///
    /// [RFC 5652]: https://www.rfc-editor.org/rfc/rfc5652
    ///
    /// # Errors
    ///
    /// Those of the attributes up to this one, and of its value.
    pub fn content_type(&self) -> Result<Option<Oid<'a>>, SignatureError> {
        let value = self.signed_value(KnownOid::CONTENT_TYPE)?;
        value.map(|it| Oid::of_element(self.bytes, &it)).transpose()
    }

    /// When the signer says to have signed. `None` without the attribute.
    ///
    /// # Errors
    ///
    /// Those of the attributes up to this one, and of its value.
    pub fn signing_time(&self) -> Result<Option<Time>, SignatureError> {
        let value = self.signed_value(KnownOid::SIGNING_TIME)?;
        value.map(|it| Time::at(self.bytes, it.whole)).transpose()
    }

    /// What the signer says of the program. `None` without the attribute.
    ///
    /// # Errors
    ///
    /// Those of the attributes up to this one, and of its value.
    pub fn opus_info(&self) -> Result<Option<OpusInfo<'a>>, SignatureError> {
        let Some(value) = self.signed_value(KnownOid::SPC_SP_OPUS_INFO)? else { return Ok(None) };
        Ok(Some(OpusInfo { bytes: self.bytes, parts: read(self.bytes, sys::pe_c_opus_info, value.whole)? }))
    }

    /// The counter-signatures: time stamps as signers, by PKCS #9. The time is their [`signing_time`](Signer::signing_time), and
    /// their [`message_digest`](Signer::message_digest) that of [`signature`](Signer::signature).
    pub fn counter_signatures(&self) -> impl Iterator<Item = Result<Signer<'a>, SignatureError>> + 'a {
        let bytes = self.bytes;
        self.values(KnownOid::COUNTER_SIGNATURE).map(move |value| Signer::at(bytes, value?.whole))
    }

    /// The time stamps by RFC 3161: what each says is its [`Signature::time_stamp`].
    pub fn time_stamps(&self) -> impl Iterator<Item = Result<Signature<'a>, SignatureError>> + 'a {
        let bytes = self.bytes;
        self.values(KnownOid::TIME_STAMP_TOKEN).map(move |value| Signature::at(bytes, value?.whole))
    }

    /// The nested signatures: more signatures of the image. A caller that goes into theirs bounds how deep.
    pub fn nested_signatures(&self) -> impl Iterator<Item = Result<Signature<'a>, SignatureError>> + 'a {
        let bytes = self.bytes;
        self.values(KnownOid::NESTED_SIGNATURE).map(move |value| Signature::at(bytes, value?.whole))
    }

    /// The first value of a signed attribute.
    fn signed_value(&self, kind: KnownOid) -> Result<Option<sys::DerElement>, SignatureError> {
        match self.signed_attributes().find_kind(kind)? {
            Some(attribute) => Elements::new(self.bytes, attribute.parts.values).next().transpose(),
            None => Ok(None),
        }
    }

    /// The values of all unsigned attributes of a kind. An attribute that is refused is an error of its own.
    fn values(&self, kind: KnownOid) -> impl Iterator<Item = Result<sys::DerElement, SignatureError>> + 'a {
        let (bytes, mut attributes) = (self.bytes, self.unsigned_attributes());
        core::iter::from_fn(move || attributes.find_kind(kind).transpose()).flat_map(move |attribute| {
            let (values, error) = match attribute {
                Ok(it) => (it.parts.values, None),
                Err(error) => (sys::Range::default(), Some(Err(error))),
            };
            Elements::new(bytes, values).chain(error)
        })
    }
}

/// An attribute of a signer.
#[derive(Clone, Copy)]
pub struct Attribute<'a> {
    bytes: &'a [u8],
    parts: sys::SignerAttribute,
}

shown! { Attribute<'_> { parts; .. } }

list! {
    /// Attributes of a signer. One that is refused is an error of its own, and others follow it.
    Attributes: Attribute, |bytes, range| Ok(Attribute { bytes, parts: read(bytes, sys::pe_c_attribute, range)? })
}

impl<'a> Attributes<'a> {
    /// The next attribute of this kind. `None` without one.
    ///
    /// # Errors
    ///
    /// That of the first attribute that is refused, if it stands before one of this kind; others follow it.
    pub fn find_kind(&mut self, kind: KnownOid) -> Result<Option<Attribute<'a>>, SignatureError> {
        let bytes = self.0.bytes;
        let found = find_attribute(bytes, &mut self.0.walk, kind.number())?;
        Ok(found.map(|parts| Attribute { bytes, parts }))
    }
}

impl<'a> Attribute<'a> {
    /// Which attribute it is.
    pub fn kind(&self) -> Oid<'a> {
        Oid::new(self.bytes, self.parts.kind)
    }

    /// Its values, elements of DER; most attributes have one. After an error there are no more.
    pub fn values(&self) -> impl Iterator<Item = Result<&'a [u8], SignatureError>> + 'a {
        let bytes = self.bytes;
        Elements::new(bytes, self.parts.values).map(move |element| Ok(of(element?.whole, bytes)))
    }
}

/// What a signer says of the program, `SpcSpOpusInfo`.
#[derive(Clone, Copy)]
pub struct OpusInfo<'a> {
    bytes: &'a [u8],
    parts: sys::SpcOpusInfo,
}

shown! { OpusInfo<'_> { parts; .. } }

impl OpusInfo<'_> {
    /// The name of the program. Characters that are not valid are replaced. `None` without a name.
    pub fn program_name(&self) -> Option<String> {
        let text = of(self.parts.program_name, self.bytes);
        match self.parts.program_name_tag {
            0x80 => Some(super::name::utf16(text)),
            0x81 => Some(String::from_utf8_lossy(text).into_owned()),
            _ => None,
        }
    }

    /// Where more is said, a URL. Characters that are not valid are replaced. `None` without one, and where it is a file or an
    /// object.
    pub fn url(&self) -> Option<String> {
        (self.parts.more_info_tag == 0x80)
            .then(|| String::from_utf8_lossy(of(self.parts.more_info, self.bytes)).into_owned())
    }
}

/// What an extension says the key is for, if it says so.
pub(super) fn key_usage_at(bytes: &[u8], range: sys::Range) -> Result<Option<u32>, SignatureError> {
    look(bytes, sys::pe_c_key_usage, range)
}
