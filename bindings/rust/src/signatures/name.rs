//! Names of issuers and subjects.

use super::error::{read, step};
use super::{all, of, KnownOid, Oid, SignatureError};
use crate::shown::{self, shown};
use crate::sys;
use alloc::borrow::Cow;
use alloc::string::String;
use alloc::vec::Vec;
use core::fmt::{self, Write};
use core::iter::FusedIterator;

/// A name: of an issuer or a subject. Its text is that of [RFC 4514](https://www.rfc-editor.org/rfc/rfc4514), as
/// `CN=A,OU=Two+O=Probe,C=DE`: the relative distinguished names in reverse order, and `<damaged>` in place of what is refused.
///
/// ```
/// # #[path = "../../tests/made/mod.rs"] mod made;
/// # let bytes = made::signature();
/// use pe_c::{KnownOid, Signature};
///
/// let signature = Signature::parse(&bytes)?;
/// let certificate = signature.certificates().next().expect("it has a certificate")?;
/// let subject = certificate.subject();
/// assert_eq!(subject.to_string(), "CN=A,OU=Two+O=Probe,C=DE");
/// assert_eq!(subject.get(KnownOid::COMMON_NAME).as_deref(), Some("A"));
/// # Ok::<(), Box<dyn std::error::Error>>(())
/// ```
#[derive(Clone, Copy, PartialEq, Eq)]
pub struct Name<'a> {
    der: &'a [u8],
}

impl<'a> Name<'a> {
    /// The name that the bytes start with, as DER.
    pub fn from_der(der: &'a [u8]) -> Self {
        Name { der }
    }

    /// All of it, as DER. Two names that are the same bytes are the same.
    pub fn der(&self) -> &'a [u8] {
        self.der
    }

    /// Its attributes, in the order of the name: the country mostly first. After an error there are no more. Offsets in errors
    /// count from the start of the name.
    pub fn attributes(&self) -> NameAttributes<'a> {
        match read(self.der, sys::pe_c_name, all(self.der)) {
            Ok(walk) => NameAttributes { bytes: self.der, walk, first: None, is_over: self.der.is_empty() },
            Err(error) => {
                let walk = sys::NameWalk::default();
                NameAttributes { bytes: self.der, walk, first: Some(error), is_over: self.der.is_empty() }
            }
        }
    }

    /// The value of the last attribute of this kind, such as [`KnownOid::COMMON_NAME`]. `None` without one before the first error.
    pub fn get(&self, kind: KnownOid) -> Option<Cow<'a, str>> {
        let found = self.attributes().map_while(Result::ok).filter(|it| it.kind() == kind).last()?;
        found.text()
    }
}

impl fmt::Display for Name<'_> {
    fn fmt(&self, f: &mut fmt::Formatter<'_>) -> fmt::Result {
        let mut attributes = Vec::new();
        let mut is_damaged = false;
        for attribute in self.attributes() {
            match attribute {
                Ok(attribute) => {
                    attributes.try_reserve(1).map_err(|_| fmt::Error)?;
                    attributes.push(attribute);
                }
                Err(_) => is_damaged = true,
            }
        }
        if is_damaged {
            f.write_str("<damaged>")?;
        }
        let mut end = attributes.len();
        while end > 0 {
            let start = attributes[..end].iter().rposition(NameAttribute::starts_rdn).unwrap_or(0);
            for (i, attribute) in attributes[start..end].iter().enumerate() {
                let before = match i {
                    0 if end == attributes.len() && !is_damaged => "",
                    0 => ",",
                    _ => "+",
                };
                write!(f, "{before}{attribute}")?;
            }
            end = start;
        }
        Ok(())
    }
}

impl fmt::Debug for Name<'_> {
    fn fmt(&self, f: &mut fmt::Formatter<'_>) -> fmt::Result {
        f.debug_tuple("Name").field(&shown::Written(self)).finish()
    }
}

/// The attributes of a name. After an error it is over.
#[derive(Clone)]
pub struct NameAttributes<'a> {
    bytes: &'a [u8],
    walk: sys::NameWalk,
    first: Option<SignatureError>,
    is_over: bool,
}

shown! { NameAttributes<'_> { walk, first, is_over; .. } }

impl<'a> Iterator for NameAttributes<'a> {
    type Item = Result<NameAttribute<'a>, SignatureError>;

    fn next(&mut self) -> Option<Self::Item> {
        if self.is_over {
            return None;
        }
        let bytes = self.bytes;
        let item = match self.first.take() {
            Some(error) => Some(Err(error)),
            None => step(bytes, sys::pe_c_next_name_attribute, &mut self.walk).transpose(),
        };
        self.is_over = !matches!(item, Some(Ok(_)));
        Some(item?.map(|parts| NameAttribute { bytes, parts }))
    }
}

impl FusedIterator for NameAttributes<'_> {}

/// An attribute of a name. Its text is that of RFC 4514, as `CN=A`.
#[derive(Clone, Copy)]
pub struct NameAttribute<'a> {
    bytes: &'a [u8],
    parts: sys::NameAttribute,
}

impl<'a> NameAttribute<'a> {
    /// Which attribute it is.
    pub fn kind(&self) -> Oid<'a> {
        Oid::new(self.bytes, self.parts.kind)
    }

    /// The tag of the value: `PrintableString` 0x13, `UTF8String` 0x0C, `IA5String` 0x16, `BMPString` 0x1E, ..
    pub fn tag(&self) -> u8 {
        self.parts.tag as u8
    }

    /// The content of the value.
    pub fn value(&self) -> &'a [u8] {
        of(self.parts.value, self.bytes)
    }

    /// Whether it is the first of its relative distinguished name; mostly each is the only one.
    pub fn starts_rdn(&self) -> bool {
        self.parts.starts_rdn == 1
    }

    /// The value as a text. Characters that are not valid are replaced. `None` where the value is no string.
    pub fn text(&self) -> Option<Cow<'a, str>> {
        match self.tag() {
            // UTF8String, and NumericString, PrintableString, IA5String, VisibleString, whose characters are ASCII.
            0x0C | 0x12 | 0x13 | 0x16 | 0x1A => Some(String::from_utf8_lossy(self.value())),
            // TeletexString, as Latin-1, which is what it mostly has.
            0x14 => Some(self.value().iter().map(|byte| char::from(*byte)).collect::<String>().into()),
            // BMPString.
            0x1E => Some(utf16(self.value()).into()),
            _ => None,
        }
    }

    /// The descriptor that LDAP has for its kind.
    fn descriptor(&self) -> Option<&'static str> {
        Some(match self.kind().known()? {
            KnownOid::COMMON_NAME => "CN",
            KnownOid::SERIAL_NUMBER => "serialNumber",
            KnownOid::COUNTRY => "C",
            KnownOid::LOCALITY => "L",
            KnownOid::STATE => "ST",
            KnownOid::STREET => "STREET",
            KnownOid::ORGANIZATION => "O",
            KnownOid::ORGANIZATIONAL_UNIT => "OU",
            KnownOid::BUSINESS_CATEGORY => "businessCategory",
            KnownOid::POSTAL_CODE => "postalCode",
            KnownOid::DOMAIN_COMPONENT => "DC",
            KnownOid::USER_ID => "UID",
            KnownOid::EMAIL_ADDRESS => "emailAddress",
            _ => return None,
        })
    }

    /// `#` and the value's octets in hexadecimal, with tag and length.
    fn write_octets(&self, f: &mut fmt::Formatter<'_>) -> fmt::Result {
        let value = self.value();
        write!(f, "#{:02X}", self.tag())?;
        let length = value.len().to_be_bytes();
        match length.iter().position(|byte| *byte != 0).map(|first| &length[first..]) {
            Some(octets) if value.len() >= 128 => {
                write!(f, "{:02X}", 128 + octets.len())?;
                octets.iter().try_for_each(|octet| write!(f, "{octet:02X}"))?;
            }
            _ => write!(f, "{:02X}", value.len())?,
        }
        value.iter().try_for_each(|octet| write!(f, "{octet:02X}"))
    }
}

impl fmt::Display for NameAttribute<'_> {
    fn fmt(&self, f: &mut fmt::Formatter<'_>) -> fmt::Result {
        match (self.descriptor(), self.text()) {
            (Some(descriptor), Some(text)) => {
                write!(f, "{descriptor}=")?;
                write_escaped(&text, f)
            }
            (Some(descriptor), None) => {
                write!(f, "{descriptor}=")?;
                self.write_octets(f)
            }
            (None, _) => {
                write!(f, "{}=", self.kind())?;
                self.write_octets(f)
            }
        }
    }
}

impl fmt::Debug for NameAttribute<'_> {
    fn fmt(&self, f: &mut fmt::Formatter<'_>) -> fmt::Result {
        f.debug_tuple("NameAttribute").field(&shown::Written(self)).finish()
    }
}

/// Writes a text as RFC 4514, 2.4 escapes it. Control characters are escaped too, as its octets.
fn write_escaped(text: &str, f: &mut fmt::Formatter<'_>) -> fmt::Result {
    let last = text.char_indices().last().map(|(i, _)| i);
    for (i, c) in text.char_indices() {
        match c {
            ' ' if i == 0 || Some(i) == last => f.write_str("\\ ")?,
            '#' if i == 0 => f.write_str("\\#")?,
            '"' | '+' | ',' | ';' | '<' | '>' | '\\' => write!(f, "\\{c}")?,
            c if c.is_control() => {
                let mut octets = [0; 4];
                c.encode_utf8(&mut octets).bytes().try_for_each(|octet| write!(f, "\\{octet:02X}"))?;
            }
            c => f.write_char(c)?,
        }
    }
    Ok(())
}

/// A text in UTF-16, the high byte first. Characters that are not valid are replaced.
pub(super) fn utf16(text: &[u8]) -> String {
    let units = text.chunks_exact(2).map(|pair| u16::from_be_bytes([pair[0], pair[1]]));
    char::decode_utf16(units).map(|c| c.unwrap_or(char::REPLACEMENT_CHARACTER)).collect()
}
