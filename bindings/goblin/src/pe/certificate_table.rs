//! The attribute certificate table: the signatures of an image, as a rule after all else in the file.
//! <https://learn.microsoft.com/windows/win32/debug/pe-format#the-attribute-certificate-table-image-only>

use super::{utils, write::put};
use crate::error;
use crate::raw::{self, Refusal};
use pe_c::sys::Range;
use scroll::{ctx, Pwrite};

/// The version of a certificate's header.
#[repr(u16)]
#[non_exhaustive]
#[derive(Debug, PartialEq, Copy, Clone)]
pub enum AttributeCertificateRevision {
    /// `WIN_CERT_REVISION_1_0`.
    Revision1_0 = 0x0100,
    /// `WIN_CERT_REVISION_2_0`.
    Revision2_0 = 0x0200,
}

impl TryFrom<u16> for AttributeCertificateRevision {
    type Error = error::Error;

    fn try_from(value: u16) -> error::Result<Self> {
        match value {
            0x0100 => Ok(Self::Revision1_0),
            0x0200 => Ok(Self::Revision2_0),
            _ => Err(error::Error::Malformed("Invalid certificate attribute revision".to_owned())),
        }
    }
}

/// What a certificate is.
#[repr(u16)]
#[derive(Debug, PartialEq, Copy, Clone)]
pub enum AttributeCertificateType {
    /// `WIN_CERT_TYPE_X509`.
    X509 = 1,
    /// `WIN_CERT_TYPE_PKCS_SIGNED_DATA`: an Authenticode signature.
    PkcsSignedData = 2,
    /// `WIN_CERT_TYPE_RESERVED_1`.
    Reserved1 = 3,
    /// `WIN_CERT_TYPE_TS_STACK_SIGNED`.
    TsStackSigned = 4,
}

impl TryFrom<u16> for AttributeCertificateType {
    type Error = error::Error;

    fn try_from(value: u16) -> error::Result<Self> {
        match value {
            1 => Ok(Self::X509),
            2 => Ok(Self::PkcsSignedData),
            3 => Ok(Self::Reserved1),
            4 => Ok(Self::TsStackSigned),
            _ => Err(error::Error::Malformed("Invalid attribute certificate type".to_owned())),
        }
    }
}

/// Bytes of a certificate's header.
const HEADER_SIZE: usize = 8;
/// In bytes: certificates start at multiples of it.
const ALIGNMENT: usize = 8;

/// A certificate, `WIN_CERTIFICATE`.
#[derive(Debug)]
pub struct AttributeCertificate<'a> {
    /// Bytes of the header and the body.
    pub length: u32,
    /// The version of the header.
    pub revision: AttributeCertificateRevision,
    /// What the body is.
    pub certificate_type: AttributeCertificateType,
    /// The body.
    pub certificate: &'a [u8],
}

impl<'a> AttributeCertificate<'a> {
    /// Reads the certificate at an offset, and moves the offset to where the next one starts. Errors, after which the offset is
    /// unchanged: `Scroll` past the end; `Malformed` where it is truncated, and for a revision or a type that is none.
    pub fn parse(bytes: &'a [u8], current_offset: &mut usize) -> error::Result<AttributeCertificate<'a>> {
        let mut walk = raw::rest(bytes, *current_offset);
        let found = next(bytes, &mut walk)?;
        let found = found.ok_or(scroll::Error::BadOffset(*current_offset))?;
        let certificate = Self::of(bytes, &found)?;
        // The walk ends with the bytes; goblin's offset may be past them by the padding.
        let end = *current_offset + HEADER_SIZE + certificate.certificate.len();
        *current_offset = end + utils::padding(end, ALIGNMENT);
        Ok(certificate)
    }

    fn of(bytes: &'a [u8], found: &pe_c::sys::Certificate) -> error::Result<Self> {
        Ok(AttributeCertificate {
            length: found.length,
            revision: found.revision.try_into()?,
            certificate_type: found.kind.try_into()?,
            certificate: raw::slice(bytes, found.body)?,
        })
    }

    /// Bytes of the header, the body and the padding.
    pub(crate) fn written_len(&self) -> usize {
        let end = HEADER_SIZE + self.certificate.len();
        end + utils::padding(end, ALIGNMENT)
    }
}

impl ctx::TryIntoCtx<scroll::Endian> for &AttributeCertificate<'_> {
    type Error = error::Error;

    /// Writes the certificate with zeros up to a multiple of eight. Error: `Scroll` where the buffer is too short.
    fn try_into_ctx(self, bytes: &mut [u8], ctx: scroll::Endian) -> error::Result<usize> {
        let offset = &mut 0;
        bytes.gwrite_with(self.length, offset, ctx)?;
        bytes.gwrite_with(self.revision as u16, offset, ctx)?;
        bytes.gwrite_with(self.certificate_type as u16, offset, ctx)?;
        put(bytes, self.certificate, offset)?;
        let zeros = [0; ALIGNMENT];
        put(bytes, &zeros[..utils::padding(*offset, ALIGNMENT)], offset)?;
        Ok(*offset)
    }
}

/// The certificates of an image.
pub type CertificateDirectoryTable<'a> = Vec<AttributeCertificate<'a>>;

/// The certificates of a table, which is at a file offset.
pub(crate) fn enumerate_certificates(
    bytes: &[u8],
    table_offset: u32,
    table_size: u32,
) -> error::Result<CertificateDirectoryTable<'_>> {
    let mut walk = Range { offset: table_offset.into(), length: table_size.into() };
    let mut found = Vec::new();
    while let Some(certificate) = next(bytes, &mut walk)? {
        raw::push(&mut found, AttributeCertificate::of(bytes, &certificate)?)?;
    }
    Ok(found)
}

/// The next certificate of a walk, or why there is none, with goblin's text.
fn next(bytes: &[u8], walk: &mut Range) -> error::Result<Option<pe_c::sys::Certificate>> {
    let before = *walk;
    raw::next_certificate(bytes, walk).map_err(|it| refused(bytes, before, it))
}

fn refused(bytes: &[u8], walk: Range, refusal: Refusal) -> error::Error {
    error::Error::Malformed(match refusal {
        Refusal::SHORT => return raw::short(bytes, walk.offset as usize, &[4, 2, 2]),
        Refusal::CERTIFICATE_TABLE => {
            "End of attribute certificates table is after the end of the PE binary".to_owned()
        }
        Refusal::CERTIFICATE_SIZE => {
            let needed = raw::certificate_failure(bytes, &walk).ok().flatten().map_or(0, |it| it.needed);
            let size = needed.saturating_sub(HEADER_SIZE as u64);
            format!("Unable to extract certificate. Probably cert_size:{size} is malformed")
        }
        Refusal::CERTIFICATE_REVISION => "Invalid certificate attribute revision".to_owned(),
        Refusal::CERTIFICATE_TYPE => "Invalid attribute certificate type".to_owned(),
        other => return other.into(),
    })
}
