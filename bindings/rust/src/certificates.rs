//! The attribute certificate table holds the Authenticode signatures of an image: certificates one after the other, each
//! aligned to 8 bytes. It is not part of the image in memory, so its directory has a file offset. See
//! <https://learn.microsoft.com/windows/win32/debug/pe-format#the-attribute-certificate-table-image-only>.
//! A caller takes the body of type 2 (PKCS #7) to check the signature.

use crate::failure::Failure;
use crate::image::{bytes_of, DirectoryIndex, Error, Image, Layout};
use crate::shown::{self, shown};
use crate::sys;
use crate::walk::{items, Walk};

/// An attribute certificate, `WIN_CERTIFICATE`.
#[derive(Clone, Copy, Default, PartialEq, Eq)]
#[cfg_attr(feature = "serde", derive(serde::Serialize))]
#[non_exhaustive]
pub struct Certificate<'a> {
    /// `dwLength`: bytes of header and body.
    pub length: u32,
    /// `WIN_CERT_REVISION_1_0` 0x100 or `_2_0` 0x200.
    pub revision: u16,
    /// `WIN_CERT_TYPE_X509` 1, `_PKCS_SIGNED_DATA` 2, `_RESERVED_1` 3 or `_TS_STACK_SIGNED` 4.
    pub kind: u16,
    /// What follows the header of 8 bytes.
    #[cfg_attr(feature = "serde", serde(serialize_with = "crate::serialized::hex"))]
    pub body: &'a [u8],
}

shown! { Certificate<'_> { length, revision, kind, body: shown::Bytes } }

fn certificate_of(found: sys::Certificate, bytes: &[u8]) -> Result<Certificate<'_>, Error> {
    let sys::Certificate { length, revision, kind, .. } = found;
    Ok(Certificate { length, revision, kind, body: bytes_of(found.body, bytes)? })
}

items! {
    /// The certificates of an image, in the order of the table. The body of the last may end past the table, not past the
    /// file.
    ///
    /// An item is an error, and the last one: [`Error::CERTIFICATE_TABLE`] where the table ends past the end of the file;
    /// [`Error::SHORT`] of the header; [`Error::CERTIFICATE_SIZE`], [`Error::CERTIFICATE_REVISION`],
    /// [`Error::CERTIFICATE_TYPE`].
    ///
    /// ```
    /// # let bytes: &[u8] = include_bytes!(concat!(env!("CARGO_MANIFEST_DIR"), "/../../crates/peinfo/data/i.bin"));
    /// use pe_c::{Image, Mode};
    ///
    /// let image = Image::parse(bytes, Mode::Strict)?;
    /// for certificate in image.certificates() {
    ///     let certificate = certificate?;
    ///     assert_eq!(certificate.kind, 2); // WIN_CERT_TYPE_PKCS_SIGNED_DATA
    ///     assert_eq!((certificate.length, certificate.body.len()), (9, 1));
    /// }
    /// # Ok::<(), pe_c::Error>(())
    /// ```
    Certificates<'a>(sys::Range): Certificate<'a>, sys::pe_c_next_certificate, certificate_of
}

impl Certificates<'_> {
    /// Why the item that is an error is one: the error with its numbers. `None` where no item was an error.
    pub fn failure(&self) -> Option<Failure> {
        self.0.failure(sys::pe_c_certificate_failure)
    }
}

impl<'a> Image<'a> {
    /// The attribute certificates. There are none without a certificate directory, and none in a module in memory.
    pub fn certificates(&self) -> Certificates<'a> {
        let walk = match (self.layout(), self.info().directory(DirectoryIndex::Security)) {
            (Layout::File, Some(table)) => {
                sys::Range { offset: u64::from(table.virtual_address), length: u64::from(table.size) }
            }
            // The directory has a file offset, where a module in memory has something else.
            _ => sys::Range::default(),
        };
        Certificates(Walk::new(self.bytes(), walk))
    }
}
