//! What a signing tool needs of an image: the bytes that its Authenticode digest covers, its checksum, and certificates
//! attached and detached. A signature must survive being attached to the image that it signs, so the digest leaves out
//! three parts of the file: the checksum, the entry of the certificate directory, and the certificates. See
//! <https://learn.microsoft.com/windows/win32/debug/pe-format#process-for-generating-the-authenticode-pe-image-hash>.
//! A caller hashes what the digest covers by a crate of its choice, signs that, and attaches the signature.

use crate::coff::room_for;
use crate::image::{Error, Image};
use crate::shown::shown;
use crate::sys;
use alloc::vec::Vec;
use core::ops::Range;

/// What the Authenticode digest of an image covers: parts of the file, and then zeros. [`Image::digest_ranges`] has a
/// sample.
#[derive(Clone, Copy, PartialEq, Eq)]
pub struct DigestRanges<'a> {
    bytes: &'a [u8],
    found: sys::Digest,
}

shown! { DigestRanges<'_> { found; .. } }

impl<'a> DigestRanges<'a> {
    /// The parts as file ranges, in their order. None is empty, and none touches the next.
    pub fn ranges(&self) -> impl Iterator<Item = Range<usize>> {
        let found = self.found.ranges.into_iter().filter(|range| range.length > 0);
        found.map(|range| range.offset as usize..(range.offset + range.length) as usize)
    }

    /// The parts as slices of the file, in their order.
    pub fn slices(&self) -> impl Iterator<Item = &'a [u8]> {
        let bytes = self.bytes;
        // The ranges lie in the bytes.
        self.ranges().map(move |range| bytes.get(range).unwrap_or_default())
    }

    /// How many bytes of zero follow them, at most 7: as many as fill up the file without its certificates to a multiple of
    /// eight.
    pub fn zeros(&self) -> usize {
        self.found.zeros as usize
    }
}

/// The checksum that an image should have, and where it is.
#[derive(Clone, Copy, Debug, Default, PartialEq, Eq)]
#[cfg_attr(feature = "serde", derive(serde::Serialize))]
#[non_exhaustive]
pub struct Checksum {
    /// File offset of the field that holds it, 4 bytes, little-endian.
    pub offset: u64,
    /// What the field has to hold. What it holds is [`ImageInfo::checksum`](crate::ImageInfo::checksum).
    pub value: u32,
}

/// Where a certificate is attached.
#[derive(Clone, Copy, Debug, PartialEq, Eq, Hash)]
#[non_exhaustive]
pub enum Placement {
    /// After the certificates that are there.
    After = 0,
    /// In place of the certificates that are there.
    InPlace = 1,
}

/// How many bytes a write needs, which says so where it has no room.
pub(crate) fn length_of(write: impl FnOnce(&mut [u8], &mut u64) -> u32) -> Result<u64, Error> {
    let mut length = 0;
    match write(&mut [], &mut length) {
        sys::ROOM => Ok(length),
        number => Error::of(number).map(|()| length),
    }
}

/// The file that a write fills, as long as it asks for.
pub(crate) fn file_of(mut write: impl FnMut(&mut [u8], &mut u64) -> u32) -> Result<Vec<u8>, Error> {
    let length = usize::try_from(length_of(&mut write)?).map_err(|_| Error::MEMORY)?;
    let (mut file, mut written) = (room_for(length, 0)?, 0);
    Error::of(write(&mut file, &mut written))?;
    Ok(file)
}

impl<'a> Image<'a> {
    /// What the Authenticode digest of the image covers. The bytes of the image have to be those of the whole file; those of
    /// a module in memory are taken for a file.
    ///
    /// ```
    /// # let bytes: &[u8] = include_bytes!(concat!(env!("CARGO_MANIFEST_DIR"), "/../../crates/peinfo/data/i.bin"));
    /// use pe_c::{Image, Mode};
    ///
    /// let image = Image::parse(bytes, Mode::Strict)?;
    /// let digest = image.digest_ranges()?;
    /// // The checksum is at 0x98, the entry of the certificate directory at 0xE8, and the certificates start at 0x400.
    /// assert_eq!(digest.ranges().collect::<Vec<_>>(), [0..0x98, 0x9C..0xE8, 0xF0..0x400]);
    /// // A hash function takes the slices one after the other, and then the zeros.
    /// let mut input = digest.slices().collect::<Vec<_>>().concat();
    /// input.extend(vec![0; digest.zeros()]);
    /// assert_eq!(input.len(), 0x400 - 4 - 8);
    /// # Ok::<(), pe_c::Error>(())
    /// ```
    ///
    /// # Errors
    ///
    /// [`Error::NO_OPTIONAL_HEADER`].
    pub fn digest_ranges(&self) -> Result<DigestRanges<'a>, Error> {
        let found = self.ask(sys::pe_c_digest_ranges)?.unwrap_or_default();
        Ok(DigestRanges { bytes: self.bytes(), found })
    }

    /// The checksum that the image should have, and the file offset of its field. What the field holds makes no difference.
    /// The bytes of the image have to be those of the whole file.
    ///
    /// # Errors
    ///
    /// [`Error::NO_OPTIONAL_HEADER`].
    pub fn checksum(&self) -> Result<Checksum, Error> {
        let found = self.ask(sys::pe_c_checksum)?.unwrap_or_default();
        Ok(Checksum { offset: found.offset, value: found.value })
    }

    /// The file with a certificate: zeros up to a multiple of eight bytes and the certificate after the image, the entry of
    /// the certificate directory, and the checksum. What the digest covers stays as it was. Whether a signature is valid nothing
    /// here says. The certificate is one or more entries of a certificate table (`WIN_CERTIFICATE`), each of them but the last with its
    /// padding to a multiple of eight bytes.
    ///
    /// ```
    /// # let bytes: &[u8] = include_bytes!(concat!(env!("CARGO_MANIFEST_DIR"), "/../../crates/peinfo/data/i.bin"));
    /// use pe_c::{Image, Mode, Placement};
    ///
    /// let image = Image::parse(bytes, Mode::Strict)?;
    /// // 10 bytes, WIN_CERT_REVISION_2_0, WIN_CERT_TYPE_PKCS_SIGNED_DATA, and a body of two bytes.
    /// let certificate = [10, 0, 0, 0, 0, 2, 2, 0, 0xAB, 0xCD];
    /// let signed = image.attach(&certificate, Placement::InPlace)?;
    /// let signed = Image::parse(&signed, Mode::Strict)?;
    /// let bodies: Vec<_> = signed.certificates().map(|it| it.unwrap().body).collect();
    /// assert_eq!(bodies, [[0xAB, 0xCD]]);
    /// assert_eq!(signed.info().checksum, signed.checksum()?.value);
    /// # Ok::<(), pe_c::Error>(())
    /// ```
    ///
    /// # Errors
    ///
    /// - [`Error::NO_OPTIONAL_HEADER`]; [`Error::SIGN_NO_DIRECTORY`] if there are fewer than five data directories;
    /// - [`Error::CERTIFICATE_TABLE`] if the certificate table ends past the end of the file;
    ///   [`Error::SIGN_TABLE_NOT_LAST`] if it ends before that;
    /// - [`Error::SIGN_HEADERS`], [`Error::SIGN_SECTION`] if headers or the data of a section end after the start of the
    ///   table, or after the end of the file if there is none;
    /// - [`Error::SIGN_TABLE_OFFSET`] if the certificate is to go after others whose table is not at a multiple of eight;
    /// - [`Error::SHORT`], [`Error::CERTIFICATE_SIZE`] if the certificate has fewer than eight bytes, or than its first
    ///   entry says;
    /// - [`Error::SIGN_TOO_LARGE`] if the file with it has 2^32 bytes or more;
    /// - [`Error::MEMORY`] if it cannot be allocated.
    pub fn attach(&self, certificate: &[u8], placement: Placement) -> Result<Vec<u8>, Error> {
        let view = self.view();
        let (first, count, way) = (certificate.as_ptr(), certificate.len(), placement as u32);
        file_of(|room, written| {
            // SAFETY: the view is of what `self` lends for the call, the pointer and the length are those of one slice, and the room
            // is fresh, so it overlaps nothing.
            unsafe { sys::pe_c_attach(&view, first, count, way, room.as_mut_ptr(), room.len(), written) }
        })
    }

    /// The file without certificates: up to the certificate table, with zeros in the entry of the certificate directory, and
    /// with its checksum. What the digest covers stays as it was. An image without certificates stays as it is, but for its
    /// checksum.
    ///
    /// # Errors
    ///
    /// Those of [`Image::attach`] up to [`Error::SIGN_SECTION`]; [`Error::MEMORY`] if the file cannot be allocated.
    pub fn detach(&self) -> Result<Vec<u8>, Error> {
        let view = self.view();
        file_of(|room, written| {
            // SAFETY: the view is of what `self` lends for the call; the room is fresh.
            unsafe { sys::pe_c_detach(&view, room.as_mut_ptr(), room.len(), written) }
        })
    }
}
