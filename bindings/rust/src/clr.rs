//! The .NET runtime's parts of an image: the CLR header, and the metadata to which it leads. See
//! [ECMA-335](https://www.ecma-international.org/publications-and-standards/standards/ecma-335/), II.25.3.3 and II.24.2. An
//! image with a CLR header is one for the .NET runtime.

use crate::image::{bytes_of, up_to_zero, Error, Image};
use crate::shown::{self, shown};
use crate::sys;
use crate::walk::{items, Walk};

/// The CLR header of an image, with the metadata to which it leads.
///
/// ```
/// # #[path = "../tests/made/mod.rs"] mod made;
/// # let bytes = made::with_clr();
/// use pe_c::{Image, Mode};
///
/// let image = Image::parse(&bytes, Mode::Permissive)?;
/// let clr = image.clr()?.expect("the image is for the .NET runtime");
/// let metadata = clr.metadata()?;
/// assert_eq!(metadata.version(), "v4.0.30319");
/// for stream in metadata.streams() {
///     let stream = stream?;
///     println!("{} {:?}", stream.name.escape_ascii(), stream.content.map(<[u8]>::len));
/// }
/// # Ok::<(), pe_c::Error>(())
/// ```
#[derive(Clone, Copy)]
pub struct Clr<'i, 'a> {
    image: &'i Image<'a>,
    header: sys::ClrHeader,
}

shown! { Clr<'_, '_> { header; .. } }

impl<'a> Clr<'_, 'a> {
    /// The fields of the header, `IMAGE_COR20_HEADER`.
    pub fn header(&self) -> &sys::ClrHeader {
        &self.header
    }

    /// The root of the metadata.
    ///
    /// # Errors
    ///
    /// [`Error::UNMAPPED`]; [`Error::SHORT`] of the metadata, then of the root's first 16 bytes; [`Error::BAD_MAGIC`];
    /// [`Error::SHORT`] of the rest of the root.
    pub fn metadata(&self) -> Result<Metadata<'a>, Error> {
        let bytes = self.image.bytes();
        // The library never returns NOTHING here; `SHORT` stands in for a panic.
        let found = self.image.ask_of(sys::pe_c_clr_metadata, &self.header)?.ok_or(Error::SHORT)?;
        Ok(Metadata {
            bytes: bytes_of(found.streams.metadata, bytes)?,
            version_bytes: bytes_of(found.version, bytes)?,
            major_version: found.major_version,
            minor_version: found.minor_version,
            flags: found.flags,
            streams: Walk::new(bytes, found.streams),
        })
    }
}

/// The root of CLR metadata.
#[derive(Clone, Copy)]
pub struct Metadata<'a> {
    /// The metadata.
    pub bytes: &'a [u8],
    /// The version text, and the zeros after it.
    pub version_bytes: &'a [u8],
    /// The version of the metadata's format, major part.
    pub major_version: u16,
    /// The version of the metadata's format, minor part.
    pub minor_version: u16,
    /// Reserved.
    pub flags: u16,
    streams: Walk<'a, sys::MetadataStreams>,
}

shown! {
    Metadata<'_> {
        bytes: shown::Bytes, version_bytes: shown::Text, major_version, minor_version, flags, streams
    }
}

impl<'a> Metadata<'a> {
    /// The version of the runtime that the image was made for, such as `v4.0.30319`: the version text up to the first zero. Nothing
    /// where it is not UTF-8: `version_bytes` has it.
    pub fn version(&self) -> &'a str {
        core::str::from_utf8(up_to_zero(self.version_bytes)).unwrap_or_default()
    }

    /// The streams, in the order of their headers.
    pub fn streams(&self) -> MetadataStreams<'a> {
        MetadataStreams(self.streams)
    }
}

/// A stream of CLR metadata.
#[derive(Clone, Copy, Default, PartialEq, Eq)]
#[cfg_attr(feature = "serde", derive(serde::Serialize))]
#[non_exhaustive]
pub struct MetadataStream<'a> {
    /// `#~` the tables, `#Strings`, `#US`, `#GUID`, `#Blob` or another, without the final zero.
    #[cfg_attr(feature = "serde", serde(serialize_with = "crate::serialized::name"))]
    pub name: &'a [u8],
    /// The stream's bytes, `None` where they do not all lie in the metadata.
    #[cfg_attr(feature = "serde", serde(serialize_with = "crate::serialized::hex_or_none"))]
    pub content: Option<&'a [u8]>,
    /// From the start of the metadata, as the stream's header says.
    pub offset: u32,
    /// In bytes, as the stream's header says.
    pub size: u32,
}

shown! { MetadataStream<'_> { name: shown::Text, content: shown::bytes, offset, size } }

fn stream_of(found: sys::MetadataStream, bytes: &[u8]) -> Result<MetadataStream<'_>, Error> {
    let content = bytes_of(found.content, bytes)?;
    Ok(MetadataStream {
        name: bytes_of(found.name, bytes)?,
        content: (found.has_content != 0).then_some(content),
        offset: found.offset,
        size: found.size,
    })
}

items! {
    /// The streams of CLR metadata.
    ///
    /// An item is an error, and the last one: [`Error::SHORT`] of the stream header's first 8 bytes;
    /// [`Error::DIRECTORY_STREAM_NAME`] where its name does not end in 32 bytes; [`Error::SHORT`] of the zeros after the name.
    MetadataStreams<'a>(sys::MetadataStreams): MetadataStream<'a>, sys::pe_c_next_metadata_stream, stream_of
}

impl<'a> Image<'a> {
    /// The CLR header. `None` where the directory is absent.
    ///
    /// # Errors
    ///
    /// [`Error::UNMAPPED`], [`Error::SHORT`] of its 72 bytes; [`Error::DIRECTORY_CLR_HEADER_SIZE`].
    pub fn clr(&self) -> Result<Option<Clr<'_, 'a>>, Error> {
        Ok(self.ask(sys::pe_c_clr_header)?.map(|header| Clr { image: self, header }))
    }
}
