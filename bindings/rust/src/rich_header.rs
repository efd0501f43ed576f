//! The Rich header, which Microsoft's linker writes between the DOS stub and the PE header: which tools made the objects of
//! the image. Microsoft does not document it; [this page](https://www.ntcore.com/files/richsign.htm) does. A scanner compares
//! it with those of known files.

use crate::image::{returned, Error, Image};
use crate::shown::shown;
use crate::sys;
use crate::walk::next_of;
use core::iter::FusedIterator;

/// An entry of a Rich header: a tool, and how many objects of the image it made.
pub type RichEntry = sys::RichEntry;

/// The Rich header of an image.
#[derive(Clone, Copy)]
pub struct RichHeader<'a> {
    /// What the header is XORed with.
    pub key: u32,
    /// The checksum of the DOS header, the DOS stub and the entries, which the linker takes as the key.
    pub checksum: u32,
    /// How many entries there are.
    pub count: u64,
    bytes: &'a [u8],
    entries: sys::Range,
}

shown! { RichHeader<'_> { key, checksum, count, entries; .. } }

/// The entries of a Rich header, without the key.
#[derive(Clone)]
pub struct RichEntries<'a> {
    bytes: &'a [u8],
    key: u32,
    /// `None` where the walk is over.
    walk: Option<sys::Range>,
}

shown! { RichEntries<'_> { key, walk; .. } }

impl<'a> RichHeader<'a> {
    /// Whether the key is the checksum, so that nobody changed what the checksum covers.
    pub fn key_is_checksum(&self) -> bool {
        self.key == self.checksum
    }

    /// The entries. No item is an error.
    pub fn entries(&self) -> RichEntries<'a> {
        RichEntries { bytes: self.bytes, key: self.key, walk: Some(self.entries) }
    }
}

impl Iterator for RichEntries<'_> {
    type Item = Result<RichEntry, Error>;

    fn next(&mut self) -> Option<Self::Item> {
        let RichEntries { bytes, key, walk } = self;
        // SAFETY: the pointer and the length are those of one slice; the records are lent for the call.
        next_of(walk, |walk, out| unsafe { sys::pe_c_next_rich_entry(bytes.as_ptr(), bytes.len(), *key, walk, out) })
    }
}

impl FusedIterator for RichEntries<'_> {}

impl<'a> Image<'a> {
    /// The Rich header. `None` where the image has none. An image as loaded has it too.
    ///
    /// ```
    /// # #[path = "../tests/made/mod.rs"] mod made;
    /// # let bytes = made::with_rich_header();
    /// use pe_c::{Image, Mode};
    ///
    /// let image = Image::parse(&bytes, Mode::Permissive)?;
    /// let header = image.rich_header()?.expect("the image has a Rich header");
    /// assert!(header.key_is_checksum());
    /// for entry in header.entries() {
    ///     let entry = entry?;
    ///     println!("tool {}, build {}: {} objects", entry.product, entry.build, entry.count);
    /// }
    /// # Ok::<(), pe_c::Error>(())
    /// ```
    ///
    /// # Errors
    ///
    /// None of an image that was parsed.
    pub fn rich_header(&self) -> Result<Option<RichHeader<'a>>, Error> {
        let (bytes, mut out) = (self.bytes(), sys::RichHeader::default());
        // SAFETY: as in `RichEntries::next`.
        let number = unsafe { sys::pe_c_rich_header(bytes.as_ptr(), bytes.len(), &mut out) };
        Ok(returned(number, out)?.map(|found| RichHeader {
            key: found.key,
            checksum: found.checksum,
            count: found.count,
            bytes,
            entries: found.entries,
        }))
    }
}
