//! TE images, as firmware has them: of an image the sections, and a header of 40 bytes in place of all others. RVAs and file
//! offsets in the file count from the start of the headers that were stripped; here they are reduced by how many bytes the file is
//! shorter, so that an RVA is a file offset. The layout is in the
//! [UEFI specification](https://uefi.org/specs/PI/1.8/V1_TE_Image.html).

use crate::coff::sections_of;
use crate::debug::{DebugRecords, SymbolKey, IMAGE_DEBUG_TYPE_CODEVIEW};
use crate::image::Error;
use crate::shown::{self, shown};
use crate::sys::{self, DebugEntry, Section, TeHeader};
use crate::walk::{ask_of_bytes, next_of};
use alloc::vec::Vec;
use core::fmt;
use core::iter::FusedIterator;

/// A TE image: its header and its sections.
///
/// ```
/// # #[path = "../tests/made/mod.rs"] mod made;
/// # let bytes = made::te_image();
/// use pe_c::Te;
///
/// let te = Te::parse(&bytes)?;
/// assert_eq!((te.header().machine, te.sections()[0].virtual_address), (0x8664, 0x1000));
/// let key = te.symbol_key()?.expect("the image has a PDB");
/// assert_eq!((key.name(), key.age), (b"a.pdb".as_slice(), 9));
/// # Ok::<(), Box<dyn std::error::Error>>(())
/// ```
#[derive(Clone)]
pub struct Te<'a> {
    bytes: &'a [u8],
    header: TeHeader,
    sections: Vec<Section>,
}

impl fmt::Debug for Te<'_> {
    fn fmt(&self, f: &mut fmt::Formatter<'_>) -> fmt::Result {
        f.debug_struct("Te").field("header", &self.header).field("sections", &shown::Sections(&self.sections)).finish()
    }
}

impl<'a> Te<'a> {
    /// Reads the header and the section headers.
    ///
    /// # Errors
    ///
    /// [`Error::SHORT`], [`Error::BAD_MAGIC`] of the header; [`Error::TE_SIZE`]; [`Error::MEMORY`] where the section headers
    /// cannot be allocated, at most 255 of 40 bytes; [`Error::SHORT`] where they are truncated.
    pub fn parse(bytes: &'a [u8]) -> Result<Self, Error> {
        let mut header = TeHeader::default();
        // SAFETY: the pointer and the length are those of one slice; the record is lent for the call.
        Error::of(unsafe { sys::pe_c_te(bytes.as_ptr(), bytes.len(), &mut header) })?;
        let sections = sections_of(header.number_of_sections.into(), |room, count| {
            // SAFETY: as above, and of the vector.
            unsafe { sys::pe_c_te_sections(bytes.as_ptr(), bytes.len(), &header, room, count) }
        })?;
        Ok(Te { bytes, header, sections })
    }

    /// The bytes of the image.
    pub fn bytes(&self) -> &'a [u8] {
        self.bytes
    }

    /// The header, its RVAs reduced.
    pub fn header(&self) -> &TeHeader {
        &self.header
    }

    /// The section headers, in the order of the file, their RVAs and raw pointers reduced.
    pub fn sections(&self) -> &[Section] {
        &self.sections
    }

    /// The entries of the debug directory, the RVAs and file offsets of their records reduced; none where it is
    /// absent.
    ///
    /// # Errors
    ///
    /// [`Error::DEBUG_BOUNDS`].
    pub fn debug_entries(&self) -> Result<TeDebugEntries<'a>, Error> {
        let walk = ask_of_bytes(self.bytes, sys::pe_c_te_debug_entries, &self.header)?;
        Ok(TeDebugEntries { bytes: self.bytes, header: self.header, walk })
    }

    /// The first entry of a type, `IMAGE_DEBUG_TYPE_` of winnt.h. `None` where there is none.
    ///
    /// # Errors
    ///
    /// [`Error::DEBUG_BOUNDS`].
    pub fn first_debug_entry(&self, data_type: u32) -> Result<Option<DebugEntry>, Error> {
        Ok(self.debug_entries()?.flatten().find(|entry| entry.data_type == data_type))
    }

    /// The key by which a symbol server files the symbols of the image, of its first CodeView entry. `None` where there is no
    /// such entry, or its record is not one of PDB 7.0.
    ///
    /// # Errors
    ///
    /// Those of [`Te::first_debug_entry`]; then [`Error::DEBUG_SIZE`], [`Error::SHORT`], [`Error::DEBUG_DATA`] of the record.
    pub fn symbol_key(&self) -> Result<Option<SymbolKey<'a>>, Error> {
        let Some(entry) = self.first_debug_entry(IMAGE_DEBUG_TYPE_CODEVIEW)? else { return Ok(None) };
        DebugRecords::of_entry(self.bytes, sys::MAPPED, &entry, IMAGE_DEBUG_TYPE_CODEVIEW).symbol_key
    }
}

/// The entries of the debug directory of a TE image.
#[derive(Clone)]
pub struct TeDebugEntries<'a> {
    bytes: &'a [u8],
    header: TeHeader,
    walk: Option<sys::Range>,
}

shown! { TeDebugEntries<'_> { header, walk; .. } }

impl Iterator for TeDebugEntries<'_> {
    type Item = Result<DebugEntry, Error>;

    fn next(&mut self) -> Option<Self::Item> {
        let TeDebugEntries { bytes, header, walk } = self;
        next_of(walk, |moved, out| {
            // SAFETY: the pointer and the length are those of one slice; the records are lent for the call.
            unsafe { sys::pe_c_next_te_debug_entry(bytes.as_ptr(), bytes.len(), header, moved, out) }
        })
    }
}

impl FusedIterator for TeDebugEntries<'_> {}
