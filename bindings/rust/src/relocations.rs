//! Base relocations: what to change in an image that is not at its preferred base, in blocks of one page each. See
//! <https://learn.microsoft.com/windows/win32/debug/pe-format#the-reloc-section-image-only>.

use crate::failure::{found, Failure};
use crate::image::{returned, Error, Image};
use crate::shown::shown;
use crate::signing::file_of;
use crate::sys;
use crate::walk::{items, next_of, Walk};
use alloc::vec::Vec;
use core::iter::FusedIterator;

/// A block of base relocations.
///
/// ```
/// # #[path = "../tests/made/mod.rs"] mod made;
/// # let bytes = made::with_relocations();
/// use pe_c::{Image, Mode};
///
/// let image = Image::parse(&bytes, Mode::Permissive)?;
/// let block = image.relocation_blocks()?.next().expect("the image has relocations")?;
/// let first = block.relocations().next().expect("the block has entries")?;
/// assert_eq!((block.page_rva, first.rva, first.kind), (0x1000, 0x1008, 10)); // IMAGE_REL_BASED_DIR64
/// # Ok::<(), Box<dyn std::error::Error>>(())
/// ```
#[derive(Clone, Copy)]
pub struct RelocationBlock<'a> {
    /// RVA of the page that its relocations count from.
    pub page_rva: u32,
    bytes: &'a [u8],
    entries: sys::Range,
}

shown! { RelocationBlock<'_> { page_rva, entries; .. } }

/// A base relocation.
#[derive(Clone, Copy, Debug, Default, PartialEq, Eq)]
#[cfg_attr(feature = "serde", derive(serde::Serialize))]
#[non_exhaustive]
pub struct Relocation {
    /// RVA of what to change; in a hostile block it may pass 32 bits.
    pub rva: u64,
    /// `IMAGE_REL_BASED_*` of winnt.h, below 16. 0 fills up a block and changes nothing.
    pub kind: u8,
    /// The low 16 bits of the number that `IMAGE_REL_BASED_HIGHADJ`, 4, changes.
    pub argument: Option<u16>,
}

/// `IMAGE_REL_BASED_HIGHADJ`, the kind that has an argument.
const HIGHADJ: u32 = 4;

fn block_of(found: sys::RelocationBlock, bytes: &[u8]) -> Result<RelocationBlock<'_>, Error> {
    Ok(RelocationBlock { page_rva: found.page_rva, bytes, entries: found.entries })
}

items! {
    /// The blocks of an image's base relocations, up to one of zeros, page and size.
    ///
    /// An item is an error, and the last one: [`Error::SHORT`] of the header; [`Error::DIRECTORY_BLOCK_SIZE`];
    /// [`Error::DIRECTORY_BLOCK_TRUNCATED`].
    RelocationBlocks<'a>(sys::Range): RelocationBlock<'a>, sys::pe_c_next_relocation_block, block_of
}

impl RelocationBlocks<'_> {
    /// Why the item that is an error is one: the error with its numbers. `None` where no item was an error.
    pub fn failure(&self) -> Option<Failure> {
        self.0.failure(sys::pe_c_relocation_block_failure)
    }
}

/// The relocations of a block.
///
/// An item is an error, and the last one: [`Error::SHORT`] of the entry; [`Error::DIRECTORY_NO_ARGUMENT`].
#[derive(Clone)]
pub struct Relocations<'a> {
    bytes: &'a [u8],
    page_rva: u32,
    /// `None` where the walk is over.
    walk: Option<sys::Range>,
    /// The walk as it was before the step that returned an error.
    refused: Option<sys::Range>,
}

shown! { Relocations<'_> { page_rva, walk, refused; .. } }

impl Relocations<'_> {
    /// Why the item that is an error is one: the error with its numbers. `None` where no item was an error.
    pub fn failure(&self) -> Option<Failure> {
        let (walk, mut out) = (self.refused?, sys::Failure::default());
        let (start, length) = (self.bytes.as_ptr(), self.bytes.len());
        // SAFETY: the pointer and the length are those of one slice; the records are lent for the call.
        let number = unsafe { sys::pe_c_relocation_failure(start, length, self.page_rva, &walk, &mut out) };
        found(returned(number, out))
    }
}

impl<'a> RelocationBlock<'a> {
    /// The relocations, also those of kind 0.
    pub fn relocations(&self) -> Relocations<'a> {
        Relocations { bytes: self.bytes, page_rva: self.page_rva, walk: Some(self.entries), refused: None }
    }
}

impl Iterator for Relocations<'_> {
    type Item = Result<Relocation, Error>;

    fn next(&mut self) -> Option<Self::Item> {
        let (bytes, page_rva, before) = (self.bytes, self.page_rva, self.walk);
        let item = next_of(&mut self.walk, |walk, out: &mut sys::Relocation| {
            // SAFETY: the pointer and the length are those of one slice; the records are lent for the call.
            unsafe { sys::pe_c_next_relocation(bytes.as_ptr(), bytes.len(), page_rva, walk, out) }
        })?;
        if item.is_err() {
            self.refused = before;
        }
        Some(item.map(|found| Relocation {
            rva: found.rva,
            kind: found.kind as u8,
            argument: (found.kind == HIGHADJ).then_some(found.argument as u16),
        }))
    }
}

impl FusedIterator for Relocations<'_> {}

impl<'a> Image<'a> {
    /// The blocks of the base relocations; none where the directory is absent.
    ///
    /// # Errors
    ///
    /// [`Error::UNMAPPED`], [`Error::SHORT`].
    pub fn relocation_blocks(&self) -> Result<RelocationBlocks<'a>, Error> {
        Ok(RelocationBlocks(Walk::started(self.bytes(), self.ask(sys::pe_c_relocation_blocks)?)))
    }
}

impl Image<'_> {
    /// The image as a loader lays it out, as many bytes as `size_of_image` says, up to 4 GB of a short file: the headers at RVA 0,
    /// the data of each section at its RVA, zeros elsewhere. The bytes at RVAs that the file maps are read of it with
    /// [`Layout::Mapped`](crate::Layout::Mapped) as they are of the file.
    ///
    /// # Errors
    ///
    /// [`Error::MEMORY`] if it cannot be allocated.
    pub fn map(&self) -> Result<Vec<u8>, Error> {
        let view = self.view();
        file_of(|room, written| {
            // SAFETY: the view is of what `self` lends for the call; the room is fresh.
            unsafe { sys::pe_c_map(&view, room.as_mut_ptr(), room.len(), written) }
        })
    }

    /// Relocates an image as loaded, which [`Image::map`] made, by the base relocations of this image: adds `difference`, the new
    /// base less the one that it has, modulo 2^64, to the base in its header and to each number that they name. `false`, and
    /// nothing changes, where this image has none.
    ///
    /// # Errors
    ///
    /// - [`Error::UNMAPPED`], [`Error::SHORT`] of the directory;
    /// - [`Error::DIRECTORY_RELOCATION_OUTSIDE`] where `loaded` does not have the field of its base, or a number;
    /// - [`Error::DIRECTORY_RELOCATION_KIND`] of a type that depends on the machine;
    /// - those of [`RelocationBlocks`] and [`Relocations`].
    ///
    /// After an error nothing has changed.
    pub fn relocate(&self, loaded: &mut [u8], difference: u64) -> Result<bool, Error> {
        let view = self.view();
        // SAFETY: the view is of what `self` lends for the call, and the room is of another borrow.
        let number = unsafe { sys::pe_c_relocate(&view, difference, loaded.as_mut_ptr(), loaded.len()) };
        Ok(returned(number, ())?.is_some())
    }
}
