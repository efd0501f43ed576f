//! Thread-local storage: the data that each thread gets a copy of, and the callbacks, functions that run when a thread starts
//! and ends, for the first thread before the entry point. See
//! <https://learn.microsoft.com/windows/win32/debug/pe-format#the-tls-section>. A scanner lists the callbacks.

use crate::image::{Error, Image};
use crate::shown::shown;
use crate::sys;
use crate::walk::next_of;
use core::iter::FusedIterator;

/// The TLS directory, `IMAGE_TLS_DIRECTORY`. Addresses are virtual addresses.
///
/// ```
/// # #[path = "../tests/made/mod.rs"] mod made;
/// # let bytes = made::with_tls();
/// use pe_c::{Image, Mode};
///
/// let image = Image::parse(&bytes, Mode::Permissive)?;
/// let tls = image.tls()?.expect("the image has the directory");
/// assert_eq!((tls.address_of_callbacks, tls.size_of_zero_fill), (0x1_8000_1000, 12));
/// for callback in image.tls_callbacks()? {
///     println!("runs before the entry point: {:#x}", callback?);
/// }
/// # Ok::<(), Box<dyn std::error::Error>>(())
/// ```
#[derive(Clone, Copy, Debug, Default, PartialEq, Eq)]
#[cfg_attr(feature = "serde", derive(serde::Serialize))]
#[non_exhaustive]
pub struct Tls {
    /// Where the data starts of which each thread gets a copy.
    pub start_address_of_raw_data: u64,
    /// Where this data ends.
    pub end_address_of_raw_data: u64,
    /// Where the loader writes the number of the slot that leads to a copy.
    pub address_of_index: u64,
    /// Where the table of callbacks is; 0 where there are none.
    pub address_of_callbacks: u64,
    /// How many zeros follow the data in a copy, in bytes.
    pub size_of_zero_fill: u32,
    /// Bits 20 to 23: the alignment, 1 to 14 for 1 to 8192 bytes.
    pub characteristics: u32,
}

/// The callbacks of an image, virtual addresses, in the order of the table.
///
/// An item is an error, and the last one: [`Error::SHORT`] where the bytes end before the table does.
#[derive(Clone)]
pub struct TlsCallbacks<'i, 'a> {
    image: &'i Image<'a>,
    /// `None` where the walk is over.
    walk: Option<sys::Range>,
}

shown! { TlsCallbacks<'_, '_> { walk; .. } }

impl Iterator for TlsCallbacks<'_, '_> {
    type Item = Result<u64, Error>;

    fn next(&mut self) -> Option<Self::Item> {
        let view = self.image.view();
        // SAFETY: the view is of what the image lends for the call; the records are lent too.
        next_of(&mut self.walk, |walk, out| unsafe { sys::pe_c_next_tls_callback(&view, walk, out) })
    }
}

impl FusedIterator for TlsCallbacks<'_, '_> {}

impl<'a> Image<'a> {
    /// The TLS directory. `None` where the directory is absent.
    ///
    /// # Errors
    ///
    /// [`Error::UNMAPPED`], [`Error::SHORT`].
    pub fn tls(&self) -> Result<Option<Tls>, Error> {
        Ok(self.ask(sys::pe_c_tls)?.map(|found| Tls {
            start_address_of_raw_data: found.start_address_of_raw_data,
            end_address_of_raw_data: found.end_address_of_raw_data,
            address_of_index: found.address_of_index,
            address_of_callbacks: found.address_of_callbacks,
            size_of_zero_fill: found.size_of_zero_fill,
            characteristics: found.characteristics,
        }))
    }

    /// The callbacks of the TLS directory; none where the directory is absent or has no table of them: [`Tls::address_of_callbacks`]
    /// says which.
    ///
    /// # Errors
    ///
    /// Those of [`Image::tls`]; [`Error::DIRECTORY_VA_BELOW_BASE`] and [`Error::UNMAPPED`] of the table's address.
    pub fn tls_callbacks(&self) -> Result<TlsCallbacks<'_, 'a>, Error> {
        let walk = match self.ask(sys::pe_c_tls)? {
            Some(found) => self.ask_of(sys::pe_c_tls_callbacks, &found)?,
            None => None,
        };
        Ok(TlsCallbacks { image: self, walk })
    }
}
