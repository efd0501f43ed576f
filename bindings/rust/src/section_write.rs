//! Sections written: a caller reads them, changes a field, and writes them. Their data come from the file. See
//! <https://learn.microsoft.com/windows/win32/debug/pe-format#section-table-section-headers>.

use crate::image::{Error, Image};
use crate::sys::{self, Section};

impl Image<'_> {
    /// Writes sections into an array: for each its data at its raw pointer, its header, and zeros after the data up to a multiple of
    /// `unit` bytes, none where that is 0. The headers are written one after the other, from `offset` on. Returns the offset after
    /// them. Offsets count from the start of the array, which a caller fills with the file first to change it.
    ///
    /// ```
    /// # let bytes: &[u8] = include_bytes!(concat!(env!("CARGO_MANIFEST_DIR"), "/../../crates/peinfo/data/i.bin"));
    /// use pe_c::{Image, Mode};
    ///
    /// let image = Image::parse(bytes, Mode::Strict)?;
    /// let mut sections = image.sections().to_vec();
    /// sections[0].name = *b".code\0\0\0";
    /// let mut file = bytes.to_vec();
    /// image.write_sections(&sections, 0, &mut file, image.info().sections_offset)?;
    /// assert_eq!(Image::parse(&file, Mode::Strict)?.sections()[0].name, *b".code\0\0\0");
    /// # Ok::<(), pe_c::Error>(())
    /// ```
    ///
    /// # Errors
    ///
    /// [`Error::WRITE_OVERLAP`] where two unequal sections share a byte of the file; [`Error::WRITE_SECTION`] where the data of one are
    /// not in it; [`Error::WRITE_FIT`] where a piece does not fit into the array. Then the array is unchanged.
    pub fn write_sections(&self, sections: &[Section], unit: u32, room: &mut [u8], offset: u64) -> Result<u64, Error> {
        let view = sys::View::of(self.bytes(), self.info(), sections, &[]);
        let mut next = offset;
        // SAFETY: the view is of what is lent for the call, and the room, borrowed apart from it, overlaps nothing.
        Error::of(unsafe { sys::pe_c_write_sections(&view, unit, room.as_mut_ptr(), room.len(), &mut next) })?;
        Ok(next)
    }
}
