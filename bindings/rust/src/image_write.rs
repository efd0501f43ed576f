//! Images written: headers, sections and certificates, by themselves or over the whole file. See
//! <https://learn.microsoft.com/windows/win32/debug/pe-format#overview>.

use crate::image::{Error, Image};
use crate::signing::{file_of, length_of};
use crate::sys::{self, Section};
use alloc::vec::Vec;

impl Image<'_> {
    /// The view with these sections, which has to be used while they are lent.
    fn view_with(&self, sections: &[Section]) -> sys::View {
        sys::View::of(self.bytes(), self.info(), sections, &[])
    }

    /// The whole file, and over it the headers, these sections and the certificates: so what none of them describes stays as it is
    /// in the file, as COFF symbols and bytes between sections. Headers and certificates are those of the image's bytes, the data
    /// of the sections too. No zeros are written after a section.
    ///
    /// ```
    /// # let bytes: &[u8] = include_bytes!(concat!(env!("CARGO_MANIFEST_DIR"), "/../../crates/peinfo/data/i.bin"));
    /// use pe_c::{Image, Mode};
    ///
    /// let image = Image::parse(bytes, Mode::Strict)?;
    /// assert_eq!(image.write_whole(image.sections())?, bytes);
    /// let mut sections = image.sections().to_vec();
    /// sections[0].name = *b".code\0\0\0";
    /// let file = image.write_whole(&sections)?;
    /// assert_eq!(Image::parse(&file, Mode::Strict)?.sections()[0].name, *b".code\0\0\0");
    /// # Ok::<(), pe_c::Error>(())
    /// ```
    ///
    /// # Errors
    ///
    /// In strict mode [`Error::CERTIFICATE_TABLE`] where the table is not in the file, and those of the first certificate that is
    /// invalid; [`Error::NO_OPTIONAL_HEADER`]; [`Error::WRITE_OVERLAP`] where two unequal sections share a byte of the file;
    /// [`Error::WRITE_SECTION`] where the data of one are not in it; [`Error::MEMORY`] if the file cannot be allocated.
    pub fn write_whole(&self, sections: &[Section]) -> Result<Vec<u8>, Error> {
        let view = self.view_with(sections);
        file_of(|room, end| {
            // SAFETY: the view is of what is lent for the call; the room is fresh, so it overlaps nothing.
            unsafe { sys::pe_c_write_whole(&view, room.as_mut_ptr(), room.len(), end) }
        })
    }

    /// Writes the certificates into an array, one after the other from the offset of their directory on, each with zeros up to a
    /// multiple of 8 bytes. Returns the offset after the last one, 0 if none is written.
    ///
    /// # Errors
    ///
    /// In strict mode [`Error::CERTIFICATE_TABLE`] where the table is not in the file, and those of the first certificate that is
    /// invalid; [`Error::NO_OPTIONAL_HEADER`]; [`Error::WRITE_FIT`] where a certificate does not fit. Then the array is unchanged.
    pub fn write_certificates(&self, room: &mut [u8]) -> Result<u64, Error> {
        let view = self.view();
        let mut end = 0;
        // SAFETY: the view is of what `self` lends for the call, and the room, borrowed apart from it, overlaps nothing.
        Error::of(unsafe { sys::pe_c_write_certificates(&view, room.as_mut_ptr(), room.len(), &mut end) })?;
        Ok(end)
    }

    /// How many bytes [`write_image`](Self::write_image) needs with these sections.
    ///
    /// # Errors
    ///
    /// Those of [`write_image`](Self::write_image), but [`Error::WRITE_FIT`] only where no array is long enough.
    pub fn image_length(&self, sections: &[Section]) -> Result<u64, Error> {
        let view = self.view_with(sections);
        length_of(|room, end| {
            // SAFETY: the view is of what is lent for the call, and the room overlaps nothing.
            unsafe { sys::pe_c_write_image(&view, room.as_mut_ptr(), room.len(), end) }
        })
    }

    /// Writes the headers, these sections with zeros up to multiples of the file alignment, and the certificates into an array.
    /// Headers and certificates are those of the image's bytes, the data of the sections too. Bytes of the array that none of these
    /// covers stay as they were. Returns the greatest of three offsets: the start of the section table, which without a section may
    /// lie past the end of the array, the end of the data of the last section with the greatest raw pointer, the end of the
    /// certificates.
    ///
    /// # Errors
    ///
    /// Those of [`write_whole`](Self::write_whole) but the last, and after [`Error::NO_OPTIONAL_HEADER`] two more:
    /// [`Error::WRITE_ALIGNMENT`] where the file alignment is no power of two, [`Error::WRITE_SYMBOLS`] where there are COFF symbols.
    /// The last is [`Error::WRITE_FIT`] where a piece does not fit into the array. Then the array is unchanged.
    pub fn write_image(&self, sections: &[Section], room: &mut [u8]) -> Result<u64, Error> {
        let view = self.view_with(sections);
        let mut end = 0;
        // SAFETY: the view is of what is lent for the call, and the room, borrowed apart from it, overlaps nothing.
        match unsafe { sys::pe_c_write_image(&view, room.as_mut_ptr(), room.len(), &mut end) } {
            sys::ROOM => Err(Error::WRITE_FIT),
            number => Error::of(number).map(|()| end),
        }
    }
}
