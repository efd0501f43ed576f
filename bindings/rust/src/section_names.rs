//! Names of sections that are longer than the 8 bytes of their header, which has a slash and the offset of a string in the COFF
//! string table. Images of mingw-w64 have such names for their debug sections. See
//! <https://learn.microsoft.com/windows/win32/debug/pe-format#section-table-section-headers>.

use crate::coff::room_for;
use crate::image::{bytes_of, text_of, Error, Image};
use crate::sys::{self, Section};
use alloc::vec::Vec;

impl<'a> Image<'a> {
    /// The COFF string table, from its size field on. `None` where the image has no COFF symbols, where the bytes end after
    /// them, and in an image as loaded.
    ///
    /// # Errors
    ///
    /// [`Error::SHORT`] of the symbols; [`Error::STRING_TABLE`] where the table is truncated.
    pub fn string_table(&self) -> Result<Option<&'a [u8]>, Error> {
        let Some(range) = self.string_table_range()? else { return Ok(None) };
        Ok(Some(bytes_of(range, self.bytes())?))
    }

    fn string_table_range(&self) -> Result<Option<sys::Range>, Error> {
        self.ask(sys::pe_c_string_table)
    }

    /// The overlay: the bytes after the headers and the raw data of all sections, which no loader reads. Installers keep their
    /// archives there, and signed images their certificates; it may hold what headers lead to, as the certificate table and
    /// COFF symbols. Empty where no byte follows, and in an image as loaded.
    pub fn overlay(&self) -> &'a [u8] {
        let found = self.ask(sys::pe_c_overlay).ok().flatten();
        found.and_then(|range| bytes_of(range, self.bytes()).ok()).unwrap_or_default()
    }

    /// The name of a section in the string table, without its final zero. `None` where the header has the name itself,
    /// [`Section::name`]; where the image has no string table; and where no string is at the offset, NUL-terminated and UTF-8.
    ///
    /// # Errors
    ///
    /// Those of [`Image::string_table`].
    pub fn long_section_name(&self, section: &Section) -> Result<Option<&'a str>, Error> {
        let Some(table) = self.string_table_range()? else { return Ok(None) };
        let (bytes, mut out) = (self.bytes(), sys::Range::default());
        // SAFETY: the pointer and the length are those of one slice; the records are lent for the call.
        let number = unsafe { sys::pe_c_long_section_name(bytes.as_ptr(), bytes.len(), &table, section, &mut out) };
        match crate::image::returned(number, out)? {
            Some(name) => Ok(Some(text_of(name, bytes)?)),
            None => Ok(None),
        }
    }

    /// The same of each section, in the order of the sections. The names are read together: [`Image::long_section_name`] reads one
    /// to its end each time, and a hostile file may let those of all sections start in one long string.
    ///
    /// ```
    /// # #[path = "../tests/made/mod.rs"] mod made;
    /// # let bytes = made::with_long_section_name();
    /// use pe_c::{Image, Mode};
    ///
    /// let image = Image::parse(&bytes, Mode::Strict)?;
    /// let names = image.long_section_names()?;
    /// assert_eq!(names[0], image.long_section_name(&image.sections()[0])?);
    /// # Ok::<(), pe_c::Error>(())
    /// ```
    ///
    /// # Errors
    ///
    /// Those of [`Image::string_table`]; [`Error::MEMORY`].
    pub fn long_section_names(&self) -> Result<Vec<Option<&'a str>>, Error> {
        let table = self.string_table_range()?;
        // SAFETY: the view is of what is borrowed here.
        unsafe { long_names(&self.view(), self.bytes(), table) }
    }
}

/// The long names of the sections of a view, by the string table: [`Image::long_section_names`].
///
/// # Safety
///
/// The parts of the view are there, and do not change meanwhile; `bytes` are its bytes.
pub(crate) unsafe fn long_names<'a>(
    view: &sys::View,
    bytes: &'a [u8],
    table: Option<sys::Range>,
) -> Result<Vec<Option<&'a str>>, Error> {
    let count = view.count;
    let mut names = room_for(count, None)?;
    let Some(table) = table.filter(|_| count > 0) else { return Ok(names) };
    let (mut runs, mut found) = (room_for(count, sys::Run::default())?, room_for(count, sys::Range::default())?);
    let (mut next, mut written, room, ranges) = (0, 0, runs.as_mut_ptr(), found.as_mut_ptr());
    // SAFETY: the caller says so of the view; the table and the numbers are lent for the call, the arrays have so many items, and none
    // overlaps another.
    let number =
        unsafe { sys::pe_c_list_long_section_names(view, &table, &mut next, room, count, ranges, count, &mut written) };
    Error::of(number)?;
    for (name, range) in names.iter_mut().zip(&found) {
        *name = if range.offset == 0 { None } else { Some(text_of(*range, bytes)?) };
    }
    Ok(names)
}
