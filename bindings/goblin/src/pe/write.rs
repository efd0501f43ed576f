//! Writing an image: its headers, the data of its sections from the bytes that it was read from, and its certificates. The
//! values are written as they are now, so a caller may have changed them.
//!
//! All tests come before the first byte is written, so a buffer is written whole or unchanged.

use super::PE;
use crate::error;
use crate::pe::section_table::{SectionTable, SIZEOF_SECTION_TABLE};
use crate::pe::utils;
use crate::raw;
use scroll::{ctx, Pwrite};

fn malformed(text: &str) -> error::Error {
    error::Error::Malformed(text.to_owned())
}

/// Writes bytes at an offset, which moves. No bytes are written at the very end too, where scroll returns an error.
pub(super) fn put(bytes: &mut [u8], data: &[u8], offset: &mut usize) -> error::Result<()> {
    if !data.is_empty() {
        bytes.gwrite(data, offset)?;
    }
    Ok(())
}

impl PE<'_> {
    /// Writes each section: its data at its raw pointer with zeros up to a multiple of the file alignment, and its header at the
    /// offset, which moves. Errors: `Malformed` where two sections that are not equal share a byte of the file, or the data of
    /// one are not all in the bytes that the image was read from; `BufferTooShort`.
    pub fn write_sections(
        &self,
        bytes: &mut [u8],
        offset: &mut usize,
        file_alignment: Option<usize>,
        ctx: scroll::Endian,
    ) -> error::Result<usize> {
        let end = self.sections_end(*offset, file_alignment)?;
        fits(bytes, end)?;
        for section in &self.sections {
            let data = section.data(self.bytes)?.ok_or_else(|| missing(section))?;
            let at = &mut (section.pointer_to_raw_data as usize);
            put(bytes, &data, at)?;
            let zeros = utils::padding(data.len(), file_alignment.unwrap_or(1));
            bytes.iter_mut().skip(*at).take(zeros).for_each(|it| *it = 0);
            bytes.gwrite_with(section, offset, ctx)?;
        }
        Ok(*offset)
    }

    /// The greatest end of what [`write_sections`](Self::write_sections) writes; makes its tests.
    fn sections_end(&self, offset: usize, file_alignment: Option<usize>) -> error::Result<usize> {
        no_overlap(&self.sections)?;
        let mut end = offset.saturating_add(SIZEOF_SECTION_TABLE * self.sections.len());
        for section in &self.sections {
            let data = section.data(self.bytes)?.ok_or_else(|| missing(section))?;
            let padding = utils::padding(data.len(), file_alignment.unwrap_or(1));
            end = end.max((section.pointer_to_raw_data as usize + data.len()).saturating_add(padding));
        }
        Ok(end)
    }

    /// Writes the certificates one after the other, from the offset of their directory on. Returns where they end, or 0 without
    /// any. Errors: `Malformed` without an optional header; `BufferTooShort`.
    pub fn write_certificates(&self, bytes: &mut [u8], ctx: scroll::Endian) -> error::Result<usize> {
        let end = self.certificates_end()?;
        fits(bytes, end)?;
        let Some(mut offset) = self.certificates_start()? else { return Ok(0) };
        for certificate in &self.certificates {
            bytes.gwrite_with(certificate, &mut offset, ctx)?;
        }
        Ok(end)
    }

    fn certificates_start(&self) -> error::Result<Option<usize>> {
        let header = self.header.optional_header.as_ref();
        let header = header
            .ok_or_else(|| malformed("This PE binary has no optional header; it is required to write certificates"))?;
        Ok(header.data_directories.get_certificate_table().map(|it| it.virtual_address as usize))
    }

    fn certificates_end(&self) -> error::Result<usize> {
        match self.certificates_start()? {
            Some(start) if !self.certificates.is_empty() => {
                Ok(start + self.certificates.iter().map(|it| it.written_len()).sum::<usize>())
            }
            _ => Ok(0),
        }
    }

    /// Offset of the section headers.
    fn sections_start(&self) -> usize {
        let coff = self.header.dos_header.pe_pointer as usize
            + super::header::SIZEOF_PE_MAGIC
            + super::header::SIZEOF_COFF_HEADER;
        coff + usize::from(self.header.coff_header.size_of_optional_header)
    }
}

impl ctx::TryIntoCtx<scroll::Endian> for PE<'_> {
    type Error = error::Error;

    /// Writes the image, and returns where it ends. Errors: `Malformed` without an optional header; `BadMagic`; `Malformed` where
    /// a field does not fit PE32, where the file alignment is no power of two, with COFF symbols, and those of
    /// [`write_sections`](PE::write_sections); `BufferTooShort`.
    fn try_into_ctx(self, bytes: &mut [u8], ctx: scroll::Endian) -> error::Result<usize> {
        let header = self.header.optional_header;
        let header = header.ok_or_else(|| malformed("image has no optional header"))?;
        header.fits()?;
        let alignment = header.windows_fields.file_alignment as usize;
        if !alignment.is_power_of_two() {
            return Err(malformed("file alignment should be a power of 2"));
        }
        if self.header.coff_header.pointer_to_symbol_table != 0 {
            return Err(malformed("Symbol tables in PE are deprecated and not supported to write"));
        }
        let offset = &mut self.sections_start();
        let sections_end = self.sections_end(*offset, Some(alignment))?;
        let headers_end = self.header.written_len();
        let end = headers_end.max(sections_end).max(self.certificates_end()?);
        fits(bytes, end)?;
        bytes.pwrite_with(self.header, 0, ctx)?;
        self.write_sections(bytes, offset, Some(alignment), ctx)?;
        self.write_certificates(bytes, ctx)?;
        Ok(end)
    }
}

fn fits(bytes: &[u8], end: usize) -> error::Result<()> {
    match bytes.len() < end {
        true => Err(raw::too_short(end)),
        false => Ok(()),
    }
}

fn missing(section: &SectionTable) -> error::Error {
    let name = section.name().unwrap_or("unknown name");
    error::Error::Malformed(format!("Section data `{name}` is malformed"))
}

/// Tests the sections in the order of their starts: so each is compared with those that start before its neighbour alone.
fn no_overlap(sections: &[SectionTable]) -> error::Result<()> {
    let mut sorted = raw::list(sections.len())?;
    sorted.extend(sections.iter().filter(|it| it.size_of_raw_data > 0));
    sorted.sort_by_key(|it| it.file_range());
    for pair in sorted.windows(2) {
        if pair[0] != pair[1] && pair[0].overlaps_with(pair[1]) {
            return Err(malformed("Overlapping sections were found, this is not supported."));
        }
    }
    Ok(())
}
