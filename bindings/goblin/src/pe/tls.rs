//! The TLS directory: data of which each thread gets a copy, and functions that the loader calls when threads start and end.
//! <https://learn.microsoft.com/windows/win32/debug/pe-format#the-tls-section>
//!
//! goblin's names here are inferred from how its module `pe` uses them.

use super::data_directories::DataDirectory;
use super::options::ParseOptions;
use super::section_table::SectionTable;
use crate::error;
use crate::raw::{self, Index, View};
use pe_c::sys;

/// The directory, `IMAGE_TLS_DIRECTORY`. Its addresses are virtual addresses.
#[derive(Debug, PartialEq, Copy, Clone, Default)]
pub struct ImageTlsDirectory {
    /// Where the data starts.
    pub start_address_of_raw_data: u64,
    /// Where the data ends.
    pub end_address_of_raw_data: u64,
    /// Where the loader writes the number of the slot that leads to a copy.
    pub address_of_index: u64,
    /// Where the table of callbacks is; 0 where there are none.
    pub address_of_callbacks: u64,
    /// How many zeros follow the data in a copy.
    pub size_of_zero_fill: u32,
    /// Bits 20 to 23: the alignment.
    pub characteristics: u32,
}

/// The directory and what it leads to.
#[derive(Debug, Clone, PartialEq)]
pub struct TlsData<'a> {
    /// The directory.
    pub image_tls_directory: ImageTlsDirectory,
    /// The data, or `None` where they are not all in the file.
    pub raw_data: Option<&'a [u8]>,
    /// What the slot holds in the file, or `None` where it is not there.
    pub slot: Option<u32>,
    /// Virtual addresses of the callbacks.
    pub callbacks: Vec<u64>,
}

impl<'a> TlsData<'a> {
    /// The directory in a file.
    pub fn parse(
        bytes: &'a [u8],
        image_base: u64,
        dd: &DataDirectory,
        sections: &[SectionTable],
        file_alignment: u32,
        is_64: bool,
    ) -> error::Result<Option<Self>> {
        Self::parse_with_opts(bytes, image_base, dd, sections, file_alignment, &ParseOptions::default(), is_64)
    }

    /// The directory. Errors: `Malformed` where it is unmapped or truncated, or the table of callbacks is; out of memory.
    pub fn parse_with_opts(
        bytes: &'a [u8],
        image_base: u64,
        dd: &DataDirectory,
        sections: &[SectionTable],
        file_alignment: u32,
        opts: &ParseOptions,
        is_64: bool,
    ) -> error::Result<Option<Self>> {
        let mut info = raw::image_with(Index::Tls, *dd, file_alignment, opts);
        info.base = image_base;
        info.width = if is_64 { 64 } else { 32 };
        let sections = raw::sections_of(sections)?;
        Self::of(View::of(bytes, &info, &sections))
    }

    pub(crate) fn of(view: View<'a, '_>) -> error::Result<Option<Self>> {
        let Some(tls) = view.tls().map_err(|it| view.refused(Index::Tls, it))? else { return Ok(None) };
        let length = tls.end_address_of_raw_data.checked_sub(tls.start_address_of_raw_data);
        let place = view.offset_of_va(tls.start_address_of_raw_data);
        let place = place.zip(length.and_then(|it| usize::try_from(it).ok()));
        let slot = view.offset_of_va(tls.address_of_index);
        Ok(Some(TlsData {
            raw_data: place.and_then(|(at, length)| raw::bytes_at(view.bytes, at, length).ok()),
            slot: slot.and_then(|at| raw::tls_slot(view.bytes, at)),
            callbacks: callbacks_of(view, &tls)?,
            image_tls_directory: ImageTlsDirectory {
                start_address_of_raw_data: tls.start_address_of_raw_data,
                end_address_of_raw_data: tls.end_address_of_raw_data,
                address_of_index: tls.address_of_index,
                address_of_callbacks: tls.address_of_callbacks,
                size_of_zero_fill: tls.size_of_zero_fill,
                characteristics: tls.characteristics,
            },
        }))
    }
}

fn callbacks_of(view: View<'_, '_>, tls: &sys::TlsDirectory) -> error::Result<Vec<u64>> {
    let mut callbacks = Vec::new();
    if let Some(mut walk) = view.tls_callbacks(tls)? {
        while let Some(callback) = view.next_tls_callback(&mut walk)? {
            raw::push(&mut callbacks, callback)?;
        }
    }
    Ok(callbacks)
}
