//! The CLR header of a .NET image, and the root of its metadata.
//! <https://www.ecma-international.org/publications-and-standards/standards/ecma-335/>, II.24 and II.25
//!
//! goblin's names here are inferred.

use super::data_directories::DataDirectory;
use super::options::ParseOptions;
use super::section_table::SectionTable;
use crate::error;
use crate::raw::{self, Index, View};
use core::iter::FusedIterator;
use pe_c::sys;

/// The header, `IMAGE_COR20_HEADER`.
#[derive(Debug, PartialEq, Copy, Clone, Default)]
pub struct Cor20Header {
    /// Bytes of the header, as it says itself.
    pub cb: u32,
    /// Of the runtime that is needed.
    pub major_runtime_version: u16,
    /// Of the runtime that is needed.
    pub minor_runtime_version: u16,
    /// The metadata.
    pub metadata: DataDirectory,
    /// `COMIMAGE_FLAGS_`.
    pub flags: u32,
    /// A metadata token, or an RVA.
    pub entry_point_token_or_rva: u32,
    /// The managed resources.
    pub resources: DataDirectory,
    /// The strong name signature.
    pub strong_name_signature: DataDirectory,
    /// Reserved.
    pub code_manager_table: DataDirectory,
    /// The fixups of tables of virtual functions.
    pub vtable_fixups: DataDirectory,
    /// Reserved.
    pub export_address_table_jumps: DataDirectory,
    /// The header of code that was compiled ahead of time.
    pub managed_native_header: DataDirectory,
}

/// The root of the metadata.
#[derive(Debug, PartialEq, Copy, Clone)]
pub struct MetadataRoot<'a> {
    /// Of the format.
    pub major_version: u16,
    /// Of the format.
    pub minor_version: u16,
    /// Reserved.
    pub flags: u16,
    /// The version of the runtime: UTF-8 up to the first zero, and the zeros after it.
    pub version: &'a [u8],
}

/// The header and the root of the metadata.
#[derive(Debug, PartialEq, Copy, Clone)]
pub struct ClrData<'a> {
    /// The header.
    pub cor20_header: Cor20Header,
    /// The root of the metadata, or `None` where the header names none.
    pub metadata_root: Option<MetadataRoot<'a>>,
    streams: sys::MetadataStreams,
    bytes: &'a [u8],
}

impl<'a> ClrData<'a> {
    /// The header of a directory in a file.
    pub fn parse(
        bytes: &'a [u8],
        dd: &DataDirectory,
        sections: &[SectionTable],
        file_alignment: u32,
    ) -> error::Result<Self> {
        Self::parse_with_opts(bytes, dd, sections, file_alignment, &ParseOptions::default())
    }

    /// The header of a directory. Error: `Malformed` where the header or the root is absent, unmapped, truncated or has another
    /// size or signature.
    pub fn parse_with_opts(
        bytes: &'a [u8],
        dd: &DataDirectory,
        sections: &[SectionTable],
        file_alignment: u32,
        opts: &ParseOptions,
    ) -> error::Result<Self> {
        let info = raw::image_with(Index::Clr, *dd, file_alignment, opts);
        let sections = raw::sections_of(sections)?;
        let found = Self::of(View::of(bytes, &info, &sections))?;
        found.ok_or_else(|| error::Error::Malformed("no CLR header".to_owned()))
    }

    pub(crate) fn of(view: View<'a, '_>) -> error::Result<Option<Self>> {
        let header = view.clr_header().map_err(|it| view.refused(Index::Clr, it))?;
        let Some(header) = header else { return Ok(None) };
        let root = view.clr_metadata(&header)?;
        let metadata_root = root.map(|it| {
            Ok::<_, error::Error>(MetadataRoot {
                major_version: it.major_version,
                minor_version: it.minor_version,
                flags: it.flags,
                version: view.slice(it.version)?,
            })
        });
        Ok(Some(ClrData {
            cor20_header: header_of(&header),
            metadata_root: metadata_root.transpose()?,
            streams: root.map(|it| it.streams).unwrap_or_default(),
            bytes: view.bytes,
        }))
    }

    /// The streams of the metadata.
    pub fn streams(&self) -> MetadataStreamIterator<'a> {
        MetadataStreamIterator { bytes: self.bytes, walk: self.metadata_root.map(|_| self.streams) }
    }
}

fn header_of(it: &sys::ClrHeader) -> Cor20Header {
    let directory = |it: sys::Directory| DataDirectory { virtual_address: it.virtual_address, size: it.size };
    Cor20Header {
        cb: it.cb,
        major_runtime_version: it.major_runtime_version,
        minor_runtime_version: it.minor_runtime_version,
        metadata: directory(it.metadata),
        flags: it.flags,
        entry_point_token_or_rva: it.entry_point_token,
        resources: directory(it.resources),
        strong_name_signature: directory(it.strong_name_signature),
        code_manager_table: directory(it.code_manager_table),
        vtable_fixups: directory(it.vtable_fixups),
        export_address_table_jumps: directory(it.export_address_table_jumps),
        managed_native_header: directory(it.managed_native_header),
    }
}

/// A stream of the metadata.
#[derive(Debug, PartialEq, Copy, Clone)]
pub struct MetadataStream<'a> {
    /// From the start of the metadata.
    pub offset: u32,
    /// In bytes.
    pub size: u32,
    /// Without its final zero.
    pub name: &'a [u8],
    /// The bytes, or `None` where they are not all in the metadata.
    pub content: Option<&'a [u8]>,
}

/// The streams of the metadata, one after the other.
#[derive(Debug, Copy, Clone)]
pub struct MetadataStreamIterator<'a> {
    bytes: &'a [u8],
    walk: Option<sys::MetadataStreams>,
}

impl<'a> Iterator for MetadataStreamIterator<'a> {
    type Item = error::Result<MetadataStream<'a>>;

    fn next(&mut self) -> Option<Self::Item> {
        let found = raw::step(&mut self.walk, |walk| raw::next_metadata_stream(self.bytes, walk))?;
        Some(found.and_then(|it| {
            let content = if it.has_content != 0 { Some(raw::slice(self.bytes, it.content)?) } else { None };
            Ok(MetadataStream { offset: it.offset, size: it.size, name: raw::slice(self.bytes, it.name)?, content })
        }))
    }
}

impl FusedIterator for MetadataStreamIterator<'_> {}
