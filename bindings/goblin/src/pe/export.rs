//! Exports: what an image offers to others. A table of RVAs, and for those that have a name the name and its index there.
//! <https://learn.microsoft.com/windows/win32/debug/pe-format#the-edata-section-image-only>

use super::data_directories;
use super::options::{Left, Limits, ParseOptions};
use super::section_table::SectionTable;
use crate::error;
use crate::raw::{self, Index, Refusal, View};
use pe_c::sys;
use scroll::{ctx, Pread, Pwrite, SizeWith};

/// The export directory, `IMAGE_EXPORT_DIRECTORY`.
#[repr(C)]
#[derive(Debug, PartialEq, Copy, Clone, Default, Pread, Pwrite, SizeWith)]
pub struct ExportDirectoryTable {
    /// Reserved.
    pub export_flags: u32,
    /// Seconds since 1970, or a hash in a reproducible build.
    pub time_date_stamp: u32,
    /// Of a version that the maker sets.
    pub major_version: u16,
    /// Of a version that the maker sets.
    pub minor_version: u16,
    /// RVA of the DLL's name.
    pub name_rva: u32,
    /// Ordinal of the export with the index 0.
    pub ordinal_base: u32,
    /// How many RVAs there are.
    pub address_table_entries: u32,
    /// How many names there are.
    pub number_of_name_pointers: u32,
    /// RVA of the RVAs.
    pub export_address_table_rva: u32,
    /// RVA of the RVAs of names.
    pub name_pointer_rva: u32,
    /// RVA of the indices of names.
    pub ordinal_table_rva: u32,
}

/// Bytes of an [`ExportDirectoryTable`].
pub const SIZEOF_EXPORT_DIRECTORY_TABLE: usize = 40;
/// Bytes of an RVA in the table of RVAs.
pub const SIZEOF_EXPORT_ADDRESS_TABLE_ENTRY: usize = 4;
const RVA_SIZE: u64 = SIZEOF_EXPORT_ADDRESS_TABLE_ENTRY as u64;
/// How many exports are taken a call, where each name is read by itself.
const TAKEN: usize = 16;

impl ExportDirectoryTable {
    /// Reads the directory at an offset. Error: `Scroll` where it is truncated.
    pub fn parse(bytes: &[u8], offset: usize) -> error::Result<Self> {
        raw::export_directory(bytes, offset)
    }
}

impl From<sys::ExportFields> for ExportDirectoryTable {
    fn from(it: sys::ExportFields) -> Self {
        ExportDirectoryTable {
            export_flags: it.characteristics,
            time_date_stamp: it.time_date_stamp,
            major_version: it.major_version,
            minor_version: it.minor_version,
            name_rva: it.name,
            ordinal_base: it.base,
            address_table_entries: it.number_of_functions,
            number_of_name_pointers: it.number_of_names,
            export_address_table_rva: it.address_of_functions,
            name_pointer_rva: it.address_of_names,
            ordinal_table_rva: it.address_of_name_ordinals,
        }
    }
}

/// An entry of the table of RVAs.
#[derive(Debug, Copy, Clone, PartialEq)]
pub enum ExportAddressTableEntry {
    /// RVA of what is exported.
    ExportRVA(u32),
    /// RVA of a text that names an export of another DLL.
    ForwarderRVA(u32),
}

/// The table of RVAs.
pub type ExportAddressTable = Vec<ExportAddressTableEntry>;
/// RVAs of names.
pub type ExportNamePointerTable = Vec<u32>;
/// For each name its index in the table of RVAs.
pub type ExportOrdinalTable = Vec<u16>;

/// The export directory and its tables.
#[derive(Debug, Default)]
pub struct ExportData<'a> {
    /// The DLL's name.
    pub name: Option<&'a str>,
    /// The directory.
    pub export_directory_table: ExportDirectoryTable,
    /// RVAs of names.
    pub export_name_pointer_table: ExportNamePointerTable,
    /// For each name its index in the table of RVAs.
    pub export_ordinal_table: ExportOrdinalTable,
    /// The table of RVAs.
    pub export_address_table: ExportAddressTable,
}

/// The tables of an image, as the library walks them.
pub(crate) struct Tables {
    walk: sys::Exports,
    addresses: sys::AddressTable,
}

impl<'a> ExportData<'a> {
    /// The exports of a directory in a file.
    pub fn parse(
        bytes: &'a [u8],
        dd: data_directories::DataDirectory,
        sections: &[SectionTable],
        file_alignment: u32,
    ) -> error::Result<ExportData<'a>> {
        Self::parse_with_opts(bytes, dd, sections, file_alignment, &ParseOptions::default())
    }

    /// The exports of a directory. Errors: `Malformed` where the directory is absent, unmapped or truncated, or a table is; out of
    /// memory.
    pub fn parse_with_opts(
        bytes: &'a [u8],
        dd: data_directories::DataDirectory,
        sections: &[SectionTable],
        file_alignment: u32,
        opts: &ParseOptions,
    ) -> error::Result<ExportData<'a>> {
        let (info, sections) = (raw::image_with(Index::Export, dd, file_alignment, opts), raw::sections_of(sections)?);
        let view = View::of(bytes, &info, &sections);
        match Self::of(view.with_index(&view.make_index()?))? {
            Some((mut data, tables)) => {
                add_unnamed(bytes, &tables.addresses, &mut data.export_address_table)?;
                Ok(data)
            }
            None => Err(unmapped(dd)),
        }
    }

    /// All but the RVAs in the table of RVAs: those of exports that have a name come with them.
    pub(crate) fn of(view: View<'a, '_>) -> error::Result<Option<(Self, Tables)>> {
        let directory = view.directory(Index::Export);
        let Some(walk) = view.export_tables().map_err(|it| refused(view, it))? else { return Ok(None) };
        let Some(addresses) = view.export_addresses()? else { return Ok(None) };
        let fields = view.export_directory()?.ok_or_else(|| unmapped(directory))?;
        let name = if addresses.has_name != 0 { Some(view.text(addresses.name)?) } else { None };
        let export_address_table = unknown(raw::narrow(addresses.addresses.length / RVA_SIZE)?)?;
        let data = ExportData {
            name,
            export_directory_table: fields.into(),
            export_name_pointer_table: raw::words(view.bytes, walk.names)?,
            export_ordinal_table: raw::halves(view.bytes, walk.ordinals)?,
            export_address_table,
        };
        Ok(Some((data, Tables { walk, addresses })))
    }
}

/// An entry that is not read yet, or of an ordinal that is not used.
const UNKNOWN: ExportAddressTableEntry = ExportAddressTableEntry::ExportRVA(0);

fn unknown(count: usize) -> error::Result<ExportAddressTable> {
    let mut entries = raw::list(count)?;
    entries.resize(count, UNKNOWN);
    Ok(entries)
}

/// Reads the entries of the table of RVAs that are not known from exports with a name. The calls are made without sections, by which
/// no forwarder's text is looked for: all of them may lie in one long text.
fn add_unnamed(bytes: &[u8], table: &sys::AddressTable, entries: &mut [ExportAddressTableEntry]) -> error::Result<()> {
    let (mut next, mut room) = (0, [sys::Exported::default(); TAKEN]);
    while let Some(known) = entries.get(next..).and_then(|it| it.iter().position(|it| *it == UNKNOWN)) {
        next += known;
        let rest = entries.get_mut(next..).unwrap_or_default();
        let count = rest.iter().take(TAKEN).take_while(|it| **it == UNKNOWN).count();
        let (mut index, part) = (next as u64, room.get_mut(..count).unwrap_or_default());
        let written = View::of_bytes(bytes).list_export_addresses(table, &mut index, &mut [], part)?;
        for (entry, found) in rest.iter_mut().zip(room.get(..written).unwrap_or_default()) {
            *entry = entry_of(found.is_forwarder != 0, found.rva);
        }
        next += count;
    }
    Ok(())
}

/// An entry of the table of RVAs.
fn entry_of(is_forwarder: bool, rva: u32) -> ExportAddressTableEntry {
    if is_forwarder {
        ExportAddressTableEntry::ForwarderRVA(rva)
    } else {
        ExportAddressTableEntry::ExportRVA(rva)
    }
}

fn unmapped(directory: data_directories::DataDirectory) -> error::Error {
    error::Error::Malformed(format!("cannot map export_rva ({:#x}) into offset", directory.virtual_address))
}

fn refused(view: View<'_, '_>, refusal: Refusal) -> error::Error {
    let directory = view.directory(Index::Export);
    match (refusal, view.offset(directory.virtual_address)) {
        (Refusal::UNMAPPED, None) => unmapped(directory),
        (Refusal::SHORT, Some(at)) => {
            error::Error::Malformed(format!("cannot parse export_directory_table (offset {at:#x})"))
        }
        (other, _) => view.refused(Index::Export, other),
    }
}

/// What a forwarder's text names.
#[derive(Debug, Copy, Clone, PartialEq)]
pub enum Reexport<'a> {
    /// An export by its name.
    DLLName {
        /// Its name.
        export: &'a str,
        /// The DLL, without its extension.
        lib: &'a str,
    },
    /// An export by its ordinal.
    DLLOrdinal {
        /// Its ordinal.
        ordinal: usize,
        /// The DLL, without its extension.
        lib: &'a str,
    },
}

impl<'a> Reexport<'a> {
    /// Reads the forwarder's text at an offset. Errors: `Scroll` past the end, `Malformed` where it names nothing.
    pub fn parse(bytes: &'a [u8], offset: usize) -> error::Result<Reexport<'a>> {
        Self::of(raw::text_up_to_zero(bytes, offset)?)
    }

    /// Of an export's text, or `None` where it names nothing. The text is taken from how many bytes are left.
    fn of_range(view: View<'a, '_>, text: sys::Range, names: &mut Left) -> error::Result<Option<Self>> {
        names.take(raw::narrow(text.length)?)?;
        Ok(Self::of(view.text(text)?).ok())
    }

    /// A text is the DLL up to its first dot, and after that a name, or `#` and an ordinal.
    fn of(text: &'a str) -> error::Result<Self> {
        let malformed = || error::Error::Malformed(format!("Reexport {text} is malformed"));
        let (lib, export) = text.split_once('.').filter(|it| !it.1.is_empty()).ok_or_else(malformed)?;
        match export.strip_prefix('#') {
            None => Ok(Reexport::DLLName { export, lib }),
            Some(digits) => {
                let ordinal = digits.parse::<u32>().map_err(|_| {
                    error::Error::Malformed(format!("Cannot parse reexport ordinal from {} bytes", text.len()))
                })?;
                Ok(Reexport::DLLOrdinal { ordinal: ordinal as usize, lib })
            }
        }
    }
}

impl<'a> ctx::TryFromCtx<'a, scroll::Endian> for Reexport<'a> {
    type Error = error::Error;

    fn try_from_ctx(bytes: &'a [u8], _: scroll::Endian) -> error::Result<(Self, usize)> {
        let text = raw::text_up_to_zero(bytes, 0)?;
        Ok((Self::of(text)?, text.len() + 1))
    }
}

/// An export that has a name.
#[derive(Debug, Default)]
pub struct Export<'a> {
    /// Its name.
    pub name: Option<&'a str>,
    /// File offset of the RVA, where a section maps it.
    pub offset: Option<usize>,
    /// RVA of what is exported, or of the forwarder's text.
    pub rva: usize,
    /// 0, as in goblin.
    pub size: usize,
    /// What a forwarder's text names.
    pub reexport: Option<Reexport<'a>>,
}

impl<'a> Export<'a> {
    /// Of the tables of an image, whose RVAs go into the table of RVAs. Those whose name or forwarder cannot be read are skipped, as in
    /// goblin. The names are taken from how many bytes are left.
    pub(crate) fn of(
        view: View<'a, '_>,
        mut tables: Tables,
        data: &mut ExportData<'_>,
        names: &mut Left,
    ) -> error::Result<Vec<Self>> {
        let mut exports = raw::list(data.export_name_pointer_table.len())?;
        let mut room = raw::Names::<_, TAKEN>::of(view);
        while let Some(found) = view.next_exports(&mut tables.walk, &mut room)? {
            for it in found {
                names.take(raw::narrow(it.name.length)?)?;
                let is_forwarder = it.is_forwarder != 0;
                if let Some(known) = data.export_address_table.get_mut(it.index as usize) {
                    *known = entry_of(is_forwarder, it.rva);
                }
                let reexport = if is_forwarder { Reexport::of_range(view, it.forwarder, names)? } else { None };
                if is_forwarder && reexport.is_none() {
                    continue;
                }
                let offset = if it.has_offset != 0 { Some(raw::narrow(it.offset)?) } else { None };
                let name = Some(view.text(it.name)?);
                raw::push(&mut exports, Export { name, offset, rva: it.rva as usize, size: 0, reexport })?;
            }
        }
        add_unnamed(view.bytes, &tables.addresses, &mut data.export_address_table)?;
        Ok(exports)
    }

    /// The exports of tables in a file.
    pub fn parse(
        bytes: &'a [u8],
        export_data: &ExportData<'_>,
        sections: &[SectionTable],
        file_alignment: u32,
    ) -> error::Result<Vec<Export<'a>>> {
        Self::parse_with_opts(bytes, export_data, sections, file_alignment, &ParseOptions::default())
    }

    /// The exports of tables, which the caller may have changed: so each is read by this crate, at offsets of the library. One
    /// whose index, name or forwarder cannot be read is skipped. Errors: `Malformed` where the names are longer than the default
    /// of [`Limits`]; out of memory.
    pub fn parse_with_opts(
        bytes: &'a [u8],
        export_data: &ExportData<'_>,
        sections: &[SectionTable],
        file_alignment: u32,
        opts: &ParseOptions,
    ) -> error::Result<Vec<Export<'a>>> {
        let info = raw::image_with(Index::Export, data_directories::DataDirectory::default(), file_alignment, opts);
        let sections = raw::sections_of(sections)?;
        let view = View::of(bytes, &info, &sections);
        let index = view.make_index()?;
        let view = view.with_index(&index);
        let mut exports = raw::list(export_data.export_name_pointer_table.len())?;
        let (names, mut left) = (&export_data.export_name_pointer_table, Left::of_names(&Limits::default()));
        for (name, index) in names.iter().zip(&export_data.export_ordinal_table) {
            if let Some(entry) = export_data.export_address_table.get(usize::from(*index)) {
                exports.extend(Self::at(view, *name, *entry, &mut left)?);
            }
        }
        Ok(exports)
    }

    /// An export of such tables. Its texts are taken from how many bytes are left.
    fn at(
        view: View<'a, '_>,
        name: u32,
        entry: ExportAddressTableEntry,
        names: &mut Left,
    ) -> error::Result<Option<Self>> {
        let text = |rva, names: &mut Left| match view.offset(rva) {
            Some(at) => raw::text_within(view.bytes, at, names),
            None => Ok(None),
        };
        let Some((name, true)) = text(name, names)? else { return Ok(None) };
        let (rva, reexport) = match entry {
            ExportAddressTableEntry::ExportRVA(rva) => (rva, None),
            ExportAddressTableEntry::ForwarderRVA(rva) => {
                let Some((text, _)) = text(rva, names)? else { return Ok(None) };
                let Ok(reexport) = Reexport::of(text) else { return Ok(None) };
                (rva, Some(reexport))
            }
        };
        Ok(Some(Export { name: Some(name), offset: view.offset(rva), rva: rva as usize, size: 0, reexport }))
    }
}
