//! Imports: for each DLL a list of what is taken from it, by name or by ordinal, and a list of slots of the same length, which
//! the loader fills with addresses. <https://learn.microsoft.com/windows/win32/debug/pe-format#the-idata-section>

use super::data_directories::DataDirectory;
use super::options::{Left, Limits, ParseOptions};
use super::section_table::SectionTable;
use crate::error;
use crate::raw::{self, Index, Refusal, View};
use core::fmt::{Debug, LowerHex, Write};
use pe_c::sys;
use scroll::{ctx::TryFromCtx, Pread, Pwrite, SizeWith};
use std::borrow::Cow;

pub const IMPORT_BY_ORDINAL_32: u32 = 0x8000_0000;
pub const IMPORT_BY_ORDINAL_64: u64 = 0x8000_0000_0000_0000;
pub const IMPORT_RVA_MASK_32: u32 = 0x7fff_ffff;
pub const IMPORT_RVA_MASK_64: u64 = 0x0000_0000_7fff_ffff;
pub const SIZEOF_IMPORT_DIRECTORY_ENTRY: usize = 20;
/// How many libraries are taken a call, and how many imports of one, where a call reads their names and lists each by itself.
const LIBRARIES_TAKEN: usize = 8;
const TAKEN: usize = 16;
type Names = raw::ImportNames<TAKEN>;

/// An entry of a list of imports, of 32 or 64 bits: an ordinal where its highest bit is set, else the RVA of a hint and a name.
pub trait Bitfield<'a>:
    Into<u64> + PartialEq + Eq + LowerHex + Debug + TryFromCtx<'a, scroll::Endian, Error = scroll::Error>
{
    /// Whether it is an ordinal.
    fn is_ordinal(&self) -> bool;
    /// Its low 16 bits.
    fn to_ordinal(&self) -> u16;
    /// Its low 31 bits.
    fn to_rva(&self) -> u32;
    /// In bytes.
    fn size_of() -> usize;
    /// Whether it ends a list.
    fn is_zero(&self) -> bool;
}

macro_rules! bitfield {
    ($kind:ty, $by_ordinal:ident, $mask:ident) => {
        impl Bitfield<'_> for $kind {
            fn is_ordinal(&self) -> bool {
                self & $by_ordinal != 0
            }
            fn to_ordinal(&self) -> u16 {
                *self as u16
            }
            fn to_rva(&self) -> u32 {
                (self & $mask) as u32
            }
            fn size_of() -> usize {
                core::mem::size_of::<$kind>()
            }
            fn is_zero(&self) -> bool {
                *self == 0
            }
        }
    };
}

bitfield!(u32, IMPORT_BY_ORDINAL_32, IMPORT_RVA_MASK_32);
bitfield!(u64, IMPORT_BY_ORDINAL_64, IMPORT_RVA_MASK_64);

/// The name of an import.
#[derive(Debug, Clone, PartialEq)]
pub struct HintNameTableEntry<'a> {
    /// Where the DLL's names have it, as a rule.
    pub hint: u16,
    /// The name.
    pub name: &'a str,
}

/// An entry of a list of imports.
#[derive(Debug, Clone, PartialEq)]
pub enum SyntheticImportLookupTableEntry<'a> {
    /// The ordinal.
    OrdinalNumber(u16),
    /// The RVA of the hint, and what is there.
    HintNameTableRVA((u32, HintNameTableEntry<'a>)),
}

/// A list of imports.
pub type ImportLookupTable<'a> = Vec<SyntheticImportLookupTableEntry<'a>>;
/// The slots of a list of imports, as they are in the file.
pub type ImportAddressTable = Vec<u64>;

/// An entry of the import directory, `IMAGE_IMPORT_DESCRIPTOR`.
#[repr(C)]
#[derive(Debug, Clone, Copy, PartialEq, Default, Pread, Pwrite, SizeWith)]
pub struct ImportDirectoryEntry {
    /// RVA of the list of imports; where it is 0 the slots are the list.
    pub import_lookup_table_rva: u32,
    /// 0, or not 0 where the imports are bound.
    pub time_date_stamp: u32,
    /// Index of the first forwarder, or -1.
    pub forwarder_chain: u32,
    /// RVA of the DLL's name.
    pub name_rva: u32,
    /// RVA of the slots.
    pub import_address_table_rva: u32,
}

impl ImportDirectoryEntry {
    /// Whether all fields are 0.
    pub fn is_null(&self) -> bool {
        *self == Self::default()
    }

    /// Whether it has a name and slots.
    pub fn is_possibly_valid(&self) -> bool {
        self.name_rva != 0 && self.import_address_table_rva != 0
    }
}

/// A DLL that an image imports from, and what it imports.
#[derive(Debug)]
pub struct SyntheticImportDirectoryEntry<'a> {
    /// The entry.
    pub import_directory_entry: ImportDirectoryEntry,
    /// The DLL's name.
    pub name: &'a str,
    /// The imports; none where the RVA of the lookup table is unmapped. goblin 0.10 reads the address table then.
    pub import_lookup_table: Option<ImportLookupTable<'a>>,
    /// The slots: until the loader has filled them, they are the entries of the lookup table.
    pub import_address_table: ImportAddressTable,
}

/// The DLLs that an image imports from.
#[derive(Debug)]
pub struct ImportData<'a> {
    /// In the order of the directory.
    pub import_data: Vec<SyntheticImportDirectoryEntry<'a>>,
}

impl<'a> ImportData<'a> {
    /// The imports of a directory in a file.
    pub fn parse<T: Bitfield<'a>>(
        bytes: &'a [u8],
        dd: DataDirectory,
        sections: &[SectionTable],
        file_alignment: u32,
    ) -> error::Result<ImportData<'a>> {
        Self::parse_with_opts::<T>(bytes, dd, sections, file_alignment, &ParseOptions::default())
    }

    /// The imports of a directory. Errors: `Malformed` where the directory is absent, unmapped or truncated, where an import's
    /// RVA is unmapped or its name no text, and above the default of [`Limits`]; out of memory.
    pub fn parse_with_opts<T: Bitfield<'a>>(
        bytes: &'a [u8],
        dd: DataDirectory,
        sections: &[SectionTable],
        file_alignment: u32,
        opts: &ParseOptions,
    ) -> error::Result<ImportData<'a>> {
        let mut info = raw::image_with(Index::Import, dd, file_alignment, opts);
        info.width = 8 * T::size_of() as u16;
        let sections = raw::sections_of(sections)?;
        let view = View::of(bytes, &info, &sections);
        let index = view.make_index()?;
        Self::of::<T>(view.with_index(&index), &Limits::default())?.ok_or_else(|| unmapped(dd))
    }

    pub(crate) fn of<T: Bitfield<'a>>(view: View<'a, '_>, limits: &Limits) -> error::Result<Option<Self>> {
        let found = view.import_libraries().map_err(|it| match it {
            Refusal::UNMAPPED => unmapped(view.directory(Index::Import)),
            other => other.into(),
        })?;
        let Some(walk) = found else { return Ok(None) };
        let mut left = AllLeft { imports: Left::of_imports(limits), names: Left::of_names(limits) };
        let libraries = libraries_of::<T>(view, walk, &mut left)?;
        let (mut import_data, mut names) = (raw::list(libraries.len())?, Names::of(view, walk, libraries.len()));
        for library in libraries.iter().enumerate() {
            import_data.push(SyntheticImportDirectoryEntry::of::<T>(view, library, &mut left, &mut names)?);
        }
        Ok(Some(ImportData { import_data }))
    }
}

fn unmapped(directory: DataDirectory) -> error::Error {
    error::Error::Malformed(format!(
        "Cannot create ImportData; cannot map import_directory_table_rva {:#x} into offset",
        directory.virtual_address
    ))
}

/// How many imports and slots, and how many bytes of names, may still be taken.
struct AllLeft {
    imports: Left,
    names: Left,
}

/// All libraries, before an import of any is read: of two errors that of the directory is the first. Their names and how many imports
/// they have are taken from how many are left.
fn libraries_of<'a, T: Bitfield<'a>>(
    view: View<'a, '_>,
    walk: sys::Libraries,
    left: &mut AllLeft,
) -> error::Result<Vec<sys::Library>> {
    let (mut libraries, mut room) = (Vec::new(), raw::Names::<_, LIBRARIES_TAKEN>::of(view));
    let mut walk = sys::LibraryWalk::from(walk);
    loop {
        let found = view.next_libraries(&mut walk, libraries.len(), &mut room)?;
        if found.is_empty() {
            return Ok(libraries);
        }
        for library in found {
            left.names.take(raw::narrow(library.name.length)?)?;
            left.imports.take(raw::narrow::<_, usize>(library.imports.left.length)? / T::size_of())?;
            raw::push(&mut libraries, *library)?;
        }
    }
}

impl<'a> SyntheticImportDirectoryEntry<'a> {
    /// Of a library and its index; its slots and names of imports are taken from how many are left.
    fn of<T: Bitfield<'a>>(
        view: View<'a, '_>,
        (index, library): (usize, &sys::Library),
        left: &mut AllLeft,
        names: &mut Names,
    ) -> error::Result<Self> {
        let lookups = lookups_of::<T>(view, (index, library), left, names)?;
        let most = left.imports.count();
        let import_address_table = match view.offset(library.address_table_rva) {
            Some(at) => raw::address_table::<T>(view.bytes, at, most)?.ok_or_else(|| left.imports.error())?,
            None => Vec::new(),
        };
        left.imports.take(import_address_table.len())?;
        Ok(SyntheticImportDirectoryEntry {
            import_directory_entry: ImportDirectoryEntry {
                import_lookup_table_rva: library.lookup_table_rva,
                time_date_stamp: library.time_date_stamp,
                forwarder_chain: library.forwarder_chain,
                name_rva: library.name_rva,
                import_address_table_rva: library.address_table_rva,
            },
            name: view.text(library.name)?,
            import_lookup_table: Some(lookups),
            import_address_table,
        })
    }
}

fn lookups_of<'a, T: Bitfield<'a>>(
    view: View<'a, '_>,
    (index, library): (usize, &sys::Library),
    left: &mut AllLeft,
    names: &mut Names,
) -> error::Result<ImportLookupTable<'a>> {
    let count = raw::narrow::<_, usize>(library.imports.left.length)? / T::size_of();
    let mut lookups = raw::list(count)?;
    let mut walk = raw::imports_of(library, index);
    while lookups.len() < count {
        let found = view.next_imports(&mut walk, names)?;
        if found.is_empty() {
            break;
        }
        for sys::LibraryImport { import, hint_rva, .. } in found {
            left.names.take(raw::narrow(import.name.length)?)?;
            let hint = import.ordinal as u16;
            let entry = match import.has_name {
                0 => SyntheticImportLookupTableEntry::OrdinalNumber(hint),
                _ => {
                    let name = view.text(import.name)?;
                    SyntheticImportLookupTableEntry::HintNameTableRVA((*hint_rva, HintNameTableEntry { hint, name }))
                }
            };
            raw::push(&mut lookups, entry)?;
        }
    }
    Ok(lookups)
}

/// An import of an image.
#[derive(Debug, PartialEq)]
pub struct Import<'a> {
    /// The name, or `ORDINAL` and the number.
    pub name: Cow<'a, str>,
    /// The DLL.
    pub dll: &'a str,
    /// The hint, or the ordinal.
    pub ordinal: u16,
    /// RVA of the slot.
    pub offset: usize,
    /// RVA of the hint and the name; 0 of an ordinal.
    pub rva: usize,
    /// Bytes of the slot.
    pub size: usize,
}

impl<'a> Import<'a> {
    /// The imports of all DLLs, one after the other. Error: out of memory.
    pub fn parse<T: Bitfield<'a>>(
        _bytes: &'a [u8],
        import_data: &ImportData<'a>,
        _sections: &[SectionTable],
    ) -> error::Result<Vec<Import<'a>>> {
        let count = |it: &SyntheticImportDirectoryEntry<'_>| it.import_lookup_table.as_ref().map_or(0, Vec::len);
        let mut imports = raw::list(import_data.import_data.iter().map(count).sum())?;
        for data in &import_data.import_data {
            let slots = data.import_directory_entry.import_address_table_rva as usize;
            for (index, entry) in data.import_lookup_table.iter().flatten().enumerate() {
                imports.push(Self::of(entry, data.name, slots + index * T::size_of(), T::size_of())?);
            }
        }
        Ok(imports)
    }

    fn of(
        entry: &SyntheticImportLookupTableEntry<'a>,
        dll: &'a str,
        offset: usize,
        size: usize,
    ) -> error::Result<Self> {
        Ok(match entry {
            SyntheticImportLookupTableEntry::HintNameTableRVA((rva, it)) => {
                let (name, rva) = (Cow::Borrowed(it.name), *rva as usize);
                Import { name, dll, ordinal: it.hint, offset, rva, size }
            }
            SyntheticImportLookupTableEntry::OrdinalNumber(ordinal) => {
                let name = Cow::Owned(ordinal_name(*ordinal)?);
                Import { name, dll, ordinal: *ordinal, offset, rva: 0, size }
            }
        })
    }
}

/// The name that goblin makes of an ordinal, in memory that is reserved first.
fn ordinal_name(ordinal: u16) -> error::Result<String> {
    let mut name = raw::text_with_room("ORDINAL 65535".len())?;
    write!(name, "ORDINAL {ordinal}").map_err(|why| error::Error::Malformed(why.to_string()))?;
    Ok(name)
}
