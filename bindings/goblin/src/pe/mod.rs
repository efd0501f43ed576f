//! PE images, the executables of Windows, and COFF objects, of which they are linked.
//! <https://learn.microsoft.com/windows/win32/debug/pe-format>

pub mod authenticode;
pub mod certificate_table;
pub mod characteristic;
pub mod clr;
pub mod data_directories;
pub mod debug;
pub mod dll_characteristic;
pub mod exception;
pub mod export;
pub mod header;
pub mod import;
pub mod load_config;
pub mod optional_header;
pub mod options;
pub mod relocation;
pub mod resource;
pub mod section_table;
pub mod subsystem;
pub mod symbol;
pub mod tls;
pub mod utils;
mod write;

use crate::error;
use crate::raw::{self, Index, View};
use crate::strtab;
use options::{Left, Limits, ParseOptions};
use pe_c::sys;

/// A PE image.
#[derive(Debug)]
pub struct PE<'a> {
    bytes: &'a [u8],
    info: sys::ImageInfo,
    /// The headers.
    pub header: header::Header<'a>,
    /// The section headers.
    pub sections: Vec<section_table::SectionTable>,
    /// 0, as in goblin.
    pub size: usize,
    /// The DLL's name, of its export directory.
    pub name: Option<&'a str>,
    /// Whether it is a DLL.
    pub is_lib: bool,
    /// Whether it is PE32+.
    pub is_64: bool,
    /// RVA where execution starts.
    pub entry: u32,
    /// The preferred virtual address of the image.
    pub image_base: u64,
    /// The export directory.
    pub export_data: Option<export::ExportData<'a>>,
    /// The import directory.
    pub import_data: Option<import::ImportData<'a>>,
    /// The exports that have names.
    pub exports: Vec<export::Export<'a>>,
    /// The imports of all DLLs.
    pub imports: Vec<import::Import<'a>>,
    /// The names of these DLLs, sorted, each once.
    pub libraries: Vec<&'a str>,
    /// The debug data.
    pub debug_data: Option<debug::DebugData<'a>>,
    /// Data of each thread.
    pub tls_data: Option<tls::TlsData<'a>>,
    /// The function table, on x64 and ARM64.
    pub exception_data: Option<exception::ExceptionData<'a>>,
    /// The base relocations.
    pub relocation_data: Option<relocation::RelocationData<'a>>,
    /// The load configuration.
    pub load_config_data: Option<load_config::LoadConfigData>,
    /// The certificates.
    pub certificates: certificate_table::CertificateDirectoryTable<'a>,
    /// The resources.
    pub resource_data: Option<resource::ResourceData<'a>>,
    /// The CLR header.
    pub clr_data: Option<clr::ClrData<'a>>,
}

impl<'a> PE<'a> {
    /// Reads all of a file, strictly.
    pub fn parse(bytes: &'a [u8]) -> error::Result<Self> {
        Self::parse_with_opts(bytes, &ParseOptions::default())
    }

    /// Reads an image. Errors: those of the headers, of the section headers, of the imports; in strict mode those of the debug
    /// data, the TLS directory, the function table, the base relocations, the load configuration, the CLR header, the
    /// certificates and the resources, in this order; out of memory. A damaged export directory counts as absent.
    pub fn parse_with_opts(bytes: &'a [u8], opts: &ParseOptions) -> error::Result<Self> {
        Self::parse_with_limits(bytes, opts, &Limits::default())
    }

    /// The same with other limits than the default. Error: also `Malformed` above a limit.
    pub fn parse_with_limits(bytes: &'a [u8], opts: &ParseOptions, limits: &Limits) -> error::Result<Self> {
        let (header, info) = header::Header::with_info(bytes, opts)?;
        let sections = raw::sections(bytes, &info)?;
        let index = View::of(bytes, &info, &sections).make_index()?;
        Self::of(View::of(bytes, &info, &sections).with_index(&index), header, opts, limits)
    }

    /// Of an image whose headers are read: the other parts in the order in which their errors are returned.
    fn of(view: View<'a, '_>, header: header::Header<'a>, opts: &ParseOptions, limits: &Limits) -> error::Result<Self> {
        let is_permissive = opts.parse_mode.is_permissive();
        let (export_data, exports) = exports_of(view, limits)?;
        let (import_data, imports) = match opts.parse_imports {
            true => imports_of(view, limits)?,
            false => (None, Vec::new()),
        };
        let libraries = libraries_of(&import_data)?;
        let sections = sections_of(view)?;
        Ok(PE {
            size: 0,
            name: export_data.as_ref().and_then(|it| it.name),
            is_lib: characteristic::is_dll(view.info.characteristics),
            is_64: view.info.width == 64,
            entry: view.info.entry,
            image_base: view.info.base,
            // In the order in which strict mode returns their errors.
            debug_data: unless_damaged(debug::DebugData::of(view), is_permissive)?,
            tls_data: unless_damaged(tls::TlsData::of(view), is_permissive)?,
            exception_data: unless_damaged(exception::ExceptionData::of(view), is_permissive)?,
            relocation_data: unless_damaged(relocation::RelocationData::of(view), is_permissive)?,
            load_config_data: unless_damaged(load_config::LoadConfigData::of(view), is_permissive)?,
            clr_data: unless_damaged(clr::ClrData::of(view), is_permissive)?,
            certificates: unless_damaged(certificates_of(view, opts), is_permissive)?.unwrap_or_default(),
            resource_data: unless_damaged(resources_of(view, opts), is_permissive)?,
            bytes: view.bytes,
            header,
            sections,
            export_data,
            exports,
            import_data,
            imports,
            libraries,
            info: *view.info,
        })
    }

    /// The parts of the file that an Authenticode digest covers, one after the other.
    pub fn authenticode_ranges(&self) -> authenticode::ExcludedSectionsIter<'_> {
        let view = View::of(self.bytes, &self.info, &[]);
        let digest = view.digest_ranges().ok().flatten();
        authenticode::ExcludedSectionsIter::new(self.bytes, digest)
    }
}

/// A directory that is damaged counts as absent in permissive mode, unless memory ran out.
fn unless_damaged<T>(found: error::Result<Option<T>>, is_permissive: bool) -> error::Result<Option<T>> {
    match found {
        Err(error) if is_permissive && !matches!(error, error::Error::IO(_)) => Ok(None),
        found => found,
    }
}

fn sections_of(view: View<'_, '_>) -> error::Result<Vec<section_table::SectionTable>> {
    let has_long_names = view.sections.iter().any(|it| it.name[0] == b'/');
    let table = if has_long_names { view.string_table().ok().flatten() } else { None };
    let names = table.map(|it| view.long_section_names(&it)).transpose()?.unwrap_or_default();
    let (mut sections, mut left) = (raw::list(view.sections.len())?, view.bytes.len());
    for (index, header) in view.sections.iter().enumerate() {
        let name = names.get(index).filter(|it| it.offset != 0).map(|it| view.text(*it)).transpose()?;
        sections.push(section_table::SectionTable::of_image(header, name, &mut left)?);
    }
    Ok(sections)
}

type Exports<'a> = (Option<export::ExportData<'a>>, Vec<export::Export<'a>>);

/// A damaged export directory counts as absent in both modes, as in goblin.
fn exports_of<'a>(view: View<'a, '_>, limits: &Limits) -> error::Result<Exports<'a>> {
    let found = unless_damaged(export::ExportData::of(view), true)?;
    let Some((mut data, tables)) = found else { return Ok((None, Vec::new())) };
    let exports = export::Export::of(view, tables, &mut data, &mut Left::of_names(limits))?;
    Ok((Some(data), exports))
}

type Imports<'a> = (Option<import::ImportData<'a>>, Vec<import::Import<'a>>);

fn imports_of<'a>(view: View<'a, '_>, limits: &Limits) -> error::Result<Imports<'a>> {
    let data = match view.info.width {
        64 => import::ImportData::of::<u64>(view, limits)?,
        _ => import::ImportData::of::<u32>(view, limits)?,
    };
    let imports = match (&data, view.info.width) {
        (None, _) => Vec::new(),
        (Some(data), 64) => import::Import::parse::<u64>(view.bytes, data, &[])?,
        (Some(data), _) => import::Import::parse::<u32>(view.bytes, data, &[])?,
    };
    Ok((data, imports))
}

fn libraries_of<'a>(data: &Option<import::ImportData<'a>>) -> error::Result<Vec<&'a str>> {
    let Some(data) = data else { return Ok(Vec::new()) };
    let mut libraries = raw::list(data.import_data.len())?;
    libraries.extend(data.import_data.iter().map(|it| it.name));
    libraries.sort_unstable();
    libraries.dedup();
    Ok(libraries)
}

type Certificates<'a> = Option<certificate_table::CertificateDirectoryTable<'a>>;

fn certificates_of<'a>(view: View<'a, '_>, opts: &ParseOptions) -> error::Result<Certificates<'a>> {
    let directory = view.directory(Index::Certificate);
    if !opts.parse_attribute_certificates || directory == Default::default() {
        return Ok(None);
    }
    let (at, size) = (directory.virtual_address, directory.size);
    certificate_table::enumerate_certificates(view.bytes, at, size).map(Some)
}

fn resources_of<'a>(view: View<'a, '_>, opts: &ParseOptions) -> error::Result<Option<resource::ResourceData<'a>>> {
    match opts.parse_resources {
        true => resource::ResourceData::of(view),
        false => Ok(None),
    }
}

/// A TE image: what UEFI keeps of a PE image. Its RVAs and offsets count from the start of the headers that were stripped; here
/// they are those of the file as it is.
#[cfg(feature = "te")]
#[derive(Debug)]
pub struct TE<'a> {
    /// The header.
    pub header: header::TeHeader,
    /// The section headers.
    pub sections: Vec<section_table::SectionTable>,
    /// The debug data.
    pub debug_data: debug::DebugData<'a>,
    /// By how many bytes the RVAs and offsets of the file's data are greater than the file's.
    pub rva_offset: usize,
}

#[cfg(feature = "te")]
impl<'a> TE<'a> {
    /// Reads a TE image. Errors: those of [`header::TeHeader::parse`], of the section headers and of the debug data.
    pub fn parse(bytes: &'a [u8]) -> error::Result<Self> {
        let mut offset = 0;
        let header = header::TeHeader::parse(bytes, &mut offset)?;
        let sections = header.sections(bytes, &mut offset)?;
        let (opts, rva_offset) = (ParseOptions::te(), header.rva_offset()?);
        let debug_data =
            debug::DebugData::parse_with_opts_and_fixup(bytes, header.debug_dir, &sections, 0, &opts, rva_offset)?;
        Ok(TE { header, sections, debug_data, rva_offset: rva_offset as usize })
    }
}

/// A COFF object.
#[derive(Debug)]
pub struct Coff<'a> {
    /// The header.
    pub header: header::CoffHeader,
    /// The section headers.
    pub sections: Vec<section_table::SectionTable>,
    /// The symbols.
    pub symbols: Option<symbol::SymbolTable<'a>>,
    /// The names that do not fit a symbol or a section header.
    pub strings: Option<strtab::Strtab<'a>>,
}

impl<'a> Coff<'a> {
    /// Reads an object. Errors: those of the header, of the section headers, of the symbols and of the string table.
    pub fn parse(bytes: &'a [u8]) -> error::Result<Self> {
        let mut offset = 0;
        let header = header::CoffHeader::parse(bytes, &mut offset)?;
        offset += usize::from(header.size_of_optional_header);
        let sections = header.sections(bytes, &mut offset)?;
        Ok(Coff { sections, symbols: header.symbols(bytes)?, strings: header.strings(bytes)?, header })
    }
}
