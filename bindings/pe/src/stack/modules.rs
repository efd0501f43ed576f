//! The modules of a dump.

use super::files::Images;
use super::pdbs::ToldPdbs;
use super::told::Module;
use super::{name_of, Loaded, PDB_RECORD};
use crate::facts::{List, Refusal, Stamp};
use pe_c::sys::{DumpModule, DumpVersion, ImageInfo};
use pe_c::{DirectoryIndex, Dump, Image, ImageSource, NameTable, SymbolKey};

/// `VS_FFI_SIGNATURE`: a module has a version.
const FIXED_VERSION: u32 = 0xFEEF_04BD;

pub fn of<'d>(dump: &Dump<'d>, loaded: &Loaded<'d>, files: &Images<'_>, mut pdbs: ToldPdbs) -> List<Module> {
    let modules = loaded.images.modules().iter().zip(loaded.paths).enumerate();
    let told = modules.map(|(index, (module, path))| {
        let source = loaded.images.image(index).map(|it| it.source);
        let is_file = source == Some(ImageSource::Found);
        let refused = |table: NameTable| {
            let mut tables = loaded.images.image(index)?.image.refused_name_tables();
            tables.find(|it| it.0 == table).map(|it| Refusal::from(it.1))
        };
        Module {
            name: path.as_deref().map(|it| name_of(it).to_string()),
            path: path.clone(),
            base_va: module.base_of_image,
            size: module.size_of_image,
            checksum: module.check_sum,
            time: Stamp::of(module.time_date_stamp),
            version: version_of(&module.version_info),
            pdb_symbol_server_path: key_of(dump, loaded, index).and_then(|it| Some(it.path()?.to_string())),
            symbol_server_path: path.as_deref().and_then(|it| own_path_of(module, it)),
            image: source.map(source_of),
            image_file: files.path_of(module).filter(|_| is_file).map(|it| it.to_string_lossy().into_owned()),
            pdb: pdbs.remove(&index),
            symbols_error: refused(NameTable::Symbols),
            strings_error: refused(NameTable::Strings),
            exports_error: refused(NameTable::Exports),
            function_table_error: loaded.images.image(index).and_then(|it| damage_of(&it.image)),
        }
    });
    List { entries: told.collect(), error: None, is_limited: loaded.images.is_limited() }
}

/// Why the function table of an image is refused.
fn damage_of(image: &Image<'_>) -> Option<Refusal> {
    let error = pe_c::Module::new(image, 0).err()?;
    Some(Refusal::of_directory(error, image, DirectoryIndex::Exception))
}

fn version_of(version: &DumpVersion) -> Option<String> {
    let (ms, ls) = (version.file_version_ms, version.file_version_ls);
    (version.signature == FIXED_VERSION).then(|| format!("{}.{}.{}.{}", ms >> 16, ms & 0xFFFF, ls >> 16, ls & 0xFFFF))
}

/// The key of a module's PDB: the one that the dump has, or else its image.
pub fn key_of<'d>(dump: &Dump<'d>, loaded: &Loaded<'d>, index: usize) -> Option<SymbolKey<'d>> {
    let module = loaded.images.modules().get(index)?;
    let record = dump.located(&module.cv_record).ok().filter(|it| !it.is_empty() && it.len() <= PDB_RECORD);
    let of_dump = record.and_then(|it| SymbolKey::of_record(it).ok()?);
    of_dump
        .or_else(|| loaded.images.image(index)?.image.symbol_key().ok()?.filter(|it| it.name_bytes.len() <= PDB_RECORD))
}

/// The image has no headers here, but those that a symbol server asks for.
fn own_path_of(module: &DumpModule, path: &str) -> Option<String> {
    let (time_date_stamp, size_of_image) = (module.time_date_stamp, module.size_of_image);
    let info = ImageInfo { width: 64, time_date_stamp, size_of_image, ..ImageInfo::default() };
    info.symbol_path(path).map(|it| it.to_string())
}

fn source_of(source: ImageSource) -> &'static str {
    match source {
        ImageSource::Memory => "memory",
        ImageSource::MemoryPart => "memory in part",
        ImageSource::Found => "file",
        _ => "elsewhere",
    }
}
