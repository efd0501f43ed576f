//! Reads the exports, the imports and the libraries of an image, or the names of the symbols of an object, once: `names
//! FILE`. Prints how many there are, and how long each took.
#![tactic(auto)]

use anyhow::{Context, Result};
use pe_core::{
    CoffHeader, Export, ExportData, Header, Import, ImportData, MappedBytes, ParseOptions,
    SectionIndex,
};
use std::time::Instant;
use std::{env, fs};

/// The names of the symbols of an object, at once.
fn symbols(rt: HostRuntime, bytes: &[u8]) -> Result<()> {
    let header = CoffHeader::parse(bytes, 0)?;
    let table = header.symbols(bytes)?.context("no symbols")?;
    let strings = header.strings(bytes)?.context("no strings")?;
    let start = Instant::now(&rt)?;
    let names = table.names(rt.alloc(), &strings)?;
    println!(rt; "{} names of symbols {:?}", names.len(), start.elapsed(&rt)?)?;
    Ok(())
}

fn main(rt: HostRuntime) -> Result<()> {
    let alloc = rt.alloc();
    let mut words = env::args(&rt)?;
    let _ = words.next();
    // Without one it does nothing: so bench/names sees that it runs.
    let Some(file) = words.next() else {
        return Ok(());
    };
    let bytes = fs::read(&rt, file.as_str())?;
    if bytes.starts_with(&[0x64, 0x86]) {
        return symbols(rt, &bytes);
    }
    let opts = ParseOptions::default();
    let header = Header::parse_with_opts(&bytes, &opts)?;
    let optional = header.optional_header.context("no optional header")?;
    let offset = (header.dos_header.pe_pointer as usize)
        .saturating_add(24)
        .saturating_add(header.coff_header.size_of_optional_header as usize);
    let sections = header.coff_header.sections(alloc, &bytes, offset)?;
    let alignment = optional.windows_fields.file_alignment;
    println!(rt; "{} bytes, {} sections", bytes.len(), sections.len())?;
    if let Some(directory) = optional.data_directories.get_export_table() {
        let data = ExportData::parse_with_opts(&bytes, directory, &sections, alignment, &opts)?;
        let start = Instant::now(&rt)?;
        let exports = Export::parse_with_opts(alloc, &bytes, &data, &sections, alignment, &opts)?;
        println!(rt; "{} exports {:?}", exports.len(), start.elapsed(&rt)?)?;
    }
    if let Some(directory) = optional.data_directories.get_import_table() {
        let start = Instant::now(&rt)?;
        let data = ImportData::parse_with_opts(
            alloc, &bytes, directory, &sections, alignment, &opts, true,
        )?;
        println!(rt; "{} records {:?}", data.import_data.len(), start.elapsed(&rt)?)?;
        let index = SectionIndex::new(alloc, &sections, alignment, &opts)?;
        let image = MappedBytes {
            bytes: &bytes,
            map: index.map(),
        };
        let start = Instant::now(&rt)?;
        let imports = Import::parse_at_most(alloc, &image, &data, true, 1 << 20)?;
        println!(rt;
            "{} imports of {} {:?}", imports.len(), data.import_count(true), start.elapsed(&rt)?
        )?;
        let start = Instant::now(&rt)?;
        let libraries = data.libraries_with_map(alloc, &image)?;
        println!(rt; "{} libraries by offset {:?}", libraries.len(), start.elapsed(&rt)?)?;
        let start = Instant::now(&rt)?;
        let libraries = data.libraries(alloc)?;
        println!(rt; "{} libraries {:?}", libraries.len(), start.elapsed(&rt)?)?;
    }
    Ok(())
}
