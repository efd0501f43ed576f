//! Reads lists of an image by goblin 0.2.1, a number of times, for bench/lists: `lists_bench WHAT TIMES FILE`.
//!
//! It prints what bench/lists.c prints, and WHAT is as there; goblin has no symbols of images, and no exports by their index. The
//! image is parsed once, before. Of the bytes alone, `headers-key` reads the headers, the sections and the debug data, and
//! `parse-key` is `PE::parse`.

use goblin::pe::{debug::DebugData, exception::RuntimeFunction, export, header, import, section_table::SectionTable, PE};
use std::hint::black_box;

fn functions<'a>(pe: &'a PE<'_>) -> impl Iterator<Item = RuntimeFunction> + 'a {
    pe.exception_data.iter().flat_map(|data| data.functions().flatten())
}

fn records<'a>(pe: &'a PE<'a>) -> impl Iterator<Item = goblin::pe::exception::UnwindInfo<'a>> + 'a {
    let data = pe.exception_data.as_ref().expect("x64 functions");
    functions(pe).filter_map(|it| black_box(data.get_unwind_info(it, &pe.sections)).ok())
}

fn codes(pe: &PE<'_>) -> usize {
    records(pe).map(|it| it.unwind_codes().filter(|code| black_box(code).is_ok()).count()).sum()
}

fn lookups(pe: &PE<'_>) -> usize {
    let data = pe.exception_data.as_ref().expect("x64 functions");
    let middle = |it: RuntimeFunction| it.begin_address + (it.end_address - it.begin_address) / 2;
    functions(pe).filter(|it| matches!(black_box(data.find_function(black_box(middle(*it)))), Ok(Some(_)))).count()
}

/// What PE::parse reads of exports.
fn exports(pe: &PE<'_>, bytes: &[u8]) -> Option<usize> {
    let optional = pe.header.optional_header?;
    let (table, alignment) = ((*optional.data_directories.get_export_table())?, optional.windows_fields.file_alignment);
    let data = export::ExportData::parse(bytes, table, &pe.sections, alignment).ok()?;
    Some(black_box(export::Export::parse(bytes, &data, &pe.sections, alignment)).ok()?.len())
}

/// What PE::parse reads of imports.
fn imports(pe: &PE<'_>, bytes: &[u8]) -> Option<usize> {
    let optional = pe.header.optional_header?;
    let (table, alignment) = ((*optional.data_directories.get_import_table())?, optional.windows_fields.file_alignment);
    let data = import::ImportData::parse::<u64>(bytes, table, &pe.sections, alignment).ok()?;
    Some(black_box(import::Import::parse::<u64>(bytes, &data, &pe.sections)).ok()?.len())
}

/// What PE::parse reads of debug data.
fn debug<'a>(header: &header::Header, sections: &[SectionTable], bytes: &'a [u8]) -> Option<DebugData<'a>> {
    let optional = header.optional_header.as_ref()?;
    let table = (*optional.data_directories.get_debug_table())?;
    DebugData::parse(bytes, table, sections, optional.windows_fields.file_alignment).ok()
}

/// The least of goblin's calls that come to debug data, with what PE::parse does to call them.
fn debug_by_headers(bytes: &[u8]) -> Option<DebugData<'_>> {
    let header = header::Header::parse(bytes).ok()?;
    let size = header.coff_header.size_of_optional_header as usize;
    let mut offset = header.dos_header.pe_pointer as usize + header::SIZEOF_PE_MAGIC + header::SIZEOF_COFF_HEADER + size;
    let sections = header.coff_header.sections(bytes, &mut offset).ok()?;
    debug(&header, &sections, bytes)
}

/// Does it a number of times, and returns what it returned last.
fn repeated<T>(times: usize, mut read: impl FnMut() -> T) -> T {
    for _ in 1..times {
        black_box(read());
    }
    read()
}

fn hex(bytes: &[u8]) -> String {
    bytes.iter().map(|it| format!("{it:02x}")).collect()
}

fn main() {
    let words: Vec<String> = std::env::args().collect();
    let [_, what, times, path] = &words[..] else { panic!("lists_bench WHAT TIMES FILE") };
    let times = times.parse().expect("a number");
    let bytes = &std::fs::read(path).expect("a file that can be read")[..];
    let pe = &PE::parse(bytes).expect("an image");
    // The match stands around the loops, since it is not to be counted.
    let key = match what.as_str() {
        "key" => repeated(times, || debug(black_box(&pe.header), black_box(&pe.sections), black_box(bytes))),
        "headers-key" => repeated(times, || debug_by_headers(black_box(bytes))),
        "parse-key" => repeated(times, || PE::parse(black_box(bytes)).ok()?.debug_data),
        what => {
            let count = match what {
                "functions" => repeated(times, || functions(pe).filter(|it| black_box(it).end_address != 0).count()),
                "records" => repeated(times, || records(pe).count()),
                "codes" => repeated(times, || codes(pe)),
                "lookups" => repeated(times, || lookups(pe)),
                "exports" => repeated(times, || exports(pe, bytes)).unwrap_or(0),
                "imports" => repeated(times, || imports(pe, bytes)).unwrap_or(0),
                _ => 0,
            };
            println!("{count}");
            return;
        }
    };
    match key.and_then(|it| it.codeview_pdb70_debug_info) {
        Some(key) => println!("1 {} {} {}", hex(&key.signature), key.age, hex(key.filename)),
        None => println!("0"),
    }
}
