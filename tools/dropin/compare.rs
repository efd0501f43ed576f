//! Compares the crate with goblin's names, `dropin`, with goblin: `old` is 0.2.1, `new` are 0.10.7's own files over the crate's
//! other modules. tools/try_goblin --compare builds and runs it.
//!
//!     compare new|old|coff|te|ours FILE ..
//!
//! Of each file it prints `FILE`, and then a line for each thing that was compared: its kind and `same`, or `differs` and both
//! texts where they first differ. `ours` reads a file by the crate alone, and prints nothing of it.

use std::fmt::Debug;
use std::panic::{catch_unwind, AssertUnwindSafe};

/// The most functions, entries and codes of a file that are compared.
const MOST: usize = 2000;

/// What was read of a file: for each thing its kind and a text.
type Facts = Vec<(&'static str, String)>;

fn shown(what: impl Debug) -> String {
    format!("{what:?}")
}

/// Items up to the first error, whose text is not compared.
fn listed<T: Debug, E>(items: impl Iterator<Item = Result<T, E>>) -> String {
    let mut text = String::new();
    for item in items.take(MOST) {
        match item {
            Ok(item) => text += &format!("{item:?}\n"),
            Err(_) => return text + "error",
        }
    }
    text
}

fn outcome<T: Debug, E>(result: Result<T, E>) -> String {
    result.map_or_else(|_| "error".to_owned(), shown)
}

/// Reads the same of both crates, whose names are the same.
macro_rules! reader {
    ($name:ident, $goblin:ident) => {
        mod $name {
            use super::*;
            use $goblin::pe::debug::*;
            use $goblin::pe::exception::*;
            use $goblin::pe::resource::VersionField;
            use $goblin::pe::{options, PE};

            pub fn parse(bytes: &[u8], is_permissive: bool) -> Result<PE<'_>, String> {
                let mode = if is_permissive { options::ParseMode::Permissive } else { options::ParseMode::Strict };
                let opts = options::ParseOptions::default().with_parse_mode(mode);
                PE::parse_with_opts(bytes, &opts).map_err(|why| {
                    let others = options::ParseOptions { parse_resources: false, ..opts };
                    let is_of_resources = PE::parse_with_opts(bytes, &others).is_ok();
                    shown(why) + if is_of_resources { " of resources" } else { "" }
                })
            }

            pub fn facts(pe: &PE<'_>, bytes: &[u8]) -> Facts {
                let mut facts = Facts::new();
                debug(pe, bytes, &mut facts);
                exceptions(pe, &mut facts);
                facts.push(("certificates", shown(&pe.certificates)));
                resources(pe, &mut facts);
                facts.push(("name", shown(pe.name)));
                facts.push(("numbers", shown((pe.is_lib, pe.is_64, pe.entry, pe.image_base, pe.size))));
                facts.push(("libraries", shown(&pe.libraries)));
                facts
            }

            fn debug(pe: &PE<'_>, bytes: &[u8], facts: &mut Facts) {
                facts.push(("debug_data", shown(&pe.debug_data)));
                let Some(data) = &pe.debug_data else { return };
                facts.push(("debug entries", listed(data.entries())));
                facts.push(("debug guid", shown(data.guid())));
                facts.push(("debug types", shown((0..22).map(|it| data.find_type(it)).collect::<Vec<_>>())));
                if let Some(pogo) = &data.pogo_info {
                    facts.push(("pogo entries", listed(pogo.entries())));
                }
                for entry in data.entries().flatten().take(MOST) {
                    facts.push(("debug record", match entry.data_type {
                        2 => outcome(CodeviewPDB70DebugInfo::parse(bytes, &entry))
                            + &outcome(CodeviewPDB20DebugInfo::parse(bytes, &entry)),
                        12 => outcome(VCFeatureInfo::parse(bytes, &entry)),
                        13 => outcome(POGOInfo::parse(bytes, &entry)),
                        16 => outcome(ReproInfo::parse(bytes, &entry)),
                        20 => outcome(ExDllCharacteristicsInfo::parse(bytes, &entry)),
                        _ => String::new(),
                    }));
                }
            }

            fn exceptions(pe: &PE<'_>, facts: &mut Facts) {
                facts.push(("exception_data", shown(&pe.exception_data)));
                let Some(data) = &pe.exception_data else { return };
                if pe.header.coff_header.machine == 0x8664 {
                    x64(pe, data, facts);
                } else {
                    arm64(pe, data, facts);
                }
            }

            fn x64(pe: &PE<'_>, data: &ExceptionData<'_>, facts: &mut Facts) {
                let functions: Vec<_> = data.functions().take(MOST).flatten().collect();
                facts.push(("functions", shown((&functions, data.len(), data.functions().len()))));
                // In a table that is not sorted lookup finds this or that.
                let is_sorted = data.functions().flatten().map(|it| it.begin_address).is_sorted();
                for (index, function) in functions.iter().enumerate() {
                    if index % 7 == 0 {
                        facts.push(("get_function", outcome(data.get_function(index))));
                        let ends = [function.begin_address, function.end_address, function.end_address.wrapping_sub(1)];
                        let found = ends.map(|rva| is_sorted.then(|| outcome(data.find_function(rva))));
                        facts.push(("find_function", shown(found)));
                    }
                    let is_link = function.unwind_info_address % 2 != 0;
                    let info = data.get_unwind_info(*function, &pe.sections);
                    let text = info.map_or("error".to_owned(), |it| {
                        format!("{} {} {}", record(&it), listed(it.unwind_codes()), scopes(&it))
                    });
                    facts.push((if is_link { "linked unwind_info" } else { "unwind_info" }, text));
                }
            }

            fn record(it: &UnwindInfo<'_>) -> String {
                let handler = it.handler.map(|it| match it {
                    UnwindHandler::ExceptionHandler(rva, data) => (true, rva, data.len()),
                    UnwindHandler::TerminationHandler(rva, data) => (false, rva, data.len()),
                });
                let numbers = (it.version, it.size_of_prolog, it.frame_register, it.frame_register_offset);
                shown((numbers, it.chained_info, handler))
            }

            /// goblin's size of a table wraps: those that wrap are left out.
            fn scopes(info: &UnwindInfo<'_>) -> String {
                if let Some(UnwindHandler::ExceptionHandler(_, [a, b, c, d, ..])) = info.handler {
                    if u32::from_le_bytes([a, b, c, d].map(|it| *it)).checked_mul(16).is_none() {
                        return "wraps".to_owned();
                    }
                }
                shown(info.c_scope_table_entries().map(|it| it.take(50).collect::<Vec<_>>()))
            }

            fn arm64(pe: &PE<'_>, data: &ExceptionData<'_>, facts: &mut Facts) {
                let functions: Vec<_> = data.functions_arm64().take(MOST).flatten().collect();
                facts.push(("arm64 functions", shown((&functions, data.len_arm64()))));
                for function in &functions {
                    let Some(found) = data.get_unwind_info_arm64(*function, &pe.sections) else { continue };
                    let Ok(info) = found else {
                        facts.push(("arm64 record", "error".to_owned()));
                        continue;
                    };
                    let handler = info.exception_handler.as_ref().map(|it| (it.rva, it.data.len()));
                    facts.push(("arm64 record", shown((info.header, info.extension, handler))));
                    facts.push(("arm64 scopes", info.epilog_scopes().map_or("none".to_owned(), listed)));
                    let codes = info.unwind_codes(0).map(|it| listed(it));
                    facts.push(("arm64 codes", codes.unwrap_or_else(|_| "error".to_owned())));
                }
            }

            fn resources(pe: &PE<'_>, facts: &mut Facts) {
                facts.push(("resource_data", shown(&pe.resource_data)));
                let Some(data) = &pe.resource_data else { return };
                facts.push(("resource count", shown(data.count())));
                let there = catch_unwind(AssertUnwindSafe(|| listed(data.entries())));
                facts.push(("resource entries", there.unwrap_or_default()));
                if let Some(fixed) = data.version_info.and_then(|it| it.fixed_info) {
                    // goblin's file_version reads the date.
                    let file = VersionField::from_ms_ls(fixed.file_version_ms, fixed.file_version_ls);
                    facts.push(("versions", file.to_string() + " " + &fixed.product_version().to_string()));
                }
            }

            #[allow(dead_code)]
            pub fn te(bytes: &[u8]) -> Result<Facts, String> {
                let te = $goblin::pe::TE::parse(bytes).map_err(shown)?;
                Ok(vec![
                    ("te header", shown(te.header)),
                    ("te sections", shown(&te.sections)),
                    ("te debug data", shown(&te.debug_data)),
                    ("te debug entries", listed(te.debug_data.entries())),
                    ("te rva_offset", shown(te.rva_offset)),
                ])
            }
        }
    };
}

reader!(ours, dropin);
#[cfg(feature = "new")]
reader!(theirs, new);

/// What 0.2.1 has of an image: its own code for headers, sections, exports and imports.
#[cfg(feature = "old")]
macro_rules! old_reader {
    ($name:ident, $goblin:ident, $prepare:expr, $offset:expr, $directories:expr) => {
        mod $name {
            use super::*;

            pub fn facts(bytes: &[u8]) -> Result<Facts, String> {
                let pe = $prepare(bytes, $goblin::pe::PE::parse(bytes).map_err(shown)?);
                let mut facts = Facts::new();
                let dos = pe.header.dos_header;
                facts.push(("dos header", shown((dos.signature, dos.pe_pointer))));
                facts.push(("coff header", shown(pe.header.coff_header)));
                if let Some(header) = pe.header.optional_header {
                    facts.push(("standard fields", shown(header.standard_fields)));
                    facts.push(("windows fields", shown(header.windows_fields)));
                    facts.push(("data directories", shown(header.data_directories.data_directories.map($directories))));
                }
                facts.push(("sections", shown(&pe.sections)));
                let names: Vec<_> = pe.sections.iter().map(|it| it.name().ok()).collect();
                facts.push(("section names", shown(names)));
                facts.push(("old name", shown(pe.name)));
                facts.push(("export_data", shown(&pe.export_data)));
                // Those whose RVA is unmapped are left out there, and those without a name here.
                let mapped = pe.exports.iter().filter_map(|it| Some((it, it.name?, $offset(it.offset)?)));
                let exports = mapped.map(|(it, name, offset)| shown((name, offset, it.rva, it.size, &it.reexport)));
                facts.push(("exports", exports.take(MOST).collect::<Vec<_>>().join("\n")));
                facts.push(("imports", shown((&pe.import_data, &pe.imports))));
                facts.push(("old libraries", shown(&pe.libraries)));
                Ok(facts)
            }

            pub fn coff(bytes: &[u8]) -> Result<(Facts, $goblin::pe::Coff<'_>), String> {
                let coff = $goblin::pe::Coff::parse(bytes).map_err(shown)?;
                let mut facts = vec![("object header", shown(coff.header)), ("object sections", shown(&coff.sections))];
                for section in &coff.sections {
                    let relocations = section.relocations(bytes).map(|it| it.collect::<Vec<_>>());
                    facts.push(("object relocations", outcome(relocations)));
                }
                Ok((facts, coff))
            }
        }
    };
}

#[cfg(feature = "old")]
old_reader!(ours_old, dropin, |_, pe| pe, |it: Option<usize>| it, |it| it.map(|it| it.1));
#[cfg(feature = "old")]
old_reader!(theirs_old, old, as_mapped, |it: usize| Some(it), |it| it);

/// An image without the exports, and without the name, whose RVAs the section map of 0.10.7 does not have, which is the crate's: 0.2.1
/// also maps what follows the raw data of a section, up to the next page. Of an export that is its RVA, and that of its name.
#[cfg(feature = "old")]
fn as_mapped<'a>(bytes: &'a [u8], mut pe: old::pe::PE<'a>) -> old::pe::PE<'a> {
    let sections = pe.sections.iter().map(|it| dropin::pe::section_table::SectionTable {
        virtual_size: it.virtual_size,
        virtual_address: it.virtual_address,
        size_of_raw_data: it.size_of_raw_data,
        pointer_to_raw_data: it.pointer_to_raw_data,
        ..Default::default()
    });
    let sections: Vec<_> = sections.collect();
    let alignment = pe.header.optional_header.map_or(0, |it| it.windows_fields.file_alignment);
    let opts = dropin::pe::options::ParseOptions::default();
    let is_mapped = |rva| dropin::pe::utils::find_offset(rva, &sections, alignment, &opts).is_some();
    if let Some(data) = &mut pe.export_data {
        // An export of 0.2.1 does not keep the RVA of its name: they are read again, of those names alone.
        let (names, ordinals) = (data.export_name_pointer_table.clone(), data.export_ordinal_table.clone());
        let pairs = names.iter().zip(&ordinals).map(|(name, ordinal)| (*name, *ordinal));
        let mapped = pairs.filter(|it| is_mapped(it.0 as usize)).unzip();
        (data.export_name_pointer_table, data.export_ordinal_table) = mapped;
        pe.exports = old::pe::export::Export::parse(bytes, data, &pe.sections, alignment).unwrap_or_default();
        (data.export_name_pointer_table, data.export_ordinal_table) = (names, ordinals);
        if !is_mapped(data.export_directory_table.name_rva as usize) {
            (data.name, pe.name) = (None, None);
        }
    }
    pe.exports.retain(|it| is_mapped(it.rva));
    pe
}

/// Whether both section maps have the same offset of each RVA that the imports stand at: that of the directory, and of each library
/// those of its name, its two tables, and its hints. 0.2.1 does not subtract the raw pointer from what a section has in the file: a
/// section reaches past its raw data, up to the whole pages that these take. An RVA of another section that starts inside of these
/// pages is found after the raw data of the first, where other bytes are.
#[cfg(feature = "old")]
fn has_imports_alike(bytes: &[u8]) -> bool {
    use dropin::pe::import::SyntheticImportLookupTableEntry::HintNameTableRVA;
    let (Ok(pe), Ok(theirs)) = (dropin::pe::PE::parse(bytes), old::pe::PE::parse(bytes)) else { return true };
    let Some(header) = &pe.header.optional_header else { return true };
    let opts = dropin::pe::options::ParseOptions::default();
    let alignment = header.windows_fields.file_alignment;
    let is_alike = |rva: u32| {
        let offset = dropin::pe::utils::find_offset(rva as usize, &pe.sections, alignment, &opts);
        offset == old::pe::utils::find_offset(rva as usize, &theirs.sections, alignment)
    };
    let directory = header.data_directories.get_import_table().map_or(true, |it| is_alike(it.virtual_address));
    let libraries = pe.import_data.iter().flat_map(|it| &it.import_data);
    directory
        && libraries.into_iter().all(|it| {
            let entry = &it.import_directory_entry;
            let hints = it.import_lookup_table.iter().flatten();
            [entry.name_rva, entry.import_lookup_table_rva, entry.import_address_table_rva].into_iter().all(is_alike)
                && hints.into_iter().all(|it| !matches!(it, HintNameTableRVA((rva, _)) if !is_alike(*rva)))
        })
}

#[cfg(feature = "old")]
fn new_symbols(coff: &dropin::pe::Coff<'_>, facts: &mut Facts) {
    let strings = coff.strings.as_ref();
    for (index, name, symbol) in coff.symbols.iter().flat_map(|it| it.iter()) {
        let long = strings.and_then(|it| symbol.name(it).ok().map(str::to_owned));
        facts.push(("object symbol", shown((index, name, symbol, name.map(str::to_owned).or(long)))));
    }
}

#[cfg(feature = "old")]
fn old_symbols(coff: &old::pe::Coff<'_>, facts: &mut Facts) {
    for (index, name, symbol) in coff.symbols.iter() {
        let long = symbol.name(&coff.strings).ok().map(str::to_owned);
        facts.push(("object symbol", shown((index, name, symbol, name.map(str::to_owned).or(long)))));
    }
}

/// Prints where two texts first differ, or that they do not.
fn compare(kind: &str, ours: &str, theirs: &str) {
    if ours == theirs {
        println!("{kind}\tsame");
        return;
    }
    let at = ours.bytes().zip(theirs.bytes()).take_while(|(one, other)| one == other).count();
    let cut = |text: &str| {
        let start = text.len().min(at.saturating_sub(40));
        String::from_utf8_lossy(&text.as_bytes()[start..text.len().min(at + 120)]).replace(['\n', '\t'], " ")
    };
    println!("{kind}\tdiffers\t{}\t{}", cut(ours), cut(theirs));
}

fn compare_all(ours: Result<Facts, String>, theirs: Result<Facts, String>, kind: &str) {
    let (ours, theirs) = match (ours, theirs) {
        (Ok(ours), Ok(theirs)) => (ours, theirs),
        (Err(_), Err(_)) => return compare(&format!("{kind} outcome"), "refused", "refused"),
        (ours, theirs) => {
            let text = |it: Result<Facts, String>| it.map_or_else(|why| format!("refused {why}"), |_| "read".to_owned());
            return compare(&format!("{kind} outcome"), &text(ours), &text(theirs));
        }
    };
    compare(&format!("{kind} outcome"), "read", "read");
    let mut theirs = theirs.into_iter();
    for (what, text) in ours {
        match theirs.next() {
            Some((other, theirs)) if other == what => compare(what, &text, &theirs),
            other => return compare(&format!("{kind} list"), what, &shown(other.map(|it| it.0))),
        }
    }
    compare(&format!("{kind} list"), "None", &shown(theirs.next().map(|it| it.0)));
}

/// A call that may panic.
fn guarded<T>(call: impl FnOnce() -> Result<T, String>) -> Result<T, String> {
    catch_unwind(AssertUnwindSafe(call)).unwrap_or_else(|_| Err("panic".to_owned()))
}

#[cfg(feature = "new")]
fn try_new(bytes: &[u8], is_permissive: bool) {
    let kind = if is_permissive { "permissive" } else { "strict" };
    let (ours, theirs) = (ours::parse(bytes, is_permissive), guarded(|| theirs::parse(bytes, is_permissive)));
    let theirs = theirs.and_then(|pe| guarded(|| Ok(theirs::facts(&pe, bytes))));
    compare_all(ours.map(|pe| ours::facts(&pe, bytes)), theirs, kind);
}

#[cfg(feature = "old")]
fn try_old(bytes: &[u8]) {
    let (mut ours, mut theirs) = (ours_old::facts(bytes), guarded(|| theirs_old::facts(bytes)));
    if let (Ok(ours), Ok(theirs)) = (&mut ours, &mut theirs) {
        if !has_imports_alike(bytes) {
            [ours, theirs].into_iter().for_each(|it| it.retain(|fact| !["imports", "old libraries"].contains(&fact.0)));
        }
    }
    compare_all(ours, theirs, "old");
}

#[cfg(feature = "old")]
fn try_coff(bytes: &[u8]) {
    let ours = ours_old::coff(bytes).map(|(mut facts, coff)| {
        new_symbols(&coff, &mut facts);
        facts
    });
    let theirs = guarded(|| theirs_old::coff(bytes)).map(|(mut facts, coff)| {
        old_symbols(&coff, &mut facts);
        facts
    });
    compare_all(ours, theirs, "object");
}

fn main() {
    std::panic::set_hook(Box::new(|_| {}));
    let words: Vec<String> = std::env::args().collect();
    for path in &words[2..] {
        let bytes = std::fs::read(path).expect("the file can be read");
        println!("{path}");
        match words[1].as_str() {
            #[cfg(feature = "new")]
            "new" => [false, true].into_iter().for_each(|it| try_new(&bytes, it)),
            #[cfg(feature = "old")]
            "old" => try_old(&bytes),
            #[cfg(feature = "old")]
            "coff" => try_coff(&bytes),
            #[cfg(feature = "new")]
            "te" => compare_all(ours::te(&bytes), guarded(|| theirs::te(&bytes)), "te"),
            _ => {
                let read = [false, true].map(|it| ours::parse(&bytes, it).map(|pe| ours::facts(&pe, &bytes).len()).ok());
                let _ = std::hint::black_box(read);
            }
        }
    }
}
