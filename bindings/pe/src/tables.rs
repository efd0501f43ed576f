//! The parts of an image as rows and tables of text. `show` lays them out as text, and `html` on its page.

use crate::escape::escaped;
use crate::facts::all_headers::{AllHeaders, Coff};
use crate::facts::assembly::{Assembly, Tables};
use crate::facts::bound_imports::{self, Bound};
use crate::facts::certificates::Certificate;
use crate::facts::clr::{self, Clr, Metadata};
use crate::facts::debug::{Debug, Entry, Pogo, VcFeatures};
use crate::facts::exports::Exports;
use crate::facts::functions::Functions;
use crate::facts::guards::{Guards, Target};
use crate::facts::hardening::Hardening;
use crate::facts::hashes::Hashes;
use crate::facts::headers::{Directory, Headers};
use crate::facts::imports::{self, Library};
use crate::facts::load_config::LoadConfig;
use crate::facts::relocations::Page;
use crate::facts::resources::{Label, Leaf, Resources};
use crate::facts::rich::Rich;
use crate::facts::sections::Section;
use crate::facts::symbols::Symbol;
use crate::facts::tls::Tls;
use crate::facts::version::Version;
use crate::facts::{counted, delay_imports, languages, others, Flags, List, Name, Part, Stamp};
use crate::show::time_of;
use crate::summary::{built, checksum_of, stamped};

/// A column: its head, and whether its cells are numbers.
#[derive(Clone, Copy, Debug)]
pub struct Column {
    pub head: &'static str,
    pub is_number: bool,
}

pub const fn text(head: &'static str) -> Column {
    Column { head, is_number: false }
}

pub const fn number(head: &'static str) -> Column {
    Column { head, is_number: true }
}

/// Rows of as many cells as there are columns.
#[derive(Clone, Debug)]
pub struct Table {
    pub columns: Vec<Column>,
    pub rows: Vec<Vec<String>>,
    /// How many rows there are; more than `rows` has, where only the first are asked for.
    pub count: usize,
    /// Whether the image has more than the rows.
    pub is_limited: bool,
}

impl Table {
    pub fn new(columns: &[Column], rows: impl Iterator<Item = Vec<String>>) -> Table {
        let rows: Vec<Vec<String>> = rows.collect();
        Table { columns: columns.to_vec(), count: rows.len(), rows, is_limited: false }
    }

    fn limited(self, is_limited: bool) -> Table {
        Table { is_limited, ..self }
    }
}

/// A label, and what it says.
pub type Row = (&'static str, String);

pub fn headers(headers: &Headers) -> Vec<Row> {
    let mut rows = vec![
        ("format", headers.format.unwrap_or("no optional header").to_string()),
        ("machine", headers.machine.to_string()),
        ("subsystem", headers.subsystem.to_string()),
        ("built", built(headers)),
        ("entry point", format!("{:#x}", headers.entry_rva)),
        ("image base", format!("{:#x}", headers.image_base_va)),
        ("sizes", format!("image {}, headers {}", headers.size_of_image, headers.size_of_headers)),
        ("alignment", format!("sections {}, file {}", headers.section_alignment, headers.file_alignment)),
        ("checksum", checksum_of(headers).unwrap_or(format!("{:#010x}", headers.checksum))),
        ("flags", flags(&headers.characteristics)),
        ("DLL flags", flags(&headers.dll_characteristics)),
    ];
    rows.extend(headers.all.iter().flat_map(more_headers));
    rows.extend(headers.overlay.iter().map(|it| ("overlay", it.to_string())));
    rows.retain(|(_, value)| !value.is_empty());
    rows
}

/// The number of flags, of which not all have names, and these; nothing where none is set.
fn flags(flags: &Flags) -> String {
    if flags.number == 0 {
        String::new()
    } else {
        flags.to_string()
    }
}

/// The header of a TE image, or of an object.
pub fn other_headers(headers: &others::Headers) -> Vec<Row> {
    match headers {
        others::Headers::Te(it) => vec![
            ("machine", it.machine.to_string()),
            ("subsystem", it.subsystem.to_string()),
            ("entry point", format!("{:#x}", it.entry_rva)),
            ("image base", format!("{:#x}", it.image_base_va)),
            ("code", format!("at {:#x}", it.base_of_code_rva)),
            ("stripped", format!("{} of headers", counted(it.stripped_size.into(), "byte"))),
            ("counts", counted(it.number_of_sections.into(), "section")),
        ],
        others::Headers::Object(it) => {
            let coff = (it.symbol_table_file_offset, it.number_of_symbols, it.string_table_size);
            let mut rows = vec![
                ("machine", it.machine.to_string()),
                ("built", stamped(it.stamp.seconds)),
                ("counts", counted(it.number_of_sections.into(), "section")),
            ];
            rows.extend(symbol_table(coff.0, coff.1, coff.2));
            rows
        }
    }
}

/// The directories of a TE image, or nothing of an object.
pub fn other_directories(headers: &others::Headers) -> Option<Table> {
    match headers {
        others::Headers::Te(it) => Some(directories(&it.directories)),
        others::Headers::Object(_) => None,
    }
}

pub fn symbols(symbols: &List<Symbol>) -> Table {
    let rows = symbols.entries.iter().map(|it| {
        let section = it.no_section().map(String::from).or(it.section.map(|name| name.to_string()));
        vec![
            it.index.to_string(),
            it.name.to_string(),
            section.unwrap_or_else(|| it.section_number.to_string()),
            format!("{:#x}", it.value),
            format!("{:#x}", it.r#type),
            it.storage_class.to_string(),
        ]
    });
    let columns =
        &[number("index"), text("name"), text("section"), number("value"), number("type"), text("storage class")];
    Table::new(columns, rows).limited(symbols.is_limited)
}

/// The rows of the optional header that few look at, and how many sections and symbols there are.
fn more_headers(all: &AllHeaders) -> Vec<Row> {
    let mut rows = Vec::new();
    if let Some(it) = &all.optional {
        let versions = [&it.operating_system_version, &it.subsystem_version, &it.image_version];
        let base = it.base_of_data_rva.map_or(String::new(), |rva| format!(", at {rva:#x}"));
        let data = counted(it.size_of_initialized_data as usize, "byte");
        rows.extend([
            ("linker", format!("version {}", it.linker_version)),
            ("versions", format!("system {}, subsystem {}, image {}", versions[0], versions[1], versions[2])),
            ("code", format!("{} at {:#x}", counted(it.size_of_code as usize, "byte"), it.base_of_code_rva)),
            ("data", format!("{data} initialized, {} uninitialized{base}", it.size_of_uninitialized_data)),
            ("stack", format!("{} bytes reserved, {} committed", it.size_of_stack_reserve, it.size_of_stack_commit)),
            ("heap", format!("{} bytes reserved, {} committed", it.size_of_heap_reserve, it.size_of_heap_commit)),
        ]);
        if (it.win32_version_value, it.loader_flags) != (0, 0) {
            rows.push(("reserved", format!("{:#x}, loader flags {:#x}", it.win32_version_value, it.loader_flags)));
        }
    }
    let Coff { number_of_sections, size_of_optional_header, .. } = &all.coff;
    let directories = all.optional.as_ref().map_or(0, |it| it.number_of_rva_and_sizes);
    let counts = format!("{}, {directories} directories", counted((*number_of_sections).into(), "section"));
    rows.push(("counts", format!("{counts}, {size_of_optional_header} bytes of optional header")));
    let Coff { symbol_table_file_offset: offset, number_of_symbols: count, string_table_size, .. } = &all.coff;
    rows.extend(symbol_table(*offset, *count, *string_table_size));
    rows
}

/// Where the COFF symbols are, or nothing without any.
fn symbol_table(offset: u32, count: u32, string_table_size: Option<usize>) -> Option<Row> {
    let strings = string_table_size.map_or(String::new(), |it| format!(", {it} bytes of strings"));
    ((offset, count) != (0, 0)).then(|| ("COFF symbols", format!("{count} at file offset {offset:#x}{strings}")))
}

/// The name in winnt.h, what it is, and the number of each field of the DOS header.
pub fn dos_header(all: &AllHeaders) -> Table {
    let (dos, joined) = (&all.dos, |numbers: &[u16]| numbers.iter().map(u16::to_string).collect::<Vec<_>>().join(" "));
    let rows = [
        ("e_cblp", "bytes on the last page", dos.bytes_on_last_page.to_string()),
        ("e_cp", "pages of 512 bytes", dos.pages_in_file.to_string()),
        ("e_crlc", "relocations", dos.relocations.to_string()),
        ("e_cparhdr", "size of the header in paragraphs", dos.size_of_header_in_paragraphs.to_string()),
        ("e_minalloc", "paragraphs that are needed", dos.minimum_extra_paragraphs.to_string()),
        ("e_maxalloc", "paragraphs that are wanted", dos.maximum_extra_paragraphs.to_string()),
        ("e_ss", "initial SS, relative", dos.initial_relative_ss.to_string()),
        ("e_sp", "initial SP", dos.initial_sp.to_string()),
        ("e_csum", "checksum", dos.checksum.to_string()),
        ("e_ip", "initial IP", dos.initial_ip.to_string()),
        ("e_cs", "initial CS, relative", dos.initial_relative_cs.to_string()),
        ("e_lfarlc", "file offset of the relocations", format!("{:#x}", dos.relocations_file_offset)),
        ("e_ovno", "overlay number", dos.overlay_number.to_string()),
        ("e_res", "reserved", joined(&dos.reserved)),
        ("e_oemid", "OEM identifier", dos.oem_id.to_string()),
        ("e_oeminfo", "OEM information", dos.oem_information.to_string()),
        ("e_res2", "reserved", joined(&dos.reserved2)),
        ("e_lfanew", "file offset of the PE signature", format!("{:#x}", dos.pe_file_offset)),
        ("", "bytes of the stub", dos.stub_size.to_string()),
    ];
    let rows = rows.into_iter().map(|(name, what, value)| vec![name.to_string(), what.to_string(), value]);
    Table::new(&[text("field"), text("what it is"), number("value")], rows)
}

pub fn hardening(hardening: &Hardening) -> Vec<Row> {
    hardening.rows().into_iter().map(|(name, value)| (name, value.to_string())).collect()
}

pub fn hashes(hashes: &Hashes) -> Vec<Row> {
    let rows = [
        ("MD5", hashes.md5_hex.clone()),
        ("SHA-1", hashes.sha1_hex.clone()),
        ("SHA-256", Some(hashes.sha256_hex.clone())),
        ("imphash", hashes.shown_imphash()),
        ("Rich hash", hashes.rich_hash.clone()),
        ("Authenticode", hashes.authenticode_sha256_hex.clone()),
    ];
    rows.into_iter().filter_map(|(label, value)| Some((label, value?))).collect()
}

pub fn directories(directories: &[Directory]) -> Table {
    let rows = directories.iter().map(|it| {
        let start =
            it.rva.map(|rva| format!("RVA {rva:#x}")).or(it.file_offset.map(|offset| format!("offset {offset:#x}")));
        vec![it.name.to_string(), start.unwrap_or_default(), it.size.to_string()]
    });
    Table::new(&[text("directory"), number("starts at"), number("bytes")], rows)
}

pub fn sections(sections: &[Section]) -> Table {
    let rows = sections.iter().map(|it| {
        vec![
            it.shown_name().to_string(),
            it.permissions.clone(),
            format!("{:#x}", it.rva),
            it.virtual_size.to_string(),
            format!("{:#x}", it.file_offset),
            it.file_size.to_string(),
            it.entropy.map_or(String::new(), |entropy| format!("{entropy:.2}")),
            it.sha256_hex.clone().unwrap_or_default(),
        ]
    });
    let columns = &[
        text("name"),
        text("permissions"),
        number("RVA"),
        number("virtual size"),
        number("file offset"),
        number("raw size"),
        number("entropy"),
        text("SHA-256"),
    ];
    Table::new(columns, rows)
}

/// The name of an import, or its ordinal.
pub fn import(name: Option<&Name>, ordinal: Option<u32>) -> String {
    match name {
        Some(name) => name.to_string(),
        None => format!("#{}", ordinal.unwrap_or_default()),
    }
}

/// A hint, or nothing of an import by ordinal.
fn hint(hint: Option<u32>) -> String {
    hint.map_or(String::new(), |hint| hint.to_string())
}

/// The rows of a DLL. One of which no function is listed has a row by itself.
fn or_itself(
    dll: &Name,
    functions: impl ExactSizeIterator<Item = Vec<String>>,
    columns: usize,
) -> impl Iterator<Item = Vec<String>> {
    let mut alone = vec![String::new(); columns];
    alone[0] = dll.to_string();
    let alone = (functions.len() == 0).then_some(alone);
    functions.chain(alone)
}

pub fn imports(libraries: &List<Library>) -> Table {
    let rows = libraries.entries.iter().flat_map(|library| {
        let functions = library.functions.entries().iter().map(move |it| {
            let name = import(it.name.as_ref(), it.ordinal);
            vec![library.name.to_string(), name, hint(it.hint), format!("{:#x}", it.slot_rva)]
        });
        or_itself(&library.name, functions, 4)
    });
    Table::new(&[text("DLL"), text("name or ordinal"), number("hint"), number("slot RVA")], rows)
        .limited(imports::is_limited(libraries))
}

/// What the export directory says of the DLL.
pub fn export_directory(exports: &Exports) -> Vec<Row> {
    let name = exports.name.iter().map(|name| ("name", name.to_string()));
    let left_out = exports.left_out().map(|it| ("names", it));
    name.chain([("ordinal base", exports.ordinal_base.to_string())]).chain(left_out).collect()
}

pub fn exports(exports: &Exports) -> Table {
    let rows = exports.entries.iter().map(|it| {
        let names: Vec<String> = it.names.iter().map(Name::to_string).collect();
        let forwarder = it.forwarder.as_ref().map_or(String::new(), |to| format!("to {to}"));
        vec![it.ordinal.to_string(), format!("{:#x}", it.rva), names.join(" "), forwarder]
    });
    Table::new(&[number("ordinal"), number("RVA"), text("name"), text("forwarder")], rows).limited(exports.is_limited)
}

pub fn debug(entries: &List<Entry>) -> Table {
    let rows = entries.entries.iter().map(|it| {
        vec![it.r#type.to_string(), format!("{:#x}", it.rva), format!("{:#x}", it.file_offset), it.size.to_string()]
    });
    Table::new(&[text("type"), number("RVA"), number("file offset"), number("bytes")], rows)
}

/// What the records of the debug data say.
pub fn debug_records(debug: &Debug) -> Vec<Row> {
    let mut rows = Vec::new();
    if let Some(pdb) = debug.pdb.present() {
        rows.push(("PDB", pdb.name.to_string()));
        rows.push(("GUID", format!("{}, age {}", pdb.guid, pdb.age)));
        rows.push(("symbol key", pdb.key.clone()));
    }
    if let Some(pdb) = debug.pdb20.present() {
        rows.push(("PDB 2.0", format!("{}, {:08X}{:X}", pdb.name, pdb.stamp.seconds, pdb.age)));
    }
    if let Some(repro) = debug.repro.present() {
        rows.push(("Repro", repro.hash_hex.clone().unwrap_or("the time stamps are a hash".to_string())));
    }
    if let Some(embedded) = debug.embedded_pdb.present() {
        let sizes = format!("{}, {} compressed", counted(embedded.size as usize, "byte"), embedded.compressed_size);
        rows.push(("embedded PDB", sizes));
    }
    if let Some(checksum) = debug.pdb_checksum.present() {
        rows.push(("PDB checksum", format!("{} {}", checksum.algorithm, checksum.checksum_hex)));
    }
    if let Some(VcFeatures { before_vc_11, c_and_cpp, gs, sdl, guard_n }) = debug.vc_features.present() {
        let objects =
            format!("before VC 11 {before_vc_11}, C and C++ {c_and_cpp}, /GS {gs}, /sdl {sdl}, guardN {guard_n}");
        rows.push(("VC features", objects));
    }
    if let Some(extended) = debug.extended.present() {
        rows.push(("DLL flags EX", extended.0.to_string()));
    }
    rows
}

pub fn pogo_parts(pogo: &Pogo) -> Table {
    let rows = pogo.parts.entries().iter();
    let rows = rows.map(|it| vec![it.name.to_string(), format!("{:#x}", it.rva), it.size.to_string()]);
    Table::new(&[text("part"), number("RVA"), number("bytes")], rows)
}

pub fn certificates(certificates: &List<Certificate>) -> Table {
    let rows = certificates.entries.iter();
    let rows = rows.map(|it| {
        let signer = it.said_of_signer().unwrap_or_default();
        let stamp = it.signer.as_ref().and_then(|it| it.time_stamp.clone()).unwrap_or_default();
        vec![it.r#type.to_string(), format!("{:#06x}", it.revision), it.size.to_string(), signer, stamp]
    });
    let columns = [text("type"), number("revision"), number("bytes"), text("signer"), text("time stamp")];
    Table::new(&columns, rows)
}

pub fn functions(functions: &Functions) -> Table {
    let rows = functions.entries.iter().map(|it| {
        let end = it.end_rva.map_or(String::new(), |end| format!("{end:#x}"));
        vec![format!("{:#x}", it.start_rva), end, format!("{:#x}", it.unwind)]
    });
    Table::new(&[number("start"), number("end"), number("unwind data")], rows)
}

/// The TLS directory, and its callbacks.
pub fn tls(tls: &Tls) -> Vec<Row> {
    let mut rows = vec![
        ("data", format!("{:#x} to {:#x}, and {} zeros", tls.start_va, tls.end_va, tls.zero_fill)),
        ("index", format!("{:#x}", tls.index_va)),
    ];
    rows.extend((tls.characteristics != 0).then(|| ("flags", format!("{:#x}", tls.characteristics))));
    rows.extend(tls.callbacks.entries().iter().map(|it| ("callback", format!("{:#x}", it.0))));
    rows
}

/// The types of the relocations of a page, with how many there are of each.
pub fn relocation_types(page: &Page) -> String {
    let types = page.types.iter().map(|it| format!("{} {}", it.count, it.r#type));
    types.collect::<Vec<_>>().join(", ")
}

pub fn relocations(pages: &List<Page>) -> Table {
    let rows = pages.entries.iter();
    let rows = rows.map(|it| vec![format!("{:#x}", it.page_rva), it.count().to_string(), relocation_types(it)]);
    Table::new(&[number("page"), number("relocations"), text("types")], rows)
}

pub fn delay_imports(libraries: &List<delay_imports::Library>) -> Table {
    let rows = libraries.entries.iter().flat_map(|library| {
        let functions = library.functions.entries().iter();
        let functions =
            functions.map(|it| vec![library.name.to_string(), import(it.name.as_ref(), it.ordinal), hint(it.hint)]);
        or_itself(&library.name, functions, 3)
    });
    Table::new(&[text("DLL"), text("name or ordinal"), number("hint")], rows)
        .limited(delay_imports::is_limited(libraries))
}

/// The DLLs that the image is bound to, each with those that it forwards to.
pub fn bound_imports(bound: &List<Bound>) -> Table {
    let time = |stamp: Stamp| if stamp.seconds == 0 { String::new() } else { time_of(stamp.seconds) };
    let rows = bound.entries.iter().flat_map(|it| {
        let of_dll = vec![it.name.to_string(), time(it.stamp), String::new()];
        let forwarders = it.forwarders.entries().iter();
        let forwarders = forwarders.map(|to| vec![to.name.to_string(), time(to.stamp), it.name.to_string()]);
        [of_dll].into_iter().chain(forwarders)
    });
    Table::new(&[text("DLL"), text("time stamp"), text("forwarded to by")], rows)
        .limited(bound_imports::is_limited(bound))
}

/// What the load configuration has, without fields that are 0.
pub fn load_config(config: &LoadConfig) -> Vec<Row> {
    let address = |va: Option<u64>| va.filter(|va| *va != 0).map(|va| format!("{va:#x}"));
    let table = |va, count: Option<u64>| address(va).map(|va| format!("{} at {va}", count.unwrap_or_default()));
    let stamp = config.time_date_stamp.filter(|stamp| *stamp != 0);
    let load_flags = config.dependent_load_flags.filter(|flags| *flags != 0);
    let version = config.major_version.zip(config.minor_version).filter(|it| *it != (0, 0));
    let rows = [
        ("size", Some(counted(config.size as usize, "byte"))),
        ("made", stamp.map(time_of)),
        ("version", version.map(|it| format!("{}.{}", it.0, it.1))),
        ("cookie", address(config.security_cookie_va)),
        ("handlers", table(config.se_handler_table_va, config.se_handler_count)),
        ("guard check", address(config.guard_cf_check_function_pointer_va)),
        ("guard call", address(config.guard_cf_dispatch_function_pointer_va)),
        ("guarded", table(config.guard_cf_function_table_va, config.guard_cf_function_count)),
        ("guard flags", config.guard_flags.as_ref().map(|flags| flags.to_string())),
        ("load flags", load_flags.map(|flags| format!("{flags:#x}"))),
    ];
    rows.into_iter().filter_map(|(label, value)| Some((label, value?))).collect()
}

/// The further fields of a load configuration that are not 0, and the lists of code that it leads to, but for what is absent.
pub fn load_config_tables(config: &LoadConfig) -> Vec<(&'static str, &'static str, Table)> {
    let fields = config.fields.0.iter().filter_map(|&(name, value)| Some((name, value.filter(|it| *it != 0)?)));
    let rows = fields.map(|(name, value)| vec![name.to_owned(), format!("{value:#x}")]);
    let fields = Table::new(&[text("field"), number("value")], rows);
    let fields = (!fields.rows.is_empty()).then_some(("fields", "Further fields of the load configuration", fields));
    fields.into_iter().chain(guards(&config.guards)).collect()
}

fn guards(guards: &Guards) -> Vec<(&'static str, &'static str, Table)> {
    let handlers = guards.handlers.present().map(|list| {
        let rows = list.entries.iter().map(|it| vec![format!("{:#x}", it.0)]);
        ("handlers", "Exception handlers", Table::new(&[number("RVA")], rows).limited(list.is_limited))
    });
    let targets = [
        ("guarded", "Functions that may be called indirectly", targets(&guards.functions)),
        ("guarded-imports", "Guarded entries of the import address table", targets(&guards.iat_entries)),
        ("long-jumps", "Targets of long jumps", targets(&guards.long_jumps)),
        ("continuations", "Continuations of exceptions", targets(&guards.continuations)),
    ];
    let targets = targets.into_iter().filter_map(|(id, title, table)| Some((id, title, table?)));
    handlers.into_iter().chain(targets).collect()
}

fn targets<const LIST: usize>(targets: &Part<List<Target<LIST>>>) -> Option<Table> {
    let targets = targets.present()?;
    let rows = targets.entries.iter().map(|it| {
        let flags = it.flags.filter(|flags| flags.number != 0);
        vec![format!("{:#x}", it.rva), flags.map_or(String::new(), |flags| flags.to_string())]
    });
    Some(Table::new(&[number("RVA"), text("flags")], rows).limited(targets.is_limited))
}

/// The CLR header, and the root of its metadata.
pub fn clr(clr: &Clr) -> Vec<Row> {
    let mut rows = vec![("runtime", clr.runtime_version.clone())];
    if let Part::Present(Metadata { version, format_version, .. }) = &clr.metadata {
        rows.push(("made for", format!("{version}, metadata of format {format_version}")));
    }
    rows.extend(clr.metadata.present().and_then(|it| it.tables.present()).into_iter().flat_map(assembly));
    rows.push(("flags", clr.flags.to_string()));
    rows.push(("entry token", format!("{:#010x}", clr.entry_point_token)));
    rows
}

/// What the assembly and its module are called.
fn assembly(tables: &Tables) -> Vec<Row> {
    let assembly = tables.assembly.as_ref().map(|it| ("assembly", identity(it)));
    let module = tables.module.as_ref().map(|it| {
        let mvid = it.mvid.as_ref().map_or(String::new(), |mvid| format!(", {mvid}"));
        ("module", format!("{}{mvid}", it.name))
    });
    assembly.into_iter().chain(module).collect()
}

/// The name and version of an assembly.
pub fn identity(assembly: &Assembly) -> String {
    let culture = assembly.culture.map_or(String::new(), |it| format!(", {it}"));
    format!("{} {}{culture}", assembly.name, assembly.version)
}

pub fn clr_references(clr: &Clr) -> Table {
    let tables = clr.metadata.present().and_then(|it| it.tables.present());
    let rows = tables.into_iter().flat_map(|it| it.references.entries()).map(|it| {
        let culture = it.assembly.culture.map_or(String::new(), |culture| culture.to_string());
        let token = it.public_key_token_hex.clone().unwrap_or_default();
        vec![it.assembly.name.to_string(), it.assembly.version.clone(), culture, token]
    });
    Table::new(&[text("assembly"), text("version"), text("culture"), text("public key token")], rows)
        .limited(clr::is_limited(clr))
}

pub fn clr_directories(clr: &Clr) -> Table {
    let rows =
        clr.directories.iter().map(|it| vec![it.name.to_string(), format!("{:#x}", it.rva), it.size.to_string()]);
    Table::new(&[text("directory"), number("RVA"), number("bytes")], rows)
}

pub fn clr_streams(clr: &Clr) -> Table {
    let streams = clr.metadata.present().into_iter().flat_map(|it| it.streams.entries());
    let rows = streams.map(|it| {
        let missing = if it.is_there { "" } else { "past the metadata" };
        vec![it.name.to_string(), format!("{:#x}", it.offset), it.size.to_string(), missing.to_string()]
    });
    Table::new(&[text("stream"), number("offset"), number("bytes"), text("")], rows)
}

/// The key of a Rich header, and whether it is what the linker takes.
pub fn rich(rich: &Rich) -> Vec<Row> {
    let key = match rich.key == rich.checksum {
        true => format!("{:#010x}, the checksum", rich.key),
        false => format!("{:#010x}; the checksum is {:#010x}", rich.key, rich.checksum),
    };
    vec![("key", key)]
}

pub fn rich_tools(rich: &Rich) -> Table {
    let rows = rich.tools.entries().iter();
    let rows = rows.map(|it| {
        let name = it.product_name.unwrap_or_default().to_string();
        vec![it.product.to_string(), name, it.build.to_string(), it.count.to_string()]
    });
    Table::new(&[number("tool"), text("name"), number("build"), number("objects")], rows)
}

/// A name of a type, a resource or a language, or its identifier.
fn label(label: &Label) -> String {
    let id = label.id.map(|id| format!("#{id}"));
    label.name.as_deref().map(escaped).or(id).unwrap_or_default()
}

/// The same of a language, with its identifier where others have its name.
fn language(of: &Label) -> String {
    of.id.and_then(languages::shown).unwrap_or_else(|| label(of))
}

/// The version of a leaf, or why its content is missing.
fn remark(leaf: &Leaf) -> String {
    let version = leaf.version.as_ref().map(|it| it.fixed());
    let refused = leaf.error.as_ref().map(|it| it.text.clone());
    refused.or(version.as_ref().and_then(Part::present).map(|it| it.file_version.clone())).unwrap_or_default()
}

pub fn resources(resources: &Resources) -> Table {
    let rows = resources.entries.iter().map(|it| {
        let labels = [label(&it.r#type), label(&it.name), language(&it.language)];
        let numbers = [format!("{:#x}", it.rva), it.size.to_string(), it.code_page.to_string()];
        labels.into_iter().chain(numbers).chain([remark(it)]).collect()
    });
    let columns =
        &[text("type"), text("name"), text("language"), number("RVA"), number("bytes"), number("code page"), text("")];
    Table::new(columns, rows).limited(resources.is_limited)
}

/// The two versions of the fixed file information.
pub fn versions(version: &Version) -> Vec<Row> {
    let fixed = version.fixed.present();
    let rows = [
        ("file", fixed.map(|it| it.file_version.clone())),
        ("product", fixed.map(|it| it.product_version.clone())),
        ("rights", version.manifest.present().and_then(|it| it.requested_level.clone())),
    ];
    rows.into_iter().filter_map(|(label, value)| Some((label, escaped(&value?)))).collect()
}

pub fn version_strings(version: &Version) -> Table {
    let tables = version.languages.entries().iter();
    let rows = tables.flat_map(|table| {
        let strings = table.strings.iter();
        strings.map(|(name, text)| vec![language(&table.language), escaped(name), escaped(text)])
    });
    let is_limited = version.languages.present().is_some_and(|it| it.is_limited);
    Table::new(&[text("language"), text("name"), text("text")], rows).limited(is_limited)
}
