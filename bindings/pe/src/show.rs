//! Parts of an image, whole, as tables.

use crate::escape::escaped;
use crate::facts::bound_imports::{self, Bound};
use crate::facts::certificates::Certificate;
use crate::facts::clr::Clr;
use crate::facts::debug::Debug;
use crate::facts::exports::Exports;
use crate::facts::functions::Functions;
use crate::facts::hardening::Hardening;
use crate::facts::hashes::Hashes;
use crate::facts::headers::Headers;
use crate::facts::imports::Library;
use crate::facts::load_config::LoadConfig;
use crate::facts::resources::Resources;
use crate::facts::rich::Rich;
use crate::facts::sections::{self, Section};
use crate::facts::symbols::Symbol;
use crate::facts::tls::Tls;
use crate::facts::version::Version;
use crate::facts::{delay_imports, others, relocations, Facts, List, Part, Topic};
use crate::page::{Page, Style};
use crate::tables::{self, Row};
use chrono::{TimeZone, Utc};

/// A time stamp as a date and a time of UTC.
pub fn time_of(seconds: u32) -> String {
    let time = Utc.timestamp_opt(seconds.into(), 0).single();
    time.map(|it| it.format("%Y-%m-%d %H:%M:%S UTC").to_string()).unwrap_or_default()
}

/// The parts, and which of those that were named are absent.
pub fn text(facts: &Facts, style: Style, named: &[Topic]) -> String {
    let mut page = Page::new(style);
    let kind = facts.file_kind.map_or(String::new(), |kind| format!(": {kind}"));
    page.heading(&(facts.shown_file() + &kind));
    if let Some(headers) = &facts.headers {
        headers_of(headers, &mut page);
    }
    if let Some(headers) = &facts.other_headers {
        other_headers_of(headers, &mut page);
    }
    if let Some(hardening) = &facts.hardening {
        hardening_of(hardening, &mut page);
    }
    if let Some(hashes) = &facts.hashes {
        hashes_of(hashes, &mut page);
    }
    if let Some(sections) = &facts.sections {
        sections_of(sections, &mut page);
    }
    part(facts.imports.as_ref(), imports_of, &mut page);
    part(facts.exports.as_ref(), exports_of, &mut page);
    if let Some(debug) = &facts.debug {
        debug_of(debug, &mut page);
    }
    part(facts.certificates.as_ref(), certificates_of, &mut page);
    part(facts.functions.as_ref(), functions_of, &mut page);
    if let Some(version) = &facts.version {
        version_of(version, &mut page);
    }
    part(facts.tls.as_ref(), tls_of, &mut page);
    part(facts.relocations.as_ref(), relocations_of, &mut page);
    part(facts.delay_imports.as_ref(), delay_imports_of, &mut page);
    part(facts.bound_imports.as_ref(), bound_imports_of, &mut page);
    part(facts.load_config.as_ref(), load_config_of, &mut page);
    part(facts.clr.as_ref(), clr_of, &mut page);
    part(facts.rich.as_ref(), rich_of, &mut page);
    part(facts.resources.as_ref(), resources_of, &mut page);
    part(facts.symbols.as_ref(), symbols_of, &mut page);
    for topic in named.iter().filter(|it| facts.is_absent(**it)) {
        // Of other machines exception data are not read.
        page.row(&topic.name(), if *topic == Topic::Functions { "none of x64 or ARM64" } else { "none" });
    }
    for topic in named.iter().filter(|it| facts.is_not_read(**it)) {
        page.row(&topic.name(), format_args!("not read of {}", facts.file_kind.unwrap_or_default()));
    }
    for (part, refusal) in facts.refusals() {
        page.warning(format_args!("{part}: {refusal}"));
    }
    page.into_text()
}

fn part<T>(part: Option<&Part<T>>, of: impl Fn(&T, &mut Page), page: &mut Page) {
    if let Some(value) = part.and_then(Part::present) {
        of(value, page);
    }
}

fn rows(rows: Vec<Row>, page: &mut Page) {
    for (label, value) in rows {
        page.row(label, value);
    }
}

/// Says that a list has more entries than are shown.
fn more(is_limited: bool, page: &mut Page) {
    if is_limited {
        page.line(format_args!("  and more"));
    }
}

fn headers_of(headers: &Headers, page: &mut Page) {
    page.heading("Headers");
    rows(tables::headers(headers), page);
    if let Some(all) = &headers.all {
        page.heading("DOS header");
        page.table(&tables::dos_header(all));
    }
    page.heading("Directories");
    page.table(&tables::directories(&headers.directories));
}

fn other_headers_of(headers: &others::Headers, page: &mut Page) {
    page.heading("Headers");
    rows(tables::other_headers(headers), page);
    if let Some(directories) = tables::other_directories(headers) {
        page.heading("Directories");
        page.table(&directories);
    }
}

fn hardening_of(hardening: &Hardening, page: &mut Page) {
    page.heading("Hardening, as the image asks for it; no signature is verified");
    for (label, value) in tables::hardening(hardening) {
        page.line(format_args!("  {label:22}{value}"));
    }
    hardening.said_of_unknown().for_each(|it| page.line(format_args!("  {it}")));
}

fn hashes_of(hashes: &Hashes, page: &mut Page) {
    page.heading("Hashes");
    rows(tables::hashes(hashes), page);
}

fn sections_of(sections: &[Section], page: &mut Page) {
    page.heading("Sections");
    page.table(&tables::sections(sections));
    sections::cut(sections).iter().for_each(|it| page.line(format_args!("  {it}")));
}

fn imports_of(libraries: &List<Library>, page: &mut Page) {
    for library in &libraries.entries {
        page.heading(&format!("Imports from {}", library.name));
        for import in library.functions.entries() {
            page.line(format_args!("  {}", tables::import(import.name.as_ref(), import.ordinal)));
        }
        more(library.functions.present().is_some_and(|it| it.is_limited), page);
    }
    more(libraries.is_limited, page);
}

fn exports_of(exports: &Exports, page: &mut Page) {
    let name = exports.name.as_ref().map_or(String::new(), |name| format!(" of {name}"));
    page.heading(&format!("Exports{name}"));
    page.table(&tables::exports(exports));
    more(exports.is_limited, page);
    exports.left_out().iter().for_each(|it| page.line(format_args!("  {it}")));
}

fn debug_of(debug: &Debug, page: &mut Page) {
    let Some(entries) = debug.entries.present() else { return };
    page.heading("Debug data");
    page.table(&tables::debug(entries));
    rows(tables::debug_records(debug), page);
    if let Some(pogo) = debug.pogo.present() {
        page.heading(&format!("Parts of sections ({})", pogo.signature));
        page.table(&tables::pogo_parts(pogo));
    }
}

fn certificates_of(certificates: &List<Certificate>, page: &mut Page) {
    page.heading("Certificates, not verified");
    page.table(&tables::certificates(certificates));
}

fn functions_of(functions: &Functions, page: &mut Page) {
    page.heading("Functions");
    page.table(&tables::functions(functions));
}

fn version_of(version: &Version, page: &mut Page) {
    if tables::versions(version).is_empty() && version.table_count() == 0 {
        return;
    }
    page.heading("Version");
    rows(tables::versions(version), page);
    if version.table_count() > 0 {
        let strings = tables::version_strings(version);
        page.table(&strings);
        more(strings.is_limited, page);
    }
}

fn tls_of(tls: &Tls, page: &mut Page) {
    page.heading("Thread-local storage");
    rows(tables::tls(tls), page);
}

fn relocations_of(pages: &List<relocations::Page>, page: &mut Page) {
    page.heading("Base relocations");
    page.table(&tables::relocations(pages));
}

fn delay_imports_of(libraries: &List<delay_imports::Library>, page: &mut Page) {
    for library in &libraries.entries {
        page.heading(&format!("Delay imports from {}", library.name));
        for import in library.functions.entries() {
            page.line(format_args!("  {}", tables::import(import.name.as_ref(), import.ordinal)));
        }
        more(library.functions.present().is_some_and(|it| it.is_limited), page);
    }
    more(libraries.is_limited, page);
}

fn bound_imports_of(bound: &List<Bound>, page: &mut Page) {
    page.heading("Bound imports");
    page.table(&tables::bound_imports(bound));
    more(bound_imports::is_limited(bound), page);
}

fn load_config_of(config: &LoadConfig, page: &mut Page) {
    page.heading("Load configuration");
    rows(tables::load_config(config), page);
    for (_, title, table) in tables::load_config_tables(config) {
        page.heading(title);
        page.table(&table);
        more(table.is_limited, page);
    }
}

fn clr_of(clr: &Clr, page: &mut Page) {
    page.heading("CLR header");
    rows(tables::clr(clr), page);
    page.table(&tables::clr_directories(clr));
    page.table(&tables::clr_streams(clr));
    let references = tables::clr_references(clr);
    if !references.rows.is_empty() {
        page.heading("References");
        page.table(&references);
    }
    more(references.is_limited, page);
}

fn rich_of(rich: &Rich, page: &mut Page) {
    page.heading("Rich header");
    rows(tables::rich(rich), page);
    page.table(&tables::rich_tools(rich));
}

fn resources_of(resources: &Resources, page: &mut Page) {
    page.heading("Resources");
    page.table(&tables::resources(resources));
    more(resources.is_limited, page);
}

fn symbols_of(symbols: &List<Symbol>, page: &mut Page) {
    page.heading("Symbols");
    page.table(&tables::symbols(symbols));
    more(symbols.is_limited, page);
}

/// What hardening lacks of parts that are refused, as lines for standard error. Where all of them are wanted they say it.
pub fn complaints_of_hardening(facts: &Facts) -> String {
    let are_there = facts.load_config.is_some() && facts.debug.is_some() && facts.certificates.is_some();
    let said = facts.hardening.iter().filter(|_| !are_there).flat_map(|it| it.said_of_unknown());
    said.map(|it| format!("pe: {}: {it}\n", facts.shown_file())).collect()
}

/// Says that a part is not read of a TE image or an object, of which there is no table then, as a line for standard error.
pub fn complaint_of_unread(facts: &Facts, topic: Topic) -> String {
    let kind = facts.file_kind.filter(|_| facts.is_not_read(topic));
    kind.map_or(String::new(), |kind| format!("pe: {}: {}: not read of {kind}\n", facts.shown_file(), topic.name()))
}

/// What is refused, and of which parts the image has more than is looked at, as lines for standard error.
pub fn complaints(facts: &Facts) -> String {
    let file = facts.shown_file();
    let kind = facts.said_of_kind();
    let refused = facts.refusals().into_iter().map(|(part, refusal)| format!("pe: {file}: {part}: {refusal}{kind}\n"));
    let limited =
        facts.limited().into_iter().map(|part| format!("pe: {file}: {part}: not whole: the image has more\n"));
    let exports = facts.exports.iter().filter_map(Part::present);
    let left_out = exports.filter_map(|it| it.left_out()).map(|it| format!("pe: {file}: exports: {it}\n"));
    let cut = facts.cut().map(|it| format!("pe: {file}: {it}\n"));
    refused.chain(limited).chain(left_out).chain(cut).chain([complaints_of_hardening(facts)]).collect()
}

/// Where a symbol server has the PDB of an image, and the image.
pub fn keys(facts: &Facts, style: Style) -> String {
    let (Some(headers), Some(debug)) = (&facts.headers, &facts.debug) else { return String::new() };
    let mut page = Page::new(style.whole());
    page.heading(&facts.shown_file());
    let pdb = match &debug.pdb {
        Part::Present(pdb) => {
            pdb.symbol_server_path.as_deref().map_or("none, its name is that of no file".into(), escaped)
        }
        Part::Refused(_) => "refused".to_string(),
        Part::Absent => "none, the image names no PDB of version 7.0".to_string(),
    };
    page.row("PDB", pdb);
    page.row("image", headers.symbol_server_path.as_deref().map_or("none".into(), escaped));
    page.into_text()
}
