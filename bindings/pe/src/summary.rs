//! An image in a screen of text.

use crate::escape::escaped;
use crate::facts::hardening::{NO, UNKNOWN, YES};
use crate::facts::headers::Headers;
use crate::facts::sections::{self, Section};
use crate::facts::{clr, count_of, counted, others, Facts, Part};
use crate::page::{Page, Style};
use crate::show::time_of;
use crate::tables::identity;

/// How many DLLs a summary names.
const LIBRARIES: usize = 12;
/// How many characters of a section's name are laid out.
const NAME: usize = 24;
/// The steps of a bar of entropy, for 8 bits a byte.
const STEPS: f64 = 8.0;

pub fn text(facts: &Facts, style: Style) -> String {
    let mut page = Page::new(style);
    page.heading(&heading_of(facts));
    if let Some(headers) = &facts.headers {
        headers_of(headers, &mut page);
    }
    if let Some(headers) = &facts.other_headers {
        other_headers_of(headers, &mut page);
    }
    hardening_of(facts, &mut page);
    hashes_of(facts, &mut page);
    let is_object = matches!(facts.other_headers, Some(others::Headers::Object(_)));
    sections_of(facts.sections.as_deref().unwrap_or_default(), is_object, &mut page);
    tables_of(facts, &mut page);
    version_of(facts, &mut page);
    symbols_of(facts, &mut page);
    for (part, refusal) in facts.refusals() {
        page.warning(format_args!("{part}: {refusal}"));
    }
    page.into_text()
}

fn heading_of(facts: &Facts) -> String {
    let file = facts.shown_file();
    match (&facts.headers, &facts.other_headers) {
        (Some(headers), _) => format!("{file}: {}", kind_of(headers)),
        (None, Some(headers)) => format!("{file}: {}", other_kind_of(headers)),
        (None, None) => {
            let kind = facts.file_kind.map_or(String::new(), |kind| format!(", {kind}"));
            format!("{file}: refused{kind}")
        }
    }
}

/// What a TE image is for, or an object.
fn other_kind_of(headers: &others::Headers) -> String {
    match headers {
        others::Headers::Te(it) => format!("TE image for {}, {}", it.machine, it.subsystem),
        others::Headers::Object(it) => format!("COFF object for {}", it.machine),
    }
}

fn other_headers_of(headers: &others::Headers, page: &mut Page) {
    match headers {
        others::Headers::Te(it) => {
            page.row("entry point", format_args!("{:#x}, image base {:#x}", it.entry_rva, it.image_base_va));
            page.row("stripped", format_args!("{} of headers", counted(it.stripped_size.into(), "byte")));
        }
        others::Headers::Object(it) => page.row("built", stamped(it.stamp.seconds)),
    }
}

/// What kind of image it is.
pub fn kind_of(headers: &Headers) -> String {
    let kind = if headers.is_dll { "DLL" } else { "program" };
    let format = headers.format.unwrap_or("image without an optional header,");
    format!("{format} {kind} for {}, {}", headers.machine, headers.subsystem)
}

fn headers_of(headers: &Headers, page: &mut Page) {
    page.row("built", built(headers));
    versions_of_headers(headers, page);
    page.row("entry point", format_args!("{:#x}, image base {:#x}", headers.entry_rva, headers.image_base_va));
    page.row("in memory", counted(headers.size_of_image as usize, "byte"));
    if let Some(text) = headers.overlay.as_ref().and_then(|it| it.said()) {
        page.row("overlay", text);
    }
    if let Some(text) = checksum_of(headers) {
        page.row("checksum", text);
    }
    headers.said_of_machine().iter().for_each(|it| page.warning(it));
}

/// The versions of the linker, and of what the image was made for, unless all are 0.
fn versions_of_headers(headers: &Headers, page: &mut Page) {
    let Some(optional) = headers.all.as_ref().and_then(|it| it.optional.as_ref()) else { return };
    let (linker, system, subsystem) =
        (&optional.linker_version, &optional.operating_system_version, &optional.subsystem_version);
    if [linker, system, subsystem].iter().any(|it| *it != "0.0") {
        page.row("versions", format_args!("linker {linker}, system {system}, subsystem {subsystem}"));
    }
}

/// The checksum, and the right one where it is wrong. `None` without one.
pub fn checksum_of(headers: &Headers) -> Option<String> {
    match (headers.checksum_state?, headers.right_checksum) {
        ("wrong", Some(right)) => Some(format!("{:#010x}, wrong: {right:#010x} is right", headers.checksum)),
        ("right", _) => Some(format!("{:#010x}, right", headers.checksum)),
        _ => None,
    }
}

/// What an image is hardened by, and what it lacks, without what does not apply.
fn hardening_of(facts: &Facts, page: &mut Page) {
    let Some(hardening) = &facts.hardening else { return };
    let named = |word: &str| {
        let names: Vec<&str> = hardening.rows().into_iter().filter(|it| it.1 == word).map(|it| it.0).collect();
        (!names.is_empty()).then(|| format!("{word}: {}", names.join(", ")))
    };
    let words: Vec<String> = [YES, NO, UNKNOWN].into_iter().filter_map(named).collect();
    page.row("hardening", words.join("; "));
    hardening.said_of_unknown().for_each(|it| page.row("", it));
}

fn hashes_of(facts: &Facts, page: &mut Page) {
    if let Some(hashes) = &facts.hashes {
        page.row("SHA-256", &hashes.sha256_hex);
    }
    if let Some(imphash) = facts.hashes.as_ref().and_then(|it| it.shown_imphash()) {
        page.row("imphash", imphash);
    }
}

/// When the image was built. The time stamp of a reproducible build is none.
pub fn built(headers: &Headers) -> String {
    match (headers.is_reproducible, headers.stamp.seconds) {
        (Some(true), 0) => "reproducibly".to_string(),
        (Some(true), stamp) => format!("reproducibly, time stamp {stamp:#010x} is a hash"),
        (None, stamp) if stamp != 0 => format!("{}, if that is no hash: the debug data are refused", stamped(stamp)),
        (_, stamp) => stamped(stamp),
    }
}

/// The same of a time stamp that is no hash.
pub fn stamped(stamp: u32) -> String {
    match stamp {
        0 => "without a time stamp".to_string(),
        _ => format!("{} by its time stamp", time_of(stamp)),
    }
}

fn bar_of(entropy: f64) -> String {
    let full = (entropy / 8.0 * STEPS).round() as usize;
    "█".repeat(full) + &"░".repeat(STEPS as usize - full.min(STEPS as usize))
}

/// A line for each section, with as much as there is room for in all that have no long name. Those of an object are in the file
/// alone.
fn sections_of(sections: &[Section], is_object: bool, page: &mut Page) {
    let length = |section: &Section| section.shown_name().to_string().chars().count();
    let width = sections.iter().map(length).max().unwrap_or(0).clamp(8, NAME);
    let forms: Vec<_> = sections.iter().map(|it| forms_of(it, width, is_object)).collect();
    let room = page.room();
    let fitting = |forms: &[String; 4]| forms.iter().position(|it| it.chars().count() <= room).unwrap_or(3);
    let usual = sections.iter().zip(&forms).filter(|it| length(it.0) <= width).map(|it| fitting(it.1)).max();
    for (index, forms) in forms.iter().enumerate() {
        let label = if index == 0 { "sections" } else { "" };
        page.row(label, &forms[fitting(forms).max(usual.unwrap_or(0))]);
    }
    sections::cut(sections).iter().for_each(|it| page.warning(it));
}

/// What a line may say of a section, from the longest form to the shortest.
fn forms_of(section: &Section, width: usize, is_object: bool) -> [String; 4] {
    let (Section { permissions, rva, virtual_size, file_offset, file_size, .. }, name) =
        (section, section.shown_name());
    let (size, at) = if is_object { (file_size, file_offset) } else { (virtual_size, rva) };
    let entropy = |of: &dyn Fn(f64) -> String| section.entropy.map_or(String::new(), of);
    let start = format!("{name:width$} {permissions} {size:>9} bytes at {at:<#10x}");
    let shorter = format!("{name:width$} {permissions} {size:>9} at {at:<#10x}");
    [
        start.clone() + &entropy(&|it| format!(" {} {it:.2} bits a byte", bar_of(it))),
        start.trim_end().to_string() + &entropy(&|it| format!(" {it:.2} bits a byte")),
        (shorter + &entropy(&|it| format!(" {it:.2}"))).trim_end().to_string(),
        format!("{name} {permissions} {size} at {at:#x}") + &entropy(&|it| format!(" {it:.2}")),
    ]
}

/// Names of DLLs, each with a count, and how many more there are.
fn listed(counts: impl ExactSizeIterator<Item = (String, String)>, is_limited: bool) -> String {
    if counts.len() == 0 && !is_limited {
        return "of no DLL".to_string();
    }
    let more = match counts.len().saturating_sub(LIBRARIES) {
        0 if is_limited => " and more".to_string(),
        0 => String::new(),
        more => format!(" and {} more", count_of(more, is_limited)),
    };
    counts.take(LIBRARIES).map(|(name, count)| format!("{name} {count}")).collect::<Vec<_>>().join(", ") + &more
}

fn tables_of(facts: &Facts, page: &mut Page) {
    if let Some(imports) = facts.imports.as_ref().and_then(Part::present) {
        let counts = imports.entries.iter().map(|it| (it.name.to_string(), it.functions.count()));
        page.row("imports", listed(counts, imports.is_limited));
    }
    if let Some(exports) = facts.exports.as_ref().and_then(Part::present) {
        let forwarders = exports.forwarders();
        let of_others = if forwarders > 0 { format!(", {forwarders} of them forwarders") } else { String::new() };
        let count = count_of(exports.entries.len(), exports.is_limited);
        let left_out = exports.left_out().map_or(String::new(), |it| format!("; {it}"));
        page.row("exports", format_args!("{count}{of_others}{left_out}"));
    }
    if let Some(functions) = facts.functions.as_ref().and_then(Part::present) {
        page.row("functions", format_args!("{} with unwind data", functions.entries.len()));
    }
    if let Some(tls) = facts.tls.as_ref().and_then(Part::present) {
        let callbacks = tls.callbacks.present().map_or(0, |it| it.entries.len());
        page.row(
            "TLS",
            format_args!("{} bytes, {}", tls.end_va.saturating_sub(tls.start_va), counted(callbacks, "callback")),
        );
    }
    if let Some(pages) = facts.relocations.as_ref().and_then(Part::present) {
        let count: usize = pages.entries.iter().map(|it| it.count()).sum();
        page.row("relocations", format_args!("{count} in {}", counted(pages.entries.len(), "page")));
    }
    more_of(facts, page);
    for certificate in facts.certificates.iter().filter_map(Part::present).flat_map(|it| &it.entries) {
        let by = if certificate.signer.is_some() { "by " } else { "" };
        let signer = certificate.said_of_signer().map_or(String::new(), |it| format!(", {by}{it}"));
        let (kind, size) = (&certificate.r#type, certificate.size);
        page.row("certificate", format_args!("{kind}, {size} bytes{signer}, not verified"));
    }
}

/// The parts that few images have.
fn more_of(facts: &Facts, page: &mut Page) {
    if let Some(delayed) = facts.delay_imports.as_ref().and_then(Part::present) {
        let counts = delayed.entries.iter().map(|it| (it.name.to_string(), it.functions.count()));
        page.row("delay imports", listed(counts, delayed.is_limited));
    }
    if let Some(bound) = facts.bound_imports.as_ref().and_then(Part::present) {
        let counts = bound.entries.iter().map(|it| (it.name.to_string(), it.forwarders.count()));
        page.row("bound imports", listed(counts, bound.is_limited));
    }
    if let Some(config) = facts.load_config.as_ref().and_then(Part::present) {
        let flags = config.guard_flags.as_ref().map_or(String::new(), |it| format!(", guard flags {it}"));
        let functions = config.guards.functions.present();
        let guarded = functions.map_or(String::new(), |it| {
            let more = if it.is_limited { " and more" } else { "" };
            format!(", {}{more}", counted(it.entries.len(), "guarded function"))
        });
        page.row("load config", format_args!("{} bytes{guarded}{flags}{}", config.size, config.said_of_hybrid()));
    }
    if let Some(clr) = facts.clr.as_ref().and_then(Part::present) {
        let version = clr.metadata.present().map_or(String::new(), |it| format!(", made for {}", it.version));
        page.row(".NET", format_args!("runtime {}{version}", clr.runtime_version));
        let tables = clr.metadata.present().and_then(|it| it.tables.present());
        if let Some(assembly) = tables.and_then(|it| it.assembly.as_ref()) {
            let references = tables.map_or(0, |it| it.references.entries().len());
            let more = if clr::is_limited(clr) { " and more" } else { "" };
            page.row("assembly", format_args!("{}, {}{more}", identity(assembly), counted(references, "reference")));
        }
    }
    if let Some(rich) = facts.rich.as_ref().and_then(Part::present) {
        let key = if rich.key == rich.checksum { "" } else { ", whose key is not its checksum" };
        page.row(
            "Rich header",
            format_args!("{}{key}", counted(rich.tools.present().map_or(0, |it| it.entries.len()), "tool")),
        );
    }
    if let Some(resources) = facts.resources.as_ref().and_then(Part::present) {
        let count = count_of(resources.entries.len(), resources.is_limited);
        let lost = resources.entries.iter().filter(|it| it.error.is_some()).count();
        let lost = if lost > 0 { format!("; {lost} whose content is not in the file") } else { String::new() };
        page.row("resources", format_args!("{count}, of {}{lost}", counted(resources.type_count(), "type")));
    }
}

fn version_of(facts: &Facts, page: &mut Page) {
    let Some(version) = &facts.version else { return };
    if let Some(strings) = &version.strings {
        for (label, name) in
            [("product", "ProductName"), ("description", "FileDescription"), ("company", "CompanyName")]
        {
            if let Some(text) = strings.get(name).filter(|it| !it.is_empty()) {
                page.row(label, escaped(text));
            }
        }
    }
    if let Some(fixed) = version.fixed.present() {
        page.row("version", format_args!("{}, of the product {}", fixed.file_version, fixed.product_version));
    }
    version.said_of_name().iter().for_each(|it| page.warning(it));
    if version.table_count() > 1 {
        page.row("languages", format_args!("{} of version information", version.table_count()));
    }
    if let Some(manifest) = version.manifest.present() {
        let level =
            manifest.requested_level.as_deref().map_or(String::new(), |it| format!(", asks for {}", escaped(it)));
        page.row("manifest", counted(manifest.size, "byte") + &level);
        if manifest.count > 1 {
            page.row("", format_args!("the first of {}", manifest.count));
        }
    }
}

fn symbols_of(facts: &Facts, page: &mut Page) {
    if let Some(symbols) = facts.symbols.as_ref().and_then(Part::present) {
        let undefined = symbols.entries.iter().filter(|it| it.section_number == 0).count();
        let count = count_of(symbols.entries.len(), symbols.is_limited);
        page.row("symbols", format_args!("{count}, {undefined} of them undefined"));
    }
    let Some(pdb) = facts.debug.as_ref().and_then(|it| it.pdb.present()) else { return };
    page.row("PDB", pdb.name);
    page.row("symbol key", &pdb.key);
}
