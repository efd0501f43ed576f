//! What differs between two images: what came, went and changed. Both are taken as rows of a name and a value for each part, and
//! rows of one name are compared; and all their bytes, region by region (`regions`). Two files of the same bytes alone are the same.

mod functions;
mod regions;

use crate::escape::escaped;
use crate::facts::certificates::CertificateSigner;
use crate::facts::hashes::sha256_of;
use crate::facts::resources::Label;
use crate::facts::{Facts, Name, NotWhole, Origin, Part, Refusal};
use crate::page::Style;
use crate::tables;
use pe_c::{Error, Image};
use regions::Changed;
use serde::Serialize;
use std::collections::BTreeMap;
use std::path::Path;

#[derive(Debug, Serialize)]
pub struct Difference {
    part: &'static str,
    /// `added`, `removed` or `changed`.
    change: &'static str,
    name: String,
    before: Option<String>,
    after: Option<String>,
}

#[derive(Debug, Serialize)]
pub struct Differences {
    pub json_version: u32,
    pub before: String,
    pub before_hex: Option<String>,
    pub after: String,
    pub after_hex: Option<String>,
    pub differences: Vec<Difference>,
    pub regions: Vec<Changed>,
    /// Why a file is refused. Then the bytes alone are compared, as one region.
    pub before_error: Option<Refusal>,
    pub after_error: Option<Refusal>,
    /// The parts of each image that are not compared whole.
    pub before_not_whole: Vec<NotWhole>,
    pub after_not_whole: Vec<NotWhole>,
}

/// The rows of a part, by their names. Of several with one name each has its number, from 0 on.
#[derive(Default)]
struct Rows {
    rows: BTreeMap<(String, usize), String>,
    /// How many rows have a name.
    counts: BTreeMap<String, usize>,
}

impl Rows {
    fn put(&mut self, name: String, value: String) {
        let count = self.counts.entry(name.clone()).or_default();
        self.rows.insert((name, *count), value);
        *count += 1;
    }

    fn of(rows: Vec<tables::Row>) -> Rows {
        let mut found = Rows::default();
        rows.into_iter().for_each(|(name, value)| found.put(name.to_string(), value));
        found
    }
}

fn label_of(label: &Label) -> String {
    label.name.as_deref().map(escaped).or(label.id.map(|id| format!("#{id}"))).unwrap_or_default()
}

fn sections_of(facts: &Facts) -> Rows {
    let mut rows = Rows::default();
    for it in facts.sections.iter().flatten() {
        let hash = it.sha256_hex.as_deref().map_or(String::new(), |it| format!(", SHA-256 {}", &it[..16]));
        let value =
            format!("{}, {} bytes in memory, {} in the file{hash}", it.permissions, it.virtual_size, it.file_size);
        rows.put(it.shown_name().to_string(), value);
    }
    rows
}

/// Puts a row for each function of a DLL. One of which no function is listed has a row by itself.
fn put_dll(rows: &mut Rows, name: &Option<String>, functions: impl ExactSizeIterator<Item = String>) {
    let name = escaped(name.as_deref().unwrap_or_default());
    if functions.len() == 0 {
        rows.put(name.clone(), String::new());
    }
    functions.for_each(|it| rows.put(format!("{name} {it}"), String::new()));
}

fn imports_of(facts: &Facts) -> Rows {
    let mut rows = Rows::default();
    for dll in facts.imports.iter().flat_map(|it| it.entries()) {
        let functions = dll.functions.entries().iter();
        put_dll(&mut rows, &dll.name_lower, functions.map(|it| tables::import(it.name.as_ref(), it.ordinal)));
    }
    rows
}

fn delay_imports_of(facts: &Facts) -> Rows {
    let mut rows = Rows::default();
    for dll in facts.delay_imports.iter().flat_map(|it| it.entries()) {
        let functions = dll.functions.entries().iter();
        put_dll(&mut rows, &dll.name_lower, functions.map(|it| tables::import(it.name.as_ref(), it.ordinal)));
    }
    rows
}

/// How many bytes of a forwarder stand in each row of its names, of which a hostile image may have many.
const FORWARDER: usize = 512;

/// Where a forwarder leads, or of a longer one its hash.
fn forwarder_of(to: &Name<'_>) -> String {
    match to.0.len() {
        ..=FORWARDER => format!("to {to}"),
        length => format!("to a name of {length} bytes, SHA-256 {}", &sha256_of(to.0)[..16]),
    }
}

fn exports_of(facts: &Facts) -> Rows {
    let mut rows = Rows::default();
    for it in facts.exports.iter().filter_map(Part::present).flat_map(|it| &it.entries) {
        let value = it.forwarder.as_ref().map_or(String::new(), forwarder_of);
        let names: Vec<String> = it.names.iter().map(Name::to_string).collect();
        match names.as_slice() {
            [] => rows.put(format!("#{}", it.ordinal), value),
            names => names.iter().for_each(|name| rows.put(name.clone(), value.clone())),
        }
    }
    rows
}

fn resources_of(facts: &Facts) -> Rows {
    let mut rows = Rows::default();
    for it in facts.resources.iter().filter_map(Part::present).flat_map(|it| &it.entries) {
        let name = [&it.r#type, &it.name, &it.language].map(label_of).join(" ");
        let hash = it.sha256_hex.as_deref().map_or(String::new(), |it| format!(", SHA-256 {}", &it[..16]));
        rows.put(name, format!("{} bytes{hash}", it.size));
    }
    rows
}

fn version_of(facts: &Facts) -> Rows {
    let Some(version) = &facts.version else { return Rows::default() };
    let mut rows = Rows::of(tables::versions(version));
    for row in tables::version_strings(version).rows {
        rows.put(format!("{} {}", row[0], row[1]), row[2].clone());
    }
    rows
}

/// The PDB with its key, and what other debug records say.
fn debug_of(facts: &Facts) -> Rows {
    Rows::of(facts.debug.as_ref().map(tables::debug_records).unwrap_or_default())
}

/// By whom each signature says to be, and when it was made.
fn signers_of(facts: &Facts) -> Rows {
    let mut rows = Rows::default();
    let certificates = facts.certificates.iter().filter_map(Part::present).flat_map(|it| &it.entries);
    for it in certificates {
        if let Some(Refusal { name, text, .. }) = &it.signer_error {
            rows.put("a signature that is refused".to_string(), format!("{text} ({name})"));
        }
        let Some(signer) = &it.signer else { continue };
        let CertificateSigner { issuer, serial_hex, digest_algorithm, time_stamp, .. } = signer;
        let stamp = time_stamp.as_deref().map_or(String::new(), |it| format!(", stamped {it}"));
        let value = format!("number {serial_hex} of {}, by {digest_algorithm}{stamp}", escaped(issuer));
        rows.put(escaped(&signer.to_string()), value);
    }
    rows
}

fn headers_of(facts: &Facts) -> Rows {
    let mut rows = facts.headers.as_ref().map(tables::headers).unwrap_or_default();
    rows.extend(facts.hardening.as_ref().map(tables::hardening).unwrap_or_default());
    Rows::of(rows)
}

/// How the rows of a part are found.
type Finder = fn(&Facts) -> Rows;

/// The parts that are compared, each with its rows.
const PARTS: [(&str, Finder); 9] = [
    ("headers", headers_of),
    ("debug", debug_of),
    ("signers", signers_of),
    ("sections", sections_of),
    ("imports", imports_of),
    ("delay_imports", delay_imports_of),
    ("exports", exports_of),
    ("version", version_of),
    ("resources", resources_of),
];

fn compare(part: &'static str, before: &Rows, after: &Rows, to: &mut Vec<Difference>) {
    let mut put = |change, (name, number): &(String, usize), before: Option<&String>, after: Option<&String>| {
        let name = if *number == 0 { name.clone() } else { format!("{name} ({})", number + 1) };
        to.push(Difference { part, change, name, before: before.cloned(), after: after.cloned() });
    };
    for (name, value) in &before.rows {
        match after.rows.get(name) {
            None => put("removed", name, Some(value), None),
            Some(other) if other != value => put("changed", name, Some(value), Some(other)),
            Some(_) => (),
        }
    }
    for (name, value) in after.rows.iter().filter(|(name, _)| !before.rows.contains_key(*name)) {
        put("added", name, None, Some(value));
    }
}

/// What differs between two images with these paths and facts.
pub fn of(paths: [&Path; 2], images: [&Image<'_>; 2], [before, after]: [&Facts; 2]) -> Differences {
    let mut differences = Vec::new();
    for (part, rows_of) in PARTS {
        compare(part, &rows_of(before), &rows_of(after), &mut differences);
    }
    let [one, other] = functions::of(images);
    compare("functions", &one, &other, &mut differences);
    Differences {
        differences,
        regions: regions::changed(images, [before, after]),
        before_not_whole: before.not_whole(),
        after_not_whole: after.not_whole(),
        ..Differences::none(paths)
    }
}

/// What differs between two files of which at least one is refused.
pub fn refused(paths: [&Path; 2], contents: [&[u8]; 2], errors: [Option<Error>; 2]) -> Differences {
    let [before_error, after_error] = errors.map(|it| it.map(Refusal::from));
    let regions = vec![Changed::of("file".to_string(), contents)];
    Differences { regions, before_error, after_error, ..Differences::none(paths) }
}

impl Differences {
    /// Of two files of the same bytes.
    pub fn none(paths: [&Path; 2]) -> Differences {
        let [before, after] = paths.map(Origin::of);
        Differences {
            json_version: before.json_version,
            before: before.file,
            before_hex: before.file_hex,
            after: after.file,
            after_hex: after.file_hex,
            differences: Vec::new(),
            regions: Vec::new(),
            before_error: None,
            after_error: None,
            before_not_whole: Vec::new(),
            after_not_whole: Vec::new(),
        }
    }

    /// A line for each: `-` what went, `+` what came, `~` what changed.
    pub fn text(&self, style: Style) -> String {
        let (mut text, mut part) = (String::new(), "");
        for it in &self.differences {
            if it.part != part {
                part = it.part;
                text += &format!("{part}\n");
            }
            let value =
                |value: &Option<String>| value.as_deref().filter(|it| !it.is_empty()).map(|it| format!(": {it}"));
            let line = match (&it.before, &it.after) {
                (Some(before), Some(after)) => format!("~ {}: {before} -> {after}", it.name),
                (Some(_), None) => format!("- {}{}", it.name, value(&it.before).unwrap_or_default()),
                _ => format!("+ {}{}", it.name, value(&it.after).unwrap_or_default()),
            };
            text += &format!("  {line}\n");
        }
        text += if self.regions.is_empty() { "" } else { "bytes\n" };
        for it in &self.regions {
            text += &format!("  ~ {}: {}\n", it.name, it.text());
        }
        style.fitted(text)
    }
}
