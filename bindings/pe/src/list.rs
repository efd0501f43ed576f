//! `pe list`: a table of images as CSV, a row each, for spreadsheets and databases. Numbers are in decimal digits and texts as the image
//! has them; what an image lacks, and what is refused, is an empty cell. The cell `limited` has the parts whose counts are too small:
//! more is in the image than is looked at; and how many sections the end of the file cuts.

use crate::csv::written;
use crate::escape::{escaped, raw};
use crate::facts::certificates::Certificate;
use crate::facts::debug::Pdb;
use crate::facts::exports::Exports;
use crate::facts::hashes::Hashes;
use crate::facts::headers::Headers;
use crate::facts::version::Version;
use crate::facts::{Facts, Part, Topic, Wanted};

/// The parts that the columns are of.
const PARTS: [Topic; 11] = [
    Topic::Headers,
    Topic::Hashes,
    Topic::Sections,
    Topic::Imports,
    Topic::DelayImports,
    Topic::Exports,
    Topic::Debug,
    Topic::Certificates,
    Topic::Version,
    Topic::Clr,
    Topic::Resources,
];

pub fn wanted(has_hashes: bool) -> Wanted {
    Wanted::parts(&PARTS, has_hashes)
}

/// A column and its cell.
type Cell = (&'static str, Option<String>);

fn cell(name: &'static str, value: impl ToString) -> Cell {
    (name, Some(value.to_string()))
}

/// The cells of something that an image may lack: each column, and what it has of it.
macro_rules! cells {
    ($found:expr, $one:ident: $($name:literal $value:expr),+ $(,)?) => {
        match $found {
            Some($one) => vec![$(cell($name, $value)),+],
            None => vec![$(($name, None)),+],
        }
    };
}

fn of_headers(headers: Option<&Headers>) -> Vec<Cell> {
    let time = |it: &Headers| it.stamp.time().unwrap_or_default();
    cells!(headers, it:
        "format" it.format.unwrap_or_default(), "machine" it.machine.number, "machine_name" it.machine.name.unwrap_or_default(),
        "subsystem" it.subsystem.number, "subsystem_name" it.subsystem.name.unwrap_or_default(), "is_dll" it.is_dll,
        "time_date_stamp" it.stamp.seconds, "time" time(it), "is_reproducible" it.is_reproducible.map_or(String::new(), |it| it.to_string()), "entry_rva" it.entry_rva,
        "image_base_va" it.image_base_va, "size_of_image" it.size_of_image, "size_of_headers" it.size_of_headers,
        "checksum" it.checksum, "right_checksum" it.right_checksum.map_or(String::new(), |it| it.to_string()),
        "characteristics" it.characteristics.number, "dll_characteristics" it.dll_characteristics.number,
        "overlay_size" it.overlay.as_ref().map_or(0, |it| it.size),
    )
}

fn of_hashes(hashes: Option<&Hashes>) -> Vec<Cell> {
    let or_empty = |it: &Option<String>| it.clone().unwrap_or_default();
    cells!(hashes, it:
        "md5_hex" or_empty(&it.md5_hex), "sha1_hex" or_empty(&it.sha1_hex), "sha256_hex" it.sha256_hex.clone(),
        "authenticode_sha256_hex" or_empty(&it.authenticode_sha256_hex), "imphash" or_empty(&it.imphash),
        "rich_hash" or_empty(&it.rich_hash),
    )
}

/// The first signer, and the first refusal of one.
fn of_signers(certificates: &[Certificate]) -> Vec<Cell> {
    let cells = cells!(certificates.iter().find_map(|it| it.signer.as_ref()), it:
        "signer" it.subject.clone().unwrap_or_default(), "signer_issuer" it.issuer.clone(),
        "signer_serial_hex" it.serial_hex.clone(), "time_stamp" it.time_stamp.clone().unwrap_or_default(),
    );
    let refused = certificates.iter().find_map(|it| it.signer_error.as_ref());
    cells.into_iter().chain([("signer_error", refused.map(|it| it.to_string()))]).collect()
}

fn of_version(version: Option<&Version>) -> Vec<Cell> {
    let text = |name: &str| {
        let strings = version.and_then(|it| it.strings.as_ref());
        strings.and_then(|it| it.get(name)).cloned()
    };
    let numbers = cells!(version.and_then(|it| it.fixed.present()), it:
        "file_version" it.file_version.clone(), "product_version" it.product_version.clone());
    let texts = [
        ("company_name", text("CompanyName")),
        ("product_name", text("ProductName")),
        ("original_filename", text("OriginalFilename")),
    ];
    numbers.into_iter().chain(texts).collect()
}

fn of_pdb(pdb: Option<&Pdb<'_>>) -> Vec<Cell> {
    cells!(pdb, it: "pdb_name" String::from_utf8_lossy(it.name.0), "pdb_key" it.key.clone())
}

fn counts_of(facts: &Facts) -> Vec<Cell> {
    let imports = facts.imports.as_ref().map(|it| it.entries());
    let functions = |it: &[_]| it.iter().map(|it: &crate::facts::imports::Library| it.functions.entries().len()).sum();
    let delayed = facts.delay_imports.as_ref().map_or(0, |it| it.entries().len());
    let exports = facts.exports.as_ref().and_then(Part::present).map_or(0, |it: &Exports| it.entries.len());
    let resources = facts.resources.as_ref().and_then(Part::present).map_or(0, |it| it.entries.len());
    let certificates = facts.certificates.as_ref().map_or(0, |it| it.entries().len());
    cells!(facts.headers.as_ref(), _it:
        "sections" facts.sections.as_ref().map_or(0, Vec::len), "imported_dlls" imports.map_or(0, <[_]>::len),
        "imports" imports.map_or(0usize, functions), "delay_imported_dlls" delayed, "exports" exports,
        "resources" resources, "certificates" certificates,
        "is_dotnet" facts.clr.as_ref().and_then(Part::present).is_some(),
    )
}

/// The columns of an image in their order, with its cells.
fn row_of(facts: &Facts) -> Vec<Cell> {
    let refused = facts.refusals();
    let first = refused.first().map(|(part, refusal)| format!("{part}: {refusal}{}", facts.said_of_kind()));
    let own = vec![cell("file", facts.shown_file()), cell("file_size", facts.file_size), ("error", first)];
    let limited: Vec<String> = facts.limited().into_iter().map(String::from).chain(facts.cut()).collect();
    let limited = Some(limited.join("; ")).filter(|it| !it.is_empty());
    [
        own,
        of_headers(facts.headers.as_ref()),
        of_hashes(facts.hashes.as_ref()),
        counts_of(facts),
        of_signers(facts.certificates.as_ref().map_or(&[], |it| it.entries())),
        of_version(facts.version.as_ref()),
        of_pdb(facts.debug.as_ref().and_then(|it| it.pdb.present())),
        vec![("limited", limited)],
    ]
    .concat()
}

/// The line of heads, and that of an image.
pub fn lines(facts: &Facts) -> (String, String) {
    let row: Vec<Cell> = raw(|| row_of(facts).into_iter().map(|it| (it.0, it.1.map(|text| escaped(&text)))).collect());
    let heads = written([row.iter().map(|it| it.0).collect()].into_iter());
    (heads, written([row.iter().map(|it| it.1.as_deref().unwrap_or_default()).collect()].into_iter()))
}
