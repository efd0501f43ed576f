//! The table of a part as CSV: a line of heads, and one for each row (<https://www.rfc-editor.org/rfc/rfc4180>). Texts stand as the
//! image has them, but on a terminal, where they are escaped.

use crate::escape::raw;
use crate::facts::{Facts, Part, Topic};
use crate::tables::{self, Row, Table};

fn of_rows(rows: Vec<Row>) -> Table {
    let columns = [tables::text("name"), tables::text("value")];
    Table::new(&columns, rows.into_iter().map(|(name, value)| vec![name.to_string(), value]))
}

fn of_part<T>(part: &Option<Part<T>>, of: impl Fn(&T) -> Table) -> Option<Table> {
    part.as_ref().and_then(Part::present).map(of)
}

/// The table of a part, or none where the image lacks it.
fn table_of(facts: &Facts, topic: Topic) -> Option<Table> {
    match topic {
        Topic::Headers => {
            let of_other = || facts.other_headers.as_ref().map(|it| of_rows(tables::other_headers(it)));
            facts.headers.as_ref().map(|it| of_rows(tables::headers(it))).or_else(of_other)
        }
        Topic::Hardening => facts.hardening.as_ref().map(|it| of_rows(tables::hardening(it))),
        Topic::Hashes => facts.hashes.as_ref().map(|it| of_rows(tables::hashes(it))),
        Topic::Sections => facts.sections.as_ref().map(|it| tables::sections(it)),
        Topic::Imports => of_part(&facts.imports, tables::imports),
        Topic::Exports => of_part(&facts.exports, tables::exports),
        Topic::Debug => facts.debug.as_ref().and_then(|it| it.entries.present()).map(tables::debug),
        Topic::Certificates => of_part(&facts.certificates, tables::certificates),
        Topic::Functions => of_part(&facts.functions, tables::functions),
        Topic::Version => facts.version.as_ref().map(tables::version_strings),
        Topic::Tls => of_part(&facts.tls, |it| of_rows(tables::tls(it))),
        Topic::Relocations => of_part(&facts.relocations, tables::relocations),
        Topic::DelayImports => of_part(&facts.delay_imports, tables::delay_imports),
        Topic::BoundImports => of_part(&facts.bound_imports, tables::bound_imports),
        Topic::LoadConfig => of_part(&facts.load_config, |it| of_rows(tables::load_config(it))),
        Topic::Clr => of_part(&facts.clr, |it| of_rows(tables::clr(it))),
        Topic::Rich => of_part(&facts.rich, tables::rich_tools),
        Topic::Resources => of_part(&facts.resources, tables::resources),
        Topic::Symbols => of_part(&facts.symbols, tables::symbols),
        Topic::All => None,
    }
}

/// The tables of parts that have another one, by their names.
pub const OTHERS: [(Topic, &str); 16] = [
    (Topic::Headers, "dos-header"),
    (Topic::Headers, "directories"),
    (Topic::Exports, "directory"),
    (Topic::Debug, "records"),
    (Topic::Debug, "pogo"),
    (Topic::Version, "numbers"),
    (Topic::LoadConfig, "fields"),
    (Topic::LoadConfig, "handlers"),
    (Topic::LoadConfig, "guarded"),
    (Topic::LoadConfig, "guarded-imports"),
    (Topic::LoadConfig, "long-jumps"),
    (Topic::LoadConfig, "continuations"),
    (Topic::Clr, "directories"),
    (Topic::Clr, "streams"),
    (Topic::Clr, "references"),
    (Topic::Rich, "key"),
];

/// A table of `OTHERS`, or none where the image lacks it.
fn other_of(facts: &Facts, topic: Topic, name: &str) -> Option<Table> {
    match (topic, name) {
        (Topic::Headers, "dos-header") => facts.headers.as_ref()?.all.as_ref().map(tables::dos_header),
        (Topic::Headers, _) => {
            let of_other = || facts.other_headers.as_ref().and_then(tables::other_directories);
            facts.headers.as_ref().map(|it| tables::directories(&it.directories)).or_else(of_other)
        }
        (Topic::Exports, _) => of_part(&facts.exports, |it| of_rows(tables::export_directory(it))),
        (Topic::Debug, "pogo") => facts.debug.as_ref()?.pogo.present().map(tables::pogo_parts),
        (Topic::Debug, _) => facts.debug.as_ref().map(|it| of_rows(tables::debug_records(it))),
        (Topic::Version, _) => facts.version.as_ref().map(|it| of_rows(tables::versions(it))),
        (Topic::LoadConfig, _) => {
            let config = facts.load_config.as_ref()?.present()?;
            tables::load_config_tables(config).into_iter().find(|it| it.0 == name).map(|it| it.2)
        }
        (Topic::Clr, "directories") => of_part(&facts.clr, tables::clr_directories),
        (Topic::Clr, "streams") => of_part(&facts.clr, tables::clr_streams),
        (Topic::Clr, _) => of_part(&facts.clr, tables::clr_references),
        (Topic::Rich, _) => of_part(&facts.rich, |it| of_rows(tables::rich(it))),
        _ => None,
    }
}

/// Writing to memory does not fail, and all texts are UTF-8.
pub fn written<'a>(records: impl Iterator<Item = Vec<&'a str>>) -> String {
    let mut writer = csv::Writer::from_writer(Vec::new());
    for record in records {
        let _ = writer.write_record(record);
    }
    writer.into_inner().ok().and_then(|it| String::from_utf8(it).ok()).unwrap_or_default()
}

/// The heads of the columns, and the rows.
pub struct Lines {
    pub head: String,
    pub rows: String,
}

/// The part as CSV, or the table of it that is named, with a first column of the file where that is wanted. Empty where the image
/// lacks it.
pub fn lines(facts: &Facts, (topic, name): (Topic, Option<&str>), has_file: bool) -> Lines {
    let table = raw(|| name.map_or_else(|| table_of(facts, topic), |name| other_of(facts, topic, name)));
    let Some(table) = table else { return Lines { head: String::new(), rows: String::new() } };
    let file = raw(|| facts.shown_file());
    let first = |text| has_file.then_some(text).into_iter();
    let heads = first("file").chain(table.columns.iter().map(|it| it.head)).collect();
    let rows = table.rows.iter().map(|row| first(file.as_str()).chain(row.iter().map(String::as_str)).collect());
    Lines { head: written([heads].into_iter()), rows: written(rows) }
}
