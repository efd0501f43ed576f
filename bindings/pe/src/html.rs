//! `pe report`: an image, or a minidump (`dump`), as one page of HTML, for looking rather than reading: a map of the file, warnings, and tables that
//! a text field filters. The page stands alone. Its Content-Security-Policy allows one script and one style sheet, by their
//! hashes, and nothing else: no request leaves it, and no name of an image can be markup (`markup`).

pub mod dump;
mod map;
mod markup;
mod overview;

use crate::facts::debug::Debug;
use crate::facts::regions::{self, Region};
use crate::facts::{count_of, Facts, Part, Refusal, Wanted};
use crate::files;
use crate::new_file::Target;
use crate::show;
use crate::streams::complain;
use crate::summary::kind_of;
use crate::tables::{self, Row, Table};
use crate::Status;
use markup::Html;
use pe_c::Image;
use sha2::{Digest as _, Sha256};
use std::io::{self, Write};
use std::path::Path;

const STYLE: &str = include_str!("html/style.css");
const SCRIPT: &str = include_str!("html/script.js");

/// How many rows of a table are on the page: a browser takes more only slowly.
const ROWS: usize = 20_000;
/// How many rows a table has that is open at first.
const OPEN_ROWS: usize = 40;
/// How many warnings are listed.
const WARNINGS: usize = 100;

/// Writes the page of a file, for `-` to `out`. One of a file that is no image says why.
pub fn write_to(
    (path, bytes): (&Path, &[u8]),
    image: Result<Image<'_>, Refusal>,
    wanted: &Wanted,
    (to, out): (&Target, &mut dyn Write),
) -> io::Result<Status> {
    let facts = match &image {
        Ok(image) => Facts::of(path, image, wanted),
        Err(error) => Facts::refused(path, bytes, error.clone()),
    };
    let status = if facts.is_refused() { Status::Refused } else { Status::Done };
    let written = files::deliver_written(to, status, out, &mut |out| write_page(&facts, image.as_ref().ok(), out))?;
    // Who makes the page need not open it.
    complain(show::complaints(&facts));
    Ok(written)
}

fn write_page(facts: &Facts, image: Option<&Image<'_>>, out: &mut dyn Write) -> io::Result<()> {
    let mut html = Html::to(out);
    let name = Path::new(&facts.file).file_name().map(|it| it.to_string_lossy()).unwrap_or_default();
    head(&name, &mut html);
    html.markup("<header><h1>").text(&name).markup("</h1><p>");
    match (&facts.headers, facts.file_kind) {
        (Some(headers), _) => html.text(kind_of(headers)),
        (None, Some(kind)) => html.text(format_args!("refused: no image, but {kind}")),
        (None, None) => html.text("refused: no image"),
    };
    html.markup(" · ").text(grouped(facts.file_size as u64)).markup(" bytes</p><p class=path>");
    html.text(facts.shown_file()).markup("</p></header>");
    overview::of(facts, &mut html);
    let version = facts.version.as_ref().and_then(|it| it.said_of_name());
    let machine = facts.headers.as_ref().and_then(|it| it.said_of_machine());
    let notes: Vec<String> = machine.into_iter().chain(facts.cut()).chain(version).collect();
    warnings(&facts.refusals(), &facts.limited(), &notes, &mut html);
    if let Some(image) = image {
        filter(&mut html);
        let regions = regions::of(image, facts);
        // The list of the parts stands before them, so they are made twice, and only one is in memory.
        let mut unwritten = Html::unwritten();
        parts(facts, &regions, &mut unwritten);
        contents(&unwritten, &mut html);
        html.markup("<main>");
        map::of(&regions, image, &mut html);
        parts(facts, &regions, &mut html);
        html.markup("</main>");
    }
    html.markup("<footer>What is said of the image comes from calls of the library for C (");
    html.text(crate::arguments::ARCHIVE)
        .markup("). Hashes, entropy and what an overlay is are the program&#39;s own. ");
    html.markup("Signatures are not verified.");
    end(html)
}

/// The end of a footer, and what follows it.
fn end(mut html: Html<'_>) -> io::Result<()> {
    html.markup(" <code>pe ").text(env!("CARGO_PKG_VERSION")).markup("</code></footer><script>");
    html.markup(SCRIPT).markup("</script></body></html>\n");
    html.finish()
}

/// The source of a script or a style sheet that a policy allows: the Base64 of its SHA-256.
fn allowed(content: &str) -> String {
    const DIGITS: &[u8; 64] = b"ABCDEFGHIJKLMNOPQRSTUVWXYZabcdefghijklmnopqrstuvwxyz0123456789+/";
    let mut text = String::from("'sha256-");
    for three in Sha256::digest(content).chunks(3) {
        let number = three.iter().fold(0, |number, byte| number << 8 | u32::from(*byte)) << (8 * (3 - three.len()));
        for index in 0..4 {
            let digit = DIGITS[(number >> (18 - 6 * index)) as usize & 63];
            text.push(if index <= three.len() { char::from(digit) } else { '=' });
        }
    }
    text + "'"
}

fn head(name: &str, html: &mut Html<'_>) {
    html.markup("<!doctype html>\n<html lang=en><head><meta charset=utf-8>");
    html.markup("<meta http-equiv=Content-Security-Policy content=\"default-src 'none'; style-src ");
    // A hash has no character that an attribute escapes, but for the quotes around it.
    html.text(allowed(STYLE)).markup("; script-src ").text(allowed(SCRIPT));
    html.markup("; base-uri 'none'; form-action 'none'\"><meta name=viewport content=\"width=device-width\">");
    html.markup("<meta name=color-scheme content=\"light dark\"><meta name=referrer content=no-referrer><title>");
    html.text(name).markup(": pe</title><style>").markup(STYLE).markup("</style></head><body>");
}

/// What is refused comes first, each with its reason, then the parts of which the page does not have all, and what else is warned of.
fn warnings(refusals: &[(&'static str, &Refusal)], limited: &[&'static str], notes: &[String], html: &mut Html<'_>) {
    if refusals.is_empty() {
        html.markup("<p class=accepted>No part is refused.</p>");
    }
    let counts = [(refusals.len(), "refused"), (limited.len(), "not shown whole"), (notes.len(), "warned of")];
    let counts: Vec<String> =
        counts.iter().filter(|(count, _)| *count > 0).map(|(count, what)| format!("{count} {what}")).collect();
    if counts.is_empty() {
        return;
    }
    html.markup("<section class=warnings aria-labelledby=warnings><h2 id=warnings>");
    html.text(counts.join(", ")).markup("</h2><ul>");
    for (part, refusal) in refusals.iter().take(WARNINGS) {
        html.markup("<li><b>").text(part).markup("</b> ").text(&refusal.text).markup(" <code>");
        html.text(refusal.name).markup("</code></li>");
    }
    for part in limited {
        html.markup("<li><b>").text(part).markup("</b> not shown whole: the image has more</li>");
    }
    for note in notes {
        html.markup("<li>").text(note).markup("</li>");
    }
    html.markup("</ul>");
    if refusals.len() > WARNINGS {
        html.markup("<p>Of what is refused the first ").text(WARNINGS).markup(" are listed.</p>");
    }
    html.markup("</section>");
}

fn filter(html: &mut Html<'_>) {
    html.markup("<div class=bar role=search><input type=search id=filter autocomplete=off spellcheck=false ");
    html.markup("aria-label=\"Filter the rows of all tables\" placeholder=\"Filter all tables ( / )\">");
    html.markup("<output id=found for=filter></output></div>");
}

/// All tables of the page.
fn parts(facts: &Facts, regions: &[Region], html: &mut Html<'_>) {
    table("regions", "Regions of the file", &map::table(regions), html);
    if let Some(headers) = &facts.headers {
        list("headers", "Headers", tables::headers(headers), html);
        table("directories", "Directories", &tables::directories(&headers.directories), html);
    }
    if let Some(hashes) = &facts.hashes {
        list("hashes", "Hashes", tables::hashes(hashes), html);
    }
    if let Some(sections) = &facts.sections {
        table("sections", "Sections", &tables::sections(sections), html);
    }
    if let Some(imports) = facts.imports.as_ref().and_then(Part::present) {
        table("imports", "Imports", &tables::imports(imports), html);
    }
    if let Some(exports) = facts.exports.as_ref().and_then(Part::present) {
        list("export", "Export directory", tables::export_directory(exports), html);
        table("exports", "Exports", &tables::exports(exports), html);
    }
    if let Some(debug) = &facts.debug {
        debug_data(debug, html);
    }
    if let Some(certificates) = facts.certificates.as_ref().and_then(Part::present) {
        table("certificates", "Certificates, not verified", &tables::certificates(certificates), html);
    }
    if let Some(version) = &facts.version {
        list("versions", "Version", tables::versions(version), html);
        table("strings", "Version strings", &tables::version_strings(version), html);
    }
    if let Some(tls) = facts.tls.as_ref().and_then(Part::present) {
        list("tls", "Thread-local storage", tables::tls(tls), html);
    }
    if let Some(pages) = facts.relocations.as_ref().and_then(Part::present) {
        table("relocations", "Base relocations", &tables::relocations(pages), html);
    }
    more_parts(facts, html);
    if let Some(functions) = facts.functions.as_ref().and_then(Part::present) {
        table("functions", "Functions", &tables::functions(functions), html);
    }
    if let Some(all) = facts.headers.as_ref().and_then(|it| it.all.as_ref()) {
        table("dos", "DOS header", &tables::dos_header(all), html);
    }
}

/// The parts that few images have.
fn more_parts(facts: &Facts, html: &mut Html<'_>) {
    if let Some(delayed) = facts.delay_imports.as_ref().and_then(Part::present) {
        table("delayed", "Delay imports", &tables::delay_imports(delayed), html);
    }
    if let Some(bound) = facts.bound_imports.as_ref().and_then(Part::present) {
        table("bound", "Bound imports", &tables::bound_imports(bound), html);
    }
    if let Some(config) = facts.load_config.as_ref().and_then(Part::present) {
        list("config", "Load configuration", tables::load_config(config), html);
        for (id, title, rows) in tables::load_config_tables(config) {
            table(id, title, &rows, html);
        }
    }
    if let Some(clr) = facts.clr.as_ref().and_then(Part::present) {
        list("clr", "CLR header", tables::clr(clr), html);
        table("references", "References to assemblies", &tables::clr_references(clr), html);
        table("clr-directories", "Directories of the CLR header", &tables::clr_directories(clr), html);
        table("streams", "Streams of metadata", &tables::clr_streams(clr), html);
    }
    if let Some(rich) = facts.rich.as_ref().and_then(Part::present) {
        list("rich", "Rich header", tables::rich(rich), html);
        table("tools", "Tools, by the Rich header", &tables::rich_tools(rich), html);
    }
    if let Some(resources) = facts.resources.as_ref().and_then(Part::present) {
        table("resources", "Resources", &tables::resources(resources), html);
    }
}

fn debug_data(debug: &Debug, html: &mut Html<'_>) {
    list("records", "Debug records", tables::debug_records(debug), html);
    if let Some(entries) = debug.entries.present() {
        table("debug", "Debug data", &tables::debug(entries), html);
    }
    if let Some(pogo) = debug.pogo.present() {
        table("pogo", "Parts of sections, by POGO", &tables::pogo_parts(pogo), html);
    }
}

/// Links to all parts that are on the page.
fn contents(main: &Html<'_>, html: &mut Html<'_>) {
    html.markup("<nav aria-label=Contents><ul class=contents><li><a href=\"#map\">Map of the file</a></li>");
    for (id, title) in main.parts() {
        html.markup("<li><a href=\"#").markup(id).markup("\">").markup(title).markup("</a></li>");
    }
    html.markup("</ul></nav>");
}

fn list(id: &'static str, title: &'static str, rows: Vec<Row>, html: &mut Html<'_>) {
    if rows.is_empty() {
        return;
    }
    html.has_part(id, title);
    html.markup("<section class=list aria-labelledby=").markup(id).markup("><h2 id=").markup(id).markup(">");
    html.markup(title).markup("</h2><dl>");
    for (label, value) in rows {
        html.markup("<dt>").text(label).markup("</dt><dd>").text(value).markup("</dd>");
    }
    html.markup("</dl></section>");
}

fn table(id: &'static str, title: &'static str, table: &Table, html: &mut Html<'_>) {
    if table.rows.is_empty() && !table.is_limited {
        return;
    }
    html.has_part(id, title);
    let is_open = if table.count <= OPEN_ROWS { " open" } else { "" };
    html.markup("<details id=").markup(id).markup(is_open).markup("><summary><h2>").markup(title);
    html.markup("</h2> <span class=count>").text(count_of(table.count, table.is_limited));
    html.markup("</span></summary>");
    if table.is_limited {
        html.markup("<p>Not shown whole: the image has more.</p>");
    }
    if table.count > ROWS {
        html.markup("<p>Only the first ").text(ROWS).markup(" rows are on this page.</p>");
    }
    html.markup("<div class=scroll role=region tabindex=0 aria-label=\"").markup(title).markup("\"><table><thead><tr>");
    for column in &table.columns {
        html.markup(if column.is_number { "<th scope=col class=n>" } else { "<th scope=col>" });
        html.markup(column.head).markup("</th>");
    }
    html.markup("</tr></thead><tbody>");
    for (index, row) in table.rows.iter().take(ROWS).enumerate() {
        html.markup("<tr id=").markup(id).markup("-").text(index).markup(">");
        for (column, cell) in table.columns.iter().zip(row) {
            html.markup(if column.is_number { "<td class=n>" } else { "<td>" }).text(cell).markup("</td>");
        }
        html.markup("</tr>");
    }
    html.markup("</tbody></table></div></details>");
}

/// A number with a comma between groups of three digits.
fn grouped(number: u64) -> String {
    let digits = number.to_string();
    let groups: Vec<&str> =
        digits.as_bytes().rchunks(3).rev().map(|it| std::str::from_utf8(it).unwrap_or_default()).collect();
    groups.join(",")
}

#[cfg(test)]
mod tests {
    use super::*;

    #[test]
    fn hashes_are_those_of_the_policy() {
        // printf abc | openssl dgst -sha256 -binary | base64
        assert_eq!(allowed("abc"), "'sha256-ungWv48Bz+pBQUDeXa4iI7ADYaOWF3qctBD/YfIAFa0='");
    }

    #[test]
    fn digits_are_grouped() {
        assert_eq!((grouped(0), grouped(999), grouped(1_234_567)), ("0".into(), "999".into(), "1,234,567".into()));
    }
}
