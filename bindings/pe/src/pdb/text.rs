//! What is said of a PDB, as text.

use super::frames::function_name;
use super::Told;
use crate::escape::escaped;
use crate::facts::counted;
use crate::page::{Page, Style};
use crate::tables::{number, text, Row, Table};

pub fn of(told: &Told, style: Style) -> String {
    let mut page = Page::new(style);
    let machine = told.head.machine.as_ref().map_or(String::new(), |it| format!(" for {it}"));
    page.heading(&format!("{}: PDB 7.0{machine}", told.origin.shown_file()));
    for (label, value) in summary(told) {
        page.row(label, value);
    }
    warnings(told, &mut page);
    if let Some(table) = frames_of(told) {
        page.heading("RVAs");
        page.table(&table);
    }
    for (title, table) in
        [("functions", functions_of(told)), ("modules", modules_of(told)), ("streams", streams_of(told))]
    {
        if let Some(table) = table {
            page.heading(title);
            page.table(&table);
        }
    }
    page.into_text()
}

fn summary(told: &Told) -> Vec<Row> {
    let head = &told.head;
    let mut rows: Vec<Row> = Vec::new();
    let pdb_age = head.pdb_age.filter(|it| Some(*it) != head.age);
    let pdb_age = pdb_age.map_or(String::new(), |it| format!(", of the PDB itself {it}"));
    let age = head.age.map_or(String::new(), |it| format!(", age {it}"));
    rows.extend(head.guid.iter().map(|it| ("GUID", format!("{it}{age}{pdb_age}"))));
    rows.extend(head.key.iter().map(|it| ("symbol key", it.clone())));
    rows.extend(head.symbol_server_path.iter().map(|it| ("path", escaped(it))));
    rows.extend(head.time_stamp.map(|it| ("time stamp", format!("{it:#010x}"))));
    rows.extend(head.flags.as_ref().filter(|it| it.number != 0).map(|it| ("flags", it.to_string())));
    rows.extend(head.linker_version.iter().map(|it| ("linker", it.clone())));
    if let (Some(size), Some(blocks), Some(streams)) = (head.block_size, head.number_of_blocks, head.number_of_streams)
    {
        rows.push(("blocks", format!("{blocks} of {size} bytes, {}", counted(streams as usize, "stream"))));
    }
    let counts = [
        ("modules", told.number_of_modules),
        ("publics", told.number_of_publics),
        ("procedures", told.number_of_procedures),
    ];
    rows.extend(counts.into_iter().filter_map(|(label, count)| Some((label, count?.to_string()))));
    rows
}

fn warnings(told: &Told, page: &mut Page) {
    if told.head.is_moved {
        page.warning(
            "a tool moved the code of the image after it was linked (OMAP): RVAs of functions are those before that",
        );
    }
    if told.head.is_fastlink {
        page.warning("linked with /DEBUG:FASTLINK: symbols and lines are in the objects, which are not read");
    }
    for (part, refusal) in [("DBI stream", &told.dbi_error), ("symbols", &told.symbols_error)] {
        if let Some(refusal) = refusal {
            page.warning(format_args!("{part}: {refusal}"));
        }
    }
    for it in &told.damaged {
        page.warning(format_args!("{}: {}", escaped(&it.module), it.error));
    }
    if told.frames_is_limited {
        page.warning("the functions at the RVAs have more names than are shown");
    }
}

/// The functions at each RVA: the innermost in the row of the RVA, and those that it is inlined in below.
fn frames_of(told: &Told) -> Option<Table> {
    let rows = told.frames.as_ref()?.iter().flat_map(|at| {
        let rva = format!("{:#x}", at.rva);
        if at.functions.is_empty() {
            return vec![vec![rva, "none".to_string(), String::new()]];
        }
        let row = |(depth, it): (usize, &super::ToldFrame)| {
            let rva = if depth == 0 { rva.clone() } else { String::new() };
            vec![rva, it.text(), it.line.text()]
        };
        at.functions.iter().enumerate().map(row).collect()
    });
    Some(Table::new(&[number("RVA"), text("function"), text("line")], rows))
}

fn functions_of(told: &Told) -> Option<Table> {
    let rows = told.functions.as_ref()?.iter().map(|it| {
        let name = it.name.as_deref().map_or("?".to_string(), function_name);
        let size = it.size.map_or(String::new(), |it| it.to_string());
        let module = it.module.map_or(String::new(), |it| it.to_string());
        vec![format!("{:#x}", it.rva), size, it.source.to_string(), module, name]
    });
    Some(Table::new(&[number("RVA"), number("bytes"), text("kind"), number("module"), text("name")], rows))
}

fn modules_of(told: &Told) -> Option<Table> {
    let rows = told.modules.as_ref()?.iter().enumerate().map(|(index, it)| {
        let stream = it.stream.map_or("none".to_string(), |it| it.to_string());
        let sizes = [it.symbols_size.to_string(), it.lines_size.to_string(), it.number_of_files.to_string()];
        let names = [escaped(&it.name), if it.file == it.name { String::new() } else { escaped(&it.file) }];
        [index.to_string(), stream].into_iter().chain(sizes).chain(names).collect()
    });
    let sizes = [number("symbols"), number("lines"), number("files")];
    let columns = [[number("module"), number("stream")].as_slice(), &sizes, &[text("name"), text("from")]].concat();
    Some(Table::new(&columns, rows))
}

fn streams_of(told: &Told) -> Option<Table> {
    let rows = told.streams.as_ref()?.iter().map(|it| {
        let size = it.size.map_or(String::new(), |it| it.to_string());
        let content =
            it.error.as_ref().map_or(it.content.as_deref().map_or(String::new(), escaped), |it| it.to_string());
        vec![it.number.to_string(), size, content]
    });
    Some(Table::new(&[number("stream"), number("bytes"), text("content")], rows))
}
