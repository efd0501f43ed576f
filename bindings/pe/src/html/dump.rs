//! The page of a minidump: why the process crashed, the stacks of its threads, and its modules. It says what `pe stack` does.

use super::markup::Html;
use super::{end, filter, grouped, head, list, table, warnings, OPEN_ROWS, ROWS};
use crate::facts::counted;
use crate::files;
use crate::new_file::Target;
use crate::stack::{self, Asked, Places, Told};
use crate::streams::{complain, complaint};
use crate::tables::Table;
use crate::Status;
use std::io::{self, Write};
use std::path::Path;

/// The columns of frames in their order here: the place before the address, since a narrow screen shows the first ones.
const ORDER: [usize; 6] = [0, 2, 1, 3, 4, 5];
/// How many frames are on the page: a browser takes more only slowly.
const FRAMES: usize = 20_000;

/// Writes the page of a dump, for `-` to `out`. One of a file that is no dump says why.
pub fn write_to(
    (path, bytes): (&Path, &[u8]),
    (places, asked): (&Places, Asked),
    (to, out): (&Target, &mut dyn Write),
) -> io::Result<Status> {
    let told = stack::told(path, bytes, places, asked);
    let is_refused = stack::lacks_thread(&told, path, asked) || told.is_refused();
    let status = if is_refused { Status::Refused } else { Status::Done };
    let written = files::deliver_written(to, status, out, &mut |out| write_page(&told, bytes.len(), out))?;
    told.refusals().into_iter().for_each(|(part, it)| complain(complaint(path, format_args!("{part}: {it}"))));
    Ok(written)
}

fn write_page(told: &Told, size: usize, out: &mut dyn Write) -> io::Result<()> {
    let mut html = Html::to(out);
    let name = Path::new(&told.origin.file).file_name().map(|it| it.to_string_lossy()).unwrap_or_default();
    head(&name, &mut html);
    html.markup("<header><h1>").text(&name).markup("</h1><p>minidump · ").text(grouped(size as u64));
    html.markup(" bytes</p><p class=path>").text(told.origin.shown_file()).markup("</p></header>");
    let mut refused = told.refusals();
    refused.extend(told.damaged_tables().map(|(_, it)| ("function table of a module", it)));
    refused.extend(told.damaged_names().map(|(_, _, it)| ("names of a module", it)));
    refused.extend(told.damaged_pdbs().map(|(.., it)| ("PDB of a module", it)));
    warnings(&refused, &[], &[], &mut html);
    filter(&mut html);
    // The list of the parts stands before them, so they are made twice, and only one is in memory.
    let mut unwritten = Html::unwritten();
    parts(told, &mut unwritten);
    contents(&unwritten, &mut html);
    html.markup("<main>");
    parts(told, &mut html);
    html.markup("</main><footer>What is said of the dump comes from calls of the library for C (");
    html.text(crate::arguments::ARCHIVE).markup("). Names of codes are the program&#39;s own.");
    end(html)
}

/// All parts of the page.
fn parts(told: &Told, html: &mut Html<'_>) {
    list("crash", "Crash", stack::text::summary(told), html);
    threads(told, html);
    if let Some(modules) = told.modules.present() {
        table("modules", "Modules", &first_of(&modules.entries, stack::text::modules_of), html);
    }
    if let Some(symbols) = stack::text::symbols_of(told) {
        table("symbols", "Symbols", &symbols, html);
    }
    if let Some(unloaded) = told.unloaded_modules.present() {
        table("unloaded", "Unloaded modules", &first_of(&unloaded.entries, stack::text::unloaded_of), html);
    }
}

/// The table of the entries that the page has of a list.
fn first_of<T>(entries: &[T], table_of: impl FnOnce(&[T]) -> Table) -> Table {
    Table { count: entries.len(), ..table_of(&entries[..entries.len().min(ROWS)]) }
}

/// Links to all parts that are on the page.
fn contents(main: &Html<'_>, html: &mut Html<'_>) {
    html.markup("<nav aria-label=Contents><ul class=contents>");
    for (id, title) in main.parts() {
        html.markup("<li><a href=\"#").markup(id).markup("\">").markup(title).markup("</a></li>");
    }
    html.markup("</ul></nav>");
}

/// The stacks, each with its frames and how it ended, the crashed one first.
fn threads(told: &Told, html: &mut Html<'_>) {
    let threads = told.threads.entries();
    if threads.is_empty() {
        return;
    }
    html.has_part("threads", "Threads");
    html.markup("<h2 id=threads>Threads</h2>");
    let mut left = FRAMES;
    for (index, thread) in threads.iter().enumerate() {
        let frames = stack::text::frames_of(thread);
        let is_open = frames.rows.len() <= OPEN_ROWS && index < OPEN_ROWS;
        html.markup("<details id=thread-").text(index).markup(if is_open { " open" } else { "" });
        html.markup("><summary><h2>").text(stack::text::title_of(thread)).markup("</h2> <span class=count>");
        html.text(thread.frames.len()).markup("</span></summary><p>");
        html.text(stack::text::end_of(thread)).markup("</p>");
        rows(&frames, index, &mut left, html);
        html.markup("</details>");
    }
}

/// The rows of the frames of a thread, as many as the page still takes.
fn rows(frames: &Table, thread: usize, left: &mut usize, html: &mut Html<'_>) {
    let shown = frames.rows.len().min(*left);
    *left -= shown;
    if shown < frames.rows.len() {
        html.markup("<p>Only the first ").text(counted(shown, "row")).markup(" are on this page.</p>");
    }
    html.markup("<div class=scroll role=region tabindex=0 aria-label=Frames><table><thead><tr>");
    for column in ORDER.iter().filter_map(|it| frames.columns.get(*it)) {
        html.markup(if column.is_number { "<th scope=col class=n>" } else { "<th scope=col>" });
        html.markup(column.head).markup("</th>");
    }
    html.markup("</tr></thead><tbody>");
    for row in frames.rows.iter().take(shown) {
        match row[0].as_str() {
            // How often the rows before it come again.
            "" => html.markup("<tr>"),
            frame => html.markup("<tr id=frame-").text(thread).markup("-").text(frame).markup(">"),
        };
        for (column, cell) in ORDER.iter().filter_map(|it| frames.columns.get(*it).zip(row.get(*it))) {
            html.markup(if column.is_number { "<td class=n>" } else { "<td>" }).text(cell).markup("</td>");
        }
        html.markup("</tr>");
    }
    html.markup("</tbody></table></div>");
}
