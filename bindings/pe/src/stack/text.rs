//! What is said of a minidump, as text.

use super::folded::folded;
use super::pdbs::ToldPdb;
use super::told::{Exception, Frame, Memory, Module, System, Thread, Told, Unloaded};
use super::FRAMES;
use crate::escape::escaped;
use crate::facts::{counted, Named, Part};
use crate::page::{Page, Style};
use crate::pdb::frames::{function_name, inlined_text};
use crate::show::time_of;
use crate::tables::{number, text, Column, Row, Table};
use std::io::{self, Write};

/// How many digits of a key are those of the GUID.
const GUID_DIGITS: usize = 32;

/// Writes the text, a thread at a time.
pub fn write(told: &Told, style: Style, out: &mut dyn Write) -> io::Result<()> {
    let mut page = Page::new(style);
    page.heading(&told.origin.shown_file());
    for (label, value) in summary(told) {
        page.row(label, value);
    }
    warnings(told, &mut page);
    for thread in told.threads.entries() {
        thread_of(thread, &mut page);
        page.put(out)?;
    }
    if let Some(modules) = told.modules.present().filter(|it| !it.entries.is_empty()) {
        page.heading("modules");
        page.table(&modules_of(&modules.entries));
    }
    if let Some(symbols) = symbols_of(told) {
        page.heading("symbols");
        page.table(&symbols);
    }
    if let Some(unloaded) = told.unloaded_modules.present().filter(|it| !it.entries.is_empty()) {
        page.heading("unloaded modules");
        page.table(&unloaded_of(&unloaded.entries));
    }
    page.put(out)
}

/// What is refused of the dump and of its modules, each in a line.
fn warnings(told: &Told, page: &mut Page) {
    for (part, refusal) in told.refusals() {
        page.warning(format_args!("{part}: {refusal}"));
    }
    for (module, refusal) in told.damaged_tables() {
        page.warning(format_args!("function table of {}: {refusal}; its whole entries serve", name_or(&module.name)));
    }
    for (module, part, refusal) in told.damaged_names() {
        page.warning(format_args!("{part} of {}: {refusal}; they name no frame", name_or(&module.name)));
    }
    for (module, part, has_names, refusal) in told.damaged_pdbs() {
        let what = if has_names { "lines" } else { "names" };
        let of = if part.is_empty() { String::new() } else { format!("{} of ", escaped(part)) };
        page.warning(format_args!("{of}the PDB of {}: {refusal}; it has no {what}", name_or(&module.name)));
    }
}

/// A name, which may be absent.
fn name_or(name: &Option<String>) -> String {
    name.as_deref().map_or("?".to_string(), escaped)
}

/// An address as a module and an offset, or in hexadecimal.
fn place_of(module: &Option<String>, offset: Option<u64>, address: u64) -> String {
    match offset {
        Some(offset) => format!("{}+{offset:#x}", name_or(module)),
        None => format!("{address:#x}"),
    }
}

/// Why the process crashed, and what is known of it.
pub fn summary(told: &Told) -> Vec<Row> {
    let mut rows = Vec::new();
    if let Some(raised) = told.exception.present() {
        rows.push(("reason", reason_of(raised)));
        let shown = raised.parameters.iter().map(|it| format!("{it:#x}")).collect::<Vec<_>>().join(", ");
        rows.extend((!shown.is_empty()).then_some(("parameters", shown)));
        rows.push(("at", place_of(&raised.module, raised.offset, raised.address_va)));
    }
    rows.extend(outside_of(told).map(|it| ("not Windows", it)));
    rows.extend(told.system.present().map(|it| ("system", words_of(it))));
    if let Some(process) = told.process.present() {
        let id = process.id.map_or("of no known id".to_string(), |it| format!("id {it}"));
        let made =
            process.create_time.filter(|it| *it != 0).map_or(String::new(), |it| format!(", made {}", time_of(it)));
        rows.push(("process", id + &made));
    }
    rows.extend(told.written.0.filter(|it| it.seconds != 0).map(|it| ("written", time_of(it.seconds))));
    rows.extend(told.memory.iter().map(|it| ("memory", memory_of(it))));
    rows.extend(absent(told).map(|label| (label, "the dump has no list of them".to_string())));
    if told.lost() > 0 && told.without_images() > 0 {
        let (lost, without) = (counted(told.lost(), "stack"), counted(told.without_images(), "module"));
        rows.push((
            "images",
            format!("{without} without one, {lost} lost: --images FOLDER reads the images below a folder"),
        ));
    }
    if told.modules.present().is_some_and(|it| it.is_limited) {
        rows.push(("images", "those of the modules have too many sections: some are not read".to_string()));
    }
    rows.extend(told.symbols_left_out.iter().map(|it| ("left out", format!("of _NT_SYMBOL_PATH {}", escaped(it)))));
    if told.threads.present().is_some_and(|it| it.is_limited) {
        rows.push(("frames", format!("the stacks have more than the {FRAMES} that are shown of a dump")));
    }
    if told.texts_is_limited {
        rows.push(("names", "the dump has more names than are shown".to_string()));
    }
    rows
}

/// The lists that the dump does not have.
fn absent(told: &Told) -> impl Iterator<Item = &'static str> {
    let (threads, modules) = (matches!(told.threads, Part::Absent), matches!(told.modules, Part::Absent));
    let is_read = told.error.is_none();
    [("threads", threads), ("modules", modules)].into_iter().filter(move |it| it.1 && is_read).map(|it| it.0)
}

/// The first frame of the crash in a module that is not of Windows: where it is, and what is said of it by this.
fn outside_of(told: &Told) -> Option<String> {
    let found = told.first_frame_outside_windows.as_ref()?;
    let frame: &Frame = told.threads.entries().iter().find(|it| it.is_crashed)?.frames.get(found.frame)?;
    let place = place_of(&frame.module, frame.offset, frame.ip_va);
    let function = Some(frame.function_text(function_name)).filter(|it| !it.is_empty());
    let function = function.map_or(String::new(), |it| format!(", {it}"));
    let line = frame.function.as_ref().map(|it| it.line.text()).filter(|it| !it.is_empty());
    let line = line.map_or(String::new(), |it| format!(" at {it}"));
    let guess = if frame.is_guess { ", a guess" } else { "" };
    let (thread, folder) = (found.thread_id, escaped(&found.windows_directory));
    let which = format!("the first of thread {thread} in a module that is not below {folder}");
    Some(format!("frame {}: {place}{function}{line}{guess}; {which}", found.frame))
}

fn reason_of(raised: &Exception) -> String {
    let code = code_of(&raised.code);
    let status = raised.in_page_status.as_ref().map_or(String::new(), |it| format!(", {}", code_of(it)));
    match (raised.access, raised.access_va, &raised.fast_fail) {
        (Some(access), Some(address), _) => format!("{code}: {access} at {address:#x}{status}"),
        (_, _, Some(why)) => {
            format!("{code}: {}", why.name.map_or(format!("__fastfail({})", why.number), str::to_string))
        }
        _ => code,
    }
}

fn code_of(code: &Named) -> String {
    match code.name {
        Some(name) => format!("{name} ({:#010x})", code.number),
        None => format!("{:#010x}", code.number),
    }
}

fn words_of(system: &System) -> String {
    let System { major_version, minor_version, build_number, machine, number_of_processors, .. } = system;
    let pack = system.service_pack.as_deref().map_or(String::new(), |it| format!(", {}", escaped(it)));
    let processors = counted((*number_of_processors).into(), "processor");
    format!("{} {major_version}.{minor_version}.{build_number}{pack} on {machine}, {processors}", system.platform)
}

fn memory_of(memory: &Memory) -> String {
    let lost = match memory.lost_bytes {
        0 => String::new(),
        lost => format!("; {lost} bytes more are lost: the file is truncated"),
    };
    format!("{} bytes in {}{lost}", memory.bytes, counted(memory.pieces, "piece"))
}

/// Which thread it is.
pub fn title_of(thread: &Thread) -> String {
    let name = thread.name.as_deref().map_or(String::new(), |it| format!(" {}", escaped(it)));
    let crashed = if thread.is_crashed { ", which crashed" } else { "" };
    format!("thread {}{name}{crashed}", thread.id)
}

/// Whether records lead to an address that no call precedes: to what an interrupt stopped, or where a return address was overwritten.
fn is_after_no_call(frame: &Frame) -> bool {
    frame.way == "records" && !frame.has_called
}

/// How a frame was found. Without an image of its module nothing but the range of that says that it may be one.
fn found_by(frame: &Frame) -> String {
    let of_image = match frame.module_index {
        Some(_) if !frame.has_image && frame.way != "top" => ", in a module without an image",
        _ if is_after_no_call(frame) => ", after no call",
        _ => "",
    };
    let guess = if frame.is_guess { ", a guess" } else { "" };
    format!("{}{of_image}{guess}", frame.way)
}

/// The rows of a frame: the innermost function in the row of its number, and those that it is inlined in below.
fn rows_of(index: usize, frame: &Frame, has: (bool, bool)) -> Vec<Vec<String>> {
    let (has_functions, has_lines) = has;
    let function = frame.function.as_ref();
    let inlined = function.iter().flat_map(|it| &it.inlined).map(|it| {
        let name = it.name.as_deref().map_or("?".to_string(), function_name);
        (inlined_text(&name), it.line.text())
    });
    let own = (frame.function_text(function_name), function.map_or(String::new(), |it| it.line.text()));
    let rows = inlined.chain([own]).enumerate().map(|(depth, (function, line))| {
        let of_frame = |text: String| if depth == 0 { text } else { String::new() };
        let number = of_frame(index.to_string());
        let address = of_frame(format!("{:#018x}", frame.ip_va));
        let place = of_frame(place_of(&frame.module, frame.offset, frame.ip_va));
        let named = has_functions.then_some(function).into_iter().chain(has_lines.then_some(line));
        let way = of_frame(found_by(frame));
        [number, address, place].into_iter().chain(named).chain([way]).collect()
    });
    rows.collect()
}

/// The frames of a thread, of which runs that are repeated stand once. What names them has a column where anything does, and so have
/// lines of sources.
pub fn frames_of(thread: &Thread) -> Table {
    let functions = || thread.frames.iter().filter_map(|it| it.function.as_ref());
    let has_lines = functions().any(|it| it.line.file.is_some() || it.inlined.iter().any(|it| it.line.file.is_some()));
    let has = (functions().next().is_some(), has_lines);
    let frames = thread.frames.iter().enumerate().map(|(index, it)| rows_of(index, it, has));
    let named = has.0.then(|| text("function")).into_iter().chain(has.1.then(|| text("line")));
    let heads = [number("frame"), number("address"), text("place")].into_iter().chain(named);
    let heads: Vec<Column> = heads.chain([text("found by")]).collect();
    folded(&heads, frames.collect())
}

fn thread_of(thread: &Thread, page: &mut Page) {
    page.heading(&title_of(thread));
    page.table(&frames_of(thread));
    for (index, frame) in thread.frames.iter().enumerate() {
        let registers = frame.registers.iter().flatten().map(|(name, value)| format!("{name} {value:#x}"));
        let registers: Vec<String> = registers.collect();
        if !registers.is_empty() {
            page.row(&format!("frame {index}"), registers.join(", "));
        }
    }
    page.row("end", end_of(thread));
}

/// How the walk of a stack ended.
pub fn end_of(thread: &Thread) -> String {
    let words = match thread.end {
        Some("bottom") if thread.frames.iter().any(is_after_no_call) => {
            "the last frame returns to 0, but no call precedes the address of a frame: an interrupt stopped it, or the stack was overwritten"
        }
        Some("bottom") => "the stack is whole by its records",
        Some("zero") => {
            "the last frame returns to 0, but a frame is a guess, or no records describe the last one: frames may be missing or wrong"
        }
        Some("bound") => "there may be more frames",
        Some("no-module") => {
            "LOST: no module with an image has the address of the last frame, and no return address is found"
        }
        Some("no-function") => "LOST: no function covers the call in the last frame, and no return address is found",
        Some("no-return-address") => "LOST: the last frame, without records, would return to no executable code of a module",
        Some("long-chain") => "LOST: more than 32 unwind records are chained",
        Some(_) => "LOST",
        None => "not walked",
    };
    thread.end_error.as_ref().map_or(words.to_string(), |it| format!("{words}: {it}"))
}

pub fn modules_of(modules: &[Module]) -> Table {
    let rows = modules.iter().map(|it| {
        let image = match (&it.image, &it.image_file) {
            (_, Some(file)) => escaped(file),
            (Some(source), None) => source.to_string(),
            (None, None) => "none".to_string(),
        };
        vec![
            format!("{:#x}", it.base_va),
            it.size.to_string(),
            name_or(&it.name),
            it.version.clone().unwrap_or_default(),
            image,
            it.pdb_symbol_server_path.as_deref().map_or(String::new(), escaped),
        ]
    });
    let columns = [number("base"), number("bytes"), text("module"), text("version"), text("image from"), text("PDB")];
    Table::new(&columns, rows)
}

pub fn unloaded_of(unloaded: &[Unloaded]) -> Table {
    let rows = unloaded.iter();
    let rows = rows.map(|it| vec![format!("{:#x}", it.base_va), it.size.to_string(), name_or(&it.name)]);
    Table::new(&[number("base"), number("bytes"), text("module")], rows)
}

/// What the PDB files were of the modules that have frames. None where none was looked for.
pub fn symbols_of(told: &Told) -> Option<Table> {
    let pdbs = told.modules.entries().iter().filter_map(|it| Some((it, it.pdb.as_ref()?)));
    let rows = pdbs.map(|(module, pdb)| {
        let path = pdb.file.as_ref().or(module.pdb_symbol_server_path.as_ref());
        vec![name_or(&module.name), pdb.frames.to_string(), state_of(pdb), path.map_or(String::new(), |it| escaped(it))]
    });
    let table = Table::new(&[text("module"), number("frames"), text("state"), text("PDB")], rows);
    (!table.rows.is_empty()).then_some(table)
}

/// What became of a PDB, in words.
fn state_of(pdb: &ToldPdb) -> String {
    let (wanted, found) = (pdb.wanted_key.as_deref().unwrap_or("?"), pdb.found_key.as_deref().unwrap_or("?"));
    match pdb.state {
        "read" if !pdb.damaged.is_empty() => "read, damaged in part".to_string(),
        "read" => "read".to_string(),
        "missing" => "not found".to_string(),
        "another-build" => format!("of another build, not read: {}", difference(wanted, found)),
        "refused" => pdb.error.as_ref().map_or("refused".to_string(), |it| format!("refused: {it}")),
        "not-read" => pdb.reason.as_ref().map_or("not read".to_string(), |it| format!("not read: {}", escaped(it))),
        _ => "the dump names no PDB of version 7.0 with a file's name".to_string(),
    }
}

/// What differs between two keys: the GUID, or the age after its 32 digits.
fn difference(wanted: &str, found: &str) -> String {
    match (wanted.split_at_checked(GUID_DIGITS), found.split_at_checked(GUID_DIGITS)) {
        (Some((wanted_guid, wanted)), Some((found_guid, found))) if wanted_guid == found_guid => {
            format!("age {found} (hexadecimal), wanted {wanted}")
        }
        _ => format!("GUID and age {found}, wanted {wanted}"),
    }
}

#[cfg(test)]
mod tests {
    use super::*;
    use crate::pdb::frames::Line;
    use crate::stack::told::{Function, Inlined};

    /// A frame in a function that another one is inlined in.
    fn frame() -> Frame {
        let line = |file: &str, line| Line { file: Some(file.to_string()), line: Some(line), column: None };
        let inlined = Inlined { name: Some("geo::clamp".to_string()), raw_name: None, line: line("a\u{1b}.h", 6) };
        let function = Function {
            name: Some("helper".to_string()),
            raw_name: None,
            offset: 1,
            source: "procedure",
            is_nearest: false,
            line: line("a.cpp", 5),
            inlined: vec![inlined],
        };
        Frame {
            ip_va: 0x1071,
            sp_va: 0,
            module: Some("app.exe".to_string()),
            offset: Some(0x1071),
            module_index: Some(0),
            has_image: true,
            function: Some(function),
            way: "top",
            has_called: false,
            is_guess: false,
            registers: None,
        }
    }

    #[test]
    fn inlined_functions_stand_above_the_one_that_has_the_code() {
        let thread = |frames: Vec<Frame>| Thread {
            id: 1,
            name: None,
            is_crashed: false,
            frames,
            end: Some("bottom"),
            end_error: None,
        };
        let table = frames_of(&thread(vec![frame()]));
        let rows = [
            ["0", "0x0000000000001071", "app.exe+0x1071", "  geo::clamp [inlined]", "a\\x1b.h:6", "top"],
            ["", "", "", "helper+0x1", "a.cpp:5", ""],
        ];
        assert_eq!(table.rows, rows);
        // A recursion is folded frame by frame, not row by row.
        let table = frames_of(&thread((0..9).map(|_| frame()).collect()));
        assert_eq!((table.rows.len(), table.rows[2][2].as_str()), (3, ".. 8 more like it"));
    }
}
