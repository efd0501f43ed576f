//! The names of the functions of frames: by the PDB of a module, or by the COFF symbols and the exports of its image.

use super::breakpad::Named;
use super::pdbs::{self, ToldPdbs};
use super::symbols::SymbolFolders;
use super::told::{Frame, Function, Inlined, Thread};
use super::{Loaded, Texts};
use crate::demangle::both_names;
use crate::pdb::frames::{line_of, names_of, size_of, source_of, Line};
use pe_c::{Dump, FunctionName, NameSource, SymbolFrame};

/// Puts its function to each frame that has none: by a PDB, where there are folders of them, and else by the image. The names of all
/// frames are asked for at once: an image may have many symbols, and a dump many frames.
pub fn put(
    threads: &mut [Thread],
    over: (&Dump<'_>, &Loaded<'_>),
    folders: &SymbolFolders,
    texts: &mut Texts<'_>,
) -> ToldPdbs {
    let mut frames: Vec<&mut Frame> = threads.iter_mut().flat_map(|it| &mut it.frames).collect();
    let told = if folders.is_empty() { ToldPdbs::new() } else { pdbs::put(&mut frames, over, folders, texts) };
    frames.retain(|it| it.function.is_none());
    let addresses: Vec<(u64, bool)> = frames.iter().map(|it| (it.ip_va, it.has_called)).collect();
    match over.1.images.function_names(&addresses) {
        Ok(names) => {
            for (frame, name) in frames.iter_mut().zip(names) {
                frame.function = name.and_then(|it| function_of(&it, texts));
            }
        }
        Err(_) => texts.is_over = texts.is_over || !addresses.is_empty(),
    }
    told
}

/// The function of a frame, by its image. None where no more texts are shown.
fn function_of(found: &FunctionName<'_>, texts: &mut Texts<'_>) -> Option<Function> {
    let (name, raw_name) = both_names(found.name);
    let length = raw_name.iter().chain(&name).map(String::len).sum();
    if !texts.takes(length) {
        return None;
    }
    let source = match found.source {
        NameSource::Export => "export",
        _ => "symbol",
    };
    let (offset, is_nearest) = (found.offset, found.is_nearest);
    Some(Function { name, raw_name, offset, source, is_nearest, line: Line::default(), inlined: Vec::new() })
}

/// The function of a frame, by the frames that a PDB has there, the innermost first, of which the last is no inlined one. None where
/// there are none, or no more texts are shown. The address that is shown is so many bytes after the one that was looked up.
pub fn function_of_pdb(found: &[SymbolFrame], after: u32, texts: &mut Texts<'_>) -> Option<Function> {
    let (own, inlined) = found.split_last()?;
    if !texts.takes(found.iter().map(size_of).sum()) {
        return None;
    }
    let inlined = inlined.iter().map(|it| {
        let (name, raw_name) = names_of(it);
        Inlined { name, raw_name, line: line_of(it) }
    });
    let (name, raw_name) = names_of(own);
    Some(Function {
        name,
        raw_name,
        offset: own.offset.wrapping_add(after),
        source: source_of(own),
        is_nearest: false,
        line: line_of(own),
        inlined: inlined.collect(),
    })
}

/// The same by a symbol file.
pub fn function_of_symbol_file(found: &[Named<'_>], at: u32, texts: &mut Texts<'_>) -> Option<Function> {
    let (own, inlined) = found.split_last()?;
    let size = |it: &Named<'_>| 2 * it.name.len() + it.file.map_or(0, str::len);
    if !texts.takes(found.iter().map(size).sum()) {
        return None;
    }
    let line = |it: &Named<'_>| Line { file: it.file.map(str::to_string), line: it.line, column: None };
    let inlined = inlined.iter().map(|it| {
        let (name, raw_name) = both_names(Some(it.name));
        Inlined { name, raw_name, line: line(it) }
    });
    let (name, raw_name) = both_names(Some(own.name));
    Some(Function {
        name,
        raw_name,
        offset: at.wrapping_sub(own.start),
        source: if own.is_public { "public" } else { "procedure" },
        is_nearest: false,
        line: line(own),
        inlined: inlined.collect(),
    })
}

impl Frame {
    /// Its function, how far into it the address is, and how sure that is. Empty without one.
    pub fn function_text(&self, shown: impl Fn(&str) -> String) -> String {
        let Some(Function { name, offset, source, is_nearest, .. }) = &self.function else { return String::new() };
        let name = name.as_deref().map_or("?".to_string(), shown);
        let kind = match *source {
            "export" => " (export)",
            "public" => " (public)",
            _ => "",
        };
        let nearest = if *is_nearest { " (nearest)" } else { "" };
        format!("{name}+{offset:#x}{kind}{nearest}")
    }
}
