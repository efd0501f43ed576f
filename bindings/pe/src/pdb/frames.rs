//! What a PDB has at an address of code: the function, and those that are inlined there, each with the line of its source.

use crate::demangle::both_names;
use crate::escape::escaped;
use pe_c::SymbolFrame;
use serde::Serialize;

/// How many characters of the name of a function, and of the path of a source file, are shown.
const FUNCTION: usize = 120;
const FILE: usize = 120;
/// How many bytes a frame counts for beside its texts.
const FRAME: usize = 64;

/// A line of a source file.
#[derive(Debug, Default, Serialize)]
pub struct Line {
    /// Its path, as the compiler had it.
    pub file: Option<String>,
    pub line: Option<u32>,
    pub column: Option<u16>,
}

impl Line {
    /// The end of the path where it is long, and the number. Empty where it is not known.
    pub fn text(&self) -> String {
        let Some(file) = &self.file else { return String::new() };
        let cut = file.char_indices().rev().nth(FILE - 1).map_or(0, |it| it.0);
        let start = if cut > 0 { ".." } else { "" };
        let number = self.line.map_or(String::new(), |it| format!(":{it}"));
        format!("{start}{}{number}", escaped(&file[cut..]))
    }
}

/// A frame, for JSON.
#[derive(Debug, Serialize)]
pub struct ToldFrame {
    pub name: Option<String>,
    pub raw_name: Option<String>,
    /// Where the function starts, and how far after it the address is.
    pub function_rva: u32,
    pub offset: u32,
    /// `procedure`, `public`.
    pub source: &'static str,
    pub is_inlined: bool,
    #[serde(flatten)]
    pub line: Line,
}

impl ToldFrame {
    pub fn of(frame: &SymbolFrame) -> ToldFrame {
        let (name, raw_name) = names_of(frame);
        let SymbolFrame { function_rva, offset, is_inlined, .. } = *frame;
        ToldFrame { name, raw_name, function_rva, offset, source: source_of(frame), is_inlined, line: line_of(frame) }
    }

    /// The function, and how far into it the address is.
    pub fn text(&self) -> String {
        let name = self.name.as_deref().map_or("?".to_string(), function_name);
        // A public symbol has no size.
        let kind = if self.source == "public" { " (public) (nearest)" } else { "" };
        match self.is_inlined {
            true => inlined_text(&name),
            false => format!("{name}+{:#x}{kind}", self.offset),
        }
    }
}

/// The name of a frame, and as the PDB has it. None of an inlined function that the PDB does not name.
pub fn names_of(frame: &SymbolFrame) -> (Option<String>, Option<String>) {
    both_names(Some(frame.name.as_str()).filter(|it| !it.is_empty()))
}

/// How many bytes a frame counts for where it is shown.
pub fn size_of(frame: &SymbolFrame) -> usize {
    2 * frame.name.len() + frame.file.as_ref().map_or(0, String::len) + FRAME
}

pub fn line_of(frame: &SymbolFrame) -> Line {
    Line { file: frame.file.clone(), line: frame.line, column: frame.column }
}

/// What has the name of a frame.
pub fn source_of(frame: &SymbolFrame) -> &'static str {
    if frame.is_public {
        "public"
    } else {
        "procedure"
    }
}

/// A name of a function, cut where it is long: JSON has it whole.
pub fn function_name(name: &str) -> String {
    match name.char_indices().nth(FUNCTION) {
        Some((end, _)) => format!("{}..", escaped(&name[..end])),
        None => escaped(name),
    }
}

/// The name of a function that is inlined, above that of the one which it is inlined in.
pub fn inlined_text(name: &str) -> String {
    format!("  {name} [inlined]")
}
