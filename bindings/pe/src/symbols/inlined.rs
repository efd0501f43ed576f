//! INLINE and the lines of a function that others are inlined in: a line of code is then that of the innermost of them, and INLINE has the
//! line of the call. Each line INLINE follows that of the function which it is inlined in.

use super::in_line;
use super::sites::Sites;
use super::SymbolFile;
use crate::demangle::both_names;
use pe_c::{SymbolFrame, Symbolizer};
use std::collections::BTreeMap;
use std::fmt::Write;

/// What stands for the name of a source file, or of an inlined function, that is refused.
const NO_NAME: &str = "?";

/// Names in the order of their numbers, and the numbers by the names.
#[derive(Default)]
pub struct Numbered {
    names: Vec<String>,
    numbers: BTreeMap<String, usize>,
}

impl Numbered {
    /// The number of a name.
    pub fn number(&mut self, name: Option<&str>) -> usize {
        let name = name.filter(|it| !it.is_empty()).unwrap_or(NO_NAME);
        if let Some(number) = self.numbers.get(name) {
            return *number;
        }
        self.numbers.insert(name.to_string(), self.names.len());
        self.names.push(name.to_string());
        self.names.len() - 1
    }

    /// Writes a line of this kind for each.
    pub fn put(&self, kind: &str, file: &mut SymbolFile) {
        for (number, name) in self.names.iter().enumerate() {
            file.line(format_args!("{kind} {number} {}", in_line(name)));
        }
    }
}

/// The source files and the inlined functions of a symbol file.
#[derive(Default)]
pub struct Names {
    pub files: Numbered,
    pub origins: Numbered,
}

/// The code from a start to an end.
type Range = (u32, u32);

/// A call of an inlined function: its line and its source file, and the number of the function.
#[derive(Clone, PartialEq, Eq, PartialOrd, Ord)]
struct Call {
    line: u32,
    file: usize,
    origin: usize,
}

/// What is inlined in a function, and its lines.
#[derive(Default)]
pub struct Inlined {
    /// The line and the source file of code, in ascending order.
    rows: Vec<(Range, u32, usize)>,
    /// The code of each call, by it and those around it, the outermost first.
    calls: BTreeMap<Vec<Call>, Vec<Range>>,
}

/// Adds code after that of some ranges.
fn add(ranges: &mut Vec<Range>, (start, end): Range) {
    match ranges.last_mut().filter(|last| last.1 == start) {
        Some(last) => last.1 = end,
        None => ranges.push((start, end)),
    }
}

/// Where in a function the frames or a line may change, in ascending order: by its sites, and by where lines start and end.
pub fn changes(function: Range, sites: &Sites, lines: impl Iterator<Item = u32>) -> Vec<u32> {
    let of_sites = sites.offsets.iter().map(|it| function.0.saturating_add(*it));
    let mut found: Vec<u32> = of_sites.chain(lines).filter(|it| (function.0..function.1).contains(it)).collect();
    found.push(function.0);
    found.sort_unstable();
    found.dedup();
    found
}

impl Inlined {
    /// Those of a function, by what is at each of these addresses.
    pub fn of(symbolizer: &Symbolizer<'_>, (start, end): Range, changes: &[u32], names: &mut Names) -> Inlined {
        let mut found = Inlined::default();
        for (index, &rva) in changes.iter().enumerate() {
            let code = (rva, changes.get(index + 1).copied().unwrap_or(end));
            let frames = symbolizer.frames(rva);
            if frames.last().is_some_and(|it| !it.is_public && it.function_rva == start) {
                found.add(code, &frames, names);
            }
        }
        found
    }

    /// Adds code with its frames, the innermost first.
    fn add(&mut self, code: Range, frames: &[SymbolFrame], names: &mut Names) {
        if let Some((line, file)) = frames[0].line.map(|it| (it, names.files.number(frames[0].file.as_deref()))) {
            match self.rows.last_mut().filter(|it| (it.0 .1, it.1, it.2) == (code.0, line, file)) {
                Some(last) => last.0 .1 = code.1,
                None => self.rows.push((code, line, file)),
            }
        }
        let mut path = Vec::new();
        for pair in frames.windows(2).rev() {
            let (line, file) = (pair[1].line.unwrap_or_default(), names.files.number(pair[1].file.as_deref()));
            let origin = names.origins.number(both_names(Some(&pair[0].name)).0.as_deref());
            path.push(Call { line, file, origin });
            add(self.calls.entry(path.clone()).or_default(), code);
        }
    }

    /// Writes them.
    pub fn put(&self, file: &mut SymbolFile) {
        for (path, ranges) in &self.calls {
            let Some(Call { line, file: number, origin }) = path.last() else { continue };
            let mut text = format!("INLINE {} {line} {number} {origin}", path.len() - 1);
            for (start, end) in ranges {
                // Writing to a text never fails.
                let _ = write!(text, " {start:x} {:x}", end - start);
            }
            file.line(format_args!("{text}"));
        }
        for ((start, end), line, number) in &self.rows {
            file.line(format_args!("{start:x} {:x} {line} {number}", end - start));
        }
    }
}
