//! The functions of a symbol file: FILE, INLINE_ORIGIN, FUNC with what is inlined there and its lines, and PUBLIC. No two functions
//! overlap, so that a reader finds what a debugger finds: where several start at one address the last counts, and a function ends where
//! the next one starts.

use super::inlined::{changes, Inlined, Names};
use super::sites::{self, Sites};
use super::{complaint_of, in_line, SymbolFile};
use crate::demangle::both_names;
use crate::facts::{counted, Refusal};
use crate::pdb::{damaged_of, Left};
use pe_c::{CodeAddress, Error, Image, Pdb, PdbLine, PdbLines, PdbModule, PdbSymbol, SourceNames};
use std::collections::{BTreeMap, BTreeSet};

/// `IMAGE_SYM_CLASS_EXTERNAL` and `IMAGE_SYM_CLASS_STATIC`, and the type of a function.
const CLASSES: [u8; 2] = [2, 3];
const FUNCTION: u16 = 0x20;
/// How many bytes of records are read for each byte of a PDB, to find what is inlined at each address where that changes, and how many
/// at least: a function of n records may have n such addresses.
const READINGS: usize = 64;
const LEAST_READ: usize = 1 << 30;
/// What stands before the name of a module whose lines are refused.
const LINES_OF: &str = "lines of ";

/// A function, from its start to its end.
struct Function {
    start: u32,
    end: u32,
    name: String,
    /// The module whose lines it has.
    module: Option<usize>,
    /// Whether others start there too.
    is_multiple: bool,
}

/// The lines of a module, whose files are numbers in the symbol file.
struct Lines {
    lines: Vec<PdbLine>,
    files: Vec<usize>,
}

/// All functions, by their starts.
#[derive(Default)]
pub struct Functions {
    functions: Vec<Function>,
    publics: Vec<Function>,
    modules: BTreeMap<usize, Lines>,
    /// Where functions are inlined in one, by its module and its start; and what is, by its start alone.
    sites: BTreeMap<(usize, u32), Sites>,
    inlined: BTreeMap<u32, Inlined>,
    names: Names,
}

/// The name for people: what is mangled as its source has it.
fn shown(name: &str) -> String {
    both_names(Some(name)).0.unwrap_or_default()
}

/// The last of those that start at one address.
fn one_at_each_start(mut found: Vec<Function>) -> Vec<Function> {
    found.sort_by_key(|it| it.start);
    let mut kept: Vec<Function> = Vec::with_capacity(found.len());
    for it in found {
        match kept.last_mut().filter(|last| last.start == it.start) {
            Some(last) => *last = Function { is_multiple: true, ..it },
            None => kept.push(it),
        }
    }
    kept
}

/// What is said of modules, or of their lines, as complaints of the modules.
fn said_of_modules(file: &SymbolFile) -> BTreeSet<String> {
    file.complaints.iter().map(|it| it.strip_prefix(LINES_OF).unwrap_or(it).to_string()).collect()
}

impl Functions {
    /// Those of a PDB. A module that is refused costs its own alone.
    pub fn of_pdb(pdb: &Pdb<'_>, file: &mut SymbolFile) -> Functions {
        let mut found = Functions::default();
        let mut refused = |part: &str, error: Error| file.complain(part, Refusal::from(error));
        let names = pdb.source_names().map_err(|error| refused("names of source files", error)).ok();
        let modules = pdb.modules().unwrap_or_else(|error| {
            refused("modules", error);
            Vec::new()
        });
        let mut left = Left::of(pdb);
        for (index, module) in modules.iter().enumerate() {
            let Some(stream) = module.stream else { continue };
            match left.takes(pdb, stream.into()).and_then(|_| pdb.procedures(module)) {
                Ok(procedures) => {
                    found.add_procedures(&procedures, index);
                    found.add_sites(pdb, module, (&procedures, index));
                    if let Some(error) = procedures.iter().find_map(|it| it.error) {
                        refused(&module.name, error);
                    }
                    found.add_lines((pdb, module, index), names.as_ref(), &mut refused);
                }
                Err(error) => refused(&module.name, error),
            }
        }
        match pdb.publics() {
            Ok(publics) => found.add_publics(&publics),
            Err(error) => refused("public symbols", error),
        }
        let mut found = found.apart();
        found.add_inlined(pdb, file);
        found
    }

    fn add_procedures(&mut self, procedures: &[PdbSymbol], module: usize) {
        let found = procedures.iter().filter_map(|it| {
            let (start, name) = (it.rva?, shown(&it.name));
            let end = start.saturating_add(it.size);
            (end > start && !name.is_empty()).then_some(Function {
                start,
                end,
                name,
                module: Some(module),
                is_multiple: false,
            })
        });
        self.functions.extend(found);
    }

    /// Adds where functions are inlined in the procedures of a module.
    fn add_sites(&mut self, pdb: &Pdb<'_>, module: &PdbModule, (procedures, index): (&[PdbSymbol], usize)) {
        let sites = sites::of_module(pdb, module).unwrap_or_default();
        let found = procedures.iter().zip(sites).filter(|it| !it.1.offsets.is_empty());
        self.sites.extend(found.filter_map(|(procedure, sites)| Some(((index, procedure.rva?), sites))));
    }

    /// Adds what is inlined in functions, each with lines of its own then.
    fn add_inlined(&mut self, pdb: &Pdb<'_>, file: &mut SymbolFile) {
        let symbolizer = match pdb.symbolizer() {
            _ if self.sites.is_empty() => return,
            Ok(symbolizer) => symbolizer,
            Err(error) => return file.complain("inlined functions", Refusal::from(error)),
        };
        let (mut left, mut left_out) = (pdb.bytes().len().saturating_mul(READINGS).max(LEAST_READ), 0);
        for it in &self.functions {
            let of_module = it.module.and_then(|module| Some((self.sites.get(&(module, it.start))?, module)));
            let Some((sites, module)) = of_module else { continue };
            let rows = self.modules.get(&module).map_or(&[][..], |lines| lines.rows(it));
            let ends = rows.iter().flat_map(|row| [row.rva, row.rva.saturating_add(row.code_size)]);
            let changes = changes((it.start, it.end), sites, ends);
            match left.checked_sub(changes.len().saturating_mul(sites.size)) {
                Some(rest) => {
                    left = rest;
                    let inlined = Inlined::of(&symbolizer, (it.start, it.end), &changes, &mut self.names);
                    self.inlined.insert(it.start, inlined);
                }
                None => left_out += 1,
            }
        }
        if left_out > 0 {
            let all = counted(left_out, "function");
            let why = "to find them takes more readings of records than the file's bytes account for";
            file.complain("inlined functions", format_args!("those of {all} left out: {why}"));
        }
        // A module whose lines are refused is named already.
        let mut said = said_of_modules(file);
        for it in damaged_of(&symbolizer) {
            if said.insert(complaint_of(&it.module, &it.error)) {
                file.complain(&it.module, it.error);
            }
        }
    }

    fn add_publics(&mut self, publics: &[PdbSymbol]) {
        let found = publics.iter().filter(|it| it.is_function).filter_map(|it| {
            let (start, name) = (it.rva?, shown(&it.name));
            (!name.is_empty()).then_some(Function { start, end: start, name, module: None, is_multiple: false })
        });
        self.publics.extend(found);
    }

    fn add_lines(
        &mut self,
        (pdb, module, index): (&Pdb<'_>, &PdbModule, usize),
        names: Option<&SourceNames>,
        refused: &mut impl FnMut(&str, Error),
    ) {
        let Some(names) = names else { return };
        let part = format!("{LINES_OF}{}", module.name);
        match pdb.lines(module, names) {
            Ok(PdbLines { lines, files, is_limited, .. }) => {
                if is_limited {
                    refused(&part, Error::PDB_STREAM_SIZE);
                }
                let files = files.iter().map(|it| self.names.files.number(Some(it))).collect();
                self.modules.insert(index, Lines { lines, files });
            }
            Err(error) => refused(&part, error),
        }
    }

    /// Those of an image: of its function table those that its COFF symbols or its exports name. Without a table nothing says where a
    /// function ends: there each symbol and export is public.
    pub fn of_image(image: &Image<'_>, file: &mut SymbolFile) -> Functions {
        for (table, error) in image.refused_name_tables() {
            file.complain(&format!("{table:?}").to_lowercase(), Refusal::from(error));
        }
        let mut found = Functions::default();
        let ranges = ranges_of(image);
        let addresses = match &ranges {
            Some(ranges) => ranges.iter().map(|it| it.0).collect(),
            None => named_addresses(image, file),
        };
        let asked: Vec<CodeAddress> = addresses.iter().map(|&rva| CodeAddress { rva, is_return: 0 }).collect();
        let names = image.function_names(&asked).unwrap_or_else(|error| {
            file.complain("names", Refusal::from(error));
            Vec::new()
        });
        for (index, name) in names.into_iter().enumerate() {
            let Some((name, start)) = name.and_then(|it| Some((shown(it.name?), it.start))) else { continue };
            let at = addresses[index];
            let end = ranges.as_ref().map_or(at, |it| it[index].1);
            let function = Function { start: at, end, name, module: None, is_multiple: false };
            match end > at {
                true => found.functions.push(function),
                false if start == at => found.publics.push(function),
                false => (),
            }
        }
        found.apart()
    }

    /// Lets a function end where the next one starts, and leaves out public symbols where functions start.
    fn apart(mut self) -> Functions {
        self.functions = one_at_each_start(self.functions);
        let starts: Vec<u32> = self.functions.iter().map(|it| it.start).collect();
        for (function, next) in self.functions.iter_mut().zip(starts.iter().skip(1)) {
            function.end = function.end.min(*next);
        }
        let starts: BTreeSet<u32> = starts.into_iter().collect();
        self.publics = one_at_each_start(self.publics);
        self.publics.retain(|it| !starts.contains(&it.start));
        self
    }

    /// The ranges of those that are not public.
    pub fn ranges(&self) -> Vec<(u32, u32)> {
        self.functions.iter().map(|it| (it.start, it.end)).collect()
    }

    /// Whether none is there, public or not.
    pub fn is_empty(&self) -> bool {
        self.functions.is_empty() && self.publics.is_empty()
    }

    /// Writes them.
    pub fn put(mut self, file: &mut SymbolFile) {
        let is_unnamed = |it: &Lines| it.lines.iter().any(|it| it.line.is_some() && it.file.is_none());
        let no_file = self.modules.values().any(is_unnamed).then(|| self.names.files.number(None));
        self.names.files.put("FILE", file);
        self.names.origins.put("INLINE_ORIGIN", file);
        let multiple = |it: &Function| if it.is_multiple { "m " } else { "" };
        for it in &self.functions {
            let (start, size) = (it.start, it.end - it.start);
            file.line(format_args!("FUNC {}{start:x} {size:x} 0 {}", multiple(it), in_line(&it.name)));
            match (self.inlined.get(&it.start), it.module.and_then(|it| self.modules.get(&it))) {
                (Some(inlined), _) => inlined.put(file),
                (None, Some(lines)) => lines.put(it, no_file, file),
                (None, None) => (),
            }
        }
        for it in &self.publics {
            file.line(format_args!("PUBLIC {}{:x} 0 {}", multiple(it), it.start, in_line(&it.name)));
        }
    }
}

impl Lines {
    /// The rows of a function, the last one before it too.
    fn rows(&self, function: &Function) -> &[PdbLine] {
        let before = self.lines.partition_point(|it| it.rva <= function.start).saturating_sub(1);
        let after = self.lines.partition_point(|it| it.rva < function.end);
        self.lines.get(before..after).unwrap_or_default()
    }

    /// Writes those of a function. A row reaches to the next one, and to the end of its code and of the function at most.
    fn put(&self, function: &Function, no_file: Option<usize>, file: &mut SymbolFile) {
        let rows = self.rows(function);
        for (index, row) in rows.iter().enumerate() {
            let next = rows.get(index + 1).map_or(function.end, |it| it.rva);
            let (start, end) = (row.rva.max(function.start), row.rva.saturating_add(row.code_size).min(next));
            let number = row.file.map(|it| self.files[it as usize]).or(no_file);
            if let (Some(line), Some(number), true) = (row.line, number, end > start) {
                file.line(format_args!("{start:x} {:x} {line} {number}", end - start));
            }
        }
    }
}

/// The ranges of the functions of an image's table. `None` without one.
fn ranges_of(image: &Image<'_>) -> Option<Vec<(u32, u32)>> {
    if let Ok(Some(functions)) = image.functions() {
        return Some(functions.iter().map(|it| (it.begin, it.end)).collect());
    }
    let functions = image.arm64_functions().ok()??;
    let length = |it| {
        Some(match functions.unwinding(it).ok()? {
            pe_c::Arm64Unwinding::Packed(packed) => packed.function_length,
            pe_c::Arm64Unwinding::Record(record) => record.function_length(),
        })
    };
    Some(functions.iter().filter_map(|it| Some((it.begin, it.begin.saturating_add(length(it)?)))).collect())
}

/// The RVAs of the function symbols and of the exports of an image, each once.
fn named_addresses(image: &Image<'_>, file: &mut SymbolFile) -> Vec<u32> {
    let mut found = BTreeSet::new();
    match image.symbols().and_then(|it| it.map_or(Ok(Vec::new()), |it| it.named())) {
        Ok(symbols) => found.extend(symbols.iter().filter_map(|it| symbol_address(image, &it.symbol))),
        Err(error) => file.complain("symbols", Refusal::from(error)),
    }
    if let Ok(exports) = image.exports() {
        found.extend(exports.filter_map(|it| it.ok()).filter(|it| it.forwarder.is_none()).map(|it| it.rva));
    }
    found.into_iter().collect()
}

/// The RVA of a function symbol.
fn symbol_address(image: &Image<'_>, symbol: &pe_c::SymbolEntry) -> Option<u32> {
    let number = usize::try_from(symbol.section_number).ok()?.checked_sub(1)?;
    let is_function = symbol.kind == FUNCTION && CLASSES.contains(&symbol.storage_class);
    let section = image.sections().get(number).filter(|_| is_function)?;
    section.virtual_address.checked_add(symbol.value)
}

#[cfg(test)]
mod tests {
    use super::*;

    /// A module is not taken for another one whose name ends as its own does.
    #[test]
    fn a_module_is_named_once() {
        let mut file = SymbolFile::default();
        file.complain("lines of ab.obj", "truncated");
        file.complain("c.obj", "truncated");
        let mut said = said_of_modules(&file);
        let is_new = ["b.obj", "ab.obj", "c.obj", "b.obj"].map(|it| said.insert(complaint_of(it, "truncated")));
        assert_eq!(is_new, [true, false, false, false]);
    }
}
