//! The modules, the functions and the streams of a PDB. The streams of a hostile file may share their blocks, so that reading each of
//! them takes far more than the file has: all that are read have at most so many times its bytes.

use super::{Asked, Damaged};
use crate::demangle::both_names;
use crate::facts::Refusal;
use pe_c::{Error, Pdb, PdbModule, PdbSymbol};
use serde::Serialize;
use std::collections::{BTreeMap, BTreeSet};

/// How many times the bytes of a file are read for its streams.
const READINGS: usize = 4;
/// The streams that have a number of their own, by LLVM's pages.
const FIXED: [&str; 5] = ["old directory", "PDB", "types", "DBI", "ids"];

/// A module, an object that was linked.
#[derive(Debug, Serialize)]
pub struct Module {
    pub name: String,
    pub file: String,
    pub stream: Option<u16>,
    pub symbols_size: u32,
    pub lines_size: u32,
    pub number_of_files: u16,
}

/// A function: a procedure of a module, or a public symbol where no procedure starts.
#[derive(Debug, Serialize)]
pub struct Function {
    pub rva: u32,
    /// Of a procedure.
    pub size: Option<u32>,
    pub name: Option<String>,
    pub raw_name: Option<String>,
    /// `procedure`, `public`.
    pub source: &'static str,
    /// The number of its module, from 0.
    pub module: Option<usize>,
}

#[derive(Debug, Serialize)]
pub struct Stream {
    pub number: u32,
    /// Null where it is refused, or not read.
    pub size: Option<usize>,
    pub content: Option<String>,
    pub error: Option<Refusal>,
}

/// The lists, and how many entries those have that are not asked for.
#[derive(Default)]
pub struct Lists {
    pub number_of_modules: Option<usize>,
    pub number_of_publics: Option<usize>,
    pub number_of_procedures: Option<usize>,
    pub modules: Option<Vec<Module>>,
    pub functions: Option<Vec<Function>>,
    pub streams: Option<Vec<Stream>>,
    pub damaged: Vec<Damaged>,
    pub error: Option<Refusal>,
}

/// How many bytes of streams may still be read. Once one was longer none is read.
pub struct Left(usize);

impl Left {
    /// Those of a PDB.
    pub fn of(pdb: &Pdb<'_>) -> Left {
        Left(pdb.bytes().len().saturating_mul(READINGS))
    }

    /// The length of a stream, which is read once more later. To open one costs the list of the directory's blocks too.
    pub fn takes(&mut self, pdb: &Pdb<'_>, number: u32) -> Result<usize, Error> {
        let info = pdb.info();
        let directory = 4 * (info.number_of_streams as usize + info.number_of_blocks as usize);
        self.0 = self.0.saturating_sub(4 * (directory / (info.block_size as usize).max(1)));
        let length = if self.0 > 0 { pdb.stream(number)?.len() } else { return Err(Error::PDB_STREAM_SIZE) };
        let rest = self.0.checked_sub(length);
        self.0 = rest.unwrap_or_default();
        rest.map(|_| length).ok_or(Error::PDB_STREAM_SIZE)
    }
}

impl Lists {
    pub fn of(pdb: &Pdb<'_>, asked: Asked<'_>) -> Lists {
        let mut lists = Lists::default();
        let mut left = Left::of(pdb);
        let modules = match pdb.modules() {
            Ok(modules) => modules,
            Err(error) if pdb.dbi().is_ok() => {
                lists.error = Some(error.into());
                Vec::new()
            }
            Err(_) => Vec::new(),
        };
        lists.number_of_modules = lists.error.is_none().then_some(modules.len()).filter(|_| pdb.dbi().is_ok());
        if pdb.dbi().is_ok() {
            lists.put_functions(pdb, &modules, &mut left, asked.has_functions);
        }
        if asked.has_streams {
            lists.streams = Some(streams_of(pdb, &modules));
        }
        if asked.has_modules && lists.number_of_modules.is_some() {
            lists.modules = Some(modules.iter().map(module_of).collect());
        }
        lists
    }

    /// The procedures of all modules and the public functions, by their RVAs.
    fn put_functions(&mut self, pdb: &Pdb<'_>, modules: &[PdbModule], left: &mut Left, is_asked: bool) {
        let (mut functions, mut procedures) = (Vec::new(), 0);
        // Each module's symbols are placed by the section headers, which are read for each.
        let beside = u32::from(pdb.info().section_headers);
        let sections = pdb.stream(beside).map_or(0, |it| it.len());
        for (index, module) in modules.iter().enumerate() {
            let Some(stream) = module.stream else { continue };
            left.0 = left.0.saturating_sub(sections);
            match left.takes(pdb, stream.into()).and_then(|_| pdb.procedures(module)) {
                Ok(found) => {
                    procedures += found.len();
                    self.put_errors(&found, &module.name);
                    functions.extend(found.iter().filter_map(|it| function_of(it, Some(index))));
                }
                Err(error) => {
                    self.damaged.push(Damaged { module: module.name.clone(), has_names: false, error: error.into() })
                }
            }
        }
        self.number_of_procedures = Some(procedures);
        match pdb.publics() {
            Ok(publics) => {
                self.number_of_publics = Some(publics.len());
                self.put_errors(&publics, "public symbols");
                let starts: BTreeSet<u32> = functions.iter().map(|it: &Function| it.rva).collect();
                let named = publics.iter().filter(|it| it.is_function).filter_map(|it| function_of(it, None));
                functions.extend(named.filter(|it| !starts.contains(&it.rva)));
            }
            Err(error) => self.error = Some(error.into()),
        }
        functions.sort_by_key(|it| it.rva);
        self.functions = is_asked.then_some(functions);
    }

    /// Tells the first record that is refused, of a module.
    fn put_errors(&mut self, symbols: &[PdbSymbol], module: &str) {
        let error = symbols.iter().find_map(|it| it.error);
        self.damaged.extend(error.map(|it| Damaged { module: module.to_string(), has_names: true, error: it.into() }));
    }
}

fn module_of(module: &PdbModule) -> Module {
    let PdbModule { stream, symbols_size, lines_size, number_of_files, .. } = *module;
    Module { name: module.name.clone(), file: module.file.clone(), stream, symbols_size, lines_size, number_of_files }
}

/// A function that has an RVA.
fn function_of(symbol: &PdbSymbol, module: Option<usize>) -> Option<Function> {
    let (name, raw_name) = both_names(Some(&symbol.name));
    let size = module.map(|_| symbol.size);
    Some(Function {
        rva: symbol.rva?,
        size,
        name,
        raw_name,
        source: if module.is_some() { "procedure" } else { "public" },
        module,
    })
}

/// All streams, with what is known of their contents.
fn streams_of(pdb: &Pdb<'_>, modules: &[PdbModule]) -> Vec<Stream> {
    let mut left = Left::of(pdb);
    let mut contents: BTreeMap<u32, String> = BTreeMap::new();
    let mut put = |number: u16, what: &str| contents.insert(number.into(), what.to_string());
    for module in modules.iter().rev() {
        module.stream.map(|it| put(it, &module.name));
    }
    let info = pdb.info();
    put(info.symbol_stream, "symbols");
    put(info.section_headers, "section headers");
    put(info.original_section_headers, "original section headers");
    put(info.omap_to_source, "OMAP to source");
    put(info.omap_from_source, "OMAP from source");
    (0..).zip(FIXED).for_each(|(number, what)| {
        put(number, what);
    });
    let of = |number: u32| {
        let (size, error) = match left.takes(pdb, number) {
            Ok(size) => (Some(size), None),
            Err(error) => (None, Some(error.into())),
        };
        Stream { number, size, content: contents.get(&number).cloned(), error }
    };
    (0..info.number_of_streams).map(of).collect()
}
