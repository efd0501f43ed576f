//! `pe pdb`: what a PDB is, what it has, and which functions and lines are at RVAs. What is said of it comes from calls of the library.
//! See [LLVM's pages](https://llvm.org/docs/PDB/).

pub mod frames;
mod lists;
mod text;

use crate::facts::{file_name_of, Flags, Named, Origin, Refusal};
use crate::files::{self, Report};
use crate::names::{MACHINES, PDB_FLAGS};
use crate::page::Style;
use crate::streams::complaint;
use crate::Status;
use frames::{size_of, ToldFrame};
pub use lists::Left;
use lists::{Function, Lists, Module, Stream};
use pe_c::{Error, Guid, Pdb, Symbolizer};
use serde::Serialize;
use std::path::Path;

/// How many bytes of texts of frames are shown: many RVAs may be asked for.
const TEXTS: usize = 16 << 20;

/// What is asked of a PDB.
#[derive(Clone, Copy, Debug)]
pub struct Asked<'a> {
    pub rvas: &'a [u32],
    pub has_functions: bool,
    pub has_modules: bool,
    pub has_streams: bool,
    pub is_json: bool,
}

/// A module of a PDB that is refused, and costs its own names.
#[derive(Clone, Debug, Serialize)]
pub struct Damaged {
    pub module: String,
    /// Whether its functions have names all the same: its lines, or inlined functions, are refused.
    pub has_names: bool,
    pub error: Refusal,
}

/// What stands in place of a module where public symbols, the names of source files, or those of inlined functions, are refused.
const PUBLICS: &str = "public symbols";
const FILES: &str = "names of source files";
const INLINED: &str = "names of inlined functions";

/// What the symbols of a PDB could not be read of.
pub fn damaged_of(symbolizer: &Symbolizer<'_>) -> Vec<Damaged> {
    let damaged = symbolizer.damaged().into_iter();
    let damaged = damaged.map(|it| Damaged { module: it.name, has_names: it.has_names, error: it.error.into() });
    let parts = [
        (PUBLICS, false, symbolizer.publics_error()),
        (FILES, true, symbolizer.names_error()),
        (INLINED, true, symbolizer.ids_error()),
    ];
    let of = |(module, has_names, error): (&str, bool, Option<Error>)| {
        Some(Damaged { module: module.to_string(), has_names, error: error?.into() })
    };
    damaged.chain(parts.into_iter().filter_map(of)).collect()
}

/// What is said of a PDB. What it does not say, or is not asked for, is null.
#[derive(Debug, Serialize)]
struct Told {
    #[serde(flatten)]
    origin: Origin,
    file_size: usize,
    #[serde(flatten)]
    head: Head,
    /// How many there are; null where they cannot be read.
    number_of_modules: Option<usize>,
    number_of_publics: Option<usize>,
    number_of_procedures: Option<usize>,
    modules: Option<Vec<Module>>,
    functions: Option<Vec<Function>>,
    streams: Option<Vec<Stream>>,
    /// Of each RVA that is asked for the functions there, the innermost first.
    frames: Option<Vec<AtRva>>,
    /// Whether frames are left out after the last one, since their texts are too long.
    frames_is_limited: bool,
    damaged: Vec<Damaged>,
    /// Why the part that has modules and symbols is refused.
    dbi_error: Option<Refusal>,
    /// Why public symbols, or what names RVAs, are refused.
    symbols_error: Option<Refusal>,
    /// Why it is refused whole.
    error: Option<Refusal>,
}

/// What its first streams say.
#[derive(Debug, Default, Serialize)]
struct Head {
    guid: Option<String>,
    /// The age that the image has, and that of the PDB, which may be greater.
    age: Option<u32>,
    pdb_age: Option<u32>,
    key: Option<String>,
    symbol_server_path: Option<String>,
    time_stamp: Option<u32>,
    machine: Option<Named>,
    flags: Option<Flags>,
    linker_version: Option<String>,
    /// Whether a tool moved the code of the image: RVAs are those before that.
    is_moved: bool,
    /// Whether its modules' symbols and lines are in the objects.
    is_fastlink: bool,
    block_size: Option<u32>,
    number_of_blocks: Option<u32>,
    number_of_streams: Option<u32>,
}

/// The functions at an RVA.
#[derive(Debug, Serialize)]
struct AtRva {
    rva: u32,
    functions: Vec<ToldFrame>,
}

/// What is said of a file, as text or JSON.
pub fn report(path: &Path, bytes: &[u8], asked: Asked<'_>) -> Report {
    let told = match Pdb::parse(bytes) {
        Ok(pdb) => told_of(path, &pdb, asked),
        Err(error) => Told {
            error: Some(Refusal::of_file(error, bytes, "pe pdb")),
            ..Told::empty(path, files::size_of_file(path, bytes))
        },
    };
    let status = if told.is_refused() { Status::Refused } else { Status::Done };
    if asked.is_json {
        return Report::of(crate::json(&told), status);
    }
    match &told.error {
        Some(refusal) => Report { complaints: complaint(path, refusal), ..Report::of("", status) },
        None => Report::of(text::of(&told, Style::of_stdout()), status),
    }
}

fn told_of(path: &Path, pdb: &Pdb<'_>, asked: Asked<'_>) -> Told {
    let mut told = Told { head: head_of(path, pdb), ..Told::empty(path, pdb.bytes().len()) };
    told.dbi_error = pdb.dbi().err().map(Refusal::from);
    let lists = Lists::of(pdb, asked);
    told.number_of_modules = lists.number_of_modules;
    told.number_of_publics = lists.number_of_publics;
    told.number_of_procedures = lists.number_of_procedures;
    (told.modules, told.functions, told.streams) = (lists.modules, lists.functions, lists.streams);
    (told.damaged, told.symbols_error) = (lists.damaged, lists.error);
    if !asked.rvas.is_empty() && told.dbi_error.is_none() {
        match pdb.symbolizer() {
            Ok(symbolizer) => {
                put_frames(&symbolizer, asked.rvas, &mut told);
                told.damaged.extend(damaged_of(&symbolizer).into_iter().filter(|it| it.has_names));
            }
            Err(error) => told.symbols_error = Some(error.into()),
        }
    }
    told
}

/// The functions at each RVA, up to a bound.
fn put_frames(symbolizer: &Symbolizer<'_>, rvas: &[u32], told: &mut Told) {
    let (mut all, mut left) = (Vec::new(), TEXTS);
    for &rva in rvas {
        let frames = symbolizer.frames(rva);
        let size: usize = frames.iter().map(size_of).sum();
        match left.checked_sub(size) {
            Some(rest) => left = rest,
            None => {
                told.frames_is_limited = true;
                break;
            }
        }
        all.push(AtRva { rva, functions: frames.iter().map(ToldFrame::of).collect() });
    }
    told.frames = Some(all);
}

fn head_of(path: &Path, pdb: &Pdb<'_>) -> Head {
    let info = pdb.info();
    let name = file_name_of(path);
    let of_dbi = |number: u32| pdb.dbi().ok().map(|()| number);
    let key = pdb.dbi().ok().map(|()| pdb.key(&name));
    Head {
        guid: Some(Guid(info.guid).to_string()),
        age: of_dbi(info.dbi_age),
        pdb_age: Some(info.age),
        key: key.map(|it| it.to_string()),
        symbol_server_path: key.and_then(|it| Some(it.path()?.to_string())),
        time_stamp: Some(info.time_stamp),
        machine: of_dbi(info.machine.into()).map(|it| Named::of(it, MACHINES)),
        flags: of_dbi(info.flags.into()).map(|it| Flags::of(it, PDB_FLAGS)),
        // Bit 15 says that the others are so.
        linker_version: of_dbi(info.build.into())
            .filter(|it| it >> 15 == 1)
            .map(|it| format!("{}.{}", it >> 8 & 0x7F, it & 0xFF)),
        is_moved: pdb.is_moved(),
        is_fastlink: pdb.is_fastlink(),
        block_size: Some(info.block_size),
        number_of_blocks: Some(info.number_of_blocks),
        number_of_streams: Some(info.number_of_streams),
    }
}

impl Told {
    fn empty(path: &Path, file_size: usize) -> Told {
        Told {
            origin: Origin::of(path),
            file_size,
            head: Head::default(),
            number_of_modules: None,
            number_of_publics: None,
            number_of_procedures: None,
            modules: None,
            functions: None,
            streams: None,
            frames: None,
            frames_is_limited: false,
            damaged: Vec::new(),
            dbi_error: None,
            symbols_error: None,
            error: None,
        }
    }

    /// Whether it, or a part of it, is refused.
    fn is_refused(&self) -> bool {
        let streams = self.streams.iter().flatten().any(|it| it.error.is_some());
        let whole = [&self.error, &self.dbi_error, &self.symbols_error];
        whole.iter().any(|it| it.is_some()) || !self.damaged.is_empty() || streams
    }
}
