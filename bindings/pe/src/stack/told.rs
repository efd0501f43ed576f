//! What is said of a minidump, as records: JSON is made of them as they are, and text by `text`.

use super::pdbs::ToldPdb;
use crate::facts::{entry, field, List, Named, Origin, Part, Refusal, Stamp};
use crate::pdb::frames::Line;
use crate::Status;
use serde::ser::SerializeMap;
use serde::{Serialize, Serializer};
use std::collections::BTreeMap;
use std::path::Path;

/// A time stamp that is null where it is not known.
#[derive(Debug)]
pub struct Written(pub Option<Stamp>);

impl Serialize for Written {
    fn serialize<S: Serializer>(&self, serializer: S) -> Result<S::Ok, S::Error> {
        let mut map = serializer.serialize_map(Some(2))?;
        map.serialize_entry("time_date_stamp", &self.0.map(|it| it.seconds))?;
        map.serialize_entry("time", &self.0.and_then(Stamp::time))?;
        map.end()
    }
}

/// What is said of a dump.
#[derive(Debug, Serialize)]
pub struct Told {
    #[serde(flatten)]
    pub origin: Origin,
    /// When it was written.
    #[serde(flatten)]
    pub written: Written,
    /// `MINIDUMP_TYPE`.
    pub flags: Option<u64>,
    #[serde(flatten)]
    pub system: Part<System>,
    #[serde(flatten)]
    pub process: Part<Process>,
    #[serde(flatten)]
    pub exception: Part<Exception>,
    /// Null where there is none, or where that is not known.
    pub first_frame_outside_windows: Option<Outside>,
    /// The crashed one first.
    #[serde(flatten)]
    pub threads: Part<List<Thread>>,
    /// Why no thread has a name.
    pub thread_names_error: Option<Refusal>,
    #[serde(flatten)]
    pub modules: Part<List<Module>>,
    #[serde(flatten)]
    pub unloaded_modules: Part<List<Unloaded>>,
    pub memory: Option<Memory>,
    /// What is left out of the places where PDB files are looked for, each with why.
    pub symbols_left_out: Vec<String>,
    /// Whether there are more names and paths than are shown: those after the last are null.
    pub texts_is_limited: bool,
    /// Why it is refused whole.
    pub error: Option<Refusal>,
}

#[derive(Debug, Serialize)]
pub struct System {
    pub machine: Named,
    pub number_of_processors: u8,
    pub major_version: u32,
    pub minor_version: u32,
    pub build_number: u32,
    pub platform: Named,
    /// Null where it is empty, or cannot be read.
    pub service_pack: Option<String>,
}
field!(System, "system");

#[derive(Debug, Serialize)]
pub struct Process {
    /// Null where the dump does not say it.
    pub id: Option<u32>,
    /// When it was made, in seconds since 1970.
    pub create_time: Option<u32>,
}
field!(Process, "process");

/// Why the process crashed.
#[derive(Debug, Serialize)]
pub struct Exception {
    pub code: Named,
    /// What was done, of an access violation, in words.
    pub access: Option<&'static str>,
    /// Of the memory that was asked for.
    pub access_va: Option<u64>,
    /// Of an in-page error the `NTSTATUS` of what was to read the page.
    pub in_page_status: Option<Named>,
    /// Why `__fastfail` was called, of an exception that it raised.
    pub fast_fail: Option<Named>,
    pub thread_id: u32,
    pub address_va: u64,
    /// The module that has the address, and how far into it.
    pub module: Option<String>,
    pub offset: Option<u64>,
    pub parameters: Vec<u64>,
    /// Why the registers of the thread as it crashed cannot be read: its frames then start at its own, which may be of the code that
    /// wrote the dump.
    pub registers_error: Option<Refusal>,
}
field!(Exception, "exception");

/// The first frame of the crashed thread in a module that is not of Windows.
#[derive(Debug, Serialize)]
pub struct Outside {
    pub thread_id: u32,
    /// Its number, from 0.
    pub frame: usize,
    /// Below which the modules of the frames before it are.
    pub windows_directory: String,
}

#[derive(Debug, Serialize)]
pub struct Thread {
    pub id: u32,
    pub name: Option<String>,
    pub is_crashed: bool,
    /// From the top frame outwards.
    pub frames: Vec<Frame>,
    /// Why there are no more: `bottom` where records lead to 0 and no frame is a guess, `zero` where it comes to 0 too, but a frame is one
    /// or no records describe the last one.
    pub end: Option<&'static str>,
    /// More on it; or why the registers of the thread cannot be read.
    pub end_error: Option<Refusal>,
}
entry!(Thread, "threads");

#[derive(Debug, Serialize)]
pub struct Frame {
    pub ip_va: u64,
    pub sp_va: u64,
    pub module: Option<String>,
    pub offset: Option<u64>,
    /// The number of the module in the dump's list.
    #[serde(skip)]
    pub module_index: Option<usize>,
    /// Whether that has an image.
    #[serde(skip)]
    pub has_image: bool,
    /// What names it, in the image of the module. Null where nothing does, as without an image.
    pub function: Option<Function>,
    /// How it was found: `top`, `records`, `leaf`, `interrupt`, `scanned`, `frame-pointer`.
    pub way: &'static str,
    /// Whether its function has called: then `ip_va` is the return address.
    pub has_called: bool,
    /// Whether it may be wrong: it, or a frame before it, was guessed.
    pub is_guess: bool,
    /// By name; null unless they are asked for.
    pub registers: Option<BTreeMap<String, u64>>,
}

/// What names a frame: a procedure or a public symbol of a PDB, a COFF symbol in its function, or the export that starts it.
#[derive(Debug, Serialize)]
pub struct Function {
    /// As its source has it, of C++ and Rust; else as the image has it. Null where it is not text, or is longer than 4,095 bytes.
    pub name: Option<String>,
    /// As the image has it.
    pub raw_name: Option<String>,
    /// How far after its start the address is.
    pub offset: u32,
    /// `procedure`, `public`, `symbol`, `export`.
    pub source: &'static str,
    /// Whether it is only the last name before the address: a public symbol, or in an image without a function table.
    pub is_nearest: bool,
    /// The line of the code.
    #[serde(flatten)]
    pub line: Line,
    /// The functions whose code stands there in place of a call of them, the innermost first.
    pub inlined: Vec<Inlined>,
}

/// A function that is inlined.
#[derive(Debug, Serialize)]
pub struct Inlined {
    pub name: Option<String>,
    pub raw_name: Option<String>,
    /// Where the code is in it; of the function that it is inlined in that is where its call stands.
    #[serde(flatten)]
    pub line: Line,
}

#[derive(Debug, Serialize)]
pub struct Module {
    /// The last part of its path, and the path as the dump has it. Null where it cannot be read.
    pub name: Option<String>,
    pub path: Option<String>,
    pub base_va: u64,
    pub size: u32,
    pub checksum: u32,
    #[serde(flatten)]
    pub time: Stamp,
    pub version: Option<String>,
    /// Where symbol servers have the PDB and the image.
    pub pdb_symbol_server_path: Option<String>,
    pub symbol_server_path: Option<String>,
    /// Where its image comes from: `memory`, `memory in part`, `file`, or null where there is none.
    pub image: Option<&'static str>,
    pub image_file: Option<String>,
    /// What is said of its PDB. Null where it has no frame, or no folder is looked in.
    pub pdb: Option<ToldPdb>,
    /// Why the function table of its image is refused: walks then take the whole entries that are there.
    pub function_table_error: Option<Refusal>,
    /// Why its symbols, the strings with their longer names, or its exports are refused: they then name no frame.
    pub symbols_error: Option<Refusal>,
    pub strings_error: Option<Refusal>,
    pub exports_error: Option<Refusal>,
}
entry!(Module, "modules");

#[derive(Debug, Serialize)]
pub struct Unloaded {
    pub name: Option<String>,
    pub base_va: u64,
    pub size: u32,
    #[serde(flatten)]
    pub time: Stamp,
}
entry!(Unloaded, "unloaded_modules");

#[derive(Debug, Serialize)]
pub struct Memory {
    pub pieces: usize,
    pub bytes: u64,
    /// How many the dump says it has, and its file does not.
    pub lost_bytes: u64,
    /// Why a list of pieces is refused.
    pub errors: Vec<Refusal>,
}

impl Told {
    /// A dump that is refused whole.
    pub fn refused(path: &Path, error: Refusal) -> Told {
        Told {
            origin: Origin::of(path),
            written: Written(None),
            flags: None,
            system: Part::Absent,
            process: Part::Absent,
            exception: Part::Absent,
            first_frame_outside_windows: None,
            threads: Part::Absent,
            thread_names_error: None,
            modules: Part::Absent,
            unloaded_modules: Part::Absent,
            memory: None,
            symbols_left_out: Vec::new(),
            texts_is_limited: false,
            error: Some(error),
        }
    }

    /// All that is refused, each with the part that it is of. A stack that cannot be walked to its end is none.
    pub fn refusals(&self) -> Vec<(&'static str, &Refusal)> {
        let threads = self.threads.entries().iter().filter(|it| it.end.is_none());
        let mut found: Vec<(&'static str, &Refusal)> = Vec::new();
        found.extend(self.error.iter().map(|it| ("dump", it)));
        found.extend(self.system.refusal().map(|it| ("system", it)));
        found.extend(self.process.refusal().map(|it| ("process", it)));
        found.extend(self.exception.refusal().map(|it| ("exception", it)));
        let registers = self.exception.present().and_then(|it| it.registers_error.as_ref());
        found.extend(registers.map(|it| ("registers of the crash", it)));
        found.extend(self.threads.list_refusal().map(|it| ("threads", it)));
        found.extend(threads.filter_map(|it| it.end_error.as_ref()).map(|it| ("registers of a thread", it)));
        found.extend(self.thread_names_error.iter().map(|it| ("names of threads", it)));
        found.extend(self.modules.list_refusal().map(|it| ("modules", it)));
        found.extend(self.unloaded_modules.list_refusal().map(|it| ("unloaded modules", it)));
        found.extend(self.memory.iter().flat_map(|it| &it.errors).map(|it| ("memory", it)));
        found
    }

    /// The modules whose function tables are refused. That refuses nothing of the dump: their whole entries serve.
    pub fn damaged_tables(&self) -> impl Iterator<Item = (&Module, &Refusal)> {
        self.modules.entries().iter().filter_map(|it| Some((it, it.function_table_error.as_ref()?)))
    }

    /// The modules whose images have tables of names that are refused: what they are, and why.
    pub fn damaged_names(&self) -> impl Iterator<Item = (&Module, &'static str, &Refusal)> {
        self.modules.entries().iter().flat_map(|it| {
            let errors =
                [("symbols", &it.symbols_error), ("strings", &it.strings_error), ("exports", &it.exports_error)];
            errors.into_iter().filter_map(move |(part, error)| Some((it, part, error.as_ref()?)))
        })
    }

    /// The modules whose PDB files are refused, or a part of them: which part, whether it still has names, and why. That refuses nothing
    /// of the dump.
    pub fn damaged_pdbs(&self) -> impl Iterator<Item = (&Module, &str, bool, &Refusal)> {
        let pdbs = self.modules.entries().iter().filter_map(|it| Some((it, it.pdb.as_ref()?)));
        pdbs.flat_map(|(module, pdb)| {
            let whole = pdb.error.iter().map(|it| ("", false, it));
            let parts = pdb.damaged.iter().map(|it| (it.module.as_str(), it.has_names, &it.error));
            whole.chain(parts).map(move |it| (module, it.0, it.1, it.2))
        })
    }

    /// The stacks that did not end at their bottom, nor where no more was asked for.
    pub fn lost(&self) -> usize {
        let is_lost = |it: &&Thread| it.end.is_some_and(|end| end != "bottom" && end != "bound");
        self.threads.entries().iter().filter(is_lost).count()
    }

    /// How many modules have no image.
    pub fn without_images(&self) -> usize {
        self.modules.entries().iter().filter(|it| it.image.is_none()).count()
    }

    pub fn status(&self) -> Status {
        match (self.is_refused(), self.lost()) {
            (true, _) => Status::Refused,
            (false, 0) => Status::Done,
            (false, _) => Status::Lost,
        }
    }

    pub fn is_refused(&self) -> bool {
        !self.refusals().is_empty()
    }
}
