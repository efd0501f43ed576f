//! `pe stack`: why a process crashed, and the stacks of its threads, of a minidump. Streams are read and stacks walked by calls of
//! the library; names of codes are this program's own. A dump may say anything: no path in it is opened, and no more of its texts
//! is shown than a dump of its size has room for: a frame shows the start of its module's name.

mod breakpad;
mod files;
mod folded;
mod frames;
mod functions;
pub mod missing;
mod modules;
mod outside;
mod parts;
mod pdbs;
mod symbols;
pub mod text;
mod told;

use crate::facts::{Budget, List, Named, Origin, Part, Refusal, Stamp};
use crate::names::{EXCEPTIONS, FAST_FAILS, PLATFORMS, PROCESSORS};
use crate::page::Style;
use crate::streams::{complain, complaint};
use crate::Status;
pub use files::Known;
use pe_c::sys::{DumpException, DumpModule, DumpThread};
use pe_c::{Dump, DumpImages, DumpMemory, Stacks};
use std::collections::BTreeMap;
use std::io::{self, Write};
use std::path::Path;
pub use symbols::SymbolFolders;
pub use told::Told;
use told::{Exception, Memory, Process, System, Thread, Unloaded, Written};

/// How many UTF-16 code units of a text are shown. A path under Windows has mostly less than 260.
const UNITS: usize = 1024;
/// How many times a module shows its path or the name in it.
const TIMES: usize = 4;
/// How many characters of a module's name a frame shows, and how many bytes of a record that names a PDB are read.
const NAME: usize = 64;
const PDB_RECORD: usize = 2048;
/// How many frames all stacks have at most: one of a hostile dump may be as long as the dump, for each of many threads.
const FRAMES: usize = 100_000;
/// `STATUS_ACCESS_VIOLATION` and `STATUS_IN_PAGE_ERROR`, whose parameters say what was done, and where.
const ACCESSES: [u32; 2] = [0xC000_0005, 0xC000_0006];
/// `STATUS_IN_PAGE_ERROR`, whose third parameter is the status of what was to read the page; and `STATUS_STACK_BUFFER_OVERRUN`, whose
/// first says why `__fastfail` was called.
const IN_PAGE_ERROR: u32 = ACCESSES[1];
const FAST_FAIL: u32 = 0xC000_0409;
/// How many bytes of texts are shown at most, however large a dump is: each stands in several places, and is copied on the way.
const TEXTS: usize = 16 << 20;
/// Bits of `MINIDUMP_MISC_INFO.Flags1`.
const HAS_PROCESS_ID: u32 = 1;
const HAS_PROCESS_TIMES: u32 = 2;

/// What is asked of a dump.
#[derive(Clone, Copy, Debug)]
pub struct Asked {
    /// Of this thread alone.
    pub thread: Option<u32>,
    /// How many frames of each thread.
    pub frames: usize,
    pub has_registers: bool,
    pub is_json: bool,
}

/// Where the files of a dump's modules are looked for.
pub struct Places {
    pub images: Known,
    pub symbols: SymbolFolders,
}

/// Writes what is said of a dump, as text or JSON. The images of its modules come from its memory, or from these places.
pub fn write(path: &Path, bytes: &[u8], places: &Places, asked: Asked, out: &mut dyn Write) -> io::Result<Status> {
    let told = told(path, bytes, places, asked);
    if asked.is_json {
        serde_json::to_writer(&mut *out, &told)?;
        out.write_all(b"\n")?;
    } else {
        text::write(&told, Style::of_stdout(), out)?;
    }
    Ok(if lacks_thread(&told, path, asked) { Status::Refused } else { told.status() })
}

/// Whether the thread that is asked for is not there, which is said.
pub fn lacks_thread(told: &Told, path: &Path, asked: Asked) -> bool {
    let is_none = told.threads.refusal().is_none() && told.threads.entries().is_empty() && told.error.is_none();
    let lacking = asked.thread.filter(|_| is_none);
    lacking.iter().for_each(|it| complain(complaint(path, format_args!("no thread has the number {it}"))));
    lacking.is_some()
}

/// What is said of a dump, as records.
pub fn told(path: &Path, bytes: &[u8], places: &Places, asked: Asked) -> Told {
    match Dump::parse(bytes) {
        Ok(dump) => told_of(&dump, path, places, asked),
        Err(error) => Told::refused(path, Refusal::of_file(error, bytes, "pe stack")),
    }
}

/// Whether a file starts as minidumps do.
pub fn is_dump(bytes: &[u8]) -> bool {
    bytes.starts_with(b"MDMP")
}

/// The texts of a dump, of which records may share one: they are read and shown up to a bound.
struct Texts<'d> {
    dump: &'d Dump<'d>,
    budget: Budget,
    /// How many bytes of them are left, whatever the sizes of files.
    left: usize,
    /// Whether a text was past the bound: none is read after it.
    is_over: bool,
}

impl Texts<'_> {
    /// Takes so many bytes for a text that is shown, if they are left.
    fn takes(&mut self, count: usize) -> bool {
        self.is_over = self.is_over || self.left < count || !self.budget.takes(count);
        self.left = self.left.saturating_sub(count);
        !self.is_over
    }

    /// Makes room for the texts of another file, which has so many bytes.
    fn add(&mut self, bytes: usize) {
        self.budget.add(bytes);
    }

    /// The text at an offset. Null of one that is empty, cannot be read, or is past the bound.
    fn at(&mut self, rva: u64) -> Option<String> {
        self.shown(rva, 1)
    }

    /// The same of a text that is shown so many times.
    fn shown(&mut self, rva: u64, times: usize) -> Option<String> {
        if self.is_over {
            return None;
        }
        let text = self.dump.text_lossy(rva, UNITS).ok().filter(|it| !it.is_empty())?;
        Some(text).filter(|it| self.takes(it.len().saturating_mul(times)))
    }
}

/// The last part of a path of Windows.
fn name_of(path: &str) -> &str {
    path.rsplit(['\\', '/', ':']).next().unwrap_or_default()
}

/// The modules with their images, and their paths.
struct Loaded<'l> {
    images: &'l DumpImages<'l>,
    paths: &'l [Option<String>],
}

impl Loaded<'_> {
    /// The module that has an address, and how far into it the address `shown` is: that of a return is looked up by its call.
    fn place_of(&self, address: u64, shown: u64) -> (Option<String>, Option<u64>) {
        match self.images.module_at(address) {
            Some(index) => {
                let path = self.paths.get(index).and_then(Option::as_deref);
                let base = self.images.modules().get(index).map(|it| it.base_of_image);
                (path.map(|it| name_of(it).chars().take(NAME).collect()), base.map(|it| shown.wrapping_sub(it)))
            }
            None => (None, None),
        }
    }
}

fn told_of(dump: &Dump<'_>, path: &Path, places: &Places, asked: Asked) -> Told {
    let mut texts = Texts { dump, budget: Budget::without_rvas(dump.bytes()), left: TEXTS, is_over: false };
    let modules: Vec<DumpModule> = dump.modules().into_iter().flatten().flatten().collect();
    let paths: Vec<Option<String>> = modules.iter().map(|it| texts.shown(it.module_name_rva.into(), TIMES)).collect();
    let names = paths.iter().map(|it| it.as_deref().map_or("", name_of));
    let files = places.images.read(modules.into_iter().zip(names));
    let images = DumpImages::new(dump, |module| files.bytes_of(module));
    let loaded = images.as_ref().map(|images| Loaded { images, paths: &paths });
    let loaded = loaded.as_ref();
    let memory = loaded.map_or_else(|_| memory_of(&DumpMemory::new(dump)), |it| memory_of(it.images.memory()));
    let system = system_of(dump, &mut texts);
    let exception: Part<Exception> =
        dump.exception().map(|it| it.map(|it| exception_of(dump, &it, loaded.ok()))).into();
    let mut threads = threads_of(dump, loaded.ok(), asked, &mut texts);
    let pdbs = match (&mut threads, loaded) {
        (Part::Present(list), Ok(loaded)) => {
            functions::put(&mut list.entries, (dump, loaded), &places.symbols, &mut texts)
        }
        _ => Default::default(),
    };
    // Without the registers of the crash its frames may be of the code that wrote the dump.
    let has_registers = exception.present().is_some_and(|it| it.registers_error.is_none());
    let first = has_registers.then(|| outside::first_of(threads.entries(), &paths));
    let told = Told {
        origin: Origin::of(path),
        written: Written(Some(Stamp::of(dump.info().time_date_stamp))),
        flags: Some(dump.info().flags),
        system,
        process: process_of(dump),
        exception,
        first_frame_outside_windows: first.flatten(),
        threads,
        thread_names_error: dump.thread_names().err().map(Refusal::from),
        unloaded_modules: unloaded_of(dump, &mut texts),
        modules: match loaded {
            Ok(_) if !matches!(dump.modules(), Ok(Some(_))) => Part::Absent,
            Ok(loaded) => Part::Present(modules::of(dump, loaded, &files, pdbs)),
            Err(error) => Part::Refused((**error).into()),
        },
        memory: Some(memory),
        symbols_left_out: places.symbols.left_out().to_vec(),
        texts_is_limited: false,
        error: None,
    };
    Told { texts_is_limited: texts.is_over, ..told }
}

fn system_of(dump: &Dump<'_>, texts: &mut Texts<'_>) -> Part<System> {
    let found = dump.system().map(|found| {
        found.map(|it| System {
            machine: Named::of(it.processor_architecture.into(), PROCESSORS),
            number_of_processors: it.number_of_processors,
            major_version: it.major_version,
            minor_version: it.minor_version,
            build_number: it.build_number,
            platform: Named::of(it.platform_id, PLATFORMS),
            service_pack: texts.at(it.csd_version_rva.into()),
        })
    });
    found.into()
}

fn process_of(dump: &Dump<'_>) -> Part<Process> {
    let found = dump.process().map(|found| {
        found.map(|it| {
            let has = |flag: u32| it.flags1 & flag != 0;
            let create_time = has(HAS_PROCESS_TIMES).then_some(it.process_times.process_create_time);
            Process { id: has(HAS_PROCESS_ID).then_some(it.process_id), create_time }
        })
    });
    found.into()
}

/// What an access violation did, by its first parameter.
fn access_of(kind: u64) -> Option<&'static str> {
    match kind {
        0 => Some("read"),
        1 => Some("write"),
        8 => Some("execution"),
        _ => None,
    }
}

fn exception_of(dump: &Dump<'_>, raised: &DumpException, loaded: Option<&Loaded<'_>>) -> Exception {
    let count = raised.exception_information.len().min(raised.number_parameters as usize);
    let parameters = raised.exception_information[..count].to_vec();
    let is_access = ACCESSES.contains(&raised.exception_code) && parameters.len() >= 2;
    let parameter = |code: u32, index: usize| parameters.get(index).filter(|_| raised.exception_code == code);
    let named = |it: &u64, names| u32::try_from(*it).ok().map(|it| Named::of(it, names));
    let address = raised.exception_address;
    let (module, offset) = loaded.map_or((None, None), |it| it.place_of(address, address));
    Exception {
        code: Named::of(raised.exception_code, EXCEPTIONS),
        access: if is_access { access_of(parameters[0]) } else { None },
        access_va: is_access.then(|| parameters[1]),
        in_page_status: parameter(IN_PAGE_ERROR, 2).and_then(|it| named(it, EXCEPTIONS)),
        fast_fail: parameter(FAST_FAIL, 0).and_then(|it| named(it, FAST_FAILS)),
        thread_id: raised.thread_id,
        address_va: address,
        module,
        offset,
        parameters,
        registers_error: dump.context(&raised.thread_context).err().map(Refusal::from),
    }
}

/// The threads that are asked for, the crashed one first.
fn threads_of(dump: &Dump<'_>, loaded: Option<&Loaded<'_>>, asked: Asked, texts: &mut Texts<'_>) -> Part<List<Thread>> {
    let list = match dump.threads() {
        Ok(Some(list)) => list,
        Ok(None) => return Part::Absent,
        Err(error) => return Part::Refused(error.into()),
    };
    let crashed = dump.exception().ok().flatten().map(|it| it.thread_id);
    let mut threads: Vec<DumpThread> =
        list.filter(|it| asked.thread.is_none_or(|wanted| wanted == it.thread_id)).collect();
    threads.sort_by_key(|it| Some(it.thread_id) != crashed);
    let names = dump.thread_names().into_iter().flatten().flatten();
    let names: BTreeMap<u32, u64> = names.map(|it| (it.thread_id, it.rva_of_thread_name)).collect();
    let mut stacks = loaded.map(|it| Stacks::with_bound(it.images, FRAMES));
    let told = threads.iter().map(|thread| Thread {
        name: names.get(&thread.thread_id).and_then(|rva| texts.at(*rva)),
        is_crashed: Some(thread.thread_id) == crashed,
        ..frames::of(dump, thread, stacks.as_mut().zip(loaded), asked)
    });
    let entries: Vec<Thread> = told.collect();
    // A walk that ended before the bound of its own was cut by that of all.
    let is_limited = entries.iter().any(|it| it.end == Some("bound") && it.frames.len() < asked.frames);
    Part::Present(List { entries, error: None, is_limited })
}

fn unloaded_of(dump: &Dump<'_>, texts: &mut Texts<'_>) -> Part<List<Unloaded>> {
    let list = match dump.unloaded_modules() {
        Ok(Some(list)) => list,
        Ok(None) => return Part::Absent,
        Err(error) => return Part::Refused(error.into()),
    };
    let told = list.map(|it| Unloaded {
        name: texts.at(it.module_name_rva.into()).map(|path| name_of(&path).to_string()),
        base_va: it.base_of_image,
        size: it.size_of_image,
        time: Stamp::of(it.time_date_stamp),
    });
    Part::Present(List { entries: told.collect(), error: None, is_limited: false })
}

fn memory_of(memory: &DumpMemory<'_>) -> Memory {
    Memory {
        pieces: memory.pieces().len(),
        bytes: memory.pieces().iter().map(|it| it.length).fold(0, u64::saturating_add),
        lost_bytes: memory.lost(),
        errors: memory.refused().iter().map(|it| it.1.into()).collect(),
    }
}
