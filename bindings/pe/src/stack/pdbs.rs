//! The PDB files of a dump's modules: which is found where, whether it is that of the module, and what it names. A PDB is that of
//! a module if its GUID and its age are those that the module names; no name is read of another one.
//!
//! One that is damaged costs its names, and no frame. Of each file the parts are read that name frames, and one at a time is in memory. A
//! symbol file of Breakpad is one that names the key in its first line.

use super::breakpad::{self, SymbolFile};
use super::functions::{function_of_pdb, function_of_symbol_file};
use super::parts::{Memory, PdbFile};
use super::symbols::SymbolFolders;
use super::told::{Frame, Function};
use super::{modules, Loaded, Texts};
use crate::facts::Refusal;
use crate::pdb::{damaged_of, Damaged};
use crate::streams::fail;
use pe_c::{Dump, Image, Pdb, SymbolKey};
use serde::Serialize;
use std::collections::BTreeMap;
use std::fs;
use std::io;
use std::path::{Path, PathBuf};

/// How many bytes a PDB has at most that is read, and all of a dump.
const MOST: u64 = 2 << 30;
const MOST_IN_ALL: u64 = 8 << 30;
/// How many records of functions are followed to the one of the whole function.
const MOST_CHAINED: usize = 32;
/// How many addresses are kept with what names them: those of a recursion come again and again.
const KEPT: usize = 256;

/// What is said of the PDB of a module that has a frame.
#[derive(Clone, Debug, Default, Serialize)]
pub struct ToldPdb {
    /// `read`, `missing`, `another-build`, `refused`, `not-read`, `not-named`.
    pub state: &'static str,
    /// The file that was read, or that is of another build, refused or not read.
    pub file: Option<String>,
    /// The key that the module names, and that of a file of another build.
    pub wanted_key: Option<String>,
    pub found_key: Option<String>,
    /// How many frames it names.
    pub frames: usize,
    /// Why it is refused.
    pub error: Option<Refusal>,
    /// Why it is not read, in words.
    pub reason: Option<String>,
    /// The parts of it that are damaged, and name nothing.
    pub damaged: Vec<Damaged>,
}

/// What the PDB files say of the modules, by their numbers.
pub type ToldPdbs = BTreeMap<usize, ToldPdb>;

/// The modules that name one PDB, with the frames in them: the number of each, and the RVA of its code.
struct Group<'k> {
    key: SymbolKey<'k>,
    name: &'k str,
    modules: Vec<usize>,
    frames: Vec<(usize, u32)>,
}

/// Puts their functions to the frames that a PDB names, and says what was found.
pub fn put(
    frames: &mut [&mut Frame],
    over: (&Dump<'_>, &Loaded<'_>),
    folders: &SymbolFolders,
    texts: &mut Texts<'_>,
) -> ToldPdbs {
    let mut told = ToldPdbs::new();
    let mut files = PdbFiles { folders, keys: BTreeMap::new(), left: MOST_IN_ALL, memory: Memory::default() };
    for group in groups_of(frames, over, &mut told) {
        let (mut said, file) = files.find(&group);
        if let Some(file) = file {
            texts.add(file.bytes().len());
            said = name_frames(frames, (&group, over.1), &file, said, texts);
            files.memory = file.into_memory();
        }
        told.extend(group.modules.iter().map(|it| (*it, said.clone())));
    }
    told
}

/// The PDB files that frames need, in the order of the frames. Modules that name none are reported as such.
fn groups_of<'k>(frames: &[&mut Frame], over: (&Dump<'k>, &Loaded<'k>), told: &mut ToldPdbs) -> Vec<Group<'k>> {
    let (dump, loaded) = over;
    let mut groups: Vec<Group<'k>> = Vec::new();
    let (mut of_modules, mut of_keys) = (BTreeMap::new(), BTreeMap::new());
    for (index, frame) in frames.iter().enumerate() {
        let (Some(module), Some(offset)) = (frame.module_index, frame.offset) else { continue };
        let group = *of_modules.entry(module).or_insert_with(|| {
            let Some((key, name)) = modules::key_of(dump, loaded, module).and_then(|it| Some((it, it.path()?.name())))
            else {
                told.insert(module, ToldPdb { state: "not-named", ..ToldPdb::default() });
                return None;
            };
            let group = *of_keys.entry((name.to_lowercase(), key.guid.0, key.age)).or_insert(groups.len());
            if group == groups.len() {
                groups.push(Group { key, name, modules: Vec::new(), frames: Vec::new() });
            }
            groups[group].modules.push(module);
            Some(group)
        });
        // A return address may be that of the next line: the call is before it.
        let code = u32::try_from(offset.wrapping_sub(frame.has_called.into()));
        if let (Some(group), Ok(rva)) = (group, code) {
            groups[group].frames.push((index, rva));
        }
    }
    groups
}

/// Puts their functions to the frames that are in modules of this PDB, and adds to what is said of it.
fn name_frames(
    frames: &mut [&mut Frame],
    of: (&Group<'_>, &Loaded<'_>),
    file: &PdbFile,
    said: ToldPdb,
    texts: &mut Texts<'_>,
) -> ToldPdb {
    let (group, loaded) = of;
    if breakpad::is_symbol_file(file.bytes()) {
        return name_by_symbol_file(frames, of, file.bytes(), said, texts);
    }
    let refused = |error: pe_c::Error| ToldPdb { state: "refused", error: Some(error.into()), ..said.clone() };
    let pdb = match Pdb::parse(file.bytes()) {
        Ok(pdb) if file.is_whole() => pdb,
        Ok(pdb) => pdb.with_reader(file),
        Err(error) => return refused(error),
    };
    let symbolizer = match pdb.symbolizer() {
        Ok(symbolizer) => symbolizer,
        Err(error) => return refused(error),
    };
    let mut said = said;
    let mut kept = BTreeMap::new();
    for &(index, rva) in &group.frames {
        if texts.is_over {
            break;
        }
        if kept.len() > KEPT {
            kept.clear();
        }
        let found = kept.entry(rva).or_insert_with(|| symbolizer.frames(rva));
        let frame = &mut frames[index];
        let image = frame.module_index.and_then(|it| Some(&loaded.images.image(it)?.image));
        let public = found.last().filter(|it| it.is_public);
        let is_own = public.map_or(Some(true), |it| is_in_function(image, rva, it.function_rva));
        if is_own == Some(false) {
            continue;
        }
        let function = function_of_pdb(found, frame.has_called.into(), texts);
        frame.function = function.map(|it| Function { is_nearest: is_own.is_none(), ..it });
        said.frames += usize::from(frame.function.is_some());
    }
    said.damaged = damaged_of(&symbolizer);
    said
}

/// The same of a symbol file.
fn name_by_symbol_file(
    frames: &mut [&mut Frame],
    (group, loaded): (&Group<'_>, &Loaded<'_>),
    bytes: &[u8],
    mut said: ToldPdb,
    texts: &mut Texts<'_>,
) -> ToldPdb {
    let file = match SymbolFile::parse(bytes) {
        Ok(file) => file,
        Err(why) => return ToldPdb { state: "not-read", reason: Some(why.to_string()), ..said },
    };
    for &(index, rva) in &group.frames {
        if texts.is_over {
            break;
        }
        let (found, frame) = (file.frames(rva), &mut frames[index]);
        let image = frame.module_index.and_then(|it| Some(&loaded.images.image(it)?.image));
        let public = found.last().filter(|it| it.is_public);
        let is_own = public.map_or(Some(true), |it| is_in_function(image, rva, it.start));
        if is_own != Some(false) {
            let shown = rva.wrapping_add(frame.has_called.into());
            let function = function_of_symbol_file(&found, shown, texts);
            frame.function = function.map(|it| Function { is_nearest: is_own.is_none(), ..it });
            said.frames += usize::from(frame.function.is_some());
        }
    }
    said
}

/// Whether a public symbol is in the function that has the code at an RVA, by the function table of an image; at the start of the
/// function where that is a part of one. None where nothing says which function it is: then it may be that of another one.
fn is_in_function(image: Option<&Image<'_>>, rva: u32, start: u32) -> Option<bool> {
    let functions = image?.functions().ok()??;
    let part = functions.find(rva).ok()??;
    let mut whole = part;
    for _ in 0..MOST_CHAINED {
        match functions.record(whole).ok().and_then(|it| it.chained()) {
            Some(next) => whole = next,
            None => break,
        }
    }
    Some(part.begin <= start || whole.begin == start)
}

/// The PDB files that are read for a dump.
struct PdbFiles<'f> {
    folders: &'f SymbolFolders,
    /// The keys of those that were read, or why they have none.
    keys: BTreeMap<PathBuf, Result<String, Refusal>>,
    /// How many bytes may still be read.
    left: u64,
    /// That of a file that was read before.
    memory: Memory,
}

impl PdbFiles<'_> {
    /// The PDB of modules, and what is reported of it: of several files that are none, the first.
    fn find(&mut self, group: &Group<'_>) -> (ToldPdb, Option<PdbFile>) {
        let wanted = group.key.to_string();
        let mut told = ToldPdb { state: "missing", wanted_key: Some(wanted.clone()), ..ToldPdb::default() };
        for candidate in self.folders.candidates(group.name, &wanted) {
            let file = |path: &Path| Some(path.to_string_lossy().into_owned());
            let said = match candidate.problem() {
                Some((path, why)) => ToldPdb { state: "not-read", file: file(path), reason: Some(why), ..told.clone() },
                None => match self.read(candidate.path(), &group.key, &wanted) {
                    Ok(found) => return (ToldPdb { state: "read", file: file(candidate.path()), ..told }, Some(found)),
                    // One that is named by itself, and has another key, is that of other modules.
                    Err(why) if why.state == "another-build" && !candidate.has_name(group.name) => continue,
                    Err(why) => ToldPdb { file: file(candidate.path()), wanted_key: told.wanted_key.clone(), ..*why },
                },
            };
            if told.state == "missing" {
                told = said;
            }
        }
        (told, None)
    }

    /// A symbol file with this key, or why it is not read.
    fn symbol_file(&mut self, path: &Path, file: PdbFile, wanted: &str) -> Result<PdbFile, Box<ToldPdb>> {
        let not_read = |why: String| Box::new(ToldPdb { state: "not-read", reason: Some(why), ..ToldPdb::default() });
        let bytes = file.bytes();
        if bytes.len() as u64 > breakpad::MOST {
            let (size, most) = (bytes.len(), breakpad::MOST);
            return Err(not_read(format!("it has {size} bytes; of a symbol file at most {most} are read")));
        }
        let key = breakpad::key_of(bytes).map_err(|why| not_read(why.to_string()))?.to_uppercase();
        self.keys.insert(path.to_path_buf(), Ok(key.clone()));
        match key == wanted {
            true => Ok(file),
            false => Err(Box::new(ToldPdb { state: "another-build", found_key: Some(key), ..ToldPdb::default() })),
        }
    }

    /// The PDB with this key, or why it is not read, or none with it.
    fn read(&mut self, path: &Path, key: &SymbolKey<'_>, wanted: &str) -> Result<PdbFile, Box<ToldPdb>> {
        let not_read = |why: String| Box::new(ToldPdb { state: "not-read", reason: Some(why), ..ToldPdb::default() });
        let another = |found: &str| {
            Box::new(ToldPdb { state: "another-build", found_key: Some(found.into()), ..ToldPdb::default() })
        };
        let refused =
            |why: &Refusal| Box::new(ToldPdb { state: "refused", error: Some(why.clone()), ..ToldPdb::default() });
        match self.keys.get(path) {
            Some(Ok(found)) if found != wanted => return Err(another(found)),
            Some(Err(refusal)) => return Err(refused(refusal)),
            _ => (),
        }
        let unread = |error: io::Error| {
            fail();
            not_read(error.to_string())
        };
        let size = fs::metadata(path).map_err(unread)?.len();
        if size > MOST {
            return Err(not_read(format!("it has {size} bytes; at most {MOST} are read")));
        }
        self.left = self.left.checked_sub(size).ok_or_else(|| {
            not_read(format!("the PDB files of one dump that are read have at most {MOST_IN_ALL} bytes"))
        })?;
        let memory = std::mem::take(&mut self.memory);
        let file = PdbFile::open(path, memory).map_err(unread)?;
        if breakpad::is_symbol_file(file.bytes()) {
            return self.symbol_file(path, file, wanted);
        }
        let parsed = Pdb::parse(file.bytes()).and_then(|it| it.dbi().map(|()| it)).map_err(Refusal::from);
        let found = parsed.as_ref().map(|it| it.key("").to_string()).map_err(Refusal::clone);
        self.keys.insert(path.to_path_buf(), found.clone());
        match (parsed, found) {
            (Ok(pdb), _) if pdb.matches(key) => Ok(file),
            (_, Ok(found)) => Err(another(&found)),
            (_, Err(refusal)) => Err(refused(&refusal)),
        }
    }
}
