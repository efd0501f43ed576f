//! Names and lines of the functions at RVAs, by a PDB. A module is read when an RVA in it is asked for first. For the first few RVAs of a
//! module its procedures and lines are read each time; then they are sorted, and each RVA is looked up by halves. The functions that are inlined there are read of the records of the procedure. A function
//! without debug information is in no module: the public symbols name it, if the linker wrote them; they are read when one is needed first.

use crate::image::{returned, text_of, Error};
use crate::pdb::{count_in, filled, Omap, Pdb, PdbModule, PROCEDURES, PUBLICS, ROW};
use crate::sys::{self, PdbInlined, PdbLine, PdbLineEntry as LineEntry, PdbModuleRange, Range};
use alloc::borrow::Cow;
use alloc::collections::BTreeMap;
use alloc::string::String;
use alloc::vec::Vec;
use core::cell::{Cell, OnceCell, RefCell};
use core::fmt;

/// The stream of ids, which has the names of inlined functions.
const ID_STREAM: u32 = 4;
/// How many bytes a public symbol, a procedure with what is in it, and a record of the stream of ids hardly fall below: for a room that is
/// mostly large enough.
const PUBLIC: usize = 24;
const PROCEDURE: usize = 64;
const ID: usize = 16;
/// How many inlined functions an RVA has at most.
const MOST_INLINED: usize = 64;
/// For how many RVAs all records are read, before an index of them is made: one costs as much as to read them some three times.
const FEW: u32 = 4;

/// A function at an RVA, and where in its source.
#[derive(Clone, Debug, Default, PartialEq, Eq)]
#[cfg_attr(feature = "serde", derive(serde::Serialize))]
#[non_exhaustive]
pub struct SymbolFrame {
    /// The name of the function: of a procedure as in the source, of a public symbol as linkers have it. Of an inlined one as in the
    /// source, with its namespace, but without its class; empty where the PDB does not have it.
    pub name: String,
    /// Where the function starts. Of an inlined one it is that of the procedure that has its code.
    pub function_rva: u32,
    /// How far after it the RVA is; of code that a tool moved, how far it was when the image was linked.
    pub offset: u32,
    /// The path of the source file. `None` where nothing says it.
    pub file: Option<String>,
    /// The line, from 1 on. Of a function that the one of the frame before is inlined in it is that of the call.
    pub line: Option<u32>,
    /// The column, from 1 on.
    pub column: Option<u16>,
    /// Whether the function was inlined into that of the next frame.
    pub is_inlined: bool,
    /// Whether no procedure has the RVA: it is the last public function before it, which may be another one.
    pub is_public: bool,
}

/// A module that is refused, whole or its lines or inlined functions alone.
#[derive(Clone, Debug, PartialEq, Eq)]
#[cfg_attr(feature = "serde", derive(serde::Serialize))]
#[non_exhaustive]
pub struct DamagedModule {
    /// The name of the module.
    pub name: String,
    /// Why it is refused.
    pub error: Error,
    /// Whether its functions are named all the same: its lines, or inlined functions of one of them, are refused, or the name or the
    /// line of one.
    pub has_names: bool,
}

/// An index that is made once more than a few RVAs were looked up without it, and why it is refused.
struct Lookup<T> {
    asked: Cell<u32>,
    index: OnceCell<Result<Vec<T>, Error>>,
    refused: Cell<Option<Error>>,
}

/// The symbols of a kind, in a range of these bytes.
struct Symbols<'p> {
    kind: u32,
    bytes: Cow<'p, [u8]>,
    range: Range,
    lookup: Lookup<u64>,
}

/// The lines of a module, with where its source files are.
struct Lines {
    range: Range,
    files: Result<Option<Range>, Error>,
    lookup: Lookup<LineEntry>,
}

/// What is read of a module: its procedures, and its lines, which may be refused alone.
struct Read<'p> {
    symbols: Symbols<'p>,
    lines: Lines,
    /// Why the inlined functions of an RVA are refused, or the name or the line of one, of the first that was asked for.
    inlined_error: Cell<Option<Error>>,
    /// Where the names of the source files are that were asked for, so that each is sought once.
    files: RefCell<BTreeMap<u32, Option<Range>>>,
}

/// A module, which is read when an RVA in it is asked for.
struct Module<'p> {
    module: PdbModule,
    read: OnceCell<Result<Read<'p>, Error>>,
}

/// The stream of ids, and where its records start.
struct Ids<'p> {
    bytes: Cow<'p, [u8]>,
    starts: Vec<u64>,
}

/// What names RVAs by a PDB: see [`Pdb::symbolizer`]. What it reads it keeps, so that threads share it under a lock: it is `Send`, and
/// not `Sync`.
///
/// ```
/// # #[path = "../tests/made/mod.rs"] mod made;
/// # let bytes = made::pdb_inlined();
/// let pdb = pe_c::Pdb::parse(&bytes)?;
/// let frames = pdb.symbolizer()?.frames(0x1065);
/// let lines: Vec<_> = frames.iter().map(|it| (it.name.as_str(), it.file.as_deref(), it.line, it.is_inlined)).collect();
/// assert_eq!(lines, [("twice", Some("c.h"), Some(8), true), ("helper", Some("c.c"), Some(9), false)]);
/// # Ok::<(), pe_c::Error>(())
/// ```
pub struct Symbolizer<'p> {
    pdb: &'p Pdb<'p>,
    omap: Option<Omap>,
    sections: &'p [u8],
    publics: OnceCell<Result<Symbols<'p>, Error>>,
    modules: Vec<Module<'p>>,
    /// Which RVAs are of which module, in ascending order. `None` where the section contributions do not say it.
    ranges: Option<Vec<PdbModuleRange>>,
    /// Else the starts of all procedures, each with the last of the modules that have one there.
    starts: OnceCell<Vec<(u32, usize)>>,
    /// How many more bytes of streams may be kept.
    left: Cell<usize>,
    ids: OnceCell<Result<Ids<'p>, Error>>,
    /// The names of all source files.
    names: Result<Cow<'p, [u8]>, Error>,
}

impl fmt::Debug for Symbolizer<'_> {
    fn fmt(&self, f: &mut fmt::Formatter<'_>) -> fmt::Result {
        let (pdb, damaged) = (&self.pdb, self.damaged());
        f.debug_struct("Symbolizer").field("pdb", pdb).field("damaged", &damaged).finish_non_exhaustive()
    }
}

impl<T> Lookup<T> {
    fn new() -> Lookup<T> {
        Lookup { asked: Cell::new(0), index: OnceCell::new(), refused: Cell::new(None) }
    }

    /// The index, which is made where it is not.
    fn made(&self, make: impl FnOnce() -> Result<Vec<T>, Error>) -> Option<&[T]> {
        let made = self.index.get_or_init(make);
        self.refused.set(self.refused.get().or(made.as_ref().err().copied()));
        made.as_deref().ok()
    }

    /// What is found of an RVA: by reading all, or where that was done a few times by the index.
    fn find<R>(
        &self,
        read: impl FnOnce() -> Result<Option<R>, Error>,
        make: impl FnOnce() -> Result<Vec<T>, Error>,
        find: impl FnOnce(&[T]) -> Option<R>,
    ) -> Option<R> {
        if self.refused.get().is_some() {
            return None;
        }
        if self.index.get().is_some() || self.asked.replace(self.asked.get() + 1) >= FEW {
            return find(self.made(make)?);
        }
        let found = read();
        self.refused.set(found.as_ref().err().copied());
        found.ok()?
    }
}

impl<'p> Symbols<'p> {
    /// The symbols of a kind in a range of these bytes.
    fn of(kind: u32, bytes: Cow<'p, [u8]>, range: Range) -> Symbols<'p> {
        Symbols { kind, bytes, range, lookup: Lookup::new() }
    }

    /// Their index: an RVA in each entry, above the offset of the record.
    fn index(&self, sections: &[u8]) -> Option<&[u64]> {
        self.lookup.made(|| self.made(sections))
    }

    fn made(&self, sections: &[u8]) -> Result<Vec<u64>, Error> {
        let (kind, at, length) = (self.kind, self.bytes.as_ptr(), self.bytes.len());
        let first = count_in(&self.range, &self.bytes, if kind == PUBLICS { PUBLIC } else { PROCEDURE });
        // SAFETY: the pointers and lengths are those of slices; the records are lent for the call.
        filled(first, |room, entries, written| unsafe {
            let (headers, size) = (sections.as_ptr(), sections.len());
            sys::pe_c_pdb_index(kind, at, length, &self.range, headers, size, room, entries, written)
        })
    }

    /// The symbol of an RVA.
    fn find(&self, sections: &[u8], rva: u32) -> Option<sys::PdbSymbol> {
        let (kind, at, length) = (self.kind, self.bytes.as_ptr(), self.bytes.len());
        let (headers, size) = (sections.as_ptr(), sections.len());
        let read = || {
            let mut found = sys::PdbSymbol::default();
            // SAFETY: as above.
            let number =
                unsafe { sys::pe_c_read_pdb_symbol(kind, at, length, &self.range, headers, size, rva, &mut found) };
            returned(number, found)
        };
        let find = |index: &[u64]| {
            let (entries, count, mut found) = (index.as_ptr(), index.len(), sys::PdbSymbol::default());
            // SAFETY: as above.
            let number =
                unsafe { sys::pe_c_find_pdb_symbol(kind, at, length, headers, size, entries, count, rva, &mut found) };
            (number == sys::DONE).then_some(found)
        };
        self.lookup.find(read, || self.made(sections), find)
    }

    /// The frame of a symbol.
    fn frame(&self, found: &sys::PdbSymbol, rva: u32) -> Option<SymbolFrame> {
        Some(SymbolFrame {
            name: text_of(found.name, &self.bytes).ok().filter(|it| !it.is_empty())?.into(),
            function_rva: found.rva,
            offset: rva.checked_sub(found.rva)?,
            file: None,
            line: None,
            column: None,
            is_inlined: false,
            is_public: false,
        })
    }
}

impl Lines {
    /// The lines of a module, of the bytes of its stream.
    fn of(bytes: &[u8], range: Range) -> Lines {
        let (at, length, mut files) = (bytes.as_ptr(), bytes.len(), Range::default());
        // SAFETY: as above.
        let found = returned(unsafe { sys::pe_c_pdb_files(at, length, &range, &mut files) }, ());
        let lookup = Lookup::new();
        lookup.refused.set(found.as_ref().err().copied());
        Lines { range, files: found.map(|it| it.map(|()| files)), lookup }
    }

    /// The line of an RVA.
    fn find(&self, bytes: &[u8], sections: &[u8], rva: u32) -> Option<PdbLine> {
        let (at, length, headers, size) = (bytes.as_ptr(), bytes.len(), sections.as_ptr(), sections.len());
        let read = || {
            let mut found = PdbLine::default();
            // SAFETY: as above.
            let number = unsafe { sys::pe_c_read_pdb_line(at, length, &self.range, headers, size, rva, &mut found) };
            returned(number, found)
        };
        let make = || {
            // SAFETY: as above.
            filled(count_in(&self.range, bytes, ROW), |room, entries, written| unsafe {
                sys::pe_c_pdb_lines(at, length, &self.range, headers, size, room, entries, written)
            })
        };
        let find = |index: &[LineEntry]| {
            let mut found = PdbLine::default();
            // SAFETY: as above.
            let number = unsafe { sys::pe_c_find_pdb_line(index.as_ptr(), index.len(), rva, &mut found) };
            (number == sys::DONE).then_some(found)
        };
        self.lookup.find(read, make, find)
    }
}

impl Read<'_> {
    /// The name of a source file. What is not UTF-8 is U+FFFD.
    fn file(&self, file: u32, names: &[u8]) -> Option<String> {
        let found = *self.files.borrow_mut().entry(file).or_insert_with(|| self.file_name(file, names));
        Some(String::from_utf8_lossy(found?.of(names)?).into_owned())
    }

    /// Where it is in the names.
    fn file_name(&self, file: u32, names: &[u8]) -> Option<Range> {
        let (bytes, mut name) = (&self.symbols.bytes, Range::default());
        let files = self.lines.files.ok()??;
        // SAFETY: as above.
        let number = unsafe {
            let (at, length) = (names.as_ptr(), names.len());
            sys::pe_c_pdb_file_name(bytes.as_ptr(), bytes.len(), &files, at, length, file, &mut name)
        };
        (number == sys::DONE).then_some(name)
    }

    /// Keeps why inlined functions are refused, of the first error.
    fn refuse_inlined(&self, error: Option<Error>) {
        self.inlined_error.set(self.inlined_error.get().or(error));
    }

    /// Writes the functions that are inlined at an RVA of a procedure to a room: the result, and how many there are.
    fn inlined(
        &self,
        module: &sys::PdbModule,
        (procedure, rva): (&sys::PdbSymbol, u32),
        ids: Option<&Ids<'_>>,
        room: &mut [PdbInlined],
    ) -> (u32, usize) {
        let (bytes, mut written) = (&self.symbols.bytes, 0);
        let (ids, starts): (&[u8], &[u64]) = ids.map_or((&[], &[]), |it| (&it.bytes, &it.starts));
        // SAFETY: as above, and the room overlaps no other argument.
        let number = unsafe {
            sys::pe_c_find_pdb_inlined(
                bytes.as_ptr(),
                bytes.len(),
                module,
                procedure,
                rva,
                ids.as_ptr(),
                ids.len(),
                starts.as_ptr(),
                starts.len(),
                room.as_mut_ptr(),
                room.len(),
                &mut written,
            )
        };
        (number, written as usize)
    }
}

impl<'p> Ids<'p> {
    fn of(pdb: &'p Pdb<'p>) -> Result<Ids<'p>, Error> {
        let bytes = pdb.stream_bytes(ID_STREAM)?;
        // SAFETY: as above.
        let starts = filled(bytes.len() / ID, |room, entries, written| unsafe {
            sys::pe_c_pdb_ids(bytes.as_ptr(), bytes.len(), room, entries, written)
        })?;
        Ok(Ids { bytes, starts })
    }

    /// The name of an inlined function, with the namespace that it is in.
    fn name(&self, inlined: &PdbInlined) -> Result<String, Error> {
        let (name, scope) = (text_of(inlined.name, &self.bytes)?, text_of(inlined.scope, &self.bytes)?);
        let between = if scope.is_empty() { "" } else { "::" };
        Ok([scope, between, name].concat())
    }
}

impl Pdb<'_> {
    /// Reads what names RVAs: the modules, and which RVAs are of which; the procedures and lines of a module when an RVA of it is asked for
    /// first, and the public functions when no procedure has an RVA. Where the section contributions do not say whose an RVA is, all modules
    /// are read then.
    ///
    /// A module that is refused costs its own names alone: [`Symbolizer::damaged`] has it. So does one whose stream, with those of the
    /// modules that were read before it, has more bytes than the file: no linker writes a block for two. Of public symbols that are refused
    /// [`Symbolizer::publics_error`] says so.
    ///
    /// # Errors
    ///
    /// Those of [`Pdb::omap`], of [`Pdb::modules`], of the stream of section headers, and [`Error::MEMORY`].
    pub fn symbolizer(&self) -> Result<Symbolizer<'_>, Error> {
        let sections = self.section_headers()?;
        let modules = self.modules()?.into_iter().map(|module| Module { module, read: OnceCell::new() });
        Ok(Symbolizer {
            pdb: self,
            omap: self.omap()?,
            sections,
            publics: OnceCell::new(),
            modules: modules.collect(),
            ranges: self.module_ranges().ok().and_then(ascending),
            starts: OnceCell::new(),
            left: Cell::new(self.bytes().len()),
            ids: OnceCell::new(),
            names: self.file_names(),
        })
    }
}

/// The ranges that have RVAs, in ascending order. `None` where there are none, or two have an RVA.
fn ascending(mut ranges: Vec<PdbModuleRange>) -> Option<Vec<PdbModuleRange>> {
    ranges.retain(|it| it.size > 0);
    ranges.sort_unstable_by_key(|it| it.start);
    let are_apart = ranges.windows(2).all(|it| u64::from(it[0].start) + u64::from(it[0].size) <= it[1].start.into());
    (are_apart && !ranges.is_empty()).then_some(ranges)
}

impl<'p> Symbolizer<'p> {
    /// What a module has, which is read once. `None` where it has no debug information, or is refused.
    fn read<'s>(&'s self, module: &'s Module<'p>) -> Option<&'s Read<'p>> {
        let stream = module.module.stream?;
        module.read.get_or_init(|| self.read_stream(stream, &module.module)).as_ref().ok()
    }

    fn read_stream(&self, stream: u16, module: &PdbModule) -> Result<Read<'p>, Error> {
        // Once there are too many bytes no stream is read: of a hostile file each module may have a long one.
        let bytes = if self.left.get() > 0 {
            self.pdb.stream_bytes(stream.into())?
        } else {
            return Err(Error::PDB_STREAM_SIZE);
        };
        let rest = self.left.get().checked_sub(bytes.len());
        self.left.set(rest.unwrap_or_default());
        rest.ok_or(Error::PDB_STREAM_SIZE)?;
        let symbols = Symbols::of(PROCEDURES, bytes, module.symbols());
        let lines = Lines::of(&symbols.bytes, module.lines());
        Ok(Read { symbols, lines, inlined_error: Cell::new(None), files: RefCell::default() })
    }

    /// The module that has an RVA: by the section contributions, else by the procedures of all modules.
    fn module_at(&self, rva: u32) -> Option<&Module<'p>> {
        let Some(ranges) = &self.ranges else {
            let starts = self.starts.get_or_init(|| self.all_starts());
            let after = starts.partition_point(|it| it.0 <= rva);
            return self.modules.get(starts.get(after.checked_sub(1)?)?.1);
        };
        let after = ranges.partition_point(|it| it.start <= rva);
        let range = ranges.get(after.checked_sub(1)?).filter(|it| rva - it.start < it.size)?;
        self.modules.get(range.module_index as usize)
    }

    /// The starts of all procedures: of several at one RVA, as a linker folds equal ones, that of the last module counts.
    fn all_starts(&self) -> Vec<(u32, usize)> {
        let read = self.modules.iter().enumerate().filter_map(|(number, it)| Some((number, self.read(it)?)));
        let mut starts: Vec<(u32, usize)> = read
            .filter_map(|(number, it)| Some((number, it.symbols.index(self.sections)?)))
            .flat_map(|(number, it)| it.iter().map(move |entry| ((entry >> 32) as u32, number)))
            .collect();
        starts.sort_unstable_by(|one, other| one.0.cmp(&other.0).then(other.1.cmp(&one.1)));
        starts.dedup_by_key(|it| it.0);
        starts
    }

    /// Why no public symbol names a function, if one was needed and they are refused.
    pub fn publics_error(&self) -> Option<Error> {
        let read = self.publics.get()?;
        read.as_ref().map_or_else(|error| Some(*error), |it| it.lookup.refused.get())
    }

    /// Why no source file has a name, if the stream with their names is refused.
    pub fn names_error(&self) -> Option<Error> {
        self.names.as_ref().err().copied()
    }

    /// Why no inlined function has a name, if one was found and the stream of ids is refused.
    pub fn ids_error(&self) -> Option<Error> {
        self.ids.get()?.as_ref().err().copied()
    }

    /// The modules that were read so far and are refused, or whose lines or inlined functions are.
    pub fn damaged(&self) -> Vec<DamagedModule> {
        let errors = |read: &Result<Read<'_>, Error>| match read {
            Err(error) => [Some((*error, false)), None],
            Ok(it) => match it.symbols.lookup.refused.get() {
                Some(error) => [Some((error, false)), None],
                None => [it.lines.lookup.refused.get(), it.inlined_error.get()].map(|it| Some((it?, true))),
            },
        };
        let damaged = self.modules.iter().filter_map(|it| Some((&it.module.name, errors(it.read.get()?))));
        let of = |name: &String, (error, has_names)| DamagedModule { name: name.clone(), error, has_names };
        damaged.flat_map(|(name, errors)| errors.into_iter().flatten().map(move |it| of(name, it))).collect()
    }

    /// The functions at an RVA, innermost first: those that are inlined there, and then the procedure that has the code. Where no procedure
    /// has it, the last public function before it, by [`SymbolFrame::is_public`]. Nothing where there is none.
    ///
    /// A return address is that after the call: ask for the byte before it, since a call may be the last instruction of a function.
    pub fn frames(&self, rva: u32) -> Vec<SymbolFrame> {
        let Some(omap) = &self.omap else { return self.linked_frames(rva) };
        let mut frames = omap.linked_rva(rva).map(|it| self.linked_frames(it)).unwrap_or_default();
        for it in &mut frames {
            // Where the start of a moved function is gone, it is by the distance.
            it.function_rva = omap.image_rva(it.function_rva).unwrap_or(rva.wrapping_sub(it.offset));
        }
        frames
    }

    /// Those at an RVA of the image as it was linked.
    fn linked_frames(&self, rva: u32) -> Vec<SymbolFrame> {
        self.procedure(rva).unwrap_or_else(|| self.public(rva).into_iter().collect())
    }

    fn procedure(&self, rva: u32) -> Option<Vec<SymbolFrame>> {
        let module = self.module_at(rva)?;
        let read = self.read(module)?;
        let found = read.symbols.find(self.sections, rva)?;
        let mut own = read.symbols.frame(&found, rva)?;
        if let Some(line) = read.lines.find(&read.symbols.bytes, self.sections, rva) {
            own.file = self.file(read, line.file);
            own.line = Some(line.line);
            own.column = u16::try_from(line.column).ok().filter(|it| *it != 0);
        }
        let mut frames = match self.inlined(read, &module.module, &found, rva) {
            Ok(inlined) => inlined.iter().map(|it| self.inlined_frame(read, it, &own)).collect(),
            Err(error) => {
                read.refuse_inlined(Some(error));
                Vec::new()
            }
        };
        frames.push(own);
        Some(frames)
    }

    fn file(&self, read: &Read<'_>, file: u32) -> Option<String> {
        read.file(file, self.names.as_ref().ok()?)
    }

    /// The functions that are inlined at an RVA of a procedure, the innermost first.
    fn inlined(
        &self,
        read: &Read<'_>,
        module: &PdbModule,
        procedure: &sys::PdbSymbol,
        rva: u32,
    ) -> Result<Vec<PdbInlined>, Error> {
        let module = sys::PdbModule { symbols: module.symbols(), lines: module.lines(), ..sys::PdbModule::default() };
        let find = |ids: Option<&Ids<'_>>, room: &mut [PdbInlined]| read.inlined(&module, (procedure, rva), ids, room);
        // Most RVAs have none: the ids are read when one has.
        if find(None, &mut []).0 == sys::DONE {
            return Ok(Vec::new());
        }
        let ids = self.ids.get_or_init(|| Ids::of(self.pdb)).as_ref().ok();
        let mut room = [PdbInlined::default(); MOST_INLINED];
        let (number, count) = find(ids, &mut room);
        Error::of(number).map(|()| room[..count].to_vec())
    }

    /// The frame of an inlined function, in the procedure of another frame.
    fn inlined_frame(&self, read: &Read<'_>, inlined: &PdbInlined, own: &SymbolFrame) -> SymbolFrame {
        let refused = |number| (![sys::DONE, sys::NOTHING].contains(&number)).then(|| Error::with_number(number));
        // Without ids no function has a name, which is said once.
        let ids = self.ids.get().and_then(|it| it.as_ref().ok());
        read.refuse_inlined(ids.and_then(|_| refused(inlined.name_result)).or(refused(inlined.line_result)));
        let (has_name, has_line) = (inlined.name_result == sys::DONE, inlined.line_result == sys::DONE);
        SymbolFrame {
            name: ids.filter(|_| has_name).and_then(|it| it.name(inlined).ok()).unwrap_or_default(),
            file: has_line.then(|| self.file(read, inlined.file)).flatten(),
            line: has_line.then_some(inlined.line),
            column: None,
            is_inlined: true,
            ..*own
        }
    }

    fn public(&self, rva: u32) -> Option<SymbolFrame> {
        let publics = self.publics.get_or_init(|| self.read_publics()).as_ref().ok()?;
        let found = publics.find(self.sections, rva)?;
        Some(SymbolFrame { is_public: true, ..publics.frame(&found, rva)? })
    }

    fn read_publics(&self) -> Result<Symbols<'p>, Error> {
        let bytes = self.pdb.symbol_stream()?;
        let all = Range { offset: 0, length: bytes.len() as u64 };
        Ok(Symbols::of(PUBLICS, bytes, all))
    }
}
