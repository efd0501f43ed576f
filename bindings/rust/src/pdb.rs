//! Program databases (PDB 7.0): files with the names and lines of an image that was linked with debug information. A PDB has streams,
//! scattered over blocks of the file: one says which PDB it is, one what the linker knows of the image, one has the symbols that all
//! objects see, and each module, an object that was linked, has one with its own. See [LLVM's pages](https://llvm.org/docs/PDB/).
//!
//! What most linkers write has the blocks of each stream one after the other: such a stream is read where it is in the file, and any other
//! one is copied first. Each is read alone: one that is damaged is an error of what is read of it.
//! [`Symbolizer`](crate::Symbolizer) names the function of an RVA.

use crate::coff::room_for;
use crate::debug::SymbolKey;
use crate::image::{bytes_of, returned, text_of, Error};
use crate::symbol_server::Guid;
use crate::sys::{self, PdbInfo, PdbModuleRange, Range};
use alloc::borrow::Cow;
use alloc::string::String;
use alloc::vec::Vec;
use core::fmt;

/// The info stream.
const INFO_STREAM: u32 = 1;
/// The DBI stream.
const DBI_STREAM: u32 = 3;
/// The number of no stream.
const NO_STREAM: u16 = 0xFFFF;
/// Where the names of streams start in the info stream.
const STREAM_NAMES: usize = 28;
/// A feature after which there is no other.
const VC110: u32 = 20091201;
/// The feature of /DEBUG:FASTLINK, the letters MINI.
const FASTLINK: u32 = 0x494E494D;
/// What an index has: public functions, or procedures.
pub(crate) const PUBLICS: u32 = 0;
pub(crate) const PROCEDURES: u32 = 1;
/// How many bytes a row of lines has.
pub(crate) const ROW: usize = 8;
/// How many records a call lists.
const AT_ONCE: usize = 64;

/// A PDB.
///
/// ```
/// # #[path = "../tests/made/mod.rs"] mod made;
/// # let bytes = made::pdb();
/// let pdb = pe_c::Pdb::parse(&bytes)?;
/// println!("{}", pdb.key("t.pdb"));
/// let names: Vec<_> = pdb.modules()?.into_iter().map(|it| it.name).collect();
/// assert_eq!(names, ["a.obj", "b.obj", "* Linker *"]);
/// # Ok::<(), pe_c::Error>(())
/// ```
#[derive(Clone)]
pub struct Pdb<'a> {
    bytes: &'a [u8],
    info: PdbInfo,
    starts: Vec<u64>,
    sections: Result<Cow<'a, [u8]>, Error>,
    reader: Option<&'a dyn PdbReader>,
}

/// What reads the file of a PDB that is not in memory whole: see [`Pdb::with_reader`].
pub trait PdbReader: Sync {
    /// The bytes of a range of the file.
    ///
    /// # Errors
    ///
    /// Any, as [`Error::SHORT`] where they cannot be read: that of what is read of their stream.
    fn part(&self, range: core::ops::Range<usize>) -> Result<Vec<u8>, Error>;

    /// All bytes of the file: they are asked for where the blocks of a stream do not follow one another.
    ///
    /// # Errors
    ///
    /// As those of a part.
    fn whole(&self) -> Result<&[u8], Error>;
}

impl fmt::Debug for Pdb<'_> {
    fn fmt(&self, f: &mut fmt::Formatter<'_>) -> fmt::Result {
        f.debug_struct("Pdb").field("info", &self.info).finish_non_exhaustive()
    }
}

/// A module of a PDB, an object that was linked.
#[derive(Clone, Debug, Default, PartialEq, Eq)]
#[cfg_attr(feature = "serde", derive(serde::Serialize))]
#[non_exhaustive]
pub struct PdbModule {
    /// The path of the object, or `* Linker *`. What is not UTF-8 is U+FFFD.
    pub name: String,
    /// The path of the library that it is from, or of the object.
    pub file: String,
    /// Its stream. `None` without debug information.
    pub stream: Option<u16>,
    /// The size of its symbols in bytes.
    pub symbols_size: u32,
    /// The size of its lines in bytes.
    pub lines_size: u32,
    /// The number of its source files.
    pub number_of_files: u16,
    /// The number of the section of its first code, from 1 on.
    pub section: u16,
    /// Where that is in the section.
    pub code_offset: u32,
    /// How many bytes that is.
    pub code_size: u32,
    #[cfg_attr(feature = "serde", serde(skip))]
    symbols: Range,
    #[cfg_attr(feature = "serde", serde(skip))]
    lines: Range,
}

/// A public symbol or a procedure of a PDB.
#[derive(Clone, Debug, Default, PartialEq, Eq)]
#[cfg_attr(feature = "serde", derive(serde::Serialize))]
#[non_exhaustive]
pub struct PdbSymbol {
    /// Of a public symbol as linkers have it: those of C++ and Rust mangled; of a procedure as in the source. Empty after an error.
    pub name: String,
    /// Its RVA. `None` in no section of the image, as of numbers that have names.
    pub rva: Option<u32>,
    /// The size of a procedure's code in bytes. 0 of a public symbol, which does not say it.
    pub size: u32,
    /// Whether it is a function: any procedure, and a public symbol that says so.
    pub is_function: bool,
    /// What its record says: `S_PUB32` 0x110E, `S_LPROC32` 0x110F, `S_GPROC32` 0x1110, and of objects 0x1146 and 0x1147.
    pub kind: u16,
    /// The number of its section, from 1 on.
    pub section: u16,
    /// The offset in the section.
    pub section_offset: u32,
    /// Why the record is refused: it is truncated, or its name is not UTF-8.
    pub error: Option<Error>,
}

/// The kind of the record of a public symbol.
const S_PUB32: u16 = 0x110E;

/// The kinds of those of procedures.
const PROCEDURE_KINDS: [u16; 4] = [0x110F, 0x1110, 0x1146, 0x1147];

impl PdbSymbol {
    fn of(found: &sys::PdbSymbol, bytes: &[u8]) -> Result<PdbSymbol, Error> {
        let is_public = found.kind == S_PUB32;
        Ok(PdbSymbol {
            name: text_of(found.name, bytes)?.into(),
            rva: (found.result == sys::DONE).then_some(found.rva),
            size: found.size,
            is_function: !is_public || found.flags & 2 != 0,
            kind: found.kind,
            section: found.section,
            section_offset: found.section_offset,
            error: match found.result {
                sys::DONE | sys::NOTHING => None,
                number => Some(Error::with_number(number)),
            },
        })
    }
}

/// Where the code of an image is that a tool moved after it was linked (OMAP), and where it was then: see [`Pdb::omap`].
#[derive(Clone, Debug, PartialEq, Eq)]
pub struct Omap {
    to_source: Vec<u8>,
    from_source: Vec<u8>,
}

impl Omap {
    /// Where the code at an RVA of the image was when it was linked, from which symbols and lines count. `None` where it was nowhere.
    pub fn linked_rva(&self, rva: u32) -> Option<u32> {
        moved(&self.to_source, rva)
    }

    /// Where the code is in the image that was at an RVA when it was linked. `None` where it is nowhere.
    pub fn image_rva(&self, linked_rva: u32) -> Option<u32> {
        moved(&self.from_source, linked_rva)
    }
}

/// A copy of a stream.
fn copy_of_stream(bytes: &[u8], starts: &[u64], number: u32) -> Result<Vec<u8>, Error> {
    // SAFETY: the pointers and lengths are those of slices; the room overlaps none of them, and all are lent for the call.
    filled(0, |room, length, written| unsafe {
        let (at, size) = (bytes.as_ptr(), bytes.len());
        sys::pe_c_pdb_stream(at, size, starts.as_ptr(), starts.len(), number, room, length, written)
    })
}

/// Where a stream is in the file, if its blocks follow one another.
fn range_of_stream(bytes: &[u8], starts: &[u64], number: u32) -> Result<Option<Range>, Error> {
    let mut range = Range::default();
    // SAFETY: as above, and the range is lent for the call.
    let result = unsafe {
        let (at, size) = (bytes.as_ptr(), bytes.len());
        sys::pe_c_pdb_stream_range(at, size, starts.as_ptr(), starts.len(), number, &mut range)
    };
    returned(result, range)
}

fn moved(table: &[u8], rva: u32) -> Option<u32> {
    let mut found = 0;
    // SAFETY: the pointer and the length are those of one slice; the number is lent for the call.
    let number = unsafe { sys::pe_c_pdb_moved_rva(table.as_ptr(), table.len(), rva, &mut found) };
    (number == sys::DONE).then_some(found)
}

/// A stream of a number, unless that is none.
fn stream_number(number: u16) -> Option<u16> {
    (number != NO_STREAM).then_some(number)
}

impl<'a> Pdb<'a> {
    /// Reads what the file says of itself, and where the directory lists the streams.
    ///
    /// # Errors
    ///
    /// [`Error::SHORT`]; [`Error::PDB20`], [`Error::PDB_PORTABLE`], [`Error::PDB_MAGIC`]; [`Error::PDB_BLOCK_SIZE`];
    /// [`Error::PDB_FILE_SIZE`]; [`Error::PDB_BLOCK_MAP`], [`Error::PDB_BLOCK`], [`Error::PDB_DIRECTORY`]; of the info stream
    /// [`Error::PDB_NO_STREAM`], [`Error::PDB_STREAM_SIZE`], [`Error::PDB_INFO_VERSION`]; [`Error::MEMORY`] where there is no memory for 8
    /// bytes for each stream.
    pub fn parse(bytes: &'a [u8]) -> Result<Self, Error> {
        let mut info = PdbInfo::default();
        // SAFETY: the pointer and the length are those of one slice; the record is lent for the call.
        Error::of(unsafe { sys::pe_c_pdb(bytes.as_ptr(), bytes.len(), &mut info) })?;
        let (mut starts, mut written) = (room_for(info.number_of_streams as usize, 0u64)?, 0);
        // SAFETY: as above, and the room is an array of so many numbers.
        Error::of(unsafe {
            let (room, entries) = (starts.as_mut_ptr(), starts.len());
            sys::pe_c_pdb_starts(bytes.as_ptr(), bytes.len(), room, entries, &mut written)
        })?;
        let mut pdb = Pdb { bytes, info, starts, sections: Ok(Cow::default()), reader: None };
        // Symbols of code that was moved count in the headers of before, and in no others.
        pdb.sections = pdb.dbi().and_then(|()| match pdb.is_moved() {
            true => pdb.stream_bytes(info.original_section_headers.into()),
            false => pdb.stream_or_none(info.section_headers),
        });
        Ok(pdb)
    }

    /// The same PDB, of whose file the bytes have the directory, the streams 1 and 3 and that of the section headers: other streams are
    /// read by this. So of a large file the parts are read that are needed. [`Pdb::stream_range`] says where streams are.
    #[must_use]
    pub fn with_reader(self, reader: &'a dyn PdbReader) -> Self {
        Pdb { reader: Some(reader), ..self }
    }

    /// Where the bytes of the stream with a number are in a file, in their order. `None` where its blocks do not follow one another. It
    /// reads the directory, and no block of the stream.
    ///
    /// # Errors
    ///
    /// Those of [`Pdb::stream`], and of the directory [`Pdb::parse`].
    pub fn stream_range(bytes: &[u8], number: u32) -> Result<Option<core::ops::Range<usize>>, Error> {
        let found = range_of_stream(bytes, &[], number)?;
        Ok(found.map(|it| it.offset as usize..(it.offset + it.length) as usize))
    }

    /// What reads a stream, if it is not one of those that the bytes of a PDB always have.
    fn reader_of(&self, number: u32) -> Option<&'a dyn PdbReader> {
        self.reader.filter(|_| ![INFO_STREAM, DBI_STREAM].contains(&number))
    }

    /// The bytes of a stream: those of the file where its blocks follow one another, else a copy.
    pub(crate) fn stream_bytes(&self, number: u32) -> Result<Cow<'a, [u8]>, Error> {
        let range = range_of_stream(self.bytes, &self.starts, number)?;
        match (self.reader_of(number), range) {
            (Some(reader), Some(it)) => {
                reader.part(it.offset as usize..(it.offset + it.length) as usize).map(Cow::Owned)
            }
            (Some(reader), None) => copy_of_stream(reader.whole()?, &self.starts, number).map(Cow::Owned),
            (None, Some(it)) => it.of(self.bytes).map(Cow::Borrowed).ok_or(Error::SHORT),
            (None, None) => copy_of_stream(self.bytes, &self.starts, number).map(Cow::Owned),
        }
    }

    /// The bytes of a stream, none without it.
    fn stream_or_none(&self, number: u16) -> Result<Cow<'a, [u8]>, Error> {
        stream_number(number).map_or(Ok(Cow::default()), |number| self.stream_bytes(number.into()))
    }

    /// The bytes of the file.
    pub fn bytes(&self) -> &'a [u8] {
        self.bytes
    }

    /// What the file says of itself. Where its DBI stream is refused `dbi_result` is not 0.
    pub fn info(&self) -> &PdbInfo {
        &self.info
    }

    /// Why the DBI stream is refused: then there are no modules, no symbols, and no key.
    ///
    /// # Errors
    ///
    /// The error of the stream: [`Error::PDB_NO_STREAM`], [`Error::PDB_STREAM_SIZE`], [`Error::PDB_DIRECTORY`], [`Error::PDB_BLOCK`];
    /// [`Error::SHORT`]; [`Error::PDB_DBI_SIGNATURE`]; [`Error::PDB_DBI_VERSION`]; [`Error::PDB_DBI_PARTS`].
    pub fn dbi(&self) -> Result<(), Error> {
        Error::of(self.info.dbi_result)
    }

    /// Whether a tool moved the code of the image after it was linked (OMAP). Then RVAs of symbols are those before that: [`Pdb::omap`]
    /// maps them.
    pub fn is_moved(&self) -> bool {
        [self.info.omap_to_source, self.info.omap_from_source].map(stream_number) != [None, None]
    }

    /// Where code is that a tool moved after the link. `None` where none did.
    ///
    /// # Errors
    ///
    /// Those of [`Pdb::stream`], also where one of the two tables is not there.
    pub fn omap(&self) -> Result<Option<Omap>, Error> {
        if !self.is_moved() {
            return Ok(None);
        }
        let [to_source, from_source] = [self.info.omap_to_source, self.info.omap_from_source];
        Ok(Some(Omap { to_source: self.stream(to_source.into())?, from_source: self.stream(from_source.into())? }))
    }

    /// Whether it was linked with /DEBUG:FASTLINK: then symbols and lines are in the objects, and it has hardly more than the public
    /// symbols. A feature of the info stream says so, after the names of streams. `false` where that stream is damaged.
    pub fn is_fastlink(&self) -> bool {
        let info = self.stream_bytes(INFO_STREAM).unwrap_or_default();
        features_of(&info).is_some_and(|features| features.take_while(|it| *it != VC110).any(|it| it == FASTLINK))
    }

    /// The key by which an image names a PDB of this file name, with its path on a symbol server. A PDB does not know its own name.
    pub fn key<'n>(&self, file_name: &'n str) -> SymbolKey<'n> {
        SymbolKey::new(Guid(self.info.guid), self.info.dbi_age, file_name.as_bytes())
    }

    /// Whether it is the PDB of an image with this key: by the GUID and the age of the DBI stream. `false` where that is refused.
    pub fn matches(&self, key: &SymbolKey<'_>) -> bool {
        let key = sys::Key { guid: key.guid.0, age: key.age, ..sys::Key::default() };
        // SAFETY: both records are lent for the call.
        unsafe { sys::pe_c_is_pdb_of(&key, &self.info) == sys::DONE }
    }

    /// A copy of the stream with a number.
    ///
    /// # Errors
    ///
    /// [`Error::PDB_NO_STREAM`]; [`Error::PDB_STREAM_SIZE`]; [`Error::PDB_DIRECTORY`]; [`Error::PDB_BLOCK`]; [`Error::MEMORY`].
    pub fn stream(&self, number: u32) -> Result<Vec<u8>, Error> {
        match self.reader_of(number) {
            Some(_) => self.stream_bytes(number).map(Cow::into_owned),
            None => copy_of_stream(self.bytes, &self.starts, number),
        }
    }

    /// Which RVAs are of which module, in the order of the section contributions.
    pub(crate) fn module_ranges(&self) -> Result<Vec<PdbModuleRange>, Error> {
        let (dbi, sections) = (self.stream_bytes(DBI_STREAM)?, self.section_headers()?);
        // SAFETY: as above.
        filled(0, |room, entries, written| unsafe {
            let (headers, size, contributions) = (sections.as_ptr(), sections.len(), &self.info.contributions);
            sys::pe_c_pdb_module_ranges(dbi.as_ptr(), dbi.len(), contributions, headers, size, room, entries, written)
        })
    }

    /// The modules, in the order of the DBI stream.
    ///
    /// # Errors
    ///
    /// Those of [`Pdb::dbi`]; [`Error::SHORT`], [`Error::PDB_NAME`]; [`Error::MEMORY`].
    pub fn modules(&self) -> Result<Vec<PdbModule>, Error> {
        self.dbi()?;
        let dbi = self.stream_bytes(DBI_STREAM)?;
        let mut modules = Vec::new();
        let mut walk = self.info.modules;
        let mut entries = room_for(AT_ONCE, sys::PdbModule::default())?;
        loop {
            let mut written = 0;
            // SAFETY: the pointers and lengths are those of slices, the walk and the number are lent for the call.
            Error::of(unsafe {
                let (room, count) = (entries.as_mut_ptr(), entries.len());
                sys::pe_c_list_pdb_modules(dbi.as_ptr(), dbi.len(), &mut walk, room, count, &mut written)
            })?;
            if written == 0 {
                return Ok(modules);
            }
            for module in entries.iter().take(written as usize) {
                modules.push(module_of(module, &dbi)?);
            }
        }
    }

    /// The section headers of the image, no bytes without them: then no symbol has an RVA.
    pub(crate) fn section_headers(&self) -> Result<&[u8], Error> {
        self.sections.as_deref().map_err(|error| *error)
    }

    /// The stream of symbols that all objects see, no bytes without one.
    pub(crate) fn symbol_stream(&self) -> Result<Cow<'a, [u8]>, Error> {
        self.dbi()?;
        self.stream_or_none(self.info.symbol_stream)
    }

    /// The number of the stream with the names of all source files.
    pub(crate) fn names_stream(&self) -> Result<Option<u32>, Error> {
        let (info, name, mut number) = (self.stream_bytes(INFO_STREAM)?, b"/names", 0);
        // SAFETY: the pointers and lengths are those of slices; the number is lent for the call.
        let result =
            unsafe { sys::pe_c_pdb_named_stream(info.as_ptr(), info.len(), name.as_ptr(), name.len(), &mut number) };
        returned(result, number)
    }

    /// Its bytes, none without one.
    pub(crate) fn file_names(&self) -> Result<Cow<'a, [u8]>, Error> {
        self.names_stream()?.map_or(Ok(Cow::default()), |number| self.stream_bytes(number))
    }

    /// The public symbols, in the order of their records.
    ///
    /// # Errors
    ///
    /// Those of [`Pdb::dbi`] and [`Pdb::stream`]; [`Error::PDB_SECTION_HEADERS`]; [`Error::SHORT`], [`Error::PDB_RECORD_SIZE`],
    /// [`Error::PDB_RECORD_TRUNCATED`] where a record is not whole.
    pub fn publics(&self) -> Result<Vec<PdbSymbol>, Error> {
        let bytes = self.symbol_stream()?;
        let all = Range { offset: 0, length: bytes.len() as u64 };
        self.symbols(&bytes, all, &[S_PUB32])
    }

    /// The procedures of a module, in the order of their records. None of a module without a stream. Each call reads that stream, and
    /// modules of a hostile PDB may all have one that is as long as the file.
    ///
    /// # Errors
    ///
    /// Those of [`Pdb::publics`]; [`Error::SHORT`] where its symbols end past its stream.
    pub fn procedures(&self, module: &PdbModule) -> Result<Vec<PdbSymbol>, Error> {
        let Some(stream) = module.stream else { return Ok(Vec::new()) };
        let bytes = self.stream_bytes(stream.into())?;
        self.symbols(&bytes, module.symbols, &PROCEDURE_KINDS)
    }

    /// The symbols of these kinds.
    fn symbols(&self, bytes: &[u8], mut walk: Range, kinds: &[u16]) -> Result<Vec<PdbSymbol>, Error> {
        let sections = self.section_headers()?;
        let mut symbols = Vec::new();
        let mut entries = room_for(AT_ONCE, sys::PdbSymbol::default())?;
        loop {
            let mut written = 0;
            // SAFETY: as in `modules`.
            Error::of(unsafe {
                let (room, count) = (entries.as_mut_ptr(), entries.len());
                sys::pe_c_list_pdb_symbols(
                    bytes.as_ptr(),
                    bytes.len(),
                    sections.as_ptr(),
                    sections.len(),
                    &mut walk,
                    room,
                    count,
                    &mut written,
                )
            })?;
            if written == 0 {
                return Ok(symbols);
            }
            for symbol in entries.iter().take(written as usize).filter(|it| kinds.contains(&it.kind)) {
                symbols.push(PdbSymbol::of(symbol, bytes)?);
            }
        }
    }
}

/// How many entries of so many bytes are in a range, if it is in the bytes.
pub(crate) fn count_in(range: &Range, bytes: &[u8], size: usize) -> usize {
    bytes.len().min(usize::try_from(range.length).unwrap_or(usize::MAX)) / size
}

/// What a call writes to a room, in one of as many entries as it asks for. The first one has so many: where these are enough the call does
/// not read all twice.
pub(crate) fn filled<T: Copy>(first: usize, call: impl Fn(*mut T, usize, &mut u64) -> u32) -> Result<Vec<T>, Error> {
    let (mut room, mut most, mut written) = (Vec::new(), first, 0);
    room.try_reserve_exact(most).map_err(|_| Error::MEMORY)?;
    let mut number = call(room.as_mut_ptr(), most, &mut written);
    if number == sys::ROOM {
        most = usize::try_from(written).map_err(|_| Error::MEMORY)?;
        room.try_reserve_exact(most).map_err(|_| Error::MEMORY)?;
        number = call(room.as_mut_ptr(), most, &mut written);
    }
    Error::of(number)?;
    // SAFETY: the call wrote so many items, of the `most` that the room has place for.
    unsafe { room.set_len(most.min(written as usize)) };
    Ok(room)
}

/// The features at the end of an info stream: numbers after the table of the names of streams. Others among them mean nothing.
fn features_of(info: &[u8]) -> Option<impl Iterator<Item = u32> + '_> {
    let word = |at: usize| Some(u32::from_le_bytes(info.get(at..at.checked_add(4)?)?.try_into().ok()?));
    let after = |at: usize, count: u32, size: usize| at.checked_add(size.checked_mul(count as usize)?);
    let table = after(STREAM_NAMES + 4, word(STREAM_NAMES)?, 1)?;
    let present = table + 8;
    let deleted = after(present + 4, word(present)?, 4)?;
    let pairs = after(deleted.checked_add(4)?, word(deleted)?, 4)?;
    let features = info.get(after(pairs, word(table)?, 8)?..)?;
    Some(features.chunks_exact(4).map(|it| u32::from_le_bytes([it[0], it[1], it[2], it[3]])))
}

fn lossy(range: Range, bytes: &[u8]) -> Result<String, Error> {
    bytes_of(range, bytes).map(|it| String::from_utf8_lossy(it).into_owned())
}

fn module_of(module: &sys::PdbModule, dbi: &[u8]) -> Result<PdbModule, Error> {
    Ok(PdbModule {
        name: lossy(module.name, dbi)?,
        file: lossy(module.file, dbi)?,
        stream: stream_number(module.stream),
        symbols_size: module.symbols.length as u32,
        lines_size: module.lines.length as u32,
        number_of_files: module.number_of_files,
        section: module.section,
        code_offset: module.code_offset,
        code_size: module.code_size,
        symbols: module.symbols,
        lines: module.lines,
    })
}

impl PdbModule {
    /// Where its symbols are in its stream.
    pub(crate) fn symbols(&self) -> Range {
        self.symbols
    }

    /// Where its lines are.
    pub(crate) fn lines(&self) -> Range {
        self.lines
    }
}
