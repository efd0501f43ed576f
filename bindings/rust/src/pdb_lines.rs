//! The lines of a module of a PDB, all of them, with the source files that they are of.

use crate::image::{returned, Error};
use crate::pdb::{count_in, filled, Pdb, PdbModule, ROW};
use crate::sys::{self, PdbLineEntry, Range};
use alloc::collections::BTreeMap;
use alloc::string::String;
use alloc::vec::Vec;

/// Lines that say of code that it has none.
const NO_LINES: [u32; 3] = [0, 0xF0_0F00, 0xFE_EFEE];
/// How many times the bytes of a stream are read for names of source files: many of a hostile one may be one long text.
const READINGS: usize = 4;

/// A line of a source file, and its code.
#[derive(Clone, Copy, Debug, Default, PartialEq, Eq)]
#[cfg_attr(feature = "serde", derive(serde::Serialize))]
#[non_exhaustive]
pub struct PdbLine {
    /// Where its code starts.
    pub rva: u32,
    /// How many bytes of code there are from there to the end of the subsection; the line's own may end before, at the next row.
    pub code_size: u32,
    /// The source file, an index of [`PdbLines::files`]. `None` where its name is refused.
    pub file: Option<u32>,
    /// The line, from 1 on. `None` of code that has none.
    pub line: Option<u32>,
    /// The column, from 1 on.
    pub column: Option<u32>,
}

/// The lines of a module.
///
/// ```
/// # #[path = "../tests/made/mod.rs"] mod made;
/// # let bytes = made::pdb();
/// let pdb = pe_c::Pdb::parse(&bytes)?;
/// let (modules, names) = (pdb.modules()?, pdb.source_names()?);
/// let found = pdb.lines(&modules[0], &names)?;
/// assert_eq!(found.files, ["a.c"]);
/// # Ok::<(), pe_c::Error>(())
/// ```
#[derive(Clone, Debug, Default, PartialEq, Eq)]
#[cfg_attr(feature = "serde", derive(serde::Serialize))]
#[non_exhaustive]
pub struct PdbLines {
    /// By their RVAs; of several at one RVA the last counts.
    pub lines: Vec<PdbLine>,
    /// The paths of the source files that lines have. What is not UTF-8 is U+FFFD.
    pub files: Vec<String>,
    /// Whether names of files are left out, since they are longer together than the bytes of their streams account for.
    pub is_limited: bool,
}

/// The names of all source files of a PDB: see [`Pdb::source_names`].
#[derive(Clone, Debug)]
pub struct SourceNames(Vec<u8>);

impl Pdb<'_> {
    /// The names of all source files, for [`Pdb::lines`]. Read them once: each time the stream with them is copied.
    ///
    /// # Errors
    ///
    /// Those of [`Pdb::stream`]; [`Error::SHORT`], [`Error::PDB_RECORD_TRUNCATED`] of the table of named streams.
    pub fn source_names(&self) -> Result<SourceNames, Error> {
        self.names_stream()?.map_or(Ok(Vec::new()), |number| self.stream(number)).map(SourceNames)
    }

    /// The lines of a module, none of one without a stream. Each call reads that stream.
    ///
    /// # Errors
    ///
    /// Those of [`Pdb::dbi`] and [`Pdb::stream`]; [`Error::PDB_SECTION_HEADERS`]; [`Error::SHORT`], [`Error::PDB_SYMBOLS_SIZE`],
    /// [`Error::PDB_RECORD_TRUNCATED`]; [`Error::MEMORY`].
    pub fn lines(&self, module: &PdbModule, names: &SourceNames) -> Result<PdbLines, Error> {
        let Some(stream) = module.stream else { return Ok(PdbLines::default()) };
        let (bytes, range, sections) = (self.stream_bytes(stream.into())?, module.lines(), self.section_headers()?);
        let mut files = Range::default();
        // SAFETY: the pointers and lengths are those of slices; the records are lent for the call.
        returned(unsafe { sys::pe_c_pdb_files(bytes.as_ptr(), bytes.len(), &range, &mut files) }, ())?;
        // SAFETY: as above, and the room overlaps no other argument.
        let room = filled(count_in(&range, &bytes, ROW), |room, entries, written| unsafe {
            let (at, length) = (bytes.as_ptr(), bytes.len());
            sys::pe_c_pdb_lines(at, length, &range, sections.as_ptr(), sections.len(), room, entries, written)
        })?;
        Ok(Files::new(&bytes, files, &names.0).lines_of(&room))
    }
}

/// The source files of a module, by their numbers.
struct Files<'b> {
    bytes: &'b [u8],
    files: Range,
    names: &'b [u8],
    known: BTreeMap<u32, Option<u32>>,
    found: PdbLines,
    left: usize,
}

impl<'b> Files<'b> {
    fn new(bytes: &'b [u8], files: Range, names: &'b [u8]) -> Self {
        let left = bytes.len().saturating_add(names.len()).saturating_mul(READINGS);
        Files { bytes, files, names, known: BTreeMap::new(), found: PdbLines::default(), left }
    }

    fn lines_of(mut self, entries: &[PdbLineEntry]) -> PdbLines {
        for entry in entries {
            let sys::PdbLine { rva, code_size, file, line, column } = entry.line;
            let file = self.index_of(file);
            let line = Some(line).filter(|it| !NO_LINES.contains(it));
            let column = Some(column).filter(|it| *it != 0);
            self.found.lines.push(PdbLine { rva, code_size, file, line, column });
        }
        self.found
    }

    /// The index of a source file.
    fn index_of(&mut self, file: u32) -> Option<u32> {
        if let Some(index) = self.known.get(&file) {
            return *index;
        }
        let name = self.name_of(file);
        let index = name.map(|name| {
            self.found.files.push(name);
            self.found.files.len() as u32 - 1
        });
        self.known.insert(file, index);
        index
    }

    /// Its name. That of one that is refused may have been sought up to the end of all names.
    fn name_of(&mut self, file: u32) -> Option<String> {
        if self.found.is_limited {
            return None;
        }
        let (bytes, names, mut name) = (self.bytes, self.names, Range::default());
        // SAFETY: as above.
        let number = unsafe {
            let (at, length) = (bytes.as_ptr(), bytes.len());
            sys::pe_c_pdb_file_name(at, length, &self.files, names.as_ptr(), names.len(), file, &mut name)
        };
        let found = name.of(names).filter(|_| number == sys::DONE);
        let cost = found.map_or(if number == Error::PDB_NAME.number() { names.len() } else { 0 }, <[u8]>::len);
        match self.left.checked_sub(cost) {
            Some(left) => self.left = left,
            None => self.found.is_limited = true,
        }
        found.filter(|_| !self.found.is_limited).map(|it| String::from_utf8_lossy(it).into_owned())
    }
}
