//! COFF objects, the output of a compiler, and the COFF symbols that images of mingw-w64 and Go have too. An object starts with
//! the COFF header; the section headers follow it. The header says where the symbol table is, entries of 18 bytes, each a symbol
//! or an auxiliary record of the symbol before. The string table with the longer names follows it. See
//! [Microsoft's page](https://learn.microsoft.com/windows/win32/debug/pe-format#coff-symbol-table).

use crate::failure::{found, Failure};
use crate::image::{bytes_of, returned, text_of, Error, Image, Layout};
use crate::section_names::long_names;
use crate::shown;
use crate::sys::{self, CoffHeader, ImageInfo, Section};
use crate::walk::{ask_of_bytes, look};
use alloc::vec::Vec;
use core::fmt;
use core::iter::FusedIterator;
use core::ops::Range;

/// A COFF object: its header and its sections. The symbols and the string table are read when they are asked for.
///
/// ```
/// # #[path = "../tests/made/mod.rs"] mod made;
/// # let bytes = made::object();
/// use pe_c::Coff;
///
/// let object = Coff::parse(&bytes)?;
/// assert_eq!(object.header().machine, 0x8664);
/// let mut names = Vec::new();
/// for symbol in object.symbols()?.into_iter().flatten() {
///     let symbol = symbol?;
///     if symbol.section_number == 1 {
///         names.push((symbol.name()?, symbol.value));
///     }
/// }
/// assert_eq!(names, [("longer_than_eight", 1), (".text", 0)]);
/// # Ok::<(), pe_c::Error>(())
/// ```
#[derive(Clone)]
pub struct Coff<'a> {
    bytes: &'a [u8],
    header: CoffHeader,
    sections: Vec<Section>,
}

impl fmt::Debug for Coff<'_> {
    fn fmt(&self, f: &mut fmt::Formatter<'_>) -> fmt::Result {
        f.debug_struct("Coff")
            .field("header", &self.header)
            .field("sections", &shown::Sections(&self.sections))
            .finish()
    }
}

impl<'a> Coff<'a> {
    /// Reads the header and the section headers of an object. Any bytes start with such a header: look at its `machine`.
    ///
    /// # Errors
    ///
    /// [`Error::SHORT`] of the header; [`Error::MEMORY`] where the section headers cannot be allocated, at most 65,535 of 40
    /// bytes; [`Error::SHORT`] where they are truncated.
    pub fn parse(bytes: &'a [u8]) -> Result<Self, Error> {
        let mut header = CoffHeader::default();
        // SAFETY: the pointer and the length are those of one slice; the record is lent for the call.
        Error::of(unsafe { sys::pe_c_coff(bytes.as_ptr(), bytes.len(), &mut header) })?;
        let headers = section_headers(&header);
        let sections = sections_of(header.number_of_sections.into(), |room, count| {
            // SAFETY: as above, and of the vector.
            unsafe { sys::pe_c_sections(bytes.as_ptr(), bytes.len(), &headers, room, count) }
        })?;
        Ok(Coff { bytes, header, sections })
    }

    /// The bytes of the object.
    pub fn bytes(&self) -> &'a [u8] {
        self.bytes
    }

    /// The header.
    pub fn header(&self) -> &CoffHeader {
        &self.header
    }

    /// The section headers, in the order of the file.
    pub fn sections(&self) -> &[Section] {
        &self.sections
    }

    /// The symbols. `None` where the header's pointer to them is 0: a table without symbols may be followed by a string table.
    ///
    /// # Errors
    ///
    /// [`Error::SHORT`] where they are truncated; [`Error::STRING_TABLE`] where the string table is.
    pub fn symbols(&self) -> Result<Option<Symbols<'a>>, Error> {
        symbols_of(self.bytes, &self.header)
    }

    /// The string table, from its size field on. `None` where the header's pointer to the symbols is 0, and where the bytes end
    /// after these.
    ///
    /// # Errors
    ///
    /// Those of [`Coff::symbols`].
    pub fn string_table(&self) -> Result<Option<&'a [u8]>, Error> {
        let Some(range) = ask_of_bytes(self.bytes, sys::pe_c_coff_strings, &self.header)? else { return Ok(None) };
        Ok(Some(bytes_of(range, self.bytes)?))
    }

    /// The name of a section in the string table, without its final zero. `None` where the header has the name itself,
    /// [`Section::name`]; where there is no string table; and where no string is at the offset, NUL-terminated and UTF-8.
    ///
    /// # Errors
    ///
    /// Those of [`Coff::symbols`].
    pub fn long_section_name(&self, section: &Section) -> Result<Option<&'a str>, Error> {
        let Some(table) = ask_of_bytes(self.bytes, sys::pe_c_coff_strings, &self.header)? else { return Ok(None) };
        let name: Option<sys::Range> =
            look(self.bytes, sys::pe_c_long_section_name, &table, section as *const Section)?;
        name.map(|range| text_of(range, self.bytes)).transpose()
    }

    /// The same of each section, in the order of the sections. The names are read together: [`Coff::long_section_name`] reads one
    /// to its end each time, and a hostile object may let those of all sections start in one long string.
    ///
    /// # Errors
    ///
    /// Those of [`Coff::symbols`]; [`Error::MEMORY`].
    pub fn long_section_names(&self) -> Result<Vec<Option<&'a str>>, Error> {
        let table = ask_of_bytes(self.bytes, sys::pe_c_coff_strings, &self.header)?;
        // The call reads no field of the image.
        let image = sys::ImageInfo::default();
        let view = sys::View::of(self.bytes, &image, &self.sections, &[]);
        // SAFETY: the view is of what is borrowed here.
        unsafe { long_names(&view, self.bytes, table) }
    }
}

impl<'a> Image<'a> {
    /// The COFF symbols, which images of mingw-w64 and Go have. `None` where the header's pointer to them is 0, and in an image
    /// as loaded.
    ///
    /// # Errors
    ///
    /// [`Error::SHORT`] where they are truncated; [`Error::STRING_TABLE`] where the string table is.
    pub fn symbols(&self) -> Result<Option<Symbols<'a>>, Error> {
        match self.layout() {
            Layout::File => symbols_of(self.bytes(), &self.headers()?.coff),
            _ => Ok(None),
        }
    }
}

/// So many records, for a call to fill.
pub(crate) fn room_for<T: Clone>(count: usize, value: T) -> Result<Vec<T>, Error> {
    let mut room = Vec::new();
    room.try_reserve_exact(count).map_err(|_| Error::MEMORY)?;
    room.resize(count, value);
    Ok(room)
}

/// Where the section headers of an object are, after its header of 20 bytes and the optional header, as calls for images take it.
pub(crate) fn section_headers(header: &CoffHeader) -> ImageInfo {
    let sections_offset = 20 + u64::from(header.size_of_optional_header);
    ImageInfo { sections_offset, number_of_sections: header.number_of_sections, ..ImageInfo::default() }
}

/// Section headers that a call writes.
pub(crate) fn sections_of(count: usize, call: impl FnOnce(*mut Section, usize) -> u32) -> Result<Vec<Section>, Error> {
    let mut sections = room_for(count, Section::default())?;
    Error::of(call(sections.as_mut_ptr(), count)).map(|()| sections)
}

fn symbols_of<'a>(bytes: &'a [u8], header: &CoffHeader) -> Result<Option<Symbols<'a>>, Error> {
    let Some(symbols) = ask_of_bytes(bytes, sys::pe_c_coff_symbols, header)? else { return Ok(None) };
    let strings = ask_of_bytes(bytes, sys::pe_c_coff_strings, header)?.unwrap_or_default();
    Ok(Some(Symbols::new(bytes, sys::NamedSymbolWalk { symbols, strings })))
}

/// Where symbols and their names are.
#[derive(Clone, Copy)]
struct Tables<'a> {
    bytes: &'a [u8],
    symbols: sys::Range,
    strings: sys::Range,
}

impl<'a> Tables<'a> {
    /// Lists the next symbols of a walk with their names, as many as there is room for, and returns how many.
    fn list(
        &self,
        walk: &mut sys::NamedSymbolWalk,
        runs: &mut [sys::Run],
        entries: &mut [sys::NamedSymbol],
    ) -> Result<usize, Error> {
        let (bytes, mut written) = (self.bytes, 0);
        let (room, more, items, count) = (runs.as_mut_ptr(), runs.len(), entries.as_mut_ptr(), entries.len());
        // SAFETY: the pointers and the lengths are those of slices; the walk and `written` are lent for the call.
        let number = unsafe {
            sys::pe_c_list_symbols(bytes.as_ptr(), bytes.len(), walk, room, more, items, count, &mut written)
        };
        Ok(returned(number, written)?.unwrap_or(0) as usize)
    }

    /// A symbol that a call has listed, and its name.
    fn named(&self, found: &sys::NamedSymbol) -> NamedSymbol<'a> {
        let name = Error::of(found.name_result).and_then(|()| text_of(found.name, self.bytes));
        NamedSymbol { symbol: Symbol { tables: *self, entry: found.symbol, name: Some(name) }, name }
    }
}

/// How many symbols a call takes where each name is read by itself.
const ROOM: usize = 16;

/// The symbols of an object or of an image, without their auxiliary records.
///
/// Names are read with the symbols, each by itself, and once these have cost as much as there are bytes those of all symbols that
/// are left together: a hostile file may let the names of all start in one long string.
#[derive(Clone)]
pub struct Symbols<'a> {
    tables: Tables<'a>,
    walk: sys::NamedSymbolWalk,
    /// What the last call wrote: few, or many whose names were read together; and those of it that are not returned yet.
    few: [sys::NamedSymbol; ROOM],
    many: Vec<sys::NamedSymbol>,
    left: Range<usize>,
    /// How many bytes were read of names, each by itself.
    spent: u64,
    is_over: bool,
}

impl<'a> Symbols<'a> {
    fn new(bytes: &'a [u8], walk: sys::NamedSymbolWalk) -> Self {
        let tables = Tables { bytes, symbols: walk.symbols.table, strings: walk.strings };
        let (few, many) = ([sys::NamedSymbol::default(); ROOM], Vec::new());
        Symbols { tables, walk, few, many, left: 0..0, spent: 0, is_over: false }
    }

    /// The symbol in an entry of the table; auxiliary records have entries too, and are read as if they were symbols. `None`
    /// past the last entry.
    pub fn get(&self, index: u64) -> Option<Symbol<'a>> {
        let Tables { bytes, symbols, .. } = self.tables;
        let entry = look(bytes, sys::pe_c_symbol, &symbols, index).ok().flatten()?;
        Some(Symbol { tables: self.tables, entry, name: None })
    }

    /// The symbols that are left, each with its name; names that share much are read together: this takes about as long as to read
    /// both tables and to sort the names in the string table, where [`Symbol::name`] of each that [`Symbols::get`] returns reads a
    /// string that many names share as often.
    ///
    /// # Errors
    ///
    /// [`Error::MEMORY`] where 96 bytes for each entry that is left, or the result, cannot be allocated. The error of a name is
    /// its own: that of [`Symbol::name`].
    pub fn named(mut self) -> Result<Vec<NamedSymbol<'a>>, Error> {
        let rest = self.entries_left();
        let (mut runs, mut others) =
            (room_for(rest, sys::Run::default())?, room_for(rest, sys::NamedSymbol::default())?);
        let count = if rest > 0 { self.tables.list(&mut self.walk, &mut runs, &mut others)? } else { 0 };
        let listed = &self.found()[self.left.clone()];
        let mut symbols = Vec::new();
        symbols.try_reserve_exact(listed.len() + count).map_err(|_| Error::MEMORY)?;
        symbols.extend(listed.iter().chain(&others[..count]).map(|it| self.tables.named(it)));
        Ok(symbols)
    }

    /// The table: entries of 18 bytes.
    pub fn table(&self) -> &'a [u8] {
        self.tables.symbols.of(self.tables.bytes).unwrap_or_default()
    }

    /// How many entries of the table no call has listed yet; auxiliary records count.
    fn entries_left(&self) -> usize {
        (self.tables.symbols.length / 18).saturating_sub(self.walk.symbols.next) as usize
    }

    /// What the last call wrote.
    fn found(&self) -> &[sys::NamedSymbol] {
        if self.many.is_empty() {
            &self.few
        } else {
            &self.many
        }
    }

    /// Lists further symbols: a few, or all that are left, if names have cost much and there is memory for that.
    fn fill(&mut self) -> Result<(), Error> {
        let (rest, tables) = (self.entries_left(), self.tables);
        let mut runs = Vec::new();
        self.many.clear();
        if rest > 0 && self.spent > tables.bytes.len() as u64 {
            let room = room_for(rest, sys::Run::default());
            if let (Ok(room), Ok(many)) = (room, room_for(rest, sys::NamedSymbol::default())) {
                (runs, self.many) = (room, many);
            }
        }
        let room = if self.many.is_empty() { &mut self.few[..] } else { &mut self.many };
        let count = if rest > 0 { tables.list(&mut self.walk, &mut runs, room)? } else { 0 };
        // A name that is refused was read up to the end of the string table at most.
        let cost = |it: &sys::NamedSymbol| if it.name_result == 0 { it.name.length } else { tables.strings.length };
        self.spent = self.spent.saturating_add(room[..count].iter().map(cost).sum());
        self.left = 0..count;
        self.is_over = count == 0;
        Ok(())
    }
}

impl fmt::Debug for Symbols<'_> {
    fn fmt(&self, f: &mut fmt::Formatter<'_>) -> fmt::Result {
        f.debug_struct("Symbols").field("table", &self.tables.symbols).finish_non_exhaustive()
    }
}

impl<'a> Iterator for Symbols<'a> {
    type Item = Result<Symbol<'a>, Error>;

    fn next(&mut self) -> Option<Self::Item> {
        if self.left.is_empty() && !self.is_over {
            if let Err(error) = self.fill() {
                self.is_over = true;
                return Some(Err(error));
            }
        }
        let i = self.left.next()?;
        Some(Ok(self.tables.named(&self.found()[i]).symbol))
    }
}

impl FusedIterator for Symbols<'_> {}

/// A COFF symbol with its name, as [`Symbol::name`] returns it.
#[derive(Clone, Copy)]
pub struct NamedSymbol<'a> {
    /// The symbol.
    pub symbol: Symbol<'a>,
    /// Without its final zero.
    pub name: Result<&'a str, Error>,
}

impl fmt::Debug for NamedSymbol<'_> {
    fn fmt(&self, f: &mut fmt::Formatter<'_>) -> fmt::Result {
        let name = self.name.map(shown::name);
        f.debug_struct("NamedSymbol").field("symbol", &self.symbol).field("name", &name).finish()
    }
}

/// A COFF symbol. The fields of its entry are those of [`SymbolEntry`](sys::SymbolEntry).
#[derive(Clone, Copy)]
pub struct Symbol<'a> {
    tables: Tables<'a>,
    entry: sys::SymbolEntry,
    /// If it was read with the entry.
    name: Option<Result<&'a str, Error>>,
}

impl<'a> Symbol<'a> {
    /// The name, without its final zero. Of a symbol that [`Symbols::get`] returns, a name in the string table is read to its
    /// end each time.
    ///
    /// # Errors
    ///
    /// [`Error::STRING_TABLE`] where no string is at its offset, NUL-terminated and UTF-8, or where the name in the entry is not
    /// UTF-8.
    pub fn name(&self) -> Result<&'a str, Error> {
        if let Some(name) = self.name {
            return name;
        }
        let Tables { bytes, symbols, strings } = self.tables;
        let mut name = sys::Range::default();
        // SAFETY: the pointer and the length are those of one slice; the ranges are lent for the call.
        let number = unsafe {
            sys::pe_c_symbol_name(bytes.as_ptr(), bytes.len(), &symbols, &strings, self.entry.index, &mut name)
        };
        match returned(number, name)? {
            Some(name) => text_of(name, bytes),
            None => Err(Error::SHORT),
        }
    }

    /// Why [`Symbol::name`] returns an error: the error with its numbers, the offset from the start of the string table. `None` where it
    /// returns none. A name in the string table is read to its end each time.
    pub fn name_failure(&self) -> Option<Failure> {
        let Tables { bytes, symbols, strings } = self.tables;
        let (index, mut out) = (self.entry.index, sys::Failure::default());
        // SAFETY: as above.
        let number =
            unsafe { sys::pe_c_symbol_name_failure(bytes.as_ptr(), bytes.len(), &symbols, &strings, index, &mut out) };
        found(returned(number, out))
    }

    /// Its auxiliary records, 18 bytes each, up to the end of the table.
    pub fn auxiliary(&self) -> &'a [u8] {
        self.entry.auxiliary.of(self.tables.bytes).unwrap_or_default()
    }
}

impl core::ops::Deref for Symbol<'_> {
    type Target = sys::SymbolEntry;

    fn deref(&self) -> &sys::SymbolEntry {
        &self.entry
    }
}

impl fmt::Debug for Symbol<'_> {
    fn fmt(&self, f: &mut fmt::Formatter<'_>) -> fmt::Result {
        let text = self.name().map(shown::name);
        f.debug_struct("Symbol")
            .field("index", &self.entry.index)
            .field("name", &text)
            .field("value", &self.entry.value)
            .field("section_number", &self.entry.section_number)
            .field("kind", &self.entry.kind)
            .field("storage_class", &self.entry.storage_class)
            .field("number_of_aux_symbols", &self.entry.number_of_aux_symbols)
            .finish()
    }
}
