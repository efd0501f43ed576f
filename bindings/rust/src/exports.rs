//! The export directory has three tables: the RVAs of what is exported, the RVAs of names in alphabetical order, and for
//! each name the index of its RVA in the first table. An export's ordinal is that index plus a base. An RVA inside the
//! directory is a forwarder: that of a text such as `NTDLL.RtlAllocateHeap`. [`Image::exports`] lists the exports that have
//! a name, [`Image::export_addresses`] all of them. See
//! [Microsoft's page](https://learn.microsoft.com/windows/win32/debug/pe-format#the-edata-section-image-only).

use crate::coff::room_for;
use crate::image::{text_in, text_of, Error, Image};
use crate::shown::{self, shown};
use crate::sys;
use crate::walk::most_names;
use alloc::vec::Vec;
use core::iter::FusedIterator;
use core::ops::Range;

/// An export that has a name.
#[derive(Clone, Copy, Default, PartialEq, Eq)]
#[cfg_attr(feature = "serde", derive(serde::Serialize))]
#[non_exhaustive]
pub struct Export<'a> {
    /// Without its final zero.
    pub name: &'a str,
    /// RVA of what is exported, or of the forwarder's text.
    pub rva: u32,
    /// File offset of the RVA, or `None` where it is unmapped.
    pub offset: Option<u64>,
    /// Its index in the table of RVAs: plus the [ordinal base](AddressTable::ordinal_base) it is the ordinal.
    pub index: u32,
    /// Of a forwarder its text, `DLL.NAME` or `DLL.#ORDINAL`, without its final zero; empty where no text is there.
    pub forwarder: Option<&'a str>,
}

shown! { Export<'_> { name: shown::name, rva, offset, index, forwarder: shown::text } }

/// The exports of an image, in the order of the name table.
///
/// Entries are skipped whose name is unmapped, not NUL-terminated or not UTF-8, or whose index is past the table of RVAs.
/// So no item of [`Image::exports`] is an error.
///
/// ```
/// # #[path = "../tests/made/mod.rs"] mod made;
/// # let bytes = made::with_exports();
/// use pe_c::{Image, Mode};
///
/// let image = Image::parse(&bytes, Mode::Permissive)?;
/// let mut found = Vec::new();
/// for export in image.exports()? {
///     let export = export?;
///     found.push((export.name, export.rva));
/// }
/// assert_eq!(found, [("first", 0x9_0000), ("second", 0x1004)]);
/// # Ok::<(), pe_c::Error>(())
/// ```
#[derive(Clone)]
pub struct Exports<'i, 'a> {
    image: &'i Image<'a>,
    walk: sys::Exports,
    /// What the last call wrote: few, or many that were read together; and those of it that are not returned yet.
    few: [sys::Export; ROOM],
    many: Vec<sys::Export>,
    left: Range<usize>,
    is_over: bool,
    /// The bytes that were read of texts, each by itself. A text that is not there counts as a part of the image.
    spent: usize,
}

/// How many entries of the name table a call takes where each text is read by itself.
const ROOM: usize = 32;

/// How many texts that are not there count as the image.
const SKIPPED: usize = 64;

impl<'i, 'a> Exports<'i, 'a> {
    /// The exports of these tables; none without them.
    fn new(image: &'i Image<'a>, tables: Option<sys::Exports>) -> Self {
        Exports {
            image,
            walk: tables.unwrap_or_default(),
            few: [sys::Export::default(); ROOM],
            many: Vec::new(),
            left: 0..0,
            is_over: tables.is_none(),
            spent: 0,
        }
    }

    /// What the last call wrote.
    fn found(&self) -> &[sys::Export] {
        if self.many.is_empty() {
            &self.few
        } else {
            &self.many
        }
    }

    /// Reads the exports of further entries of the name table, if it has any left: of some each text by itself, and once this has
    /// cost as much as the image has bytes all others together, if there is memory for that. An entry has two texts at most, its name
    /// and that of a forwarder.
    fn fill(&mut self) -> Result<(), Error> {
        let rest = (self.walk.names.length / 4).saturating_sub(self.walk.next) as usize;
        self.is_over = rest == 0;
        if self.is_over {
            return Ok(());
        }
        let (bytes, mut count, mut runs) = (self.image.bytes().len(), rest.min(ROOM), Vec::new());
        self.many.clear();
        if self.spent > bytes {
            let room = room_for(rest.saturating_mul(2), sys::Run::default());
            if let (Ok(room), Ok(many)) = (room, room_for(rest, sys::Export::default())) {
                (count, runs, self.many) = (rest, room, many);
            }
        }
        let found = if self.many.is_empty() { self.few.as_mut_ptr() } else { self.many.as_mut_ptr() };
        let (view, mut part, mut written) = (self.image.view(), sys::ExportWalk::from(self.walk), 0);
        part.exports.names.length = 4 * (self.walk.next + count as u64);
        let room = runs.as_mut_ptr();
        // SAFETY: the view, the walk and `written` are lent for the call, the arrays have so many items, and none overlaps another.
        let number = unsafe { sys::pe_c_list_exports(&view, &mut part, room, runs.len(), found, count, &mut written) };
        Error::of(number)?;
        self.walk.next = part.exports.next;
        self.left = 0..written as usize;
        let found = &self.found()[self.left.clone()];
        let texts: u64 = found.iter().map(|it| it.name.length + it.forwarder.length).sum();
        let without = found.iter().filter(|it| it.is_forwarder != 0 && it.forwarder.length == 0).count();
        let none = count - found.len() + without;
        self.spent = self.spent.saturating_add(texts as usize + none * (bytes / SKIPPED));
        Ok(())
    }
}

impl core::fmt::Debug for Exports<'_, '_> {
    fn fmt(&self, f: &mut core::fmt::Formatter<'_>) -> core::fmt::Result {
        f.debug_struct("Exports").field("walk", &self.walk).finish_non_exhaustive()
    }
}

impl<'a> Iterator for Exports<'_, 'a> {
    type Item = Result<Export<'a>, Error>;

    fn next(&mut self) -> Option<Self::Item> {
        while self.left.is_empty() && !self.is_over {
            if let Err(error) = self.fill() {
                self.is_over = true;
                return Some(Err(error));
            }
        }
        let i = self.left.next()?;
        let found = self.found()[i];
        let offset = (found.has_offset != 0).then_some(found.offset);
        let forwarder = found.forwarder.of(self.image.bytes()).filter(|_| found.is_forwarder != 0).map(text_in);
        Some(text_of(found.name, self.image.bytes()).map(|name| {
            let sys::Export { rva, index, .. } = found;
            Export { name, rva, offset, index, forwarder }
        }))
    }
}

impl FusedIterator for Exports<'_, '_> {}

/// An export by its index, with or without a name.
#[derive(Clone, Copy, Default, PartialEq, Eq)]
#[cfg_attr(feature = "serde", derive(serde::Serialize))]
#[non_exhaustive]
pub struct Exported<'a> {
    /// Its index in the table plus the [ordinal base](AddressTable::ordinal_base).
    pub ordinal: u64,
    /// RVA of what is exported, or of the forwarder's text. 0 where the ordinal is not used.
    pub rva: u32,
    /// Of a forwarder its text, `DLL.NAME` or `DLL.#ORDINAL`, without its final zero; empty where no text is there.
    pub forwarder: Option<&'a str>,
}

shown! { Exported<'_> { ordinal, rva, forwarder: shown::text } }

/// The export directory's table of RVAs: all exports by their index, also those without a name.
///
/// ```
/// # #[path = "../tests/made/mod.rs"] mod made;
/// # let bytes = made::with_exports();
/// use pe_c::{Image, Mode};
///
/// let image = Image::parse(&bytes, Mode::Permissive)?;
/// let table = image.export_addresses()?.expect("the image has exports");
/// assert_eq!(table.name(), Some("made.dll"));
/// for export in image.exports()? {
///     let export = export?;
///     let entry = table.get(export.index.into()).expect("the entry of an export is in the table");
///     assert_eq!(entry.rva, export.rva);
/// }
/// let last = table.iter().last().expect("it has exports");
/// assert_eq!((last.ordinal, last.forwarder), (8, Some("NTDLL.RtlFree")));
/// # Ok::<(), pe_c::Error>(())
/// ```
#[derive(Clone, Copy)]
pub struct AddressTable<'i, 'a> {
    image: &'i Image<'a>,
    table: sys::AddressTable,
}

shown! { AddressTable<'_, '_> { table; .. } }

impl<'i, 'a> AddressTable<'i, 'a> {
    /// The DLL's name, without its final zero. `None` where its RVA is 0 or unmapped, or no text is there.
    pub fn name(&self) -> Option<&'a str> {
        self.table.name.of(self.image.bytes()).filter(|_| self.table.has_name != 0).map(text_in)
    }

    /// The ordinal of the export with the index 0.
    pub fn ordinal_base(&self) -> u32 {
        self.table.ordinal_base
    }

    /// The number of entries.
    pub fn len(&self) -> u64 {
        self.table.addresses.length / 4
    }

    /// Whether the table is empty.
    pub fn is_empty(&self) -> bool {
        self.len() == 0
    }

    /// The export with an index, from 0, or `None` at [`len`](Self::len) and above.
    pub fn get(&self, index: u64) -> Option<Exported<'a>> {
        let found = self.image.look(sys::pe_c_export_at, &self.table, index).ok()??;
        Some(self.reported(found))
    }

    fn reported(&self, found: sys::Exported) -> Exported<'a> {
        let sys::Exported { ordinal, rva, .. } = found;
        let forwarder = found.forwarder.of(self.image.bytes()).filter(|_| found.is_forwarder != 0).map(text_in);
        Exported { ordinal, rva, forwarder }
    }

    /// The exports, in the order of the table. Texts of forwarders are read together, of many entries a call: a hostile file may
    /// let all of them start in one long text.
    pub fn iter(&self) -> impl Iterator<Item = Exported<'a>> + 'i
    where
        'a: 'i,
    {
        ExportedEntries { table: *self, next: 0, found: Vec::new(), left: 0..0 }
    }

    /// The next entries from an index on, as many as there is room for. `None` without memory for the runs.
    fn list(&self, next: &mut u64, found: &mut [sys::Exported]) -> Option<usize> {
        let (mut runs, view, mut written) = (room_for(found.len(), sys::Run::default()).ok()?, self.image.view(), 0);
        let (room, more, items, count) = (runs.as_mut_ptr(), runs.len(), found.as_mut_ptr(), found.len());
        // SAFETY: the view, the table and the numbers are lent for the call, the arrays have so many items, and none overlaps another.
        let number = unsafe {
            sys::pe_c_list_export_addresses(&view, &self.table, next, room, more, items, count, &mut written)
        };
        Error::of(number).ok().map(|()| written as usize)
    }
}

/// The entries of an address table that are left.
struct ExportedEntries<'i, 'a> {
    table: AddressTable<'i, 'a>,
    next: u64,
    /// What the last call wrote, and those of it that are not returned yet.
    found: Vec<sys::Exported>,
    left: Range<usize>,
}

impl<'a> Iterator for ExportedEntries<'_, 'a> {
    type Item = Exported<'a>;

    fn next(&mut self) -> Option<Exported<'a>> {
        if self.left.is_empty() {
            let rest = self.table.len().saturating_sub(self.next);
            // Few at first, and then four times as many as there were.
            let most = most_names(self.table.image.bytes()) as u64;
            let count = rest.min((4 * self.next).clamp(ROOM as u64, most)) as usize;
            let room = room_for(count, sys::Exported::default());
            match room.ok().and_then(|mut room| Some((self.table.list(&mut self.next, &mut room)?, room))) {
                Some((written, room)) => (self.left, self.found) = (0..written, room),
                // Without memory each is read by itself.
                None => {
                    let found = self.table.get(self.next)?;
                    self.next += 1;
                    return Some(found);
                }
            }
        }
        let i = self.left.next()?;
        Some(self.table.reported(self.found[i]))
    }
}

impl<'a> Image<'a> {
    /// The fields of the export directory, whatever its tables are, or `None` without one.
    ///
    /// # Errors
    ///
    /// [`Error::UNMAPPED`], [`Error::SHORT`] of its 40 bytes.
    pub fn export_directory(&self) -> Result<Option<sys::ExportFields>, Error> {
        self.ask(sys::pe_c_export_directory)
    }

    /// The table of RVAs of the exports, or `None` without an export directory: one without exports has a name and an ordinal base.
    ///
    /// # Errors
    ///
    /// Those of [`exports`](Self::exports).
    pub fn export_addresses(&self) -> Result<Option<AddressTable<'_, 'a>>, Error> {
        let table = self.ask(sys::pe_c_export_addresses)?;
        Ok(table.map(|table| AddressTable { image: self, table }))
    }

    /// The exports that have a name; none without an export directory.
    ///
    /// # Errors
    ///
    /// [`Error::UNMAPPED`], [`Error::SHORT`] of the directory, then of the table of RVAs, of names and of indices.
    pub fn exports(&self) -> Result<Exports<'_, 'a>, Error> {
        Ok(Exports::new(self, self.ask(sys::pe_c_export_tables)?))
    }
}
