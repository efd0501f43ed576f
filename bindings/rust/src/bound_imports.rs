//! Bound imports: DLLs whose addresses the linker, or a tool after it, wrote into the import address table. They are valid as
//! long as each DLL has the time stamp that stands here. Each is followed by the DLLs that it forwards to.

use crate::coff::room_for;
use crate::failure::{found, Failure};
use crate::image::{returned, text_of, Error, Image};
use crate::shown::{self, shown};
use crate::sys;
use crate::walk::{look, most_names};
use alloc::vec::Vec;
use core::fmt;
use core::iter::FusedIterator;
use core::ops::Range;

/// A call of a list: it takes the bytes, the range of the directory, and the walk.
type List<T> = unsafe extern "C" fn(
    *const u8,
    usize,
    *const sys::Range,
    *mut sys::Range,
    *mut sys::Run,
    usize,
    *mut T,
    usize,
    *mut u64,
) -> u32;

/// A walk through the entries of the directory, or of one DLL, whose names are read together, of more entries a call each time.
#[derive(Clone)]
struct Entries<'a, T> {
    bytes: &'a [u8],
    table: sys::Range,
    /// `None` where the walk is over.
    walk: Option<sys::Range>,
    /// What the last call wrote, and those of it that are not returned yet.
    found: Vec<T>,
    left: Range<usize>,
    taken: usize,
    /// The walk as it was before the step that returned an error.
    refused: Option<sys::Range>,
}

impl<T> fmt::Debug for Entries<'_, T> {
    fn fmt(&self, f: &mut fmt::Formatter<'_>) -> fmt::Result {
        let Self { table, walk, left, .. } = self;
        let mut shown = f.debug_struct("Entries");
        shown.field("table", table).field("walk", walk).field("left", &left.len()).finish_non_exhaustive()
    }
}

impl<'a, T: Copy + Default> Entries<'a, T> {
    /// The walk over what is left of the directory, or one that is over.
    fn new(bytes: &'a [u8], table: sys::Range, walk: Option<sys::Range>) -> Self {
        Entries { bytes, table, walk, found: Vec::new(), left: 0..0, taken: 0, refused: None }
    }

    /// The next entry.
    fn step(&mut self, call: List<T>) -> Option<Result<T, Error>> {
        if self.left.is_empty() {
            let walk = self.walk.take()?;
            match self.fill(call, walk) {
                Ok(0) => {
                    self.walk = None;
                    return None;
                }
                Ok(count) => self.left = 0..count,
                Err(error) => {
                    self.refused = Some(walk);
                    return Some(Err(error));
                }
            }
            self.taken += self.left.len();
        }
        self.left.next().map(|i| Ok(self.found[i]))
    }

    /// Makes a call, and returns how many entries it wrote.
    fn fill(&mut self, call: List<T>, mut walk: sys::Range) -> Result<usize, Error> {
        // An entry has 8 bytes; one more room is for an error.
        let count = (walk.length / 8 + 1).min((4 * self.taken).clamp(16, most_names(self.bytes)) as u64) as usize;
        let (mut runs, mut found, mut written) =
            (room_for(count, sys::Run::default())?, room_for(count, T::default())?, 0);
        let (start, length, room, items) =
            (self.bytes.as_ptr(), self.bytes.len(), runs.as_mut_ptr(), found.as_mut_ptr());
        // SAFETY: the pointer and the length are those of one slice; the records are lent for the call, the arrays have so many items,
        // and none overlaps another.
        let number = unsafe { call(start, length, &self.table, &mut walk, room, count, items, count, &mut written) };
        let written = returned(number, written)?.unwrap_or(0) as usize;
        (self.walk, self.found) = (Some(walk), found);
        Ok(written)
    }
}

impl Entries<'_, sys::BoundImport> {
    /// Why the entry that is an error is one.
    fn failure(&self) -> Option<Failure> {
        let walk = self.refused.as_ref()?;
        found(look(self.bytes, sys::pe_c_bound_import_failure, &self.table, walk as *const _))
    }
}

impl Entries<'_, sys::BoundForwarder> {
    /// The same of a forwarder, of which the name alone is refused: where that is stands in the entry, after the time stamp.
    fn failure(&self) -> Option<Failure> {
        let (mut walk, mut out) = (self.refused?, sys::BoundForwarder::default());
        let entry = self.bytes.get(usize::try_from(walk.offset).ok()?..)?;
        let offset = u64::from(u16::from_le_bytes([*entry.get(4)?, *entry.get(5)?]));
        let (start, length) = (self.bytes.as_ptr(), self.bytes.len());
        // SAFETY: the pointer and the length are those of one slice; the records are lent for the call.
        let number = unsafe { sys::pe_c_next_bound_forwarder(start, length, &self.table, &mut walk, &mut out) };
        let error = returned(number, ()).err()?;
        (error == Error::DIRECTORY_BOUND_IMPORT_NAME).then_some(Failure { error, offset, needed: 0, value: None })
    }
}

/// A DLL that an image is bound to.
#[derive(Clone)]
pub struct BoundImport<'a> {
    /// Its name, without its final zero.
    pub name: &'a str,
    /// Its time stamp.
    pub time_date_stamp: u32,
    forwarders: Entries<'a, sys::BoundForwarder>,
}

shown! { BoundImport<'_> { name: shown::name, time_date_stamp; .. } }

impl<'a> BoundImport<'a> {
    /// The DLLs that it forwards to.
    pub fn forwarders(&self) -> BoundForwarders<'a> {
        BoundForwarders(self.forwarders.clone())
    }
}

/// A DLL that another one forwards to.
#[derive(Clone, Copy, Default, PartialEq, Eq)]
#[cfg_attr(feature = "serde", derive(serde::Serialize))]
#[non_exhaustive]
pub struct BoundForwarder<'a> {
    /// Its name, without its final zero.
    pub name: &'a str,
    /// Its time stamp.
    pub time_date_stamp: u32,
}

shown! { BoundForwarder<'_> { name: shown::name, time_date_stamp } }

impl<'a> BoundForwarder<'a> {
    fn of(found: &sys::BoundForwarder, bytes: &'a [u8]) -> Result<Self, Error> {
        Ok(BoundForwarder { name: text_of(found.name, bytes)?, time_date_stamp: found.time_date_stamp })
    }
}

/// The DLLs that an image is bound to, in the order of the directory. It ends with its bytes, or at an entry without a name.
///
/// An item is an error, and the last one: [`Error::SHORT`] of the entry and its forwarders;
/// [`Error::DIRECTORY_BOUND_IMPORT_NAME`]; [`Error::MEMORY`].
#[derive(Clone, Debug)]
pub struct BoundImports<'a>(Entries<'a, sys::BoundImport>);

impl<'a> Iterator for BoundImports<'a> {
    type Item = Result<BoundImport<'a>, Error>;

    fn next(&mut self) -> Option<Self::Item> {
        let found = self.0.step(sys::pe_c_list_bound_imports)?;
        Some(found.and_then(|found| {
            let name = text_of(found.name, self.0.bytes)?;
            let forwarders = Entries::new(self.0.bytes, self.0.table, Some(found.forwarders));
            Ok(BoundImport { name, time_date_stamp: found.time_date_stamp, forwarders })
        }))
    }
}

impl FusedIterator for BoundImports<'_> {}

impl BoundImports<'_> {
    /// Why the item that is an error is one: the error with its numbers, the offset of a name from the start of the directory. `None`
    /// where no item was an error, or it was [`Error::MEMORY`].
    pub fn failure(&self) -> Option<Failure> {
        self.0.failure()
    }
}

/// The DLLs that a bound import forwards to.
///
/// An item is an error, and the last one: [`Error::DIRECTORY_BOUND_IMPORT_NAME`]; [`Error::MEMORY`].
#[derive(Clone, Debug)]
pub struct BoundForwarders<'a>(Entries<'a, sys::BoundForwarder>);

impl<'a> Iterator for BoundForwarders<'a> {
    type Item = Result<BoundForwarder<'a>, Error>;

    fn next(&mut self) -> Option<Self::Item> {
        let found = self.0.step(sys::pe_c_list_bound_forwarders)?;
        Some(found.and_then(|found| BoundForwarder::of(&found, self.0.bytes)))
    }
}

impl FusedIterator for BoundForwarders<'_> {}

impl BoundForwarders<'_> {
    /// Why the item that is an error is one: the error with the offset of the name, from the start of the directory. `None` where no item
    /// was an error, or it was [`Error::MEMORY`].
    pub fn failure(&self) -> Option<Failure> {
        self.0.failure()
    }
}

/// A DLL that another one forwards to, and that other one.
#[derive(Clone, Copy, Default, PartialEq, Eq)]
#[cfg_attr(feature = "serde", derive(serde::Serialize))]
#[non_exhaustive]
pub struct LibraryForwarder<'a> {
    /// The name of the DLL that forwards, without its final zero.
    pub library: &'a str,
    /// Its index among [`Image::bound_imports`].
    pub index: u64,
    /// The DLL that it forwards to.
    pub forwarder: BoundForwarder<'a>,
}

shown! { LibraryForwarder<'_> { library: shown::name, index, forwarder } }

/// The DLLs that bound imports forward to, one bound import after the other.
///
/// The last item may be an error: that of the forwarders of the bound imports before it, or of the next bound import, as
/// [`BoundForwarders`] and [`BoundImports`] have them.
///
/// ```
/// # #[path = "../tests/made/mod.rs"] mod made;
/// # let bytes = made::with_bound_imports();
/// use pe_c::{Image, Mode};
///
/// let image = Image::parse(&bytes, Mode::Permissive)?;
/// let forwarders: Vec<_> = image.bound_forwarders()?.collect::<Result<_, _>>()?;
/// let names: Vec<_> = forwarders.iter().map(|it| (it.library, it.forwarder.name)).collect();
/// assert_eq!(names, [("one.dll", "two.dll")]);
/// # Ok::<(), pe_c::Error>(())
/// ```
#[derive(Clone)]
pub struct AllBoundForwarders<'a> {
    imports: Entries<'a, sys::BoundImport>,
    /// All entries of the directory, those of the bound imports too.
    entries: Entries<'a, sys::BoundForwarder>,
    /// The name of the bound import whose forwarders are returned, how many of these are left, and how many bound imports were begun.
    library: &'a str,
    left: u64,
    begun: u64,
    is_over: bool,
}

shown! { AllBoundForwarders<'_> { imports, entries, library: shown::name, left, begun, is_over } }

impl<'a> AllBoundForwarders<'a> {
    /// The next forwarder; `None` after the last.
    fn step(&mut self) -> Result<Option<LibraryForwarder<'a>>, Error> {
        while self.left == 0 {
            let Some(import) = self.imports.step(sys::pe_c_list_bound_imports).transpose()? else { return Ok(None) };
            self.library = text_of(import.name, self.imports.bytes)?;
            (self.left, self.begun) = (import.forwarders.length / 8, self.begun + 1);
            // Its own entry comes before those of its forwarders.
            self.entry()?;
        }
        self.left -= 1;
        let Some(forwarder) = self.entry()? else { return Ok(None) };
        Ok(Some(LibraryForwarder { library: self.library, index: self.begun - 1, forwarder }))
    }

    /// The next entry of the directory, as a forwarder.
    fn entry(&mut self) -> Result<Option<BoundForwarder<'a>>, Error> {
        let Some(found) = self.entries.step(sys::pe_c_list_bound_forwarders).transpose()? else { return Ok(None) };
        Ok(Some(BoundForwarder::of(&found, self.entries.bytes)?))
    }
}

impl<'a> Iterator for AllBoundForwarders<'a> {
    type Item = Result<LibraryForwarder<'a>, Error>;

    fn next(&mut self) -> Option<Self::Item> {
        if self.is_over {
            return None;
        }
        let item = self.step().transpose();
        self.is_over = !matches!(item, Some(Ok(_)));
        item
    }
}

impl FusedIterator for AllBoundForwarders<'_> {}

impl AllBoundForwarders<'_> {
    /// Why the item that is an error is one, as [`BoundImports::failure`] or [`BoundForwarders::failure`] says it.
    pub fn failure(&self) -> Option<Failure> {
        self.imports.failure().or_else(|| self.entries.failure())
    }
}

impl<'a> Image<'a> {
    /// The DLLs that the image is bound to; none where the directory is absent.
    ///
    /// # Errors
    ///
    /// [`Error::SHORT`].
    pub fn bound_imports(&self) -> Result<BoundImports<'a>, Error> {
        let table = self.ask(sys::pe_c_bound_imports)?;
        Ok(BoundImports(Entries::new(self.bytes(), table.unwrap_or_default(), table)))
    }

    /// The DLLs that bound imports forward to, each with the bound import; none where the directory is absent. One walk reads all
    /// names, where [`BoundImport::forwarders`] of each costs a text that they share for each.
    ///
    /// # Errors
    ///
    /// [`Error::SHORT`].
    pub fn bound_forwarders(&self) -> Result<AllBoundForwarders<'a>, Error> {
        let walk = self.ask(sys::pe_c_bound_imports)?;
        let (bytes, table) = (self.bytes(), walk.unwrap_or_default());
        Ok(AllBoundForwarders {
            imports: Entries::new(bytes, table, walk),
            entries: Entries::new(bytes, table, walk),
            library: "",
            left: 0,
            begun: 0,
            is_over: false,
        })
    }
}
