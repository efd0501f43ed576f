//! The tables of code to which a load configuration leads: functions that may be called indirectly, exception handlers of x86,
//! and where else control may go. See <https://learn.microsoft.com/windows/win32/secbp/pe-metadata>.

use crate::image::{bytes_of, Error, Image};
use crate::sys;
use crate::walk::ImageList;
use core::iter::FusedIterator;

/// A table of a load configuration.
#[derive(Clone, Copy, Debug, PartialEq, Eq, Hash)]
#[non_exhaustive]
pub enum GuardTable {
    /// Exception handlers of an x86 image (`SEHandlerTable`). Its entries have no flags.
    SeHandlers = 0,
    /// Functions that may be called indirectly (`GuardCFFunctionTable`).
    CfFunctions = 1,
    /// Entries of the import address table whose address is taken (`GuardAddressTakenIatEntryTable`).
    AddressTakenIatEntries = 2,
    /// Targets of `longjmp` (`GuardLongJumpTargetTable`).
    LongJumpTargets = 3,
    /// Where execution goes on after exceptions (`GuardEHContinuationTable`).
    EhContinuations = 4,
}

/// An entry of a table.
#[derive(Clone, Copy, Debug, Default, PartialEq, Eq)]
#[cfg_attr(feature = "serde", derive(serde::Serialize))]
#[non_exhaustive]
pub struct GuardEntry<'a> {
    /// The RVA of the function, handler, target or entry.
    pub rva: u32,
    /// The flags that follow it, as many bytes as bits 28 to 31 of the guard flags say. `IMAGE_GUARD_FLAG_*` are of the first.
    #[cfg_attr(feature = "serde", serde(serialize_with = "crate::serialized::hex"))]
    pub flags: &'a [u8],
}

/// The entries of a table, in its order. Microsoft's linker sorts them by RVA.
///
/// An item is an error, and the last one: [`Error::SHORT`] where the bytes end before the table does.
///
/// ```
/// # #[path = "../tests/made/mod.rs"] mod made;
/// # let bytes = made::with_guards();
/// use pe_c::{GuardTable, Image, Mode};
///
/// let image = Image::parse(&bytes, Mode::Permissive)?;
/// let functions = image.guard_table(GuardTable::CfFunctions)?.expect("the image has such a table");
/// let mut rvas = Vec::new();
/// for entry in functions {
///     rvas.push(entry?.rva);
/// }
/// assert_eq!(rvas, [0x2010, 0x2030]);
/// # Ok::<(), pe_c::Error>(())
/// ```
#[derive(Clone, Debug)]
pub struct GuardEntries<'i, 'a> {
    entries: ImageList<'i, 'a, sys::GuardEntries, sys::GuardEntry>,
    flag_size: u32,
}

impl GuardEntries<'_, '_> {
    /// How many bytes of flags an entry has.
    pub fn flag_size(&self) -> u32 {
        self.flag_size
    }
}

impl<'a> Iterator for GuardEntries<'_, 'a> {
    type Item = Result<GuardEntry<'a>, Error>;

    fn next(&mut self) -> Option<Self::Item> {
        let bytes = self.entries.source.bytes();
        // SAFETY: the bytes and the walk are lent for the call, the array has so many items, and none overlaps another.
        let found = self.entries.step_of_few(|_, walk, items, written| unsafe {
            sys::pe_c_list_guard_entries(bytes.as_ptr(), bytes.len(), walk, items.as_mut_ptr(), items.len(), written)
        })?;
        Some(found.and_then(|found| Ok(GuardEntry { rva: found.rva, flags: bytes_of(found.flag_bytes, bytes)? })))
    }
}

impl FusedIterator for GuardEntries<'_, '_> {}

impl<'a> Image<'a> {
    /// The entries of a table of the load configuration. `None` where there is no load configuration, or this has no such table: one
    /// without entries may say that nothing is allowed, and its entries have a size.
    ///
    /// # Errors
    ///
    /// Those of [`Image::load_config`]; [`Error::DIRECTORY_VA_BELOW_BASE`], [`Error::UNMAPPED`] of the table's address.
    pub fn guard_table(&self, table: GuardTable) -> Result<Option<GuardEntries<'_, 'a>>, Error> {
        let walk = self.ask_with(sys::pe_c_guard_table, table as u32)?;
        Ok(walk.map(|walk| GuardEntries { entries: ImageList::new(self, walk), flag_size: walk.flag_size }))
    }
}
