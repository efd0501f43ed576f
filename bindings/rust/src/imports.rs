//! The import directory has a record of 20 bytes for each DLL, which leads to the DLL's name and to its list of imports,
//! by name or by ordinal. The loader writes the virtual address of each import to a slot of the DLL's address table. See
//! [Microsoft's page](https://learn.microsoft.com/windows/win32/debug/pe-format#the-idata-section).

use crate::failure::Failure;
use crate::image::{text_of, Error, Image};
use crate::shown::{self, shown};
use crate::sys;
use crate::walk::{most_names, ImageList, Together};
use core::iter::FusedIterator;

/// A DLL that an image imports from.
#[derive(Clone, Copy)]
pub struct Library<'i, 'a> {
    image: &'i Image<'a>,
    /// The DLL's name, without its final zero.
    pub name: &'a str,
    raw: sys::Library,
}

shown! { Library<'_, '_> { name: shown::name, raw; .. } }

impl<'i, 'a> Library<'i, 'a> {
    /// The record of the C library, with the RVAs of the lookup and address tables.
    pub fn raw(&self) -> &sys::Library {
        &self.raw
    }

    /// The imports from this DLL, of its lookup table, or of its address table where it has no lookup table. Where the RVA of that
    /// list is unmapped there are none: [`has_unmapped_list`](Library::has_unmapped_list) says so.
    pub fn imports(&self) -> Imports<'i, 'a> {
        Imports { list: ImageList::new(self.image, self.raw.imports.into()), rest: None }
    }

    /// Whether the RVA of the list is unmapped, so that [`imports`](Library::imports) has nothing.
    pub fn has_unmapped_list(&self) -> bool {
        // An entry at the file offset 0 is no zero entry: the signature of the DOS header stands there.
        let list = self.raw.imports.left;
        (list.offset, list.length) == (0, 0)
    }

    /// What the address table names. Until the loader has filled it, it has the entries of the lookup table; in a bound image it has
    /// addresses. Windows reads it in place of a lookup table that starts before the sections or after the image.
    ///
    /// The last item may be an error: those of [`imports`](Library::imports); [`Error::UNMAPPED`] of the table's own RVA;
    /// [`Error::SHORT`] where the file ends before a zero entry.
    pub fn address_table(&self) -> Imports<'i, 'a> {
        let rest = Rest {
            next: self.image.offset(self.raw.address_table_rva).ok_or(Error::UNMAPPED),
            rva: self.raw.imports.rva,
        };
        Imports { list: ImageList::new(self.image, sys::ImportWalk::default()), rest: Some(rest) }
    }
}

/// The DLLs that an image imports from, in the order of the import directory.
///
/// The directory ends at a record whose name or address table has the RVA 0. A list whose RVA is unmapped is empty, which
/// [`Library::has_unmapped_list`] says; [`Library::address_table`] has what the loader may read in its place.
///
/// The last item may be an error: [`Error::SHORT`] where the record is truncated; [`Error::UNMAPPED`],
/// [`Error::IMPORT_NAME`] of the name; [`Error::SHORT`] where no zero entry ends the list.
///
/// ```
/// # #[path = "../tests/made/mod.rs"] mod made;
/// # let bytes = made::with_imports();
/// use pe_c::{Image, Mode};
///
/// let image = Image::parse(&bytes, Mode::Permissive)?;
/// let mut found = Vec::new();
/// for library in image.libraries()? {
///     let library = library?;
///     for import in library.imports() {
///         found.push((library.name, import?.name));
///     }
/// }
/// assert_eq!(found[0], ("KERNEL32.dll", Some("Sleep")));
/// assert_eq!(found[1], ("KERNEL32.dll", None)); // by ordinal
/// # Ok::<(), pe_c::Error>(())
/// ```
#[derive(Clone, Debug)]
pub struct Libraries<'i, 'a>(ImageList<'i, 'a, sys::LibraryWalk, sys::Library>);

impl<'i, 'a> Iterator for Libraries<'i, 'a> {
    type Item = Result<Library<'i, 'a>, Error>;

    fn next(&mut self) -> Option<Self::Item> {
        let image = self.0.source;
        // Nothing says how many are left: four times as many as there were.
        let most = |_: &sys::LibraryWalk, taken: usize| (4 * taken).min(most_names(image.bytes()));
        let cost = |it: &sys::Library| it.name.length + it.imports.left.length;
        let call = sys::pe_c_list_libraries as Together<_, _>;
        let found: Result<sys::Library, Error> = self.0.step_together(call, 2, most, cost)?;
        Some(found.and_then(|raw| {
            let name = text_of(raw.name, image.bytes())?;
            Ok(Library { image, name, raw })
        }))
    }
}

impl FusedIterator for Libraries<'_, '_> {}

impl Libraries<'_, '_> {
    /// Why the item that is an error is one: the error with its numbers. `None` where no item was an error.
    ///
    /// ```
    /// # #[path = "../tests/made/mod.rs"] mod made;
    /// # let mut bytes = made::with_imports();
    /// use pe_c::{Error, Image, Mode};
    ///
    /// // The RVA of the second DLL's name, in the second record of the directory.
    /// # let directory = Image::parse(&bytes, Mode::Strict)?.info().directory(pe_c::DirectoryIndex::Import).unwrap();
    /// # let start = Image::parse(&bytes, Mode::Strict)?.offset(directory.virtual_address).unwrap() as usize;
    /// bytes[start + 20 + 12..][..4].copy_from_slice(&0x0123_4567_u32.to_le_bytes());
    /// let image = Image::parse(&bytes, Mode::Strict)?;
    /// let mut libraries = image.libraries()?;
    /// let error = libraries.find_map(Result::err).expect("the second has no name");
    /// let failure = libraries.failure().expect("an item was an error");
    /// assert_eq!((failure.error, failure.value), (error, Some(0x0123_4567)));
    /// # Ok::<(), Error>(())
    /// ```
    pub fn failure(&self) -> Option<Failure> {
        self.0.failure(sys::pe_c_library_failure, |it| &it.libraries)
    }
}

/// An import, by name or by ordinal.
#[derive(Clone, Copy, Default, PartialEq, Eq)]
#[cfg_attr(feature = "serde", derive(serde::Serialize))]
#[non_exhaustive]
pub struct Import<'a> {
    /// Without its final zero; `None` for an import by ordinal.
    pub name: Option<&'a str>,
    /// The ordinal; with a name its hint, an index into the DLL's table of names.
    pub ordinal: u32,
    /// RVA of the slot to which the loader writes the import's virtual address.
    pub rva: u64,
}

shown! { Import<'_> { name: shown::text, ordinal, rva } }

impl<'a> Import<'a> {
    fn of(found: &sys::Import, bytes: &'a [u8]) -> Result<Self, Error> {
        let name = text_of(found.name, bytes)?;
        Ok(Import { name: (found.has_name != 0).then_some(name), ordinal: found.ordinal, rva: found.rva })
    }
}

/// The imports of a library, in the order of its list.
///
/// The last item may be an error: [`Error::UNMAPPED`] of the RVA in the entry; [`Error::SHORT`] of the hint there;
/// [`Error::IMPORT_NAME`] of the name. [`Libraries`] has an example.
#[derive(Clone, Debug)]
pub struct Imports<'i, 'a> {
    list: ImageList<'i, 'a, sys::ImportWalk, sys::Import>,
    rest: Option<Rest>,
}

/// Where an address table goes on, of which no call says where it ends.
#[derive(Clone, Copy, Debug)]
struct Rest {
    /// The file offset, or why there is none.
    next: Result<u64, Error>,
    rva: u64,
}

impl<'a> Imports<'_, 'a> {
    fn listed(&mut self) -> Option<Result<Import<'a>, Error>> {
        let bytes = self.list.source.bytes();
        let most = |walk: &sys::ImportWalk, _| (walk.imports.left.length / 4).min(most_names(bytes) as u64) as usize;
        let found = self.list.step_together(sys::pe_c_list_imports, 1, most, |it| it.name.length)?;
        self.rest = self.rest.filter(|_| found.is_ok());
        Some(found.and_then(|found| Import::of(&found, bytes)))
    }

    /// Goes on with the next entries of an address table, up to its zero entry: twice as many as before them, so that tables that
    /// overlap are read no further than they are listed. The error where it ends with the file.
    fn go_on(&mut self, rest: Rest) -> Result<(), Error> {
        let image = self.list.source;
        let size = if image.info().width == 64 { 8 } else { 4 };
        let start = rest.next?;
        let table = image.bytes().get(start as usize..).unwrap_or_default();
        let most = self.list.taken().max(16);
        let entries = table.chunks_exact(size).take(most).take_while(|it| it.iter().any(|byte| *byte != 0)).count();
        let length = entries * size;
        let is_over = entries < most;
        if is_over && table.len() < length + size {
            self.rest = Some(Rest { next: Err(Error::SHORT), ..rest });
        } else if !is_over {
            self.rest = Some(Rest { next: Ok(start + length as u64), rva: rest.rva + length as u64 });
        }
        let left = sys::Range { offset: start, length: length as u64 };
        self.list.restart(sys::Imports { left, rva: rest.rva }.into());
        Ok(())
    }
}

impl<'a> Iterator for Imports<'_, 'a> {
    type Item = Result<Import<'a>, Error>;

    fn next(&mut self) -> Option<Self::Item> {
        loop {
            if let Some(found) = self.listed() {
                return Some(found);
            }
            let rest = self.rest.take()?;
            if let Err(error) = self.go_on(rest) {
                return Some(Err(error));
            }
        }
    }
}

impl FusedIterator for Imports<'_, '_> {}

impl Imports<'_, '_> {
    /// Why the item that is an error is one: the error with its numbers. `None` where no item was an error, and where it is of an
    /// address table and of none of its entries.
    pub fn failure(&self) -> Option<Failure> {
        self.list.failure(sys::pe_c_import_failure, |it| &it.imports)
    }
}

/// An import, and the DLL that it is from.
#[derive(Clone, Copy, Default, PartialEq, Eq)]
#[cfg_attr(feature = "serde", derive(serde::Serialize))]
#[non_exhaustive]
pub struct LibraryImport<'a> {
    /// The DLL's name, without its final zero.
    pub library: &'a str,
    /// The DLL's index among [`Image::libraries`].
    pub index: u64,
    /// The import.
    pub import: Import<'a>,
    /// RVA of the hint, which the name follows; `None` for an import by ordinal.
    pub hint_rva: Option<u32>,
}

shown! { LibraryImport<'_> { library: shown::name, index, import, hint_rva } }

/// The imports of all DLLs of an image, one DLL after the other.
///
/// DLLs may share one list, whose imports are returned for each of them: there may be far more than a file has bytes.
///
/// The last item may be an error: of the imports of the DLLs before it, or that of the next DLL, as [`Imports`] and
/// [`Libraries`] have them.
///
/// ```
/// # #[path = "../tests/made/mod.rs"] mod made;
/// # let bytes = made::with_imports();
/// use pe_c::{Image, Mode};
///
/// let image = Image::parse(&bytes, Mode::Permissive)?;
/// let imports: Vec<_> = image.imports()?.collect::<Result<_, _>>()?;
/// let names: Vec<_> = imports.iter().map(|it| (it.library, it.import.name)).collect();
/// // The second is imported by its ordinal.
/// assert_eq!(names, [("KERNEL32.dll", Some("Sleep")), ("KERNEL32.dll", None), ("a.dll", Some("f"))]);
/// # Ok::<(), pe_c::Error>(())
/// ```
#[derive(Clone, Debug)]
pub struct AllImports<'i, 'a> {
    list: ImageList<'i, 'a, sys::LibraryImports, sys::LibraryImport>,
    /// How many DLLs there are.
    libraries: u64,
}

impl<'a> Iterator for AllImports<'_, 'a> {
    type Item = Result<LibraryImport<'a>, Error>;

    fn next(&mut self) -> Option<Self::Item> {
        let (bytes, libraries) = (self.list.source.bytes(), self.libraries);
        let more = |walk: &sys::LibraryImports| libraries.saturating_sub(walk.begun) as usize;
        let found = self.list.step_with_runs(sys::pe_c_list_all_imports, more)?;
        Some(found.and_then(|found| {
            let import = Import::of(&found.import, bytes)?;
            let hint_rva = import.name.map(|_| found.hint_rva);
            Ok(LibraryImport { library: text_of(found.library_name, bytes)?, index: found.library, import, hint_rva })
        }))
    }
}

impl FusedIterator for AllImports<'_, '_> {}

impl AllImports<'_, '_> {
    /// Why the item that is an error is one, as [`Imports::failure`] or [`Libraries::failure`] says it. `None` where no item was an error.
    pub fn failure(&self) -> Option<Failure> {
        let (image, before) = (self.list.source, self.list.refused()?);
        let mut imports = Imports { list: ImageList::new(image, before.imports.into()), rest: None };
        let mut libraries = Libraries(ImageList::new(image, before.libraries.into()));
        // The step that was refused may have passed libraries without imports.
        loop {
            if let Some(first) = imports.next() {
                return first.err().and_then(|_| imports.failure());
            }
            match libraries.next()? {
                Ok(library) => imports = library.imports(),
                Err(_) => return libraries.failure(),
            }
        }
    }
}

impl<'a> Image<'a> {
    /// The imports of all DLLs that the image imports from; none without an import directory. A DLL whose list is unmapped has none
    /// here, which [`Library::has_unmapped_list`] says of it. The names of DLLs and imports are
    /// read together from the first on, however many share one text; so the calls take two to four times as long for ordinary names as
    /// library by library, by [`Image::libraries`].
    ///
    /// # Errors
    ///
    /// [`Error::UNMAPPED`].
    pub fn imports(&self) -> Result<AllImports<'_, 'a>, Error> {
        let walk = self.ask(sys::pe_c_import_libraries)?;
        let walk = walk.map(|libraries| sys::LibraryImports { libraries, ..sys::LibraryImports::default() });
        let libraries = self.libraries()?.take_while(Result::is_ok).count() as u64;
        Ok(AllImports { list: ImageList::started(self, walk), libraries })
    }

    /// The DLLs that the image imports from, each with its imports; none without an import directory.
    ///
    /// # Errors
    ///
    /// [`Error::UNMAPPED`].
    pub fn libraries(&self) -> Result<Libraries<'_, 'a>, Error> {
        Ok(Libraries(ImageList::started(self, self.ask(sys::pe_c_import_libraries)?.map(sys::Libraries::into))))
    }
}
