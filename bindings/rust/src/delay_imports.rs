//! Delay imports: DLLs that are loaded when one of their functions is called first. The directory has an entry of 32 bytes for
//! each DLL, which leads to the DLL's name and to a table of what is imported of it, by name or by ordinal. See
//! [Microsoft's page](https://learn.microsoft.com/windows/win32/debug/pe-format#delay-load-import-tables-image-only).

use crate::failure::Failure;
use crate::image::{text_of, Error, Image};
use crate::shown::{self, shown};
use crate::sys;
use crate::walk::{most_names, ImageList, Together};
use core::iter::FusedIterator;

/// A DLL that is loaded when one of its functions is called first.
#[derive(Clone, Copy)]
pub struct DelayImport<'i, 'a> {
    image: &'i Image<'a>,
    /// The DLL's name, without its final zero.
    pub name: &'a str,
    raw: sys::DelayImport,
}

shown! { DelayImport<'_, '_> { name: shown::name, raw; .. } }

impl<'i, 'a> DelayImport<'i, 'a> {
    /// The entry of the directory, with the addresses of its tables.
    pub fn descriptor(&self) -> &sys::DelayDescriptor {
        &self.raw.descriptor
    }

    /// The functions that are imported of this DLL.
    pub fn functions(&self) -> DelayedFunctions<'i, 'a> {
        DelayedFunctions(ImageList::new(self.image, self.raw.functions.into()))
    }
}

/// The DLLs of the delay import directory, in its order. The directory ends with its bytes, or at an entry without the address
/// of a name.
///
/// The last item may be an error: [`Error::SHORT`] of the entry; [`Error::DIRECTORY_VA_BELOW_BASE`], [`Error::UNMAPPED`],
/// [`Error::DIRECTORY_DELAY_IMPORT_NAME`] of the name; [`Error::DIRECTORY_VA_BELOW_BASE`], [`Error::UNMAPPED`] of the table of
/// functions.
///
/// ```
/// # #[path = "../tests/made/mod.rs"] mod made;
/// # let bytes = made::with_delay_imports();
/// use pe_c::{Image, Mode};
///
/// let image = Image::parse(&bytes, Mode::Permissive)?;
/// let mut found = Vec::new();
/// for import in image.delay_imports()? {
///     let import = import?;
///     for function in import.functions() {
///         found.push((import.name, function?.name));
///     }
/// }
/// assert_eq!(found[0], ("dbghelp.dll", Some("SymInitialize")));
/// assert_eq!(found[1], ("dbghelp.dll", None)); // by ordinal
/// # Ok::<(), pe_c::Error>(())
/// ```
#[derive(Clone, Debug)]
pub struct DelayImports<'i, 'a>(ImageList<'i, 'a, sys::DelayImportWalk, sys::DelayImport>);

impl<'i, 'a> Iterator for DelayImports<'i, 'a> {
    type Item = Result<DelayImport<'i, 'a>, Error>;

    fn next(&mut self) -> Option<Self::Item> {
        let image = self.0.source;
        // At most all that the walk has left, and four times as many as there were.
        let most = |walk: &sys::DelayImportWalk, taken: usize| {
            (walk.entries.length / 32).min((4 * taken).min(most_names(image.bytes())) as u64) as usize
        };
        let call = sys::pe_c_list_delay_imports as Together<_, _>;
        let found = self.0.step_together(call, 1, most, |it: &sys::DelayImport| it.name.length)?;
        Some(found.and_then(|raw| {
            let name = text_of(raw.name, image.bytes())?;
            Ok(DelayImport { image, name, raw })
        }))
    }
}

impl FusedIterator for DelayImports<'_, '_> {}

impl DelayImports<'_, '_> {
    /// Why the item that is an error is one: the error with its numbers. `None` where no item was an error.
    pub fn failure(&self) -> Option<Failure> {
        self.0.failure(sys::pe_c_delay_import_failure, |it| &it.entries)
    }
}

/// A function of a DLL that is loaded later, by name or by ordinal.
#[derive(Clone, Copy, Default, PartialEq, Eq)]
#[cfg_attr(feature = "serde", derive(serde::Serialize))]
#[non_exhaustive]
pub struct DelayedFunction<'a> {
    /// Without its final zero; `None` for an import by ordinal.
    pub name: Option<&'a str>,
    /// The ordinal; with a name its hint, an index into the DLL's table of names.
    pub ordinal: u32,
}

shown! { DelayedFunction<'_> { name: shown::text, ordinal } }

impl<'a> DelayedFunction<'a> {
    fn of(found: &sys::DelayedFunction, bytes: &'a [u8]) -> Result<Self, Error> {
        let name = text_of(found.name, bytes)?;
        Ok(DelayedFunction { name: (found.has_name != 0).then_some(name), ordinal: found.ordinal })
    }
}

/// The functions of a DLL, in the order of its table.
///
/// The last item may be an error: [`Error::SHORT`] where the bytes end before the table does; of an import by name
/// [`Error::DIRECTORY_VA_BELOW_BASE`], [`Error::UNMAPPED`] of its address, [`Error::SHORT`] of the hint there,
/// [`Error::DIRECTORY_DELAY_IMPORT_NAME`]. [`DelayImports`] has an example.
#[derive(Clone, Debug)]
pub struct DelayedFunctions<'i, 'a>(ImageList<'i, 'a, sys::DelayedFunctionWalk, sys::DelayedFunction>);

impl<'a> Iterator for DelayedFunctions<'_, 'a> {
    type Item = Result<DelayedFunction<'a>, Error>;

    fn next(&mut self) -> Option<Self::Item> {
        let bytes = self.0.source.bytes();
        // Nothing says how many are left: four times as many as there were.
        let most = |_: &sys::DelayedFunctionWalk, taken: usize| (4 * taken).min(most_names(bytes));
        let call = sys::pe_c_list_delayed_functions as Together<_, _>;
        let found = self.0.step_together(call, 1, most, |it: &sys::DelayedFunction| it.name.length)?;
        Some(found.and_then(|found| DelayedFunction::of(&found, bytes)))
    }
}

impl FusedIterator for DelayedFunctions<'_, '_> {}

impl DelayedFunctions<'_, '_> {
    /// Why the item that is an error is one: the error with its numbers. `None` where no item was an error.
    pub fn failure(&self) -> Option<Failure> {
        self.0.failure(sys::pe_c_delayed_function_failure, |it| &it.functions)
    }
}

/// A function, and the DLL that it is of.
#[derive(Clone, Copy, Default, PartialEq, Eq)]
#[cfg_attr(feature = "serde", derive(serde::Serialize))]
#[non_exhaustive]
pub struct LibraryFunction<'a> {
    /// The DLL's name, without its final zero.
    pub library: &'a str,
    /// The DLL's index among [`Image::delay_imports`].
    pub index: u64,
    /// The function.
    pub function: DelayedFunction<'a>,
}

shown! { LibraryFunction<'_> { library: shown::name, index, function } }

/// The functions of all DLLs that are loaded later, one DLL after the other.
///
/// DLLs may share one table, whose functions are returned for each of them: there may be far more than a file has bytes.
///
/// The last item may be an error: of the functions of the DLLs before it, or that of the next DLL, as [`DelayedFunctions`] and
/// [`DelayImports`] have them.
///
/// ```
/// # #[path = "../tests/made/mod.rs"] mod made;
/// # let bytes = made::with_delay_imports();
/// use pe_c::{Image, Mode};
///
/// let image = Image::parse(&bytes, Mode::Permissive)?;
/// let functions: Vec<_> = image.delayed_functions()?.collect::<Result<_, _>>()?;
/// let names: Vec<_> = functions.iter().map(|it| (it.library, it.function.name)).collect();
/// assert_eq!(names[0], ("dbghelp.dll", Some("SymInitialize")));
/// // The second is imported by its ordinal.
/// assert_eq!(names[1..], [("dbghelp.dll", None), ("VERSION.dll", Some("VerQueryValueW"))]);
/// # Ok::<(), pe_c::Error>(())
/// ```
#[derive(Clone, Debug)]
pub struct AllDelayedFunctions<'i, 'a>(ImageList<'i, 'a, sys::LibraryFunctions, sys::LibraryFunction>);

impl<'a> Iterator for AllDelayedFunctions<'_, 'a> {
    type Item = Result<LibraryFunction<'a>, Error>;

    fn next(&mut self) -> Option<Self::Item> {
        let bytes = self.0.source.bytes();
        // No more DLLs than entries of the directory are left.
        let more = |walk: &sys::LibraryFunctions| (walk.libraries.length / 32) as usize;
        let found = self.0.step_with_runs(sys::pe_c_list_all_delayed_functions, more)?;
        Some(found.and_then(|found| {
            let function = DelayedFunction::of(&found.function, bytes)?;
            Ok(LibraryFunction { library: text_of(found.library_name, bytes)?, index: found.library, function })
        }))
    }
}

impl FusedIterator for AllDelayedFunctions<'_, '_> {}

impl AllDelayedFunctions<'_, '_> {
    /// Why the item that is an error is one, as [`DelayedFunctions::failure`] or [`DelayImports::failure`] says it. `None` where no item
    /// was an error.
    pub fn failure(&self) -> Option<Failure> {
        let (image, before) = (self.0.source, self.0.refused()?);
        let mut functions = DelayedFunctions(ImageList::new(image, before.functions.into()));
        let mut libraries = DelayImports(ImageList::new(image, before.libraries.into()));
        // The step that was refused may have passed DLLs without functions.
        loop {
            if let Some(first) = functions.next() {
                return first.err().and_then(|_| functions.failure());
            }
            match libraries.next()? {
                Ok(library) => functions = library.functions(),
                Err(_) => return libraries.failure(),
            }
        }
    }
}

impl<'a> Image<'a> {
    /// The DLLs that are loaded when one of their functions is called first, each with its functions; none where the
    /// directory is absent.
    ///
    /// # Errors
    ///
    /// [`Error::UNMAPPED`], [`Error::SHORT`].
    pub fn delay_imports(&self) -> Result<DelayImports<'_, 'a>, Error> {
        Ok(DelayImports(ImageList::started(self, self.ask(sys::pe_c_delay_imports)?.map(sys::Range::into))))
    }

    /// The functions of all DLLs of the delay import directory; none where it is absent. The names of DLLs and functions are read
    /// together from the first on, however many share one text.
    ///
    /// # Errors
    ///
    /// [`Error::UNMAPPED`], [`Error::SHORT`].
    pub fn delayed_functions(&self) -> Result<AllDelayedFunctions<'_, 'a>, Error> {
        let walk = self.ask(sys::pe_c_delay_imports)?;
        let walk = walk.map(|libraries| sys::LibraryFunctions { libraries, ..sys::LibraryFunctions::default() });
        Ok(AllDelayedFunctions(ImageList::started(self, walk)))
    }
}
