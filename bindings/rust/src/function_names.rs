//! Names of functions without a PDB. Images of mingw-w64, and of Go and Rust for it, have COFF symbols, and DLLs have exports.
//! Most functions have no export, so the last name before an address is mostly that of another function. The function table says
//! which code is one function: within it no name is that of another. See
//! [Microsoft's page](https://learn.microsoft.com/windows/win32/debug/pe-format#coff-symbol-table).

use crate::coff::room_for;
use crate::image::{text_of, Error, Image};
use crate::shown::{self, shown};
use crate::stacks::DumpImages;
use crate::sys::{self, CodeAddress};
use alloc::collections::BTreeMap;
use alloc::vec::Vec;

/// What names an address.
#[derive(Clone, Copy, Debug, PartialEq, Eq)]
#[non_exhaustive]
pub enum NameSource {
    /// A COFF symbol.
    Symbol,
    /// An export.
    Export,
}

/// A table of an image of which names are read.
#[derive(Clone, Copy, Debug, PartialEq, Eq)]
#[non_exhaustive]
pub enum NameTable {
    /// The function table.
    Functions,
    /// The COFF symbols.
    Symbols,
    /// The string table, with the longer names of symbols.
    Strings,
    /// The exports.
    Exports,
}

/// The name of an address.
#[derive(Clone, Copy, PartialEq, Eq)]
#[non_exhaustive]
pub struct FunctionName<'a> {
    /// As the image has it: names of C++ and Rust are mangled. `None` where it is not text, or is longer than 4,095 bytes.
    pub name: Option<&'a str>,
    /// RVA that has the name.
    pub start: u32,
    /// How far after it the address is.
    pub offset: u32,
    /// What names it.
    pub source: NameSource,
    /// Whether it is only the last name before the address, in an image without a function table: it may be that of another function.
    pub is_nearest: bool,
}

shown! { FunctionName<'_> { name: shown::text, start, offset, source, is_nearest } }

impl<'a> Image<'a> {
    /// The tables of which names are read.
    fn name_sources(&self) -> sys::NameSources {
        // The call has no error.
        self.ask(sys::pe_c_name_tables).ok().flatten().unwrap_or_default()
    }

    /// The tables of which names are read and that are refused, with why: one that is damaged does not cost the others. By a refused
    /// function table nothing has a name.
    pub fn refused_name_tables(&self) -> impl Iterator<Item = (NameTable, Error)> {
        let sys::NameSources { functions_result, symbols_result, strings_result, exports_result, .. } =
            self.name_sources();
        let results = [
            (NameTable::Functions, functions_result),
            (NameTable::Symbols, symbols_result),
            (NameTable::Strings, strings_result),
            (NameTable::Exports, exports_result),
        ];
        let is_refused = |number: u32| !matches!(number, sys::DONE | sys::NOTHING);
        results
            .into_iter()
            .filter(move |it| is_refused(it.1))
            .map(|(table, number)| (table, Error::with_number(number)))
    }

    /// What names each of these addresses, in their order. It is the last function symbol at or before the address within its
    /// function; else the export that starts the function; in an image without a function table the last symbol or export at or before
    /// it. `None` where nothing names it. Ask for all addresses of an image at once: what has a name is sorted for each call.
    ///
    /// ```
    /// # #[path = "../tests/made/mod.rs"] mod made;
    /// # let bytes = made::with_exports();
    /// use pe_c::{CodeAddress, Image, Mode};
    ///
    /// let image = Image::parse(&bytes, Mode::Permissive)?;
    /// let exported = image.exports()?.next().expect("the image has exports")?;
    /// let address = CodeAddress { rva: exported.rva, is_return: 0 };
    /// let names = image.function_names(&[address])?;
    /// assert_eq!(names[0].expect("an export is there").name, Some(exported.name));
    /// # Ok::<(), pe_c::Error>(())
    /// ```
    ///
    /// # Errors
    ///
    /// [`Error::MEMORY`] where there is no memory for the names, or for 8 bytes for each symbol and each exported name.
    pub fn function_names(&self, addresses: &[CodeAddress]) -> Result<Vec<Option<FunctionName<'a>>>, Error> {
        let (view, sources) = (self.view(), self.name_sources());
        let count = usize::try_from(sources.room).map_err(|_| Error::MEMORY)?;
        let mut room = room_for(count, 0u64)?;
        let mut names = room_for(addresses.len(), sys::FunctionName::default())?;
        // SAFETY: the view and the record are lent for the call, the arrays have so many items, and none overlaps another.
        Error::of(unsafe {
            sys::pe_c_function_names(
                &view,
                &sources,
                addresses.as_ptr(),
                addresses.len(),
                room.as_mut_ptr(),
                room.len(),
                names.as_mut_ptr(),
                names.len(),
            )
        })?;
        Ok(names.iter().map(|it| self.name_of(it)).collect())
    }

    fn name_of(&self, found: &sys::FunctionName) -> Option<FunctionName<'a>> {
        let source = match found.source {
            0 => return None,
            1 => NameSource::Symbol,
            _ => NameSource::Export,
        };
        let name = text_of(found.name, self.bytes()).ok().filter(|it| !it.is_empty());
        let sys::FunctionName { start, offset, is_nearest, .. } = *found;
        Some(FunctionName { name, start, offset, source, is_nearest: is_nearest != 0 })
    }
}

impl<'a> DumpImages<'a> {
    /// What names each of these addresses of the process, in their order, by the image of the module that has it: of an address, and
    /// whether it is a return address, as [`Frame::has_called`](crate::Frame::has_called) says. `None` where nothing names it, also
    /// where no image of the module is found.
    ///
    /// # Errors
    ///
    /// Those of [`Image::function_names`].
    pub fn function_names(&self, addresses: &[(u64, bool)]) -> Result<Vec<Option<FunctionName<'a>>>, Error> {
        let mut of_modules: BTreeMap<usize, (Vec<usize>, Vec<CodeAddress>)> = BTreeMap::new();
        for (index, &(address, is_return)) in addresses.iter().enumerate() {
            let Some(module) = self.module_at(address.wrapping_sub(is_return.into())) else { continue };
            let base = self.modules()[module].base_of_image;
            let Ok(rva) = u32::try_from(address.wrapping_sub(base)) else { continue };
            let (places, asked) = of_modules.entry(module).or_default();
            places.push(index);
            asked.push(CodeAddress { rva, is_return: is_return.into() });
        }
        let mut names = room_for(addresses.len(), None)?;
        for (module, (places, asked)) in of_modules {
            let Some(found) = self.image(module) else { continue };
            for (place, name) in places.into_iter().zip(found.image.function_names(&asked)?) {
                names[place] = name;
            }
        }
        Ok(names)
    }
}
