//! The delay imports: DLLs that are loaded when one of their functions is called first.

use super::imports::hint_or_ordinal;
use super::{entry, Budget, List, Name, Part, Stamp, ENTRY};
use pe_c::{DelayImport, DelayedFunction, DirectoryIndex, Image};
use serde::Serialize;

#[derive(Clone, Debug, Serialize)]
pub struct Library<'a> {
    pub name: Name<'a>,
    pub name_lower: Option<String>,
    /// Of the DLL that the image is bound to, or 0.
    #[serde(flatten)]
    pub stamp: Stamp,
    #[serde(flatten)]
    pub functions: Part<List<Import<'a>>>,
}

entry!(Library<'_>, "delay_imports");
entry!(Import<'_>, "functions");

/// An import by name, with its hint, or by ordinal.
#[derive(Clone, Debug, Serialize)]
pub struct Import<'a> {
    pub name: Option<Name<'a>>,
    pub hint: Option<u32>,
    pub ordinal: Option<u32>,
}

fn import_of<'a>(function: DelayedFunction<'a>, library: &str, budget: &mut Budget) -> Option<Import<'a>> {
    let (hint, ordinal) = hint_or_ordinal(function.name, function.ordinal);
    // A table of imports has the DLL's name in each row.
    budget.takes(ENTRY + library.len() + function.name.map_or(0, str::len)).then(|| Import {
        name: function.name.map(Name::of),
        hint,
        ordinal,
    })
}

fn library_of<'a>(found: DelayImport<'a, 'a>, budget: &mut Budget) -> Option<Library<'a>> {
    budget.takes(ENTRY + found.name.len()).then(|| {
        let functions = List::limited(found.functions(), |it| import_of(it, found.name, budget));
        Library {
            name: Name::of(found.name),
            name_lower: Name::of(found.name).lower(),
            stamp: Stamp::of(found.descriptor().time_date_stamp),
            functions: Part::Present(budget.inside(functions)),
        }
    })
}

pub fn is_limited(libraries: &List<Library>) -> bool {
    libraries.is_limited_in(|library| &library.functions)
}

pub fn of<'a>(image: &'a Image<'_>) -> Part<List<Library<'a>>> {
    let mut budget = Budget::of(image);
    let libraries_of = |libraries| List::limited(libraries, |found| library_of(found, &mut budget));
    Part::of_walk(image.delay_imports().map(libraries_of), image, DirectoryIndex::DelayImport)
}
