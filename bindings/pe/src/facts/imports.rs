//! The imports: DLLs, and what is taken of each by name or by ordinal.

use super::{entry, Budget, List, Name, Part, Refusal, ENTRY};
use pe_c::{DirectoryIndex, Error, Image};
use serde::Serialize;

#[derive(Clone, Debug, Serialize)]
pub struct Library<'a> {
    pub name: Name<'a>,
    pub name_lower: Option<String>,
    #[serde(flatten)]
    pub functions: Part<List<Import<'a>>>,
    /// Why the lookup table is not read: `functions` has what the address table names in its place.
    pub lookup_table_error: Option<Refusal>,
}

entry!(Library<'_>, "imports");
entry!(Import<'_>, "functions");

/// An import by name, with its hint, or by ordinal.
#[derive(Clone, Debug, Serialize)]
pub struct Import<'a> {
    pub name: Option<Name<'a>>,
    pub hint: Option<u32>,
    pub ordinal: Option<u32>,
    /// RVA of the slot to which the loader writes the virtual address.
    pub slot_rva: u64,
}

/// The number of an import: the hint of one by name, or the ordinal of one without.
pub fn hint_or_ordinal(name: Option<&str>, number: u32) -> (Option<u32>, Option<u32>) {
    match name {
        Some(_) => (Some(number), None),
        None => (None, Some(number)),
    }
}

fn import_of<'a>(import: pe_c::Import<'a>, library: &str, budget: &mut Budget) -> Option<Import<'a>> {
    let (hint, ordinal) = hint_or_ordinal(import.name, import.ordinal);
    // A table of imports has the DLL's name in each row.
    budget.takes(ENTRY + library.len() + import.name.map_or(0, str::len)).then(|| Import {
        name: import.name.map(Name::of),
        hint,
        ordinal,
        slot_rva: import.rva,
    })
}

/// The imports of a library: those that its address table names where its lookup table is unmapped.
pub fn functions_of<'a>(library: &pe_c::Library<'a, 'a>) -> pe_c::Imports<'a, 'a> {
    if library.has_unmapped_list() {
        library.address_table()
    } else {
        library.imports()
    }
}

fn lookup_table_error_of(library: &pe_c::Library<'_, '_>) -> Option<Refusal> {
    let start = library.raw().lookup_table_rva;
    let said = || {
        format!(
            "lookup table of {} at RVA {start:#x}: unmapped, so its address table is listed",
            Name::of(library.name)
        )
    };
    (library.has_unmapped_list() && start != 0).then(|| Refusal { said: Some(said()), ..Error::UNMAPPED.into() })
}

pub fn is_limited(libraries: &List<Library>) -> bool {
    libraries.is_limited_in(|library| &library.functions)
}

pub fn of<'a>(image: &'a Image<'_>) -> Part<List<Library<'a>>> {
    let mut budget = Budget::of(image);
    let library_of = |library: pe_c::Library<'a, 'a>| {
        budget.takes(ENTRY + library.name.len()).then(|| {
            let functions = List::limited(functions_of(&library), |it| import_of(it, library.name, &mut budget));
            Library {
                name: Name::of(library.name),
                name_lower: Name::of(library.name).lower(),
                functions: Part::Present(budget.inside(functions)),
                lookup_table_error: lookup_table_error_of(&library),
            }
        })
    };
    let found = image.libraries().map(|libraries| List::limited(libraries, library_of));
    Part::of_walk(found, image, DirectoryIndex::Import)
}
