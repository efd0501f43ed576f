//! COFF symbols: those of an object, and those that images of mingw-w64 and Go have.
//! <https://learn.microsoft.com/windows/win32/debug/pe-format#coff-symbol-table>

use super::name::text;
use super::{entry, Budget, List, Name, Named, Part, ENTRY};
use crate::names::{SECTION_NUMBERS, STORAGE_CLASSES};
use pe_c::{Error, Symbols};
use serde::Serialize;

#[derive(Clone, Debug, Serialize)]
pub struct Symbol<'a> {
    /// Of its entry in the table, in which auxiliary records have entries too.
    pub index: u64,
    pub name: Name<'a>,
    /// By the storage class, for instance an offset in the section.
    pub value: u32,
    /// From 1; 0 where the symbol is undefined, -1 where it is absolute, -2 of debugging.
    pub section_number: i16,
    /// The name of that section, the long one if it has one. Null where it is none.
    #[serde(flatten, serialize_with = "text::section")]
    pub section: Option<Name<'a>>,
    /// 0x20 is a function.
    pub r#type: u16,
    pub storage_class: Named,
    pub number_of_auxiliary_records: u8,
}

entry!(Symbol<'_>, "symbols");

impl Symbol<'_> {
    /// What the section number says where it is none of a section.
    pub fn no_section(&self) -> Option<&'static str> {
        SECTION_NUMBERS.iter().find(|it| it.0 == self.section_number).map(|it| it.1)
    }
}

/// All symbols, with the names of their sections, up to the first whose name is refused, or until the names are too long: many may
/// share one.
pub fn of<'a>(
    found: Result<Option<Symbols<'a>>, Error>,
    sections: &[Name<'a>],
    mut budget: Budget,
) -> Part<List<Symbol<'a>>> {
    let section_of = |number: i16| sections.get(usize::try_from(number).ok()?.checked_sub(1)?).copied();
    let mut list = |symbols: Symbols<'a>| {
        let named = symbols.map(|it| it.and_then(|symbol| Ok((symbol.name()?, symbol))));
        List::limited(named, |(name, symbol)| {
            let section = section_of(symbol.section_number);
            let length = name.len() + section.map_or(0, |it| it.0.len());
            budget.takes(ENTRY + length).then(|| Symbol {
                index: symbol.index,
                name: Name::of(name),
                value: symbol.value,
                section_number: symbol.section_number,
                section,
                r#type: symbol.kind,
                storage_class: Named::of(symbol.storage_class.into(), STORAGE_CLASSES),
                number_of_auxiliary_records: symbol.number_of_aux_symbols,
            })
        })
    };
    match found {
        Ok(Some(symbols)) => Part::Present(list(symbols)),
        Ok(None) => Part::Absent,
        Err(error) => Part::Refused(error.into()),
    }
}
