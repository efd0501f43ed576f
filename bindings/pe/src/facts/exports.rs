//! The exports: all entries of the address table, each with its ordinal and its names.

use super::{counted, field, Budget, Name, Part, ENTRY};
use pe_c::{DirectoryIndex, Error, Image};
use serde::Serialize;
use std::iter;

#[derive(Clone, Debug, Serialize)]
pub struct Exports<'a> {
    /// What the DLL calls itself.
    pub name: Option<Name<'a>>,
    pub name_lower: Option<String>,
    pub ordinal_base: u32,
    /// In the order of their ordinals; ordinals that are not used are left out.
    pub entries: Vec<Export<'a>>,
    /// Whether there are more names or entries, and what they share is too long to be shown as often.
    pub is_limited: bool,
    /// How many names stand in no entry: they are unmapped, not UTF-8, or lead to an ordinal that is not used. Null where there are
    /// more names or entries than are looked at.
    pub names_left_out: Option<usize>,
}

field!(Exports<'_>, "exports");

#[derive(Clone, Debug, Serialize)]
pub struct Export<'a> {
    pub ordinal: u64,
    pub rva: u32,
    pub names: Vec<Name<'a>>,
    /// `DLL.NAME` where another DLL has it.
    pub forwarder: Option<Name<'a>>,
}

impl Exports<'_> {
    pub fn forwarders(&self) -> usize {
        self.entries.iter().filter(|export| export.forwarder.is_some()).count()
    }

    /// Says how many names stand in no entry, if one does.
    pub fn left_out(&self) -> Option<String> {
        let names = counted(self.names_left_out.filter(|it| *it > 0)?, "name");
        Some(format!("{names} left out: unmapped, not UTF-8, or of no ordinal that is used"))
    }
}

pub fn of<'a>(image: &'a Image<'_>) -> Part<Exports<'a>> {
    Part::of_directory(exports_of(image), image, DirectoryIndex::Export)
}

fn exports_of<'a>(image: &'a Image<'_>) -> Result<Option<Exports<'a>>, Error> {
    let Some(table) = image.export_addresses()? else { return Ok(None) };
    let (names, mut is_limited) = names_of(image.exports()?, Budget::of(image))?;
    let mut names = names.into_iter().peekable();
    let (mut entries, mut budget) = (Vec::new(), Budget::of(image));
    for (index, entry) in (0..).zip(table.iter()).filter(|(_, entry)| entry.rva != 0) {
        if !budget.takes(ENTRY + entry.forwarder.map_or(0, str::len)) {
            is_limited = true;
            break;
        }
        // Names may lead to ordinals that are not used.
        while names.next_if(|(it, _)| *it < index).is_some() {}
        let own = iter::from_fn(|| names.next_if(|(it, _)| *it == index));
        entries.push(Export {
            ordinal: entry.ordinal,
            rva: entry.rva,
            names: own.map(|(_, name)| name).collect(),
            forwarder: entry.forwarder.map(Name::of),
        });
    }
    let name = table.name().map(Name::of);
    let name_lower = name.and_then(|it| it.lower());
    let shown = entries.iter().map(|it| it.names.len()).sum();
    let all = image.export_directory()?.map_or(0, |it| it.number_of_names as usize);
    let names_left_out = (!is_limited).then(|| all.saturating_sub(shown));
    Ok(Some(Exports { name, name_lower, ordinal_base: table.ordinal_base(), entries, is_limited, names_left_out }))
}

/// The names of exports in the order of their indexes, each with its index, and whether there are more.
type Names<'a> = (Vec<(u32, Name<'a>)>, bool);

fn names_of<'a>(exports: pe_c::Exports<'_, 'a>, mut budget: Budget) -> Result<Names<'a>, Error> {
    let (mut names, mut is_limited) = (Vec::new(), false);
    for export in exports {
        let export = export?;
        is_limited = !budget.takes(ENTRY + export.name.len());
        if is_limited {
            break;
        }
        names.push((export.index, Name::of(export.name)));
    }
    // Names of one entry stay in their order.
    names.sort_by_key(|(index, _)| *index);
    Ok((names, is_limited))
}
