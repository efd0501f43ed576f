//! The bound imports: DLLs whose addresses stand in the image already, for as long as they have the same time stamps.

use super::{entry, Budget, List, Name, Part, Stamp, ENTRY};
use pe_c::{BoundForwarder, BoundImport, DirectoryIndex, Image};
use serde::Serialize;

#[derive(Clone, Debug, Serialize)]
pub struct Bound<'a> {
    pub name: Name<'a>,
    pub name_lower: Option<String>,
    #[serde(flatten)]
    pub stamp: Stamp,
    /// The DLLs that it forwards to.
    #[serde(flatten)]
    pub forwarders: Part<List<Forwarder<'a>>>,
}

entry!(Bound<'_>, "bound_imports");

#[derive(Clone, Debug, Serialize)]
pub struct Forwarder<'a> {
    pub name: Name<'a>,
    pub name_lower: Option<String>,
    #[serde(flatten)]
    pub stamp: Stamp,
}

entry!(Forwarder<'_>, "forwarders");

fn forwarder_of<'a>(found: BoundForwarder<'a>, of_dll: &str, budget: &mut Budget) -> Option<Forwarder<'a>> {
    // A table has the name of the DLL that forwards in each row.
    let cost = ENTRY + of_dll.len() + found.name.len();
    let name = Name::of(found.name);
    budget.takes(cost).then(|| Forwarder { name, name_lower: name.lower(), stamp: Stamp::of(found.time_date_stamp) })
}

fn bound_of<'a>(found: BoundImport<'a>, budget: &mut Budget) -> Option<Bound<'a>> {
    budget.takes(ENTRY + found.name.len()).then(|| {
        let forwarders = List::limited(found.forwarders(), |it| forwarder_of(it, found.name, budget));
        Bound {
            name: Name::of(found.name),
            name_lower: Name::of(found.name).lower(),
            stamp: Stamp::of(found.time_date_stamp),
            forwarders: Part::Present(budget.inside(forwarders)),
        }
    })
}

pub fn is_limited(bound: &List<Bound>) -> bool {
    bound.is_limited_in(|it| &it.forwarders)
}

pub fn of<'a>(image: &'a Image<'_>) -> Part<List<Bound<'a>>> {
    let mut budget = Budget::of(image);
    let bound_imports_of = |bound| List::limited(bound, |found| bound_of(found, &mut budget));
    Part::of_walk(image.bound_imports().map(bound_imports_of), image, DirectoryIndex::BoundImport)
}
