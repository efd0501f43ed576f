//! Base relocations: how many of each type every page has.

use super::{entry, List, Named, Part, Refusal};
use crate::names::RELOCATION_TYPES;
use pe_c::{DirectoryIndex, Image, RelocationBlock};
use serde::Serialize;
use std::collections::BTreeMap;

/// What is relocated of one page.
#[derive(Clone, Debug, Serialize)]
pub struct Page {
    pub page_rva: u32,
    pub types: Vec<Count>,
    /// Why there are no more.
    pub error: Option<Refusal>,
}

entry!(Page, "relocations");

/// How many relocations have a type.
#[derive(Clone, Debug, Serialize)]
pub struct Count {
    pub r#type: Named,
    pub count: usize,
}

/// The type that fills up a block, and relocates nothing.
const ABSOLUTE: u32 = 0;

impl Page {
    /// How many relocations it has, without those that fill it up.
    pub fn count(&self) -> usize {
        self.types.iter().filter(|it| it.r#type.number != ABSOLUTE).map(|it| it.count).sum()
    }
}

fn page_of(block: RelocationBlock<'_>) -> Page {
    let relocations = List::of(block.relocations(), |it| u32::from(it.kind));
    let mut counts = BTreeMap::new();
    for kind in relocations.entries {
        *counts.entry(kind).or_insert(0) += 1;
    }
    let types = counts.into_iter().map(|(kind, count)| Count { r#type: Named::of(kind, RELOCATION_TYPES), count });
    Page { page_rva: block.page_rva, types: types.collect(), error: relocations.error }
}

pub fn of(image: &Image<'_>) -> Part<List<Page>> {
    let found = image.relocation_blocks().map(|blocks| List::of(blocks, page_of));
    Part::of_walk(found, image, DirectoryIndex::BaseRelocation)
}
