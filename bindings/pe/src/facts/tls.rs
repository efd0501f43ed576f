//! Thread-local storage: the data that each thread gets a copy of, and the callbacks, which run before the entry point.

use super::{entry, field, List, Part};
use pe_c::{DirectoryIndex, Image};
use serde::Serialize;

#[derive(Clone, Debug, Serialize)]
pub struct Tls {
    /// The data that each thread gets a copy of.
    pub start_va: u64,
    pub end_va: u64,
    /// Where the loader writes the number of the slot that leads to a copy.
    pub index_va: u64,
    /// How many zeros follow the data in a copy.
    pub zero_fill: u32,
    pub characteristics: u32,
    /// Virtual addresses; absent without a table of them.
    #[serde(flatten)]
    pub callbacks: Part<List<Callback>>,
}

/// The virtual address of a callback.
#[derive(Clone, Copy, Debug, Serialize)]
#[serde(transparent)]
pub struct Callback(pub u64);

field!(Tls, "tls");
entry!(Callback, "callbacks");

fn callbacks_of(image: &Image<'_>, has_table: bool) -> Part<List<Callback>> {
    image.tls_callbacks().map(|callbacks| has_table.then(|| List::of(callbacks, Callback))).into()
}

pub fn of(image: &Image<'_>) -> Part<Tls> {
    let found = image.tls().map(|found| {
        found.map(|tls| Tls {
            start_va: tls.start_address_of_raw_data,
            end_va: tls.end_address_of_raw_data,
            index_va: tls.address_of_index,
            zero_fill: tls.size_of_zero_fill,
            characteristics: tls.characteristics,
            callbacks: callbacks_of(image, tls.address_of_callbacks != 0),
        })
    });
    Part::of_directory(found, image, DirectoryIndex::Tls)
}
