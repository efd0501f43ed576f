//! The Rich header, which Microsoft's linker writes: which tools made the objects of an image.

use super::products::PRODUCTS;
use super::{entry, field, List, Part};
use crate::names::name_of;
use pe_c::Image;
use serde::Serialize;

#[derive(Clone, Debug, Serialize)]
pub struct Rich {
    pub key: u32,
    /// The linker takes it as the key: another key shows that the header, or what stands before it, was changed.
    pub checksum: u32,
    #[serde(flatten)]
    pub tools: Part<List<Tool>>,
}

field!(Rich, "rich");
entry!(Tool, "tools");

/// A tool, by its number, its name if that is known, and its build, and how many objects it made.
#[derive(Clone, Debug, Serialize)]
pub struct Tool {
    pub product: u16,
    pub product_name: Option<&'static str>,
    pub build: u16,
    pub count: u32,
}

pub fn of(image: &Image<'_>) -> Part<Rich> {
    let found = image.rich_header().map(|found| {
        found.map(|header| Rich {
            key: header.key,
            checksum: header.checksum,
            tools: Part::Present(List::of(header.entries(), |it| Tool {
                product: it.product,
                product_name: name_of(it.product.into(), PRODUCTS),
                build: it.build,
                count: it.count,
            })),
        })
    });
    found.into()
}
