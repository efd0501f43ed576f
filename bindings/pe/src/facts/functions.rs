//! The function table: x64's or ARM64's entries.

use super::{field, Part};
use pe_c::{DirectoryIndex, Error, Image};
use serde::Serialize;

#[derive(Clone, Debug, Serialize)]
#[serde(transparent)]
pub struct Functions {
    pub entries: Vec<Function>,
}

field!(Functions, "functions");

#[derive(Clone, Debug, Serialize)]
pub struct Function {
    pub start_rva: u32,
    /// Null on ARM64, where the length is in the unwind data.
    pub end_rva: Option<u32>,
    /// x64: RVA of the unwind record, or, plus 1, of the entry that it links to. ARM64: packed unwind data, or the RVA of
    /// the record.
    pub unwind: u32,
}

pub fn of(image: &Image<'_>) -> Part<Functions> {
    let found = functions_of(image).map(|found| found.map(|entries| Functions { entries }));
    Part::of_directory(found, image, DirectoryIndex::Exception)
}

fn functions_of(image: &Image<'_>) -> Result<Option<Vec<Function>>, Error> {
    if let Some(functions) = image.functions()? {
        let entries = functions.iter();
        return Ok(Some(
            entries.map(|it| Function { start_rva: it.begin, end_rva: Some(it.end), unwind: it.unwind }).collect(),
        ));
    }
    let Some(functions) = image.arm64_functions()? else { return Ok(None) };
    let entries = functions.iter();
    Ok(Some(entries.map(|it| Function { start_rva: it.begin, end_rva: None, unwind: it.unwind }).collect()))
}
