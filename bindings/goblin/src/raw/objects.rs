//! COFF objects, TE images and refused headers, as goblin has them of what the calls return. goblin reads at an offset that the
//! caller names: a call gets the bytes from there on. Where a call refuses them, scroll's error is that of the plain reads.

use super::{bytes_at, short, slice, string_table_size, text, Range, Refusal};
use crate::error;
use crate::pe::header::{CoffHeader, SIZEOF_STRING_TABLE_SIZE};
use crate::pe::symbol::{self, SymbolTable};
#[cfg(feature = "te")]
use crate::pe::{data_directories::DataDirectory, header::TeHeader};
use crate::strtab::Strtab;
use pe_c::sys;

fn header_of(it: &CoffHeader) -> sys::CoffHeader {
    sys::CoffHeader {
        time_date_stamp: it.time_date_stamp,
        pointer_to_symbol_table: it.pointer_to_symbol_table,
        number_of_symbol_table: it.number_of_symbol_table,
        machine: it.machine,
        number_of_sections: it.number_of_sections,
        size_of_optional_header: it.size_of_optional_header,
        characteristics: it.characteristics,
    }
}

/// The COFF header at an offset. Error: scroll's where it is truncated.
pub(crate) fn coff_header(bytes: &[u8], at: usize) -> error::Result<CoffHeader> {
    match super::coff(bytes.get(at..).unwrap_or_default()) {
        Ok(Some(found)) => Ok((&found).into()),
        _ => Err(short(bytes, at, &[2, 2, 4, 4, 4, 2, 2])),
    }
}

/// The symbol table of a header. Error: scroll's where it is truncated.
pub(crate) fn symbols_of<'a>(bytes: &'a [u8], header: &CoffHeader) -> error::Result<Option<&'a [u8]>> {
    match super::coff_symbols(bytes, &header_of(header)) {
        Ok(Some(walk)) => slice(bytes, walk.table).map(Some),
        Ok(None) => Ok(None),
        Err(_) => {
            let size = SymbolTable::size(header.number_of_symbol_table as usize);
            bytes_at(bytes, header.pointer_to_symbol_table as usize, size).map(Some)
        }
    }
}

/// The string table of a header, without its size field. Errors: scroll's where that is truncated, `Malformed` where the texts are.
pub(crate) fn strings_of<'a>(bytes: &'a [u8], header: &CoffHeader) -> error::Result<Option<Strtab<'a>>> {
    match super::coff_strings(bytes, &header_of(header)) {
        Ok(Some(found)) => Ok(slice(bytes, found)?.get(SIZEOF_STRING_TABLE_SIZE..).map(|it| Strtab::new(it, 0))),
        Ok(None) => Ok(None),
        Err(_) => {
            let symbols = SymbolTable::size(header.number_of_symbol_table as usize);
            let at = header.pointer_to_symbol_table as usize + symbols;
            let size = string_table_size(bytes, at)?.max(SIZEOF_STRING_TABLE_SIZE as u32) as usize;
            Strtab::parse(bytes, at + SIZEOF_STRING_TABLE_SIZE, size - SIZEOF_STRING_TABLE_SIZE, 0).map(Some)
        }
    }
}

/// The symbol at an offset of a table, and its name where that stands in the symbol itself and is UTF-8. Error: scroll's where it
/// is truncated.
pub(crate) fn symbol(table: &[u8], at: usize) -> error::Result<(Option<&str>, symbol::Symbol)> {
    let entry = Range { offset: at as u64, length: symbol::COFF_SYMBOL_SIZE as u64 };
    let Ok(Some(found)) = super::symbol_at(table, &entry, 0) else {
        return Err(short(table, at, &[1, 1, 1, 1, 1, 1, 1, 1, 4, 2, 2, 1, 1]));
    };
    let symbol = symbol::Symbol {
        name: found.name,
        value: found.value,
        section_number: found.section_number,
        typ: found.kind,
        storage_class: found.storage_class,
        number_of_aux_symbols: found.number_of_aux_symbols,
    };
    let name = super::symbol_name(table, &entry, &Range::default(), 0).ok().flatten();
    Ok((name.map(|it| text(table, it)).transpose()?, symbol))
}

/// The header of a TE image at an offset, its RVAs reduced. Errors: scroll's where it is truncated; `BadMagic`; `Malformed`.
#[cfg(feature = "te")]
pub(crate) fn te_header(bytes: &[u8], at: usize) -> error::Result<TeHeader> {
    let there = bytes.get(at..).unwrap_or_default();
    match super::te(there) {
        Ok(Some(it)) => Ok(TeHeader {
            signature: it.signature,
            machine: it.machine,
            number_of_sections: it.number_of_sections,
            subsystem: it.subsystem,
            stripped_size: it.stripped_size,
            entry_point: it.entry_point,
            base_of_code: it.base_of_code,
            image_base: it.image_base,
            reloc_dir: directory_of(it.reloc_dir),
            debug_dir: directory_of(it.debug_dir),
        }),
        Ok(None) | Err(Refusal::SHORT) => Err(short(bytes, at, &[2, 2, 1, 1, 2, 4, 4, 8, 4, 4, 4, 4])),
        Err(refusal) => Err(refusal.with(super::te_failure(there))),
    }
}

#[cfg(feature = "te")]
fn directory_of(it: sys::Directory) -> DataDirectory {
    DataDirectory { virtual_address: it.virtual_address, size: it.size }
}

impl Refusal {
    /// The error of headers, in goblin's variant, by what the library says of their failure.
    fn with(self, failure: Result<Option<sys::Failure>, Refusal>) -> error::Error {
        match failure {
            Ok(Some(failure)) if self == Refusal::BAD_MAGIC => error::Error::BadMagic(failure.value),
            _ => self.into(),
        }
    }

    /// The error of pe_c_image, in goblin's variant.
    pub fn of_headers(self, bytes: &[u8], mode: u32) -> error::Error {
        match self {
            Refusal::SHORT if bytes.len() < 2 => {
                error::Error::Malformed("cannot parse DOS signature (offset 0x0)".to_owned())
            }
            Refusal::SHORT if bytes.len() < 64 => {
                error::Error::Malformed("cannot parse PE header pointer (offset 0x3c)".to_owned())
            }
            other => other.with(super::image_failure(bytes, mode)),
        }
    }
}
