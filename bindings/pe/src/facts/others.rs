//! Files beside images: TE images, which firmware has, with one short header in place of all those of an image, and COFF objects,
//! which a compiler makes and a linker reads. <https://uefi.org/specs/PI/1.8/V1_TE_Image.html>,
//! <https://learn.microsoft.com/windows/win32/debug/pe-format#coff-file-header-object-and-image>

use super::headers::{directories_of, Directory};
use super::{kind_of, Named, Stamp, OBJECT_AS_IT_SEEMS, TE_IMAGE};
use crate::names::{MACHINES, SUBSYSTEMS};
use pe_c::{Coff, Te};
use serde::Serialize;

/// A file that is shown and is no image.
pub enum Other<'a> {
    Te(Te<'a>),
    Object(Coff<'a>),
}

impl<'a> Other<'a> {
    /// The TE image or the object in these bytes. An object starts with no signature: its machine has to be one that has a
    /// name, and it has sections, all of which lie in the file.
    pub fn parse(bytes: &'a [u8]) -> Option<Other<'a>> {
        match kind_of(bytes)? {
            TE_IMAGE => Te::parse(bytes).ok().map(Other::Te),
            OBJECT_AS_IT_SEEMS => Coff::parse(bytes).ok().filter(has_its_sections).map(Other::Object),
            _ => None,
        }
    }

    /// Why a file that starts as one of these is none.
    pub fn refused(bytes: &[u8]) -> Option<String> {
        match kind_of(bytes)? {
            TE_IMAGE => Te::parse(bytes).err().map(|error| format!("as a TE image: {error}")),
            OBJECT_AS_IT_SEEMS => Some(match Coff::parse(bytes) {
                Err(error) => format!("as a COFF object: {error}"),
                Ok(object) if object.sections().is_empty() => "as a COFF object: it has no section".to_string(),
                Ok(_) => "as a COFF object: the file ends before a section does".to_string(),
            }),
            _ => None,
        }
    }

    /// What the file is.
    pub fn kind(&self) -> &'static str {
        match self {
            Other::Te(_) => TE_IMAGE,
            Other::Object(_) => "a COFF object",
        }
    }

    pub fn bytes(&self) -> &'a [u8] {
        match self {
            Other::Te(te) => te.bytes(),
            Other::Object(object) => object.bytes(),
        }
    }
}

/// Whether there are sections, and all lie in the file. One of zeros, as `.bss`, has a size and is nowhere: its pointer is 0.
fn has_its_sections(object: &Coff<'_>) -> bool {
    let length = object.bytes().len() as u64;
    let lies = |it: &pe_c::Section| {
        let end = u64::from(it.pointer_to_raw_data) + u64::from(it.size_of_raw_data);
        it.pointer_to_raw_data == 0 || end <= length
    };
    !object.sections().is_empty() && object.sections().iter().all(lies)
}

/// The header of a TE image, or of an object.
#[derive(Clone, Debug, Serialize)]
#[serde(untagged)]
pub enum Headers {
    Te(TeHeaders),
    Object(ObjectHeaders),
}

/// The header of a TE image. RVAs are reduced by the bytes that the file is shorter, so that each is a file offset too.
#[derive(Clone, Debug, Serialize)]
pub struct TeHeaders {
    pub machine: Named,
    pub subsystem: Named,
    pub number_of_sections: u8,
    /// Bytes of headers that were stripped.
    pub stripped_size: u16,
    pub entry_rva: u32,
    pub base_of_code_rva: u32,
    pub image_base_va: u64,
    /// Base relocation and debug, if they are not absent.
    pub directories: Vec<Directory>,
}

/// The COFF header of an object.
#[derive(Clone, Debug, Serialize)]
pub struct ObjectHeaders {
    pub machine: Named,
    /// Seconds since 1970, or what the compiler puts there.
    #[serde(flatten)]
    pub stamp: Stamp,
    pub number_of_sections: u16,
    /// Of the symbols, or 0.
    pub symbol_table_file_offset: u32,
    /// Entries of the symbol table, auxiliary records included.
    pub number_of_symbols: u32,
    /// Bytes, the size field included; null without a string table.
    pub string_table_size: Option<usize>,
}

/// The directories that a TE image has, by their index in other images.
const BASE_RELOCATION: usize = 5;
const DEBUG: usize = 6;

/// Bytes of a TE image's own header, in place of those that were stripped.
const SIZE_OF_HEADER: u32 = 40;

pub fn headers_of(other: &Other<'_>) -> Headers {
    match other {
        Other::Te(te) => Headers::Te(te_headers_of(te)),
        Other::Object(object) => Headers::Object(object_headers_of(object)),
    }
}

fn te_headers_of(te: &Te<'_>) -> TeHeaders {
    let header = te.header();
    let rows = [(BASE_RELOCATION, &header.reloc_dir), (DEBUG, &header.debug_dir)];
    TeHeaders {
        machine: Named::of(header.machine.into(), MACHINES),
        subsystem: Named::of(header.subsystem.into(), SUBSYSTEMS),
        number_of_sections: header.number_of_sections,
        stripped_size: header.stripped_size,
        entry_rva: header.entry_point,
        base_of_code_rva: header.base_of_code,
        image_base_va: header.image_base,
        directories: directories_of(rows.into_iter(), u32::from(header.stripped_size).wrapping_sub(SIZE_OF_HEADER)),
    }
}

fn object_headers_of(object: &Coff<'_>) -> ObjectHeaders {
    let header = object.header();
    ObjectHeaders {
        machine: Named::of(header.machine.into(), MACHINES),
        stamp: Stamp::of(header.time_date_stamp),
        number_of_sections: header.number_of_sections,
        symbol_table_file_offset: header.pointer_to_symbol_table,
        number_of_symbols: header.number_of_symbol_table,
        string_table_size: object.string_table().ok().flatten().map(<[u8]>::len),
    }
}
