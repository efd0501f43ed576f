//! The headers: the COFF header, the optional header, and the 16 data directories.

use super::all_headers::{self, AllHeaders};
use super::overlay::{self, Overlay};
use super::{Flags, Named, Stamp};
use crate::names::{CHARACTERISTICS, DIRECTORIES, DLL_CHARACTERISTICS, MACHINES, SUBSYSTEMS};
use pe_c::sys::Directory as DataDirectory;
use pe_c::{Image, Layout};
use serde::Serialize;

/// `IMAGE_FILE_DLL`
const IS_DLL: u16 = 0x2000;
/// The directory of the certificate table, the one whose first number is a file offset.
const SECURITY: usize = 4;

#[derive(Clone, Debug, Serialize)]
pub struct Headers {
    /// `PE32+`, `PE32`, or null without an optional header.
    pub format: Option<&'static str>,
    pub is_dll: bool,
    pub machine: Named,
    pub subsystem: Named,
    /// Seconds since 1970, or a hash where `is_reproducible`.
    #[serde(flatten)]
    pub stamp: Stamp,
    /// Null where the debug data are refused, which would say it.
    pub is_reproducible: Option<bool>,
    pub entry_rva: u32,
    pub image_base_va: u64,
    pub size_of_image: u32,
    pub size_of_headers: u32,
    pub section_alignment: u32,
    pub file_alignment: u32,
    pub checksum: u32,
    /// Null of a module in memory, and where hashes are left out.
    pub right_checksum: Option<u32>,
    /// `right`, `wrong`, or `none` where it is 0.
    pub checksum_state: Option<&'static str>,
    pub characteristics: Flags,
    pub dll_characteristics: Flags,
    /// The other numbers of the headers.
    #[serde(flatten)]
    pub all: Option<AllHeaders>,
    pub directories: Vec<Directory>,
    /// `None` where nothing follows the headers and the raw data of the sections.
    pub overlay: Option<Overlay>,
    /// Where a symbol server has the image, if this file has its name.
    pub symbol_server_path: Option<String>,
}

/// A data directory that is not absent.
#[derive(Clone, Debug, Serialize)]
pub struct Directory {
    pub index: usize,
    pub name: &'static str,
    /// Null of the certificate table.
    pub rva: Option<u32>,
    /// Of the certificate table in place of an RVA.
    pub file_offset: Option<u32>,
    pub size: u32,
}

/// x64 and ARM64, whose images are PE32+; x86 and ARM Thumb-2, whose images are PE32.
const OF_PE32_PLUS: [u32; 2] = [0x8664, 0xAA64];
const OF_PE32: [u32; 2] = [0x14C, 0x1C4];

impl Headers {
    /// Says that the format is not that of images for the machine: Windows refuses PE32 for x64.
    pub fn said_of_machine(&self) -> Option<String> {
        let format = self.format?;
        let (machines, own) = if format == "PE32" { (OF_PE32_PLUS, "PE32+") } else { (OF_PE32, "PE32") };
        let is_other = machines.contains(&self.machine.number);
        is_other.then(|| format!("{format}, but images for {} are {own}", self.machine))
    }
}

pub fn of(image: &Image<'_>, file_name: &str, has_hashes: bool) -> Headers {
    let info = image.info();
    let is_reproducible = image.repro().ok().map(|it| it.is_some());
    let (right_checksum, checksum_state) = if has_hashes { checksum_of(image) } else { (None, None) };
    Headers {
        format: match info.width {
            64 => Some("PE32+"),
            32 => Some("PE32"),
            _ => None,
        },
        is_dll: info.characteristics & IS_DLL != 0,
        machine: Named::of(info.machine.into(), MACHINES),
        subsystem: Named::of(info.subsystem.into(), SUBSYSTEMS),
        stamp: Stamp { seconds: info.time_date_stamp, is_hash: is_reproducible == Some(true) },
        is_reproducible,
        entry_rva: info.entry,
        image_base_va: info.base,
        size_of_image: info.size_of_image,
        size_of_headers: info.size_of_headers,
        section_alignment: info.section_alignment,
        file_alignment: info.file_alignment,
        checksum: info.checksum,
        right_checksum,
        checksum_state,
        characteristics: Flags::of(info.characteristics.into(), CHARACTERISTICS),
        dll_characteristics: Flags::of(info.dll_characteristics.into(), DLL_CHARACTERISTICS),
        all: all_headers::of(image),
        directories: directories_of(info.directories.iter().enumerate(), 0),
        overlay: overlay::of(image),
        symbol_server_path: info.symbol_path(file_name).map(|path| path.to_string()),
    }
}

/// The checksum that the image should have, and whether its own is that. A driver needs the right one, other images mostly
/// have 0.
fn checksum_of(image: &Image<'_>) -> (Option<u32>, Option<&'static str>) {
    if image.layout() == Layout::Mapped {
        return (None, None);
    }
    let right = image.checksum().ok().map(|it| it.value);
    (right, right.map(|right| checksum_state(image.info().checksum, right)))
}

/// `none` for 0, `right`, or `wrong`.
pub fn checksum_state(own: u32, right: u32) -> &'static str {
    match own {
        0 => "none",
        it if it == right => "right",
        _ => "wrong",
    }
}

/// Those that are not absent, by their indexes. In a TE image RVAs are `less` than the header has them.
pub fn directories_of<'r>(rows: impl Iterator<Item = (usize, &'r DataDirectory)>, less: u32) -> Vec<Directory> {
    rows.filter(|(_, row)| row.virtual_address.wrapping_add(less) != 0 || row.size != 0)
        .map(|(index, row)| Directory {
            index,
            name: DIRECTORIES[index],
            rva: (index != SECURITY).then_some(row.virtual_address),
            file_offset: (index == SECURITY).then_some(row.virtual_address),
            size: row.size,
        })
        .collect()
}
