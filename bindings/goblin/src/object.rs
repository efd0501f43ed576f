//! What a file is, by its first bytes.
//!
//! Images, TE images and objects are this crate's; ELF files, Mach-O files and archives goblin's own, with the feature `rest`.
//! Without it they are `Unknown`.

use crate::pe::{self, header};
use crate::{error, raw};
use std::io::{Read, Seek, SeekFrom};

#[cfg(feature = "rest")]
use crate::{archive, elf, mach, HintData};

/// A file of a format that is known, by its first bytes.
#[derive(Debug)]
#[non_exhaustive]
#[allow(clippy::large_enum_variant)]
pub enum Object<'a> {
    /// An ELF file.
    #[cfg(feature = "rest")]
    Elf(elf::Elf<'a>),
    /// A PE image.
    PE(pe::PE<'a>),
    /// A TE image.
    #[cfg(feature = "te")]
    TE(pe::TE<'a>),
    /// A COFF object of x86, x64 or ARM64.
    COFF(pe::Coff<'a>),
    /// A Mach-O file, or several in one.
    #[cfg(feature = "rest")]
    Mach(mach::Mach<'a>),
    /// A Unix archive.
    #[cfg(feature = "rest")]
    Archive(archive::Archive<'a>),
    /// None of these, with its first eight bytes.
    Unknown(u64),
}

impl<'a> Object<'a> {
    /// Reads a file of any of the formats. Errors: `Malformed` of less than sixteen bytes, and those of the format.
    pub fn parse(bytes: &'a [u8]) -> error::Result<Object<'a>> {
        let start = bytes.first_chunk().ok_or_else(|| error::Error::Malformed("Object is too small.".to_owned()))?;
        Ok(match peek_bytes(start)? {
            #[cfg(feature = "rest")]
            Hint::Elf(_) => Object::Elf(elf::Elf::parse(bytes)?),
            #[cfg(feature = "rest")]
            Hint::Mach(_) | Hint::MachFat(_) => Object::Mach(mach::Mach::parse(bytes)?),
            #[cfg(feature = "rest")]
            Hint::Archive => Object::Archive(archive::Archive::parse(bytes)?),
            Hint::PE => Object::PE(pe::PE::parse(bytes)?),
            #[cfg(feature = "te")]
            Hint::TE => Object::TE(pe::TE::parse(bytes)?),
            Hint::COFF => Object::COFF(pe::Coff::parse(bytes)?),
            Hint::Unknown(magic) => Object::Unknown(magic),
        })
    }
}

/// Which format the first bytes of a file are of.
#[derive(Debug)]
#[non_exhaustive]
pub enum Hint {
    /// An ELF file.
    #[cfg(feature = "rest")]
    Elf(HintData),
    /// A Mach-O file.
    #[cfg(feature = "rest")]
    Mach(HintData),
    /// So many Mach-O files in one.
    #[cfg(feature = "rest")]
    MachFat(usize),
    /// A PE image.
    PE,
    /// A TE image.
    #[cfg(feature = "te")]
    TE,
    /// A COFF object of x86, x64 or ARM64.
    COFF,
    /// A Unix archive.
    #[cfg(feature = "rest")]
    Archive,
    /// None of these, with the first eight bytes.
    Unknown(u64),
}

/// The format of which a file's first bytes are, as a file says it. Errors: those of the file. The file is read from its start
/// next.
pub fn peek<R: Read + Seek>(file: &mut R) -> error::Result<Hint> {
    let mut bytes = [0; 16];
    file.seek(SeekFrom::Start(0))?;
    file.read_exact(&mut bytes)?;
    file.seek(SeekFrom::Start(0))?;
    peek_bytes(&bytes)
}

/// The format of which bytes are.
pub fn peek_bytes(bytes: &[u8; 16]) -> error::Result<Hint> {
    match raw::record::<u16>(bytes, 0)? {
        header::DOS_MAGIC => Ok(Hint::PE),
        #[cfg(feature = "te")]
        header::TE_MAGIC => Ok(Hint::TE),
        header::COFF_MACHINE_X86 | header::COFF_MACHINE_X86_64 | header::COFF_MACHINE_ARM64 => Ok(Hint::COFF),
        _ => peek_others(bytes),
    }
}

#[cfg(not(feature = "rest"))]
fn peek_others(bytes: &[u8; 16]) -> error::Result<Hint> {
    Ok(Hint::Unknown(raw::record(bytes, 0)?))
}

#[cfg(feature = "rest")]
fn peek_others(bytes: &[u8; 16]) -> error::Result<Hint> {
    Ok(match rest::peek_bytes(bytes)? {
        rest::Hint::Elf(it) => Hint::Elf(it),
        rest::Hint::Mach(it) => Hint::Mach(it),
        rest::Hint::MachFat(count) => Hint::MachFat(count),
        rest::Hint::Archive => Hint::Archive,
        rest::Hint::PE => Hint::PE,
        rest::Hint::Unknown(magic) => Hint::Unknown(magic),
    })
}
