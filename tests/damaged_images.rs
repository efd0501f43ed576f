//! Damaged images, in both modes: one that has every directory, each of which is damaged alone, and images that are truncated.
//! That of two damages the first refuses, and that what is not damaged stays, laws say.

use crate::damaged_images::Directory::{
    Certificates, Exceptions, Exports, Imports, Relocations, Resources,
};
use crate::damaged_images::Refusal::{For, Nothing, Short};
use crate::images::{MODES, with_every_directory, with_functions, with_part};
use crate::whole_images::in_mode;
use pe_core::Reason::{
    CertificateRevision, CertificateSize, CertificateTable, CertificateType, DebugData,
    ExceptionBounds, ExceptionOffset, ExceptionSize, ImportName, PogoSize, ResourceBounds,
    ResourceCycle, ResourceString, Unmapped,
};
use pe_image::{Error, PE, ParseMode, Reason};
use std::alloc::Global;
use std::process::Abort;
use std::test::Fail;

/// The directories of an image, in the order in which they refuse it. Exports never do.
#[derive(Clone, Copy, PartialEq)]
enum Directory {
    Exports,
    Imports,
    Debug,
    Exceptions,
    Relocations,
    Certificates,
    Resources,
}

const DIRECTORIES: [Directory; 7] = [
    Directory::Exports,
    Directory::Imports,
    Directory::Debug,
    Directory::Exceptions,
    Directory::Relocations,
    Directory::Certificates,
    Directory::Resources,
];

/// What refuses an image.
#[derive(Clone, Copy)]
enum Refusal {
    /// Nothing: the directory counts as absent.
    Nothing,
    For(Reason),
    Short(usize, usize),
}

impl Refusal {
    fn is(self, error: &Error) -> bool {
        match (self, error) {
            (Refusal::For(reason), Error::Malformed(found)) => *found == reason,
            (Refusal::Short(offset, size), Error::Short { at, needed }) => {
                *at == offset && *needed == size
            }
            _ => false,
        }
    }
}

/// These bytes at this offset, and what that refuses.
type Damage = (Directory, usize, &'static [u8], Refusal);

/// All that these name is refused in both modes where it is read alone.
const DAMAGES: [Damage; 25] = [
    (Exports, 0xC9, &[0x30], Nothing),
    (Exports, 0x31D, &[0x30], Nothing),
    (Exports, 0x31A, &[1], Nothing),
    (Imports, 0xD1, &[0x30], For(Unmapped(0x3000))),
    (Imports, 0x448, &[0xFF], For(ImportName(0x1248))),
    (Imports, 0x459, &[0x30], For(Unmapped(0x3090))),
    (Imports, 0x49A, &[0xFF], For(ImportName(0x1298))),
    (Directory::Debug, 0xF9, &[0x30], For(Unmapped(0x3040))),
    (Directory::Debug, 0x66D, &[0xFF], For(DebugData(0xFF1E))),
    (Directory::Debug, 0x688, &[4], For(PogoSize(4))),
    (Exceptions, 0xE4, &[0x20], For(ExceptionSize(32))),
    (Exceptions, 0xE1, &[0x30], For(Unmapped(0x3000))),
    (Exceptions, 0xE0, &[2], For(ExceptionOffset(0x202))),
    (Exceptions, 0xE6, &[0x18], For(ExceptionBounds(0x18_0218))),
    (Relocations, 0xF1, &[0x30], For(Unmapped(0x3000))),
    (Relocations, 0xF6, &[1], Short(0x600, 0x1_0010)),
    (Certificates, 0xE9, &[0x30], For(CertificateTable(0x3020))),
    (Certificates, 0xA16, &[9], For(CertificateType(9))),
    (Certificates, 0xA05, &[3], For(CertificateRevision(0x0300))),
    (Certificates, 0xA13, &[1], For(CertificateSize(0x100_000A))),
    (Resources, 0xD9, &[0x30], For(Unmapped(0x3000))),
    (Resources, 0xDE, &[1], For(ResourceBounds(0x1_05EB))),
    (
        Resources,
        0x534,
        &[0x20, 0, 0, 0x80],
        For(ResourceCycle(0x20)),
    ),
    (Resources, 0x572, &[0xFF, 0xFF], For(ResourceString(0))),
    (Resources, 0x565, &[0xFF], For(ResourceBounds(0x1_04EB))),
];

/// Whether an image has nothing of a directory.
fn is_empty(pe: &PE<'_>, directory: Directory) -> bool {
    match directory {
        Directory::Exports => {
            pe.name.is_none() && pe.export_data.is_none() && pe.exports.is_empty()
        }
        Directory::Imports => {
            pe.import_data.is_none() && pe.imports.is_empty() && pe.libraries.is_empty()
        }
        Directory::Debug => pe.debug_data.is_none(),
        Directory::Exceptions => pe.exception_data.is_none(),
        Directory::Relocations => pe.relocation_data.is_none(),
        Directory::Certificates => pe.certificates.is_empty(),
        Directory::Resources => pe.resource_data.is_none(),
    }
}

/// Refused for this.
fn check_refused(
    rt: &impl Abort,
    alloc: Global,
    bytes: &[u8],
    mode: ParseMode,
    refusal: Refusal,
) -> Result<(), Fail> {
    let error = PE::parse_with_opts(alloc, bytes, &in_mode(mode))
        .err()
        .ok_or("given")?;
    assert!(rt; refusal.is(&error), "{error:?}");
    Ok(())
}

/// Given, with this directory empty alone: that the others are as in the whole image a law says.
fn check_given(
    rt: &impl Abort,
    alloc: Global,
    bytes: &[u8],
    mode: ParseMode,
    empty: Directory,
) -> Result<(), Fail> {
    let pe = PE::parse_with_opts(alloc, bytes, &in_mode(mode))?;
    for (i, directory) in DIRECTORIES.into_iter().enumerate() {
        let found = is_empty(&pe, directory);
        assert_eq!(rt; found, directory == empty, "directory {i}");
    }
    Ok(())
}

#[test]
fn one_damage(rt: HostRuntime) -> Result<(), Fail> {
    let alloc = rt.alloc();
    for (directory, offset, part, refusal) in DAMAGES {
        let bytes = with_part(with_every_directory(alloc)?, offset, part);
        match directory {
            Exports => check_given(&rt, alloc, &bytes, ParseMode::Strict, directory)?,
            _ => check_refused(&rt, alloc, &bytes, ParseMode::Strict, refusal)?,
        }
        match directory {
            Imports => check_refused(&rt, alloc, &bytes, ParseMode::Permissive, refusal)?,
            _ => check_given(&rt, alloc, &bytes, ParseMode::Permissive, directory)?,
        }
    }
    Ok(())
}

/// What strict mode results of an image that is truncated.
#[derive(Clone, Copy, Debug, PartialEq)]
enum Kind {
    Given,
    Short,
    DebugBounds,
    CertificateTable,
    Other,
}

fn kind_of(parsed: &pe_image::Result<PE<'_>>) -> Kind {
    match parsed {
        Ok(_) => Kind::Given,
        Err(Error::Short { .. }) => Kind::Short,
        Err(Error::Malformed(Reason::DebugBounds(_))) => Kind::DebugBounds,
        Err(Error::Malformed(Reason::CertificateTable(_))) => Kind::CertificateTable,
        Err(_) => Kind::Other,
    }
}

/// The image with functions, cut to these lengths: strict mode's answer, and in permissive mode the debug entries that
/// are whole, whether one is truncated, the functions, and the certificates.
type Cut = (usize, usize, Kind, usize, bool, Option<usize>, usize);

const CUTS: [Cut; 5] = [
    (0x170, 0x217, Kind::DebugBounds, 0, false, None, 0),
    (0x218, 0x240, Kind::DebugBounds, 0, false, Some(2), 0),
    (0x241, 0x25B, Kind::DebugBounds, 0, true, Some(2), 0),
    (0x25C, 0x40F, Kind::CertificateTable, 1, false, Some(2), 0),
    (0x410, 0x410, Kind::Given, 1, false, Some(2), 1),
];

/// The debug entries that are whole, and the cut ones, which stand last.
fn count_entries(rt: &impl Abort, pe: &PE<'_>) -> Result<(usize, usize), Fail> {
    let debug = pe.debug_data.as_ref().ok_or("no debug data")?;
    let whole = debug.entries().take_while(|entry| entry.is_ok()).count();
    let all = debug.entries().count();
    assert!(rt; all <= whole.wrapping_add(1));
    Ok((whole, all.wrapping_sub(whole)))
}

#[test]
fn cut_to_every_length(rt: HostRuntime) -> Result<(), Fail> {
    let bytes = with_functions(rt.alloc())?;
    let mut lengths = 0u32;
    for length in 0..0x170 {
        let part = bytes.get(..length).ok_or("past the end")?;
        for mode in MODES {
            let parsed = PE::parse_with_opts(rt.alloc(), part, &in_mode(mode));
            assert_eq!(rt; kind_of(&parsed), Kind::Short, "at {length}");
        }
        lengths = lengths.wrapping_add(1);
    }
    for (from, to, kind, whole, is_cut, functions, certificates) in CUTS {
        for length in from..=to {
            let part = bytes.get(..length).ok_or("past the end")?;
            assert_eq!(rt; kind_of(&PE::parse(rt.alloc(), part)), kind, "at {length}");
            let pe = PE::parse_with_opts(rt.alloc(), part, &in_mode(ParseMode::Permissive))?;
            let found = count_entries(&rt, &pe)?;
            assert_eq!(rt; found, (whole, usize::from(is_cut)), "at {length}");
            let found = pe.exception_data.as_ref().map(|data| data.len());
            assert_eq!(rt; found, functions, "at {length}");
            assert_eq!(rt; pe.certificates.len(), certificates, "at {length}");
            assert_eq!(rt; pe.sections.len(), 1);
            assert_eq!(rt; pe.entry, 0x1000);
            lengths = lengths.wrapping_add(1);
        }
    }
    assert_eq!(rt; lengths, 0x411);
    Ok(())
}

/// A section whose size and offset in the file are the greatest numbers, and a certificate table of such numbers.
#[test]
fn greatest_numbers(rt: HostRuntime) -> Result<(), Fail> {
    let alloc = rt.alloc();
    let bytes = with_part(with_functions(alloc)?, 0x158, &[0xFF; 8]);
    let strict = PE::parse(alloc, &bytes);
    assert_eq!(rt; kind_of(&strict), Kind::DebugBounds);
    let pe = PE::parse_with_opts(alloc, &bytes, &in_mode(ParseMode::Permissive))?;
    assert_eq!(rt; count_entries(&rt, &pe)?, (0, 0));
    assert!(rt; pe.exception_data.is_none());
    assert_eq!(rt; pe.certificates.len(), 1);
    let bytes = with_part(with_functions(alloc)?, 0xE8, &[0xFF; 8]);
    let strict = PE::parse(alloc, &bytes);
    assert_eq!(rt; kind_of(&strict), Kind::CertificateTable);
    let pe = PE::parse_with_opts(alloc, &bytes, &in_mode(ParseMode::Permissive))?;
    assert_eq!(rt; count_entries(&rt, &pe)?, (1, 0));
    assert!(rt; pe.exception_data.is_some() && pe.certificates.is_empty());
    Ok(())
}
