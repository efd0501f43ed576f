//! Whole images, in both modes: what refuses one, and what the options and the machine leave out. Each field `image_texts` shows.
//! TE images and COFF objects as one value.

use crate::images::{
    MODES, image, object, reason_in, short, short_in, te_with_debug, with_byte, with_functions,
    with_imports, with_part,
};
use crate::imports::sharing;
use pe_image::{Coff, DebugData, Error, Limits, PE, ParseMode, ParseOptions, Reason, TE};
use std::alloc::{Allocator, Global};
use std::process::Abort;
use std::test::Fail;

pub(crate) fn in_mode(mode: ParseMode) -> ParseOptions {
    ParseOptions::default().with_parse_mode(mode)
}

/// What refuses these bytes in this mode.
fn refusal(alloc: Global, bytes: &[u8], mode: ParseMode) -> Result<Error, Fail> {
    let parsed = PE::parse_with_opts(alloc, bytes, &in_mode(mode));
    Ok(parsed.err().ok_or("given")?)
}

fn has_no_exports<A: Allocator + Copy + Drop>(pe: &PE<'_, A>) -> bool {
    pe.name.is_none() && pe.export_data.is_none() && pe.exports.is_empty()
}

fn has_no_imports<A: Allocator + Copy + Drop>(pe: &PE<'_, A>) -> bool {
    pe.import_data.is_none() && pe.imports.is_empty() && pe.libraries.is_empty()
}

/// Whether an image has none of the fields that are read by directories.
fn has_no_directories<A: Allocator + Copy + Drop>(pe: &PE<'_, A>) -> bool {
    has_no_exports(pe)
        && has_no_imports(pe)
        && pe.debug_data.is_none()
        && pe.exception_data.is_none()
        && pe.relocation_data.is_none()
        && pe.certificates.is_empty()
        && pe.resource_data.is_none()
}

/// What the image with functions has: two of them, an entry of debug data, and a certificate.
fn check_listed(rt: &impl Abort, pe: &PE<'_>) -> Result<(), Fail> {
    let functions = pe.exception_data.as_ref().ok_or("no exception data")?;
    let debug = pe.debug_data.as_ref().ok_or("no debug data")?;
    assert_eq!(rt; (functions.len(), debug.entries().len()), (2, 1));
    assert_eq!(rt; (pe.entry, pe.certificates.len()), (0x1000, 1));
    Ok(())
}

/// One bit of the characteristics says a library, with an optional header and without one.
#[test]
fn library_by_one_bit(rt: HostRuntime) -> Result<(), Fail> {
    for (characteristics, want) in [
        ([0x22, 0x20], true),
        ([0, 0x20], true),
        ([0xFF, 0xDF], false),
        ([0xFF, 0xFF], true),
    ] {
        for has_optional_header in [true, false] {
            let mut bytes = with_part(with_functions(rt.alloc())?, 0x56, &characteristics);
            if !has_optional_header {
                bytes = with_byte(bytes, 0x54, 0);
            }
            let pe = PE::parse(rt.alloc(), &bytes)?;
            assert_eq!(rt; pe.is_lib, want, "by {characteristics:?}");
            assert_eq!(rt; pe.is_64, has_optional_header);
            assert_eq!(rt; pe.entry, if has_optional_header { 0x1000 } else { 0 });
            assert_eq!(rt; pe.sections.len(), 1);
            assert_eq!(rt; has_no_directories(&pe), !has_optional_header);
        }
    }
    Ok(())
}

/// What refuses the imports refuses the image in both modes, unless the options pass imports over.
#[test]
fn refused_imports(rt: HostRuntime) -> Result<(), Fail> {
    let alloc = rt.alloc();
    let unmapped = with_part(with_imports(alloc)?, 0x26C, &[0, 0x30, 0, 0]);
    let no_text = with_byte(with_imports(alloc)?, 0x290, 0xFF);
    for mode in MODES {
        for (bytes, reason) in [
            (&unmapped, Reason::Unmapped(0x3000)),
            (&no_text, Reason::ImportName(0x1090)),
        ] {
            let refused = refusal(alloc, bytes, mode)?;
            assert!(rt; matches!(refused, Error::Malformed(found) if found == reason));
            let unlisted = PE::parse_without_lists(alloc, bytes, &in_mode(mode));
            let refused = unlisted.err().ok_or("given")?;
            assert!(rt; matches!(refused, Error::Malformed(found) if found == reason));
            let opts = ParseOptions {
                parse_imports: false,
                ..in_mode(mode)
            };
            let pe = PE::parse_with_opts(alloc, bytes, &opts)?;
            assert!(rt; has_no_imports(&pe));
            check_listed(&rt, &pe)?;
        }
    }
    Ok(())
}

/// What refuses these bytes with a limit of so many imports.
fn refusal_above(
    alloc: Global,
    bytes: &[u8],
    opts: &ParseOptions,
    imports: u32,
) -> Result<Error, Fail> {
    let parsed = PE::parse_with_limits(alloc, bytes, opts, &Limits { imports });
    Ok(parsed.err().ok_or("given")?)
}

/// An image of two imports, whose limit is their number, more, or fewer.
#[test]
fn limited_imports(rt: HostRuntime) -> Result<(), Fail> {
    let alloc = rt.alloc();
    let bytes = with_imports(alloc)?;
    for mode in MODES {
        for imports in [2, 3, u32::MAX] {
            let limits = Limits { imports };
            let pe = PE::parse_with_limits(alloc, &bytes, &in_mode(mode), &limits)?;
            check_listed(&rt, &pe)?;
            assert_eq!(rt; pe.imports.len(), 2);
        }
        for most in [0, 1] {
            let refused = refusal_above(alloc, &bytes, &in_mode(mode), most)?;
            // shows: pe_image/src/core_image.rt require_within ImportsLimit
            assert_matches!(rt; refused =>
                Error::Malformed(Reason::ImportsLimit { count: 2, limit }) if limit == most);
        }
    }
    Ok(())
}

/// 50,000 records of one list of 65,536 entries, in an image whose RVAs are file offsets. To list its imports would take 150
/// GiB.
#[test]
fn limited_imports_of_one_list(rt: HostRuntime) -> Result<(), Fail> {
    let alloc = rt.alloc();
    let mut after = Vec::new(alloc);
    after.extend_from_slice(b"a.dll\0\0\0")?;
    for _ in 0..1 << 16 {
        after.extend_from_slice(&[1, 0, 0, 0, 0, 0, 0, 0x80])?;
    }
    after.extend_from_slice(&[0; 8])?;
    let mut bytes = with_imports(alloc)?;
    let start = bytes.len() as u32;
    let [a, b, c, d] = u32::to_le_bytes(start);
    bytes = with_part(bytes, 0xD0, &[a, b, c, d]);
    let records = sharing(alloc, 50_000, &after, (start, start + 8), (0, 0))?;
    bytes.extend_from_slice(&records)?;
    for mode in MODES {
        let opts = ParseOptions {
            resolve_rva: false,
            ..in_mode(mode)
        };
        let refused = refusal_above(alloc, &bytes, &opts, 1_000_000)?;
        assert_eq!(rt;
            reason_in(refused),
            Some(Reason::ImportsLimit {
                count: 3_276_800_000,
                limit: 1_000_000
            })
        );
    }
    let opts = ParseOptions {
        resolve_rva: false,
        ..in_mode(ParseMode::Permissive)
    };
    let pe = PE::parse_without_lists(alloc, &bytes, &opts)?;
    assert!(rt; pe.imports.is_empty());
    Ok(())
}

/// 16 bytes are two entries of ARM64 and none of x64, and 12 bytes one of x64. Another machine has no exception data,
/// whatever its directory says.
#[test]
fn exceptions_by_machine(rt: HostRuntime) -> Result<(), Fail> {
    for (machine, size, want) in [
        ([0x64, 0xAA], 16, Some(Some(16))),
        ([0x64, 0xAA], 12, None),
        ([0x64, 0x86], 12, Some(Some(12))),
        ([0x64, 0x86], 16, None),
        ([0xC0, 1], 12, Some(None)),
        ([0xC0, 1], 13, Some(None)),
        ([0x64, 0x87], 12, Some(None)),
        ([0x64, 0xA6], 16, Some(None)),
    ] {
        let bytes = with_part(with_functions(rt.alloc())?, 0x44, &machine);
        let bytes = with_byte(bytes, 0xE4, size);
        match (PE::parse(rt.alloc(), &bytes), want) {
            (Ok(pe), Some(size)) => {
                let found = pe.exception_data.map(|data| data.table().len());
                assert_eq!(rt; found, size, "of {machine:?}");
            }
            (Err(refused), None) => {
                assert!(rt; matches!(refused, Error::Malformed(Reason::ExceptionSize(_))));
            }
            _ => return Err(Fail::new("another answer")),
        }
    }
    Ok(())
}

/// The options are those of the caller: RVAs are file offsets where they say so, and certificates are skipped.
#[test]
fn options_of_the_caller(rt: HostRuntime) -> Result<(), Fail> {
    let mut bytes = with_functions(rt.alloc())?;
    for (offset, address) in [(0xE1, 2), (0xF9, 2)] {
        bytes = with_byte(bytes, offset, address);
    }
    bytes = with_byte(bytes, 0xEC, 0xFF);
    let refused = PE::parse(rt.alloc(), &bytes).err().ok_or("given")?;
    assert!(rt; matches!(refused, Error::Malformed(Reason::Unmapped(0x240))));
    let flat = ParseOptions {
        resolve_rva: false,
        ..ParseOptions::default()
    };
    let refused = PE::parse_with_opts(rt.alloc(), &bytes, &flat)
        .err()
        .ok_or("given")?;
    assert!(rt; matches!(refused, Error::Malformed(Reason::CertificateTable(0x4FF))));
    let opts = ParseOptions {
        parse_attribute_certificates: false,
        ..flat
    };
    let pe = PE::parse_with_opts(rt.alloc(), &bytes, &opts)?;
    assert!(rt; pe.certificates.is_empty());
    assert!(rt; pe.debug_data.is_some());
    let data = pe.exception_data.as_ref().ok_or("no exception data")?;
    assert_eq!(rt; data.len(), 2);
    assert_eq!(rt; data.get_function(1)?.begin_address, 0x1020);
    Ok(())
}

/// What refuses a TE image.
fn te_refusal(alloc: Global, bytes: &[u8]) -> Result<Error, Fail> {
    Ok(TE::parse(alloc, bytes).err().ok_or("given")?)
}

fn check_no_debug(rt: &impl Abort, debug: &DebugData<'_>) {
    assert_eq!(rt; debug.entries().len(), 0);
    assert!(rt; debug.codeview_pdb70_debug_info.is_none());
    assert!(rt; debug.codeview_pdb20_debug_info.is_none());
    assert!(rt; debug.vcfeature_info.is_none());
    assert!(rt; debug.ex_dll_characteristics_info.is_none());
    assert!(rt; debug.repro_info.is_none() && debug.pogo_info.is_none());
}

#[test]
fn te_image_without_sections(rt: HostRuntime) -> Result<(), Fail> {
    let bytes = image(
        rt.alloc(),
        40,
        &[(0, &[0x56, 0x5A, 0x64, 0x86, 0, 0x0A, 0x28])],
    )?;
    let te = TE::parse(rt.alloc(), &bytes)?;
    assert_eq!(rt; te.rva_offset, 0);
    assert_eq!(rt; te.header.machine, 0x8664);
    assert_eq!(rt; te.header.subsystem, 10);
    assert!(rt; te.sections.is_empty());
    check_no_debug(&rt, &te.debug_data);
    let front = bytes.get(..39).ok_or("fewer bytes")?;
    let short = te_refusal(rt.alloc(), front)?;
    assert!(rt; matches!(short, Error::Short { at: 0, needed: 40 }));
    let bytes = with_byte(bytes, 6, 0x27);
    // shows: pe_core/src/header.rt rva_offset TeSize
    let stripped = te_refusal(rt.alloc(), &bytes)?;
    assert!(rt; matches!(stripped, Error::Malformed(Reason::TeSize(39))));
    let bytes = with_byte(bytes, 1, 0x5B);
    // shows: pe_core/src/header.rt parse BadMagic
    let magic = te_refusal(rt.alloc(), &bytes)?;
    assert!(rt; matches!(magic, Error::BadMagic(0x5B56)));
    Ok(())
}

/// The header, the sections and the debug data, in this order; debug data as in strict mode.
#[test]
fn refuses_te_images(rt: HostRuntime) -> Result<(), Fail> {
    let alloc = rt.alloc();
    let bytes = te_with_debug(alloc)?;
    let past_the_end = with_byte(bytes, 36, 0x70);
    let refused = te_refusal(alloc, &past_the_end)?;
    assert!(rt; matches!(refused, Error::Malformed(Reason::DebugBounds(0xC0))));
    let sections = with_byte(past_the_end, 4, 4);
    let refused = te_refusal(alloc, &sections)?;
    let found = refused;
    assert_eq!(rt; short_in(found), short(40, 160));
    let size = with_byte(te_with_debug(alloc)?, 0x60, 23);
    let refused = te_refusal(alloc, &size)?;
    assert!(rt; matches!(refused, Error::Malformed(Reason::DebugSize(23))));
    let outside = with_byte(size, 0x60, 31);
    let refused = te_refusal(alloc, &outside)?;
    assert!(rt; matches!(refused, Error::Malformed(Reason::DebugData(31))));
    Ok(())
}

/// Without an offset neither symbols nor strings, and no strings where the bytes end after the symbols.
#[test]
fn objects_without_tables(rt: HostRuntime) -> Result<(), Fail> {
    let bytes = object(rt.alloc())?;
    let front = bytes.get(..204).ok_or("fewer bytes")?;
    let coff = Coff::parse(rt.alloc(), front)?;
    assert_eq!(rt; coff.symbols.ok_or("no symbols")?.iter().count(), 5);
    assert!(rt; coff.strings.is_none());
    let bytes = with_byte(bytes, 8, 0);
    let coff = Coff::parse(rt.alloc(), &bytes)?;
    assert!(rt; coff.symbols.is_none() && coff.strings.is_none());
    assert_eq!(rt; coff.sections.len(), 1);
    Ok(())
}

#[test]
fn refuses_objects(rt: HostRuntime) -> Result<(), Fail> {
    let bytes = object(rt.alloc())?;
    for (len, offset, size) in [
        (0, 0, 20),
        (19, 0, 20),
        (20, 20, 40),
        (59, 20, 40),
        (60, 78, 126),
        (203, 78, 126),
    ] {
        let front = bytes.get(..len).ok_or("fewer bytes")?;
        let refused = Coff::parse(rt.alloc(), front).err().ok_or("given")?;
        assert!(rt;
            matches!(refused, Error::Short { at, needed } if at == offset && needed == size),
            "of {len} bytes"
        );
    }
    for (len, offset) in [(205, 1), (207, 3), (208, 4), (219, 15)] {
        let front = bytes.get(..len).ok_or("fewer bytes")?;
        let refused = Coff::parse(rt.alloc(), front).err().ok_or("given")?;
        assert!(rt;
            matches!(refused, Error::Malformed(Reason::StringTable(found)) if found == offset),
            "of {len} bytes"
        );
    }
    Ok(())
}
