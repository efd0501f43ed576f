//! The texts of a listing, of certificates and functions, the refusals of images, and images that are written anew; what is found, and other
//! texts, `runs` has.

use super::lines::{ARM64_FUNCTION_LINES, CERTIFICATE_LINES, DEBUG_LINES, FUNCTION_LINES};
use crate::counted_out::CountedOut;
use crate::engine::ReportError;
use crate::report::report;
use crate::rewrite::rewrite;
use pe_image::{Error, ParseMode, ParseOptions, Reason};
use pe_images::{put, with_certificate, with_functions};
use std::alloc::Global;
use std::test::{Fail, *};

/// The text of an image, with no failed write.
fn text(alloc: Global, bytes: &[u8], mode: ParseMode) -> Result<Vec<u8>, ReportError> {
    let opts = ParseOptions::default().with_parse_mode(mode);
    let mut out = CountedOut::new(Vec::new(alloc));
    report(alloc, bytes, &opts, &mut out)?;
    Ok(out.into_inner())
}

/// The refusal of an image in strict mode.
fn refusal(alloc: Global, bytes: &[u8]) -> Option<Reason> {
    match text(alloc, bytes, ParseMode::Strict) {
        Err(ReportError::Parse(Error::Malformed(reason))) => Some(reason),
        _ => None,
    }
}

#[test]
fn certificates_of_images(rt: HostRuntime) -> Result<(), Fail> {
    let alloc = rt.alloc();
    let mut bytes = with_certificate(alloc)?;
    for mode in [ParseMode::Strict, ParseMode::Permissive] {
        assert_eq!(rt; text(alloc, &bytes, mode)?.as_slice(), CERTIFICATE_LINES);
    }
    let opts = ParseOptions {
        parse_attribute_certificates: false,
        ..ParseOptions::default()
    };
    let mut out = CountedOut::new(Vec::new(alloc));
    report(alloc, &bytes, &opts, &mut out)?;
    assert_eq!(rt; out.into_inner().as_slice(), DEBUG_LINES);

    // A table that passes the end of the file, a revision that is none, and a type that is none.
    for (offset, byte, want) in [
        (0xEC, 0x11, Reason::CertificateTable(0x411)),
        (0x405, 3, Reason::CertificateRevision(0x0300)),
        (0x406, 5, Reason::CertificateType(5)),
        (0x401, 1, Reason::CertificateSize(0x109)),
    ] {
        let mut other = with_certificate(alloc)?;
        put(&mut other, &[(offset, &[byte])]);
        assert_eq!(rt; refusal(alloc, &other), Some(want));
        let found = text(alloc, &other, ParseMode::Permissive)?;
        assert_eq!(rt; found.as_slice(), DEBUG_LINES);
    }
    // A debug table that is refused is refused before the certificates are.
    put(&mut bytes, &[(0xEC, &[0x11]), (0xFC, &[0, 0, 1, 0])]);
    assert_eq!(rt; refusal(alloc, &bytes), Some(Reason::DebugBounds(0x10240)));
    Ok(())
}

#[test]
fn certificates_of_every_kind(rt: HostRuntime) -> Result<(), Fail> {
    let alloc = rt.alloc();
    let mut bytes = with_certificate(alloc)?;
    put(
        &mut bytes,
        &[(0x400, &[1, 0, 0, 0, 0, 1, 4, 0, 7, 0, 0, 0, 0, 2, 1, 0])],
    );
    let lines = text(alloc, &bytes, ParseMode::Strict)?;
    let want = b"certificate 1 0100 0004\ncertificate 7 0200 0001\n";
    assert!(rt; lines.ends_with(want));
    Ok(())
}

#[test]
fn functions_of_images(rt: HostRuntime) -> Result<(), Fail> {
    let alloc = rt.alloc();
    let mut bytes = with_functions(alloc)?;
    for mode in [ParseMode::Strict, ParseMode::Permissive] {
        assert_eq!(rt; text(alloc, &bytes, mode)?.as_slice(), FUNCTION_LINES);
    }
    // A directory whose size is no whole number of entries, also before certificates that are refused.
    put(&mut bytes, &[(0xE4, &[0x20])]);
    assert_eq!(rt; refusal(alloc, &bytes), Some(Reason::ExceptionSize(32)));
    let found = text(alloc, &bytes, ParseMode::Permissive)?;
    assert_eq!(rt; found.as_slice(), CERTIFICATE_LINES);
    put(&mut bytes, &[(0xEC, &[0x11])]);
    assert_eq!(rt; refusal(alloc, &bytes), Some(Reason::ExceptionSize(32)));
    // Debug data are refused before exception data; on another machine there are none.
    put(&mut bytes, &[(0xFC, &[0, 0, 1, 0])]);
    assert_eq!(rt; refusal(alloc, &bytes), Some(Reason::DebugBounds(0x10240)));
    let mut other = with_functions(alloc)?;
    put(&mut other, &[(0x44, &[0x4C, 1])]);
    let found = text(alloc, &other, ParseMode::Strict)?;
    assert_eq!(rt; found.as_slice(), CERTIFICATE_LINES);
    Ok(())
}

#[test]
fn arm64_functions_of_images(rt: HostRuntime) -> Result<(), Fail> {
    let alloc = rt.alloc();
    let mut bytes = with_functions(alloc)?;
    put(&mut bytes, &[(0x44, &[0x64, 0xAA])]);
    for mode in [ParseMode::Strict, ParseMode::Permissive] {
        assert_eq!(rt; text(alloc, &bytes, mode)?.as_slice(), ARM64_FUNCTION_LINES);
    }
    // Two entries are whole for ARM64 and not for x64.
    put(&mut bytes, &[(0xE4, &[0x10])]);
    let lines = text(alloc, &bytes, ParseMode::Strict)?;
    assert!(rt; lines.ends_with(b"\nfunction64 00001020 00001020\n"));
    put(&mut bytes, &[(0x44, &[0x64, 0x86])]);
    assert_eq!(rt; refusal(alloc, &bytes), Some(Reason::ExceptionSize(16)));
    put(&mut bytes, &[(0x44, &[0x64, 0xAA]), (0xE4, &[0x0C])]);
    assert_eq!(rt; refusal(alloc, &bytes), Some(Reason::ExceptionSize(12)));
    let found = text(alloc, &bytes, ParseMode::Permissive)?;
    assert_eq!(rt; found.as_slice(), CERTIFICATE_LINES);
    Ok(())
}

/// The image written anew, with no failed write.
fn rewritten(alloc: Global, bytes: &[u8]) -> Result<Vec<u8>, ReportError> {
    let mut out = CountedOut::new(Vec::new(alloc));
    rewrite(alloc, bytes, &mut out)?;
    Ok(out.into_inner())
}

#[test]
fn gives_an_image_again(rt: HostRuntime) -> Result<(), Fail> {
    let image = with_functions(rt.alloc())?;
    let written = rewritten(rt.alloc(), &image)?;
    assert!(rt; written.as_slice() == image.as_slice());
    Ok(())
}

/// The section's data end at 0x3F0, and zeros follow up to 0x400.
#[test]
fn zeros_what_is_after_a_section(rt: HostRuntime) -> Result<(), Fail> {
    let mut image = with_functions(rt.alloc())?;
    put(&mut image, &[(0x158, &[0xF0, 1, 0, 0])]);
    let mut changed = with_functions(rt.alloc())?;
    put(&mut changed, &[(0x158, &[0xF0, 1, 0, 0]), (0x3F8, &[0x77])]);
    let written = rewritten(rt.alloc(), &changed)?;
    assert!(rt; written.as_slice() == image.as_slice());
    Ok(())
}

#[test]
fn refuses_symbols(rt: HostRuntime) -> Result<(), Fail> {
    let mut image = with_functions(rt.alloc())?;
    put(&mut image, &[(0x4C, &[1])]);
    let answer = rewritten(rt.alloc(), &image);
    let symbols = Reason::WriteSymbols(1);
    assert!(rt;
        matches!(answer, Err(ReportError::Parse(Error::Malformed(reason))) if reason == symbols)
    );
    Ok(())
}
