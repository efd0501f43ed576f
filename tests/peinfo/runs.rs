//! Runs of the program on a system in memory.

use super::fake::{ENDLESS, FOLDER, FakeSystem, IMAGE};
use super::lines::{CUT_LINES, DEBUG_LINES, FUNCTION_LINES, HEADERS_LINE, ZERO_LINE};
use crate::run;
use pe_images::{headers_alone, pointer_below_64, put, with_debug, with_functions};
use std::alloc::{AllocError, Global};
use std::cell::RefCell;
use std::test::*;

const USAGE_LINE: &[u8] =
    b"usage: peinfo list FILE [--permissive] | at FILE HEXRVA [--chain] | rewrite FILE OUT\n";

fn words(alloc: Global, texts: &[&str]) -> Result<Vec<String>, AllocError> {
    let mut all = Vec::new(alloc);
    for text in texts {
        all.push(String::from_str(alloc, text)?)?;
    }
    Ok(all)
}

fn holds(kept: &RefCell<Vec<u8>>, want: &[u8]) -> bool {
    match kept.try_borrow() {
        Ok(all) => all.as_slice() == want,
        Err(_) => false,
    }
}

/// One line that starts so.
fn is_line(kept: &RefCell<Vec<u8>>, begin: &str) -> bool {
    match kept.try_borrow() {
        Ok(all) => {
            all.starts_with(begin.as_bytes())
                && all.ends_with(b"\n")
                && all.iter().filter(|byte| **byte == b'\n').count() == 1
        }
        Err(_) => false,
    }
}

/// Whether a run is done and prints this, and nothing more.
fn shows(alloc: Global, image: &[u8], texts: &[&str], want: &[u8]) -> Result<bool, AllocError> {
    let asked = words(alloc, texts)?;
    let system = FakeSystem::new(alloc, image, false);
    let status = run(&system, &asked);
    Ok(status == 0 && holds(&system.printed, want) && holds(&system.complaints, b""))
}

#[test]
fn shows_images(rt: HostRuntime) -> Result<(), Fail> {
    let alloc = rt.alloc();
    let strict = ["list", IMAGE].as_slice();
    let permissive = ["list", IMAGE, "--permissive"].as_slice();
    let headers = headers_alone(alloc)?;
    assert!(rt; shows(alloc, &headers, strict, HEADERS_LINE)?);
    let functions = with_functions(alloc)?;
    assert!(rt; shows(alloc, &functions, strict, FUNCTION_LINES)?);
    let mut debug = with_debug(alloc)?;
    assert!(rt; shows(alloc, &debug, strict, DEBUG_LINES)?);
    put(&mut debug, &[(0xFC, &[0, 0, 1, 0])]);
    assert!(rt; shows(alloc, &debug, permissive, CUT_LINES)?);
    let low = pointer_below_64(alloc)?;
    assert!(rt; shows(alloc, &low, permissive, ZERO_LINE)?);
    Ok(())
}

#[test]
fn shows_functions(rt: HostRuntime) -> Result<(), Fail> {
    let alloc = rt.alloc();
    let image = with_functions(alloc)?;
    let second = b"function 00001020 00001040 00001001\n".as_slice();
    for (rva, want) in [
        ("1025", second),
        ("103f", second),
        ("103F", second),
        ("00001025", second),
        ("1010", b"none\n"),
        ("FFFFFFFF", b"none\n"),
        ("0", b"none\n"),
    ] {
        assert!(rt; shows(alloc, &image, &["at", IMAGE, rva], want)?, "{rva}");
    }
    let headers = headers_alone(alloc)?;
    assert!(rt; shows(alloc, &headers, &["at", IMAGE, "1025"], b"none\n")?);
    let records = b"function 00001020 00001040 00001001\nrecord 1 4 0 0 plain\n";
    let chain = ["at", IMAGE, "1025", "--chain"];
    assert!(rt; shows(alloc, &image, &chain, records)?);
    assert!(rt; shows(alloc, &headers, &chain, b"none\n")?);
    Ok(())
}

/// The line on standard error of a run that refuses the image and prints nothing.
fn refused(alloc: Global, image: &[u8], texts: &[&str]) -> Result<String, Fail> {
    let asked = words(alloc, texts)?;
    let system = FakeSystem::new(alloc, image, false);
    if run(&system, &asked) != 1 || !holds(&system.printed, b"") {
        return Err(Fail::new("not refused"));
    }
    let complaints = system.complaints.into_inner();
    Ok(String::from_utf8(complaints).map_err(|_| Fail::new("no text"))?)
}

/// What only strict mode refuses is reported with the way to list the rest, but not where a function is looked for.
#[test]
fn refuses_images(rt: HostRuntime) -> Result<(), Fail> {
    let alloc = rt.alloc();
    let strict = ["list", IMAGE].as_slice();
    let permissive = ["list", IMAGE, "--permissive"].as_slice();
    let at = ["at", IMAGE, "1025"].as_slice();
    let mut cut = with_debug(alloc)?;
    put(&mut cut, &[(0xFC, &[0, 0, 1, 0])]);
    let mut odd = with_functions(alloc)?;
    put(&mut odd, &[(0xE4, &[0x20])]);
    for image in [cut, odd, pointer_below_64(alloc)?] {
        let line = refused(alloc, &image, strict)?;
        let begin = "peinfo: \"image\" is refused: ";
        assert!(rt; line.as_str().starts_with(begin));
        assert!(rt; line.as_str().ends_with("; --permissive lists the rest\n"));
        let line = refused(alloc, &image, at)?;
        assert!(rt; line.as_str().starts_with(begin));
        assert!(rt; !line.as_str().contains("permissive"));
    }
    let short = Vec::new(alloc);
    for texts in [strict, permissive, at] {
        let line = refused(alloc, &short, texts)?;
        assert!(rt;
            line.as_str()
                .starts_with("peinfo: \"image\" is refused: truncated: ")
        );
        assert!(rt; !line.as_str().contains("permissive"));
    }
    Ok(())
}

/// A file that is no PE image is named by its magic number and its first bytes, in both modes.
#[test]
fn refuses_other_files(rt: HostRuntime) -> Result<(), Fail> {
    let alloc = rt.alloc();
    let mut elf = Vec::new(alloc);
    elf.resize(64, 0)?;
    put(&mut elf, &[(0, b"\x7fELF")]);
    let mut te = Vec::new(alloc);
    te.resize(64, 0)?;
    put(&mut te, &[(0, b"VZ")]);
    let mut signature = headers_alone(alloc)?;
    put(&mut signature, &[(0x79, &[5])]);
    let mut archive = Vec::new(alloc);
    archive.resize(64, 0)?;
    put(&mut archive, &[(0, b"!<arch>\n")]);
    let mut object = Vec::new(alloc);
    object.resize(64, 0)?;
    put(&mut object, &[(0, &[0x64, 0xAA])]);
    for (image, what) in [
        (elf, "0x457f; it is an ELF file"),
        (te, "0x5a56; it is a TE image"),
        (archive, "0x3c21; it is an archive of objects"),
        (object, "0xaa64; it looks like a COFF object"),
        (signature, "0x550"),
    ] {
        let want = format!(in alloc;
            "peinfo: \"image\" is refused: no PE image, its magic number is {what}\n"
        )?;
        for texts in [
            ["list", IMAGE].as_slice(),
            &["list", IMAGE, "--permissive"],
            &["at", IMAGE, "1025"],
        ] {
            assert_eq!(rt; refused(alloc, &image, texts)?.as_str(), want.as_str());
        }
    }
    Ok(())
}

#[test]
fn judges_words_first(rt: HostRuntime) -> Result<(), Fail> {
    let alloc = rt.alloc();
    for texts in [
        [].as_slice(),
        &["list"],
        &["list", IMAGE, "--strict"],
        &["list", "--permissive", IMAGE],
        &["list", IMAGE, "--permissive", "--permissive"],
        &["show", IMAGE],
        &["at", IMAGE],
        &["at", IMAGE, ""],
        &["at", IMAGE, "0x1025"],
        &["at", IMAGE, "102g"],
        &["at", IMAGE, "000001025"],
        &["at", IMAGE, "--chain"],
        &["at", IMAGE, "1025", "--chained"],
        &["at", IMAGE, "1025", "--chain", "--chain"],
        &["rewrite", IMAGE],
        &["rewrite", IMAGE, "copy", "--permissive"],
    ] {
        let asked = words(alloc, texts)?;
        let system = FakeSystem::new(alloc, &[], false);
        assert_eq!(rt; run(&system, &asked), 2);
        assert!(rt; holds(&system.printed, b""));
        assert!(rt; holds(&system.complaints, USAGE_LINE));
    }
    Ok(())
}

#[test]
fn names_faults(rt: HostRuntime) -> Result<(), Fail> {
    let alloc = rt.alloc();
    let image = with_debug(alloc)?;
    for (path, is_full, begin) in [
        ("missing", false, "peinfo: \"missing\" can't be opened: "),
        (FOLDER, false, "peinfo: \"folder\" can't be read: "),
        (ENDLESS, false, "peinfo: \"endless\" can't be read: "),
        (
            IMAGE,
            true,
            "peinfo: the report of \"image\" can't be written to standard output: ",
        ),
    ] {
        for texts in [["list", path].as_slice(), &["at", path, "1025"]] {
            let asked = words(alloc, texts)?;
            let system = FakeSystem::new(alloc, &image, is_full);
            assert_eq!(rt; run(&system, &asked), 3, "{path}");
            assert!(rt; holds(&system.printed, b""));
            assert!(rt; is_line(&system.complaints, begin), "{path}");
        }
    }
    Ok(())
}

/// The image is read before its copy is made, which this system does not do.
#[test]
fn names_faults_of_rewriting(rt: HostRuntime) -> Result<(), Fail> {
    let alloc = rt.alloc();
    let image = with_debug(alloc)?;
    for (path, begin) in [
        ("missing", "peinfo: \"missing\" can't be opened: "),
        (IMAGE, "peinfo: \"copy\" can't be made: "),
    ] {
        let asked = words(alloc, &["rewrite", path, "copy"])?;
        let system = FakeSystem::new(alloc, &image, false);
        assert_eq!(rt; run(&system, &asked), 3, "{path}");
        assert!(rt; holds(&system.printed, b""));
        assert!(rt; is_line(&system.complaints, begin), "{path}");
    }
    Ok(())
}
