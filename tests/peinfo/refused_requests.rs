//! The engines, and what reads their input, where one request for memory is refused.

use super::fake::{FakeSystem, IMAGE};
use super::refusing::Refusing;
use crate::counted_out::CountedOut;
use crate::engine::ReportError;
use crate::find::find;
use crate::input::{ReadError, read_all};
use crate::outcome::Outcome;
use crate::plan::plan;
use crate::report::report;
use crate::rewrite::rewrite;
use crate::{Job, Source, Target, advice_on, outcome_of};
use pe_image::{Error, ParseMode, ParseOptions};
use pe_images::{
    put, with_every_directory, with_every_directory_and_records, with_every_directory_of_arm64,
    with_every_directory_of_x86,
};
use std::alloc::{Allocator, Global};
use std::process::Abort;
use std::test::Fail;

/// What standard error has of an engine that memory was refused to.
const LINE_OF_MEMORY: &[u8] = b"peinfo: \"image\" is refused: out of memory\n";

const X64_LINES: &[u8] = b"image 64 entry 00001034 base 0000000180000000\n\
debug 16 0 00000000 00000000\n\
debug 2 30 00000000 000006a0\n\
debug 13 16 00000000 000006c0\n\
certificate 9 0200 0002\n\
certificate 10 0100 0001\n\
function 00001000 00001010 00001020\n\
function 00001020 00001040 00001001\n";

const X64_LINES_OF_RECORDS: &[u8] = b"image 64 entry 00001034 base 0000000180000000\n\
debug 16 0 00000000 00000000\n\
debug 2 30 00000000 000006a0\n\
debug 13 16 00000000 000006c0\n\
certificate 9 0200 0002\n\
certificate 10 0100 0001\n\
function 00001000 00001010 00001060\n\
function 00001010 00001020 00001001\n\
function 00001020 00001030 0000100d\n\
function 00001030 00001040 00001090\n\
function 00001040 00001050 000010b0\n\
function 00001050 00001060 000010c0\n\
function 00001060 00001070 0000103d\n\
function 00001070 00001080 000010d0\n";

const X86_LINES: &[u8] = b"image 32 entry 00001034 base 0000000000400000\n\
debug 2 28 00000000 00000790\n\
debug 12 20 00000000 000007b0\n\
debug 20 4 00000000 000007c4\n\
debug 16 7 00000000 000007c8\n\
debug 13 16 00000000 000007d0\n\
certificate 9 0200 0002\n\
certificate 10 0100 0001\n";

const ARM64_LINES: &[u8] = b"image 64 entry 00001034 base 0000000180000000\n\
debug 16 0 00000000 00000000\n\
debug 2 30 00000000 000006a0\n\
debug 13 16 00000000 000006c0\n\
certificate 9 0200 0002\n\
certificate 10 0100 0001\n\
function64 00002000 01620021\n\
function64 00002100 00001020\n\
function64 00002200 00001040\n\
function64 00002300 00001060\n";

/// What an engine is asked for.
#[derive(Clone, Copy, Debug)]
enum Asked {
    Listing(ParseMode),
    FunctionAt(u32),
    RecordsAt(u32),
    Rewriting,
}

impl Asked {
    fn answer<A: Allocator>(
        self,
        alloc: A,
        bytes: &[u8],
        out: &mut CountedOut<Vec<u8>>,
    ) -> Result<(), ReportError> {
        match self {
            Asked::Listing(mode) => {
                let opts = ParseOptions::default().with_parse_mode(mode);
                report(alloc, bytes, &opts, out)
            }
            Asked::FunctionAt(rva) => find(alloc, bytes, rva, out),
            Asked::RecordsAt(rva) => plan(alloc, bytes, rva, out),
            Asked::Rewriting => rewrite(alloc, bytes, out),
        }
    }

    fn target(self) -> Target<'static> {
        match self {
            Asked::Rewriting => Target::File("copy"),
            _ => Target::Output,
        }
    }
}

/// What a refused request has to come to: `Memory`, the status of a refusal, its line, and nothing written.
fn check_refused(
    rt: &impl Abort,
    alloc: Global,
    asked: Asked,
    answer: Result<(), ReportError>,
    out: CountedOut<Vec<u8>>,
) -> Result<(), Fail> {
    assert!(rt; matches!(answer, Err(ReportError::Parse(Error::Memory(_)))));
    assert_eq!(rt; out.failures(), 0);
    let system = FakeSystem::new(alloc, &[], false);
    let source = Source {
        path: IMAGE,
        bytes: b"MZ",
    };
    let job = Job {
        source,
        target: asked.target(),
    };
    let outcome = outcome_of(&system, job, answer, &out, "");
    assert_eq!(rt; outcome, Outcome::Refused);
    assert_eq!(rt; outcome.status(), 1);
    assert_eq!(rt; system.complaints.into_inner().as_slice(), LINE_OF_MEMORY);
    assert!(rt; system.printed.into_inner().is_empty());
    assert!(rt; out.into_inner().is_empty());
    Ok(())
}

/// Refuses the first request for memory, then the second instead and so on, until a run asks for no more, which
/// has to give all of the text. How many requests were refused.
fn refuse_in_turn(
    rt: &impl Abort,
    alloc: Global,
    bytes: &[u8],
    asked: Asked,
    want: &[u8],
) -> Result<u32, Fail> {
    for k in 0..1000 {
        let refusing = Refusing::new(alloc, k);
        let mut out = CountedOut::new(Vec::new(alloc));
        let answer = asked.answer(&refusing, bytes, &mut out);
        if refusing.has_refused() {
            check_refused(rt, alloc, asked, answer, out)?;
        } else {
            answer?;
            assert_eq!(rt; out.failures(), 0);
            assert_eq!(rt; out.into_inner().as_slice(), want, "{asked:?}");
            return Ok(k);
        }
    }
    Err(Fail::new("there is no end of requests"))
}

/// An image with every directory is read by so many requests: one for the sections, one for the certificates and two for the
/// index of its one section (its entries, and as many while they are merged), three for the exports (offsets, texts, list), and ten
/// for the imports: six for the directory (offsets of names, texts, offsets of lists, these sorted, lists, records) and four for what
/// they import (entries, offsets, texts, list). The names of the libraries, which it does not show, are not listed.
const OF_AN_IMAGE: u32 = 17;

/// A listing asks once more, for its text.
#[test]
fn of_listings(rt: HostRuntime) -> Result<(), Fail> {
    let alloc = rt.alloc();
    for (bytes, want) in [
        (with_every_directory(alloc)?, X64_LINES),
        (
            with_every_directory_and_records(alloc)?,
            X64_LINES_OF_RECORDS,
        ),
        (with_every_directory_of_x86(alloc)?, X86_LINES),
        (with_every_directory_of_arm64(alloc)?, ARM64_LINES),
    ] {
        for mode in [ParseMode::Strict, ParseMode::Permissive] {
            let refused = refuse_in_turn(&rt, alloc, &bytes, Asked::Listing(mode), want)?;
            assert_eq!(rt; refused, OF_AN_IMAGE + 1, "{mode:?}");
        }
    }
    Ok(())
}

const FUNCTION_LINE: &[u8] = b"function 00001020 00001040 00001001\n";

const RECORD_LINES: &[u8] = b"function 00001020 00001040 00001001\n\
record 1 4 0 0 plain\n";

const CHAIN_LINES: &[u8] = b"function 00001040 00001050 000010b0\n\
record 1 0 0 0 chained\n\
record 1 32 5 32 plain\n";

const NO_LINES: &[u8] = b"none\n";

/// A lookup asks for its text, which grows, so how often depends on how; and where there are records once for them.
#[test]
fn of_lookups(rt: HostRuntime) -> Result<(), Fail> {
    let alloc = rt.alloc();
    let x64 = with_every_directory(alloc)?;
    let records = with_every_directory_and_records(alloc)?;
    let x86 = with_every_directory_of_x86(alloc)?;
    let arm64 = with_every_directory_of_arm64(alloc)?;
    for (bytes, asked, want, more) in [
        (&x64, Asked::FunctionAt(0x1025), FUNCTION_LINE, 1),
        (&x64, Asked::FunctionAt(0x1010), NO_LINES, 1),
        (&x64, Asked::RecordsAt(0x1025), RECORD_LINES, 2),
        (&x64, Asked::RecordsAt(0x1010), NO_LINES, 1),
        (&records, Asked::RecordsAt(0x1045), CHAIN_LINES, 2),
        (&x86, Asked::FunctionAt(0x1025), NO_LINES, 1),
        (&x86, Asked::RecordsAt(0x1025), NO_LINES, 1),
        (&arm64, Asked::FunctionAt(0x2000), NO_LINES, 1),
        (&arm64, Asked::RecordsAt(0x2000), NO_LINES, 1),
    ] {
        let refused = refuse_in_turn(&rt, alloc, bytes, asked, want)?;
        assert!(rt; refused >= OF_AN_IMAGE + more, "{refused} of {asked:?}");
        assert!(rt;
            want != NO_LINES || refused == OF_AN_IMAGE + more,
            "{refused} of {asked:?}"
        );
    }
    Ok(())
}

/// Each of these images is given again, byte by byte. Writing asks for the copy.
#[test]
fn of_rewriting(rt: HostRuntime) -> Result<(), Fail> {
    let alloc = rt.alloc();
    for bytes in [
        with_every_directory(alloc)?,
        with_every_directory_and_records(alloc)?,
        with_every_directory_of_x86(alloc)?,
        with_every_directory_of_arm64(alloc)?,
    ] {
        let refused = refuse_in_turn(&rt, alloc, &bytes, Asked::Rewriting, &bytes)?;
        assert_eq!(rt; refused, OF_AN_IMAGE + 1);
    }
    Ok(())
}

const LINES_WITHOUT_CERTIFICATES: &[u8] = b"image 64 entry 00001034 base 0000000180000000\n\
debug 16 0 00000000 00000000\n\
debug 2 30 00000000 000006a0\n\
debug 13 16 00000000 000006c0\n\
function 00001000 00001010 00001020\n\
function 00001020 00001040 00001001\n";

/// Permissive mode leaves out certificates that are refused, here for the type of the second, and none for `Memory`.
#[test]
fn of_a_listing_that_leaves_certificates_out(rt: HostRuntime) -> Result<(), Fail> {
    let alloc = rt.alloc();
    let mut bytes = with_every_directory(alloc)?;
    put(&mut bytes, &[(0xA16, &[5])]);
    let asked = Asked::Listing(ParseMode::Permissive);
    let refused = refuse_in_turn(&rt, alloc, &bytes, asked, LINES_WITHOUT_CERTIFICATES)?;
    assert_eq!(rt; refused, OF_AN_IMAGE + 1);
    Ok(())
}

/// What would list an image that strict mode alone refuses is reported if there is memory to try it.
#[test]
fn of_the_advice(rt: HostRuntime) -> Result<(), Fail> {
    let alloc = rt.alloc();
    let mut bytes = with_every_directory(alloc)?;
    put(&mut bytes, &[(0xA16, &[5])]);
    for k in 0..1000 {
        let refusing = Refusing::new(alloc, k);
        let advice = advice_on(&refusing, &bytes, ParseMode::Strict);
        if refusing.has_refused() {
            assert!(rt; advice.is_err(), "request {k}");
        } else {
            assert_eq!(rt; advice?, "; --permissive lists the rest");
            assert_eq!(rt; k, OF_AN_IMAGE);
            return Ok(());
        }
    }
    Err(Fail::new("there is no end of requests"))
}

/// Memory that is refused while a file is read leaves none of its bytes. It asks again as the bytes become more.
#[test]
fn of_reading(rt: HostRuntime) -> Result<(), Fail> {
    let alloc = rt.alloc();
    let bytes = vec![in alloc; 7; 200_000]?;
    for k in 0..1000 {
        let refusing = Refusing::new(alloc, k);
        let answer = read_all(&refusing, &mut bytes.as_slice());
        if refusing.has_refused() {
            assert!(rt; matches!(answer, Err(ReadError::Memory)), "request {k}");
        } else {
            assert!(rt; answer?.as_slice() == bytes.as_slice());
            assert!(rt; k > 1, "{k} requests");
            return Ok(());
        }
    }
    Err(Fail::new("there is no end of requests"))
}
