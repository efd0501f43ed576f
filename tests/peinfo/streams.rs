//! Readers that end late or fail, and writers that take little or fail.

use super::lines::{DEBUG_LINES, FUNCTION_LINES};
use crate::counted_out::CountedOut;
use crate::engine::ReportError;
use crate::find::find;
use crate::input::{ReadError, read_all};
use crate::report::report;
use crate::rewrite::rewrite;
use pe_image::ParseOptions;
use pe_images::{with_debug, with_functions};
use std::alloc::Global;
use std::io;
use std::test::*;

/// A reader that returns a byte a read, and then ends or fails.
#[derive(Drop)]
struct Drops {
    left: u32,
    is_broken: bool,
    reads: u32,
    longest: usize,
}

impl io::Read for Drops {
    fn read(&mut self, buf: &mut [u8]) -> io::Result<usize> {
        self.reads = self.reads.saturating_add(1);
        self.longest = self.longest.max(buf.len());
        match buf.first_mut() {
            Some(first) if self.left > 0 => {
                *first = 7;
                self.left -= 1;
                Ok(1)
            }
            _ if self.is_broken => Err(io::Error::from(io::ErrorKind::ConnectionReset)),
            _ => Ok(0),
        }
    }
}

#[test]
fn reads_a_bounded_number_of_times(rt: HostRuntime) -> Result<(), Fail> {
    for (left, is_broken, reads) in [
        (0, false, 1),
        (3, false, 4),
        (3, true, 4),
        (1_048_575, false, 1_048_576),
        (1_048_575, true, 1_048_576),
        (1_048_576, false, 1_048_576),
    ] {
        let mut reader = Drops {
            left,
            is_broken,
            reads: 0,
            longest: 0,
        };
        match read_all(rt.alloc(), &mut reader) {
            Ok(bytes) => {
                assert!(rt; !is_broken && left < reads);
                assert_eq!(rt; bytes.len(), left as usize);
                assert!(rt; bytes.iter().all(|byte| *byte == 7));
            }
            Err(ReadError::Failed(_)) => assert!(rt; is_broken),
            Err(ReadError::Endless) => assert!(rt; left == reads),
            Err(ReadError::Memory) => assert!(rt; false),
        }
        assert_eq!(rt; reader.reads, reads);
        assert_eq!(rt; reader.longest, 65_536);
    }
    Ok(())
}

/// What an engine is asked for.
#[derive(Clone, Copy)]
enum Asked {
    Listing,
    FunctionAt(u32),
    Rewriting,
}

#[derive(Clone, Copy, PartialEq, Eq)]
enum Way {
    Fails,
    TakesNothing,
    TakesOne,
}

/// A writer that takes ten bytes a write, and from one write on, counted from 1, behaves in its own way.
#[derive(Drop)]
struct Slow {
    written: Vec<u8>,
    writes: u64,
    from: u64,
    way: Way,
}

impl io::Write for Slow {
    fn write(&mut self, buf: &[u8]) -> io::Result<usize> {
        self.writes = self.writes.saturating_add(1);
        let most = if self.writes < self.from {
            10
        } else {
            match self.way {
                Way::Fails => return Err(io::Error::from(io::ErrorKind::Interrupted)),
                Way::TakesNothing => return Ok(0),
                Way::TakesOne => 1,
            }
        };
        let count = buf.len().min(most);
        self.written.extend_from_slice(&buf[..count])?;
        Ok(count)
    }

    fn flush(&mut self) -> io::Result<()> {
        Ok(())
    }
}

/// What an engine leaves at a writer that stops at a write.
fn written_to(
    alloc: Global,
    bytes: &[u8],
    asked: Asked,
    from: u64,
    way: Way,
) -> (Result<(), ReportError>, CountedOut<Slow>) {
    let mut out = CountedOut::new(Slow {
        written: Vec::new(alloc),
        writes: 0,
        from,
        way,
    });
    let answer = match asked {
        Asked::Listing => report(alloc, bytes, &ParseOptions::default(), &mut out),
        Asked::FunctionAt(rva) => find(alloc, bytes, rva, &mut out),
        Asked::Rewriting => rewrite(alloc, bytes, &mut out),
    };
    (answer, out)
}

/// Whether an engine returns what is due of a writer whose third write goes its way, and counts a failure, and the writer.
fn slowed(alloc: Global, bytes: &[u8], asked: Asked, way: Way) -> (bool, CountedOut<Slow>) {
    let (answer, out) = written_to(alloc, bytes, asked, 3, way);
    let is_whole = way == Way::TakesOne;
    let is_due = match answer {
        Ok(()) => is_whole,
        Err(refusal) => !is_whole && matches!(refusal, ReportError::Write),
    };
    (is_due && out.failures() == u64::from(!is_whole), out)
}

#[test]
fn reports_to_slow_writers(rt: HostRuntime) -> Result<(), Fail> {
    let bytes = with_debug(rt.alloc())?;
    let begin = b"image 64 entry 00001".as_slice();
    for (way, want, writes) in [
        (Way::Fails, begin, 3),
        (Way::TakesNothing, begin, 3),
        (Way::TakesOne, DEBUG_LINES, 57),
    ] {
        let (is_due, out) = slowed(rt.alloc(), &bytes, Asked::Listing, way);
        assert!(rt; is_due);
        let kind = out.cause().map(|error| error.kind());
        let wanted = (way == Way::Fails).then_some(io::ErrorKind::Interrupted);
        assert_eq!(rt; kind, wanted);
        let slow = out.into_inner();
        assert_eq!(rt; slow.written.as_slice(), want);
        assert_eq!(rt; slow.writes, writes);
    }
    Ok(())
}

/// A start of the image, or all of it, and no write is tried again.
#[test]
fn rewrites_to_slow_writers(rt: HostRuntime) -> Result<(), Fail> {
    let bytes = with_debug(rt.alloc())?;
    for (way, count, writes) in [
        (Way::Fails, 20, 3),
        (Way::TakesNothing, 20, 3),
        (Way::TakesOne, 0x410, 0x3FE),
    ] {
        let (is_due, out) = slowed(rt.alloc(), &bytes, Asked::Rewriting, way);
        assert!(rt; is_due);
        let slow = out.into_inner();
        assert!(rt; bytes.get(..count) == Some(slow.written.as_slice()));
        assert_eq!(rt; slow.writes, writes);
    }
    Ok(())
}

/// A writer that stops at its first write, at its second and so on, until the whole text is written before that: what
/// is written is a start of the text, ten bytes a write, and the write at which it stops is the last.
#[test]
fn stops_at_each_write(rt: HostRuntime) -> Result<(), Fail> {
    let alloc = rt.alloc();
    let bytes = with_functions(alloc)?;
    let line = b"function 00001020 00001040 00001001\n".as_slice();
    for (asked, text) in [
        (Asked::Listing, FUNCTION_LINES),
        (Asked::FunctionAt(0x1025), line),
        (Asked::Rewriting, bytes.as_slice()),
    ] {
        for way in [Way::Fails, Way::TakesNothing] {
            let mut whole = 0u64;
            for before in 0..200u64 {
                let (answer, out) = written_to(alloc, &bytes, asked, before.wrapping_add(1), way);
                let is_done = answer.is_ok();
                let taken = text.len().min(before.wrapping_mul(10) as usize);
                assert_eq!(rt; is_done, taken == text.len());
                assert_eq!(rt; out.failures(), u64::from(!is_done));
                let slow = out.into_inner();
                assert!(rt; text.get(..taken) == Some(slow.written.as_slice()));
                if is_done {
                    whole = whole.wrapping_add(1);
                } else {
                    assert_eq!(rt; slow.writes, before.wrapping_add(1));
                }
            }
            assert!(rt; whole > 0);
        }
        let (answer, out) = written_to(alloc, &bytes, asked, 1, Way::TakesOne);
        assert!(rt; answer.is_ok() && out.failures() == 0);
        assert!(rt; out.into_inner().written.as_slice() == text);
    }
    Ok(())
}

#[test]
fn counts_failed_writes_alone(rt: HostRuntime) -> Result<(), Fail> {
    let mut out = CountedOut::new(Slow {
        written: Vec::new(rt.alloc()),
        writes: 0,
        from: 3,
        way: Way::Fails,
    });
    for (piece, taken, failures) in [
        (b"".as_slice(), Some(0), 0),
        (b"twelve bytes".as_slice(), Some(10), 0),
        (b"es".as_slice(), Some(2), 0),
        (b"lost".as_slice(), None, 1),
        (b"".as_slice(), Some(0), 1),
        (b"lost".as_slice(), None, 2),
    ] {
        assert_eq!(rt; out.put(piece), taken);
        assert_eq!(rt; out.failures(), failures);
    }
    let slow = out.into_inner();
    assert_eq!(rt; slow.writes, 4);
    assert_eq!(rt; slow.written.as_slice(), b"twelve bytes".as_slice());
    Ok(())
}
