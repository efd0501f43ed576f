//! Standard output and standard error. Either may be full or closed: then the status is that of an error of a file.

use crate::escape::Escaped;
use crate::facts::bytes_of_path;
use crate::system;
use crate::Status;
use std::fmt::Display;
use std::io::{self, BufWriter, Write};
use std::path::Path;
use std::process::ExitCode;
use std::sync::atomic::{AtomicBool, Ordering};

/// Whether a line for standard error was lost, or a file could not be read that is beside those of the run.
static HAS_FAILED: AtomicBool = AtomicBool::new(false);

/// Writes lines to standard error.
pub fn complain(lines: impl Display) {
    let lines = lines.to_string();
    let is_written = lines.is_empty() || !system::is_closed(2) && io::stderr().write_all(lines.as_bytes()).is_ok();
    HAS_FAILED.fetch_or(!is_written, Ordering::Relaxed);
}

/// Says why a file or a folder cannot be read that is beside those of the run: the status is that of an error of a file.
pub fn complain_of_unread(path: &Path, error: &io::Error) {
    complain(complaint(path, error));
    fail();
}

/// The same where what is written says why.
pub fn fail() {
    HAS_FAILED.store(true, Ordering::Relaxed);
}

/// The line that says why a file is refused.
pub fn complaint(path: &Path, why: impl Display) -> String {
    format!("pe: {}: {why}\n", Escaped(bytes_of_path(path)))
}

/// Standard output, where each write fails if it was closed when the program started.
pub fn output() -> Box<dyn Write> {
    match system::is_closed(1) {
        true => Box::new(Closed),
        false => Box::new(BufWriter::new(io::stdout().lock())),
    }
}

struct Closed;

impl Write for Closed {
    fn write(&mut self, bytes: &[u8]) -> io::Result<usize> {
        match bytes.len() {
            0 => Ok(0),
            _ => Err(io::Error::other("it is closed")),
        }
    }

    fn flush(&mut self) -> io::Result<()> {
        Ok(())
    }
}

/// The exit status of a run.
pub fn status_of(ended: io::Result<Status>) -> ExitCode {
    let status = ended.unwrap_or_else(|error| {
        // Whoever read the output has seen enough, as `head` has.
        if error.kind() != io::ErrorKind::BrokenPipe {
            complain(format_args!("pe: standard output: {error}\n"));
        }
        Status::FileError
    });
    let has_failed = HAS_FAILED.load(Ordering::Relaxed);
    ExitCode::from(if has_failed { Status::FileError } else { status } as u8)
}

/// Prints what clap says of the arguments, on standard output where it was asked for, and returns the exit status.
pub fn said_by_clap(error: &clap::Error) -> u8 {
    let (stream, status) = if error.use_stderr() { (2, 2) } else { (1, 0) };
    let is_printed = !system::is_closed(stream) && error.print().and_then(|()| io::stdout().flush()).is_ok();
    if is_printed {
        status
    } else {
        Status::FileError as u8
    }
}
