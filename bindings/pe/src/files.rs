//! The files of a run: those that are named, and with `-r` those below the folders that are named. Files are read side by
//! side, a few at a time, and what is said of them comes out in their order; so a million files take no more memory than a
//! few.

use crate::arguments::{Arguments, Files};
use crate::facts::{counted, kind_of, Topic, CUT, OTHERS};
use crate::new_file::Target;
use crate::streams::{complain, complain_of_unread, complaint};
use crate::system::{ask_for_large_pages, is_closed, is_folder, is_loop, Progress};
use crate::Status;
use clap::{CommandFactory, ValueEnum};
use pe_c::{Error, Image, Mode};
use rayon::prelude::*;
use std::cell::Cell;
use std::fmt::Display;
use std::fs::{self, File};
use std::io::{self, IsTerminal, Read, Seek, Write};
use std::path::{Path, PathBuf};
use std::sync::atomic::{AtomicBool, Ordering};

/// How many files are read side by side.
const AT_ONCE: usize = 64;

/// How much of a file below a folder is read to see whether it is an image, and of one whose headers do not end there: 65,535 section
/// headers have 40 bytes each.
const START: u64 = 4096;
const HEADERS: u64 = 4 << 20;

/// What is said of a file.
pub struct Report {
    /// A line that stands once, before the first text that has one.
    pub head: String,
    pub text: Vec<u8>,
    /// Lines for standard error.
    pub complaints: String,
    pub status: Status,
    /// Whether the file has the signatures of an image.
    pub is_image: bool,
}

impl Report {
    /// Of a file that is refused, why, on standard error.
    pub fn refused(path: &Path, why: impl Display) -> Report {
        Report { complaints: complaint(path, why), ..Report::of("", Status::Refused) }
    }

    /// Of a file that can't be read or written, why.
    pub fn unread(path: &Path, why: impl Display) -> Report {
        Report { complaints: complaint(path, why), ..Report::of("", Status::FileError) }
    }

    pub fn of(text: impl Into<Vec<u8>>, status: Status) -> Report {
        Report { head: String::new(), text: text.into(), complaints: String::new(), status, is_image: true }
    }

    /// What is said of the file, and the complaints of another report.
    pub fn and(self, other: Report) -> Report {
        Report { complaints: self.complaints + &other.complaints, status: self.status.max(other.status), ..self }
    }
}

/// What a command made, written to a file or for `-` to standard output.
pub fn deliver(bytes: &[u8], to: &Target, status: Status) -> Report {
    deliver_like(None, bytes, to, status)
}

/// The same, with the permissions of another file.
pub fn deliver_like(like: Option<&Path>, bytes: &[u8], to: &Target, status: Status) -> Report {
    if to.to == Path::new("-") {
        return Report::of(bytes, status);
    }
    match to.write(bytes, like.filter(|it| *it != Path::new("-"))) {
        Ok(()) => Report::of("", status),
        Err(error) => Report::unread(&to.to, error),
    }
}

/// The same of what is written as it is made, for `-` to `out`.
pub fn deliver_written(
    to: &Target,
    status: Status,
    out: &mut dyn Write,
    write: &mut dyn FnMut(&mut dyn Write) -> io::Result<()>,
) -> io::Result<Status> {
    if to.to == Path::new("-") {
        return write(out).map(|()| status);
    }
    to.write_by(None, write).map_or_else(|error| Ok(unread(&to.to, error)), |()| Ok(status))
}

/// A file, and whether it is one of those below a folder.
struct Found {
    path: PathBuf,
    is_below: bool,
}

/// A folder as it is walked. One that is named may be a link: it is followed, as those below it are not.
fn walked(folder: &Path) -> PathBuf {
    // With a slash at its end a path leads where the link does.
    if folder.is_symlink() && folder.is_dir() {
        folder.join("")
    } else {
        folder.to_path_buf()
    }
}

/// The files below a folder, each folder's in the order of their names. Links to folders are not followed, and links
/// that lead nowhere or in a circle, pipes and the like are left out. A folder that cannot be read is an item by itself, so that
/// reading it tells why.
struct Below<'a> {
    waiting: Vec<PathBuf>,
    skipped: &'a Skipped,
}

/// How much was skipped, how many of it are of the kinds of `OTHERS`, and whether each is named.
struct Skipped {
    count: Cell<usize>,
    shown: [Cell<usize>; OTHERS.len()],
    /// How many of it are links to folders, which may have images below them.
    links: Cell<usize>,
    is_verbose: bool,
    /// Whether links to folders are said where no count is in the end.
    says_links: bool,
}

impl Skipped {
    fn new(is_verbose: bool) -> Skipped {
        Skipped { count: Cell::new(0), shown: Default::default(), links: Cell::new(0), is_verbose, says_links: false }
    }

    /// What is neither a file nor a folder of its own.
    fn put_irregular(&self, path: &Path, is_folder: bool) {
        if !is_folder {
            return self.put(path, "it is no regular file");
        }
        if self.says_links {
            complain(complaint(path, LINK));
        }
        self.links.set(self.links.get() + 1);
        self.put(path, &format!("it is {LINK}"));
    }

    fn put(&self, path: &Path, why: &str) {
        self.count.set(self.count.get() + 1);
        if self.is_verbose {
            complain(complaint(path, format_args!("skipped, {why}")));
        }
    }

    /// A file that is no image, of this kind where that can be seen.
    fn put_kind(&self, path: &Path, kind: Option<&str>) {
        if let Some(at) = OTHERS.iter().position(|it| Some(it.0) == kind) {
            self.shown[at].set(self.shown[at].get() + 1);
        }
        self.put(path, &format!("it is {}", kind.unwrap_or("no image")));
    }

    /// What is said in the end, if anything was skipped.
    fn text(&self) -> Option<String> {
        let what = if self.count.get() == 1 { "is no image" } else { "are no images" };
        let kinds = OTHERS.iter().zip(&self.shown).filter(|it| it.1.get() > 0);
        let kinds: Vec<String> = kinds.map(|(kind, count)| counted(count.get(), kind.1)).collect();
        let shown = if kinds.is_empty() { String::new() } else { format!("; by their start {}", kinds.join(", ")) };
        let links = match self.links.get() {
            0 => String::new(),
            1 => "; one is a link to a folder, which is not followed".to_string(),
            count => format!("; {count} are links to folders, which are not followed"),
        };
        let files = counted(self.count.get(), "file");
        (self.count.get() > 0).then(|| format!("pe: {files} {what}, and skipped{shown}{links}\n"))
    }
}

const LINK: &str = "a link to a folder, which is not followed";

/// Whether a link leads nowhere, or in a circle.
fn is_lost(error: &io::Error) -> bool {
    error.kind() == io::ErrorKind::NotFound || is_loop(error)
}

impl Iterator for Below<'_> {
    type Item = PathBuf;

    fn next(&mut self) -> Option<PathBuf> {
        while let Some(path) = self.waiting.pop() {
            if !fs::symlink_metadata(&path).is_ok_and(|it| it.is_dir()) {
                match fs::metadata(&path) {
                    Ok(it) if !it.is_file() => {
                        self.skipped.put_irregular(&path, it.is_dir());
                        continue;
                    }
                    Err(error) if is_lost(&error) => {
                        self.skipped.put(&path, "the link leads to no file");
                        continue;
                    }
                    _ => return Some(path),
                }
            }
            let Ok(mut paths) = paths_in(&path) else { return Some(path) };
            paths.sort_unstable_by(|a, b| b.cmp(a));
            self.waiting.append(&mut paths);
        }
        None
    }
}

/// What stands in a folder. All of it or none: a part would be taken for the whole.
pub fn paths_in(folder: &Path) -> io::Result<Vec<PathBuf>> {
    fs::read_dir(folder)?.map(|entry| entry.map(|entry| entry.path())).collect()
}

fn found<'a>(named: &'a Files, skipped: &'a Skipped) -> impl Iterator<Item = Found> + 'a {
    named.files.iter().flat_map(move |path| {
        let is_below = named.walk.recursive && path.is_dir();
        let waiting = if is_below { vec![walked(path)] } else { Vec::new() };
        let files = Below { waiting, skipped };
        let own = (!is_below).then(|| path.clone());
        own.into_iter().chain(files).map(move |path| Found { path, is_below })
    })
}

/// All files below a folder, or the file that is named, in the order of their names. A link to a folder below it is said: nobody is
/// told how many were skipped.
pub fn below(folder: &Path) -> Vec<PathBuf> {
    let skipped = Skipped { says_links: true, ..Skipped::new(false) };
    Below { waiting: vec![walked(folder)], skipped: &skipped }.collect()
}

/// Says why a folder cannot be listed.
pub fn say_unlisted(folder: &Path) {
    if let Err(error) = paths_in(folder) {
        complain_of_unread(folder, &error);
    }
}

/// The first bytes of a file.
fn start_of(path: &Path, most: u64) -> io::Result<Vec<u8>> {
    let mut start = Vec::new();
    File::open(path)?.take(most).read_to_end(&mut start)?;
    Ok(start)
}

/// The first bytes of a file, with the headers of an image.
pub fn headers_of(path: &Path) -> io::Result<Vec<u8>> {
    let start = start_of(path, START)?;
    if Image::parse(&start, Mode::Permissive).is_err_and(|error| error == Error::SHORT) {
        return start_of(path, HEADERS);
    }
    Ok(start)
}

/// A sign that work goes on, where standard error is a terminal and standard output is none.
fn progress(is_recursive: bool) -> Progress {
    if !is_recursive || io::stdout().is_terminal() {
        return Progress::hidden();
    }
    Progress::shown()
}

/// Whether standard input was read. It has its bytes once: whoever reads it again would take it for an empty file.
static IS_READ: AtomicBool = AtomicBool::new(false);

/// As `fs::read`, into large pages. `-` is standard input. A pipe or a device by another name is refused, since it may never
/// end, or do something when it is read.
pub fn whole(path: &Path) -> io::Result<Vec<u8>> {
    if path == Path::new("-") {
        let error = |why| Err(io::Error::new(io::ErrorKind::InvalidInput, why));
        if is_closed(0) {
            return error("it is closed");
        }
        if IS_READ.swap(true, Ordering::Relaxed) {
            return error("standard input can be one file, and was read before");
        }
        let mut bytes = Vec::new();
        io::stdin().lock().read_to_end(&mut bytes)?;
        return Ok(bytes);
    }
    whole_of(&opened(path)?, Vec::new())
}

/// The same of a file that may be an image, a PDB or a minidump. Of a large one that starts as none of them only the start is read, by
/// which it is refused.
fn whole_if_known(path: &Path) -> io::Result<Vec<u8>> {
    if path == Path::new("-") {
        return whole(path);
    }
    let mut file = opened(path)?;
    if file.metadata()?.len() <= HEADERS {
        return whole_of(&file, Vec::new());
    }
    let mut start = Vec::new();
    (&file).take(START).read_to_end(&mut start)?;
    if !starts_as_known(&start) {
        return Ok(start);
    }
    file.rewind()?;
    whole_of(&file, Vec::new())
}

/// The size of a file that is refused, of which these bytes were read.
pub fn size_of_file(path: &Path, bytes: &[u8]) -> usize {
    if bytes.len() as u64 != START || path == Path::new("-") {
        return bytes.len();
    }
    fs::metadata(path).ok().and_then(|it| usize::try_from(it.len()).ok()).unwrap_or(bytes.len())
}

/// Whether a file starts as one of those that a command reads: an image, a TE image, an object, a PDB or a minidump.
fn starts_as_known(start: &[u8]) -> bool {
    let magics: [&[u8]; 3] = [b"MZ", b"Microsoft C/C++ ", b"MDMP"];
    magics.iter().any(|it| start.starts_with(it))
        || kind_of(start).is_some_and(|kind| OTHERS.iter().any(|it| it.0 == kind))
}

/// A file that is no pipe or device.
pub fn opened(path: &Path) -> io::Result<File> {
    let is_regular = fs::metadata(path)?;
    if !is_regular.is_file() && !is_regular.is_dir() {
        return Err(io::Error::new(io::ErrorKind::InvalidInput, "it is no regular file; - reads standard input"));
    }
    File::open(path)
}

/// All bytes of a file from where it is on, in the memory of what was read before.
pub fn whole_of(mut file: &File, mut bytes: Vec<u8>) -> io::Result<Vec<u8>> {
    bytes.clear();
    bytes.try_reserve_exact(usize::try_from(file.metadata()?.len()).unwrap_or_default())?;
    ask_for_large_pages(&mut bytes);
    file.read_to_end(&mut bytes)?;
    Ok(bytes)
}

/// What is said of a file, or what it is where it is skipped.
type Said = Result<Report, Option<&'static str>>;

/// Reads a file whole, and reports on it. Of one below a folder the start is read first: one without an image's signatures is no image,
/// and is not read on.
fn said_of(found: &Found, report: &(impl Fn(&Path, &[u8]) -> Report + Sync)) -> io::Result<Said> {
    if found.is_below {
        let start = start_of(&found.path, START)?;
        if Image::parse(&start, Mode::Permissive).is_err_and(|error| error == Error::BAD_MAGIC) {
            return Ok(Err(kind_of(&start)));
        }
    }
    let bytes = whole_if_known(&found.path)?;
    let said = report(&found.path, &bytes);
    let kind = || kind_of(&bytes).or(bytes.starts_with(b"MZ").then_some(CUT));
    Ok(if said.is_image || !found.is_below { Ok(said) } else { Err(kind()) })
}

/// Writes what `report` says of each file, in their order. Returns the worst status.
pub fn each(named: &Files, out: &mut dyn Write, report: impl Fn(&Path, &[u8]) -> Report + Sync) -> io::Result<Status> {
    let (mut worst, mut has_head, mut is_any) = (Status::Done, false, false);
    let skipped = Skipped::new(named.walk.verbose);
    let mut files = found(named, &skipped).peekable();
    let bar = progress(named.walk.recursive);
    while files.peek().is_some() {
        let some: Vec<Found> = files.by_ref().take(AT_ONCE).collect();
        let of = |found: &Found| said_of(found, &report);
        // For one file threads cost more than they help.
        let reports: Vec<io::Result<Said>> =
            if let [one] = some.as_slice() { vec![of(one)] } else { some.par_iter().map(of).collect() };
        for (found, report) in some.iter().zip(reports) {
            is_any |= !matches!(report, Ok(Err(_)));
            match report {
                Ok(Ok(report)) => worst = worst.max(write(report, &mut has_head, out)?),
                Ok(Err(kind)) => skipped.put_kind(&found.path, kind),
                Err(error) => {
                    let hint = if named.is_one { String::new() } else { hint(&found.path, &error) };
                    worst = worst.max(unread(&found.path, format_args!("{error}{hint}")));
                }
            }
        }
        bar.add(some.len());
    }
    bar.end();
    skipped.text().into_iter().for_each(complain);
    if !is_any {
        complain("pe: no image is found\n");
    }
    Ok(worst)
}

/// Writes what is said of a file, and a head once.
fn write(report: Report, has_head: &mut bool, out: &mut dyn Write) -> io::Result<Status> {
    complain(&report.complaints);
    if !report.head.is_empty() && !*has_head {
        out.write_all(report.head.as_bytes())?;
        *has_head = true;
    }
    out.write_all(&report.text).map(|()| report.status)
}

/// Says why a file cannot be read or written.
fn unread(path: &Path, why: impl Display) -> Status {
    complain(complaint(path, why));
    Status::FileError
}

/// Reads one file, of which `report` writes what it says as it goes.
pub fn one(
    path: &Path,
    out: &mut dyn Write,
    report: impl FnOnce(&[u8], &mut dyn Write) -> io::Result<Status>,
) -> io::Result<Status> {
    match whole_if_known(path) {
        Ok(bytes) => report(&bytes, out),
        Err(error) => Ok(unread(path, error)),
    }
}

/// Says which of these files and folders are not there, or are neither.
pub fn are_there(paths: &[PathBuf]) -> Status {
    let why = |path: &PathBuf| match fs::metadata(path) {
        Ok(it) if it.is_file() || it.is_dir() => None,
        Ok(_) => Some("it is neither a file nor a folder".to_string()),
        Err(error) => Some(error.to_string()),
    };
    paths.iter().filter_map(|path| Some(unread(path, why(path)?))).max().unwrap_or(Status::Done)
}

/// What was meant by a folder, or by the name of a file that is not there.
fn hint(path: &Path, error: &io::Error) -> String {
    if is_folder(error, path) && path != Path::new("-") {
        return "; -r reads the files below it".to_string();
    }
    if error.kind() != io::ErrorKind::NotFound {
        return String::new();
    }
    let (name, commands) = (path.to_string_lossy(), Arguments::command());
    if Topic::from_str(&name, true).is_ok() {
        return format!("; `pe show FILE {name}` shows that part");
    }
    let meant = commands.get_subcommands().map(|it| it.get_name()).find(|it| is_like(&name, it));
    meant.map_or(String::new(), |it| format!("; is the command `{it}` meant?"))
}

/// Whether a word is the start of a name, or has one letter more, less or other.
pub fn is_like(word: &str, command: &str) -> bool {
    let (word, command) = (word.as_bytes(), command.as_bytes());
    let same = word.iter().zip(command).take_while(|(a, b)| a == b).count();
    let rest = |it: &[u8], from: usize| it.get(from..).unwrap_or_default().to_vec();
    word.len() > 1
        && (command.starts_with(word)
            || rest(word, same + 1) == rest(command, same + 1)
            || rest(word, same + 1) == rest(command, same)
            || rest(word, same) == rest(command, same + 1))
}

#[cfg(test)]
mod tests {
    use super::*;

    #[test]
    fn commands_are_known_by_a_letter_more_or_less() {
        for word in ["sho", "sh", "shw", "shoow", "shov", "show"] {
            assert!(is_like(word, "show"), "{word}");
        }
        for word in ["s", "a.exe", "hsow", "unwind", ""] {
            assert!(!is_like(word, "show"), "{word}");
        }
    }
}
