//! `pe symbols`: the symbol file of an image, as [Breakpad](https://chromium.googlesource.com/breakpad/breakpad/+/master/docs/symbol_files.md)
//! and Crashpad have it, for stackwalkers of others: lines of text. Its functions and lines are those of a PDB, or else of the symbols and
//! exports of the image; how frames are unwound is what the unwind records of the image say.

mod functions;
mod inlined;
mod sites;
mod unwinding;

use crate::escape::escaped;
use crate::facts::{file_name_of, Named, Refusal};
use crate::files::{self, Report};
use crate::names::MACHINES;
use crate::new_file::Target;
use crate::streams::complaint;
use crate::Status;
use functions::Functions;
use pe_c::{Error, Image, Mode, Pdb};
use std::fmt::Write;
use std::path::Path;

/// Machines by the names of Breakpad.
const CPUS: [(u16, &str); 4] = [(0x14C, "x86"), (0x1C4, "arm"), (0x8664, "x86_64"), (0xAA64, "arm64")];
/// The key of an image that names no PDB.
const NO_KEY: &str = "000000000000000000000000000000000";

/// A symbol file, and what of its sources is left out.
#[derive(Default)]
struct SymbolFile {
    text: String,
    complaints: Vec<String>,
    /// What is said too, where nothing is refused.
    note: Option<&'static str>,
}

impl SymbolFile {
    fn complain(&mut self, part: &str, why: impl std::fmt::Display) {
        self.complaints.push(complaint_of(part, why));
    }

    /// Writes a line.
    fn line(&mut self, line: std::fmt::Arguments<'_>) {
        // Writing to a text never fails.
        let _ = writeln!(self.text, "{line}");
    }
}

fn complaint_of(part: &str, why: impl std::fmt::Display) -> String {
    format!("{}: {why}", escaped(part))
}

/// A name as a line has it, on which nothing else of a file may stand.
fn in_line(name: &str) -> String {
    escaped(name)
}

/// Writes the symbol file of an image, by its PDB where one is named; or that of a PDB alone, which says nothing of unwinding.
pub fn write(path: &Path, bytes: &[u8], mode: Mode, pdb: Option<&Path>, to: &Target) -> Report {
    let made = match (Pdb::parse(bytes), pdb) {
        (Ok(own), None) => of_pdb(path, &own),
        _ => match Image::parse(bytes, mode) {
            Ok(image) => match pdb {
                None => of_image(path, &image),
                Some(pdb) => match files::whole(pdb) {
                    Ok(bytes) => of_both(path, &image, (pdb, &bytes)),
                    Err(error) => return Report::unread(pdb, error),
                },
            },
            Err(error) => Err(complaint(path, Refusal::of_file(error, bytes, "pe FILE"))),
        },
    };
    match made {
        Ok(SymbolFile { text, complaints, note }) => {
            let status = if complaints.is_empty() { Status::Done } else { Status::Refused };
            let written = files::deliver(text.as_bytes(), to, status);
            let own: String = complaints.iter().map(String::as_str).chain(note).map(|it| complaint(path, it)).collect();
            Report { complaints: own + &written.complaints, ..written }
        }
        Err(complaints) => Report { complaints, ..Report::of("", Status::Refused) },
    }
}

/// The line that says of which module the file is: its machine, the key of its PDB and the name of that.
fn put_module(file: &mut SymbolFile, machine: u16, key: &str, name: &str) {
    let cpu = CPUS.iter().find(|it| it.0 == machine).map_or("unknown", |it| it.1);
    if cpu == "unknown" {
        let machine = Named::of(machine.into(), MACHINES);
        file.complain("machine", format_args!("Breakpad has no name for {machine}"));
    }
    file.line(format_args!("MODULE windows {cpu} {key} {}", in_line(name)));
}

fn put_image(file: &mut SymbolFile, path: &Path, image: &Image<'_>) -> Result<(), Error> {
    let own = path.file_name().map_or(String::new(), |it| it.to_string_lossy().into_owned());
    let key = image.symbol_key()?;
    match key.and_then(|it| Some((it, it.path()?))) {
        Some((key, path)) => put_module(file, image.info().machine, &key.to_string(), path.name()),
        None => put_module(file, image.info().machine, NO_KEY, &own),
    }
    if let Some(path) = image.info().symbol_path(&file_name_of(path)) {
        let text = path.to_string();
        file.line(format_args!("INFO CODE_ID {} {}", text.split('/').nth(1).unwrap_or_default(), in_line(path.name())));
    }
    Ok(())
}

fn of_image(path: &Path, image: &Image<'_>) -> Result<SymbolFile, String> {
    let mut file = SymbolFile::default();
    put_image(&mut file, path, image).map_err(|error| complaint(path, Refusal::from(error)))?;
    let functions = Functions::of_image(image, &mut file);
    put_all(functions, Some(image), &mut file);
    Ok(file)
}

fn of_both(path: &Path, image: &Image<'_>, (pdb_path, bytes): (&Path, &[u8])) -> Result<SymbolFile, String> {
    let refused = |path: &Path, error: Error| complaint(path, Refusal::from(error));
    let pdb = Pdb::parse(bytes).and_then(|it| it.dbi().map(|()| it));
    let pdb = pdb.map_err(|error| complaint(pdb_path, Refusal::of_file(error, bytes, "pe pdb")))?;
    let key = image.symbol_key().map_err(|error| refused(path, error))?;
    match key {
        Some(key) if pdb.matches(&key) => (),
        Some(key) => {
            let found = pdb.key("");
            return Err(complaint(pdb_path, format_args!("of another build: {found}, and the image names {key}")));
        }
        None => return Err(complaint(path, "it names no PDB")),
    }
    let mut file = SymbolFile::default();
    put_image(&mut file, path, image).map_err(|error| refused(path, error))?;
    let functions = functions_of(&pdb, &mut file);
    put_all(functions, Some(image), &mut file);
    Ok(file)
}

fn of_pdb(path: &Path, pdb: &Pdb<'_>) -> Result<SymbolFile, String> {
    pdb.dbi().map_err(|error| complaint(path, Refusal::from(error)))?;
    let name = path.file_name().map_or(String::new(), |it| it.to_string_lossy().into_owned());
    let mut file = SymbolFile::default();
    put_module(&mut file, pdb.info().machine, &pdb.key("").to_string(), &name);
    let functions = functions_of(pdb, &mut file);
    put_all(functions, None, &mut file);
    Ok(file)
}

/// The functions of a PDB, none where they are not those of the image as it is.
fn functions_of(pdb: &Pdb<'_>, file: &mut SymbolFile) -> Functions {
    if pdb.is_moved() {
        file.complain(
            "functions",
            "a tool moved the code of the image after it was linked (OMAP): their ranges are not those of the image",
        );
        return Functions::default();
    }
    Functions::of_pdb(pdb, file)
}

/// Writes functions, and how frames of an image are unwound.
fn put_all(functions: Functions, image: Option<&Image<'_>>, file: &mut SymbolFile) {
    let ranges = functions.ranges();
    file.note = functions.is_empty().then_some("no function is named: no FUNC and no PUBLIC is written");
    functions.put(file);
    if let Some(image) = image {
        unwinding::put(image, &ranges, file);
    }
}
