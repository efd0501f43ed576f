//! `pe` shows what is in Windows executables: as text for people, and as JSON for programs. What is said of an image comes from
//! calls of the crate `pe_c`, whose library returns what its definitions say, if its archive was proved. Hashes, entropy, what a
//! file or an overlay is by its first bytes, and the names of numbers are this program's own.

mod arguments;
mod csv;
mod demangle;
mod diff;
mod digest;
mod edit;
mod escape;
mod extract;
mod facts;
mod files;
mod find;
mod html;
mod icon;
mod list;
mod man;
mod names;
mod new_file;
mod page;
mod pdb;
mod show;
mod sign;
mod stack;
mod streams;
mod summary;
mod symbols;
mod system;
mod tables;
mod unwind;
mod verify;

use arguments::{Arguments, Command, Files, Hashing, Missing, Output, Reading, Walk};
use clap::error::ErrorKind;
use clap::{CommandFactory, Parser, ValueEnum};
use extract::{ExtractedPart, Which};
use facts::others::Other;
use facts::{Facts, Refusal, Topic, Wanted};
use files::Report;
use new_file::Target;
use page::Style;
use pe_c::{Error, Image, Pdb, Placement};
use serde::Serialize;
use stack::missing::Stores;
use std::io::{self, Write};
use std::path::{Path, PathBuf};
use std::process::ExitCode;
use std::sync::atomic::{AtomicBool, Ordering};
use streams::{complain, complaint};
use verify::catalog::Catalog;
use verify::checked::Roots;

/// What a run came to: the exit status. The worst of several files counts.
#[derive(Clone, Copy, Debug, PartialEq, Eq, PartialOrd, Ord)]
pub enum Status {
    Done = 0,
    /// An image, or a part that was asked for, is refused; two images differ; a signature is not good; nothing is found.
    Refused = 1,
    /// A file cannot be read or written, or memory ran out.
    FileError = 3,
    /// A stack is lost before its bottom.
    Lost = 4,
}

fn main() -> ExitCode {
    system::end_well_without_memory();
    system::ignore_file_size_limit();
    let arguments = match Arguments::try_parse() {
        Ok(arguments) => arguments,
        Err(error) => return ExitCode::from(streams::said_by_clap(&error)),
    };
    let mut out = streams::output();
    streams::status_of(run(&arguments, &mut *out).and_then(|status| out.flush().map(|()| status)))
}

fn run(arguments: &Arguments, out: &mut dyn Write) -> io::Result<Status> {
    match &arguments.command {
        Some(command) => run_command(command, out),
        None => summarise(arguments, out),
    }
}

/// How images are read and shown.
#[derive(Clone, Copy)]
struct How<'a> {
    reading: &'a Reading,
    has_hashes: bool,
    is_json: bool,
}

impl<'a> How<'a> {
    fn of(reading: &'a Reading, hashing: &Hashing, output: &Output) -> How<'a> {
        How { reading, has_hashes: hashing.has_hashes(), is_json: output.json }
    }

    /// What is shown has no hashes.
    fn without_hashes(reading: &'a Reading, output: &Output) -> How<'a> {
        How { reading, has_hashes: false, is_json: output.json }
    }
}

/// `pe FILE..`: summaries, or the parts that `--parts` names.
fn summarise(arguments: &Arguments, out: &mut dyn Write) -> io::Result<Status> {
    let Arguments { files, parts, reading, hashing, output, .. } = arguments;
    let how = How::of(reading, hashing, output);
    refuse_no_hashes(parts, how);
    if parts.is_empty() && !output.json {
        let wanted = Wanted::summary(hashing.has_hashes());
        let text = |facts: &Facts, style| summary::text(facts, style).into();
        return files::each(files, out, |path, bytes| shown(path, bytes, reading, &wanted, text));
    }
    shown_whole(files, parts, how, out)
}

/// Parts whole, as text or JSON.
fn shown_whole(files: &Files, topics: &[Topic], how: How, out: &mut dyn Write) -> io::Result<Status> {
    let wanted = Wanted::parts(topics, how.has_hashes).with_others();
    let said = |facts: &Facts, style| match how.is_json {
        true => Said { complaints: show::complaints_of_hardening(facts), ..Said::from(json(facts)) },
        false => show::text(facts, style, topics).into(),
    };
    files::each(files, out, |path, bytes| shown(path, bytes, how.reading, &wanted, said))
}

/// The commands that show parts of images.
fn run_command(command: &Command, out: &mut dyn Write) -> io::Result<Status> {
    match command {
        Command::Show { words, csv, table, walk, reading, hashing, output } => {
            let table = csv.then_some(table.as_deref());
            show_parts((words, *walk), table, How::of(reading, hashing, output), out)
        }
        Command::List { files, reading, hashing, .. } => list_images(files, reading, hashing.has_hashes(), out),
        Command::Find { word, files, reading, output } => {
            find_word(word, files, How::without_hashes(reading, output), out)
        }
        Command::Diff { before, after, reading, output } => {
            let how = How { reading, has_hashes: true, is_json: output.json };
            compare([before.as_path(), after.as_path()], how, out)
        }
        Command::Key { files, missing, output, .. } if missing.missing => {
            show_missing(files, missing, output.json, out)
        }
        Command::Key { files, reading, hashing, output, .. } => {
            show_keys(files, How::of(reading, hashing, output), out)
        }
        Command::Unwind { words, all, walk, reading, output } => {
            unwind_functions((words, *walk), *all, How::without_hashes(reading, output), out)
        }
        _ => run_other(command, out),
    }
}

/// The commands that show what no part of an image is.
fn run_other(command: &Command, out: &mut dyn Write) -> io::Result<Status> {
    match command {
        Command::Digest { files, strict, output } => {
            each_image(files, &strict.reading(), out, |path, image| digest::report(path, image, output.json))
        }
        Command::Verify { .. } => verify_images(command, out),
        Command::Stack { dump, given, stacks, registers, output } => {
            let asked = stack::Asked { has_registers: *registers, ..stacks.asked(output.json) };
            let (there, places) = (given.are_there(), given.places());
            let status = files::one(dump, out, |bytes, out| stack::write(dump, bytes, &places, asked, out))?;
            Ok(if there == Status::Done { status } else { there })
        }
        Command::Pdb { file, rvas, lists, output } => {
            let asked = lists.asked(rvas, output.json);
            files::each(&Files::one(file), out, |path, bytes| pdb::report(path, bytes, asked))
        }
        Command::Completions { shell } => {
            // It panics where what it writes to fails.
            let mut text = Vec::new();
            clap_complete::generate(*shell, &mut Arguments::command(), "pe", &mut text);
            out.write_all(&text).map(|()| Status::Done)
        }
        Command::Man => out.write_all(man::page().as_bytes()).map(|()| Status::Done),
        _ => write_file(command, out),
    }
}

/// `pe list`: a row of each image.
fn list_images(files: &Files, reading: &Reading, has_hashes: bool, out: &mut dyn Write) -> io::Result<Status> {
    let text = |facts: &Facts, _| {
        let (head, row) = list::lines(facts);
        Said { head, ..Said::from(row) }
    };
    files::each(files, out, |path, bytes| shown(path, bytes, reading, &list::wanted(has_hashes), text))
}

/// `pe verify`, over what it is given.
fn verify_images(command: &Command, out: &mut dyn Write) -> io::Result<Status> {
    let Command::Verify { files, roots, system_roots, crls, catalogs, strict, output } = command else {
        return Ok(Status::Done);
    };
    let of_system = system_roots.then(verify::checked::roots_of_system);
    let roots = roots.as_deref().or(of_system);
    if roots.is_none() && !crls.is_empty() {
        misused("--crl says what of the chains to --roots or --system-roots is revoked");
    }
    let Some(given) = given_to_verify(roots, crls, catalogs) else {
        return Ok(Status::FileError);
    };
    let (reading, is_any, is_cut) = (strict.reading(), AtomicBool::new(false), AtomicBool::new(false));
    let worst = files::each(files, out, |path, bytes| {
        let made = of_image((path, bytes), &reading, |image| {
            let image = image.map_err(|error| refusal_with_kind(error, bytes, &reading));
            verify::report(path, image, &given, output.json)
        });
        is_any.fetch_or(made.is_image, Ordering::Relaxed);
        is_cut.fetch_or(!made.is_image && bytes.starts_with(b"MZ"), Ordering::Relaxed);
        made
    })?;
    // Where no image is below the folders, or one that is truncated is skipped, not all signatures were found to be good.
    let is_whole = is_any.load(Ordering::Relaxed) && !is_cut.load(Ordering::Relaxed);
    Ok(if is_whole { worst } else { worst.max(Status::Refused) })
}

/// `pe key`: the paths on a symbol server.
fn show_keys(files: &Files, how: How, out: &mut dyn Write) -> io::Result<Status> {
    if !how.has_hashes && !how.is_json {
        misused("--no-hashes leaves out the right checksum, which --json alone has here");
    }
    let wanted = Wanted::parts(&[Topic::Headers, Topic::Debug], how.is_json && how.has_hashes);
    let text = |facts: &Facts, style| match how.is_json {
        true => json(facts).into(),
        false => Said::apart(show::keys(facts, style), facts),
    };
    files::each(files, out, |path, bytes| shown(path, bytes, how.reading, &wanted, text))
}

/// `pe key --missing`: what the modules of a minidump lack.
fn show_missing(files: &Files, missing: &Missing, is_json: bool, out: &mut dyn Write) -> io::Result<Status> {
    let [dump] = files.files.as_slice() else { misused("--missing takes one minidump") };
    let there = files::are_there(&missing.images).max(files::are_there(&missing.symbols));
    let stores = Stores::below(&missing.images, &missing.symbols);
    let status = files::one(dump, out, |bytes, out| stack::missing::write(dump, bytes, &stores, is_json, out))?;
    Ok(status.max(there))
}

/// `pe show`, of its words: as CSV where a table is named, or `Some(None)`, the one of the part.
fn show_parts(
    words: (&[PathBuf], Walk),
    csv: Option<Option<&str>>,
    how: How,
    out: &mut dyn Write,
) -> io::Result<Status> {
    let (files, topics) = arguments::files_and_parts(words.0, words.1);
    refuse_unknown_parts(&files);
    refuse_no_hashes(&topics, how);
    match csv {
        Some(table) => show_csv(&files, (&topics, table), how, out),
        None => shown_whole(&files, &topics, how, out),
    }
}

/// `pe unwind`, of its words: the function at an RVA, or all.
fn unwind_functions(words: (&[PathBuf], Walk), is_all: bool, how: How, out: &mut dyn Write) -> io::Result<Status> {
    let (words, walk) = words;
    let is_last_a_file = words.last().is_some_and(|it| it.symlink_metadata().is_ok());
    let (files, rva) = match arguments::files_and_rva(words, walk) {
        Some(_) if is_all && !is_last_a_file => misused("--all is in place of an RVA"),
        _ if is_all => (Files::of(words.to_vec(), walk), None),
        Some((files, rva)) => (files, Some(rva)),
        None => misused("an RVA in hexadecimal has to come after the files, or --all before them"),
    };
    let asked = unwind::Asked { rva, is_json: how.is_json, is_named: files.is_several() };
    each_image(&files, how.reading, out, |path, image| unwind::report(path, image, asked))
}

/// What `pe verify` is given, which is read once. `None` where a file of it is refused, which is said.
fn given_to_verify(roots: Option<&Path>, crls: &[PathBuf], catalogs: &[PathBuf]) -> Option<verify::Given> {
    let said = |path: &Path, why: String| complain(complaint(path, why));
    let roots = roots.map(|path| {
        let roots = Roots::read(path).map_err(|why| said(path, why)).ok()?;
        crls.iter().try_fold(roots, |roots, crl| roots.without(crl).map_err(|why| said(crl, why)).ok())
    });
    if matches!(roots, Some(None)) {
        return None;
    }
    let roots = roots.flatten();
    let read = |path: &PathBuf| Catalog::read(path, roots.as_ref()).map_err(|why| said(path, why)).ok();
    let catalogs: Vec<Option<Catalog>> = catalogs.iter().map(read).collect();
    let catalogs = catalogs.into_iter().collect::<Option<_>>()?;
    Some(verify::Given { roots, catalogs })
}

/// Ends where the last of the files is none, and its name is nearly that of a part, or the first, and its name is one.
fn refuse_unknown_parts(files: &Files) {
    let first = files.files.first().filter(|it| files.files.len() > 1 && it.symlink_metadata().is_err());
    let name = first.and_then(|it| it.to_str()).unwrap_or_default();
    if let Some(topic) = Topic::value_variants().iter().find(|it| it.name().eq_ignore_ascii_case(name)) {
        misused(&format!("the part `{}` has to come after the files", topic.name()));
    }
    let last = files.files.iter().skip(1).last().filter(|it| it.symlink_metadata().is_err());
    let name = last.and_then(|it| it.to_str()).unwrap_or_default().to_lowercase();
    if let Some(topic) = Topic::value_variants().iter().find(|it| files::is_like(&name, &it.name())) {
        misused(&format!(
            "{} is neither a file nor a part; is the part `{}` meant?",
            escape::escaped(&name),
            topic.name()
        ));
    }
}

/// Ends where a part cannot be written as it is asked for.
fn refuse_extraction(part: ExtractedPart, which: &Which, to: &Target) {
    if part == ExtractedPart::Resources && to.to == Path::new("-") {
        misused("resources are written to a folder, and none to standard output");
    }
    if let Some(option) = part.misused(which) {
        misused(&format!("{option} is no option of the part `{}`", part.name()));
    }
}

/// The commands that write a new file.
fn write_file(command: &Command, out: &mut dyn Write) -> io::Result<Status> {
    match command {
        Command::Extract { file, part, to, which, reading } => {
            refuse_extraction(*part, which, to);
            each_image(&Files::one(file), reading, out, |path, image| part.write_to((path, image), which, to))
        }
        Command::Attach { file, certificate, to, in_place, strict } => {
            let placement = if *in_place { Placement::InPlace } else { Placement::After };
            let report = |path: &Path, image: Read<'_>| sign::attach(path, image, certificate, placement, to);
            each_image(&Files::one(file), &strict.reading(), out, report)
        }
        Command::Detach { file, to, strict } => {
            each_image(&Files::one(file), &strict.reading(), out, |path, image| sign::detach(path, image, to))
        }
        Command::Symbols { file, pdb, to, strict } => {
            let mode = strict.reading().mode();
            files::each(&Files::one(file), out, |path, bytes| {
                let is_alone = pdb.is_none() && Pdb::parse(bytes).is_ok();
                refuse_ignored([("--strict", strict.strict && is_alone)], "an image");
                symbols::write(path, bytes, mode, pdb.as_deref(), to)
            })
        }
        Command::Checksum { files, fix, replace, strict, output } => {
            if fix.is_some() && files.is_several() {
                misused("--fix takes one file, since it writes one");
            }
            let fix = fix.as_ref().map(|to| Target { to: to.clone(), replace: *replace });
            each_image(files, &strict.reading(), out, |path, image| match &fix {
                Some(to) => sign::fix(path, image, to),
                None => sign::checksum(path, image, output.json),
            })
        }
        Command::Report { .. } => write_page(command, out),
        _ => edit_file(command, out),
    }
}

/// `pe report`: the page of an image, or of a minidump.
fn write_page(command: &Command, out: &mut dyn Write) -> io::Result<Status> {
    let Command::Report { file, to, given, stacks, reading, hashing } = command else {
        return Ok(Status::Done);
    };
    let wanted = Wanted::parts(&[], hashing.has_hashes());
    let there = given.are_there();
    let status = files::one(file, out, |bytes, out| match stack::is_dump(bytes) {
        true => {
            refuse_ignored(arguments::of_images(reading, hashing), "an image");
            html::dump::write_to((file, bytes), (&given.places(), stacks.asked(false)), (to, out))
        }
        false => {
            refuse_ignored(arguments::of_dumps(given, stacks), "a minidump");
            let image = parsed(bytes, reading).map_err(|error| refusal_of(error, bytes, reading));
            html::write_to((file, bytes), image, &wanted, (to, out))
        }
    })?;
    Ok(status.max(there))
}

/// The commands that write an image with other resources.
fn edit_file(command: &Command, out: &mut dyn Write) -> io::Result<Status> {
    let (Command::SetVersion { file, to, strong_name, strict, .. }
    | Command::SetManifest { file, to, strong_name, strict, .. }
    | Command::SetIcon { file, to, strong_name, strict, .. }
    | Command::SetResource { file, to, strong_name, strict, .. }
    | Command::RemoveResource { file, to, strong_name, strict, .. }) = command
    else {
        return Ok(Status::Done);
    };
    if matches!(command, Command::SetVersion { version, .. } if version.is_empty()) {
        misused("nothing is new: --file-version, --product-version and --string say what");
    }
    if let Command::SetVersion { version, .. } = command {
        if let Some(name) = version.repeated() {
            misused(&format!("--string has {} twice", escape::escaped(name)));
        }
    }
    if matches!(command, Command::RemoveResource { which, .. } if which.words.len() % 2 != 0)
        || matches!(command, Command::SetResource { which, .. } if which.kind.is_empty() || which.name.is_empty())
    {
        misused("a resource has a type and a name");
    }
    each_image(&Files::one(file), &strict.reading(), out, |path, image| match command {
        _ if !strong_name.break_strong_name && image.as_ref().is_ok_and(edit::has_strong_name) => Report::refused(
            path,
            "it has a strong name (.NET), which a change breaks; --break-strong-name changes it all the same",
        ),
        Command::SetManifest { manifest, language, .. } => edit::set_manifest((path, to), image, manifest, *language),
        Command::SetIcon { icon, language, .. } => edit::set_icon((path, to), image, icon, *language),
        Command::SetResource { which, content, .. } => edit::set_resource((path, to), image, which, content),
        Command::RemoveResource { which, .. } => edit::remove_resources((path, to), image, which),
        Command::SetVersion { version, .. } => edit::set_version((path, to), image, version),
        _ => Report::of("", Status::Done),
    })
}

/// Ends where one of these options is there, which are for another kind of file.
fn refuse_ignored<const N: usize>(options: [(&str, bool); N], of: &str) {
    if let Some((option, _)) = options.iter().find(|it| it.1) {
        misused(&format!("{option} is of {of}, and FILE is none"));
    }
}

/// Ends with the usage of the command, which is the first argument where there is one.
fn misused(message: &str) -> ! {
    let mut program = Arguments::command();
    program.build();
    let own = std::env::args_os().nth(1).and_then(|it| program.find_subcommand(it).cloned());
    let error = own.unwrap_or(program).error(ErrorKind::ArgumentConflict, message);
    std::process::exit(streams::said_by_clap(&error).into())
}

const ONE_PART: &str = "--csv needs one PART, since a table has one kind of rows";

/// Ends where the part is named that `--no-hashes` leaves out.
fn refuse_no_hashes(topics: &[Topic], how: How) {
    if topics.contains(&Topic::Hashes) && !how.has_hashes {
        misused("--no-hashes leaves out the part `hashes`");
    }
}

fn show_csv(
    files: &Files,
    (topics, table): (&[Topic], Option<&str>),
    how: How,
    out: &mut dyn Write,
) -> io::Result<Status> {
    let [topic] = topics else { misused(ONE_PART) };
    if *topic == Topic::All {
        misused(ONE_PART);
    }
    if table.is_some_and(|it| !csv::OTHERS.contains(&(*topic, it))) {
        misused(&format!("{} has no such --table; pe show --help names them", topic.name()));
    }
    let wanted = Wanted::parts(topics, how.has_hashes).with_others();
    let text = |facts: &Facts, _| {
        let csv::Lines { head, rows } = csv::lines(facts, (*topic, table), files.is_several());
        let said = Said::apart(rows, facts);
        Said { head, complaints: said.complaints + &show::complaint_of_unread(facts, *topic), ..said }
    };
    files::each(files, out, |path, bytes| shown(path, bytes, how.reading, &wanted, text))
}

fn find_word(word: &str, files: &Files, how: How, out: &mut dyn Write) -> io::Result<Status> {
    if word.is_empty() {
        misused("WORD is empty, and so in every name");
    }
    let wanted = Wanted::parts(&[Topic::Imports, Topic::DelayImports, Topic::Exports], how.has_hashes);
    let is_found = AtomicBool::new(false);
    let text = |facts: &Facts, _| {
        let found = find::matches_of(facts, word);
        is_found.fetch_or(!found.matches.is_empty(), Ordering::Relaxed);
        Said::apart(if how.is_json { json(&found) } else { found.text() }, facts)
    };
    let worst = files::each(files, out, |path, bytes| shown(path, bytes, how.reading, &wanted, text))?;
    Ok(if is_found.load(Ordering::Relaxed) { worst } else { worst.max(Status::Refused) })
}

/// What differs between two files. The status is 1 where a byte does.
fn compare(paths: [&Path; 2], how: How, out: &mut dyn Write) -> io::Result<Status> {
    let mut contents = Vec::new();
    for path in paths {
        match files::whole(path) {
            Ok(bytes) => contents.push(bytes),
            Err(error) => {
                complain(complaint(path, error));
                return Ok(Status::FileError);
            }
        }
    }
    let mut say = |found: &diff::Differences| {
        out.write_all(if how.is_json { json(found) } else { found.text(Style::of_stdout()) }.as_bytes())
    };
    if contents[0] == contents[1] {
        return say(&diff::Differences::none(paths)).map(|()| Status::Done);
    }
    let images: Vec<_> = contents.iter().map(|bytes| parsed(bytes, how.reading)).collect();
    let wanted = Wanted::parts(&[], how.has_hashes);
    let mut facts = Vec::new();
    for ((path, bytes), image) in paths.iter().zip(&contents).zip(&images) {
        facts.push(match image {
            Ok(image) => Facts::of(path, image, &wanted),
            Err(error) => Facts::refused(path, bytes, refusal_of(*error, bytes, how.reading)),
        });
    }
    facts.iter().for_each(|facts| complain(show::complaints(facts)));
    match (images.as_slice(), facts.as_slice()) {
        ([Ok(one), Ok(other)], [before, after]) => say(&diff::of(paths, [one, other], [before, after]))?,
        _ => {
            let errors = [0, 1].map(|it| images[it].as_ref().err().copied());
            say(&diff::refused(paths, [&contents[0], &contents[1]], errors))?;
        }
    }
    Ok(Status::Refused)
}

/// What a command says of an image: its text, and lines for standard error.
struct Said {
    /// A line that stands once, before the first text.
    head: String,
    text: String,
    complaints: String,
}

impl Said {
    /// A text that says neither what is refused nor what is not whole.
    fn apart(text: String, facts: &Facts) -> Said {
        Said { head: String::new(), text, complaints: show::complaints(facts) }
    }
}

impl From<String> for Said {
    fn from(text: String) -> Said {
        Said { head: String::new(), text, complaints: String::new() }
    }
}

/// What is said of an image, or where that is wanted of a TE image or an object. It is refused where one of its parts is.
fn shown(
    path: &Path,
    bytes: &[u8],
    reading: &Reading,
    wanted: &Wanted,
    text: impl Fn(&Facts, Style) -> Said,
) -> Report {
    let image = parsed(bytes, reading);
    let may_be_other = image.is_err() && wanted.has_others && !reading.mapped;
    let other = if may_be_other { Other::parse(bytes) } else { None };
    let (facts, is_image) = match (&image, &other) {
        (Ok(image), _) => (Facts::of(path, image, wanted), true),
        (Err(_), Some(other)) => (Facts::of_other(path, other, wanted), false),
        (Err(error), None) => {
            let mut refusal = refusal_of(*error, bytes, reading);
            if let Some(why) = Other::refused(bytes).filter(|_| may_be_other) {
                refusal.said = Some(format!("{}; {why}", refusal.said.as_ref().unwrap_or(&refusal.text)));
            }
            (Facts::refused(path, bytes, refusal), !is_no_image(*error))
        }
    };
    let status = if facts.is_refused() { Status::Refused } else { Status::Done };
    let Said { head, text, complaints } = text(&facts, Style::of_stdout());
    Report { head, text: text.into_bytes(), complaints, status, is_image }
}

/// Whether what is refused so lacks the signatures of an image.
fn is_no_image(error: Error) -> bool {
    [Error::BAD_MAGIC, Error::SHORT].contains(&error)
}

/// An image, or why it is refused.
type Read<'a> = Result<Image<'a>, Error>;

/// What a command without parts says of each file.
fn each_image(
    files: &Files,
    reading: &Reading,
    out: &mut dyn Write,
    report: impl Fn(&Path, Read<'_>) -> Report + Sync,
) -> io::Result<Status> {
    files::each(files, out, |path, bytes| of_image((path, bytes), reading, |image| report(path, image)))
}

/// What a command without parts says of an image.
fn of_image<'a>(
    (path, bytes): (&Path, &'a [u8]),
    reading: &Reading,
    report: impl FnOnce(Read<'a>) -> Report,
) -> Report {
    let image = parsed(bytes, reading);
    let error = image.as_ref().err().copied();
    let mut made = report(image);
    made.is_image = error.is_none_or(|it| !is_no_image(it));
    if let Some(error) = error.filter(|_| made.status == Status::Refused && !made.complaints.is_empty()) {
        made.complaints = complaint(path, refusal_with_kind(error, bytes, reading));
    }
    made
}

/// Why headers are refused, and what a file is that has none of an image.
fn refusal_with_kind(error: Error, bytes: &[u8], reading: &Reading) -> Refusal {
    let refusal = refusal_of(error, bytes, reading);
    Refusal { kind: facts::kind_of(bytes).filter(|_| is_no_image(error)).or(refusal.kind), ..refusal }
}

/// Why the headers of an image are refused, with its numbers.
fn refusal_of(error: Error, bytes: &[u8], reading: &Reading) -> Refusal {
    let failure = Image::failure(bytes, reading.mode(), reading.layout()).filter(|it| it.error == error);
    let kind = (is_no_image(error) && bytes.starts_with(b"MZ")).then_some(facts::CUT);
    Refusal { said: failure.map(|it| it.to_string()), kind, ..error.into() }
}

/// A line of JSON.
fn json(facts: &impl Serialize) -> String {
    serde_json::to_string(facts).unwrap_or_else(|error| format!("{{\"error\":\"{error}\"}}")) + "\n"
}

/// The image in these bytes, or why they are refused.
fn parsed<'a>(bytes: &'a [u8], reading: &Reading) -> Read<'a> {
    Image::parse_as(bytes, reading.mode(), reading.layout())
}
