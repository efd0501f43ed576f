//! The arguments: `pe FILE..` summarises, the subcommands show more.

use crate::extract::{ExtractedPart, Which};
use crate::facts::Topic;
use crate::files::are_there;
use crate::new_file::Target;
use crate::stack::{Known, Places, SymbolFolders};
use crate::Status;
use clap::{Args, Parser, Subcommand, ValueEnum};
use clap_complete::Shell;
use pe_c::{Layout, Mode};
use std::path::{Path, PathBuf};

/// A command and what it does, a line each.
pub const EXAMPLES: &str = "  pe program.exe                        what it is, in a screen of text
  pe show program.exe imports exports   two of its parts, whole
  pe --json -r C:/Windows               a line of JSON for each image below a folder
  pe list --csv -r C:/Windows           a table of them, a row each
  pe find VirtualProtect -r C:/Windows  which images import or export it
  pe diff old.dll new.dll               what came, went and changed
  pe unwind program.exe 1a2b            how the function at an RVA is unwound
  pe stack crash.dmp --images C:/App    why a process crashed, and the stacks of its threads
  pe stack crash.dmp --symbols C:/Sym   with functions and lines by PDB files
  pe pdb program.pdb 1a2b               which function and line is at an RVA
  pe symbols program.exe out.sym        a symbol file for stackwalkers that read Breakpad's
  pe key program.exe                    where a symbol server has its PDB and itself
  pe key --missing crash.dmp            which of these its modules lack
  pe digest program.exe                 what its signature signs, as SHA-256
  pe verify program.exe                 by whom and when it was signed, and whether digests and signatures fit
  pe extract program.exe manifest -     its manifest, on standard output
  pe detach program.exe unsigned.exe    the same without its certificates
  pe set-manifest a.exe b.exe app.xml   an image with another manifest
  pe report program.exe program.html    a page to look at: a map of the file, tables to search";

pub const STATUSES: &str =
    "0 done; 1 an image, or a part that was asked for, is refused, verify found no good signature, diff a difference, or find \
     nothing; 2 misused arguments; 3 an error of a file or of a stream, or out of memory; 4 stack lost a stack before \
     its bottom, and nothing is refused.";

fn after_help() -> String {
    format!("Examples:\n{EXAMPLES}\n\nExit status: {STATUSES}")
}

/// The library that the program is made with: set by what builds it.
pub const ARCHIVE: &str = match option_env!("PE_ARCHIVE") {
    Some(text) => text,
    None => "not said by what built the program",
};

/// The version, whether the library was proved, and what checks signatures.
fn version() -> &'static str {
    let checked_by = crate::verify::checked::checked_by();
    format!("{}\nlibrary for C: {ARCHIVE}\nsignatures: {checked_by}", env!("CARGO_PKG_VERSION")).leak()
}

/// Shows what is in Windows executables (.exe, .dll, .sys, .efi).
#[derive(Debug, Parser)]
#[command(name = "pe", bin_name = "pe", version = version(), after_help = after_help(), args_conflicts_with_subcommands = true)]
#[command(subcommand_negates_reqs = true, arg_required_else_help = true)]
pub struct Arguments {
    #[command(flatten)]
    pub files: Files,
    /// Show these parts whole in place of a summary, with commas between them; with --json these alone.
    #[arg(long, value_enum, ignore_case = true, value_delimiter = ',', value_name = "PART,..")]
    pub parts: Vec<Topic>,
    #[command(flatten)]
    pub reading: Reading,
    #[command(flatten)]
    pub hashing: Hashing,
    #[command(flatten)]
    pub output: Output,
    #[command(subcommand)]
    pub command: Option<Command>,
}

/// The files of a run.
#[derive(Args, Clone, Debug)]
pub struct Files {
    /// The images, or - for standard input.
    #[arg(required = true, value_name = "FILE")]
    pub files: Vec<PathBuf>,
    #[command(flatten)]
    pub walk: Walk,
    /// Whether it is the one file of a command that takes no other, and no folder.
    #[arg(skip)]
    pub is_one: bool,
}

/// What is done with folders.
#[derive(Args, Clone, Copy, Debug, Default)]
pub struct Walk {
    /// Take each FILE that is a folder as all files below it. What is no image is skipped, and counted.
    #[arg(short, long)]
    pub recursive: bool,
    /// Name what is skipped.
    #[arg(short, long, requires = "recursive")]
    pub verbose: bool,
}

impl Files {
    pub fn of(files: Vec<PathBuf>, walk: Walk) -> Files {
        Files { files, walk, is_one: false }
    }

    /// A file that is named by itself.
    pub fn one(file: &Path) -> Files {
        Files { is_one: true, ..Files::of(vec![file.to_path_buf()], Walk::default()) }
    }

    /// Whether there may be more than one.
    pub fn is_several(&self) -> bool {
        self.walk.recursive || self.files.len() > 1
    }
}

/// How images are read.
#[derive(Args, Clone, Debug)]
pub struct Reading {
    #[command(flatten)]
    pub strict: Strict,
    /// FILE is a module as it was in memory, not a file: RVAs are offsets.
    #[arg(long)]
    pub mapped: bool,
}

/// How images are read by commands that are for files alone.
#[derive(Args, Clone, Copy, Debug)]
pub struct Strict {
    /// Refuse damaged headers and directories where Windows may accept them.
    #[arg(long)]
    pub strict: bool,
}

impl Strict {
    pub fn reading(self) -> Reading {
        Reading { strict: self, mapped: false }
    }
}

/// What is worked out of the bytes of a whole file.
#[derive(Args, Clone, Copy, Debug)]
pub struct Hashing {
    /// Leave out hashes and checksums, which take most of the time.
    #[arg(long)]
    pub no_hashes: bool,
}

/// How images are shown.
#[derive(Args, Clone, Copy, Debug)]
pub struct Output {
    /// A line of JSON for each image.
    #[arg(long)]
    pub json: bool,
}

impl Reading {
    pub fn mode(&self) -> Mode {
        if self.strict.strict {
            Mode::Strict
        } else {
            Mode::Permissive
        }
    }

    pub fn layout(&self) -> Layout {
        if self.mapped {
            Layout::Mapped
        } else {
            Layout::File
        }
    }
}

impl Hashing {
    pub fn has_hashes(self) -> bool {
        !self.no_hashes
    }
}

/// The parts, for the help of `show`.
fn parts_help() -> String {
    let parts = Topic::value_variants().iter().filter_map(ValueEnum::to_possible_value);
    let lines = parts.map(|it| {
        let help = it.get_help().map(|help| help.to_string()).unwrap_or_default();
        format!("  {:14}{help}", it.get_name()).trim_end().to_string()
    });
    format!("Parts, in any case:\n{}", lines.collect::<Vec<_>>().join("\n"))
}

#[derive(Debug, Subcommand)]
pub enum Command {
    /// Show parts of images, whole.
    #[command(override_usage = "pe show [OPTIONS] <FILE>... [PART]...", after_help = parts_help())]
    Show {
        /// The images, or - for standard input, and after them the parts, or all where none is named. A file whose name is that
        /// of a part is written with its folder, as ./imports.
        #[arg(required = true, value_name = "FILE")]
        words: Vec<PathBuf>,
        /// The table of the one PART as CSV (RFC 4180). Of several files it has a column with their names.
        #[arg(long, conflicts_with = "json")]
        csv: bool,
        /// With --csv another table of the PART: dos-header or directories of headers, directory of exports, records or pogo of
        /// debug, numbers of version, fields, handlers, guarded, guarded-imports, long-jumps or continuations of load-config,
        /// directories, streams or references of clr, key of rich.
        #[arg(long, value_name = "TABLE", requires = "csv")]
        table: Option<String>,
        #[command(flatten)]
        walk: Walk,
        #[command(flatten)]
        reading: Reading,
        #[command(flatten)]
        hashing: Hashing,
        #[command(flatten)]
        output: Output,
    },
    /// Write a table of images as CSV (RFC 4180), a row each: machine, times, sizes, hashes, signer, version, counts.
    List {
        #[command(flatten)]
        files: Files,
        /// As CSV, which is the only form.
        #[arg(long)]
        csv: bool,
        #[command(flatten)]
        reading: Reading,
        #[command(flatten)]
        hashing: Hashing,
    },
    /// Show who imports or exports a name. The status is 1 where nobody does.
    Find {
        /// A part of the name of a function or of a DLL, in upper or lower case.
        #[arg(value_name = "WORD")]
        word: String,
        #[command(flatten)]
        files: Files,
        #[command(flatten)]
        reading: Reading,
        #[command(flatten)]
        output: Output,
    },
    /// Show what came, went and changed between two images. The status is 0 where all their bytes are the same.
    Diff {
        /// The image before.
        #[arg(value_name = "A")]
        before: PathBuf,
        /// The image after.
        #[arg(value_name = "B")]
        after: PathBuf,
        #[command(flatten)]
        reading: Reading,
        #[command(flatten)]
        output: Output,
    },
    /// Show how the function that covers an RVA is unwound, or how all functions are.
    #[command(override_usage = "pe unwind [OPTIONS] <FILE>... <RVA>\n       pe unwind [OPTIONS] --all <FILE>...")]
    Unwind {
        /// The images, or - for standard input; and last the RVA, in hexadecimal, with or without 0x, unless --all is there.
        #[arg(required = true, value_name = "FILE")]
        words: Vec<PathBuf>,
        /// All functions, in the order of their table.
        #[arg(long)]
        all: bool,
        #[command(flatten)]
        walk: Walk,
        #[command(flatten)]
        reading: Reading,
        #[command(flatten)]
        output: Output,
    },
    /// Show where a symbol server has the PDB of an image, and the image; or which of these a minidump's modules lack.
    Key {
        #[command(flatten)]
        files: Files,
        #[command(flatten)]
        missing: Missing,
        #[command(flatten)]
        reading: Reading,
        #[command(flatten)]
        hashing: Hashing,
        #[command(flatten)]
        output: Output,
    },
    /// Show the SHA-256 of what an Authenticode signature of an image covers.
    Digest {
        #[command(flatten)]
        files: Files,
        #[command(flatten)]
        strict: Strict,
        #[command(flatten)]
        output: Output,
    },
    /// Show what the signatures of images say, and whether it fits: the digests and the signatures, and with roots the chains.
    Verify {
        #[command(flatten)]
        files: Files,
        /// The certificates, in PEM, that chains have to lead to.
        #[arg(long, value_name = "FILE")]
        roots: Option<PathBuf>,
        /// Those that the system trusts, which are mostly for servers.
        #[arg(long, conflicts_with = "roots")]
        system_roots: bool,
        /// A list of revoked certificates (CRL), in DER or PEM, once for each. A certificate that no list of its issuer has
        /// counts as not revoked. It needs roots.
        #[arg(long = "crl", value_name = "FILE")]
        crls: Vec<PathBuf>,
        /// A catalog (.cat), once for each: one that lists the image is a signature of it.
        #[arg(long = "catalog", value_name = "FILE")]
        catalogs: Vec<PathBuf>,
        #[command(flatten)]
        strict: Strict,
        #[command(flatten)]
        output: Output,
    },
    /// Show why a process crashed, and the stacks of its threads, of a minidump.
    Stack {
        /// The minidump, or - for standard input.
        dump: PathBuf,
        #[command(flatten)]
        given: Given,
        #[command(flatten)]
        stacks: Stacks,
        /// The registers of each frame.
        #[arg(long)]
        registers: bool,
        #[command(flatten)]
        output: Output,
    },
    /// Show what a PDB is, what it has, and the functions and lines at RVAs.
    Pdb {
        /// The PDB, or - for standard input.
        file: PathBuf,
        /// RVAs of code, in hexadecimal, with or without 0x: the function there, and its line.
        #[arg(value_name = "RVA", value_parser = rva)]
        rvas: Vec<u32>,
        #[command(flatten)]
        lists: PdbLists,
        #[command(flatten)]
        output: Output,
    },
    /// Write the bytes of a part of an image to a new file.
    Extract {
        /// The image.
        file: PathBuf,
        /// The part.
        #[arg(value_enum, ignore_case = true)]
        part: ExtractedPart,
        #[command(flatten)]
        to: Target,
        #[command(flatten)]
        which: Which,
        #[command(flatten)]
        reading: Reading,
    },
    /// Write an image with a certificate, and with the right checksum, to a new file.
    Attach {
        /// The image.
        file: PathBuf,
        /// Entries of a certificate table, or PKCS #7 signed data in DER, which gets a header.
        certificate: PathBuf,
        #[command(flatten)]
        to: Target,
        /// In place of the certificates that are there, and not after them.
        #[arg(long)]
        in_place: bool,
        #[command(flatten)]
        strict: Strict,
    },
    /// Write an image without its certificates, and with the right checksum, to a new file.
    Detach {
        /// The image.
        file: PathBuf,
        #[command(flatten)]
        to: Target,
        #[command(flatten)]
        strict: Strict,
    },
    /// Write an image with other version information to a new file. What is not named stays as it is.
    SetVersion {
        /// The image.
        file: PathBuf,
        #[command(flatten)]
        to: Target,
        #[command(flatten)]
        version: NewVersion,
        #[command(flatten)]
        strong_name: StrongName,
        #[command(flatten)]
        strict: Strict,
    },
    /// Write an image with another manifest to a new file: in the place of that which Windows looks for, else of the first.
    SetManifest {
        /// The image.
        file: PathBuf,
        #[command(flatten)]
        to: Target,
        /// The manifest, an XML text.
        manifest: PathBuf,
        /// In this language alone, as 1033 or 0x409. Without it in those that the manifest has, at most 256 MiB for all.
        #[arg(long, value_parser = language)]
        language: Option<u16>,
        #[command(flatten)]
        strong_name: StrongName,
        #[command(flatten)]
        strict: Strict,
    },
    /// Write an image with other icons to a new file: in the place of those of its first group of icons.
    SetIcon {
        /// The image.
        file: PathBuf,
        #[command(flatten)]
        to: Target,
        /// The icons, an .ico file.
        icon: PathBuf,
        /// In this language alone, as 1033 or 0x409. Without it in those that the group has, at most 256 MiB for all.
        #[arg(long, value_parser = language)]
        language: Option<u16>,
        #[command(flatten)]
        strong_name: StrongName,
        #[command(flatten)]
        strict: Strict,
    },
    /// Write an image with a resource that has the content of a file to a new file.
    SetResource {
        /// The image.
        file: PathBuf,
        #[command(flatten)]
        to: Target,
        #[command(flatten)]
        which: OneResource,
        /// The file with the content.
        content: PathBuf,
        #[command(flatten)]
        strong_name: StrongName,
        #[command(flatten)]
        strict: Strict,
    },
    /// Write an image without a resource, or without several, to a new file.
    RemoveResource {
        /// The image.
        file: PathBuf,
        #[command(flatten)]
        to: Target,
        #[command(flatten)]
        which: Resources,
        #[command(flatten)]
        strong_name: StrongName,
        #[command(flatten)]
        strict: Strict,
    },
    /// Show the checksums of images and the right ones, or write an image with the right one.
    Checksum {
        #[command(flatten)]
        files: Files,
        /// Write the one image with the right checksum to a new file, or to standard output (-).
        #[arg(long, value_name = "OUT", conflicts_with = "json")]
        fix: Option<PathBuf>,
        /// Replace OUT where it exists.
        #[arg(long, requires = "fix")]
        replace: bool,
        #[command(flatten)]
        strict: Strict,
        #[command(flatten)]
        output: Output,
    },
    /// Write the symbol file of an image, as Breakpad and Crashpad have it: functions and lines, and how frames are unwound.
    Symbols {
        /// The image; or a PDB alone, which says nothing of unwinding.
        file: PathBuf,
        #[command(flatten)]
        to: Target,
        /// The PDB of the image, which has lines. Without it functions have the names of COFF symbols and exports.
        #[arg(long, value_name = "PDB")]
        pdb: Option<PathBuf>,
        #[command(flatten)]
        strict: Strict,
    },
    /// Write a page of HTML that shows an image, or the stacks of a minidump, to a new file.
    Report {
        /// The image or the minidump.
        file: PathBuf,
        #[command(flatten)]
        to: Target,
        #[command(flatten)]
        given: Given,
        #[command(flatten)]
        stacks: Stacks,
        #[command(flatten)]
        reading: Reading,
        #[command(flatten)]
        hashing: Hashing,
    },
    /// Write the completions of a shell to standard output.
    Completions {
        /// The shell.
        shell: Shell,
    },
    /// Write the man page to standard output.
    Man,
}

/// What of a minidump's modules is looked for, and where.
#[derive(Args, Clone, Debug)]
pub struct Missing {
    /// FILE is a minidump: the images and PDB files of its modules that are not found. No path that stands in it is opened.
    #[arg(long, conflicts_with_all = ["recursive", "verbose", "strict", "mapped", "no_hashes"])]
    pub missing: bool,
    /// A folder below which the images of modules are, or a file, as of `pe stack`.
    #[arg(long, value_name = "FOLDER", requires = "missing")]
    pub images: Vec<PathBuf>,
    /// A folder that is laid out as a symbol server is, with PDB files and images as NAME/KEY/NAME.
    #[arg(long, value_name = "FOLDER", requires = "missing")]
    pub symbols: Vec<PathBuf>,
}

/// Where the files of a minidump's modules are looked for.
#[derive(Args, Clone, Debug)]
pub struct Given {
    /// Of a minidump: a folder below which the images of modules are, or a file. An image is taken if its time stamp and its size
    /// are those of a module. No path that stands in the dump is opened.
    #[arg(long, value_name = "FOLDER")]
    pub images: Vec<PathBuf>,
    /// Of a minidump: a folder with PDB files, as NAME/KEY/NAME or as NAME alone, or a PDB. One is read if its GUID and its age are those
    /// that a module names. The folders of the variable _NT_SYMBOL_PATH come after these; nothing is fetched.
    #[arg(long, value_name = "FOLDER")]
    pub symbols: Vec<PathBuf>,
}

impl Given {
    pub fn places(&self) -> Places {
        Places { images: Known::below(&self.images), symbols: SymbolFolders::new(&self.symbols) }
    }

    /// Whether all of them are there; those that are not are told.
    pub fn are_there(&self) -> Status {
        are_there(&self.images).max(are_there(&self.symbols))
    }
}

/// Which lists of a PDB are shown.
#[derive(Args, Clone, Copy, Debug)]
pub struct PdbLists {
    /// The functions: procedures of modules, and public symbols where none of these starts.
    #[arg(long)]
    pub functions: bool,
    /// The modules, which are the objects that were linked.
    #[arg(long)]
    pub modules: bool,
    /// The streams, with their sizes.
    #[arg(long)]
    pub streams: bool,
}

impl PdbLists {
    pub fn asked(self, rvas: &[u32], is_json: bool) -> crate::pdb::Asked<'_> {
        let PdbLists { functions: has_functions, modules: has_modules, streams: has_streams } = self;
        crate::pdb::Asked { rvas, has_functions, has_modules, has_streams, is_json }
    }
}

/// Which stacks are shown, and how much of them.
#[derive(Args, Clone, Copy, Debug)]
pub struct Stacks {
    /// The stack of this thread alone.
    #[arg(long, value_name = "ID")]
    pub thread: Option<u32>,
    /// At most so many frames of each thread, 100 without it.
    #[arg(long, value_name = "N")]
    pub frames: Option<usize>,
}

impl Stacks {
    pub fn asked(self, is_json: bool) -> crate::stack::Asked {
        let Stacks { thread, frames } = self;
        crate::stack::Asked { thread, frames: frames.unwrap_or(100), has_registers: false, is_json }
    }
}

/// The options of a page that are of images alone, and whether each is there.
pub fn of_images(reading: &Reading, hashing: &Hashing) -> [(&'static str, bool); 3] {
    [("--strict", reading.strict.strict), ("--mapped", reading.mapped), ("--no-hashes", hashing.no_hashes)]
}

/// Those that are of minidumps alone.
pub fn of_dumps(given: &Given, stacks: &Stacks) -> [(&'static str, bool); 4] {
    let (images, symbols) = (!given.images.is_empty(), !given.symbols.is_empty());
    [
        ("--images", images),
        ("--symbols", symbols),
        ("--thread", stacks.thread.is_some()),
        ("--frames", stacks.frames.is_some()),
    ]
}

/// A resource.
#[derive(Args, Clone, Debug)]
pub struct OneResource {
    /// Its type: a number of winuser.h, as 10, or what show calls that, as "raw data", or a name of its own.
    #[arg(value_name = "TYPE")]
    pub kind: String,
    /// Its name, or its number.
    pub name: String,
    /// In this language alone, as 1033 or 0x409. Without it in those that it has.
    #[arg(long, value_parser = language)]
    pub language: Option<u16>,
}

/// Resources.
#[derive(Args, Clone, Debug)]
pub struct Resources {
    /// Of each resource its type and its name, or their numbers.
    #[arg(required = true, num_args = 2.., value_names = ["TYPE", "NAME"])]
    pub words: Vec<String>,
    /// In this language alone, as 1033 or 0x409. Without it in those that they have.
    #[arg(long, value_parser = language)]
    pub language: Option<u16>,
}

impl Resources {
    /// The types and the names.
    pub fn pairs(&self) -> impl Iterator<Item = (&str, &str)> {
        self.words.chunks_exact(2).map(|it| (it[0].as_str(), it[1].as_str()))
    }
}

/// What is new of version information.
#[derive(Args, Clone, Debug)]
pub struct NewVersion {
    /// The version of the file, up to four numbers. The string FileVersion follows it, unless --string sets that too.
    #[arg(long, value_name = "1.2.3.4", value_parser = version_numbers)]
    pub file_version: Option<[u16; 4]>,
    /// The version of the product. The string ProductVersion follows it.
    #[arg(long, value_name = "1.2.3.4", value_parser = version_numbers)]
    pub product_version: Option<[u16; 4]>,
    /// A string, as CompanyName=Example, in each table of strings; the others stay.
    #[arg(long = "string", value_name = "NAME=TEXT", value_parser = name_and_text)]
    pub strings: Vec<(String, String)>,
    /// In this language alone, as 1033 or 0x409. Without it in those that the version information has.
    #[arg(long, value_parser = language)]
    pub language: Option<u16>,
}

impl NewVersion {
    /// The strings that are named, and before them those that follow the numbers.
    pub fn all_strings(&self) -> impl Iterator<Item = (&str, String)> {
        let is_named = |name: &str| self.strings.iter().any(|it| it.0.eq_ignore_ascii_case(name));
        let numbers = [("FileVersion", self.file_version), ("ProductVersion", self.product_version)];
        let text = |numbers: [u16; 4]| numbers.map(|it| it.to_string()).join(".");
        let following = numbers.into_iter().filter(move |it| !is_named(it.0));
        let following = following.filter_map(move |(name, numbers)| Some((name, text(numbers?))));
        following.chain(self.strings.iter().map(|(name, text)| (name.as_str(), text.clone())))
    }

    /// Whether nothing is new.
    pub fn is_empty(&self) -> bool {
        self.all_strings().next().is_none()
    }

    /// The name of a string that is named before, in upper or lower case.
    pub fn repeated(&self) -> Option<&str> {
        let is_before = |at: usize| self.strings[..at].iter().any(|it| it.0.eq_ignore_ascii_case(&self.strings[at].0));
        (0..self.strings.len()).find(|at| is_before(*at)).map(|at| self.strings[at].0.as_str())
    }
}

/// What is done with a strong name.
#[derive(Args, Clone, Copy, Debug)]
pub struct StrongName {
    /// Change an image with a strong name (.NET) too, which is no longer good then.
    #[arg(long)]
    pub break_strong_name: bool,
}

fn language(text: &str) -> Result<u16, String> {
    crate::edit::number_of(text).ok_or_else(|| "a language is a number of 16 bits, as 1033 or 0x409".into())
}

fn version_numbers(text: &str) -> Result<[u16; 4], String> {
    let (mut numbers, mut count) = ([0; 4], 0);
    for part in text.split('.') {
        // A sign is none of them.
        let number = part.parse().ok().filter(|_| !part.starts_with('+'));
        let number = number.ok_or("a version is numbers below 65536 with dots between them")?;
        *numbers.get_mut(count).ok_or("a version has at most four numbers")? = number;
        count += 1;
    }
    Ok(numbers)
}

fn name_and_text(text: &str) -> Result<(String, String), String> {
    let (name, value) = text.split_once('=').filter(|it| !it.0.is_empty()).ok_or("a string is NAME=TEXT")?;
    Ok((name.into(), value.into()))
}

/// The words of `show`: files, and the parts that come after them. The first is a file.
pub fn files_and_parts(words: &[PathBuf], walk: Walk) -> (Files, Vec<Topic>) {
    let named = words.iter().skip(1).rev().map_while(|it| Topic::from_str(it.to_str()?, true).ok());
    let mut topics: Vec<Topic> = named.collect();
    topics.reverse();
    (Files::of(words[..words.len() - topics.len()].to_vec(), walk), topics)
}

/// The words of `unwind` without `--all`: files, and an RVA last.
pub fn files_and_rva(words: &[PathBuf], walk: Walk) -> Option<(Files, u32)> {
    let (last, files) = words.split_last().filter(|(_, files)| !files.is_empty())?;
    Some((Files::of(files.to_vec(), walk), rva(last.to_str()?).ok()?))
}

/// An RVA in hexadecimal.
fn rva(text: &str) -> Result<u32, String> {
    let digits = text.strip_prefix("0x").unwrap_or(text);
    let number = u32::from_str_radix(digits, 16).ok().filter(|_| digits.starts_with(|it: char| it.is_ascii_hexdigit()));
    number.ok_or_else(|| "an RVA is a number of 32 bits in hexadecimal, as 0x1071".into())
}

#[cfg(test)]
mod tests {
    use super::*;

    fn paths(words: &[&str]) -> Vec<PathBuf> {
        words.iter().map(PathBuf::from).collect()
    }

    #[test]
    fn parts_come_after_files() {
        let split = |words: &[&str]| {
            let (files, topics) = files_and_parts(&paths(words), Walk::default());
            (files.files, topics)
        };
        assert_eq!(split(&["a"]), (paths(&["a"]), vec![]));
        assert_eq!(split(&["a", "b", "TLS", "rich"]), (paths(&["a", "b"]), vec![Topic::Tls, Topic::Rich]));
        assert_eq!(split(&["imports"]), (paths(&["imports"]), vec![]));
        assert_eq!(split(&["imports", "tls", "b"]), (paths(&["imports", "tls", "b"]), vec![]));
        assert_eq!(split(&["imports", "./tls", "tls"]), (paths(&["imports", "./tls"]), vec![Topic::Tls]));
    }

    #[test]
    fn an_rva_comes_last() {
        let split = |words: &[&str]| files_and_rva(&paths(words), Walk::default()).map(|it| (it.0.files, it.1));
        assert_eq!(split(&["a", "0x1f"]), Some((paths(&["a"]), 0x1F)));
        assert_eq!(split(&["a", "b", "10"]), Some((paths(&["a", "b"]), 0x10)));
        for words in [["10"].as_slice(), &["a", "xyz"], &["a", "0x0x1"], &["a", "100000000"], &["a", "-1"]] {
            assert_eq!(split(words), None, "{words:?}");
        }
    }
}
