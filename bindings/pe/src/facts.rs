//! What the program says of an image, as records: JSON is made of them as they are, and text by `summary` and `show`. Each
//! value comes from a call of the crate `pe_c`.

pub mod all_headers;
pub mod assembly;
pub mod bound_imports;
pub mod certificates;
pub mod clr;
pub mod debug;
pub mod delay_imports;
pub mod entropy;
pub mod exports;
pub mod functions;
pub mod guards;
pub mod hardening;
pub mod hashes;
pub mod headers;
pub mod imports;
pub mod languages;
pub mod load_config;
pub mod name;
pub mod ordinals;
pub mod others;
pub mod overlay;
pub mod products;
pub mod regions;
pub mod relocations;
pub mod resources;
pub mod rich;
pub mod sections;
pub mod signatures;
pub mod symbols;
pub mod tls;
pub mod version;

use crate::escape::Escaped;
use crate::files::size_of_file;
use crate::names::{name_of, MACHINES};
use chrono::{TimeZone, Utc};
use clap::ValueEnum;
pub use name::Name;
use others::Other;
use pe_c::{DirectoryIndex, Error, Image, Mode};
use serde::ser::SerializeMap;
use serde::{Serialize, Serializer};
use std::fmt;
use std::path::Path;

/// The version of the JSON that `docs/JSON.md` describes. It grows when a field changes its meaning or goes away.
pub const JSON_VERSION: u32 = 3;

/// A part of an image that can be asked for.
#[derive(Clone, Copy, Debug, PartialEq, Eq, ValueEnum)]
pub enum Topic {
    Headers,
    /// What the headers ask of Windows to make attacks harder
    Hardening,
    /// MD5, SHA-1, SHA-256, imphash, Rich hash, and the Authenticode digest
    Hashes,
    Sections,
    Imports,
    Exports,
    Debug,
    Certificates,
    /// The functions of x64 and ARM64, by their unwind data
    Functions,
    /// Version information, and what the manifest asks for
    Version,
    /// Thread-local storage, with the callbacks that run before the entry point
    Tls,
    /// Base relocations, counted by page
    Relocations,
    /// DLLs that are loaded when one of their functions is called first
    DelayImports,
    /// DLLs whose addresses stand in the image, with their time stamps
    BoundImports,
    /// What guards the image against attacks
    LoadConfig,
    /// The CLR header and the streams of its metadata, of an image for .NET
    Clr,
    /// The Rich header: which tools made the objects of the image
    Rich,
    /// All resources, each in each language
    Resources,
    /// COFF symbols, of objects; of images where they are named
    Symbols,
    All,
}

impl Topic {
    /// How the part is named on the command line.
    pub fn name(self) -> String {
        self.to_possible_value().map(|it| it.get_name().to_string()).unwrap_or_default()
    }
}

/// What is wanted of an image.
#[derive(Clone, Debug)]
pub struct Wanted {
    topics: Vec<Topic>,
    /// Whether COFF symbols of images are shown: images of mingw-w64 have tens of thousands, and few look for them.
    has_symbols_of_images: bool,
    /// Whether TE images and objects are shown too.
    pub has_others: bool,
    /// Whether the parts that are hashed are so beside the file: sections, resources, and what a signature covers.
    has_hashes_of_parts: bool,
}

impl Wanted {
    /// The parts that are named: all where none is, and hashes only where they are not left out.
    pub fn parts(topics: &[Topic], has_hashes: bool) -> Wanted {
        let has_symbols_of_images = topics.contains(&Topic::Symbols);
        let is_all = topics.is_empty() || topics.contains(&Topic::All);
        let named = Topic::value_variants().iter().copied();
        let topics = named.filter(|it| (is_all || topics.contains(it)) && (has_hashes || *it != Topic::Hashes));
        let topics = topics.collect();
        Wanted { topics, has_symbols_of_images, has_others: false, has_hashes_of_parts: has_hashes }
    }

    /// What a summary speaks of: everything, each with fewer words.
    pub fn summary(has_hashes: bool) -> Wanted {
        Wanted { has_hashes_of_parts: false, ..Wanted::parts(&[], has_hashes).with_others() }
    }

    /// TE images and objects too.
    pub fn with_others(self) -> Wanted {
        Wanted { has_others: true, ..self }
    }

    fn has(&self, topic: Topic) -> bool {
        self.topics.contains(&topic)
    }
}

const TE_IMAGE: &str = "a TE image";
const OBJECT_AS_IT_SEEMS: &str = "a COFF object, as it seems";
/// What a file is that starts as one of DOS, where no PE signature or not all headers are in it.
pub const CUT: &str = "a DOS or truncated MZ file, as it seems";
/// What is skipped below folders and may be looked for, and how such files are counted.
pub const OTHERS: [(&str, &str); 3] =
    [(TE_IMAGE, "TE image"), (OBJECT_AS_IT_SEEMS, "COFF object"), (CUT, "DOS or truncated MZ file")];

/// What a file is that is no image, by its first bytes.
pub fn kind_of(bytes: &[u8]) -> Option<&'static str> {
    match bytes {
        [] => Some("an empty file"),
        [b'V', b'Z', low, high, ..] if is_machine(*low, *high) => Some(TE_IMAGE),
        _ if bytes.starts_with(b"\x7fELF") => Some("an ELF file"),
        _ if bytes.starts_with(b"!<arch>\n") => Some("an archive of objects"),
        _ if bytes.starts_with(b"!<thin>\n") => Some("a thin archive of objects"),
        [0, 0, 0xFF, 0xFF, ..] => Some("an object of a short import or of large format"),
        [low, high, ..] if is_machine(*low, *high) => Some(OBJECT_AS_IT_SEEMS),
        _ if bytes.starts_with(b"MDMP") => Some("a minidump, which pe stack shows"),
        _ if bytes.starts_with(b"Microsoft C/C++ MSF 7.00\r\n\x1ADS\0\0\0") => Some("a PDB, which pe pdb shows"),
        _ if bytes.starts_with(b"Microsoft C/C++ program database 2.00\r\n") => Some("a PDB of version 2.0"),
        _ if bytes.starts_with(b"BSJB") => Some("a portable PDB, or other metadata of .NET"),
        _ if bytes.starts_with(b"MZ") => None,
        _ if bytes.iter().take(512).all(|it| matches!(it, b'\t' | b'\n' | b'\r' | 0x20..=0x7E)) => Some("a text"),
        _ => overlay::kind_by_start(bytes),
    }
}

/// Whether two bytes are the number of a machine.
fn is_machine(low: u8, high: u8) -> bool {
    name_of(u16::from_le_bytes([low, high]).into(), MACHINES).is_some()
}

/// What each line of JSON starts with, of a command that has no parts: whose file it is.
#[derive(Clone, Debug, Serialize)]
pub struct Origin {
    pub json_version: u32,
    pub file: String,
    pub file_hex: Option<String>,
    /// The bytes of the path, for text.
    #[serde(skip)]
    path: Vec<u8>,
}

impl Origin {
    pub fn of(path: &Path) -> Origin {
        let (file, file_hex) = (path.to_string_lossy().into_owned(), hex_of_path(path));
        Origin { json_version: JSON_VERSION, file, file_hex, path: bytes_of_path(path).to_vec() }
    }

    /// The path for people: bytes that are no text are escaped.
    pub fn shown_file(&self) -> String {
        Escaped(&self.path).to_string()
    }
}

/// Under Windows those of WTF-8.
pub fn bytes_of_path(path: &Path) -> &[u8] {
    path.as_os_str().as_encoded_bytes()
}

/// The bytes of a path that is not UTF-8: under Windows those of WTF-8, which has half of a surrogate pair as three bytes.
fn hex_of_path(path: &Path) -> Option<String> {
    path.to_str().is_none().then(|| hex_of(bytes_of_path(path)))
}

/// The name by which a symbol server would have an image in this file. Standard input has none.
pub fn file_name_of(path: &Path) -> String {
    let name = path.file_name().filter(|_| path != Path::new("-"));
    name.map_or(String::new(), |it| it.to_string_lossy().into_owned())
}

/// Why something is refused: the library's number, name and text.
#[derive(Clone, Debug, PartialEq, Eq, Serialize)]
pub struct Refusal {
    pub number: u32,
    pub name: &'static str,
    pub text: String,
    /// What is wrong, with its numbers, for text.
    #[serde(skip)]
    pub said: Option<String>,
    /// What the file is, where it is one for another command, for text.
    #[serde(skip)]
    pub kind: Option<&'static str>,
}

impl Refusal {
    /// The error of a directory, with its numbers where the directory itself is refused, and not an entry in it.
    pub fn of_directory(error: Error, image: &Image<'_>, index: DirectoryIndex) -> Refusal {
        let failure = image.directory_failure(index).filter(|it| it.error == error);
        Refusal { said: failure.map(|it| it.to_string()), ..error.into() }
    }

    /// The error of a file, with what it is and which command shows that, unless that is what was asked for.
    pub fn of_file(error: Error, bytes: &[u8], asked: &str) -> Refusal {
        let kind = match Image::parse(bytes, Mode::Permissive) {
            Ok(_) => Some("an image, which pe FILE shows"),
            Err(_) if bytes.starts_with(b"MZ") => Some(CUT),
            Err(_) => kind_of(bytes),
        };
        Refusal { kind: kind.filter(|it| !it.contains(asked)), ..error.into() }
    }
}

impl From<Error> for Refusal {
    fn from(error: Error) -> Refusal {
        let name = error.name().unwrap_or("UNKNOWN");
        Refusal { number: error.number(), name, text: error.to_string(), said: None, kind: None }
    }
}

impl fmt::Display for Refusal {
    fn fmt(&self, f: &mut fmt::Formatter<'_>) -> fmt::Result {
        write!(f, "{} ({})", self.said.as_ref().unwrap_or(&self.text), self.name)?;
        self.kind.map_or(Ok(()), |kind| write!(f, "; it is {kind}"))
    }
}

/// A part of an image: absent, there, or refused. In JSON these are the fields of `Field`, beside the others of the object that
/// has the part.
#[derive(Clone, Debug)]
pub enum Part<T> {
    Absent,
    Present(T),
    Refused(Refusal),
}

/// The names that a part has in JSON: its value, or null; and why it is refused or ends early, or null.
pub trait Field {
    const NAME: &'static str;
    const ERROR: &'static str;
    /// Of a list, whether there are more entries than stand in it.
    const IS_LIMITED: Option<&'static str> = None;

    /// Why a list ends early.
    fn error(&self) -> Option<&Refusal> {
        None
    }

    fn is_limited(&self) -> bool {
        false
    }
}

/// A type that is one value of one name.
macro_rules! field {
    ($type:ty, $name:literal) => {
        impl crate::facts::Field for $type {
            const NAME: &'static str = $name;
            const ERROR: &'static str = concat!($name, "_error");
        }
    };
}
pub(crate) use field;

/// An entry of lists that have one name.
pub trait Entry {
    const NAME: &'static str;
    const ERROR: &'static str;
    const IS_LIMITED: &'static str;
}

macro_rules! entry {
    ($type:ty, $name:literal) => {
        impl crate::facts::Entry for $type {
            const NAME: &'static str = $name;
            const ERROR: &'static str = concat!($name, "_error");
            const IS_LIMITED: &'static str = concat!($name, "_is_limited");
        }
    };
}
pub(crate) use entry;

impl<T: Entry> Field for List<T> {
    const NAME: &'static str = T::NAME;
    const ERROR: &'static str = T::ERROR;
    const IS_LIMITED: Option<&'static str> = Some(T::IS_LIMITED);

    fn error(&self) -> Option<&Refusal> {
        self.error.as_ref()
    }

    fn is_limited(&self) -> bool {
        self.is_limited
    }
}

impl<T> Part<T> {
    pub fn present(&self) -> Option<&T> {
        match self {
            Part::Present(value) => Some(value),
            _ => None,
        }
    }

    pub fn refusal(&self) -> Option<&Refusal> {
        match self {
            Part::Refused(refusal) => Some(refusal),
            _ => None,
        }
    }
}

impl<T> Part<List<T>> {
    /// How many entries there are, with a plus sign where there are more.
    pub fn count(&self) -> String {
        self.present().map_or("0".to_string(), |it| count_of(it.entries.len(), it.is_limited))
    }

    pub fn entries(&self) -> &[T] {
        self.present().map_or(&[], |it| &it.entries)
    }

    /// Why the list is refused, or the entry at which it ends.
    pub fn list_refusal(&self) -> Option<&Refusal> {
        self.refusal().or(self.present().and_then(|it| it.error.as_ref()))
    }
}

impl<T> Part<T> {
    /// What a call found of a directory.
    pub fn of_directory(found: Result<Option<T>, Error>, image: &Image<'_>, index: DirectoryIndex) -> Part<T> {
        match found {
            Err(error) => Part::Refused(Refusal::of_directory(error, image, index)),
            found => found.into(),
        }
    }
}

impl<T> Part<T> {
    /// What a walk over a directory found, which is empty where the directory is absent.
    pub fn of_walk(found: Result<T, Error>, image: &Image<'_>, index: DirectoryIndex) -> Part<T> {
        let is_there = image.info().directory(index).is_some();
        Part::of_directory(found.map(|it| is_there.then_some(it)), image, index)
    }
}

impl<T> From<Result<Option<T>, Error>> for Part<T> {
    fn from(found: Result<Option<T>, Error>) -> Part<T> {
        match found {
            Ok(Some(value)) => Part::Present(value),
            Ok(None) => Part::Absent,
            Err(error) => Part::Refused(error.into()),
        }
    }
}

impl<T: Field + Serialize> Serialize for Part<T> {
    fn serialize<S: Serializer>(&self, serializer: S) -> Result<S::Ok, S::Error> {
        let (value, mut map) = (self.present(), serializer.serialize_map(None)?);
        map.serialize_entry(T::NAME, &value)?;
        map.serialize_entry(T::ERROR, &self.refusal().or(value.and_then(Field::error)))?;
        if let Some(name) = T::IS_LIMITED {
            map.serialize_entry(name, &value.is_some_and(Field::is_limited))?;
        }
        map.end()
    }
}

/// How often the bytes of a file are read for the names and lists of one part.
const READINGS: usize = 16;
/// How many bytes an entry of a list counts for, beside its name.
pub const ENTRY: usize = 8;
/// How many lists inside of entries count as the bytes of a file, read once, if they are refused.
const REFUSED: usize = 4;

/// How many bytes may still be read for one part of an image. Entries of a hostile file may share a long name or a long list, and
/// without a bound a small file has more to show than anyone reads. In other files hardly a byte is read twice. For an entry RVAs
/// are mapped, through all sections in turn: each of them counts for a byte.
pub struct Budget {
    left: usize,
    sections: usize,
    refused: usize,
}

impl Budget {
    pub fn of(image: &Image<'_>) -> Budget {
        Budget { sections: image.sections().len(), ..Budget::without_rvas(image.bytes()) }
    }

    /// For entries that have no RVA.
    pub fn without_rvas(bytes: &[u8]) -> Budget {
        Budget { left: bytes.len().saturating_mul(READINGS), sections: 0, refused: bytes.len() / REFUSED }
    }

    /// Adds what so many bytes of another file allow.
    pub fn add(&mut self, bytes: usize) {
        self.left = self.left.saturating_add(bytes.saturating_mul(READINGS));
    }

    /// A list inside of an entry. One that is refused is paid for: a name in it may have been read to the end of the file, and entries
    /// may share that.
    pub fn inside<T>(&mut self, list: List<T>) -> List<T> {
        if list.error.is_some() {
            self.left = self.left.saturating_sub(self.refused);
        }
        list
    }

    /// Takes so many bytes for an entry, if they are left.
    pub fn takes(&mut self, count: usize) -> bool {
        let left = self.left.checked_sub(count.saturating_add(self.sections));
        self.left = left.unwrap_or(self.left);
        left.is_some()
    }
}

/// A list that ends early where an entry is refused: in JSON an array of the entries, and beside it the error of the first that
/// is none.
#[derive(Clone, Debug)]
pub struct List<T> {
    pub entries: Vec<T>,
    pub error: Option<Refusal>,
    /// Whether there are more, and what they share is too long to be shown as often.
    pub is_limited: bool,
}

/// The entries alone. What is beside them is written by the part that the list is.
impl<T: Serialize> Serialize for List<T> {
    fn serialize<S: Serializer>(&self, serializer: S) -> Result<S::Ok, S::Error> {
        self.entries.serialize(serializer)
    }
}

impl<T> List<T> {
    /// The items up to the first error, each as `of` shows it.
    pub fn of<I>(items: impl Iterator<Item = Result<I, Error>>, mut of: impl FnMut(I) -> T) -> List<T> {
        List::limited(items, |item| Some(of(item)))
    }

    /// Whether there is more of the list, or of a list that an entry has.
    pub fn is_limited_in<U>(&self, list_of: impl Fn(&T) -> &Part<List<U>>) -> bool {
        self.is_limited || self.entries.iter().any(|it| list_of(it).present().is_some_and(|it| it.is_limited))
    }

    /// The items up to the first error, or up to the first that `of` does not show.
    pub fn limited<I>(items: impl Iterator<Item = Result<I, Error>>, mut of: impl FnMut(I) -> Option<T>) -> List<T> {
        let mut list = List { entries: Vec::new(), error: None, is_limited: false };
        for item in items {
            match item.map(&mut of) {
                Ok(Some(item)) => list.entries.push(item),
                Ok(None) => {
                    list.is_limited = true;
                    break;
                }
                Err(error) => {
                    list.error = Some(error.into());
                    break;
                }
            }
        }
        list
    }
}

/// A count and what is counted, in the plural but for one.
pub fn counted(count: usize, what: &str) -> String {
    format!("{count} {what}{}", if count == 1 { "" } else { "s" })
}

/// How many entries there are, with a plus sign where there are more.
pub fn count_of(count: usize, is_limited: bool) -> String {
    count.to_string() + if is_limited { "+" } else { "" }
}

/// Two digits for each byte.
pub fn hex_of(bytes: &[u8]) -> String {
    bytes.iter().map(|byte| format!("{byte:02x}")).collect()
}

/// A number and its name, if it has one.
#[derive(Clone, Debug, Serialize)]
pub struct Named {
    pub number: u32,
    pub name: Option<&'static str>,
}

impl Named {
    pub fn of(number: u32, names: &'static [(u32, &'static str)]) -> Named {
        Named { number, name: crate::names::name_of(number, names) }
    }
}

impl fmt::Display for Named {
    fn fmt(&self, f: &mut fmt::Formatter<'_>) -> fmt::Result {
        match self.name {
            Some(name) => f.write_str(name),
            None => write!(f, "0x{:x}", self.number),
        }
    }
}

/// Flags: in JSON the number, and an object with a boolean for each that has a name.
#[derive(Clone, Copy, Debug)]
pub struct Flags {
    pub number: u32,
    names: &'static [(u32, &'static str)],
}

impl Flags {
    pub fn of(number: u32, names: &'static [(u32, &'static str)]) -> Flags {
        Flags { number, names }
    }

    /// The names of those that are set.
    pub fn set(&self) -> Vec<&'static str> {
        crate::names::flags_of(self.number, self.names)
    }
}

impl fmt::Display for Flags {
    fn fmt(&self, f: &mut fmt::Formatter<'_>) -> fmt::Result {
        write!(f, "{:#x}", self.number)?;
        if !self.set().is_empty() {
            write!(f, ": {}", self.set().join(", "))?;
        }
        Ok(())
    }
}

struct Booleans<'a>(&'a Flags);

impl Serialize for Booleans<'_> {
    fn serialize<S: Serializer>(&self, serializer: S) -> Result<S::Ok, S::Error> {
        serializer.collect_map(self.0.names.iter().map(|(flag, name)| (name, self.0.number & flag != 0)))
    }
}

impl Serialize for Flags {
    fn serialize<S: Serializer>(&self, serializer: S) -> Result<S::Ok, S::Error> {
        let mut map = serializer.serialize_map(Some(2))?;
        map.serialize_entry("number", &self.number)?;
        map.serialize_entry("flags", &Booleans(self))?;
        map.end()
    }
}

/// A time stamp: in JSON the fields `time_date_stamp`, seconds since 1970, and `time`, the same as RFC 3339 has it, or null where
/// it is 0 or none.
#[derive(Clone, Copy, Debug)]
pub struct Stamp {
    pub seconds: u32,
    /// Whether it is a hash, as those of a reproducible build are.
    pub is_hash: bool,
}

impl Stamp {
    pub fn of(seconds: u32) -> Stamp {
        Stamp { seconds, is_hash: false }
    }

    pub fn time(self) -> Option<String> {
        let time = Utc.timestamp_opt(self.seconds.into(), 0).single().filter(|_| self.seconds != 0 && !self.is_hash);
        time.map(|it| it.format("%Y-%m-%dT%H:%M:%SZ").to_string())
    }
}

impl Serialize for Stamp {
    fn serialize<S: Serializer>(&self, serializer: S) -> Result<S::Ok, S::Error> {
        let mut map = serializer.serialize_map(Some(2))?;
        map.serialize_entry("time_date_stamp", &self.seconds)?;
        map.serialize_entry("time", &self.time())?;
        map.end()
    }
}

/// From so many bytes on a thread costs less than a pass over the file.
const LARGE: usize = 1 << 20;

/// Works out two things that go over the bytes of an image, of a large one side by side.
pub fn both<A: Send, B: Send>(
    image: &Image<'_>,
    one: impl FnOnce() -> A + Send,
    other: impl FnOnce() -> B + Send,
) -> (A, B) {
    if image.bytes().len() < LARGE {
        (one(), other())
    } else {
        rayon::join(one, other)
    }
}

/// A part that is not whole where other commands use it.
#[derive(Debug, Serialize)]
pub struct NotWhole {
    /// In words.
    pub part: &'static str,
    /// Null where the image has more of the part than is looked at.
    pub error: Option<Refusal>,
}

/// What is said of a file.
#[derive(Debug, Serialize)]
pub struct Facts<'a> {
    pub json_version: u32,
    pub file: String,
    /// The bytes of a path that is not UTF-8, by which it can be opened.
    pub file_hex: Option<String>,
    /// Those of each path, for text.
    #[serde(skip)]
    pub path: Vec<u8>,
    pub file_size: usize,
    /// Why nothing is shown of the file.
    pub error: Option<Refusal>,
    /// What the file is, where it is no image, if that can be seen.
    pub file_kind: Option<&'static str>,
    #[serde(skip_serializing_if = "Option::is_none")]
    pub headers: Option<headers::Headers>,
    /// Those of a TE image or of an object, which has no other.
    #[serde(rename = "headers", skip_serializing_if = "Option::is_none")]
    pub other_headers: Option<others::Headers>,
    #[serde(skip_serializing_if = "Option::is_none")]
    pub hardening: Option<hardening::Hardening>,
    #[serde(skip_serializing_if = "Option::is_none")]
    pub hashes: Option<hashes::Hashes>,
    #[serde(skip_serializing_if = "Option::is_none")]
    pub sections: Option<Vec<sections::Section<'a>>>,
    #[serde(flatten)]
    pub imports: Option<Part<List<imports::Library<'a>>>>,
    #[serde(flatten)]
    pub exports: Option<Part<exports::Exports<'a>>>,
    #[serde(skip_serializing_if = "Option::is_none")]
    pub debug: Option<debug::Debug<'a>>,
    #[serde(flatten)]
    pub certificates: Option<Part<List<certificates::Certificate>>>,
    #[serde(flatten)]
    pub functions: Option<Part<functions::Functions>>,
    #[serde(skip_serializing_if = "Option::is_none")]
    pub version: Option<version::Version>,
    #[serde(flatten)]
    pub tls: Option<Part<tls::Tls>>,
    #[serde(flatten)]
    pub relocations: Option<Part<List<relocations::Page>>>,
    #[serde(flatten)]
    pub delay_imports: Option<Part<List<delay_imports::Library<'a>>>>,
    #[serde(flatten)]
    pub bound_imports: Option<Part<List<bound_imports::Bound<'a>>>>,
    #[serde(flatten)]
    pub load_config: Option<Part<load_config::LoadConfig>>,
    #[serde(flatten)]
    pub clr: Option<Part<clr::Clr<'a>>>,
    #[serde(flatten)]
    pub rich: Option<Part<rich::Rich>>,
    #[serde(flatten)]
    pub resources: Option<Part<resources::Resources<'a>>>,
    #[serde(flatten)]
    pub symbols: Option<Part<List<symbols::Symbol<'a>>>>,
}

impl<'a> Facts<'a> {
    fn empty(path: &Path, file_size: usize) -> Facts<'a> {
        Facts {
            json_version: JSON_VERSION,
            file: path.to_string_lossy().into_owned(),
            file_hex: hex_of_path(path),
            path: bytes_of_path(path).to_vec(),
            file_size,
            error: None,
            file_kind: None,
            hardening: None,
            hashes: None,
            headers: None,
            other_headers: None,
            sections: None,
            imports: None,
            exports: None,
            debug: None,
            certificates: None,
            functions: None,
            version: None,
            tls: None,
            relocations: None,
            delay_imports: None,
            bound_imports: None,
            load_config: None,
            clr: None,
            rich: None,
            resources: None,
            symbols: None,
        }
    }

    /// The path for people: bytes that are no text are escaped.
    pub fn shown_file(&self) -> String {
        Escaped(&self.path).to_string()
    }

    /// Of a file that is no image.
    pub fn refused(path: &Path, bytes: &[u8], error: Refusal) -> Facts<'a> {
        Facts { error: Some(error), file_kind: kind_of(bytes), ..Facts::empty(path, size_of_file(path, bytes)) }
    }

    /// Of an image the parts that are wanted.
    pub fn of(path: &Path, image: &'a Image<'_>, wanted: &Wanted) -> Facts<'a> {
        let is_wanted = |topic| wanted.has(topic);
        let of_parts = wanted.has_hashes_of_parts;
        let has_checksum = of_parts || is_wanted(Topic::Hashes);
        let name = file_name_of(path);
        let of_headers = || is_wanted(Topic::Headers).then(|| headers::of(image, &name, has_checksum));
        let of_sections = || is_wanted(Topic::Sections).then(|| sections::of(image, of_parts));
        let of_hashes = || is_wanted(Topic::Hashes).then(|| hashes::of(image, of_parts));
        let (hashes, (headers, sections)) = both(image, of_hashes, || both(image, of_headers, of_sections));
        Facts {
            headers,
            hardening: is_wanted(Topic::Hardening).then(|| hardening::of(image)),
            hashes,
            sections,
            imports: is_wanted(Topic::Imports).then(|| imports::of(image)),
            exports: is_wanted(Topic::Exports).then(|| exports::of(image)),
            debug: is_wanted(Topic::Debug).then(|| debug::of(image)),
            certificates: is_wanted(Topic::Certificates).then(|| certificates::of(image)),
            functions: is_wanted(Topic::Functions).then(|| functions::of(image)),
            version: is_wanted(Topic::Version).then(|| version::of(image)),
            tls: is_wanted(Topic::Tls).then(|| tls::of(image)),
            relocations: is_wanted(Topic::Relocations).then(|| relocations::of(image)),
            delay_imports: is_wanted(Topic::DelayImports).then(|| delay_imports::of(image)),
            bound_imports: is_wanted(Topic::BoundImports).then(|| bound_imports::of(image)),
            load_config: is_wanted(Topic::LoadConfig).then(|| load_config::of(image)),
            clr: is_wanted(Topic::Clr).then(|| clr::of(image)),
            rich: is_wanted(Topic::Rich).then(|| rich::of(image)),
            resources: is_wanted(Topic::Resources).then(|| resources::of(image, of_parts)),
            symbols: wanted
                .has_symbols_of_images
                .then(|| symbols::of(image.symbols(), &sections::names_of(image), Budget::without_rvas(image.bytes()))),
            ..Facts::empty(path, image.bytes().len())
        }
    }

    /// The same of a TE image or an object.
    pub fn of_other(path: &Path, other: &'a Other<'_>, wanted: &Wanted) -> Facts<'a> {
        let facts = Facts {
            file_kind: Some(other.kind()),
            other_headers: wanted.has(Topic::Headers).then(|| others::headers_of(other)),
            hashes: wanted.has(Topic::Hashes).then(|| hashes::of_bytes(other.bytes())),
            sections: wanted.has(Topic::Sections).then(|| sections::of_other(other, wanted.has_hashes_of_parts)),
            ..Facts::empty(path, other.bytes().len())
        };
        match other {
            Other::Te(te) => Facts { debug: wanted.has(Topic::Debug).then(|| debug::of_te(te)), ..facts },
            Other::Object(object) => {
                let (bytes, names) = (object.bytes(), || sections::names_of_object(object));
                let symbols = || symbols::of(object.symbols(), &names(), Budget::without_rvas(bytes));
                Facts { symbols: wanted.has(Topic::Symbols).then(symbols), ..facts }
            }
        }
    }

    /// Whether the file is a TE image or an object, of which a part is not read.
    pub fn is_not_read(&self, topic: Topic) -> bool {
        let is_shown = match topic {
            Topic::Headers | Topic::Hashes | Topic::Sections | Topic::All => true,
            Topic::Debug => self.debug.is_some(),
            Topic::Symbols => self.symbols.is_some(),
            _ => false,
        };
        self.error.is_none() && self.file_kind.is_some() && !is_shown
    }

    /// Whether the image lacks a part that was read.
    pub fn is_absent(&self, topic: Topic) -> bool {
        fn is_none<T>(part: &Option<Part<T>>) -> bool {
            matches!(part, Some(Part::Absent))
        }
        match topic {
            Topic::Sections => self.sections.as_ref().is_some_and(Vec::is_empty),
            Topic::Imports => is_none(&self.imports),
            Topic::Exports => is_none(&self.exports),
            Topic::Debug => self.debug.as_ref().is_some_and(|it| matches!(it.entries, Part::Absent)),
            Topic::Certificates => is_none(&self.certificates),
            Topic::Functions => is_none(&self.functions),
            Topic::Version => self.version.as_ref().is_some_and(version::Version::is_absent),
            Topic::Tls => is_none(&self.tls),
            Topic::Relocations => is_none(&self.relocations),
            Topic::DelayImports => is_none(&self.delay_imports),
            Topic::BoundImports => is_none(&self.bound_imports),
            Topic::LoadConfig => is_none(&self.load_config),
            Topic::Clr => is_none(&self.clr),
            Topic::Rich => is_none(&self.rich),
            Topic::Resources => is_none(&self.resources),
            Topic::Symbols => is_none(&self.symbols),
            Topic::Headers | Topic::Hardening | Topic::Hashes | Topic::All => false,
        }
    }

    /// All that is refused, each with the part that it is of.
    pub fn refusals<'s>(&'s self) -> Vec<(&'static str, &'s Refusal)> {
        let mut found = Vec::new();
        found.extend(self.error.iter().map(|it| ("image", it)));
        if let Some(part) = &self.imports {
            found.extend(part.list_refusal().map(|it| ("imports", it)));
            let libraries = part.present().into_iter().flat_map(|it| &it.entries);
            let refusals = |it: &'s imports::Library<'_>| [it.lookup_table_error.as_ref(), it.functions.list_refusal()];
            found.extend(libraries.flat_map(refusals).flatten().map(|it| ("imports", it)));
        }
        found.extend(self.exports.iter().filter_map(Part::refusal).map(|it| ("exports", it)));
        found.extend(self.debug.iter().flat_map(|it| it.refusals()).map(|it| ("debug data", it)));
        found.extend(self.certificates.iter().filter_map(|it| it.list_refusal()).map(|it| ("certificates", it)));
        found.extend(self.functions.iter().filter_map(Part::refusal).map(|it| ("functions", it)));
        found.extend(self.version.iter().flat_map(|it| it.refusals()));
        if let Some(part) = &self.tls {
            found.extend(part.refusal().map(|it| ("TLS", it)));
            let callbacks = part.present().map(|it| &it.callbacks);
            let list = callbacks.and_then(|it| it.list_refusal());
            found.extend(list.map(|it| ("TLS callbacks", it)));
        }
        if let Some(part) = &self.relocations {
            found.extend(part.list_refusal().map(|it| ("relocations", it)));
            let pages = part.present().into_iter().flat_map(|it| &it.entries);
            found.extend(pages.filter_map(|it| it.error.as_ref()).map(|it| ("relocations", it)));
        }
        found.extend(self.refusals_of_more());
        found
    }

    /// What is refused of the parts from the delay imports on. A resource without its content is shown as such.
    fn refusals_of_more(&self) -> Vec<(&'static str, &Refusal)> {
        let mut found = Vec::new();
        if let Some(part) = &self.delay_imports {
            found.extend(part.list_refusal().map(|it| ("delay imports", it)));
            let libraries = part.present().into_iter().flat_map(|it| &it.entries);
            found.extend(libraries.filter_map(|it| it.functions.list_refusal()).map(|it| ("delay imports", it)));
        }
        if let Some(part) = &self.bound_imports {
            found.extend(part.list_refusal().map(|it| ("bound imports", it)));
            let bound = part.present().into_iter().flat_map(|it| &it.entries);
            found.extend(bound.filter_map(|it| it.forwarders.list_refusal()).map(|it| ("bound imports", it)));
        }
        if let Some(part) = &self.load_config {
            found.extend(part.refusal().map(|it| ("load configuration", it)));
            found.extend(part.present().into_iter().flat_map(|it| it.guards.refusals()));
        }
        if let Some(part) = &self.clr {
            let metadata = part.present().map(|it| &it.metadata);
            let root = metadata.and_then(|it| it.present());
            let streams = root.and_then(|it| it.streams.list_refusal());
            let refusal = part.refusal().or(metadata.and_then(|it| it.refusal())).or(streams);
            found.extend(refusal.map(|it| ("CLR header", it)));
            let references = root.and_then(|it| it.tables.present()).and_then(|it| it.references.list_refusal());
            let refusal = root.and_then(|it| it.tables.refusal()).or(references);
            found.extend(refusal.map(|it| ("metadata tables", it)));
        }
        found.extend(self.rich.iter().filter_map(Part::refusal).map(|it| ("Rich header", it)));
        if let Some(part) = &self.resources {
            let refusal = part.refusal().or(part.present().and_then(|it| it.error.as_ref()));
            found.extend(refusal.map(|it| ("resources", it)));
        }
        found.extend(self.symbols.iter().filter_map(Part::list_refusal).map(|it| ("symbols", it)));
        found
    }

    /// Says how many sections the file cuts, if it does one.
    pub fn cut(&self) -> Option<String> {
        sections::cut(self.sections.as_deref()?)
    }

    /// The parts of which more is in the image than stands here.
    pub fn limited(&self) -> Vec<&'static str> {
        let parts = [
            ("imports", self.imports.as_ref().and_then(Part::present).map(imports::is_limited)),
            ("exports", self.exports.as_ref().and_then(Part::present).map(|it| it.is_limited)),
            ("delay imports", self.delay_imports.as_ref().and_then(Part::present).map(delay_imports::is_limited)),
            ("bound imports", self.bound_imports.as_ref().and_then(Part::present).map(bound_imports::is_limited)),
            ("load configuration", self.load_config.as_ref().and_then(Part::present).map(|it| it.guards.is_limited())),
            ("references", self.clr.as_ref().and_then(Part::present).map(clr::is_limited)),
            ("resources", self.resources.as_ref().and_then(Part::present).map(|it| it.is_limited)),
            ("version strings", self.version.as_ref().and_then(|it| it.languages.present()).map(|it| it.is_limited)),
            ("symbols", self.symbols.as_ref().and_then(Part::present).map(|it| it.is_limited)),
        ];
        parts.into_iter().filter(|(_, is_limited)| *is_limited == Some(true)).map(|(part, _)| part).collect()
    }

    pub fn is_refused(&self) -> bool {
        !self.refusals().is_empty()
    }

    /// What a file is that is refused, after why.
    pub fn said_of_kind(&self) -> String {
        self.file_kind.filter(|_| self.error.is_some()).map_or(String::new(), |kind| format!("; it is {kind}"))
    }

    /// What is refused, and the parts of which more is in the image.
    pub fn not_whole(&self) -> Vec<NotWhole> {
        let refused = self.refusals().into_iter().map(|(part, it)| NotWhole { part, error: Some(it.clone()) });
        let limited = self.limited().into_iter().map(|part| NotWhole { part, error: None });
        refused.chain(limited).collect()
    }
}
