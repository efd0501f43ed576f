//! Parts of an image whose bytes are written to a file: the manifest, certificates, resources, and icons and cursors as the
//! files that other programs open.

use crate::edit::number_of;
use crate::facts::resources::LEAVES;
use crate::facts::{counted, languages, overlay, sections, Refusal};
use crate::files::{self, Report};
use crate::names::{name_of, RESOURCE_TYPES};
use crate::new_file::Target;
use crate::streams::complaint;
use crate::Status;
use clap::{Args, ValueEnum};
use pe_c::{Error, Image, ResourceLeaf, ResourceName};
use std::borrow::Cow;
use std::collections::BTreeMap;
use std::fs;
use std::path::Path;

#[derive(Clone, Copy, Debug, PartialEq, Eq, ValueEnum)]
pub enum ExtractedPart {
    /// The manifest, an XML text
    Manifest,
    /// The first certificate of type PKCS #7, without its header, or the one with a number
    Certificate,
    /// All certificates: the entries of their table, as attach takes them
    Certificates,
    /// A resource as it is in the image, the first with its type, its name and its language
    Resource,
    /// An icon as an .ico file, by its name and its language
    Icon,
    /// A cursor as a .cur file, by its name and its language
    Cursor,
    /// The bytes after the headers and all sections, without COFF symbols and certificates
    Overlay,
    /// The bytes of a section in the file, by its name or its number
    Section,
    /// All resources, each as a file TYPE-NAME-LANGUAGE in the new folder OUT
    Resources,
}

/// Which of several. Where more than one is left the first counts, and it is said.
#[derive(Args, Clone, Debug)]
pub struct Which {
    /// The type of the resource: a number of winuser.h, as 10 of raw data, or its name, as show has it.
    #[arg(long = "type", value_name = "TYPE")]
    kind: Option<String>,
    /// The name of the resource, or its number; or the name of the section.
    #[arg(long)]
    name: Option<String>,
    /// The language of the resource by its identifier, as 1033 or 0x409, or its name, as show has it.
    #[arg(long)]
    language: Option<String>,
    /// The certificate or the section with this number in its table, from 1 on.
    #[arg(long, value_parser = clap::value_parser!(u32).range(1..), conflicts_with = "name")]
    number: Option<u32>,
}

impl Which {
    const ANY: Which = Which { kind: None, name: None, language: None, number: None };
}

/// `WIN_CERT_TYPE_PKCS_SIGNED_DATA`
const PKCS_SIGNED_DATA: u16 = 2;
/// `RT_CURSOR`, `RT_ICON`, whose groups have these and 11; and `RT_MANIFEST`.
const CURSOR: u16 = 1;
const ICON: u16 = 3;
const GROUP: u16 = 11;
const MANIFEST: u16 = 24;
/// Bytes of the header of an icon file, of an entry of it, and of an entry of a group, which has an identifier in place of an
/// offset. <https://devblogs.microsoft.com/oldnewthing/20120720-00/?p=7083>
const HEADER: usize = 6;
/// Where a header says how many entries there are.
const COUNT: usize = 4;
const ENTRY: usize = 16;
const GROUP_ENTRY: usize = 14;
/// A cursor's hot spot, which comes before its bits in a resource.
const HOT_SPOT: usize = 4;

fn is_named(name: ResourceName<'_>, wanted: &Option<String>) -> bool {
    let Some(wanted) = wanted else { return true };
    match name {
        ResourceName::Id(id) => number_of(wanted.trim_start_matches('#')) == Some(id),
        ResourceName::Name(text) => text.to_string_lossy().eq_ignore_ascii_case(wanted),
    }
}

/// The same of a type or a language, whose identifier may have a name.
fn is_called(name: ResourceName<'_>, wanted: &Option<String>, name_of: impl Fn(u16) -> Option<&'static str>) -> bool {
    let called = match name {
        ResourceName::Id(id) => name_of(id),
        ResourceName::Name(_) => None,
    };
    is_named(name, wanted) || called.zip(wanted.as_ref()).is_some_and(|(it, wanted)| it.eq_ignore_ascii_case(wanted))
}

/// The same of a language, which may also be called as it is shown.
fn is_in_language(language: ResourceName<'_>, wanted: &Option<String>) -> bool {
    let shown = match language {
        ResourceName::Id(id) => languages::shown(id),
        ResourceName::Name(_) => None,
    };
    let is_shown = shown.zip(wanted.as_ref()).is_some_and(|(it, wanted)| it.eq_ignore_ascii_case(wanted));
    is_shown || is_called(language, wanted, languages::name_of)
}

/// Whether an image has more resources than are looked at.
fn has_more_leaves(image: &Image<'_>) -> bool {
    image.resource_leaves().is_ok_and(|it| it.into_iter().flatten().nth(LEAVES).is_some())
}

/// The resources of a type, by the name and the language that are asked for.
fn leaves_of<'a>(image: &Image<'a>, which: &Which, kind: Option<u16>) -> Result<Vec<ResourceLeaf<'a>>, Error> {
    let mut found = Vec::new();
    for leaf in image.resource_leaves()?.into_iter().flatten().take(LEAVES) {
        let leaf = leaf?;
        let is_of_type = match kind {
            Some(id) => leaf.resource_type == ResourceName::Id(id),
            None => is_called(leaf.resource_type, &which.kind, |id| name_of(id.into(), RESOURCE_TYPES)),
        };
        if is_of_type && is_named(leaf.name, &which.name) && is_in_language(leaf.language, &which.language) {
            found.push(leaf);
        }
    }
    Ok(found)
}

/// What is said of a part beside its bytes.
#[derive(Default)]
struct Beside {
    /// What of it is not in them.
    left_out: Option<String>,
    /// How many fit what is asked for, of which it is the first.
    fitting: usize,
}

fn word_at(bytes: &[u8], at: usize) -> Option<u16> {
    Some(u16::from_le_bytes(bytes.get(at..at + 2)?.try_into().ok()?))
}

/// The resource with each identifier: the first in a language, or the first of all where there is none in it.
fn by_id<'a>(leaves: Vec<ResourceLeaf<'a>>, language: ResourceName<'_>) -> BTreeMap<u16, ResourceLeaf<'a>> {
    let mut found: BTreeMap<u16, ResourceLeaf<'a>> = BTreeMap::new();
    for leaf in leaves {
        let ResourceName::Id(id) = leaf.name else { continue };
        let is_better = found.get(&id).is_none_or(|it| it.language != language && leaf.language == language);
        if is_better {
            found.insert(id, leaf);
        }
    }
    found
}

/// A file of the images of a group, those that are there: what a group says of each, and the resource with its identifier in the
/// language of the group. How many it has not is added to `left_out`.
fn file_of_group(
    image: &Image<'_>,
    group: &ResourceLeaf<'_>,
    kind: u16,
    left_out: &mut usize,
) -> Result<Option<Vec<u8>>, Error> {
    let content = group.content()?;
    let parts = by_id(leaves_of(image, &Which::ANY, Some(kind))?, group.language);
    let (mut images, mut left) = (Vec::new(), image.bytes().len());
    let count = usize::from(word_at(content, COUNT).unwrap_or_default());
    let entries = content.get(HEADER..).unwrap_or_default().chunks_exact(GROUP_ENTRY).take(count);
    *left_out += count - entries.len();
    for entry in entries {
        let leaf = parts.get(&word_at(entry, GROUP_ENTRY - 2).unwrap_or_default());
        let bytes = leaf.map(ResourceLeaf::content).transpose()?;
        // Entries may share an image: the file has no more bytes than the executable.
        match bytes.and_then(|bytes| Some((bytes, left.checked_sub(bytes.len())?))) {
            Some((bytes, rest)) => {
                left = rest;
                images.push((entry, bytes));
            }
            None => *left_out += 1,
        }
    }
    if images.is_empty() || images.len() > usize::from(u16::MAX) {
        return Ok(None);
    }
    let number = if kind == CURSOR { 2u16 } else { 1 };
    let mut file = [0u16, number, images.len() as u16].iter().flat_map(|it| it.to_le_bytes()).collect::<Vec<u8>>();
    let mut offset = HEADER + ENTRY * images.len();
    for (entry, bytes) in &images {
        let bits = bits_of(bytes, kind);
        file.extend(entry_of(entry, bytes, kind));
        file.extend((bits.len() as u32).to_le_bytes());
        file.extend((offset as u32).to_le_bytes());
        offset += bits.len();
    }
    images.iter().for_each(|(_, bytes)| file.extend(bits_of(bytes, kind)));
    Ok(Some(file))
}

/// The bits of an image, without a hot spot.
fn bits_of(bytes: &[u8], kind: u16) -> &[u8] {
    if kind == CURSOR {
        bytes.get(HOT_SPOT..).unwrap_or_default()
    } else {
        bytes
    }
}

/// The first eight bytes of an entry of a file: width, height and colours as bytes, and planes and bits a pixel of an icon, or
/// the hot spot of a cursor, whose group has width and height as two bytes each, and the height of both its masks.
fn entry_of(entry: &[u8], bytes: &[u8], kind: u16) -> [u8; 8] {
    let mut start = [0; 8];
    if kind == CURSOR {
        let width = word_at(entry, 0).unwrap_or_default();
        let height = word_at(entry, 2).unwrap_or_default() / 2;
        start[0] = width as u8;
        start[1] = height as u8;
        start[4..].copy_from_slice(bytes.get(..HOT_SPOT).unwrap_or(&[0; 4]));
    } else {
        start.copy_from_slice(&entry[..8]);
    }
    start
}

impl ExtractedPart {
    /// An option that does not say which of this part is meant. Without it another may be written than was asked for.
    pub fn misused(self, which: &Which) -> Option<&'static str> {
        let is_any = self == ExtractedPart::Resources || self == ExtractedPart::Resource;
        let (is_of_resources, is_section) = (is_any || self.is_of_resources(), self == ExtractedPart::Section);
        let given = [
            ("--type", which.kind.is_some(), is_any),
            ("--name", which.name.is_some(), is_of_resources || is_section),
            ("--language", which.language.is_some(), is_of_resources),
            ("--number", which.number.is_some(), is_section || self == ExtractedPart::Certificate),
        ];
        given.into_iter().find(|(_, is_given, is_meant)| *is_given && !is_meant).map(|it| it.0)
    }

    /// How the part is named on the command line.
    pub fn name(self) -> String {
        self.to_possible_value().map_or(String::new(), |it| it.get_name().to_string())
    }

    /// The options that say which of several is meant.
    fn options(self) -> &'static str {
        match self {
            ExtractedPart::Manifest => "the part resource with --type manifest and --name writes another",
            ExtractedPart::Certificate => "--number says which one is meant",
            ExtractedPart::Section => "--name or --number says which one is meant",
            ExtractedPart::Resource => "--type, --name and --language say which one is meant",
            _ => "--name and --language say which one is meant",
        }
    }

    /// The bytes of a file, if the image has the part.
    fn bytes_of<'a>(
        self,
        image: &Image<'a>,
        which: &Which,
        beside: &mut Beside,
    ) -> Result<Option<Cow<'a, [u8]>>, Error> {
        match self {
            ExtractedPart::Manifest => {
                beside.fitting = leaves_of(image, &Which::ANY, Some(MANIFEST)).map_or(0, |it| it.len());
                Ok(image.manifest()?.map(Cow::from))
            }
            ExtractedPart::Certificate => certificate_of(image, which.number, beside),
            ExtractedPart::Certificates => certificates_of(image),
            ExtractedPart::Resource => {
                let leaves = leaves_of(image, which, None)?;
                beside.fitting = leaves.len();
                leaves.first().map(|it| it.content().map(Cow::from)).transpose()
            }
            ExtractedPart::Overlay => Ok(overlay_of(image, &mut beside.left_out).map(Cow::from)),
            ExtractedPart::Section => Ok(section_of(image, which, beside).map(Cow::from)),
            ExtractedPart::Icon => Ok(images_of(image, which, ICON, beside)?.map(Cow::from)),
            ExtractedPart::Cursor | ExtractedPart::Resources => {
                Ok(images_of(image, which, CURSOR, beside)?.map(Cow::from))
            }
        }
    }

    /// Writes the part. The text is for standard output.
    pub fn write_to(self, (path, image): (&Path, Result<Image<'_>, Error>), which: &Which, to: &Target) -> Report {
        if let (ExtractedPart::Resources, Ok(image)) = (self, &image) {
            return write_resources((path, image), which, to);
        }
        let mut beside = Beside::default();
        let found = image.and_then(|image| self.bytes_of(&image, which, &mut beside).map(|bytes| (bytes, image)));
        let Beside { left_out, fitting } = beside;
        match found {
            Ok((Some(bytes), _)) => {
                let mut written = files::deliver(&bytes, to, Status::Done);
                if fitting > 1 && written.status == Status::Done {
                    let which = format_args!("the first of {fitting} that fit is written; {}", self.options());
                    written.complaints += &complaint(path, which);
                }
                match left_out {
                    Some(why) => written.and(Report::refused(path, why)),
                    None => written,
                }
            }
            Ok((None, image)) => {
                let part = self.name();
                let is_open = self.is_of_resources() && has_more_leaves(&image);
                let among = if is_open { format!(" among the first {LEAVES} resources") } else { String::new() };
                let why = left_out.map_or(String::new(), |it| format!(": {it}"));
                Report::refused(path, format_args!("the image has no such part: {part}{among}{why}"))
            }
            Err(error) => Report::refused(path, Refusal::from(error)),
        }
    }

    fn is_of_resources(self) -> bool {
        matches!(self, ExtractedPart::Resource | ExtractedPart::Icon | ExtractedPart::Cursor)
    }
}

/// The file of the first group of icons or cursors that is asked for.
fn images_of(image: &Image<'_>, which: &Which, kind: u16, beside: &mut Beside) -> Result<Option<Vec<u8>>, Error> {
    let groups = leaves_of(image, which, Some(kind + GROUP))?;
    beside.fitting = groups.len();
    let Some(group) = groups.first() else { return Ok(None) };
    let mut count = 0;
    let file = file_of_group(image, group, kind, &mut count)?;
    let images = counted(count, "image");
    let why = "after its end, no resource of the image, or too many bytes";
    beside.left_out = (count > 0).then(|| format!("{images} of the group left out: {why}"));
    Ok(file)
}

fn overlay_of<'a>(image: &Image<'a>, left_out: &mut Option<String>) -> Option<&'a [u8]> {
    let overlay = overlay::of(image)?;
    *left_out = overlay.after().map(|it| format!("{it} left out"));
    let content = overlay.content?;
    image.bytes().get(content.file_offset..)?.get(..content.size)
}

/// The first section with a name, or the one with a number, as far as it is in the file.
fn section_of<'a>(image: &Image<'a>, which: &Which, beside: &mut Beside) -> Option<&'a [u8]> {
    let names = sections::names_of(image);
    let is_it = |number: usize| match (&which.name, which.number) {
        (Some(name), _) => names.get(number).is_some_and(|it| it.0 == name.as_bytes()),
        (None, wanted) => wanted.is_none_or(|it| it as usize == number + 1),
    };
    let mut fitting = image.sections().iter().enumerate().filter(|it| is_it(it.0)).map(|it| it.1);
    let section = fitting.next()?;
    beside.fitting = 1 + fitting.count();
    let (range, length) = (sections::range_of(image.layout(), section), image.bytes().len() as u64);
    let missing = range.end.saturating_sub(range.start.max(length));
    beside.left_out = (missing > 0).then(|| format!("{missing} bytes left out: the file ends before the section does"));
    image.bytes().get(range.start.min(length) as usize..range.end.min(length) as usize)
}

/// How many times the bytes of the image its resources may have together: those of a hostile one share what they contain.
const READINGS: usize = 16;

/// What a type, a name or a language is called in the name of a file: letters, digits, and a line in place of all else.
fn in_file_name(name: ResourceName<'_>, named: Option<&'static str>) -> String {
    let text = match (name, named) {
        (ResourceName::Id(_), Some(named)) => named.to_lowercase(),
        (ResourceName::Id(id), None) => id.to_string(),
        (ResourceName::Name(name), _) => name.to_string_lossy(),
    };
    plain(&text)
}

fn plain(text: &str) -> String {
    let mut plain = String::new();
    for it in text.chars().map(|it| if it.is_alphanumeric() { it } else { '_' }) {
        if plain.len() + it.len_utf8() > BYTES {
            break;
        }
        plain.push(it);
    }
    plain
}

/// How many bytes of a name stand in that of a file, which has three, and 255 bytes at most.
const BYTES: usize = 72;

/// The names of files, and what they contain. Of several with one name each has its number.
fn files_of<'a>(leaves: &[ResourceLeaf<'a>]) -> Vec<(String, Result<&'a [u8], Error>)> {
    let (mut counts, mut files) = (BTreeMap::new(), Vec::new());
    for leaf in leaves {
        let kind = match leaf.resource_type {
            ResourceName::Id(id) => name_of(id.into(), RESOURCE_TYPES),
            ResourceName::Name(_) => None,
        };
        let parts = [(leaf.resource_type, kind), (leaf.name, None), (leaf.language, None)];
        let name = parts.map(|it| in_file_name(it.0, it.1)).join("-");
        let count: &mut usize = counts.entry(name.to_lowercase()).or_default();
        *count += 1;
        files.push((if *count == 1 { name } else { format!("{name}-{count}") }, leaf.content()));
    }
    files
}

/// All resources that are asked for, as files of a new folder. Of one that is refused it is said why.
fn write_resources((path, image): (&Path, &Image<'_>), which: &Which, to: &Target) -> Report {
    let files = match leaves_of(image, which, None).map(|leaves| files_of(&leaves)) {
        Ok(files) if files.is_empty() => return Report::refused(path, "the image has no such part: resources"),
        Ok(files) => files,
        Err(error) => return Report::refused(path, Refusal::from(error)),
    };
    let sum = files.iter().fold(0usize, |sum, it| sum.saturating_add(it.1.map_or(0, <[u8]>::len)));
    if sum > image.bytes().len().saturating_mul(READINGS) {
        return Report::refused(path, "its resources share what they contain, and have more than 16 times its bytes");
    }
    match fs::create_dir(&to.to) {
        Err(_) if !to.replace && to.to.is_dir() => {
            return Report::unread(&to.to, "it exists; --replace writes into it")
        }
        Err(error) if !to.to.is_dir() => return Report::unread(&to.to, error),
        _ => (),
    }
    let mut report = Report::of("", Status::Done);
    for (name, content) in files {
        let target = Target { to: to.to.join(&name), replace: to.replace };
        let one = match content {
            Ok(bytes) => files::deliver(bytes, &target, Status::Done),
            Err(error) => Report::refused(path, format_args!("{name}: {}", Refusal::from(error))),
        };
        report = report.and(one);
    }
    if has_more_leaves(image) {
        let more = format!("it has more than {LEAVES} resources: only the first {LEAVES} are looked at");
        report = report.and(Report::refused(path, more));
    }
    report
}

/// The body of the certificate with a number, or of the first of type PKCS #7.
fn certificate_of<'a>(
    image: &Image<'a>,
    number: Option<u32>,
    beside: &mut Beside,
) -> Result<Option<Cow<'a, [u8]>>, Error> {
    let is_it = |index, kind| number.map_or(kind == PKCS_SIGNED_DATA, |it| it == index);
    let certificates = || (1..).zip(image.certificates());
    let fitting = certificates().filter(|it| it.1.as_ref().is_ok_and(|found| is_it(it.0, found.kind)));
    beside.fitting = fitting.count();
    for (index, certificate) in certificates() {
        let certificate = certificate?;
        if is_it(index, certificate.kind) {
            return Ok(Some(certificate.body.into()));
        }
    }
    Ok(None)
}

/// What each entry of a certificate table starts and ends at is a multiple of this.
const ALIGNMENT: usize = 8;

/// The entries of the certificate table, one after the other, each filled up with zeros.
fn certificates_of<'a>(image: &Image<'a>) -> Result<Option<Cow<'a, [u8]>>, Error> {
    let mut table = Vec::new();
    for certificate in image.certificates() {
        let certificate = certificate?;
        table.extend(certificate.length.to_le_bytes());
        table.extend(certificate.revision.to_le_bytes());
        table.extend(certificate.kind.to_le_bytes());
        table.extend(certificate.body);
        table.resize(table.len().next_multiple_of(ALIGNMENT), 0);
    }
    Ok((!table.is_empty()).then(|| Cow::from(table)))
}

#[cfg(test)]
mod tests {
    use super::*;

    #[test]
    fn names_of_files_stay_in_their_folder() {
        assert_eq!(in_file_name(ResourceName::Id(16), Some("Version")), "version");
        assert_eq!(in_file_name(ResourceName::Id(0x409), None), "1033");
        assert_eq!(plain("../../etc/passwd\0\u{202e}"), "______etc_passwd__");
        assert_eq!([plain(&"a".repeat(300)).len(), plain(&"\u{6f22}".repeat(300)).len()], [BYTES, BYTES]);
    }
}
