//! Images with other resources, as new files. What is written is the library's. A resource keeps the language that it has: no
//! second one in another language is made, unless it is asked for.

use crate::arguments::{NewVersion, OneResource, Resources};
use crate::escape::escaped;
use crate::facts::version::FOUND;
use crate::facts::Refusal;
use crate::files::{self, Report};
use crate::icon::{self, Group, IconError, Icons};
use crate::names::RESOURCE_TYPES;
use crate::new_file::Target;
use crate::streams::{complain, complaint};
use crate::Status;
use pe_c::{Error, Image, Mode, ResourceEditor, ResourceKey, VersionInfo};
use std::path::{Path, PathBuf};

/// `RT_VERSION` and `RT_MANIFEST`.
const VERSION: u16 = 16;
const MANIFEST: u16 = 24;
/// The identifiers of a manifest: of a program, and of a DLL.
const OF_PROGRAM: u16 = 1;
const OF_DLL: u16 = 2;
/// `IMAGE_FILE_DLL`
const DLL: u16 = 0x2000;
/// `VOS_NT_WINDOWS32`, and `VFT_APP` and `VFT_DLL`
const NT_WINDOWS32: u32 = 0x4_0004;
const VFT_APP: u32 = 1;
const VFT_DLL: u32 = 2;
/// `COMIMAGE_FLAGS_STRONGNAMESIGNED`
const STRONG_NAME_SIGNED: u32 = 8;
/// US English, of a resource that is new.
const NEW_LANGUAGE: u16 = 0x409;
/// How many bytes may be read or written for all languages together. Resources of a hostile image share what they contain.
const ALL_LANGUAGES: usize = 256 << 20;

/// The image, and where the other one is written.
pub type Paths<'a> = (&'a Path, &'a Target);

/// Why no file is written.
enum Failure {
    Refused(Error),
    /// A file that is given can't be read.
    File,
    /// There is no such resource, as it was called.
    Missing(String),
    /// A number that is no identifier, and no name that is there.
    Number(String),
    /// What is read or written for all languages together is too much.
    Languages,
    /// A file is no icon.
    Icon(PathBuf, IconError),
}

impl From<Error> for Failure {
    fn from(error: Error) -> Self {
        Failure::Refused(error)
    }
}

/// Whether the image has a strong name, a signature of .NET over all but the checksum and the certificates.
pub fn has_strong_name(image: &Image<'_>) -> bool {
    image.clr().ok().flatten().is_some_and(|it| it.header().flags & STRONG_NAME_SIGNED != 0)
}

const NONE_LEFT: &str =
    "no resource is left; the section that had them stays, without a directory: what is set later gets a new section";

/// Whether an image that has lost its last resource still has the section that they stood in.
fn keeps_section(image: &Image<'_>, editor: &ResourceEditor<'_>, file: &[u8]) -> bool {
    let is_emptied = editor.resources().next().is_none();
    is_emptied && Image::parse(file, Mode::Permissive).is_ok_and(|it| it.sections().len() == image.sections().len())
}

/// What is said of a refusal after its own text.
fn more_of(error: Error) -> &'static str {
    match error {
        Error::EDIT_SIGNED => "; pe detach writes it without them",
        Error::EDIT_CONTENTS => ": with a copy for each they have more than 16 times the bytes that there are",
        _ => "",
    }
}

/// The image after a change of its resources, delivered.
fn deliver(
    paths: Paths<'_>,
    image: Result<Image<'_>, Error>,
    change: impl FnOnce(&Image<'_>, &mut ResourceEditor<'_>) -> Result<(), Failure>,
) -> Report {
    let made = || {
        let image = image?;
        let mut editor = ResourceEditor::of(&image)?;
        change(&image, &mut editor)?;
        let file = editor.write()?;
        let is_kept = keeps_section(&image, &editor, &file);
        Ok((file, is_kept))
    };
    match made() {
        Ok((file, is_kept)) => {
            let mut report = files::deliver_like(Some(paths.0), &file, paths.1, Status::Done);
            if is_kept && report.status == Status::Done {
                report.complaints += &complaint(paths.0, NONE_LEFT);
            }
            report
        }
        Err(Failure::Refused(error)) => {
            Report::refused(paths.0, format_args!("{}{}", Refusal::from(error), more_of(error)))
        }
        Err(Failure::File) => Report::of("", Status::FileError),
        Err(Failure::Missing(which)) => {
            Report::refused(paths.0, format_args!("the image has no such resource: {which}"))
        }
        Err(Failure::Number(word)) => Report::refused(
            paths.0,
            format_args!("{word} is no identifier, which is at most 65535, nor a name that is there"),
        ),
        Err(Failure::Languages) => Report::refused(paths.0, "more than 256 MiB for all languages together"),
        Err(Failure::Icon(path, error)) => Report::refused(&path, error),
    }
}

fn content_of(path: &Path) -> Result<Vec<u8>, Failure> {
    files::whole(path).map_err(|error| {
        complain(complaint(path, error));
        Failure::File
    })
}

/// The number that a text is, in decimal or after 0x in hexadecimal digits.
pub fn number_of(text: &str) -> Option<u16> {
    let (digits, radix) = digits_of(text)?;
    u16::from_str_radix(digits, radix).ok()
}

/// The digits of a text that is nothing else, and their radix.
fn digits_of(text: &str) -> Option<(&str, u32)> {
    let (digits, radix) = text.strip_prefix("0x").map_or((text, 10), |digits| (digits, 16));
    (!digits.is_empty() && digits.chars().all(|it| it.is_digit(radix))).then_some((digits, radix))
}

/// Whether a word has the form of an identifier, and is none.
fn is_no_identifier(word: &str) -> bool {
    let word = word.trim_start_matches('#');
    digits_of(word).is_some() && number_of(word).is_none()
}

/// What a type or a name is called: a number, or a name, in upper case, as Windows looks names up, but for one that is there.
fn key_of<'k>(word: &str, there: impl Iterator<Item = &'k ResourceKey>) -> ResourceKey {
    if let Some(id) = number_of(word.trim_start_matches('#')) {
        return ResourceKey::Id(id);
    }
    let wanted = ResourceKey::from(&*word.to_uppercase());
    let is_it = |it: &&ResourceKey| it.id().is_none() && it.to_string_lossy().eq_ignore_ascii_case(word);
    let mut there = there.filter(is_it).peekable();
    let first = there.peek().map(|it| (*it).clone());
    if there.any(|it| *it == wanted) {
        return wanted;
    }
    first.unwrap_or(wanted)
}

/// The languages to set of a resource: the one that is asked for, else those that there are, else that of a new one.
fn languages_of(editor: &ResourceEditor<'_>, kind: &ResourceKey, name: &ResourceKey, asked: Option<u16>) -> Vec<u16> {
    if let Some(language) = asked {
        return vec![language];
    }
    let there = editor.languages(kind, name);
    if there.is_empty() {
        vec![NEW_LANGUAGE]
    } else {
        there
    }
}

/// The names of the resources of a type.
fn names_of(editor: &ResourceEditor<'_>, kind: &ResourceKey) -> Vec<ResourceKey> {
    let mut names: Vec<_> = editor.resources().filter(|it| it.0 .0 == *kind).map(|it| it.0 .1.clone()).collect();
    names.dedup();
    names
}

/// Several contents are within the bound together. One alone is as large as its file lets it be.
fn require_few(sizes: impl Iterator<Item = usize>) -> Result<(), Failure> {
    let (count, sum) = sizes.fold((0usize, 0usize), |(count, sum), size| (count + 1, sum.saturating_add(size)));
    if count > 1 && sum > ALL_LANGUAGES {
        return Err(Failure::Languages);
    }
    Ok(())
}

/// New version information of a program or a DLL.
fn new_version(image: &Image<'_>, language: u16) -> VersionInfo {
    let mut version = VersionInfo::new(language);
    version.set_file_type(NT_WINDOWS32, if image.info().characteristics & DLL == 0 { VFT_APP } else { VFT_DLL });
    version
}

fn changed(mut version: VersionInfo, language: u16, new: &NewVersion) -> Result<Vec<u8>, Error> {
    if let Some(numbers) = new.file_version {
        version.set_file_version(numbers);
    }
    if let Some(numbers) = new.product_version {
        version.set_product_version(numbers);
    }
    for (name, text) in new.all_strings() {
        if version.set_string(name, &text)? == 0 {
            version.add_table(language);
            version.set_string(name, &text)?;
        }
    }
    version.to_bytes()
}

/// The name of version information that is there by other names alone, by which Windows does not find it.
fn other_name_of(editor: &ResourceEditor<'_>) -> Option<ResourceKey> {
    let names = names_of(editor, &ResourceKey::Id(VERSION));
    names.first().filter(|_| !names.contains(&ResourceKey::Id(FOUND))).cloned()
}

/// The image with other version information, by the name 1, by which Windows finds it. Where there is some by other names alone, the
/// new one starts from the first of that, which stays.
pub fn set_version(paths: Paths<'_>, image: Result<Image<'_>, Error>, new: &NewVersion) -> Report {
    let (mut other, mut is_alone) = (None, false);
    let mut report = deliver(paths, image, |image, editor| {
        let (kind, name) = (ResourceKey::Id(VERSION), ResourceKey::Id(FOUND));
        other = other_name_of(editor);
        let from = other.as_ref().unwrap_or(&name);
        let languages = languages_of(editor, &kind, from, new.language);
        let there = editor.languages(&kind, from);
        is_alone = !there.is_empty() && languages.iter().any(|it| !there.contains(it));
        let strings: usize = new.all_strings().map(|(name, text)| name.len() + text.len()).sum();
        let size_of = |place| strings + editor.get(&place).map_or(0, |it| it.bytes.len());
        require_few(languages.iter().map(|language| size_of((kind.clone(), from.clone(), *language))))?;
        for language in languages {
            let place = (kind.clone(), from.clone(), language);
            let there = editor.get(&place).map(|it| VersionInfo::of(&it.bytes)).transpose()?.flatten();
            let content = changed(there.unwrap_or_else(|| new_version(image, language)), language, new)?;
            editor.set(kind.clone(), name.clone(), language, content);
        }
        Ok(())
    });
    if let Some(name) = other.filter(|_| report.status == Status::Done) {
        let name = escaped(&name.to_string_lossy());
        let why = "stays, which Windows does not find; the new one is by the name 1";
        report.complaints += &complaint(paths.0, format_args!("version information by the name {name} {why}"));
    }
    if is_alone && report.status == Status::Done {
        let why = "it had no version information in this language: the new one has what was named alone";
        report.complaints += &complaint(paths.0, why);
    }
    report
}

/// Sets one content in these languages.
fn set_in(
    editor: &mut ResourceEditor<'_>,
    (kind, name): (&ResourceKey, &ResourceKey),
    languages: &[u16],
    content: &[u8],
) -> Result<(), Failure> {
    require_few(languages.iter().map(|_| content.len()))?;
    for language in languages {
        editor.set(kind.clone(), name.clone(), *language, content.to_vec());
    }
    Ok(())
}

/// What is wrong with a file that is to be a manifest, as far as that is looked at.
fn wrong_manifest(content: &[u8]) -> Option<&'static str> {
    let units = |of: fn([u8; 2]) -> u16| content.chunks_exact(2).map(|it| of([it[0], it[1]])).collect::<Vec<u16>>();
    let text = match content {
        [0xFF, 0xFE, ..] => String::from_utf16(&units(u16::from_le_bytes)).ok(),
        [0xFE, 0xFF, ..] => String::from_utf16(&units(u16::from_be_bytes)).ok(),
        _ => String::from_utf8(content.to_vec()).ok(),
    };
    match text.as_deref().map(|it| it.trim_start_matches('\u{feff}').trim_start()) {
        None => Some("it is not UTF-8, nor UTF-16 with its mark"),
        Some(text) if !text.starts_with('<') => Some("it is no XML, which starts with <"),
        Some(text) if !text.contains("assembly") => Some("it has no element assembly, which a manifest is"),
        Some(_) => None,
    }
}

/// The image with another manifest: in the place of that which Windows looks for, else of the first that is there. It is not read as
/// XML; what it cannot be is warned of.
pub fn set_manifest(
    paths: Paths<'_>,
    image: Result<Image<'_>, Error>,
    manifest: &Path,
    language: Option<u16>,
) -> Report {
    let mut wrong = None;
    let report = deliver(paths, image, |image, editor| {
        let content = content_of(manifest)?;
        wrong = wrong_manifest(&content);
        let kind = ResourceKey::Id(MANIFEST);
        let own = ResourceKey::Id(if image.info().characteristics & DLL == 0 { OF_PROGRAM } else { OF_DLL });
        let mut names = names_of(editor, &kind).into_iter().peekable();
        let first = names.peek().cloned();
        let name = names.find(|it| *it == own).or(first).unwrap_or(own);
        let languages = languages_of(editor, &kind, &name, language);
        set_in(editor, (&kind, &name), &languages, &content)
    });
    with_wrong_manifest(report, manifest, wrong)
}

/// What is said of an image, and what is wrong with the manifest that was written.
fn with_wrong_manifest(mut report: Report, manifest: &Path, wrong: Option<&str>) -> Report {
    if let Some(why) = wrong.filter(|_| report.status == Status::Done) {
        report.complaints += &complaint(manifest, format_args!("{why}: Windows may not start the image"));
    }
    report
}

/// The image with other icons in the place of those of its first group, which is the one that Windows shows.
pub fn set_icon(paths: Paths<'_>, image: Result<Image<'_>, Error>, file: &Path, language: Option<u16>) -> Report {
    deliver(paths, image, |_, editor| {
        let content = content_of(file)?;
        let of_file = |error| Failure::Icon(file.to_path_buf(), error);
        let images = icon::images_of(&content).map_err(of_file)?;
        let kind = ResourceKey::Id(icon::GROUP_ICON);
        let name = names_of(editor, &kind).into_iter().next().unwrap_or(ResourceKey::Id(1));
        let languages = languages_of(editor, &kind, &name, language);
        require_few(languages.iter().map(|_| content.len()))?;
        require_few(editor.resources().filter(|it| it.0 .0 == kind).map(|it| it.1.bytes.len()))?;
        let mut icons = Icons::of(editor);
        for language in languages {
            icons.set_group(editor, &Group { name: name.clone(), language }, &images).map_err(of_file)?;
        }
        Ok(())
    })
}

/// A type by what it is called: its number or its name, or else the name that a number of winuser.h has here.
fn type_of(editor: &ResourceEditor<'_>, word: &str) -> ResourceKey {
    let own = key_of(word, editor.resources().map(|it| &it.0 .0));
    let is_there = editor.resources().any(|it| it.0 .0 == own);
    let known = RESOURCE_TYPES.iter().find(|it| !is_there && it.1.eq_ignore_ascii_case(word));
    known.and_then(|it| u16::try_from(it.0).ok()).map_or(own, ResourceKey::Id)
}

/// The keys of a resource, by what it is called.
fn keys_of(editor: &ResourceEditor<'_>, (kind, name): (&str, &str)) -> (ResourceKey, ResourceKey) {
    let kind = type_of(editor, kind);
    let name = key_of(name, editor.resources().filter(|it| it.0 .0 == kind).map(|it| &it.0 .1));
    (kind, name)
}

/// The image with a resource of this content, which is warned of where it is to be a manifest and is none.
pub fn set_resource(paths: Paths<'_>, image: Result<Image<'_>, Error>, which: &OneResource, file: &Path) -> Report {
    let mut wrong = None;
    let report = deliver(paths, image, |_, editor| {
        let content = content_of(file)?;
        let (kind, name) = keys_of(editor, (&which.kind, &which.name));
        let there = |it: &ResourceKey| editor.resources().any(|(place, _)| place.0 == *it || place.1 == *it);
        let words = [(&which.kind, &kind), (&which.name, &name)];
        if let Some((word, _)) = words.into_iter().find(|it| is_no_identifier(it.0) && !there(it.1)) {
            return Err(Failure::Number(escaped(word)));
        }
        wrong = wrong_manifest(&content).filter(|_| kind == ResourceKey::Id(MANIFEST));
        let languages = languages_of(editor, &kind, &name, which.language);
        set_in(editor, (&kind, &name), &languages, &content)
    });
    with_wrong_manifest(report, file, wrong)
}

/// The image without these resources: in one language, or in all. None is removed where one is not there.
pub fn remove_resources(paths: Paths<'_>, image: Result<Image<'_>, Error>, which: &Resources) -> Report {
    deliver(paths, image, |_, editor| {
        let mut places = Vec::new();
        for called in which.pairs() {
            let (kind, name) = keys_of(editor, called);
            let languages = which.language.map_or_else(|| editor.languages(&kind, &name), |it| vec![it]);
            let before = places.len();
            let all = languages.into_iter().map(|language| (kind.clone(), name.clone(), language));
            places.extend(all.filter(|it| editor.get(it).is_some()));
            if places.len() == before {
                return Err(Failure::Missing(escaped(&format!("{} {}", called.0, called.1))));
            }
        }
        places.iter().for_each(|it| drop(editor.remove(it)));
        Ok(())
    })
}

#[cfg(test)]
mod tests {
    use super::*;

    #[test]
    fn languages_are_few_for_what_they_contain() {
        let is_refused = |sizes: &[usize]| require_few(sizes.iter().copied()).is_err();
        assert!(!is_refused(&[]) && !is_refused(&[usize::MAX]) && !is_refused(&[ALL_LANGUAGES, 0]));
        assert!(is_refused(&[ALL_LANGUAGES, 1]) && is_refused(&[0, usize::MAX, usize::MAX]));
    }

    #[test]
    fn names_are_those_that_are_there() {
        let there =
            [ResourceKey::from("icon"), ResourceKey::from("ICON"), ResourceKey::from("Text"), ResourceKey::Id(7)];
        let key = |word: &str| key_of(word, there.iter());
        assert_eq!(key("Icon"), ResourceKey::from("ICON"));
        assert_eq!(key("TEXT"), ResourceKey::from("Text"));
        assert_eq!(key("new"), ResourceKey::from("NEW"));
        assert_eq!(key("7"), ResourceKey::Id(7));
        assert_eq!(key("#0x10"), ResourceKey::Id(16));
    }
}
