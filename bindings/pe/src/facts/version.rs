//! Version information and the manifest, both of which are resources.

use super::resources::{label_of, language_of, Label, MANIFEST, VERSION};
use super::{entry, field, Budget, List, Part, Refusal};
use crate::escape::escaped;
use pe_c::{Error, FixedVersion, Image, ResourceLeaf, ResourceName, VersionBlock, VersionBlocks};
use serde::Serialize;
use std::collections::BTreeMap;

#[derive(Clone, Debug, Serialize)]
pub struct Version {
    /// Of the first resource of version information.
    #[serde(flatten)]
    pub fixed: Part<Fixed>,
    /// The language of that resource, which need not be that of `strings`.
    pub fixed_language: Option<Label>,
    /// The name of that resource, where none has the number 1, by which Windows finds it. In JSON `resources` has it.
    #[serde(skip)]
    pub other_name: Option<Label>,
    /// Why a string of the same resource is refused, where the fixed file information is not. Another reader may have no string at all.
    pub strings_error: Option<Refusal>,
    /// The language of `strings`: neutral or English (US) where there is one of these, else the first.
    pub language: Option<Label>,
    /// The strings in that language by their names, such as `ProductName`.
    pub strings: Option<BTreeMap<String, String>>,
    /// All tables of strings, of each resource of version information.
    #[serde(flatten)]
    pub languages: Part<List<StringTable>>,
    #[serde(flatten)]
    pub manifest: Part<Manifest>,
}

/// The fixed file information.
#[derive(Clone, Debug, Serialize)]
pub struct Fixed {
    pub file_version: String,
    pub product_version: String,
}

/// The strings of one language.
#[derive(Clone, Debug, Serialize)]
pub struct StringTable {
    /// That of the table, or of the resource where its key names none.
    pub language: Label,
    pub code_page: Option<u16>,
    pub strings: BTreeMap<String, String>,
}

#[derive(Clone, Debug, Serialize)]
pub struct Manifest {
    pub size: usize,
    /// The rights that the program asks for, such as `asInvoker`, or null.
    pub requested_level: Option<String>,
    /// How many manifests the image has, of which this is the first.
    #[serde(skip)]
    pub count: usize,
}

field!(Fixed, "fixed");
field!(Manifest, "manifest");
entry!(StringTable, "languages");

/// Languages that are shown before others: neutral, and English (US).
const FIRST: [u16; 2] = [0, 0x409];
/// How many tables of strings are read of all resources.
const TABLES: usize = 4096;

impl Version {
    /// The refusals, each with the part that it is of. Numbers and strings are of one resource: the first counts.
    pub fn refusals(&self) -> Vec<(&'static str, &Refusal)> {
        let version = self.fixed.refusal().or(self.languages.list_refusal()).map(|it| ("version information", it));
        let strings = self.strings_error.as_ref().map(|it| ("version strings", it));
        version.into_iter().chain(strings).chain(self.manifest.refusal().map(|it| ("manifest", it))).collect()
    }

    /// Whether there is neither version information nor a manifest.
    pub fn is_absent(&self) -> bool {
        matches!((&self.fixed, &self.languages, &self.manifest), (Part::Absent, Part::Absent, Part::Absent))
    }

    /// Says that Windows does not find it, where it has another name.
    pub fn said_of_name(&self) -> Option<String> {
        let name = self.other_name.as_ref()?;
        let name = name.name.as_deref().map(escaped).or(name.id.map(|it| it.to_string())).unwrap_or_default();
        Some(format!("version information by the name {name}: Windows finds that of the name 1 alone"))
    }

    /// How many tables of strings there are.
    pub fn table_count(&self) -> usize {
        self.languages.present().map_or(0, |it| it.entries.len())
    }
}

fn dotted(numbers: [u16; 4]) -> String {
    numbers.map(|it| it.to_string()).join(".")
}

pub fn fixed_of(version: FixedVersion) -> Fixed {
    Fixed { file_version: dotted(version.file_version()), product_version: dotted(version.product_version()) }
}

/// The strings of a table. Of two with one name the first counts.
fn strings_of(table: &VersionBlock<'_>) -> Result<BTreeMap<String, String>, Error> {
    let mut strings = BTreeMap::new();
    for string in table.children() {
        let string = string?;
        strings.entry(string.key.to_string_lossy()).or_insert_with(|| string.text().to_string_lossy());
    }
    Ok(strings)
}

fn table_of(table: &VersionBlock<'_>, language: Label) -> Result<StringTable, Error> {
    let own = table.language.filter(|it| it.language != 0 || language.id == Some(0));
    Ok(StringTable {
        language: own.map_or(language, |it| language_of(it.language)),
        code_page: table.language.map(|it| it.code_page),
        strings: strings_of(table)?,
    })
}

/// Adds the tables in the blocks of a resource, of which the first is all of it, and returns whether there are more than are read.
fn put_tables(blocks: VersionBlocks<'_>, language: &Label, to: &mut Vec<StringTable>) -> Result<bool, Error> {
    for root in blocks.take(1) {
        for information in root?.children() {
            let information = information?;
            if !information.key.to_string_lossy().eq_ignore_ascii_case("StringFileInfo") {
                continue;
            }
            for table in information.children() {
                let table = table?;
                if to.len() >= TABLES {
                    return Ok(true);
                }
                to.push(table_of(&table, language.clone())?);
            }
        }
    }
    Ok(false)
}

/// The tables of the resources of version information. What is refused ends the list.
fn tables_of<'a>(
    leaves: impl Iterator<Item = Result<ResourceLeaf<'a>, Error>>,
    mut budget: Budget,
) -> List<StringTable> {
    let mut list = List { entries: Vec::new(), error: None, is_limited: false };
    // An error of the tree is one of the resources.
    for leaf in leaves.flatten().filter(|it| it.resource_type == VERSION) {
        if !budget.takes(leaf.size as usize) || list.entries.len() >= TABLES {
            list.is_limited = true;
            break;
        }
        match leaf.version_blocks().and_then(|it| put_tables(it, &named(leaf.language), &mut list.entries)) {
            Ok(is_limited) => list.is_limited = is_limited,
            Err(error) => list.error = Some(error.into()),
        }
        if list.is_limited || list.error.is_some() {
            break;
        }
    }
    list
}

/// The first resources of an image. What is wrong with the tree is said of the resources.
fn leaves_of<'a>(image: &'a Image<'_>) -> impl Iterator<Item = Result<ResourceLeaf<'a>, Error>> {
    image.resource_leaves().ok().flatten().into_iter().flatten().take(super::resources::LEAVES)
}

/// A language with its name.
fn named(language: ResourceName<'_>) -> Label {
    let language = label_of(language);
    language.id.map_or(language, language_of)
}

/// All tables of strings, or absent where there are none.
pub fn languages_of(image: &Image<'_>) -> Part<List<StringTable>> {
    let leaves = leaves_of(image);
    let list = tables_of(leaves, Budget::of(image));
    if list.entries.is_empty() && list.error.is_none() {
        Part::Absent
    } else {
        Part::Present(list)
    }
}

/// The table that is shown first.
fn first_of(tables: &Part<List<StringTable>>) -> Option<&StringTable> {
    let tables = &tables.present()?.entries;
    let is_first = |it: &&StringTable| it.language.id.is_some_and(|id| FIRST.contains(&id));
    tables.iter().find(is_first).or(tables.first())
}

/// What follows `name=` in an XML text, in quotes.
fn attribute<'t>(text: &'t str, name: &str) -> Option<&'t str> {
    let rest = text.split_once(name)?.1.trim_start().strip_prefix('=')?.trim_start();
    let quote = rest.chars().next().filter(|it| ['"', '\''].contains(it))?;
    rest[1..].split_once(quote).map(|it| it.0)
}

/// The level of `requestedExecutionLevel`. An element of an XML text ends at the first `>` outside of quotes; values of these
/// attributes have none.
fn manifest_of(bytes: &[u8], count: usize) -> Manifest {
    let text = String::from_utf8_lossy(bytes);
    let element = text.split_once("requestedExecutionLevel").and_then(|(_, rest)| rest.split('>').next());
    let requested_level = element.and_then(|it| attribute(it, "level")).map(str::to_string);
    Manifest { size: bytes.len(), requested_level, count }
}

/// How many manifests there are, as far as resources are looked at.
fn count_of_manifests(image: &Image<'_>) -> usize {
    leaves_of(image).flatten().filter(|it| it.resource_type == MANIFEST).count()
}

/// The number by which Windows finds version information, `VS_VERSION_INFO`.
pub const FOUND: u16 = 1;

/// The name of the first version information, where none is found by its number.
fn other_name_of(image: &Image<'_>) -> Option<Label> {
    let mut names = leaves_of(image).flatten().filter(|it| it.resource_type == VERSION).map(|it| it.name);
    let is_found = |name: &ResourceName<'_>| matches!(name, ResourceName::Id(FOUND));
    let first = names.next().filter(|it| !is_found(it))?;
    (!names.any(|it| is_found(&it))).then(|| label_of(first))
}

pub fn of(image: &Image<'_>) -> Version {
    let languages = languages_of(image);
    let (first, fixed) = (first_of(&languages), image.fixed_version());
    Version {
        strings_error: fixed.as_ref().ok().and_then(|_| image.version().err()).map(Refusal::from),
        fixed: fixed.map(|it| it.map(fixed_of)).into(),
        fixed_language: leaves_of(image).flatten().find(|it| it.resource_type == VERSION).map(|it| named(it.language)),
        other_name: other_name_of(image),
        language: first.map(|it| it.language.clone()),
        strings: first.map(|it| it.strings.clone()),
        languages,
        manifest: image.manifest().map(|it| it.map(|it| manifest_of(it, count_of_manifests(image)))).into(),
    }
}

#[cfg(test)]
mod tests {
    use super::*;

    #[test]
    fn the_level_of_a_manifest_is_found() {
        let level = |text: &str| manifest_of(text.as_bytes(), 1).requested_level;
        assert_eq!(
            level("<a:requestedExecutionLevel uiAccess='false' level = \"asInvoker\"/>"),
            Some("asInvoker".into())
        );
        assert_eq!(
            level("<requestedExecutionLevel level='highestAvailable' uiAccess=\"true\">"),
            Some("highestAvailable".into())
        );
        assert_eq!(level("<requestedExecutionLevel> level='x'"), None);
        assert_eq!(level("level='x'"), None);
    }
}
