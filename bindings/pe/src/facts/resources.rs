//! The resources: all leaves of the resource tree, each with its type, its name and its language.

use super::hashes::sha256_of;
use super::version::{fixed_of, Fixed};
use super::{languages, Budget, Field, Part, Refusal};
use crate::names::{name_of, RESOURCE_TYPES};
use pe_c::{DirectoryIndex, Image, ResourceLeaf, ResourceLeaves, ResourceName};
use serde::{Serialize, Serializer};
use std::collections::BTreeSet;

/// How many leaves are shown. Directories of a tree may be shared, so a small file can have more leaves than anyone reads.
pub const LEAVES: usize = 65_536;

#[derive(Clone, Debug)]
pub struct Resources<'a> {
    pub entries: Vec<Leaf<'a>>,
    /// Why there are no more.
    pub error: Option<Refusal>,
    /// Whether there are more than 65,536, or so many that share long names or version information, and the first stand here.
    pub is_limited: bool,
}

/// A resource in one language.
#[derive(Clone, Debug, Serialize)]
pub struct Leaf<'a> {
    pub r#type: Label,
    pub name: Label,
    pub language: Label,
    pub rva: u32,
    pub size: u32,
    pub code_page: u32,
    /// Of the content. Null where it is empty or not in the file, where hashes are left out, and once the resources before have as many
    /// bytes as the file.
    pub sha256_hex: Option<String>,
    /// Of version information its numbers, null of other types.
    pub version: Option<Version<'a>>,
    /// Why its content is not in the file.
    pub error: Option<Refusal>,
}

/// An identifier, which may have a name of winuser.h, or a name of its own without one.
#[derive(Clone, Debug, PartialEq, Eq, PartialOrd, Ord, Serialize)]
pub struct Label {
    pub id: Option<u16>,
    pub name: Option<String>,
}

/// The version information of one language: it is read where it is shown, which a summary does not.
#[derive(Clone, Debug)]
pub struct Version<'a>(ResourceLeaf<'a>);

impl Version<'_> {
    pub fn fixed(&self) -> Part<Fixed> {
        self.0.fixed_version().map(|found| found.map(fixed_of)).into()
    }
}

impl Serialize for Version<'_> {
    fn serialize<S: Serializer>(&self, serializer: S) -> Result<S::Ok, S::Error> {
        self.fixed().serialize(serializer)
    }
}

impl Field for Resources<'_> {
    const NAME: &'static str = "resources";
    const ERROR: &'static str = "resources_error";
    const IS_LIMITED: Option<&'static str> = Some("resources_is_limited");

    fn error(&self) -> Option<&Refusal> {
        self.error.as_ref()
    }

    fn is_limited(&self) -> bool {
        self.is_limited
    }
}

/// The entries alone. What is beside them is written by the part that they are.
impl Serialize for Resources<'_> {
    fn serialize<S: Serializer>(&self, serializer: S) -> Result<S::Ok, S::Error> {
        self.entries.serialize(serializer)
    }
}

/// `RT_VERSION` and `RT_MANIFEST`
pub const VERSION: ResourceName<'_> = ResourceName::Id(16);
pub const MANIFEST: ResourceName<'_> = ResourceName::Id(24);

impl Resources<'_> {
    /// How many types there are.
    pub fn type_count(&self) -> usize {
        self.entries.iter().map(|it| &it.r#type).collect::<BTreeSet<_>>().len()
    }
}

pub fn label_of(name: ResourceName<'_>) -> Label {
    match name {
        ResourceName::Id(id) => Label { id: Some(id), name: None },
        ResourceName::Name(text) => Label { id: None, name: Some(text.to_string_lossy()) },
    }
}

/// A language by its identifier, with its name.
pub fn language_of(id: u16) -> Label {
    Label { id: Some(id), name: languages::name_of(id).map(str::to_string) }
}

fn type_of(name: ResourceName<'_>) -> Label {
    let label = label_of(name);
    let known = label.id.and_then(|id| name_of(id.into(), RESOURCE_TYPES));
    Label { name: label.name.or(known.map(str::to_string)), ..label }
}

/// The hash of the content, if so many bytes are left.
fn hash_of(leaf: &ResourceLeaf<'_>, left: &mut usize) -> Option<String> {
    let content = leaf.content().ok().filter(|it| !it.is_empty())?;
    *left = left.checked_sub(content.len())?;
    Some(sha256_of(content))
}

fn leaf_of<'a>(leaf: ResourceLeaf<'a>, left: &mut usize) -> Leaf<'a> {
    Leaf {
        r#type: type_of(leaf.resource_type),
        name: label_of(leaf.name),
        language: match leaf.language {
            ResourceName::Id(id) => language_of(id),
            name => label_of(name),
        },
        rva: leaf.rva,
        size: leaf.size,
        code_page: leaf.code_page,
        sha256_hex: hash_of(&leaf, left),
        version: (leaf.resource_type == VERSION).then_some(Version(leaf)),
        error: leaf.content().err().map(Refusal::from),
    }
}

/// How many bytes are read for what is shown of a leaf.
fn cost_of(leaf: &ResourceLeaf<'_>) -> usize {
    let length = |name: ResourceName<'_>| match name {
        ResourceName::Id(_) => 0,
        ResourceName::Name(text) => text.0.len(),
    };
    let content = if leaf.resource_type == VERSION { leaf.size as usize } else { 0 };
    length(leaf.resource_type) + length(leaf.name) + length(leaf.language) + content
}

/// `left` is how many bytes may be hashed.
fn resources_of<'a>(leaves: ResourceLeaves<'_, 'a>, mut budget: Budget, mut left: usize) -> Resources<'a> {
    let mut resources = Resources { entries: Vec::new(), error: None, is_limited: false };
    for leaf in leaves {
        match leaf {
            Ok(leaf) if resources.entries.len() < LEAVES && budget.takes(cost_of(&leaf)) => {
                resources.entries.push(leaf_of(leaf, &mut left));
            }
            Ok(_) => {
                resources.is_limited = true;
                break;
            }
            Err(error) => resources.error = Some(error.into()),
        }
    }
    resources
}

pub fn of<'a>(image: &'a Image<'_>, has_hashes: bool) -> Part<Resources<'a>> {
    let left = if has_hashes { image.bytes().len() } else { 0 };
    let leaves = image.resource_leaves();
    let found = leaves.map(|found| found.map(|leaves| resources_of(leaves, Budget::of(image), left)));
    Part::of_directory(found, image, DirectoryIndex::Resource)
}
