//! All resources of an image, each in each language: the leaves of the resource tree, whose three levels are types, names
//! and languages. See <https://learn.microsoft.com/windows/win32/debug/pe-format#the-rsrc-section>. A caller extracts icons,
//! dialogs or texts, or finds version information in every language.

use crate::failure::Failure;
use crate::image::{bytes_of, Error, Image};
use crate::shown::shown;
use crate::sys;
use crate::version::{FixedVersion, Text, VersionName};
use crate::walk::{ask_of_bytes, look, ImageList};
use core::iter::FusedIterator;

/// `RT_VERSION`, the type of version information.
const RT_VERSION: u16 = 16;

/// What names a type of resources, a resource or a language.
#[derive(Clone, Copy, Debug, PartialEq, Eq)]
pub enum ResourceName<'a> {
    /// Of a type `RT_*` of winuser.h, of a language its identifier, 0 for any language.
    Id(u16),
    /// A name of its own. Its bytes have no final zero.
    Name(Text<'a>),
}

/// A resource in one language.
#[derive(Clone, Copy)]
#[cfg_attr(feature = "serde", derive(serde::Serialize))]
pub struct ResourceLeaf<'a> {
    /// The type.
    pub resource_type: ResourceName<'a>,
    /// The resource among those of its type.
    pub name: ResourceName<'a>,
    /// The language.
    pub language: ResourceName<'a>,
    /// RVA of the content.
    pub rva: u32,
    /// Bytes of the content.
    pub size: u32,
    /// The code page of texts in the content, mostly 0.
    pub code_page: u32,
    #[cfg_attr(feature = "serde", serde(skip))]
    bytes: &'a [u8],
    #[cfg_attr(feature = "serde", serde(skip))]
    content: sys::Range,
    #[cfg_attr(feature = "serde", serde(skip))]
    content_result: u32,
}

shown! { ResourceLeaf<'_> { resource_type, name, language, rva, size, code_page, content, content_result; .. } }

fn name_of(found: sys::ResourceName, bytes: &[u8]) -> Result<ResourceName<'_>, Error> {
    if found.has_name == 0 {
        return Ok(ResourceName::Id(found.id as u16));
    }
    Ok(ResourceName::Name(Text(bytes_of(found.name, bytes)?)))
}

/// How many bytes version information has up to the end of the fixed file information: lengths and a type, the key
/// `VS_VERSION_INFO`, the value.
const UP_TO_FIXED: u64 = 6 + 32 + 2 + 52;

/// The fixed file information in the first bytes of version information, without the strings that follow.
pub(crate) fn alone(bytes: &[u8], content: sys::Range) -> Option<FixedVersion> {
    let first = sys::Range { length: content.length.min(UP_TO_FIXED), ..content };
    ask_of_bytes(bytes, sys::pe_c_fixed_version_in, &first).ok()?
}

impl<'a> ResourceLeaf<'a> {
    fn of(found: sys::ResourceLeaf, bytes: &'a [u8]) -> Result<Self, Error> {
        Ok(ResourceLeaf {
            resource_type: name_of(found.resource_type, bytes)?,
            name: name_of(found.name, bytes)?,
            language: name_of(found.language, bytes)?,
            rva: found.rva,
            size: found.size,
            code_page: found.code_page,
            bytes,
            content: found.content,
            content_result: found.content_result,
        })
    }

    /// The content.
    ///
    /// # Errors
    ///
    /// [`Error::UNMAPPED`] of its RVA; [`Error::RESOURCE_BOUNDS`] where it is not in the file.
    pub fn content(&self) -> Result<&'a [u8], Error> {
        Error::of(self.content_result)?;
        bytes_of(self.content, self.bytes)
    }

    fn is_version(&self) -> bool {
        self.resource_type == ResourceName::Id(RT_VERSION)
    }

    /// Where the content of a leaf of type `RT_VERSION` is, in these bytes.
    pub(crate) fn version_content(&self) -> Result<Option<(&'a [u8], sys::Range)>, Error> {
        if !self.is_version() {
            return Ok(None);
        }
        Error::of(self.content_result)?;
        Ok(Some((self.bytes, self.content)))
    }

    /// The fixed file information of a leaf of type `RT_VERSION`. `None` of another type, and where it has none.
    ///
    /// # Errors
    ///
    /// Those of [`ResourceLeaf::content`]; [`Error::SHORT`], [`Error::RESOURCE_STRING`] of the version strings;
    /// [`Error::SHORT`] of the fixed file information.
    pub fn version(&self) -> Result<Option<FixedVersion>, Error> {
        if !self.is_version() {
            return Ok(None);
        }
        Error::of(self.content_result)?;
        ask_of_bytes(self.bytes, sys::pe_c_fixed_version_in, &self.content)
    }

    /// The same, where a damaged version string after it is no error. The strings that can be read are [`ResourceLeaf::version_blocks`].
    ///
    /// # Errors
    ///
    /// Those of [`ResourceLeaf::version`], where the fixed file information cannot be read either.
    pub fn fixed_version(&self) -> Result<Option<FixedVersion>, Error> {
        self.version().or_else(|error| alone(self.bytes, self.content).ok_or(error).map(Some))
    }

    /// The value of a version string of a leaf of type `RT_VERSION`. `None` of another type, and without a string of that name.
    ///
    /// # Errors
    ///
    /// Those of [`ResourceLeaf::content`]; [`Error::SHORT`], [`Error::RESOURCE_STRING`] of the version strings.
    pub fn version_text(&self, name: VersionName) -> Result<Option<Text<'a>>, Error> {
        if !self.is_version() {
            return Ok(None);
        }
        Error::of(self.content_result)?;
        match look(self.bytes, sys::pe_c_version_text_in, &self.content, name as u32)? {
            Some(range) => Ok(Some(Text(bytes_of(range, self.bytes)?))),
            None => Ok(None),
        }
    }
}

/// The leaves of an image's resource tree, in the order of the entries of its directories.
///
/// A hostile tree of n bytes can have (n/8)^3 leaves, since directories may be shared: a caller that does not trust the file
/// bounds the walk, by `take`.
///
/// An item is an error, and the last one: of the entry of a type or a name [`Error::TREE_NOT_DIRECTORY`], [`Error::SHORT`]
/// of its directory, [`Error::TREE_NO_ENTRIES`]; of the entry of a language [`Error::TREE_NOT_DATA`], [`Error::SHORT`] of
/// its data entry; [`Error::SHORT`] of a name.
///
/// ```
/// # #[path = "../tests/made/mod.rs"] mod made;
/// # let bytes = made::with_resources();
/// use pe_c::{Image, Mode, ResourceName};
///
/// let image = Image::parse(&bytes, Mode::Permissive)?;
/// for leaf in image.resource_leaves()?.into_iter().flatten().take(1000) {
///     let leaf = leaf?;
///     if leaf.resource_type == ResourceName::Id(24) {
///         // RT_MANIFEST
///         assert_eq!(leaf.content()?, image.manifest()?.unwrap());
///     }
/// }
/// # Ok::<(), pe_c::Error>(())
/// ```
#[derive(Clone, Debug)]
pub struct ResourceLeaves<'i, 'a> {
    left: ImageList<'i, 'a, sys::LeafWalk, sys::ResourceLeaf>,
    tree: sys::Range,
}

impl<'a> Iterator for ResourceLeaves<'_, 'a> {
    type Item = Result<ResourceLeaf<'a>, Error>;

    fn next(&mut self) -> Option<Self::Item> {
        let bytes = self.left.source.bytes();
        Some(self.left.step(sys::pe_c_list_resource_leaves)?.and_then(|found| ResourceLeaf::of(found, bytes)))
    }
}

impl FusedIterator for ResourceLeaves<'_, '_> {}

impl ResourceLeaves<'_, '_> {
    /// Why the item that is an error is one: the error with its numbers; the offset of what an entry leads to counts from the start of
    /// the tree, that of [`Error::SHORT`] from the start of the file. `None` where no item was an error.
    pub fn failure(&self) -> Option<Failure> {
        self.left.failure(sys::pe_c_resource_leaf_failure, |it| &it.leaves)
    }
}

/// A directory of a resource tree: its own fields, and its entries.
///
/// ```
/// # #[path = "../tests/made/mod.rs"] mod made;
/// # let bytes = made::with_resources();
/// use pe_c::{Image, Mode};
///
/// let image = Image::parse(&bytes, Mode::Permissive)?;
/// let root = image.resource_root()?.expect("the image has resources");
/// for item in root.items() {
///     let item = item?;
///     println!("{:?}: {}", item.name, item.offset);
/// }
/// # Ok::<(), pe_c::Error>(())
/// ```
#[derive(Clone, Copy)]
pub struct ResourceDirectory<'a> {
    /// Reserved.
    pub characteristics: u32,
    /// Seconds since the start of 1970, mostly 0.
    pub time_date_stamp: u32,
    /// Of the resources.
    pub major_version: u16,
    /// Of the resources.
    pub minor_version: u16,
    /// How many entries have a name. They come first.
    pub number_of_named_entries: u16,
    /// How many entries have an id.
    pub number_of_id_entries: u16,
    bytes: &'a [u8],
    tree: sys::Range,
    entries: sys::Range,
}

shown! {
    ResourceDirectory<'_> {
        characteristics, time_date_stamp, major_version, minor_version, number_of_named_entries, number_of_id_entries, tree, entries; ..
    }
}

impl<'a> ResourceDirectory<'a> {
    fn of(found: sys::ResourceDirectory, bytes: &'a [u8], tree: sys::Range) -> Self {
        ResourceDirectory {
            characteristics: found.characteristics,
            time_date_stamp: found.time_date_stamp,
            major_version: found.major_version,
            minor_version: found.minor_version,
            number_of_named_entries: found.number_of_named_entries,
            number_of_id_entries: found.number_of_id_entries,
            bytes,
            tree,
            entries: found.entries,
        }
    }

    /// The entries, in their order. An item is an error, and the last one: [`Error::SHORT`] where its name is not inside the tree.
    pub fn items(&self) -> ResourceItems<'a> {
        ResourceItems { bytes: self.bytes, tree: self.tree, left: self.entries }
    }
}

/// An entry of a directory of a resource tree.
#[derive(Clone, Copy, Debug, PartialEq, Eq)]
#[cfg_attr(feature = "serde", derive(serde::Serialize))]
#[non_exhaustive]
pub struct ResourceItem<'a> {
    /// What names it.
    pub name: ResourceName<'a>,
    /// Where the directory is to which it leads, for [`ResourceLeaves::directory`], or the data entry, from the start of the tree.
    pub offset: u32,
    /// Whether it leads to a directory.
    pub is_directory: bool,
}

/// The entries of a directory of a resource tree, one after the other.
#[derive(Clone)]
pub struct ResourceItems<'a> {
    bytes: &'a [u8],
    tree: sys::Range,
    left: sys::Range,
}

shown! { ResourceItems<'_> { tree, left; .. } }

impl<'a> Iterator for ResourceItems<'a> {
    type Item = Result<ResourceItem<'a>, Error>;

    fn next(&mut self) -> Option<Self::Item> {
        let found = look(self.bytes, sys::pe_c_next_resource_item, &self.tree, &mut self.left as *mut _).transpose()?;
        let item = found.and_then(|it: sys::ResourceItem| {
            let name = name_of(it.name, self.bytes)?;
            Ok(ResourceItem { name, offset: it.offset, is_directory: it.is_directory != 0 })
        });
        if item.is_err() {
            self.left = sys::Range::default();
        }
        Some(item)
    }
}

impl FusedIterator for ResourceItems<'_> {}

impl<'a> ResourceLeaves<'_, 'a> {
    /// The directory at an offset of the tree: at 0 the root, whose entries are types, else that of an [item](ResourceItem). A
    /// hostile tree may lead to a directory again, so bound what you follow. [`Image::resource_root`] returns the root also where
    /// its entries are not all inside the tree.
    ///
    /// # Errors
    ///
    /// [`Error::SHORT`] where the directory or its entries are not inside the tree.
    pub fn directory(&self, offset: u32) -> Result<ResourceDirectory<'a>, Error> {
        let (bytes, tree) = (self.left.source.bytes(), self.tree);
        let found = look(bytes, sys::pe_c_resource_directory_at, &tree, offset)?.ok_or(Error::SHORT)?;
        Ok(ResourceDirectory::of(found, bytes, tree))
    }
}

impl<'a> Image<'a> {
    /// All resources, each in each language. `None` where the directory is absent, and in permissive mode where its data is too
    /// short for a directory: a tree without leaves has directories, with fields of their own.
    ///
    /// # Errors
    ///
    /// [`Error::UNMAPPED`], [`Error::SHORT`] of the root directory; [`Error::RESOURCE_BOUNDS`] where the data that the data
    /// directory names ends past the end of the file, and in strict mode where the root or its entries are not all inside the
    /// data.
    pub fn resource_leaves(&self) -> Result<Option<ResourceLeaves<'_, 'a>>, Error> {
        let walk: Option<sys::ResourceWalk> = self.ask(sys::pe_c_resource_leaves)?;
        Ok(walk.map(|walk| ResourceLeaves { tree: walk.tree, left: ImageList::new(self, walk.into()) }))
    }

    /// The first directory of the resources, whose entries are types; [`ResourceLeaves::directory`] returns the others. `None` where
    /// [`resource_leaves`](Self::resource_leaves) is. In permissive mode one whose entries are not all inside the data has no
    /// [items](ResourceDirectory::items).
    ///
    /// # Errors
    ///
    /// Those of [`resource_leaves`](Self::resource_leaves).
    pub fn resource_root(&self) -> Result<Option<ResourceDirectory<'a>>, Error> {
        let Some(found) = self.ask(sys::pe_c_resource_root)? else { return Ok(None) };
        let leaves: Option<sys::ResourceWalk> = self.ask(sys::pe_c_resource_leaves)?;
        Ok(leaves.map(|walk| ResourceDirectory::of(found, self.bytes(), walk.tree)))
    }
}
