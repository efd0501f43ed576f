//! Resources: a tree of directories, of types, names and languages, whose leaves are data entries. goblin reads two of them:
//! the version information and the manifest.
//! <https://learn.microsoft.com/windows/win32/debug/pe-format#the-rsrc-section>,
//! <https://learn.microsoft.com/windows/win32/menurc/vs-versioninfo>

use super::data_directories::DataDirectory;
use super::options::ParseOptions;
use super::section_table::SectionTable;
use super::utils;
use crate::error;
use crate::raw::{self, Index, Refusal, View};
use core::{fmt, iter::FusedIterator, mem::size_of};
use pe_c::sys;
use scroll::{Pread, Pwrite, SizeWith};

pub const RT_CURSOR: u16 = 1;
pub const RT_BITMAP: u16 = 2;
pub const RT_ICON: u16 = 3;
pub const RT_MENU: u16 = 4;
pub const RT_DIALOG: u16 = 5;
pub const RT_STRING: u16 = 6;
pub const RT_FONTDIR: u16 = 7;
pub const RT_FONT: u16 = 8;
pub const RT_ACCELERATOR: u16 = 9;
pub const RT_RCDATA: u16 = 10;
pub const RT_MESSAGETABLE: u16 = 11;
pub const RT_GROUP_CURSOR: u16 = 12;
pub const RT_GROUP_ICON: u16 = 14;
pub const RT_VERSION: u16 = 16;
pub const RT_DLGINCLUDE: u16 = 17;
pub const RT_PLUGPLAY: u16 = 19;
pub const RT_VXD: u16 = 20;
pub const RT_ANICURSOR: u16 = 21;
pub const RT_ANIICON: u16 = 22;
pub const RT_HTML: u16 = 23;
pub const RT_MANIFEST: u16 = 24;
pub const IMAGE_RESOURCE_NAME_IS_STRING: u32 = 0x80000000;
pub const IMAGE_RESOURCE_DATA_IS_DIRECTORY: u32 = 0x80000000;
pub const IMAGE_RESOURCE_MASK: u32 = 0x7FFFFFFF;
pub const RESOURCE_ENTRY_SIZE: usize = core::mem::size_of::<u64>();
pub const VS_FFI_SIGNATURE: u32 = 0xFEEF04BD;
pub const VS_FFI_STRUCVERSION: u32 = 0x00010000;
pub const VS_FFI_FILEFLAGSMASK: u32 = 0x0000003F;
pub const VS_FF_DEBUG: u32 = 0x00000001;
pub const VS_FF_PRERELEASE: u32 = 0x00000002;
pub const VS_FF_PATCHED: u32 = 0x00000004;
pub const VS_FF_PRIVATEBUILD: u32 = 0x00000008;
pub const VS_FF_INFOINFERRED: u32 = 0x00000010;
pub const VS_FF_SPECIALBUILD: u32 = 0x00000020;
pub const VOS_UNKNOWN: u32 = 0x00000000;
pub const VOS_DOS: u32 = 0x00010000;
pub const VOS_OS216: u32 = 0x00020000;
pub const VOS_OS232: u32 = 0x00030000;
pub const VOS_NT: u32 = 0x00040000;
pub const VOS_WINCE: u32 = 0x00050000;
pub const VOS_BASE: u32 = 0x00000000;
pub const VOS_WINDOWS16: u32 = 0x00000001;
pub const VOS_PM16: u32 = 0x00000002;
pub const VOS_PM32: u32 = 0x00000003;
pub const VOS_WINDOWS32: u32 = 0x00000004;
pub const VOS_DOS_WINDOWS16: u32 = 0x00010001;
pub const VOS_DOS_WINDOWS32: u32 = 0x00010004;
pub const VOS_OS216_PM16: u32 = 0x00020002;
pub const VOS_OS216_PM32: u32 = 0x00030003;
pub const VOS_NT_WINDOWS32: u32 = 0x00040004;
pub const VFT_UNKNOWN: u32 = 0x00000000;
pub const VFT_APP: u32 = 0x00000001;
pub const VFT_DLL: u32 = 0x00000002;
pub const VFT_DRV: u32 = 0x00000003;
pub const VFT_FONT: u32 = 0x00000004;
pub const VFT_VXD: u32 = 0x00000005;
pub const VFT_STATIC_LIB: u32 = 0x00000007;
pub const VFT2_UNKNOWN: u32 = 0x00000000;
pub const VFT2_DRV_PRINTER: u32 = 0x00000001;
pub const VFT2_DRV_KEYBOARD: u32 = 0x00000002;
pub const VFT2_DRV_LANGUAGE: u32 = 0x00000003;
pub const VFT2_DRV_DISPLAY: u32 = 0x00000004;
pub const VFT2_DRV_MOUSE: u32 = 0x00000005;
pub const VFT2_DRV_NETWORK: u32 = 0x00000006;
pub const VFT2_DRV_SYSTEM: u32 = 0x00000007;
pub const VFT2_DRV_INSTALLABLE: u32 = 0x00000008;
pub const VFT2_DRV_SOUND: u32 = 0x00000009;
pub const VFT2_DRV_COMM: u32 = 0x0000000A;
pub const VFT2_DRV_INPUTMETHOD: u32 = 0x0000000B;
pub const VFT2_DRV_VERSIONED_PRINTER: u32 = 0x0000000C;
pub const VFT2_FONT_RASTER: u32 = 0x00000001;
pub const VFT2_FONT_VECTOR: u32 = 0x00000002;
pub const VFT2_FONT_TRUETYPE: u32 = 0x00000003;
pub const RESOURCE_STRING_FIELD_ALIGNMENT: usize = core::mem::size_of::<u32>();
/// A key of string tables: of US English, with a code page.
pub const VERSION_INFO_US_ENGLISH_UNICODE: &str = "040904E4";
/// The key of the first block, which has the fixed file information.
pub const VS_VERSION_INFO_KEY: &str = "VS_VERSION_INFO";

/// Bytes of a UTF-16 code unit.
pub(super) const SIZE_OF_WCHAR: usize = size_of::<u16>();

/// The text of UTF-16 code units up to the first zero, or `None` where they are no text or an odd number of bytes.
pub(super) fn to_utf16_string(bytes: &[u8]) -> Option<String> {
    let units = raw::code_units(bytes)?.take_while(|unit| *unit != 0);
    char::decode_utf16(units).collect::<Result<_, _>>().ok()
}

/// A resource directory, `IMAGE_RESOURCE_DIRECTORY`.
#[repr(C)]
#[derive(Debug, PartialEq, Copy, Clone, Default, Pread, Pwrite, SizeWith)]
pub struct ImageResourceDirectory {
    /// Reserved.
    pub characteristics: u32,
    /// Seconds since 1970, as a rule 0.
    pub time_date_stamp: u32,
    /// Of a version that the maker sets.
    pub major_version: u16,
    /// Of a version that the maker sets.
    pub minor_version: u16,
    /// How many of its entries have names. They come first.
    pub number_of_named_entries: u16,
    /// How many of its entries have ids.
    pub number_of_id_entries: u16,
}

impl<'a> ImageResourceDirectory {
    /// The first directory of a file.
    pub fn parse(
        bytes: &'a [u8],
        dd: DataDirectory,
        sections: &[SectionTable],
        file_alignment: u32,
    ) -> error::Result<Self> {
        Self::parse_with_opts(bytes, dd, sections, file_alignment, &ParseOptions::default())
    }

    /// The first directory. Errors: `Malformed` where it is unmapped, `Scroll` where it is truncated.
    pub fn parse_with_opts(
        bytes: &'a [u8],
        dd: DataDirectory,
        sections: &[SectionTable],
        file_alignment: u32,
        opts: &ParseOptions,
    ) -> error::Result<Self> {
        let offset = utils::find_offset(dd.virtual_address as usize, sections, file_alignment, opts);
        raw::resource_directory(bytes, offset.ok_or_else(|| unmapped("ImageResourceDirectory", dd.virtual_address))?)
    }

    /// How many entries it has.
    pub fn count(&self) -> u16 {
        self.number_of_id_entries.saturating_add(self.number_of_named_entries)
    }

    /// Bytes of its entries.
    pub fn entries_size(&self) -> usize {
        usize::from(self.count()) * RESOURCE_ENTRY_SIZE
    }

    /// Its entries, which are at an offset. Error: `Scroll` where they are truncated.
    pub fn next_iter(&self, offset: usize, bytes: &'a [u8]) -> error::Result<ResourceEntryIterator<'a>> {
        Ok(ResourceEntryIterator { data: raw::bytes_at(bytes, offset, self.entries_size())? })
    }
}

impl From<sys::ResourceDirectory> for ImageResourceDirectory {
    fn from(it: sys::ResourceDirectory) -> Self {
        ImageResourceDirectory {
            characteristics: it.characteristics,
            time_date_stamp: it.time_date_stamp,
            major_version: it.major_version,
            minor_version: it.minor_version,
            number_of_named_entries: it.number_of_named_entries,
            number_of_id_entries: it.number_of_id_entries,
        }
    }
}

fn unmapped(what: &str, rva: u32) -> error::Error {
    error::Error::Malformed(format!("Cannot map {what} rva {rva:#x} into offset"))
}

/// The entries of a resource directory, one after the other.
#[derive(Debug, Copy, Clone)]
pub struct ResourceEntryIterator<'a> {
    data: &'a [u8],
}

impl Iterator for ResourceEntryIterator<'_> {
    type Item = error::Result<ResourceEntry>;

    fn next(&mut self) -> Option<Self::Item> {
        if self.data.is_empty() {
            return None;
        }
        let entry = raw::resource_entry(self.data);
        self.data = raw::left(self.data, Some(raw::rest(self.data, RESOURCE_ENTRY_SIZE)));
        Some(entry)
    }

    fn size_hint(&self) -> (usize, Option<usize>) {
        raw::items_left(self.data, RESOURCE_ENTRY_SIZE)
    }
}

impl FusedIterator for ResourceEntryIterator<'_> {}

impl ResourceEntryIterator<'_> {
    /// The first entry with an id, among those that are left. Error: that of an entry before it.
    pub fn find_by_id(&self, id: u16) -> error::Result<Option<ResourceEntry>> {
        for entry in *self {
            let entry = entry?;
            if entry.id() == Some(id) {
                return Ok(Some(entry));
            }
        }
        Ok(None)
    }
}

/// A data entry, `IMAGE_RESOURCE_DATA_ENTRY`: where the content of a resource is.
#[derive(Debug, PartialEq, Copy, Clone, Default, Pread, Pwrite, SizeWith)]
pub struct ResourceDataEntry {
    /// RVA of the content.
    pub offset_to_data: u32,
    /// Bytes of the content.
    pub size: u32,
    /// Of texts in the content, mostly 0.
    pub code_page: u32,
    /// Reserved.
    pub reserved: u32,
}

/// An entry of a resource directory, `IMAGE_RESOURCE_DIRECTORY_ENTRY`. Offsets count from the start of the tree.
#[derive(PartialEq, Copy, Clone, Default, Pread, Pwrite, SizeWith)]
pub struct ResourceEntry {
    /// With bit 31 the offset of a name, else an id.
    pub name_or_id: u32,
    /// With bit 31 the offset of a directory, else that of a data entry.
    pub offset_to_data_or_directory: u32,
}

impl fmt::Debug for ResourceEntry {
    fn fmt(&self, f: &mut fmt::Formatter<'_>) -> fmt::Result {
        f.debug_struct("ResourceEntry")
            .field("value", &format_args!("{:#x}", self.value()))
            .field("name_is_string", &self.name_is_string())
            .field("name_offset", &format_args!("{:#x}", self.name_offset()))
            .field("id", &self.id())
            .field("data_is_directory", &self.data_is_directory())
            .field("offset_to_directory", &format_args!("{:#x}", self.offset_to_directory()))
            .field("offset_to_data", &format_args!("{:#x?}", self.offset_to_data()))
            .finish()
    }
}

/// Bytes of a [`ImageResourceDirectory`].
const DIRECTORY_SIZE: usize = 16;

impl ResourceEntry {
    /// Both fields, the first in the high half.
    pub fn value(&self) -> u64 {
        u64::from(self.name_or_id) << 32 | u64::from(self.offset_to_data_or_directory)
    }

    /// Whether it has a name.
    pub fn name_is_string(&self) -> bool {
        self.name_or_id & IMAGE_RESOURCE_NAME_IS_STRING != 0
    }

    /// The offset of its name.
    pub fn name_offset(&self) -> u32 {
        self.name_or_id & IMAGE_RESOURCE_MASK
    }

    /// Its id, unless it has a name.
    pub fn id(&self) -> Option<u16> {
        (!self.name_is_string()).then_some(self.name_or_id as u16)
    }

    /// Whether it leads to a directory.
    pub fn data_is_directory(&self) -> bool {
        self.offset_to_data_or_directory & IMAGE_RESOURCE_DATA_IS_DIRECTORY != 0
    }

    /// The offset of its directory.
    pub fn offset_to_directory(&self) -> u32 {
        self.offset_to_data_or_directory & IMAGE_RESOURCE_MASK
    }

    /// The offset of its data entry, unless it leads to a directory.
    pub fn offset_to_data(&self) -> Option<u32> {
        (!self.data_is_directory()).then_some(self.offset_to_data_or_directory)
    }

    /// The first entry of its directory, or `None` where that has none. Error: `Scroll` where the directory or its entries are
    /// truncated.
    pub fn next_depth(&self, bytes: &[u8]) -> error::Result<Option<ResourceEntry>> {
        let at = self.offset_to_directory() as usize;
        let directory = raw::resource_directory(bytes, at)?;
        directory.next_iter(at + DIRECTORY_SIZE, bytes)?.next().transpose()
    }

    /// The first entry below it, from directory to directory, for which the predicate is false; or the last one. Errors: those
    /// of [`next_depth`](Self::next_depth); `Malformed` where the directories are a loop.
    pub fn recursive_next_depth<P: Fn(&Self) -> bool>(
        &self,
        bytes: &[u8],
        predicate: P,
    ) -> error::Result<Option<ResourceEntry>> {
        // What follows an offset is always the same. So a loop is seen without a list of what was visited: the offset after one,
        // two, four, .. more steps is kept, and in a loop it comes again.
        let (mut current, mut kept, mut steps, mut most) = (*self, self.offset_to_data_or_directory, 0, 1);
        while let Some(next) = current.next_depth(bytes)? {
            if !predicate(&next) {
                return Ok(Some(next));
            }
            let offset = next.offset_to_data_or_directory;
            steps += 1;
            if offset == kept {
                return Err(self.cycle(bytes, steps)?);
            }
            if steps == most {
                (kept, steps, most) = (offset, 0, 2 * most);
            }
            current = next;
        }
        Ok(Some(current))
    }

    /// The error of a loop of so many steps somewhere below the entry: it has the first offset that comes again, which is the first
    /// that the same number of steps lead back to.
    fn cycle(&self, bytes: &[u8], length: u64) -> error::Result<error::Error> {
        let step = |it: ResourceEntry| Ok::<_, error::Error>(it.next_depth(bytes)?.unwrap_or(it));
        let (mut first, mut second) = (*self, *self);
        for _ in 0..length {
            second = step(second)?;
        }
        while first.offset_to_data_or_directory != second.offset_to_data_or_directory {
            (first, second) = (step(first)?, step(second)?);
        }
        let offset = first.offset_to_data_or_directory;
        Ok(error::Error::Malformed(format!("Cycle detected in resource directory at offset {offset:#x}")))
    }

    /// The content of the first leaf below it, in a file whose tree is passed too; `None` where there is no leaf.
    fn content(&self, view: View<'_, '_>, tree: &[u8], what: &str) -> error::Result<Option<sys::Range>> {
        let leaf = self.recursive_next_depth(tree, |it| it.data_is_directory())?;
        let Some(offset) = leaf.and_then(|it| it.offset_to_data()) else { return Ok(None) };
        let entry = raw::resource_data_entry(tree, offset as usize)?;
        let at = view.offset(entry.offset_to_data);
        let at = at.ok_or_else(|| unmapped("ResourceDataEntry", entry.offset_to_data))?;
        let content = sys::Range { offset: at as u64, length: entry.size.into() };
        match content.of(view.bytes) {
            Some(_) => Ok(Some(content)),
            None => Err(error::Error::Malformed(format!("Cannot map {what} at {at:#x}"))),
        }
    }
}

impl From<u64> for ResourceEntry {
    fn from(value: u64) -> Self {
        ResourceEntry { name_or_id: (value >> 32) as u32, offset_to_data_or_directory: value as u32 }
    }
}

/// The resources of an image.
#[derive(Debug, Copy, Clone, Default)]
pub struct ResourceData<'a> {
    /// The first directory.
    pub image_resource_directory: ImageResourceDirectory,
    /// The version information.
    pub version_info: Option<VersionInfo<'a>>,
    /// The manifest.
    pub manifest_data: Option<ManifestData<'a>>,
    data: &'a [u8],
}

impl<'a> ResourceData<'a> {
    /// The resources of a directory in a file.
    pub fn parse(
        bytes: &'a [u8],
        dd: DataDirectory,
        sections: &[SectionTable],
        file_alignment: u32,
    ) -> error::Result<Self> {
        Self::parse_with_opts(bytes, dd, sections, file_alignment, &ParseOptions::default())
    }

    /// The resources of a directory. Errors: `Malformed` where the tree is unmapped or ends past the file, in strict mode where
    /// its first entries are not all in it, where the way to the version information or to the manifest is damaged or a loop,
    /// or the version information is.
    pub fn parse_with_opts(
        bytes: &'a [u8],
        dd: DataDirectory,
        sections: &[SectionTable],
        file_alignment: u32,
        opts: &ParseOptions,
    ) -> error::Result<Self> {
        let (info, sections) =
            (raw::image_with(Index::Resource, dd, file_alignment, opts), raw::sections_of(sections)?);
        Ok(Self::of(View::of(bytes, &info, &sections))?.unwrap_or_default())
    }

    pub(crate) fn of(view: View<'a, '_>) -> error::Result<Option<Self>> {
        let directory = view.directory(Index::Resource);
        let leaves = view.resource_leaves().map_err(|it| match it {
            Refusal::UNMAPPED => unmapped("ImageResourceDirectory", directory.virtual_address),
            other => view.refused(Index::Resource, other),
        })?;
        let Some(leaves) = leaves else {
            // In permissive mode data too short for a directory are an empty one, and without a directory there is nothing.
            return Ok((directory != DataDirectory::default()).then(Self::default));
        };
        let content = view.version_content()?;
        let version_info = content.map(|it| VersionInfo::of(view.bytes, it)).transpose()?;
        let manifest = view.manifest()?;
        let manifest_data = manifest.map(|it| Ok::<_, error::Error>(ManifestData { data: view.slice(it)? }));
        let data = view.slice(leaves.tree)?;
        Ok(Some(ResourceData {
            image_resource_directory: view.resource_root()?.map(ImageResourceDirectory::from).unwrap_or_default(),
            version_info,
            manifest_data: manifest_data.transpose()?,
            data,
        }))
    }

    /// How many entries the first directory has.
    pub fn count(&self) -> u16 {
        self.image_resource_directory.count()
    }

    /// The entries of the first directory; none where they are not all in the tree.
    pub fn entries(&self) -> ResourceEntryIterator<'a> {
        let size = self.image_resource_directory.entries_size();
        let data = raw::part_at(self.data, DIRECTORY_SIZE, size);
        ResourceEntryIterator { data: data.unwrap_or(&[]) }
    }
}

/// Version strings, one after the other, as they lie in the bytes: blocks and the blocks in them alike.
#[derive(Debug, Copy, Clone)]
pub struct ResourceStringIterator<'a> {
    data: &'a [u8],
}

impl<'a> Iterator for ResourceStringIterator<'a> {
    type Item = error::Result<ResourceString<'a>>;

    fn next(&mut self) -> Option<Self::Item> {
        if self.data.is_empty() {
            return None;
        }
        let (data, mut offset) = (self.data, 0);
        let found = ResourceString::parse(data, &mut offset).transpose();
        let is_over = !matches!(found, Some(Ok(_)));
        self.data = if is_over { &[] } else { raw::left(data, Some(raw::rest(data, offset))) };
        found
    }
}

impl FusedIterator for ResourceStringIterator<'_> {}

/// UTF-16 code units.
#[derive(Debug, Copy, Clone, Default, PartialEq)]
pub(crate) struct Utf16String<'a>(&'a [u8]);

impl Utf16String<'_> {
    /// The text, or `None` where they are no text.
    pub(crate) fn to_string(self) -> Option<String> {
        to_utf16_string(self.0)
    }

    /// In bytes.
    pub(crate) fn len(&self) -> usize {
        self.0.len()
    }
}

/// A block of version information: a key and a value.
#[derive(Copy, Clone, PartialEq)]
pub struct ResourceString<'a> {
    /// Bytes of the block, with the blocks in it.
    pub len: u16,
    /// The length of the value, of a text in code units, else in bytes.
    pub value_len: u16,
    /// 1 for a text, 0 for binary data.
    pub r#type: u16,
    pub(crate) key: Utf16String<'a>,
    /// The value, and zeros up to a multiple of four where they are there.
    pub value: &'a [u8],
}

impl fmt::Debug for ResourceString<'_> {
    fn fmt(&self, f: &mut fmt::Formatter<'_>) -> fmt::Result {
        let mut shown = f.debug_struct("ResourceString");
        shown.field("len", &format_args!("{:#x}", self.len));
        match self.is_text_data() {
            true => {
                let size = usize::from(self.value_len) * SIZE_OF_WCHAR;
                shown.field("value_len", &format_args!("{:#x} ({size} bytes)", self.value_len))
            }
            false => shown.field("value_len", &format_args!("{:#x}", self.value_len)),
        };
        let kind = match self.r#type {
            0 => "Binary Data",
            1 => "String Data",
            _ => "Unknown",
        };
        shown.field("type", &format_args!("{} ({kind})", self.r#type)).field("key", &self.key_string());
        shown.field("key_slice", &format_args!("{:02x?} ({} bytes)", self.key, self.key.len()));
        if self.is_text_data() && self.value_len > 0 {
            shown.field("value", &self.value_string());
        }
        let is_whole = self.value.len() == usize::from(self.value_len);
        let is_whole = if is_whole { "Correct" } else { "Incorrect" };
        let size = self.value.len();
        shown.field("value_slice", &format_args!("{:02x?} ({size} bytes, {is_whole})", self.value)).finish()
    }
}

impl<'a> ResourceString<'a> {
    /// The version string at an offset, or `None` where its length is 0; moves the offset after its value. Errors, after which
    /// the offset is unchanged: `Scroll` where it is truncated; `Malformed` where its value is, or is longer than 32,767 units.
    pub fn parse(bytes: &'a [u8], offset: &mut usize) -> error::Result<Option<Self>> {
        let Some(it) = raw::version_string(bytes, *offset)? else { return Ok(None) };
        let size = match it.kind {
            1 => it.value_len.checked_mul(SIZE_OF_WCHAR as u16).ok_or_else(|| {
                error::Error::Malformed(format!(
                    "ResourceString value_len overflow: {} * {SIZE_OF_WCHAR}",
                    it.value_len
                ))
            })?,
            _ => it.value_len,
        };
        let (size, left) = (usize::from(size), bytes.len().saturating_sub(it.value));
        if size > left {
            return Err(error::Error::Malformed(format!(
                "ResourceString value_len ({size}) exceeds available bytes ({left})"
            )));
        }
        // The last value of some compilers has no zeros after it.
        let aligned = size.next_multiple_of(RESOURCE_STRING_FIELD_ALIGNMENT);
        let value = raw::part_at(bytes, it.value, if aligned <= left { aligned } else { size });
        let value = value.ok_or(scroll::Error::BadOffset(it.value))?;
        *offset = it.value + value.len();
        let key = Utf16String(it.key);
        Ok(Some(ResourceString { len: it.len, value_len: it.value_len, r#type: it.kind, key, value }))
    }

    /// Whether the value is a text.
    pub fn is_text_data(&self) -> bool {
        self.r#type == 1
    }

    /// Whether the value is binary data.
    pub fn is_binary_data(&self) -> bool {
        self.r#type == 0
    }

    /// The key, or `None` where it is no text.
    pub fn key_string(&self) -> Option<String> {
        self.key.to_string()
    }

    /// The value as a text, or `None` where it is none.
    pub fn value_string(&self) -> Option<String> {
        to_utf16_string(self.value)
    }
}

/// A version of four numbers.
#[derive(PartialEq, Eq, PartialOrd, Ord, Copy, Clone, Default)]
pub struct VersionField {
    /// The first number.
    pub major: u16,
    /// The second number.
    pub minor: u16,
    /// The third number.
    pub build: u16,
    /// The last number.
    pub revision: u16,
}

#[allow(clippy::inherent_to_string)]
impl VersionField {
    /// Of a high and a low half.
    pub fn from_ms_ls(ms: u32, ls: u32) -> Self {
        let (high, low) = (|it: u32| (it >> 16) as u16, |it: u32| it as u16);
        VersionField { major: high(ms), minor: low(ms), build: high(ls), revision: low(ls) }
    }

    /// The high half.
    pub fn to_ms(&self) -> u32 {
        u32::from(self.major) << 16 | u32::from(self.minor)
    }

    /// The low half.
    pub fn to_ls(&self) -> u32 {
        u32::from(self.build) << 16 | u32::from(self.revision)
    }

    /// The numbers with dots between them.
    pub fn to_string(&self) -> String {
        format!("{}.{}.{}.{}", self.major, self.minor, self.build, self.revision)
    }
}

/// The fixed file information, `VS_FIXEDFILEINFO`.
#[derive(PartialEq, Copy, Clone, Default, Pread, Pwrite, SizeWith)]
pub struct VsFixedFileInfo {
    /// [`VS_FFI_SIGNATURE`].
    pub signature: u32,
    /// Of this record.
    pub struct_version: u32,
    /// High half of the file's version.
    pub file_version_ms: u32,
    /// Low half of the file's version.
    pub file_version_ls: u32,
    /// High half of the product's version.
    pub product_version_ms: u32,
    /// Low half of the product's version.
    pub product_version_ls: u32,
    /// Which bits of `file_flags` are valid.
    pub file_flags_mask: u32,
    /// `VS_FF_` flags.
    pub file_flags: u32,
    /// `VOS_`.
    pub file_os: u32,
    /// `VFT_`.
    pub file_type: u32,
    /// `VFT2_`.
    pub file_subtype: u32,
    /// High half of a `FILETIME`, mostly 0.
    pub file_date_ms: u32,
    /// Low half of it.
    pub file_date_ls: u32,
}

impl fmt::Debug for VsFixedFileInfo {
    fn fmt(&self, f: &mut fmt::Formatter<'_>) -> fmt::Result {
        let mut shown = f.debug_struct("VsFixedFileInfo");
        let is_valid = if self.is_valid() { "Valid" } else { "Invalid" };
        shown.field("signature", &format_args!("{:#x} ({is_valid})", self.signature));
        for (name, value) in [
            ("struct_version", self.struct_version),
            ("file_version_ms", self.file_version_ms),
            ("file_version_ls", self.file_version_ls),
            ("product_version_ms", self.product_version_ms),
            ("product_version_ls", self.product_version_ls),
            ("file_flags_mask", self.file_flags_mask),
            ("file_flags", self.file_flags),
            ("file_os", self.file_os),
            ("file_type", self.file_type),
            ("file_subtype", self.file_subtype),
            ("file_date_ms", self.file_date_ms),
            ("file_date_ls", self.file_date_ls),
        ] {
            shown.field(name, &format_args!("{value:#x}"));
        }
        shown.finish()
    }
}

impl VsFixedFileInfo {
    /// Whether the signature is the format's.
    pub fn is_valid(&self) -> bool {
        self.signature == VS_FFI_SIGNATURE
    }

    /// The file's version. goblin's call reads the fields of the date, which is a bug.
    pub fn file_version(&self) -> VersionField {
        VersionField::from_ms_ls(self.file_version_ms, self.file_version_ls)
    }

    /// The product's version.
    pub fn product_version(&self) -> VersionField {
        VersionField::from_ms_ls(self.product_version_ms, self.product_version_ls)
    }
}

impl From<sys::Version> for VsFixedFileInfo {
    fn from(it: sys::Version) -> Self {
        VsFixedFileInfo {
            signature: it.signature,
            struct_version: it.struct_version,
            file_version_ms: it.file_version_ms,
            file_version_ls: it.file_version_ls,
            product_version_ms: it.product_version_ms,
            product_version_ls: it.product_version_ls,
            file_flags_mask: it.file_flags_mask,
            file_flags: it.file_flags,
            file_os: it.file_os,
            file_type: it.file_type,
            file_subtype: it.file_subtype,
            file_date_ms: it.file_date_ms,
            file_date_ls: it.file_date_ls,
        }
    }
}

/// Declares the texts that version information may have, each by its number in the library.
macro_rules! version_texts {
    ($($name:ident = $number:literal: $key:literal),* $(,)?) => {
        /// Texts of the version information: of each key the first value, whatever its language. They are looked for when they are
        /// asked for: the errors of all strings came with the fixed file information.
        #[derive(Copy, Clone)]
        pub struct StringFileInfo<'a> {
            bytes: &'a [u8],
            content: sys::Range,
        }

        impl StringFileInfo<'_> {
            fn text(&self, number: u32) -> Option<String> {
                let found = raw::version_text_in(self.bytes, &self.content, number).ok()??;
                to_utf16_string(raw::slice(self.bytes, found).ok()?)
            }

            $(
                #[doc = concat!("The text with the key `", $key, "`, or `None` without one and where it is no text.")]
                pub fn $name(&self) -> Option<String> {
                    self.text($number)
                }
            )*
        }

        impl fmt::Debug for StringFileInfo<'_> {
            fn fmt(&self, f: &mut fmt::Formatter<'_>) -> fmt::Result {
                f.debug_struct("StringFileInfo")
                    $(.field(stringify!($name), &format_args!("{:?}", self.$name())))*
                    .finish()
            }
        }
    };
}

version_texts! {
    comments = 0: "Comments",
    company_name = 1: "CompanyName",
    file_description = 2: "FileDescription",
    file_version = 3: "FileVersion",
    internal_name = 4: "InternalName",
    legal_copyright = 5: "LegalCopyright",
    legal_trademarks = 6: "LegalTrademarks",
    original_filename = 7: "OriginalFilename",
    private_build = 8: "PrivateBuild",
    product_name = 9: "ProductName",
    product_version = 10: "ProductVersion",
    special_build = 11: "SpecialBuild",
}

/// Version information.
#[derive(Copy, Clone)]
pub struct VersionInfo<'a> {
    data: &'a [u8],
    /// Versions, type and flags as numbers.
    pub fixed_info: Option<VsFixedFileInfo>,
    /// Texts.
    pub string_info: StringFileInfo<'a>,
}

impl fmt::Debug for VersionInfo<'_> {
    fn fmt(&self, f: &mut fmt::Formatter<'_>) -> fmt::Result {
        f.debug_struct("VersionInfo")
            .field("data", &format_args!("{:02x?} ({} bytes)", self.data, self.data.len()))
            .field("fixed_info", &self.fixed_info)
            .field("string_info", &self.string_info)
            .finish()
    }
}

impl<'a> VersionInfo<'a> {
    /// The version information below entries of the first directory, or `None` without it. `pe` is the file, and `bytes` the
    /// tree. Errors: those of [`ResourceEntry::recursive_next_depth`]; `Malformed` where the content is unmapped or truncated,
    /// or no version information.
    pub fn parse(
        pe: &'a [u8],
        bytes: &'a [u8],
        it: ResourceEntryIterator<'a>,
        sections: &[SectionTable],
        file_alignment: u32,
        opts: &ParseOptions,
    ) -> error::Result<Option<Self>> {
        let info = raw::image_with(Index::Resource, DataDirectory::default(), file_alignment, opts);
        let sections = raw::sections_of(sections)?;
        let view = View::of(pe, &info, &sections);
        let Some(entry) = it.find_by_id(RT_VERSION)? else { return Ok(None) };
        let content = entry.content(view, bytes, "RT_VERSION")?;
        content.map(|content| Self::of(pe, content)).transpose()
    }

    /// Of the content of a resource, which is a range of the bytes.
    fn of(bytes: &'a [u8], content: sys::Range) -> error::Result<Self> {
        Ok(VersionInfo {
            data: raw::slice(bytes, content)?,
            fixed_info: raw::fixed_version_in(bytes, &content)?.map(VsFixedFileInfo::from),
            string_info: StringFileInfo { bytes, content },
        })
    }
}

/// The manifest: XML that says what the image needs of Windows.
#[derive(Copy, Clone, Default)]
pub struct ManifestData<'a> {
    /// The XML.
    pub data: &'a [u8],
}

impl fmt::Debug for ManifestData<'_> {
    fn fmt(&self, f: &mut fmt::Formatter<'_>) -> fmt::Result {
        f.debug_struct("ManifestData").field("value", &format_args!("{:02x?}", self.data)).finish()
    }
}

impl<'a> ManifestData<'a> {
    /// The manifest below entries of the first directory, or `None` without it. `pe` is the file, and `bytes` the tree. Errors:
    /// those of [`ResourceEntry::recursive_next_depth`]; `Malformed` where the content is unmapped or truncated.
    pub fn parse(
        pe: &'a [u8],
        bytes: &'a [u8],
        it: ResourceEntryIterator<'a>,
        sections: &[SectionTable],
        file_alignment: u32,
        opts: &ParseOptions,
    ) -> error::Result<Option<Self>> {
        let info = raw::image_with(Index::Resource, DataDirectory::default(), file_alignment, opts);
        let sections = raw::sections_of(sections)?;
        let view = View::of(pe, &info, &sections);
        let Some(entry) = it.find_by_id(RT_MANIFEST)? else { return Ok(None) };
        let content = entry.content(view, bytes, "RT_MANIFEST")?;
        content.map(|content| Ok(ManifestData { data: raw::slice(pe, content)? })).transpose()
    }
}
