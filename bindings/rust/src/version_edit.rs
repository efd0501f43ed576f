//! Version information as a value: read, changed and written. See Microsoft's
//! [VS_VERSIONINFO](https://learn.microsoft.com/windows/win32/menurc/vs-versioninfo). It is a tree of blocks: the fixed file
//! information, string tables by language and code page, and translations.

use crate::image::Error;
use crate::shown;
use crate::signing::file_of;
use crate::sys;
use crate::version::Text;
use crate::version_blocks::{VersionBlock, VersionBlocks};
use alloc::string::String;
use alloc::vec::Vec;
use core::fmt;

/// The blocks below the first one: what it contains, the tables in that, the strings in those.
const LEVELS: usize = 3;
/// `VS_FIXEDFILEINFO`: its size, its signature and the version of its form.
const SIZE_OF_FIXED: usize = 52;
const SIGNATURE: [u8; 8] = [0xBD, 0x04, 0xEF, 0xFE, 0, 0, 1, 0];
/// Where it has the version of the file, that of the product,
const FILE_VERSION: usize = 8;
const PRODUCT_VERSION: usize = 16;
/// and the system of the file, before its type.
const FILE_OS: usize = 32;
/// UTF-16, the code page of the texts of new version information.
const UNICODE: u16 = 1200;

/// A block.
#[derive(Clone, PartialEq, Eq)]
struct Block {
    key: Vec<u8>,
    is_text: bool,
    value: Vec<u8>,
    children: Vec<Block>,
    /// The bytes of the blocks in it, where these are below the levels that are read.
    inner: Vec<u8>,
}

impl fmt::Debug for Block {
    fn fmt(&self, f: &mut fmt::Formatter<'_>) -> fmt::Result {
        let (value, children) = (shown::Bytes(&self.value), shown::Items(self.children.len()));
        let mut shown = f.debug_struct("Block");
        shown.field("key", &Text(&self.key)).field("is_text", &self.is_text).field("value", &value);
        shown.field("children", &children).finish()
    }
}

fn units_of(text: &str) -> Vec<u8> {
    text.encode_utf16().flat_map(u16::to_le_bytes).collect()
}

/// A text up to the first zero.
fn text_of(units: &[u8]) -> String {
    let units: Vec<u16> = units.chunks_exact(2).map(|it| u16::from_le_bytes([it[0], it[1]])).collect();
    String::from_utf16_lossy(units.split(|it| *it == 0).next().unwrap_or_default())
}

impl Block {
    fn new(key: &str, is_text: bool, value: Vec<u8>, children: Vec<Block>) -> Self {
        Block { key: units_of(key), is_text, value, children, inner: Vec::new() }
    }

    fn of(block: &VersionBlock<'_>, levels: usize) -> Result<Self, Error> {
        let (mut children, mut inner) = (Vec::new(), Vec::new());
        if levels > 0 {
            for child in block.children() {
                children.push(Block::of(&child?, levels - 1)?);
            }
        } else {
            inner.extend(block.inner());
        }
        let (key, value) = (block.key.0.to_vec(), block.value.to_vec());
        Ok(Block { key, is_text: block.is_text, value, children, inner })
    }

    fn is(&self, key: &str) -> bool {
        self.key == units_of(key)
    }

    /// Whether Windows finds it by this name: in ASCII letters without regard to their case.
    fn is_named(&self, name: &[u8]) -> bool {
        let lower = |it: &[u8]| if it[1] == 0 { [it[0].to_ascii_lowercase(), 0] } else { [it[0], it[1]] };
        self.key.chunks_exact(2).map(lower).eq(name.chunks_exact(2).map(lower))
    }

    /// Whether it has the tables of strings, as Windows finds it.
    fn has_tables(&self) -> bool {
        self.is_named(&units_of("StringFileInfo"))
    }

    /// Whether it has this key and no value, as a block of others.
    fn is_parent(&self, key: &str) -> bool {
        self.is(key) && self.is_text && self.value.is_empty()
    }

    /// Its bytes, at the end of the given ones.
    fn write(&self, out: &mut Vec<u8>) -> Result<(), Error> {
        let mut children = self.inner.clone();
        for child in &self.children {
            child.write(&mut children)?;
        }
        let is_text = u32::from(self.is_text);
        let block = file_of(|room, written| {
            // SAFETY: each pointer and length are those of one slice; the room is apart from the others.
            unsafe {
                sys::pe_c_write_block(
                    self.key.as_ptr(),
                    self.key.len(),
                    is_text,
                    self.value.as_ptr(),
                    self.value.len(),
                    children.as_ptr(),
                    children.len(),
                    room.as_mut_ptr(),
                    room.len(),
                    written,
                )
            }
        })?;
        out.extend_from_slice(&block);
        Ok(())
    }
}

/// Version information as the records that [`pe_c_write_version`](sys::pe_c_write_version) takes.
#[derive(Default)]
struct Records {
    fixed: sys::Version,
    tables: Vec<sys::VersionTable>,
    strings: Vec<sys::VersionString>,
    translations: Vec<sys::VersionLanguage>,
    texts: Vec<u8>,
}

/// Numbers of four bytes.
fn numbers_of(bytes: &[u8]) -> impl Iterator<Item = u32> + '_ {
    bytes.chunks_exact(4).map(|it| u32::from_le_bytes([it[0], it[1], it[2], it[3]]))
}

/// A language and a code page in one number: the language in the low half.
fn language_of(number: u32) -> sys::VersionLanguage {
    sys::VersionLanguage { language: number as u16, code_page: (number >> 16) as u16 }
}

/// The numbers of a value of 52 bytes.
fn fixed_of(value: &[u8]) -> Option<sys::Version> {
    let numbers: Vec<u32> = numbers_of(value).collect();
    let Ok(
        [signature, struct_version, file_version_ms, file_version_ls, product_version_ms, product_version_ls, file_flags_mask, file_flags, file_os, file_type, file_subtype, file_date_ms, file_date_ls],
    ) = <[u32; SIZE_OF_FIXED / 4]>::try_from(numbers)
    else {
        return None;
    };
    Some(sys::Version {
        signature,
        struct_version,
        file_version_ms,
        file_version_ls,
        product_version_ms,
        product_version_ls,
        file_flags_mask,
        file_flags,
        file_os,
        file_type,
        file_subtype,
        file_date_ms,
        file_date_ls,
    })
}

impl Records {
    /// The records that are written as these blocks; `None` where there are others than those of a value, which are written
    /// block by block.
    fn of(root: &Block) -> Option<Self> {
        let [strings, variables] = &root.children[..] else { return None };
        let [translation] = &variables.children[..] else { return None };
        let is_whole = root.is("VS_VERSION_INFO")
            && !root.is_text
            && root.value.len() == SIZE_OF_FIXED
            && strings.is_parent("StringFileInfo")
            && variables.is_parent("VarFileInfo")
            && translation.is("Translation")
            && !translation.is_text
            && translation.value.len() % 4 == 0
            && translation.children.is_empty();
        if !is_whole {
            return None;
        }
        let translations = numbers_of(&translation.value).map(language_of).collect();
        let mut records = Records { fixed: fixed_of(&root.value)?, translations, ..Records::default() };
        for table in &strings.children {
            records.add_table(table)?;
        }
        Some(records)
    }

    fn add_table(&mut self, table: &Block) -> Option<()> {
        let number = u32::from_str_radix(&text_of(&table.key), 16).ok()?;
        if !table.is_parent(&alloc::format!("{number:08X}")) {
            return None;
        }
        let first = u32::try_from(self.strings.len()).ok()?;
        for string in &table.children {
            if !string.is_text || !string.inner.is_empty() {
                return None;
            }
            let record = sys::VersionString { name: self.range(&string.key), text: self.range(&string.value) };
            self.strings.push(record);
        }
        let count = u32::try_from(table.children.len()).ok()?;
        self.tables.push(sys::VersionTable { first, count, language: language_of(number.rotate_left(16)) });
        Some(())
    }

    fn range(&mut self, part: &[u8]) -> sys::Range {
        let offset = self.texts.len() as u64;
        self.texts.extend_from_slice(part);
        sys::Range { offset, length: part.len() as u64 }
    }

    fn write(&self) -> Result<Vec<u8>, Error> {
        file_of(|room, written| {
            // SAFETY: each pointer and length are those of one slice; the room is apart from the others.
            unsafe {
                sys::pe_c_write_version(
                    &self.fixed,
                    self.tables.as_ptr(),
                    self.tables.len(),
                    self.strings.as_ptr(),
                    self.strings.len(),
                    self.translations.as_ptr(),
                    self.translations.len(),
                    self.texts.as_ptr(),
                    self.texts.len(),
                    room.as_mut_ptr(),
                    room.len(),
                    written,
                )
            }
        })
    }
}

/// Version information as a value.
///
/// ```
/// use pe_c::VersionInfo;
///
/// let mut version = VersionInfo::new(0x409);
/// version.set_file_version([1, 2, 3, 4]);
/// version.set_string("CompanyName", "Example")?;
/// let content = version.to_bytes()?;
/// let read = VersionInfo::of(&content)?.unwrap();
/// assert_eq!(read.string("CompanyName").as_deref(), Some("Example"));
/// assert_eq!(read.file_version(), Some([1, 2, 3, 4]));
/// # Ok::<(), pe_c::Error>(())
/// ```
#[derive(Clone, Debug, PartialEq, Eq)]
pub struct VersionInfo {
    root: Block,
}

impl VersionInfo {
    /// Version information without strings: the version 0.0.0.0, and a table and a translation of a language, with UTF-16.
    pub fn new(language: u16) -> Self {
        let mut fixed = SIGNATURE.to_vec();
        fixed.resize(SIZE_OF_FIXED, 0);
        let table = Block::new(&alloc::format!("{language:04X}{UNICODE:04X}"), true, Vec::new(), Vec::new());
        let pair = [language.to_le_bytes(), UNICODE.to_le_bytes()].concat();
        let translation = Block::new("Translation", false, pair, Vec::new());
        let strings = Block::new("StringFileInfo", true, Vec::new(), [table].into());
        let others = Block::new("VarFileInfo", true, Vec::new(), [translation].into());
        VersionInfo { root: Block::new("VS_VERSION_INFO", false, fixed, [strings, others].into()) }
    }

    /// The version information in the content of a resource of type `RT_VERSION`; `None` where it has no block. All blocks in the first
    /// one are kept, also those that no reader knows.
    ///
    /// # Errors
    ///
    /// Those of the items of [`VersionBlocks`].
    pub fn of(content: &[u8]) -> Result<Option<Self>, Error> {
        let first = VersionBlocks::of(content).next();
        first.map(|it| Ok(VersionInfo { root: Block::of(&it?, LEVELS)? })).transpose()
    }

    fn number(&self, at: usize) -> Option<[u16; 4]> {
        let part = self.root.value.get(at..at + 8)?;
        let words: Vec<u16> = part.chunks_exact(2).map(|it| u16::from_le_bytes([it[0], it[1]])).collect();
        Some([words[1], words[0], words[3], words[2]])
    }

    fn set_number(&mut self, at: usize, [first, second, third, fourth]: [u16; 4]) {
        if self.root.value.len() < SIZE_OF_FIXED {
            self.root.value = SIGNATURE.to_vec();
            self.root.value.resize(SIZE_OF_FIXED, 0);
        }
        let words = [second, first, fourth, third].map(u16::to_le_bytes);
        self.root.value[at..at + 8].copy_from_slice(words.as_flattened());
    }

    /// The version of the file, by the fixed file information.
    pub fn file_version(&self) -> Option<[u16; 4]> {
        self.number(FILE_VERSION)
    }

    /// That of the product.
    pub fn product_version(&self) -> Option<[u16; 4]> {
        self.number(PRODUCT_VERSION)
    }

    /// Sets the version of the file in the fixed file information, which is made where there is none. The string `FileVersion` is
    /// another text.
    pub fn set_file_version(&mut self, version: [u16; 4]) {
        self.set_number(FILE_VERSION, version);
    }

    /// The same of the product.
    pub fn set_product_version(&mut self, version: [u16; 4]) {
        self.set_number(PRODUCT_VERSION, version);
    }

    /// Sets for which system the file is and what it is, `dwFileOS` and `dwFileType`: `VOS_NT_WINDOWS32`, 0x40004, and `VFT_APP`, 1, or
    /// `VFT_DLL`, 2. Of new version information both are 0, unknown.
    pub fn set_file_type(&mut self, file_os: u32, file_type: u32) {
        let [os, kind] = [file_os, file_type].map(|it| [it as u16, (it >> 16) as u16]);
        self.set_number(FILE_OS, [os[1], os[0], kind[1], kind[0]]);
    }

    fn tables(&self) -> impl Iterator<Item = &Block> {
        self.root.children.iter().filter(|it| it.has_tables()).flat_map(|it| &it.children)
    }

    /// A string, of the first table that has it. Names are compared as Windows does, in ASCII letters without regard to case.
    pub fn string(&self, name: &str) -> Option<String> {
        let name = units_of(name);
        let found = self.tables().flat_map(|it| &it.children).find(|it| it.is_named(&name))?;
        Some(text_of(&found.value))
    }

    /// All strings: of each the language and code page of its table in hexadecimal digits, its name and its text.
    pub fn strings(&self) -> impl Iterator<Item = (String, String, String)> + '_ {
        let of_table = |table: &'_ Block| {
            let language = text_of(&table.key);
            let strings: Vec<_> =
                table.children.iter().map(|it| (language.clone(), text_of(&it.key), text_of(&it.value))).collect();
            strings
        };
        self.tables().flat_map(of_table)
    }

    /// Sets a string in each table; all others stay as they are, and so does the case of a name that is there: `companyname` sets
    /// `CompanyName`. Returns how many tables there are: where it is 0, nothing is set.
    ///
    /// # Errors
    ///
    /// [`Error::BLOCK_KEY`], [`Error::BLOCK_TEXT`] where the name or the text has a zero, which would end it.
    pub fn set_string(&mut self, name: &str, text: &str) -> Result<usize, Error> {
        if name.contains('\0') {
            return Err(Error::BLOCK_KEY);
        }
        if text.contains('\0') {
            return Err(Error::BLOCK_TEXT);
        }
        let (key, mut value, mut count) = (units_of(name), units_of(text), 0);
        value.extend([0, 0]);
        let infos = self.root.children.iter_mut().filter(|it| it.has_tables());
        for table in infos.flat_map(|it| &mut it.children) {
            count += 1;
            let there = table.children.iter_mut().filter(|it| it.is_named(&key));
            if there.map(|it| (it.is_text, it.value) = (true, value.clone())).count() == 0 {
                table.children.push(Block::new(name, true, value.clone(), Vec::new()));
            }
        }
        Ok(count)
    }

    /// Adds an empty table of strings, in a language and UTF-16.
    pub fn add_table(&mut self, language: u16) {
        let table = Block::new(&alloc::format!("{language:04X}{UNICODE:04X}"), true, Vec::new(), Vec::new());
        match self.root.children.iter_mut().find(|it| it.has_tables()) {
            Some(info) => info.children.push(table),
            None => self.root.children.insert(0, Block::new("StringFileInfo", true, Vec::new(), [table].into())),
        }
    }

    /// The content of a resource of type `RT_VERSION`.
    ///
    /// # Errors
    ///
    /// [`Error::BLOCK_TOO_LONG`] where a block has more than 65,535 bytes; [`Error::BLOCK_TEXT`] where a text that was read has an
    /// odd number of bytes; [`Error::MEMORY`].
    pub fn to_bytes(&self) -> Result<Vec<u8>, Error> {
        if let Some(records) = Records::of(&self.root) {
            return records.write();
        }
        let mut out = Vec::new();
        self.root.write(&mut out)?;
        Ok(out)
    }
}
