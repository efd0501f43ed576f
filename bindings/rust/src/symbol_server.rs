//! Where a symbol server has an image and its PDB. The path is the file's name, an identifier and the name again: of a
//! PDB the GUID and the age of the image's CodeView record, of one before PDB 7.0 the time stamp and the age, of an image
//! its time stamp and its size in memory. See
//! [Microsoft's page](https://learn.microsoft.com/windows/win32/debug/using-symsrv). A symbolizer joins it to the server's
//! URL, or to the folder of its own store.

use crate::debug::{Pdb20, SymbolKey};
use crate::shown;
use crate::sys::{self, ImageInfo};
use core::fmt;

/// A GUID, as the bytes of a file have it: little-endian u32, u16, u16, then 8 bytes.
///
/// `Display` writes it as Windows does (`StringFromGUID2`): in braces, with hyphens, in upper-case hexadecimal.
///
/// ```
/// let guid = pe_c::Guid(*b"\xF6\x72\x7B\x49\x0A\x39\xFC\x44\x87\x8E\x5A\x2D\x63\xB6\xCC\x4B");
/// assert_eq!(guid.to_string(), "{497B72F6-390A-44FC-878E-5A2D63B6CC4B}");
/// ```
#[derive(Clone, Copy, Default, PartialEq, Eq, Hash)]
pub struct Guid(pub [u8; 16]);

impl Guid {
    /// How a GUID is written: with hyphens, or as on a symbol server.
    pub(crate) const HYPHENS: u32 = 0;
    pub(crate) const DIGITS: u32 = 1;

    /// Writes the 32 digits, with hyphens or without them.
    pub(crate) fn write(&self, f: &mut fmt::Formatter<'_>, form: u32) -> fmt::Result {
        let (mut room, mut written) = ([0; 37], 0);
        // SAFETY: the pointers and lengths are those of two arrays, which do not overlap and are lent for the call, as `written` is.
        let number = unsafe {
            let (guid, room) = (&self.0, &mut room);
            sys::pe_c_guid_text(guid.as_ptr(), guid.len(), form, room.as_mut_ptr(), room.len(), &mut written)
        };
        let text = room.get(..written as usize).filter(|_| number == sys::DONE).unwrap_or_default();
        f.write_str(core::str::from_utf8(text).unwrap_or_default())
    }
}

impl fmt::Debug for Guid {
    fn fmt(&self, f: &mut fmt::Formatter<'_>) -> fmt::Result {
        write!(f, "Guid({self})")
    }
}

impl fmt::Display for Guid {
    fn fmt(&self, f: &mut fmt::Formatter<'_>) -> fmt::Result {
        f.write_str("{")?;
        self.write(f, Guid::HYPHENS)?;
        f.write_str("}")
    }
}

/// What identifies a file beside its name.
#[derive(Clone, Copy, Debug, PartialEq, Eq, Hash)]
enum Identifier {
    Pdb { guid: Guid, age: u32 },
    Pdb20 { signature: u32, age: u32 },
    Image { time_date_stamp: u32, size_of_image: u32 },
}

/// The path of a file on a symbol server, which `Display` writes: the file's name, its identifier and the name again, with
/// slashes. Both names are one component of a path, whatever the image says.
///
/// The case of the letters is that of the name. Servers ignore the case; a store in a folder of a file system that does
/// not needs one case for all.
#[derive(Clone, Copy, PartialEq, Eq, Hash)]
pub struct SymbolPath<'a> {
    name: &'a str,
    identifier: Identifier,
}

impl fmt::Debug for SymbolPath<'_> {
    fn fmt(&self, f: &mut fmt::Formatter<'_>) -> fmt::Result {
        let (name, identifier) = (shown::Text(self.name.as_bytes()), &self.identifier);
        f.debug_struct("SymbolPath").field("name", &name).field("identifier", identifier).finish()
    }
}

impl<'a> SymbolPath<'a> {
    /// The file's name, the last part of the path.
    pub fn name(&self) -> &'a str {
        self.name
    }
}

impl fmt::Display for SymbolPath<'_> {
    fn fmt(&self, f: &mut fmt::Formatter<'_>) -> fmt::Result {
        write!(f, "{}/", self.name)?;
        match self.identifier {
            Identifier::Pdb { guid, age } => {
                guid.write(f, Guid::DIGITS)?;
                write!(f, "{age:X}")?;
            }
            Identifier::Pdb20 { signature, age } => write!(f, "{signature:08X}{age:X}")?,
            Identifier::Image { time_date_stamp, size_of_image } => {
                write!(f, "{time_date_stamp:08X}{size_of_image:x}")?;
            }
        }
        write!(f, "/{}", self.name)
    }
}

/// Characters that no file of Windows has in its name, beside control characters and the separators `\` and `/`.
const RESERVED: [char; 7] = ['<', '>', ':', '"', '|', '?', '*'];

/// The last component of a path of Windows or Unix, if it can be the name of a file: not `.`, `..` or another text of dots
/// and spaces alone, and without reserved characters.
fn file_name(path: &str) -> Option<&str> {
    let name = path.rsplit(['\\', '/']).next()?;
    let is_named = name.chars().any(|it| it != '.' && it != ' ');
    let is_reserved = name.chars().any(|it| it.is_control() || RESERVED.contains(&it));
    (is_named && !is_reserved).then_some(name)
}

impl<'a> SymbolKey<'a> {
    /// The path of the PDB: its name, the GUID's 32 digits in upper-case hexadecimal with the age, in hexadecimal without
    /// leading zeros, and the name again.
    ///
    /// Of a name that is a path, such as `C:\build\a.pdb` or `../../a.pdb`, it is the last component. `None` where that is
    /// empty, of dots and spaces alone, not UTF-8, or has a control character or one of `< > : " | ? *`.
    ///
    /// ```
    /// let record = b"RSDS\xF6\x72\x7B\x49\x0A\x39\xFC\x44\x87\x8E\x5A\x2D\x63\xB6\xCC\x4B\x01\0\0\0C:\\build\\Foo.pdb\0";
    /// let key = pe_c::SymbolKey::of_record(record)?.expect("it is one of PDB 7.0");
    /// let path = key.path().expect("the name is that of a file");
    /// assert_eq!(path.to_string(), "Foo.pdb/497B72F6390A44FC878E5A2D63B6CC4B1/Foo.pdb");
    /// # Ok::<(), pe_c::Error>(())
    /// ```
    pub fn path(&self) -> Option<SymbolPath<'a>> {
        let name = file_name(core::str::from_utf8(self.name()).ok()?)?;
        Some(SymbolPath { name, identifier: Identifier::Pdb { guid: self.guid, age: self.age } })
    }
}

impl<'a> Pdb20<'a> {
    /// The path of the PDB: its name, its time stamp as eight digits with the age, without leading zeros, both in upper-case
    /// hexadecimal, and the name again.
    ///
    /// Of a name that is a path it is the last component. `None` where that is no name, as for [`SymbolKey::path`].
    ///
    /// ```
    /// # #[path = "../tests/made/mod.rs"] mod made;
    /// # let bytes = made::with_old_debug();
    /// use pe_c::{Image, Mode};
    ///
    /// let image = Image::parse(&bytes, Mode::Permissive)?;
    /// let record = image.pdb20()?.expect("the image has a record of PDB 2.0");
    /// assert_eq!((record.name(), record.signature, record.age), (b"b.pdb".as_slice(), 0x3333, 7));
    /// let path = record.path().expect("the name is that of a file");
    /// assert_eq!(path.to_string(), "b.pdb/000033337/b.pdb");
    /// # Ok::<(), pe_c::Error>(())
    /// ```
    pub fn path(&self) -> Option<SymbolPath<'a>> {
        let name = file_name(core::str::from_utf8(self.name()).ok()?)?;
        Some(SymbolPath { name, identifier: Identifier::Pdb20 { signature: self.signature, age: self.age } })
    }
}

impl ImageInfo {
    /// The path of the image itself: a name, its time stamp as eight digits in upper-case hexadecimal with the size of the
    /// image in lower case without leading zeros, and the name again.
    ///
    /// An image does not say its name: the caller passes it, as a minidump has one of each module. Of a path it is the last
    /// component. `None` where that is no name, as for [`SymbolKey::path`], or without an optional header.
    ///
    /// ```
    /// let image = pe_c::sys::ImageInfo { width: 32, time_date_stamp: 0x542D_574E, size_of_image: 0xC_2000, ..Default::default() };
    /// let path = image.symbol_path("C:\\Windows\\Foo.exe").expect("the name is that of a file");
    /// assert_eq!(path.to_string(), "Foo.exe/542D574Ec2000/Foo.exe");
    /// ```
    pub fn symbol_path<'n>(&self, name: &'n str) -> Option<SymbolPath<'n>> {
        let (time_date_stamp, size_of_image) = (self.time_date_stamp, self.size_of_image);
        let name = file_name(name).filter(|_| self.width != 0)?;
        Some(SymbolPath { name, identifier: Identifier::Image { time_date_stamp, size_of_image } })
    }
}
