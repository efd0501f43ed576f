//! Resources are a tree of directories: type, name, language. Version information is the first resource of type 16
//! (`RT_VERSION`): versions as numbers, and strings such as the product's name. The manifest is the first of type 24
//! (`RT_MANIFEST`), an XML text. See
//! [Microsoft's page](https://learn.microsoft.com/windows/win32/menurc/vs-versioninfo).

use crate::image::{bytes_of, Error, Image};
use crate::resources::alone;
use crate::shown;
use crate::sys;
use alloc::string::String;
use core::fmt;

/// The fixed file information: versions, file type and flags as numbers.
pub type FixedVersion = sys::Version;

/// The four numbers of a version, of which each half has two.
fn numbers_of(high: u32, low: u32) -> [u16; 4] {
    [(high >> 16) as u16, high as u16, (low >> 16) as u16, low as u16]
}

impl sys::Version {
    /// The file's version, its four numbers in their order.
    ///
    /// ```
    /// # #[path = "../tests/made/mod.rs"] mod made;
    /// # let bytes = made::with_resources();
    /// use pe_c::{Image, Mode};
    ///
    /// let image = Image::parse(&bytes, Mode::Permissive)?;
    /// let version = image.version()?.expect("the image has version information");
    /// assert_eq!(version.file_version(), [3, 11, 3150, 1013]);
    /// assert_eq!(version.product_version(), [1, 2, 3, 4]);
    /// # Ok::<(), pe_c::Error>(())
    /// ```
    pub fn file_version(&self) -> [u16; 4] {
        numbers_of(self.file_version_ms, self.file_version_ls)
    }

    /// The product's version, its four numbers in their order.
    pub fn product_version(&self) -> [u16; 4] {
        numbers_of(self.product_version_ms, self.product_version_ls)
    }
}

/// The name of a version string. Microsoft's page on
/// [StringFileInfo](https://learn.microsoft.com/windows/win32/menurc/stringfileinfo-block) says what each is for.
///
/// ```
/// # #[path = "../tests/made/mod.rs"] mod made;
/// # let bytes = made::with_resources();
/// use pe_c::{Image, Mode, VersionName};
///
/// let image = Image::parse(&bytes, Mode::Permissive)?;
/// for name in VersionName::ALL {
///     if let Some(text) = image.version_text(name)? {
///         println!("{name:?}: {text}");
///     }
/// }
/// # Ok::<(), pe_c::Error>(())
/// ```
#[derive(Clone, Copy, Debug, PartialEq, Eq, Hash)]
#[non_exhaustive]
pub enum VersionName {
    /// Remarks for diagnosis.
    Comments,
    /// The company that made the file.
    CompanyName,
    /// What the file is, for users.
    FileDescription,
    /// The file's version, as a text.
    FileVersion,
    /// The file's internal name, such as a module name.
    InternalName,
    /// Copyright notices.
    LegalCopyright,
    /// Trademarks.
    LegalTrademarks,
    /// The file's original name, without a path.
    OriginalFilename,
    /// What a private build is for.
    PrivateBuild,
    /// The product that the file belongs to.
    ProductName,
    /// The product's version, as a text.
    ProductVersion,
    /// How a special build differs from the standard one.
    SpecialBuild,
}

impl VersionName {
    /// All twelve, in the order of their numbers in `pe.h`.
    pub const ALL: [VersionName; 12] = [
        VersionName::Comments,
        VersionName::CompanyName,
        VersionName::FileDescription,
        VersionName::FileVersion,
        VersionName::InternalName,
        VersionName::LegalCopyright,
        VersionName::LegalTrademarks,
        VersionName::OriginalFilename,
        VersionName::PrivateBuild,
        VersionName::ProductName,
        VersionName::ProductVersion,
        VersionName::SpecialBuild,
    ];
}

/// A text in UTF-16, little-endian. It ends at the first zero, and the bytes may go on after that.
///
/// `Display` writes the text, with U+FFFD for an unpaired surrogate.
///
/// ```
/// # #[path = "../tests/made/mod.rs"] mod made;
/// # let bytes = made::with_resources();
/// use pe_c::{Image, Mode, VersionName};
///
/// let image = Image::parse(&bytes, Mode::Permissive)?;
/// let product = image.version_text(VersionName::ProductName)?.expect("the image has this string");
/// assert_eq!(product.to_string_lossy(), "made");
/// # Ok::<(), pe_c::Error>(())
/// ```
#[derive(Clone, Copy, PartialEq, Eq)]
pub struct Text<'a>(pub &'a [u8]);

impl<'a> Text<'a> {
    /// The code units, up to the first zero.
    pub fn units(&self) -> impl Iterator<Item = u16> + Clone + 'a {
        self.0.chunks_exact(2).map(|pair| u16::from_le_bytes([pair[0], pair[1]])).take_while(|unit| *unit != 0)
    }

    /// The characters, with U+FFFD for an unpaired surrogate.
    pub fn characters(&self) -> impl Iterator<Item = char> + 'a {
        char::decode_utf16(self.units()).map(|character| character.unwrap_or(char::REPLACEMENT_CHARACTER))
    }

    /// The text as a string, with U+FFFD for an unpaired surrogate.
    pub fn to_string_lossy(&self) -> String {
        self.characters().collect()
    }
}

impl fmt::Debug for Text<'_> {
    fn fmt(&self, f: &mut fmt::Formatter<'_>) -> fmt::Result {
        f.debug_tuple("Text").field(&shown::Utf16(self.units())).finish()
    }
}

impl fmt::Display for Text<'_> {
    fn fmt(&self, f: &mut fmt::Formatter<'_>) -> fmt::Result {
        self.characters().try_for_each(|character| fmt::Write::write_char(f, character))
    }
}

/// # Version information and manifest
///
/// The methods return `None` without resources or without one of the type. Damaged version information is no error of
/// the manifest, nor the reverse. They share these errors; the last two items are of version information:
///
/// - the root directory: [`Error::UNMAPPED`], [`Error::SHORT`]; [`Error::RESOURCE_BOUNDS`] where the data that the data
///   directory names ends past the end of the file, and in strict mode where the root or its entries are not all inside
///   the data;
/// - the way to the resource: [`Error::SHORT`], [`Error::RESOURCE_CYCLE`];
/// - its content: [`Error::SHORT`], [`Error::UNMAPPED`], [`Error::RESOURCE_BOUNDS`];
/// - the version strings: [`Error::SHORT`], [`Error::RESOURCE_STRING`];
/// - the fixed file information: [`Error::SHORT`].
impl<'a> Image<'a> {
    /// The fixed file information, or `None` also where version information has none. A damaged version string is an error of it, but
    /// not of [`Image::fixed_version`].
    ///
    /// # Errors
    ///
    /// Those of [version information](#version-information-and-manifest).
    pub fn version(&self) -> Result<Option<FixedVersion>, Error> {
        self.ask(sys::pe_c_fixed_version)
    }

    /// The same, where a damaged version string after it is no error. The strings that can be read are [`Image::version_blocks`].
    ///
    /// # Errors
    ///
    /// Those of [`Image::version`], where the fixed file information cannot be read either.
    pub fn fixed_version(&self) -> Result<Option<FixedVersion>, Error> {
        self.version().or_else(|error| {
            let content = self.ask(sys::pe_c_version_blocks).ok().flatten().unwrap_or_default();
            alone(self.bytes(), content).ok_or(error).map(Some)
        })
    }

    /// The value of a version string, or `None` also without a string of that name. Of several strings, as of several
    /// languages, it is the first.
    ///
    /// # Errors
    ///
    /// Those of [version information](#version-information-and-manifest).
    pub fn version_text(&self, name: VersionName) -> Result<Option<Text<'a>>, Error> {
        let Some(range) = self.ask_with(sys::pe_c_version_text, name as u32)? else {
            return Ok(None);
        };
        Ok(Some(Text(bytes_of(range, self.bytes())?)))
    }

    /// The manifest: the bytes of an XML text.
    ///
    /// # Errors
    ///
    /// Those of the [manifest](#version-information-and-manifest), the first three items.
    pub fn manifest(&self) -> Result<Option<&'a [u8]>, Error> {
        let Some(range) = self.ask(sys::pe_c_manifest)? else {
            return Ok(None);
        };
        Ok(Some(bytes_of(range, self.bytes())?))
    }
}
