//! An image: its headers and sections, the mode and the layout in which it is read, and errors.
//!
//! An image starts with the DOS header, whose last field is the file offset of the PE header. That has the COFF header,
//! the optional header with the data directories, and the section headers, which map RVAs to file offsets. The layouts are
//! those of Microsoft's [PE Format](https://learn.microsoft.com/windows/win32/debug/pe-format). Most calls of the
//! library are made here and in `walk`.

use crate::shown;
use crate::sys::{self, Directory, Headers, ImageInfo, RangeEntry, Section};
use alloc::vec::Vec;
use core::fmt;

/// How damaged headers and directories are read.
#[derive(Clone, Copy, Debug, PartialEq, Eq, Hash)]
#[non_exhaustive]
pub enum Mode {
    /// They are errors.
    Strict,
    /// These are accepted:
    /// - a PE header that overlaps the DOS header;
    /// - a debug directory that ends past the end of the file: it is truncated there;
    /// - a CodeView record that is too small: it counts as absent;
    /// - resource data too short for a directory, and resource entries that are not all inside the data: they count as
    ///   absent.
    Permissive,
}

/// What the bytes of an image are.
#[derive(Clone, Copy, Debug, PartialEq, Eq, Hash)]
#[non_exhaustive]
pub enum Layout {
    /// A file: the section headers map RVAs to file offsets.
    File,
    /// A module in memory, or a copy of one as in a minidump, from its first byte on: its sections stand at their RVAs, and
    /// RVAs are offsets. It has no certificates.
    Mapped,
}

/// The library's number for a way to read.
pub(crate) fn number_of(mode: Mode, layout: Layout) -> u32 {
    let mode = match mode {
        Mode::Strict => 0,
        Mode::Permissive => sys::PERMISSIVE,
    };
    mode | match layout {
        Layout::File => 0,
        Layout::Mapped => sys::MAPPED,
    }
}

/// An error, by the library's number, which is stable. `Display` writes the library's text, `Debug` the constant's name.
/// Errors may be added: a match over the constants needs an arm for every other.
///
/// ```
/// use pe_c::{Error, Image, Mode};
///
/// let error = Image::parse(b"MZ", Mode::Strict).unwrap_err();
/// assert_eq!(error, Error::SHORT);
/// assert_eq!(error.number(), 2);
/// assert_eq!(error.to_string(), "truncated");
/// ```
#[derive(Clone, Copy, PartialEq, Eq, Hash)]
pub struct Error(u32);

macro_rules! errors {
    ($($(#[$doc:meta])* $name:ident = $number:literal;)*) => {
        impl Error {
            $($(#[$doc])* pub const $name: Error = Error($number);)*

            /// The name of the constant, or `None` for a number without one.
            pub const fn name(self) -> Option<&'static str> {
                match self.0 {
                    $($number => Some(stringify!($name)),)*
                    _ => None,
                }
            }
        }
    };
}

// Written by tools/make_errors, but for those of steps.
errors! {
    /// Out of memory. Calls that allocate what a file says return it, and name it.
    MEMORY = 1;
    /// Truncated.
    SHORT = 2;
    /// Invalid magic number.
    BAD_MAGIC = 3;
    /// PE header offset lies inside the DOS header. Strict mode only.
    HEADER_POINTER = 4;
    /// Import name not NUL-terminated or not UTF-8.
    IMPORT_NAME = 5;
    /// String table truncated, or string not NUL-terminated or not UTF-8.
    STRING_TABLE = 6;
    /// Invalid certificate revision.
    CERTIFICATE_REVISION = 7;
    /// Invalid certificate type.
    CERTIFICATE_TYPE = 8;
    /// Certificate truncated.
    CERTIFICATE_SIZE = 9;
    /// Certificate table ends past the end of the file.
    CERTIFICATE_TABLE = 10;
    /// RVA maps to no file offset.
    UNMAPPED = 11;
    /// Debug directory ends past the end of the file. Strict mode only.
    DEBUG_BOUNDS = 12;
    /// Debug record too small. Strict mode only.
    DEBUG_SIZE = 13;
    /// Debug record truncated.
    DEBUG_DATA = 14;
    /// POGO record has no entries.
    POGO_SIZE = 15;
    /// POGO entry truncated.
    POGO_NAME = 16;
    /// Exception directory size is not a multiple of the entry size.
    EXCEPTION_SIZE = 17;
    /// Exception directory is not aligned to 4 bytes.
    EXCEPTION_OFFSET = 18;
    /// Exception directory ends past the end of the file.
    EXCEPTION_BOUNDS = 19;
    /// Function index out of range.
    FUNCTION_INDEX = 20;
    /// Link leads to no function entry.
    FUNCTION_LINK = 21;
    /// Loop in unwind links or chained records.
    FUNCTION_CYCLE = 22;
    /// Unknown unwind record version.
    UNWIND_VERSION = 23;
    /// Invalid unwind code.
    UNWIND_CODE = 24;
    /// Unknown ARM64 unwind record version.
    ARM64_VERSION = 25;
    /// Invalid ARM64 unwind code stream.
    ARM64_STREAM = 26;
    /// ARM64 unwind code truncated.
    ARM64_CUT = 27;
    /// Resource data ends past the bytes that hold it.
    RESOURCE_BOUNDS = 28;
    /// Loop in the resource tree.
    RESOURCE_CYCLE = 29;
    /// Version string value missing, or its length above 32,767.
    RESOURCE_STRING = 30;
    /// Stripped size smaller than the TE header.
    TE_SIZE = 31;
    /// Image has no optional header.
    NO_OPTIONAL_HEADER = 32;
    /// Alignment cannot be written.
    WRITE_ALIGNMENT = 33;
    /// Images with COFF symbols cannot be written.
    WRITE_SYMBOLS = 34;
    /// Sections overlap in the file.
    WRITE_OVERLAP = 35;
    /// Section data is not in the source bytes.
    WRITE_SECTION = 36;
    /// Write does not fit the buffer.
    WRITE_FIT = 37;
    /// Image has no certificate directory.
    SIGN_NO_DIRECTORY = 201;
    /// Certificate table ends before the end of the file.
    SIGN_TABLE_NOT_LAST = 202;
    /// Headers end after the start of the certificates or the end of the file.
    SIGN_HEADERS = 203;
    /// Section data ends after the start of the certificates or the end of the file.
    SIGN_SECTION = 204;
    /// Certificate table is not aligned to 8 bytes.
    SIGN_TABLE_OFFSET = 205;
    /// Image with the certificate has 2^32 bytes or more.
    SIGN_TOO_LARGE = 206;
    /// Base relocation block size below 8 or odd.
    DIRECTORY_BLOCK_SIZE = 301;
    /// Base relocation block truncated.
    DIRECTORY_BLOCK_TRUNCATED = 302;
    /// Base relocation has no argument.
    DIRECTORY_NO_ARGUMENT = 303;
    /// Virtual address below the image base.
    DIRECTORY_VA_BELOW_BASE = 304;
    /// CLR header smaller than 72 bytes.
    DIRECTORY_CLR_HEADER_SIZE = 305;
    /// Name of a metadata stream not NUL-terminated.
    DIRECTORY_STREAM_NAME = 306;
    /// Name of a delay import not NUL-terminated or not UTF-8.
    DIRECTORY_DELAY_IMPORT_NAME = 307;
    /// Name of a bound import not NUL-terminated or not UTF-8.
    DIRECTORY_BOUND_IMPORT_NAME = 308;
    /// Base relocation of a type that is not applied.
    DIRECTORY_RELOCATION_KIND = 309;
    /// Base relocation outside of the image.
    DIRECTORY_RELOCATION_OUTSIDE = 310;
    /// Resource data entry above the level of languages.
    TREE_NOT_DIRECTORY = 401;
    /// Resource directory below the level of languages.
    TREE_NOT_DATA = 402;
    /// Resource directory of names or languages has no entries.
    TREE_NO_ENTRIES = 403;
    /// More than 65,535 resources.
    EDIT_TOO_MANY = 451;
    /// Type or name of a resource has an odd number of bytes or is too long.
    EDIT_NAME = 452;
    /// Resource is not sorted after the one before it.
    EDIT_ORDER = 453;
    /// Directories and names of the resources have 2^31 bytes or more.
    EDIT_TABLES_TOO_LARGE = 454;
    /// Resource section ends at the RVA 2^32 or after it.
    EDIT_TOO_LARGE = 455;
    /// Image has no resource directory.
    EDIT_NO_DIRECTORY = 456;
    /// Image has certificates, which have to be detached first.
    EDIT_SIGNED = 457;
    /// Data directories end after the section table starts.
    EDIT_HEADERS = 458;
    /// Alignment of sections or of their data is too small or no power of two.
    EDIT_ALIGNMENT = 459;
    /// Data of the sections are in the headers, truncated or not aligned.
    EDIT_SECTION = 461;
    /// The entry point, a directory or a base relocation leads where the resources go.
    EDIT_SHARED_SECTION = 462;
    /// COFF symbols lie in the data of the resource section or at its end.
    EDIT_SYMBOLS = 463;
    /// Section shares bytes or pages with the resource section or headers, or is after it.
    EDIT_OVERLAP = 464;
    /// Resource has a range outside of the array, or an id or language above 65,535.
    EDIT_RECORD = 466;
    /// Names of the resources have more than 16 MiB.
    EDIT_NAMES = 467;
    /// Key of a version block has an odd number of bytes, or a code unit of zero.
    BLOCK_KEY = 468;
    /// Text of a version block has an odd number of bytes.
    BLOCK_TEXT = 469;
    /// Version block has more than 65,535 bytes.
    BLOCK_TOO_LONG = 470;
    /// Headers have no room for another section header.
    EDIT_NO_HEADER_ROOM = 471;
    /// Image with the resources ends after 4 GB.
    EDIT_IMAGE_TOO_LARGE = 472;
    /// Debug entries or their data lie where the resources go.
    EDIT_DEBUG_DATA = 473;
    /// Contents of the resources, which share bytes, are too large for their array.
    EDIT_CONTENTS = 474;
    /// Element of a signature truncated before its content.
    SIGNATURE_TRUNCATED = 501;
    /// Element of a signature has a tag number above 30.
    SIGNATURE_TAG_NUMBER = 502;
    /// Element of a signature has an indefinite length.
    SIGNATURE_INDEFINITE_LENGTH = 503;
    /// Length of an element of a signature has more than 4 octets after its first.
    SIGNATURE_LENGTH_OCTETS = 504;
    /// Length of an element of a signature is not in its shortest form.
    SIGNATURE_LENGTH_FORM = 505;
    /// Element of a signature ends after its parent.
    SIGNATURE_PAST_PARENT = 506;
    /// Element of a signature is missing.
    SIGNATURE_MISSING = 507;
    /// Element of a signature has another tag.
    SIGNATURE_TAG = 508;
    /// Bytes follow the last field of an element of a signature.
    SIGNATURE_TRAILING = 509;
    /// Content of a signature has another type.
    SIGNATURE_CONTENT_TYPE = 510;
    /// Time of a signature is not in the form of RFC 5280.
    SIGNATURE_BAD_TIME = 511;
    /// Element of a signature is an end of contents, which DER does not have.
    SIGNATURE_END_OF_CONTENTS = 512;
    /// Element of a signature has no content, which its type does not allow.
    SIGNATURE_EMPTY_CONTENT = 513;
    /// Invalid signature of a minidump.
    DUMP_SIGNATURE = 551;
    /// Invalid version of a minidump.
    DUMP_VERSION = 552;
    /// Directory of the streams ends past the end of the file.
    DUMP_DIRECTORY = 553;
    /// Location in a minidump ends past the end of the file.
    DUMP_LOCATION = 554;
    /// Number of entries of a list and the size of its stream do not agree.
    DUMP_LIST_SIZE = 555;
    /// Entries of a list smaller than their fields.
    DUMP_ENTRY_SIZE = 556;
    /// String has an odd number of bytes.
    DUMP_TEXT = 557;
    /// Context smaller than its fields.
    DUMP_CONTEXT_SIZE = 558;
    /// Context without control or integer registers.
    DUMP_CONTEXT_FLAGS = 559;
    /// Context of another machine.
    DUMP_MACHINE = 560;
    /// A PDB 2.0, which has another layout.
    PDB20 = 601;
    /// A portable PDB of .NET, which has another layout.
    PDB_PORTABLE = 602;
    /// Not a PDB 7.0.
    PDB_MAGIC = 603;
    /// Invalid block size of a PDB.
    PDB_BLOCK_SIZE = 604;
    /// Blocks of a PDB end past the end of the file.
    PDB_FILE_SIZE = 605;
    /// Directory of a PDB larger than the file, or than its superblock can list.
    PDB_BLOCK_MAP = 606;
    /// Block of a PDB lies outside of the file.
    PDB_BLOCK = 607;
    /// Directory of a PDB too short for its streams.
    PDB_DIRECTORY = 608;
    /// PDB has no stream with this number.
    PDB_NO_STREAM = 609;
    /// Stream of a PDB has more blocks than the file.
    PDB_STREAM_SIZE = 610;
    /// Unknown version of the info stream of a PDB.
    PDB_INFO_VERSION = 612;
    /// DBI stream of a PDB does not start with -1.
    PDB_DBI_SIGNATURE = 613;
    /// Unknown version of the DBI stream of a PDB.
    PDB_DBI_VERSION = 614;
    /// Parts of the DBI stream of a PDB end past its end.
    PDB_DBI_PARTS = 615;
    /// Section headers of a PDB are not a multiple of 40 bytes.
    PDB_SECTION_HEADERS = 616;
    /// Record of a symbol smaller than its kind.
    PDB_RECORD_SIZE = 617;
    /// Record of a PDB ends past the end of its bytes.
    PDB_RECORD_TRUNCATED = 618;
    /// Name in a PDB not NUL-terminated or not UTF-8.
    PDB_NAME = 619;
    /// Records of a PDB have 4 GB or more.
    PDB_SYMBOLS_SIZE = 622;
    /// Names of the source files of a PDB do not start with 0xEFFEEFFE.
    PDB_NAMES_SIGNATURE = 623;
    /// Unknown version of the section contributions of a PDB.
    PDB_CONTRIBUTIONS_VERSION = 624;
    /// Section contributions of a PDB are not a multiple of their size.
    PDB_CONTRIBUTIONS_SIZE = 625;
    /// Annotation of an inlined function truncated or not known.
    PDB_ANNOTATION = 626;
    /// More than 64 inlined functions at one offset of a procedure.
    PDB_INLINE_DEPTH = 627;
    // Of steps of a stack walk, which pe_core does not make.
    /// Eight bytes of memory are missing: [`StepError::Missing`](crate::StepError::Missing).
    MISSING = 102;
    /// Address and the offset of an unwind code do not fit 64 bits: [`StepError::Address`](crate::StepError::Address).
    BAD_ADDRESS = 103;
    /// Unwind operation cannot be undone.
    BAD_OPERATION = 104;
    /// Stack pointer of the caller is not above that of the function: [`StepError::NotRising`](crate::StepError::NotRising).
    NOT_RISING = 105;
    /// More than 32 unwind records are chained.
    LONG_CHAIN = 106;
    // Of the memory of a dump.
    /// Pieces of memory overlap or do not ascend.
    OUT_OF_ORDER = 107;
}

impl Error {
    /// The number: that of the constant `PE_C_` in `pe.h`.
    pub const fn number(self) -> u32 {
        self.0
    }

    /// The error of a call that returned a number, unless it succeeded.
    pub(crate) fn of(number: u32) -> Result<(), Error> {
        match number {
            sys::DONE => Ok(()),
            number => Err(Error(number)),
        }
    }

    /// The error with the number of a result.
    pub(crate) const fn with_number(number: u32) -> Error {
        Error(number)
    }
}

impl fmt::Debug for Error {
    fn fmt(&self, f: &mut fmt::Formatter<'_>) -> fmt::Result {
        match self.name() {
            Some(name) => f.write_str(name),
            None => write!(f, "Error({})", self.0),
        }
    }
}

impl fmt::Display for Error {
    fn fmt(&self, f: &mut fmt::Formatter<'_>) -> fmt::Result {
        let mut room = [0; 128];
        // SAFETY: the pointer and the length are those of one array, which is lent for the call.
        let length = unsafe { sys::pe_c_text(self.0, room.as_mut_ptr(), room.len()) };
        let text = room.get(..length).unwrap_or(&room);
        f.write_str(core::str::from_utf8(text).unwrap_or("refused"))
    }
}

impl core::error::Error for Error {}

/// The result of a call, by the number that it returned.
pub(crate) fn returned<T>(number: u32, value: T) -> Result<Option<T>, Error> {
    match number {
        sys::DONE => Ok(Some(value)),
        sys::NOTHING => Ok(None),
        number => Err(Error(number)),
    }
}

impl sys::View {
    /// The view of an image by its parts, for calls that end before any of them changes or ends. Without an index, and for calls
    /// that need no sections, a part is empty.
    pub fn of(bytes: &[u8], image: &ImageInfo, sections: &[Section], index: &[RangeEntry]) -> sys::View {
        sys::View {
            bytes: bytes.as_ptr(),
            length: bytes.len(),
            image,
            sections: sections.as_ptr(),
            count: sections.len(),
            index: index.as_ptr(),
            entries: index.len(),
        }
    }
}

impl sys::Range {
    /// The bytes of a range, or `None` if they are not all there.
    pub fn of<'a>(&self, bytes: &'a [u8]) -> Option<&'a [u8]> {
        let offset = usize::try_from(self.offset).ok()?;
        let length = usize::try_from(self.length).ok()?;
        bytes.get(offset..offset.checked_add(length)?)
    }
}

/// The bytes of a range that the library returned. They are always there; `SHORT` stands in for a panic.
pub(crate) fn bytes_of(range: sys::Range, bytes: &[u8]) -> Result<&[u8], Error> {
    range.of(bytes).ok_or(Error::SHORT)
}

/// The text of bytes that the library returned as one. It proves of these that they are UTF-8, so they are not tested here: many names
/// may share one long text, which would be read again for each.
pub(crate) fn text_in(bytes: &[u8]) -> &str {
    debug_assert!(bytes.len() > 4096 || core::str::from_utf8(bytes).is_ok());
    // SAFETY: as above. Each caller passes what `pe.h` says is UTF-8.
    unsafe { core::str::from_utf8_unchecked(bytes) }
}

/// The text of a range that the library returned, of which `pe.h` says that it is UTF-8.
pub(crate) fn text_of(range: sys::Range, bytes: &[u8]) -> Result<&str, Error> {
    bytes_of(range, bytes).map(text_in)
}

/// The bytes up to the first zero, or all of them.
pub(crate) fn up_to_zero(bytes: &[u8]) -> &[u8] {
    bytes.split(|byte| *byte == 0).next().unwrap_or_default()
}

/// A data directory by its index, `IMAGE_DIRECTORY_ENTRY_` of winnt.h.
#[derive(Clone, Copy, Debug, PartialEq, Eq, Hash)]
pub enum DirectoryIndex {
    /// The exported functions.
    Export = 0,
    /// The imported DLLs and functions.
    Import = 1,
    /// The resource tree.
    Resource = 2,
    /// The function table.
    Exception = 3,
    /// The certificate table. Its `virtual_address` is a file offset, not an RVA.
    Security = 4,
    /// The base relocations.
    BaseRelocation = 5,
    /// The debug entries.
    Debug = 6,
    /// Reserved.
    Architecture = 7,
    /// The RVA of the value for the global pointer register.
    GlobalPointer = 8,
    /// Thread-local storage.
    Tls = 9,
    /// The load configuration.
    LoadConfig = 10,
    /// The bound imports.
    BoundImport = 11,
    /// The import address tables.
    ImportAddress = 12,
    /// The delay-loaded imports.
    DelayImport = 13,
    /// The header of the .NET runtime.
    ComDescriptor = 14,
}

impl ImageInfo {
    /// A data directory, or `None` where it is absent.
    pub fn directory(&self, index: DirectoryIndex) -> Option<Directory> {
        Some(self.directories[index as usize]).filter(|it| *it != Directory::default())
    }
}

impl Section {
    /// The name, without its padding.
    pub fn name(&self) -> &[u8] {
        up_to_zero(&self.name)
    }
}

/// A PE image: its bytes, a file or as loaded, its headers and its sections.
///
/// ```
/// # let bytes: &[u8] = include_bytes!(concat!(env!("CARGO_MANIFEST_DIR"), "/../../crates/peinfo/data/i.bin"));
/// use pe_c::{DirectoryIndex, Image, Mode};
///
/// let image = Image::parse(bytes, Mode::Strict)?;
/// assert_eq!(image.info().machine, 0x8664); // IMAGE_FILE_MACHINE_AMD64
/// assert_eq!(image.info().width, 64); // PE32+
/// assert_eq!(image.info().directory(DirectoryIndex::Exception).unwrap().size, 24);
/// let section = &image.sections()[0];
/// assert_eq!((section.name(), section.virtual_address), (b".rdata".as_slice(), 0x1000));
/// assert_eq!(image.offset(0x1040), Some(0x240));
/// # Ok::<(), pe_c::Error>(())
/// ```
#[derive(Clone)]
pub struct Image<'a> {
    bytes: &'a [u8],
    mode: Mode,
    layout: Layout,
    info: ImageInfo,
    sections: Vec<Section>,
    /// The index of the sections, where these are many; else empty.
    index: Vec<RangeEntry>,
}

/// From so many sections on an image has an index of them: an index costs a search what some twenty sections cost it.
const MANY_SECTIONS: usize = 32;

impl fmt::Debug for Image<'_> {
    fn fmt(&self, f: &mut fmt::Formatter<'_>) -> fmt::Result {
        f.debug_struct("Image")
            .field("mode", &self.mode)
            .field("layout", &self.layout)
            .field("info", &self.info)
            .field("sections", &shown::Sections(&self.sections))
            .finish_non_exhaustive()
    }
}

/// A call that takes an image.
type Call<T> = unsafe extern "C" fn(*const sys::View, *mut T) -> u32;
/// A call that takes an image and one more argument.
pub(crate) type CallWith<M, T> = unsafe extern "C" fn(*const sys::View, M, *mut T) -> u32;

/// A call that takes an image, a record and one more argument.
pub(crate) type Look<M, N, T> = unsafe extern "C" fn(*const sys::View, *const M, N, *mut T) -> u32;

// SAFETY of all calls here: they are the declarations of `sys`, which match the archive. Each pointer and length are
// those of one borrow that outlives the call; what the call writes overlaps no other argument, and is initialised. The
// library requires nothing else, and all that it writes are integers.

impl<'a> Image<'a> {
    /// Reads the headers and the section headers of a file: [`Image::parse_as`] with [`Layout::File`].
    ///
    /// # Errors
    ///
    /// Those of [`Image::parse_as`].
    pub fn parse(bytes: &'a [u8], mode: Mode) -> Result<Self, Error> {
        Image::parse_as(bytes, mode, Layout::File)
    }

    /// Reads the headers and the section headers, which are at the same offsets in both layouts. All that is read of the
    /// image later is read in this mode and layout.
    ///
    /// ```
    /// # let bytes: &[u8] = include_bytes!(concat!(env!("CARGO_MANIFEST_DIR"), "/../../crates/peinfo/data/i.bin"));
    /// use pe_c::{Image, Layout, Mode};
    ///
    /// // The module as the loader puts it into memory: this image has one section.
    /// let file = Image::parse(bytes, Mode::Strict)?;
    /// let section = &file.sections()[0];
    /// let (rva, offset) = (section.virtual_address as usize, section.pointer_to_raw_data as usize);
    /// let mut memory = vec![0; rva];
    /// memory[..offset].copy_from_slice(&bytes[..offset]);
    /// memory.extend_from_slice(&bytes[offset..][..section.size_of_raw_data as usize]);
    ///
    /// let module = Image::parse_as(&memory, Mode::Strict, Layout::Mapped)?;
    /// assert_eq!(module.offset(0x1025), Some(0x1025));
    /// assert_eq!(module.functions()?.unwrap().find(0x1025)?, file.functions()?.unwrap().find(0x1025)?);
    /// # Ok::<(), pe_c::Error>(())
    /// ```
    ///
    /// # Errors
    ///
    /// - [`Error::SHORT`], [`Error::BAD_MAGIC`] of the DOS header; in strict mode [`Error::HEADER_POINTER`];
    /// - [`Error::SHORT`], [`Error::BAD_MAGIC`] of the PE signature; [`Error::SHORT`] of the COFF header;
    /// - [`Error::SHORT`], [`Error::BAD_MAGIC`] of the optional header; [`Error::SHORT`] of its fields and directories;
    /// - [`Error::MEMORY`] where the section headers cannot be allocated, at most 65,535 of 40 bytes, or from 32 of them on an
    ///   index of these, of 64 bytes each;
    /// - [`Error::SHORT`] where they are truncated.
    pub fn parse_as(bytes: &'a [u8], mode: Mode, layout: Layout) -> Result<Self, Error> {
        // SAFETY: it takes no arguments. The call is here so that no program links with an archive of another ABI.
        unsafe { sys::pe_c_abi_5() };
        let mut info = ImageInfo::default();
        let way = number_of(mode, layout);
        // SAFETY: as above.
        let number = unsafe { sys::pe_c_image(bytes.as_ptr(), bytes.len(), way, &mut info) };
        if number != sys::DONE {
            return Err(Error(number));
        }
        let count = usize::from(info.number_of_sections);
        let mut sections = Vec::new();
        sections.try_reserve_exact(count).map_err(|_| Error::MEMORY)?;
        sections.resize(count, Section::default());
        // SAFETY: as above.
        let number = unsafe { sys::pe_c_sections(bytes.as_ptr(), bytes.len(), &info, sections.as_mut_ptr(), count) };
        if number != sys::DONE {
            return Err(Error(number));
        }
        let mut image = Image { bytes, mode, layout, info, sections, index: Vec::new() };
        image.make_index()?;
        Ok(image)
    }

    /// The bytes of the image.
    pub fn bytes(&self) -> &'a [u8] {
        self.bytes
    }

    /// The mode in which the image is read.
    pub fn mode(&self) -> Mode {
        self.mode
    }

    /// The layout in which the image is read.
    pub fn layout(&self) -> Layout {
        self.layout
    }

    /// The headers.
    pub fn info(&self) -> &ImageInfo {
        &self.info
    }

    /// All numbers of the headers, by their names: of the DOS header, the COFF header and the optional header. [`Image::info`]
    /// has those that most callers need, and reads nothing anew.
    ///
    /// # Errors
    ///
    /// None of a file: they are those of [`Image::parse_as`], which would have returned them.
    pub fn headers(&self) -> Result<Headers, Error> {
        let mut headers = Headers::default();
        // SAFETY: as above.
        let number = unsafe { sys::pe_c_headers(self.bytes.as_ptr(), self.bytes.len(), self.info.mode, &mut headers) };
        Error::of(number).map(|()| headers)
    }

    /// The section headers, in the order of the file.
    pub fn sections(&self) -> &[Section] {
        &self.sections
    }

    /// The file offset of an RVA, by the first section that covers it; in [`Layout::Mapped`] the RVA itself. It may be past
    /// the end of the bytes. `None` where no section covers the RVA, or the file alignment is not a power of two.
    ///
    /// A section's data start at its raw pointer rounded down to a multiple of 512. Of a file whose alignment is below 512,
    /// as iPXE's, every call that maps RVAs so finds other offsets than a reader that does not round.
    pub fn offset(&self, rva: u32) -> Option<u64> {
        self.ask_with(sys::pe_c_offset, rva).ok()?
    }

    /// The section that maps an RVA: the first that covers it, by which [`Image::offset`] maps it. `None` where none does, and in
    /// [`Layout::Mapped`], where no section maps RVAs.
    pub fn section_at(&self, rva: u32) -> Option<&Section> {
        let index = self.ask_with(sys::pe_c_section_at, rva).ok()??;
        self.sections.get(usize::try_from(index).ok()?)
    }

    /// The bytes that the RVAs of a section are mapped to, one after the other, up to the end of the bytes; empty without any. In
    /// [`Layout::Mapped`] they stand at the section's RVA, as many as its virtual size says, or its raw size where that is 0.
    pub fn section_bytes(&self, section: &Section) -> &'a [u8] {
        let range = self.ask_of(sys::pe_c_section_range, section).ok().flatten().unwrap_or_default();
        range.of(self.bytes).unwrap_or_default()
    }

    /// The image as calls take it. It is for calls that end before `self` changes or ends.
    pub(crate) fn view(&self) -> sys::View {
        sys::View::of(self.bytes, &self.info, &self.sections, &self.index)
    }

    /// Makes the index of the sections, where these are many: few are tested in turn as fast.
    fn make_index(&mut self) -> Result<(), Error> {
        if self.sections.len() < MANY_SECTIONS {
            return Ok(());
        }
        let needed = 4 * self.sections.len();
        let mut room = Vec::new();
        room.try_reserve_exact(needed).map_err(|_| Error::MEMORY)?;
        room.resize(needed, RangeEntry::default());
        let (view, mut written) = (self.view(), 0);
        // SAFETY: the view is of what `self` lends for the call, and the room has so many entries.
        let number = unsafe { sys::pe_c_index(&view, room.as_mut_ptr(), needed, &mut written) };
        if number != sys::DONE {
            return Err(Error(number));
        }
        room.truncate(written as usize);
        self.index = room;
        Ok(())
    }

    /// Makes a call that takes the image.
    pub(crate) fn ask<T: Default>(&self, call: Call<T>) -> Result<Option<T>, Error> {
        let (view, mut out) = (self.view(), T::default());
        // SAFETY: as above.
        let number = unsafe { call(&view, &mut out) };
        returned(number, out)
    }

    /// Makes a call that takes one more argument: a number, or a pointer to what the caller lends for the call.
    fn call_with<M, T: Default>(&self, call: CallWith<M, T>, more: M) -> Result<Option<T>, Error> {
        let (view, mut out) = (self.view(), T::default());
        // SAFETY: as above, and `more` is a number, or comes from a reference of the calls below.
        let number = unsafe { call(&view, more, &mut out) };
        returned(number, out)
    }

    /// Makes a call that takes a number too.
    pub(crate) fn ask_with<T: Default>(&self, call: CallWith<u32, T>, more: u32) -> Result<Option<T>, Error> {
        self.call_with(call, more)
    }

    /// Makes a call that takes a record too.
    pub(crate) fn ask_of<M, T: Default>(&self, call: CallWith<*const M, T>, more: &M) -> Result<Option<T>, Error> {
        self.call_with(call, more)
    }

    /// Makes a call that takes a record, and a number or a pointer to what the caller lends for the call.
    fn look_with<M, N, T: Default>(&self, call: Look<M, N, T>, more: &M, last: N) -> Result<Option<T>, Error> {
        let (view, mut out) = (self.view(), T::default());
        // SAFETY: as above, `more` is lent for the call, and `last` is a number, or comes from a reference of `step_by`.
        let number = unsafe { call(&view, more, last, &mut out) };
        returned(number, out)
    }

    /// Makes a call that takes a record and a number too.
    pub(crate) fn look<M, N: Into<u64>, T: Default>(
        &self,
        call: Look<M, N, T>,
        more: &M,
        n: N,
    ) -> Result<Option<T>, Error> {
        self.look_with(call, more, n)
    }

    /// Makes a call that moves a walk, by a record.
    pub(crate) fn step_by<M, W, T: Default>(
        &self,
        call: Look<M, *mut W, T>,
        more: &M,
        walk: &mut W,
    ) -> Result<Option<T>, Error> {
        self.look_with(call, more, walk)
    }
}
