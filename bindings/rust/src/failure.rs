//! Why headers, directories, debug records and items of iterators are refused: where, and by which number. An [`Error`] is one
//! number, so that a caller can store it; this reads them again, and says the rest. Of items see the method `failure` of iterators, as
//! [`Libraries::failure`](crate::Libraries::failure).

use crate::coff::{section_headers, Coff};
use crate::image::{number_of, returned, DirectoryIndex, Error, Image, Layout, Mode};
use crate::sys::{self, CoffHeader, DebugEntry, ImageInfo, TeHeader};
use crate::te::Te;
use core::fmt;

/// What is wrong with the headers of an image, with a directory, with a debug record, or with an item of an iterator.
///
/// ```
/// use pe_c::{Error, Image, Layout, Mode};
///
/// let bytes = *b"ZM and more than 62 bytes, which are no image for all their length.";
/// assert_eq!(Image::parse(&bytes, Mode::Strict).unwrap_err(), Error::BAD_MAGIC);
/// let failure = Image::failure(&bytes, Mode::Strict, Layout::File).unwrap();
/// assert_eq!((failure.error, failure.offset, failure.value), (Error::BAD_MAGIC, 0, Some(0x4D5A)));
/// assert_eq!(failure.to_string(), "invalid magic number: 0x4d5a at offset 0x0");
/// ```
#[derive(Clone, Copy, Debug, PartialEq, Eq)]
#[cfg_attr(feature = "serde", derive(serde::Serialize))]
#[non_exhaustive]
pub struct Failure {
    /// The error.
    pub error: Error,
    /// Offset, from the start of the bytes unless the method says otherwise, of what is truncated or refused, or where it ends after the
    /// bytes that hold it; 0 where the error has none.
    pub offset: u64,
    /// How many bytes are needed; 0 where the error has no such number.
    pub needed: u64,
    /// The number that is refused: a magic number, an RVA, a size. `None` where the error has none, as [`Error::SHORT`]. Of
    /// [`Error::IMPORT_NAME`] it is the RVA of a DLL's name, and of an import the RVA of the hint, which is two bytes before the name:
    /// so it is in the text too, `import name at RVA`.
    pub value: Option<u64>,
}

impl From<sys::Failure> for Failure {
    fn from(it: sys::Failure) -> Failure {
        let error = Error::with_number(it.result);
        Failure { error, offset: it.offset, needed: it.needed, value: has_value(error).then_some(it.value) }
    }
}

/// What the record of an entry of the debug directory is read as: by which method.
#[derive(Clone, Copy, Debug, PartialEq, Eq, Hash)]
#[non_exhaustive]
pub enum DebugRecord {
    /// [`Image::symbol_key_of`].
    SymbolKey = 0,
    /// [`Image::pdb20_of`].
    Pdb20 = 1,
    /// [`Image::vc_features_of`].
    VcFeatures = 2,
    /// [`Image::debug_characteristics_of`].
    Characteristics = 3,
    /// [`Image::repro_of`].
    Repro = 4,
    /// [`Image::pogo_of`].
    Pogo = 5,
    /// [`Image::embedded_pdb_of`].
    EmbeddedPdb = 6,
    /// [`Image::pdb_checksum_of`].
    PdbChecksum = 7,
}

/// What a call found, which returns no error.
pub(crate) fn found(failure: Result<Option<sys::Failure>, Error>) -> Option<Failure> {
    failure.ok().flatten().map(Failure::from)
}

impl Image<'_> {
    /// Why [`Image::parse_as`] refuses the headers or the section headers. `None` where it does not.
    ///
    /// ```
    /// # let bytes: &[u8] = include_bytes!(concat!(env!("CARGO_MANIFEST_DIR"), "/../../crates/peinfo/data/i.bin"));
    /// use pe_c::{Error, Image, Layout, Mode};
    ///
    /// let image = Image::parse(bytes, Mode::Strict)?;
    /// let (start, size) = (image.info().sections_offset as usize, 40 * image.sections().len());
    /// let truncated = &bytes[..start + size - 1];
    /// assert_eq!(Image::parse(truncated, Mode::Strict).unwrap_err(), Error::SHORT);
    /// let failure = Image::failure(truncated, Mode::Strict, Layout::File).unwrap();
    /// assert_eq!((failure.offset, failure.needed), (start as u64, size as u64));
    /// # Ok::<(), pe_c::Error>(())
    /// ```
    pub fn failure(bytes: &[u8], mode: Mode, layout: Layout) -> Option<Failure> {
        let (way, mut out, mut info) = (number_of(mode, layout), sys::Failure::default(), ImageInfo::default());
        let (start, length) = (bytes.as_ptr(), bytes.len());
        // SAFETY: the pointer and the length are those of one slice; the records are lent for the calls.
        let number = unsafe {
            match sys::pe_c_image(start, length, way, &mut info) {
                sys::DONE => sys::pe_c_sections_failure(start, length, &info, &mut out),
                _ => sys::pe_c_image_failure(start, length, way, &mut out),
            }
        };
        found(returned(number, out))
    }

    /// What is wrong with a directory: the error of the method that reads it, with its numbers. `None` where that method returns no
    /// error, as for the certificates of a module in memory, which has none, and of a directory that none reads.
    ///
    /// The methods are [`Image::exports`], [`Image::libraries`], [`Image::resource_leaves`], [`Image::functions`] or
    /// [`Image::arm64_functions`], [`Image::certificates`] with its first item, [`Image::relocation_blocks`],
    /// [`Image::debug_entries`], [`Image::tls`], [`Image::load_config`], [`Image::bound_imports`], [`Image::delay_imports`] and
    /// [`Image::clr`] with its header.
    ///
    /// ```
    /// # let bytes: &[u8] = include_bytes!(concat!(env!("CARGO_MANIFEST_DIR"), "/../../crates/peinfo/data/i.bin"));
    /// use pe_c::{DirectoryIndex, Error, Image, Mode};
    ///
    /// let mut bytes = bytes.to_vec();
    /// let image = Image::parse(&bytes, Mode::Strict)?;
    /// assert_eq!(image.directory_failure(DirectoryIndex::Exception), None);
    /// // The RVA of the fourth directory: the directories follow the other 112 bytes of the optional header of PE32+.
    /// let optional = u32::from_le_bytes(bytes[60..64].try_into().unwrap()) as usize + 24;
    /// bytes[optional + 112 + 3 * 8..][..4].copy_from_slice(&0x0123_4567_u32.to_le_bytes());
    /// let image = Image::parse(&bytes, Mode::Strict)?;
    /// assert_eq!(image.functions().unwrap_err(), Error::UNMAPPED);
    /// let failure = image.directory_failure(DirectoryIndex::Exception).unwrap();
    /// assert_eq!((failure.error, failure.value), (Error::UNMAPPED, Some(0x0123_4567)));
    /// assert!(failure.to_string().starts_with("RVA 0x1234567 maps to no file offset"));
    /// # Ok::<(), pe_c::Error>(())
    /// ```
    pub fn directory_failure(&self, index: DirectoryIndex) -> Option<Failure> {
        // A module in memory has something else at the certificates' file offset.
        if index == DirectoryIndex::Security && self.layout() != Layout::File {
            return None;
        }
        found(self.ask_with(sys::pe_c_directory_failure, index as u32))
    }

    /// What is wrong with the record of an entry that is read as one of these: the error of the method that reads it, with its
    /// numbers. `None` where that method returns no error.
    ///
    /// ```
    /// # #[path = "../tests/made/mod.rs"] mod made;
    /// # let bytes = made::with_debug();
    /// use pe_c::{DebugRecord, Error, Image, Mode};
    ///
    /// let image = Image::parse(&bytes, Mode::Strict)?;
    /// let mut entry = image.debug_entries()?.next().expect("it has an entry")?;
    /// assert_eq!(image.debug_failure(&entry, DebugRecord::SymbolKey), None);
    /// entry.size_of_data = 23;
    /// assert_eq!(image.symbol_key_of(&entry).unwrap_err(), Error::DEBUG_SIZE);
    /// let failure = image.debug_failure(&entry, DebugRecord::SymbolKey).unwrap();
    /// assert_eq!((failure.error, failure.value), (Error::DEBUG_SIZE, Some(23)));
    /// # Ok::<(), pe_c::Error>(())
    /// ```
    pub fn debug_failure(&self, entry: &DebugEntry, record: DebugRecord) -> Option<Failure> {
        let (bytes, mode, mut out) = (self.bytes(), self.info().mode, sys::Failure::default());
        // SAFETY: the pointer and the length are those of one slice; the records are lent for the call.
        let number =
            unsafe { sys::pe_c_debug_failure(bytes.as_ptr(), bytes.len(), mode, entry, record as u32, &mut out) };
        found(returned(number, out))
    }
}

impl Te<'_> {
    /// Why [`Te::parse`] refuses the header or the section headers. `None` where it does not.
    pub fn failure(bytes: &[u8]) -> Option<Failure> {
        let (mut header, mut out) = (TeHeader::default(), sys::Failure::default());
        // SAFETY: as above.
        let number = unsafe {
            match sys::pe_c_te(bytes.as_ptr(), bytes.len(), &mut header) {
                sys::DONE => {
                    let number_of_sections = header.number_of_sections.into();
                    let headers = ImageInfo { sections_offset: 40, number_of_sections, ..ImageInfo::default() };
                    sys::pe_c_sections_failure(bytes.as_ptr(), bytes.len(), &headers, &mut out)
                }
                _ => sys::pe_c_te_failure(bytes.as_ptr(), bytes.len(), &mut out),
            }
        };
        found(returned(number, out))
    }
}

impl Coff<'_> {
    /// Why [`Coff::parse`] refuses the header or the section headers. `None` where it does not.
    pub fn failure(bytes: &[u8]) -> Option<Failure> {
        let (mut header, mut out) = (CoffHeader::default(), sys::Failure::default());
        // SAFETY: as above.
        let number = unsafe {
            match sys::pe_c_coff(bytes.as_ptr(), bytes.len(), &mut header) {
                sys::DONE => {
                    sys::pe_c_sections_failure(bytes.as_ptr(), bytes.len(), &section_headers(&header), &mut out)
                }
                // The header is the first 20 bytes.
                number => {
                    out = sys::Failure { needed: SIZE_OF_COFF_HEADER, result: number, ..out };
                    sys::DONE
                }
            }
        };
        found(returned(number, out))
    }
}

/// The size of the header of an object in bytes.
const SIZE_OF_COFF_HEADER: u64 = 20;

/// Whether an error has a number that is refused. `tools/make_errors` writes which.
#[rustfmt::skip]
fn has_value(error: Error) -> bool {
    matches!(
        error,
        Error::BAD_MAGIC
        | Error::HEADER_POINTER
        | Error::IMPORT_NAME
        | Error::CERTIFICATE_REVISION
        | Error::CERTIFICATE_TYPE
        | Error::UNMAPPED
        | Error::DEBUG_SIZE
        | Error::POGO_SIZE
        | Error::POGO_NAME
        | Error::EXCEPTION_SIZE
        | Error::FUNCTION_INDEX
        | Error::FUNCTION_LINK
        | Error::FUNCTION_CYCLE
        | Error::UNWIND_VERSION
        | Error::UNWIND_CODE
        | Error::ARM64_VERSION
        | Error::ARM64_STREAM
        | Error::TE_SIZE
        | Error::WRITE_ALIGNMENT
        | Error::WRITE_SECTION
        | Error::WRITE_FIT
        | Error::DIRECTORY_BLOCK_SIZE
        | Error::DIRECTORY_BLOCK_TRUNCATED
        | Error::DIRECTORY_NO_ARGUMENT
        | Error::DIRECTORY_VA_BELOW_BASE
        | Error::DIRECTORY_CLR_HEADER_SIZE
        | Error::DIRECTORY_RELOCATION_KIND
        | Error::DIRECTORY_RELOCATION_OUTSIDE
    )
}

impl fmt::Display for Failure {
    /// The text of the error with its numbers. `tools/make_errors` writes most arms.
    #[rustfmt::skip]
    fn fmt(&self, f: &mut fmt::Formatter<'_>) -> fmt::Result {
        let Failure { error, offset, needed, value } = *self;
        let value = value.unwrap_or(0);
        match error {
            Error::SHORT => write!(f, "{error}: {needed} bytes needed at offset {offset:#x}"),
            Error::BAD_MAGIC => write!(f, "{error}: {value:#x} at offset {offset:#x}"),
            Error::HEADER_POINTER => write!(f, "PE header offset {value:#x} lies inside the DOS header's 64 bytes"),
            Error::IMPORT_NAME => write!(f, "import name at RVA {value:#x} is not NUL-terminated or not UTF-8"),
            Error::STRING_TABLE => write!(f, "string not NUL-terminated, not UTF-8 or truncated (at offset {offset:#x} of the string table, unless it is an inline name)"),
            Error::CERTIFICATE_REVISION => write!(f, "invalid certificate revision {value:#x}"),
            Error::CERTIFICATE_TYPE => write!(f, "invalid certificate type {value:#x}"),
            Error::CERTIFICATE_SIZE => write!(f, "certificate truncated: {needed} bytes needed"),
            Error::CERTIFICATE_TABLE => write!(f, "certificate table ends at file offset {offset:#x}, past the end of the file"),
            Error::UNMAPPED => write!(f, "RVA {value:#x} maps to no file offset: no section covers it, or the file alignment is not a power of two"),
            Error::DEBUG_BOUNDS => write!(f, "debug directory ends at file offset {offset:#x}, past the end of the file"),
            Error::DEBUG_SIZE => write!(f, "debug record of {value} bytes is too small for its type"),
            Error::DEBUG_DATA => write!(f, "debug record truncated: {needed} bytes needed"),
            Error::POGO_SIZE => write!(f, "POGO record of {value} bytes has no entries"),
            Error::POGO_NAME => write!(f, "POGO entry truncated: {needed} bytes needed up to the end of its padded name, {value} left"),
            Error::EXCEPTION_SIZE => write!(f, "exception directory size of {value} bytes is not a multiple of the entry size"),
            Error::EXCEPTION_OFFSET => write!(f, "exception directory at file offset {offset:#x} is not aligned to 4 bytes"),
            Error::EXCEPTION_BOUNDS => write!(f, "exception directory ends at file offset {offset:#x}, past the end of the file"),
            Error::FUNCTION_INDEX => write!(f, "function index {value} is out of range"),
            Error::FUNCTION_LINK => write!(f, "link to RVA {value:#x} leads to no function entry"),
            Error::FUNCTION_CYCLE => write!(f, "loop in unwind links or chained records from RVA {value:#x} on"),
            Error::UNWIND_VERSION => write!(f, "unknown unwind record version {value}"),
            Error::UNWIND_CODE => write!(f, "invalid unwind code {value:#x}"),
            Error::ARM64_VERSION => write!(f, "unknown ARM64 unwind record version {value}"),
            Error::ARM64_STREAM => write!(f, "no ARM64 unwind code stream in {value} bytes from offset {offset:#x}"),
            Error::ARM64_CUT => write!(f, "ARM64 unwind code truncated at offset {offset:#x} of its stream"),
            Error::RESOURCE_BOUNDS => write!(f, "resource data ends at file offset {offset:#x}, past the bytes that hold it"),
            Error::RESOURCE_CYCLE => write!(f, "loop in the resource tree through the directory at offset {offset:#x}"),
            Error::RESOURCE_STRING => write!(f, "version string at offset {offset:#x}: value missing, or its length above 32,767"),
            Error::TE_SIZE => write!(f, "stripped size of {value} bytes is smaller than the 40 bytes of a TE header"),
            Error::WRITE_ALIGNMENT => write!(f, "images with alignment {value:#x} cannot be written"),
            Error::WRITE_SYMBOLS => write!(f, "images with COFF symbols cannot be written (symbol table at file offset {offset:#x})"),
            Error::WRITE_SECTION => write!(f, "data of section {value} is not in the source bytes"),
            Error::WRITE_FIT => write!(f, "write ends at offset {offset:#x}, past a buffer of {value} bytes"),
            Error::DIRECTORY_BLOCK_SIZE => write!(f, "base relocation block of {value} bytes: the size is below 8 or odd"),
            Error::DIRECTORY_BLOCK_TRUNCATED => write!(f, "base relocation block truncated: {needed} bytes needed, {value} left"),
            Error::DIRECTORY_NO_ARGUMENT => write!(f, "base relocation at RVA {value:#x} has no argument"),
            Error::DIRECTORY_VA_BELOW_BASE => write!(f, "virtual address {value:#x} is below the image base"),
            Error::DIRECTORY_CLR_HEADER_SIZE => write!(f, "CLR header of {value} bytes, smaller than 72"),
            Error::DIRECTORY_DELAY_IMPORT_NAME => write!(f, "name of a delay import at offset {offset:#x} is not NUL-terminated or not UTF-8"),
            Error::DIRECTORY_BOUND_IMPORT_NAME => write!(f, "name of a bound import at offset {offset:#x} is not NUL-terminated or not UTF-8"),
            Error::DIRECTORY_RELOCATION_KIND => write!(f, "base relocation of type {value} at RVA {offset:#x} is not applied"),
            Error::DIRECTORY_RELOCATION_OUTSIDE => write!(f, "base relocation at RVA {value:#x} is outside of the image"),
            Error::TREE_NOT_DIRECTORY => write!(f, "resource data entry at {offset:#x} above the level of languages"),
            Error::TREE_NOT_DATA => write!(f, "resource directory at {offset:#x} below the level of languages"),
            Error::TREE_NO_ENTRIES => write!(f, "resource directory at {offset:#x} has no entries"),
            _ => write!(f, "{error}"),
        }
    }
}

impl core::error::Error for Failure {}
