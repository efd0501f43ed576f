//! The debug directory is a table of entries of 28 bytes. Each says which type of record it leads to and where that is:
//! CodeView names the PDB file of the image, POGO the parts that the linker joined, Repro marks a reproducible build. See
//! [Microsoft's page](https://learn.microsoft.com/windows/win32/debug/pe-format#the-debug-section).
//! Symbolizers take the symbol key, and fetch the PDB from a symbol server by it.

use crate::image::{bytes_of, returned, up_to_zero, Error, Image};
use crate::shown::{self, shown};
use crate::symbol_server::Guid;
use crate::sys::{self, DebugEntry, VcFeatures};
use crate::walk::{ask_of_bytes, items, Walk};
use core::fmt;

/// A CodeView record of PDB 7.0 ("RSDS"): a symbol server files the PDB under its name, GUID and age.
///
/// `Display` writes the key as symbol servers do: the GUID's 32 digits, then the age, in upper-case hexadecimal.
/// [`path`](Self::path) is the whole path there.
///
/// ```
/// # #[path = "../tests/made/mod.rs"] mod made;
/// # let bytes = made::with_debug();
/// use pe_c::{Image, Mode};
///
/// let image = Image::parse(&bytes, Mode::Permissive)?;
/// let key = image.symbol_key()?.expect("the image has a PDB");
/// assert_eq!(key.name(), b"a.pdb");
/// assert_eq!(key.to_string(), "497B72F6390A44FC878E5A2D63B6CC4B1");
/// # Ok::<(), pe_c::Error>(())
/// ```
#[derive(Clone, Copy, PartialEq, Eq)]
#[cfg_attr(feature = "serde", derive(serde::Serialize))]
#[non_exhaustive]
pub struct SymbolKey<'a> {
    /// Of the PDB.
    pub guid: Guid,
    /// Grows by one each time the PDB is written.
    pub age: u32,
    /// The PDB file's name and the zeros after it, up to the end of the record.
    #[cfg_attr(feature = "serde", serde(rename = "name", serialize_with = "crate::serialized::name"))]
    pub name_bytes: &'a [u8],
}

shown! { SymbolKey<'_> { guid, age, name_bytes: shown::Text } }

impl<'a> SymbolKey<'a> {
    /// A key of a PDB of this name.
    ///
    /// ```
    /// let key = pe_c::SymbolKey::new(pe_c::Guid([0x11; 16]), 10, b"a.pdb");
    /// assert_eq!(key.path().expect("a name").to_string(), "a.pdb/11111111111111111111111111111111A/a.pdb");
    /// ```
    pub fn new(guid: Guid, age: u32, name: &'a [u8]) -> Self {
        SymbolKey { guid, age, name_bytes: name }
    }

    /// The key of a CodeView record that stands alone, as a minidump has one of each module. `None` where it is not one of
    /// PDB 7.0.
    ///
    /// ```
    /// let record = b"RSDS\xF6\x72\x7B\x49\x0A\x39\xFC\x44\x87\x8E\x5A\x2D\x63\xB6\xCC\x4B\x01\0\0\0a.pdb\0";
    /// let key = pe_c::SymbolKey::of_record(record)?.expect("it is one of PDB 7.0");
    /// assert_eq!((key.name(), key.to_string().as_str()), (b"a.pdb".as_slice(), "497B72F6390A44FC878E5A2D63B6CC4B1"));
    /// # Ok::<(), pe_c::Error>(())
    /// ```
    ///
    /// # Errors
    ///
    /// [`Error::DEBUG_SIZE`] where it has fewer than 24 bytes.
    pub fn of_record(record: &'a [u8]) -> Result<Option<Self>, Error> {
        let range = sys::Range { offset: 0, length: record.len() as u64 };
        let Some(key) = ask_of_bytes(record, sys::pe_c_codeview, &range)? else {
            return Ok(None);
        };
        Ok(Some(SymbolKey { guid: Guid(key.guid), age: key.age, name_bytes: bytes_of(key.name, record)? }))
    }

    /// The PDB file's name, up to the first zero.
    pub fn name(&self) -> &'a [u8] {
        up_to_zero(self.name_bytes)
    }
}

impl fmt::Display for SymbolKey<'_> {
    fn fmt(&self, f: &mut fmt::Formatter<'_>) -> fmt::Result {
        self.guid.write(f, Guid::DIGITS)?;
        write!(f, "{:X}", self.age)
    }
}

/// A CodeView record of PDB 2.0 ("NB10"): a symbol server files the PDB under its name, time stamp and age.
///
/// `Display` writes the key as symbol servers do: the time stamp's 8 digits, then the age, in upper-case hexadecimal.
/// [`path`](Self::path) is the whole path there, and has an example.
#[derive(Clone, Copy, Default, PartialEq, Eq)]
#[cfg_attr(feature = "serde", derive(serde::Serialize))]
#[non_exhaustive]
pub struct Pdb20<'a> {
    /// 0 where the symbols are in a file of their own.
    pub offset: u32,
    /// Time stamp of the PDB, seconds since 1970.
    pub signature: u32,
    /// Grows by one each time the PDB is written.
    pub age: u32,
    /// The PDB file's name and the zeros after it, up to the end of the record.
    #[cfg_attr(feature = "serde", serde(rename = "name", serialize_with = "crate::serialized::name"))]
    pub name_bytes: &'a [u8],
}

shown! { Pdb20<'_> { offset, signature, age, name_bytes: shown::Text } }

impl<'a> Pdb20<'a> {
    /// The PDB file's name, up to the first zero.
    pub fn name(&self) -> &'a [u8] {
        up_to_zero(self.name_bytes)
    }
}

impl fmt::Display for Pdb20<'_> {
    fn fmt(&self, f: &mut fmt::Formatter<'_>) -> fmt::Result {
        write!(f, "{:08X}{:X}", self.signature, self.age)
    }
}

/// A Repro record: the same sources build the same image.
#[derive(Clone, Copy, PartialEq, Eq)]
#[cfg_attr(feature = "serde", derive(serde::Serialize))]
pub enum Repro<'a> {
    /// The image's time stamps are a hash.
    TimeStamp,
    /// The hash of the image.
    Hash(#[cfg_attr(feature = "serde", serde(serialize_with = "crate::serialized::hex"))] &'a [u8]),
}

impl fmt::Debug for Repro<'_> {
    fn fmt(&self, f: &mut fmt::Formatter<'_>) -> fmt::Result {
        match self {
            Repro::TimeStamp => f.write_str("TimeStamp"),
            Repro::Hash(hash) => f.debug_tuple("Hash").field(&shown::Bytes(hash)).finish(),
        }
    }
}

/// A POGO record: the parts of the image's sections, such as `.text$mn`.
#[derive(Clone, Copy)]
pub struct Pogo<'a> {
    /// 0x4C544347 (LTCG) or 0x50475500 (PGU).
    pub signature: u32,
    /// The bytes of the entries.
    pub entry_bytes: &'a [u8],
    entries: Walk<'a, sys::Range>,
}

shown! { Pogo<'_> { signature, entry_bytes: shown::Bytes; .. } }

impl<'a> Pogo<'a> {
    /// The entries, in the order of the record.
    pub fn entries(&self) -> PogoEntries<'a> {
        PogoEntries(self.entries)
    }
}

/// An entry of a POGO record: a part of a section.
#[derive(Clone, Copy, Default, PartialEq, Eq)]
#[cfg_attr(feature = "serde", derive(serde::Serialize))]
#[non_exhaustive]
pub struct PogoEntry<'a> {
    /// RVA of the part.
    pub rva: u32,
    /// In bytes.
    pub size: u32,
    /// The name and its final zero.
    #[cfg_attr(feature = "serde", serde(rename = "name", serialize_with = "crate::serialized::name"))]
    pub name_bytes: &'a [u8],
}

shown! { PogoEntry<'_> { rva, size, name_bytes: shown::Text } }

impl<'a> PogoEntry<'a> {
    /// The name, without its final zero.
    pub fn name(&self) -> &'a [u8] {
        up_to_zero(self.name_bytes)
    }
}

items! {
    /// The entries of a debug directory, in the order of the table. A truncated last entry is [`Error::SHORT`].
    ///
    /// ```
    /// # #[path = "../tests/made/mod.rs"] mod made;
    /// # let bytes = made::with_debug();
    /// use pe_c::{Image, Mode};
    ///
    /// let image = Image::parse(&bytes, Mode::Permissive)?;
    /// let mut types = Vec::new();
    /// for entry in image.debug_entries()? {
    ///     types.push(entry?.data_type);
    /// }
    /// assert_eq!(types, [2, 12, 13, 16, 20]);
    /// # Ok::<(), pe_c::Error>(())
    /// ```
    DebugEntries<'a>(sys::Range): DebugEntry, sys::pe_c_next_debug_entry, |entry, _| Ok(entry)
}

fn pogo_entry_of(found: sys::PogoEntry, bytes: &[u8]) -> Result<PogoEntry<'_>, Error> {
    Ok(PogoEntry { rva: found.rva, size: found.size, name_bytes: bytes_of(found.name, bytes)? })
}

items! {
    /// The entries of a POGO record.
    ///
    /// The last item may be an error: [`Error::SHORT`] where fewer than 8 bytes are left; [`Error::POGO_NAME`] where the
    /// name is not NUL-terminated, or its padding to a multiple of 4 bytes is truncated.
    PogoEntries<'a>(sys::Range): PogoEntry<'a>, sys::pe_c_next_pogo_entry, pogo_entry_of
}

/// A portable PDB in the image itself, as compilers of .NET write it.
#[derive(Clone, Copy, Default, PartialEq, Eq)]
#[cfg_attr(feature = "serde", derive(serde::Serialize))]
#[non_exhaustive]
pub struct EmbeddedPdb<'a> {
    /// In bytes, of the PDB, as the record states it.
    pub uncompressed_size: u32,
    /// The PDB, compressed: raw Deflate data.
    #[cfg_attr(feature = "serde", serde(serialize_with = "crate::serialized::hex"))]
    pub compressed: &'a [u8],
}

shown! { EmbeddedPdb<'_> { uncompressed_size, compressed: shown::Bytes } }

/// A checksum of the PDB file, as compilers of .NET write it: of its bytes with zeros in place of the PDB's id.
#[derive(Clone, Copy, Default, PartialEq, Eq)]
#[cfg_attr(feature = "serde", derive(serde::Serialize))]
#[non_exhaustive]
pub struct PdbChecksum<'a> {
    /// The name of the algorithm, as `SHA256`.
    #[cfg_attr(feature = "serde", serde(serialize_with = "crate::serialized::name"))]
    pub algorithm: &'a [u8],
    /// The checksum.
    #[cfg_attr(feature = "serde", serde(serialize_with = "crate::serialized::hex"))]
    pub checksum: &'a [u8],
}

shown! { PdbChecksum<'_> { algorithm: shown::Text, checksum: shown::Bytes } }

/// The record of the first debug entry of each type, each with an error of its own: what [`Image::debug_records`] returns.
#[derive(Clone, Copy, Debug)]
#[non_exhaustive]
pub struct DebugRecords<'a> {
    /// What [`Image::symbol_key`] returns.
    pub symbol_key: Result<Option<SymbolKey<'a>>, Error>,
    /// What [`Image::pdb20`] returns.
    pub pdb20: Result<Option<Pdb20<'a>>, Error>,
    /// What [`Image::vc_features`] returns.
    pub vc_features: Result<Option<VcFeatures>, Error>,
    /// What [`Image::debug_characteristics`] returns.
    pub debug_characteristics: Result<Option<u32>, Error>,
    /// What [`Image::repro`] returns.
    pub repro: Result<Option<Repro<'a>>, Error>,
    /// What [`Image::pogo`] returns.
    pub pogo: Result<Option<Pogo<'a>>, Error>,
    /// The portable PDB in the image.
    pub embedded_pdb: Result<Option<EmbeddedPdb<'a>>, Error>,
    /// The checksum of the PDB.
    pub pdb_checksum: Result<Option<PdbChecksum<'a>>, Error>,
}

impl<'a> DebugRecords<'a> {
    fn of(out: sys::DebugRecords, bytes: &'a [u8]) -> Self {
        DebugRecords {
            symbol_key: record_in(returned(out.key_result, out.key), bytes, key_of),
            pdb20: record_in(returned(out.pdb20_result, out.pdb20), bytes, pdb20_of),
            vc_features: returned(out.features_result, out.features),
            debug_characteristics: returned(out.characteristics_result, out.characteristics),
            repro: record_in(returned(out.repro_result, out.repro), bytes, repro_of),
            pogo: record_in(returned(out.pogo_result, out.pogo), bytes, pogo_of),
            embedded_pdb: record_in(returned(out.embedded_result, out.embedded), bytes, embedded_of),
            pdb_checksum: record_in(returned(out.checksum_result, out.checksum), bytes, checksum_of),
        }
    }

    /// The record of an entry in a mode, read as one of this type.
    pub(crate) fn of_entry(bytes: &'a [u8], mode: u32, entry: &DebugEntry, data_type: u32) -> Self {
        let (entry, mut out) = (DebugEntry { data_type, ..*entry }, sys::DebugRecords::default());
        // SAFETY: the bytes and the entry are lent for the call, which writes `out` alone.
        let number = unsafe { sys::pe_c_debug_record(bytes.as_ptr(), bytes.len(), mode, &entry, &mut out) };
        debug_assert_eq!(number, sys::DONE);
        Self::of(out, bytes)
    }
}

pub(crate) fn key_of(key: sys::Key, bytes: &[u8]) -> Result<SymbolKey<'_>, Error> {
    Ok(SymbolKey { guid: Guid(key.guid), age: key.age, name_bytes: bytes_of(key.name, bytes)? })
}

fn pdb20_of(record: sys::Pdb20, bytes: &[u8]) -> Result<Pdb20<'_>, Error> {
    let sys::Pdb20 { offset, signature, age, name, .. } = record;
    Ok(Pdb20 { offset, signature, age, name_bytes: bytes_of(name, bytes)? })
}

fn repro_of(record: sys::Repro, bytes: &[u8]) -> Result<Repro<'_>, Error> {
    if record.has_hash == 0 {
        return Ok(Repro::TimeStamp);
    }
    Ok(Repro::Hash(bytes_of(record.hash, bytes)?))
}

fn pogo_of(record: sys::Pogo, bytes: &[u8]) -> Result<Pogo<'_>, Error> {
    let entry_bytes = bytes_of(record.entries, bytes)?;
    Ok(Pogo { signature: record.signature, entry_bytes, entries: Walk::new(bytes, record.entries) })
}

fn embedded_of(record: sys::EmbeddedPdb, bytes: &[u8]) -> Result<EmbeddedPdb<'_>, Error> {
    let compressed = bytes_of(record.compressed, bytes)?;
    Ok(EmbeddedPdb { uncompressed_size: record.uncompressed_size, compressed })
}

fn checksum_of(record: sys::PdbChecksum, bytes: &[u8]) -> Result<PdbChecksum<'_>, Error> {
    Ok(PdbChecksum { algorithm: bytes_of(record.algorithm, bytes)?, checksum: bytes_of(record.checksum, bytes)? })
}

/// A record of numbers and ranges with the bytes of its ranges.
fn record_in<'a, T, R>(
    found: Result<Option<T>, Error>,
    bytes: &'a [u8],
    of: fn(T, &'a [u8]) -> Result<R, Error>,
) -> Result<Option<R>, Error> {
    found?.map(|record| of(record, bytes)).transpose()
}

// The types of the entries whose records the methods below read, of winnt.h.
pub(crate) const IMAGE_DEBUG_TYPE_CODEVIEW: u32 = 2;
const IMAGE_DEBUG_TYPE_VC_FEATURE: u32 = 12;
const IMAGE_DEBUG_TYPE_POGO: u32 = 13;
const IMAGE_DEBUG_TYPE_REPRO: u32 = 16;
const IMAGE_DEBUG_TYPE_EMBEDDEDPORTABLEPDB: u32 = 17;
const IMAGE_DEBUG_TYPE_PDBCHECKSUM: u32 = 19;
const IMAGE_DEBUG_TYPE_EX_DLLCHARACTERISTICS: u32 = 20;

/// # Debug data
///
/// [`debug_entries`](Self::debug_entries) lists the entries and reads no record. A record is read from one entry: the first of
/// its type, or by the methods whose names end with `_of` one that the caller has, whatever its type is. No other entry is
/// read, so what damages one record makes no difference to another. Methods return `None` without a debug directory or such an
/// entry, or where the entry has another record of its type. Their errors are first those of
/// [`debug_entry`](Self::debug_entry), and then those of the record, also of an entry:
///
/// - PDB 7.0 and PDB 2.0: in strict mode [`Error::DEBUG_SIZE`]; [`Error::SHORT`], [`Error::DEBUG_DATA`];
/// - VC features and characteristics: [`Error::SHORT`];
/// - Repro: [`Error::SHORT`], [`Error::DEBUG_DATA`];
/// - POGO: [`Error::SHORT`], [`Error::POGO_SIZE`], [`Error::DEBUG_DATA`];
/// - the embedded PDB: [`Error::DEBUG_SIZE`], [`Error::SHORT`], [`Error::BAD_MAGIC`], [`Error::DEBUG_DATA`];
/// - the checksum of the PDB: [`Error::DEBUG_DATA`], [`Error::DEBUG_SIZE`].
impl<'a> Image<'a> {
    /// The entries of the debug directory; none without a directory.
    ///
    /// # Errors
    ///
    /// [`Error::UNMAPPED`]; in strict mode [`Error::DEBUG_BOUNDS`].
    pub fn debug_entries(&self) -> Result<DebugEntries<'a>, Error> {
        Ok(DebugEntries(Walk::started(self.bytes(), self.ask(sys::pe_c_debug_entries)?)))
    }

    /// The first entry of a type, `IMAGE_DEBUG_TYPE_` of winnt.h. A truncated last entry is none.
    ///
    /// # Errors
    ///
    /// [`Error::UNMAPPED`]; in strict mode [`Error::DEBUG_BOUNDS`].
    pub fn debug_entry(&self, data_type: u32) -> Result<Option<DebugEntry>, Error> {
        Ok(self.debug_entries()?.flatten().find(|entry| entry.data_type == data_type))
    }

    /// The record of an entry, read as one of this type.
    fn of_entry(&self, entry: &DebugEntry, data_type: u32) -> DebugRecords<'a> {
        DebugRecords::of_entry(self.bytes(), self.info().mode, entry, data_type)
    }

    /// The record of the first debug entry of each type. An error of one is no error of another.
    pub fn debug_records(&self) -> DebugRecords<'a> {
        let (view, mut out) = (self.view(), sys::DebugRecords::default());
        // SAFETY: the view and what it leads to are lent for the call, which writes `out` alone.
        let number = unsafe { sys::pe_c_debug_data(&view, &mut out) };
        debug_assert_eq!(number, sys::DONE);
        DebugRecords::of(out, self.bytes())
    }

    /// The key by which a symbol server files the image's PDB: the CodeView record, if it is one of PDB 7.0.
    ///
    /// # Errors
    ///
    /// Those of [debug data](#debug-data).
    pub fn symbol_key(&self) -> Result<Option<SymbolKey<'a>>, Error> {
        let key = self.ask(sys::pe_c_symbol_key)?;
        key.map(|key| key_of(key, self.bytes())).transpose()
    }

    /// The same of the record of an entry.
    ///
    /// # Errors
    ///
    /// Those of [debug data](#debug-data).
    pub fn symbol_key_of(&self, entry: &DebugEntry) -> Result<Option<SymbolKey<'a>>, Error> {
        self.of_entry(entry, IMAGE_DEBUG_TYPE_CODEVIEW).symbol_key
    }

    /// The CodeView record, if it is one of PDB 2.0.
    ///
    /// # Errors
    ///
    /// Those of [debug data](#debug-data).
    pub fn pdb20(&self) -> Result<Option<Pdb20<'a>>, Error> {
        self.debug_records().pdb20
    }

    /// The same of the record of an entry.
    ///
    /// # Errors
    ///
    /// Those of [debug data](#debug-data).
    pub fn pdb20_of(&self, entry: &DebugEntry) -> Result<Option<Pdb20<'a>>, Error> {
        self.of_entry(entry, IMAGE_DEBUG_TYPE_CODEVIEW).pdb20
    }

    /// The record of VC features.
    ///
    /// # Errors
    ///
    /// Those of [debug data](#debug-data).
    pub fn vc_features(&self) -> Result<Option<VcFeatures>, Error> {
        self.debug_records().vc_features
    }

    /// The same of the record of an entry.
    ///
    /// # Errors
    ///
    /// Those of [debug data](#debug-data).
    pub fn vc_features_of(&self, entry: &DebugEntry) -> Result<Option<VcFeatures>, Error> {
        self.of_entry(entry, IMAGE_DEBUG_TYPE_VC_FEATURE).vc_features
    }

    /// The extended DLL characteristics: `IMAGE_DLLCHARACTERISTICS_EX_` flags.
    ///
    /// # Errors
    ///
    /// Those of [debug data](#debug-data).
    pub fn debug_characteristics(&self) -> Result<Option<u32>, Error> {
        self.debug_records().debug_characteristics
    }

    /// The same of the record of an entry.
    ///
    /// # Errors
    ///
    /// Those of [debug data](#debug-data).
    pub fn debug_characteristics_of(&self, entry: &DebugEntry) -> Result<Option<u32>, Error> {
        self.of_entry(entry, IMAGE_DEBUG_TYPE_EX_DLLCHARACTERISTICS).debug_characteristics
    }

    /// The Repro record.
    ///
    /// # Errors
    ///
    /// Those of [debug data](#debug-data).
    pub fn repro(&self) -> Result<Option<Repro<'a>>, Error> {
        self.debug_records().repro
    }

    /// The same of the record of an entry.
    ///
    /// # Errors
    ///
    /// Those of [debug data](#debug-data).
    pub fn repro_of(&self, entry: &DebugEntry) -> Result<Option<Repro<'a>>, Error> {
        self.of_entry(entry, IMAGE_DEBUG_TYPE_REPRO).repro
    }

    /// The POGO record, if it has one of the two signatures.
    ///
    /// # Errors
    ///
    /// Those of [debug data](#debug-data).
    pub fn pogo(&self) -> Result<Option<Pogo<'a>>, Error> {
        self.debug_records().pogo
    }

    /// The same of the record of an entry.
    ///
    /// # Errors
    ///
    /// Those of [debug data](#debug-data).
    pub fn pogo_of(&self, entry: &DebugEntry) -> Result<Option<Pogo<'a>>, Error> {
        self.of_entry(entry, IMAGE_DEBUG_TYPE_POGO).pogo
    }

    /// The portable PDB in the record of an entry, whose type is `IMAGE_DEBUG_TYPE_EMBEDDEDPORTABLEPDB`, 17.
    ///
    /// # Errors
    ///
    /// Those of [debug data](#debug-data).
    pub fn embedded_pdb_of(&self, entry: &DebugEntry) -> Result<Option<EmbeddedPdb<'a>>, Error> {
        self.of_entry(entry, IMAGE_DEBUG_TYPE_EMBEDDEDPORTABLEPDB).embedded_pdb
    }

    /// The checksum of the PDB in the record of an entry, whose type is `IMAGE_DEBUG_TYPE_PDBCHECKSUM`, 19.
    ///
    /// # Errors
    ///
    /// Those of [debug data](#debug-data).
    pub fn pdb_checksum_of(&self, entry: &DebugEntry) -> Result<Option<PdbChecksum<'a>>, Error> {
        self.of_entry(entry, IMAGE_DEBUG_TYPE_PDBCHECKSUM).pdb_checksum
    }
}
