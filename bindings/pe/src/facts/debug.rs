//! Debug data: the entries of the directory, and of the records that have a reader the first of each type.

use super::name::text;
use super::{entry, field, hex_of, Flags, List, Name, Named, Part, Refusal, Stamp};
use crate::names::{DEBUG_TYPES, EXTENDED_DLL_CHARACTERISTICS};
use pe_c::{DebugEntry, Directory, DirectoryIndex, Error, Image, Repro, SymbolKey, Te};
use serde::Serialize;

#[derive(Clone, Debug, Serialize)]
pub struct Debug<'a> {
    #[serde(flatten)]
    pub entries: Part<List<Entry>>,
    /// The PDB of the CodeView record, if that is one of PDB 7.0.
    #[serde(flatten)]
    pub pdb: Part<Pdb<'a>>,
    /// The PDB of a CodeView record of PDB 2.0.
    #[serde(flatten)]
    pub pdb20: Part<Pdb20<'a>>,
    #[serde(flatten)]
    pub repro: Part<ReproRecord>,
    #[serde(flatten)]
    pub pogo: Part<Pogo<'a>>,
    #[serde(flatten)]
    pub vc_features: Part<VcFeatures>,
    #[serde(flatten)]
    pub extended: Part<Extended>,
    #[serde(flatten)]
    pub embedded_pdb: Part<EmbeddedPdb>,
    #[serde(flatten)]
    pub pdb_checksum: Part<PdbChecksum<'a>>,
}

/// `IMAGE_DLLCHARACTERISTICS_EX_` flags.
#[derive(Clone, Debug, Serialize)]
#[serde(transparent)]
pub struct Extended(pub Flags);

entry!(Entry, "entries");
entry!(PogoPart<'_>, "parts");
field!(Pdb<'_>, "pdb");
field!(Pdb20<'_>, "pdb20");
field!(ReproRecord, "repro");
field!(Pogo<'_>, "pogo");
field!(VcFeatures, "vc_features");
field!(Extended, "extended_dll_characteristics");
field!(EmbeddedPdb, "embedded_pdb");
field!(PdbChecksum<'_>, "pdb_checksum");

#[derive(Clone, Debug, Serialize)]
pub struct Entry {
    pub r#type: Named,
    pub size: u32,
    pub rva: u32,
    pub file_offset: u32,
    #[serde(flatten)]
    pub stamp: Stamp,
}

#[derive(Clone, Debug, Serialize)]
pub struct Pdb<'a> {
    #[serde(flatten, serialize_with = "text::name")]
    pub name: Name<'a>,
    pub guid: String,
    pub age: u32,
    /// The GUID's digits and the age.
    pub key: String,
    /// Null where the name can't be that of a file.
    pub symbol_server_path: Option<String>,
}

#[derive(Clone, Debug, Serialize)]
pub struct Pdb20<'a> {
    #[serde(flatten, serialize_with = "text::name")]
    pub name: Name<'a>,
    #[serde(flatten)]
    pub stamp: Stamp,
    pub age: u32,
}

#[derive(Clone, Debug, Serialize)]
pub struct ReproRecord {
    /// Null where the time stamps of the image are the hash.
    pub hash_hex: Option<String>,
}

#[derive(Clone, Debug, Serialize)]
pub struct Pogo<'a> {
    /// `LTCG` or `PGU`.
    pub signature: &'static str,
    #[serde(flatten)]
    pub parts: Part<List<PogoPart<'a>>>,
}

#[derive(Clone, Debug, Serialize)]
pub struct PogoPart<'a> {
    #[serde(flatten, serialize_with = "text::name")]
    pub name: Name<'a>,
    pub rva: u32,
    pub size: u32,
}

/// Counts of compiled files, as `dumpbin /headers` shows them.
#[derive(Clone, Debug, Serialize)]
pub struct VcFeatures {
    pub before_vc_11: u32,
    pub c_and_cpp: u32,
    pub gs: u32,
    pub sdl: u32,
    pub guard_n: u32,
}

/// A portable PDB in the image, as compilers of .NET write it.
#[derive(Clone, Debug, Serialize)]
pub struct EmbeddedPdb {
    /// Bytes, as the record says.
    pub size: u32,
    /// Bytes of Deflate data in the image.
    pub compressed_size: usize,
}

/// A checksum of the PDB file, with zeros in place of its id.
#[derive(Clone, Debug, Serialize)]
pub struct PdbChecksum<'a> {
    #[serde(flatten, serialize_with = "text::algorithm")]
    pub algorithm: Name<'a>,
    pub checksum_hex: String,
}

impl Debug<'_> {
    /// The directory's refusal, or else those of the records, each of which is read by itself.
    pub fn refusals(&self) -> Vec<&Refusal> {
        if let Some(refusal) = self.entries.list_refusal() {
            return vec![refusal];
        }
        let records = [
            self.pdb.refusal(),
            self.pdb20.refusal(),
            self.repro.refusal(),
            self.pogo.refusal().or(self.pogo.present().and_then(|it| it.parts.list_refusal())),
            self.vc_features.refusal(),
            self.extended.refusal(),
            self.embedded_pdb.refusal(),
            self.pdb_checksum.refusal(),
        ];
        let mut found: Vec<&Refusal> = records.into_iter().flatten().collect();
        // PDB 7.0 and 2.0 are one record.
        found.dedup();
        found
    }
}

/// `IMAGE_DEBUG_TYPE_REPRO`.
const REPRO: u32 = 16;

/// `LTCG`, the other signature of POGO records is `PGU`.
const LTCG: u32 = 0x4C54_4347;

pub fn of<'a>(image: &'a Image<'_>) -> Debug<'a> {
    let records = image.debug_records();
    Debug {
        entries: entries_of(image),
        pdb: pdb_of(records.symbol_key),
        pdb20: records.pdb20.map(|it| it.map(pdb20_of)).into(),
        repro: records.repro.map(|it| it.map(repro_of)).into(),
        pogo: records.pogo.map(|it| it.map(pogo_of)).into(),
        vc_features: records.vc_features.map(|it| it.map(features_of)).into(),
        extended: records.debug_characteristics.map(|it| it.map(extended_of)).into(),
        embedded_pdb: records.embedded_pdb.map(|it| it.map(embedded_of)).into(),
        pdb_checksum: records.pdb_checksum.map(|it| it.map(checksum_of)).into(),
    }
}

/// Of a TE image the entries, and the PDB.
pub fn of_te<'a>(te: &Te<'a>) -> Debug<'a> {
    let is_hash = matches!(te.first_debug_entry(REPRO), Ok(Some(_)));
    let is_there = te.header().debug_dir != Directory::default();
    let list = te.debug_entries().map(|it| List::of(it, |entry| entry_of(entry, is_hash)));
    let entries = list.map(|it| is_there.then_some(it));
    Debug {
        entries: entries.into(),
        pdb: pdb_of(te.symbol_key()),
        pdb20: Part::Absent,
        repro: Part::Absent,
        pogo: Part::Absent,
        vc_features: Part::Absent,
        extended: Part::Absent,
        embedded_pdb: Part::Absent,
        pdb_checksum: Part::Absent,
    }
}

fn pdb20_of(record: pe_c::Pdb20<'_>) -> Pdb20<'_> {
    Pdb20 { name: Name(record.name()), stamp: Stamp::of(record.signature), age: record.age }
}

fn embedded_of(record: pe_c::EmbeddedPdb<'_>) -> EmbeddedPdb {
    EmbeddedPdb { size: record.uncompressed_size, compressed_size: record.compressed.len() }
}

fn checksum_of(record: pe_c::PdbChecksum<'_>) -> PdbChecksum<'_> {
    PdbChecksum { algorithm: Name(record.algorithm), checksum_hex: hex_of(record.checksum) }
}

fn extended_of(flags: u32) -> Extended {
    Extended(Flags::of(flags, EXTENDED_DLL_CHARACTERISTICS))
}

fn entries_of(image: &Image<'_>) -> Part<List<Entry>> {
    // The stamps of a reproducible build are a hash.
    let is_hash = matches!(image.repro(), Ok(Some(_)));
    let entries = image.debug_entries().map(|it| List::of(it, |entry| entry_of(entry, is_hash)));
    Part::of_walk(entries, image, DirectoryIndex::Debug)
}

fn entry_of(entry: DebugEntry, is_hash: bool) -> Entry {
    Entry {
        r#type: Named::of(entry.data_type, DEBUG_TYPES),
        size: entry.size_of_data,
        rva: entry.address_of_raw_data,
        file_offset: entry.pointer_to_raw_data,
        stamp: Stamp { seconds: entry.time_date_stamp, is_hash },
    }
}

fn pdb_of(found: Result<Option<SymbolKey<'_>>, Error>) -> Part<Pdb<'_>> {
    let key = found.map(|found| {
        found.map(|key| Pdb {
            name: Name(key.name()),
            guid: key.guid.to_string(),
            age: key.age,
            key: key.to_string(),
            symbol_server_path: key.path().map(|path| path.to_string()),
        })
    });
    key.into()
}

fn repro_of(record: Repro<'_>) -> ReproRecord {
    match record {
        Repro::TimeStamp => ReproRecord { hash_hex: None },
        Repro::Hash(bytes) => ReproRecord { hash_hex: Some(hex_of(bytes)) },
    }
}

fn pogo_of(record: pe_c::Pogo<'_>) -> Pogo<'_> {
    Pogo {
        signature: if record.signature == LTCG { "LTCG" } else { "PGU" },
        parts: Part::Present(List::of(record.entries(), |entry| PogoPart {
            name: Name(entry.name()),
            rva: entry.rva,
            size: entry.size,
        })),
    }
}

fn features_of(record: pe_c::VcFeatures) -> VcFeatures {
    VcFeatures {
        before_vc_11: record.pre_vc_plusplus_count,
        c_and_cpp: record.c_and_cplusplus_count,
        gs: record.guard_stack_count,
        sdl: record.sdl_count,
        guard_n: record.guard_count,
    }
}
