//! The CLR header of an image for the .NET runtime, the streams of its metadata, and the assembly by their tables.

use super::assembly::{self, Tables};
use super::name::text;
use super::{entry, field, Flags, List, Name, Part};
use crate::names::CLR_FLAGS;
use pe_c::{DirectoryIndex, Image, Metadata as FoundMetadata, MetadataStream};
use serde::Serialize;

#[derive(Clone, Debug, Serialize)]
pub struct Clr<'a> {
    /// Of the header in bytes, as it says itself.
    pub size: u32,
    /// The version of the runtime that is needed, such as `2.5`.
    pub runtime_version: String,
    /// `COMIMAGE_FLAGS_`
    pub flags: Flags,
    /// A metadata token, or with `NATIVE_ENTRYPOINT` an RVA.
    pub entry_point_token: u32,
    /// Those that are not absent.
    pub directories: Vec<Directory>,
    #[serde(flatten)]
    pub metadata: Part<Metadata<'a>>,
}

field!(Clr<'_>, "clr");

/// A directory of the header.
#[derive(Clone, Debug, Serialize)]
pub struct Directory {
    pub name: &'static str,
    pub rva: u32,
    pub size: u32,
}

#[derive(Clone, Debug, Serialize)]
pub struct Metadata<'a> {
    /// Of the runtime that the image was made for, such as `v4.0.30319`.
    #[serde(flatten, serialize_with = "text::version")]
    pub version: Name<'a>,
    /// Of the format of the metadata, such as `1.1`.
    pub format_version: String,
    #[serde(flatten)]
    pub streams: Part<List<Stream<'a>>>,
    #[serde(flatten)]
    pub tables: Part<Tables<'a>>,
}

field!(Metadata<'_>, "metadata");

#[derive(Clone, Debug, Serialize)]
pub struct Stream<'a> {
    #[serde(flatten, serialize_with = "text::name")]
    pub name: Name<'a>,
    /// From the start of the metadata.
    pub offset: u32,
    pub size: u32,
    /// Whether its bytes all lie in the metadata.
    pub is_there: bool,
}

entry!(Stream<'_>, "streams");

fn stream_of(stream: MetadataStream<'_>) -> Stream<'_> {
    let MetadataStream { name, content, offset, size, .. } = stream;
    Stream { name: Name(name), offset, size, is_there: content.is_some() }
}

fn metadata_of(found: FoundMetadata<'_>) -> Metadata<'_> {
    Metadata {
        version: Name(found.version_bytes.split(|it| *it == 0).next().unwrap_or_default()),
        format_version: format!("{}.{}", found.major_version, found.minor_version),
        streams: Part::Present(List::of(found.streams(), stream_of)),
        tables: assembly::of(&found),
    }
}

fn clr_of<'a>(clr: pe_c::Clr<'_, 'a>) -> Clr<'a> {
    let header = clr.header();
    let directories = [
        ("metadata", header.metadata),
        ("resources", header.resources),
        ("strong name signature", header.strong_name_signature),
        ("code manager table", header.code_manager_table),
        ("vtable fixups", header.vtable_fixups),
        ("export address table jumps", header.export_address_table_jumps),
        ("managed native header", header.managed_native_header),
    ];
    let present = directories.into_iter().filter(|(_, row)| row.virtual_address != 0 || row.size != 0);
    Clr {
        size: header.cb,
        runtime_version: format!("{}.{}", header.major_runtime_version, header.minor_runtime_version),
        flags: Flags::of(header.flags, CLR_FLAGS),
        entry_point_token: header.entry_point_token,
        directories: present.map(|(name, row)| Directory { name, rva: row.virtual_address, size: row.size }).collect(),
        metadata: clr.metadata().map(|found| Some(metadata_of(found))).into(),
    }
}

pub fn of<'a>(image: &'a Image<'_>) -> Part<Clr<'a>> {
    let found = image.clr().map(|found| found.map(clr_of));
    Part::of_directory(found, image, DirectoryIndex::ComDescriptor)
}

/// Whether more assemblies are referred to than stand here.
pub fn is_limited(clr: &Clr) -> bool {
    let tables = clr.metadata.present().and_then(|it| it.tables.present());
    tables.and_then(|it| it.references.present()).is_some_and(|it| it.is_limited)
}
