//! Reads PE images (Windows .exe and .dll files) by a proved library: headers, debug data, certificates, x64 and ARM64
//! unwind data, exports, imports, delay and bound imports, TLS callbacks, the load configuration, base relocations, the CLR
//! header with its metadata, Rich headers, resources, version information and the manifest; also TE images, COFF objects,
//! minidumps and program databases. It walks stacks, changes resources, and says what signatures say. For signing tools it says what a digest covers,
//! and attaches and detaches certificates.
//!
//! The library is proved to return what its definitions say, for every byte string; this crate is a thin safe layer over
//! it, and is tested. Start with [`Image::parse`], or for a module in memory [`Image::parse_as`]; each part of an image is a
//! method of [`Image`]:
//!
//! | part | methods | layout |
//! |---|---|---|
//! | headers, sections | [`info`](Image::info), [`headers`](Image::headers), [`sections`](Image::sections), [`offset`](Image::offset) | [PE Format] |
//! | debug data | [`symbol_key`](Image::symbol_key), [`debug_entries`](Image::debug_entries), [`pogo`](Image::pogo), .. | [debug section] |
//! | certificates | [`certificates`](Image::certificates); what a signature says [`Signature`] | [certificate table] |
//! | sections and images written | [`write_sections`](Image::write_sections), [`write_whole`](Image::write_whole), [`write_image`](Image::write_image), [`write_certificates`](Image::write_certificates) | [section table] |
//! | signing | [`digest_ranges`](Image::digest_ranges), [`checksum`](Image::checksum), [`attach`](Image::attach), [`detach`](Image::detach) | [image hash] |
//! | unwind data | [`functions`](Image::functions), [`arm64_functions`](Image::arm64_functions) | [x64], [ARM64] |
//! | a stack walk | [`Frames`], on x64 and ARM64; one step of it [`Functions::step`], [`Registers::leaf`], over memory in pieces [`Functions::step_pieces`] | [x64] |
//! | | one step of it on ARM64 [`Arm64Functions::step`], [`Arm64Registers::leaf`] | [ARM64] |
//! | names of functions | [`function_names`](Image::function_names), of a dump [`DumpImages::function_names`] | [.edata] |
//! | exports, imports | [`exports`](Image::exports), [`export_addresses`](Image::export_addresses), [`libraries`](Image::libraries) | [.edata], [.idata] |
//! | delay imports | [`delay_imports`](Image::delay_imports), [`delayed_functions`](Image::delayed_functions) | [delay load] |
//! | bound imports | [`bound_imports`](Image::bound_imports), [`bound_forwarders`](Image::bound_forwarders) | |
//! | section names, Rich header | [`long_section_name`](Image::long_section_name), [`rich_header`](Image::rich_header) | [section table], [Rich header] |
//! | thread-local storage | [`tls`](Image::tls), [`tls_callbacks`](Image::tls_callbacks) | [.tls] |
//! | load configuration | [`load_config`](Image::load_config), [`load_config_field`](Image::load_config_field), [`guard_table`](Image::guard_table) | [load config] |
//! | base relocations | [`relocation_blocks`](Image::relocation_blocks) | [.reloc] |
//! | .NET | [`clr`](Image::clr) | [ECMA-335], II.24 and II.25 |
//! | resources | [`version`](Image::version), [`version_text`](Image::version_text), [`version_blocks`](Image::version_blocks), [`manifest`](Image::manifest) | [version information] |
//! | | [`resource_leaves`](Image::resource_leaves), [`resource_root`](Image::resource_root); to change them [`ResourceEditor`] | [.rsrc] |
//! | other files | TE images [`Te`], COFF objects [`Coff`] | [PE Format] |
//! | | minidumps [`Dump`], the stacks of one [`Stacks`] | |
//! | | program databases [`Pdb`], names of functions [`Symbolizer`] | |
//!
//! [PE Format]: https://learn.microsoft.com/windows/win32/debug/pe-format
//! [debug section]: https://learn.microsoft.com/windows/win32/debug/pe-format#the-debug-section
//! [certificate table]: https://learn.microsoft.com/windows/win32/debug/pe-format#the-attribute-certificate-table-image-only
//! [image hash]: https://learn.microsoft.com/windows/win32/debug/pe-format#process-for-generating-the-authenticode-pe-image-hash
//! [x64]: https://learn.microsoft.com/cpp/build/exception-handling-x64
//! [ARM64]: https://learn.microsoft.com/cpp/build/arm64-exception-handling
//! [.edata]: https://learn.microsoft.com/windows/win32/debug/pe-format#the-edata-section-image-only
//! [.idata]: https://learn.microsoft.com/windows/win32/debug/pe-format#the-idata-section
//! [delay load]: https://learn.microsoft.com/windows/win32/debug/pe-format#delay-load-import-tables-image-only
//! [.tls]: https://learn.microsoft.com/windows/win32/debug/pe-format#the-tls-section
//! [load config]: https://learn.microsoft.com/windows/win32/debug/pe-format#the-load-configuration-structure-image-only
//! [.reloc]: https://learn.microsoft.com/windows/win32/debug/pe-format#the-reloc-section-image-only
//! [ECMA-335]: https://www.ecma-international.org/publications-and-standards/standards/ecma-335/
//! [section table]: https://learn.microsoft.com/windows/win32/debug/pe-format#section-table-section-headers
//! [Rich header]: https://www.ntcore.com/files/richsign.htm
//! [.rsrc]: https://learn.microsoft.com/windows/win32/debug/pe-format#the-rsrc-section
//! [version information]: https://learn.microsoft.com/windows/win32/menurc/vs-versioninfo
//!
//! - An `Image` borrows the bytes of the file or module. Names, bodies and texts are slices of these bytes: they outlive the
//!   `Image`.
//! - Of a directory that is absent lists are empty, and what has fields of its own is `Ok(None)`; [`ImageInfo::directory`] says
//!   whether it is there. A damaged one is an [`Error`]. An error in one part, a directory or a debug
//!   record, does not affect another; of debug records that is proved over all bytes.
//! - Every list is an iterator. After an `Err` item it returns `None`; [`VersionBlocks`] alone may go on after one.
//! - No bytes, registers or memory make a call panic or loop forever. Iterators read many items at a time, into memory of their own.
//!   What else allocates as much as a file says names [`Error::MEMORY`] among its errors, but for a clone.
//! - Names that the library proves to be UTF-8 are `&str`: of DLLs, functions, forwarders, symbols, long names of sections. Others are
//!   bytes, as the name of a PDB, whose code page nothing says.
//! - Records to which fields may be added are `#[non_exhaustive]`: read them by their fields. For a test of your own make one by
//!   `Default`, or by `new` where a field has no default, and set its fields. What leads on to more, as a [`Library`] or a
//!   [`ResourceLeaf`], comes of an image alone. What a caller passes in, as a [`Stack`] or [`Registers`], has all its fields.
//!
//! ```
//! use pe_c::{Export, FunctionName, NameSource};
//!
//! let (mut export, mut found) = (Export::default(), FunctionName::new(NameSource::Export));
//! (export.name, export.rva) = ("f", 0x1000);
//! (found.name, found.start) = (Some(export.name), export.rva);
//! ```
//!
//! - The feature `serde` has records implement `Serialize`, also with fields of `pe.h`: names are texts with U+FFFD for what is not UTF-8,
//!   contents hexadecimal digits, GUIDs texts, errors their texts.
//!
//! ```
//! # #[cfg(feature = "serde")] {
//! # let bytes: &[u8] = include_bytes!(concat!(env!("CARGO_MANIFEST_DIR"), "/../../crates/peinfo/data/i.bin"));
//! let image = pe_c::Image::parse(bytes, pe_c::Mode::Strict)?;
//! let section = serde_json::to_value(image.sections()[0]).expect("a record");
//! assert_eq!((section["name"].as_str(), section["virtual_address"].as_u64()), (Some(".rdata"), Some(0x1000)));
//! # }
//! # Ok::<(), pe_c::Error>(())
//! ```
//!
//! - `{:?}` of a record prints names as texts, up to 256 bytes of each, and contents by how many bytes they have: never the file.
//! - An `offset` counts bytes from the start of the image's bytes: a file offset, or in a module in memory an RVA.
//! - The docs of a call list its errors in the order in which they are tested.
//!
//! ```
//! # let bytes: &[u8] = include_bytes!(concat!(env!("CARGO_MANIFEST_DIR"), "/../../crates/peinfo/data/i.bin"));
//! use pe_c::{Image, Mode};
//!
//! let image = Image::parse(bytes, Mode::Strict)?;
//! assert_eq!(image.info().entry, 0x1000);
//! let functions = image.functions()?.expect("an x64 image with exception data");
//! let found = functions.find(0x1025)?.expect("a function covers the RVA");
//! assert_eq!((found.begin, found.end), (0x1020, 0x1040));
//! for record in functions.plan(found) {
//!     for code in record?.codes() {
//!         println!("{:?}", code?.operation);
//!     }
//! }
//! # Ok::<(), pe_c::Error>(())
//! ```
//!
//! The library is `libpe_c.a`, for Linux on x86-64 (or on ARM64, or for Windows on x64): for every such processor if `make`
//! or `rt lib --cpu x86-64` built it, by `rt lib` alone for those with SSE4.2 and POPCNT. `build.rs` takes it from the folder
//! that `PE_C_FOLDER` names; without that variable from `crates/pe_c/out` of the repository, else from where pkg-config finds
//! `pe_c`. Without it the crate compiles, and does not link.
#![no_std]
#![deny(missing_docs)]
#![warn(unsafe_op_in_unsafe_fn)]

extern crate alloc;

/// The program of README, as a test of documents.
#[cfg(doctest)]
#[doc = include_str!("../README.md")]
struct Readme;

mod arm64;
mod bound_imports;
mod by_hand;
mod certificates;
mod clr;
mod coff;
mod debug;
mod delay_imports;
mod dump;
mod exports;
mod failure;
mod frames;
mod function_names;
mod guard_tables;
mod image;
mod image_write;
mod imports;
mod load_config;
mod pdb;
mod pdb_lines;
mod relocations;
mod resource_edit;
mod resources;
mod rich_header;
mod section_names;
mod section_write;
#[cfg(feature = "serde")]
mod serialized;
mod shown;
mod signatures;
mod signing;
mod stack_walk;
mod stacks;
mod symbol_server;
mod symbolizer;
pub mod sys;
mod te;
mod tls;
mod version;
mod version_blocks;
mod version_edit;
mod walk;
mod x64;

pub use arm64::{
    Arm64Code, Arm64Codes, Arm64Functions, Arm64Operation, Arm64Record, Arm64Scopes, Arm64Unwinding, CustomStack,
    RegisterKind,
};
pub use bound_imports::{
    AllBoundForwarders, BoundForwarder, BoundForwarders, BoundImport, BoundImports, LibraryForwarder,
};
pub use certificates::{Certificate, Certificates};
pub use clr::{Clr, Metadata, MetadataStream, MetadataStreams};
pub use coff::{Coff, NamedSymbol, Symbol, Symbols};
pub use debug::{
    DebugEntries, DebugRecords, EmbeddedPdb, Pdb20, PdbChecksum, Pogo, PogoEntries, PogoEntry, Repro, SymbolKey,
};
pub use delay_imports::{
    AllDelayedFunctions, DelayImport, DelayImports, DelayedFunction, DelayedFunctions, LibraryFunction,
};
pub use dump::{Dump, DumpContext, DumpMemory64, DumpRecords, DumpRegisters};
pub use exports::{AddressTable, Export, Exported, Exports};
pub use failure::{DebugRecord, Failure};
pub use frames::{MemoryList, Stack, StepError};
pub use function_names::{FunctionName, NameSource, NameTable};
pub use guard_tables::{GuardEntries, GuardEntry, GuardTable};
pub use image::{DirectoryIndex, Error, Image, Layout, Mode};
pub use imports::{AllImports, Import, Imports, Libraries, Library, LibraryImport};
pub use load_config::{LoadConfig, LoadConfigField};
pub use pdb::{Omap, Pdb, PdbModule, PdbReader, PdbSymbol};
pub use pdb_lines::{PdbLine, PdbLines, SourceNames};
pub use relocations::{Relocation, RelocationBlock, RelocationBlocks, Relocations};
pub use resource_edit::{ResourceContent, ResourceEditor, ResourceKey, ResourcePlace};
pub use resources::{ResourceDirectory, ResourceItem, ResourceItems, ResourceLeaf, ResourceLeaves, ResourceName};
pub use rich_header::{RichEntries, RichEntry, RichHeader};
pub use signatures::{
    Algorithm, Algorithms, Attribute, Attributes, Extension, Extensions, IndirectData, KeyPurposes, KnownOid, Name,
    NameAttribute, NameAttributes, Oid, OpusInfo, Signature, SignatureError, Signer, Signers, Time, TimeStamp, X509s,
    X509,
};
pub use signing::{Checksum, DigestRanges, Placement};
pub use stack_walk::{End, Frame, Frames, MachineRegisters, Module, Way};
pub use stacks::{DumpImage, DumpImages, DumpMemory, DumpStack, ImageSource, Stacks};
pub use symbol_server::{Guid, SymbolPath};
pub use symbolizer::{DamagedModule, SymbolFrame, Symbolizer};
pub use sys::{
    Arm64Context, Arm64Function, Arm64Packed, Arm64Registers, Arm64Scope, CodeAddress, CoffHeader, Context, DebugEntry,
    Directory, DosHeader, DumpEntry, DumpException, DumpHandle, DumpInfo, DumpLocation, DumpModule, DumpPiece,
    DumpPower, DumpProcess, DumpRegion, DumpSystem, DumpThread, DumpThreadInfo, DumpThreadName, DumpThreadStack,
    DumpTimes, DumpUnloaded, DumpVersion, ExportFields, Function, Headers, ImageInfo, MemoryPiece, OptionalHeader,
    PdbInfo, Registers, Scope, Section, SymbolEntry, TeHeader, VcFeatures,
};
pub use te::{Te, TeDebugEntries};
pub use tls::{Tls, TlsCallbacks};
pub use version::{FixedVersion, Text, VersionName};
pub use version_blocks::{VersionBlock, VersionBlocks, VersionLanguage};
pub use version_edit::VersionInfo;
pub use x64::{Code, Codes, Functions, Handler, Offset, Operation, Plan, Register, Scopes, UnwindRecord};
