//! goblin's module `pe`, with goblin's names and types, over the proved library for C.
//!
//! A program that uses `goblin::pe`, itself or by another crate, has two lines more in its `Cargo.toml`, and no other source:
//!
//! ```toml
//! [patch.crates-io]
//! goblin = { path = "../bindings/goblin" }
//! ```
//!
//! Each number, range and text of an image is what a call of the library returns, which is proved to be what its definition
//! says, for every byte string. This crate turns them into goblin's types; that is tested, not proved. What no call returns
//! yet is read by this crate itself, in one private module. `docs/FROM_GOBLIN.md` of the repository says of each public item
//! which it is, and `docs/DIFFERENCES.md` what differs from goblin on purpose.
//!
//! | module | has |
//! |---|---|
//! | [`pe`] | images, TE images, COFF objects |
//! | [`strtab`] | string tables |
//! | [`error`] | [`error::Error`] |
//! | [`container`] | the width of a binary, and the order of its bytes |
//! | [`Object`] | what a file is: an image, a TE image, an object; of another format with the feature `rest` |
//! | `elf`, `elf32`, `elf64`, `mach`, `archive` | those of goblin 0.2.1, with the feature `rest` |
//!
//! - No input makes a call panic or loop for ever, but where an interface has no error: `Strtab`'s index, and scroll's `IntoCtx`
//!   into a buffer that is too short. They panic, as in goblin.
//! - A list is reserved before it is filled: out of memory is `Error::IO` with the kind `OutOfMemory`. An image with more
//!   imports or longer names than [`pe::options::Limits`] allows is an error.
//!
//! ```
//! # let bytes: &[u8] = include_bytes!(concat!(env!("CARGO_MANIFEST_DIR"), "/../../crates/peinfo/data/i.bin"));
//! use goblin::pe::PE;
//!
//! let pe = PE::parse(bytes)?;
//! assert_eq!(pe.entry, 0x1000);
//! let exceptions = pe.exception_data.as_ref().expect("an x64 image with exception data");
//! let function = exceptions.find_function(0x1025)?.expect("a function covers the RVA");
//! for code in &exceptions.get_unwind_info(function, &pe.sections)? {
//!     println!("{:?}", code?.operation);
//! }
//! # Ok::<(), goblin::error::Error>(())
//! ```
#![warn(unsafe_op_in_unsafe_fn)]
// scroll derives such units.
#![allow(clippy::unused_unit)]

mod object;
pub mod options;
pub mod pe;
mod raw;
pub mod strtab;

#[cfg(not(feature = "rest"))]
pub mod container;
#[cfg(not(feature = "rest"))]
pub mod error;
pub use object::{peek, peek_bytes, Hint, Object};
#[cfg(feature = "rest")]
pub use rest::{archive, container, elf, elf32, elf64, error, mach, HintData};
