//! Options of parsing, under the name that goblin has beside its formats.

pub use crate::pe::options::{ParseMode, ParseOptions};
