//! All tests of the crate in one program, so that the images that they share are compiled once. `refused_memory` has an allocator of
//! its own, and is a program of its own.

/// A record to which fields may be added, by its own or another's fields.
macro_rules! record {
    ($base:expr; $($field:ident: $value:expr),* $(,)?) => {{
        let mut record = $base;
        $(record.$field = $value;)*
        record
    }};
}

mod facts;
mod made;
mod reading;

mod calls;
mod clr;
mod crashed_walks;
mod delay_imports;
mod dumps;
mod failures;
mod frames;
mod hostile;
mod lists;
mod load_config;
mod many_sections;
mod names_in_one_text;
mod objects;
mod passes;
mod pdbs;
mod resource_edit;
mod resources;
mod shown;
mod signatures;
mod symbol_server;
mod values;
mod version_blocks;
