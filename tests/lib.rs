//! Tests of what no proof sees: vectors from outside, printed text, and what happens where memory runs out.
#![tactic(auto)]

/// That a value has this form.
macro_rules! assert_matches {
    ($rt:expr; $found:expr => $wanted:pat $(if $also:expr)?) => {
        assert!($rt; matches!($found, $wanted $(if $also)?))
    };
}

mod arm64_frames;
mod arm64_records;
mod arm64_walks;
mod bytes;
mod certificates;
mod damaged_images;
mod debug;
mod directories;
mod directory_lists;
mod errors;
mod exports;
mod frames;
mod headers;
mod image_texts;
mod images;
mod imports;
mod jumps;
mod minidumps;
mod pdb_bytes;
mod pdb_inlined_bytes;
mod pdb_lines;
mod pdb_symbols;
mod pdbs;
mod plans;
mod refusals;
mod refused_memory;
mod refusing;
mod requested_memory;
mod resource_leaves;
mod resource_numbers;
mod resource_walks;
mod resources;
mod resources_edited;
mod resources_written;
mod samples;
mod sections;
mod shared;
mod signature_bytes;
mod signatures;
mod signing;
mod stacks;
mod symbols;
mod unwind;
mod version_blocks;
mod version_written;
mod walks;
mod whole_images;
mod writing;
