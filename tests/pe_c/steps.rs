//! The functions of `pe.h`: those that are a list with room for one entry, the next item of a walk and an entry by its index, and
//! those that make two calls, the second over what the first writes.

use super::made::*;
use crate::arm64::{pe_c_list_arm64_codes, pe_c_list_arm64_functions, pe_c_next_arm64_frames};
use crate::debug::pe_c_list_pogo_entries;
use crate::directories::{
    pe_c_list_bound_forwarders, pe_c_list_bound_imports, pe_c_list_delay_imports,
    pe_c_list_delayed_functions, pe_c_list_guard_entries, pe_c_list_relocation_blocks,
    pe_c_list_relocations,
};
use crate::headers::pe_c_next_symbol;
pub(crate) use crate::names::pe_c_next_import;
use crate::names::{pe_c_list_export_addresses, pe_c_list_exports, pe_c_list_libraries};
use crate::resources::{
    pe_c_fixed_version_in, pe_c_list_resource_leaves, pe_c_list_version_blocks,
    pe_c_version_blocks, pe_c_version_text_in,
};
use crate::stack::pe_c_next_frames;
pub(crate) use crate::unwinding::pe_c_function_at;
use crate::unwinding::{pe_c_exception_table, pe_c_list_codes};
use calls_directories::directories::base_relocations::{Relocation, RelocationBlock};
use calls_directories::directories::bound_imports::{BoundForwarder, BoundImport};
use calls_directories::directories::delay_imports::{
    DelayLibrary, DelayWalk, DelayedFunction, DelayedFunctionWalk,
};
use calls_directories::directories::guard_tables::{GuardEntries, GuardEntry};
use calls_directories::names::export_addresses::{AddressTable, Exported};
use calls_directories::names::exports::{Export, ExportWalk};
use calls_directories::names::imports::{Library, LibraryWalk};
use calls_directories::resources::leaves::{LeafWalk, ResourceLeaf};
use calls_directories::resources::version_blocks::VersionBlock;
use calls_headers::coff::{Symbol, SymbolWalk};
use calls_headers::debug::walks::PogoEntry;
use calls_stacks::arm64::stack_walk::Arm64StackWalk;
use calls_stacks::stack::walk::{ModuleView, StackWalk};
use calls_unwind::arm64::codes::{Arm64Code, Arm64CodeWalk};
use calls_unwind::unwinding::{Code, CodeWalk};
use pe_frame::MemoryPiece;
use pe_resource::VsFixedFileInfo;
use pe_unwind::Arm64RuntimeFunction;

/// What such a function returns of a list with room for one entry: `none` where the list writes none.
fn one<T: Copy, F: FnOnce(&mut [T], &mut u64) -> u32>(out: &mut T, none: u32, list: F) -> u32 {
    let (mut entries, mut written) = ([*out], 0);
    let number = list(&mut entries, &mut written);
    *out = entries[0];
    if number == DONE && written == 0 {
        none
    } else {
        number
    }
}

pub(crate) fn pe_c_next_code(bytes: &[u8], walk: &mut CodeWalk, out: &mut Code) -> u32 {
    one(
        out,
        NOTHING,
        |entries, written| pe_c_list_codes(bytes, walk, entries, written),
    )
}

pub(crate) fn pe_c_next_arm64_code(
    bytes: &[u8],
    walk: &mut Arm64CodeWalk,
    out: &mut Arm64Code,
) -> u32 {
    one(
        out,
        NOTHING,
        |entries, written| pe_c_list_arm64_codes(bytes, walk, entries, written),
    )
}

pub(crate) fn pe_c_next_export(view: &View, walk: &mut ExportWalk, out: &mut Export) -> u32 {
    one(
        out,
        NOTHING,
        |entries, written| pe_c_list_exports(view, walk, &mut [], entries, written),
    )
}

pub(crate) fn pe_c_next_delay_import(
    view: &View,
    walk: &mut DelayWalk,
    out: &mut DelayLibrary,
) -> u32 {
    one(
        out,
        NOTHING,
        |entries, written| pe_c_list_delay_imports(view, walk, &mut [], entries, written),
    )
}

pub(crate) fn pe_c_next_delayed_function(
    view: &View,
    walk: &mut DelayedFunctionWalk,
    out: &mut DelayedFunction,
) -> u32 {
    one(
        out,
        NOTHING,
        |entries, written| pe_c_list_delayed_functions(view, walk, &mut [], entries, written),
    )
}

pub(crate) fn pe_c_next_bound_import(
    bytes: &[u8],
    table: &Range,
    walk: &mut Range,
    out: &mut BoundImport,
) -> u32 {
    one(
        out,
        NOTHING,
        |entries, written| pe_c_list_bound_imports(bytes, table, walk, &mut [], entries, written),
    )
}

pub(crate) fn pe_c_next_bound_forwarder(
    bytes: &[u8],
    table: &Range,
    walk: &mut Range,
    out: &mut BoundForwarder,
) -> u32 {
    one(
        out,
        NOTHING,
        |entries, written| pe_c_list_bound_forwarders(
            bytes,
            table,
            walk,
            &mut [],
            entries,
            written,
        ),
    )
}

pub(crate) fn pe_c_next_version_block(
    bytes: &[u8],
    walk: &mut Range,
    out: &mut VersionBlock,
) -> u32 {
    one(
        out,
        NOTHING,
        |entries, written| pe_c_list_version_blocks(bytes, walk, entries, written),
    )
}

pub(crate) fn pe_c_next_resource_leaf(
    view: &View,
    walk: &mut LeafWalk,
    out: &mut ResourceLeaf,
) -> u32 {
    one(
        out,
        NOTHING,
        |entries, written| pe_c_list_resource_leaves(view, walk, entries, written),
    )
}

pub(crate) fn pe_c_next_relocation_block(
    bytes: &[u8],
    walk: &mut Range,
    out: &mut RelocationBlock,
) -> u32 {
    one(
        out,
        NOTHING,
        |entries, written| pe_c_list_relocation_blocks(bytes, walk, entries, written),
    )
}

pub(crate) fn pe_c_next_relocation(
    bytes: &[u8],
    page_rva: u32,
    walk: &mut Range,
    out: &mut Relocation,
) -> u32 {
    one(
        out,
        NOTHING,
        |entries, written| pe_c_list_relocations(bytes, page_rva, walk, entries, written),
    )
}

pub(crate) fn pe_c_next_guard_entry(
    bytes: &[u8],
    walk: &mut GuardEntries,
    out: &mut GuardEntry,
) -> u32 {
    one(
        out,
        NOTHING,
        |entries, written| pe_c_list_guard_entries(bytes, walk, entries, written),
    )
}

pub(crate) fn pe_c_next_pogo_entry(bytes: &[u8], walk: &mut Range, out: &mut PogoEntry) -> u32 {
    one(
        out,
        NOTHING,
        |entries, written| pe_c_list_pogo_entries(bytes, walk, entries, written),
    )
}

pub(crate) fn pe_c_function_table(view: &View, out: &mut Range) -> u32 {
    pe_c_exception_table(view, 0x8664, out)
}

pub(crate) fn pe_c_arm64_table(view: &View, out: &mut Range) -> u32 {
    pe_c_exception_table(view, 0xAA64, out)
}

pub(crate) fn pe_c_arm64_function_at(
    bytes: &[u8],
    table: &Range,
    index: u64,
    out: &mut Arm64RuntimeFunction,
) -> u32 {
    let mut next = index;
    one(
        out,
        FUNCTION_INDEX,
        |entries, written| pe_c_list_arm64_functions(bytes, table, &mut next, entries, written),
    )
}

pub(crate) fn pe_c_next_frame(
    modules: &[ModuleView<'_>],
    memory: &[u8],
    pieces: &[MemoryPiece],
    walk: &mut StackWalk,
) -> u32 {
    pe_c_next_frames(modules, memory, pieces, walk, &mut [*walk], &mut 0)
}

pub(crate) fn pe_c_next_arm64_frame(
    modules: &[ModuleView<'_>],
    memory: &[u8],
    pieces: &[MemoryPiece],
    walk: &mut Arm64StackWalk,
) -> u32 {
    pe_c_next_arm64_frames(modules, memory, pieces, walk, &mut [*walk], &mut 0)
}

/// The next library by its call, if a list with room for one has the same; else a number that no call returns.
pub(crate) fn pe_c_next_library(view: &View, walk: &mut LibraryWalk, out: &mut Library) -> u32 {
    let (mut before, mut listed) = (*walk, *out);
    let number = one(
        &mut listed,
        NOTHING,
        |entries, written| pe_c_list_libraries(view, &mut before, &mut [], entries, written),
    );
    let called = crate::names::pe_c_next_library(view, walk, out);
    let is_same = raw(&listed) == raw(out) && raw(&before) == raw(walk);
    if number == called && is_same {
        called
    } else {
        9999
    }
}

/// The export with an index by its call, if a list with room for one has the same; else a number that no call returns.
pub(crate) fn pe_c_export_at(
    view: &View,
    table: &AddressTable,
    index: u64,
    out: &mut Exported,
) -> u32 {
    let (mut next, mut listed) = (index, *out);
    let number = one(
        &mut listed,
        NOTHING,
        |entries, written| pe_c_list_export_addresses(
            view,
            table,
            &mut next,
            &mut [],
            entries,
            written,
        ),
    );
    let called = crate::names::pe_c_export_at(view, table, index, out);
    if number == called && raw(&listed) == raw(out) {
        called
    } else {
        9999
    }
}

pub(crate) fn pe_c_symbol(bytes: &[u8], table: &Range, index: u64, out: &mut Symbol) -> u32 {
    let mut walk = SymbolWalk {
        table: *table,
        next: index,
    };
    pe_c_next_symbol(bytes, &mut walk, out)
}

pub(crate) fn pe_c_fixed_version(view: &View, out: &mut VsFixedFileInfo) -> u32 {
    let mut found = NO_BYTES;
    let number = pe_c_version_blocks(view, &mut found);
    if number == DONE {
        pe_c_fixed_version_in(view.bytes, &found, out)
    } else {
        number
    }
}

pub(crate) fn pe_c_version_text(view: &View, name: u32, out: &mut Range) -> u32 {
    if name > 11 {
        return NOTHING;
    }
    let mut found = NO_BYTES;
    let number = pe_c_version_blocks(view, &mut found);
    if number == DONE {
        pe_c_version_text_in(view.bytes, &found, name, out)
    } else {
        number
    }
}
