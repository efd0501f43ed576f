//! A sample of the ways in which calls take an index of the sections, and walks by the sections that they keep. That results by an
//! index are those without is a law. Two sections map the same RVAs to two halves of the
//! bytes, without an index the first: what leads to the second half shows that the index, or what a walk keeps, is asked.

use super::delay_imports::{
    NO_FUNCTION, NO_LIBRARY as NO_DLL, from as from_dlls, from_function, functions as functions_in,
};
use super::exports::{UNTOUCHED as NO_EXPORT, from as from_exports};
use super::imports::{NO_IMPORT, NO_LIBRARY, from_import, from_library};
use super::made::*;
use super::resource_leaves::{NO_LEAF, walk as walk_over_leaves, with_tree};
use super::steps::{
    pe_c_function_table, pe_c_next_delay_import, pe_c_next_delayed_function, pe_c_next_export,
    pe_c_next_import, pe_c_next_library, pe_c_next_resource_leaf,
};
use super::unwinding::plan_from;
use crate::directories::pe_c_directory_table;
use crate::unwinding::pe_c_next_record;
use calls_directories::names::exports::Exports;
use calls_directories::names::imports::{Imports, Libraries};
use calls_unwind::unwinding::UnwindRecord;
use pe_images::image as bytes_of;

/// Where the second half of the bytes starts.
const HALF: usize = 0x400;

/// Both map the RVAs from 0x1000 up to 0x1400, without an index the first.
fn halves() -> [SectionTable; 2] {
    [
        section(0x1000, 0x1000, 0, 0x400),
        section(0x1000, 0x1000, 0x400, 0x400),
    ]
}

/// Both halves have these parts; their offsets are those of the first.
fn in_both(alloc: Global, parts: &[(usize, &[u8])]) -> Result<Vec<u8>, Fail> {
    let mut bytes = bytes_of(alloc, 2 * HALF, parts)?;
    let (first, second) = bytes.split_at_mut(HALF);
    second.copy_from_slice(first);
    Ok(bytes)
}

/// An image with a directory at RVA 0x1010.
fn with_directory(index: usize, size: u32) -> Image {
    having(image(X64), index, directory(0x1010, size))
}

/// What a call returns by an index that names the second section for all RVAs.
fn by_second<T: Copy, F: Fn(&View<'_>) -> T>(bytes: &[u8], image: &Image, call: F) -> T {
    let (sections, index) = (halves(), from_start(2));
    call(&View {
        index: &index,
        ..view(bytes, image, &sections)
    })
}

/// The range that a call hands out.
fn range_by<F: Fn(&View<'_>, &mut Range) -> u32>(call: F, view: &View<'_>) -> (u32, [u64; 2]) {
    let mut out = untouched();
    let answer = call(view, &mut out);
    (answer, of_range(out))
}

#[test]
fn ranges_of_tables(rt: HostRuntime) -> Result<(), Fail> {
    let bytes = in_both(rt.alloc(), &[])?;
    let want = (DONE, [0x410, 24]);
    let found = by_second(&bytes, &with_directory(3, 24), |view| {
        range_by(|v, out| pe_c_function_table(v, out), view)
    });
    assert_eq!(rt; found, want);
    let found = by_second(&bytes, &with_directory(13, 24), |view| {
        range_by(|v, out| pe_c_directory_table(v, 13, out), view)
    });
    assert_eq!(rt; found, want);
    Ok(())
}

// ---- walks

/// In the first half tables that are read by their offsets: of exports at 10h, a record of a library at 20h, an import at 40h, an
/// entry of a DLL at 50h, a resource tree at 200h. Their RVAs lead to the second half: to the name `first` at 480h, a list at 4A0h,
/// a hint 7 and the name `f` at 4C0h, a record with a prolog of 9 bytes at 4E0h.
fn with_walks(alloc: Global) -> Result<Vec<u8>, Fail> {
    let mut bytes = bytes_of(
        alloc,
        2 * HALF,
        &[
            (0x10, &[0x80, 0x10, 0, 0, 0, 0, 0, 0, 0x90, 0x10]),
            (0x20, &[0xA0, 0x10]),
            (0x2C, &[0x80, 0x10, 0, 0, 0xA0, 0x10]),
            (0x40, &[0xC0, 0x10]),
            (0x50, &[1, 0, 0, 0, 0x80, 0x10]),
            (0x60, &[0xD0, 0x10]),
            (0x404, b"abcde"),
            (0x480, b"first"),
            (0x4A0, &[5, 0, 0, 0, 0, 0, 0, 0x80]),
            (0x4C0, b"\x07\0f"),
            (0x4E0, &[1, 9, 0, 0]),
        ],
    )?;
    let tree = with_tree(alloc)?;
    bytes[0x200..0x28E].copy_from_slice(&tree[0x20..0xAE]);
    Ok(bytes)
}

/// The result of a step, the range of a name or of a content, and another number of what goes out.
type Step = (u32, [u64; 2], u64);

/// A step and what the walk keeps after it, where it leads to the second half: by an index; by the number that the walk kept
/// before; and by the second of 33 sections, which alone has the RVAs, and which the walk keeps then.
fn ways<F: Fn(&View<'_>, KeptSections) -> (Step, KeptSections)>(
    bytes: &[u8],
    step: F,
) -> [(Step, [u32; 2]); 3] {
    let (image, sections, index) = (image(X64), halves(), from_start(2));
    let mut many = [section(0x9000, 0x1000, 0, 0x400); 33];
    many[1] = section(0x1000, 0x1000, 0x400, 0x400);
    let none = KeptSections {
        first: 0,
        second: 0,
    };
    let second = KeptSections { first: 2, ..none };
    let few = view(bytes, &image, &sections);
    let by_index = View {
        index: &index,
        ..few
    };
    let all = [
        step(&by_index, none),
        step(&few, second),
        step(&view(bytes, &image, &many), none),
    ];
    all.map(|(step, kept)| (step, [kept.first, kept.second]))
}

fn same_step(step: Step) -> [(Step, [u32; 2]); 3] {
    [(step, [0, 0]), (step, [2, 0]), (step, [2, 0])]
}

#[test]
fn steps(rt: HostRuntime) -> Result<(), Fail> {
    let bytes = with_walks(rt.alloc())?;
    let export = ways(&bytes, |view, kept| {
        let mut walk = from_exports(Exports {
            names: range(0x10, 4),
            ordinals: range(0x14, 2),
            addresses: range(0x18, 4),
            next: 0,
            directory: directory(0, 0),
        });
        walk.kept = kept;
        let mut out = NO_EXPORT;
        let answer = pe_c_next_export(view, &mut walk, &mut out);
        ((answer, of_range(out.name), out.offset), walk.kept)
    });
    assert_eq!(rt; export, same_step((DONE, [0x480, 5], 0x490)));
    let library = ways(&bytes, |view, kept| {
        let mut walk = from_library(Libraries {
            next: 0x20,
            is_over: 0,
            spare: 0,
        });
        walk.kept = kept;
        let mut out = NO_LIBRARY;
        let answer = pe_c_next_library(view, &mut walk, &mut out);
        let list = out.imports.left.offset;
        ((answer, of_range(out.name), list), walk.kept)
    });
    assert_eq!(rt; library, same_step((DONE, [0x480, 5], 0x4A0)));
    let import = ways(&bytes, |view, kept| {
        let mut walk = from_import(Imports {
            left: range(0x40, 8),
            rva: 0x1000,
        });
        walk.kept = kept;
        let mut out = NO_IMPORT;
        let answer = pe_c_next_import(view, &mut walk, &mut out);
        let hint = u64::from(out.ordinal);
        ((answer, of_range(out.name), hint), walk.kept)
    });
    assert_eq!(rt; import, same_step((DONE, [0x4C2, 1], 7)));
    let dll = ways(&bytes, |view, kept| {
        let mut walk = from_dlls(range(0x50, 64));
        walk.kept = kept;
        let mut out = NO_DLL;
        let answer = pe_c_next_delay_import(view, &mut walk, &mut out);
        let table = out.functions.left.offset;
        ((answer, of_range(out.name), table), walk.kept)
    });
    assert_eq!(rt; dll, same_step((DONE, [0x480, 5], 0x4D0)));
    let function = ways(&bytes, |view, kept| {
        let mut walk = from_function(functions_in([0x40, 16], 1));
        walk.kept = kept;
        let mut out = NO_FUNCTION;
        let answer = pe_c_next_delayed_function(view, &mut walk, &mut out);
        let hint = u64::from(out.ordinal);
        ((answer, of_range(out.name), hint), walk.kept)
    });
    assert_eq!(rt; function, same_step((DONE, [0x4C2, 1], 7)));
    let leaf = ways(&bytes, |view, kept| {
        let mut walk = walk_over_leaves(range(0x200, 0x8E), range(16, 16), NO_RANGE, NO_RANGE);
        walk.kept = kept;
        let mut out = NO_LEAF;
        let answer = pe_c_next_resource_leaf(view, &mut walk, &mut out);
        let rva = u64::from(out.rva);
        ((answer, of_range(out.content), rva), walk.kept)
    });
    assert_eq!(rt; leaf, same_step((DONE, [0x404, 5], 0x1004)));
    let record = ways(&bytes, |view, kept| {
        let mut walk = plan_from(0x10E0);
        walk.kept = kept;
        let mut out: UnwindRecord = filled();
        let answer = pe_c_next_record(view, &range(0, 0), &mut walk, &mut out);
        let prolog = u64::from(out.size_of_prolog);
        ((answer, of_range(out.codes.left), prolog), walk.kept)
    });
    assert_eq!(rt; record, same_step((DONE, [0x4E4, 0], 9)));
    Ok(())
}

// ---- records of x64 and ARM64
