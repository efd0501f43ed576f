//! Inlined functions of a PDB that lld-link wrote (`pdb_inlined_bytes`), by what llvm-pdbutil 14.0.6 prints of it: `-symbols` has the
//! rows, `-il` the lines of the functions, `-ids` their names. And which module has which RVA.

use super::made::{
    PDB_ANNOTATION, PDB_CONTRIBUTIONS_SIZE, PDB_CONTRIBUTIONS_VERSION, PDB_INLINE_DEPTH,
    PDB_RECORD_SIZE, PDB_RECORD_TRUNCATED, PDB_SECTION_HEADERS, SHORT, filled, is_filled, of_range,
    range,
};
use super::pdb::{pdb, stream};
use super::pdb_inlined_bytes::{LENGTH, PIECES};
use crate::pdb::index::{pe_c_find_pdb_symbol, pe_c_pdb_index};
use crate::pdb::inlined::{pe_c_find_pdb_inlined, pe_c_pdb_ids};
use crate::pdb::lines::{pe_c_pdb_file_name, pe_c_pdb_files};
use crate::pdb::{pe_c_list_pdb_modules, pe_c_pdb_module_ranges};
use calls_base::ranges::{NO_BYTES, Range};
use calls_base::results::{DONE, NOTHING, ROOM};
use calls_pdb::inlined::PdbInlined;
use calls_pdb::modules::PdbModule;
use calls_pdb::symbols::PdbSymbol;
use pe_images::{image, put};
use pe_pdb::ModuleRange;
use std::alloc::{AllocError, Global};
use std::test::Fail;

/// The streams that inlined functions are read of.
#[derive(Drop)]
struct Streams {
    bytes: Vec<u8>,
    module: PdbModule,
    ids: Vec<u8>,
    sections: Vec<u8>,
}

fn streams(alloc: Global) -> Result<Streams, AllocError> {
    let file = image(alloc, LENGTH, &PIECES)?;
    let dbi = stream(alloc, &file, 3)?;
    let (mut walk, mut modules, mut written) = (range(64, 164), [filled(); 1], 0);
    let _ = pe_c_list_pdb_modules(&dbi, &mut walk, &mut modules, &mut written);
    Ok(Streams {
        bytes: stream(alloc, &file, 11)?,
        module: modules[0],
        ids: stream(alloc, &file, 4)?,
        sections: stream(alloc, &file, 10)?,
    })
}

/// The procedure that has an RVA.
fn procedure_at(streams: &Streams, rva: u32) -> (u32, PdbSymbol) {
    let (mut index, mut count, mut found) = ([0u64; 8], 0, filled());
    let (bytes, sections) = (&streams.bytes, &streams.sections);
    let symbols = &streams.module.symbols;
    let _ = pe_c_pdb_index(1, bytes, symbols, sections, &mut index, &mut count);
    let index = &index[..count as usize];
    let result = pe_c_find_pdb_symbol(1, bytes, sections, index, rva, &mut found);
    (result, found)
}

/// The result, how many there are, and the first two.
fn inlined_at(
    streams: &Streams,
    rva: u32,
    ids: &[u8],
    starts: &[u64],
) -> (u32, u64, [PdbInlined; 2]) {
    let (mut room, mut written) = ([filled(); 2], 9);
    let (_, procedure) = procedure_at(streams, rva);
    let (bytes, module) = (&streams.bytes, &streams.module);
    let result = pe_c_find_pdb_inlined(
        bytes,
        module,
        &procedure,
        rva,
        ids,
        starts,
        &mut room,
        &mut written,
    );
    (result, written, room)
}

fn text(bytes: &[u8], range: Range) -> &[u8] {
    let [offset, length] = of_range(range);
    &bytes[offset as usize..(offset + length) as usize]
}

/// A function: its name, id, line, and where the code of that is.
type Listed<'a> = (&'a [u8], u32, u32, u32, u32);

#[test]
fn inlined_functions_are_those_that_pdbutil_lists(rt: HostRuntime) -> Result<(), Fail> {
    let streams = streams(rt.alloc())?;
    let (mut starts, mut count) = ([9u64; 11], 9);
    let said = pe_c_pdb_ids(&streams.ids, &mut starts[..9], &mut count);
    assert_eq!(rt; said, ROOM);
    assert_eq!(rt; (count, starts), (10, [9; 11]));
    assert_eq!(rt; pe_c_pdb_ids(&streams.ids, &mut starts, &mut count), DONE);
    assert_eq!(rt; (count, starts[0], starts[10]), (10, 0, 9));
    let (twice, clamp) = (b"twice".as_slice(), b"clamp".as_slice());
    let cases: [(u32, &[Listed<'_>]); 7] = [
        (0x1004, &[]),
        (
            0x1005,
            &[(clamp, 0x1001, 2, 5, 0x1B), (twice, 0x1000, 7, 5, 0x1B)],
        ),
        (
            0x101F,
            &[(clamp, 0x1001, 2, 5, 0x1B), (twice, 0x1000, 7, 5, 0x1B)],
        ),
        (0x1020, &[(clamp, 0x1001, 2, 0x20, 0x12)]),
        (
            0x1049,
            &[(clamp, 0x1001, 2, 9, 0x1B), (twice, 0x1000, 7, 9, 0x1B)],
        ),
        (0x1065, &[(twice, 0x1000, 8, 0x24, 2)]),
        (0x1066, &[]),
    ];
    let mut files = NO_BYTES;
    let lines = &streams.module.lines;
    assert_eq!(rt; pe_c_pdb_files(&streams.bytes, lines, &mut files), DONE);
    let names = stream(rt.alloc(), &image(rt.alloc(), LENGTH, &PIECES)?, 13)?;
    for (rva, listed) in cases {
        let (result, written, room) = inlined_at(&streams, rva, &streams.ids, &starts[..10]);
        assert_eq!(rt; (result, written), (DONE, listed.len() as u64));
        for (found, wanted) in room.iter().zip(listed) {
            let own = (found.id, found.line, found.code_offset, found.code_size);
            assert_eq!(rt; text(&streams.ids, found.name), wanted.0);
            assert_eq!(rt; own, (wanted.1, wanted.2, wanted.3, wanted.4));
            assert_eq!(rt; (found.name_result, found.line_result), (DONE, DONE));
            assert_eq!(rt; (of_range(found.scope), found.class_type), ([0, 0], 0));
            let mut name = NO_BYTES;
            let result = pe_c_pdb_file_name(&streams.bytes, &files, &names, found.file, &mut name);
            assert_eq!(rt; (result, text(&names, name)), (DONE, b"c.h".as_slice()));
        }
        for left in room.iter().skip(listed.len()) {
            assert!(rt; is_filled(left));
        }
    }
    Ok(())
}

#[test]
fn a_room_for_fewer_is_unchanged(rt: HostRuntime) -> Result<(), Fail> {
    let streams = streams(rt.alloc())?;
    let (_, procedure) = procedure_at(&streams, 0x1005);
    let (mut room, mut written) = ([filled(); 1], 9);
    let result = pe_c_find_pdb_inlined(
        &streams.bytes,
        &streams.module,
        &procedure,
        0x1005,
        &[],
        &[],
        &mut room,
        &mut written,
    );
    assert_eq!(rt; (result, written, is_filled(&room[0])), (ROOM, 2, true));
    Ok(())
}

/// A damaged stream of ids costs names alone, and damaged lines cost lines alone.
#[test]
fn names_and_lines_are_refused_alone(rt: HostRuntime) -> Result<(), Fail> {
    let mut streams = streams(rt.alloc())?;
    let (mut starts, mut count) = ([9u64; 10], 9);
    assert_eq!(rt; pe_c_pdb_ids(&streams.ids, &mut starts, &mut count), DONE);
    let whole = streams.ids.clone()?;
    let results = |streams: &Streams, ids: &[u8], starts: &[u64]| {
        let (result, written, room) = inlined_at(streams, 0x1005, ids, starts);
        (
            result,
            written,
            room[0].name_result,
            room[0].line_result,
            room[0].line,
        )
    };
    let found = results(&streams, &whole, &starts);
    assert_eq!(rt; found, (DONE, 2, DONE, DONE, 2));
    assert_eq!(rt; results(&streams, &[], &[]), (DONE, 2, SHORT, DONE, 2));
    let found = results(&streams, &whole[..60], &starts);
    assert_eq!(rt; found, (DONE, 2, PDB_RECORD_TRUNCATED, DONE, 2));
    let found = results(&streams, &whole, &starts[..1]);
    assert_eq!(rt; found, (DONE, 2, NOTHING, DONE, 2));
    // The start of a record that is a text, and one outside.
    let found = results(&streams, &whole, &[0, starts[5]]);
    assert_eq!(rt; found, (DONE, 2, NOTHING, DONE, 2));
    let found = results(&streams, &whole, &[0, u64::MAX]);
    assert_eq!(rt; found, (DONE, 2, SHORT, DONE, 2));
    // The first subsection of lines is that of inlined functions, or is truncated.
    let lines = streams.module.lines;
    streams.module.lines = range(of_range(lines)[0], 7);
    let found = results(&streams, &whole, &starts);
    assert_eq!(rt; found, (DONE, 2, DONE, SHORT, 0));
    streams.module.lines = range(of_range(lines)[0], 0);
    let found = results(&streams, &whole, &starts);
    assert_eq!(rt; found, (DONE, 2, DONE, NOTHING, 0));
    streams.module.lines = range(of_range(lines)[0], 1 << 20);
    let found = results(&streams, &whole, &starts);
    assert_eq!(rt; found, (DONE, 2, DONE, SHORT, 0));
    Ok(())
}

/// A procedure of one record, and so many inlined functions in one another, whose code is its first 8 bytes.
fn nested(alloc: Global, count: usize) -> Result<Streams, AllocError> {
    let mut bytes = vec![in alloc; 0u8; 4 + 4 + 20 * count]?;
    put(&mut bytes, &[(4, b"\x02\0\x10\x11")]);
    for index in 0..count {
        let at = 8 + 20 * index;
        put(
            &mut bytes,
            &[
                (at, b"\x12\0\x4D\x11"),
                (at + 12, &[index as u8]),
                (at + 16, b"\x0C\x08\0"),
            ],
        );
    }
    let length = bytes.len() as u64;
    Ok(Streams {
        bytes,
        module: PdbModule {
            symbols: range(4, length - 4),
            lines: range(length, 0),
            ..filled()
        },
        ids: Vec::new(alloc),
        sections: Vec::new(alloc),
    })
}

/// The result and how many there are of the procedure at offset 4.
fn nested_at(streams: &Streams, rva: u32, room: &mut [PdbInlined]) -> (u32, u64) {
    let mut written = 9;
    let procedure = PdbSymbol {
        range: range(4, 4),
        rva: 0x1000,
        ..filled()
    };
    let (bytes, module) = (&streams.bytes, &streams.module);
    let result = pe_c_find_pdb_inlined(
        bytes,
        module,
        &procedure,
        rva,
        &[],
        &[],
        room,
        &mut written,
    );
    (result, written)
}

#[test]
fn more_than_64_functions_are_refused(rt: HostRuntime) -> Result<(), Fail> {
    let mut room = [filled(); 64];
    let deep = nested(rt.alloc(), 64)?;
    assert_eq!(rt; nested_at(&deep, 0x1007, &mut room), (DONE, 64));
    for (index, frame) in (0u32..64).zip(room) {
        assert_eq!(rt; (frame.id, frame.code_size), (63 - index, 8));
    }
    assert_eq!(rt; nested_at(&deep, 0x1008, &mut room), (DONE, 0));
    // An RVA before that of the procedure counts as its start.
    assert_eq!(rt; nested_at(&deep, 0, &mut room), (DONE, 64));
    let deeper = nested(rt.alloc(), 65)?;
    let found = nested_at(&deeper, 0x1007, &mut room);
    assert_eq!(rt; found, (PDB_INLINE_DEPTH, 9));
    assert_eq!(rt; nested_at(&deeper, 0x1008, &mut room), (DONE, 0));
    Ok(())
}

#[test]
fn a_record_that_is_refused_refuses_the_inlined_functions(rt: HostRuntime) -> Result<(), Fail> {
    let mut room = [filled(); 2];
    let cases: [(usize, &[u8], u32); 5] = [
        // The record of the procedure, and that of the second function.
        (4, b"\x01", PDB_RECORD_SIZE),
        (28, b"\x01", PDB_RECORD_SIZE),
        (28, b"\x13", PDB_RECORD_TRUNCATED),
        (28, b"\x0C", SHORT),
        // Operation 14.
        (44, b"\x0E", PDB_ANNOTATION),
    ];
    for (offset, part, error) in cases {
        let mut two = nested(rt.alloc(), 2)?;
        put(&mut two.bytes, &[(offset, part)]);
        assert_eq!(rt; nested_at(&two, 0x1000, &mut room), (error, 9));
        assert!(rt; is_filled(&room[0]));
    }
    let mut two = nested(rt.alloc(), 2)?;
    two.module.symbols = range(4, 1 << 20);
    assert_eq!(rt; nested_at(&two, 0x1000, &mut room), (SHORT, 9));
    Ok(())
}

#[test]
fn contributions_are_those_that_pdbutil_lists(rt: HostRuntime) -> Result<(), Fail> {
    let file = pdb(rt.alloc())?;
    let (dbi, sections) = (
        stream(rt.alloc(), &file, 3)?,
        stream(rt.alloc(), &file, 10)?,
    );
    let (mut room, mut written) = ([ModuleRange::default(); 9], 9);
    let part = range(292, 228);
    let found = pe_c_pdb_module_ranges(&dbi, &part, &sections, &mut room[..7], &mut written);
    assert_eq!(rt; found, ROOM);
    assert_eq!(rt; (written, room[0].size), (8, 0));
    let found = pe_c_pdb_module_ranges(&dbi, &part, &sections, &mut room, &mut written);
    assert_eq!(rt; found, DONE);
    let listed = [(0x1000, 73, 0), (0x1050, 60, 1), (0x2000, 56, 2)];
    for (range, wanted) in room.iter().zip(listed) {
        assert_eq!(rt; (range.start, range.size, range.module_index), wanted);
    }
    let found = (written, room[7].start, room[7].size, room[8].size);
    assert_eq!(rt; found, (8, 0x300C, 24, 0));
    written = 9;
    let mut other = dbi.clone()?;
    put(&mut other, &[(292, b"\0")]);
    for (bytes, part, headers, error) in [
        (&dbi, range(292, 228), 119, PDB_SECTION_HEADERS),
        (&dbi, range(292, 1 << 20), 120, SHORT),
        (&dbi, range(292, 3), 120, SHORT),
        (&dbi, range(292, 227), 120, PDB_CONTRIBUTIONS_SIZE),
        (&other, range(292, 228), 120, PDB_CONTRIBUTIONS_VERSION),
    ] {
        let headers = &sections[..headers];
        let result = pe_c_pdb_module_ranges(bytes, &part, headers, &mut room, &mut written);
        assert_eq!(rt; (result, written, room[0].start), (error, 9, 0x1000));
    }
    let found = pe_c_pdb_module_ranges(&dbi, &range(292, 0), &sections, &mut [], &mut written);
    assert_eq!(rt; found, DONE);
    assert_eq!(rt; written, 0);
    Ok(())
}
