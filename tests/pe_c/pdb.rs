//! Program databases: every call on a PDB that lld-link wrote (`pdb_bytes`), by what llvm-pdbutil 14.0.6 prints of it, and on the
//! same streams in smaller blocks, from the last block to the first.

use super::made::{
    PDB_BLOCK, PDB_BLOCK_MAP, PDB_BLOCK_SIZE, PDB_DBI_PARTS, PDB_DBI_SIGNATURE, PDB_DBI_VERSION,
    PDB_DIRECTORY, PDB_FILE_SIZE, PDB_INFO_VERSION, PDB_MAGIC, PDB_NAME, PDB_NAMES_SIGNATURE,
    PDB_NO_STREAM, PDB_PORTABLE, PDB_RECORD_SIZE, PDB_RECORD_TRUNCATED, PDB_SECTION_HEADERS,
    PDB_STREAM_SIZE, PDB20, SHORT, filled, is_filled, of_range, range,
};
use super::pdb_bytes::{LENGTH, PIECES};
use crate::pdb::index::{pe_c_find_pdb_symbol, pe_c_pdb_index, pe_c_read_pdb_symbol};
use crate::pdb::lines::{
    pe_c_find_pdb_line, pe_c_pdb_file_name, pe_c_pdb_files, pe_c_pdb_lines, pe_c_pdb_named_stream,
    pe_c_read_pdb_line,
};
use crate::pdb::{
    pe_c_is_pdb_of, pe_c_list_pdb_modules, pe_c_list_pdb_symbols, pe_c_pdb, pe_c_pdb_moved_rva,
    pe_c_pdb_starts, pe_c_pdb_stream, pe_c_pdb_stream_range,
};
use calls_base::ranges::{NO_BYTES, Range};
use calls_base::results::{DONE, NOTHING, ROOM};
use calls_headers::debug::records::SymbolKey;
use calls_pdb::modules::PdbModule;
use calls_pdb::pdb::Pdb;
use calls_pdb::symbols::PdbSymbol;
use pe_images::{image, put};
use pe_pdb::{CodeLine, LineEntry};
use std::alloc::{AllocError, Global};
use std::test::Fail;

/// The GUID {94D954E4-794D-F223-4C4C-44205044422E}.
const GUID: [u8; 16] = [
    0xE4, 0x54, 0xD9, 0x94, 0x4D, 0x79, 0x23, 0xF2, 0x4C, 0x4C, 0x44, 0x20, 0x50, 0x44, 0x42, 0x2E,
];

/// The sizes of the streams.
const SIZES: [u64; 16] = [
    0, 93, 108, 717, 1160, 0, 568, 592, 108, 24, 120, 364, 512, 388, 77, 52,
];

/// The file of lld-link.
pub(crate) fn pdb(alloc: Global) -> Result<Vec<u8>, AllocError> {
    image(alloc, LENGTH, &PIECES)
}

fn put_number(bytes: &mut [u8], offset: usize, number: usize) {
    put(bytes, &[(offset, &u32::to_le_bytes(number as u32))]);
}

/// A stream, copied without the starts of all.
pub(crate) fn stream(alloc: Global, bytes: &[u8], index: u32) -> Result<Vec<u8>, AllocError> {
    let mut written = 0;
    let _ = pe_c_pdb_stream(bytes, &[], index, &mut [], &mut written);
    let mut room = vec![in alloc; 0u8; written as usize]?;
    let _ = pe_c_pdb_stream(bytes, &[], index, &mut room, &mut written);
    Ok(room)
}

/// The same streams in blocks of 512 bytes, which stand in the file from the last to the first.
fn scattered(alloc: Global, bytes: &[u8]) -> Result<Vec<u8>, AllocError> {
    let mut count = 0;
    for size in SIZES {
        count += (size as usize).div_ceil(512);
    }
    let size = 4 * (1 + SIZES.len() + count);
    let first = 4 + size.div_ceil(512);
    let text: &[u8] = b"Microsoft C/C++ MSF 7.00\r\n\x1ADS\0\0\0\0\x02\0\0\x01";
    let mut moved = image(alloc, 512 * (first + count), &[(0, text), (52, b"\x03")])?;
    put_number(&mut moved, 40, first + count);
    put_number(&mut moved, 44, size);
    put_number(&mut moved, 512 * 3, 4);
    put_number(&mut moved, 512 * 4, SIZES.len());
    let mut list = 512 * 4 + 4 + 4 * SIZES.len();
    let mut block = first + count;
    for index in 0..SIZES.len() {
        let own = stream(alloc, bytes, index as u32)?;
        put_number(&mut moved, 512 * 4 + 4 + 4 * index, own.len());
        for part in own.chunks(512) {
            block -= 1;
            put(&mut moved, &[(512 * block, part)]);
            put_number(&mut moved, list, block);
            list += 4;
        }
    }
    Ok(moved)
}

fn read(bytes: &[u8]) -> (u32, Pdb) {
    let mut out = filled();
    let result = pe_c_pdb(bytes, &mut out);
    (result, out)
}

/// The result of a file that differs at an offset. It is as before afterwards: to make one takes a second under the tests' checks.
fn differing(bytes: &mut [u8], offset: usize, part: &[u8]) -> (u32, Pdb) {
    let mut kept = [0; 42];
    let (kept, end) = (&mut kept[..part.len()], offset + part.len());
    kept.copy_from_slice(&bytes[offset..end]);
    put(bytes, &[(offset, part)]);
    let found = read(bytes);
    put(bytes, &[(offset, kept)]);
    found
}

#[test]
fn a_pdb_says_which_one_it_is(rt: HostRuntime) -> Result<(), Fail> {
    let bytes = pdb(rt.alloc())?;
    let moved = scattered(rt.alloc(), &bytes)?;
    for (file, block_size) in [(&bytes, 4096), (&moved, 512)] {
        let (result, pdb) = read(file);
        assert_eq!(rt; (result, pdb.dbi_result), (DONE, DONE));
        assert_eq!(rt; pdb.guid, GUID);
        assert_eq!(rt; (pdb.version, pdb.time_stamp), (20000404, 2497271012));
        assert_eq!(rt; (pdb.age, pdb.dbi_age), (1, 1));
        assert_eq!(rt; (pdb.block_size, pdb.number_of_streams), (block_size, 16));
        assert_eq!(rt; file.len() as u32, pdb.block_size * pdb.number_of_blocks);
        assert_eq!(rt; (pdb.machine, pdb.flags, pdb.build), (0x8664, 0, 36363));
        assert_eq!(rt; (pdb.symbol_stream, pdb.section_headers), (8, 10));
        assert_eq!(rt; pdb.original_section_headers, 0xFFFF);
        let found = (pdb.omap_to_source, pdb.omap_from_source);
        assert_eq!(rt; found, (0xFFFF, 0xFFFF));
        assert_eq!(rt; of_range(pdb.modules), [64, 228]);
        assert_eq!(rt; of_range(pdb.contributions), [292, 228]);
    }
    Ok(())
}

#[test]
fn what_is_no_pdb_is_refused(rt: HostRuntime) -> Result<(), Fail> {
    let mut bytes = pdb(rt.alloc())?;
    let (result, out) = read(&bytes[..55]);
    assert_eq!(rt; (result, is_filled(&out)), (SHORT, true));
    let old: &[u8] = b"Microsoft C/C++ program database 2.00\r\n\x1AJG";
    let cases: [(usize, &[u8], u32); 12] = [
        (0, old, PDB20),
        (0, b"BSJB", PDB_PORTABLE),
        (0, b"m", PDB_MAGIC),
        (32, b"\x01", PDB_BLOCK_SIZE),
        (40, b"\x14", PDB_FILE_SIZE),
        // A directory of 20 blocks, in a file of 19.
        (44, b"\0\x40\x01", PDB_BLOCK_MAP),
        (52, b"\x13", PDB_BLOCK),
        // Block 18 is the directory: the number of streams, their sizes, and from byte 68 on their blocks.
        (73728, b"\x1F", PDB_DIRECTORY),
        (73728, b"\x01", PDB_NO_STREAM),
        (73736, b"\0\x40\x01", PDB_STREAM_SIZE),
        (73736, b"\x1B", SHORT),
        // Block 17 is the info stream.
        (69632, b"\0", PDB_INFO_VERSION),
    ];
    for (offset, part, error) in cases {
        let (result, out) = differing(&mut bytes, offset, part);
        assert_eq!(rt; (result, is_filled(&out)), (error, true));
    }
    Ok(())
}

#[test]
fn a_dbi_stream_costs_itself_alone(rt: HostRuntime) -> Result<(), Fail> {
    // Block 13 is the DBI stream.
    let cases: [(usize, &[u8], u32); 6] = [
        (53248, b"\0", PDB_DBI_SIGNATURE),
        (53252, b"\0", PDB_DBI_VERSION),
        (53272, b"\0\x10", PDB_DBI_PARTS),
        (73744, b"\x3F\0", SHORT),
        (73744, b"\0\x40\x01", PDB_STREAM_SIZE),
        // The block of the stream, which is listed after those of two others.
        (73804, b"\x13", PDB_BLOCK),
    ];
    let mut bytes = pdb(rt.alloc())?;
    for (offset, part, error) in cases {
        let (result, pdb) = differing(&mut bytes, offset, part);
        assert_eq!(rt; (result, pdb.dbi_result), (DONE, error));
        assert_eq!(rt; (pdb.guid, pdb.age, pdb.dbi_age), (GUID, 1, 0));
        assert_eq!(rt; (pdb.machine, pdb.flags, pdb.build), (0, 0, 0));
        assert_eq!(rt; (pdb.symbol_stream, pdb.section_headers), (0xFFFF, 0xFFFF));
        assert_eq!(rt; pdb.original_section_headers, 0xFFFF);
        let found = (pdb.omap_to_source, pdb.omap_from_source);
        assert_eq!(rt; found, (0xFFFF, 0xFFFF));
        assert_eq!(rt; of_range(pdb.modules), [0, 0]);
        assert_eq!(rt; of_range(pdb.contributions), [0, 0]);
    }
    Ok(())
}

#[test]
fn streams_are_copied_block_by_block(rt: HostRuntime) -> Result<(), Fail> {
    let bytes = pdb(rt.alloc())?;
    let moved = scattered(rt.alloc(), &bytes)?;
    let mut starts = [7u64; 17];
    let mut written = 9;
    let found = pe_c_pdb_starts(&moved, &mut starts[..15], &mut written);
    assert_eq!(rt; found, ROOM);
    assert_eq!(rt; (written, starts), (16, [7; 17]));
    assert_eq!(rt; pe_c_pdb_starts(&moved, &mut starts, &mut written), DONE);
    // The number of streams and their sizes are 17 numbers; a list has a number for each block of 512 bytes.
    assert_eq!(rt; written, 16);
    assert_eq!(rt;
        starts,
        [
            17, 17, 18, 19, 21, 24, 24, 26, 28, 29, 30, 31, 32, 33, 34, 35, 7
        ]
    );
    written = 9;
    let found = pe_c_pdb_starts(&moved[..55], &mut starts, &mut written);
    assert_eq!(rt; found, SHORT);
    assert_eq!(rt; (written, starts[0]), (9, 17));
    for index in 0..16 {
        let own = stream(rt.alloc(), &bytes, index)?;
        assert_eq!(rt; own.len() as u64, SIZES[index as usize]);
        let mut room = vec![in rt.alloc(); 0x77u8; own.len() + 1]?;
        for starts in [&starts[..16], &[]] {
            let found = pe_c_pdb_stream(&moved, starts, index, &mut room, &mut written);
            assert_eq!(rt; found, DONE);
            assert_eq!(rt; written, SIZES[index as usize]);
            assert_eq!(rt; &room[..own.len()], &own[..]);
            assert_eq!(rt; room[own.len()], 0x77);
        }
    }
    let mut room = [7u8; 1159];
    let found = pe_c_pdb_stream(&moved, &[], 4, &mut room, &mut written);
    assert_eq!(rt; found, ROOM);
    assert_eq!(rt; (written, room), (1160, [7; 1159]));
    written = 9;
    for (index, error) in [(16, PDB_NO_STREAM), (0xFFFF_FFFF, PDB_NO_STREAM)] {
        let found = pe_c_pdb_stream(&moved, &starts, index, &mut room, &mut written);
        assert_eq!(rt; found, error);
    }
    // Starts that are none: past the directory, and at a number that is no block.
    starts[4] = u64::MAX;
    let found = pe_c_pdb_stream(&moved, &starts, 4, &mut room, &mut written);
    assert_eq!(rt; found, PDB_DIRECTORY);
    starts[4] = 4;
    let found = pe_c_pdb_stream(&moved, &starts, 4, &mut room, &mut written);
    assert_eq!(rt; found, PDB_BLOCK);
    assert_eq!(rt; (written, room), (9, [7; 1159]));
    Ok(())
}

/// The blocks of lld-link's streams follow one another. In the other file those of a stream stand the other way around.
#[test]
fn streams_have_ranges_where_their_blocks_follow_one_another(rt: HostRuntime) -> Result<(), Fail> {
    let bytes = pdb(rt.alloc())?;
    let moved = scattered(rt.alloc(), &bytes)?;
    let mut starts = [0u64; 16];
    let mut written = 0;
    assert_eq!(rt; pe_c_pdb_starts(&bytes, &mut starts, &mut written), DONE);
    for index in 0..16 {
        let own = stream(rt.alloc(), &bytes, index)?;
        for starts in [&starts[..], &[]] {
            let mut place = range(9, 9);
            let found = pe_c_pdb_stream_range(&bytes, starts, index, &mut place);
            assert_eq!(rt; found, DONE);
            let [offset, length] = of_range(place);
            assert_eq!(rt; length, SIZES[index as usize]);
            let found = &bytes[offset as usize..(offset + length) as usize];
            assert_eq!(rt; found, &own[..]);
        }
        let mut place = range(9, 9);
        let found = pe_c_pdb_stream_range(&moved, &[], index, &mut place);
        let has_one = SIZES[index as usize] <= 512;
        assert_eq!(rt; found, if has_one { DONE } else { NOTHING });
        assert_eq!(rt; of_range(place) != [9, 9], has_one);
    }
    let mut place = range(9, 9);
    let found = pe_c_pdb_stream_range(&bytes, &starts, 3, &mut place);
    assert_eq!(rt; found, DONE);
    assert_eq!(rt; of_range(place), [53248, 717]);
    let found = pe_c_pdb_stream_range(&bytes, &starts, 16, &mut place);
    assert_eq!(rt; found, PDB_NO_STREAM);
    assert_eq!(rt; of_range(place), [53248, 717]);
    Ok(())
}

#[test]
fn modules_are_listed(rt: HostRuntime) -> Result<(), Fail> {
    let bytes = pdb(rt.alloc())?;
    let dbi = stream(rt.alloc(), &bytes, 3)?;
    let mut walk = range(64, 228);
    let mut entries: [PdbModule; 4] = [filled(); 4];
    let mut written = 9;
    let found = pe_c_list_pdb_modules(&dbi, &mut walk, &mut entries[..0], &mut written);
    assert_eq!(rt; found, ROOM);
    let found = pe_c_list_pdb_modules(&dbi, &mut walk, &mut entries[..1], &mut written);
    assert_eq!(rt; found, DONE);
    let found = (written, of_range(walk), is_filled(&entries[1]));
    assert_eq!(rt; found, (1, [140, 152], true));
    let found = pe_c_list_pdb_modules(&dbi, &mut walk, &mut entries[1..], &mut written);
    assert_eq!(rt; found, DONE);
    assert_eq!(rt; (written, of_range(walk)), (2, [292, 0]));
    let found = pe_c_list_pdb_modules(&dbi, &mut walk, &mut entries[3..], &mut written);
    assert_eq!(rt; found, DONE);
    let found = (written, of_range(walk), is_filled(&entries[3]));
    assert_eq!(rt; found, (0, [292, 0], true));
    let listed = [
        (
            [128, 5],
            [134, 5],
            [4, 244],
            [248, 112],
            [0, 73],
            [1, 11, 1],
        ),
        (
            [204, 5],
            [210, 5],
            [4, 328],
            [332, 176],
            [80, 60],
            [1, 12, 2],
        ),
        (
            [280, 10],
            [291, 0],
            [4, 380],
            [384, 0],
            [0, 0xFFFF_FFFF],
            [0xFFFF, 13, 0],
        ),
    ];
    for (module, (name, file, symbols, lines, code, numbers)) in entries.iter().zip(listed) {
        let found = (of_range(module.name), of_range(module.file));
        assert_eq!(rt; found, (name, file));
        let found = (of_range(module.symbols), of_range(module.lines));
        assert_eq!(rt; found, (symbols, lines));
        assert_eq!(rt; [module.code_offset, module.code_size], code);
        let found = [module.section, module.stream, module.number_of_files];
        assert_eq!(rt; found, numbers);
    }
    assert_eq!(rt; &dbi[280..290], b"* Linker *".as_slice());
    written = 9;
    for (start, error) in [
        (range(64, 63), SHORT),
        (range(64, 65), PDB_NAME),
        (range(717, 1), SHORT),
    ] {
        walk = start;
        let found = pe_c_list_pdb_modules(&dbi, &mut walk, &mut entries, &mut written);
        assert_eq!(rt; found, error);
        assert_eq!(rt; (of_range(walk), written), ([0, 0], 9));
    }
    Ok(())
}

/// The symbols of a walk, up to its end, and how many there are.
fn symbols_of(bytes: &[u8], sections: &[u8], start: [u64; 2]) -> (u32, [PdbSymbol; 16], u64) {
    let (mut entries, mut written) = ([filled(); 16], 9);
    let mut walk = range(start[0], start[1]);
    let result = pe_c_list_pdb_symbols(bytes, sections, &mut walk, &mut entries, &mut written);
    (result, entries, written)
}

/// A symbol without its name and its record.
fn numbers_of(symbol: &PdbSymbol) -> [u32; 7] {
    [
        symbol.rva,
        symbol.size,
        symbol.section_offset,
        symbol.flags,
        u32::from(symbol.section),
        u32::from(symbol.kind),
        symbol.result,
    ]
}

#[test]
fn symbols_are_those_that_pdbutil_lists(rt: HostRuntime) -> Result<(), Fail> {
    let bytes = pdb(rt.alloc())?;
    let sections = stream(rt.alloc(), &bytes, 10)?;
    let symbols = stream(rt.alloc(), &bytes, 8)?;
    let (result, entries, written) = symbols_of(&symbols, &sections, [0, 108]);
    assert_eq!(rt; (result, written), (DONE, 5));
    let found = (of_range(entries[0].range), of_range(entries[0].name));
    assert_eq!(rt; found, ([0, 20], [14, 5]));
    assert_eq!(rt; numbers_of(&entries[0]), [0x1000, 0, 0, 2, 1, 0x110E, DONE]);
    let found = (of_range(entries[1].range), of_range(entries[1].name));
    assert_eq!(rt; found, ([20, 24], [34, 6]));
    let found = numbers_of(&entries[1]);
    assert_eq!(rt; found, [0x1050, 0, 80, 2, 1, 0x110E, DONE]);
    assert_eq!(rt; &symbols[34..40], b"helper".as_slice());
    for entry in &entries[2..5] {
        assert!(rt; matches!(entry.kind, 0x1125 | 0x1127));
        let found = (entry.result, entry.name.length, entry.rva);
        assert_eq!(rt; found, (NOTHING, 0, 0));
    }
    let module = stream(rt.alloc(), &bytes, 12)?;
    let (result, entries, written) = symbols_of(&module, &sections, [4, 328]);
    assert_eq!(rt; (result, written), (DONE, 15));
    let found = (of_range(entries[2].range), of_range(entries[2].name));
    assert_eq!(rt; found, ([72, 48], [111, 6]));
    let found = numbers_of(&entries[2]);
    assert_eq!(rt; found, [0x1050, 45, 80, 0, 1, 0x1110, DONE]);
    let found = (of_range(entries[8].range), of_range(entries[8].name));
    assert_eq!(rt; found, ([208, 4], [0, 0]));
    assert_eq!(rt; numbers_of(&entries[8]), [0, 0, 0, 0, 0, 6, NOTHING]);
    let found = (of_range(entries[9].range), of_range(entries[9].name));
    assert_eq!(rt; found, ([212, 48], [251, 5]));
    let found = numbers_of(&entries[9]);
    assert_eq!(rt; found, [0x1080, 12, 128, 0, 1, 0x110F, DONE]);
    Ok(())
}

#[test]
fn a_damaged_symbol_costs_itself_alone(rt: HostRuntime) -> Result<(), Fail> {
    let bytes = pdb(rt.alloc())?;
    let sections = stream(rt.alloc(), &bytes, 10)?;
    let mut symbols = stream(rt.alloc(), &bytes, 8)?;
    // Without section headers no symbol has an RVA.
    let (_, entries, _) = symbols_of(&symbols, &[], [0, 44]);
    assert_eq!(rt; numbers_of(&entries[1]), [0, 0, 80, 2, 1, 0x110E, NOTHING]);
    assert_eq!(rt; of_range(entries[1].name), [34, 6]);
    // The first name has no end.
    put(&mut symbols, &[(19, b"x")]);
    let (result, entries, written) = symbols_of(&symbols, &sections, [0, 44]);
    assert_eq!(rt; (result, written), (DONE, 2));
    let found = (of_range(entries[0].range), of_range(entries[0].name));
    assert_eq!(rt; found, ([0, 20], [0, 0]));
    assert_eq!(rt; numbers_of(&entries[0]), [0, 0, 0, 0, 0, 0x110E, PDB_NAME]);
    let found = numbers_of(&entries[1]);
    assert_eq!(rt; found, [0x1050, 0, 80, 2, 1, 0x110E, DONE]);
    let short = b"\x0B\0\x0E\x11\x02\0\0\0\x50\0\0\0\x01";
    let (result, entries, written) = symbols_of(short, &sections, [0, 13]);
    assert_eq!(rt; (result, written), (DONE, 1));
    assert_eq!(rt; numbers_of(&entries[0]), [0, 0, 0, 0, 0, 0x110E, SHORT]);
    let cases: [(&[u8], usize, [u64; 2], u32); 5] = [
        (b"\x01\0\x0E\x11", 120, [0, 4], PDB_RECORD_SIZE),
        (b"\x03\0\x0E\x11", 120, [0, 4], PDB_RECORD_TRUNCATED),
        (b"\x03\0\x0E", 120, [0, 3], SHORT),
        (b"\x03\0\x0E", 120, [0, 4], SHORT),
        (b"\x03\0\x0E", 119, [0, 4], PDB_SECTION_HEADERS),
    ];
    for (bytes, headers, start, error) in cases {
        let (result, entries, written) = symbols_of(bytes, &sections[..headers], start);
        assert_eq!(rt; (result, written, is_filled(&entries[0])), (error, 9, true));
    }
    let mut walk = range(0, 108);
    let mut written = 9;
    let found = pe_c_list_pdb_symbols(&symbols, &[], &mut walk, &mut [], &mut written);
    assert_eq!(rt; found, ROOM);
    assert_eq!(rt; (of_range(walk), written), ([0, 108], 9));
    Ok(())
}

/// No symbol, and what is as before the call.
const NONE: (u32, u32, [u64; 2]) = (NOTHING, 0x0909_0909, [0x0909_0909_0909_0909; 2]);

#[test]
fn an_index_finds_symbols(rt: HostRuntime) -> Result<(), Fail> {
    let bytes = pdb(rt.alloc())?;
    let sections = stream(rt.alloc(), &bytes, 10)?;
    let symbols = stream(rt.alloc(), &bytes, 8)?;
    let module = stream(rt.alloc(), &bytes, 12)?;
    let (all, own) = (range(0, 108), range(4, 328));
    let mut written = 9;
    let mut publics = [7u64; 3];
    let few = &mut publics[..1];
    let said = pe_c_pdb_index(0, &symbols, &all, &sections, few, &mut written);
    assert_eq!(rt; said, ROOM);
    assert_eq!(rt; (written, publics), (2, [7; 3]));
    let said = pe_c_pdb_index(0, &symbols, &all, &sections, &mut publics, &mut written);
    assert_eq!(rt; said, DONE);
    let said = (written, publics);
    assert_eq!(rt; said, (2, [0x1000 << 32, (0x1050 << 32) + 20, 7]));
    let mut index = [7u64; 2];
    let said = pe_c_pdb_index(1, &module, &own, &sections, &mut index, &mut written);
    assert_eq!(rt; said, DONE);
    let said = (written, index);
    assert_eq!(rt; said, (2, [(0x1050 << 32) + 72, (0x1080 << 32) + 212]));
    let found = |kind: u32, bytes: &[u8], index: &[u64], rva: u32| {
        let mut out: PdbSymbol = filled();
        let result = pe_c_find_pdb_symbol(kind, bytes, &sections, index, rva, &mut out);
        (result, out.rva, of_range(out.name))
    };
    let read = |kind: u32, bytes: &[u8], symbols: &Range, rva: u32| {
        let mut out: PdbSymbol = filled();
        let result = pe_c_read_pdb_symbol(kind, bytes, symbols, &sections, rva, &mut out);
        (result, out.rva, of_range(out.name))
    };
    for (rva, wanted) in [
        (0xFFF, NONE),
        (0x1000, (DONE, 0x1000, [14, 5])),
        (0x104F, (DONE, 0x1000, [14, 5])),
        (0x1050, (DONE, 0x1050, [34, 6])),
        (0xFFFF_FFFF, (DONE, 0x1050, [34, 6])),
    ] {
        assert_eq!(rt; found(0, &symbols, &publics[..2], rva), wanted);
        assert_eq!(rt; read(0, &symbols, &all, rva), wanted);
    }
    for (rva, wanted) in [
        (0x104F, NONE),
        (0x1050, (DONE, 0x1050, [111, 6])),
        (0x107C, (DONE, 0x1050, [111, 6])),
        (0x107D, NONE),
        (0x108B, (DONE, 0x1080, [251, 5])),
        (0x108C, NONE),
    ] {
        assert_eq!(rt; found(1, &module, &index, rva), wanted);
        assert_eq!(rt; found(77, &module, &index, rva), wanted);
        assert_eq!(rt; read(1, &module, &own, rva), wanted);
    }
    // Entries that no call made.
    let said = found(0, &symbols, &[2], 0x9000);
    assert_eq!(rt; said, (PDB_RECORD_TRUNCATED, NONE.1, NONE.2));
    let said = found(0, &symbols, &[0xFFFF], 0x9000);
    assert_eq!(rt; said, (SHORT, NONE.1, NONE.2));
    Ok(())
}

#[test]
fn an_index_is_refused_as_its_records(rt: HostRuntime) -> Result<(), Fail> {
    let bytes = pdb(rt.alloc())?;
    let sections = stream(rt.alloc(), &bytes, 10)?;
    let symbols = stream(rt.alloc(), &bytes, 8)?;
    // shows: calls_pdb/src/pdb.rt part_of Short
    for (start, headers, error) in [
        (range(0, 107), 120, PDB_RECORD_TRUNCATED),
        (range(0, 46), 120, SHORT),
        (range(2, 106), 120, PDB_RECORD_TRUNCATED),
        (range(0, 109), 120, SHORT),
        (range(0, 109), 119, PDB_SECTION_HEADERS),
    ] {
        let (mut room, mut written) = ([7u64; 3], 9);
        let headers = &sections[..headers];
        let result = pe_c_pdb_index(0, &symbols, &start, headers, &mut room, &mut written);
        assert_eq!(rt; (result, room, written), (error, [7; 3], 9));
    }
    Ok(())
}

#[test]
fn a_pdb_is_that_of_an_image(rt: HostRuntime) -> Result<(), Fail> {
    let bytes = pdb(rt.alloc())?;
    let (_, mut pdb) = read(&bytes);
    let mut key = SymbolKey {
        guid: GUID,
        age: 1,
        spare: 0,
        name: NO_BYTES,
    };
    assert_eq!(rt; pe_c_is_pdb_of(&key, &pdb), DONE);
    // The age of the info stream is not asked.
    pdb.age = 3;
    assert_eq!(rt; pe_c_is_pdb_of(&key, &pdb), DONE);
    pdb.dbi_age = 2;
    assert_eq!(rt; pe_c_is_pdb_of(&key, &pdb), NOTHING);
    pdb.dbi_age = 1;
    key.guid[15] = 0;
    assert_eq!(rt; pe_c_is_pdb_of(&key, &pdb), NOTHING);
    pdb.dbi_result = PDB_DBI_PARTS;
    assert_eq!(rt; pe_c_is_pdb_of(&key, &pdb), PDB_DBI_PARTS);
    Ok(())
}

const NO_LINE: LineEntry = LineEntry {
    line: CodeLine {
        rva: 9,
        code_size: 9,
        file: 9,
        line: 9,
        column: 9,
    },
    index: 9,
};

fn numbers_of_line(line: &CodeLine) -> [u32; 5] {
    [line.rva, line.code_size, line.file, line.line, line.column]
}

#[test]
fn lines_are_those_that_pdbutil_lists(rt: HostRuntime) -> Result<(), Fail> {
    let bytes = pdb(rt.alloc())?;
    let sections = stream(rt.alloc(), &bytes, 10)?;
    let module = stream(rt.alloc(), &bytes, 12)?;
    let lines = range(332, 176);
    let (mut room, mut written) = ([NO_LINE; 7], 9);
    let few = &mut room[..5];
    let said = pe_c_pdb_lines(&module, &lines, &sections, few, &mut written);
    assert_eq!(rt; said, ROOM);
    assert_eq!(rt; (written, room[0].index), (6, 9));
    let said = pe_c_pdb_lines(&module, &lines, &sections, &mut room, &mut written);
    assert_eq!(rt; said, DONE);
    assert_eq!(rt; (written, room[6].index), (6, 9));
    let listed = [
        [0x1050, 45, 0, 4, 0],
        [0x1058, 37, 0, 5, 0],
        [0x1065, 24, 24, 900, 0],
        [0x1071, 12, 0, 9, 0],
        [0x1080, 12, 0, 1, 0],
        [0x1085, 7, 0, 2, 0],
    ];
    for (index, (entry, wanted)) in (0u32..6).zip(room.iter().zip(listed)) {
        let said = (numbers_of_line(&entry.line), entry.index);
        assert_eq!(rt; said, (wanted, index));
    }
    let found = |rva: u32| {
        let mut out = NO_LINE.line;
        let result = pe_c_find_pdb_line(&room[..6], rva, &mut out);
        let mut read = NO_LINE.line;
        let same = pe_c_read_pdb_line(&module, &lines, &sections, rva, &mut read);
        (result, out.line, result == same && out == read)
    };
    for (rva, wanted) in [
        (0x104F, (NOTHING, 9, true)),
        (0x1050, (DONE, 4, true)),
        (0x1064, (DONE, 5, true)),
        (0x1065, (DONE, 900, true)),
        (0x107C, (DONE, 9, true)),
        (0x107D, (NOTHING, 9, true)),
        (0x108B, (DONE, 2, true)),
        (0x108C, (NOTHING, 9, true)),
    ] {
        assert_eq!(rt; found(rva), wanted);
    }
    written = 9;
    for (start, headers, error) in [
        (range(332, 175), 120, PDB_RECORD_TRUNCATED),
        (range(332, 6), 120, SHORT),
        (range(332, 181), 120, SHORT),
        (range(332, 176), 119, PDB_SECTION_HEADERS),
    ] {
        let mut room = [NO_LINE; 7];
        let headers = &sections[..headers];
        let result = pe_c_pdb_lines(&module, &start, headers, &mut room, &mut written);
        assert_eq!(rt; (result, written, room[0].index), (error, 9, 9));
    }
    Ok(())
}

/// By three rows: code from 0x1000 on is at 0x3000, from 0x1050 on nowhere, from 0x2000 on at the end of what RVAs have.
#[test]
fn omap_tables_move_rvas(rt: HostRuntime) -> Result<(), Fail> {
    let mut table = [0u8; 24];
    let rows = [0x1000u32, 0x3000, 0x1050, 0, 0x2000, 0xFFFF_FFF0];
    for (i, number) in rows.iter().enumerate() {
        table[4 * i..4 * i + 4].copy_from_slice(&number.to_le_bytes());
    }
    for (length, rva, wanted) in [
        (24, 0xFFF, (NOTHING, 9)),
        (24, 0x1000, (DONE, 0x3000)),
        (24, 0x104F, (DONE, 0x304F)),
        (24, 0x1050, (NOTHING, 9)),
        (24, 0x200F, (DONE, 0xFFFF_FFFF)),
        (24, 0x2010, (NOTHING, 9)),
        (23, 0x200F, (NOTHING, 9)),
        (15, 0x1050, (DONE, 0x3050)),
        (7, 0x1000, (NOTHING, 9)),
    ] {
        let mut out = 9;
        let result = pe_c_pdb_moved_rva(&table[..length], rva, &mut out);
        assert_eq!(rt; (result, out), wanted);
    }
    Ok(())
}

#[test]
fn files_have_names(rt: HostRuntime) -> Result<(), Fail> {
    let bytes = pdb(rt.alloc())?;
    let info = stream(rt.alloc(), &bytes, 1)?;
    let module = stream(rt.alloc(), &bytes, 12)?;
    let mut number = 9;
    assert_eq!(rt; pe_c_pdb_named_stream(&info, b"/names", &mut number), DONE);
    assert_eq!(rt; number, 14);
    let found = pe_c_pdb_named_stream(&info, b"/LinkInfo", &mut number);
    assert_eq!(rt; found, DONE);
    assert_eq!(rt; number, 5);
    let found = pe_c_pdb_named_stream(&info, b"names", &mut number);
    assert_eq!(rt; found, NOTHING);
    let found = pe_c_pdb_named_stream(&info[..31], b"/names", &mut number);
    assert_eq!(rt; found, SHORT);
    let found = pe_c_pdb_named_stream(&info[..40], b"/names", &mut number);
    assert_eq!(rt; found, PDB_RECORD_TRUNCATED);
    assert_eq!(rt; number, 5);
    let mut names = stream(rt.alloc(), &bytes, 14)?;
    let (mut files, mut name) = (range(9, 9), range(9, 9));
    assert_eq!(rt; pe_c_pdb_files(&module, &range(332, 176), &mut files), DONE);
    for (file, wanted) in [
        (0, b"b.c".as_slice()),
        (24, b"generated\\else.inc".as_slice()),
    ] {
        let found = pe_c_pdb_file_name(&module, &files, &names, file, &mut name);
        assert_eq!(rt; found, DONE);
        let [offset, length] = of_range(name);
        assert_eq!(rt; &names[offset as usize..(offset + length) as usize], wanted);
    }
    name = range(9, 9);
    let past = files.length as u32 - 5;
    let found = pe_c_pdb_file_name(&module, &files, &names, past, &mut name);
    assert_eq!(rt; found, SHORT);
    let found = pe_c_pdb_file_name(&module, &range(511, 2), &names, 0, &mut name);
    assert_eq!(rt; found, SHORT);
    let found = pe_c_pdb_file_name(&module, &files, &names[..11], 0, &mut name);
    assert_eq!(rt; found, SHORT);
    put(&mut names, &[(0, b"\0")]);
    let found = pe_c_pdb_file_name(&module, &files, &names, 0, &mut name);
    assert_eq!(rt; found, PDB_NAMES_SIGNATURE);
    assert_eq!(rt; of_range(name), [9, 9]);
    files = range(9, 9);
    let found = pe_c_pdb_files(&module, &range(332, 181), &mut files);
    assert_eq!(rt; found, SHORT);
    let found = pe_c_pdb_files(&module, &range(332, 0), &mut files);
    assert_eq!(rt; found, NOTHING);
    assert_eq!(rt; pe_c_pdb_files(&module, &range(332, 7), &mut files), SHORT);
    assert_eq!(rt; of_range(files), [9, 9]);
    Ok(())
}
