//! Which file and line, and which inlined functions an RVA is of, and which module has it: of the two files of lld-link, by what
//! llvm-pdbutil 14.0.6 prints of them (`dump -l -il -symbols -string-table -section-contribs`), and of the same streams in other
//! blocks. Records that no such file has are made by hand from LLVM's pages and cvinfo.h.

use crate::errors::refused;
use crate::images::{image, put, with_byte};
use crate::pdb_inlined_bytes;
use crate::pdb_symbols::lines_of;
use crate::pdbs::{all_of, pdb, record_truncated, short};
use pe_core::RangeEntry;
use pe_pdb::{
    CodeLine, Contribution, DBI_STREAM, DEBUG_S_FILECHKSMS, Dbi, FileChecksum, FunctionId,
    ID_STREAM, INFO_STREAM, InlineRow, InlineRows, InlineSite, InlineeLine, LF_FUNC_ID,
    LF_STRING_ID, LineEntry, LineIndex, ModuleIndex, ModuleRange, Msf, NAMES_STREAM, Names,
    PdbError, S_INLINESITE2, SectionContributions, SectionHeaders, Subsections, SymbolRecord,
    TypeRecords, named_stream, string_id,
};
use std::alloc::{AllocError, Global};
use std::test::Fail;

/// The file of lld-link with inlined functions.
fn inlined(alloc: Global) -> Result<Vec<u8>, AllocError> {
    image(alloc, pdb_inlined_bytes::LENGTH, &pdb_inlined_bytes::PIECES)
}

#[test]
fn streams_are_found_by_their_names(rt: HostRuntime) -> Result<(), Fail> {
    let bytes = inlined(rt.alloc())?;
    let msf = Msf::parse(&bytes)?;
    let info = all_of(rt.alloc(), &msf, INFO_STREAM)?;
    assert_eq!(rt; named_stream(&info, NAMES_STREAM)?, Some(13));
    assert_eq!(rt; named_stream(&info, b"/LinkInfo")?, Some(5));
    assert_eq!(rt; named_stream(&info, b"/name")?, None);
    assert_eq!(rt; named_stream(&info, b"names")?, None);
    assert_eq!(rt; named_stream(&info, b"")?, None);
    let stream = all_of(rt.alloc(), &msf, 13)?;
    let names = Names::parse(&stream)?;
    assert_eq!(rt; names.version, 1);
    assert!(rt; names.name_at(2)? == b"c.c".as_slice() && names.name_at(6)? == b"c.h".as_slice());
    assert!(rt; names.name_at(3)? == b".c".as_slice() && names.name_at(0)?.is_empty());
    // shows: pe_pdb/src/names.rt name_at Name
    assert!(rt; refused(names.name_at(10), PdbError::Name(10)));
    assert!(rt; refused(names.name_at(11), PdbError::Name(11)));
    Ok(())
}

#[test]
fn lines_need_their_room(rt: HostRuntime) -> Result<(), Fail> {
    let bytes = pdb(rt.alloc())?;
    let msf = Msf::parse(&bytes)?;
    let headers = all_of(rt.alloc(), &msf, 10)?;
    let sections = SectionHeaders::parse(&headers)?;
    let lines = lines_of(rt.alloc(), &msf, 1)?;
    let mut few = [LineEntry::default(); 5];
    // shows: pe_pdb/src/line_lookup.rt new Room
    let small = PdbError::Room {
        needed: 6,
        length: 5,
    };
    assert!(rt; refused(LineIndex::new(&lines, &sections, &mut few), small));
    Ok(())
}

#[test]
fn columns_are_those_of_the_rows(rt: HostRuntime) -> Result<(), Fail> {
    let bytes = inlined(rt.alloc())?;
    let msf = Msf::parse(&bytes)?;
    let headers = all_of(rt.alloc(), &msf, 10)?;
    let sections = SectionHeaders::parse(&headers)?;
    let lines = lines_of(rt.alloc(), &msf, 0)?;
    let mut room = [LineEntry::default(); 12];
    let index = LineIndex::new(&lines, &sections, &mut room)?;
    for (rva, start, code_size, line, column) in [
        (0x1004, 0x1000, 64, 3, 0),
        (0x1005, 0x1005, 59, 4, 11),
        (0x1031, 0x1020, 32, 5, 21),
        (0x1032, 0x1032, 14, 5, 14),
        (0x103F, 0x103A, 6, 5, 3),
        (0x1040, 0x1040, 43, 7, 0),
        (0x1044, 0x1041, 42, 8, 16),
        (0x106A, 0x1069, 2, 9, 3),
    ] {
        let found = CodeLine {
            rva: start,
            code_size,
            file: 0,
            line,
            column,
        };
        assert_eq!(rt; index.line_at(rva), Some(found));
    }
    assert_eq!(rt; index.line_at(0x106B), None::<CodeLine>);
    Ok(())
}

/// Lines by hand: code at 10h of section 1, of so many bytes, with rows of one file (an offset and a line), and no columns.
fn lines_by_hand(alloc: Global, size: u32, rows: &[(u32, u32)]) -> Result<Vec<u8>, AllocError> {
    let block = 12 + 8 * rows.len() as u32;
    let mut bytes = vec![in alloc; 0u8; 8 + 12 + block as usize]?;
    for (offset, number) in [
        (0, 0xF2),
        (4, 12 + block),
        (8, 0x10),
        (12, 1),
        (16, size),
        (20, 0x18),
        (24, rows.len() as u32),
        (28, block),
    ] {
        put(&mut bytes, &[(offset, &u32::to_le_bytes(number))]);
    }
    for index in 0..rows.len() {
        let (offset, line) = rows[index];
        let at = 32 + 8 * index;
        put(&mut bytes, &[(at, &u32::to_le_bytes(offset))]);
        put(
            &mut bytes,
            &[(at + 4, &u32::to_le_bytes(line | 0x8000_0000))],
        );
    }
    Ok(bytes)
}

#[test]
fn rows_by_hand_have_the_lines_of_the_format(rt: HostRuntime) -> Result<(), Fail> {
    let bytes = pdb(rt.alloc())?;
    let msf = Msf::parse(&bytes)?;
    let headers = all_of(rt.alloc(), &msf, 10)?;
    let sections = SectionHeaders::parse(&headers)?;
    let mut room = [LineEntry::default(); 8];
    // In no order, two at one offset, lines that are none, one past the code.
    let rows = [
        (8, 20),
        (0, 10),
        (8, 21),
        (4, 0xF0_0F00),
        (12, 0xFE_EFEE),
        (14, 0),
        (16, 30),
    ];
    let lines = lines_by_hand(rt.alloc(), 16, &rows)?;
    let index = LineIndex::new(&lines, &sections, &mut room)?;
    let listed = [
        Some(10),
        Some(10),
        Some(10),
        Some(10),
        None,
        None,
        None,
        None,
        Some(21),
        Some(21),
        Some(21),
        Some(21),
        None,
        None,
        None,
        None,
        None,
    ];
    for offset in 0..17 {
        let line = index
            .line_at(0x1010 + offset as u32)
            .map(|found| found.line);
        assert_eq!(rt; line, listed[offset]);
    }
    // In no section; of another kind, such as one that is to be ignored; truncated in the second of two subsections.
    let mut none = lines.clone()?;
    put(&mut none, &[(12, b"\x04")]);
    assert_eq!(rt; LineIndex::count(&none, &sections)?, 0);
    put(&mut none, &[(3, b"\x80")]);
    assert_eq!(rt; LineIndex::count(&none, &sections)?, 0);
    let two = lines_of(rt.alloc(), &msf, 1)?;
    let found = LineIndex::count(&two[..135], &sections);
    assert!(rt; refused(found, record_truncated(88, 48, 135)));
    Ok(())
}

#[test]
fn contributions_are_those_that_pdbutil_lists(rt: HostRuntime) -> Result<(), Fail> {
    let bytes = pdb(rt.alloc())?;
    let msf = Msf::parse(&bytes)?;
    let headers = all_of(rt.alloc(), &msf, 10)?;
    let sections = SectionHeaders::parse(&headers)?;
    let stream = all_of(rt.alloc(), &msf, DBI_STREAM)?;
    let part = Dbi::parse(&stream)?.contributions;
    let all = SectionContributions::parse(part)?;
    assert_eq!(rt; all.len(), 8);
    let first = Contribution {
        section: 1,
        offset: 0,
        size: 73,
        characteristics: 0x6050_0020,
        module_index: 0,
        data_checksum: 3533884269,
        relocations_checksum: 0,
    };
    assert_eq!(rt; all.get(0), Some(first));
    let found = all.get(7).map(|it| (it.section, it.offset, it.size));
    assert_eq!(rt; found, Some((3, 12, 24)));
    assert_eq!(rt; all.get(8), None::<Contribution>);
    let mut ranges = [ModuleRange::default(); 8];
    let few: std::result::Result<usize, usize> = all.put_ranges(&sections, &mut ranges[..7]);
    assert!(rt; few == Err(8));
    assert!(rt; all.put_ranges(&sections, &mut ranges) == Ok(8));
    let mut room = [RangeEntry::default(); 32];
    let Ok(index) = ModuleIndex::new(&ranges, &mut room) else {
        return Err(Fail::new("no room"));
    };
    for (rva, module) in [
        (0xFFF, None),
        (0x1000, Some(0)),
        (0x1048, Some(0)),
        (0x1049, None),
        (0x1050, Some(1)),
        (0x108B, Some(1)),
        (0x108C, None),
        (0x2000, Some(2)),
        (0x2066, Some(2)),
        (0x2067, None),
        (0x2068, Some(0)),
        (0x2070, Some(1)),
        (0x3000, Some(0)),
        (0x300C, Some(1)),
        (0x3024, None),
    ] {
        assert_eq!(rt; index.module_at(rva), module);
    }
    let mut small = [RangeEntry::default(); 31];
    assert!(rt; matches!(ModuleIndex::new(&ranges, &mut small), Err(32)));
    // The later version, 4 bytes more each: one contribution, then two, of which the first counts.
    let mut wide = vec![in rt.alloc(); 0u8; 4 + 64]?;
    put(&mut wide, &[(0, &u32::to_le_bytes(0xF131_51E4))]);
    put(
        &mut wide,
        &[(4, b"\x01"), (8, b"\x10"), (12, b"\x08"), (20, b"\x05")],
    );
    put(
        &mut wide,
        &[(36, b"\x01"), (40, b"\x14"), (44, b"\x08"), (52, b"\x06")],
    );
    let all = SectionContributions::parse(&wide)?;
    assert!(rt; all.put_ranges(&sections, &mut ranges[..2]) == Ok(2));
    let Ok(index) = ModuleIndex::new(&ranges[..2], &mut room) else {
        return Err(Fail::new("no room"));
    };
    let found = (index.module_at(0x1010), index.module_at(0x1017));
    assert_eq!(rt; found, (Some(5), Some(5)));
    let found = (index.module_at(0x1018), index.module_at(0x101C));
    assert_eq!(rt; found, (Some(6), None));
    assert_eq!(rt; SectionContributions::parse(&[])?.len(), 0);
    assert!(rt; refused(SectionContributions::parse(&part[..3]), short(4, 3)));
    // shows: pe_pdb/src/contribution.rt parse ContributionsVersion
    let other = with_byte(wide, 0, 0xE5);
    let wanted = PdbError::ContributionsVersion(0xF131_51E5);
    assert!(rt; refused(SectionContributions::parse(&other), wanted));
    // shows: pe_pdb/src/contribution.rt of ContributionsSize
    let found = SectionContributions::parse(&part[..59]);
    assert!(rt; refused(found, PdbError::ContributionsSize(55)));
    Ok(())
}

#[test]
fn lines_of_rows_count_from_that_of_the_function(rt: HostRuntime) -> Result<(), Fail> {
    let function = InlineeLine {
        inlinee: 0x1000,
        file: 24,
        line: 6,
    };
    let line = |line: u32, file: Option<u32>| {
        let row = InlineRow {
            offset: 0,
            length: 1,
            line,
            file,
        };
        function.line_of(&row).map(|it| (it.file, it.line))
    };
    assert_eq!(rt; line(1, None), Some((24, 7)));
    assert_eq!(rt; line(u32::MAX, Some(0)), Some((0, 5)));
    // 0, and the lines of code that a debugger steps over and into.
    assert_eq!(rt; line(u32::MAX - 5, None), None);
    assert_eq!(rt; line(0xF0_0F00 - 6, None), None);
    assert_eq!(rt; line(0xFE_EFEE - 6, None), None);
    Ok(())
}

#[test]
fn lines_of_inlined_functions_by_hand(rt: HostRuntime) -> Result<(), Fail> {
    // With other files: one of the first function, none of the second, and a third that is truncated.
    let mut other = vec![in rt.alloc(); 0u8; 4 + 20 + 16 + 16]?;
    put(
        &mut other,
        &[
            (0, b"\x01"),
            (4, b"\x05"),
            (12, b"\x07"),
            (16, b"\x01"),
            (20, b"\x18"),
        ],
    );
    put(
        &mut other,
        &[(24, b"\x06"), (32, b"\x09"), (40, b"\x07"), (52, b"\x01")],
    );
    let line = |inlinee| match InlineeLine::find(&other, inlinee) {
        Ok(found) => found.map(|found: InlineeLine| found.line),
        Err(_) => None,
    };
    assert_eq!(rt; (line(5), line(6)), (Some(7), Some(9)));
    assert!(rt; refused(InlineeLine::find(&other, 8), record_truncated(40, 20, 56)));
    assert!(rt; refused(InlineeLine::find(&other[..19], 8), short(4, 3)));
    assert!(rt; refused(InlineeLine::find(&other[..3], 8), short(4, 3)));
    assert!(rt; refused(InlineeLine::find(&other[..15], 5), short(12, 11)));
    Ok(())
}

#[test]
fn annotations_are_those_of_cvinfo(rt: HostRuntime) -> Result<(), Fail> {
    // Line -1; file 98h; 4 bytes 10h later; a row 10000h later; 15 later a row at a line more, of 2 bytes; the end.
    let bytes = b"\x06\x03\x05\x80\x98\x0C\x04\x10\x03\xC0\x01\0\0\x0B\x2F\x04\x02\0\0";
    let minus = 0xFFFF_FFFF;
    let listed = [(0x10, 4, minus), (0x1_0010, 15, minus), (0x1_001F, 2, 0)];
    let mut count = 0;
    for row in InlineRows::new(bytes) {
        let row = row?;
        assert_eq!(rt; (row.offset, row.length, row.line), listed[count.min(2)]);
        assert_eq!(rt; row.file, Some(0x98));
        count += 1;
    }
    assert_eq!(rt; count, 3);
    let line = |offset| match InlineRows::row_at(bytes, offset) {
        Ok(row) => row.map(|row: InlineRow| row.offset),
        Err(_) => None,
    };
    let found = (line(0xF), line(0x13), line(0x14));
    assert_eq!(rt; found, (None, Some(0x10), None));
    let found = (line(0x1_001E), line(0x1_0020), line(0x1_0021));
    assert_eq!(rt; found, (Some(0x1_0010), Some(0x1_001F), None));
    // shows: pe_pdb/src/annotation.rt parse Annotation
    // shows: pe_pdb/src/annotation.rt number_at Annotation
    for (bytes, offset) in [
        (b"\x03".as_slice(), 1),
        (b"\x0E\x01".as_slice(), 0),
        (b"\xE0\0\0\0".as_slice(), 0),
        (b"\x03\x01\x83".as_slice(), 2),
        (b"\x06\xC0\0\0".as_slice(), 1),
        (b"\x0C\x01".as_slice(), 2),
    ] {
        assert!(rt; refused(InlineRows::row_at(bytes, 0), PdbError::Annotation(offset)));
    }
    let found = InlineSite::parse(S_INLINESITE2, &bytes[..15]);
    assert!(rt; refused(found, short(16, 15)));
    let found = InlineSite::parse(S_INLINESITE2, &bytes[..17])?
        .annotations
        .len();
    assert_eq!(rt; found, 1);
    Ok(())
}

#[test]
fn damaged_names_and_files_are_refused(rt: HostRuntime) -> Result<(), Fail> {
    let bytes = inlined(rt.alloc())?;
    let msf = Msf::parse(&bytes)?;
    let stream = all_of(rt.alloc(), &msf, 13)?;
    assert!(rt; refused(Names::parse(&stream[..11]), short(12, 11)));
    // shows: pe_pdb/src/names.rt parse NamesSignature
    let other = with_byte(stream.clone()?, 3, 0xEE);
    assert!(rt; refused(Names::parse(&other), PdbError::NamesSignature(0xEEFE_EFFE)));
    assert!(rt; refused(Names::parse(&stream[..21]), record_truncated(12, 10, 21)));
    let info = all_of(rt.alloc(), &msf, INFO_STREAM)?;
    assert!(rt; refused(named_stream(&info[..31], NAMES_STREAM), short(32, 31)));
    let found = named_stream(&info[..48], NAMES_STREAM);
    assert!(rt; refused(found, record_truncated(32, 17, 48)));
    let found = named_stream(&info[..84], NAMES_STREAM);
    assert!(rt; refused(found, record_truncated(69, 16, 84)));
    assert!(rt; refused(named_stream(&info[..56], NAMES_STREAM), short(8, 7)));
    assert!(rt; refused(named_stream(&info[..60], NAMES_STREAM), short(4, 3)));
    let many = with_byte(info, 59, 0xFF);
    let found = named_stream(&many, NAMES_STREAM);
    assert!(rt; refused(found, record_truncated(61, 4 * 0x00FF_0001, 93)));
    let lines = lines_of(rt.alloc(), &msf, 0)?;
    for subsection in Subsections::new(&lines) {
        let subsection = subsection?;
        if subsection.kind != DEBUG_S_FILECHKSMS {
            continue;
        }
        let content = subsection.content;
        let file = FileChecksum::parse(content, 24)?;
        assert_eq!(rt; (file.name_offset, file.kind, file.hash.len()), (6, 1, 16));
        assert_eq!(rt; (file.hash[0], file.hash[15]), (0xB8, 0x26));
        assert!(rt; refused(FileChecksum::parse(&content[..29], 24), short(6, 5)));
        let found = FileChecksum::parse(&content[..45], 24);
        assert!(rt; refused(found, record_truncated(24, 22, 45)));
    }
    Ok(())
}

#[test]
fn ids_are_those_that_pdbutil_lists(rt: HostRuntime) -> Result<(), Fail> {
    let bytes = inlined(rt.alloc())?;
    let msf = Msf::parse(&bytes)?;
    let stream = all_of(rt.alloc(), &msf, ID_STREAM)?;
    let ids = TypeRecords::parse(&stream)?;
    assert_eq!(rt; (ids.first, ids.end, ids.len()), (0x1000, 0x100A, 10));
    let mut room = [0u64; 11];
    assert_eq!(rt; ids.put_starts(&mut room)?, 10);
    for (index, kind, name) in [
        (0x1000, LF_FUNC_ID, "twice"),
        (0x1001, LF_FUNC_ID, "clamp"),
        (0x1003, LF_FUNC_ID, "helper"),
        (0x1005, LF_STRING_ID, "c.c"),
    ] {
        let record = SymbolRecord::parse(ids.records, room[index - 0x1000] as usize)?;
        assert_eq!(rt; record.kind, kind);
        let own = if kind == LF_FUNC_ID {
            let function = FunctionId::parse(record.content)?;
            assert_eq!(rt; function.scope, 0);
            function.name
        } else {
            string_id(record.content)?
        };
        assert_eq!(rt; own, name);
    }
    assert_eq!(rt; (ids.offset, ids.count()?), (56, 10));
    let start = |starts: &[u64], index| match ids.get(starts, index) {
        Ok(record) => record.map(|it: SymbolRecord<'_>| it.offset),
        Err(_) => Some(usize::MAX),
    };
    for index in 0..10 {
        let found = start(&room, 0x1000 + index);
        assert_eq!(rt; found, Some(room[index as usize] as usize));
    }
    assert_eq!(rt; (start(&room, 0xFFF), start(&room, 0x100A)), (None, None));
    let found = (start(&room[..1], 0x1001), start(&[0, 1 << 40], 0x1001));
    assert_eq!(rt; found, (None, Some(usize::MAX)));
    let twice = SymbolRecord::parse(ids.records, 0)?.content;
    assert_eq!(rt; FunctionId::parse(twice)?.type_index, 0x1001);
    // shows: pe_pdb/src/ids.rt put_starts Room
    let small = PdbError::Room {
        needed: 10,
        length: 9,
    };
    assert!(rt; refused(ids.put_starts(&mut room[..9]), small));
    let mut more = stream.clone()?;
    put(&mut more, &[(12, b"\x0B")]);
    let found = TypeRecords::parse(&more)?.put_starts(&mut room);
    assert!(rt; refused(found, short(4, 0)));
    assert!(rt; refused(TypeRecords::parse(&more)?.count(), short(4, 0)));
    assert!(rt; refused(TypeRecords::parse(&stream[..55]), short(56, 55)));
    let wanted = record_truncated(56, stream.len() - 56, stream.len() - 1);
    assert!(rt; refused(TypeRecords::parse(&stream[..stream.len() - 1]), wanted));
    assert!(rt; refused(FunctionId::parse(&twice[..7]), short(8, 7)));
    // shows: pe_pdb/src/ids.rt parse Name
    assert!(rt; refused(FunctionId::parse(&twice[..13]), PdbError::Name(8)));
    assert!(rt; refused(string_id(&twice[..3]), short(4, 3)));
    // shows: pe_pdb/src/ids.rt string_id Name
    assert!(rt; refused(string_id(&twice[8..13]), PdbError::Name(4)));
    Ok(())
}
