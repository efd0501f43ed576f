//! Program databases: the PDB that lld-link wrote for the repository's tests, by what llvm-pdbutil 14.0.6 prints of it.

use super::made;
use pe_c::{Error, Guid, Pdb, PdbReader, SymbolFrame, SymbolKey};

const GUID: Guid = Guid(*b"\xE4\x54\xD9\x94\x4D\x79\x23\xF2\x4C\x4C\x44\x20\x50\x44\x42\x2E");

/// Where the DBI stream and the stream of the module b.obj are in the file.
const DBI: usize = 13 * 4096;
const MODULE: usize = 11 * 4096;

fn named(frames: &[SymbolFrame]) -> Vec<(&str, u32, u32, bool)> {
    frames.iter().map(|it| (it.name.as_str(), it.function_rva, it.offset, it.is_public)).collect()
}

#[test]
fn a_pdb_has_the_key_of_its_image() {
    let bytes = made::pdb();
    let pdb = Pdb::parse(&bytes).unwrap();
    assert_eq!((pdb.info().machine, pdb.info().number_of_streams, pdb.info().age), (0x8664, 16, 1));
    assert_eq!(pdb.dbi(), Ok(()));
    assert!(!pdb.is_moved());
    let key = pdb.key("t.pdb");
    assert_eq!(key, SymbolKey::new(GUID, 1, b"t.pdb"));
    assert_eq!(key.path().unwrap().to_string(), "t.pdb/94D954E4794DF2234C4C44205044422E1/t.pdb");
    assert!(pdb.matches(&key));
    assert!(!pdb.matches(&SymbolKey::new(GUID, 2, b"t.pdb")));
    assert!(!pdb.matches(&SymbolKey::new(Guid([0; 16]), 1, b"t.pdb")));
    assert_eq!(pdb.stream(16), Err(Error::PDB_NO_STREAM));
    assert_eq!(pdb.stream(3).unwrap(), &bytes[DBI..DBI + 717]);
    assert!(pdb.bytes() == bytes);
    assert!(format!("{pdb:?}").starts_with("Pdb { info: PdbInfo { guid: "));
}

/// The PDB with the code of `helper` and `local` moved to 0x3010, and no other code left: by OMAP tables in place of the hash tables.
fn moved_pdb() -> Vec<u8> {
    let mut bytes = made::pdb();
    let debug_streams = DBI + 717 - 22;
    let rows = [[(0x1000u32, 0), (0x3010, 0x1050), (0x304C, 0)], [(0x1000, 0), (0x1050, 0x3010), (0x108C, 0u32)]];
    for (index, (rows, number_at)) in rows.iter().zip([DBI + 12, DBI + 16]).enumerate() {
        let number = u16::from_le_bytes([bytes[number_at], bytes[number_at + 1]]);
        let table = Pdb::parse(&bytes).unwrap().stream(number.into()).unwrap();
        let at = bytes.windows(table.len()).position(|it| it == table).unwrap();
        let all = rows.iter().copied().chain(std::iter::repeat((u32::MAX, 0)));
        for (row, (from, to)) in bytes[at..at + table.len()].chunks_exact_mut(8).zip(all) {
            row.copy_from_slice(&[from.to_le_bytes(), to.to_le_bytes()].concat());
        }
        let entry = debug_streams + 2 * (3 + index);
        bytes[entry..entry + 2].copy_from_slice(&number.to_le_bytes());
    }
    let headers = bytes[debug_streams + 10..debug_streams + 12].to_vec();
    bytes[debug_streams + 20..debug_streams + 22].copy_from_slice(&headers);
    bytes
}

/// From 0x3010 on there are the 45 bytes of `helper`, and at 0x3040 `local`; a row reaches to the next one.
#[test]
fn code_that_was_moved_is_named() {
    let bytes = moved_pdb();
    let pdb = Pdb::parse(&bytes).unwrap();
    let omap = pdb.omap().unwrap().unwrap();
    assert!(pdb.is_moved());
    assert_eq!(
        [0xFFF, 0x1050, 0x3010, 0x304B, 0x304C].map(|it| omap.linked_rva(it)),
        [None, None, Some(0x1050), Some(0x108B), None]
    );
    assert_eq!([0x1048, 0x1050, 0x108B].map(|it| omap.image_rva(it)), [None, Some(0x3010), Some(0x304B)]);
    let symbolizer = pdb.symbolizer().unwrap();
    let frames = symbolizer.frames(0x3025);
    assert_eq!(named(&frames), [("helper", 0x3010, 0x15, false)]);
    assert_eq!((frames[0].file.as_deref(), frames[0].line), (Some("generated\\else.inc"), Some(900)));
    assert_eq!(named(&symbolizer.frames(0x304B)), [("local", 0x3040, 11, false)]);
    assert_eq!([0x1050, 0x304C].map(|it| symbolizer.frames(it).len()), [0, 0]);
    assert_eq!(Pdb::parse(&made::pdb()).unwrap().omap(), Ok(None));
}

#[test]
fn modules_and_symbols_are_listed() {
    let bytes = made::pdb();
    let pdb = Pdb::parse(&bytes).unwrap();
    let modules = pdb.modules().unwrap();
    let listed: Vec<_> = modules.iter().map(|it| (it.name.as_str(), it.file.as_str(), it.stream)).collect();
    assert_eq!(listed, [("a.obj", "a.obj", Some(11)), ("b.obj", "b.obj", Some(12)), ("* Linker *", "", Some(13))]);
    assert_eq!((modules[1].symbols_size, modules[1].lines_size, modules[1].number_of_files), (328, 176, 2));
    assert_eq!((modules[1].section, modules[1].code_offset, modules[1].code_size), (1, 80, 60));
    let publics = pdb.publics().unwrap();
    let publics: Vec<_> = publics.iter().map(|it| (it.name.as_str(), it.rva, it.is_function, it.kind)).collect();
    assert_eq!(publics, [("entry", Some(0x1000), true, 0x110E), ("helper", Some(0x1050), true, 0x110E)]);
    let procedures = pdb.procedures(&modules[1]).unwrap();
    let procedures: Vec<_> = procedures.iter().map(|it| (it.name.as_str(), it.rva, it.size, it.kind)).collect();
    assert_eq!(procedures, [("helper", Some(0x1050), 45, 0x1110), ("local", Some(0x1080), 12, 0x110F)]);
    assert_eq!(pdb.procedures(&modules[2]), Ok(vec![]));
}

#[test]
fn functions_are_named() {
    let bytes = made::pdb();
    let pdb = Pdb::parse(&bytes).unwrap();
    let symbolizer = pdb.symbolizer().unwrap();
    assert!(symbolizer.damaged().is_empty());
    assert_eq!(named(&symbolizer.frames(0x1048)), [("entry", 0x1000, 0x48, false)]);
    assert_eq!(named(&symbolizer.frames(0x1050)), [("helper", 0x1050, 0, false)]);
    assert_eq!(named(&symbolizer.frames(0x108B)), [("local", 0x1080, 11, false)]);
    // No procedure has these: the public function before them.
    assert_eq!(named(&symbolizer.frames(0x104F)), [("entry", 0x1000, 0x4F, true)]);
    assert_eq!(named(&symbolizer.frames(u32::MAX)), [("helper", 0x1050, u32::MAX - 0x1050, true)]);
    assert_eq!(symbolizer.frames(0xFFF), []);
}

#[test]
fn lines_are_those_that_pdbutil_prints() {
    let bytes = made::pdb();
    let pdb = Pdb::parse(&bytes).unwrap();
    let symbolizer = pdb.symbolizer().unwrap();
    assert_eq!(symbolizer.names_error(), None);
    let line = |rva| {
        let [frame] = &symbolizer.frames(rva)[..] else { panic!("{rva:#x}") };
        (frame.file.clone(), frame.line, frame.column)
    };
    for (rva, file, number) in [
        (0x1000, "a.c", 2),
        (0x1048, "a.c", 6),
        (0x1064, "b.c", 5),
        (0x1065, "generated\\else.inc", 900),
        (0x107C, "b.c", 9),
        (0x108B, "b.c", 2),
    ] {
        assert_eq!(line(rva), (Some(file.to_owned()), Some(number), None));
    }
    assert_eq!(line(0x108C), (None, None, None));
}

/// As `llvm-pdbutil dump -l` prints the two modules.
#[test]
fn lines_of_a_module_are_listed() {
    let bytes = made::pdb();
    let pdb = Pdb::parse(&bytes).unwrap();
    let (modules, names) = (pdb.modules().unwrap(), pdb.source_names().unwrap());
    let found = pdb.lines(&modules[1], &names).unwrap();
    let rows: Vec<_> = found.lines.iter().map(|it| (it.rva, it.file, it.line, it.column)).collect();
    let row = |rva, file, line| (rva, Some(file), Some(line), None);
    assert_eq!(
        rows,
        [
            row(0x1050, 0, 4),
            row(0x1058, 0, 5),
            row(0x1065, 1, 900),
            row(0x1071, 0, 9),
            row(0x1080, 0, 1),
            row(0x1085, 0, 2)
        ]
    );
    assert_eq!((found.files, found.is_limited), (vec!["b.c".to_owned(), "generated\\else.inc".to_owned()], false));
    assert_eq!(found.lines[0].code_size, 0x2D);
    assert_eq!(pdb.lines(&modules[2], &names).unwrap().lines, []);
}

#[test]
fn damaged_lines_cost_themselves_alone() {
    let mut bytes = made::pdb();
    // The first subsection of lines, after 332 bytes of symbols, passes the end.
    bytes[MODULE + 332 + 6] = 1;
    let pdb = Pdb::parse(&bytes).unwrap();
    let symbolizer = pdb.symbolizer().unwrap();
    assert_eq!(symbolizer.frames(0x1048)[0].line, Some(6));
    // The module is not read yet.
    assert_eq!(symbolizer.damaged(), []);
    assert_eq!(named(&symbolizer.frames(0x108B)), [("local", 0x1080, 11, false)]);
    assert_eq!(symbolizer.frames(0x108B)[0].line, None);
    let [damaged] = &symbolizer.damaged()[..] else { panic!("{:?}", symbolizer.damaged()) };
    assert_eq!((damaged.name.as_str(), damaged.has_names), ("b.obj", true));
    assert_eq!(damaged.error, Error::PDB_RECORD_TRUNCATED);
    let (modules, names) = (pdb.modules().unwrap(), pdb.source_names().unwrap());
    assert_eq!(pdb.lines(&modules[1], &names).unwrap_err(), Error::PDB_RECORD_TRUNCATED);
    assert_eq!(pdb.lines(&modules[0], &names).unwrap().files, ["a.c"]);
}

#[test]
fn a_damaged_module_costs_its_names_alone() {
    let mut bytes = made::pdb();
    // The record of `helper` in the module has a size of 1.
    bytes[MODULE + 72] = 1;
    bytes[MODULE + 73] = 0;
    let pdb = Pdb::parse(&bytes).unwrap();
    let symbolizer = pdb.symbolizer().unwrap();
    assert_eq!(named(&symbolizer.frames(0x1048)), [("entry", 0x1000, 0x48, false)]);
    assert_eq!(named(&symbolizer.frames(0x108B)), [("helper", 0x1050, 0x3B, true)]);
    let [damaged] = &symbolizer.damaged()[..] else { panic!("{:?}", symbolizer.damaged()) };
    assert_eq!((damaged.name.as_str(), damaged.error), ("b.obj", Error::PDB_RECORD_SIZE));
    assert!(!damaged.has_names);
}

/// Public symbols are read where no procedure has an RVA.
#[test]
fn damaged_public_symbols_cost_themselves_alone() {
    let mut bytes = made::pdb();
    let number = Pdb::parse(&bytes).unwrap().info().symbol_stream;
    let at = Pdb::stream_range(&bytes, number.into()).unwrap().unwrap().start;
    // The first record has a size of 1.
    bytes[at..at + 2].copy_from_slice(&[1, 0]);
    let pdb = Pdb::parse(&bytes).unwrap();
    let symbolizer = pdb.symbolizer().unwrap();
    assert_eq!(named(&symbolizer.frames(0x1048)), [("entry", 0x1000, 0x48, false)]);
    assert_eq!(symbolizer.publics_error(), None);
    assert_eq!(symbolizer.frames(0x104F), []);
    assert_eq!((symbolizer.publics_error(), symbolizer.damaged()), (Some(Error::PDB_RECORD_SIZE), vec![]));
}

/// A file that is read in parts, and where those start that were read. Only what is scattered is read whole.
struct Parts {
    whole: Vec<u8>,
    read: std::sync::Mutex<Vec<usize>>,
}

impl PdbReader for Parts {
    fn part(&self, range: std::ops::Range<usize>) -> Result<Vec<u8>, Error> {
        self.read.lock().unwrap().push(range.start);
        Ok(self.whole[range].to_vec())
    }

    fn whole(&self) -> Result<&[u8], Error> {
        panic!("no stream is scattered")
    }
}

/// Of a file in parts the streams are read that are needed, and no others.
#[test]
fn a_file_is_read_in_parts() {
    for whole in [made::pdb_inlined(), made::pdb()] {
        let pdb = Pdb::parse(&whole).unwrap();
        let (info, mut bytes, mut starts) = (*pdb.info(), whole.clone(), Vec::new());
        for number in 0..info.number_of_streams {
            let range = Pdb::stream_range(&whole, number).unwrap().unwrap();
            assert_eq!(pdb.stream(number).unwrap(), &whole[range.clone()]);
            starts.push(range.start);
            if ![1, 3, info.section_headers.into()].contains(&number) {
                bytes[range].fill(0);
            }
        }
        let reader = Parts { whole: whole.clone(), read: Default::default() };
        let in_parts = Pdb::parse(&bytes).unwrap().with_reader(&reader);
        let (symbolizer, wanted) = (in_parts.symbolizer().unwrap(), pdb.symbolizer().unwrap());
        assert_eq!(symbolizer.frames(0x1004), wanted.frames(0x1004));
        let read = |number: u32| reader.read.lock().unwrap().contains(&starts[number as usize]);
        let publics = info.symbol_stream.into();
        // The names of source files, and the module of the RVA.
        let count = reader.read.lock().unwrap().len();
        assert_eq!((count, read(4), read(publics)), (2, false, false));
        for rva in 0xFF8..0x1090 {
            assert_eq!(symbolizer.frames(rva), wanted.frames(rva), "{rva:#x}");
        }
        assert!(read(publics));
        assert_eq!((in_parts.modules(), in_parts.publics()), (pdb.modules(), pdb.publics()));
    }
}

#[test]
fn what_is_refused_has_an_error() {
    let mut bytes = made::pdb();
    assert_eq!(Pdb::parse(b"MZ").unwrap_err(), Error::SHORT);
    assert_eq!(Pdb::parse(&bytes[1..]).unwrap_err(), Error::PDB_MAGIC);
    bytes[DBI] = 0;
    let pdb = Pdb::parse(&bytes).unwrap();
    assert_eq!(pdb.dbi(), Err(Error::PDB_DBI_SIGNATURE));
    assert_eq!(pdb.modules(), Err(Error::PDB_DBI_SIGNATURE));
    assert_eq!(pdb.publics(), Err(Error::PDB_DBI_SIGNATURE));
    assert!(pdb.symbolizer().is_err());
    assert!(!pdb.matches(&SymbolKey::new(GUID, 1, b"t.pdb")));
}

/// A function, its file and line, and whether it is inlined.
fn placed(frames: &[SymbolFrame]) -> Vec<(&str, Option<&str>, Option<u32>, bool)> {
    frames.iter().map(|it| (it.name.as_str(), it.file.as_deref(), it.line, it.is_inlined)).collect()
}

/// By the rows of `llvm-pdbutil dump -symbols`, and the lines of `-il` and `-l`.
#[test]
fn inlined_functions_are_those_that_pdbutil_prints() {
    let bytes = made::pdb_inlined();
    let pdb = Pdb::parse(&bytes).unwrap();
    let symbolizer = pdb.symbolizer().unwrap();
    assert_eq!(placed(&symbolizer.frames(0x1004)), [("entry", Some("c.c"), Some(3), false)]);
    assert_eq!(symbolizer.ids_error(), None);
    let (clamp, twice) = (("clamp", Some("c.h"), Some(2), true), ("twice", Some("c.h"), Some(7), true));
    let frames = symbolizer.frames(0x1005);
    assert_eq!(placed(&frames), [clamp, twice, ("entry", Some("c.c"), Some(4), false)]);
    assert_eq!(
        (frames[0].function_rva, frames[0].offset, frames[0].column, frames[0].is_public),
        (0x1000, 5, None, false)
    );
    assert_eq!(placed(&symbolizer.frames(0x1020)), [clamp, ("entry", Some("c.c"), Some(5), false)]);
    let twice = ("twice", Some("c.h"), Some(8), true);
    assert_eq!(placed(&symbolizer.frames(0x1065)), [twice, ("helper", Some("c.c"), Some(9), false)]);
    assert_eq!((symbolizer.damaged(), symbolizer.ids_error()), (vec![], None));
}

#[test]
fn ids_that_are_refused_cost_names_alone() {
    let mut bytes = made::pdb_inlined();
    let pdb = Pdb::parse(&bytes).unwrap();
    let ids = pdb.stream(4).unwrap();
    let at = bytes.windows(ids.len()).position(|it| it == ids).unwrap();
    bytes[at + 56] = 1;
    let pdb = Pdb::parse(&bytes).unwrap();
    let symbolizer = pdb.symbolizer().unwrap();
    let found = placed_owned(&symbolizer.frames(0x1005));
    assert_eq!(found[..2], [(String::new(), Some(2)), (String::new(), Some(7))]);
    assert_eq!((symbolizer.ids_error(), symbolizer.damaged()), (Some(Error::PDB_RECORD_SIZE), vec![]));
}

/// A record of the stream of ids that is damaged costs the name of its function, and says so.
#[test]
fn a_name_that_is_refused_is_reported() {
    let mut bytes = made::pdb_inlined();
    let ids = Pdb::parse(&bytes).unwrap().stream(4).unwrap();
    let at = bytes.windows(ids.len()).position(|it| it == ids).unwrap();
    let name = at + ids.windows(6).position(|it| it == b"clamp\0").unwrap();
    bytes[name] = 0xFF;
    let pdb = Pdb::parse(&bytes).unwrap();
    let symbolizer = pdb.symbolizer().unwrap();
    let found = placed_owned(&symbolizer.frames(0x1005));
    assert_eq!(found, [(String::new(), Some(2)), ("twice".into(), Some(7)), ("entry".into(), Some(4))]);
    let [damaged] = &symbolizer.damaged()[..] else { panic!("{:?}", symbolizer.damaged()) };
    assert_eq!((damaged.error, damaged.has_names, symbolizer.ids_error()), (Error::PDB_NAME, true, None));
}

/// Damage is refused or costs names: whatever bytes have other values, each call ends, and each frame is of the RVA that was asked for.
#[test]
fn mutants_are_read_or_refused() {
    let whole = made::pdb_inlined();
    let places: Vec<usize> = (0..whole.len()).filter(|at| whole[*at] != 0).collect();
    let (mut seed, mut read, mut damaged) = (83u64, 0, 0);
    for count in 0..4000 {
        let mut bytes = whole.clone();
        for _ in 0..=count % 3 {
            seed = seed.wrapping_mul(6364136223846793005).wrapping_add(1442695040888963407);
            bytes[places[(seed >> 33) as usize % places.len()]] = (seed >> 24) as u8;
        }
        let Ok(pdb) = Pdb::parse(&bytes) else { continue };
        let Ok(symbolizer) = pdb.symbolizer() else { continue };
        read += 1;
        for rva in (0xFF8..0x1090).step_by(5) {
            let frames = symbolizer.frames(rva);
            assert!(frames.len() <= 65 && frames.iter().all(|it| it.function_rva + it.offset == rva), "{frames:?}");
        }
        damaged += usize::from(!symbolizer.damaged().is_empty());
    }
    assert!(read < 4000 && read > 1000 && damaged > 100, "{read} {damaged}");
}

/// Threads take turns with one.
#[test]
fn a_symbolizer_is_shared_under_a_lock() {
    let bytes = made::pdb_inlined();
    let pdb = Pdb::parse(&bytes).unwrap();
    let symbolizer = std::sync::Mutex::new(pdb.symbolizer().unwrap());
    let count = || symbolizer.lock().unwrap().frames(0x1005).len();
    let counts = std::thread::scope(|it| [it.spawn(count), it.spawn(count)].map(|it| it.join().unwrap()));
    assert_eq!(counts, [3, 3]);
}

fn placed_owned(frames: &[SymbolFrame]) -> Vec<(String, Option<u32>)> {
    frames.iter().map(|it| (it.name.clone(), it.line)).collect()
}

#[test]
fn an_annotation_that_is_refused_costs_the_inlined_functions() {
    let mut bytes = made::pdb_inlined();
    let module = Pdb::parse(&bytes).unwrap().stream(11).unwrap();
    let at = bytes.windows(module.len()).position(|it| it == module).unwrap();
    // The first annotation of the function that is inlined first: operation 14.
    bytes[at + 192 + 16] = 14;
    let pdb = Pdb::parse(&bytes).unwrap();
    let symbolizer = pdb.symbolizer().unwrap();
    assert_eq!(placed(&symbolizer.frames(0x1005)), [("entry", Some("c.c"), Some(4), false)]);
    let [damaged] = &symbolizer.damaged()[..] else { panic!("{:?}", symbolizer.damaged()) };
    assert_eq!((damaged.error, damaged.has_names), (Error::PDB_ANNOTATION, true));
    assert_eq!(symbolizer.frames(0x1065).len(), 2);
}

/// Without contributions the procedures of all modules say whose an RVA is.
#[test]
fn modules_are_found_without_contributions() {
    let mut bytes = made::pdb();
    // The version of the contributions, which start 64 and 228 bytes after the start of the DBI stream.
    bytes[DBI + 292] = 0;
    let pdb = Pdb::parse(&bytes).unwrap();
    let symbolizer = pdb.symbolizer().unwrap();
    assert_eq!(named(&symbolizer.frames(0x1048)), [("entry", 0x1000, 0x48, false)]);
    assert_eq!(named(&symbolizer.frames(0x108B)), [("local", 0x1080, 11, false)]);
    assert_eq!(named(&symbolizer.frames(0x104F)), [("entry", 0x1000, 0x4F, true)]);
    assert_eq!(symbolizer.damaged(), []);
}

/// No file of /DEBUG:FASTLINK was at hand: its feature is put in the place of the one that lld writes.
#[test]
fn fastlink_is_recognised() {
    let mut bytes = made::pdb();
    let info = Pdb::parse(&bytes).unwrap().stream(1).unwrap();
    let at = bytes.windows(info.len()).position(|it| it == info).unwrap();
    assert!(!Pdb::parse(&bytes).unwrap().is_fastlink());
    let last = at + info.len() - 4;
    assert_eq!(bytes[last..last + 4], 20140508u32.to_le_bytes());
    bytes[last..last + 4].copy_from_slice(b"MINI");
    assert!(Pdb::parse(&bytes).unwrap().is_fastlink());
    // After the feature of Visual C++ 11 there is no other.
    bytes[last - 4..last].copy_from_slice(&20091201u32.to_le_bytes());
    assert!(!Pdb::parse(&bytes).unwrap().is_fastlink());
}
