//! Names and lines by PDB files: `pe stack --symbols` over the dump of a crash of a program of known lines (`crash/`), and `pe pdb`.
//! What is expected are the lines of the sources, and what llvm-pdbutil 14.0.6 prints of the PDB.

#[path = "crash/made.rs"]
mod crash;

mod running;

use running::{of_pieces, opened_in, run, Folder};
use serde_json::{json, Value};
use std::fs;
use std::path::Path;
use std::process::Command;

/// The key that the program names, and where its age is in the DBI stream, which is stream 3, and its GUID in stream 1: by `llvm-pdbutil
/// dump -streams -stream-blocks`.
const KEY: &str = "C4AAF6DE03F43CF24C4C44205044422E1";

/// A folder with the dump, and the program in `images`.
fn folder(test: &str) -> Folder {
    let folder = Folder::new(test);
    fs::create_dir_all(folder.0.join("images")).unwrap();
    fs::create_dir_all(folder.0.join("syms")).unwrap();
    folder.file("crash.dmp", &of_pieces(crash::DUMP));
    folder.file("images/crash.exe", &of_pieces(crash::EXE));
    folder
}

/// Puts a file below a folder, with the folders that it is in.
fn put(folder: &Folder, path: &str, bytes: &[u8]) {
    let path = folder.0.join(path);
    fs::create_dir_all(path.parent().unwrap()).unwrap();
    fs::write(path, bytes).unwrap();
}

/// A run in the folder, without the variable that names folders, or with it.
fn run_in(folder: &Folder, words: &[&str], variable: Option<&str>) -> (String, String, Option<i32>) {
    let mut command = Command::new(env!("CARGO_BIN_EXE_pe"));
    command.args(words).current_dir(&folder.0).env_remove("_NT_SYMBOL_PATH").env_remove("COLUMNS");
    variable.map(|it| command.env("_NT_SYMBOL_PATH", it));
    let ran = command.output().unwrap();
    (String::from_utf8(ran.stdout).unwrap(), String::from_utf8(ran.stderr).unwrap(), ran.status.code())
}

/// What `pe stack --json` says of the dump in the folder.
fn stack_in(folder: &Folder, words: &[&str], variable: Option<&str>) -> Value {
    let words = [&["stack", "crash.dmp", "--images", "images", "--json"], words].concat();
    let (out, complaints, status) = run_in(folder, &words, variable);
    assert_eq!((complaints.as_str(), status), ("", Some(0)), "{out}");
    serde_json::from_str(&out).unwrap()
}

/// The functions of the frames of the first thread.
fn functions_of(said: &Value) -> Vec<&Value> {
    said["threads"][0]["frames"].as_array().unwrap().iter().map(|it| &it["function"]).collect()
}

/// A name, with the file and the line.
fn line_of(it: &Value) -> Value {
    json!([it["name"], it["file"], it["line"]])
}

/// The crash is in a function that is inlined twice, whose line is that of the call of it; a call in another file within a function, one
/// in an inlined function, and one of a template: each line is that of the call in the sources.
#[test]
fn frames_have_the_functions_and_lines_of_the_sources() {
    let folder = folder("symbols-lines");
    put(&folder, "syms/crash.pdb", &of_pieces(crash::PDB));
    let said = stack_in(&folder, &["--symbols", "syms"], None);
    let functions = functions_of(&said);
    let own: Vec<Value> = functions.iter().map(|it| line_of(it)).collect();
    let wanted = [
        json!(["reads", "crash.cpp", 8]),
        json!(["middle", "generated\\else.inc", 900]),
        json!(["app::outer<int>", "crash.cpp", 25]),
        json!(["entry", "crash.cpp", 31]),
    ];
    assert_eq!(own, wanted);
    // What is inlined there, the innermost first, by the sources.
    let inlined: Vec<Vec<Value>> =
        functions.iter().map(|it| it["inlined"].as_array().unwrap().iter().map(line_of).collect()).collect();
    let wanted = [
        vec![json!(["geo::load", "shapes.h", 5]), json!(["geo::twice", "shapes.h", 9])],
        vec![],
        vec![json!(["app::through", "crash.cpp", 21])],
        vec![],
    ];
    assert_eq!(inlined, wanted);
    let (text, _, _) = run_in(&folder, &["stack", "crash.dmp", "--images", "images", "--symbols", "syms"], None);
    assert!(text.contains("  geo::load [inlined]"), "{text}");
    assert!(text.contains("generated\\else.inc:900  leaf\n"), "{text}");
}

/// A PDB with the same streams in blocks of 512 bytes. Those of the streams that are `turned` stand from the last to the first.
fn in_small_blocks(bytes: &[u8], is_turned: impl Fn(u32) -> bool) -> Vec<u8> {
    const BLOCK: usize = 512;
    let pdb = pe_c::Pdb::parse(bytes).unwrap();
    let streams: Vec<Vec<u8>> = (0..pdb.info().number_of_streams).map(|it| pdb.stream(it).unwrap()).collect();
    let mut directory = vec![streams.len() as u32];
    directory.extend(streams.iter().map(|it| it.len() as u32));
    let count: usize = streams.iter().map(|it| it.len().div_ceil(BLOCK)).sum();
    let blocks = (4 * (directory.len() + count)).div_ceil(BLOCK);
    let mut file = vec![0; BLOCK * (4 + blocks)];
    for (number, stream) in (0..).zip(&streams) {
        let (first, own) = (file.len() / BLOCK, stream.len().div_ceil(BLOCK));
        file.resize(file.len() + BLOCK * own, 0);
        for (index, part) in stream.chunks(BLOCK).enumerate() {
            let block = first + if is_turned(number) { own - 1 - index } else { index };
            file[BLOCK * block..][..part.len()].copy_from_slice(part);
            directory.push(block as u32);
        }
    }
    let numbers = [BLOCK, 1, file.len() / BLOCK, 4 * directory.len(), 0, 3];
    let bytes_of = |it: Vec<u32>| it.into_iter().flat_map(u32::to_le_bytes).collect::<Vec<u8>>();
    let put = |file: &mut [u8], at: usize, bytes: &[u8]| file[at..at + bytes.len()].copy_from_slice(bytes);
    put(&mut file, 0, &bytes[..32]);
    put(&mut file, 32, &bytes_of(numbers.map(|it| it as u32).to_vec()));
    put(&mut file, 3 * BLOCK, &bytes_of((4..4 + blocks as u32).collect()));
    put(&mut file, 4 * BLOCK, &bytes_of(directory));
    file
}

/// Of a PDB the parts are read that are needed, where the blocks of each stream follow one another; else all of it.
#[test]
fn streams_in_any_blocks_name_frames() {
    let pdb = of_pieces(crash::PDB);
    let headers = u32::from(pe_c::Pdb::parse(&pdb).unwrap().info().section_headers);
    let turned: [&dyn Fn(u32) -> bool; 4] =
        [&|_| false, &|it| ![1, 3, headers].contains(&it), &|it| it == 3, &|_| true];
    for (index, is_turned) in turned.into_iter().enumerate() {
        let folder = folder(&format!("symbols-blocks-{index}"));
        put(&folder, "syms/crash.pdb", &in_small_blocks(&pdb, is_turned));
        let said = stack_in(&folder, &["--symbols", "syms"], None);
        let own: Vec<Value> =
            functions_of(&said).iter().map(|it| json!([line_of(it), it["inlined"][0]["name"]])).collect();
        let wanted = [
            json!([["reads", "crash.cpp", 8], "geo::load"]),
            json!([["middle", "generated\\else.inc", 900], null]),
            json!([["app::outer<int>", "crash.cpp", 25], "app::through"]),
            json!([["entry", "crash.cpp", 31], null]),
        ];
        assert_eq!(own, wanted, "{index}");
    }
}

/// By the procedures of `llvm-pdbutil dump -symbols`, and the offsets of the frames.
#[test]
fn frames_have_the_functions_of_a_pdb() {
    let folder = folder("symbols-functions");
    put(&folder, "syms/crash.pdb", &of_pieces(crash::PDB));
    let said = stack_in(&folder, &["--symbols", "syms"], None);
    let found: Vec<Value> = functions_of(&said)
        .iter()
        .map(|it| json!([it["name"], it["offset"], it["source"], it["is_nearest"]]))
        .collect();
    let wanted = [
        json!(["reads", 0xF, "procedure", false]),
        json!(["middle", 0xE, "procedure", false]),
        json!(["app::outer<int>", 0xE, "procedure", false]),
        json!(["entry", 0xE, "procedure", false]),
    ];
    assert_eq!(found, wanted);
    let pdb = &said["modules"][0]["pdb"];
    assert_eq!((&pdb["state"], &pdb["file"], &pdb["frames"]), (&json!("read"), &json!("syms/crash.pdb"), &json!(4)));
    // Without a folder no PDB is looked for.
    let said = stack_in(&folder, &[], None);
    assert_eq!((functions_of(&said)[0], &said["modules"][0]["pdb"]), (&json!(null), &json!(null)));
}

/// Where a PDB of the program is found: as symbol servers have it, in either case, in two tiers, in a folder, by the variable, or named.
#[test]
fn a_pdb_is_found_as_symbol_servers_have_it() {
    let lower = KEY.to_lowercase();
    let paths = [
        format!("syms/crash.pdb/{KEY}/crash.pdb"),
        format!("syms/CRASH.PDB/{lower}/Crash.pdb"),
        format!("syms/cr/crash.pdb/{KEY}/crash.pdb"),
        "syms/Crash.PDB".to_string(),
    ];
    for (index, path) in paths.iter().enumerate() {
        let folder = folder(&format!("symbols-found-{index}"));
        put(&folder, path, &of_pieces(crash::PDB));
        let found = |words: &[&str], variable| stack_in(&folder, words, variable)["modules"][0]["pdb"]["file"].clone();
        assert_eq!(found(&["--symbols", "syms"], None), json!(path));
        assert_eq!(found(&["--symbols", "images", "--symbols", "syms"], None), json!(path));
        assert_eq!(found(&[], Some("srv*syms*https://example.com/symbols")), json!(path));
        assert_eq!(found(&[], Some("nowhere;cache*syms")), json!(path));
        assert_eq!(found(&["--symbols", path], None), json!(path));
    }
}

#[test]
fn what_is_not_fetched_is_said() {
    let folder = folder("symbols-left-out");
    let variable = Some("srv*syms*https://example.com/symbols;nowhere");
    let said = stack_in(&folder, &[], variable);
    let wanted = json!(["https://example.com/symbols (no network is used)", "nowhere (it is not there)"]);
    assert_eq!((&said["symbols_left_out"], &said["modules"][0]["pdb"]["state"]), (&wanted, &json!("missing")));
    let (text, _, _) = run_in(&folder, &["stack", "crash.dmp", "--images", "images"], variable);
    assert!(text.contains("of _NT_SYMBOL_PATH https://example.com/symbols (no network is used)\n"), "{text}");
    assert!(
        text.contains("  crash.exe  0       not found  crash.pdb/C4AAF6DE03F43CF24C4C44205044422E1/crash.pdb\n"),
        "{text}"
    );
    let (_, complaints, status) = run_in(&folder, &["stack", "crash.dmp", "--symbols", "nowhere"], None);
    assert!(complaints.contains("nowhere: No such file or directory") && status == Some(3), "{complaints}");
}

/// The first place of some bytes.
fn place_of(bytes: &[u8], part: &[u8]) -> usize {
    bytes.windows(part.len()).position(|it| it == part).unwrap()
}

/// The bytes of the GUID, and the start of the header of the DBI stream: -1 and its version. The age follows it.
const GUID: [u8; 16] = [0xDE, 0xF6, 0xAA, 0xC4, 0xF4, 0x03, 0xF2, 0x3C, 0x4C, 0x4C, 0x44, 0x20, 0x50, 0x44, 0x42, 0x2E];
const DBI: [u8; 8] = [0xFF, 0xFF, 0xFF, 0xFF, 0x77, 0x09, 0x31, 0x01];

#[test]
fn no_name_is_read_of_another_build() {
    let pdb = of_pieces(crash::PDB);
    let (mut age, mut guid) = (pdb.clone(), pdb.clone());
    age[place_of(&pdb, &DBI) + 8] = 0x1F;
    guid[place_of(&pdb, &GUID)] = 0xDF;
    let cases = [
        (age, "C4AAF6DE03F43CF24C4C44205044422E1F", "age 1F (hexadecimal), wanted 1"),
        (guid, "C4AAF6DF03F43CF24C4C44205044422E1", "GUID and age C4AAF6DF03F43CF24C4C44205044422E1, wanted"),
    ];
    for (bytes, key, words) in cases {
        let folder = folder(&format!("symbols-other-{}", key.len()));
        put(&folder, "syms/crash.pdb", &bytes);
        let said = stack_in(&folder, &["--symbols", "syms"], None);
        let pdb = &said["modules"][0]["pdb"];
        assert_eq!(
            (&pdb["state"], &pdb["found_key"], &pdb["wanted_key"]),
            (&json!("another-build"), &json!(key), &json!(KEY))
        );
        assert!(functions_of(&said).iter().all(|it| it.is_null()), "{said}");
        let (text, _, status) =
            run_in(&folder, &["stack", "crash.dmp", "--images", "images", "--symbols", "syms"], None);
        assert!(text.contains(&format!("of another build, not read: {words}")) && status == Some(0), "{text}");
        // The right one is found after it.
        put(&folder, "more/crash.pdb", &of_pieces(crash::PDB));
        let said = stack_in(&folder, &["--symbols", "syms", "--symbols", "more"], None);
        assert_eq!(said["modules"][0]["pdb"]["file"], "more/crash.pdb");
    }
}

#[test]
fn what_is_no_pdb_that_is_read_is_told() {
    let cases: [(&str, &[u8], &str, &str); 6] = [
        ("syms/crash.pdb", b"Microsoft C/C++ program database 2.00\r\n\x1AJG\0\0.................", "refused", "PDB20"),
        ("syms/crash.pdb", &[b"BSJB".as_slice(), &[0; 60]].concat(), "refused", "PDB_PORTABLE"),
        ("syms/crash.pdb", &[b'x'; 100], "refused", "PDB_MAGIC"),
        ("syms/crash.pdb", b"short", "refused", "SHORT"),
        ("syms/crash.pdb/KEY/crash.pd_", b"MSCF", "not-read", "compressed: `cabextract` makes the PDB of it"),
        ("syms/crash.pdb/KEY/file.ptr", b"PATH:\\\\a\\b", "not-read", "leads to another file, which is not followed"),
    ];
    for (index, (path, bytes, state, words)) in cases.into_iter().enumerate() {
        let folder = folder(&format!("symbols-none-{index}"));
        put(&folder, &path.replace("KEY", KEY), bytes);
        let said = stack_in(&folder, &["--symbols", "syms"], None);
        let pdb = &said["modules"][0]["pdb"];
        assert_eq!(pdb["state"], state, "{said}");
        assert!(pdb["error"]["name"] == words || pdb["reason"] == words, "{pdb}");
        assert_eq!(functions_of(&said).len(), 4);
        let (text, _, _) = run_in(&folder, &["stack", "crash.dmp", "--images", "images", "--symbols", "syms"], None);
        assert!(text.contains(words), "{text}");
    }
}

/// A file that is named by itself may be the PDB of another module, by its key. One that is no PDB, or cannot be read, is said.
#[test]
fn a_file_that_is_named_by_itself_is_no_other_modules_pdb_unless_it_says_so() {
    let folder = folder("symbols-named");
    let mut other = of_pieces(crash::PDB);
    let guid = place_of(&other, &[0xDE, 0xF6, 0xAA, 0xC4, 0xF4, 0x03, 0xF2, 0x3C]);
    other[guid] ^= 1;
    put(&folder, "other.pdb", &other);
    put(&folder, "none.pdb", &[b'x'; 100]);
    for (file, state, error) in [("other.pdb", "missing", json!(null)), ("none.pdb", "refused", json!("PDB_MAGIC"))] {
        let pdb = &stack_in(&folder, &["--symbols", file], None)["modules"][0]["pdb"];
        assert_eq!((&pdb["state"], &pdb["error"]["name"]), (&json!(state), &error), "{pdb}");
    }
    // That of the module counts, whatever stands before it.
    put(&folder, "mine.bin", &of_pieces(crash::PDB));
    let said = stack_in(&folder, &["--symbols", "none.pdb", "--symbols", "mine.bin"], None);
    assert_eq!(said["modules"][0]["pdb"]["state"], "read", "{said}");
}

/// The dump with another name of the PDB, of as many bytes at most.
fn naming(name: &[u8]) -> Vec<u8> {
    let mut dump = of_pieces(crash::DUMP);
    let at = place_of(&dump, b"crash.pdb\0");
    dump[at..at + 10].fill(0);
    dump[at..at + name.len()].copy_from_slice(name);
    dump
}

/// Of a path in a dump the last component counts alone, and one that is no name of a file is none. The module's own image names the PDB
/// where the dump does not.
#[test]
fn the_name_in_a_dump_is_one_component() {
    let cases: [(&[u8], &str, &str); 6] = [
        (b"..\\c.pdb", "missing", "syms/crash.pdb"),
        (b"../../c.p", "read", "syms/c.p"),
        (b"C:\\c.pdb", "read", "syms/c.pdb"),
        (b"C:c.pdb", "not-named", "syms/c.pdb"),
        (b"a/..", "not-named", "syms/crash.pdb"),
        (b"c.pdb\0x", "read", "syms/c.pdb"),
    ];
    for (index, (name, state, path)) in cases.into_iter().enumerate() {
        let folder = folder(&format!("symbols-name-{index}"));
        folder.file("crash.dmp", &naming(name));
        put(&folder, path, &of_pieces(crash::PDB));
        let said = stack_in(&folder, &["--symbols", "syms"], None);
        assert_eq!(said["modules"][0]["pdb"]["state"], state, "{said}");
    }
    let folder = folder("symbols-by-image");
    let mut dump = of_pieces(crash::DUMP);
    let at = place_of(&dump, b"RSDS");
    dump[at] = b'X';
    folder.file("crash.dmp", &dump);
    put(&folder, "syms/crash.pdb", &of_pieces(crash::PDB));
    let said = stack_in(&folder, &["--symbols", "syms"], None);
    assert_eq!(said["modules"][0]["pdb"]["state"], "read");
    assert_eq!(said["modules"][0]["pdb_symbol_server_path"], json!(format!("crash.pdb/{KEY}/crash.pdb")));
}

/// Names that a hostile PDB has are shown with escapes.
#[test]
fn a_damaged_pdb_costs_names_and_no_frame() {
    let pdb = of_pieces(crash::PDB);
    for (index, part) in [b"reads\0".as_slice(), b"middle\0", &DBI].into_iter().enumerate() {
        let folder = folder(&format!("symbols-damaged-{index}"));
        let mut bytes = pdb.clone();
        let at = place_of(&pdb, part);
        bytes[at] = if index == 2 { 0 } else { 0x1B };
        put(&folder, "syms/crash.pdb", &bytes);
        let said = stack_in(&folder, &["--symbols", "syms"], None);
        let names: Vec<&Value> = functions_of(&said);
        assert_eq!(names.len(), 4);
        let (text, _, _) = run_in(&folder, &["stack", "crash.dmp", "--images", "images", "--symbols", "syms"], None);
        assert!(!text.contains('\x1b'), "{text}");
        assert_eq!(said["modules"][0]["pdb"]["state"], if index == 2 { "refused" } else { "read" });
    }
}

/// A module that is damaged costs its own names: public symbols serve then, which have none of a static function. The function table of
/// the image says that `middle` is a function; `reads` calls nothing, and has no entry there.
#[test]
fn public_symbols_serve_where_a_module_is_damaged() {
    let folder = folder("symbols-public");
    let mut pdb = of_pieces(crash::PDB);
    // The stream of the module starts with 4, and its first record is S_OBJNAME: here of no bytes.
    let at = pdb.windows(8).position(|it| *it == [4, 0, 0, 0, 10, 0, 1, 0x11]).unwrap();
    pdb[at + 4] = 0;
    put(&folder, "syms/crash.pdb", &pdb);
    let said = stack_in(&folder, &["--symbols", "syms"], None);
    let found: Vec<Value> = functions_of(&said)
        .iter()
        .map(|it| json!([it["raw_name"], it["offset"], it["source"], it["is_nearest"]]))
        .collect();
    let wanted = [
        json!(["?middle@@YAHHH@Z", 0x2F, "public", true]),
        json!(["?middle@@YAHHH@Z", 0xE, "public", false]),
        json!(["??$outer@H@app@@YAHH@Z", 0xE, "public", false]),
        json!(["entry", 0xE, "public", false]),
    ];
    assert_eq!(found, wanted);
    let damaged = &said["modules"][0]["pdb"]["damaged"][0];
    assert_eq!((&damaged["module"], &damaged["error"]["name"]), (&json!("crash.obj"), &json!("PDB_RECORD_SIZE")));
    let (text, _, _) = run_in(&folder, &["stack", "crash.dmp", "--images", "images", "--symbols", "syms"], None);
    assert!(text.contains("crash.obj of the PDB of crash.exe: "), "{text}");
    assert!(
        text.contains("?middle@@YAHHH@Z+0x2f (public) (nearest)") && text.contains("read, damaged in part"),
        "{text}"
    );
    let (out, _, status) = run(&["pdb", folder.0.join("syms/crash.pdb").to_str().unwrap(), "--json", "--functions"]);
    let said: Value = serde_json::from_str(&out).unwrap();
    assert_eq!((&said["damaged"][0]["module"], &said["number_of_procedures"]), (&json!("crash.obj"), &json!(0)));
    assert_eq!((&said["functions"][1]["raw_name"], status), (&json!("entry"), 1));
}

#[test]
fn no_path_of_a_dump_is_opened() {
    let folder = folder("symbols-opened");
    folder.file("crash.dmp", &naming(b"../c.pdb"));
    put(&folder, "syms/c.pdb", &of_pieces(crash::PDB));
    put(&folder, "c.pdb", b"");
    let words = ["stack", "crash.dmp", "--json", "--images", "images", "--symbols", "syms"];
    if let Some(opened) = opened_in(&folder, &words) {
        assert_eq!(opened, ["crash.dmp", "images", "images/crash.exe", "images/crash.exe", "syms", "syms/c.pdb"]);
    }
}

/// The page of a dump has the same.
#[test]
fn the_page_of_a_dump_has_functions() {
    let folder = folder("symbols-page");
    put(&folder, "syms/crash.pdb", &of_pieces(crash::PDB));
    let (page, _, status) =
        run_in(&folder, &["report", "crash.dmp", "-", "--images", "images", "--symbols", "syms"], None);
    assert!(page.contains("<td>middle+0xe</td>") && page.contains("<td>syms/crash.pdb</td>"), "{page}");
    assert!(page.contains("<th scope=col>found by</th>") && status == Some(0), "{page}");
}

/// What llvm-pdbutil prints: `dump -summary -streams -modules -publics -symbols`.
#[test]
fn pe_pdb_says_what_a_pdb_is() {
    let folder = Folder::new("pdb");
    let path = folder.file("crash.pdb", &of_pieces(crash::PDB));
    let (out, complaints, status) = run(&["pdb", &path, "--json", "--functions", "--modules", "--streams"]);
    assert_eq!((complaints.as_str(), status), ("", 0), "{out}");
    let said: Value = serde_json::from_str(&out).unwrap();
    assert_eq!((&said["guid"], &said["age"]), (&json!("{C4AAF6DE-03F4-3CF2-4C4C-44205044422E}"), &json!(1)));
    assert_eq!(
        (&said["key"], &said["symbol_server_path"]),
        (&json!(KEY), &json!(format!("crash.pdb/{KEY}/crash.pdb")))
    );
    assert_eq!((&said["machine"]["name"], &said["block_size"]), (&json!("x64"), &json!(4096)));
    assert_eq!((&said["number_of_modules"], &said["number_of_procedures"]), (&json!(2), &json!(4)));
    let functions: Vec<Value> = said["functions"]
        .as_array()
        .unwrap()
        .iter()
        .map(|it| json!([it["rva"], it["size"], it["name"], it["source"], it["module"]]))
        .collect();
    let wanted = [
        json!([0x1000, 31, "middle", "procedure", 0]),
        json!([0x1020, 21, "reads", "procedure", 0]),
        json!([0x1040, 25, "entry", "procedure", 0]),
        json!([0x1060, 22, "app::outer<int>", "procedure", 0]),
    ];
    assert_eq!(functions, wanted);
    assert_eq!(said["modules"][1]["name"], "* Linker *");
    let streams = said["streams"].as_array().unwrap();
    assert_eq!((streams.len(), &said["number_of_streams"]), (15, &json!(15)));
    assert_eq!((&streams[3]["content"], &said["error"]), (&json!("DBI"), &json!(null)));
}

#[test]
fn pe_pdb_says_what_is_at_rvas() {
    let folder = Folder::new("pdb-rvas");
    let path = folder.file("crash.pdb", &of_pieces(crash::PDB));
    let (out, _, status) = run(&["pdb", &path, "--json", "102f", "0x1074", "5000"]);
    let said: Value = serde_json::from_str(&out).unwrap();
    let last = |index: usize| said["frames"][index]["functions"].as_array().unwrap().last().cloned();
    let own = |index: usize| last(index).map(|it| json!([it["name"], it["function_rva"], it["offset"]]));
    assert_eq!(own(0), Some(json!(["reads", 0x1020, 0xF])));
    assert_eq!(own(1), Some(json!(["app::outer<int>", 0x1060, 0x14])));
    assert_eq!((said["frames"][2]["rva"].as_u64(), status), (Some(0x5000), 0));
    for words in [["pdb", &path, "xyz"].as_slice(), &["pdb", &path, "100000000"], &["pdb", &path, "-r"], &["pdb"]] {
        assert_eq!(run(words).2, 2, "{words:?}");
    }
}

#[test]
fn what_is_no_pdb_is_refused() {
    let folder = Folder::new("pdb-none");
    let image = folder.file("a.exe", &of_pieces(crash::EXE));
    let (out, complaints, status) = run(&["pdb", &image]);
    assert_eq!(
        (out.as_str(), complaints, status),
        ("", format!("pe: {image}: not a PDB 7.0 (PDB_MAGIC); it is an image, which pe FILE shows\n"), 1)
    );
    let (out, _, status) = run(&["pdb", "--json", &image]);
    let said: Value = serde_json::from_str(&out).unwrap();
    assert_eq!((&said["error"]["name"], &said["guid"], status), (&json!("PDB_MAGIC"), &json!(null), 1));
    let older = folder.file("b.pdb", b"Microsoft C/C++ program database 2.00\r\n\x1AJG\0\0.................");
    let (_, complaints, _) = run(&["pdb", &older]);
    assert!(complaints.ends_with("(PDB20); it is a PDB of version 2.0\n"), "{complaints}");
    let (_, complaints, status) = run(&["pdb", folder.0.join("nowhere").to_str().unwrap()]);
    assert!(complaints.contains("No such file") && status == 3, "{complaints}");
    // And the other ways round.
    let (pdb, dump) = (folder.file("c.pdb", &of_pieces(crash::PDB)), folder.file("d.dmp", &of_pieces(crash::DUMP)));
    let (out, _, status) = run(&[&pdb]);
    assert!(out.starts_with(&format!("{pdb}: refused, a PDB, which pe pdb shows\n")) && status == 1, "{out}");
    let (as_image, as_pdb, as_dump) = (
        "it is an image, which pe FILE shows\n",
        "it is a PDB, which pe pdb shows\n",
        "it is a minidump, which pe stack shows\n",
    );
    let to = folder.0.join("out");
    let to = to.to_str().unwrap();
    for (words, kind) in [
        (["stack", &image].as_slice(), as_image),
        (&["stack", &pdb], as_pdb),
        (&["pdb", &dump], as_dump),
        (&["key", "--missing", &image], as_image),
        (&["symbols", &dump, to], as_dump),
        (&["symbols", &image, to, "--pdb", &dump], as_dump),
        (&["checksum", &dump], as_dump),
    ] {
        let (out, complaints, status) = run(words);
        assert!((out + &complaints).ends_with(kind) && status == 1, "{words:?}: {complaints}");
    }
    // One that is what is asked for, and damaged, is not named as another.
    let damaged = folder.file("e.pdb", &of_pieces(crash::PDB)[..4096]);
    let (_, complaints, status) = run(&["pdb", &damaged]);
    assert!(complaints.ends_with(")\n") && status == 1, "{complaints}");
}

/// The lines of JSON that the schema is checked against, and texts: `golden/symbols.txt`, which `UPDATE_GOLDEN=1` writes anew.
#[test]
fn what_is_said_is_the_golden_text() {
    let folder = folder("symbols-golden");
    put(&folder, "syms/crash.pdb", &of_pieces(crash::PDB));
    folder.file("crash.pdb", &of_pieces(crash::PDB));
    let mut other = of_pieces(crash::PDB);
    other[place_of(&of_pieces(crash::PDB), &DBI) + 8] = 2;
    put(&folder, "other/crash.pdb", &other);
    put(&folder, "damaged/crash.pdb", &[b'x'; 100]);
    let said_by = |words: &[&str]| format!("$ pe {}\n{}", words.join(" "), run_in(&folder, words, None).0);
    let stack = ["stack", "crash.dmp", "--images", "images"];
    let said = [
        said_by(&[&stack[..], &["--symbols", "syms"]].concat()),
        said_by(&[&stack[..], &["--symbols", "syms", "--json"]].concat()),
        said_by(&[&stack[..], &["--symbols", "other", "--json"]].concat()),
        said_by(&[&stack[..], &["--symbols", "damaged"]].concat()),
        said_by(&[&stack[..], &["--symbols", "damaged", "--json"]].concat()),
        said_by(&["pdb", "crash.pdb", "102f", "100d", "106d", "--functions", "--modules", "--streams"]),
        said_by(&["pdb", "crash.pdb", "102f", "100d", "106d", "--functions", "--modules", "--streams", "--json"]),
        said_by(&["pdb", "images/crash.exe", "--json"]),
    ]
    .concat();
    let path = concat!(env!("CARGO_MANIFEST_DIR"), "/tests/golden/symbols.txt");
    if std::env::var_os("UPDATE_GOLDEN").is_some() {
        fs::write(path, &said).unwrap();
    }
    assert_eq!(said, fs::read_to_string(Path::new(path)).unwrap());
}
