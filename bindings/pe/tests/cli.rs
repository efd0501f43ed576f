//! The program as it is run, over images that are made by hand: what is expected stands in how they are made.

mod limited;
#[path = "../../rust/tests/made/mod.rs"]
mod made;

mod running;

use running::{json_of, run, Folder};
use serde_json::{json, Value};
use std::fs;
use std::process::Command;

#[test]
fn headers_and_sections() {
    let all = json_of("headers", &made::with_certificates());
    assert_eq!((&all["json_version"], &all["error"], &all["file_hex"]), (&json!(3), &json!(null), &json!(null)));
    assert_eq!(all["file_size"], 0x400 + 0x200 + 24);
    let headers = &all["headers"];
    assert_eq!((&headers["format"], &headers["machine"]["name"]), (&json!("PE32+"), &json!("x64")));
    assert_eq!((&headers["entry_rva"], &headers["image_base_va"]), (&json!(0x1234), &json!(0x1_8000_0000u64)));
    assert_eq!(
        headers["directories"],
        json!([{"index": 4, "name": "certificate", "rva": null, "file_offset": 0x600, "size": 24}])
    );
    let section = &all["sections"][0];
    assert_eq!(
        (&section["name"], &section["rva"], &section["file_offset"]),
        (&json!(".rdata"), &json!(0x1000), &json!(0x400))
    );
    assert_eq!(
        (&section["file_size"], &section["permissions"], &section["entropy"]),
        (&json!(0x200), &json!("---"), &json!(0.0))
    );
}

#[test]
fn exports_with_all_ordinals() {
    assert_eq!(
        json_of("exports", &made::with_exports())["exports"],
        json!({
        "name": "made.dll", "name_lower": "made.dll", "ordinal_base": 5, "is_limited": false, "names_left_out": 0, "entries": [
            {"ordinal": 5, "rva": 0x1004, "names": ["second"], "forwarder": null},
            {"ordinal": 6, "rva": 0x9_0000, "names": ["first"], "forwarder": null},
            {"ordinal": 8, "rva": 0x1060, "names": [], "forwarder": "NTDLL.RtlFree"},
        ]})
    );
}

#[test]
fn imports_by_name_and_by_ordinal() {
    assert_eq!(
        json_of("imports", &made::with_imports())["imports"],
        json!([
            {"name": "KERNEL32.dll", "name_lower": "kernel32.dll", "functions": [
                {"name": "Sleep", "hint": 0x2A, "ordinal": null, "slot_rva": 0x8000},
                {"name": null, "hint": null, "ordinal": 17, "slot_rva": 0x8008},
            ], "functions_error": null, "functions_is_limited": false, "lookup_table_error": null},
            {"name": "a.dll", "name_lower": "a.dll", "functions": [
                {"name": "f", "hint": 0, "ordinal": null, "slot_rva": 0x103C},
            ], "functions_error": null, "functions_is_limited": false, "lookup_table_error": null},
        ])
    );
}

#[test]
fn debug_records() {
    let debug = &json_of("debug", &made::with_debug())["debug"];
    assert_eq!(
        debug["pdb"],
        json!({
        "name": "a.pdb", "guid": "{497B72F6-390A-44FC-878E-5A2D63B6CC4B}", "age": 1,
        "key": "497B72F6390A44FC878E5A2D63B6CC4B1",
        "symbol_server_path": "a.pdb/497B72F6390A44FC878E5A2D63B6CC4B1/a.pdb"})
    );
    assert_eq!((&debug["pdb20"], &debug["repro"]), (&json!(null), &json!({"hash_hex": "68617368"})));
    assert_eq!(
        debug["pogo"],
        json!({"signature": "LTCG", "parts": [
        {"name": ".text$mn", "rva": 0x1000, "size": 16}, {"name": ".bss", "rva": 0x2000, "size": 8}],
        "parts_error": null, "parts_is_limited": false})
    );
    assert_eq!(debug["vc_features"], json!({"before_vc_11": 1, "c_and_cpp": 2, "gs": 3, "sdl": 4, "guard_n": 5}));
    let extended = &debug["extended_dll_characteristics"];
    assert_eq!((&extended["number"], &extended["flags"]["CET_COMPAT"]), (&json!(0x41), &json!(true)));
    assert_eq!(extended["flags"]["CET_COMPAT_STRICT_MODE"], false);
    let types: Vec<&Value> = debug["entries"].as_array().unwrap().iter().map(|it| &it["type"]["number"]).collect();
    assert_eq!(types, [2, 12, 13, 16, 20]);
}

#[test]
fn older_debug_records() {
    let all = json_of("old", &made::with_old_debug());
    assert_eq!(
        all["debug"]["pdb20"],
        json!({"name": "b.pdb", "time_date_stamp": 0x3333, "time": "1970-01-01T03:38:27Z", "age": 7})
    );
    // The stamp of a reproducible image is a hash.
    assert_eq!(all["headers"]["time"], Value::Null);
    assert_eq!((&all["debug"]["pdb"], &all["debug"]["repro"]), (&json!(null), &json!({"hash_hex": null})));
    assert_eq!(all["headers"]["is_reproducible"], true);
}

#[test]
fn certificates_functions_and_versions() {
    let text = "element of a signature truncated before its content";
    let refused = json!({"number": 501, "name": "SIGNATURE_TRUNCATED", "text": text});
    assert_eq!(
        json_of("certificates", &made::with_certificates())["certificates"],
        json!([
            {"size": 9, "revision": 0x200, "type": {"number": 2, "name": "PKCS #7 signed data"}, "signer": null, "signer_error": refused},
            {"size": 8, "revision": 0x100, "type": {"number": 1, "name": "X.509"}, "signer": null, "signer_error": null},
        ])
    );
    let arm64 = json_of("arm64", &made::with_arm64_functions());
    assert_eq!(arm64["functions"][1], json!({"start_rva": 0x5010, "end_rva": null, "unwind": 0x1010}));
    let version = &json_of("version", &made::with_resources())["version"];
    let strings = json!({"CompanyName": "Größe & Söhne \u{1F600}", "ProductName": "made"});
    assert_eq!(version["fixed"], json!({"file_version": "3.11.3150.1013", "product_version": "1.2.3.4"}));
    assert_eq!((&version["strings"], &version["languages"][0]["strings"]), (&strings, &strings));
    assert_eq!(version["manifest"], json!({"size": 11, "requested_level": null}));
}

#[test]
fn a_summary_is_a_screen_of_text() {
    let folder = Folder::new("summary");
    let file = folder.file("made.dll", &made::with_exports());
    let (out, _, status) = run(&[&file]);
    assert_eq!(status, 0);
    assert!(out.starts_with(&format!("{file}: PE32+ program for x64, unknown subsystem\n")), "{out}");
    assert!(out.contains("\n  entry point   0x1234, image base 0x180000000\n"), "{out}");
    assert!(out.contains("\n  exports       3, 1 of them forwarders\n"), "{out}");
    assert!(!out.contains('\x1b'), "colours are for terminals");
}

#[test]
fn readmes_show_what_is_printed() {
    let readme = include_str!("../README.md");
    let mut count = 0;
    for block in readme.split("\n    $ pe ").skip(1) {
        let (words, rest) = block.split_once('\n').unwrap();
        let lines = rest.lines().take_while(|line| line.is_empty() || line.starts_with("    "));
        let wanted: Vec<&str> =
            lines.map(|line| line.get(4..).unwrap_or_default()).take_while(|it| !it.starts_with('$')).collect();
        let ran = Command::new(env!("CARGO_BIN_EXE_pe")).args(words.split(' ')).current_dir("../..").output().unwrap();
        assert_eq!(String::from_utf8(ran.stdout).unwrap().trim_end(), wanted.join("\n").trim_end(), "{words}");
        count += 1;
    }
    assert_eq!(count, 3);
}

#[test]
fn parts_are_shown_whole() {
    let folder = Folder::new("show");
    let (out, _, status) = run(&["show", &folder.file("a.dll", &made::with_exports()), "exports"]);
    assert_eq!(status, 0);
    let end = "Exports of made.dll\n  ordinal  RVA      name    forwarder\n  5        0x1004   second\n  6        0x90000  first\n  \
               8        0x1060           to NTDLL.RtlFree\n";
    assert!(out.ends_with(end), "{out}");
    let (out, _, _) = run(&["show", &folder.file("b.exe", &made::with_imports()), "imports"]);
    assert!(out.ends_with("Imports from KERNEL32.dll\n  Sleep\n  #17\n\nImports from a.dll\n  f\n"), "{out}");
}

#[test]
fn keys_are_paths_of_a_symbol_server() {
    let folder = Folder::new("key");
    let (out, _, status) = run(&["key", &folder.file("a.exe", &made::with_debug())]);
    // The image's own path has its time stamp, which is 0 here, and its size in memory.
    let paths =
        "\n  PDB           a.pdb/497B72F6390A44FC878E5A2D63B6CC4B1/a.pdb\n  image         a.exe/000000006000/a.exe\n";
    assert_eq!((out.ends_with(&format!("a.exe{paths}")), out.lines().count(), status), (true, 3, 0), "{out}");
    let (out, _, status) = run(&["key", &folder.file("c.exe", &made::with_exports())]);
    assert_eq!((out.contains("\n  PDB           none, "), status), (true, 0), "{out}");
    let (out, error, status) = run(&["key", &folder.file("b.exe", b"MZ")]);
    assert_eq!((out.as_str(), status), ("", 1));
    let why = "b.exe: image: truncated: 64 bytes needed at offset 0x0 (SHORT); it is a DOS or truncated MZ file, as it seems\n";
    assert!(error.ends_with(why), "{error}");
}

#[test]
fn digests_leave_out_checksum_entry_and_certificates() {
    let folder = Folder::new("digest");
    let mut bytes = made::with_certificates();
    let before = run(&["digest", &folder.file("a.exe", &bytes)]).0;
    // The checksum is at 0x98, and the entry of the certificate directory at 0xE8.
    bytes[0x98..0x9C].copy_from_slice(&[1, 2, 3, 4]);
    bytes[0x608] ^= 1;
    assert_eq!(run(&["digest", &folder.file("a.exe", &bytes)]).0, before);
    bytes[0x400] ^= 1;
    let (out, _, status) = run(&["digest", "--json", &folder.file("a.exe", &bytes)]);
    let other: Value = serde_json::from_str(&out).unwrap();
    assert_eq!(
        (before.len(), before.starts_with(other["sha256_hex"].as_str().unwrap()), status),
        (64 + 3 + folder.0.join("a.exe").as_os_str().len(), false, 0)
    );
    assert_eq!(other["checksum"], 0x0403_0201);
}

#[test]
fn functions_are_unwound_up_to_the_root() {
    let folder = Folder::new("unwind");
    let file = folder.file("a.exe", &made::with_functions());
    let (out, _, status) = run(&["unwind", &file, "0x5012"]);
    assert_eq!(
        (out.as_str(), status),
        (
            "\
function 0x5010 to 0x5020
  record of version 1, a prolog of 5 bytes
    after   5 bytes  UWOP_SAVE_NONVOL    save rbx at [rbp - 0 + 40]
  chained to a record of version 1, a prolog of 8 bytes
    after   8 bytes  UWOP_ALLOC          allocate 32 bytes of stack
    after   4 bytes  UWOP_SET_FPREG      set rbp to rsp + 32
    after   1 bytes  UWOP_PUSH_NONVOL    push rbp
    exception handler at 0x1100
",
            0
        )
    );
    let (out, _, status) = run(&["unwind", "--json", &file, "5032"]);
    let endless: Value = serde_json::from_str(&out).unwrap();
    assert_eq!((endless["functions"][0]["records_error"]["name"].as_str(), status), (Some("FUNCTION_CYCLE"), 1));
    let (out, _, status) = run(&["unwind", &file, "4fff"]);
    assert_eq!((out.contains("leaf function"), status), (true, 0));
}

/// An image whose one function has so many unwind records, each chained to the next.
fn with_chain(records: u32) -> Vec<u8> {
    let mut made = made::Made::new(0x8664);
    let first = made.next() + 12;
    made.put_words(&[0x5000, 0x5010, first]);
    for next in 1..records {
        made.put_words(&[0x21, 0x5000, 0x5010, first + 16 * next]);
    }
    made.put_words(&[0x01]);
    made.directory(3, first - 12, 12);
    made.image()
}

#[test]
fn of_a_long_chain_the_first_records_are_shown() {
    let folder = Folder::new("chain");
    for (records, is_limited) in [(256, false), (257, true), (40_000, true)] {
        let file = folder.file("a.exe", &with_chain(records));
        let (out, _, status) = run(&["unwind", "--json", &file, "5000"]);
        let unwinding: Value = serde_json::from_str(&out).unwrap();
        let function = &unwinding["functions"][0];
        assert_eq!(function["records"].as_array().unwrap().len(), 256);
        assert_eq!((function["records_is_limited"].as_bool(), status), (Some(is_limited), 0), "{records}");
        let (out, _, status) = run(&["unwind", &file, "5000"]);
        let lines: Vec<&str> = out.lines().collect();
        assert_eq!((lines.len(), status), (257 + usize::from(is_limited), 0));
        assert_eq!(lines[257..].concat(), if is_limited { "  and more records: the first 256 are shown" } else { "" });
    }
}

#[test]
fn damaged_parts_are_warnings_and_cost_themselves() {
    let folder = Folder::new("damaged");
    let file = folder.file("a.exe", &made::with_refused_import());
    let (out, _, status) = run(&["--json", &file]);
    let all: Value = serde_json::from_str(&out).unwrap();
    assert_eq!((&all["imports"][0]["functions_error"]["name"], status), (&json!("IMPORT_NAME"), 1));
    assert_eq!(all["sections"].as_array().unwrap().len(), 1);
    let (out, _, status) = run(&[&file]);
    assert!(
        out.ends_with("  warning       imports: import name not NUL-terminated or not UTF-8 (IMPORT_NAME)\n"),
        "{out}"
    );
    assert_eq!(status, 1);
}

/// The directory of the imports at an RVA that no section maps. JSON has the text of the error alone.
#[test]
fn a_directory_that_is_refused_is_a_warning_with_its_numbers() {
    let folder = Folder::new("refused-directory");
    let mut bytes = made::with_refused_import();
    bytes[0xC8 + 8..][..4].copy_from_slice(&0x0765_4321_u32.to_le_bytes());
    let file = folder.file("a.exe", &bytes);
    let (out, _, status) = run(&[&file]);
    assert!(out.contains("  warning       imports: RVA 0x7654321 maps to no file offset"), "{out}");
    assert!(out.ends_with(" (UNMAPPED)\n") && status == 1, "{out}");
    let all: Value = serde_json::from_str(&run(&["--json", &file]).0).unwrap();
    assert_eq!(all["imports_error"], json!({"number": 11, "name": "UNMAPPED", "text": "RVA maps to no file offset"}));
}

/// Whether a time stamp is a hash stands in the debug data.
#[test]
fn where_debug_data_are_refused_a_time_stamp_may_be_a_hash() {
    let folder = Folder::new("perhaps");
    let mut bytes = made::with_debug();
    bytes[0x48..0x4C].copy_from_slice(&0x5E00_0000_u32.to_le_bytes());
    let words = |bytes: &[u8]| {
        let file = folder.file("a.exe", bytes);
        let said: Value = serde_json::from_str(&run(&["--json", &file]).0).unwrap();
        let headers = &said["headers"];
        let list = run(&["list", "--no-hashes", &file]).0;
        let mut list = csv::Reader::from_reader(list.as_bytes());
        let column = list.headers().unwrap().iter().position(|it| it == "is_reproducible").unwrap();
        let cell = list.records().next().unwrap().unwrap()[column].to_string();
        (run(&["show", &file, "headers"]).0, headers["is_reproducible"].clone(), headers["time"].clone(), cell)
    };
    let (text, is_reproducible, time, cell) = words(&bytes);
    assert_eq!((is_reproducible, time, cell.as_str()), (json!(true), json!(null), "true"));
    assert!(text.contains("time stamp 0x5e000000 is a hash\n"), "{text}");
    // The directory is nowhere.
    bytes[0xC8 + 8 * (made::DEBUG - made::EXPORTS)..][..4].copy_from_slice(&0x0765_4321_u32.to_le_bytes());
    let (text, is_reproducible, time, cell) = words(&bytes);
    assert_eq!((is_reproducible, time, cell.as_str()), (json!(null), json!("2019-12-22T23:45:04Z"), ""));
    assert!(text.contains(" by its time stamp, if that is no hash: the debug data are refused\n"), "{text}");
}

/// Placeholder DLLs of Wine have a block of zeros there.
#[test]
fn zeros_in_place_of_base_relocations_are_no_damage() {
    let folder = Folder::new("zeros");
    let mut bytes = made::with_relocations();
    bytes[made::OFFSET as usize..][..8].fill(0);
    let file = folder.file("a.dll", &bytes);
    let (out, _, status) = run(&[&file]);
    assert_eq!((out.contains("warning"), status), (false, 0), "{out}");
    assert!(out.contains("  relocations   0 in 0 pages\n"), "{out}");
    let (out, _, status) = run(&["--json", &file]);
    let all: Value = serde_json::from_str(&out).unwrap();
    assert_eq!((&all["relocations"], status), (&json!([]), 0));
}

#[test]
fn hostile_names_forge_no_lines() {
    let folder = Folder::new("hostile");
    let mut bytes = made::with_exports();
    bytes[0x148..0x150].copy_from_slice(b"\x1b[2J\n\xff\"a");
    let file = folder.file("a.exe", &bytes);
    for arguments in [vec![file.as_str()], vec!["show", &file]] {
        let (out, _, _) = run(&arguments);
        assert!(out.contains("\\x1b[2J\\x0a\\xff\"a"), "{out}");
        assert!(!out.contains('\x1b'), "{out}");
    }
    let (out, _, _) = run(&["--json", &file]);
    assert_eq!(out.lines().count(), 1);
    let all: Value = serde_json::from_str(&out).unwrap();
    let section = &all["sections"][0];
    assert_eq!((&section["name"], &section["name_hex"]), (&json!("\x1b[2J\n\u{fffd}\"a"), &json!("1b5b324a0aff2261")));
}

#[test]
fn statuses() {
    let folder = Folder::new("statuses");
    let image = folder.file("a.exe", made::SMALL);
    let short = folder.file("b.exe", b"MZ");
    let none = folder.0.join("none").to_str().unwrap().to_string();
    assert_eq!(run(&[&image]).2, 0);
    assert_eq!(run(&[&image, &short]).2, 1);
    assert_eq!(run(&[&short, &none]).2, 3);
    assert_eq!(run(&["unwind", &image, "xyz"]).2, 2);
    assert_eq!(run(&["unwind", &image, "0x0x1"]).2, 2);
    let (_, error_text, status) = run(&[folder.0.to_str().unwrap()]);
    assert_eq!((error_text.ends_with("; -r reads the files below it\n"), status), (true, 3), "{error_text}");
    // A command without -r does not speak of it.
    let folder_name = folder.0.to_str().unwrap();
    for words in [&["extract", folder_name, "manifest", "-"][..], &["pdb", folder_name], &["report", folder_name, "-"]]
    {
        let (_, error_text, status) = run(words);
        assert_eq!((error_text.ends_with("Is a directory (os error 21)\n"), status), (true, 3), "{error_text}");
    }
    let (out, error_text, status) = run(&["digest", "--mapped", &image]);
    assert_eq!((out.as_str(), error_text.contains("'--mapped'"), status), ("", true, 2));
    assert_eq!(run(&[]).2, 2);
    let (out, _, _) = run(&["--json", &short]);
    let all: Value = serde_json::from_str(&out).unwrap();
    assert_eq!(all["error"], json!({"number": 2, "name": "SHORT", "text": "truncated"}));
}

#[test]
fn each_file_has_a_line_of_json() {
    let folder = Folder::new("refused");
    let (image, short) = (folder.file("a.exe", made::SMALL), folder.file("b.exe", b"MZ"));
    let error = json!({"number": 2, "name": "SHORT", "text": "truncated"});
    let (out, _, status) = run(&["digest", "--json", &short, &image]);
    let lines: Vec<Value> = out.lines().map(|line| serde_json::from_str(line).unwrap()).collect();
    let refused = json!({"json_version": 3, "file": short, "file_hex": null, "sha256_hex": null, "checksum": null,
        "right_checksum": null, "error": error});
    assert_eq!((lines.len(), &lines[0], status), (2, &refused, 1));
    assert_eq!((&lines[1]["file"], &lines[1]["error"]), (&json!(image), &json!(null)));
    let (out, error_text, status) = run(&["digest", &short]);
    let why =
        "b.exe: truncated: 64 bytes needed at offset 0x0 (SHORT); it is a DOS or truncated MZ file, as it seems\n";
    assert_eq!((out.as_str(), error_text.ends_with(why), status), ("", true, 1));
    let (out, _, status) = run(&["unwind", "--json", &short, "0"]);
    assert_eq!((&serde_json::from_str::<Value>(&out).unwrap()["error"], status), (&error, 1));
    let (out, error_text, status) = run(&["unwind", &short, "0"]);
    assert_eq!((out.as_str(), error_text.ends_with(why), status), ("", true, 1));
}

#[test]
fn commands_take_several_files() {
    let folder = Folder::new("several");
    let (one, two) = (folder.file("1.exe", &made::with_functions()), folder.file("2.exe", &made::with_exports()));
    folder.file("note.txt", b"no image");
    let all = folder.0.to_str().unwrap();
    // `show`: parts come after the files, in any case.
    let (out, _, status) = run(&["show", &one, &two, "TLS", "headers"]);
    let heads: Vec<&str> = out.lines().filter(|it| it.ends_with(".exe")).collect();
    assert_eq!(
        (heads, out.matches("\n  tls           none\n").count(), status),
        (vec![one.as_str(), &two], 2, 0),
        "{out}"
    );
    assert_eq!(run(&["show", "-r", all, "TLS", "headers"]).0, out);
    let (lines, _, status) = run(&["show", "--json", "-r", all, "exports"]);
    let lines: Vec<Value> = lines.lines().map(|line| serde_json::from_str(line).unwrap()).collect();
    let names = |it: &Value| it["exports"]["entries"].as_array().map(Vec::len);
    assert_eq!((lines.iter().map(names).collect::<Vec<_>>(), status), (vec![None, Some(3)], 0));
    // A word that is neither a file nor a part, but nearly one.
    let (out, error, status) = run(&["show", &one, "import"]);
    assert_eq!(
        (out.as_str(), error.contains("`import` is neither") || error.contains("is the part `imports` meant?"), status),
        ("", true, 2),
        "{error}"
    );
    assert_eq!(run(&["show", &one, "none.exe"]).2, 3);
    let (out, error, status) = run(&["show", "Imports", &one]);
    assert!(error.contains("the part `imports` has to come after the files") && out.is_empty(), "{error}");
    assert_eq!(status, 2);
    // CSV: the heads stand once, and each row says whose it is.
    let (out, _, status) = run(&["show", "--csv", &one, &two, "exports"]);
    let rows = format!("file,ordinal,RVA,name,forwarder\n{two},5,0x1004,second,\n{two},6,0x90000,first,\n{two},8,0x1060,,to NTDLL.RtlFree\n");
    assert_eq!((out, status), (rows, 0));
    let (out, _, _) = run(&["show", "--csv", &two, &two, "sections"]);
    assert_eq!(out.matches("file,name,").count(), 1, "{out}");
    // `unwind`: an RVA comes last.
    let (out, _, status) = run(&["unwind", &one, &two, "5012"]);
    let texts =
        [format!("{one}\nfunction 0x5010 to 0x5020\n"), format!("{two}\nthe image has no functions of x64 or ARM64\n")];
    assert_eq!((texts.iter().all(|it| out.contains(it.as_str())), status), (true, 0), "{out}");
    let (lines, _, _) = run(&["unwind", "--json", "--all", "-r", all]);
    let lines: Vec<Value> = lines.lines().map(|line| serde_json::from_str(line).unwrap()).collect();
    assert_eq!((&lines[0]["file"], &lines[1]["machine"], lines.len()), (&json!(one), &json!(null), 2));
    assert_eq!(run(&["digest", "-r", all]).0.lines().count(), 2);
    for words in [["unwind", &one].as_slice(), &["unwind", "5012"], &["unwind", &one, &two]] {
        assert_eq!(run(words).2, 2, "{words:?}");
    }
    // `checksum`, but for one that writes a file.
    let (out, error, status) = run(&["checksum", "-r", all]);
    let line = |it: &str| format!("{it}: none, ");
    assert_eq!(
        (out.lines().zip([&one, &two]).filter(|it| it.0.starts_with(&line(it.1))).count(), status),
        (2, 0),
        "{out}"
    );
    assert_eq!(error, "pe: 1 file is no image, and skipped\n");
    assert_eq!(run(&["checksum", "--fix", "-", &one, &two]).2, 2);
    assert_eq!(run(&["checksum", "--fix", "-", "--json", &one]).2, 2);
}

#[test]
fn options_stand_where_they_do_something() {
    let folder = Folder::new("options");
    let (file, dump) = (folder.file("a.exe", made::SMALL), folder.file("a.dmp", &made::dump()));
    let commands: [&[&str]; 9] = [
        &["diff", &file, &file],
        &["find", "x", &file],
        &["unwind", "--all", &file],
        &["digest", &file],
        &["extract", &file, "manifest", "-"],
        &["detach", &file, "-"],
        &["checksum", &file],
        &["key", &file],
        &["report", &dump, "-"],
    ];
    for command in commands {
        assert_eq!(run(&[command, &["--no-hashes"]].concat()).2, 2, "{command:?}");
    }
    for command in [["show", file.as_str()].as_slice(), &["key", "--json", &file], &["report", &file, "-"]] {
        assert_eq!(run(&[command, &["--no-hashes"]].concat()).2, 0, "{command:?}");
    }
    let more: [&[&str]; 4] =
        [&["-v", &file], &["list", "-v", &file], &["report", "--registers", &dump, "-"], &["find", "", &file]];
    for command in more {
        assert_eq!(run(command).2, 2, "{command:?}");
    }
}

#[test]
fn folders_are_read_in_order_and_other_files_skipped() {
    let folder = Folder::new("folders");
    for number in 0..200 {
        folder.file(&format!("{number:03}.exe"), &made::with_exports());
        folder.file(&format!("{number:03}.txt"), b"no image");
    }
    let (out, _, status) = run(&["--json", "-r", folder.0.to_str().unwrap()]);
    assert_eq!(status, 0);
    let files: Vec<Value> = out.lines().map(|line| serde_json::from_str(line).unwrap()).collect();
    let name = |it: &Value| it["file"].as_str().unwrap().rsplit('/').next().unwrap().to_string();
    let wanted: Vec<String> = (0..200).map(|number| format!("{number:03}.exe")).collect();
    assert_eq!(files.iter().map(name).collect::<Vec<_>>(), wanted);
}

/// What `sha256sum` says of some bytes.
fn sha256_of(folder: &Folder, bytes: &[u8]) -> String {
    let ran = Command::new("sha256sum").arg(folder.file("summed", bytes)).output().unwrap();
    String::from_utf8(ran.stdout).unwrap().split(' ').next().unwrap().to_string()
}

/// A file of some megabytes is read into memory of its own kind, and two files are read side by side.
#[test]
fn large_files_are_read_whole() {
    let folder = Folder::new("large");
    let mut bytes = made::with_exports();
    bytes.extend((0..5_000_000u32).map(|it| (it.wrapping_mul(0x9E37_79B1) >> 24) as u8));
    bytes.resize(bytes.len().next_multiple_of(8), 1);
    let (large, small) = (folder.file("a.dll", &bytes), folder.file("b.dll", &made::with_exports()));
    let (one, _, _) = run(&["--json", &large]);
    let all: Value = serde_json::from_str(&one).unwrap();
    assert_eq!(all["file_size"], bytes.len());
    assert_eq!(run(&["--json", &large, &small]).0, one + &run(&["--json", &small]).0);
    // The digest leaves out the checksum at 0x98 and the entry of the certificate directory at 0xE8.
    let covered = [&bytes[..0x98], &bytes[0x9C..0xE8], &bytes[0xF0..]].concat();
    assert_eq!(run(&["digest", &large]).0, format!("{}  {large}\n", sha256_of(&folder, &covered)));
}

#[test]
fn many_sections_over_the_whole_file_cost_little() {
    // 50,000 section headers of 40 bytes from 0x148 on, each of the whole file: 100 GB, were each read by itself.
    let mut bytes = made::Made::new(made::X64).image();
    bytes.truncate(0x148);
    bytes[0x46..0x48].copy_from_slice(&50_000u16.to_le_bytes());
    let size = 0x148 + 40 * 50_000u32;
    for _ in 0..50_000 {
        bytes.extend_from_slice(b".many\0\0\0");
        bytes.extend([size, 0x1000, size, 0, 0, 0, 0, 0x4000_0000].iter().flat_map(|it| it.to_le_bytes()));
    }
    let folder = Folder::new("many");
    let file = folder.file("a.exe", &bytes);
    // Seconds of a processor, which a busy machine does not change.
    let limited = "ulimit -t 30; exec \"$@\"";
    for arguments in [["show", &file, "sections"].as_slice(), &["report", &file, "-"]] {
        let program = [&["-c", limited, "", env!("CARGO_BIN_EXE_pe")], arguments].concat();
        assert!(Command::new("bash").args(program).output().unwrap().status.success(), "{arguments:?}");
    }
}

#[test]
fn names_and_lists_that_entries_share_are_shown_up_to_a_bound() {
    let folder = Folder::new("shared");
    for (part, bytes) in
        [("exports", limited::exports_in_one_text(4000)), ("imports", limited::libraries_of_one_list(1000))]
    {
        let file = folder.file(part, &bytes);
        let (out, _, status) = run(&["show", "--json", &file, part]);
        assert_eq!(status, 0, "{part}");
        // an entry has some 60 bytes beside its name, and counts for 8
        assert!(out.len() < 16 * 10 * bytes.len(), "{part}: {} bytes of {}", out.len(), bytes.len());
        let shown: Value = serde_json::from_str(&out).unwrap();
        let last = shown["imports"].as_array().and_then(|it| it.last());
        let is_limited = [Some(&shown["exports"]["is_limited"]), last.map(|it| &it["functions_is_limited"])];
        assert!(is_limited.iter().flatten().any(|it| **it == true) || shown["imports_is_limited"] == true, "{part}");
        assert!(run(&["show", &file, part]).0.ends_with("  and more\n"), "{part}");
    }
    // a file of the same sizes in which nothing is shared is shown whole
    let (out, _, _) = run(&["show", "--json", &folder.file("few", &limited::exports_in_one_text(20)), "exports"]);
    let shown: Value = serde_json::from_str(&out).unwrap();
    assert_eq!(shown["exports"]["entries"].as_array().unwrap().len(), 20);
    assert_eq!(shown["exports"]["is_limited"], false);
}

/// Without a bound these take minutes.
#[test]
fn lists_that_are_refused_after_a_long_name_are_shown_up_to_a_bound() {
    let folder = Folder::new("refused-lists");
    type Make = fn(usize, usize) -> Vec<u8>;
    let parts: [(_, _, Make); 3] = [
        ("imports", "functions_error", limited::refused_imports),
        ("delay_imports", "functions_error", limited::refused_delay_imports),
        ("bound_imports", "forwarders_error", limited::refused_forwarders),
    ];
    for (part, error, make) in parts {
        for (count, length, is_limited) in [(60, 5_000, false), (4_000, 2_000_000, true)] {
            let file = folder.file(part, &make(count, length));
            let (out, _, _) = run(&["show", "--json", &file, &part.replace('_', "-")]);
            let shown: Value = serde_json::from_str(&out).unwrap();
            let found = shown[part].as_array().unwrap();
            assert_eq!(shown[format!("{part}_is_limited")], is_limited, "{part} {count}");
            assert!(found.len() == count || is_limited && (60..70).contains(&found.len()), "{part} {}", found.len());
            assert!(found.iter().all(|it| it[error].is_object()), "{part} {count}");
        }
    }
}

#[test]
fn a_long_name_makes_no_other_row_longer() {
    let folder = Folder::new("long-name");
    let (out, _, status) = run(&["show", &folder.file("a.dll", &limited::exports_of_a_long_name(70_000)), "exports"]);
    assert_eq!(status, 0);
    let mut lengths: Vec<usize> = out.lines().map(str::len).collect();
    lengths.sort_unstable();
    assert!(matches!(lengths[..], [.., others, longest] if others < 1000 && longest > 70_000), "{lengths:?}");
}

/// Numbers that are the same in each run (xorshift).
fn next(state: &mut u64) -> usize {
    *state ^= *state << 13;
    *state ^= *state >> 7;
    *state ^= *state << 17;
    *state as usize
}

#[test]
fn damaged_images_are_lines_of_json_and_text() {
    let folder = Folder::new("mutants");
    let (mut files, mut state) = (Vec::new(), 1);
    for (name, bytes) in made::all() {
        for number in 0..100 {
            let mut damaged = bytes.clone();
            for _ in 0..1 + next(&mut state) % 8 {
                let at = next(&mut state) % damaged.len();
                damaged[at] = [0, 1, 0x7F, 0x80, 0xFF, next(&mut state) as u8][next(&mut state) % 6];
            }
            damaged.truncate(if number % 4 == 0 { next(&mut state) % damaged.len() } else { damaged.len() });
            files.push(folder.file(&format!("{name}-{number}"), &damaged));
        }
    }
    let files: Vec<&str> = files.iter().map(String::as_str).collect();
    let (out, _, status) = run(&[&["--json"], files.as_slice()].concat());
    assert_eq!((out.lines().count(), status), (files.len(), 1));
    for (line, file) in out.lines().zip(&files) {
        let all: Value = serde_json::from_str(line).unwrap();
        assert_eq!(all["file"], **file);
    }
    let (out, error, status) = run(&files);
    assert_eq!((error.as_str(), status), ("", 1));
    assert!(out.chars().all(|it| it == '\n' || !it.is_control()));
    for file in files.iter().filter(|file| file.contains("functions")) {
        assert!(run(&["unwind", file, "5012"]).2 < 2, "{file}");
    }
}

#[test]
fn parts_are_extracted_to_new_files() {
    let folder = Folder::new("extract");
    let file = folder.file("a.exe", &made::with_resources());
    let to = folder.0.join("a.manifest");
    let to = to.to_str().unwrap();
    assert_eq!(run(&["extract", &file, "manifest", to]).2, 0);
    assert_eq!(fs::read(to).unwrap(), made::MANIFEST);
    assert_eq!(run(&["extract", &file, "manifest", to]).2, 3, "the file exists");
    assert_eq!(run(&["extract", &file, "manifest", "-"]).0.as_bytes(), made::MANIFEST);
    assert_eq!(run(&["extract", &file, "certificate", "-"]).2, 1);
}

#[test]
fn shells_complete_the_commands() {
    for (shell, start) in [("bash", "_pe() {"), ("zsh", "#compdef pe"), ("fish", "complete -c pe ")] {
        let (out, _, status) = run(&["completions", shell]);
        assert_eq!((out.starts_with(start), status), (true, 0), "{shell}");
        assert!(out.contains("unwind") && out.contains("recursive"), "{shell}");
    }
    let folder = Folder::new("completions");
    let script = folder.file("pe.bash", run(&["completions", "bash"]).0.as_bytes());
    let asks = format!(". '{script}'; COMP_WORDS=(pe unw); COMP_CWORD=1; _pe pe unw pe; echo ${{COMPREPLY[@]}}");
    let ran = Command::new("bash").args(["-c", &asks]).output().unwrap();
    assert_eq!((ran.stdout.as_slice(), ran.stderr.as_slice()), (b"unwind\n".as_slice(), b"".as_slice()));
    assert_eq!(run(&["completions", "none"]).2, 2);
}

#[test]
fn the_man_page_has_each_command() {
    let (page, _, status) = run(&["man"]);
    assert_eq!(status, 0);
    let commands =
        ["show", "find", "diff", "unwind", "key", "digest", "extract", "attach", "detach", "checksum", "report"];
    let edits = ["set-version", "set-manifest", "set-icon", "set-resource", "remove-resource"];
    for command in commands.into_iter().chain(edits).chain(["completions", "man"]) {
        assert!(page.contains(&format!(".SS \"pe {}", command.replace('-', "\\-"))), "{command}");
    }
    assert!(page.contains(".TP\n\\fB\\-r\\fR, \\fB\\-\\-recursive\\fR\nTake each FILE"));
    // The value of an option has its name, and the parts are named.
    assert!(
        page.contains("\n\\fB\\-\\-parts\\fR \\fIPART,..\\fR\n") && page.contains("\n\\fB\\-\\-fix\\fR \\fIOUT\\fR\n")
    );
    assert!(page.contains("\nOne of headers, hardening, hashes, sections, imports, exports, debug, "));
    let folder = Folder::new("man");
    let file = folder.file("pe.1", page.as_bytes());
    match Command::new("groff").args(["-man", "-Tutf8", "-ww", &file]).output() {
        Ok(ran) => {
            assert_eq!(String::from_utf8(ran.stderr).unwrap(), "");
            assert!(String::from_utf8(ran.stdout).unwrap().contains("misused"));
        }
        Err(_) => eprintln!("Debian's package groff-base is missing: the man page is not laid out"),
    }
}

/// `./pe` at the top of the repository starts a file of another name.
#[cfg(unix)]
#[test]
fn help_has_the_name_of_the_program() {
    let folder = Folder::new("help-name");
    let other = folder.0.join("built-0abf79c5");
    std::os::unix::fs::symlink(env!("CARGO_BIN_EXE_pe"), &other).unwrap();
    for words in [&[][..], &["--help"], &["show", "--help"], &["list"], &["--nonsense"], &["unwind", "a"]] {
        let ran = Command::new(&other).args(words).output().unwrap();
        let said = String::from_utf8([ran.stdout, ran.stderr].concat()).unwrap();
        assert!(said.contains("Usage: pe ") && !said.contains("built-"), "{words:?}: {said}");
    }
}

/// Whether fish completes an option of a command.
fn is_completed(command: &str, option: &str) -> bool {
    let (of, name) = (format!(" {command}\""), format!(" -l {option} "));
    run(&["completions", "fish"]).0.lines().any(|it| it.contains(&of) && it.contains(&name))
}

/// Help and completions have the options that a command takes, and no other.
#[test]
fn help_does_not_offer_what_is_refused() {
    let folder = Folder::new("help-mapped");
    let (file, out) = (folder.file("a.exe", made::SMALL), folder.0.join("out").to_str().unwrap().to_string());
    let refused: [&[&str]; 10] = [
        &["digest", &file],
        &["verify", &file],
        &["checksum", &file],
        &["attach", &file, &file, &out],
        &["detach", &file, &out],
        &["set-version", &file, &out, "--file-version", "1"],
        &["set-manifest", &file, &out, &file],
        &["set-icon", &file, &out, &file],
        &["set-resource", &file, &out, "10", "1", &file],
        &["remove-resource", &file, &out, "10", "1"],
    ];
    for words in refused {
        let (_, error, status) = run(&[words, &["--mapped"]].concat());
        assert_eq!((error.contains("'--mapped'"), status), (true, 2), "{error}");
        assert!(!is_completed(words[0], "mapped"), "{}", words[0]);
        let (help, _, status) = run(&[words[0], "--help"]);
        assert_eq!((help.contains("--strict"), help.contains("--mapped"), status), (true, false, 0), "{help}");
    }
    for command in ["show", "list", "find", "diff", "unwind", "key", "extract", "report"] {
        assert!(run(&[command, "--help"]).0.contains("--mapped") && is_completed(command, "mapped"), "{command}");
    }
    assert!(!run(&["report", "--help"]).0.contains("--registers") && !is_completed("report", "registers"));
    assert!(run(&["stack", "--help"]).0.contains("--registers") && is_completed("stack", "registers"));
}
