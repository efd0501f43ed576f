//! The queries of JSON.md, as they stand there, over the images of the tests and two that are made here.

#[path = "../../rust/tests/made/mod.rs"]
mod made;

mod running;

use running::{run, Folder};
use serde_json::{json, Value};
use std::fs;
use std::process::{Command, Stdio};

/// An image that imports VirtualProtect of KERNEL32.DLL.
fn with_virtual_protect() -> Vec<u8> {
    let mut made = made::Made::new(made::X64);
    let function = made.put(b"\0\0VirtualProtect\0");
    let dll = made.put(b"KERNEL32.DLL\0");
    let list = made.put_words(&[function, 0, 0, 0]);
    let directory = made.put_words(&[list, 0, 0, dll, list, 0, 0, 0, 0, 0]);
    made.directory(made::IMPORTS, directory, 40);
    made.image()
}

/// An image whose section has bytes of all values.
fn with_mixed_bytes() -> Vec<u8> {
    let mut made = made::Made::new(made::X64);
    made.put(&(0..0x1000u32).map(|it| (it.wrapping_mul(0x9E37_79B1) >> 24) as u8).collect::<Vec<_>>());
    made.image()
}

/// What a query prints in the folder of the lines, or `None` without its program.
fn asked(folder: &Folder, start: &str) -> Option<String> {
    let page = include_str!("../docs/JSON.md");
    let query = page.lines().filter_map(|it| it.strip_prefix("    ")).find(|it| it.contains(start)).unwrap();
    let program = query.split(' ').next().unwrap();
    if Command::new(program).arg("--version").stdout(Stdio::null()).status().is_err() {
        eprintln!("{program} is missing: its queries are not tried");
        return None;
    }
    let ran = Command::new("bash").args(["-c", query]).current_dir(&folder.0).output().unwrap();
    assert_eq!((String::from_utf8(ran.stderr).unwrap().as_str(), ran.status.code()), ("", Some(0)), "{query}");
    Some(String::from_utf8(ran.stdout).unwrap())
}

/// The names of files that an answer has, a line each, without their folder.
fn names(answer: &str) -> Vec<&str> {
    answer.lines().map(|it| it.rsplit('/').next().unwrap()).collect()
}

#[test]
fn queries_of_the_page_are_answered() {
    let folder = Folder::new("queries");
    fs::create_dir(folder.0.join("images")).unwrap();
    let more = [("protect", with_virtual_protect()), ("mixed", with_mixed_bytes())];
    for (name, bytes) in made::all().into_iter().chain(more) {
        folder.file(&format!("images/{name}.bin"), &bytes);
    }
    folder.file("images/note.txt", b"no image");
    let lines = run(&["--json", "-r", folder.0.join("images").to_str().unwrap()]).0;
    folder.file("images.jsonl", lines.as_bytes());
    if let Some(answer) = asked(&folder, "group_by(.headers.machine.name)") {
        let machines: Value = serde_json::from_str(&answer).unwrap();
        // Of the images of x86 the DLL has it, and the one of the Rich header has no optional header.
        let of = |name: &str| machines.as_array().unwrap().iter().find(|it| it["machine"] == name).unwrap().clone();
        assert_eq!(of("x86"), json!({"machine": "x86", "aslr": 1, "all": 2}));
        assert_eq!(of("ARM64"), json!({"machine": "ARM64", "aslr": 0, "all": 1}));
        assert_eq!(of("x64")["aslr"], 0);
    }
    if let Some(answer) = asked(&folder, "uniq -c") {
        let count = |name: &str| answer.lines().find(|it| it.trim().ends_with(name)).map(|it| it.trim().to_string());
        assert_eq!(count(" user32.dll"), Some("1 user32.dll".to_string()));
        assert!(count(" kernel32.dll").is_some_and(|it| it != "1 kernel32.dll"), "{answer}");
        assert!(!answer.contains("KERNEL32"), "{answer}");
    }
    if let Some(answer) = asked(&folder, "\"VirtualProtect\"") {
        assert_eq!(names(&answer), ["protect.bin"]);
    }
    if let Some(answer) = asked(&folder, "> 7.2") {
        let found: Vec<&str> = names(&answer);
        assert_eq!(
            (found.len(), found[0].starts_with("mixed.bin .rdata 7.9") || found[0].starts_with("mixed.bin .rdata 8")),
            (1, true),
            "{answer}"
        );
    }
    if let Some(answer) = asked(&folder, "sqlite3") {
        let mut signed = names(&answer);
        signed.sort_unstable();
        assert_eq!(signed, ["certificates.bin", "signature.bin", "small.bin"]);
    }
}
