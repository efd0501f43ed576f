//! How tests run the program.
#![allow(dead_code)]

use serde_json::Value;
use std::fs;
use std::path::PathBuf;
use std::process::Command;

/// A folder for one test, which goes away with it.
pub struct Folder(pub PathBuf);

impl Folder {
    pub fn new(test: &str) -> Folder {
        let path = std::env::temp_dir().join(format!("pe-{test}-{}", std::process::id()));
        fs::create_dir_all(&path).unwrap();
        Folder(path)
    }

    pub fn file(&self, name: &str, bytes: &[u8]) -> String {
        let path = self.0.join(name);
        fs::write(&path, bytes).unwrap();
        path.to_str().unwrap().to_string()
    }
}

/// The bytes of a file that is made of its length and of pieces with their offsets.
pub fn of_pieces((length, pieces): (usize, &[(usize, &[u8])])) -> Vec<u8> {
    let mut bytes = vec![0; length];
    pieces.iter().for_each(|(at, piece)| put(&mut bytes, *at, piece));
    bytes
}

/// Writes over the bytes at an offset.
pub fn put(bytes: &mut [u8], offset: usize, part: &[u8]) {
    bytes[offset..offset + part.len()].copy_from_slice(part);
}

/// A block of version information: its length, that of its value, whether that is a text, the key, the value, and other blocks, each
/// at a multiple of four bytes.
pub fn version_block(key: &str, value: &[u8], is_text: bool, children: &[Vec<u8>]) -> Vec<u8> {
    let pad = |bytes: &mut Vec<u8>| bytes.resize(bytes.len().next_multiple_of(4), 0);
    let units = if is_text { value.len() / 2 } else { value.len() } as u16;
    let mut bytes = [0, units, u16::from(is_text)].iter().flat_map(|it| it.to_le_bytes()).collect::<Vec<u8>>();
    bytes.extend(utf16(key));
    pad(&mut bytes);
    bytes.extend(value);
    for child in children {
        pad(&mut bytes);
        bytes.extend(child);
    }
    let length = bytes.len() as u16;
    put(&mut bytes, 0, &length.to_le_bytes());
    bytes
}

/// With the zero that ends it.
pub fn utf16(text: &str) -> Vec<u8> {
    text.encode_utf16().chain([0]).flat_map(u16::to_le_bytes).collect()
}

impl Drop for Folder {
    fn drop(&mut self) {
        let _ = fs::remove_dir_all(&self.0);
    }
}

/// Standard output, standard error and the status of a run.
pub fn run(arguments: &[&str]) -> (String, String, i32) {
    let ran = Command::new(env!("CARGO_BIN_EXE_pe")).args(arguments).output().unwrap();
    let text = |bytes: Vec<u8>| String::from_utf8(bytes).unwrap();
    (text(ran.stdout), text(ran.stderr), ran.status.code().unwrap())
}

/// What a run in a folder opens below it, in order of its name, and that it starts nothing and connects to nothing. `None` where it is not
/// traced. The loader's files and the system's have absolute paths.
pub fn opened_in(folder: &Folder, words: &[&str]) -> Option<Vec<String>> {
    let calls = folder.0.join("calls");
    let traced =
        ["-f", "-qq", "-e", "trace=open,openat,openat2,connect,execve", "-o", "calls", env!("CARGO_BIN_EXE_pe")];
    let mut command = Command::new("strace");
    command.args(traced).args(words).current_dir(&folder.0).env_remove("_NT_SYMBOL_PATH");
    if !command.output().is_ok_and(|ran| ran.status.success()) {
        eprintln!("Debian's package strace is missing, or may not trace: what is opened is not tried");
        return None;
    }
    let calls = fs::read_to_string(calls).unwrap();
    assert_eq!((calls.matches("execve(").count(), calls.matches("connect(").count()), (1, 0));
    let opened = calls.lines().filter_map(|line| {
        let (call, rest) = line.split_once('(')?;
        let path = rest.split('"').nth(1)?;
        (call.contains("open") && !path.starts_with('/')).then(|| path.to_string())
    });
    let mut opened: Vec<String> = opened.collect();
    opened.sort_unstable();
    Some(opened)
}

/// The JSON of an image, whose parts are all accepted.
pub fn json_of(test: &str, bytes: &[u8]) -> Value {
    let folder = Folder::new(test);
    let (out, _, status) = run(&["--json", &folder.file("a.exe", bytes)]);
    assert_eq!(status, 0);
    serde_json::from_str(&out).unwrap()
}
