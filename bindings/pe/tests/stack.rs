//! `pe stack`, over dumps that are made by hand: what is expected stands in how they are made.

#[path = "../../rust/tests/made/mod.rs"]
mod made;

mod running;

use running::{opened_in, run, Folder};
use serde_json::{json, Value};
use std::fs;
use std::process::Command;

/// The status where a stack is lost before its bottom.
const LOST: i32 = 4;

/// What is said of a dump, with these arguments after it, and the status.
fn said_of(test: &str, bytes: &[u8], more: &[&str]) -> (Value, i32) {
    let folder = Folder::new(test);
    let (out, complaints, status) = run(&[&["stack", "--json", &folder.file("a.dmp", bytes)], more].concat());
    assert_eq!(complaints, "");
    (serde_json::from_str(&out).unwrap(), status)
}

#[test]
fn a_stack_is_walked_over_an_image_that_is_found() {
    let folder = Folder::new("stack-found");
    let image = folder.file("other name.exe", &made::with_functions());
    let (said, status) = said_of("stack-walked", &made::dump(), &["--images", folder.0.to_str().unwrap()]);
    assert_eq!((status, &said["error"], &said["threads_error"]), (0, &json!(null), &json!(null)));
    assert_eq!(
        said["threads"],
        json!([{
            "id": 0x24, "name": null, "is_crashed": false, "end": "bottom", "end_error": null,
            "frames": [{
                "ip_va": 0x1_8000_5000u64, "sp_va": 0x2_0000, "module": null, "offset": 0x5000, "function": null, "way": "top",
                "has_called": false, "is_guess": false, "registers": null,
            }],
        }])
    );
    let module = &said["modules"][0];
    assert_eq!((&module["image"], &module["image_file"]), (&json!("file"), &json!(image)));
    assert_eq!((&module["base_va"], &module["size"]), (&json!(0x1_8000_0000u64), &json!(0x6000)));
}

/// An image with one function that pushes rbx and allocates 32 bytes, at 0x1000, with a call that ends at 0x1010, and code after it
/// that no records describe. Its function table has so many bytes.
fn program(size_of_table: u32) -> Vec<u8> {
    let mut made = made::Made::new(made::X64);
    made.characteristics = 0x6000_0020;
    made.content.resize(0x80, 0);
    made.content[0x0B..0x10].copy_from_slice(&made::CALL);
    let record = made.put(&[1, 5, 2, 0, 5, 0x32, 1, 0x30]);
    let table = made.put_words(&[made::ADDRESS, made::ADDRESS + 0x20, record, 0]);
    made.directory(made::EXCEPTIONS, table, size_of_table);
    made.image()
}

/// A dump with a thread at this RVA of such an image, with these words on its stack. Its second module has no image.
fn stopped_at(rva: u64, stack: &[u64]) -> Vec<u8> {
    let words: Vec<u8> = stack.iter().flat_map(|it| it.to_le_bytes()).collect();
    let mut data = [made::context(0x1_8000_0000 + rva, 0x2_0000), words].concat();
    // rbp leads to the third word of the stack.
    data[0xA0..0xA8].copy_from_slice(&0x2_0010u64.to_le_bytes());
    let streams = [
        made::x64_system(),
        made::threads(&[(0x24, made::DUMP_DATA)]),
        made::modules(&[(0x1_8000_0000, 0x6000, 0, 0, [0, 0]), (OTHER, 0x1000, 9, 0, [0, 0])]),
        made::pieces(&[(0x2_0000, 8 * stack.len() as u32, made::DUMP_DATA + 1232)]),
    ];
    made::dump_of(&streams, &data)
}

/// The page of such a dump of a thread at the call.
fn page_of(test: &str, stack: &[u64]) -> String {
    let folder = Folder::new(test);
    folder.file("a.exe", &program(12));
    let dump = folder.file("a.dmp", &stopped_at(0x1010, stack));
    run(&["report", &dump, "-", "--images", folder.0.to_str().unwrap()]).0
}

/// What is said of a dump with a thread at this RVA of such an image, with these words on its stack, in JSON and in text, with this
/// status.
fn crash_of(test: &str, (size_of_table, rva): (u32, u64), stack: &[u64], wanted: i32) -> (Value, String) {
    let folder = Folder::new(test);
    folder.file("a.exe", &program(size_of_table));
    let dump = folder.file("a.dmp", &stopped_at(rva, stack));
    let [json, text] = [&["--json"][..], &[]].map(|more| {
        let (out, complaints, status) =
            run(&[&["stack", &dump, "--images", folder.0.to_str().unwrap()], more].concat());
        assert_eq!((complaints.as_str(), status), ("", wanted));
        out
    });
    (serde_json::from_str(&json).unwrap(), text)
}

/// A module without an image.
const OTHER: u64 = 0x2_0000_0000;

/// A folder, the size of the function table, the top frame's RVA, the stack, the frames, the end, and words of the text.
type Case<'a> = (&'a str, u32, u64, &'a [u64], Value, &'a str, &'a str);

/// A stack is whole where records lead to 0, each time after a call, and no frame is a guess. Of a function table of another size than
/// its entries have, here a byte more, the whole entries serve.
#[test]
fn a_stack_is_whole_only_without_a_guess() {
    let call = 0x1_8000_1010;
    let outer = [0, 0, 0, 0, 0xB0, 0];
    let (scanned, called) = ([&[7, call], &outer[..]].concat(), [&[call], &outer[..]].concat());
    let chained = [&[7, 7, 0, call], &outer[..]].concat();
    // The return address is one of code that no call precedes: what records lead on to from there is no guess.
    let overwritten = [&[0, 0, 0, 0, 0xB0, call + 4], &outer[..]].concat();
    let cases: [Case; 9] = [
        ("stack-whole", 12, 0x1010, &outer, json!([["top", false]]), "bottom", "the stack is whole by its records"),
        ("stack-zero", 12, 0x1050, &[0], json!([["top", false]]), "zero", "frames may be missing or wrong"),
        ("stack-data", 12, 0x1050, &[0x30], json!([["top", false]]), "no-return-address", "no executable code"),
        ("stack-scanned", 12, 0x1050, &scanned, json!([["top", false], ["scanned", true]]), "zero", "scanned, a guess"),
        (
            "stack-frame-pointer",
            12,
            0x1050,
            &chained,
            json!([["top", false], ["frame-pointer", true]]),
            "zero",
            "frame-pointer, a guess",
        ),
        (
            "stack-overwritten",
            12,
            0x1010,
            &overwritten,
            json!([["top", false], ["records", false]]),
            "bottom",
            "the last frame returns to 0, but no call precedes the address of a frame",
        ),
        (
            "stack-no-table",
            0,
            0x1050,
            &[7, call, 7, call],
            json!([["top", false], ["scanned", true], ["scanned", true]]),
            "no-function",
            "no return address is found",
        ),
        (
            "stack-bad-table",
            13,
            0x1050,
            &called,
            json!([["top", false], ["leaf", false]]),
            "bottom",
            "its whole entries serve",
        ),
        (
            "stack-other-module",
            12,
            0x1050,
            &[OTHER + 0x44, 7],
            json!([["top", false], ["leaf", true]]),
            "no-module",
            "no module with an image has the address of the last frame",
        ),
    ];
    for (test, size_of_table, rva, stack, frames, end, words) in cases {
        let wanted = if end == "bottom" { 0 } else { LOST };
        let (said, text) = crash_of(test, (size_of_table, rva), stack, wanted);
        let (thread, error) = (&said["threads"][0], &said["modules"][0]["function_table_error"]["name"]);
        assert_eq!(*error, if size_of_table == 13 { json!("EXCEPTION_SIZE") } else { json!(null) }, "{test}");
        let found: Vec<_> =
            thread["frames"].as_array().unwrap().iter().map(|it| json!([it["way"], it["is_guess"]])).collect();
        assert_eq!((json!(found), &thread["end"]), (frames, &json!(end)), "{test}");
        assert!(text.contains(words), "{text}");
    }
}

/// The RVAs that the frames of a recursion return to, and the lines of its frames: the number of each that is shown, and what is
/// said of those that are not.
type Recursion<'a> = (&'a str, Vec<u64>, &'a [&'a str]);

/// Each run of frames that comes again is shown once. Three frames more take three lines, and what is said of them one.
#[test]
fn a_recursion_is_shown_once() {
    let stack_of = |returns: &[u64]| -> Vec<u64> {
        let frame = |it: &u64| [0, 0, 0, 0, 0xB0, if *it == 0 { 0 } else { 0x1_8000_0000 + it }];
        returns.iter().chain(&[0]).flat_map(frame).collect()
    };
    // The top frame, whose row says so, is like no other.
    let (a, b, c) = (0x1010, 0x1018, 0x1014);
    let many: Vec<u64> = (0x1008..0x1019).collect();
    let cases: [Recursion; 7] = [
        ("fold-one", vec![a; 99], &["0", "1", ".. 98 more like it"]),
        ("fold-few", vec![a; 3], &["0", "1", "2", "3"]),
        ("fold-two", [a, b].repeat(49), &["0", "1", "2", ".. 48 times more: frames 1 to 2"]),
        ("fold-odd", [a, b, a, b, a, b, a].to_vec(), &["0", "1", "2", ".. 2 times more: frames 1 to 2", "7"]),
        ("fold-three", [c, a, a, b].repeat(20), &["0", "1", "2", "3", "4", ".. 19 times more: frames 1 to 4"]),
        (
            "fold-apart",
            [vec![a; 9], vec![c], vec![b; 9]].concat(),
            &["0", "1", ".. 8 more like it", "10", "11", ".. 8 more like it"],
        ),
        // A run of 17 frames is longer than those that are looked for.
        ("fold-long", many.repeat(3), &[]),
    ];
    for (test, returns, wanted) in cases {
        let (said, text) = crash_of(test, (12, a), &stack_of(&returns), 0);
        assert_eq!(said["threads"][0]["frames"].as_array().unwrap().len(), 1 + returns.len(), "{test}");
        let (_, thread) = text.split_once("found by\n").unwrap();
        let (thread, _) = thread.split_once("  end ").unwrap();
        let line = |it: &str| match it.trim_start() {
            it if it.starts_with("..") => it.to_string(),
            it => it.split(' ').next().unwrap_or_default().to_string(),
        };
        let found: Vec<String> = thread.lines().map(line).collect();
        let all: Vec<String> = (0..=returns.len()).map(|it| it.to_string()).collect();
        assert!(if wanted.is_empty() { found == all } else { found == wanted }, "{test}: {found:?}");
    }
    let page = page_of("fold-page", &stack_of(&[a; 99]));
    assert!(page.contains("<span class=count>100</span>") && page.contains("<td>.. 98 more like it</td>"), "{page}");
    assert!(page.contains("<tr id=frame-0-1>") && !page.contains("<tr id=frame-0-2>"), "{page}");
}

/// A dump of a crash in the first of modules with these paths, whose stack goes through the modules with these numbers; and whether
/// it says the registers of the crash.
fn through(paths: &[&str], callers: &[usize], has_registers: bool) -> Vec<u8> {
    let base = |index: usize| 0x1_8000_0000 + 0x10_0000 * index as u64;
    let returns = callers.iter().map(|it| base(*it) + 0x1010).chain([0]);
    let stack: Vec<u8> = returns.flat_map(|it| [0, 0, 0, 0, 0xB0, it]).flat_map(u64::to_le_bytes).collect();
    let mut data = [made::context(base(0) + 0x1010, 0x2_0000), stack.clone()].concat();
    let mut names = Vec::new();
    for path in paths {
        names.push(if path.is_empty() { 0 } else { made::DUMP_DATA + data.len() as u32 });
        let units: Vec<u8> = path.encode_utf16().flat_map(u16::to_le_bytes).collect();
        data.extend([made::words(&[units.len() as u32]), units, vec![0; 2]].concat());
    }
    let modules: Vec<_> = names.iter().enumerate().map(|(it, name)| (base(it), 0x6000, 0, *name, [0, 0])).collect();
    let mut raised = made::words(&[0x24, 0, 0xC000_0005, 0, 0, 0, 0x8000_1010, 1, 0, 0]);
    raised.resize(160, 0);
    raised.extend(made::words(&[if has_registers { 1232 } else { 1 }, made::DUMP_DATA]));
    let streams = [
        made::x64_system(),
        made::threads(&[(0x24, made::DUMP_DATA)]),
        made::modules(&modules),
        made::pieces(&[(0x2_0000, stack.len() as u32, made::DUMP_DATA + 1232)]),
        (6, raised),
    ];
    made::dump_of(&streams, &data)
}

/// What is said, in JSON and in text, of a crash through each of these modules.
fn crash_through(test: &str, paths: &[&str], more: &[&str], has_registers: bool) -> (Value, String) {
    let folder = Folder::new(test);
    folder.file("a.exe", &program(12));
    let callers: Vec<usize> = (1..paths.len()).collect();
    let dump = folder.file("a.dmp", &through(paths, &callers, has_registers));
    let page = run(&["report", &dump, "-", "--images", folder.0.to_str().unwrap()]).0;
    let words = [&["stack", &dump, "--images", folder.0.to_str().unwrap()], more].concat();
    let (json, text) = (run(&[&words[..], &["--json"]].concat()).0, run(&words).0);
    assert!(!more.is_empty() || page.contains("<dt>not Windows</dt>") == text.contains("not Windows"), "{page}");
    (serde_json::from_str(&json).unwrap(), text)
}

#[test]
fn the_first_frame_outside_windows_is_named() {
    let ntdll = r"C:\Windows\System32\ntdll.dll";
    let user = r"C:\windows\SYSTEM32\user32.dll";
    let (own, near) = (r"C:\app\a.exe", r"C:\WindowsApps\b.dll");
    let cases: [(&str, &[&str], &[&str], Value); 9] = [
        ("outside", &[ntdll, user, own, near], &[], json!(2)),
        ("outside-near", &[ntdll, near, own], &[], json!(1)),
        ("outside-top", &[own, ntdll], &[], json!(0)),
        ("outside-none", &[ntdll, user], &[], json!(null)),
        // Of a Windows directory elsewhere.
        ("outside-elsewhere", &[r"D:\W\system32\NTDLL.DLL", r"d:\w\b.dll", user], &[], json!(2)),
        ("outside-no-ntdll", &[user, own], &[], json!(null)),
        ("outside-other-ntdll", &[r"C:\app\ntdll.dll", own], &[], json!(null)),
        // The module of a frame before it has no path.
        ("outside-no-path", &[ntdll, "", own], &[], json!(null)),
        ("outside-few", &[ntdll, user, own], &["--frames", "2"], json!(null)),
    ];
    for (test, paths, more, wanted) in cases {
        let (said, text) = crash_through(test, paths, more, true);
        let found = &said["first_frame_outside_windows"];
        assert_eq!(found["frame"], wanted, "{test}: {said}");
        assert_eq!(text.contains("not Windows"), !wanted.is_null(), "{test}: {text}");
        if test == "outside" {
            assert_eq!(*found, json!({"thread_id": 36, "frame": 2, "windows_directory": r"C:\Windows"}));
            let words =
                r"not Windows   frame 2: a.exe+0x1010; the first of thread 36 in a module that is not below C:\Windows";
            assert!(text.contains(words), "{text}");
        }
    }
    let (said, _) = crash_through("outside-registers", &[ntdll, own], &[], false);
    assert_eq!(said["first_frame_outside_windows"], json!(null));
    assert_eq!(said["exception"]["registers_error"]["name"], "DUMP_CONTEXT_SIZE");
    assert_eq!(said["threads"][0]["frames"].as_array().unwrap().len(), 2);
}

#[test]
fn without_an_image_a_walk_is_lost() {
    let (said, status) = said_of("stack-lost", &made::dump(), &[]);
    assert_eq!((status, &said["threads"][0]["end"]), (LOST, &json!("no-module")));
    assert_eq!((&said["modules"][0]["image"], &said["exception"]), (&json!(null), &json!(null)));
    let folder = Folder::new("stack-hint");
    let (out, _, _) = run(&["stack", &folder.file("a.dmp", &made::dump())]);
    assert!(
        out.contains("1 module without one, 1 stack lost: --images FOLDER reads the images below a folder"),
        "{out}"
    );
}

/// Neither images nor a list of memory: the stack is the one that the thread names, and its frames are found by the range of a module,
/// as guesses: what a leaf function returns to, and what a scan finds.
#[test]
fn without_images_and_lists_a_stack_is_walked_by_ranges_of_modules() {
    let stack: Vec<u8> = [OTHER + 0x44, 7, OTHER + 0x88, 9].iter().flat_map(|it| it.to_le_bytes()).collect();
    let data = [made::context(OTHER + 0x123, 0x2_0000), stack].concat();
    let (kind, mut threads) = made::threads(&[(0x24, made::DUMP_DATA)]);
    threads[28..36].copy_from_slice(&0x2_0000u64.to_le_bytes());
    threads[36..44].copy_from_slice(&made::words(&[32, made::DUMP_DATA + 1232]));
    let streams = [made::x64_system(), (kind, threads), made::modules(&[(OTHER, 0x1000, 9, 0, [0, 0])])];
    let bytes = made::dump_of(&streams, &data);
    let (said, status) = said_of("stack-ranges", &bytes, &[]);
    let thread = &said["threads"][0];
    let frames: Vec<_> = thread["frames"]
        .as_array()
        .unwrap()
        .iter()
        .map(|it| json!([it["offset"], it["way"], it["is_guess"]]))
        .collect();
    assert_eq!(
        (json!(frames), &thread["end"]),
        (json!([[0x123, "top", false], [0x44, "leaf", true], [0x88, "scanned", true]]), &json!("no-module"))
    );
    assert_eq!((status, &said["memory"]["pieces"], &said["memory"]["bytes"]), (LOST, &json!(1), &json!(32)));
    let folder = Folder::new("stack-ranges-text");
    let (out, _, _) = run(&["stack", &folder.file("a.dmp", &bytes)]);
    let marked = ["leaf", "scanned"].map(|it| format!("{it}, in a module without an image, a guess"));
    assert!(marked.iter().all(|it| out.contains(it)) && out.contains("--images FOLDER"), "{out}");
}

/// The headers of an image may be longer than what is read of most files.
#[test]
fn an_image_of_many_sections_is_found() {
    let (size, mut image) = (0x30_0000u32, made::with_functions());
    image.resize(size as usize, 0);
    image[0x46..0x48].copy_from_slice(&[0xFF, 0xFF]);
    image[0x90..0x94].copy_from_slice(&size.to_le_bytes());
    let folder = Folder::new("stack-many-sections");
    let file = folder.file("a.exe", &image);
    let list = made::modules(&[(0x1_8000_0000, size, 0, 0, [0, 0])]);
    let (said, _) = said_of("stack-of-many-sections", &made::dump_of(&[list], &[]), &["--images", &file]);
    assert_eq!((&said["modules"][0]["image"], &said["modules"][0]["image_file"]), (&json!("file"), &json!(file)));
}

/// The stream of the names is shorter than one of them. The threads are there all the same.
#[test]
fn names_of_threads_that_are_refused_are_said() {
    let mut bytes = made::full_dump(made::X64);
    let entry = bytes.chunks_exact(4).position(|it| it == 24u32.to_le_bytes()).unwrap() * 4;
    bytes[entry + 4..entry + 8].copy_from_slice(&15u32.to_le_bytes());
    let (said, status) = said_of("stack-thread-names", &bytes, &[]);
    assert_eq!((&said["threads"][0]["name"], &said["threads_error"], status), (&json!(null), &json!(null), 1));
    assert_eq!(said["thread_names_error"]["name"], "DUMP_LIST_SIZE");
    let folder = Folder::new("stack-thread-names-text");
    assert!(run(&["stack", &folder.file("a.dmp", &bytes)]).0.contains("names of threads: "));
}

/// The program as a user who may not read all, in a folder with a mode for each path: root reads all.
#[cfg(target_os = "linux")]
fn run_as_nobody(folder: &Folder, modes: &[(&str, u32)], words: &[&str]) -> (String, String, i32) {
    use std::os::unix::fs::{MetadataExt, PermissionsExt};
    use std::os::unix::process::CommandExt;
    const NOBODY: u32 = 65534;
    let program = folder.0.join("pe");
    fs::copy(env!("CARGO_BIN_EXE_pe"), &program).unwrap();
    let set = |path: &std::path::Path, mode| fs::set_permissions(path, PermissionsExt::from_mode(mode)).unwrap();
    set(&program, 0o755);
    modes.iter().for_each(|(path, mode)| set(&folder.0.join(path), *mode));
    let mut command = Command::new(&program);
    if fs::metadata("/proc/self").unwrap().uid() == 0 {
        command.uid(NOBODY).gid(NOBODY);
    }
    command.args(words).current_dir(&folder.0).env_remove("_NT_SYMBOL_PATH");
    // A process that another test starts has the copy open for writing until it runs its own program (ETXTBSY).
    let mut ran = command.output();
    while ran.as_ref().is_err_and(|error| error.raw_os_error() == Some(26)) {
        std::thread::sleep(std::time::Duration::from_millis(10));
        ran = command.output();
    }
    let ran = ran.unwrap();
    modes.iter().for_each(|(path, _)| set(&folder.0.join(path), 0o755));
    let text = |bytes: Vec<u8>| String::from_utf8(bytes).unwrap();
    (text(ran.stdout), text(ran.stderr), ran.status.code().unwrap())
}

/// Of a PDB in a folder that cannot be listed, or of which the entries cannot be looked at, nobody knows: it is not called missing.
#[cfg(target_os = "linux")]
#[test]
fn folders_that_cannot_be_read_are_said() {
    const KEY: &str = "497B72F6390A44FC878E5A2D63B6CC4B1";
    let folder = Folder::new("stack-folders");
    folder.file("a.dmp", &made::full_dump(made::X64));
    let store = format!("store/a.pdb/{KEY}");
    fs::create_dir_all(folder.0.join(&store)).unwrap();
    folder.file(&format!("{store}/a.pdb"), b"");
    fs::create_dir(folder.0.join("images")).unwrap();
    let denied = "Permission denied (os error 13)";
    for (path, mode) in [("store", 0), ("store/a.pdb", 0), (&store, 0), ("store", 0o444), ("store/a.pdb", 0o444)] {
        let stack = ["stack", "--json", "a.dmp", "--symbols", "store"];
        let (out, _, status) = run_as_nobody(&folder, &[(path, mode)], &stack);
        assert_eq!(status, 3, "{path} {mode:o}");
        let said: Value = serde_json::from_str(&out).unwrap();
        let pdb = &said["modules"][0]["pdb"];
        assert_eq!((&pdb["state"], &pdb["reason"]), (&json!("not-read"), &json!(denied)), "{path} {mode:o}");
    }
    for path in ["store", "store/a.pdb", &store] {
        let key = ["key", "--missing", "a.dmp", "--symbols", "store"];
        let (out, complaints, status) = run_as_nobody(&folder, &[(path, 0)], &key);
        assert_eq!((complaints, status), (format!("pe: {path}: {denied}\n"), 3));
        assert!(out.contains(&format!("a.pdb/{KEY}/a.pdb")), "{out}");
    }
    for command in [&["stack", "a.dmp"][..], &["key", "--missing", "a.dmp"]] {
        let words = [command, &["--images", "images"]].concat();
        assert_eq!(
            run_as_nobody(&folder, &[("images", 0)], &words).1,
            format!("pe: images: {denied}\n"),
            "{command:?}"
        );
    }
}

/// A folder that is named may be a link. One to a folder below it is not followed, which is said.
#[cfg(unix)]
#[test]
fn links_to_folders_are_followed_where_they_are_named() {
    use std::os::unix::fs::symlink;
    let folder = Folder::new("stack-links");
    let (dump, images) = (folder.file("a.dmp", &made::full_dump(made::X64)), folder.0.join("images"));
    fs::create_dir(&images).unwrap();
    folder.file("images/a.exe", &made::with_functions());
    let link = folder.0.join("link");
    symlink(&images, &link).unwrap();
    let named = link.to_str().unwrap();
    assert_eq!(missing_in(&dump, &[("--images", named)]).len(), 1);
    let (said, _) = said_of("stack-link", &made::full_dump(made::X64), &["--images", named]);
    assert_eq!(
        (&said["modules"][0]["image"], &said["modules"][0]["image_file"]),
        (&json!("file"), &json!(format!("{named}/a.exe")))
    );
    assert!(run(&["-r", named]).0.starts_with(&format!("{named}/a.exe: ")));
    fs::create_dir(folder.0.join("above")).unwrap();
    symlink(&images, folder.0.join("above/link")).unwrap();
    let above = folder.0.join("above").to_str().unwrap().to_string();
    let said = format!("pe: {above}/link: a link to a folder, which is not followed\n");
    for words in [["stack", &dump, "--images", &above], ["key", &dump, "--images", &above]] {
        let more: &[&str] = if words[0] == "key" { &["--missing"] } else { &[] };
        assert_eq!(run(&[&words[..], more].concat()).1, said, "{words:?}");
    }
    assert_eq!(run(&["key", "--missing", &dump, "--symbols", &above]).1, said);
    assert_eq!(
        run(&["-r", "-v", &above]).1,
        format!(
            "pe: {above}/link: skipped, it is a link to a folder, which is not followed\npe: 1 file is no image, and skipped; one is \
             a link to a folder, which is not followed\npe: no image is found\n"
        )
    );
}

/// A link to memory that is not there can be opened, and not read.
#[cfg(target_os = "linux")]
#[test]
fn a_file_of_images_that_cannot_be_read_is_said() {
    let folder = Folder::new("stack-unread");
    let (dump, images) = (folder.file("a.dmp", &made::dump()), folder.0.join("images"));
    fs::create_dir(&images).unwrap();
    std::os::unix::fs::symlink("/proc/self/mem", images.join("a.dll")).unwrap();
    let (_, complaints, status) = run(&["stack", &dump, "--images", images.to_str().unwrap()]);
    assert_eq!((complaints, status), (format!("pe: {}/a.dll: Input/output error (os error 5)\n", images.display()), 3));
}

/// Of all images 2^20 section headers are read. These share their memory.
#[test]
fn images_of_too_many_sections_are_said() {
    let (size, mut loaded) = (0x30_0000u32, made::with_functions());
    loaded.resize(size as usize, 0);
    loaded[0x46..0x48].copy_from_slice(&[0xFF, 0xFF]);
    loaded[0x90..0x94].copy_from_slice(&size.to_le_bytes());
    let bases: Vec<u64> = (0..17).map(|it| 0x1_8000_0000 + u64::from(size) * it).collect();
    let folder = Folder::new("stack-sections");
    for (count, is_limited) in [(16, false), (17, true)] {
        let list: Vec<_> = bases[..count].iter().map(|base| (*base, size, 0, 0, [0, 0])).collect();
        let memory: Vec<_> = bases[..count].iter().map(|base| (*base, size, made::DUMP_DATA)).collect();
        let dump = folder.file("a.dmp", &made::dump_of(&[made::modules(&list), made::pieces(&memory)], &loaded));
        let [text, json] = [&[][..], &["--json"]].map(|more| run(&[&["stack", &dump], more].concat()).0);
        assert_eq!(text.contains("those of the modules have too many sections: some are not read"), is_limited);
        assert_eq!(serde_json::from_str::<Value>(&json).unwrap()["modules_is_limited"], is_limited);
    }
}

/// What is named and cannot have an image or a PDB is said.
#[cfg(unix)]
#[test]
fn what_is_named_and_is_no_image_is_said() {
    let folder = Folder::new("stack-no-image");
    let (dump, text) = (folder.file("a.dmp", &made::full_dump(made::X64)), folder.file("a.txt", &[b' '; 100]));
    for command in [&["stack", "--json", &dump][..], &["key", "--missing", &dump]] {
        let said = |option: &str, path: &str| {
            let (_, complaints, status) = run(&[command, &[option, path]].concat());
            (complaints, status)
        };
        let why = format!("pe: {text}: invalid magic number (BAD_MAGIC); it is a text\n");
        assert_eq!(said("--images", &text).0, why);
        for option in ["--images", "--symbols"] {
            let why = "pe: /dev/null: it is neither a file nor a folder\n".to_string();
            assert_eq!(said(option, "/dev/null"), (why, 3), "{command:?} {option}");
        }
    }
}

#[test]
fn a_folder_and_a_thread_that_are_not_there_are_said() {
    let folder = Folder::new("stack-missing");
    let (dump, none) = (folder.file("a.dmp", &made::dump()), folder.0.join("nowhere"));
    let (out, complaints, status) = run(&["stack", &dump, "--images", none.to_str().unwrap()]);
    assert!(out.contains("thread 36") && complaints.contains("nowhere: No such file or directory"), "{complaints}");
    assert_eq!(status, 3);
    let (_, complaints, status) = run(&["stack", &dump, "--thread", "99", "--json"]);
    assert_eq!((complaints, status), (format!("pe: {dump}: no thread has the number 99\n"), 1));
    // A dump that says what the system is alone.
    let bare = folder.file("b.dmp", &made::dump_of(&[made::x64_system()], &[]));
    let (out, complaints, status) = run(&["stack", &bare]);
    for list in ["threads", "modules"] {
        assert!(out.contains(&format!("  {list}       the dump has no list of them\n")), "{out}");
    }
    assert_eq!((complaints.as_str(), status), ("", 0));
    let (_, complaints, status) = run(&["stack", &bare, "--thread", "99"]);
    assert_eq!((complaints, status), (format!("pe: {bare}: no thread has the number 99\n"), 1));
}

/// A dump whose exception has this code and these parameters.
fn raised(code: u32, parameters: &[u64]) -> Vec<u8> {
    let mut bytes = made::full_dump(made::X64);
    let at = bytes.windows(12).position(|it| it == [0x24, 0, 0, 0, 0, 0, 0, 0, 5, 0, 0, 0xC0]).unwrap();
    bytes[at + 8..at + 12].copy_from_slice(&code.to_le_bytes());
    bytes[at + 32] = parameters.len() as u8;
    for (index, it) in parameters.iter().enumerate() {
        bytes[at + 40 + 8 * index..at + 48 + 8 * index].copy_from_slice(&it.to_le_bytes());
    }
    bytes
}

#[test]
fn what_an_exception_says_is_shown_by_name() {
    let folder = Folder::new("stack-reasons");
    let reasons: [(u32, &[u64], &str); 8] = [
        (0xC000_0409, &[2], "STATUS_STACK_BUFFER_OVERRUN (0xc0000409): FAST_FAIL_STACK_COOKIE_CHECK_FAILURE\n"),
        (0xC000_0409, &[1000], "STATUS_STACK_BUFFER_OVERRUN (0xc0000409): __fastfail(1000)\n"),
        (
            0xC000_0006,
            &[0, 0x7000, 0xC000_009C],
            "STATUS_IN_PAGE_ERROR (0xc0000006): read at 0x7000, STATUS_DEVICE_DATA_ERROR (0xc000009c)\n",
        ),
        (0x4000_0015, &[], "STATUS_FATAL_APP_EXIT (0x40000015)\n"),
        (0x2047_4343, &[0x10], "an exception of GCC (0x20474343)\n"),
        (0x0EED_FADE, &[], "an exception of Delphi (0x0eedfade)\n"),
        (0xC06D_007E, &[], "a DLL of a delay import was not found, as Visual C++ says it (0xc06d007e)\n"),
        (0xC000_0005, &[8, 0x10], "STATUS_ACCESS_VIOLATION (0xc0000005): execution at 0x10\n"),
    ];
    for (code, parameters, reason) in reasons {
        let (out, _, _) = run(&["stack", &folder.file("a.dmp", &raised(code, parameters))]);
        assert!(out.replace("\n                ", " ").contains(reason), "{reason}: {out}");
        let shown: Vec<String> = parameters.iter().map(|it| format!("{it:#x}")).collect();
        assert_eq!(out.contains("  parameters"), !parameters.is_empty());
        assert!(out.contains(&shown.join(", ")), "{out}");
    }
    let (said, _) = said_of("stack-fast-fail", &raised(0xC000_0409, &[3]), &[]);
    assert_eq!(said["exception"]["fast_fail"], json!({"number": 3, "name": "FAST_FAIL_CORRUPT_LIST_ENTRY"}));
    let (said, _) = said_of("stack-in-page", &raised(0xC000_0006, &[0, 1, 5]), &[]);
    assert_eq!(said["exception"]["in_page_status"], json!({"number": 5, "name": null}));
}

/// A dump of so many modules, whose names are all one text of 1,000 characters.
fn with_modules(count: u32) -> Vec<u8> {
    let text = made::DUMP_DATA;
    let modules: Vec<_> = (0..count).map(|it| (0x1_0000 * it as u64, 0x1000, 0, text, [0, 0])).collect();
    let (kind, stream) = made::modules(&modules);
    let data = [made::words(&[2000]), b"n\0".repeat(1000), vec![0; 4], stream.clone()].concat();
    let mut bytes = made::dump_of(&[made::x64_system(), (kind, Vec::new())], &data);
    // The stream stands after the text: its size and its offset, in the second entry of the directory.
    bytes[48..56].copy_from_slice(&made::words(&[stream.len() as u32, text + 2008]));
    bytes
}

/// Names are shown up to a bound, whatever the file's length, and what is past it is said.
#[test]
fn names_have_a_bound_in_all() {
    let bytes = with_modules(12_000);
    let (said, _) = said_of("stack-names", &bytes, &[]);
    let named = said["modules"].as_array().unwrap().iter().filter(|it| !it["name"].is_null()).count();
    // Four times 1,000 characters each of 16 MiB.
    assert_eq!((named, &said["texts_is_limited"]), ((16 << 20) / 4000, &json!(true)));
    let (said, _) = said_of("stack-few-names", &made::full_dump(made::X64), &[]);
    assert_eq!(said["texts_is_limited"], false);
}

/// Two stacks of 60,000 frames each: of both together 100,000 are shown, and what is past them is said.
#[test]
fn frames_have_a_bound_in_all() {
    let folder = Folder::new("stack-frames");
    folder.file("a.exe", &program(12));
    let words = [0, 0, 0, 0, 0xB0, 0x1_8000_1010u64].repeat(60_000);
    let stack: Vec<u8> = words.iter().chain(&[0; 6]).flat_map(|it| it.to_le_bytes()).collect();
    let data = [made::context(0x1_8000_1010, 0x2_0000), stack.clone()].concat();
    let streams = [
        made::x64_system(),
        made::threads(&[(0x24, made::DUMP_DATA), (0x25, made::DUMP_DATA)]),
        made::modules(&[(0x1_8000_0000, 0x6000, 0, 0, [0, 0])]),
        made::pieces(&[(0x2_0000, stack.len() as u32, made::DUMP_DATA + 1232)]),
    ];
    let bytes = made::dump_of(&streams, &data);
    let images = ["--images", folder.0.to_str().unwrap()];
    let (said, status) = said_of("stack-many", &bytes, &[&images[..], &["--frames", "70000"]].concat());
    let threads = said["threads"].as_array().unwrap();
    let found: Vec<_> =
        threads.iter().map(|it| (it["frames"].as_array().unwrap().len(), it["end"].as_str().unwrap())).collect();
    assert_eq!((found, status), (vec![(60_001, "bottom"), (39_999, "bound")], 0));
    assert_eq!(said["threads_is_limited"], true);
    let (said, _) = said_of("stack-cut", &bytes, &[&images[..], &["--frames", "10"]].concat());
    assert_eq!(said["threads_is_limited"], false);
    let dump = folder.file("a.dmp", &bytes);
    let words = [&["stack", &dump, "--frames", "70000"], &images[..]].concat();
    assert!(run(&words).0.contains("the stacks have more than the 100000 that are shown of a dump"));
}

/// With 200 MB of memory, which a dump of 32 MB needs more of.
#[test]
fn out_of_memory_is_an_error_of_a_file() {
    let folder = Folder::new("stack-memory");
    let run_with_less = |words: &[&str], bytes: &[u8]| {
        let limited = ["-c", "ulimit -v 200000; exec \"$0\" \"$@\"", env!("CARGO_BIN_EXE_pe")];
        let dump = folder.file("a.dmp", bytes);
        let words = words.iter().map(|it| if *it == "DUMP" { dump.as_str() } else { *it });
        let ran = Command::new("sh").args(limited).args(words).output().unwrap();
        (ran.status.code(), String::from_utf8(ran.stderr).unwrap())
    };
    let large = with_modules(300_000);
    for (words, done) in [(["stack", "--json", "DUMP"], LOST), (["report", "DUMP", "-"], 0)] {
        assert_eq!(run_with_less(&words, &made::dump()), (Some(done), String::new()));
        let (status, complaints) = run_with_less(&words, &large);
        assert!(status == Some(3) && complaints.contains("memory"), "{status:?} {complaints}");
    }
}

#[test]
fn a_refused_dump_has_the_fields_of_its_header_as_null() {
    let (said, status) = said_of("stack-refused", b"MZ", &[]);
    assert_eq!(
        (&said["time_date_stamp"], &said["time"], &said["flags"], status),
        (&json!(null), &json!(null), &json!(null), 1)
    );
    let has = |name| said.as_object().unwrap().contains_key(name);
    assert!(["time_date_stamp", "time", "flags"].into_iter().all(has));
}

#[test]
fn an_image_of_another_build_is_not_taken() {
    let folder = Folder::new("stack-other");
    let mut image = made::with_functions();
    let pe = u32::from_le_bytes(image[60..64].try_into().unwrap()) as usize;
    // `TimeDateStamp`.
    image[pe + 8] ^= 1;
    folder.file("a.exe", &image);
    let (said, _) = said_of("stack-another", &made::dump(), &["--images", folder.0.to_str().unwrap()]);
    assert_eq!((&said["modules"][0]["image"], &said["threads"][0]["end"]), (&json!(null), &json!("no-module")));
}

#[test]
fn each_stream_is_told() {
    let (said, status) = said_of("stack-full", &made::full_dump(made::X64), &["--registers"]);
    assert_eq!(status, LOST);
    let sevens = 0x0707_0707_0707_0707u64;
    assert_eq!(
        said["exception"],
        json!({
            "code": {"number": 0xC000_0005u32, "name": "STATUS_ACCESS_VIOLATION"}, "access": null, "access_va": sevens,
            "in_page_status": null, "fast_fail": null,
            "thread_id": 0x24, "address_va": 0x1_0000_5000u64, "module": null, "offset": null, "parameters": [sevens, sevens],
            "registers_error": null,
        })
    );
    assert_eq!(said["process"], json!({"id": 1, "create_time": 2}));
    assert_eq!(
        (&said["system"]["machine"]["name"], &said["system"]["number_of_processors"]),
        (&json!("x64"), &json!(1))
    );
    let crashed = &said["threads"][0];
    assert_eq!(
        (&crashed["id"], &crashed["name"], &crashed["is_crashed"]),
        (&json!(0x24), &json!("a.exe"), &json!(true))
    );
    assert_eq!(crashed["frames"][0]["registers"]["rip"], 0x1_8000_5000u64);
    assert_eq!(crashed["frames"][0]["registers"]["rsp"], 0x2_0000);
    let module = &said["modules"][0];
    assert_eq!(
        (&module["name"], &module["path"], &module["version"]),
        (&json!("a.exe"), &json!("a.exe"), &json!(null))
    );
    assert_eq!(module["pdb_symbol_server_path"], "a.pdb/497B72F6390A44FC878E5A2D63B6CC4B1/a.pdb");
    assert_eq!(module["symbol_server_path"], "a.exe/000000006000/a.exe");
    assert_eq!(
        (&said["unloaded_modules"][0]["name"], &said["unloaded_modules"][0]["base_va"]),
        (&json!("a.exe"), &json!(0x7000_0000))
    );
    assert_eq!(said["memory"], json!({"pieces": 1, "bytes": 400, "lost_bytes": 0x400 - 400, "errors": []}));
}

#[test]
fn one_thread_and_few_frames_are_shown_where_they_are_asked_for() {
    let (said, _) = said_of("stack-thread", &made::full_dump(made::X64), &["--thread", "37", "--frames", "0"]);
    let threads = said["threads"].as_array().unwrap();
    assert_eq!((threads.len(), &threads[0]["id"], &threads[0]["frames"]), (1, &json!(37), &json!([])));
    assert_eq!(threads[0]["end"], "bound");
}

#[test]
fn what_is_damaged_is_told_and_costs_itself() {
    let (said, status) = said_of("stack-none", b"no dump, but a text of more than thirty-two bytes", &[]);
    assert_eq!((&said["error"]["name"], status), (&json!("DUMP_SIGNATURE"), 1));
    let mut bytes = made::dump();
    let count = bytes.windows(4).rposition(|it| it == 0x24u32.to_le_bytes()).unwrap() - 4;
    // The list of threads says that it has more of them.
    bytes[count] = 200;
    let (said, status) = said_of("stack-damaged", &bytes, &[]);
    assert_eq!((&said["threads_error"]["name"], status), (&json!("DUMP_LIST_SIZE"), 1));
    assert_eq!((&said["error"], said["modules"].as_array().unwrap().len()), (&json!(null), 1));
}

#[test]
fn the_registers_of_another_code_are_not_taken_in_silence() {
    let mut bytes = made::full_dump(made::X64);
    // The location of the exception's context: its size, after 160 bytes of the exception.
    let raised = bytes.windows(12).position(|it| it == [0x24, 0, 0, 0, 0, 0, 0, 0, 5, 0, 0, 0xC0]).unwrap();
    bytes[raised + 160] = 1;
    bytes[raised + 161] = 0;
    let (said, status) = said_of("stack-registers", &bytes, &[]);
    assert_eq!((&said["exception"]["registers_error"]["name"], status), (&json!("DUMP_CONTEXT_SIZE"), 1));
    assert_eq!(said["threads"][0]["frames"][0]["ip_va"], 0x1_8000_5000u64);
}

#[test]
fn text_is_a_screen_that_names_forge_nothing_in() {
    let folder = Folder::new("stack-text");
    let mut bytes = made::full_dump(made::X64);
    let name = bytes.windows(10).position(|it| it == b"a\0.\0e\0x\0e\0").unwrap();
    bytes[name + 2] = b'\n';
    let path = folder.file("a.dmp", &bytes);
    let (out, complaints, status) = run(&["stack", &path]);
    assert_eq!((complaints.as_str(), status), ("", LOST));
    assert!(out.contains("thread 36 a\\x0aexe, which crashed\n"), "{out}");
    assert!(out.contains("LOST: no module with an image has the address of the last frame"), "{out}");
    fs::write(&path, b"MZ").unwrap();
    let (out, _, status) = run(&["stack", &path]);
    assert_eq!(status, 1);
    assert!(out.contains("  warning       dump: "), "{out}");
}

/// The lines of JSON that the schema is checked against, and a text, `golden/stack.txt`, which `UPDATE_GOLDEN=1` writes anew.
#[test]
fn what_is_said_is_the_golden_text() {
    let folder = Folder::new("stack-golden");
    folder.file("dump.dmp", &made::full_dump(made::X64));
    let paths = [r"C:\Windows\System32\ntdll.dll", r"C:\app\a.exe"];
    folder.file("crash.dmp", &through(&paths, &[&[0][..], &[1; 40]].concat(), true));
    fs::create_dir(folder.0.join("images")).unwrap();
    folder.file("images/a.exe", &program(12));
    let said_by = |words: &[&str]| {
        let ran = Command::new(env!("CARGO_BIN_EXE_pe")).args(words).current_dir(&folder.0).output().unwrap();
        format!("$ pe {}\n{}", words.join(" "), String::from_utf8(ran.stdout).unwrap())
    };
    let said = [
        said_by(&["stack", "dump.dmp", "--registers", "--json"]),
        said_by(&["stack", "crash.dmp", "--images", "images"]),
        said_by(&["stack", "crash.dmp", "--images", "images", "--frames", "3", "--json"]),
        said_by(&["key", "--missing", "crash.dmp"]),
        said_by(&["key", "--missing", "crash.dmp", "--images", "images"]),
        said_by(&["key", "--missing", "dump.dmp", "--json"]),
    ]
    .concat();
    let path = concat!(env!("CARGO_MANIFEST_DIR"), "/tests/golden/stack.txt");
    if std::env::var_os("UPDATE_GOLDEN").is_some() {
        fs::write(path, &said).unwrap();
    }
    assert_eq!(said, fs::read_to_string(path).unwrap());
}

/// What a dump's modules lack, as kinds and paths, with these folders.
fn missing_in(dump: &str, folders: &[(&str, &str)]) -> Vec<(String, String)> {
    let words: Vec<&str> = folders.iter().flat_map(|(name, folder)| [*name, *folder]).collect();
    let (out, complaints, status) = run(&[&["key", "--missing", "--json", dump], &words[..]].concat());
    assert_eq!((complaints.as_str(), status), ("", 0));
    let said: Value = serde_json::from_str(&out).unwrap();
    let text = |it: &Value, name: &str| it[name].as_str().unwrap_or("none").to_string();
    said["missing"].as_array().unwrap().iter().map(|it| (text(it, "kind"), text(it, "symbol_server_path"))).collect()
}

/// An image is known by its headers, and a PDB by the path that a symbol server has. The paths are those of `pe key`.
#[test]
fn what_modules_lack_is_listed() {
    let folder = Folder::new("missing");
    let dump = folder.file("a.dmp", &made::full_dump(made::X64));
    let root = folder.0.to_str().unwrap();
    let pdb = ("PDB".to_string(), "a.pdb/497B72F6390A44FC878E5A2D63B6CC4B1/a.pdb".to_string());
    let image = ("image".to_string(), "a.exe/000000006000/a.exe".to_string());
    assert_eq!(run(&["key", &folder.file("a.exe", &made::with_debug())]).0.matches(pdb.1.as_str()).count(), 1);
    fs::remove_file(folder.0.join("a.exe")).unwrap();
    assert_eq!(missing_in(&dump, &[]), [image.clone(), pdb.clone()]);
    assert_eq!(missing_in(&dump, &[("--images", root), ("--symbols", root)]), [image.clone(), pdb.clone()]);
    // The file stands elsewhere, or is a folder.
    for path in ["a.pdb", "a.pdb/497B72F6390A44FC878E5A2D63B6CC4B1", "x/a.pdb/497B72F6390A44FC878E5A2D63B6CC4B2"] {
        let there = folder.0.join(path);
        fs::create_dir_all(&there).unwrap();
        fs::write(there.join("b.pdb"), b"").unwrap();
    }
    assert_eq!(missing_in(&dump, &[("--symbols", root)]), [image.clone(), pdb.clone()]);
    let store = folder.0.join("store/A.PDB/497b72f6390a44fc878e5a2d63b6cc4b1");
    fs::create_dir_all(&store).unwrap();
    fs::write(store.join("a.Pdb"), b"").unwrap();
    let of_image = [image];
    assert_eq!(missing_in(&dump, &[("--symbols", root)]), of_image);
    assert_eq!(missing_in(&dump, &[("--images", root)]), of_image);
    folder.file("another.bin", &made::with_functions());
    assert_eq!(missing_in(&dump, &[("--symbols", root)]).len(), 1);
    assert_eq!(missing_in(&dump, &[("--images", root)]), []);
    // An image at its path there counts for its path.
    fs::remove_file(folder.0.join("another.bin")).unwrap();
    fs::create_dir_all(folder.0.join("a.exe/000000006000")).unwrap();
    folder.file("a.exe/000000006000/a.exe", b"of no bytes that are read");
    assert_eq!(missing_in(&dump, &[("--symbols", root)]), []);
}

#[test]
fn an_image_that_the_memory_has_whole_is_not_missing() {
    let folder = Folder::new("missing-memory");
    let mut loaded = made::with_functions();
    loaded.resize(0x6000, 0);
    for (length, wanted) in [(0x6000, 1), (0x5000, 2)] {
        let streams = [
            made::x64_system(),
            made::modules(&[(0x1_8000_0000, 0x6000, 0, 0, [0, 0])]),
            made::pieces(&[(0x1_8000_0000, length, made::DUMP_DATA)]),
        ];
        let dump = folder.file("a.dmp", &made::dump_of(&streams, &loaded));
        assert_eq!(missing_in(&dump, &[]).len(), wanted);
    }
}

#[test]
fn what_is_not_known_of_modules_is_said() {
    let folder = Folder::new("missing-none");
    let dump = folder.file("a.dmp", &made::dump());
    let nothing = |kind: &str| (kind.to_string(), "none".to_string());
    assert_eq!(missing_in(&dump, &[]), [nothing("image"), nothing("PDB")]);
    let text = run(&["key", "--missing", &dump]).0;
    let words = "  no PDB        1 module: 0x180000000; the dump names no PDB of version 7.0 with a file's name\n";
    assert!(text.contains(words) && text.contains("  no image      1 module: 0x180000000; "), "{text}");
    // Modules that are one image lack it once.
    let many = folder.file("b.dmp", &with_modules(3));
    let found = missing_in(&many, &[]);
    assert_eq!((found.len(), found[0].1.starts_with("nnn")), (4, true), "{found:?}");
    let (out, complaints, status) = run(&["key", "--missing", "--json", &folder.file("c.dmp", b"MZ")]);
    let said: Value = serde_json::from_str(&out).unwrap();
    assert_eq!(
        (&said["error"]["name"], &said["missing"], &said["modules"]),
        (&json!("SHORT"), &json!(null), &json!(null))
    );
    assert_eq!((complaints.as_str(), status), ("", 1));
    let none = folder.0.join("nowhere");
    let (_, complaints, status) = run(&["key", "--missing", &dump, "--symbols", none.to_str().unwrap()]);
    assert!(complaints.contains("nowhere: No such file or directory") && status == 3, "{complaints}");
    for words in
        [&["key", &dump, "--images", "x"][..], &["key", "--missing", &dump, &dump], &["key", "--missing", "-r", &dump]]
    {
        assert_eq!(run(words).2, 2, "{words:?}");
    }
}

#[test]
fn no_path_of_a_dump_is_opened() {
    let folder = Folder::new("stack-opened");
    // The name of the module is `a.exe`, and this is its image.
    folder.file("a.exe", &made::with_functions());
    folder.file("a.dmp", &made::full_dump(made::X64));
    fs::create_dir(folder.0.join("images")).unwrap();
    folder.file("images/other.exe", &made::with_functions());
    for command in [["stack", "a.dmp", "--json"], ["report", "a.dmp", "page.html"], ["key", "a.dmp", "--missing"]] {
        let Some(mut opened) = opened_in(&folder, &[&command[..], &["--images", "images"]].concat()) else { return };
        // The page is written to a temporary file first.
        opened.retain(|it| !it.starts_with(".pe-"));
        // The start of an image is read first. A folder is listed once.
        assert_eq!(opened, ["a.dmp", "images", "images/other.exe", "images/other.exe"]);
    }
}
