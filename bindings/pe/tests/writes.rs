//! What is written is whole under its name or absent, and streams that are full or closed are status 3: where the program is ended
//! by signals, by a limit of the size of files, by a name that is taken. `PE_KILLS=200 cargo test --test writes` ends as many runs at
//! moments of their own, where the gate ends twelve.
#![cfg(unix)]

#[path = "../../rust/tests/made/mod.rs"]
mod made;

mod running;

use running::{run, Folder};
use std::fs;
use std::os::unix::fs::{symlink, PermissionsExt};
use std::os::unix::process::ExitStatusExt;
use std::process::{Command, Stdio};
use std::thread::sleep;
use std::time::{Duration, Instant};

fn path_in(folder: &Folder, name: &str) -> String {
    folder.0.join(name).to_str().unwrap().to_string()
}

/// The names in a folder, in their order.
fn names_in(folder: &Folder) -> Vec<String> {
    let mut names: Vec<String> =
        fs::read_dir(&folder.0).unwrap().map(|it| it.unwrap().file_name().into_string().unwrap()).collect();
    names.sort();
    names
}

/// The output of a shell that runs the program, `$0`, with redirections, and the status.
fn shell(script: &str, arguments: &[&str]) -> (String, String, Option<i32>) {
    let words = ["-c", script, env!("CARGO_BIN_EXE_pe")];
    let ran = Command::new("sh").args(words).args(arguments).output().unwrap();
    let text = |bytes: Vec<u8>| String::from_utf8(bytes).unwrap();
    (text(ran.stdout), text(ran.stderr), ran.status.code())
}

#[test]
fn what_exists_is_replaced_only_where_that_is_asked_for() {
    let folder = Folder::new("writes-replace");
    let (image, taken) = (folder.file("a.exe", &made::with_certificates()), folder.file("taken", b"mine"));
    let detached = path_in(&folder, "detached");
    assert_eq!(run(&["detach", &image, &detached]).2, 0);
    let wanted = fs::read(&detached).unwrap();
    let (out, complaints, status) = run(&["detach", &image, &taken]);
    assert_eq!((out.as_str(), status), ("", 3));
    assert_eq!(complaints, format!("pe: {taken}: it exists; --replace replaces it\n"));
    assert_eq!(fs::read(&taken).unwrap(), b"mine");
    assert_eq!(run(&["detach", "--replace", &image, &taken]), (String::new(), String::new(), 0));
    assert_eq!(fs::read(&taken).unwrap(), wanted);
    // Over itself, and over the file that a link leads to.
    let link = path_in(&folder, "link");
    symlink(&image, &link).unwrap();
    assert_eq!(run(&["detach", "--replace", &image, &link]).2, 0);
    assert!(fs::symlink_metadata(&link).unwrap().is_symlink());
    assert_eq!(fs::read(&image).unwrap(), wanted);
    for words in [&["detach", &image, "/dev/null"][..], &["detach", "--replace", &image, "/dev/null"]] {
        let said = "pe: /dev/null: it exists, and is no regular file\n".to_string();
        assert_eq!(run(words), (String::new(), said, 3));
    }
    assert_eq!(names_in(&folder), ["a.exe", "detached", "link", "taken"]);
    // Resources are files of a folder, which is new.
    let (image, out) = (folder.file("b.exe", &made::editable()), path_in(&folder, "resources"));
    let words = ["extract", &image, "resources", &out];
    assert_eq!(run(&words), Default::default());
    assert_eq!(run(&words).1, format!("pe: {out}: it exists; --replace writes into it\n"));
    assert_eq!(run(&[&words[..], &["--replace"]].concat()), Default::default());
}

#[test]
fn an_image_keeps_its_permissions() {
    let folder = Folder::new("writes-modes");
    let image = folder.file("a.exe", &made::with_certificates());
    let mode_of = |path: &str| fs::metadata(path).unwrap().permissions().mode() & 0o7777;
    for mode in [0o755, 0o600, 0o440] {
        fs::set_permissions(&image, PermissionsExt::from_mode(mode)).unwrap();
        let out = path_in(&folder, "out.exe");
        assert_eq!(run(&["detach", &image, &out]).2, 0);
        assert_eq!(mode_of(&out), mode);
        fs::remove_file(out).unwrap();
    }
}

#[test]
fn what_is_replaced_keeps_its_permissions() {
    let folder = Folder::new("writes-replaced-modes");
    let image = folder.file("a.exe", &made::with_certificates());
    let mode_of = |path: &str| fs::metadata(path).unwrap().permissions().mode() & 0o7777;
    for mode in [0o600, 0o640, 0o755] {
        for arguments in [["detach", "--replace", &image, "out"], ["extract", &image, "certificate", "--replace"]] {
            let out = folder.file("out", b"old");
            fs::set_permissions(&out, PermissionsExt::from_mode(mode)).unwrap();
            let arguments: Vec<&str> = arguments.into_iter().filter(|it| *it != "out").chain([out.as_str()]).collect();
            assert_eq!(run(&arguments), (String::new(), String::new(), 0));
            assert_eq!((mode_of(&out), fs::read(&out).unwrap() == b"old"), (mode, false));
        }
    }
}

#[test]
fn a_limit_of_the_size_of_files_leaves_none() {
    let folder = Folder::new("writes-limit");
    let image = folder.file("a.exe", &[made::with_certificates(), vec![0; 1 << 20]].concat());
    let out = path_in(&folder, "out.exe");
    for script in ["ulimit -f 8; exec \"$0\" \"$@\"", "ulimit -f 0; exec \"$0\" \"$@\""] {
        let (_, complaints, status) = shell(script, &["checksum", &image, "--fix", &out]);
        assert_eq!((complaints.starts_with(&format!("pe: {out}: ")), status), (true, Some(3)), "{complaints}");
        assert_eq!(names_in(&folder), ["a.exe"]);
    }
}

#[test]
fn streams_that_are_full_or_closed_are_an_error() {
    let folder = Folder::new("writes-streams");
    let image = folder.file("a.exe", &made::with_imports());
    let (image, none) = (image.as_str(), "no such file");
    for (redirection, arguments, wanted) in [
        (">/dev/full", [image].as_slice(), 3),
        (">&-", &[image], 3),
        (">&-", &["--json", image], 3),
        (">/dev/full", &["--help"], 3),
        (">/dev/full", &["completions", "bash"], 3),
        (">&-", &["--version"], 3),
        ("2>/dev/full", &[none], 3),
        ("2>&-", &[none], 3),
        ("2>/dev/full", &["--nonsense"], 3),
        ("2>&-", &["diff", "--mapped", image, none], 3),
        (">&- 2>&-", &[image], 3),
        // It is no empty file.
        ("<&-", &["-"], 3),
        ("<&-", &["stack", "-"], 3),
        // A warning that nobody can read.
        ("2>/dev/full", &["-r", folder.0.to_str().unwrap(), image], 3),
        // Nothing is lost of what says nothing.
        ("2>/dev/full", &[image], 0),
        (">&-", &["extract", image, "manifest", "-"], 1),
        (">/dev/null", &[image], 0),
    ] {
        fs::write(folder.0.join("text"), "no image").unwrap();
        let (_, complaints, status) = shell(&format!("exec \"$0\" \"$@\" {redirection}"), arguments);
        assert_eq!(status, Some(wanted), "{redirection} {arguments:?}: {complaints}");
        assert!(!complaints.contains("panicked"), "{complaints}");
    }
}

/// Writes an image, and ends that with a signal after some time. Returns whether it was ended.
fn ended_by(signal: i32, arguments: &[&str], after: Duration) -> bool {
    let mut child = Command::new(env!("CARGO_BIN_EXE_pe")).args(arguments).stdout(Stdio::null()).spawn().unwrap();
    sleep(after);
    let sent = Command::new("kill").args([format!("-{signal}"), child.id().to_string()]).stderr(Stdio::null()).status();
    assert!(sent.is_ok());
    let status = child.wait().unwrap();
    // After that of `abort` the status is that of memory that ran out.
    let is_aborted = signal == 6 && status.code() == Some(3);
    assert!(status.signal() == Some(signal) || status.success() || is_aborted, "{status:?}");
    !status.success()
}

#[test]
fn a_signal_leaves_all_or_nothing() {
    const SIZE: usize = 64 << 20;
    let kills = std::env::var("PE_KILLS").ok().and_then(|it| it.parse().ok()).unwrap_or(14);
    let folder = Folder::new("writes-kills");
    let image = folder.file("a.exe", &[made::with_imports(), vec![0x5A; SIZE]].concat());
    let out = path_in(&folder, "out.exe");
    let arguments = ["checksum", &image, "--fix", &out];
    let start = Instant::now();
    assert_eq!(run(&arguments).2, 0);
    let (mut whole, wanted) = (start.elapsed(), fs::read(&out).unwrap());
    fs::remove_file(&out).unwrap();
    let mut ended = 0;
    for number in 0..10 * kills {
        if number >= kills && ended > kills / 4 {
            break;
        }
        // SIGHUP, SIGINT, SIGTERM, SIGKILL, SIGABRT, SIGVTALRM, SIGPROF.
        let signal = [1, 2, 15, 9, 6, 26, 27][number % 7];
        // The moments go over the time of a whole run, in an order of no pattern.
        let after = whole * (number as u32 * 37 % 100 + 1) / 100;
        if ended_by(signal, &arguments, after) {
            ended += 1;
        } else {
            // It was done by then: the first run may have been slowed down by other work.
            whole = (whole + after) / 2;
        }
        if let Ok(found) = fs::read(&out) {
            assert!(found == wanted, "a part of the image under its name, after signal {signal}");
            fs::remove_file(&out).unwrap();
        }
        let left: Vec<String> = names_in(&folder).into_iter().filter(|it| it != "a.exe").collect();
        assert!(left.is_empty() || signal == 9, "{left:?} after signal {signal}");
        left.iter().for_each(|it| fs::remove_file(folder.0.join(it)).unwrap());
    }
    assert!(ended > kills / 4, "{ended} of {kills} runs were ended before they were done");
}
