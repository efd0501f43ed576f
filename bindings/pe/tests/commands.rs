//! The commands that ask about images, or make new files of them, as they are run, over images that are made by hand.

mod limited;
#[path = "../../rust/tests/made/mod.rs"]
mod made;
mod running;

use running::{json_of, put, run, utf16, version_block, Folder};
use serde_json::{json, Value};
use std::fs;
use std::io::Write;
use std::process::{Command, Stdio};
use std::time::{Duration, Instant};

/// What a program of sums says of some bytes.
fn sum_of(program: &str, bytes: &[u8]) -> String {
    let mut ran = Command::new(program).stdin(Stdio::piped()).stdout(Stdio::piped()).spawn().unwrap();
    ran.stdin.take().unwrap().write_all(bytes).unwrap();
    let said = String::from_utf8(ran.wait_with_output().unwrap().stdout).unwrap();
    said.split(' ').next().unwrap().to_string()
}

#[test]
fn hashes_are_those_of_other_programs() {
    let imports = json_of("imphash", &made::with_imports());
    assert_eq!(imports["hashes"]["imphash"], sum_of("md5sum", b"kernel32.sleep,kernel32.ord17,a.f"));
    assert_eq!(imports["hashes"]["sha256_hex"], sum_of("sha256sum", &made::with_imports()));
    assert_eq!(imports["hashes"]["rich_hash"], Value::Null);
    // A directory without a DLL, as that of ntdll.dll.
    let mut made = made::Made::new(made::X64);
    let directory = made.put_words(&[0; 5]);
    made.directory(made::IMPORTS, directory, 20);
    let none = json_of("imphash-none", &made.image());
    assert_eq!((&none["imports"], &none["hashes"]["imphash"]), (&json!([]), &json!(null)));
    let section = &made::with_imports()[0x400..];
    assert_eq!(imports["sections"][0]["sha256_hex"], sum_of("sha256sum", section));
    let bytes = made::with_rich_header();
    let end = bytes.windows(4).position(|it| it == b"Rich").unwrap();
    let key = &bytes[end + 4..end + 8];
    let clear: Vec<u8> = bytes[0x80..end].iter().zip(key.iter().cycle()).map(|(byte, key)| byte ^ key).collect();
    let rich = json_of("richhash", &bytes);
    assert_eq!(
        (&rich["hashes"]["rich_hash"], &rich["hashes"]["imphash"]),
        (&json!(sum_of("md5sum", &clear)), &json!(null))
    );
    let folder = Folder::new("no-hashes");
    let (out, _, _) = run(&["--json", "--no-hashes", &folder.file("a.exe", &made::with_imports())]);
    let all: Value = serde_json::from_str(&out).unwrap();
    assert_eq!((all.get("hashes"), &all["sections"][0]["sha256_hex"]), (None, &json!(null)));
    assert_eq!(all["headers"]["right_checksum"], Value::Null);
}

/// The image of the README with other DLL characteristics: the field is at 0x9E.
fn with_flags(flags: u16) -> Vec<u8> {
    let mut bytes = made::with_certificates();
    bytes[0x9E..0xA0].copy_from_slice(&flags.to_le_bytes());
    bytes
}

#[test]
fn hardening_is_what_the_headers_say() {
    let hardening = |bytes: &[u8]| json_of("hardening", bytes)["hardening"].clone();
    let none = hardening(&made::with_exports());
    assert_eq!(
        (&none["aslr"], &none["dep"], &none["cfg"], &none["signed"]),
        (&json!(false), &json!(false), &json!(false), &json!(false))
    );
    assert_eq!(
        (&none["cet"], &none["safe_seh"], &none["no_writable_code"]),
        (&json!(false), &json!(null), &json!(true))
    );
    let all = hardening(&with_flags(0x1E0));
    for name in ["aslr", "high_entropy_aslr", "dep", "force_integrity", "signed"] {
        assert_eq!(all[name], true, "{name}");
    }
    // Addresses of 64 bits are nothing where the image is not moved.
    assert_eq!(hardening(&with_flags(0x20))["high_entropy_aslr"], false);
    // The flag of control flow alone is not enough: no load configuration says that the code checks.
    assert_eq!(hardening(&with_flags(0x4000))["cfg"], false);
    assert_eq!(hardening(&made::with_debug())["cet"], true);
    let x86 = hardening(&made::x86_dll());
    assert_eq!(
        (&x86["safe_seh"], &x86["high_entropy_aslr"], &x86["aslr"]),
        (&json!(false), &json!(null), &json!(true))
    );
    let mut bytes = made::with_exports();
    // The section's flags are at 0x16C.
    bytes[0x16C..0x170].copy_from_slice(&0xE000_0000u32.to_le_bytes());
    assert_eq!(hardening(&bytes)["no_writable_code"], false);
    let folder = Folder::new("hardening-text");
    let (out, _, _) = run(&[&folder.file("a.exe", &with_flags(0x140))]);
    let line =
        "yes: ASLR, DEP, has a signature entry, no writable code; no: high-entropy ASLR, CFG, CET, force integrity";
    assert!(out.contains(&format!("\n  hardening     {line}\n")), "{out}");
}

/// An image with a debug record of each of these types.
fn with_debug_records(records: &[(u32, &[u8])]) -> Vec<u8> {
    let mut made = made::Made::new(made::X64);
    let mut directory = Vec::new();
    for (kind, bytes) in records {
        let rva = made.put(bytes);
        directory.extend([0, 0, 0, *kind, bytes.len() as u32, rva, rva - made::ADDRESS + made::OFFSET]);
    }
    let start = made.put_words(&directory);
    made.directory(made::DEBUG, start, 28 * records.len() as u32);
    made.image()
}

#[test]
fn debug_records_are_read_by_themselves() {
    let embedded = [b"MPDB".as_slice(), &1000u32.to_le_bytes(), &[1, 2, 3]].concat();
    let checksum = [b"SHA256\0".as_slice(), &[0xAB; 32]].concat();
    let bytes = with_debug_records(&[(17, &embedded), (19, &checksum)]);
    let debug = json_of("debug-net", &bytes)["debug"].clone();
    assert_eq!(
        (&debug["embedded_pdb"], &debug["embedded_pdb_error"]),
        (&json!({"size": 1000, "compressed_size": 3}), &json!(null))
    );
    assert_eq!(debug["pdb_checksum"], json!({"algorithm": "SHA256", "checksum_hex": "ab".repeat(32)}));
    let folder = Folder::new("debug-net-text");
    let (out, _, _) = run(&["show", &folder.file("a.dll", &bytes), "debug"]);
    for line in
        ["embedded PDB  1000 bytes, 3 compressed".to_string(), format!("PDB checksum  SHA256 {}", "ab".repeat(32))]
    {
        assert!(out.contains(&format!("\n  {line}\n")), "{line}\n{out}");
    }
    // What is wrong with one record makes no difference to another.
    let file = folder.file("b.dll", &with_debug_records(&[(17, b"NPDB\0\0\0\0"), (19, &checksum)]));
    let (out, _, status) = run(&["--json", &file]);
    let debug = serde_json::from_str::<Value>(&out).unwrap()["debug"].clone();
    assert_eq!(
        (debug["embedded_pdb_error"]["name"].as_str(), &debug["embedded_pdb"], status),
        (Some("BAD_MAGIC"), &json!(null), 1)
    );
    assert_eq!((&debug["pdb_checksum"]["algorithm"], &debug["pdb_checksum_error"]), (&json!("SHA256"), &json!(null)));
    let (out, _, _) = run(&[&file]);
    assert_eq!(out.matches("  warning       debug data: ").count(), 1, "{out}");
}

/// The image of some exports with numbers in its headers, by the offsets of winnt.h: the DOS header from 2 on, the COFF header at
/// 0x44, the optional header at 0x58.
fn with_numbers_in_headers() -> Vec<u8> {
    let mut bytes = made::with_exports();
    (1..=29u16).for_each(|it| bytes[2 * usize::from(it)..][..2].copy_from_slice(&it.to_le_bytes()));
    bytes[0x5A..0x5C].copy_from_slice(&[14, 29]);
    let words: [(usize, u32); 8] = [
        (0x5C, 101),
        (0x60, 102),
        (0x64, 103),
        (0x6C, 0x1001),
        (0x80, 10 | 1 << 16),
        (0x84, 7 | 8 << 16),
        (0x88, 6 | 2 << 16),
        (0x8C, 9),
    ];
    words.iter().for_each(|(at, number)| bytes[*at..][..4].copy_from_slice(&number.to_le_bytes()));
    for (at, number) in [(0xA0, 1u64 << 33), (0xA8, 201), (0xB0, 202), (0xB8, 203)] {
        bytes[at..][..8].copy_from_slice(&number.to_le_bytes());
    }
    bytes[0xC0..0xC4].copy_from_slice(&5u32.to_le_bytes());
    bytes
}

#[test]
fn all_fields_of_the_headers_are_shown() {
    let bytes = with_numbers_in_headers();
    let headers = json_of("all-headers", &bytes)["headers"].clone();
    assert_eq!(
        headers["optional"],
        json!({"magic": 0x20B, "linker_version": "14.29", "operating_system_version": "10.1", "image_version": "7.8",
            "subsystem_version": "6.2", "size_of_code": 101, "size_of_initialized_data": 102, "size_of_uninitialized_data": 103,
            "base_of_code_rva": 0x1001, "base_of_data_rva": null, "size_of_stack_reserve": 1u64 << 33,
            "size_of_stack_commit": 201, "size_of_heap_reserve": 202, "size_of_heap_commit": 203, "win32_version_value": 9,
            "loader_flags": 5, "number_of_rva_and_sizes": 16})
    );
    assert_eq!(
        headers["coff"],
        json!({"number_of_sections": 1, "symbol_table_file_offset": 0, "number_of_symbols": 0, "string_table_size": null,
            "size_of_optional_header": 240})
    );
    let dos = &headers["dos"];
    assert_eq!(
        (&dos["bytes_on_last_page"], &dos["oem_id"], &dos["oem_information"]),
        (&json!(1), &json!(18), &json!(19))
    );
    assert_eq!((&dos["reserved"], &dos["reserved2"][9]), (&json!([14, 15, 16, 17]), &json!(29)));
    assert_eq!((&dos["pe_file_offset"], &dos["stub_size"]), (&json!(0x40), &json!(0)));
    let folder = Folder::new("all-headers-text");
    let (out, _, _) = run(&["show", &folder.file("a.exe", &bytes), "headers"]);
    for line in [
        "linker        version 14.29",
        "versions      system 10.1, subsystem 6.2, image 7.8",
        "code          101 bytes at 0x1001",
        "data          102 bytes initialized, 103 uninitialized",
        "stack         8589934592 bytes reserved, 201 committed",
        "heap          202 bytes reserved, 203 committed",
        "reserved      0x9, loader flags 0x5",
        "counts        1 section, 16 directories, 240 bytes of optional header",
        "e_oeminfo   OEM information                   19",
    ] {
        assert!(out.contains(&format!("\n  {line}\n")), "{line}\n{out}");
    }
    let x86 = json_of("all-headers-x86", &made::x86_dll())["headers"]["optional"].clone();
    assert_eq!((&x86["magic"], x86["base_of_data_rva"].is_number()), (&json!(0x10B), true));
    let (out, _, _) = run(&[&folder.file("a.exe", &bytes)]);
    assert!(out.contains("\n  versions      linker 14.29, system 10.1, subsystem 6.2\n"), "{out}");
    // An image without an optional header has none of its numbers.
    let rich = json_of("all-headers-none", &made::with_rich_header())["headers"].clone();
    assert_eq!(
        (&rich["format"], &rich["optional"], &rich["coff"]["size_of_optional_header"]),
        (&json!(null), &json!(null), &json!(0))
    );
}

#[test]
fn checksums_are_right_wrong_or_none() {
    let folder = Folder::new("checksum");
    let state = |bytes: &[u8]| json_of("checksum-state", bytes)["headers"]["checksum_state"].clone();
    assert_eq!((state(&made::x86_dll()), state(&made::with_exports())), (json!("right"), json!("none")));
    let mut bytes = made::x86_dll();
    bytes[0x400] ^= 1;
    let file = folder.file("a.dll", &bytes);
    assert_eq!(state(&bytes), "wrong");
    let (out, _, status) = run(&["checksum", &file]);
    assert_eq!((out.contains("a.dll: 0x0000111d, wrong: 0x0000"), status), (true, 0), "{out}");
    let (out, _, status) = run(&["checksum", "--json", &file, &folder.file("b.dll", b"MZ")]);
    let lines: Vec<Value> = out.lines().map(|line| serde_json::from_str(line).unwrap()).collect();
    assert_eq!(
        (&lines[0]["checksum"], &lines[0]["checksum_state"], &lines[0]["error"], status),
        (&json!(0x111D), &json!("wrong"), &json!(null), 1)
    );
    assert_eq!((&lines[1]["right_checksum"], &lines[1]["error"]["name"]), (&json!(null), &json!("SHORT")));
    let fixed = folder.0.join("fixed.dll");
    let fixed = fixed.to_str().unwrap();
    assert_eq!(run(&["checksum", "--fix", fixed, &file]).2, 0);
    let new = fs::read(fixed).unwrap();
    assert_eq!(state(&new), "right");
    assert_eq!(
        (new.len(), new.iter().zip(&bytes).filter(|(one, other)| one != other).count() <= 4),
        (bytes.len(), true)
    );
    assert_eq!(run(&["checksum", "--fix", fixed, &file]).2, 3, "the file exists");
    assert_eq!(fs::read(fixed).unwrap(), new);
}

#[test]
fn certificates_are_attached_and_detached() {
    let folder = Folder::new("attach");
    let file = folder.file("a.exe", &made::with_certificates());
    let path = |name: &str| folder.0.join(name).to_str().unwrap().to_string();
    let (bare, signed) = (path("bare.exe"), path("signed.exe"));
    assert_eq!(run(&["detach", &file, &bare]).2, 0);
    let bytes = fs::read(&bare).unwrap();
    assert_eq!(bytes.len(), 0x600);
    let said = json_of("detached", &bytes);
    assert_eq!((&said["certificates"], &said["hardening"]["signed"]), (&json!(null), &json!(false)));
    assert_eq!(said["headers"]["checksum_state"], "right");
    // Of an image without certificates nothing goes, which is said.
    let same = path("same.exe");
    let said = format!("pe: {bare}: it has no certificates: nothing is detached, and the checksum is set\n");
    assert_eq!(run(&["detach", &bare, &same]), (String::new(), said, 0));
    assert_eq!(fs::read(&same).unwrap(), bytes);
    // Signed data get a header of eight bytes.
    let data = folder.file("signature", &[0x30, 1, 2, 3, 4]);
    let (out, error, status) = run(&["attach", &bare, &data, &signed]);
    let why = format!("pe: {data}: it is attached, and is no PKCS #7 signed data: ");
    assert_eq!((out.as_str(), error.starts_with(&why), status), ("", true, 0), "{error}");
    let pem = folder.file("pem", b"-----BEGIN PKCS7-----\nMAECAw==\n-----END PKCS7-----\n");
    let (out, error, status) = run(&["attach", &bare, &pem, "-"]);
    assert_eq!((out.as_str(), error.contains("pem: it is PEM, and not DER"), status), ("", true, 1), "{error}");
    let short = folder.file("short.txt", b"short");
    assert_eq!(run(&["attach", &bare, &short, "-"]).1, format!("pe: {short}: truncated (SHORT)\n"));
    // What has no entry is refused, and an entry without signed data is warned of.
    for (given, why) in [
        (&[0; 100][..], "invalid certificate revision (CERTIFICATE_REVISION)"),
        (&[8, 0, 0, 0, 0, 2, 2, 0, 8, 0, 0, 0, 0, 0, 0, 0], "invalid certificate revision (CERTIFICATE_REVISION)"),
    ] {
        let given = folder.file("zeros", given);
        let refused = path("refused.exe");
        assert_eq!(run(&["attach", &bare, &given, &refused]), (String::new(), format!("pe: {given}: {why}\n"), 1));
        assert!(!folder.0.join("refused.exe").exists());
    }
    let bare_entry = folder.file("entry", &[8, 0, 0, 0, 0, 2, 2, 0]);
    let (_, error, status) = run(&["attach", &bare, &bare_entry, &path("entry.exe")]);
    let why = format!("pe: {bare_entry}: it is attached, and is no PKCS #7 signed data: ");
    assert_eq!((error.starts_with(&why), status), (true, 0), "{error}");
    let said = json_of("attached", &fs::read(&signed).unwrap());
    let pkcs7 = json!({"number": 2, "name": "PKCS #7 signed data"});
    let certificate = &said["certificates"][0];
    assert_eq!(
        [&certificate["size"], &certificate["type"], &certificate["signer"]],
        [&json!(13), &pkcs7, &json!(null)]
    );
    assert_eq!(certificate["signer_error"]["name"], "SIGNATURE_TRUNCATED");
    assert_eq!(run(&["extract", &signed, "certificate", "-"]).0.as_bytes(), [0x30, 1, 2, 3, 4]);
    assert_eq!(run(&["extract", &signed, "certificate", "--number", "2", "-"]).2, 1);
    // All entries are what attach takes.
    let (all, again) = (path("all"), path("again.exe"));
    assert_eq!(run(&["extract", &signed, "certificates", &all]).2, 0);
    assert_eq!(fs::read(&all).unwrap(), b"\x0d\0\0\0\0\x02\x02\0\x30\x01\x02\x03\x04\0\0\0");
    assert_eq!(run(&["attach", &bare, &all, &again]).2, 0);
    assert_eq!(fs::read(&again).unwrap(), fs::read(&signed).unwrap());
    assert_eq!(run(&["extract", &bare, "certificates", "-"]).2, 1);
    // What a signature covers stays.
    assert_eq!(run(&["digest", &signed]).0[..64], run(&["digest", &bare]).0[..64]);
    assert_eq!(run(&["attach", &bare, &data, &signed]).2, 3, "the file exists");
    assert_eq!(run(&["attach", &bare, &path("none"), &path("other.exe")]).2, 3);
    // What is no certificate is named, and not the image.
    let text = folder.file("words.txt", b"no certificate");
    let (_, error, status) = run(&["attach", &bare, &text, &path("other.exe")]);
    assert_eq!((error.starts_with(&format!("pe: {text}: certificate")), status), (true, 1), "{error}");
    assert_eq!(run(&["detach", "--mapped", &bare, &path("other.exe")]).2, 2);
    assert!(!folder.0.join("other.exe").exists());
}

#[test]
fn manifests_and_resources_are_changed() {
    let folder = Folder::new("edit");
    let file = folder.file("a.exe", &made::editable());
    let path = |name: &str| folder.0.join(name).to_str().unwrap().to_string();
    let (manifest, out, more, less) = (folder.file("new.xml", b"<new/>!"), path("b.exe"), path("c.exe"), path("d.exe"));
    assert_eq!(run(&["set-manifest", &file, &out, &manifest]).2, 0);
    assert_eq!(run(&["extract", &out, "manifest", "-"]).0, "<new/>!");
    // The language that is there is kept, and there is no other.
    let which = ["extract", &out, "resource", "--type", "24", "--name", "1"];
    assert_eq!(run(&[&which[..], &["--language", "0x407", "-"]].concat()).0, "<new/>!");
    assert_eq!(run(&[&which[..], &["--language", "0x409", "-"]].concat()).2, 1);
    assert_eq!(fs::read(&out).unwrap().len(), made::editable().len());
    assert_eq!(run(&["set-manifest", &file, &out, &manifest]).2, 3, "the file exists");
    assert_eq!(run(&["set-manifest", &file, &more, &path("none")]).2, 3);
    assert_eq!(run(&["set-manifest", "--mapped", &file, &more, &manifest]).2, 2);
    assert!(!folder.0.join("c.exe").exists());
    // A resource that is new, whose name is in upper case, and then none.
    assert_eq!(run(&["set-resource", &out, &more, "10", "data", &manifest]).2, 0);
    let which = ["extract", &more, "resource", "--type", "10", "--name", "DATA", "--language", "1033", "-"];
    assert_eq!(run(&which).0, "<new/>!");
    assert_eq!(run(&["extract", &more, "manifest", "-"]).0, "<new/>!");
    assert_eq!(run(&["remove-resource", &more, &less, "10", "DATA", "--language", "0x407"]).2, 1);
    assert_eq!(run(&["remove-resource", &more, &less, "10", "DATA"]).2, 0);
    assert_eq!(fs::read(&less).unwrap(), fs::read(&out).unwrap());
    // The last resource: the only section stays, and it is said.
    let (_, said, status) = run(&["remove-resource", &file, &path("g.exe"), "24", "1"]);
    assert_eq!(
        (said, status),
        (
            format!(
                "pe: {file}: no resource is left; the section that had them stays, without a directory: what is set later gets a \
                 new section\n"
            ),
            0
        )
    );
    // Several at once, types by what show calls them, and none where one is not there.
    let (two, three) = (path("h.exe"), path("i.exe"));
    assert_eq!(run(&["set-resource", &more, &two, "Raw Data", "other", &manifest]).2, 0);
    assert_eq!(run(&["extract", &two, "resource", "--type", "10", "--name", "OTHER", "-"]).0, "<new/>!");
    let words = ["remove-resource", &two, &three, "10", "DATA", "raw data"];
    let (_, said, status) = run(&[&words[..], &["missing"]].concat());
    assert_eq!((said, status), (format!("pe: {two}: the image has no such resource: raw data missing\n"), 1));
    assert_eq!(run(&words).2, 2);
    assert!(!folder.0.join("i.exe").exists());
    assert_eq!(run(&[&words[..], &["other"]].concat()), (String::new(), String::new(), 0));
    assert_eq!(fs::read(&three).unwrap(), fs::read(&out).unwrap());
    // What does not fit goes to the end; what is signed is refused.
    let long = folder.file("long", &[b'x'; 0x400]);
    assert_eq!(run(&["set-manifest", &file, &path("e.exe"), &long]).2, 0);
    assert_eq!(run(&["extract", &path("e.exe"), "manifest", "-"]).0, "x".repeat(0x400));
    let signed = folder.file("signed.exe", &made::with_certificates());
    assert_eq!(run(&["set-manifest", &signed, &path("f.exe"), &manifest]).2, 1);
    assert!(!folder.0.join("f.exe").exists());
}

/// An icon file with a bitmap of this width for each byte, of 41 bytes, the last of which is the width again.
fn icons(widths: &[u8]) -> Vec<u8> {
    let mut file = vec![0, 0, 1, 0, widths.len() as u8, 0];
    for (index, width) in widths.iter().enumerate() {
        file.extend([*width, *width, 0, 0, 1, 0, 24, 0, 41, 0, 0, 0]);
        file.extend((6 + 16 * widths.len() as u32 + 41 * index as u32).to_le_bytes());
    }
    for width in widths {
        file.extend([40, 0, 0, 0, *width, 0, 0, 0, 2 * width, 0, 0, 0, 1, 0, 24, 0]);
        file.extend([0; 24]);
        file.push(*width);
    }
    file
}

/// An image with a resource in so many languages from 1 on, all of which share one content. They have a section of their own.
fn in_languages(kind: u32, count: u32, content: &[u8]) -> Vec<u8> {
    let mut made = made::Made::new(made::X64);
    let below = |offset: u32| 1 << 31 | offset;
    let mut tree = vec![0, 0, 0, 1 << 16, kind, below(24), 0, 0, 0, 1 << 16, 1, below(48), 0, 0, 0, count << 16];
    tree.extend((0..count).flat_map(|it| [it + 1, 64 + 8 * count]));
    tree.extend([made.next() + 80 + 8 * count, content.len() as u32, 0, 0]);
    let root = made.put_words(&tree);
    made.put(content);
    made.directory(2, root, made.content.len() as u32);
    made.size_of_image = made.content.len().next_multiple_of(0x1000) as u32 + 0x1000;
    let mut bytes = made.image();
    // No entry point.
    put(&mut bytes, 0x68, &[0; 4]);
    bytes
}

#[test]
fn languages_cost_no_more_than_they_contain() {
    let folder = Folder::new("many-languages");
    let path = |name: &str| folder.0.join(name).to_str().unwrap().to_string();
    // Each language gets its own icon, though all share one group. In proportion to the square this takes many minutes.
    let group = [0, 0, 1, 0, 1, 0, 16, 16, 0, 0, 1, 0, 24, 0, 41, 0, 0, 0, 1, 0];
    let file = folder.file("a.exe", &in_languages(14, 30_000, &group));
    let (one, start) = (folder.file("1.ico", &icons(&[48])), Instant::now());
    assert_eq!(run(&["set-icon", &file, &path("b.exe"), &one]), (String::new(), String::new(), 0));
    assert!(start.elapsed() < Duration::from_secs(60), "{:?}", start.elapsed());
    let which = ["extract", &path("b.exe"), "resource", "--type", "3", "--name", "30000", "--language", "30000", "-"];
    assert_eq!(run(&which).0.as_bytes().last(), Some(&48));
    // What they contain together is bounded.
    let many = folder.file("c.exe", &in_languages(24, 2000, b"<old/>"));
    let long = folder.file("long", &vec![b'x'; 140_000]);
    let refusal = |out: &str| (String::new(), format!("pe: {out}: more than 256 MiB for all languages together\n"), 1);
    assert_eq!(run(&["set-manifest", &many, &path("d.exe"), &long]), refusal(&many));
    assert_eq!(run(&["set-resource", &many, &path("d.exe"), "24", "1", &long]), refusal(&many));
    assert!(!folder.0.join("d.exe").exists());
    assert_eq!(run(&["set-manifest", &many, &path("d.exe"), &long, "--language", "7"]).2, 0);
    let versions = folder.file("e.exe", &in_languages(16, 2000, &vec![0; 140_000]));
    let words = ["set-version", &versions, &path("f.exe"), "--file-version", "1.2.3.4"];
    assert_eq!(run(&words), refusal(&versions));
    let groups = folder.file("g.exe", &in_languages(14, 2000, &vec![0; 140_000]));
    assert_eq!(run(&["set-icon", &groups, &path("f.exe"), &one, "--language", "7"]), refusal(&groups));
}

#[test]
fn an_icon_of_another_language_stays_apart() {
    let folder = Folder::new("icon-language");
    let file = folder.file("a.exe", &made::editable());
    let path = |name: &str| folder.0.join(name).to_str().unwrap().to_string();
    let (one, other) = (folder.file("1.ico", &icons(&[48])), folder.file("2.ico", &icons(&[16])));
    assert_eq!(run(&["set-icon", &file, &path("b.exe"), &one, "--language", "0x407"]).2, 0);
    assert_eq!(run(&["set-resource", &path("b.exe"), &path("c.exe"), "3", "1", &one, "--language", "0x409"]).2, 0);
    assert_eq!(run(&["set-icon", &path("c.exe"), &path("d.exe"), &other]).2, 0);
    assert_eq!(run(&["extract", &path("d.exe"), "icon", &path("d.ico")]).2, 0);
    assert_eq!(fs::read(path("d.ico")).unwrap(), icons(&[16]));
    // The new icon has an identifier by which there is none in another language.
    let has = |id: &str, language: &str| {
        let out = path(&format!("{id}-{language}"));
        run(&["extract", &path("d.exe"), "resource", "--type", "3", "--name", id, "--language", language, &out]).2 == 0
    };
    assert!(has("2", "0x407") && !has("2", "0x409") && has("1", "0x409"));
}

/// Windows looks for that of the name 1 of a program, and of the name 2 of a DLL.
#[test]
fn of_several_manifests_the_one_that_windows_looks_for_is_changed() {
    let folder = Folder::new("manifests");
    let path = |name: &str| folder.0.join(name).to_str().unwrap().to_string();
    let (both, manifest) = (path("both.exe"), folder.file("new.xml", b"<new/>"));
    let words =
        ["set-resource", &folder.file("a.exe", &made::editable()), &both, "24", "2", &folder.file("2", b"<two/>")];
    assert_eq!(run(&words).2, 0);
    let mut bytes = fs::read(&both).unwrap();
    let signature = u32::from_le_bytes(bytes[60..64].try_into().unwrap()) as usize;
    let kinds = [(0, ["<new/>", "<two/>"]), (0x20, ["<old/>", "<new/>"])];
    for (flag, wanted) in kinds {
        // The upper half of `Characteristics`, whose bit 13 is `IMAGE_FILE_DLL`.
        bytes[signature + 23] = bytes[signature + 23] & !0x20 | flag;
        let (image, out) = (folder.file("image", &bytes), path(&format!("out-{flag}")));
        assert_eq!(run(&["set-manifest", &image, &out, &manifest]).2, 0);
        let found = ["1", "2"].map(|it| run(&["extract", &out, "resource", "-", "--type", "24", "--name", it]).0);
        assert_eq!(found, wanted);
        // The part is the first of both, which need not be that one.
        let (first, said, status) = run(&["extract", &out, "manifest", "-"]);
        assert!(
            said.contains(": the first of 2 that fit is written; the part resource with --type manifest"),
            "{said}"
        );
        assert_eq!((first.as_str(), status), (wanted[0], 0));
    }
}

#[test]
fn icons_are_changed() {
    let folder = Folder::new("icon");
    let file = folder.file("a.exe", &made::editable());
    let path = |name: &str| folder.0.join(name).to_str().unwrap().to_string();
    let (three, one) = (folder.file("3.ico", &icons(&[16, 24, 32])), folder.file("1.ico", &icons(&[48])));
    assert_eq!(run(&["set-icon", &file, &path("b.exe"), &three, "--language", "0x407"]).2, 0);
    // It is read as the file that it was made of, and the manifest is there as before.
    let extracted = |image: &str, out: &str| {
        assert_eq!(run(&["extract", &path(image), "icon", &path(out)]).2, 0);
        fs::read(path(out)).unwrap()
    };
    assert_eq!(extracted("b.exe", "b.ico"), icons(&[16, 24, 32]));
    assert_eq!(run(&["extract", &path("b.exe"), "manifest", "-"]).0, "<old/>");
    // An image of a group that is not there is said, and the file has the others.
    assert_eq!(run(&["remove-resource", &path("b.exe"), &path("less.exe"), "icon", "2"]).2, 0);
    let (_, complaint, status) = run(&["extract", &path("less.exe"), "icon", &path("less.ico")]);
    assert!(status == 1 && complaint.contains("1 image of the group left out"), "{complaint}");
    assert_eq!(fs::read(path("less.ico")).unwrap(), icons(&[16, 32]));
    // So is one that a group counts, and ends before.
    assert_eq!(run(&["extract", &path("b.exe"), "resource", &path("group"), "--type", "14"]).2, 0);
    for (entries, status) in [(2, 1), (0, 1)] {
        let group = &fs::read(path("group")).unwrap()[..6 + 14 * entries];
        let (to, cut) = (path(&format!("cut{entries}.exe")), folder.file("cut", group));
        assert_eq!(run(&["set-resource", &path("b.exe"), &to, "14", "1", &cut]).2, 0);
        let (_, complaint, ended) = run(&["extract", &to, "icon", &path(&format!("cut{entries}.ico"))]);
        let said =
            format!("{} left out: after its end, ", ["3 images of the group", "1 image of the group"][entries / 2]);
        assert!(ended == status && complaint.contains(&said), "{complaint}");
    }
    assert_eq!(fs::read(path("cut2.ico")).unwrap(), icons(&[16, 24]));
    assert!(!folder.0.join("cut0.ico").exists());
    // Other icons take its name, its language and its identifiers; those that are left over go.
    assert_eq!(run(&["set-icon", &path("b.exe"), &path("c.exe"), &one]).2, 0);
    assert_eq!(extracted("c.exe", "c.ico"), icons(&[48]));
    let ids = |image: &str, language: &str| {
        let of_id = |id: &&str| {
            let words = ["extract", image, "resource", "--type", "3", "--name", id, "--language", language];
            run(&[&words[..], &[&path(&format!("{image}{id}{language}").replace('/', "-"))]].concat()).2 == 0
        };
        ["1", "2", "3", "4"].into_iter().filter(of_id).count()
    };
    let counts = ["b.exe", "c.exe"].map(|it| (ids(&path(it), "0x407"), ids(&path(it), "0x409")));
    assert_eq!(counts, [(3, 0), (1, 0)]);
    // An icon of another group stays, in a new language too.
    assert_eq!(run(&["set-icon", &path("c.exe"), &path("d.exe"), &three, "--language", "0x409"]).2, 0);
    assert_eq!((ids(&path("d.exe"), "0x407"), ids(&path("d.exe"), "0x409")), (1, 3));
    let damaged = folder.file("bad.ico", &icons(&[16])[..60]);
    let (said, complaint, status) = run(&["set-icon", &file, &path("e.exe"), &damaged]);
    assert_eq!((said.as_str(), status), ("", 1));
    assert!(complaint.contains("bad.ico: image 1 of the icon file passes its end"), "{complaint}");
    assert_eq!(run(&["set-icon", &file, &path("e.exe"), &file]).2, 1);
    assert_eq!(run(&["set-icon", &file, &path("e.exe"), &path("none")]).2, 3);
    assert!(!folder.0.join("e.exe").exists());
}

#[test]
fn versions_are_changed() {
    let folder = Folder::new("version");
    let file = folder.file("a.exe", &made::editable());
    let path = |name: &str| folder.0.join(name).to_str().unwrap().to_string();
    let (first, second) = (path("b.exe"), path("c.exe"));
    let strings = ["--string", "CompanyName=\u{c4}hre=1", "--string", "Own=x"];
    let words = ["set-version", &file, &first, "--file-version", "1.2.3.65535", "--language", "0x407"];
    assert_eq!(run(&[&words[..], &strings].concat()).2, 0);
    let said = run(&["show", &first, "version"]).0;
    for part in ["1.2.3.65535", "\u{c4}hre=1", "Own"] {
        assert!(said.contains(part), "{part} in {said}");
    }
    // One string is set, and all others stay, in the language that is there.
    let words = ["set-version", &first, &second, "--string", "Own=y", "--product-version", "7"];
    assert_eq!(run(&words).2, 0);
    let said = run(&["show", &second, "version"]).0;
    for part in ["1.2.3.65535", "7.0.0.0", "\u{c4}hre=1"] {
        assert!(said.contains(part), "{part} in {said}");
    }
    // One more language: the numbers are of the first resource, German, and the strings in English.
    let words = ["set-version", &second, &path("f.exe"), "--file-version", "8", "--language", "0x409"];
    let (_, error, status) = run(&[&words[..], &["--string", "Own=English"]].concat());
    let why = "it had no version information in this language: the new one has what was named alone";
    assert_eq!((error, status), (format!("pe: {second}: {why}\n"), 0));
    let line = run(&["--json", "--parts", "version", &path("f.exe")]).0;
    let version = &serde_json::from_str::<Value>(&line).unwrap()["version"];
    let languages = [&version["fixed_language"]["id"], &version["language"]["id"]];
    assert_eq!((&version["fixed"]["file_version"], languages), (&json!("1.2.3.65535"), [&json!(0x407), &json!(0x409)]));
    assert_eq!(version["strings"]["Own"], "English");
    let which = ["extract", &second, "resource", "--type", "16", "--name", "1", "-"];
    let (languages, units) =
        (["0x407", "0x409"], |text: &str| text.encode_utf16().flat_map(u16::to_le_bytes).collect::<Vec<_>>());
    let statuses = languages.map(|it| run(&[&which[..7], &["--language", it, &path(it)]].concat()).2);
    assert_eq!(statuses, [0, 1]);
    let content = fs::read(path("0x407")).unwrap();
    let has = |text: &str| content.windows(2 * text.len()).any(|it| it == units(text));
    assert_eq!([has("Own\0\0y\0"), has("x\0"), has("CompanyName\0"), has("04070")], [true, false, true, true]);
    // A name in other letters is that of the string that is there, as Windows looks it up.
    assert_eq!(run(&["set-version", &second, &path("e.exe"), "--string", "companyname=B", "--string", "OWN=z"]).2, 0);
    let which = ["extract", &path("e.exe"), "resource", "--type", "16", "--name", "1", &path("e")];
    assert_eq!(run(&which).2, 0);
    let content = fs::read(path("e")).unwrap();
    let has = |text: &str| content.windows(2 * text.len()).any(|it| it == units(text));
    assert_eq!([has("CompanyName\0\0B\0"), has("Own\0\0z\0")], [true, true]);
    assert_eq!([has("companyname"), has("OWN"), has("hre=1")], [false; 3]);
    // The strings follow the numbers, unless they are named.
    let words = ["--file-version", "4.5", "--product-version", "6", "--string", "PRODUCTVERSION=six"];
    let third = path("third.exe");
    assert_eq!(run(&[&["set-version", &file, &third][..], &words].concat()).2, 0);
    let said: Value = serde_json::from_str(&run(&["show", &third, "version", "--json"]).0).unwrap();
    let strings = said["version"]["strings"].as_object().unwrap();
    assert_eq!(strings.get("FileVersion"), Some(&json!("4.5.0.0")));
    assert_eq!(strings.values().filter(|it| **it == "6.0.0.0").count(), 0);
    assert_eq!(run(&["set-version", &file, &path("d.exe")]).2, 2);
    assert_eq!(run(&["set-version", &file, &path("d.exe"), "--language", "1033"]).2, 2);
    for words in [
        &["--file-version", "1.2.3.4.5"][..],
        &["--file-version", "65536"],
        &["--file-version", "+1"],
        &["--string", "=x"],
        &["--string", "A=b", "--string", "a=c"],
        &["--language", "no", "--string", "A=b"],
        &["--language", "+7", "--string", "A=b"],
    ] {
        assert_eq!(run(&[&["set-version", &file, &path("d.exe")][..], words].concat()).2, 2, "{words:?}");
    }
    assert!(!folder.0.join("d.exe").exists());
}

/// A variable of a script that is not set, and a number that has no room.
#[test]
fn a_resource_has_a_type_and_a_name_by_which_it_is_found() {
    let folder = Folder::new("resource-names");
    let (file, content) = (folder.file("a.exe", &made::editable()), folder.file("b", b"content"));
    let out = folder.0.join("out.exe").to_str().unwrap().to_string();
    for words in [["", "1"], ["10", ""]] {
        let (_, error, status) = run(&[&["set-resource", &file, &out][..], &words, &[&content]].concat());
        assert_eq!((error.starts_with("error: a resource has a type and a name\n"), status), (true, 2), "{error}");
    }
    for words in [["10", "65536"], ["#70000", "1"], ["10", "0x10000"]] {
        let (_, error, status) = run(&[&["set-resource", &file, &out][..], &words, &[&content]].concat());
        assert_eq!((error.contains(" is no identifier, which is at most 65535, nor"), status), (true, 1), "{error}");
    }
    assert!(!folder.0.join("out.exe").exists());
    let words = ["10", "65535"];
    assert_eq!(run(&[&["set-resource", &file, &out][..], &words, &[&content]].concat()).2, 0);
}

/// `VOS_NT_WINDOWS32`, 0x40004, and `VFT_APP`, 1, or `VFT_DLL`, 2, 32 bytes after the signature 0xFEEF04BD, as verrsrc.h has them.
#[test]
fn new_version_information_says_what_the_file_is() {
    let folder = Folder::new("version-type");
    let file = folder.file("a.exe", &made::editable());
    for (characteristics, kind) in [(0u16, 1u8), (0x2000, 2)] {
        let mut bytes = fs::read(&file).unwrap();
        let signature = u32::from_le_bytes(bytes[60..64].try_into().unwrap()) as usize;
        let own = u16::from_le_bytes([bytes[signature + 22], bytes[signature + 23]]);
        put(&mut bytes, signature + 22, &(own & !0x2000 | characteristics).to_le_bytes());
        let out = folder.0.join(format!("{kind}")).to_str().unwrap().to_string();
        let image = folder.file("b.exe", &bytes);
        assert_eq!(run(&["set-version", &image, &out, "--file-version", "1"]).2, 0);
        let written = fs::read(out).unwrap();
        let at = written.windows(4).position(|it| it == 0xFEEF_04BDu32.to_le_bytes()).unwrap();
        assert_eq!(written[at + 32..at + 40], [4, 0, 4, 0, kind, 0, 0, 0]);
    }
}

/// The line of JSON that a command prints.
fn parsed(words: &[&str]) -> Value {
    serde_json::from_str(&run(words).0).unwrap()
}

#[test]
fn a_summary_says_that_there_are_several_manifests() {
    let folder = Folder::new("several-manifests");
    let said = |leaves: &[(u32, u32, &[u8])]| run(&[&folder.file("a.exe", &with_leaves(leaves))]).0;
    let first = "\n  manifest      4 bytes\n";
    assert!(said(&[(24, 1, b"<a/>"), (24, 2, b"<bc/>")]).contains(&format!("{first}                the first of 2\n")));
    let one = said(&[(24, 1, b"<a/>"), (25, 2, b"<bc/>")]);
    assert_eq!((one.contains(first), one.contains("the first of")), (true, false), "{one}");
}

/// Where a name is that of a language, other identifiers have it too.
#[test]
fn languages_of_one_name_are_told_apart() {
    let folder = Folder::new("languages-of-one-name");
    let shown = |id: u16| {
        let mut bytes = with_leaves(&[(10, 1, b"x")]);
        let at = bytes.windows(4).position(|it| it == [7, 4, 0, 0]).unwrap();
        put(&mut bytes, at, &id.to_le_bytes());
        let file = folder.file("a.exe", &bytes);
        let named = parsed(&["show", &file, "resources", "--json"])["resources"][0]["language"].clone();
        assert_eq!(named["id"], id);
        let table = run(&["show", "--csv", &file, "resources"]).0;
        let shown = table.lines().nth(1).unwrap().split(',').nth(2).unwrap().to_string();
        // It is found by what is shown, and by no other identifier.
        let found = |language: &str| run(&["extract", &file, "resource", "-", "--language", language]);
        assert_eq!((found(&shown).0.as_str(), found("German (0x407)").2), ("x", 1));
        shown
    };
    let names = ["neutral", "German (0x7)", "German", "German (Swiss)", "German (0xfc07)", "#1023"];
    assert_eq!([0, 7, 0x407, 0x807, 0xFC07, 0x3FF].map(shown), names);
}

/// Images for x64 and ARM64 are PE32+, and those for x86 PE32.
#[test]
fn a_format_of_another_machine_is_warned_of() {
    let folder = Folder::new("format-of-machine");
    let said = |mut bytes: Vec<u8>, machine: u16| {
        let signature = u32::from_le_bytes(bytes[60..64].try_into().unwrap()) as usize;
        put(&mut bytes, signature + 4, &machine.to_le_bytes());
        let file = folder.file("a.exe", &bytes);
        let (text, _, status) = run(&[&file]);
        let line = text.lines().find_map(|it| it.strip_prefix("  warning       ")).map(str::to_string);
        let page = run(&["report", &file, "-"]).0;
        assert_eq!((line.is_some(), status), (page.contains(", but images for "), 0), "{text}");
        line
    };
    let warning = |text: &str| Some(text.to_string());
    assert_eq!(said(made::x86_dll(), 0x8664), warning("PE32, but images for x64 are PE32+"));
    assert_eq!(said(made::x86_dll(), 0xAA64), warning("PE32, but images for ARM64 are PE32+"));
    assert_eq!(said(made::with_exports(), 0x14C), warning("PE32+, but images for x86 are PE32"));
    assert_eq!([said(made::x86_dll(), 0x14C), said(made::with_exports(), 0x8664)], [None, None]);
}

/// There is no memory for a file of 2^40 bytes. The system gives it no room on a disk either.
#[test]
fn a_large_file_is_refused_by_its_start() {
    let folder = Folder::new("large");
    let refused = |start: &[u8], size: u64| {
        let file = folder.file("a", start);
        fs::OpenOptions::new().write(true).open(&file).unwrap().set_len(size).unwrap();
        let said = parsed(&["--json", &file]);
        assert_eq!(said["file_size"], size);
        let words: [&[&str]; 7] = [
            &[&file],
            &["verify", &file],
            &["list", &file],
            &["pdb", &file],
            &["stack", &file],
            &["report", &file, "-"],
            &["digest", &file],
        ];
        let runs = words.map(run);
        assert!(runs.iter().all(|it| it.2 == 1), "{runs:?}");
        (
            said["error"].clone(),
            said["file_kind"].clone(),
            runs.map(|it| (it.0.replace(&size.to_string(), "SIZE"), it.1)),
        )
    };
    for start in [&b"\x7fELF"[..], &[0; 4]] {
        let (mut large, mut small) = (refused(start, 1 << 40), refused(start, 1 << 20));
        // The page has digits in groups.
        [&mut large, &mut small].into_iter().for_each(|it| it.2[5].0.clear());
        assert_eq!(large, small);
    }
}

/// Windows finds it by the name 1 alone, `VS_VERSION_INFO`.
#[test]
fn version_information_by_another_name_is_warned_of() {
    let folder = Folder::new("version-name");
    let content = version_of(&[("040704B0", &[("Own", "x")])]);
    let said_of = |leaves: &[(u32, u32, &[u8])]| {
        let file = folder.file("a.exe", &with_leaves(leaves));
        let out = folder.0.join("b.exe").to_str().unwrap().to_string();
        let (_, said, status) = run(&["set-version", "--replace", &file, &out, "--file-version", "4"]);
        assert_eq!(status, 0, "{said}");
        let leaves = parsed(&["show", &out, "resources", "--json"])["resources"].clone();
        let of_name = |name: u32| leaves.as_array().unwrap().iter().find(|it| it["name"]["id"] == name).cloned();
        let numbers = [1, 7].map(|it| of_name(it).map(|it| it["version"]["fixed"]["file_version"].clone()));
        (
            said,
            run(&[&file]).0,
            run(&[&out]).0,
            numbers,
            parsed(&["show", &out, "version", "--json"])["version"]["strings"].clone(),
        )
    };
    let warning = "version information by the name 7: Windows finds that of the name 1 alone";
    let (said, before, after, numbers, strings) = said_of(&[(16, 7, &content)]);
    assert!(said.contains("version information by the name 7 stays"), "{said}");
    assert_eq!((before.contains(warning), after.contains(warning)), (true, false));
    // The new one starts from what is there.
    assert_eq!(
        (&numbers[0], &numbers[1], &strings["Own"]),
        (&Some(json!("4.0.0.0")), &Some(json!("0.0.0.0")), &json!("x"))
    );
    let (said, before, _, numbers, _) = said_of(&[(16, 1, &content), (16, 7, &content)]);
    assert_eq!((said.as_str(), before.contains("by the name")), ("", false));
    assert_eq!(numbers, [Some(json!("4.0.0.0")), Some(json!("0.0.0.0"))]);
}

#[test]
fn signatures_and_strong_names_are_not_broken_unasked() {
    let folder = Folder::new("version-strong");
    let (out, words) = (folder.0.join("b.exe").to_str().unwrap().to_string(), ["--file-version", "1"]);
    let signed = folder.file("signed.exe", &made::with_certificates());
    let (_, complaints, status) = run(&[&["set-version", &signed, &out][..], &words].concat());
    assert_eq!((complaints.contains("pe detach"), status), (true, 1), "{complaints}");
    let mut bytes = made::with_clr();
    let said: Value = serde_json::from_str(&run(&["--json", &folder.file("clr.exe", &bytes)]).0).unwrap();
    let flags = said["clr"]["flags"]["number"].as_u64().unwrap() as u32;
    let token = said["clr"]["entry_point_token"].as_u64().unwrap() as u32;
    let old = [flags, token].map(u32::to_le_bytes).concat();
    let at = bytes.windows(8).position(|it| it == old).unwrap();
    // COMIMAGE_FLAGS_STRONGNAMESIGNED
    put(&mut bytes, at, &(flags | 8).to_le_bytes());
    let strong = folder.file("strong.exe", &bytes);
    let complaints_of = |more: &[&str]| run(&[&["set-version", &strong, &out][..], &words, more].concat()).1;
    assert!(complaints_of(&[]).contains("strong name"));
    assert!(!complaints_of(&["--break-strong-name"]).contains("strong name"));
}

/// A tree of resources: each a type, a name, and content, in the language 0x407. They have a section of their own, with room for more.
fn with_leaves(leaves: &[(u32, u32, &[u8])]) -> Vec<u8> {
    let mut made = made::Made::new(made::X64);
    let (root, count) = (made.next(), leaves.len() as u32);
    // The root, then for each leaf a directory of its name, one of its language, and its data entry; then all contents.
    let first = 16 + 8 * count;
    let mut content = root + first + 64 * count;
    let mut words = vec![0, 0, 0, count << 16];
    words.extend((0..count).flat_map(|it| [leaves[it as usize].0, 1 << 31 | (first + 64 * it)]));
    for (index, (_, name, bytes)) in (0u32..).zip(leaves) {
        let at = first + 64 * index;
        words.extend([0, 0, 0, 1 << 16, *name, 1 << 31 | (at + 24)]);
        words.extend([0, 0, 0, 1 << 16, 0x407, at + 48]);
        words.extend([content, bytes.len() as u32, 0, 0]);
        content += (bytes.len() as u32).next_multiple_of(4);
    }
    made.put_words(&words);
    for (_, _, bytes) in leaves {
        made.put(bytes);
    }
    made.content.resize(made.content.len().next_multiple_of(0x1000), 0);
    made.directory(made::RESOURCES, root, content - root);
    made.size_of_image = made.content.len() as u32 + 0x1000;
    let mut bytes = made.image();
    // No entry point.
    put(&mut bytes, 0x68, &[0; 4]);
    bytes
}

#[test]
fn resources_icons_and_cursors_are_extracted() {
    let folder = Folder::new("extract-more");
    // A group of one image of 32 by 16 pixels, two colours, one plane, one bit a pixel, five bytes, the icon with number 7.
    let group = [0, 0, 1, 0, 1, 0, 32, 16, 2, 0, 1, 0, 1, 0, 5, 0, 0, 0, 7, 0];
    // A cursor of 8 by 4 pixels, whose height in the group is that of both masks, and its hot spot at 3 and 2.
    let cursors = [0, 0, 2, 0, 1, 0, 8, 0, 8, 0, 1, 0, 1, 0, 6, 0, 0, 0, 9, 0];
    let leaves: [(u32, u32, &[u8]); 5] =
        [(1, 9, &[3, 0, 2, 0, 10, 11]), (3, 7, b"icon."), (10, 5, b"raw"), (12, 1, &cursors), (14, 1, &group)];
    let file = folder.file("a.exe", &with_leaves(&leaves));
    let said: Value = serde_json::from_str(&run(&["--json", &file]).0).unwrap();
    assert_eq!(said["resources"].as_array().unwrap().len(), 5, "{said}");
    assert_eq!(said["resources"][0]["language"], json!({"id": 0x407, "name": "German"}));
    assert_eq!(said["resources"][2]["sha256_hex"], sum_of("sha256sum", b"raw"));
    let extracted = |words: &[&str]| {
        let to = folder.0.join("extracted");
        let _ = fs::remove_file(&to);
        let ran = run(&[&["extract", &file], words, &[to.to_str().unwrap()]].concat());
        (fs::read(&to).unwrap_or_default(), ran.2)
    };
    let icon = [&[0, 0, 1, 0, 1, 0, 32, 16, 2, 0, 1, 0, 1, 0, 5, 0, 0, 0, 22, 0, 0, 0], b"icon.".as_slice()].concat();
    assert_eq!(extracted(&["icon"]), (icon.clone(), 0));
    assert_eq!(extracted(&["icon", "--name", "1", "--language", "0x407"]), (icon, 0));
    let cursor = [0, 0, 2, 0, 1, 0, 8, 4, 0, 0, 3, 0, 2, 0, 2, 0, 0, 0, 22, 0, 0, 0, 10, 11];
    assert_eq!(extracted(&["cursor"]), (cursor.to_vec(), 0));
    assert_eq!(extracted(&["resource", "--type", "10"]), (b"raw".to_vec(), 0));
    assert_eq!(extracted(&["resource", "--type", "Raw data", "--language", "german"]), (b"raw".to_vec(), 0));
    assert_eq!(extracted(&["resource", "--type", "raw data", "--language", "French"]), (Vec::new(), 1));
    assert_eq!(extracted(&["resource", "--type", "10", "--name", "6"]), (Vec::new(), 1));
    assert_eq!(extracted(&["icon", "--language", "1033"]), (Vec::new(), 1));
    assert_eq!(extracted(&["manifest"]), (Vec::new(), 1));
}

#[test]
fn all_resources_are_extracted_into_a_folder() {
    let folder = Folder::new("extract-all");
    let leaves: [(u32, u32, &[u8]); 3] = [(10, 5, b"raw"), (10, 6, b"more"), (999, 1, b"own")];
    let file = folder.file("a.exe", &with_leaves(&leaves));
    let to = folder.0.join("out");
    let words = ["extract", &file, "resources", to.to_str().unwrap()];
    assert_eq!(run(&words), (String::new(), String::new(), 0));
    let wanted = [("raw_data-5-1031", "raw"), ("raw_data-6-1031", "more"), ("999-1-1031", "own")];
    for (name, content) in wanted {
        assert_eq!(fs::read_to_string(to.join(name)).unwrap(), content);
    }
    assert_eq!(fs::read_dir(&to).unwrap().count(), 3);
    assert_eq!(run(&words).2, 3);
    assert_eq!(run(&[&words[..], &["--replace", "--type", "999"]].concat()).2, 0);
    let none = folder.0.join("none");
    let words = ["extract", &file, "resources", none.to_str().unwrap(), "--type", "1"];
    assert_eq!((run(&words).2, none.exists()), (1, false));
    // One whose content is not in the file is named, and the others are written.
    let mut bytes = with_leaves(&leaves);
    let size_of_more = bytes.windows(12).rposition(|it| it == [4, 0, 0, 0, 0, 0, 0, 0, 0, 0, 0, 0]).unwrap();
    put(&mut bytes, size_of_more - 4, &0x99_0000u32.to_le_bytes());
    let (damaged, partly) = (folder.file("b.exe", &bytes), folder.0.join("partly"));
    let (_, complaints, status) = run(&["extract", &damaged, "resources", partly.to_str().unwrap()]);
    assert_eq!((complaints.contains("raw_data-6-1031: "), status), (true, 1), "{complaints}");
    assert_eq!(fs::read_dir(&partly).unwrap().count(), 2);
    assert!(run(&[&damaged]).0.contains("; 1 whose content is not in the file\n"), "{}", run(&[&damaged]).0);
    // Leaves that share their content have more bytes than a file may ask for.
    let content = vec![7; 4096];
    let many: Vec<(u32, u32, &[u8])> = (1..=100).map(|it| (10, it, b"x".as_slice())).collect();
    let mut shared = with_leaves(&[many, vec![(10, 500, &content)]].concat());
    let entry = [0x1000u32, 1].map(u32::to_le_bytes).concat();
    let at: Vec<usize> = (0x400..shared.len() - 8)
        .filter(|at| shared[*at..].starts_with(&entry[4..]) && shared[*at - 2..*at] == [0, 0])
        .collect();
    at.iter().for_each(|at| shared[*at..at + 4].copy_from_slice(&4096u32.to_le_bytes()));
    let (file, to) = (folder.file("c.exe", &shared), folder.0.join("shared"));
    let (_, complaints, status) = run(&["extract", &file, "resources", to.to_str().unwrap()]);
    assert_eq!((status, to.exists()), (1, false), "{complaints}");
}

#[test]
fn sections_and_overlays_are_extracted() {
    let folder = Folder::new("extract-bytes");
    let bytes = [made::with_certificates(), b"PK\x03\x04".to_vec()].concat();
    let file = folder.file("a.exe", &bytes);
    let extracted = |words: &[&str]| {
        let to = folder.0.join("extracted");
        let _ = fs::remove_file(&to);
        let ran = run(&[&["extract", &file], words, &[to.to_str().unwrap()]].concat());
        (fs::read(&to).unwrap_or_default(), ran.2)
    };
    assert_eq!(extracted(&["overlay"]), (b"PK\x03\x04".to_vec(), 0));
    let section = bytes[0x400..0x600].to_vec();
    assert_eq!(extracted(&["section", "--name", ".rdata"]), (section.clone(), 0));
    assert_eq!(extracted(&["section", "--number", "1"]), (section, 0));
    assert_eq!(extracted(&["section", "--name", ".none"]), (Vec::new(), 1));
    assert_eq!(extracted(&["section", "--number", "2"]), (Vec::new(), 1));
    // What the file lacks of a section is said, and the rest is written.
    let cut = folder.file("b.exe", &bytes[..0x500]);
    let (out, error, status) = run(&["extract", &cut, "section", "-"]);
    let why = format!("pe: {cut}: 256 bytes left out: the file ends before the section does\n");
    assert_eq!((out.as_bytes(), error, status), (&bytes[0x400..0x500], why, 1));
}

/// Before certificates and after them: an overlay is what signatures cover, and what they do not.
#[test]
fn bytes_after_the_certificates_are_said_beside_an_overlay() {
    let folder = Folder::new("overlay-after");
    let mut bytes = made::with_certificates();
    let row = bytes.windows(8).position(|it| it == [0x600u32, 24].map(u32::to_le_bytes).concat()).unwrap();
    bytes.splice(0x600..0x600, *b"PK\x03\x04.content");
    put(&mut bytes, row, &0x610u32.to_le_bytes());
    bytes.splice(0x60C..0x60C, [0; 4]);
    let file = |bytes: &[u8]| folder.file("a.exe", bytes);
    let own = "16 bytes at file offset 0x600, a ZIP archive";
    assert!(run(&[&file(&bytes)]).0.contains(&format!("\n  overlay       {own}\n")));
    bytes.extend_from_slice(b"more than eight");
    let file = file(&bytes);
    let after = "15 bytes after the certificates";
    assert!(run(&[&file]).0.contains(&format!("\n  overlay       {own}; {after}\n")), "{}", run(&[&file]).0);
    assert!(run(&["show", &file, "headers"]).0.contains(&format!("; a ZIP archive, 16 bytes; {after}\n")));
    assert!(run(&["report", &file, "-"]).0.contains(&format!("<dd>{own}; {after}</dd>")));
    let (out, error, status) = run(&["extract", &file, "overlay", "-"]);
    assert_eq!((out.as_bytes(), error, status), (&bytes[0x600..0x610], format!("pe: {file}: {after} left out\n"), 1));
}

#[test]
fn a_group_without_its_images_is_no_icon() {
    let folder = Folder::new("extract-lost");
    let group = [0, 0, 1, 0, 1, 0, 32, 16, 2, 0, 1, 0, 1, 0, 5, 0, 0, 0, 7, 0];
    let file = folder.file("a.exe", &with_leaves(&[(3, 8, b"icon."), (14, 1, &group)]));
    let (out, error, status) = run(&["extract", &file, "icon", "-"]);
    assert_eq!(
        (out.as_str(), error.as_str(), status),
        (
            "",
            format!(
                "pe: {file}: the image has no such part: icon: 1 image of the group left out: after its end, no resource of the image, \
                 or too many bytes\n"
            )
            .as_str(),
            1
        )
    );
}

#[test]
fn names_are_found_by_who_imports_or_exports_them() {
    let folder = Folder::new("find");
    let imports = folder.file("a.exe", &made::with_imports());
    let exports = folder.file("b.dll", &made::with_exports());
    folder.file("c.txt", b"Sleep");
    assert_eq!(
        run(&["find", "sLEEp", &imports, &exports]),
        (format!("{imports}: imports KERNEL32.dll Sleep\n"), String::new(), 0)
    );
    assert_eq!(run(&["find", "second", &imports, &exports]).0, format!("{exports}: exports second\n"));
    let (out, error, _) = run(&["find", "kernel32", "-r", folder.0.to_str().unwrap()]);
    assert_eq!(out, format!("{imports}: imports KERNEL32.dll Sleep\n{imports}: imports KERNEL32.dll #17\n"));
    assert_eq!(error, "pe: 1 file is no image, and skipped\n");
    let (out, _, _) = run(&["find", "--json", "first", &exports]);
    let found: Value = serde_json::from_str(&out).unwrap();
    assert_eq!(found["matches"], json!([{"part": "exports", "dll": null, "name": "first", "ordinal": 6}]));
    assert_eq!(run(&["find", "nobody", &imports]), (String::new(), String::new(), 1));
    // Of a DLL whose list is refused at its first entry no function is known.
    let refused = folder.file("d.exe", &limited::refused_imports(1, 4));
    let why = format!("pe: {refused}: imports: import name not NUL-terminated or not UTF-8 (IMPORT_NAME)\n");
    assert_eq!(run(&["find", "A.DLL", &refused]), (format!("{refused}: imports a.dll\n"), why.clone(), 1));
    let (out, error, status) = run(&["find", "--json", "a.dll", &refused]);
    let found: Value = serde_json::from_str(&out).unwrap();
    assert_eq!(found["matches"], json!([{"part": "imports", "dll": "a.dll", "name": null, "ordinal": null}]));
    assert_eq!((error, status), (why, 1));
}

/// A name that is no text stands nowhere: that there is one is said, and that a word was looked for without it.
#[test]
fn names_of_exports_that_are_left_out_are_said() {
    let folder = Folder::new("names-left-out");
    let mut bytes = made::with_exports();
    let said = |bytes: &[u8]| run(&["find", "nobody", &folder.file("a.dll", bytes)]);
    assert_eq!(said(&bytes), (String::new(), String::new(), 1));
    let at = bytes.windows(7).position(|it| it == b"second\0").unwrap();
    bytes[at + 5] = 0xFF;
    let why = "1 name left out: unmapped, not UTF-8, or of no ordinal that is used";
    let (_, complaints, status) = said(&bytes);
    let file = folder.0.join("a.dll").to_str().unwrap().to_string();
    assert_eq!((complaints, status), (format!("pe: {file}: exports: {why}\n"), 1));
    assert!(run(&[&file]).0.contains(&format!("; {why}\n")));
    assert!(run(&["show", &file, "exports"]).0.ends_with(&format!("\n  {why}\n")));
    assert!(run(&["show", "--json", &file, "exports"]).0.contains("\"names_left_out\":1"));
    assert!(run(&["report", &file, "-"]).0.contains(&format!("<dt>names</dt><dd>{why}</dd>")));
}

/// A list that is not whole is said beside what is for programs: a name that is not found may be in the rest.
#[test]
fn what_is_not_whole_is_said_where_names_are_looked_for_and_beside_tables() {
    let folder = Folder::new("not-whole");
    for (part, name, bytes) in limited::all() {
        let file = folder.file(part, &bytes);
        let said = format!("pe: {file}: {name}: not whole: the image has more\n");
        assert_eq!(run(&["show", "--csv", &file, &part.replace('_', "-")]).1, said);
        if ["imports", "delay_imports", "exports"].contains(&part) {
            assert_eq!(run(&["find", "nobody", &file]), (String::new(), said.clone(), 1));
            assert_eq!(run(&["find", "--json", "nobody", &file]).1, said);
        }
        let other = folder.file("other", &[&bytes[..], b"x"].concat());
        assert!(run(&["diff", &file, &other]).1.starts_with(&said), "{part}");
    }
}

#[test]
fn differences_are_what_came_went_and_changed() {
    let folder = Folder::new("diff");
    let mut bytes = made::with_exports();
    let one = folder.file("a.dll", &bytes);
    let same = folder.file("b.dll", &bytes);
    assert_eq!(run(&["diff", &one, &same]), (String::new(), String::new(), 0));
    let at = bytes.windows(7).position(|it| it == b"second\0").unwrap();
    bytes[at..at + 6].copy_from_slice(b"newest");
    bytes[0x68..0x6A].copy_from_slice(&[1, 0]);
    let other = folder.file("c.dll", &bytes);
    let (out, _, status) = run(&["diff", &one, &other]);
    assert_eq!(status, 1);
    assert!(out.contains("headers\n  ~ entry point: 0x1234 -> 0x1\n"), "{out}");
    assert!(out.contains("sections\n  ~ .rdata: ---, "), "{out}");
    let bytes = "bytes\n  ~ PE headers: 2 of 264 bytes differ\n  ~ section .rdata: 5 of 512 bytes differ\n";
    assert!(out.ends_with(&format!("exports\n  - second\n  + newest\n{bytes}")), "{out}");
    let (out, _, status) = run(&["diff", "--json", &one, &other]);
    let found: Value = serde_json::from_str(&out).unwrap();
    let last = json!({"part": "exports", "change": "added", "name": "newest", "before": null, "after": ""});
    assert_eq!((found["differences"].as_array().unwrap().last().unwrap(), status), (&last, 1));
    let headers = json!({"name": "PE headers", "before": 264, "after": 264, "different": 2});
    assert_eq!(found["regions"][0], headers);
    assert_eq!(run(&["diff", "--no-hashes", &one, &other]).2, 2);
    // Of what is no image the bytes are compared.
    let text = folder.file("text", b"no image");
    assert_eq!(run(&["diff", &text, &text]), (String::new(), String::new(), 0));
    let (_, error, status) = run(&["diff", &one, &folder.file("d.dll", b"MZ")]);
    assert_eq!((error.contains("d.dll: image: truncated: 64 bytes needed at offset 0x0 (SHORT)"), status), (true, 1));
    let (out, error, status) = run(&["diff", "--json", &folder.file("d.dll", b"MZ"), &one]);
    assert_eq!((error.contains("d.dll: image: truncated: 64 bytes needed at offset 0x0 (SHORT)"), status), (true, 1));
    let found: Value = serde_json::from_str(&out).unwrap();
    let length = made::with_exports().len();
    let region = json!([{"name": "file", "before": 2, "after": length, "different": length - 2}]);
    assert_eq!((&found["differences"], &found["regions"]), (&json!([]), &region));
    assert_eq!((&found["before_error"]["name"], &found["after_error"]), (&json!("SHORT"), &json!(null)));
    assert_eq!(run(&["diff", &one, folder.0.join("none").to_str().unwrap()]).2, 3);
}

/// A long name that an export leads to does not stand in the row of each of its names: in memory it would have 2 GB.
#[test]
fn many_names_of_a_forwarder_are_compared() {
    let folder = Folder::new("diff-forwarder");
    let (short, long) = (limited::names_of_one_forwarder(10_000, 20), limited::names_of_one_forwarder(10_000, 200_000));
    let (one, other) = (folder.file("a.dll", &short), folder.file("b.dll", &long));
    let found = parsed(&["diff", "--json", &one, &other]);
    let rows = found["differences"].as_array().unwrap().iter().filter(|it| it["part"] == "exports");
    let texts: Vec<&str> = rows.map(|it| it["after"].as_str().unwrap()).collect();
    assert_eq!(texts.len(), 10_000);
    // sha256sum says the start of it.
    assert!(texts.iter().all(|it| *it == "to a name of 200000 bytes, SHA-256 4ad5b5be02ab83e6"), "{}", texts[0].len());
    let is_export = |it: &&Value| it["part"] == "exports";
    let first = found["differences"].as_array().unwrap().iter().find(is_export).unwrap();
    assert_eq!(first["before"], format!("to a.{}", "b".repeat(18)));
}

/// What is shown of functions of images that differ in functions alone: entries of start and length, and their bytes, from 0x1000 on.
fn functions_that_differ(before: &[(u32, &[u8])], after: &[(u32, &[u8])]) -> Vec<(String, String)> {
    let folder = Folder::new("diff-functions");
    let files = [("a.exe", before), ("b.exe", after)].map(|(name, functions)| {
        let mut made = made::Made::new(made::X64);
        let mut code = vec![0xCC; 0x80];
        functions.iter().for_each(|it| put(&mut code, it.0 as usize, it.1));
        let start = made.put(&code);
        let words: Vec<u32> =
            functions.iter().flat_map(|it| [start + it.0, start + it.0 + it.1.len() as u32, 0]).collect();
        let table = made.put_words(&words);
        made.directory(3, table, 4 * words.len() as u32);
        folder.file(name, &made.image())
    });
    let found = parsed(&["diff", "--json", &files[0], &files[1]]);
    let rows = found["differences"].as_array().unwrap().iter().filter(|it| it["part"] == "functions");
    rows.map(|it| (it["change"].as_str().unwrap().to_string(), it["name"].as_str().unwrap().to_string())).collect()
}

/// A function without a name is known by its RVA, and is not shown where the other image has its bytes anywhere.
#[test]
fn functions_that_were_moved_are_no_difference() {
    let rows = |rows: &[(&str, u32)]| -> Vec<_> {
        let start = made::Made::new(made::X64).put(&[]);
        rows.iter().map(|it| (it.0.to_string(), format!("{:#x}", start + it.1))).collect()
    };
    let before: &[(u32, &[u8])] = &[(0, &[1; 4]), (0x10, &[2; 4]), (0x20, &[3; 8]), (0x30, &[4; 4])];
    let moved: &[(u32, &[u8])] = &[(8, &[1; 4]), (0x10, &[4; 4]), (0x20, &[3; 8]), (0x40, &[2; 4])];
    assert_eq!(functions_that_differ(before, moved), rows(&[]));
    let changed: &[(u32, &[u8])] = &[(0, &[1; 4]), (0x10, &[5; 4]), (0x20, &[3; 8]), (0x40, &[6; 4])];
    assert_eq!(functions_that_differ(before, changed), rows(&[("changed", 0x10), ("removed", 0x30), ("added", 0x40)]));
    // Of two that are equal one went.
    let twice: &[(u32, &[u8])] = &[(0, &[1; 4]), (0x10, &[1; 4])];
    assert_eq!(functions_that_differ(twice, &[(0, &[1; 4])]).len(), 1);
    assert_eq!(functions_that_differ(&[], &[(4, &[9; 4])]), rows(&[("added", 4)]));
}

#[test]
fn signers_and_pdb_keys_are_compared() {
    let folder = Folder::new("diff-signers");
    let compared = |before: &[u8], after: &[u8], part: &str| {
        let (one, other) = (folder.file("a.exe", before), folder.file("b.exe", after));
        let found = parsed(&["diff", "--json", &one, &other]);
        let rows: Vec<Value> =
            found["differences"].as_array().unwrap().iter().filter(|it| it["part"] == part).cloned().collect();
        rows
    };
    let signed = made::with_signature();
    let rows = compared(&signed, &made::with_certificates(), "signers");
    assert_eq!((rows.len(), &rows[0]["change"]), (2, &json!("removed")));
    // A signature that is refused is a row too: it is there, and nobody says by whom it is.
    let refused = "element of a signature truncated before its content (SIGNATURE_TRUNCATED)";
    let found = [&rows[1]["change"], &rows[1]["name"], &rows[1]["after"]];
    assert_eq!(found, [&json!("added"), &json!("a signature that is refused"), &json!(refused)]);
    let mut other = made::with_debug();
    let at = other.windows(4).position(|it| it == b"RSDS").unwrap();
    other[at + 20] += 1;
    let names: Vec<_> = compared(&made::with_debug(), &other, "debug").iter().map(|it| it["name"].clone()).collect();
    assert_eq!(names, [json!("GUID"), json!("symbol key")]);
}

/// An image with all that a file may have beside headers and sections: a stub, a Rich header, slack, padding, an overlay, certificates
/// and bytes after these. Where each is, by the name of its region.
fn with_every_region() -> (Vec<u8>, Vec<(&'static str, usize, usize)>) {
    let small = made::with_exports();
    let signature = u32::from_le_bytes(small[60..64].try_into().unwrap()) as usize;
    let (rich, moved, raw) = (0x80, 0x100, 0x800);
    let mut bytes = vec![0; raw];
    bytes[..64].copy_from_slice(&small[..64]);
    put(&mut bytes, 60, &(moved as u32).to_le_bytes());
    let key = 0x1234_5678u32;
    put(&mut bytes, rich, &(u32::from_le_bytes(*b"DanS") ^ key).to_le_bytes());
    (1..4).for_each(|it| put(&mut bytes, rich + 4 * it, &key.to_le_bytes()));
    put(&mut bytes, rich + 24, b"Rich");
    put(&mut bytes, rich + 28, &key.to_le_bytes());
    put(&mut bytes, moved, &small[signature..0x400]);
    let sections = moved + 24 + 240;
    put(&mut bytes, sections + 20, &(raw as u32).to_le_bytes());
    put(&mut bytes, moved + 24 + 60, &0x400u32.to_le_bytes());
    bytes.extend(&small[0x400..0x600]);
    let (overlay, certificates) = (bytes.len(), bytes.len() + 64);
    bytes.extend([7; 64]);
    bytes.extend([24, 0, 0, 0, 0, 2, 2, 0]);
    bytes.extend([0x30; 16 + 8]);
    put(&mut bytes, moved + 24 + 112 + 32, &[certificates as u32, 24].map(u32::to_le_bytes).concat());
    let regions = vec![
        ("DOS header", 2, 58),
        ("DOS stub", 64, rich - 64),
        ("Rich header", rich + 4, 20),
        ("after the Rich header", rich + 32, moved - rich - 32),
        ("PE headers", moved + 8, 4),
        ("PE headers", moved + 24 + 64, 4),
        ("section headers", sections + 24, 12),
        ("header slack", sections + 40, 0x400 - sections - 40),
        ("padding", 0x400, raw - 0x400),
        ("section .rdata", raw, 0x200),
        ("overlay", overlay, 64),
        ("certificates", certificates + 8, 16),
        ("overlay (2)", certificates + 24, 8),
    ];
    (bytes, regions)
}

/// A pair of files for the first, the middle and the last byte of each region.
#[test]
fn each_byte_that_differs_is_seen() {
    let folder = Folder::new("diff-bytes");
    let (bytes, regions) = with_every_region();
    let one = folder.file("a.dll", &bytes);
    assert_eq!(run(&[&one]).2, 0);
    for (name, start, length) in regions {
        for at in [start, start + length / 2, start + length - 1] {
            let mut other = bytes.clone();
            other[at] ^= 0x10;
            let other = folder.file("b.dll", &other);
            let (out, complaints, status) = run(&["diff", &one, &other]);
            assert_eq!(status, 1, "{name} at {at:#x}");
            // Of headers that are refused then no region is named.
            let is_named = out.lines().any(|it| it.starts_with(&format!("  ~ {name}: 1 of ")));
            assert!(is_named || !complaints.is_empty(), "{name} at {at:#x}: {out}{complaints}");
        }
    }
    let longer = folder.file("c.dll", &[&bytes[..], &[1, 2, 3]].concat());
    let out = run(&["diff", &one, &longer]).0;
    assert!(out.ends_with("bytes\n  ~ overlay (2): 8 bytes -> 11 bytes, 3 differ\n"), "{out}");
}

#[test]
fn arm64_functions_are_unwound() {
    let folder = Folder::new("unwind-arm64");
    let file = folder.file("a.exe", &made::with_arm64_functions());
    let (out, _, status) = run(&["unwind", &file, "5000"]);
    assert_eq!(status, 0);
    assert!(out.starts_with("function 0x5000 to 0x5010\n  packed unwind data 0x"), "{out}");
    assert!(out.contains(": 96 bytes of stack, RegI "), "{out}");
    let (out, _, status) = run(&["unwind", &file, "5010"]);
    assert_eq!(status, 0);
    assert!(
        out.contains(
            "  prolog, from its end to its start\n    save_fplr_x   move sp down by 16, save x29 and lr there\n"
        ),
        "{out}"
    );
    let (out, _, _) = run(&["unwind", "--json", "--all", &file]);
    let all: Value = serde_json::from_str(&out).unwrap();
    assert_eq!((&all["machine"], all["functions"].as_array().unwrap().len()), (&json!("ARM64"), 2));
}

#[test]
fn all_functions_are_unwound() {
    let folder = Folder::new("unwind-all");
    let file = folder.file("a.exe", made::SMALL);
    let (out, _, status) = run(&["unwind", &file, "--all"]);
    assert_eq!((out.matches("function 0x").count(), status), (2, 0), "{out}");
    assert_eq!(run(&["unwind", &file]).2, 2);
    assert_eq!(run(&["unwind", &file, "1000", "--all"]).2, 2);
}

/// A row of each image has as many cells as there are heads, raw: a name with a comma, a quote and a control character stands as it is.
#[test]
fn a_list_has_a_row_of_each_image() {
    let folder = Folder::new("list");
    let named = folder.file("a,\"b\x1b.dll", &made::with_resources());
    folder.file("b.exe", &made::with_imports());
    let text = folder.file("c.txt", b"no image");
    folder.file("d.exe", &made::SMALL[..0x100]);
    let (out, complaints, status) = run(&["list", "--csv", "-r", folder.0.to_str().unwrap()]);
    let skipped = "pe: 2 files are no images, and skipped; by their start 1 DOS or truncated MZ file\n";
    assert_eq!((complaints.as_str(), status), (skipped, 0));
    let mut rows = csv::Reader::from_reader(out.as_bytes());
    let heads = rows.headers().unwrap().clone();
    let rows: Vec<csv::StringRecord> = rows.records().map(Result::unwrap).collect();
    let cell = |row: usize, head: &str| rows[row][heads.iter().position(|it| it == head).unwrap()].to_string();
    assert_eq!((rows.len(), cell(0, "file"), cell(1, "imports")), (2, named.clone(), "3".to_string()));
    let numbers = ["machine", "machine_name", "is_dll", "file_version", "company_name"].map(|it| cell(0, it));
    assert_eq!(numbers, ["34404", "x64", "false", "3.11.3150.1013", "Größe & Söhne \u{1F600}"]);
    assert_eq!(
        [cell(0, "md5_hex"), cell(0, "sha1_hex")],
        ["md5sum", "sha1sum"].map(|it| sum_of(it, &made::with_resources()))
    );
    assert_eq!([cell(0, "signer"), cell(0, "pdb_key"), cell(1, "file_version")], ["", "", ""]);
    let refused = run(&["list", &folder.file("e.exe", made::SMALL)]).0;
    assert!(refused.lines().next().unwrap().contains(",time_stamp,signer_error,"), "{refused}");
    assert!(refused.contains(" (SIGNATURE_TRUNCATED),"), "{refused}");
    assert_eq!(run(&["list", "--no-hashes", &named]).0.lines().count(), 2);
    assert!(run(&["list", &text]).0.contains(" (SHORT); it is a text,,"));
}

#[test]
fn a_list_says_which_counts_are_too_small() {
    let folder = Folder::new("list-limited");
    let limited_of = |bytes: &[u8]| {
        let (out, _, _) = run(&["list", "--no-hashes", &folder.file("a.dll", bytes)]);
        let mut rows = csv::Reader::from_reader(out.as_bytes());
        let at = rows.headers().unwrap().iter().position(|it| it == "limited").unwrap();
        rows.records().next().unwrap().unwrap()[at].to_string()
    };
    assert_eq!(limited_of(&made::with_names_in_one_text()), "imports");
    assert_eq!(limited_of(&made::with_late_names_in_one_text()), "delay imports");
    assert_eq!(limited_of(&made::with_exports()), "");
}

/// An image with so many resources of one type, in as many languages of two names.
fn with_many_resources(count: u32) -> Vec<u8> {
    let mut made = made::Made::new(made::X64);
    let content = made.put(b"text");
    let halves = [count / 2, count - count / 2];
    let below = |offset: u32| 1 << 31 | offset;
    let directory = |entries: u32| [0, 0, 0, entries << 16];
    let (first, second) = (56, 56 + 16 + 8 * halves[0]);
    let data = second + 16 + 8 * halves[1];
    let mut tree = [&directory(1)[..], &[10, below(24)], &directory(2), &[1, below(first), 2, below(second)]].concat();
    for half in halves {
        tree.extend(directory(half));
        tree.extend((0..half).flat_map(|language| [language, data]));
    }
    tree.extend([content, 4, 0, 0]);
    let root = made.put_words(&tree);
    made.directory(made::RESOURCES, root, 4 * tree.len() as u32);
    made.image()
}

#[test]
fn resources_that_are_not_looked_at_are_said() {
    let folder = Folder::new("many-resources");
    for (count, more, status) in [(65_536, "", 0), (65_537, "it has more than 65536 resources", 1)] {
        let (image, out) = (folder.file("a.dll", &with_many_resources(count)), folder.0.join(count.to_string()));
        let words = ["extract", &image, "resources", out.to_str().unwrap(), "--language", "1033"];
        let (said, complaints, code) = run(&words);
        assert_eq!((said.as_str(), code, complaints.is_empty()), ("", status, more.is_empty()), "{complaints}");
        assert!(complaints.contains(more), "{complaints}");
        assert_eq!(fs::read_dir(&out).unwrap().count(), 2);
        let (_, complaints, code) = run(&["extract", &image, "icon", "-"]);
        assert_eq!((complaints.contains(" among the first 65536 resources"), code), (!more.is_empty(), 1));
    }
    let image = folder.file("a.dll", &made::with_resources());
    assert_eq!(run(&["extract", &image, "resources", "-"]).2, 2);
}

#[test]
fn a_table_is_csv() {
    let folder = Folder::new("csv");
    let file = folder.file("a.exe", &made::with_imports());
    let (out, _, status) = run(&["show", "--csv", &file, "Imports"]);
    let wanted =
        "DLL,name or ordinal,hint,slot RVA\nKERNEL32.dll,Sleep,42,0x8000\nKERNEL32.dll,#17,,0x8008\na.dll,f,0,0x103c\n";
    assert_eq!((out.as_str(), status), (wanted, 0));
    // Cells have texts as they are: in a file no terminal is moved by them.
    let name = made::with_imports().iter().map(|it| if *it == b'S' { 0x1B } else { *it }).collect::<Vec<u8>>();
    let named = run(&["show", "--csv", &folder.file("b.exe", &name), "imports"]).0;
    assert!(named.contains(",\x1bleep,42,"), "{named}");
    assert_eq!(run(&["show", "--csv", &file, "tls"]).0, "");
    assert_eq!(run(&["show", "--csv", &file]).2, 2);
    assert_eq!(run(&["show", "--csv", "--json", &file, "imports"]).2, 2);
}

#[test]
fn other_tables_of_a_part_are_csv() {
    let folder = Folder::new("other-csv");
    let files = [("a", made::with_guards()), ("b", made::with_assembly()), ("c", made::with_rich_header())];
    let [guards, assembly, rich] = files.map(|(name, bytes)| folder.file(name, &bytes));
    let table = |file: &str, part: &str, name: &str| {
        let (out, error, status) = run(&["show", "--csv", "--table", name, file, part]);
        assert!(status < 2, "{part} {name}: {error}");
        out
    };
    assert_eq!(
        table(&guards, "load-config", "guarded"),
        "RVA,flags\n0x2010,0x1: FID_SUPPRESSED\n0x2030,0x8: FID_XFG\n"
    );
    assert_eq!(table(&guards, "load-config", "guarded-imports"), "RVA,flags\n0x2040,\n");
    assert!(table(&guards, "load-config", "handlers").starts_with("RVA\n0x2050\n"));
    assert_eq!(table(&guards, "load-config", "long-jumps"), "");
    assert!(table(&assembly, "clr", "references").starts_with(
        "assembly,version,culture,public key token\nOther,4.0.0.0,,0102030405060708\nOther,5.6.0.0,de,\n"
    ));
    assert!(table(&assembly, "clr", "streams").contains("\n#Strings,"));
    assert!(table(&assembly, "headers", "directories").starts_with("directory,"));
    assert!(table(&assembly, "headers", "dos-header").contains("e_lfanew,file offset of the PE signature,"));
    assert_eq!(table(&rich, "rich", "key"), "name,value\nkey,\"0x25a310c8, the checksum\"\n");
    let several = run(&["show", "--csv", "--table", "guarded", &guards, &guards, "load-config"]).0;
    assert!(several.starts_with("file,RVA,flags\n") && several.matches("FID_XFG").count() == 2, "{several}");
    // A table of another part, and one that is no CSV.
    assert_eq!(run(&["show", "--csv", "--table", "guarded", &guards, "clr"]).2, 2);
    assert_eq!(run(&["show", "--table", "guarded", &guards, "load-config"]).2, 2);
}

/// Version information with a table of strings for each language.
fn version_of(tables: &[(&str, &[(&str, &str)])]) -> Vec<u8> {
    let table = |(key, strings): &(&str, &[(&str, &str)])| {
        let strings: Vec<Vec<u8>> =
            strings.iter().map(|(name, text)| version_block(name, &utf16(text), true, &[])).collect();
        version_block(key, b"", true, &strings)
    };
    let tables: Vec<Vec<u8>> = tables.iter().map(table).collect();
    let fixed = [0xFEEF_04BDu32.to_le_bytes().as_slice(), &[0; 48]].concat();
    version_block("VS_VERSION_INFO", &fixed, false, &[version_block("StringFileInfo", b"", true, &tables)])
}

/// Of all tables of version strings 4,096 are read: text, CSV and page say so where there are more.
#[test]
fn more_tables_of_version_strings_than_are_read_are_said() {
    let folder = Folder::new("version-tables");
    for (count, is_limited) in [(4096, false), (4097, true)] {
        let none: &[(&str, &str)] = &[];
        let file = folder.file("a.exe", &with_leaves(&[(16, 1, &version_of(&vec![("", none); count]))]));
        let said: Value = serde_json::from_str(&run(&["--json", &file]).0).unwrap();
        let version = &said["version"];
        let tables = version["languages"].as_array().unwrap().len();
        assert_eq!(
            (tables, &version["languages_is_limited"], &said["error"]),
            (4096, &json!(is_limited), &json!(null))
        );
        let (shown, _, status) = run(&["show", &file, "version"]);
        assert_eq!((shown.ends_with("\n  and more\n"), status), (is_limited, 0));
        let (_, complaints, status) = run(&["show", "--csv", &file, "version"]);
        let wanted = if is_limited {
            format!("pe: {file}: version strings: not whole: the image has more\n")
        } else {
            String::new()
        };
        assert_eq!((complaints, status), (wanted, 0));
        assert_eq!(run(&["list", "--csv", &file]).0.ends_with(",version strings\n"), is_limited);
        assert_eq!(run(&["report", &file, "-"]).0.contains("<b>version strings</b> not shown whole"), is_limited);
    }
}

#[test]
fn version_strings_are_those_of_every_name_and_language() {
    let content = version_of(&[
        ("040104b0", &[("ProductName", "arabic")]),
        ("040904b0", &[("CompiledScript", "AutoIt"), ("ProductName", "english")]),
    ]);
    let bytes = with_leaves(&[(16, 1, &content)]);
    let version = &json_of("languages", &bytes)["version"];
    assert_eq!(version["language"], json!({"id": 0x409, "name": "English (US)"}));
    assert_eq!(version["strings"], json!({"CompiledScript": "AutoIt", "ProductName": "english"}));
    assert_eq!(version["languages"][0]["language"]["name"], "Arabic (Saudi Arabia)");
    assert_eq!(version["languages"][0]["strings"], json!({"ProductName": "arabic"}));
    assert_eq!(version["languages"][1]["code_page"], 1200);
    let folder = Folder::new("languages-text");
    let file = folder.file("a.exe", &bytes);
    let (out, _, _) = run(&[&file]);
    assert!(
        out.contains("\n  product       english\n") && out.contains("\n  languages     2 of version information\n"),
        "{out}"
    );
    let (out, _, _) = run(&["show", &file, "version"]);
    assert!(out.contains("  English (US)           CompiledScript  AutoIt\n"), "{out}");
    // Without such a language the first is shown, and a key that names none is in that of the resource.
    let version = &json_of("first", &with_leaves(&[(16, 1, &version_of(&[("none", &[("A", "b")])]))]))["version"];
    assert_eq!((&version["language"]["id"], &version["strings"]), (&json!(0x407), &json!({"A": "b"})));
}

#[test]
fn files_that_are_no_images_are_named() {
    let folder = Folder::new("kinds");
    let archive = b"!<arch>\n".as_slice();
    for (kind, bytes) in [
        ("an ELF file", b"\x7fELF\x02\x01".as_slice()),
        ("an empty file", b""),
        ("a minidump, which pe stack shows", b"MDMP\x93\xA7\0\0"),
        ("a PDB, which pe pdb shows", b"Microsoft C/C++ MSF 7.00\r\n\x1ADS\0\0\0"),
        ("a PDB of version 2.0", b"Microsoft C/C++ program database 2.00\r\n\x1AJG\0\0"),
        ("a portable PDB, or other metadata of .NET", b"BSJB\x01\0\x01\0"),
        ("a ZIP archive", b"PK\x03\x04\x14\0"),
        ("a text", b"some words\n"),
        ("an archive of objects", archive),
        ("a TE image", b"VZ\x64\x86"),
        ("a COFF object, as it seems", b"\x64\x86\x02\0\0\0\0\0"),
    ] {
        let file = folder.file("a.bin", bytes);
        let (out, _, status) = run(&[&file]);
        assert!(out.starts_with(&format!("{file}: refused, {kind}\n")), "{out}");
        let (line, _, _) = run(&["--json", &file]);
        let said: Value = serde_json::from_str(&line).unwrap();
        assert_eq!((&said["file_kind"], status), (&json!(kind), 1));
        let (_, error, status) = run(&["digest", &file]);
        assert!(
            error.starts_with(&format!("pe: {file}: ")) && error.ends_with(&format!("; it is {kind}\n")),
            "{error}"
        );
        assert_eq!(status, 1);
    }
}

#[test]
fn words_that_are_wrong_are_said_to_be() {
    let folder = Folder::new("words");
    let file = folder.file("a.exe", made::SMALL);
    let (_, error, status) = run(&["sho", &file]);
    assert!(error.starts_with("pe: sho: ") && error.contains("; is the command `show` meant?"), "{error}");
    assert_eq!(status, 3);
    let (_, error, status) = run(&[&file, "imports"]);
    assert_eq!((error.contains("; `pe show FILE imports` shows that part"), status), (true, 3), "{error}");
    for words in [["extract", "--json", &file, "manifest", "-"].as_slice(), &["report", "--json", &file, "-"]] {
        let (out, error, status) = run(words);
        assert_eq!((out.as_str(), error.contains("--json"), status), ("", true, 2), "{words:?}");
    }
    let (out, _, status) = run(&["show", &file, "HEADERS", "Tls", "delay-IMPORTS"]);
    assert!(out.contains("\n  tls           none\n") && out.ends_with("\n  delay-imports none\n"), "{out}");
    assert_eq!(status, 0);
}

#[test]
fn what_may_never_end_is_not_read() {
    let folder = Folder::new("pipes");
    let pipe = folder.0.join("pipe");
    assert!(Command::new("mkfifo").arg(&pipe).status().unwrap().success());
    let (_, error, status) = run(&[pipe.to_str().unwrap()]);
    assert_eq!((error.ends_with("it is no regular file; - reads standard input\n"), status), (true, 3), "{error}");
    assert_eq!(run(&["/dev/null"]).2, 3);
    // Below a folder these are left out, as links that lead to nothing or in a circle.
    std::os::unix::fs::symlink("ring", folder.0.join("ring")).unwrap();
    std::os::unix::fs::symlink("nowhere", folder.0.join("lost")).unwrap();
    folder.file("a.exe", made::SMALL);
    let (out, error, status) = run(&["-r", "-v", folder.0.to_str().unwrap()]);
    assert_eq!((out.matches("PE32+ program").count(), status), (1, 0), "{error}");
    assert!(error.ends_with("pe: 3 files are no images, and skipped\n"), "{error}");
    for name in ["pipe: skipped, it is no regular file", "ring: skipped, the link", "lost: skipped, the link"] {
        assert!(error.contains(name), "{error}");
    }
    // A link to a folder is none of the folders that are read, and may have images.
    for (number, said) in [(1, "one is a link to a folder, which is"), (2, "2 are links to folders, which are")] {
        std::os::unix::fs::symlink("/", folder.0.join(format!("link{number}"))).unwrap();
        let (_, error, status) = run(&["-r", folder.0.to_str().unwrap()]);
        let counted = format!("pe: {} files are no images, and skipped; {said} not followed\n", 3 + number);
        assert_eq!((error, status), (counted, 0));
    }
    let (_, error, _) = run(&["-r", "-v", folder.0.to_str().unwrap()]);
    assert!(error.contains("link1: skipped, it is a link to a folder, which is not followed\n"), "{error}");
    let mut ran = Command::new(env!("CARGO_BIN_EXE_pe"));
    let mut ran = ran.arg("-").stdin(Stdio::piped()).stdout(Stdio::piped()).spawn().unwrap();
    ran.stdin.take().unwrap().write_all(made::SMALL).unwrap();
    let said = String::from_utf8(ran.wait_with_output().unwrap().stdout).unwrap();
    assert!(said.starts_with("-: PE32+ program for x64"), "{said}");
}

#[test]
fn a_path_that_is_no_text_can_be_opened_again() {
    use std::os::unix::ffi::OsStrExt;
    let folder = Folder::new("path");
    let path = folder.0.join(std::ffi::OsStr::from_bytes(b"\xff.exe"));
    fs::write(&path, made::SMALL).unwrap();
    let ran = Command::new(env!("CARGO_BIN_EXE_pe")).arg("--json").arg(&path).output().unwrap();
    let said: Value = serde_json::from_slice(&ran.stdout).unwrap();
    let hex: String = path.as_os_str().as_bytes().iter().map(|it| format!("{it:02x}")).collect();
    assert_eq!(said["file_hex"], hex);
    // Two such paths are told apart in text and tables, and where they are refused.
    let said = |words: &[&str], path: &std::path::Path| {
        let ran = Command::new(env!("CARGO_BIN_EXE_pe")).args(words).arg(path).output().unwrap();
        String::from_utf8([ran.stdout, ran.stderr].concat()).unwrap()
    };
    for words in [&[][..], &["show"], &["list"], &["digest"], &["checksum"], &["verify"], &["key"], &["find", "kernel"]]
    {
        let said = [said(words, &path), said(words, &folder.0.join(std::ffi::OsStr::from_bytes(b"\xfe")))];
        assert!(words.first() == Some(&"find") || said[0].contains("/\\xff.exe"), "{words:?}: {}", said[0]);
        assert!(said[1].contains("/\\xfe: No such file"), "{words:?}: {}", said[1]);
    }
    // Where no command comes first, words that are wrong are refused with the usage of the program.
    let words = ["--no-hashes", "--parts", "hashes"];
    let ran = Command::new(env!("CARGO_BIN_EXE_pe")).arg(&path).args(words).output().unwrap();
    assert_eq!(ran.status.code(), Some(2), "{}", String::from_utf8_lossy(&ran.stderr));
}

#[test]
fn lines_fit_the_columns() {
    let folder = Folder::new("columns");
    let file = folder.file("a.dll", &made::x86_dll());
    let path = std::path::Path::new(&file);
    for columns in ["60", "80", "120"] {
        let ran = Command::new(env!("CARGO_BIN_EXE_pe"))
            .current_dir(path.parent().unwrap())
            .arg("a.dll")
            .env("COLUMNS", columns)
            .output()
            .unwrap();
        let said = String::from_utf8(ran.stdout).unwrap();
        let is_whole =
            said.lines().filter(|it| it.contains(" r-x ")).all(|it| it.contains(" at 0x1000") && it.contains('.'));
        assert!(is_whole, "{columns}: a section stands on one line\n{said}");
        // What is said of the sections stands in columns, also where one of them has less to say.
        let starts: Vec<_> = said.lines().filter(|it| it.contains(" at 0x")).map(|it| it.find(" at 0x")).collect();
        assert!(starts.len() > 1 && starts.iter().all(|it| *it == starts[0]), "{columns}: {starts:?}\n{said}");
    }
    // In the fewest columns no word is broken that has room in a line.
    let said = said_in(Some(20), &[&folder.file("b.exe", made::SMALL)]);
    assert!(
        said.contains("\n  hardening\n    yes: has a\n    signature entry,\n    no writable\n    code; no: ASLR,\n"),
        "{said}"
    );
    assert!(said.lines().skip(2).all(|it| columns_of(it) <= 20), "{said}");
}

/// How many columns of a terminal a line takes: two of each letter of East Asia.
fn columns_of(line: &str) -> usize {
    line.chars().map(|it| 1 + usize::from(it >= '\u{2E80}')).sum()
}

/// What a command says with this variable COLUMNS, or without one.
fn said_in(columns: Option<usize>, words: &[&str]) -> String {
    let mut command = Command::new(env!("CARGO_BIN_EXE_pe"));
    match columns {
        Some(columns) => command.env("COLUMNS", columns.to_string()),
        None => command.env_remove("COLUMNS"),
    };
    String::from_utf8(command.args(words).output().unwrap().stdout).unwrap()
}

/// Whether what is said fits, and has what stands there without COLUMNS but for where its lines end.
fn assert_fits(words: &[&str]) {
    let letters = |text: &str| text.split_whitespace().collect::<String>();
    let whole = said_in(None, words);
    for columns in [40, 60, 80, 120] {
        let said = said_in(Some(columns), words);
        let widest = said.lines().map(columns_of).max().unwrap_or_default();
        assert!(widest <= columns, "{words:?}: {widest} columns of {columns}\n{said}");
        // A summary says less of sections in a narrow room.
        let is_summary = words.len() == 1;
        assert!(is_summary || letters(&said) == letters(&whole), "{words:?}, {columns} columns\n{said}\n{whole}");
    }
}

/// Real images, where their packages are installed.
const REAL: [&str; 3] = [
    "/usr/lib/python3/dist-packages/distlib/w64.exe",
    "/usr/lib/python3/dist-packages/distlib/t64-arm.exe",
    "/usr/lib/gcc/x86_64-w64-mingw32/12-posix/libgcc_s_seh-1.dll",
];

#[test]
fn the_lines_of_each_command_fit_the_columns() {
    let folder = Folder::new("fitting");
    let made = made::all().into_iter();
    let mut files: Vec<_> = made.map(|(name, bytes)| folder.file(&format!("{name} \u{6f22}.bin"), &bytes)).collect();
    files.extend(REAL.iter().filter(|it| std::path::Path::new(it).exists()).map(|it| it.to_string()));
    for file in &files {
        assert_fits(&[file]);
        assert_fits(&["show", file]);
        assert_fits(&["unwind", "--all", file]);
        assert_fits(&["verify", file]);
        assert_fits(&["diff", &files[0], file]);
    }
    assert_fits(&["stack", &folder.file("a.dmp", &made::full_dump(0x8664))]);
    // In a pipe nothing is broken without COLUMNS, nor what is there to be copied.
    let [plain, key] = [said_in(None, &["show", &files[0]]), said_in(Some(40), &["key", &files[0]])];
    assert!(
        plain.starts_with(&format!("{}\n", files[0])) && key.starts_with(&format!("{}\n", files[0])),
        "{plain}{key}"
    );
}

/// The paths of `pe key` are there to be copied: a name with spaces stands on one line too, however narrow it is.
#[test]
fn paths_of_a_symbol_server_stand_whole() {
    let folder = Folder::new("whole-paths");
    let record = [b"RSDS".as_slice(), &made::GUID, &1u32.to_le_bytes(), b"My own App.pdb\0"].concat();
    let file = folder.file("an app.exe", &with_debug_records(&[(2, &record)]));
    let pdb = "My own App.pdb/497B72F6390A44FC878E5A2D63B6CC4B1/My own App.pdb";
    let image = "an app.exe/000000006000/an app.exe";
    for columns in [None, Some(20), Some(40)] {
        let said = said_in(columns, &["key", &file]);
        assert_eq!(said, format!("{file}\n  PDB           {pdb}\n  image         {image}\n"), "{columns:?}");
    }
}

#[test]
fn what_is_no_image_is_named_by_every_command() {
    let folder = Folder::new("named-kinds");
    let elf = folder.file("a", b"\x7fELF\x02\x01\x01");
    let image = folder.file("a.exe", made::SMALL);
    let out = folder.0.join("out").to_str().unwrap().to_string();
    let commands: [&[&str]; 7] = [
        &["extract", &elf, "manifest", &out],
        &["attach", &elf, &image, &out],
        &["detach", &elf, &out],
        &["checksum", &elf, "--fix", &out],
        &["set-manifest", &elf, &out, &image],
        &["key", &elf],
        &["find", "a", &elf],
    ];
    for words in commands {
        let (said, error, status) = run(words);
        assert!(error.ends_with("; it is an ELF file\n"), "{words:?}: {error}");
        assert_eq!((said.as_str(), status), ("", 1), "{words:?}");
    }
    assert!(!std::path::Path::new(&out).exists());
    // Of their bytes no two are equal: the first of the image is M.
    let length = made::SMALL.len();
    let differ =
        |before: usize, after: usize| format!("bytes\n  ~ file: {before} bytes -> {after} bytes, {length} differ\n");
    for (words, text) in [([&elf, &image], differ(7, length)), ([&image, &elf], differ(length, 7))] {
        let (said, error, status) = run(&["diff", words[0], words[1]]);
        assert_eq!((said, error.ends_with("; it is an ELF file\n"), status), (text, true, 1));
    }
    let (said, _, status) = run(&["verify", &elf]);
    let why = "truncated: 64 bytes needed at offset 0x0 (SHORT); it is an ELF file";
    assert_eq!((said, status), (format!("{elf}\n  warning       {why}\n  result        refused: see why above\n"), 1));
    let (_, error, _) = run(&["-rv", folder.0.to_str().unwrap()]);
    assert!(error.contains("a: skipped, it is an ELF file\n"), "{error}");
    folder.file("a", b"");
    let (_, error, _) = run(&["-rv", folder.0.to_str().unwrap()]);
    assert!(error.contains("a: skipped, it is an empty file\n"), "{error}");
}

/// What the program says and its status, with these bytes as standard input.
fn run_with(input: &[u8], words: &[&str]) -> (String, String, i32) {
    let mut ran = Command::new(env!("CARGO_BIN_EXE_pe"));
    let ran = ran.args(words).stdin(Stdio::piped()).stdout(Stdio::piped()).stderr(Stdio::piped());
    let mut ran = ran.spawn().unwrap();
    ran.stdin.take().unwrap().write_all(input).unwrap();
    let ran = ran.wait_with_output().unwrap();
    let text = |bytes: &[u8]| String::from_utf8_lossy(bytes).into_owned();
    (text(&ran.stdout), text(&ran.stderr), ran.status.code().unwrap())
}

/// Whoever reads it again would take it for an empty file: an image had an empty manifest after that.
#[test]
fn standard_input_is_one_file() {
    let folder = Folder::new("one-input");
    let (image, out) = (made::editable(), folder.0.join("out").to_str().unwrap().to_string());
    let twice = ["set-manifest", "-", &out, "-"];
    let commands: [&[&str]; 6] = [
        &twice,
        &["attach", "-", "-", &out],
        &["diff", "-", "-"],
        &["digest", "-", "-"],
        &["symbols", "-", &out, "--pdb", "-"],
        &["verify", "-", "--catalog", "-"],
    ];
    for words in commands {
        let (_, error, status) = run_with(&image, words);
        // A catalog is read first, and an image is none.
        let is_catalog = words.contains(&"--catalog");
        let why = if is_catalog { "no catalog: " } else { "standard input can be one file, and was read before\n" };
        assert_eq!((error.contains(why), status), (true, 3), "{words:?}: {error}");
    }
    assert!(!std::path::Path::new(&out).exists());
    let (_, _, status) = run_with(b"<assembly/>", &["set-manifest", &folder.file("a.exe", &image), &out, "-"]);
    assert_eq!(status, 0);
    // It has no name, by which a symbol server would have it.
    assert!(run_with(&image, &["key", "-"]).0.ends_with("\n  image         none\n"));
}

/// What would be ignored is refused: the part would not be the one that was asked for.
#[test]
fn options_that_choose_nothing_are_refused() {
    let folder = Folder::new("ignored");
    let file = folder.file("a.exe", &made::with_resources());
    let chosen: [(&str, &[&str]); 10] = [
        ("manifest", &["--name", "1"]),
        ("manifest", &["--language", "1033"]),
        ("manifest", &["--type", "24"]),
        ("manifest", &["--number", "1"]),
        ("certificates", &["--number", "1"]),
        ("certificate", &["--name", "1"]),
        ("overlay", &["--name", "1"]),
        ("icon", &["--type", "14"]),
        ("section", &["--language", "1033"]),
        ("section", &["--name", ".rdata", "--number", "1"]),
    ];
    for (part, words) in chosen {
        let (out, error, status) = run(&[&["extract", &file, part, "-"], words].concat());
        assert_eq!((out.as_str(), error.contains(words[words.len() - 2]), status), ("", true, 2), "{part} {words:?}");
        assert!(error.contains("Usage: pe extract "), "{error}");
    }
    for words in [&["show", "--csv", &file, "all"][..], &["show", "--no-hashes", &file, "hashes"]] {
        assert_eq!((run(words).0.as_str(), run(words).2), ("", 2), "{words:?}");
    }
    assert_eq!(run(&["--no-hashes", "--parts", "headers,hashes", &file]).2, 2);
}

/// A DLL is loaded whether a function of it is imported or not.
#[test]
fn a_dll_without_functions_is_in_tables_and_differences() {
    let folder = Folder::new("no-functions");
    let mut bytes = made::with_imports();
    let before = folder.file("a.exe", &bytes);
    let library = json_of("no-functions-before", &bytes)["imports"][1].clone();
    assert_eq!((&library["name"], library["functions"].as_array().unwrap().len()), (&json!("a.dll"), 1));
    // The one entry of its lookup table, which is the import address table, is at its slot.
    let slot = library["slot_rva"].as_u64().or(library["functions"][0]["slot_rva"].as_u64()).unwrap() as usize;
    let at = slot - 0x1000 + 0x400;
    bytes[at..at + 8].fill(0);
    let after = folder.file("b.exe", &bytes);
    assert!(run(&["show", "--csv", &after, "imports"]).0.ends_with("\na.dll,,,\n"));
    let (out, _, _) = run(&["diff", &before, &after]);
    assert!(out.contains("imports\n  - a.dll f\n  + a.dll\nbytes\n"), "{out}");
    let page = run(&["report", &after, "-"]).0;
    assert!(page.contains("<td>a.dll</td><td></td>"), "{page}");
}

/// Bits without a name are in the number.
#[test]
fn flags_are_shown_with_their_number() {
    let folder = Folder::new("flag-numbers");
    let before = folder.file("a.exe", made::SMALL);
    let mut bytes = made::SMALL.to_vec();
    let headers = u32::from_le_bytes(bytes[60..64].try_into().unwrap()) as usize;
    // `Characteristics`, of which 0x40 is reserved.
    bytes[headers + 22] |= 0x40;
    let after = folder.file("b.exe", &bytes);
    assert!(run(&["show", &after, "headers"])
        .0
        .contains("\n  flags         0x62: EXECUTABLE_IMAGE, LARGE_ADDRESS_AWARE\n"));
    let (out, _, _) = run(&["diff", &before, &after]);
    assert!(out.starts_with("headers\n  ~ flags: 0x22: "), "{out}");
}

#[test]
fn a_long_name_of_a_section_stands_by_itself() {
    let folder = Folder::new("section-name");
    let (out, _, _) = run(&[&folder.file("a.exe", &made::with_long_section_name())]);
    assert!(out.contains("\n  sections      .debug_info "), "{out}");
}

#[test]
fn counts_are_words_of_one_and_of_more() {
    let folder = Folder::new("counts");
    let (out, _, _) = run(&[&folder.file("a.exe", &made::with_resources())]);
    assert!(out.contains("\n  resources     2, of 2 types\n"), "{out}");
    let (out, _, _) = run(&[&folder.file("a.exe", &with_leaves(&[(10, 5, b"raw")]))]);
    assert!(out.contains("\n  resources     1, of 1 type\n"), "{out}");
}

#[test]
fn overlays_are_what_they_are() {
    let overlay = |bytes: &[u8]| json_of("overlay", bytes)["headers"]["overlay"].clone();
    let with = |more: &[u8]| [made::with_exports(), more.to_vec()].concat();
    assert_eq!(overlay(&made::with_exports()), Value::Null);
    let nsis = overlay(&with(b"\0\0\0\0\xEF\xBE\xAD\xDENullsoftInst...."));
    assert_eq!((&nsis["content"]["kind"], &nsis["size"]), (&json!("an NSIS installer"), &json!(24)));
    assert_eq!(overlay(&with(b"7z\xBC\xAF\x27\x1C"))["content"]["kind"], "a 7z archive");
    assert_eq!(overlay(&with(b"no known magic"))["content"]["kind"], Value::Null);
    // The certificates of an image are no content, and neither are its symbols.
    let signed = overlay(&made::with_certificates());
    assert_eq!((&signed["certificates_size"], &signed["content"]), (&json!(24), &json!(null)));
    let symbols = overlay(&made::with_long_section_name());
    assert_eq!((&symbols["symbols_size"], &symbols["content"]), (&json!(46), &json!(null)));
    let more = overlay(&[made::with_certificates(), b"PK\x03\x04".to_vec()].concat());
    assert_eq!(more["content"], json!({"file_offset": 0x618, "size": 4, "kind": "a ZIP archive"}));
}

#[test]
fn the_version_says_whether_the_library_was_proved() {
    let (out, _, status) = run(&["--version"]);
    let lines: Vec<&str> = out.lines().collect();
    assert_eq!((lines.len(), lines[0], status), (3, concat!("pe ", env!("CARGO_PKG_VERSION")), 0));
    assert!(lines[1].starts_with("library for C: "), "{out}");
}

/// The object of `made` with some of its bytes replaced.
fn object_with(parts: &[(usize, &[u8])]) -> Vec<u8> {
    let mut bytes = made::object();
    for (offset, part) in parts {
        bytes[*offset..][..part.len()].copy_from_slice(part);
    }
    bytes
}

#[test]
fn objects_are_shown_with_their_symbols() {
    // `.data` gets the name in the string table, and `.bss` 0x40 bytes, which are nowhere.
    let all = json_of("object", &object_with(&[(0x3C, b"/4\0\0\0"), (0x74, b"\x40\0\0\0\0\0\0\0")]));
    assert_eq!(
        (&all["error"], &all["file_kind"], &all["file_size"]),
        (&json!(null), &json!("a COFF object"), &json!(404))
    );
    // The values are those of llvm-readobj 14, `--file-headers --sections --symbols`, over the object as it is made.
    assert_eq!(
        all["headers"],
        json!({
            "machine": {"number": 0x8664, "name": "x64"}, "time_date_stamp": 0, "time": null, "number_of_sections": 3,
            "symbol_table_file_offset": 0xA6, "number_of_symbols": 12, "string_table_size": 22
        })
    );
    let fields =
        |it: &Value| ["name", "long_name", "file_offset", "file_size", "permissions"].map(|field| it[field].clone());
    let sections: Vec<_> = all["sections"].as_array().unwrap().iter().map(fields).collect();
    assert_eq!(sections[0], [json!(".text"), json!(null), json!(0x8C), json!(16), json!("r-x")]);
    assert_eq!(sections[1], [json!("/4"), json!("longer_than_eight"), json!(0), json!(0), json!("rw-")]);
    assert_eq!(sections[2], [json!(".bss"), json!(null), json!(0), json!(0x40), json!("rw-")]);
    let bss = &all["sections"][2];
    assert_eq!((&bss["entropy"], &bss["sha256_hex"]), (&json!(null), &json!(null)));
    let fields =
        |it: &Value| ["index", "name", "value", "section_number", "section", "type"].map(|field| it[field].clone());
    let symbols: Vec<_> = all["symbols"].as_array().unwrap().iter().map(fields).collect();
    let row = |index, name, value, number, section: Option<&str>, kind| {
        [json!(index), json!(name), json!(value), json!(number), json!(section), json!(kind)]
    };
    assert_eq!(
        symbols,
        [
            row(0, ".file", 0, -2, None, 0),
            row(2, "longer_than_eight", 1, 1, Some(".text"), 0x20),
            row(4, ".text", 0, 1, Some(".text"), 0),
            row(6, ".data", 0, 2, Some("longer_than_eight"), 0),
            row(8, ".bss", 0, 3, Some(".bss"), 0),
            row(10, "five", 5, -1, None, 0),
            row(11, "outside", 0, 0, None, 0),
        ]
    );
    let classes: Vec<&Value> =
        all["symbols"].as_array().unwrap().iter().map(|it| &it["storage_class"]["name"]).collect();
    assert_eq!(classes, ["FILE", "EXTERNAL", "STATIC", "STATIC", "STATIC", "EXTERNAL", "EXTERNAL"]);
    assert_eq!(all["symbols"][1]["number_of_auxiliary_records"], 1);
}

#[test]
fn names_of_symbols_are_escaped_and_refused_as_others() {
    let folder = Folder::new("object-names");
    let file = folder.file("a.o", &object_with(&[(0x16C, b"a\x1b[2J\n\xC2\x85")]));
    let (out, _, status) = run(&["show", &file, "symbols"]);
    assert!(out.contains("  11     a\\x1b[2J\\x0a\\u{85}  undefined  0x0    0x0   EXTERNAL\n"), "{out}");
    assert_eq!((out.contains('\x1b'), status), (false, 0));
    let (out, _, _) = run(&["show", &file, "--csv", "symbols"]);
    assert!(out.starts_with("index,name,section,value,type,storage class\n0,.file,debug,0x0,0x0,FILE\n"), "{out}");
    // A name that is not UTF-8 ends the list, and one past the string table too.
    for part in [(0x16C, b"\xFFutside\0".as_slice()), (0x16C, b"\0\0\0\0\xFF\0\0\0")] {
        let file = folder.file("b.o", &object_with(&[part]));
        let (out, _, status) = run(&["--json", "--parts", "symbols", &file]);
        let said: Value = serde_json::from_str(&out).unwrap();
        let symbols = said["symbols"].as_array().unwrap();
        assert_eq!((symbols.len(), &said["symbols_error"]["name"], status), (6, &json!("STRING_TABLE"), 1));
    }
}

#[test]
fn symbols_that_share_a_long_name_are_limited() {
    const COUNT: usize = 2000;
    let name = [vec![b'a'; 60_000], vec![0]].concat();
    let symbol = [b"\0\0\0\0\x04\0\0\0".as_slice(), &[0; 8], b"\x02\0"].concat();
    let mut bytes = made::object();
    bytes.truncate(0xA6);
    bytes[0x0C..0x10].copy_from_slice(&(COUNT as u32).to_le_bytes());
    bytes.extend(symbol.repeat(COUNT));
    bytes.extend((name.len() as u32 + 4).to_le_bytes());
    bytes.extend(&name);
    let said = json_of("object-limited", &bytes);
    let count = said["symbols"].as_array().unwrap().len();
    // Sixteen times the bytes of the file.
    assert_eq!((count, &said["symbols_is_limited"]), (16 * bytes.len() / 60_008, &json!(true)));
}

#[test]
fn an_unmapped_lookup_table_is_said_and_the_address_table_listed() {
    let (folder, mut bytes) = (Folder::new("lookup"), made::with_imports());
    let record = made::offset(made::ADDRESS + 36 + 24 + 16) as usize;
    bytes.copy_within(record..record + 4, record + 16);
    let named = json_of("lookup-before", &bytes);
    bytes[record..record + 4].copy_from_slice(&0x7FFF_FFFF_u32.to_le_bytes());
    let file = folder.file("a.exe", &bytes);
    let (out, _, status) = run(&["--json", &file]);
    let said: Value = serde_json::from_str(&out).unwrap();
    assert_eq!(status, 1);
    assert_eq!(named["imports"][0]["functions"].as_array().unwrap().len(), 2);
    assert_eq!(said["imports"][0]["functions"], named["imports"][0]["functions"]);
    let errors = [0, 1].map(|it| said["imports"][it]["lookup_table_error"]["name"].clone());
    assert_eq!(errors, [json!("UNMAPPED"), json!(null)]);
    let hashes = |it: &Value| (it["hashes"]["imphash"].clone(), it["hashes"]["imphash_of"].clone());
    let (hash, of) = hashes(&named);
    assert_eq!((hashes(&said), of), ((hash.clone(), json!("address_tables")), json!("lookup_tables")));
    let (out, _, _) = run(&[&file]);
    assert!(
        out.contains("lookup table of KERNEL32.dll at RVA 0x7fffffff: unmapped, so its address table is listed"),
        "{out}"
    );
    assert!(out.contains(&format!("{}, of address tables", hash.as_str().unwrap())), "{out}");
}

#[test]
fn a_damaged_version_string_costs_itself_alone() {
    let (folder, mut bytes) = (Folder::new("damaged-string"), made::with_resources());
    let whole = json_of("whole-strings", &bytes);
    let key: Vec<u8> = "ProductName\0".encode_utf16().flat_map(u16::to_le_bytes).collect();
    let at = bytes.windows(key.len()).position(|it| it == key).unwrap();
    bytes[at - 4..at - 2].copy_from_slice(&0x4000_u16.to_le_bytes());
    let file = folder.file("a.exe", &bytes);
    let (out, _, status) = run(&["--json", &file]);
    let said: Value = serde_json::from_str(&out).unwrap();
    let (version, wanted) = (&said["version"], &whole["version"]);
    assert_eq!((status, &version["fixed"], &version["fixed_error"]), (1, &wanted["fixed"], &json!(null)));
    assert_eq!(
        (&version["strings"], &version["strings_error"]["name"]),
        (&wanted["strings"], &json!("RESOURCE_STRING"))
    );
    assert_eq!(said["resources"][0]["version"]["fixed"], wanted["fixed"]);
    let (out, _, _) = run(&[&file]);
    assert!(out.contains("3.11.3150.1013, of the product 1.2.3.4"), "{out}");
    assert!(out.contains("version strings: version string value missing"), "{out}");
}

#[test]
fn te_images_are_shown_with_their_debug_data() {
    let said = json_of("te", &made::te_image());
    assert_eq!((&said["error"], &said["file_kind"]), (&json!(null), &json!("a TE image")));
    // 0x128 bytes were stripped, and the header has 0x28: all offsets of the maker are less 0x100.
    assert_eq!(
        said["headers"],
        json!({
            "machine": {"number": 0x8664, "name": "x64"}, "subsystem": {"number": 10, "name": "EFI application"},
            "number_of_sections": 1, "stripped_size": 0x128, "entry_rva": 0x1000, "base_of_code_rva": 0x1000,
            "image_base_va": 0, "directories": [
                {"index": 6, "name": "debug", "rva": 0x50, "file_offset": null, "size": 28}]
        })
    );
    // Firmware has base relocations of no bytes at an RVA: there is a directory, as there is in an image.
    let mut empty = made::te_image();
    empty[24..28].copy_from_slice(&6456_u32.to_le_bytes());
    let row = &json_of("te-relocations", &empty)["headers"]["directories"][0];
    assert_eq!((&row["index"], &row["rva"], &row["size"]), (&json!(5), &json!(6456 - 0x100), &json!(0)));
    let section = &said["sections"][0];
    assert_eq!(
        (&section["name"], &section["rva"], &section["file_offset"]),
        (&json!(".text"), &json!(0x1000), &json!(0x50))
    );
    let entry = &said["debug"]["entries"][0];
    assert_eq!((&entry["type"]["name"], &entry["rva"], &entry["size"]), (&json!("CodeView"), &json!(0x70), &json!(30)));
    assert_eq!(said["debug"]["pdb"]["key"], "131211101514171618191A1B1C1D1E1F9");
    let folder = Folder::new("te-text");
    let file = folder.file("a.te", &made::te_image());
    let (out, _, status) = run(&["show", &file, "imports", "relocations", "symbols"]);
    for part in ["imports      ", "relocations  ", "symbols      "] {
        assert!(out.contains(&format!("\n  {part} not read of a TE image\n")), "{out}");
    }
    assert_eq!(status, 0);
    let said = format!("pe: {file}: imports: not read of a TE image\n");
    assert_eq!(run(&["show", "--csv", &file, "imports"]), (String::new(), said, 0));
    assert_eq!(run(&["show", "--csv", &file, "sections"]).1, "");
}

#[test]
fn what_only_looks_like_an_object_is_refused() {
    let folder = Folder::new("no-objects");
    for (kind, bytes) in [
        // A machine without a name; `.text` a byte past the end; no section; section headers past the end.
        (None, object_with(&[(0, b"\x34\x12")])),
        (Some("a COFF object, as it seems"), object_with(&[(0x24, b"\x09\x01\0\0")])),
        (Some("a COFF object, as it seems"), object_with(&[(2, b"\0")])),
        (Some("a COFF object, as it seems"), object_with(&[(2, b"\x0A")])),
        // A TE image whose section headers are truncated, and one that had fewer headers than it has.
        (Some("a TE image"), made::te_image()[..0x4F].to_vec()),
        (Some("a TE image"), [b"VZ\x64\x86\x01\x0A\x27\0".as_slice(), &made::te_image()[8..]].concat()),
    ] {
        let (line, _, status) = run(&["--json", &folder.file("a.bin", &bytes)]);
        let said: Value = serde_json::from_str(&line).unwrap();
        assert_eq!((said["file_kind"].as_str(), said.get("headers"), status), (kind, None, 1));
        assert_eq!(said["error"]["name"], "BAD_MAGIC");
        let (out, _, _) = run(&[&folder.file("a.bin", &bytes)]);
        let is_said = kind.map(|it| format!("; as {}: ", it.trim_end_matches(", as it seems")));
        assert!(is_said.is_none_or(|it| out.contains(&it)), "{out}");
    }
    // With its end where the file has it, the section lies in it.
    let file = folder.file("b.bin", &object_with(&[(0x24, b"\x08\x01\0\0")]));
    assert_eq!(run(&[&file]).2, 0);
    assert_eq!(run(&["--mapped", &file]).2, 1);
    // Commands for images refuse it, and below a folder it is skipped.
    for words in [["key", &file].as_slice(), &["digest", &file], &["find", "a", &file], &["unwind", &file, "1000"]] {
        assert_eq!(run(words).2, 1, "{words:?}");
    }
    folder.file("c.te", &made::te_image());
    folder.file("d.txt", b"text");
    let (out, error, status) = run(&["-r", folder.0.to_str().unwrap()]);
    let counted = "pe: 4 files are no images, and skipped; by their start 2 TE images, 1 COFF object\n";
    let none = "pe: no image is found\n";
    assert_eq!((out.as_str(), error, status), ("", format!("{counted}{none}"), 0));
}

#[test]
fn symbols_of_images_are_shown_where_they_are_named() {
    let folder = Folder::new("image-symbols");
    let mut bytes = made::with_long_section_name();
    // Its one symbol is at 0x600: a name, a value, section 1.
    bytes[0x600..0x60E].copy_from_slice(b"main\0\0\0\0\x07\0\0\0\x01\0");
    let file = folder.file("a.exe", &bytes);
    let (out, _, _) = run(&["--json", &file]);
    let said: Value = serde_json::from_str(&out).unwrap();
    assert_eq!((&said["file_kind"], said.get("symbols")), (&json!(null), None));
    let (out, _, status) = run(&["--json", "--parts", "symbols", &file]);
    let said: Value = serde_json::from_str(&out).unwrap();
    let symbol = &said["symbols"][0];
    assert_eq!(
        (&symbol["name"], &symbol["value"], &symbol["section"], &said["symbols"][1], status),
        (&json!("main"), &json!(7), &json!(".debug_info"), &json!(null), 0)
    );
    let (out, _, _) = run(&["show", &folder.file("b.exe", &made::with_exports()), "symbols"]);
    assert!(out.ends_with("\n  symbols       none\n"), "{out}");
}

#[test]
fn lists_of_guarded_functions_are_shown() {
    let folder = Folder::new("guards");
    let file = folder.file("a.exe", &made::with_guards());
    let (out, error, status) = run(&["--json", &file]);
    assert_eq!((error.as_str(), status), ("", 1));
    let said = serde_json::from_str::<Value>(&out).unwrap()["load_config"].clone();
    let flags = |number: u8| {
        let names = ["FID_SUPPRESSED", "EXPORT_SUPPRESSED", "FID_LANGEXCPTHANDLER", "FID_XFG"];
        let flags: Value = (0..4usize).map(|bit| (names[bit].to_string(), json!(number >> bit & 1 != 0))).collect();
        json!({"number": number, "flags": flags})
    };
    let functions = [json!({"rva": 0x2010, "flags": flags(1)}), json!({"rva": 0x2030, "flags": flags(8)})];
    assert_eq!((&said["guarded_functions"], &said["guarded_functions_error"]), (&json!(functions), &json!(null)));
    assert_eq!(said["guarded_iat_entries"], json!([{"rva": 0x2040, "flags": flags(0)}]));
    assert_eq!((&said["long_jump_targets"], &said["eh_continuations"]), (&json!(null), &json!(null)));
    assert_eq!(said["long_jump_targets_error"]["name"], "DIRECTORY_VA_BELOW_BASE");
    assert_eq!(said["eh_continuations_error"]["name"], "UNMAPPED");
    // The handlers have no flags; they end with the file.
    assert_eq!((&said["se_handlers"][0], &said["se_handlers_error"]["name"]), (&json!(0x2050), &json!("SHORT")));
    let (out, error, status) = run(&["show", &file, "load-config"]);
    let head = "Functions that may be called indirectly\n  RVA     flags\n  0x2010  0x1: FID_SUPPRESSED\n";
    assert!(out.contains(head), "{out}");
    assert!(out.contains("long jumps: virtual address below the image base"), "{out}");
    assert_eq!((error.as_str(), status), ("", 1));
}

/// An image whose five tables are all the bytes after its load configuration, in entries without flags.
fn with_one_guard_table() -> Vec<u8> {
    let mut made = made::Made::new(made::X64);
    let mut config = vec![0; 280];
    let va = 0x1_8000_0000u64 + u64::from(made.next()) + 280;
    put(&mut config, 0, &280u32.to_le_bytes());
    for field in [96, 128, 160, 176, 264] {
        put(&mut config, field, &va.to_le_bytes());
        put(&mut config, field + 8, &[255; 8]);
    }
    let address = made.put(&config);
    made.put(&[7; 0x4000]);
    made.directory(10, address, 280);
    made.image()
}

#[test]
fn guarded_functions_that_share_their_bytes_are_limited() {
    let (folder, bytes) = (Folder::new("shared-guards"), with_one_guard_table());
    let file = folder.file("a.exe", &bytes);
    let (out, error, status) = run(&["--json", &file]);
    assert_eq!((error.as_str(), status), ("", 1));
    let said = serde_json::from_str::<Value>(&out).unwrap()["load_config"].clone();
    let lists = ["se_handlers", "guarded_functions", "guarded_iat_entries", "long_jump_targets", "eh_continuations"];
    let ends = lists.map(|it| (said[format!("{it}_is_limited")].clone(), said[format!("{it}_error")]["name"].clone()));
    let (whole, limited) = ((json!(false), json!("SHORT")), (json!(true), json!(null)));
    assert_eq!(ends, [whole.clone(), whole, limited.clone(), limited.clone(), limited]);
    // An entry of 4 bytes counts for 32, and 16 times the bytes of the file are all that is read.
    let counts = lists.map(|it| said[it].as_array().unwrap().len());
    let from = bytes.len() - 0x400 - 280;
    assert_eq!((counts[0], counts[1], counts.iter().sum()), (from / 4, from / 4, bytes.len() / 2));
    assert_eq!(said["guarded_iat_entries"][0], json!({"rva": 0x0707_0707, "flags": null}));
    assert_eq!(run(&["show", &file, "load-config"]).0.matches("\n  and more\n").count(), 3);
    let page = run(&["report", &file, "-"]).0;
    assert!(page.contains("<b>load configuration</b> not shown whole"), "{page}");
}

#[test]
fn assemblies_have_names_and_references() {
    let said = json_of("assembly", &made::with_assembly())["clr"]["metadata"]["tables"].clone();
    let own = json!({"name": "Own", "version": "1.2.3.4", "culture": null, "has_public_key": false});
    assert_eq!((&said["assembly"], &said["module"]["name"]), (&own, &json!("m.dll")));
    assert_eq!(said["module"]["mvid"], "{03020100-0504-0706-0809-0A0B0C0D0E0F}");
    let other = |version: &str, culture: Value, token: Value| json!({"name": "Other", "version": version, "culture": culture, "has_public_key": true, "public_key_token_hex": token});
    let whole_key = other("5.6.0.0", json!("de"), json!(null));
    assert_eq!(said["references"], json!([other("4.0.0.0", json!(null), json!("0102030405060708")), whole_key]));
    let folder = Folder::new("assembly-text");
    let file = folder.file("a.dll", &made::with_assembly());
    assert!(run(&[&file]).0.contains("  assembly      Own 1.2.3.4, 2 references\n"));
    assert!(run(&["show", &file, "clr"]).0.contains("  Other     5.6.0.0  de\n"));
    // A reference whose name is not in the heap ends the list, and an assembly without a name is refused.
    let at = |bytes: &[u8], part: &[u8]| bytes.windows(part.len()).position(|it| it == part).unwrap();
    let mut bytes = made::with_assembly();
    let second = at(&bytes, b"\x05\0\x06\0");
    bytes[second + 14] = 0xFF;
    let (out, _, status) = run(&["--json", &folder.file("b.dll", &bytes)]);
    let said = serde_json::from_str::<Value>(&out).unwrap()["clr"]["metadata"]["tables"].clone();
    assert_eq!(
        (said["references"].as_array().unwrap().len(), &said["references_error"]["name"], status),
        (1, &json!("SHORT"), 1)
    );
    let mut bytes = made::with_assembly();
    let own = at(&bytes, b"\x04\x80\0\0");
    bytes[own + 18] = 0xFF;
    let (_, error, status) = run(&[&folder.file("c.dll", &bytes)]);
    assert_eq!((error.as_str(), status), ("", 1));
}

#[test]
fn a_truncated_file_says_how_many_sections_it_cuts() {
    let (folder, whole) = (Folder::new("cut"), made::with_resources());
    let says = |bytes: &[u8]| {
        let file = folder.file("a.dll", bytes);
        let said = "sections: 1 not whole: the file ends before they do";
        [run(&[&file]), run(&["show", &file, "sections"])].map(|it| it.0.contains(said))
    };
    assert_eq!((says(&whole), says(&whole[..whole.len() - 1])), ([false; 2], [true; 2]));
    // Tables say it on standard error, a list in its last cell, and a page among its warnings.
    let (file, said) =
        (folder.file("a.dll", &whole[..whole.len() - 1]), "sections: 1 not whole: the file ends before they do");
    assert_eq!(run(&["show", "--csv", &file, "sections"]).1, format!("pe: {file}: {said}\n"));
    assert!(run(&["list", &file]).0.ends_with(&format!(",{said}\n")));
    assert!(run(&["report", &file, "-"])
        .0
        .contains(&format!("<h2 id=warnings>1 warned of</h2><ul><li>{said}</li></ul>")));
}

/// An image whose headers ask for control flow guard, with the RVA of the directory with this index outside of the image.
fn with_refused(mut data: Vec<u8>, index: usize) -> Vec<u8> {
    let optional = u32::from_le_bytes(data[60..64].try_into().unwrap()) as usize + 24;
    let directories = optional + if data[optional + 1] == 2 { 112 } else { 96 };
    put(&mut data, optional + 70, &0x4000u16.to_le_bytes());
    put(&mut data, directories + 8 * index, &[0x7FFF_0000u32, 100].map(u32::to_le_bytes).concat());
    data
}

#[test]
fn hardening_says_what_is_not_known() {
    let (folder, said) =
        (Folder::new("hardening-refused"), "load configuration: refused, so it is not known here: CFG");
    let says = |data: &[u8]| {
        let file = folder.file("a.exe", data);
        [&["show", &file, "hardening"][..], &[&file], &["report", &file, "-"]].map(|it| run(it).0.contains(said))
    };
    assert_eq!(says(&made::with_load_config()), [false; 3]);
    let data = with_refused(made::with_load_config(), 10);
    assert_eq!(says(&data), [true; 3]);
    // JSON and CSV say it beside them, unless the parts themselves do.
    let file = folder.file("a.exe", &data);
    assert!(run(&[&file]).0.contains("; not known: CFG\n"));
    let why = format!("pe: {file}: {said}\n");
    for words in [&["--json", "--parts", "hardening", &file][..], &["show", "--csv", &file, "hardening"]] {
        let (out, error, status) = run(words);
        assert_eq!((error, status), (why.clone(), 0), "{words:?}");
        assert!(out.contains("\"cfg\":null") || out.contains("CFG,not known"), "{out}");
    }
    let all = "hardening,load-config,debug,certificates";
    assert_eq!([run(&["--json", &file]).1, run(&["--json", "--parts", all, &file]).1], ["", ""]);
    // Another part that is wanted does not speak for it.
    assert_eq!(run(&["--json", "--parts", "hardening,debug,certificates", &file]).1, why);
    // Without the flag there is no control flow guard, whatever the load configuration says.
    let mut data = data;
    let optional = u32::from_le_bytes(data[60..64].try_into().unwrap()) as usize + 24;
    put(&mut data, optional + 70, &[0, 0]);
    assert_eq!(says(&data), [false; 3]);
}

#[test]
fn what_refused_parts_would_say_of_hardening_is_null() {
    let folder = Folder::new("hardening-null");
    let hardening = |data: Vec<u8>, index| {
        let file = folder.file("a.exe", &with_refused(data, index));
        let said: Value = serde_json::from_str(&run(&["--json", &file]).0).unwrap();
        ["cfg", "safe_seh", "cet", "signed"].map(|it| said["hardening"][it].clone())
    };
    let [no, null] = [json!(false), json!(null)];
    let x86 = made::x86_dll();
    // The load configuration, the debug data and the certificates, of x86 and of x64.
    assert_eq!(hardening(x86.clone(), 10), [&null, &null, &no, &no].map(Value::clone));
    assert_eq!(hardening(x86.clone(), 6), [&no, &no, &null, &no].map(Value::clone));
    assert_eq!(hardening(x86, 4), [&no, &no, &no, &null].map(Value::clone));
    assert_eq!(hardening(made::with_exports(), 10), [&null, &null, &no, &no].map(Value::clone));
}

/// The functions of ARM64EC code stand in tables to which `CHPEMetadataPointer` leads, at 200 of `IMAGE_LOAD_CONFIG_DIRECTORY64`.
#[test]
fn code_for_another_machine_is_not_said_to_be_read() {
    let (folder, mut data) = (Folder::new("hybrid"), made::with_guards());
    let said =
        |data: &[u8]| run(&[&folder.file("a.dll", data)]).0.contains(", hybrid: what is for ARM64 alone is not read\n");
    assert!(!said(&data));
    put(&mut data, 0x400 + 200, &0x1_8000_1000u64.to_le_bytes());
    assert!(said(&data));
}

/// What find and diff did not look at is in their JSON.
#[test]
fn what_is_not_looked_at_is_in_json() {
    let folder = Folder::new("not-whole-json");
    let (file, other) = (folder.file("a.exe", &with_refused(made::with_exports(), 1)), folder.file("b.exe", b"MZ"));
    let json = |words: &[&str]| -> Value { serde_json::from_str(run(words).0.lines().next().unwrap()).unwrap() };
    let found = json(&["find", "--json", "first", &file])["not_whole"].clone();
    assert_eq!((&found[0]["part"], &found[0]["error"]["name"]), (&json!("imports"), &json!("UNMAPPED")), "{found}");
    let found = json(&["find", "--json", "first", &other])["not_whole"].clone();
    assert_eq!((&found[0]["part"], &found[0]["error"]["name"]), (&json!("image"), &json!("SHORT")), "{found}");
    let whole = folder.file("c.exe", &made::with_exports());
    assert_eq!(json(&["find", "--json", "first", &whole])["not_whole"], json!([]));
    let found = json(&["diff", "--json", &file, &whole]);
    assert_eq!((&found["before_not_whole"][0]["part"], &found["after_not_whole"]), (&json!("imports"), &json!([])));
}

/// Of another file than a manifest there is a warning: Windows does not start an image with one that it cannot read.
#[test]
fn what_is_no_manifest_is_said() {
    let folder = Folder::new("no-manifest");
    let (file, out) = (folder.file("a.exe", &made::editable()), folder.0.join("b.exe").to_str().unwrap().to_string());
    let utf16 = |text: &str| text.encode_utf16().flat_map(u16::to_le_bytes).collect::<Vec<u8>>();
    let good = "<?xml version='1.0'?><assembly xmlns='urn:schemas-microsoft-com:asm.v1' manifestVersion='1.0'/>";
    let cases: [(Vec<u8>, &str); 7] = [
        (good.into(), ""),
        (["\u{feff}", good].concat().into(), ""),
        ([&[0xFF, 0xFE], &utf16(good)[..]].concat(), ""),
        (vec![], "it is no XML, which starts with <"),
        (b"\x7fELF".to_vec(), "it is no XML, which starts with <"),
        (b"<html/>".to_vec(), "it has no element assembly, which a manifest is"),
        (b"<assembly name='\xE9'/>".to_vec(), "it is not UTF-8, nor UTF-16 with its mark"),
    ];
    for (content, why) in cases {
        let manifest = folder.file("a.manifest", &content);
        let (_, error, status) = run(&["set-manifest", "--replace", &file, &out, &manifest]);
        let said = format!("pe: {manifest}: {why}: Windows may not start the image\n");
        let said = if why.is_empty() { String::new() } else { said };
        assert_eq!((error, status), (said.clone(), 0));
        let words = ["set-resource", "--replace", &file, &out];
        assert_eq!(run(&[&words[..], &["manifest", "1", &manifest]].concat()).1, said);
        assert_eq!(run(&[&words[..], &["raw data", "1", &manifest]].concat()).1, "");
        assert_eq!(run(&["set-manifest", "--replace", &file, &out, &manifest]).2, 0);
        assert_eq!(run(&["extract", "--replace", &out, "manifest", &manifest]).2, 0);
        assert_eq!(fs::read(&manifest).unwrap(), content);
    }
}

/// Exception data of another machine are there, and not read.
#[test]
fn functions_of_other_machines_are_not_said_to_be_none() {
    let folder = Folder::new("functions-of-arm");
    let mut bytes = made::with_functions();
    let signature = u32::from_le_bytes(bytes[60..64].try_into().unwrap()) as usize;
    // `IMAGE_FILE_MACHINE_ARMNT`
    put(&mut bytes, signature + 4, &0x1C4u16.to_le_bytes());
    let said = run(&["show", &folder.file("a.exe", &bytes), "functions"]).0;
    assert!(said.ends_with("\n  functions     none of x64 or ARM64\n"), "{said}");
}
