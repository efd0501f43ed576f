//! Symbol files of Breakpad: those that `pe symbols` writes, and those that `pe stack --symbols` reads. What is expected is what
//! llvm-pdbutil 14.0.6 prints of the PDB, by the format of Breakpad's page. LLDB 19 reads the file of `crash.exe` for the same functions
//! and lines, and walks its dump by it. Where frames lead by STACK CFI is what a reader of these lines, below, makes of them.

#[path = "crash/made.rs"]
mod crash;

#[path = "../../rust/tests/made/mod.rs"]
mod made;

mod running;

use running::{of_pieces, run, Folder};
use serde_json::{json, Value};
use std::collections::BTreeMap;
use std::fs;

/// The key that the program names.
const KEY: &str = "C4AAF6DE03F43CF24C4C44205044422E1";
const BASE: u64 = 0x1_8000_0000;
/// Where the stack of a thread starts.
const STACK: u64 = 0x2_0000;

fn folder(test: &str) -> Folder {
    let folder = Folder::new(test);
    folder.file("crash.dmp", &of_pieces(crash::DUMP));
    folder.file("crash.exe", &of_pieces(crash::EXE));
    folder.file("crash.pdb", &of_pieces(crash::PDB));
    folder
}

impl Folder {
    fn path(&self, name: &str) -> String {
        self.0.join(name).to_str().unwrap().to_string()
    }
}

/// What `pe symbols` writes to standard output.
fn symbols(words: &[&str]) -> String {
    let (out, complaints, status) = run(&[&["symbols"], words].concat());
    assert_eq!((complaints.as_str(), status), ("", 0));
    out
}

/// The same of an image that names no function, which is said.
fn nameless_symbols(image: &str) -> String {
    let (out, complaints, status) = run(&["symbols", image, "-"]);
    let why = format!("pe: {image}: no function is named: no FUNC and no PUBLIC is written\n");
    assert_eq!((complaints, status), (why, 0));
    assert!(!out.contains("FUNC ") && !out.contains("PUBLIC "), "{out}");
    out
}

const FUNCTIONS: &str = "FILE 0 crash.cpp\nFILE 1 generated\\else.inc\nFILE 2 shapes.h\n\
    INLINE_ORIGIN 0 geo::twice\nINLINE_ORIGIN 1 geo::load\nINLINE_ORIGIN 2 app::through\n\
    FUNC 1000 1f 0 middle\n1000 7 11 0\n1007 9 900 1\n1010 f 16 0\n\
    FUNC 1020 15 0 reads\nINLINE 0 8 0 0 1026 b\nINLINE 1 9 2 1 1026 b\n1020 6 7 0\n1026 b 5 2\n1031 4 8 0\n\
    FUNC 1040 19 0 entry\n1040 4 30 0\n1044 a 31 0\n104e 6 32 0\n1054 5 33 0\n\
    FUNC 1060 16 0 app::outer<int>\nINLINE 0 25 0 2 1064 a\n1060 4 24 0\n1064 a 21 0\n106e 8 26 0\n";

/// By the procedures, inlined functions and lines of `llvm-pdbutil dump -symbols -l -il`, and the unwind codes of `llvm-readobj --unwind`. `reads` is in no entry of
/// the function table.
#[test]
fn a_symbol_file_has_functions_lines_and_unwinding() {
    let folder = folder("breakpad-written");
    let (exe, pdb) = (folder.path("crash.exe"), folder.path("crash.pdb"));
    let module = format!("MODULE windows x86_64 {KEY} crash.pdb\n");
    let unwinding = "STACK CFI INIT 1020 15 .cfa: $rsp 8 + .ra: .cfa 8 - ^\n\
        STACK CFI INIT 1000 1f .cfa: $rsp 8 + .ra: .cfa 8 - ^\nSTACK CFI 1001 .cfa: $rsp 16 + $rsi: .cfa 16 - ^\n\
        STACK CFI 1005 .cfa: $rsp 48 +\n\
        STACK CFI INIT 1040 19 .cfa: $rsp 8 + .ra: .cfa 8 - ^\nSTACK CFI 1044 .cfa: $rsp 48 +\n\
        STACK CFI INIT 1060 16 .cfa: $rsp 8 + .ra: .cfa 8 - ^\nSTACK CFI 1064 .cfa: $rsp 48 +\n";
    let code = "INFO CODE_ID 7A5D6B415000 crash.exe\n";
    assert_eq!(symbols(&[&exe, "--pdb", &pdb, "-"]), format!("{module}{code}{FUNCTIONS}{unwinding}"));
    // A PDB alone says nothing of unwinding.
    assert_eq!(symbols(&[&pdb, "-"]), format!("{module}{FUNCTIONS}"));
    assert_eq!(run(&["symbols", "--strict", &pdb, "-"]).2, 2);
    // It is written whole, and replaces nothing.
    let out = folder.path("crash.sym");
    assert_eq!(run(&["symbols", &exe, &out, "--pdb", &pdb]), (String::new(), String::new(), 0));
    assert_eq!(fs::read_to_string(&out).unwrap(), format!("{module}{code}{FUNCTIONS}{unwinding}"));
    let (_, complaints, status) = run(&["symbols", &exe, &out, "--pdb", &pdb]);
    assert!(complaints.ends_with("crash.sym: it exists; --replace replaces it\n") && status == 3, "{complaints}");
}

/// Without a PDB functions have the names of COFF symbols and of exports. Without a function table these are public.
#[test]
fn names_of_an_image() {
    let folder = Folder::new("breakpad-image");
    let said = symbols(&[&folder.file("exports.dll", &made::with_exports()), "-"]);
    let zeros = "0".repeat(33);
    assert_eq!(
        said,
        format!(
            "MODULE windows x86_64 {zeros} exports.dll\nINFO CODE_ID 000000006000 exports.dll\n\
                 PUBLIC 1004 0 second\nPUBLIC 90000 0 first\n"
        )
    );
}

#[test]
fn what_is_refused_is_told_and_nothing_is_written() {
    let folder = folder("breakpad-refused");
    let (exe, pdb, out) = (folder.path("crash.exe"), folder.path("crash.pdb"), folder.path("out.sym"));
    let mut other = of_pieces(crash::PDB);
    let guid = [0xDE, 0xF6, 0xAA, 0xC4, 0xF4, 0x03];
    let at = other.windows(6).position(|it| it == guid).unwrap();
    other[at] ^= 1;
    let another = folder.file("another.pdb", &other);
    let none = folder.file("none.exe", &made::with_exports());
    for (words, why, wanted) in [
        (
            vec![&exe, "--pdb", &another],
            format!("of another build: C4AAF6DF{}, and the image names {KEY}", &KEY[8..]),
            1,
        ),
        (vec![&none, "--pdb", &pdb], "it names no PDB".to_string(), 1),
        (vec![&exe, "--pdb", &exe], "not a PDB 7.0 (PDB_MAGIC)".to_string(), 1),
        (vec![&pdb, "--pdb", &pdb], "invalid magic number (BAD_MAGIC)".to_string(), 1),
        (vec![&exe, "--pdb", "/nowhere/a.pdb"], "No such file or directory (os error 2)".to_string(), 3),
    ] {
        let (text, complaints, status) = run(&[&["symbols"], &words[..1], &[&out], &words[1..]].concat());
        assert!(complaints.contains(&why), "{complaints}");
        assert_eq!((text.as_str(), status, fs::metadata(&out).is_ok()), ("", wanted, false), "{complaints}");
    }
    // A module that is damaged costs its own lines: the file is written with the others.
    let mut damaged = of_pieces(crash::PDB);
    let at = damaged.windows(4).position(|it| it == [0xF2, 0, 0, 0]).unwrap();
    damaged[at + 7] = 0x7F;
    let damaged = folder.file("damaged.pdb", &damaged);
    let (_, complaints, status) = run(&["symbols", &exe, &out, "--pdb", &damaged]);
    assert!(
        complaints.contains("lines of ") && complaints.contains("PDB_RECORD_TRUNCATED") && status == 1,
        "{complaints}"
    );
    let written = fs::read_to_string(&out).unwrap();
    assert!(written.contains("FUNC 1000 1f 0 middle\nFUNC 1020 15 0 reads\n"), "{written}");
    // An annotation that is refused costs the inlined functions of its function, whose lines are then those of the calls.
    let mut damaged = of_pieces(crash::PDB);
    let at = damaged.windows(4).position(|it| it == [0x0B, 0x26, 4, 0x0B]).unwrap();
    damaged[at] = 14;
    let damaged = folder.file("damaged.pdb", &damaged);
    let (written, complaints, status) = run(&["symbols", &exe, "-", "--pdb", &damaged]);
    assert!(complaints.contains("crash.obj: annotation of an inlined function") && status == 1, "{complaints}");
    assert!(written.contains("FUNC 1020 15 0 reads\n1020 6 7 0\n1026 f 8 0\n"), "{written}");
}

/// The frames of the first thread of the dump, by symbols, with what is said of the PDB of its module.
fn stack(folder: &Folder, places: &str) -> (Value, Value) {
    let words =
        ["stack", &folder.path("crash.dmp"), "--json", "--images", &folder.path("crash.exe"), "--symbols", places];
    let (out, complaints, status) = run(&words);
    assert_eq!((complaints.as_str(), status), ("", 0));
    let said: Value = serde_json::from_str(&out).unwrap();
    (said["threads"][0]["frames"].clone(), said["modules"][0]["pdb"].clone())
}

/// A symbol file names what its PDB does, where symbol servers of Breakpad have it, beside others, or named by itself.
#[test]
fn symbol_files_name_what_a_pdb_does() {
    let folder = folder("breakpad-read");
    let (wanted, _) = stack(&folder, &folder.path("crash.pdb"));
    assert_eq!(wanted[0]["function"]["inlined"].as_array().map(Vec::len), Some(2));
    let text = symbols(&[&folder.path("crash.exe"), "--pdb", &folder.path("crash.pdb"), "-"]);
    for place in [
        format!("s/crash.pdb/{KEY}/crash.sym"),
        format!("s/CRASH.PDB/{}/Crash.SYM", KEY.to_lowercase()),
        "s/crash.sym".into(),
    ] {
        let path = folder.0.join(&place);
        fs::create_dir_all(path.parent().unwrap()).unwrap();
        fs::write(&path, &text).unwrap();
        for places in [folder.path("s"), path.to_str().unwrap().to_string()] {
            let (frames, pdb) = stack(&folder, &places);
            assert_eq!((&frames, &pdb["state"], &pdb["frames"]), (&wanted, &json!("read"), &json!(4)), "{place}");
            assert!(pdb["file"].as_str().unwrap().to_lowercase().ends_with("crash.sym"));
        }
        fs::remove_dir_all(folder.0.join("s")).unwrap();
    }
    assert_eq!(wanted[0]["function"]["line"], 8);
}

/// Functions that are inlined, as other writers of such files list them.
#[test]
fn inlined_functions_of_a_symbol_file() {
    let folder = folder("breakpad-inlined");
    let text = format!(
        "MODULE windows x86_64 {KEY} crash.pdb\nFILE 0 a.c\nFILE 1 b.h\nINLINE_ORIGIN 0 checks(int)\nINLINE_ORIGIN 1 at\n\
         FUNC 1020 15 0 reads(int*)\nINLINE 0 7 0 0 1026 b\nINLINE 1 3 1 1 102c 5\n1020 6 6 0\n1026 b 2 1\n"
    );
    let (frames, _) = stack(&folder, &folder.file("crash.sym", text.as_bytes()));
    let function = &frames[0]["function"];
    assert_eq!(
        (&function["name"], &function["file"], &function["line"], &function["offset"]),
        (&json!("reads(int*)"), &json!("a.c"), &json!(7), &json!(0xF))
    );
    let inlined: Vec<Value> =
        function["inlined"].as_array().unwrap().iter().map(|it| json!([it["name"], it["file"], it["line"]])).collect();
    assert_eq!(inlined, [json!(["at", "b.h", 2]), json!(["checks(int)", "b.h", 3])]);
    assert_eq!(frames[1]["function"], json!(null));
}

#[test]
fn symbol_files_that_are_not_read() {
    let folder = folder("breakpad-not-read");
    let of = |text: &str| stack(&folder, &folder.file("crash.sym", text.as_bytes())).1;
    let other = of("MODULE windows x86_64 C4AAF6DE03F43CF24C4C44205044422E2 crash.pdb\n");
    assert_eq!(
        (&other["state"], &other["found_key"]),
        (&json!("another-build"), &json!("C4AAF6DE03F43CF24C4C44205044422E2"))
    );
    for (text, why) in [
        (format!("MODULE windows x86_64 {KEY} crash.pdb\nFUNC 1 1 0 a\nFUNC 1g 1 0 a\n"), "line 3: invalid number"),
        (format!("MODULE windows x86_64 {KEY} crash.pdb\n1 1 1 1\n"), "line 2: a line of no function"),
        ("MODULE x\n".to_string(), "line 1: the line MODULE has not four parts and a name"),
    ] {
        let said = of(&text);
        assert_eq!(
            (&said["state"], &said["reason"], &said["frames"]),
            (&json!("not-read"), &json!(why), &json!(0)),
            "{text}"
        );
    }
}

// ---- STACK CFI

/// The registers of a frame and the memory of its stack.
struct Machine<'m> {
    registers: BTreeMap<String, u64>,
    memory: &'m [u64],
}

impl Machine<'_> {
    fn word(&self, address: u64) -> u64 {
        self.memory[((address - STACK) / 8) as usize]
    }

    /// The value of a rule, in Polish notation.
    fn value(&self, rule: &str, cfa: Option<u64>) -> u64 {
        let mut stack: Vec<u64> = Vec::new();
        for part in rule.split(' ') {
            let value = match part {
                "+" | "-" => {
                    let (right, left) = (stack.pop().unwrap(), stack.pop().unwrap());
                    if part == "+" {
                        left.wrapping_add(right)
                    } else {
                        left.wrapping_sub(right)
                    }
                }
                "^" => self.word(stack.pop().unwrap()),
                ".cfa" => cfa.unwrap(),
                it if it.starts_with('$') => self.registers[&it[1..]],
                it => it.parse().unwrap(),
            };
            stack.push(value);
        }
        assert_eq!(stack.len(), 1, "{rule}");
        stack[0]
    }
}

/// The rules at an RVA: those of the line INIT of its function, and of the lines after it up to the RVA.
fn rules_at(text: &str, rva: u64) -> Option<BTreeMap<String, String>> {
    let hex = |it: &str| u64::from_str_radix(it, 16).unwrap();
    let mut rules: Option<BTreeMap<String, String>> = None;
    for line in text.lines().filter_map(|it| it.strip_prefix("STACK CFI ")) {
        let (head, rest) = match line.strip_prefix("INIT ") {
            Some(line) => {
                let parts: Vec<&str> = line.splitn(3, ' ').collect();
                let (start, size) = (hex(parts[0]), hex(parts[1]));
                if rules.is_some() {
                    return rules;
                }
                rules = (start..start + size).contains(&rva).then(BTreeMap::new);
                (start, parts[2])
            }
            None => line.split_once(' ').map(|(at, rest)| (hex(at), rest)).unwrap(),
        };
        let Some(known) = rules.as_mut().filter(|_| head <= rva) else { continue };
        let mut name = String::new();
        for part in rest.split(' ') {
            match part.strip_suffix(':') {
                Some(own) => {
                    name = own.to_string();
                    known.insert(name.clone(), String::new());
                }
                None => {
                    let rule = known.get_mut(&name).unwrap();
                    *rule += if rule.is_empty() { "" } else { " " };
                    *rule += part;
                }
            }
        }
    }
    rules
}

/// The registers of the caller.
fn caller(text: &str, machine: &Machine) -> BTreeMap<String, u64> {
    let rules = rules_at(text, machine.registers["rip"] - BASE).expect("rules of the function");
    let cfa = machine.value(&rules[".cfa"], None);
    let mut registers = machine.registers.clone();
    for (name, rule) in &rules {
        let value = machine.value(rule, Some(cfa));
        match name.as_str() {
            ".cfa" => registers.insert("rsp".into(), value),
            ".ra" => registers.insert("rip".into(), value),
            it => registers.insert(it[1..].into(), value),
        };
    }
    registers
}

/// An image of five functions of 0x20 bytes, each with what its prolog does: one with a frame register; one that saves a register above
/// its frame, as MSVC does; a part of the first, chained to it; one of an interrupt; and one with much stack.
fn prologs() -> Vec<u8> {
    let mut made = made::Made::new(made::X64);
    made.characteristics = 0x6000_0020;
    made.content.resize(0x200, 0x90);
    let records: [&[u8]; 5] = [
        &[1, 0x11, 6, 0x25, 0x11, 0x34, 6, 0, 0x0C, 0x03, 0x07, 0x72, 0x03, 0xC0, 0x01, 0x50],
        &[1, 0x0A, 4, 0, 0x0A, 0x34, 6, 0, 0x0A, 0x32, 0x06, 0x70],
        &[0x21, 0x04, 2, 0x25, 0x04, 0x64, 5, 0],
        &[1, 5, 3, 0, 5, 0x32, 1, 0x30, 0, 0x1A, 0, 0],
        &[1, 7, 2, 0, 7, 0x01, 0x20, 0],
    ];
    let mut table: Vec<u32> = Vec::new();
    for (number, record) in (0..).zip(records) {
        let begin = made::ADDRESS + 0x20 * number;
        let at = made.put(record);
        if number == 2 {
            let first: Vec<u32> = table[..3].to_vec();
            made.put_words(&first);
        }
        table.extend([begin, begin + 0x20, at]);
    }
    table.push(0);
    let size = 4 * (table.len() as u32 - 1);
    let table = made.put_words(&table);
    made.directory(made::EXCEPTIONS, table, size);
    made.image()
}

/// A dump of a thread at an RVA of such an image, with these words on its stack. The registers that are frames are in the stack.
fn stopped_at(rva: u64, rsp: u64, rbp: u64, stack: &[u64]) -> Vec<u8> {
    let words: Vec<u8> = stack.iter().flat_map(|it| it.to_le_bytes()).collect();
    let mut data = [made::context(BASE + rva, rsp), words].concat();
    data[0xA0..0xA8].copy_from_slice(&rbp.to_le_bytes());
    let streams = [
        made::x64_system(),
        made::threads(&[(0x24, made::DUMP_DATA)]),
        made::modules(&[(BASE, 0x6000, 0, 0, [0, 0])]),
        made::pieces(&[(STACK, 8 * stack.len() as u32, made::DUMP_DATA + 1232)]),
    ];
    made::dump_of(&streams, &data)
}

/// At each byte of each function the caller is the one that the library finds by its proved unwinder.
#[test]
fn stack_cfi_leads_to_the_same_callers() {
    let folder = Folder::new("breakpad-cfi");
    let image = folder.file("a.exe", &prologs());
    let text = nameless_symbols(&image);
    // Each word is an address of the image, and another one.
    let stack: Vec<u64> = (0..160).map(|it| if it % 3 == 0 { BASE + 0x1100 + it } else { STACK + 8 * it }).collect();
    let (mut compared, mut changed) = (0, 0);
    for rva in 0x1000..0x10A0u64 {
        let dump = folder.file("a.dmp", &stopped_at(rva, STACK + 0x80, STACK + 0x100, &stack));
        let (out, _, _) = run(&["stack", &dump, "--json", "--registers", "--images", &image]);
        let said: Value = serde_json::from_str(&out).unwrap();
        let frames = said["threads"][0]["frames"].as_array().unwrap();
        let registers =
            |it: &Value| -> BTreeMap<String, u64> { serde_json::from_value(it["registers"].clone()).unwrap() };
        let machine = Machine { registers: registers(&frames[0]), memory: &stack };
        let found = caller(&text, &machine);
        let Some(next) =
            frames.get(1).filter(|it| ["records", "leaf", "interrupt"].contains(&it["way"].as_str().unwrap()))
        else {
            continue;
        };
        assert_eq!(found, registers(next), "{rva:x}");
        compared += 1;
        changed += usize::from(found["rbp"] != machine.registers["rbp"])
            + usize::from(found["rbx"] != machine.registers["rbx"]);
    }
    assert!(compared > 140 && changed > 60, "{compared} {changed}");
}

/// By the instructions that the image of the tests names: after each store of a prolog, and in the epilog before each load.
#[test]
fn stack_cfi_of_arm64() {
    let folder = Folder::new("breakpad-arm64");
    let text = nameless_symbols(&folder.file("a.dll", &made::with_arm64_calls()));
    let rules: String = text.lines().filter(|it| it.starts_with("STACK")).map(|it| format!("{it}\n")).collect();
    assert_eq!(
        rules,
        "STACK CFI INIT 5000 20 .cfa: sp 0 + .ra: x30\n\
         STACK CFI 5004 .cfa: sp 16 + x19: .cfa 16 - ^ x20: .cfa 8 - ^\n\
         STACK CFI 5008 .cfa: sp 48 + .ra: .cfa 40 - ^ x29: .cfa 48 - ^ x30: .cfa 40 - ^\n\
         STACK CFI 500c .cfa: x29 48 +\n\
         STACK CFI 5014 .cfa: sp 48 +\n\
         STACK CFI 5018 .cfa: sp 16 + .ra: x30 x29: x29 x30: x30\n\
         STACK CFI 501c .cfa: sp 0 + x19: x19 x20: x20\n\
         STACK CFI INIT 5020 20 .cfa: sp 0 + .ra: x30\n\
         STACK CFI 5028 .cfa: sp 16 + .ra: .cfa 8 - ^ x29: .cfa 16 - ^ x30: .cfa 8 - ^\n\
         STACK CFI 502c .cfa: x29 16 +\n"
    );
}

/// The frames of the dump of a crash are those of `pe stack`, one after the other.
#[test]
fn a_dump_is_walked_by_its_symbol_file() {
    let folder = folder("breakpad-walk");
    let text = symbols(&[&folder.path("crash.exe"), "--pdb", &folder.path("crash.pdb"), "-"]);
    let words = ["stack", &folder.path("crash.dmp"), "--json", "--registers", "--images", &folder.path("crash.exe")];
    let said: Value = serde_json::from_str(&run(&words).0).unwrap();
    let frames = said["threads"][0]["frames"].as_array().unwrap();
    let dump = of_pieces(crash::DUMP);
    let parsed = pe_c::Dump::parse(&dump).unwrap();
    let memory = pe_c::DumpMemory::new(&parsed);
    let piece = memory.pieces()[0];
    let bytes = &dump[piece.offset as usize..][..piece.length as usize];
    let words: Vec<u64> = bytes.chunks_exact(8).map(|it| u64::from_le_bytes(it.try_into().unwrap())).collect();
    let base = 0x1_4000_0000;
    let mut registers: BTreeMap<String, u64> = serde_json::from_value(frames[0]["registers"].clone()).unwrap();
    for frame in &frames[1..] {
        // The reader takes stacks from one address on, and one base.
        let moved = |it: u64| it.wrapping_sub(piece.start).wrapping_add(STACK);
        let mut own = registers.clone();
        own.insert("rsp".into(), moved(registers["rsp"]));
        let called = u64::from(frame["ip_va"] != frames[1]["ip_va"]);
        own.insert("rip".into(), registers["rip"] - base + BASE - called);
        let machine = Machine { registers: own, memory: &words };
        registers = caller(&text, &machine);
        let rsp = registers["rsp"].wrapping_sub(STACK).wrapping_add(piece.start);
        registers.insert("rsp".into(), rsp);
        assert_eq!((registers["rip"], rsp), (frame["ip_va"].as_u64().unwrap(), frame["sp_va"].as_u64().unwrap()));
    }
    assert_eq!(frames.len(), 4);
}

/// Names are in COFF symbols, exports and PDB files: this image has none of them.
#[test]
fn a_symbol_file_without_functions_says_so() {
    let folder = Folder::new("nameless");
    let out = nameless_symbols(&folder.file("a.exe", made::SMALL));
    assert!(out.starts_with("MODULE windows x86_64 000000000000000000000000000000000 a.exe\n"), "{out}");
}
