//! What the program says of twenty-three small images, a file that is none, a TE image and an object, byte for byte: a session for
//! each, in `golden/NAME.txt`. `UPDATE_GOLDEN=1 cargo test --test golden` writes the sessions anew; what has changed in them has to
//! be read then, as `golden/README.md` says.

#[path = "../../rust/tests/made/mod.rs"]
mod made;

mod running;

use running::Folder;
use std::fs;
use std::path::PathBuf;
use std::process::Command;

/// Of each image the part that is shown by itself, and the RVAs that are asked for.
const ASKED: &[(&str, &str, &[&str])] = &[
    ("small", "functions", &["1025"]),
    ("debug", "debug", &["1000"]),
    ("old_debug", "debug", &["1000"]),
    ("certificates", "certificates", &["1000"]),
    ("functions", "functions", &["5012", "5032", "4fff"]),
    ("arm64_functions", "functions", &["5000"]),
    ("exports", "exports", &["1000"]),
    ("imports", "imports", &["1000"]),
    ("refused_import", "imports", &["1000"]),
    ("resources", "version", &["1000"]),
    ("tls", "tls", &["1000"]),
    ("relocations", "relocations", &["1000"]),
    ("load_config", "load-config", &["1000"]),
    ("delay_imports", "delay-imports", &["1000"]),
    ("clr", "clr", &["1000"]),
    ("named_resources", "resources", &["1000"]),
    ("rich_header", "rich", &["1000"]),
    ("bound_imports", "bound-imports", &["1000"]),
    ("long_section_name", "sections", &["1000"]),
    ("x86_dll", "sections", &["1004"]),
    ("signature", "certificates", &["1000"]),
    ("guards", "load-config", &["1000"]),
    ("assembly", "clr", &["1000"]),
    ("short", "headers", &["1000"]),
    ("te_image", "debug", &["1000"]),
    ("object", "symbols", &["1000"]),
];

/// Values that follow from how each image is made, as they stand in its session: lines, ends of lines, and fields of JSON.
const MADE: &[(&str, &[&str])] = &[
    (
        "small",
        &[
            "small.bin: PE32+ program for x64, unknown subsystem\n",
            "  entry point   0x1000, image base 0x140000000\n",
            "  functions     2 with unwind data\n",
            "  0x1000  0x1010  0x1020\n  0x1020  0x1040  0x1001\n",
            "  PKCS #7 signed data  0x0200    9      refused: element of a signature truncated before its content (SIG",
            "  Repro  0x0  0x0          0\n",
            "function 0x1020 to 0x1040\n",
            "    after   4 bytes  UWOP_ALLOC          allocate 40 bytes of stack\n",
            "    after   1 bytes  UWOP_PUSH_NONVOL    push rbp\n",
            "\"repro\":{\"hash_hex\":null}",
            "\"file_size\":1040,",
        ],
    ),
    (
        "debug",
        &[
            "  PDB           a.pdb\n  GUID          {497B72F6-390A-44FC-878E-5A2D63B6CC4B}, age 1\n",
            "  symbol key    497B72F6390A44FC878E5A2D63B6CC4B1\n",
            "  Repro         68617368\n",
            "  VC features   before VC 11 1, C and C++ 2, /GS 3, /sdl 4, guardN 5\n",
            "  DLL flags EX  0x41: CET_COMPAT, FORWARD_CFI_COMPAT\n",
            "\nParts of sections (LTCG)\n",
            "  .text$mn  0x1000  16\n  .bss      0x2000  8\n",
            "\n  PDB           a.pdb/497B72F6390A44FC878E5A2D63B6CC4B1/a.pdb\n  image         debug.bin/000000006000/debug.bin\n",
            "\"vc_features\":{\"before_vc_11\":1,\"c_and_cpp\":2,\"gs\":3,\"sdl\":4,\"guard_n\":5}",
            "\"extended_dll_characteristics\":{\"number\":65,\"flags\":{\"CET_COMPAT\":true,",
            "\"type\":{\"number\":2,\"name\":\"CodeView\"},\"size\":30,\"rva\":4096,\"file_offset\":1024,",
            "\"time_date_stamp\":1593835520,\"time\":null}",
        ],
    ),
    (
        "old_debug",
        &[
            "  built         reproducibly\n",
            "  PDB 2.0       b.pdb, 000033337\n",
            "  Repro         the time stamps are a hash\n",
            "\"pdb20\":{\"name\":\"b.pdb\",\"time_date_stamp\":13107,\"time\":\"1970-01-01T03:38:27Z\",\"age\":7}",
            "\"time_date_stamp\":287454020,\"time\":null}",
        ],
    ),
    (
        "certificates",
        &[
            "  certificate   PKCS #7 signed data, 9 bytes, refused: element of a signature truncated before its content (SIGNATURE_",
            "  certificate   X.509, 8 bytes, not verified\n",
            "content (SIGNATURE_TRUNCATED)\n  X.509                0x0100    8\n",
            "  certificate  offset 0x600  24\n",
            "\"directories\":[{\"index\":4,\"name\":\"certificate\",\"rva\":null,\"file_offset\":1536,\"size\":24}]",
        ],
    ),
    (
        "functions",
        &[
            "  0x5000  0x5010  0x1030\n",
            "  0x5020  0x5028  0x1001\n",
            "function 0x5010 to 0x5020\n  record of version 1, a prolog of 5 bytes\n",
            "    after   5 bytes  UWOP_SAVE_NONVOL    save rbx at [rbp - 0 + 40]\n",
            "    after   8 bytes  UWOP_ALLOC          allocate 32 bytes of stack\n",
            "    after   4 bytes  UWOP_SET_FPREG      set rbp to rsp + 32\n",
            "    after   1 bytes  UWOP_PUSH_NONVOL    push rbp\n    exception handler at 0x1100\n",
            "\"handler_kind\":\"exception\",\"handler_rva\":4352",
            "covers 0x4fff: if code is there, it is a leaf function\n",
            "\"records_error\":{\"number\":22,\"name\":\"FUNCTION_CYCLE\",",
        ],
    ),
    (
        "arm64_functions",
        &[
            ": PE32+ program for ARM64, unknown subsystem\n",
            "function 0x5000 to 0x5010\n",
            "{\"start_rva\":20496,\"end_rva\":null,\"unwind\":4112}",
        ],
    ),
    (
        "exports",
        &[
            "  exports       3, 1 of them forwarders\n",
            "\nExports of made.dll\n",
            "  5        0x1004   second\n  6        0x90000  first\n  8        0x1060           to NTDLL.RtlFree\n",
            "\"ordinal_base\":5",
        ],
    ),
    (
        "imports",
        &[
            "  imports       KERNEL32.dll 2, a.dll 1\n",
            "\nImports from KERNEL32.dll\n  Sleep\n  #17\n\nImports from a.dll\n  f\n",
            "{\"name\":\"Sleep\",\"hint\":42,\"ordinal\":null,\"slot_rva\":32768},{\"name\":null,\"hint\":null,\"ordinal\":17,",
            "\"slot_rva\":32776}",
        ],
    ),
    (
        "refused_import",
        &["  warning       imports: import name not NUL-terminated or not UTF-8 (IMPORT_NAME)\n", "\nstatus 1\n"],
    ),
    (
        "resources",
        &[
            "  product       made\n  company       Größe & Söhne \u{1F600}\n",
            "  version       3.11.3150.1013, of the product 1.2.3.4\n  manifest      11 bytes\n",
            "\"CompanyName\":\"Größe & Söhne \u{1F600}\",\"ProductName\":\"made\"",
            "\"manifest\":{\"size\":11,\"requested_level\":null}",
            "  resources     2, of 2 types\n",
            "\"type\":{\"id\":24,\"name\":\"manifest\"},\"name\":{\"id\":1,",
        ],
    ),
    (
        "tls",
        &[
            "  TLS           8 bytes, 2 callbacks\n",
            "\nThread-local storage\n  data          0x180001040 to 0x180001048, and 12 zeros\n",
            "  index         0x180001050\n  flags         0x300000\n  callback      0x180002000\n  callback      0x180002010\n",
            "\"tls\":{\"start_va\":6442455104,\"end_va\":6442455112,\"index_va\":6442455120,\"zero_fill\":12,",
            "\"characteristics\":3145728,\"callbacks\":[6442459136,6442459152],\"callbacks_error\":null,",
        ],
    ),
    (
        "relocations",
        &[
            "  relocations   3 in 2 pages\n",
            "\"page_rva\":4096,\"types\":[{\"type\":{\"number\":3,\"name\":\"HIGHLOW\"},\"count\":1},",
            "{\"type\":{\"number\":10,\"name\":\"DIR64\"},\"count\":1}],\"error\":null}",
            "\"page_rva\":20480,\"types\":[{\"type\":{\"number\":0,\"name\":\"ABSOLUTE\"},\"count\":2},",
            "{\"type\":{\"number\":4,\"name\":\"HIGHADJ\"},\"count\":1}],\"error\":null}",
        ],
    ),
    (
        "load_config",
        &[
            "  load config   148 bytes, guard flags 0x10000500: CF_INSTRUMENTED, CF_FUNCTION_TABLE_PRESENT\n",
            "\nLoad configuration\n  size          148 bytes\n  made          2020-09-13 12:26:40 UTC\n  version       6.1\n",
            "  cookie        0x180002000\n  guard check   0x180003000\n  guard call    0x180003008\n",
            "  guarded       3 at 0x180004000\n  guard flags   0x10000500: CF_INSTRUMENTED, CF_FUNCTION_TABLE_PRESENT\n",
            "  load flags    0x800\n",
            "\"load_config\":{\"size\":148,\"time_date_stamp\":1600000000,\"time\":\"2020-09-13T12:26:40Z\",\"major_version\":6,",
            "\"dependent_load_flags\":2048,\"security_cookie_va\":6442459136,\"se_handler_table_va\":0,",
            "\"guard_cf_function_table_va\":6442467328,\"guard_cf_function_count\":3,",
        ],
    ),
    (
        "delay_imports",
        &[
            "  delay imports dbghelp.dll 2, VERSION.dll 1\n",
            "\nDelay imports from dbghelp.dll\n  SymInitialize\n  #7\n\nDelay imports from VERSION.dll\n  VerQueryValueW\n",
            "{\"name\":\"dbghelp.dll\",\"name_lower\":\"dbghelp.dll\",\"time_date_stamp\":1593835520,\"time\":\"2020-07-04T04:05:20Z\",",
            "\"functions\":[{\"name\":\"SymInitialize\",\"hint\":289,\"ordinal\":null},{\"name\":null,\"hint\":null,\"ordinal\":7}],",
        ],
    ),
    (
        "clr",
        &[
            "  .NET          runtime 2.5, made for v4.0.30319\n",
            "\nCLR header\n  runtime       2.5\n  made for      v4.0.30319, metadata of format 1.1\n",
            "  flags         0x1: ILONLY\n  entry token   0x06000001\n",
            "  metadata               0x1048  76\n  resources              0x2000  16\n",
            "  strong name signature  0x2010  128\n  vtable fixups          0x2090  8\n",
            "  #~        0x40    8\n  #Strings  0x48    5      past the metadata\n",
            "\"name\":\"#Strings\",\"offset\":72,\"size\":5,\"is_there\":false}",
        ],
    ),
    (
        "named_resources",
        &[
            "  resources     2, of 1 type; 1 whose content is not in the file\n",
            "  AB    #1    English (US)  0x1000    5      1252",
            "  AB    #1    German        0x990000  6      0          RVA maps to no file offset\n",
            "  warning       resources: resource data entry above the level of languages (TREE_NOT_DIRECTORY)\n",
            "{\"type\":{\"id\":null,\"name\":\"AB\"},\"name\":{\"id\":1,\"name\":null},\"language\":{\"id\":1033,",
        ],
    ),
    (
        "rich_header",
        &[
            "  Rich header   9 tools\n",
            "\nRich header\n  key           0x25a310c8, the checksum\n",
            "  152   AliasObj1000    20115  1\n  171   Utc1600_CPP     40219  33\n",
            "\"rich\":{\"key\":631443656,\"checksum\":631443656,",
            "{\"product\":152,\"product_name\":\"AliasObj1000\",\"build\":20115,\"count\":1},",
            "{\"product\":171,\"product_name\":\"Utc1600_CPP\",\"build\":40219,\"count\":33}",
        ],
    ),
    (
        "bound_imports",
        &[
            "  bound imports one.dll 1, six.dll 0\n",
            "  one.dll  2003-06-30 09:16:49 UTC\n  two.dll  2003-06-30 09:16:50 UTC  one.dll\n",
            "  six.dll  2003-06-30 09:16:51 UTC\n",
            "{\"name\":\"one.dll\",\"name_lower\":\"one.dll\",\"time_date_stamp\":1056964609,\"time\":\"2003-06-30T09:16:49Z\",",
            "\"forwarders\":[{\"name\":\"two.dll\",\"name_lower\":\"two.dll\",\"time_date_stamp\":1056964610,",
        ],
    ),
    (
        "long_section_name",
        &[
            "  sections      .debug_info",
            "\"name\":\"/4\",\"long_name\":\".debug_info\",",
            // One symbol of 18 bytes and the string table follow the section.
            "  overlay       46 bytes at file offset 0x600; COFF symbols, 46 bytes\n",
            "\"overlay\":{\"file_offset\":1536,\"size\":46,\"symbols_size\":46,\"certificates_size\":0,\"content\":null},",
        ],
    ),
    (
        "x86_dll",
        &[
            "x86_dll.bin: PE32 DLL for x86, Windows GUI\n  built         2020-09-13 12:26:40 UTC by its time stamp\n",
            "  entry point   0x1004, image base 0x10000000\n  in memory     12288 bytes\n",
            "  sizes         image 12288, headers 1024\n  alignment     sections 4096, file 512\n",
            "  checksum      0x0000111d, right\n  flags         0x2102: EXECUTABLE_IMAGE, 32BIT_MACHINE, DLL\n",
            "  DLL flags     0x140: DYNAMIC_BASE, NX_COMPAT\n",
            "  export     RVA 0x2000  80\n  import     RVA 0x2060  40\n",
            "  .text  r-x          0x1000  16            0x400        512       0.08     859dadec",
            "  .data  rw-          0x2000  512           0x600        512       1.17     92bb578e",
            "\nImports from USER32.dll\n  MessageBoxA\n  #5\n",
            "  1        0x1004  DllMain\n",
            "\n  image         x86_dll.bin/5F5E10003000/x86_dll.bin\n",
            "\"checksum\":4381,\"right_checksum\":4381,\"checksum_state\":\"right\",\"error\":null}",
            "\"hint\":7,\"ordinal\":null,\"slot_rva\":8352},{\"name\":null,\"hint\":null,\"ordinal\":5,\"slot_rva\":8356}",
            "\"flags\":3221225536",
        ],
    ),
    (
        "signature",
        &[
            "\"signer\":{\"subject\":\"CN=A,OU=Two+O=Probe,C=DE\",\"issuer\":\"CN=R\",\"serial_hex\":\"0403\",",
            "\"digest_algorithm\":\"SHA-256\",\"time_stamp\":\"2023-11-14T22:13:20Z\"}",
        ],
    ),
    (
        "guards",
        &[
            "  GuardLongJumpTargetTable        0x1\n  GuardLongJumpTargetCount        0x1\n",
            "  GuardEHContinuationTable        0x180009000\n",
            "\"GuardAddressTakenIatEntryTable\":6442455330,\"GuardAddressTakenIatEntryCount\":1,",
            "Functions that may be called indirectly\n  RVA     flags\n  0x2010  0x1: FID_SUPPRESSED\n  0x2030  0x8: FID_XFG\n",
            "\"guarded_functions\":[{\"rva\":8208,\"flags\":{\"number\":1,\"flags\":{\"FID_SUPPRESSED\":true,",
            "\"guarded_iat_entries\":[{\"rva\":8256,\"flags\":{\"number\":0,",
            "\"se_handlers\":[8272,0,",
            "\"se_handlers_error\":{\"number\":2,\"name\":\"SHORT\",",
        ],
    ),
    (
        "assembly",
        &[
            "  assembly      Own 1.2.3.4, 2 references\n",
            "\"module\":{\"name\":\"m.dll\",\"mvid\":\"{03020100-0504-0706-0809-0A0B0C0D0E0F}\"}",
            "\"assembly\":{\"name\":\"Own\",\"version\":\"1.2.3.4\",\"culture\":null,\"has_public_key\":false}",
            "\"public_key_token_hex\":\"0102030405060708\"}",
        ],
    ),
    (
        "short",
        &[
            "short.bin: refused\n  warning       image: truncated: 64 bytes needed at offset 0x0 (SHORT); it is a DOS or truncated MZ file, as it seems\n",
            "pe: short.bin: truncated: 64 bytes needed at offset 0x0 (SHORT); it is a DOS or truncated MZ file, as it seems\nstatus 1\n",
            "\"file_size\":2,\"error\":{\"number\":2,\"name\":\"SHORT\",\"text\":\"truncated\"},\"file_kind\":null}\nstatus 1\n",
        ],
    ),
    (
        "te_image",
        &[
            "te_image.bin: TE image for x64, EFI application\n  entry point   0x1000, image base 0x0\n",
            "  stripped      296 bytes of headers\n",
            "  debug      RVA 0x50   28\n",
            "  CodeView  0x70  0xffffff00   30\n  PDB           a.pdb\n",
            "  GUID          {13121110-1514-1716-1819-1A1B1C1D1E1F}, age 9\n",
            "pe: te_image.bin: image: ",
            "\"error\":null,\"file_kind\":\"a TE image\",\"headers\":{\"machine\":{\"number\":34404,\"name\":\"x64\"},",
            "\"number_of_sections\":1,\"stripped_size\":296,\"entry_rva\":4096,\"base_of_code_rva\":4096,",
        ],
    ),
    (
        "object",
        &[
            "object.bin: COFF object for x64\n  built         without a time stamp\n",
            "  COFF symbols  12 at file offset 0xa6, 22 bytes of strings\n",
            "  .text  r-x          0x0  0             0x8c         16        ",
            "  .bss   rw-          0x0  0             0x0          0\n",
            "  sections      .text    r-x        16 bytes at 0x8c       █",
            "  symbols       7, 1 of them undefined\n",
            "  0      .file              debug      0x0    0x0   FILE\n",
            "  2      longer_than_eight  .text      0x1    0x20  EXTERNAL\n",
            "  10     five               absolute   0x5    0x0   EXTERNAL\n",
            "  11     outside            undefined  0x0    0x0   EXTERNAL\n",
            "\"error\":null,\"file_kind\":\"a COFF object\",\"headers\":{\"machine\":{\"number\":34404,\"name\":\"x64\"},",
            "{\"index\":2,\"name\":\"longer_than_eight\",\"value\":1,\"section_number\":1,\"section\":\".text\",\"type\":32,",
        ],
    ),
];

fn path_of(name: &str) -> PathBuf {
    PathBuf::from(env!("CARGO_MANIFEST_DIR")).join("tests/golden").join(format!("{name}.txt"))
}

/// Whether the sessions are written anew: then the other tests wait for the next run.
fn is_update() -> bool {
    std::env::var_os("UPDATE_GOLDEN").is_some_and(|it| it == "1")
}

/// A command as it is typed in the folder of the images, what it prints, and its status where that is not 0.
fn step_of(folder: &Folder, words: &[&str]) -> String {
    let ran = Command::new(env!("CARGO_BIN_EXE_pe")).args(words).current_dir(&folder.0).output().unwrap();
    let text = |bytes: Vec<u8>| String::from_utf8(bytes).unwrap();
    let status = match ran.status.code().unwrap() {
        0 => String::new(),
        other => format!("status {other}\n"),
    };
    format!("$ pe {}\n{}{}{status}", words.join(" "), text(ran.stdout), text(ran.stderr))
}

/// All commands for an image: each as text, then each as JSON.
fn session_of(folder: &Folder, name: &str, part: &str, rvas: &[&str]) -> String {
    let file = format!("{name}.bin");
    let mut commands = vec![vec![file.as_str()], vec!["show", &file, "all"], vec!["show", &file, part]];
    commands.extend(rvas.iter().map(|rva| vec!["unwind", &file, rva]));
    commands.extend([vec!["key", &file], vec!["digest", &file], vec!["checksum", &file]]);
    let as_json: Vec<Vec<&str>> = commands.iter().map(|words| [words.as_slice(), &["--json"]].concat()).collect();
    commands.iter().chain(&as_json).map(|words| step_of(folder, words)).collect()
}

/// The images of the tests, a file that is none, a TE image and an object.
fn files() -> Vec<(&'static str, Vec<u8>)> {
    let others = [("short", b"MZ".to_vec()), ("te_image", made::te_image()), ("object", made::object())];
    made::all().into_iter().chain(others).collect()
}

#[test]
fn the_program_says_what_the_golden_texts_say() {
    let folder = Folder::new("golden");
    let mut unlike = Vec::new();
    for (name, bytes) in files() {
        folder.file(&format!("{name}.bin"), &bytes);
        let (_, part, rvas) = ASKED.iter().find(|it| it.0 == name).unwrap();
        let said = session_of(&folder, name, part, rvas);
        if is_update() {
            fs::write(path_of(name), &said).unwrap();
            continue;
        }
        let golden = fs::read_to_string(path_of(name)).unwrap_or_default();
        if said != golden {
            let lines = said.lines().zip(golden.lines()).enumerate();
            let at = lines.filter(|(_, (one, other))| one != other).map(|it| it.0).next();
            unlike.push(format!("{name}.txt, line {:?}", at.map(|it| it + 1)));
        }
    }
    assert!(unlike.is_empty(), "{unlike:?}: read tests/golden/README.md");
}

#[test]
fn golden_texts_have_what_the_images_are_made_of() {
    if is_update() {
        return;
    }
    for (name, values) in MADE {
        let golden = fs::read_to_string(path_of(name)).unwrap();
        for value in *values {
            assert!(golden.contains(value), "{name}.txt lacks {value:?}");
        }
    }
}

#[test]
fn each_image_has_its_text() {
    if is_update() {
        return;
    }
    let wanted: Vec<&str> = files().iter().map(|it| it.0).collect();
    assert_eq!(wanted, ASKED.iter().map(|it| it.0).collect::<Vec<_>>());
    assert_eq!(wanted, MADE.iter().map(|it| it.0).collect::<Vec<_>>());
    let entries = fs::read_dir(path_of("").parent().unwrap()).unwrap().map(|it| it.unwrap().file_name());
    let mut found: Vec<String> =
        entries.filter_map(|it| Some(it.to_str()?.strip_suffix(".txt")?.to_string())).collect();
    // The tests of commands that take no image have one of these.
    let of_commands = ["dump_page", "stack", "symbols", "verify"];
    let mut sorted: Vec<String> = wanted.iter().chain(&of_commands).map(|it| it.to_string()).collect();
    found.sort();
    sorted.sort();
    assert_eq!(found, sorted);
}

/// The lines of a picture of a terminal without their spaces, which are positions there.
fn lines_of_picture(name: &str) -> Vec<String> {
    let path = PathBuf::from(env!("CARGO_MANIFEST_DIR")).join("../../docs/pictures").join(name);
    let svg = fs::read_to_string(path).unwrap();
    let lines = svg.lines().filter(|line| line.starts_with("<text class=\"pe-r"));
    let text_of =
        |line: &str| line.split('<').filter_map(|it| Some(it.split_once('>')?.1.replace("&#160;", ""))).collect();
    lines.map(text_of).collect()
}

#[test]
fn pictures_show_what_the_golden_texts_say() {
    let pictures = [
        ("summary.svg", "x86_dll", "$ pe x86_dll.bin\n"),
        ("unwind.svg", "functions", "$ pe unwind functions.bin 5012\n"),
    ];
    for (picture, name, command) in pictures {
        let golden = fs::read_to_string(path_of(name)).unwrap();
        let session = &golden[golden.find(command).unwrap()..];
        let end = session[1..].find("\n$ ").map_or(session.len(), |it| it + 1);
        let wanted: Vec<String> = session[..end].lines().map(|line| line.replace(' ', "")).collect();
        // A line that is longer than the picture is wide goes on below.
        assert_eq!(lines_of_picture(picture).concat(), wanted.concat(), "{picture}: run tools/make_pictures");
    }
}
