//! The page of `pe report`: by its text, and in Chromium where that is installed.

mod limited;
#[path = "../../rust/tests/made/mod.rs"]
mod made;
mod running;

use running::{run, Folder};
use serde_json::Value;
use std::fs;
use std::process::{Command, Stdio};

/// Elements that have no end.
const VOID: [&str; 2] = ["meta", "input"];
/// All elements of a page.
const ELEMENTS: &str =
    "html head meta title style body header h1 h2 p section ul li b code div input output main details \
                        summary span table thead tbody tr th td dl dt dd svg text rect path a footer nav script";

/// The page of a file, and the status of the run.
fn page_of(folder: &Folder, file: &str) -> (String, i32) {
    let to = folder.0.join("page.html");
    let _ = fs::remove_file(&to);
    let (out, _, status) = run(&["report", file, to.to_str().unwrap()]);
    assert_eq!(out, "");
    (fs::read_to_string(to).unwrap(), status)
}

/// The markup of a page, without what stands in its style sheet and its script.
fn markup_of(page: &str) -> String {
    let cut = |text: &str, start: &str, end: &str| {
        let (before, rest) = text.split_once(start).unwrap();
        let (_, after) = rest.split_once(end).unwrap();
        format!("{before}{start}{end}{after}")
    };
    cut(&cut(page, "<style>", "</style>"), "<script>", "</script>")
}

/// Fails unless each tag is one of the page's own elements, and each element ends before the one around it.
fn assert_well_formed(page: &str) {
    let markup = markup_of(page);
    let mut open = Vec::new();
    for tag in markup.strip_prefix("<!doctype html>\n").unwrap().split('<').skip(1) {
        let (tag, text) = tag.split_once('>').unwrap_or_else(|| panic!("no end of <{tag}"));
        assert!(!text.contains('>'), "{text}");
        let name = tag.trim_start_matches('/').split(' ').next().unwrap();
        assert!(ELEMENTS.split_whitespace().any(|it| it == name), "<{tag}>");
        if tag.starts_with('/') {
            assert_eq!(open.pop(), Some(name), "<{tag}>");
        } else if !VOID.contains(&name) {
            open.push(name);
        }
    }
    assert!(open.is_empty(), "{open:?}");
    assert_eq!(markup.matches("<script").count(), 1);
    assert!(page.chars().all(|it| it == '\n' || !it.is_control()));
}

/// The tables of a page, and how many rows the JSON says that each has.
fn tables_of(all: &Value) -> Vec<(&'static str, usize)> {
    let count = |list: &Value| list.as_array().map_or(0, Vec::len);
    let libraries = all["imports"].as_array().cloned().unwrap_or_default();
    vec![
        ("directories", count(&all["headers"]["directories"])),
        ("sections", count(&all["sections"])),
        // A DLL of which no function is listed has a row by itself.
        ("imports", libraries.iter().map(|it| count(&it["functions"]).max(1)).sum()),
        ("exports", count(&all["exports"]["entries"])),
        ("debug", count(&all["debug"]["entries"])),
        ("pogo", count(&all["debug"]["pogo"]["parts"])),
        ("certificates", count(&all["certificates"])),
        ("strings", all["version"]["strings"].as_object().map_or(0, |it| it.len())),
        ("functions", count(&all["functions"])),
    ]
}

fn json_of(file: &str) -> Value {
    serde_json::from_str(&run(&["--json", file]).0).unwrap()
}

/// An image with markup as the names of its section, its exports and its file.
fn hostile(folder: &Folder) -> String {
    let mut bytes = made::with_exports();
    let mut put = |old: &[u8], new: &[u8]| {
        let at = bytes.windows(old.len()).position(|it| it == old).unwrap();
        bytes[at..at + new.len()].copy_from_slice(new);
    };
    put(b".rdata\0\0", b"<b>\xff\x1b\"'&");
    put(b"made.dll\0", b"</title>\0");
    put(b"second\0", b"<i>&\"'\0");
    put(b"NTDLL.RtlFree", b"<script>\n&-->");
    folder.file("<img src=x onerror='document.title=1'>\".exe", &bytes)
}

/// Who makes a page need not open it.
#[test]
fn what_is_refused_stands_on_standard_error_too() {
    let folder = Folder::new("report-errors");
    let image = folder.file("a.exe", &made::with_refused_import());
    let (_, error, status) = run(&["report", &image, folder.0.join("a.html").to_str().unwrap()]);
    let why = "import name not NUL-terminated or not UTF-8 (IMPORT_NAME)";
    assert_eq!((error, status), (format!("pe: {image}: imports: {why}\n"), 1));
    let text = folder.file("b.txt", b"text");
    let (page, error, status) = run(&["report", &text, "-"]);
    let why = "image: truncated: 64 bytes needed at offset 0x0 (SHORT); it is a text";
    assert_eq!(
        (page.contains("refused: no image, but a text"), error, status),
        (true, format!("pe: {text}: {why}\n"), 1)
    );
    let dump = folder.file("c.dmp", &made::dump()[..40]);
    let (_, error, status) = run(&["report", &dump, "-"]);
    assert_eq!((error.starts_with(&format!("pe: {dump}: dump: ")), status), (true, 1), "{error}");
}

#[test]
fn a_digest_is_of_a_file_and_not_of_memory() {
    let folder = Folder::new("mapped-digest");
    let file = folder.file("a.exe", made::SMALL);
    assert!(page_of(&folder, &file).0.contains("Authenticode"));
    let (page, _, _) = run(&["report", "--mapped", &file, "-"]);
    assert_eq!((page.contains("<h1>a.exe"), page.contains("Authenticode")), (true, false));
}

#[test]
fn names_are_no_markup() {
    let folder = Folder::new("report-hostile");
    let (page, status) = page_of(&folder, &hostile(&folder));
    assert_eq!(status, 0);
    assert_well_formed(&page);
    assert!(page.contains("<title>&lt;img src=x onerror=&#39;document.title=1&#39;&gt;&quot;.exe: pe</title>"));
    assert!(page.contains("<td>&lt;b&gt;\\xff\\x1b&quot;&#39;&amp;</td>"));
    assert!(page.contains("<dt>name</dt><dd>&lt;/title&gt;</dd>"));
    assert!(page.contains("<td>&lt;i&gt;&amp;&quot;&#39;</td>"));
    assert!(page.contains("<td>to &lt;script&gt;\\x0a&amp;--&gt;</td>"));
}

/// What a page says between its head and its footer.
fn main_of(page: &str) -> &str {
    let (_, rest) = page.split_once("<main>").unwrap();
    rest.split_once("</main>").unwrap().0
}

#[test]
fn a_dump_has_a_page_of_its_stacks() {
    let folder = Folder::new("report-dump");
    let (page, status) = page_of(&folder, &folder.file("a.dmp", &made::full_dump(made::X64)));
    assert_well_formed(&page);
    assert_eq!((status, page.contains("No part is refused.")), (0, true));
    assert!(page.contains("<title>a.dmp: pe</title>"));
    // One element a line, as `tests/golden/dump_page.txt` has it.
    let said = main_of(&page).replace("><", ">\n<") + "\n";
    let golden = std::path::Path::new(env!("CARGO_MANIFEST_DIR")).join("tests/golden/dump_page.txt");
    if std::env::var_os("UPDATE_GOLDEN").is_some() {
        fs::write(&golden, &said).unwrap();
    }
    assert_eq!(said, fs::read_to_string(golden).unwrap());
    let (page, status) = page_of(&folder, &folder.file("b.dmp", b"MDMP"));
    assert_well_formed(&page);
    assert!(page.contains("<li><b>dump</b> truncated <code>SHORT</code></li>"));
    assert_eq!(status, 1);
}

/// What warns of a dump in text is on its page too: here COFF symbols past the end of an image, which name no frame.
#[test]
fn tables_of_names_that_are_refused_are_on_the_page_of_a_dump() {
    let folder = Folder::new("report-names");
    let mut image = made::with_functions();
    // PointerToSymbolTable and NumberOfSymbols.
    image[0x4C..0x54].copy_from_slice(&made::words(&[0x7000_0000, 1]));
    let images = folder.0.join("images");
    fs::create_dir(&images).unwrap();
    fs::write(images.join("a.exe"), image).unwrap();
    let dump = folder.file("a.dmp", &made::dump());
    let words = [dump.as_str(), "--images", images.to_str().unwrap()];
    let text = run(&[&["stack"], &words[..]].concat()).0;
    assert!(text.contains("symbols of ?: ") && text.contains("; they name no frame"), "{text}");
    let page = run(&[&["report", &dump, "-"], &words[1..]].concat()).0;
    assert!(page.contains("<li><b>names of a module</b> ") && !page.contains("No part is refused."), "{page}");
}

#[test]
fn a_page_shows_the_stacks_that_are_asked_for() {
    let folder = Folder::new("report-dump-images");
    let image = folder.file("other name.exe", &made::with_functions());
    let dump = folder.file("a.dmp", &made::dump());
    let (page, _, status) = run(&["report", &dump, "-", "--images", folder.0.to_str().unwrap()]);
    assert_well_formed(&page);
    assert_eq!(status, 0);
    assert!(page.contains("<p>the stack is whole by its records</p>"), "{page}");
    assert!(page.contains(&format!("<td>{image}</td>")), "{page}");
    let (page, _, _) = run(&["report", &dump, "-", "--frames", "0"]);
    assert!(page.contains("<p>there may be more frames</p>") && !page.contains("<tr id=frame-"));
    let (page, error, status) = run(&["report", &dump, "-", "--thread", "37"]);
    assert!(!page.contains("<details id=thread-"));
    assert_eq!((error, status), (format!("pe: {dump}: no thread has the number 37\n"), 1));
    assert_eq!(run(&["report", &dump, "-", "--registers"]).2, 2);
}

/// What would be ignored is refused, and no page is written: also where what is asked for is what there is without it.
#[test]
fn options_of_the_other_kind_of_file_are_refused() {
    let folder = Folder::new("report-ignored");
    let image = folder.file("a.exe", made::SMALL);
    let dump = folder.file("a.dmp", &made::dump());
    let to = folder.0.join("page.html").to_str().unwrap().to_string();
    let there = folder.0.to_str().unwrap();
    let of_dumps = [&["--images", there][..], &["--symbols", there], &["--thread", "36"], &["--frames", "100"]];
    let of_images = [&["--strict"][..], &["--mapped"]];
    for (file, options, of) in [(&image, &of_dumps[..], "a minidump"), (&dump, &of_images, "an image")] {
        for words in options {
            let (out, error, status) = run(&[&["report", file.as_str(), to.as_str()], *words].concat());
            let why = format!("error: {} is of {of}, and FILE is none\n", words[0]);
            assert_eq!((out.as_str(), error.starts_with(&why), status), ("", true, 2), "{file} {words:?}: {error}");
            assert!(error.contains("Usage: pe report "), "{error}");
        }
    }
    assert!(!std::path::Path::new(&to).exists());
    // The others are of either file.
    assert_eq!(run(&["report", &image, "-", "--strict"]).2, 0);
    assert_eq!(run(&["report", &dump, "-", "--thread", "36", "--frames", "100"]).2, 0);
}

#[test]
fn texts_of_a_dump_are_no_markup() {
    let folder = Folder::new("report-dump-hostile");
    let mut bytes = made::full_dump(made::X64);
    let at = bytes.windows(10).position(|it| it == b"a\0.\0e\0x\0e\0").unwrap();
    bytes[at..at + 10].copy_from_slice(b"<\0&\0\"\0\x1b\0>\0");
    let (page, status) = page_of(&folder, &folder.file("a.dmp", &bytes));
    assert_well_formed(&page);
    assert_eq!(status, 0);
    assert!(page.contains("<h2>thread 36 &lt;&amp;&quot;\\x1b&gt;, which crashed</h2>"), "{page}");
    assert!(page.contains("<td>&lt;&amp;&quot;\\x1b&gt;+0x5000</td>"));
}

#[test]
fn damaged_dumps_have_pages() {
    let folder = Folder::new("report-dump-damaged");
    let whole = made::full_dump(made::X64);
    for at in (0..whole.len().min(2048)).step_by(7) {
        let mut bytes = whole.clone();
        bytes[at] ^= 0xFF;
        let (page, status) = page_of(&folder, &folder.file("a.dmp", &bytes));
        assert_well_formed(&page);
        assert!(status < 2, "{at}");
    }
}

#[test]
fn pages_stand_alone() {
    let folder = Folder::new("report-alone");
    let (page, _) = page_of(&folder, &folder.file("a.exe", &made::with_imports()));
    for part in ["http:", "https:", "src=", "url(", "@import", "style=", "innerHTML", "eval("] {
        assert!(!page.contains(part), "{part}");
    }
    assert!(page.contains("content=\"default-src 'none'; style-src &#39;sha256-"));
}

#[test]
fn tables_have_the_rows_of_the_json() {
    let folder = Folder::new("report-rows");
    for (name, bytes) in made::all() {
        let file = folder.file(name, &bytes);
        let (page, all) = (page_of(&folder, &file).0, json_of(&file));
        assert_well_formed(&page);
        for (table, count) in tables_of(&all) {
            assert_eq!(page.matches(&format!("<tr id={table}-")).count(), count, "{name} {table}");
        }
    }
}

#[test]
fn maps_show_what_covers_the_file() {
    let folder = Folder::new("report-map");
    let mut bytes = made::with_certificates();
    bytes.extend_from_slice(b"more");
    let (page, _) = page_of(&folder, &folder.file("a.exe", &bytes));
    // The section headers end at 0x170, and the section is at 0x400, of 0x200 bytes; certificates of 24 bytes follow.
    let row = |index: usize, cells: &[&str]| {
        let start = format!("<tr id=regions-{index}><td>{}</td><td>{}</td>", cells[0], cells[1]);
        let numbers: String = cells[2..].iter().map(|it| format!("<td class=n>{it}</td>")).collect();
        assert!(page.contains(&(start + &numbers)), "{cells:?}");
    };
    row(0, &["headers", "", "0x0", "0x170", "368"]);
    row(1, &["section, read-only", ".rdata", "0x400", "0x600", "512"]);
    row(2, &["certificates", "", "0x600", "0x618", "24"]);
    row(3, &["gap", "", "0x170", "0x400", "656"]);
    row(4, &["overlay", "", "0x618", "0x61c", "4"]);
    assert_eq!(page.matches("<a href=\"#regions-").count(), 5);
}

#[test]
fn what_is_refused_comes_first() {
    let folder = Folder::new("report-refused");
    let (page, status) = page_of(&folder, &folder.file("a.exe", &made::with_refused_import()));
    let (before, after) = page.split_once("<h2 id=warnings>1 refused</h2>").unwrap();
    assert!(!before.contains("<main>") && after.contains("<main>"));
    assert!(after
        .starts_with("<ul><li><b>imports</b> import name not NUL-terminated or not UTF-8 <code>IMPORT_NAME</code>"));
    assert_eq!(status, 1);
    let (page, status) = page_of(&folder, &folder.file("b.exe", b"MZ"));
    assert_well_formed(&page);
    assert!(page.contains("<li><b>image</b> truncated <code>SHORT</code></li>"));
    assert_eq!(status, 1);
}

/// The table of each part on the page.
fn table_id(part: &str) -> &str {
    match part {
        "delay_imports" => "delayed",
        "bound_imports" => "bound",
        it => it,
    }
}

#[test]
fn what_is_not_shown_whole_says_so_on_top_and_beside_its_table() {
    let folder = Folder::new("report-limited");
    for (part, name, bytes) in limited::all() {
        let file = folder.file(part, &bytes);
        assert!(json_of(&file).to_string().contains("is_limited\":true"), "{part}");
        let (page, status) = page_of(&folder, &file);
        assert_well_formed(&page);
        assert_eq!(status, 0, "{part}");
        let (before, after) = page.split_once("<main>").unwrap();
        assert!(before.contains("No part is refused."), "{part}");
        let warning = format!(
            "<h2 id=warnings>1 not shown whole</h2><ul><li><b>{name}</b> not shown whole: the image has more</li></ul>"
        );
        assert!(before.contains(&warning), "{part}");
        let (_, table) = after.split_once(&format!("<details id={}", table_id(part))).unwrap();
        let (head, _) = table.split_once("<div").unwrap();
        assert!(head.contains("+</span></summary><p>Not shown whole: the image has more.</p>"), "{part}: {head}");
        // No other table says it.
        assert_eq!(page.matches("Not shown whole").count(), 1, "{part}");
    }
    let (page, _) = page_of(&folder, &folder.file("few", &limited::exports_in_one_text(20)));
    assert!(!page.contains("hown whole"));
    assert!(page.contains("<h2>Exports</h2> <span class=count>20</span>"));
}

#[test]
fn an_image_may_be_refused_in_part_and_not_shown_whole() {
    let folder = Folder::new("report-both");
    let mut bytes = limited::exports_in_one_text(4000);
    // A debug directory that no section maps: the seventh, of directories from 0xC8 on.
    let entry = 0xC8 + 8 * made::DEBUG;
    bytes[entry..entry + 8].copy_from_slice(&[0, 0, 0, 0x70, 28, 0, 0, 0]);
    let (page, status) = page_of(&folder, &folder.file("a.exe", &bytes));
    assert!(page.contains("<h2 id=warnings>1 refused, 1 not shown whole</h2><ul><li><b>debug data</b> "));
    assert_eq!(status, 1);
}

#[test]
fn pages_are_new_files() {
    let folder = Folder::new("report-new");
    let file = folder.file("a.exe", made::SMALL);
    let page = page_of(&folder, &file).0;
    let to = folder.0.join("page.html");
    let (_, error, status) = run(&["report", &file, to.to_str().unwrap()]);
    assert_eq!((error.contains("page.html: "), status), (true, 3));
    assert_eq!(run(&["report", &file, "-"]).0, page);
}

#[test]
fn damaged_images_have_pages() {
    let folder = Folder::new("report-damaged");
    let mut state = 1u64;
    let mut next = move || {
        state = state.wrapping_mul(6_364_136_223_846_793_005).wrapping_add(1);
        (state >> 33) as usize
    };
    for (name, bytes) in made::all() {
        for number in 0..20 {
            let mut damaged = bytes.clone();
            for _ in 0..1 + next() % 8 {
                let at = next() % damaged.len();
                damaged[at] = [0, 1, b'<', b'"', 0x80, 0xFF][next() % 6];
            }
            damaged.truncate(if number % 4 == 0 { next() % damaged.len() } else { damaged.len() });
            let (page, status) = page_of(&folder, &folder.file(name, &damaged));
            assert_well_formed(&page);
            assert!(status < 2, "{name} {number}");
        }
    }
}

/// The document that Chromium makes of a page once its script has run, or `None` without Chromium.
fn document_of(folder: &Folder, page: &str, query: &str) -> Option<String> {
    if Command::new("chromium").arg("--version").stdout(Stdio::null()).stderr(Stdio::null()).status().is_err() {
        eprintln!("Debian's package chromium is missing: the page is not tried in a browser");
        return None;
    }
    let file = folder.file("shown.html", page.as_bytes());
    let profile = format!("--user-data-dir={}", folder.0.join("profile").display());
    let ran = Command::new("timeout")
        .args(["60", "chromium", "--headless", "--no-sandbox", "--disable-gpu", "--dump-dom", &profile])
        .arg(format!("file://{file}?q={query}"))
        .output()
        .unwrap();
    assert!(ran.status.success(), "{}", String::from_utf8_lossy(&ran.stderr));
    Some(String::from_utf8(ran.stdout).unwrap())
}

#[test]
fn a_browser_shows_the_rows_of_the_json_and_filters_them() {
    let folder = Folder::new("report-browser");
    for (name, bytes) in made::all().into_iter().filter(|it| ["debug", "exports", "resources"].contains(&it.0)) {
        let file = folder.file(name, &bytes);
        let Some(document) = document_of(&folder, &page_of(&folder, &file).0, "") else { return };
        for (table, count) in tables_of(&json_of(&file)) {
            assert_eq!(document.matches(&format!("<tr id=\"{table}-")).count(), count, "{name} {table}");
        }
    }
    let page = page_of(&folder, &folder.file("a.exe", &made::with_imports())).0;
    let Some(document) = document_of(&folder, &page, "kernel32+sleep") else { return };
    assert!(document.contains("<tr id=\"imports-0\"><td>KERNEL32.dll</td><td>Sleep</td>"), "{document}");
    assert_eq!(document.matches("<tr id=\"imports-").count(), 3);
    assert_eq!(document.matches("hidden=\"\"><td>").count(), document.matches("<tr id=").count() - 1);
    assert!(document.contains("<span class=\"count\">1 of 3</span>"));
    assert!(document.contains(">1 row</output>"));
}

#[test]
fn a_browser_runs_nothing_of_an_image() {
    let folder = Folder::new("report-script");
    let page = page_of(&folder, &hostile(&folder)).0;
    let Some(document) = document_of(&folder, &page, "<script>") else { return };
    assert_eq!((document.matches("<script").count(), document.matches("<img").count()), (1, 0));
    assert!(document.contains("<title>&lt;img src=x onerror='document.title=1'&gt;\".exe: pe</title>"));
    // The script ran, so the policy has its hash: the forwarder has the text that was asked for.
    assert!(document.contains("<tr id=\"exports-0\" hidden=\"\">"));
    assert!(document.contains("<tr id=\"exports-2\">"));
    // A script that the policy does not name does not run.
    let other = page.replace("</body>", "<script>document.title = 1</script></body>");
    let document = document_of(&folder, &other, "").unwrap();
    assert!(!document.contains("<title>1</title>"));
}
