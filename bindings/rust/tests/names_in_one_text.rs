//! Lists over files of some megabytes whose names all start in one long text, so that to read each by itself takes minutes or hours: the
//! contracts say what a list holds and leave open how its names are read, so only the time shows that they are read together.

use crate::made::*;
use pe_c::{Coff, Error, Image, Mode};
use std::sync::mpsc;
use std::thread;
use std::time::Duration;

/// How many names there are, and how many letters the text has, of which each name leaves out one more than the name before.
const NAMES: u32 = 50_000;
const LETTERS: u32 = 4_000_000;

/// How long a list may take, which takes some tenths of a second.
const LIMIT: Duration = Duration::from_secs(20);

/// What is read of these bytes, in time: the thread that reads is left alone where it takes longer, and ends with the tests.
fn in_time<T: Send + 'static>(bytes: Vec<u8>, read: impl FnOnce(&[u8]) -> T + Send + 'static) -> T {
    let (sender, receiver) = mpsc::channel();
    thread::spawn(move || sender.send(read(&bytes)));
    receiver.recv_timeout(LIMIT).expect("it is read, and in time")
}

fn image(bytes: &[u8]) -> Image<'_> {
    Image::parse(bytes, Mode::Permissive).expect("an image")
}

/// How many names there are, and how many letters they have together.
fn counted<'a>(names: impl Iterator<Item = Result<&'a str, Error>>) -> (u64, u64) {
    names.fold((0, 0), |(count, letters), name| (count + 1, letters + name.expect("a name").len() as u64))
}

/// The same of so many names, of which each has one letter less than the one before, and the first these.
fn expected(names: u32, letters: u32) -> (u64, u64) {
    (names.into(), (0..u64::from(names)).map(|i| u64::from(letters) - i).sum())
}

/// An image in making, which begins with the text, and the RVA of that; the hint of the first name is 0.
fn with_text() -> (Made, u32) {
    let mut made = Made::new(X64);
    made.size_of_image = 0x100_0000;
    let text = made.put(&[&[0, 0][..], &vec![b'a'; LETTERS as usize], b"\0"].concat()) + 2;
    (made, text)
}

/// Appends a table of entries of 64 bits, which ends with one of 0.
fn put_table(made: &mut Made, entries: impl Iterator<Item = u32>) -> u32 {
    made.put_words(&entries.chain([0]).flat_map(|it| [it, 0]).collect::<Vec<_>>())
}

/// A list of one import, and the next such lists, each of the next name.
fn put_tables_of_one(made: &mut Made, text: u32) -> u32 {
    made.put_words(&(0..NAMES).flat_map(|i| [text + i - 2, 0, 0, 0]).collect::<Vec<_>>())
}

/// Appends an import directory of so many DLLs, by the RVAs of the list and the name of each.
fn put_imports(made: &mut Made, dlls: u32, of: impl Fn(u32) -> (u32, u32)) {
    let record = |i| of(i).into();
    let records: Vec<u32> =
        (0..dlls).map(record).flat_map(|[list, name]: [u32; 2]| [list, 0, 0, name, list]).chain([0; 5]).collect();
    let directory = made.put_words(&records);
    made.directory(IMPORTS, directory, 4 * records.len() as u32);
}

/// The same of delay imports.
fn put_delay_imports(made: &mut Made, dlls: u32, of: impl Fn(u32) -> (u32, u32)) {
    let entry = |i| of(i).into();
    let entries: Vec<u32> = (0..dlls)
        .map(entry)
        .flat_map(|[table, name]: [u32; 2]| [1, name, 0, 0, table, 0, 0, 0])
        .chain([0; 8])
        .collect();
    let directory = made.put_words(&entries);
    made.directory(DELAY_IMPORTS, directory, 4 * entries.len() as u32);
}

#[test]
fn names_of_exports() {
    let (mut made, text) = with_text();
    let names = made.put_words(&(0..NAMES).map(|i| text + i).collect::<Vec<_>>());
    let ordinals = made.put(&vec![0; 2 * NAMES as usize]);
    let directory = made.next();
    made.put_words(&[0, 0, 0, 0, 5, 1, NAMES, directory + 40, names, ordinals, 0x1004]);
    made.directory(EXPORTS, directory, 44);
    let found = in_time(made.image(), |bytes| counted(image(bytes).exports().unwrap().map(|it| Ok(it?.name))));
    assert_eq!(found, expected(NAMES, LETTERS));
}

/// Appends an export directory whose exports are all forwarders, with names of so many of them.
fn put_forwarders(made: &mut Made, names: u32, name_table: u32, ordinals: u32) {
    let directory = made.next();
    let text = directory + 40 + 4 * NAMES;
    made.put_words(&[0, 0, 0, 0, 5, NAMES, names, directory + 40, name_table, ordinals]);
    made.put_words(&(0..NAMES).map(|i| text + i).collect::<Vec<_>>());
    made.put(&[&vec![b'a'; LETTERS as usize], &b"\0"[..]].concat());
    made.directory(EXPORTS, directory, text - directory + LETTERS + 1);
}

#[test]
fn texts_of_forwarders() {
    let mut made = Made::new(X64);
    made.size_of_image = 0x100_0000;
    put_forwarders(&mut made, 0, 0, 0);
    let found = in_time(made.image(), |bytes| {
        counted(image(bytes).export_addresses().unwrap().unwrap().iter().map(|it| Ok(it.forwarder.unwrap())))
    });
    assert_eq!(found, expected(NAMES, LETTERS));
}

#[test]
fn texts_of_forwarders_by_name() {
    let mut made = Made::new(X64);
    made.size_of_image = 0x100_0000;
    let name = made.put(b"f\0");
    let names = made.put_words(&vec![name; NAMES as usize]);
    let ordinals = made.put(&(0..NAMES as u16).flat_map(u16::to_le_bytes).collect::<Vec<_>>());
    put_forwarders(&mut made, NAMES, names, ordinals);
    let found =
        in_time(made.image(), |bytes| counted(image(bytes).exports().unwrap().map(|it| Ok(it?.forwarder.unwrap()))));
    assert_eq!(found, expected(NAMES, LETTERS));
}

#[test]
fn names_of_libraries() {
    let (mut made, text) = with_text();
    let list = put_table(&mut made, [].into_iter());
    put_imports(&mut made, NAMES, |i| (list, text + i));
    let found = in_time(made.image(), |bytes| counted(image(bytes).libraries().unwrap().map(|it| Ok(it?.name))));
    assert_eq!(found, expected(NAMES, LETTERS));
}

/// Of each library the end of its list is looked for.
#[test]
fn lists_of_libraries() {
    let entries = 1_000_000;
    let mut made = Made::new(X64);
    made.size_of_image = 0x100_0000;
    let name = made.put(b"a.dll\0");
    let list = put_table(&mut made, (0..entries).map(|_| name));
    put_imports(&mut made, NAMES, |i| (list + 8 * i, name));
    let found = in_time(made.image(), |bytes| {
        let image = image(bytes);
        let libraries: Vec<_> = image.libraries().unwrap().map(Result::unwrap).collect();
        (libraries.len(), libraries[libraries.len() - 1].imports().count())
    });
    assert_eq!(found, (NAMES as usize, (entries - NAMES + 1) as usize));
}

#[test]
fn names_of_imports_of_one_library() {
    let (mut made, text) = with_text();
    let list = put_table(&mut made, (0..NAMES).map(|i| text + i - 2));
    put_imports(&mut made, 1, |_| (list, text + LETTERS - 9));
    let found = in_time(made.image(), |bytes| {
        let image = image(bytes);
        let library = image.libraries().unwrap().next().unwrap().unwrap();
        let found = counted(library.imports().map(|it| Ok(it?.name.unwrap())));
        found
    });
    assert_eq!(found, expected(NAMES, LETTERS));
}

#[test]
fn names_of_imports_of_all_libraries() {
    let (mut made, text) = with_text();
    let lists = put_tables_of_one(&mut made, text);
    put_imports(&mut made, NAMES, |i| (lists + 16 * i, text + i));
    let found = in_time(made.image(), |bytes| {
        let image = image(bytes);
        let imports: Vec<_> = image.imports().unwrap().map(Result::unwrap).collect();
        let names = counted(imports.iter().map(|it| Ok(it.import.name.unwrap())));
        (names, counted(imports.iter().map(|it| Ok(it.library))))
    });
    assert_eq!(found, (expected(NAMES, LETTERS), expected(NAMES, LETTERS)));
}

#[test]
fn names_of_delay_imports() {
    let (mut made, text) = with_text();
    let table = put_table(&mut made, [].into_iter());
    put_delay_imports(&mut made, NAMES, |i| (table, text + i));
    let found = in_time(made.image(), |bytes| counted(image(bytes).delay_imports().unwrap().map(|it| Ok(it?.name))));
    assert_eq!(found, expected(NAMES, LETTERS));
}

#[test]
fn names_of_delayed_functions_of_one_library() {
    let (mut made, text) = with_text();
    let table = put_table(&mut made, (0..NAMES).map(|i| text + i - 2));
    put_delay_imports(&mut made, 1, |_| (table, text + LETTERS - 9));
    let found = in_time(made.image(), |bytes| {
        let image = image(bytes);
        let library = image.delay_imports().unwrap().next().unwrap().unwrap();
        let found = counted(library.functions().map(|it| Ok(it?.name.unwrap())));
        found
    });
    assert_eq!(found, expected(NAMES, LETTERS));
}

#[test]
fn names_of_delayed_functions_of_all_libraries() {
    let (mut made, text) = with_text();
    let tables = put_tables_of_one(&mut made, text);
    put_delay_imports(&mut made, NAMES, |i| (tables + 16 * i, text + i));
    let found = in_time(made.image(), |bytes| {
        let image = image(bytes);
        let functions: Vec<_> = image.delayed_functions().unwrap().map(Result::unwrap).collect();
        let names = counted(functions.iter().map(|it| Ok(it.function.name.unwrap())));
        (names, counted(functions.iter().map(|it| Ok(it.library))))
    });
    assert_eq!(found, (expected(NAMES, LETTERS), expected(NAMES, LETTERS)));
}

/// An image whose directory of bound imports has these bytes, and its end.
fn with_bound(directory: &[u8]) -> Vec<u8> {
    let mut made = Made::new(X64);
    made.size_of_image = 0x200_0000;
    made.put(directory);
    // The address in the headers is a file offset.
    made.directory(BOUND_IMPORTS, OFFSET, directory.len() as u32);
    made.image()
}

/// A name is at most 65,535 bytes after the start of the directory, so there are fewer, and a longer text.
#[test]
fn names_of_bound_imports() {
    let (names, letters) = (8_000_u16, 16_000_000_u32);
    let mut directory: Vec<u8> = (0..names)
        .flat_map(|i| [1, u32::from(names) * 8 + 8 + u32::from(i % 1_000)].map(u32::to_le_bytes).concat())
        .collect();
    directory.extend([0; 8]);
    directory.resize(directory.len() + letters as usize, b'a');
    directory.push(0);
    let found =
        in_time(with_bound(&directory), |bytes| counted(image(bytes).bound_imports().unwrap().map(|it| Ok(it?.name))));
    assert_eq!(found, (8_000, 8 * expected(1_000, letters).1));
}

/// The directory is one text: each DLL has the letters `aa` of it, 0x6161, as its name and as how many forwarders follow it.
#[test]
fn names_of_bound_forwarders() {
    let mut directory = vec![b'a'; LETTERS as usize];
    directory.extend([0; 8]);
    let bytes = with_bound(&directory);
    let name = u64::from(LETTERS) - 0x6161;
    let one = in_time(bytes.clone(), |bytes| {
        let first = image(bytes).bound_imports().unwrap().next().unwrap().unwrap();
        let found = counted(first.forwarders().map(|it| Ok(it?.name)));
        found
    });
    assert_eq!(one, (0x6161, 0x6161 * name));
    let all = in_time(bytes, |bytes| {
        let all = image(bytes).bound_forwarders().unwrap();
        counted(all.map_while(Result::ok).map(|it| Ok(it.forwarder.name)))
    });
    let dlls = u64::from(LETTERS) / 8 / 0x6162;
    assert_eq!(all, (dlls * 0x6161, dlls * 0x6161 * name));
}

#[test]
fn names_of_sections() {
    let sections = 65_279;
    let found = in_time(object_with_names_in_one_text(0, sections, LETTERS), |bytes| {
        let names = Coff::parse(bytes).unwrap().long_section_names().unwrap();
        counted(names.iter().map(|it| Ok(it.unwrap())))
    });
    assert_eq!(found, expected(sections.into(), LETTERS));
}

#[test]
fn names_of_symbols() {
    let found = in_time(object_with_names_in_one_text(NAMES, 0, LETTERS), |bytes| {
        let symbols = Coff::parse(bytes).unwrap().symbols().unwrap().unwrap();
        let named = symbols.clone().named().unwrap();
        assert_eq!(counted(named.iter().map(|it| it.name)), expected(NAMES, LETTERS));
        let found = counted(symbols.map(|it| it.unwrap().name()));
        found
    });
    assert_eq!(found, expected(NAMES, LETTERS));
}
