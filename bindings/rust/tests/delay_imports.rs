//! The DLLs of the delay import directory, and what is imported of each.

use crate::facts::as_loaded;
use crate::made::*;
use pe_c::{sys, DelayedFunction, Error, Image, Layout, Mode};

fn strict(bytes: &[u8]) -> Image<'_> {
    Image::parse(bytes, Mode::Strict).unwrap()
}

type Function<'a> = Result<(Option<&'a str>, u32), Error>;

/// Of each DLL its name and its functions.
fn listed<'a>(image: &Image<'a>) -> Vec<Result<(&'a str, Vec<Function<'a>>), Error>> {
    let function = |it: DelayedFunction<'a>| (it.name, it.ordinal);
    let mut imports = image.delay_imports().unwrap();
    let items = imports
        .by_ref()
        .map(|it| it.map(|it| (it.name, it.functions().map(|it| it.map(function)).collect())))
        .collect();
    assert!(imports.next().is_none());
    items
}

/// Where parts of the image stand, from the section's start: names, hints and names, and tables, aligned to 4 bytes.
const DBGHELP: u32 = 0;
const INITIALIZE: u32 = 12;
const FUNCTIONS: u32 = 28;
const VERSION: u32 = 52;
const ENTRIES: usize = 100;

/// The image with other bytes at an offset of the section.
fn changed(at: usize, part: &[u8]) -> Vec<u8> {
    let mut bytes = with_delay_imports();
    let at = OFFSET as usize + at;
    bytes[at..at + part.len()].copy_from_slice(part);
    bytes
}

#[test]
fn delay_imports_are_read() {
    let bytes = with_delay_imports();
    let image = strict(&bytes);
    let first = Ok(("dbghelp.dll", vec![Ok((Some("SymInitialize"), 0x121)), Ok((None, 7))]));
    let second = Ok(("VERSION.dll", vec![Ok((Some("VerQueryValueW"), 0))]));
    assert_eq!(listed(&image), [first.clone(), second.clone()]);
    let memory = as_loaded(&image);
    let module = Image::parse_as(&memory, Mode::Strict, Layout::Mapped).unwrap();
    assert_eq!(listed(&module), [first.clone(), second.clone()]);
    assert!(strict(&with_debug()).delay_imports().unwrap().next().is_none());
    // 64 bytes are two entries, which end with the directory; 32 are one
    let of_size = |size: u8| {
        let mut bytes = with_delay_imports();
        bytes[0xCC + 8 * DELAY_IMPORTS] = size;
        bytes
    };
    assert_eq!(listed(&strict(&of_size(64))), [first.clone(), second]);
    assert_eq!(listed(&strict(&of_size(32))), std::slice::from_ref(&first));
    assert_eq!(listed(&strict(&of_size(63))), [first, Err(Error::SHORT)]);
    assert_eq!(listed(&strict(&of_size(0))), []);
}

/// The DLL's name and index, the function's name and ordinal.
type OfDll<'a> = Result<(&'a str, u64, Option<&'a str>, u32), Error>;

/// The functions of all DLLs.
fn all<'a>(image: &Image<'a>) -> Vec<OfDll<'a>> {
    let mut functions = image.delayed_functions().unwrap();
    let items = functions
        .by_ref()
        .map(|it| it.map(|it| (it.library, it.index, it.function.name, it.function.ordinal)))
        .collect();
    assert!(functions.next().is_none());
    items
}

#[test]
fn functions_of_all_dlls_are_in_one_list() {
    let bytes = with_delay_imports();
    let image = strict(&bytes);
    let by_name = Ok(("dbghelp.dll", 0, Some("SymInitialize"), 0x121));
    let by_ordinal = Ok(("dbghelp.dll", 0, None, 7));
    let second = Ok(("VERSION.dll", 1, Some("VerQueryValueW"), 0));
    assert_eq!(all(&image), [by_name, by_ordinal, second]);
    let memory = as_loaded(&image);
    let module = Image::parse_as(&memory, Mode::Strict, Layout::Mapped).unwrap();
    assert_eq!(all(&module), [by_name, by_ordinal, second]);
    assert!(strict(&with_debug()).delayed_functions().unwrap().next().is_none());
    // an error of a DLL ends the list, and so does one of a function
    assert_eq!(
        all(&strict(&changed(VERSION as usize, &[0xFF]))),
        [by_name, by_ordinal, Err(Error::DIRECTORY_DELAY_IMPORT_NAME)]
    );
    assert_eq!(all(&strict(&changed(ENTRIES + 32 + 16, &[0, 0x90]))), [by_name, by_ordinal, Err(Error::UNMAPPED)]);
    assert_eq!(all(&strict(&changed(FUNCTIONS as usize, &[0, 0x90, 0, 0]))), [Err(Error::UNMAPPED)]);
    // a DLL without a function has none in the list, and counts
    assert_eq!(all(&strict(&changed(FUNCTIONS as usize, &[0; 8]))), [second]);
    // the directory is not mapped
    let mut made = Made::new(X64);
    made.directory(DELAY_IMPORTS, 0x9000, 32);
    assert_eq!(strict(&made.image()).delayed_functions().unwrap_err(), Error::UNMAPPED);
}

#[test]
fn descriptors_have_their_fields() {
    let bytes = with_delay_imports();
    let image = strict(&bytes);
    let imports: Vec<_> = image.delay_imports().unwrap().map(Result::unwrap).collect();
    let first = sys::DelayDescriptor {
        attributes: 1,
        name: ADDRESS + DBGHELP,
        module_handle: 0x9000,
        import_address_table: 0x9010,
        import_name_table: ADDRESS + FUNCTIONS,
        bound_import_address_table: 0x9020,
        unload_information_table: 0x9030,
        time_date_stamp: 0x5F00_0000,
    };
    assert_eq!(imports[0].descriptor(), &first);
    assert_eq!((imports[1].descriptor().name, imports[1].descriptor().module_handle), (ADDRESS + VERSION, 0x9008));
}

/// Without bit 0 of the attributes all addresses are virtual addresses, which have 4 bytes.
#[test]
fn entries_of_old_linkers_have_virtual_addresses() {
    let mut bytes = changed(ENTRIES, &[0]);
    let entry = OFFSET as usize + ENTRIES;
    assert_eq!(listed(&strict(&bytes)), [Err(Error::DIRECTORY_VA_BELOW_BASE)]);
    // the image base is at 0x70
    bytes[0x70..0x78].copy_from_slice(&0x4000_0000u64.to_le_bytes());
    let mut put = |at: usize, value: u32| bytes[at..at + 4].copy_from_slice(&value.to_le_bytes());
    put(entry + 4, 0x4000_0000 + ADDRESS + DBGHELP);
    put(entry + 16, 0x4000_0000 + ADDRESS + FUNCTIONS);
    put((OFFSET + FUNCTIONS) as usize, 0x4000_0000 + ADDRESS + INITIALIZE);
    assert_eq!(
        listed(&strict(&bytes))[0],
        Ok(("dbghelp.dll", vec![Ok((Some("SymInitialize"), 0x121)), Ok((None, 7))]))
    );
    assert_eq!(listed(&strict(&bytes)).len(), 2);
}

#[test]
fn damaged_delay_imports_are_refused() {
    let rva = |value: u32| value.to_le_bytes();
    let second = ENTRIES + 32;
    let items = |at, value| {
        let bytes = changed(at, &rva(value));
        let image = strict(&bytes);
        listed(&image).into_iter().map(|it| it.map(|it| it.0.to_owned())).collect::<Vec<_>>()
    };
    assert_eq!(items(second + 4, 0x9000), [Ok("dbghelp.dll".to_owned()), Err(Error::UNMAPPED)]);
    assert_eq!(items(second + 16, 0x9000), [Ok("dbghelp.dll".to_owned()), Err(Error::UNMAPPED)]);
    // an entry whose name has the address 0 ends the directory, whatever else it has
    assert_eq!(items(second + 4, 0), [Ok("dbghelp.dll".to_owned())]);
    let bytes = changed(VERSION as usize, &[0xFF]);
    assert_eq!(listed(&strict(&bytes))[1], Err(Error::DIRECTORY_DELAY_IMPORT_NAME));
    assert_eq!(Error::DIRECTORY_DELAY_IMPORT_NAME.number(), 307);
    let mut made = Made::new(X64);
    made.directory(DELAY_IMPORTS, 0x9000, 32);
    assert_eq!(strict(&made.image()).delay_imports().unwrap_err(), Error::UNMAPPED);
    made.directory(DELAY_IMPORTS, ADDRESS, 0x4000);
    made.put(&[1]);
    assert_eq!(strict(&made.image()).delay_imports().unwrap_err(), Error::SHORT);
}

#[test]
fn damaged_functions_are_refused() {
    let functions = |bytes: &[u8]| {
        let image = strict(bytes);
        let import = image.delay_imports().unwrap().next().unwrap().unwrap();
        let mut functions = import.functions();
        let items: Vec<_> = functions.by_ref().map(|it| it.map(|it| it.ordinal)).collect();
        assert!(functions.next().is_none());
        items
    };
    let at = FUNCTIONS as usize;
    assert_eq!(functions(&changed(at, &[0, 0x90, 0, 0])), [Err(Error::UNMAPPED)]);
    // the section has 512 bytes: a hint of one byte, and a name that is not NUL-terminated at the end of the file
    assert_eq!(functions(&changed(at, &[0xFF, 0x11, 0, 0])), [Err(Error::SHORT)]);
    let mut bytes = changed(at, &[0xFC, 0x11, 0, 0]);
    let end = bytes.len();
    bytes[end - 2..].copy_from_slice(b"ab");
    assert_eq!(functions(&bytes), [Err(Error::DIRECTORY_DELAY_IMPORT_NAME)]);
    bytes[end - 1] = 0;
    assert_eq!(functions(&bytes), [Ok(0), Ok(7)]);
    // the table of the second DLL ends with the file: no zero follows
    let mut bytes = changed(ENTRIES + 16, &[0xF0, 0x11, 0, 0]);
    bytes[end - 16..].copy_from_slice(&[1, 0, 0, 0, 0, 0, 0, 0x80, 2, 0, 0, 0, 0, 0, 0, 0x80]);
    assert_eq!(functions(&bytes), [Ok(1), Ok(2), Err(Error::SHORT)]);
}
