//! Values that lie close to others: zeros and empty texts that are there, flags that stand alone, sums, loops. Expected values
//! come from how the images are made, by the PE format.

use crate::facts::as_loaded;
use crate::made::*;
use pe_c::{
    Arm64Code, Arm64Operation, Arm64Unwinding, BoundForwarders, Code, Coff, DamagedModule, DebugRecords,
    DirectoryIndex, Dump, Error, Exports, Failure, Frames, FunctionName, Handler, Image, Layout, Libraries, MemoryList,
    MemoryPiece, Mode, Module, NameSource, Operation, Pdb, Registers, Repro, ResourceEditor, ResourceItem,
    ResourceLeaves, ResourceName, Signature, Symbolizer, Te, Text, VersionBlocks, VersionName, Way,
};

fn strict(bytes: &[u8]) -> Image<'_> {
    Image::parse(bytes, Mode::Strict).unwrap()
}

/// An image with functions, each of whose records is put as these bytes.
fn with_records(machine: u16, entries: impl FnOnce(&mut Made) -> Vec<u32>) -> Vec<u8> {
    let mut made = Made::new(machine);
    let words = entries(&mut made);
    let table = made.put_words(&words);
    made.directory(EXCEPTIONS, table, 4 * words.len() as u32);
    made.image()
}

/// What has no default is an argument, and the rest is empty.
#[test]
fn records_by_hand() {
    let (code, arm64) = (Code::new(Operation::SetFrame), Arm64Code::new(Arm64Operation::Nop));
    assert_eq!((code.operation, code.code_offset), (Operation::SetFrame, 0));
    assert_eq!((arm64.operation, arm64.offset, arm64.length), (Arm64Operation::Nop, 0, 0));
    let (failure, module) = (Failure::new(Error::SHORT), DamagedModule::new(Error::SHORT));
    assert_eq!((failure.error, failure.offset, failure.needed, failure.value), (Error::SHORT, 0, 0, None));
    assert_eq!((module.error, module.name.as_str(), module.has_names), (Error::SHORT, "", false));
    let (name, item) = (FunctionName::new(NameSource::Symbol), ResourceItem::new(ResourceName::Id(3)));
    assert_eq!((name.source, name.name, name.start, name.is_nearest), (NameSource::Symbol, None, 0, false));
    assert_eq!((item.name, item.offset, item.is_directory), (ResourceName::Id(3), 0, false));
    assert!(matches!(
        DebugRecords::default(),
        DebugRecords { symbol_key: Ok(None), repro: Ok(None), pogo: Ok(None), .. }
    ));
}

/// What is read goes to other threads, and they share it, but for what names RVAs and keeps what it reads.
#[test]
fn threads_share_what_is_read() {
    fn shared<T: Send + Sync>() {}
    fn sent<T: Send>() {}
    shared::<(Image<'_>, Te<'_>, Coff<'_>, Dump<'_>, Pdb<'_>, Signature<'_>, ResourceEditor<'_>)>();
    shared::<(Exports<'_, '_>, Libraries<'_, '_>, ResourceLeaves<'_, '_>, BoundForwarders<'_>, VersionBlocks<'_>)>();
    sent::<Symbolizer<'_>>();
}

/// Errors have the numbers of the header.
#[test]
fn errors_have_the_numbers_of_the_header() {
    let header = include_str!("../../pe.h");
    for error in [
        Error::MEMORY,
        Error::SHORT,
        Error::BAD_MAGIC,
        Error::HEADER_POINTER,
        Error::IMPORT_NAME,
        Error::CERTIFICATE_REVISION,
        Error::CERTIFICATE_TYPE,
        Error::CERTIFICATE_SIZE,
        Error::CERTIFICATE_TABLE,
        Error::UNMAPPED,
        Error::DEBUG_BOUNDS,
        Error::DEBUG_SIZE,
        Error::DEBUG_DATA,
        Error::POGO_SIZE,
        Error::POGO_NAME,
        Error::EXCEPTION_SIZE,
        Error::EXCEPTION_OFFSET,
        Error::EXCEPTION_BOUNDS,
        Error::FUNCTION_INDEX,
        Error::FUNCTION_LINK,
        Error::FUNCTION_CYCLE,
        Error::UNWIND_VERSION,
        Error::UNWIND_CODE,
        Error::ARM64_VERSION,
        Error::ARM64_STREAM,
        Error::ARM64_CUT,
        Error::RESOURCE_BOUNDS,
        Error::RESOURCE_CYCLE,
        Error::RESOURCE_STRING,
        Error::NO_OPTIONAL_HEADER,
        Error::WRITE_FIT,
        Error::SIGN_NO_DIRECTORY,
        Error::SIGN_TABLE_NOT_LAST,
        Error::SIGN_HEADERS,
        Error::SIGN_SECTION,
        Error::SIGN_TABLE_OFFSET,
        Error::SIGN_TOO_LARGE,
        Error::MISSING,
        Error::BAD_ADDRESS,
        Error::BAD_OPERATION,
        Error::NOT_RISING,
        Error::LONG_CHAIN,
    ] {
        let (name, number) = (error.name().unwrap(), error.number());
        assert!(header.contains(&format!(" PE_C_{name} = {number},")), "{name} {number}");
    }
}

/// The names of version strings are keys in the file, by Microsoft's page in alphabetical order.
#[test]
fn version_texts_have_their_names() {
    let keys = [
        "Comments",
        "CompanyName",
        "FileDescription",
        "FileVersion",
        "InternalName",
        "LegalCopyright",
        "LegalTrademarks",
        "OriginalFilename",
        "PrivateBuild",
        "ProductName",
        "ProductVersion",
        "SpecialBuild",
    ];
    let values = keys.map(|key| format!("the value of {key}"));
    let strings: Vec<_> = keys.into_iter().zip(values.iter().map(String::as_str)).rev().collect();
    let bytes = with_version_strings(&strings);
    let image = strict(&bytes);
    for (name, (key, value)) in VersionName::ALL.into_iter().zip(keys.iter().zip(&values)) {
        assert_eq!(format!("{name:?}"), *key);
        assert_eq!(image.version_text(name).unwrap().unwrap().to_string_lossy(), *value);
    }
}

/// An unpaired surrogate is U+FFFD, a byte alone at the end is none, and the text ends at its zero.
#[test]
fn texts_are_lossy() {
    let text = |units: &[u16]| -> Vec<u8> { units.iter().flat_map(|it| it.to_le_bytes()).collect() };
    for (units, wanted) in [
        (vec![0xD83D, 0x61], "\u{FFFD}a"),
        (vec![0xDE00, 0xD83D, 0xDE00, 0xD83D], "\u{FFFD}\u{1F600}\u{FFFD}"),
        (vec![0x61, 0, 0x62], "a"),
        (vec![0x0161, 0x1234], "\u{161}\u{1234}"),
    ] {
        let bytes = [text(&units), vec![0x62]].concat();
        assert_eq!((Text(&bytes).to_string_lossy().as_str(), Text(&bytes).to_string().as_str()), (wanted, wanted));
    }
}

/// The file alignment has to be a power of two, and rounds the raw end of a section up: of 0x600 to 0x1000.
#[test]
fn the_file_alignment_bounds_sections() {
    let made = |alignment: u32| {
        let mut bytes = with_debug();
        bytes[0x7C..0x80].copy_from_slice(&alignment.to_le_bytes());
        bytes
    };
    for (alignment, first, inside) in
        [(0x200, Some(0x400), None), (0x1000, Some(0x400), Some(0xC00)), (0x300, None, None)]
    {
        let bytes = made(alignment);
        let image = strict(&bytes);
        let size = image.sections()[0].size_of_raw_data;
        assert_eq!((image.info().file_alignment, size), (alignment, 0x200));
        assert_eq!((image.offset(0x1000), image.offset(0x1800)), (first, inside), "{alignment:#x}");
        assert_eq!((image.offset(0x1BFF).is_some(), image.offset(0x1C00)), (inside.is_some(), None));
    }
}

#[test]
fn zeros_are_numbers() {
    // an RVA of 0 is the start of an image as loaded, and in no section of the file
    let mut bytes = with_exports();
    let table = strict(&bytes).info().directory(DirectoryIndex::Export).unwrap().virtual_address + 40;
    let at = offset(table) as usize;
    assert_eq!(bytes[at..at + 4], 0x1004u32.to_le_bytes());
    bytes[at..at + 4].fill(0);
    let second = |image: &Image| {
        let found = image.exports().unwrap().map(Result::unwrap).find(|it| it.name == "second").unwrap();
        (found.rva, found.offset)
    };
    let file = strict(&bytes);
    assert_eq!(second(&file), (0, None));
    let memory = as_loaded(&file);
    assert_eq!(second(&Image::parse_as(&memory, Mode::Strict, Layout::Mapped).unwrap()), (0, Some(0)));
    // a directory is absent where both of its numbers are 0
    let mut bytes = with_debug();
    bytes[0xC8 + 8 * 9 + 4] = 7;
    bytes[0xC8 + 8 * 10] = 5;
    let image = strict(&bytes);
    let numbers = |index| image.info().directory(index).map(|it| (it.virtual_address, it.size));
    assert_eq!((numbers(DirectoryIndex::Tls), numbers(DirectoryIndex::LoadConfig)), (Some((0, 7)), Some((5, 0))));
    assert_eq!(numbers(DirectoryIndex::BoundImport), None);
}

/// A name, a forwarder's text and a hash of no bytes are there.
#[test]
fn empty_texts_are_there() {
    let mut bytes = with_exports();
    for text in [b"made.dll".as_slice(), b"NTDLL.RtlFree"] {
        let at = bytes.windows(text.len()).position(|it| it == text).unwrap();
        bytes[at] = 0;
    }
    let image = strict(&bytes);
    let table = image.export_addresses().unwrap().unwrap();
    assert_eq!(table.name(), Some(""));
    let forwarders: Vec<_> = table.iter().map(|it| it.forwarder).collect();
    assert_eq!(forwarders, [None, None, None, Some("")]);
    // the name's RVA is 0: the DLL has none
    let directory = image.info().directory(DirectoryIndex::Export).unwrap().virtual_address;
    let at = offset(directory) as usize + 12;
    bytes[at..at + 4].fill(0);
    assert_eq!(strict(&bytes).export_addresses().unwrap().unwrap().name(), None);

    let mut bytes = with_imports();
    let at = bytes.windows(5).position(|it| it == b"Sleep").unwrap();
    bytes[at] = 0;
    let image = strict(&bytes);
    let library = image.libraries().unwrap().next().unwrap().unwrap();
    let imports: Vec<_> = library.imports().map(|it| it.unwrap()).map(|it| (it.name, it.ordinal)).collect();
    assert_eq!(imports, [(Some(""), 42), (None, 17)]);

    // a Repro record of a length alone, 0
    let mut bytes = with_debug();
    let at = bytes.windows(8).position(|it| it == b"\x04\0\0\0hash").unwrap();
    bytes[at] = 0;
    assert_eq!(strict(&bytes).repro(), Ok(Some(Repro::Hash(b""))));
}

/// The age of a key is that of its record.
#[test]
fn ages_are_read() {
    let mut bytes = with_debug();
    let at = bytes.windows(4).position(|it| it == b"RSDS").unwrap();
    bytes[at + 20..at + 24].copy_from_slice(&0x2Au32.to_le_bytes());
    let key = strict(&bytes).symbol_key().unwrap().unwrap();
    assert_eq!((key.age, key.to_string().as_str()), (0x2A, "497B72F6390A44FC878E5A2D63B6CC4B2A"));
    let alone = pe_c::SymbolKey::of_record(&bytes[at..at + 30]).unwrap().unwrap();
    assert_eq!((alone, alone.age), (key, 0x2A));
}

/// Flags of a record's first byte: UNW_FLAG_EHANDLER 1, UNW_FLAG_UHANDLER 2. With both it is an exception handler. The data
/// of a termination handler is no scope table, and a handler's RVA may be 0.
#[test]
fn handlers_are_of_two_kinds() {
    for (flags, is_exception, rva) in
        [(1, true, 0x1100), (2, false, 0x1100), (3, true, 0x1100), (1, true, 0), (2, false, 0)]
    {
        let bytes = with_records(X64, |made| {
            let record = made.put(&[1 | flags << 3, 0, 0, 0]);
            made.put_words(&[rva, 1, 0x5002, 0x5008, 0x5100, 0]);
            vec![0x5000, 0x5010, record]
        });
        let image = strict(&bytes);
        let functions = image.functions().unwrap().unwrap();
        let record = functions.record(functions.get(0).unwrap()).unwrap();
        match (record.handler().unwrap(), is_exception) {
            (Handler::Exception(found, data), true) | (Handler::Termination(found, data), false) => {
                assert_eq!((found, &data[..4]), (rva, [1, 0, 0, 0].as_slice()));
            }
            other => panic!("{other:?} of the flags {flags}"),
        }
        let scopes = record.scopes().map(|it| it.map(|it| it.unwrap().handler).collect::<Vec<_>>());
        assert_eq!(scopes, is_exception.then(|| vec![0x5100]), "{flags}");
    }
    // bit 20 of an ARM64 record says that it has a handler
    for (bit, handler) in [(0, None), (1, Some(0))] {
        let bytes = with_records(ARM64, |made| {
            let record = made.put_words(&[bit << 20 | 1 << 21 | 1 << 27]);
            made.put(&[0xE4; 4]);
            made.put_words(&[0, 0x7777_7777]);
            vec![0x5000, record]
        });
        let image = strict(&bytes);
        let functions = image.arm64_functions().unwrap().unwrap();
        let Arm64Unwinding::Record(record) = functions.unwinding(functions.get(0).unwrap()).unwrap() else {
            panic!("a record")
        };
        assert_eq!(record.handler().map(|(rva, _)| rva), handler);
    }
}

/// A frame register with an offset of 0, and a chained function that starts at the RVA 0.
#[test]
fn frames_and_chains_of_zero() {
    let bytes = with_records(X64, |made| {
        let root = made.put(&[1, 0, 0, 5]);
        let chained = made.put(&[0x21, 0, 0, 0]);
        made.put_words(&[0, 0x10, root]);
        vec![0, 0x10, root, 0x5000, 0x5010, chained]
    });
    let image = strict(&bytes);
    let functions = image.functions().unwrap().unwrap();
    let record = |index| functions.record(functions.get(index).unwrap()).unwrap();
    assert_eq!((record(0).frame().map(|it| (it.0 .0, it.1)), record(0).chained()), (Some((5, 0)), None));
    assert_eq!((record(1).frame(), record(1).chained()), (None, functions.get(0)));
}

/// A plan of a ring of records ends with an error, whatever its length and the way into it are.
#[test]
fn rings_end() {
    for (before, ring) in [(0, 1), (0, 2), (0, 3), (0, 7), (1, 5), (4, 4), (9, 16)] {
        let bytes = with_records(X64, |made| {
            let first = made.next();
            // each record is chained to the function of the next, and the last one to the first of the ring
            let at = |i: usize| first + 16 * i as u32;
            for i in 0..before + ring {
                let next = if i + 1 == before + ring { before } else { i + 1 };
                made.put(&[0x21, 0, 0, 0]);
                made.put_words(&[0x5000 + 16 * next as u32, 0x5010 + 16 * next as u32, at(next)]);
            }
            vec![0x5000, 0x5010, at(0)]
        });
        let image = strict(&bytes);
        let functions = image.functions().unwrap().unwrap();
        let items: Vec<_> = functions.plan(functions.get(0).unwrap()).take(1000).collect();
        let (last, others) = items.split_last().unwrap();
        assert_eq!(last.as_ref().err(), Some(&Error::FUNCTION_CYCLE), "{before} {ring}");
        assert!(
            others.len() >= before + ring - 1 && others.iter().all(Result::is_ok),
            "{before} {ring} {}",
            others.len()
        );
    }
}

/// Packed unwind data of a fragment: flag 2. Without a saved register each number but its length is 0.
#[test]
fn packed_fragments_have_their_flag() {
    let packed = |word: u32| {
        let bytes = with_records(ARM64, |_| vec![0x5000, word]);
        let image = strict(&bytes);
        let functions = image.arm64_functions().unwrap().unwrap();
        match functions.unwinding(functions.get(0).unwrap()).unwrap() {
            Arm64Unwinding::Packed(it) => {
                [it.is_packed, it.flag, it.function_length, it.reg_f, it.reg_i, it.h, it.cr, it.frame_size]
            }
            other => panic!("{other:?}"),
        }
    };
    assert_eq!(packed(2 | 25 << 2), [1, 2, 100, 0, 0, 0, 0, 0]);
    assert_eq!(packed(1 | 3 << 2 | 7 << 13), [1, 1, 12, 7, 0, 0, 0, 0]);
    assert_eq!(packed(1 | 3 << 2 | 10 << 16), [1, 1, 12, 0, 10, 0, 0, 0]);
    assert_eq!(packed(1 | 3 << 2 | 1 << 20), [1, 1, 12, 0, 0, 1, 0, 0]);
    assert_eq!(packed(1 | 3 << 2 | 2 << 21 | 9 << 23), [1, 1, 12, 0, 0, 0, 2, 144]);
}

/// What follows the certificates in a file is covered by the digest, as a fourth part.
#[test]
fn digests_cover_what_follows_the_certificates() {
    let bytes = [SMALL, &[0x55; 11]].concat();
    let digest = strict(&bytes).digest_ranges().unwrap();
    assert_eq!(digest.ranges().collect::<Vec<_>>(), [0..0x98, 0x9C..0xE8, 0xF0..0x400, 0x410..0x41B]);
    assert_eq!((digest.slices().last(), digest.zeros()), (Some([0x55; 11].as_slice()), 5));
}

/// A trap stops a function at its first instruction: the frame that the processor pushed has its address, which is no return
/// address, and its stack pointer, where the return address still is.
#[test]
fn interrupts_stop_functions_at_their_start() {
    const BASE: u64 = 0x1_8000_0000;
    let bytes = with_records(X64, |made| {
        let pushes = made.put(&[1, 1, 1, 0, 1, 0x50, 0, 0]);
        let trap = made.put(&[1, 0, 1, 0, 0, 0x0A, 0, 0]);
        vec![0x5000, 0x5010, pushes, 0x5010, 0x5020, trap]
    });
    let image = strict(&bytes);
    // rip, cs, eflags, rsp, ss; then at the lower address of the stopped function its return address
    let words = [BASE + 0x5000, 0x33, 0x202, 0x1_0028, 0x2B, 0xABCD, 0];
    let stack: Vec<u8> = words.iter().flat_map(|it: &u64| it.to_le_bytes()).collect();
    let mut registers = Registers { rip: BASE + 0x5018, ..Registers::default() };
    registers.set_rsp(0x1_0000);
    let modules = [Module::new(&image, BASE).unwrap()];
    let pieces = [MemoryPiece { start: 0x1_0000, offset: 0, length: stack.len() as u64 }];
    let frames = Frames::new(registers, 9, &modules, MemoryList::new(&stack, &pieces).unwrap());
    let found: Vec<_> = frames.map(|it| (it.registers.rip, it.registers.rsp(), it.way)).collect();
    let wanted = [
        (BASE + 0x5018, 0x1_0000, Way::Top),
        (BASE + 0x5000, 0x1_0028, Way::Interrupt),
        (0xABCD, 0x1_0030, Way::Records),
    ];
    assert_eq!(found, wanted);
}

/// The same two bytes, `pop rbp; ret`, are an epilog in the top frame, and after a call they are not: there the code that is
/// about to run has not run, and the frame is in place.
#[test]
fn only_the_top_frame_is_in_an_epilog() {
    const BASE: u64 = 0x1_8000_0000;
    let mut code = 0;
    let bytes = with_records(X64, |made| {
        // code, so that what a leaf function returns to is an address of code
        made.characteristics = 0x6000_0020;
        code = made.put(&[0x90; 32]);
        let at = (code - ADDRESS) as usize + 8;
        made.content[at..at + 2].copy_from_slice(&[0x5D, 0xC3]);
        // push rbp, up to the first byte; sub rsp, 32, up to the fifth
        let record = made.put(&[1, 5, 2, 0, 5, 0x32, 1, 0x50]);
        vec![code, code + 16, record]
    });
    let image = strict(&bytes);
    let frames = |rva: u32, rsp: u64, words: &[u64]| -> Vec<_> {
        let stack: Vec<u8> = words.iter().flat_map(|it| it.to_le_bytes()).collect();
        let mut registers = Registers { rip: BASE + u64::from(rva), ..Registers::default() };
        registers.set_rsp(rsp);
        let modules = [Module::new(&image, BASE).unwrap()];
        let pieces = [MemoryPiece { start: 0x1_0000, offset: 0, length: stack.len() as u64 }];
        let frames = Frames::new(registers, 9, &modules, MemoryList::new(&stack, &pieces).unwrap());
        frames.map(|it| (it.registers.rip, it.registers.rsp(), it.registers.general[5], it.way)).collect()
    };
    let start = BASE + u64::from(code);
    // the top frame is in the epilog: the saved rbp and the return address are on top of the stack
    let found = frames(code + 8, 0x1_0000, &[0xB5, 0xABCD]);
    assert_eq!(found, [(start + 8, 0x1_0000, 0, Way::Top), (0xABCD, 0x1_0010, 0xB5, Way::Records)]);
    // a leaf function, after the end of the other one, returns to the same bytes: 32 bytes lie below the saved rbp
    let found = frames(code + 20, 0x1_0000, &[start + 8, 1, 2, 3, 4, 0xB5, 0xABCD]);
    let wanted = [
        (start + 20, 0x1_0000, 0, Way::Top),
        (start + 8, 0x1_0008, 0, Way::Leaf),
        (0xABCD, 0x1_0038, 0xB5, Way::Records),
    ];
    assert_eq!(found, wanted);
}
