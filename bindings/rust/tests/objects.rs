//! COFF objects, COFF symbols of images, TE images, and why headers are refused.

use crate::made::{object, object_with_names_in_one_text, te_image, with_long_section_name, OFFSET, SMALL};
use crate::reading::{read_others, Seen};
use pe_c::{Coff, Error, Image, Layout, Mode, Te};
use std::time::{Duration, Instant};

#[test]
fn objects_are_read() {
    let bytes = object();
    let object = Coff::parse(&bytes).unwrap();
    assert_eq!((object.header().machine, object.header().number_of_symbol_table), (0x8664, 12));
    let names: Vec<_> = object.sections().iter().map(|it| it.name()).collect();
    assert_eq!(names, [b".text".as_slice(), b".data", b".bss"]);
    assert_eq!(object.string_table(), Ok(Some(b"\x16\0\0\0longer_than_eight\0".as_slice())));
    assert_eq!(object.long_section_name(&object.sections()[0]), Ok(None));
    assert_eq!(object.long_section_names(), Ok(vec![None; 3]));
    let symbols = object.symbols().unwrap().unwrap();
    let found: Vec<_> =
        symbols.clone().map(|it| it.map(|it| (it.index, it.name().unwrap(), it.section_number))).collect();
    let wanted: [(u64, &str, i16); 7] = [
        (0, ".file", -2),
        (2, "longer_than_eight", 1),
        (4, ".text", 1),
        (6, ".data", 2),
        (8, ".bss", 3),
        (10, "five", -1),
        (11, "outside", 0),
    ];
    assert_eq!(found, wanted.map(Ok));
    let named = symbols.clone().named().unwrap();
    let named: Vec<_> = named.iter().map(|it| (it.symbol.index, it.name.unwrap(), it.symbol.section_number)).collect();
    assert_eq!(named, wanted);
    let mut rest = symbols.clone();
    assert_eq!(rest.by_ref().take(5).count(), 5);
    let rest = rest.named().unwrap();
    assert_eq!(rest.iter().map(|it| it.name).collect::<Vec<_>>(), [Ok("five"), Ok("outside")]);
    let file = symbols.get(0).unwrap();
    assert_eq!((file.storage_class, file.auxiliary()), (103, b"b.s\0\0\0\0\0\0\0\0\0\0\0\0\0\0\0".as_slice()));
    assert!(symbols.get(12).is_none());
    let shown = format!("{:?}", symbols.get(2).unwrap());
    assert!(
        shown.starts_with("Symbol { index: 2, name: Ok(\"longer_than_eight\"), value: 1, section_number: 1,"),
        "{shown}"
    );
}

#[test]
fn damaged_objects_are_refused() {
    let bytes = object();
    assert_eq!(Coff::parse(&bytes[..19]).unwrap_err(), Error::SHORT);
    assert_eq!(Coff::parse(&bytes[..139]).unwrap_err(), Error::SHORT);
    let cut = |length: usize| Coff::parse(&bytes[..length]).unwrap().symbols().map(|it| it.is_some());
    assert_eq!(cut(0x17D), Err(Error::SHORT));
    assert_eq!(cut(0x17E), Ok(true));
    assert_eq!(cut(0x193), Err(Error::STRING_TABLE));
    // Without a string table a long name has no text.
    let short = Coff::parse(&bytes[..0x17E]).unwrap().symbols().unwrap().unwrap();
    assert_eq!(short.get(2).unwrap().name(), Err(Error::STRING_TABLE));
    assert_eq!(short.get(10).unwrap().name(), Ok("five"));
    let named: Vec<_> = short.named().unwrap().iter().map(|it| it.name).collect();
    assert_eq!((named.len(), named[1], named[5]), (7, Err(Error::STRING_TABLE), Ok("five")));
    assert_eq!(Coff::parse(&[0; 20]).unwrap().symbols().unwrap().map(|it| it.count()), None);
    assert_eq!(Coff::parse(&[0; 20]).unwrap().long_section_names(), Ok(Vec::new()));
    assert_eq!(Coff::parse(&bytes[..0x193]).unwrap().long_section_names(), Err(Error::STRING_TABLE));
}

#[test]
fn many_names_in_one_text_are_read_together() {
    let bytes = object_with_names_in_one_text(300, 300, 400);
    let object = Coff::parse(&bytes).unwrap();
    let text = "a".repeat(400);
    let wanted: Vec<_> = (0..300).map(|i| Ok(&text[i..])).collect();
    let symbols = object.symbols().unwrap().unwrap();
    let alone: Vec<_> = (0..300).map(|i| symbols.get(i).unwrap().name()).collect();
    assert_eq!(alone, wanted);
    let found: Vec<_> = symbols.clone().map(Result::unwrap).map(|it| (it.index, it.name())).collect();
    assert_eq!(found, (0..300).zip(wanted.iter().copied()).collect::<Vec<_>>());
    for taken in [0, 1, 15, 16, 17, 150, 299, 300] {
        let mut rest = symbols.clone();
        assert_eq!(rest.by_ref().take(taken).count(), taken);
        let named: Vec<_> = rest.clone().named().unwrap().iter().map(|it| (it.symbol.index, it.name)).collect();
        assert_eq!(named, found[taken..], "after {taken}");
        assert_eq!(rest.map(|it| it.unwrap().name()).collect::<Vec<_>>(), wanted[taken..], "after {taken}");
    }
    let names = object.long_section_names().unwrap();
    let alone: Vec<_> = object.sections().iter().map(|it| object.long_section_name(it).unwrap()).collect();
    assert_eq!((names.len(), &names), (300, &alone));
    assert_eq!(names, wanted.iter().map(|it| it.ok()).collect::<Vec<_>>());
}

/// The same of strings that end too late, or are no text: the error of each name is its own.
#[test]
fn many_refused_names_in_one_text_are_read_together() {
    let mut bytes = object_with_names_in_one_text(300, 300, 400);
    let last = bytes.len() - 1;
    for (offset, letter) in [(last, b'a'), (last - 1, 0xFF)] {
        let good = std::mem::replace(&mut bytes[offset], letter);
        let object = Coff::parse(&bytes).unwrap();
        let symbols = object.symbols().unwrap().unwrap();
        let found: Vec<_> = symbols.clone().map(|it| it.unwrap().name()).collect();
        assert_eq!(found, [Err(Error::STRING_TABLE); 300]);
        assert_eq!(symbols.named().unwrap().iter().map(|it| it.name).collect::<Vec<_>>(), found);
        assert_eq!(object.long_section_names(), Ok(vec![None; 300]));
        bytes[offset] = good;
    }
}

/// One by one the names of such an object of 4 MiB take minutes.
#[test]
fn names_of_a_hostile_object_take_no_longer_than_others() {
    let (symbols, letters) = (116_000, 2_000_000);
    let bytes = object_with_names_in_one_text(symbols, 4_000, letters);
    let start = Instant::now();
    let object = Coff::parse(&bytes).unwrap();
    let names: Vec<_> = object.symbols().unwrap().unwrap().map(|it| it.unwrap().name().unwrap().len()).collect();
    assert_eq!(names, (0..symbols).map(|i| (letters - i) as usize).collect::<Vec<_>>());
    let sections = object.long_section_names().unwrap();
    assert_eq!(sections.iter().flatten().map(|it| it.len()).sum::<usize>(), (0..4_000).map(|i| 2_000_000 - i).sum());
    assert!(start.elapsed() < Duration::from_secs(20), "{:?}", start.elapsed());
}

#[test]
fn symbols_of_images_are_read() {
    let mut bytes = with_long_section_name();
    let at = OFFSET as usize + 0x200;
    bytes[at..at + 18].copy_from_slice(b"\0\0\0\0\x10\0\0\0\x34\x12\0\0\x01\0\x20\0\x02\0");
    let image = Image::parse(&bytes, Mode::Strict).unwrap();
    let mut symbols = image.symbols().unwrap().unwrap();
    let symbol = symbols.next().unwrap().unwrap();
    assert_eq!((symbol.name(), symbol.value, symbol.kind), (Ok(".debug_line"), 0x1234, 0x20));
    assert!(symbols.next().is_none() && symbols.next().is_none());
    assert!(Image::parse(SMALL, Mode::Strict).unwrap().symbols().unwrap().is_none());
    let module = Image::parse_as(&bytes, Mode::Strict, Layout::Mapped).unwrap();
    assert!(module.symbols().unwrap().is_none());
}

#[test]
fn te_images_are_read() {
    let bytes = te_image();
    let te = Te::parse(&bytes).unwrap();
    let header = te.header();
    assert_eq!((header.machine, header.subsystem, header.rva_offset), (0x8664, 10, 0x100));
    assert_eq!((header.entry_point, header.debug_dir.virtual_address), (0x1000, 0x50));
    assert_eq!((te.sections().len(), te.sections()[0].virtual_address), (1, 0x1000));
    let entries: Vec<_> = te.debug_entries().unwrap().map(Result::unwrap).collect();
    assert_eq!((entries.len(), entries[0].address_of_raw_data, entries[0].data_type), (1, 0x70, 2));
    assert_eq!(te.first_debug_entry(2), Ok(Some(entries[0])));
    assert_eq!(te.first_debug_entry(13), Ok(None));
    let key = te.symbol_key().unwrap().unwrap();
    assert_eq!((key.name_bytes, key.age), (b"a.pdb\0".as_slice(), 9));
    assert_eq!(Te::failure(&bytes), None);
    assert_eq!(Te::parse(&bytes[..79]).unwrap_err(), Error::SHORT);
    assert_eq!(Te::parse(&bytes[..0x6B]).unwrap().symbol_key().unwrap_err(), Error::DEBUG_BOUNDS);
}

#[test]
fn refusals_have_numbers() {
    // Its PE signature is at 0x40, and the COFF header follows it.
    let failure = Image::failure(&SMALL[..70], Mode::Strict, Layout::File).unwrap();
    assert_eq!((failure.error, failure.value, failure.needed), (Error::SHORT, None, 20));
    assert_eq!(failure.to_string(), "truncated: 20 bytes needed at offset 0x44");
    assert_eq!(Image::failure(SMALL, Mode::Strict, Layout::File), None);
    let mut bytes = te_image();
    bytes[6..8].copy_from_slice(&[0x27, 0]);
    assert_eq!(Te::parse(&bytes).unwrap_err(), Error::TE_SIZE);
    let failure = Te::failure(&bytes).unwrap();
    assert_eq!((failure.error, failure.offset, failure.value), (Error::TE_SIZE, 6, Some(39)));
    assert_eq!(failure.to_string(), "stripped size of 39 bytes is smaller than the 40 bytes of a TE header");
}

/// Each object and TE image truncated everywhere.
#[test]
fn truncated_ones_are_read() {
    for bytes in [object(), te_image()] {
        for length in 0..=bytes.len() {
            read_others(&bytes[..length], &mut Seen::up_to(64));
        }
    }
}
