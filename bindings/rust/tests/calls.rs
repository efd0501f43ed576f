//! What each call returns for images made by hand. Expected values come from how the images are made.

use crate::facts::{as_loaded, facts};
use crate::made;
use crate::made::*;
use pe_c::{
    Arm64Operation, Arm64Unwinding, DirectoryIndex, Error, Handler, Image, Layout, Mode, Offset, Operation, Placement,
    Register, Relocation, Repro, ResourceName, SymbolKey, VersionName,
};

fn strict(bytes: &[u8]) -> Image<'_> {
    Image::parse(bytes, Mode::Strict).unwrap()
}

#[test]
fn headers_and_sections_are_read() {
    let image = strict(SMALL);
    let info = image.info();
    assert_eq!((info.machine, info.width, info.entry, info.base), (X64, 64, 0x1000, 0x1_4000_0000));
    assert_eq!((info.sections_offset, info.file_alignment), (0x148, 0x200));
    let directory = |index| info.directory(index).map(|it| (it.virtual_address, it.size));
    assert_eq!(directory(DirectoryIndex::Exception), Some((0x1000, 24)));
    assert_eq!(directory(DirectoryIndex::Security), Some((0x400, 16)));
    assert_eq!(directory(DirectoryIndex::Debug), Some((0x1040, 28)));
    assert_eq!((directory(DirectoryIndex::Export), directory(DirectoryIndex::ComDescriptor)), (None, None));
    assert_eq!((info.number_of_directories, info.checksum_offset, info.certificate_entry_offset), (16, 0x98, 0xE8));
    let [section] = image.sections() else { panic!("one section") };
    assert_eq!(section.name(), b".rdata");
    assert_eq!((section.virtual_size, section.virtual_address), (0x100, 0x1000));
    assert_eq!((section.size_of_raw_data, section.pointer_to_raw_data), (0x200, 0x200));
    assert_eq!(section.characteristics, 0x4000_0040);
}

/// The numbers of headers that `info` has too, and some that it lacks, at their offsets in winnt.h.
#[test]
fn every_number_of_headers_is_read() {
    let mut bytes = SMALL.to_vec();
    bytes[0x18..0x1A].copy_from_slice(&0x40u16.to_le_bytes());
    bytes[0x5A] = 14;
    bytes[0xA0..0xA8].copy_from_slice(&0x10_0000u64.to_le_bytes());
    let image = strict(&bytes);
    let (info, headers) = (image.info(), image.headers().unwrap());
    assert_eq!((headers.dos.signature, headers.dos.relocations_offset, headers.dos.pe_pointer), (0x5A4D, 0x40, 0x40));
    assert_eq!((headers.signature, headers.coff.machine, headers.coff.size_of_optional_header), (0x4550, X64, 0xF0));
    let optional = &headers.optional;
    assert_eq!((optional.magic, optional.major_linker_version, optional.size_of_stack_reserve), (0x20B, 14, 0x10_0000));
    assert_eq!((optional.image_base, optional.file_alignment), (info.base, info.file_alignment));
    assert_eq!((optional.number_of_rva_and_sizes, optional.number_of_directories), (16, 16));
    assert_eq!((headers.optional_offset, headers.directories_offset, headers.dos_stub.length), (0x58, 0xC8, 0));
    assert_eq!(headers.directories, info.directories);
}

#[test]
fn addresses_have_offsets_where_a_section_covers_them() {
    let image = strict(SMALL);
    assert_eq!(image.offset(0x1000), Some(0x200));
    assert_eq!(image.offset(0x1040), Some(0x240));
    assert_eq!(image.offset(0x0FFF), None);
    assert_eq!(image.offset(0xFFFF_FFFF), None);
    let section = image.section_at(0x1040).unwrap();
    assert_eq!((section.name(), image.section_at(0x0FFF)), (b".rdata".as_slice(), None));
    assert_eq!(image.section_bytes(section), &SMALL[0x200..0x400]);
}

/// Each number of the headers, by the bytes that the PE format has for it. The optional header starts at 0x58.
#[test]
fn all_of_the_headers_are_read() {
    let mut bytes = with_debug();
    let mut put = |offset: usize, value: &[u8]| bytes[offset..offset + value.len()].copy_from_slice(value);
    put(0x48, &0x5F01_0203u32.to_le_bytes());
    put(0x56, &0x2022u16.to_le_bytes());
    put(0x90, &0x0012_3000u32.to_le_bytes());
    put(0x94, &0x0000_0400u32.to_le_bytes());
    put(0x98, &0x0009_8765u32.to_le_bytes());
    put(0x9C, &3u16.to_le_bytes());
    put(0x9E, &0x8160u16.to_le_bytes());
    let image = strict(&bytes);
    let info = image.info();
    assert_eq!((info.time_date_stamp, info.characteristics), (0x5F01_0203, 0x2022));
    assert_eq!((info.size_of_image, info.size_of_headers, info.checksum), (0x12_3000, 0x400, 0x9_8765));
    assert_eq!((info.subsystem, info.dll_characteristics), (3, 0x8160));
    assert_eq!((info.section_alignment, info.file_alignment), (0x1000, 0x200));
    assert_eq!(bytes[info.checksum_offset as usize..][..4], 0x0009_8765u32.to_le_bytes());
    assert_eq!(info.certificate_entry_offset, 0xC8 + 4 * 8);
    let numbers = info.directories.iter().map(|it| it.size != 0).collect::<Vec<_>>();
    assert_eq!(numbers.iter().position(|it| *it), Some(DirectoryIndex::Debug as usize));
    // an optional header that has fewer directories has no other
    bytes[0xC4] = 4;
    let fewer = strict(&bytes);
    assert_eq!((fewer.info().number_of_directories, fewer.info().certificate_entry_offset), (4, 0));
    assert_eq!(fewer.info().directory(DirectoryIndex::Debug), None);
    assert_eq!(fewer.symbol_key(), Ok(None));
}

/// A CodeView record alone is read whatever the other debug records are, and only if it is one of PDB 7.0.
#[test]
fn records_that_stand_alone_have_keys() {
    let mut bytes = with_debug();
    let record = bytes[OFFSET as usize..][..30].to_vec();
    let key = SymbolKey::of_record(&record).unwrap().unwrap();
    assert_eq!((key.guid.0, key.age, key.name_bytes), (GUID, 1, b"a.pdb\0".as_slice()));
    assert_eq!(strict(&bytes).symbol_key(), Ok(Some(key)));
    // the size of the POGO record, whose entry is the third, is damaged
    let entries = strict(&bytes).info().directory(DirectoryIndex::Debug).unwrap().virtual_address;
    bytes[offset(entries) as usize + 2 * 28 + 16] = 4;
    assert_eq!((strict(&bytes).symbol_key(), strict(&bytes).pogo().err()), (Ok(Some(key)), Some(Error::POGO_SIZE)));
    assert_eq!(SymbolKey::of_record(&bytes[OFFSET as usize..][..30]), Ok(Some(key)));
    assert_eq!(SymbolKey::of_record(&record[..24]).unwrap().unwrap().name_bytes, b"");
    assert_eq!(SymbolKey::of_record(&record[..23]), Err(Error::DEBUG_SIZE));
    assert_eq!(SymbolKey::of_record(&[b"NB10".as_slice(), &record[4..]].concat()), Ok(None));
}

/// The RVAs of a module in memory are its offsets, whatever its sections are.
#[test]
fn addresses_in_memory_are_offsets() {
    let memory = as_loaded(&strict(SMALL));
    let module = Image::parse_as(&memory, Mode::Strict, Layout::Mapped).unwrap();
    assert_eq!((module.mode(), module.layout(), module.info().mode), (Mode::Strict, Layout::Mapped, 2));
    for rva in [0, 0x0FFF, 0x1000, 0x1040, 0xFFFF_FFFF] {
        assert_eq!(module.offset(rva), Some(rva.into()));
    }
    let permissive = Image::parse_as(&memory, Mode::Permissive, Layout::Mapped).unwrap();
    assert_eq!((permissive.mode(), permissive.layout(), permissive.info().mode), (Mode::Permissive, Layout::Mapped, 3));
    let file = Image::parse_as(SMALL, Mode::Permissive, Layout::File).unwrap();
    assert_eq!((file.mode(), file.layout(), file.info().mode), (Mode::Permissive, Layout::File, 1));
}

#[test]
fn images_in_memory_say_what_their_files_say() {
    for (name, bytes) in made::all() {
        for mode in [Mode::Strict, Mode::Permissive] {
            let file = Image::parse(&bytes, mode).unwrap();
            let memory = as_loaded(&file);
            let module = Image::parse_as(&memory, mode, Layout::Mapped).unwrap();
            assert_eq!(facts(&module), facts(&file), "{name}");
            assert_eq!(module.certificates().count(), 0, "{name}");
        }
    }
    let memory = as_loaded(&strict(&with_debug()));
    let module = Image::parse_as(&memory, Mode::Strict, Layout::Mapped).unwrap();
    let key = module.symbol_key().unwrap().unwrap();
    assert_eq!((key.to_string().as_str(), key.name()), ("497B72F6390A44FC878E5A2D63B6CC4B1", b"a.pdb".as_slice()));
    let parts: Vec<_> = module.pogo().unwrap().unwrap().entries().map(|it| it.unwrap().rva).collect();
    assert_eq!(parts, [0x1000, 0x2000]);
}

/// A module in memory has no certificates, so nothing is wrong with them, whatever is at their file offset.
#[test]
fn certificates_in_memory_have_no_failure() {
    let mut bytes = with_certificates();
    // The low byte of the revision, which is 0x200.
    bytes[0x604] = 3;
    let file = strict(&bytes);
    let failure = file.directory_failure(DirectoryIndex::Security).unwrap();
    assert_eq!((failure.error, failure.value), (Error::CERTIFICATE_REVISION, Some(0x203)));
    let memory = as_loaded(&file);
    let module = Image::parse_as(&memory, Mode::Strict, Layout::Mapped).unwrap();
    assert_eq!(module.directory_failure(DirectoryIndex::Security), None);
    assert_eq!(module.certificates().count(), 0);
}

#[test]
fn images_are_refused_by_number() {
    assert_eq!(Image::parse(&[], Mode::Strict).unwrap_err(), Error::SHORT);
    assert_eq!(Image::parse(&[0; 64], Mode::Strict).unwrap_err(), Error::BAD_MAGIC);
    assert_eq!(Error::BAD_MAGIC.number(), 3);
    let mut low = [0; 64];
    low[..2].copy_from_slice(b"MZ");
    low[0x20..0x22].copy_from_slice(b"PE");
    low[0x3C] = 0x20;
    assert_eq!(Image::parse(&low, Mode::Strict).unwrap_err(), Error::HEADER_POINTER);
    assert!(Image::parse(&low, Mode::Permissive).is_ok());
    let mut many = SMALL.to_vec();
    many[0x46..0x48].copy_from_slice(&[0xFF, 0xFF]);
    assert_eq!(Image::parse(&many, Mode::Strict).unwrap_err(), Error::SHORT);
}

#[test]
fn answers_have_texts() {
    let mut texts = Vec::new();
    for number in
        (0..=40).chain([100, 101, 102, u32::MAX]).chain(201..=207).chain(301..=311).chain(401..=404).chain(501..=514)
    {
        let mut room = [0; 128];
        // SAFETY: the pointer and the length are those of one array.
        let length = unsafe { pe_c::sys::pe_c_text(number, room.as_mut_ptr(), room.len()) };
        assert!(0 < length && length < 128, "{number}");
        texts.push(String::from_utf8(room[..length].to_vec()).unwrap());
    }
    assert_eq!(Error::SHORT.to_string(), texts[2]);
    assert!(texts[2].contains("truncated"), "{}", texts[2]);
    // those of 1 to 38, of 100 and 101, of 201 to 206, of 301 to 310, of 401 to 403 and of 501 to 513 differ from each other and
    // from that of all others
    let known = texts[1..39].iter().chain(&texts[41..43]).chain(&texts[45..62]).chain(&texts[63..66]);
    let mut known: Vec<_> = known.chain(&texts[67..80]).collect();
    known.sort();
    known.dedup();
    assert_eq!(known.len(), 73);
    assert_eq!([&texts[51], &texts[62], &texts[66], &texts[80]], [&texts[44]; 4]);
}

#[test]
fn a_text_is_cut_at_the_end_of_its_room() {
    let mut whole = [0; 128];
    let mut room = [b'.'; 8];
    // SAFETY: the pointers and the lengths are those of arrays; the last is of no bytes.
    unsafe {
        let length = pe_c::sys::pe_c_text(2, whole.as_mut_ptr(), whole.len());
        assert_eq!(pe_c::sys::pe_c_text(2, room.as_mut_ptr(), 6), length);
        assert_eq!(pe_c::sys::pe_c_text(2, core::ptr::null_mut(), 0), length);
    }
    assert_eq!(room[..5], whole[..5]);
    assert_eq!(room[5], 0);
    assert_eq!(room[6..], *b"..");
}

#[test]
fn debug_records_are_read() {
    let bytes = with_debug();
    let image = strict(&bytes);
    let entries: Vec<_> = image.debug_entries().unwrap().map(Result::unwrap).collect();
    assert_eq!(entries.iter().map(|entry| entry.data_type).collect::<Vec<_>>(), [2, 12, 13, 16, 20]);
    assert_eq!(entries[0].size_of_data, 30);
    assert_eq!((entries[0].address_of_raw_data, entries[0].pointer_to_raw_data), (ADDRESS, OFFSET));
    assert_eq!(entries[3].time_date_stamp, 0x5F00_0000);
    let key = image.symbol_key().unwrap().unwrap();
    assert_eq!(
        (key.guid.0, key.age, key.name_bytes, key.name()),
        (GUID, 1, b"a.pdb\0".as_slice(), b"a.pdb".as_slice())
    );
    assert_eq!(key.to_string(), "497B72F6390A44FC878E5A2D63B6CC4B1");
    assert!(bytes.as_ptr_range().contains(&key.name().as_ptr()), "the name is borrowed");
    assert_eq!(image.pdb20(), Ok(None));
    let features = image.vc_features().unwrap().unwrap();
    assert_eq!((features.pre_vc_plusplus_count, features.guard_count), (1, 5));
    assert_eq!(image.debug_characteristics(), Ok(Some(0x41)));
    assert_eq!(image.repro(), Ok(Some(Repro::Hash(b"hash"))));
    let pogo = image.pogo().unwrap().unwrap();
    assert_eq!((pogo.signature, pogo.entry_bytes.len()), (0x4C54_4347, 36));
    let parts: Vec<_> = pogo.entries().map(Result::unwrap).map(|part| (part.rva, part.size, part.name())).collect();
    assert_eq!(parts, [(0x1000, 16, b".text$mn".as_slice()), (0x2000, 8, b".bss".as_slice())]);
}

/// All records at once are what the first entry of each type has, also where one is damaged, and where the table is.
#[test]
fn debug_records_are_read_at_once() {
    fn check(bytes: &[u8], errors: usize) {
        for mode in [Mode::Strict, Mode::Permissive] {
            let image = Image::parse(bytes, mode).unwrap();
            let all = image.debug_records();
            // what the first entry of a type leads to, where the table has one
            let first = |data_type| image.debug_entry(data_type).unwrap();
            let codeview = first(2);
            assert_eq!(all.symbol_key, codeview.map_or(Ok(None), |it| image.symbol_key_of(&it)));
            assert_eq!(all.pdb20, codeview.map_or(Ok(None), |it| image.pdb20_of(&it)));
            assert_eq!(all.vc_features, first(12).map_or(Ok(None), |it| image.vc_features_of(&it)));
            assert_eq!(all.debug_characteristics, first(20).map_or(Ok(None), |it| image.debug_characteristics_of(&it)));
            assert_eq!(all.repro, first(16).map_or(Ok(None), |it| image.repro_of(&it)));
            assert_eq!(
                all.pogo.map(|it| it.map(|it| it.entry_bytes)),
                first(13).map_or(Ok(None), |it| image.pogo_of(&it)).map(|it| it.map(|it| it.entry_bytes))
            );
            assert_eq!(all.embedded_pdb, first(17).map_or(Ok(None), |it| image.embedded_pdb_of(&it)));
            assert_eq!(all.pdb_checksum, first(19).map_or(Ok(None), |it| image.pdb_checksum_of(&it)));
            let refused = [
                all.symbol_key.is_err(),
                all.pdb20.is_err(),
                all.vc_features.is_err(),
                all.debug_characteristics.is_err(),
                all.repro.is_err(),
                all.pogo.is_err(),
            ];
            if mode == Mode::Strict {
                assert_eq!(refused.iter().filter(|it| **it).count(), errors);
            }
        }
    }
    let bytes = with_debug();
    check(&bytes, 0);
    let all = strict(&bytes).debug_records();
    assert_eq!(all.symbol_key.unwrap().unwrap().age, 1);
    assert_eq!(all.vc_features.unwrap().unwrap().guard_count, 5);
    assert_eq!((all.debug_characteristics, all.repro), (Ok(Some(0x41)), Ok(Some(Repro::Hash(b"hash")))));
    assert_eq!(all.pogo.unwrap().unwrap().entry_bytes.len(), 36);
    // the pointer of each record in turn, then the size of the whole table
    let directory = strict(&bytes).info().directory(DirectoryIndex::Debug).unwrap();
    for (entry, errors) in [2, 1, 1, 1, 1].into_iter().enumerate() {
        let mut damaged = bytes.clone();
        let pointer = offset(directory.virtual_address) as usize + 28 * entry + 24;
        damaged[pointer..pointer + 4].copy_from_slice(&u32::MAX.to_le_bytes());
        check(&damaged, errors);
    }
    check(&with_old_debug(), 0);
    check(&with_managed_debug(), 0);
    check(&with_imports(), 0);
}

/// Each record is read from the entry of its type too, and as one of any other type where its bytes are one.
#[test]
fn records_of_debug_entries_are_read() {
    let bytes = with_debug();
    let image = strict(&bytes);
    let of_type = |data_type| image.debug_entry(data_type).unwrap().unwrap();
    let codeview = of_type(2);
    assert_eq!(image.debug_entries().unwrap().next(), Some(Ok(codeview)));
    assert_eq!(image.symbol_key_of(&codeview), image.symbol_key());
    assert_eq!(image.pdb20_of(&codeview), Ok(None));
    assert_eq!(image.vc_features_of(&of_type(12)), image.vc_features());
    assert_eq!(image.pogo_of(&of_type(13)).unwrap().unwrap().entry_bytes.len(), 36);
    assert_eq!(image.repro_of(&of_type(16)), image.repro());
    assert_eq!(image.debug_characteristics_of(&of_type(20)), Ok(Some(0x41)));
    assert_eq!(image.debug_entry(17), Ok(None));
    assert_eq!(image.embedded_pdb_of(&codeview), Err(Error::BAD_MAGIC));
    // the record of CodeView up to the zero in its age, as the name of an algorithm
    let checksum = image.pdb_checksum_of(&codeview).unwrap().unwrap();
    assert_eq!((checksum.algorithm.len(), checksum.checksum.len()), (21, 8));
}

#[test]
fn older_debug_records_are_read() {
    let bytes = with_old_debug();
    let image = strict(&bytes);
    assert_eq!(image.symbol_key(), Ok(None));
    let record = image.pdb20().unwrap().unwrap();
    assert_eq!((record.offset, record.signature, record.age), (0, 0x3333, 7));
    assert_eq!((record.name(), record.name_bytes.len()), (b"b.pdb".as_slice(), 8));
    assert_eq!(image.repro(), Ok(Some(Repro::TimeStamp)));
    assert_eq!(image.vc_features(), Ok(None));
    assert_eq!(image.debug_characteristics(), Ok(None));
    assert!(image.pogo().unwrap().is_none());
}

#[test]
fn damaged_debug_data_are_refused() {
    // the name ends past the end of the file
    let mut bytes = with_debug();
    let table = bytes.windows(4).rposition(|word| word == 0x5F00_0000u32.to_le_bytes()).unwrap() - 4 * 28 - 4;
    bytes[table + 16..table + 20].copy_from_slice(&0x10_0000u32.to_le_bytes());
    let image = strict(&bytes);
    assert_eq!(image.symbol_key(), Err(Error::DEBUG_DATA));
    assert_eq!(image.repro(), Ok(Some(Repro::Hash(b"hash"))));
    // a directory that ends past the end of the file is truncated in permissive mode
    let mut long = SMALL.to_vec();
    long[0xFC..0x100].copy_from_slice(&0x1000u32.to_le_bytes());
    assert_eq!(strict(&long).debug_entries().err(), Some(Error::DEBUG_BOUNDS));
    let image = Image::parse(&long, Mode::Permissive).unwrap();
    let entries: Vec<_> = image.debug_entries().unwrap().collect();
    assert_eq!(entries.len(), 17);
    assert!(entries[..16].iter().all(Result::is_ok));
    assert_eq!(entries[16], Err(Error::SHORT));
}

#[test]
fn certificates_are_read() {
    let found: Vec<_> =
        strict(SMALL).certificates().map(Result::unwrap).map(|it| (it.length, it.revision, it.kind, it.body)).collect();
    assert_eq!(found, [(9, 0x200, 2, [0xAA].as_slice())]);
    let bytes = with_certificates();
    let found: Vec<_> =
        strict(&bytes).certificates().map(Result::unwrap).map(|it| (it.length, it.revision, it.kind)).collect();
    assert_eq!(found, [(9, 0x200, 2), (8, 0x100, 1)]);
    assert_eq!(strict(&with_debug()).certificates().count(), 0);
}

#[test]
fn damaged_certificates_are_refused() {
    let bytes = with_certificates();
    let start = (OFFSET + 0x200) as usize;
    for (offset, value, error) in [
        (start + 5, 3, Error::CERTIFICATE_REVISION),
        (start + 6, 9, Error::CERTIFICATE_TYPE),
        (start + 2, 1, Error::CERTIFICATE_SIZE),
        (0xEC, 25, Error::CERTIFICATE_TABLE),
    ] {
        let mut damaged = bytes.clone();
        damaged[offset] = value;
        let image = strict(&damaged);
        let found: Vec<_> = image.certificates().collect();
        assert_eq!(found, [Err(error)]);
    }
}

/// A certificate whose body is one byte.
const CERTIFICATE: [u8; 9] = [9, 0, 0, 0, 0, 2, 2, 0, 0x77];

/// The image of 1,040 bytes without its certificate, and with more bytes after its section.
fn unsigned(more: &[u8]) -> Vec<u8> {
    let mut bytes = SMALL[..0x400].to_vec();
    bytes[0xE8..0xF0].fill(0);
    bytes.extend(more);
    bytes
}

/// The checksum is at 0x98, the entry of the certificate directory at 0xE8, and the certificate at 0x400.
#[test]
fn digests_leave_out_three_parts() {
    let digest = strict(SMALL).digest_ranges().unwrap();
    assert_eq!(digest.ranges().collect::<Vec<_>>(), [0..0x98, 0x9C..0xE8, 0xF0..0x400]);
    let slices: Vec<_> = digest.slices().collect();
    assert_eq!(slices, [&SMALL[..0x98], &SMALL[0x9C..0xE8], &SMALL[0xF0..0x400]]);
    assert!(SMALL.as_ptr_range().contains(&slices[2].as_ptr()), "a slice is borrowed");
    assert_eq!(digest.zeros(), 0);
    for (more, zeros) in [(1, 7), (5, 3), (8, 0)] {
        let bytes = unsigned(&vec![0x55; more]);
        let digest = strict(&bytes).digest_ranges().unwrap();
        assert_eq!((digest.ranges().last(), digest.zeros()), (Some(0xF0..0x400 + more), zeros));
    }
    // the certificates seem to be the whole file
    let mut bytes = SMALL.to_vec();
    bytes[0xE8..0xF0].copy_from_slice(&[0, 0, 0, 0, 0xFF, 0xFF, 0xFF, 0xFF]);
    let digest = strict(&bytes).digest_ranges().unwrap();
    assert_eq!((digest.ranges().count(), digest.slices().count(), digest.zeros()), (0, 0, 0));
}

/// The checksums are those that `osslsigncode verify` 2.9 calculates.
#[test]
fn checksums_are_calculated() {
    let sum = strict(SMALL).checksum().unwrap();
    assert_eq!((sum.offset, sum.value), (0x98, 0x7C12));
    let mut bytes = SMALL.to_vec();
    bytes[0x98..0x9C].copy_from_slice(&[0x11, 0x22, 0x33, 0x44]);
    assert_eq!(strict(&bytes).checksum().unwrap(), sum);
}

/// The image has a certificate of 9 bytes at 0x400, headers up to 0x170 and a section from 0x200 on.
#[test]
fn images_are_written() {
    let image = strict(SMALL);
    assert_eq!(image.write_whole(image.sections()).unwrap(), SMALL);
    let mut sections = image.sections().to_vec();
    sections[0].virtual_size = 0x123;
    let written = image.write_whole(&sections).unwrap();
    assert_eq!((&written[..0x150], &written[0x150..0x154]), (&SMALL[..0x150], &[0x23, 1, 0, 0][..]));
    assert_eq!(written[0x154..], SMALL[0x154..]);
    let length = image.image_length(&sections).unwrap();
    let mut room = vec![7; SMALL.len() + 1];
    assert_eq!((image.write_image(&sections, &mut room).unwrap(), length), (0x410, 0x410));
    assert_eq!((&room[..0x170], &room[0x200..0x410]), (&written[..0x170], &written[0x200..]));
    assert!(room[0x170..0x200].iter().chain(&room[0x410..]).all(|it| *it == 7));
    assert_eq!(image.write_image(&sections, &mut room[..0x40F]), Err(Error::WRITE_FIT));
    room.fill(7);
    assert_eq!(image.write_certificates(&mut room).unwrap(), 0x410);
    assert_eq!((&room[0x3FF..0x400], &room[0x400..0x410], room[0x410]), (&[7][..], &SMALL[0x400..], 7));
    assert_eq!(image.write_certificates(&mut room[..0x40F]), Err(Error::WRITE_FIT));
    sections.push(sections[0]);
    sections[1].pointer_to_raw_data = 0x3FF;
    assert_eq!(image.write_whole(&sections), Err(Error::WRITE_OVERLAP));
    // A pointer to COFF symbols, and an alignment that is no power of two.
    for (offset, byte, error) in [(0x4C, 1, Error::WRITE_SYMBOLS), (0x7D, 3, Error::WRITE_ALIGNMENT)] {
        let mut bytes = SMALL.to_vec();
        bytes[offset] = byte;
        let image = strict(&bytes);
        assert_eq!(image.write_image(image.sections(), &mut room), Err(error));
        assert_eq!(image.write_whole(image.sections()).unwrap(), bytes);
    }
}

#[test]
fn certificates_are_attached_and_detached() {
    let bytes = unsigned(&[0x55; 3]);
    for placement in [Placement::After, Placement::InPlace] {
        let file = strict(&bytes).attach(&CERTIFICATE, placement).unwrap();
        assert_eq!(file.len(), 0x418);
        assert_eq!(file[0x98..0x9C], [0x99, 0xD1, 0, 0]);
        assert_eq!(file[0xE8..0xF0], [8, 4, 0, 0, 0x10, 0, 0, 0]);
        assert_eq!(file[0x400..0x408], [0x55, 0x55, 0x55, 0, 0, 0, 0, 0]);
        assert_eq!(file[0x408..0x411], CERTIFICATE);
        let image = strict(&file);
        let found: Vec<_> = image.certificates().map(|it| it.unwrap().body).collect();
        assert_eq!(found, [[0x77]]);
        assert_eq!(image.info().checksum, image.checksum().unwrap().value);
        // what the digest covers is the same, with its zeros in the file
        let covered = |image: &Image| {
            let digest = image.digest_ranges().unwrap();
            [digest.slices().collect::<Vec<_>>().concat(), vec![0; digest.zeros()]].concat()
        };
        assert_eq!(covered(&image), covered(&strict(&bytes)));
        let detached = image.detach().unwrap();
        assert_eq!((detached.len(), &detached[0x400..]), (0x408, &file[0x400..0x408]));
        assert_eq!(covered(&strict(&detached)), covered(&image));
    }
    let after = strict(SMALL).attach(&CERTIFICATE, Placement::After).unwrap();
    assert_eq!((after.len(), &after[0x98..0x9C]), (0x420, [0xB4, 0x7E, 0, 0].as_slice()));
    assert_eq!(strict(&after).certificates().count(), 2);
    let instead = strict(SMALL).attach(&CERTIFICATE, Placement::InPlace).unwrap();
    assert_eq!((instead.len(), strict(&instead).certificates().count()), (0x410, 1));
    assert_eq!(strict(SMALL).detach().unwrap().len(), 0x400);
}

#[test]
fn signing_is_refused_by_number() {
    let with = |offset: usize, part: &[u8]| {
        let mut bytes = SMALL.to_vec();
        bytes[offset..offset + part.len()].copy_from_slice(part);
        bytes
    };
    for (bytes, error) in [
        (with(0x54, &[0]), Error::NO_OPTIONAL_HEADER),
        (with(0xC4, &[4]), Error::SIGN_NO_DIRECTORY),
        (with(0xED, &[1]), Error::CERTIFICATE_TABLE),
        (with(0xEC, &[8]), Error::SIGN_TABLE_NOT_LAST),
        (with(0xE8, &[0x10, 0, 0, 0, 0, 4]), Error::SIGN_HEADERS),
        (with(0xE8, &[0xF8, 3, 0, 0, 0x18]), Error::SIGN_SECTION),
    ] {
        // the section headers are elsewhere without an optional header, and are there
        let image = strict(&bytes);
        assert_eq!(image.attach(&CERTIFICATE, Placement::InPlace), Err(error));
        assert_eq!(image.detach(), Err(error));
    }
    let bytes = with(0x54, &[0]);
    assert_eq!(strict(&bytes).digest_ranges(), Err(Error::NO_OPTIONAL_HEADER));
    assert_eq!(strict(&bytes).checksum(), Err(Error::NO_OPTIONAL_HEADER));
    let bytes = with(0xE8, &[1, 4, 0, 0, 0xF]);
    assert_eq!(strict(&bytes).attach(&CERTIFICATE, Placement::After), Err(Error::SIGN_TABLE_OFFSET));
    assert_eq!(strict(&bytes).attach(&CERTIFICATE, Placement::InPlace).map(|file| file.len()), Ok(0x418));
    for (certificate, error) in [(&CERTIFICATE[..7], Error::SHORT), (&CERTIFICATE[..8], Error::CERTIFICATE_SIZE)] {
        assert_eq!(strict(SMALL).attach(certificate, Placement::After), Err(error));
    }
    assert_eq!(Error::SIGN_TOO_LARGE.number(), 206);
    // a room that is too small stays as it was
    let (image, mut room, mut length) = (strict(SMALL), [0xEE; 0x41F], 5);
    let view = pe_c::sys::View::of(image.bytes(), image.info(), &[], &[]);
    let (first, size) = (CERTIFICATE.as_ptr(), CERTIFICATE.len());
    let (out, end) = (room.as_mut_ptr(), room.len());
    // SAFETY: the pointers and lengths are those of slices, arrays and records.
    let number = unsafe { pe_c::sys::pe_c_attach(&view, first, size, 0, out, end, &mut length) };
    assert_eq!((number, length), (pe_c::sys::ROOM, 0x420));
    assert!(room.iter().all(|byte| *byte == 0xEE));
}

#[test]
fn functions_are_found() {
    let image = strict(SMALL);
    let functions = image.functions().unwrap().unwrap();
    assert_eq!(functions.len(), 2);
    let all: Vec<_> = functions.iter().map(|it| (it.begin, it.end, it.unwind)).collect();
    assert_eq!(all, [(0x1000, 0x1010, 0x1020), (0x1020, 0x1040, 0x1001)]);
    for (address, begin) in [
        (0x0FFF, None),
        (0x1000, Some(0x1000)),
        (0x100F, Some(0x1000)),
        (0x1010, None),
        (0x1025, Some(0x1020)),
        (0x1040, None),
        (u32::MAX, None),
    ] {
        assert_eq!(functions.find(address).unwrap().map(|it| it.begin), begin);
    }
    // the record to which the second function's link leads is that of the first
    let first = functions.record(functions.get(0).unwrap()).unwrap();
    let second = functions.record(functions.get(1).unwrap()).unwrap();
    assert_eq!(first.raw(), second.raw());
    let codes: Vec<_> =
        first.codes().map(|code| code.unwrap()).map(|code| (code.code_offset, code.operation)).collect();
    assert_eq!(codes, [(4, Operation::Alloc(40)), (1, Operation::Push(Register(5)))]);
}

#[test]
fn records_are_read() {
    let bytes = with_functions();
    let image = strict(&bytes);
    let functions = image.functions().unwrap().unwrap();
    let record = functions.record(functions.get(0).unwrap()).unwrap();
    assert_eq!((record.version(), record.size_of_prolog()), (1, 8));
    assert_eq!(record.frame(), Some((Register(5), 32)));
    assert_eq!(record.frame().unwrap().0.name(), "rbp");
    let codes: Vec<_> = record.codes().map(|code| code.unwrap().operation).collect();
    assert_eq!(codes, [Operation::Alloc(32), Operation::SetFrame, Operation::Push(Register(5))]);
    let Some(Handler::Exception(0x1100, data)) = record.handler() else { panic!("a handler") };
    assert_eq!(data[..4], [1, 0, 0, 0]);
    assert_eq!(data.as_ptr_range().end, bytes.as_ptr_range().end, "they go to the end of the bytes");
    let scopes: Vec<_> = record.scopes().unwrap().map(Result::unwrap).collect();
    assert_eq!(
        scopes.iter().map(|it| [it.begin, it.end, it.handler, it.target]).collect::<Vec<_>>(),
        [[0x1002, 0x1008, 1, 0x100A]]
    );
    let record = functions.record(functions.get(1).unwrap()).unwrap();
    let codes: Vec<_> =
        record.codes().map(|code| code.unwrap()).map(|code| (code.code_offset, code.operation)).collect();
    assert_eq!(codes, [(5, Operation::Save(Register(3), Offset::Frame(40)))]);
    assert_eq!(record.chained(), functions.get(0));
    assert!(record.handler().is_none() && record.scopes().is_none());
}

#[test]
fn plans_lead_to_the_root() {
    let bytes = with_functions();
    let image = strict(&bytes);
    let functions = image.functions().unwrap().unwrap();
    let chained = |index| -> Vec<_> {
        functions.plan(functions.get(index).unwrap()).map(|record| record.map(|it| it.chained().is_some())).collect()
    };
    assert_eq!(chained(0), [Ok(false)]);
    assert_eq!(chained(1), [Ok(true), Ok(false)]);
    assert_eq!(chained(2), [Ok(false)], "the link leads to the first function");
    let endless = chained(3);
    assert_eq!(endless.last(), Some(&Err(Error::FUNCTION_CYCLE)));
    assert!(endless[..endless.len() - 1].iter().all(|it| *it == Ok(true)));
}

/// Each operation of versions 1 and 2, by the bytes of its code.
#[test]
fn each_operation_is_read() {
    let frames = [(0, Offset::Stack as fn(u32) -> Offset), (5, Offset::Frame as fn(u32) -> Offset)];
    for (frame, at) in frames {
        for (version, slots, operation) in [
            (1, vec![9, 0x50], Operation::Push(Register(5))),
            (1, vec![9, 0x01, 6, 0], Operation::Alloc(48)),
            (1, vec![9, 0x11, 0, 0, 2, 0], Operation::Alloc(0x2_0000)),
            (1, vec![9, 0xF2], Operation::Alloc(128)),
            (1, vec![9, 0x03], Operation::SetFrame),
            (1, vec![9, 0x34, 5, 0], Operation::Save(Register(3), at(40))),
            (1, vec![9, 0x35, 0, 0, 1, 0], Operation::Save(Register(3), at(0x1_0000))),
            (1, vec![9, 0x66, 2, 0], Operation::SaveXmm(Register(23), at(32))),
            (2, vec![9, 0x16], Operation::Epilog { size_or_low: 9, flags_or_high: 1 }),
            (1, vec![9, 0x67, 0, 0, 1, 0], Operation::SaveXmm128(Register(23), at(0x1_0000))),
            (2, vec![9, 0x07, 0, 0, 0, 0], Operation::Noop),
            (1, vec![9, 0x68, 2, 0], Operation::SaveXmm128(Register(23), at(32))),
            (1, vec![9, 0x69, 0, 0, 1, 0], Operation::SaveXmm128(Register(23), at(0x1_0000))),
            (1, vec![9, 0x0A], Operation::MachineFrame { has_error_code: false }),
            (1, vec![9, 0x1A], Operation::MachineFrame { has_error_code: true }),
        ] {
            let mut made = Made::new(X64);
            let record = [[version, 9, slots.len() as u8 / 2, frame].as_slice(), &slots].concat();
            let address = made.put(&record);
            let table = made.put_words(&[0x5000, 0x5010, address]);
            made.directory(EXCEPTIONS, table, 12);
            let bytes = made.image();
            let image = strict(&bytes);
            let functions = image.functions().unwrap().unwrap();
            let record = functions.record(functions.get(0).unwrap()).unwrap();
            let codes: Vec<_> = record.codes().collect();
            let [Ok(code)] = codes[..] else { panic!("one code of {slots:?}") };
            assert_eq!((code.code_offset, code.operation), (9, operation));
        }
    }
}

#[test]
fn arm64_functions_are_read() {
    let bytes = with_arm64_functions();
    let image = strict(&bytes);
    assert!(image.functions().unwrap().is_none());
    let functions = image.arm64_functions().unwrap().unwrap();
    assert_eq!(functions.iter().map(|it| it.begin).collect::<Vec<_>>(), [0x5000, 0x5010]);
    for (rva, begin) in [
        (0x4FFF, None),
        (0x5000, Some(0x5000)),
        (0x500F, Some(0x5000)),
        (0x5010, Some(0x5010)),
        (0x504F, Some(0x5010)),
        (0x5050, None),
        (u32::MAX, None),
    ] {
        assert_eq!(functions.find(rva).unwrap().map(|it| it.begin), begin);
    }
    let Arm64Unwinding::Packed(packed) = functions.unwinding(functions.get(0).unwrap()).unwrap() else {
        panic!("packed data")
    };
    assert_eq!((packed.is_packed, packed.flag, packed.function_length, packed.frame_size), (1, 1, 16, 96));
    assert_eq!((packed.reg_f, packed.reg_i, packed.h, packed.cr), (1, 2, 1, 3));
    let Arm64Unwinding::Record(record) = functions.unwinding(functions.get(1).unwrap()).unwrap() else {
        panic!("a record")
    };
    assert_eq!((record.function_length(), record.epilog_start()), (64, None));
    let scopes: Vec<_> = record.scopes().map(Result::unwrap).map(|it| (it.start_offset, it.start_index)).collect();
    assert_eq!(scopes, [(48, 5)]);
    let read = |start| -> Vec<_> {
        record.codes(start).unwrap().map(Result::unwrap).map(|it| (it.offset, it.length, it.operation)).collect()
    };
    let alloc = Arm64Operation::AllocMedium { size: 32 };
    let epilog = [(5, 2, alloc), (7, 1, Arm64Operation::End)];
    assert_eq!(read(5), epilog);
    let prolog = [
        (0, 1, Arm64Operation::SaveFpLrPreindexed { offset: 16 }),
        (1, 2, alloc),
        (3, 1, Arm64Operation::SetFp),
        (4, 1, Arm64Operation::End),
    ];
    assert_eq!(read(0), [prolog.as_slice(), &epilog].concat());
    assert_eq!(record.codes(9).err(), Some(Error::ARM64_STREAM));
    let Some((0x1100, data)) = record.handler() else { panic!("a handler") };
    assert_eq!(data[..4], [0x77; 4]);
}

/// Each ARM64 operation, by the bytes of its code.
#[test]
fn each_arm64_operation_is_read() {
    use pe_c::{CustomStack::*, RegisterKind};
    use Arm64Operation::*;
    for (code, operation) in [
        (vec![0x02], AllocSmall { size: 32 }),
        (vec![0x23], SaveR19R20Preindexed { offset: 24 }),
        (vec![0x43], SaveFpLr { offset: 24 }),
        (vec![0x83], SaveFpLrPreindexed { offset: 32 }),
        (vec![0xC1, 0x02], AllocMedium { size: 0x1020 }),
        (vec![0xC9, 0x42], SaveRegPair { first: 24, offset: 16 }),
        (vec![0xCD, 0x42], SaveRegPairPreindexed { first: 24, offset: 24 }),
        (vec![0xD1, 0x42], SaveReg { register: 24, offset: 16 }),
        (vec![0xD5, 0x42], SaveRegPreindexed { register: 29, offset: 24 }),
        (vec![0xD7, 0x42], SaveLrPair { first: 29, offset: 16 }),
        (vec![0xD9, 0x42], SaveFRegPair { first: 13, offset: 16 }),
        (vec![0xDB, 0x42], SaveFRegPairPreindexed { first: 13, offset: 24 }),
        (vec![0xDD, 0x42], SaveFReg { register: 13, offset: 16 }),
        (vec![0xDE, 0x42], SaveFRegPreindexed { register: 10, offset: 24 }),
        (vec![0xDF, 0x42], AllocZ { count: 0x42 }),
        (vec![0xE0, 1, 2, 3], AllocLarge { size: 16 * 0x01_0203 }),
        (vec![0xE1], SetFp),
        (vec![0xE2, 3], AddFp { offset: 24 }),
        (vec![0xE3], Nop),
        (vec![0xE4], End),
        (vec![0xE5], EndC),
        (vec![0xE6], SaveNext),
        (
            vec![0xE7, 0x44, 0x42],
            SaveAnyReg { kind: RegisterKind::Float, pair: true, preindexed: false, register: 4, offset: 32 },
        ),
        (
            vec![0xE7, 0x24, 0x82],
            SaveAnyReg { kind: RegisterKind::Vector, pair: false, preindexed: true, register: 4, offset: 32 },
        ),
        (
            vec![0xE7, 0x04, 0x02],
            SaveAnyReg { kind: RegisterKind::Integer, pair: false, preindexed: false, register: 4, offset: 16 },
        ),
        (vec![0xE7, 0x23, 0xC5], SaveZReg { register: 3, number: 69 }),
        (vec![0xE7, 0x33, 0xC5], SavePReg { register: 3, number: 69 }),
        (vec![0xE8], Custom(TrapFrame)),
        (vec![0xE9], Custom(MachineFrame)),
        (vec![0xEA], Custom(Context)),
        (vec![0xEB], Custom(EcContext)),
        (vec![0xEC], Custom(ClearUnwoundToCall)),
        (vec![0xFC], PacSignLr),
        (vec![0xE7, 0x80], Reserved { opcode: 0xE7, value: 0x80 }),
        (vec![0xFB, 1, 2, 3, 4], Reserved { opcode: 0xFB, value: 0x0102_0304 }),
        (vec![0xED], Reserved { opcode: 0xED, value: 0 }),
    ] {
        let length = code.len() as u32;
        let mut stream = code.clone();
        stream.resize(8, 0xE4);
        let mut made = Made::new(ARM64);
        let record = made.put_words(&[1 << 21 | 2 << 27]);
        made.put(&stream);
        let table = made.put_words(&[0x5000, record]);
        made.directory(EXCEPTIONS, table, 8);
        let bytes = made.image();
        let image = strict(&bytes);
        let functions = image.arm64_functions().unwrap().unwrap();
        let Arm64Unwinding::Record(record) = functions.unwinding(functions.get(0).unwrap()).unwrap() else {
            panic!("a record")
        };
        assert_eq!(record.epilog_start(), Some(0));
        let first = record.codes(0).unwrap().next().unwrap().unwrap();
        assert_eq!((first.offset, first.length, first.operation), (0, length, operation), "{code:02x?}");
    }
}

#[test]
fn exports_are_listed() {
    let bytes = with_exports();
    let image = strict(&bytes);
    let exports: Vec<_> = image.exports().unwrap().map(Result::unwrap).map(|it| (it.name, it.rva, it.offset)).collect();
    assert_eq!(exports, [("first", 0x9_0000, None), ("second", 0x1004, Some(0x404))]);
    assert!(strict(SMALL).exports().unwrap().next().is_none());
}

/// An export with a name is a forwarder from the first byte of the export directory to the last, and its text is that of its index.
#[test]
fn exports_by_name_may_be_forwarders() {
    let mut bytes = with_exports();
    let fields = strict(&bytes).export_directory().unwrap().unwrap();
    let directory = strict(&bytes).info().directory(DirectoryIndex::Export).unwrap();
    // the name `second` leads to the last entry of the address table
    bytes[offset(fields.address_of_name_ordinals) as usize + 2] = 3;
    let image = strict(&bytes);
    let found: Vec<_> = image.exports().unwrap().map(Result::unwrap).collect();
    let texts: Vec<_> = found.iter().map(|it| (it.name, it.index, it.forwarder)).collect();
    let text = "NTDLL.RtlFree";
    assert_eq!(texts, [("first", 1, None), ("second", 3, Some(text))]);
    let table = image.export_addresses().unwrap().unwrap();
    assert_eq!(table.get(u64::from(found[1].index)).unwrap().forwarder, Some(text));
    assert!(bytes[found[1].offset.unwrap() as usize..].starts_with(text.as_bytes()));
    let entry = offset(fields.address_of_functions) as usize + 12;
    let (start, end) = (directory.virtual_address, directory.virtual_address + directory.size);
    for (rva, is_forwarder) in [(start - 1, false), (start, true), (end - 1, true), (end, false)] {
        bytes[entry..entry + 4].copy_from_slice(&rva.to_le_bytes());
        let found = strict(&bytes).exports().unwrap().last().unwrap().map(|it| (it.rva, it.forwarder.is_some()));
        assert_eq!(found, Ok((rva, is_forwarder)));
    }
}

/// All exports by their index: those with names, an ordinal that is not used, and a forwarder without a name.
#[test]
fn exports_have_ordinals_and_forwarders() {
    let bytes = with_exports();
    let image = strict(&bytes);
    let table = image.export_addresses().unwrap().unwrap();
    assert_eq!((table.name(), table.ordinal_base(), table.len()), (Some("made.dll"), 5, 4));
    let found: Vec<_> = table.iter().map(|it| (it.ordinal, it.forwarder)).collect();
    let text = "NTDLL.RtlFree";
    assert_eq!(found, [(5, None), (6, None), (7, None), (8, Some(text))]);
    let rvas: Vec<_> = table.iter().map(|it| it.rva).collect();
    assert_eq!(rvas[..3], [0x1004, 0x9_0000, 0]);
    let at = bytes.windows(text.len()).position(|it| it == text.as_bytes()).unwrap() as u32;
    assert_eq!(offset(rvas[3]), at);
    let indices: Vec<_> = image.exports().unwrap().map(|it| it.unwrap().index).collect();
    assert_eq!(indices, [1, 0]);
    assert_eq!((table.get(4), table.get(u64::MAX)), (None, None));
    assert!(strict(SMALL).export_addresses().unwrap().is_none());
}

/// Each field of the export directory is the number that the image was made with.
#[test]
fn the_export_directory_has_fields() {
    let bytes = with_exports();
    let image = strict(&bytes);
    let fields = image.export_directory().unwrap().unwrap();
    assert_eq!(
        (fields.characteristics, fields.time_date_stamp, fields.major_version, fields.minor_version),
        (0, 0, 0, 0)
    );
    assert_eq!((fields.base, fields.number_of_functions, fields.number_of_names), (5, 4, 2));
    let table = bytes.windows(4).position(|it| it == 0x9_0000_u32.to_le_bytes()).unwrap() - 4;
    assert_eq!(offset(fields.address_of_functions) as usize, table);
    assert!(bytes[offset(fields.name) as usize..].starts_with(b"made.dll\0"));
    let names = offset(fields.address_of_names) as usize;
    let first = u32::from_le_bytes(bytes[names..names + 4].try_into().unwrap());
    assert!(bytes[offset(first) as usize..].starts_with(b"first\0"));
    assert_eq!(bytes[offset(fields.address_of_name_ordinals) as usize..][..4], [1, 0, 0, 0]);
    assert!(strict(SMALL).export_directory().unwrap().is_none());
}

/// The root of a tree, and the directories below it, down to a data entry.
#[test]
fn resource_directories_have_entries() {
    let bytes = with_resources();
    let image = strict(&bytes);
    let leaves = image.resource_leaves().unwrap().unwrap();
    let root = leaves.directory(0).unwrap();
    assert_eq!((root.number_of_named_entries, root.number_of_id_entries), (0, 2));
    let items = |at: u32| -> Vec<_> {
        leaves
            .directory(at)
            .unwrap()
            .items()
            .map(Result::unwrap)
            .map(|it| (it.name, it.offset, it.is_directory))
            .collect()
    };
    assert_eq!(items(0), [(ResourceName::Id(16), 32, true), (ResourceName::Id(24), 80, true)]);
    assert_eq!(items(32), [(ResourceName::Id(1), 56, true)]);
    assert_eq!(items(56), [(ResourceName::Id(1033), 128, false)]);
    assert_eq!(leaves.directory(u32::MAX).err(), Some(Error::SHORT));
}

#[test]
fn imports_are_listed_by_library() {
    let bytes = with_imports();
    let image = strict(&bytes);
    let libraries: Vec<_> = image.libraries().unwrap().map(Result::unwrap).collect();
    let [first, second] = libraries.as_slice() else { panic!("two libraries") };
    assert_eq!((first.name, second.name), ("KERNEL32.dll", "a.dll"));
    let imports: Vec<_> = first.imports().map(Result::unwrap).map(|it| (it.name, it.ordinal, it.rva)).collect();
    assert_eq!(imports, [(Some("Sleep"), 42, 0x8000), (None, 17, 0x8008)]);
    let record = second.raw();
    let slots = u64::from(record.address_table_rva);
    let imports: Vec<_> = second.imports().map(Result::unwrap).map(|it| (it.name, it.ordinal, it.rva)).collect();
    assert_eq!(imports, [(Some("f"), 0, slots)]);
    assert_eq!((record.lookup_table_rva, record.time_date_stamp, record.forwarder_chain), (0, 5, 6));
    assert!(strict(SMALL).libraries().unwrap().next().is_none());
}

#[test]
fn imports_of_all_libraries_are_listed() {
    let bytes = with_imports();
    let image = strict(&bytes);
    let imports: Vec<_> = image.imports().unwrap().map(Result::unwrap).collect();
    let found: Vec<_> = imports.iter().map(|it| (it.library, it.index, it.import.name, it.import.ordinal)).collect();
    let (kernel32, a) = ("KERNEL32.dll", "a.dll");
    let wanted = [(kernel32, 0, Some("Sleep"), 42), (kernel32, 0, None, 17), (a, 1, Some("f"), 0)];
    assert_eq!(found, wanted);
    let mut nested = Vec::new();
    for library in image.libraries().unwrap() {
        nested.extend(library.unwrap().imports().map(Result::unwrap));
    }
    assert_eq!(imports.iter().map(|it| it.import).collect::<Vec<_>>(), nested);
    // the hint of `Sleep` is 42, the two bytes before its name
    let hint = image.offset(imports[0].hint_rva.unwrap()).unwrap() as usize;
    assert_eq!(bytes[hint..hint + 7], *b"\x2A\0Sleep");
    assert_eq!(imports[1].hint_rva, None);
    let refused = with_refused_import();
    let items: Vec<_> = strict(&refused).imports().unwrap().collect();
    assert_eq!(items, [Err(Error::IMPORT_NAME)]);
}

/// The image of two libraries: the lookup table of the first at this RVA, and in its address table what that had.
fn with_lookup_table_at(rva: u32, address_table: Option<u32>) -> Vec<u8> {
    let mut bytes = with_imports();
    let lookups = ADDRESS + 36;
    let record = offset(lookups + 24 + 16) as usize;
    assert_eq!(bytes[record..record + 4], lookups.to_le_bytes());
    bytes[record..record + 4].copy_from_slice(&rva.to_le_bytes());
    bytes[record + 16..record + 20].copy_from_slice(&address_table.unwrap_or(lookups).to_le_bytes());
    bytes
}

#[test]
fn an_unmapped_lookup_table_is_no_empty_one() {
    // What pefile and the loader list of it: the entries of the address table.
    for rva in [1, 0x7FFF_FFFF, u32::MAX] {
        let bytes = with_lookup_table_at(rva, None);
        for mode in [Mode::Strict, Mode::Permissive] {
            let image = Image::parse(&bytes, mode).unwrap();
            let libraries: Vec<_> = image.libraries().unwrap().map(Result::unwrap).collect();
            let [first, second] = &libraries[..] else { panic!("two libraries") };
            assert_eq!((first.has_unmapped_list(), first.imports().count()), (true, 0));
            assert_eq!((second.has_unmapped_list(), second.imports().count()), (false, 1));
            let slots = u64::from(first.raw().address_table_rva);
            let found: Vec<_> =
                first.address_table().map(Result::unwrap).map(|it| (it.name, it.ordinal, it.rva - slots)).collect();
            assert_eq!(found, [(Some("Sleep"), 42, 0), (None, 17, 8)]);
            assert!(second.address_table().eq(second.imports()));
        }
    }
    // The address table is unmapped too; it ends with the file, after as many entries as are there, by ordinal.
    let table = |bytes: &[u8]| {
        let image = strict(bytes);
        let first = image.libraries().unwrap().next().unwrap().unwrap();
        let found: Vec<_> = first.address_table().collect();
        (found.len(), found.last().unwrap().as_ref().err().copied())
    };
    assert_eq!(table(&with_lookup_table_at(1, Some(0x7000))), (1, Some(Error::UNMAPPED)));
    for count in [1, 15, 16, 17, 48, 100] {
        let mut bytes = with_lookup_table_at(1, Some(ADDRESS + 0x200));
        bytes.truncate(offset(ADDRESS + 0x200) as usize);
        bytes.extend((0..count).flat_map(|it| (1 << 63 | it as u64).to_le_bytes()));
        let room = (bytes.len() as u32).to_le_bytes();
        let header = bytes.windows(6).position(|it| it == b".rdata").unwrap();
        bytes[header + 8..header + 12].copy_from_slice(&room);
        bytes[header + 16..header + 20].copy_from_slice(&room);
        assert_eq!(table(&bytes), (count + 1, Some(Error::SHORT)), "{count}");
        bytes.extend([0; 8]);
        assert_eq!(table(&bytes), (count, None), "{count}");
    }
}

/// The error of the libraries of an image with these bytes at an RVA, and that of its imports if they can be read.
fn import_refusals(address: u32, part: &[u8]) -> (Option<Error>, Option<Error>) {
    let mut bytes = with_imports();
    let at = offset(address) as usize;
    bytes[at..at + part.len()].copy_from_slice(part);
    let image = strict(&bytes);
    let libraries = image.libraries().unwrap();
    let refused = libraries.clone().find_map(Result::err);
    let imports = libraries.flatten().flat_map(|it| it.imports().collect::<Vec<_>>());
    (refused, imports.into_iter().find_map(Result::err))
}

#[test]
fn imports_are_refused_where_they_are_read() {
    // the RVAs of the parts, as they are put: names of 13 and 6 bytes, hints and names of 8 and 4, three entries
    let (first, sleep, lookups) = (ADDRESS, ADDRESS + 24, ADDRESS + 36);
    let directory = lookups + 24 + 16;
    assert_eq!(import_refusals(first, b"K"), (None, None));
    assert_eq!(import_refusals(first, b"\xFF"), (Some(Error::IMPORT_NAME), None));
    assert_eq!(import_refusals(sleep + 2, b"\xFF"), (None, Some(Error::IMPORT_NAME)));
    assert_eq!(import_refusals(lookups, &0x7000u32.to_le_bytes()), (None, Some(Error::UNMAPPED)));
    assert_eq!(import_refusals(directory + 20 + 12, &0x7000u32.to_le_bytes()), (Some(Error::UNMAPPED), None));
}

#[test]
fn versions_and_manifests_are_read() {
    let bytes = with_resources();
    let image = strict(&bytes);
    let version = image.version().unwrap().unwrap();
    assert_eq!((version.signature, version.file_os, version.file_type), (FIXED[0], FIXED[8], FIXED[9]));
    assert_eq!(version.file_version(), [3, 11, 3150, 1013]);
    assert_eq!(version.product_version(), [1, 2, 3, 4]);
    let text = |name| image.version_text(name).unwrap().map(|text| text.to_string_lossy());
    assert_eq!(text(VersionName::CompanyName).as_deref(), Some("Größe & Söhne \u{1F600}"));
    assert_eq!(text(VersionName::ProductName).as_deref(), Some("made"));
    assert_eq!(text(VersionName::Comments), None);
    assert_eq!(image.manifest(), Ok(Some(MANIFEST)));
    let small = strict(SMALL);
    assert_eq!((small.version(), small.manifest()), (Ok(None), Ok(None)));
}

/// With the length of the value of the string `ProductName` above what follows.
fn with_damaged_string() -> Vec<u8> {
    let mut bytes = with_resources();
    let key: Vec<u8> = "ProductName\0".encode_utf16().flat_map(u16::to_le_bytes).collect();
    let at = bytes.windows(key.len()).position(|it| it == key).unwrap();
    bytes[at - 4..at - 2].copy_from_slice(&0x4000_u16.to_le_bytes());
    bytes
}

#[test]
fn a_damaged_version_string_does_not_hide_the_fixed_information() {
    let mut bytes = with_damaged_string();
    let image = strict(&bytes);
    let leaf = image.resource_leaves().unwrap().unwrap().next().unwrap().unwrap();
    assert_eq!((image.version(), leaf.version()), (Err(Error::RESOURCE_STRING), Err(Error::RESOURCE_STRING)));
    let fixed = image.fixed_version().unwrap().unwrap();
    assert_eq!((fixed.file_version(), fixed.file_os), ([3, 11, 3150, 1013], FIXED[8]));
    assert_eq!(leaf.fixed_version(), Ok(Some(fixed)));
    assert_eq!(strict(&with_resources()).fixed_version(), Ok(Some(fixed)));
    assert_eq!(strict(SMALL).fixed_version(), Ok(None));
    // A value of 48 bytes is none.
    let start = u32::from_le_bytes(bytes[OFFSET as usize..][..4].try_into().unwrap()) & 0xFFFF;
    assert_eq!(start as usize, leaf.size as usize);
    bytes[OFFSET as usize + 2] = 48;
    assert!(strict(&bytes).fixed_version().is_err());
}

#[test]
fn images_are_shared_by_threads() {
    let image = strict(SMALL);
    std::thread::scope(|scope| {
        for _ in 0..4 {
            scope.spawn(|| {
                for rva in 0x1020..0x1040 {
                    assert!(image.functions().unwrap().unwrap().find(rva).unwrap().is_some());
                }
            });
        }
    });
}

/// Names and bodies outlive the image.
#[test]
fn what_is_given_outlives_the_image() {
    fn name(bytes: &[u8]) -> &[u8] {
        strict(bytes).symbol_key().unwrap().unwrap().name()
    }
    assert_eq!(name(&with_debug()), b"a.pdb");
}

/// The base of the made images is 0x1_8000_0000.
#[test]
fn tls_callbacks_are_read() {
    let bytes = with_tls();
    let image = strict(&bytes);
    let tls = image.tls().unwrap().unwrap();
    assert_eq!((tls.start_address_of_raw_data, tls.end_address_of_raw_data), (0x1_8000_1040, 0x1_8000_1048));
    assert_eq!((tls.address_of_index, tls.address_of_callbacks), (0x1_8000_1050, 0x1_8000_1000));
    assert_eq!((tls.size_of_zero_fill, tls.characteristics), (12, 0x0030_0000));
    let callbacks: Vec<_> = image.tls_callbacks().unwrap().collect();
    assert_eq!(callbacks, [Ok(0x1_8000_2000), Ok(0x1_8000_2010)]);
    let memory = as_loaded(&image);
    let module = Image::parse_as(&memory, Mode::Strict, Layout::Mapped).unwrap();
    assert_eq!(module.tls_callbacks().unwrap().collect::<Vec<_>>(), callbacks);
    assert!(strict(&with_debug()).tls().unwrap().is_none());
    assert!(strict(&with_debug()).tls_callbacks().unwrap().next().is_none());
}

#[test]
fn damaged_tls_is_refused() {
    let change = |at: usize, value: u64| {
        let mut bytes = with_tls();
        bytes[at..at + 8].copy_from_slice(&value.to_le_bytes());
        bytes
    };
    // the address of the callbacks is the fourth field of the directory, which follows their table of 24 bytes
    let place = OFFSET as usize + 24 + 24;
    let bytes = change(place, 0);
    assert!(strict(&bytes).tls_callbacks().unwrap().next().is_none());
    let bytes = change(place, 0x1_7FFF_FFFF);
    assert_eq!(strict(&bytes).tls_callbacks().unwrap_err(), Error::DIRECTORY_VA_BELOW_BASE);
    assert_eq!(Error::DIRECTORY_VA_BELOW_BASE.number(), 304);
    let bytes = change(place, 0x1_8090_0000);
    assert_eq!(strict(&bytes).tls_callbacks().unwrap_err(), Error::UNMAPPED);
    // a table without an end: its last number, and then the bytes, are no zero
    let mut bytes = with_tls();
    bytes.truncate(OFFSET as usize + 0x48);
    bytes[OFFSET as usize..].fill(1);
    let image = Image::parse(&bytes, Mode::Strict).unwrap();
    assert!(image.tls().is_ok());
    let mut fourth = bytes.clone();
    fourth[place..place + 8].copy_from_slice(&0x1_8000_1000u64.to_le_bytes());
    let image = Image::parse(&fourth, Mode::Strict).unwrap();
    let callbacks: Vec<_> = image.tls_callbacks().unwrap().collect();
    assert_eq!((callbacks.len(), callbacks.last()), (10, Some(&Err(Error::SHORT))));
}

#[test]
fn base_relocations_are_read() {
    let bytes = with_relocations();
    let image = strict(&bytes);
    let blocks: Vec<_> = image.relocation_blocks().unwrap().map(Result::unwrap).collect();
    assert_eq!(blocks.iter().map(|it| it.page_rva).collect::<Vec<_>>(), [0x1000, 0x5000]);
    let of = |index: usize| -> Vec<_> { blocks[index].relocations().map(Result::unwrap).collect() };
    let one = |rva, kind, argument| record!(Relocation::default(); rva: rva, kind: kind, argument: argument);
    assert_eq!(of(0), [one(0x1008, 10, None), one(0x1FFF, 3, None)]);
    assert_eq!(of(1), [one(0x5010, 4, Some(0x8765)), one(0x5000, 0, None), one(0x5000, 0, None)]);
    assert!(strict(&with_debug()).relocation_blocks().unwrap().next().is_none());
}

/// The base, a DIR64 over the entries of its block, and a HIGHLOW in zeros, at a base that is 0x10000 higher; then the same back.
#[test]
fn images_are_laid_out_and_relocated() {
    let mut bytes = with_relocations();
    // the sizes of the image and of its headers, and base relocations of one block
    bytes[0x90..0x98].copy_from_slice(&[0x10, 0x20, 0, 0, 0, 2, 0, 0]);
    bytes[0xF4] = 12;
    let image = strict(&bytes);
    let mut loaded = image.map().unwrap();
    assert_eq!(loaded.len(), 0x2010);
    assert_eq!(loaded[..0x200], bytes[..0x200]);
    assert_eq!(loaded[0x1000..0x1200], bytes[OFFSET as usize..][..0x200]);
    assert!(loaded[0x200..0x1000].iter().chain(&loaded[0x1200..]).all(|it| *it == 0));
    let before = loaded.clone();
    assert_eq!(image.relocate(&mut loaded, 0x10000), Ok(true));
    assert_eq!(loaded[0x70..0x78], 0x1_8001_0000u64.to_le_bytes());
    assert_eq!(loaded[0x1008..0x1010], 0x5000_4000_A008u64.to_le_bytes());
    assert_eq!(loaded[0x1FFF..0x2003], [0, 0, 1, 0]);
    assert_eq!(image.relocate(&mut loaded, 0u64.wrapping_sub(0x10000)), Ok(true));
    assert_eq!(loaded, before);
    assert_eq!(image.relocate(&mut loaded[..0x2002], 1), Err(Error::DIRECTORY_RELOCATION_OUTSIDE));
    assert_eq!(strict(&with_relocations()).relocate(&mut loaded, 1), Err(Error::DIRECTORY_RELOCATION_KIND));
    assert_eq!(strict(&with_debug()).relocate(&mut loaded, 1), Ok(false));
    assert_eq!(loaded, before);
}

/// A page and a size of 0 end the list: Wine's placeholder DLLs have nothing else there.
#[test]
fn zeros_end_the_base_relocations() {
    for (start, pages) in [(0, vec![]), (12, vec![Ok(0x1000)])] {
        let mut bytes = with_relocations();
        bytes[OFFSET as usize + start..][..8].fill(0);
        let image = strict(&bytes);
        let mut blocks = image.relocation_blocks().unwrap();
        let items: Vec<_> = blocks.by_ref().map(|it| it.map(|it| it.page_rva)).collect();
        assert_eq!(items, pages);
        assert!(blocks.next().is_none());
    }
}

#[test]
fn damaged_base_relocations_are_refused() {
    let place = OFFSET as usize;
    let found = |at: usize, value: u8| {
        let mut bytes = with_relocations();
        bytes[place + at] = value;
        let image = strict(&bytes);
        let mut blocks = image.relocation_blocks().unwrap();
        let items: Vec<_> = blocks.by_ref().map(|it| it.map(|it| it.page_rva)).collect();
        assert!(blocks.next().is_none());
        items
    };
    assert_eq!(found(4, 7), [Err(Error::DIRECTORY_BLOCK_SIZE)]);
    assert_eq!(found(16, 15), [Ok(0x1000), Err(Error::DIRECTORY_BLOCK_SIZE)]);
    assert_eq!(found(16, 18), [Ok(0x1000), Err(Error::DIRECTORY_BLOCK_TRUNCATED)]);
    assert_eq!(found(4, 22), [Ok(0x1000), Err(Error::SHORT)]);
    // the last entry of the second block is a HIGHADJ
    let mut bytes = with_relocations();
    bytes[place + 24..place + 28].copy_from_slice(&[0x00, 0x00, 0x10, 0x40]);
    let image = strict(&bytes);
    let block = image.relocation_blocks().unwrap().nth(1).unwrap().unwrap();
    let relocations: Vec<_> = block.relocations().collect();
    assert_eq!(relocations.len(), 3);
    assert_eq!(relocations[2], Err(Error::DIRECTORY_NO_ARGUMENT));
    assert_eq!(Error::DIRECTORY_NO_ARGUMENT.number(), 303);
}

#[test]
fn many_names_in_one_text_are_read_together() {
    let bytes = with_names_in_one_text();
    let image = strict(&bytes);
    let exports: Vec<_> = image.exports().unwrap().map(|it| it.unwrap().name).collect();
    let text = "a".repeat(400);
    let wanted: Vec<_> = (0..300).map(|i| &text[i..]).collect();
    assert_eq!(exports, wanted);
    let libraries: Vec<_> = image.libraries().unwrap().map(Result::unwrap).collect();
    assert_eq!(libraries.iter().map(|it| it.name).collect::<Vec<_>>(), wanted);
    let imports: Vec<_> = libraries[299].imports().map(|it| it.unwrap()).collect();
    assert_eq!(imports.iter().map(|it| it.name.unwrap()).collect::<Vec<_>>(), wanted);
    // The hint is two letters of the text, but for the first; each slot follows the one before.
    assert_eq!((imports[0].ordinal, imports[1].ordinal, imports[2].ordinal), (0, 0x6100, 0x6161));
    assert_eq!(imports[299].rva, imports[0].rva + 8 * 299);
}

#[test]
fn many_late_names_in_one_text_are_read_together() {
    let bytes = with_late_names_in_one_text();
    let image = strict(&bytes);
    let text = "a".repeat(400);
    let wanted: Vec<_> = (0..300).map(|i| &text[i..]).collect();
    let table = image.export_addresses().unwrap().unwrap();
    let forwarders: Vec<_> = table.iter().map(|it| it.forwarder.unwrap()).collect();
    assert_eq!(forwarders, wanted);
    assert_eq!(table.iter().map(|it| it.ordinal).collect::<Vec<_>>(), (5..305).collect::<Vec<_>>());
    let libraries: Vec<_> = image.delay_imports().unwrap().map(Result::unwrap).collect();
    assert_eq!(libraries.iter().map(|it| it.name).collect::<Vec<_>>(), wanted);
    let functions: Vec<_> = libraries[299].functions().map(Result::unwrap).collect();
    assert_eq!(functions.iter().map(|it| it.name.unwrap()).collect::<Vec<_>>(), wanted);
    assert_eq!((functions[0].ordinal, functions[1].ordinal, functions[2].ordinal), (0, 0x6100, 0x6161));
    // The DLLs share the table: of each of them all functions are listed.
    let mut all = image.delayed_functions().unwrap();
    for (i, library) in wanted.iter().enumerate() {
        for function in &functions {
            let found = all.next().unwrap().unwrap();
            assert_eq!((found.library, found.index, found.function), (*library, i as u64, *function));
        }
    }
    assert!(all.next().is_none());
}
