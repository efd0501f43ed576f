//! All numbers of headers. The images have bytes that count up with their offset, so that a field at offset 0x48 of 4 bytes is
//! 0x4B4A4948; the offsets of fields are those of winnt.h.

use super::made::*;
use crate::headers::{
    RANGE_STRING_TABLE, pe_c_headers, pe_c_image_range, pe_c_long_section_name,
    pe_c_next_rich_entry, pe_c_rich_header,
};
use calls_headers::headers::{CoffFields, DosFields, Headers, OptionalFields};
use calls_headers::rich_header::RichHeader;
use pe_directories::RichEntry;
use pe_images::{
    image as bytes_of, pointer_below_64, with_every_directory, with_every_directory_of_x86,
};

/// The words of a DOS header before its last field, in their order.
fn dos_words(dos: &DosFields) -> [u16; 30] {
    let mut words = [0; 30];
    let first = [
        dos.signature,
        dos.bytes_on_last_page,
        dos.pages_in_file,
        dos.relocations,
        dos.size_of_header_in_paragraphs,
        dos.minimum_extra_paragraphs,
        dos.maximum_extra_paragraphs,
        dos.initial_relative_ss,
        dos.initial_sp,
        dos.checksum,
        dos.initial_ip,
        dos.initial_relative_cs,
        dos.relocations_offset,
        dos.overlay_number,
    ];
    words[..14].copy_from_slice(&first);
    words[14..18].copy_from_slice(&dos.reserved);
    words[18] = dos.oem_id;
    words[19] = dos.oem_information;
    words[20..].copy_from_slice(&dos.reserved2);
    words
}

fn coff_numbers(coff: &CoffFields) -> [u32; 7] {
    [
        u32::from(coff.machine),
        u32::from(coff.number_of_sections),
        coff.time_date_stamp,
        coff.pointer_to_symbol_table,
        coff.number_of_symbol_table,
        u32::from(coff.size_of_optional_header),
        u32::from(coff.characteristics),
    ]
}

/// The numbers of an optional header in the order of winnt.h, without the magic number.
fn optional_numbers(optional: &OptionalFields) -> [u64; 29] {
    [
        u64::from(optional.major_linker_version),
        u64::from(optional.minor_linker_version),
        u64::from(optional.size_of_code),
        u64::from(optional.size_of_initialized_data),
        u64::from(optional.size_of_uninitialized_data),
        u64::from(optional.address_of_entry_point),
        u64::from(optional.base_of_code),
        u64::from(optional.base_of_data),
        optional.image_base,
        u64::from(optional.section_alignment),
        u64::from(optional.file_alignment),
        u64::from(optional.major_operating_system_version),
        u64::from(optional.minor_operating_system_version),
        u64::from(optional.major_image_version),
        u64::from(optional.minor_image_version),
        u64::from(optional.major_subsystem_version),
        u64::from(optional.minor_subsystem_version),
        u64::from(optional.win32_version_value),
        u64::from(optional.size_of_image),
        u64::from(optional.size_of_headers),
        u64::from(optional.check_sum),
        u64::from(optional.subsystem),
        u64::from(optional.dll_characteristics),
        optional.size_of_stack_reserve,
        optional.size_of_stack_commit,
        optional.size_of_heap_reserve,
        optional.size_of_heap_commit,
        u64::from(optional.loader_flags),
        u64::from(optional.number_of_rva_and_sizes),
    ]
}

/// Bytes that count up, but for the signatures, the offset of the PE signature, the machine, the number of sections and the
/// size of the optional header. `end` is the offset of the number of directories.
fn count_up(bytes: &mut [u8], end: usize) {
    for (start, end) in [(2, 0x3C), (0x48, 0x54), (0x56, 0x58), (0x5A, end)] {
        for i in start..end {
            bytes[i] = i as u8;
        }
    }
}

/// The number of `size` bytes at an offset of bytes that count up.
fn counted(offset: u64, size: u64) -> u64 {
    let mut number = 0;
    for i in 0..size {
        number += (offset + i) << (8 * i);
    }
    number
}

/// What the fields of an optional header at 0x58 are, by the offsets and sizes in the header of what follows its magic number.
fn counted_fields([offsets, sizes]: [[u64; 28]; 2], directories: u64) -> [u64; 29] {
    let mut numbers = [directories; 29];
    for i in 0..28 {
        numbers[i] = counted(0x58 + offsets[i], sizes[i]);
    }
    numbers
}

const FIELDS_OF_64: [[u64; 28]; 2] = [
    [
        2, 3, 4, 8, 12, 16, 20, 0, 24, 32, 36, 40, 42, 44, 46, 48, 50, 52, 56, 60, 64, 68, 70, 72,
        80, 88, 96, 104,
    ],
    [
        1, 1, 4, 4, 4, 4, 4, 0, 8, 4, 4, 2, 2, 2, 2, 2, 2, 4, 4, 4, 4, 2, 2, 8, 8, 8, 8, 4,
    ],
];

const FIELDS_OF_32: [[u64; 28]; 2] = [
    [
        2, 3, 4, 8, 12, 16, 20, 24, 28, 32, 36, 40, 42, 44, 46, 48, 50, 52, 56, 60, 64, 68, 70, 72,
        76, 80, 84, 88,
    ],
    [
        1, 1, 4, 4, 4, 4, 4, 4, 4, 4, 4, 2, 2, 2, 2, 2, 2, 4, 4, 4, 4, 2, 2, 4, 4, 4, 4, 4,
    ],
];

#[test]
fn every_number_of_64_bits(rt: HostRuntime) -> Result<(), Fail> {
    let mut bytes = with_every_directory(rt.alloc())?;
    count_up(&mut bytes, 0xC4);
    let mut out: Headers = filled();
    assert_eq!(rt; pe_c_headers(&bytes, STRICT, &mut out), DONE);
    let words = dos_words(&out.dos);
    let found = (words[0], out.dos.pe_pointer, out.signature);
    assert_eq!(rt; found, (0x5A4D, 0x40, 0x4550));
    for i in 1..30 {
        assert_eq!(rt; u64::from(words[i]), counted(2 * i as u64, 2), "{i}");
    }
    let coff = [
        0x8664,
        1,
        0x4B4A_4948,
        0x4F4E_4D4C,
        0x5352_5150,
        0xF0,
        0x5756,
    ];
    assert_eq!(rt; coff_numbers(&out.coff), coff);
    assert_eq!(rt; out.optional.magic, 0x20B);
    let wanted = counted_fields(FIELDS_OF_64, 16);
    assert_eq!(rt; optional_numbers(&out.optional), wanted);
    assert_eq!(rt; out.optional.number_of_directories, 16);
    assert_eq!(rt; (out.dos_stub.offset, out.dos_stub.length), (0x40, 0));
    assert_eq!(rt; (out.optional_offset, out.directories_offset), (0x58, 0xC8));
    let row = out.directories[6];
    assert_eq!(rt; (row.virtual_address, row.size), (0x1440, 0x54));
    Ok(())
}

/// PE32 has a base of data before its image base, and 4 bytes where PE32+ has 8. The size field of the optional header is not asked.
#[test]
fn every_number_of_32_bits(rt: HostRuntime) -> Result<(), Fail> {
    let mut bytes = with_every_directory_of_x86(rt.alloc())?;
    count_up(&mut bytes, 0xB4);
    put(&mut bytes, &[(0x54, &[0x60]), (0xB4, &[5, 0, 0, 0x80])]);
    let mut out: Headers = filled();
    assert_eq!(rt; pe_c_headers(&bytes, STRICT, &mut out), DONE);
    assert_eq!(rt; out.optional.magic, 0x10B);
    let wanted = counted_fields(FIELDS_OF_32, 0x8000_0005);
    assert_eq!(rt; optional_numbers(&out.optional), wanted);
    assert_eq!(rt; out.optional.number_of_directories, 16);
    assert_eq!(rt; (out.optional_offset, out.directories_offset), (0x58, 0xB8));
    put(&mut bytes, &[(0xB4, &[5, 0, 0, 0])]);
    assert_eq!(rt; pe_c_headers(&bytes, STRICT, &mut out), DONE);
    assert_eq!(rt; out.optional.number_of_directories, 5);
    let rows = [out.directories[4], out.directories[5]];
    assert_eq!(rt; rows[0].size != 0 && rows[1].size == 0, true);
    Ok(())
}

/// A PE header at 0x30, without an optional header: it overlaps the DOS header, so there is no stub. One at 0x80 has a stub.
#[test]
fn headers_without_an_optional_header(rt: HostRuntime) -> Result<(), Fail> {
    let bytes = pointer_below_64(rt.alloc())?;
    let mut out: Headers = filled();
    assert_eq!(rt; pe_c_headers(&bytes, STRICT, &mut out), HEADER_POINTER);
    assert!(rt; is_filled(&out));
    assert_eq!(rt; pe_c_headers(&bytes, PERMISSIVE, &mut out), DONE);
    assert_eq!(rt; (out.dos.pe_pointer, out.dos_stub.length), (0x30, 0));
    assert_eq!(rt; optional_numbers(&out.optional), [0; 29]);
    let found = (out.optional.magic, out.optional.number_of_directories);
    assert_eq!(rt; found, (0, 0));
    assert_eq!(rt; (out.optional_offset, out.directories_offset), (0, 0));
    let row = out.directories[15];
    assert_eq!(rt; (row.virtual_address, row.size), (0, 0));
    let mut later = pointer_below_64(rt.alloc())?;
    put(&mut later, &[(0x3C, &[0x80]), (0x80, b"PE\0\0")]);
    assert_eq!(rt; pe_c_headers(&later, STRICT, &mut out), DONE);
    assert_eq!(rt; (out.dos_stub.offset, out.dos_stub.length), (0x40, 0x40));
    assert_eq!(rt; pe_c_headers(&later[..0x90], STRICT, &mut out), SHORT);
    Ok(())
}

// ---- the COFF string table, and names of sections in it

/// The headers of a file with one symbol at 0x60, and the string table after it, of 32 bytes at 0x72.
fn with_strings(alloc: Global) -> Result<Vec<u8>, AllocError> {
    bytes_of(
        alloc,
        0x92,
        &[
            (0x00, b"MZ"),
            (0x3C, &[0x40]),
            (0x40, b"PE\0\0\x64\x86"),
            (0x4C, &[0x60, 0, 0, 0, 1]),
            (0x72, b"\x20\0\0\0.debug_info\0.debug_line\0tail"),
        ],
    )
}

fn table_of(bytes: &[u8], mode: u32) -> (u32, [u64; 2]) {
    let mut out = untouched();
    let image = in_mode(&image(X64), mode);
    let answer = pe_c_image_range(&view(bytes, &image, &[]), RANGE_STRING_TABLE, &mut out);
    (answer, of_range(out))
}

#[test]
fn finds_the_table(rt: HostRuntime) -> Result<(), Fail> {
    let mut bytes = with_strings(rt.alloc())?;
    assert_eq!(rt; table_of(&bytes, STRICT), (DONE, [0x72, 32]));
    assert_eq!(rt; table_of(&bytes, MAPPED), (NOTHING, UNTOUCHED));
    assert_eq!(rt; table_of(&bytes[..0x91], STRICT), (STRING_TABLE, UNTOUCHED));
    assert_eq!(rt; table_of(&bytes[..0x72], STRICT), (NOTHING, UNTOUCHED));
    assert_eq!(rt; table_of(&bytes[..0x71], STRICT), (SHORT, UNTOUCHED));
    // A size below 4 is read as 4.
    put(&mut bytes, &[(0x72, &[3])]);
    assert_eq!(rt; table_of(&bytes, STRICT), (DONE, [0x72, 4]));
    put(&mut bytes, &[(0x4C, &[0])]);
    assert_eq!(rt; table_of(&bytes, STRICT), (NOTHING, UNTOUCHED));
    Ok(())
}

fn name_of(bytes: &[u8], table: Range, name: [u8; 8]) -> (u32, [u64; 2]) {
    let [section] = sections();
    let section = SectionTable { name, ..section };
    let mut out = untouched();
    let answer = pe_c_long_section_name(bytes, &table, &section, &mut out);
    (answer, of_range(out))
}

/// Names as LLVM and GNU binutils write them: `/4` in decimal, `//AAAAAE` in base 64, where a letter has 6 bits.
#[test]
fn names_in_the_table(rt: HostRuntime) -> Result<(), Fail> {
    let bytes = with_strings(rt.alloc())?;
    let table = range(0x72, 32);
    for (name, want) in [
        (b"/4\0\0\0\0\0\0", (DONE, [0x76, 11])),
        (b"/0000016", (DONE, [0x82, 11])),
        (b"//AAAAAQ", (DONE, [0x82, 11])),
        // A string may be the end of another one, or empty.
        (b"/5\0\0\0\0\0\0", (DONE, [0x77, 10])),
        (b"/15\0\0\0\0\0", (DONE, [0x81, 0])),
        // Inside the size field, not terminated, past the end, no number.
        (b"/3\0\0\0\0\0\0", (NOTHING, UNTOUCHED)),
        (b"/28\0\0\0\0\0", (NOTHING, UNTOUCHED)),
        (b"/4x\0\0\0\0\0", (NOTHING, UNTOUCHED)),
        (b".text\0\0\0", (NOTHING, UNTOUCHED)),
    ] {
        assert_eq!(rt; name_of(&bytes, table, *name), want);
    }
    let lie = range(0x72, 33);
    let refused = (SHORT, UNTOUCHED);
    assert_eq!(rt; name_of(&bytes, lie, *b".text\0\0\0"), refused);
    Ok(())
}

// ---- the Rich header of an image, and its entries

/// The first 232 bytes of t32.exe of distlib 0.3.8, a launcher that Microsoft's linker made. The entries are those that pefile
/// 2023.2.7 prints, and the key is the checksum since nobody changed them.
const T32: &[u8; 232] =
    b"MZ\x90\0\x03\0\0\0\x04\0\0\0\xFF\xFF\0\0\xB8\0\0\0\0\0\0\0\x40\0\0\0\0\0\0\0\
    \0\0\0\0\0\0\0\0\0\0\0\0\0\0\0\0\0\0\0\0\0\0\0\0\0\0\0\0\xE8\0\0\0\
    \x0E\x1F\xBA\x0E\0\xB4\x09\xCD\x21\xB8\x01\x4C\xCD\x21This program cannot be run in DOS mode.\x0D\x0D\x0A\x24\
    \0\0\0\0\0\0\0\x8C\x71\xCD\x76\xC8\x10\xA3\x25\xC8\x10\xA3\x25\xC8\x10\xA3\x25\
    \x5B\x5E\x3B\x25\xC9\x10\xA3\x25\xD3\x8D\x08\x25\xE9\x10\xA3\x25\xD3\x8D\x3D\x25\xC7\x10\xA3\x25\
    \xD3\x8D\x09\x25\xB1\x10\xA3\x25\xC1\x68\x30\x25\xCD\x10\xA3\x25\xC8\x10\xA2\x25\x97\x10\xA3\x25\
    \xD3\x8D\x0D\x25\xC9\x10\xA3\x25\xD3\x8D\x39\x25\xC9\x10\xA3\x25\xD3\x8D\x3E\x25\xC9\x10\xA3\x25\
    Rich\xC8\x10\xA3\x25\0\0\0\0\0\0\0\0";

const KEY: u32 = 0x25A3_10C8;

const NO_HEADER: RichHeader = RichHeader {
    entries: NO_BYTES,
    count: 1,
    key: 2,
    checksum: 3,
    key_is_checksum: 4,
    spare: 5,
};

const NO_ENTRY: RichEntry = RichEntry {
    build: 1,
    product: 2,
    count: 3,
};

/// Entries, how many; key, checksum, whether they are equal, spare.
fn flat(header: RichHeader) -> ([u64; 2], u64, [u32; 4]) {
    let RichHeader {
        entries,
        count,
        key,
        checksum,
        key_is_checksum,
        spare,
    } = header;
    (
        of_range(entries),
        count,
        [key, checksum, key_is_checksum, spare],
    )
}

fn read(bytes: &[u8]) -> (u32, ([u64; 2], u64, [u32; 4])) {
    let mut out = NO_HEADER;
    let answer = pe_c_rich_header(bytes, &mut out);
    (answer, flat(out))
}

#[test]
fn reads_the_header(rt: HostRuntime) -> Result<(), Fail> {
    let want = ([144, 72], 9, [KEY, KEY, 1, 0]);
    assert_eq!(rt; read(T32), (DONE, want));
    // The PE pointer is not covered by the checksum. Its bytes say where the search ends.
    let mut other = *T32;
    other[60] = 224;
    assert_eq!(rt; read(&other), (DONE, want));
    other[60] = 223;
    assert_eq!(rt; read(&other), (NOTHING, flat(NO_HEADER)));
    other[63] = 0xFF;
    assert_eq!(rt; read(&other), (DONE, want));
    // One more in a byte of the stub, at offset 80, is rotated left by 16.
    let mut changed = *T32;
    changed[80] += 1;
    let want = ([144, 72], 9, [KEY, KEY + 0x1_0000, 0, 0]);
    assert_eq!(rt; read(&changed), (DONE, want));
    assert_eq!(rt; read(&T32[..63]), (SHORT, flat(NO_HEADER)));
    assert_eq!(rt; read(&T32[..64]), (NOTHING, flat(NO_HEADER)));
    Ok(())
}

fn step(walk: &mut Range) -> (u32, RichEntry) {
    let mut out = NO_ENTRY;
    let answer = pe_c_next_rich_entry(T32, KEY, walk, &mut out);
    (answer, out)
}

#[test]
fn entries_in_turn(rt: HostRuntime) -> Result<(), Fail> {
    let mut walk = range(144, 72);
    for (product, build, count) in [(152, 20115, 1), (171, 40219, 33), (158, 40219, 15)] {
        let want = RichEntry {
            build,
            product,
            count,
        };
        assert_eq!(rt; step(&mut walk), (DONE, want));
    }
    assert_eq!(rt; of_range(walk), [168, 48]);
    for _ in 0..6 {
        assert_eq!(rt; step(&mut walk).0, DONE);
    }
    assert_eq!(rt; step(&mut walk), (NOTHING, NO_ENTRY));
    assert_eq!(rt; of_range(walk), [216, 0]);
    let mut truncated = range(144, 7);
    assert_eq!(rt; step(&mut truncated), (SHORT, NO_ENTRY));
    assert_eq!(rt; of_range(truncated), OVER);
    Ok(())
}
