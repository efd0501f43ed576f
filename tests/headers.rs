//! Headers, in both widths and both modes.

use crate::images::{
    MODES, directory_at, headers_alone, image, pointer_below_64, put, short, short_in, with_byte,
};
use crate::whole_images::in_mode;
use pe_core::{
    CoffHeader, DataDirectory, DosHeader, Error, Header, OptionalHeader, ParseMode, ParseOptions,
    Reason,
};
use std::alloc::{AllocError, Global};
use std::test::Fail;

#[test]
fn refuses_other_magics(rt: HostRuntime) -> Result<(), Fail> {
    for mode in MODES {
        let opts = in_mode(mode);
        let bytes = with_byte(headers_alone(rt.alloc())?, 0, 0x3D);
        let refusal = Header::parse_with_opts(&bytes, &opts).err().ok_or("given")?;
        // shows: pe_core/src/header.rt parse_in_steps BadMagic
        assert!(rt; matches!(refusal, Error::BadMagic(0x5A3D)));
        let bytes = with_byte(headers_alone(rt.alloc())?, 0x79, 5);
        let refusal = Header::parse_with_opts(&bytes, &opts).err().ok_or("given")?;
        assert!(rt; matches!(refusal, Error::BadMagic(0x0550)));
        let bytes = with_byte(headers_alone(rt.alloc())?, 0x91, 7);
        let refusal = Header::parse_with_opts(&bytes, &opts).err().ok_or("given")?;
        // shows: pe_core/src/optional_header.rt parse BadMagic
        assert!(rt; matches!(refusal, Error::BadMagic(0x070B)));
        let refusal = Header::parse_with_opts(&[], &opts).err().ok_or("given")?;
        assert!(rt; matches!(refusal, Error::Short { at: 0, needed: 64 }));
    }
    Ok(())
}

#[test]
fn pointer_into_the_dos_header(rt: HostRuntime) -> Result<(), Fail> {
    let bytes = pointer_below_64(rt.alloc())?;
    let refusal = Header::parse_with_opts(&bytes, &in_mode(ParseMode::Strict))
        .err()
        .ok_or("given")?;
    // shows: pe_core/src/header.rt parse_in_steps HeaderPointer
    assert!(rt; matches!(refusal, Error::Malformed(Reason::HeaderPointer(0x30))));
    let header = Header::parse_with_opts(&bytes, &in_mode(ParseMode::Permissive))?;
    assert!(rt; header.dos_stub.is_empty());
    assert_eq!(rt; header.coff_header.machine, 0x14C);
    assert!(rt; header.optional_header.is_none());
    Ok(())
}

/// The directories end at 0x180: 0x78, 24 bytes, 112 bytes and sixteen rows.
#[test]
fn cut_to_every_length(rt: HostRuntime) -> Result<(), Fail> {
    let bytes = headers_alone(rt.alloc())?;
    for mode in MODES {
        for length in 0..=bytes.len() {
            let part = bytes.get(..length).ok_or("past the end")?;
            match Header::parse_with_opts(part, &in_mode(mode)) {
                Ok(_) => assert!(rt; length >= 0x180, "given at {length}"),
                Err(Error::Short { .. }) => assert!(rt; length < 0x180, "truncated at {length}"),
                Err(_) => assert!(rt; false, "another refusal at {length}"),
            }
        }
    }
    Ok(())
}

/// An image in which every byte that no format fixes follows from its offset: seven times it and three. It counts more
/// directories than sixteen, and its optional header, of this magic, is longer than the COFF header says.
fn reported_by_offset(alloc: Global, magic: &[u8], count_at: usize) -> Result<Vec<u8>, AllocError> {
    let mut bytes = image(alloc, 0x200, &[])?;
    for (offset, byte) in bytes.iter_mut().enumerate() {
        *byte = ((offset % 256 * 7 + 3) % 256) as u8;
    }
    put(
        &mut bytes,
        &[
            (0, b"MZ"),
            (0x3C, &[0x60, 0, 0, 0]),
            (0x60, &[0x50, 0x45, 0, 0]),
            (0x74, &[0x60, 0]),
            (0x78, magic),
            (count_at, &[0x11, 0, 1, 0]),
        ],
    );
    Ok(bytes)
}

/// Such an image of PE32.
fn every_field_different(alloc: Global) -> Result<Vec<u8>, AllocError> {
    reported_by_offset(alloc, &[0x0B, 1], 0xD4)
}

const COFF: CoffHeader = CoffHeader {
    machine: 0xC6BF,
    number_of_sections: 0xD4CD,
    time_date_stamp: 0xF0E9E2DB,
    pointer_to_symbol_table: 0xC05FEF7,
    number_of_symbol_table: 0x28211A13,
    size_of_optional_header: 0x60,
    characteristics: 0x443D,
};

const DIRECTORIES: [(u32, u32); 16] = [
    (0xF9F2EB, 0x1C150E07),
    (0x38312A23, 0x544D463F),
    (0x7069625B, 0x8C857E77),
    (0xA8A19A93, 0xC4BDB6AF),
    (0xE0D9D2CB, 0xFCF5EEE7),
    (0x18110A03, 0x342D261F),
    (0x5049423B, 0x6C655E57),
    (0x88817A73, 0xA49D968F),
    (0xC0B9B2AB, 0xDCD5CEC7),
    (0xF8F1EAE3, 0x140D06FF),
    (0x3029221B, 0x4C453E37),
    (0x68615A53, 0x847D766F),
    (0xA099928B, 0xBCB5AEA7),
    (0xD8D1CAC3, 0xF4EDE6DF),
    (0x100902FB, 0x2C251E17),
    (0x48413A33, 0x645D564F),
];

#[test]
fn each_getter_gives_its_directory(rt: HostRuntime) -> Result<(), Fail> {
    let bytes = every_field_different(rt.alloc())?;
    let directories = OptionalHeader::parse(&bytes, 0x78)?.data_directories;
    let given = [
        directories.get_export_table(),
        directories.get_import_table(),
        directories.get_resource_table(),
        directories.get_exception_table(),
        directories.get_certificate_table(),
        directories.get_base_relocation_table(),
        directories.get_debug_table(),
        directories.get_architecture(),
        directories.get_global_ptr(),
        directories.get_tls_table(),
        directories.get_load_config_table(),
        directories.get_bound_import_table(),
        directories.get_import_address_table(),
        directories.get_delay_import_descriptor(),
        directories.get_clr_runtime_header(),
    ];
    for (row, (virtual_address, size)) in given.iter().zip(DIRECTORIES) {
        let want = directory_at(virtual_address, size);
        assert_eq!(rt; *row, Some(want));
    }
    assert_eq!(rt; directories.get(16), None);
    Ok(())
}

/// Three rows, of which the second is all zero.
#[test]
fn absent_directories(rt: HostRuntime) -> Result<(), Fail> {
    let bytes = image(
        rt.alloc(),
        0x78,
        &[(0, &[0x0B, 1]), (92, &[3]), (96, &[1]), (116, &[2])],
    )?;
    let directories = OptionalHeader::parse(&bytes, 0)?.data_directories;
    assert_eq!(rt; directories.rows().len(), 3);
    assert!(rt; directories.get_export_table().is_some());
    assert_eq!(rt; directories.get_import_table(), None);
    assert!(rt; directories.get_resource_table().is_some());
    assert_eq!(rt; directories.get_exception_table(), None);
    let truncated = bytes.get(..0x77).ok_or("past the end")?;
    let found = short_in(OptionalHeader::parse(truncated, 0));
    assert_eq!(rt; found, short(96, 24));
    Ok(())
}

#[test]
fn records_alone(rt: HostRuntime) -> Result<(), Fail> {
    let bytes = every_field_different(rt.alloc())?;
    assert_eq!(rt; DosHeader::parse(&bytes)?.pe_pointer, 0x60);
    assert_eq!(rt; CoffHeader::parse(&bytes, 0x64)?, COFF);
    let row = DataDirectory::parse(&bytes, 0x78 + 96)?;
    let found = Some((row.virtual_address, row.size));
    assert_eq!(rt; found, DIRECTORIES.first().copied());
    assert!(rt; DataDirectory::parse(&bytes[..0x78 + 104], 0x78 + 96)? == row);
    let found = short_in(CoffHeader::parse(&bytes, 0x1ED));
    assert_eq!(rt; found, Some((0x1ED, 20)));
    Ok(())
}

#[test]
fn options(rt: HostRuntime) {
    let opts = ParseOptions::default();
    assert!(rt;
        opts.resolve_rva
            && opts.parse_attribute_certificates
            && opts.parse_imports
            && opts.parse_resources
    );
    assert_eq!(rt; opts.parse_mode, ParseMode::Strict);
    let opts = ParseOptions::te().with_parse_mode(ParseMode::Permissive);
    assert!(rt;
        !opts.resolve_rva
            && !opts.parse_attribute_certificates
            && !opts.parse_imports
            && !opts.parse_resources
    );
    assert_eq!(rt; opts.parse_mode, ParseMode::Permissive);
}
