//! The load configuration of images: each field, and which are there.

use crate::facts::as_loaded;
use crate::made::*;
use pe_c::{DirectoryIndex, Error, GuardTable, Image, Layout, LoadConfig, LoadConfigField, Mode};

fn strict(bytes: &[u8]) -> Image<'_> {
    Image::parse(bytes, Mode::Strict).unwrap()
}

/// Of a structure that has its size alone.
fn of_a_size(size: u32) -> LoadConfig {
    record!(LoadConfig::default(); size: size)
}

/// The image with a structure of another size.
fn of_size(size: u32) -> Vec<u8> {
    let mut bytes = with_load_config();
    bytes[OFFSET as usize..OFFSET as usize + 4].copy_from_slice(&size.to_le_bytes());
    bytes
}

#[test]
fn load_configurations_are_read() {
    let bytes = with_load_config();
    let image = strict(&bytes);
    let all = record! {
        LoadConfig::default();
        size: 148,
        time_date_stamp: Some(1_600_000_000),
        major_version: Some(6),
        minor_version: Some(1),
        dependent_load_flags: Some(0x800),
        security_cookie: Some(0x1_8000_2000),
        se_handler_table: Some(0),
        se_handler_count: Some(0),
        guard_cf_check_function_pointer: Some(0x1_8000_3000),
        guard_cf_dispatch_function_pointer: Some(0x1_8000_3008),
        guard_cf_function_table: Some(0x1_8000_4000),
        guard_cf_function_count: Some(3),
        guard_flags: Some(0x1000_0500),
    };
    assert_eq!(image.load_config(), Ok(Some(all)));
    let memory = as_loaded(&image);
    let module = Image::parse_as(&memory, Mode::Strict, Layout::Mapped).unwrap();
    assert_eq!(module.load_config(), Ok(Some(all)));
    assert_eq!(strict(&with_debug()).load_config(), Ok(None));
}

#[test]
fn short_load_configurations_have_fewer_fields() {
    assert_eq!(strict(&of_size(4)).load_config(), Ok(Some(of_a_size(4))));
    assert_eq!(strict(&of_size(7)).load_config(), Ok(Some(of_a_size(7))));
    let early = record! {
        of_a_size(4);
        time_date_stamp: Some(1_600_000_000),
        major_version: Some(6),
        minor_version: Some(1),
        dependent_load_flags: Some(0x800),
    };
    assert_eq!(strict(&of_size(95)).load_config(), Ok(Some(record!(early; size: 95))));
    let cookie = record!(early; size: 96, security_cookie: Some(0x1_8000_2000));
    assert_eq!(strict(&of_size(96)).load_config(), Ok(Some(cookie)));
    let flags = |size| strict(&of_size(size)).load_config().unwrap().unwrap().guard_flags;
    assert_eq!((flags(147), flags(148), flags(200)), (None, Some(0x1000_0500), Some(0x1000_0500)));
}

#[test]
fn truncated_load_configurations_have_the_fields_that_are_there() {
    // the section has 512 bytes
    for size in [512, 513, u32::MAX] {
        let config = strict(&of_size(size)).load_config().unwrap().unwrap();
        assert_eq!((config.size, config.guard_flags), (size, Some(0x1000_0500)));
    }
    let mut bytes = with_load_config();
    bytes.truncate(OFFSET as usize + 147);
    let config = strict(&bytes).load_config().unwrap().unwrap();
    assert_eq!((config.size, config.guard_cf_function_count, config.guard_flags), (148, Some(3), None));
    bytes.truncate(OFFSET as usize + 4);
    assert_eq!(strict(&bytes).load_config(), Ok(Some(of_a_size(148))));
    bytes.truncate(OFFSET as usize + 3);
    assert_eq!(strict(&bytes).load_config(), Err(Error::SHORT));
    let mut made = Made::new(X64);
    made.directory(LOAD_CONFIG, 0x9000, 64);
    assert_eq!(strict(&made.image()).load_config(), Err(Error::UNMAPPED));
}

/// PE32 has other offsets, and addresses of 4 bytes.
#[test]
fn load_configurations_of_pe32_are_read() {
    let mut bytes = x86_dll();
    let mut at = |offset: usize, words: &[u32]| {
        for (i, word) in words.iter().enumerate() {
            bytes[offset + 4 * i..][..4].copy_from_slice(&word.to_le_bytes());
        }
    };
    // directory 10 of PE32 follows 80 bytes of the directories at 0xB8
    at(0xB8 + 80, &[0x2100, 64]);
    at(0x700, &[92, 0x5F00_0000, 0x0002_0001]);
    at(0x700 + 52, &[0x0800_0000, 0, 0x1000_2000, 0x1000_2010, 5, 0x1000_2020, 0, 0, 0, 0x500]);
    let config = strict(&bytes).load_config().unwrap().unwrap();
    let wanted = record! {
        LoadConfig::default();
        size: 92,
        time_date_stamp: Some(0x5F00_0000),
        major_version: Some(1),
        minor_version: Some(2),
        dependent_load_flags: Some(0x800),
        security_cookie: Some(0x1000_2000),
        se_handler_table: Some(0x1000_2010),
        se_handler_count: Some(5),
        guard_cf_check_function_pointer: Some(0x1000_2020),
        guard_cf_dispatch_function_pointer: Some(0),
        guard_cf_function_table: Some(0),
        guard_cf_function_count: Some(0),
        guard_flags: Some(0x500),
    };
    assert_eq!(config, wanted);
}

#[test]
fn other_fields_are_read_by_their_names() {
    let with = |size| {
        let mut bytes = of_size(size);
        // by the offsets of `IMAGE_LOAD_CONFIG_DIRECTORY64`
        let parts = [(12, &[1, 2, 3, 4][..]), (76, &[5, 6]), (150, &[7, 8]), (264, &[9; 8]), (312, &[10; 8])];
        for (offset, value) in parts {
            bytes[OFFSET as usize + offset..][..value.len()].copy_from_slice(value);
        }
        bytes
    };
    let fields = [
        LoadConfigField::GlobalFlagsClear,
        LoadConfigField::CsdVersion,
        LoadConfigField::CodeIntegrityCatalog,
        LoadConfigField::GuardEhContinuationTable,
        LoadConfigField::GuardMemcpyFunctionPointer,
    ];
    let read = |bytes: &[u8]| fields.map(|it| strict(bytes).load_config_field(it));
    let [clear, version, catalog, table] = [0x0403_0201, 0x0605, 0x0807, 0x0909_0909_0909_0909].map(|it| Ok(Some(it)));
    assert_eq!(read(&with(320)), [clear, version, catalog, table, Ok(Some(0x0A0A_0A0A_0A0A_0A0A))]);
    assert_eq!(read(&with(319)), [clear, version, catalog, table, Ok(None)]);
    assert_eq!(read(&with(151)), [clear, version, Ok(None), Ok(None), Ok(None)]);
    assert_eq!(read(&with_debug()), [Ok(None); 5]);
    assert_eq!(read(&with(320)[..OFFSET as usize + 3]), [Err(Error::SHORT); 5]);
}

fn table(image: &Image<'_>, table: GuardTable) -> Option<Vec<(u32, Vec<u8>)>> {
    let entries = image.guard_table(table).unwrap()?;
    Some(entries.map(|entry| entry.unwrap()).map(|entry| (entry.rva, entry.flags.to_vec())).collect())
}

#[test]
fn guard_tables_are_read() {
    let bytes = with_guards();
    let image = strict(&bytes);
    let functions = Some(vec![(0x2010, vec![1]), (0x2030, vec![8])]);
    assert_eq!(table(&image, GuardTable::CfFunctions), functions);
    assert_eq!(table(&image, GuardTable::AddressTakenIatEntries), Some(vec![(0x2040, vec![0])]));
    let refused = |it| image.guard_table(it).unwrap_err();
    assert_eq!(refused(GuardTable::LongJumpTargets), Error::DIRECTORY_VA_BELOW_BASE);
    assert_eq!(refused(GuardTable::EhContinuations), Error::UNMAPPED);
    let mut handlers = image.guard_table(GuardTable::SeHandlers).unwrap().unwrap();
    assert_eq!((handlers.flag_size(), handlers.next().unwrap().unwrap().rva), (0, 0x2050));
    assert_eq!(image.guard_table(GuardTable::CfFunctions).unwrap().unwrap().flag_size(), 1);
    let memory = as_loaded(&image);
    let module = Image::parse_as(&memory, Mode::Strict, Layout::Mapped).unwrap();
    assert_eq!(table(&module, GuardTable::CfFunctions), functions);
    assert_eq!(table(&strict(&with_debug()), GuardTable::CfFunctions), None);
    assert_eq!(table(&strict(&with_load_config()), GuardTable::SeHandlers), None);
}

/// More entries than a list call returns, then an error, after which the walk is over.
#[test]
fn truncated_guard_tables_end_with_an_error() {
    let mut bytes = with_load_config();
    let offset = OFFSET as usize;
    // the table is at RVA 0x4000, which no section has
    assert_eq!(strict(&bytes).guard_table(GuardTable::CfFunctions).unwrap_err(), Error::UNMAPPED);
    // at the RVA of the load configuration there are some hundred bytes up to the end of the file
    let rva = strict(&bytes).info().directory(DirectoryIndex::LoadConfig).unwrap().virtual_address;
    bytes[offset + 128..offset + 136].copy_from_slice(&(0x1_8000_0000 + u64::from(rva)).to_le_bytes());
    bytes[offset + 136..offset + 144].copy_from_slice(&u64::MAX.to_le_bytes());
    let image = strict(&bytes);
    let entries: Vec<_> = image.guard_table(GuardTable::CfFunctions).unwrap().unwrap().collect();
    let whole = (bytes.len() - offset) / 5;
    assert!(whole > 16);
    assert_eq!(entries.len(), whole + 1);
    assert_eq!(entries[0].unwrap().rva, 148);
    assert_eq!(entries[whole], Err(Error::SHORT));
    bytes[offset + 128..offset + 136].copy_from_slice(&1u64.to_le_bytes());
    assert_eq!(strict(&bytes).guard_table(GuardTable::CfFunctions).unwrap_err(), Error::DIRECTORY_VA_BELOW_BASE);
}
