//! The load configuration of an image: each field, and which are there.

use super::made::*;
use crate::directories::{pe_c_load_config, pe_c_load_config_field};
use calls_directories::directories::load_config::LoadConfig;

/// The fields of a structure as numbers, in the order of the structure: its size, then each field and whether it is there.
fn fields(config: &LoadConfig) -> [(u64, u8); 13] {
    [
        (u64::from(config.size), 1),
        (
            u64::from(config.time_date_stamp),
            config.has_time_date_stamp,
        ),
        (u64::from(config.major_version), config.has_major_version),
        (u64::from(config.minor_version), config.has_minor_version),
        (
            u64::from(config.dependent_load_flags),
            config.has_dependent_load_flags,
        ),
        (config.security_cookie, config.has_security_cookie),
        (config.se_handler_table, config.has_se_handler_table),
        (config.se_handler_count, config.has_se_handler_count),
        (
            config.guard_cf_check_function_pointer,
            config.has_guard_cf_check_function_pointer,
        ),
        (
            config.guard_cf_dispatch_function_pointer,
            config.has_guard_cf_dispatch_function_pointer,
        ),
        (
            config.guard_cf_function_table,
            config.has_guard_cf_function_table,
        ),
        (
            config.guard_cf_function_count,
            config.has_guard_cf_function_count,
        ),
        (u64::from(config.guard_flags), config.has_guard_flags),
    ]
}

/// Words that are their own offsets, but for the first, which is the size: each field so says where it stands.
fn structure(alloc: Global, size: u32) -> Result<Vec<u8>, AllocError> {
    let mut numbers = [0; 38];
    for i in 0..38 {
        numbers[i] = 0x0101_0001 * (4 * i as u32);
    }
    numbers[0] = size;
    words(alloc, &numbers)
}

fn read(bytes: &[u8], image: &Image) -> (u32, LoadConfig) {
    let mut out = filled();
    let answer = pe_c_load_config(&view(bytes, image, &sections()), &mut out);
    (answer, out)
}

fn of_config(image: Image) -> Image {
    having(image, 10, directory(0x1000, 64))
}

/// The number of 4 bytes at an offset of the structure, and that of 8.
fn word(offset: u64) -> u64 {
    0x0101_0001 * offset
}

fn long(offset: u64) -> u64 {
    word(offset) + (word(offset + 4) << 32)
}

/// As many fields as the structure has, the others 0 and not there.
fn up_to(all: [(u64, u8); 13], count: usize) -> [(u64, u8); 13] {
    let mut kept = all;
    for i in count..13 {
        kept[i] = (0, 0);
    }
    kept
}

/// All fields of PE32+, by their offsets in `IMAGE_LOAD_CONFIG_DIRECTORY64`.
fn fields_64(size: u64) -> [(u64, u8); 13] {
    [
        (size, 1),
        (word(4), 1),
        (8, 1),
        (0x0808, 1),
        (0x4C4C, 1),
        (long(88), 1),
        (long(96), 1),
        (long(104), 1),
        (long(112), 1),
        (long(120), 1),
        (long(128), 1),
        (long(136), 1),
        (word(144), 1),
    ]
}

#[test]
fn fields_of_pe32_plus(rt: HostRuntime) -> Result<(), Fail> {
    let image = of_config(image(X64));
    // The size, and how many fields it holds with itself.
    for (size, count) in [
        (4, 1),
        (7, 1),
        (8, 2),
        (10, 3),
        (12, 4),
        (79, 4),
        (80, 5),
        (95, 5),
        (96, 6),
        (104, 7),
        (112, 8),
        (120, 9),
        (128, 10),
        (136, 11),
        (144, 12),
        (147, 12),
        (148, 13),
        (152, 13),
    ] {
        let bytes = structure(rt.alloc(), size)?;
        let (answer, config) = read(&bytes, &image);
        let want = up_to(fields_64(u64::from(size)), count);
        assert_eq!(rt; (answer, fields(&config), config.spare), (DONE, want, 0));
    }
    Ok(())
}

/// The fields with a number, in order: the offset and the size of each in `IMAGE_LOAD_CONFIG_DIRECTORY32`, then those in
/// `IMAGE_LOAD_CONFIG_DIRECTORY64`. The offsets are those that `offsetof` has of LLVM 14's `llvm/Object/COFF.h`, but for the affinity and
/// the flags of the heap, which are those of winnt.h in mingw-w64 and in Wine, and for the guarded `memcpy`, which follows the cast guard.
const NUMBERED: [(usize, usize, usize, usize); 37] = [
    (12, 4, 12, 4), // GlobalFlagsClear
    (16, 4, 16, 4), // GlobalFlagsSet
    (20, 4, 20, 4), // CriticalSectionDefaultTimeout
    (24, 4, 24, 8), // DeCommitFreeBlockThreshold
    (28, 4, 32, 8), // DeCommitTotalFreeThreshold
    (32, 4, 40, 8), // LockPrefixTable
    (36, 4, 48, 8), // MaximumAllocationSize
    (40, 4, 56, 8), // VirtualMemoryThreshold
    (48, 4, 64, 8), // ProcessAffinityMask
    (44, 4, 72, 4), // ProcessHeapFlags
    (52, 2, 76, 2), // CSDVersion
    (56, 4, 80, 8), // EditList
    (92, 2, 148, 2), // CodeIntegrity.Flags
    (94, 2, 150, 2), // CodeIntegrity.Catalog
    (96, 4, 152, 4), // CodeIntegrity.CatalogOffset
    (100, 4, 156, 4), // CodeIntegrity.Reserved
    (104, 4, 160, 8), // GuardAddressTakenIatEntryTable
    (108, 4, 168, 8), // GuardAddressTakenIatEntryCount
    (112, 4, 176, 8), // GuardLongJumpTargetTable
    (116, 4, 184, 8), // GuardLongJumpTargetCount
    (120, 4, 192, 8), // DynamicValueRelocTable
    (124, 4, 200, 8), // CHPEMetadataPointer
    (128, 4, 208, 8), // GuardRFFailureRoutine
    (132, 4, 216, 8), // GuardRFFailureRoutineFunctionPointer
    (136, 4, 224, 4), // DynamicValueRelocTableOffset
    (140, 2, 228, 2), // DynamicValueRelocTableSection
    (144, 4, 232, 8), // GuardRFVerifyStackPointerFunctionPointer
    (148, 4, 240, 4), // HotPatchTableOffset
    (156, 4, 248, 8), // EnclaveConfigurationPointer
    (160, 4, 256, 8), // VolatileMetadataPointer
    (164, 4, 264, 8), // GuardEHContinuationTable
    (168, 4, 272, 8), // GuardEHContinuationCount
    (172, 4, 280, 8), // GuardXFGCheckFunctionPointer
    (176, 4, 288, 8), // GuardXFGDispatchFunctionPointer
    (180, 4, 296, 8), // GuardXFGTableDispatchFunctionPointer
    (184, 4, 304, 8), // CastGuardOsDeterminedFailureMode
    (188, 4, 312, 8), // GuardMemcpyFunctionPointer
];

/// A structure of 320 bytes that says that it has `size`. Each half of each word is another number, and none is 0.
fn whole_structure(alloc: Global, size: u32) -> Result<Vec<u8>, AllocError> {
    let mut numbers = [0; 80];
    for i in 0..80 {
        numbers[i] = 0x0203_0001 * i as u32;
    }
    numbers[0] = size;
    words(alloc, &numbers)
}

/// What this has at an offset, of 2, 4 or 8 bytes.
fn number_at(offset: usize, size: usize) -> u64 {
    let word = 0x0203_0001 * (offset as u64 / 4);
    match size {
        2 => word >> (8 * (offset as u64 % 4)) & 0xFFFF,
        4 => word,
        _ => word + ((word + 0x0203_0001) << 32),
    }
}

fn read_field(bytes: &[u8], image: &Image, field: u32) -> (u32, u64) {
    let mut out = 0x1234;
    let answer = pe_c_load_config_field(&view(bytes, image, &sections()), field, &mut out);
    (answer, out)
}

/// A field is there where the image reaches its end, and a byte before it is not.
#[test]
fn fields_by_their_numbers(rt: HostRuntime) -> Result<(), Fail> {
    let wide = of_config(image(X64));
    let narrow = Image { width: 32, ..wide };
    let bytes = whole_structure(rt.alloc(), 320)?;
    assert_eq!(rt; read_field(&bytes, &wide, 37), (NOTHING, 0x1234));
    assert_eq!(rt; read_field(&bytes[..3], &wide, 0), (SHORT, 0x1234));
    for field in 0..37 {
        let (offset_32, size_32, offset_64, size_64) = NUMBERED[field];
        for (image, offset, size) in [(narrow, offset_32, size_32), (wide, offset_64, size_64)] {
            let want = number_at(offset, size);
            let end = offset + size;
            let found = read_field(&bytes[..end], &image, field as u32);
            assert_eq!(rt; found, (DONE, want));
            let found = read_field(&bytes[..end - 1], &image, field as u32);
            assert_eq!(rt; found, (NOTHING, 0x1234));
        }
    }
    Ok(())
}
