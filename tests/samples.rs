//! The callers that docs/CALLS.md shows.

use crate::directories::image_of;
use crate::directory_lists::{entries_of, two_dlls};
use crate::images::{image, put, resources, stack_at, with_debug, with_functions};
use crate::resource_leaves::version_and_manifest;
use crate::version_blocks::page;
use pe_core::ByteRange;
use pe_frame::{Registers, Stack};
use pe_image::{PE, ParseOptions};
use pe_resource::ResourceEntry;
use pe_unwind::{Arm64UnwindCode, Register, UnwindCode, UnwindOperation};
use pe_uses::{
    Crash, arm64_codes, backtrace, contents_of_type, crash_of, delayed_dlls, digest_input,
    file_version, first_data_entry, first_tls_callback, frame_at, frames_at, import_names,
    module_of, symbol_key, version_strings, without_time_stamp,
};
use std::alloc::Global;
use std::test::Fail;

#[test]
fn finds_the_key_of_symbols(rt: HostRuntime) -> Result<(), Fail> {
    let mut bytes = with_debug(rt.alloc())?;
    assert_eq!(rt; symbol_key(rt.alloc(), &bytes)?, None);
    // The entry leads to a record of PDB 7.0 with 30 bytes at 0x260.
    let record =
        b"RSDS\x10\x11\x12\x13\x14\x15\x16\x17\x18\x19\x1A\x1B\x1C\x1D\x1E\x1F\x09\0\0\0a.pdb\0";
    put(
        &mut bytes,
        &[
            (0x24C, &[2, 0, 0, 0, 30]),
            (0x258, &[0x60, 2]),
            (0x260, record),
        ],
    );
    let guid = *b"\x10\x11\x12\x13\x14\x15\x16\x17\x18\x19\x1A\x1B\x1C\x1D\x1E\x1F";
    assert_eq!(rt; symbol_key(rt.alloc(), &bytes)?, Some((guid, 9)));
    Ok(())
}

/// The prolog pushes a register in its first byte, and makes room up to its fourth. The saved registers count from rsp.
#[test]
fn undoes_what_has_run(rt: HostRuntime) -> Result<(), Fail> {
    let alloc = rt.alloc();
    let mut bytes = with_functions(alloc)?;
    let codes = [
        UnwindCode {
            code_offset: 4,
            operation: UnwindOperation::Alloc(40),
        },
        UnwindCode {
            code_offset: 1,
            operation: UnwindOperation::PushNonVolatile(Register(5)),
        },
    ];
    for (rva, first) in [
        (0x1020, 2),
        (0x1021, 1),
        (0x1023, 1),
        (0x1024, 0),
        (0x103F, 0),
    ] {
        let frame = frame_at(alloc, &bytes, rva)?.ok_or("no function")?;
        assert!(rt; frame.codes.as_slice() == &codes[first..]);
        assert!(rt; frame.frame_register.is_none());
    }
    assert!(rt; frame_at(alloc, &bytes, 0x1010)?.is_none());
    // The frame register is rbp, 48 bytes above rsp.
    put(&mut bytes, &[(0x223, &[0x35])]);
    let frame = frame_at(alloc, &bytes, 0x1025)?.ok_or("no function")?;
    assert!(rt; frame.frame_register == Some((Register(5), 48)));
    // Of a damaged directory, and of an ARM64 image, there are no x64 functions.
    put(&mut bytes, &[(0xE4, &[0x20])]);
    assert!(rt; frame_at(alloc, &bytes, 0x1025)?.is_none());
    put(&mut bytes, &[(0xE4, &[0x18]), (0x44, &[0x64, 0xAA])]);
    assert!(rt; frame_at(alloc, &bytes, 0x1025)?.is_none());
    Ok(())
}

/// The record of both functions is chained to one that pushes a register too, at offset 2, and that one to none.
#[test]
fn undoes_up_to_the_root(rt: HostRuntime) -> Result<(), Fail> {
    let alloc = rt.alloc();
    let mut bytes = with_functions(alloc)?;
    let chained = [0, 0x10, 0, 0, 0x10, 0x10, 0, 0, 0x40, 0x10, 0, 0];
    put(
        &mut bytes,
        &[
            (0x220, &[0x21]),
            (0x228, &chained),
            (0x240, &[1, 2, 1, 0, 2, 0x30]),
        ],
    );
    let root = UnwindCode {
        code_offset: 2,
        operation: UnwindOperation::PushNonVolatile(Register(3)),
    };
    // The root applies whole, also where nothing of the function's own prolog has run.
    for (rva, own) in [(0x1000, 0), (0x1001, 1), (0x1020, 0), (0x1025, 2)] {
        let frames = frames_at(alloc, &bytes, rva)?.ok_or("no function")?;
        let lengths: Vec<usize> = frames.iter().map(|frame| frame.codes.len()).collect(alloc)?;
        assert!(rt; lengths.as_slice() == [own, 1].as_slice());
        let last = frames.iter().last().ok_or("no record")?;
        assert!(rt; last.codes.as_slice() == [root].as_slice());
    }
    assert!(rt; frames_at(alloc, &bytes, 0x1010)?.is_none());
    // Chained to itself, it never ends; the same table in an ARM64 image has no x64 functions.
    put(&mut bytes, &[(0x230, &[0x20])]);
    assert!(rt; frames_at(alloc, &bytes, 0x1025).is_err());
    put(&mut bytes, &[(0x44, &[0x64, 0xAA])]);
    assert!(rt; frames_at(alloc, &bytes, 0x1025)?.is_none());
    Ok(())
}

/// The walk through one image.
fn walk_of(
    alloc: Global,
    bytes: &[u8],
    base: u64,
    registers: Registers,
    stack: &Stack<'_>,
    most: usize,
) -> Result<Vec<u64>, Fail> {
    let opts = ParseOptions::default();
    let image = PE::parse_with_opts(alloc, bytes, &opts)?;
    let modules = [module_of(&image, bytes, base, &opts)];
    let frames = backtrace(alloc, &modules, registers, stack, most)?;
    Ok(frames.ok_or("one module ascends")?)
}

/// Both functions push rbp in their first byte and make room for 40 bytes. A call in the one at 0x1020 ends at 0x1038; that at the
/// end of the other one returns to 0x1060, where no function is.
#[test]
fn walks_a_stack(rt: HostRuntime) -> Result<(), Fail> {
    let alloc = rt.alloc();
    let mut bytes = with_functions(alloc)?;
    // The size of the image; the functions, whose record is at 0x1020; and their calls.
    let functions = [
        0x20, 0x10, 0, 0, 0x40, 0x10, 0, 0, 0x20, 0x10, 0, 0, 0x50, 0x10, 0, 0, 0x60, 0x10, 0, 0,
        0x20, 0x10, 0, 0,
    ];
    put(
        &mut bytes,
        &[
            (0x90, &[0, 0x30]),
            (0x200, &functions),
            (0x233, &[0xE8]),
            (0x25B, &[0xE8]),
        ],
    );
    let base = 0x1_4000_0000;
    let outside = 0x7FF6_0000_1234;
    let mut stack_bytes = Vec::new(alloc);
    for word in [
        base + 0x1038,
        0,
        0,
        0,
        0,
        0,
        0xB0,
        base + 0x1060,
        0,
        0,
        0,
        0,
        0,
        0xB1,
        outside,
    ] {
        stack_bytes.extend_from_slice(&u64::to_le_bytes(word))?;
    }
    let stack = stack_at(0x8000, &stack_bytes);
    // A leaf that the first function called, which the second one called.
    let mut registers = Registers {
        general: [0; 16],
        xmm: [0; 16],
        rip: base + 0x1018,
    };
    registers.general[4] = 0x8000;
    let all = [base + 0x1018, base + 0x1038, base + 0x1060, outside];
    for most in [0, 1, 3, 4, 9] {
        let frames = walk_of(alloc, &bytes, base, registers, &stack, most)?;
        assert!(rt; frames.as_slice() == &all[..usize::min(most, 4)]);
    }
    // A stack that is truncated ends the walk, and so does a return address that is no address of code.
    let cut = stack_at(0x8000, &stack_bytes[..64]);
    let frames = walk_of(alloc, &bytes, base, registers, &cut, 9)?;
    assert!(rt; frames.as_slice() == &all[..3]);
    let frames = walk_of(alloc, &bytes, base - 0x1000, registers, &stack, 9)?;
    assert!(rt; frames.as_slice() == &all[..1]);
    // An image of another machine has no functions, and this one no executable section for a scan.
    put(&mut bytes, &[(0x44, &[0x64, 0xAA])]);
    let frames = walk_of(alloc, &bytes, base, registers, &stack, 9)?;
    assert!(rt; frames.as_slice() == &all[..2]);
    Ok(())
}

/// One entry whose data are packed, and one that leads to a record with four codes.
#[test]
fn lists_the_codes_of_arm64(rt: HostRuntime) -> Result<(), Fail> {
    let alloc = rt.alloc();
    let mut bytes = with_functions(alloc)?;
    assert!(rt; arm64_codes(alloc, &bytes)?.is_empty());
    let record = [
        4, 0, 0x50, 8, 3, 0, 0x38, 0, 0x41, 0x81, 0xE4, 0xE3, 0, 0x20, 0, 0, 0xAA,
    ];
    put(
        &mut bytes,
        &[
            (0x44, &[0x64, 0xAA]),
            (0xE4, &[16]),
            (0x200, &[0, 0x10, 0, 0, 0x21, 0, 0x62, 1]),
            (0x208, &[0x20, 0x10, 0, 0, 0x20, 0x10, 0, 0]),
            (0x220, &record),
        ],
    );
    let codes = arm64_codes(alloc, &bytes)?;
    let want = [
        Arm64UnwindCode::SaveFpLr { offset_bytes: 8 },
        Arm64UnwindCode::SaveFpLrPreindexed { offset_bytes: 16 },
        Arm64UnwindCode::End,
        Arm64UnwindCode::Nop,
    ];
    assert_eq!(rt; codes.len(), 4);
    for (i, (code, want)) in codes.iter().zip(want).enumerate() {
        assert_eq!(rt; code.offset as usize, i);
        assert!(rt; code.code == want);
    }
    Ok(())
}

/// One import by its ordinal and one by its name, of an image whose exception directory is damaged.
#[test]
fn names_the_imports_of_a_damaged_image(rt: HostRuntime) -> Result<(), Fail> {
    let alloc = rt.alloc();
    let mut bytes = with_functions(alloc)?;
    assert!(rt; import_names(alloc, &bytes)?.is_empty());
    put(
        &mut bytes,
        &[
            (0xD0, &[0x60, 0x10, 0, 0, 0x28]),
            (0xE4, &[0x20]),
            (0x260, &[0xA0, 0x10]),
            (0x26C, &[0x90, 0x10, 0, 0, 0xC0, 0x10]),
            (0x290, b"a.dll\0"),
            (0x2A0, &[5, 0, 0, 0, 0, 0, 0, 0x80, 0xD0, 0x10]),
            (0x2D0, &[7, 0, b'f', 0]),
        ],
    );
    let names = import_names(alloc, &bytes)?;
    assert_eq!(rt; names.len(), 2);
    assert!(rt; names.get(0) == Some(&("a.dll", None)));
    assert!(rt; names.get(1) == Some(&("a.dll", Some("f"))));
    Ok(())
}

/// Version information whose fixed part stands after one walk of two directories.
#[test]
fn reports_the_version_of_a_file(rt: HostRuntime) -> Result<(), Fail> {
    let mut bytes = with_functions(rt.alloc())?;
    assert!(rt; file_version(rt.alloc(), &bytes)?.is_none());
    let key = b"\x5C\0\x34\0\0\0V\0S\0_\0V\0E\0R\0S\0I\0O\0N\0_\0I\0N\0F\0O\0";
    put(
        &mut bytes,
        &[
            (0xD8, &[0x60, 0x10, 0, 0, 0xEB, 0, 0, 0]),
            (0x26E, &[2, 0]),
            (0x270, b"\x10\0\0\0\x20\0\0\x80\x18\0\0\0\x38\0\0\x80"),
            (0x28E, &[1, 0]),
            (0x290, b"\x09\x04\0\0\x50\0\0\0"),
            (0x2A6, &[1, 0]),
            (0x2A8, b"\x09\x04\0\0\x60\0\0\0"),
            (0x2B0, b"\xD0\x10\0\0\x78\0\0\0"),
            (0x2C0, b"\x48\x11\0\0\x03\0\0\0"),
            (0x2D0, key),
            (0x2F8, b"\xBD\x04\xEF\xFE\0\0\x01\0\x0B\0\x03\0\0\0\x4E\x0C"),
        ],
    );
    let text = file_version(rt.alloc(), &bytes)?.ok_or("no version")?;
    assert_eq!(rt; text.as_str(), "3.11.3150.0");
    Ok(())
}

#[test]
fn goes_down_to_the_first_data_entry(rt: HostRuntime) -> Result<(), Fail> {
    let alloc = rt.alloc();
    let bytes = resources(alloc)?;
    // Entries of version information and manifest, each with a directory of one entry; and that entry itself.
    for (entry, want) in [
        (0x10_8000_0020, 0x50),
        (0x18_8000_0038, 0x60),
        (0x409_0000_0050, 0x50),
    ] {
        let offset = first_data_entry(alloc, &bytes, &ResourceEntry::from(entry))?;
        assert_eq!(rt; offset, Some(want), "of {entry:#x}");
    }
    // A directory without entries.
    let ended = first_data_entry(alloc, &[0; 16], &ResourceEntry::from(0x10_8000_0000))?;
    assert_eq!(rt; ended, None);
    Ok(())
}

#[test]
fn writes_an_image_without_its_time_stamp(rt: HostRuntime) -> Result<(), Fail> {
    let alloc = rt.alloc();
    let plain = with_functions(alloc)?;
    let mut stamped = with_functions(alloc)?;
    put(&mut stamped, &[(0x48, &[0x44, 0x33, 0x22, 0x11])]);
    let written = without_time_stamp(alloc, &stamped)?;
    assert!(rt; written.as_slice() == plain.as_slice());
    Ok(())
}

#[test]
fn digests_without_three_parts(rt: HostRuntime) -> Result<(), Fail> {
    let mut bytes = with_functions(rt.alloc())?;
    assert_eq!(rt; digest_input(rt.alloc(), &bytes)?.len(), 0x410 - 4 - 8 - 16);
    // Without certificates 3 bytes at the end are filled up to 8.
    put(&mut bytes, &[(0xE8, &[0; 8])]);
    bytes.extend_from_slice(&[1, 2, 3])?;
    let input = digest_input(rt.alloc(), &bytes)?;
    assert_eq!(rt; input.len(), 0x418 - 4 - 8);
    assert!(rt; input.ends_with(&[1, 2, 3, 0, 0, 0, 0, 0]));
    Ok(())
}

#[test]
fn finds_the_first_tls_callback(rt: HostRuntime) -> Result<(), Fail> {
    let mut bytes = with_functions(rt.alloc())?;
    assert!(rt; matches!(first_tls_callback(rt.alloc(), &bytes), Ok(None)));
    // The directory at RVA 0x1080, and the callbacks at 0x10A8.
    put(
        &mut bytes,
        &[
            (0x110, &[0x80, 0x10, 0, 0, 40]),
            (0x298, &[0xA8, 0x10, 0, 0x40, 1]),
            (0x2A8, &[0x20, 0x10, 0, 0x40, 1]),
        ],
    );
    let found = first_tls_callback(rt.alloc(), &bytes);
    assert!(rt; matches!(found, Ok(Some(0x1_4000_1020))));
    Ok(())
}

#[test]
fn counts_functions_of_delayed_dlls(rt: HostRuntime) -> Result<(), Fail> {
    let bytes = two_dlls(rt.alloc())?;
    let image = image_of(&bytes, false);
    let delayed = delayed_dlls(rt.alloc(), &image, entries_of(&image)?)?;
    assert_eq!(rt; delayed.as_slice(), [("a.dll", 3), ("b.dll", 3)].as_slice());
    Ok(())
}

/// The resources are at RVA 0x1060, in the file at 0x260.
#[test]
fn finds_contents_of_a_type(rt: HostRuntime) -> Result<(), Fail> {
    let alloc = rt.alloc();
    let mut bytes = with_functions(alloc)?;
    assert_eq!(rt; contents_of_type(alloc, &bytes, 16)?.len(), 0);
    let data = version_and_manifest(alloc)?;
    put(
        &mut bytes,
        &[
            (0xD8, &[0x60, 0x10, 0, 0, 0x1B, 1, 0, 0]),
            (0x260, &data),
            (0x2E0, &[0, 0x11]),
            (0x2F0, &[0x78, 0x11]),
        ],
    );
    for (id, offset, length) in [(16u16, 0x300usize, 0x78usize), (24, 0x378, 3)] {
        let found = contents_of_type(alloc, &bytes, id)?;
        assert_eq!(rt; found.as_slice(), [ByteRange { offset, length }].as_slice());
    }
    assert_eq!(rt; contents_of_type(alloc, &bytes, 3)?.len(), 0);
    Ok(())
}

/// The strings of both tables; of damaged version information those before the damage.
#[test]
fn finds_all_strings(rt: HostRuntime) -> Result<(), Fail> {
    let alloc = rt.alloc();
    let bytes = page(alloc, &[])?;
    let found = version_strings(alloc, &bytes)?;
    assert_eq!(rt; found.len(), 3);
    for (string, (language, key, value)) in found.iter().zip([
        (0x409u16, "A", "B"),
        (0x409, "Mine", ""),
        (0x407, "A", "Ä"),
    ]) {
        assert_eq!(rt; string.0.language, language);
        assert_eq!(rt; string.1.as_str(), key);
        assert_eq!(rt; string.2.as_str(), value);
    }
    for (damage, count) in [(0usize, 0usize), (92, 0), (128, 0), (168, 2), (184, 2)] {
        let damaged = page(alloc, &[(damage, &[5, 0])])?;
        assert_eq!(rt; version_strings(alloc, &damaged)?.len(), count);
    }
    Ok(())
}

/// A dump with the exception and the context of a thread, and two modules, of which the second has its instruction pointer.
#[test]
fn finds_what_crashed(rt: HostRuntime) -> Result<(), Fail> {
    let mut bytes = image(
        rt.alloc(),
        0x700,
        &[
            (0, b"MDMP\x93\xA7\0\0\x02\0\0\0\x20\0\0\0"),
            (0x20, b"\x06\0\0\0\xA8\0\0\0\x40\0\0\0"),
            (0x2C, b"\x04\0\0\0\xDC\0\0\0\0\x01\0\0"),
            // The exception: its thread, its code, where its context stands.
            (0x40, b"\x24"),
            (0x48, b"\x05\0\0\xC0"),
            (0xE0, b"\xD0\x04\0\0\0\x02"),
            // Modules at 140000000h and 170000000h, each with its size and where its name is.
            (0x100, b"\x02\0\0\0\0\0\0\x40\x01\0\0\0\0\x10"),
            (0x118, b"\x11"),
            (0x170, b"\0\0\0\x70\x01\0\0\0\0\x20"),
            (0x184, b"\x22"),
            // The context: its flags, rsp, rip.
            (0x230, b"\x03\0\x10"),
            (0x298, b"\x60\xE1\x21"),
            (0x2F8, b"\x33\x15\0\x70\x01"),
        ],
    )?;
    let crash = Crash {
        code: 0xC000_0005,
        thread_id: 0x24,
        rip: 0x1_7000_1533,
        rsp: 0x21_E160,
        module: Some((0x22, 0x1533)),
    };
    assert_eq!(rt; crash_of(&bytes)?, Some(crash));
    put(&mut bytes, &[(0x20, &[7])]);
    assert_eq!(rt; crash_of(&bytes)?, None);
    Ok(())
}
