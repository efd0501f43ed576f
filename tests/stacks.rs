//! The stacks of minidumps: modules and memory in any order, contexts, images of modules. The modules and the stacks of the walks
//! are those of `walks`.

use crate::errors::refused;
use crate::frames::bytes_of;
use crate::images::{image, piece_at, with_byte};
use crate::minidumps::with_stream;
use crate::refusing::Refusing;
use crate::walks::{
    APP, FRAMES, INNER, LIB, NT, OUTER, RBX, RSP, SIZE, app, exceptions, lib, module, nt, registers,
};
use pe_core::{Error, Header, ParseOptions};
use pe_frame::{Memory, StackFrame, WalkEnd, Way};
use pe_minidump::{Dump, DumpError, FixedFileInfo, Location, MemoryDescriptor, Module, Thread};
use pe_stacks::{
    IndexedMemory, IndexedModules, MemoryRuns, ModuleImage, Stacks, ThreadFrames, is_image_of,
    memory_and_stacks, memory_pieces, thread_context_arm64, thread_context_x64,
};
use std::alloc::{AllocError, Global};
use std::test::Fail;

/// The bytes of both stacks, and after them 16 others.
fn file(alloc: Global) -> Result<Vec<u8>, AllocError> {
    let mut bytes = bytes_of(alloc, &INNER)?;
    for byte in &bytes_of(alloc, &OUTER)? {
        bytes.push(*byte)?;
    }
    for _ in 0..16 {
        bytes.push(0xEE)?;
    }
    Ok(bytes)
}

/// Modules and pieces that descend, with one piece too many after those of the stack.
#[test]
fn a_walk_goes_through_modules_in_any_order(rt: HostRuntime) -> Result<(), Fail> {
    let alloc = rt.alloc();
    let (app, lib, nt) = (app(alloc)?, lib(alloc)?, nt(alloc)?);
    let (app_data, lib_data, nt_data) = (
        exceptions(&app, 3)?,
        exceptions(&lib, 4)?,
        exceptions(&nt, 1)?,
    );
    let modules = [
        module(NT, &nt, &nt_data),
        module(LIB, &lib, &lib_data),
        module(APP, &app, &app_data),
        module(LIB + 0x10, &app, &app_data),
    ];
    let modules = IndexedModules::new(alloc, &modules)?;
    assert_eq!(rt; modules.find(LIB + 0x70).map(|it| it.base), Some(LIB));
    let found = modules.find(LIB + u64::from(SIZE)).map(|it| it.base);
    assert_eq!(rt; found, Some(LIB + 0x10));
    assert!(rt; modules.find(LIB - 1).is_none());
    let bytes = file(alloc)?;
    let pieces = [
        piece_at(0x2000, 160, 64),
        piece_at(0x1044, 68, 92),
        piece_at(0x1000, 0, 72),
        piece_at(0x1000, 224, 16),
    ];
    let memory = IndexedMemory::new(alloc, &bytes, &pieces)?;
    let mut registers = registers(LIB + 0x70, 0x1000);
    registers.general[RBX] = 0xB0;
    let top = StackFrame {
        registers,
        way: Way::Top,
        has_called: false,
        is_guess: false,
    };
    let mut frames = ThreadFrames::new(&modules, &memory, top, 9);
    for (rip, rsp, rbx, way) in FRAMES {
        assert!(rt; frames.end().is_none());
        let found = frames.next().ok_or("a frame")?;
        let general = found.registers.general;
        let own = (found.registers.rip, general[RSP], general[RBX], found.way);
        assert_eq!(rt; own, (rip, rsp, rbx, way));
    }
    assert!(rt; frames.next().is_none());
    assert!(rt; matches!(frames.end(), Some(&WalkEnd::Bottom)));

    let mut stacks = Stacks::new(&modules, &memory, 8);
    let whole = stacks.walk(alloc, top, 9)?;
    assert_eq!(rt; (whole.frames.len(), stacks.left()), (5, 3));
    assert!(rt; matches!(whole.end, WalkEnd::Bottom));
    let few = stacks.walk(alloc, top, 2)?;
    assert_eq!(rt; (few.frames.len(), stacks.left()), (2, 1));
    let last = stacks.walk(alloc, top, 9)?;
    assert_eq!(rt; (last.frames.len(), stacks.left()), (1, 0));
    assert!(rt; matches!(last.end, WalkEnd::Bound));
    assert_eq!(rt; stacks.walk(alloc, top, 9)?.frames.len(), 0);
    Ok(())
}

/// Both lists of memory, those of the memory list first. Entries of 16 bytes: address, size and RVA; address and size.
#[test]
fn pieces_of_both_lists(rt: HostRuntime) -> Result<(), Fail> {
    let alloc = rt.alloc();
    let list = b"\x01\0\0\0\0\x10\0\0\0\0\0\0\x04\0\0\0\x20\0\0\0";
    let bytes = with_stream(alloc, 5, list)?;
    let pieces = memory_pieces(alloc, &Dump::parse(&bytes)?)?;
    assert_eq!(rt; (pieces.len(), pieces[0]), (1, piece_at(0x1000, 32, 4)));
    // Two pieces of a full dump: the second is truncated.
    let list =
        b"\x02\0\0\0\0\0\0\0\x2C\0\0\0\0\0\0\0\0\x10\0\0\0\0\0\0\x08\0\0\0\0\0\0\0\0\x20\0\0\0\0\0\0\0\x10\0\0\0\0\0\0";
    let bytes = with_stream(alloc, 9, list)?;
    let pieces = memory_pieces(alloc, &Dump::parse(&bytes)?)?;
    assert_eq!(rt; (pieces.len(), pieces[0]), (2, piece_at(0x1000, 44, 8)));
    assert_eq!(rt; pieces[1], piece_at(0x2000, 52, 40));
    // Both in one dump, whose directory has the memory list last: of one address its piece comes first.
    let bytes = image(
        alloc,
        108,
        &[
            (0, b"MDMP\x93\xA7\0\0\x02\0\0\0\x20\0\0\0"),
            (32, b"\x09\0\0\0\x20\0\0\0\x38\0\0\0"),
            (44, b"\x05\0\0\0\x14\0\0\0\x58\0\0\0"),
            (56, b"\x01\0\0\0\0\0\0\0\x58\0\0\0\0\0\0\0"),
            (72, b"\0\x10\0\0\0\0\0\0\x08\0\0\0\0\0\0\0"),
            (88, b"\x01\0\0\0\0\x10\0\0\0\0\0\0\x04\0\0\0\x20\0\0\0"),
        ],
    )?;
    let pieces = memory_pieces(alloc, &Dump::parse(&bytes)?)?;
    assert_eq!(rt; (pieces.len(), pieces[0]), (2, piece_at(0x1000, 32, 4)));
    assert_eq!(rt; pieces[1], piece_at(0x1000, 88, 8));
    // A list that is refused has none.
    let bytes = with_stream(alloc, 5, b"\x02\0\0\0")?;
    assert!(rt; memory_pieces(alloc, &Dump::parse(&bytes)?)?.is_empty());
    Ok(())
}

/// The stacks that threads name come after both lists. At offset 0, which full dumps say of all stacks, there is none.
#[test]
fn stacks_of_threads_come_last(rt: HostRuntime) -> Result<(), Fail> {
    let alloc = rt.alloc();
    let mut bytes = image(
        alloc,
        176,
        &[
            (0, b"MDMP\x93\xA7\0\0\x02\0\0\0\x20\0\0\0"),
            (32, b"\x05\0\0\0\x14\0\0\0\x38\0\0\0"),
            (44, b"\x03\0\0\0\x64\0\0\0\x4C\0\0\0"),
            (56, b"\x01\0\0\0\0\x10\0\0\0\0\0\0\x04\0\0\0\x20\0\0\0"),
            (76, b"\x02"),
            (104, b"\0\x10\0\0\0\0\0\0\x08\0\0\0\x2C\0\0\0"),
            (152, b"\0\x20\0\0\0\0\0\0\x08\0\0\0"),
        ],
    )?;
    let pieces = memory_and_stacks(alloc, &Dump::parse(&bytes)?)?;
    assert_eq!(rt; (pieces.len(), pieces[0]), (2, piece_at(0x1000, 32, 4)));
    assert_eq!(rt; pieces[1], piece_at(0x1000, 44, 8));
    // Without a list of memory.
    bytes[32] = 0;
    let pieces = memory_and_stacks(alloc, &Dump::parse(&bytes)?)?;
    assert_eq!(rt; (pieces.len(), pieces[0]), (1, piece_at(0x1000, 44, 8)));
    // Threads that are refused name none.
    bytes[48] = 1;
    assert!(rt; memory_and_stacks(alloc, &Dump::parse(&bytes)?)?.is_empty());
    Ok(())
}

fn dump_module(time_date_stamp: u32, size_of_image: u32) -> Module {
    let none = Location { size: 0, rva: 0 };
    Module {
        base_of_image: APP,
        size_of_image,
        check_sum: 7,
        time_date_stamp,
        module_name_rva: 0,
        version_info: FixedFileInfo {
            signature: 0,
            struc_version: 0,
            file_version_ms: 0,
            file_version_ls: 0,
            product_version_ms: 0,
            product_version_ls: 0,
            file_flags_mask: 0,
            file_flags: 0,
            file_os: 0,
            file_type: 0,
            file_subtype: 0,
            file_date_ms: 0,
            file_date_ls: 0,
        },
        cv_record: none,
        misc_record: none,
    }
}

/// An image is taken by its stamp and its size, and not by its checksum.
#[test]
fn images_are_those_of_modules(rt: HostRuntime) -> Result<(), Fail> {
    let alloc = rt.alloc();
    let bytes = with_byte(pe_images::with_functions(alloc)?, 0x48, 9);
    let opts = ParseOptions::default();
    let header = Header::parse_with_opts(&bytes, &opts)?;
    let stamp = header.coff_header.time_date_stamp;
    let size = header
        .optional_header
        .ok_or("an optional header")?
        .windows_fields
        .size_of_image;
    let own = dump_module(stamp, size);
    assert!(rt; is_image_of(&header, &own));
    assert!(rt; !is_image_of(&header, &dump_module(stamp + 1, size)));
    assert!(rt; !is_image_of(&header, &dump_module(8, size)));
    assert!(rt; !is_image_of(&header, &dump_module(stamp, size + 1)));
    let found = ModuleImage::parse(alloc, &bytes, &opts, &own)?.ok_or("an image")?;
    let loaded = found.loaded(&own);
    let found = (loaded.base, loaded.size, loaded.sections.len());
    assert_eq!(rt; found, (APP, size, 1));
    assert!(rt; loaded.exceptions.is_some());
    assert!(rt; ModuleImage::parse(alloc, &bytes, &opts, &dump_module(stamp + 1, size))?.is_none());
    assert!(rt; ModuleImage::parse(alloc, &bytes[..60], &opts, &own).is_err());
    // Without its size the exception directory is none.
    let bytes = with_byte(
        with_byte(pe_images::with_functions(alloc)?, 0x48, 9),
        0xE4,
        0,
    );
    let found = ModuleImage::parse(alloc, &bytes, &opts, &own)?.ok_or("an image")?;
    assert!(rt; found.loaded(&own).exceptions.is_none());
    Ok(())
}

/// Each request for memory that runs need is refused in turn.
#[test]
fn memory_for_runs_is_refused(rt: HostRuntime) -> Result<(), Fail> {
    let (bytes, pieces) = ([1, 2, 3, 4], [piece_at(2, 0, 2), piece_at(0, 2, 2)]);
    for k in 0..10 {
        let refusing = Refusing::new(rt.alloc(), k);
        let answer = MemoryRuns::new(&refusing, &bytes, &pieces);
        if !refusing.has_refused() {
            assert_eq!(rt; (answer?.pieces().len(), k), (2, 3));
            return Ok(());
        }
        assert!(rt; matches!(answer, Err(Error::Memory(_))), "request {k}");
    }
    Err(Fail::new("there is no end of requests"))
}

/// Where an allocation fails, as many frames are left as before; a walk of no frame, and one that may return none, ask for no
/// memory.
#[test]
fn refused_walks_keep_what_is_left(rt: HostRuntime) -> Result<(), Fail> {
    let alloc = rt.alloc();
    let bytes = file(alloc)?;
    let pieces = [piece_at(0x1000, 0, 24)];
    let memory = IndexedMemory::new(alloc, &bytes, &pieces)?;
    let modules = IndexedModules::new(alloc, &[])?;
    let top = StackFrame {
        registers: registers(LIB + 0x70, 0x1000),
        way: Way::Top,
        has_called: false,
        is_guess: false,
    };
    let mut stacks = Stacks::new(&modules, &memory, 8);
    let refusing = Refusing::new(alloc, 0);
    assert!(rt; stacks.walk(&refusing, top, 9).is_err());
    assert_eq!(rt; stacks.left(), 8);
    let refusing = Refusing::new(alloc, 0);
    let none = stacks.walk(&refusing, top, 0)?;
    assert_eq!(rt; (none.frames.len(), stacks.left()), (0, 8));
    let mut over = Stacks::new(&modules, &memory, 0);
    let none = over.walk(&refusing, top, 9)?;
    assert!(rt; none.frames.is_empty());
    let some = stacks.walk(alloc, top, 9)?;
    assert!(rt; !some.frames.is_empty());
    Ok(())
}

/// Memory is asked for only for the section headers of the module's own image.
#[test]
fn images_ask_for_their_sections_alone(rt: HostRuntime) -> Result<(), Fail> {
    let alloc = rt.alloc();
    let mut bytes = pe_images::with_functions(alloc)?;
    // The size of the image, which the file leaves 0.
    bytes[0x91] = 0x20;
    let opts = ParseOptions::default();
    let stamp = Header::parse_with_opts(&bytes, &opts)?
        .coff_header
        .time_date_stamp;
    let own = dump_module(stamp, 0x2000);
    let other = dump_module(stamp + 1, 0x2000);
    let pieces = [piece_at(APP, 0, bytes.len() as u64)];
    let memory = MemoryRuns::new(alloc, &bytes, &pieces)?;
    for request in 0..2 {
        let refusing = [0; 5].map(|_| Refusing::new(alloc, request));
        let [first, second, third, fourth, fifth] = &refusing;
        let parsed = ModuleImage::parse(first, &bytes, &opts, &own);
        let found = ModuleImage::from_memory(second, &memory, &opts, &own);
        assert_eq!(rt; matches!(parsed, Err(Error::Memory(_))), request == 0);
        assert_eq!(rt; matches!(found, Err(Error::Memory(_))), request == 0);
        assert!(rt; ModuleImage::parse(third, &bytes, &opts, &other)?.is_none());
        assert!(rt; ModuleImage::from_memory(fourth, &memory, &opts, &other)?.is_none());
        let short = ModuleImage::parse(fifth, &bytes[..60], &opts, &own);
        assert!(rt; matches!(short, Err(Error::Short { .. })));
    }
    Ok(())
}

/// An image in the dump's own memory is read as loaded, and ends at the first gap.
#[test]
fn image_of_the_memory_ends_at_its_gap(rt: HostRuntime) -> Result<(), Fail> {
    let alloc = rt.alloc();
    let file = pe_images::with_functions(alloc)?;
    let mut loaded = vec![in alloc; 0; 0x1100]?;
    loaded[..0x200].copy_from_slice(&file[..0x200]);
    loaded[0x1000..].copy_from_slice(&file[0x200..0x300]);
    // The size of the image, which the file leaves 0.
    loaded[0x91] = 0x20;
    let opts = ParseOptions::default();
    let stamp = Header::parse_with_opts(&file, &opts)?
        .coff_header
        .time_date_stamp;
    let own = dump_module(stamp, 0x2000);
    let pieces = [piece_at(APP + 0x800, 0x800, 0x900), piece_at(APP, 0, 0x800)];
    let memory = MemoryRuns::new(alloc, &loaded, &pieces)?;
    let image = ModuleImage::from_memory(alloc, &memory, &opts, &own)?.ok_or("an image")?;
    assert_eq!(rt; (image.bytes.len(), image.sections.len()), (0x1100, 1));
    assert!(rt; image.exceptions.is_some() && !image.opts.resolve_rva);
    let other = dump_module(stamp + 1, 0x2000);
    assert!(rt; ModuleImage::from_memory(alloc, &memory, &opts, &other)?.is_none());
    // The exception data are past the gap.
    let torn = [piece_at(APP + 0x801, 0x801, 0x8FF), piece_at(APP, 0, 0x800)];
    let memory = MemoryRuns::new(alloc, &loaded, &torn)?;
    assert_eq!(rt; memory.bytes_at(APP, 0x2000).len(), 0x800);
    assert!(rt; ModuleImage::from_memory(alloc, &memory, &opts, &own).is_err());
    Ok(())
}

/// A thread with this ID, whose context of x64 stands there.
fn thread(thread_id: u32, rva: u32) -> Thread {
    let none = Location { size: 0, rva: 0 };
    Thread {
        thread_id,
        suspend_count: 0,
        priority_class: 0,
        priority: 0,
        teb: 0,
        stack: MemoryDescriptor {
            start_of_memory_range: 0,
            memory: none,
        },
        thread_context: Location { size: 1232, rva },
    }
}

/// The exception of thread 5, with a context of x64 after it whose rip is 0x1122, and one whose rip is 0x33.
fn crashed(alloc: Global, flags: u8) -> Result<Vec<u8>, AllocError> {
    let mut stream = image(alloc, 168 + 2 * 1232, &[(0, &[5])])?;
    let contexts: [(usize, &[u8]); 5] = [
        (160, b"\xD0\x04\0\0\xD4\0\0\0"),
        (168 + 48, &[flags, 0, 0x10]),
        (168 + 248, b"\x22\x11"),
        (168 + 1232 + 48, &[3, 0, 0x10]),
        (168 + 1232 + 248, &[0x33]),
    ];
    crate::images::put(&mut stream, &contexts);
    with_stream(alloc, 6, &stream)
}

#[test]
fn context_of_the_exception_counts_first(rt: HostRuntime) -> Result<(), Fail> {
    let alloc = rt.alloc();
    let own = 44 + 168 + 1232;
    let bytes = crashed(alloc, 3)?;
    let dump = Dump::parse(&bytes)?;
    assert_eq!(rt; thread_context_x64(&dump, &thread(5, own))?.rip, 0x1122);
    // Another thread, and an exception whose context lacks the registers.
    assert_eq!(rt; thread_context_x64(&dump, &thread(6, own))?.rip, 0x33);
    let bytes = crashed(alloc, 1)?;
    let dump = Dump::parse(&bytes)?;
    assert_eq!(rt; thread_context_x64(&dump, &thread(5, own))?.rip, 0x33);
    // What is said of a refusal is the thread's own.
    let found = thread_context_arm64(&dump, &thread(5, own));
    assert!(rt; refused(found, DumpError::Machine(0)));
    Ok(())
}
