//! Minidumps: every call on a dump that is made by hand from minidumpapiset.h and winnt.h, with a stream of each kind.

use super::made::*;
use crate::debug::pe_c_codeview;
use crate::dump::{
    pe_c_dump, pe_c_dump_record, pe_c_dump_stream, pe_c_dump_text, pe_c_is_image_of,
    pe_c_memory_ranges, pe_c_memory_runs, pe_c_next_memory64, pe_c_read_dump_context,
};
use calls_headers::debug::records::SymbolKey;
use calls_stacks::dump::DumpInfo;
use calls_stacks::dump::any_record::AnyRecord;
use calls_stacks::dump::contexts::AnyContext;
use calls_stacks::dump::memory::DumpPiece;
use pe_images::image as bytes_of;
use pe_minidump::{
    DirectoryEntry, FixedFileInfo, Handle, Location, MemoryDescriptor, ProcessTimes,
    ProcessorPower, Thread, ThreadInfo, UnloadedModule,
};

/// Where the parts stand.
const SIZE: usize = 0xCB8;

const X64: Location = Location {
    size: 1232,
    rva: 0x440,
};

const ARM64: Location = Location {
    size: 912,
    rva: 0x910,
};

const NO_BYTES: Location = Location { size: 0, rva: 0 };

/// The streams of the dump: kind, offset and size.
const STREAMS: [[u32; 3]; 12] = [
    [3, 0xB0, 100],
    [4, 0x118, 112],
    [5, 0x188, 52],
    [9, 0x1C0, 48],
    [6, 0x1F0, 168],
    [7, 0x298, 56],
    [15, 0x2D0, 44],
    [24, 0x300, 16],
    [14, 0x310, 36],
    [16, 0x338, 64],
    [12, 0x378, 48],
    [17, 0x3A8, 76],
];

fn dump(alloc: Global) -> Result<Vec<u8>, AllocError> {
    let mut bytes = bytes_of(
        alloc,
        SIZE,
        &[
            (
                0x00,
                b"MDMP\x93\xA7\x06\x07\x0C\0\0\0\x20\0\0\0\x05\0\0\0\x06\0\0\0\x07\x18",
            ),
            // Threads: of the second the context stands nowhere.
            (0xB0, b"\x02"),
            (
                0xB4,
                b"\x24\0\0\0\x01\0\0\0\x02\0\0\0\x03\0\0\0\x04\0\0\0\x05",
            ),
            (
                0xCC,
                b"\x10\x20\0\0\0\0\0\0\x10\0\0\0\x30\x04\0\0\xD0\x04\0\0\x40\x04",
            ),
            (0xE4, b"\x25"),
            // A module, with its CodeView record.
            (
                0x118,
                b"\x01\0\0\0\0\0\0\x80\x01\0\0\0\0\x10\x02\0\x06\0\0\0\x07\0\0\0\0\x04\0\0",
            ),
            (0x134, b"\xBD\x04\xEF\xFE\0\0\x01\0\x02\0\x01\0\x04\0\x03\0"),
            (
                0x144,
                b"\x05\0\0\0\x06\0\0\0\x07\0\0\0\x08\0\0\0\x09\0\0\0\x0A\0\0\0\x0B\0\0\0\x0C\0\0\0\x0D",
            ),
            (0x168, b"\x1E\0\0\0\x10\x04\0\0\x03\0\0\0\x04"),
            // Pieces of memory: one that is there, one that passes the end of the file, one that lies past it.
            (0x188, b"\x03\0\0\0\x10\x20\0\0\0\0\0\0\x10\0\0\0\x30\x04"),
            (0x19C, b"\0\x30\0\0\0\0\0\0\x09\0\0\0\xB0\x0C"),
            (0x1AC, b"\0\x40\0\0\0\0\0\0\x02\0\0\0\xB9\x0C"),
            // Pieces of a full dump, from CA0h on.
            (0x1C0, b"\x02\0\0\0\0\0\0\0\xA0\x0C"),
            (
                0x1D0,
                b"\0\x50\0\0\0\0\0\0\x08\0\0\0\0\0\0\0\0\x60\0\0\0\0\0\0\x20",
            ),
            (
                0x1F0,
                b"\x24\0\0\0\0\0\0\0\x05\0\0\xC0\x01\0\0\0\x08\0\0\0\0\0\0\0\x33\x15\0\x40\x01\0\0\0\x02",
            ),
            (0x218, b"\x01\0\0\0\0\0\0\0\x09"),
            (0x288, b"\x0F\0\0\0\0\0\0\0\xD0\x04\0\0\x40\x04"),
            (
                0x298,
                b"\x09\0\x06\0\x01\x0F\x04\x01\x0A\0\0\0\x02\0\0\0\x61\x4A\0\0\x03\0\0\0\0\x04\0\0\x10\x01",
            ),
            (
                0x2D0,
                b"\x2C\0\0\0\x07\0\0\0\x20\0\0\0\x0A\0\0\0\x0B\0\0\0\x0C\0\0\0\x0D\0\0\0\x0E\0\0\0\x0F\0\0\0\x10\0\0\0\x11",
            ),
            (0x300, b"\x01\0\0\0\x24\0\0\0\0\x04\0\0\x01"),
            (
                0x310,
                b"\x0C\0\0\0\x18\0\0\0\x01\0\0\0\0\0\0\x70\x01\0\0\0\0\x20\0\0\x08\0\0\0\x09\0\0\0\0\x04",
            ),
            (
                0x338,
                b"\x10\0\0\0\x30\0\0\0\x01\0\0\0\0\0\0\0\0\x10\0\0\0\0\0\0\0\x08\0\0\0\0\0\0\x04",
            ),
            (0x360, b"\0\x30\0\0\0\0\0\0\0\x10\0\0\x20\0\0\0\0\0\x02"),
            (
                0x378,
                b"\x10\0\0\0\x20\0\0\0\x01\0\0\0\0\0\0\0\x44\0\0\0\0\0\0\0\0\x04\0\0\x01\0\0\0\x02\0\0\0\x03\0\0\0\x05\0\0\0\x06",
            ),
            (
                0x3A8,
                b"\x0C\0\0\0\x40\0\0\0\x01\0\0\0\x24\0\0\0\x02\0\0\0\x03\0\0\0\x03\x01\0\0\x01\0\0\0\0\0\0\0\x02\0\0\0\0\0\0\0\x03",
            ),
            (0x3DC, b"\x04\0\0\0\0\0\0\0\x05\0\0\0\0\0\0\0\x06"),
            (0x400, b"\x0A\0\0\0a\0.\0e\0x\0e\0"),
            (0x410, b"RSDS0123456789abcdef\x02\0\0\0a.pdb\0"),
            // The context of x64: flags, rax, rsp, r15, rip, xmm1.
            (0x470, b"\x0B\0\x10\0"),
            (0x484, b"\x46\x02"),
            (0x4B8, b"\x11"),
            (0x4D8, b"\x10\x20"),
            (0x530, b"\x22"),
            (0x538, b"\x33"),
            (0x5F0, b"\x44\0\0\0\0\0\0\0\x55"),
            // That of ARM64: flags, cpsr, x0, x30, sp, pc, v8.
            (0x910, b"\x07\0\x40\0\x66\0\0\0\x11"),
            (0xA08, b"\x22\0\0\0\0\0\0\0\x33\0\0\0\0\0\0\0\x44"),
            (0xAA0, b"\x55\0\0\0\0\0\0\0\x66"),
        ],
    )?;
    for (entry, [kind, rva, size]) in (0..STREAMS.len()).zip(STREAMS) {
        let offset = 32 + 12 * entry;
        put(
            &mut bytes,
            &[
                (offset, &u32::to_le_bytes(kind)),
                (offset + 4, &u32::to_le_bytes(size)),
                (offset + 8, &u32::to_le_bytes(rva)),
            ],
        );
    }
    Ok(bytes)
}

/// The range of a stream by its place in `STREAMS`.
fn stream(index: usize) -> Range {
    let [_, offset, length] = STREAMS[index];
    range(u64::from(offset), u64::from(length))
}

/// The record with an index in one of these streams, or in a range of its kind, as a call hands it out.
fn record_of(bytes: &[u8], index: usize, bounds: &Range, number: u64) -> (u32, AnyRecord) {
    let mut out = filled();
    let answer = pe_c_dump_record(bytes, bounds, STREAMS[index][0], number, &mut out);
    (answer, out)
}

fn record(bytes: &[u8], index: usize, number: u64) -> (u32, AnyRecord) {
    record_of(bytes, index, &stream(index), number)
}

fn info_of(bytes: &[u8]) -> (u32, DumpInfo) {
    let mut out = filled();
    let answer = pe_c_dump(bytes, &mut out);
    (answer, out)
}

#[test]
fn header_of_a_dump(rt: HostRuntime) -> Result<(), Fail> {
    let mut bytes = dump(rt.alloc())?;
    let (answer, info) = info_of(&bytes);
    assert_eq!(rt; (answer, of_range(info.directory)), (DONE, [32, 144]));
    assert_eq!(rt; (info.flags, info.version), (0x1807, 0x0706_A793));
    let found = (info.number_of_streams, info.check_sum, info.time_date_stamp);
    assert_eq!(rt; found, (12, 5, 6));
    assert_eq!(rt; info_of(&bytes[..31]).0, SHORT);
    assert_eq!(rt; info_of(&bytes[..175]).0, DUMP_DIRECTORY);
    put(&mut bytes, &[(4, b"\x94")]);
    assert_eq!(rt; info_of(&bytes).0, DUMP_VERSION);
    put(&mut bytes, &[(0, b"N")]);
    let (answer, info) = info_of(&bytes);
    assert_eq!(rt; (answer, is_filled(&info)), (DUMP_SIGNATURE, true));
    Ok(())
}

fn stream_of(bytes: &[u8], directory: &Range, kind: u32) -> (u32, [u64; 2]) {
    let [offset, length] = UNTOUCHED;
    let mut out = range(offset, length);
    let answer = pe_c_dump_stream(bytes, directory, kind, &mut out);
    (answer, of_range(out))
}

#[test]
fn streams_are_found_by_kind(rt: HostRuntime) -> Result<(), Fail> {
    let bytes = dump(rt.alloc())?;
    let directory = range(32, 144);
    for [kind, offset, length] in STREAMS {
        let want = [u64::from(offset), u64::from(length)];
        assert_eq!(rt; stream_of(&bytes, &directory, kind), (DONE, want));
    }
    assert_eq!(rt; stream_of(&bytes, &directory, 13), (NOTHING, UNTOUCHED));
    let found = stream_of(&bytes[..0x113], &directory, 3);
    assert_eq!(rt; found, (DUMP_LOCATION, UNTOUCHED));
    let outside = range(32, SIZE as u64);
    assert_eq!(rt; stream_of(&bytes, &outside, 3), (DUMP_LOCATION, UNTOUCHED));
    Ok(())
}

#[test]
fn entries_of_the_directory(rt: HostRuntime) -> Result<(), Fail> {
    let bytes = dump(rt.alloc())?;
    let directory = range(32, 144);
    let mut out: AnyRecord = filled();
    let found = pe_c_dump_record(&bytes, &directory, 0, 11, &mut out);
    assert_eq!(rt; found, DONE);
    let want = DirectoryEntry {
        stream_type: 17,
        location: Location {
            size: 76,
            rva: 0x3A8,
        },
    };
    assert_eq!(rt; out.entry, want);
    let found = pe_c_dump_record(&bytes, &directory, 0, 12, &mut out);
    assert_eq!(rt; found, NOTHING);
    Ok(())
}

#[test]
fn strings_and_locations(rt: HostRuntime) -> Result<(), Fail> {
    let mut bytes = dump(rt.alloc())?;
    let [offset, length] = UNTOUCHED;
    let mut out = range(offset, length);
    let found = pe_c_dump_text(&bytes[..0x40D], 0x400, &mut out);
    assert_eq!(rt; found, DUMP_LOCATION);
    assert_eq!(rt; of_range(out), UNTOUCHED);
    assert_eq!(rt; pe_c_dump_text(&bytes[..0x40E], 0x400, &mut out), DONE);
    assert_eq!(rt; of_range(out), [0x404, 10]);
    put(&mut bytes, &[(0x400, b"\x09")]);
    assert_eq!(rt; pe_c_dump_text(&bytes, 0x400, &mut out), DUMP_TEXT);
    let mut key = SymbolKey {
        guid: [0; 16],
        age: 0,
        spare: 0,
        name: range(0, 0),
    };
    let record = range(0x410, 30);
    assert_eq!(rt; pe_c_codeview(&bytes, &record, &mut key), DONE);
    assert_eq!(rt; (key.guid, key.age), (*b"0123456789abcdef", 2));
    assert_eq!(rt; of_range(key.name), [0x428, 6]);
    Ok(())
}

#[test]
fn threads_by_their_index(rt: HostRuntime) -> Result<(), Fail> {
    let mut bytes = dump(rt.alloc())?;
    let (found, out) = record(&bytes, 0, 0);
    assert_eq!(rt; found, DONE);
    let first = Thread {
        thread_id: 0x24,
        suspend_count: 1,
        priority_class: 2,
        priority: 3,
        teb: 0x5_0000_0004,
        stack: MemoryDescriptor {
            start_of_memory_range: 0x2010,
            memory: Location {
                size: 16,
                rva: 0x430,
            },
        },
        thread_context: X64,
    };
    assert_eq!(rt; out.thread, first);
    let (found, AnyRecord { thread, .. }) = record(&bytes, 0, 1);
    assert_eq!(rt; (found, thread.thread_id), (DONE, 0x25));
    assert_eq!(rt; thread.thread_context, NO_BYTES);
    assert_eq!(rt; record(&bytes, 0, 2).0, NOTHING);
    let (found, out) = record_of(&bytes, 0, &range(0xB0, 99), 0);
    assert_eq!(rt; (found, is_filled(&out)), (DUMP_LIST_SIZE, true));
    // With 4 bytes between the number and the first of them.
    put(&mut bytes, &[(0xB4, b"\x77\0\0\0\x99"), (0xB0, b"\x01")]);
    let (found, AnyRecord { thread, .. }) = record_of(&bytes, 0, &range(0xB0, 56), 0);
    assert_eq!(rt; found, DONE);
    assert_eq!(rt; (thread.thread_id, thread.suspend_count), (0x99, 2));
    Ok(())
}

/// The kinds that have records, `MINIDUMP_STREAM_TYPE`, and 0 for the directory.
#[test]
fn records_by_their_kind(rt: HostRuntime) -> Result<(), Fail> {
    let bytes = dump(rt.alloc())?;
    let mut out: AnyRecord = filled();
    for [kind, offset, size] in STREAMS {
        let bounds = range(u64::from(offset), u64::from(size));
        let found = pe_c_dump_record(&bytes, &bounds, kind, 0, &mut out);
        assert_eq!(rt; found, DONE);
        // There are at most three of each.
        let found = pe_c_dump_record(&bytes, &bounds, kind, 3, &mut out);
        assert_eq!(rt; found, NOTHING);
    }
    assert_eq!(rt; (out.thread.thread_id, is_filled(&out.entry)), (0x24, true));
    let found = pe_c_dump_record(&bytes, &range(32, 144), 0, 11, &mut out);
    assert_eq!(rt; (found, out.entry.stream_type), (DONE, 17));
    assert!(rt; is_filled(&out.spare));
    for kind in [1, 2, 8, 10, 11, 13, 18, 23, 25, 0x4767_0001] {
        let found = pe_c_dump_record(&bytes, &range(0, 0), kind, 0, &mut out);
        assert_eq!(rt; found, NOTHING);
    }
    Ok(())
}

/// What `dump` has in the module.
const VERSION: FixedFileInfo = FixedFileInfo {
    signature: 0xFEEF_04BD,
    struc_version: 0x1_0000,
    file_version_ms: 0x1_0002,
    file_version_ls: 0x3_0004,
    product_version_ms: 5,
    product_version_ls: 6,
    file_flags_mask: 7,
    file_flags: 8,
    file_os: 9,
    file_type: 10,
    file_subtype: 11,
    file_date_ms: 12,
    file_date_ls: 13,
};

#[test]
fn modules_by_their_index(rt: HostRuntime) -> Result<(), Fail> {
    let bytes = dump(rt.alloc())?;
    let (found, AnyRecord { loaded: out, .. }) = record(&bytes, 1, 0);
    assert_eq!(rt; found, DONE);
    let found = (out.base_of_image, out.size_of_image);
    assert_eq!(rt; found, (0x1_8000_0000, 0x2_1000));
    assert_eq!(rt; (out.check_sum, out.time_date_stamp), (6, 7));
    assert_eq!(rt; (out.module_name_rva, out.spare), (0x400, 0));
    assert_eq!(rt; out.version_info, VERSION);
    let (codeview, misc) = (out.cv_record, out.misc_record);
    assert_eq!(rt; (codeview.size, codeview.rva), (30, 0x410));
    assert_eq!(rt; (misc.size, misc.rva), (3, 4));
    Ok(())
}

#[test]
fn names_of_threads_by_their_index(rt: HostRuntime) -> Result<(), Fail> {
    let bytes = dump(rt.alloc())?;
    let (
        found,
        AnyRecord {
            thread_name: out,
            ..
        },
    ) = record(&bytes, 7, 0);
    assert_eq!(rt; found, DONE);
    let found = (out.rva_of_thread_name, out.thread_id, out.spare);
    assert_eq!(rt; found, (0x1_0000_0400, 0x24, 0));
    Ok(())
}

#[test]
fn unloaded_modules_by_their_index(rt: HostRuntime) -> Result<(), Fail> {
    let mut bytes = dump(rt.alloc())?;
    let (found, out) = record(&bytes, 8, 0);
    assert_eq!(rt; found, DONE);
    let want = UnloadedModule {
        base_of_image: 0x1_7000_0000,
        size_of_image: 0x2000,
        check_sum: 8,
        time_date_stamp: 9,
        module_name_rva: 0x400,
    };
    assert_eq!(rt; out.unloaded, want);
    put(&mut bytes, &[(0x314, b"\x17")]);
    let (found, out) = record(&bytes, 8, 0);
    assert_eq!(rt; (found, is_filled(&out)), (DUMP_ENTRY_SIZE, true));
    Ok(())
}

#[test]
fn thread_infos_by_their_index(rt: HostRuntime) -> Result<(), Fail> {
    let bytes = dump(rt.alloc())?;
    let (
        found,
        AnyRecord {
            thread_info: out,
            ..
        },
    ) = record(&bytes, 11, 0);
    assert_eq!(rt; found, DONE);
    let want = ThreadInfo {
        thread_id: 0x24,
        dump_flags: 2,
        dump_error: 3,
        exit_status: 259,
        create_time: 1,
        exit_time: 2,
        kernel_time: 3,
        user_time: 4,
        start_address: 5,
        affinity: 6,
    };
    assert_eq!(rt; out, want);
    Ok(())
}

#[test]
fn handles_by_their_index(rt: HostRuntime) -> Result<(), Fail> {
    let bytes = dump(rt.alloc())?;
    let (found, AnyRecord { handle: out, .. }) = record(&bytes, 10, 0);
    assert_eq!(rt; found, DONE);
    let want = Handle {
        handle: 0x44,
        type_name_rva: 0x400,
        object_name_rva: 1,
        attributes: 2,
        granted_access: 3,
        handle_count: 5,
        pointer_count: 6,
    };
    assert_eq!(rt; out, want);
    Ok(())
}

#[test]
fn regions_by_their_index(rt: HostRuntime) -> Result<(), Fail> {
    let bytes = dump(rt.alloc())?;
    let (found, AnyRecord { region: out, .. }) = record(&bytes, 9, 0);
    assert_eq!(rt; found, DONE);
    let found = (out.base_address, out.allocation_base, out.region_size);
    assert_eq!(rt; found, (0x1000, 0x800, 0x3000));
    let found = (out.allocation_protect, out.state, out.protect);
    assert_eq!(rt; found, (4, 0x1000, 0x20));
    assert_eq!(rt; out.memory_type, 0x2_0000);
    Ok(())
}

#[test]
fn exception_of_a_dump(rt: HostRuntime) -> Result<(), Fail> {
    let bytes = dump(rt.alloc())?;
    let (found, out) = record(&bytes[..0x297], 4, 0);
    assert_eq!(rt; (found, is_filled(&out)), (DUMP_LOCATION, true));
    let (found, AnyRecord { exception: out, .. }) = record(&bytes, 4, 0);
    assert_eq!(rt; found, DONE);
    assert_eq!(rt; (out.thread_id, out.exception_code), (0x24, 0xC000_0005));
    assert_eq!(rt; (out.exception_flags, out.number_parameters), (1, 2));
    assert_eq!(rt; out.exception_record, 8);
    assert_eq!(rt; out.exception_address, 0x1_4000_1533);
    let mut information = [0; 15];
    information[0] = 1;
    information[1] = 9;
    information[14] = 15;
    assert_eq!(rt; out.exception_information, information);
    assert_eq!(rt; out.thread_context, X64);
    Ok(())
}

#[test]
fn system_of_a_dump(rt: HostRuntime) -> Result<(), Fail> {
    let bytes = dump(rt.alloc())?;
    let (found, AnyRecord { system: out, .. }) = record(&bytes, 5, 0);
    assert_eq!(rt; found, DONE);
    assert_eq!(rt; (out.processor_architecture, out.processor_level), (9, 6));
    assert_eq!(rt; out.processor_revision, 0x0F01);
    assert_eq!(rt; (out.number_of_processors, out.product_type), (4, 1));
    let found = (out.major_version, out.minor_version, out.build_number);
    assert_eq!(rt; found, (10, 2, 19041));
    assert_eq!(rt; (out.platform_id, out.csd_version_rva), (3, 0x400));
    assert_eq!(rt; (out.suite_mask, out.spare), (0x0110, 0));
    Ok(())
}

#[test]
fn process_of_a_dump(rt: HostRuntime) -> Result<(), Fail> {
    let mut bytes = dump(rt.alloc())?;
    let (found, AnyRecord { process: out, .. }) = record(&bytes, 6, 0);
    assert_eq!(rt; found, DONE);
    assert_eq!(rt; (out.size_of_info, out.flags1, out.process_id), (44, 7, 32));
    let times = ProcessTimes {
        process_create_time: 10,
        process_user_time: 11,
        process_kernel_time: 12,
    };
    assert_eq!(rt; out.process_times, times);
    let power = ProcessorPower {
        processor_max_mhz: 13,
        processor_current_mhz: 14,
        processor_mhz_limit: 15,
        processor_max_idle_state: 16,
        processor_current_idle_state: 17,
    };
    assert_eq!(rt; (out.has_processor_power, out.processor_power), (1, power));
    // What is not there is 0.
    let (found, AnyRecord { process, .. }) = record_of(&bytes, 6, &range(0x2D0, 43), 0);
    assert_eq!(rt; (found, process.has_processor_power), (DONE, 0));
    assert_eq!(rt; process.processor_power.processor_max_mhz, 0);
    put(&mut bytes, &[(0x2D4, b"\x04")]);
    let (found, AnyRecord { process, .. }) = record(&bytes, 6, 0);
    assert_eq!(rt; (found, process.has_processor_power), (DONE, 1));
    let found = (process.process_id, process.process_times.process_user_time);
    assert_eq!(rt; found, (0, 0));
    Ok(())
}

/// Start, offset and length of a piece, and how many bytes are lost.
fn of_piece(piece: &DumpPiece) -> [u64; 4] {
    [
        piece.memory.start,
        piece.memory.offset,
        piece.memory.length,
        piece.lost,
    ]
}

#[test]
fn pieces_of_memory_by_their_index(rt: HostRuntime) -> Result<(), Fail> {
    let bytes = dump(rt.alloc())?;
    let wanted = [
        [0x2010, 0x430, 16, 0],
        [0x3000, 0xCB0, 8, 1],
        [0x4000, SIZE as u64, 0, 2],
    ];
    for (index, want) in (0..3).zip(wanted) {
        let (found, out) = record(&bytes, 2, index);
        assert_eq!(rt; (found, of_piece(&out.memory)), (DONE, want));
    }
    Ok(())
}

#[test]
fn pieces_of_a_full_dump(rt: HostRuntime) -> Result<(), Fail> {
    let mut bytes = dump(rt.alloc())?;
    let (
        found,
        AnyRecord {
            memory64: mut walk,
            ..
        },
    ) = record(&bytes, 3, 0);
    assert_eq!(rt; found, DONE);
    assert_eq!(rt; (of_range(walk.entries), walk.next), ([0x1D0, 32], 0xCA0));
    let mut out = filled();
    assert_eq!(rt; pe_c_next_memory64(&bytes, &mut walk, &mut out), DONE);
    assert_eq!(rt; of_piece(&out), [0x5000, 0xCA0, 8, 0]);
    assert_eq!(rt; (of_range(walk.entries), walk.next), ([0x1E0, 16], 0xCA8));
    assert_eq!(rt; pe_c_next_memory64(&bytes, &mut walk, &mut out), DONE);
    assert_eq!(rt; of_piece(&out), [0x6000, 0xCA8, 16, 16]);
    out = filled();
    assert_eq!(rt; pe_c_next_memory64(&bytes, &mut walk, &mut out), NOTHING);
    assert_eq!(rt; (of_range(walk.entries), walk.next), ([0x1F0, 0], 0xCC8));
    assert!(rt; is_filled(&out));
    // The sum of the sizes passes the last offset.
    put(&mut bytes, &[(0x1E8, &[0xFF; 8])]);
    assert_eq!(rt; record(&bytes, 3, 0).0, DUMP_LOCATION);
    Ok(())
}

/// The context that a call hands out of a machine.
fn context(bytes: &[u8], location: &Location, machine: u32) -> (u32, AnyContext) {
    let mut out = filled();
    let answer = pe_c_read_dump_context(bytes, location, machine, &mut out);
    (answer, out)
}

#[test]
fn context_of_x64(rt: HostRuntime) -> Result<(), Fail> {
    let mut bytes = dump(rt.alloc())?;
    let (found, AnyContext { x64: out, .. }) = context(&bytes, &X64, 9);
    assert_eq!(rt; found, DONE);
    let mut general = [0; 16];
    general[0] = 0x11;
    general[4] = 0x2010;
    general[15] = 0x22;
    assert_eq!(rt; (out.registers.general, out.registers.rip), (general, 0x33));
    let mut xmm = [0; 32];
    xmm[2] = 0x44;
    xmm[3] = 0x55;
    assert_eq!(rt; out.registers.xmm, xmm);
    assert_eq!(rt; (out.context_flags, out.eflags), (0x10_000B, 0x246));
    // XMM registers that were not saved are 0.
    put(&mut bytes, &[(0x470, b"\x03")]);
    let (found, AnyContext { x64: out, .. }) = context(&bytes, &X64, 9);
    assert_eq!(rt; (found, out.registers.xmm), (DONE, [0; 32]));
    assert_eq!(rt; out.registers.rip, 0x33);
    put(&mut bytes, &[(0x470, b"\x02")]);
    assert_eq!(rt; context(&bytes, &X64, 9).0, DUMP_CONTEXT_FLAGS);
    put(&mut bytes, &[(0x472, b"\x40")]);
    let (found, out) = context(&bytes, &X64, 9);
    assert_eq!(rt; (found, is_filled(&out)), (DUMP_MACHINE, true));
    Ok(())
}

#[test]
fn context_of_arm64(rt: HostRuntime) -> Result<(), Fail> {
    let mut bytes = dump(rt.alloc())?;
    let (found, AnyContext { arm64: out, .. }) = context(&bytes, &ARM64, 12);
    assert_eq!(rt; found, DONE);
    let mut general = [0; 31];
    general[0] = 0x11;
    general[30] = 0x22;
    assert_eq!(rt; out.registers.general, general);
    assert_eq!(rt; (out.registers.sp, out.registers.pc), (0x33, 0x44));
    assert_eq!(rt; out.registers.floats, [0x55, 0, 0, 0, 0, 0, 0, 0]);
    assert_eq!(rt; (out.context_flags, out.cpsr), (0x40_0007, 0x66));
    assert_eq!(rt; context(&bytes, &NO_BYTES, 12).0, DUMP_CONTEXT_SIZE);
    Ok(())
}

/// Of a machine that no context here is of, of both, and of a context of the other machine.
#[test]
fn contexts_by_their_machine(rt: HostRuntime) -> Result<(), Fail> {
    let bytes = dump(rt.alloc())?;
    let mut out: AnyContext = filled();
    for (machine, location, wanted) in [
        (0, X64, DUMP_MACHINE),
        // shows: calls_stacks/src/dump/contexts.rt hand_out_context Machine
        (5, ARM64, DUMP_MACHINE),
        (9, X64, DONE),
        (12, X64, DUMP_MACHINE),
        (12, ARM64, DONE),
    ] {
        let found = pe_c_read_dump_context(&bytes, &location, machine, &mut out);
        assert_eq!(rt; found, wanted);
    }
    assert_eq!(rt; out.x64.registers.rip, 0x33);
    assert_eq!(rt; out.arm64.registers.pc, 0x44);
    Ok(())
}

#[test]
fn images_of_modules_match_by_stamp_and_size(rt: HostRuntime) -> Result<(), Fail> {
    let bytes = dump(rt.alloc())?;
    let (found, AnyRecord { loaded: module, .. }) = record(&bytes, 1, 0);
    assert_eq!(rt; found, DONE);
    for (time_date_stamp, size_of_image, wanted) in [
        (7, 0x2_1000, DONE),
        (6, 0x2_1000, NOTHING),
        (7, 0x2_1001, NOTHING),
    ] {
        let other = Image {
            time_date_stamp,
            size_of_image,
            ..image(0x8664)
        };
        assert_eq!(rt; pe_c_is_image_of(&other, &module), wanted);
    }
    Ok(())
}

// ---- the memory of a dump in order, and where in the dump the bytes at addresses are

/// What is in the rooms before a call.
const LEFT: MemoryPiece = MemoryPiece {
    start: 77,
    offset: 78,
    length: 79,
};

/// They descend. The first lies over the end of the second, and the third over that of the fourth; the last is alone.
fn five_pieces() -> [MemoryPiece; 5] {
    [
        piece_at(0x2008, 0, 8),
        piece_at(0x2000, 0x10, 16),
        piece_at(0x1008, 0x20, 8),
        piece_at(0x1000, 0x40, 16),
        piece_at(0x4000, 0x50, 16),
    ]
}

#[test]
fn runs_have_the_first_piece_of_an_address(rt: HostRuntime) -> Result<(), Fail> {
    let (mut entries, mut runs, mut written) = ([LEFT_ENTRY; 21], [LEFT; 11], 9);
    let found = pe_c_memory_runs(&five_pieces(), &mut entries, &mut runs, &mut written);
    assert_eq!(rt; found, DONE);
    assert_eq!(rt; written, 5);
    assert_eq!(rt;
        [runs[0], runs[1], runs[2], runs[3], runs[4]],
        [
            piece_at(0x1000, 0x40, 8),
            piece_at(0x1008, 0x20, 8),
            piece_at(0x2000, 0x10, 8),
            piece_at(0x2008, 0, 8),
            piece_at(0x4000, 0x50, 16),
        ]
    );
    assert_eq!(rt; (runs[10], entries[20]), (LEFT, LEFT_ENTRY));
    // Two that follow one another, in the file too, are one, up to the last address.
    let end = u64::MAX - 7;
    let list = [
        piece_at(end + 4, 4, 4),
        piece_at(end, 0, 4),
        piece_at(end + 6, 16, 8),
    ];
    let found = pe_c_memory_runs(&list, &mut entries, &mut runs, &mut written);
    assert_eq!(rt; found, DONE);
    assert_eq!(rt; (written, runs[0]), (1, piece_at(end, 0, 8)));
    // Those that follow one another in memory alone are two.
    let list = [piece_at(0x1008, 0x20, 8), piece_at(0x1000, 0x10, 8)];
    let found = pe_c_memory_runs(&list, &mut entries, &mut runs, &mut written);
    assert_eq!(rt; found, DONE);
    assert_eq!(rt; (written, runs[0]), (2, list[1]));
    assert_eq!(rt; runs[1], list[0]);
    Ok(())
}

#[test]
fn runs_that_are_refused_change_nothing(rt: HostRuntime) -> Result<(), Fail> {
    let (mut entries, mut runs, mut written) = ([LEFT_ENTRY; 20], [LEFT; 10], 9);
    let list = five_pieces();
    let found = pe_c_memory_runs(&list, &mut entries[..19], &mut runs, &mut written);
    assert_eq!(rt; found, ROOM);
    let found = pe_c_memory_runs(&list, &mut entries, &mut runs[..9], &mut written);
    assert_eq!(rt; found, ROOM);
    // shows: pe_c/src/dump.rt pe_c_memory_runs Short
    let past = [piece_at(0x1000, u64::MAX, 1)];
    let found = pe_c_memory_runs(&past, &mut entries, &mut runs, &mut written);
    assert_eq!(rt; found, SHORT);
    assert_eq!(rt; (written, runs, entries), (9, [LEFT; 10], [LEFT_ENTRY; 20]));
    Ok(())
}

#[test]
fn ranges_of_addresses_are_found(rt: HostRuntime) -> Result<(), Fail> {
    let (mut entries, mut runs, mut written) = ([LEFT_ENTRY; 20], [LEFT; 10], 9);
    let _done = pe_c_memory_runs(&five_pieces(), &mut entries, &mut runs, &mut written);
    let memory = [0; 0x60];
    let asked = [
        range(0x1004, 100),
        range(0x2010, 1),
        range(0x400F, u64::MAX),
        range(0x1000, 3),
    ];
    let mut found = [range(7, 8); 5];
    let said = pe_c_memory_ranges(&memory, &runs[..5], &asked, &mut found, &mut written);
    assert_eq!(rt; said, DONE);
    assert_eq!(rt; written, 4);
    let places: [[u64; 2]; 5] = [
        of_range(found[0]),
        of_range(found[1]),
        of_range(found[2]),
        of_range(found[3]),
        of_range(found[4]),
    ];
    assert_eq!(rt; places, [[0x44, 4], [0, 0], [0x5F, 1], [0x40, 3], [7, 8]]);
    Ok(())
}
