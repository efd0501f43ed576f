//! The CLR header of an image, the root of its metadata, and the streams of these, one a step.

use super::made::*;
use crate::directories::{pe_c_clr_header, pe_c_clr_metadata, pe_c_next_metadata_stream};
use calls_directories::directories::clr::{Metadata, MetadataStream, MetadataStreams};
use pe_directories::ClrHeader;

/// What `out` is before each call.
pub(crate) fn no_header() -> ClrHeader {
    ClrHeader {
        cb: 1,
        major_runtime_version: 2,
        minor_runtime_version: 3,
        metadata: directory(4, 5),
        flags: 6,
        entry_point_token: 7,
        resources: directory(8, 9),
        strong_name_signature: directory(10, 11),
        code_manager_table: directory(12, 13),
        vtable_fixups: directory(14, 15),
        export_address_table_jumps: directory(16, 17),
        managed_native_header: directory(18, 19),
    }
}

fn read(bytes: &[u8], image: &Image) -> (u32, ClrHeader) {
    let mut out = no_header();
    let answer = pe_c_clr_header(&view(bytes, image, &sections()), &mut out);
    (answer, out)
}

#[test]
fn headers(rt: HostRuntime) -> Result<(), Fail> {
    let numbers = [
        0, 72, 0x5_0002, 0x2000, 20, 1, 0x600_0001, 21, 22, 23, 24, 25, 26, 27, 28, 29, 30, 31, 32,
    ];
    let bytes = words(rt.alloc(), &numbers)?;
    let there = having(image(X64), 14, directory(0x1004, 8));
    let want = ClrHeader {
        cb: 72,
        major_runtime_version: 2,
        minor_runtime_version: 5,
        metadata: directory(0x2000, 20),
        flags: 1,
        entry_point_token: 0x600_0001,
        resources: directory(21, 22),
        strong_name_signature: directory(23, 24),
        code_manager_table: directory(25, 26),
        vtable_fixups: directory(27, 28),
        export_address_table_jumps: directory(29, 30),
        managed_native_header: directory(31, 32),
    };
    assert_eq!(rt; read(&bytes, &there), (DONE, want));
    assert_eq!(rt; read(&bytes, &image(X64)), (NOTHING, no_header()));
    assert_eq!(rt; read(&bytes[..75], &there), (SHORT, no_header()));
    let mut less = words(rt.alloc(), &numbers)?;
    less[4] = 71;
    let found = read(&less, &there);
    assert_eq!(rt; found, (DIRECTORY_CLR_HEADER_SIZE, no_header()));
    Ok(())
}

/// At offset 4 metadata of 60 bytes: the root with the version text `v2.0` in 8 bytes, flags 7 and two streams; `#~` with 8
/// bytes at 52, and `#Blob` with 1 byte at 60, which passes the end.
fn metadata(alloc: Global) -> Result<Vec<u8>, AllocError> {
    words(
        alloc,
        &[
            0, 0x424A5342, 0x00020001, 0, 8, 0x302E3276, 0, 0x00020007, 52, 8, 0x7E23, 60, 1,
            0x6F6C4223, 0x62, 0x1111, 0x2222,
        ],
    )
}

/// The result, the range of the version text, the walk, its count, and the other numbers.
fn root(bytes: &[u8], address: u32, size: u32) -> (u32, [[u64; 2]; 3], [u16; 4]) {
    let header = ClrHeader {
        metadata: directory(address, size),
        ..no_header()
    };
    let mut out = Metadata {
        version: untouched(),
        streams: walk(UNTOUCHED, UNTOUCHED, 9),
        major_version: 7,
        minor_version: 8,
        flags: 9,
        spare: 0,
    };
    let answer = pe_c_clr_metadata(&view(bytes, &image(X64), &sections()), &header, &mut out);
    let ranges = [out.version, out.streams.metadata, out.streams.headers];
    let numbers = [
        out.streams.count,
        out.major_version,
        out.minor_version,
        out.flags,
    ];
    (answer, of_ranges(ranges), numbers)
}

fn of_ranges(ranges: [Range; 3]) -> [[u64; 2]; 3] {
    [
        of_range(ranges[0]),
        of_range(ranges[1]),
        of_range(ranges[2]),
    ]
}

fn walk(metadata: [u64; 2], headers: [u64; 2], count: u16) -> MetadataStreams {
    MetadataStreams {
        metadata: range(metadata[0], metadata[1]),
        headers: range(headers[0], headers[1]),
        count,
        spare: 0,
        spare_too: 0,
    }
}

#[test]
fn roots_of_metadata(rt: HostRuntime) -> Result<(), Fail> {
    let bytes = metadata(rt.alloc())?;
    let found = root(&bytes, 0x1004, 60);
    assert_eq!(rt; found, (DONE, [[20, 8], [4, 60], [32, 32]], [2, 1, 2, 7]));
    // No stream header is left of 28 bytes, and the root is whole.
    let found = root(&bytes, 0x1004, 28);
    assert_eq!(rt; found, (DONE, [[20, 8], [4, 28], [32, 0]], [2, 1, 2, 7]));
    let refused = |answer| (answer, [UNTOUCHED; 3], [9, 7, 8, 9]);
    assert_eq!(rt; root(&bytes, 0x1004, 27), refused(SHORT));
    assert_eq!(rt; root(&bytes, 0x1000, 60), refused(BAD_MAGIC));
    Ok(())
}

/// The result of a step, the name and the content, the other numbers, and what is left.
fn step(
    bytes: &[u8],
    mut streams: MetadataStreams,
) -> (u32, [[u64; 2]; 2], [u32; 3], [[u64; 2]; 2], u16) {
    let mut out = MetadataStream {
        name: untouched(),
        content: untouched(),
        offset: 7,
        size: 8,
        has_content: 9,
        spare: 0,
    };
    let answer = pe_c_next_metadata_stream(bytes, &mut streams, &mut out);
    (
        answer,
        [of_range(out.name), of_range(out.content)],
        [out.offset, out.size, out.has_content],
        [of_range(streams.metadata), of_range(streams.headers)],
        streams.count,
    )
}

#[test]
fn streams_in_turn(rt: HostRuntime) -> Result<(), Fail> {
    let bytes = metadata(rt.alloc())?;
    let all = [4, 60];
    assert_eq!(rt;
        step(&bytes, walk(all, [32, 32], 2)),
        (DONE, [[40, 2], [56, 8]], [52, 8, 1], [all, [44, 20]], 1)
    );
    assert_eq!(rt;
        step(&bytes, walk(all, [44, 20], 1)),
        (DONE, [[52, 5], OVER], [60, 1, 0], [all, [60, 4]], 0)
    );
    let over = |left: [[u64; 2]; 2], count| (NOTHING, [UNTOUCHED; 2], [7, 8, 9], left, count);
    let found = step(&bytes, walk(all, [60, 4], 0));
    assert_eq!(rt; found, over([all, [60, 4]], 0));
    Ok(())
}

#[test]
fn refusals_of_streams(rt: HostRuntime) -> Result<(), Fail> {
    let bytes = metadata(rt.alloc())?;
    let refused = |answer| (answer, [UNTOUCHED; 2], [7, 8, 9], [OVER; 2], 0);
    for (headers, want) in [([44, 7], SHORT), ([44, 13], DIRECTORY_STREAM_NAME)] {
        assert_eq!(rt; step(&bytes, walk([4, 60], headers, 1)), refused(want));
    }
    Ok(())
}
