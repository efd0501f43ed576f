//! The unwind codes of ARM64 records, one a step.

use super::made::*;
use super::steps::pe_c_next_arm64_code;
use crate::arm64::pe_c_arm64_codes;
use calls_unwind::arm64::codes::{Arm64Code, Arm64CodeWalk};

/// Range and offset of a walk.
fn of_walk(walk: Arm64CodeWalk) -> [u64; 3] {
    let Arm64CodeWalk { left, offset } = walk;
    let Range {
        offset: start,
        length,
    } = left;
    [start, length, offset]
}

fn walk_over(left: Range, offset: u64) -> Arm64CodeWalk {
    Arm64CodeWalk { left, offset }
}

const OVER_WALK: [u64; 3] = [0, 0, 0];

/// What a walk is before a call that hands out another.
const UNTOUCHED_WALK: [u64; 3] = [1, 2, 3];

fn begin(bytes: &[u8], codes: &Range, start: u64) -> (u32, [u64; 3]) {
    let mut out = walk_over(range(1, 2), 3);
    let answer = pe_c_arm64_codes(bytes, codes, start, &mut out);
    (answer, of_walk(out))
}

const NO_CODE: [u32; 6] = [1, 2, 3, 4, 5, 6];

/// One step: the answer; offset, length, kind, operand, value and flags of the code; and the walk.
fn step(bytes: &[u8], walk: &mut Arm64CodeWalk) -> (u32, [u32; 6], [u64; 3]) {
    let mut out = Arm64Code {
        offset: 1,
        length: 2,
        kind: 3,
        operand: 4,
        value: 5,
        flags: 6,
    };
    let answer = pe_c_next_arm64_code(bytes, walk, &mut out);
    let Arm64Code {
        offset,
        length,
        kind,
        operand,
        value,
        flags,
    } = out;
    let numbers = [offset, length, kind, operand, value, flags];
    (answer, numbers, of_walk(*walk))
}

/// A walk starts at any code byte of a stream, its end included. The stream has whole words.
#[test]
fn walks_start(rt: HostRuntime) {
    let bytes = [0xE3; 12];
    let codes = range(3, 8);
    assert_eq!(rt; begin(&bytes, &codes, 5), (DONE, [8, 3, 5]));
    assert_eq!(rt; begin(&bytes, &codes, 8), (DONE, [11, 0, 8]));
    let found = begin(&bytes, &codes, 9);
    assert_eq!(rt; found, (ARM64_STREAM, UNTOUCHED_WALK));
    let found = begin(&bytes, &range(3, 7), 0);
    assert_eq!(rt; found, (ARM64_STREAM, UNTOUCHED_WALK));
    assert_eq!(rt; begin(&bytes, &range(5, 8), 0), (SHORT, UNTOUCHED_WALK));
}

/// A code of every kind: its bytes, and kind, operand, value and flags, by the table of the format.
#[test]
fn each_kind(rt: HostRuntime) {
    let codes: [(&[u8], [u32; 4]); 45] = [
        // 16x
        (&[0x02], [0, 0, 32, 0]),
        (&[0x1F], [0, 0, 496, 0]),
        // 8z
        (&[0x23], [1, 0, 24, 0]),
        (&[0x43], [2, 0, 24, 0]),
        // 8z+8
        (&[0x83], [3, 0, 32, 0]),
        // 16x
        (&[0xC1, 0x02], [4, 0, 0x1020, 0]),
        // 19+x, 8z
        (&[0xC9, 0x42], [5, 24, 16, 0]),
        // 19+x, 8z+8
        (&[0xCD, 0x42], [6, 24, 24, 0]),
        // 19+x, 8z
        (&[0xD1, 0x42], [7, 24, 16, 0]),
        // 19+x, 8z+8, x by 8 and z below 32
        (&[0xD5, 0x42], [8, 29, 24, 0]),
        // 19+2x, 8z
        (&[0xD7, 0x42], [9, 29, 16, 0]),
        // 8+x, 8z
        (&[0xD9, 0x42], [10, 13, 16, 0]),
        // 8+x, 8z+8
        (&[0xDB, 0x42], [11, 13, 24, 0]),
        // 8+x, 8z
        (&[0xDD, 0x42], [12, 13, 16, 0]),
        // 8+x, 8z+8, 32x+z
        (&[0xDE, 0x42], [13, 10, 24, 0]),
        (&[0xDF, 0x42], [14, 0x42, 0, 0]),
        // 16x
        (&[0xE0, 1, 2, 3], [15, 0, 16 * 0x01_0203, 0]),
        (&[0xE0, 0xFF, 0xFF, 0xFF], [15, 0, 16 * 0xFF_FFFF, 0]),
        (&[0xE1], [16, 0, 0, 0]),
        // z, 8z
        (&[0xE2, 3], [17, 3, 24, 0]),
        (&[0xE3], [18, 0, 0, 0]),
        (&[0xE4], [19, 0, 0, 0]),
        (&[0xE5], [20, 0, 0, 0]),
        (&[0xE6], [21, 0, 0, 0]),
        // 64p+32q+r, 64k+o: a pair of kind 1; one that is preindexed of kind 2; neither of kind 0; both of kind 0
        (&[0xE7, 0x44, 0x42], [22, 4, 32, 1 + 4]),
        (&[0xE7, 0x24, 0x82], [22, 4, 32, 2 + 8]),
        (&[0xE7, 0x04, 0x02], [22, 4, 16, 0]),
        (&[0xE7, 0x7F, 0x3F], [22, 31, 1008, 1 + 2]),
        // 32(o/64)+r, 192+o mod 64
        (&[0xE7, 0x23, 0xC5], [23, 3, 69, 0]),
        // 32(o/64)+16+r, 192+o mod 64
        (&[0xE7, 0x33, 0xC5], [24, 3, 69, 0]),
        (&[0xE8], [25, 0, 0, 0]),
        (&[0xE9], [25, 1, 0, 0]),
        (&[0xEA], [25, 2, 0, 0]),
        (&[0xEB], [25, 3, 0, 0]),
        (&[0xEC], [25, 4, 0, 0]),
        (&[0xFC], [26, 0, 0, 0]),
        (&[0xE7, 0x80], [27, 0xE7, 0x80, 0]),
        (&[0xE7, 0xFF], [27, 0xE7, 0xFF, 0]),
        (&[0xF8, 1], [27, 0xF8, 1, 0]),
        (&[0xF9, 1, 2], [27, 0xF9, 0x0102, 0]),
        (&[0xFA, 1, 2, 3], [27, 0xFA, 0x01_0203, 0]),
        (&[0xFB, 1, 2, 3, 4], [27, 0xFB, 0x0102_0304, 0]),
        (&[0xED], [27, 0xED, 0, 0]),
        (&[0xF7], [27, 0xF7, 0, 0]),
        (&[0xFF], [27, 0xFF, 0, 0]),
    ];
    for (code, [kind, operand, value, flags]) in codes {
        // after a nop, and filled up with nops
        let mut bytes = [0xE3; 8];
        bytes[1..1 + code.len()].copy_from_slice(code);
        let length = code.len() as u32;
        let count = code.len() as u64;
        let mut walk = walk_over(range(1, 7), 1);
        let want = (
            DONE,
            [1, length, kind, operand, value, flags],
            [1 + count, 7 - count, 1 + count],
        );
        assert_eq!(rt; step(&bytes, &mut walk), want, "{code:?}");
        for offset in 1 + length..8 {
            let after = u64::from(offset) + 1;
            let nop = (DONE, [offset, 1, 18, 0, 0, 0], [after, 8 - after, after]);
            assert_eq!(rt; step(&bytes, &mut walk), nop, "after {code:?}");
        }
        let end = (NOTHING, NO_CODE, [8, 0, 8]);
        assert_eq!(rt; step(&bytes, &mut walk), end, "after {code:?}");
    }
}

/// A code that the end cuts, after one that is read.
#[test]
fn codes_that_are_cut(rt: HostRuntime) {
    let codes: [&[u8]; 4] = [
        &[0xE3, 0xE3, 0xC0],
        &[0xE0, 0, 0],
        &[0xE3, 0xE7, 0x44],
        &[0xFA, 1, 2],
    ];
    for code in codes {
        let mut bytes = [0xE4; 4];
        bytes[1..].copy_from_slice(code);
        let mut walk = walk_over(range(0, 4), 0);
        let found = step(&bytes, &mut walk);
        assert_eq!(rt; found, (DONE, [0, 1, 19, 0, 0, 0], [1, 3, 1]));
        let mut last = step(&bytes, &mut walk);
        for _ in 0..2u8 {
            if last.0 == DONE {
                last = step(&bytes, &mut walk);
            }
        }
        // shows: calls_unwind/src/arm64/codes.rt step Arm64Cut
        assert_eq!(rt; last, (ARM64_CUT, NO_CODE, OVER_WALK), "{code:?}");
    }
}

/// Bytes that are not there, or that are no whole words together with those before them, or too many: the walk is over.
#[test]
fn walks_that_lie(rt: HostRuntime) {
    let bytes = [0xE3; 8];
    let want = (SHORT, NO_CODE, OVER_WALK);
    assert_eq!(rt; step(&bytes, &mut walk_over(range(1, 8), 0)), want);
    // shows: calls_unwind/src/arm64/codes.rt left_of_stream Arm64Stream
    for (length, offset) in [(4, 1), (4, 4_294_967_292), (4, u64::MAX - 3)] {
        let mut walk = walk_over(range(1, length), offset);
        let want = (ARM64_STREAM, NO_CODE, OVER_WALK);
        assert_eq!(rt; step(&bytes, &mut walk), want, "{length} from {offset}");
    }
    // the last byte of the longest stream
    let mut walk = walk_over(range(7, 1), 4_294_967_291);
    let last = (DONE, [4_294_967_291, 1, 18, 0, 0, 0], [8, 0, 4_294_967_292]);
    assert_eq!(rt; step(&bytes, &mut walk), last);
}
