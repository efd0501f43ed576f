//! The functions of x64 images, their unwind records and scope tables.

use super::made::*;
use super::steps::{pe_c_function_at, pe_c_function_table, pe_c_next_code};
use crate::unwinding::{
    pe_c_exception_table, pe_c_find_function, pe_c_next_record, pe_c_next_scope, pe_c_scope_table,
    pe_c_unwind_record,
};
use calls_unwind::unwinding::plan::{Plan, PlanWalk};
use calls_unwind::unwinding::{Code, CodeWalk, UnwindRecord};
use pe_unwind::{RuntimeFunction, ScopeTableEntry};

const NO_FUNCTION: RuntimeFunction = RuntimeFunction {
    begin_address: 0,
    end_address: 0,
    unwind_info_address: 0,
};

/// What a function is before a call that hands out another.
const OTHER: RuntimeFunction = RuntimeFunction {
    begin_address: 7,
    end_address: 8,
    unwind_info_address: 9,
};

/// An image for x64 with its exception directory there.
fn with_table(virtual_address: u32, size: u32) -> Image {
    having(image(X64), 3, directory(virtual_address, size))
}

fn table_of(bytes: &[u8], image: &Image) -> (u32, [u64; 2]) {
    let mut out = untouched();
    let answer = pe_c_function_table(&view(bytes, image, &sections()), &mut out);
    (answer, of_range(out))
}

/// The directory's address 0x1010 is the offset 0x10.
#[test]
fn function_tables(rt: HostRuntime) {
    let bytes = [0; 0x40];
    let whole = with_table(0x1010, 0x30);
    assert_eq!(rt; table_of(&bytes, &whole), (DONE, [0x10, 0x30]));
    let (other, odd) = (
        Image {
            machine: ARM64,
            ..whole
        },
        with_table(0x1010, 0x2F),
    );
    assert_eq!(rt; table_of(&bytes, &other), (NOTHING, UNTOUCHED));
    assert_eq!(rt; table_of(&bytes, &odd), (EXCEPTION_SIZE, UNTOUCHED));
    // x86 has no such table.
    let mut out = untouched();
    let x86 = Image {
        machine: 0x14C,
        ..whole
    };
    let answer = pe_c_exception_table(&view(&bytes, &x86, &sections()), 0x14C, &mut out);
    assert_eq!(rt; (answer, of_range(out)), (NOTHING, UNTOUCHED));
}

/// A table of three functions at offset 4; the last two start at the same address.
fn three_functions(alloc: Global) -> Result<Vec<u8>, Fail> {
    Ok(words(
        alloc,
        &[
            u32::MAX,
            0x1000,
            0x1010,
            0x2000,
            0x1020,
            0x1040,
            0x2010,
            0x1020,
            0x1030,
            0x2021,
        ],
    )?)
}

const TABLE: Range = Range {
    offset: 4,
    length: 36,
};

#[test]
fn functions_of_addresses(rt: HostRuntime) -> Result<(), Fail> {
    let bytes = three_functions(rt.alloc())?;
    let find = |table: &Range, rva| {
        let mut out = OTHER;
        let answer = pe_c_find_function(&bytes, table, rva, &mut out);
        (answer, out)
    };
    let first = function_at(0x1000, 0x1010, 0x2000);
    let last = function_at(0x1020, 0x1030, 0x2021);
    for (rva, want) in [
        (0x0FFF, (NOTHING, OTHER)),
        (0x1000, (DONE, first)),
        (0x100F, (DONE, first)),
        (0x1010, (NOTHING, OTHER)),
        (0x1020, (DONE, last)),
        (0x102F, (DONE, last)),
        (0x1030, (NOTHING, OTHER)),
    ] {
        assert_eq!(rt; find(&TABLE, rva), want, "of {rva:#x}");
    }
    assert_eq!(rt; find(&range(5, 36), 0x1000), (SHORT, OTHER));
    Ok(())
}

/// A table that is truncated has no last entry.
#[test]
fn functions_by_index(rt: HostRuntime) -> Result<(), Fail> {
    let bytes = three_functions(rt.alloc())?;
    let at = |table: &Range, index| {
        let mut out = OTHER;
        let answer = pe_c_function_at(&bytes, table, index, &mut out);
        (answer, out)
    };
    assert_eq!(rt; at(&TABLE, 1), (DONE, function_at(0x1020, 0x1040, 0x2010)));
    assert_eq!(rt; at(&TABLE, 3), (FUNCTION_INDEX, OTHER));
    assert_eq!(rt; at(&range(4, 35), 2), (FUNCTION_INDEX, OTHER));
    Ok(())
}

// ---- unwind records

/// A record without a handler and a chained function.
fn plain(codes: Range, version: u8, size_of_prolog: u8) -> UnwindRecord {
    UnwindRecord {
        codes: CodeWalk {
            left: codes,
            version,
            frame_register: 0,
            spare: [0; 6],
        },
        handler_data: range(0, 0),
        handler: 0,
        chained: NO_FUNCTION,
        is_chained: 0,
        frame_register_offset: 0,
        size_of_prolog,
        handler_kind: 0,
        spare: [0; 6],
    }
}

/// Four functions at 0, the last two of which are links to the third and to themselves, and records after them, at
/// multiples of 0x10 from 0x30 on. A record: version and flags (8 times a flag), length of the prolog, count of slots, frame
/// register and 16 times a sixteenth of its offset; the slots, of which the count is made even; and by the flags the address
/// of a handler or a function.
pub(crate) fn with_records(alloc: Global) -> Result<Vec<u8>, Fail> {
    let mut bytes = words(
        alloc,
        &[
            0x5000, 0x5010, 0x1030, 0x5010, 0x5020, 0x1001, 0x5020, 0x5030, 0x1019, 0x5030, 0x5040,
            0x3001,
        ],
    )?;
    bytes.resize(0x90, 0)?;
    put(
        &mut bytes,
        &[
            // no flags, a prolog of 4 bytes, two slots, no frame register
            (0x30, &[0x01, 4, 2, 0, 4, 0x42, 1, 0x50]),
            // flag 1: frame register 5 at 3 * 16, three slots and one to make them even, a handler
            (0x40, &[0x09, 9, 3, 0x35, 9, 0x32, 5, 0x03, 1, 0x50, 0, 0]),
            (0x4C, &[0x00, 0x11, 0, 0]),
            // flag 2 and version 2: no slots, a handler
            (0x50, &[0x12, 0, 0, 0, 0x78, 0x56, 0x34, 0x12]),
            // flag 4: one slot and one to make them even, the function that it goes on with
            (0x60, &[0x21, 5, 1, 0, 5, 0x30, 0xFF, 0xFF]),
            (0x68, &[0, 0x50, 0, 0, 0x10, 0x50, 0, 0, 0x30, 0x10, 0, 0]),
            // a version of 3
            (0x78, &[3, 0, 0, 0]),
            // a chained function that is truncated
            (0x84, &[0x21, 0, 0, 0, 0x50, 0, 0, 0]),
            // a header that is truncated
            (0x8E, &[1]),
        ],
    );
    Ok(bytes)
}

#[test]
fn records_are_read(rt: HostRuntime) -> Result<(), Fail> {
    let bytes = with_records(rt.alloc())?;
    let (image, sections, table) = (image(X64), sections(), range(0, 0x30));
    let usual = plain(range(0x34, 4), 1, 4);
    let mut with_handler = UnwindRecord {
        handler_data: range(0x50, 0x40),
        handler: 0x1100,
        frame_register_offset: 0x30,
        handler_kind: 1,
        ..plain(range(0x44, 6), 1, 9)
    };
    with_handler.codes.frame_register = 5;
    let with_termination = UnwindRecord {
        handler_data: range(0x58, 0x38),
        handler: 0x1234_5678,
        handler_kind: 2,
        ..plain(range(0x54, 0), 2, 0)
    };
    let chained = UnwindRecord {
        chained: function_at(0x5000, 0x5010, 0x1030),
        is_chained: 1,
        ..plain(range(0x64, 2), 1, 5)
    };
    for (unwind, want) in [
        // by the address, and by a link to the entry that has it
        (0x1030, usual),
        (0x1001, usual),
        (0x100D, usual),
        (0x1040, with_handler),
        (0x1050, with_termination),
        (0x1060, chained),
    ] {
        let mut out = filled();
        let view = view(&bytes, &image, &sections);
        assert_eq!(rt; pe_c_unwind_record(&view, &table, unwind, &mut out), DONE);
        assert_eq!(rt; raw(&out), raw(&want), "at {unwind:#x}");
    }
    Ok(())
}

// ---- scope tables

/// Handler data at offset 4: a count of 2 and two entries of start, end, handler and target.
fn with_scopes(alloc: Global) -> Result<Vec<u8>, Fail> {
    Ok(words(
        alloc,
        &[
            u32::MAX,
            2,
            0x1002,
            0x1008,
            1,
            0x100A,
            0x1010,
            0x1018,
            0x1100,
            0,
            u32::MAX,
        ],
    )?)
}

/// The table goes on after its count. It is there if all that its count says lies in the data.
#[test]
fn scope_tables(rt: HostRuntime) -> Result<(), Fail> {
    let bytes = with_scopes(rt.alloc())?;
    let table = |data: &Range| {
        let mut out = untouched();
        let answer = pe_c_scope_table(&bytes, data, &mut out);
        (answer, of_range(out))
    };
    assert_eq!(rt; table(&range(4, 40)), (DONE, [8, 32]));
    assert_eq!(rt; table(&range(4, 36)), (DONE, [8, 32]));
    assert_eq!(rt; table(&range(4, 35)), (NOTHING, UNTOUCHED));
    assert_eq!(rt; table(&range(5, 40)), (SHORT, UNTOUCHED));
    Ok(())
}

const NO_SCOPE: ScopeTableEntry = ScopeTableEntry {
    begin: 5,
    end: 6,
    handler: 7,
    target: 8,
};

#[test]
fn scopes_in_turn(rt: HostRuntime) -> Result<(), Fail> {
    let bytes = with_scopes(rt.alloc())?;
    let step = |walk: &mut Range| {
        let mut out = NO_SCOPE;
        let answer = pe_c_next_scope(&bytes, walk, &mut out);
        (answer, out, of_range(*walk))
    };
    let first = ScopeTableEntry {
        begin: 0x1002,
        end: 0x1008,
        handler: 1,
        target: 0x100A,
    };
    let second = ScopeTableEntry {
        begin: 0x1010,
        end: 0x1018,
        handler: 0x1100,
        target: 0,
    };
    let mut walk = range(8, 32);
    assert_eq!(rt; step(&mut walk), (DONE, first, [24, 16]));
    assert_eq!(rt; step(&mut walk), (DONE, second, [40, 0]));
    assert_eq!(rt; step(&mut walk), (NOTHING, NO_SCOPE, [40, 0]));
    // one whole entry and one that is truncated, after which the walk is over
    let mut cut = range(8, 31);
    assert_eq!(rt; step(&mut cut), (DONE, first, [24, 15]));
    assert_eq!(rt; step(&mut cut), (SHORT, NO_SCOPE, OVER));
    Ok(())
}

// ---- the unwind codes of x64 records, one a step

/// A walk whose spare bytes are not zero: nothing reads them, and no step changes them.
fn walk_over(left: Range, version: u8, frame_register: u8) -> CodeWalk {
    CodeWalk {
        left,
        version,
        frame_register,
        spare: [9; 6],
    }
}

/// What a code is before a call that hands out another.
const NO_CODE: [u32; 5] = [1, 2, 3, 4, 5];

/// One step: the answer, all fields of the code, and the walk.
fn step(bytes: &[u8], walk: &mut CodeWalk) -> (u32, [u32; 5], [u64; 2]) {
    let mut out = Code {
        code_offset: 1,
        operation: 2,
        operand: 3,
        from_frame: 4,
        value: 5,
    };
    let answer = pe_c_next_code(bytes, walk, &mut out);
    let Code {
        code_offset,
        operation,
        operand,
        from_frame,
        value,
    } = out;
    let numbers = [
        u32::from(code_offset),
        u32::from(operation),
        u32::from(operand),
        u32::from(from_frame),
        value,
    ];
    (answer, numbers, of_range(walk.left))
}

/// What no step changes.
fn rest_of(walk: &CodeWalk) -> (u8, u8, [u8; 6]) {
    (walk.version, walk.frame_register, walk.spare)
}

/// A code of every operation: the version, its bytes, and its operation, operand, whether its value counts from the frame
/// register where there is one, and the value. The first byte is the offset after the instruction, 9; the second has the
/// opcode in its low and the info in its high four bits.
#[test]
fn each_operation(rt: HostRuntime) {
    let codes: [(u8, &[u8], u32, u32, u32, u32); 15] = [
        (1, &[9, 0x50], 0, 5, 0, 0),
        (1, &[9, 0x01, 6, 0], 1, 0, 0, 48),
        (1, &[9, 0x11, 0, 0, 2, 0], 1, 0, 0, 0x2_0000),
        (1, &[9, 0xF2], 1, 0, 0, 128),
        (1, &[9, 0x03], 2, 0, 0, 0),
        (1, &[9, 0x34, 5, 0], 3, 3, 1, 40),
        (1, &[9, 0x35, 0, 0, 1, 0], 3, 3, 1, 0x1_0000),
        (1, &[9, 0x66, 2, 0], 4, 23, 1, 32),
        (2, &[9, 0x16], 5, 1, 0, 9),
        (1, &[9, 0x67, 0, 0, 1, 0], 6, 23, 1, 0x1_0000),
        (2, &[9, 0x07, 0, 0, 1, 0], 8, 0, 0, 0),
        (1, &[9, 0x68, 2, 0], 6, 23, 1, 32),
        (1, &[9, 0x69, 0, 0, 1, 0], 6, 23, 1, 0x1_0000),
        (1, &[9, 0x0A], 7, 0, 0, 0),
        (1, &[9, 0x1A], 7, 1, 0, 0),
    ];
    for (version, code, operation, operand, from_frame, value) in codes {
        for frame_register in [0, 5] {
            let from_frame = if frame_register == 0 { 0 } else { from_frame };
            // the code before two zeros, and the walk over its bytes alone
            let mut bytes = [0; 9];
            bytes[1..1 + code.len()].copy_from_slice(code);
            let length = code.len() as u64;
            let mut walk = walk_over(range(1, length), version, frame_register);
            let want = [9, operation, operand, from_frame, value];
            let end = [1 + length, 0];
            assert_eq!(rt; step(&bytes, &mut walk), (DONE, want, end), "{code:?}");
            assert_eq!(rt; rest_of(&walk), (version, frame_register, [9; 6]));
        }
    }
}

/// After four bytes: a prolog that pushed rbx, up to 1, and made room for 8 bytes, up to 5.
#[test]
fn codes_in_turn(rt: HostRuntime) {
    let bytes = [0, 0, 0, 0, 5, 0x02, 1, 0x30];
    let mut walk = walk_over(range(4, 4), 1, 0);
    assert_eq!(rt; step(&bytes, &mut walk), (DONE, [5, 1, 0, 0, 8], [6, 2]));
    assert_eq!(rt; step(&bytes, &mut walk), (DONE, [1, 0, 3, 0, 0], [8, 0]));
    assert_eq!(rt; step(&bytes, &mut walk), (NOTHING, NO_CODE, [8, 0]));
    // A range that is not inside the bytes.
    let mut lie = walk_over(range(5, 4), 1, 0);
    assert_eq!(rt; step(&bytes, &mut lie), (SHORT, NO_CODE, OVER));
}

/// After a refusal the walk is over: it stands at its end, and its other fields are as they were.
#[test]
fn codes_that_are_refused(rt: HostRuntime) {
    let refused: [(u8, &[u8], u32); 6] = [
        (1, &[9], SHORT),
        (1, &[9, 0x11, 0, 0, 2], SHORT),
        (1, &[9, 0x21, 0, 0, 0, 0], UNWIND_CODE),
        (1, &[9, 0x2A], UNWIND_CODE),
        (1, &[9, 0x0B], UNWIND_CODE),
        (3, &[9, 0x16, 0, 0], UNWIND_CODE),
    ];
    for (version, code, number) in refused {
        // after a code that is read
        let mut bytes = [0; 8];
        bytes[1] = 0x50;
        bytes[2..2 + code.len()].copy_from_slice(code);
        let length = code.len() as u64;
        let mut walk = walk_over(range(0, 2 + length), version, 7);
        let want = (DONE, [0, 0, 5, 0, 0], [2, length]);
        assert_eq!(rt; step(&bytes, &mut walk), want, "before {code:?}");
        let end = [2 + length, 0];
        assert_eq!(rt; step(&bytes, &mut walk), (number, NO_CODE, end), "{code:?}");
        assert_eq!(rt; rest_of(&walk), (version, 7, [9; 6]));
    }
}

// ---- the records of a function up to the root of its chain, one a step

/// Records of version 1 that go on with other functions, whose prologs have different lengths: 16 bytes each from the offset
/// 0x30 on, after the entries of four functions, the third of which is a link to the first, the fourth one to itself. At 0x30 is a
/// root, at 0x40, 0x50 and 0x60 one chained to that before it; at 0x70 one chained to itself, at 0x80 one chained to that.
fn with_chains(alloc: Global) -> Result<Vec<u8>, Fail> {
    Ok(words(
        alloc,
        &[
            0x5000, 0x5010, 0x1030, 0x5010, 0x5020, 0x1040, 0x5020, 0x5030, 0x1001, 0x5030, 0x5040,
            0x1025, 0x1101, 0, 0, 0, 0x1221, 0x5000, 0x5010, 0x1030, 0x1321, 0x5010, 0x5020,
            0x1040, 0x1421, 0x5020, 0x5030, 0x1050, 0x1521, 0x5030, 0x5040, 0x1070, 0x1621, 0x5030,
            0x5040, 0x1070,
        ],
    )?)
}

/// The entries of the four functions.
fn table_of_chains() -> Range {
    range(0, 0x30)
}

/// A walk by steps, which starts here.
fn from(plan: Plan) -> PlanWalk {
    PlanWalk {
        plan,
        kept: NO_SECTIONS,
    }
}

/// The same from an unwind RVA.
pub(crate) fn plan_from(unwind: u32) -> PlanWalk {
    from(Plan {
        unwind,
        is_over: 0,
        saved: unwind,
        spare: 0,
        steps: 0,
        limit: 1,
    })
}

fn fields_of(plan: &Plan) -> [u64; 6] {
    let Plan {
        unwind,
        is_over,
        saved,
        spare,
        steps,
        limit,
    } = *plan;
    [
        u64::from(unwind),
        u64::from(is_over),
        u64::from(saved),
        u64::from(spare),
        steps,
        limit,
    ]
}

/// What differs between the records: the offset of the codes, the function, whether there is one, the prolog's length.
fn key_of(record: &UnwindRecord) -> [u64; 4] {
    [
        record.codes.left.offset,
        u64::from(record.chained.unwind_info_address),
        u64::from(record.is_chained),
        u64::from(record.size_of_prolog),
    ]
}

/// That of a record which no call wrote.
const NO_KEY: [u64; 4] = [0x0909_0909_0909_0909, 0x0909_0909, 0x0909_0909, 9];

/// One step: the answer, what goes out, and the plan after it.
fn step_plan(bytes: &[u8], table: &Range, walk: &mut PlanWalk) -> (u32, [u64; 4], [u64; 6]) {
    let mut out = filled();
    let answer = pe_c_next_record(
        &view(bytes, &image(X64), &sections()),
        table,
        walk,
        &mut out,
    );
    (answer, key_of(&out), fields_of(&walk.plan))
}

/// A plan saves an address after 1, 2 and 4 records.
#[test]
fn plans_come_to_the_root(rt: HostRuntime) -> Result<(), Fail> {
    let bytes = with_chains(rt.alloc())?;
    let table = table_of_chains();
    let mut plan = plan_from(0x1060);
    let steps = [
        (DONE, [0x64, 0x1050, 1, 0x14], [0x1050, 0, 0x1050, 0, 0, 2]),
        (DONE, [0x54, 0x1040, 1, 0x13], [0x1040, 0, 0x1050, 0, 1, 2]),
        (DONE, [0x44, 0x1030, 1, 0x12], [0x1030, 0, 0x1030, 0, 0, 4]),
        (DONE, [0x34, 0, 0, 0x11], [0x1030, 1, 0x1030, 0, 0, 4]),
        (NOTHING, NO_KEY, [0x1030, 1, 0x1030, 0, 0, 4]),
    ];
    for want in steps {
        assert_eq!(rt; step_plan(&bytes, &table, &mut plan), want);
    }
    Ok(())
}

/// A chain that never ends is refused as one at once where it leads back to the saved address; a chain that comes to such a
/// ring a few records later.
#[test]
fn plans_that_never_end(rt: HostRuntime) -> Result<(), Fail> {
    let bytes = with_chains(rt.alloc())?;
    let table = table_of_chains();
    let mut ring = plan_from(0x1070);
    // shows: calls_unwind/src/unwinding/plan.rt advance FunctionCycle
    let refused = (FUNCTION_CYCLE, NO_KEY, [0x1070, 1, 0x1070, 0, 0, 1]);
    assert_eq!(rt; step_plan(&bytes, &table, &mut ring), refused);
    assert_eq!(rt; step_plan(&bytes, &table, &mut ring).0, NOTHING);
    let mut later = plan_from(0x1080);
    let first = (DONE, [0x84, 0x1070, 1, 0x16], [0x1070, 0, 0x1070, 0, 0, 2]);
    assert_eq!(rt; step_plan(&bytes, &table, &mut later), first);
    let refused = (FUNCTION_CYCLE, NO_KEY, [0x1070, 1, 0x1070, 0, 0, 2]);
    assert_eq!(rt; step_plan(&bytes, &table, &mut later), refused);
    assert_eq!(rt; step_plan(&bytes, &table, &mut later).0, NOTHING);
    Ok(())
}
