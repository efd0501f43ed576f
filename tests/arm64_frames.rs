//! Steps of a stack walk on ARM64. The records are those that clang 14 makes of the instructions beside them with their
//! `.seh` directives, and the stacks are by hand: what is expected is the state at the function's entry.

use crate::frames::{RETURN_ADDRESS, bytes_of, shown, text};
use crate::images::{arm64_function, stack_at};
use pe_core::{Error, Reason};
use pe_frame::{Arm64Registers, FrameError, Stack, step_arm64, step_arm64_packed, step_out_arm64};
use pe_unwind::{Arm64RuntimeFunction, Arm64UnwindInfo};
use std::alloc::{AllocError, Global};
use std::test::Fail;

/// The stack pointer where each of these functions is entered.
const ENTRY: u64 = 0x10_0000;

pub(crate) const LR: usize = 30;

/// The registers of the caller: each has a number of its own.
fn of_caller() -> Arm64Registers {
    let mut registers = Arm64Registers {
        general: [0; 31],
        float: [0; 8],
        sp: ENTRY,
        pc: RETURN_ADDRESS,
    };
    for (i, value) in registers.general.iter_mut().enumerate() {
        *value = 0xAAAA_0000 + i as u64;
    }
    for (i, value) in registers.float.iter_mut().enumerate() {
        *value = 0xBBBB_0000 + i as u64;
    }
    registers.general[LR] = RETURN_ADDRESS;
    registers
}

/// The same with other numbers in some integer registers, and another stack pointer, as a prolog leaves them.
fn changed(sp: u64, changes: &[(usize, u64)]) -> Arm64Registers {
    let mut registers = of_caller();
    for (register, value) in changes {
        if *register < 31 {
            registers.general[*register] = *value;
        }
    }
    registers.sp = sp;
    registers.pc = 0x1_4000_1000;
    registers
}

/// The same with others in all registers that a body may change: those that the prolog stored, and the link register.
fn after_body(sp: u64, frame: u64) -> Arm64Registers {
    let mut registers = changed(sp, &[(29, frame), (LR, 0x1_4000_1234)]);
    for (i, value) in registers.general.iter_mut().enumerate() {
        if 19 <= i && i < 29 {
            *value = i as u64;
        }
    }
    for value in &mut registers.float {
        *value = 5;
    }
    registers
}

/// Where the functions start that have a record, which is passed beside it.
const FUNCTION: Arm64RuntimeFunction = Arm64RuntimeFunction {
    begin_address: 0x1000,
    unwind_data: 0,
};

/// A step in a function with this record, at an offset in it.
fn step_at(
    record: &[u8],
    offset: u32,
    registers: Arm64Registers,
    stack: &Stack<'_>,
) -> Result<Arm64Registers, FrameError> {
    let info = Arm64UnwindInfo::parse(record, 0).map_err(FrameError::Codes)?;
    step_arm64(
        &FUNCTION,
        &info,
        FUNCTION.begin_address + offset,
        registers,
        stack,
    )
}

/// stp x29,x30,[sp,#-256]!; stp d8,d9,[sp,#224]; stp x19,x20,[sp,#240]; mov x29,sp; sub sp,sp,#512
const CHAINED: [u8; 16] = [
    0x0B, 0x00, 0xA0, 0x18, 0xC0, 0x20, 0xE1, 0xC8, 0x1E, 0xD8, 0x1C, 0x9F, 0xE4, 0xE3, 0xE3, 0xE3,
];

/// The 256 bytes that it stores to: x29 and the link register first, d8, d9, x19 and x20 last.
fn chained_words(caller: &Arm64Registers) -> [u64; 32] {
    let (x, d) = (&caller.general, &caller.float);
    let mut words = [0xDD; 32];
    words[..2].copy_from_slice(&[x[29], RETURN_ADDRESS]);
    words[28..].copy_from_slice(&[d[0], d[1], x[19], x[20]]);
    words
}

#[test]
fn undoes_each_part_of_a_prolog(rt: HostRuntime) -> Result<(), Fail> {
    let caller = of_caller();
    let bytes = bytes_of(rt.alloc(), &chained_words(&caller))?;
    let base = ENTRY - 256;
    let stack = stack_at(base, &bytes);
    // The offset of the instruction that is about to run, the stack pointer there, and x29.
    let x29 = caller.general[29];
    for (offset, sp, frame) in [
        (0, ENTRY, x29),
        (3, ENTRY, x29),
        (4, base, x29),
        (8, base, x29),
        (12, base, x29),
        (16, base, base),
        (20, base - 512, base),
    ] {
        let found = step_at(&CHAINED, offset, changed(sp, &[(29, frame)]), &stack)?;
        assert_eq!(rt; found, caller);
    }
    // After the prolog a body may change what was stored, and move the stack pointer down, as x29 has the frame.
    for (offset, sp) in [(20, base - 512), (24, base - 0x1000), (0x400, base - 512)] {
        let mut expected = caller;
        for (i, value) in expected.general.iter_mut().enumerate() {
            if 21 <= i && i < 29 {
                *value = i as u64;
            }
        }
        for value in &mut expected.float[2..] {
            *value = 5;
        }
        let found = step_at(&CHAINED, offset, after_body(sp, base), &stack)?;
        assert_eq!(rt; found, expected);
    }
    Ok(())
}

/// stp x19,x20,[sp,#-48]!; stp x21,x22,[sp,#16]; stp x23,x30,[sp,#32]; stp d8,d9,[sp,#-64]!; stp d10,d11,[sp,#16];
/// stp d12,d13,[sp,#32]; str d14,[sp,#48]; sub sp,sp,#1040, with `.seh_save_next` for the second pairs and the third.
const NEXTS: [u8; 20] = [
    0x0A, 0x00, 0x00, 0x20, 0xC0, 0x41, 0xDD, 0x86, 0xE6, 0xE6, 0xDA, 0x07, 0xD6, 0x84, 0xE6, 0x26,
    0xE4, 0xE3, 0xE3, 0xE3,
];

#[test]
fn undoes_pairs_in_a_row(rt: HostRuntime) -> Result<(), Fail> {
    let caller = of_caller();
    let (x, d) = (caller.general, caller.float);
    let mut words = [0xDD; 14];
    words[..7].copy_from_slice(&d[..7]);
    words[8..13].copy_from_slice(&x[19..24]);
    words[13] = RETURN_ADDRESS;
    let bytes = bytes_of(rt.alloc(), &words)?;
    let (first, second) = (ENTRY - 48, ENTRY - 112);
    let stack = stack_at(second, &bytes);
    for (place, sp) in [
        (0, ENTRY),
        (1, first),
        (2, first),
        (3, first),
        (4, second),
        (5, second),
        (6, second),
        (7, second),
        (8, second - 1040),
    ] {
        let found = step_at(&NEXTS, 4 * place, changed(sp, &[]), &stack)?;
        assert_eq!(rt; found, caller);
    }
    // Once all of the pairs are stored their registers may change. d15 is not stored.
    for (place, sp) in [(7, second), (8, second - 1040), (100, second - 1040)] {
        let registers = after_body(sp, x[29]);
        let mut expected = caller;
        for (i, value) in expected.general.iter_mut().enumerate() {
            if 24 <= i && i < 29 {
                *value = i as u64;
            }
        }
        expected.float[7] = 5;
        assert_eq!(rt; step_at(&NEXTS, 4 * place, registers, &stack)?, expected);
    }
    Ok(())
}

/// str x27,[sp,#-32]!; str d15,[sp,#-16]!; stp x21,x22,[sp,#-64]!; stp x29,x30,[sp,#16]; str x28,[sp,#32]; nop;
/// add x29,sp,#16; sub sp,sp,#64,lsl #12
const SINGLES: [u8; 24] = [
    0x0A, 0x00, 0x00, 0x28, 0xE0, 0x00, 0x40, 0x00, 0xE2, 0x02, 0xE3, 0xD2, 0x44, 0x42, 0xCC, 0x87,
    0xDE, 0xE1, 0xD5, 0x03, 0xE4, 0xE3, 0xE3, 0xE3,
];

#[test]
fn undoes_single_registers(rt: HostRuntime) -> Result<(), Fail> {
    let caller = of_caller();
    let (x, d) = (caller.general, caller.float);
    let mut words = [0xDD; 11];
    words[..5].copy_from_slice(&[x[21], x[22], x[29], RETURN_ADDRESS, x[28]]);
    (words[8], words[10]) = (d[7], x[27]);
    let bytes = bytes_of(rt.alloc(), &words)?;
    let base = ENTRY - 112;
    let stack = stack_at(base, &bytes);
    for (place, sp, frame) in [
        (0, ENTRY, x[29]),
        (1, ENTRY - 32, x[29]),
        (2, ENTRY - 48, x[29]),
        (3, base, x[29]),
        (4, base, x[29]),
        (5, base, x[29]),
        (6, base, x[29]),
        (7, base, base + 16),
        (8, base - 0x4_0000, base + 16),
    ] {
        let found = step_at(&SINGLES, 4 * place, changed(sp, &[(29, frame)]), &stack)?;
        assert_eq!(rt; found, caller);
    }
    let found = step_at(&SINGLES, 0x100, after_body(0x100, base + 16), &stack)?;
    let own = (found.general[21], found.general[22], found.general[27]);
    assert_eq!(rt; own, (x[21], x[22], x[27]));
    let own = (found.general[28], found.general[29], found.float[7]);
    assert_eq!(rt; own, (x[28], x[29], d[7]));
    let own = (found.general[LR], found.pc, found.sp);
    assert_eq!(rt; own, (RETURN_ADDRESS, RETURN_ADDRESS, ENTRY));
    Ok(())
}

/// A record with these codes, four bytes a word, of a function of 1,024 instructions.
fn record_of(alloc: Global, codes: &[u8]) -> Result<Vec<u8>, AllocError> {
    let mut bytes = Vec::new(alloc);
    let header = 0x20_0400 | (codes.len() as u32 / 4) << 27;
    bytes.extend_from_slice(&u32::to_le_bytes(header))?;
    bytes.extend_from_slice(codes)?;
    Ok(bytes)
}

/// pacibsp; stp x29,lr,[sp,#-16]!, in a program and in the system. The architecture's manual has bit 55 choose what the bits of
/// a signature are replaced by.
#[test]
fn takes_signatures_off(rt: HostRuntime) -> Result<(), Fail> {
    let record = record_of(rt.alloc(), &[0x81, 0xFC, 0xE4, 0xE3])?;
    for (signed, address) in [
        (0x0012_7FF6_1234_5678, 0x7FF6_1234_5678),
        (0xFF7F_7FF6_1234_5678, 0x7FF6_1234_5678),
        (0x1295_F800_1234_5678, 0xFFFF_F800_1234_5678),
        (0x0080_0000_1234_5678, 0xFFFF_0000_1234_5678),
        (0x7FF6_1234_5678, 0x7FF6_1234_5678),
        (0xFFFF_F800_1234_5678, 0xFFFF_F800_1234_5678),
    ] {
        let mut expected = of_caller();
        expected.general[LR] = address;
        expected.pc = address;
        let bytes = bytes_of(rt.alloc(), &[expected.general[29], signed])?;
        let stack = stack_at(ENTRY - 16, &bytes);
        // After the signature, after the store, and in the body.
        let registers = changed(ENTRY, &[(LR, signed)]);
        assert_eq!(rt; step_at(&record, 4, registers, &stack)?, expected);
        let registers = changed(ENTRY - 16, &[(LR, signed)]);
        assert_eq!(rt; step_at(&record, 8, registers, &stack)?, expected);
        let registers = changed(ENTRY - 16, &[(29, 0), (LR, 0x1_4000_1234)]);
        assert_eq!(rt; step_at(&record, 8, registers, &stack)?, expected);
    }
    Ok(())
}

/// A part of a function without a prolog of its own: `end_c` comes before the codes of the function, `stp x29,lr,[sp,#-16]!`.
#[test]
fn undoes_the_prolog_of_another_part(rt: HostRuntime) -> Result<(), Fail> {
    let record = record_of(rt.alloc(), &[0xE5, 0x81, 0xE4, 0xE3])?;
    let caller = of_caller();
    let bytes = bytes_of(rt.alloc(), &[caller.general[29], RETURN_ADDRESS])?;
    let stack = stack_at(ENTRY - 16, &bytes);
    for offset in [0, 4, 0x40] {
        let registers = changed(ENTRY - 16, &[(29, 0), (LR, 1)]);
        assert_eq!(rt; step_at(&record, offset, registers, &stack)?, caller);
    }
    Ok(())
}

#[test]
fn refuses_what_it_cannot_undo(rt: HostRuntime) -> Result<(), Fail> {
    let stack = stack_at(ENTRY - 16, &[0; 16]);
    // Stores of any register: preindexed, and of registers that there are not.
    let of_any = |kind: u8, pair: bool, preindexed: bool, reg: u8, bytes: u8| {
        format!(in rt.alloc();
            "SaveAnyReg {{ kind: {kind}, pair: {pair}, preindexed: {preindexed}, reg: {reg}, offset_bytes: {bytes} }}"
        )
    };
    let (indexed, above) = (
        of_any(0, false, true, 19, 16)?,
        of_any(0, false, false, 31, 0)?,
    );
    let (pair, pair_of_q) = (
        of_any(0, true, false, 30, 0)?,
        of_any(2, true, false, 31, 0)?,
    );
    let rows: [([u8; 4], &str); 15] = [
        // E8h and EBh: a trap frame, and a context of ARM64EC
        ([0xE8, 0xE4, 0xE3, 0xE3], "CustomStack(TrapFrame)"),
        ([0xEB, 0xE4, 0xE3, 0xE3], "CustomStack(EcContext)"),
        // reserved, alloc_z, save_any_reg, save_zreg
        (
            [0xED, 0xE4, 0xE3, 0xE3],
            "Reserved { opcode: 237, value: 0, data_len: 0 }",
        ),
        ([0xDF, 0x01, 0xE4, 0xE3], "AllocZ { count: 1 }"),
        ([0xE7, 0x33, 0x01, 0xE4], indexed.as_str()),
        ([0xE7, 0x1F, 0x00, 0xE4], above.as_str()),
        ([0xE7, 0x5E, 0x00, 0xE4], pair.as_str()),
        ([0xE7, 0x5F, 0x80, 0xE4], pair_of_q.as_str()),
        // save_next before a pair of any registers
        ([0xE6, 0xE7, 0x53, 0x00], "SaveNext"),
        ([0xE7, 0x00, 0xC0, 0xE4], "SaveZReg { r: 0, o: 0 }"),
        // save_reg x31, save_regp x30, save_fregp d15
        (
            [0xD3, 0x00, 0xE4, 0xE3],
            "SaveReg { reg: 31, offset_bytes: 0 }",
        ),
        (
            [0xCA, 0xC0, 0xE4, 0xE3],
            "SaveRegPair { first_reg: 30, offset_bytes: 0 }",
        ),
        (
            [0xD9, 0xC0, 0xE4, 0xE3],
            "SaveFRegPair { first_reg: 15, offset_bytes: 0 }",
        ),
        // save_next before alloc_s, and before the end
        ([0xE6, 0x01, 0xE4, 0xE3], "SaveNext"),
        ([0xE6, 0xE4, 0xE3, 0xE3], "SaveNext"),
    ];
    for (codes, expected) in rows {
        let record = record_of(rt.alloc(), &codes)?;
        let result = step_at(&record, 0x40, changed(ENTRY - 16, &[]), &stack);
        let found = shown(rt.alloc(), &result.err())?;
        assert_eq!(rt;
            found,
            format!(in rt.alloc(); "Some(Arm64Code({expected}))")?
        );
    }
    Ok(())
}

/// `save_any_reg`, by the forms of Microsoft's page: the registers of each slot, x0 to x30 by their numbers and d8 to d15 by 108 to
/// 115, and how far above the stack pointer it is.
#[test]
fn undoes_stores_of_any_register(rt: HostRuntime) -> Result<(), Fail> {
    let rows: [(&[u8], &[(usize, usize)]); 10] = [
        // str x19,[sp,#8]; stp x19,x20,[sp,#16]; str x0,[sp,#504]
        (&[0xE7, 0x13, 0x01, 0xE4], &[(19, 8)]),
        (&[0xE7, 0x53, 0x01, 0xE4], &[(19, 16), (20, 24)]),
        (&[0xE7, 0x00, 0x3F, 0xE4], &[(0, 504)]),
        // str d8,[sp,#8]; stp d14,d15,[sp,#32]; stp d7,d8,[sp,#16]; stp d15,d16,[sp,#16]
        (&[0xE7, 0x08, 0x41, 0xE4], &[(108, 8)]),
        (&[0xE7, 0x4E, 0x42, 0xE4], &[(114, 32), (115, 40)]),
        (&[0xE7, 0x47, 0x41, 0xE4], &[(108, 24)]),
        (&[0xE7, 0x4F, 0x41, 0xE4], &[(115, 16)]),
        // str q9,[sp,#16]; stp q8,q9,[sp,#32]; stp q0,q1,[sp,#0]
        (&[0xE7, 0x09, 0x81, 0xE4], &[(109, 16)]),
        (&[0xE7, 0x48, 0x82, 0xE4], &[(108, 32), (109, 48)]),
        (&[0xE7, 0x40, 0x80, 0xE4], &[]),
    ];
    let mut words = [0; 64];
    for (i, word) in words.iter_mut().enumerate() {
        *word = 0xCC00 + 8 * i as u64;
    }
    let bytes = bytes_of(rt.alloc(), &words)?;
    let stack = stack_at(ENTRY, &bytes);
    for (codes, slots) in rows {
        let record = record_of(rt.alloc(), codes)?;
        let mut expected = of_caller();
        for (register, offset) in slots {
            let value = 0xCC00 + *offset as u64;
            if *register < 31 {
                expected.general[*register] = value;
            } else {
                expected.float[*register - 108] = value;
            }
        }
        let found = step_at(&record, 0x40, changed(ENTRY, &[]), &stack)?;
        assert_eq!(rt; found, expected);
    }
    Ok(())
}

/// The same, and whether no call left the caller.
fn step_out_at(
    record: &[u8],
    offset: u32,
    registers: Arm64Registers,
    stack: &Stack<'_>,
) -> Result<(Arm64Registers, bool), FrameError> {
    let info = Arm64UnwindInfo::parse(record, 0).map_err(FrameError::Codes)?;
    step_out_arm64(
        &FUNCTION,
        &info,
        FUNCTION.begin_address + offset,
        registers,
        stack,
    )
}

/// A `CONTEXT` record of winnt.h: `X` from 8 on, `Sp` at 100h, `Pc` at 108h, `V` from 110h on.
fn context_of(alloc: Global, registers: &Arm64Registers) -> Result<Vec<u8>, AllocError> {
    let mut words = [0xDD; 0x390 / 8];
    words[1..32].copy_from_slice(&registers.general);
    words[0x100 / 8] = registers.sp;
    words[0x108 / 8] = registers.pc;
    for (i, value) in registers.float.iter().enumerate() {
        words[0x110 / 8 + 2 * (8 + i)] = *value;
    }
    bytes_of(alloc, &words)
}

/// In a machine frame are the stack pointer and the instruction pointer, wherever they lead.
#[test]
fn undoes_machine_frames(rt: HostRuntime) -> Result<(), Fail> {
    let bytes = bytes_of(rt.alloc(), &[1, 2, 0x1230, 0x4567])?;
    let stack = stack_at(ENTRY, &bytes);
    // one that is the whole prolog, and one above 16 bytes of stack
    for (codes, sp) in [
        ([0xE9, 0xE4, 0xE3, 0xE3], ENTRY + 16),
        ([0x01, 0xE9, 0xE4, 0xE3], ENTRY),
    ] {
        let record = record_of(rt.alloc(), &codes)?;
        let registers = changed(sp, &[(LR, 7)]);
        let mut expected = registers;
        (expected.sp, expected.pc) = (0x1230, 0x4567);
        let found = step_out_at(&record, 0x40, registers, &stack)?;
        assert_eq!(rt; found, (expected, true));
        assert_eq!(rt; step_at(&record, 0x40, registers, &stack)?, expected);
    }
    let record = record_of(rt.alloc(), &[0xE9, 0xE4, 0xE3, 0xE3])?;
    let missing = step_out_at(&record, 0x40, changed(ENTRY + 24, &[]), &stack);
    assert!(rt; matches!(missing, Err(FrameError::Memory(address)) if address == ENTRY + 32));
    Ok(())
}

#[test]
fn undoes_contexts(rt: HostRuntime) -> Result<(), Fail> {
    let mut expected = of_caller();
    (expected.sp, expected.pc) = (0x9870, 0x7FF6_0000_1234);
    let bytes = context_of(rt.alloc(), &expected)?;
    let stack = stack_at(ENTRY - 0x390, &bytes);
    let record = record_of(rt.alloc(), &[0xEA, 0xE4, 0xE3, 0xE3])?;
    let registers = after_body(ENTRY - 0x390, 3);
    let found = step_out_at(&record, 0x40, registers, &stack)?;
    assert_eq!(rt; found, (expected, true));
    // Nothing but the pointers is read above d15, which is read first.
    let short = stack_at(ENTRY - 0x390, &bytes[..0x208]);
    let found = step_out_at(&record, 0x40, registers, &short)?;
    assert_eq!(rt; found, (expected, true));
    let shorter = stack_at(ENTRY - 0x390, &bytes[..0x207]);
    let missing = step_out_at(&record, 0x40, registers, &shorter);
    assert!(rt; matches!(missing, Err(FrameError::Memory(address)) if address == ENTRY - 0x190));
    Ok(())
}

/// The record of a function that MSVC links into each program for ARM64, which takes the cookie of the stack back: called from
/// an epilog, it frees 16 bytes, and returns into the epilog.
const POPS_COOKIE: [u8; 16] = [
    0x0B, 0x00, 0x40, 0x10, 0x06, 0x00, 0x40, 0x00, 0xE4, 0x01, 0xEC, 0xE4, 0xE4, 0, 0, 0,
];

#[test]
fn says_that_no_call_left_the_caller(rt: HostRuntime) -> Result<(), Fail> {
    let stack = stack_at(ENTRY, &[]);
    // before its epilog, at `add sp,sp,#16`, at `ret`
    for (offset, sp, is_interrupt) in [
        (0x00, ENTRY, false),
        (0x14, ENTRY, false),
        (0x18, ENTRY - 16, true),
        (0x1C, ENTRY, true),
        (0x20, ENTRY, false),
    ] {
        let found = step_out_at(&POPS_COOKIE, offset, changed(sp, &[]), &stack)?;
        assert_eq!(rt; found, (of_caller(), is_interrupt));
    }
    Ok(())
}

#[test]
fn names_the_first_error(rt: HostRuntime) -> Result<(), Fail> {
    let stack = stack_at(ENTRY - 16, &[0; 16]);
    // Codes, the stack pointer, x29, and the error.
    let (sp, high) = (ENTRY - 16, u64::MAX - 15);
    for (codes, sp, fp, expected) in [
        // save_regp x19 at 8: the second word is past the known memory
        ([0xC8, 0x01, 0xE4, 0xE3], sp, 0, "Memory(1048576)"),
        // alloc_s 16 from the last 16 addresses
        (
            [0x01, 0xE4, 0xE3, 0xE3],
            high,
            0,
            "Address(18446744073709551600)",
        ),
        // add_fp 8 with x29 at 7
        ([0xE2, 0x01, 0xE4, 0xE3], sp, 7, "Address(7)"),
        // set_fp with x29 below the stack pointer
        ([0xE1, 0xE4, 0xE3, 0xE3], sp, sp - 16, "NotRising(1048544)"),
        // save_next before save_regp x27, whose next pair is x29 and lr, and one more
        ([0xE6, 0xCA, 0x00, 0xE4], sp, 0, "Memory(1048576)"),
        ([0xE6, 0xE6, 0xCA, 0x00], sp, 0, "Arm64Code(SaveNext)"),
    ] {
        let record = record_of(rt.alloc(), &codes)?;
        let result = step_at(&record, 0x40, changed(sp, &[(29, fp)]), &stack);
        let found = shown(rt.alloc(), &result.err())?;
        assert_eq!(rt; found, format!(in rt.alloc(); "Some({expected})")?);
    }
    // A code is truncated: alloc_l at 3, before the end of the codes. Its instruction has not run yet.
    let record = record_of(rt.alloc(), &[0x01, 0xE3, 0xE3, 0xE0])?;
    let result = step_at(&record, 0, changed(ENTRY, &[]), &stack);
    // shows: pe_frame/src/arm64/record.rt first_code Arm64Cut
    assert_matches!(rt; result => Err(FrameError::Codes(Error::Malformed(Reason::Arm64Cut(3)))));
    // What comes after the first `end` is not read.
    let record = record_of(rt.alloc(), &[0x01, 0xE4, 0xE3, 0xE0])?;
    let found = step_at(&record, 4, changed(ENTRY - 16, &[]), &stack)?;
    assert_eq!(rt; found, of_caller());
    Ok(())
}

/// stp x29,x30,[sp,#-48]!; stp x19,x20,[sp,#16]; str x21,[sp,#32]; mov x29,sp; sub sp,sp,#64; two instructions;
/// mov sp,x29; ldr x21,[sp,#32]; ldp x19,x20,[sp,#16]; ldp x29,x30,[sp],#48; ret; two instructions;
/// add sp,sp,#64; ldr x21,[sp,#32]; ldp x19,x20,[sp,#16]; ldp x29,x30,[sp],#48; ret; one instruction
const TWO_EPILOGS: [u8; 36] = [
    0x14, 0x00, 0x80, 0x30, 0x07, 0x00, 0x00, 0x02, 0x0E, 0x00, 0xC0, 0x03, 0x04, 0xE1, 0xD0, 0x84,
    0xC8, 0x02, 0x85, 0xE4, 0xE1, 0xD0, 0x84, 0xC8, 0x02, 0x85, 0xE4, 0x04, 0xD0, 0x84, 0xC8, 0x02,
    0x85, 0xE4, 0xE3, 0xE3,
];

#[test]
fn finishes_epilogs_by_their_scopes(rt: HostRuntime) -> Result<(), Fail> {
    let caller = of_caller();
    let x = caller.general;
    let words = [x[29], RETURN_ADDRESS, x[19], x[20], x[21], 0xDD];
    let bytes = bytes_of(rt.alloc(), &words)?;
    let base = ENTRY - 48;
    let stack = stack_at(base, &bytes);
    // The instruction that is about to run, the stack pointer there, and which registers are restored: x21, x19 and x20, x29
    // and the link register.
    for (place, sp, restored) in [
        (5, base - 64, 0),
        (7, base - 64, 0),
        (8, base, 0),
        (9, base, 1),
        (10, base, 2),
        (11, ENTRY, 3),
        (12, base - 64, 0),
        (13, base - 64, 0),
        (14, base - 64, 0),
        (15, base, 0),
        (16, base, 1),
        (17, base, 2),
        (18, ENTRY, 3),
        (19, base - 64, 0),
    ] {
        let mut registers = caller;
        registers.sp = sp;
        registers.pc = 1;
        if restored < 1 {
            registers.general[21] = 1;
        }
        if restored < 2 {
            registers.general[19] = 2;
            registers.general[20] = 3;
        }
        if restored < 3 {
            registers.general[29] = base;
            registers.general[LR] = 4;
        }
        let found = step_at(&TWO_EPILOGS, 4 * place, registers, &stack)?;
        assert_eq!(rt; found, caller);
    }
    Ok(())
}

/// str x19,[sp,#-32]!; str x30,[sp,#16]; sub sp,sp,#1024; three instructions; add sp,sp,#1024; ldr x30,[sp,#16];
/// ldr x19,[sp],#32; ret
const LAST_EPILOG: [u8; 12] = [
    0x0A, 0x00, 0x20, 0x10, 0xC0, 0x40, 0xD2, 0xC2, 0xD4, 0x03, 0xE4, 0xE3,
];

#[test]
fn finishes_the_epilog_at_the_end(rt: HostRuntime) -> Result<(), Fail> {
    let caller = of_caller();
    let words = [caller.general[19], 0xDD, RETURN_ADDRESS, 0xDD];
    let bytes = bytes_of(rt.alloc(), &words)?;
    let base = ENTRY - 32;
    let stack = stack_at(base, &bytes);
    let changes = [(19, 1), (LR, 2)];
    for (place, sp, changed_registers) in [
        (3, base - 1024, 2),
        (5, base - 1024, 2),
        (6, base - 1024, 2),
        (7, base, 2),
        (8, base, 1),
        (9, ENTRY, 0),
    ] {
        let registers = changed(sp, &changes[..changed_registers]);
        let found = step_at(&LAST_EPILOG, 4 * place, registers, &stack)?;
        assert_eq!(rt; found, caller);
    }
    Ok(())
}

/// A function of 64 instructions, with sub sp,sp,#16 and an epilog whose codes are truncated, or start past the end of the codes
/// so that it is a return alone.
#[test]
fn refuses_truncated_codes_of_an_epilog(rt: HostRuntime) -> Result<(), Fail> {
    let stack = stack_at(ENTRY, &[]);
    let truncated = [0x40, 0x00, 0xE0, 0x08, 0x01, 0xE4, 0xE3, 0xE0];
    let registers = changed(ENTRY - 16, &[]);
    let found = step_at(&truncated, 0, changed(ENTRY, &[]), &stack)?;
    assert_eq!(rt; found, of_caller());
    let result = step_at(&truncated, 4, registers, &stack);
    // shows: pe_frame/src/arm64/record.rt first_code Arm64Cut
    assert_matches!(rt; result => Err(FrameError::Codes(Error::Malformed(Reason::Arm64Cut(3)))));
    let past = [0x40, 0x00, 0xE0, 0x0F, 0x01, 0xE4, 0xE3, 0xE3];
    assert_eq!(rt; step_at(&past, 4 * 62, registers, &stack)?, of_caller());
    let found = step_at(&past, 4 * 63, changed(ENTRY, &[]), &stack)?;
    assert_eq!(rt; found, of_caller());
    assert_eq!(rt; step_at(&past, 4 * 64, registers, &stack)?, of_caller());
    Ok(())
}

/// A canonical prolog: packed unwind data, how far below the function's entry the stack pointer is after each instruction, which
/// registers are stored how far below it (x19 to x30, and d8 to d15 as 108 to 115), and whether x29 is set; and for each
/// instruction of the epilog how far below the entry the stack pointer is after it, and how many of the registers, from the first
/// on, are not restored. The functions have 64 instructions.
type Canonical = (u32, &'static [u64], &'static [u64], bool, &'static [u64]);

/// The instructions are those that llvm-readobj 14 prints of an object with this entry; the two with a signature, which it does
/// not know, are by hand from Microsoft's page, and those of x19 alone with the link register, which it calls invalid, are the
/// code that MSVC has for such an entry in a launcher of Python's setuptools (gui-arm64.exe, RVA 0x1E08). Their epilogs are the
/// same backwards, as the page says, without the instructions that set x29 and store x0 to x7.
const CANONICAL: [Canonical; 13] = [
    // sub sp,sp,#16; stp x19,lr,[sp]
    (
        0x00a10101,
        &[16, 16],
        &[16, 19, 8, 30],
        false,
        &[16, 0, 0, 0],
    ),
    // str x19,[sp,#-16]!
    (0x00810101, &[16], &[16, 19], false, &[0, 0]),
    // str lr,[sp,#-16]!; sub sp,sp,#4080; sub sp,sp,#32
    (
        0x81200101,
        &[16, 4096, 4128],
        &[16, 30],
        false,
        &[4096, 1, 16, 1, 0, 0],
    ),
    // stp x19,x20,[sp,#-32]!; stp x21,lr,[sp,#16]; sub sp,sp,#512
    (
        0x11230101,
        &[32, 32, 544],
        &[32, 19, 24, 20, 16, 21, 8, 30],
        false,
        &[32, 4, 32, 2, 0, 0],
    ),
    // stp x19,x20,[sp,#-48]!; str lr,[sp,#16]; stp d8,d9,[sp,#24]; str d10,[sp,#40]; sub sp,sp,#16
    (
        0x02224101,
        &[48, 48, 48, 48, 64],
        &[48, 19, 40, 20, 32, 30, 24, 108, 16, 109, 8, 110],
        false,
        &[48, 6, 48, 5, 48, 3, 48, 2, 0, 0],
    ),
    // stp d8,d9,[sp,#-64]!; stp d10,d11,[sp,#16]; stp d12,d13,[sp,#32]; stp d14,d15,[sp,#48]; sub sp,sp,#496
    (
        0x1180e101,
        &[64, 64, 64, 64, 560],
        &[
            64, 108, 56, 109, 48, 110, 40, 111, 32, 112, 24, 113, 16, 114, 8, 115,
        ],
        false,
        &[64, 8, 64, 6, 64, 4, 64, 2, 0, 0],
    ),
    // stp d8,d9,[sp,#-96]!; str d10,[sp,#16]; stp x0,x1,[sp,#24]; stp x2,x3,[sp,#40]; stp x4,x5,[sp,#56];
    // stp x6,x7,[sp,#72]
    (
        0x03104101,
        &[96, 96, 96, 96, 96, 96],
        &[96, 108, 88, 109, 80, 110],
        false,
        &[96, 2, 0, 0],
    ),
    // stp x0,x1,[sp,#-64]!; stp x2,x3,[sp,#16]; stp x4,x5,[sp,#32]; stp x6,x7,[sp,#48]; sub sp,sp,#4080
    (
        0x81900101,
        &[64, 64, 64, 64, 4144],
        &[],
        false,
        &[64, 0, 0, 0],
    ),
    // stp x19,x20,[sp,#-144]!; stp x21,x22,[sp,#16]; stp x23,x24,[sp,#32]; stp x25,x26,[sp,#48];
    // stp x27,x28,[sp,#64]; stp x0,x1,[sp,#80]; stp x2,x3,[sp,#96]; stp x4,x5,[sp,#112]; stp x6,x7,[sp,#128];
    // stp x29,lr,[sp,#-16]!; mov x29,sp
    (
        0x057a0101,
        &[144, 144, 144, 144, 144, 144, 144, 144, 144, 160, 160],
        &[
            144, 19, 136, 20, 128, 21, 120, 22, 112, 23, 104, 24, 96, 25, 88, 26, 80, 27, 72, 28,
            160, 29, 152, 30,
        ],
        true,
        &[144, 10, 144, 8, 144, 6, 144, 4, 144, 2, 0, 0],
    ),
    // stp x19,x20,[sp,#-144]!; stp x21,x22,[sp,#16]; stp x23,x24,[sp,#32]; stp x25,x26,[sp,#48];
    // str x27,[sp,#64]; stp d8,d9,[sp,#72]; stp d10,d11,[sp,#88]; stp d12,d13,[sp,#104]; stp d14,d15,[sp,#120];
    // sub sp,sp,#528; stp x29,lr,[sp,#0]; mov x29,sp
    (
        0x1569e101,
        &[144, 144, 144, 144, 144, 144, 144, 144, 144, 672, 672, 672],
        &[
            144, 19, 136, 20, 128, 21, 120, 22, 112, 23, 104, 24, 96, 25, 88, 26, 80, 27, 72, 108,
            64, 109, 56, 110, 48, 111, 40, 112, 32, 113, 24, 114, 16, 115, 672, 29, 664, 30,
        ],
        true,
        &[
            672, 17, 144, 17, 144, 15, 144, 13, 144, 11, 144, 9, 144, 8, 144, 6, 144, 4, 144, 2, 0,
            0,
        ],
    ),
    // sub sp,sp,#4080; sub sp,sp,#4096; stp x29,lr,[sp,#0]; mov x29,sp
    (
        0xffe00101,
        &[4080, 8176, 8176, 8176],
        &[8176, 29, 8168, 30],
        true,
        &[8176, 0, 4080, 0, 0, 0],
    ),
    // pacibsp; stp x19,x20,[sp,#-32]!; stp x21,x22,[sp,#16]; stp x29,lr,[sp,#-512]!; mov x29,sp
    (
        0x11440101,
        &[0, 32, 32, 544, 544],
        &[32, 19, 24, 20, 16, 21, 8, 22, 544, 29, 536, 30],
        true,
        &[32, 4, 32, 2, 0, 0, 0, 0],
    ),
    // pacibsp; str x19,[sp,#-32]!; stp d8,d9,[sp,#8]; sub sp,sp,#4080; sub sp,sp,#16; stp x29,lr,[sp,#0];
    // mov x29,sp
    (
        0x81412101,
        &[0, 32, 32, 4112, 4128, 4128, 4128],
        &[32, 19, 24, 108, 16, 109, 4128, 29, 4120, 30],
        true,
        &[4128, 3, 4112, 3, 32, 3, 32, 1, 0, 0, 0, 0],
    ),
];

/// A step in a function with packed unwind data, before the instruction of this index.
fn packed_step(
    data: u32,
    place: u32,
    registers: Arm64Registers,
    stack: &Stack<'_>,
) -> Result<Arm64Registers, FrameError> {
    let function = arm64_function(0x1000, data);
    step_arm64_packed(&function, 0x1000 + 4 * place, registers, stack)
}

/// The stack that a canonical prolog leaves, to a depth.
fn stored_words(
    alloc: Global,
    row: &Canonical,
    depth: u64,
    caller: &Arm64Registers,
) -> Result<Vec<u8>, AllocError> {
    let mut bytes = Vec::new(alloc);
    for i in 0..depth / 8 {
        let mut word = 0xDD;
        for pair in row.2.chunks(2) {
            if pair[0] == depth - 8 * i {
                let register = pair[1] as usize;
                word = if register < 31 {
                    caller.general[register]
                } else {
                    caller.float[(register - 108) % 8]
                };
            }
        }
        bytes.extend_from_slice(&u64::to_le_bytes(word))?;
    }
    Ok(bytes)
}

/// The registers in a body that changes what was stored, of which so many are not restored.
fn in_body(row: &Canonical, depth: u64, left: usize) -> Arm64Registers {
    let mut registers = changed(ENTRY - depth, &[]);
    for pair in row.2.chunks(2).take(left) {
        let register = pair[1] as usize;
        if register < 31 {
            registers.general[register] = 5;
        } else {
            registers.float[(register - 108) % 8] = 5;
        }
    }
    registers
}

/// A body in which the stack pointer is lower, if x29 has the frame.
fn lowered(row: &Canonical, depth: u64) -> Arm64Registers {
    let mut registers = in_body(row, depth, row.2.len());
    if row.3 {
        registers.general[29] = ENTRY - depth;
        registers.sp -= 64;
    }
    registers
}

#[test]
fn undoes_canonical_prologs(rt: HostRuntime) -> Result<(), Fail> {
    let caller = of_caller();
    for row in &CANONICAL {
        let count = row.1.len();
        let depth = row.1[count.max(1) - 1];
        let bytes = stored_words(rt.alloc(), row, depth, &caller)?;
        let stack = stack_at(ENTRY - depth, &bytes);
        assert_eq!(rt; packed_step(row.0, 0, changed(ENTRY, &[]), &stack)?, caller);
        for (i, below) in row.1.iter().enumerate() {
            let mut registers = changed(ENTRY - *below, &[]);
            if row.3 && i + 1 == count {
                registers.general[29] = registers.sp;
            }
            let place = i as u32 + 1;
            assert_eq!(rt; packed_step(row.0, place, registers, &stack)?, caller);
        }
        let registers = lowered(row, depth);
        let found = packed_step(row.0, count as u32, registers, &stack)?;
        assert_eq!(rt; found, caller);
        assert_eq!(rt; packed_step(row.0, 40, registers, &stack)?, caller);
        // A fragment has no prolog of its own.
        assert_eq!(rt; packed_step(row.0 + 1, 0, registers, &stack)?, caller);
        assert_eq!(rt; packed_step(row.0 + 1, 63, registers, &stack)?, caller);
        let start = 63 - row.4.len() as u32 / 2;
        assert_eq!(rt; packed_step(row.0, start - 1, registers, &stack)?, caller);
        for (i, pair) in row.4.chunks(2).enumerate() {
            let registers = in_body(row, pair[0], pair[1] as usize);
            let place = start + i as u32 + 1;
            assert_eq!(rt; packed_step(row.0, place, registers, &stack)?, caller);
        }
    }
    Ok(())
}

/// Flags 0 and 3; eleven integer registers; frames smaller than what is saved in them, x29 and the link register too.
#[test]
fn refuses_packed_data_without_a_canonical_prolog(rt: HostRuntime) -> Result<(), Fail> {
    let stack = stack_at(ENTRY, &[]);
    for data in [
        0x0080_0040,
        0x0080_0043,
        0x038B_0041,
        0x0083_0041,
        0x0102_6041,
        0x0060_0041,
        0x00E2_0041,
        0x00E2_0042,
    ] {
        let result = packed_step(data, 9, changed(ENTRY, &[]), &stack);
        assert!(rt; matches!(result, Err(FrameError::Packed(found)) if found == data));
    }
    Ok(())
}

#[test]
fn texts_of_errors(rt: HostRuntime) -> Result<(), Fail> {
    let error = FrameError::Arm64Code(pe_unwind::Arm64UnwindCode::SaveNext);
    let found = text(rt.alloc(), &error)?;
    assert_eq!(rt; found.as_str(), "unwind code cannot be undone: SaveNext");
    let error = FrameError::Packed(0x1003);
    assert_eq!(rt;
        text(rt.alloc(), &error)?.as_str(),
        "packed unwind data 0x1003 have no canonical prolog"
    );
    Ok(())
}
