//! Steps of a stack walk. Records and stacks are by hand, from the prologs of Microsoft's pages on x64: what is expected is
//! the state before the prolog, with the return address popped.

use crate::images::stack_at;
pub(crate) use crate::shared::bytes_of_words as bytes_of;
use pe_frame::{
    FrameError, FunctionPlan, Memory, Registers, Stack, Stopped, leaf, step, step_with_code,
};
use pe_unwind::UnwindInfo;
use std::alloc::{AllocError, Global};
use std::fmt::{Debug, Display};
use std::test::Fail;

/// The address of the return address, where each of these functions is entered.
const ENTRY: u64 = 0x2_0008;

pub(crate) const RETURN_ADDRESS: u64 = 0x7FF6_1234_5678;

pub(crate) const RBX: usize = 3;

pub(crate) const RSP: usize = 4;

pub(crate) const RBP: usize = 5;

const RSI: usize = 6;

const RDI: usize = 7;

const R14: usize = 14;

/// The registers of the caller: each has a number of its own.
fn of_caller() -> Registers {
    let mut registers = Registers {
        general: [0; 16],
        xmm: [0; 16],
        rip: RETURN_ADDRESS,
    };
    for (i, value) in registers.general.iter_mut().enumerate() {
        *value = 0xAAAA_0000 + i as u64;
    }
    for (i, value) in registers.xmm.iter_mut().enumerate() {
        *value = 0xBBBB_0000_0000_0000_CCCC_0000 + i as u128;
    }
    registers.general[RSP] = ENTRY + 8;
    registers
}

/// The same with other numbers in some integer registers, as a prolog or a body leaves them.
fn changed(changes: &[(usize, u64)]) -> Registers {
    let mut registers = of_caller();
    for (register, value) in changes {
        if *register < 16 {
            registers.general[*register] = *value;
        }
    }
    registers.rip = 0x1_4000_1000;
    registers
}

/// A step in a function with one record, at an offset in it.
fn step_at(
    record: &[u8],
    offset: u32,
    registers: Registers,
    stack: &Stack<'_>,
) -> Result<Registers, FrameError> {
    let info = UnwindInfo::parse(record, 0).map_err(FrameError::Codes)?;
    let records = [info];
    let plan = FunctionPlan {
        start: 0x1000,
        records: &records,
    };
    step(plan, 0x1000 + offset, registers, stack)
}

pub fn shown<T: Debug>(alloc: Global, value: &T) -> Result<String, AllocError> {
    format!(in alloc; "{value:?}")
}

pub(crate) fn text<T: Display>(alloc: Global, value: &T) -> Result<String, AllocError> {
    format!(in alloc; "{value}")
}

/// mov [rsp+8],rcx; push r15; push r14; push r13; sub rsp,256; lea r13,[rsp+128]: the prolog of the page, whose instructions
/// end at 5, 7, 9, 11, 18 and 26. The frame register is 13, and its offset 8 times 16.
#[test]
fn undoes_each_part_of_a_prolog(rt: HostRuntime) -> Result<(), Fail> {
    let record = [
        1, 26, 6, 0x8D, 26, 0x03, 18, 0x01, 32, 0, 11, 0xD0, 9, 0xE0, 7, 0xF0,
    ];
    let caller = of_caller();
    let r = caller.general;
    let words = [r[13], r[14], r[15], RETURN_ADDRESS];
    let bytes = bytes_of(rt.alloc(), &words)?;
    let stack = stack_at(ENTRY - 24, &bytes);
    for (offset, rsp) in [
        (0, ENTRY),
        (5, ENTRY),
        (6, ENTRY),
        (7, ENTRY - 8),
        (9, ENTRY - 16),
        (11, ENTRY - 24),
        (17, ENTRY - 24),
        (18, ENTRY - 280),
        (25, ENTRY - 280),
    ] {
        let found = step_at(&record, offset, changed(&[(RSP, rsp)]), &stack)?;
        assert_eq!(rt; found, caller);
    }
    // Once the frame register is set the body may move the stack pointer and use r14 and r15.
    for (offset, rsp) in [
        (26, ENTRY - 280),
        (26, ENTRY - 0x1000),
        (200, ENTRY - 0x8000),
    ] {
        let registers = changed(&[(RSP, rsp), (13, ENTRY - 280 + 128), (14, 0), (15, 1)]);
        assert_eq!(rt; step_at(&record, offset, registers, &stack)?, caller);
    }
    Ok(())
}

/// mov [rsp+8],rbx; push rdi; sub rsp,32: rbx lies in the home space of the caller, 48 bytes above the last stack pointer.
#[test]
fn reads_saves_of_the_home_space(rt: HostRuntime) -> Result<(), Fail> {
    let record = [1, 10, 4, 0, 10, 0x34, 6, 0, 10, 0x32, 6, 0x70];
    let caller = of_caller();
    let words = [caller.general[RDI], RETURN_ADDRESS, caller.general[RBX]];
    let bytes = bytes_of(rt.alloc(), &words)?;
    let stack = stack_at(ENTRY - 8, &bytes);
    let registers = changed(&[(RSP, ENTRY - 40), (RBX, 1), (RDI, 2)]);
    assert_eq!(rt; step_at(&record, 10, registers, &stack)?, caller);
    // After the push, at 6, rbx has its value still, though it is stored already.
    let registers = changed(&[(RSP, ENTRY - 8), (RDI, 2)]);
    assert_eq!(rt; step_at(&record, 6, registers, &stack)?, caller);
    Ok(())
}

/// push rbp; push rbx; sub rsp,72; lea rbp,[rsp+32]; movaps [rbp-16],xmm6; sub rsp,128, and a body that calls alloca. What is
/// saved counts from rbp - 32, which is ENTRY - 88.
#[test]
fn reads_xmm_registers_by_the_frame_register(rt: HostRuntime) -> Result<(), Fail> {
    let record = [
        1, 22, 8, 0x25, 22, 0x01, 16, 0, 15, 0x68, 1, 0, 11, 0x03, 6, 0x82, 2, 0x30, 1, 0x50,
    ];
    let caller = of_caller();
    let xmm6 = u128::to_le_bytes(caller.xmm[6]);
    let mut bytes = Vec::new(rt.alloc());
    bytes.extend_from_slice(&xmm6)?;
    let (rbx, rbp) = (caller.general[RBX], caller.general[RBP]);
    let words = [0, 0, 0, 0, 0, rbx, rbp, RETURN_ADDRESS];
    bytes.extend_from_slice(&bytes_of(rt.alloc(), &words)?)?;
    let stack = stack_at(ENTRY - 72, &bytes);
    let mut registers = changed(&[(RSP, 0x1000), (RBP, ENTRY - 56), (RBX, 0)]);
    registers.xmm[6] = 1;
    assert_eq!(rt; step_at(&record, 22, registers, &stack)?, caller);
    Ok(())
}

/// push rbp; sub rsp,72; mov [rsp+64],rbx; lea rbp,[rsp+32]: until the last instruction, which ends at 15, the save counts from
/// rsp, and rbp is the caller's.
#[test]
fn counts_from_rsp_until_the_frame_register_is_set(rt: HostRuntime) -> Result<(), Fail> {
    let record = [
        1, 15, 5, 0x25, 15, 0x03, 10, 0x34, 8, 0, 5, 0x82, 1, 0x50, 0, 0,
    ];
    let caller = of_caller();
    let words = [caller.general[RBX], caller.general[RBP], RETURN_ADDRESS];
    let bytes = bytes_of(rt.alloc(), &words)?;
    let stack = stack_at(ENTRY - 16, &bytes);
    for (offset, rsp, rbp) in [
        (10, ENTRY - 80, caller.general[RBP]),
        (15, ENTRY - 0x1000, ENTRY - 48),
    ] {
        let registers = changed(&[(RSP, rsp), (RBP, rbp), (RBX, 1)]);
        assert_eq!(rt; step_at(&record, offset, registers, &stack)?, caller);
    }
    Ok(())
}

/// An interrupt pushed ss, rsp, flags, cs and rip, and perhaps an error code. Its stack may lie above the one it stopped.
#[test]
fn takes_rip_and_rsp_of_machine_frames(rt: HostRuntime) -> Result<(), Fail> {
    let words = [0xE, RETURN_ADDRESS, 0x33, 0x246, 0x5000, 0x2B];
    let bytes = bytes_of(rt.alloc(), &words)?;
    let stack = stack_at(0x9000, &bytes);
    for (info, rsp) in [(0x1A, 0x9000), (0x0A, 0x9008)] {
        let mut expected = changed(&[(RSP, 0x5000)]);
        expected.rip = RETURN_ADDRESS;
        let found = step_at(&[1, 0, 1, 0, 0, info], 0, changed(&[(RSP, rsp)]), &stack)?;
        assert_eq!(rt; found, expected);
    }
    Ok(())
}

/// push rdi; sub rsp,32, and a part of that function with mov [rsp+16],rbx, whose record is chained to the function's.
#[test]
fn undoes_chained_records_whole(rt: HostRuntime) -> Result<(), Fail> {
    let part = [
        0x21, 5, 2, 0, 5, 0x34, 2, 0, 0, 0x10, 0, 0, 0x20, 0x10, 0, 0, 0, 0x30, 0, 0,
    ];
    let root = [1, 5, 2, 0, 5, 0x32, 1, 0x70];
    let caller = of_caller();
    let (rbx, rdi) = (caller.general[RBX], caller.general[RDI]);
    let words = [0, 0, rbx, 0, rdi, RETURN_ADDRESS];
    let bytes = bytes_of(rt.alloc(), &words)?;
    let stack = stack_at(ENTRY - 40, &bytes);
    // At its start the part has saved nothing, and all of the function's own prolog has run.
    for (offset, rbx) in [(0, caller.general[RBX]), (5, 1)] {
        let records = [UnwindInfo::parse(&part, 0)?, UnwindInfo::parse(&root, 0)?];
        let plan = FunctionPlan {
            start: 0x1100,
            records: &records,
        };
        let registers = changed(&[(RSP, ENTRY - 40), (RBX, rbx), (RDI, 2)]);
        let found = step(plan, 0x1100 + offset, registers, &stack);
        assert_eq!(rt; found?, caller);
    }
    Ok(())
}

/// Each error with its number: the record, the registers that are not the caller's, and both texts.
#[test]
fn reports_why_a_step_is_refused(rt: HostRuntime) -> Result<(), Fail> {
    let alloc = rt.alloc();
    let bytes = bytes_of(alloc, &[1, 2, 3, 4])?;
    let stack = stack_at(0x1000, &bytes);
    let rows: [(&[u8], &[(usize, u64)], &str, &str); 10] = [
        // A code of an opcode that there is not, though it is after the offset.
        (
            &[1, 9, 1, 0, 9, 0x4B],
            &[],
            "Codes(Malformed(UnwindCode(75)))",
            "invalid unwind code 0x4b",
        ),
        // push rbx, whose word is below the stack's bytes; and the return address after it, above them.
        (
            &[1, 0, 1, 0, 0, 0x30],
            &[(RSP, 0xFF8)],
            "Memory(4088)",
            "no memory at address 0xff8",
        ),
        (
            &[1, 0, 1, 0, 0, 0x30],
            &[(RSP, 0x1018)],
            "Memory(4128)",
            "no memory at address 0x1020",
        ),
        // The high half of an XMM register 16 bytes above the stack pointer.
        (
            &[1, 0, 2, 0, 0, 0x68, 1, 0],
            &[(RSP, 0x1008)],
            "Memory(4128)",
            "no memory at address 0x1020",
        ),
        // sub rsp,16 and the last address but 15; rbx saved 8 bytes above it.
        (
            &[1, 0, 1, 0, 0, 0x12],
            &[(RSP, 0xFFFF_FFFF_FFFF_FFF0)],
            "Address(18446744073709551600)",
            "address 0xfffffffffffffff0 and the offset of an unwind code do not fit 64 bits",
        ),
        (
            &[1, 0, 2, 0, 0, 0x34, 1, 0],
            &[(RSP, 0xFFFF_FFFF_FFFF_FFF8)],
            "Address(18446744073709551608)",
            "address 0xfffffffffffffff8 and the offset of an unwind code do not fit 64 bits",
        ),
        // lea rbp,[rsp+32] and 31 in rbp.
        (
            &[1, 0, 1, 0x25, 0, 0x03],
            &[(RBP, 31)],
            "Address(31)",
            "address 0x1f and the offset of an unwind code do not fit 64 bits",
        ),
        // SetFPRegister without a frame register; the low half of xmm6.
        (
            &[1, 0, 1, 0, 0, 0x03],
            &[],
            "Operation(SetFPRegister)",
            "unwind operation cannot be undone: SetFPRegister",
        ),
        (
            &[1, 0, 2, 0, 0, 0x66, 1, 0],
            &[],
            "Operation(SaveXMM(Register(23), RSP(16)))",
            "unwind operation cannot be undone: SaveXMM(Register(23), RSP(16))",
        ),
        // lea rbp,[rsp+32] at 0x1010, which is below the stack pointer.
        (
            &[1, 0, 1, 0x25, 0, 0x03],
            &[(RBP, 0x1030), (RSP, 0x1018)],
            "NotRising(4120)",
            "stack pointer 0x1018 of the caller is not above that of the function",
        ),
    ];
    for (record, changes, of_debug, of_display) in rows {
        let found = step_at(record, 0, changed(changes), &stack);
        let error = found.err().ok_or("a step that is to be refused")?;
        assert_eq!(rt; shown(alloc, &error)?.as_str(), of_debug);
        assert_eq!(rt; text(alloc, &error)?.as_str(), of_display);
    }
    // One byte more, and the caller's stack pointer is above.
    let registers = changed(&[(RBP, 0x1030), (RSP, 0x1017)]);
    let found = step_at(&[1, 0, 1, 0x25, 0, 0x03], 0, registers, &stack)?;
    assert_eq!(rt; (found.rip, found.general[RSP]), (3, 0x1018));
    Ok(())
}

/// A record that names rbp and does not set it belongs to a part of a function that has set it: the save counts from rbp.
#[test]
fn counts_from_a_frame_register_that_is_set(rt: HostRuntime) -> Result<(), Fail> {
    let bytes = bytes_of(rt.alloc(), &[9, 5, RETURN_ADDRESS])?;
    let stack = stack_at(0x1000, &bytes);
    let registers = changed(&[(RBP, 0x1020), (RSP, 0x1010)]);
    let found = step_at(&[1, 0, 2, 0x25, 0, 0x34, 1, 0], 0, registers, &stack)?;
    assert_eq!(rt; (found.general[RBX], found.general[RSP]), (5, 0x1018));
    Ok(())
}

/// The last bytes pass the last address: no word has them.
#[test]
fn has_no_word_past_the_last_address(rt: HostRuntime) -> Result<(), Fail> {
    let bytes = bytes_of(rt.alloc(), &[0x1111, 0x2222])?;
    let stack = stack_at(u64::MAX - 11, &bytes);
    assert_eq!(rt; stack.u64_at(u64::MAX - 11), Some(0x1111));
    assert_eq!(rt; stack.u64_at(u64::MAX - 7), Some(0x2222_0000_0000));
    for address in [0, 4, u64::MAX - 12, u64::MAX - 6, u64::MAX] {
        assert_eq!(rt; stack.u64_at(address), None);
    }
    let found = shown(
        rt.alloc(),
        &leaf(changed(&[(RSP, u64::MAX - 7)]), &stack).err(),
    )?;
    assert_eq!(rt; found.as_str(), "Some(Address(18446744073709551608))");
    Ok(())
}

/// A step in a function with one record, at an offset in it, from which on it has this code. The bytes of all epilogs are
/// those that GNU as 2.40 makes of the instructions beside them.
fn step_in(
    record: &[u8],
    offset: u32,
    code: &[u8],
    registers: Registers,
    stack: &Stack<'_>,
) -> Result<Registers, FrameError> {
    let info = UnwindInfo::parse(record, 0).map_err(FrameError::Codes)?;
    let records = [info];
    let plan = FunctionPlan {
        start: 0x1000,
        records: &records,
    };
    let stopped = Stopped {
        rva: 0x1000 + offset,
        code,
    };
    step_with_code(plan, stopped, registers, stack)
}

/// push rbx; push rsi; push r14; sub rsp,32, whose instructions end at 1, 2, 4 and 8.
const THREE_PUSHES: [u8; 12] = [1, 8, 4, 0, 8, 0x32, 4, 0xE0, 2, 0x60, 1, 0x30];

/// push rbx.
const ONE_PUSH: [u8; 6] = [1, 1, 1, 0, 1, 0x30];

#[test]
fn runs_the_rest_of_epilogs(rt: HostRuntime) -> Result<(), Fail> {
    // add rsp,0x20; pop r14; pop rsi; pop rbx; ret
    let code = [0x48, 0x83, 0xC4, 0x20, 0x41, 0x5E, 0x5E, 0x5B, 0xC3];
    let caller = of_caller();
    let r = caller.general;
    let (rbx, rsi, r14) = (r[RBX], r[RSI], r[R14]);
    let bytes = bytes_of(rt.alloc(), &[r14, rsi, rbx, RETURN_ADDRESS])?;
    let stack = stack_at(ENTRY - 24, &bytes);
    let rows: [(usize, [(usize, u64); 4]); 5] = [
        (0, [(RSP, ENTRY - 56), (RBX, 1), (RSI, 2), (R14, 3)]),
        (4, [(RSP, ENTRY - 24), (RBX, 1), (RSI, 2), (R14, 3)]),
        (6, [(RSP, ENTRY - 16), (RBX, 1), (RSI, 2), (R14, r14)]),
        (7, [(RSP, ENTRY - 8), (RBX, 1), (RSI, rsi), (R14, r14)]),
        (8, [(RSP, ENTRY), (RBX, rbx), (RSI, rsi), (R14, r14)]),
    ];
    for (i, changes) in rows {
        let offset = 0x40 + i as u32;
        let found = step_in(&THREE_PUSHES, offset, &code[i..], changed(&changes), &stack)?;
        assert_eq!(rt; found, caller);
    }
    // In the prolog, at 4, the pushes are undone, whatever the bytes: pop rbx; ret
    let registers = changed(&[(RSP, ENTRY - 24), (RBX, 1), (RSI, 2), (R14, 3)]);
    let found = step_in(&THREE_PUSHES, 4, &[0x5B, 0xC3], registers, &stack)?;
    assert_eq!(rt; found, caller);
    Ok(())
}

/// push r; sub rsp,48; lea r,[rsp+32] for r of rbp, r13 and r12. The registers are such that the codes would lead elsewhere.
#[test]
fn frees_the_stack_by_the_frame_register(rt: HostRuntime) -> Result<(), Fail> {
    let caller = of_caller();
    let rows: [(u8, &[u8], u64); 7] = [
        // lea rsp,[rbp+0x18]; pop rbp; ret, then -0x8, 0x200 and -0x200
        (5, &[0x48, 0x8D, 0x65, 0x18, 0x5D, 0xC3], ENTRY - 0x20),
        (5, &[0x48, 0x8D, 0x65, 0xF8, 0x5D, 0xC3], ENTRY),
        (
            5,
            &[0x48, 0x8D, 0xA5, 0x00, 0x02, 0x00, 0x00, 0x5D, 0xC3],
            ENTRY - 0x208,
        ),
        (
            5,
            &[0x48, 0x8D, 0xA5, 0x00, 0xFE, 0xFF, 0xFF, 0x5D, 0xC3],
            ENTRY + 0x1F8,
        ),
        // lea rsp,[r13+0x18]; pop r13; ret, and r12 with 0x18 and 0x200
        (
            13,
            &[0x49, 0x8D, 0x65, 0x18, 0x41, 0x5D, 0xC3],
            ENTRY - 0x20,
        ),
        (
            12,
            &[0x49, 0x8D, 0x64, 0x24, 0x18, 0x41, 0x5C, 0xC3],
            ENTRY - 0x20,
        ),
        (
            12,
            &[
                0x49, 0x8D, 0xA4, 0x24, 0x00, 0x02, 0x00, 0x00, 0x41, 0x5C, 0xC3,
            ],
            ENTRY - 0x208,
        ),
    ];
    for (register, code, value) in rows {
        let r = usize::from(register);
        let bytes = bytes_of(rt.alloc(), &[caller.general[r], RETURN_ADDRESS])?;
        let stack = stack_at(ENTRY - 8, &bytes);
        let (frame, push) = (0x20 + register, register * 16);
        let record = [1, 10, 3, frame, 10, 0x03, 5, 0x52, 1, push];
        let registers = changed(&[(RSP, ENTRY - 0x1000), (r, value)]);
        assert_eq!(rt; step_in(&record, 0x40, code, registers, &stack)?, caller);
    }
    Ok(())
}

/// Where the bytes are the rest of an epilog, rbx is popped already: the return address is the first of the two words. By the
/// codes rbx is the first, and the return address the second.
fn is_epilog(alloc: Global, offset: u32, code: &[u8]) -> Result<bool, Fail> {
    let bytes = bytes_of(alloc, &[RETURN_ADDRESS, 0x77])?;
    let stack = stack_at(ENTRY, &bytes);
    let found = step_in(&ONE_PUSH, offset, code, changed(&[(RSP, ENTRY)]), &stack)?;
    Ok(found.rip == RETURN_ADDRESS)
}

#[test]
fn knows_the_forms_of_epilogs(rt: HostRuntime) -> Result<(), Fail> {
    let rows: [(&[u8], bool); 46] = [
        // ret; rep ret; bnd ret; bnd ret 16; the first bytes of rep ret, bnd ret and bnd ret 16; bnd call rax
        (&[0xC3], true),
        (&[0xF3, 0xC3], true),
        (&[0xF2, 0xC3], true),
        (&[0xF2, 0xC2, 0x10, 0], true),
        (&[0xF3], false),
        (&[0xF2], false),
        (&[0xF2, 0xC2, 0x10], false),
        (&[0xF2, 0xFF, 0xD0], false),
        // jmp [rip+0x1234]; rex.W jmp [rip+0x1234]; rex.W jmp [rax]; rex.W jmp rax; rex.W jmp [rax+0x18];
        // rex.WB jmp [r8+0x200]; rex.WXB jmp [r12+r13*8]; rex.WRXB jmp r15
        (&[0xFF, 0x25, 0x34, 0x12, 0, 0], true),
        (&[0x48, 0xFF, 0x25, 0x34, 0x12, 0, 0], true),
        (&[0x48, 0xFF, 0x20], true),
        (&[0x48, 0xFF, 0xE0], true),
        (&[0x48, 0xFF, 0x60, 0x18], true),
        (&[0x49, 0xFF, 0xA0, 0, 2, 0, 0], true),
        (&[0x4B, 0xFF, 0x24, 0xEC], true),
        (&[0x4F, 0xFF, 0xE7], true),
        // As a switch does: jmp rax; jmp r11; jmp [rax]; jmp [rax*8+0x40]; jmp [rax+8]; rex.RXB jmp r15
        (&[0xFF, 0xE0], false),
        (&[0x41, 0xFF, 0xE3], false),
        (&[0xFF, 0x20], false),
        (&[0xFF, 0x24, 0xC5, 0x40, 0, 0, 0], false),
        (&[0xFF, 0x60, 0x08], false),
        (&[0x47, 0xFF, 0xE7], false),
        // add rsp,0 before jmp rax; jmp r11; jmp [rax]; jmp [rax*8+0x40]; jmp [rax+8]; jmp [rax+0x200]; jmp [r11+8]; call [rax+8];
        // rex.RXB jmp r15
        (&[0x48, 0x83, 0xC4, 0, 0xFF, 0xE0], true),
        (&[0x48, 0x83, 0xC4, 0, 0x41, 0xFF, 0xE3], true),
        (&[0x48, 0x83, 0xC4, 0, 0xFF, 0x20], true),
        (
            &[0x48, 0x83, 0xC4, 0, 0xFF, 0x24, 0xC5, 0x40, 0, 0, 0],
            true,
        ),
        (&[0x48, 0x83, 0xC4, 0, 0xFF, 0x60, 0x08], true),
        (&[0x48, 0x83, 0xC4, 0, 0xFF, 0xA0, 0, 2, 0, 0], true),
        (&[0x48, 0x83, 0xC4, 0, 0x41, 0xFF, 0x63, 0x08], true),
        (&[0x48, 0x83, 0xC4, 0, 0xFF, 0x50, 0x08], false),
        (&[0x48, 0x83, 0xC4, 0, 0x47, 0xFF, 0xE7], false),
        // call [rax]; rex.W call rax; rex.W jmp far [rax]
        (&[0xFF, 0x10], false),
        (&[0x48, 0xFF, 0xD0], false),
        (&[0x48, 0xFF, 0x28], false),
        // pop rsp; ret. add rsp,-16; ret. sub rsp,-128; ret. lea rsp,[rsp+0x20]; ret. lea rsp,[rbp+0x10]; ret
        (&[0x5C, 0xC3], false),
        (&[0x48, 0x83, 0xC4, 0xF0, 0xC3], false),
        (&[0x48, 0x83, 0xEC, 0x80, 0xC3], false),
        (&[0x48, 0x8D, 0x64, 0x24, 0x20, 0xC3], false),
        (&[0x48, 0x8D, 0x65, 0x10, 0xC3], false),
        // No bytes; truncated pop r8, ret 16, jmp, jmp [..], add and lea
        (&[], false),
        (&[0x41], false),
        (&[0xC2, 0x10], false),
        (&[0xE9, 0, 0, 0], false),
        (&[0x48, 0xFF], false),
        (&[0x48, 0x83, 0xC4], false),
        // add rsp,0x20, which no ret follows
        (&[0x48, 0x83, 0xC4, 0x20], false),
    ];
    for (code, expected) in rows {
        assert_eq!(rt; is_epilog(rt.alloc(), 0x40, code)?, expected);
    }
    // pop rsi; jmp rax, which pops rsi and not rbx
    let bytes = bytes_of(rt.alloc(), &[0x77, RETURN_ADDRESS])?;
    let stack = stack_at(ENTRY, &bytes);
    let code = [0x5E, 0xFF, 0xE0];
    let registers = changed(&[(RSP, ENTRY), (RBX, 3)]);
    let found = step_in(&ONE_PUSH, 0x40, &code, registers, &stack)?;
    let own = (found.general[RSI], found.general[RBX], found.rip);
    assert_eq!(rt; own, (0x77, 3, RETURN_ADDRESS));
    Ok(())
}

#[test]
fn jumps_leave_the_function_or_stay(rt: HostRuntime) -> Result<(), Fail> {
    let rows: [(u32, &[u8], bool); 7] = [
        // At 4 jmp -0x20; at 6 jmp 0, the start, and jmp 1; at 8 jmp 0x10, in functions of 16 bytes and of 17
        (4, &[0xEB, 0xDA], true),
        (6, &[0xEB, 0xF8], true),
        (6, &[0xEB, 0xF9], false),
        (8, &[0xEB, 0x06, 0x90, 0x90, 0x90, 0x90, 0x90, 0x90], true),
        (
            8,
            &[0xEB, 0x06, 0x90, 0x90, 0x90, 0x90, 0x90, 0x90, 0x90],
            false,
        ),
        // At 0x10c jmp 0x300; at 0x111 jmp -0x10
        (0x10C, &[0xE9, 0xEF, 0x01, 0, 0], true),
        (0x111, &[0xE9, 0xDA, 0xFE, 0xFF, 0xFF], true),
    ];
    for (offset, code, expected) in rows {
        assert_eq!(rt; is_epilog(rt.alloc(), offset, code)?, expected);
    }
    // A part of the function at 0x1000 to 0x1020: at 0x1105 jmp 0x1010, which stays in it; at 0x110a jmp 0x1020; at 0x110f
    // jmp 0x1000, the start of the function; at 0x1114 jmp 0x1100, the start of the part, which stays.
    let part = [
        0x21, 0, 0, 0, 0, 0x10, 0, 0, 0x20, 0x10, 0, 0, 0, 0x30, 0, 0,
    ];
    let bytes = bytes_of(rt.alloc(), &[RETURN_ADDRESS, 0x77])?;
    let stack = stack_at(ENTRY, &bytes);
    for (rva, code, rip) in [
        (0x1105, [0xE9, 0x06, 0xFF, 0xFF, 0xFF], 0x77),
        (0x110A, [0xE9, 0x11, 0xFF, 0xFF, 0xFF], RETURN_ADDRESS),
        (0x110F, [0xE9, 0xEC, 0xFE, 0xFF, 0xFF], RETURN_ADDRESS),
        (0x1114, [0xE9, 0xE7, 0xFF, 0xFF, 0xFF], 0x77),
    ] {
        let records = [
            UnwindInfo::parse(&part, 0)?,
            UnwindInfo::parse(&ONE_PUSH, 0)?,
        ];
        let plan = FunctionPlan {
            start: 0x1100,
            records: &records,
        };
        let stopped = Stopped { rva, code: &code };
        let registers = changed(&[(RSP, ENTRY)]);
        let found = step_with_code(plan, stopped, registers, &stack)?;
        assert_eq!(rt; found.rip, rip);
    }
    Ok(())
}

/// Numbers of returns, the most pops, and each refusal in an epilog.
#[test]
fn ends_epilogs_with_the_caller_or_an_error(rt: HostRuntime) -> Result<(), Fail> {
    let alloc = rt.alloc();
    let bytes = bytes_of(alloc, &[2; 17])?;
    let stack = stack_at(0x1000, &bytes);
    // ret 16
    let registers = changed(&[(RSP, 0x1000)]);
    let found = step_in(&ONE_PUSH, 0x40, &[0xC2, 0x10, 0x00], registers, &stack)?;
    assert_eq!(rt; (found.rip, found.general[RSP]), (2, 0x1018));
    // 16 times pop rax, and 17 times, where the code of the prolog is undone: pop rbx, and the return address
    let mut code = [0x58; 18];
    code[16] = 0xC3;
    let found = step_in(&ONE_PUSH, 0x40, &code, registers, &stack)?;
    assert_eq!(rt; found.general[RSP], 0x1088);
    code[16] = 0x58;
    code[17] = 0xC3;
    let found = step_in(&ONE_PUSH, 0x40, &code, registers, &stack)?;
    assert_eq!(rt; found.general[RSP], 0x1010);
    let framed = [1, 10, 3, 0x25, 10, 0x03, 5, 0x52, 1, 0x50];
    let rows: [(&[u8], &[(usize, u64)], &str); 5] = [
        // pop rbx; ret, below the stack's bytes and at the last word of them
        (&[0x5B, 0xC3], &[(RSP, 0xFF8)], "Memory(4088)"),
        (&[0x5B, 0xC3], &[(RSP, 0x1080)], "Memory(4232)"),
        // add rsp,0x20; ret at the last address but 15
        (
            &[0x48, 0x83, 0xC4, 0x20, 0xC3],
            &[(RSP, 0xFFFF_FFFF_FFFF_FFF0)],
            "Address(18446744073709551600)",
        ),
        // lea rsp,[rbp+0x10]; pop rbp; ret, to the stack pointer; and around address 0, to the last word
        (
            &[0x48, 0x8D, 0x65, 0x10, 0x5D, 0xC3],
            &[(RBP, 0xFF0), (RSP, 0x1010)],
            "NotRising(4112)",
        ),
        (
            &[0x48, 0x8D, 0x65, 0xF8, 0x5D, 0xC3],
            &[(RBP, 0), (RSP, 0x1010)],
            "Memory(18446744073709551608)",
        ),
    ];
    for (code, changes, expected) in rows {
        let found = step_in(&framed, 0x40, code, changed(changes), &stack);
        let error = found.err().ok_or("a step that is to be refused")?;
        assert_eq!(rt; shown(alloc, &error)?.as_str(), expected);
    }
    Ok(())
}
