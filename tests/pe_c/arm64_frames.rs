//! Steps of a stack walk on ARM64. The unwind data are those of the tests of pe_frame: records that clang makes, and packed
//! data whose prolog llvm-readobj prints. Stacks are by hand: what is expected is the state at the function's entry.

use super::made::*;
use super::stack_frames::{
    AFTER_CALL, BASE, BOTTOM, BOUND, NO_ADDRESS, RECORDS, RETURN_ADDRESS, STACK, STEP, TOP, ZERO,
    module,
};
use super::steps::pe_c_next_arm64_frame;
use crate::arm64::{pe_c_next_arm64_frames, pe_c_step_arm64};
use calls_base::results::{BAD_ADDRESS, BAD_OPERATION, MISSING, NOT_RISING};
use calls_stacks::arm64::frames::{Arm64FrameRegisters, Arm64StackFrame};
use calls_stacks::arm64::stack_walk::Arm64StackWalk;
use calls_stacks::stack::walk::ModuleView;
use pe_images::image as bytes_of;
use pe_unwind::Arm64RuntimeFunction;

/// The stack pointer where each of these functions is entered.
const ENTRY: u64 = 0x10_0000;

pub(crate) const LR: usize = 30;

/// The registers of the caller: each has a number of its own.
fn of_caller() -> Arm64FrameRegisters {
    let mut registers = Arm64FrameRegisters {
        general: [0; 31],
        floats: [0; 8],
        sp: ENTRY,
        pc: RETURN_ADDRESS,
    };
    for (i, value) in registers.general.iter_mut().enumerate() {
        *value = 0xAAAA_0000 + i as u64;
    }
    for (i, value) in registers.floats.iter_mut().enumerate() {
        *value = 0xBBBB_0000 + i as u64;
    }
    registers.general[LR] = RETURN_ADDRESS;
    registers
}

/// The same with other numbers in some integer registers, and another stack pointer, as a prolog or a body leaves them.
fn changed(sp: u64, changes: &[(usize, u64)]) -> Arm64FrameRegisters {
    let mut registers = of_caller();
    for (register, value) in changes {
        if *register < 31 {
            registers.general[*register] = *value;
        }
    }
    registers.sp = sp;
    registers.pc = 0x1_4000_5000;
    registers
}

/// A frame in the function from 0x5000 on with these unwind data, so many instructions in it.
fn frame_at(unwind_data: u32, place: u32, registers: Arm64FrameRegisters) -> Arm64StackFrame {
    Arm64StackFrame {
        registers,
        address: NO_ADDRESS,
        function: Arm64RuntimeFunction {
            begin_address: 0x5000,
            unwind_data,
        },
        rva: 0x5000 + 4 * place,
        leaf: 0,
        interrupted: 0x55,
        spare: 0x66,
    }
}

/// The same after a step to a caller that has called.
fn left_at(unwind_data: u32, place: u32, registers: Arm64FrameRegisters) -> Arm64StackFrame {
    let mut frame = frame_at(unwind_data, place, registers);
    frame.interrupted = 0;
    frame
}

/// A table of one function at 0x1000, and records from 0x1010 on.
fn with_records(alloc: Global) -> Result<Vec<u8>, AllocError> {
    bytes_of(
        alloc,
        0x400,
        &[
            (0, &[0, 0x50, 0, 0, 0x10, 0x10]),
            // stp x29,x30,[sp,#-256]!; stp d8,d9,[sp,#224]; stp x19,x20,[sp,#240]; mov x29,sp; sub sp,sp,#512
            (
                0x10,
                &[
                    0x0B, 0x00, 0xA0, 0x18, 0xC0, 0x20, 0xE1, 0xC8, 0x1E, 0xD8, 0x1C, 0x9F, 0xE4,
                    0xE3, 0xE3, 0xE3,
                ],
            ),
            // str x19,[sp,#-32]!; str x30,[sp,#16]; sub sp,sp,#1024; three instructions, and an epilog at the end
            (
                0x20,
                &[
                    0x0A, 0x00, 0x20, 0x10, 0xC0, 0x40, 0xD2, 0xC2, 0xD4, 0x03, 0xE4, 0xE3,
                ],
            ),
            // functions of 1,024 instructions: a frame of the operating system's own; set_fp; a code that is truncated
            (0x30, &[0, 4, 0x20, 8, 0xE8, 0xE4, 0xE3, 0xE3]),
            (0x40, &[0, 4, 0x20, 8, 0xE1, 0xE4, 0xE3, 0xE3]),
            (0x50, &[0, 4, 0x20, 8, 0x01, 0xE3, 0xE3, 0xE0]),
            // a version of 1
            (0x60, &[0, 4, 0x24, 8, 0xE4, 0xE3, 0xE3, 0xE3]),
            // a frame that the processor pushed, and the mark of a call that is cleared
            (0x70, &[0, 4, 0x20, 8, 0xE9, 0xE4, 0xE3, 0xE3]),
            (0x80, &[0, 4, 0x20, 8, 0xEC, 0xE4, 0xE3, 0xE3]),
        ],
    )
}

/// A step over pieces of memory. No directory of the image is read.
fn step_over(
    bytes: &[u8],
    memory: &[u8],
    pieces: &[MemoryPiece],
    frame: &mut Arm64StackFrame,
) -> u32 {
    let (image, sections) = (image(ARM64), sections());
    let view = view(bytes, &image, &sections);
    pe_c_step_arm64(&view, memory, pieces, frame)
}

/// A step over the bytes of a stack from an address on.
fn step(bytes: &[u8], stack: (u64, &[u8]), frame: &mut Arm64StackFrame) -> u32 {
    let whole = piece_at(stack.0, 0, stack.1.len() as u64);
    step_over(bytes, stack.1, &[whole], frame)
}

/// Every register is that of the caller; nothing else of the frame changes.
#[test]
fn steps_undo_a_prolog(rt: HostRuntime) -> Result<(), Fail> {
    let bytes = with_records(rt.alloc())?;
    let caller = of_caller();
    let mut words = [0xDD; 32];
    words[0] = caller.general[29];
    words[1] = RETURN_ADDRESS;
    words[28] = caller.floats[0];
    words[29] = caller.floats[1];
    words[30] = caller.general[19];
    words[31] = caller.general[20];
    let stack = bytes_of_words(rt.alloc(), &words)?;
    let start = ENTRY - 256;
    let mut registers = changed(start - 512, &[(19, 1), (20, 2), (29, start), (LR, 3)]);
    registers.floats[0] = 4;
    registers.floats[1] = 5;
    let mut frame = frame_at(0x1010, 5, registers);
    assert_eq!(rt; step(&bytes, (start, &stack), &mut frame), DONE);
    let wanted = left_at(0x1010, 5, caller);
    assert_eq!(rt; raw(&frame), raw(&wanted));
    // Before the first instruction nothing has run.
    let mut frame = frame_at(0x1010, 0, changed(ENTRY, &[]));
    assert_eq!(rt; step(&bytes, (start, &[]), &mut frame), DONE);
    assert_eq!(rt; raw(&frame.registers), raw(&caller));
    // Before the last load of an epilog.
    let words = bytes_of_words(rt.alloc(), &[caller.general[19]])?;
    let mut frame = frame_at(0x1020, 8, changed(ENTRY - 32, &[(19, 1)]));
    assert_eq!(rt; step(&bytes, (ENTRY - 32, &words), &mut frame), DONE);
    assert_eq!(rt; raw(&frame.registers), raw(&caller));
    Ok(())
}

/// A step says where no call left the caller. A pushed frame has its stack pointer and its instruction pointer.
#[test]
fn steps_tell_interrupts(rt: HostRuntime) -> Result<(), Fail> {
    let bytes = with_records(rt.alloc())?;
    let stack = bytes_of_words(rt.alloc(), &[0x7_0000, 0x1_2345])?;
    let registers = changed(ENTRY, &[]);
    let mut pushed = registers;
    pushed.sp = 0x7_0000;
    pushed.pc = 0x1_2345;
    for (data, caller) in [(0x1070, pushed), (0x1080, of_caller())] {
        let mut frame = frame_at(data, 9, registers);
        let found = step(&bytes, (ENTRY, &stack), &mut frame);
        assert_eq!(rt; found, DONE, "of {data:#x}");
        let found = raw(&frame.registers);
        assert_eq!(rt; found, raw(&caller), "of {data:#x}");
        assert_eq!(rt; frame.interrupted, 1, "of {data:#x}");
    }
    Ok(())
}

/// Each error leaves the registers as they were.
#[test]
fn steps_are_refused(rt: HostRuntime) -> Result<(), Fail> {
    let bytes = with_records(rt.alloc())?;
    let usual = changed(ENTRY, &[(29, ENTRY - 8)]);
    let high = changed(u64::MAX - 15, &[]);
    for (data, place, registers, number, address) in [
        (0x1030, 9, usual, BAD_OPERATION, NO_ADDRESS),
        (0x1040, 9, usual, NOT_RISING, ENTRY - 8),
        (0x1050, 9, usual, ARM64_CUT, NO_ADDRESS),
        (0x1060, 9, usual, ARM64_VERSION, NO_ADDRESS),
        (0x3000, 9, usual, UNMAPPED, NO_ADDRESS),
        (0x13FC, 9, usual, SHORT, NO_ADDRESS),
        (0x1020, 3, high, BAD_ADDRESS, u64::MAX - 15),
        (0x0081_0101, 1, high, MISSING, u64::MAX - 15),
        // reserved, and a frame smaller than what is saved in it
        (0x0080_0043, 1, usual, BAD_OPERATION, NO_ADDRESS),
        (0x0060_0041, 1, usual, BAD_OPERATION, NO_ADDRESS),
    ] {
        let mut frame = frame_at(data, place, registers);
        assert_eq!(rt; step(&bytes, (0, &[]), &mut frame), number, "of {data:#x}");
        let mut wanted = frame_at(data, place, registers);
        wanted.address = address;
        assert_eq!(rt; raw(&frame), raw(&wanted), "of {data:#x}");
    }
    Ok(())
}

/// The caller of a leaf goes on at the link register, where any number but 0 says that it is one. The stack is not read, but a
/// piece outside the memory is refused.
#[test]
fn leaves_a_leaf(rt: HostRuntime) {
    let mut frame = frame_at(7, 8, changed(ENTRY, &[]));
    frame.leaf = u32::MAX;
    let found = step_over(&[], &[], &[piece_at(0, 0, 1)], &mut frame);
    assert_eq!(rt; found, SHORT);
    assert_eq!(rt; step_over(&[], &[], &[], &mut frame), DONE);
    let mut wanted = left_at(7, 8, of_caller());
    wanted.leaf = u32::MAX;
    assert_eq!(rt; raw(&frame), raw(&wanted));
}

// ---- walks of a stack on ARM64, a frame a call

/// In the body of the first function, and the return address of its call.
const INSIDE: u64 = BASE + 0x1014;

/// In the function that the operating system enters, and in the one whose record is damaged.
const DISPATCHER: u64 = BASE + 0x1028;

const DAMAGED: u64 = BASE + 0x1048;

const FP: usize = 29;

// Ways, and reasons why a walk is over.
const LEAF: u32 = 2;

const INTERRUPT: u32 = 3;

const NO_FUNCTION: u32 = 3;

const OF_RECORDS: u32 = 4;

/// Three functions of 32 bytes from RVA 0x1000 on, file offset 0: one that stores x29 and the link register in 32 bytes, points
/// x29 there, and calls; one with a machine frame above 16 bytes; and one whose record has version 1. Then their table.
fn program(alloc: Global) -> Result<Vec<u8>, AllocError> {
    bytes_of(
        alloc,
        0x200,
        &[
            (0x0C, &[0, 0, 0, 0x94]),
            (0x80, &[0, 0x10, 0, 0, 0xA0, 0x10, 0, 0]),
            (0x88, &[0x20, 0x10, 0, 0, 0xA8, 0x10, 0, 0]),
            (0x90, &[0x40, 0x10, 0, 0, 0xB0, 0x10, 0, 0]),
            (0xA0, &[8, 0, 0, 0x08, 0xE1, 0x83, 0xE4, 0xE3]),
            (0xA8, &[8, 0, 0, 0x08, 0x01, 0xE9, 0xE4, 0xE3]),
            (0xB0, &[8, 0, 4, 0x08, 0xE4, 0xE3, 0xE3, 0xE3]),
        ],
    )
}

/// A walk of at most so many frames from these pointers.
fn walk_from(pc: u64, sp: u64, fp: u64, lr: u64, most: u64) -> Arm64StackWalk {
    let mut registers = Arm64FrameRegisters {
        general: [0; 31],
        floats: [8; 8],
        sp,
        pc,
    };
    registers.general[FP] = fp;
    registers.general[LR] = lr;
    Arm64StackWalk {
        registers,
        remaining: most,
        address: 0,
        has_returned: 0,
        way: 0,
        has_called: 0,
        end: 0,
        error: 0,
        is_searched: 0,
        is_guess: 0,
        spare: 0,
    }
}

/// Of the frame of a walk its instruction pointer, its stack pointer and `x29`, how it was found, and whether it has called.
fn frame_of(walk: &Arm64StackWalk) -> ([u64; 3], [u32; 2]) {
    let registers = walk.registers;
    (
        [registers.pc, registers.sp, registers.general[FP]],
        [walk.way, walk.has_called],
    )
}

/// Why a walk is over.
fn end_of(walk: &Arm64StackWalk) -> ([u64; 2], [u32; 2]) {
    ([walk.remaining, walk.address], [walk.end, walk.error])
}

/// A dispatcher of exceptions whose machine frame is of the first function, which the same one called.
#[test]
fn a_walk_returns_the_frames(rt: HostRuntime) -> Result<(), Fail> {
    let (bytes, headers, sections) = (program(rt.alloc())?, image(ARM64), sections());
    let modules = [module(&bytes, &headers, &sections)];
    let (inner, outer) = (STACK + 32, STACK + 64);
    let words = [
        7, 7, inner, INSIDE, outer, AFTER_CALL, 7, 7, 0x1111, 0, 7, 7,
    ];
    let stack = bytes_of_words(rt.alloc(), &words)?;
    let pieces = piece(STACK, &stack);
    let mut walk = walk_from(DISPATCHER, STACK, inner, 5, 9);
    let frames = [
        ([DISPATCHER, STACK, inner], [TOP, 0]),
        ([INSIDE, inner, inner], [INTERRUPT, 0]),
        ([AFTER_CALL, outer, outer], [RECORDS, 1]),
    ];
    for (index, frame) in frames.iter().enumerate() {
        let answer = pe_c_next_arm64_frame(&modules, &stack, &pieces, &mut walk);
        assert_eq!(rt; answer, DONE);
        assert_eq!(rt; frame_of(&walk), *frame);
        let Arm64StackWalk {
            registers,
            remaining,
            has_returned,
            ..
        } = walk;
        assert_eq!(rt; (registers.floats, remaining), ([8; 8], 8 - index as u64));
        assert_eq!(rt; has_returned, 1);
    }
    assert_eq!(rt; walk.registers.general[LR], AFTER_CALL);
    let answer = pe_c_next_arm64_frame(&modules, &stack, &pieces, &mut walk);
    assert_eq!(rt; answer, NOTHING);
    assert_eq!(rt; end_of(&walk), ([0, 0], [BOTTOM, 0]));
    // Several frames in one call are those of single calls. A slot that is left stays as it was.
    let mut walk = walk_from(DISPATCHER, STACK, inner, 5, 9);
    let (mut slots, mut count) = ([walk_from(1, 2, 3, 4, 9); 4], 77);
    let answer = pe_c_next_arm64_frames(
        &modules, &stack, &pieces, &mut walk, &mut slots, &mut count,
    );
    assert_eq!(rt; (answer, count), (NOTHING, 3));
    for (slot, frame) in slots.iter().zip(frames) {
        assert_eq!(rt; frame_of(slot), frame);
    }
    assert_eq!(rt; frame_of(&slots[3]), ([1, 2, 3], [TOP, 0]));
    assert_eq!(rt; end_of(&walk), ([0, 0], [BOTTOM, 0]));
    Ok(())
}

/// The end of a walk after so many frames.
fn end_after(
    modules: &[ModuleView<'_>],
    stack: &[u8],
    frames: u32,
    walk: &mut Arm64StackWalk,
) -> Result<([u64; 2], [u32; 2]), Fail> {
    for _ in 0..frames {
        if pe_c_next_arm64_frame(modules, stack, &piece(STACK, stack), walk) != DONE {
            return Err("a frame".into());
        }
    }
    if pe_c_next_arm64_frame(modules, stack, &piece(STACK, stack), walk) != NOTHING {
        return Err("an end".into());
    }
    Ok(end_of(walk))
}

/// By an index that leads to no section no record is found.
#[test]
fn walks_by_an_index(rt: HostRuntime) -> Result<(), Fail> {
    let (bytes, headers, sections) = (program(rt.alloc())?, image(ARM64), sections());
    let stack = bytes_of_words(rt.alloc(), &[7, 7])?;
    let mut modules = [module(&bytes, &headers, &sections)];
    let stack = bytes_of_words(rt.alloc(), &[7, 0])?;
    // A leaf function, which is no function of the table: its caller is the first function, whose frame is not there.
    let leaf = BASE + 0x1100;
    let mut walk = walk_from(leaf, STACK, STACK + 8, AFTER_CALL, 9);
    let missing = end_after(&modules, &stack, 2, &mut walk)?;
    assert_eq!(rt; missing, ([0, STACK + 16], [STEP, MISSING]));
    let found = frame_of(&walk);
    assert_eq!(rt; found, ([AFTER_CALL, STACK, STACK + 8], [LEAF, 1]));
    let mut walk = walk_from(leaf, STACK, STACK + 8, AFTER_CALL, 1);
    let bounded = end_after(&modules, &stack, 1, &mut walk)?;
    assert_eq!(rt; bounded, ([0, 0], [BOUND, 0]));
    let mut walk = walk_from(DAMAGED, STACK, 0, 0, 9);
    let damaged = end_after(&modules, &stack, 1, &mut walk)?;
    assert_eq!(rt; damaged, ([0, 0], [OF_RECORDS, ARM64_VERSION]));
    // After a call of a null pointer its return address is the link register. In a module without a table too.
    let mut walk = walk_from(0, STACK, STACK, AFTER_CALL, 9);
    let called = end_after(&modules, &stack, 2, &mut walk)?;
    assert_eq!(rt; (called, walk.is_guess), (([0, 0], [ZERO, 0]), 1));
    modules[0].table = range(0, 0);
    let mut walk = walk_from(0, STACK, STACK, AFTER_CALL, 9);
    let lost = end_after(&modules, &stack, 2, &mut walk)?;
    assert_eq!(rt; lost, ([0, 0], [NO_FUNCTION, 0]));
    let mut walk = walk_from(leaf, STACK, STACK, AFTER_CALL, 9);
    let lost = end_after(&modules, &stack, 2, &mut walk)?;
    assert_eq!(rt; lost, ([0, 0], [NO_FUNCTION, 0]));
    Ok(())
}
