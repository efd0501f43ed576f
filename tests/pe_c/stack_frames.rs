//! Steps of a stack walk. Records and stacks are by hand, from the prologs of Microsoft's page on x64: what is expected is the
//! state before the prolog, with the return address popped.

use super::made::*;
use super::steps::pe_c_next_frame;
use crate::stack::{pe_c_next_frames, pe_c_step};
use calls_base::results::{BAD_ADDRESS, BAD_OPERATION, LONG_CHAIN, MISSING, NOT_RISING};
use calls_stacks::stack::frames::{FrameRegisters, StackFrame};
use calls_stacks::stack::walk::{ModuleView, StackWalk};
use pe_images::image as bytes_of;

/// The address of the return address, where each of these functions is entered.
const ENTRY: u64 = 0x2_0008;

pub(crate) const RETURN_ADDRESS: u64 = 0x7FF6_1234_5678;

const RBX: usize = 3;

const RSP: usize = 4;

const RBP: usize = 5;

/// What the field `address` is before a call that changes it.
pub(crate) const NO_ADDRESS: u64 = 0x7777;

/// What the field `interrupted` is before a call that sets it.
const NOT_SAID: u32 = 7;

/// The range of the function table.
const TABLE: Range = Range {
    offset: 0,
    length: 12,
};

/// The registers of the caller: each has a number of its own, also each half of an XMM register.
fn of_caller() -> FrameRegisters {
    let mut registers = FrameRegisters {
        general: [0; 16],
        xmm: [0; 32],
        rip: RETURN_ADDRESS,
    };
    for (i, value) in registers.general.iter_mut().enumerate() {
        *value = 0xAAAA_0000 + i as u64;
    }
    for (i, value) in registers.xmm.iter_mut().enumerate() {
        *value = 0xBBBB_0000_CCCC_0000 + i as u64;
    }
    registers.general[RSP] = ENTRY + 8;
    registers
}

/// The same with other numbers in some integer registers, as a prolog or a body leaves them.
fn changed(changes: &[(usize, u64)]) -> FrameRegisters {
    let mut registers = of_caller();
    for (register, value) in changes {
        if *register < 16 {
            registers.general[*register] = *value;
        }
    }
    registers.rip = 0x1_4000_5000;
    registers
}

/// A frame in the function from 0x5000 to 0x5040, whose record has this unwind RVA, at an offset in it.
fn frame_at(unwind: u32, offset: u32, registers: FrameRegisters) -> StackFrame {
    StackFrame {
        registers,
        address: NO_ADDRESS,
        function: function_at(0x5000, 0x5040, unwind),
        rva: 0x5000 + offset,
        leaf: 0,
        interrupted: NOT_SAID,
    }
}

/// The same after a step to a caller that no interrupt stopped.
fn left_at(unwind: u32, offset: u32, registers: FrameRegisters) -> StackFrame {
    let mut frame = frame_at(unwind, offset, registers);
    frame.interrupted = 0;
    frame
}

/// A frame in a leaf function, of which neither the function nor the RVA is read.
fn leaf_at(registers: FrameRegisters) -> StackFrame {
    let mut frame = frame_at(7, 9, registers);
    frame.leaf = 1;
    frame
}

/// A table of one function at 0x1000, and records from 0x1030 on.
fn with_records(alloc: Global) -> Result<Vec<u8>, AllocError> {
    bytes_of(
        alloc,
        0x400,
        &[
            (0, &[0, 0x50, 0, 0, 0x40, 0x50, 0, 0, 0x30, 0x10]),
            // push rbp; push rbx; sub rsp,72; lea rbp,[rsp+32]; movaps [rbp-16],xmm6; sub rsp,128
            (
                0x30,
                &[
                    1, 22, 8, 0x25, 22, 0x01, 16, 0, 15, 0x68, 1, 0, 11, 0x03, 6, 0x82, 2, 0x30, 1,
                    0x50,
                ],
            ),
            // push rbp; sub rsp,40
            (0x50, &[1, 5, 2, 0, 5, 0x42, 1, 0x50]),
            // sets a frame register, and has none
            (0x60, &[1, 4, 1, 0, 4, 3]),
            // a code of operation 6 of version 1, which saves half of a register
            (0x70, &[1, 4, 2, 0, 4, 0x66, 1, 0]),
            // an invalid code, and one that is cut
            (0x80, &[1, 4, 1, 0, 4, 0x0B]),
            (0x90, &[1, 4, 1, 0, 4, 0x01]),
            // a version of 7
            (0xA0, &[7]),
            // the processor's frame without an error code
            (0xB0, &[1, 0, 1, 0, 0, 0x0A]),
        ],
    )
}

/// A step over pieces of memory, with this code.
fn step_over(
    bytes: &[u8],
    code: &[u8],
    memory: &[u8],
    pieces: &[MemoryPiece],
    frame: &mut StackFrame,
) -> u32 {
    let (image, sections) = (image(X64), sections());
    let view = view(bytes, &image, &sections);
    pe_c_step(&view, &TABLE, code, memory, pieces, frame)
}

/// A step over the bytes of a stack from an address on.
fn step_by(bytes: &[u8], code: &[u8], stack: (u64, &[u8]), frame: &mut StackFrame) -> u32 {
    let whole = piece_at(stack.0, 0, stack.1.len() as u64);
    step_over(bytes, code, stack.1, &[whole], frame)
}

/// The same without code.
fn step(bytes: &[u8], stack: (u64, &[u8]), frame: &mut StackFrame) -> u32 {
    step_by(bytes, &[], stack, frame)
}

/// Every register is that of the caller, an XMM register by its halves; nothing else of the frame changes.
#[test]
fn steps_undo_a_prolog(rt: HostRuntime) -> Result<(), Fail> {
    let bytes = with_records(rt.alloc())?;
    let caller = of_caller();
    let (x, rbx, rbp) = (caller.xmm, caller.general[RBX], caller.general[RBP]);
    let words = [x[12], x[13], 0, 0, 0, 0, 0, rbx, rbp, RETURN_ADDRESS];
    let stack = bytes_of_words(rt.alloc(), &words)?;
    let mut registers = changed(&[(RSP, 0x1000), (RBP, ENTRY - 56), (RBX, 0)]);
    registers.xmm[12] = 1;
    registers.xmm[13] = 2;
    let start = ENTRY - 72;
    let mut frame = frame_at(0x1030, 22, registers);
    assert_eq!(rt; step(&bytes, (start, &stack), &mut frame), DONE);
    let wanted = left_at(0x1030, 22, caller);
    assert_eq!(rt; raw(&frame), raw(&wanted));
    // Before the first push nothing has run.
    let mut frame = frame_at(0x1030, 0, changed(&[(RSP, ENTRY)]));
    assert_eq!(rt; step(&bytes, (start, &stack), &mut frame), DONE);
    assert_eq!(rt; raw(&frame.registers), raw(&caller));
    Ok(())
}

/// A part of a function that starts in its frame, with rbx pushed, jumps to its own start. Its records are looked up there.
#[test]
fn a_jump_is_followed_in_the_image(rt: HostRuntime) -> Result<(), Fail> {
    let mut bytes = with_records(rt.alloc())?;
    put(
        &mut bytes,
        &[(8, &[0xC0, 0x10]), (0xC0, &[1, 0, 1, 0, 0, 0x30])],
    );
    let stack = bytes_of_words(rt.alloc(), &[0x77, RETURN_ADDRESS])?;
    let start = ENTRY - 8;
    let registers = changed(&[(RSP, start)]);
    // At 0x5010 jmp 0x5000
    let code = [0xEB, 0xEE];
    let mut frame = frame_at(0x10C0, 0x10, registers);
    let answer = step_by(&bytes, &code, (start, &stack), &mut frame);
    assert_eq!(rt; answer, DONE);
    let found = [frame.registers.rip, frame.registers.general[RBX]];
    assert_eq!(rt; found, [RETURN_ADDRESS, 0x77]);
    Ok(())
}

/// Errors of codes and of addresses, and what they set.
#[test]
fn steps_that_are_refused(rt: HostRuntime) -> Result<(), Fail> {
    let bytes = with_records(rt.alloc())?;
    let high = u64::MAX - 7;
    let stack = bytes_of_words(rt.alloc(), &[RETURN_ADDRESS, 0x33, 0, 0x100, 0x2B])?;
    for (unwind, rsp, answer, address) in [
        (0x1060, ENTRY, BAD_OPERATION, NO_ADDRESS),
        (0x1070, ENTRY, BAD_OPERATION, NO_ADDRESS),
        (0x1080, ENTRY, UNWIND_CODE, NO_ADDRESS),
        (0x1090, ENTRY, SHORT, NO_ADDRESS),
        (0x10A0, ENTRY, UNWIND_VERSION, NO_ADDRESS),
        (0x3000, ENTRY, UNMAPPED, NO_ADDRESS),
        (0x1005, ENTRY, FUNCTION_LINK, NO_ADDRESS),
        (0x1050, high, BAD_ADDRESS, high),
    ] {
        let registers = changed(&[(RSP, rsp)]);
        let mut frame = frame_at(unwind, 30, registers);
        let found = step(&bytes, (ENTRY, &stack), &mut frame);
        assert_eq!(rt; found, answer, "of {unwind:#x}");
        let mut wanted = frame_at(unwind, 30, registers);
        wanted.address = address;
        assert_eq!(rt; raw(&frame), raw(&wanted), "of {unwind:#x}");
    }
    // A frame register below its offset, of which 32 are subtracted.
    let mut low = frame_at(0x1030, 22, changed(&[(RBP, 31)]));
    assert_eq!(rt; step(&bytes, (ENTRY, &stack), &mut low), BAD_ADDRESS);
    assert_eq!(rt; low.address, 31);
    // The caller's stack pointer is ENTRY + 8, below that of the function. After an interrupt it may be.
    let words = [0, 0, 0, 0, 0, 0, 0, 5, 6, RETURN_ADDRESS];
    let saved = bytes_of_words(rt.alloc(), &words)?;
    let sinking = changed(&[(RSP, ENTRY + 8), (RBP, ENTRY - 56)]);
    let mut frame = frame_at(0x1030, 22, sinking);
    assert_eq!(rt; step(&bytes, (ENTRY - 72, &saved), &mut frame), NOT_RISING);
    assert_eq!(rt; frame.address, ENTRY + 8);
    assert_eq!(rt; raw(&frame.registers), raw(&sinking));
    let mut frame = frame_at(0x10B0, 0, changed(&[(RSP, ENTRY)]));
    assert_eq!(rt; step(&bytes, (ENTRY, &stack), &mut frame), DONE);
    let found = [frame.registers.rip, frame.registers.general[RSP]];
    assert_eq!(rt; found, [RETURN_ADDRESS, 0x100]);
    Ok(())
}

/// Puts a chain of so many records from 0x1100 on: each allocates 8 bytes, and the last is the root.
fn put_chain(bytes: &mut [u8], count: usize) {
    for i in 0..count {
        let offset = 0x100 + 20 * i;
        let next = (0x1100 + 20 * (i as u32 + 1)).to_le_bytes();
        let flags = if i + 1 < count { 0x21 } else { 1 };
        put(
            bytes,
            &[(offset, &[flags, 0, 1, 0, 0, 0x02]), (offset + 16, &next)],
        );
    }
}

/// The return address of a leaf function is at the stack pointer. Any number but 0 says that it is one.
#[test]
fn leaf_functions_return(rt: HostRuntime) -> Result<(), Fail> {
    let stack = bytes_of_words(rt.alloc(), &[RETURN_ADDRESS])?;
    let registers = changed(&[(RSP, ENTRY)]);
    for leaf in [1, u32::MAX] {
        let mut frame = leaf_at(registers);
        frame.leaf = leaf;
        let mut wanted = frame;
        assert_eq!(rt; step(&[], (ENTRY, &stack[..7]), &mut frame), MISSING);
        wanted.address = ENTRY;
        assert_eq!(rt; raw(&frame), raw(&wanted));
        assert_eq!(rt; step(&[], (ENTRY, &stack), &mut frame), DONE);
        wanted.registers = of_caller();
        wanted.interrupted = 0;
        assert_eq!(rt; raw(&frame), raw(&wanted));
    }
    Ok(())
}

/// A step over pieces without code, and what it says of an interrupt.
fn step_pieces(
    bytes: &[u8],
    memory: &[u8],
    pieces: &[MemoryPiece],
    frame: &mut StackFrame,
) -> [u32; 2] {
    let answer = step_over(bytes, &[], memory, pieces, frame);
    [answer, frame.interrupted]
}

/// A step says that an interrupt stopped the caller only if it undid the frame that the processor pushed.
#[test]
fn steps_say_what_an_interrupt_left(rt: HostRuntime) -> Result<(), Fail> {
    let bytes = with_records(rt.alloc())?;
    let words = [RETURN_ADDRESS, 0x33, 0, 0x100, 0x2B];
    let stack = bytes_of_words(rt.alloc(), &words)?;
    let pieces = [piece_at(ENTRY, 0, 40)];
    let mut frame = frame_at(0x10B0, 0, changed(&[(RSP, ENTRY)]));
    assert_eq!(rt; step_pieces(&bytes, &stack, &pieces, &mut frame), [DONE, 1]);
    let found = [frame.registers.rip, frame.registers.general[RSP]];
    assert_eq!(rt; found, [RETURN_ADDRESS, 0x100]);
    // Of a chain with more than 32 records none is undone.
    let mut chained = with_records(rt.alloc())?;
    put_chain(&mut chained, 33);
    let mut frame = frame_at(0x1100, 20, changed(&[(RSP, ENTRY)]));
    let before = frame;
    let answer = step_pieces(&chained, &stack, &pieces, &mut frame);
    assert_eq!(rt; answer, [LONG_CHAIN, NOT_SAID]);
    assert_eq!(rt; raw(&frame), raw(&before));
    // In an epilog the return address is popped, and no record is undone.
    let mut frame = frame_at(0x10B0, 0, changed(&[(RSP, ENTRY)]));
    let answer = step_over(&bytes, &[0xC3], &stack, &pieces, &mut frame);
    assert_eq!(rt; [answer, frame.interrupted], [DONE, 0]);
    assert_eq!(rt; frame.registers.general[RSP], ENTRY + 8);
    Ok(())
}

// ---- walks of a stack, a frame a call

/// Where the image is loaded.
pub(crate) const BASE: u64 = 0x1_8000_0000;

/// Where the words of a stack start.
pub(crate) const STACK: u64 = 0x2_0000;

/// Of the first function the return address of its call.
pub(crate) const AFTER_CALL: u64 = BASE + 0x1010;

/// In a function that allocates 8 bytes; and further on in it a jump into the body of the first function.
const DISPATCHER: u64 = BASE + 0x1030;

const JUMPING: u64 = BASE + 0x1038;

/// In no function.
const NO_RECORD: u64 = BASE + 0x1050;

/// The range of the function table.
const WALK_TABLE: Range = Range {
    offset: 0x80,
    length: 24,
};

// Ways, and reasons why a walk is over.
pub(crate) const TOP: u32 = 0;

pub(crate) const RECORDS: u32 = 1;

pub(crate) const BOUND: u32 = 0;

pub(crate) const BOTTOM: u32 = 1;

const NO_MODULE: u32 = 2;

pub(crate) const STEP: u32 = 6;

pub(crate) const ZERO: u32 = 7;

const NO_RETURN_ADDRESS: u32 = 8;

/// Two functions of 32 bytes from RVA 0x1000 on, file offset 0: one that pushes rbx, allocates 32 bytes and calls; and one that
/// allocates 8 bytes. Then their table.
fn program(alloc: Global) -> Result<Vec<u8>, AllocError> {
    bytes_of(
        alloc,
        0x200,
        &[
            (0x0B, &[0xE8]),
            (0x38, &[0xEB, 0xD6]),
            (0x80, &[0, 0x10, 0, 0, 0x20, 0x10, 0, 0, 0xA0, 0x10]),
            (0x8C, &[0x20, 0x10, 0, 0, 0x40, 0x10, 0, 0, 0xB0, 0x10]),
            (0xA0, &[1, 5, 2, 0, 5, 0x32, 1, 0x30]),
            (0xB0, &[1, 4, 1, 0, 4, 0x02]),
        ],
    )
}

/// The image as a module.
pub(crate) fn module<'a>(
    bytes: &'a [u8],
    image: &'a Image,
    sections: &'a [SectionTable],
) -> ModuleView<'a> {
    ModuleView {
        image: view(bytes, image, sections),
        table: WALK_TABLE,
        base: BASE,
    }
}

/// The one section, which is executable.
fn code() -> [SectionTable; 1] {
    let mut sections = sections();
    sections[0].characteristics = 0x6000_0020;
    sections
}

/// A walk of at most so many frames from these pointers.
fn walk_from(rip: u64, rsp: u64, most: u64) -> StackWalk {
    let mut registers = FrameRegisters {
        general: [0; 16],
        xmm: [0; 32],
        rip,
    };
    registers.general[4] = rsp;
    registers.xmm[31] = u64::MAX;
    StackWalk {
        registers,
        remaining: most,
        address: 0,
        has_returned: 0,
        way: 0,
        has_called: 0,
        end: 0,
        error: 0,
        is_searched: 0,
        is_guess: 0,
        spare: 0,
    }
}

/// Of the frame of a walk its instruction pointer, its stack pointer, how it was found, and whether it has called.
fn frame_of(walk: &StackWalk) -> ([u64; 2], [u32; 2]) {
    let registers = walk.registers;
    (
        [registers.rip, registers.general[4]],
        [walk.way, walk.has_called],
    )
}

/// Why a walk is over.
fn end_of(walk: &StackWalk) -> ([u64; 2], [u32; 2]) {
    ([walk.remaining, walk.address], [walk.end, walk.error])
}

/// The top frame is at a jump into the first function, whose frame is in place there; that was called by the same function.
#[test]
fn a_walk_returns_the_frames(rt: HostRuntime) -> Result<(), Fail> {
    let (bytes, headers, sections) = (program(rt.alloc())?, image(X64), code());
    let modules = [module(&bytes, &headers, &sections)];
    let words = [1, 2, 3, 4, 0xB1, AFTER_CALL, 5, 6, 7, 8, 0xB2, 0];
    let stack = bytes_of_words(rt.alloc(), &words)?;
    let mut walk = walk_from(JUMPING, STACK, 9);
    let frames = [
        ([JUMPING, STACK], [TOP, 0], 0, 8),
        ([AFTER_CALL, STACK + 48], [RECORDS, 1], 0xB1, 7),
    ];
    for (pointers, found, rbx, remaining) in frames {
        let answer = pe_c_next_frame(&modules, &stack, &piece(STACK, &stack), &mut walk);
        assert_eq!(rt; answer, DONE);
        assert_eq!(rt; frame_of(&walk), (pointers, found));
        let StackWalk {
            registers,
            has_returned,
            ..
        } = walk;
        let said = [registers.general[3], registers.xmm[31], walk.remaining];
        assert_eq!(rt; said, [rbx, u64::MAX, remaining]);
        assert_eq!(rt; has_returned, 1);
    }
    let answer = pe_c_next_frame(&modules, &stack, &piece(STACK, &stack), &mut walk);
    assert_eq!(rt; answer, NOTHING);
    assert_eq!(rt; end_of(&walk), ([0, 0], [BOTTOM, 0]));
    assert_eq!(rt; walk.registers.rip, AFTER_CALL);
    Ok(())
}

/// At most as many frames as are wanted; and a walk that is lost says why.
#[test]
fn a_walk_says_why_it_is_over(rt: HostRuntime) -> Result<(), Fail> {
    let (bytes, headers, sections) = (program(rt.alloc())?, image(X64), code());
    let modules = [module(&bytes, &headers, &sections)];
    let stack = bytes_of_words(rt.alloc(), &[8, 1])?;
    let mut bounded = walk_from(DISPATCHER, STACK, 1);
    let pieces = piece(STACK, &stack);
    let found = pe_c_next_frame(&modules, &stack, &pieces, &mut bounded);
    assert_eq!(rt; found, DONE);
    let found = pe_c_next_frame(&modules, &stack, &pieces, &mut bounded);
    assert_eq!(rt; found, NOTHING);
    assert_eq!(rt; end_of(&bounded), ([0, 0], [BOUND, 0]));
    // No module has the address 1.
    let mut lost = walk_from(DISPATCHER, STACK, 9);
    for answer in [DONE, DONE, NOTHING] {
        let found = pe_c_next_frame(&modules, &stack, &pieces, &mut lost);
        assert_eq!(rt; found, answer);
    }
    assert_eq!(rt; end_of(&lost), ([0, 0], [NO_MODULE, 0]));
    assert_eq!(rt; frame_of(&lost), ([1, STACK + 16], [RECORDS, 0]));
    // The return address is not there.
    let mut missing = walk_from(DISPATCHER, STACK + 8, 9);
    let found = pe_c_next_frame(&modules, &stack, &pieces, &mut missing);
    assert_eq!(rt; found, DONE);
    let found = pe_c_next_frame(&modules, &stack, &pieces, &mut missing);
    assert_eq!(rt; found, NOTHING);
    assert_eq!(rt; end_of(&missing), ([0, STACK + 16], [STEP, MISSING]));
    Ok(())
}

/// Several frames in one call: those of single calls. Slots that are left stay as they were, and the walk goes on where it was.
#[test]
fn frames_in_one_call(rt: HostRuntime) -> Result<(), Fail> {
    let (bytes, headers, sections) = (program(rt.alloc())?, image(X64), code());
    let modules = [module(&bytes, &headers, &sections)];
    let words = [1, 2, 3, 4, 0xB1, AFTER_CALL, 5, 6, 7, 8, 0xB2, 0];
    let stack = bytes_of_words(rt.alloc(), &words)?;
    let pieces = piece(STACK, &stack);
    let top = ([JUMPING, STACK], [TOP, 0]);
    let outer = ([AFTER_CALL, STACK + 48], [RECORDS, 1]);
    let mut walk = walk_from(JUMPING, STACK, 9);
    let (mut frames, mut count) = ([walk_from(7, 8, 9); 3], 77);
    let answer = pe_c_next_frames(
        &modules,
        &stack,
        &pieces,
        &mut walk,
        &mut frames,
        &mut count,
    );
    assert_eq!(rt; (answer, count), (NOTHING, 2));
    assert_eq!(rt; (frame_of(&frames[0]), frame_of(&frames[1])), (top, outer));
    assert_eq!(rt; frame_of(&frames[2]), ([7, 8], [TOP, 0]));
    let found = [
        frames[0].remaining,
        frames[1].remaining,
        frames[1].registers.general[3],
    ];
    assert_eq!(rt; found, [8, 7, 0xB1]);
    assert_eq!(rt; end_of(&walk), ([0, 0], [BOTTOM, 0]));
    Ok(())
}

/// A walk that comes to 0 without records, or to no code: then the stack is not known to be whole.
#[test]
fn ends_without_records(rt: HostRuntime) -> Result<(), Fail> {
    let (bytes, headers, sections) = (program(rt.alloc())?, image(X64), code());
    let modules = [module(&bytes, &headers, &sections)];
    for (word, end) in [(0, ZERO), (7, NO_RETURN_ADDRESS)] {
        let stack = bytes_of_words(rt.alloc(), &[word])?;
        let mut walk = walk_from(NO_RECORD, STACK, 9);
        for answer in [DONE, NOTHING] {
            let found = pe_c_next_frame(&modules, &stack, &piece(STACK, &stack), &mut walk);
            assert_eq!(rt; found, answer);
        }
        assert_eq!(rt; end_of(&walk), ([0, 0], [end, 0]));
    }
    Ok(())
}

/// A table outside of its bytes, and a piece outside of the memory, change nothing.
#[test]
fn ranges_that_lie(rt: HostRuntime) -> Result<(), Fail> {
    let (bytes, headers, sections) = (program(rt.alloc())?, image(X64), code());
    let stack = bytes_of_words(rt.alloc(), &[8, 1])?;
    let mut modules = [module(&bytes, &headers, &sections); 2];
    let [mut pieces] = piece(STACK, &stack);
    for length in [0x181, 24] {
        modules[1].table.length = length;
        let mut walk = walk_from(DISPATCHER, STACK, 9);
        // shows: calls_stacks/src/stack/walk.rt new Short
        let found = pe_c_next_frame(&modules[1..], &stack, &[pieces], &mut walk);
        assert_eq!(rt; found, SHORT);
        assert_eq!(rt; [walk.remaining, u64::from(walk.has_returned)], [9, 0]);
        // The second time the table is inside, and the piece is not.
        pieces.offset = 1;
    }
    Ok(())
}

/// A piece of 8 bytes far from the stack.
fn far_piece(offset: u64) -> MemoryPiece {
    piece_at(1 << 40, offset, 8)
}

/// The mark is that the pieces ascend and do not overlap. A walk that is over has it too, and a call of no frames sets it.
#[test]
fn walks_are_marked_by_the_order_of_their_pieces(rt: HostRuntime) -> Result<(), Fail> {
    let (bytes, headers, sections) = (program(rt.alloc())?, image(X64), code());
    let modules = [module(&bytes, &headers, &sections)];
    let stack = bytes_of_words(rt.alloc(), &[8, 1])?;
    let [near] = piece(STACK, &stack);
    let last = piece_at(STACK + 15, 0, 1);
    for (pieces, mark) in [
        ([near, far_piece(8)], 1),
        ([far_piece(8), near], 0),
        ([near, last], 0),
    ] {
        let mut walk = walk_from(DISPATCHER, STACK, 9);
        for answer in [DONE, DONE, NOTHING] {
            let found = pe_c_next_frame(&modules, &stack, &pieces, &mut walk);
            assert_eq!(rt; found, answer);
            assert_eq!(rt; walk.is_searched, mark);
        }
        assert_eq!(rt; frame_of(&walk), ([1, STACK + 16], [RECORDS, 0]));
        assert_eq!(rt; end_of(&walk), ([0, 0], [NO_MODULE, 0]));
        let (mut over, mut count) = (walk_from(DISPATCHER, STACK, 0), 77);
        let found = pe_c_next_frame(&modules, &stack, &pieces, &mut over);
        assert_eq!(rt; found, NOTHING);
        let found = (frame_of(&over), over.is_searched);
        assert_eq!(rt; found, (([DISPATCHER, STACK], [TOP, 0]), mark));
        let mut none = walk_from(DISPATCHER, STACK, 9);
        let answer = pe_c_next_frames(&modules, &stack, &pieces, &mut none, &mut [], &mut count);
        assert_eq!(rt; (answer, count, none.is_searched), (DONE, 0, mark));
        assert_eq!(rt; [none.remaining, u64::from(none.has_returned)], [9, 0]);
    }
    Ok(())
}
