//! Walks of a stack on ARM64 through two modules. Images and stacks are by hand, from what the prologs of the functions do: what
//! is expected is what each of them was entered with.

use crate::arm64_frames::LR;
use crate::frames::bytes_of;
use crate::images::{directory_at, flat, stack_at};
use crate::shared::SECTION;
use crate::walks::{APP, BOTTOM, NO_MODULE, NT, ZERO};
use pe_core::SectionTable;
use pe_frame::{Arm64Registers, Arm64StackFrames, Memory, Module, Modules, StackPieces, Way};
use pe_images::image;
use pe_unwind::ExceptionData;
use std::alloc::{AllocError, Global};
use std::process::Abort;
use std::test::Fail;

/// How many bytes each of them has.
const SIZE: u32 = 0x200;

const FP: usize = 29;

/// `bl`, four bytes.
const CALL: [u8; 4] = [0, 0, 0, 0x94];

/// The records of functions of 32 bytes: a header and four bytes of codes.
/// stp x29,x30,[sp,#-32]!; mov x29,sp
const CHAINED: [u8; 8] = [8, 0, 0, 0x08, 0xE1, 0x83, 0xE4, 0xE3];

/// A machine frame above 16 bytes of stack.
const MACHINE_FRAME: [u8; 8] = [8, 0, 0, 0x08, 0x01, 0xE9, 0xE4, 0xE3];

/// A `CONTEXT` record.
const CONTEXT: [u8; 8] = [8, 0, 0, 0x08, 0xEA, 0xE4, 0xE3, 0xE3];

/// No code.
const NOTHING: [u8; 8] = [8, 0, 0, 0x08, 0xE4, 0xE3, 0xE3, 0xE3];

/// The operating system's own trap frame, which no step undoes.
const TRAP_FRAME: [u8; 8] = [8, 0, 0, 0x08, 0xE8, 0xE4, 0xE3, 0xE3];

/// An epilog of one code, the fourth instruction of a function, which clears the mark of a call.
const CLEARS: [u8; 12] = [8, 0, 0x40, 0x08, 3, 0, 0x40, 0, 0xE4, 0xEC, 0xE4, 0xE3];

/// packed: a function of 32 bytes, RegI 2, CR 3, a frame of 48 bytes: x19 and x20 at its top, x29 and the link register at its end
const PACKED: [u8; 4] = [0x21, 0x00, 0xE2, 0x01];

/// Functions of 32 bytes: at 0x100 chained, its last instruction a call; at 0x120 and 0x140 ones that the operating system
/// enters, with a call that ends at 0x130 and one at 0x150; at 0x160 one of no codes, with a call that ends at 0x170; at 0x180 one
/// of packed data, with a call that ends at 0x190; at 0x1A0 one that a step refuses; at 0x1C0 one that clears. After 0x1E0 none.
fn app(alloc: Global) -> Result<Vec<u8>, AllocError> {
    let table = [
        0x00, 1, 0, 0, 0x60, 0, 0, 0, 0x20, 1, 0, 0, 0x68, 0, 0, 0, 0x40, 1, 0, 0, 0x70, 0, 0, 0,
        0x60, 1, 0, 0, 0x78, 0, 0, 0, 0x80, 1, 0, 0, PACKED[0], PACKED[1], PACKED[2], PACKED[3],
        0xA0, 1, 0, 0, 0x80, 0, 0, 0, 0xC0, 1, 0, 0, 0x88, 0, 0, 0,
    ];
    let parts: [(usize, &[u8]); 12] = [
        (0, &table),
        (0x60, &CHAINED),
        (0x68, &MACHINE_FRAME),
        (0x70, &CONTEXT),
        (0x78, &NOTHING),
        (0x80, &TRAP_FRAME),
        (0x88, &CLEARS),
        (0x11C, &CALL),
        (0x12C, &CALL),
        (0x14C, &CALL),
        (0x16C, &CALL),
        (0x18C, &CALL),
    ];
    image(alloc, SIZE as usize, &parts)
}

/// A chained function at 0x100, with calls that end at 0x110 and, the first `blr x3` and the second `blraa x3, x4`, at 0x114
/// and 0x118.
fn nt(alloc: Global) -> Result<Vec<u8>, AllocError> {
    let table = [0x00, 1, 0, 0, 0x60, 0, 0, 0];
    let calls = [
        0, 0, 0, 0x94, 0x60, 0x00, 0x3F, 0xD6, 0x64, 0x08, 0x3F, 0xD7,
    ];
    let parts: [(usize, &[u8]); 3] = [(0, &table), (0x60, &CHAINED), (0x10C, &calls)];
    image(alloc, SIZE as usize, &parts)
}

/// The exception data of an image with so many functions.
fn exceptions(bytes: &[u8], functions: u32) -> Result<ExceptionData<'_>, pe_core::Error> {
    let table = directory_at(0, 8 * functions);
    ExceptionData::parse_arm64_with_opts(bytes, table, &[], 0x200, &flat())
}

fn module<'a>(
    base: u64,
    bytes: &'a [u8],
    exceptions: &'a ExceptionData<'a>,
    sections: &'a [SectionTable],
) -> Module<'a> {
    Module {
        base,
        size: SIZE,
        bytes,
        sections,
        index: &[],
        exceptions: Some(exceptions),
        opts: flat(),
    }
}

/// Registers that are 0, but for these.
fn registers(pc: u64, sp: u64, lr: u64) -> Arm64Registers {
    let mut registers = Arm64Registers {
        general: [0; 31],
        float: [0; 8],
        sp,
        pc,
    };
    registers.general[LR] = lr;
    registers
}

/// What is expected of a frame: `pc`, `sp`, `x29`, the way, and whether it has called.
type Expected = (u64, u64, u64, Way, bool);

/// The walk from these registers comes to these frames, of which the first is the top frame, and then ends as said. No section is
/// executable, so no stack is scanned.
fn expect_walk<M: Memory>(
    rt: &impl Abort,
    alloc: Global,
    top: Arm64Registers,
    memory: &M,
    frames: &[Expected],
    end: &str,
) -> Result<(), Fail> {
    expect_walk_in(&[], rt, alloc, top, memory, frames, end)
}

/// The same where each module has these sections.
fn expect_walk_in<M: Memory>(
    sections: &[SectionTable],
    rt: &impl Abort,
    alloc: Global,
    top: Arm64Registers,
    memory: &M,
    frames: &[Expected],
    end: &str,
) -> Result<(), Fail> {
    let (app, nt) = (app(alloc)?, nt(alloc)?);
    let (app_data, nt_data) = (exceptions(&app, 7)?, exceptions(&nt, 1)?);
    let modules = [
        module(APP, &app, &app_data, sections),
        module(NT, &nt, &nt_data, sections),
    ];
    let modules = Modules::new(&modules).map_err(|_| "the modules ascend")?;
    let mut walk = Arm64StackFrames::new(modules, memory, top, 100);
    for (index, frame) in frames.iter().enumerate() {
        assert!(rt; walk.end().is_none());
        assert_eq!(rt; walk.remaining(), 100 - index);
        let found = walk.next().ok_or("a frame")?;
        let registers = found.registers;
        let fp = registers.general[FP];
        let found = (registers.pc, registers.sp, fp, found.way, found.has_called);
        assert_eq!(rt; found, *frame);
    }
    assert!(rt; walk.next().is_none());
    assert_eq!(rt; walk.remaining(), 0);
    let why = format!(in alloc; "{}", walk.end().ok_or("an end")?)?;
    assert_eq!(rt; why.as_str(), end);
    assert!(rt; walk.next().is_none());
    Ok(())
}

const NO_RETURN_ADDRESS: &str = "no return address";

/// The section with the functions.
const CODE: SectionTable = SectionTable {
    virtual_size: 0x100,
    virtual_address: 0x100,
    size_of_raw_data: 0x100,
    pointer_to_raw_data: 0x100,
    characteristics: 0x6000_0020,
    ..SECTION
};

/// A leaf function, called by the last instruction of a chained function, whose return address is the start of the next one; that
/// was called by the one with packed data, and that by the chained one of the other module, which returns to 0.
#[test]
fn a_walk_goes_through_all_modules(rt: HostRuntime) -> Result<(), Fail> {
    let (inside, called) = (APP + 0x190, NT + 0x110);
    let words = [0x2020, inside, 7, 7, 0x3000, called, 7, 7, 0x19, 0x20];
    let inner = bytes_of(rt.alloc(), &words)?;
    let outer = bytes_of(rt.alloc(), &[0x1111, 0, 7, 7])?;
    let pieces = [stack_at(0x2000, &inner), stack_at(0x3000, &outer)];
    let mut top = registers(APP + 0x1F0, 0x2000, APP + 0x120);
    top.general[FP] = 0x2000;
    let frames = [
        (APP + 0x1F0, 0x2000, 0x2000, Way::Top, false),
        (APP + 0x120, 0x2000, 0x2000, Way::Leaf, true),
        (APP + 0x190, 0x2020, 0x2020, Way::Records, true),
        (NT + 0x110, 0x2050, 0x3000, Way::Records, true),
    ];
    let memory = StackPieces::new(&pieces);
    expect_walk_in(&[CODE], &rt, rt.alloc(), top, &memory, &frames, BOTTOM)?;
    // Without sections nothing says that the leaf function is code, so that its caller is a guess.
    expect_walk(&rt, rt.alloc(), top, &memory, &frames, ZERO)?;
    let memory = StackPieces::new(&pieces[..1]);
    let end = "no memory at address 0x3000";
    expect_walk(&rt, rt.alloc(), top, &memory, &frames, end)
}

/// One word a register and an address: a stack of 128 words from 0x2000 on, 0 but for these.
fn stack_of(alloc: Global, words: &[(u64, u64)]) -> Result<Vec<u8>, AllocError> {
    let mut stack = [0; 128];
    for (address, value) in words {
        stack[(*address as usize - 0x2000) / 8 % 128] = *value;
    }
    bytes_of(alloc, &stack)
}

/// The function that a machine frame or a context stopped is looked up by its own address: here it is at its first byte, which
/// follows the call that is the last instruction of another function.
#[test]
fn interrupted_frames_are_looked_up_by_their_address(rt: HostRuntime) -> Result<(), Fail> {
    let machine_frame = stack_of(rt.alloc(), &[(0x2010, 0x2200), (0x2018, APP + 0x120)])?;
    let memory = stack_at(0x2000, &machine_frame);
    let mut top = registers(APP + 0x128, 0x2000, NT + 0x110);
    top.general[FP] = 0x2300;
    // Nothing of its prolog has run, so it returns to the link register, to a chained function whose frame is at x29.
    let frames = [
        (APP + 0x128, 0x2000, 0x2300, Way::Top, false),
        (APP + 0x120, 0x2200, 0x2300, Way::Interrupt, false),
        (NT + 0x110, 0x2200, 0x2300, Way::Records, true),
    ];
    expect_walk(&rt, rt.alloc(), top, &memory, &frames, BOTTOM)?;

    // The stack pointer of the context is far below.
    let context = stack_of(
        rt.alloc(),
        &[
            (0x2100 + 0x100, 0x2010),
            (0x2100 + 0x108, APP + 0x120),
            (0x2100 + 0xF8, NT + 0x110),
            (0x2100 + 0xF0, 0x2050),
            (0x2050, 0x1111),
        ],
    )?;
    let memory = stack_at(0x2000, &context);
    let top = registers(APP + 0x150, 0x2100, 0);
    let frames = [
        (APP + 0x150, 0x2100, 0, Way::Top, false),
        (APP + 0x120, 0x2010, 0x2050, Way::Interrupt, false),
        (NT + 0x110, 0x2010, 0x2050, Way::Records, true),
    ];
    expect_walk(&rt, rt.alloc(), top, &memory, &frames, BOTTOM)
}

/// A helper that an epilog calls clears the mark of a call, so its caller is looked up by its own address: it is at its first
/// byte, and returns to the link register. That is the same address, which is one after a call, and so in another function.
#[test]
fn cleared_marks_are_no_calls(rt: HostRuntime) -> Result<(), Fail> {
    let memory = stack_at(0x2000, &[]);
    let frames = [
        (APP + 0x1CC, 0x2000, 0, Way::Top, false),
        (APP + 0x120, 0x2000, 0, Way::Interrupt, false),
        (APP + 0x120, 0x2000, 0, Way::Records, true),
    ];
    let top = registers(APP + 0x1CC, 0x2000, APP + 0x120);
    let end = "no memory at address 0x0";
    expect_walk(&rt, rt.alloc(), top, &memory, &frames, end)
}

/// After a call of a null or wild pointer the return address is the link register, if a call ends at it.
#[test]
fn wild_calls_return_to_the_link_register(rt: HostRuntime) -> Result<(), Fail> {
    let stack = stack_of(rt.alloc(), &[])?;
    let memory = stack_at(0x2000, &stack);
    for lr in [NT + 0x110, NT + 0x114, NT + 0x118] {
        for pc in [0, 0x1234, NT - 4, NT + 0x200] {
            let frames = [
                (pc, 0x2000, 0x2000, Way::Top, false),
                (lr, 0x2000, 0x2000, Way::Leaf, true),
            ];
            let mut top = registers(pc, 0x2000, lr);
            top.general[FP] = 0x2000;
            expect_walk(&rt, rt.alloc(), top, &memory, &frames, ZERO)?;
        }
    }
    for lr in [0, NT + 0x10C, NT + 0x11C, NT + 0x111, NT] {
        let frames = [(0, 0x2000, 0, Way::Top, false)];
        let top = registers(0, 0x2000, lr);
        expect_walk_in(&[CODE], &rt, rt.alloc(), top, &memory, &frames, NO_MODULE)?;
    }
    Ok(())
}

/// Where the link register is no return address, the first word of the stack that is one into executable code leads on, of 128; here
/// with a signature.
#[test]
fn stacks_are_scanned(rt: HostRuntime) -> Result<(), Fail> {
    let signed = (APP + 0x190) | 0xAB5A << 48;
    let stack = stack_of(
        rt.alloc(),
        &[
            (0x2008, 3),
            (0x2010, APP + 0x18C),
            (0x2018, signed),
            (0x2020, 0x3000),
        ],
    )?;
    let memory = stack_at(0x2000, &stack);
    for pc in [APP + 0x1F0, 0x1234] {
        let mut top = registers(pc, 0x2004, 7);
        top.general[FP] = 0x2020;
        let found = [
            (pc, 0x2004, 0x2020, Way::Top, false),
            (APP + 0x190, 0x2020, 0x2020, Way::Scanned, true),
        ];
        expect_walk_in(&[CODE], &rt, rt.alloc(), top, &memory, &found, ZERO)?;
        // The last of 128 words, and the one after it.
        top.sp = 0x2018 - 127 * 8;
        let far = [(pc, top.sp, 0x2020, Way::Top, false), found[1]];
        expect_walk_in(&[CODE], &rt, rt.alloc(), top, &memory, &far, ZERO)?;
        top.sp -= 8;
        let lost = [(pc, top.sp, 0x2020, Way::Top, false)];
        let end = if pc == 0x1234 {
            NO_MODULE
        } else {
            NO_RETURN_ADDRESS
        };
        expect_walk_in(&[CODE], &rt, rt.alloc(), top, &memory, &lost, end)?;
    }
    Ok(())
}

/// Code without unwind data that keeps a frame pointer, also 8 below the stack pointer as that of Go. A scan finds another caller first.
#[test]
fn frame_pointers_lead_on(rt: HostRuntime) -> Result<(), Fail> {
    let signed = (APP + 0x190) | 0xAB5A << 48;
    let stack = stack_of(
        rt.alloc(),
        &[
            (0x2008, APP + 0x190),
            (0x2010, 0x2030),
            (0x2018, signed),
            (0x2030, 0x3000),
        ],
    )?;
    let memory = stack_at(0x2000, &stack);
    let pc = APP + 0x1F0;
    for sp in [0x2000, 0x2010, 0x2018] {
        let mut top = registers(pc, sp, 7);
        top.general[FP] = 0x2010;
        let found = [
            (pc, sp, 0x2010, Way::Top, false),
            (APP + 0x190, 0x2020, 0x2030, Way::FramePointer, true),
        ];
        expect_walk_in(&[CODE], &rt, rt.alloc(), top, &memory, &found, ZERO)?;
    }
    let mut top = registers(pc, 0x2019, 7);
    top.general[FP] = 0x2010;
    let lost = [(pc, 0x2019, 0x2010, Way::Top, false)];
    expect_walk_in(
        &[CODE],
        &rt,
        rt.alloc(),
        top,
        &memory,
        &lost,
        NO_RETURN_ADDRESS,
    )
}

/// Once the stack pointer may stay: in the top frame. A frame that has called has stored the link register.
#[test]
fn a_second_frame_that_stands_ends_the_walk(rt: HostRuntime) -> Result<(), Fail> {
    let memory = stack_at(0x2000, &[]);
    let frames = [
        (APP + 0x164, 0x2000, 0, Way::Top, false),
        (APP + 0x170, 0x2000, 0, Way::Records, true),
    ];
    let end = "stack pointer 0x2000 of the caller is not above that of the function";
    let top = registers(APP + 0x164, 0x2000, APP + 0x170);
    expect_walk(&rt, rt.alloc(), top, &memory, &frames, end)
}

/// From a caller at 0 a scan leads on, as under a dispatcher whose records do not say that an interrupt came before it: then it is
/// no bottom, but a frame. Of words that are no return addresses it is one.
#[test]
fn a_caller_at_0_may_have_a_caller(rt: HostRuntime) -> Result<(), Fail> {
    let top = registers(APP + 0x180, 0x2000, 0);
    let one = (APP + 0x180, 0x2000, 0, Way::Top, false);
    for (word, frames, end) in [
        (APP + 0x18C, 1, BOTTOM),
        (APP + 0x190, 3, "no memory at address 0x0"),
    ] {
        let stack = bytes_of(rt.alloc(), &[7, word])?;
        let memory = stack_at(0x2000, &stack);
        let found = [
            one,
            (0, 0x2000, 0, Way::Records, false),
            (APP + 0x190, 0x2010, 0, Way::Scanned, true),
        ];
        expect_walk_in(
            &[CODE],
            &rt,
            rt.alloc(),
            top,
            &memory,
            &found[..frames],
            end,
        )?;
    }
    Ok(())
}
