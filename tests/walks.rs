//! Walks of a stack through three modules, and memory in pieces. Images and stacks are by hand, from what the prologs of the
//! functions do: what is expected is what each of them was entered with.

use crate::frames::{RBP, bytes_of, text};
pub(crate) use crate::frames::{RBX, RSP};
use crate::images::{directory_at, flat, piece_at, stack_at};
use crate::shared;
use pe_core::SectionTable;
use pe_frame::{
    FrameError, LoadedModules, Memory, MemoryList, Module, ModuleOrder, Modules, Registers,
    SearchedMemory, StackFrame, StackFrames, StackPieces, WalkEnd, WalkPosition, Way,
};
use pe_images::{image, put};
use pe_unwind::ExceptionData;
use std::alloc::{AllocError, Global};
use std::process::Abort;
use std::test::Fail;

/// Where the modules are loaded.
pub(crate) const APP: u64 = 0x1_4000_0000;

pub(crate) const LIB: u64 = 0x1_8000_0000;

pub(crate) const NT: u64 = 0x7FF8_0000_0000;

/// How many bytes each of them has.
pub(crate) const SIZE: u32 = 0xA0;

/// push rbx; sub rsp,32
const PUSHES_RBX: [u8; 8] = [1, 5, 2, 0, 5, 0x32, 1, 0x30];

/// sub rsp,8
const ALLOCATES_8: [u8; 6] = [1, 4, 1, 0, 4, 0x02];

/// An interrupt without an error code; sub rsp,64
const IS_INTERRUPTED: [u8; 8] = [1, 4, 2, 0, 4, 0x72, 0, 0x0A];

/// mov rbp,rsp
const SETS_RBP: [u8; 6] = [1, 1, 1, 0x05, 1, 0x03];

/// add rsp,32; pop rbx; ret
const EPILOG: [u8; 6] = [0x48, 0x83, 0xC4, 0x20, 0x5B, 0xC3];

/// A call, which ends five bytes on.
const CALL: [u8; 5] = [0xE8, 0, 0, 0, 0];

/// A record of a version that there is not, and one that is chained to itself.
pub(crate) const OF_VERSION_3: [u8; 4] = [3, 0, 0, 0];

const ENDLESS: [u8; 16] = [0x21, 0, 0, 0, 0x90, 0, 0, 0, 0xA0, 0, 0, 0, 0x38, 0, 0, 0];

/// Two functions that push rbx, at 0x40 and 0x80, and one between them. The first one ends with a call, the last one with its
/// epilog, at 0x9A.
pub(crate) fn app(alloc: Global) -> Result<Vec<u8>, AllocError> {
    let table = [
        0x40, 0, 0, 0, 0x60, 0, 0, 0, 0x24, 0, 0, 0, 0x60, 0, 0, 0, 0x80, 0, 0, 0, 0x2C, 0, 0, 0,
        0x80, 0, 0, 0, 0xA0, 0, 0, 0, 0x24, 0, 0, 0,
    ];
    let parts: [(usize, &[u8]); 5] = [
        (0, &table),
        (0x24, &PUSHES_RBX),
        (0x2C, &ALLOCATES_8),
        (0x5B, &CALL),
        (0x9A, &EPILOG),
    ];
    image(alloc, SIZE as usize, &parts)
}

/// A function that pushes rbx at 0x40, with a call that ends at 0x50, one that sets a frame register at 0x80, and two whose
/// records are refused after it, of which the last one ends with a call.
pub(crate) fn lib(alloc: Global) -> Result<Vec<u8>, AllocError> {
    let table = [
        0x40, 0, 0, 0, 0x60, 0, 0, 0, 0x68, 0, 0, 0, 0x80, 0, 0, 0, 0x88, 0, 0, 0, 0x30, 0, 0, 0,
        0x88, 0, 0, 0, 0x90, 0, 0, 0, 0x60, 0, 0, 0, 0x90, 0, 0, 0, 0xA0, 0, 0, 0, 0x38, 0, 0, 0,
    ];
    let parts: [(usize, &[u8]); 7] = [
        (0, &table),
        (0x30, &SETS_RBP),
        (0x38, &ENDLESS),
        (0x4B, &CALL),
        (0x60, &OF_VERSION_3),
        (0x68, &PUSHES_RBX),
        (0x9B, &CALL),
    ];
    image(alloc, SIZE as usize, &parts)
}

/// A function at 0x40 that an interrupt entered, with a call that ends at 0x50.
pub(crate) fn nt(alloc: Global) -> Result<Vec<u8>, AllocError> {
    let table = [0x40, 0, 0, 0, 0x60, 0, 0, 0, 0x0C, 0, 0, 0];
    let parts: [(usize, &[u8]); 3] = [(0, &table), (0x0C, &IS_INTERRUPTED), (0x4B, &CALL)];
    image(alloc, SIZE as usize, &parts)
}

/// The exception data of an image with so many functions.
pub(crate) fn exceptions(
    bytes: &[u8],
    functions: u32,
) -> Result<ExceptionData<'_>, pe_core::Error> {
    let table = directory_at(0, 12 * functions);
    ExceptionData::parse_with_opts(bytes, table, &[], 0x200, &flat())
}

pub(crate) fn module<'a>(
    base: u64,
    bytes: &'a [u8],
    exceptions: &'a ExceptionData<'a>,
) -> Module<'a> {
    Module {
        base,
        size: SIZE,
        bytes,
        sections: &ALL_CODE,
        index: &[],
        exceptions: Some(exceptions),
        opts: flat(),
    }
}

/// One section, executable, which has all of a module.
pub(crate) const ALL_CODE: [SectionTable; 1] = [SectionTable {
    virtual_size: SIZE,
    virtual_address: 0,
    size_of_raw_data: SIZE,
    characteristics: CODE,
    ..shared::SECTION
}];

/// Registers that are 0, but for these.
pub(crate) fn registers(rip: u64, rsp: u64) -> Registers {
    let mut registers = Registers {
        general: [0; 16],
        xmm: [0; 16],
        rip,
    };
    registers.general[RSP] = rsp;
    registers
}

/// From address 0x1000 on: the return address of a leaf function of the library, the frame of the function that called it,
/// which saved rbx, and that of a function that an interrupt entered, with the machine frame.
pub(crate) const INNER: [u64; 20] = [
    IN_LIB, 0, 0, 0, 0, 0xB1, IN_NT, 1, 2, 3, 4, 5, 6, 7, 8, IN_APP, 0x33, 0x246, 0x2000, 0x2B,
];

/// What these return to.
const IN_LIB: u64 = LIB + 0x50;

const IN_NT: u64 = NT + 0x50;

const IN_APP: u64 = APP + 0x9E;

/// From address 0x2000 on: rbx and the return address of a function that is about to pop rbx in its epilog, and the frame of
/// the function that called it by its last instruction, which saved rbx too. That one's return address is 0.
pub(crate) const OUTER: [u64; 8] = [0xB2, APP + 0x60, 0, 0, 0, 0, 0xB3, 0];

/// The frames, from the top frame outwards: rip, rsp, rbx and the way.
pub(crate) const FRAMES: [(u64, u64, u64, Way); 5] = [
    (LIB + 0x70, 0x1000, 0xB0, Way::Top),
    (LIB + 0x50, 0x1008, 0xB0, Way::Leaf),
    (NT + 0x50, 0x1038, 0xB1, Way::Records),
    (APP + 0x9E, 0x2000, 0xB1, Way::Interrupt),
    (APP + 0x60, 0x2010, 0xB2, Way::Records),
];

/// The walk comes to the first frames of these, as many as are asked for, and then ends as said.
fn expect_walk<M: Memory>(
    rt: &impl Abort,
    alloc: Global,
    memory: &M,
    most: usize,
    frames: &[(u64, u64, u64, Way)],
    end: &str,
) -> Result<(), Fail> {
    let (app, lib, nt) = (app(alloc)?, lib(alloc)?, nt(alloc)?);
    let (app_data, lib_data, nt_data) = (
        exceptions(&app, 3)?,
        exceptions(&lib, 4)?,
        exceptions(&nt, 1)?,
    );
    let modules = [
        module(APP, &app, &app_data),
        module(LIB, &lib, &lib_data),
        module(NT, &nt, &nt_data),
    ];
    let modules = Modules::new(&modules).map_err(|_| "the modules ascend")?;
    let mut top = registers(LIB + 0x70, 0x1000);
    top.general[RBX] = 0xB0;
    let mut walk = StackFrames::new(modules, memory, top, most);
    for (index, frame) in frames.iter().enumerate() {
        assert!(rt; walk.end().is_none());
        assert_eq!(rt; walk.remaining(), most - index);
        let found = walk.next().ok_or("a frame")?;
        let general = found.registers.general;
        let own = (found.registers.rip, general[RSP], general[RBX], found.way);
        assert_eq!(rt; own, *frame);
    }
    assert!(rt; walk.next().is_none());
    assert_eq!(rt; walk.remaining(), 0);
    let why = walk.end().ok_or("an end")?;
    assert_eq!(rt; text(alloc, why)?.as_str(), end);
    assert!(rt; walk.next().is_none());
    Ok(())
}

#[test]
fn a_walk_goes_through_all_modules(rt: HostRuntime) -> Result<(), Fail> {
    let alloc = rt.alloc();
    let (inner, outer) = (bytes_of(alloc, &INNER)?, bytes_of(alloc, &OUTER)?);
    let pieces = [stack_at(0x1000, &inner), stack_at(0x2000, &outer)];
    let memory = StackPieces::new(&pieces);
    expect_walk(&rt, alloc, &memory, 100, &FRAMES, "bottom of the stack")?;
    let bound = "as many frames as were asked for";
    expect_walk(&rt, alloc, &memory, 5, &FRAMES, bound)?;
    expect_walk(&rt, alloc, &memory, 3, &FRAMES[..3], bound)?;
    expect_walk(&rt, alloc, &memory, 0, &[], bound)?;
    // Without the outer piece it ends in the function that the interrupt stopped; an empty stack has no return address.
    let memory = StackPieces::new(&pieces[..1]);
    let end = "no memory at address 0x2000";
    expect_walk(&rt, alloc, &memory, 100, &FRAMES[..4], end)?;
    let memory = StackPieces::new(&[]);
    let end = "no memory at address 0x1000";
    expect_walk(&rt, alloc, &memory, 100, &FRAMES[..1], end)
}

/// One step from this top frame, in the library alone, all of which is executable, and why the walk is over after it.
fn end_of_step(
    rt: &impl Abort,
    alloc: Global,
    top: Registers,
    words: &[u64],
    frames: usize,
) -> Result<String, Fail> {
    let lib = lib(alloc)?;
    let data = exceptions(&lib, 4)?;
    let sections = [section(0, SIZE, CODE)];
    let modules = [Module {
        sections: &sections,
        ..module(LIB, &lib, &data)
    }];
    let modules = Modules::new(&modules).map_err(|_| "one module ascends")?;
    let bytes = bytes_of(alloc, words)?;
    let memory = stack_at(0x1000, &bytes);
    let mut walk = StackFrames::new(modules, &memory, top, 100);
    for _ in 0..frames {
        assert!(rt; walk.next().is_some());
    }
    assert!(rt; walk.next().is_none());
    Ok(text(alloc, walk.end().ok_or("an end")?)?)
}

#[test]
fn a_walk_says_why_it_is_over(rt: HostRuntime) -> Result<(), Fail> {
    let alloc = rt.alloc();
    let mut low = registers(LIB + 0x84, 0x1008);
    low.general[RBP] = 0x1000;
    let end = end_of_step(&rt, alloc, low, &[LIB + 0x50, 0], 1)?;
    assert_eq!(rt;
        end.as_str(),
        "stack pointer 0x1008 of the caller is not above that of the function"
    );
    // The caller is in the library, and in no function of it: one that has called is no leaf function. Data are no caller.
    let end = end_of_step(&rt, alloc, registers(LIB + 0x70, 0x1000), &[LIB + 0x74], 2)?;
    assert_eq!(rt; end.as_str(), "no function covers the call");
    for word in [0x30, LIB + 0xA1, u64::MAX] {
        let end = end_of_step(&rt, alloc, registers(LIB + 0x70, 0x1000), &[word], 1)?;
        assert_eq!(rt; end.as_str(), "no return address");
    }
    let end = end_of_step(&rt, alloc, registers(LIB + 0x8A, 0x1000), &[], 1)?;
    assert_eq!(rt; end.as_str(), "unknown unwind record version 3");
    let end = end_of_step(&rt, alloc, registers(LIB + 0x94, 0x1000), &[], 1)?;
    assert_eq!(rt; end.as_str(), "more than 32 unwind records are chained");
    // A return address is looked up by the byte before it, so the end of the module is in it, and its base is not.
    let end = end_of_step(&rt, alloc, registers(LIB + 0x70, 0x1000), &[LIB + 0xA0], 2)?;
    assert_eq!(rt; end.as_str(), "more than 32 unwind records are chained");
    let end = end_of_step(&rt, alloc, registers(LIB + 0x70, 0x1000), &[LIB], 2)?;
    assert_eq!(rt; end.as_str(), NO_MODULE);
    let end = end_of_step(&rt, alloc, registers(LIB + 0xA0, 0x1000), &[], 1)?;
    assert_eq!(rt; end.as_str(), NO_MODULE);
    Ok(())
}

/// The function at 0x40 pushed rbx and allocated 32 bytes. The word that it pushed is known, and its return address is not: a step
/// restores rbx and the stack pointer, and then has an error.
#[test]
fn a_frame_without_a_caller_stays(rt: HostRuntime) -> Result<(), Fail> {
    let alloc = rt.alloc();
    let lib = lib(alloc)?;
    let data = exceptions(&lib, 4)?;
    let modules = [module(LIB, &lib, &data)];
    let modules = Modules::new(&modules).map_err(|_| "one module ascends")?;
    let bytes = bytes_of(alloc, &[0, 0, 0, 0, 0xB1])?;
    let memory = stack_at(0x1000, &bytes);
    let mut top = registers(LIB + 0x50, 0x1000);
    top.general[RBX] = 0xB0;
    let frame = StackFrame {
        registers: top,
        way: Way::Top,
        has_called: false,
        is_guess: false,
    };
    let mut position = WalkPosition::starting(frame, 9);
    assert!(rt; position.advance(&modules, &memory));
    assert!(rt; !position.advance(&modules, &memory));
    let end = text(alloc, &position.end)?;
    assert_eq!(rt; end.as_str(), "no memory at address 0x1028");
    assert!(rt; position.frame == frame);
    let mut changed = frame;
    assert!(rt; modules.become_caller(&mut changed, &memory).is_err());
    assert!(rt; changed == frame);
    Ok(())
}

/// All frames are guesses but the top frame: nothing says which functions are leaf functions, and where the stack ends.
#[test]
fn an_image_without_exception_data_has_calls(rt: HostRuntime) -> Result<(), Fail> {
    let program = program(rt.alloc())?;
    let sections = [section(0x40, 0x80, CODE)];
    let modules = [Module {
        base: APP,
        size: 0x100,
        bytes: &program,
        sections: &sections,
        index: &[],
        exceptions: None,
        opts: flat(),
    }];
    let modules = Modules::new(&modules).map_err(|_| "one module ascends")?;
    let call = APP + 0x50;
    for (words, frames) in [
        (
            [call, APP + 0x44, 7, call, 0],
            [(0x1008, Way::Leaf), (0x1020, Way::Scanned)],
        ),
        (
            [7, call, call, APP + 0x44, 0],
            [(0x1010, Way::Scanned), (0x1018, Way::Scanned)],
        ),
    ] {
        let bytes = bytes_of(rt.alloc(), &words)?;
        let memory = stack_at(0x1000, &bytes);
        let mut walk = StackFrames::new(modules, &memory, registers(APP + 0x90, 0x1000), 9);
        let top = walk.next().ok_or("the top frame")?;
        assert_eq!(rt; (top.way, top.is_guess), (Way::Top, false));
        for (rsp, way) in frames {
            let found = walk.next().ok_or("a caller")?;
            let own = (found.registers.rip, found.way, found.is_guess);
            assert_eq!(rt; own, (call, way, true));
            assert_eq!(rt; found.registers.general[RSP], rsp);
        }
        assert!(rt; walk.next().is_none());
        assert!(rt; matches!(walk.end(), Some(WalkEnd::NoFunction)));
    }
    Ok(())
}

/// A program: a function that pushes rbx at 0x40, with a call that ends at 0x50; one at 0x60 that allocates 8 bytes, from where an
/// interrupted thread goes on without a word of it in the record; a function without a record, with a call that ends at 0x98; one
/// that pushes rbx at 0xA0; and at 0xD0 data that look like a call. Up to 0xC0 it is executable. `CALLS_OUT` has more calls.
fn program(alloc: Global) -> Result<Vec<u8>, AllocError> {
    let table = [
        0x40, 0, 0, 0, 0x60, 0, 0, 0, 0x24, 0, 0, 0, 0x60, 0, 0, 0, 0x80, 0, 0, 0, 0x2C, 0, 0, 0,
        0xA0, 0, 0, 0, 0xC0, 0, 0, 0, 0x24, 0, 0, 0,
    ];
    let parts: [(usize, &[u8]); 6] = [
        (0, &table),
        (0x24, &PUSHES_RBX),
        (0x2C, &ALLOCATES_8),
        (0x4B, &CALL),
        (0x93, &CALL),
        (0xD0, &CALL),
    ];
    let mut bytes = image(alloc, 0x100, &parts)?;
    for (offset, call) in &CALLS_OUT {
        put(&mut bytes, &[(*offset, call)]);
    }
    Ok(bytes)
}

/// Calls that end at 0x5A, 0xB0 and 0xB8, of the functions at 0x84, 0x80 and 0x90; at 0x72 and 0x78, of 0x91 and 0x7F; and data
/// that end at 0xDA, and would call 0x88.
const CALLS_OUT: [(usize, [u8; 5]); 6] = [
    (0x55, [0xE8, 0x2A, 0, 0, 0]),
    (0xAB, [0xE8, 0xD0, 0xFF, 0xFF, 0xFF]),
    (0xB3, [0xE8, 0xD8, 0xFF, 0xFF, 0xFF]),
    (0x6D, [0xE8, 0x1F, 0, 0, 0]),
    (0x73, [0xE8, 0x07, 0, 0, 0]),
    (0xD5, [0xE8, 0xAE, 0xFF, 0xFF, 0xFF]),
];

/// A section whose RVA is its file offset.
fn section(start: u32, size: u32, characteristics: u32) -> SectionTable {
    SectionTable {
        characteristics,
        ..shared::section(start, size, start, size)
    }
}

/// A frame: rip, rsp, how it was found, and whether it has called.
type Frame = (u64, u64, Way, bool);

/// The walk from the top frame with these registers through the program, over this memory, has these frames and ends so.
fn expect_frames_over<M: Memory>(
    rt: &impl Abort,
    alloc: Global,
    top: Registers,
    memory: &M,
    frames: &[Frame],
    end: &str,
) -> Result<(), Fail> {
    let program = program(alloc)?;
    let data = exceptions(&program, 3)?;
    let sections = [section(0x40, 0x80, CODE), section(0xC0, 0x40, DATA)];
    let modules = [Module {
        size: 0x100,
        sections: &sections,
        index: &[],
        ..module(APP, &program, &data)
    }];
    let modules = Modules::new(&modules).map_err(|_| "one module ascends")?;
    let mut walk = StackFrames::new(modules, memory, top, 100);
    for frame in frames {
        let found = walk.next().ok_or("a frame")?;
        let registers = found.registers;
        let found = (
            registers.rip,
            registers.general[RSP],
            found.way,
            found.has_called,
        );
        assert_eq!(rt; found, *frame);
    }
    assert!(rt; walk.next().is_none());
    let why = walk.end().ok_or("an end")?;
    assert_eq!(rt; text(alloc, why)?.as_str(), end);
    Ok(())
}

/// The same over these words from address 0x1000 on.
fn expect_frames(
    rt: &impl Abort,
    alloc: Global,
    top: (u64, u64),
    words: &[u64],
    frames: &[Frame],
    end: &str,
) -> Result<(), Fail> {
    let bytes = bytes_of(alloc, words)?;
    let memory = stack_at(0x1000, &bytes);
    let top = registers(top.0, top.1);
    expect_frames_over(rt, alloc, top, &memory, frames, end)
}

pub(crate) const BOTTOM: &str = "bottom of the stack";

pub(crate) const ZERO: &str = "return to 0, by a guess or without records";

pub(crate) const NO_MODULE: &str = "no module with an image has the instruction pointer";

/// The frame of the function that pushes rbx, at the call: its return address is 0.
const OUTERMOST: [u64; 7] = [APP + 0x50, 0, 0, 0, 0, 0xB0, 0];

/// A frame that has called, where that call ends.
fn at_the_call(rsp: u64, way: Way) -> Frame {
    (APP + 0x50, rsp, way, true)
}

#[test]
fn a_call_of_a_null_pointer_has_a_caller(rt: HostRuntime) -> Result<(), Fail> {
    let alloc = rt.alloc();
    for pointer in [0, 8, APP + 0x100, u64::MAX] {
        let frames = [
            (pointer, 0x1000, Way::Top, false),
            at_the_call(0x1008, Way::Leaf),
        ];
        expect_frames(&rt, alloc, (pointer, 0x1000), &OUTERMOST, &frames, ZERO)?;
    }
    // Under a dispatcher of exceptions, whose frame has 8 bytes.
    let words = [8, 0, APP + 0x50, 0, 0, 0, 0, 0xB0, 0];
    let frames = [
        (APP + 0x70, 0x1000, Way::Top, false),
        (0, 0x1010, Way::Records, false),
        at_the_call(0x1018, Way::Leaf),
    ];
    expect_frames(&rt, alloc, (APP + 0x70, 0x1000), &words, &frames, ZERO)
}

/// A function without a record that has pushed two registers, as one that tests the stack does where the stack is used up.
#[test]
fn a_scan_finds_the_caller_of_a_function_without_records(rt: HostRuntime) -> Result<(), Fail> {
    let alloc = rt.alloc();
    let words = [7, APP + 0x44, APP + 0x50, 0, 0, 0, 0, 0xB0, 0];
    let frames = [
        (APP + 0x90, 0x1000, Way::Top, false),
        at_the_call(0x1018, Way::Scanned),
    ];
    expect_frames(&rt, alloc, (APP + 0x90, 0x1000), &words, &frames, ZERO)?;
    // The stack pointer is rounded up; the word at it, not aligned, is no return address.
    let frames = [
        (APP + 0x90, 0x1001, Way::Top, false),
        at_the_call(0x1018, Way::Scanned),
    ];
    expect_frames(&rt, alloc, (APP + 0x90, 0x1001), &words, &frames, ZERO)
}

/// The function at 0x90 has no record, and those before it end at 0x80: it starts in between. The words of calls that lead
/// elsewhere are not its return address, and neither are data.
#[test]
fn a_scan_finds_the_call_of_the_function_first(rt: HostRuntime) -> Result<(), Fail> {
    let alloc = rt.alloc();
    for call in [0x5A, 0xB0, 0xB8] {
        let mut words = [7, 0, 0, 0, 0, 0, 0, 0, 0, 0, 0xB0, 0];
        for (word, rva) in words[1..].iter_mut().zip([0x50, 0x72, 0x78, 0xDA, call]) {
            *word = APP + rva;
        }
        let frames = [
            (APP + 0x90, 0x1000, Way::Top, false),
            (APP + call, 0x1030, Way::Scanned, true),
        ];
        expect_frames(&rt, alloc, (APP + 0x90, 0x1000), &words, &frames, ZERO)?;
    }
    // From a frame that has called too. The word at the stack pointer is the return address of a leaf function, wherever its call
    // leads.
    let words = [APP + 0x98, 7, APP + 0x50, APP + 0x5A, 0, 0, 0, 0, 0xB0, 0];
    let frames = [
        (APP + 0x90, 0x1000, Way::Top, false),
        (APP + 0x98, 0x1008, Way::Leaf, true),
        (APP + 0x5A, 0x1020, Way::Scanned, true),
    ];
    expect_frames(&rt, alloc, (APP + 0x90, 0x1000), &words, &frames, ZERO)
}

/// Nor do the callers of a call in such a function have records: the stack is scanned from there too, up to a function that has some.
#[test]
fn a_scan_finds_the_callers_of_calls_without_records(rt: HostRuntime) -> Result<(), Fail> {
    let alloc = rt.alloc();
    let words = [APP + 0x98, 7, APP + 0x98, APP + 0x50, 0, 0, 0, 0, 0xB0, 0];
    let call = |rsp, way| (APP + 0x98, rsp, way, true);
    let frames = [
        (APP + 0x90, 0x1000, Way::Top, false),
        call(0x1008, Way::Leaf),
        call(0x1018, Way::Scanned),
        at_the_call(0x1020, Way::Scanned),
    ];
    expect_frames(&rt, alloc, (APP + 0x90, 0x1000), &words, &frames, ZERO)
}

/// The walk from the function without a record, with this frame pointer, over these words.
fn expect_chain(
    rt: &impl Abort,
    alloc: Global,
    pointer: u64,
    words: &[u64],
    frames: &[Frame],
) -> Result<(), Fail> {
    let bytes = bytes_of(alloc, words)?;
    let memory = stack_at(0x1000, &bytes);
    let mut top = registers(APP + 0x90, 0x1000);
    top.general[RBP] = pointer;
    expect_frames_over(rt, alloc, top, &memory, frames, ZERO)
}

/// Functions without records that keep a frame pointer: two records of frames, and below the first a return address that a scan finds.
#[test]
fn frame_pointers_lead_on(rt: HostRuntime) -> Result<(), Fail> {
    let alloc = rt.alloc();
    let (top, called) = ((APP + 0x90, 0x1000, Way::Top, false), APP + 0x98);
    let by_pointer = (called, 0x1020, Way::FramePointer, true);
    let call = APP + 0x50;
    let words = [7, call, 0x1028, called, 7, 0, call, 0, 0, 0, 0, 0xB0, 0];
    let frames = [top, by_pointer, at_the_call(0x1038, Way::FramePointer)];
    expect_chain(&rt, alloc, 0x1010, &words, &frames)?;
    // A call into code without records comes first where it is lower on the stack.
    let mut lower = words;
    lower[1] = APP + 0x5A;
    let frames = [top, (APP + 0x5A, 0x1010, Way::Scanned, true)];
    expect_chain(&rt, alloc, 0x1010, &lower, &frames)?;
    let mut higher = words;
    higher[4] = APP + 0x5A;
    let frames = [top, by_pointer, (APP + 0x5A, 0x1028, Way::Scanned, true)];
    expect_chain(&rt, alloc, 0x1010, &higher, &frames)?;
    // No records: misaligned; below the stack; a frame pointer that is not higher; no return address.
    let (mut level, mut data) = (words, words);
    level[2] = 0x1010;
    data[3] = APP + 0x44;
    let frames = [top, at_the_call(0x1010, Way::Scanned)];
    for (pointer, words) in [
        (0x1014, &words),
        (0xFE8, &words),
        (0x1010, &level),
        (0x1010, &data),
    ] {
        expect_chain(&rt, alloc, pointer, words, &frames)?;
    }
    Ok(())
}

#[test]
fn a_frame_at_no_call_was_interrupted(rt: HostRuntime) -> Result<(), Fail> {
    let alloc = rt.alloc();
    // At the first byte of a function that pushes rbx; in a function without a record; after the prolog of the first one.
    for (interrupted, way) in [(0xA0, Way::Records), (0x90, Way::Leaf)] {
        let words = [8, APP + interrupted, APP + 0x50, 0, 0, 0, 0, 0xB0, 0];
        let frames = [
            (APP + 0x70, 0x1000, Way::Top, false),
            (APP + interrupted, 0x1010, Way::Records, false),
            at_the_call(0x1018, way),
        ];
        expect_frames(&rt, alloc, (APP + 0x70, 0x1000), &words, &frames, BOTTOM)?;
    }
    let (inside, call) = (APP + 0x48, APP + 0x50);
    let words = [8, inside, 0, 0, 0, 0, 0xB0, call, 0, 0, 0, 0, 0xB0, 0];
    let frames = [
        (APP + 0x70, 0x1000, Way::Top, false),
        (APP + 0x48, 0x1010, Way::Records, false),
        at_the_call(0x1040, Way::Records),
    ];
    expect_frames(&rt, alloc, (APP + 0x70, 0x1000), &words, &frames, BOTTOM)
}

#[test]
fn the_bottom_is_no_lost_walk(rt: HostRuntime) -> Result<(), Fail> {
    let alloc = rt.alloc();
    let top = (APP + 0x70, 0x1000, Way::Top, false);
    let start = (APP + 0x70, 0x1000);
    expect_frames(&rt, alloc, start, &[8, 0], &[top], BOTTOM)?;
    expect_frames(&rt, alloc, start, &[8, 0, 7, 0, APP + 0x44], &[top], BOTTOM)?;
    let leaf = (APP + 0x90, 0x1000, Way::Top, false);
    expect_frames(&rt, alloc, (APP + 0x90, 0x1000), &[0, 7], &[leaf], ZERO)?;
    // Any other address in no module is a lost walk, and so is a top frame there, whatever it would return to.
    for address in [1, APP - 1, APP + 0x101] {
        let frames = [top, (address, 0x1010, Way::Records, false)];
        expect_frames(&rt, alloc, start, &[8, address, 7], &frames, NO_MODULE)?;
    }
    let wild = (0, 0x1000, Way::Top, false);
    expect_frames(&rt, alloc, (0, 0x1000), &[0, 7], &[wild], NO_MODULE)?;
    expect_frames(&rt, alloc, (0, 0x1000), &[], &[wild], NO_MODULE)?;
    // With memory that ends before the return address the stack is not whole.
    let end = "no memory at address 0x1008";
    expect_frames(&rt, alloc, start, &[8], &[top], end)
}

#[test]
fn a_scan_reads_128_words(rt: HostRuntime) -> Result<(), Fail> {
    let alloc = rt.alloc();
    let top = (0, 0x1000, Way::Top, false);
    let mut words = [7; 136];
    words[127] = APP + 0x50;
    words[133] = 0;
    let frames = [top, at_the_call(0x1400, Way::Scanned)];
    expect_frames(&rt, alloc, (0, 0x1000), &words, &frames, ZERO)?;
    words[127] = 7;
    words[128] = APP + 0x50;
    expect_frames(&rt, alloc, (0, 0x1000), &words, &[top], NO_MODULE)?;
    // It goes on after words that are not known, here those below 0x1000; no stack pointer is above the last word.
    let frames = [
        (0, 0xFE8, Way::Top, false),
        at_the_call(0x1008, Way::Scanned),
    ];
    expect_frames(&rt, alloc, (0, 0xFE8), &OUTERMOST, &frames, ZERO)?;
    for below in [0, 6, 7, 8, 1024] {
        let high = u64::MAX - below;
        let frames = [(0, high, Way::Top, false)];
        expect_frames(&rt, alloc, (0, high), &OUTERMOST, &frames, NO_MODULE)?;
    }
    Ok(())
}

/// A leaf function returns where no call is known: into a module whose image is not at hand, before a scan, which leads on from there;
/// or to the first byte of that, or with the image into data of it, or where no module is.
#[test]
fn a_leaf_function_returns_into_a_module_without_an_image(rt: HostRuntime) -> Result<(), Fail> {
    let alloc = rt.alloc();
    let program = program(alloc)?;
    let data = exceptions(&program, 3)?;
    let sections = [section(0x40, 0x80, CODE), section(0xC0, 0x40, DATA)];
    let app = Module {
        size: 0x100,
        sections: &sections,
        ..module(APP, &program, &data)
    };
    let unknown = Module {
        base: LIB,
        bytes: &[],
        sections: &[],
        exceptions: None,
        ..app
    };
    let top = (APP + 0x90, 0x1000, Way::Top, false);
    let there = (LIB + 0x44, 0x1008, Way::Leaf, true);
    let call = (APP + 0x50, 0x1018, Way::Scanned, true);
    let on = [LIB + 0x44, 7, APP + 0x50, 0, 0, 0, 0, 0xB0, 0];
    let modules = [app, unknown];
    let end = WalkEnd::NoModule;
    expect_guesses(&rt, alloc, &modules, &[LIB + 0x44, 7], &[top, there], end)?;
    let end = WalkEnd::Zero;
    expect_guesses(&rt, alloc, &modules, &on, &[top, there, call], end)?;
    for word in [LIB, LIB + 0x101, APP + 0xC8] {
        let end = WalkEnd::NoReturnAddress;
        expect_guesses(&rt, alloc, &modules, &[word, 7], &[top], end)?;
    }
    // In it too, and in no module, after a wild jump or call; the call may be its last instruction.
    for pc in [LIB + 0x44, 0] {
        let wild = (pc, 0x1000, Way::Top, false);
        let end = (LIB + 0x100, 0x1008, Way::Leaf, true);
        let (words, frames) = ([LIB + 0x100, 7], [wild, end]);
        expect_guesses(&rt, alloc, &[unknown], &words, &frames, WalkEnd::NoModule)?;
    }
    // No address of the first 64 KB is one of code.
    let low = Module {
        base: 0xFFF0,
        ..unknown
    };
    let first = (0x1_0000, 0x1008, Way::Leaf, true);
    let frames = [top, first];
    let end = WalkEnd::NoModule;
    expect_guesses(&rt, alloc, &[low, app], &[0x1_0000, 7], &frames, end)?;
    let (end, frames) = (WalkEnd::NoReturnAddress, [top]);
    expect_guesses(&rt, alloc, &[low, app], &[0xFFFF, 7], &frames, end)
}

/// The walk from the first of these frames, over words from address 0x1000 on, has these, all of them guesses but the first, and ends
/// so.
fn expect_guesses(
    rt: &impl Abort,
    alloc: Global,
    modules: &[Module<'_>],
    words: &[u64],
    frames: &[Frame],
    end: WalkEnd,
) -> Result<(), Fail> {
    let modules = Modules::new(modules).map_err(|_| "the modules ascend")?;
    let bytes = bytes_of(alloc, words)?;
    let memory = stack_at(0x1000, &bytes);
    let top = registers(frames[0].0, frames[0].1);
    let mut walk = StackFrames::new(modules, &memory, top, 100);
    for (index, frame) in frames.iter().enumerate() {
        let found = walk.next().ok_or("a frame")?;
        let registers = found.registers;
        let rsp = registers.general[RSP];
        assert_eq!(rt; (registers.rip, rsp, found.way, found.has_called), *frame);
        assert_eq!(rt; found.is_guess, index > 0);
    }
    assert!(rt; walk.next().is_none());
    let (found, wanted) = (walk.end().ok_or("an end")?, end);
    assert_eq!(rt; text(alloc, found)?, text(alloc, &wanted)?);
    Ok(())
}

/// In data at 0xD0 bytes look like a call. What returns there is a frame and a guess, and so is the caller of data, of which the table
/// says nothing.
#[test]
fn frames_in_data_are_guesses(rt: HostRuntime) -> Result<(), Fail> {
    let alloc = rt.alloc();
    let program = program(alloc)?;
    let data = exceptions(&program, 3)?;
    let sections = [section(0x40, 0x80, CODE), section(0xC0, 0x40, DATA)];
    let modules = [Module {
        size: 0x100,
        sections: &sections,
        ..module(APP, &program, &data)
    }];
    let top = (APP + 0x90, 0x1000, Way::Top, false);
    let in_data = (APP + 0xD5, 0x1008, Way::Leaf, true);
    let end = WalkEnd::NoFunction;
    expect_guesses(&rt, alloc, &modules, &[APP + 0xD5, 7], &[top, in_data], end)?;
    let top = (APP + 0xC8, 0x1000, Way::Top, false);
    let frames = [top, at_the_call(0x1008, Way::Leaf)];
    expect_guesses(&rt, alloc, &modules, &OUTERMOST, &frames, WalkEnd::Zero)
}

/// The word at 0x1008 is after bytes that are a call, in a section that is not executable.
#[test]
fn a_scan_finds_executable_code_alone(rt: HostRuntime) -> Result<(), Fail> {
    let alloc = rt.alloc();
    let words = [7, APP + 0xD5, APP + 0x50, 0, 0, 0, 0, 0xB0, 0];
    let frames = [
        (0, 0x1000, Way::Top, false),
        at_the_call(0x1018, Way::Scanned),
    ];
    expect_frames(&rt, alloc, (0, 0x1000), &words, &frames, ZERO)
}

const CODE: u32 = 0x6000_0020;

const DATA: u32 = 0xC000_0040;

/// These RVAs, each of which is one after a call, are return addresses into executable code of an image with these sections, or
/// not. Every two bytes of the image are `call rax`.
fn expect_code_returns(
    rt: &impl Abort,
    alloc: Global,
    sections: &[SectionTable],
    rvas: &[(u64, bool)],
) -> Result<(), Fail> {
    let bytes = bytes_of(alloc, &[0xD0FF_D0FF_D0FF_D0FF; 32])?;
    let data = exceptions(&bytes, 0)?;
    let module = Module {
        size: 0x100,
        sections,
        ..module(APP, &bytes, &data)
    };
    for (rva, is) in rvas {
        assert!(rt; module.is_after_call(APP + rva));
        assert_eq!(rt; module.is_code_return(APP + rva), *is);
    }
    Ok(())
}

/// Where the sections are in ascending order, it is the section that has the last byte of the call that has to be executable.
#[test]
fn code_returns_are_of_executable_sections(rt: HostRuntime) -> Result<(), Fail> {
    let alloc = rt.alloc();
    let sections = [
        section(0x20, 0x20, CODE),
        section(0x40, 0x20, DATA),
        section(0x80, 0x20, CODE),
        section(0xA0, 0x20, DATA),
        // Without a size in memory it has there what it has in the file.
        SectionTable {
            virtual_size: 0,
            ..section(0xD0, 0x10, CODE)
        },
    ];
    let rvas = [
        (0x10, false), // before the first section
        (0x20, false),
        (0x22, true),
        (0x40, true),
        (0x42, false), // in data
        (0x60, false),
        (0x62, false), // in the gap after them
        (0x80, false),
        (0x82, true),
        (0xA0, true),
        (0xA2, false),
        (0xC2, false),
        (0xD0, false),
        (0xD2, true),
        (0xE0, true),
        (0xE2, false), // past the last section
        (0x100, false),
    ];
    expect_code_returns(&rt, alloc, &sections, &rvas)?;
    let rvas = [(0x20, false), (0x22, true), (0x42, false)];
    expect_code_returns(&rt, alloc, &sections[..1], &rvas)?;
    expect_code_returns(&rt, alloc, &[], &[(0x22, false)])
}

/// Whether an address is one after a call, where these bytes end at it, at the end of a module.
fn is_after(alloc: Global, code: &[u8]) -> Result<bool, Fail> {
    let bytes = image(alloc, 0x40, &[(0x40 - code.len(), code)])?;
    let data = exceptions(&bytes, 0)?;
    let modules = [Module {
        size: 0x40,
        ..module(APP, &bytes, &data)
    }];
    let modules = Modules::new(&modules).map_err(|_| "one module ascends")?;
    Ok(modules.is_after_call(APP + 0x40))
}

/// The encodings are those of an assembler.
#[test]
fn calls_have_these_encodings(rt: HostRuntime) -> Result<(), Fail> {
    let alloc = rt.alloc();
    let calls: [&[u8]; 17] = [
        &[0xE8, 0x10, 0x20, 0x30, 0x40], // call target
        &[0xFF, 0xD0], // call rax
        &[0x41, 0xFF, 0xD7], // call r15
        &[0xFF, 0x10], // call [rax]
        &[0xFF, 0x15, 1, 2, 3, 4], // call [rip+n]
        &[0x48, 0xFF, 0x15, 1, 2, 3, 4], // the same with REX.W
        &[0xFF, 0x14, 0x24], // call [rsp]
        &[0xFF, 0x14, 0xC1], // call [rcx+rax*8]
        &[0xFF, 0x14, 0xC5, 1, 2, 3, 4], // call [rax*8+n]
        &[0x42, 0xFF, 0x14, 0xC5, 1, 2, 3, 4], // call [r8*8+n]
        &[0xFF, 0x50, 0x18], // call [rax+24]
        &[0xFF, 0x55, 0x00], // call [rbp]
        &[0x41, 0xFF, 0x54, 0x24, 0x18], // call [r12+24]
        &[0xFF, 0x54, 0xC5, 0x18], // call [rbp+rax*8+24]
        &[0xFF, 0x90, 0, 1, 0, 0], // call [rax+256]
        &[0xFF, 0x94, 0x24, 0, 1, 0, 0], // call [rsp+256]
        &[0x43, 0xFF, 0x94, 0xD4, 0, 1, 0, 0], // call [r12+r10*8+256]
    ];
    for code in calls {
        assert!(rt; is_after(alloc, code)?);
    }
    let others: [&[u8]; 12] = [
        &[],
        &[0xE8, 0x10, 0x20, 0x30],
        &[0xE8, 0x10, 0x20, 0x30, 0x40, 0x50],
        &[0xE9, 0x10, 0x20, 0x30, 0x40], // jmp target
        &[0xFF, 0xE0], // jmp rax
        &[0xFF, 0x25, 1, 2, 3, 4], // jmp [rip+n]
        &[0xFF, 0x18], // call far [rax]
        &[0xFF, 0x14],
        &[0xFF, 0x15],
        &[0xFF, 0x15, 1, 2, 3],
        &[0xFF, 0x14, 0xC5],
        &[0xFF, 0x50],
    ];
    for code in others {
        assert!(rt; !is_after(alloc, code)?);
    }
    Ok(())
}

/// The bytes before an address are those of the module that has the last of them, and no others. One without exception data has calls.
#[test]
fn calls_lie_in_one_module(rt: HostRuntime) -> Result<(), Fail> {
    let alloc = rt.alloc();
    let bytes = image(alloc, 0x40, &[(0, &CALL), (0x3B, &CALL)])?;
    let data = exceptions(&bytes, 0)?;
    let plain = Module {
        size: 0x40,
        ..module(APP, &bytes, &data)
    };
    let modules = [
        plain,
        Module {
            base: APP + 0x40,
            size: 4,
            ..plain
        },
        Module {
            base: APP + 0x100,
            exceptions: None,
            ..plain
        },
    ];
    let modules = Modules::new(&modules).map_err(|_| "they ascend")?;
    for (address, is) in [
        (0, false),
        (APP, false),
        (APP + 4, false),
        (APP + 5, true),
        (APP + 6, false),
        (APP + 0x3F, false),
        (APP + 0x40, true),
        (APP + 0x41, false),
        (APP + 0x44, false),
        (APP + 0x45, false),
        (APP + 0x105, true),
        (APP + 0x106, false),
        (u64::MAX, false),
    ] {
        assert_eq!(rt; modules.is_after_call(address), is);
    }
    Ok(())
}

#[test]
fn modules_ascend(rt: HostRuntime) -> Result<(), Fail> {
    let alloc = rt.alloc();
    let lib = lib(alloc)?;
    let data = exceptions(&lib, 4)?;
    let at = |base| module(base, &lib, &data);
    let touching = [at(0x1000), at(0x10A0), at(u64::MAX)];
    let modules = Modules::new(&touching).map_err(|_| "they ascend")?;
    for (address, base) in [
        (0xFFF, None),
        (0x1000, Some(0x1000)),
        (0x109F, Some(0x1000)),
        (0x10A0, Some(0x10A0)),
        (0x113F, Some(0x10A0)),
        (0x1140, None),
        (u64::MAX - 1, None),
        (u64::MAX, Some(u64::MAX)),
    ] {
        assert_eq!(rt; modules.find(address).map(|it| it.base), base);
    }
    // They overlap by a byte, or fall; and what wraps at the last address overlaps all after it.
    for (table, index) in [
        ([at(0x1000), at(0x109F), at(0x2000)], 1),
        ([at(0x1000), at(0x3000), at(0x2000)], 2),
        ([at(0x1000), at(u64::MAX - 1), at(u64::MAX)], 2),
    ] {
        match Modules::new(&table) {
            Ok(_) => return Err("no order".into()),
            Err(error) => {
                assert_eq!(rt; error.0, index);
                let said = format!(in alloc;
                    "module {index} starts before the end of the one before it"
                )?;
                assert_eq!(rt; text(alloc, &error)?, said);
            }
        }
    }
    let none: Result<Modules<'_>, ModuleOrder> = Modules::new(&[]);
    assert!(rt; none.is_ok_and(|it| it.find(0).is_none()));
    Ok(())
}

#[test]
fn an_error_of_memory_names_its_address(rt: HostRuntime) -> Result<(), Fail> {
    let memory = StackPieces::new(&[]);
    let found = pe_frame::leaf(registers(0, 0x30), &memory);
    assert!(rt; matches!(found, Err(FrameError::Memory(0x30))));
    Ok(())
}

/// Memory by a list has the bytes where it says; what does not lie in them is refused with its offset and its length.
#[test]
fn lists_of_pieces_say_where_the_bytes_are(rt: HostRuntime) -> Result<(), Fail> {
    let bytes = [8, 7, 6, 5, 4, 3, 2, 1, 16, 15, 14, 13, 12, 11, 10, 9];
    let pieces = [piece_at(0x100, 8, 8), piece_at(0x108, 0, 8)];
    let memory = MemoryList::new(&bytes, &pieces).map_err(|_| "pieces that are inside")?;
    for (address, word) in [
        (0xFF, None),
        (0x100, Some(0x090A_0B0C_0D0E_0F10)),
        (0x104, Some(0x0506_0708_090A_0B0C)),
        (0x108, Some(0x0102_0304_0506_0708)),
        (0x109, None),
    ] {
        assert_eq!(rt; memory.u64_at(address), word);
    }
    let outside = [piece_at(0, 16, 0), piece_at(0x100, 9, 8)];
    let refused = MemoryList::new(&bytes, &outside);
    assert!(rt; matches!(refused, Err(pe_core::Error::Short { at: 9, needed: 8 })));
    Ok(())
}

/// Each byte of many pieces is found by halving: by tests in turn this would take a thousand times as long.
#[test]
fn words_of_many_pieces_are_found_soon(rt: HostRuntime) -> Result<(), Fail> {
    let count = 30_000;
    let mut bytes = Vec::new(rt.alloc());
    let mut pieces = Vec::new(rt.alloc());
    for index in 0..count {
        bytes.push((index % 256) as u8)?;
        // Every second address has a byte, up to the last 16, which stand side by side.
        let start = if index < count - 16 {
            2 * index
        } else {
            count + index
        };
        pieces.push(piece_at(start, index, 1))?;
    }
    let memory = MemoryList::new(&bytes, &pieces).map_err(|_| "pieces that are inside")?;
    let mut known = 0;
    for address in 0..2 * count {
        if memory.u64_at(address).is_some() {
            known += 1;
        }
    }
    assert_eq!(rt; known, 9);
    Ok(())
}

/// Memory that is searched is that of the list where its pieces ascend. Of others it has the piece that a search by halving comes to:
/// where two overlap the later one, and in pieces in no order it may pass by the one that has the address. What lies outside of the
/// bytes is unknown.
#[test]
fn searched_pieces_are_tested_as_they_are_used(rt: HostRuntime) -> Result<(), Fail> {
    let bytes = [8, 7, 6, 5, 4, 3, 2, 1, 16, 15, 14, 13, 12, 11, 10, 9];
    let (first, second) = (0x0102_0304_0506_0708, 0x090A_0B0C_0D0E_0F10);
    let ascending = [
        piece_at(0x100, 8, 8),
        piece_at(0x108, 0, 8),
        piece_at(0x200, 9, 8),
    ];
    let overlapping = [
        piece_at(0x100, 0, 16),
        piece_at(0x108, 0, 8),
        piece_at(0x200, 0, 8),
    ];
    let unordered = [
        piece_at(0x108, 0, 8),
        piece_at(0x100, 8, 8),
        piece_at(0x200, 0, 8),
    ];
    for (pieces, address, word) in [
        (&ascending, 0xFF, None),
        (&ascending, 0x100, Some(second)),
        (&ascending, 0x104, Some(0x0506_0708_090A_0B0C)),
        (&ascending, 0x108, Some(first)),
        (&ascending, 0x109, None),
        (&ascending, 0x200, None),
        (&overlapping, 0x100, Some(first)),
        (&overlapping, 0x108, Some(first)),
        (&unordered, 0x100, Some(second)),
        (&unordered, 0x108, None),
        (&unordered, 0x200, Some(first)),
    ] {
        assert_eq!(rt; SearchedMemory::new(&bytes, pieces).u64_at(address), word);
    }
    assert_eq!(rt; SearchedMemory::new(&bytes, &[]).u64_at(0x100), None);
    Ok(())
}
