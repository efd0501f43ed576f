//! Jumps out of a function, followed in an image: machine code and records by hand. The rows say what the caller's rip is: the
//! stack has the return address where the frame at the jump's target has it.

use crate::frames::{RBX, RETURN_ADDRESS, RSP, bytes_of, shown};
use crate::images::{directory_at, flat, stack_at};
use crate::walks::OF_VERSION_3;
use pe_frame::{FrameError, FunctionPlan, ImageFunctions, Registers, Stopped, step_in_image};
use pe_images::image;
use pe_unwind::{ExceptionData, UnwindInfo};
use std::alloc::{AllocError, Global};
use std::test::Fail;

/// What the prolog pushed.
const SAVED: u64 = 0xB1;

/// The stack pointer after the prolog.
const INSIDE: u64 = 0x2_0000;

/// push rbx; sub rsp,32, whose instructions end at 1 and 5.
const HOT: [u8; 8] = [1, 5, 2, 0, 5, 0x32, 1, 0x30];

/// The same frame in a part that jumps come to: the codes have no instructions.
const COLD: [u8; 8] = [1, 0, 2, 0, 0, 0x32, 0, 0x30];

/// A machine frame without an error code, and nothing else.
const IS_INTERRUPTED: [u8; 6] = [1, 0, 1, 0, 0, 0x0A];

/// Chained to itself, from 0x80 to 0x90.
const ENDLESS: [u8; 16] = [0x21, 0, 0, 0, 0x80, 0, 0, 0, 0x90, 0, 0, 0, 0xF0, 0, 0, 0];

/// An image whose RVAs are file offsets. Its table has seven functions: 20 to 40 with the record HOT, 40 to 50 COLD, 50 to 60
/// with HOT, 60 to 70 with an interrupt, 70 to 80 of version 3, 80 to 90 endless, 90 to a0 with a code that is cut.
fn functions(alloc: Global) -> Result<Vec<u8>, AllocError> {
    image(
        alloc,
        0x200,
        &[
            (0x100, &[0x20, 0, 0, 0, 0x40, 0, 0, 0, 0xC0, 0, 0, 0]),
            (0x10C, &[0x40, 0, 0, 0, 0x50, 0, 0, 0, 0xC8, 0, 0, 0]),
            (0x118, &[0x50, 0, 0, 0, 0x60, 0, 0, 0, 0xC0, 0, 0, 0]),
            (0x124, &[0x60, 0, 0, 0, 0x70, 0, 0, 0, 0xD0, 0, 0, 0]),
            (0x130, &[0x70, 0, 0, 0, 0x80, 0, 0, 0, 0xD8, 0, 0, 0]),
            (0x13C, &[0x80, 0, 0, 0, 0x90, 0, 0, 0, 0xF0, 0, 0, 0]),
            (0x148, &[0x90, 0, 0, 0, 0xA0, 0, 0, 0, 0xE0, 0, 0, 0]),
            (0xC0, &HOT),
            (0xC8, &COLD),
            (0xD0, &IS_INTERRUPTED),
            (0xD8, &OF_VERSION_3),
            (0xE0, &[1, 4, 1, 0, 4, 0x01]),
            (0xF0, &ENDLESS),
        ],
    )
}

/// The words from INSIDE on: 32 bytes, what the prolog pushed, the return address, and the rest of a machine frame, if that is
/// one.
const WORDS: [u64; 9] = [1, 2, 3, 4, SAVED, RETURN_ADDRESS, 0x33, 0x246, 0x9000];

/// A step at an RVA of a function that starts there, with the record at that offset, from this stack pointer on.
fn step_at(
    alloc: Global,
    (start, record): (u32, usize),
    rva: u32,
    code: &[u8],
    rsp: u64,
) -> Result<Result<(Registers, bool), FrameError>, Fail> {
    let bytes = functions(alloc)?;
    let table = directory_at(0x100, 84);
    let opts = flat();
    let exceptions = ExceptionData::parse_with_opts(&bytes, table, &[], 0x200, &opts)?;
    let map = exceptions.section_map(&[], &opts);
    let functions = ImageFunctions {
        exceptions: &exceptions,
        map: &map,
    };
    let words = bytes_of(alloc, &WORDS)?;
    let stack = stack_at(INSIDE, &words);
    let mut registers = Registers {
        general: [0; 16],
        xmm: [0; 16],
        rip: u64::from(rva),
    };
    registers.general[RSP] = rsp;
    let records = [UnwindInfo::parse(&bytes, record)?];
    let plan = FunctionPlan {
        start,
        records: &records,
    };
    let stopped = Stopped { rva, code };
    Ok(step_in_image(&functions, plan, stopped, registers, &stack))
}

const IN_HOT: (u32, usize) = (0x20, 0xC0);

const IN_COLD: (u32, usize) = (0x40, 0xC8);

#[test]
fn the_frame_is_that_of_the_target(rt: HostRuntime) -> Result<(), Fail> {
    // Where the jump is, the code there, the stack pointer, and whether rbx was popped already.
    let rows: [((u32, usize), u32, &[u8], u64); 6] = [
        // jmp 0x40, to the part, and jmp 0x44 into it; jmp 0x28 back from it
        (IN_HOT, 0x30, &[0xE9, 0x0B, 0, 0, 0], INSIDE),
        (IN_HOT, 0x30, &[0xEB, 0x12], INSIDE),
        (IN_COLD, 0x45, &[0xEB, 0xE1], INSIDE),
        // add rsp,32; pop rbx; jmp 0x50: the first byte of another function, after the last of the part
        (
            IN_HOT,
            0x30,
            &[0x48, 0x83, 0xC4, 0x20, 0x5B, 0xEB, 0x19],
            INSIDE,
        ),
        // add rsp,32; jmp 0x51, after the push of that function
        (IN_HOT, 0x30, &[0x48, 0x83, 0xC4, 0x20, 0xEB, 0x1B], INSIDE),
        // jmp 0x40 in the part itself, its start
        (IN_COLD, 0x45, &[0xEB, 0xF9], INSIDE),
    ];
    for (function, rva, code, rsp) in rows {
        let (caller, is_interrupted) = step_at(rt.alloc(), function, rva, code, rsp)??;
        assert_eq!(rt; caller.rip, RETURN_ADDRESS);
        let found = (caller.general[RBX], caller.general[RSP]);
        assert_eq!(rt; found, (SAVED, INSIDE + 48));
        assert!(rt; !is_interrupted);
    }
    Ok(())
}

#[test]
fn a_target_without_records_is_a_leaf_function(rt: HostRuntime) -> Result<(), Fail> {
    // add rsp,32; pop rbx; jmp: 0xb0, which no function has; 0x70, of version 3; 0x80, whose chain never ends; and 0x100b0
    let rows: [&[u8]; 4] = [
        &[0x48, 0x83, 0xC4, 0x20, 0x5B, 0xEB, 0x79],
        &[0x48, 0x83, 0xC4, 0x20, 0x5B, 0xEB, 0x39],
        &[0x48, 0x83, 0xC4, 0x20, 0x5B, 0xEB, 0x49],
        &[0x48, 0x83, 0xC4, 0x20, 0x5B, 0xE9, 0x76, 0, 1, 0],
    ];
    for code in rows {
        let (caller, is_interrupted) = step_at(rt.alloc(), IN_HOT, 0x30, code, INSIDE)??;
        assert_eq!(rt; (caller.rip, caller.general[RBX]), (RETURN_ADDRESS, SAVED));
        assert!(rt; !is_interrupted);
    }
    Ok(())
}

#[test]
fn an_interrupt_may_have_entered_the_target(rt: HostRuntime) -> Result<(), Fail> {
    // add rsp,32; pop rbx; jmp 0x60
    let code = [0x48, 0x83, 0xC4, 0x20, 0x5B, 0xEB, 0x29];
    let (caller, is_interrupted) = step_at(rt.alloc(), IN_HOT, 0x30, &code, INSIDE)??;
    assert_eq!(rt; (caller.rip, caller.general[RSP]), (RETURN_ADDRESS, 0x9000));
    assert!(rt; is_interrupted);
    Ok(())
}

#[test]
fn refusals_before_the_jump_and_at_its_target(rt: HostRuntime) -> Result<(), Fail> {
    let alloc = rt.alloc();
    let rows: [(&[u8], u64, &str); 3] = [
        // pop rbx; jmp 0x40, with no word at the stack pointer
        (&[0x5B, 0xEB, 0x0D], INSIDE + 0x48, "Memory(131144)"),
        // jmp 0x40, with no return address above its frame
        (&[0xEB, 0x0E], INSIDE + 0x20, "Memory(131144)"),
        // jmp 0x90, whose code is truncated
        (&[0xEB, 0x5E], INSIDE, "Codes(Short { at: 0, needed: 4 })"),
    ];
    for (code, rsp, expected) in rows {
        let found = step_at(alloc, IN_HOT, 0x30, code, rsp)?;
        let found = shown(alloc, &found.err())?;
        assert_eq!(rt; found, format!(in alloc; "Some({expected})")?);
    }
    Ok(())
}
