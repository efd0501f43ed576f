//! The frames of a thread.

use super::told::{Frame, Thread};
use super::{Asked, Loaded};
use crate::facts::Refusal;
use pe_c::sys::DumpThread;
use pe_c::{Dump, DumpRegisters, End, Error, Stacks, Way};
use std::collections::BTreeMap;

/// The names of the general registers of x64, in the order of their numbers.
const X64: [&str; 16] =
    ["rax", "rcx", "rdx", "rbx", "rsp", "rbp", "rsi", "rdi", "r8", "r9", "r10", "r11", "r12", "r13", "r14", "r15"];

/// A thread with its frames. Without images of modules there is no walk.
pub fn of(dump: &Dump<'_>, thread: &DumpThread, over: Option<(&mut Stacks<'_>, &Loaded<'_>)>, asked: Asked) -> Thread {
    let bare =
        Thread { id: thread.thread_id, name: None, is_crashed: false, frames: Vec::new(), end: None, end_error: None };
    let Some((stacks, loaded)) = over else { return bare };
    match stacks.walk(dump, thread, asked.frames) {
        Ok(stack) => {
            let frames = stack.frames.iter().map(|it| frame_of(it, loaded, asked.has_registers)).collect();
            let (end, end_error) = words_of(&stack.end);
            Thread { frames, end: Some(end), end_error, ..bare }
        }
        Err(error) => Thread { end_error: Some(error.into()), ..bare },
    }
}

fn frame_of(frame: &pe_c::Frame<DumpRegisters>, loaded: &Loaded<'_>, has_registers: bool) -> Frame {
    let ip = frame.registers.ip();
    // A return address may be that of the next function: the call is before it.
    let call = match frame.registers {
        DumpRegisters::Arm64(_) => 4,
        _ => 1,
    };
    let code = if frame.has_called { ip.wrapping_sub(call) } else { ip };
    let (module, offset) = loaded.place_of(code, ip);
    let module_index = loaded.images.module_at(code);
    Frame {
        ip_va: ip,
        sp_va: frame.registers.sp(),
        module,
        offset,
        module_index,
        has_image: module_index.is_some_and(|it| loaded.images.image(it).is_some()),
        function: None,
        way: way_of(frame.way),
        has_called: frame.has_called,
        is_guess: frame.is_guess,
        registers: has_registers.then(|| registers_of(&frame.registers)),
    }
}

fn way_of(way: Way) -> &'static str {
    match way {
        Way::Top => "top",
        Way::Records => "records",
        Way::Leaf => "leaf",
        Way::Interrupt => "interrupt",
        Way::Scanned => "scanned",
        Way::FramePointer => "frame-pointer",
        _ => "another",
    }
}

/// The word for an end, and what is wrong.
fn words_of(end: &End) -> (&'static str, Option<Refusal>) {
    let refusal = |error: Error, text: String| Some(Refusal { text, ..Refusal::from(error) });
    match end {
        End::Bound => ("bound", None),
        End::Bottom => ("bottom", None),
        End::Zero => ("zero", None),
        End::NoReturnAddress => ("no-return-address", None),
        End::NoModule => ("no-module", None),
        End::NoFunction => ("no-function", None),
        End::LongChain => ("long-chain", None),
        End::Records(error) => ("records", Some((*error).into())),
        End::Step(step) => ("step", refusal(step.error(), step.to_string())),
        _ => ("another", None),
    }
}

fn registers_of(registers: &DumpRegisters) -> BTreeMap<String, u64> {
    match registers {
        DumpRegisters::X64(it) => {
            let named = X64.iter().zip(it.general).map(|(name, value)| (name.to_string(), value));
            named.chain([("rip".to_string(), it.rip)]).collect()
        }
        DumpRegisters::Arm64(it) => {
            let named = it.general.iter().enumerate().map(|(number, value)| (format!("x{number}"), *value));
            named.chain([("sp".to_string(), it.sp), ("pc".to_string(), it.pc)]).collect()
        }
        _ => BTreeMap::new(),
    }
}
