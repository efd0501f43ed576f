//! What a symbol tool writes of images: identifiers, sections, exports, imports, and how functions are unwound.
//!
//!     symbols FILE ..
//!
//! It uses what goblin 0.2.1 and this crate both have, and compiles with either: `tools/try_goblin` compares what both print.

use goblin::pe::exception::{StackFrameOffset, UnwindHandler, UnwindOperation};
use goblin::pe::PE;
use std::fmt::{Result, Write};

/// The most functions of an image that are written, and the most records of a chain.
const FUNCTIONS: usize = 3000;
const CHAIN: usize = 32;

fn head(pe: &PE<'_>, out: &mut String) -> Result {
    let machine = pe.header.coff_header.machine;
    writeln!(out, "machine {machine:#x} entry {:#x} base {:#x}", pe.entry, pe.image_base)?;
    writeln!(out, "dll {} 64 bits {} name {:?}", pe.is_lib, pe.is_64, pe.name)?;
    for section in &pe.sections {
        let name = section.name().unwrap_or("?");
        writeln!(out, "section {name} {:#x} {:#x}", section.virtual_address, section.virtual_size)?;
    }
    if let Some(debug) = &pe.debug_data {
        if let (Some(guid), Some(record)) = (debug.guid(), &debug.codeview_pdb70_debug_info) {
            let name = record.filename.split(|it| *it == 0).next().unwrap_or_default();
            writeln!(out, "pdb {guid:02X?} {} {}", record.age, String::from_utf8_lossy(name))?;
        }
    }
    Ok(())
}

fn names(pe: &PE<'_>, out: &mut String) -> Result {
    for it in &pe.exports {
        writeln!(out, "export {:?} {:#x} {:?}", it.name, it.rva, it.reexport)?;
    }
    for it in &pe.imports {
        writeln!(out, "import {} {} {} {:#x} {:#x}", it.dll, it.name, it.ordinal, it.offset, it.rva)?;
    }
    writeln!(out, "libraries {}", pe.libraries.join(" "))
}

fn functions(pe: &PE<'_>, out: &mut String) -> Result {
    let Some(exceptions) = pe.exception_data.as_ref().filter(|_| pe.header.coff_header.machine == 0x8664) else {
        return Ok(());
    };
    for function in exceptions.functions().flatten().take(FUNCTIONS) {
        let (mut size, mut next) = (8u64, Some(function));
        for _ in 0..CHAIN {
            let Some(part) = next.take() else { break };
            let Ok(info) = exceptions.get_unwind_info(part, &pe.sections) else { break };
            for code in info.unwind_codes().take_while(|it| it.is_ok()).flatten() {
                match code.operation {
                    UnwindOperation::PushNonVolatile(register) => {
                        size += 8;
                        write!(out, " push {register}")?;
                    }
                    UnwindOperation::Alloc(bytes) => size += u64::from(bytes),
                    UnwindOperation::SaveNonVolatile(register, StackFrameOffset::RSP(offset)) => {
                        write!(out, " {register} at rsp+{offset}")?;
                    }
                    other => write!(out, " {other:?}")?,
                }
            }
            if let Some(UnwindHandler::ExceptionHandler(rva, _)) = info.handler {
                write!(out, " handler {rva:#x}")?;
            }
            next = info.chained_info;
        }
        writeln!(out, " function {:#x}..{:#x} {size}", function.begin_address, function.end_address)?;
    }
    Ok(())
}

fn main() -> std::io::Result<()> {
    for path in std::env::args().skip(1) {
        println!("{path}");
        let bytes = std::fs::read(&path)?;
        let pe = match PE::parse(&bytes) {
            Ok(pe) => pe,
            Err(error) => {
                println!("refused");
                eprintln!("{path}: {error}");
                continue;
            }
        };
        let mut out = String::new();
        let written = head(&pe, &mut out).and_then(|()| names(&pe, &mut out)).and_then(|()| functions(&pe, &mut out));
        written.expect("a String takes all that is written");
        print!("{out}");
    }
    Ok(())
}
