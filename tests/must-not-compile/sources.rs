// arm64_handler_data_after_its_bytes is refused: borrow-e0505
//! The data of an ARM64 handler are kept after the vector with the file's bytes is gone.

use pe_core::Result;
use pe_unwind::Arm64UnwindInfo;

pub fn length_of(bytes: Vec<u8>) -> Result<usize> {
    let info = Arm64UnwindInfo::parse(&bytes, 0)?;
    drop(bytes);
    match info.exception_handler {
        Some(handler) => Ok(handler.bytes.len()),
        None => Ok(0),
    }
}

// certificate_after_its_bytes is refused: borrow-e0505
//! A certificate is kept after the vector with the file's bytes is gone.

use pe_core::Result;
use pe_records::AttributeCertificate;

pub fn length_of(bytes: Vec<u8>) -> Result<u32> {
    let mut offset = 0;
    let certificate = AttributeCertificate::parse(&bytes, &mut offset)?;
    drop(bytes);
    Ok(certificate.length)
}

// export_name_after_its_bytes is refused: borrow-e0505
//! The name of an export is kept after the vector with the image's bytes is gone.

use pe_image::{PE, Result};
use std::alloc::Global;

pub fn length_of_first(alloc: Global, bytes: Vec<u8>) -> Result<usize> {
    let pe = PE::parse(alloc, &bytes)?;
    let name = pe.exports.first().map(|export| export.name);
    drop(pe);
    drop(bytes);
    Ok(name.map_or(0, |name| name.len()))
}

// handler_data_after_its_bytes is refused: borrow-e0505
//! A handler's data are kept after the vector with the file's bytes is gone.

use pe_core::Result;
use pe_unwind::{UnwindHandler, UnwindInfo};

pub fn length_of(bytes: Vec<u8>) -> Result<usize> {
    let info = UnwindInfo::parse(&bytes, 0)?;
    drop(bytes);
    match info.handler {
        Some(UnwindHandler::ExceptionHandler(_, data)) => Ok(data.len()),
        _ => Ok(0),
    }
}

// listed_body_after_the_bytes is refused: borrow-e0515
//! The body of a listed certificate is handed out of the function that owns the file's bytes.

use pe_core::Result;
use pe_records::enumerate_certificates;
use std::alloc::Global;

pub fn body_of(alloc: Global) -> Result<Option<&'static [u8]>> {
    let bytes = [9, 0, 0, 0, 0, 2, 2, 0, 0xAA];
    let listed = enumerate_certificates(alloc, &bytes, 0, 9)?;
    Ok(listed.first().map(|certificate| certificate.certificate))
}

// plan_and_place_exchanged is refused: mismatched-types
//! The plan of a function, which has the RVA of its start, and where it stopped, which is an RVA too, change places.

use pe_frame::{FrameError, FunctionPlan, Registers, Stack, Stopped, step_with_code};

pub fn caller_of(
    plan: FunctionPlan<'_, '_>,
    stopped: Stopped<'_>,
    registers: Registers,
    memory: &Stack<'_>,
) -> Result<Registers, FrameError> {
    step_with_code(stopped, plan, registers, memory)
}

// pogo_name_after_its_bytes is refused: borrow-e0597
//! A POGO name that is kept after its bytes are gone.

use pe_records::POGOEntryIterator;
use std::alloc::{AllocError, Global};

pub fn kept(alloc: Global) -> Result<usize, AllocError> {
    let name;
    {
        let bytes = vec![in alloc; 0u8; 12]?;
        name = match POGOEntryIterator::new(&bytes).next() {
            Some(Ok(entry)) => entry.name,
            _ => &[],
        };
    }
    Ok(name.len())
}

// string_value_after_its_bytes is refused: borrow-e0505
//! The value of a version string is kept after the vector with the file's bytes is gone.

use pe_core::Result;
use pe_resource::ResourceString;

pub fn length_of(bytes: Vec<u8>) -> Result<usize> {
    let mut offset = 0;
    let string = ResourceString::parse(&bytes, &mut offset)?;
    drop(bytes);
    match string {
        Some(string) => Ok(string.value.len()),
        None => Ok(0),
    }
}
