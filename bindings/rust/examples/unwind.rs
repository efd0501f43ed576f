//! Shows the functions of an image of x64 or ARM64, their records and codes, one a line: `unwind FILE`. tools/compare_unwind
//! compares the lines with another reader.
//!
//! What no call returns is read from the bytes: three fields of an ARM64 record. A first line `strict` says that the image is
//! refused in strict mode; the lines after it are those of permissive mode.

use pe_c::{
    Arm64Code, Arm64Operation, Arm64Record, Arm64Unwinding, Code, CustomStack, Error, Function, Handler, Image, Mode,
    Offset, Operation, RegisterKind, UnwindRecord,
};

/// A directory, or nothing where it is refused, as in permissive mode.
fn there<T>(answer: Result<Option<T>, Error>) -> Option<T> {
    answer.ok().flatten()
}

fn show_function(word: &str, function: Function) {
    println!("{word} {:08x} {:08x} {:08x}", function.begin, function.end, function.unwind);
}

fn offset_of(offset: Offset) -> String {
    match offset {
        Offset::Stack(bytes) => format!("RSP({bytes})"),
        Offset::Frame(bytes) => format!("FP({bytes})"),
    }
}

fn show_code(code: Code) {
    let operation = match code.operation {
        Operation::Push(register) => format!("PushNonVolatile({register:?})"),
        Operation::Alloc(size) => format!("Alloc({size})"),
        Operation::SetFrame => "SetFPRegister".to_owned(),
        Operation::Save(register, offset) => format!("SaveNonVolatile({register:?}, {})", offset_of(offset)),
        Operation::SaveXmm(register, offset) => format!("SaveXMM({register:?}, {})", offset_of(offset)),
        Operation::Epilog { size_or_low, flags_or_high } => {
            format!("Epilog {{ offset_low_or_size: {size_or_low}, offset_high_or_flags: {flags_or_high} }}")
        }
        Operation::SaveXmm128(register, offset) => format!("SaveXMM128({register:?}, {})", offset_of(offset)),
        Operation::MachineFrame { has_error_code } => format!("PushMachineFrame({has_error_code})"),
        Operation::Noop => "Noop".to_owned(),
        _ => "?".to_owned(),
    };
    println!("code {} {operation}", code.code_offset);
}

fn show_record(record: &UnwindRecord) {
    let raw = record.raw();
    println!(
        "record {} {} {} {}",
        record.version(),
        record.size_of_prolog(),
        raw.codes.frame_register,
        raw.frame_register_offset
    );
    for code in record.codes() {
        match code {
            Ok(code) => show_code(code),
            Err(error) => println!("refused {error:?}"),
        }
    }
    match record.handler() {
        Some(Handler::Exception(address, data)) => println!("handler exception {address:08x} {}", data.len()),
        Some(Handler::Termination(address, data)) => println!("handler termination {address:08x} {}", data.len()),
        None => {}
    }
    if let Some(function) = record.chained() {
        show_function("chained", function);
    }
}

fn show_x64(image: &Image) {
    let Some(functions) = there(image.functions()) else {
        return;
    };
    for function in functions.iter() {
        show_function("function", function);
        match functions.record(function) {
            Ok(record) => show_record(&record),
            Err(error) => println!("refused {error:?}"),
        }
    }
}

fn arm64_operation(operation: Arm64Operation) -> String {
    use Arm64Operation::*;
    match operation {
        AllocSmall { size } => format!("AllocSmall {{ size_bytes: {size} }}"),
        SaveR19R20Preindexed { offset } => format!("SaveR19R20Preindexed {{ offset_bytes: {offset} }}"),
        SaveFpLr { offset } => format!("SaveFpLr {{ offset_bytes: {offset} }}"),
        SaveFpLrPreindexed { offset } => format!("SaveFpLrPreindexed {{ offset_bytes: {offset} }}"),
        AllocMedium { size } => format!("AllocMedium {{ size_bytes: {size} }}"),
        SaveRegPair { first, offset } => format!("SaveRegPair {{ first_reg: {first}, offset_bytes: {offset} }}"),
        SaveRegPairPreindexed { first, offset } => {
            format!("SaveRegPairPreindexed {{ first_reg: {first}, offset_bytes: {offset} }}")
        }
        SaveReg { register, offset } => format!("SaveReg {{ reg: {register}, offset_bytes: {offset} }}"),
        SaveRegPreindexed { register, offset } => {
            format!("SaveRegPreindexed {{ reg: {register}, offset_bytes: {offset} }}")
        }
        SaveLrPair { first, offset } => format!("SaveLrPair {{ first_reg: {first}, offset_bytes: {offset} }}"),
        SaveFRegPair { first, offset } => format!("SaveFRegPair {{ first_reg: {first}, offset_bytes: {offset} }}"),
        SaveFRegPairPreindexed { first, offset } => {
            format!("SaveFRegPairPreindexed {{ first_reg: {first}, offset_bytes: {offset} }}")
        }
        SaveFReg { register, offset } => format!("SaveFReg {{ reg: {register}, offset_bytes: {offset} }}"),
        SaveFRegPreindexed { register, offset } => {
            format!("SaveFRegPreindexed {{ reg: {register}, offset_bytes: {offset} }}")
        }
        AllocZ { count } => format!("AllocZ {{ count: {count} }}"),
        AllocLarge { size } => format!("AllocLarge {{ size_bytes: {size} }}"),
        AddFp { offset } => format!("AddFp {{ imm8: {}, offset_bytes: {offset} }}", offset / 8),
        SaveAnyReg { kind, pair, preindexed, register, offset } => {
            let kind = match kind {
                RegisterKind::Integer => 0,
                RegisterKind::Float => 1,
                RegisterKind::Vector => 2,
                _ => u8::MAX,
            };
            format!(
                "SaveAnyReg {{ kind: {kind}, pair: {pair}, preindexed: {preindexed}, reg: {register}, \
                 offset_bytes: {offset} }}"
            )
        }
        SaveZReg { register, number } => format!("SaveZReg {{ r: {register}, o: {number} }}"),
        SavePReg { register, number } => format!("SavePReg {{ r: {register}, o: {number} }}"),
        Custom(case) => {
            let case = match case {
                CustomStack::TrapFrame => "TrapFrame",
                CustomStack::MachineFrame => "MachineFrame",
                CustomStack::Context => "Context",
                CustomStack::EcContext => "EcContext",
                CustomStack::ClearUnwoundToCall => "ClearUnwoundToCall",
                _ => "?",
            };
            format!("CustomStack({case})")
        }
        plain @ (SetFp | Nop | End | EndC | SaveNext | PacSignLr) => format!("{plain:?}"),
        Reserved { .. } => "Reserved".to_owned(),
        _ => "?".to_owned(),
    }
}

fn show_arm64_code(code: Arm64Code) {
    let operation = match code.operation {
        Arm64Operation::Reserved { opcode, value } => {
            format!("Reserved {{ opcode: {opcode}, value: {value}, data_len: {} }}", code.length - 1)
        }
        operation => arm64_operation(operation),
    };
    println!("code {} {} {operation}", code.offset, code.length);
}

fn show_codes(record: &Arm64Record, start: u32) {
    println!("codes {start}");
    match record.codes(start) {
        Ok(codes) => {
            for code in codes {
                match code {
                    Ok(code) => show_arm64_code(code),
                    Err(error) => println!("refused {error:?}"),
                }
            }
        }
        Err(error) => println!("refused {error:?}"),
    }
}

/// The u32 at an offset that is known to be inside the bytes.
fn number_at(bytes: &[u8], offset: u64) -> u32 {
    let offset = offset as usize;
    u32::from_le_bytes(bytes[offset..offset + 4].try_into().expect("four bytes"))
}

fn show_arm64_record(bytes: &[u8], offset: u64, record: &Arm64Record) {
    let raw = record.raw();
    let (header, extension) = (number_at(bytes, offset), number_at(bytes, offset + 4));
    let (epilogs, words) = (header >> 22 & 31, header >> 27);
    let size = raw.codes.offset + raw.codes.length + 4 * u64::from(raw.has_handler) - offset;
    println!(
        "record64 {} {} {} {} {epilogs} {words} {size}",
        raw.function_length, raw.version, raw.has_handler, raw.epilog_in_header
    );
    if epilogs == 0 && words == 0 {
        println!("extension {} {}", extension & 0xFFFF, extension >> 16 & 0xFF);
    }
    if let Some((address, data)) = record.handler() {
        println!("handler64 {address:08x} {}", data.len());
    }
    show_codes(record, 0);
    if let Some(start) = record.epilog_start() {
        show_codes(record, start);
    }
    for scope in record.scopes() {
        match scope {
            Ok(scope) => {
                println!("scope {} {} {}", scope.start_offset, scope.reserved, scope.start_index);
                show_codes(record, scope.start_index);
            }
            Err(error) => println!("refused {error:?}"),
        }
    }
}

fn show_arm64(image: &Image) {
    let Some(functions) = there(image.arm64_functions()) else {
        return;
    };
    for function in functions.iter() {
        println!("function64 {:08x} {:08x}", function.begin, function.unwind);
        match functions.unwinding(function) {
            Ok(Arm64Unwinding::Packed(packed)) => println!(
                "packed {} {} {} {} {} {} {}",
                packed.flag, packed.function_length, packed.reg_f, packed.reg_i, packed.h, packed.cr, packed.frame_size
            ),
            Ok(Arm64Unwinding::Record(record)) => {
                let offset = image.offset(function.unwind).expect("the record was read");
                show_arm64_record(image.bytes(), offset, &record);
            }
            Err(error) => println!("refused {error:?}"),
        }
    }
}

fn show_unwind(image: &Image) {
    println!("machine {:04x}", image.info().machine);
    show_x64(image);
    show_arm64(image);
}

/// The first error of an image's libraries and functions.
fn refusal(image: &Image) -> Result<(), Error> {
    for library in image.libraries()? {
        library?.imports().try_for_each(|import| import.map(|_| ()))?;
    }
    image.functions()?;
    image.arm64_functions()?;
    Ok(())
}

/// The image in strict mode, or in permissive mode where strict mode refuses it.
fn read(bytes: &[u8]) -> Result<Image<'_>, Error> {
    let strict = Image::parse(bytes, Mode::Strict).and_then(|image| refusal(&image).map(|()| image));
    strict.or_else(|error| {
        println!("strict {error:?}");
        Image::parse(bytes, Mode::Permissive)
    })
}

fn main() {
    let words: Vec<String> = std::env::args().skip(1).collect();
    let [file] = words.as_slice() else {
        eprintln!("usage: unwind FILE");
        std::process::exit(2);
    };
    let bytes = match std::fs::read(file) {
        Ok(bytes) => bytes,
        Err(error) => {
            eprintln!("unwind: {file}: {error}");
            std::process::exit(3);
        }
    };
    match read(&bytes) {
        Ok(image) => show_unwind(&image),
        Err(error) => println!("refused {error:?}"),
    }
}
