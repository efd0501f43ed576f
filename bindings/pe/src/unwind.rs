//! How functions are unwound: of x64 the entry, the unwind records up to the root of their chain, and what each code says of the
//! prolog, in the words of [Microsoft's page](https://learn.microsoft.com/cpp/build/exception-handling-x64). `arm64` has the other
//! machine.

mod arm64;

use crate::facts::{Budget, List, Origin, Refusal, ENTRY};
use crate::files::Report;
use crate::page::Style;
use crate::Status;
use pe_c::{Code, Error, Function, Functions, Handler, Image, Offset, Operation, Register, UnwindRecord};
use serde::Serialize;
use std::path::Path;

/// How many records of a chain are shown. Linkers chain two or three; in a hostile file as many as it has room for.
const RECORDS: usize = 256;

/// What is asked of each image.
#[derive(Clone, Copy, Debug)]
pub struct Asked {
    /// Of one function, or all.
    pub rva: Option<u32>,
    pub is_json: bool,
    /// Whether the text says which image it is of.
    pub is_named: bool,
}

/// What is said of the functions that were asked for.
#[derive(Debug, Serialize)]
struct Answer {
    #[serde(flatten)]
    origin: Origin,
    /// `x64`, `ARM64`, or null without functions of these.
    machine: Option<&'static str>,
    /// The RVA that was asked for, or null for all functions.
    rva: Option<u32>,
    /// Empty where no function covers the RVA, as of a leaf function.
    functions: Vec<Unwound>,
    /// Whether there are more functions, whose records are shared and too many to be shown as often.
    functions_is_limited: bool,
    /// Why the functions are refused.
    error: Option<Refusal>,
}

/// A function of one machine.
#[derive(Debug, Serialize)]
#[serde(untagged)]
enum Unwound {
    X64(Unwinding),
    Arm64(arm64::Unwinding),
}

#[derive(Debug, Serialize)]
struct Unwinding {
    start_rva: u32,
    end_rva: u32,
    unwind_rva: u32,
    /// From the function's own up to the root of their chain.
    records: Vec<Record>,
    /// Whether the chain goes on after `RECORDS` records.
    records_is_limited: bool,
    /// Of the record that would come next.
    records_error: Option<Refusal>,
}

#[derive(Debug, Serialize)]
struct Record {
    version: u8,
    size_of_prolog: u8,
    frame_register: Option<&'static str>,
    frame_register_offset: Option<u32>,
    /// `exception` or `termination`.
    handler_kind: Option<&'static str>,
    handler_rva: Option<u32>,
    codes: Vec<CodeText>,
    codes_error: Option<Refusal>,
}

#[derive(Debug, Serialize)]
struct CodeText {
    /// Of x64 bytes from the start of the prolog to the end of the instruction; of ARM64 bytes from the start of the codes.
    code_offset: u32,
    operation: &'static str,
    /// What the instruction did.
    text: String,
}

/// The words of a code: its operation, and what its instruction did.
fn words_of(code: &Code, frame: Option<(Register, u32)>) -> (&'static str, String) {
    let place = |offset: Offset| match (offset, frame) {
        (Offset::Stack(bytes), _) => format!("[rsp + {bytes}]"),
        (Offset::Frame(bytes), Some((register, start))) => format!("[{} - {start} + {bytes}]", register.name()),
        (Offset::Frame(bytes), None) => format!("[frame + {bytes}]"),
    };
    match code.operation {
        Operation::Push(register) => ("UWOP_PUSH_NONVOL", format!("push {}", register.name())),
        Operation::Alloc(bytes) => ("UWOP_ALLOC", format!("allocate {bytes} bytes of stack")),
        Operation::SetFrame => (
            "UWOP_SET_FPREG",
            frame.map_or(String::new(), |(register, offset)| format!("set {} to rsp + {offset}", register.name())),
        ),
        Operation::Save(register, offset) => {
            ("UWOP_SAVE_NONVOL", format!("save {} at {}", register.name(), place(offset)))
        }
        Operation::SaveXmm(register, offset) => {
            ("UWOP_SAVE_XMM", format!("save the low half of {} at {}", register.name(), place(offset)))
        }
        Operation::SaveXmm128(register, offset) => {
            ("UWOP_SAVE_XMM128", format!("save {} at {}", register.name(), place(offset)))
        }
        Operation::Epilog { size_or_low, flags_or_high } => {
            ("UWOP_EPILOG", format!("an epilog: {size_or_low}, flags {flags_or_high}"))
        }
        Operation::MachineFrame { has_error_code: true } => {
            ("UWOP_PUSH_MACHFRAME", "machine frame with an error code".into())
        }
        Operation::MachineFrame { has_error_code: false } => ("UWOP_PUSH_MACHFRAME", "machine frame".into()),
        _ => ("UWOP_SPARE", "nothing to undo".into()),
    }
}

fn record_of(record: &UnwindRecord<'_>) -> Record {
    let (mut codes, mut error) = (Vec::new(), None);
    for code in record.codes() {
        match code {
            Ok(code) => {
                let (operation, text) = words_of(&code, record.frame());
                codes.push(CodeText { code_offset: code.code_offset.into(), operation, text });
            }
            Err(found) => error = Some(found.into()),
        }
    }
    let (handler_kind, handler_rva) = match record.handler() {
        Some(Handler::Exception(rva, _)) => (Some("exception"), Some(rva)),
        Some(Handler::Termination(rva, _)) => (Some("termination"), Some(rva)),
        None => (None, None),
    };
    Record {
        version: record.version(),
        size_of_prolog: record.size_of_prolog(),
        frame_register: record.frame().map(|it| it.0.name()),
        frame_register_offset: record.frame().map(|it| it.1),
        handler_kind,
        handler_rva,
        codes,
        codes_error: error,
    }
}

/// A function, if its records are few enough for what is left.
fn unwinding_of(functions: &Functions<'_, '_>, function: Function, budget: &mut Budget) -> Option<Unwinding> {
    let mut left = RECORDS;
    let List { entries: records, error, is_limited } = List::limited(functions.plan(function), |record| {
        left = left.checked_sub(1)?;
        Some(record_of(&record))
    });
    let codes: usize = records.iter().map(|it| it.codes.len() + 1).sum();
    budget.takes(ENTRY * (codes + 1)).then_some(Unwinding {
        start_rva: function.begin,
        end_rva: function.end,
        unwind_rva: function.unwind,
        records,
        records_is_limited: is_limited,
        records_error: error,
    })
}

impl Unwinding {
    fn text(&self) -> String {
        let mut text = format!("function {:#x} to {:#x}\n", self.start_rva, self.end_rva);
        for (index, record) in self.records.iter().enumerate() {
            let which = if index == 0 { "record" } else { "chained to a record" };
            text += &format!("  {which} of version {}, a prolog of {} bytes\n", record.version, record.size_of_prolog);
            for code in &record.codes {
                text += &format!("    after {:3} bytes  {:20}{}\n", code.code_offset, code.operation, code.text);
            }
            if let (Some(kind), Some(rva)) = (record.handler_kind, record.handler_rva) {
                text += &format!("    {kind} handler at {rva:#x}\n");
            }
            text += &record.codes_error.as_ref().map_or(String::new(), |error| format!("    {error}\n"));
        }
        if self.records_is_limited {
            text += &format!("  and more records: the first {RECORDS} are shown\n");
        }
        text + &self.records_error.as_ref().map_or(String::new(), |error| format!("  {error}\n"))
    }

    fn is_refused(&self) -> bool {
        self.records_error.is_some() || self.records.iter().any(|record| record.codes_error.is_some())
    }
}

impl Unwound {
    fn text(&self) -> String {
        match self {
            Unwound::X64(it) => it.text(),
            Unwound::Arm64(it) => it.text(),
        }
    }

    fn is_refused(&self) -> bool {
        match self {
            Unwound::X64(it) => it.is_refused(),
            Unwound::Arm64(it) => it.is_refused(),
        }
    }
}

impl Answer {
    fn of(path: &Path, rva: Option<u32>) -> Answer {
        let origin = Origin::of(path);
        Answer { origin, machine: None, rva, functions: Vec::new(), functions_is_limited: false, error: None }
    }

    /// Takes functions as long as they are few enough.
    fn take(&mut self, found: impl Iterator<Item = Option<Unwound>>) {
        for function in found {
            match function {
                Some(function) => self.functions.push(function),
                None => {
                    self.functions_is_limited = true;
                    break;
                }
            }
        }
    }

    fn text(&self) -> String {
        if self.machine.is_none() {
            return "the image has no functions of x64 or ARM64\n".to_string();
        }
        if let (Some(rva), []) = (self.rva, self.functions.as_slice()) {
            return format!("no function with unwind data covers {rva:#x}: if code is there, it is a leaf function\n");
        }
        let more = if self.functions_is_limited { "and more functions\n" } else { "" };
        self.functions.iter().map(Unwound::text).collect::<String>() + more
    }

    fn is_refused(&self) -> bool {
        self.error.is_some() || self.functions.iter().any(Unwound::is_refused)
    }
}

/// Puts the functions of an image that cover an RVA, or all of them, into the answer.
fn put(image: &Image<'_>, answer: &mut Answer) -> Result<(), Error> {
    let mut budget = Budget::of(image);
    if let Some(functions) = image.functions()? {
        answer.machine = Some("x64");
        let mut unwound = |it| unwinding_of(&functions, it, &mut budget).map(Unwound::X64);
        match answer.rva {
            Some(rva) => answer.take(functions.find(rva)?.into_iter().map(&mut unwound)),
            None => answer.take(functions.iter().map(&mut unwound)),
        }
        return Ok(());
    }
    let Some(functions) = image.arm64_functions()? else { return Ok(()) };
    answer.machine = Some("ARM64");
    let mut unwound = |it| arm64::unwinding_of(&functions, it, &mut budget).map(Unwound::Arm64);
    match answer.rva {
        Some(rva) => answer.take(functions.find(rva)?.into_iter().map(&mut unwound)),
        None => answer.take(functions.iter().map(&mut unwound)),
    }
    Ok(())
}

/// The text or the JSON of how functions are unwound. As text a refusal goes to standard error.
pub fn report(path: &Path, image: Result<Image<'_>, Error>, asked: Asked) -> Report {
    let mut answer = Answer::of(path, asked.rva);
    if let Err(error) = image.and_then(|image| put(&image, &mut answer)) {
        answer = Answer { error: Some(error.into()), ..Answer::of(path, asked.rva) };
    }
    let status = if answer.is_refused() { Status::Refused } else { Status::Done };
    let named = if asked.is_named { format!("{}\n", answer.origin.shown_file()) } else { String::new() };
    match &answer.error {
        _ if asked.is_json => Report::of(crate::json(&answer), status),
        Some(refusal) => Report::refused(path, refusal),
        None => Report::of(Style::of_stdout().fitted(named + &answer.text()), status),
    }
}
