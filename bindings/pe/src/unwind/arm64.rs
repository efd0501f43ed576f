//! The same of ARM64: unwind data packed into the entry, or a record with codes of the prolog and of epilogs, with the names of
//! [Microsoft's page](https://learn.microsoft.com/cpp/build/arm64-exception-handling).

use super::CodeText;
use crate::facts::{Budget, Refusal, ENTRY};
use pe_c::{
    Arm64Codes, Arm64Function, Arm64Functions, Arm64Operation, Arm64Record, Arm64Unwinding, Error, RegisterKind,
};
use serde::Serialize;

#[derive(Debug, Serialize)]
pub struct Unwinding {
    start_rva: u32,
    /// Null where the unwind data is refused, which has the length.
    end_rva: Option<u32>,
    /// Packed unwind data, or the RVA of the record.
    unwind: u32,
    /// What packed unwind data says, in words, or null.
    packed: Option<String>,
    prolog: Vec<CodeText>,
    epilogs: Vec<Epilog>,
    handler_rva: Option<u32>,
    /// Of the record or of a code.
    error: Option<Refusal>,
}

#[derive(Debug, Serialize)]
struct Epilog {
    /// Bytes from the start of the function, or null of the one epilog at its end.
    start_offset: Option<u32>,
    codes: Vec<CodeText>,
}

/// The words of registers that are saved at an offset: `x` is the letter of the first.
fn saved(letter: char, first: u8, is_pair: bool, offset: u32) -> String {
    let next = if is_pair { format!(" and {letter}{}", u32::from(first) + 1) } else { String::new() };
    format!("save {letter}{first}{next} at [sp + {offset}]")
}

/// The same, after sp was moved down.
fn saved_lower(letter: char, first: u8, is_pair: bool, offset: u32) -> String {
    let next = if is_pair { format!(" and {letter}{}", u32::from(first) + 1) } else { String::new() };
    format!("move sp down by {offset}, save {letter}{first}{next} there")
}

/// The name of a code, and what its instruction did.
fn words_of(operation: Arm64Operation) -> (&'static str, String) {
    use Arm64Operation::*;
    match operation {
        AllocSmall { size } => ("alloc_s", format!("allocate {size} bytes of stack")),
        AllocMedium { size } => ("alloc_m", format!("allocate {size} bytes of stack")),
        AllocLarge { size } => ("alloc_l", format!("allocate {size} bytes of stack")),
        AllocZ { count } => ("alloc_z", format!("allocate {count} lengths of a vector of stack")),
        SaveR19R20Preindexed { offset } => ("save_r19r20_x", saved_lower('x', 19, true, offset)),
        SaveFpLr { offset } => ("save_fplr", format!("save x29 and lr at [sp + {offset}]")),
        SaveFpLrPreindexed { offset } => ("save_fplr_x", format!("move sp down by {offset}, save x29 and lr there")),
        SaveRegPair { first, offset } => ("save_regp", saved('x', first, true, offset)),
        SaveRegPairPreindexed { first, offset } => ("save_regp_x", saved_lower('x', first, true, offset)),
        SaveReg { register, offset } => ("save_reg", saved('x', register, false, offset)),
        SaveRegPreindexed { register, offset } => ("save_reg_x", saved_lower('x', register, false, offset)),
        SaveLrPair { first, offset } => ("save_lrpair", format!("save x{first} and lr at [sp + {offset}]")),
        SaveFRegPair { first, offset } => ("save_fregp", saved('d', first, true, offset)),
        SaveFRegPairPreindexed { first, offset } => ("save_fregp_x", saved_lower('d', first, true, offset)),
        SaveFReg { register, offset } => ("save_freg", saved('d', register, false, offset)),
        SaveFRegPreindexed { register, offset } => ("save_freg_x", saved_lower('d', register, false, offset)),
        SaveAnyReg { kind, pair, preindexed, register, offset } => {
            let letter = match kind {
                RegisterKind::Integer => 'x',
                RegisterKind::Float => 'd',
                _ => 'q',
            };
            let words = if preindexed { saved_lower } else { saved };
            ("save_any_reg", words(letter, register, pair, offset))
        }
        SaveZReg { register, number } => ("save_zreg", format!("save z{register} at number {number}")),
        SavePReg { register, number } => ("save_preg", format!("save p{register} at number {number}")),
        SetFp => ("set_fp", "set x29 to sp".into()),
        AddFp { offset } => ("add_fp", format!("set x29 to sp + {offset}")),
        Nop => ("nop", "nothing to undo".into()),
        End => ("end", "the end".into()),
        EndC => ("end_c", "the end of a chained fragment".into()),
        SaveNext => ("save_next", "save the next pair of registers".into()),
        Custom(case) => ("custom", format!("a frame of the system: {case:?}")),
        PacSignLr => ("pac_sign_lr", "sign lr".into()),
        Reserved { opcode, value } => ("reserved", format!("opcode {opcode:#x}, {value:#x}")),
        _ => ("unknown", String::new()),
    }
}

/// Codes up to their end, and why there are no more.
fn codes_of(codes: Result<Arm64Codes<'_>, Error>) -> (Vec<CodeText>, Option<Error>) {
    let mut texts = Vec::new();
    let codes = match codes {
        Ok(codes) => codes,
        Err(error) => return (texts, Some(error)),
    };
    for code in codes {
        match code {
            Ok(code) => {
                let (operation, text) = words_of(code.operation);
                texts.push(CodeText { code_offset: code.offset, operation, text });
                if matches!(code.operation, Arm64Operation::End | Arm64Operation::EndC) {
                    break;
                }
            }
            Err(error) => return (texts, Some(error)),
        }
    }
    (texts, None)
}

/// Adds what a record says. Returns false where it is too much for what is left.
fn put_record(record: &Arm64Record<'_>, to: &mut Unwinding, budget: &mut Budget) -> bool {
    to.end_rva = to.start_rva.checked_add(record.function_length());
    to.handler_rva = record.handler().map(|it| it.0);
    let (prolog, mut error) = codes_of(record.codes(0));
    to.prolog = prolog;
    let in_header = record.epilog_start().map(|start| (None, start));
    let scopes = record.scopes().flatten().map(|it| (Some(it.start_offset), it.start_index));
    for (start_offset, start) in scopes.chain(in_header) {
        let (codes, refused) = codes_of(record.codes(start));
        if !budget.takes(ENTRY * (codes.len() + 1)) {
            return false;
        }
        error = error.or(refused);
        to.epilogs.push(Epilog { start_offset, codes });
    }
    to.error = error.map(Refusal::from);
    budget.takes(ENTRY * (to.prolog.len() + 1))
}

pub fn unwinding_of(
    functions: &Arm64Functions<'_, '_>,
    function: Arm64Function,
    budget: &mut Budget,
) -> Option<Unwinding> {
    let mut unwinding = Unwinding {
        start_rva: function.begin,
        end_rva: None,
        unwind: function.unwind,
        packed: None,
        prolog: Vec::new(),
        epilogs: Vec::new(),
        handler_rva: None,
        error: None,
    };
    match functions.unwinding(function) {
        Ok(Arm64Unwinding::Packed(it)) => {
            unwinding.end_rva = function.begin.checked_add(it.function_length);
            unwinding.packed = Some(format!(
                "{} bytes of stack, RegI {}, RegF {}, H {}, CR {}",
                it.frame_size, it.reg_i, it.reg_f, it.h, it.cr
            ));
            budget.takes(ENTRY).then_some(unwinding)
        }
        Ok(Arm64Unwinding::Record(record)) => put_record(&record, &mut unwinding, budget).then_some(unwinding),
        Err(error) => {
            unwinding.error = Some(error.into());
            budget.takes(ENTRY).then_some(unwinding)
        }
    }
}

impl Unwinding {
    pub fn text(&self) -> String {
        let end = self.end_rva.map_or(String::new(), |it| format!(" to {it:#x}"));
        let mut text = format!("function {:#x}{end}\n", self.start_rva);
        if let Some(packed) = &self.packed {
            text += &format!("  packed unwind data {:#x}: {packed}\n", self.unwind);
        }
        let put = |text: &mut String, codes: &[CodeText]| {
            for code in codes {
                *text += &format!("    {:14}{}\n", code.operation, code.text);
            }
        };
        if !self.prolog.is_empty() {
            text += "  prolog, from its end to its start\n";
            put(&mut text, &self.prolog);
        }
        for epilog in &self.epilogs {
            match epilog.start_offset {
                Some(offset) => text += &format!("  epilog at {:#x}\n", u64::from(self.start_rva) + u64::from(offset)),
                None => text += "  epilog at the end of the function\n",
            }
            put(&mut text, &epilog.codes);
        }
        if let Some(rva) = self.handler_rva {
            text += &format!("  handler at {rva:#x}\n");
        }
        text + &self.error.as_ref().map_or(String::new(), |error| format!("  {error}\n"))
    }

    pub fn is_refused(&self) -> bool {
        self.error.is_some()
    }
}
