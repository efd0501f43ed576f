//! How frames are unwound, as STACK CFI: the canonical frame address (CFA, the stack pointer of the caller), the return address and the
//! registers that a function saved, at each of its addresses. They are what a step of the library's unwinder does there, on x64 and ARM64.
//! On x64 it is asked without the bytes of the code: records say nothing of epilogs that this format could have, so theirs is that of the
//! body. See Microsoft's pages on [x64](https://learn.microsoft.com/cpp/build/exception-handling-x64) and
//! [ARM64](https://learn.microsoft.com/cpp/build/arm64-exception-handling).

mod asked;

use super::SymbolFile;
use crate::facts::{counted, Refusal};
use asked::{initial, source_of, Address, Memory, Value};
use pe_c::{Arm64Code, Arm64Function, Arm64Functions, Arm64Operation, Arm64Registers, Arm64Unwinding, Error};
use pe_c::{Function, Functions, Image, Register, Registers, UnwindRecord};
use std::collections::{BTreeMap, BTreeSet};
use std::fmt::Write;

/// How many records a function is chained to at most.
const MOST_CHAINED: usize = 32;
/// How many steps are made and bytes written for each byte of the image: of a hostile one all functions may share one long record.
const STEPS_A_BYTE: usize = 16;
/// How many instructions a prolog or an epilog has at most that packed unwind data stand for.
const PACKED: u32 = 24;
const RSP: usize = 4;
const LR: usize = 30;

/// Writes those of an image, and those of functions that no record covers: these are leaves, which change no register that a caller keeps.
pub fn put(image: &Image<'_>, leaves: &[(u32, u32)], file: &mut SymbolFile) {
    let mut writer = Writer { left: image.bytes().len().saturating_mul(STEPS_A_BYTE), ..Writer::default() };
    match (image.functions(), image.arm64_functions()) {
        (Ok(Some(functions)), _) => {
            let begins = functions.iter().map(|it| it.begin).collect();
            put_leaves(
                begins,
                leaves,
                |rva| matches!(functions.find(rva), Ok(None)),
                (&Rules::x64_leaf(), x64_name),
                file,
            );
            functions.iter().for_each(|it| writer.add(file, |writer| writer.x64(&functions, it)));
        }
        (_, Ok(Some(functions))) => {
            let begins = functions.iter().map(|it| it.begin).collect();
            let is_leaf = |rva| matches!(functions.find(rva), Ok(None));
            put_leaves(begins, leaves, is_leaf, (&Rules::arm64_leaf(), arm64_name), file);
            functions.iter().for_each(|it| writer.add(file, |writer| writer.arm64(&functions, it)));
        }
        (Err(error), _) | (_, Err(error)) => return file.complain("function table", Refusal::from(error)),
        _ => return,
    }
    writer.complain(file);
}

/// Writes of these functions those that start in no entry of the table, up to the next entry.
fn put_leaves(
    mut begins: Vec<u32>,
    leaves: &[(u32, u32)],
    is_leaf: impl Fn(u32) -> bool,
    (rules, name): (&Rules, Name),
    file: &mut SymbolFile,
) {
    begins.sort_unstable();
    let rules = rules.lines(name).after(&Lines::default());
    for &(start, end) in leaves.iter().filter(|it| is_leaf(it.0)) {
        let next = begins.get(begins.partition_point(|it| *it < start)).copied().unwrap_or(u32::MAX);
        let size = end.min(next).saturating_sub(start);
        file.line(format_args!("STACK CFI INIT {start:x} {size:x} {rules}"));
    }
}

/// The name of a register, of which 0 is the stack pointer.
type Name = fn(usize) -> String;

fn x64_name(register: usize) -> String {
    format!("${}", Register(register.checked_sub(1).unwrap_or(RSP) as u8).name())
}

fn arm64_name(register: usize) -> String {
    register.checked_sub(1).map_or("sp".to_string(), |it| format!("x{it}"))
}

/// Where a caller's stack pointer, its instruction pointer and the registers come from that are not as they were.
struct Rules {
    cfa: Value,
    ra: Value,
    saved: BTreeMap<usize, Value>,
}

impl Rules {
    /// Those of the registers of a caller.
    fn of(cfa: u64, ra: u64, general: impl Iterator<Item = (usize, u64)>) -> Result<Rules, String> {
        let source = |it: u64| source_of(it).ok_or_else(|| "a register is reckoned of what was read".to_string());
        let changed = general.map(|(number, value)| (number + 1, value)).filter(|it| it.1 != initial(it.0));
        let saved = changed.map(|(register, value)| Ok((register, source(value)?)));
        Ok(Rules { cfa: source(cfa)?, ra: source(ra)?, saved: saved.collect::<Result<_, String>>()? })
    }

    fn x64_leaf() -> Rules {
        let at = |offset| Address { register: 0, offset };
        Rules { cfa: Value::Address(at(8)), ra: Value::Word(at(0)), saved: BTreeMap::new() }
    }

    fn arm64_leaf() -> Rules {
        let (cfa, ra) = (Address { register: 0, offset: 0 }, Address { register: LR + 1, offset: 0 });
        Rules { cfa: Value::Address(cfa), ra: Value::Address(ra), saved: BTreeMap::new() }
    }

    fn lines(&self, name: Name) -> Lines {
        let own = |it: Value| match (it, self.cfa) {
            (Value::Word(at), Value::Address(cfa)) if at.register == cfa.register => match cfa.offset - at.offset {
                below @ 0.. => format!(".cfa {below} - ^"),
                below => format!(".cfa {} + ^", -below),
            },
            (Value::Address(Address { register, offset: 0 }), _) => name(register),
            (it, _) => text_of(it, name),
        };
        let pointers = [(".cfa", text_of(self.cfa, name)), (".ra", own(self.ra))];
        let pointers = pointers.map(|(name, rule)| ((0, name.to_string()), rule));
        let saved = self.saved.iter().map(|(register, value)| ((*register, name(*register)), own(*value)));
        Lines(pointers.into_iter().chain(saved).collect())
    }
}

/// A value, in Polish notation.
fn text_of(value: Value, name: Name) -> String {
    let sum = |Address { register, offset }: Address| match offset {
        0.. => format!("{} {offset} +", name(register)),
        _ => format!("{} {} -", name(register), -offset),
    };
    match value {
        Value::Address(it) => sum(it),
        Value::Word(it) => format!("{} ^", sum(it)),
    }
}

/// The rules as text, by their registers: that of the CFA and the return address first.
#[derive(Default)]
struct Lines(BTreeMap<(usize, String), String>);

impl Lines {
    /// Those that differ from what held before. A register that was saved and is so no more has its own value.
    fn after(&self, last: &Lines) -> String {
        let mut text = String::new();
        let changed = self.0.iter().filter(|it| last.0.get(it.0) != Some(it.1)).map(|((_, name), rule)| (name, rule));
        let restored = last.0.keys().filter(|it| !self.0.contains_key(it)).map(|(_, name)| (name, name));
        for (name, rule) in changed.chain(restored) {
            // Writing to a text never fails.
            let _ = write!(text, "{}{name}: {rule}", if text.is_empty() { "" } else { " " });
        }
        text
    }
}

/// Writes functions, as long as there are steps and bytes left.
#[derive(Default)]
struct Writer {
    memory: Memory,
    left: usize,
    refused: usize,
    first: Option<String>,
    left_out: usize,
}

impl Writer {
    fn add(&mut self, file: &mut SymbolFile, lines_of: impl FnOnce(&mut Writer) -> Result<String, String>) {
        if self.left == 0 {
            self.left_out += 1;
            return;
        }
        match lines_of(self) {
            Ok(lines) => {
                self.left = self.left.saturating_sub(lines.len());
                file.text += &lines;
            }
            Err(why) => {
                self.refused += 1;
                self.first.get_or_insert(why);
            }
        }
    }

    fn complain(self, file: &mut SymbolFile) {
        if let Some(why) = self.first {
            let all = counted(self.refused, "function");
            file.complain("unwind records", format_args!("{all} refused, the first: {why}"));
        }
        if self.left_out > 0 {
            let all = counted(self.left_out, "function");
            let why = "more of them share records than the file's bytes account for";
            file.complain("unwind records", format_args!("{all} left out: {why}"));
        }
    }

    /// The lines of a function: what holds at its start, and what changes at others of its offsets. A step costs so much.
    fn lines(
        &mut self,
        (begin, size, name): (u32, u32, Name),
        (mut offsets, cost): (BTreeSet<u32>, usize),
        rules: impl Fn(&mut Memory, u32) -> Result<Rules, String>,
    ) -> Result<String, String> {
        offsets.insert(0);
        let (mut last, mut text) = (Lines::default(), String::new());
        for offset in offsets.into_iter().take_while(|it| *it < size) {
            self.left = self.left.saturating_sub(cost);
            let lines = rules(&mut self.memory, begin.saturating_add(offset))?.lines(name);
            // Writing to a text never fails.
            let _ = match (offset, lines.after(&last)) {
                (0, rules) => writeln!(text, "STACK CFI INIT {begin:x} {size:x} {rules}"),
                (_, rules) if rules.is_empty() => Ok(()),
                (_, rules) => writeln!(text, "STACK CFI {:x} {rules}", begin.saturating_add(offset)),
            };
            last = lines;
        }
        Ok(text)
    }

    fn x64(&mut self, functions: &Functions<'_, '_>, function: Function) -> Result<String, String> {
        let records: Vec<_> = functions.plan(function).take(MOST_CHAINED + 1).collect();
        let cost = cost_of(functions, function, &records);
        self.left = self.left.saturating_sub(cost);
        let own = match records.first() {
            Some(Ok(own)) => own,
            Some(Err(error)) => return Err(Refusal::from(*error).to_string()),
            None => return Ok(String::new()),
        };
        let offsets = own.codes().flatten().map(|it| it.code_offset.into()).collect();
        let mut before = Registers { general: std::array::from_fn(|it| initial(it + 1)), ..Registers::default() };
        before.set_rsp(initial(0));
        let size = function.end.saturating_sub(function.begin);
        self.lines((function.begin, size, x64_name), (offsets, cost), |memory, rva| {
            let caller = memory.step(|memory| functions.step_pieces(function, rva, &[], &before, memory))?.registers;
            let general = caller.general.into_iter().enumerate().filter(|it| it.0 != RSP);
            Rules::of(caller.rsp(), caller.rip, general)
        })
    }

    fn arm64(&mut self, functions: &Arm64Functions<'_, '_>, function: Arm64Function) -> Result<String, String> {
        let (size, offsets, cost) = arm64_offsets(functions, function, &mut self.left)?;
        let before = Arm64Registers {
            general: std::array::from_fn(|it| initial(it + 1)),
            sp: initial(0),
            ..Arm64Registers::default()
        };
        self.lines((function.begin, size, arm64_name), (offsets, cost), |memory, rva| {
            let caller = memory.step(|memory| functions.step_pieces(function, rva, &before, memory))?.registers;
            Rules::of(caller.sp, caller.pc, caller.general.into_iter().enumerate())
        })
    }
}

/// How many steps it takes to read the records of a function. A link may lead through the whole table, and so may one that is refused.
fn cost_of(functions: &Functions<'_, '_>, function: Function, records: &[Result<UnwindRecord<'_>, Error>]) -> usize {
    let read = || records.iter().flatten();
    let is_link = |it: &Function| it.unwind % 2 == 1;
    let chained = read().filter_map(|it| it.chained()).filter(is_link).count();
    let links = usize::from(is_link(&function)) + chained + usize::from(records.iter().any(|it| it.is_err()));
    read().map(|it| it.codes().count() + 1).sum::<usize>() + links * functions.len() as usize
}

/// The size of a function of ARM64; the offsets of instructions of its prolog and its epilogs, where there are some; and how many codes
/// and scopes a step reads at most.
fn arm64_offsets(
    functions: &Arm64Functions<'_, '_>,
    function: Arm64Function,
    left: &mut usize,
) -> Result<(u32, BTreeSet<u32>, usize), String> {
    let refused = |error: Error| Refusal::from(error).to_string();
    let record = match functions.unwinding(function).map_err(refused)? {
        Arm64Unwinding::Record(record) => record,
        Arm64Unwinding::Packed(packed) => {
            let size = packed.function_length;
            let offsets = (0..=PACKED).flat_map(|it| [4 * it, size.saturating_sub(4 * it)]);
            return Ok((size, offsets.collect(), PACKED as usize));
        }
    };
    let (size, mut offsets, mut cost) = (record.function_length(), BTreeSet::new(), 1);
    // A code stands for an instruction, and after those of an epilog is the return.
    let mut put = |index: u32, start_of: &dyn Fn(u32) -> u32| {
        let is_end = |it: &Result<Arm64Code, Error>| matches!(it, Ok(it) if it.operation == Arm64Operation::End);
        let count = record.codes(index).map_err(refused)?.take_while(|it| !is_end(it)).count();
        let (length, most) = (4 * (count as u32 + 1), cost.max(count + 1));
        let start = start_of(length);
        offsets.extend((start..=start.saturating_add(length)).step_by(4).filter(|it| *it < size));
        (*left, cost) = (left.saturating_sub(count + 1), most);
        Ok::<bool, String>(*left > 0)
    };
    put(0, &|_| 0)?;
    if let Some(index) = record.epilog_start() {
        put(index, &|length| size.saturating_sub(length))?;
    }
    let mut scopes = 0;
    for scope in record.scopes().flatten() {
        scopes += 1;
        if !put(scope.start_index, &|_| scope.start_offset)? {
            break;
        }
    }
    Ok((size, offsets, cost + scopes))
}
