//! Exception data: how to restore the registers of a function's caller, on x64 and on ARM64.
//!
//! A table has an entry for each function, sorted by its start RVA. On x64 an entry leads to a record of codes, each of which
//! undoes an instruction of the prolog; a record may be chained to that of another entry. On ARM64 an entry leads to a record,
//! or has the same packed into a number.
//! <https://learn.microsoft.com/cpp/build/exception-handling-x64>,
//! <https://learn.microsoft.com/cpp/build/arm64-exception-handling>

use super::data_directories::DataDirectory;
use super::header::{COFF_MACHINE_ARM64, COFF_MACHINE_X86_64};
use super::options::ParseOptions;
use super::section_table::SectionTable;
use crate::error;
use crate::raw::{self, Index, Refusal, View};
use core::{fmt, iter::FusedIterator, mem::size_of, mem::MaybeUninit};
use pe_c::sys;
use scroll::{Pread, Pwrite, SizeWith};

/// Bytes of a [`RuntimeFunction`] and of a slot of an unwind code.
const RUNTIME_FUNCTION_SIZE: usize = 12;
const UNWIND_CODE_SIZE: usize = 2;

/// An entry of the scope table of a C handler: a `__try` block.
#[derive(Debug, Copy, Clone, Default, PartialEq, Hash, Pread, Pwrite, SizeWith)]
#[repr(C)]
pub struct ScopeTableEntry {
    /// RVA of the first guarded byte.
    pub begin: u32,
    /// RVA after the last guarded byte.
    pub end: u32,
    /// RVA of the filter or of the `__finally` block; 1 means `EXCEPTION_EXECUTE_HANDLER`.
    pub handler: u32,
    /// RVA of the `__except` block; 0 for `__finally`.
    pub target: u32,
}

/// The entries of a scope table, one after the other.
#[derive(Debug)]
pub struct ScopeTableIterator<'a> {
    data: &'a [u8],
    offset: usize,
}

impl Iterator for ScopeTableIterator<'_> {
    type Item = ScopeTableEntry;

    /// Panics over a table whose last entry is truncated, as in goblin: [`UnwindInfo::c_scope_table_entries`] returns none such.
    fn next(&mut self) -> Option<Self::Item> {
        let mut walk = Some(raw::rest(self.data, self.offset));
        let found = raw::step(&mut walk, |walk| raw::next_scope(self.data, walk))?;
        let it = found.expect("Scope table is not aligned");
        self.offset += size_of::<ScopeTableEntry>();
        Some(ScopeTableEntry { begin: it.begin, end: it.end, handler: it.handler, target: it.target })
    }

    fn size_hint(&self) -> (usize, Option<usize>) {
        raw::items_left(raw::left(self.data, Some(raw::rest(self.data, self.offset))), size_of::<ScopeTableEntry>())
    }
}

impl FusedIterator for ScopeTableIterator<'_> {}
impl ExactSizeIterator for ScopeTableIterator<'_> {}

/// An entry of the x64 function table, `RUNTIME_FUNCTION`.
#[repr(C)]
#[derive(Copy, Clone, PartialEq, Default, Pread, Pwrite)]
pub struct RuntimeFunction {
    /// RVA of its first byte.
    pub begin_address: u32,
    /// RVA after its last byte.
    pub end_address: u32,
    /// RVA of its unwind record. An odd one is a link: the RVA of another entry, plus 1.
    pub unwind_info_address: u32,
}

impl fmt::Debug for RuntimeFunction {
    fn fmt(&self, f: &mut fmt::Formatter<'_>) -> fmt::Result {
        f.debug_struct("RuntimeFunction")
            .field("begin_address", &format_args!("{:#x}", self.begin_address))
            .field("end_address", &format_args!("{:#x}", self.end_address))
            .field("unwind_info_address", &format_args!("{:#x}", self.unwind_info_address))
            .finish()
    }
}

impl From<sys::Function> for RuntimeFunction {
    #[inline]
    fn from(it: sys::Function) -> Self {
        RuntimeFunction { begin_address: it.begin, end_address: it.end, unwind_info_address: it.unwind }
    }
}

/// How many ARM64 codes an iterator takes a call.
const TAKEN: usize = 16;
/// As many codes as an x64 record may have slots.
const MOST_CODES: usize = 255;
const FUNCTIONS_TAKEN: usize = 128;

/// The x64 functions of an image, one after the other.
#[derive(Debug)]
pub struct RuntimeFunctionIterator<'a> {
    data: &'a [u8],
    batch: raw::Batch<u64, sys::Function, FUNCTIONS_TAKEN>,
}

impl Iterator for RuntimeFunctionIterator<'_> {
    type Item = error::Result<RuntimeFunction>;

    #[inline]
    fn next(&mut self) -> Option<Self::Item> {
        match self.batch.next() {
            Some(it) => Some(Ok((*it).into())),
            None => self.after_more(),
        }
    }

    fn fold<B, F: FnMut(B, Self::Item) -> B>(mut self, mut all: B, mut add: F) -> B {
        let mut part = self.batch.rest();
        loop {
            for it in part {
                all = add(all, Ok((*it).into()));
            }
            part = match self.more() {
                Ok([]) => return all,
                Ok(more) => more,
                Err(refusal) => return add(all, Err(refusal.into())),
            };
        }
    }

    fn size_hint(&self) -> (usize, Option<usize>) {
        let count = self.data.len() / RUNTIME_FUNCTION_SIZE;
        let next = self.batch.walk().map_or(count, |it| *it as usize);
        let left = self.batch.taken() + count.saturating_sub(next);
        (left, Some(left))
    }
}

impl RuntimeFunctionIterator<'_> {
    /// The next functions, once all that were taken are returned.
    fn more(&mut self) -> Result<&[sys::Function], Refusal> {
        let data = self.data;
        self.batch.fill(|next, room| raw::list_functions(data, &raw::whole(data), next, room))
    }

    #[cold]
    fn after_more(&mut self) -> Option<error::Result<RuntimeFunction>> {
        if let Err(refusal) = self.more() {
            return Some(Err(refusal.into()));
        }
        Some(Ok((*self.batch.next()?).into()))
    }
}

impl FusedIterator for RuntimeFunctionIterator<'_> {}
impl ExactSizeIterator for RuntimeFunctionIterator<'_> {}

/// An x64 register: 0 to 15 the general ones, 17 to 32 the XMM ones.
#[derive(Clone, Copy, Debug, Eq, PartialEq, Ord, PartialOrd)]
pub struct Register(pub u8);

impl Register {
    /// Its name after a `$`, or an empty text.
    pub fn name(self) -> &'static str {
        const NAMES: [&str; 33] = [
            "$rax", "$rcx", "$rdx", "$rbx", "$rsp", "$rbp", "$rsi", "$rdi", "$r8", "$r9", "$r10", "$r11", "$r12",
            "$r13", "$r14", "$r15", "$rip", "$xmm0", "$xmm1", "$xmm2", "$xmm3", "$xmm4", "$xmm5", "$xmm6", "$xmm7",
            "$xmm8", "$xmm9", "$xmm10", "$xmm11", "$xmm12", "$xmm13", "$xmm14", "$xmm15",
        ];
        NAMES.get(usize::from(self.0)).copied().unwrap_or("")
    }
}

impl fmt::Display for Register {
    fn fmt(&self, f: &mut fmt::Formatter<'_>) -> fmt::Result {
        f.write_str(self.name())
    }
}

/// Where on the stack a register is saved, in bytes.
#[derive(Clone, Copy, Debug, Eq, PartialEq)]
pub enum StackFrameOffset {
    /// From the stack pointer.
    RSP(u32),
    /// From the frame register less `frame_register_offset`.
    FP(u32),
}

/// What an instruction of a prolog did.
#[derive(Clone, Copy, Debug, Eq, PartialEq)]
#[non_exhaustive]
pub enum UnwindOperation {
    /// Pushed a register of 8 bytes.
    PushNonVolatile(Register),
    /// Allocated so many bytes of the stack.
    Alloc(u32),
    /// Set the frame register.
    SetFPRegister,
    /// Stored a register.
    SaveNonVolatile(Register, StackFrameOffset),
    /// Stored the low 64 bits of an XMM register.
    SaveXMM(Register, StackFrameOffset),
    /// Where an epilog is, in records of version 2. The first of a record has the size of the epilogs.
    Epilog {
        /// Of the first its size; of the others the low 8 bits of the offset of an epilog, from the end of the function.
        offset_low_or_size: u8,
        /// Of the first flags: bit 0 is set where an epilog ends the function. Of the others the high bits of the offset.
        offset_high_or_flags: u8,
    },
    /// Stored an XMM register.
    SaveXMM128(Register, StackFrameOffset),
    /// A machine frame was pushed, with an error code if so said.
    PushMachineFrame(bool),
    /// Nothing.
    Noop,
}

/// A code of an unwind record.
#[derive(Clone, Copy, Debug, Eq, PartialEq)]
pub struct UnwindCode {
    /// Bytes, from the start of the prolog to the end of the instruction.
    pub code_offset: u8,
    /// What the instruction did.
    pub operation: UnwindOperation,
}

impl UnwindCode {
    #[inline(always)]
    fn of(it: &sys::Code) -> error::Result<Self> {
        add_code(it, (), |(), code| code)
    }

    fn pushing(it: &sys::Code) -> Self {
        UnwindCode { code_offset: it.code_offset, operation: UnwindOperation::PushNonVolatile(Register(it.operand)) }
    }

    fn allocating(it: &sys::Code) -> Self {
        UnwindCode { code_offset: it.code_offset, operation: UnwindOperation::Alloc(it.value) }
    }

    #[inline(never)]
    fn of_any(it: &sys::Code) -> error::Result<Self> {
        let register = Register(it.operand);
        let offset = match it.from_frame {
            0 => StackFrameOffset::RSP(it.value),
            _ => StackFrameOffset::FP(it.value),
        };
        let operation = match it.operation {
            0 => return Ok(Self::pushing(it)),
            1 => return Ok(Self::allocating(it)),
            2 => UnwindOperation::SetFPRegister,
            3 => UnwindOperation::SaveNonVolatile(register, offset),
            4 => UnwindOperation::SaveXMM(register, offset),
            5 => {
                UnwindOperation::Epilog { offset_low_or_size: raw::narrow(it.value)?, offset_high_or_flags: it.operand }
            }
            6 => UnwindOperation::SaveXMM128(register, offset),
            7 => UnwindOperation::PushMachineFrame(it.operand != 0),
            _ => UnwindOperation::Noop,
        };
        Ok(UnwindCode { code_offset: it.code_offset, operation })
    }
}

/// Hands on a code. Nearly all push a register or allocate: in an arm of its own each is written where it goes, and else it is put
/// together of pieces.
#[inline(always)]
fn add_code<A, B>(it: &sys::Code, all: A, mut add: impl FnMut(A, error::Result<UnwindCode>) -> B) -> B {
    match it.operation {
        0 => add(all, Ok(UnwindCode::pushing(it))),
        1 => add(all, Ok(UnwindCode::allocating(it))),
        _ => add(all, UnwindCode::of_any(it)),
    }
}

/// Hands on the codes in these bytes. Out of line, so that a caller's loop over records keeps its registers where a record has none.
#[inline(never)]
fn fold_codes<B>(
    bytes: &[u8],
    form: sys::CodeForm,
    mut all: B,
    mut add: impl FnMut(B, error::Result<UnwindCode>) -> B,
) -> B {
    let mut room = raw::room::<_, MOST_CODES>();
    let (codes, end) = raw::all_codes(bytes, &form, &mut room);
    if let Err(refusal) = end {
        return fold_refused(codes, all, add, || refused_after(codes.len(), bytes, &form, refusal));
    }
    for it in codes {
        all = add_code(it, all, &mut add);
    }
    all
}

/// Hands on codes, and the error after them.
#[cold]
#[inline(never)]
fn fold_refused<B>(
    codes: &[sys::Code],
    mut all: B,
    mut add: impl FnMut(B, error::Result<UnwindCode>) -> B,
    error: impl FnOnce() -> error::Error,
) -> B {
    for it in codes {
        all = add(all, UnwindCode::of_any(it));
    }
    add(all, Err(error()))
}

/// The error of the code after so many in these bytes.
#[cold]
fn refused_after(count: usize, bytes: &[u8], form: &sys::CodeForm, refusal: Refusal) -> error::Error {
    let mut walk = whole_walk(bytes, *form);
    let mut room = raw::room::<_, MOST_CODES>();
    // Of a list that is full the walk is after its last code; where it has none, it is at its start.
    let _ = room.get_mut(..count).map(|room| raw::list_codes(bytes, &mut walk, room).is_ok());
    code_error(bytes, &walk, refusal)
}

/// A walk over all codes in these bytes.
fn whole_walk(bytes: &[u8], form: sys::CodeForm) -> sys::Walk {
    let sys::CodeForm { version, frame_register } = form;
    sys::Walk { left: raw::whole(bytes), version, frame_register, ..Default::default() }
}

/// The codes of an unwind record, one after the other.
#[derive(Clone, Debug)]
pub struct UnwindCodeIterator<'a> {
    bytes: &'a [u8],
    /// What is left after those that were taken.
    walk: sys::Walk,
    taken: raw::Few<sys::Code>,
}

impl Iterator for UnwindCodeIterator<'_> {
    type Item = error::Result<UnwindCode>;

    #[inline]
    fn next(&mut self) -> Option<Self::Item> {
        match self.taken.next() {
            Some(it) => Some(UnwindCode::of(&it)),
            None => self.after_more(),
        }
    }

    #[inline]
    fn fold<B, F: FnMut(B, Self::Item) -> B>(self, mut all: B, mut add: F) -> B {
        let UnwindCodeIterator { bytes, walk, mut taken } = self;
        while let Some(it) = taken.next() {
            all = add_code(&it, all, &mut add);
        }
        let left = raw::left(bytes, Some(walk.left));
        if left.is_empty() {
            return all;
        }
        let form = sys::CodeForm { version: walk.version, frame_register: walk.frame_register };
        fold_codes(left, form, all, add)
    }

    fn size_hint(&self) -> (usize, Option<usize>) {
        let left = raw::left(self.bytes, Some(self.walk.left));
        let (slots, taken) = (raw::items_left(left, UNWIND_CODE_SIZE).0, self.taken.count());
        (taken + slots.min(1), Some(taken + slots))
    }
}

impl UnwindCodeIterator<'_> {
    /// The next code, once all that were taken are returned. After an error there are no more.
    #[inline(never)]
    fn after_more(&mut self) -> Option<error::Result<UnwindCode>> {
        if self.walk.left.length == 0 {
            return None;
        }
        let (before, mut room) = (self.walk, raw::room::<_, { raw::FEW }>());
        match raw::list_codes(self.bytes, &mut self.walk, &mut room) {
            Ok(codes) => self.taken.set(codes),
            Err(refusal) => {
                self.walk.left.length = 0;
                return Some(Err(code_error(self.bytes, &before, refusal)));
            }
        }
        Some(UnwindCode::of(&self.taken.next()?))
    }
}

impl FusedIterator for UnwindCodeIterator<'_> {}

/// The operations that take 0 or 1, by their numbers.
const ALLOC_LARGE: u64 = 1;
const PUSH_MACHFRAME: u64 = 10;

/// The error of a code, with goblin's text. The bytes are those of codes alone, from which the offset of a truncated one counts: it has
/// the library's text.
#[cold]
fn code_error(bytes: &[u8], walk: &sys::Walk, refusal: Refusal) -> error::Error {
    match raw::code_failure(bytes, walk) {
        Ok(Some(it)) if refusal == Refusal::UNWIND_CODE => {
            let info = it.value >> 4;
            error::Error::Malformed(match it.value & 0xf {
                ALLOC_LARGE => format!("invalid op info ({info}) for UWOP_ALLOC_LARGE"),
                PUSH_MACHFRAME => format!("invalid op info ({info}) for UWOP_PUSH_MACHFRAME"),
                other => format!("unknown unwind op code ({other})"),
            })
        }
        _ => refusal.into(),
    }
}

/// The error of a record, with goblin's text or the library's with its numbers. The bytes may be those from a record on, from which the
/// offset of a truncated one counts: it has the library's text.
#[cold]
fn record_error(refusal: Refusal, failure: Result<Option<sys::Failure>, Refusal>) -> error::Error {
    match (refusal, failure) {
        (Refusal::SHORT, _) => refusal.into(),
        (Refusal::UNWIND_VERSION, Ok(Some(it))) => {
            error::Error::Malformed(format!("unsupported unwind code version ({})", it.value))
        }
        (other, failure) => raw::with_numbers(other.into(), failure),
    }
}

/// What is called in a search for a handler, or on unwinding.
#[derive(Copy, Clone, Debug, PartialEq)]
pub enum UnwindHandler<'a> {
    /// RVA of an exception handler, and the bytes after that RVA: its data are at their start.
    ExceptionHandler(u32, &'a [u8]),
    /// The same of a termination handler.
    TerminationHandler(u32, &'a [u8]),
}

/// An x64 unwind record, `UNWIND_INFO`.
#[derive(Clone)]
pub struct UnwindInfo<'a> {
    /// Of the record, 1 or 2.
    pub version: u8,
    /// In bytes.
    pub size_of_prolog: u8,
    /// `Register(0)` without one.
    pub frame_register: Register,
    /// In bytes: subtract it from the frame register to get the base of saves.
    pub frame_register_offset: u32,
    /// The function whose record continues this one.
    pub chained_info: Option<RuntimeFunction>,
    /// The handler.
    pub handler: Option<UnwindHandler<'a>>,
    code_bytes: &'a [u8],
}

impl<'a> UnwindInfo<'a> {
    /// The record at an offset. Errors: `Scroll` past the end; `Malformed` where it is truncated or of another version.
    pub fn parse(bytes: &'a [u8], offset: usize) -> error::Result<Self> {
        // Of the bytes from there on, as an image as loaded, the record with the RVA 0: an odd RVA would be a link.
        let bytes = raw::from(bytes, offset)?;
        let info = raw::image_as_loaded(COFF_MACHINE_X86_64);
        Self::by(View::of(bytes, &info, &[]), &sys::Range::default(), 0)
    }

    /// The record of an unwind RVA.
    fn by(view: View<'a, '_>, table: &sys::Range, unwind: u32) -> error::Result<Self> {
        match view.unwind_record(table, unwind, &mut MaybeUninit::uninit()) {
            Ok(found) => Self::of(view.bytes, found),
            Err(Refusal::UNMAPPED) => Err(unmapped("unwind", unwind)),
            Err(other) => Err(record_error(other, view.unwind_record_failure(table, unwind))),
        }
    }

    /// Each kind of record is returned by itself: put together of pieces, what a record lacks would be written too.
    #[inline(always)]
    fn of(bytes: &'a [u8], it: &sys::Record) -> error::Result<Self> {
        let code_bytes = raw::slice(bytes, it.codes.left)?;
        if it.handler_kind == 0 {
            if it.is_chained != 0 {
                return Ok(Self::chained(it, code_bytes));
            }
            return Ok(Self::with(it, code_bytes, None, None));
        }
        let data = raw::slice(bytes, it.handler_data)?;
        let handler = match it.handler_kind {
            1 => UnwindHandler::ExceptionHandler(it.handler, data),
            _ => UnwindHandler::TerminationHandler(it.handler, data),
        };
        Ok(Self::with(it, code_bytes, None, Some(handler)))
    }

    /// A chained record, as few are, which has no handler.
    #[cold]
    fn chained(it: &sys::Record, code_bytes: &'a [u8]) -> Self {
        Self::with(it, code_bytes, Some(it.chained.into()), None)
    }

    #[inline(always)]
    fn with(
        it: &sys::Record,
        code_bytes: &'a [u8],
        chained_info: Option<RuntimeFunction>,
        handler: Option<UnwindHandler<'a>>,
    ) -> Self {
        UnwindInfo {
            version: it.codes.version,
            size_of_prolog: it.size_of_prolog,
            frame_register: Register(it.codes.frame_register),
            frame_register_offset: it.frame_register_offset,
            chained_info,
            handler,
            code_bytes,
        }
    }

    /// The codes, in the order in which they are undone.
    #[inline]
    pub fn unwind_codes(&self) -> UnwindCodeIterator<'a> {
        let form = sys::CodeForm { version: self.version, frame_register: self.frame_register.0 };
        let walk = whole_walk(self.code_bytes, form);
        UnwindCodeIterator { bytes: self.code_bytes, walk, taken: raw::Few::default() }
    }

    /// The scope table of an exception handler of C, or `None` where the data are no such table. Of another handler, for
    /// example C++'s, the data are not one, and this does not see it.
    pub fn c_scope_table_entries(&self) -> Option<ScopeTableIterator<'a>> {
        let UnwindHandler::ExceptionHandler(_, data) = self.handler? else { return None };
        let table = raw::scope_table(data, &raw::whole(data)).ok()??;
        Some(ScopeTableIterator { data: raw::slice(data, table).ok()?, offset: 0 })
    }
}

fn unmapped(what: &str, rva: u32) -> error::Error {
    error::Error::Malformed(format!("cannot map {what} rva ({rva:#x}) into offset"))
}

impl fmt::Debug for UnwindInfo<'_> {
    fn fmt(&self, f: &mut fmt::Formatter<'_>) -> fmt::Result {
        f.debug_struct("UnwindInfo")
            .field("version", &self.version)
            .field("size_of_prolog", &self.size_of_prolog)
            .field("frame_register", &self.frame_register)
            .field("frame_register_offset", &self.frame_register_offset)
            .field("count_of_codes", &(self.code_bytes.len() / UNWIND_CODE_SIZE))
            .field("chained_info", &self.chained_info)
            .field("handler", &self.handler)
            .finish()
    }
}

impl<'a> IntoIterator for &'_ UnwindInfo<'a> {
    type Item = error::Result<UnwindCode>;
    type IntoIter = UnwindCodeIterator<'a>;

    fn into_iter(self) -> Self::IntoIter {
        self.unwind_codes()
    }
}

/// The function table of an image. It can be read with entries of x64 or of ARM64, whichever it was parsed for.
pub struct ExceptionData<'a> {
    bytes: &'a [u8],
    table: sys::Range,
    file_alignment: u32,
    /// What calls on a record in a file take: made once for all functions.
    in_a_file: sys::ImageInfo,
}

impl<'a> ExceptionData<'a> {
    /// The x64 functions of a directory in a file.
    pub fn parse(
        bytes: &'a [u8],
        directory: DataDirectory,
        sections: &[SectionTable],
        file_alignment: u32,
    ) -> error::Result<Self> {
        Self::parse_with_opts(bytes, directory, sections, file_alignment, &ParseOptions::default())
    }

    /// The x64 functions of a directory. Errors: `Scroll` where its size is no multiple of an entry's, or its offset none of
    /// four; `Malformed` where it is absent, unmapped or ends past the file.
    pub fn parse_with_opts(
        bytes: &'a [u8],
        directory: DataDirectory,
        sections: &[SectionTable],
        file_alignment: u32,
        opts: &ParseOptions,
    ) -> error::Result<Self> {
        let mut info = raw::image_with(Index::Exception, directory, file_alignment, opts);
        info.machine = COFF_MACHINE_X86_64;
        Self::one_of(View::of(bytes, &info, &raw::sections_of(sections)?))
    }

    /// The same of ARM64.
    pub fn parse_arm64_with_opts(
        bytes: &'a [u8],
        directory: DataDirectory,
        sections: &[SectionTable],
        file_alignment: u32,
        opts: &ParseOptions,
    ) -> error::Result<Self> {
        let mut info = raw::image_with(Index::Exception, directory, file_alignment, opts);
        info.machine = COFF_MACHINE_ARM64;
        Self::one_of(View::of(bytes, &info, &raw::sections_of(sections)?))
    }

    fn one_of(view: View<'a, '_>) -> error::Result<Self> {
        Self::of(view)?.ok_or_else(|| error::Error::Malformed("no exception directory".to_owned()))
    }

    /// Of an image of either machine, or `None` without the directory and of another machine.
    pub(crate) fn of(view: View<'a, '_>) -> error::Result<Option<Self>> {
        let found = match view.info.machine {
            COFF_MACHINE_ARM64 => view.arm64_table(),
            COFF_MACHINE_X86_64 => view.function_table(),
            _ => Ok(None),
        };
        let Some(table) = found.map_err(|it| directory_error(view, it))? else { return Ok(None) };
        Ok(Some(ExceptionData {
            bytes: view.bytes,
            table,
            file_alignment: view.info.file_alignment,
            in_a_file: image_of_records(view.info.file_alignment, &ParseOptions::default()),
        }))
    }

    /// In bytes.
    fn size(&self) -> usize {
        self.table.length as usize
    }

    fn data(&self) -> &'a [u8] {
        raw::left(self.bytes, Some(self.table))
    }

    /// The number of x64 functions.
    pub fn len(&self) -> usize {
        self.size() / RUNTIME_FUNCTION_SIZE
    }

    /// The number of ARM64 functions.
    pub fn len_arm64(&self) -> usize {
        self.size() / size_of::<Arm64RuntimeFunction>()
    }

    /// Whether the table is empty.
    pub fn is_empty(&self) -> bool {
        self.table.length == 0
    }

    /// The x64 functions, sorted by their start RVAs.
    pub fn functions(&self) -> RuntimeFunctionIterator<'a> {
        RuntimeFunctionIterator { data: self.data(), batch: raw::Batch::new(0) }
    }

    /// The x64 function with an index. Error: `Malformed` where there is none.
    pub fn get_function(&self, index: usize) -> error::Result<RuntimeFunction> {
        let found = raw::function_at(self.bytes, &self.table, index as u64)?;
        Ok(found.ok_or(Refusal::SHORT)?.into())
    }

    /// The ARM64 functions, sorted by their start RVAs.
    pub fn functions_arm64(&self) -> Arm64RuntimeFunctionIterator<'a> {
        Arm64RuntimeFunctionIterator { data: self.data() }
    }

    /// The ARM64 function with an index. Error: `Malformed` where there is none.
    pub fn get_function_arm64(&self, index: usize) -> error::Result<Arm64RuntimeFunction> {
        let found = raw::arm64_function_at(self.bytes, &self.table, index as u64)?;
        Ok(found.ok_or(Refusal::SHORT)?.into())
    }

    /// The x64 function that covers an RVA.
    pub fn find_function(&self, rva: u32) -> error::Result<Option<RuntimeFunction>> {
        match raw::find_function(self.bytes, &self.table, rva, &mut MaybeUninit::uninit()) {
            Ok(found) => Ok(found.map(|it| (*it).into())),
            Err(refusal) => Err(refusal.into()),
        }
    }

    /// The unwind record of an x64 function of a file.
    pub fn get_unwind_info(
        &self,
        function: RuntimeFunction,
        sections: &[SectionTable],
    ) -> error::Result<UnwindInfo<'a>> {
        self.unwind_info(&self.in_a_file, function, sections)
    }

    /// The unwind record of an ARM64 function of a file, or `None` where it is packed.
    pub fn get_unwind_info_arm64(
        &self,
        function: Arm64RuntimeFunction,
        sections: &[SectionTable],
    ) -> Option<error::Result<Arm64UnwindInfo<'a>>> {
        self.get_unwind_info_arm64_with_opts(function, sections, &ParseOptions::default())
    }

    /// The unwind record of an x64 function. Links are followed. Errors: `Malformed` where a link leads to no entry or they
    /// never end, where the record is unmapped, truncated or of another version.
    pub fn get_unwind_info_with_opts(
        &self,
        function: RuntimeFunction,
        sections: &[SectionTable],
        opts: &ParseOptions,
    ) -> error::Result<UnwindInfo<'a>> {
        self.unwind_info(&image_of_records(self.file_alignment, opts), function, sections)
    }

    #[inline(always)]
    fn unwind_info(
        &self,
        info: &sys::ImageInfo,
        function: RuntimeFunction,
        sections: &[SectionTable],
    ) -> error::Result<UnwindInfo<'a>> {
        let unwind = function.unwind_info_address;
        // A link leads to other RVAs.
        let first = if unwind % 2 == 0 { raw::first_around(sections, unwind) } else { None };
        if let Some(section) = first {
            let view = View::of(self.bytes, info, core::slice::from_ref(section));
            // One that is no link needs none of the table.
            if let Ok(found) = view.unwind_record(&NO_TABLE, unwind, &mut MaybeUninit::uninit()) {
                return UnwindInfo::of(self.bytes, found);
            }
        }
        self.unwind_info_by_all(info, unwind, sections)
    }

    /// The same by all sections, where the first that may cover the record does not lead to one.
    #[cold]
    fn unwind_info_by_all(
        &self,
        info: &sys::ImageInfo,
        unwind: u32,
        sections: &[SectionTable],
    ) -> error::Result<UnwindInfo<'a>> {
        let sections = raw::sections_of(sections)?;
        UnwindInfo::by(View::of(self.bytes, info, &sections), &self.table, unwind)
    }

    /// The unwind record of an ARM64 function, or `None` where it is packed. Errors: `Malformed` where the record is unmapped,
    /// truncated or of another version.
    pub fn get_unwind_info_arm64_with_opts(
        &self,
        function: Arm64RuntimeFunction,
        sections: &[SectionTable],
        opts: &ParseOptions,
    ) -> Option<error::Result<Arm64UnwindInfo<'a>>> {
        if function.is_packed() {
            return None;
        }
        let rva = function.unwind_data_rva();
        let offset = super::utils::find_offset(rva as usize, sections, self.file_alignment, opts);
        Some(offset.ok_or_else(|| unmapped("unwind", rva)).and_then(|at| Arm64UnwindInfo::parse(self.bytes, at)))
    }
}

/// No function table.
static NO_TABLE: sys::Range = sys::Range { offset: 0, length: 0 };

/// An image whose records are read, by an RVA alone.
fn image_of_records(file_alignment: u32, opts: &ParseOptions) -> sys::ImageInfo {
    raw::image_with(Index::Exception, DataDirectory::default(), file_alignment, opts)
}

/// The error of a directory, in goblin's variant.
fn directory_error(view: View<'_, '_>, refusal: Refusal) -> error::Error {
    let DataDirectory { virtual_address, size } = view.directory(Index::Exception);
    match (refusal, view.offset(virtual_address)) {
        (Refusal::EXCEPTION_SIZE, _) => {
            scroll::Error::BadInput { size: size as usize, msg: "invalid exception directory table size" }.into()
        }
        (Refusal::UNMAPPED, _) => {
            error::Error::Malformed(format!("cannot map exception_rva ({virtual_address:#x}) into offset"))
        }
        (Refusal::EXCEPTION_OFFSET, Some(at)) => scroll::Error::BadOffset(at).into(),
        (other, _) => view.refused(Index::Exception, other),
    }
}

impl fmt::Debug for ExceptionData<'_> {
    fn fmt(&self, f: &mut fmt::Formatter<'_>) -> fmt::Result {
        f.debug_struct("ExceptionData")
            .field("file_alignment", &self.file_alignment)
            .field("offset", &format_args!("{:#x}", self.table.offset))
            .field("size", &format_args!("{:#x}", self.table.length))
            .field("len", &self.len())
            .finish()
    }
}

impl<'a> IntoIterator for &'_ ExceptionData<'a> {
    type Item = error::Result<RuntimeFunction>;
    type IntoIter = RuntimeFunctionIterator<'a>;

    fn into_iter(self) -> Self::IntoIter {
        self.functions()
    }
}

/// Of [`Arm64RuntimeFunction::flag`]: the unwind data are the RVA of a record.
pub const ARM64_PDATA_REF_TO_FULL_XDATA: u32 = 0;
/// They are packed, of a function.
pub const ARM64_PDATA_PACKED_UNWIND_FUNCTION: u32 = 1;
/// They are packed, of a fragment without prolog and epilog.
pub const ARM64_PDATA_PACKED_UNWIND_FRAGMENT: u32 = 2;
/// Of [`Arm64RuntimeFunction::cr`]: neither x29 nor lr is saved.
pub const ARM64_PDATA_CR_UNCHAINED: u32 = 0;
/// lr is saved.
pub const ARM64_PDATA_CR_UNCHAINED_SAVED_LR: u32 = 1;
/// Both are saved, and lr is signed.
pub const ARM64_PDATA_CR_CHAINED_WITH_PAC: u32 = 2;
/// Both are saved.
pub const ARM64_PDATA_CR_CHAINED: u32 = 3;

/// So many bits of a number, from one on.
const fn bits(value: u32, from: u32, count: u32) -> u32 {
    (value >> from) & ((1 << count) - 1)
}

/// An entry of the ARM64 function table.
#[repr(C)]
#[derive(Copy, Clone, PartialEq, Default, Pread, Pwrite)]
pub struct Arm64RuntimeFunction {
    /// RVA of its first byte.
    pub begin_address: u32,
    /// Packed unwind data, or the RVA of its record.
    pub unwind_data: u32,
}

impl Arm64RuntimeFunction {
    /// `ARM64_PDATA_`: what the unwind data are.
    pub const fn flag(&self) -> u32 {
        bits(self.unwind_data, 0, 2)
    }

    /// Bytes of the function.
    pub const fn function_length(&self) -> u32 {
        bits(self.unwind_data, 2, 11) * 4
    }

    /// Bytes of stack that the function allocates.
    pub const fn frame_size(&self) -> u32 {
        bits(self.unwind_data, 23, 9) * 16
    }

    /// `ARM64_PDATA_CR_`: which of x29 and lr are saved.
    pub const fn cr(&self) -> u32 {
        bits(self.unwind_data, 21, 2)
    }

    /// Whether x0 to x7 are stored at the start of the function.
    pub const fn h(&self) -> bool {
        bits(self.unwind_data, 20, 1) != 0
    }

    /// How many registers are saved, from x19 on.
    pub const fn reg_i(&self) -> u32 {
        bits(self.unwind_data, 16, 4)
    }

    /// 0, or how many registers are saved from d8 on, less 1.
    pub const fn reg_f(&self) -> u32 {
        bits(self.unwind_data, 13, 3)
    }

    /// Whether the unwind data are packed.
    pub const fn is_packed(&self) -> bool {
        self.flag() != ARM64_PDATA_REF_TO_FULL_XDATA
    }

    /// RVA of the record, unless the unwind data are packed.
    pub const fn unwind_data_rva(&self) -> u32 {
        self.unwind_data & !3
    }
}

impl From<sys::Arm64Function> for Arm64RuntimeFunction {
    fn from(it: sys::Arm64Function) -> Self {
        Arm64RuntimeFunction { begin_address: it.begin, unwind_data: it.unwind }
    }
}

impl fmt::Debug for Arm64RuntimeFunction {
    fn fmt(&self, f: &mut fmt::Formatter<'_>) -> fmt::Result {
        f.debug_struct("Arm64RuntimeFunction")
            .field("begin_address", &format_args!("{:#x}", self.begin_address))
            .field("unwind_data", &format_args!("{:#x}", self.unwind_data))
            .finish()
    }
}

/// The ARM64 functions of an image, one after the other.
#[derive(Debug)]
pub struct Arm64RuntimeFunctionIterator<'a> {
    data: &'a [u8],
}

impl Iterator for Arm64RuntimeFunctionIterator<'_> {
    type Item = error::Result<Arm64RuntimeFunction>;

    fn next(&mut self) -> Option<Self::Item> {
        if self.data.is_empty() {
            return None;
        }
        let found = raw::arm64_function_at(self.data, &raw::whole(self.data), 0);
        self.data = raw::left(self.data, Some(raw::rest(self.data, size_of::<Arm64RuntimeFunction>())));
        Some(found.map_err(error::Error::from).transpose()?.map(Arm64RuntimeFunction::from))
    }

    fn size_hint(&self) -> (usize, Option<usize>) {
        raw::items_left(self.data, size_of::<Arm64RuntimeFunction>())
    }
}

impl FusedIterator for Arm64RuntimeFunctionIterator<'_> {}
impl ExactSizeIterator for Arm64RuntimeFunctionIterator<'_> {}

/// The first word of an ARM64 unwind record.
#[derive(Clone, Copy, Debug, PartialEq, Eq)]
pub struct Arm64UnwindHeader(pub u32);

impl Arm64UnwindHeader {
    /// Bytes of the function.
    pub const fn function_length(&self) -> u32 {
        bits(self.0, 0, 18) * 4
    }

    /// Of the record, 0.
    pub const fn version(&self) -> u32 {
        bits(self.0, 18, 2)
    }

    /// Whether there is a handler.
    pub const fn exception_data_present(&self) -> bool {
        bits(self.0, 20, 1) != 0
    }

    /// Whether the one epilog has no scope.
    pub const fn epilog_in_header(&self) -> bool {
        bits(self.0, 21, 1) != 0
    }

    /// How many epilogs have scopes, or the index of the first code of the one that has none.
    pub const fn epilog_count(&self) -> u32 {
        bits(self.0, 22, 5)
    }

    /// Four bytes each.
    pub const fn code_words(&self) -> u32 {
        bits(self.0, 27, 5)
    }

    /// Whether both counts are in the next word.
    pub const fn has_extension(&self) -> bool {
        self.epilog_count() == 0 && self.code_words() == 0
    }
}

/// The second word of an ARM64 unwind record, where its counts do not fit the first.
#[derive(Clone, Copy, Debug, PartialEq, Eq)]
pub struct Arm64UnwindExtension(pub u32);

impl Arm64UnwindExtension {
    /// As in the header.
    pub const fn epilog_count(&self) -> u32 {
        bits(self.0, 0, 16)
    }

    /// As in the header.
    pub const fn code_words(&self) -> u32 {
        bits(self.0, 16, 8)
    }
}

/// Where an epilog of an ARM64 function is, and where its codes are.
#[derive(Clone, Copy, Debug, PartialEq, Eq)]
pub struct Arm64EpilogScope(pub u32);

impl Arm64EpilogScope {
    /// Bytes, from the start of the function to that of the epilog.
    pub const fn start_offset_words(&self) -> u32 {
        bits(self.0, 0, 18) * 4
    }

    /// Reserved on ARM64.
    pub const fn condition(&self) -> u32 {
        bits(self.0, 18, 4)
    }

    /// Index of its first code byte.
    pub const fn start_index(&self) -> u32 {
        bits(self.0, 22, 10)
    }
}

/// The epilog scopes of an ARM64 unwind record, one after the other.
#[derive(Debug)]
pub struct Arm64EpilogScopeIterator<'a> {
    bytes: &'a [u8],
    offset: usize,
}

/// Bytes of a word of an ARM64 unwind record.
const WORD_SIZE: usize = 4;

impl Iterator for Arm64EpilogScopeIterator<'_> {
    type Item = error::Result<Arm64EpilogScope>;

    fn next(&mut self) -> Option<Self::Item> {
        let mut walk = Some(raw::rest(self.bytes, self.offset));
        let found = raw::step(&mut walk, |walk| raw::next_arm64_scope(self.bytes, walk))?;
        self.offset = walk.map_or(self.bytes.len(), |_| self.offset + WORD_SIZE);
        Some(found.map(|it| Arm64EpilogScope(it.word)))
    }

    fn size_hint(&self) -> (usize, Option<usize>) {
        raw::items_left(raw::left(self.bytes, Some(raw::rest(self.bytes, self.offset))), WORD_SIZE)
    }
}

impl FusedIterator for Arm64EpilogScopeIterator<'_> {}
impl ExactSizeIterator for Arm64EpilogScopeIterator<'_> {}

/// The handler of an ARM64 function.
#[derive(Clone, Debug, Eq, PartialEq)]
pub struct Arm64ExceptionHandler<'a> {
    /// RVA of the handler.
    pub rva: u32,
    /// The bytes after that RVA: the handler's data are at their start.
    pub data: &'a [u8],
}

/// An ARM64 unwind record.
#[derive(Clone, Debug)]
pub struct Arm64UnwindInfo<'a> {
    /// Its first word.
    pub header: Arm64UnwindHeader,
    /// Its second word, where the first has no counts.
    pub extension: Option<Arm64UnwindExtension>,
    /// The handler.
    pub exception_handler: Option<Arm64ExceptionHandler<'a>>,
    epilog_scope_bytes: &'a [u8],
    unwind_code_bytes: &'a [u8],
}

impl<'a> Arm64UnwindInfo<'a> {
    /// The size of the record at the start of the bytes, without its handler's data. Error: `Scroll` where its first words are
    /// truncated.
    pub fn size(bytes: &[u8]) -> error::Result<usize> {
        let (header, extension) = words_of(bytes)?;
        let (words, scopes, codes) = match extension {
            Some(it) => (2, it.epilog_count(), it.code_words()),
            None => (1, header.epilog_count(), header.code_words()),
        };
        let scopes = if header.epilog_in_header() { 0 } else { scopes };
        Ok(WORD_SIZE * (words + scopes + codes + u32::from(header.exception_data_present())) as usize)
    }

    /// The record at an offset. Errors: `Scroll` past the end; `Malformed` where it is truncated or of another version.
    pub fn parse(bytes: &'a [u8], offset: usize) -> error::Result<Self> {
        let bytes = raw::from(bytes, offset)?;
        let info = raw::image_as_loaded(COFF_MACHINE_ARM64);
        let view = View::of(bytes, &info, &[]);
        let found = view.arm64_unwind_record(&sys::Arm64Function { begin: 0, unwind: 0 })?;
        let it = found.ok_or(Refusal::SHORT)?;
        let (header, extension) = words_of(bytes)?;
        let exception_handler = match it.has_handler {
            0 => None,
            _ => Some(Arm64ExceptionHandler { rva: it.handler, data: view.slice(it.handler_data)? }),
        };
        Ok(Arm64UnwindInfo {
            header,
            extension,
            exception_handler,
            epilog_scope_bytes: view.slice(it.scopes)?,
            unwind_code_bytes: view.slice(it.codes)?,
        })
    }

    /// The epilog scopes, or `None` where there are none.
    pub fn epilog_scopes(&self) -> Option<Arm64EpilogScopeIterator<'a>> {
        if self.header.epilog_in_header() || self.epilog_scope_bytes.is_empty() {
            return None;
        }
        Some(Arm64EpilogScopeIterator { bytes: self.epilog_scope_bytes, offset: 0 })
    }

    /// The codes from the byte with an index on. Error: `Malformed` past the last.
    pub fn unwind_codes(&self, start_index: u16) -> error::Result<Arm64UnwindCodeIterator<'a>> {
        Arm64UnwindCodeIterator::new(self.unwind_code_bytes, start_index.into())
    }
}

/// The first word of a record, and the second where the first has no counts.
fn words_of(bytes: &[u8]) -> error::Result<(Arm64UnwindHeader, Option<Arm64UnwindExtension>)> {
    let header = Arm64UnwindHeader(raw::word_at(bytes, 0)?);
    let extension = match header.has_extension() {
        true => Some(Arm64UnwindExtension(raw::word_at(bytes, WORD_SIZE)?)),
        false => None,
    };
    Ok((header, extension))
}

/// What is on the stack where the system has called.
#[derive(Clone, Copy, Debug, Eq, PartialEq)]
pub enum Arm64CustomStackCase {
    /// `MSFT_OP_TRAP_FRAME`.
    TrapFrame,
    /// `MSFT_OP_MACHINE_FRAME`.
    MachineFrame,
    /// `MSFT_OP_CONTEXT`.
    Context,
    /// `MSFT_OP_EC_CONTEXT`.
    EcContext,
    /// `MSFT_OP_CLEAR_UNWOUND_TO_CALL`.
    ClearUnwoundToCall,
}

/// What an instruction of a prolog did. Sizes and offsets are in bytes.
#[non_exhaustive]
#[derive(Clone, Copy, Debug, Eq, PartialEq)]
#[allow(missing_docs)]
pub enum Arm64UnwindCode {
    AllocSmall { size_bytes: u32 },
    SaveR19R20Preindexed { offset_bytes: u32 },
    SaveFpLr { offset_bytes: u32 },
    SaveFpLrPreindexed { offset_bytes: u32 },
    AllocMedium { size_bytes: u32 },
    SaveRegPair { first_reg: u8, offset_bytes: u32 },
    SaveRegPairPreindexed { first_reg: u8, offset_bytes: u32 },
    SaveReg { reg: u8, offset_bytes: u32 },
    SaveRegPreindexed { reg: u8, offset_bytes: u32 },
    SaveLrPair { first_reg: u8, offset_bytes: u32 },
    SaveFRegPair { first_reg: u8, offset_bytes: u32 },
    SaveFRegPairPreindexed { first_reg: u8, offset_bytes: u32 },
    SaveFReg { reg: u8, offset_bytes: u32 },
    SaveFRegPreindexed { reg: u8, offset_bytes: u32 },
    AllocZ { count: u8 },
    AllocLarge { size_bytes: u32 },
    SetFp,
    AddFp { imm8: u8, offset_bytes: u32 },
    Nop,
    End,
    EndC,
    SaveNext,
    SaveAnyReg { kind: u8, pair: bool, preindexed: bool, reg: u8, offset_bytes: u32 },
    SaveZReg { r: u8, o: u16 },
    SavePReg { r: u8, o: u16 },
    CustomStack(Arm64CustomStackCase),
    PacSignLr,
    Reserved { opcode: u8, data: u32, data_len: u8 },
}

/// A code of an ARM64 unwind record.
#[derive(Clone, Copy, Debug, Eq, PartialEq)]
pub struct Arm64UnwindCodeData {
    /// Bytes, from the start of the record's codes.
    pub offset: u16,
    /// What the instruction did.
    pub code: Arm64UnwindCode,
    /// Bytes of the code.
    pub len: u8,
}

impl Arm64UnwindCodeData {
    fn of(it: &sys::Arm64Code) -> error::Result<Self> {
        let len = raw::narrow(it.length)?;
        // An offset that goblin's 16 bits have no room for is an error, and not another offset.
        Ok(Arm64UnwindCodeData { offset: raw::narrow(it.offset)?, code: code_of(it, len)?, len })
    }
}

/// The code of a kind, as the library numbers them.
fn code_of(it: &sys::Arm64Code, len: u8) -> error::Result<Arm64UnwindCode> {
    use Arm64UnwindCode::*;
    let (size_bytes, offset_bytes) = (it.value, it.value);
    let reg = raw::narrow(it.operand)?;
    let first_reg = reg;
    Ok(match it.kind {
        0 => AllocSmall { size_bytes },
        1 => SaveR19R20Preindexed { offset_bytes },
        2 => SaveFpLr { offset_bytes },
        3 => SaveFpLrPreindexed { offset_bytes },
        4 => AllocMedium { size_bytes },
        5 => SaveRegPair { first_reg, offset_bytes },
        6 => SaveRegPairPreindexed { first_reg, offset_bytes },
        7 => SaveReg { reg, offset_bytes },
        8 => SaveRegPreindexed { reg, offset_bytes },
        9 => SaveLrPair { first_reg, offset_bytes },
        10 => SaveFRegPair { first_reg, offset_bytes },
        11 => SaveFRegPairPreindexed { first_reg, offset_bytes },
        12 => SaveFReg { reg, offset_bytes },
        13 => SaveFRegPreindexed { reg, offset_bytes },
        14 => AllocZ { count: reg },
        15 => AllocLarge { size_bytes },
        16 => SetFp,
        17 => AddFp { imm8: reg, offset_bytes },
        18 => Nop,
        19 => End,
        20 => EndC,
        21 => SaveNext,
        22 => save_any_reg_of(it, reg),
        23 => SaveZReg { r: reg, o: raw::narrow(it.value)? },
        24 => SavePReg { r: reg, o: raw::narrow(it.value)? },
        25 => CustomStack(custom_stack_of(reg)),
        26 => PacSignLr,
        _ => Reserved { opcode: reg, data: it.value, data_len: len.saturating_sub(1) },
    })
}

fn save_any_reg_of(it: &sys::Arm64Code, reg: u8) -> Arm64UnwindCode {
    Arm64UnwindCode::SaveAnyReg {
        kind: (it.flags >> 2) as u8 & 3,
        pair: it.flags & 1 != 0,
        preindexed: it.flags & 2 != 0,
        reg,
        offset_bytes: it.value,
    }
}

fn custom_stack_of(case: u8) -> Arm64CustomStackCase {
    match case {
        0 => Arm64CustomStackCase::TrapFrame,
        1 => Arm64CustomStackCase::MachineFrame,
        2 => Arm64CustomStackCase::Context,
        3 => Arm64CustomStackCase::EcContext,
        _ => Arm64CustomStackCase::ClearUnwoundToCall,
    }
}

/// The codes of an ARM64 unwind record, one after the other.
pub struct Arm64UnwindCodeIterator<'a> {
    bytes: &'a [u8],
    batch: raw::Batch<sys::Arm64Walk, sys::Arm64Code, TAKEN>,
}

impl<'a> Arm64UnwindCodeIterator<'a> {
    /// Codes from the byte with an index on. Error: `Malformed` where the bytes are no multiple of four, or the index is past
    /// them.
    pub fn new(raw_unwind_bytes: &'a [u8], start: usize) -> error::Result<Self> {
        let walk = raw::arm64_codes(raw_unwind_bytes, &raw::whole(raw_unwind_bytes), start as u64)?;
        let batch = raw::Batch::new(walk.ok_or(Refusal::SHORT)?);
        Ok(Arm64UnwindCodeIterator { bytes: raw_unwind_bytes, batch })
    }
}

impl Iterator for Arm64UnwindCodeIterator<'_> {
    type Item = error::Result<Arm64UnwindCodeData>;

    #[inline]
    fn next(&mut self) -> Option<Self::Item> {
        match self.batch.next() {
            Some(it) => Some(Arm64UnwindCodeData::of(it)),
            None => self.after_more(),
        }
    }
}

impl Arm64UnwindCodeIterator<'_> {
    /// The next code, once all that were taken are returned.
    #[inline(never)]
    fn after_more(&mut self) -> Option<error::Result<Arm64UnwindCodeData>> {
        let bytes = self.bytes;
        let filled = self.batch.fill(|walk, room| match walk.left.length {
            0 => Ok(&[]),
            _ => raw::list_arm64_codes(bytes, walk, room),
        });
        if let Err(refusal) = filled {
            return Some(Err(refusal.into()));
        }
        Some(Arm64UnwindCodeData::of(self.batch.next()?))
    }
}

impl FusedIterator for Arm64UnwindCodeIterator<'_> {}
