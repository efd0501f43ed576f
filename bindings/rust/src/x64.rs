//! The exception directory of an x64 image is a table of functions, sorted by start RVA. Each function leads to an unwind
//! record, whose codes say what the prolog did to the stack; undo them to find the caller's frame. A record can be chained
//! to another function, whose record continues it. A leaf function needs no entry. See
//! [Microsoft's page](https://learn.microsoft.com/cpp/build/exception-handling-x64).
//!
//! An unwinder takes [`Functions::find`], then [`Functions::plan`], then the codes of each record.

use crate::failure::{found, Failure};
use crate::image::{bytes_of, Error, Image};
use crate::shown::{self, shown};
use crate::sys::{self, Function, Scope};
use crate::walk::{items, look, BytesList, ImageList, ImageWalk, Walk};
use core::fmt;
use core::iter::FusedIterator;

/// A register, by its number: 0 to 15 are rax, rcx, rdx, rbx, rsp, rbp, rsi, rdi and r8 to r15, 17 to 32 xmm0 to xmm15.
#[derive(Clone, Copy, Debug, PartialEq, Eq, Hash)]
pub struct Register(pub u8);

impl Register {
    /// The name, empty for a number above 32.
    pub fn name(self) -> &'static str {
        const NAMES: [&str; 33] = [
            "rax", "rcx", "rdx", "rbx", "rsp", "rbp", "rsi", "rdi", "r8", "r9", "r10", "r11", "r12", "r13", "r14",
            "r15", "rip", "xmm0", "xmm1", "xmm2", "xmm3", "xmm4", "xmm5", "xmm6", "xmm7", "xmm8", "xmm9", "xmm10",
            "xmm11", "xmm12", "xmm13", "xmm14", "xmm15",
        ];
        NAMES.get(usize::from(self.0)).copied().unwrap_or_default()
    }
}

/// Where a register was saved: an offset in bytes, and the base from which it counts.
#[derive(Clone, Copy, Debug, PartialEq, Eq, Hash)]
pub enum Offset {
    /// From rsp.
    Stack(u32),
    /// From the frame register minus its offset (see [`UnwindRecord::frame`]) once [`Operation::SetFrame`] has run; before
    /// that from rsp.
    Frame(u32),
}

/// What an instruction of the prolog did, with Microsoft's names.
#[derive(Clone, Copy, Debug, PartialEq, Eq, Hash)]
#[non_exhaustive]
pub enum Operation {
    /// `UWOP_PUSH_NONVOL`: pushed a register.
    Push(Register),
    /// `UWOP_ALLOC_SMALL`, `UWOP_ALLOC_LARGE`: allocated so many bytes on the stack.
    Alloc(u32),
    /// `UWOP_SET_FPREG`: set the frame register to rsp plus its offset. [`UnwindRecord::frame`] has both.
    SetFrame,
    /// `UWOP_SAVE_NONVOL`, `UWOP_SAVE_NONVOL_FAR`: saved a register.
    Save(Register, Offset),
    /// Opcode 6 of version 1: saved the low 8 bytes of an XMM register.
    SaveXmm(Register, Offset),
    /// `UWOP_EPILOG`, opcode 6 of version 2: describes an epilog.
    Epilog {
        /// Its size in bytes, or the low part of its offset.
        size_or_low: u32,
        /// Its flags, or the high part of its offset.
        flags_or_high: u8,
    },
    /// `UWOP_SAVE_XMM128`, `UWOP_SAVE_XMM128_FAR`, and opcode 7 of version 1: saved an XMM register.
    SaveXmm128(Register, Offset),
    /// `UWOP_PUSH_MACHFRAME`: the frame that the processor pushed at an interrupt.
    MachineFrame {
        /// Whether the frame has an error code.
        has_error_code: bool,
    },
    /// Opcode 7 of version 2: nothing to undo.
    Noop,
}

/// An unwind code: one instruction of a prolog.
#[derive(Clone, Copy, Debug, PartialEq, Eq, Hash)]
#[non_exhaustive]
pub struct Code {
    /// Bytes, from the start of the prolog to the end of the instruction. Undo the code at this offset and after it.
    pub code_offset: u8,
    /// What the instruction did.
    pub operation: Operation,
}

impl From<sys::Code> for Code {
    fn from(code: sys::Code) -> Code {
        let register = Register(code.operand);
        let offset = if code.from_frame == 0 { Offset::Stack(code.value) } else { Offset::Frame(code.value) };
        // the library returns 0 to 8
        let operation = match code.operation {
            0 => Operation::Push(register),
            1 => Operation::Alloc(code.value),
            2 => Operation::SetFrame,
            3 => Operation::Save(register, offset),
            4 => Operation::SaveXmm(register, offset),
            5 => Operation::Epilog { size_or_low: code.value, flags_or_high: code.operand },
            6 => Operation::SaveXmm128(register, offset),
            7 => Operation::MachineFrame { has_error_code: code.operand != 0 },
            _ => Operation::Noop,
        };
        Code { code_offset: code.code_offset, operation }
    }
}

/// The codes of an unwind record, in the order in which they are undone: the last instruction of the prolog first.
///
/// The last item may be an error: [`Error::SHORT`] for a truncated code, [`Error::UNWIND_CODE`] for an invalid one.
///
/// ```
/// # let bytes: &[u8] = include_bytes!(concat!(env!("CARGO_MANIFEST_DIR"), "/../../crates/peinfo/data/i.bin"));
/// use pe_c::{Image, Mode, Operation, Register};
///
/// let image = Image::parse(bytes, Mode::Strict)?;
/// let functions = image.functions()?.expect("an x64 image with exception data");
/// let function = functions.find(0x1025)?.expect("a function covers the RVA");
/// let codes: Result<Vec<_>, _> = functions.record(function)?.codes().collect();
/// let codes = codes?;
/// assert_eq!(codes[0].operation, Operation::Alloc(40));
/// assert_eq!((codes[1].code_offset, codes[1].operation), (1, Operation::Push(Register(5))));
/// assert_eq!(Register(5).name(), "rbp");
/// # Ok::<(), pe_c::Error>(())
/// ```
#[derive(Clone, Debug)]
pub struct Codes<'a>(BytesList<'a, sys::Walk, sys::Code>);

impl Iterator for Codes<'_> {
    type Item = Result<Code, Error>;

    fn next(&mut self) -> Option<Self::Item> {
        Some(self.0.step(sys::pe_c_list_codes)?.map(Code::from))
    }
}

impl FusedIterator for Codes<'_> {}

impl Codes<'_> {
    /// Why the item that is an error is one: the error with its numbers. `None` where no item was an error.
    pub fn failure(&self) -> Option<Failure> {
        self.0.failure(sys::pe_c_code_failure)
    }
}

items! {
    /// The entries of a scope table, in the order of the table.
    Scopes<'a>(sys::Range): Scope, sys::pe_c_next_scope, |scope, _| Ok(scope)
}

/// The handler of a function: its RVA, and its data, which follows that in the record. Only the handler knows the length
/// of its data, so the slice goes up to the end of the file.
#[derive(Clone, Copy, PartialEq, Eq)]
pub enum Handler<'a> {
    /// `UNW_FLAG_EHANDLER`, also with `UNW_FLAG_UHANDLER`: called for exceptions.
    Exception(u32, &'a [u8]),
    /// `UNW_FLAG_UHANDLER` alone: called when an exception unwinds the function.
    Termination(u32, &'a [u8]),
}

impl fmt::Debug for Handler<'_> {
    fn fmt(&self, f: &mut fmt::Formatter<'_>) -> fmt::Result {
        let (name, rva, data) = match self {
            Handler::Exception(rva, data) => ("Exception", rva, data),
            Handler::Termination(rva, data) => ("Termination", rva, data),
        };
        f.debug_tuple(name).field(rva).field(&shown::Bytes(data)).finish()
    }
}

/// An unwind record, `UNWIND_INFO`: what the prolog of a function did to the stack.
///
/// ```
/// # #[path = "../tests/made/mod.rs"] mod made;
/// # let bytes = made::with_functions();
/// use pe_c::{Handler, Image, Mode, Register};
///
/// let image = Image::parse(&bytes, Mode::Permissive)?;
/// let functions = image.functions()?.expect("an x64 image with exception data");
/// let record = functions.record(functions.get(0).expect("the first function"))?;
/// assert_eq!(record.size_of_prolog(), 8);
/// assert_eq!(record.frame(), Some((Register(5), 32))); // saves count from rbp - 32
/// assert!(matches!(record.handler(), Some(Handler::Exception(0x1100, _))));
/// let scopes = record.scopes().expect("the handler's data is a scope table");
/// assert_eq!(scopes.count(), 1);
/// # Ok::<(), pe_c::Error>(())
/// ```
#[derive(Clone, Copy)]
pub struct UnwindRecord<'a> {
    raw: sys::Record,
    bytes: &'a [u8],
}

shown! { UnwindRecord<'_> { raw; .. } }

impl<'a> UnwindRecord<'a> {
    /// The record of the C library.
    pub fn raw(&self) -> &sys::Record {
        &self.raw
    }

    /// The version, 1 or 2. Version 2 can describe epilogs.
    pub fn version(&self) -> u8 {
        self.raw.codes.version
    }

    /// The length of the prolog, in bytes.
    pub fn size_of_prolog(&self) -> u8 {
        self.raw.size_of_prolog
    }

    /// The frame register and its offset in bytes: how far it was set above rsp. Subtract the offset from the register to
    /// get the base of [`Offset::Frame`].
    pub fn frame(&self) -> Option<(Register, u32)> {
        let register = self.raw.codes.frame_register;
        (register != 0).then_some((Register(register), self.raw.frame_register_offset))
    }

    /// The codes.
    pub fn codes(&self) -> Codes<'a> {
        Codes(BytesList::new(self.bytes, self.raw.codes))
    }

    /// The function to which the record is chained, whose record continues this one.
    pub fn chained(&self) -> Option<Function> {
        (self.raw.is_chained != 0).then_some(self.raw.chained)
    }

    /// The handler. A chained record has none.
    pub fn handler(&self) -> Option<Handler<'a>> {
        let data = self.raw.handler_data.of(self.bytes)?;
        match self.raw.handler_kind {
            0 => None,
            1 => Some(Handler::Exception(self.raw.handler, data)),
            _ => Some(Handler::Termination(self.raw.handler, data)),
        }
    }

    /// The scope table in the data of an exception handler, or `None` where it is truncated. Only a handler such as
    /// `__C_specific_handler` has one: the caller knows it by the handler's RVA.
    ///
    /// Functions may share a record: to read the scopes of every function of a hostile file of n bytes takes up to n²/192 steps, so read
    /// each record once, or bound the steps.
    pub fn scopes(&self) -> Option<Scopes<'a>> {
        let mut table = sys::Range::default();
        let (start, length) = (self.bytes.as_ptr(), self.bytes.len());
        // SAFETY: the pointer and the length are those of one slice, and both records are lent for the call.
        let number = unsafe { sys::pe_c_scope_table(start, length, &self.raw.handler_data, &mut table) };
        (self.raw.handler_kind == 1 && number == sys::DONE).then(|| Scopes(Walk::new(self.bytes, table)))
    }
}

/// The x64 functions of an image: the table in its exception directory.
///
/// ```
/// # let bytes: &[u8] = include_bytes!(concat!(env!("CARGO_MANIFEST_DIR"), "/../../crates/peinfo/data/i.bin"));
/// use pe_c::{Image, Mode};
///
/// let image = Image::parse(bytes, Mode::Strict)?;
/// let functions = image.functions()?.expect("an x64 image with exception data");
/// let function = functions.find(0x1025)?.expect("a function covers the RVA");
/// assert_eq!((function.begin, function.end), (0x1020, 0x1040));
/// assert_eq!(functions.find(0x1010)?, None);
///
/// // its own record, and those to which it is chained
/// let record = functions.record(function)?;
/// let plan: Result<Vec<_>, _> = functions.plan(function).collect();
/// assert_eq!(record.raw(), plan?[0].raw());
/// # Ok::<(), pe_c::Error>(())
/// ```
#[derive(Clone, Copy)]
pub struct Functions<'i, 'a> {
    image: &'i Image<'a>,
    table: sys::Range,
}

shown! { Functions<'_, '_> { table; .. } }

impl<'i, 'a> Functions<'i, 'a> {
    /// The image that has them.
    pub(crate) fn image(&self) -> &'i Image<'a> {
        self.image
    }

    /// The range of the table.
    pub(crate) fn table(&self) -> &sys::Range {
        &self.table
    }

    /// The number of functions.
    pub fn len(&self) -> u64 {
        self.table.length / 12
    }

    /// Whether the table is empty.
    pub fn is_empty(&self) -> bool {
        self.len() == 0
    }

    /// The function with an index, from 0, or `None` at [`len`](Self::len) and above.
    pub fn get(&self, index: u64) -> Option<Function> {
        look(self.image.bytes(), sys::pe_c_function_at, &self.table, index).ok().flatten()
    }

    /// The functions, in the order of the table.
    pub fn iter(&self) -> impl Iterator<Item = Function> + 'i
    where
        'a: 'i,
    {
        FunctionEntries { table: self.table, list: ImageList::new(self.image, 0), left: self.len() }
    }

    /// The function that covers an RVA, by binary search.
    ///
    /// In a table sorted by start RVA that is the last function that starts at or before the RVA, if the RVA is before its
    /// end. In any other table it is some function that covers the RVA, or `None`. The table of [`Image::functions`] lies
    /// inside the file, so no error is returned.
    pub fn find(&self, rva: u32) -> Result<Option<Function>, Error> {
        look(self.image.bytes(), sys::pe_c_find_function, &self.table, rva)
    }

    /// The unwind record of a function. Links are followed to their end; chained records are those of
    /// [`plan`](Self::plan).
    ///
    /// # Errors
    ///
    /// - of the links: [`Error::UNMAPPED`], [`Error::FUNCTION_LINK`], [`Error::FUNCTION_CYCLE`];
    /// - of the record: [`Error::UNMAPPED`], [`Error::SHORT`], [`Error::UNWIND_VERSION`].
    ///
    /// The table was checked by [`Image::functions`]: its errors come there.
    pub fn record(&self, function: Function) -> Result<UnwindRecord<'a>, Error> {
        let raw = self.image.look(sys::pe_c_unwind_record, &self.table, function.unwind)?.ok_or(Error::UNMAPPED)?;
        Ok(UnwindRecord { raw, bytes: self.image.bytes() })
    }

    /// Why [`record`](Self::record) returns an error: the error with its numbers. `None` where it returns none.
    pub fn record_failure(&self, function: Function) -> Option<Failure> {
        found(self.image.look(sys::pe_c_unwind_record_failure, &self.table, function.unwind))
    }

    /// The records of a function, up to the root of its chain: its own, that of the function to which it is chained, and so
    /// on.
    ///
    /// # Errors
    ///
    /// The last item may be an error:
    /// - those of [`record`](Self::record) for the next function of the chain: [`Error::UNMAPPED`],
    ///   [`Error::FUNCTION_LINK`], [`Error::FUNCTION_CYCLE`] of the links; [`Error::UNMAPPED`], [`Error::SHORT`],
    ///   [`Error::UNWIND_VERSION`] of the record;
    /// - [`Error::FUNCTION_CYCLE`] where the chain leads back to a record of the chain.
    ///
    /// [`Error::FUNCTION_CYCLE`] is returned if, and only if, the chain never ends. Records may be returned before it. The
    /// errors of the table come from [`Image::functions`].
    pub fn plan(&self, function: Function) -> Plan<'i, 'a> {
        Plan { table: self.table, walk: ImageWalk::new(self.image, plan_from(function.unwind)) }
    }
}

/// The functions of a table.
struct FunctionEntries<'i, 'a> {
    table: sys::Range,
    /// The walk is the index of the next one.
    list: ImageList<'i, 'a, u64, Function>,
    left: u64,
}

impl Iterator for FunctionEntries<'_, '_> {
    type Item = Function;

    fn next(&mut self) -> Option<Function> {
        let table = &self.table;
        // SAFETY: the bytes, the table and the numbers are lent for the call, the array has so many items, and none overlaps another.
        let found = self.list.step_of_few(|image, next, items, written| unsafe {
            let (bytes, length) = (image.bytes().as_ptr(), image.bytes().len());
            sys::pe_c_list_functions(bytes, length, table, next, items.as_mut_ptr(), items.len(), written)
        })?;
        self.left = self.left.saturating_sub(1);
        found.ok()
    }

    fn size_hint(&self) -> (usize, Option<usize>) {
        (0, usize::try_from(self.left).ok())
    }
}

fn plan_from(unwind: u32) -> sys::PlanWalk {
    let plan = sys::Plan { unwind, saved: unwind, limit: 1, ..sys::Plan::default() };
    sys::PlanWalk { plan, ..sys::PlanWalk::default() }
}

/// The records of a function, up to the root of its chain. [`Functions::plan`] says which errors an item can be.
#[derive(Clone, Debug)]
pub struct Plan<'i, 'a> {
    table: sys::Range,
    walk: ImageWalk<'i, 'a, sys::PlanWalk>,
}

impl<'a> Iterator for Plan<'_, 'a> {
    type Item = Result<UnwindRecord<'a>, Error>;

    fn next(&mut self) -> Option<Self::Item> {
        let bytes = self.walk.image.bytes();
        Some(self.walk.step_by(sys::pe_c_next_record, &self.table)?.map(|raw| UnwindRecord { raw, bytes }))
    }
}

impl FusedIterator for Plan<'_, '_> {}

impl<'a> Image<'a> {
    /// The x64 functions, or `None` without an exception directory, or for a machine other than x64.
    ///
    /// # Errors
    ///
    /// [`Error::EXCEPTION_SIZE`], [`Error::UNMAPPED`], [`Error::EXCEPTION_OFFSET`], [`Error::EXCEPTION_BOUNDS`].
    pub fn functions(&self) -> Result<Option<Functions<'_, 'a>>, Error> {
        let Some(table) = self.ask(sys::pe_c_function_table)? else {
            return Ok(None);
        };
        bytes_of(table, self.bytes())?;
        Ok(Some(Functions { image: self, table }))
    }
}
