//! The exception directory of an ARM64 image is a table of functions. The unwind data of a function is packed into its
//! entry if the prolog and epilog are canonical, else it is a record with a byte stream of codes: those of the prolog, and
//! those of each epilog, which a scope locates. The length of a function is in its unwind data. See
//! [Microsoft's page](https://learn.microsoft.com/cpp/build/arm64-exception-handling).
//!
//! An unwinder takes [`Arm64Functions::unwinding`], then [`Arm64Record::codes`] from 0 or from the epilog that it is in.

use crate::failure::{found, Failure};
use crate::image::{Error, Image};
use crate::shown::shown;
use crate::sys::{self, Arm64Function, Arm64Packed, Arm64Scope};
use crate::walk::{items, look, Walk};

/// What the operating system put on the stack, with the names of Microsoft's custom stack cases.
#[derive(Clone, Copy, Debug, PartialEq, Eq, Hash)]
#[non_exhaustive]
pub enum CustomStack {
    /// `MSFT_OP_TRAP_FRAME`.
    TrapFrame,
    /// `MSFT_OP_MACHINE_FRAME`.
    MachineFrame,
    /// `MSFT_OP_CONTEXT`: a `CONTEXT` record.
    Context,
    /// `MSFT_OP_EC_CONTEXT`: a `CONTEXT` record of ARM64EC.
    EcContext,
    /// `MSFT_OP_CLEAR_UNWOUND_TO_CALL`.
    ClearUnwoundToCall,
}

/// The kind of a saved register.
#[derive(Clone, Copy, Debug, PartialEq, Eq, Hash)]
#[non_exhaustive]
pub enum RegisterKind {
    /// x, 8 bytes.
    Integer,
    /// d, 8 bytes.
    Float,
    /// q, 16 bytes.
    Vector,
}

/// What an instruction did, with Microsoft's names.
///
/// Register numbers n mean xn, or dn of a floating-point register. Sizes and offsets are in bytes; offsets count from sp. A
/// preindexed store (`_x`) moves sp down by its offset first.
#[derive(Clone, Copy, Debug, PartialEq, Eq, Hash)]
#[non_exhaustive]
pub enum Arm64Operation {
    /// `alloc_s`: allocated stack.
    AllocSmall {
        /// Below 512.
        size: u32,
    },
    /// `save_r19r20_x`: saved x19 and x20, preindexed.
    SaveR19R20Preindexed {
        /// Of x19.
        offset: u32,
    },
    /// `save_fplr`: saved x29 and lr.
    SaveFpLr {
        /// Of x29.
        offset: u32,
    },
    /// `save_fplr_x`: saved x29 and lr, preindexed.
    SaveFpLrPreindexed {
        /// Of x29.
        offset: u32,
    },
    /// `alloc_m`: allocated stack.
    AllocMedium {
        /// Below 32 KiB.
        size: u32,
    },
    /// `save_regp`: saved an integer register and the next.
    SaveRegPair {
        /// The first register.
        first: u8,
        /// Of the first register.
        offset: u32,
    },
    /// `save_regp_x`: saved an integer register and the next, preindexed.
    SaveRegPairPreindexed {
        /// The first register.
        first: u8,
        /// Of the first register.
        offset: u32,
    },
    /// `save_reg`: saved an integer register.
    SaveReg {
        /// The register.
        register: u8,
        /// Of the register.
        offset: u32,
    },
    /// `save_reg_x`: saved an integer register, preindexed.
    SaveRegPreindexed {
        /// The register.
        register: u8,
        /// Of the register.
        offset: u32,
    },
    /// `save_lrpair`: saved an integer register and lr.
    SaveLrPair {
        /// The first register.
        first: u8,
        /// Of the first register.
        offset: u32,
    },
    /// `save_fregp`: saved a floating-point register and the next.
    SaveFRegPair {
        /// The first register.
        first: u8,
        /// Of the first register.
        offset: u32,
    },
    /// `save_fregp_x`: saved a floating-point register and the next, preindexed.
    SaveFRegPairPreindexed {
        /// The first register.
        first: u8,
        /// Of the first register.
        offset: u32,
    },
    /// `save_freg`: saved a floating-point register.
    SaveFReg {
        /// The register.
        register: u8,
        /// Of the register.
        offset: u32,
    },
    /// `save_freg_x`: saved a floating-point register, preindexed.
    SaveFRegPreindexed {
        /// The register.
        register: u8,
        /// Of the register.
        offset: u32,
    },
    /// `alloc_z`: allocated stack for scalable vectors.
    AllocZ {
        /// In units of the vector length.
        count: u8,
    },
    /// `alloc_l`: allocated stack.
    AllocLarge {
        /// Below 256 MiB.
        size: u32,
    },
    /// `set_fp`: set x29 to sp.
    SetFp,
    /// `add_fp`: set x29 to sp plus an offset.
    AddFp {
        /// A multiple of 8.
        offset: u32,
    },
    /// `nop`: nothing to undo.
    Nop,
    /// `end`: the end of the codes of the prolog or of an epilog.
    End,
    /// `end_c`: the end of the codes of a chained fragment.
    EndC,
    /// `save_next`: saved the next pair of registers after that of the instruction before, whose code follows this one.
    SaveNext,
    /// `save_any_reg`: saved any register, or a pair.
    SaveAnyReg {
        /// The kind of register.
        kind: RegisterKind,
        /// Whether the next register is saved too.
        pair: bool,
        /// Whether sp is moved first.
        preindexed: bool,
        /// The first register.
        register: u8,
        /// Of the first register. Preindexed, it is 16 times the code's number; LLVM adds 16.
        offset: u32,
    },
    /// `save_zreg`: saved a scalable vector register. Both numbers are as encoded.
    SaveZReg {
        /// The code's number of the register.
        register: u8,
        /// The code's number of the offset.
        number: u32,
    },
    /// `save_preg`: saved a scalable predicate register. Both numbers are as encoded.
    SavePReg {
        /// The code's number of the register.
        register: u8,
        /// The code's number of the offset.
        number: u32,
    },
    /// The operating system's own frame.
    Custom(CustomStack),
    /// `pac_sign_lr`: signed lr.
    PacSignLr,
    /// A reserved code.
    Reserved {
        /// The first byte.
        opcode: u8,
        /// The number in the bytes after it, 0 without any.
        value: u32,
    },
}

/// An ARM64 unwind code.
#[derive(Clone, Copy, Debug, PartialEq, Eq, Hash)]
#[non_exhaustive]
pub struct Arm64Code {
    /// Bytes, from the start of the record's codes to this one.
    pub offset: u32,
    /// Bytes of the code, 1 to 5.
    pub length: u32,
    /// What the instruction did.
    pub operation: Arm64Operation,
}

/// The register kind of a code's flags.
fn kind_of(flags: u32) -> RegisterKind {
    match flags >> 2 & 3 {
        0 => RegisterKind::Integer,
        1 => RegisterKind::Float,
        _ => RegisterKind::Vector,
    }
}

/// The case of a custom stack code, by its number.
fn case_of(number: u32) -> CustomStack {
    match number {
        0 => CustomStack::TrapFrame,
        1 => CustomStack::MachineFrame,
        2 => CustomStack::Context,
        3 => CustomStack::EcContext,
        _ => CustomStack::ClearUnwoundToCall,
    }
}

fn operation_of(code: sys::Arm64Code) -> Arm64Operation {
    use Arm64Operation::*;
    let sys::Arm64Code { kind, operand, value, flags, .. } = code;
    let number = operand as u8;
    // the library returns 0 to 27
    match kind {
        0 => AllocSmall { size: value },
        1 => SaveR19R20Preindexed { offset: value },
        2 => SaveFpLr { offset: value },
        3 => SaveFpLrPreindexed { offset: value },
        4 => AllocMedium { size: value },
        5 => SaveRegPair { first: number, offset: value },
        6 => SaveRegPairPreindexed { first: number, offset: value },
        7 => SaveReg { register: number, offset: value },
        8 => SaveRegPreindexed { register: number, offset: value },
        9 => SaveLrPair { first: number, offset: value },
        10 => SaveFRegPair { first: number, offset: value },
        11 => SaveFRegPairPreindexed { first: number, offset: value },
        12 => SaveFReg { register: number, offset: value },
        13 => SaveFRegPreindexed { register: number, offset: value },
        14 => AllocZ { count: number },
        15 => AllocLarge { size: value },
        16 => SetFp,
        17 => AddFp { offset: value },
        18 => Nop,
        19 => End,
        20 => EndC,
        21 => SaveNext,
        22 => SaveAnyReg {
            kind: kind_of(flags),
            pair: flags & 1 != 0,
            preindexed: flags & 2 != 0,
            register: number,
            offset: value,
        },
        23 => SaveZReg { register: number, number: value },
        24 => SavePReg { register: number, number: value },
        25 => Custom(case_of(operand)),
        26 => PacSignLr,
        _ => Reserved { opcode: number, value },
    }
}

impl From<sys::Arm64Code> for Arm64Code {
    fn from(code: sys::Arm64Code) -> Arm64Code {
        Arm64Code { offset: code.offset, length: code.length, operation: operation_of(code) }
    }
}

items! {
    /// ARM64 unwind codes, in the order of the record. They do not stop at [`End`](Arm64Operation::End) and
    /// [`EndC`](Arm64Operation::EndC), since the codes of epilogs follow; the caller stops there.
    ///
    /// The last item may be [`Error::ARM64_CUT`], for a truncated code.
    Arm64Codes<'a>(sys::Arm64Walk): Arm64Code, sys::pe_c_next_arm64_code, |code, _| Ok(Arm64Code::from(code))
}

impl Arm64Codes<'_> {
    /// Why the item that is an error is one: the error with its numbers, the offset from the start of the codes. `None` where no item
    /// was an error.
    pub fn failure(&self) -> Option<Failure> {
        self.0.failure(sys::pe_c_arm64_code_failure)
    }
}

items! {
    /// The epilog scopes of an ARM64 unwind record. No item is an error.
    Arm64Scopes<'a>(sys::Range): Arm64Scope, sys::pe_c_next_arm64_scope, |scope, _| Ok(scope)
}

/// An ARM64 unwind record (`.xdata`).
#[derive(Clone, Copy)]
pub struct Arm64Record<'a> {
    raw: sys::Arm64Record,
    bytes: &'a [u8],
}

shown! { Arm64Record<'_> { raw; .. } }

impl<'a> Arm64Record<'a> {
    /// The record of the C library.
    pub fn raw(&self) -> &sys::Arm64Record {
        &self.raw
    }

    /// The length of the function, in bytes.
    pub fn function_length(&self) -> u32 {
        self.raw.function_length
    }

    /// The epilog scopes. There are none where the record's header describes the one epilog.
    ///
    /// Functions may share a record of at most 65,535 scopes: to read those of every function of a hostile file of n bytes takes up to
    /// 8,192 n steps, below 256 KiB n²/32, so read each record once, or bound the steps.
    pub fn scopes(&self) -> Arm64Scopes<'a> {
        Arm64Scopes(Walk::new(self.bytes, self.raw.scopes))
    }

    /// The index of the first code byte of the one epilog, where the record's header describes it. That epilog is at the
    /// end of the function.
    pub fn epilog_start(&self) -> Option<u32> {
        (self.raw.epilog_in_header != 0).then_some(self.raw.epilog_start)
    }

    /// The codes from the code byte with an index on: 0 for the prolog, [`start_index`](Arm64Scope::start_index) of a scope
    /// or [`epilog_start`](Self::epilog_start) for an epilog.
    ///
    /// # Errors
    ///
    /// [`Error::ARM64_STREAM`] where the record has fewer code bytes.
    pub fn codes(&self, start: u32) -> Result<Arm64Codes<'a>, Error> {
        let walk = look(self.bytes, sys::pe_c_arm64_codes, &self.raw.codes, u64::from(start))?;
        Ok(Arm64Codes(Walk::new(self.bytes, walk.ok_or(Error::ARM64_STREAM)?)))
    }

    /// The RVA of the handler and its data, which follows that in the record. Only the handler knows the length of its
    /// data, so the slice goes up to the end of the file.
    pub fn handler(&self) -> Option<(u32, &'a [u8])> {
        let data = self.raw.handler_data.of(self.bytes)?;
        (self.raw.has_handler != 0).then_some((self.raw.handler, data))
    }
}

/// The unwind data of an ARM64 function.
#[derive(Clone, Copy, Debug)]
pub enum Arm64Unwinding<'a> {
    /// It is packed into the entry of the function.
    Packed(Arm64Packed),
    /// It is a record.
    Record(Arm64Record<'a>),
}

/// The ARM64 functions of an image: the table in its exception directory.
///
/// ```
/// # #[path = "../tests/made/mod.rs"] mod made;
/// # let bytes = made::with_arm64_functions();
/// use pe_c::{Arm64Operation, Arm64Unwinding, Image, Mode};
///
/// let image = Image::parse(&bytes, Mode::Permissive)?;
/// let functions = image.arm64_functions()?.expect("an ARM64 image with exception data");
/// for function in functions.iter() {
///     match functions.unwinding(function)? {
///         Arm64Unwinding::Packed(packed) => assert_eq!((packed.function_length, packed.frame_size), (16, 96)),
///         Arm64Unwinding::Record(record) => {
///             let first = record.codes(0)?.next().expect("a code")?;
///             assert_eq!(first.operation, Arm64Operation::SaveFpLrPreindexed { offset: 16 });
///         }
///     }
/// }
/// # Ok::<(), pe_c::Error>(())
/// ```
#[derive(Clone, Copy)]
pub struct Arm64Functions<'i, 'a> {
    image: &'i Image<'a>,
    table: sys::Range,
}

shown! { Arm64Functions<'_, '_> { table; .. } }

impl<'i, 'a> Arm64Functions<'i, 'a> {
    /// The image of the functions.
    pub(crate) fn image(&self) -> &'i Image<'a> {
        self.image
    }

    /// The number of functions.
    pub fn len(&self) -> u64 {
        self.table.length / 8
    }

    /// Whether the table is empty.
    pub fn is_empty(&self) -> bool {
        self.len() == 0
    }

    /// The function with an index, from 0, or `None` at [`len`](Self::len) and above.
    pub fn get(&self, index: u64) -> Option<Arm64Function> {
        look(self.image.bytes(), sys::pe_c_arm64_function_at, &self.table, index).ok().flatten()
    }

    /// The functions, in the order of the table.
    pub fn iter(&self) -> impl Iterator<Item = Arm64Function> + 'i
    where
        'a: 'i,
    {
        let functions = *self;
        (0..self.len()).map_while(move |index| functions.get(index))
    }

    /// The function that covers an RVA, by binary search.
    ///
    /// In a table sorted by start RVA that is the last function that starts at or before the RVA, if it is long enough. In
    /// any other table it is some function that covers the RVA, or `None`. The length is packed into the entry, or stands
    /// in the first word of its unwind record.
    ///
    /// # Errors
    ///
    /// Of that record: [`Error::UNMAPPED`], and [`Error::SHORT`] where its first word is truncated. The table of
    /// [`Image::arm64_functions`] lies inside the file.
    pub fn find(&self, rva: u32) -> Result<Option<Arm64Function>, Error> {
        self.image.look(sys::pe_c_find_arm64_function, &self.table, rva)
    }

    /// Why [`unwinding`](Self::unwinding) returns an error: the error with its numbers. `None` where it returns none.
    pub fn unwinding_failure(&self, function: Arm64Function) -> Option<Failure> {
        found(self.image.ask_of(sys::pe_c_arm64_record_failure, &function))
    }

    /// The unwind data of a function.
    ///
    /// # Errors
    ///
    /// Of a record: [`Error::UNMAPPED`], [`Error::SHORT`], [`Error::ARM64_VERSION`]. The errors of the table come from
    /// [`Image::arm64_functions`].
    pub fn unwinding(&self, function: Arm64Function) -> Result<Arm64Unwinding<'a>, Error> {
        match self.image.ask_of(sys::pe_c_arm64_unwind_record, &function)? {
            Some(raw) => Ok(Arm64Unwinding::Record(Arm64Record { raw, bytes: self.image.bytes() })),
            None => Ok(Arm64Unwinding::Packed(packed_fields(function))),
        }
    }
}

/// The fields of packed unwind data.
fn packed_fields(function: Arm64Function) -> Arm64Packed {
    let mut fields = Arm64Packed::default();
    // SAFETY: both records are lent for the call, which always succeeds.
    let _ = unsafe { sys::pe_c_arm64_packed_fields(&function, &mut fields) };
    fields
}

impl<'a> Image<'a> {
    /// The ARM64 functions, or `None` without an exception directory, or for a machine other than ARM64.
    ///
    /// # Errors
    ///
    /// [`Error::EXCEPTION_SIZE`], [`Error::UNMAPPED`], [`Error::EXCEPTION_OFFSET`], [`Error::EXCEPTION_BOUNDS`].
    pub fn arm64_functions(&self) -> Result<Option<Arm64Functions<'_, 'a>>, Error> {
        let table = self.ask(sys::pe_c_arm64_table)?;
        Ok(table.map(|table| Arm64Functions { image: self, table }))
    }
}
