//! Steps of stack walks on x64 and ARM64. A step finds the registers of a function's caller: in the table of functions the
//! caller looks up the one that the instruction pointer is in, and the step undoes what that function's prolog did. See
//! Microsoft's pages on [x64](https://learn.microsoft.com/cpp/build/exception-handling-x64) and
//! [ARM64](https://learn.microsoft.com/cpp/build/arm64-exception-handling).

use crate::arm64::Arm64Functions;
use crate::image::{Error, Image};
use crate::shown::{self, shown};
use crate::stack_walk::{Frame, Way};
use crate::sys::{self, Arm64Function, Arm64Registers, Function, MemoryPiece, Registers};
use crate::x64::Functions;
use core::{fmt, ptr};

/// A piece of a thread's memory: bytes, and the address of the first.
#[derive(Clone, Copy)]
pub struct Stack<'s> {
    /// The address of the first byte.
    pub start: u64,
    /// The bytes.
    pub bytes: &'s [u8],
}

shown! { Stack<'_> { start, bytes: shown::Bytes } }

impl Stack<'_> {
    /// The piece that it is of its bytes.
    fn piece(&self) -> [MemoryPiece; 1] {
        [MemoryPiece { start: self.start, offset: 0, length: self.bytes.len() as u64 }]
    }
}

/// Memory of a thread in pieces, as a minidump lists it: the bytes of the file, and for each piece its address and where in the
/// file it is. Nothing is copied.
///
/// The byte at an address is that of the first piece that has it, so eight bytes may stand in pieces that touch. Pieces in
/// ascending order that do not overlap are searched by halving, any others in turn for each byte. Each step tests all pieces
/// once, so of thousands pass those of the thread's stack.
#[derive(Clone, Copy)]
pub struct MemoryList<'s> {
    bytes: &'s [u8],
    pieces: &'s [MemoryPiece],
}

impl fmt::Debug for MemoryList<'_> {
    fn fmt(&self, f: &mut fmt::Formatter<'_>) -> fmt::Result {
        let (bytes, pieces) = (shown::Bytes(self.bytes), shown::Items(self.pieces.len()));
        f.debug_struct("MemoryList").field("bytes", &bytes).field("pieces", &pieces).finish()
    }
}

impl<'s> MemoryList<'s> {
    /// Memory by a list of its pieces in these bytes.
    ///
    /// # Errors
    ///
    /// [`Error::SHORT`] where a piece does not lie in the bytes.
    pub fn new(bytes: &'s [u8], pieces: &'s [MemoryPiece]) -> Result<Self, Error> {
        let length = bytes.len() as u64;
        let is_inside = |piece: &MemoryPiece| piece.offset.checked_add(piece.length).is_some_and(|end| end <= length);
        if pieces.iter().all(is_inside) {
            Ok(MemoryList { bytes, pieces })
        } else {
            Err(Error::SHORT)
        }
    }

    /// No memory.
    pub(crate) fn empty() -> Self {
        MemoryList { bytes: &[], pieces: &[] }
    }

    pub(crate) fn bytes(&self) -> &'s [u8] {
        self.bytes
    }

    pub(crate) fn pieces(&self) -> &'s [MemoryPiece] {
        self.pieces
    }
}

/// Why the registers of the caller are not found.
#[derive(Clone, Copy, Debug, PartialEq, Eq)]
#[cfg_attr(feature = "serde", derive(serde::Serialize))]
#[non_exhaustive]
pub enum StepError {
    /// The eight bytes at this address are not all in the memory.
    Missing(u64),
    /// This address and the offset of an unwind code do not fit 64 bits, or it is that of a frame register below its offset.
    Address(u64),
    /// This stack pointer of the caller is not above that of the function. On ARM64 a step takes one that is equal.
    NotRising(u64),
    /// The function's records: they cannot be read, a code of theirs is truncated, invalid or cannot be undone, more than
    /// 32 of them are chained, or packed unwind data have no canonical prolog.
    Records(Error),
}

impl StepError {
    /// The same without the address.
    pub fn error(self) -> Error {
        match self {
            StepError::Missing(_) => Error::MISSING,
            StepError::Address(_) => Error::BAD_ADDRESS,
            StepError::NotRising(_) => Error::NOT_RISING,
            StepError::Records(error) => error,
        }
    }
}

impl fmt::Display for StepError {
    fn fmt(&self, f: &mut fmt::Formatter<'_>) -> fmt::Result {
        match self {
            StepError::Missing(address) | StepError::Address(address) | StepError::NotRising(address) => {
                write!(f, "{}: {address:#x}", self.error())
            }
            StepError::Records(error) => write!(f, "{error}"),
        }
    }
}

impl core::error::Error for StepError {}

/// The registers after a step, by the number that it returned, or its error with the address that it speaks of.
pub(crate) fn stepped<R>(number: u32, registers: R, address: u64) -> Result<R, StepError> {
    let error = Error::with_number(number);
    match error {
        _ if number == sys::DONE => Ok(registers),
        Error::MISSING => Err(StepError::Missing(address)),
        Error::BAD_ADDRESS => Err(StepError::Address(address)),
        Error::NOT_RISING => Err(StepError::NotRising(address)),
        error => Err(StepError::Records(error)),
    }
}

impl Registers {
    /// The stack pointer.
    ///
    /// ```
    /// let mut registers = pe_c::Registers::default();
    /// registers.set_rsp(0x2_0000);
    /// registers.set_xmm(6, 1 << 64);
    /// assert_eq!((registers.general[4], registers.xmm[13]), (0x2_0000, 1));
    /// assert_eq!((registers.rsp(), registers.xmm(6)), (0x2_0000, 1 << 64));
    /// ```
    pub fn rsp(&self) -> u64 {
        self.general[4]
    }

    /// Sets the stack pointer.
    pub fn set_rsp(&mut self, rsp: u64) {
        self.general[4] = rsp;
    }

    /// An XMM register by its number, 0 to 15; 0 for any other.
    pub fn xmm(&self, number: usize) -> u128 {
        match self.xmm.chunks_exact(2).nth(number) {
            Some([low, high]) => u128::from(*low) | u128::from(*high) << 64,
            _ => 0,
        }
    }

    /// Sets an XMM register by its number, 0 to 15. Any other is ignored.
    pub fn set_xmm(&mut self, number: usize, value: u128) {
        if let Some(halves) = self.xmm.chunks_exact_mut(2).nth(number) {
            halves.copy_from_slice(&[value as u64, (value >> 64) as u64]);
        }
    }

    /// The registers of the caller of a leaf function, one that no function of its image covers: the return address is at
    /// rsp.
    ///
    /// # Errors
    ///
    /// [`StepError::Missing`] of the return address; [`StepError::Address`] where it is the last word below 2^64.
    pub fn leaf(&self, stack: Stack<'_>) -> Result<Registers, StepError> {
        self.leaf_pieces(MemoryList { bytes: stack.bytes, pieces: &stack.piece() })
    }

    /// The same over memory in pieces.
    ///
    /// # Errors
    ///
    /// Those of [`leaf`](Registers::leaf).
    pub fn leaf_pieces(&self, memory: MemoryList<'_>) -> Result<Registers, StepError> {
        let mut frame = sys::Frame { registers: *self, leaf: 1, ..Default::default() };
        // Neither is read of a leaf function.
        let (image, table) = (sys::ImageInfo::default(), sys::Range::default());
        let number = step_frame(&no_image(&image), &table, &[], memory, &mut frame);
        stepped(number, frame.registers, frame.address)
    }
}

/// An image without bytes.
fn no_image(image: &sys::ImageInfo) -> sys::View {
    let (bytes, sections, index) = (ptr::null(), ptr::null(), ptr::null());
    sys::View { bytes, length: 0, image, sections, count: 0, index, entries: 0 }
}

/// Makes a step of a stack walk, and returns its number. What the view leads to is lent for the call.
fn step_frame(
    view: &sys::View,
    table: &sys::Range,
    code: &[u8],
    memory: MemoryList<'_>,
    frame: &mut sys::Frame,
) -> u32 {
    let (bytes, pieces) = (memory.bytes, memory.pieces);
    // SAFETY: each pointer and length are those of one slice, and the view, the table and the frame are lent for the call.
    unsafe {
        sys::pe_c_step(
            view,
            table,
            code.as_ptr(),
            code.len(),
            bytes.as_ptr(),
            bytes.len(),
            pieces.as_ptr(),
            pieces.len(),
            frame,
        )
    }
}

/// The same on ARM64.
fn step_arm64_frame(view: &sys::View, memory: MemoryList<'_>, frame: &mut sys::Arm64Frame) -> u32 {
    let (bytes, pieces) = (memory.bytes, memory.pieces);
    // SAFETY: as above.
    unsafe { sys::pe_c_step_arm64(view, bytes.as_ptr(), bytes.len(), pieces.as_ptr(), pieces.len(), frame) }
}

impl Functions<'_, '_> {
    /// The registers of a function's caller, from those inside the function at an RVA, in its prolog and epilogs too. A jump
    /// that ends an epilog is followed to the function at its target.
    ///
    /// `rva` is the instruction pointer less the address where the image is loaded. In the top frame, and in one that an
    /// interrupt stopped, it is that of the instruction which is about to run: find the function by it, and pass in `code`
    /// the bytes of the function from it on, as [`Image::code`] returns them. In every other frame it is that of a return
    /// address: find the function by `rva - 1`, and pass no code. Without code epilogs are not recognized.
    ///
    /// # Errors
    ///
    /// In their order as `pe_c_step` of `pe.h` has them: [`StepError::Records`] of the records; then for each instruction
    /// or code [`StepError::Records`], [`StepError::Address`], [`StepError::Missing`]; last [`StepError::NotRising`].
    pub fn step(
        &self,
        function: Function,
        rva: u32,
        code: &[u8],
        registers: &Registers,
        stack: Stack<'_>,
    ) -> Result<Registers, StepError> {
        let memory = MemoryList { bytes: stack.bytes, pieces: &stack.piece() };
        self.step_pieces(function, rva, code, registers, memory).map(|frame| frame.registers)
    }

    /// The frame of a function's caller over memory in pieces: its registers, as [`step`](Functions::step) returns them, and how
    /// they were found, by [`Way::Interrupt`] where the frame that the processor pushed was undone, else by [`Way::Records`].
    /// A step does not look at the bytes before a return address: of `Records` it says that the function has called.
    ///
    /// # Errors
    ///
    /// Those of [`step`](Functions::step).
    pub fn step_pieces(
        &self,
        function: Function,
        rva: u32,
        code: &[u8],
        registers: &Registers,
        memory: MemoryList<'_>,
    ) -> Result<Frame, StepError> {
        let registers = *registers;
        let mut frame = sys::Frame { registers, function, rva, ..Default::default() };
        let number = step_frame(&self.image().view(), self.table(), code, memory, &mut frame);
        let registers = stepped(number, frame.registers, frame.address)?;
        let (way, has_called) = if frame.interrupted == 0 { (Way::Records, true) } else { (Way::Interrupt, false) };
        Ok(Frame { registers, way, has_called, is_guess: false })
    }
}

impl Arm64Registers {
    /// The link register, x30, in which a call leaves its return address.
    pub fn lr(&self) -> u64 {
        self.general[30]
    }

    /// Sets the link register.
    pub fn set_lr(&mut self, lr: u64) {
        self.general[30] = lr;
    }

    /// The registers of the caller of a leaf function, one that no function of its image covers: it goes on at the link
    /// register. Only the top frame can be one of a leaf function.
    pub fn leaf(&self) -> Arm64Registers {
        let mut frame = sys::Arm64Frame { registers: *self, leaf: 1, ..Default::default() };
        // No image is read of a leaf function, and the call always succeeds.
        let image = sys::ImageInfo::default();
        let _ = step_arm64_frame(&no_image(&image), MemoryList::empty(), &mut frame);
        frame.registers
    }
}

impl Arm64Functions<'_, '_> {
    /// The registers of a function's caller, from those inside the function at an RVA, in its prolog and epilogs too.
    ///
    /// `rva` is the instruction pointer less the address where the image is loaded. In the top frame it is that of the
    /// instruction which is about to run: find the function by it. In every other frame it is that of a return address: find
    /// the function by `rva - 4`. Where no function covers the address, call [`Arm64Registers::leaf`] in the top frame alone.
    /// A signature is taken off the return address.
    ///
    /// A step may leave the stack pointer where it is, before a prolog has moved it. End a walk where one does so in any
    /// frame but the top one: a function that calls has stored the link register. [`Frames`](crate::Frames) does all this.
    ///
    /// ```
    /// # #[path = "../tests/made/mod.rs"] mod made;
    /// # let bytes = made::with_arm64_functions();
    /// use pe_c::{Arm64Registers, Image, Mode, Stack};
    ///
    /// let image = Image::parse(&bytes, Mode::Permissive)?;
    /// let functions = image.arm64_functions()?.expect("an ARM64 image with exception data");
    /// // before the first instruction
    /// let function = functions.find(0x5010)?.expect("a function");
    /// let mut registers = Arm64Registers { sp: 0x2_0000, ..Arm64Registers::default() };
    /// registers.set_lr(0x1_8000_1234);
    /// let caller = functions.step(function, 0x5010, &registers, Stack { start: 0, bytes: &[] });
    /// assert_eq!(caller.map(|it| (it.pc, it.sp)), Ok((0x1_8000_1234, 0x2_0000)));
    /// # Ok::<(), pe_c::Error>(())
    /// ```
    ///
    /// # Errors
    ///
    /// In their order as `pe_c_step_arm64` of `pe.h` has them: [`StepError::Records`] of the unwind data; then for each code
    /// [`StepError::Records`], [`StepError::Address`], [`StepError::Missing`]; last [`StepError::NotRising`].
    pub fn step(
        &self,
        function: Arm64Function,
        rva: u32,
        registers: &Arm64Registers,
        stack: Stack<'_>,
    ) -> Result<Arm64Registers, StepError> {
        let memory = MemoryList { bytes: stack.bytes, pieces: &stack.piece() };
        self.step_pieces(function, rva, registers, memory).map(|frame| frame.registers)
    }

    /// The frame of a function's caller over memory in pieces: its registers, as [`step`](Arm64Functions::step) returns them, and
    /// how they were found, by [`Way::Interrupt`] where the codes say that no call left them, else by [`Way::Records`].
    ///
    /// # Errors
    ///
    /// Those of [`step`](Arm64Functions::step).
    pub fn step_pieces(
        &self,
        function: Arm64Function,
        rva: u32,
        registers: &Arm64Registers,
        memory: MemoryList<'_>,
    ) -> Result<Frame<Arm64Registers>, StepError> {
        let registers = *registers;
        let mut frame = sys::Arm64Frame { registers, function, rva, ..Default::default() };
        let number = step_arm64_frame(&self.image().view(), memory, &mut frame);
        let registers = stepped(number, frame.registers, frame.address)?;
        let (way, has_called) = if frame.interrupted == 0 { (Way::Records, true) } else { (Way::Interrupt, false) };
        Ok(Frame { registers, way, has_called, is_guess: false })
    }
}

impl<'a> Image<'a> {
    /// The bytes of the image from an RVA up to another. Empty where they are not all there.
    pub fn code(&self, rva: u32, end: u32) -> &'a [u8] {
        let part = || {
            let offset = usize::try_from(self.offset(rva)?).ok()?;
            let length = usize::try_from(end.checked_sub(rva)?).ok()?;
            self.bytes().get(offset..offset.checked_add(length)?)
        };
        part().unwrap_or_default()
    }
}
