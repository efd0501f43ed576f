//! Stack walks on x64 and ARM64: step after step, through all modules of a process, from the innermost frame outwards.
//!
//! A walk is `pe_c_next_frames` or `pe_c_next_arm64_frames`, the walks of the library, which are proved.

use crate::frames::{stepped, MemoryList, StepError};
use crate::image::{DirectoryIndex, Error, Image};
use crate::shown::{self, shown};
use crate::sys::{self, Arm64Registers, ImageInfo, Registers};
use alloc::vec::Vec;
use core::fmt;

/// `IMAGE_FILE_MACHINE_ARM64`.
const MACHINE_ARM64: u16 = 0xAA64;

/// A module of a process: its image, and the addresses where it is loaded.
#[derive(Clone, Copy)]
pub struct Module<'m> {
    /// Without one what is known of it: the size of its image.
    image: Result<&'m Image<'m>, &'m ImageInfo>,
    base: u64,
    /// Its function table, if it is an image of a machine whose stacks are walked, and whether that is ARM64.
    table: sys::Range,
    is_arm64: bool,
}

shown! { Module<'_> { base, table, is_arm64; .. } }

impl<'m> Module<'m> {
    /// An image, a file or as loaded, that is loaded at an address, with as many bytes as `SizeOfImage` says.
    ///
    /// # Errors
    ///
    /// Those of its function table: [`Error::EXCEPTION_SIZE`], [`Error::UNMAPPED`], [`Error::EXCEPTION_OFFSET`],
    /// [`Error::EXCEPTION_BOUNDS`].
    pub fn new(image: &'m Image<'m>, base: u64) -> Result<Self, Error> {
        let (table, is_arm64) = match image.ask(sys::pe_c_arm64_table)? {
            Some(table) => (table, true),
            None => (image.ask(sys::pe_c_function_table)?.unwrap_or_default(), false),
        };
        Ok(Module { image: Ok(image), base, table, is_arm64 })
    }

    /// The same with the whole entries of a function table that is damaged, as Windows divides its size: those that the bytes have. Of
    /// a table that is not mapped there are none, and what calls the module's code is found by scans.
    pub(crate) fn with_whole_functions(image: &'m Image<'m>, base: u64) -> Self {
        let is_arm64 = image.info().machine == MACHINE_ARM64;
        let entry = if is_arm64 { 8 } else { 12 };
        let table = image.info().directory(DirectoryIndex::Exception).and_then(|it| {
            let offset = image.offset(it.virtual_address)?;
            let length = u64::from(it.size).min((image.bytes().len() as u64).checked_sub(offset)?);
            Some(sys::Range { offset, length: length / entry * entry })
        });
        Module { image: Ok(image), base, table: table.unwrap_or_default(), is_arm64 }
    }

    /// A module whose image is not at hand: a leaf function may have been called from it.
    pub(crate) fn without_image(info: &'m ImageInfo, base: u64) -> Self {
        Module { image: Err(info), base, table: sys::Range::default(), is_arm64: false }
    }

    /// The module as the library takes it. An image of another machine has no functions.
    fn view(&self, is_arm64: bool) -> sys::Module {
        let table = if self.is_arm64 == is_arm64 { self.table } else { sys::Range::default() };
        let image = self.image.map_or_else(|info| sys::View::of(&[], info, &[], &[]), Image::view);
        sys::Module { image, table, base: self.base }
    }
}

/// How a frame was found.
#[derive(Clone, Copy, Debug, PartialEq, Eq)]
#[cfg_attr(feature = "serde", derive(serde::Serialize))]
#[non_exhaustive]
pub enum Way {
    /// It is the top frame.
    Top,
    /// By the unwind data of the frame below it.
    Records,
    /// The frame below it is one of a leaf function.
    Leaf,
    /// An interrupt stopped it: in the frame below it the frame was undone that the processor pushed, or on ARM64 what the
    /// operating system saved.
    Interrupt,
    /// By a scan of the stack, where no records led on. It is the word whose call leads to the code without records in which the
    /// frame before it is, to the nearest address before that, or if there is none, the first that is after a call in executable
    /// code; or, from a module without an image, the first address of such a module. It may be a return address that was left there, so
    /// this frame and those after it may be wrong.
    Scanned,
    /// By a chain of frame pointers: the function below it keeps one in `rbp`, on ARM64 in `x29`, which leads to what that saved of it,
    /// by what is there. No records say so. A function that keeps none leaves that of its caller, so this frame and those after it may
    /// be wrong.
    FramePointer,
}

/// A frame of a stack walk: on x64 with [`Registers`], on ARM64 with [`Arm64Registers`].
#[derive(Clone, Copy, Debug, PartialEq, Eq)]
#[cfg_attr(feature = "serde", derive(serde::Serialize))]
#[non_exhaustive]
pub struct Frame<R = Registers> {
    /// The registers in its function. In the frame of a call `rip`, or `pc`, is the return address.
    pub registers: R,
    /// How they were found.
    pub way: Way,
    /// Whether its function has called. If not, `rip` or `pc` is that of the instruction that is about to run: in the top frame,
    /// in one that an interrupt stopped, and in one that records lead to where no call ends there, which was interrupted too, or whose return address was overwritten.
    pub has_called: bool,
    /// Whether it may be wrong: nothing proves that it is the caller, or it follows a frame of which this holds. What a scan or a
    /// frame pointer finds is a guess, and so is the caller of code of which no function table says that it is a leaf function: in a module without
    /// one, in no module, in data, and where no call in executable code ends at the return address.
    pub is_guess: bool,
}

impl<R> Frame<R> {
    /// A frame as a walk reports it that nothing makes a guess of but a scan or a frame pointer. The top frame has not called, nor one that an interrupt
    /// stopped.
    ///
    /// ```
    /// use pe_c::{Frame, Registers, Way};
    ///
    /// let frame = Frame::new(Registers { rip: 0x1_8000_1234, ..Registers::default() }, Way::Scanned);
    /// assert!(frame.has_called && frame.is_guess);
    /// ```
    pub fn new(registers: R, way: Way) -> Self {
        let has_called = !matches!(way, Way::Top | Way::Interrupt);
        Frame { registers, way, has_called, is_guess: matches!(way, Way::Scanned | Way::FramePointer) }
    }
}

/// Why a stack walk is over.
#[derive(Clone, Copy, Debug, PartialEq, Eq)]
#[cfg_attr(feature = "serde", derive(serde::Serialize))]
#[non_exhaustive]
pub enum End {
    /// As many frames were returned as the caller wants.
    Bound,
    /// By its records the last frame returns to 0, as that does with which a thread starts, no frame is found there, and none of the
    /// frames is a guess. By its records the stack is whole. A return address that was overwritten may have led them astray, as where a
    /// frame by [`Way::Records`] has not called.
    Bottom,
    /// The instruction pointer of the last frame is in no module, or in one without an image, and no return address is found.
    NoModule,
    /// No function covers the call in the last frame, and no return address is found. A leaf function calls nothing.
    NoFunction,
    /// An unwind record of the function in the last frame cannot be read.
    Records(Error),
    /// More than 32 records are chained, or a chain of them never ends. On x64 alone.
    LongChain,
    /// The step from the last frame is refused.
    Step(StepError),
    /// The last frame returns to 0, but a frame is a guess, as after a call of a null pointer, or no records describe the code of the
    /// last one: frames may be missing or wrong.
    Zero,
    /// No records describe the code of the last frame, and where it would return to is no executable code, nor in a module without an
    /// image.
    NoReturnAddress,
}

/// `pe_c_next_frames` or `pe_c_next_arm64_frames`.
type NextFrames<W> = unsafe extern "C" fn(
    *const sys::Module,
    usize,
    *const u8,
    usize,
    *const sys::MemoryPiece,
    usize,
    *mut W,
    *mut W,
    usize,
    *mut u64,
) -> u32;

mod sealed {
    use super::{End, Frame, NextFrames};

    pub trait Machine: Copy {
        /// The record of a walk.
        type Walk: Copy + Default + core::fmt::Debug;

        const NEXT_FRAMES: NextFrames<Self::Walk>;

        const IS_ARM64: bool;

        /// A walk of at most `most` frames.
        fn walk(self, most: u64) -> Self::Walk;

        /// The frame that was returned last.
        fn frame(walk: &Self::Walk) -> Frame<Self>;

        /// Why a walk that is over is.
        fn end(walk: &Self::Walk) -> End;
    }
}

/// The registers of a machine whose stacks [`Frames`] walks: [`Registers`] of x64 and [`Arm64Registers`].
pub trait MachineRegisters: sealed::Machine {}

fn way_of(number: u32) -> Way {
    match number {
        1 => Way::Records,
        2 => Way::Leaf,
        3 => Way::Interrupt,
        4 => Way::Scanned,
        5 => Way::FramePointer,
        _ => Way::Top,
    }
}

/// Why a walk is over, by its numbers.
fn end_of(end: u32, error: u32, address: u64) -> End {
    match end {
        0 => End::Bound,
        1 => End::Bottom,
        2 => End::NoModule,
        3 => End::NoFunction,
        4 => End::Records(Error::with_number(error)),
        5 => End::LongChain,
        7 => End::Zero,
        8 => End::NoReturnAddress,
        _ => match stepped(error, (), address) {
            Ok(()) => End::NoModule,
            Err(error) => End::Step(error),
        },
    }
}

macro_rules! machine {
    ($registers:ty, $walk:ident, $next_frames:ident, $is_arm64:literal) => {
        impl MachineRegisters for $registers {}

        impl sealed::Machine for $registers {
            type Walk = sys::$walk;

            const NEXT_FRAMES: NextFrames<Self::Walk> = sys::$next_frames;

            const IS_ARM64: bool = $is_arm64;

            fn walk(self, most: u64) -> Self::Walk {
                sys::$walk { registers: self, remaining: most, ..Default::default() }
            }

            fn frame(walk: &Self::Walk) -> Frame<Self> {
                let sys::$walk { registers, way, has_called, is_guess, .. } = *walk;
                Frame { registers, way: way_of(way), has_called: has_called != 0, is_guess: is_guess != 0 }
            }

            fn end(walk: &Self::Walk) -> End {
                end_of(walk.end, walk.error, walk.address)
            }
        }
    };
}

machine!(Registers, StackWalk, pe_c_next_frames, false);
machine!(Arm64Registers, Arm64StackWalk, pe_c_next_arm64_frames, true);

/// How many frames are asked for at most in one call, which tests all modules.
const MOST_AT_ONCE: usize = 1024;

/// A stack walk: the frames of a thread, from the top frame outwards, through all modules of a process. The registers that it
/// starts with say on which machine: [`Registers`] on x64, [`Arm64Registers`] on ARM64.
///
/// The module that has an address is the first of the list that does. Memory is a [`MemoryList`]: a stack in one piece is a list of
/// one.
///
/// The walk is over at the bottom of the stack, where a frame returns to 0; at a frame in no module or in no function from which no
/// return address is found, at memory that is missing, where the stack pointer does not rise, at any other error, and after `most`
/// frames. [`Frames::end`] says which. Past an interrupt the stack pointer may be anywhere, and on ARM64 it may stay where a frame has not called; in any
/// other frame it has to rise.
///
/// The top frame, and one that was interrupted, may be in no function, as after a call of a null pointer. The return address is
/// then at its stack pointer, on ARM64 in its link register, if a call ends at it, or if it is in a module without an image. If
/// not, and of any other frame in no function, it is one of the 128 words from the stack pointer on that is after a call in an
/// executable section: [`Way::Scanned`] says which. In an image without a function table, or between its entries, the frame pointer
/// comes before it where that leads to a return address: [`Way::FramePointer`]. From a module without an image, where no such word is found,
/// the addresses of such modules are return addresses too: one to which the frame pointer leads, else the first of the words. Frames found so
/// are guesses, as [`Frame::is_guess`] says, and the stack is whole by its records only without any.
///
/// On x64:
///
/// ```
/// # #[path = "../tests/made/mod.rs"] mod made;
/// # let bytes = made::with_functions();
/// use pe_c::{End, Frames, Image, MemoryList, MemoryPiece, Mode, Module, Registers};
///
/// let image = Image::parse(&bytes, Mode::Permissive)?;
/// let modules = [Module::new(&image, 0x1_8000_0000)?];
/// let mut registers = Registers { rip: 0x1_8000_5000, ..Registers::default() };
/// registers.set_rsp(0x2_0000);
/// let stack = [0; 8]; // its last return address is 0
/// let pieces = [MemoryPiece { start: 0x2_0000, offset: 0, length: 8 }];
/// let mut frames = Frames::new(registers, 100, &modules, MemoryList::new(&stack, &pieces)?);
/// assert_eq!(frames.by_ref().count(), 1);
/// assert_eq!(frames.end(), Some(End::Bottom));
/// # Ok::<(), pe_c::Error>(())
/// ```
///
/// On ARM64, where the last instruction of a function calls the next one. The return address is the start of that one, and is not
/// looked up:
///
/// ```
/// # #[path = "../tests/made/mod.rs"] mod made;
/// # let bytes = made::with_arm64_calls();
/// use pe_c::{Arm64Registers, End, Frames, Image, MemoryList, MemoryPiece, Mode, Module, Way};
///
/// let image = Image::parse(&bytes, Mode::Permissive)?;
/// let base = 0x1_8000_0000;
/// let modules = [Module::new(&image, base)?];
/// // before the first instruction of the second function
/// let mut registers = Arm64Registers { pc: base + 0x5020, sp: 0x2_0000, ..Arm64Registers::default() };
/// registers.set_lr(base + 0x5020);
/// // the first one set x29 to the stack pointer, and stored x29, its return address, which is 0, x19 and x20 in 48 bytes
/// registers.general[29] = 0x2_0000;
/// let stack = [0; 48];
/// let pieces = [MemoryPiece { start: 0x2_0000, offset: 0, length: 48 }];
/// let mut frames = Frames::new(registers, 100, &modules, MemoryList::new(&stack, &pieces)?);
/// let found: Vec<_> = frames.by_ref().map(|frame| (frame.registers.pc, frame.registers.sp, frame.way)).collect();
/// assert_eq!(found, [(base + 0x5020, 0x2_0000, Way::Top), (base + 0x5020, 0x2_0000, Way::Records)]);
/// assert_eq!(frames.end(), Some(End::Bottom));
/// # Ok::<(), pe_c::Error>(())
/// ```
///
/// A walk is neither `Send` nor `Sync`. Each thread makes its own, of modules and memory that they share:
///
/// ```
/// fn shared<T: Send + Sync>() {}
/// shared::<pe_c::Module>();
/// shared::<pe_c::MemoryList>();
/// ```
///
/// ```compile_fail,E0277
/// fn sent<T: Send>() {}
/// sent::<pe_c::Frames>();
/// ```
///
/// ```compile_fail,E0277
/// fn shared<T: Sync>() {}
/// shared::<pe_c::Frames>();
/// ```
#[derive(Clone)]
pub struct Frames<'m, R: MachineRegisters = Registers> {
    modules: Vec<sys::Module>,
    memory: MemoryList<'m>,
    /// Where the walk is, the frames that the last call returned, and which of them is next.
    walk: R::Walk,
    found: Vec<R::Walk>,
    index: usize,
    end: Option<End>,
    images: core::marker::PhantomData<&'m Image<'m>>,
}

impl<R: MachineRegisters> fmt::Debug for Frames<'_, R> {
    fn fmt(&self, f: &mut fmt::Formatter<'_>) -> fmt::Result {
        let modules = shown::Items(self.modules.len());
        let mut shown = f.debug_struct("Frames");
        shown.field("modules", &modules).field("memory", &self.memory).field("end", &self.end).finish_non_exhaustive()
    }
}

impl<'m, R: MachineRegisters> Frames<'m, R> {
    /// A walk of at most `most` frames, from the registers of a thread.
    pub fn new(registers: R, most: usize, modules: &'m [Module<'m>], memory: MemoryList<'m>) -> Self {
        Frames {
            modules: modules.iter().map(|module| module.view(R::IS_ARM64)).collect(),
            memory,
            walk: registers.walk(most as u64),
            found: Vec::new(),
            index: 0,
            end: None,
            images: core::marker::PhantomData,
        }
    }

    /// Why the walk is over, or `None` before its end.
    pub fn end(&self) -> Option<End> {
        self.end
    }

    /// Asks for the next frames, twice as many as the last time.
    fn advance(&mut self) -> Result<(), Error> {
        let (bytes, pieces, modules) = (self.memory.bytes(), self.memory.pieces(), &self.modules);
        let mut count = 0;
        self.index = 0;
        self.found.resize((2 * self.found.len()).clamp(1, MOST_AT_ONCE), R::Walk::default());
        // SAFETY: the pointers and the lengths are those of slices, also those in the modules, whose images the walk borrows;
        // the walk and the room for frames are lent for the call.
        let number = unsafe {
            (R::NEXT_FRAMES)(
                modules.as_ptr(),
                modules.len(),
                bytes.as_ptr(),
                bytes.len(),
                pieces.as_ptr(),
                pieces.len(),
                &mut self.walk,
                self.found.as_mut_ptr(),
                self.found.len(),
                &mut count,
            )
        };
        self.found.truncate(count as usize);
        match number {
            sys::DONE | sys::NOTHING => Ok(()),
            error => Err(Error::with_number(error)),
        }
    }

    /// The next frame, or why there is none.
    fn following(&mut self) -> Result<Frame<R>, End> {
        if self.index == self.found.len() {
            self.advance().map_err(End::Records)?;
        }
        let frame = self.found.get(self.index).map(R::frame).ok_or_else(|| R::end(&self.walk))?;
        self.index += 1;
        Ok(frame)
    }
}

impl<R: MachineRegisters> Iterator for Frames<'_, R> {
    type Item = Frame<R>;

    fn next(&mut self) -> Option<Frame<R>> {
        if self.end.is_some() {
            return None;
        }
        match self.following() {
            Ok(frame) => Some(frame),
            Err(end) => {
                self.end = Some(end);
                None
            }
        }
    }
}

impl<R: MachineRegisters> core::iter::FusedIterator for Frames<'_, R> {}
