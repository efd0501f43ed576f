//! Steps and walks over a made image. The stacks are by hand, from what the prologs of its functions do.

use crate::made;

use pe_c::{
    sys, Arm64Registers, End, Error, Frame, Frames, Function, Image, MemoryList, MemoryPiece, Mode, Module, Registers,
    Stack, StepError, Way,
};

/// Where the image is loaded.
const BASE: u64 = 0x1_8000_0000;

/// The address of the return address of the innermost frame.
const ENTRY: u64 = 0x2_0008;

/// That of its caller's.
const OUTER: u64 = ENTRY + 40;

const RBX: usize = 3;

const RBP: usize = 5;

/// push rbp; lea rbp,[rsp+32]; sub rsp,32 in the function at 0x5000, which was called at the end of the part at 0x5010, which
/// saved rbx at rbp+40 and is chained to it. That one's return address is 0.
fn stack_bytes() -> Vec<u8> {
    let words = [OUTER + 24, BASE + 0x5020, 1, 2, 3, 0x55, 0, 4, 5, 6, 7, 8, 9, 10, 0xBB];
    words.iter().flat_map(|word: &u64| word.to_le_bytes()).collect()
}

/// The registers in the innermost frame, after its prolog.
fn registers() -> Registers {
    let mut registers = Registers { rip: BASE + 0x500C, ..Registers::default() };
    registers.set_rsp(ENTRY - 40);
    registers.general[RBP] = ENTRY + 24;
    registers
}

/// The image of the functions, in these bytes.
fn image_of(file: &[u8]) -> Image<'_> {
    Image::parse(file, Mode::Permissive).unwrap()
}

/// An image as a module.
fn module<'m>(image: &'m Image<'m>, base: u64) -> Module<'m> {
    Module::new(image, base).unwrap()
}

/// The bytes of a stack, from `ENTRY - 8` on.
fn stack_of(bytes: &[u8]) -> Stack<'_> {
    Stack { start: ENTRY - 8, bytes }
}

/// All frames of a walk, and why it ended.
fn all_of(mut frames: Frames<'_>) -> (Vec<(u64, u64, Way)>, Option<End>) {
    let found = frames.by_ref().map(|it| (it.registers.rip, it.registers.rsp(), it.way)).collect();
    assert_eq!(frames.next(), None);
    (found, frames.end())
}

/// All frames of a walk over the bytes of a stack from `ENTRY - 8` on, and why it ended.
fn walk(registers: Registers, most: usize, bytes: &[u8]) -> (Vec<(u64, u64, Way)>, Option<End>) {
    let file = made::with_calls();
    let image = image_of(&file);
    let pieces = [piece(ENTRY - 8, 0, bytes.len())];
    all_of(Frames::new(registers, most, &[module(&image, BASE)], MemoryList::new(bytes, &pieces).unwrap()))
}

#[test]
fn a_walk_comes_to_its_end() {
    let bytes = stack_bytes();
    let all = [(BASE + 0x500C, ENTRY - 40, Way::Top), (BASE + 0x5020, ENTRY + 8, Way::Records)];
    assert_eq!(walk(registers(), 100, &bytes), (all.to_vec(), Some(End::Bottom)));
    assert_eq!(walk(registers(), 2, &bytes), (all.to_vec(), Some(End::Bound)));
    assert_eq!(walk(registers(), 1, &bytes), (all[..1].to_vec(), Some(End::Bound)));
    assert_eq!(walk(registers(), 0, &bytes), (Vec::new(), Some(End::Bound)));
    // Without rbx of the outer frame, the last word, which is read first; and without the return address of the inner one.
    for (length, count, missing) in [(119, 2, OUTER + 64), (48, 2, OUTER + 64), (8, 1, ENTRY)] {
        let (found, end) = walk(registers(), 100, &bytes[..length]);
        assert_eq!((&found[..], end), (&all[..count], Some(End::Step(StepError::Missing(missing)))));
    }
}

#[test]
fn a_leaf_function_is_the_top_frame_alone() {
    let bytes = stack_bytes();
    let mut registers = registers();
    // In the section, and in no function.
    registers.rip = BASE + 0x1100;
    registers.set_rsp(ENTRY);
    let (found, end) = walk(registers, 100, &bytes);
    assert_eq!(found[..2], [(BASE + 0x1100, ENTRY, Way::Top), (BASE + 0x5020, ENTRY + 8, Way::Leaf)]);
    // Its rbp is that of the inner frame, whose return address comes again.
    assert_eq!((found.len(), end), (2, Some(End::Step(StepError::NotRising(ENTRY + 8)))));
    // 1, the next word, is no address of code.
    registers.set_rsp(ENTRY + 8);
    let top = vec![(BASE + 0x1100, ENTRY + 8, Way::Top)];
    assert_eq!(walk(registers, 100, &bytes), (top, Some(End::NoReturnAddress)));
    // After the end of the module, and where the low 32 bits are those of the leaf function: a wild pointer was called, if a call
    // ends where it returns to.
    for wild in [BASE + 0x6000, BASE + 0x1100 + (1 << 32)] {
        registers.rip = wild;
        registers.set_rsp(ENTRY);
        let (found, end) = walk(registers, 100, &bytes);
        assert_eq!(found, [(wild, ENTRY, Way::Top), (BASE + 0x5020, ENTRY + 8, Way::Leaf)]);
        assert_eq!(end, Some(End::Step(StepError::NotRising(ENTRY + 8))));
        registers.set_rsp(ENTRY + 8);
        assert_eq!(walk(registers, 100, &bytes), (vec![(wild, ENTRY + 8, Way::Top)], Some(End::NoModule)));
    }
}

#[test]
fn a_step_returns_the_callers_registers() {
    let file = made::with_functions();
    let image = image_of(&file);
    let functions = image.functions().unwrap().unwrap();
    let bytes = stack_bytes();
    let stack = stack_of(&bytes);
    let inner = functions.find(0x500C).unwrap().unwrap();
    let caller = functions.step(inner, 0x500C, &[], &registers(), stack).unwrap();
    assert_eq!((caller.rip, caller.rsp(), caller.general[RBP]), (BASE + 0x5020, ENTRY + 8, OUTER + 24));
    let outer = functions.find(0x501F).unwrap().unwrap();
    let last = functions.step(outer, 0x5020, &[], &caller, stack).unwrap();
    assert_eq!((last.rip, last.rsp()), (0, OUTER + 8));
    assert_eq!((last.general[RBX], last.general[RBP]), (0xBB, 0x55));
    // In an epilog: add rsp,32; pop rbp; ret, from the last two of them on.
    let mut leaving = registers();
    leaving.set_rsp(ENTRY - 8);
    leaving.general[RBP] = 0;
    let found = functions.step(inner, 0x500E, &[0x5D, 0xC3], &leaving, stack);
    assert_eq!(found.map(|it| (it.rip, it.rsp(), it.general[RBP])), Ok((BASE + 0x5020, ENTRY + 8, OUTER + 24)));
}

/// At a jump to an RVA the records of the function there are undone: the frame may be one that it goes on in.
#[test]
fn a_step_follows_a_jump() {
    let file = made::with_functions();
    let image = image_of(&file);
    let functions = image.functions().unwrap().unwrap();
    let bytes = stack_bytes();
    let inner = functions.find(0x500C).unwrap().unwrap();
    let elsewhere = Function { begin: 0x7000, end: 0x7010, ..inner };
    // At 0x7008, after the prolog: jmp 0x500C, which is 0x2001 bytes before the next instruction.
    let code = [0xE9, 0xFF, 0xDF, 0xFF, 0xFF];
    let caller = functions.step(elsewhere, 0x7008, &code, &registers(), stack_of(&bytes)).unwrap();
    assert_eq!((caller.rip, caller.rsp(), caller.general[RBP]), (BASE + 0x5020, ENTRY + 8, OUTER + 24));
    // jmp 0x6000, where no function is: the return address would be at rsp.
    let code = [0xE9, 0xF3, 0xEF, 0xFF, 0xFF];
    let left = functions.step(elsewhere, 0x7008, &code, &registers(), stack_of(&bytes));
    assert_eq!(left, Err(StepError::Missing(ENTRY - 40)));
}

#[test]
fn a_step_says_why_there_is_no_caller() {
    let file = made::with_functions();
    let image = image_of(&file);
    let functions = image.functions().unwrap().unwrap();
    let bytes = stack_bytes();
    let stack = stack_of(&bytes);
    let root = functions.get(0).unwrap();
    let step = |function, registers: Registers| functions.step(function, 0x500C, &[], &registers, stack).unwrap_err();
    // The last function is chained to itself.
    assert_eq!(step(functions.get(3).unwrap(), registers()), StepError::Records(Error::LONG_CHAIN));
    let mut low = registers();
    low.general[RBP] = 31;
    assert_eq!(step(root, low), StepError::Address(31));
    let mut sinking = registers();
    sinking.set_rsp(ENTRY + 8);
    assert_eq!(step(root, sinking), StepError::NotRising(ENTRY + 8));
    let mut elsewhere = registers();
    elsewhere.general[RBP] = 0x1020;
    let error = step(root, elsewhere);
    assert_eq!((error, error.error()), (StepError::Missing(0x1000), Error::MISSING));
    assert_eq!(error.to_string(), "memory is missing: 0x1000");
    assert_eq!(registers().leaf(Stack { start: 0, bytes: &[] }), Err(StepError::Missing(ENTRY - 40)));
}

#[test]
fn code_is_that_of_the_image() {
    let file = made::with_functions();
    let image = image_of(&file);
    let table = image.info().directories[made::EXCEPTIONS].virtual_address;
    assert_eq!(image.code(table, table + 8), [0, 0x50, 0, 0, 0x10, 0x50, 0, 0]);
    assert!(image.code(table, table).is_empty());
    assert!(image.code(table + 1, table).is_empty());
    assert!(image.code(table, u32::MAX).is_empty());
    assert!(image.code(0x7000_0000, 0x7000_0001).is_empty());
}

/// Any numbers in a frame are legal.
#[test]
fn frames_that_lie() {
    let file = made::with_functions();
    let image = image_of(&file);
    let bytes = image.bytes();
    let view = sys::View::of(bytes, image.info(), image.sections(), &[]);
    let numbers = [0, 1, 7, 8, 0x5000, u64::from(u32::MAX), 1 << 63, u64::MAX - 7, u64::MAX];
    for number in numbers {
        for start in numbers {
            for length in [0, 1, 8, 64] {
                let mut frame = sys::Frame { rva: number as u32, ..Default::default() };
                frame.registers = Registers { general: [number; 16], xmm: [number; 32], rip: number };
                frame.function = sys::Function { begin: start as u32, end: number as u32, unwind: number as u32 };
                let (stack, code) = (&bytes[..length], &bytes[length..2 * length]);
                let table = sys::Range { offset: start, length: number };
                let whole = MemoryPiece { start, offset: 0, length: length as u64 };
                for leaf in [0, 1, u32::MAX] {
                    let before = sys::Frame { leaf, interrupted: 7, ..frame };
                    frame = before;
                    // SAFETY: each pointer and length are those of one slice, and the records are lent for the call.
                    let number = unsafe {
                        let (code, memory) = (code.as_ptr(), stack.as_ptr());
                        sys::pe_c_step(&view, &table, code, length, memory, length, &whole, 1, &mut frame)
                    };
                    let sys::Frame { registers, address, interrupted, .. } = frame;
                    assert_eq!(frame, sys::Frame { registers, address, interrupted, ..before });
                    assert!(number != sys::NOTHING && (interrupted == 7) == (number != sys::DONE));
                }
            }
        }
    }
}

/// An ARM64 image of three functions and one whose packed unwind data have no canonical prolog. The first has the packed data
/// of which llvm-readobj prints `str x19,[sp,#-16]!`; the records of the others are those that clang makes of
/// `stp x29,x30,[sp,#-256]!; stp d8,d9,[sp,#224]; stp x19,x20,[sp,#240]; mov x29,sp; sub sp,sp,#512`, and of
/// `str x19,[sp,#-32]!; str x30,[sp,#16]; sub sp,sp,#1024`, with three instructions, and the same backwards and `ret`. In the second
/// a call ends at 0x5118.
fn arm64_bytes() -> Vec<u8> {
    let mut made = made::Made::new(made::ARM64);
    let table = made.next();
    made.content.resize(32, 0);
    let chained =
        made.put(&[0x0B, 0x00, 0xA0, 0x18, 0xC0, 0x20, 0xE1, 0xC8, 0x1E, 0xD8, 0x1C, 0x9F, 0xE4, 0xE3, 0xE3, 0xE3]);
    let last = made.put(&[0x0A, 0x00, 0x20, 0x10, 0xC0, 0x40, 0xD2, 0xC2, 0xD4, 0x03, 0xE4, 0xE3]);
    let entries = [0x5000, 0x0081_0101, 0x5100, chained, 0x5200, last, 0x5300, 0x0080_0043];
    let entries: Vec<u8> = entries.iter().flat_map(|word: &u32| word.to_le_bytes()).collect();
    made.content[..32].copy_from_slice(&entries);
    made.directory(made::EXCEPTIONS, table, 32);
    made.content.resize((0x5114 - made::ADDRESS) as usize, 0);
    made.content.extend_from_slice(&made::ARM64_CALL);
    made.image()
}

/// The registers of the caller: each has a number of its own.
fn arm64_caller() -> Arm64Registers {
    let mut registers = Arm64Registers { sp: ENTRY, pc: BASE + 0x1234, ..Arm64Registers::default() };
    registers.general.iter_mut().zip(0xAAAA_0000..).for_each(|(value, number)| *value = number);
    registers.floats.iter_mut().zip(0xBBBB_0000..).for_each(|(value, number)| *value = number);
    registers.set_lr(BASE + 0x1234);
    registers
}

/// The bytes of words.
fn bytes_of(words: &[u64]) -> Vec<u8> {
    words.iter().flat_map(|word| word.to_le_bytes()).collect()
}

#[test]
fn an_arm64_step_returns_the_callers_registers() {
    let file = arm64_bytes();
    let image = image_of(&file);
    let functions = image.arm64_functions().unwrap().unwrap();
    let caller = arm64_caller();
    let step = |rva: u32, registers: &Arm64Registers, start: u64, words: &[u64]| {
        let function = functions.find(rva).unwrap().unwrap();
        functions.step(function, rva, registers, Stack { start, bytes: &bytes_of(words) })
    };
    // Before a prolog, where no memory is read, and after that of the packed one, in a body.
    assert_eq!(step(0x5000, &Arm64Registers { pc: 1, ..caller }, 0, &[]), Ok(caller));
    let mut inside = Arm64Registers { sp: ENTRY - 16, pc: 1, ..caller };
    inside.general[19] = 7;
    assert_eq!(step(0x5004, &inside, ENTRY - 16, &[caller.general[19]]), Ok(caller));
    // After the prolog of the second function, whose body moved the stack pointer down.
    let mut words = [0; 32];
    words[..2].copy_from_slice(&[caller.general[29], caller.lr()]);
    words[28..30].copy_from_slice(&caller.floats[..2]);
    words[30..].copy_from_slice(&caller.general[19..21]);
    let mut inside = Arm64Registers { sp: ENTRY - 1024, pc: 1, ..caller };
    inside.general[19..21].fill(7);
    inside.general[29] = ENTRY - 256;
    inside.set_lr(8);
    inside.floats[..2].fill(9);
    assert_eq!(step(0x5114, &inside, ENTRY - 256, &words), Ok(caller));
    assert_eq!(step(0x5114, &inside, ENTRY - 256, &words[..31]), Err(StepError::Missing(ENTRY - 8)));
    // In the epilog of the third one, before its last two instructions.
    let mut leaving = Arm64Registers { sp: ENTRY - 32, pc: 1, ..caller };
    leaving.general[19] = 7;
    assert_eq!(step(0x5220, &leaving, ENTRY - 32, &[caller.general[19]]), Ok(caller));
    // A leaf function.
    assert_eq!(Arm64Registers { pc: 1, ..caller }.leaf(), caller);
}

#[test]
fn an_arm64_step_says_why_there_is_no_caller() {
    let file = arm64_bytes();
    let image = image_of(&file);
    let functions = image.arm64_functions().unwrap().unwrap();
    let caller = arm64_caller();
    let step = |index: u64, rva: u32, registers: &Arm64Registers| {
        functions.step(functions.get(index).unwrap(), rva, registers, Stack { start: 0, bytes: &[] }).unwrap_err()
    };
    assert_eq!(step(3, 0x5304, &caller), StepError::Records(Error::BAD_OPERATION));
    assert_eq!(step(0, 0x5004, &caller), StepError::Missing(ENTRY));
    let high = Arm64Registers { sp: u64::MAX - 15, ..caller };
    assert_eq!(step(2, 0x520C, &high), StepError::Address(u64::MAX - 15));
    let elsewhere = sys::Arm64Function { begin: 0x5000, unwind: 0x7000_0000 };
    let stack = Stack { start: 0, bytes: &[] };
    assert_eq!(functions.step(elsewhere, 0x5000, &caller, stack), Err(StepError::Records(Error::UNMAPPED)));
}

/// Where the three modules of the walks on ARM64 are loaded: two with the image of `made::with_arm64_calls`, and one with that of
/// `arm64_bytes`.
const CALLS: u64 = 0x1_8000_0000;
const MORE_CALLS: u64 = 0x1_9000_0000;
const OTHERS: u64 = 0x1_A000_0000;

/// The stack pointer of the top frame, and from there on the words of its callers' frames.
const SP: u64 = 0x2_0000;

/// Of the frames, from the innermost: x29, the return address, and what is saved above them.
fn arm64_stack() -> Vec<u64> {
    let mut words = vec![0; 114];
    // The first function of CALLS called, by its last instruction: x29 and lr, 16 bytes of its own, x19 and x20.
    words[..6].copy_from_slice(&[SP + 80, MORE_CALLS + 0x5034, 1, 2, 19, 20]);
    // The second one of MORE_CALLS: 32 bytes of its own, x29 and a signed lr.
    words[6..12].copy_from_slice(&[3, 4, 5, 6, SP + 608, (OTHERS + 0x5118) | 0xAB5A << 48]);
    // The function at 0x5100 of OTHERS: 512 bytes of its own, x29 and lr, space up to d8, d9, x19 and x20.
    words[76..78].copy_from_slice(&[SP + 864, CALLS + 0x5010]);
    words[104..108].copy_from_slice(&[80, 90, 190, 200]);
    // The first one of CALLS, whose return address is 0.
    words[108..].copy_from_slice(&[0, 0, 7, 8, 1900, 2000]);
    words
}

/// The registers in a leaf function of OTHERS, which the first function of CALLS called by its last instruction.
fn arm64_registers() -> Arm64Registers {
    let mut registers = Arm64Registers { pc: OTHERS + 0x1100, sp: SP, ..Arm64Registers::default() };
    registers.set_lr(CALLS + 0x5020);
    registers.general[29] = SP;
    registers
}

/// The image with its section marked as executable: only then its functions without records are leaf functions.
fn executable(mut file: Vec<u8>) -> Vec<u8> {
    file[0x16C..0x170].copy_from_slice(&0x6000_0020u32.to_le_bytes());
    file
}

/// All frames of a walk on ARM64 over the words from `SP` on, and why it ended.
fn arm64_walk(registers: Arm64Registers, most: usize, words: &[u64]) -> (Vec<Frame<Arm64Registers>>, Option<End>) {
    let (calls, others, bytes) = (executable(made::with_arm64_calls()), executable(arm64_bytes()), bytes_of(words));
    let images = [(CALLS, image_of(&calls)), (MORE_CALLS, image_of(&calls)), (OTHERS, image_of(&others))];
    let modules = images.each_ref().map(|(base, image)| module(image, *base));
    let pieces = [piece(SP, 0, bytes.len())];
    let mut frames = Frames::new(registers, most, &modules, MemoryList::new(&bytes, &pieces).unwrap());
    let found = frames.by_ref().collect();
    assert_eq!(frames.next(), None);
    (found, frames.end())
}

/// Of each frame the instruction pointer, the stack pointer and the way.
fn arm64_pointers(frames: &[Frame<Arm64Registers>]) -> Vec<(u64, u64, Way)> {
    frames.iter().map(|it| (it.registers.pc, it.registers.sp, it.way)).collect()
}

#[test]
fn an_arm64_walk_comes_through_three_modules_to_its_end() {
    let words = arm64_stack();
    let all = [
        (OTHERS + 0x1100, SP, Way::Top),
        (CALLS + 0x5020, SP, Way::Leaf),
        (MORE_CALLS + 0x5034, SP + 48, Way::Records),
        (OTHERS + 0x5118, SP + 96, Way::Records),
        (CALLS + 0x5010, SP + 864, Way::Records),
    ];
    let (frames, end) = arm64_walk(arm64_registers(), 100, &words);
    assert_eq!((arm64_pointers(&frames), end), (all.to_vec(), Some(End::Bottom)));
    // x19, x20 and x29, and d8 and d9, in each frame.
    let saved = |frame: &Frame<Arm64Registers>| {
        let registers = frame.registers;
        (registers.general[19], registers.general[20], registers.general[29], registers.floats[0], registers.floats[1])
    };
    let restored = [
        (0, 0, SP, 0, 0),
        (0, 0, SP, 0, 0),
        (19, 20, SP + 80, 0, 0),
        (19, 20, SP + 608, 0, 0),
        (190, 200, SP + 864, 80, 90),
    ];
    assert_eq!(frames.iter().map(saved).collect::<Vec<_>>(), restored);
    for most in 0..6 {
        let (frames, end) = arm64_walk(arm64_registers(), most, &words);
        assert_eq!((arm64_pointers(&frames), end), (all[..most].to_vec(), Some(End::Bound)));
    }
    // The stack ends inside of what each function saved.
    for (length, count) in [(5, 2), (1, 2), (11, 3), (107, 4), (109, 5)] {
        let (frames, end) = arm64_walk(arm64_registers(), 100, &words[..length]);
        let missing = SP + 8 * length as u64;
        assert_eq!(
            (arm64_pointers(&frames), end),
            (all[..count].to_vec(), Some(End::Step(StepError::Missing(missing))))
        );
    }
}

#[test]
fn an_arm64_leaf_function_is_the_top_frame_alone() {
    // No word is a return address.
    let words = [7];
    let mut registers = arm64_registers();
    // The leaf function returns to no section of code.
    registers.set_lr(OTHERS + 0x104);
    let top = vec![(OTHERS + 0x1100, SP, Way::Top)];
    let (frames, end) = arm64_walk(registers, 100, &words);
    assert_eq!((arm64_pointers(&frames), end), (top, Some(End::NoReturnAddress)));
    // After the end of the module.
    registers.pc = OTHERS + 0x6000;
    let (frames, end) = arm64_walk(registers, 100, &words);
    assert_eq!((frames.len(), end), (1, Some(End::NoModule)));
    // No RVA is that large, though its low 32 bits are one of the leaf function.
    registers.pc = OTHERS + 0x1100 + (1 << 32);
    let (frames, end) = arm64_walk(registers, 100, &words);
    assert_eq!((frames.len(), end), (1, Some(End::NoModule)));
    // No module has it.
    registers.pc = CALLS - 4;
    assert_eq!(arm64_walk(registers, 100, &words).1, Some(End::NoModule));
}

/// The first frame alone may leave the stack pointer where it is.
#[test]
fn an_arm64_walk_ends_where_the_stack_does_not_rise() {
    let mut words = arm64_stack();
    // After the first instruction of the second function, which signs lr: a thread that was stopped there, and a call from there.
    let mut stopped = Arm64Registers { pc: CALLS + 0x5024, ..arm64_registers() };
    stopped.set_lr((CALLS + 0x5020) | 0xFF5A << 48);
    let (frames, end) = arm64_walk(stopped, 100, &words);
    assert_eq!(arm64_pointers(&frames)[..2], [(CALLS + 0x5024, SP, Way::Top), (CALLS + 0x5020, SP, Way::Records)]);
    assert_eq!((frames.len(), end), (5, Some(End::Bottom)));
    let mut called = arm64_registers();
    called.set_lr(CALLS + 0x5024);
    let (frames, end) = arm64_walk(called, 100, &words);
    assert_eq!((frames.len(), end), (2, Some(End::Step(StepError::NotRising(SP)))));
    // A saved x29 below the frame, by which the next step takes a lower stack pointer.
    words[0] = SP - 64;
    let (frames, end) = arm64_walk(arm64_registers(), 100, &words);
    assert_eq!(frames.len(), 3);
    assert!(matches!(end, Some(End::Step(StepError::Missing(address))) if address < SP), "{end:?}");
    words[0] = SP + 8;
    let (frames, end) = arm64_walk(arm64_registers(), 100, &words);
    assert_eq!((frames.len(), end), (3, Some(End::Step(StepError::NotRising(SP + 24)))));
}

/// A frame past one that the processor pushed is looked up by its own address, here that of its function's first byte.
#[test]
fn an_arm64_walk_goes_past_an_interrupt() {
    let mut made = made::Made::new(made::ARM64);
    let table = made.next();
    made.content.resize(16, 0);
    // of 16 instructions each: a machine frame, and save_fplr_x of 16 bytes
    let pushed = made.put(&[0x10, 0, 0x20, 8, 0xE9, 0xE4, 0xE3, 0xE3]);
    let stored = made.put(&[0x10, 0, 0x20, 8, 0x81, 0xE4, 0xE3, 0xE3]);
    let entries: Vec<u8> = [0x5000, pushed, 0x5040, stored].iter().flat_map(|word: &u32| word.to_le_bytes()).collect();
    made.content[..16].copy_from_slice(&entries);
    made.directory(made::EXCEPTIONS, table, 16);
    let (file, bytes) = (made.image(), bytes_of(&[SP + 64, BASE + 0x5040]));
    let image = image_of(&file);
    let (modules, pieces) = ([module(&image, BASE)], [piece(SP, 0, bytes.len())]);
    let mut registers = Arm64Registers { pc: BASE + 0x5010, sp: SP, ..Arm64Registers::default() };
    registers.set_lr(0);
    let mut frames = Frames::new(registers, 100, &modules, MemoryList::new(&bytes, &pieces).unwrap());
    let found: Vec<_> = frames.by_ref().map(|it| (it.registers.pc, it.registers.sp, it.way, it.has_called)).collect();
    let interrupted = (BASE + 0x5040, SP + 64, Way::Interrupt, false);
    assert_eq!(found, [(BASE + 0x5010, SP, Way::Top, false), interrupted]);
    assert_eq!(frames.end(), Some(End::Bottom));
}

/// A module may end with a call, so that the return address is the start of the next module.
#[test]
fn a_call_may_be_the_end_of_its_module() {
    let (mut x64, mut arm64) = (made::with_calls(), made::with_arm64_calls());
    // The outer frame's function ends at 0x5020, as its module does. `SizeOfImage` is at 0x90.
    x64[0x90..0x94].copy_from_slice(&0x5020u32.to_le_bytes());
    arm64[0x90..0x94].copy_from_slice(&0x5040u32.to_le_bytes());
    let (x64, arm64) = (image_of(&x64), image_of(&arm64));
    let bytes = stack_bytes();
    let pieces = [piece(ENTRY - 8, 0, bytes.len())];
    let modules = [module(&x64, BASE), module(&arm64, BASE + 0x5020)];
    let frames = Frames::new(registers(), 9, &modules, MemoryList::new(&bytes, &pieces).unwrap());
    assert_eq!(frames.map(|it| it.registers.rip).collect::<Vec<_>>(), [BASE + 0x500C, BASE + 0x5020]);
    // The second function ends at 0x5040, and called the first one.
    let next = BASE + 0x5040;
    let mut registers = Arm64Registers { pc: BASE + 0x5000, sp: SP, ..Arm64Registers::default() };
    registers.set_lr(next);
    registers.general[29] = SP + 32;
    let bytes = bytes_of(&[0; 6]);
    let pieces = [piece(SP, 0, bytes.len())];
    let modules = [module(&arm64, BASE), module(&x64, next)];
    let frames = Frames::new(registers, 9, &modules, MemoryList::new(&bytes, &pieces).unwrap());
    let found: Vec<_> = frames.map(|it| (it.registers.pc, it.registers.sp)).collect();
    assert_eq!(found, [(BASE + 0x5000, SP), (next, SP)]);
}

#[test]
fn an_arm64_walk_says_which_unwind_data_are_refused() {
    // The function at 0x5300 of OTHERS has packed data without a canonical prolog.
    let registers = Arm64Registers { pc: OTHERS + 0x5304, ..arm64_registers() };
    let (frames, end) = arm64_walk(registers, 100, &arm64_stack());
    assert_eq!((frames.len(), end), (1, Some(End::Step(StepError::Records(Error::BAD_OPERATION)))));
}

/// An image of one machine has no functions of the other.
#[test]
fn walks_on_the_other_machine_find_no_function() {
    let (x64, arm64) = (made::with_functions(), made::with_arm64_calls());
    let (x64, arm64) = (image_of(&x64), image_of(&arm64));
    let pieces = [piece(SP, 0, 64)];
    let memory = MemoryList::new(&[0; 64], &pieces).unwrap();
    let (modules, registers) = ([module(&arm64, BASE)], Registers { rip: BASE + 0x5004, ..Registers::default() });
    let mut frames = Frames::new(registers, 9, &modules, memory);
    assert_eq!((frames.by_ref().count(), frames.end()), (1, Some(End::Step(StepError::Missing(0)))));
    let (modules, registers) =
        ([module(&x64, BASE)], Arm64Registers { pc: BASE + 0x5004, ..Arm64Registers::default() });
    let mut frames = Frames::new(registers, 9, &modules, memory);
    assert_eq!((frames.by_ref().count(), frames.end()), (1, Some(End::Zero)));
}

/// Any numbers in a frame on ARM64 are legal.
#[test]
fn arm64_frames_that_lie() {
    let file = arm64_bytes();
    let image = image_of(&file);
    let functions = image.arm64_functions().unwrap().unwrap();
    let mut given: Vec<sys::Arm64Function> = functions.iter().collect();
    let numbers = [0, 1, 7, 8, 0x5000, 0x5100, u64::from(u32::MAX), 1 << 63, u64::MAX - 7, u64::MAX];
    given.extend(numbers.map(|number| sys::Arm64Function { begin: number as u32, unwind: number as u32 }));
    for function in given {
        for number in numbers {
            let registers = Arm64Registers { general: [number; 31], floats: [number; 8], sp: number, pc: number };
            for start in numbers {
                for length in [0, 8, 64, 512] {
                    let stack = Stack { start, bytes: &image.bytes()[..length] };
                    if let Ok(caller) = functions.step(function, number as u32, &registers, stack) {
                        assert!(caller.sp >= number && caller.pc == caller.lr());
                    }
                }
            }
        }
    }
}

/// A piece of memory.
fn piece(start: u64, offset: usize, length: usize) -> MemoryPiece {
    MemoryPiece { start, offset: offset as u64, length: length as u64 }
}

/// The bytes of a stack from `start` on, cut into pieces of these lengths in turn, which stand in the memory the last one first,
/// with a byte between them: the memory, and the pieces in ascending order.
fn cut(bytes: &[u8], start: u64, lengths: &[usize]) -> (Vec<u8>, Vec<MemoryPiece>) {
    let (mut parts, mut from) = (Vec::new(), 0);
    for length in lengths.iter().cycle() {
        let end = bytes.len().min(from + length);
        parts.push((from, &bytes[from..end]));
        from = end;
        if from == bytes.len() {
            break;
        }
    }
    let (mut memory, mut pieces) = (Vec::new(), Vec::new());
    for (from, part) in parts.into_iter().rev() {
        memory.push(0xEE);
        pieces.push(piece(start + from as u64, memory.len(), part.len()));
        memory.extend_from_slice(part);
    }
    pieces.reverse();
    (memory, pieces)
}

/// All frames of a walk over memory in pieces, and why it ended.
fn walk_over(registers: Registers, memory: MemoryList<'_>) -> (Vec<(u64, u64, Way)>, Option<End>) {
    let file = made::with_calls();
    let image = image_of(&file);
    all_of(Frames::new(registers, 100, &[module(&image, BASE)], memory))
}

/// Words stand in pieces that touch inside of them, in any order.
#[test]
fn a_walk_reads_memory_in_pieces() {
    let bytes = stack_bytes();
    let whole = walk(registers(), 100, &bytes);
    assert_eq!(whole.0.len(), 2);
    for lengths in [&[120][..], &[8], &[1], &[3, 5, 11], &[13, 2]] {
        let (memory, mut pieces) = cut(&bytes, ENTRY - 8, lengths);
        assert_eq!(walk_over(registers(), MemoryList::new(&memory, &pieces).unwrap()), whole);
        pieces.reverse();
        assert_eq!(walk_over(registers(), MemoryList::new(&memory, &pieces).unwrap()), whole);
        // Without the last byte, that of rbx in the outer frame; and without any piece.
        pieces[0].length -= 1;
        let missing = |address| Some(End::Step(StepError::Missing(address)));
        let (found, end) = walk_over(registers(), MemoryList::new(&memory, &pieces).unwrap());
        assert_eq!((&found[..], end), (&whole.0[..2], missing(OUTER + 64)));
        let (found, end) = walk_over(registers(), MemoryList::new(&memory, &[]).unwrap());
        assert_eq!((&found[..], end), (&whole.0[..1], missing(ENTRY - 8)));
    }
}

/// Of pieces that overlap the first has a byte.
#[test]
fn the_first_piece_has_the_byte() {
    let mut memory = stack_bytes();
    let length = memory.len();
    memory.extend_from_slice(&[0xAA; 4]);
    let all = piece(ENTRY - 8, 0, length);
    // Over the return address of the innermost frame.
    let over = piece(ENTRY + 4, length, 4);
    let walked = |pieces: &[MemoryPiece]| walk_over(registers(), MemoryList::new(&memory, pieces).unwrap());
    assert_eq!(walked(&[all, over]), walked(&[all]));
    let address = 0xAAAA_AAAA_8000_5020;
    let found = vec![(BASE + 0x500C, ENTRY - 40, Way::Top), (address, ENTRY + 8, Way::Records)];
    assert_eq!(walked(&[over, all]), (found, Some(End::NoModule)));
}

#[test]
fn pieces_lie_in_the_memory() {
    let memory = [0; 16];
    for (offset, length) in [(17, 0), (16, 1), (1, 16), (u64::MAX, 1), (1, u64::MAX), (u64::MAX, u64::MAX)] {
        let pieces = [piece(0, 0, 16), MemoryPiece { start: 0, offset, length }];
        assert_eq!(MemoryList::new(&memory, &pieces).unwrap_err(), Error::SHORT);
        // The library says so too, and reads nothing.
        let before = sys::Frame { leaf: 1, ..Default::default() };
        let (mut frame, image, table) = (before, sys::ImageInfo::default(), sys::Range::default());
        let (bytes, sections, index) = (std::ptr::null(), std::ptr::null(), std::ptr::null());
        let view = sys::View { bytes, length: 0, image: &image, sections, count: 0, index, entries: 0 };
        let (start, many, code) = (memory.as_ptr(), pieces.len(), std::ptr::null());
        // SAFETY: the pointers and the lengths are those of two slices, and the records are lent for the call.
        let number = unsafe { sys::pe_c_step(&view, &table, code, 0, start, 16, pieces.as_ptr(), many, &mut frame) };
        assert_eq!((number, frame), (Error::SHORT.number(), before));
    }
    for (offset, length) in [(16, 0), (0, 16), (15, 1)] {
        assert!(MemoryList::new(&memory, &[MemoryPiece { start: u64::MAX, offset, length }]).is_ok());
    }
    assert!(MemoryList::new(&[], &[]).is_ok());
}

/// Bytes past the last address have none.
#[test]
fn pieces_end_at_the_last_address() {
    let mut registers = registers();
    let pieces = [piece(u64::MAX - 15, 0, 40)];
    let memory = [7; 40];
    let memory = MemoryList::new(&memory, &pieces).unwrap();
    registers.set_rsp(u64::MAX - 15);
    let caller = registers.leaf_pieces(memory).unwrap();
    assert_eq!((caller.rip, caller.rsp()), (0x0707_0707_0707_0707, u64::MAX - 7));
    assert_eq!(caller.leaf_pieces(memory), Err(StepError::Address(u64::MAX - 7)));
    registers.set_rsp(u64::MAX - 6);
    assert_eq!(registers.leaf_pieces(memory), Err(StepError::Missing(u64::MAX - 6)));
}

/// A stack in 50,000 pieces of a byte each.
#[test]
fn words_of_many_pieces_are_found() {
    let bytes: Vec<u8> = (0..50_000u32).map(|it| it as u8).collect();
    let pieces: Vec<_> = (0..50_000).map(|it| piece(0x1_0000 + it as u64, it, 1)).collect();
    let memory = MemoryList::new(&bytes, &pieces).unwrap();
    let mut registers = Registers::default();
    for at in [0usize, 1, 255, 25_000, 49_992] {
        registers.set_rsp(0x1_0000 + at as u64);
        let word = u64::from_le_bytes(bytes[at..at + 8].try_into().unwrap());
        assert_eq!(registers.leaf_pieces(memory).map(|it| it.rip), Ok(word));
    }
    registers.set_rsp(0x1_0000 + 49_993);
    assert_eq!(registers.leaf_pieces(memory), Err(StepError::Missing(0x1_0000 + 49_993)));
}

/// The steps of the two ways to pass memory are the same.
#[test]
fn a_step_over_a_piece_is_one_over_pieces() {
    let file = made::with_functions();
    let image = image_of(&file);
    let functions = image.functions().unwrap().unwrap();
    let bytes = stack_bytes();
    let (memory, pieces) = cut(&bytes, ENTRY - 8, &[5]);
    let list = MemoryList::new(&memory, &pieces).unwrap();
    let same = |function: Function, rva: u32, registers: &Registers, code: &[u8]| {
        let over = functions.step_pieces(function, rva, code, registers, list);
        assert_eq!(over.map(|it| it.registers), functions.step(function, rva, code, registers, stack_of(&bytes)));
        assert!(over.is_err() || over.is_ok_and(|it| it.way == Way::Records));
    };
    let mut low = registers();
    low.general[RBP] = 31;
    let mut sinking = registers();
    sinking.set_rsp(ENTRY + 8);
    for function in (0..4).map(|index| functions.get(index).unwrap()) {
        for rva in [0x5000, 0x5001, 0x500C, 0x500E, 0x5010, 0x5020] {
            for registers in [registers(), low, sinking, Registers::default()] {
                same(function, rva, &registers, &[]);
                same(function, rva, &registers, &[0x5D, 0xC3]);
            }
        }
    }
    assert_eq!(registers().leaf_pieces(list), registers().leaf(stack_of(&bytes)));
}

/// An ARM64 walk over the words from `SP` on, in pieces.
#[test]
fn an_arm64_walk_reads_memory_in_pieces() {
    let (calls, others) = (executable(made::with_arm64_calls()), executable(arm64_bytes()));
    let images = [(CALLS, image_of(&calls)), (MORE_CALLS, image_of(&calls)), (OTHERS, image_of(&others))];
    let modules = images.each_ref().map(|(base, image)| module(image, *base));
    let words = arm64_stack();
    let whole = arm64_walk(arm64_registers(), 100, &words);
    for lengths in [&[912][..], &[1], &[7, 30]] {
        let (memory, mut pieces) = cut(&bytes_of(&words), SP, lengths);
        let walk = |pieces: &[MemoryPiece]| {
            let list = MemoryList::new(&memory, pieces).unwrap();
            let mut frames = Frames::new(arm64_registers(), 100, &modules, list);
            (frames.by_ref().collect::<Vec<_>>(), frames.end())
        };
        assert_eq!(walk(&pieces), whole);
        pieces.reverse();
        assert_eq!(walk(&pieces), whole);
        assert_eq!(walk(&[]).0.len(), 2);
    }
}

/// A frame is called interrupted only where the frame that the processor pushed was undone, which in an epilog it is not.
#[test]
fn an_interrupt_is_one_that_was_undone() {
    let mut made = made::Made::new(made::X64);
    let table = made.next();
    made.content.resize(12, 0);
    // inc rax; ret
    let start = made.put(&[0x48, 0xFF, 0xC0, 0xC3]);
    // The processor's frame without an error code.
    let record = made.put(&[1, 0, 1, 0, 0, 0x0A, 0, 0]);
    let entry: Vec<u8> = [start, start + 4, record].iter().flat_map(|word| word.to_le_bytes()).collect();
    made.content[..12].copy_from_slice(&entry);
    made.directory(made::EXCEPTIONS, table, 12);
    let file = made.image();
    let image = image_of(&file);
    // rip, cs, the flags, rsp, ss.
    let bytes = bytes_of(&[0x1234, 0x33, 0, 0x100, 0x2B]);
    let pieces = [piece(ENTRY, 0, 40)];
    let list = MemoryList::new(&bytes, &pieces).unwrap();
    for (offset, found) in [(0, (0x1234, 0x100, Way::Interrupt)), (3, (0x1234, ENTRY + 8, Way::Records))] {
        let mut registers = Registers { rip: BASE + u64::from(start + offset), ..Registers::default() };
        registers.set_rsp(ENTRY);
        let of = |frame: Frame| (frame.registers.rip, frame.registers.rsp(), frame.way);
        assert_eq!(Frames::new(registers, 9, &[module(&image, BASE)], list).nth(1).map(of), Some(found));
    }
}
