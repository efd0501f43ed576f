//! Walks of threads that crashed, over a made image and stacks by hand: what is expected is what each function was entered with.

use crate::made::{Made, ADDRESS, CALL, EXCEPTIONS, X64};
use pe_c::{End, Frames, Image, MemoryList, MemoryPiece, Mode, Module, Registers, StepError, Way};

/// Where the image is loaded.
const BASE: u64 = 0x1_8000_0000;

/// Flags of a section of code, and of one of data.
const CODE: u32 = 0x6000_0020;
const DATA: u32 = 0xC000_0040;

/// Of the first function the return address of its call, and an address at which no call ends.
const AFTER_CALL: u64 = BASE + 0x1010;
const NO_CALL: u64 = BASE + 0x1008;

/// In a function that allocates 8 bytes, from where an interrupted thread goes on without a word of it in the record.
const DISPATCHER: u64 = BASE + 0x1030;

/// Further on in it a jump into the body of the first function, 42 bytes before the instruction after it.
const JUMPING: u64 = BASE + 0x1038;
const JUMP: [u8; 2] = [0xEB, 0xD6];

/// In a function without a record, and the start of the one after it.
const LEAF: u64 = BASE + 0x1050;
const FIRST_BYTE: u64 = BASE + 0x1060;

/// Where the words of a stack start.
const STACK: u64 = 0x2_0000;

/// A frame: rip, rsp, how it was found, and whether it has called.
type Found = (u64, u64, Way, bool);

/// The frame of the first function at its call; its return address is 0.
const OUTERMOST: [u64; 7] = [AFTER_CALL, 0, 0, 0, 0, 0xB0, 0];

/// Four functions of 32 bytes, in a section with these flags: one that pushes rbx and calls, the dispatcher, one without a
/// record, and one more that pushes rbx.
fn program(characteristics: u32) -> Vec<u8> {
    let mut made = Made::new(X64);
    made.characteristics = characteristics;
    made.size_of_image = 0x2000;
    made.content.resize(0x80, 0);
    made.content[0x0B..0x10].copy_from_slice(&CALL);
    made.content[0x38..0x3A].copy_from_slice(&JUMP);
    let pushes = made.put(&[1, 5, 2, 0, 5, 0x32, 1, 0x30]);
    let allocates = made.put(&[1, 4, 1, 0, 4, 0x02]);
    let entries = [ADDRESS, 0x1020, pushes, 0x1020, 0x1040, allocates, 0x1060, 0x1080, pushes];
    let table = made.put_words(&entries);
    made.directory(EXCEPTIONS, table, 36);
    made.image()
}

/// All frames of a walk over these words, as one piece and as a list of them, and why it ended.
fn walk(characteristics: u32, rip: u64, rsp: u64, words: &[u64]) -> (Vec<Found>, End) {
    let file = program(characteristics);
    let image = Image::parse(&file, Mode::Permissive).unwrap();
    let modules = [Module::new(&image, BASE).unwrap()];
    let mut registers = Registers { rip, ..Registers::default() };
    registers.set_rsp(rsp);
    let bytes: Vec<u8> = words.iter().flat_map(|word| word.to_le_bytes()).collect();
    let found = |frame: pe_c::Frame| (frame.registers.rip, frame.registers.rsp(), frame.way, frame.has_called);
    let piece = [MemoryPiece { start: STACK, offset: 0, length: bytes.len() as u64 }];
    let mut frames = Frames::new(registers, 100, &modules, MemoryList::new(&bytes, &piece).unwrap());
    let one = (frames.by_ref().map(found).collect(), frames.end().unwrap());
    let half = bytes.len() as u64 / 2;
    let pieces = [
        MemoryPiece { start: STACK + half, offset: half, length: bytes.len() as u64 - half },
        MemoryPiece { start: STACK, offset: 0, length: half },
    ];
    let mut frames = Frames::new(registers, 100, &modules, MemoryList::new(&bytes, &pieces).unwrap());
    assert_eq!((frames.by_ref().map(found).collect(), frames.end().unwrap()), one);
    one
}

#[test]
fn a_call_of_a_null_pointer_has_a_caller() {
    for pointer in [0, 8, BASE - 1, BASE + 0x2000, u64::MAX] {
        let frames = vec![(pointer, STACK, Way::Top, false), (AFTER_CALL, STACK + 8, Way::Leaf, true)];
        assert_eq!(walk(CODE, pointer, STACK, &OUTERMOST), (frames, End::Zero));
    }
    // Under a dispatcher, whose frame has 8 bytes.
    let frames = vec![
        (DISPATCHER, STACK, Way::Top, false),
        (0, STACK + 16, Way::Records, false),
        (AFTER_CALL, STACK + 24, Way::Leaf, true),
    ];
    assert_eq!(walk(CODE, DISPATCHER, STACK, &[&[8, 0], &OUTERMOST[..]].concat()), (frames, End::Zero));
}

/// At the target of a jump the frame is in place, as in a function and its parts: 32 bytes, then rbx and the return address.
#[test]
fn a_jump_is_followed() {
    let frames = vec![(JUMPING, STACK, Way::Top, false), (AFTER_CALL, STACK + 48, Way::Records, true)];
    assert_eq!(walk(CODE, JUMPING, STACK, &[&[1, 2, 3, 4, 5], &OUTERMOST[..]].concat()), (frames, End::Bottom));
}

#[test]
fn a_scan_finds_the_caller_of_a_function_without_records() {
    let words = [&[7, NO_CALL], &OUTERMOST[..]].concat();
    // The stack pointer is rounded up.
    for rsp in [STACK, STACK + 1, STACK + 9] {
        let frames = vec![(LEAF, rsp, Way::Top, false), (AFTER_CALL, STACK + 24, Way::Scanned, true)];
        assert_eq!(walk(CODE, LEAF, rsp, &words), (frames, End::Zero));
    }
    // In a section that is not executable nothing is found, and 7 is no return address; an address of code is one.
    let top = (LEAF, STACK, Way::Top, false);
    assert_eq!(walk(DATA, LEAF, STACK, &words), (vec![top], End::NoReturnAddress));
    let frames = vec![top, (NO_CALL, STACK + 8, Way::Leaf, true)];
    assert_eq!(walk(CODE, LEAF, STACK, &[NO_CALL]), (frames, End::Step(StepError::Missing(STACK + 40))));
}

#[test]
fn a_frame_at_no_call_was_interrupted() {
    for (interrupted, way) in [(FIRST_BYTE, Way::Records), (LEAF, Way::Leaf)] {
        let frames = vec![
            (DISPATCHER, STACK, Way::Top, false),
            (interrupted, STACK + 16, Way::Records, false),
            (AFTER_CALL, STACK + 24, way, true),
        ];
        assert_eq!(walk(CODE, DISPATCHER, STACK, &[&[8, interrupted], &OUTERMOST[..]].concat()), (frames, End::Bottom));
    }
}

#[test]
fn the_bottom_is_no_lost_walk() {
    let top = (DISPATCHER, STACK, Way::Top, false);
    assert_eq!(walk(CODE, DISPATCHER, STACK, &[8, 0]), (vec![top], End::Bottom));
    assert_eq!(walk(CODE, DISPATCHER, STACK, &[8, 0, 7, NO_CALL]), (vec![top], End::Bottom));
    assert_eq!(walk(CODE, LEAF, STACK, &[0, 7]), (vec![(LEAF, STACK, Way::Top, false)], End::Zero));
    for address in [1, BASE - 1, BASE + 0x2001] {
        let frames = vec![top, (address, STACK + 16, Way::Records, false)];
        assert_eq!(walk(CODE, DISPATCHER, STACK, &[8, address, 7]), (frames, End::NoModule));
    }
    for words in [&[0, 7][..], &[]] {
        assert_eq!(walk(CODE, 0, STACK, words), (vec![(0, STACK, Way::Top, false)], End::NoModule));
    }
    assert_eq!(walk(CODE, DISPATCHER, STACK, &[8]), (vec![top], End::Step(StepError::Missing(STACK + 8))));
}

#[test]
fn a_scan_reads_128_words() {
    let mut words = vec![7; 127];
    words.extend(OUTERMOST);
    let top = (0, STACK, Way::Top, false);
    let frames = vec![top, (AFTER_CALL, STACK + 1024, Way::Scanned, true)];
    assert_eq!(walk(CODE, 0, STACK, &words), (frames, End::Zero));
    words.insert(0, 7);
    assert_eq!(walk(CODE, 0, STACK, &words), (vec![top], End::NoModule));
    // It goes on after words that are not known; no stack pointer is above the last word.
    let frames = vec![(0, STACK - 24, Way::Top, false), (AFTER_CALL, STACK + 8, Way::Scanned, true)];
    assert_eq!(walk(CODE, 0, STACK - 24, &OUTERMOST), (frames, End::Zero));
    for high in [u64::MAX, u64::MAX - 6, u64::MAX - 7, u64::MAX - 8, u64::MAX - 1024] {
        assert_eq!(walk(CODE, 0, high, &OUTERMOST), (vec![(0, high, Way::Top, false)], End::NoModule));
    }
}
