//! Iterators return what the steps of their walks do, one after the other, and an error in its place: also those that take several
//! items a call, as those of codes and functions of x64 do.

use crate::made::*;
use pe_c::{sys, Arm64Code, Arm64Unwinding, Code, Error, Failure, Image, Mode};
use std::fmt::Debug;

/// How many items there are: none, few, and about as many as one call and two take.
const COUNTS: [usize; 9] = [0, 1, 2, 15, 16, 17, 31, 32, 33];

fn permissive(bytes: &[u8]) -> Image<'_> {
    Image::parse(bytes, Mode::Permissive).unwrap()
}

/// What the steps of a walk return, an error by its number.
fn steps<W, R: Default, T>(
    mut walk: W,
    step: impl Fn(&mut W, &mut R) -> u32,
    of: impl Fn(R) -> T,
) -> Vec<Result<T, u32>> {
    let mut found = Vec::new();
    loop {
        let mut out = R::default();
        match step(&mut walk, &mut out) {
            sys::DONE => found.push(Ok(of(out))),
            sys::NOTHING => return found,
            number => {
                found.push(Err(number));
                return found;
            }
        }
    }
}

/// The iterator returns these items, so many without an error and then this error, if there is one, and nothing after them; as a copy
/// of it does, wherever it is taken.
fn assert_same<I, T: Debug + PartialEq>(left: &mut I, wanted: Vec<Result<T, u32>>, count: usize, error: Option<Error>)
where
    I: Iterator<Item = Result<T, Error>> + Clone,
{
    assert_eq!(wanted.len(), count + usize::from(error.is_some()));
    assert_eq!(wanted.last().and_then(|it| it.as_ref().err()).copied(), error.map(Error::number));
    for (i, item) in wanted.iter().enumerate() {
        let copied: Vec<_> = left.clone().map(|it| it.map_err(Error::number)).collect();
        assert_eq!(copied, wanted[i..]);
        assert_eq!(left.next().map(|it| it.map_err(Error::number)).as_ref(), Some(item), "{i} of {count}");
    }
    assert!(left.next().is_none() && left.next().is_none());
}

/// The failure is one of this error.
fn assert_failure(failure: Option<Failure>, error: Option<Error>) {
    assert_eq!(failure.map(|it| it.error), error);
}

/// Without its directory a walk is empty, and has no failure.
#[test]
fn absent_directories_have_no_items() {
    let made = Made::new(X64).image();
    let image = permissive(&made);
    let (mut libraries, mut delayed) = (image.libraries().unwrap(), image.delay_imports().unwrap());
    let (mut bound, mut blocks) = (image.bound_imports().unwrap(), image.relocation_blocks().unwrap());
    assert!(libraries.next().is_none() && libraries.failure().is_none());
    assert!(delayed.next().is_none() && delayed.failure().is_none());
    assert!(bound.next().is_none() && bound.failure().is_none());
    assert!(blocks.next().is_none() && blocks.failure().is_none());
    assert_eq!(image.imports().unwrap().count() + image.exports().unwrap().count(), 0);
    assert_eq!(image.delayed_functions().unwrap().count() + image.bound_forwarders().unwrap().count(), 0);
    assert_eq!(image.debug_entries().unwrap().count() + image.tls_callbacks().unwrap().count(), 0);
    assert_eq!(image.version_blocks().unwrap().count(), 0);
    let mut te = te_image();
    te[0x20..0x28].fill(0);
    assert_eq!(pe_c::Te::parse(&te).unwrap().debug_entries().unwrap().count(), 0);
    // A leaf of another type than version information.
    let named = with_named_resources();
    let leaf = permissive(&named).resource_leaves().unwrap().unwrap().next().unwrap().unwrap();
    assert_eq!(leaf.version_blocks().unwrap().count(), 0);
}

/// An image with one function, whose record has so many codes, `push rbp`, and then these slots.
fn with_codes(count: usize, then: &[u8]) -> Vec<u8> {
    let mut made = Made::new(X64);
    let slots = [[1, 0x50].repeat(count).as_slice(), then].concat();
    let record = made.put(&[&[1, 1, (slots.len() / 2) as u8, 0], slots.as_slice()].concat());
    let table = made.put_words(&[0x5000, 0x5010, record]);
    made.directory(EXCEPTIONS, table, 12);
    made.image()
}

#[test]
fn codes() {
    // Opcode 11 is none, and what follows it is not read. UWOP_ALLOC_LARGE has a second slot.
    let ends: [(&[u8], _); 3] =
        [(&[], None), (&[1, 0x0B, 1, 0x50], Some(Error::UNWIND_CODE)), (&[1, 0x01], Some(Error::SHORT))];
    for (count, (then, error)) in COUNTS.into_iter().flat_map(|count| ends.map(|it| (count, it))) {
        let bytes = with_codes(count, then);
        let image = permissive(&bytes);
        let functions = image.functions().unwrap().unwrap();
        let record = functions.record(functions.get(0).unwrap()).unwrap();
        // SAFETY: the pointer and the length are those of one slice; the records are lent for the call.
        let step = |walk: &mut _, out: &mut _| unsafe { sys::pe_c_next_code(bytes.as_ptr(), bytes.len(), walk, out) };
        let mut left = record.codes();
        assert_same(&mut left, steps(record.raw().codes, step, Code::from), count, error);
        assert_failure(left.failure(), error);
    }
}

#[test]
fn codes_of_arm64() {
    // A `nop` has one byte, `save_fregp_x` two.
    for (count, is_cut) in COUNTS.into_iter().flat_map(|count| [(count, false), (count, true)]) {
        let mut made = Made::new(ARM64);
        let codes = [[0xE3].repeat(4 * count), vec![0xE3, 0xE3, 0xE3, if is_cut { 0xDA } else { 0xE3 }]].concat();
        let record = made.put_words(&[4 | 1 << 21 | (codes.len() as u32 / 4) << 27]);
        if codes.len() / 4 > 31 {
            continue;
        }
        made.put(&codes);
        let table = made.put_words(&[0x5000, record]);
        made.directory(EXCEPTIONS, table, 8);
        let bytes = made.image();
        let image = permissive(&bytes);
        let functions = image.arm64_functions().unwrap().unwrap();
        let Ok(Arm64Unwinding::Record(record)) = functions.unwinding(functions.get(0).unwrap()) else {
            panic!("a record")
        };
        let (start, length, mut walk) = (bytes.as_ptr(), bytes.len(), sys::Arm64Walk::default());
        // The last codes are what there are: 16 and 17 too.
        let total = codes.len() - usize::from(is_cut);
        for skipped in [0, total.min(total % 16 + 1), total.saturating_sub(16), total.saturating_sub(17)] {
            // SAFETY: the pointer and the length are those of one slice; the records are lent for the call.
            let number =
                unsafe { sys::pe_c_arm64_codes(start, length, &record.raw().codes, skipped as u64, &mut walk) };
            assert_eq!(number, sys::DONE);
            // SAFETY: as above.
            let step = |walk: &mut _, out: &mut _| unsafe { sys::pe_c_next_arm64_code(start, length, walk, out) };
            let error = is_cut.then_some(Error::ARM64_CUT);
            let mut left = record.codes(skipped as u32).unwrap();
            assert_same(&mut left, steps(walk, step, Arm64Code::from), total - skipped, error);
            assert_failure(left.failure(), error);
        }
    }
}

#[test]
fn functions() {
    for count in COUNTS.into_iter().skip(1) {
        for (machine, size) in [(X64, 3), (ARM64, 2)] {
            let mut made = Made::new(machine);
            let entries: Vec<u32> = (0..(size * count) as u32).map(|i| 0x1000 + 4 * i).collect();
            let table = made.put_words(&entries);
            made.directory(EXCEPTIONS, table, 4 * entries.len() as u32);
            let bytes = made.image();
            let image = permissive(&bytes);
            if let Some(functions) = image.functions().unwrap() {
                let found: Vec<_> = functions.iter().collect();
                assert_eq!(found, (0..count as u64).map(|i| functions.get(i).unwrap()).collect::<Vec<_>>());
                assert_eq!(functions.iter().size_hint(), (0, Some(count)));
                assert_eq!(functions.iter().nth(count - 1), functions.get(count as u64 - 1));
            } else {
                let functions = image.arm64_functions().unwrap().unwrap();
                let found: Vec<_> = functions.iter().collect();
                assert_eq!(found, (0..count as u64).map(|i| functions.get(i).unwrap()).collect::<Vec<_>>());
                assert_eq!(functions.iter().nth(count - 1), functions.get(count as u64 - 1));
            }
        }
    }
}

#[test]
fn entries_of_pogo() {
    // A name without a final zero, and what is too short for an entry.
    let ends: [(&[u8], _); 3] =
        [(&[], None), (b"\0\0\0\0\0\0\0\0no z", Some(Error::POGO_NAME)), (b"\0\0\0\0", Some(Error::SHORT))];
    for (count, (then, error)) in COUNTS.into_iter().flat_map(|count| ends.map(|it| (count, it))) {
        let mut made = Made::new(X64);
        let entries =
            (0..count as u32).flat_map(|i| [&[i, i + 1].map(u32::to_le_bytes).concat()[..], b"n\0\0\0"].concat());
        let record = [b"GCTL".as_slice(), &entries.collect::<Vec<u8>>(), then].concat();
        // One without entries is refused.
        if record.len() == 4 {
            continue;
        }
        let address = made.put(&record);
        let table = made.put_words(&[0, 0, 0, 13, record.len() as u32, address, offset(address)]);
        made.directory(DEBUG, table, 28);
        let bytes = made.image();
        let pogo = permissive(&bytes).pogo().unwrap().unwrap();
        let walk = sys::Range { offset: u64::from(offset(address)) + 4, length: record.len() as u64 - 4 };
        // SAFETY: the pointer and the length are those of one slice; the records are lent for the call.
        let step =
            |walk: &mut _, out: &mut _| unsafe { sys::pe_c_next_pogo_entry(bytes.as_ptr(), bytes.len(), walk, out) };
        let of = |it: sys::PogoEntry| (it.rva, it.size, it.name.of(&bytes).unwrap());
        let mut found = pogo.entries().map(|it| it.map(|it| (it.rva, it.size, it.name_bytes)));
        assert_same(&mut found, steps(walk, step, of), count, error);
    }
}

/// An image whose base relocations are these bytes.
fn with_blocks(blocks: &[u8]) -> Vec<u8> {
    let mut made = Made::new(X64);
    let start = made.put(blocks);
    made.put(&[0; 8]);
    made.directory(RELOCATIONS, start, blocks.len() as u32);
    made.image()
}

/// The steps over the blocks of base relocations, which start at this offset.
fn blocks_by_steps(bytes: &[u8], length: usize) -> Vec<Result<sys::RelocationBlock, u32>> {
    let walk = sys::Range { offset: OFFSET.into(), length: length as u64 };
    // SAFETY: the pointer and the length are those of one slice; the records are lent for the call.
    let step =
        |walk: &mut _, out: &mut _| unsafe { sys::pe_c_next_relocation_block(bytes.as_ptr(), bytes.len(), walk, out) };
    steps(walk, step, |it| it)
}

#[test]
fn blocks_of_base_relocations() {
    let ends = [
        (vec![], None),
        // Zeros end the list; what follows is not read.
        ([0u32, 0, 0x1000, 8].map(u32::to_le_bytes).concat(), None),
        ([0x1000u32, 7, 0x2000, 8].map(u32::to_le_bytes).concat(), Some(Error::DIRECTORY_BLOCK_SIZE)),
        ([0x1000u32, 12].map(u32::to_le_bytes).concat(), Some(Error::DIRECTORY_BLOCK_TRUNCATED)),
        (vec![0; 4], Some(Error::SHORT)),
    ];
    for (count, (then, error)) in COUNTS.into_iter().flat_map(|count| ends.clone().map(|it| (count, it))) {
        let pages = (1..=count as u32).flat_map(|i| [0x1000 * i, 8].map(u32::to_le_bytes).concat());
        let blocks = [pages.collect::<Vec<u8>>(), then].concat();
        let bytes = with_blocks(&blocks);
        let wanted = blocks_by_steps(&bytes, blocks.len()).into_iter().map(|it| it.map(|it| it.page_rva)).collect();
        let mut found = permissive(&bytes).relocation_blocks().unwrap();
        assert_same(&mut found.clone().map(|it| it.map(|it| it.page_rva)), wanted, count, error);
        assert_eq!(found.by_ref().filter(Result::is_ok).count(), count);
        assert_failure(found.failure(), error);
    }
}

#[test]
fn base_relocations() {
    // DIR64; and HIGHADJ without the argument that follows it.
    for (count, is_cut) in COUNTS.into_iter().flat_map(|count| [(count, false), (count, true)]) {
        let entries: Vec<u16> = (0..count as u16).map(|i| 0xA000 + i).chain(is_cut.then_some(0x4010)).collect();
        let header = [0x7000, 8 + 2 * entries.len() as u32].map(u32::to_le_bytes).concat();
        let block = [header, entries.iter().flat_map(|it| it.to_le_bytes()).collect()].concat();
        let bytes = with_blocks(&block);
        let raw = blocks_by_steps(&bytes, block.len())[0].unwrap();
        // SAFETY: the pointer and the length are those of one slice; the records are lent for the call.
        let step = |walk: &mut _, out: &mut _| unsafe {
            sys::pe_c_next_relocation(bytes.as_ptr(), bytes.len(), raw.page_rva, walk, out)
        };
        let wanted = steps(raw.entries, step, |it: sys::Relocation| (it.rva, it.kind));
        let mut found = permissive(&bytes).relocation_blocks().unwrap().next().unwrap().unwrap().relocations();
        let error = is_cut.then_some(Error::DIRECTORY_NO_ARGUMENT);
        assert_same(&mut found.clone().map(|it| it.map(|it| (it.rva, u32::from(it.kind)))), wanted, count, error);
        assert_eq!(found.by_ref().filter(Result::is_ok).count(), count);
        assert_failure(found.failure(), error);
    }
}
