//! Damaged and truncated bytes, and wrong records: every call returns, and the ranges that it returns lie in the bytes.

use crate::made;
use crate::made::*;
use crate::reading::{read_all, Seen};
use pe_c::{sys, Image, Layout, Mode};

const WAYS: [(Mode, Layout); 4] = [
    (Mode::Strict, Layout::File),
    (Mode::Permissive, Layout::File),
    (Mode::Strict, Layout::Mapped),
    (Mode::Permissive, Layout::Mapped),
];

/// Fails unless something of each kind was read and something was refused: what does not read an image does not crash on it.
fn assert_read(seen: Seen) {
    let counts = [seen.images, seen.records, seen.codes, seen.slices, seen.refusals];
    assert!(counts.iter().all(|count| *count > 0), "{seen:?}");
}

#[test]
fn every_beginning_of_an_image_is_read_or_refused() {
    let mut seen = Seen::up_to(0);
    for (name, image) in made::all() {
        assert_eq!(read_all(&image, Mode::Permissive, Layout::File, 64).images, 1, "{name}");
        for length in 0..image.len() {
            // an allocation of its own, so that a memory checker sees a read past its end
            let bytes = image[..length].to_vec();
            for (mode, layout) in WAYS {
                seen.add(read_all(&bytes, mode, layout, 64));
            }
        }
    }
    assert_read(seen);
}

#[test]
fn every_byte_of_an_image_may_change() {
    let mut seen = Seen::up_to(0);
    for (_, image) in made::all() {
        for offset in 0..image.len() {
            for value in [0, 1, 0x7F, 0x80, 0xFF] {
                let mut bytes = image.clone();
                bytes[offset] = value;
                for (mode, layout) in WAYS {
                    seen.add(read_all(&bytes, mode, layout, 64));
                }
            }
        }
    }
    assert_read(seen);
}

/// A view without an index, for calls that end before the image.
fn view_of(image: &Image) -> sys::View {
    sys::View::of(image.bytes(), image.info(), image.sections(), &[])
}

/// Numbers at the ends of their ranges, and near the length of the bytes.
fn lies(length: u64) -> Vec<u64> {
    vec![0, 1, 4, length - 1, length, length + 1, 1 << 31, u32::MAX.into(), 1 << 32, 1 << 63, u64::MAX - 3, u64::MAX]
}

/// Numbers of sections that a walk may keep: none, those of an image, and some that it does not have.
const KEPT: [sys::KeptSections; 3] = [
    sys::KeptSections { first: 0, second: 0 },
    sys::KeptSections { first: 2, second: 1 },
    sys::KeptSections { first: u32::MAX, second: 65_536 },
];

/// Steps a walk to its end, which must come within so many more steps; returns the result of the first step.
fn first_of_all<W, T: Default + PartialEq + std::fmt::Debug>(
    most: usize,
    start: W,
    call: impl Fn(&mut W, &mut T) -> u32,
) -> u32 {
    let mut walk = start;
    let mut step = || {
        let mut out = T::default();
        let answer = call(&mut walk, &mut out);
        assert!(answer == 0 || out == T::default());
        answer
    };
    let first = step();
    let mut last = first;
    for _ in 0..most {
        if last != 0 {
            break;
        }
        last = step();
    }
    assert!(last != 0, "it ends");
    assert_eq!((step(), step()), (100, 100), "it stays over");
    first
}

/// A walk over a range: `SHORT` and then nothing where the range is wrong; else it ends.
fn walk<W, T: Default + PartialEq + std::fmt::Debug>(
    bytes: &[u8],
    there: bool,
    start: W,
    call: unsafe extern "C" fn(*const u8, usize, *mut W, *mut T) -> u32,
) {
    // SAFETY: the pointer and the length are those of one slice, and both records are lent for the call.
    let first = first_of_all(bytes.len(), start, |walk, out| unsafe { call(bytes.as_ptr(), bytes.len(), walk, out) });
    assert!(there || first == 2);
}

#[test]
fn ranges_that_lie_are_refused() {
    let bytes = with_functions();
    let (start, length) = (bytes.as_ptr(), bytes.len());
    let image = Image::parse(&bytes, Mode::Strict).unwrap();
    let (view, sections) = (view_of(&image), image.sections());
    for offset in lies(length as u64) {
        for size in lies(length as u64) {
            let range = sys::Range { offset, length: size };
            let there = range.of(&bytes).is_some();
            // SAFETY: the pointer and the length are those of one slice, and each record is lent for its call.
            unsafe {
                let mut function = sys::Function::default();
                let answer = sys::pe_c_find_function(start, length, &range, 0x5008, &mut function);
                assert_eq!(answer == 2, !there);
                let answer = sys::pe_c_function_at(start, length, &range, 0, &mut function);
                assert!(there || answer == 2);
                let mut function = sys::Arm64Function::default();
                let answer = sys::pe_c_find_arm64_function(&view, &range, 0x5008, &mut function);
                assert!(there || (answer == 2 && function == sys::Arm64Function::default()));
                let mut out = sys::Range::default();
                let answer = sys::pe_c_scope_table(start, length, &range, &mut out);
                assert!(there || (answer == 2 && out == sys::Range::default()));
                let mut key = sys::Key::default();
                let answer = sys::pe_c_codeview(start, length, &range, &mut key);
                assert!((answer == 2) != there && key == sys::Key::default());
                let (mut table, mut certificate) = (range, sys::Certificate::default());
                let answer = sys::pe_c_next_certificate(start, length, &mut table, &mut certificate);
                assert_eq!(answer == 10, !there);
                let mut fixed = sys::Version::default();
                let answer = sys::pe_c_fixed_version_in(start, length, &range, &mut fixed);
                assert!(there || answer == 2);
                let (mut table, mut import) = (range, sys::BoundImport::default());
                let answer = sys::pe_c_next_bound_import(start, length, &range, &mut table, &mut import);
                assert!(there || answer == 2);
                let (mut entries, mut entry) = (range, sys::RichEntry::default());
                let answer = sys::pe_c_next_rich_entry(start, length, 7, &mut entries, &mut entry);
                assert!(there || answer == 2);
                let answer = sys::pe_c_long_section_name(start, length, &range, &sections[0], &mut out);
                assert!(there || answer == 2);
            }
            walk(&bytes, there, range, sys::pe_c_next_debug_entry);
            walk(&bytes, there, range, sys::pe_c_next_pogo_entry);
            walk(&bytes, there, range, sys::pe_c_next_scope);
            walk(&bytes, there, range, sys::pe_c_next_arm64_scope);
            for version in [0, 1, 2, 255] {
                let codes = sys::Walk { left: range, version, frame_register: 255, spare: [9; 6] };
                walk(&bytes, there, codes, sys::pe_c_next_code);
            }
            for offset in lies(length as u64) {
                let mut codes = sys::Arm64Walk::default();
                // SAFETY: as above.
                let answer = unsafe { sys::pe_c_arm64_codes(start, length, &range, offset, &mut codes) };
                assert!(there || answer == 2);
                walk(&bytes, there, sys::Arm64Walk { left: range, offset }, sys::pe_c_next_arm64_code);
            }
        }
    }
}

#[test]
fn walks_over_imports_that_lie_end() {
    let bytes = with_imports();
    let length = bytes.len();
    let image = Image::parse(&bytes, Mode::Strict).unwrap();
    let view = view_of(&image);
    for (offset, kept) in lies(length as u64).into_iter().flat_map(|it| KEPT.map(|kept| (it, kept))) {
        for is_over in [0, 1, u32::MAX] {
            let start = sys::Libraries { next: offset, is_over, spare: 9 };
            // SAFETY: the pointers and lengths are those of slices, and the records are lent for the call.
            let first = first_of_all(length, sys::LibraryWalk { libraries: start, kept }, |walk, out| unsafe {
                sys::pe_c_next_library(&view, walk, out)
            });
            assert!(is_over == 0 || first == 100);
            assert!(is_over != 0 || offset < length as u64 || first == 2);
        }
        for (size, rva) in lies(length as u64).into_iter().flat_map(|it| [(it, 0), (it, u64::MAX)]) {
            let left = sys::Range { offset, length: size };
            let start = sys::Imports { left, rva };
            // SAFETY: as above.
            let first = first_of_all(length, sys::ImportWalk { imports: start, kept }, |walk, out| unsafe {
                sys::pe_c_next_import(&view, walk, out)
            });
            assert!(left.of(&bytes).is_some() || first == 2);
        }
    }
}

#[test]
fn walks_over_delay_imports_and_streams_that_lie_end() {
    let bytes = with_delay_imports();
    let length = bytes.len();
    let image = Image::parse(&bytes, Mode::Strict).unwrap();
    let view = view_of(&image);
    for (offset, kept) in lies(length as u64).into_iter().flat_map(|it| KEPT.map(|kept| (it, kept))) {
        for size in lies(length as u64) {
            let range = sys::Range { offset, length: size };
            let there = range.of(&bytes).is_some();
            // SAFETY: the pointers and lengths are those of slices, and the records are lent for the call.
            let first = first_of_all(length, sys::DelayImportWalk { entries: range, kept }, |walk, out| unsafe {
                sys::pe_c_next_delay_import(&view, walk, out)
            });
            assert!(there || first == 2);
            let start = sys::DelayedFunctions { left: range, attributes: size as u32, spare: 9 };
            // SAFETY: as above.
            let first = first_of_all(length, sys::DelayedFunctionWalk { functions: start, kept }, |walk, out| unsafe {
                sys::pe_c_next_delayed_function(&view, walk, out)
            });
            assert!(there || first == 2);
            let whole = sys::Range { offset: 0, length: length as u64 };
            for (metadata, headers) in [(range, whole), (whole, range), (range, range)] {
                let streams = sys::MetadataStreams { metadata, headers, count: u16::MAX, spare: 9, spare_too: 9 };
                walk(&bytes, there, streams, sys::pe_c_next_metadata_stream);
            }
        }
    }
}

#[test]
fn walks_over_leaves_that_lie_end() {
    let bytes = with_named_resources();
    let length = bytes.len();
    let image = Image::parse(&bytes, Mode::Strict).unwrap();
    let view = view_of(&image);
    let (tree, none) = (sys::Range { offset: 0x408, length: 0x8E }, sys::Range::default());
    let whole = sys::ResourceWalk { tree, ..sys::ResourceWalk::default() };
    let entry = sys::ResourceEntry { name_or_id: u32::MAX, offset_to_data_or_directory: u32::MAX };
    for (offset, size) in
        lies(length as u64).into_iter().flat_map(|it| lies(0x8E).into_iter().map(move |size| (it, size)))
    {
        let lie = sys::Range { offset, length: size };
        let is_in_tree = lie.of(&[0; 0x8E]).is_some();
        for (walk, there) in [
            (sys::ResourceWalk { tree: lie, types: none, ..whole }, lie.of(&bytes).is_some()),
            (sys::ResourceWalk { types: lie, ..whole }, is_in_tree),
            (sys::ResourceWalk { names: lie, resource_type: entry, ..whole }, is_in_tree),
            (sys::ResourceWalk { languages: lie, name: entry, ..whole }, is_in_tree),
        ] {
            for kept in KEPT {
                let start = sys::LeafWalk { leaves: walk, kept };
                // SAFETY: the pointers and lengths are those of slices, and the records are lent for the call.
                let first = first_of_all(length * length, start, |walk, out| unsafe {
                    sys::pe_c_next_resource_leaf(&view, walk, out)
                });
                assert!(there || first == 2);
            }
        }
    }
}

#[test]
fn plans_that_lie_end() {
    let bytes = with_functions();
    let image = Image::parse(&bytes, Mode::Strict).unwrap();
    let (view, mut table) = (view_of(&image), sys::Range::default());
    // SAFETY: the view is of slices, and the records are lent for the calls; so below.
    assert_eq!(unsafe { sys::pe_c_function_table(&view, &mut table) }, sys::DONE);
    let entry = table.of(&bytes).unwrap();
    let chained = u32::from_le_bytes(entry[20..24].try_into().unwrap());
    let numbers = lies(bytes.len() as u64);
    for (unwind, kept) in [chained, 0, 3, u32::MAX].into_iter().flat_map(|it| KEPT.map(|kept| (it, kept))) {
        for (steps, limit) in numbers.iter().flat_map(|it| lies(3).into_iter().map(move |limit| (*it, limit))) {
            for is_over in [0, 1, u32::MAX] {
                let plan = sys::Plan { unwind, is_over, saved: u32::MAX - 1, spare: 9, steps, limit };
                let first = first_of_all(2, sys::PlanWalk { plan, kept }, |walk, out| unsafe {
                    sys::pe_c_next_record(&view, &table, walk, out)
                });
                assert_eq!(first == 100, is_over != 0);
                assert_eq!(first == 0, is_over == 0 && unwind == chained);
            }
        }
    }
    for (offset, length) in numbers.iter().flat_map(|it| numbers.iter().map(move |length| (*it, *length))) {
        let lie = sys::Range { offset, length };
        let plan = sys::Plan { unwind: chained, saved: chained, limit: 1, ..sys::Plan::default() };
        for kept in KEPT {
            let first = first_of_all(2, sys::PlanWalk { plan, kept }, |walk, out| unsafe {
                sys::pe_c_next_record(&view, &lie, walk, out)
            });
            assert_eq!(first, if lie.of(&bytes).is_some() { 0 } else { 2 });
        }
    }
}

#[test]
fn images_that_lie_are_refused() {
    let bytes = with_functions();
    let (start, length) = (bytes.as_ptr(), bytes.len());
    let mut sections = vec![sys::Section::default(); 65_535];
    for sections_offset in lies(length as u64) {
        for number_of_sections in [0, 1, 2, 255, 65_534, 65_535] {
            let image = sys::ImageInfo { sections_offset, number_of_sections, ..sys::ImageInfo::default() };
            // SAFETY: the pointers and lengths are those of one slice and one vector, and the record is lent for the
            // call.
            let answer = unsafe { sys::pe_c_sections(start, length, &image, sections.as_mut_ptr(), sections.len()) };
            let there =
                sections_offset.checked_add(40 * u64::from(number_of_sections)).is_some_and(|end| end <= length as u64);
            assert_eq!(answer == 0, there || number_of_sections == 0, "{sections_offset} {number_of_sections}");
        }
    }
    let image = sys::ImageInfo { number_of_sections: 3, ..sys::ImageInfo::default() };
    // SAFETY: as above.
    let answer = unsafe { sys::pe_c_sections(start, length, &image, sections.as_mut_ptr(), 2) };
    assert_eq!(answer, 101);
}

#[test]
fn no_bytes_may_be_null() {
    let mut info = sys::ImageInfo::default();
    let mut offset = 7;
    // SAFETY: slices of no entries may be null; each record is lent for its call.
    unsafe {
        assert_eq!(sys::pe_c_image(core::ptr::null(), 0, 0, &mut info), 2);
        let (bytes, sections, index) = (core::ptr::null(), core::ptr::null(), core::ptr::null());
        let view = sys::View { bytes, length: 0, image: &info, sections, count: 0, index, entries: 0 };
        assert_eq!(sys::pe_c_offset(&view, 0x1000, &mut offset), 100);
        let (none, room) = (core::ptr::null(), core::ptr::null_mut());
        assert_eq!(sys::pe_c_detach(&view, room, 0, &mut offset), 2);
        // a certificate and a room of no bytes: the first is truncated, the second too small
        let view = sys::View { bytes: SMALL.as_ptr(), length: SMALL.len(), ..view };
        assert_eq!(sys::pe_c_attach(&view, none, 0, 0, room, 0, &mut offset), 2);
        assert_eq!(offset, 7);
        assert_eq!(sys::pe_c_detach(&view, room, 0, &mut offset), sys::ROOM);
    }
    assert_eq!((info, offset), (sys::ImageInfo::default(), 0x400));
}
