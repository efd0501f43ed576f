//! Makes every call on damaged files: `fuzz SECONDS [--seed N] [--first NUMBER | --only NUMBER] [FILE ..]`. Files below 64
//! bytes or above 1 MiB are skipped. Without files, those of the tests are damaged.
//!
//! Each input is a file with a few bytes changed, and sometimes truncated. It ends where readable memory ends, so that a
//! read past its end crashes. The calls that take ranges and walks get wrong ones too. An input depends on the seed, its
//! number and the files alone. A run that fails prints its number, and `--only` makes it again; `--first` goes on at `next`
//! of the run before. The last line counts what was read. `bench/fuzz` keeps the sums of many runs.

#[path = "../tests/made/mod.rs"]
mod made;
#[path = "../tests/reading/mod.rs"]
mod reading;

use pe_c::{sys, Image, Layout, Mode};
use reading::{read_all, read_dump, read_others, read_pdb, Seen};
use std::ffi::c_void;
use std::ops::Range;
use std::sync::atomic::{AtomicU64, Ordering::Relaxed};
use std::time::Instant;

extern "C" {
    fn mmap(at: *mut c_void, length: usize, may: i32, how: i32, file: i32, from: i64) -> *mut c_void;
    fn mprotect(at: *mut c_void, length: usize, may: i32) -> i32;
    fn signal(number: i32, handler: extern "C" fn(i32)) -> usize;
    fn alarm(seconds: u32) -> u32;
    fn _exit(status: i32) -> !;
}

/// The most bytes of an input, and the bytes of a page.
const ROOM: usize = 1 << 20;
const PAGE: usize = 1 << 16;

/// Inputs made of one file before the next.
const INPUTS_OF_A_FILE: u64 = 64;

/// How many seconds these may take.
const SECONDS_OF_A_FILE: u32 = 300;

/// The number of the input that is made.
static NUMBER: AtomicU64 = AtomicU64::new(0);

/// The most items that a wrong walk may return.
const MOST: usize = 16;

/// Writable memory with an unreadable page after it.
fn fenced() -> &'static mut [u8] {
    const READ_AND_WRITE: i32 = 3;
    const PRIVATE_AND_ANONYMOUS: i32 = 0x22;
    // SAFETY: fresh memory of the process, the last page of which is made unreadable; the rest is lent once.
    unsafe {
        let at = mmap(std::ptr::null_mut(), ROOM + PAGE, READ_AND_WRITE, PRIVATE_AND_ANONYMOUS, -1, 0);
        assert!(at as isize != -1 && mprotect(at.cast::<u8>().add(ROOM).cast(), PAGE, 0) == 0);
        std::slice::from_raw_parts_mut(at.cast(), ROOM)
    }
}

/// Random numbers, by xorshift.
struct Random(u64);

impl Random {
    /// Those of a number of this seed, by splitmix64.
    fn of(seed: u64, number: u64) -> Random {
        let state = seed.wrapping_add(number.wrapping_mul(0x9E37_79B9_7F4A_7C15));
        let state = (state ^ state >> 30).wrapping_mul(0xBF58_476D_1CE4_E5B9);
        let state = (state ^ state >> 27).wrapping_mul(0x94D0_49BB_1331_11EB);
        Random((state ^ state >> 31).max(1))
    }

    fn next(&mut self) -> u64 {
        self.0 ^= self.0 << 13;
        self.0 ^= self.0 >> 7;
        self.0 ^= self.0 << 17;
        self.0
    }

    fn below(&mut self, end: usize) -> usize {
        (self.next() >> 16) as usize % end
    }

    /// A number that is likely to be a limit of something.
    fn edge(&mut self, length: u64) -> u64 {
        match self.below(8) {
            0 => 0,
            1 => length,
            2 => length.wrapping_sub(1 + self.next() % 16),
            3 => u64::MAX - self.next() % 16,
            4 => 1 << (self.next() % 64),
            5 => self.next(),
            _ => self.next() % (length + 2),
        }
    }
}

/// The offsets where a change matters most: headers, section headers, the tables of directories and what follows them.
fn hot_offsets(bytes: &[u8]) -> Vec<Range<usize>> {
    let mut offsets = vec![0..bytes.len(), 0..bytes.len().min(1024), 60..64];
    let Ok(image) = Image::parse(bytes, Mode::Permissive) else {
        // A PDB or a minidump has gaps of zeros between what it says.
        let pieces = bytes.chunks(64).enumerate().filter(|(_, piece)| piece.iter().any(|byte| *byte != 0));
        offsets.extend(pieces.map(|(i, piece)| 64 * i..64 * i + piece.len()));
        return offsets;
    };
    let info = image.info();
    let certificates = info.directories[made::CERTIFICATES].virtual_address as usize;
    offsets.push(certificates..certificates.saturating_add(32));
    for index in [made::EXPORTS, made::IMPORTS, made::RESOURCES, made::EXCEPTIONS, made::DEBUG] {
        let directory = info.directories[index];
        let Some(offset) = image.offset(directory.virtual_address).filter(|_| directory.size > 0) else {
            continue;
        };
        let (offset, size) = (offset as usize, directory.size as usize);
        offsets.push(offset..bytes.len().min(offset.saturating_add(size)));
        offsets.push(offset..bytes.len().min(offset.saturating_add(64)));
    }
    if let Ok(Some(functions)) = image.functions() {
        for function in functions.iter().take(32) {
            if let Some(offset) = image.offset(function.unwind & !1) {
                offsets.push(offset as usize..bytes.len().min(offset as usize + 16));
            }
        }
    }
    if let Ok(Some(functions)) = image.arm64_functions() {
        for function in functions.iter().take(32) {
            if let Some(offset) = image.offset(function.unwind & !3) {
                offsets.push(offset as usize..bytes.len().min(offset as usize + 24));
            }
        }
    }
    offsets.retain(|offset| offset.start < offset.end && offset.end <= bytes.len());
    offsets
}

/// Copies a file, sometimes truncated, to the end of the memory.
fn copy<'m>(memory: &'m mut [u8], bytes: &[u8], random: &mut Random) -> &'m mut [u8] {
    let cut = if random.below(8) == 0 { random.below(bytes.len()) } else { 0 };
    let length = bytes.len() - cut;
    let input = &mut memory[ROOM - length..];
    input.copy_from_slice(&bytes[..length]);
    input
}

/// Changes a few bytes; returns what they were.
fn change(input: &mut [u8], offsets: &[Range<usize>], random: &mut Random) -> Vec<(usize, u8)> {
    let mut before = Vec::new();
    for _ in 0..1 + random.below(6) {
        let offset = &offsets[random.below(offsets.len())];
        let at = offset.start + random.below(offset.len());
        let value = [0, 1, 0x7F, 0x80, 0xFF, 0xE0 | random.below(16) as u8, random.next() as u8][random.below(7)];
        if let Some(byte) = input.get_mut(at) {
            before.push((at, *byte));
            *byte = value;
        }
    }
    before
}

/// Makes the calls that read lines, on the bytes as the stream of a module, with wrong ranges and indexes.
fn lines_of_lies(bytes: &[u8], sections: &[u8], random: &mut Random, number: u64) {
    let (at, length, few) = (bytes.as_ptr(), bytes.len(), random.edge(number) as u32);
    let range = sys::Range { offset: random.edge(number), length: random.edge(number) };
    let (mut index, mut written) = ([sys::PdbLineEntry::default(); 3], 9);
    let (mut line, mut files, mut stream) = (sys::PdbLine::default(), range, 9);
    // SAFETY: as in `pdb_of_lies`.
    unsafe {
        let (room, most) = (index.as_mut_ptr(), index.len());
        let (headers, headers_length) = (sections.as_ptr(), sections.len());
        let result = sys::pe_c_pdb_lines(at, length, &range, headers, headers_length, room, most, &mut written);
        assert!(result == sys::DONE || index == [sys::PdbLineEntry::default(); 3]);
        index[0].line.rva = few;
        let _ = sys::pe_c_find_pdb_line(index.as_ptr(), index.len(), few, &mut line);
        let _ = sys::pe_c_read_pdb_line(at, length, &range, headers, headers_length, few, &mut line);
        let _ = sys::pe_c_pdb_files(at, length, &range, &mut files);
        let mut name = sys::Range::default();
        let _ = sys::pe_c_pdb_file_name(at, length, &files, at, length, few, &mut name);
        assert!(name.of(bytes).is_some());
        let _ = sys::pe_c_pdb_named_stream(at, length, b"/names".as_ptr(), 6, &mut stream);
        let _ = sys::pe_c_pdb_moved_rva(at, length, few, &mut stream);
    }
}

/// Makes the calls that read a PDB, on the bytes as a file and as streams of one, with wrong ranges, starts and indexes.
fn pdb_of_lies(bytes: &[u8], random: &mut Random, number: u64) {
    let (at, length, few) = (bytes.as_ptr(), bytes.len(), random.edge(number) as u32);
    let starts = [random.edge(number), random.edge(number), random.edge(number)];
    let (mut info, mut own, mut room, mut written) = (sys::PdbInfo::default(), [7u64; 4], [0x77u8; 600], 9);
    // SAFETY: the pointers and lengths are those of slices and arrays, none of which is written to and read; all are lent for each call.
    unsafe {
        let _ = sys::pe_c_pdb(at, length, &mut info);
        let key = sys::Key { guid: info.guid, age: few % 2, ..sys::Key::default() };
        let _ = sys::pe_c_is_pdb_of(&key, &info);
        let result = sys::pe_c_pdb_starts(at, length, own.as_mut_ptr(), own.len(), &mut written);
        assert!(result == sys::DONE || own == [7; 4]);
        let (some, count, to) = (starts.as_ptr(), few as usize % 4, room.as_mut_ptr());
        let result = sys::pe_c_pdb_stream(at, length, some, count, few % 20, to, room.len(), &mut written);
        assert!(result == sys::DONE || room == [0x77; 600]);
        let mut range = sys::Range::default();
        let _ = sys::pe_c_pdb_stream_range(at, length, some, count, few % 20, &mut range);
        assert!(range.of(bytes).is_some());
    }
    let sections = &bytes[..length.min(few as usize % 400) / 40 * 40];
    symbols_of_lies(bytes, sections, random, number);
    lines_of_lies(bytes, sections, random, number);
    inlined_of_lies(bytes, sections, random, number);
}

/// Makes the calls that read modules and symbols, on the bytes as a stream, with wrong ranges and indexes.
fn symbols_of_lies(bytes: &[u8], sections: &[u8], random: &mut Random, number: u64) {
    let (at, length, few, mut written) = (bytes.as_ptr(), bytes.len(), random.edge(number) as u32, 9);
    let (headers, headers_length) = (sections.as_ptr(), sections.len());
    let range = sys::Range { offset: random.edge(number), length: random.edge(number) };
    let mut symbols = [sys::PdbSymbol::default(); 3];
    let mut modules = [sys::PdbModule::default(); 3];
    // SAFETY: as in `pdb_of_lies`.
    unsafe {
        for kind in 0..2 {
            let mut index = [7u64; 4];
            let room = index.as_mut_ptr();
            let result = sys::pe_c_pdb_index(kind, at, length, &range, headers, headers_length, room, 4, &mut written);
            assert!(result == sys::DONE || index == [7; 4]);
            index[0] = (u64::from(few) << 32) + random.edge(number) % 4096;
            let (room, found) = (index.as_ptr(), &mut symbols[0]);
            let _ = sys::pe_c_find_pdb_symbol(kind, at, length, headers, headers_length, room, 4, few, found);
            let _ = sys::pe_c_read_pdb_symbol(kind, at, length, &range, headers, headers_length, few, &mut symbols[1]);
        }
        let (mut walk, entries) = (range, symbols.as_mut_ptr());
        let result =
            sys::pe_c_list_pdb_symbols(at, length, headers, headers_length, &mut walk, entries, 3, &mut written);
        assert!(result == sys::DONE || walk == sys::Range::default());
        let (mut walk, entries) = (range, modules.as_mut_ptr());
        let result = sys::pe_c_list_pdb_modules(at, length, &mut walk, entries, 3, &mut written);
        assert!(result == sys::DONE || walk == sys::Range::default());
    }
}

/// Makes the calls that read inlined functions, on the bytes as each of the streams, with wrong ranges and starts.
fn inlined_of_lies(bytes: &[u8], sections: &[u8], random: &mut Random, number: u64) {
    let (at, length, few, mut written) = (bytes.as_ptr(), bytes.len(), random.edge(number) as u32, 9);
    let mut range = || sys::Range { offset: random.edge(number) % 4096, length: random.edge(number) };
    let module = sys::PdbModule { symbols: range(), lines: range(), ..sys::PdbModule::default() };
    let procedure = sys::PdbSymbol { range: range(), rva: few / 2, ..sys::PdbSymbol::default() };
    let (contributions, starts) = (range(), [few.into(), 0, u64::MAX]);
    let (mut ids, mut frames, mut ranges) =
        ([7; 3], [sys::PdbInlined::default(); 3], [sys::PdbModuleRange::default(); 3]);
    // SAFETY: as in `pdb_of_lies`.
    unsafe {
        let result = sys::pe_c_pdb_ids(at, length, ids.as_mut_ptr(), 3, &mut written);
        assert!(result == sys::DONE || ids == [7; 3]);
        let room = frames.as_mut_ptr();
        let result = sys::pe_c_find_pdb_inlined(
            at,
            length,
            &module,
            &procedure,
            few,
            at,
            length,
            starts.as_ptr(),
            3,
            room,
            3,
            &mut written,
        );
        assert!(result == sys::DONE || frames == [sys::PdbInlined::default(); 3]);
        let (headers, size, room) = (sections.as_ptr(), sections.len(), ranges.as_mut_ptr());
        let result = sys::pe_c_pdb_module_ranges(at, length, &contributions, headers, size, room, 3, &mut written);
        assert!(result == sys::DONE || ranges == [sys::PdbModuleRange::default(); 3]);
    }
}

/// Memory in pieces that are near one another, or lie: an address is that of the first piece that has it, also in runs of them.
fn memory_of_lies(bytes: &[u8], random: &mut Random, number: u64) {
    let any = random.below(4) == 0;
    let pieces: [sys::MemoryPiece; 4] = std::array::from_fn(|_| match any {
        true => {
            sys::MemoryPiece { start: random.edge(number), offset: random.edge(number), length: random.edge(number) }
        }
        false => sys::MemoryPiece { start: random.edge(16), offset: random.next() % 16, length: random.next() % 9 },
    });
    let (mut entries, mut runs, mut count) = ([sys::RangeEntry::default(); 16], [sys::MemoryPiece::default(); 9], 0);
    let rooms = (random.below(17), random.below(10));
    // SAFETY: the pointers and lengths are those of slices, and the number is lent for the call.
    let made = unsafe {
        let (entry, run) = (entries.as_mut_ptr(), runs.as_mut_ptr());
        sys::pe_c_memory_runs(pieces.as_ptr(), 4, entry, rooms.0, run, rooms.1, &mut count)
    };
    assert!(runs[if made == sys::DONE { 8 } else { 0 }..].iter().all(|it| *it == sys::MemoryPiece::default()));
    let place = |list: &[sys::MemoryPiece], address: u64| {
        let piece = list.iter().find(|it| it.start <= address && address - it.start < it.length)?;
        Some(piece.offset + (address - piece.start))
    };
    let asked: [sys::Range; 4] =
        std::array::from_fn(|_| sys::Range { offset: random.edge(16), length: random.edge(16) });
    for it in asked.iter().filter(|_| made == sys::DONE) {
        assert_eq!(place(&runs[..count as usize], it.offset), place(&pieces, it.offset), "{pieces:?}");
    }
    let (mut found, mut written) = ([sys::Range::default(); 4], 0);
    // SAFETY: as above.
    let number = unsafe {
        let (start, length) = (bytes.as_ptr(), bytes.len());
        sys::pe_c_memory_ranges(
            start,
            length,
            runs.as_ptr(),
            if made == sys::DONE { count as usize } else { 0 },
            asked.as_ptr(),
            4,
            found.as_mut_ptr(),
            4,
            &mut written,
        )
    };
    for (it, asked) in found.iter().zip(&asked).filter(|_| made == sys::DONE && number == sys::DONE) {
        let at = place(&pieces, asked.offset).filter(|_| asked.length > 0);
        assert!(it.length <= asked.length && (at.is_none() || at == Some(it.offset)), "{pieces:?}");
        assert!(it.offset + it.length <= bytes.len() as u64);
    }
}

/// Writes the text of a result, whatever its number is, into less room than it takes or more: as much of it as has room, and
/// a zero.
fn show(number: u32, room: usize) {
    let mut text = [0xFF; 160];
    let room = room % text.len();
    // SAFETY: the array has as many bytes as are lent for the call.
    let length = unsafe { sys::pe_c_text(number, text.as_mut_ptr(), room) };
    let written = length.min(room.saturating_sub(1));
    assert!((1..128).contains(&length) && text[..written].iter().all(|it| (1..0x80).contains(it)), "{number}");
    assert!((room == 0 || text[written] == 0) && text[room..].iter().all(|it| *it == 0xFF), "{number}");
}

/// Any number of sections that a walk keeps: each is legal.
fn any_kept(random: &mut Random) -> sys::KeptSections {
    sys::KeptSections { first: random.edge(4) as u32, second: random.edge(4) as u32 }
}

/// Steps a walk while it returns items, but not forever, and returns these. The sections that it keeps make no difference; where its
/// steps have a call that says why they return an error, that does so exactly where they do, and by the same error. A second walk
/// keeps any numbers.
macro_rules! steps {
    ($view:expr, $random:expr, $most:expr,
     $name:ident($walk:ident { $place:ident: $start:expr } $(; $more:expr)?), $out:ident $(, $why:ident)?) => {{
        let (view, start, mut items): (&sys::View, _, _) = (&$view, $start, vec![]);
        let none = sys::KeptSections::default();
        let mut walk = sys::$walk { $place: start, kept: none };
        for _ in 0..$most {
            let mut alone = sys::$walk { kept: none, ..walk };
            let (mut out, mut same) = (sys::$out::default(), sys::$out::default());
            $(
                let mut failure = sys::Failure::default();
                // SAFETY: the view is of slices, and each record is lent for its call.
                let said = unsafe { sys::$why(view, &walk.$place, &mut failure) };
            )?
            // SAFETY: the view is of slices, and each record is lent for its call.
            let answer = unsafe { sys::$name(view, $($more,)? &mut walk, &mut out) };
            // SAFETY: as above.
            let other = unsafe { sys::$name(view, $($more,)? &mut alone, &mut same) };
            assert_eq!((answer, out, walk.$place), (other, same, alone.$place));
            $(
                let is_refused = answer != sys::DONE && answer != sys::NOTHING;
                let expected = if is_refused { (sys::DONE, answer) } else { (sys::NOTHING, 0) };
                assert_eq!((said, failure.result), expected, "{}", stringify!($why));
            )?
            if answer != sys::DONE {
                break;
            }
            items.push(out);
        }
        let mut walk = sys::$walk { $place: start, kept: any_kept($random) };
        for _ in 0..$most {
            let mut out = sys::$out::default();
            // SAFETY: as above.
            if unsafe { sys::$name(view, $($more,)? &mut walk, &mut out) } != sys::DONE {
                break;
            }
            if $random.below(4) == 0 {
                walk.kept = any_kept($random);
            }
        }
        items
    }};
}

/// Steps through the walks of an image that keep sections, without an index of these.
fn read_by_steps(bytes: &[u8], mode: Mode, layout: Layout, random: &mut Random, seen: &mut Seen) {
    let Ok(image) = Image::parse_as(bytes, mode, layout) else {
        return;
    };
    let mut sections = image.sections().to_vec();
    if random.below(2) == 0 {
        // Walks over few sections keep none.
        sections.resize(sections.len() + 32, sys::Section::default());
    }
    let view = sys::View::of(bytes, image.info(), &sections, &[]);
    macro_rules! started {
        ($name:ident, $out:ident) => {{
            let mut out = sys::$out::default();
            // SAFETY: the view is of slices, and the record is lent for the call.
            unsafe { sys::$name(&view, &mut out) };
            out
        }};
    }
    let tables = started!(pe_c_export_tables, Exports);
    let mut count = steps!(view, random, 4 * MOST, pe_c_next_export(ExportWalk { exports: tables }), Export).len();
    let mut libraries = started!(pe_c_import_libraries, Libraries);
    // without a directory no walk was started: one at 0 would read the headers
    libraries.is_over |= u32::from(libraries.next == 0);
    for library in steps!(
        view,
        random,
        MOST,
        pe_c_next_library(LibraryWalk { libraries: libraries }),
        Library,
        pe_c_library_failure
    ) {
        let walk = library.imports;
        count +=
            steps!(view, random, MOST, pe_c_next_import(ImportWalk { imports: walk }), Import, pe_c_import_failure)
                .len();
    }
    let delayed = started!(pe_c_delay_imports, Range);
    for dll in steps!(
        view,
        random,
        MOST,
        pe_c_next_delay_import(DelayImportWalk { entries: delayed }),
        DelayImport,
        pe_c_delay_import_failure
    ) {
        let walk = dll.functions;
        count += steps!(
            view,
            random,
            MOST,
            pe_c_next_delayed_function(DelayedFunctionWalk { functions: walk }),
            DelayedFunction,
            pe_c_delayed_function_failure
        )
        .len();
    }
    let leaves = started!(pe_c_resource_leaves, ResourceWalk);
    count += steps!(
        view,
        random,
        MOST,
        pe_c_next_resource_leaf(LeafWalk { leaves: leaves }),
        ResourceLeaf,
        pe_c_resource_leaf_failure
    )
    .len();
    let table = started!(pe_c_function_table, Range);
    let mut last = sys::PlanWalk::default();
    for function in table.of(bytes).unwrap_or(&[]).chunks_exact(12).take(MOST) {
        let unwind = u32::from_le_bytes(function[8..].try_into().unwrap());
        let start = sys::Plan { unwind, saved: unwind, limit: 1, ..sys::Plan::default() };
        last.plan = start;
        let records = steps!(view, random, MOST, pe_c_next_record(PlanWalk { plan: start }; &table), Record);
        // the same from what the plan before kept
        for record in &records {
            let mut out = sys::Record::default();
            // SAFETY: as above.
            let answer = unsafe { sys::pe_c_next_record(&view, &table, &mut last, &mut out) };
            assert_eq!((answer, &out), (sys::DONE, record));
        }
        count += records.len();
    }
    seen.records += count as u64;
}

/// The range of what may be an element of a signature: the first that starts after a random place.
fn element_of(bytes: &[u8], random: &mut Random) -> sys::Range {
    let at = random.below(bytes.len());
    let start = at + bytes[at..].iter().take(64).position(|it| [0x30, 0x31, 0xA0].contains(it)).unwrap_or(0);
    let length = match bytes[start..] {
        [_, 0x82, high, low, ..] => 4 + u64::from(u16::from_be_bytes([high, low])),
        [_, 0x81, low, ..] => 3 + u64::from(low),
        [_, low, ..] => 2 + u64::from(low),
        _ => 1,
    };
    sys::Range { offset: start as u64, length }
}

/// Makes calls with wrong records: none may touch anything but the bytes and its arguments.
fn read_by_lies(bytes: &[u8], random: &mut Random, seen: &mut Seen) {
    let (start, length) = (bytes.as_ptr(), bytes.len());
    let number = length as u64;
    let range = sys::Range { offset: random.edge(number), length: random.edge(number) };
    let few = random.next() as u32;
    show(random.edge(600) as u32, few as usize);
    let directory = sys::Directory { virtual_address: random.edge(number) as u32, size: random.edge(64) as u32 };
    let image = sys::ImageInfo {
        sections_offset: random.edge(number),
        file_alignment: 1 << (few % 32),
        mode: few >> 5 & 3,
        directories: [directory; 16],
        machine: if few & 1 == 0 { made::X64 } else { made::ARM64 },
        width: if few & 2 == 0 { 32 } else { 64 },
        number_of_sections: (few >> 2) as u16 % 4,
        size_of_image: few >> 7 & 0xF_FFFF,
        number_of_directories: 16,
        ..sys::ImageInfo::default()
    };
    let mut any_section = || sys::Section {
        name: *b"/4\0\0\0\0\0\0",
        virtual_address: random.edge(number) as u32,
        virtual_size: random.edge(number) as u32,
        size_of_raw_data: random.edge(number) as u32,
        pointer_to_raw_data: random.edge(number) as u32,
        ..sys::Section::default()
    };
    let (section, other) = (any_section(), any_section());
    let sections = [if few & 64 == 0 { sys::Section::default() } else { other }, section];
    let mut room = sections;
    let index = random.edge(64);
    let lies = [few % 96, few, few.rotate_left(9)]
        .map(|rva| sys::RangeEntry { start: u64::from(rva), number: random.edge(sections.len() as u64 + 2) });
    let mut view = sys::View::of(bytes, &image, &sections, &lies[..few as usize % 4]);
    let (mut entries, mut made) = ([sys::RangeEntry::default(); 64], 0);
    // SAFETY: the pointers and lengths are those of slices, and each record is lent for its call; so are the view's.
    if unsafe { sys::pe_c_index(&view, entries.as_mut_ptr(), entries.len(), &mut made) } == 0 && few & 0x80 == 0 {
        (view.index, view.entries) = (entries.as_ptr(), made as usize);
    }
    macro_rules! returned {
        ($out:ident, $call:expr) => {{
            let mut out = sys::$out::default();
            let answer = $call(&mut out);
            assert!(answer == 0 || out == sys::$out::default());
            if answer != 0 {
                seen.refusals += 1;
                show(answer, few as usize);
            }
            out
        }};
    }
    macro_rules! call {
        ($name:ident($($more:expr),*), $out:ident) => {
            // SAFETY: as above.
            returned!($out, |out| unsafe { sys::$name(start, length, $($more,)* out) })
        };
    }
    macro_rules! call_of_image {
        ($name:ident($($more:expr),*), $out:ident) => {
            // SAFETY: as above.
            returned!($out, |out| unsafe { sys::$name(&view, $($more,)* out) })
        };
    }
    // steps a walk while it returns items, but not forever
    macro_rules! walk {
        ($name:ident($walk:expr), $out:ident) => {{
            let mut walk = $walk;
            for _ in 0..MOST {
                let mut out = sys::$out::default();
                // SAFETY: as above.
                if unsafe { sys::$name(start, length, &mut walk, &mut out) } != 0 {
                    break;
                }
            }
        }};
    }
    // makes a call, and the one that says why it returns an error: exactly where it does, and by the same error
    macro_rules! explained {
        ($call:expr, $why:expr) => {{
            let mut failure = sys::Failure::default();
            // SAFETY: as above.
            let (said, answer) = unsafe { ($why(&mut failure), $call) };
            let is_refused = answer != sys::DONE && answer != sys::NOTHING;
            let expected = if is_refused { (sys::DONE, answer) } else { (sys::NOTHING, 0) };
            assert_eq!((said, failure.result), expected);
            answer
        }};
    }
    // steps a walk whose steps have such a call
    macro_rules! explained_walk {
        ($name:ident, $why:ident($walk:expr $(; $more:expr)?), $out:ident) => {{
            let mut walk = $walk;
            for _ in 0..MOST {
                let (before, mut out) = (walk, sys::$out::default());
                if explained!(sys::$name(start, length, $($more,)? &mut walk, &mut out), |failure| sys::$why(
                    start, length, $($more,)? &before, failure
                )) != 0
                {
                    break;
                }
            }
        }};
    }
    // SAFETY: as above.
    unsafe {
        sys::pe_c_sections(start, length, &image, room.as_mut_ptr(), room.len());
        sys::pe_c_sections_failure(start, length, &image, &mut sys::Failure::default());
        let mut offset = 0;
        sys::pe_c_offset(&view, few, &mut offset);
        sys::pe_c_load_config_field(&view, few % 38, &mut offset);
        let mut fields = sys::Arm64Packed::default();
        sys::pe_c_arm64_packed_fields(&sys::Arm64Function { begin: few, unwind: few.rotate_left(7) }, &mut fields);
    }
    call_of_image!(pe_c_directory_failure(few % 16), Failure);
    // SAFETY: as above.
    unsafe {
        let (mut index, mut range) = (0, sys::Range::default());
        sys::pe_c_section_at(&view, few, &mut index);
        sys::pe_c_section_range(&view, &section, &mut range);
        assert!(range.offset <= number && range.length <= number - range.offset);
        let mut rest = sys::Range::default();
        sys::pe_c_range_at(&view, few % 0x6000, &mut rest);
        assert!(rest.offset <= number && rest.length <= number - rest.offset);
        let mut rva = 0;
        sys::pe_c_rva(&view, range.offset, &mut rva);
    }
    // fills an array while entries are written, but not forever
    macro_rules! list {
        ($($of:expr),+ => $name:ident($($more:expr),*; $walk:expr), $out:ident) => {{
            let mut walk = $walk;
            for room in (0..4).cycle().take(MOST) {
                let mut entries = [sys::$out::default(); 3];
                let mut written = 0;
                // SAFETY: as above.
                let answer = unsafe {
                    sys::$name($($of,)+ $($more,)* &mut walk, entries.as_mut_ptr(), room, &mut written)
                };
                assert!(written <= room as u64 && (answer == 0 || written == 0));
                assert!(entries[written as usize..].iter().all(|it| *it == sys::$out::default()));
                if room > 0 && written == 0 {
                    break;
                }
            }
        }};
    }
    list!(start, length => pe_c_list_functions(&range; index), Function);
    list!(start, length => pe_c_list_arm64_functions(&range; index), Arm64Function);
    list!(start, length => pe_c_list_codes(; sys::Walk { left: range, version: few as u8 % 4, frame_register: 5, spare: [1; 6] }), Code);
    list!(start, length => pe_c_list_arm64_codes(; sys::Arm64Walk { left: range, offset: index }), Arm64Code);
    let names = sys::Exports { names: range, ordinals: range, addresses: range, next: index, directory };
    let table = sys::AddressTable { addresses: range, directory, ordinal_base: few, ..sys::AddressTable::default() };
    let resource = sys::ResourceEntry { name_or_id: few, offset_to_data_or_directory: few.rotate_left(5) };
    let part = sys::Range { offset: index, length: u64::from(few % 64) };
    let leaves = sys::ResourceWalk { tree: range, types: part, ..sys::ResourceWalk::default() };
    list!(&view => pe_c_list_resource_leaves(; leaves.into()), ResourceLeaf);
    let leaves = sys::ResourceWalk { languages: part, name: resource, ..leaves };
    list!(&view => pe_c_list_resource_leaves(; leaves.into()), ResourceLeaf);
    list!(start, length => pe_c_list_version_blocks(; range), VersionBlock);
    list!(start, length => pe_c_list_relocation_blocks(; range), RelocationBlock);
    list!(start, length => pe_c_list_relocations(few; range), Relocation);
    list!(start, length => pe_c_list_pogo_entries(; range), PogoEntry);
    list!(start, length => pe_c_list_guard_entries(; sys::GuardEntries { entries: range, count: index, flag_size: few, spare: 1 }), GuardEntry);
    macro_rules! together {
        ($name:ident($($more:expr),*; $walk:expr), $out:ident) => {{
            let mut walk = $walk;
            for room in (0..4).cycle().take(MOST) {
                let mut runs = [sys::Run { start: index, end: 0, text: 9 }; 4];
                let mut entries = [sys::$out::default(); 3];
                let mut written = 0;
                // SAFETY: as above.
                let answer = unsafe {
                    let (runs, items) = (runs.as_mut_ptr(), entries.as_mut_ptr());
                    sys::$name(&view, $($more,)* &mut walk, runs, 4 - room, items, room, &mut written)
                };
                assert!(written <= room as u64 && (answer == 0 || written == 0));
                assert!(entries[written as usize..].iter().all(|it| *it == sys::$out::default()));
                if room > 0 && written == 0 {
                    break;
                }
            }
        }};
    }
    together!(pe_c_list_exports(; names.into()), Export);
    together!(pe_c_list_export_addresses(&table; index), Exported);
    together!(pe_c_list_long_section_names(&range; index), Range);
    together!(pe_c_list_delay_imports(; range.into()), DelayImport);
    let functions = sys::DelayedFunctions { left: range, attributes: few, spare: 1 };
    together!(pe_c_list_delayed_functions(; functions.into()), DelayedFunction);
    let late = sys::LibraryFunctions { libraries: range, functions, library_name: range, begun: index };
    together!(pe_c_list_all_delayed_functions(; late), LibraryFunction);
    let libraries = sys::Libraries { next: range.offset, ..sys::Libraries::default() };
    together!(pe_c_list_libraries(; libraries.into()), Library);
    let imports = sys::Imports { left: range, rva: index };
    together!(pe_c_list_imports(; imports.into()), Import);
    let all = sys::LibraryImports { libraries, imports, library_name: range, begun: index };
    together!(pe_c_list_all_imports(; all), LibraryImport);
    macro_rules! bound {
        ($name:ident, $out:ident) => {{
            let mut walk = range;
            for room in (0..4).cycle().take(MOST) {
                let mut runs = [sys::Run { start: index, end: 0, text: 9 }; 4];
                let mut entries = [sys::$out::default(); 3];
                let mut written = 0;
                let (count, items) = (4 - room, entries.as_mut_ptr());
                // SAFETY: as above.
                let answer = unsafe {
                    sys::$name(start, length, &part, &mut walk, runs.as_mut_ptr(), count, items, room, &mut written)
                };
                assert!(written <= room as u64 && (answer == 0 || written == 0));
                if room > 0 && written == 0 {
                    break;
                }
            }
        }};
    }
    bound!(pe_c_list_bound_imports, BoundImport);
    bound!(pe_c_list_bound_forwarders, BoundForwarder);
    let (mut codes, mut written, room) = ([sys::Code::default(); 3], 0, few as usize % 4);
    let some = bytes.get(index as usize..).map_or(bytes, |it| &it[..it.len().min(few as usize % 8)]);
    let form = sys::CodeForm { version: few as u8, frame_register: (few >> 8) as u8 };
    // SAFETY: as above.
    unsafe { sys::pe_c_all_codes(some.as_ptr(), some.len(), &form, codes.as_mut_ptr(), room, &mut written) };
    assert!(written <= room as u64 && codes[written as usize..].iter().all(|it| *it == sys::Code::default()));
    let entry = sys::DebugEntry {
        data_type: few % 24,
        size_of_data: random.edge(number) as u32,
        address_of_raw_data: random.edge(number) as u32,
        pointer_to_raw_data: random.edge(number) as u32,
        ..sys::DebugEntry::default()
    };
    call!(pe_c_debug_record(few, &entry), DebugRecords);
    call!(pe_c_debug_failure(few, &entry, few % 9), Failure);
    call!(pe_c_headers(few), Headers);
    let location = sys::DumpLocation { size: random.edge(number) as u32, rva: random.edge(number) as u32 };
    call!(pe_c_dump_entry_at(&range, index), DumpEntry);
    call!(pe_c_dump_stream(&range, few % 32), Range);
    call!(pe_c_dump_text(range.offset), Range);
    call!(pe_c_dump_thread_at(&range, index), DumpThread);
    call!(pe_c_dump_module_at(&range, index), DumpModule);
    call!(pe_c_dump_thread_name_at(&range, index), DumpThreadName);
    call!(pe_c_dump_unloaded_at(&range, index), DumpUnloaded);
    call!(pe_c_dump_thread_info_at(&range, index), DumpThreadInfo);
    call!(pe_c_dump_handle_at(&range, index), DumpHandle);
    call!(pe_c_dump_region_at(&range, index), DumpRegion);
    call!(pe_c_dump_memory_at(&range, index), DumpPiece);
    call!(pe_c_dump_record(&range, few % 26, index), DumpAnyRecord);
    call!(pe_c_dump_exception(&range), DumpException);
    call!(pe_c_dump_system(&range), DumpSystem);
    call!(pe_c_dump_process(&range), DumpProcess);
    call!(pe_c_read_dump_context(&location, few % 13), DumpAnyContext);
    call!(pe_c_dump_context(&location), Context);
    call!(pe_c_dump_context_arm64(&location), Arm64Context);
    call!(pe_c_dump_thread_at(&range, 0), DumpThread);
    let module = call!(pe_c_dump_module_at(&range, 0), DumpModule);
    // SAFETY: both records are lent for the call.
    assert!([sys::DONE, sys::NOTHING].contains(&unsafe { sys::pe_c_is_image_of(&image, &module) }));
    memory_of_lies(bytes, random, number);
    pdb_of_lies(bytes, random, number);
    let memory = call!(pe_c_dump_memory64(&range), Memory64Walk);
    walk!(pe_c_next_memory64(sys::Memory64Walk { next: index, ..memory }), DumpPiece);
    walk!(pe_c_next_debug_entry(range), DebugEntry);
    walk!(pe_c_next_pogo_entry(range), PogoEntry);
    explained_walk!(pe_c_next_certificate, pe_c_certificate_failure(range), Certificate);
    walk!(pe_c_next_scope(range), Scope);
    walk!(pe_c_next_arm64_scope(range), Arm64Scope);
    let codes = sys::Walk { left: range, version: few as u8 % 4, frame_register: 5, spare: [1; 6] };
    explained_walk!(pe_c_next_code, pe_c_code_failure(codes), Code);
    let codes = sys::Arm64Walk { left: range, offset: index };
    explained_walk!(pe_c_next_arm64_code, pe_c_arm64_code_failure(codes), Arm64Code);
    call!(pe_c_find_function(&range, few), Function);
    call!(pe_c_function_at(&range, index), Function);
    call!(pe_c_arm64_function_at(&range, index), Arm64Function);
    call!(pe_c_scope_table(&range), Range);
    call!(pe_c_codeview(&range), Key);
    call!(pe_c_arm64_codes(&range, index), Arm64Walk);
    call_of_image!(pe_c_debug_entries(), Range);
    call_of_image!(pe_c_symbol_key(), Key);
    call_of_image!(pe_c_debug_data(), DebugRecords);
    call_of_image!(pe_c_overlay(), Range);
    call_of_image!(pe_c_exception_table(few), Range);
    call_of_image!(pe_c_function_table(), Range);
    call_of_image!(pe_c_arm64_table(), Range);
    let (unwind, mut record) = (directory.virtual_address ^ (few & 1), sys::Record::default());
    explained!(sys::pe_c_unwind_record(&view, &range, unwind, &mut record), |failure| {
        sys::pe_c_unwind_record_failure(&view, &range, unwind, failure)
    });
    call_of_image!(pe_c_find_arm64_function(&range, few), Arm64Function);
    let function = sys::Arm64Function { begin: few, unwind: directory.virtual_address & !3 };
    explained!(sys::pe_c_arm64_unwind_record(&view, &function, &mut sys::Arm64Record::default()), |failure| {
        sys::pe_c_arm64_record_failure(&view, &function, failure)
    });
    call_of_image!(pe_c_fixed_version(), Version);
    call_of_image!(pe_c_version_text(few % 16), Range);
    call_of_image!(pe_c_version_blocks(), Range);
    walk!(pe_c_next_version_block(range), VersionBlock);
    call_of_image!(pe_c_manifest(), Range);
    call_of_image!(pe_c_digest_ranges(), Digest);
    call_of_image!(pe_c_checksum(), ChecksumField);
    let mut loaded = vec![7; (index as usize).min(2 * length)];
    let mut size = 0;
    // SAFETY: as above.
    unsafe {
        let (first, most) = (loaded.as_mut_ptr(), loaded.len());
        let number = sys::pe_c_map(&view, first, most, &mut size);
        assert!((number == 0) == (size <= most as u64));
        sys::pe_c_relocate(&view, u64::from(few), first, most);
    }
    let part = &bytes[..length.min(16)];
    let mut room = vec![7; (index as usize).min(2 * length)];
    let (mut needed, mut written, mut left) = (0, 0, 0);
    // SAFETY: as above.
    unsafe {
        let none = core::ptr::null_mut();
        sys::pe_c_attach(&view, part.as_ptr(), part.len(), few, none, 0, &mut needed);
        let (first, size) = (room.as_mut_ptr(), room.len());
        sys::pe_c_attach(&view, part.as_ptr(), part.len(), few, first, size, &mut written);
        assert_eq!(written, needed);
        let mut next = index % 64;
        sys::pe_c_write_sections(&view, few % 513, first, size, &mut next);
        sys::pe_c_write_certificates(&view, first, size, &mut left);
        sys::pe_c_write_image(&view, none, 0, &mut needed);
        sys::pe_c_write_image(&view, first, size, &mut left);
        sys::pe_c_write_whole(&view, none, 0, &mut needed);
        sys::pe_c_write_whole(&view, first, size, &mut left);
        (needed, left) = (0, 0);
        sys::pe_c_detach(&view, none, 0, &mut needed);
        sys::pe_c_detach(&view, first, size, &mut left);
        assert_eq!(left, needed);
    }
    let record = sys::Resource {
        resource_type: sys::ResourceName { name: range, id: few, has_name: few & 1 },
        name: sys::ResourceName { name: range, id: few, has_name: few >> 1 & 1 },
        content: range,
        language: few,
        code_page: few,
    };
    let text = sys::Range { offset: 60, length: u64::from(few % 8) };
    let small = sys::Resource {
        resource_type: sys::ResourceName { name: text, id: few % 32, has_name: few >> 5 & 1 },
        content: text,
        ..Default::default()
    };
    let records = [small, sys::Resource { language: few % 3, ..small }, record];
    let count = few as usize % 4;
    let (mut needed, mut written) = (0, 0);
    // SAFETY: as above.
    unsafe {
        let (first, size) = (room.as_mut_ptr(), room.len());
        let none = core::ptr::null_mut();
        sys::pe_c_edit(&view, records.as_ptr(), count, start, length, none, 0, &mut needed);
        sys::pe_c_edit(&view, records.as_ptr(), count, start, length, first, size, &mut written);
        assert_eq!(written, needed);
        let (first, size, key) = (room.as_mut_ptr(), room.len(), part.as_ptr());
        (needed, written) = (0, 0);
        sys::pe_c_write_block(key, part.len(), few & 1, start, length, key, part.len(), none, 0, &mut needed);
        sys::pe_c_write_block(key, part.len(), few & 1, start, length, key, part.len(), first, size, &mut written);
        assert_eq!(written, needed);
        (needed, written) = (0, 0);
        let small = sys::Range { offset: 0, length: u64::from(few % 5) };
        let strings =
            [sys::VersionString { name: small, text: small }, sys::VersionString { name: range, text: small }];
        let tables = [
            sys::VersionTable { count: few % 3, ..Default::default() },
            sys::VersionTable { first: few, count: 1, ..Default::default() },
        ];
        let (fixed, pairs) = (sys::Version::default(), [sys::VersionLanguage::default(); 2]);
        let (tables, strings, pairs, few) = (tables.as_ptr(), strings.as_ptr(), pairs.as_ptr(), count.min(2));
        for (first, size, written) in [(none, 0, &mut needed), (first, size, &mut written)] {
            sys::pe_c_write_version(&fixed, tables, few, strings, few, pairs, few, start, length, first, size, written);
        }
        assert_eq!(written, needed);
    }
    let tables = call_of_image!(pe_c_export_tables(), Exports);
    for walk in [tables, sys::Exports { names: range, next: index, ..tables }] {
        steps!(view, random, MOST, pe_c_next_export(ExportWalk { exports: walk }), Export);
    }
    call_of_image!(pe_c_export_directory(), ExportFields);
    let table = call_of_image!(pe_c_export_addresses(), AddressTable);
    call_of_image!(pe_c_export_at(&table, index), Exported);
    let lie = sys::AddressTable { addresses: range, directory, ordinal_base: few, ..table };
    call_of_image!(pe_c_export_at(&lie, index), Exported);
    let sources = call_of_image!(pe_c_name_tables(), NameSources);
    let exports = sys::Exports { names: range, ordinals: range, addresses: range, ..tables };
    let lie = sys::NameSources { functions: range, symbols: range, strings: range, exports, ..sources };
    let addresses = [few, random.next() as u32].map(|rva| sys::CodeAddress { rva, is_return: few & 1 });
    let (mut numbers, mut names) = (vec![7; 1 << 15], [sys::FunctionName::default(); 2]);
    for sources in [sources, lie] {
        let (numbers, count) = (numbers.as_mut_ptr(), numbers.len());
        // SAFETY: as above; the arrays are ones of their own.
        unsafe {
            sys::pe_c_function_names(&view, &sources, addresses.as_ptr(), 2, numbers, count, names.as_mut_ptr(), 2)
        };
    }
    let libraries = call_of_image!(pe_c_import_libraries(), Libraries);
    for walk in [libraries, sys::Libraries { next: range.offset, ..libraries }] {
        steps!(view, random, MOST, pe_c_next_library(LibraryWalk { libraries: walk }), Library, pe_c_library_failure);
    }
    let lie = sys::Imports { left: range, rva: index };
    steps!(view, random, MOST, pe_c_next_import(ImportWalk { imports: lie }), Import, pe_c_import_failure);
    let tls = call_of_image!(pe_c_tls(), TlsDirectory);
    call_of_image!(pe_c_tls_callbacks(&sys::TlsDirectory { address_of_callbacks: random.edge(number), ..tls }), Range);
    call_of_image!(pe_c_relocation_blocks(), Range);
    explained_walk!(pe_c_next_relocation_block, pe_c_relocation_block_failure(range), RelocationBlock);
    explained_walk!(pe_c_next_relocation, pe_c_relocation_failure(range; few), Relocation);
    let mut callbacks = range;
    for _ in 0..MOST {
        let mut va = 0;
        // SAFETY: as above.
        unsafe { sys::pe_c_next_tls_callback(&view, &mut callbacks, &mut va) };
    }
    call_of_image!(pe_c_load_config(), LoadConfig);
    let (mut text, mut written) = ([0; 64], 0);
    // SAFETY: as above; the room is an array of its own.
    unsafe {
        sys::pe_c_guid_text(start, length, few % 3, text.as_mut_ptr(), few as usize % 65, &mut written);
        sys::pe_c_utf16_text(start, length, &range, text.as_mut_ptr(), few as usize % 65, &mut written);
        let mut found = sys::TextInBytes::default();
        sys::pe_c_text_in(start, length, &range, &mut found);
    }
    let guarded = call_of_image!(pe_c_guard_table(few % 6), GuardEntries);
    walk!(pe_c_next_guard_entry(guarded), GuardEntry);
    walk!(
        pe_c_next_guard_entry(sys::GuardEntries { entries: range, count: number, flag_size: few, spare: 1 }),
        GuardEntry
    );
    let clr = call_of_image!(pe_c_clr_header(), ClrHeader);
    let metadata = call_of_image!(pe_c_clr_metadata(&sys::ClrHeader { metadata: directory, ..clr }), Metadata);
    walk!(pe_c_next_metadata_stream(metadata.streams), MetadataStream);
    let lie = sys::MetadataStreams { headers: range, count: few as u16, ..metadata.streams };
    walk!(pe_c_next_metadata_stream(lie), MetadataStream);
    walk!(pe_c_next_metadata_stream(sys::MetadataStreams { metadata: range, ..lie }), MetadataStream);
    let delayed = call_of_image!(pe_c_delay_imports(), Range);
    for walk in [delayed, range] {
        steps!(
            view,
            random,
            MOST,
            pe_c_next_delay_import(DelayImportWalk { entries: walk }),
            DelayImport,
            pe_c_delay_import_failure
        );
    }
    let lie = sys::DelayedFunctions { left: range, attributes: few, spare: 1 };
    steps!(
        view,
        random,
        MOST,
        pe_c_next_delayed_function(DelayedFunctionWalk { functions: lie }),
        DelayedFunction,
        pe_c_delayed_function_failure
    );
    let leaves = call_of_image!(pe_c_resource_leaves(), ResourceWalk);
    let entry = sys::ResourceEntry { name_or_id: few, offset_to_data_or_directory: few.rotate_left(5) };
    let part = sys::Range { offset: index, length: u64::from(few % 64) };
    for walk in [
        leaves,
        sys::ResourceWalk { tree: range, ..leaves },
        sys::ResourceWalk { types: part, ..leaves },
        sys::ResourceWalk { names: part, resource_type: entry, ..leaves },
        sys::ResourceWalk { languages: part, name: entry, ..leaves },
    ] {
        steps!(
            view,
            random,
            MOST,
            pe_c_next_resource_leaf(LeafWalk { leaves: walk }),
            ResourceLeaf,
            pe_c_resource_leaf_failure
        );
    }
    call_of_image!(pe_c_resource_root(), ResourceDirectory);
    for tree in [leaves.tree, range] {
        let directory = call!(pe_c_resource_directory_at(&tree, few % 64), ResourceDirectory);
        for lie in [directory.entries, range] {
            let mut walk = lie;
            call!(pe_c_next_resource_item(&tree, &mut walk), ResourceItem);
        }
    }
    call!(pe_c_fixed_version_in(&range), Version);
    call!(pe_c_version_text_in(&range, few % 16), Range);
    let coff = sys::CoffHeader {
        pointer_to_symbol_table: random.edge(number) as u32,
        number_of_symbol_table: random.edge(number / 18) as u32,
        number_of_sections: (few >> 3) as u16 % 4,
        size_of_optional_header: random.edge(number) as u16,
        ..sys::CoffHeader::default()
    };
    let te = sys::TeHeader {
        debug_dir: directory,
        rva_offset: few,
        number_of_sections: few as u8 % 4,
        ..sys::TeHeader::default()
    };
    call!(pe_c_coff(), CoffHeader);
    call!(pe_c_coff_symbols(&coff), SymbolWalk);
    let strings = call!(pe_c_coff_strings(&coff), Range);
    call!(pe_c_symbol(&range, index), SymbolEntry);
    walk!(pe_c_next_symbol(sys::SymbolWalk { table: range, next: index }), SymbolEntry);
    for (table, strings) in [(&range, &strings), (&strings, &range)] {
        let mut name = sys::Range::default();
        explained!(sys::pe_c_symbol_name(start, length, table, strings, index, &mut name), |failure| {
            sys::pe_c_symbol_name_failure(start, length, table, strings, index, failure)
        });
    }
    let mut named = sys::NamedSymbolWalk { symbols: sys::SymbolWalk { table: range, next: index }, strings };
    let mut runs = [sys::Run { start: index, end: 0, text: 9 }; 3];
    let (mut symbols, mut written) = ([sys::NamedSymbol::default(); 3], 0);
    // SAFETY: as above.
    let answer = unsafe {
        let (room, most) = (runs.as_mut_ptr(), symbols.len());
        sys::pe_c_list_symbols(
            bytes.as_ptr(),
            bytes.len(),
            &mut named,
            room,
            few as usize % 4,
            symbols.as_mut_ptr(),
            most,
            &mut written,
        )
    };
    assert!(written <= 3 && (answer == 0 || written == 0) && named.strings == strings);
    call!(pe_c_te(), TeHeader);
    call!(pe_c_te_debug_entries(&te), Range);
    let range = if few & 0x100 == 0 { element_of(bytes, random) } else { range };
    let mut failure = sys::SignatureFailure::default();
    let signed = call!(pe_c_signature(&range, &mut failure), SignedData);
    let indirect = call!(pe_c_indirect_data(&signed.content, &mut failure), SpcIndirectData);
    call!(pe_c_image_data(&indirect.value, &mut failure), SpcPeImageData);
    call!(pe_c_time_stamp(&signed.content, &mut failure), TstInfo);
    call!(pe_c_algorithm_identifier(&range, &mut failure), Algorithm);
    call!(pe_c_signer(&range, &mut failure), SignerInfo);
    call!(pe_c_attribute(&range, &mut failure), SignerAttribute);
    call!(pe_c_opus_info(&range, &mut failure), SpcOpusInfo);
    call!(pe_c_x509(&range, &mut failure), X509Certificate);
    call!(pe_c_extension(&range, &mut failure), X509Extension);
    call!(pe_c_name(&range, &mut failure), NameWalk);
    call!(pe_c_time(&range, &mut failure), UtcTime);
    let (mut elements, mut name) = (range, sys::NameWalk { left: range, rdn_end: random.edge(number) });
    let (mut attributes, id) = (range, random.edge(number) as u32 % 112);
    for _ in 0..MOST {
        let (mut element, mut attribute) = (sys::DerElement::default(), sys::NameAttribute::default());
        let (mut usage, mut found) = (0, sys::SignerAttribute::default());
        // SAFETY: as above.
        unsafe {
            sys::pe_c_next_element(start, length, &mut elements, &mut failure, &mut element);
            sys::pe_c_key_usage(start, length, &elements, &mut failure, &mut usage);
            sys::pe_c_find_attribute(start, length, &mut attributes, id, &mut failure, &mut found);
            sys::pe_c_next_name_attribute(start, length, &mut name, &mut failure, &mut attribute);
        }
    }
    call!(pe_c_image_failure(few), Failure);
    call!(pe_c_te_failure(), Failure);
    let (mut entries, mut headers) = (range, sections);
    for _ in 0..MOST {
        let mut entry = sys::DebugEntry::default();
        // SAFETY: as above.
        unsafe {
            sys::pe_c_next_te_debug_entry(start, length, &te, &mut entries, &mut entry);
            sys::pe_c_te_sections(start, length, &te, headers.as_mut_ptr(), headers.len());
        }
    }
    call!(pe_c_rich_header(), RichHeader);
    call_of_image!(pe_c_string_table(), Range);
    call!(pe_c_long_section_name(&range, &section), Range);
    let table = call_of_image!(pe_c_bound_imports(), Range);
    for table in [table, range] {
        explained_walk!(pe_c_next_bound_import, pe_c_bound_import_failure(range; &table), BoundImport);
    }
    let (mut entries, mut forwarders) = (range, range);
    for _ in 0..MOST {
        let mut entry = sys::RichEntry::default();
        let mut forwarder = sys::BoundForwarder::default();
        // SAFETY: as above.
        unsafe {
            sys::pe_c_next_rich_entry(start, length, few, &mut entries, &mut entry);
            sys::pe_c_next_bound_forwarder(start, length, &range, &mut forwarders, &mut forwarder);
        }
    }
    let saved = if few & 8 == 0 { directory.virtual_address } else { few };
    let plan = sys::Plan {
        unwind: directory.virtual_address,
        saved,
        steps: index,
        limit: range.length,
        ..sys::Plan::default()
    };
    let started = sys::Plan { unwind: few, saved: few, limit: 1, ..sys::Plan::default() };
    for walk in [plan, started] {
        steps!(view, random, MOST, pe_c_next_record(PlanWalk { plan: walk }; &range), Record);
    }
    let mut frame = sys::Frame {
        registers: sys::Registers { general: [random.edge(number); 16], xmm: [index; 32], rip: few.into() },
        function: sys::Function { begin: few % 64, end: few, unwind: directory.virtual_address },
        rva: few % 96,
        ..sys::Frame::default()
    };
    let table = call_of_image!(pe_c_function_table(), Range);
    let stack = if few & 16 == 0 { frame.registers.general[4] & !7 } else { random.edge(number) };
    let piece = sys::MemoryPiece { start: stack, offset: 0, length: length as u64 };
    let lie = sys::MemoryPiece { offset: range.offset, length: range.length, ..piece };
    for (table, pieces) in [(table, [piece; 2]), (range, [piece; 2]), (table, [piece, lie])] {
        // SAFETY: as above. The bytes of the image stand for the code and for the stack.
        unsafe {
            let (list, many) = (pieces.as_ptr(), pieces.len());
            frame.leaf = 0;
            let step = sys::pe_c_step(&view, &table, start, length, start, length, list, many, &mut frame);
            frame.leaf = few;
            let leaf = sys::pe_c_step(&view, &table, start, length, start, length, list, many, &mut frame);
            seen.refusals += u64::from(step != 0) + u64::from(leaf != 0);
        }
        let modules = [sys::Module { image: view, table, base: image.base }; 2];
        let registers = sys::Registers { rip: image.base.wrapping_add(u64::from(few % 96)), ..frame.registers };
        let mut walk = sys::StackWalk {
            registers,
            remaining: u64::from(few % 32),
            way: few % 8,
            is_searched: few & 1,
            is_guess: few & 2,
            ..Default::default()
        };
        let (mut frames, mut filled) = ([sys::StackWalk::default(); 3], 0);
        for _ in 0..MOST {
            // SAFETY: as above. The bytes of the image stand for memory.
            unsafe {
                let (list, many) = (pieces.as_ptr(), pieces.len());
                sys::pe_c_next_frame(modules.as_ptr(), 2, start, length, list, many, &mut walk);
                let room = frames.as_mut_ptr();
                sys::pe_c_next_frames(modules.as_ptr(), 2, start, length, list, many, &mut walk, room, 3, &mut filled);
            }
            assert!(filled <= 3);
        }
    }
    let mut frame = sys::Arm64Frame {
        registers: sys::Arm64Registers {
            general: [random.edge(number); 31],
            floats: [index; 8],
            sp: index,
            pc: few.into(),
        },
        function: sys::Arm64Function { begin: few % 64, unwind: directory.virtual_address },
        rva: few % 96,
        ..sys::Arm64Frame::default()
    };
    let table = call_of_image!(pe_c_arm64_table(), Range);
    for (table, pieces) in [(table, [piece; 2]), (range, [piece; 2]), (table, [piece, lie])] {
        // SAFETY: as above.
        unsafe {
            let (list, many) = (pieces.as_ptr(), pieces.len());
            frame.leaf = 0;
            let step = sys::pe_c_step_arm64(&view, start, length, list, many, &mut frame);
            frame.leaf = few;
            let leaf = sys::pe_c_step_arm64(&view, start, length, list, many, &mut frame);
            seen.refusals += u64::from(step != 0) + u64::from(leaf != 0);
        }
        let modules = [sys::Module { image: view, table, base: image.base }; 2];
        let registers = sys::Arm64Registers { pc: image.base.wrapping_add(u64::from(few % 96)), ..frame.registers };
        let mut walk = sys::Arm64StackWalk {
            registers,
            remaining: u64::from(few % 32),
            way: few % 8,
            is_searched: few & 1,
            is_guess: few & 2,
            ..Default::default()
        };
        let (mut frames, mut filled) = ([sys::Arm64StackWalk::default(); 3], 0);
        for _ in 0..MOST {
            // SAFETY: as above. The bytes of the image stand for memory.
            unsafe {
                let (list, many) = (pieces.as_ptr(), pieces.len());
                sys::pe_c_next_arm64_frame(modules.as_ptr(), 2, start, length, list, many, &mut walk);
                let room = frames.as_mut_ptr();
                sys::pe_c_next_arm64_frames(
                    modules.as_ptr(),
                    2,
                    start,
                    length,
                    list,
                    many,
                    &mut walk,
                    room,
                    3,
                    &mut filled,
                );
            }
            assert!(filled <= 3);
        }
    }
}

/// What the tests make, images and others.
fn made_files() -> Vec<Vec<u8>> {
    let calls = [made::with_calls(), made::with_arm64_calls(), made::editable(), made::with_names_in_one_text()];
    let others = [made::with_signature(), made::object(), made::te_image(), made::pdb(), made::pdb_inlined()];
    let dumps = [made::X64, made::ARM64].map(made::full_dump);
    made::all().into_iter().map(|(_, bytes)| bytes).chain(calls).chain(others).chain(dumps).collect()
}

/// Says which input a signal ends.
extern "C" fn fail(number: i32) {
    eprintln!("fuzz: signal {number} at input {}", NUMBER.load(Relaxed));
    // SAFETY: it ends the process.
    unsafe { _exit(128 + number) };
}

/// Has a failed assertion, a fault, a failed test of a number and an endless call say which input it was.
fn say_failures() {
    let says = std::panic::take_hook();
    std::panic::set_hook(Box::new(move |why| {
        says(why);
        std::process::abort();
    }));
    for number in [4, 5, 6, 7, 8, 11, 14] {
        // SAFETY: the handler prints a number that is no pointer, and ends the process.
        unsafe { signal(number, fail) };
    }
}

/// Makes all calls on the input of a number.
fn try_input(input: &mut [u8], offsets: &[Range<usize>], mut random: Random, seen: &mut Seen) {
    let before = change(input, offsets, &mut random);
    let mode = if random.below(2) == 0 { Mode::Strict } else { Mode::Permissive };
    let layout = if random.below(4) == 0 { Layout::Mapped } else { Layout::File };
    let most = [1, 1, 2, 4, 8, 64][random.below(6)];
    seen.add(read_all(input, mode, layout, most));
    if random.below(4) == 0 {
        let mut others = Seen::up_to(most);
        read_others(input, &mut others);
        read_dump(input, &mut others);
        read_pdb(input, &mut others);
        seen.add(others);
        read_by_lies(input, &mut random, seen);
        read_by_steps(input, mode, layout, &mut random, seen);
    }
    for (at, byte) in before.into_iter().rev() {
        input[at] = byte;
    }
}

/// A file, and the offsets where it is changed.
type Damaged = (Vec<Range<usize>>, Vec<u8>);

/// Makes all calls on the inputs of these numbers, all of one file.
fn try_inputs(numbers: Range<u64>, seed: u64, files: &[Damaged], memory: &mut [u8], seen: &mut Seen) {
    let mut random = Random::of(!seed, numbers.start / INPUTS_OF_A_FILE);
    let (offsets, bytes) = &files[random.below(files.len())];
    let input = copy(memory, bytes, &mut random);
    // SAFETY: a call that takes a number alone.
    unsafe { alarm(SECONDS_OF_A_FILE) };
    for number in numbers {
        NUMBER.store(number, Relaxed);
        try_input(input, offsets, Random::of(seed, number), seen);
    }
}

/// The arguments: the seconds, the seed, the numbers of the first input and of the one after the last, and the files.
fn words() -> Option<(u64, u64, Range<u64>, Vec<String>)> {
    let mut words = std::env::args().skip(1).peekable();
    let seconds = words.next()?.parse().ok()?;
    let (mut seed, mut numbers) = (0x9E37_79B9_7F4A_7C15, 0..u64::MAX);
    while let Some(option) = words.next_if(|word| word.starts_with("--")) {
        let value = words.next()?.parse().ok()?;
        match option.as_str() {
            "--seed" => seed = value,
            "--first" => numbers.start = value / INPUTS_OF_A_FILE * INPUTS_OF_A_FILE,
            "--only" => numbers = value..value.checked_add(1)?,
            _ => return None,
        }
    }
    Some((seconds, seed, numbers, words.collect()))
}

fn main() {
    let Some((seconds, seed, numbers, names)) = words() else {
        eprintln!("usage: fuzz SECONDS [--seed N] [--first NUMBER | --only NUMBER] [FILE ..]");
        std::process::exit(2);
    };
    let read = names.iter().filter_map(|name| std::fs::read(name).ok());
    let mut files: Vec<Vec<u8>> = read.filter(|bytes| (64..=ROOM).contains(&bytes.len())).collect();
    if files.is_empty() {
        files = made_files();
    }
    let files: Vec<_> = files.into_iter().map(|bytes| (hot_offsets(&bytes), bytes)).collect();
    say_failures();
    let (memory, mut seen, mut next) = (fenced(), Seen::up_to(0), numbers.start);
    let start = Instant::now();
    while next < numbers.end && (start.elapsed().as_secs() < seconds || next == numbers.start) {
        let end = numbers.end.min(next.saturating_add(INPUTS_OF_A_FILE));
        try_inputs(next..end, seed, &files, memory, &mut seen);
        next = end;
    }
    let inputs = next - numbers.start;
    let rate = inputs as f64 / start.elapsed().as_secs_f64();
    let Seen { images, records, codes, slices, refusals, .. } = seen;
    println!(
        "{} files, {inputs} inputs, {images} images, {records} unwind records, {codes} codes, {slices} slices, \
         {refusals} refusals, {rate:.0} inputs a second, seed {seed}, next {next}",
        files.len()
    );
}
