//! The stacks of a minidump: its memory and its modules by their addresses, the images of the modules, and the frames of each
//! thread.
//!
//! A process is read in two steps. [`DumpImages`] has the memory, the modules and their images, each of which comes from the dump's
//! memory or from the caller. [`Stacks`] walks the stacks over them, thread by thread, by the walk of [`Frames`].
//!
//! A dump may be hostile. Ranges overlap in any way, many modules may share one image, and many threads one deep stack. So
//! indexes are made in n log n, images are borrowed from the dump, and [`Stacks`] has a bound on what all walks cost together.

use crate::dump::{Dump, DumpContext, DumpRegisters};
use crate::frames::MemoryList;
use crate::image::{number_of, Error, Image, Layout, Mode};
use crate::shown;
use crate::stack_walk::{End, Frame, Frames, MachineRegisters, Module};
use crate::sys::{self, DumpModule, DumpThread, ImageInfo, MemoryPiece, Range, RangeEntry};
use alloc::collections::BTreeMap;
use alloc::vec;
use alloc::vec::Vec;
use core::fmt;

/// How many section headers all images of a dump may have together.
const MOST_SECTIONS: usize = 1 << 20;
/// How many modules and pieces of memory cost as much as a frame: each call that walks a stack tests all of them.
const RANGES_A_FRAME: usize = 1000;
/// How many section headers cost as much as a frame: a scan asks them for each word.
const SECTIONS_A_FRAME: usize = 100;

/// How far an index of a module is shifted in the offset of its piece, which has at most 2^32 - 1 bytes.
const BITS_OF_SIZE: u32 = 32;

/// The pieces in ascending order, apart: an address is that of the first of them that has it. Two that follow one another, by
/// their offsets too, are one.
fn runs_of(pieces: &[MemoryPiece]) -> Vec<MemoryPiece> {
    let mut entries = vec![RangeEntry::default(); 4 * pieces.len()];
    let (mut runs, mut written) = (vec![MemoryPiece::default(); 2 * pieces.len()], 0);
    // SAFETY: each pointer and its length are those of one slice; the number is lent for the call.
    let number = unsafe {
        sys::pe_c_memory_runs(
            pieces.as_ptr(),
            pieces.len(),
            entries.as_mut_ptr(),
            entries.len(),
            runs.as_mut_ptr(),
            runs.len(),
            &mut written,
        )
    };
    debug_assert_eq!(number, sys::DONE, "there is room, and all pieces end below offset 2^64");
    runs.truncate(if number == sys::DONE { written as usize } else { 0 });
    runs.shrink_to_fit();
    runs
}

/// The run that has an address.
fn run_at(runs: &[MemoryPiece], address: u64) -> Option<&MemoryPiece> {
    let after = runs.partition_point(|it| it.start <= address);
    runs.get(after.checked_sub(1)?).filter(|it| address - it.start < it.length)
}

/// Adds the stacks that the records of threads name, after the pieces of the lists: a dump without a list of memory has these. One is
/// left out where a piece before it starts there too and has no fewer bytes; and at offset 0, which full dumps say of all stacks: there
/// the file has its header.
fn add_stacks(dump: &Dump<'_>, listed: &mut Vec<MemoryPiece>, lost: &mut u64) {
    let mut longest = BTreeMap::<u64, u64>::new();
    for it in listed.iter() {
        let length = longest.entry(it.start).or_default();
        *length = it.length.max(*length);
    }
    for thread in dump.threads().ok().flatten().into_iter().flatten().filter(|it| it.stack.memory.rva != 0) {
        let (start, at) = (thread.stack.start_of_memory_range, thread.stack.memory);
        let there = (dump.bytes().len() as u64).saturating_sub(at.rva.into()).min(at.size.into());
        if longest.get(&start).is_none_or(|it| *it < there) {
            longest.insert(start, there);
            *lost = lost.saturating_add(u64::from(at.size) - there);
            listed.push(MemoryPiece { start, offset: at.rva.into(), length: there });
        }
    }
}

/// The addresses of modules, as pieces whose offsets say which module has them.
fn owned_by(modules: &[DumpModule]) -> Vec<MemoryPiece> {
    let piece_of = |(index, it): (usize, &DumpModule)| MemoryPiece {
        start: it.base_of_image,
        offset: (index as u64) << BITS_OF_SIZE,
        length: it.size_of_image.into(),
    };
    runs_of(&modules.iter().enumerate().map(piece_of).collect::<Vec<_>>())
}

/// The index of the module that has such a piece.
fn owner_of(piece: &MemoryPiece) -> usize {
    (piece.offset >> BITS_OF_SIZE) as usize
}

/// What is known of the image of a module that is not found: its size.
fn info_of(piece: &MemoryPiece) -> ImageInfo {
    ImageInfo { size_of_image: piece.length as u32, ..ImageInfo::default() }
}

/// The memory of a minidump: its pieces in ascending order, apart. The byte at an address is that of the first piece that has it,
/// those of the memory list before those of a full dump's, and the stacks of threads last.
#[derive(Clone)]
pub struct DumpMemory<'a> {
    bytes: &'a [u8],
    pieces: Vec<MemoryPiece>,
    lost: u64,
    refused: Vec<(u32, Error)>,
}

impl fmt::Debug for DumpMemory<'_> {
    fn fmt(&self, f: &mut fmt::Formatter<'_>) -> fmt::Result {
        let (pieces, mut shown) = (shown::Items(self.pieces.len()), f.debug_struct("DumpMemory"));
        shown.field("pieces", &pieces).field("lost", &self.lost).field("refused", &self.refused).finish_non_exhaustive()
    }
}

impl<'a> DumpMemory<'a> {
    /// The memory of a dump: that of both lists, and the stacks that the records of threads name. A list that is refused has no
    /// pieces: [`DumpMemory::refused`] says which.
    pub fn new(dump: &Dump<'a>) -> Self {
        let (mut listed, mut lost, mut refused) = (Vec::new(), 0u64, Vec::new());
        let mut add = |piece: sys::DumpPiece| {
            lost = lost.saturating_add(piece.lost);
            listed.push(piece.memory);
        };
        match dump.memory_list() {
            Ok(list) => list.into_iter().flatten().for_each(&mut add),
            Err(error) => refused.push((sys::MEMORY_LIST_STREAM, error)),
        }
        match dump.memory64() {
            Ok(list) => list.into_iter().flatten().flatten().for_each(&mut add),
            Err(error) => refused.push((sys::MEMORY64_LIST_STREAM, error)),
        }
        add_stacks(dump, &mut listed, &mut lost);
        DumpMemory { bytes: dump.bytes(), pieces: runs_of(&listed), lost, refused }
    }

    /// The pieces, of the bytes of the dump. Two that follow one another, in the file too, are one.
    pub fn pieces(&self) -> &[MemoryPiece] {
        &self.pieces
    }

    /// The memory as steps and walks take it.
    pub fn list(&self) -> MemoryList<'_> {
        // The library returns pieces that lie in the bytes.
        MemoryList::new(self.bytes, &self.pieces).unwrap_or_else(|_| MemoryList::empty())
    }

    /// How many bytes the dump says it has, which its file, which was truncated, does not have.
    pub fn lost(&self) -> u64 {
        self.lost
    }

    /// The lists that are refused: their kind of stream, and why.
    pub fn refused(&self) -> &[(u32, Error)] {
        &self.refused
    }

    /// The bytes from an address on that follow one another in the file too, at most so many. They end at the first gap, also
    /// one that the file alone has: empty where the address has none.
    pub fn bytes_from(&self, address: u64, most: u64) -> &'a [u8] {
        let Some(piece) = run_at(&self.pieces, address) else { return &[] };
        let inside = address - piece.start;
        let length = most.min(piece.length - inside);
        sys::Range { offset: piece.offset + inside, length }.of(self.bytes).unwrap_or_default()
    }

    /// The same for the addresses of modules, each with the size of its image.
    fn loaded(&self, modules: &[DumpModule]) -> Vec<&'a [u8]> {
        let asked_of = |it: &DumpModule| Range { offset: it.base_of_image, length: it.size_of_image.into() };
        let asked: Vec<_> = modules.iter().map(asked_of).collect();
        let (mut found, mut written) = (vec![Range::default(); asked.len()], 0);
        // SAFETY: each pointer and its length are those of one slice; the number is lent for the call.
        let number = unsafe {
            sys::pe_c_memory_ranges(
                self.bytes.as_ptr(),
                self.bytes.len(),
                self.pieces.as_ptr(),
                self.pieces.len(),
                asked.as_ptr(),
                asked.len(),
                found.as_mut_ptr(),
                found.len(),
                &mut written,
            )
        };
        debug_assert_eq!(number, sys::DONE, "there is room, and the pieces lie in the bytes");
        found.into_iter().map(|it| it.of(self.bytes).unwrap_or_default()).collect()
    }
}

/// Where the image of a module comes from.
#[derive(Clone, Copy, Debug, PartialEq, Eq)]
#[cfg_attr(feature = "serde", derive(serde::Serialize))]
#[non_exhaustive]
pub enum ImageSource {
    /// From the dump's memory, all of it.
    Memory,
    /// From the caller.
    Found,
    /// From the dump's memory, which ends before the image does.
    MemoryPart,
}

/// The image of a module.
#[derive(Clone, Debug)]
#[non_exhaustive]
pub struct DumpImage<'a> {
    /// The image: a file, or as loaded.
    pub image: Image<'a>,
    /// Where it comes from.
    pub source: ImageSource,
}

/// The modules of a minidump by their addresses, their images, and the memory.
///
/// An image is that of a module if its time stamp and its size are those of the module; the checksum is not asked. One that the
/// dump's memory has whole comes first, since hooks change code in memory; then one that the caller finds; then as much as the
/// memory has from the module's address up to the first gap.
#[derive(Clone)]
pub struct DumpImages<'a> {
    memory: DumpMemory<'a>,
    modules: Vec<DumpModule>,
    images: Vec<Option<DumpImage<'a>>>,
    owned: Vec<MemoryPiece>,
    /// What is known of the images that are not found, of the modules that no other one overlaps, in the order of `owned`.
    missing: Vec<ImageInfo>,
    is_limited: bool,
}

impl fmt::Debug for DumpImages<'_> {
    fn fmt(&self, f: &mut fmt::Formatter<'_>) -> fmt::Result {
        let (modules, images) = (self.modules.len(), self.images.iter().flatten().count());
        let (modules, images, mut shown) = (shown::Items(modules), shown::Items(images), f.debug_struct("DumpImages"));
        shown.field("memory", &self.memory).field("modules", &modules).field("images", &images).finish_non_exhaustive()
    }
}

/// What is known of images as they are found.
struct Search {
    /// How many more sections images may have.
    sections: usize,
    /// Whether an image that is the module's has more.
    is_limited: bool,
}

impl Search {
    /// The image of a module in these bytes, if it is the module's, and all images have not too many sections with it.
    fn image_in<'a>(&mut self, module: &DumpModule, bytes: &'a [u8], layout: Layout) -> Option<Image<'a>> {
        let mut info = ImageInfo::default();
        let way = number_of(Mode::Permissive, layout);
        // SAFETY: the pointer and the length are those of one slice; the record is lent for the call.
        let number = unsafe { sys::pe_c_image(bytes.as_ptr(), bytes.len(), way, &mut info) };
        // SAFETY: both records are lent for the call.
        let is_its_own = number == sys::DONE && unsafe { sys::pe_c_is_image_of(&info, module) } == sys::DONE;
        if !is_its_own {
            return None;
        }
        let sections = self.sections.checked_sub(info.number_of_sections.into());
        self.is_limited |= sections.is_none();
        let left = sections?;
        let image = Image::parse_as(bytes, Mode::Permissive, layout).ok()?;
        self.sections = left;
        Some(image)
    }

    /// The image of a module of which the memory has these bytes.
    fn image_of<'a>(
        &mut self,
        module: &DumpModule,
        loaded: &'a [u8],
        look_up: &mut impl FnMut(&DumpModule) -> Option<&'a [u8]>,
    ) -> Option<DumpImage<'a>> {
        let size = u64::from(module.size_of_image);
        let is_whole = size > 0 && loaded.len() as u64 == size;
        if is_whole {
            if let Some(image) = self.image_in(module, loaded, Layout::Mapped) {
                return Some(DumpImage { image, source: ImageSource::Memory });
            }
        }
        if let Some(image) = look_up(module).and_then(|file| self.image_in(module, file, Layout::File)) {
            return Some(DumpImage { image, source: ImageSource::Found });
        }
        let image = if is_whole { None } else { self.image_in(module, loaded, Layout::Mapped) }?;
        Some(DumpImage { image, source: ImageSource::MemoryPart })
    }
}

impl<'a> DumpImages<'a> {
    /// The images of a dump. The caller is asked for the file of each module whose image the memory has not whole, and may return
    /// any: one of another image is not taken. It is never handed a path to open: [`DumpModule::module_name_rva`] leads to a
    /// string that may say anything.
    ///
    /// # Errors
    ///
    /// Those of [`Dump::modules`].
    pub fn new(dump: &Dump<'a>, mut look_up: impl FnMut(&DumpModule) -> Option<&'a [u8]>) -> Result<Self, Error> {
        let memory = DumpMemory::new(dump);
        let modules: Vec<DumpModule> = dump.modules()?.into_iter().flatten().collect();
        let mut search = Search { sections: MOST_SECTIONS, is_limited: false };
        let loaded = memory.loaded(&modules);
        let image_of = |(module, loaded)| search.image_of(module, loaded, &mut look_up);
        let images = modules.iter().zip(loaded).map(image_of).collect();
        let (owned, is_limited) = (owned_by(&modules), search.is_limited);
        let mut found = DumpImages { memory, modules, images, owned, missing: Vec::new(), is_limited };
        found.missing = found.whole().filter(|it| found.image_of(it).is_none()).map(info_of).collect();
        Ok(found)
    }

    /// The memory.
    pub fn memory(&self) -> &DumpMemory<'a> {
        &self.memory
    }

    /// The modules, in the order of the dump.
    pub fn modules(&self) -> &[DumpModule] {
        &self.modules
    }

    /// The image of the module with an index. `None` where none is found.
    pub fn image(&self, index: usize) -> Option<&DumpImage<'a>> {
        self.images.get(index)?.as_ref()
    }

    /// Whether images are left out: those of one dump have at most 2^20 sections together.
    pub fn is_limited(&self) -> bool {
        self.is_limited
    }

    /// The index of the module that has an address: the first that does.
    pub fn module_at(&self, address: u64) -> Option<usize> {
        run_at(&self.owned, address).map(owner_of)
    }

    /// The modules that no other one overlaps which stands before it in the list, by their addresses.
    fn whole(&self) -> impl Iterator<Item = &MemoryPiece> {
        self.owned.iter().filter(|it| {
            let module = &self.modules[owner_of(it)];
            it.start == module.base_of_image && it.length == u64::from(module.size_of_image)
        })
    }

    /// The image of a module.
    fn image_of(&self, piece: &MemoryPiece) -> Option<&Image<'a>> {
        self.images[owner_of(piece)].as_ref().map(|it| &it.image)
    }

    /// The modules as walks take them: in ascending order, apart. One that another one overlaps which stands before it in the list is
    /// left out. Of a function table that is damaged the whole entries serve.
    fn loaded(&self) -> Vec<Module<'_>> {
        let mut missing = self.missing.iter();
        let module_of = |it: &MemoryPiece| match self.image_of(it) {
            Some(image) => {
                Some(Module::new(image, it.start).unwrap_or_else(|_| Module::with_whole_functions(image, it.start)))
            }
            None => missing.next().map(|info| Module::without_image(info, it.start)),
        };
        self.whole().filter_map(module_of).collect()
    }
}

/// The frames of a thread, from the top frame outwards.
#[derive(Clone)]
#[cfg_attr(feature = "serde", derive(serde::Serialize))]
#[non_exhaustive]
pub struct DumpStack {
    /// The frames.
    pub frames: Vec<Frame<DumpRegisters>>,
    /// Why the walk is over. [`End::Bound`] also where all walks together have cost as much as they may.
    pub end: End,
}

impl fmt::Debug for DumpStack {
    fn fmt(&self, f: &mut fmt::Formatter<'_>) -> fmt::Result {
        let frames = shown::Items(self.frames.len());
        f.debug_struct("DumpStack").field("frames", &frames).field("end", &self.end).finish()
    }
}

/// The stacks of the threads of a minidump.
///
/// ```
/// # #[path = "../tests/made/mod.rs"] mod made;
/// # let (bytes, file) = (made::dump(), made::with_functions());
/// use pe_c::{Dump, DumpImages, End, Stacks};
///
/// let dump = Dump::parse(&bytes)?;
/// let images = DumpImages::new(&dump, |_module| Some(file.as_slice()))?;
/// let mut stacks = Stacks::new(&images);
/// for thread in dump.threads()?.into_iter().flatten() {
///     let stack = stacks.walk(&dump, &thread, 1000)?;
///     assert_eq!((stack.frames.len(), stack.end), (1, End::Bottom));
/// }
/// # Ok::<(), pe_c::Error>(())
/// ```
#[derive(Clone)]
pub struct Stacks<'i> {
    memory: MemoryList<'i>,
    modules: Vec<Module<'i>>,
    left: usize,
    cost_of_test: usize,
    cost_of_frame: usize,
}

impl fmt::Debug for Stacks<'_> {
    fn fmt(&self, f: &mut fmt::Formatter<'_>) -> fmt::Result {
        let modules = shown::Items(self.modules.len());
        let mut shown = f.debug_struct("Stacks");
        shown.field("memory", &self.memory).field("modules", &modules).field("left", &self.left).finish_non_exhaustive()
    }
}

impl<'i> Stacks<'i> {
    /// How many frames all walks return at most together.
    pub const MOST_FRAMES: usize = 1_000_000;

    /// The stacks over these images, with at most [`Stacks::MOST_FRAMES`] frames in all.
    pub fn new(images: &'i DumpImages<'_>) -> Self {
        Stacks::with_bound(images, Self::MOST_FRAMES)
    }

    /// The same with another bound. It counts a frame for each that is returned; and what else costs as much: a frame for each
    /// thousand modules and pieces of memory where a walk tests them, once for 1, 2, 4 and so on of its frames; and one for each
    /// hundred sections of an image in each frame.
    pub fn with_bound(images: &'i DumpImages<'_>, most: usize) -> Self {
        let (memory, modules) = (images.memory.list(), images.loaded());
        let sections = images.images.iter().flatten().map(|it| it.image.sections().len()).max().unwrap_or(0);
        Stacks {
            cost_of_test: (modules.len() + images.memory.pieces.len()) / RANGES_A_FRAME,
            cost_of_frame: 1 + sections / SECTIONS_A_FRAME,
            memory,
            modules,
            left: most,
        }
    }

    /// The frames of a thread, at most so many, from the registers that [`Dump::thread_context`] says.
    ///
    /// # Errors
    ///
    /// Those of [`Dump::thread_context`].
    pub fn walk(&mut self, dump: &Dump<'_>, thread: &DumpThread, most: usize) -> Result<DumpStack, Error> {
        Ok(self.walk_from(&dump.thread_context(thread)?, most))
    }

    /// The frames from these registers on, at most so many.
    pub fn walk_from(&mut self, context: &DumpContext, most: usize) -> DumpStack {
        let cost = self.cost_of_frame;
        match context.registers() {
            DumpRegisters::X64(registers) => self.frames(registers, most, cost, DumpRegisters::X64),
            // On ARM64 a walk looks for the module of each frame in turn.
            DumpRegisters::Arm64(registers) => {
                self.frames(registers, most, cost + self.modules.len() / RANGES_A_FRAME, DumpRegisters::Arm64)
            }
        }
    }

    fn frames<R: MachineRegisters>(
        &mut self,
        top: R,
        most: usize,
        cost_of_frame: usize,
        of: fn(R) -> DumpRegisters,
    ) -> DumpStack {
        self.left = self.left.saturating_sub(self.cost_of_test);
        let most = most.min(self.left / cost_of_frame);
        if most == 0 {
            // A walk of no frames would test all modules and pieces too.
            return DumpStack { frames: Vec::new(), end: End::Bound };
        }
        let mut walk = Frames::new(top, most, &self.modules, self.memory);
        let frames: Vec<_> = walk
            .by_ref()
            .map(|Frame { registers, way, has_called, is_guess }| Frame {
                registers: of(registers),
                way,
                has_called,
                is_guess,
            })
            .collect();
        let tests = frames.len().checked_ilog2().map_or(0, |it| it as usize + 1) + frames.len() / 1024;
        self.left = self.left.saturating_sub(frames.len() * cost_of_frame + tests * self.cost_of_test);
        DumpStack { frames, end: walk.end().unwrap_or(End::Bound) }
    }
}

#[cfg(test)]
mod tests {
    use super::*;
    extern crate std;

    /// The owner of each address below 12, by each range in turn.
    fn one_by_one(ranges: &[(u64, u64)]) -> Vec<Option<usize>> {
        let has =
            |address: u64| ranges.iter().position(|&(start, length)| address >= start && address - start < length);
        (0..12).map(has).collect()
    }

    #[test]
    fn first_module_of_the_list_has_an_address() {
        let mut number = 1u64;
        let mut random = |below: u64| {
            number = number.wrapping_mul(6_364_136_223_846_793_005).wrapping_add(1_442_695_040_888_963_407);
            (number >> 33) % below
        };
        let module = |start, length: u64| DumpModule {
            base_of_image: start,
            size_of_image: length as u32,
            ..DumpModule::default()
        };
        for _ in 0..2000 {
            let ranges: Vec<_> = (0..random(7)).map(|_| (random(8), random(5))).collect();
            let modules: Vec<_> = ranges.iter().map(|&(start, length)| module(start, length)).collect();
            let owned = owned_by(&modules);
            let found: Vec<_> = (0..12).map(|it| run_at(&owned, it).map(owner_of)).collect();
            assert_eq!(found, one_by_one(&ranges), "{ranges:?}");
            assert!(owned.len() <= 2 * ranges.len(), "{ranges:?}");
            assert!(owned.windows(2).all(|it| it[0].start + it[0].length <= it[1].start), "{ranges:?}");
        }
        let last = owned_by(&[module(u64::MAX - 1, 8), module(u64::MAX, 9)]);
        let found = [u64::MAX - 2, u64::MAX - 1, u64::MAX].map(|it| run_at(&last, it).map(owner_of));
        assert_eq!(found, [None, Some(0), Some(0)]);
    }
}
