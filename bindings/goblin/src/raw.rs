//! The one place that calls the library: it has every `unsafe`, and makes the library's arguments of goblin's.
//!
//! A call takes a view: the bytes, the record that `pe_c_image` fills, and the section headers. Every value of every field of
//! these is legal, and the contract of a call says what it returns for each. So a function of goblin that takes a directory
//! alone is the call over a record with that directory.
//!
//! What no call returns is read in `plain`, and nowhere else: its head lists each read. `objects` has what an offset comes with, `names`
//! how lists of names are taken. `tools/try_goblin --check` refuses reads elsewhere, and one that its own list does not have.

mod names;
mod objects;
mod plain;

pub(crate) use names::*;
pub(crate) use objects::*;
pub(crate) use plain::*;

use crate::error;
use crate::pe::data_directories::DataDirectory;
use crate::pe::debug::ImageDebugDirectory;
use crate::pe::options::{Left, ParseMode, ParseOptions};
use crate::pe::section_table::SectionTable;
use core::mem::{align_of, offset_of, size_of, MaybeUninit};
use pe_c::sys::{self, ImageInfo, Range, Section};

/// A result of the library that is neither DONE nor NOTHING.
#[derive(Clone, Copy, Debug, PartialEq, Eq)]
pub(crate) struct Refusal(pub u32);

impl Refusal {
    pub const SHORT: Refusal = Refusal(pe_c::Error::SHORT.number());
    pub const BAD_MAGIC: Refusal = Refusal(pe_c::Error::BAD_MAGIC.number());
    pub const UNMAPPED: Refusal = Refusal(pe_c::Error::UNMAPPED.number());
    pub const DEBUG_BOUNDS: Refusal = Refusal(pe_c::Error::DEBUG_BOUNDS.number());
    pub const EXCEPTION_SIZE: Refusal = Refusal(pe_c::Error::EXCEPTION_SIZE.number());
    pub const EXCEPTION_OFFSET: Refusal = Refusal(pe_c::Error::EXCEPTION_OFFSET.number());
    pub const CERTIFICATE_TABLE: Refusal = Refusal(pe_c::Error::CERTIFICATE_TABLE.number());
    pub const CERTIFICATE_SIZE: Refusal = Refusal(pe_c::Error::CERTIFICATE_SIZE.number());
    pub const CERTIFICATE_REVISION: Refusal = Refusal(pe_c::Error::CERTIFICATE_REVISION.number());
    pub const CERTIFICATE_TYPE: Refusal = Refusal(pe_c::Error::CERTIFICATE_TYPE.number());
    pub const UNWIND_VERSION: Refusal = Refusal(pe_c::Error::UNWIND_VERSION.number());
    pub const UNWIND_CODE: Refusal = Refusal(pe_c::Error::UNWIND_CODE.number());
    pub const DEBUG_SIZE: Refusal = Refusal(pe_c::Error::DEBUG_SIZE.number());
    pub const POGO_SIZE: Refusal = Refusal(pe_c::Error::POGO_SIZE.number());
    pub const DEBUG_DATA: Refusal = Refusal(pe_c::Error::DEBUG_DATA.number());

    /// The library's text.
    pub fn text(self) -> String {
        let mut room = [0; 128];
        // SAFETY: the pointer and the length are those of one array, and the library requires nothing else.
        let length = unsafe { sys::pe_c_text(self.0, room.as_mut_ptr(), room.len()) };
        String::from_utf8_lossy(room.get(..length).unwrap_or(&room)).into_owned()
    }
}

impl From<Refusal> for error::Error {
    #[cold]
    fn from(it: Refusal) -> Self {
        error::Error::Malformed(it.text())
    }
}

/// What a call returned.
#[inline(always)]
fn returned<T>(number: u32, value: T) -> Result<Option<T>, Refusal> {
    match number {
        sys::DONE => Ok(Some(value)),
        sys::NOTHING => Ok(None),
        number => Err(Refusal(number)),
    }
}

/// What a call returned and wrote.
///
/// # Safety
///
/// The call that returned this number writes `out` where it is done.
#[inline(always)]
unsafe fn written_by<T>(number: u32, out: MaybeUninit<T>) -> Result<Option<T>, Refusal> {
    if number == sys::DONE {
        // SAFETY: the caller says so.
        return Ok(Some(unsafe { out.assume_init() }));
    }
    returned(number, ()).map(|_| None)
}

/// The bytes of a range that a call returned. They are all there, by the contract of that call.
#[inline]
pub(crate) fn slice(bytes: &[u8], range: Range) -> error::Result<&[u8]> {
    Ok(range.of(bytes).ok_or(Refusal::SHORT)?)
}

/// The text of a range that a call returned as a name, in the bytes that the call read.
#[inline]
pub(crate) fn text(bytes: &[u8], range: Range) -> error::Result<&str> {
    let name = slice(bytes, range)?;
    debug_assert!(core::str::from_utf8(name).is_ok(), "a name that a call returned is not UTF-8");
    // SAFETY: all who call this pass a name that a call returned, which is UTF-8 by the contract of that call: of a DLL by
    // pe_c_export_addresses, of exports, their forwarders, libraries, imports and sections by their lists, and of symbols by
    // pe_c_symbol_name. To test it again cost a seventh of `PE::parse`.
    Ok(unsafe { core::str::from_utf8_unchecked(name) })
}

/// The bytes at an offset that a caller names up to a zero or the end, and whether a zero follows them.
fn up_to_zero(bytes: &[u8], at: usize) -> error::Result<(&[u8], bool)> {
    let found = text_in(bytes, &rest(bytes, at)).ok().flatten().ok_or(scroll::Error::BadOffset(at))?;
    Ok((slice(bytes, found.text)?, found.is_terminated != 0))
}

/// The text at an offset that a caller names, up to a zero or the end.
pub(crate) fn text_up_to_zero(bytes: &[u8], at: usize) -> error::Result<&str> {
    let (text, _) = up_to_zero(bytes, at)?;
    core::str::from_utf8(text).map_err(|_| not_utf8(text))
}

/// The text at an offset that a caller names, up to a zero or the end: how many bytes it has, and the text where it is UTF-8. `None`
/// past the end.
pub(crate) fn text_and_length(bytes: &[u8], at: usize) -> Option<(usize, Option<&str>)> {
    let (text, _) = up_to_zero(bytes, at).ok()?;
    Some((text.len(), core::str::from_utf8(text).ok()))
}

/// The text at an offset that a caller names, up to a zero or the end, and whether a zero follows it; `None` past the end and where
/// it is not UTF-8. Its bytes are taken from how many are left.
pub(crate) fn text_within<'a>(bytes: &'a [u8], at: usize, names: &mut Left) -> error::Result<Option<(&'a str, bool)>> {
    let Ok((text, is_terminated)) = up_to_zero(bytes, at) else { return Ok(None) };
    names.take(text.len())?;
    Ok(core::str::from_utf8(text).ok().map(|it| (it, is_terminated)))
}

fn not_utf8(text: &[u8]) -> error::Error {
    scroll::Error::BadInput { size: text.len(), msg: "invalid utf8" }.into()
}

/// All of the bytes, as a walk.
pub(crate) fn whole(bytes: &[u8]) -> Range {
    Range { offset: 0, length: bytes.len() as u64 }
}

/// What is left of the bytes from an offset on, as a walk.
pub(crate) fn rest(bytes: &[u8], offset: usize) -> Range {
    Range { offset: offset as u64, length: bytes.len().saturating_sub(offset) as u64 }
}

/// The bytes that a walk leaves; none where it is over.
pub(crate) fn left(bytes: &[u8], walk: Option<Range>) -> &[u8] {
    walk.and_then(|it| it.of(bytes)).unwrap_or_default()
}

/// How many entries of one size are left, a truncated one among them, as a hint of an iterator.
pub(crate) fn items_left(bytes: &[u8], size: usize) -> (usize, Option<usize>) {
    let count = bytes.len().div_ceil(size);
    (count, Some(count))
}

/// The next item of a walk, which is over after its end and after an error.
pub(crate) fn step<W, T>(
    walk: &mut Option<W>,
    call: impl FnOnce(&mut W) -> Result<Option<T>, Refusal>,
) -> Option<error::Result<T>> {
    let mut moved = walk.take()?;
    let item = call(&mut moved).transpose()?;
    *walk = item.is_ok().then_some(moved);
    Some(item.map_err(error::Error::from))
}

/// Room for the items that a call lists. What no call has written is nothing.
pub(crate) type Room<T> = [MaybeUninit<T>];

/// A room, which takes no time to make.
#[inline(always)]
pub(crate) fn room<T, const COUNT: usize>() -> [MaybeUninit<T>; COUNT] {
    // SAFETY: items that may not be there need not be written.
    unsafe { MaybeUninit::uninit().assume_init() }
}

/// The first so many items of a room.
///
/// # Safety
///
/// A call has written them.
#[inline(always)]
unsafe fn written<T>(room: &Room<T>, count: usize) -> &[T] {
    debug_assert!(count <= room.len(), "a call has written past its room");
    // SAFETY: by its contract a call writes no more items than there is room for. Of each of them the caller says that it was written,
    // and a number that may not be there is laid out as the number.
    unsafe { &*(core::ptr::from_ref(room.get_unchecked(..count)) as *const [T]) }
}

/// A walk that takes several items a call: they are those of its steps, one after the other. It is over after its end and after
/// an error.
#[derive(Clone, Copy)]
pub(crate) struct Batch<W, T: Copy, const ROOM: usize> {
    walk: W,
    is_over: bool,
    /// Those before `end` are written.
    items: [MaybeUninit<T>; ROOM],
    /// Of the items those that are not returned yet: the index of the first, and the index after the last.
    next: usize,
    end: usize,
}

impl<W, T: Copy, const ROOM: usize> Batch<W, T, ROOM> {
    #[inline]
    pub fn new(walk: W) -> Self {
        Batch { walk, is_over: false, items: room(), next: 0, end: 0 }
    }

    /// The walk after the items that were taken, or `None` where it is over.
    pub fn walk(&self) -> Option<&W> {
        (!self.is_over).then_some(&self.walk)
    }

    /// How many items were taken and are not returned yet.
    pub fn taken(&self) -> usize {
        self.end - self.next
    }

    /// The next of the items that were taken.
    #[inline(always)]
    pub fn next(&mut self) -> Option<&T> {
        if self.next == self.end {
            return None;
        }
        let item = self.items.get(self.next)?;
        self.next += 1;
        // SAFETY: it is before `end`.
        Some(unsafe { item.assume_init_ref() })
    }

    /// All items that were taken and are not returned yet.
    #[inline(always)]
    pub fn rest(&mut self) -> &[T] {
        let (next, end) = (self.next, self.end);
        self.next = end;
        // SAFETY: those before `end` are written.
        unsafe { written(&self.items, end) }.get(next..).unwrap_or_default()
    }

    /// Takes more once all are returned, and returns them: `call` is a call that lists items in a room, and returns those, none at
    /// the end.
    #[inline(always)]
    pub fn fill<F>(&mut self, call: F) -> Result<&[T], Refusal>
    where
        F: for<'r> FnOnce(&mut W, &'r mut Room<T>) -> Result<&'r [T], Refusal>,
    {
        (self.next, self.end) = (0, 0);
        if self.is_over {
            return Ok(&[]);
        }
        self.is_over = true;
        let room = self.items.as_ptr();
        let found = call(&mut self.walk, &mut self.items)?;
        // What a call returns starts at the start of its room: nothing else counts as written.
        self.end = if core::ptr::eq(found.as_ptr(), room.cast()) { found.len() } else { 0 };
        self.is_over = found.is_empty();
        Ok(found)
    }
}

impl<W: core::fmt::Debug, T: Copy, const ROOM: usize> core::fmt::Debug for Batch<W, T, ROOM> {
    fn fmt(&self, f: &mut core::fmt::Formatter<'_>) -> core::fmt::Result {
        let walk = (!self.is_over).then_some(&self.walk);
        f.debug_struct("Batch").field("walk", &walk).field("taken", &(self.end - self.next)).finish()
    }
}

/// A few items that a call has listed and that are not returned yet, the next one first. Each moves up by one: where no index varies, a
/// compiler keeps them in registers, or makes nothing of them where there are none.
#[derive(Clone, Copy, Debug, Default)]
pub(crate) struct Few<T> {
    items: [T; FEW],
    count: usize,
}

/// How many items are few.
pub(crate) const FEW: usize = 4;

impl<T: Copy> Few<T> {
    /// Those that a call has listed, at most so many.
    #[inline]
    pub fn set(&mut self, items: &[T]) {
        self.count = items.len().min(FEW);
        for (to, from) in self.items.iter_mut().zip(items) {
            *to = *from;
        }
    }

    /// How many there are.
    pub fn count(&self) -> usize {
        self.count
    }

    #[inline(always)]
    pub fn next(&mut self) -> Option<T> {
        if self.count == 0 {
            return None;
        }
        let [first, second, third, fourth] = self.items;
        *self = Few { items: [second, third, fourth, fourth], count: self.count - 1 };
        Some(first)
    }
}

/// A number in fewer bits, which a call returns in more.
pub(crate) fn narrow<T: Copy + core::fmt::LowerHex, U: TryFrom<T>>(value: T) -> error::Result<U> {
    U::try_from(value).map_err(|_| error::Error::Malformed(format!("number {value:#x} has too many bits")))
}

/// The error of a buffer that a write does not fit.
#[cfg(not(feature = "rest"))]
pub(crate) fn too_short(end: usize) -> error::Error {
    error::Error::BufferTooShort(end, "bytes")
}

/// The same in goblin 0.2.1, which has no variant for it.
#[cfg(feature = "rest")]
pub(crate) fn too_short(end: usize) -> error::Error {
    error::Error::Malformed(format!("Buffer is too short for {end} bytes"))
}

// ---- memory

fn out_of_memory(_: std::collections::TryReserveError) -> error::Error {
    error::Error::IO(std::io::ErrorKind::OutOfMemory.into())
}

/// An empty list with room for so many items.
pub(crate) fn list<T>(count: usize) -> error::Result<Vec<T>> {
    let mut items = Vec::new();
    items.try_reserve_exact(count).map_err(out_of_memory)?;
    Ok(items)
}

/// Makes a list so long.
fn resize<T: Clone + Default>(items: &mut Vec<T>, count: usize) -> error::Result<()> {
    items.try_reserve_exact(count.saturating_sub(items.len())).map_err(out_of_memory)?;
    items.resize(count, T::default());
    Ok(())
}

/// Adds an item to a list.
pub(crate) fn push<T>(items: &mut Vec<T>, item: T) -> error::Result<()> {
    items.try_reserve(1).map_err(out_of_memory)?;
    items.push(item);
    Ok(())
}

/// An empty text with room for so many bytes.
pub(crate) fn text_with_room(count: usize) -> error::Result<String> {
    let mut text = String::new();
    text.try_reserve_exact(count).map_err(out_of_memory)?;
    Ok(text)
}

// ---- arguments

/// Section headers as the library takes them.
pub(crate) fn sections_of(sections: &[SectionTable]) -> error::Result<Vec<Section>> {
    let mut found = list(sections.len())?;
    found.extend(sections.iter().map(|it| *section_of(it)));
    Ok(found)
}

/// Where in a `SectionTable` the header starts that it has.
const HEADER: usize = offset_of!(SectionTable, name);

/// Whether the fields named have the same place in the header as in the library's.
macro_rules! stand_alike {
    ($($field:ident),*) => { $(offset_of!(SectionTable, $field) - HEADER == offset_of!(Section, $field))&&* };
}

const _: () = assert!(
    stand_alike!(name, virtual_size, virtual_address, size_of_raw_data, pointer_to_raw_data, pointer_to_relocations)
        && stand_alike!(pointer_to_linenumbers, number_of_relocations, number_of_linenumbers, characteristics)
        && HEADER + size_of::<Section>() <= size_of::<SectionTable>()
        && HEADER % align_of::<Section>() == 0
        && align_of::<Section>() <= align_of::<SectionTable>()
);

/// Their types are the same.
const _: fn(&SectionTable) -> Section = |it| Section {
    name: it.name,
    virtual_size: it.virtual_size,
    virtual_address: it.virtual_address,
    size_of_raw_data: it.size_of_raw_data,
    pointer_to_raw_data: it.pointer_to_raw_data,
    pointer_to_relocations: it.pointer_to_relocations,
    pointer_to_linenumbers: it.pointer_to_linenumbers,
    number_of_relocations: it.number_of_relocations,
    number_of_linenumbers: it.number_of_linenumbers,
    characteristics: it.characteristics,
};

/// A section header as the library takes it, where it stands.
#[inline(always)]
pub(crate) fn section_of(it: &SectionTable) -> &Section {
    // SAFETY: from `HEADER` on there are the fields of a `Section` in `it`, each with its type and in its place, as is asserted above.
    unsafe { &*core::ptr::from_ref(it).byte_add(HEADER).cast() }
}

/// The first section that may cover an RVA, by a test that each passes that does, and that the library's own map makes first: from
/// the section's start to the page of the RVA it is less than the raw size. Where it maps the RVA, the others make no difference.
#[inline(always)]
pub(crate) fn first_around(sections: &[SectionTable], rva: u32) -> Option<&Section> {
    let may_cover = |it: &&SectionTable| rva.wrapping_sub(it.virtual_address) & !0xfff < it.size_of_raw_data;
    // Of most images it is among the first eight, which are tested without counting: much of a record's time is this.
    let (mut rest, mut found) = (sections, None);
    if let Some((eight, more)) = first_eight(rest) {
        (rest, found) = (more, eight.iter().find(may_cover));
    }
    found.or_else(|| rest.iter().find(may_cover)).map(section_of)
}

#[inline(always)]
fn first_eight(sections: &[SectionTable]) -> Option<(&[SectionTable; 8], &[SectionTable])> {
    Some((sections.get(..8)?.try_into().ok()?, sections.get(8..)?))
}

pub(crate) fn mode_of(opts: &ParseOptions) -> u32 {
    let layout = if opts.resolve_rva { 0 } else { sys::MAPPED };
    layout | if opts.parse_mode == ParseMode::Permissive { sys::PERMISSIVE } else { 0 }
}

/// An entry of a debug directory as the library takes it.
pub(crate) fn entry_of(it: &ImageDebugDirectory) -> sys::DebugEntry {
    sys::DebugEntry {
        characteristics: it.characteristics,
        time_date_stamp: it.time_date_stamp,
        major_version: it.major_version,
        minor_version: it.minor_version,
        data_type: it.data_type,
        size_of_data: it.size_of_data,
        address_of_raw_data: it.address_of_raw_data,
        pointer_to_raw_data: it.pointer_to_raw_data,
    }
}

/// Where the library reads the record of an entry: in a file at its offset, in an image as loaded at its RVA.
pub(crate) fn place(it: &ImageDebugDirectory, mode: u32) -> usize {
    (if mode & sys::MAPPED == 0 { it.pointer_to_raw_data } else { it.address_of_raw_data }) as usize
}

/// The index of a data directory, as winnt.h has it.
#[derive(Clone, Copy)]
pub(crate) enum Index {
    Export = 0,
    Import = 1,
    Resource = 2,
    Exception = 3,
    Certificate = 4,
    BaseRelocation = 5,
    Debug = 6,
    Tls = 9,
    LoadConfig = 10,
    Clr = 14,
}

/// An image that has one directory.
pub(crate) fn image_with(
    index: Index,
    directory: DataDirectory,
    file_alignment: u32,
    opts: &ParseOptions,
) -> ImageInfo {
    let mut info =
        ImageInfo { mode: mode_of(opts), file_alignment, number_of_directories: 16, width: 64, ..Default::default() };
    info.directories[index as usize] =
        sys::Directory { virtual_address: directory.virtual_address, size: directory.size };
    info
}

/// Of bytes that a list reads without an image.
static NO_IMAGE: ImageInfo =
    // SAFETY: all fields are numbers or arrays of them, which may be zeros.
    unsafe { MaybeUninit::zeroed().assume_init() };

/// An image as loaded, of whatever bytes: its RVAs are their offsets.
pub(crate) fn image_as_loaded(machine: u16) -> ImageInfo {
    let mut info = ImageInfo { mode: sys::MAPPED, machine, width: 64, number_of_directories: 16, ..Default::default() };
    // A function table, empty and past the first byte: the calls of ARM64 want that there is one.
    info.directories[Index::Exception as usize] = sys::Directory { virtual_address: 4, size: 0 };
    info
}

// ---- calls

/// The bytes of an image, its record, its section headers and an index of these or none: what most calls take.
#[derive(Clone, Copy)]
pub(crate) struct View<'a, 's> {
    pub bytes: &'a [u8],
    pub info: &'s ImageInfo,
    pub sections: &'s [Section],
    index: &'s [sys::RangeEntry],
}

/// From so many sections on an index of them costs less than what it spares.
const MANY: usize = 32;

impl<'a, 's> View<'a, 's> {
    /// Without an index.
    pub fn of(bytes: &'a [u8], info: &'s ImageInfo, sections: &'s [Section]) -> Self {
        View { bytes, info, sections, index: &[] }
    }

    /// Of bytes alone, for a list that takes no more.
    #[inline(always)]
    pub fn of_bytes(bytes: &'a [u8]) -> Self {
        Self::of(bytes, &NO_IMAGE, &[])
    }

    /// An index of the sections, empty where these are few: those are tested in turn as fast.
    pub fn make_index(&self) -> error::Result<Vec<sys::RangeEntry>> {
        if self.sections.len() < MANY {
            return Ok(Vec::new());
        }
        let count = 4 * self.sections.len();
        let (mut room, mut written) = (list(count)?, 0);
        room.resize(count, sys::RangeEntry::default());
        // SAFETY: the view is of what is borrowed for the call; the pointer and the length are those of one array, and the library
        // requires nothing else.
        let number = unsafe { sys::pe_c_index(&self.lent(), room.as_mut_ptr(), count, &mut written) };
        returned(number, ())?;
        room.truncate(written as usize);
        Ok(room)
    }

    /// The same with an index of the sections.
    pub fn with_index(self, index: &'s [sys::RangeEntry]) -> Self {
        View { index, ..self }
    }
}

impl<'a> View<'a, '_> {
    #[inline]
    pub fn slice(&self, range: Range) -> error::Result<&'a [u8]> {
        slice(self.bytes, range)
    }

    #[inline]
    pub fn text(&self, range: Range) -> error::Result<&'a str> {
        text(self.bytes, range)
    }

    pub fn directory(&self, index: Index) -> DataDirectory {
        let found = self.info.directories[index as usize];
        DataDirectory { virtual_address: found.virtual_address, size: found.size }
    }

    /// The image as the library takes it, for a call that ends before what it borrows.
    #[inline]
    fn lent(&self) -> sys::View {
        sys::View::of(self.bytes, self.info, self.sections, self.index)
    }

    /// The unwind record of an unwind RVA, in this room: as the other calls of an image, but that nothing is moved.
    #[inline(always)]
    pub fn unwind_record<'r>(
        &self,
        table: &Range,
        unwind: u32,
        room: &'r mut MaybeUninit<sys::Record>,
    ) -> Result<&'r sys::Record, Refusal> {
        // SAFETY: the view is of what is borrowed for the call; the table and the room are lent for it, and the library requires
        // nothing else.
        match unsafe { sys::pe_c_unwind_record(&self.lent(), table, unwind, room.as_mut_ptr()) } {
            // SAFETY: a call that is done has written the record.
            sys::DONE => Ok(unsafe { room.assume_init_ref() }),
            number => Err(Refusal(number)),
        }
    }

    /// The file offset of an RVA; in an image as loaded the RVA itself.
    pub fn offset(&self, rva: u32) -> Option<usize> {
        self.offset_of_rva(rva).ok().flatten().and_then(|it| it.try_into().ok())
    }

    /// The file offset of a virtual address.
    pub fn offset_of_va(&self, va: u64) -> Option<usize> {
        self.offset(va.checked_sub(self.info.base)?.try_into().ok()?)
    }
}

/// The section headers at the record's offset, as many as it names.
pub(crate) fn sections(bytes: &[u8], info: &ImageInfo) -> error::Result<Vec<Section>> {
    let count = usize::from(info.number_of_sections);
    let mut room = list(count)?;
    room.resize(count, Section::default());
    // SAFETY: the first pointer and length are those of one slice, the others those of one array; the record is lent for the call, and
    // the library requires nothing else.
    let number = unsafe { sys::pe_c_sections(bytes.as_ptr(), bytes.len(), info, room.as_mut_ptr(), room.len()) };
    returned(number, ())?;
    Ok(room)
}

/// Makes functions that read the record of an entry as one of a type of winnt.h, of a field of what the call reads.
macro_rules! debug_records {
    ($($name:ident: $field:ident, $result:ident, $data_type:expr => $out:ty;)*) => { $(
        #[inline]
        pub(crate) fn $name(bytes: &[u8], mode: u32, entry: &sys::DebugEntry) -> Result<Option<$out>, Refusal> {
            let (entry, mut out) = (sys::DebugEntry { data_type: $data_type, ..*entry }, sys::DebugRecords::default());
            // SAFETY: as below.
            unsafe { sys::pe_c_debug_record(bytes.as_ptr(), bytes.len(), mode, &entry, &mut out) };
            returned(out.$result, out.$field)
        }
    )* };
}

debug_records! {
    symbol_key_of: key, key_result, 2 => sys::Key;
    pdb20_of: pdb20, pdb20_result, 2 => sys::Pdb20;
    vc_features_of: features, features_result, 12 => sys::VcFeatures;
    pogo_of: pogo, pogo_result, 13 => sys::Pogo;
    repro_of: repro, repro_result, 16 => sys::Repro;
    characteristics_of: characteristics, characteristics_result, 20 => u32;
}

/// Makes functions of calls that take the bytes first.
macro_rules! calls_of_bytes {
    ($($name:ident: $call:ident($($more:ident: $kind:ty),*) -> $out:ty;)*) => { $(
        #[inline]
        pub(crate) fn $name(bytes: &[u8], $($more: $kind),*) -> Result<Option<$out>, Refusal> {
            let mut out = MaybeUninit::<$out>::uninit();
            // SAFETY: the pointer and the length are those of one slice; the other arguments and `out` are lent for the
            // call, and the library requires nothing else. A call that is done has written `out`.
            unsafe {
                let number = sys::$call(bytes.as_ptr(), bytes.len(), $($more,)* out.as_mut_ptr());
                written_by(number, out)
            }
        }
    )* };
}

calls_of_bytes! {
    image: pe_c_image(mode: u32) -> ImageInfo;
    headers: pe_c_headers(mode: u32) -> sys::Headers;
    image_failure: pe_c_image_failure(mode: u32) -> sys::Failure;
    coff: pe_c_coff() -> sys::CoffHeader;
    coff_symbols: pe_c_coff_symbols(header: &sys::CoffHeader) -> sys::SymbolWalk;
    coff_strings: pe_c_coff_strings(header: &sys::CoffHeader) -> Range;
    symbol_at: pe_c_symbol(table: &Range, index: u64) -> sys::SymbolEntry;
    symbol_name: pe_c_symbol_name(table: &Range, strings: &Range, index: u64) -> Range;
    rich_header: pe_c_rich_header() -> sys::RichHeader;
    next_rich_entry: pe_c_next_rich_entry(key: u32, walk: &mut Range) -> sys::RichEntry;
    next_debug_entry: pe_c_next_debug_entry(walk: &mut Range) -> sys::DebugEntry;
    next_pogo_entry: pe_c_next_pogo_entry(walk: &mut Range) -> sys::PogoEntry;
    next_certificate: pe_c_next_certificate(walk: &mut Range) -> sys::Certificate;
    certificate_failure: pe_c_certificate_failure(walk: &Range) -> sys::Failure;
    code_failure: pe_c_code_failure(walk: &sys::Walk) -> sys::Failure;
    function_at: pe_c_function_at(table: &Range, index: u64) -> sys::Function;
    scope_table: pe_c_scope_table(handler_data: &Range) -> Range;
    next_scope: pe_c_next_scope(walk: &mut Range) -> sys::Scope;
    arm64_function_at: pe_c_arm64_function_at(table: &Range, index: u64) -> sys::Arm64Function;
    next_arm64_scope: pe_c_next_arm64_scope(walk: &mut Range) -> sys::Arm64Scope;
    arm64_codes: pe_c_arm64_codes(codes: &Range, start: u64) -> sys::Arm64Walk;
    next_metadata_stream: pe_c_next_metadata_stream(walk: &mut sys::MetadataStreams) -> sys::MetadataStream;
    fixed_version_in: pe_c_fixed_version_in(content: &Range) -> sys::Version;
    version_text_in: pe_c_version_text_in(content: &Range, name: u32) -> Range;
    next_relocation_block: pe_c_next_relocation_block(walk: &mut Range) -> sys::RelocationBlock;
    relocation_block_failure: pe_c_relocation_block_failure(walk: &Range) -> sys::Failure;
    text_in: pe_c_text_in(range: &Range) -> sys::TextInBytes;
}

/// The function that covers an RVA, in this room: as the other calls of bytes, but that nothing is moved.
#[inline(always)]
pub(crate) fn find_function<'r>(
    bytes: &[u8],
    table: &Range,
    rva: u32,
    room: &'r mut MaybeUninit<sys::Function>,
) -> Result<Option<&'r sys::Function>, Refusal> {
    // SAFETY: the pointer and the length are those of one slice; the table and the room are lent for the call, and the library
    // requires nothing else.
    match unsafe { sys::pe_c_find_function(bytes.as_ptr(), bytes.len(), table, rva, room.as_mut_ptr()) } {
        // SAFETY: a call that is done has written the function.
        sys::DONE => Ok(Some(unsafe { room.assume_init_ref() })),
        number => returned(number, ()).map(|_| None),
    }
}

/// The codes in these bytes, which go to this room, and why there are no more, if one is refused or the room is full.
#[inline(always)]
pub(crate) fn all_codes<'r>(
    codes: &[u8],
    form: &sys::CodeForm,
    room: &'r mut Room<sys::Code>,
) -> (&'r [sys::Code], Result<(), Refusal>) {
    let (to, length, mut count) = (room.as_mut_ptr().cast(), room.len(), MaybeUninit::uninit());
    // SAFETY: each pointer and the length after it are those of one slice or array; the form and the count are lent for the call, and
    // the library requires nothing else. The call writes the count, after an error too, and so many codes.
    unsafe {
        let number = sys::pe_c_all_codes(codes.as_ptr(), codes.len(), form, to, length, count.as_mut_ptr());
        let end = if number == sys::DONE { Ok(()) } else { Err(Refusal(number)) };
        (written(room, count.assume_init() as usize), end)
    }
}

#[cfg(feature = "te")]
calls_of_bytes! {
    te: pe_c_te() -> sys::TeHeader;
    te_failure: pe_c_te_failure() -> sys::Failure;
}

/// What a list is whose call is not done.
#[cold]
fn listed_none<'r, T>(number: u32) -> Result<&'r [T], Refusal> {
    returned(number, &[][..]).map(Option::unwrap_or_default)
}

/// Makes functions of calls that write the next items of a walk over bytes to a room. They return these, none at the end.
macro_rules! lists_of_bytes {
    ($($name:ident: $call:ident($($more:ident: $kind:ty),*) over $walk:ty => $item:ty;)*) => { $(
        #[inline(always)]
        pub(crate) fn $name<'r>(
            bytes: &[u8],
            $($more: $kind,)*
            walk: &mut $walk,
            room: &'r mut Room<$item>,
        ) -> Result<&'r [$item], Refusal> {
            let (to, length, mut count) = (room.as_mut_ptr().cast(), room.len(), 0);
            // SAFETY: each pointer and the length after it are those of one slice or array; the walk and the other arguments are lent
            // for the call, and the library requires nothing else.
            let number = unsafe {
                sys::$call(bytes.as_ptr(), bytes.len(), $($more,)* walk, to, length, &mut count)
            };
            if number != sys::DONE {
                return listed_none(number);
            }
            // SAFETY: a call that is done has written so many.
            Ok(unsafe { written(room, count as usize) })
        }
    )* };
}

lists_of_bytes! {
    list_functions: pe_c_list_functions(table: &Range) over u64 => sys::Function;
    list_codes: pe_c_list_codes() over sys::Walk => sys::Code;
    list_relocations: pe_c_list_relocations(page_rva: u32) over Range => sys::Relocation;
    list_arm64_codes: pe_c_list_arm64_codes() over sys::Arm64Walk => sys::Arm64Code;
}

/// The same of calls that read names together, as far as there are runs for them. They return how many items they wrote.
macro_rules! lists_of_names {
    ($($name:ident: $call:ident($($more:ident: $kind:ty),*) over $walk:ty => $item:ty;)*) => { impl View<'_, '_> { $(
        pub(crate) fn $name(
            &self,
            $($more: $kind,)*
            walk: &mut $walk,
            runs: &mut [sys::Run],
            room: &mut [$item],
        ) -> Result<usize, Refusal> {
            let (items, count, mut written) = (room.as_mut_ptr(), room.len(), 0);
            // SAFETY: the view is of what is borrowed for the call; each pointer and the length after it are those of one array; the
            // walk and the other arguments are lent for it, and the library requires nothing else.
            let number = unsafe {
                sys::$call(&self.lent(), $($more,)* walk, runs.as_mut_ptr(), runs.len(), items, count, &mut written)
            };
            Ok(returned(number, written)?.unwrap_or(0) as usize)
        }
    )* } };
}

lists_of_names! {
    list_exports: pe_c_list_exports() over sys::ExportWalk => sys::Export;
    list_export_addresses: pe_c_list_export_addresses(table: &sys::AddressTable) over u64 => sys::Exported;
    list_libraries: pe_c_list_libraries() over sys::LibraryWalk => sys::Library;
    list_all_imports: pe_c_list_all_imports() over sys::LibraryImports => sys::LibraryImport;
}

impl View<'_, '_> {
    /// The names in the string table of all sections, which are read together; one at 0 where a section has none.
    pub fn long_section_names(&self, table: &Range) -> error::Result<Vec<Range>> {
        let count = self.sections.len();
        let (mut names, mut runs, mut next, mut written) = (Vec::new(), Vec::new(), 0, 0);
        resize(&mut names, count)?;
        resize(&mut runs, count)?;
        let (view, room, items) = (self.lent(), runs.as_mut_ptr(), names.as_mut_ptr());
        // SAFETY: the view is of what is borrowed for the call; each pointer and the length after it are those of one array; the table
        // and the numbers are lent for it, and the library requires nothing else.
        let number = unsafe {
            sys::pe_c_list_long_section_names(&view, table, &mut next, room, count, items, count, &mut written)
        };
        returned(number, ())?;
        names.truncate(written as usize);
        Ok(names)
    }
}

/// Makes methods of calls that take an image first.
macro_rules! calls_of_an_image {
    ($($name:ident: $call:ident($($more:ident: $kind:ty),*) -> $out:ty;)*) => { impl View<'_, '_> { $(
        #[inline]
        pub fn $name(&self, $($more: $kind),*) -> Result<Option<$out>, Refusal> {
            let mut out = MaybeUninit::<$out>::uninit();
            // SAFETY: the view is of what is borrowed for the call; the other arguments and `out` are lent for it, and the
            // library requires nothing else. A call that is done has written `out`.
            unsafe {
                let number = sys::$call(&self.lent(), $($more,)* out.as_mut_ptr());
                written_by(number, out)
            }
        }
    )* } };
}

calls_of_an_image! {
    offset_of_rva: pe_c_offset(rva: u32) -> u64;
    string_table: pe_c_string_table() -> Range;
    digest_ranges: pe_c_digest_ranges() -> sys::Digest;
    directory_failure: pe_c_directory_failure(index: u32) -> sys::Failure;
    library_failure: pe_c_library_failure(walk: &sys::Libraries) -> sys::Failure;
    import_failure: pe_c_import_failure(walk: &sys::Imports) -> sys::Failure;
    unwind_record_failure: pe_c_unwind_record_failure(table: &Range, unwind: u32) -> sys::Failure;
    debug_entries: pe_c_debug_entries() -> Range;
    function_table: pe_c_function_table() -> Range;
    arm64_table: pe_c_arm64_table() -> Range;
    arm64_unwind_record: pe_c_arm64_unwind_record(function: &sys::Arm64Function) -> sys::Arm64Record;
    export_directory: pe_c_export_directory() -> sys::ExportFields;
    export_tables: pe_c_export_tables() -> sys::Exports;
    export_addresses: pe_c_export_addresses() -> sys::AddressTable;
    import_libraries: pe_c_import_libraries() -> sys::Libraries;
    version_content: pe_c_version_blocks() -> Range;
    manifest: pe_c_manifest() -> Range;
    resource_leaves: pe_c_resource_leaves() -> sys::ResourceWalk;
    resource_root: pe_c_resource_root() -> sys::ResourceDirectory;
    tls: pe_c_tls() -> sys::TlsDirectory;
    tls_callbacks: pe_c_tls_callbacks(tls: &sys::TlsDirectory) -> Range;
    next_tls_callback: pe_c_next_tls_callback(walk: &mut Range) -> u64;
    load_config: pe_c_load_config() -> sys::LoadConfig;
    load_config_field: pe_c_load_config_field(field: u32) -> u64;
    relocation_blocks: pe_c_relocation_blocks() -> Range;
    clr_header: pe_c_clr_header() -> sys::ClrHeader;
    clr_metadata: pe_c_clr_metadata(header: &sys::ClrHeader) -> sys::Metadata;
}

// ---- the numbers of a refusal

impl View<'_, '_> {
    /// The error of a directory that a call refuses: bytes that are not there are scroll's error, and any other has the library's
    /// text with its numbers.
    pub(crate) fn refused(self, index: Index, refusal: Refusal) -> error::Error {
        match self.directory_failure(index as u32) {
            Ok(Some(it)) if refusal == Refusal::SHORT => short(self.bytes, it.offset as usize, &[it.needed as usize]),
            Ok(Some(it)) => error::Error::Malformed(pe_c::Failure::from(it).to_string()),
            _ => refusal.into(),
        }
    }
}

/// The error of an item that a call refused, by what the library says of its failure: the text with its numbers, where there is one.
/// An error of another kind, as out of memory, is none that a call refused.
#[cold]
pub(crate) fn with_numbers(error: error::Error, failure: Result<Option<sys::Failure>, Refusal>) -> error::Error {
    match failure {
        Ok(Some(it)) => error::Error::Malformed(pe_c::Failure::from(it).to_string()),
        _ => error,
    }
}
