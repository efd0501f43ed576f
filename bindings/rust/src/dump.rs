//! Minidumps: files that Windows, Breakpad and Crashpad write of a process that crashed. A header leads to a directory, and that
//! to streams, one of each kind: threads, modules, pieces of memory, the exception, the system. See
//! [Microsoft's pages](https://learn.microsoft.com/windows/win32/api/minidumpapiset/).
//!
//! Each stream is read alone: one that is damaged is an error of its method, and leaves all others as they are. Nothing is
//! copied but texts. [`DumpImages`](crate::DumpImages) finds the images of the modules, and [`Stacks`](crate::Stacks) walks the
//! stacks.

use crate::image::{bytes_of, Error};
use crate::shown::shown;
use crate::sys::{
    self, Arm64Context, Arm64Registers, Context, DumpEntry, DumpException, DumpHandle, DumpInfo, DumpLocation,
    DumpModule, DumpPiece, DumpProcess, DumpRegion, DumpSystem, DumpThread, DumpThreadInfo, DumpThreadName,
    DumpUnloaded, Range, Registers,
};
use crate::walk::{ask_of_bytes, items, look, Look, Walk};
use alloc::string::String;
use core::fmt;
use core::iter::FusedIterator;

/// The kinds of streams that are looked for once, since each look reads the directory.
const KINDS: [u32; 12] = [
    sys::THREAD_LIST_STREAM,
    sys::MODULE_LIST_STREAM,
    sys::MEMORY_LIST_STREAM,
    sys::EXCEPTION_STREAM,
    sys::SYSTEM_INFO_STREAM,
    sys::MEMORY64_LIST_STREAM,
    sys::HANDLE_DATA_STREAM,
    sys::UNLOADED_MODULE_LIST_STREAM,
    sys::MISC_INFO_STREAM,
    sys::MEMORY_INFO_LIST_STREAM,
    sys::THREAD_INFO_LIST_STREAM,
    sys::THREAD_NAMES_STREAM,
];

/// `PROCESSOR_ARCHITECTURE_AMD64`.
const X64: u16 = 9;
/// `PROCESSOR_ARCHITECTURE_ARM64`.
const ARM64: u16 = 12;

/// A minidump.
///
/// ```
/// # #[path = "../tests/made/mod.rs"] mod made;
/// # let bytes = made::dump();
/// let dump = pe_c::Dump::parse(&bytes)?;
/// assert_eq!(dump.system()?.unwrap().processor_architecture, 9); // x64
/// let thread = dump.threads()?.unwrap().next().unwrap();
/// assert_eq!(dump.thread_context(&thread)?.ip(), 0x1_8000_5000);
/// # Ok::<(), pe_c::Error>(())
/// ```
#[derive(Clone, Copy)]
pub struct Dump<'a> {
    bytes: &'a [u8],
    info: DumpInfo,
    streams: [Result<Option<Range>, Error>; KINDS.len()],
}

shown! { Dump<'_> { info, streams; .. } }

/// The registers of a thread, by its machine.
#[derive(Clone, Copy, Debug, PartialEq, Eq)]
#[cfg_attr(feature = "serde", derive(serde::Serialize))]
#[non_exhaustive]
pub enum DumpContext {
    /// x64.
    X64(Context),
    /// ARM64.
    Arm64(Arm64Context),
}

impl DumpContext {
    /// The instruction pointer.
    pub fn ip(&self) -> u64 {
        self.registers().ip()
    }

    /// Those that a stack walk starts with.
    pub fn registers(&self) -> DumpRegisters {
        match self {
            DumpContext::X64(context) => DumpRegisters::X64(context.registers),
            DumpContext::Arm64(context) => DumpRegisters::Arm64(context.registers),
        }
    }
}

/// The registers of a frame, by its machine.
#[derive(Clone, Copy, Debug, PartialEq, Eq)]
#[cfg_attr(feature = "serde", derive(serde::Serialize))]
#[non_exhaustive]
pub enum DumpRegisters {
    /// x64.
    X64(Registers),
    /// ARM64.
    Arm64(Arm64Registers),
}

impl DumpRegisters {
    /// The instruction pointer: `rip` or `pc`.
    pub fn ip(&self) -> u64 {
        match self {
            DumpRegisters::X64(registers) => registers.rip,
            DumpRegisters::Arm64(registers) => registers.pc,
        }
    }

    /// The stack pointer: `rsp` or `sp`.
    pub fn sp(&self) -> u64 {
        match self {
            DumpRegisters::X64(registers) => registers.rsp(),
            DumpRegisters::Arm64(registers) => registers.sp,
        }
    }
}

impl<'a> Dump<'a> {
    /// Reads the header, and tests that the directory is in the bytes.
    ///
    /// # Errors
    ///
    /// [`Error::SHORT`], [`Error::DUMP_SIGNATURE`], [`Error::DUMP_VERSION`], [`Error::DUMP_DIRECTORY`].
    pub fn parse(bytes: &'a [u8]) -> Result<Self, Error> {
        let mut info = DumpInfo::default();
        // SAFETY: the pointer and the length are those of one slice; the record is lent for the call.
        Error::of(unsafe { sys::pe_c_dump(bytes.as_ptr(), bytes.len(), &mut info) })?;
        let streams = KINDS.map(|kind| look(bytes, sys::pe_c_dump_stream, &info.directory, kind));
        Ok(Dump { bytes, info, streams })
    }

    /// The bytes of the file.
    pub fn bytes(&self) -> &'a [u8] {
        self.bytes
    }

    /// The header.
    pub fn info(&self) -> &DumpInfo {
        &self.info
    }

    /// The entries of the directory, of which the first of a kind counts.
    pub fn streams(&self) -> DumpRecords<'a, DumpEntry> {
        DumpRecords { bytes: self.bytes, stream: self.info.directory, call: sys::pe_c_dump_entry_at, next: 0 }
    }

    /// The bytes of the stream of a kind, `MINIDUMP_STREAM_TYPE`. `None` where there is none.
    ///
    /// # Errors
    ///
    /// [`Error::DUMP_LOCATION`].
    pub fn stream(&self, stream_type: u32) -> Result<Option<&'a [u8]>, Error> {
        match self.range_of(stream_type)? {
            Some(range) => bytes_of(range, self.bytes).map(Some),
            None => Ok(None),
        }
    }

    fn range_of(&self, stream_type: u32) -> Result<Option<Range>, Error> {
        match KINDS.iter().position(|&kind| kind == stream_type) {
            Some(index) => self.streams[index],
            None => look(self.bytes, sys::pe_c_dump_stream, &self.info.directory, stream_type),
        }
    }

    /// The bytes of a location that a record says.
    ///
    /// # Errors
    ///
    /// [`Error::DUMP_LOCATION`].
    pub fn located(&self, location: &DumpLocation) -> Result<&'a [u8], Error> {
        let range = sys::Range { offset: location.rva.into(), length: location.size.into() };
        range.of(self.bytes).ok_or(Error::DUMP_LOCATION)
    }

    /// A string that a record says the offset of, as bytes of UTF-16LE.
    ///
    /// # Errors
    ///
    /// [`Error::DUMP_LOCATION`], [`Error::DUMP_TEXT`].
    pub fn text(&self, rva: u64) -> Result<&'a [u8], Error> {
        let mut range = Range::default();
        // SAFETY: as in `parse`.
        Error::of(unsafe { sys::pe_c_dump_text(self.bytes.as_ptr(), self.bytes.len(), rva, &mut range) })?;
        bytes_of(range, self.bytes)
    }

    /// The same as text, of at most so many code units: records may share one string. What is no UTF-16 is replaced.
    ///
    /// # Errors
    ///
    /// Those of [`Dump::text`].
    pub fn text_lossy(&self, rva: u64, most: usize) -> Result<String, Error> {
        let units = self.text(rva)?.chunks_exact(2).take(most).map(|unit| u16::from_le_bytes([unit[0], unit[1]]));
        Ok(char::decode_utf16(units).map(|it| it.unwrap_or(char::REPLACEMENT_CHARACTER)).collect())
    }

    /// The records of a list, which is tested whole by its first call.
    fn records<T: Default>(
        &self,
        stream_type: u32,
        call: Look<Range, u64, T>,
    ) -> Result<Option<DumpRecords<'a, T>>, Error> {
        let Some(stream) = self.range_of(stream_type)? else {
            return Ok(None);
        };
        look(self.bytes, call, &stream, 0)?;
        Ok(Some(DumpRecords { bytes: self.bytes, stream, call, next: 0 }))
    }

    /// What a stream says in one record.
    fn record<T: Default>(
        &self,
        stream_type: u32,
        call: unsafe extern "C" fn(*const u8, usize, *const Range, *mut T) -> u32,
    ) -> Result<Option<T>, Error> {
        match self.range_of(stream_type)? {
            Some(stream) => ask_of_bytes(self.bytes, call, &stream),
            None => Ok(None),
        }
    }

    /// The threads. `None` without their stream.
    ///
    /// # Errors
    ///
    /// [`Error::DUMP_LOCATION`], [`Error::SHORT`], [`Error::DUMP_LIST_SIZE`].
    pub fn threads(&self) -> Result<Option<DumpRecords<'a, DumpThread>>, Error> {
        self.records(sys::THREAD_LIST_STREAM, sys::pe_c_dump_thread_at)
    }

    /// The modules, in no order, the program mostly first. `None` without their stream.
    ///
    /// # Errors
    ///
    /// Those of [`Dump::threads`].
    pub fn modules(&self) -> Result<Option<DumpRecords<'a, DumpModule>>, Error> {
        self.records(sys::MODULE_LIST_STREAM, sys::pe_c_dump_module_at)
    }

    /// The names of threads. `None` without their stream.
    ///
    /// # Errors
    ///
    /// Those of [`Dump::threads`].
    pub fn thread_names(&self) -> Result<Option<DumpRecords<'a, DumpThreadName>>, Error> {
        self.records(sys::THREAD_NAMES_STREAM, sys::pe_c_dump_thread_name_at)
    }

    /// The modules that were unloaded. `None` without their stream.
    ///
    /// # Errors
    ///
    /// [`Error::DUMP_LOCATION`], [`Error::SHORT`], [`Error::DUMP_ENTRY_SIZE`], [`Error::DUMP_LIST_SIZE`].
    pub fn unloaded_modules(&self) -> Result<Option<DumpRecords<'a, DumpUnloaded>>, Error> {
        self.records(sys::UNLOADED_MODULE_LIST_STREAM, sys::pe_c_dump_unloaded_at)
    }

    /// More on the threads. `None` without their stream.
    ///
    /// # Errors
    ///
    /// Those of [`Dump::unloaded_modules`].
    pub fn thread_infos(&self) -> Result<Option<DumpRecords<'a, DumpThreadInfo>>, Error> {
        self.records(sys::THREAD_INFO_LIST_STREAM, sys::pe_c_dump_thread_info_at)
    }

    /// The handles of the process. `None` without their stream.
    ///
    /// # Errors
    ///
    /// Those of [`Dump::unloaded_modules`].
    pub fn handles(&self) -> Result<Option<DumpRecords<'a, DumpHandle>>, Error> {
        self.records(sys::HANDLE_DATA_STREAM, sys::pe_c_dump_handle_at)
    }

    /// The regions of memory, which say what memory there was, and not what stood in it. `None` without their stream.
    ///
    /// # Errors
    ///
    /// Those of [`Dump::unloaded_modules`].
    pub fn memory_regions(&self) -> Result<Option<DumpRecords<'a, DumpRegion>>, Error> {
        self.records(sys::MEMORY_INFO_LIST_STREAM, sys::pe_c_dump_region_at)
    }

    /// The pieces of memory, in no order, which may overlap. `None` without their stream. A full dump has
    /// [`memory64`](Dump::memory64).
    ///
    /// # Errors
    ///
    /// Those of [`Dump::threads`].
    pub fn memory_list(&self) -> Result<Option<DumpRecords<'a, DumpPiece>>, Error> {
        self.records(sys::MEMORY_LIST_STREAM, sys::pe_c_dump_memory_at)
    }

    /// The pieces of memory of a full dump. `None` without their stream.
    ///
    /// # Errors
    ///
    /// [`Error::DUMP_LOCATION`], [`Error::SHORT`], [`Error::DUMP_LIST_SIZE`]; [`Error::DUMP_LOCATION`] where the bytes of the
    /// pieces end past offset 2^64 - 1.
    pub fn memory64(&self) -> Result<Option<DumpMemory64<'a>>, Error> {
        let walk = self.record(sys::MEMORY64_LIST_STREAM, sys::pe_c_dump_memory64)?;
        Ok(walk.map(|walk| DumpMemory64(Walk::new(self.bytes, walk))))
    }

    /// The exception that the dump was written for. `None` without its stream. The fields of its `MINIDUMP_EXCEPTION` stand beside those
    /// of the stream, in one record, as in C, Python and JavaScript; in Rattle alone they are a record of their own, `raised`.
    ///
    /// # Errors
    ///
    /// [`Error::DUMP_LOCATION`], [`Error::SHORT`].
    pub fn exception(&self) -> Result<Option<DumpException>, Error> {
        self.record(sys::EXCEPTION_STREAM, sys::pe_c_dump_exception)
    }

    /// The system. `None` without its stream.
    ///
    /// # Errors
    ///
    /// Those of [`Dump::exception`].
    pub fn system(&self) -> Result<Option<DumpSystem>, Error> {
        self.record(sys::SYSTEM_INFO_STREAM, sys::pe_c_dump_system)
    }

    /// What is known of the process. `None` without its stream.
    ///
    /// # Errors
    ///
    /// Those of [`Dump::exception`].
    pub fn process(&self) -> Result<Option<DumpProcess>, Error> {
        self.record(sys::MISC_INFO_STREAM, sys::pe_c_dump_process)
    }

    /// The registers at a location, of the machine that the dump's system names.
    ///
    /// # Errors
    ///
    /// Those of [`Dump::system`]; [`Error::DUMP_MACHINE`] of another machine than x64 and ARM64, or without a system;
    /// [`Error::DUMP_LOCATION`]; [`Error::DUMP_CONTEXT_SIZE`], also where there is none; [`Error::DUMP_MACHINE`];
    /// [`Error::DUMP_CONTEXT_FLAGS`].
    pub fn context(&self, location: &DumpLocation) -> Result<DumpContext, Error> {
        let found = match self.system()?.map(|system| system.processor_architecture) {
            Some(X64) => ask_of_bytes(self.bytes, sys::pe_c_dump_context, location)?.map(DumpContext::X64),
            Some(ARM64) => ask_of_bytes(self.bytes, sys::pe_c_dump_context_arm64, location)?.map(DumpContext::Arm64),
            _ => None,
        };
        found.ok_or(Error::DUMP_MACHINE)
    }

    /// The registers of a thread: those of the exception, if it names the thread and has a context that can be read, since the
    /// thread's own may be of the code that wrote the dump; else those of the thread.
    ///
    /// # Errors
    ///
    /// Those of [`Dump::context`].
    pub fn thread_context(&self, thread: &DumpThread) -> Result<DumpContext, Error> {
        let raised = self.exception().ok().flatten().filter(|it| it.thread_id == thread.thread_id);
        match raised.map(|it| self.context(&it.thread_context)) {
            Some(Ok(context)) => Ok(context),
            _ => self.context(&thread.thread_context),
        }
    }
}

/// The records of a list, each read when it is asked for.
#[derive(Clone, Copy)]
pub struct DumpRecords<'a, T> {
    bytes: &'a [u8],
    stream: Range,
    call: Look<Range, u64, T>,
    next: u64,
}

impl<T> fmt::Debug for DumpRecords<'_, T> {
    fn fmt(&self, f: &mut fmt::Formatter<'_>) -> fmt::Result {
        f.debug_struct("DumpRecords").field("stream", &self.stream).field("next", &self.next).finish()
    }
}

impl<T: Default> DumpRecords<'_, T> {
    /// The record with an index. `None` past the last one.
    pub fn get(&self, index: u64) -> Option<T> {
        look(self.bytes, self.call, &self.stream, index).ok().flatten()
    }
}

impl<T: Default> Iterator for DumpRecords<'_, T> {
    type Item = T;

    fn next(&mut self) -> Option<T> {
        let record = self.get(self.next)?;
        self.next += 1;
        Some(record)
    }
}

impl<T: Default> FusedIterator for DumpRecords<'_, T> {}

items! {
    /// The pieces of memory of a full dump, in the order of the list.
    DumpMemory64<'a>(sys::Memory64Walk): DumpPiece, sys::pe_c_next_memory64, |found, _| Ok(found)
}
