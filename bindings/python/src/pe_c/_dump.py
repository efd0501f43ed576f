"""Minidumps, and walks of stacks: of the threads of a dump, or over modules and memory that a caller has."""
from __future__ import annotations

import bisect
import struct
import typing
from typing import TYPE_CHECKING, Any

from . import _core, _names as names
from ._core import (Arm64Context, Arm64Registers, Context, DumpEntry, DumpException, DumpHandle, DumpHeader,
                    DumpModule, DumpPiece, DumpProcess, DumpRegion, DumpSystem, DumpThread, DumpThreadInfo, DumpThreadName,
                    DumpUnloadedModule, Registers, SymbolKey)
from ._functions import LONGEST, AnyFrame, Names, Places, address_of, refused_tables
from ._image import Image, Mode
from ._kinds import End, Kind
from ._part import LIMITED, Error, ImageWarning, Part, WarningKind, error_of
from ._pdb import Pdb, PdbFrame
from ._reader import BYTES, AnyFile, Reader, content_of
from ._symbols import AnyFolders, Folders, PdbFiles, Wanted, is_in_function, name_of

if TYPE_CHECKING:
    import _typeshed

LISTS = ("entries", "threads", "modules", "thread_names", "unloaded", "thread_infos", "handles", "regions", "memory", "memory64")
RECORDS = ("exception", "system", "process")
AMD64, ARM64 = 9, 12
# How many modules have images, and how many sections these have together.
MOST_IMAGES, MOST_SECTIONS = 4096, 1 << 20
# How many frames all stacks of a dump have together. What else costs as much counts as a frame: so many modules that are looked up or
# packed for a walk, that it tests, so many pieces of memory that it tests, so many sections in each frame, so many names of an image
# that are sorted, and so many bytes of names of functions.
MOST_FRAMES, PACKED_A_FRAME, MODULES_A_FRAME, PIECES_A_FRAME, SECTIONS_A_FRAME = 1_000_000, 5, 100, 200, 100
NAMES_A_FRAME, BYTES_A_FRAME = 100, 1024
# How many frames one stack has.
MOST_IN_A_WALK = 1 << 14
# How often the bytes of a dump may be read for images. Those of modules that do not overlap are all read once.
MOST_READINGS = 2
# How many bytes of a record that names a PDB are read.
MOST_RECORD = 2048

# Exceptions whose parameters say more, and what an access was.
ACCESS_VIOLATION, IN_PAGE_ERROR, FAST_FAIL = 0xC0000005, 0xC0000006, 0xC0000409
ACCESSES = {0: "read", 1: "write", 8: "execution"}

Piece = tuple[int, int, int]
# A module: its image, or its size where that is not at hand, and the address where it is loaded.
AnyModule = tuple[Image | int, int]


class _Packed(typing.NamedTuple):
    """Modules as walks take them: the images, and of each its address and the size of one that is not at hand."""

    images: tuple[_core.Image | None, ...]
    bases: bytes
    sizes: bytes
    warnings: tuple[ImageWarning, ...]
    names: Names


class Stack(typing.NamedTuple):
    """A stack that was walked."""

    frames: Part[AnyFrame]
    """the top frame first; of each the registers, the way by which it was found, and its `function`. `is_limited` where modules have no
    image, or frames or names of functions are left out, since all walks of a dump have a bound together, as only hostile ones reach"""
    end: End
    """why the walk is over"""
    error: Error | None
    """of a record or a step that is refused"""
    address: int
    """what the error of a step speaks of"""
    warnings: tuple[ImageWarning, ...] = ()
    """of the registers of the exception, where they cannot be read; of modules whose function table is damaged: of these the whole
    entries serve, frames of their code may be missing or wrong, and have no names; of those whose symbols, strings or exports are
    damaged: these name no frame; and of each PDB that is looked for and not read, or is damaged"""


def _named(number: int, table: dict[int, str]) -> str:
    return f"{table[number]} (0x{number:08x})" if number in table else f"0x{number:08x}"


def walk(registers: Registers | Arm64Registers, modules: typing.Iterable[AnyModule], memory: _typeshed.ReadableBuffer,
         pieces: typing.Iterable[Piece], most: int = 1000) -> Stack:
    """Walks a stack from the registers of a thread, x64's or ARM64's: through modules, each an image, or its size in memory
    where that is not at hand, and the address where it is loaded, over pieces of memory, each an address, an offset in `memory`
    and a length. At most `most` frames, 16,384 or fewer. An address is that of the first module that has it. The images name the
    functions of frames.

    Raises Error where a piece is not inside the memory, and TypeError of what are no registers, as a context that has them."""
    if not isinstance(registers, (Registers, Arm64Registers)):
        raise TypeError(f"registers are pe_c.Registers or pe_c.Arm64Registers, and not {type(registers).__name__}")
    core, _ = _core.image(memory, 0, True, BYTES, False)
    assert core is not None
    places, packed = b"".join(struct.pack("<3Q", *it) for it in pieces), _packed(list(modules))
    walked = _walk(core, registers, packed, places, most, None)
    for module, addresses in packed.names.unread(walked.frames).items():
        packed.names.read(module, addresses)
    return _named_by(packed.names, walked)


def _size(module: AnyModule) -> int:
    image = module[0]
    return image if isinstance(image, int) else image.headers.size_of_image


def _packed(modules: list[AnyModule]) -> _Packed:
    """Modules in the order of their addresses, if none overlap."""
    ordered = sorted(modules, key=lambda it: it[1])
    if all(one[1] + _size(one) <= other[1] for one, other in zip(ordered, ordered[1:])):
        modules = ordered
    count, missing = len(modules), [it[0] if isinstance(it[0], int) else 0 for it in modules]
    images = tuple(None if isinstance(it[0], int) else it[0]._core for it in modules)
    return _Packed(images, struct.pack(f"<{count}Q", *(it[1] for it in modules)), struct.pack(f"<{count}I", *missing),
                   tuple(it for image, base in modules if not isinstance(image, int) for it in _damaged_tables(image, base)),
                   Names(images, Places((it[1], _size(it)) for it in modules)))


def _damaged_tables(image: Image, base: int) -> list[ImageWarning]:
    """What is to be said of a module's function table, and of the tables that name its functions."""
    _, number, _ = image._kept_answer("function_table")
    numbers = {"function table": number} if number else {}
    numbers.update((name, error.number) for name, error in image.refused_name_tables.items() if name != "functions")
    found = []
    for name, number in numbers.items():
        part = f"{name} of the module at 0x{base:x}"
        error = error_of(number, part, image.path)
        what = "its whole entries serve, and no frame of it has a name" if name == "function table" else "they name no frame"
        found.append(ImageWarning(WarningKind.DAMAGED, part, f"{error.text}: {what}", error, image.path))
    return found


def _named_by(names: Names, stack: Stack) -> Stack:
    """The stack whose frames have what names them."""
    frames: Part[AnyFrame] = Part(names.named(stack.frames))
    frames.is_limited = stack.frames.is_limited or names.is_limited
    return stack._replace(frames=frames)


def _walk(core: _core.Image, registers: Registers | Arm64Registers, modules: _Packed, places: bytes, most: int,
          path: str | None) -> Stack:
    numbers = [it for field in registers for it in (field if isinstance(field, tuple) else (field,))]
    call: Any = core.frames if isinstance(registers, Registers) else core.arm64_frames
    # A number of more than 32 bits is another one there.
    most = min(max(most, 0), MOST_IN_A_WALK)
    rows, number, is_limited = call(*modules[:3], places, struct.pack(f"<{len(numbers)}Q", *numbers), most)
    if number or not rows:
        raise error_of(number or Kind.SHORT, "stack walk", path)
    frames: Part[AnyFrame] = Part(rows[:-1])
    frames.is_limited = is_limited
    last = rows[-1]
    error = error_of(last.error, "stack walk", path) if last.error else None
    return Stack(frames, End(last.end), error, last.address, modules.warnings)


class Dump(Reader):
    """A minidump over the bytes of a file. Raises Error where its header is refused. After that a list never raises: what ended it is
    its `error`; a record raises Error where it is damaged, and is None where the dump has none."""

    def __init__(self, data: _typeshed.ReadableBuffer, *, copy: bool = True, path: str | None = None) -> None:
        super().__init__(data, BYTES, "dump", copy=copy, path=path)
        self._one("dump")
        self._left = MOST_FRAMES

    @classmethod
    def open(cls, path: AnyFile, *, limit: int = 1 << 34) -> Dump:
        """That of a file, by its path or open, which is read whole."""
        content, name = content_of(path, limit)
        return cls(content, path=name)

    @property
    def header(self) -> DumpHeader:
        header: DumpHeader = self._one("dump")
        return header

    @property
    def entries(self) -> Part[DumpEntry]:
        """The directory: which streams there are."""
        return self._part("dump_entries")

    @property
    def threads(self) -> Part[DumpThread]:
        return self._part("dump_threads")

    @property
    def modules(self) -> Part[DumpModule]:
        """The modules of the process, in no order."""
        return self._part("dump_modules")

    @property
    def thread_names(self) -> Part[DumpThreadName]:
        return self._part("dump_thread_names")

    @property
    def unloaded_modules(self) -> Part[DumpUnloadedModule]:
        return self._part("dump_unloaded")

    @property
    def thread_infos(self) -> Part[DumpThreadInfo]:
        return self._part("dump_thread_infos")

    @property
    def handles(self) -> Part[DumpHandle]:
        return self._part("dump_handles")

    @property
    def regions(self) -> Part[DumpRegion]:
        """The regions of the process's memory: what may be done there."""
        return self._part("dump_regions")

    @property
    def memory_list(self) -> Part[DumpPiece]:
        """The pieces of memory of a small dump."""
        return self._part("dump_memory")

    @property
    def memory64(self) -> Part[DumpPiece]:
        """The pieces of memory of a full dump."""
        return self._part("dump_memory64")

    @property
    def exception(self) -> DumpException | None:
        """What the process crashed by."""
        row: DumpException | None = self._one("dump_exception")
        return row

    @property
    def system(self) -> DumpSystem | None:
        row: DumpSystem | None = self._one("dump_system")
        return row

    @property
    def reason(self) -> str | None:
        """Why the process crashed, in words: the exception by its name, and what its parameters say. None without one."""
        raised = self.exception
        if raised is None:
            return None
        code, parameters = raised.exception_code, raised.exception_information[:raised.number_parameters]
        said = _named(code, names.EXCEPTIONS)
        if code in (ACCESS_VIOLATION, IN_PAGE_ERROR) and len(parameters) >= 2 and parameters[0] in ACCESSES:
            status = f", {_named(parameters[2], names.EXCEPTIONS)}" if code == IN_PAGE_ERROR and len(parameters) > 2 else ""
            return f"{said}: {ACCESSES[parameters[0]]} at 0x{parameters[1]:x}{status}"
        if code == FAST_FAIL and parameters:
            return f"{said}: {names.FAST_FAILS.get(parameters[0], f'__fastfail({parameters[0]})')}"
        return said

    @property
    def process(self) -> DumpProcess | None:
        row: DumpProcess | None = self._one("dump_process")
        return row

    @property
    def warnings(self) -> tuple[Error, ...]:
        """What of the dump is damaged, an error a stream; how much memory it says it has that is not in the file; and the lists that
        are limited, as Kind.ROOM."""
        return self._once("warnings", self._read_warnings)

    def _read_warnings(self) -> tuple[Error, ...]:
        parts = {name: self._part(f"dump_{name}") for name in LISTS}
        found = [it.error for it in parts.values() if it.error]
        found += [error_of(number, name, self.path) for name in RECORDS if (number := self._kept_answer(f"dump_{name}")[1])]
        lost = self._lost()
        if lost:
            found.append(Error(Kind.SHORT, f"{lost} bytes are lost: the file is truncated", "memory", self.path))
        return tuple(found + [Error(Kind.ROOM, LIMITED, name, self.path) for name, it in parts.items() if it.is_limited])

    def _lost(self) -> int:
        """How many bytes of the memory of the lists, and of the stacks of threads that these lack, the file does not have."""
        listed = [*self.memory_list, *self.memory64]
        longest: dict[int, int] = {}
        for it in listed:
            longest[it.start] = max(it.length, longest.get(it.start, 0))
        lost = sum(it.lost for it in listed)
        for start, at in (it.stack for it in self.threads):
            there = max(min(at.size, len(self.memory) - at.rva), 0)
            if at.rva and there > longest.get(start, -1):
                longest[start] = there
                lost += at.size - there
        return lost

    def symbol_key(self, module: DumpModule) -> SymbolKey | None:
        """The symbol key of a module, as its record in the dump has it. Raises Error."""
        at = module.cv_record
        key: SymbolKey | None = self._asked("CodeView record", "codeview", at.rva, at.size) if at.size else None
        return key

    # ---- memory

    @property
    def pieces(self) -> tuple[Piece, ...]:
        """The memory: of each piece its address, its offset in the dump, and its length. They ascend and do not overlap: an address is
        that of the first piece that has it, of `memory_list`, then of `memory64`, then of the stacks of threads that neither has; pieces
        that follow one another, in the file too, are one."""
        return self._once("pieces", lambda: tuple(
            (start, offset, length) for start, offset, length in struct.iter_unpack("<3Q", self._runs)))

    @property
    def _runs(self) -> bytes:
        runs: bytes = self._one("dump_runs")
        return runs

    def at(self, address: int, length: int) -> memoryview:
        """The bytes at an address of the process, as far as one piece of memory has them; none where the dump has none."""
        numbers = memoryview(self._runs).cast("Q")
        index = bisect.bisect_right(range(len(numbers) // 3), address, key=lambda it: numbers[3 * it]) - 1
        start, offset, size = numbers[3 * index:3 * index + 3] if index >= 0 else (0, 0, 0)
        if not start <= address < start + size:
            return self.memory[:0]
        return self.memory[offset + address - start:offset + min(address - start + max(length, 0), size)]

    # ---- stacks

    def context(self, thread: DumpThread) -> Context | Arm64Context:
        """The registers of a thread: where the exception names it, and those can be read, as it crashed. Raises Error."""
        return self._context(thread)[0]

    def _context(self, thread: DumpThread) -> tuple[Context | Arm64Context, tuple[ImageWarning, ...]]:
        """The same, and what is to be said where those of the crash cannot be read."""
        system, raised = self.system, self._kept_answer("dump_exception")[0]
        if system is None or system.processor_architecture not in (AMD64, ARM64):
            raise error_of(Kind.DUMP_MACHINE, "context", self.path)
        name = "dump_context" if system.processor_architecture == AMD64 else "dump_context_arm64"
        warnings: tuple[ImageWarning, ...] = ()
        if raised and raised.thread_id == thread.thread_id:
            found, number, _ = self._read(name, raised.thread_context.size, raised.thread_context.rva)
            if not number:
                return found, ()
            error = error_of(number, "registers of the exception", self.path)
            text = f"{error.text}: the thread's own are taken, which may be those of the code that wrote the dump"
            warnings = ImageWarning(WarningKind.DAMAGED, error.part, text, error, self.path),
        return self._asked("context", name, thread.thread_context.size, thread.thread_context.rva), warnings

    def image_of(self, module: DumpModule) -> Image | None:
        """The image of a module in the dump's memory, as it was loaded: one with the time stamp and the size of the module."""
        return self._image_and_size(module)[0]

    def _image_and_size(self, module: DumpModule) -> tuple[Image | None, int]:
        """The same, and how many bytes were read for it."""
        loaded = self.at(module.base_of_image, module.size_of_image)
        try:
            image = Image(loaded, Mode.PERMISSIVE | Mode.MAPPED)
        except Error:
            return None, len(loaded)
        return image if self._is_of(image, module) else None, len(loaded)

    @staticmethod
    def _is_of(image: Image, module: DumpModule) -> bool:
        headers = image.headers
        return (headers.time_date_stamp, headers.size_of_image) == (module.time_date_stamp, module.size_of_image)

    def stack(self, thread: DumpThread, look_up: typing.Callable[[DumpModule], Image | None] | None = None, most: int = 1000,
              symbols: AnyFolders = ()) -> Stack:
        """The stack of a thread. The image of a module is that in the dump's memory, else the one that `look_up` returns for it, if its
        time stamp and its size are the module's. `look_up` is asked once for each module as long as it is the same object. Raises Error
        where the registers of the thread can't be read.

        `symbols` is a folder with PDB files, or several: NAME/KEY/NAME, as symbol servers have them, or NAME. One is read if its GUID
        and its age are those that a module names; then it names the module's frames, with their files and lines. Nothing is fetched,
        and no path in the dump is opened.

        Names of functions are read once for each address; but each time that some are read of an image, all of its symbols and exports
        are sorted, and a PDB is read each time. `stacks` reads those of all threads at once."""
        return self._with_names([self._stack(thread, look_up, most)], symbols)[0]

    def stacks(self, look_up: typing.Callable[[DumpModule], Image | None] | None = None, most: int = 1000,
               symbols: AnyFolders = ()) -> tuple[Stack | Error, ...]:
        """The stacks of all threads, in the order of `threads`; for a thread whose registers can't be read the error."""
        found: list[Stack | Error] = []
        for thread in self.threads:
            try:
                found.append(self._stack(thread, look_up, most))
            except Error as error:
                found.append(error.with_traceback(None))
        named = iter(self._with_names([it for it in found if not isinstance(it, Error)], symbols))
        return tuple(it if isinstance(it, Error) else next(named) for it in found)

    def _stack(self, thread: DumpThread, look_up: typing.Callable[[DumpModule], Image | None] | None, most: int) -> Stack:
        """A stack whose frames have no names yet."""
        context, warnings = self._context(thread)
        if self._left <= 0:
            return self._no_frames()
        kept = self._kept.get("loaded")
        if kept is None or kept[0] is not look_up:
            images, is_limited = self._images(look_up)
            sections = max((it[0].headers.number_of_sections for it in images if isinstance(it[0], Image)), default=0)
            kept = self._kept["loaded"] = (look_up, _packed(images), sections, is_limited)
            self._left -= len(self.modules) // PACKED_A_FRAME
        _, packed, sections, is_limited = kept
        walked = self._walked(context.registers, packed, 1 + sections // SECTIONS_A_FRAME, most)
        walked.frames.is_limited = walked.frames.is_limited or is_limited
        return walked._replace(warnings=(*warnings, *walked.warnings))

    def _with_names(self, stacks: list[Stack], symbols: AnyFolders) -> list[Stack]:
        """The stacks of the modules that were packed last, with names, as long as these do not cost too much."""
        folders = Folders(symbols)
        if "loaded" not in self._kept:
            return stacks
        names: Names = self._kept["loaded"][1].names
        if not folders.is_empty:
            stacks = self._with_pdbs(stacks, folders, names)
        for module, addresses in names.unread(it for stack in stacks for it in stack.frames).items():
            cost = names.room_of(module) // NAMES_A_FRAME
            if cost > max(self._left, 0):
                names.is_limited = True
                continue
            self._left -= cost
            self._left -= names.read(module, addresses, LONGEST + max(self._left, 0) * BYTES_A_FRAME) // BYTES_A_FRAME
        return [_named_by(names, it) for it in stacks]

    def _with_pdbs(self, stacks: list[Stack], folders: Folders, names: Names) -> list[Stack]:
        """The stacks with what PDB files name."""
        frames = [it for stack in stacks for it in stack.frames]
        groups, warnings = self._wanted(frames, names)
        files = PdbFiles(folders)
        for wanted in groups:
            pdb, said = files.find(wanted)
            warnings += said
            if pdb is not None:
                self._name_frames(frames, wanted, pdb, names)
                warnings += (wanted.warning(it.kind, f"{it.part}: {it.text}", it.error, it.path) for it in pdb.warnings)
        rest = iter(frames)
        found = []
        for stack in stacks:
            part: Part[AnyFrame] = Part(next(rest) for _ in stack.frames)
            part.is_limited = stack.frames.is_limited
            found.append(stack._replace(frames=part, warnings=(*stack.warnings, *warnings)))
        return found

    def _wanted(self, frames: list[AnyFrame], names: Names) -> tuple[list[Wanted], list[ImageWarning]]:
        """The PDB files that modules of frames name, in the order of the frames, and the modules that name none."""
        groups: dict[tuple[str, str], Wanted] = {}
        of_modules: dict[int, Wanted | None] = {}
        warnings: list[ImageWarning] = []
        for number, frame in enumerate(frames):
            ip, is_return = address_of(frame), frame.has_called
            index = self._places.at(ip - is_return)
            if index is None:
                continue
            module = self.modules[index]
            if index not in of_modules:
                wanted, text = self._pdb_of(module, names.image_at(ip - is_return))
                if wanted is None:
                    warnings.append(ImageWarning(WarningKind.SYMBOLS, f"module at 0x{module.base_of_image:x}", text, None, self.path))
                else:
                    wanted = groups.setdefault((wanted.name.lower(), wanted.text), wanted)
                of_modules[index] = wanted
            wanted, rva = of_modules[index], ip - module.base_of_image
            if wanted is not None and rva < 1 << 32:
                wanted.frames.append((number, rva, names.image_at(ip - is_return)))
        return [*groups.values()], warnings

    def _pdb_of(self, module: DumpModule, image: _core.Image | None) -> tuple[Wanted | None, str]:
        """The PDB that a module names: by its record in the dump, or else in its image; and why there is none."""
        key, text = None, "it names no PDB"
        try:
            key = self.symbol_key(module) if module.cv_record.size <= MOST_RECORD else None
        except Error as error:
            text = f"the record that names its PDB is refused: {error.text}"
        if module.cv_record.size > MOST_RECORD:
            text = f"the record that names its PDB has more than {MOST_RECORD} bytes"
        if key is None and image is not None:
            key, number, _ = image.symbol_key()
            key = None if number else key
        if key is None:
            return None, text
        path = key.symbol_path if len(key.raw_name) <= MOST_RECORD else None
        return (None, "the name of its PDB is that of no file") if path is None else (Wanted(key, path), "")

    def _name_frames(self, frames: list[AnyFrame], wanted: Wanted, pdb: Pdb, names: Names) -> None:
        """Puts their functions to the frames of a PDB, each address once, as long as the names do not cost too much."""
        known: dict[tuple[int, bool], Part[PdbFrame]] = {}
        for number, rva, image in wanted.frames:
            at = rva, frames[number].has_called
            if at not in known:
                if self._left <= 0:
                    names.is_limited = True
                    return
                found = known[at] = pdb.frames(*at)
                names.is_limited = names.is_limited or found.is_limited
                self._left -= max(len(found), 1) + sum(map(pdb._cost_of, found)) // BYTES_A_FRAME
            found = known[at]
            is_own = found and (found[-1].source != "public" or is_in_function(image, rva - at[1], found[-1].start))
            if found and is_own is not False:
                frames[number] = name_of(frames[number], found, is_own is None)

    @staticmethod
    def _no_frames() -> Stack:
        """Of a walk that the bound of all walks leaves nothing."""
        empty: Part[AnyFrame] = Part()
        empty.is_limited = True
        return Stack(empty, End.BOUND, None, 0)

    def _walked(self, registers: Registers | Arm64Registers, packed: _Packed, cost: int, most: int) -> Stack:
        """A walk, as long as all walks of the dump have not cost too much."""
        tests = len(packed.images) // MODULES_A_FRAME + len(self._runs) // 24 // PIECES_A_FRAME
        self._left -= tests
        wanted, most = min(max(most, 0), MOST_IN_A_WALK), max(min(most, self._left // cost), 0)
        if most < wanted and most == 0:
            return self._no_frames()
        walked = _walk(self._core, registers, packed, self._runs, most, self.path)
        self._left -= len(walked.frames) * cost
        walked.frames.is_limited = walked.frames.is_limited or (walked.end == End.BOUND and most < wanted)
        return walked

    def _images(self, look_up: typing.Callable[[DumpModule], Image | None] | None) -> tuple[list[AnyModule], bool]:
        """The images of the modules, or the sizes of those that are not at hand, and their addresses, in the order of the dump;
        and whether some were left out. In a hostile dump all modules may be the same bytes, with as many sections as there can
        be: further images are not read where they have too many bytes or sections together."""
        found: list[AnyModule] = []
        left, sections = MOST_READINGS * len(self.memory), MOST_SECTIONS
        for it in self.modules[:MOST_IMAGES]:
            image = None
            if left >= 0 and sections >= 0:
                image, size = self._image_or_looked_up(it, look_up)
                left -= size
                sections -= image.headers.number_of_sections if image else 0
            is_taken = image is not None and left >= 0 and sections >= 0
            found.append((image if image is not None and is_taken else it.size_of_image, it.base_of_image))
        return found, left < 0 or sections < 0 or self.modules.is_limited or len(self.modules) > MOST_IMAGES

    def _image_or_looked_up(self, module: DumpModule,
                            look_up: typing.Callable[[DumpModule], Image | None] | None) -> tuple[Image | None, int]:
        """The image of a module in the memory, or that which is looked up, and how many bytes were read of the memory."""
        name = f"image of {module.base_of_image:x}, {module.size_of_image:x}, {module.time_date_stamp:x}"
        image, size = self._once(name, lambda: self._image_and_size(module))
        if image is None and look_up is not None:
            image = look_up(module)
            image = image if image is not None and self._is_of(image, module) else None
        return image, size

    @property
    def _places(self) -> Places:
        return self._once("places", lambda: Places((it.base_of_image, it.size_of_image) for it in self.modules))

    def module_at(self, address: int) -> DumpModule | None:
        """The first module that has an address."""
        index = self._places.at(address)
        return None if index is None else self.modules[index]
