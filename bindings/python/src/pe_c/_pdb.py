"""Program databases (PDB 7.0): the names and lines of an image that was linked with debug information."""
from __future__ import annotations

import bisect
import typing
from typing import TYPE_CHECKING

from . import _core
from ._added import Machine, pdb_path
from ._core import PdbInfo, PdbLine, PdbModule, PdbSymbol, SymbolKey
from ._image import Image
from ._kinds import Kind
from ._part import Error, ImageWarning, Part, WarningKind, error_of
from ._reader import BYTES, AnyFile, Reader, content_of

if TYPE_CHECKING:
    import _typeshed

INFO_STREAM, DBI_STREAM, ID_STREAM, NO_STREAM = 1, 3, 4, 0xFFFF
# What an index has: public functions, or procedures that have code.
PUBLICS, PROCEDURES = 0, 1
MOVED = "a tool moved the code of the image after it was linked (OMAP): RVAs of symbols and lines are those before that"


# Of each inlined function its name, file and line, and why its name and its line are refused; and what a call says besides.
_Inlined = tuple[typing.Optional[tuple[tuple[str, typing.Optional[str], typing.Optional[int], int, int], ...]], int, bool]


class PdbFrame(typing.NamedTuple):
    """A function at an RVA, and where in its source."""

    name: str
    """of a procedure as in the source, of a public symbol as linkers have it: those of C++ and Rust mangled. Of an inlined one as in the
    source, with its namespace, but without its class; empty where the PDB does not have it"""
    start: int
    """the RVA of the function; of an inlined one that of the procedure that has its code"""
    offset: int
    """how far after it the address is"""
    source: str
    """procedure; or public, the last public function before an address that no procedure has, which may be another one"""
    file: str | None
    """the path of the source file; None where nothing says it"""
    line: int | None
    """from 1 on; of a function that the one of the frame before is inlined in, that of the call"""
    column: int | None
    """from 1 on; mostly None"""
    is_inlined: bool = False
    """whether the function is inlined into that of the next frame"""


def _core_of(stream: bytes) -> _core.Image:
    """What reads the bytes of a stream."""
    core, _ = _core.image(stream, 0, False, BYTES, False)
    assert core is not None
    return core


class _Symbols:
    """The symbols of a module, or the public ones: the bytes of their stream, and an index."""

    def __init__(self, kind: int, stream: bytes, symbols: tuple[int, int], sections: bytes) -> None:
        self.core, self._kind, self._range, self._sections = _core_of(stream), kind, symbols, sections
        index, number, _ = self.core.pdb_index(kind, sections, *symbols)
        if index is None:
            raise error_of(number, "symbols")
        self._index = index

    def starts(self) -> typing.Iterator[int]:
        """The RVAs of its functions, in ascending order."""
        return (it >> 32 for it in memoryview(self._index).cast("Q"))

    def all(self) -> tuple[tuple[PdbSymbol, ...] | None, int, bool]:
        return self.core.pdb_symbols(self._sections, *self._range)

    def find(self, rva: int) -> PdbSymbol | None:
        """The symbol of an RVA, if it has a name."""
        found, _, _ = self.core.pdb_find(self._kind, self._sections, self._index, rva)
        return found if found is not None and found.name else None

    def inlined(self, rva: int, lines: tuple[int, int], ids: tuple[bytes, bytes], files: tuple[tuple[int, int], bytes]) -> _Inlined:
        """The functions that are inlined at an RVA of a procedure, the innermost first."""
        return self.core.pdb_inlined(self._sections, self._index, (*self._range, *lines), rva, *ids, *files)


class _Lines:
    """The lines of a module. None is found where they are refused."""

    def __init__(self, core: _core.Image, lines: tuple[int, int], sections: bytes, names: bytes) -> None:
        self._core, self._names = core, names
        files, number, _ = core.pdb_files(*lines)
        index, other, _ = core.pdb_line_index(sections, *lines)
        self.error = number or other
        self.files, self._index = files or (0, 0), index or b""

    def all(self) -> tuple[tuple[PdbLine, ...] | None, int, bool]:
        rows, number, is_limited = self._core.pdb_lines(self._index, *self.files, self._names)
        return rows, self.error or number, is_limited

    def find(self, rva: int) -> PdbLine | None:
        return self._core.pdb_find_line(self._index, *self.files, self._names, rva)[0]


class _Functions:
    """What names RVAs: the procedures of all modules, each read once. A module that is refused costs its own names alone, and so does
    one whose stream, with those of the modules before it, has more bytes than the file: no linker writes a block for two."""

    def __init__(self, pdb: Pdb) -> None:
        self._pdb, self.sections = pdb, pdb._section_headers
        self.refused: dict[int, int] = {}
        self.modules: dict[int, _Symbols] = {}
        self._lines: dict[int, _Lines] = {}
        # The stream of ids and where its records start, once an RVA has an inlined function; why it is refused; and why the inlined
        # functions of a module are, of the first RVA that was asked for.
        self._ids: tuple[bytes, bytes] | None = None
        self.ids_error = 0
        self.inlined_errors: dict[int, int] = {}
        self._record_errors: dict[int, int] = {}
        left = len(pdb.memory)
        for number, module in enumerate(pdb.modules):
            if module.stream is None:
                continue
            try:
                # Once there are too many bytes no stream is copied: of a hostile file each module may have a long one.
                stream = pdb.stream(module.stream) if left >= 0 else b""
                left -= len(stream)
                if left < 0:
                    raise error_of(Kind.PDB_STREAM_SIZE, "module")
                self.modules[number] = _Symbols(PROCEDURES, stream, _pair(module.symbols), self.sections)
            except Error as error:
                self.refused[number] = error.number
        # Of several at one RVA, as a linker folds equal ones, that of the last module counts.
        self._starts = sorted(rva << 32 | number for number, it in self.modules.items() for rva in it.starts())

    def _module_at(self, rva: int) -> int | None:
        """The number of the module that may have an RVA, by the last procedure that starts at it or before it."""
        index = bisect.bisect_right(self._starts, rva << 32 | 0xFFFFFFFF) - 1
        return None if index < 0 else self._starts[index] & 0xFFFFFFFF

    def procedure(self, rva: int) -> tuple[PdbSymbol, int] | None:
        """The procedure that has an RVA, and the number of its module."""
        module = self._module_at(rva)
        found = None if module is None else self.modules[module].find(rva)
        return None if module is None or found is None else (found, module)

    def inlined(self, rva: int) -> _Inlined:
        """The functions that are inlined at an RVA of a procedure. Most RVAs have none: the ids are read when one has."""
        number = self._module_at(rva)
        if number is None:
            return (), 0, False
        lines, module = self.lines(number), self.modules[number]
        words = rva, _pair(self._pdb.modules[number].lines)
        files = lines.files, self._pdb._names[0]
        if self._ids is None:
            if module.inlined(*words, (b"", b""), files)[:2] == ((), 0):
                return (), 0, False
            self._ids = self._read_ids()
        found, refused, is_limited = module.inlined(*words, self._ids, files)
        # Without ids no function has a name, which the PDB says once.
        refused = refused or next((it for *_, name, line in found or () for it in (line, 0 if self.ids_error else name) if it), 0)
        if refused:
            self.inlined_errors.setdefault(number, refused)
        return found, refused, is_limited

    def _read_ids(self) -> tuple[bytes, bytes]:
        try:
            stream = self._pdb.stream(ID_STREAM)
            starts, self.ids_error, _ = _core_of(stream).pdb_ids()
            return (b"", b"") if starts is None else (stream, starts)
        except Error as error:
            self.ids_error = error.number
            return b"", b""

    def error_of_records(self, number: int) -> int:
        """Why the records of symbols of a module are refused, or the first of them that is, which are read once."""
        if number not in self._record_errors:
            rows, refused, _ = self.modules[number].all()
            self._record_errors[number] = refused or next((it.error for it in rows or () if it.error), 0)
        return self._record_errors[number]

    def lines(self, number: int) -> _Lines:
        """The lines of a module whose procedures were read, which are read when they are asked for."""
        if number not in self._lines:
            core, lines = self.modules[number].core, _pair(self._pdb.modules[number].lines)
            self._lines[number] = _Lines(core, lines, self.sections, self._pdb._names[0])
        return self._lines[number]


def _pair(it: _core.Range) -> tuple[int, int]:
    return it.offset, it.length


class Pdb(Reader):
    """A PDB over the bytes of a file. Raises Error where it is no PDB 7.0, or the stream that says which one is refused. After that it
    is as Image: `warnings` has what is damaged, and costs its own names alone."""

    def __init__(self, data: _typeshed.ReadableBuffer, *, copy: bool = True, path: str | None = None) -> None:
        super().__init__(data, BYTES, "PDB", copy=copy, path=path)
        self._one("pdb")

    @classmethod
    def open(cls, path: AnyFile, *, limit: int = 1 << 32) -> Pdb:
        """That of a file, by its path or open, which is read whole."""
        content, name = content_of(path, limit)
        return cls(content, path=name)

    @property
    def info(self) -> PdbInfo:
        """What the file says of itself."""
        info: PdbInfo = self._one("pdb")
        return info

    @property
    def machine(self) -> Machine:
        return Machine(self.info.machine)

    @property
    def guid(self) -> bytes:
        """With the age that by which an image names its PDB, as `SymbolKey.guid`."""
        return self.info.guid

    @property
    def age(self) -> int:
        """The age that the image has. That of the PDB itself, `info.age`, may be greater."""
        return self.info.dbi_age

    def symbol_path(self, name: str) -> str | None:
        """Where a symbol server has the PDB, NAME/KEY/NAME, under this name: a PDB does not know its own."""
        return pdb_path(name, self.guid, self.age)

    def matches(self, image: Image | SymbolKey) -> bool:
        """Whether it is the PDB of an image, or that of a key: by the GUID and the age. False where the stream with the age is refused,
        and for an image that names none."""
        key = image.symbol_key if isinstance(image, Image) else image
        return key is not None and self._read("pdb_is_of", key.guid, key.age)[0] is True

    @property
    def is_moved(self) -> bool:
        """Whether a tool moved the code of the image after it was linked (OMAP). Then RVAs of symbols and lines are those before that;
        `find` and `frames` take those of the image."""
        return not self.info.dbi_result and (self.info.omap_to_source, self.info.omap_from_source) != (NO_STREAM, NO_STREAM)

    @property
    def _omap(self) -> tuple[_core.Image, _core.Image] | Error | None:
        """Where code was that a tool moved, and where it is."""
        return self._once("OMAP", self._read_omap)

    def _read_omap(self) -> tuple[_core.Image, _core.Image] | Error | None:
        try:
            to_source, from_source = self.info.omap_to_source, self.info.omap_from_source
            return (_core_of(self.stream(to_source)), _core_of(self.stream(from_source))) if self.is_moved else None
        except Error as error:
            return error_of(error.number, "OMAP", self.path)

    def _linked(self, rva: int) -> int | None:
        """Where the code at an RVA of the image was when it was linked."""
        omap = self._omap
        return None if isinstance(omap, Error) or not 0 <= rva < 1 << 32 else rva if omap is None else omap[0].pdb_moved_rva(rva)[0]

    def _start(self, rva: int, start: int, offset: int) -> int:
        """Where a function starts in the image that started there when it was linked; where its start is gone, by the distance."""
        omap = self._omap
        found = start if omap is None or isinstance(omap, Error) else omap[1].pdb_moved_rva(start)[0]
        return rva - offset & 0xFFFFFFFF if found is None else found

    # ---- streams

    def stream(self, number: int) -> bytes:
        """A copy of the stream with a number. Raises Error."""
        stream: bytes = self._asked("stream", "pdb_stream", self._one("pdb_starts"), number)
        return stream

    def _stream_or_none(self, number: int) -> bytes:
        return b"" if number == NO_STREAM else self.stream(number)

    @property
    def _section_headers(self) -> bytes:
        self._check_dbi()
        return self._once("section headers", lambda: self.stream(self.info.original_section_headers) if self.is_moved
                          else self._stream_or_none(self.info.section_headers))

    @property
    def _names(self) -> tuple[bytes, int]:
        """The names of source files, and the number of why they are refused."""
        return self._once("names", self._read_names)

    def _read_names(self) -> tuple[bytes, int]:
        try:
            number, refused, _ = _core_of(self.stream(INFO_STREAM)).pdb_named_stream(b"/names")
            return (b"" if number is None else self.stream(number)), refused
        except Error as error:
            return b"", error.number

    def _check_dbi(self) -> None:
        if self.info.dbi_result:
            raise error_of(self.info.dbi_result, "DBI stream", self.path)

    # ---- lists

    @property
    def modules(self) -> Part[PdbModule]:
        """The modules, which are the objects that were linked. `error` says why they, or the DBI stream, are refused."""
        return self._once("modules", self._read_modules)

    def _read_modules(self) -> Part[PdbModule]:
        try:
            self._check_dbi()
            return self._part_of(_core_of(self.stream(DBI_STREAM)).pdb_modules(*_pair(self.info.modules)), "modules")
        except Error as error:
            return self._part_of(((), error.number, False), "modules")

    @property
    def _publics(self) -> _Symbols | Error:
        return self._once("public symbols", self._read_publics)

    def _read_publics(self) -> _Symbols | Error:
        try:
            sections = self._section_headers
            stream = self._stream_or_none(self.info.symbol_stream)
            return _Symbols(PUBLICS, stream, (0, len(stream)), sections)
        except Error as error:
            return error_of(error.number, "public symbols", self.path)

    @property
    def publics(self) -> Part[PdbSymbol]:
        """The public symbols, in the order of their records: functions and others."""
        def read() -> Part[PdbSymbol]:
            publics = self._publics
            return self._part_of(((), publics.number, False) if isinstance(publics, Error) else publics.all(), "public symbols")
        return self._once("publics", read)

    def _symbols_of(self, module: PdbModule) -> tuple[tuple[PdbSymbol, ...] | None, int, bool]:
        if module.stream is None:
            return (), 0, False
        try:
            return _Symbols(PROCEDURES, self.stream(module.stream), _pair(module.symbols), self._section_headers).all()
        except Error as error:
            return (), error.number, False

    def procedures(self, module: PdbModule) -> Part[PdbSymbol]:
        """The procedures of a module. Each time its stream is read: of a hostile PDB all modules may have one that is as long as the
        file. `functions` has those of all."""
        return self._part_of(self._symbols_of(module), f"procedures of {module.name}")

    def lines(self, module: PdbModule) -> Part[PdbLine]:
        """The lines of a module, by their RVAs; of several at one RVA the last one counts."""
        name = f"lines of {module.name}"
        if module.stream is None:
            return Part()
        try:
            sections, names = self._section_headers, self._names[0]
            return self._part_of(_Lines(_core_of(self.stream(module.stream)), _pair(module.lines), sections, names).all(), name)
        except Error as error:
            return self._part_of(((), error.number, False), name)

    @property
    def _functions(self) -> _Functions | Error:
        return self._once("functions", self._read_functions)

    def _read_functions(self) -> _Functions | Error:
        try:
            return _Functions(self)
        except Error as error:
            return error_of(error.number, "symbols", self.path)

    @property
    def functions(self) -> Part[PdbSymbol]:
        """The procedures of all modules, and public functions where no procedure starts, by their RVAs. Its `error` is the first of
        the modules' and of the public symbols'; `warnings` has them all."""
        return self._once("all functions", self._read_all)

    def _read_all(self) -> Part[PdbSymbol]:
        known = self._functions
        if isinstance(known, Error):
            return self._part_of(((), known.number, False), "functions")
        numbers, is_limited, rows = [*known.refused.values()], False, []
        for it in known.modules.values():
            found, number, was_limited = it.all()
            numbers, is_limited = numbers + [number], is_limited or was_limited
            rows += [it for it in found or () if it.rva is not None]
        starts = {it.rva for it in rows}
        rows += [it for it in self.publics if it.rva is not None and it.is_function and it.rva not in starts]
        numbers += [self.modules.error.number] if self.modules.error else []
        numbers += [self.publics.error.number] if self.publics.error else []
        rows.sort(key=lambda it: it.rva or 0)
        number = next((it for it in numbers if it), 0)
        return self._part_of((rows, number, is_limited or self.publics.is_limited), "functions")

    # ---- addresses

    def find(self, rva: int, is_return: bool = False) -> PdbFrame | None:
        """The function at an RVA, and its line: the procedure whose code has it, else the last public function before it. Of a return
        address the byte before it counts, as a call may be the last of its function. None where there is none."""
        at, known = self._linked(rva - is_return), self._functions
        if at is None:
            return None
        found = None if isinstance(known, Error) else known.procedure(at)
        if found is not None and not isinstance(known, Error):
            symbol, module = found
            line = known.lines(module).find(at)
            there = (None, None, None) if line is None or line.line is None else (line.file, line.line, line.column)
            return self._frame(symbol, rva, at + is_return, "procedure", *there)
        publics = self._publics
        public = None if isinstance(publics, Error) else publics.find(at)
        if public is None or public.rva is None:
            return None
        return self._frame(public, rva, at + is_return, "public", None, None, None)

    def _frame(self, symbol: PdbSymbol, rva: int, linked: int, source: str, *there: typing.Any) -> PdbFrame:
        offset = linked - (symbol.rva or 0)
        return PdbFrame(symbol.name, self._start(rva, symbol.rva or 0, offset), offset, source, *there)

    def frames(self, rva: int, is_return: bool = False) -> Part[PdbFrame]:
        """The functions at an RVA, the innermost first: those that are inlined there, 64 at most, and then what `find` returns. `error` says
        why those that are inlined, or a name or a line of one, are refused; so does `warnings`. Where files have names that are longer
        together than the PDB accounts for, as in a hostile one, some have no file, and it `is_limited`."""
        own, known = self.find(rva, is_return), self._functions
        if own is None or own.source == "public" or isinstance(known, Error):
            return Part(() if own is None else (own,))
        rows, number, is_limited = known.inlined(self._linked(rva - is_return) or 0)
        inlined = (PdbFrame(name, own.start, own.offset, own.source, file, line, None, True) for name, file, line, *_ in rows or ())
        return self._part_of(((*inlined, own), number, is_limited), f"inlined functions at 0x{rva:x}")

    def _cost_of(self, found: PdbFrame) -> int:
        """How many bytes of names were read to find it: of a file whose name is refused as much as all names."""
        file = len(found.file) if found.file is not None else len(self._names[0]) if found.line else 0
        return len(found.name) + file

    @property
    def warnings(self) -> tuple[ImageWarning, ...]:
        """What is damaged, a warning each; and that a tool moved the code. It reads the lines of all modules; of inlined functions it has
        what `frames` was refused so far."""
        found = [ImageWarning(WarningKind.SYMBOLS, "PDB", MOVED, None, self.path)] if self.is_moved else []
        errors = [self.modules.error, *(it if isinstance(it, Error) else None for it in (self._publics, self._omap))]
        known = self._functions
        if isinstance(known, _Functions):
            errors += self._module_errors(known)
            errors += [error_of(known.ids_error, "names of inlined functions", self.path)] if known.ids_error else []
        if self._names[1]:
            errors.append(error_of(self._names[1], "names of source files", self.path))
        return tuple(found + [ImageWarning(WarningKind.DAMAGED, it.part, it.text, it, self.path) for it in errors if it])

    def _module_errors(self, known: _Functions) -> list[Error]:
        """Why the symbols or the lines of modules are refused, and the first record of each that is."""
        errors: list[Error] = []
        for number, module in enumerate(self.modules):
            def add(refused: int, what: str, name: str = module.name) -> None:
                errors.extend([error_of(refused, f"{what} of {name}", self.path)] if refused else [])
            add(known.refused.get(number, 0), "symbols")
            if number in known.modules:
                add(known.error_of_records(number), "symbols")
                add(known.lines(number).error, "lines")
                add(known.inlined_errors.get(number, 0), "inlined functions")
        return errors
