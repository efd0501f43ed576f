"""Unwind records of x64, UNWIND_INFO, by pefile's names.

The library reads a record and its codes. The numbers in its first four bytes are taken from the file, since the library returns what
they mean, and not both flags of handlers. The structure of a code is known where the codes fill the record in their shortest forms,
as compilers write them."""
from __future__ import annotations

import functools
import struct
import typing
from typing import Any

from . import _pefile_tables as _tables
from ._pefile_gaps import NotInPeC
from ._pefile_structures import Format, Structure, StructureWithBitfields, set_flags

_REGISTERS = {number: name for name, number in _tables.registers}
# The number of a library's register xmm0.
_XMM = 17
_HEADER = ("UNWIND_INFO", ("B:3,Version", "B:5,Flags", "B,SizeOfProlog", "B,CountOfCodes", "B:4,FrameRegister", "B:4,FrameOffset"))
_SHORTEST = "the codes of this record do not fill it in their shortest forms, and the library for C does not return which form each has"


@functools.lru_cache(maxsize=64)
def _slots(format: Format) -> int:
    return StructureWithBitfields(format).sizeof() // 2


class PrologEpilogOp:
    """An unwind code: its structure, and its text."""

    _form: typing.ClassVar[tuple[str, ...]] = ("UNWIND_CODE", "B:4,OpInfo")
    _data: bytes | None = None
    _offset = 0

    def __init__(self, register: int = 0, value: int = 0) -> None:
        self._register, self._value = register, value

    def _format(self) -> Format:
        name, *more = self._form
        return name, ("B,CodeOffset", "B:4,UnwindOp", *more)

    @property
    def struct(self) -> Structure:
        """The code as it stands in the file. What is assigned to it is not written."""
        if self._data is None:
            raise NotInPeC(f"{type(self).__name__}.struct", _SHORTEST)
        made = StructureWithBitfields(self._format(), file_offset=self._offset)
        made.__unpack__(self._data)
        return made

    def length_in_code_structures(self, unw_code: Any = None, unw_info: Any = None) -> int:
        """How many UNWIND_CODE structures the code occupies."""
        return _slots(self._format())

    def is_valid(self) -> bool:
        return True


class _Saves(PrologEpilogOp):
    """A code that saves a register."""

    def get_offset(self) -> int:
        return self._value


class _Allocates(PrologEpilogOp):
    """A code that allocates."""

    def get_alloc_size(self) -> int:
        return self._value

    def __str__(self) -> str:
        return f".ALLOCSTACK {self._value:#x}"


class PrologEpilogOpPushReg(PrologEpilogOp):
    """UWOP_PUSH_NONVOL"""

    _form = "UNWIND_CODE_PUSH_NONVOL", "B:4,Reg"

    def __str__(self) -> str:
        return f".PUSHREG {_REGISTERS[self._register]}"


class PrologEpilogOpAllocLarge(_Allocates):
    """UWOP_ALLOC_LARGE"""

    _form = "UNWIND_CODE_ALLOC_LARGE", "B:4,OpInfo", "H,AllocSizeInQwords"

    def _format(self) -> Format:
        name, fields = super()._format()
        return (name, fields) if self._value < 8 << 16 else (name, (*[*fields][:-1], "I,AllocSize"))


class PrologEpilogOpAllocSmall(_Allocates):
    """UWOP_ALLOC_SMALL"""

    _form = "UNWIND_CODE_ALLOC_SMALL", "B:4,AllocSizeInQwordsMinus8"


class PrologEpilogOpSetFP(PrologEpilogOp):
    """UWOP_SET_FPREG"""

    def __str__(self) -> str:
        return f".SETFRAME {_REGISTERS[self._register]}, {self._value:#x}"


class PrologEpilogOpSaveReg(_Saves):
    """UWOP_SAVE_NONVOL"""

    _form = "UNWIND_CODE_SAVE_NONVOL", "B:4,Reg", "H,OffsetInQwords"

    def __str__(self) -> str:
        return f".SAVEREG {_REGISTERS[self._register]}, {self._value:#x}"


class PrologEpilogOpSaveRegFar(PrologEpilogOpSaveReg):
    """UWOP_SAVE_NONVOL_FAR"""

    _form = "UNWIND_CODE_SAVE_NONVOL_FAR", "B:4,Reg", "I,Offset"


class PrologEpilogOpSaveXMM(_Saves):
    """UWOP_SAVE_XMM128"""

    _form = "UNWIND_CODE_SAVE_XMM128", "B:4,Reg", "H,OffsetIn2Qwords"

    def __str__(self) -> str:
        return f".SAVEXMM128 XMM{self._register}, {self._value:#x}"


class PrologEpilogOpSaveXMMFar(PrologEpilogOpSaveXMM):
    """UWOP_SAVE_XMM128_FAR"""

    _form = "UNWIND_CODE_SAVE_XMM128_FAR", "B:4,Reg", "I,Offset"


class PrologEpilogOpPushFrame(PrologEpilogOp):
    """UWOP_PUSH_MACHFRAME"""

    def __str__(self) -> str:
        return f".PUSHFRAME{' <code>' if self._register else ''}"


class PrologEpilogOpEpilogMarker(_Saves):
    """UWOP_EPILOG: the first of a record has the size of its epilogs, and of one that is not at the end of the function it is two
    structures long."""

    _forms: typing.ClassVar[dict[str, tuple[str, ...]]] = {
        "at the end": ("B,OffsetLow,Size", "B:4,UnwindOp", "B:4,Flags"),
        "first": ("B,Size", "B:4,UnwindOp", "B:4,Flags", "B,OffsetLow", "B:4,Unused", "B:4,OffsetHigh"),
        "next": ("B,OffsetLow", "B:4,UnwindOp", "B:4,OffsetHigh")}

    def __init__(self, size: int, offset: int, which: str) -> None:
        super().__init__(0, offset)
        self._size, self._which = size, which

    def _format(self) -> Format:
        return "UNWIND_CODE_EPILOG", self._forms[self._which]

    def is_valid(self) -> bool:
        return self._value > 0

    def __str__(self) -> str:
        return f"EPILOG: size={self._size:#x}, offset from the end=-{self._value:#x}" if self.is_valid() else ""


class UnwindInfo(StructureWithBitfields):
    """An unwind record: Version, Flags, SizeOfProlog, CountOfCodes, FrameRegister, FrameOffset; the flags by their names; UnwindCodes;
    ExceptionHandler, or FunctionEntry where the record is chained."""

    Flags: int
    CountOfCodes: int
    UnwindCodes: list[PrologEpilogOp]
    _last: str
    _whole: bytes

    def __init__(self, file_offset: int = 0) -> None:
        super().__init__(_HEADER, file_offset=file_offset)
        self.__dict__.update(UnwindCodes=[], _last="", _chained=None, _whole=b"")

    def __setattr__(self, name: str, value: Any) -> None:
        flags = dict(_tables.unwind_info_flags)
        if name in flags:
            self.Flags = self.Flags | flags[name] if value else self.Flags & ~flags[name]
            return
        super().__setattr__(name, value)
        if name == "Flags":
            set_flags(self, value, _tables.unwind_info_flags)

    def _places(self, what: str) -> dict[str, int]:
        found = super()._places(what)
        return {**found, self._last: self.sizeof() - 4} if self._last else found

    def sizeof(self) -> int:
        """With all codes, and what follows them."""
        return 4 + 2 * (self.CountOfCodes + 1 & ~1) + (4 if self.Flags else 0) if self._fields else 4

    def __pack__(self) -> bytes:
        """The record as bytes, with what was assigned to its own fields. Its codes stay as they are."""
        last = struct.pack("<I", getattr(self, self._last)) if self._last else b""
        return super().__pack__() + self._whole[4:self.sizeof() - len(last)] + last

    def dump(self, indentation: int = 0) -> list[str]:
        flags = [name for name, _ in _tables.unwind_info_flags if getattr(self, name)]
        codes = [str(it) for it in self.UnwindCodes if it.is_valid()]
        return [*super().dump(indentation), f"Flags: {', '.join(flags)}", f"Unwind codes: {'; '.join(codes)}"]

    def get_chained_function_entry(self) -> Any:
        """The entry of the function table whose record continues this one."""
        return self._chained() if self._chained else None


# ---- of what the library reads

# The operations of the library's codes, PE_C_PUSH and those after it.
_PUSH, _ALLOC, _SET_FRAME, _SAVE, _SAVE_XMM, _EPILOG, _SAVE_XMM128, _MACHINE_FRAME = range(8)


def _plain(code: Any, info: UnwindInfo) -> PrologEpilogOp | None:
    """A code that is none of an epilog, in its shortest form; None for one that pefile does not know."""
    register, value = code.operand, code.value
    if code.operation == _ALLOC:
        return (PrologEpilogOpAllocSmall if 8 <= value <= 128 else PrologEpilogOpAllocLarge)(0, value)
    if code.operation == _SAVE:
        return (PrologEpilogOpSaveReg if value < 8 << 16 and value % 8 == 0 else PrologEpilogOpSaveRegFar)(register, value)
    if code.operation == _SAVE_XMM128:
        is_near = value < 16 << 16 and value % 16 == 0
        return (PrologEpilogOpSaveXMM if is_near else PrologEpilogOpSaveXMMFar)(register - _XMM, value)
    if code.operation == _SET_FRAME:
        return PrologEpilogOpSetFP(info.FrameRegister, info.FrameOffset * 16)
    of = {_PUSH: PrologEpilogOpPushReg, _MACHINE_FRAME: PrologEpilogOpPushFrame}
    return of[code.operation](register) if code.operation in of else None


def _epilogs(codes: list[Any]) -> typing.Iterator[PrologEpilogOp]:
    """The codes of epilogs, which come first in a record."""
    if codes and codes[0].operand & 1:
        yield PrologEpilogOpEpilogMarker(codes[0].value, codes[0].value, "at the end")
    for i, it in enumerate(codes[1:]):
        is_first = i == 0 and not codes[0].operand & 1
        yield PrologEpilogOpEpilogMarker(codes[0].value, it.value | it.operand << 8, "first" if is_first else "next")


def _codes(info: UnwindInfo, codes: typing.Sequence[Any], offset: int) -> list[PrologEpilogOp]:
    plain = (_plain(it, info) for it in codes if it.operation != _EPILOG)
    found = [*_epilogs([it for it in codes if it.operation == _EPILOG]), *(it for it in plain if it is not None)]
    lengths = [it.length_in_code_structures() for it in found]
    at, is_full = 4, sum(lengths) == info.CountOfCodes
    for it, length in zip(found, lengths):
        if is_full:
            it._offset, it._data = offset + at, info._whole[at:at + 2 * length]
        at += 2 * length
    return found


def read(pe: Any, rva: int) -> UnwindInfo | None:
    """The record at an RVA, None for a link to another entry and where no record can be read. It is the same for all functions that
    share it."""
    kept = pe.__dict__.setdefault("_unwinding", {})
    if rva not in kept:
        kept[rva] = None if rva & 1 else _read(pe, rva)
    info: UnwindInfo | None = kept[rva]
    return info


def _read(pe: Any, rva: int) -> UnwindInfo | None:
    offset = pe._image.offset_of(rva)
    record = pe._image._read("unwind_record", rva)[0]
    if offset is None or record is None:
        return None
    info = UnwindInfo(offset)
    info.__unpack__(pe.__data__[offset:offset + 4])
    set_flags(info, info.Flags, _tables.unwind_info_flags)
    info.__dict__["_whole"] = pe.__data__[offset:offset + info.sizeof()]
    info.__dict__["UnwindCodes"] = _codes(info, record.codes, offset)
    if record.is_chained:
        begin = record.chained.begin
        info.__dict__.update(FunctionEntry=begin, _last="FunctionEntry", _chained=lambda: _entry(pe, begin))
    elif info.Flags & 3:
        info.__dict__.update(ExceptionHandler=record.handler, _last="ExceptionHandler")
    info.__dict__["_fields"] += (info._last,) if info._last else ()
    return info


def _entry(pe: Any, begin: int) -> Any:
    """The entry of the function table with a start RVA, the last of several."""
    kept = pe.__dict__.setdefault("_unwinding", {})
    if "entries" not in kept:
        kept["entries"] = {it.struct.BeginAddress: it for it in pe.DIRECTORY_ENTRY_EXCEPTION}
    return kept["entries"].get(begin)
