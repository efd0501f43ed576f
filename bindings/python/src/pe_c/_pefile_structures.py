"""pefile's structures by formats, and those of its module's names that need no image.

A format is a name and fields "CODE,NAME": a code as struct has it, and the name of the value, or several. In a structure with bit
fields "CODE:BITS,NAME" is the next bits of a value, from the lowest on."""
from __future__ import annotations

import copy as _copies
import functools
import string
import struct
import time
import typing
from typing import Any

from ._pefile_gaps import NotInPeC, missing as _missing

# A name, and fields.
Format = tuple[str, typing.Iterable[str]]
# The code of a value in a structure, and its names.
Value = tuple[str, list[str]]

long = int
STRUCT_SIZEOF_TYPES = {it: struct.calcsize(f"<{it}") for it in "xcbBhHiIlLfqQds"}
MAX_STRING_LENGTH, MAX_IMPORT_SYMBOLS = 0x100000, 0x2000
MAX_IMPORT_NAME_LENGTH, MAX_DLL_LENGTH, MAX_SYMBOL_NAME_LENGTH = 0x200, 0x200, 0x200
MAX_SECTIONS, MAX_RESOURCE_ENTRIES, MAX_RESOURCE_DEPTH, MAX_SYMBOL_EXPORT_COUNT = 0x800, 0x8000, 32, 0x2000
FILE_ALIGNMENT_HARDCODED_VALUE = 0x200


class PEFormatError(Exception):
    """An image that is refused. `value` says why."""

    def __init__(self, value: str) -> None:
        super().__init__(value)
        self.value = value

    def __str__(self) -> str:
        return repr(self.value)


def lru_cache(maxsize: int = 128, typed: bool = False, copy: bool = False) -> Any:
    """functools.lru_cache; with `copy` each answer is a copy of the one that is kept."""
    keeps = functools.lru_cache(maxsize, typed)
    if not copy:
        return keeps

    def decorator(function: typing.Callable[..., Any]) -> Any:
        kept = keeps(function)
        return functools.wraps(function)(lambda *arguments, **named: _copies.copy(kept(*arguments, **named)))
    return decorator


def cache_adjust_FileAlignment(val: int, file_alignment: int) -> int:
    return val if file_alignment < FILE_ALIGNMENT_HARDCODED_VALUE else val // 0x200 * 0x200


def cache_adjust_SectionAlignment(val: int, section_alignment: int, file_alignment: int) -> int:
    alignment = file_alignment if section_alignment < 0x1000 else section_alignment
    return val // alignment * alignment if alignment else val


def retrieve_flags(flag_dict: dict[Any, Any], flag_filter: str) -> list[tuple[str, int]]:
    """The names of flags that start so, with their numbers."""
    return [(name, number) for name, number in flag_dict.items() if isinstance(name, str) and name.startswith(flag_filter)]


def set_flags(obj: Any, flag_field: int, flags: typing.Iterable[tuple[str, int]]) -> None:
    """Sets for each flag an attribute of its name, True where the number has it."""
    obj.__dict__.update((name, bool(number & flag_field)) for name, number in flags)


def power_of_two(val: int) -> bool:
    return val != 0 and val & (val - 1) == 0


def count_zeroes(data: bytes | bytearray) -> int:
    return data.count(0)


def b(x: str | bytes | bytearray) -> bytes:
    """The bytes of a text, by code page 1252."""
    return x.encode("cp1252") if isinstance(x, str) else bytes(x)


def parse_strings(data: bytes | memoryview, counter: int, l: dict[int, str]) -> None:
    """Adds the texts of a string table by their ids, from `counter` on. A text that is none is left out, and at the third the rest."""
    wrong = at = 0
    while at + 2 <= len(data) and wrong < 3:
        count, = struct.unpack_from("<h", data, at)
        at, counter = at + 2, counter + 1
        if 0 < count <= len(data) // 2:
            try:
                l[counter - 1] = bytes(data[at:at + 2 * count]).decode("utf-16-le")
            except UnicodeDecodeError:
                wrong += 1
            at += 2 * count


allowed_function_name = b(string.ascii_lowercase + string.ascii_uppercase + string.digits)
allowed_filename = allowed_function_name + b"!#$%&'()-@^_`{}~+,.;=[]"


def is_valid_dos_filename(s: Any) -> bool:
    """Whether each byte may stand in the name of a DLL, also one with its folders."""
    return isinstance(s, (str, bytes, bytearray)) and all(it in allowed_filename + b"\\/" for it in b(s))


def is_valid_function_name(s: Any, relax_allowed_characters: bool = False) -> bool:
    """Whether each byte may stand in the name of a function."""
    more = b"!\"#$%&'()*+,-./:<>?[\\]^_`{|}~@" if relax_allowed_characters else b"._?@$()<>"
    return isinstance(s, (str, bytes, bytearray)) and all(it in allowed_function_name + more for it in b(s))


class AddressSet(set[int]):
    """Numbers, and the distance of the least from the greatest that was added."""

    min: int | None = None
    max: int | None = None

    def add(self, value: int) -> None:
        super().add(value)
        self.min = value if self.min is None else min(self.min, value)
        self.max = value if self.max is None else max(self.max, value)

    def diff(self) -> int:
        return 0 if self.min is None or self.max is None else self.max - self.min


class Dump:
    """A text that is made of lines."""

    def __init__(self) -> None:
        self.text: list[str] = []

    def add_lines(self, txt: typing.Iterable[str], indent: int = 0) -> None:
        for it in txt:
            self.add_line(it, indent)

    def add_line(self, txt: str, indent: int = 0) -> None:
        self.add(f"{txt}\n", indent)

    def add(self, txt: str, indent: int = 0) -> None:
        self.text.append(" " * indent + txt)

    def add_header(self, txt: str) -> None:
        self.add_line(f"{'-' * 10}{txt}{'-' * 10}\n")

    def add_newline(self) -> None:
        self.text.append("\n")

    def get_text(self) -> str:
        return "".join(self.text)


# ---- formats


def sizeof_type(t: str) -> int:
    """The bytes of a code, as "I" or "8s"."""
    return struct.calcsize(f"<{t}")


def _values(fields: typing.Iterable[str]) -> list[Value]:
    return [(code, names.split(",")) for code, comma, names in (it.partition(",") for it in fields) if comma]


def _codes(values: list[Value]) -> str:
    return "<" + "".join(code for code, _ in values)


def _offsets(values: list[Value]) -> dict[str, int]:
    """The offset of each name in the structure."""
    found, offset = {}, 0
    for code, names in values:
        found.update(dict.fromkeys(names, offset))
        offset += struct.calcsize("<" + code)
    return found


def set_format(format: typing.Iterable[str]) -> tuple[str, list[None], dict[str, int], list[list[str]], int]:
    """What pefile makes of fields: the format of struct, a place for each value, offsets by names, the names, and the size."""
    values = _values(format)
    return _codes(values), [None] * len(values), _offsets(values), [names for _, names in values], struct.calcsize(_codes(values))


# The bit fields of a value: each name, and how many bits it has.
Bits = list[tuple[str, int]]


def _with_bits(fields: typing.Iterable[str]) -> tuple[list[Value], dict[str, Bits]]:
    """The values of a structure with bit fields, and those of each value that has them, whose own name is theirs after a ~."""
    values: list[Value] = []
    bits: list[Bits | None] = []
    for it in fields:
        code, _, names = it.partition(",")
        code, colon, count = code.partition(":")
        if not colon:
            values.append((code, names.split(",")))
            bits.append(None)
            continue
        if "," in names:
            raise NotImplementedError("Structures with bitfields do not support unions yet")
        last = bits[-1] if bits else None
        is_next = last is not None and values[-1][0] == code and sum(it[1] for it in last) + int(count) <= 8 * sizeof_type(code)
        if last is None or not is_next:
            last = []
            values.append((code, []))
            bits.append(last)
        last.append((names, int(count)))
    named = [(code, names if of is None else ["~" + "".join(it[0] for it in of)]) for (code, names), of in zip(values, bits)]
    return named, {names[0]: of for (_, names), of in zip(named, bits) if of is not None}


def set_bitfields_format(format: Format) -> tuple[str, int, dict[str, int], list[list[str]], list[list[str]], dict[int, tuple[str, Bits]]]:
    """What pefile makes of a format with bit fields: the format of struct, the size, offsets by names, the names of the values, those
    with the names of bit fields in their places, and the bit fields by the index of their value."""
    values, bits = _with_bits(format[1])
    offsets = _offsets(values)
    offsets.update((name, offsets[of]) for of, some in bits.items() for name, _ in some)
    extended = [one for _, names in values for one in ([[it] for it, _ in bits[names[0]]] if names[0] in bits else [names])]
    of_index = {i: (code, bits[names[0]]) for i, (code, names) in enumerate(values) if names[0] in bits}
    return _codes(values), struct.calcsize(_codes(values)), offsets, [it[1] for it in values], extended, of_index


# ---- structures


def _time(stamp: int) -> str:
    try:
        return f" [{time.asctime(time.gmtime(stamp))} UTC]"
    except (ValueError, OverflowError):
        return " [INVALID TIME]"


def dumped(name: str, value: Any) -> str:
    """The value of a field as `dump` shows it."""
    if name.startswith("Signature_") and isinstance(value, int):
        return f"{value:<8X}"
    if isinstance(value, int):
        return f"0x{value:<8X}{_time(value) if name in ('TimeDateStamp', 'dwTimeStamp') else ''}"
    value = bytes(value).rstrip(b"\0")
    if name.startswith("Signature"):
        return str(value.hex().upper())
    return "".join(chr(it) if 0x20 < it < 0x7F else f"\\x{it:02x}" for it in value)


class Structure:
    """A structure by a format: its fields are attributes once `__unpack__` has taken them of some bytes."""

    name: str
    DATA_DIRECTORY: list[Structure]
    StringTable: list[Structure]
    Var: list[Structure]
    entry: dict[bytes | None, str]
    _structure: str
    _fields: tuple[str, ...]
    _changed: set[str]

    def __init__(self, format: Format, name: str | None = None, file_offset: int | None = None) -> None:
        self._starts(name or format[0], format[0], file_offset, _values(format[1]))

    def _starts(self, name: str, structure: str, offset: int | None, values: list[Value]) -> None:
        self.__dict__.update(name=name, _structure=structure, _offset=offset, _values=values, _fields=(), _changed=set())

    def __setattr__(self, name: str, value: Any) -> None:
        if name in self.__dict__.get("_fields", ()):
            self._changed.add(name)
        self.__dict__[name] = value

    def __getattr__(self, name: str) -> Any:
        raise _missing(self.__dict__.get("_structure", ""), name)

    def __repr__(self) -> str:
        return f"<Structure: [{self.name}] {' '.join(f'{it}={getattr(self, it)!r}' for it in self._fields)}>"

    def __str__(self) -> str:
        return "\n".join(self.dump())

    def get_file_offset(self) -> int:
        """The file offset of the structure, where the library says where that is."""
        offset: int | None = self._offset
        if offset is None:
            raise NotInPeC(f"{self.name}.get_file_offset", "the library for C does not return where this structure stands")
        return offset

    def set_file_offset(self, offset: int) -> None:
        """Where `PE.write` writes the structure."""
        self.__dict__["_offset"] = offset

    def _layout(self, what: str) -> list[Value]:
        """The values as they stand in the file, for a method of this name."""
        values: list[Value] = self._values
        return values

    def __get_format__(self) -> str:
        """The format of struct."""
        return _codes(self._layout("__get_format__"))

    def sizeof(self) -> int:
        """The bytes of the structure in the file."""
        return struct.calcsize(_codes(self._layout("sizeof")))

    def _places(self, what: str) -> dict[str, int]:
        """The offset of each field in the structure."""
        return _offsets(self._layout(what))

    def get_field_relative_offset(self, field_name: str) -> int:
        return self._places("get_field_relative_offset")[field_name]

    def get_field_absolute_offset(self, field_name: str) -> int:
        return self.get_file_offset() + self._places("get_field_absolute_offset")[field_name]

    def _takes(self, fields: dict[str, Any]) -> None:
        """Has these fields, none of which was assigned."""
        self.__dict__.update(fields, _fields=tuple(fields), _changed=set())

    def __unpack__(self, data: bytes | bytearray) -> None:
        """Takes the fields of some bytes. Raises PEFormatError where these are too few."""
        values, size = self._layout("__unpack__"), self.sizeof()
        if len(data) < size:
            raise PEFormatError("Data length less than expected header length.")
        numbers = struct.unpack(_codes(values), bytes(data[:size]))
        self._takes({name: number for (_, names), number in zip(values, numbers) for name in names})

    def __pack__(self) -> bytes:
        """The structure as bytes, with what was assigned to its fields. Of a union that name counts which was assigned."""
        layout = self._layout("__pack__")
        values = [getattr(self, next((it for it in names if it in self._changed), names[0])) for _, names in layout]
        return struct.pack(_codes(layout), *values)

    def dump(self, indentation: int = 0) -> list[str]:
        """The fields in lines: where each stands, its name and its value."""
        start, lines = self.get_file_offset(), [f"[{self.name}]"]
        for name, offset in self._places("dump").items():
            lines.append("0x%-8X 0x%-3X %-30s %s" % (start + offset, offset, name + ":", dumped(name, getattr(self, name))))
        return lines

    def dump_dict(self) -> dict[str, Any]:
        """The fields by their names: where each stands, and its value."""
        start = self.get_file_offset()
        found: dict[str, Any] = {"Structure": self.name}
        for name, offset in self._places("dump_dict").items():
            value = getattr(self, name)
            if isinstance(value, int):
                value = dumped(name, value) if name in ("TimeDateStamp", "dwTimeStamp") else value
            else:
                value = "".join(chr(it) if chr(it) in string.printable else f"\\x{it:02x}" for it in value)
            found[name] = {"FileOffset": start + offset, "Offset": offset, "Value": value}
        return found

    def all_zeroes(self) -> bool:
        """Whether all fields are 0 that are there."""
        values = (getattr(self, it) for it in self._fields)
        return not any(it if isinstance(it, int) else it.strip(b"\0") for it in values if isinstance(it, (int, bytes)))


class StructureWithBitfields(Structure):
    """A structure by a format with bit fields: each is a field of its own."""

    BTF_NAME_IDX, BTF_BITCNT_IDX, CF_TYPE_IDX, CF_SUBFLD_IDX = 0, 1, 0, 1

    def __init__(self, format: Format, name: str | None = None, file_offset: int | None = None) -> None:
        values, bits = _with_bits(format[1])
        self._starts(name or format[0], format[0], file_offset, values)
        self.__dict__["_bits"] = bits

    def _places(self, what: str) -> dict[str, int]:
        found: dict[str, int] = {}
        for name, offset in super()._places(what).items():
            found.update((it, offset) for it in ([it for it, _ in self._bits[name]] if name in self._bits else [name]))
        return found

    def __unpack__(self, data: bytes | bytearray) -> None:
        super().__unpack__(data)
        fields: dict[str, Any] = {}
        for name in self._fields:
            number = self.__dict__.pop(name)
            if name not in self._bits:
                fields[name] = number
            for one, count in self._bits.get(name, ()):
                fields[one], number = number & (1 << count) - 1, number >> count
        self._takes(fields)

    def __pack__(self) -> bytes:
        joined = {}
        for name, some in self._bits.items():
            number = 0
            for one, count in reversed(some):
                number = number << count | getattr(self, one) & (1 << count) - 1
            joined[name] = number
        values = [joined[names[0]] if names[0] in joined else getattr(self, names[0]) for _, names in self._layout("__pack__")]
        return struct.pack(self.__get_format__(), *values)
