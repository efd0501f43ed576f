"""The name, version and references of an assembly, from the tables of .NET's metadata, for `_facts`: see ECMA-335, II.24.2.6 and
II.22. pe.h has no call for the tables. A list is a triple as those of _core; what is not whole is Kind.SHORT."""
from __future__ import annotations

import typing

from ._kinds import Kind

Column = typing.Union[int, str, tuple[int, tuple[int, ...]]]
Cells = list[int]


def _row(table: int) -> Column:
    return 0, (table,)


# A column: a number of so many bytes, "t" an offset in the heap of texts, "g" a GUID, "b" a blob, or the number of a row of one of some
# tables by so many bits.
TYPE, CONSTANT, MARSHAL, SECURITY = (2, (2, 1, 0x1B)), (2, (4, 8, 0x17)), (1, (4, 8)), (2, (2, 6, 0x20))
ATTRIBUTE = (5, (6, 4, 1, 2, 8, 9, 0xA, 0, 0xE, 0x17, 0x14, 0x11, 0x1A, 0x1B, 0x20, 0x23, 0x26, 0x27, 0x28, 0x2A, 0x2C, 0x2B))
PARENT, SEMANTICS, METHOD, FORWARDED = (3, (2, 1, 0x1A, 6, 0x1B)), (1, (0x14, 0x17)), (1, (6, 0xA)), (1, (4, 6))
ATTRIBUTE_TYPE, SCOPE = (3, (6, 0xA)), (2, (0, 0x1A, 0x23, 1))
# The columns of each table, by its number, up to that of references.
TABLES: list[tuple[Column, ...]] = [
    (2, "t", "g", "g", "g"), (SCOPE, "t", "t"), (4, "t", "t", TYPE, _row(4), _row(6)), (_row(4),), (2, "t", "b"), (_row(6),),
    (4, 2, 2, "t", "b", _row(8)), (_row(8),), (2, 2, "t"), (_row(2), TYPE), (PARENT, "t", "b"), (2, CONSTANT, "b"),
    (ATTRIBUTE, ATTRIBUTE_TYPE, "b"), (MARSHAL, "b"), (2, SECURITY, "b"), (2, 4, _row(2)), (4, _row(4)), ("b",),
    (_row(2), _row(0x14)), (_row(0x14),), (2, "t", TYPE), (_row(2), _row(0x17)), (_row(0x17),), (2, "t", "b"),
    (2, _row(6), SEMANTICS), (_row(2), METHOD, METHOD), ("t",), ("b",), (2, FORWARDED, "t", _row(0x1A)), (4, _row(4)),
    (4, 4), (4,), (4, 2, 2, 2, 2, 4, "b", "t", "t"), (4,), (4, 4, 4), (2, 2, 2, 2, 4, "b", "t", "t", "b")]
MODULE, ASSEMBLY, ASSEMBLY_REF = 0, 0x20, 0x23
HEAPS, HAS_EXTRA_DATA = {"t": 1, "g": 2, "b": 4}, 0x40
IS_WHOLE_KEY, TOKEN_SIZE, GUID_SIZE = 1, 8, 16
# How often the bytes of the metadata may be read for references, and what one costs besides its texts, in bytes.
READINGS, ENTRY = 16, 8
# How many references are shown. The metadata of a hostile image may have nothing else.
MOST_REFERENCES = 1 << 14


class Short(Exception):
    """What is read is not whole."""


class Module(typing.NamedTuple):
    name: bytes
    mvid: bytes | None


class Assembly(typing.NamedTuple):
    name: bytes
    version: str
    culture: bytes
    has_public_key: bool
    token: bytes | None


class Tables(typing.NamedTuple):
    module: Module | None
    assembly: Assembly | None
    references: tuple[tuple[Assembly, ...], int, bool]


class Reader:
    """The stream of the tables, and the heaps."""

    def __init__(self, tables: bytes, texts: bytes, guids: bytes, blobs: bytes) -> None:
        self.texts, self.guids, self.blobs = texts, guids, blobs
        if len(tables) < 16:
            raise Short
        self.heaps, present, offset = tables[6], int.from_bytes(tables[8:16], "little"), 24
        self.rows = [0] * 64
        for table in range(64):
            if present >> table & 1:
                if offset + 4 > len(tables):
                    raise Short
                self.rows[table] = int.from_bytes(tables[offset:offset + 4], "little")
                offset += 4
        offset += 4 if self.heaps & HAS_EXTRA_DATA else 0
        if offset > len(tables):
            raise Short
        self.bytes = memoryview(tables)[offset:]
        self.widths = [[self._width(it) for it in columns] for columns in TABLES]

    def _width(self, column: Column) -> int:
        if isinstance(column, int):
            return column
        if isinstance(column, str):
            return 4 if self.heaps & HEAPS[column] else 2
        bits, tables = column
        return 4 if any(self.rows[it] > 0xFFFF >> bits for it in tables) else 2

    def rows_of(self, table: int) -> typing.Iterator[Cells]:
        """The rows of a table. Raises Short where one is not whole."""
        start = sum(self.rows[it] * sum(self.widths[it]) for it in range(table))
        size = sum(self.widths[table])
        for _ in range(self.rows[table]):
            row, cells, at = self.bytes[start:start + size], [], 0
            if len(row) < size:
                raise Short
            for width in self.widths[table]:
                cells.append(int.from_bytes(row[at:at + width], "little"))
                at += width
            yield cells
            start += size

    def text(self, offset: int) -> bytes:
        """The text at an offset of its heap, without the zero at its end."""
        end = self.texts.find(b"\0", offset)
        if end < 0:
            raise Short
        return self.texts[offset:end]

    def blob(self, offset: int) -> bytes:
        """The bytes at an offset of their heap, after their length in one, two or four bytes."""
        head = self.blobs[offset:offset + 4]
        size = 1 if head[:1] < b"\x80" else 2 if head[:1] < b"\xC0" else 4
        if not head or len(head) < size or head[0] >= 0xE0:
            raise Short
        length = int.from_bytes(head[:size], "big") & {1: 0x7F, 2: 0x3FFF, 4: 0x1FFF_FFFF}[size]
        found = self.blobs[offset + size:offset + size + length]
        if len(found) < length:
            raise Short
        return found

    def identity(self, version: Cells, key: int, name: int, culture: int) -> Assembly:
        own = self.text(culture)
        return Assembly(self.text(name), ".".join(map(str, version)), own, key != 0, None)

    def module(self) -> Module | None:
        for row in self.rows_of(MODULE):
            start = (row[2] - 1) * GUID_SIZE
            is_there = row[2] > 0 and start + GUID_SIZE <= len(self.guids)
            return Module(self.text(row[1]), self.guids[start:start + GUID_SIZE] if is_there else None)
        return None

    def assembly(self) -> Assembly | None:
        for row in self.rows_of(ASSEMBLY):
            return self.identity(row[1:5], *row[6:])
        return None

    def references(self, left: int) -> tuple[tuple[Assembly, ...], int, bool]:
        """The assemblies that are referred to, for so many bytes."""
        found: list[Assembly] = []
        try:
            for row in self.rows_of(ASSEMBLY_REF):
                flags, key, name, culture = row[4:8]
                it, token = self.identity(row[:4], key, name, culture), self.blob(key)
                left -= ENTRY + len(it.name) + len(it.culture)
                if left < 0 or len(found) == MOST_REFERENCES:
                    return tuple(found), 0, True
                is_token = not flags & IS_WHOLE_KEY and len(token) == TOKEN_SIZE
                found.append(it._replace(token=token if is_token else None))
        except Short:
            return tuple(found), Kind.SHORT, False
        return tuple(found), 0, False


def tables(streams: typing.Iterable[tuple[str, memoryview | None]], length: int) -> tuple[Tables | None, int, bool]:
    """Those of metadata of so many bytes, by the names and contents of its streams; None where it has none."""
    contents: dict[str, memoryview | None] = {}
    for name, content in streams:
        contents.setdefault(name, content)
    own = next((it for it in contents if it in ("#~", "#-")), None)
    if own is None:
        return None, 0, False
    try:
        reader = Reader(*(bytes(contents.get(it) or b"") for it in (own, "#Strings", "#GUID", "#Blob")))
        return Tables(reader.module(), reader.assembly(), reader.references(READINGS * length)), 0, False
    except Short:
        return None, Kind.SHORT, False
