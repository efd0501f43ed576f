"""Names of functions without a PDB: what names addresses of images, and the frames of stacks."""
from __future__ import annotations

import bisect
import heapq
import struct
import typing
from typing import Any

from . import _core
from ._core import Arm64StackFrame, FunctionName, StackFrame
from ._kinds import Kind
from ._part import Error, error_of

AnyFrame = typing.Union[StackFrame, Arm64StackFrame]
# An RVA, and whether it is a return address.
Address = tuple[int, bool]
# The tables of which names are read, in the order of the rows of `name_tables`.
TABLES = ("functions", "symbols", "strings", "exports")
# How many bytes a name has at most.
LONGEST = 4095


def address_of(frame: AnyFrame) -> int:
    """The instruction pointer of a frame."""
    registers: Any = frame.registers
    ip: int = registers.rip if isinstance(frame, StackFrame) else registers.pc
    return ip


class Places:
    """Modules by their addresses: an address is that of the first module that has it."""

    def __init__(self, modules: typing.Iterable[tuple[int, int]]) -> None:
        """Of each module its address and its size."""
        spans = [(base, base + size) for base, size in modules]
        self.bases = [base for base, _ in spans]
        self._edges = sorted({it for span in spans for it in span})
        self._owners: list[int | None] = []
        waiting = sorted(range(len(spans)), key=lambda it: -spans[it][0])
        # The modules that start at an edge or before it, the first one at the top, and none there that ends at it or before.
        open_ones: list[int] = []
        for edge in self._edges:
            while waiting and spans[waiting[-1]][0] <= edge:
                heapq.heappush(open_ones, waiting.pop())
            while open_ones and spans[open_ones[0]][1] <= edge:
                heapq.heappop(open_ones)
            self._owners.append(open_ones[0] if open_ones else None)

    def at(self, address: int) -> int | None:
        """The number of the module, or None."""
        index = bisect.bisect_right(self._edges, address) - 1
        return self._owners[index] if index >= 0 else None


def refused_tables(core: _core.Image, path: str | None) -> dict[str, Error]:
    """The tables of an image that are refused, with why."""
    tables, _, _ = core.name_tables()
    assert tables is not None
    numbers = {name: getattr(tables, f"{name}_result") for name in TABLES}
    return {name: error_of(number, name, path) for name, number in numbers.items() if number not in (0, Kind.NOTHING)}


def names_of(core: _core.Image, addresses: typing.Sequence[Address], most: int | None = None) -> tuple[list[FunctionName | None], bool]:
    """What names each of these addresses of an image, in their order; and whether there are more bytes of names than may be read."""
    asked = [it for it in addresses if 0 <= it[0] < 1 << 32]
    packed = b"".join(struct.pack("<II", rva, is_return) for rva, is_return in asked)
    names, number, is_limited = core.function_names(packed, LONGEST * len(asked) if most is None else most)
    if number or names is None:
        raise error_of(number, "function names")
    found = dict(zip(asked, names))
    return [found.get(it) for it in addresses], is_limited


class Names:
    """What names the frames of stacks, by the images of modules. What has a name in an image is sorted each time that names of it are
    read, so it keeps what was read, and reads those of many frames at once."""

    def __init__(self, images: tuple[_core.Image | None, ...], places: Places) -> None:
        self._images, self._places = images, places
        self._read: dict[tuple[int, Address], FunctionName | None] = {}
        self.is_limited = False

    def image_at(self, address: int) -> _core.Image | None:
        """The image of the module that has an address."""
        module = self._places.at(address)
        return None if module is None else self._images[module]

    def place_of(self, frame: AnyFrame) -> tuple[int, Address] | None:
        """The module with an image that has the code of a frame, and where: of a return address the byte before it counts."""
        ip, is_return = address_of(frame), frame.has_called
        module = self._places.at(ip - is_return)
        if module is None or self._images[module] is None:
            return None
        return module, (ip - self._places.bases[module], is_return)

    def unread(self, frames: typing.Iterable[AnyFrame]) -> dict[int, list[Address]]:
        """Of each module the addresses of frames whose names were not read yet, each once."""
        found: dict[int, dict[Address, None]] = {}
        for place in map(self.place_of, (it for it in frames if it.function is None)):
            if place is not None and place not in self._read:
                found.setdefault(place[0], {})[place[1]] = None
        return {module: list(addresses) for module, addresses in found.items()}

    def room_of(self, module: int) -> int:
        """How many names are sorted to read one."""
        image = self._images[module]
        tables = image.name_tables()[0] if image is not None else None
        return 0 if tables is None else tables.room

    def read(self, module: int, addresses: list[Address], most: int | None = None) -> int:
        """Reads the names of addresses, of so many bytes at most, and returns how long they are together."""
        image = self._images[module]
        assert image is not None
        names, is_limited = names_of(image, addresses, most)
        self._read.update(((module, it), name) for it, name in zip(addresses, names))
        self.is_limited = self.is_limited or is_limited
        return sum(len(it.name or "") for it in names if it is not None)

    def named(self, frames: typing.Iterable[AnyFrame]) -> typing.Iterator[AnyFrame]:
        """The frames with what names them, of names that were read. Those that a PDB names stay."""
        for frame in frames:
            place = self.place_of(frame) if frame.function is None else None
            name = self._read.get(place) if place is not None else None
            yield frame if name is None else type(frame)((*frame[:-5], name, *frame[-4:]))
