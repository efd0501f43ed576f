"""What images, objects, TE images and minidumps share: their bytes, and how their parts are read."""
from __future__ import annotations

import errno
import io
import os
import stat
import typing
from typing import TYPE_CHECKING, Any, TypeVar

from . import _core
from ._part import Error, Part, error_of

if TYPE_CHECKING:
    import _typeshed

T = TypeVar("T")
Self = TypeVar("Self", bound="Reader")
# What the bytes of a _core.Image are.
IMAGE, OBJECT, TE, BYTES = range(4)
# How many bytes are read at once of what does not say how many it has.
PIECE = 1 << 20
# A path, or a file that is open in binary mode.
AnyFile = typing.Union[str, "os.PathLike[str]", typing.BinaryIO]


def _in_pieces(file: Any, limit: int, path: str | None) -> bytes:
    """What follows the position of a file that is open. One call would make room for as much as it asks for."""
    pieces: list[bytes] = []
    while True:
        piece: object = file.read(min(PIECE, limit + 1))
        if not isinstance(piece, (bytes, bytearray, memoryview)):
            raise TypeError(f"the file is not open in binary mode: it reads {type(piece).__name__}")
        if not piece:
            return b"".join(pieces)
        limit -= len(piece)
        if limit < 0:
            raise _too_large(path)
        pieces.append(bytes(piece))


def _too_large(path: str | None) -> OSError:
    return OSError(errno.EFBIG, os.strerror(errno.EFBIG), path)


def content_of(file: AnyFile, limit: int) -> tuple[bytes, str | None]:
    """A file whole, and its path: one that is mapped, and that another program truncates, would end this one. Of a file that is
    open what follows its position."""
    if isinstance(file, (str, os.PathLike)):
        name = os.fspath(file)
        with io.open(name, "rb", buffering=0) as opened:
            about = os.fstat(opened.fileno())
            if about.st_size > limit:
                raise _too_large(name)
            # A pipe or a device does not say how much it has.
            return opened.readall() if stat.S_ISREG(about.st_mode) else _in_pieces(opened, limit, name), name
    if not hasattr(file, "read"):
        raise TypeError(f"a path or a file that is open in binary mode, and not {type(file).__name__}")
    given = getattr(file, "name", None)
    path = given if isinstance(given, str) else None
    return _in_pieces(file, limit, path), path


class Reader:
    """The bytes of a file, and what was read of them."""

    def __init__(self, data: _typeshed.ReadableBuffer, kind: int, part: str, *, mode: int = 1, copy: bool = True,
                 path: str | None = None) -> None:
        self.path = path
        self._kept: dict[str, Any] = {}
        self._kind_and_mode = kind, mode
        core, number = _core.image(data, mode, copy, kind, False)
        if core is None:
            raise error_of(number, part, path)
        self._core = core

    def __copy__(self: Self) -> Self:
        """The same file once more, over the same bytes: either is closed without the other."""
        made = type(self).__new__(type(self))
        kind, mode = self._kind_and_mode
        core, number = _core.image(self.memory, mode, False, kind, False)
        if core is None:
            # The bytes are others than they were, as of an image that holds what its caller writes to.
            raise error_of(number, "headers", self.path)
        made.__dict__.update({**self.__dict__, "_kept": {}, "_core": core})
        return made

    def __deepcopy__(self: Self, memo: dict[int, Any]) -> Self:
        """Bytes are never changed, so that a copy need not have its own."""
        return self.__copy__()

    def close(self) -> None:
        """Lets the buffer go. Raises BufferError while another call reads the image, as that of another thread."""
        self._core.close()
        self._kept.clear()

    @property
    def closed(self) -> bool:
        return self._core.closed

    def __enter__(self: Self) -> Self:
        return self

    def __exit__(self, *_: object) -> None:
        self.close()

    @property
    def memory(self) -> memoryview:
        """All bytes of the image, which can't be written."""
        return self._core.memory

    # ---- reading

    def _read(self, name: str, *arguments: Any) -> tuple[Any, int, bool]:
        answer: tuple[Any, int, bool] = getattr(self._core, name)(*arguments)
        return answer

    def _once(self, name: str, read: typing.Callable[[], T]) -> T:
        """What is read of an open image, kept until it is closed: from then on each read raises ValueError."""
        if name not in self._kept:
            self._kept[name] = read()
        kept: T = self._kept[name]
        return kept

    def _part_of(self, answer: tuple[Any, int, bool], name: str) -> Part[Any]:
        rows, number, is_limited = answer
        part: Part[Any] = Part(rows or ())
        part.error = error_of(number, name, self.path) if number else None
        part.is_limited = is_limited
        return part

    def _part(self, name: str) -> Part[Any]:
        return self._once(name, lambda: self._part_of(self._read(name), name))

    def _kept_answer(self, name: str) -> tuple[Any, int, bool]:
        return self._once(name, lambda: self._read(name))

    def _one(self, name: str) -> Any:
        value, number, _ = self._kept_answer(name)
        if number:
            raise error_of(number, name, self.path)
        return value

    def _asked(self, part: str, name: str, *arguments: Any) -> Any:
        value, number, _ = self._read(name, *arguments)
        if number:
            raise error_of(number, part, self.path)
        return value
