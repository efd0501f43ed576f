"""Lists of rows, and errors. A row is what a record of the format becomes: a tuple whose fields have names."""
from __future__ import annotations

import enum
import hashlib
import html
import typing
from typing import Any, TypeVar

from . import _core
from ._kinds import Kind

T = TypeVar("T")
# How many rows a notebook shows.
SHOWN = 100
# What is said of a list that is limited.
LIMITED = "more entries than the file's bytes account for"


class Error(ValueError):
    """Why an image or a part of it is refused.

    number  that of pe.h, which never changes
    text    what it means, such as "truncated"
    part    the part of the image, such as "imports"
    path    the path of the file, or None for an image of bytes
    """

    def __init__(self, number: int, text: str, part: str, path: str | None = None) -> None:
        super().__init__(number, text, part, path)
        self.number, self.text, self.part, self.path = number, text, part, path

    @property
    def kind(self) -> Kind:
        """The number as a constant; Kind.OTHER for one that this version does not know."""
        return Kind(self.number)

    # A value, as the warning is that it stands in.
    def __eq__(self, other: object) -> bool:
        return type(other) is type(self) and isinstance(other, Error) and self.args == other.args

    def __hash__(self) -> int:
        return hash(self.args)

    def __str__(self) -> str:
        return as_line(self.path, self.part, self.text)


def as_line(*parts: str | None) -> str:
    """An error or a warning as a line. A name of a file, which stands in some, may hold anything, and is not to drive a terminal."""
    return shown_text(": ".join(it for it in parts if it))


def error_of(number: int, part: str, path: str | None = None) -> Error:
    return Error(number, _core.text_of(number), part, path)


class WarningKind(enum.Enum):
    """What a warning is of."""

    DAMAGED = "damaged"
    """a part that is refused; `error` says why"""
    LIMITED = "limited"
    """a part that has more rows than the file's bytes account for, as only hostile ones have"""
    ALIGNMENT = "alignment"
    """a file alignment below 512: other readers may find other bytes in the sections"""
    LEFT_OUT = "left-out"
    """what is in no row, or not in the file: names of exports, bytes of sections that the end of the file cuts"""
    SYMBOLS = "symbols"
    """a PDB that names nothing: it is not found, of another build, or not read; or one of code that was moved"""


class ImageWarning(typing.NamedTuple):
    """What a reader of an image should know. What is not DAMAGED is no damage."""

    kind: WarningKind
    part: str
    text: str
    error: Error | None = None
    path: str | None = None

    def __str__(self) -> str:
        return as_line(self.path, self.part, self.text)


class Part(tuple[T, ...]):
    """The rows of a part of an image, up to what ended it.

    error        the error of what follows the last row, or None where that is the end of the list
    is_limited   whether the image has more rows than its bytes account for, as only hostile ones have; those that are here are
                 the first
    refused      where one row that is refused does not end the list, as a signature: of each its index, counted among all, and its error,
                 of which the first is `error`
    """

    error: Error | None = None
    is_limited: bool = False
    refused: tuple[tuple[int, Error], ...] = ()

    def __repr__(self) -> str:
        """That of the tuple, and what ended it."""
        said = [f"error={self.error!r}"] * bool(self.error) + ["is_limited=True"] * self.is_limited
        return f"Part({', '.join([super().__repr__(), *said])})" if said else super().__repr__()

    def check(self) -> Part[T]:
        """The rows, if they are all there. Raises the error that ended them, and Kind.ROOM where they are limited."""
        if self.error:
            raise self.error
        if self.is_limited:
            raise Error(Kind.ROOM, LIMITED, "list")
        return self

    @property
    def columns(self) -> tuple[str, ...]:
        """The names of the fields of a row; none where there are no rows."""
        rows: tuple[Any, ...] = self
        return fields_of(rows[0]) if rows else ()

    def to_dict(self, limit: int = 1 << 30) -> list[Any]:
        """The rows as json takes them: dicts, numbers, texts; of contents their length and SHA-256, which is None after `limit`
        bytes: the contents of a hostile image may all be the same bytes."""
        left = [limit]
        return [plain(it, left) for it in self]

    def frame(self) -> Any:
        """A pandas DataFrame with a column a field. Raises ImportError without pandas."""
        import pandas  # type: ignore[import]
        rows: tuple[Any, ...] = self
        return pandas.DataFrame([tuple(it) for it in rows], columns=self.columns)

    def _repr_html_(self) -> str:
        rows: tuple[Any, ...] = self
        lines = "".join(f"<tr>{''.join(f'<td>{shown(it)}</td>' for it in row)}</tr>" for row in rows[:SHOWN])
        head = "".join(f"<th>{it}</th>" for it in self.columns)
        more = f"<p>{len(rows) - SHOWN} more</p>" if len(rows) > SHOWN else ""
        said = [str(self.error)] * bool(self.error) + [LIMITED] * self.is_limited
        ends = "".join(f"<p><b>{shown(it)}</b></p>" for it in said)
        return f"<table><tr>{head}</tr>{lines}</table>{more}{ends}"


def fields_of(row: Any) -> tuple[str, ...]:
    names: tuple[str, ...] = getattr(type(row), "__match_args__", ())
    return names


def plain(value: Any, left: list[int]) -> Any:
    """A value as json takes it. `left` has how many bytes may still be hashed."""
    if hasattr(type(value), "n_sequence_fields"):
        return {name: plain(getattr(value, name), left) for name in fields_of(value)}
    if isinstance(value, (list, tuple)):
        return [plain(it, left) for it in value]
    if isinstance(value, memoryview):
        left[0] -= len(value)
        return {"bytes": len(value), "sha256": hashlib.sha256(value).hexdigest() if left[0] >= 0 else None}
    return value.hex() if isinstance(value, bytes) else value


def shown(value: Any) -> str:
    """A value as a cell of HTML, in which no text of an image is markup or a control character."""
    if isinstance(value, memoryview):
        return f"{value.nbytes} bytes"
    if isinstance(value, tuple):
        return f"{len(value)} entries" if not fields_of(value) else html.escape(repr(tuple(value)))
    return html.escape(shown_text(value if isinstance(value, str) else repr(value)))


def shown_text(text: str) -> str:
    """A text without control characters, which none can forge a line with."""
    return "".join(it if it.isprintable() else it.encode("unicode_escape").decode() for it in text)


def entropy_of(counts: typing.Iterable[int]) -> float:
    """Shannon's entropy of bytes in bits a byte, 0.0 to 8.0, by how often each byte stands there."""
    import math
    some = [it for it in counts if it]
    total = sum(some)
    return -sum(it / total * math.log(it / total, 2) for it in some) if len(some) > 1 else 0.0
