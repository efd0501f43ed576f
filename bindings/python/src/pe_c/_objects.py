"""COFF objects, which compilers write, and TE images, which firmware has."""
from __future__ import annotations

from typing import TYPE_CHECKING

from ._added import Machine
from ._core import CoffHeader, DebugEntry, Section, Symbol, SymbolKey, TeHeader
from ._part import Part
from ._reader import OBJECT, TE, AnyFile, Reader, content_of

if TYPE_CHECKING:
    import _typeshed


class Coff(Reader):
    """A COFF object over the bytes of a file. Any bytes are such a header: look at `header.machine` and at the sections. Raises
    Error where headers are truncated. After that it is as Image."""

    def __init__(self, data: _typeshed.ReadableBuffer, *, copy: bool = True, path: str | None = None) -> None:
        super().__init__(data, OBJECT, "headers", copy=copy, path=path)

    @classmethod
    def open(cls, path: AnyFile, *, limit: int = 1 << 32) -> Coff:
        """That of a file, by its path or open, which is read whole."""
        content, name = content_of(path, limit)
        return cls(content, path=name)

    @property
    def machine(self) -> Machine:
        return Machine(self.header.machine)

    @property
    def header(self) -> CoffHeader:
        """The COFF header."""
        header: CoffHeader = self._one("coff_header")
        return header

    @property
    def sections(self) -> Part[Section]:
        """The section headers. A name that is longer than 8 bytes is that of the string table."""
        return self._part("sections")

    @property
    def symbols(self) -> Part[Symbol]:
        """The COFF symbols, without auxiliary records."""
        return self._part("symbols")


class Te(Reader):
    """A TE image over the bytes of a file. RVAs are reduced by the bytes that were stripped, so each is a file offset. Raises Error
    where headers are refused. After that it is as Image."""

    def __init__(self, data: _typeshed.ReadableBuffer, *, copy: bool = True, path: str | None = None) -> None:
        super().__init__(data, TE, "headers", copy=copy, path=path)

    @classmethod
    def open(cls, path: AnyFile, *, limit: int = 1 << 32) -> Te:
        """That of a file, by its path or open, which is read whole."""
        content, name = content_of(path, limit)
        return cls(content, path=name)

    @property
    def machine(self) -> Machine:
        return Machine(self.header.machine)

    @property
    def header(self) -> TeHeader:
        """The header of a TE image."""
        header: TeHeader = self._one("te_header")
        return header

    @property
    def sections(self) -> Part[Section]:
        """The section headers."""
        return self._part("sections")

    @property
    def debug_entries(self) -> Part[DebugEntry]:
        """The entries of the debug directory."""
        return self._part("te_debug_entries")

    @property
    def symbol_key(self) -> SymbolKey | None:
        """The CodeView record of PDB 7.0."""
        key: SymbolKey | None = self._one("te_symbol_key")
        return key
