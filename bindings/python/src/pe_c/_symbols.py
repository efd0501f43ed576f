"""The PDB files of a dump's modules, below folders: which is found where, whether it is that of the module, and what it names.

Folders are laid out as symbol servers and debuggers' caches are, NAME/KEY/NAME, in two tiers NA/NAME/KEY/NAME; or a PDB stands in the
folder itself. No path is made of what a dump says: folders are listed, and what stands in them is compared with the name and the key,
in upper or lower case."""
from __future__ import annotations

import os
import stat
import typing

from . import _core
from ._added import key_text
from ._core import FunctionName, SymbolKey
from ._functions import AnyFrame
from ._part import Error, ImageWarning, WarningKind
from ._pdb import Pdb, PdbFrame

AnyPath = typing.Union[str, "os.PathLike[str]"]
AnyFolders = typing.Union[AnyPath, typing.Iterable[AnyPath]]
# What stands in place of a file that is elsewhere.
POINTER = "file.ptr"
# How many bytes a PDB has at most that is read, and all of a dump.
MOST, MOST_IN_ALL = 2 << 30, 8 << 30
# How many records of functions are followed to the one of the whole function.
MOST_CHAINED = 32


def _is_folder(path: str) -> bool:
    """Whether a path is that of a folder. Raises OSError where it cannot be looked at: it may be one."""
    try:
        return stat.S_ISDIR(os.stat(path).st_mode)
    except FileNotFoundError:
        return False


class Folders:
    """Folders in which PDB files are looked for. A file that is named in place of a folder counts for each PDB."""

    def __init__(self, named: AnyFolders) -> None:
        several = [named] if isinstance(named, (str, os.PathLike)) else named
        self._folders = [os.fspath(it) for it in several]
        for folder in self._folders:
            os.stat(folder)
        self._listings: dict[str, dict[str, list[str]]] = {}

    @property
    def is_empty(self) -> bool:
        return not self._folders

    def _listing(self, folder: str) -> dict[str, list[str]]:
        """What a folder has, by its names in lower case, which is listed once. A file has nothing."""
        if folder not in self._listings:
            found: dict[str, list[str]] = {}
            for name in sorted(os.listdir(folder)) if _is_folder(folder) else ():
                found.setdefault(name.lower(), []).append(os.path.join(folder, name))
            self._listings[folder] = found
        return self._listings[folder]

    def _named(self, folder: str, name: str, is_folder: bool) -> list[str]:
        """What a folder has under a name, the same case first."""
        paths = self._listing(folder).get(name.lower(), [])
        return sorted((it for it in paths if _is_folder(it) == is_folder), key=lambda it: os.path.basename(it) != name)

    def _by_key(self, folder: str, name: str, key: str) -> typing.Iterator[tuple[str, str]]:
        for of_name in self._named(folder, name, True):
            for of_key in self._named(of_name, key, True):
                yield from ((it, "") for it in self._named(of_key, name, False))
                compressed = self._named(of_key, name[:-1] + "_", False)
                yield from ((it, "compressed: `cabextract` makes the PDB of it") for it in compressed)
                yield from ((it, "leads to another file, which is not followed") for it in self._named(of_key, POINTER, False))

    def candidates(self, name: str, key: str) -> typing.Iterator[tuple[str, str]]:
        """What stands where a PDB of this name and key is looked for, in order: paths, and why one is not read. A folder that cannot be
        read is one of them, and costs what is in it alone."""
        for folder in self._folders:
            for layout in (self._by_key, self._in_tiers, self._by_name):
                try:
                    yield from layout(folder, name, key)
                except OSError as error:
                    yield error.filename or folder, error.strerror or str(error)

    def _in_tiers(self, folder: str, name: str, key: str) -> typing.Iterator[tuple[str, str]]:
        for tier in self._named(folder, name[:2], True):
            yield from self._by_key(tier, name, key)

    def _by_name(self, folder: str, name: str, _: str) -> typing.Iterator[tuple[str, str]]:
        """What stands in the folder itself, or the file that is named in place of one."""
        yield from ((it, "") for it in (self._named(folder, name, False) if _is_folder(folder) else [folder]))


class Wanted:
    """The PDB that modules name, with their frames: of each its number, its RVA, and what finds the function of the RVA in its image."""

    def __init__(self, key: SymbolKey, path: str) -> None:
        self.key = key
        self.name, self.text, _ = path.split("/")
        self.frames: list[tuple[int, int, _core.Image | None]] = []

    def warning(self, kind: WarningKind, text: str, error: Error | None = None, path: str | None = None) -> ImageWarning:
        return ImageWarning(kind, f"PDB {self.name}", text, error, path)


class PdbFiles:
    """The PDB files that are read for a dump, each once, and one at a time."""

    def __init__(self, folders: Folders) -> None:
        self._folders, self._left = folders, MOST_IN_ALL
        # The keys of those that were read, GUID and age.
        self._keys: dict[str, tuple[bytes, int]] = {}
        self._refused: dict[str, Error] = {}

    def find(self, wanted: Wanted) -> tuple[Pdb | None, tuple[ImageWarning, ...]]:
        """The PDB, or what is to be said of it: of several files that are none, the first."""
        first: ImageWarning | None = None
        for path, problem in self._folders.candidates(wanted.name, wanted.text):
            said = wanted.warning(WarningKind.SYMBOLS, problem, None, path)
            if not problem:
                found = self._read(path, wanted)
                if isinstance(found, Pdb):
                    return found, ()
                # One that is named by itself, and has another key, is that of other modules.
                if path in self._keys and os.path.basename(path).lower() != wanted.name.lower():
                    continue
                said = found
            first = first or said
        return None, (first or wanted.warning(WarningKind.SYMBOLS, f"not found: {wanted.name}/{wanted.text}/{wanted.name}"),)

    def _read(self, path: str, wanted: Wanted) -> Pdb | ImageWarning:
        if path in self._refused:
            return wanted.warning(WarningKind.DAMAGED, self._refused[path].text, self._refused[path], path)
        if self._keys.get(path, (wanted.key.guid, wanted.key.age)) != (wanted.key.guid, wanted.key.age):
            return self._another(path, wanted)
        try:
            size = os.stat(path).st_size
            if size > MOST or size > self._left:
                most = f"{MOST} bytes are read, and of all {MOST_IN_ALL}"
                return wanted.warning(WarningKind.SYMBOLS, f"it has {size} bytes; at most {most}", None, path)
            self._left -= size
            pdb = Pdb.open(path, limit=MOST)
            pdb._check_dbi()
        except OSError as error:
            return wanted.warning(WarningKind.SYMBOLS, error.strerror or str(error), None, path)
        except Error as error:
            self._refused[path] = error
            return wanted.warning(WarningKind.DAMAGED, error.text, error, path)
        self._keys[path] = pdb.guid, pdb.age
        if not pdb.matches(wanted.key):
            return self._another(path, wanted)
        return pdb

    def _another(self, path: str, wanted: Wanted) -> ImageWarning:
        text = f"of another build: {key_text(*self._keys[path])}, and the module names {wanted.text}"
        return wanted.warning(WarningKind.SYMBOLS, text, None, path)


def is_in_function(image: _core.Image | None, rva: int, start: int) -> bool | None:
    """Whether a public symbol is in the function that has an RVA, by the function table of an image; at the start of the function where
    that is a part of one. None where nothing says which function it is: then it may be that of another one."""
    part = image.find_function(rva)[0] if image is not None else None
    if image is None or part is None:
        return None
    whole = part
    for record in (image.unwind_records(part.unwind)[0] or ())[:MOST_CHAINED]:
        if record.chained is None:
            break
        whole = record.chained
    return part.begin <= start or whole.begin == start


def name_of(frame: AnyFrame, found: typing.Sequence[PdbFrame], is_nearest: bool) -> AnyFrame:
    """The frame with its function and its line, and those that are inlined there."""
    *inlined, own = found
    function = FunctionName((own.name, own.start, own.offset, own.source, is_nearest))
    return type(frame)((*frame[:-5], function, own.file, own.line, own.column, tuple(inlined)))
