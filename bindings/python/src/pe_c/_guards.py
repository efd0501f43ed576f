"""The lists of code that a load configuration leads to, for `_facts`, as many entries as are shown. A list is a triple as those of
_core, and an entry (RVA, first byte of its flags or None)."""
from __future__ import annotations

import typing

from . import _core

Entry = tuple[int, int | None]
List = tuple[tuple[Entry, ...] | None, int, bool]

# The numbers of the tables, PE_C_GUARD_ of pe.h, by the names of the lists in JSON.
TABLES = {"se_handlers": 0, "guarded_functions": 1, "guarded_iat_entries": 2, "long_jump_targets": 3, "eh_continuations": 4}
FLAG_SIZE_SHIFT, SIZE_OF_RVA = 28, 4
# How often the bytes of a file may be read for entries, as in `pe`, and how many entries are shown in all: so many, and one more for
# each 128 bytes of the file, where linkers make one for several hundred. The lists of a hostile image may all be the same bytes.
MOST_READINGS, FEW_ENTRIES, MOST_ENTRIES, BYTES_AN_ENTRY = 2, 1 << 15, 1 << 18, 128


def entries(core: _core.Image, table: int, has_flags: bool, most: int) -> List:
    """The entries of a table up to the end of the file, at most so many; None where there is none."""
    found, number, _ = core.guard_entries(table, most + 1)
    if found is None:
        return None, number, False
    is_limited = len(found) > most
    return tuple((it.rva, it.flags if has_flags else None) for it in found[:most]), 0 if is_limited else number, is_limited


def lists(core: _core.Image, config: _core.LoadConfig) -> typing.Iterator[tuple[str, List]]:
    """Each list with its name in JSON."""
    left = min(FEW_ENTRIES + len(core.memory) // BYTES_AN_ENTRY, MOST_ENTRIES)
    most_bytes = MOST_READINGS * len(core.memory)
    for name, table in TABLES.items():
        flag_size = 0 if name == "se_handlers" else (config.guard_flags or 0) >> FLAG_SIZE_SHIFT
        found = entries(core, table, flag_size > 0, min(left, most_bytes // (SIZE_OF_RVA + flag_size)))
        left -= len(found[0] or ())
        most_bytes -= len(found[0] or ()) * (SIZE_OF_RVA + flag_size)
        yield name, found
