"""What some rows and headers say beside the fields of their records: versions as four numbers, paths on a symbol server,
machines."""
from __future__ import annotations

import enum
import re

from . import _core


class Machine(enum.IntEnum):
    """The machine of an image, IMAGE_FILE_MACHINE_ of winnt.h. A number that is not here has no name of these."""

    UNKNOWN = 0
    I386 = 0x14C
    R3000 = 0x162
    R4000 = 0x166
    R10000 = 0x168
    WCEMIPSV2 = 0x169
    ALPHA = 0x184
    SH3 = 0x1A2
    SH3DSP = 0x1A3
    SH4 = 0x1A6
    SH5 = 0x1A8
    ARM = 0x1C0
    THUMB = 0x1C2
    ARMNT = 0x1C4
    AM33 = 0x1D3
    POWERPC = 0x1F0
    POWERPCFP = 0x1F1
    IA64 = 0x200
    MIPS16 = 0x266
    ALPHA64 = 0x284
    MIPSFPU = 0x366
    MIPSFPU16 = 0x466
    EBC = 0xEBC
    RISCV32 = 0x5032
    RISCV64 = 0x5064
    RISCV128 = 0x5128
    LOONGARCH32 = 0x6232
    LOONGARCH64 = 0x6264
    AMD64 = 0x8664
    M32R = 0x9041
    ARM64EC = 0xA641
    ARM64X = 0xA64E
    ARM64 = 0xAA64

    @classmethod
    def _missing_(cls, value: object) -> Machine | None:
        if not isinstance(value, int) or not 0 <= value <= 0xFFFF:
            return None
        member = int.__new__(cls, value)
        member._name_, member._value_ = f"0x{value:x}", value
        return member

    def __reduce_ex__(self, protocol: object) -> tuple[type[Machine], tuple[int]]:
        # Python 3.11 has the name there, which a number without one does not have.
        return Machine, (int(self),)


def four(high: int, low: int) -> tuple[int, int, int, int]:
    """The numbers of a version."""
    return high >> 16, high & 0xFFFF, low >> 16, low & 0xFFFF


def file_name(path: str) -> str | None:
    """The name of a file by its path, or None for what is no name: a symbol server's path has no other part of it."""
    name = re.split(r"[\\/]", path)[-1]
    is_named = any(it not in ". " for it in name)
    return name if is_named and not re.search(r'[<>:"|?*\x00-\x1f\x7f-\x9f]', name) else None


def _path(name: str, key: str) -> str | None:
    file = file_name(name)
    return None if file is None else f"{file}/{key}/{file}"


def _guid(guid: bytes) -> str:
    return (guid[3::-1] + guid[5:3:-1] + guid[7:5:-1] + guid[8:]).hex().upper()


def key_text(guid: bytes, age: int) -> str:
    """The key of a PDB, as a symbol server's path has it."""
    return f"{_guid(guid)}{age:X}"


def pdb_path(name: str, guid: bytes, age: int) -> str | None:
    """Where a symbol server has a PDB of this name."""
    return _path(name, key_text(guid, age))


def image_path(name: str, time_date_stamp: int, size_of_image: int) -> str | None:
    """Where a symbol server has an image whose file has this name."""
    return _path(name, f"{time_date_stamp:08X}{size_of_image:x}")


def _is_text(raw: bytes) -> bool:
    try:
        raw.decode()
    except UnicodeDecodeError:
        return False
    return True


def _add() -> None:
    """Gives rows, which are types of the extension, these properties. tools/make_python has them in the stubs."""
    of_pdb = "where a symbol server has the PDB, NAME/KEY/NAME; None where its name is no file's"
    for row, name, of, doc in (
            (_core.FixedVersion, "file_version", lambda it: four(it.file_version_ms, it.file_version_ls),
             "the version of the file"),
            (_core.FixedVersion, "product_version", lambda it: four(it.product_version_ms, it.product_version_ls),
             "the version of the product"),
            (_core.SymbolKey, "symbol_path",
             lambda it: pdb_path(it.name, it.guid, it.age) if _is_text(it.raw_name) else None, of_pdb),
            (_core.Pdb20, "symbol_path", lambda it: _path(it.name, f"{it.signature:08X}{it.age:X}"), of_pdb)):
        setattr(row, name, property(of, doc=doc))


_add()
