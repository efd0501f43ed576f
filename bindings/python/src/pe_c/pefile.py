"""pefile's names over pe_c: `from pe_c import pefile` in place of `import pefile`.

Names and values are those of pefile 2023.2.7, so names of DLLs and functions are bytes. Each directory is read when
its attribute is asked for first, so fast_load makes no difference, and an image without one has no such attribute, as
in pefile. A name that is not here is in the table of _pefile_gaps.py with why, and asking for it raises NotInPeC, an
AttributeError: there are no values that stand for what was not read. An image is changed by `set_..` and by what is
assigned to fields of headers and directories, and `write` returns it; what was read before stays as it is.

PE(..) raises PEFormatError where the headers are refused. After that methods raise PEFormatError alone, and no
attribute raises but AttributeError. """
from __future__ import annotations

import collections
import copy as _copies
import hashlib
import os
import struct
import typing
from typing import Any, TypeVar

from . import _image, _pefile_tables as _tables, _row_names as _rows
from ._kinds import Kind
from ._names import LOAD_CONFIG_FIELDS
from ._ordinals import ORDINALS
from ._part import Error, Part, entropy_of
from ._pefile_gaps import NotInPeC as NotInPeC, missing as _missing
from ._pefile_structures import (
    AddressSet as AddressSet, Dump as Dump, MAX_DLL_LENGTH as MAX_DLL_LENGTH, MAX_IMPORT_NAME_LENGTH as MAX_IMPORT_NAME_LENGTH,
    MAX_IMPORT_SYMBOLS as MAX_IMPORT_SYMBOLS, MAX_RESOURCE_DEPTH as MAX_RESOURCE_DEPTH,
    MAX_RESOURCE_ENTRIES as MAX_RESOURCE_ENTRIES, MAX_SECTIONS as MAX_SECTIONS, MAX_STRING_LENGTH as MAX_STRING_LENGTH,
    MAX_SYMBOL_EXPORT_COUNT as MAX_SYMBOL_EXPORT_COUNT, MAX_SYMBOL_NAME_LENGTH as MAX_SYMBOL_NAME_LENGTH,
    FILE_ALIGNMENT_HARDCODED_VALUE as FILE_ALIGNMENT_HARDCODED_VALUE, PEFormatError as PEFormatError,
    STRUCT_SIZEOF_TYPES as STRUCT_SIZEOF_TYPES, Structure as Structure, StructureWithBitfields as StructureWithBitfields,
    allowed_filename as allowed_filename, allowed_function_name as allowed_function_name, b as b,
    cache_adjust_FileAlignment as cache_adjust_FileAlignment, cache_adjust_SectionAlignment as cache_adjust_SectionAlignment,
    count_zeroes as count_zeroes, is_valid_dos_filename as is_valid_dos_filename,
    is_valid_function_name as is_valid_function_name, long as long, lru_cache as lru_cache, parse_strings as parse_strings,
    power_of_two as power_of_two, retrieve_flags as retrieve_flags, set_bitfields_format as set_bitfields_format,
    set_flags as set_flags, set_format as set_format, sizeof_type as sizeof_type)
from ._pefile_structures import Value as _Value
from ._pefile_unwind import (
    PrologEpilogOp as PrologEpilogOp, PrologEpilogOpAllocLarge as PrologEpilogOpAllocLarge,
    PrologEpilogOpAllocSmall as PrologEpilogOpAllocSmall, PrologEpilogOpEpilogMarker as PrologEpilogOpEpilogMarker,
    PrologEpilogOpPushFrame as PrologEpilogOpPushFrame, PrologEpilogOpPushReg as PrologEpilogOpPushReg,
    PrologEpilogOpSaveReg as PrologEpilogOpSaveReg, PrologEpilogOpSaveRegFar as PrologEpilogOpSaveRegFar,
    PrologEpilogOpSaveXMM as PrologEpilogOpSaveXMM, PrologEpilogOpSaveXMMFar as PrologEpilogOpSaveXMMFar,
    PrologEpilogOpSetFP as PrologEpilogOpSetFP, UnwindInfo as UnwindInfo, read as _read_unwind)

T = TypeVar("T")
__author__ = "Lovandezh"
__contact__ = ""
__version__ = "2023.2.7"
"""That of pefile whose names these are."""

IMAGE_DOS_SIGNATURE, IMAGE_DOSZM_SIGNATURE = 0x5A4D, 0x4D5A
IMAGE_NE_SIGNATURE, IMAGE_LE_SIGNATURE, IMAGE_LX_SIGNATURE, IMAGE_TE_SIGNATURE = 0x454E, 0x454C, 0x584C, 0x5A56
IMAGE_NT_SIGNATURE = 0x4550
IMAGE_NUMBEROF_DIRECTORY_ENTRIES = 16
IMAGE_ORDINAL_FLAG, IMAGE_ORDINAL_FLAG64 = 0x80000000, 0x8000000000000000
OPTIONAL_HEADER_MAGIC_PE, OPTIONAL_HEADER_MAGIC_PE_PLUS = 0x10B, 0x20B
fast_load = False
"""It makes no difference: each directory is read when its attribute is asked for."""
(UWOP_PUSH_NONVOL, UWOP_ALLOC_LARGE, UWOP_ALLOC_SMALL, UWOP_SET_FPREG, UWOP_SAVE_NONVOL, UWOP_SAVE_NONVOL_FAR, UWOP_EPILOG,
 UWOP_SAVE_XMM128, UWOP_SAVE_XMM128_FAR, UWOP_PUSH_MACHFRAME) = 0, 1, 2, 3, 4, 5, 6, 8, 9, 10


def two_way_dict(pairs: list[tuple[str, int]]) -> dict[Any, Any]:
    """Names by their numbers, and numbers by their names."""
    return {**{number: name for name, number in pairs}, **dict(pairs)}


directory_entry_types = _tables.directory_entry_types
image_characteristics = _tables.image_characteristics
section_characteristics = _tables.section_characteristics
debug_types, subsystem_types, machine_types = _tables.debug_types, _tables.subsystem_types, _tables.machine_types
relocation_types, dll_characteristics = _tables.relocation_types, _tables.dll_characteristics
unwind_info_flags, registers = _tables.unwind_info_flags, _tables.registers
resource_type, lang, sublang = _tables.resource_type, _tables.lang, _tables.sublang
DIRECTORY_ENTRY = two_way_dict(directory_entry_types)
IMAGE_CHARACTERISTICS = two_way_dict(image_characteristics)
SECTION_CHARACTERISTICS = two_way_dict(section_characteristics)
DEBUG_TYPE = two_way_dict(debug_types)
SUBSYSTEM_TYPE = two_way_dict(subsystem_types)
MACHINE_TYPE = two_way_dict(machine_types)
RELOCATION_TYPE = two_way_dict(relocation_types)
DLL_CHARACTERISTICS = two_way_dict(dll_characteristics)
UNWIND_INFO_FLAGS = two_way_dict(unwind_info_flags)
REGISTERS = two_way_dict(registers)
RESOURCE_TYPE = two_way_dict(resource_type)
LANG = two_way_dict(lang)
SUBLANG: dict[Any, Any] = dict(sublang)
for _name, _number in sublang:
    SUBLANG.setdefault(_number, []).append(_name)


def get_sublang_name_for_lang(lang_value: int, sublang_value: int) -> str:
    """The name of a sublanguage: the first that has the language's name in it, else the first of its number."""
    names: list[str] = SUBLANG.get(sublang_value, ["*unknown*"])
    known = LANG.get(lang_value, "*unknown*")
    return next((it for it in names if known in it), names[0])


def __getattr__(name: str) -> Any:
    raise _missing("", name)


def _bytes(text: str | None) -> bytes | None:
    return None if text is None else text.encode("utf-8", "backslashreplace")


# ---- structures


def _layout(*parts: tuple[str, str]) -> list[_Value]:
    """A format of struct and the names of each field; a union has several, with commas."""
    return [(code, field.split(",")) for code, names in parts for field in names.split()]


def _optional(address: str, base_of_data: str) -> list[_Value]:
    return _layout(
        ("H", "Magic"), ("B", "MajorLinkerVersion MinorLinkerVersion"),
        ("I", f"SizeOfCode SizeOfInitializedData SizeOfUninitializedData AddressOfEntryPoint BaseOfCode {base_of_data}"),
        (address, "ImageBase"), ("I", "SectionAlignment FileAlignment"),
        ("H", "MajorOperatingSystemVersion MinorOperatingSystemVersion MajorImageVersion MinorImageVersion MajorSubsystemVersion "
         "MinorSubsystemVersion"), ("I", "Reserved1 SizeOfImage SizeOfHeaders CheckSum"), ("H", "Subsystem DllCharacteristics"),
        (address, "SizeOfStackReserve SizeOfStackCommit SizeOfHeapReserve SizeOfHeapCommit"),
        ("I", "LoaderFlags NumberOfRvaAndSizes"))


def _load_config(address: str, process: tuple[tuple[str, str], ...]) -> list[_Value]:
    return _layout(
        ("I", "Size TimeDateStamp"), ("H", "MajorVersion MinorVersion"),
        ("I", "GlobalFlagsClear GlobalFlagsSet CriticalSectionDefaultTimeout"),
        (address, "DeCommitFreeBlockThreshold DeCommitTotalFreeThreshold LockPrefixTable MaximumAllocationSize "
         "VirtualMemoryThreshold"), *process, ("H", "CSDVersion Reserved1"),
        (address, "EditList SecurityCookie SEHandlerTable SEHandlerCount GuardCFCheckFunctionPointer "
         "GuardCFDispatchFunctionPointer GuardCFFunctionTable GuardCFFunctionCount"), ("I", "GuardFlags"),
        ("H", "CodeIntegrityFlags CodeIntegrityCatalog"), ("I", "CodeIntegrityCatalogOffset CodeIntegrityReserved"),
        (address, "GuardAddressTakenIatEntryTable GuardAddressTakenIatEntryCount GuardLongJumpTargetTable "
         "GuardLongJumpTargetCount DynamicValueRelocTable CHPEMetadataPointer GuardRFFailureRoutine "
         "GuardRFFailureRoutineFunctionPointer"), ("I", "DynamicValueRelocTableOffset"),
        ("H", "DynamicValueRelocTableSection Reserved2"), (address, "GuardRFVerifyStackPointerFunctionPointer"),
        ("I", "HotPatchTableOffset Reserved3"), (address, "EnclaveConfigurationPointer"))


def _tls(address: str) -> list[_Value]:
    return _layout((address, "StartAddressOfRawData EndAddressOfRawData AddressOfIndex AddressOfCallBacks"),
                   ("I", "SizeOfZeroFill Characteristics"))


# The fields of structures as they stand in the file. Of those that are different in PE32+ that form has 64 at its end.
_LAYOUTS = {
    "IMAGE_DOS_HEADER": _layout(
        ("H", "e_magic e_cblp e_cp e_crlc e_cparhdr e_minalloc e_maxalloc e_ss e_sp e_csum e_ip e_cs e_lfarlc e_ovno"),
        ("8s", "e_res"), ("H", "e_oemid e_oeminfo"), ("20s", "e_res2"), ("I", "e_lfanew")),
    "IMAGE_NT_HEADERS": _layout(("I", "Signature")),
    "IMAGE_FILE_HEADER": _layout(
        ("H", "Machine NumberOfSections"), ("I", "TimeDateStamp PointerToSymbolTable NumberOfSymbols"),
        ("H", "SizeOfOptionalHeader Characteristics")),
    "IMAGE_OPTIONAL_HEADER": _optional("I", "BaseOfData"), "IMAGE_OPTIONAL_HEADER64": _optional("Q", ""),
    "IMAGE_DATA_DIRECTORY": _layout(("I", "VirtualAddress Size")),
    "IMAGE_IMPORT_DESCRIPTOR": _layout(
        ("I", "OriginalFirstThunk,Characteristics TimeDateStamp ForwarderChain Name FirstThunk")),
    "IMAGE_DELAY_IMPORT_DESCRIPTOR": _layout(("I", "grAttrs szName phmod pIAT pINT pBoundIAT pUnloadIAT dwTimeStamp")),
    "IMAGE_BOUND_IMPORT_DESCRIPTOR": _layout(("I", "TimeDateStamp"), ("H", "OffsetModuleName NumberOfModuleForwarderRefs")),
    "IMAGE_BOUND_FORWARDER_REF": _layout(("I", "TimeDateStamp"), ("H", "OffsetModuleName Reserved")),
    "IMAGE_EXPORT_DIRECTORY": _layout(
        ("I", "Characteristics TimeDateStamp"), ("H", "MajorVersion MinorVersion"),
        ("I", "Name Base NumberOfFunctions NumberOfNames AddressOfFunctions AddressOfNames AddressOfNameOrdinals")),
    "IMAGE_DEBUG_DIRECTORY": _layout(
        ("I", "Characteristics TimeDateStamp"), ("H", "MajorVersion MinorVersion"),
        ("I", "Type SizeOfData AddressOfRawData PointerToRawData")),
    "IMAGE_BASE_RELOCATION": _layout(("I", "VirtualAddress SizeOfBlock")), "IMAGE_BASE_RELOCATION_ENTRY": _layout(("H", "Data")),
    "IMAGE_THUNK_DATA": _layout(("I", "ForwarderString,Function,Ordinal,AddressOfData")),
    "IMAGE_THUNK_DATA64": _layout(("Q", "ForwarderString,Function,Ordinal,AddressOfData")),
    "RUNTIME_FUNCTION": _layout(("I", "BeginAddress EndAddress UnwindData")),
    "IMAGE_TLS_DIRECTORY": _tls("I"), "IMAGE_TLS_DIRECTORY64": _tls("Q"),
    "IMAGE_LOAD_CONFIG_DIRECTORY": _load_config("I", (("I", "ProcessHeapFlags ProcessAffinityMask"),)),
    "IMAGE_LOAD_CONFIG_DIRECTORY64": _load_config("Q", (("Q", "ProcessAffinityMask"), ("I", "ProcessHeapFlags"))),
    "CV_INFO_PDB20": _layout(("I", "CvHeaderSignature CvHeaderOffset Signature Age"), ("s", "PdbFileName")),
    "CV_INFO_PDB70": _layout(
        ("4s", "CvSignature"), ("I", "Signature_Data1"), ("H", "Signature_Data2 Signature_Data3"),
        ("B", "Signature_Data4 Signature_Data5"), ("6s", "Signature_Data6"), ("I", "Age"), ("s", "PdbFileName")),
    "VS_VERSIONINFO": _layout(("H", "Length ValueLength Type")), "StringFileInfo": _layout(("H", "Length ValueLength Type")),
    "VarFileInfo": _layout(("H", "Length ValueLength Type")), "StringTable": _layout(("H", "Length ValueLength Type")),
    "Var": _layout(("H", "Length ValueLength Type")),
    "VS_FIXEDFILEINFO": _layout(
        ("I", "Signature StrucVersion FileVersionMS FileVersionLS ProductVersionMS ProductVersionLS FileFlagsMask FileFlags "
         "FileOS FileType FileSubtype FileDateMS FileDateLS")),
    "IMAGE_RESOURCE_DIRECTORY": _layout(
        ("I", "Characteristics TimeDateStamp"), ("H", "MajorVersion MinorVersion NumberOfNamedEntries NumberOfIdEntries")),
    "IMAGE_RESOURCE_DIRECTORY_ENTRY": _layout(("I", "Name OffsetToData")),
    "IMAGE_RESOURCE_DATA_ENTRY": _layout(("I", "OffsetToData Size CodePage Reserved")),
    "IMAGE_SECTION_HEADER": _layout(
        ("8s", "Name"), ("I", "Misc,Misc_PhysicalAddress,Misc_VirtualSize VirtualAddress SizeOfRawData PointerToRawData "
                              "PointerToRelocations PointerToLinenumbers"),
        ("H", "NumberOfRelocations NumberOfLinenumbers"), ("I", "Characteristics"))}
# The flags that a structure has as attributes: the field that they are of, the table and how their names start.
_FLAGS = {"IMAGE_FILE_HEADER": ("Characteristics", IMAGE_CHARACTERISTICS, "IMAGE_FILE_"),
          "IMAGE_OPTIONAL_HEADER": ("DllCharacteristics", DLL_CHARACTERISTICS, "IMAGE_DLLCHARACTERISTICS_"),
          "IMAGE_SECTION_HEADER": ("Characteristics", SECTION_CHARACTERISTICS, "IMAGE_SCN_")}


class _Made(Structure):
    """A structure of winnt.h, by its name, whose fields the library read. Its flags are attributes too, True or False."""

    def __init__(self, structure: str, offset: int | None = None, /, **fields: Any) -> None:
        self._starts(structure, structure, offset, [])
        self._takes(fields)
        self.__dict__["_sizes"] = {name: len(value) for name, value in fields.items() if isinstance(value, bytes)}

    def __getattr__(self, name: str) -> Any:
        structure = self.__dict__.get("_structure", "").removesuffix("64")
        field, table, start = _FLAGS.get(structure, ("", {}, "-"))
        if name.startswith(start) and name in table:
            return bool(getattr(self, field) & table[name])
        raise _missing(structure, name)

    def _layout(self, what: str) -> list[_Value]:
        if self._structure not in _LAYOUTS:
            raise NotInPeC(f"{self.name}.{what}", "the layout of this structure is not known here")
        # A load configuration may be shorter, and the name of a PDB has the length that the file says.
        there = [it for it in _LAYOUTS[self._structure] if it[1][0] in self.__dict__]
        return [(f"{self._sizes[names[0]]}s" if code == "s" else code, names) for code, names in there]


class SectionStructure(_Made):
    """A section header, and the data of its section."""

    def __init__(self, pe: PE, row: _rows.Section, offset: int, following: int | None) -> None:
        super().__init__("IMAGE_SECTION_HEADER", offset, Name=row.raw_name, Misc=row.virtual_size,
                         Misc_PhysicalAddress=row.virtual_size, Misc_VirtualSize=row.virtual_size,
                         VirtualAddress=row.virtual_address, SizeOfRawData=row.size_of_raw_data,
                         PointerToRawData=row.pointer_to_raw_data, PointerToRelocations=row.pointer_to_relocations,
                         PointerToLinenumbers=row.pointer_to_linenumbers, NumberOfRelocations=row.number_of_relocations,
                         NumberOfLinenumbers=row.number_of_linenumbers, Characteristics=row.characteristics)
        self.pe, self.next_section_virtual_address = pe, following

    def get_PointerToRawData_adj(self) -> int:
        """The file offset of the section's first byte: its pointer rounded down to 512, but in images of a smaller
        alignment."""
        return self.pe.adjust_FileAlignment(self.PointerToRawData, self.pe.OPTIONAL_HEADER.FileAlignment)

    def get_VirtualAddress_adj(self) -> int:
        """The RVA of the section's first byte, rounded down to the section alignment."""
        header = self.pe.OPTIONAL_HEADER
        return self.pe.adjust_SectionAlignment(self.VirtualAddress, header.SectionAlignment, header.FileAlignment)

    def _range(self, start: int | None, length: int | None, ignore_padding: bool) -> slice:
        offset = self.get_PointerToRawData_adj() + (0 if start is None else start - self.get_VirtualAddress_adj())
        end = offset + (self.SizeOfRawData if length is None else length)
        end = min(end, offset + self.Misc_VirtualSize) if ignore_padding else end
        return slice(offset, min(end, self.PointerToRawData + self.SizeOfRawData))

    def get_data(self, start: int | None = None, length: int | None = None, ignore_padding: bool = False) -> bytes:
        """The section's data in the file, from the RVA `start` on; without what is after its size in memory with
        ignore_padding."""
        return self.pe.__data__[self._range(start, length, ignore_padding)]

    def get_rva_from_offset(self, offset: int) -> int:
        return offset - self.get_PointerToRawData_adj() + self.get_VirtualAddress_adj()

    def get_offset_from_rva(self, rva: int) -> int:
        return rva - self.get_VirtualAddress_adj() + self.get_PointerToRawData_adj()

    def contains_offset(self, offset: int) -> bool:
        start = self.get_PointerToRawData_adj()
        return bool(start <= offset < start + self.SizeOfRawData)

    def contains_rva(self, rva: int) -> bool:
        """Whether the section has the RVA, up to where the next section starts."""
        start = self.get_VirtualAddress_adj()
        is_whole = len(self.pe.__data__) - self.get_PointerToRawData_adj() >= self.SizeOfRawData
        size = max(self.SizeOfRawData, self.Misc_VirtualSize) if is_whole else self.Misc_VirtualSize
        following = self.next_section_virtual_address
        if following is not None and self.VirtualAddress < following < start + size:
            size = following - start
        return bool(start <= rva < start + size)

    def contains(self, rva: int) -> bool:
        return self.contains_rva(rva)

    def _hash(self, algorithm: str) -> str:
        data = memoryview(self.pe.__data__)
        return hashlib.new(algorithm, data[self._range(None, None, False)], usedforsecurity=False).hexdigest()

    def get_hash_md5(self) -> str:
        return self._hash("md5")

    def get_hash_sha1(self) -> str:
        return self._hash("sha1")

    def get_hash_sha256(self) -> str:
        return self._hash("sha256")

    def get_hash_sha512(self) -> str:
        return self._hash("sha512")

    def get_entropy(self) -> float:
        """Shannon's entropy of the section's data, in bits a byte."""
        place = self._range(None, None, False)
        length = max(place.stop - place.start, 0) if place.start >= 0 else 0
        if isinstance(self.pe.__data__, bytearray):
            return entropy_of(collections.Counter(self.pe.__data__[place]).values())
        return entropy_of(self.pe._image._asked("entropy", "histogram", max(place.start, 0), length))

    def entropy_H(self, data: bytes) -> float:
        """Shannon's entropy of some bytes, in bits a byte."""
        return entropy_of(data.count(bytes([it])) for it in set(data))


class DataContainer:
    """What a directory has: its attributes are those that it was made of."""

    def __init__(self, **attributes: Any) -> None:
        self.__dict__.update(attributes)

    def __getattr__(self, name: str) -> Any:
        raise _missing(type(self).__name__, name)


class ImportDescData(DataContainer):
    """A DLL: struct, imports, dll."""


class _Changing(DataContainer):
    """What is written into the file when it is assigned to, and read of it when it is asked for: by the names of attributes how."""

    _ways: dict[str, typing.Callable[[Any, Any], Any]] = {}
    _makes: dict[str, typing.Callable[[Any], Any]] = {}

    def __setattr__(self, name: str, value: Any) -> None:
        way = type(self)._ways.get(name)
        if way is not None:
            way(self, value)
        self.__dict__[name] = value

    def __getattr__(self, name: str) -> Any:
        makes = type(self)._makes.get(name)
        if makes is None:
            raise _missing(type(self).__name__, name)
        value = self.__dict__[name] = makes(self)
        return value


def _write_text(pe: PE, offset: int | None, before: bytes | None, text: bytes) -> None:
    """Writes a name over another one, which must not be shorter."""
    if offset is None or before is None:
        raise PEFormatError("The entry has no name.")
    if len(text) > len(before):
        raise PEFormatError("The export name provided is longer than the existing one.")
    pe.set_bytes_at_offset(offset, text)


def _set_thunk(thunk: Structure | None, value: int) -> None:
    """A thunk with another value, which `PE.write` writes."""
    if thunk is not None and thunk.AddressOfData != value:
        for it in thunk._fields:
            setattr(thunk, it, value)


class ImportData(_Changing):
    """An import: import_by_ordinal, ordinal, hint, name, name_offset, address, bound, struct_table, struct_iat, hint_name_table_rva,
    ordinal_offset, thunk_rva, thunk_offset, pe. One that is assigned a name, an ordinal or an address is written so."""

    name: bytes | None

    def _set_name(self, text: bytes) -> None:
        if self.hint_name_table_rva is not None:
            _set_thunk(self.struct_table, self.hint_name_table_rva)
            _write_text(self.pe, self.name_offset, self.name, text)

    def _set_ordinal(self, number: int) -> None:
        flag = IMAGE_ORDINAL_FLAG64 if self.pe.PE_TYPE == OPTIONAL_HEADER_MAGIC_PE_PLUS else IMAGE_ORDINAL_FLAG
        self._set_address(flag | number & 0xFFFF)

    def _set_address(self, value: int) -> None:
        # What the thunk says is read before it is another one.
        _ = self.hint_name_table_rva, self.bound
        _set_thunk(self.struct_table, value)

    def _slot(self) -> Structure | None:
        """The entry of the address table of a bound import, which is another than that of the lookup table."""
        slot = _thunk(self.pe, self.pe._image.offset_of(self.address - self.pe.OPTIONAL_HEADER.ImageBase))
        table = self.struct_table
        return None if slot is None or table is None or slot.AddressOfData in (0, table.AddressOfData) else slot

    def _hint_rva(self) -> int | None:
        is_named = not self.import_by_ordinal and self.struct_table is not None
        return self.struct_table.AddressOfData & 0x7FFFFFFFFFFFFFFF if is_named else None

    _ways = {"name": _set_name, "ordinal": _set_ordinal, "bound": lambda it, value: _set_thunk(it.struct_iat, value),
             "address": _set_address}
    _makes = {"struct_table": lambda it: _thunk(it.pe, it.thunk_offset), "struct_iat": _slot, "hint_name_table_rva": _hint_rva,
              "bound": lambda it: None if it.struct_iat is None else it.struct_iat.AddressOfData}


class ExportDirData(DataContainer):
    """The exports: struct, symbols, name."""


class ExportData(_Changing):
    """An export: ordinal, address, name, forwarder; of one with a name also pe, ordinal_offset, address_offset, name_offset,
    forwarder_offset. What is assigned to the first four is written into the file's bytes."""

    def _ordinal_place(self) -> Any:
        if self._ordinal_rva is None:
            raise NotInPeC("ExportData.ordinal_offset", "where names are skipped the library for C does not return which entry each has")
        return self.pe.get_physical_by_rva(self._ordinal_rva)

    _ways = {"ordinal": lambda it, value: it.pe.set_word_at_offset(it.ordinal_offset, value),
             "address": lambda it, value: it.pe.set_dword_at_offset(it.address_offset, value),
             "name": lambda it, value: _write_text(it.pe, it.name_offset, it.name, value),
             "forwarder": lambda it, value: _write_text(it.pe, it.forwarder_offset, it.forwarder, value)}
    _makes = {"address_offset": lambda it: it.pe.get_physical_by_rva(it._address_rva), "ordinal_offset": _ordinal_place}


class ResourceDirData(DataContainer):
    """A resource directory: struct, entries; of a string table its texts by their ids as strings."""

    strings: dict[int, str]


class ResourceDirEntryData(DataContainer):
    """An entry of a resource directory: struct, name, id, and directory or data."""


class ResourceDataEntryData(DataContainer):
    """A resource in a language: struct, lang, sublang."""


class DebugData(DataContainer):
    """A debug entry: struct, and the record to which it leads as entry, or None."""


class BaseRelocationData(DataContainer):
    """A block of base relocations: struct, entries."""


class RelocationData(_Changing):
    """A base relocation: struct, type, base_rva, rva. One that is assigned a type or an RVA is written so by `PE.write`."""

    def _set_type(self, number: int) -> None:
        self.struct.Data = number << 12 | self.struct.Data & 0xFFF

    def _set_rva(self, rva: int) -> None:
        self.struct.Data = self.struct.Data & 0xF000 | max(rva - self.base_rva, 0) & 0xFFF

    def _entry(self) -> Structure:
        return _Made("IMAGE_BASE_RELOCATION_ENTRY", self._offset, Data=self.type << 12 | self.rva - self.base_rva & 0xFFF)

    _ways = {"type": _set_type, "rva": _set_rva}
    _makes = {"struct": _entry}


class TlsData(DataContainer):
    """The TLS directory: struct."""


class BoundImportDescData(DataContainer):
    """A bound DLL: struct, name, entries."""


class BoundImportRefData(DataContainer):
    """A DLL that a bound DLL forwards to: struct, name."""


class LoadConfigData(DataContainer):
    """The load configuration: struct."""


class ExceptionsDirEntryData(_Changing):
    """An entry of the function table of x64: struct, and its unwind record as unwindinfo, None where it links to another entry."""

    _makes = {"unwindinfo": lambda it: _read_unwind(it._pe, it.struct.UnwindData)}


class RichHeader(DataContainer):
    """The Rich header: checksum, values, key, raw_data, clear_data."""


class UnicodeStringWrapperPostProcessor(str):
    """The name of a resource, a text."""

    def decode(self, *_: object) -> str:
        return str(self)

    def __getattr__(self, name: str) -> Any:
        raise _missing("UnicodeStringWrapperPostProcessor", name)


# ---- headers: the fields of rows by their names in pefile

_DOS = {
    "e_magic": "signature", "e_cblp": "bytes_on_last_page", "e_cp": "pages_in_file", "e_crlc": "relocations",
    "e_cparhdr": "size_of_header_in_paragraphs", "e_minalloc": "minimum_extra_paragraphs",
    "e_maxalloc": "maximum_extra_paragraphs", "e_ss": "initial_relative_ss", "e_sp": "initial_sp",
    "e_csum": "checksum", "e_ip": "initial_ip", "e_cs": "initial_relative_cs", "e_lfarlc": "relocations_offset",
    "e_ovno": "overlay_number", "e_res": "reserved", "e_oemid": "oem_id", "e_oeminfo": "oem_information",
    "e_res2": "reserved2", "e_lfanew": "pe_pointer"}
_COFF = {
    "Machine": "machine", "NumberOfSections": "number_of_sections", "TimeDateStamp": "time_date_stamp",
    "PointerToSymbolTable": "pointer_to_symbol_table", "NumberOfSymbols": "number_of_symbol_table",
    "SizeOfOptionalHeader": "size_of_optional_header", "Characteristics": "characteristics"}
_OPTIONAL = {
    "Magic": "magic", "MajorLinkerVersion": "major_linker_version", "MinorLinkerVersion": "minor_linker_version",
    "SizeOfCode": "size_of_code", "SizeOfInitializedData": "size_of_initialized_data",
    "SizeOfUninitializedData": "size_of_uninitialized_data", "AddressOfEntryPoint": "address_of_entry_point",
    "BaseOfCode": "base_of_code", "BaseOfData": "base_of_data", "ImageBase": "image_base",
    "SectionAlignment": "section_alignment", "FileAlignment": "file_alignment",
    "MajorOperatingSystemVersion": "major_operating_system_version",
    "MinorOperatingSystemVersion": "minor_operating_system_version", "MajorImageVersion": "major_image_version",
    "MinorImageVersion": "minor_image_version", "MajorSubsystemVersion": "major_subsystem_version",
    "MinorSubsystemVersion": "minor_subsystem_version", "Reserved1": "win32_version_value",
    "SizeOfImage": "size_of_image", "SizeOfHeaders": "size_of_headers", "CheckSum": "check_sum",
    "Subsystem": "subsystem", "DllCharacteristics": "dll_characteristics",
    "SizeOfStackReserve": "size_of_stack_reserve", "SizeOfStackCommit": "size_of_stack_commit",
    "SizeOfHeapReserve": "size_of_heap_reserve", "SizeOfHeapCommit": "size_of_heap_commit",
    "LoaderFlags": "loader_flags", "NumberOfRvaAndSizes": "number_of_rva_and_sizes"}


def _fields(names: dict[str, str], row: Any) -> dict[str, Any]:
    return {name: getattr(row, own) for name, own in names.items()}


# ---- directories


def _start(pe: PE, name: str) -> int | None:
    """The file offset of a directory, or None where it is not mapped."""
    directories, index = pe.OPTIONAL_HEADER.DATA_DIRECTORY, DIRECTORY_ENTRY[name]
    return pe._image.offset_of(directories[index].VirtualAddress) if index < len(directories) else None


def _each(start: int | None, i: int, size: int) -> int | None:
    """The file offset of an entry of a table."""
    return None if start is None else start + i * size


def _thunk(pe: PE, offset: int | None) -> Structure | None:
    """The entry of an import table at a file offset."""
    width = 8 if pe._image.is_64 else 4
    number = None if offset is None else pe._number("<Q" if width == 8 else "<I", pe.__data__[offset:offset + width], 0)
    if number is None:
        return None
    made = _Made(f"IMAGE_THUNK_DATA{'64' * pe._image.is_64}", offset, ForwarderString=number, Function=number, Ordinal=number,
                 AddressOfData=number)
    made.name = "IMAGE_THUNK_DATA"
    return made


def _imports(pe: PE, rows: typing.Iterable[Any], table_rva: int, slots_rva: int) -> typing.Iterator[ImportData]:
    """The imports of a DLL. Those of ordinal 0 are not imports to pefile."""
    base, width = pe.OPTIONAL_HEADER.ImageBase, 8 if pe._image.is_64 else 4
    for i, it in enumerate(rows):
        if it.name is None and it.ordinal == 0 or it.name == "":
            continue
        offset, is_named = pe._image.offset_of(table_rva + i * width), it.name is not None
        made = ImportData()
        made.__dict__.update(
            pe=pe, import_by_ordinal=not is_named, ordinal=None if is_named else it.ordinal, hint=it.ordinal if is_named else None,
            name=_bytes(it.name), address=base + slots_rva + i * width, thunk_rva=table_rva + i * width, thunk_offset=offset,
            ordinal_offset=offset, name_offset=getattr(it, "name_offset", None))
        yield made


def _with_names(dll: bytes, imports: list[ImportData]) -> list[ImportData]:
    known = ORDINALS.get(dll.decode("utf-8", "replace").lower(), {})
    for it in imports:
        if it.name is None and it.ordinal in known:
            it.__dict__["name"] = known[it.ordinal].encode()
    return imports


def _read_imports(pe: PE) -> list[ImportDescData]:
    found, start = [], _start(pe, "IMAGE_DIRECTORY_ENTRY_IMPORT")
    for number, row in enumerate(pe._image.imports):
        slots = row.address_table_rva
        table = slots if row.has_unmapped_list else row.lookup_table_rva or slots
        descriptor = _Made("IMAGE_IMPORT_DESCRIPTOR", _each(start, number, 20), OriginalFirstThunk=row.lookup_table_rva,
                               Characteristics=row.lookup_table_rva, TimeDateStamp=row.time_date_stamp,
                               ForwarderChain=row.forwarder_chain, Name=row.name_rva, FirstThunk=row.address_table_rva)
        dll = _bytes(row.name) or b""
        imports = list(_imports(pe, row.imports, table, slots))
        if imports and dll:
            found.append(ImportDescData(struct=descriptor, imports=_with_names(dll, imports), dll=dll))
    return found


def _read_delay_imports(pe: PE) -> list[ImportDescData]:
    found, start = [], _start(pe, "IMAGE_DIRECTORY_ENTRY_DELAY_IMPORT")
    for number, row in enumerate(pe._image.delay_imports):
        it = row.descriptor
        base = 0 if it.attributes & 1 else pe.OPTIONAL_HEADER.ImageBase
        table, slots = it.import_name_table - base, it.import_address_table - base
        descriptor = _Made("IMAGE_DELAY_IMPORT_DESCRIPTOR", _each(start, number, 32), grAttrs=it.attributes, szName=it.name,
                               phmod=it.module_handle, pIAT=it.import_address_table, pINT=it.import_name_table,
                               pBoundIAT=it.bound_import_address_table, pUnloadIAT=it.unload_information_table,
                               dwTimeStamp=it.time_date_stamp)
        imports = list(_imports(pe, row.imports, table, slots))
        if imports:
            dll = _bytes(row.name) or b""
            found.append(ImportDescData(struct=descriptor, imports=_with_names(dll, imports), dll=dll))
    return found


def _up_to(pe: PE, most_of_one: int, what: str, rows: typing.Iterable[tuple[Any, T]]) -> typing.Iterator[T]:
    """The rows, each with what tells it apart, up to max_symbol_exports that are apart, and so many that are the same."""
    counts: collections.Counter[Any] = collections.Counter()
    for key, row in rows:
        counts[key] += 1
        is_repeated = counts[key] > most_of_one
        if is_repeated or len(counts) > pe.max_symbol_exports:
            most = f"{most_of_one} repeated {what}" if is_repeated else f"{pe.max_symbol_exports} {what}"
            pe._limits.append(f"Export directory contains more than {most} entries. Those after them are left out.")
            return
        yield row


def _counted_exports(pe: PE) -> list[tuple[str | None, _rows.Export]]:
    """The exports as pefile counts them: those with a name, then by their ordinals those whose ordinal none of these has, with the name
    None. They end at max_symbol_exports, or where one is repeated, as a warning says."""
    rows = [it for it in pe._image.exports if it.rva]
    named = list(_up_to(pe, 10, "symbol", (((it.name, it.rva), it) for it in rows if it.name is not None)))
    known = {it.ordinal for it in named}
    others = {it.ordinal: it for it in rows if it.ordinal not in known}
    ordered = (others[ordinal] for ordinal in sorted(others))
    return [(it.name, it) for it in named] + [
        (None, it) for it in _up_to(pe, pe.max_repeated_symbol, "ordinal", ((it.rva, it) for it in ordered))]


def _export(pe: PE, directory: Any, name: str | None, row: _rows.Export, place: int | None) -> ExportData:
    """An export, and where its name is in the table of names; one without a name has no places, as in pefile."""
    made = ExportData(ordinal=row.ordinal, address=row.rva, name=_bytes(name), forwarder=_bytes(row.forwarder))
    if name is not None:
        made.__dict__.update(pe=pe, name_offset=row.name_offset, forwarder_offset=None if row.forwarder is None else row.offset,
                             _address_rva=directory.address_of_functions + 4 * (row.ordinal - directory.base),
                             _ordinal_rva=None if place is None else directory.address_of_name_ordinals + 2 * place)
    return made


def _read_exports(pe: PE) -> ExportDirData | None:
    table = pe._value("export_table")
    if table is None or pe._image.exports.error:
        return None
    it = pe._value("export_directory")
    named = [row for row in pe._image.exports if row.name is not None]
    places = {id(row): i for i, row in enumerate(named)} if len(named) == it.number_of_names else {}
    symbols = [_export(pe, it, name, row, places.get(id(row))) for name, row in _counted_exports(pe)]
    directory = _Made("IMAGE_EXPORT_DIRECTORY", _start(pe, "IMAGE_DIRECTORY_ENTRY_EXPORT"), Characteristics=it.characteristics,
                      TimeDateStamp=it.time_date_stamp, MajorVersion=it.major_version, MinorVersion=it.minor_version, Name=it.name,
                      Base=it.base, NumberOfFunctions=it.number_of_functions, NumberOfNames=it.number_of_names,
                      AddressOfFunctions=it.address_of_functions, AddressOfNames=it.address_of_names,
                      AddressOfNameOrdinals=it.address_of_name_ordinals)
    return ExportDirData(struct=directory, symbols=symbols, name=_bytes(table.name))


def _pdb70(key: _rows.SymbolKey, offset: int) -> Structure:
    one, two, three, four, five = struct.unpack_from("<IHHBB", key.guid)
    return _Made("CV_INFO_PDB70", offset, CvSignature=b"RSDS", Signature_Data1=one, Signature_Data2=two, Signature_Data3=three,
                     Signature_Data4=four, Signature_Data5=five, Signature_Data6=key.guid[10:],
                     Signature_Data6_value=int.from_bytes(key.guid[10:], "big"), Age=key.age, PdbFileName=key.raw_name,
                     Signature_String=f"{one:08X}{two:04X}{three:04X}{key.guid[8:].hex().upper()}{key.age:X}")


def _read_record(pe: PE, row: _rows.DebugEntry) -> Structure | None:
    """The CodeView record of a debug entry."""
    if row.data_type != DEBUG_TYPE["IMAGE_DEBUG_TYPE_CODEVIEW"]:
        return None
    key, number, _ = pe._image._read("codeview", row.pointer_to_raw_data, row.size_of_data)
    if key is not None:
        return _pdb70(key, row.pointer_to_raw_data)
    old = pe._value("pdb20") if number == 0 else None
    return None if old is None else _Made(
        "CV_INFO_PDB20", row.pointer_to_raw_data, CvHeaderSignature=0x3031424E, CvHeaderOffset=old.offset,
        Signature=old.signature, Age=old.age, PdbFileName=_bytes(old.name + "\0"))


def _read_debug(pe: PE) -> list[DebugData]:
    start = _start(pe, "IMAGE_DIRECTORY_ENTRY_DEBUG")
    return [DebugData(struct=_Made("IMAGE_DEBUG_DIRECTORY", _each(start, i, 28), Characteristics=it.characteristics,
                                       TimeDateStamp=it.time_date_stamp, MajorVersion=it.major_version,
                                       MinorVersion=it.minor_version, Type=it.data_type, SizeOfData=it.size_of_data,
                                       AddressOfRawData=it.address_of_raw_data, PointerToRawData=it.pointer_to_raw_data),
                      entry=_read_record(pe, it)) for i, it in enumerate(pe._image.debug_entries)]


_TOP_BIT = 0x80000000


def _with_parts(entry: _Made) -> _Made:
    """An entry of a directory with the parts of its two numbers."""
    entry.__dict__.update(NameOffset=entry.Name & ~_TOP_BIT, Id=entry.Name & 0xFFFF, DataIsDirectory=entry.OffsetToData >> 31,
                          OffsetToDirectory=entry.OffsetToData & ~_TOP_BIT)
    return entry


def _entry(item: tuple[int | str, int, int, bool], tree: int, offset: int, **more: Any) -> ResourceDirEntryData:
    """An entry of a directory, at a file offset. That of its name counts from the tree, and has the length first."""
    name, name_offset, leads_to, is_directory = item
    number = name if isinstance(name, int) else _TOP_BIT | (name_offset - 2 - tree)
    data = leads_to | (_TOP_BIT if is_directory else 0)
    entry = _with_parts(_Made("IMAGE_RESOURCE_DIRECTORY_ENTRY", offset, Name=number, OffsetToData=data))
    return ResourceDirEntryData(struct=entry, name=UnicodeStringWrapperPostProcessor(name) if isinstance(name, str) else None,
                                id=name if isinstance(name, int) else None, **more)


def _directory(pe: PE, offset: int) -> tuple[ResourceDirData, int, list[tuple[int, tuple[int | str, int, int, bool]]]] | None:
    """The directory at an offset of the tree, the file offset of the tree, and of the entries each with its file offset."""
    found, number, _ = pe._image._read("resource_directory_at", offset)
    if number or found is None:
        return None
    it, tree, entries = found
    directory = _Made(
        "IMAGE_RESOURCE_DIRECTORY", tree + offset, Characteristics=it.characteristics, TimeDateStamp=it.time_date_stamp,
        MajorVersion=it.major_version, MinorVersion=it.minor_version, NumberOfNamedEntries=it.number_of_named_entries,
        NumberOfIdEntries=it.number_of_id_entries)
    items = pe._image._read("resource_items", offset)[0] or ()
    return ResourceDirData(struct=directory, entries=[]), tree, [(entries + 8 * i, item) for i, item in enumerate(items)]


def _read_strings(pe: PE, leaf: _rows.Resource, directory: ResourceDirData, left: int) -> int:
    """Adds the texts of a string table to its directory, and returns how many bytes further ones may have: those of a hostile
    image may all be the same."""
    size = len(leaf.content or b"")
    if left >= 0 and left < size:
        pe._limits.append("String tables have more bytes than the file. Those after them are left out.")
    if left >= size and leaf.content is not None and isinstance(leaf.name, int):
        parse_strings(leaf.content, (leaf.name - 1) * 16, directory.strings)
    return left - size if left >= size else -1


def _read_resources(pe: PE) -> ResourceDirData | None:
    """The tree: types, names, languages, as far as its leaves are read, which come in the order of the entries of directories."""
    tree = _Tree(pe)
    root = tree.below(0, 0)
    return root if root and root.entries else None


class _Tree:
    """The tree of resources as it is read: which leaves are left, and how many bytes string tables may still have."""

    def __init__(self, pe: PE) -> None:
        self.pe, self.left = pe, len(pe.__data__)
        self.leaves = collections.deque(pe._image.resources)

    def below(self, offset: int, level: int) -> ResourceDirData | None:
        """A directory with all below it, none where no leaf is left."""
        found = _directory(self.pe, offset)
        if found is None:
            return None
        directory, tree, items = found
        for place, item in items:
            if not self.leaves:
                break
            if level == 2:
                directory.entries.append(_entry(item, tree, place, data=self.data(directory, tree + item[2])))
            elif (inner := self.below(item[2], level + 1)) is not None:
                directory.entries.append(_entry(item, tree, place, directory=inner))
        return directory

    def data(self, directory: ResourceDirData, offset: int) -> ResourceDataEntryData:
        """The data entry of the next leaf, which stands at a file offset."""
        leaf = self.leaves.popleft()
        reserved = self.pe.get_dword_from_offset(offset + 12) or 0
        entry = _Made("IMAGE_RESOURCE_DATA_ENTRY", offset, OffsetToData=leaf.rva, Size=leaf.size, CodePage=leaf.code_page,
                          Reserved=reserved)
        if leaf.type == RESOURCE_TYPE["RT_STRING"]:
            directory.__dict__.setdefault("strings", {})
            self.left = _read_strings(self.pe, leaf, directory, self.left)
        language = leaf.language if isinstance(leaf.language, int) else 0
        return ResourceDataEntryData(struct=entry, lang=language & 0x3FF, sublang=language >> 10)


def _read_relocations(pe: PE) -> list[BaseRelocationData]:
    found, offset = [], _start(pe, "IMAGE_DIRECTORY_ENTRY_BASERELOC")
    for row in pe._image.relocations:
        block = _Made("IMAGE_BASE_RELOCATION", offset, VirtualAddress=row.page_rva, SizeOfBlock=row.size_of_block)
        entries = [RelocationData(type=it.kind, base_rva=row.page_rva, rva=it.rva, _offset=_each(offset, 1, 8 + 2 * i))
                   for i, it in enumerate(row.entries)]
        found.append(BaseRelocationData(struct=block, entries=entries))
        offset = _each(offset, 1, row.size_of_block)
    return found


def _wide(pe: PE, name: str, offset: int | None, **fields: Any) -> Structure:
    """A structure that is different in PE32+."""
    made = _Made(f"{name}{'64' * pe._image.is_64}", offset, **fields)
    made.name = name
    return made


def _read_tls(pe: PE) -> TlsData | None:
    it = pe._value("tls")
    return None if it is None else TlsData(struct=_wide(
        pe, "IMAGE_TLS_DIRECTORY", _start(pe, "IMAGE_DIRECTORY_ENTRY_TLS"), StartAddressOfRawData=it.start_address_of_raw_data,
        EndAddressOfRawData=it.end_address_of_raw_data, AddressOfIndex=it.address_of_index,
        AddressOfCallBacks=it.address_of_callbacks, SizeOfZeroFill=it.size_of_zero_fill, Characteristics=it.characteristics))


_CONFIG = {"Size": "size", "TimeDateStamp": "time_date_stamp", "MajorVersion": "major_version", "MinorVersion": "minor_version",
           "SecurityCookie": "security_cookie", "SEHandlerTable": "se_handler_table", "SEHandlerCount": "se_handler_count",
           "GuardCFCheckFunctionPointer": "guard_cf_check_function_pointer",
           "GuardCFDispatchFunctionPointer": "guard_cf_dispatch_function_pointer",
           "GuardCFFunctionTable": "guard_cf_function_table", "GuardCFFunctionCount": "guard_cf_function_count",
           "GuardFlags": "guard_flags", "Reserved1": "dependent_load_flags"}
# Those of the other fields that pefile has, by their numbers; it reads none that Windows added later.
_CONFIG_FIELDS = [it.replace(".", "") for it in LOAD_CONFIG_FIELDS[:LOAD_CONFIG_FIELDS.index("VolatileMetadataPointer")]]


def _read_load_config(pe: PE) -> LoadConfigData | None:
    """The load configuration; fields that the structure is too short for are missing."""
    it = pe._value("load_config")
    if it is None:
        return None
    fields = {name: getattr(it, own) for name, own in _CONFIG.items()}
    fields.update((name, pe._image.load_config_field(i)) for i, name in enumerate(_CONFIG_FIELDS))
    there = {name: value for name, value in fields.items() if value is not None}
    made = _wide(pe, "IMAGE_LOAD_CONFIG_DIRECTORY", _start(pe, "IMAGE_DIRECTORY_ENTRY_LOAD_CONFIG"), **there)
    return LoadConfigData(struct=_with_reserved(pe, made))


def _with_reserved(pe: PE, config: Structure) -> Structure:
    """With the numbers that are reserved, which stand between others."""
    offset = 0
    for code, (name, *_) in _LAYOUTS[config._structure]:
        size = struct.calcsize("<" + code)
        if name in ("Reserved2", "Reserved3") and config._offset is not None and offset + size <= config.Size:
            data = pe.__data__[config._offset + offset:config._offset + offset + size]
            if len(data) == size:
                config.__dict__[name], = struct.unpack("<" + code, data)
        offset += size
    return config


def _read_bound_imports(pe: PE) -> list[BoundImportDescData]:
    rows = pe._image.bound_imports
    # The directory's address is a file offset too, since it stands in the headers.
    directory = pe.OPTIONAL_HEADER.DATA_DIRECTORY[DIRECTORY_ENTRY["IMAGE_DIRECTORY_ENTRY_BOUND_IMPORT"]] if rows else None
    places = iter(range(directory.VirtualAddress if directory else 0, len(pe.__data__) - 7, 8))

    def of(name: str, stamp: int, last: str) -> Structure:
        offset = next(places, None)
        more = {}
        if offset is not None:
            _, more["OffsetModuleName"], more[last] = struct.unpack_from("<IHH", pe.__data__, offset)
        return _Made(name, offset, TimeDateStamp=stamp, **more)
    found = []
    for row in rows:
        own = of("IMAGE_BOUND_IMPORT_DESCRIPTOR", row.time_date_stamp, "NumberOfModuleForwarderRefs")
        entries = [BoundImportRefData(struct=of("IMAGE_BOUND_FORWARDER_REF", it.time_date_stamp, "Reserved"), name=_bytes(it.name))
                   for it in row.forwarders]
        found.append(BoundImportDescData(struct=own, name=_bytes(row.name), entries=entries))
    return found


def _read_exceptions(pe: PE) -> list[ExceptionsDirEntryData]:
    start = _start(pe, "IMAGE_DIRECTORY_ENTRY_EXCEPTION")
    return [ExceptionsDirEntryData(_pe=pe, struct=_Made("RUNTIME_FUNCTION", _each(start, i, 12), BeginAddress=it.begin,
                                                        EndAddress=it.end, UnwindData=it.unwind))
            for i, it in enumerate(pe._image.functions)]


def _read_rich(pe: PE) -> RichHeader | None:
    row = pe._value("rich_header")
    if row is None:
        return None
    values = [number for it in row.entries for number in (it.product << 16 | it.build, it.objects)]
    clear = struct.pack(f"<4I{len(values)}I", 0x536E6144, 0, 0, 0, *values)
    raw = struct.pack(f"<{len(values) + 4}I", *(it ^ row.key for it in (0x536E6144, 0, 0, 0, *values)))
    return RichHeader(checksum=row.key, values=values, key=struct.pack("<I", row.key), raw_data=raw, clear_data=clear)


# ---- version information


def _versions(pe: PE) -> list[_image.Version]:
    """Version information of the first resource of its type, in each language: pefile reads no other."""
    leaves = [it for it in pe._image.resources if it.type == _image.RT_VERSION and it.content is not None]
    return [version for leaf, version in zip(leaves, pe._image.versions) if leaf.name == leaves[0].name]


def _block(pe: PE, name: str, block: _rows.VersionBlock, **more: Any) -> Structure:
    """The head of a block, which stands before its key."""
    made = _Made(name, block.key_offset - 6, Length=0, ValueLength=0, Type=0)
    made.__unpack__(pe.__data__[block.key_offset - 6:block.key_offset])
    made.__dict__.update(more)
    return made


def _file_info(pe: PE, block: _rows.VersionBlock) -> Structure:
    """StringFileInfo with its tables, or VarFileInfo with its values."""
    made = _block(pe, block.key if block.key == "VarFileInfo" else "StringFileInfo", block, Key=_bytes(block.key))
    if block.key.startswith("StringFileInfo"):
        made.StringTable = [_string_table(pe, it) for it in block.children]
    elif block.key.startswith("VarFileInfo"):
        made.Var = [_var(pe, it) for it in block.children]
    return made


def _string_table(pe: PE, table: _rows.VersionBlock) -> Structure:
    entries, offsets = _Texts(), {}
    for it in table.children:
        key, value = _bytes(it.key), _bytes(it.value) if isinstance(it.value, str) else b""
        entries[key] = value
        offsets[key] = it.key_offset, it.value_offset
    lengths = {key: (len(key or b""), len(value or b"")) for key, value in entries.items()}
    entries._before = {key: (offsets[key][1], value) for key, value in entries.items()}
    return _block(pe, "StringTable", table, LangID=_bytes(table.key), entries=entries, entries_offsets=offsets, entries_lengths=lengths)


def _var(pe: PE, block: _rows.VersionBlock) -> Structure:
    made = _block(pe, "Var", block)
    numbers = block.value if isinstance(block.value, bytes) else b""
    for pair in struct.iter_unpack("<HH", numbers[:len(numbers) & ~3]):
        made.entry = {_bytes(block.key): "0x%04x 0x%04x" % pair}
    return made


def _read_file_info(pe: PE) -> list[list[Structure]]:
    return [[_file_info(pe, it) for root in version.blocks[:1] for it in root.children] for version in _versions(pe)
            if version.fixed is not None]


def _read_version_info(pe: PE) -> list[Structure]:
    return [_block(pe, "VS_VERSIONINFO", root, Key=_bytes(root.key)) for it in _versions(pe) for root in it.blocks[:1]]


def _read_fixed_info(pe: PE) -> list[Structure]:
    return [_Made("VS_FIXEDFILEINFO", root.value_offset, Signature=it.signature, StrucVersion=it.struct_version,
                  FileVersionMS=it.file_version_ms, FileVersionLS=it.file_version_ls,
                  ProductVersionMS=it.product_version_ms, ProductVersionLS=it.product_version_ls,
                  FileFlagsMask=it.file_flags_mask, FileFlags=it.file_flags, FileOS=it.file_os, FileType=it.file_type,
                  FileSubtype=it.file_subtype, FileDateMS=it.file_date_ms, FileDateLS=it.file_date_ls)
            for version in _versions(pe) for it, root in zip([version.fixed] if version.fixed else [], version.blocks[:1])]


_LOST = "the library for C does not return where this structure stands, so that it is not written"


class _Texts(dict[typing.Optional[bytes], typing.Optional[bytes]]):
    """The strings of a table of version information, and where each stood, with what it was."""

    _before: dict[bytes | None, tuple[int, bytes | None]] = {}

    def changes(self) -> typing.Iterator[tuple[int, bytes]]:
        """The strings that are others now: at which offset, and the bytes. A shorter one is filled up with zeros."""
        for key in [*self, *(it for it in self._before if it not in self)]:
            if key not in self or key not in self._before:
                raise NotInPeC(f"StringTable.entries[{key!r}], which was added or taken away", "ResourceEditor writes others")
            offset, before = self._before[key]
            if self[key] != before:
                text, room = ((it or b"").decode("utf-8").encode("utf-16-le") for it in (self[key], before))
                if len(text) > len(room):
                    raise PEFormatError(f"The text of {key!r} is longer than the one in the file.")
                yield offset, text.ljust(len(room), b"\0")


def _structures(value: Any) -> typing.Iterator[Any]:
    """The structures inside of what was read."""
    values = [value]
    while values:
        it = values.pop()
        if isinstance(it, Structure):
            yield it
        if isinstance(it, (Structure, DataContainer)):
            values += [inner for name, inner in it.__dict__.items() if name not in ("pe", "_pe")]
        elif isinstance(it, list):
            values += it


# What is read when it is asked for, and is no attribute where there is nothing.
_READ = {"DIRECTORY_ENTRY_IMPORT": _read_imports, "DIRECTORY_ENTRY_DELAY_IMPORT": _read_delay_imports,
         "DIRECTORY_ENTRY_EXPORT": _read_exports, "DIRECTORY_ENTRY_DEBUG": _read_debug,
         "DIRECTORY_ENTRY_RESOURCE": _read_resources, "DIRECTORY_ENTRY_BASERELOC": _read_relocations,
         "DIRECTORY_ENTRY_TLS": _read_tls, "DIRECTORY_ENTRY_LOAD_CONFIG": _read_load_config,
         "DIRECTORY_ENTRY_BOUND_IMPORT": _read_bound_imports, "DIRECTORY_ENTRY_EXCEPTION": _read_exceptions,
         "FileInfo": _read_file_info, "VS_VERSIONINFO": _read_version_info, "VS_FIXEDFILEINFO": _read_fixed_info}


def _format_of(name: str) -> tuple[str, tuple[str, ...]]:
    """The format of a structure, which an image of pefile has as __NAME_format__."""
    own = name if "OPTIONAL" in name else name.removesuffix("64")
    return own, tuple(f"{code},{','.join(names)}" for code, names in _LAYOUTS[name])


def _unpacked(made: Structure, data: bytes | bytearray) -> Structure | None:
    """The structure with the fields that stand in some bytes; None where these are too few."""
    try:
        made.__unpack__(data)
    except PEFormatError:
        return None
    return made


# Fields of these directories that are addresses.
_ADDRESSES = {
    "DIRECTORY_ENTRY_TLS": ("StartAddressOfRawData", "EndAddressOfRawData", "AddressOfIndex", "AddressOfCallBacks"),
    "DIRECTORY_ENTRY_LOAD_CONFIG": (
        "LockPrefixTable", "EditList", "SecurityCookie", "SEHandlerTable", "GuardCFCheckFunctionPointer",
        "GuardCFDispatchFunctionPointer", "GuardCFFunctionTable", "GuardAddressTakenIatEntryTable",
        "GuardLongJumpTargetTable", "DynamicValueRelocTable", "CHPEMetadataPointer",
        "GuardRFFailureRoutine", "GuardRFFailureRoutineFunctionPointer",
        "GuardRFVerifyStackPointerFunctionPointer", "EnclaveConfigurationPointer")}


class PE:
    """An image, by pefile's names. It takes the name of a file, or its bytes as `data`."""

    def __init__(self, name: str | os.PathLike[str] | None = None, data: Any = None, fast_load: bool | None = None,
                 max_symbol_exports: int = 8192, max_repeated_symbol: int = 120) -> None:
        if name is None and data is None:
            raise ValueError("Must supply either name or data")
        try:
            self._image = _image.open(name) if name is not None else _image.Image(data)
        except Error as error:
            raise PEFormatError(str(error)) from None
        self.max_symbol_exports, self.max_repeated_symbol = max_symbol_exports, max_repeated_symbol
        self._limits: list[str] = []
        self._view = self._image.memory
        whole = self._view.obj
        self.__data__: bytes | bytearray = (
            whole if isinstance(whole, bytes) and len(whole) == len(self._view) else bytes(self._view))
        self._read_headers()

    # ---- headers

    def _read_headers(self) -> None:
        it, offset = self._image.all_headers, self._image.headers.sections_offset
        if not it.optional_offset:
            self.close()
            raise PEFormatError("No Optional Header found, invalid PE32 or PE32+ file.")
        optional, nt = it.optional_offset, it.dos.pe_pointer
        self.DOS_HEADER = _Made("IMAGE_DOS_HEADER", 0, **_fields(_DOS, it.dos))
        self.FILE_HEADER = _Made("IMAGE_FILE_HEADER", nt + 4, **_fields(_COFF, it.coff))
        is_64 = it.optional.magic == OPTIONAL_HEADER_MAGIC_PE_PLUS
        fields = _fields({name: own for name, own in _OPTIONAL.items() if not is_64 or name != "BaseOfData"}, it.optional)
        self.OPTIONAL_HEADER = _Made("IMAGE_OPTIONAL_HEADER64" if is_64 else "IMAGE_OPTIONAL_HEADER", optional, **fields)
        self.OPTIONAL_HEADER.DATA_DIRECTORY = [
            _Made("IMAGE_DATA_DIRECTORY", it.directories_offset + 8 * i, VirtualAddress=row.virtual_address, Size=row.size)
            for i, row in enumerate(it.directories)]
        for i, directory in enumerate(self.OPTIONAL_HEADER.DATA_DIRECTORY):
            directory.name = DIRECTORY_ENTRY[i]
        self.NT_HEADERS = _Made("IMAGE_NT_HEADERS", nt, Signature=it.signature, FILE_HEADER=self.FILE_HEADER,
                                    OPTIONAL_HEADER=self.OPTIONAL_HEADER)
        self.PE_TYPE = it.optional.magic
        rows = sorted(enumerate(self._image.sections), key=lambda pair: pair[1].virtual_address)
        following = [row.virtual_address for _, row in rows[1:]] + [None]
        self.sections = [SectionStructure(self, row, offset + 40 * i, after)
                         for (i, row), after in zip(rows, following)]

    @property
    def header(self) -> bytes:
        """The bytes before the first section."""
        end = self._image.headers.sections_offset + 40 * len(self.sections)
        lowest = min((it.get_PointerToRawData_adj() for it in self.sections if it.PointerToRawData), default=0)
        return self.__data__[:lowest if lowest and lowest >= end else end]

    def __getattr__(self, name: str) -> Any:
        read: Any = _READ.get(name)
        if name in ("_view", "__data__"):
            raise ValueError("operation on a closed image")
        if name == "RICH_HEADER":
            self.RICH_HEADER = _read_rich(self)
            return self.RICH_HEADER
        if name.startswith("__") and name[2:].removesuffix("_format__") in _LAYOUTS:
            return _format_of(name[2:].removesuffix("_format__"))
        value = read(self) if read is not None and "_image" in self.__dict__ else None
        if not value:
            raise _missing("PE", name)
        self.__dict__[name] = value
        return value

    def _value(self, name: str) -> Any:
        """A record, or None where the image has none or a damaged one."""
        try:
            return getattr(self._image, name)
        except Error:
            return None

    def __enter__(self) -> PE:
        return self

    def __exit__(self, *_: object) -> None:
        self.close()

    def close(self) -> None:
        """Lets the bytes go. What was not read before raises ValueError from then on."""
        for name in ("_view", "__data__"):
            self.__dict__.pop(name, None)
        self._image.close()

    def __unpack_data__(self, format: tuple[str, typing.Iterable[str]], data: bytes, file_offset: int | None) -> Structure | None:
        """A structure of the caller's own from some bytes; None where they are too short."""
        return _unpacked(Structure(format, file_offset=file_offset), data)

    def __unpack_data_with_bitfields__(self, format: tuple[str, typing.Iterable[str]], data: bytes,
                                       file_offset: int | None) -> Structure | None:
        """The same with bit fields."""
        return _unpacked(StructureWithBitfields(format, file_offset=file_offset), data)

    def full_load(self) -> None:
        """Does nothing: each directory is read when it is asked for."""

    def parse_data_directories(self, directories: Any = None, forwarded_exports_only: bool = False,
                               import_dllnames_only: bool = False) -> None:
        """Does nothing: each directory is read when it is asked for, and whole."""

    # ---- directories at another place

    def _elsewhere(self, attribute: str, directory: str, rva: int, size: int) -> Any:
        """What an attribute would have where its directory stood at an RVA; None where nothing is read there."""
        directories, index = self.OPTIONAL_HEADER.DATA_DIRECTORY, DIRECTORY_ENTRY[directory]
        if index >= len(directories):
            raise NotInPeC(f"PE.{attribute} at an RVA", "the image has no entry of this directory")
        own = directories[index]
        if (rva, size) == (own.VirtualAddress, own.Size):
            return getattr(self, attribute, None)
        data = bytearray(self.__data__)
        struct.pack_into("<II", data, own.get_file_offset(), rva, size)
        other = _copies.copy(self)
        # What is set in its bytes is set in those of the image that this one was opened as.
        other.__dict__.update(_image=_image.Image(bytes(data)), _origin=self.__dict__.get("_origin", self))
        for name in ("_unwinding", *_READ):
            other.__dict__.pop(name, None)
        other._read_headers()
        return getattr(other, attribute, None)

    def parse_import_directory(self, rva: int, size: int, dllnames_only: bool = False) -> list[ImportDescData] | None:
        """The imports by an import directory at an RVA, with all names."""
        found: list[ImportDescData] | None = self._elsewhere("DIRECTORY_ENTRY_IMPORT", "IMAGE_DIRECTORY_ENTRY_IMPORT", rva, size)
        return found

    def parse_delay_import_directory(self, rva: int, size: int) -> list[ImportDescData] | None:
        found: list[ImportDescData] | None = self._elsewhere(
            "DIRECTORY_ENTRY_DELAY_IMPORT", "IMAGE_DIRECTORY_ENTRY_DELAY_IMPORT", rva, size)
        return found

    def parse_export_directory(self, rva: int, size: int, forwarded_only: bool = False) -> ExportDirData | None:
        """The exports by an export directory at an RVA. Where forwarders alone are asked for, the others with a name come after them
        without it, as in pefile."""
        found: ExportDirData | None = self._elsewhere("DIRECTORY_ENTRY_EXPORT", "IMAGE_DIRECTORY_ENTRY_EXPORT", rva, size)
        if found is None or not forwarded_only:
            return found
        symbols = [it for it in found.symbols if it.name is not None and it.forwarder is not None]
        known = {it.ordinal for it in symbols}
        others = {it.ordinal: it for it in found.symbols if it.ordinal not in known}
        symbols += [ExportData(ordinal=it, address=others[it].address, name=None, forwarder=others[it].forwarder) for it in sorted(others)]
        return ExportDirData(struct=found.struct, symbols=symbols, name=found.name)

    def parse_debug_directory(self, rva: int, size: int) -> list[DebugData] | None:
        found: list[DebugData] | None = self._elsewhere("DIRECTORY_ENTRY_DEBUG", "IMAGE_DIRECTORY_ENTRY_DEBUG", rva, size)
        return found

    def parse_directory_tls(self, rva: int, size: int) -> TlsData | None:
        found: TlsData | None = self._elsewhere("DIRECTORY_ENTRY_TLS", "IMAGE_DIRECTORY_ENTRY_TLS", rva, size)
        return found

    def parse_directory_load_config(self, rva: int, size: int) -> LoadConfigData | None:
        found: LoadConfigData | None = self._elsewhere("DIRECTORY_ENTRY_LOAD_CONFIG", "IMAGE_DIRECTORY_ENTRY_LOAD_CONFIG", rva, size)
        return found

    def parse_relocations_directory(self, rva: int, size: int) -> list[BaseRelocationData] | None:
        found: list[BaseRelocationData] | None = self._elsewhere(
            "DIRECTORY_ENTRY_BASERELOC", "IMAGE_DIRECTORY_ENTRY_BASERELOC", rva, size)
        return found

    def parse_directory_bound_imports(self, rva: int, size: int) -> list[BoundImportDescData] | None:
        found: list[BoundImportDescData] | None = self._elsewhere(
            "DIRECTORY_ENTRY_BOUND_IMPORT", "IMAGE_DIRECTORY_ENTRY_BOUND_IMPORT", rva, size)
        return found

    def parse_exceptions_directory(self, rva: int, size: int) -> list[ExceptionsDirEntryData] | None:
        found: list[ExceptionsDirEntryData] | None = self._elsewhere(
            "DIRECTORY_ENTRY_EXCEPTION", "IMAGE_DIRECTORY_ENTRY_EXCEPTION", rva, size)
        return found

    def parse_resources_directory(self, rva: int, size: int = 0) -> ResourceDirData | None:
        """The tree of resources whose root is at an RVA."""
        found: ResourceDirData | None = self._elsewhere("DIRECTORY_ENTRY_RESOURCE", "IMAGE_DIRECTORY_ENTRY_RESOURCE", rva, size or 16)
        return found

    def _structure_at(self, name: str, rva: int) -> _Made | None:
        """A structure at an RVA, None where that is nowhere."""
        made = _Made(name, self.get_physical_by_rva(rva), **{it: 0 for _, names in _LAYOUTS[name] for it in names})
        try:
            made.__unpack__(self.get_data(rva, made.sizeof()))
        except PEFormatError:
            return None
        return made

    def parse_resource_data_entry(self, rva: int) -> Structure | None:
        return self._structure_at("IMAGE_RESOURCE_DATA_ENTRY", rva)

    def parse_resource_entry(self, rva: int) -> Structure | None:
        made = self._structure_at("IMAGE_RESOURCE_DIRECTORY_ENTRY", rva)
        return made and _with_parts(made)

    def get_warnings(self) -> list[str]:
        """What of the image is damaged or limited, a small file alignment, and exports and string tables that are left out. pefile's
        texts, and its guesses at packers, are others."""
        for name in ("DIRECTORY_ENTRY_EXPORT", "DIRECTORY_ENTRY_RESOURCE"):
            getattr(self, name, None)
        return [*map(str, self._image.warnings), *self._limits]

    def dump_dict(self) -> dict[str, Any]:
        """All that was read as values, by the names of the sections of dump_info."""
        from . import _pefile_dump
        return _pefile_dump.dump_dict(self)

    def dump_info(self, dump: Dump | None = None, encoding: str = "ascii") -> str:
        """All that was read as text, a section for each part, after what a dump has. Its texts are ASCII, whatever the encoding is."""
        from . import _pefile_dump
        text = _pefile_dump.dump_info(self)
        if dump is None:
            return text
        dump.add(text)
        return dump.get_text()

    def __str__(self) -> str:
        return self.dump_info()

    def print_info(self, encoding: str = "utf-8") -> None:
        """Prints dump_info."""
        print(self.dump_info(encoding=encoding))

    def show_warnings(self) -> None:
        for it in self.get_warnings():
            print(">", it)

    def get_resources_strings(self) -> list[str]:
        """The texts of all string tables."""
        root = getattr(self, "DIRECTORY_ENTRY_RESOURCE", None)
        names = [it for kind in (root.entries if root else []) for it in kind.directory.entries]
        return [text for it in names for text in it.directory.__dict__.get("strings", {}).values()]

    # ---- hashes

    def get_imphash(self) -> str:
        """The imphash; "" without imports, and where their list is not whole."""
        return self._image.imphash() or ""

    def get_exphash(self) -> str:
        """The hash of the exports' names; "" without names, and where their list is not whole."""
        return self._image.exphash() or ""

    def parse_rich_header(self) -> dict[str, Any] | None:
        """The Rich header: key, raw_data, clear_data, checksum, values. None without one."""
        it = self.RICH_HEADER
        names = ("key", "raw_data", "clear_data", "checksum", "values")
        return None if it is None else {name: getattr(it, name) for name in names}

    def get_rich_header_hash(self, algorithm: str = "md5") -> str:
        if algorithm not in ("md5", "sha1", "sha256", "sha512"):
            raise Exception("Invalid hashing algorithm specified")
        return self._image.rich_hash(algorithm) or ""

    def generate_checksum(self) -> int:
        """The checksum that the image should have, with what was changed in it."""
        try:
            return self._now().right_checksum().value
        except Error as error:
            raise PEFormatError(str(error)) from None

    # ---- changes

    def set_data_bytes(self, offset: int, data: bytes) -> None:
        """Writes bytes at a file offset. What was read before stays as it is."""
        own: PE = self.__dict__.get("_origin", self)
        if not isinstance(own.__data__, bytearray):
            own.__data__ = bytearray(own.__data__)
        own.__data__[offset:offset + len(data)] = data

    def set_bytes_at_offset(self, offset: int, data: bytes) -> bool:
        """Writes bytes at a file offset. False where that is outside of the file."""
        if not isinstance(data, bytes):
            raise TypeError("data should be of type: bytes")
        is_inside = 0 <= offset < len(self.__data__)
        if is_inside:
            self.set_data_bytes(offset, data)
        return is_inside

    def set_bytes_at_rva(self, rva: int, data: bytes) -> bool:
        """The same at an RVA."""
        if not isinstance(data, bytes):
            raise TypeError("data should be of type: bytes")
        offset = self.get_physical_by_rva(rva)
        return bool(offset) and self.set_bytes_at_offset(offset or 0, data)

    def set_word_at_offset(self, offset: int, word: int) -> bool:
        return self.set_bytes_at_offset(offset, self.get_data_from_word(word))

    def set_word_at_rva(self, rva: int, word: int) -> bool:
        return self.set_bytes_at_rva(rva, self.get_data_from_word(word))

    def set_dword_at_offset(self, offset: int, dword: int) -> bool:
        return self.set_bytes_at_offset(offset, self.get_data_from_dword(dword))

    def set_dword_at_rva(self, rva: int, dword: int) -> bool:
        return self.set_bytes_at_rva(rva, self.get_data_from_dword(dword))

    def set_qword_at_offset(self, offset: int, qword: int) -> bool:
        return self.set_bytes_at_offset(offset, self.get_data_from_qword(qword))

    def set_qword_at_rva(self, rva: int, qword: int) -> bool:
        return self.set_bytes_at_rva(rva, self.get_data_from_qword(qword))

    def relocate_image(self, new_ImageBase: int) -> None:
        """Moves the addresses in the file to another base, by the base relocations. Raises PEFormatError, and changes nothing,
        where one is damaged, outside of the file, or of a type that few machines have. Without a directory of relocations it
        does nothing."""
        directories, difference = self.OPTIONAL_HEADER.DATA_DIRECTORY, new_ImageBase - self.OPTIONAL_HEADER.ImageBase
        if not any(it.Size for it in directories[_image.IMAGE_DIRECTORY_ENTRY_BASERELOC:][:1]):
            return
        moves = list(self._moves(difference))
        for name in ("DIRECTORY_ENTRY_IMPORT", "DIRECTORY_ENTRY_TLS", "DIRECTORY_ENTRY_LOAD_CONFIG"):
            getattr(self, name, None)
        for form, offset, move in moves:
            number, = struct.unpack_from(form, self.__data__, offset)
            self.set_data_bytes(offset, struct.pack(form, (number + move) % (1 << 8 * struct.calcsize(form))))
        self.OPTIONAL_HEADER.ImageBase = new_ImageBase
        self._move_fields(difference)

    def _moves(self, difference: int) -> typing.Iterator[tuple[str, int, int]]:
        """What the base relocations change: the format of a number, its offset, and what is added to it."""
        if self._image.relocations.error or self._image.relocations.is_limited:
            raise PEFormatError(f"base relocations that are not whole: {self._image.relocations.error or 'limited'}")
        forms = {1: ("<H", difference >> 16), 2: ("<H", difference), 3: ("<I", difference), 10: ("<Q", difference)}
        for it in (it for row in self._image.relocations for it in row.entries if it.kind):
            if it.kind not in forms:
                raise PEFormatError(f"base relocation of type {it.kind} at RVA 0x{it.rva:x}")
            form, move = forms[it.kind]
            offset = self._image.offset_of(it.rva)
            if offset is None or offset + struct.calcsize(form) > len(self.__data__):
                raise PEFormatError(f"base relocation outside of the file, at RVA 0x{it.rva:x}")
            yield form, offset, move

    def _move_fields(self, difference: int) -> None:
        """Moves the addresses that were read. What the file has there its relocations moved."""
        for dll in self.__dict__.get("DIRECTORY_ENTRY_IMPORT", ()):
            for it in dll.imports:
                it.address += difference
        for name, fields in _ADDRESSES.items():
            there = getattr(self.__dict__.get(name), "struct", _Made("")).__dict__
            there.update({it: there[it] + difference for it in fields if there.get(it)})

    @property
    def __structures__(self) -> list[Any]:
        """The headers, and the structures of directories that were read so far."""
        headers = [self.DOS_HEADER, self.NT_HEADERS, self.FILE_HEADER, self.OPTIONAL_HEADER, *self.OPTIONAL_HEADER.DATA_DIRECTORY,
                   *self.sections]
        return [*headers, *_structures([self.__dict__.get(name) for name in _READ])]

    def merge_modified_section_data(self) -> None:
        """Does nothing: the data of sections are those of the file."""

    def write(self, filename: str | os.PathLike[str] | None = None) -> bytearray | None:
        """The file with what was set in its bytes, and assigned to fields of headers, directories and version information, and to its
        strings; into a file where that is named. Raises PEFormatError where such a string is longer than the one in the file, and
        NotInPeC where strings were added, and of a directory that is not mapped: their places are not known."""
        data = bytearray(self.__data__)
        for it in self.__structures__:
            if it._changed and it._offset is None:
                raise NotInPeC(f"{it.name}.{min(it._changed)} as it was assigned", _LOST)
            changes = [(it._offset, it.__pack__())] if it._changed else []
            for offset, packed in [*changes, *getattr(it.__dict__.get("entries"), "changes", tuple)()]:
                data[offset:offset + len(packed)] = packed
        if not filename:
            return data
        with open(filename, "wb") as file:
            file.write(data)
        return None

    def _now(self) -> _image.Image:
        """The image with what was changed in it."""
        data = bytes(self.write() or b"")
        return self._image if self._view == data else _image.Image(data)

    def verify_checksum(self) -> bool:
        return bool(self.OPTIONAL_HEADER.CheckSum == self.generate_checksum())

    # ---- addresses

    def adjust_FileAlignment(self, val: int, file_alignment: int) -> int:
        return cache_adjust_FileAlignment(val, file_alignment)

    def adjust_SectionAlignment(self, val: int, section_alignment: int, file_alignment: int) -> int:
        return cache_adjust_SectionAlignment(val, section_alignment, file_alignment)

    def dword_align(self, offset: int, base: int) -> int:
        return ((offset + base + 3) & 0xFFFFFFFC) - (base & 0xFFFFFFFC)

    def normalize_import_va(self, va: int) -> int:
        """The RVA of an address in the image, and any other number as it is."""
        base = self.OPTIONAL_HEADER.ImageBase
        return int(va - base if base <= va < base + self.OPTIONAL_HEADER.SizeOfImage else va)

    def get_section_by_rva(self, rva: int) -> SectionStructure | None:
        return next((it for it in self.sections if it.contains_rva(rva)), None)

    def get_section_by_offset(self, offset: int) -> SectionStructure | None:
        return next((it for it in self.sections if it.contains_offset(offset)), None)

    def get_offset_from_rva(self, rva: int) -> int:
        """The file offset of an RVA. Outside of all sections it is the RVA itself, inside of the file."""
        section = self.get_section_by_rva(rva)
        if section:
            return section.get_offset_from_rva(rva)
        if rva >= len(self.__data__):
            raise PEFormatError(f"data at RVA 0x{rva:x} can't be fetched")
        return rva

    def get_rva_from_offset(self, offset: int) -> int | None:
        section = self.get_section_by_offset(offset)
        if section:
            return section.get_rva_from_offset(offset)
        lowest = min((it.get_VirtualAddress_adj() for it in self.sections), default=offset + 1)
        return offset if offset < lowest else None

    def get_physical_by_rva(self, rva: int) -> int | None:
        try:
            return self.get_offset_from_rva(rva)
        except PEFormatError:
            return None

    def get_data(self, rva: int = 0, length: int | None = None) -> bytes:
        """Bytes from an RVA on, up to the end of its section. Raises PEFormatError for an RVA that is nowhere."""
        section = self.get_section_by_rva(rva)
        if section:
            return section.get_data(rva, length)
        end = rva + length if length else None
        if rva < len(self.header):
            return self.header[rva:end]
        if rva >= len(self.__data__):
            raise PEFormatError("data at RVA can't be fetched. Corrupt header?")
        return self.__data__[rva:end]

    def get_bytes_from_data(self, offset: int, data: bytes) -> bytes:
        return bytes(data[offset:])

    def get_string_from_data(self, offset: int, data: bytes) -> bytes:
        return bytes(data[offset:]).split(b"\0")[0]

    def get_string_at_rva(self, rva: int | None, max_length: int = 0x100000) -> bytes | None:
        """A NUL-terminated text, without the zero."""
        if rva is None:
            return None
        section = self.get_section_by_rva(rva)
        data = section.get_data(rva, max_length) if section else self.__data__[rva:rva + max_length]
        return self.get_string_from_data(0, data)

    def get_string_u_at_rva(self, rva: int, max_length: int = 2**16, encoding: str | None = None) -> bytes:
        """A text of UTF-16 that ends at a zero, encoded."""
        data = self.get_data(rva, max_length * 2) if max_length else b""
        units = struct.unpack(f"<{len(data) // 2}H", data[:len(data) & ~1])
        end = units.index(0) if 0 in units else len(units)
        return data[:end * 2].decode("utf-16-le", "surrogatepass").encode(encoding or "utf-8", "backslashreplace")

    def _number(self, form: str, data: bytes, offset: int) -> int | None:
        size = struct.calcsize(form)
        piece = bytes(data[offset * size:(offset + 1) * size])
        return int(struct.unpack(form, piece)[0]) if len(piece) == size and offset >= 0 else None

    def _number_at(self, form: str, rva: int) -> int | None:
        try:
            return self._number(form, self.get_data(rva, struct.calcsize(form)), 0)
        except PEFormatError:
            return None

    def get_word_from_data(self, data: bytes, offset: int) -> int | None:
        return self._number("<H", data, offset)

    def get_dword_from_data(self, data: bytes, offset: int) -> int | None:
        return self._number("<I", data, offset)

    def get_qword_from_data(self, data: bytes, offset: int) -> int | None:
        return self._number("<Q", data, offset)

    def get_word_at_rva(self, rva: int) -> int | None:
        return self._number_at("<H", rva)

    def get_dword_at_rva(self, rva: int) -> int | None:
        return self._number_at("<I", rva)

    def get_qword_at_rva(self, rva: int) -> int | None:
        return self._number_at("<Q", rva)

    def get_word_from_offset(self, offset: int) -> int | None:
        return self._number("<H", self.__data__[offset:offset + 2], 0)

    def get_dword_from_offset(self, offset: int) -> int | None:
        return self._number("<I", self.__data__[offset:offset + 4], 0)

    def get_qword_from_offset(self, offset: int) -> int | None:
        return self._number("<Q", self.__data__[offset:offset + 8], 0)

    def get_data_from_word(self, word: int) -> bytes:
        return struct.pack("<H", word)

    def get_data_from_dword(self, dword: int) -> bytes:
        return struct.pack("<I", dword & 0xFFFFFFFF)

    def get_data_from_qword(self, word: int) -> bytes:
        return struct.pack("<Q", word)

    # ---- the image as a whole

    def get_overlay_data_start_offset(self) -> int | None:
        """The file offset of what follows the headers and the raw data of all sections, or None."""
        view = self._image.overlay
        return None if view is None else len(self.__data__) - len(view)

    def get_overlay(self) -> bytes | None:
        start = self.get_overlay_data_start_offset()
        return None if start is None else self.__data__[start:]

    def trim(self) -> bytes:
        """The file without its overlay."""
        return self.__data__[:self.get_overlay_data_start_offset()]

    def get_memory_mapped_image(self, max_virtual_address: int = 0x10000000, ImageBase: int | None = None) -> bytes:
        """The image as a loader lays it out, as many bytes as SizeOfImage says, at another base where one is named and there are base
        relocations. The file's bytes stay as they are. Raises PEFormatError where SizeOfImage is more than max_virtual_address."""
        if self.OPTIONAL_HEADER.SizeOfImage > max_virtual_address:
            raise PEFormatError(f"SizeOfImage is {self.OPTIONAL_HEADER.SizeOfImage:#x}, more than max_virtual_address")
        if ImageBase is not None and not 0 <= ImageBase < 1 << (64 if self._image.is_64 else 32):
            raise PEFormatError(f"{ImageBase:#x} is no base of this image")
        try:
            image = self._now()
            mapped = image.map(ImageBase, most=max_virtual_address)
            return image.map(most=max_virtual_address) or b"" if mapped is None else mapped
        except Error as error:
            raise PEFormatError(str(error)) from None

    def has_relocs(self) -> bool:
        return hasattr(self, "DIRECTORY_ENTRY_BASERELOC")

    def is_dll(self) -> bool:
        return bool(self.FILE_HEADER.Characteristics & _image.IMAGE_FILE_DLL)

    def is_exe(self) -> bool:
        is_executable = bool(self.FILE_HEADER.Characteristics & _image.IMAGE_FILE_EXECUTABLE_IMAGE)
        return is_executable and not self.is_dll() and not self.is_driver()

    def is_driver(self) -> bool:
        """Whether the image imports of the kernel, or is a native one with pageable sections."""
        libraries = getattr(self, "DIRECTORY_ENTRY_IMPORT", None)
        if libraries is None:
            return False
        kernel = {b"ntoskrnl.exe", b"hal.dll", b"ndis.sys", b"bootvid.dll", b"kdcom.dll"}
        if kernel & {it.dll.lower() for it in libraries}:
            return True
        native = ("IMAGE_SUBSYSTEM_NATIVE", "IMAGE_SUBSYSTEM_NATIVE_WINDOWS")
        is_paged = any(it.Name.lower().rstrip(b"\0") in (b"page", b"paged") for it in self.sections)
        return is_paged and SUBSYSTEM_TYPE.get(self.OPTIONAL_HEADER.Subsystem) in native


def main() -> None:
    """Prints what pefile's own command prints: the text of dump_info of a file, or after the word exports its exports."""
    import sys
    if not sys.argv[1:]:
        print("pefile.py <filename>\npefile.py exports <filename>")
    elif sys.argv[1] != "exports":
        print(PE(sys.argv[1]).dump_info())
    elif not sys.argv[2:]:
        sys.exit("error: <filename> required")
    else:
        pe = PE(sys.argv[2])
        for it in pe.DIRECTORY_ENTRY_EXPORT.symbols:
            print(hex(pe.OPTIONAL_HEADER.ImageBase + it.address), it.name, it.ordinal)


if __name__ == "__main__":
    main()
