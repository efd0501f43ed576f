"""What llvm-readobj reads of an image, for compare_pe, in the terms in which the JSON of `pe` says the same."""

import collections
import re
import uuid

from by_struct import LOAD_CONFIG, records_of
from comparing import X64, field, nested, number, parts, run, value

MAGIC = {0x10B: "PE32", 0x20B: "PE32+"}
TYPES = {"ABSOLUTE": 0, "HIGH": 1, "LOW": 2, "HIGHLOW": 3, "HIGHADJ": 4, "DIR64": 10}
# What llvm-readobj calls fields of a load configuration otherwise than winnt.h, and those that it has in the other order in PE32.
NAMED = {"GuardCFCheckFunctionPointer": "GuardCFCheckFunction", "GuardCFDispatchFunctionPointer": "GuardCFCheckDispatch"}
EXCHANGED = "ProcessHeapFlags", "ProcessAffinityMask"
# What it calls the tables to which a load configuration leads, and the largest size of an entry that it knows there.
TABLES = {
    "se_handlers": ("SEHTable", 4), "guarded_functions": ("GuardFidTable", 5), "guarded_iat_entries": ("GuardIatTable", 4),
    "long_jump_targets": ("GuardLJmpTable", 4), "eh_continuations": ("GuardEHContTable", 5),
}
# What it calls further fields of the headers.
VERSIONS = {"linker_version": "LinkerVersion", "operating_system_version": "OperatingSystemVersion",
            "image_version": "ImageVersion", "subsystem_version": "SubsystemVersion"}
COFF = {
    "number_of_sections": "SectionCount", "number_of_symbols": "SymbolCount", "symbol_table_file_offset": "PointerToSymbolTable",
    "size_of_optional_header": "OptionalHeaderSize",
}
OPTIONAL = ("magic size_of_code size_of_initialized_data size_of_uninitialized_data base_of_code_rva base_of_data_rva size_of_stack_reserve "
            "size_of_stack_commit size_of_heap_reserve size_of_heap_commit").split()
OPTIONAL = {it: it.removesuffix("_rva").title().replace("_", "") for it in OPTIONAL} | {"number_of_rva_and_sizes": "NumberOfRvaAndSize"}
DOS = {
    "bytes_on_last_page": "UsedBytesInTheLastPage", "pages_in_file": "FileSizeInPages", "relocations": "NumberOfRelocationItems",
    "size_of_header_in_paragraphs": "HeaderSizeInParagraphs", "minimum_extra_paragraphs": "MinimumExtraParagraphs",
    "maximum_extra_paragraphs": "MaximumExtraParagraphs", "initial_relative_ss": "InitialRelativeSS", "initial_sp": "InitialSP",
    "checksum": "Checksum", "initial_ip": "InitialIP", "initial_relative_cs": "InitialRelativeCS",
    "relocations_file_offset": "AddressOfRelocationTable", "overlay_number": "OverlayNumber", "oem_id": "OEMid",
    "oem_information": "OEMinfo", "pe_file_offset": "AddressOfNewExeHeader",
}
# The names that winnt.h has otherwise than llvm-readobj.
SPELLED = {"AGGRESSIVE_WS_TRIM": "AGGRESIVE_WS_TRIM"}


def flags_in(members, prefix):
    names = [it.split(" ")[0][len(prefix):] for it in parts(members, "Characteristics")[0]]
    return sorted(SPELLED.get(it, it) for it in names)


def headers_in(header, optional):
    [rows] = parts(optional, "DataDirectory")
    numbers = [int(it.split(": ")[1], 0) for it in rows]
    rows = zip(numbers[::2], numbers[1::2])
    return {
        "machine": value(header, "Machine"), "stamp": value(header, "TimeDateStamp"),
        "format": MAGIC.get(value(optional, "Magic")), "is_dll": "DLL" in flags_in(header, "IMAGE_FILE_"),
        "entry": value(optional, "AddressOfEntryPoint"), "base": value(optional, "ImageBase"),
        "sizes": (value(optional, "SizeOfImage"), value(optional, "SizeOfHeaders")), "subsystem": value(optional, "Subsystem"),
        "alignment": (value(optional, "SectionAlignment"), value(optional, "FileAlignment")),
        "directories": [(index, *row) for index, row in enumerate(rows) if row != (0, 0)],
    }


def file_headers_in(tree, header, optional):
    """The other fields of the headers that it prints, by their names in JSON."""
    [dos] = parts(tree, "DOSHeader")
    records = (COFF, header), (OPTIONAL, optional), (DOS, dos)
    fields = [{name: value(record, printed) for name, printed in names.items()} for names, record in records]
    fields[0]["string_table_size"] = value(header, "StringTableSize")
    versions = {name: f"{value(optional, 'Major' + it)}.{value(optional, 'Minor' + it)}" for name, it in VERSIONS.items()}
    return [{name: number for name, number in it.items() if number is not None}
            for it in (fields[0], {**versions, **fields[1]}, fields[2])]


def functions_in(lines):
    """Imports: their names, or None, and their hints, or ordinals without a name."""
    symbols = [re.fullmatch(r"Symbol:(?: (.*))? \((\d+)\)", it) for it in lines if it.startswith("Symbol:")]
    return [(it[1] or None, int(it[2])) for it in symbols]


def imports_in(tree):
    return [(field(library, "Name"), functions_in(it for it in library if isinstance(it, str))) for library in parts(tree, "Import")]


def delay_imports_in(tree):
    return [(field(library, "Name"), functions_in(line for it in parts(library, "Import") for line in it))
            for library in parts(tree, "DelayImport")]


def load_config_in(tree):
    """The fields that are there: it prints those of one version together or not at all."""
    is_wide = [value(it, "Magic") for it in parts(tree, "ImageOptionalHeader")] == [0x20B]
    found = {name: value(it, NAMED.get(name, name)) for it in parts(tree, "LoadConfig") for name in LOAD_CONFIG[1::2]
             if is_wide or name not in EXCHANGED}
    return {name: number for name, number in found.items() if number is not None}


def tables_in(tree):
    """The RVAs in its tables, each with the size of an entry. An entry is a virtual address, and flags where they are not 0."""
    [base] = [value(it, "ImageBase") for it in parts(tree, "ImageOptionalHeader")]
    return {name: (size, [int(it.split(" ")[0], 16) - base for it in table])
            for name, (called, size) in TABLES.items() for table in parts(tree, called)}


def exports_in(tree):
    """The exports, each with one of its names, and its RVA, or the forwarder's text in newer versions."""
    rows = {}
    for it in parts(tree, "Export"):
        to = field(it, "ForwardedTo") or value(it, "RVA")
        if to:
            rows[value(it, "Ordinal")] = field(it, "Name") or None, to
    return rows


def pdb_in(tree):
    for entry in (it for table in parts(tree, "DebugDirectory") for it in parts(table, "DebugEntry")):
        for it in parts(entry, "PDBInfo"):
            # Of later versions it is no list of bytes.
            told = field(it, "PDBGUID")
            guid = uuid.UUID(told) if told.startswith("{") else uuid.UUID(bytes_le=bytes.fromhex(re.search(r"\((.*)\)", told)[1]))
            return field(it, "PDBFileName"), f"{{{str(guid).upper()}}}", value(it, "PDBAge")
    return None


def type_in(relocation):
    """The type of a base relocation, by its name, or its number after `unknown`."""
    kind = field(relocation, "Type")
    return TYPES[kind] if kind in TYPES else int(re.search(r"\((\d+)\)", kind)[1])


def raw_bytes(members):
    """The bytes that it prints of a record, or None. Of no bytes it prints nothing."""
    found = parts(members, "RawData")
    if value(members, "SizeOfData") == 0:
        return b""
    # The text after two blanks is what the bytes are as characters.
    rows = [re.match(r"[0-9A-F]+: ([0-9A-F ]+?)  +\|", it) for raw in found for it in raw if isinstance(it, str)]
    return bytes.fromhex("".join(it[1].replace(" ", "") for it in rows if it)) if found else None


def symbols_in(readobj, path):
    """The COFF symbols: name, value, section, storage class and number of auxiliary records."""
    answer = run([readobj, "--symbols", path])
    tree = nested(answer[1]) if answer and answer[0] == 0 else None
    last = lambda members, name: int(re.search(r"(-?(?:0x)?[0-9A-Fa-f]+)\)?$", field(members, name))[1], 0)
    return [(field(it, "Name") or "", *(last(it, name) for name in ("Value", "Section", "StorageClass", "AuxSymbolCount")))
            for table in (parts(tree, "Symbols") if tree else []) for it in parts(table, "Symbol")]


def tls_in(tree):
    fields = ["StartAddressOfRawData", "EndAddressOfRawData", "AddressOfIndex", "SizeOfZeroFill"]
    # It prints an empty directory of an image without one.
    return [value(it, name) for it in parts(tree, "TLSDirectory") if it for name in fields]


def by_llvm(readobj, path):
    """What llvm-readobj says, or None where it ends with an error."""
    words = ["--file-headers", "--sections", "--coff-imports", "--coff-exports", "--coff-basereloc", "--coff-debug-directory",
             "--coff-tls-directory", "--coff-load-config"]
    answer = run([readobj, *words, path]) if readobj else None
    if not answer or answer[0] != 0:
        return None
    # It closes the bytes of a record by a parenthesis, as no other list.
    tree = nested(re.sub(r"^ *\)$", "]", answer[1].replace("RawData (", "RawData ["), flags=re.M))
    if tree is None or not parts(tree, "ImageOptionalHeader"):
        return None
    [header], [optional] = parts(tree, "ImageFileHeader"), parts(tree, "ImageOptionalHeader")
    sections = [it for table in parts(tree, "Sections") for it in parts(table, "Section")]
    fields = ["VirtualAddress", "VirtualSize", "PointerToRawData", "RawDataSize"]
    entries = [it for table in parts(tree, "DebugDirectory") for it in parts(table, "DebugEntry")]
    of_entry = ["Type", "SizeOfData", "AddressOfRawData", "PointerToRawData", "TimeDateStamp"]
    relocations = [it for table in parts(tree, "BaseReloc") for it in parts(table, "Entry")]
    said = {
        "headers": headers_in(header, optional), "file headers": file_headers_in(tree, header, optional),
        "characteristics": flags_in(header, "IMAGE_FILE_"),
        "DLL characteristics": flags_in(optional, "IMAGE_DLL_CHARACTERISTICS_"),
        "sections": [tuple(value(it, name) for name in fields) for it in sections],
        "bytes of names": [bytes.fromhex(re.search(r"\(([0-9A-F ]+)\)$", field(it, "Name"))[1]).rstrip(b"\0") for it in sections],
        "shown names": [re.sub(r" ?\([0-9A-F ]+\)$", "", field(it, "Name")) for it in sections],
        "imports": imports_in(tree), "exports by one name": exports_in(tree), "delay imports": delay_imports_in(tree),
        "load configuration": load_config_in(tree), "guarded RVAs": tables_in(tree),
        "bytes of debug records": records_of(
            ((value(it, "Type"), data) for it in entries if (data := raw_bytes(it)) is not None), lambda data: data),
        "debug": [tuple(value(it, name) for name in of_entry) for it in entries], "pdb 7.0": pdb_in(tree), "tls fields": tls_in(tree),
        "relocations by page": collections.Counter((value(it, "Address") & ~0xFFF, type_in(it)) for it in relocations),
    }
    answer = run([readobj, "--unwind", path]) if value(header, "Machine") == X64 else None
    tree = nested(answer[1]) if answer and answer[0] == 0 else None
    if tree is not None:
        base, fields = value(optional, "ImageBase"), ["StartAddress", "EndAddress", "UnwindInfoAddress"]
        functions = [it for table in parts(tree, "UnwindInformation") for it in parts(table, "RuntimeFunction")]
        said["functions"] = [tuple(number(it, name) - base for name in fields) for it in functions]
    if value(header, "SymbolCount"):
        said["symbols by name"] = symbols_in(readobj, path)
    return said
