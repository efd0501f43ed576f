"""What `dump_info` and `dump_dict` of pe_c.pefile.PE write: all that was read of an image, in pefile's forms.

Each part has a section of lines, and a value in the dict. Of an image that is not damaged the warnings alone differ from pefile's: they
are those of `get_warnings`.
"""
from __future__ import annotations

import typing

from . import pefile as _names
from ._pefile_structures import dumped

# The value of a structure in the dict.
_Fields = dict[str, typing.Any]


def _flags(of: typing.Any, table: dict[typing.Any, typing.Any], start: str) -> list[str]:
    """The names of the flags that are set, in the order of the table."""
    return [name for name, number in _names.retrieve_flags(table, start) if getattr(of, name)]


def _file_flags(pe: _names.PE) -> list[str]:
    return _flags(pe.FILE_HEADER, _names.IMAGE_CHARACTERISTICS, "IMAGE_FILE_")


def _dll_flags(pe: _names.PE) -> list[str]:
    return _flags(pe.OPTIONAL_HEADER, _names.DLL_CHARACTERISTICS, "IMAGE_DLLCHARACTERISTICS_")


def _section_flags(section: _names.SectionStructure) -> list[str]:
    return _flags(section, _names.SECTION_CHARACTERISTICS, "IMAGE_SCN_")


def _text(name: bytes | None) -> str:
    """A name as a line has it."""
    return "None" if name is None else dumped("", name)


def _debug_type(number: int) -> str:
    name: str = _names.DEBUG_TYPE.get(number, f"0x{number:x}(Unknown)")
    return name


# ---- the dict


# Version information in one language: its head, the fixed information, and what follows them.
_Version = tuple[_names.Structure, _names.Structure, list[_names.Structure]]


def _versions(pe: _names.PE) -> list[_Version]:
    return list(zip(getattr(pe, "VS_VERSIONINFO", []), getattr(pe, "VS_FIXEDFILEINFO", []), getattr(pe, "FileInfo", [])))


def _below(info: _names.Structure) -> list[_names.Structure]:
    """The tables of strings, or the translations."""
    found: list[_names.Structure] = info.__dict__.get("StringTable") or info.__dict__.get("Var") or []
    return found


def _version_dict(version: _Version) -> list[typing.Any]:
    found: list[typing.Any] = [version[0].dump_dict(), version[1].dump_dict()]
    strings: list[typing.Any] = []
    for own in version[2]:
        strings.append(own.dump_dict())
        for it in _below(own):
            # The names of the fields stand in the list, as pefile has them there.
            strings.extend(it.dump_dict())
            strings.append({"LangID": it.LangID, **it.entries} if it.name == "StringTable" else dict(it.entry))
    return [*found, strings] if strings else found


def _import_dict(dll: bytes, it: _names.ImportData) -> _Fields:
    if it.import_by_ordinal:
        return {"DLL": dll, **({"Name": it.name} if it.name is not None else {}), "Ordinal": it.ordinal}
    return {"DLL": dll, "Name": it.name, "Hint": it.hint}


def _imports_dict(entries: list[_names.ImportDescData]) -> list[list[_Fields]]:
    return [[entry.struct.dump_dict(), *(_import_dict(entry.dll, it) for it in entry.imports)] for entry in entries]


def _exports_dict(table: _names.ExportDirData) -> list[_Fields]:
    found = [table.struct.dump_dict()]
    for it in table.symbols:
        row = {"Ordinal": it.ordinal, "RVA": it.address, "Name": it.name}
        found.append(row if not it.forwarder else {**row, "forwarder": it.forwarder})
    return found


def _bound_dict(entries: list[_names.BoundImportDescData]) -> list[_Fields]:
    return [{**it.struct.dump_dict(), "DLL": it.name} for it in entries]


def _language_dict(entry: _names.ResourceDirEntryData) -> _Fields:
    lang, sublang = entry.data.lang, entry.data.sublang
    names = {"LANG_NAME": _names.LANG.get(lang, "*unknown*"), "SUBLANG_NAME": _names.get_sublang_name_for_lang(lang, sublang)}
    return {"LANG": lang, "SUBLANG": sublang, **names, "Structure": "IMAGE_RESOURCE_DIRECTORY_ENTRY", **entry.struct.dump_dict(),
            **entry.data.struct.dump_dict()}


def _entry_dict(entry: _names.ResourceDirEntryData, level: int) -> _Fields:
    number = _names.RESOURCE_TYPE.get(entry.id) if level == 0 else None
    own = {"Name": entry.name} if entry.name is not None else {"Id": entry.id if level else (entry.id, number or "-")}
    return {**own, **entry.struct.dump_dict()}


def _resources_dict(directory: _names.ResourceDirData, level: int = 0) -> list[typing.Any]:
    found: list[typing.Any] = [directory.struct.dump_dict()]
    for entry in directory.entries:
        if level == 2:
            found.append(_language_dict(entry))
            continue
        found.append(_entry_dict(entry, level))
        if "directory" in entry.__dict__:
            found.append(_resources_dict(entry.directory, level + 1))
    return found


def _debug_dict(entries: list[_names.DebugData]) -> list[_Fields]:
    return [{**it.struct.dump_dict(), "Type": _names.DEBUG_TYPE.get(it.struct.Type, it.struct.Type)} for it in entries]


def _relocation_type(it: _names.RelocationData) -> str | int:
    name: str | None = _names.RELOCATION_TYPE.get(it.type)
    return it.type if name is None else name.removeprefix("IMAGE_REL_BASED_")


def _relocations_dict(blocks: list[_names.BaseRelocationData]) -> list[list[_Fields]]:
    return [[it.struct.dump_dict(), *({"RVA": one.rva, "Type": _relocation_type(one)} for one in it.entries)] for it in blocks]


def _sections_dict(sections: list[_names.SectionStructure]) -> list[_Fields]:
    return [{**it.dump_dict(), "Flags": _section_flags(it), "Entropy": it.get_entropy(), "MD5": it.get_hash_md5(),
             "SHA1": it.get_hash_sha1(), "SHA256": it.get_hash_sha256(), "SHA512": it.get_hash_sha512()} for it in sections]


# What the image may have: its attribute, the name of its section, and its value in the dict.
_PARTS: list[tuple[str, str, typing.Any]] = [
    ("DIRECTORY_ENTRY_EXPORT", "Exported symbols", _exports_dict), ("DIRECTORY_ENTRY_IMPORT", "Imported symbols", _imports_dict),
    ("DIRECTORY_ENTRY_BOUND_IMPORT", "Bound imports", _bound_dict),
    ("DIRECTORY_ENTRY_DELAY_IMPORT", "Delay Imported symbols", _imports_dict),
    ("DIRECTORY_ENTRY_RESOURCE", "Resource directory", _resources_dict),
    ("DIRECTORY_ENTRY_TLS", "TLS", lambda it: it.struct.dump_dict()),
    ("DIRECTORY_ENTRY_LOAD_CONFIG", "LOAD_CONFIG", lambda it: it.struct.dump_dict()),
    ("DIRECTORY_ENTRY_DEBUG", "Debug information", _debug_dict),
    ("DIRECTORY_ENTRY_BASERELOC", "Base relocations", _relocations_dict)]


def dump_dict(pe: _names.PE) -> _Fields:
    """All that was read, by the names of the sections."""
    warnings = pe.get_warnings()
    found: _Fields = {"Parsing Warnings": warnings} if warnings else {}
    found.update(DOS_HEADER=pe.DOS_HEADER.dump_dict(), NT_HEADERS=pe.NT_HEADERS.dump_dict(), FILE_HEADER=pe.FILE_HEADER.dump_dict(),
                 Flags=_file_flags(pe), OPTIONAL_HEADER=pe.OPTIONAL_HEADER.dump_dict(), DllCharacteristics=_dll_flags(pe))
    found["PE Sections"] = _sections_dict(pe.sections)
    found["Directories"] = [it.dump_dict() for it in pe.OPTIONAL_HEADER.DATA_DIRECTORY]
    if versions := _versions(pe):
        found["Version Information"] = list(map(_version_dict, versions))
    found.update((section, of(getattr(pe, name))) for name, section, of in _PARTS if hasattr(pe, name))
    return found


# ---- the text


def _indented(lines: list[str], count: int) -> list[str]:
    return [f"{' ' * count}{it}" for it in lines]


def _section_lines(sections: list[_names.SectionStructure]) -> typing.Iterator[str]:
    for it in sections:
        yield from it.dump()
        yield f"Flags: {', '.join(sorted(_section_flags(it)))}"
        yield f"Entropy: {it.get_entropy():f} (Min=0.0, Max=8.0)"
        yield f"MD5     hash: {it.get_hash_md5()}"
        yield f"SHA-1   hash: {it.get_hash_sha1()}"
        yield f"SHA-256 hash: {it.get_hash_sha256()}"
        yield f"SHA-512 hash: {it.get_hash_sha512()}"
        yield ""


def _version_lines(version: _Version) -> typing.Iterator[str]:
    yield from (*version[0].dump(), "", *version[1].dump(), "")
    for own in version[2]:
        yield from (*own.dump(), "")
        for it in _below(own):
            yield from _indented(it.dump(), 2)
            if it.name == "StringTable":
                yield f"  LangID: {_text(it.LangID)}"
                yield ""
                yield from (f"    {_string(key)}: {_string(value)}" for key, value in sorted(it.entries.items()))
            else:
                yield from (f"    {_string(key)}: {value}" for key, value in it.entry.items())
        yield ""


def _string(text: bytes | None) -> str:
    """A string of version information as a line has it."""
    return "".join(chr(it) if 0x20 <= it < 0x7F else f"\\x{it:02x}" for it in text or b"")


def _exports_lines(table: _names.ExportDirData) -> typing.Iterator[str]:
    yield from (*table.struct.dump(), "", f"{'Ordinal':<10}   RVA         Name")
    for it in table.symbols:
        line = f"{it.ordinal:<10} 0x{it.address:08X}    {_text(it.name)}"
        yield line if not it.forwarder else f"{line} forwarder: {_text(it.forwarder)}"
    yield ""


def _import_line(dll: bytes, it: _names.ImportData) -> str:
    if not it.import_by_ordinal:
        return f"{_text(dll)}.{_text(it.name)} Hint[{it.hint}]"
    name = f".{_text(it.name)}" if it.name is not None else ""
    return f"{_text(dll)}{name} Ordinal[{it.ordinal}] (Imported by Ordinal)"


def _imports_lines(entries: list[_names.ImportDescData]) -> typing.Iterator[str]:
    for entry in entries:
        yield from (*entry.struct.dump(), "")
        yield from (_import_line(entry.dll, it) for it in entry.imports)
        yield ""


def _bound_lines(entries: list[_names.BoundImportDescData]) -> typing.Iterator[str]:
    for entry in entries:
        yield from (*entry.struct.dump(), f"DLL: {_text(entry.name)}", "")
        for it in entry.entries:
            yield from _indented([*it.struct.dump(), f"DLL: {_text(it.name)}"], 4)
            yield ""


def _language_lines(entry: _names.ResourceDirEntryData) -> typing.Iterator[str]:
    lang, sublang = entry.data.lang, entry.data.sublang
    names = _names.LANG.get(lang, "*unknown*"), _names.get_sublang_name_for_lang(lang, sublang)
    yield f"        \\--- LANG [{lang},{sublang}][{names[0]},{names[1]}]"
    yield from _indented(entry.struct.dump(), 10)
    yield from _indented(entry.data.struct.dump(), 12)


def _entry_lines(entry: _names.ResourceDirEntryData, level: int) -> typing.Iterator[str]:
    if entry.name is not None:
        yield f"{'  ' if level == 0 else '      '}Name: [{_string(str(entry.name).encode('utf-8', 'backslashreplace'))}]"
    else:
        known = f" ({_names.RESOURCE_TYPE.get(entry.id, '-')})" if level == 0 else ""
        yield f"{'  ' if level == 0 else '      '}Id: [0x{entry.id:X}]{known}"
    yield from _indented(entry.struct.dump(), 2 if level == 0 else 6)


def _strings_lines(strings: dict[int, str]) -> typing.Iterator[str]:
    """The texts of a string table by their ids."""
    if strings:
        yield f"{' ' * 10}[STRINGS]"
        yield from (f"{' ' * 12}{number:6d}: {text.encode('unicode-escape', 'backslashreplace').decode('ascii')}"
                    for number, text in sorted(strings.items()))


def _resources_lines(root: _names.ResourceDirData) -> typing.Iterator[str]:
    yield from root.struct.dump()
    for kind in root.entries:
        yield from _entry_lines(kind, 0)
        if "directory" in kind.__dict__:
            yield from _indented(kind.directory.struct.dump(), 4)
            for name in kind.directory.entries:
                yield from _entry_lines(name, 1)
                if "directory" in name.__dict__:
                    yield from _indented(name.directory.struct.dump(), 8)
                    for it in name.directory.entries:
                        yield from _language_lines(it)
                    yield from _strings_lines(name.directory.__dict__.get("strings", {}))
            yield ""
    yield ""


def _structure_lines(it: typing.Any) -> typing.Iterator[str]:
    yield from (*it.struct.dump(), "")


def _debug_lines(entries: list[_names.DebugData]) -> typing.Iterator[str]:
    for it in entries:
        yield from (*it.struct.dump(), f"Type: {_debug_type(it.struct.Type)}", "")
        if it.entry is not None:
            yield from (*_indented(it.entry.dump(), 4), "")


def _relocations_lines(blocks: list[_names.BaseRelocationData]) -> typing.Iterator[str]:
    for it in blocks:
        yield from it.struct.dump()
        yield from (f"    {one.rva:08X}h {_relocation_type(one)}" for one in it.entries)
        yield ""


def _functions_lines(functions: list[_names.ExceptionsDirEntryData]) -> typing.Iterator[str]:
    for it in functions:
        yield from it.struct.dump()
        yield from _indented(it.unwindinfo.dump(), 4) if it.unwindinfo is not None else ()


_LINES: list[tuple[str, str, typing.Any]] = [
    ("DIRECTORY_ENTRY_EXPORT", "Exported symbols", _exports_lines), ("DIRECTORY_ENTRY_IMPORT", "Imported symbols", _imports_lines),
    ("DIRECTORY_ENTRY_BOUND_IMPORT", "Bound imports", _bound_lines),
    ("DIRECTORY_ENTRY_DELAY_IMPORT", "Delay Imported symbols", _imports_lines),
    ("DIRECTORY_ENTRY_RESOURCE", "Resource directory", _resources_lines), ("DIRECTORY_ENTRY_TLS", "TLS", _structure_lines),
    ("DIRECTORY_ENTRY_LOAD_CONFIG", "LOAD_CONFIG", _structure_lines), ("DIRECTORY_ENTRY_DEBUG", "Debug information", _debug_lines),
    ("DIRECTORY_ENTRY_BASERELOC", "Base relocations", _relocations_lines),
    ("DIRECTORY_ENTRY_EXCEPTION", "Unwind data for exception handling", _functions_lines)]


def _all_lines(pe: _names.PE) -> typing.Iterator[tuple[str, list[str]]]:
    """The sections, each with its lines."""
    if warnings := pe.get_warnings():
        yield "Parsing Warnings", [line for it in warnings for line in (it, "")]
    yield "DOS_HEADER", [*pe.DOS_HEADER.dump(), ""]
    yield "NT_HEADERS", [*pe.NT_HEADERS.dump(), ""]
    yield "FILE_HEADER", [*pe.FILE_HEADER.dump(), f"Flags: {', '.join(sorted(_file_flags(pe)))}", ""]
    yield "OPTIONAL_HEADER", [*pe.OPTIONAL_HEADER.dump(), f"DllCharacteristics: {', '.join(sorted(_dll_flags(pe)))}", ""]
    yield "PE Sections", list(_section_lines(pe.sections))
    yield "Directories", [line for it in pe.OPTIONAL_HEADER.DATA_DIRECTORY for line in it.dump()] + [""]
    if versions := _versions(pe):
        yield "Version Information", [line for it in versions for line in _version_lines(it)]
    for name, section, of in _LINES:
        if hasattr(pe, name):
            yield section, list(of(getattr(pe, name)))


def dump_info(pe: _names.PE) -> str:
    """All that was read, as text."""
    parts = (line for name, lines in _all_lines(pe) for line in (f"{'-' * 10}{name}{'-' * 10}", "", *lines))
    return "".join(f"{it}\n" for it in parts)
