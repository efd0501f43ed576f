"""What a file is, as the program `pe` says it in JSON (docs/pe.schema.json): the same names, values and errors, in the same order.

An image is read here as an exact one of _core: each list inside of a row is (rows, number, is_limited), and a byte of a name that is
no UTF-8 is a lone surrogate. A hostile image has fewer rows here than `pe` shows, since the budget of the module is smaller."""
from __future__ import annotations

import collections
import datetime
import hashlib
import math
import os
import struct
import unicodedata
import typing
from typing import Any

from . import _core, _guards, _names as names, _tables
from ._image import Mode, fixed_version_in
from ._kinds import Kind
from ._ordinals import ORDINALS
from ._part import entropy_of
from ._reader import BYTES, IMAGE, OBJECT, TE
from ._signer import signer_of

Facts = dict[str, Any]
Triple = tuple[Any, int, bool]

JSON_VERSION = 3
RT_VERSION, SIZE_OF_TE_HEADER = 16, 40
TE_IMAGE, OBJECT_AS_IT_SEEMS = "a TE image", "a COFF object, as it seems"
# How many sections are looked up in the string table, how many leaves and string tables are shown.
LONG_NAMES, LEAVES, TABLES = 96, 65_536, 4096
# How often the bytes of the file are read at most for version information.
READINGS = 4
# What starts a part of what installers append: an offset, the bytes there, and what it is.
KINDS = [
    (4, b"\xEF\xBE\xAD\xDENullsoftInst", "an NSIS installer"), (0, b"zlb\x1A", "an Inno Setup installer"),
    (0, b"idska32\x1A", "an Inno Setup installer"), (0, b"Inno Setup", "an Inno Setup installer"),
    (0, b"7z\xBC\xAF\x27\x1C", "a 7z archive"), (0, b"PK\x03\x04", "a ZIP archive"), (0, b"Rar!\x1A\x07", "a RAR archive"),
    (0, b"MSCF\0\0\0\0", "a cabinet"), (0, b"\xD0\xCF\x11\xE0\xA1\xB1\x1A\xE1", "an OLE file, as an MSI is"),
    (0, b"\x1F\x8B\x08", "gzip data"), (0, b"\xFD7zXZ\0", "xz data"), (0, b"BZh", "bzip2 data"), (0, b"NB10", "a PDB name"),
    (0, b"MZ", "an image or a DOS program")]


class Exact:
    """An image, an object or a TE image that is read exactly: each of its parts once."""

    def __init__(self, core: _core.Image, has_hashes: bool) -> None:
        self.core, self.has_hashes = core, has_hashes
        self.memory = core.memory
        self._kept: dict[str, Triple] = {}

    def read(self, name: str) -> Triple:
        if name not in self._kept:
            self._kept[name] = getattr(self.core, name)()
        return self._kept[name]

    def value(self, name: str) -> Any:
        """What there is of a part, or None where it is absent or refused."""
        found, number, _ = self.read(name)
        return None if number else found


# ---- values


def refusal(number: int) -> Facts | None:
    if not number:
        return None
    kind = Kind(number)
    return {"number": number, "name": "UNKNOWN" if kind is Kind.OTHER else kind.name, "text": _core.text_of(number)}


def bytes_of(text: str | None) -> bytes | None:
    """The bytes of what is no text, or None."""
    if text is None:
        return None
    try:
        text.encode()
        return None
    except UnicodeEncodeError:
        return text.encode("utf-8", "surrogateescape")


def name_of(text: str | None, field: str = "name") -> Facts:
    """A field that has a name, and beside it the bytes of one that is no text, as names of sections may be, and of debug data."""
    raw = bytes_of(text)
    return {field: text} if raw is None else {field: raw.decode("utf-8", "replace"), f"{field}_hex": raw.hex()}


def lower(text: str | None) -> str | None:
    return None if text is None or bytes_of(text) else text.lower()


def decoded(raw: bytes) -> str:
    return raw.decode("utf-8", "surrogateescape")


def named(number: int, table: dict[int, str]) -> Facts:
    return {"number": number, "name": table.get(number)}


def flags(number: int, table: dict[int, str]) -> Facts:
    return {"number": number, "flags": {name: bool(number & flag) for flag, name in table.items()}}


def time_of(seconds: int) -> str:
    return datetime.datetime.fromtimestamp(seconds, datetime.timezone.utc).strftime("%Y-%m-%dT%H:%M:%SZ")


def stamp(seconds: int, is_hash: bool = False) -> Facts:
    return {"time_date_stamp": seconds, "time": time_of(seconds) if seconds and not is_hash else None}


def part(key: str, answer: Triple, of: typing.Callable[[Any], Any]) -> Facts:
    """A part that is absent, there, or refused."""
    value, number, _ = answer
    is_there = value is not None and not number
    return {key: of(value) if is_there else None, f"{key}_error": refusal(number)}


def rows(key: str, answer: Triple, of: typing.Callable[[Any], Any]) -> Facts:
    """A list, up to its error: None where it is absent, or its start is refused."""
    value, number, is_limited = answer
    return {key: None if value is None else [of(it) for it in value], f"{key}_error": refusal(number),
            f"{key}_is_limited": is_limited}


# ---- paths on a symbol server


def file_name(path: str) -> str | None:
    """The last component of a path of Windows or Unix, if it can be the name of a file."""
    name = path.replace("\\", "/").rpartition("/")[2]
    is_named = any(it not in ". " for it in name)
    is_reserved = any(it in '<>:"|?*' or unicodedata.category(it) == "Cc" for it in name)
    return name if is_named and not is_reserved else None


def guid_of(raw: bytes) -> str:
    first, second, third = struct.unpack_from("<IHH", raw)
    return f"{first:08X}{second:04X}{third:04X}{raw[8:].hex().upper()}"


def hyphenated(digits: str) -> str:
    return f"{{{'-'.join((digits[:8], digits[8:12], digits[12:16], digits[16:20], digits[20:]))}}}"


# ---- headers, hardening, hashes


def headers(image: Exact, file: str) -> Facts:
    info, (repro, refused, _) = image.value("headers"), image.read("repro")
    is_reproducible = None if refused else repro is not None
    right = image.value("checksum") if image.has_hashes and not info.mode & Mode.MAPPED else None
    state = None if right is None else "none" if info.checksum == 0 else "right" if info.checksum == right.value else "wrong"
    # Standard input has no name.
    own = file_name(file) if info.width and file != "-" else None
    return {
        "format": {64: "PE32+", 32: "PE32"}.get(info.width), "is_dll": bool(info.characteristics & 0x2000),
        "machine": named(info.machine, names.MACHINES), "subsystem": named(info.subsystem, names.SUBSYSTEMS),
        **stamp(info.time_date_stamp, is_reproducible is True), "is_reproducible": is_reproducible, "entry_rva": info.entry,
        "image_base_va": info.base, "size_of_image": info.size_of_image, "size_of_headers": info.size_of_headers,
        "section_alignment": info.section_alignment, "file_alignment": info.file_alignment, "checksum": info.checksum,
        "right_checksum": right.value if right else None, "checksum_state": state,
        "characteristics": flags(info.characteristics, names.CHARACTERISTICS),
        "dll_characteristics": flags(info.dll_characteristics, names.DLL_CHARACTERISTICS),
        **all_headers(image, info),
        "directories": directories(enumerate(info.directories), 0),
        "overlay": overlay(image, info),
        "symbol_server_path": own and f"{own}/{info.time_date_stamp:08X}{info.size_of_image:x}/{own}"}


def directories(rows: typing.Iterable[tuple[int, _core.Directory]], less: int) -> list[Facts]:
    """Those that are not absent, by their indexes. In a TE image RVAs are `less` than the header has them."""
    return [{"index": index, "name": names.DIRECTORIES[index], "rva": None if index == 4 else it.virtual_address,
             "file_offset": it.virtual_address if index == 4 else None, "size": it.size}
            for index, it in rows if (it.virtual_address + less) & 0xFFFFFFFF or it.size]


def all_headers(image: Exact, info: _core.Headers) -> Facts:
    all_ = image.value("all_headers")
    coff, dos, strings = all_.coff, all_.dos, image.value("coff_strings")
    said: Facts = {}
    for name in dos.__match_args__[1:]:
        key = {"relocations_offset": "relocations_file_offset", "pe_pointer": "pe_file_offset"}.get(name, name)
        value = getattr(dos, name)
        said[key] = list(struct.unpack(f"<{len(value) // 2}H", value)) if isinstance(value, bytes) else value
    return {
        "coff": {"number_of_sections": coff.number_of_sections, "symbol_table_file_offset": coff.pointer_to_symbol_table,
                 "number_of_symbols": coff.number_of_symbol_table, "string_table_size": None if strings is None else len(strings),
                 "size_of_optional_header": coff.size_of_optional_header},
        "optional": optional(all_.optional) if info.width else None, "dos": {**said, "stub_size": len(all_.dos_stub)}}


def optional(it: _core.OptionalHeader) -> Facts:
    def version(name: str) -> str:
        return f"{getattr(it, f'major_{name}_version')}.{getattr(it, f'minor_{name}_version')}"
    return {
        "magic": it.magic, "linker_version": version("linker"), "operating_system_version": version("operating_system"),
        "image_version": version("image"), "subsystem_version": version("subsystem"), "size_of_code": it.size_of_code,
        "size_of_initialized_data": it.size_of_initialized_data, "size_of_uninitialized_data": it.size_of_uninitialized_data,
        "base_of_code_rva": it.base_of_code, "base_of_data_rva": it.base_of_data if it.magic == 0x10B else None,
        **{name: getattr(it, name) for name in ("size_of_stack_reserve", "size_of_stack_commit", "size_of_heap_reserve",
                                                "size_of_heap_commit", "win32_version_value", "loader_flags",
                                                "number_of_rva_and_sizes")}}


def kind_by_start(content: bytes | memoryview) -> str | None:
    return next((what for offset, magic, what in KINDS if content[offset:offset + len(magic)] == magic), None)


def content_kind(content: memoryview) -> str | None:
    known = kind_by_start(content)
    return known or ("data with a ZIP archive at its end" if len(content) >= 22 and content[-22:-18] == b"PK\x05\x06" else None)


def overlay(image: Exact, info: _core.Headers) -> Facts | None:
    found = image.value("overlay")
    if not found:
        return None
    end = len(image.memory)
    start = end - len(found)
    symbols, strings = start, image.value("coff_strings")
    coff = image.value("all_headers").coff
    if strings is not None:
        at = coff.pointer_to_symbol_table + 18 * coff.number_of_symbol_table
        symbols = at + len(strings) if at > start else start
    table = info.directories[4] if len(info.directories) > 4 else None
    first, last = symbols, symbols
    has_table = bool(table and table.virtual_address and symbols <= table.virtual_address
                     and table.virtual_address < min(table.virtual_address + table.size, end))
    if table and has_table:
        first, last = table.virtual_address, min(table.virtual_address + table.size, end)
    pieces = [(symbols, first), (last, end)] if has_table else [(symbols, end), (end, end)]
    rest = next((it for it in pieces if it[1] - it[0] >= 8 or any(image.memory[it[0]:it[1]])), None)
    return {"file_offset": start, "size": len(found), "symbols_size": symbols - start,
            "certificates_size": last - first if has_table else 0,
            "content": rest and {"file_offset": rest[0], "size": rest[1] - rest[0],
                                 "kind": content_kind(image.memory[rest[0]:rest[1]])}}


def hardening(image: Exact) -> Facts:
    """What is None does not apply, or the part that would say it is refused."""
    info, (config, is_refused, _) = image.value("headers"), image.read("load_config")
    extended, is_debug_refused, _ = image.read("extended_dll_characteristics")
    certificates, is_list_refused, _ = image.read("certificates")
    aslr, has_guards = bool(info.dll_characteristics & 0x40) and not info.characteristics & 1, info.dll_characteristics & 0x4000
    has_cet, has_seh = info.machine in (0x14C, 0x8664), info.machine == 0x14C and not info.dll_characteristics & 0x400
    is_guarded = bool(has_guards and config and (config.guard_flags or 0) & 0x100)
    has_table = bool(config and config.se_handler_table and config.se_handler_count)
    is_signed = any(it.type == 2 for it in certificates or ())
    return {
        "aslr": aslr, "high_entropy_aslr": aslr and bool(info.dll_characteristics & 0x20) if info.width == 64 else None,
        "dep": bool(info.dll_characteristics & 0x100),
        "cfg": None if has_guards and is_refused else is_guarded,
        "cet": bool((extended or 0) & 1) if has_cet and not is_debug_refused else None,
        "safe_seh": has_table if has_seh and not is_refused else None,
        "force_integrity": bool(info.dll_characteristics & 0x80),
        "signed": None if is_list_refused and not is_signed else is_signed,
        "no_writable_code": all(it.characteristics & 0xA0000000 != 0xA0000000 for it in image.read("sections")[0])}


def imphash(image: Exact) -> tuple[str | None, str | None]:
    """The hash, and what it is of."""
    found, number, is_limited = image.read("imports")
    texts = []
    for library in found or ():
        functions, inner, is_inner_limited = library.imports
        if inner or is_inner_limited:
            return None, None
        dll = library.name.lower()
        stem, dot, extension = dll.rpartition(".")
        stem = stem if dot and extension in ("ocx", "sys", "dll") else dll
        known = ORDINALS.get(dll, {})
        texts += [f"{stem}.{(known.get(it.ordinal, f'ord{it.ordinal}') if it.name is None else it.name).lower()}"
                  for it in functions]
    if number or is_limited or not texts:
        return None, None
    of = "address_tables" if any(it.has_unmapped_list for it in found or ()) else "lookup_tables"
    return hashlib.md5(",".join(texts).encode("utf-8", "surrogateescape"), usedforsecurity=False).hexdigest(), of


def rich_hash(image: Exact) -> str | None:
    header = image.value("rich_header")
    if header is None or header.entries[1]:
        return None
    state = hashlib.md5(struct.pack("<4I", 0x536E6144, 0, 0, 0), usedforsecurity=False)
    for it in header.entries[0]:
        state.update(struct.pack("<HHI", it.build, it.product, it.objects))
    return state.hexdigest()


def authenticode(image: Exact) -> str | None:
    found = image.value("digest_ranges") if not image.value("headers").mode & Mode.MAPPED else None
    if found is None:
        return None
    state = hashlib.sha256()
    for it in found[:4]:
        state.update(it)
    state.update(bytes(found[4]))
    return state.hexdigest()


def own_hashes(memory: memoryview) -> Facts:
    """The hashes of a whole file."""
    return {f"{name}_hex": hashlib.new(name, memory).hexdigest() for name in ("md5", "sha1", "sha256")}


def hashes(image: Exact) -> Facts:
    hashed, of = imphash(image)
    return {**own_hashes(image.memory), "imphash": hashed, "imphash_of": of, "rich_hash": rich_hash(image),
            "authenticode_sha256_hex": authenticode(image)}


# ---- sections


PERMISSIONS = ((1 << 30, "r"), (1 << 31, "w"), (1 << 29, "x"))


class Contents:
    """What the bytes of sections look like. Those of a hostile image may all be the same bytes: what is hashed and counted has a
    bound, and the same bytes are counted once."""

    def __init__(self, image: Exact) -> None:
        self.image, self.length = image, len(image.memory)
        self.left = self.length if image.has_hashes else 0
        self.counted, self.known = 16 * self.length, dict[tuple[int, int], float | None]()

    def of(self, start: int, length: int) -> Facts:
        end = min(start + length, self.length)
        if start >= end:
            return {"entropy": None, "sha256_hex": None}
        if self.left >= end - start:
            self.left -= end - start
            digest = hashlib.sha256(self.image.memory[start:end]).hexdigest()
            return {"entropy": self.entropy(start, end), "sha256_hex": digest}
        return {"entropy": self.entropy(start, end), "sha256_hex": None}

    def entropy(self, start: int, end: int) -> float | None:
        if (start, end) not in self.known:
            self.counted -= end - start
            counts, _, _ = self.image.core.histogram(start, end - start) if self.counted >= 0 else ((), 0, False)
            self.known[start, end] = math.floor(entropy_of(counts or ()) * 100 + 0.5) / 100 if counts else None
        return self.known[start, end]


def sections(image: Exact, kind: int) -> list[Facts]:
    is_mapped = kind == IMAGE and image.value("headers").mode & Mode.MAPPED
    contents, found = Contents(image), []
    # The same flags and names stand in many headers.
    permissions: dict[int, str] = {}
    own: dict[bytes, Facts] = {}
    for index, it in enumerate(image.read("sections")[0]):
        start, length = (it.virtual_address, it.virtual_size) if is_mapped else (it.pointer_to_raw_data, it.size_of_raw_data)
        # Zeros of an object, as in .bss, have a size and no bytes.
        length = 0 if kind == OBJECT and not start else length
        long_name = it.name if kind == OBJECT or index < LONG_NAMES else None
        flags = it.characteristics
        if flags not in permissions:
            permissions[flags] = "".join(letter if flags & flag else "-" for flag, letter in PERMISSIONS)
        if it.raw_name not in own:
            own[it.raw_name] = name_of(decoded(it.raw_name.split(b"\0")[0]))
        found.append({
            **own[it.raw_name], "long_name": long_name,
            "rva": it.virtual_address, "virtual_size": it.virtual_size, "file_offset": it.pointer_to_raw_data,
            "file_size": it.size_of_raw_data, "permissions": permissions[flags], "flags": flags, **contents.of(start, length)})
    return found


# ---- imports and exports


def hint_or_ordinal(it: Any) -> Facts:
    is_named = it.name is not None
    return {"name": it.name, "hint": it.ordinal if is_named else None,
            "ordinal": None if is_named else it.ordinal}


def imports(image: Exact) -> Facts:
    return rows("imports", image.read("imports"), lambda it: {
        "name": it.name, "name_lower": lower(it.name),
        **rows("functions", it.imports, lambda one: {**hint_or_ordinal(one), "slot_rva": one.rva}),
        "lookup_table_error": refusal(int(Kind.UNMAPPED) if it.has_unmapped_list and it.lookup_table_rva else 0)})


def delay_imports(image: Exact) -> Facts:
    return rows("delay_imports", image.read("delay_imports"), lambda it: {
        "name": it.name, "name_lower": lower(it.name), **stamp(it.descriptor.time_date_stamp),
        **rows("functions", it.imports, hint_or_ordinal)})


def bound_imports(image: Exact) -> Facts:
    def of(it: Any) -> Facts:
        return {"name": it.name, "name_lower": lower(it.name), **stamp(it.time_date_stamp)}
    return rows("bound_imports", image.read("bound_imports"), lambda it: {**of(it), **rows("forwarders", it.forwarders, of)})


def exports(image: Exact) -> Facts:
    table, number, _ = image.read("export_table")
    found, more, is_limited = image.read("exports")
    if number or more or table is None or found is None:
        return {"exports": None, "exports_error": refusal(number or more)}
    entries: dict[int, Facts] = {}
    for it in found:
        own = entries.setdefault(it.ordinal, {
            "ordinal": it.ordinal, "rva": it.rva, "names": [], "forwarder": it.forwarder}) if it.rva else {"names": []}
        own["names"] += [] if it.name is None else [it.name]
    directory, shown = image.value("export_directory"), sum(len(it["names"]) for it in entries.values())
    left_out = None if is_limited else max(0, (directory.number_of_names if directory else 0) - shown)
    return {"exports": {"name": table.name, "name_lower": lower(table.name), "ordinal_base": table.ordinal_base,
                        "entries": [entries[it] for it in sorted(entries)], "is_limited": is_limited,
                        "names_left_out": left_out}, "exports_error": None}


# ---- debug data


def debug_entry(it: _core.DebugEntry, is_hash: bool) -> Facts:
    return {"type": named(it.data_type, names.DEBUG_TYPES), "size": it.size_of_data, "rva": it.address_of_raw_data,
            "file_offset": it.pointer_to_raw_data, **stamp(it.time_date_stamp, is_hash)}


def pdb(key: _core.SymbolKey) -> Facts:
    digits = guid_of(key.guid)
    own = None if bytes_of(key.name) else file_name(key.name)
    identifier = f"{digits}{key.age:X}"
    return {**name_of(key.name), "guid": hyphenated(digits), "age": key.age, "key": identifier, "symbol_server_path": own and f"{own}/{identifier}/{own}"}


NO_RECORDS = {f"{name}{end}": None for name in ("pdb20", "repro", "pogo", "vc_features", "extended_dll_characteristics",
                                                "embedded_pdb", "pdb_checksum") for end in ("", "_error")}


def debug(image: Exact) -> Facts:
    is_hash = image.value("repro") is not None
    return {
        **rows("entries", image.read("debug_entries"), lambda it: debug_entry(it, is_hash)),
        **part("pdb", image.read("symbol_key"), pdb),
        **part("pdb20", image.read("pdb20"), lambda it: {**name_of(it.name), **stamp(it.signature), "age": it.age}),
        **part("repro", image.read("repro"), lambda it: {"hash_hex": None if it.hash is None else it.hash.hex()}),
        **part("pogo", image.read("pogo"), lambda it: {
            "signature": "LTCG" if it.signature == 0x4C544347 else "PGU",
            **rows("parts", it.entries, lambda one: {**name_of(one.name), "rva": one.rva, "size": one.size})}),
        **part("vc_features", image.read("vc_features"), lambda it: dict(zip(
            ("before_vc_11", "c_and_cpp", "gs", "sdl", "guard_n"), it))),
        **part("extended_dll_characteristics", image.read("extended_dll_characteristics"),
               lambda it: flags(it, names.EXTENDED_DLL_CHARACTERISTICS)),
        **part("embedded_pdb", image.read("embedded_pdb"),
               lambda it: {"size": it.uncompressed_size, "compressed_size": len(it.compressed)}),
        **part("pdb_checksum", image.read("pdb_checksum"),
               lambda it: {**name_of(it.algorithm, "algorithm"), "checksum_hex": it.checksum.hex()})}


def certificates(image: Exact) -> Facts:
    found, number, is_limited = image.read("certificates")
    def shown(it: _core.Certificate) -> Facts:
        signer, error = signer_of(it)
        return {"size": it.length, "revision": it.revision, "type": named(it.type, names.CERTIFICATE_TYPES), "signer": signer,
                "signer_error": refusal(error)}
    return rows("certificates", (found or (() if number else None), number, is_limited), shown)


def functions(image: Exact) -> Facts:
    found, number, _ = image.read("functions")
    if found is not None:
        return {"functions": [{"start_rva": it.begin, "end_rva": it.end, "unwind": it.unwind} for it in found],
                "functions_error": None}
    if not number:
        found, number, _ = image.read("arm64_functions")
    shown = None if found is None else [{"start_rva": it.begin, "end_rva": None, "unwind": it.unwind} for it in found]
    return {"functions": shown, "functions_error": refusal(number)}


# ---- resources and version information


def label(value: int | str) -> Facts:
    return {"id": None, "name": value} if isinstance(value, str) else {"id": value, "name": None}


def language(value: int | str) -> Facts:
    if isinstance(value, str):
        return label(value)
    return {"id": value, "name": names.VARIANTS.get(value, names.LANGUAGES.get(value & 0x3FF))}


def resource_type(value: int | str) -> Facts:
    it = label(value)
    return it if it["id"] is None else {**it, "name": names.RESOURCE_TYPES.get(it["id"])}


def known(kept: dict[int | str, Facts], of: typing.Callable[[int | str], Facts], value: int | str) -> Facts:
    found = kept.get(value)
    if found is None:
        found = kept[value] = of(value)
    return found


def dotted(high: int, low: int) -> str:
    return f"{high >> 16}.{high & 0xFFFF}.{low >> 16}.{low & 0xFFFF}"


def fixed(it: _core.FixedVersion) -> Facts:
    return {"file_version": dotted(it.file_version_ms, it.file_version_ls),
            "product_version": dotted(it.product_version_ms, it.product_version_ls)}


def resources(image: Exact) -> Facts:
    left = len(image.memory) if image.has_hashes else 0
    # The same identifiers stand in many leaves.
    types: dict[int | str, Facts] = {}
    labels: dict[int | str, Facts] = {}
    languages: dict[int | str, Facts] = {}

    def of(it: Any) -> Facts:
        nonlocal left
        digest = None
        if it.content and left is not None:
            if len(it.content) <= left:
                left, digest = left - len(it.content), hashlib.sha256(it.content).hexdigest()
        version = None
        if it.type == RT_VERSION:
            answer = fixed_version_in(image.core, it.offset or 0, it.size)[0] if it.offset is not None \
                else (None, it.content_result, False)
            version = part("fixed", answer, fixed)
        return {"type": known(types, resource_type, it.type), "name": known(labels, label, it.name),
                "language": known(languages, language, it.language), "rva": it.rva, "size": it.size, "code_page": it.code_page,
                "sha256_hex": digest, "version": version, "error": refusal(it.content_result)}
    found, number, is_limited = image.read("resources")
    shown: list[_core.Resource] = []
    bytes_left = READINGS * len(image.memory)
    for it in found or ():
        bytes_left -= it.size if it.type == RT_VERSION else 0
        if bytes_left < 0 or len(shown) == LEAVES:
            is_limited = True
            break
        shown.append(it)
    return rows("resources", (None if found is None else shown, number, is_limited), of)


def text_to_zero(value: str | bytes) -> str:
    text = value if isinstance(value, str) else value[:len(value) & ~1].decode("utf-16-le", "replace")
    return text.split("\0")[0]


def strings_of(children: Triple) -> tuple[Facts, int]:
    found, number, _ = children
    strings: Facts = {}
    for it in found or ():
        strings.setdefault(text_to_zero(it.key), text_to_zero(it.value))
    return dict(sorted(strings.items())), number


def tables_in(blocks: Triple, own: Facts, to: list[Facts]) -> tuple[int, bool]:
    """Adds the string tables of a resource. Returns the first error, and whether there are more than are read."""
    found, number, is_limited = blocks
    if not found:
        return number, is_limited
    informations, last, _ = found[0].children
    for information in informations or ():
        if text_to_zero(information.key).lower() != "stringfileinfo":
            continue
        tables, inner, _ = information.children
        for table in tables or ():
            if len(to) >= TABLES:
                return 0, True
            strings, error = strings_of(table.children)
            if error:
                return error, is_limited
            is_own = table.language is not None and (table.language != 0 or own["id"] == 0)
            to.append({"language": language(table.language) if is_own else own, "code_page": table.code_page, "strings": strings})
        if inner:
            return int(inner), is_limited
    return int(last), is_limited


def languages(image: Exact) -> Facts:
    found: list[Facts] = []
    number, is_limited = 0, False
    left = READINGS * len(image.memory)
    for it in (image.read("resources")[0] or ())[:LEAVES]:
        if it.type != RT_VERSION:
            continue
        left -= it.size
        is_limited = left < 0 or len(found) >= TABLES
        if is_limited:
            break
        blocks = image.core.version_blocks(it.offset or 0, it.size) if not it.content_result else (None, it.content_result, False)
        number, is_limited = tables_in(blocks, language(it.language), found)
        if number or is_limited:
            break
    return rows("languages", (found, number, is_limited) if found or number else (None, 0, False), lambda it: it)


def level_of(manifest: memoryview) -> str | None:
    """The level of requestedExecutionLevel."""
    text = bytes(manifest).decode("utf-8", "replace")
    _, is_there, rest = text.partition("requestedExecutionLevel")
    _, has_level, rest = rest.split(">")[0].partition("level") if is_there else ("", "", "")
    rest = rest.lstrip()
    rest = rest[1:].lstrip() if rest.startswith("=") else ""
    if not has_level or rest[:1] not in ('"', "'") or rest[:1] not in rest[1:]:
        return None
    return rest[1:].split(rest[0])[0]


def fixed_version(image: Exact) -> tuple[Triple, int]:
    """The fixed file information of the first resource, and the error of the strings after it."""
    answer, content = image.read("fixed_version"), image.value("version_content")
    if not answer[1] or content is None:
        return answer, 0
    first, _ = _core.image(content, 0, False, BYTES, True)
    return fixed_version_in(first, 0, len(content)) if first else (answer, 0)


def version(image: Exact) -> Facts:
    tables = languages(image)
    shown = tables["languages"] or []
    first = next((it for it in shown if it["language"]["id"] in (0, 0x409)), shown[0] if shown else None)
    answer, number = fixed_version(image)
    own = next((it.language for it in (image.read("resources")[0] or ())[:LEAVES] if it.type == RT_VERSION), None)
    return {**part("fixed", answer, fixed), "fixed_language": None if own is None else language(own), "strings_error": refusal(number), "language": first and first["language"],
            "strings": first and first["strings"], **tables,
            **part("manifest", image.read("manifest"), lambda it: {"size": len(it), "requested_level": level_of(it)})}


# ---- the other directories


def tls(image: Exact) -> Facts:
    return part("tls", image.read("tls"), lambda it: {
        "start_va": it.start_address_of_raw_data, "end_va": it.end_address_of_raw_data, "index_va": it.address_of_index,
        "zero_fill": it.size_of_zero_fill, "characteristics": it.characteristics,
        **rows("callbacks", it.callbacks, lambda one: one)})


def relocations(image: Exact) -> Facts:
    def of(block: Any) -> Facts:
        found, number, _ = block.entries
        counts = collections.Counter(it.kind for it in found or ())
        return {"page_rva": block.page_rva, "types": [{"type": named(kind, names.RELOCATION_TYPES), "count": counts[kind]}
                                                      for kind in sorted(counts)], "error": refusal(number)}
    return rows("relocations", image.read("relocations"), of)


def load_config(image: Exact) -> Facts:
    def of(it: _core.LoadConfig) -> Facts:
        return {
            "size": it.size, "time_date_stamp": it.time_date_stamp,
            "time": time_of(it.time_date_stamp) if it.time_date_stamp else None, "major_version": it.major_version,
            "minor_version": it.minor_version, "dependent_load_flags": it.dependent_load_flags,
            "security_cookie_va": it.security_cookie, "se_handler_table_va": it.se_handler_table,
            "se_handler_count": it.se_handler_count, "guard_cf_check_function_pointer_va": it.guard_cf_check_function_pointer,
            "guard_cf_dispatch_function_pointer_va": it.guard_cf_dispatch_function_pointer,
            "guard_cf_function_table_va": it.guard_cf_function_table, "guard_cf_function_count": it.guard_cf_function_count,
            "guard_flags": None if it.guard_flags is None else flags(it.guard_flags, names.GUARD_FLAGS),
            "fields": {name: image.core.load_config_field(i)[0] for i, name in enumerate(names.LOAD_CONFIG_FIELDS)},
            **guards(image, it)}
    return part("load_config", image.read("load_config"), of)


def guards(image: Exact, config: _core.LoadConfig) -> Facts:
    # The same flags stand in many entries.
    known: dict[int | None, Facts | None] = {None: None, **{it: flags(it, names.GUARDED_FLAGS) for it in range(256)}}

    def target(it: _guards.Entry) -> Facts:
        return {"rva": it[0], "flags": known[it[1]]}
    said: Facts = {}
    for name, found in _guards.lists(image.core, config):
        said.update(rows(name, found, (lambda it: it[0]) if name == "se_handlers" else target))
    return said


CLR_DIRECTORIES = ("metadata", "resources", "strong_name_signature", "code_manager_table", "vtable_fixups",
                   "export_address_table_jumps", "managed_native_header")


def assembly(it: _tables.Assembly) -> Facts:
    return {**name_of(decoded(it.name)), "version": it.version, **name_of(decoded(it.culture) if it.culture else None, "culture"),
            "has_public_key": it.has_public_key}


def reference(it: _tables.Assembly) -> Facts:
    return {**assembly(it), "public_key_token_hex": None if it.token is None else it.token.hex()}


def tables(it: _tables.Tables) -> Facts:
    module = it.module and {**name_of(decoded(it.module.name)), "mvid": it.module.mvid and hyphenated(guid_of(it.module.mvid))}
    return {"module": module, "assembly": it.assembly and assembly(it.assembly), **rows("references", it.references, reference)}


def clr(image: Exact) -> Facts:
    def metadata(it: Any, length: int) -> Facts:
        streams = [(one.name, one.content) for one in it.streams[0] or ()]
        return {**name_of(it.version, "version"), "format_version": f"{it.major_version}.{it.minor_version}",
                **rows("streams", it.streams, lambda one: {**name_of(one.name), "offset": one.offset, "size": one.size,
                                                           "is_there": one.content is not None}),
                **part("tables", _tables.tables(streams, length), tables)}

    def of(it: _core.ClrHeader) -> Facts:
        found = [(name.replace("_", " "), getattr(it, name)) for name in CLR_DIRECTORIES]
        return {"size": it.cb, "runtime_version": f"{it.major_runtime_version}.{it.minor_runtime_version}",
                "flags": flags(it.flags, names.CLR_FLAGS), "entry_point_token": it.entry_point_token,
                "directories": [{"name": name, "rva": row.virtual_address, "size": row.size} for name, row in found
                                if row.virtual_address or row.size],
                **part("metadata", image.read("clr_metadata"), lambda one: metadata(one, it.metadata.size))}
    return part("clr", image.read("clr_header"), of)


def rich(image: Exact) -> Facts:
    return part("rich", image.read("rich_header"), lambda it: {
        "key": it.key, "checksum": it.checksum, **rows("tools", it.entries, lambda one: {
            "product": one.product, "product_name": names.PRODUCTS.get(one.product), "build": one.build, "count": one.objects})})


# ---- TE images and objects


def te_headers(te: Exact) -> Facts:
    it = te.value("te_header")
    return {"machine": named(it.machine, names.MACHINES), "subsystem": named(it.subsystem, names.SUBSYSTEMS),
            "number_of_sections": it.number_of_sections, "stripped_size": it.stripped_size, "entry_rva": it.entry_point,
            "base_of_code_rva": it.base_of_code, "image_base_va": it.image_base,
            "directories": directories([(5, it.reloc_dir), (6, it.debug_dir)], it.stripped_size - SIZE_OF_TE_HEADER)}


def te_debug(te: Exact) -> Facts:
    is_hash = any(it.data_type == 16 for it in te.read("te_debug_entries")[0] or ())
    return {**rows("entries", te.read("te_debug_entries"), lambda it: debug_entry(it, is_hash)),
            **part("pdb", te.read("te_symbol_key"), pdb), **dict(list(NO_RECORDS.items())[:4]),
            **dict(list(NO_RECORDS.items())[4:])}


def object_headers(found: Exact) -> Facts:
    it, strings = found.value("coff_header"), found.value("coff_strings")
    return {"machine": named(it.machine, names.MACHINES), **stamp(it.time_date_stamp),
            "number_of_sections": it.number_of_sections, "symbol_table_file_offset": it.pointer_to_symbol_table,
            "number_of_symbols": it.number_of_symbol_table, "string_table_size": None if strings is None else len(strings)}


def symbols(found: Exact) -> Facts:
    own = [decoded(it.raw_name.split(b"\0")[0]) if it.name is None else it.name for it in found.read("sections")[0]]

    def of(it: _core.Symbol) -> Facts:
        section = own[it.section_number - 1] if 0 < it.section_number <= len(own) else None
        return {"index": it.at, "name": it.name, "value": it.value, "section_number": it.section_number,
                **name_of(section, "section"), "type": it.type,
                "storage_class": named(it.storage_class, names.STORAGE_CLASSES),
                "number_of_auxiliary_records": it.number_of_aux_symbols}
    return rows("symbols", found.read("symbols"), of)


# ---- files


def kind_of(data: bytes) -> str | None:
    """What a file is that is no image, by its first bytes."""
    def is_machine(two: bytes) -> bool:
        return len(two) == 2 and int.from_bytes(two, "little") in names.MACHINES
    starts: typing.Iterable[tuple[bool, str | None]] = (
        (not data, "an empty file"), (data[:2] == b"VZ" and is_machine(data[2:4]), TE_IMAGE),
        (data[:4] == b"\x7fELF", "an ELF file"), (data[:8] == b"!<arch>\n", "an archive of objects"),
        (data[:8] == b"!<thin>\n", "a thin archive of objects"),
        (data[:4] == b"\0\0\xff\xff", "an object of a short import or of large format"),
        (is_machine(data[:2]), OBJECT_AS_IT_SEEMS), (data[:4] == b"MDMP", "a minidump, which pe stack shows"),
        (data[:32] == b"Microsoft C/C++ MSF 7.00\r\n\x1aDS\0\0\0", "a PDB, which pe pdb shows"),
        (data[:39] == b"Microsoft C/C++ program database 2.00\r\n", "a PDB of version 2.0"),
        (data[:4] == b"BSJB", "a portable PDB, or other metadata of .NET"),
        (data[:2] == b"MZ", None), (all(it in b"\t\n\r" or 0x20 <= it <= 0x7E for it in data[:512]), "a text"),
        (True, kind_by_start(data)))
    return next((what for holds, what in starts if holds), None)


def origin(path: str, size: int, number: int = 0, kind: str | None = None) -> Facts:
    raw = os.fsencode(path)
    is_text = bytes_of(path) is None
    return {"json_version": JSON_VERSION, "file": path if is_text else raw.decode("utf-8", "replace"),
            "file_hex": None if is_text else raw.hex(), "file_size": size, "error": refusal(number), "file_kind": kind}


PARTS: list[typing.Callable[[Exact], Facts]] = [
    imports, exports, lambda it: {"debug": debug(it)}, certificates, functions, lambda it: {"version": version(it)}, tls, relocations,
    delay_imports, bound_imports, load_config, clr, rich, resources]


def of_image(path: str, core: _core.Image, has_hashes: bool) -> Facts:
    image = Exact(core, has_hashes)
    name = path.rpartition("/")[2]
    found: Facts = {**origin(path, len(image.memory)), "headers": headers(image, name), "hardening": hardening(image)}
    if has_hashes:
        found["hashes"] = hashes(image)
    found["sections"] = sections(image, IMAGE)
    for of in PARTS:
        found.update(of(image))
    return found


def of_other(path: str, core: _core.Image, kind: int, has_hashes: bool) -> Facts:
    other = Exact(core, has_hashes)
    what = TE_IMAGE if kind == TE else "a COFF object"
    found: Facts = {**origin(path, len(other.memory), kind=what),
                    "headers": te_headers(other) if kind == TE else object_headers(other)}
    if has_hashes:
        found["hashes"] = {**own_hashes(other.memory), "imphash": None, "imphash_of": None, "rich_hash": None,
                           "authenticode_sha256_hex": None}
    found["sections"] = sections(other, kind)
    return {**found, "debug": te_debug(other)} if kind == TE else {**found, **symbols(other)}


def has_its_sections(core: _core.Image, length: int) -> bool:
    found = core.sections()[0]
    return bool(found) and all(it.pointer_to_raw_data == 0 or it.pointer_to_raw_data + it.size_of_raw_data <= length
                               for it in found or ())


def facts_of(data: bytes, path: str, mode: Mode = Mode.PERMISSIVE, has_hashes: bool = True) -> tuple[Facts, bool]:
    """What a file is, and whether it has the signatures of an image."""
    core, number = _core.image(data, int(mode), False, IMAGE, True)
    if core is not None:
        return of_image(path, core, has_hashes), True
    what = kind_of(data)
    kind = {TE_IMAGE: TE, OBJECT_AS_IT_SEEMS: OBJECT}.get(what or "")
    if kind is not None and not mode & Mode.MAPPED:
        core, _ = _core.image(data, int(mode), False, kind, True)
        if core is not None and (kind == TE or has_its_sections(core, len(data))):
            return of_other(path, core, kind, has_hashes), False
    return origin(path, len(data), number, what), number not in (Kind.BAD_MAGIC, Kind.SHORT)


# The fields whose value is no error of the file: a resource without its content is shown as such.
SHOWN_AS_SUCH = {"resources"}


def is_refused(value: Any, key: str = "") -> bool:
    """Whether a part of a file, or the file, is refused."""
    if isinstance(value, dict):
        return any(it is not None if name == "error" or name.endswith("_error") else is_refused(it, name)
                   for name, it in value.items())
    return isinstance(value, list) and key not in SHOWN_AS_SUCH and any(is_refused(it, key) for it in value)
