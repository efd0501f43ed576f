"""An image: its headers and parts, each read when it is asked for first."""
from __future__ import annotations

import enum
import hashlib
import struct
import typing
from typing import TYPE_CHECKING, Any

from . import _core
from ._added import Machine, image_path
from ._core import (AllHeaders, Arm64Function, Arm64Packed, Arm64Record, BoundLibrary, Certificate, Checksum, ClrHeader, DebugEntry,
                    DelayLibrary, EmbeddedPdb, Export, ExportDirectory, ExportTable, FixedVersion, Function, FunctionName, Headers, Library,
                    LoadConfig, Metadata, Pdb20, PdbChecksum, Pogo, RelocationBlock, Repro, Resource, ResourceDirectory, RichHeader,
                    Section, Symbol, SymbolKey, Tls, UnwindRecord, VcFeatures, VersionBlock)
from ._functions import Address, names_of, refused_tables
from ._kinds import Kind
from ._ordinals import ORDINALS
from ._part import LIMITED, SHOWN, Error, ImageWarning, Part, WarningKind, entropy_of, error_of, plain, shown
from ._reader import IMAGE, AnyFile, Reader, content_of
from ._report import Report

if TYPE_CHECKING:
    import _typeshed
    from . import _signature

RT_VERSION = 16
WIN_CERT_TYPE_PKCS_SIGNED_DATA = 2
IMAGE_DIRECTORY_ENTRY_BASERELOC = 5
IMAGE_FILE_DLL, IMAGE_FILE_EXECUTABLE_IMAGE = 0x2000, 0x2
# Windows rounds raw pointers down to multiples of it.
SECTOR = 512
# The parts that are lists, and those that are one record each, in the order in which their errors are listed.
LISTS = ("sections", "imports", "exports", "delay_imports", "bound_imports", "debug_entries", "certificates", "resources", "relocations",
         "functions", "arm64_functions")
RECORDS = ("symbol_key", "tls", "load_config", "clr_header", "clr_metadata")
# Those of the debug directory, beside the symbol key and the record of PDB 2.0 in its place.
DEBUG_RECORDS = ("vc_features", "extended_dll_characteristics", "repro", "pogo", "embedded_pdb", "pdb_checksum")


class Mode(enum.IntFlag):
    """How an image is read. MAPPED is added to one of the others for an image as loaded."""

    STRICT = 0
    """damaged directories are errors"""
    PERMISSIVE = 1
    """what pe.h lists under "Modes" is accepted"""
    MAPPED = 2
    """the bytes are a module in memory, or a copy of one, from its first byte on: RVAs are offsets"""


# How many bytes version information has up to the end of the fixed file information: lengths, a type, the key, the value.
UP_TO_FIXED = 6 + 32 + 2 + 52


def fixed_version_in(core: _core.Image, offset: int, size: int) -> tuple[tuple[FixedVersion | None, int, bool], int]:
    """The fixed file information in version information, and the error of the strings after it, which costs them alone."""
    whole: tuple[FixedVersion | None, int, bool] = core.fixed_version_in(offset, size)
    first: tuple[FixedVersion | None, int, bool] = core.fixed_version_in(offset, min(size, UP_TO_FIXED))
    is_there = whole[1] and first[0] is not None and not first[1]
    return (first, whole[1]) if is_there else (whole, 0)


class Version(typing.NamedTuple):
    """Version information in one language."""

    language: int | str
    """the language identifier of the resource, 0 for any language"""
    fixed: FixedVersion | None
    """the fixed file information, or None where it is missing or damaged"""
    strings: dict[str, dict[str, str]]
    """the strings by their names, for each key of a string table, such as "040904B0": the language and the code page"""
    translations: tuple[tuple[int, int], ...]
    """language and code page of each translation in VarFileInfo"""
    blocks: Part[VersionBlock]
    """all blocks as a tree; its `error` is the first of them"""
    fixed_error: Error | None = None
    """why the fixed file information is refused"""
    strings_error: Error | None = None
    """why a string is refused, though `strings` has what can be read of it: other readers may have none"""


class Unwind(typing.NamedTuple):
    """What unwinds an RVA of x64."""

    function: Function
    """the function that covers it"""
    records: Part[UnwindRecord]
    """its unwind records: its own, then those that it is chained to"""


class Image(Reader):
    """A PE image over the bytes of a file: bytes, a bytearray, an mmap, a memoryview or anything else with a buffer.

    It holds the buffer, and copies one that may be written, as what a read-only memoryview is of may be; with copy=False it holds
    that too, and nothing may write to it while a call reads, nor to the file of an mmap that is held. Raises Error where the headers
    are refused, and TypeError or BufferError for what is no buffer.

    After that a part that is a list never raises: what ended it is its `error`. A part that is one record, or None
    without one, raises Error where it is damaged. After close() each raises ValueError. Contents, as those of
    resources, are memoryviews: they are not copied, can't be written, and stay valid after close(). """

    def __init__(self, data: _typeshed.ReadableBuffer, mode: Mode = Mode.PERMISSIVE, *, copy: bool = True,
                 path: str | None = None) -> None:
        if not isinstance(mode, int) or not 0 <= mode <= Mode.PERMISSIVE | Mode.MAPPED:
            # The library takes bits of no name for none.
            raise TypeError(f"mode is a pe_c.Mode, and not {mode!r}")
        super().__init__(data, IMAGE, "headers", mode=int(mode), copy=copy, path=path)

    def __repr__(self) -> str:
        if self.closed:
            return "<pe_c.Image, closed>"
        headers = self.headers
        return f"<pe_c.Image {self.path or ''} machine 0x{headers.machine:x} width {headers.width} {len(self.memory)} bytes>"

    # ---- headers

    @property
    def headers(self) -> Headers:
        """The headers. Without an optional header the numbers that it has are 0."""
        headers: Headers = self._one("headers")
        return headers

    @property
    def all_headers(self) -> AllHeaders:
        """All fields of the DOS, COFF and optional header, and the DOS stub. Without an optional header its numbers are 0."""
        headers: AllHeaders = self._one("all_headers")
        return headers

    @property
    def machine(self) -> Machine:
        """The machine, an int with a name: `Machine.AMD64`."""
        return Machine(self.headers.machine)

    @property
    def is_64(self) -> bool:
        """Whether it is PE32+."""
        return self.headers.width == 64

    @property
    def is_dll(self) -> bool:
        return bool(self.headers.characteristics & IMAGE_FILE_DLL)

    @property
    def sections(self) -> Part[Section]:
        """The section headers. A name that is longer than 8 bytes is that of the COFF string table."""
        return self._part("sections")

    @property
    def rich_header(self) -> RichHeader | None:
        """Which tools made the objects of the image, by Microsoft's linker."""
        row: RichHeader | None = self._one("rich_header")
        return row

    @property
    def overlay(self) -> memoryview | None:
        """The bytes after the headers and the raw data of all sections; None where no byte follows."""
        view: memoryview | None = self._one("overlay")
        return view

    # ---- lists

    @property
    def imports(self) -> Part[Library]:
        """The DLLs that the image imports, each with its imports."""
        return self._part("imports")

    @property
    def delay_imports(self) -> Part[DelayLibrary]:
        """The DLLs that are loaded when one of their functions is called first."""
        return self._part("delay_imports")

    @property
    def bound_imports(self) -> Part[BoundLibrary]:
        """The DLLs whose addresses stand in the import address table."""
        return self._part("bound_imports")

    @property
    def exports(self) -> Part[Export]:
        """The exports: those with a name, in the order of the names, then the others, in the order of their
        ordinals."""
        return self._part("exports")

    @property
    def debug_entries(self) -> Part[DebugEntry]:
        """The entries of the debug directory."""
        return self._part("debug_entries")

    @property
    def certificates(self) -> Part[Certificate]:
        """The attribute certificates, which hold Authenticode signatures; none of an image as loaded. They are not verified."""
        return self._part("certificates")

    @property
    def signatures(self) -> Part[_signature.Signature]:
        """What the certificates that are signatures say. They are not verified. Of damaged ones the first is the error, and each is in
        `refused` with its index in `certificates`."""
        from ._signature import Signature, all_of
        def read() -> Part[_signature.Signature]:
            rows = self.certificates
            signed = ((index, it) for index, it in enumerate(rows) if it.type == WIN_CERT_TYPE_PKCS_SIGNED_DATA)
            part = all_of(signed, lambda it: Signature(it.body, path=self.path), rows.error)
            part.error = rows.error or part.error
            return part
        return self._once("signatures", read)

    @property
    def symbols(self) -> Part[Symbol]:
        """The COFF symbols, without auxiliary records, as images of mingw-w64 and Go have them; none of an image as loaded."""
        return self._part("symbols")

    @property
    def resources(self) -> Part[Resource]:
        """All resources, each in each language."""
        return self._part("resources")

    @property
    def relocations(self) -> Part[RelocationBlock]:
        """The base relocations, a block a page. A directory of zeros, as some linkers leave, is none."""
        def read() -> Part[RelocationBlock]:
            part = self._part_of(self._read("relocations"), "relocations")
            if part.error and not part:
                at = self.headers.directories[IMAGE_DIRECTORY_ENTRY_BASERELOC]
                offset = self.offset_of(at.virtual_address)
                content = b"" if offset is None else self.memory[offset:offset + at.size]
                # One that the file does not have may be zeros, or not, and one of no bytes is none of zeros.
                part.error = part.error if not content or len(content) < at.size or any(content) else None
            return part
        return self._once("relocations", read)

    def _part(self, name: str) -> Part[Any]:
        return self.relocations if name == "relocations" else super()._part(name)

    @property
    def functions(self) -> Part[Function]:
        """The function table of an x64 image."""
        return self._part("functions")

    @property
    def arm64_functions(self) -> Part[Arm64Function]:
        """The function table of an ARM64 image."""
        return self._part("arm64_functions")

    # ---- records

    @property
    def export_table(self) -> ExportTable | None:
        """The DLL's own name, and the ordinal of its first export."""
        row: ExportTable | None = self._one("export_table")
        return row

    @property
    def export_directory(self) -> ExportDirectory | None:
        """The fields of the export directory, IMAGE_EXPORT_DIRECTORY."""
        row: ExportDirectory | None = self._one("export_directory")
        return row

    @property
    def resource_root(self) -> ResourceDirectory | None:
        """The fields of the first directory of the resources, IMAGE_RESOURCE_DIRECTORY."""
        row: ResourceDirectory | None = self._one("resource_root")
        return row

    @property
    def symbol_key(self) -> SymbolKey | None:
        """The CodeView record of PDB 7.0, by which a symbol server files the symbols."""
        row: SymbolKey | None = self._one("symbol_key")
        return row

    @property
    def symbol_path(self) -> str | None:
        """Where a symbol server has the PDB of the image, NAME/KEY/NAME: by PDB 7.0, else by PDB 2.0. None where there is
        neither, and for a name that is no file's."""
        record: SymbolKey | Pdb20 | None = self.symbol_key or self.pdb20
        path: str | None = record and record.symbol_path
        return path

    def image_path(self, name: str) -> str | None:
        """Where a symbol server has the image itself, whose file has this name. None without an optional header."""
        headers = self.headers
        return image_path(name, headers.time_date_stamp, headers.size_of_image) if headers.width else None

    @property
    def pdb20(self) -> Pdb20 | None:
        """The CodeView record of PDB 2.0."""
        row: Pdb20 | None = self._one("pdb20")
        return row

    @property
    def vc_features(self) -> VcFeatures | None:
        """The record of VC features: counts that dumpbin /headers shows."""
        row: VcFeatures | None = self._one("vc_features")
        return row

    @property
    def extended_dll_characteristics(self) -> int | None:
        """IMAGE_DLLCHARACTERISTICS_EX_ flags."""
        flags: int | None = self._one("extended_dll_characteristics")
        return flags

    @property
    def repro(self) -> Repro | None:
        """The Repro record, which marks a reproducible build."""
        row: Repro | None = self._one("repro")
        return row

    @property
    def pogo(self) -> Pogo | None:
        """The POGO record: the parts of the image's sections."""
        row: Pogo | None = self._one("pogo")
        return row

    @property
    def embedded_pdb(self) -> EmbeddedPdb | None:
        """A portable PDB in the image itself, of .NET."""
        row: EmbeddedPdb | None = self._one("embedded_pdb")
        return row

    @property
    def pdb_checksum(self) -> PdbChecksum | None:
        """A checksum of the PDB file, of .NET."""
        row: PdbChecksum | None = self._one("pdb_checksum")
        return row

    @property
    def tls(self) -> Tls | None:
        """The TLS directory, with the virtual addresses of its callbacks."""
        row: Tls | None = self._one("tls")
        return row

    @property
    def load_config(self) -> LoadConfig | None:
        """The load configuration. A field that the structure is too short for is None."""
        row: LoadConfig | None = self._one("load_config")
        return row

    def load_config_field(self, number: int) -> int | None:
        """A field of the load configuration that its record does not have, by its number, PE_C_CONFIG_ of pe.h; None without it."""
        field: int | None = self._asked("load_config", "load_config_field", number)
        return field

    @property
    def clr_header(self) -> ClrHeader | None:
        """The CLR header of an image for the .NET runtime."""
        row: ClrHeader | None = self._one("clr_header")
        return row

    @property
    def clr_metadata(self) -> Metadata | None:
        """The root of the metadata, with its streams."""
        row: Metadata | None = self._one("clr_metadata")
        return row

    # ---- version and manifest

    def _version_of(self, leaf: Resource) -> Version:
        place = (leaf.offset or 0, leaf.size)
        (fixed, number, _), of_strings = fixed_version_in(self._core, *place)
        blocks: Part[VersionBlock] = self._part_of(self._read("version_blocks", *place), "version")
        strings: dict[str, dict[str, str]] = {}
        translations: list[tuple[int, int]] = []
        for info in (it for root in blocks for it in root.children):
            for it in info.children:
                if info.key.lower() == "stringfileinfo":
                    table = strings.setdefault(it.key, {})
                    for text in it.children:
                        table.setdefault(text.key, text.value if isinstance(text.value, str) else "")
                elif info.key.lower() == "varfileinfo" and isinstance(it.value, bytes):
                    translations += [(one, two) for one, two in struct.iter_unpack("<HH", it.value[:len(it.value) & ~3])]
        errors = [error_of(it, name, self.path) if it else None
                  for it, name in ((number, "fixed version"), (of_strings, "version strings"))]
        return Version(leaf.language, fixed, strings, tuple(translations), blocks, *errors)

    @property
    def versions(self) -> Part[Version]:
        """Version information in each language. What is damaged in one of them is the error of its `blocks`; of one whose content is not
        in the file, the first, it is the error of all. It is limited where it would have more bytes than the file."""
        def read() -> Part[Version]:
            left, found, is_limited, refused = len(self.memory), [], self.resources.is_limited, self.resources.error
            for it in self.resources:
                if it.type != RT_VERSION:
                    continue
                if it.content is None:
                    refused = refused or error_of(it.content_result, "versions", self.path)
                    continue
                left -= len(it.content)
                if left < 0:
                    is_limited = True
                    break
                found.append(self._version_of(it))
            part: Part[Version] = Part(found)
            part.error, part.is_limited = refused, is_limited
            return part
        return self._once("versions", read)

    @property
    def manifest(self) -> memoryview | None:
        """The first manifest, an XML text in UTF-8 as a rule. Raises Error where it is damaged, or where what comes before it is."""
        view: memoryview | None = self._one("manifest")
        return view

    # ---- addresses

    def offset_of(self, rva: int) -> int | None:
        """The file offset of an RVA, or None where no section maps it. It may be past the end of the file."""
        offset: int | None = self._asked("address", "offset_of", rva)
        return offset

    def at(self, rva: int, length: int) -> memoryview:
        """`length` bytes from an RVA on, or as many as the file has. Raises Error where the RVA is unmapped."""
        offset = self.offset_of(rva)
        if offset is None:
            raise error_of(Kind.UNMAPPED, f"RVA 0x{rva:x}", self.path)
        return self.memory[offset:offset + max(length, 0)]

    def _place(self, section: Section) -> tuple[int, int]:
        """Where a section is, and how many bytes it has there."""
        if self.headers.mode & Mode.MAPPED:
            return section.virtual_address, section.virtual_size or section.size_of_raw_data
        return section.pointer_to_raw_data, section.size_of_raw_data

    def data(self, section: Section) -> memoryview:
        """A section's raw data: `size_of_raw_data` bytes from `pointer_to_raw_data` on, as far as the file has them. In an image as loaded
        they are at its RVA, as many as its virtual size says, or its raw size where that is 0."""
        start, size = self._place(section)
        return self.memory[start:start + size]

    def entropy(self, section: Section | None = None) -> float:
        """Shannon's entropy of a section's `data`, or of all bytes, in bits a byte, 0.0 to 8.0."""
        place = self._place(section) if section else (0, len(self.memory))
        return entropy_of(self._asked("entropy", "histogram", *place))

    @property
    def entropies(self) -> tuple[float | None, ...]:
        """The entropy of each section's `data`, in bits a byte; None after as many bytes as four times those of the file: the
        sections of a hostile image may all be the same bytes."""
        def read() -> tuple[float | None, ...]:
            found: list[float | None] = []
            left = self._limit()
            for it in self.sections:
                left -= len(self.data(it))
                found.append(self.entropy(it) if left >= 0 else None)
            return tuple(found)
        return self._once("entropies", read)

    def _limit(self) -> int:
        """How many bytes are hashed and counted at most where parts may be the same bytes."""
        return 4 * len(self.memory) + 65536

    # ---- functions

    def unwind(self, rva: int) -> Unwind | None:
        """The function that covers an RVA of x64, and its unwind records. None where none does, as for a leaf
        function."""
        function: Function | None = self._asked("functions", "find_function", rva)
        if function is None:
            return None
        return Unwind(function, self._part_of(self._read("unwind_records", function.unwind), "unwind"))

    def arm64_unwind(self, rva: int) -> tuple[Arm64Function, Arm64Packed | Arm64Record] | None:
        """The function that covers an RVA of ARM64, and its unwind data. None where none does."""
        function: Arm64Function | None = self._asked("functions", "find_arm64_function", rva)
        if function is None:
            return None
        return function, self._asked("unwind", "arm64_unwind", function.begin, function.unwind)

    def function_names(self, addresses: typing.Iterable[Address]) -> tuple[FunctionName | None, ...]:
        """What names each of these addresses without a PDB, in their order: each an RVA, and whether it is a return address, of which
        the byte before it counts. It is the last function symbol at or before it within its function; else the export that starts the
        function; in an image without a function table the last symbol or export at or before it. None where nothing names it. Ask for
        all addresses at once: what has a name is sorted each time."""
        return tuple(names_of(self._core, [(rva, bool(is_return)) for rva, is_return in addresses])[0])

    @property
    def refused_name_tables(self) -> dict[str, Error]:
        """The tables of which names are read and that are refused, `functions`, `symbols`, `strings` or `exports`, with why: one that
        is damaged does not cost the others. By a refused function table nothing has a name."""
        return refused_tables(self._core, self.path)

    # ---- hashes

    def imphash(self) -> str | None:
        """The MD5 of the imports' names, as pefile's get_imphash. None without a name or an ordinal, and where the list is not
        whole: the hash of a part of it would be that of another image. `imphash_of` says what it is of."""
        if self.imports.error or self.imports.is_limited:
            return None
        names = []
        for library in self.imports:
            dll = library.name.lower()
            stem, dot, extension = dll.rpartition(".")
            stem = stem if dot and extension in ("ocx", "sys", "dll") else dll
            known = ORDINALS.get(dll, {})
            for it in library.imports:
                name = known.get(it.ordinal, f"ord{it.ordinal}") if it.name is None else it.name
                names += [f"{stem}.{name.lower()}"] if name else []
        return hashlib.md5(",".join(names).encode(), usedforsecurity=False).hexdigest() if names else None

    @property
    def imphash_of(self) -> str | None:
        """What imphash() is of: "lookup_tables", or "address_tables" where a lookup table is unmapped, in whose place the address
        table stands. None without an imphash."""
        if self.imphash() is None:
            return None
        return "address_tables" if any(it.has_unmapped_list for it in self.imports) else "lookup_tables"

    def exphash(self) -> str | None:
        """The SHA-256 of the exports' names, as pefile's get_exphash. None as for imphash()."""
        if not self.exports or self.exports.error or self.exports.is_limited:
            return None
        names = [it.name.lower() for it in self.exports if it.name is not None and it.rva]
        return hashlib.sha256(",".join(names).encode()).hexdigest() if names else None

    def rich_hash(self, algorithm: str = "md5") -> str | None:
        """The hash of the Rich header's entries without its key, as pefile's get_rich_header_hash."""
        rich = self.rich_header
        if rich is None:
            return None
        state = hashlib.new(algorithm, struct.pack("<4I", 0x536E6144, 0, 0, 0))
        for it in rich.entries:
            state.update(struct.pack("<HHI", it.build, it.product, it.objects))
        return state.hexdigest()

    def digest(self, algorithm: str = "sha256") -> str:
        """The Authenticode digest: what a signature of this image covers. Bytes as loaded are taken for those of a file, and have another.
        Raises Error without an optional header."""
        *ranges, zeros = self._asked("digest", "digest_ranges")
        state = hashlib.new(algorithm)
        for it in ranges:
            state.update(it)
        state.update(bytes(zeros))
        return state.hexdigest()

    def right_checksum(self) -> Checksum:
        """The checksum that the image should have, and the file offset of its field. Bytes as loaded are taken for those of a file. Raises
        Error without an optional header."""
        row: Checksum = self._asked("checksum", "checksum")
        return row

    # ---- signing

    def map(self, base: int | None = None, *, most: int = 0x10000000) -> bytes | None:
        """The image as a loader lays it out, as many bytes as size_of_image says: the headers, the data of each section at its RVA,
        zeros elsewhere. With a base it is relocated to that: None where it is another than the image's own and there are no base
        relocations. Raises Error: Kind.ROOM where that is more than `most` bytes, since a short file may say 4 GB; and ValueError of a base
        that has more bits than the addresses of the image."""
        if self.headers.size_of_image > most:
            raise error_of(Kind.ROOM, f"map of {self.headers.size_of_image} bytes", self.path)
        if base is not None and not 0 <= base < 1 << (self.headers.width or 64):
            raise ValueError(f"{base:#x} is no base of an image with addresses of {self.headers.width} bits")
        difference = 0 if base is None else base - self.headers.base
        mapped: bytes | None = self._asked("map", "mapped", difference)
        return mapped

    def attach(self, certificate: bytes, *, in_place: bool = False) -> bytes:
        """The file with an entry of a certificate table (WIN_CERTIFICATE) after its others, or in their place. Bytes as loaded are taken for
        those of a file. Raises Error."""
        file: bytes = self._asked("attach", "attach", certificate, int(in_place))
        return file

    def detach(self) -> bytes:
        """The file without its certificates. Bytes as loaded are taken for those of a file. Raises Error."""
        file: bytes = self._asked("detach", "detach")
        return file

    # ---- all of it

    @property
    def warnings(self) -> tuple[ImageWarning, ...]:
        """What of the image is damaged, an error a part. Then the parts that are limited, what is left out, and a file alignment
        below 512. A directory of zeros is no warning. `symbols` and `signatures` are read when they are asked for alone, and have their
        own `error`."""
        def read() -> tuple[ImageWarning, ...]:
            errors = [part.error for part in (self._part(name) for name in LISTS) if part.error]
            errors += [error for it in self.versions for error in (it.fixed_error, it.strings_error, it.blocks.error) if error]
            errors += [it for it in (self.versions.error,) if it and not self.resources.error]
            # By a directory that is refused each of its records is, and the manifest by one of resources.
            of_debug = () if self.debug_entries.error else DEBUG_RECORDS
            older = () if self._error_of("symbol_key") else ("pdb20",)
            manifest = () if self.resources.error else ("manifest",)
            errors += [it for it in map(self._error_of, ("rich_header", *RECORDS, *older, *of_debug, *manifest)) if it]
            found = [ImageWarning(WarningKind.DAMAGED, it.part, it.text, it, self.path) for it in errors]
            found += self._unmapped() + self._without_content()
            found += [ImageWarning(WarningKind.LIMITED, it, LIMITED, None, self.path)
                      for it in self.limited]
            return tuple(found + self._left_out() + self._alignment())
        return self._once("warnings", read)

    def _unmapped(self) -> list[ImageWarning]:
        """Of the libraries whose lookup table is unmapped."""
        found = [it for it in self.imports if it.has_unmapped_list]
        if not found:
            return []
        first = f"the first of {found[0].name} at RVA 0x{found[0].lookup_table_rva:x}"
        text = f"{len(found)} unmapped lookup tables, {first}: what is imported is what the address tables name"
        error = error_of(Kind.UNMAPPED, "imports", self.path)
        return [ImageWarning(WarningKind.DAMAGED, "imports", text, error, self.path)]

    def _without_content(self) -> list[ImageWarning]:
        """Of the resources whose content is refused."""
        found = [it for it in self.resources if it.content is None]
        if not found:
            return []
        error = error_of(found[0].content_result, "resources", self.path)
        text = f"{len(found)} without content, the first of type {found[0].type!r} and name {found[0].name!r}: {error.text}"
        return [ImageWarning(WarningKind.DAMAGED, "resources", text, error, self.path)]

    def _left_out(self) -> list[ImageWarning]:
        """Sections that the end of the file cuts, and names of exports that are in no row."""
        def is_cut(it: Section) -> bool:
            start, size = self._place(it)
            return bool(size) and start + size > len(self.memory)
        cut, exports = sum(map(is_cut, self.sections)), self.exports
        directory = None if exports.error or exports.is_limited else self._kept_answer("export_directory")[0]
        names = directory.number_of_names - sum(it.name is not None for it in exports) if directory else 0
        said = [("sections", f"{cut} not whole: the file ends before they do")] if cut else []
        said += [("exports", f"{names} name{'s' * (names > 1)} left out: unmapped, or not UTF-8")] if names > 0 else []
        return [ImageWarning(WarningKind.LEFT_OUT, part, text, None, self.path) for part, text in said]

    def _alignment(self) -> list[ImageWarning]:
        headers = self.headers
        if headers.mode & Mode.MAPPED or not headers.width or headers.file_alignment >= SECTOR:
            return []
        text = f"file alignment {headers.file_alignment}: sections are mapped from their raw pointers rounded down to {SECTOR}"
        return [ImageWarning(WarningKind.ALIGNMENT, "headers", text, None, self.path)]

    def _error_of(self, name: str) -> Error | None:
        _, number, _ = self._kept_answer(name)
        return error_of(number, name, self.path) if number else None

    @property
    def limited(self) -> tuple[str, ...]:
        """The parts of which there are more rows than the image's bytes account for, as only hostile images have."""
        versions = ("versions",) if self.versions.is_limited and not self.resources.is_limited else ()
        return (*(name for name in LISTS if self._part(name).is_limited), *versions)

    def to_dict(self) -> dict[str, Any]:
        """What the image is in values that json takes. Never raises Error: `warnings` has what is damaged or limited."""
        answers = {name: self._kept_answer(name)[0] for name in ("rich_header", *RECORDS)}
        digest = self.digest() if self.headers.width and not self.headers.mode & Mode.MAPPED else None
        left, limit = [self._limit()], self._limit()
        return {"path": self.path, "size": len(self.memory), "headers": plain(self.headers, left),
                **{name: self._part(name).to_dict(limit) for name in LISTS}, "entropies": list(self.entropies),
                **{name: plain(it, left) for name, it in answers.items()},
                "versions": [{"language": it.language, "fixed": plain(it.fixed, left), "strings": it.strings}
                             for it in self.versions],
                "imphash": self.imphash(), "imphash_of": self.imphash_of, "rich_hash": self.rich_hash(), "digest": digest,
                "warnings": [{"kind": it.kind.value, "part": it.part, "number": it.error and it.error.number, "text": it.text}
                             for it in self.warnings]}

    def facts(self, *, has_hashes: bool = True) -> dict[str, Any]:
        """What `pe --json` says of the image, as docs/pe.schema.json has it. Never raises Error: an error stands beside its part."""
        from ._facts import facts_of
        return facts_of(self.memory, self.path or "", Mode(self.headers.mode), has_hashes)[0]

    def report(self, program: str = "pe") -> Report:
        """The page of `pe report`, in the mode of the image, to be shown in a notebook. Raises OSError without that program, and where it
        fails."""
        mode = self.headers.mode
        options = ["--strict"] * (not mode & Mode.PERMISSIVE) + ["--mapped"] * bool(mode & Mode.MAPPED)
        return Report.of(self.memory, self.path or "image", program, options)

    def _repr_html_(self) -> str:
        rows = "".join(f"<tr><td>{shown(it.name)}</td><td>0x{it.virtual_address:x}</td><td>{it.size_of_raw_data}</td>"
                       f"<td><meter max=8 value={value or 0:.2f}></meter> {value or 0:.2f}</td></tr>"
                       for it, value in list(zip(self.sections, self.entropies))[:SHOWN])
        head = "".join(f"<th>{it}</th>" for it in ("section", "RVA", "bytes in the file", "entropy"))
        warned = "".join(f"<li>{shown(str(it))}</li>" for it in self.warnings)
        return (f"<h4>{shown(self.path or 'image')}</h4><table><tr>{head}</tr>{rows}</table>"
                f"<p>{len(self.imports)} libraries, {len(self.exports)} exports</p><ul>{warned}</ul>")


def open(path: AnyFile, mode: Mode = Mode.PERMISSIVE, *, limit: int = 1 << 32) -> Image:
    """The image of a file, by its path or open in binary mode, which is read whole: a file that is mapped, and that another
    program truncates, would end this one.

    Raises Error where its headers are refused, and OSError where it can't be read or has more than `limit` bytes.
    """
    content, name = content_of(path, limit)
    return Image(content, mode, path=name)
