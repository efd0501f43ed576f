"""A program that uses each public name of pe_c by its type: mypy --strict checks it, and test_more runs it over the images of the tests
and asks whether a name is missing. A name alone counts: what each returns is tested elsewhere."""
from __future__ import annotations

import os
import sys
from typing import Any

import pe_c
from pe_c import pefile

ROWS: tuple[type[tuple[object, ...]], ...] = (
    pe_c.Range, pe_c.Directory, pe_c.Headers, pe_c.Section, pe_c.DosHeader, pe_c.CoffHeader, pe_c.OptionalHeader, pe_c.AllHeaders,
    pe_c.Symbol, pe_c.RichHeader, pe_c.RichEntry, pe_c.DebugEntry, pe_c.SymbolKey, pe_c.Pdb20, pe_c.VcFeatures, pe_c.Repro, pe_c.Pogo,
    pe_c.PogoEntry, pe_c.EmbeddedPdb, pe_c.PdbChecksum, pe_c.TeHeader, pe_c.Certificate, pe_c.ObjectIdentifier, pe_c.Algorithm,
    pe_c.DerElement, pe_c.SignedData, pe_c.SpcIndirectData, pe_c.SpcPeImageData, pe_c.SignerInfo, pe_c.SignerAttribute,
    pe_c.SpcOpusInfo, pe_c.X509Row, pe_c.X509Extension, pe_c.NameAttribute, pe_c.UtcTime, pe_c.TstInfo, pe_c.Checksum, pe_c.Function,
    pe_c.UnwindRecord, pe_c.UnwindCode, pe_c.Registers, pe_c.StackFrame, pe_c.Arm64Function, pe_c.Arm64Packed, pe_c.Arm64Record,
    pe_c.Arm64Scope, pe_c.Arm64Code, pe_c.Arm64Registers, pe_c.Arm64StackFrame, pe_c.ExportTable, pe_c.Export, pe_c.ExportDirectory,
    pe_c.NameTables, pe_c.FunctionName, pe_c.Library, pe_c.Import, pe_c.DelayDescriptor, pe_c.DelayLibrary, pe_c.DelayedFunction,
    pe_c.BoundLibrary, pe_c.BoundForwarder, pe_c.FixedVersion, pe_c.VersionBlock, pe_c.Resource, pe_c.ResourceDirectory, pe_c.Tls,
    pe_c.LoadConfig, pe_c.GuardEntry, pe_c.RelocationBlock, pe_c.Relocation, pe_c.ClrHeader, pe_c.Metadata, pe_c.MetadataStream,
    pe_c.DumpHeader, pe_c.DumpLocation, pe_c.DumpEntry, pe_c.DumpStack, pe_c.DumpThread, pe_c.DumpVersion, pe_c.DumpModule,
    pe_c.DumpThreadName, pe_c.DumpUnloadedModule, pe_c.DumpThreadInfo, pe_c.DumpHandle, pe_c.DumpRegion, pe_c.DumpException,
    pe_c.DumpSystem, pe_c.DumpTimes, pe_c.DumpPower, pe_c.DumpProcess, pe_c.DumpPiece, pe_c.Context, pe_c.Arm64Context, pe_c.PdbInfo,
    pe_c.PdbModule, pe_c.PdbSymbol, pe_c.PdbLine)


def lists(image: pe_c.Image) -> int:
    libraries: pe_c.Part[pe_c.Library] = image.imports
    exports: pe_c.Part[pe_c.Export] = image.exports
    delayed: pe_c.Part[pe_c.DelayLibrary] = image.delay_imports
    bound: pe_c.Part[pe_c.BoundLibrary] = image.bound_imports
    debug: pe_c.Part[pe_c.DebugEntry] = image.debug_entries
    certificates: pe_c.Part[pe_c.Certificate] = image.certificates
    symbols: pe_c.Part[pe_c.Symbol] = image.symbols
    resources: pe_c.Part[pe_c.Resource] = image.resources
    relocations: pe_c.Part[pe_c.RelocationBlock] = image.relocations
    functions: pe_c.Part[pe_c.Function] = image.functions
    arm64: pe_c.Part[pe_c.Arm64Function] = image.arm64_functions
    parts: list[pe_c.Part[Any]] = [libraries, exports, delayed, bound, debug, certificates, symbols, resources, relocations, functions, arm64]
    for part in parts:
        error: pe_c.Error | None = part.error
        limited: bool = part.is_limited
        refused: tuple[tuple[int, pe_c.Error], ...] = part.refused
        columns: tuple[str, ...] = part.columns
        assert len(part.to_dict()) == len(part) and (columns or not part) and callable(part.frame)
        if error is None and not limited:
            part.check()
        elif error is not None:
            number: int = error.number
            texts: tuple[str, str, str | None] = error.text, error.part, error.path
            assert error.kind == pe_c.Kind(number) and texts
    return sum(len(it.imports) for it in libraries)


def records(image: pe_c.Image) -> list[object]:
    headers: pe_c.Headers = image.headers
    whole: pe_c.AllHeaders = image.all_headers
    machine: pe_c.Machine = image.machine
    flags: tuple[bool, bool, bool] = image.is_64, image.is_dll, image.closed
    sections: pe_c.Part[pe_c.Section] = image.sections
    found: list[object] = [headers, whole, machine, flags, image.memory.nbytes, image.overlay]
    for section in sections:
        found += [image.data(section).nbytes, image.entropy(section), image.at(section.virtual_address, 0)]
    found += [image.entropies, image.offset_of(0x1000), image.image_path("a.dll"), image.limited, image.refused_name_tables]
    for name in ("rich_header", "export_table", "export_directory", "resource_root", "symbol_key", "symbol_path", "pdb20", "vc_features",
                 "extended_dll_characteristics", "repro", "pogo", "embedded_pdb", "pdb_checksum", "tls", "load_config", "clr_header",
                 "clr_metadata", "manifest"):
        try:
            found.append(getattr(image, name))
        except pe_c.Error as error:
            found.append(error.kind)
    return found


def typed_records(image: pe_c.Image) -> tuple[object, ...]:
    """The types of the same."""
    rich: pe_c.RichHeader | None = image.rich_header
    table: pe_c.ExportTable | None = image.export_table
    directory: pe_c.ExportDirectory | None = image.export_directory
    root: pe_c.ResourceDirectory | None = image.resource_root
    key: pe_c.SymbolKey | None = image.symbol_key
    path: str | None = image.symbol_path
    older: pe_c.Pdb20 | None = image.pdb20
    features: pe_c.VcFeatures | None = image.vc_features
    more: int | None = image.extended_dll_characteristics
    repro: pe_c.Repro | None = image.repro
    pogo: pe_c.Pogo | None = image.pogo
    embedded: pe_c.EmbeddedPdb | None = image.embedded_pdb
    checksum: pe_c.PdbChecksum | None = image.pdb_checksum
    tls: pe_c.Tls | None = image.tls
    config: pe_c.LoadConfig | None = image.load_config
    field: int | None = image.load_config_field(0)
    clr: pe_c.ClrHeader | None = image.clr_header
    metadata: pe_c.Metadata | None = image.clr_metadata
    manifest: memoryview | None = image.manifest
    return (rich, table, directory, root, key, path, older, features, more, repro, pogo, embedded, checksum, tls, config, field, clr,
            metadata, manifest)


def versions(image: pe_c.Image) -> list[str]:
    found: list[str] = []
    for version in image.versions:
        it: pe_c.Version = version
        fixed: pe_c.FixedVersion | None = it.fixed
        four: tuple[int, int, int, int] | None = None if fixed is None else fixed.file_version
        blocks: pe_c.Part[pe_c.VersionBlock] = it.blocks
        errors: tuple[pe_c.Error | None, pe_c.Error | None] = it.fixed_error, it.strings_error
        found += [f"{it.language} {four} {key} {table} {it.translations} {len(blocks)} {errors}" for key, table in it.strings.items()]
    return found


def hashes(image: pe_c.Image) -> list[object]:
    warnings: tuple[pe_c.ImageWarning, ...] = image.warnings
    said = [(it.kind is pe_c.WarningKind.DAMAGED, it.part, it.text, it.error, it.path) for it in warnings]
    right: pe_c.Checksum = image.right_checksum()
    return [said, image.imphash(), image.imphash_of, image.exphash(), image.rich_hash("sha256"), image.digest("sha256"), right.value]


def unwinding(image: pe_c.Image) -> int:
    count = 0
    for function in image.functions:
        found: pe_c.Unwind | None = image.unwind(function.begin)
        if found is not None:
            assert found.function.begin <= function.begin
            count += sum(len(it.codes) for it in found.records)
    for other in image.arm64_functions:
        pair: tuple[pe_c.Arm64Function, pe_c.Arm64Packed | pe_c.Arm64Record] | None = image.arm64_unwind(other.begin)
        count += pair is not None
    names: tuple[pe_c.FunctionName | None, ...] = image.function_names([(0x1000, False)])
    return count + len(names)


def signatures(image: pe_c.Image) -> list[object]:
    found: list[object] = []
    for signature in image.signatures:
        it: pe_c.Signature = signature
        row: pe_c.SignedData = it.row
        digest: bytes | None = it.digest
        certificates: pe_c.Part[pe_c.X509] = it.certificates
        found += [row, digest, it.content_type, it.digest_algorithm]
        for x509 in certificates:
            subject: pe_c.Name = x509.subject
            common: str | None = subject.get(pe_c.KnownOid.COMMON_NAME)
            found += [common, subject.attributes, x509.issuer, x509.serial, x509.not_before, x509.not_after, x509.key_usage, x509.der]
            found += [x509.row.serial]
        for signer in it.signers:
            by: pe_c.Signer = signer
            stamps: pe_c.Part[pe_c.TimeStamp] = by.time_stamps
            found += [by.issuer, by.serial, by.signature, by.certificate, by.signing_time, by.message_digest, by.program_name]
            found += [by.program_url, by.counter_signatures, by.nested, by.row.signature]
            found += [(stamp.time, stamp.digest, stamp.signature.signers) for stamp in stamps]
    return found


def written(image: pe_c.Image, content: bytes) -> list[bytes]:
    editor = pe_c.ResourceEditor(image)
    resources: dict[tuple[int | str, int | str, int], tuple[int, bytes]] = editor.resources
    editor.set(16, 1, 0x409, pe_c.version_info(file_version=(1, 2, 3, 4), strings={"CompanyName": "Example"}))
    editor.set("CONFIG", 1, 0x409, content)
    editor.remove("CONFIG", 1, 0x409)
    changed: bytes = editor.write()
    signed: bytes = pe_c.Image(changed).attach(bytes.fromhex("1000000000020200") + bytes(8))
    mapped: bytes | None = image.map(image.headers.base + 0x10000)
    return [changed, signed, pe_c.Image(signed).detach(), mapped or b"", *(it for _, it in resources.values())]


def dumped(dump: pe_c.Dump) -> list[object]:
    header: pe_c.DumpHeader = dump.header
    parts: list[object] = [header, dump.entries, dump.thread_names, dump.unloaded_modules, dump.thread_infos, dump.handles, dump.regions]
    parts += [dump.memory_list, dump.memory64, dump.warnings, dump.pieces, dump.reason]
    exception: pe_c.DumpException | None = dump.exception
    system: pe_c.DumpSystem | None = dump.system
    process: pe_c.DumpProcess | None = dump.process
    parts += [exception, system, process]
    for module in dump.modules:
        key: pe_c.SymbolKey | None = dump.symbol_key(module)
        image: pe_c.Image | None = dump.image_of(module)
        at: pe_c.DumpModule | None = dump.module_at(module.base_of_image)
        parts += [key, image, at]
    for thread in dump.threads:
        context: pe_c.Context | pe_c.Arm64Context = dump.context(thread)
        stack: pe_c.Stack = dump.stack(thread, most=4)
        end: pe_c.End = stack.end
        error: pe_c.Error | None = stack.error
        warnings: tuple[pe_c.ImageWarning, ...] = stack.warnings
        ways = {pe_c.Way(it.way) for it in stack.frames}
        parts += [context, end, error, stack.address, warnings, ways, dump.at(thread.stack.start_of_memory_range, 0)]
    stacks: tuple[pe_c.Stack | pe_c.Error, ...] = dump.stacks(most=4)
    return [*parts, stacks]


def databases(folder: str, image: pe_c.Image) -> list[object]:
    pdb = pe_c.Pdb.open(os.path.join(folder, "inlined.pdb"))
    info: pe_c.PdbInfo = pdb.info
    modules: pe_c.Part[pe_c.PdbModule] = pdb.modules
    named: pe_c.Part[pe_c.PdbSymbol] = pdb.procedures(modules[0])
    lines: pe_c.Part[pe_c.PdbLine] = pdb.lines(modules[0])
    own: pe_c.PdbFrame | None = pdb.find(0x1005)
    frames: pe_c.Part[pe_c.PdbFrame] = pdb.frames(0x1005, is_return=True)
    found: list[object] = [(it.name, it.start, it.offset, it.source, it.file, it.line, it.column, it.is_inlined) for it in frames]
    return [*found, info, named, lines, own, pdb.guid, pdb.age, pdb.machine, pdb.is_moved, pdb.matches(image), pdb.publics, pdb.functions,
            pdb.stream(1), pdb.symbol_path("a.pdb"), pdb.warnings]


def others(folder: str) -> list[object]:
    with pe_c.Coff.open(os.path.join(folder, "object.obj")) as coff, pe_c.Te.open(os.path.join(folder, "te_image.te")) as te:
        headers: tuple[pe_c.CoffHeader, pe_c.TeHeader] = coff.header, te.header
        symbols: pe_c.Part[pe_c.Symbol] = coff.symbols
        key: pe_c.SymbolKey | None = te.symbol_key
        entries: pe_c.Part[pe_c.DebugEntry] = te.debug_entries
        found: list[object] = [headers, symbols, key, entries, coff.machine, te.machine, coff.sections, te.sections]
    registers = pe_c.Registers((tuple(range(16)), (0,) * 32, 0x1000))
    stack: pe_c.Stack = pe_c.walk(registers, [(0x1000, 0x10000)], bytes(64), [(0x20000, 0, 64)], 4)
    return [*found, stack.end, pe_c.__version__]


def by_names(path: str) -> str:
    with pefile.PE(path, fast_load=True) as pe:
        structure: pefile.Structure = pe.FILE_HEADER
        return structure.name + pe.dump_info()


def main(folder: str) -> int:
    count = 0
    for name in sorted(os.listdir(folder)):
        path = os.path.join(folder, name)
        if name.endswith(".dmp"):
            count += len(dumped(pe_c.Dump.open(path)))
        elif name.endswith((".bin", ".exe")):
            with pe_c.open(path, pe_c.Mode.PERMISSIVE) as image:
                # One has no optional header, and so no checksum.
                if not image.all_headers.optional_offset:
                    continue
                count += lists(image) + len(records(image)) + len(versions(image)) + len(hashes(image)) + unwinding(image)
                count += len(signatures(image)) + len(image.facts()) + len(image.to_dict()) + len(by_names(path))
    image = pe_c.open(os.path.join(folder, "editable.exe"))
    count += len(written(image, b"content")) + len(typed_records(image)) + len(others(folder)) + len(databases(folder, image)) + len(ROWS)
    try:
        report: pe_c.Report = image.report("/no/such/program")
        count += len(report.page) + len(pe_c.Report.of(image.memory, "a.exe", "pe").page)
    except OSError:
        count += 1
    image.close()
    return count


if __name__ == "__main__":
    print(main(sys.argv[1]))
