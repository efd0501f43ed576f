"""The rows, for those who name their types. Written by tools/make_python of pe.h."""
from ._core import (
    Range as Range, Directory as Directory, Headers as Headers, Section as Section, DosHeader as DosHeader, CoffHeader
    as CoffHeader, OptionalHeader as OptionalHeader, AllHeaders as AllHeaders, Symbol as Symbol, RichHeader as
    RichHeader, RichEntry as RichEntry, DebugEntry as DebugEntry, SymbolKey as SymbolKey, Pdb20 as Pdb20, VcFeatures
    as VcFeatures, Repro as Repro, Pogo as Pogo, PogoEntry as PogoEntry, EmbeddedPdb as EmbeddedPdb, PdbChecksum as
    PdbChecksum, TeHeader as TeHeader, Certificate as Certificate, ObjectIdentifier as ObjectIdentifier, Algorithm as
    Algorithm, DerElement as DerElement, SignedData as SignedData, SpcIndirectData as SpcIndirectData, SpcPeImageData
    as SpcPeImageData, SignerInfo as SignerInfo, SignerAttribute as SignerAttribute, SpcOpusInfo as SpcOpusInfo,
    X509Row as X509Row, X509Extension as X509Extension, NameAttribute as NameAttribute, UtcTime as UtcTime, TstInfo as
    TstInfo, Checksum as Checksum, Function as Function, UnwindRecord as UnwindRecord, UnwindCode as UnwindCode,
    Registers as Registers, StackFrame as StackFrame, Arm64Function as Arm64Function, Arm64Packed as Arm64Packed,
    Arm64Record as Arm64Record, Arm64Scope as Arm64Scope, Arm64Code as Arm64Code, Arm64Registers as Arm64Registers,
    Arm64StackFrame as Arm64StackFrame, ExportTable as ExportTable, Export as Export, ExportDirectory as
    ExportDirectory, NameTables as NameTables, FunctionName as FunctionName, Library as Library, Import as Import,
    DelayDescriptor as DelayDescriptor, DelayLibrary as DelayLibrary, DelayedFunction as DelayedFunction, BoundLibrary
    as BoundLibrary, BoundForwarder as BoundForwarder, FixedVersion as FixedVersion, VersionBlock as VersionBlock,
    Resource as Resource, ResourceDirectory as ResourceDirectory, Tls as Tls, LoadConfig as LoadConfig, GuardEntry as
    GuardEntry, RelocationBlock as RelocationBlock, Relocation as Relocation, ClrHeader as ClrHeader, Metadata as
    Metadata, MetadataStream as MetadataStream, DumpHeader as DumpHeader, DumpLocation as DumpLocation, DumpEntry as
    DumpEntry, DumpStack as DumpStack, DumpThread as DumpThread, DumpVersion as DumpVersion, DumpModule as DumpModule,
    DumpThreadName as DumpThreadName, DumpUnloadedModule as DumpUnloadedModule, DumpThreadInfo as DumpThreadInfo,
    DumpHandle as DumpHandle, DumpRegion as DumpRegion, DumpException as DumpException, DumpSystem as DumpSystem,
    DumpTimes as DumpTimes, DumpPower as DumpPower, DumpProcess as DumpProcess, DumpPiece as DumpPiece, Context as
    Context, Arm64Context as Arm64Context, PdbInfo as PdbInfo, PdbModule as PdbModule, PdbSymbol as PdbSymbol, PdbLine
    as PdbLine)
