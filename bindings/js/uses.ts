// A program that uses each public name of the package's types, with sample.ts: tools/try_js compiles both by tsc --strict and
// asks whether a name is missing.
import { abi, constants, load, results, version, type Bytes, type Coff, type Dump, type DumpLists, type ExportedFunction,
  type ExportedFunctions, type File, type FunctionName, type FunctionNames, type Image, type ImportedFunction, type ImportedLibrary, type Library, type Lists, type Module, type Pdb,
  type PdbFrame, type PdbLine, type PdbModule, type PdbSymbol, type PeError, type Process,
  type Resource, type Rows, type Signature, type Signer, type Symbols, type TeImage, type Version, type VersionBlock,
  type VersionInfo } from 'pe-c';
import { facts, factsOf, kindOf, type Facts } from 'pe-c/facts';

/** What is imported and exported, as values and as records. */
function names(image: Image): (string | null)[] {
  const libraries: Rows<ImportedLibrary> = image.imports(), later: Rows<ImportedLibrary> = image.delayImports();
  const imported: ImportedFunction[] = [...libraries, ...later].flatMap((it: ImportedLibrary) => [...it.functions]);
  const exported: ExportedFunctions = image.exports(), failed: PeError | null = exported.error, all: Rows<ExportedFunction> = exported;
  const numbers: (number | null)[] = imported.flatMap((it) => [it.hint, it.ordinal]), places = exported.map((it) => [it.rva, it.forwarder]);
  const unmapped: boolean[] = libraries.map((it) => it.hasUnmappedList);
  for (const library of image.list('libraries')) {
    if (image.hasUnmappedList(library)) numbers.push([...image.addressTable(library)].length);
    numbers.push([...image.imports(library)].length);
  }
  for (const it of image.list('delayImports')) numbers.push([...image.delayedFunctions(it)].length);
  numbers.push([...image.exportAddresses()].length, [...image.boundImports()].flatMap((it) => it.forwarders).length);
  return [String(numbers), String(places), String(unmapped), failed?.constant ?? null, String(exported.namesLeftOut), String(all.isLimited)];
}

/** The parts that are records. */
function parts(image: Image): unknown[] {
  image.index();
  const table = image.functionTable(), found: unknown[] = [table, image.info.mode, image.headers(), image.sections.length, image.length];
  const asked: FunctionNames = image.functionNames([{ rva: 0x1000 }, { rva: 0x1005, isReturn: true }]), [one]: (FunctionName | null)[] = asked;
  found.push(one, asked.damaged.map((it) => [it.part, it.error.number]));
  found.push(asked.map((it) => it && [it.name, it.start, it.offset, it.source, it.isNearest]));
  for (const it of image.functions()) {
    if (!('unwind' in it && 'end' in it)) continue;
    for (const record of image.records(it)) found.push([...image.codes(record)].map((code) => code.operation));
  }
  for (const block of image.list('relocationBlocks')) found.push([...image.relocations(block)].length);
  const lists: (keyof Lists)[] = ['debugEntries', 'exports', 'versionBlocks', 'resourceLeaves'];
  for (const name of lists) found.push([...image.list(name)].length);
  found.push([...image.tlsCallbacks()], [...image.metadataStreams()], [...image.richEntries()], image.sections.map((it) => image.sectionName(it)));
  const symbols: Symbols | null = image.symbols(), entry = image.debugEntry(2), range = { offset: 0n, length: 2n };
  if (symbols) found.push([...symbols].map((it) => symbols.name(it)), symbols.table, symbols.strings(), symbols.at(0));
  const walk = image.call('pe_c_import_libraries');
  if (walk) found.push([...image.items('pe_c_next_library', walk)].length);
  return [...found, entry, image.utf8(range), image.utf16(range, { isWhole: true }), image.slice(range), image.manifest()];
}

function versions(image: Image): unknown[] {
  return image.versions().map((it: Version) => [it.language, it.fileVersion, it.productVersion, it.strings, it.error?.number]);
}

function signatures(image: Image): unknown[] {
  const found: unknown[] = [];
  for (const it of image.signatures() as Rows<Signature>) {
    const signer: Signer | null = it.signer;
    found.push(it.certificate, it.digestAlgorithm, it.digest, it.error?.call, signer?.subject, signer?.issuer, signer?.serial_hex);
    found.push(signer?.digest_algorithm, signer?.time_stamp);
  }
  for (const { body } of image.certificates()) {
    const signed = image.call('pe_c_signature', { range: body });
    for (const { whole } of signed ? image.elements(signed.certificates) : []) {
      const certificate = image.call('pe_c_x509', { range: whole });
      if (certificate) found.push([...image.nameAttributes(certificate.subject)].map((one) => one.type.id));
    }
  }
  return found;
}

/** Files that are written. */
function written(library: Library, image: Image, certificate: Uint8Array): Uint8Array[] {
  const strings: VersionInfo = { fileVersion: [1, 2, 3, 4], productVersion: [1, 2, 3, 4], language: 0x409, strings: { CompanyName: 'a' } };
  const block: VersionBlock = { key: 'A', children: [{ key: 'B', text: 'b' }, { key: 'C', value: new Uint8Array(2) }] };
  const resources: Resource[] = [{ type: 16, name: 1, language: 0x409, codePage: 0, content: library.versionInfo(strings) }];
  const changed = library.open(image.edit(resources));
  const signed = library.open(changed.attach(certificate, { placement: constants.PE_C_AFTER }));
  return [signed.detach(), library.versionBlock(block)];
}

function dumped(library: Library, bytes: Bytes): unknown[] {
  const dump: Dump = library.openDump(bytes), found: unknown[] = [dump.info.number_of_streams, dump.exception(), dump.reason()];
  const lists: (keyof DumpLists)[] = ['threads', 'modules', 'pieces', 'handles', 'unloadedModules', 'regions', 'threadInfos', 'threadNames'];
  for (const name of lists) found.push([...dump.list(name)].length);
  for (const it of dump.list('threads')) found.push(dump.contextOf(it), dump.context(it.thread_context));
  for (const it of dump.list('modules')) found.push(dump.text(it.module_name_rva));
  return [...found, [...dump.entries()], dump.stream(4), dump.system(), dump.process(), [...dump.fullPieces()], dump.runs()];
}

function walked(library: Library, bytes: Bytes): unknown[] {
  const modules: Module[] = [{ bytes, base: 0x140000000n, mode: constants.PE_C_MAPPED }, { size: 4096, base: 0x10000n }];
  const process: Process = library.process({ modules, memory: new Uint8Array(8), pieces: [{ start: 1n, offset: 0n, length: 8n }] });
  const frames = [...process.frames({ registers: { rip: 1n }, remaining: 1 }), ...process.arm64Frames({ registers: { pc: 1n }, remaining: 1 })];
  return [frames.map((it) => it.way), process.images, process.damaged, process.call('pe_c_next_frame', { walk: { registers: { rip: 1n }, remaining: 1 } })];
}

function databases(library: Library, bytes: Bytes): unknown[] {
  const pdb: Pdb = library.openPdb(bytes), [module]: PdbModule[] = pdb.modules(), own: PdbFrame | null = pdb.find(1);
  const symbols: PdbSymbol[] = [...pdb.publics(), ...pdb.procedures(module)], lines: PdbLine[] = pdb.lines(module);
  const frames: PdbFrame[] = pdb.frames(1, { isReturn: true }), isLimited: boolean = pdb.frames(1).isLimited;
  return [isLimited, frames.map((it) => [it.name, it.start, it.offset, it.source, it.file, it.line, it.column, it.isInlined]), own,
    symbols.map((it) => [it.section, it.sectionOffset, it.isFunction, it.error]), lines.map((it) => it.codeSize), pdb.isMoved, pdb.key,
    pdb.damaged.map((it) => [it.part, it.error.call]), pdb.stream(1), pdb.info];
}

/** Other files, and what the package says of itself. */
function others(library: Library, bytes: Bytes): unknown[] {
  const object: Coff = library.openObject(bytes), te: TeImage = library.openTe(bytes), file: File = library.file(bytes);
  const refused: PeError | null = null;
  return [object.header, object.sections, object.symbols(), te.header, te.sections, [...te.debugEntries()], te.debugEntry(2), file.length,
    library.failure(bytes, { mode: constants.PE_C_STRICT }), library.teFailure(bytes), library.text(2), library.call('pe_c_guid_text'),
    version, abi, results[2], refused];
}

export async function main(bytes: Bytes): Promise<unknown[]> {
  const library: Library = await load({ wide: true }), image: Image = library.open(bytes, { mode: constants.PE_C_PERMISSIVE });
  const said: Facts = facts(image, 'a.dll'), refused = factsOf(library, bytes, 'a.dll', { mode: 1 }), kind = kindOf(new Uint8Array(2));
  const digest: Uint8Array = await image.digest('SHA-512');
  return [names(image), parts(image), versions(image), signatures(image), written(library, image, digest), dumped(library, bytes),
    walked(library, bytes), databases(library, bytes), others(library, bytes), said.sections.length, refused.error, kind];
}
