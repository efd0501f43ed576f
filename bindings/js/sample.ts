// A program over the package's types, beside uses.ts, with calls that they refuse: tools/try_js compiles both by tsc --strict.
import { facts, factsOf, kindOf, type Facts } from 'pe-c/facts';
// @ts-expect-error what File and Image share is no class of the package
import { type Opened } from 'pe-c';
import { load, PeError, type Given, type PeDumpThread, type PeLibrary, type PeStackWalk, type PeSymbolEntry } from 'pe-c';
const library = await load(), bytes = new Uint8Array(3);
const image = library.open(bytes), other = library.open(new DataView(bytes.buffer), { mode: 1 }).info.mode;
const imported: (string | null)[] = image.imports().flatMap((it) => it.functions.map((one) => one.name));
const forwarders: (string | null)[] = image.exports().map((it) => it.forwarder), isWhole: boolean = !image.exports().isLimited;
const companies = image.versions().flatMap((it) => Object.values(it.strings).map((table) => table.CompanyName));
const digest: Uint8Array = await image.digest('SHA-1'), manifest: string | null = image.manifest();
const subjects = image.signatures().map((it) => it.signer?.subject ?? it.error?.message);
const delayed: string[] = image.delayImports().map((it) => it.name), kind: string | null = kindOf(bytes);
const fact: Facts = facts(image, 'a.dll'), size: number | bigint = fact.headers.image_base_va;
const refused = factsOf(library, bytes.buffer, 'a.dll'), said = refused.error ? refused.file_kind : refused.sections[0].name;
const found: PeLibrary[] = [...image.list('libraries')];
const offset: bigint | null = image.call('pe_c_offset', { rva: 3 });
const libraries = image.call('pe_c_import_libraries');
const next: PeLibrary | null = libraries && image.call('pe_c_next_library', { walk: { libraries } });
const entry = image.debugEntry(2), stub: bigint = image.headers().dos_stub.length;
if (entry) image.call('pe_c_debug_record', { mode: 0, entry });
const object = library.openObject(bytes), symbols: PeSymbolEntry[] = [...object.symbols() ?? []];
const te = library.openTe(bytes).header.machine, why: number | undefined = library.failure(bytes)?.result;
const process = library.process({ modules: [{ bytes, base: 1n }, { size: 4096, base: 2n }], memory: bytes,
  pieces: [{ start: 1, offset: 0, length: 3n }] });
const stack: Given<PeStackWalk> = { registers: { rip: 1n, general: [0n] }, remaining: 9 };
const rips: bigint[] = [...process.frames(stack)].map((it) => it.registers.rip), end: number | undefined = stack.end;
const content = library.versionInfo({ fileVersion: [1, 2, 3, 4], strings: { CompanyName: 'a' } });
const file: Uint8Array = image.edit([...image.resources(), { type: 16, name: 'A', language: 0, content }]);
const pieces = [{ start: 1, length: 3n }], table = { offset: 0, length: 12n };
const step: true | null = image.call('pe_c_step', { table, memory: bytes, pieces, frame: { registers: { rip: 2 } } });
const dump = library.openDump(bytes), threads: PeDumpThread[] = [...dump.list('threads')], code = dump.exception()?.exception_code;
const pdb = library.openPdb(bytes), named = pdb.find(1, { isReturn: true })?.line, key = image.call('pe_c_symbol_key');
const isOwn: boolean = pdb.matches(image) && key !== null && pdb.matches(key), first: string | null = pdb.lines(pdb.modules()[0])[0].file;
const [certificate] = image.certificates(), signed = image.call('pe_c_signature', { range: certificate.body });
const tags: number[] = signed ? [...image.elements(signed.signers)].map((it) => it.tag) : [], at = new PeError().failure?.offset;
const listed: { next: bigint; written: bigint } | null = image.call('pe_c_list_functions', { table: {}, next: 0, entries: [{}] });
// @ts-expect-error a call on an image
object.call('pe_c_tls');
// @ts-expect-error what a call fills where it refuses comes with the error
image.call('pe_c_signature', { range: {}, failure: {} });
// @ts-expect-error no function of a PDB
pdb.inlined(1);
// @ts-expect-error no list of a dump
dump.list('exports');
// @ts-expect-error the library makes the view itself
image.call('pe_c_section_at', { rva: 2, view: 1 });
// @ts-expect-error no such parameter
image.call('pe_c_offset', { rva: 3, rvo: 1 });
// @ts-expect-error it is needed
image.call('pe_c_offset', {});
// @ts-expect-error no such call
image.call('pe_c_nothing');
// @ts-expect-error no image
facts(42);
// @ts-expect-error no image, though it has its length
facts({ length: 3 });
// @ts-expect-error no such fact
fact.nothing;
// @ts-expect-error a path is no file
library.open('a.dll');
// @ts-expect-error no such part of the package
import('pe-c/fact');
// @ts-expect-error a mode is a number
library.open(bytes, { mode: 'permissive' });
// @ts-expect-error the hash of no signature
image.digest('MD5');
export { companies, delayed, digest, forwarders, imported, isWhole, kind, manifest, other, said, size, subjects };
export { at, code, end, file, first, found, isOwn, named, listed, next, offset, rips, step, stub, symbols, tags, te, threads, why, PeError };
