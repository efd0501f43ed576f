// node test.mjs FOLDER: tests the package pe-c as it is installed, over the images that the tests of the cargo crate
// make. Each call that the package has is to be made by some test, and to succeed. The last line is 'N passed, M failed'.
import { strict as assert } from 'node:assert';
import { spawnSync } from 'node:child_process';
import { createHash } from 'node:crypto';
import { openSync, readFileSync, readdirSync } from 'node:fs';
import { createRequire } from 'node:module';
import { dirname, join } from 'node:path';
import { pathToFileURL } from 'node:url';
import { runInNewContext } from 'node:vm';
import { File, Image, Library, PeError, abi, calls, constants, load, results, version } from 'pe-c';
import { factsOf, kindOf } from 'pe-c/facts';

const folder = process.argv[2], library = await load(), done = new Set();
const file = (name) => readFileSync(join(folder, `${name}.bin`));
const opened = (name, mode = constants.PE_C_PERMISSIVE) => library.open(file(name), { mode });
let passed = 0, failed = 0;

// Which calls succeed, of what makes calls.
const { prototype: caller } = Object.getPrototypeOf(File), { call } = caller;
caller.call = function (name, given) {
  const found = call.call(this, name, given);
  if (found !== null) done.add(name);
  return found;
};

function test(what, run) {
  try {
    run();
    passed++;
  } catch (error) {
    failed++;
    console.log(`failed: ${what}: ${error.stack}`);
  }
}

/** The PeError of an action. */
function refused(run) {
  try {
    run();
  } catch (error) {
    assert(error instanceof PeError, String(error));
    return error;
  }
  throw new Error('it is not refused');
}

test('errors are objects with the name and the text of pe.h', () => {
  const error = refused(() => library.open(new Uint8Array(100)));
  const said = [error.call, error.number, error.constant, error.message];
  assert.deepEqual(said, ['pe_c_image', 3, 'PE_C_BAD_MAGIC', 'invalid magic number']);
  assert.equal(refused(() => library.open(new Uint8Array(0))).constant, 'PE_C_SHORT');
  assert.equal(library.text(100).length > 0, true);
  for (const number of ['PE_C_SHORT', -1, undefined]) assert.throws(() => library.text(number), RangeError);
  assert.equal(results[error.number], 'PE_C_BAD_MAGIC');
});

test('a range that is not in the file has no bytes', () => {
  const image = opened('imports'), length = BigInt(image.length);
  assert.deepEqual([...image.slice({ offset: 0, length: 2 })], [0x4D, 0x5A]);
  assert.equal(image.slice({ offset: length, length: 0n }).length, 0);
  for (const range of [{ offset: length - 2n, length: 3n }, { offset: -1n, length: 2n }, { offset: 1n << 40n, length: 1n }, { offset: 2, length: -1 },
    { offset: 0.5, length: 1 }, { offset: 0, length: 1.5 }, {}]) {
    for (const name of ['slice', 'utf8', 'utf16']) assert.throws(() => image[name](range), RangeError);
  }
});

test('what a file is that is no image is said of any bytes', () => {
  const { buffer } = Uint8Array.of(0x7F, 0x45, 0x4C, 0x46);
  assert.deepEqual([buffer, new DataView(buffer), new Uint8Array(buffer)].map(kindOf), Array(3).fill('an ELF file'));
  assert.deepEqual([kindOf(new ArrayBuffer(0)), kindOf(new ArrayBuffer(4))], ['an empty file', null]);
  assert.throws(() => kindOf('\x7fELF'), TypeError);
});

test('what is no bytes is not written', () => {
  const image = opened('x86_dll'), resource = { type: 24, name: 1, language: 0x409 }, bytes = Uint8Array.of(1, 2, 3, 4, 5, 6, 7, 8);
  for (const content of ['<assembly/>', [1, 2], undefined, null, 5]) {
    assert.throws(() => image.edit([{ ...resource, content }]), TypeError);
    assert.throws(() => image.attach(content), TypeError);
  }
  for (const value of ['<assembly/>', [1, 2], 5, 0, '']) assert.throws(() => library.versionBlock({ key: 'a', value }), TypeError);
  for (const key of [5, null, undefined]) assert.throws(() => library.versionBlock({ key }), TypeError);
  const version = (strings) => () => library.versionInfo({ strings });
  for (const strings of [new Map([['CompanyName', 'a']]), [['CompanyName', 'a']], null, 'a', { CompanyName: 0 }, { CompanyName: 5 }, { CompanyName: null }]) {
    assert.throws(version(strings), TypeError);
  }
  assert.ok(version({ CompanyName: '' })().length > version({})().length);
  for (const text of [[97, 0], 'a', new Uint16Array(2)]) {
    assert.throws(() => library.call('pe_c_write_block', { key: text, is_text: 1, value: bytes, children: bytes }), TypeError);
  }
  for (const content of [bytes, bytes.buffer, new Uint16Array(bytes.buffer), new DataView(bytes.buffer)]) {
    const [found] = library.open(image.edit([{ ...resource, content }])).resources();
    assert.deepEqual([...found.content], [...bytes]);
  }
});

test('an address that is none has no name', () => {
  const image = opened('functions');
  for (const address of [0x1000, {}, { rva: null }, { rva: -1 }]) assert.throws(() => image.functionNames([address]), RangeError);
});

test('an image has the headers and sections that it was made with', () => {
  const image = opened('imports');
  assert.deepEqual([image.info.machine, image.info.entry, image.info.base, image.info.width], [0x8664, 0x1234, 0x180000000n, 64]);
  assert.deepEqual(image.sections.map((it) => image.sectionName(it)), ['.rdata']);
  assert.equal(image.call('pe_c_offset', { rva: 0x1010 }), 0x410n);
  assert.equal(image.call('pe_c_offset', { rva: 0x9000 }), null);
  assert.equal(abi > 0, true);
  assert.match(version, /^\d+\.\d+\.\d+$/);
});

test('imports, by name and by ordinal', () => {
  const image = opened('imports');
  const found = [...image.list('libraries')].map((dll) => [image.utf8(dll.name),
    [...image.imports(dll)].map((it) => (it.has_name ? image.utf8(it.name) : it.ordinal))]);
  assert.deepEqual(found, [['KERNEL32.dll', ['Sleep', 17]], ['a.dll', ['f']]]);
  // a walk starts anew each time
  const [dll] = image.list('libraries');
  assert.equal([...image.imports(dll)].length, [...image.imports(dll)].length);
});

test('an unmapped lookup table is said, and the address table is listed in its place', () => {
  const bytes = Uint8Array.from(file('imports')), view = new DataView(bytes.buffer), whole = factsOf(library, bytes, 'a.dll');
  const record = Number(opened('imports').call('pe_c_import_libraries').next);
  view.setUint32(record + 16, view.getUint32(record, true), true);
  for (const rva of [1, 0x7FFFFFFF, 0xFFFFFFFF]) {
    view.setUint32(record, rva, true);
    const image = library.open(bytes), [first, second] = image.list('libraries');
    assert.deepEqual([image.hasUnmappedList(first), image.hasUnmappedList(second)], [true, false]);
    assert.deepEqual([...image.imports(first)], []);
    assert.deepEqual([...image.addressTable(first)].map((it) => (it.has_name ? image.utf8(it.name) : it.ordinal)), ['Sleep', 17]);
    const [said, other] = factsOf(library, bytes, 'a.dll').imports, names = (it) => it.functions.map((one) => [one.name, one.ordinal]);
    assert.deepEqual([said.lookup_table_error.name, other.lookup_table_error], ['UNMAPPED', null]);
    assert.deepEqual(names(said), names(whole.imports[0]));
  }
  view.setUint32(record + 16, 0x7000, true);
  const image = library.open(bytes), [first] = image.list('libraries');
  assert.throws(() => [...image.addressTable(first)], (it) => it instanceof PeError && it.constant === 'PE_C_UNMAPPED');
});

test('facts of a file are the same whatever was read before it, in its instance too', () => {
  const names = readdirSync(folder).filter((it) => it.endsWith('.bin')), mode = constants.PE_C_PERMISSIVE;
  const said = (of, it) => factsOf(of, readFileSync(join(folder, it)), it, { mode });
  for (const it of [...names, ...names.toReversed()]) assert.deepEqual(said(library, it), said(new Library(library.module), it), it);
});

test('names that are no text', () => {
  const bytes = Buffer.from(file('debug'));
  bytes.set([0xFF, 0xC3, 0xA4], bytes.indexOf('.rdata'));
  bytes.set([0xEF, 0xBB, 0xBF, 0xE2, 0x82], bytes.indexOf('RSDS') + 24);
  const { sections: [section], debug: { pdb } } = factsOf(library, new Uint8Array(bytes), 'a.dll');
  assert.deepEqual([section.name, section.name_hex], ['\ufffd\u00e4ata', 'ffc3a4617461']);
  assert.deepEqual([pdb.name, pdb.name_hex], ['\ufeff\ufffd', 'efbbbfe282']);
  assert.equal('name_hex' in factsOf(library, file('debug'), 'a.dll').debug.pdb, false);
});

test('a damaged version string costs neither the fixed information nor the other strings', () => {
  const bytes = Uint8Array.from(file('resources')), whole = factsOf(library, bytes, 'a.dll').version;
  const key = Buffer.from('ProductName\0', 'utf16le'), at = Buffer.from(bytes).indexOf(key);
  new DataView(bytes.buffer).setUint16(at - 4, 0x4000, true);
  const { version: said } = factsOf(library, bytes, 'a.dll');
  assert.deepEqual([said.fixed, said.fixed_error, said.strings_error.name], [whole.fixed, null, 'RESOURCE_STRING']);
  assert.deepEqual([whole.fixed.file_version, said.texts], ['3.11.3150.1013', whole.texts]);
});

test('a walk that is given is moved, and is over in the end', () => {
  const image = opened('imports'), walk = { libraries: image.call('pe_c_import_libraries') };
  assert.notEqual(image.call('pe_c_next_library', { walk }), null);
  assert.notEqual(image.call('pe_c_next_library', { walk }), null);
  assert.equal(image.call('pe_c_next_library', { walk }), null);
  assert.equal(image.call('pe_c_next_library', { walk }), null);
});

// Offsets in the images: e_lfanew is 0x40, so the COFF header is at 0x44, and the optional header at 0x58.
test('all numbers of the headers stand where winnt.h has them', () => {
  const bytes = Uint8Array.from(file('imports')), view = new DataView(bytes.buffer);
  const words = Array.from({ length: 29 }, (_, i) => 0x101 * (i + 1));
  words.forEach((it, i) => view.setUint16(2 + 2 * i, it, true));
  view.setUint32(0x48, 0x5F000000, true);
  for (const [offset, it] of [[0x5A, 14], [0x5B, 29]]) view.setUint8(offset, it);
  for (const [offset, it] of [[0x80, 10], [0x82, 1], [0x84, 7], [0x86, 8], [0x88, 6], [0x8A, 3]]) view.setUint16(offset, it, true);
  for (const [offset, it] of [[0xA0, 1n << 40n], [0xA8, 2n], [0xB0, 3n], [0xB8, 4n]]) view.setBigUint64(offset, it, true);
  const { signature, dos, coff, optional, ...rest } = library.open(bytes).headers();
  assert.deepEqual(Object.values(dos).flat(), [0x5A4D, ...words, 0x40]);
  assert.deepEqual([dos.reserved.length, dos.reserved2.length, signature], [4, 10, 0x4550]);
  assert.deepEqual([coff.machine, coff.number_of_sections, coff.time_date_stamp, coff.size_of_optional_header],
    [0x8664, 1, 0x5F000000, 0xF0]);
  assert.deepEqual([optional.magic, optional.major_linker_version, optional.minor_linker_version], [0x20B, 14, 29]);
  assert.deepEqual(['operating_system', 'image', 'subsystem'].map((it) => [optional[`major_${it}_version`],
    optional[`minor_${it}_version`]]), [[10, 1], [7, 8], [6, 3]]);
  assert.deepEqual([optional.image_base, optional.address_of_entry_point, optional.section_alignment, optional.file_alignment],
    [0x180000000n, 0x1234, 0x1000, 0x200]);
  assert.deepEqual(['stack_reserve', 'stack_commit', 'heap_reserve', 'heap_commit'].map((it) => optional[`size_of_${it}`]),
    [1n << 40n, 2n, 3n, 4n]);
  assert.deepEqual([rest.dos_stub, rest.optional_offset, rest.directories_offset], [{ offset: 0x40n, length: 0n }, 0x58n, 0xC8n]);
  assert.deepEqual([rest.directories.length, rest.directories[1].virtual_address], [16, view.getUint32(0xD0, true)]);
});

test('the first debug entry of a type, in a view that the library makes', () => {
  const image = opened('debug'), sizes = { 2: 30, 12: 20, 13: 40, 16: 8, 20: 4 };
  for (const [type, size] of Object.entries(sizes)) {
    const entry = image.debugEntry(Number(type));
    assert.deepEqual([entry.data_type, entry.size_of_data, entry.time_date_stamp], [Number(type), size, 0x5F000000]);
    assert.equal(entry.pointer_to_raw_data, entry.address_of_raw_data - 0xC00);
  }
  assert.deepEqual([17, 19, 3].map((type) => image.debugEntry(type)), [null, null, null]);
  assert.throws(() => image.call('pe_c_offset', { rva: 2, view: {} }), TypeError);
  assert.throws(() => image.call('pe_c_offset', {}), TypeError);
  // other calls before it do not write over the view
  [...image.list('debugEntries')].forEach((it) => assert.deepEqual(image.debugEntry(it.data_type), it));
});

// The images have one section, of 0x200 bytes at RVA 0x1000 and offset 0x400.
test('the section map, in a view that the library makes', () => {
  const image = opened('imports'), [section] = image.sections;
  assert.deepEqual([0x1000, 0x11FF, 0xFFF, 0x9000].map((rva) => image.call('pe_c_section_at', { rva })), [0n, 0n, null, null]);
  assert.deepEqual(image.call('pe_c_section_range', { section }), { offset: 0x400n, length: 0x200n });
  assert.deepEqual(image.call('pe_c_range_at', { rva: 0x1010 }), { offset: 0x410n, length: 0x1F0n });
  assert.equal(image.call('pe_c_range_at', { rva: 0x9000 }), null);
  assert.deepEqual([0x400n, 0x5FFn, 0x3FFn].map((offset) => image.call('pe_c_rva', { offset })), [0x1000, 0x11FF, null]);
});

test('the image as a loader lays it out, and at another base', () => {
  const bytes = Uint8Array.from(file('relocations')), view = new DataView(bytes.buffer);
  // the sizes of the image and of its headers, and base relocations of one block
  view.setUint32(0x90, 0x2010, true);
  view.setUint32(0x94, 0x200, true);
  view.setUint32(0xF4, 12, true);
  const image = library.open(bytes), room = new Uint8Array(0x2010), loaded = new DataView(room.buffer);
  assert.equal(image.call('pe_c_map', { room }), 0x2010n);
  assert.deepEqual(room.slice(0, 0x200), bytes.slice(0, 0x200));
  assert.deepEqual(room.slice(0x1000, 0x1200), bytes.slice(0x400, 0x600));
  assert.equal(image.call('pe_c_relocate', { difference: 0x10000n, room }), true);
  assert.deepEqual([0x70, 0x1008].map((at) => loaded.getBigUint64(at, true)), [0x180010000n, 0x50004000A008n]);
  assert.equal(loaded.getUint32(0x1FFF, true), 0x10000);
  assert.equal(refused(() => image.call('pe_c_map', { room: room.slice(1) })).constant, 'PE_C_ROOM');
});

/** The record of an entry, a field of what is read of it, or its result. */
function record(image, entry, field, mode = constants.PE_C_STRICT) {
  const found = image.call('pe_c_debug_record', { mode, entry }), result = found[`${field}_result`];
  return result === constants.PE_C_DONE ? found[field] : results[result];
}

test('the records of debug entries', () => {
  const image = opened('debug'), of = (type, field) => record(image, image.debugEntry(type), field), key = of(2, 'key');
  const guid = [0xF6, 0x72, 0x7B, 0x49, 0x0A, 0x39, 0xFC, 0x44, 0x87, 0x8E, 0x5A, 0x2D, 0x63, 0xB6, 0xCC, 0x4B];
  assert.deepEqual([key.guid, key.age, image.utf8(key.name)], [guid, 1, 'a.pdb\0']);
  assert.deepEqual(image.call('pe_c_symbol_key'), key);
  assert.deepEqual(Object.values(of(12, 'features')), [1, 2, 3, 4, 5]);
  assert.deepEqual([...image.items('pe_c_next_pogo_entry', of(13, 'pogo').entries)].map((it) => [image.utf8(it.name), it.rva, it.size]),
    [['.text$mn\0', 0x1000, 16], ['.bss\0', 0x2000, 8]]);
  assert.equal(image.utf8(of(16, 'repro').hash), 'hash');
  assert.equal(of(20, 'characteristics'), 0x41);
  assert.deepEqual([of(2, 'pdb20'), of(2, 'pogo')], ['PE_C_NOTHING', 'PE_C_NOTHING']);
  const old = opened('old_debug'), pdb = record(old, old.debugEntry(2), 'pdb20');
  assert.deepEqual([pdb.signature, pdb.age, old.utf8(pdb.name)], [0x3333, 7, 'b.pdb\0\0\0']);
  const managed = opened('managed_debug'), { embedded, checksum } = managed.call('pe_c_debug_data');
  assert.deepEqual([embedded.uncompressed_size, managed.utf8(embedded.compressed)], [600, 'zippe']);
  assert.deepEqual([managed.utf8(checksum.algorithm), [...managed.slice(checksum.checksum)]], ['SHA256', [0xAA, 0, 0xBB]]);
});

test('the mode of a call for a debug entry', () => {
  const image = opened('debug'), entry = image.debugEntry(2), short = { ...entry, size_of_data: 23 };
  assert.equal(record(image, short, 'key'), 'PE_C_DEBUG_SIZE');
  assert.equal(record(image, short, 'key', constants.PE_C_PERMISSIVE), 'PE_C_NOTHING');
  assert.equal(record(image, { ...entry, data_type: 17 }, 'embedded'), 'PE_C_BAD_MAGIC');
});

test('parameters that are missing or unknown', () => {
  const image = opened('functions'), table = image.call('pe_c_function_table');
  assert.deepEqual([0x8664, 0xAA64].map((machine) => image.call('pe_c_exception_table', { machine })), [table, null]);
  assert.throws(() => image.call('pe_c_find_function', { table }), TypeError);
  assert.throws(() => image.call('pe_c_find_function', { table, rva: 1, rvo: 1 }), TypeError);
  assert.throws(() => image.call('pe_c_nothing'), TypeError);
  assert.throws(() => image.call('pe_c_image', {}), TypeError);
  // a call that needs more than there is
  const bytes = library.file(file('functions'));
  assert.throws(() => bytes.call('pe_c_function_table'), /needs view/);
  assert.throws(() => library.call('pe_c_coff'), /needs bytes/);
  assert.throws(() => image.call('pe_c_next_frame', { walk: {} }), /needs modules/);
  assert.throws(() => image.call('pe_c_next_library', {}), /needs walk/);
  // What is no array has no room, and takes none of that of others.
  for (const room of [new Set([1]), {}, { length: 1.5 }, 'a', 5]) {
    assert.throws(() => image.call('pe_c_list_functions', { table, next: 0n, entries: room }), (it) => it instanceof TypeError && it.message.includes('entries is an array, and not'));
  }
  assert.equal(image.call('pe_c_list_functions', { table, next: 0n, entries: [{}] }).written, 1n);
  // Nor does one of more items than its field has, whatever lists them.
  const key = { guid: new Set(Array(17).keys()), age: 1 };
  assert.throws(() => image.call('pe_c_is_pdb_of', { key, pdb: {} }), (it) => it instanceof RangeError && it.message.includes('guid has room for 16'));
});

test('numbers that do not fit are no other numbers', () => {
  const image = opened('functions'), table = image.call('pe_c_function_table');
  for (const rva of [2 ** 32, -1, 1.5, 'x', '', '4096', null, [], [5]]) assert.throws(() => image.call('pe_c_offset', { rva }), RangeError);
  // A number above 2^53, as an address of the kernel, is rounded: 0xFFFFF80012345679 is 0xFFFFF80012345800 here.
  for (const index of [1n << 64n, -1, 0xFFFFF80012345679, 2 ** 53]) assert.throws(() => image.call('pe_c_function_at', { table, index }), RangeError);
  assert.throws(() => image.call('pe_c_next_code', { walk: { version: 256 } }), RangeError);
  assert.throws(() => image.call('pe_c_function_at', { table: { offset: -1 }, index: 0 }), RangeError);
});

test('a walk is over after an error', () => {
  const bytes = Uint8Array.from(file('relocations')), view = new DataView(bytes.buffer);
  // the size of the first block, at the start of the base relocations
  view.setUint32(view.getUint32(0xC8 + 8 * 5, true) - 0xC00 + 4, 7, true);
  const image = library.open(bytes), walk = image.call('pe_c_relocation_blocks');
  assert.deepEqual(image.call('pe_c_directory_table', { index: constants.PE_C_DIRECTORY_BASERELOC }), walk);
  assert.equal(refused(() => image.call('pe_c_next_relocation_block', { walk })).constant, 'PE_C_DIRECTORY_BLOCK_SIZE');
  assert.equal(image.call('pe_c_next_relocation_block', { walk }), null);
});

test('certificates are attached, listed and detached', () => {
  const image = opened('debug'), certificate = Uint8Array.of(16, 0, 0, 0, 0, 2, 2, 0, 1, 2, 3, 4, 5, 6, 7, 8);
  const needed = (call, given) => {
    const { constant, written } = refused(() => image.call(call, given));
    assert.equal(constant, 'PE_C_ROOM');
    return written;
  };
  const length = needed('pe_c_attach', { certificate, placement: constants.PE_C_AFTER });
  assert.equal(needed('pe_c_attach', { certificate, placement: 0, room: new Uint8Array(9) }), length);
  const room = new Uint8Array(Number(length));
  assert.equal(image.call('pe_c_attach', { certificate, placement: constants.PE_C_AFTER, room }), length);
  const attached = library.open(room), listed = [...attached.certificates()];
  assert.deepEqual(listed.map((it) => [it.length, it.type, [...attached.slice(it.body)]]), [[16, 2, [1, 2, 3, 4, 5, 6, 7, 8]]]);
  const bare = attached.detach();
  const { value, offset } = image.call('pe_c_checksum'), whole = Uint8Array.from(file('debug'));
  new DataView(whole.buffer).setUint32(Number(offset), value, true);
  assert.deepEqual(bare, whole);
  assert.equal(image.call('pe_c_digest_ranges').ranges.length, 4);
});

test('an image as loaded has no certificates and no symbols', () => {
  const mode = constants.PE_C_PERMISSIVE + constants.PE_C_MAPPED, bytes = file('signature'), said = factsOf(library, bytes, 'a.dll', { mode });
  assert.deepEqual([opened('signature').signatures().length, opened('signature', mode).signatures().length], [1, 0]);
  assert.deepEqual([said.certificates, said.certificates_error, said.hardening.signed], [null, null, false]);
  assert.equal(factsOf(library, bytes, 'a.dll').hardening.signed, true);
  assert.deepEqual([opened('long_section_name').symbols() === null, opened('long_section_name', mode).symbols()], [false, null]);
});

test('sections are written', () => {
  const bytes = file('debug'), image = library.open(bytes), room = Uint8Array.from(bytes).fill(0, 0, 0x200);
  const { sections_offset: next, number_of_sections: count } = image.info, end = Number(next) + 40 * count;
  assert.equal(image.call('pe_c_write_sections', { unit: 0, room, next }), BigInt(end));
  const wanted = Uint8Array.from(bytes);
  wanted.fill(0, 0, Number(next)).fill(0, end, 0x200);
  assert.deepEqual(room, wanted);
  const short = { unit: 0, room: room.subarray(0, end - 1), next };
  assert.equal(refused(() => image.call('pe_c_write_sections', short)).constant, 'PE_C_WRITE_FIT');
});

test('images are written', () => {
  const bytes = file('debug'), image = library.open(bytes);
  const needed = (call) => refused(() => image.call(call)).written, length = needed('pe_c_write_whole');
  const room = new Uint8Array(Number(length));
  assert.equal(image.call('pe_c_write_whole', { room }), length);
  assert.deepEqual(room, Uint8Array.from(bytes));
  const part = new Uint8Array(Number(needed('pe_c_write_image')));
  image.call('pe_c_write_image', { room: part });
  const { sections_offset: offset, number_of_sections: count } = image.info, headers = Number(offset) + 40 * count;
  assert.deepEqual(part.subarray(0, headers), room.subarray(0, headers));
  assert.ok(part.subarray(headers, 0x200).every((it) => it === 0));
  assert.equal(refused(() => image.call('pe_c_write_whole', { room: room.subarray(1) })).constant, 'PE_C_ROOM');
  assert.equal(image.call('pe_c_write_certificates', { room: part }), 0n);
});

// What `openssl asn1parse`, `openssl x509` and `osslsigncode verify` print of it, as tests/signatures.rs of the cargo crate has it.
test('by whom a signature is', () => {
  const { certificates: [{ signer }] } = factsOf(library, file('signature'), 'signature.bin');
  assert.deepEqual(signer, {
    subject: 'CN=A,OU=Two+O=Probe,C=DE', issuer: 'CN=R', serial_hex: '0403', digest_algorithm: 'SHA-256', time_stamp: '2023-11-14T22:13:20Z',
  });
  // An algorithm that the library knows no name of, wherever it stands.
  const bytes = Buffer.from(file('signature')), sha256 = Buffer.from([6, 9, 0x60, 0x86, 0x48, 1, 0x65, 3, 4, 2, 1]);
  for (let at = bytes.indexOf(sha256); at >= 0; at = bytes.indexOf(sha256)) bytes[at + 10] = 0x7F;
  const [{ signer: other }] = factsOf(library, new Uint8Array(bytes), 'a.dll').certificates;
  assert.equal(other.digest_algorithm, '2.16.840.1.101.3.4.2.127');
});

// The rows of a signature, attached and detached again, as the calls above have them.
test('files with and without a certificate', () => {
  const image = opened('debug'), certificate = Uint8Array.of(16, 0, 0, 0, 0, 2, 2, 0, 1, 2, 3, 4, 5, 6, 7, 8);
  const attached = library.open(image.attach(certificate)), bodies = (it) => [...it.certificates()].map((one) => one.body.length);
  assert.deepEqual(bodies(attached), [8n]);
  assert.deepEqual(bodies(library.open(attached.attach(certificate))), [8n, 8n]);
  assert.deepEqual(bodies(library.open(attached.attach(certificate, { placement: constants.PE_C_IN_PLACE }))), [8n]);
  assert.deepEqual(attached.detach(), image.detach());
  assert.equal(refused(() => image.attach(certificate.slice(0, 7))).constant, 'PE_C_SHORT');
});

const words32 = (words) => new Uint8Array(Uint32Array.from(words, (it) => it >>> 0).buffer);
const words64 = (words) => new Uint8Array(BigUint64Array.from(words, BigInt).buffer);

/** An image of x64 with one section, at RVA 0x1000 and offset 0x400, with these bytes and directories. */
function madeImage(content, directories) {
  const size = Math.ceil(content.length / 0x200) * 0x200, bytes = new Uint8Array(0x400 + size), view = new DataView(bytes.buffer);
  bytes.set(file('functions').subarray(0, 0x400));
  bytes.set(content, 0x400);
  bytes.fill(0, 0xC8, 0x148);
  directories.forEach((it) => bytes.set(words32(it.slice(1)), 0xC8 + 8 * it[0]));
  for (const at of [0x150, 0x158]) view.setUint32(at, size, true);
  return bytes;
}

/** An image whose resources, a manifest in the language 0x407, have a section of 0x400 bytes. */
function editable() {
  const content = new Uint8Array(0x400), directory = 0x80000000;
  content.set(words32([0, 0, 0, 1 << 16, 24, directory | 24, 0, 0, 0, 1 << 16, 1, directory | 48, 0, 0, 0, 1 << 16, 0x407, 72,
    0x1000 + 88, 6, 0, 0]));
  content.set(new TextEncoder().encode('<old/>'), 88);
  const bytes = madeImage(content, [[2, 0x1000, 94]]);
  bytes.fill(0, 0x68, 0x6C);
  bytes.set(words32([0x2000]), 0x90);
  return bytes;
}

test('resources are changed, and read back', () => {
  const bytes = editable(), image = library.open(bytes), ascii = (text) => new TextEncoder().encode(text);
  const [manifest, ...others] = image.resources();
  assert.deepEqual(manifest, { type: 24, name: 1, language: 0x407, codePage: 0, content: ascii('<old/>') });
  assert.deepEqual(others, []);
  const wanted = [
    { type: 'B\uD800', name: 1, language: 0, codePage: 1252, content: ascii('x') },
    { type: 10, name: 'Z', language: 0x409, codePage: 0, content: Uint8Array.of(1, 2) },
    { type: 10, name: 7, language: 0x409, codePage: 0, content: new Uint8Array(0) },
    { type: 24, name: 1, language: 0x407, codePage: 0, content: ascii('<new/>') },
    { type: 24, name: 1, language: 0x40C, codePage: 0, content: ascii('<fr/>') },
  ];
  const given = [4, 2, 0, 3, 1].map((it) => wanted[it]), kept = [...given], written = image.edit(given);
  assert.deepEqual(given, kept);
  assert.deepEqual(library.open(written).resources(), wanted);
  assert.equal(written.length, bytes.length);
  assert.deepEqual(library.open(written).edit(wanted), written);
  // what is refused, by the library and here
  const constant = (resources) => refused(() => image.edit(resources)).constant;
  assert.equal(constant([wanted[1], wanted[1]]), 'PE_C_EDIT_ORDER');
  assert.equal(constant([{ ...manifest, language: 0x10000 }]), 'PE_C_EDIT_RECORD');
  // what does not fit into the section goes to the end of the image
  const larger = image.edit([{ ...manifest, content: new Uint8Array(0x400) }]);
  assert.equal(larger.length, 0xA00);
  assert.equal(library.open(larger).resources()[0].content.length, 0x400);
  for (const name of [1.5, undefined, 2 ** 32]) assert.throws(() => image.edit([{ ...manifest, name }]), RangeError);
  assert.equal(refused(() => opened('certificates').edit([])).constant, 'PE_C_EDIT_SIGNED');
});

test('resources that cannot be written are refused as they are read', () => {
  const refusal = (offset, ...words) => {
    const bytes = editable();
    // the size of the directory
    bytes.set(words32([0x200]), 0xDC);
    bytes.set(words32(words), 0x400 + offset);
    return refused(() => library.open(bytes).resources()).constant;
  };
  assert.equal(refusal(64, 0x80000000), 'PE_C_EDIT_RECORD');
  assert.equal(refusal(72, 0x9000), 'PE_C_UNMAPPED');
  // one content of 0x400 bytes in three languages, of a file of 0x800
  assert.equal(refusal(60, 3 << 16, 0x407, 88, 0x409, 88, 0x40C, 88, 0x1000, 0x400, 0, 0), 'PE_C_EDIT_CONTENTS');
});

test('version information is written, block by block', () => {
  const text = Uint8Array.of(16, 0, 2, 0, 1, 0, 97, 0, 0, 0, 0, 0, 98, 0, 0, 0), binary = Uint8Array.of(15, 0, 3, 0, 0, 0, 97, 0, 0, 0, 0, 0, 7, 8, 9, 0);
  assert.deepEqual(library.versionBlock({ key: 'a', text: 'b' }), text);
  assert.deepEqual(library.versionBlock({ key: 'a', value: Uint8Array.of(7, 8, 9) }), binary);
  assert.equal(refused(() => library.versionBlock({ key: 'a\0' })).constant, 'PE_C_BLOCK_KEY');
  assert.equal(refused(() => library.versionBlock({ key: 'a', text: 'b\0c' })).constant, 'PE_C_BLOCK_TEXT');
  assert.throws(() => library.versionInfo({ fileVersion: [1, 65536, 0, 0] }), RangeError);
  assert.throws(() => library.versionInfo({ language: -1 }), RangeError);
  assert.equal(refused(() => library.versionBlock({ key: 'a', text: 'b'.repeat(40000) })).constant, 'PE_C_BLOCK_TOO_LONG');
  const parts = { fileVersion: [1, 2, 3, 65535], language: 0x409, strings: { CompanyName: 'Example', Größe: '名' } };
  const [manifest] = library.open(editable()).resources(), content = library.versionInfo(parts);
  const image = library.open(library.open(editable()).edit([{ type: 16, name: 1, language: 0x409, content }, manifest]));
  const fixed = image.call('pe_c_fixed_version');
  assert.deepEqual([fixed.signature, fixed.file_version_ms, fixed.file_version_ls, fixed.product_version_ls],
    [0xFEEF04BD, 0x10002, 0x3FFFF, 0x3FFFF]);
  assert.equal(image.utf16(image.call('pe_c_version_text', { name: constants.PE_C_COMPANY_NAME })), 'Example');
  const [all] = image.list('versionBlocks'), inner = (block) => [...image.items('pe_c_next_version_block', block.children)];
  const [strings, others] = inner(all), [table] = inner(strings), [pair] = inner(others);
  assert.deepEqual([table.language, table.code_page, ...image.slice(pair.value)], [0x409, 1200, 9, 4, 0xB0, 4]);
  assert.deepEqual(inner(table).map((it) => [image.utf16(it.key), image.utf16(it.value)]), Object.entries(parts.strings));
});

// A function at 0x5000, push rbp; lea rbp,[rsp+32]; sub rsp,32, which was called at the end of the part at 0x5010. That saved rbx
// at rbp+40, and is chained to the first. Its return address is 0.
const BASE = 0x180000000n, ENTRY = 0x20008n, OUTER = ENTRY + 40n;
const frameRegisters = () => ({ rip: BASE + 0x500Cn, general: [0n, 0n, 0n, 0n, ENTRY - 40n, ENTRY + 24n] });
const stackBytes = () => words64([OUTER + 24n, BASE + 0x5020n, 1, 2, 3, 0x55, 0, 4, 5, 6, 7, 8, 9, 10, 0xBB]);

function imageOfCalls() {
  const content = new Uint8Array(0x4020);
  content.set(file('functions').subarray(0x400));
  content[0x401B] = 0xE8;
  return madeImage(content, [[3, 0x1000, 48]]);
}

/** The frames of a walk: rip, rsp, way; and the walk as it is in the end. */
function walked(memory, remaining = 100) {
  const process = library.process({ modules: [{ bytes: imageOfCalls(), base: BASE }], memory,
    pieces: [{ start: ENTRY - 8n, offset: 0, length: memory.length }] });
  const walk = { registers: frameRegisters(), remaining }, frames = [...process.frames(walk)];
  assert.equal(process.call('pe_c_next_frame', { walk }), null);
  // One piece of memory ascends: it was tested in the first call alone.
  assert.equal(walk.is_searched, 1);
  return [frames.map((it) => [it.registers.rip, it.registers.general[4], it.way, it.has_called]), walk];
}

test('a stack walk comes to its end, and says which', () => {
  const both = [[BASE + 0x500Cn, ENTRY - 40n, constants.PE_C_WAY_TOP, 0], [BASE + 0x5020n, ENTRY + 8n, constants.PE_C_WAY_RECORDS, 1]];
  const [frames, walk] = walked(stackBytes());
  assert.deepEqual([frames, walk.end, walk.has_returned], [both, constants.PE_C_END_BOTTOM, 1]);
  assert.deepEqual(walked(stackBytes(), 1).map((it) => it.end ?? it), [both.slice(0, 1), constants.PE_C_END_BOUND]);
  const [some, lost] = walked(stackBytes().subarray(0, 48));
  assert.deepEqual([some, lost.end, results[lost.error], lost.address], [both, constants.PE_C_END_STEP, 'PE_C_MISSING', OUTER + 64n]);
  const several = library.process({ memory: stackBytes(), pieces: [{ start: ENTRY - 8n, offset: 0n, length: 120n }],
    modules: [{ bytes: file('imports'), base: 0x10000 }, { bytes: imageOfCalls(), base: BASE, mode: constants.PE_C_PERMISSIVE }] });
  assert.equal([...several.frames({ registers: frameRegisters(), remaining: 9n })].length, 2);
  assert.deepEqual(several.images.map((it) => it.sections.length), [1, 1]);
  const outside = { modules: [], memory: new Uint8Array(8), pieces: [{ start: 0, offset: 1, length: 8 }] };
  assert.equal(refused(() => [...library.process(outside).frames({ registers: {}, remaining: 1 })]).constant, 'PE_C_SHORT');
  assert.equal(refused(() => library.process({ ...outside, modules: [{ bytes: new Uint8Array(9), base: 0n }] })).constant, 'PE_C_SHORT');
});

test('of a damaged function table the whole entries serve, and the process says so', () => {
  const bytes = imageOfCalls(), image = library.open(bytes), size = image.headers().directories_offset + 8n * 3n + 4n;
  const parts = { memory: stackBytes(), pieces: [{ start: ENTRY - 8n, offset: 0, length: stackBytes().length }] };
  const rips = (process) => [...process.frames({ registers: frameRegisters(), remaining: 9n })].map((it) => it.registers.rip);
  const whole = library.process({ ...parts, modules: [{ bytes, base: BASE }] });
  new DataView(bytes.buffer).setUint32(Number(size), 47, true);
  for (const it of [{ bytes }, { base: BASE }, { size: null, base: BASE }, { size: 2 ** 32, base: BASE }]) {
    assert.throws(() => library.process({ ...parts, modules: [it] }), RangeError);
  }
  const damaged = library.process({ ...parts, modules: [{ bytes, base: BASE }, { size: 0x1000, base: 0x70000000n }] });
  assert.deepEqual([whole.damaged, damaged.damaged[1], damaged.images[1]], [[null], null, null]);
  assert.equal(damaged.damaged[0].call, 'pe_c_function_table');
  // The last of four entries is not whole; the frames are of the others.
  assert.deepEqual(rips(damaged), rips(whole));
  assert.ok(refused(() => library.open(bytes).functionTable()));
});

test('a step returns the registers of the caller', () => {
  const image = opened('functions'), table = image.call('pe_c_function_table'), stack = stackBytes();
  const found = image.call('pe_c_find_function', { table, rva: 0x500C });
  const frame = { registers: frameRegisters(), function: found, rva: 0x500C };
  const pieces = [{ start: ENTRY - 8n, offset: 0n, length: BigInt(stack.length) }];
  assert.equal(image.call('pe_c_step', { table, memory: stack, pieces, frame }), true);
  const { rip, general } = frame.registers;
  assert.deepEqual([rip, general[4], general[5]], [BASE + 0x5020n, ENTRY + 8n, OUTER + 24n]);
});

test('objects, their sections and their symbols', () => {
  const bytes = readFileSync(join(folder, 'object.obj')), object = library.openObject(bytes), symbols = object.symbols();
  assert.deepEqual([object.header.machine, object.sections.map((it) => object.sectionName(it))], [0x8664, ['.text', '.data', '.bss']]);
  assert.deepEqual([...symbols].map((it) => [it.index, symbols.name(it), it.section_number, it.value]), [[0n, '.file', -2, 0],
    [2n, 'longer_than_eight', 1, 1], [4n, '.text', 1, 0], [6n, '.data', 2, 0], [8n, '.bss', 3, 0], [10n, 'five', -1, 5],
    [11n, 'outside', 0, 0]]);
  assert.deepEqual([symbols.strings(), symbols.table], [{ offset: 0x17En, length: 22n }, { offset: 0xA6n, length: 216n }]);
  const walk = { symbols: { table: symbols.table, next: 0n }, strings: symbols.strings() };
  const named = listed(object, 'pe_c_list_symbols', { walk, runs: [{}] });
  assert.deepEqual(named.map((it) => [it.symbol.index, object.utf8(it.name), it.name_result]),
    [...symbols].map((it) => [it.index, symbols.name(it), 0]));
  assert.equal(object.utf8(symbols.at(0).auxiliary).replaceAll('\0', ''), 'b.s');
  assert.equal(symbols.at(12), null);
  const constant = (length, read) => refused(() => read(library.openObject(bytes.subarray(0, length)).symbols())).constant;
  assert.deepEqual([19, 139, 0x17D].map((it) => constant(it, () => null)), ['PE_C_SHORT', 'PE_C_SHORT', 'PE_C_SHORT']);
  assert.equal(constant(0x193, (it) => it.name(it.at(2))), 'PE_C_STRING_TABLE');
  assert.equal(constant(0x17E, (it) => it.name(it.at(2))), 'PE_C_STRING_TABLE');
  const short = library.openObject(bytes.subarray(0, 0x193)).symbols();
  assert.equal(short.name(short.at(10)), 'five');
  assert.equal(library.openObject(new Uint8Array(20)).symbols(), null);
});

test('symbols of images', () => {
  const bytes = Uint8Array.from(file('long_section_name'));
  bytes.set([0, 0, 0, 0, 0x10, 0, 0, 0, 0x34, 0x12, 0, 0, 1, 0, 0x20, 0, 2, 0], 0x600);
  const symbols = library.open(bytes).symbols(), [symbol] = symbols;
  assert.deepEqual([symbols.name(symbol), symbol.value, symbol.type], ['.debug_line', 0x1234, 0x20]);
  assert.equal(opened('small').symbols(), null);
  assert.equal(library.open(bytes, { mode: constants.PE_C_MAPPED }).symbols(), null);
});

test('TE images', () => {
  const bytes = readFileSync(join(folder, 'te_image.te')), te = library.openTe(bytes), [entry] = te.debugEntries();
  assert.deepEqual([te.header.machine, te.header.subsystem, te.header.rva_offset, te.header.entry_point], [0x8664, 10, 0x100, 0x1000]);
  assert.deepEqual(te.sections.map((it) => [te.sectionName(it), it.virtual_address]), [['.text', 0x1000]]);
  assert.deepEqual([entry.address_of_raw_data, te.debugEntry(2), te.debugEntry(13)], [0x70, entry, null]);
  const { key } = te.call('pe_c_debug_record', { mode: constants.PE_C_MAPPED, entry });
  assert.deepEqual([te.utf8(key.name), key.age], ['a.pdb\0', 9]);
  assert.equal(refused(() => library.openTe(bytes.subarray(0, 79))).constant, 'PE_C_SHORT');
  assert.equal(refused(() => [...library.openTe(bytes.subarray(0, 0x6B)).debugEntries()]).constant, 'PE_C_DEBUG_BOUNDS');
});

test('why headers are refused', () => {
  const { offset, needed, value, result } = library.failure(file('small').subarray(0, 70));
  assert.deepEqual([offset, needed, value, results[result]], [0x44n, 20n, 0n, 'PE_C_SHORT']);
  assert.equal(library.failure(file('small')), null);
  const te = Uint8Array.from(readFileSync(join(folder, 'te_image.te')));
  assert.equal(library.teFailure(te), null);
  te[6] = 0x27;
  te[7] = 0;
  const failure = library.teFailure(te);
  assert.deepEqual([failure.offset, failure.value, results[failure.result]], [6n, 39n, 'PE_C_TE_SIZE']);
});

test('why a directory is refused', () => {
  const index = constants.PE_C_DIRECTORY_IMPORT, bytes = Uint8Array.from(file('imports'));
  assert.equal(library.open(bytes).call('pe_c_directory_failure', { index }), null);
  new DataView(bytes.buffer).setUint32(0xC8 + 8 * index, 0x7654321, true);
  const image = library.open(bytes), found = image.call('pe_c_directory_failure', { index }), { offset, needed, value, result } = found;
  assert.deepEqual([offset, needed, value, results[result]], [0n, 0n, 0x7654321n, 'PE_C_UNMAPPED']);
  assert.deepEqual(image.call('pe_c_image_item_failure', { kind: constants.PE_C_FAILED_DIRECTORY, item: { number: index } }), found);
});

test('why section headers and debug records are refused', () => {
  const image = opened('debug'), header = image.info, mode = constants.PE_C_STRICT, kind = constants.PE_C_RECORD_SYMBOL_KEY;
  const said = ({ offset, needed, value, result }) => [offset, needed, value, results[result]];
  assert.equal(image.call('pe_c_sections_failure', { image: header }), null);
  const past = { ...header, sections_offset: 0x12345678, number_of_sections: 3 };
  assert.deepEqual(said(image.call('pe_c_sections_failure', { image: past })), [0x12345678n, 120n, 0n, 'PE_C_SHORT']);
  const entry = image.debugEntry(2);
  assert.equal(image.call('pe_c_debug_failure', { mode, entry, kind }), null);
  const short = { ...entry, size_of_data: 23 }, item = { number: mode, entry: short, record: kind };
  assert.deepEqual(said(image.call('pe_c_debug_failure', { mode, entry: short, kind })), [0n, 0n, 23n, 'PE_C_DEBUG_SIZE']);
  assert.deepEqual(said(image.call('pe_c_item_failure', { kind: constants.PE_C_FAILED_DEBUG_RECORD, item })), [0n, 0n, 23n, 'PE_C_DEBUG_SIZE']);
});

test('why steps are refused', () => {
  const image = opened('imports'), functions = opened('functions'), arm64 = opened('arm64_functions'), far = 2n ** 40n;
  const range = (offset, length) => ({ offset, length }), unwind = 0x7654320;
  const said = (of, name, given) => {
    const { offset, needed, value, result } = of.call(`pe_c_${name}_failure`, given);
    return [offset, needed, value, results[result]];
  };
  for (const [of, name, given, ...wanted] of [
    [image, 'library', { walk: { next: 0x12345678n } }, 0x12345678n, 20n, 0n, 'PE_C_SHORT'],
    [image, 'import', { walk: { left: range(far, 9n) } }, far, 9n, 0n, 'PE_C_SHORT'],
    [functions, 'unwind_record', { table: {}, unwind }, 0n, 0n, 0x7654320n, 'PE_C_UNMAPPED'],
    [arm64, 'arm64_record', { function: { unwind } }, 0n, 0n, 0x7654320n, 'PE_C_UNMAPPED'],
    [image, 'code', { walk: { left: range(0x100n, 1n), version: 1 } }, 0x100n, 2n, 0n, 'PE_C_SHORT'],
    [image, 'arm64_code', { walk: { left: range(3n, 3n) } }, 0n, 0n, 3n, 'PE_C_ARM64_STREAM'],
    [image, 'resource_leaf', { walk: { tree: range(5n, far) } }, 5n, far, 0n, 'PE_C_SHORT'],
    [image, 'certificate', { walk: range(7n, far) }, far + 7n, 0n, 0n, 'PE_C_CERTIFICATE_TABLE'],
    [image, 'relocation_block', { walk: range(8n, 7n) }, 8n, 8n, 0n, 'PE_C_SHORT'],
    [image, 'relocation', { page_rva: 0x5000, walk: range(9n, 1n) }, 9n, 2n, 0n, 'PE_C_SHORT'],
    [image, 'delay_import', { walk: range(6n, 31n) }, 6n, 32n, 0n, 'PE_C_SHORT'],
    [image, 'delayed_function', { walk: { left: range(6n, 3n), attributes: 1 } }, 6n, 8n, 0n, 'PE_C_SHORT'],
    [image, 'bound_import', { table: range(0n, 4n), walk: range(6n, 7n) }, 6n, 8n, 0n, 'PE_C_SHORT'],
    [image, 'symbol_name', { table: range(2n, far), strings: {}, index: 0n }, 2n, far, 0n, 'PE_C_SHORT'],
    [image, 'sections', { image: { number_of_sections: 0xFFFF, sections_offset: 21n } }, 21n, 2621400n, 0n, 'PE_C_SHORT'],
  ])
    assert.deepEqual(said(of, name, given), wanted, name);
  assert.equal(image.call('pe_c_library_failure', { walk: { is_over: 1 } }), null);
});

test('the caller of a leaf function, by its return address', () => {
  const image = opened('functions'), memory = new Uint8Array(32), view = new DataView(memory.buffer), table = {};
  view.setBigUint64(8, 0x1122334455667788n, true);
  const registers = { general: Array.from({ length: 16 }, (_, i) => (i === 4 ? 0x1008n : 0n)) };
  const frame = { registers, leaf: 1 }, pieces = [{ start: 0x1000n, offset: 0n, length: 32n }];
  image.call('pe_c_step', { table, memory, pieces, frame });
  assert.deepEqual([frame.registers.rip, frame.registers.general[4]], [0x1122334455667788n, 0x1010n]);
  registers.general[4] = 0x5000n;
  const outside = { registers, leaf: 1 };
  assert.equal(refused(() => image.call('pe_c_step', { table, memory, pieces, frame: outside })).constant, 'PE_C_MISSING');
  assert.equal(outside.address, 0x5000n);
  const arm64 = { registers: { general: Array.from({ length: 31 }, (_, i) => BigInt(i)) }, leaf: 1 };
  image.call('pe_c_step_arm64', { memory, pieces, frame: arm64 });
  assert.equal(arm64.registers.pc, 30n);
});

test('functions, records, codes and steps of x64', () => {
  const image = opened('functions'), table = image.call('pe_c_function_table'), stack = new Uint8Array(4096);
  const all = [...image.functions()];
  assert.equal(all.length, Number(table.length / 12n));
  for (const found of all) {
    attempt(() => {
      for (const record of image.records(found)) recordOf(image, record);
    });
    attempt(() => image.call('pe_c_unwind_record', { table, unwind: found.unwind }));
    image.call('pe_c_find_function', { table, rva: found.begin });
    const general = new Array(16).fill(0x1100n);
    const frame = { registers: { general }, function: found, rva: found.begin };
    const pieces = [{ start: 0x1000n, offset: 0n, length: 4096n }];
    attempt(() => image.call('pe_c_step', { table, memory: stack, pieces, frame }));
  }
});

function recordOf(image, record) {
  attempt(() => [...image.codes(record)]);
  const scopes = attempt(() => image.call('pe_c_scope_table', { handler_data: record.handler_data }));
  if (scopes) attempt(() => [...image.items('pe_c_next_scope', scopes)]);
}

/** What an action returns, or null where the library refuses. */
function attempt(run) {
  try {
    return run();
  } catch (error) {
    assert(error instanceof PeError, String(error));
    return null;
  }
}

test('functions, records, codes and steps of ARM64', () => {
  const image = opened('arm64_functions'), table = image.call('pe_c_arm64_table'), stack = new Uint8Array(4096);
  for (const found of image.functions()) {
    image.call('pe_c_find_arm64_function', { table, rva: found.begin });
    image.call('pe_c_arm64_packed_fields', { function: found });
    const record = attempt(() => image.call('pe_c_arm64_unwind_record', { function: found }));
    if (record) {
      attempt(() => [...image.items('pe_c_next_arm64_scope', record.scopes)]);
      const walk = image.call('pe_c_arm64_codes', { codes: record.codes, start: 0 });
      attempt(() => [...image.items('pe_c_next_arm64_code', walk)]);
    }
    const registers = { general: new Array(31).fill(0x1100n), sp: 0x1100n };
    const frame = { registers, function: found, rva: found.begin };
    const pieces = [{ start: 0x1000n, offset: 0n, length: 4096n }];
    attempt(() => image.call('pe_c_step_arm64', { memory: stack, pieces, frame }));
  }
});

const LISTS = ['debugEntries', 'exports', 'libraries', 'delayImports', 'versionBlocks', 'resourceLeaves', 'relocationBlocks'];

test('each list of each image ends', () => {
  for (const name of readdirSync(folder).filter((it) => it.endsWith('.bin'))) {
    const image = attempt(() => opened(name.replace('.bin', '')));
    if (!image) continue;
    for (const list of LISTS) {
      attempt(() => {
        for (const item of image.list(list)) follow(image, list, item);
      });
    }
    attempt(() => [...image.exportAddresses()]);
    attempt(() => [...image.boundImports()]);
    attempt(() => [...image.richEntries()]);
    attempt(() => [...image.tlsCallbacks()]);
    attempt(() => [...image.metadataStreams()]);
    attempt(() => others(image));
  }
});

test('an export by its name has the text of its forwarder', () => {
  // the name `second` leads to the last entry of the address table
  const bytes = Uint8Array.from(file('exports'));
  bytes[Number(opened('exports').call('pe_c_export_tables').ordinals.offset) + 2] = 3;
  const image = library.open(bytes), found = [...image.list('exports')];
  assert.deepEqual(found.map((it) => [image.utf8(it.name), image.utf8(it.forwarder), it.is_forwarder]),
    [['first', '', 0], ['second', 'NTDLL.RtlFree', 1]]);
  const { entries } = factsOf(library, bytes, 'a.dll').exports;
  assert.deepEqual(entries.map((it) => [it.ordinal, it.names.map(String), it.forwarder && String(it.forwarder)]),
    [[5, [], null], [6, ['first'], null], [8, ['second'], 'NTDLL.RtlFree']]);
});

test('facts pay for forwarders that have no text', () => {
  // 4,096 forwarders, each read over the same 1 MiB without a zero: the budget is 16 times the file
  const count = 4096, text = 40 + 4 * count, content = new Uint8Array(text + (1 << 20)).fill(0xff, text);
  content.set(words32([0, 0, 0, 0, 1, count, 0, 0x1000 + 40, 0, 0]), 0);
  content.set(words32(Array.from({ length: count }, (_, i) => 0x1000 + text + i)), 40);
  const found = factsOf(library, madeImage(content, [[0, 0x1000, content.length]]), 'a.dll').exports;
  assert.deepEqual([found.entries.length, found.is_limited], [16, true]);
});

test('names of one export cost what they are', () => {
  const count = 100_000, names = 44, ordinals = names + 4 * count, text = ordinals + 2 * count, content = new Uint8Array(text + 2);
  content.set(words32([0, 0, 0, 0, 1, 1, count, 0x1000 + 40, 0x1000 + names, 0x1000 + ordinals, 0x9000]), 0);
  content.set(words32(Array(count).fill(0x1000 + text)), names);
  content[text] = 0x61;
  const bytes = madeImage(content, [[0, 0x1000, 40]]), started = performance.now(), found = factsOf(library, bytes, 'a.dll').exports;
  assert.deepEqual([found.entries.length, found.entries[0].names.length, found.is_limited], [1, count, false]);
  const exports = library.open(bytes).exports();
  assert.deepEqual([exports.length, exports.namesLeftOut], [count, 0]);
  // Without a name the export stands among those that have none.
  content[text] = 0xFF;
  const without = library.open(madeImage(content, [[0, 0x1000, 40]])).exports();
  assert.deepEqual([[...without], without.namesLeftOut], [[{ name: null, ordinal: 1, rva: 0x9000, forwarder: null }], count]);
  assert.ok(performance.now() - started < 5_000);
});

test('directories have fields of their own', () => {
  const exported = opened('exports'), table = exported.call('pe_c_export_addresses');
  const fields = exported.call('pe_c_export_directory');
  const tables = exported.call('pe_c_export_tables'), [named] = exported.list('exports');
  assert.deepEqual([tables.directory, named.is_forwarder], [table.directory, 0]);
  const exports = { ...tables, directory: { ...tables.directory, virtual_address: named.rva, size: 1 } };
  const [forwarder] = exported.items('pe_c_next_export', { exports });
  assert.deepEqual([forwarder.is_forwarder, forwarder.forwarder], [1, { offset: 0n, length: 0n }]);
  assert.deepEqual([fields.base, BigInt(fields.number_of_functions)], [table.ordinal_base, table.addresses.length / 4n]);
  assert.equal(exported.call('pe_c_offset', { rva: fields.name }), table.name.offset);
  const image = opened('resources'), { tree } = image.call('pe_c_resource_leaves');
  const first = image.call('pe_c_resource_root');
  assert.deepEqual(image.call('pe_c_resource_directory_at', { tree, offset: 0 }), first);
  const { entries, ...root } = first;
  const items = [];
  for (let item; (item = image.call('pe_c_next_resource_item', { tree, walk: entries }));) items.push(item);
  assert.equal(items.length, root.number_of_named_entries + root.number_of_id_entries);
  const types = [...image.list('resourceLeaves')].map((it) => it.resource_type.id);
  assert.deepEqual(items.map((it) => it.name.id), [...new Set(types)]);
  assert.equal(refused(() => image.call('pe_c_resource_directory_at', { tree, offset: 0xffffffff })).constant, 'PE_C_SHORT');
});

function follow(image, list, item) {
  if (list === 'debugEntries') {
    const record = { offset: item.pointer_to_raw_data, length: item.size_of_data };
    attempt(() => image.call('pe_c_codeview', { record }));
  } else if (list === 'libraries') [...image.imports(item)];
  else if (list === 'delayImports') [...image.delayedFunctions(item)];
  else if (list === 'relocationBlocks') [...image.relocations(item)];
  else if (list === 'resourceLeaves' && item.resource_type.id === 16) {
    image.call('pe_c_fixed_version_in', { content: item.content });
    for (let name = 0; name < 12; name++) image.call('pe_c_version_text_in', { content: item.content, name });
  }
}

function others(image) {
  for (const name of ['overlay', 'symbol_key', 'fixed_version', 'manifest', 'load_config']) attempt(() => image.call(`pe_c_${name}`));
  const { pogo, pogo_result: result } = image.call('pe_c_debug_data');
  if (result === constants.PE_C_DONE) [...image.items('pe_c_next_pogo_entry', pogo.entries)];
  for (let name = 0; name < 12; name++) attempt(() => image.call('pe_c_version_text', { name }));
  const table = attempt(() => image.call('pe_c_string_table'));
  if (table) for (const section of image.sections) attempt(() => image.call('pe_c_long_section_name', { table, section }));
}

// ---- lists in one call

/** All items of a walk by a call that fills two entries at a time. */
function listed(image, call, given) {
  const found = [], entries = [{}, {}];
  for (;;) {
    const made = image.call(call, { ...given, entries }), written = Number(made.written ?? made);
    if (made.next !== undefined) given.next = made.next;
    if (written === 0) return found;
    found.push(...entries.slice(0, written));
  }
}

test('a list in one call has what its walk has, and starts where that is', () => {
  for (const [name, call, start, place] of [['exports', 'exports', 'export_tables', 'exports'],
    ['imports', 'libraries', 'import_libraries', 'libraries'], ['resources', 'resource_leaves', 'resource_leaves', 'leaves'],
    ['resources', 'version_blocks', 'version_blocks'], ['relocations', 'relocation_blocks', 'relocation_blocks'],
    ['delay_imports', 'delay_imports', 'delay_imports', 'entries']]) {
    const image = opened(name), at = image.call(`pe_c_${start}`), walk = place ? { [place]: at } : at;
    const list = call.replace(/_(\w)/, (_, it) => it.toUpperCase());
    const all = [...image.list(list)], found = listed(image, `pe_c_list_${call}`, { walk });
    assert.deepEqual([found, found.length > 0], [all, true], call);
    assert.equal(refused(() => image.call(`pe_c_list_${call}`, { walk, entries: [] })).constant, 'PE_C_ROOM');
  }
  const image = opened('imports'), [dll] = image.list('libraries');
  const delayed = opened('delay_imports'), [late] = delayed.list('delayImports');
  const read = (call, walk, runs = [{}, {}]) => listed(delayed, `pe_c_list_${call}`, { walk, runs });
  for (const runs of [[], [{}, {}]]) {
    assert.deepEqual(listed(image, 'pe_c_list_imports', { walk: { imports: structuredClone(dll.imports) }, runs }), [...image.imports(dll)]);
    assert.deepEqual(read('delayed_functions', { functions: structuredClone(late.functions) }, runs), [...delayed.delayedFunctions(late)]);
  }
  assert.deepEqual(read('delay_imports', { entries: delayed.call('pe_c_delay_imports') }), [...delayed.list('delayImports')]);
  const later = read('all_delayed_functions', { libraries: delayed.call('pe_c_delay_imports') });
  assert.deepEqual(later.map((it) => [delayed.utf8(it.library_name), it.library, it.function.has_name ? delayed.utf8(it.function.name) : null,
    it.function.ordinal]), [['dbghelp.dll', 0n, 'SymInitialize', 0x121], ['dbghelp.dll', 0n, null, 7],
    ['VERSION.dll', 1n, 'VerQueryValueW', 0]]);
  assert.deepEqual(later[0].function, [...delayed.delayedFunctions(late)][0]);
  assert.deepEqual(listed(image, 'pe_c_list_libraries', { walk: { libraries: image.call('pe_c_import_libraries') }, runs: [{}, {}] }),
    [...image.list('libraries')]);
  const all = listed(image, 'pe_c_list_all_imports', { walk: { libraries: image.call('pe_c_import_libraries') }, runs: [{}, {}, {}] });
  assert.deepEqual(all.map((it) => [image.utf8(it.library_name), it.library, it.import.has_name ? image.utf8(it.import.name) : null,
    it.import.ordinal]), [['KERNEL32.dll', 0n, 'Sleep', 42], ['KERNEL32.dll', 0n, null, 17], ['a.dll', 1n, 'f', 0]]);
  assert.deepEqual(all[0].import, [...image.imports(dll)][0]);
  assert.equal(image.call('pe_c_offset', { rva: all[0].hint_rva }) + 2n, all[0].import.name.offset);
  assert.equal(all[1].hint_rva, 0);
  const names = opened('exports'), tables = names.call('pe_c_export_tables');
  assert.deepEqual(listed(names, 'pe_c_list_exports', { walk: { exports: tables }, runs: [{}] }), [...names.list('exports')]);
  const moved = opened('relocations'), [block] = moved.list('relocationBlocks');
  assert.deepEqual(listed(moved, 'pe_c_list_relocations', { page_rva: block.page_rva, walk: { ...block.entries } }),
    [...moved.relocations(block)]);
  const exported = opened('exports'), table = exported.call('pe_c_export_addresses');
  for (const runs of [[], [{}, {}]]) {
    assert.deepEqual(listed(exported, 'pe_c_list_export_addresses', { table, next: 0n, runs }), [...exported.exportAddresses()]);
  }
  const bound = opened('bound_imports'), range = bound.call('pe_c_bound_imports');
  const dlls = [...bound.items('pe_c_next_bound_import', { ...range }, { table: range })];
  assert.deepEqual(listed(bound, 'pe_c_list_bound_imports', { table: range, walk: { ...range }, runs: [{}] }), dlls);
  assert.deepEqual(listed(bound, 'pe_c_list_bound_forwarders', { table: range, walk: { ...dlls[0].forwarders }, runs: [{}] }),
    [...bound.items('pe_c_next_bound_forwarder', { ...dlls[0].forwarders }, { table: range })]);
  const long = opened('long_section_name'), strings = long.call('pe_c_string_table');
  assert.deepEqual(listed(long, 'pe_c_list_long_section_names', { table: strings, next: 0n, runs: [{}] }),
    long.sections.map((section) => long.call('pe_c_long_section_name', { table: strings, section }) ?? { offset: 0n, length: 0n }));
  // the names of parts of code, in an image made by hand
  const entry = [0, 0, 0, 13, 16, 0x1020, 0x420], record = [0x4C544347, 0x1000, 0x10, 97];
  const it = library.open(madeImage(words32([...entry, 0, ...record]), [[6, 0x1000, 28]]));
  const parts = it.call('pe_c_debug_data').pogo.entries;
  const named = [...it.items('pe_c_next_pogo_entry', { ...parts })];
  assert.deepEqual(named.map((part) => [part.rva, part.size, it.utf8(part.name)]), [[0x1000, 0x10, 'a\0']]);
  assert.deepEqual(listed(it, 'pe_c_list_pogo_entries', { walk: { ...parts } }), named);
  // each record with its own result: PE_C_DONE, and PE_C_NOTHING
  const { pogo, ...others } = it.call('pe_c_debug_data');
  assert.deepEqual([pogo.entries, others.pogo_result, others.key_result, others.repro_result], [parts, 0, 100, 100]);
});

test('functions and codes in one call', () => {
  for (const [name, kind] of [['functions', ''], ['arm64_functions', 'arm64_']]) {
    const image = opened(name), table = image.functionTable(), all = [...image.functions()];
    assert.deepEqual(listed(image, `pe_c_list_${kind}functions`, { table, next: 0 }), all);
    assert.deepEqual(listed(image, `pe_c_list_${kind}functions`, { table, next: 1n }), all.slice(1));
    assert.throws(() => image.call(`pe_c_list_${kind}functions`, { table, next: -1, entries: [{}] }), RangeError);
  }
  const image = opened('functions'), table = image.functionTable(), [{ unwind }] = image.functions();
  const [record] = image.records({ unwind }), all = [...image.codes(record)];
  assert.equal(all.length, 3);
  assert.deepEqual(listed(image, 'pe_c_list_codes', { walk: structuredClone(record.codes) }), all);
  const { left, version, frame_register } = record.codes, entries = [{}, {}, {}, {}];
  const count = library.file(image.slice(left)).call('pe_c_all_codes', { form: { version, frame_register }, entries });
  assert.deepEqual([count, entries.slice(0, 3)], [3n, all]);
  const arm64 = opened('arm64_functions'), [, second] = arm64.functions();
  const { codes: range } = arm64.call('pe_c_arm64_unwind_record', { function: second });
  const walk = () => arm64.call('pe_c_arm64_codes', { codes: range, start: 0 });
  const each = [...arm64.items('pe_c_next_arm64_code', walk())];
  assert.deepEqual([listed(arm64, 'pe_c_list_arm64_codes', { walk: walk() }), each.length], [each, 6]);
});

test('an index of the sections changes no result', () => {
  const image = opened('imports'), room = Array.from({ length: 4 }, () => ({}));
  assert.equal(image.call('pe_c_index', { room }), 2n);
  assert.deepEqual(room.map((it) => it.number), [1n, 0n, 0n, 0n]);
  assert.equal(refused(() => image.call('pe_c_index', { room: [{}] })).constant, 'PE_C_ROOM');
  const before = [...image.list('libraries')];
  image.index();
  assert.deepEqual([...image.list('libraries')], before);
  assert.deepEqual([...image.list('libraries')].map((dll) => [...image.imports(dll)].length), [2, 1]);
});

// ---- signatures: the values are those that openssl and osslsigncode print of this one

const numbers = (range) => [Number(range.offset), Number(range.offset + range.length)];

/** The signature, as the body of the certificate of an image, and alone. */
function signatures() {
  const image = opened('signature'), [{ body }] = image.certificates(), alone = library.file(image.slice(body));
  assert.equal(body.length, 1920n);
  return { image, body, alone, whole: { offset: 0n, length: 1920n } };
}

test('what is signed, in an image and alone', () => {
  const { image, body, alone, whole } = signatures(), signed = alone.call('pe_c_signature', { range: whole });
  assert.deepEqual(numbers(signed.digested), [61, 166]);
  assert.deepEqual(alone.call('pe_c_signature_part', { range: whole, kind: constants.PE_C_PART_SIGNATURE }).signature, signed);
  assert.deepEqual([signed.content_type.id, signed.has_content], [constants.PE_C_OID_SPC_INDIRECT_DATA, 1]);
  const { digested } = image.call('pe_c_signature', { range: body });
  assert.deepEqual(image.slice(digested), alone.slice(signed.digested));
  const data = alone.call('pe_c_indirect_data', { range: signed.content });
  assert.deepEqual([numbers(data.value), numbers(data.digest)], [[75, 115], [134, 166]]);
  assert.equal(data.digest_algorithm.oid.id, constants.PE_C_OID_SHA256);
  assert.equal(data.value_type.id, constants.PE_C_OID_SPC_PE_IMAGE_DATA);
  assert.equal(alone.call('pe_c_image_data', { range: data.value }).file.length > 0n, true);
  const algorithms = [...alone.elements(signed.digest_algorithms)].map(({ whole: range }) => ({ range }));
  assert.deepEqual(algorithms.map((it) => alone.call('pe_c_algorithm_identifier', it).oid.id), [constants.PE_C_OID_SHA256]);
});

const textOf = (file, name) => [...file.nameAttributes(name)].map((it) => [it.type.id, file.utf8(it.value)]);
const timeOf = (file, range) => Object.values(file.call('pe_c_time', { range }));

test('who signed, and when', () => {
  const { alone, whole } = signatures(), signed = alone.call('pe_c_signature', { range: whole });
  const [{ whole: certificate }] = alone.elements(signed.certificates), x509 = alone.call('pe_c_x509', { range: certificate });
  assert.deepEqual([numbers(certificate), numbers(x509.to_be_signed), [...alone.slice(x509.serial)]], [[170, 520], [174, 434], [4, 3]]);
  assert.deepEqual(textOf(alone, x509.issuer), [[constants.PE_C_OID_COMMON_NAME, 'R']]);
  assert.deepEqual(textOf(alone, x509.subject).map(([, text]) => text).sort(), ['A', 'DE', 'Probe', 'Two']);
  assert.deepEqual([timeOf(alone, x509.not_before), timeOf(alone, x509.not_after)], [[2026, 11, 27, 1, 0, 4], [2051, 7, 19, 1, 0, 4]]);
  const extensions = [...alone.elements(x509.extensions)].map((it) => it.whole), read = (range) => alone.call('pe_c_extension', { range });
  assert.deepEqual(extensions.map((it) => [read(it).type.id, read(it).critical]),
    [[constants.PE_C_OID_KEY_USAGE, 1], [constants.PE_C_OID_EXTENDED_KEY_USAGE, 0]]);
  assert.equal(alone.call('pe_c_key_usage', { range: extensions[0] }), 0x80);
  const [{ whole: range }] = alone.elements(signed.signers), signer = alone.call('pe_c_signer', { range });
  assert.deepEqual([textOf(alone, signer.issuer), signer.signed_first, numbers(signer.signature)],
    [[[constants.PE_C_OID_COMMON_NAME, 'R']], 0x31, [770, 841]]);
  const attributes = (list) => new Map([...alone.elements(list)].map((it) => alone.call('pe_c_attribute', { range: it.whole }))
    .map((it) => [it.type.id, [...alone.elements(it.values)][0]]));
  const ours = attributes(signer.signed_attributes), value = (name) => ours.get(constants[`PE_C_OID_${name}`]);
  assert.deepEqual(numbers(value('MESSAGE_DIGEST').content), [673, 705]);
  assert.deepEqual(timeOf(alone, value('SIGNING_TIME').whole), [2026, 11, 27, 1, 0, 4]);
  const walk = { ...signer.signed_attributes }, find = (id) => alone.call('pe_c_find_attribute', { walk, id });
  assert.deepEqual(numbers([...alone.elements(find(constants.PE_C_OID_MESSAGE_DIGEST).values)][0].content), [673, 705]);
  assert.deepEqual([numbers(walk)[0], find(constants.PE_C_OID_MESSAGE_DIGEST), walk.length], [705, null, 0n]);
  const opus = alone.call('pe_c_opus_info', { range: value('SPC_SP_OPUS_INFO').whole });
  assert.equal(alone.utf8(opus.more_info), 'https://example.org/');
  const stamp = attributes(signer.unsigned_attributes).get(constants.PE_C_OID_TIME_STAMP_TOKEN);
  const info = alone.call('pe_c_time_stamp', { range: alone.call('pe_c_signature', { range: stamp.whole }).content });
  assert.deepEqual([timeOf(alone, info.time), numbers(info.digest)], [[2023, 11, 14, 22, 13, 20], [958, 990]]);
});

test('why a signature is refused', () => {
  const { alone, whole } = signatures(), bytes = alone.slice(whole);
  bytes[0] = 0x31;
  const error = refused(() => library.file(bytes).call('pe_c_signature', { range: whole })), { offset, value, expected } = error.failure;
  assert.deepEqual([error.constant, offset, value, expected], ['PE_C_SIGNATURE_TAG', 0n, 0x31n, 0x30]);
  const short = refused(() => [...alone.elements({ offset: 0n, length: 1n })]);
  assert.deepEqual([short.constant, short.failure.left], ['PE_C_SIGNATURE_TRUNCATED', 1n]);
  assert.equal(refused(() => library.open(new Uint8Array(9))).failure, undefined);
});

// ---- minidumps

test('each stream of a minidump', () => {
  const x64 = library.openDump(readFileSync(join(folder, 'x64.dmp'))), only = (name) => [...x64.list(name)][0];
  assert.deepEqual([x64.info.number_of_streams, [...x64.entries()].length, x64.stream(13)], [12, 12, null]);
  assert.deepEqual([...x64.list('threads')].map((it) => [it.thread_id, it.thread_context.rva]), [[0x24, 0x1000], [0x25, 0x1000]]);
  const module = only('modules');
  assert.deepEqual([module.base_of_image, module.size_of_image, x64.text(module.module_name_rva)], [BASE, 0x6000, 'a.exe']);
  const { rva: offset, size: length } = module.cv_record, record = { offset, length };
  assert.equal(x64.utf8(x64.call('pe_c_codeview', { record }).name), 'a.pdb\0');
  assert.deepEqual([x64.exception().exception_code, x64.exception().number_parameters], [0xC0000005, 2]);
  const { process_id: id, processor_power: power } = x64.process(), name = only('threadNames');
  assert.deepEqual([x64.system().processor_architecture, id, power.processor_max_mhz], [9, 1, 5]);
  assert.deepEqual([name.thread_id, x64.text(name.rva_of_thread_name)], [0x24, 'a.exe']);
  assert.deepEqual([only('unloadedModules').base_of_image, only('regions').region_size], [0x70000000n, 0x1000n]);
  assert.equal(only('handles').pointer_count, 4);
  // records and contexts of any kind, of which one field is written
  const stream = x64.stream(constants.PE_C_THREAD_LIST_STREAM), read = (kind, index) => x64.call('pe_c_dump_record', { stream, kind, index });
  const any = read(constants.PE_C_THREAD_LIST_STREAM, 0n), thread = only('threads');
  assert.deepEqual([any.thread, any.loaded.base_of_image, read(constants.PE_C_THREAD_LIST_STREAM, 2n), read(99, 0n)], [thread, 0n, null, null]);
  const context = (machine) => x64.call('pe_c_read_dump_context', { location: thread.thread_context, machine });
  assert.deepEqual([context(9).x64, context(9).arm64.registers.pc], [x64.context(thread.thread_context), 0n]);
  assert.equal(refused(() => context(5)).constant, 'PE_C_DUMP_MACHINE');
  assert.deepEqual([only('threadInfos').exit_status, only('threadInfos').affinity], [259, 6n]);
  assert.deepEqual([only('pieces').memory.start, [...x64.fullPieces()].map((it) => [it.memory.start, it.memory.length, it.lost])],
    [0x20000n, [[0x20000n, 400n, 0x400n - 400n]]]);
  const bytes = Uint8Array.of(77, 68, 77, 80, ...new Uint8Array(28));
  assert.equal(refused(() => library.openDump(bytes)).constant, 'PE_C_DUMP_VERSION');
});

test('the directory of a minidump is read once for each kind of stream', () => {
  const bytes = Uint8Array.from(readFileSync(join(folder, 'x64.dmp'))), view = new DataView(bytes.buffer), kinds = [];
  const read = () => {
    const dump = library.openDump(bytes);
    dump.call = (name, given) => {
      if (name === 'pe_c_dump_stream') kinds.push(given.stream_type);
      return caller.call.call(dump, name, given);
    };
    return [...dump.list('threads')].map((it) => dump.contextOf(it).registers.rip);
  };
  const found = read();
  assert.deepEqual([found.length, kinds], [2, [3, 6, 7]]);
  // One that is refused too, which an error is each time.
  for (let i = 0, entry = view.getUint32(12, true); i < 12; i++, entry += 12) {
    if (view.getUint32(entry, true) === 6) view.setUint32(entry + 4, 0xFFFFFFFF, true);
  }
  assert.deepEqual([read().length, kinds.length], [2, 6]);
  const dump = library.openDump(bytes);
  for (let i = 0; i < 2; i++) assert.equal(refused(() => dump.exception()).constant, 'PE_C_DUMP_LOCATION');
});

test('why a process crashed, in words', () => {
  const bytes = Uint8Array.from(readFileSync(join(folder, 'x64.dmp'))), view = new DataView(bytes.buffer);
  const at = Buffer.from(bytes).indexOf(Uint8Array.of(0x24, 0, 0, 0, 0, 0, 0, 0, 5, 0, 0, 0xC0));
  const reasons = [
    [0xC0000409, [2n], 'STATUS_STACK_BUFFER_OVERRUN (0xc0000409): FAST_FAIL_STACK_COOKIE_CHECK_FAILURE'],
    [0xC0000409, [1000n], 'STATUS_STACK_BUFFER_OVERRUN (0xc0000409): __fastfail(1000)'],
    [0xC0000006, [0n, 0x7000n, 0xC000009Cn],
      'STATUS_IN_PAGE_ERROR (0xc0000006): read at 0x7000, STATUS_DEVICE_DATA_ERROR (0xc000009c)'],
    [0xC0000005, [8n, 16n], 'STATUS_ACCESS_VIOLATION (0xc0000005): execution at 0x10'],
    [0x20474343, [1n], 'an exception of GCC (0x20474343)'], [0x12345678, [], '0x12345678'],
  ];
  for (const [code, parameters, reason] of reasons) {
    view.setUint32(at + 8, code, true);
    view.setUint32(at + 32, parameters.length, true);
    parameters.forEach((it, i) => view.setBigUint64(at + 40 + 8 * i, it, true));
    assert.equal(library.openDump(bytes).reason(), reason);
  }
});

/** The memory of x64.dmp with this stack in its threads, and so many bytes of a piece in its list of memory; without lists for 0. */
function runsWith({ start, offset, length }, listed) {
  const bytes = Uint8Array.from(readFileSync(join(folder, 'x64.dmp'))), view = new DataView(bytes.buffer);
  for (let i = 0, entry = view.getUint32(12, true); i < 12; i++, entry += 12) {
    const kind = view.getUint32(entry, true), stream = view.getUint32(entry + 8, true);
    if (kind === 9 || (kind === 5 && !listed)) view.setUint32(entry, 0, true);
    if (kind === 5) view.setUint32(stream + 12, listed, true);
    if (kind === 3) {
      view.setBigUint64(stream + 28, start, true);
      view.setUint32(stream + 36, Number(length), true);
      view.setUint32(stream + 40, Number(offset), true);
    }
  }
  return library.openDump(bytes).runs();
}

test('the stack of a thread is memory that the lists lack', () => {
  const [piece] = library.openDump(readFileSync(join(folder, 'x64.dmp'))).runs();
  assert.deepEqual(runsWith(piece, 0), [piece]);
  assert.deepEqual(runsWith(piece, 8), [piece]);
  assert.deepEqual(runsWith({ ...piece, length: 4n }, 8), [{ ...piece, length: 8n }]);
  // At offset 0, which full dumps say of all stacks, the file has its header.
  assert.deepEqual([0, 8].map((it) => runsWith({ ...piece, offset: 0n }, it)), [[], [{ ...piece, length: 8n }]]);
  // A damaged list of threads costs the stacks that it names, and no memory of the lists.
  const bytes = Uint8Array.from(readFileSync(join(folder, 'x64.dmp'))), view = new DataView(bytes.buffer);
  const kinds = Array.from({ length: view.getUint32(8, true) }, (_, i) => view.getUint32(12, true) + 12 * i);
  view.setUint32(view.getUint32(kinds.find((it) => view.getUint32(it, true) === 3) + 8, true), 0xFFFF, true);
  const damaged = library.openDump(bytes);
  assert.throws(() => [...damaged.list('threads')], (it) => it instanceof PeError);
  assert.deepEqual(damaged.runs(), [piece]);
});

test('a damaged list of memory costs its own pieces', () => {
  const bytes = Uint8Array.from(readFileSync(join(folder, 'x64.dmp'))), view = new DataView(bytes.buffer);
  const [piece] = library.openDump(bytes).runs();
  const stream = (kind) => Array.from({ length: view.getUint32(8, true) }, (_, i) => view.getUint32(12, true) + 12 * i)
    .find((it) => view.getUint32(it, true) === kind);
  view.setUint32(view.getUint32(stream(5) + 8, true), 0xFFFF, true);
  const damaged = library.openDump(bytes);
  assert.throws(() => [...damaged.list('pieces')], (it) => it instanceof PeError);
  assert.deepEqual([[...damaged.fullPieces()].map((it) => it.memory), damaged.runs()], [[piece], [piece]]);
  // So does that of a full dump.
  view.setUint32(stream(9), 0, true);
  view.setUint32(stream(5), 9, true);
  assert.throws(() => [...library.openDump(bytes).fullPieces()], (it) => it instanceof PeError);
  assert.deepEqual(library.openDump(bytes).runs(), []);
});

test('what no file, no mode and no list is, is said', () => {
  const bytes = file('imports'), says = (call, text) => assert.throws(call, (it) => it instanceof TypeError && it.message.includes(text));
  says(() => library.open('a.dll'), 'as a Uint8Array or a Buffer, and not a string: a file is read first, as by readFileSync');
  for (const it of [{}, null, undefined, 42, [1]]) says(() => library.open(it), 'bytes are an ArrayBuffer or a view of one');
  for (const mode of ['permissive', 1.5, 4, -1, null, 1n, NaN]) {
    says(() => library.open(bytes, { mode }), 'mode is PE_C_PERMISSIVE or PE_C_STRICT, or one of these + PE_C_MAPPED, and not');
    says(() => library.failure(bytes, { mode }), 'mode is PE_C_PERMISSIVE');
  }
  for (const mode of [0, 1, 2, 3]) assert.equal(library.failure(new Uint8Array(1), { mode }).result, 2);
  says(() => library.open(bytes).list('nope'), 'nope is no list: debugEntries, exports, libraries');
  says(() => library.openDump(readFileSync(join(folder, 'x64.dmp'))).list('nope'), 'nope is no list: threads, modules');
});

test('bytes are an ArrayBuffer, any view, or those of another realm', () => {
  const bytes = Uint8Array.from(file('imports')), { buffer } = bytes, inside = new Uint8Array(bytes.length + 6);
  inside.set(bytes, 2);
  const shared = new SharedArrayBuffer(bytes.length);
  new Uint8Array(shared).set(bytes);
  const views = [new DataView(inside.buffer, 2, bytes.length), new Uint16Array(inside.buffer, 2, bytes.length / 2)];
  for (const it of [buffer, Buffer.from(bytes), ...views, shared,
    runInNewContext('new Uint8Array(bytes).buffer', { bytes: [...bytes] })]) {
    const image = library.open(it);
    assert.deepEqual([image.length, image.sections.length, [...image.list('libraries')].length], [bytes.length, 1, 2]);
    assert.equal(factsOf(library, it, 'a.dll').file_size, bytes.length);
  }
  const { file_size: size, file_kind: kind } = factsOf(library, Uint8Array.from(Buffer.from('MDMP')).buffer, 'a.dmp');
  assert.deepEqual([size, kind], [4, 'a minidump, which pe stack shows']);
});

test('the memory of a minidump in order, and what in it is an image', () => {
  const bytes = readFileSync(join(folder, 'x64.dmp')), x64 = library.openDump(bytes), [module] = x64.list('modules');
  const piece = (start, offset, length) => ({ start, offset, length }), room = (n) => Array.from({ length: n }, () => ({}));
  const runs = room(4), pieces = [piece(0x108n, 0n, 8n), piece(0x100n, 16n, 16n)];
  assert.equal(x64.call('pe_c_memory_runs', { pieces, entries: room(8), runs }), 2n);
  assert.deepEqual(runs.slice(0, 2), [piece(0x100n, 16n, 8n), piece(0x108n, 0n, 8n)]);
  assert.equal(refused(() => x64.call('pe_c_memory_runs', { pieces, entries: room(7), runs })).constant, 'PE_C_ROOM');
  const found = room(2), asked = [{ offset: 0x104n, length: 100n }, { offset: 0x110n, length: 1n }];
  assert.equal(x64.call('pe_c_memory_ranges', { memory: bytes, pieces: runs.slice(0, 2), asked, found }), 2n);
  assert.deepEqual(found, [{ offset: 20n, length: 4n }, { offset: 0n, length: 0n }]);
  assert.deepEqual(x64.runs().map((it) => it.start), [0x20000n]);
  const image = { time_date_stamp: module.time_date_stamp, size_of_image: 0x6000, width: 64 };
  assert.equal(x64.call('pe_c_is_image_of', { image, module }), true);
  assert.equal(x64.call('pe_c_is_image_of', { image: { ...image, size_of_image: 0x6001 }, module }), null);
});

test('a PDB, its streams, modules and symbols', () => {
  const pdb = library.file(readFileSync(join(folder, 't.pdb'))), info = pdb.call('pe_c_pdb');
  assert.deepEqual([info.age, info.dbi_age, info.machine, info.number_of_streams, info.dbi_result], [1, 1, 0x8664, 16, 0]);
  const key = { guid: info.guid, age: 1 }, starts = Array.from({ length: 16 }, () => 0n);
  assert.equal(library.file(new Uint8Array(0)).call('pe_c_is_pdb_of', { key, pdb: info }), true);
  assert.equal(pdb.call('pe_c_is_pdb_of', { key: { ...key, age: 2 }, pdb: info }), null);
  assert.equal(pdb.call('pe_c_pdb_starts', { room: starts }), 16n);
  const stream = (index) => {
    const room = new Uint8Array(1160);
    return room.subarray(0, Number(pdb.call('pe_c_pdb_stream', { starts, index, room })));
  };
  assert.deepEqual(pdb.call('pe_c_pdb_stream_range', { starts, index: 3 }), { offset: 53248n, length: 717n });
  const dbi = library.file(stream(3)), symbols = library.file(stream(info.symbol_stream)), sections = stream(info.section_headers);
  const modules = listed(dbi, 'pe_c_list_pdb_modules', { walk: info.modules });
  assert.deepEqual(modules.map((it) => [dbi.utf8(it.name), it.stream]), [['a.obj', 11], ['b.obj', 12], ['* Linker *', 13]]);
  const walk = { offset: 0n, length: 108n }, range = { ...walk };
  const named = listed(symbols, 'pe_c_list_pdb_symbols', { sections, walk }).filter((it) => it.result === 0);
  assert.deepEqual(named.map((it) => [symbols.utf8(it.name), it.rva]), [['entry', 0x1000], ['helper', 0x1050]]);
  const index = [0n, 0n], kind = constants.PE_C_PDB_PUBLICS;
  assert.equal(symbols.call('pe_c_pdb_index', { kind, symbols: range, sections, room: index }), 2n);
  assert.equal(symbols.utf8(symbols.call('pe_c_find_pdb_symbol', { kind, sections, index, rva: 0x104F }).name), 'entry');
  assert.equal(symbols.utf8(symbols.call('pe_c_read_pdb_symbol', { kind, symbols: range, sections, rva: 0x104F }).name), 'entry');
  const own = library.file(stream(12)), [, { lines }] = modules, entries = Array.from({ length: 6 }, () => ({}));
  assert.equal(own.call('pe_c_pdb_lines', { lines, sections, room: entries }), 6n);
  const line = own.call('pe_c_find_pdb_line', { index: entries, rva: 0x1070 }), files = own.call('pe_c_pdb_files', { lines });
  assert.deepEqual([line.rva, line.line], [0x1065, 900]);
  assert.deepEqual(own.call('pe_c_read_pdb_line', { lines, sections, rva: 0x1070 }), line);
  const number = library.file(stream(1)).call('pe_c_pdb_named_stream', { name: new TextEncoder().encode('/names') });
  const names = stream(number), path = own.call('pe_c_pdb_file_name', { files, names, file: line.file });
  assert.equal(library.file(names).utf8(path), 'generated\\else.inc');
  const ranges = Array.from({ length: 8 }, () => ({})), contributions = info.contributions;
  assert.equal(dbi.call('pe_c_pdb_module_ranges', { contributions, sections, room: ranges }), 8n);
  assert.deepEqual(ranges[1], { start: 0x1050, size: 60, module_index: 1 });
  assert.equal(refused(() => library.file(file('imports')).call('pe_c_pdb')).constant, 'PE_C_PDB_MAGIC');
});

/** The PDB of the tests, with other bytes at offsets. */
const pdbWith = (...changes) => {
  const bytes = new Uint8Array(readFileSync(join(folder, 't.pdb')));
  for (const [at, byte] of changes) bytes[at] = byte;
  return library.openPdb(bytes);
};
const BLOCK = 4096, DBI = 13 * BLOCK, MODULE = 11 * BLOCK;

// By what llvm-pdbutil 14.0.6 prints of it, and the lines of its sources.
test('a PDB names functions and lines', () => {
  const pdb = pdbWith(), [, own] = pdb.modules();
  assert.deepEqual(pdb.modules().map((it) => [it.name, it.file, it.stream]),
    [['a.obj', 'a.obj', 11], ['b.obj', 'b.obj', 12], ['* Linker *', '', 13]]);
  assert.deepEqual(pdb.publics().map((it) => [it.name, it.rva, it.isFunction]), [['entry', 0x1000, true], ['helper', 0x1050, true]]);
  // The section headers are read once.
  const counted = pdbWith(), read = [];
  counted.stream = (index) => read.push(index) && pdb.stream(index);
  assert.deepEqual([own, own].map((it) => counted.procedures(it).length), [2, 2]);
  assert.equal(read.filter((it) => it === pdb.info.section_headers).length, 1);
  assert.deepEqual(pdb.procedures(own).map((it) => [it.name, it.rva, it.size, it.kind]),
    [['helper', 0x1050, 45, 0x1110], ['local', 0x1080, 12, 0x110F]]);
  assert.deepEqual(pdb.lines(own).map((it) => [it.rva, it.file, it.line]), [[0x1050, 'b.c', 4], [0x1058, 'b.c', 5],
    [0x1065, 'generated\\else.inc', 900], [0x1071, 'b.c', 9], [0x1080, 'b.c', 1], [0x1085, 'b.c', 2]]);
  assert.deepEqual([pdb.lines(own).isLimited, pdb.lines({ ...own, stream: null }).length], [false, 0]);
  const found = (rva, options) => Object.values(pdb.find(rva, options) ?? {});
  assert.deepEqual(found(0x1048), ['entry', 0x1000, 0x48, 'procedure', 'a.c', 6, null, false]);
  assert.deepEqual(found(0x1065), ['helper', 0x1050, 0x15, 'procedure', 'generated\\else.inc', 900, null, false]);
  assert.deepEqual(found(0x104F), ['entry', 0x1000, 0x4F, 'public', null, null, null, false]);
  assert.deepEqual(found(0x1050, { isReturn: true }), ['entry', 0x1000, 0x50, 'public', null, null, null, false]);
  assert.deepEqual(found(0xFFFFFFFF).slice(0, 2), ['helper', 0x1050]);
  assert.deepEqual([0xFFF, -1, 2 ** 32, NaN].map((it) => pdb.find(it)), [null, null, null, null]);
  assert.deepEqual([pdb.damaged, pdb.isMoved, pdb.stream(3).length], [[], false, 717]);
  assert.equal(refused(() => pdb.stream(16)).constant, 'PE_C_PDB_NO_STREAM');
});

// The code of helper and local at 0x3010, and no other code left: by OMAP tables in place of the hash tables.
test('code that was moved is named', () => {
  const bytes = new Uint8Array(readFileSync(join(folder, 't.pdb'))), view = new DataView(bytes.buffer), streams = DBI + 717 - 22;
  const tables = [[12, 6, [0x1000, 0, 0x3010, 0x1050, 0x304C, 0]], [16, 8, [0x1000, 0, 0x1050, 0x3010, 0x108C, 0]]];
  for (const [at, entry, rows] of tables) {
    const number = view.getUint16(DBI + at, true), table = library.openPdb(bytes).stream(number);
    const start = Buffer.from(bytes.buffer).indexOf(table);
    for (let it = 0; it + 2 <= table.length / 4; it++) view.setUint32(start + 4 * it, rows[it] ?? (it % 2 ? 0 : 0xFFFFFFFF), true);
    view.setUint16(streams + entry, number, true);
  }
  view.setUint16(streams + 20, view.getUint16(streams + 10, true), true);
  const pdb = library.openPdb(bytes), found = (rva, options) => Object.values(pdb.find(rva, options) ?? {}).slice(0, 6);
  assert.deepEqual(found(0x3025), ['helper', 0x3010, 0x15, 'procedure', 'generated\\else.inc', 900]);
  assert.deepEqual(found(0x3026, { isReturn: true }), ['helper', 0x3010, 0x16, 'procedure', 'generated\\else.inc', 900]);
  assert.deepEqual(pdb.frames(0x304B).map(({ name, start }) => [name, start]), [['local', 0x3040]]);
  assert.deepEqual([0x1050, 0x304C].map((it) => pdb.find(it)), [null, null]);
  assert.deepEqual([pdb.isMoved, pdb.damaged], [true, []]);
  // Of tables that are refused nothing is found, and that is said whether or not something was looked for.
  view.setUint16(streams + 6, 0x7777, true);
  const damaged = library.openPdb(bytes);
  assert.deepEqual([damaged.damaged.map((it) => [it.part, it.error.constant]), damaged.find(0x3025)], [[['OMAP', 'PE_C_PDB_NO_STREAM']], null]);
  const table = library.file(pdb.stream(pdb.info.omap_from_source));
  assert.deepEqual([0x1060, 0x1000].map((rva) => table.call('pe_c_pdb_moved_rva', { rva })), [0x3020, null]);
});

test('an option or a field that there is not is an error that names it, and those that there are', () => {
  const image = opened('x86_dll'), bytes = file('x86_dll'), pdb = pdbWith(), range = { offset: 0n, length: 2n };
  const says = (name, known, run) => assert.throws(run, (it) => it instanceof TypeError
    && it.message.startsWith(`${name} is none of the `) && it.message.endsWith(`: ${known}`), name);
  says('mod', 'mode', () => library.open(bytes, { mod: 1 }));
  says('mod', 'mode', () => library.failure(bytes, { mode: 1, mod: 1 }));
  says('strict', 'mode', () => factsOf(library, bytes, 'a.dll', { strict: true }));
  says('whole', 'isWhole', () => image.utf16(range, { whole: true }));
  says('place', 'placement', () => image.attach(new Uint8Array(16), { place: 1 }));
  says('is_return', 'isReturn', () => pdb.find(0x1000, { is_return: true }));
  says('is_return', 'isReturn', () => pdb.frames(0x1000, { is_return: true }));
  says('is_return', 'rva, isReturn', () => image.functionNames([{ rva: 1, is_return: true }]));
  says('codepage', 'type, name, language, codePage, content',
    () => image.edit([{ type: 24, name: 1, language: 0, codepage: 1252, content: bytes.subarray(0, 8) }]));
  says('child', 'key, text, value, children', () => library.versionBlock({ key: 'a', children: [{ key: 'b', child: [] }] }));
  says('fileversion', 'fileVersion, productVersion, language, strings', () => library.versionInfo({ fileversion: [1, 2, 3, 4] }));
  const module = { bytes, base: 0n }, process = { modules: [module], memory: bytes, pieces: [] };
  says('piece', 'modules, memory, pieces', () => library.process({ ...process, piece: [] }));
  says('address', 'bytes, size, base, mode', () => library.process({ ...process, modules: [{ ...module, address: 0n }] }));
  says('at', 'start, offset, length', () => library.process({ ...process, pieces: [{ ...range, at: 0n }] }));
  // Of a record of pe.h, one inside of another, and one of an array.
  says('size', 'offset, length', () => image.call('pe_c_name', { range: { offset: 0n, size: 2n } }));
  says('rvo', 'left, rva', () => image.call('pe_c_next_import', { walk: { imports: { left: range, rvo: 1n } } }));
  const resource = { resource_type: { id: 24 }, name: { id: 1 }, content: range, codepage: 0 };
  assert.throws(() => image.call('pe_c_edit', { resources: [resource], data: bytes, room: new Uint8Array(0) }), /codepage is none of the fields of /);
  for (const options of [1, null, 'mode', true]) {
    assert.throws(() => library.open(bytes, options), TypeError);
    assert.throws(() => image.call('pe_c_name', { range: options }), TypeError);
  }
  // What is too long for its place, and one of two things for it.
  assert.throws(() => pdb.matches({ guid: new Uint8Array(17), age: 1 }), RangeError);
  assert.throws(() => library.versionInfo({ fileVersion: [1, 2, 3, 4, 5] }), RangeError);
  assert.throws(() => library.versionBlock({ key: 'a', text: 'b', value: Uint8Array.of(1) }), TypeError);
  assert.throws(() => library.process({ ...process, modules: [{ ...module, size: 1 }] }), TypeError);
  assert.equal(library.open(bytes, { mode: undefined }).info.machine, library.open(bytes, undefined).info.machine);
  assert.deepEqual([pdb.find(0x1048, {}).name, pdb.find(0x1048, { isReturn: undefined }).name], ['entry', 'entry']);
});

test('a PDB is that of the image that names it', () => {
  const pdb = pdbWith(), { guid, age } = pdb.key;
  const bytes = Uint8Array.from(file('debug')), image = library.open(bytes), key = image.call('pe_c_symbol_key');
  assert.deepEqual([pdb.matches(image), pdb.matches(opened('imports'))], [false, false]);
  // The image with the PDB's GUID and age: both stand before the name of its record, after the four bytes RSDS.
  const at = Buffer.from(bytes).indexOf(Uint8Array.from(key.guid));
  bytes.set(guid, at);
  new DataView(bytes.buffer).setUint32(at + guid.length, age, true);
  assert.equal(pdb.matches(library.open(bytes)), true);
  for (const it of [null, undefined, 5, 'a', bytes, library]) assert.throws(() => pdb.matches(it), TypeError);
  assert.deepEqual([age, pdb.matches({ guid, age }), pdb.matches({ guid, age: 2 })], [1, true, false]);
  assert.equal(pdb.matches(opened('debug').call('pe_c_symbol_key')), false);
});

test('what is damaged of a PDB costs its own names', () => {
  const said = (pdb) => pdb.damaged.map(({ part, error }) => [part, error.constant]);
  const lines = pdbWith([MODULE + 332 + 6, 1]), symbols = pdbWith([MODULE + 72, 1], [MODULE + 73, 0]), dbi = pdbWith([DBI, 0]);
  assert.deepEqual([lines.find(0x108B).name, lines.find(0x108B).line, lines.find(0x1048).line], ['local', null, 6]);
  assert.deepEqual(said(lines), [['lines of b.obj', 'PE_C_PDB_RECORD_TRUNCATED']]);
  assert.deepEqual([symbols.find(0x1048).name, symbols.find(0x108B).name, symbols.find(0x108B).source], ['entry', 'helper', 'public']);
  assert.deepEqual(said(symbols), [['b.obj', 'PE_C_PDB_RECORD_SIZE']]);
  assert.deepEqual([dbi.find(0x1000), dbi.isMoved, dbi.matches(dbi.key)], [null, false, false]);
  assert.deepEqual(said(dbi).map(([part]) => part), ['modules', 'public symbols']);
  assert.equal(refused(() => dbi.modules()).constant, 'PE_C_PDB_DBI_SIGNATURE');
  assert.equal(refused(() => library.openPdb(new Uint8Array(3))).constant, 'PE_C_SHORT');
});

/** The PDB with inlined functions, with another byte in a stream that has one block or consecutive ones. */
const inlinedPdb = (stream, at, byte) => {
  const bytes = readFileSync(join(folder, 'inlined.pdb')), own = Buffer.from(library.openPdb(bytes).stream(stream));
  bytes[bytes.indexOf(own) + at] = byte;
  return library.openPdb(bytes);
};
const placed = (found) => found.map((it) => [it.name, it.file, it.line, it.isInlined]);

// By what llvm-pdbutil and llvm-symbolizer print of the PDB of tests/pdb/c.c.
test('a PDB has the functions that are inlined', () => {
  const pdb = library.openPdb(readFileSync(join(folder, 'inlined.pdb')));
  const clamp = ['clamp', 'c.h', 2, true], found = pdb.frames(0x1005);
  assert.deepEqual(placed(pdb.frames(0x1004)), [['entry', 'c.c', 3, false]]);
  assert.deepEqual(placed(found), [clamp, ['twice', 'c.h', 7, true], ['entry', 'c.c', 4, false]]);
  assert.deepEqual(found.map((it) => [it.start, it.offset, it.source]), Array(3).fill([0x1000, 5, 'procedure']));
  assert.deepEqual([found[0].column, found[2], found.isLimited], [null, pdb.find(0x1005), false]);
  assert.deepEqual(placed(pdb.frames(0x1020)), [clamp, ['entry', 'c.c', 5, false]]);
  assert.deepEqual(placed(pdb.frames(0x1065)), [['twice', 'c.h', 8, true], ['helper', 'c.c', 9, false]]);
  assert.deepEqual(placed(pdb.frames(0x1005, { isReturn: true })), [['entry', 'c.c', 3, false]]);
  assert.deepEqual([0xFFF, -1, 2 ** 32, NaN].map((it) => pdb.frames(it).length), [0, 0, 0, 0]);
  assert.deepEqual(pdb.damaged, []);
  assert.deepEqual([...pdbWith().frames(0x104F)], [pdbWith().find(0x104F)]);
});

// By the same, with the calls of pe.h alone.
test('the calls that find inlined functions', () => {
  const whole = library.openPdb(readFileSync(join(folder, 'inlined.pdb'))), [module] = whole.modules();
  const ids = library.file(whole.stream(4)), own = library.file(whole.stream(module.stream)), sections = whole.stream(whole.info.section_headers);
  assert.equal(refused(() => ids.call('pe_c_pdb_ids', { room: [] })).constant, 'PE_C_ROOM');
  const starts = Array.from({ length: 10 }, () => 0n), index = [0n, 0n], kind = constants.PE_C_PDB_PROCEDURES;
  assert.equal(ids.call('pe_c_pdb_ids', { room: starts }), BigInt(starts.length));
  own.call('pe_c_pdb_index', { kind, symbols: module.symbols, sections, room: index });
  const procedure = own.call('pe_c_find_pdb_symbol', { kind, sections, index, rva: 0x1005 }), room = [{}, {}];
  const given = { module: { symbols: module.symbols, lines: module.lines }, procedure, rva: 0x1005, ids: whole.stream(4), starts, room };
  assert.equal(own.call('pe_c_find_pdb_inlined', given), 2n);
  assert.deepEqual(room.map((it) => [ids.utf8(it.name), it.line]), [['clamp', 2], ['twice', 7]]);
});

test('what is damaged of inlined functions costs them alone', () => {
  const said = (pdb) => pdb.damaged.map(({ part, error }) => [part, error.constant]);
  const ids = inlinedPdb(4, 56, 1), annotation = inlinedPdb(11, 192 + 16, 14), entry = ['entry', 'c.c', 4, false];
  assert.deepEqual([ids.frames(0x1004).length, said(ids)], [1, []]);
  for (let i = 0; i < 2; i++) {
    assert.deepEqual(placed(ids.frames(0x1005)), [['', 'c.h', 2, true], ['', 'c.h', 7, true], entry]);
    assert.deepEqual(said(ids), [['names of inlined functions', 'PE_C_PDB_RECORD_SIZE']]);
    assert.deepEqual(placed(annotation.frames(0x1005)), [entry]);
    assert.deepEqual(said(annotation).map(([, constant]) => constant), ['PE_C_PDB_ANNOTATION']);
  }
  assert.match(annotation.damaged[0].part, /^inlined functions of ./);
  assert.equal(annotation.frames(0x1065).length, 2);
});

test('of a damaged PDB nothing but a PeError is thrown', () => {
  for (const name of ['t.pdb', 'inlined.pdb']) damagedPdbs(name);
});

function damagedPdbs(name) {
  const bytes = new Uint8Array(readFileSync(join(folder, name)));
  let seed = 83, read = 0;
  const random = (below) => (seed = (Math.imul(seed, 1103515245) + 12345) >>> 0) % below;
  for (let i = 0; i < 100; i++) {
    const changed = bytes.slice();
    for (let j = 0; j < 3; j++) changed[[random(64), MODULE + random(bytes.length - MODULE), random(bytes.length)][j]] = random(256);
    try {
      const pdb = library.openPdb(changed);
      for (let rva = 0xFF0; rva < 0x10A0; rva += 7) assert(pdb.find(rva)?.name !== '' && pdb.frames(rva).at(-1)?.name !== '');
      read += pdb.damaged.length === 0;
      for (const it of pdb.modules()) pdb.lines(it), pdb.procedures(it);
    } catch (error) {
      if (!(error instanceof PeError)) throw error;
    }
  }
  assert(read > 10, `${name} ${read}`);
}

/** A minidump whose exception's stream has 4 bytes. */
function withoutException(bytes) {
  const damaged = Uint8Array.from(bytes), view = new DataView(damaged.buffer), directory = view.getUint32(12, true);
  const rows = Array.from({ length: view.getUint32(8, true) }, (_, row) => directory + 12 * row);
  view.setUint32(rows.find((row) => view.getUint32(row, true) === constants.PE_C_EXCEPTION_STREAM) + 4, 4, true);
  return damaged;
}

// On ARM64 the record's last code takes the stack pointer from the frame pointer, which is 0 on this stack.
test('the stacks of minidumps, on x64 and on ARM64', () => {
  for (const [name, image, rip, end, error] of [['x64', 'functions', 0x5000n, 'BOTTOM', undefined],
    ['arm64', 'arm64_functions', 0x5020n, 'STEP', 'PE_C_NOT_RISING']]) {
    const bytes = readFileSync(join(folder, `${name}.dmp`)), found = library.openDump(bytes);
    const { registers } = found.context(found.exception().thread_context), pieces = [...found.list('pieces')].map((it) => it.memory);
    assert.equal(registers.rip ?? registers.pc, BASE + rip);
    const [thread] = found.list('threads'), none = { ...thread, thread_context: {} };
    assert.deepEqual([found.contextOf(thread).registers, found.contextOf(none).registers], [registers, registers]);
    assert.equal(refused(() => found.contextOf({ ...none, thread_id: 1 })).constant, 'PE_C_DUMP_CONTEXT_SIZE');
    // Where those of the exception cannot be read, the thread's own stand there, and `context` says why.
    const own = Buffer.from(bytes);
    own.writeUInt32LE(1, Number(found.stream(constants.PE_C_EXCEPTION_STREAM).offset) + 160);
    const other = library.openDump(own);
    assert.equal(refused(() => other.context(other.exception().thread_context)).constant, 'PE_C_DUMP_CONTEXT_SIZE');
    assert.deepEqual(other.contextOf(thread), other.context(thread.thread_context));
    // An exception that is damaged names no thread, so that each has its own registers alone.
    const damaged = library.openDump(withoutException(bytes));
    assert.ok(refused(() => damaged.exception()));
    assert.deepEqual(damaged.contextOf(thread), damaged.context(thread.thread_context));
    assert.equal(refused(() => damaged.contextOf(none)).constant, 'PE_C_DUMP_CONTEXT_SIZE');
    const process = library.process({ modules: [{ bytes: file(image), base: BASE }], memory: bytes, pieces });
    const walk = () => ({ registers, remaining: 9n }), one = walk(), several = walk(), frames = Array.from({ length: 4 }, () => ({}));
    const each = [...name === 'x64' ? process.frames(one) : process.arm64Frames(one)];
    assert.deepEqual([each.length, one.end, results[one.error || -1]], [1, constants[`PE_C_END_${end}`], error]);
    assert.equal(process.call(name === 'x64' ? 'pe_c_next_frames' : 'pe_c_next_arm64_frames', { walk: several, frames }), 1n);
    assert.deepEqual([frames[0], several.end], [each[0], one.end]);
  }
});

test('a large file, after which the memory is larger', () => {
  const bytes = new Uint8Array(24 << 20);
  bytes.set(file('imports'));
  const image = library.open(bytes);
  assert.equal([...image.list('libraries')].length, 2);
  const overlay = image.call('pe_c_overlay');
  assert.equal(overlay.length, BigInt(bytes.length - 1536));
  assert.deepEqual(image.call('pe_c_image_range', { kind: constants.PE_C_RANGE_OVERLAY }), overlay);
  assert.equal(image.call('pe_c_image_range', { kind: 4 }), null);
});

test('what is no module, or one of another ABI', () => {
  assert.throws(() => new Library({}).open(file('imports')), TypeError);
  const empty = new WebAssembly.Module(Uint8Array.of(0, 0x61, 0x73, 0x6D, 1, 0, 0, 0));
  assert.throws(() => new Library(empty).open(file('imports')), /another ABI/);
});

// A module of the ABI 3 whose calls return 0, but for pe_c_headers, which traps.
const TRAPS = `AGFzbQEAAAABHARgAAF/YAR+fn9+AX9gBX5+fn5+AX9gAn5+AX8DBQQAAQIDBQMBAAIGBwF+AEKACAsHUQYGbWVtb3J5AgALX19oZWFwX2Jhc2UDAApwZV9j
X2FiaV8zAAAKcGVfY19pbWFnZQABDXBlX2Nfc2VjdGlvbnMAAgxwZV9jX2hlYWRlcnMAAwoUBAQAQQMLBABBAAsEAEEACwMAAAs=`;

test('an instance that traps ends', () => {
  const named = atob(TRAPS.replace('\n', '')).replace('pe_c_abi_3', `pe_c_abi_${abi}`);
  const text = named.replace('A\x03\x0B', `A${String.fromCharCode(abi)}\x0B`);
  const traps = new Library(new WebAssembly.Module(Uint8Array.from(text, (it) => it.charCodeAt(0))));
  const image = traps.open(file('imports'));
  assert.throws(() => image.headers(), WebAssembly.RuntimeError);
  assert.throws(() => image.headers(), /the instance has ended/);
  assert.equal(traps.open(file('imports')).info.machine, 0);
});

// ---- facts that pe.h has no call for: the bytes are made here, by the format

/** An image of the tests with other bytes from an offset in its section on. */
function patched(name, parts) {
  const bytes = file(name);
  for (const [offset, part] of parts) bytes.set(part, 0x400 + offset);
  return bytes;
}
const word = (value) => [...new Uint8Array(new Uint32Array([value]).buffer)];
const wide = (value) => [...new Uint8Array(new BigUint64Array([BigInt(value)]).buffer)];
const ascii = (text) => [...text].map((it) => it.charCodeAt(0));

test('lists of guarded functions', () => {
  const va = (offset) => wide(0x1_8000_1000 + offset);
  const bytes = patched('load_config', [[0, word(280)], [128, [...va(280), ...wide(2)]], [160, [...va(290), ...wide(1)]],
    [176, [...wide(1), ...wide(1)]], [264, [...va(0x8000), ...wide(1)]], [96, [...va(295), ...wide(-1n)]],
    [280, [0x10, 0x20, 0, 0, 1, 0x30, 0x20, 0, 0, 8, 0x40, 0x20, 0, 0, 0, 0x50, 0x20, 0, 0]]]);
  const said = factsOf(library, bytes, 'a.exe').load_config;
  const flags = (number) => ({ number, flags: { FID_SUPPRESSED: (number & 1) !== 0, EXPORT_SUPPRESSED: (number & 2) !== 0,
    FID_LANGEXCPTHANDLER: (number & 4) !== 0, FID_XFG: (number & 8) !== 0 } });
  assert.deepEqual(said.guarded_functions, [{ rva: 0x2010, flags: flags(1) }, { rva: 0x2030, flags: flags(8) }]);
  assert.deepEqual(said.guarded_iat_entries, [{ rva: 0x2040, flags: flags(0) }]);
  assert.deepEqual([said.guarded_functions_error, said.long_jump_targets, said.eh_continuations], [null, null, null]);
  assert.equal(said.long_jump_targets_error.name, 'DIRECTORY_VA_BELOW_BASE');
  assert.equal(said.eh_continuations_error.name, 'UNMAPPED');
  assert.deepEqual([said.se_handlers[0], said.se_handlers_error.name], [0x2050, 'SHORT']);
});

test('tables of guarded functions that are the same bytes', () => {
  const rest = new Uint8Array(0x4000).fill(7), table = [...wide(0x1_8000_1000 + 280), ...wide(-1n)];
  const whole = new Uint8Array(0x400 + 280 + rest.length);
  whole.set(file('load_config').subarray(0, 0x400 + 280));
  whole.set(rest, 0x400 + 280);
  for (const [offset, part] of [[0, word(280)], [144, word(0)], ...[96, 128, 160, 176, 264].map((it) => [it, table])]) {
    whole.set(part, 0x400 + offset);
  }
  const said = factsOf(library, whole, 'a.exe').load_config;
  const lists = ['se_handlers', 'guarded_functions', 'guarded_iat_entries', 'long_jump_targets', 'eh_continuations'];
  assert.deepEqual(lists.map((it) => said[`${it}_is_limited`]), [false, false, true, true, true]);
  assert.deepEqual(lists.map((it) => said[`${it}_error`]?.name), ['SHORT', 'SHORT', undefined, undefined, undefined]);
  // An entry of 4 bytes counts for 32, and 16 times the bytes of the file are all that is read.
  assert.equal(lists.reduce((sum, it) => sum + said[it].length, 0), Math.floor(whole.length / 2));
});

test('fields of a load configuration by their numbers', () => {
  const image = library.open(patched('load_config', [[0, word(320)], [12, [1, 2, 3, 4]], [150, [5, 6]], [312, wide(0x1_8000_2000)]]));
  const field = (name) => image.call('pe_c_load_config_field', { field: constants[name] });
  const names = ['PE_C_CONFIG_GLOBAL_FLAGS_CLEAR', 'PE_C_CONFIG_CODE_INTEGRITY_CATALOG', 'PE_C_CONFIG_GUARD_MEMCPY_FUNCTION_POINTER'];
  assert.deepEqual(names.map(field), [0x04030201n, 0x0605n, 0x180002000n]);
  assert.equal(image.call('pe_c_load_config_field', { field: 37 }), null);
});

test('entries of guard tables, one a step and in one call', () => {
  const rows = [0x10, 0x20, 0, 0, 1, 0x30, 0x20, 0, 0, 8], va = wide(0x1_8000_1000 + 280);
  const image = library.open(patched('load_config', [[0, word(280)], [128, [...va, ...wide(2)]], [280, rows]]));
  const walk = () => image.call('pe_c_guard_table', { table: 1 }), found = [...image.items('pe_c_next_guard_entry', walk())];
  assert.deepEqual(found.map((it) => [it.rva, it.flags, it.flag_bytes]),
    [[0x2010, 1, { offset: 0x51Cn, length: 1n }], [0x2030, 8, { offset: 0x521n, length: 1n }]]);
  assert.deepEqual(listed(image, 'pe_c_list_guard_entries', { walk: walk() }), found);
  assert.deepEqual([2, 5].map((table) => image.call('pe_c_guard_table', { table })), [null, null]);
});

test('texts with a final zero', () => {
  const bytes = new Uint8Array([0x41, 0, 0xE9, 0, 0x3D, 0xD8, 0x42, 0, 0, 0, 0x43]), image = library.file(bytes);
  const guid = Uint8Array.from('f6727b490a39fc44878e5a2d63b6cc4b'.match(/../g), (it) => parseInt(it, 16));
  for (const [form, text] of [[0, '497B72F6-390A-44FC-878E-5A2D63B6CC4B'], [1, '497B72F6390A44FC878E5A2D63B6CC4B']]) {
    const room = new Uint8Array(text.length + 1).fill(7);
    assert.equal(image.call('pe_c_guid_text', { guid, form, room }), BigInt(text.length));
    assert.equal(new TextDecoder().decode(room), `${text}\0`);
    const small = { guid, form, room: room.slice(1) };
    assert.equal(refused(() => image.call('pe_c_guid_text', small)).constant, 'PE_C_ROOM');
  }
  const room = new Uint8Array(8), range = { offset: 0n, length: 8n };
  assert.equal(image.call('pe_c_utf16_text', { range, room }), 7n);
  assert.equal(new TextDecoder().decode(room), 'A\xE9\uFFFDB\0');
  const found = image.call('pe_c_text_in', { range: { offset: 10n, length: 1n } });
  assert.deepEqual([found.text, found.is_terminated], [{ offset: 10n, length: 1n }, 0]);
  assert.equal(image.call('pe_c_text_in', { range: { offset: 6n, length: 2n } }).is_terminated, 1);
});

// What no one imports from the package: it is reached beside what they do.
const beside = dirname(createRequire(import.meta.url).resolve('pe-c/facts'));
const { dotted } = await import(pathToFileURL(join(beside, 'signatures.mjs')));

test('the package says which version it is', () => {
  const { name, version: own } = JSON.parse(readFileSync(createRequire(import.meta.url).resolve('pe-c/package.json'), 'utf8'));
  assert.deepEqual([name, own], ['pe-c', version]);
});

test('a number of many octets in an object identifier', () => {
  const octets = new Uint8Array(400_000).fill(0xFF);
  octets[octets.length - 1] = 0x7F;
  const started = performance.now();
  assert.equal(dotted(octets), '?');
  assert.ok(performance.now() - started < 5000);
  const most = [0x29, 0x81, ...Array(8).fill(0xFF), 0x7F], more = [0x29, 0x82, ...Array(8).fill(0x80), 0];
  assert.deepEqual([[0x55, 4, 3], [0x83, 0x80], most, more].map(dotted), ['2.5.4.3', '?', `1.1.${2n ** 64n - 1n}`, '1.1.?']);
});

test('the assembly of .NET metadata', () => {
  const tables = [0, 0, 0, 0, 2, 0, 0, 1, 1, 0, 0, 0, 9, 0, 0, 0, ...wide(0), ...word(1), ...word(1), ...word(2),
    0, 0, 1, 0, 1, 0, 0, 0, 0, 0,
    4, 0x80, 0, 0, 1, 0, 2, 0, 3, 0, 4, 0, ...word(0), 0, 0, 7, 0, 0, 0,
    4, 0, 0, 0, 0, 0, 0, 0, ...word(0), 1, 0, 11, 0, 0, 0, 0, 0,
    5, 0, 6, 0, 0, 0, 0, 0, ...word(1), 1, 0, 11, 0, 17, 0, 0, 0];
  const streams = [['#~\0\0', tables], ['#Strings\0\0\0\0', ascii('\0m.dll\0Own\0Other\0de\0')],
    ['#Blob\0\0\0', [0, 8, 1, 2, 3, 4, 5, 6, 7, 8]], ['#GUID\0\0\0', Array.from({ length: 16 }, (_, i) => i)]];
  const root = [...ascii('BSJB\x01\0\x01\0\0\0\0\0\x0C\0\0\0v4.0.30319\0\0\0\0\x04\0')];
  let offset = root.length + streams.reduce((sum, [name]) => sum + 8 + name.length, 0);
  for (const [name, content] of streams) {
    root.push(...word(offset), ...word(content.length), ...ascii(name));
    offset += content.length;
  }
  for (const [, content] of streams) root.push(...content);
  const said = factsOf(library, patched('clr', [[12, word(root.length)], [72, root]]), 'a.dll').clr.metadata.tables;
  const other = { name: 'Other', has_public_key: true };
  assert.deepEqual(said.module, { name: 'm.dll', mvid: '{03020100-0504-0706-0809-0A0B0C0D0E0F}' });
  assert.deepEqual(said.assembly, { name: 'Own', version: '1.2.3.4', culture: null, has_public_key: false });
  assert.deepEqual(said.references, [
    { ...other, version: '4.0.0.0', culture: null, public_key_token_hex: '0102030405060708' },
    { ...other, version: '5.6.0.0', culture: 'de', public_key_token_hex: null }]);
});

// ---- lists and parts

test('lists return what steps do', () => {
  const steps = {
    exports: ['exports', 'pe_c_export_tables', 'pe_c_next_export', 'exports'],
    libraries: ['imports', 'pe_c_import_libraries', 'pe_c_next_library', 'libraries'],
    delayImports: ['delay_imports', 'pe_c_delay_imports', 'pe_c_next_delay_import', 'entries'],
    resourceLeaves: ['resources', 'pe_c_resource_leaves', 'pe_c_next_resource_leaf', 'leaves'],
    relocationBlocks: ['relocations', 'pe_c_relocation_blocks', 'pe_c_next_relocation_block'],
  };
  for (const [list, [name, start, next, place]] of Object.entries(steps)) {
    const image = opened(name), walk = image.call(start), found = [...image.items(next, place ? { [place]: walk } : walk)];
    assert.ok(found.length, list);
    assert.deepEqual([...image.list(list)], found);
  }
  const of = (image, call, walk, given) => [...image.items(call, structuredClone(walk), given)];
  const imports = opened('imports'), delayed = opened('delay_imports');
  const relocated = opened('relocations'), bound = opened('bound_imports');
  for (const it of imports.list('libraries')) {
    assert.deepEqual([...imports.imports(it)], of(imports, 'pe_c_next_import', { imports: it.imports }));
  }
  for (const it of delayed.list('delayImports')) {
    assert.deepEqual([...delayed.delayedFunctions(it)], of(delayed, 'pe_c_next_delayed_function', { functions: it.functions }));
  }
  for (const it of relocated.list('relocationBlocks')) {
    const found = of(relocated, 'pe_c_next_relocation', it.entries, { page_rva: it.page_rva });
    assert.deepEqual([...relocated.relocations(it)], found);
  }
  const table = bound.call('pe_c_bound_imports'), each = of(bound, 'pe_c_next_bound_import', table, { table });
  const forwarders = (it) => Object.assign(of(bound, 'pe_c_next_bound_forwarder', it.forwarders, { table }), { error: null });
  assert.deepEqual([...bound.boundImports()], each.map((it) => ({ ...it, forwarders: forwarders(it) })));
  assert.ok(each.some((it) => it.forwarders.length > 0n));
});

test('a bound forwarder that is refused ends the forwarders of its DLL alone', () => {
  const whole = opened('bound_imports'), rows = [...whole.boundImports()], { offset } = whole.call('pe_c_bound_imports');
  const counts = rows.map((it) => it.forwarders.length);
  const said = ({ time_date_stamp: stamp, forwarders }) => [stamp, forwarders.length, forwarders.error?.constant];
  let refusals = 0, at = Number(offset);
  for (let i = 0; i < rows.length; i++) {
    for (let j = 0; j < counts[i]; j++, refusals++) {
      // The offset of a name that is past the 64 bytes of the directory.
      const bytes = Uint8Array.from(file('bound_imports'));
      new DataView(bytes.buffer).setUint16(at + 8 * (j + 1) + 4, 0x50, true);
      assert.deepEqual([...library.open(bytes).boundImports()].map(said), rows.map((it, row) => (
        row === i ? [it.time_date_stamp, j, 'PE_C_DIRECTORY_BOUND_IMPORT_NAME'] : said(it))));
    }
    at += 8 * (counts[i] + 1);
  }
  assert.deepEqual([refusals, rows.length], [1, 2]);
});

test('of many DLLs with a bound forwarder that is refused the first are rows', () => {
  const bytes = file('bound_imports'), name = 66 * 16 + 8, large = new Uint8Array(bytes.length + 0x1000), view = new DataView(large.buffer);
  large.set(bytes);
  const [{ pointer_to_raw_data: start }] = library.open(bytes).sections;
  // The section and its directory are larger.
  [[0x150, 0x1000], [0x158, 0x1000], [0x124, name + 8]].forEach(([at, value]) => view.setUint32(at, value, true));
  large.fill(0, start);
  for (let at = start; at < start + name - 8; at += 16) {
    [1, 0, name, 1, 2, 0, 0xFFFF].forEach((it, i) => view.setUint16(at + 2 * i, it, true));
  }
  large.set(new TextEncoder().encode('a.dll'), start + name);
  const rows = [], error = refused(() => {
    for (const it of library.open(large).boundImports()) rows.push(it.forwarders.error.constant);
  });
  assert.deepEqual([rows.length, new Set(rows), error.constant], [64, new Set(['PE_C_DIRECTORY_BOUND_IMPORT_NAME']), 'PE_C_ROOM']);
});

test('tables return what their entries do', () => {
  for (const [name, call, list] of [['functions', 'pe_c_function_at', 'functions'],
    ['arm64_functions', 'pe_c_arm64_function_at', 'functions'], ['exports', 'pe_c_export_at', 'exportAddresses']]) {
    const image = opened(name), table = name === 'exports' ? image.call('pe_c_export_addresses') : image.functionTable();
    const found = [...image[list]()];
    assert.ok(found.length);
    assert.deepEqual(found, found.map((_, index) => image.call(call, { table, index })));
    if (name === 'exports') assert.equal(image.call(call, { table, index: found.length }), null);
    else assert.equal(refused(() => image.call(call, { table, index: found.length })).call, call);
  }
  const object = library.openObject(readFileSync(join(folder, 'object.obj'))), symbols = object.symbols(), { table } = symbols;
  const one = (it) => symbols.name(structuredClone(it));
  assert.deepEqual([...symbols], [...object.items('pe_c_next_symbol', { table, next: 0n })]);
  assert.deepEqual([...symbols].map((it) => symbols.name(it)), [...symbols].map(one));
});

/** An image with so many names of exports, which start in one text of so many bytes, each one later than the one before. */
function namesInOneText(count, length) {
  const from = file('exports'), image = library.open(from), { virtual_address: rva } = image.info.directories[0];
  const start = from.length + length, bytes = new Uint8Array(start + 6 * count).fill(0x41, from.length, start - 1);
  bytes.set(from);
  const view = new DataView(bytes.buffer), at = Number(image.call('pe_c_offset', { rva })), [section] = image.sections;
  const shift = section.virtual_address - section.pointer_to_raw_data;
  for (const field of [0x150, 0x158]) view.setUint32(field, bytes.length - section.pointer_to_raw_data, true);
  const tables = [[24, count], [32, start + shift], [36, start + 4 * count + shift]];
  for (const [field, value] of tables) view.setUint32(at + field, value, true);
  for (let i = 0; i < count; i++) view.setUint32(start + 4 * i, from.length + shift + i, true);
  return library.open(bytes, { mode: constants.PE_C_PERMISSIVE });
}

test('names in one text cost no more than to read it a few times, and a list as values is limited', () => {
  const image = namesInOneText(60_000, 300_000), started = performance.now();
  const lengths = [...image.list('exports')].map((it) => Number(it.name.length));
  assert.deepEqual([lengths.length, lengths[0], lengths.at(-1)], [60_000, 299_999, 240_000]);
  const exports = image.exports();
  assert.deepEqual([exports.isLimited, exports.error, exports[0].name.length], [true, null, 299_999]);
  assert.ok(exports.length < 60);
  assert.equal(factsOf(library, image.slice({ offset: 0n, length: BigInt(image.length) }), 'a.dll').exports.is_limited, true);
  assert.ok(performance.now() - started < 10_000);
});

test('imports and exports as values', () => {
  const functions = (it) => it.functions.map((one) => [one.name, one.ordinal, one.hint]);
  const [first, second, ...more] = opened('imports').imports();
  assert.deepEqual([first.name, functions(first), second.name, functions(second), more],
    ['KERNEL32.dll', [['Sleep', null, 42], [null, 17, null]], 'a.dll', [['f', null, 0]], []]);
  const { exports } = factsOf(library, file('exports'), 'a.dll'), found = opened('exports').exports();
  assert.deepEqual([found.error, found.isLimited, found.namesLeftOut], [null, false, exports.names_left_out]);
  const said = exports.entries.flatMap(({ names, ordinal, rva, forwarder }) => (
    (names.length ? names : [null]).map((name) => ({ name, ordinal, rva, forwarder }))));
  const order = (one, other) => one.ordinal - other.ordinal || String(one.name).localeCompare(String(other.name));
  const ordered = (rows) => [...rows].sort(order);
  assert.deepEqual(ordered(found), ordered(said));
  assert.deepEqual([...opened('tls').exports(), ...opened('tls').imports(), ...opened('tls').delayImports()], []);
  const delayed = opened('delay_imports').delayImports(), others = factsOf(library, file('delay_imports'), 'a.dll').delay_imports;
  assert.deepEqual(delayed.map((it) => [it.name, functions(it)]), others.map((it) => [it.name, functions(it)]));
  const damaged = opened('refused_import').imports();
  assert.ok(damaged.error instanceof PeError || damaged.some((it) => it.functions.error instanceof PeError));
});

test('version information and the manifest as values', () => {
  const image = opened('resources'), [version] = image.versions();
  const { version: said } = factsOf(library, file('resources'), 'a.dll');
  assert.equal(version.fileVersion.join('.'), said.fixed.file_version);
  assert.equal(version.productVersion.join('.'), said.fixed.product_version);
  assert.equal(version.error, null);
  for (const [name, text] of Object.entries(said.texts)) {
    assert.ok(Object.values(version.strings).some((it) => it[name] === text), name);
  }
  const key = Buffer.from('StringFileInfo', 'utf16le'), upper = file('resources');
  upper.set(Buffer.from('STRINGFILEINFO', 'utf16le'), upper.indexOf(key));
  assert.deepEqual(library.open(upper, { mode: 1 }).versions()[0].strings, version.strings);
  // Keys that every object has, in a hostile file: they are strings as others, and no object changes.
  const child = (key, ...children) => ({ key, children }), text = (key) => ({ key, text: `of ${key}` });
  const names = ['__proto__', 'constructor', 'toString'], tables = names.map((key) => child(key, ...names.map(text), text('polluted')));
  const content = library.versionBlock({ ...child('VS_VERSION_INFO', child('StringFileInfo', ...tables)), value: new Uint8Array(52) });
  const [hostile] = library.open(opened('x86_dll').edit([{ type: 16, name: 1, language: 0, content }])).versions();
  assert.deepEqual([{}.polluted, Object.polluted], [undefined, undefined]);
  for (const key of names) {
    assert.deepEqual(Object.entries(Object.getOwnPropertyDescriptor(hostile.strings, key).value), [...names, 'polluted'].map((it) => [it, `of ${it}`]));
  }
  // One whose content is not in the file.
  const leaf = [...image.list('resourceLeaves')].find((it) => it.resource_type.id === 16), moved = file('resources');
  moved.writeUInt32LE(0x7FFF0000, moved.indexOf(Buffer.from(Uint32Array.of(leaf.rva, leaf.size).buffer)));
  const none = library.open(moved, { mode: 1 }).versions();
  assert.deepEqual([none.length, none.error.constant], [0, 'PE_C_UNMAPPED']);
  assert.ok(image.manifest() === null || image.manifest().startsWith('<'));
  assert.deepEqual([...opened('imports').versions(), opened('imports').manifest()], [null]);
});

const pending = [];
test('signatures as values, and the digest that they are of', () => {
  const image = opened('signature'), [signature] = image.signatures();
  const [said] = factsOf(library, file('signature'), 'a.dll').certificates;
  assert.deepEqual([signature.signer, signature.error], [said.signer, null]);
  assert.equal(signature.digest.length > 0, true);
  assert.deepEqual([...opened('imports').signatures()], []);
  const { ranges, zeros } = image.call('pe_c_digest_ranges'), hash = createHash('sha256');
  for (const it of ranges) hash.update(image.slice(it));
  const right = hash.update(new Uint8Array(Number(zeros))).digest('hex');
  pending.push(image.digest().then((it) => test('a digest', () => assert.equal(Buffer.from(it).toString('hex'), right))));
});
pending.push(load({ width: true }).then(() => null, (error) => error).then((it) => test('an option of load that there is not', () => {
  assert.deepEqual([it instanceof TypeError, it?.message], [true, 'width is none of the options: wide']);
})));
await Promise.all(pending);

test('names of functions without a PDB', () => {
  const image = opened('exports'), [named] = image.list('exports'), name = image.utf8(named.name);
  const found = { name, start: named.rva, offset: 0, source: 'export', isNearest: true };
  assert.equal(image.functionTable(), null);
  const asked = [{ rva: named.rva }, { rva: named.rva, isReturn: true }, { rva: named.rva + 1, isReturn: true }, { rva: 0, isReturn: true }];
  const [at, before, after, none] = image.functionNames(asked);
  assert.deepEqual([at, after, none], [found, { ...found, offset: 1 }, null]);
  assert.notDeepEqual(before, found);
  assert.deepEqual([...image.functionNames([]), ...image.functionNames(asked).damaged], []);
  // The tables of exports of an image where their directory is unmapped: names are those of nothing.
  const bytes = Uint8Array.from(file('exports'));
  new DataView(bytes.buffer).setUint32(0xC8, 0x0FFFFFFF, true);
  const refused_ = library.open(bytes).functionNames(asked);
  assert.deepEqual([[...refused_], refused_.damaged.map((it) => [it.part, it.error.constant, it.error.call])],
    [[null, null, null, null], [['exports', 'PE_C_UNMAPPED', 'pe_c_name_tables']]]);
  assert.equal(opened('functions').functionNames([{ rva: 0 }])[0], null);
});

test('what is no record of a list, no walk, no stream and no RVA is said, and lists nothing', () => {
  const image = opened('imports'), [library_] = image.imports(), pdb = pdbWith(), process = library.process({ modules: [], memory: file('imports'), pieces: [] });
  const says = (call, text) => assert.throws(() => { const it = call(); return it?.next?.(); }, (it) => it instanceof TypeError && it.message.includes(text), text);
  // A library as a value is none of the list, and one that was looked for and is not there is no question after all of them.
  for (const it of [library_, {}, undefined, null]) says(() => image.imports(it), 'of the list libraries: it has no imports');
  for (const it of [library_, undefined]) says(() => image.hasUnmappedList(it), 'of the list libraries');
  for (const it of [{}, undefined]) {
    says(() => image.delayedFunctions(it), 'of the list delayImports: it has no functions');
    says(() => image.relocations(it), 'of the list relocationBlocks: it has no entries');
    says(() => image.records(it), 'a function: it has no unwind');
    says(() => image.codes(it), 'an unwind record: it has no codes');
    for (const name of ['elements', 'nameAttributes']) says(() => image[name](it), 'a range: it has no offset');
    for (const name of ['procedures', 'lines']) says(() => pdb[name](it), 'of modules(): it has no stream');
  }
  says(() => image.items('pe_c_next_debug_entry', undefined), 'pe_c_next_debug_entry needs a walk');
  assert.deepEqual([...image.items('pe_c_next_debug_entry', image.call('pe_c_debug_entries'))], []);
  for (const walk of [{ registers: {} }, { remaining: 1 }]) {
    for (const name of ['frames', 'arm64Frames']) says(() => process[name](walk), 'a walk: it has no re');
  }
  for (const it of ['1', undefined, null, 1.5, -1]) assert.throws(() => pdb.stream(it), RangeError);
  for (const it of ['4096', '', null, undefined, 0x1000n]) for (const name of ['find', 'frames']) says(() => pdb[name](it), 'an RVA is a number, and not');
  assert.deepEqual([pdb.find(0x1048 + 0.5), pdb.find(0x1049, { isReturn: 1 }).name], [null, 'entry']);
  for (const it of ['2', undefined]) assert.throws(() => image.debugEntry(it), RangeError);
  for (const placement of [2, 7, '0', null]) says(() => image.attach(new Uint8Array(16), { placement }), 'placement is PE_C_AFTER or PE_C_IN_PLACE');
});

// The samples of the README, one after the other, over images of the tests. The dump's first frame is at RVA 0x1065 of a module that
// is loaded here, where the PDB has `helper` at 0x1050.
const readme = [...readFileSync(join(beside, 'README.md'), 'utf8').matchAll(/^```js\n(.*?)^```/gms)].map((it) => it[1]);
const program = readme.join('').replace(/^import .*\n/gm, '').replaceAll('0x140000000n', '0x180003F9Bn'), lines = [];
const places = { 'a.dll': 'exports.bin', 'a.exe': 'functions.bin', 'a.dmp': 'x64.dmp', 'a.pdb': 't.pdb' };
const withVersion = opened('x86_dll').edit([{ type: 16, name: 1, language: 0x409, content: library.versionInfo({}) }]);
const given = {
  readFileSync: (name) => readFileSync(join(folder, places[name])), load, PeError, constants, image: library.open(withVersion),
  certificate: Uint8Array.of(8, 0, 0, 0, 0, 2, 2, 0), console: { log: (...words) => lines.push(words.join(' ')) },
};
const { constructor: AsyncFunction } = Object.getPrototypeOf(async () => {});
const ran = await new AsyncFunction(...Object.keys(given), program)(...Object.values(given)).catch((error) => error);
test('the samples of the README run', () => {
  assert.deepEqual([readme.length, ran], [6, undefined]);
  assert.equal(lines[0].startsWith('first,second'), true, lines[0]);
  assert.equal(lines.at(-1).startsWith('helper+21'), true, lines.at(-1));
});

test('lines that cannot be written are no success', () => {
  const words = [join(beside, 'pe-js.mjs'), join(folder, 'functions.bin')];
  const status = (to) => spawnSync(process.execPath, words, { stdio: ['ignore', openSync(to, 'w'), 'pipe'], encoding: 'utf8' });
  const full = status('/dev/full'), none = status('/dev/null');
  assert.deepEqual([full.status, full.stderr.startsWith('pe-js: ENOSPC'), none.status, none.stderr], [2, true, 0, '']);
});

test('pe-js says of each line and of each refusal which file it is of', () => {
  const words = [join(beside, 'pe-js.mjs'), join(folder, 'functions.bin'), folder];
  const { stdout, stderr, status } = spawnSync(process.execPath, words, { encoding: 'utf8' });
  assert.deepEqual([JSON.parse(stdout).file, status], [words[1], 2]);
  assert.equal(stderr, `pe-js: ${folder}: EISDIR: illegal operation on a directory, read\n`);
});

test('every call of pe.h succeeds in some test', () => {
  assert.deepEqual(Object.keys(calls).filter((name) => !done.has(name)), []);
});

console.log(`${passed} passed, ${failed} failed`);
process.exit(failed ? 1 : 0);
