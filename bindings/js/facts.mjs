// What an image is, as the program pe says it in JSON (bindings/pe/docs/JSON.md): the same names, values and errors
// of these parts, without hashes, entropy, what an overlay is, and all that needs more than the image. Numbers above
// 2^53 are BigInt.
import { PeError, constants, results } from './library.mjs';
import { Tables } from './metadata.mjs';
import * as names from './names.mjs';
import { Image, modeOf, namedExports } from './image.mjs';
import { bytesOf, memoryOf } from './calls.mjs';
import { Memory } from './memory.mjs';
import { Budget } from './parts.mjs';
import { readSigner } from './signatures.mjs';

const utf8 = new TextDecoder('utf-8', { ignoreBOM: true }), strict = new TextDecoder('utf-8', { fatal: true });
const CODE_AND_WRITABLE = 0xA0000000, PERMISSIONS = [[0x40000000, 'r'], [0x80000000, 'w'], [0x20000000, 'x']];
const X86 = 0x14C, X64 = 0x8664, PE32 = 0x10B;
// What is shown in all is bounded by the file's length times this; each item counts as so many bytes.
const READINGS = 16, ITEM = 8, LONG_NAMES = 96, LEAVES = 65536, TABLES = 4096;

const number = (value) => (typeof value === 'bigint' && value <= Number.MAX_SAFE_INTEGER ? Number(value) : value);
const hex = (bytes) => Array.from(bytes, (it) => it.toString(16).padStart(2, '0')).join('');
const named = (value, table) => ({ number: value, name: table[value] ?? null });
const flags = (value, table) => ({
  number: value,
  flags: Object.fromEntries(Object.entries(table).map(([flag, name]) => [name, (value & flag) !== 0])),
});
const refusal = (error) => ({ number: error.number, name: error.constant.replace('PE_C_', ''), text: error.message });
const time = (stamp, isHash = false) => ({
  time_date_stamp: stamp,
  time: stamp === 0 || isHash ? null : new Date(stamp * 1000).toISOString().replace('.000', ''),
});

/** The digits of bytes that are not UTF-8, or null. */
function hexOf(bytes) {
  try {
    strict.decode(bytes);
    return null;
  } catch {
    return hex(bytes);
  }
}

/** A field that has a name, or null, and beside it the bytes of one that is not UTF-8, as names of sections may be, and of debug data. */
function name(bytes, field = 'name') {
  const digits = bytes && hexOf(bytes);
  return { [field]: bytes && utf8.decode(bytes), ...(digits === null ? {} : { [`${field}_hex`]: digits }) };
}
const untilZero = (bytes) => (bytes.includes(0) ? bytes.slice(0, bytes.indexOf(0)) : bytes);
const lower = (text) => (text === null ? null : text.toLowerCase());

/** A part that may be absent or refused: its value and its error. */
function part(key, read) {
  try {
    return { [key]: read() ?? null, [`${key}_error`]: null };
  } catch (error) {
    if (!(error instanceof PeError)) throw error;
    return { [key]: null, [`${key}_error`]: refusal(error) };
  }
}

/** A list, up to its error: an item that is null ends it, since what is left is too much. */
function list(key, items, of) {
  const found = [], said = { [`${key}_error`]: null, [`${key}_is_limited`]: false };
  try {
    for (const item of items) {
      const one = of(item);
      if (one === null) {
        said[`${key}_is_limited`] = true;
        break;
      }
      found.push(one);
    }
  } catch (error) {
    if (!(error instanceof PeError)) throw error;
    said[`${key}_error`] = refusal(error);
  }
  return { [key]: found, ...said };
}

/** The same of a list that may be absent, or whose start may be refused: the call says which. */
function listAfter(key, image, call, items, of) {
  const none = { [key]: null, [`${key}_error`]: null, [`${key}_is_limited`]: false };
  try {
    return image.call(call) ? list(key, items(), of) : none;
  } catch (error) {
    if (!(error instanceof PeError)) throw error;
    return { ...none, [`${key}_error`]: refusal(error) };
  }
}

const attempt = (read) => {
  try {
    return read();
  } catch (error) {
    if (!(error instanceof PeError)) throw error;
    return null;
  }
};

// ---- headers, hardening, sections

function headers(image) {
  const { info } = image, isReproducible = isHashed(image);
  const isMapped = (info.mode & constants.PE_C_MAPPED) !== 0;
  const right = isMapped ? null : attempt(() => image.call('pe_c_checksum'))?.value ?? null;
  return {
    format: { 64: 'PE32+', 32: 'PE32' }[info.width] ?? null,
    is_dll: (info.characteristics & 0x2000) !== 0,
    machine: named(info.machine, names.MACHINES),
    subsystem: named(info.subsystem, names.SUBSYSTEMS),
    ...time(info.time_date_stamp, isReproducible),
    is_reproducible: isReproducible,
    entry_rva: info.entry,
    image_base_va: number(info.base),
    size_of_image: info.size_of_image,
    size_of_headers: info.size_of_headers,
    section_alignment: info.section_alignment,
    file_alignment: info.file_alignment,
    checksum: info.checksum,
    right_checksum: right,
    checksum_state: right === null ? null : info.checksum === 0 ? 'none' : info.checksum === right ? 'right' : 'wrong',
    characteristics: flags(info.characteristics, names.CHARACTERISTICS),
    dll_characteristics: flags(info.dll_characteristics, names.DLL_CHARACTERISTICS),
    ...allHeaders(image),
    directories: info.directories.map((it, index) => directory(it, index)).filter(Boolean),
  };
}

const versionOf = (header, name) => `${header[`major_${name}_version`]}.${header[`minor_${name}_version`]}`;

function optional(header) {
  return {
    magic: header.magic,
    linker_version: versionOf(header, 'linker'), operating_system_version: versionOf(header, 'operating_system'),
    image_version: versionOf(header, 'image'), subsystem_version: versionOf(header, 'subsystem'),
    size_of_code: header.size_of_code, size_of_initialized_data: header.size_of_initialized_data,
    size_of_uninitialized_data: header.size_of_uninitialized_data,
    base_of_code_rva: header.base_of_code, base_of_data_rva: header.magic === PE32 ? header.base_of_data : null,
    size_of_stack_reserve: number(header.size_of_stack_reserve), size_of_stack_commit: number(header.size_of_stack_commit),
    size_of_heap_reserve: number(header.size_of_heap_reserve), size_of_heap_commit: number(header.size_of_heap_commit),
    win32_version_value: header.win32_version_value, loader_flags: header.loader_flags,
    number_of_rva_and_sizes: header.number_of_rva_and_sizes,
  };
}

/** The numbers of the headers that few programs look at. */
function allHeaders(image) {
  const all = image.headers(), texts = attempt(() => image.call('pe_c_string_table'));
  const { signature, relocations_offset: tableOffset, pe_pointer: peOffset, ...dos } = all.dos;
  return {
    coff: {
      number_of_sections: all.coff.number_of_sections, symbol_table_file_offset: all.coff.pointer_to_symbol_table,
      number_of_symbols: all.coff.number_of_symbol_table, string_table_size: texts && number(texts.length),
      size_of_optional_header: all.coff.size_of_optional_header,
    },
    optional: image.info.width === 0 ? null : optional(all.optional),
    dos: { ...dos, relocations_file_offset: tableOffset, pe_file_offset: peOffset, stub_size: number(all.dos_stub.length) },
  };
}

function directory({ virtual_address: start, size }, index) {
  if (!start && !size) return null;
  const isOffset = index === constants.PE_C_DIRECTORY_SECURITY;
  return { index, name: names.DIRECTORIES[index], rva: isOffset ? null : start, file_offset: isOffset ? start : null, size };
}

/** What is null does not apply, or the part that would say it is refused. */
function hardening(image) {
  const { info } = image, has = (flag) => (info.dll_characteristics & flag) !== 0;
  const config = attempt(() => image.call('pe_c_load_config') ?? {});
  const extended = attempt(() => recordOf(image, 'characteristics') ?? 0);
  const { certificates, certificates_error: isRefused } = list('certificates', image.certificates(), (it) => it);
  const isSigned = certificates.some((it) => it.type === 2);
  const aslr = has(0x40) && (info.characteristics & 1) === 0;
  return {
    aslr,
    high_entropy_aslr: info.width === 64 ? aslr && has(0x20) : null,
    dep: has(0x100),
    cfg: has(0x4000) ? config && Boolean(config.has_guard_flags) && (config.guard_flags & 0x100) !== 0 : false,
    cet: extended !== null && [X86, X64].includes(info.machine) ? (extended & 1) !== 0 : null,
    safe_seh: config && info.machine === X86 && !has(0x400) ? Boolean(config.se_handler_table && config.se_handler_count) : null,
    force_integrity: has(0x80),
    signed: isRefused && !isSigned ? null : isSigned,
    no_writable_code: image.sections.every((it) => (it.characteristics & CODE_AND_WRITABLE) >>> 0 !== CODE_AND_WRITABLE),
  };
}

function sections(image) {
  const table = attempt(() => image.call('pe_c_string_table'));
  return image.sections.map((section, i) => {
    const own = untilZero(Uint8Array.from(section.name));
    const long = table && i < LONG_NAMES ? attempt(() => image.call('pe_c_long_section_name', { table, section })) : null;
    return {
      ...name(own), long_name: long && image.utf8(long), rva: section.virtual_address,
      virtual_size: section.virtual_size, file_offset: section.pointer_to_raw_data, file_size: section.size_of_raw_data,
      permissions: PERMISSIONS.map(([flag, letter]) => ((section.characteristics & flag) !== 0 ? letter : '-')).join(''),
      flags: section.characteristics,
    };
  });
}

// ---- imports and exports

const hintOrOrdinal = (has, value) => (has ? { hint: value, ordinal: null } : { hint: null, ordinal: value });

function functionsOf(image, library, items, budget, more) {
  const own = Number(library.name.length);
  const found = list('functions', items, (it) => budget.takes(ITEM + own + (it.has_name ? Number(it.name.length) : 0)) ? {
    name: it.has_name ? image.utf8(it.name) : null, ...hintOrOrdinal(it.has_name, it.ordinal), ...more(it),
  } : null);
  return budget.inside(found, found.functions_error);
}

function imports(image) {
  const budget = new Budget(image);
  return listAfter('imports', image, 'pe_c_import_libraries', () => image.list('libraries'), (library) => {
    if (!budget.takes(ITEM + Number(library.name.length))) return null;
    const own = image.utf8(library.name), isUnmapped = image.hasUnmappedList(library);
    const items = isUnmapped ? image.addressTable(library) : image.imports(library);
    return { name: own, name_lower: lower(own),
      ...functionsOf(image, library, items, budget, (it) => ({ slot_rva: number(it.rva) })),
      lookup_table_error: isUnmapped && library.lookup_table_rva ? refusal(image.refused('', 'PE_C_UNMAPPED')) : null };
  });
}

function delayImports(image) {
  const budget = new Budget(image);
  return listAfter('delay_imports', image, 'pe_c_delay_imports', () => image.list('delayImports'), (library) => {
    if (!budget.takes(ITEM + Number(library.name.length))) return null;
    const own = image.utf8(library.name);
    return { name: own, name_lower: lower(own), ...time(library.descriptor.time_date_stamp),
      ...functionsOf(image, library, image.delayedFunctions(library), budget, () => ({})) };
  });
}

/** How many bytes were read of an export's forwarder: one that has no text is read up to a zero too. */
function readOfForwarder(image, it) {
  if (!it.is_forwarder || it.forwarder.length) return Number(it.forwarder.length);
  const offset = image.call('pe_c_offset', { rva: it.rva }), length = BigInt(image.length);
  if (offset === null || offset >= length) return 0;
  return Number(image.call('pe_c_text_in', { range: { offset, length: length - offset } }).text.length);
}

function exports(image) {
  return part('exports', () => {
    const table = image.call('pe_c_export_addresses'), tables = image.call('pe_c_export_tables');
    if (!table || !tables) return null;
    let isLimited = false, budget = new Budget(image);
    const byIndex = new Map();
    // Without a directory no export is a forwarder, whose text is read below.
    const exports = { ...tables, directory: { virtual_address: 0, size: 0 } };
    for (const it of namedExports(image, exports)) {
      isLimited = !budget.takes(ITEM + Number(it.name.length));
      if (isLimited) break;
      // All names of a hostile image may have one index.
      if (!byIndex.has(it.index)) byIndex.set(it.index, []);
      byIndex.get(it.index).push(image.utf8(it.name));
    }
    budget = new Budget(image);
    const entries = [];
    let index = 0;
    for (const it of image.exportAddresses()) {
      const names_ = byIndex.get(index++) ?? [];
      if (it.rva === 0) continue;
      if (!budget.takes(ITEM + readOfForwarder(image, it))) {
        isLimited = true;
        break;
      }
      entries.push({ ordinal: number(it.ordinal), rva: it.rva, names: names_,
        forwarder: it.is_forwarder ? image.utf8(it.forwarder) : null });
    }
    const own = table.has_name ? image.utf8(table.name) : null, shown = entries.reduce((sum, it) => sum + it.names.length, 0);
    const leftOut = isLimited ? null : Math.max(0, image.call('pe_c_export_directory').number_of_names - shown);
    return { name: own, name_lower: lower(own), ordinal_base: table.ordinal_base, entries, is_limited: isLimited, names_left_out: leftOut };
  });
}

// ---- debug data

const digits = (bytes) => hex(bytes).toUpperCase();

function guid(bytes) {
  const order = [3, 2, 1, 0, 5, 4, 7, 6, 8, 9, 10, 11, 12, 13, 14, 15].map((i) => bytes[i]);
  return digits(order);
}

/** The digits of a GUID as Windows writes them. */
function hyphenated(all) {
  const cut = [0, 8, 12, 16, 20, 32];
  return `{${cut.slice(1).map((end, i) => all.slice(cut[i], end)).join('-')}}`;
}

/** The record of the first debug entry of its type: a field of pe_c_debug_records, or null. */
function recordOf(image, field) {
  const found = image.call('pe_c_debug_data'), result = found[`${field}_result`];
  if (result === constants.PE_C_NOTHING) return null;
  if (result !== constants.PE_C_DONE) throw image.refused('pe_c_debug_data', results[result]);
  return found[field];
}

/** Whether time stamps are a hash, which a Repro record says; null where that is refused. */
const isHashed = (image) => attempt(() => Boolean(recordOf(image, 'repro')));

function debug(image) {
  const isHash = isHashed(image);
  const entry = (it) => ({ type: named(it.data_type, names.DEBUG_TYPES), size: it.size_of_data, rva: it.address_of_raw_data,
    file_offset: it.pointer_to_raw_data, ...time(it.time_date_stamp, isHash) });
  return {
    ...listAfter('entries', image, 'pe_c_debug_entries', () => image.list('debugEntries'), entry),
    ...part('pdb', () => {
      const key = image.call('pe_c_symbol_key');
      if (!key) return null;
      const all = guid(key.guid);
      return { ...name(untilZero(image.slice(key.name))), guid: hyphenated(all), age: key.age,
        key: `${all}${key.age.toString(16).toUpperCase()}` };
    }),
    ...part('pdb20', () => {
      const record = recordOf(image, 'pdb20');
      return record && { ...name(untilZero(image.slice(record.name))), ...time(record.signature), age: record.age };
    }),
    ...part('repro', () => {
      const record = recordOf(image, 'repro');
      return record && { hash_hex: record.has_hash ? hex(image.slice(record.hash)) : null };
    }),
    ...part('extended_dll_characteristics', () => {
      const value = recordOf(image, 'characteristics');
      return value === null ? null : flags(value, names.EXTENDED_DLL_CHARACTERISTICS);
    }),
    ...part('embedded_pdb', () => {
      const record = recordOf(image, 'embedded');
      return record && { size: record.uncompressed_size, compressed_size: number(record.compressed.length) };
    }),
    ...part('pdb_checksum', () => {
      const record = recordOf(image, 'checksum');
      return record && { ...name(image.slice(record.algorithm), 'algorithm'), checksum_hex: hex(image.slice(record.checksum)) };
    }),
  };
}

function certificates(image) {
  const said = list('certificates', image.certificates(), (it) => (
    { size: it.length, revision: it.revision, type: named(it.type, names.CERTIFICATE_TYPES),
      ...part('signer', () => readSigner(image, it)) }));
  return said.certificates.length || said.certificates_error ? said : { ...said, certificates: null };
}

// ---- resources and version information

const label = (image, it) => (it.has_name
  ? { id: null, name: image.utf16(it.name, { isWhole: true }) } : { id: it.id, name: null });
/** A language, by its variant or without it. */
const language = (id) => ({ id, name: names.VARIANTS[id] ?? names.LANGUAGES[id & 0x3FF] ?? null });
const languageOf = (image, it) => (it.has_name ? label(image, it) : language(it.id));

const isVersion = ({ resource_type: type }) => !type.has_name && type.id === 16;

function resources(image) {
  const budget = new Budget(image), length = (it) => (it.has_name ? Number(it.name.length) : 0);
  let count = 0;
  return listAfter('resources', image, 'pe_c_resource_leaves', () => image.list('resourceLeaves'), (leaf) => {
    const cost = length(leaf.resource_type) + length(leaf.name) + length(leaf.language) + (isVersion(leaf) ? leaf.size : 0);
    if (count++ >= LEAVES || !budget.takes(cost)) return null;
    const type = label(image, leaf.resource_type);
    return {
      type: { ...type, name: type.name ?? names.RESOURCE_TYPES[type.id] ?? null }, name: label(image, leaf.name),
      language: languageOf(image, leaf.language), rva: leaf.rva, size: leaf.size, code_page: leaf.code_page,
    };
  });
}

const four = (high, low) => [high >>> 16, high & 0xFFFF, low >>> 16, low & 0xFFFF].join('.');

const VERSION_NAMES = ['Comments', 'CompanyName', 'FileDescription', 'FileVersion', 'InternalName', 'LegalCopyright', 'LegalTrademarks',
  'OriginalFilename', 'PrivateBuild', 'ProductName', 'ProductVersion', 'SpecialBuild'];
// How many bytes version information has up to the end of the fixed file information: lengths, a type, the key, the value.
const UP_TO_FIXED = 6 + 32 + 2 + 52;

/** The fixed file information of the first bytes, without the strings that follow. */
function fixedAlone(image) {
  const content = image.call('pe_c_version_blocks');
  if (content && content.length > UP_TO_FIXED) content.length = BigInt(UP_TO_FIXED);
  return content && image.call('pe_c_fixed_version_in', { content });
}

/** The texts of the blocks as far as they can be read, of which a text may be damaged. */
function textsOfBlocks(image) {
  const blocks = (walk) => list('blocks', image.items('pe_c_next_version_block', walk), (it) => it).blocks, found = {};
  const isIt = (it, key) => key === null || image.utf16(it.key).toLowerCase() === key;
  const below = (of, key) => of.flatMap((it) => (isIt(it, key) ? blocks({ ...it.children }) : []));
  const [root] = blocks(attempt(() => image.call('pe_c_version_blocks')) ?? { offset: 0n, length: 0n });
  for (const it of below(below(root ? blocks({ ...root.children }) : [], 'stringfileinfo'), null)) {
    const key = image.utf16(it.key);
    if (VERSION_NAMES.includes(key)) found[key] ??= image.utf16(it.value);
  }
  return found;
}

/** The resources of version information, as far as the tree is read: what is wrong with it is said of the resources. */
function versionLeaves(image) {
  let count = 0;
  return list('leaves', image.list('resourceLeaves'), (it) => (count++ < LEAVES ? it : null)).leaves.filter(isVersion);
}

/** The string tables of a resource of version information, and null where it has more than are `left`. What is refused ends them. */
function* stringTables(image, leaf, left) {
  if (leaf.content_result !== constants.PE_C_DONE) throw memoryOf(image).error('pe_c_next_resource_leaf', leaf.content_result);
  const blocks = (walk) => image.items('pe_c_next_version_block', { ...walk }), own = languageOf(image, leaf.language);
  const [root] = blocks(leaf.content);
  for (const information of root ? blocks(root.children) : []) {
    if (image.utf16(information.key).toLowerCase() !== 'stringfileinfo') continue;
    for (const table of blocks(information.children)) {
      if (left-- === 0) {
        yield null;
        return;
      }
      const strings = new Map(), isOwn = table.has_language && (table.language !== 0 || own.id === 0);
      for (const it of blocks(table.children)) {
        const key = image.utf16(it.key);
        if (!strings.has(key)) strings.set(key, image.utf16(it.value));
      }
      yield { language: isOwn ? language(table.language) : own, code_page: table.has_language ? table.code_page : null,
        strings: Object.fromEntries(strings) };
    }
  }
}

/** All of them, and null where the image has more. */
function* allStringTables(image, leaves) {
  const budget = new Budget(image);
  let count = 0;
  for (const leaf of leaves) {
    if (!budget.takes(leaf.size) || count >= TABLES) {
      yield null;
      return;
    }
    for (const table of stringTables(image, leaf, TABLES - count)) {
      count += 1;
      yield table;
    }
  }
}

/** What there is in languages. Of one that is shown first are `strings`: neutral or English (US), else the first. */
function languages(image) {
  const leaves = versionLeaves(image), said = list('languages', allStringTables(image, leaves), (it) => it), all = said.languages;
  const first = all.find((it) => [0, 0x409].includes(it.language.id)) ?? all[0], isThere = all.length > 0 || said.languages_error !== null;
  return {
    fixed_language: leaves.length ? languageOf(image, leaves[0].language) : null, language: first?.language ?? null,
    strings: first?.strings ?? null, ...said, languages: isThere ? all : null, languages_is_limited: isThere && said.languages_is_limited,
  };
}

const after = (text, what) => (text.includes(what) ? text.slice(text.indexOf(what) + what.length) : '');

/** The manifest, and the level of its requestedExecutionLevel. Values of the attributes of that element have no `>`. */
function manifest(image) {
  return part('manifest', () => {
    const range = image.call('pe_c_manifest');
    if (range === null) return null;
    const [element] = after(utf8.decode(image.slice(range)), 'requestedExecutionLevel').split('>', 1);
    return { size: Number(range.length), requested_level: after(element, 'level').match(/^\s*=\s*(["'])(.*?)\1/s)?.[2] ?? null };
  });
}

const version = (image) => ({ ...fixedAndTexts(image), ...languages(image), ...manifest(image) });

function fixedAndTexts(image) {
  const of = (it) => it && { file_version: four(it.file_version_ms, it.file_version_ls),
    product_version: four(it.product_version_ms, it.product_version_ls) };
  const whole = part('fixed', () => of(image.call('pe_c_fixed_version')));
  const alone = whole.fixed_error && attempt(() => of(fixedAlone(image)));
  if (alone) return { fixed: alone, fixed_error: null, strings_error: whole.fixed_error, texts: textsOfBlocks(image) };
  return {
    ...whole, strings_error: null,
    texts: Object.fromEntries(VERSION_NAMES.map((text, i) => [text, attempt(() => image.call('pe_c_version_text', { name: i }))])
      .filter(([, range]) => range).map(([text, range]) => [text, image.utf16(range)])),
  };
}

// ---- the other directories

function tls(image) {
  return part('tls', () => {
    const found = image.call('pe_c_tls');
    return found && { start_va: number(found.start_address_of_raw_data), end_va: number(found.end_address_of_raw_data),
      index_va: number(found.address_of_index), zero_fill: found.size_of_zero_fill, characteristics: found.characteristics,
      ...tlsCallbacks(image, found) };
  });
}

function tlsCallbacks(image, found) {
  const none = { callbacks: null, callbacks_error: null, callbacks_is_limited: false };
  try {
    return image.call('pe_c_tls_callbacks', { tls: found }) ? list('callbacks', image.tlsCallbacks(), number) : none;
  } catch (error) {
    if (!(error instanceof PeError)) throw error;
    return { ...none, callbacks_error: refusal(error) };
  }
}

function relocations(image) {
  return listAfter('relocations', image, 'pe_c_relocation_blocks', () => image.list('relocationBlocks'), (block) => {
    const counts = new Map();
    const said = list('kinds', image.relocations(block), (it) => {
      counts.set(it.kind, (counts.get(it.kind) ?? 0) + 1);
      return true;
    });
    const types = [...counts].sort((a, b) => a[0] - b[0])
      .map(([kind, count]) => ({ type: named(kind, names.RELOCATION_TYPES), count }));
    return { page_rva: block.page_rva, types, error: said.kinds_error };
  });
}

/** A field of a load configuration, or null where its structure is too short. */
const fieldOf = (config, name) => (config[`has_${name}`] ? number(config[name]) : null);

function loadConfig(image) {
  return part('load_config', () => {
    const config = image.call('pe_c_load_config');
    if (!config) return null;
    const stamp = fieldOf(config, 'time_date_stamp'), guardFlags = fieldOf(config, 'guard_flags');
    return {
      size: config.size, ...time(stamp ?? 0), time_date_stamp: stamp,
      ...Object.fromEntries(['major_version', 'minor_version', 'dependent_load_flags'].map((it) => [it, fieldOf(config, it)])),
      security_cookie_va: fieldOf(config, 'security_cookie'),
      se_handler_table_va: fieldOf(config, 'se_handler_table'), se_handler_count: fieldOf(config, 'se_handler_count'),
      guard_cf_check_function_pointer_va: fieldOf(config, 'guard_cf_check_function_pointer'),
      guard_cf_dispatch_function_pointer_va: fieldOf(config, 'guard_cf_dispatch_function_pointer'),
      guard_cf_function_table_va: fieldOf(config, 'guard_cf_function_table'),
      guard_cf_function_count: fieldOf(config, 'guard_cf_function_count'),
      guard_flags: guardFlags === null ? null : flags(guardFlags, names.GUARD_FLAGS),
      fields: Object.fromEntries(names.LOAD_CONFIG_FIELDS.map((it, field) => [it, fieldAt(image, field)])),
      ...guards(image, new Budget(image, 0)),
    };
  });
}

function fieldAt(image, field) {
  const value = image.call('pe_c_load_config_field', { field });
  return value === null ? null : number(value);
}

// The tables of a load configuration, by the names of the lists.
const GUARDS = {
  se_handlers: 'PE_C_GUARD_SE_HANDLERS', guarded_functions: 'PE_C_GUARD_CF_FUNCTIONS',
  guarded_iat_entries: 'PE_C_GUARD_ADDRESS_TAKEN_IAT_ENTRIES', long_jump_targets: 'PE_C_GUARD_LONG_JUMP_TARGETS',
  eh_continuations: 'PE_C_GUARD_EH_CONTINUATIONS',
};
// How many bytes an RVA has, and how many an entry of a list counts for.
const SIZE_OF_RVA = 4, ENTRY = 8;

/** The lists of code that a load configuration leads to. They have one budget: tables may be the same bytes. */
function guards(image, budget) {
  return Object.assign({}, ...Object.entries(GUARDS).map(([key, table]) => guardList(image, key, constants[table], budget)));
}

function guardList(image, key, table, budget) {
  const said = part(key, () => image.call('pe_c_guard_table', { table })), walk = said[key];
  if (walk === null) return { ...said, [`${key}_is_limited`]: false };
  const flagsOf = (it) => (walk.flag_size ? flags(it.flags, names.GUARDED_FLAGS) : null);
  const of = (it) => (key === 'se_handlers' ? it.rva : { rva: it.rva, flags: flagsOf(it) });
  // Each byte of an entry counts for an entry, so tables that share no bytes are shown whole: they cannot use the budget up.
  const takes = budget.takes.bind(budget, ENTRY * (SIZE_OF_RVA + walk.flag_size));
  return list(key, image.items('pe_c_next_guard_entry', walk), (it) => (takes() ? of(it) : null));
}

const CLR_DIRECTORIES = ['metadata', 'resources', 'strong_name_signature', 'code_manager_table', 'vtable_fixups',
  'export_address_table_jumps', 'managed_native_header'];

function clr(image) {
  return part('clr', () => {
    const header = image.call('pe_c_clr_header');
    return header && {
      size: header.cb, runtime_version: `${header.major_runtime_version}.${header.minor_runtime_version}`,
      flags: flags(header.flags, names.CLR_FLAGS), entry_point_token: header.entry_point_token,
      directories: CLR_DIRECTORIES.map((it) => ({ name: it.replaceAll('_', ' '), rva: header[it].virtual_address,
        size: header[it].size })).filter((it) => it.rva || it.size),
      ...part('metadata', () => metadata(image, image.call('pe_c_clr_metadata', { header }))),
    };
  });
}

function metadata(image, found) {
  const contents = new Map();
  const streams = list('streams', image.metadataStreams(), (it) => {
    const own = image.utf8(it.name);
    if (!contents.has(own)) contents.set(own, it.has_content ? image.slice(it.content) : new Uint8Array());
    return { ...name(image.slice(it.name)), offset: it.offset, size: it.size, is_there: Boolean(it.has_content) };
  });
  return {
    ...name(untilZero(image.slice(found.version)), 'version'), format_version: `${found.major_version}.${found.minor_version}`,
    ...streams, ...part('tables', () => metadataTables(contents, Number(found.streams.metadata.length))),
  };
}

function metadataTables(contents, length) {
  const heap = (key) => contents.get(key) ?? new Uint8Array();
  const bytes = [...contents].find(([key]) => key === '#~' || key === '#-')?.[1];
  if (!bytes) return null;
  const tables = new Tables({ tables: bytes, texts: heap('#Strings'), guids: heap('#GUID'), blobs: heap('#Blob') });
  const named = ({ name: own, culture }) => ({ ...name(own), ...name(culture.length ? culture : null, 'culture') });
  let left = length * READINGS;
  const references = list('references', tables.references(), (it) => {
    const cost = ITEM + it.name.length + it.culture.length;
    if (cost > left) return null;
    left -= cost;
    return { version: it.version, has_public_key: it.has_public_key, ...named(it),
      public_key_token_hex: it.token && hex(it.token) };
  });
  const { module, assembly } = tables;
  return {
    module: module && { ...name(module.name), mvid: module.mvid && hyphenated(guid(module.mvid)) },
    assembly: assembly && { version: assembly.version, has_public_key: assembly.has_public_key, ...named(assembly) },
    ...references,
  };
}

function rich(image) {
  return part('rich', () => {
    const header = image.call('pe_c_rich_header');
    return header && { key: header.key, checksum: header.checksum,
      ...list('tools', image.richEntries(), ({ product, build, count }) => (
        { product, product_name: names.PRODUCTS[product] ?? null, build, count })) };
  });
}

/** What a file is that is no image, by its first bytes. */
export function kindOf(given) {
  const bytes = bytesOf(given), starts = (text) => [...text].every((it, i) => bytes[i] === it.charCodeAt(0));
  if (bytes.length === 0) return 'an empty file';
  if (starts('\x7fELF')) return 'an ELF file';
  if (starts('!<arch>\n')) return 'an archive of objects';
  if (starts('PK\x03\x04')) return 'a ZIP archive';
  if (starts('MDMP')) return 'a minidump, which pe stack shows';
  if (starts('Microsoft C/C++ MSF 7.00\r\n\x1aDS\0\0\0')) return 'a PDB, which pe pdb shows';
  if (starts('Microsoft C/C++ program database 2.00\r\n')) return 'a PDB of version 2.0';
  if (starts('BSJB')) return 'a portable PDB, or other metadata of .NET';
  return null;
}

/** The facts of an image that is open. */
export function facts(image, fileName = '') {
  return {
    file: fileName, file_size: image.length, error: null,
    headers: headers(image), hardening: hardening(image), sections: sections(image),
    ...imports(image), ...exports(image), debug: debug(image), ...certificates(image), version: version(image), ...tls(image),
    ...relocations(image), ...delayImports(image), ...loadConfig(image), ...clr(image), ...rich(image), ...resources(image),
  };
}

// The instance that the next file of a library is read in, unless its memory has more bytes than these: facts are values, and the image
// that they are of ends with them.
const spare = new WeakMap(), MOST_SPARE = 1 << 24;

/** The facts of a file: of one that is refused, why. */
export function factsOf(library, given, fileName, options) {
  const mode = modeOf(options), bytes = bytesOf(given), memory = spare.get(library) ?? new Memory(library.module), { free } = memory;
  let image, said;
  spare.delete(library);
  try {
    image = new Image(memory, bytes, mode);
  } catch (error) {
    if (!(error instanceof PeError)) throw error;
    said = { file: fileName, file_size: bytes.length, error: refusal(error), file_kind: kindOf(bytes) };
  }
  said ??= facts(image, fileName);
  memory.free = free;
  if (memory.all.length <= MOST_SPARE) spare.set(library, memory);
  return said;
}
