// The rows of an image that are compared: of each part a name and a value, in the words of the program pe (`pe diff`), whose sources
// tables.rs and diff.rs have them. And how texts of a file are shown, which may be hostile.

/** A character that stands for itself: neither a control character nor one that changes how others are laid out. */
const PLAIN = /^[^\p{Cc}\u00ad\u061c\u180e\u200b-\u200f\u2028-\u202e\u2060-\u206f\ufeff\ufff9-\ufffb\u{e0000}-\u{e007f}]$/u;
const digits = (number) => number.toString(16).padStart(2, '0');
export const hex = (bytes) => Array.from(bytes, digits).join('');
const utf8 = new TextDecoder('utf-8', { fatal: true, ignoreBOM: true });

/** A text of a file as it may be shown: what would move or hide other text, by numbers. */
export function escaped(text) {
  const one = (it) => (PLAIN.test(it) ? it : it < '\x80' ? `\\x${digits(it.codePointAt(0))}` : `\\u{${it.codePointAt(0).toString(16)}}`);
  return Array.from(text, one).join('');
}

/** The longest character of UTF-8 at the start of some bytes, or null. */
function firstOf(bytes) {
  for (let length = 1; length <= Math.min(4, bytes.length); length += 1) {
    try {
      return { text: utf8.decode(bytes.subarray(0, length)), length };
    } catch {
      // a longer one may be whole
    }
  }
  return null;
}

/** The bytes of a name that is not UTF-8, by their digits, in the same way. */
function escapedBytes(hex) {
  let bytes = Uint8Array.from(hex.match(/../g), (it) => parseInt(it, 16)), text = '';
  while (bytes.length) {
    const first = firstOf(bytes);
    text += first ? escaped(first.text) : `\\x${digits(bytes[0])}`;
    bytes = bytes.subarray(first?.length ?? 1);
  }
  return text;
}

/** A field that has a name, as it may be shown, or nothing where it has none. */
export function shown(it, field = 'name') {
  const hex = it[`${field}_hex`];
  return hex ? escapedBytes(hex) : escaped(it[field] ?? '');
}
export const sectionName = (it) => shown(it, it.long_name === null ? 'name' : 'long_name');

// ---- rows: a name and a value

const number = (it) => `0x${it.toString(16)}`, wide = (it) => `0x${it.toString(16).padStart(8, '0')}`;
const counted = (count, what) => `${count} ${what}${count === 1 ? '' : 's'}`;
export const named = (it) => it.name ?? number(it.number);
export const label = (it) => (it.name === null ? `#${it.id}` : escaped(it.name));
function flagsOf({ number: all, flags }) {
  const names = Object.keys(flags).filter((it) => flags[it]).join(', ');
  return number(all) + (names && `: ${names}`);
}
const hashed = (it) => (it.sha256_hex ? `, SHA-256 ${it.sha256_hex.slice(0, 16)}` : '');

function built({ is_reproducible: isReproducible, time_date_stamp: stamp, time }) {
  if (isReproducible) return stamp === 0 ? 'reproducibly' : `reproducibly, time stamp ${wide(stamp)} is a hash`;
  if (stamp === 0) return 'without a time stamp';
  const said = `${time.replace('T', ' ').replace('Z', ' UTC')} by its time stamp`;
  return isReproducible === null ? `${said}, if that is no hash: the debug data are refused` : said;
}

/** The rows of the optional header that few look at. */
function optional(it) {
  const base = it.base_of_data_rva === null ? '' : `, at ${number(it.base_of_data_rva)}`;
  const isReserved = it.win32_version_value !== 0 || it.loader_flags !== 0;
  return [
    ['linker', `version ${it.linker_version}`],
    ['versions', `system ${it.operating_system_version}, subsystem ${it.subsystem_version}, image ${it.image_version}`],
    ['code', `${counted(it.size_of_code, 'byte')} at ${number(it.base_of_code_rva)}`],
    ['data', `${counted(it.size_of_initialized_data, 'byte')} initialized, ${it.size_of_uninitialized_data} uninitialized${base}`],
    ['stack', `${it.size_of_stack_reserve} bytes reserved, ${it.size_of_stack_commit} committed`],
    ['heap', `${it.size_of_heap_reserve} bytes reserved, ${it.size_of_heap_commit} committed`],
    ['reserved', isReserved ? `${number(it.win32_version_value)}, loader flags ${number(it.loader_flags)}` : ''],
  ];
}

function coff({ coff: it, optional: header }) {
  const directories = header?.number_of_rva_and_sizes ?? 0, offset = it.symbol_table_file_offset, count = it.number_of_symbols;
  const strings = it.string_table_size === null ? '' : `, ${it.string_table_size} bytes of strings`;
  const sections = counted(it.number_of_sections, 'section');
  return [
    ['counts', `${sections}, ${directories} directories, ${it.size_of_optional_header} bytes of optional header`],
    ['COFF symbols', offset || count ? `${count} at file offset ${number(offset)}${strings}` : ''],
  ];
}

/** All but what an overlay is. */
function headers({ headers: it }) {
  const states = { right: ', right', wrong: `, wrong: ${it.right_checksum === null ? '' : wide(it.right_checksum)} is right` };
  return [
    ['format', it.format ?? 'no optional header'],
    ['machine', named(it.machine)],
    ['subsystem', named(it.subsystem)],
    ['built', built(it)],
    ['entry point', number(it.entry_rva)],
    ['image base', number(it.image_base_va)],
    ['sizes', `image ${it.size_of_image}, headers ${it.size_of_headers}`],
    ['alignment', `sections ${it.section_alignment}, file ${it.file_alignment}`],
    ['checksum', `${wide(it.checksum)}${states[it.checksum_state] ?? ''}`],
    ['flags', it.characteristics.number ? flagsOf(it.characteristics) : ''],
    ['DLL flags', it.dll_characteristics.number ? flagsOf(it.dll_characteristics) : ''],
    ...(it.optional ? optional(it.optional) : []),
    ...coff(it),
  ].filter(([, value]) => value !== '');
}

/** The fields of hardening, and how each is called. */
export const HARDENING = [['aslr', 'ASLR'], ['high_entropy_aslr', 'high-entropy ASLR'], ['dep', 'DEP'], ['cfg', 'CFG'], ['cet', 'CET'],
  ['safe_seh', 'SafeSEH'], ['force_integrity', 'force integrity'], ['signed', 'has a signature entry'], ['no_writable_code', 'no writable code']];
/** What is said of one: it is not known where it applies, and the part that would say it is refused. */
export function hardeningWord({ hardening: it, headers: { machine, dll_characteristics: flags } }, field) {
  if (it[field] !== null) return it[field] ? 'yes' : 'no';
  const isX86 = machine.name === 'x86';
  const applies = { cfg: true, signed: true, cet: isX86 || machine.name === 'x64', safe_seh: isX86 && !flags.flags.NO_SEH };
  return applies[field] ? 'not known' : 'not applicable';
}
const hardening = (facts) => HARDENING.map(([field, name]) => [name, hardeningWord(facts, field)]);

const sections = ({ sections: all }) => all.map((it) => [sectionName(it),
  `${it.permissions}, ${it.virtual_size} bytes in memory, ${it.file_size} in the file${hashed(it)}`]);

const resources = ({ resources: all }) => (all ?? []).map((it) => [[it.type, it.name, it.language].map(label).join(' '),
  `${it.size} bytes${hashed(it)}`]);

/** The functions of each DLL. One of which none is listed has a row by itself. */
const functions = (libraries) => (libraries ?? []).flatMap(({ name_lower: lower, functions: all }) => {
  const dll = escaped(lower ?? '');
  return all.length ? all.map((it) => [`${dll} ${it.name === null ? `#${it.ordinal}` : escaped(it.name)}`, '']) : [[dll, '']];
});

function exported({ exports: found }) {
  return (found?.entries ?? []).flatMap((it) => {
    const value = it.forwarder === null ? '' : `to ${escaped(it.forwarder)}`;
    return it.names.length ? it.names.map((name) => [escaped(name), value]) : [[`#${it.ordinal}`, value]];
  });
}

function versions({ version: { fixed, manifest, languages } }) {
  const level = manifest?.requested_level ?? null;
  const strings = ({ language, strings: all }) => Object.entries(all).map(([name, text]) => (
    [`${label(language)} ${escaped(name)}`, escaped(text)]));
  return [...(fixed ? [['file', fixed.file_version], ['product', fixed.product_version]] : []),
    ...(level === null ? [] : [['rights', escaped(level)]]), ...(languages ?? []).flatMap(strings)];
}

/** The PDB with its key, and what other debug records say, but for VC features. */
function debug({ debug: { pdb, pdb20, repro, embedded_pdb: embedded, pdb_checksum: checksum, extended_dll_characteristics: extended } }) {
  const upper = (it) => it.toString(16).toUpperCase();
  return [
    ...(pdb ? [['PDB', shown(pdb)], ['GUID', `${pdb.guid}, age ${pdb.age}`], ['symbol key', pdb.key]] : []),
    ...(pdb20 ? [['PDB 2.0', `${shown(pdb20)}, ${upper(pdb20.time_date_stamp).padStart(8, '0')}${upper(pdb20.age)}`]] : []),
    ...(repro ? [['Repro', repro.hash_hex ?? 'the time stamps are a hash']] : []),
    ...(embedded ? [['embedded PDB', `${counted(embedded.size, 'byte')}, ${embedded.compressed_size} compressed`]] : []),
    ...(checksum ? [['PDB checksum', `${shown(checksum, 'algorithm')} ${checksum.checksum_hex}`]] : []),
    ...(extended ? [['DLL flags EX', flagsOf(extended)]] : []),
  ];
}

function signers({ certificates }) {
  return (certificates ?? []).filter((it) => it.signer ?? it.signer_error).map(({ signer: it, signer_error: error }) => {
    if (!it) return ['a signature that is refused', `${error.text} (${error.name})`];
    const number = `number ${it.serial_hex} of ${escaped(it.issuer)}`, stamp = it.time_stamp === null ? '' : `, stamped ${it.time_stamp}`;
    return [it.subject === null ? number : escaped(it.subject), `${number}, by ${it.digest_algorithm}${stamp}`];
  });
}

/** The parts, by the names of `pe diff --json`. */
export const PARTS = {
  headers: (it) => [...headers(it), ...hardening(it)], debug, signers, sections, imports: (it) => functions(it.imports),
  delay_imports: (it) => functions(it.delay_imports), exports: exported, version: versions, resources, functions: (it) => it.function_rows ?? [],
};
