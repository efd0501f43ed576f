// The page: files that are dropped or chosen are read one after the other, each by an instance of the module of its
// own, and shown by the facts of facts.mjs. Two files are compared too, by diff.mjs: two that come at once, or a second
// one that comes beside the first. Texts of a file, which may be hostile, reach the page as text alone, and never as markup.
import { Library } from './library.mjs';
import { factsOf } from './facts.mjs';
import { dumpFacts } from './crash.mjs';
import { HARDENING, escaped, hardeningWord, label, named, sectionName, shown } from './rows.mjs';
import { addHashes, differences, regions, wholeFiles } from './diff.mjs';
import { functionRows } from './functions.mjs';
import { module as encoded } from './module.mjs';

const LARGEST = 2 ** 31 - 2 ** 26, ROWS = 500, PERMISSIVE = 1;
const byId = (id) => document.getElementById(id);
const compiled = WebAssembly.compile(Uint8Array.from(atob(encoded), (it) => it.charCodeAt(0))).then((it) => new Library(it));

// ---- parts of the page

const hex = (number) => `0x${number.toString(16)}`;
const count = (number, what) => `${number.toLocaleString('en')} ${what}${number === 1 ? '' : 's'}`;

function add(to, kind, text, className) {
  const made = document.createElement(kind);
  if (text !== undefined) made.textContent = text;
  if (className) made.className = className;
  to.append(made);
  return made;
}

/** A table, whose columns of numbers are right-aligned. Of a long one the rest is shown when it is asked for. */
function table(to, head, rows, numbers = []) {
  const box = add(to, 'div', undefined, 'wide'), made = add(box, 'table');
  if (head) {
    const line = add(add(made, 'thead'), 'tr');
    head.forEach((it, i) => { add(line, 'th', it, numbers.includes(i) ? 'number' : '').scope = 'col'; });
  }
  const body = add(made, 'tbody');
  const more = (from, end) => rows.slice(from, end).forEach((row) => {
    const line = add(body, 'tr');
    row.forEach((it, i) => add(line, 'td', String(it), numbers.includes(i) ? 'number' : ''));
  });
  more(0, ROWS);
  if (rows.length > ROWS) {
    const button = add(box, 'button', `Show ${count(rows.length - ROWS, 'more row')}`);
    button.addEventListener('click', () => { button.remove(); more(ROWS, rows.length); });
  }
}

/** Rows of a name and a value. */
function pairs(to, rows) {
  const box = add(to, 'div', undefined, 'wide'), body = add(add(box, 'table'), 'tbody');
  for (const [name, value] of rows.filter(([, it]) => it !== null && it !== undefined && it !== '')) {
    const line = add(body, 'tr');
    add(line, 'th', name).scope = 'row';
    add(line, 'td', String(value));
  }
}

/** What is shown once it is opened. */
function folded(to, title, fill) {
  const made = add(to, 'details');
  add(made, 'summary', title);
  made.addEventListener('toggle', () => fill(made), { once: true });
}

function refused(to, what, error) {
  if (error) add(to, 'p', `${what}: ${error.text} (${error.name})`, 'bad');
}

/** The names in JSON of the lists of which an image has more than is shown. */
function* limited(value, name = '') {
  if (value === null || typeof value !== 'object') return;
  for (const [key, it] of Object.entries(value)) {
    const own = Array.isArray(value) ? name : key;
    if (it === true && own.endsWith('is_limited')) yield own === 'is_limited' ? name : own.replace(/_is_limited$/, '');
    else yield* limited(it, own);
  }
}

/** Whether a part, or an entry of one, is refused. */
function isRefused(value) {
  if (value === null || typeof value !== 'object') return false;
  return Object.entries(value).some(([key, it]) => (key === 'error' || key.endsWith('_error') ? it !== null : isRefused(it)));
}

function cut(to, facts) {
  const names = [...new Set(limited(facts))].map((it) => it.replaceAll('_', ' '));
  if (names.length) add(to, 'p', `Not shown whole, since the image has more: ${names.join(', ')}`, 'bad limited');
}

// ---- what a file is

function overview(to, { headers, version, debug, clr }) {
  const assembly = clr?.metadata?.tables?.assembly;
  pairs(to, [
    ['Format', [headers.format ?? 'no optional header', headers.is_dll ? 'DLL' : '', named(headers.machine)].filter(Boolean)
      .join(', ')],
    ['Subsystem', named(headers.subsystem)],
    ['Built', headers.time ? headers.time + (headers.is_reproducible === null ? ', if that is no hash: the debug data are refused' : '')
      : headers.is_reproducible ? 'reproducibly, without a time' : 'without a time stamp'],
    ['Entry point', hex(headers.entry_rva)],
    ['Image base', hex(headers.image_base_va)],
    ['Size in memory', `${headers.size_of_image.toLocaleString('en')} bytes`],
    ['Checksum', headers.checksum_state && `${hex(headers.checksum)}, ${headers.checksum_state}`],
    ['File version', version.fixed?.file_version],
    ['Product version', version.fixed?.product_version],
    ['Rights', version.manifest?.requested_level && escaped(version.manifest.requested_level)],
    ...Object.entries(version.texts).map(([name, text]) => [name, escaped(text)]),
    ['PDB', debug.pdb && shown(debug.pdb)],
    ['PDB key', debug.pdb?.key],
    ['PDB of version 2.0', debug.pdb20 && shown(debug.pdb20)],
    ['PDB in the image', debug.embedded_pdb && count(debug.embedded_pdb.size, 'byte')],
    ['Checksum of the PDB', debug.pdb_checksum && `${shown(debug.pdb_checksum, 'algorithm')} ${debug.pdb_checksum.checksum_hex}`],
    ['Assembly of .NET', assembly && `${shown(assembly)} ${assembly.version}`],
    ['Linker', headers.optional?.linker_version],
    ['Subsystem version', headers.optional?.subsystem_version],
  ]);
  refused(to, 'Version information', version.fixed_error);
  refused(to, 'Version strings', version.strings_error ?? version.languages_error);
  refused(to, 'Manifest', version.manifest_error);
  refused(to, 'Debug data', debug.entries_error ?? debug.pdb_error ?? debug.pdb20_error ?? debug.embedded_pdb_error
    ?? debug.pdb_checksum_error ?? debug.repro_error ?? debug.extended_dll_characteristics_error);
}

function hardening(to, facts) {
  add(to, 'h3', 'Hardening, as the image asks for it');
  const made = add(to, 'ul', undefined, 'hardening');
  for (const [text, word] of HARDENING.map(([field, text]) => [text, hardeningWord(facts, field)])) {
    if (word !== 'not applicable') add(made, 'li', `${text}: ${word}`, word === 'yes' ? 'good' : '');
  }
}

function sections(to, all) {
  add(to, 'h3', count(all.length, 'section'));
  const row = (it) => [sectionName(it), it.permissions,
    ...[it.rva, it.virtual_size, it.file_offset, it.file_size].map(hex)];
  table(to, ['Name', 'Access', 'RVA', 'Size', 'File offset', 'Size in file'], all.map(row), [2, 3, 4, 5]);
}

const functionRow = (it) => [it.name === null ? `#${it.ordinal}` : shown(it)];

function libraries(to, title, facts, key) {
  const all = facts[key];
  refused(to, title, facts[`${key}_error`]);
  if (!all?.length) return;
  add(to, 'h3', `${title}: ${count(all.length, 'DLL')}`);
  for (const it of all) {
    folded(to, `${shown(it)} (${it.functions.length.toLocaleString('en')})`, (box) => {
      refused(box, `Lookup table of ${shown(it)}, whose address table is listed`, it.lookup_table_error);
      refused(box, shown(it), it.functions_error);
      table(box, null, it.functions.map(functionRow));
    });
  }
}

function exported(to, facts) {
  refused(to, 'Exports', facts.exports_error);
  const all = facts.exports?.entries;
  if (!all) return;
  const own = facts.exports.name ? ` of ${shown(facts.exports)}` : '';
  add(to, 'h3', `Exports${own}: ${count(all.length, 'function')}`);
  folded(to, 'names', (box) => table(box, ['Ordinal', 'RVA', 'Name', 'Forwarder'], all.map((it) => [it.ordinal, hex(it.rva),
    it.names.map((name) => escaped(name)).join(', '), shown(it, 'forwarder')]), [0, 1]));
}

const signer = ({ signer: it, signer_error: error }) => (it ? escaped(it.subject ?? `number ${it.serial_hex} of ${it.issuer}`)
  : error ? `refused: ${error.text}` : '');

const GUARDS = {
  se_handlers: 'Exception handlers', guarded_functions: 'Guarded functions', guarded_iat_entries: 'Guarded imports',
  long_jump_targets: 'Targets of long jumps', eh_continuations: 'Continuations of exceptions',
};

/** The lists of code that a load configuration leads to. */
function guards(config, error) {
  if (!config) return [['Load configuration', null, error]];
  const flags = (it) => Object.entries(it.flags?.flags ?? {}).filter(([, isSet]) => isSet).map(([name]) => name).join(', ');
  return Object.entries(GUARDS).map(([key, title]) => [title, config[key], config[`${key}_error`], ['RVA', 'Flags'],
    (it) => (key === 'se_handlers' ? [hex(it), ''] : [hex(it.rva), flags(it)]), [0]]);
}

/** Why there are no more references. */
function referencesError(facts) {
  const metadata = facts.clr?.metadata;
  return facts.clr_error ?? facts.clr?.metadata_error ?? metadata?.tables_error ?? metadata?.tables?.references_error;
}

function others(to, facts) {
  const lists = [
    ['Data directories', facts.headers.directories, null, ['Directory', 'Start', 'Size'], (it) => [it.name,
      it.rva === null ? `file offset ${hex(it.file_offset)}` : `RVA ${hex(it.rva)}`, hex(it.size)], [2]],
    ['Certificates, not verified', facts.certificates, facts.certificates_error, ['Type', 'Size', 'Signer', 'Time stamp'], (it) => [
      named(it.type), it.size, signer(it), it.signer?.time_stamp ?? ''], [1]],
    ['Resources', facts.resources, facts.resources_error, ['Type', 'Name', 'Language', 'RVA', 'Size'], (it) => [label(it.type),
      label(it.name), label(it.language), hex(it.rva), it.size], [3, 4]],
    ['Debug entries', facts.debug.entries, null, ['Type', 'Size', 'RVA', 'File offset'], (it) => [named(it.type), it.size,
      hex(it.rva), hex(it.file_offset)], [1, 2, 3]],
    ['TLS callbacks', facts.tls?.callbacks, facts.tls_error ?? facts.tls?.callbacks_error, ['Virtual address'],
      (it) => [hex(it)], [0]],
    ['Base relocations', facts.relocations, facts.relocations_error, ['Page', 'Relocations'], (it) => [hex(it.page_rva),
      it.types.map((one) => `${one.count} ${named(one.type)}`).join(', ') + (it.error ? `; then refused: ${it.error.text}` : '')], [0]],
    ...guards(facts.load_config, facts.load_config_error),
    ['References of .NET', facts.clr?.metadata?.tables?.references, referencesError(facts),
      ['Assembly', 'Version', 'Culture', 'Public key token'], (it) => [shown(it), it.version, shown(it, 'culture'),
        it.public_key_token_hex ?? ''], []],
    ['Rich header', facts.rich?.tools, facts.rich_error, ['Product', 'Build', 'Objects'], (it) => [it.product, it.build,
      it.count], [0, 1, 2]],
  ];
  for (const [title, all, error, head, row, numbers] of lists) {
    refused(to, title, error);
    if (all?.length) folded(to, `${title} (${all.length.toLocaleString('en')})`, (box) => table(box, head, all.map(row), numbers));
  }
}

function show(to, facts) {
  if (facts.error) {
    const kind = facts.file_kind ? ` It is ${facts.file_kind}.` : '';
    add(to, 'p', `This is no image that can be read: ${facts.error.text} (${facts.error.name}).${kind}`, 'bad');
    return;
  }
  overview(to, facts);
  if (!isRefused(facts)) add(to, 'p', 'No part is refused.', 'faint accepted');
  cut(to, facts);
  hardening(to, facts);
  sections(to, facts.sections);
  libraries(to, 'Imports', facts, 'imports');
  libraries(to, 'Delay imports', facts, 'delay_imports');
  exported(to, facts);
  add(to, 'h3', 'More');
  others(to, facts);
}

// ---- what a minidump is

const END_WORDS = {
  bottom: 'the stack is whole by its records', bound: 'there may be more frames',
  zero: 'the last frame returns to 0, after a guess or without records: frames may be missing or wrong',
  'no-module': 'LOST: no module with an image has the address of the last frame',
  'no-function': 'LOST: no function covers the call in the last frame, and no return address is found',
  'no-return-address': 'LOST: the last frame, without records, would return to no executable code',
  'long-chain': 'LOST: more than 32 unwind records are chained',
};

const isAfterNoCall = (it) => it.way === 'records' && !it.has_called;

/** How a frame was found. */
const foundBy = (it) => it.way + (it.has_image === false && it.way !== 'top' ? ', in a module without an image'
  : isAfterNoCall(it) ? ', after no call' : '') + (it.is_guess ? ', a guess' : '');

/** How the walk of a stack ended. */
function endOf(frames, end) {
  if (end === 'bottom' && frames.some(isAfterNoCall)) {
    return 'the last frame returns to 0, but no call precedes the address of a frame: an interrupt stopped it, or the stack was overwritten';
  }
  return end === null ? 'not walked' : END_WORDS[end] ?? 'LOST';
}

/** What `pe report` shows of a dump; images of modules are those in its memory. */
function showDump(to, { reason, address_va: address, threads, modules, refused: errors }) {
  pairs(to, [['Why it crashed', reason], ['At', address !== null && hex(address)], ['Images', 'those in the memory of the dump alone;'
    + ' pe stack takes those of files too']]);
  errors.forEach((it) => add(to, 'p', it, 'bad'));
  const place = (it) => (it.module === null ? '' : `${escaped(it.module)}+${hex(it.offset)}`);
  threads.forEach(({ id, is_crashed: isCrashed, frames, end }) => {
    add(to, 'h3', `Thread ${id}${isCrashed ? ', which crashed' : ''}`);
    add(to, 'p', endOf(frames, end), 'faint');
    table(to, ['Frame', 'Place', 'Address', 'Found by'], frames.map((it, i) => [i, place(it), hex(it.ip_va), foundBy(it)]), [0, 2]);
  });
  add(to, 'h3', count(modules.length, 'module'));
  table(to, ['Name', 'Base', 'Size', 'Image from'], modules.map((it) => [shown(it), hex(it.base_va), hex(it.size), it.image ?? 'none']), [1, 2]);
}

// ---- files

const isDump = (bytes) => [0x4D, 0x44, 0x4D, 0x50].every((it, i) => bytes[i] === it);

/** Reads a file and shows it. Returns its facts, or null where it cannot be read. */
async function read(file) {
  const article = add(byId('found'), 'article');
  add(article, 'h2', escaped(file.name));
  add(article, 'p', `${file.size.toLocaleString('en')} bytes`, 'faint');
  if (file.size > LARGEST) {
    add(article, 'p', 'This file is too large for a page: it reads files up to 2 GB. The program pe reads larger ones.', 'bad');
    return null;
  }
  let bytes;
  try {
    bytes = new Uint8Array(await file.arrayBuffer());
  } catch (error) {
    add(article, 'p', `This file cannot be read: ${error.message}`, 'bad');
    return null;
  }
  try {
    if (isDump(bytes)) {
      const dump = dumpFacts(await compiled, bytes);
      showDump(article, dump);
      return { error: null, dump };
    }
    const found = factsOf(await compiled, bytes, file.name, { mode: PERMISSIVE });
    show(article, found);
    return found;
  } catch (error) {
    add(article, 'p', `This file could not be shown: ${error.message}`, 'bad');
    return null;
  }
}

// ---- two files

const SIGNS = { removed: '\u2212', added: '+', changed: '~' };

/** A table for each part in which something differs, and one of the bytes, above all that is shown of the files. */
function showDifferences(names, found, bytes) {
  const article = document.createElement('article');
  byId('found').prepend(article);
  article.id = 'differences';
  add(article, 'h2', `From ${names.map(escaped).join(' to ')}`);
  if (!bytes.length) add(article, 'p', 'All bytes are the same.');
  for (const part of new Set(found.map((it) => it.part))) {
    const rows = found.filter((it) => it.part === part).map((it) => [SIGNS[it.change], it.name, it.before ?? '', it.after ?? '']);
    const title = part[0].toUpperCase() + part.slice(1).replace('_', ' ');
    add(article, 'h3', `${title}: ${count(rows.length, 'difference')}`);
    table(article, ['', 'Name', 'Before', 'After'], rows);
  }
  if (!bytes.length) return;
  add(article, 'h3', `Bytes: ${count(bytes.length, 'region')}`);
  table(article, ['Region', 'Bytes before', 'Bytes after', 'Different'],
    bytes.map((it) => [it.name, it.before, it.after, it.different].map(String)));
}

const isImage = ({ facts }) => !facts.error && !facts.dump;

/** Compares two files that were read, their bytes alone where one is no image. Returns what differs, in facts and in bytes, or null where
 * a file cannot be read again. */
async function compare(pair) {
  const contents = [], names = pair.map((it) => it.file.name);
  try {
    for (const { file } of pair) contents.push(new Uint8Array(await file.arrayBuffer()));
    if (!pair.every(isImage)) {
      const found = { differences: [], regions: wholeFiles(contents) };
      showDifferences(names, found.differences, found.regions);
      return found;
    }
    const library = await compiled, images = contents.map((it) => library.open(it, { mode: PERMISSIVE }));
    for (const [i, { facts }] of pair.entries()) await addHashes(facts, images[i], contents[i]);
    const rows = await functionRows(images, contents);
    pair.forEach(({ facts }, i) => { facts.function_rows = rows[i]; });
  } catch (error) {
    add(byId('found'), 'p', `The files could not be compared: ${error.message}`, 'bad');
    return null;
  }
  const facts = pair.map((it) => it.facts), found = { differences: differences(...facts), regions: regions(contents, facts) };
  showDifferences(names, found.differences, found.regions);
  return found;
}

// ---- all files

const isRead = ({ facts }) => facts !== null;
// The only file that is shown, beside which another can come; and the number of the run that reads files.
let alone = [], runs = 0;

/** Reads files one after the other, beside those that are shown already. For tests, the facts of all are `window.facts`, and
 * what differs between two is `window.differences`. */
async function readAll(files, shown = []) {
  const all = [...shown], own = runs += 1, from = performance.now();
  if (!shown.length) byId('found').textContent = '';
  byId('beside').hidden = true;
  document.body.removeAttribute('data-done');
  for (const [i, file] of files.entries()) {
    byId('state').textContent = `Reading ${i + 1} of ${files.length}`;
    const facts = await read(file);
    // other files came meanwhile
    if (own !== runs) return;
    all.push({ file, facts });
  }
  window.facts = all.map((it) => it.facts);
  window.differences = all.length === 2 && all.every(isRead) ? await compare(all) : null;
  alone = all.length === 1 && isRead(all[0]) ? all : [];
  byId('beside').hidden = !alone.length;
  byId('state').textContent = `${count(files.length, 'file')}, read in ${Math.round(performance.now() - from).toLocaleString('en')} ms`;
  document.body.dataset.done = 'yes';
}

const boxOf = (event) => byId(!byId('beside').hidden && byId('beside').contains(event.target) ? 'beside' : 'drop');
const leave = () => ['drop', 'beside'].forEach((it) => byId(it).classList.remove('over'));

/** The files that were chosen. The same can be chosen again. */
function chosen({ target }) {
  const files = [...target.files];
  target.value = '';
  return files;
}

byId('files').addEventListener('change', (event) => readAll(chosen(event)));
byId('other').addEventListener('change', (event) => readAll(chosen(event), alone));
addEventListener('dragover', (event) => {
  event.preventDefault();
  leave();
  boxOf(event).classList.add('over');
});
addEventListener('dragleave', leave);
addEventListener('drop', (event) => {
  event.preventDefault();
  leave();
  const files = [...event.dataTransfer.files];
  if (files.length) readAll(files, boxOf(event).id === 'beside' ? alone : []);
});
