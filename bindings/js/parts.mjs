// The parts of an image as values: what its lists and records say, with texts in place of ranges. A hostile image may have as
// many rows as it likes, so each list ends where its rows are more than the bytes of the file account for, and says so.
import { memoryOf } from './calls.mjs';
import { constants } from './layouts.mjs';
import { PeError } from './memory.mjs';
import { algorithmOf, signerOf } from './signatures.mjs';

// What is shown in all is bounded by the file's length times this; each item counts as so many bytes.
const READINGS = 16, ITEM = 8;
// How many lists inside of items count as the file's bytes, read once, if they are refused.
const REFUSED = 4;
const RT_VERSION = 16, FIXED = 52;

/** What the rows of a list may cost, in bytes. */
export class Budget {
  constructor(image, sections = image.sections.length) {
    this.left = image.length * READINGS;
    this.sections = sections;
    this.refused = Math.floor(image.length / REFUSED);
  }

  /** A list inside of an item. One that is refused is paid for: a name in it may have been read to the end of the file. */
  inside(found, error) {
    if (error) this.left = Math.max(0, this.left - this.refused);
    return found;
  }

  takes(count) {
    const left = this.left - count - this.sections;
    if (left >= 0) this.left = left;
    return left >= 0;
  }
}

/** What is read, or null and the error where it is refused. */
function attempt(read) {
  try {
    return { value: read() ?? null, error: null };
  } catch (error) {
    if (!(error instanceof PeError)) throw error;
    return { value: null, error };
  }
}

/** The rows that `of` makes of items, up to the error that ends them, or to an item of which it makes null: what is left is too
 * much. */
function rows(items, of) {
  const found = [];
  let isLimited = false;
  const { error } = attempt(() => {
    for (const it of items) {
      const row = of(it);
      isLimited = row === null;
      if (isLimited) return;
      found.push(row);
    }
  });
  return Object.assign(found, { error, isLimited });
}

// ---- imports and exports

function functionsOf(image, items, budget) {
  const found = rows(items, (it) => (budget.takes(ITEM + (it.has_name ? Number(it.name.length) : 0)) ? {
    name: it.has_name ? image.utf8(it.name) : null,
    ordinal: it.has_name ? null : it.ordinal, hint: it.has_name ? it.ordinal : null,
  } : null));
  return budget.inside(found, found.error);
}

/** The libraries of an image, and what is imported of each. */
export function importsOf(image) {
  const budget = new Budget(image);
  return rows(image.list('libraries'), (library) => {
    if (!budget.takes(ITEM + Number(library.name.length))) return null;
    const hasUnmappedList = image.hasUnmappedList(library);
    const items = hasUnmappedList ? image.addressTable(library) : image.imports(library);
    return { name: image.utf8(library.name), functions: functionsOf(image, items, budget), hasUnmappedList };
  });
}

/** The same of the libraries that are loaded when one of their functions is called first. */
export function delayImportsOf(image) {
  const budget = new Budget(image);
  return rows(image.list('delayImports'), (library) => (budget.takes(ITEM + Number(library.name.length)) ? {
    name: image.utf8(library.name), hasUnmappedList: false,
    functions: functionsOf(image, image.delayedFunctions(library), budget),
  } : null));
}

/** The exports that have a name, in the order of these, and then the others by their ordinals. An RVA of 0 is that of an unused
 * ordinal. */
function* exportedOf(image, table) {
  const named = new Set(), text = (it) => (it.is_forwarder ? it.forwarder : null);
  for (const it of image.list('exports')) {
    named.add(it.index);
    yield { name: it.name, ordinal: table.ordinal_base + it.index, rva: it.rva, forwarder: text(it) };
  }
  let index = 0;
  // As a rule all have names.
  if (BigInt(named.size) === table.addresses.length / 4n) return;
  for (const it of image.exportAddresses()) {
    if (!named.has(index++) && it.rva) yield { name: null, ordinal: Number(it.ordinal), rva: it.rva, forwarder: text(it) };
  }
}

export function exportsOf(image) {
  const table = attempt(() => image.call('pe_c_export_addresses')), budget = new Budget(image);
  if (!table.value) return Object.assign([], { error: table.error, isLimited: false, namesLeftOut: table.error ? null : 0 });
  const text = (range) => (range ? image.utf8(range) : null), length = (range) => Number(range?.length ?? 0);
  const found = rows(exportedOf(image, table.value), ({ name, ordinal, rva, forwarder }) => (
    budget.takes(ITEM + length(name) + length(forwarder))
      ? { name: text(name), ordinal, rva, forwarder: text(forwarder) } : null));
  const isWhole = !found.error && !found.isLimited, named = found.filter((it) => it.name !== null).length;
  const namesLeftOut = isWhole ? image.call('pe_c_export_directory').number_of_names - named : null;
  return Object.assign(found, { namesLeftOut });
}

// ---- version information and manifest

const four = (high, low) => [high >>> 16, high & 0xFFFF, low >>> 16, low & 0xFFFF];

/** The strings of version information by the key of their table, as far as they can be read, and the first error of a block. */
function stringsOf(image, content) {
  // Maps: a key of a hostile file, as __proto__, would name what every object has.
  const tables = new Map(), errors = [], blocks = (walk) => {
    const found = rows(image.items('pe_c_next_version_block', { ...walk }), (it) => it);
    if (found.error) errors.push(found.error);
    return found;
  };
  const isStrings = (it) => image.utf16(it.key).toLowerCase() === 'stringfileinfo';
  const infos = blocks(content).flatMap((root) => blocks(root.children)).filter(isStrings);
  for (const table of infos.flatMap((it) => blocks(it.children))) {
    const key = image.utf16(table.key), found = tables.get(key) ?? new Map();
    tables.set(key, found);
    for (const it of blocks(table.children)) {
      const name = image.utf16(it.key);
      if (!found.has(name)) found.set(name, image.utf16(it.value));
    }
  }
  const strings = Object.fromEntries([...tables].map(([key, found]) => [key, Object.fromEntries(found)]));
  return { strings, error: errors[0] ?? null };
}

function versionOf(image, { language, content }) {
  const fixed = attempt(() => image.call('pe_c_fixed_version_in', { content })), { strings, error } = stringsOf(image, content);
  return {
    language: language.has_name ? image.utf16(language.name, { isWhole: true }) : language.id,
    fileVersion: fixed.value && four(fixed.value.file_version_ms, fixed.value.file_version_ls),
    productVersion: fixed.value && four(fixed.value.product_version_ms, fixed.value.product_version_ls),
    strings, error: fixed.error ?? error,
  };
}

/** Version information in each language. In a hostile image all may be the same bytes. One whose content is not in the file is left out:
 * the first is the error of all. */
export function versionsOf(image) {
  let left = image.length, refused = null;
  const found = rows(image.list('resourceLeaves'), (leaf) => {
    const { resource_type: type, content_result: result } = leaf;
    if (type.has_name || type.id !== RT_VERSION) return {};
    if (result !== constants.PE_C_DONE) {
      refused ??= memoryOf(image).error('pe_c_next_resource_leaf', result);
      return {};
    }
    left -= Number(leaf.content.length) + FIXED;
    return left < 0 ? null : versionOf(image, leaf);
  });
  return Object.assign(found.filter((it) => it.strings), { error: refused ?? found.error, isLimited: found.isLimited });
}

/** The text of the first manifest, or null. XML is UTF-8 unless it starts with a byte order mark. */
export function manifestOf(image) {
  const range = image.call('pe_c_manifest');
  if (!range) return null;
  const bytes = image.slice(range), [one, two] = bytes;
  const encoding = one === 0xFF && two === 0xFE ? 'utf-16le' : one === 0xFE && two === 0xFF ? 'utf-16be' : 'utf-8';
  return new TextDecoder(encoding).decode(bytes);
}

// ---- digests and signatures

/** The Authenticode digest by the hash of the engine: what a signature of the image covers. */
export async function digestOf(image, algorithm) {
  const { ranges, zeros } = image.call('pe_c_digest_ranges'), length = ranges.reduce((sum, it) => sum + Number(it.length), 0);
  const bytes = new Uint8Array(length + Number(zeros));
  let at = 0;
  for (const it of ranges) {
    bytes.set(image.slice(it), at);
    at += Number(it.length);
  }
  return new Uint8Array(await globalThis.crypto.subtle.digest(algorithm, bytes));
}

function signatureOf(image, certificate) {
  const { value: signed, error } = attempt(() => image.call('pe_c_signature', { range: certificate.body }));
  const content = signed?.has_content ? attempt(() => image.call('pe_c_indirect_data', { range: signed.content })) : {};
  return {
    certificate, signer: signerOf(image, certificate), error: error ?? content.error ?? null,
    digestAlgorithm: content.value ? algorithmOf(image, content.value.digest_algorithm) : null,
    digest: content.value ? image.slice(content.value.digest) : null,
  };
}

/** What the signatures of an image say. */
export function signaturesOf(image) {
  const budget = new Budget(image);
  return rows(image.certificates(), (it) => (budget.takes(Number(it.body.length)) ? signatureOf(image, it) : null));
}
