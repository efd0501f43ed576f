// Resources as values, and version information as bytes: what is written in place of that which an image has.
import { bytesOf, memoryOf, written } from './calls.mjs';
import { constants } from './layouts.mjs';
import { only, whole } from './memory.mjs';

// The most leaves that a tree can be written of, and the most bytes that their names can have.
const MOST = 65535, MOST_NAMES = 1 << 24;
// The signature of VS_FIXEDFILEINFO, and UTF-16 as a code page.
const SIGNATURE = 0xFEEF04BD, UNICODE = 1200;

/** The code units of a text, little-endian. A text of JavaScript has them, an unpaired surrogate too. */
function units(text) {
  // A number has no length, and would be an empty text.
  if (typeof text !== 'string') throw new TypeError(`${String(text)} is no text`);
  const bytes = new Uint8Array(2 * text.length), view = new DataView(bytes.buffer);
  for (let i = 0; i < text.length; i++) view.setUint16(2 * i, text.charCodeAt(i), true);
  return bytes;
}

/** The same with a zero at the end, but of an empty text. */
const ended = (text) => joined([units(text), new Uint8Array(text ? 2 : 0)]);

function textOf(bytes) {
  const view = new DataView(bytes.buffer, bytes.byteOffset);
  return Array.from({ length: bytes.length >> 1 }, (_, i) => String.fromCharCode(view.getUint16(2 * i, true))).join('');
}

/** Side by side. */
function joined(parts) {
  const bytes = new Uint8Array(parts.reduce((sum, it) => sum + it.length, 0));
  let at = 0;
  for (const it of parts) {
    bytes.set(it, at);
    at += it.length;
  }
  return bytes;
}

/** Parts of an array, and what adds one and returns its range. */
function ranges() {
  const parts = [];
  let end = 0n;
  return {
    parts,
    range(bytes) {
      const offset = end;
      parts.push(bytes);
      end += BigInt(bytes.length);
      return { offset, length: end - offset };
    },
  };
}

// ---- resources

/** All resources of an image: what a type or a name is called is an id or a text. They are not more than can be written. */
export function resourcesOf(image) {
  const found = [], refuse = (number) => { throw memoryOf(image).error('pe_c_next_resource_leaf', number); };
  let left = image.length, names = MOST_NAMES;
  const key = (it) => {
    names -= Number(it.name.length);
    if (names < 0) refuse(constants.PE_C_EDIT_NAMES);
    return it.has_name ? textOf(image.slice(it.name)) : it.id;
  };
  for (const leaf of image.list('resourceLeaves')) {
    if (leaf.content_result !== constants.PE_C_DONE) refuse(leaf.content_result);
    if (leaf.language.has_name) refuse(constants.PE_C_EDIT_RECORD);
    // In a hostile image many leaves may share one content.
    left -= Number(leaf.content.length);
    if (left < 0) refuse(constants.PE_C_EDIT_CONTENTS);
    if (found.length === MOST) refuse(constants.PE_C_EDIT_TOO_MANY);
    found.push({ type: key(leaf.resource_type), name: key(leaf.name), language: leaf.language.id, codePage: leaf.code_page,
      content: image.slice(leaf.content) });
  }
  return found;
}

const isText = (key) => typeof key === 'string';

/** The order of the format: texts by their code units, and before ids. */
function order(one, other) {
  if (isText(one) !== isText(other)) return isText(one) ? -1 : 1;
  return one < other ? -1 : one > other ? 1 : 0;
}

/** Resources as pe_c_edit takes them: records, and the array with their names and contents. */
export function recordsOf(resources) {
  const sorted = [...resources].sort((one, other) => order(one.type, other.type) || order(one.name, other.name)
    || order(one.language, other.language));
  const { parts, range } = ranges();
  const number = (value) => whole('uint32_t', value);
  const key = (it) => (isText(it) ? { name: range(units(it)), has_name: 1 } : { id: number(it) });
  for (const it of sorted) only('fields of a resource', ['type', 'name', 'language', 'codePage', 'content'], it);
  const records = sorted.map((it) => ({
    resource_type: key(it.type), name: key(it.name), content: range(bytesOf(it.content)),
    language: number(it.language), code_page: number(it.codePage ?? 0),
  }));
  return { resources: records, data: joined(parts) };
}

// ---- version information

/** A block of version information and the blocks in it, as bytes: a value is bytes, or a text. */
export function blockOf(caller, block) {
  const { key, text = '', value, children = [] } = only('fields of a block', ['key', 'text', 'value', 'children'], block);
  const hasText = value === undefined || value === null;
  const given = {
    key: units(key), is_text: Number(hasText), value: hasText ? ended(text) : bytesOf(value),
    children: joined(children.map((it) => blockOf(caller, it))),
  };
  if (text && !hasText) throw new TypeError('a block has a value or a text, and not both');
  // A reader takes a text up to its first zero.
  if (text.includes('\0')) throw memoryOf(caller).error('pe_c_write_block', constants.PE_C_BLOCK_TEXT);
  return written(caller, 'pe_c_write_block', given);
}

/** Version information of one language, as bytes. */
export function versionOf(caller, information) {
  const names = ['fileVersion', 'productVersion', 'language', 'strings'];
  only('parts of version information', names, information);
  const { fileVersion = [0, 0, 0, 0], productVersion = fileVersion, language = 0, strings = {} } = information;
  // A Map, or another list of pairs, has no names of its own, and would be no strings.
  if (strings === null || typeof strings !== 'object' || Symbol.iterator in strings) throw new TypeError('strings are an object with a text for each name');
  const word = (value) => whole('uint16_t', value), double = (high, low) => word(high) * 0x10000 + word(low);
  if (fileVersion.length !== 4 || productVersion.length !== 4) throw new RangeError('a version has four numbers');
  const [file, product] = [fileVersion, productVersion].map(([a, b, c, d]) => [double(a, b), double(c, d)]);
  const rows = Object.entries(strings).map(([key, text]) => ({ name: units(key), text: ended(text) }));
  // A reader takes a text up to its first zero.
  if (Object.values(strings).some((it) => it.includes('\0'))) throw memoryOf(caller).error('pe_c_write_version', constants.PE_C_BLOCK_TEXT);
  const { parts, range } = ranges(), pair = { language: word(language), code_page: UNICODE };
  const given = {
    fixed: {
      signature: SIGNATURE, struct_version: 0x10000, file_version_ms: file[0], file_version_ls: file[1],
      product_version_ms: product[0], product_version_ls: product[1],
    },
    tables: [{ first: 0, count: rows.length, language: pair }], translations: [pair],
    strings: rows.map((it) => ({ name: range(it.name), text: range(it.text) })), texts: joined(parts),
  };
  return written(caller, 'pe_c_write_version', given);
}
