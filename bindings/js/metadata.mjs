// The name, version and references of an assembly, from the tables of .NET's metadata, as the program pe reads them: see
// assembly.rs of bindings/pe. See ECMA-335, II.24.2.6 and II.22. pe.h has no call for the tables.
import { PeError, constants } from './library.mjs';

const short = () => new PeError('pe_c_next_metadata_stream', constants.PE_C_SHORT, 'truncated');

// A column: a number of so many bytes, 't' an offset in the heap of texts, 'g' a GUID, 'b' a blob, the number of a row of a table
// as [table], or of one of some tables by so many bits as [bits, tables].
const TYPE = [2, [2, 1, 0x1B]], CONSTANT = [2, [4, 8, 0x17]], MARSHAL = [1, [4, 8]], SECURITY = [2, [2, 6, 0x20]];
const ATTRIBUTE = [5, [6, 4, 1, 2, 8, 9, 0xA, 0, 0xE, 0x17, 0x14, 0x11, 0x1A, 0x1B, 0x20, 0x23, 0x26, 0x27, 0x28, 0x2A, 0x2C, 0x2B]];
const PARENT = [3, [2, 1, 0x1A, 6, 0x1B]], SEMANTICS = [1, [0x14, 0x17]], METHOD = [1, [6, 0xA]], FORWARDED = [1, [4, 6]];
const ATTRIBUTE_TYPE = [3, [6, 0xA]], SCOPE = [2, [0, 0x1A, 0x23, 1]];
// The columns of each table, by its number, up to that of references.
const TABLES = [
  [2, 't', 'g', 'g', 'g'], [SCOPE, 't', 't'], [4, 't', 't', TYPE, [4], [6]], [[4]], [2, 't', 'b'], [[6]],
  [4, 2, 2, 't', 'b', [8]], [[8]], [2, 2, 't'], [[2], TYPE], [PARENT, 't', 'b'], [2, CONSTANT, 'b'],
  [ATTRIBUTE, ATTRIBUTE_TYPE, 'b'], [MARSHAL, 'b'], [2, SECURITY, 'b'], [2, 4, [2]], [4, [4]], ['b'],
  [[2], [0x14]], [[0x14]], [2, 't', TYPE], [[2], [0x17]], [[0x17]], [2, 't', 'b'],
  [2, [6], SEMANTICS], [[2], METHOD, METHOD], ['t'], ['b'], [2, FORWARDED, 't', [0x1A]], [4, [4]],
  [4, 4], [4], [4, 2, 2, 2, 2, 4, 'b', 't', 't'], [4], [4, 4, 4], [2, 2, 2, 2, 4, 'b', 't', 't', 'b'],
];
const MODULE = 0, ASSEMBLY = 0x20, ASSEMBLY_REF = 0x23;
const HEAPS = { t: 1, g: 2, b: 4 }, HAS_EXTRA_DATA = 0x40, IS_WHOLE_KEY = 1, TOKEN_SIZE = 8, GUID_SIZE = 16;

/** The tables of metadata, by the contents of its streams: `tables`, `texts`, `guids` and `blobs`. */
export class Tables {
  constructor({ tables, texts, guids, blobs }) {
    Object.assign(this, { texts, guids, blobs, rows: new Array(64).fill(0) });
    const view = new DataView(tables.buffer, tables.byteOffset, tables.length);
    if (tables.length < 16) throw short();
    this.heaps = tables[6];
    let offset = 24;
    for (let table = 0; table < 64; table++) {
      if ((view.getUint8(8 + (table >> 3)) >> (table & 7) & 1) === 0) continue;
      if (offset + 4 > tables.length) throw short();
      this.rows[table] = view.getUint32(offset, true);
      offset += 4;
    }
    offset += this.heaps & HAS_EXTRA_DATA ? 4 : 0;
    if (offset > tables.length) throw short();
    this.bytes = tables.subarray(offset);
  }

  #width(column) {
    if (typeof column === 'number') return column;
    if (typeof column === 'string') return this.heaps & HEAPS[column] ? 4 : 2;
    const [bits, tables] = column.length === 1 ? [0, column] : column;
    return tables.some((it) => this.rows[it] > 0xFFFF >> bits) ? 4 : 2;
  }

  /** The rows of a table, an array of numbers each: those that are whole, and then an error. */
  *#rowsOf(table) {
    const widths = TABLES.map((columns) => columns.map((it) => this.#width(it)));
    const size = (it) => widths[it].reduce((sum, width) => sum + width, 0);
    let offset = 0;
    for (let before = 0; before < table; before++) offset += this.rows[before] * size(before);
    for (let row = 0; row < this.rows[table]; row++, offset += size(table)) {
      if (offset + size(table) > this.bytes.length) throw short();
      let at = offset;
      yield widths[table].map((width) => {
        const cell = this.bytes.subarray(at, at += width);
        return cell.reduceRight((number, byte) => number * 256 + byte, 0);
      });
    }
  }

  /** The bytes of a text, without the zero at its end. */
  #text(offset) {
    const end = this.texts.indexOf(0, offset);
    if (offset > this.texts.length || end < 0) throw short();
    return this.texts.subarray(offset, end);
  }

  #blob(offset) {
    const [first, second, third, fourth] = this.blobs.subarray(offset, offset + 4);
    let length = first, start = 1;
    if (first >= 0xC0) [length, start] = [(first & 0x1F) * 0x1000000 + (second << 16 | third << 8 | fourth), 4];
    else if (first >= 0x80) [length, start] = [(first & 0x3F) << 8 | second, 2];
    if (first === undefined || first >= 0xE0 || offset + start + length > this.blobs.length) throw short();
    return this.blobs.subarray(offset + start, offset + start + length);
  }

  #identity([major, minor, build, revision], key, name, culture) {
    return { version: [major, minor, build, revision].join('.'), culture: this.#text(culture), name: this.#text(name),
      has_public_key: key !== 0 };
  }

  /** The module: the bytes of its name, and of its GUID, or null. */
  get module() {
    if (this.rows[MODULE] === 0) return null;
    const [, name, index] = this.#rowsOf(MODULE).next().value, start = (index - 1) * GUID_SIZE;
    const isThere = index > 0 && start + GUID_SIZE <= this.guids.length;
    return { name: this.#text(name), mvid: isThere ? this.guids.subarray(start, start + GUID_SIZE) : null };
  }

  get assembly() {
    if (this.rows[ASSEMBLY] === 0) return null;
    const row = this.#rowsOf(ASSEMBLY).next().value;
    return this.#identity(row.slice(1, 5), ...row.slice(6));
  }

  /** The assemblies that are referred to, with the bytes of the token of each, or null. */
  *references() {
    for (const row of this.#rowsOf(ASSEMBLY_REF)) {
      const [flags, key, name, culture] = row.slice(4), token = this.#blob(key);
      yield { ...this.#identity(row, key, name, culture),
        token: (flags & IS_WHOLE_KEY) === 0 && token.length === TOKEN_SIZE ? token : null };
    }
  }
}
