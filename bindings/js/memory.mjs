// The memory of an instance of the module: records of pe.h as objects, and errors as PeError.
import { abi, constants, read, records, results } from './layouts.mjs';

const PAGE = 65536;
const WIDTHS = { uint8_t: 1, uint16_t: 2, uint32_t: 4, uint64_t: 8, size_t: 8, int16_t: 2 };
const LEAST = { int16_t: -0x8000 }, MOST = { uint8_t: 0xFF, uint16_t: 0xFFFF, int16_t: 0x7FFF, uint32_t: 0xFFFFFFFF };
const MOST_64 = 0xFFFFFFFFFFFFFFFFn;
// How numbers are read, as `read` has it for records.
const NUMBERS = {
  uint8_t: (view, at) => view.getUint8(at), uint16_t: (view, at) => view.getUint16(at, true),
  int16_t: (view, at) => view.getInt16(at, true), uint32_t: (view, at) => view.getUint32(at, true),
  uint64_t: (view, at) => view.getBigUint64(at, true), size_t: (view, at) => view.getBigUint64(at, true),
};
// How many bytes of a text are read one by one, which a decoder is slower for.
const SHORT = 48;
const utf8 = new TextDecoder('utf-8');
const aligned = (at) => Math.ceil(at / 16) * 16;
const isAddress = (type) => type.endsWith('*');

/** How many bytes a number, an address or a record has. */
export const width = (type) => (isAddress(type) ? 8 : WIDTHS[type] ?? records[type][0]);

/** A number as a call or a field of this type takes it: one of 64 bits as BigInt. What does not fit is an error, and not another
 * number. */
export function whole(type, value) {
  // Other values become numbers too: null and an empty text become 0.
  if (!['number', 'bigint', 'boolean'].includes(typeof value)) throw new RangeError(`${String(value)} is no ${type}`);
  // A number above 2^53 is rounded before it comes here: an address of the kernel is a BigInt.
  if (typeof value === 'number' && value > Number.MAX_SAFE_INTEGER) throw new RangeError(`${value} is no ${type} for certain: give it as a BigInt`);
  const most = MOST[type], number = most ? Number(value) : BigInt(value);
  const fits = most ? Number.isInteger(number) && number >= (LEAST[type] ?? 0) && number <= most : number >= 0n && number <= MOST_64;
  if (!fits) throw new RangeError(`${value} is no ${type}`);
  return number;
}

/** What is given as an object, if each name in it is one of these: what has another name would be dropped without a word. */
export function only(what, names, given) {
  if (given === null || typeof given !== 'object') throw new TypeError(`${String(given)} is no object with the ${what}: ${names.join(', ')}`);
  for (const it of Object.keys(given)) {
    if (!names.includes(it)) throw new TypeError(`${it} is none of the ${what}: ${names.join(', ')}`);
  }
  return given;
}

/** A field of a record that is given. Without it, as of another record or of none, there would be nothing to list, without a word. */
export function fieldOf(given, field, what) {
  if (given?.[field] === undefined) throw new TypeError(`${String(given)} is not ${what}: it has no ${field}`);
  return given[field];
}

export const optionsOf = (given = {}, ...names) => only('options', names, given);

/** Why a call refused its arguments: `number` and `constant` are those of pe.h, such as 2 and PE_C_SHORT, and `message` is
 * its text. Of a call for signatures `failure` is its pe_c_signature_failure. */
export class PeError extends Error {
  constructor(call, number, text) {
    super(text);
    this.name = 'PeError';
    this.call = call;
    this.number = number;
    this.constant = results[number] ?? 'PE_C_UNKNOWN';
  }
}

/** An instance and its memory. Addresses never leave the package: in the module with a memory of 32 bits one above 4 GiB
 * would be taken for another. */
export class Memory {
  #exports;
  #bytes = new Uint8Array();
  #view;
  #used;

  constructor(module) {
    this.#exports = new WebAssembly.Instance(module).exports;
    if (this.exports[`pe_c_abi_${abi}`]?.() !== abi) throw new TypeError('the module is of another ABI than this library');
    this.#used = this.free = aligned(Number(this.exports.__heap_base.value));
  }

  get exports() {
    if (!this.#exports) throw new Error('the instance has ended');
    return this.#exports;
  }

  /** Room for so many bytes, zeros, as bytes are that were never used. */
  reserve(length) {
    const at = this.free, end = aligned(at + length), { memory } = this.exports;
    const pages = Math.ceil((end - memory.buffer.byteLength) / PAGE);
    if (pages > 0) this.grow(pages);
    this.free = end;
    if (at < this.#used) this.all.fill(0, at, Math.min(end, this.#used));
    this.#used = Math.max(end, this.#used);
    return at;
  }

  grow(pages) {
    const { memory } = this.exports;
    try {
      memory.grow(pages);
    } catch (error) {
      // A memory of 64 bits counts its pages by BigInt.
      if (!(error instanceof TypeError)) throw new RangeError(`the module's memory has no room for ${pages * PAGE} bytes more`);
      memory.grow(BigInt(pages));
    }
  }

  put(bytes) {
    const at = this.reserve(bytes.length);
    new Uint8Array(this.exports.memory.buffer, at, bytes.length).set(bytes);
    return at;
  }

  bytes(at, length) {
    return new Uint8Array(this.exports.memory.buffer, at, length).slice();
  }

  /** All of the memory as it is: its bytes may move where the memory grows. */
  get all() {
    const { buffer } = this.exports.memory;
    if (this.#bytes.buffer !== buffer) {
      this.#bytes = new Uint8Array(buffer);
      this.#view = new DataView(buffer);
    }
    return this.#bytes;
  }

  /** The text of some bytes: short ones are ASCII as a rule, and need no decoder. */
  textAt(at, length, decoder) {
    const { all } = this;
    if (length > SHORT) return decoder.decode(all.subarray(at, at + length));
    let text = '';
    for (let i = at; i < at + length; i++) {
      if (all[i] > 0x7F) return decoder.decode(all.subarray(at, at + length));
      text += String.fromCharCode(all[i]);
    }
    return text;
  }

  read(type, at) {
    return this.readerOf(type)(this.all && this.#view, at);
  }

  /** A field of a record. */
  field(type, field, at) {
    const [, kind, offset] = records[type][1].find(([name]) => name === field);
    return this.read(kind, at + offset);
  }

  /** So many records side by side. */
  readAll(type, at, count) {
    const one = this.readerOf(type), size = width(type), view = this.all && this.#view, found = new Array(count);
    for (let i = 0; i < count; i++) found[i] = one(view, at + i * size);
    return found;
  }

  readerOf(type) {
    return read[type] ?? NUMBERS[type];
  }

  /** Writes a number, an address or a record. A field that the record lacks is 0; it has no other ones. */
  write(type, at, value) {
    const view = this.all && this.#view;
    if (isAddress(type)) return view.setBigUint64(at, value, true);
    switch (type) {
      case 'uint8_t': return view.setUint8(at, whole(type, value));
      case 'uint16_t': return view.setUint16(at, whole(type, value), true);
      case 'int16_t': return view.setInt16(at, whole(type, value), true);
      case 'uint32_t': return view.setUint32(at, whole(type, value), true);
      case 'uint64_t': case 'size_t': return view.setBigUint64(at, whole(type, value), true);
    }
    const fields = records[type][1];
    let known = 0;
    for (const [name, kind, offset, count] of fields) {
      const size = width(kind), own = value?.[name];
      if (own !== undefined || (value && Object.hasOwn(value, name))) known++;
      const values = own === undefined ? [] : count ? [...own] : [own];
      if (count && values.length > count) throw new RangeError(`${name} has room for ${count}, and not for ${values.length}`);
      values.forEach((it, i) => this.write(kind, at + offset + i * size, it));
    }
    if (!value || typeof value !== 'object' || Object.keys(value).length > known) {
      only(`fields of ${type}`, fields.map(([name]) => name), value);
    }
  }

  /** Makes a call. After a trap, as of a stack that is used up, the instance ends and each later call throws. */
  make(name, words) {
    try {
      return this.exports[name](...words);
    } catch (error) {
      if (error instanceof WebAssembly.RuntimeError) this.#exports = null;
      throw error;
    }
  }

  /** Whether a call found something, of its result; throws where it refused. */
  isDone(call, result) {
    if (result === constants.PE_C_NOTHING) return false;
    if (result !== constants.PE_C_DONE) throw this.error(call, result);
    return true;
  }

  error(call, result) {
    return new PeError(call, result, this.text(result));
  }

  text(number) {
    const kept = this.free, room = this.reserve(128);
    const length = Number(this.make('pe_c_text', [number, BigInt(room), 128n]));
    this.free = kept;
    return utf8.decode(this.bytes(room, length));
  }
}
