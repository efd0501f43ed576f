// How a call of pe.h is made: what is given goes into the memory of the instance, and what the call writes comes back.
import { calls, constants, steps } from './layouts.mjs';
import { PeError, fieldOf, optionsOf, whole, width } from './memory.mjs';

const utf8 = new TextDecoder('utf-8', { ignoreBOM: true }), utf16 = new TextDecoder('utf-16le', { ignoreBOM: true });

/** The parameters of a call, if those that are given are its own, and none is missing but arrays. */
function expected(name, given, own) {
  if (!Object.hasOwn(calls, name)) throw new TypeError(`${name} is no call of pe.h that is made by its name`);
  const parameters = calls[name], taken = new Set();
  for (const [it, , way, array] of parameters) {
    if (way === 'own' && !Object.hasOwn(own, it)) throw new TypeError(`${name} needs ${it}, which there is not`);
    if (['own', 'length', 'refusal', 'count'].includes(way) || (way === 'out' && !array)) continue;
    taken.add(it);
    if (!array && given[it] === undefined) throw new TypeError(`${name} needs ${it}`);
  }
  for (const it of Object.keys(given)) if (!taken.has(it)) throw new TypeError(`${name} has no parameter ${it}`);
  return parameters;
}

/** Room for so many records that a call fills: `many` reads them before the next call. */
class Room {
  constructor(length) {
    this.length = length;
  }
}

/** Room for so many records or numbers that a call needs for itself. */
export const placeFor = (count) => new Room(Number(count));

// How many items the first call of a list takes, and how many times as many the next one, up to most of these bytes: each may
// read a text that is as long as the file, so calls stay few, and their room is of the file's size.
const FIRST = 16, MORE = 8, MOST = 1 << 16, BYTES_AN_ITEM = 64;

let memoryIn, ownIn;
/** The memory of what makes calls, and the arguments that it passes itself, for the files of this package. */
export const memoryOf = (caller) => memoryIn(caller);
export const ownOf = (caller) => ownIn(caller);

/** An image among its own arguments, as the fields of pe_c_view. */
export function viewOf(image) {
  const { view: _, ...fields } = ownOf(image);
  return fields;
}

/** An instance, and what stands in its memory for each call: `own` has these arguments, addresses and lengths, by the names
 * of their parameters. */
export class Caller {
  #memory;
  #own;

  static {
    memoryIn = (it) => it.#memory;
    ownIn = (it) => it.#own;
  }

  constructor(memory, own) {
    this.#memory = memory;
    this.#own = own;
  }

  /** Makes a call of pe.h: see index.d.ts. */
  call(name, given = {}) {
    const kept = this.#memory.free;
    try {
      return Object.hasOwn(steps, name) ? this.#stepped(name, given) : this.#called(name, given);
    } finally {
      this.#memory.free = kept;
    }
  }

  /** What a call that is refused so throws. */
  refused(name, constant) {
    const number = constants[constant];
    return new PeError(name, number, this.#memory.text(number));
  }

  /** Makes the two calls of a function of pe.h, the second over what the first writes. */
  #joined([made, , then, first, second, [own, most]], given) {
    if (given[own] > constants[most]) return null;
    const word = (it, found) => (it === '&found' ? found : given[it] ?? Number(it));
    const words = (all, found) => Object.fromEntries(Object.entries(all).map(([name, it]) => [name, word(it, found)]));
    const found = this.call(made, words(first));
    return found === null ? null : this.call(then, words(second, found));
  }

  /** Makes the call of a function of pe.h that passes it numbers of its own, or a record of what is given, and returns what that writes
   * or one field of it. */
  #passed([made, , , , field, passed, set], given) {
    const own = (it) => it.replace('*', '').split('->').reduce((from, name) => from?.[name], given);
    const item = set && Object.fromEntries(Object.entries(set).map(([name, it]) => [name, own(it)]));
    const word = (it) => (it === '&item' ? item : given[it] ?? constants[it] ?? Number(it));
    return this.#called(made, Object.fromEntries(Object.entries(passed).map(([name, it]) => [name, word(it)])), field);
  }

  /** Makes the call of a function of pe.h: a list with room for one entry, or a step of a walk that starts at an index; or two calls. */
  #stepped(name, { index, ...given }) {
    const [made, none, then, list, , passed] = steps[name], entries = [{}];
    expected(name, index === undefined ? given : { ...given, index }, this.#own);
    try {
      if (then) return this.#joined(steps[name], given);
      if (passed) return this.#passed(steps[name], { ...given, index });
      if (list) return this.call(made, { ...given, [list]: [{}] }) && true;
      if (!none) return this.call(made, { walk: { ...given, next: index } });
      const said = this.call(made, { ...given, ...(index !== undefined && { next: index }), entries });
      if ((said.written ?? said) > 0n) return entries[0];
    } catch (error) {
      if (!(error instanceof PeError)) throw error;
      const { failure } = error;
      throw Object.assign(this.#memory.error(name, error.number), failure && { failure });
    }
    if (none !== 'PE_C_NOTHING') throw this.refused(name, none);
    return null;
  }

  /** What a call returns, of a record that it writes one field where its name is given. */
  #called(name, given, field) {
    const words = [], changed = [], filled = [], made = {}, counted = {}, refusal = {}, memory = this.#memory;
    for (const parameter of expected(name, given, this.#own)) {
      const [own, type, way, array] = parameter;
      if (way === 'own') words.push(this.#own[own]);
      else if (way === 'length') words.push(BigInt(given[array]?.length ?? 0));
      else if (array) words.push(this.#array(filled, parameter, given));
      else if (way === 'out') words.push(this.#made(filled, made, parameter, undefined, field));
      else if (way === 'count') words.push(this.#made(changed, counted, parameter));
      else if (way === 'refusal') words.push(this.#made(changed, refusal, parameter));
      else if (way === 'next') words.push(this.#made(filled, made, parameter, given[own]));
      else if (way) words.push(this.#given(changed, parameter, given[own]));
      else words.push(whole(type, given[own]));
    }
    const result = memory.make(name, words);
    // A walk or a frame may say more of an error, or of an end.
    changed.forEach((read) => read());
    let isDone;
    try {
      isDone = memory.isDone(name, result);
    } catch (error) {
      if (!(error instanceof PeError)) throw error;
      // How long the room has to be, where the call says it.
      if (error.number === constants.PE_C_ROOM) filled.forEach((read) => read());
      throw Object.assign(error, refusal, made.written > 0n && { written: made.written });
    }
    if (!isDone && !Object.values(counted).some((it) => it > 0n)) return null;
    filled.forEach((read) => read());
    Object.assign(made, counted);
    const outs = Object.keys(made);
    return outs.length === 1 ? made[outs[0]] : outs.length ? made : true;
  }

  #array(filled, [own, type, way], given) {
    const values = given[own] ?? (type === 'uint8_t' ? new Uint8Array() : []), memory = this.#memory, size = width(type);
    if (type === 'uint8_t' && values.BYTES_PER_ELEMENT !== 1) throw new TypeError(`${own} is a Uint8Array, and not ${kindOf(values)}`);
    // What else has no length would take room without an end.
    const isArray = values instanceof Room || Array.isArray(values) || ArrayBuffer.isView(values);
    if (!isArray || !Number.isInteger(values.length)) throw new TypeError(`${own} is an array, and not ${kindOf(values)}`);
    const at = memory.reserve(values.length * size);
    if (values instanceof Room) values.at = at;
    else if (type === 'uint8_t') new Uint8Array(memory.exports.memory.buffer, at, values.length).set(values);
    else values.forEach((it, i) => memory.write(type, at + i * size, it));
    if (values instanceof Room) return BigInt(at);
    if (way === 'out' && type === 'uint8_t') filled.push(() => values.set(memory.bytes(at, values.length)));
    else if (way === 'out') filled.push(() => values.forEach((_, i) => { values[i] = memory.read(type, at + i * size); }));
    return BigInt(at);
  }

  #given(changed, [, type, way], value) {
    const memory = this.#memory, at = memory.reserve(width(type));
    memory.write(type, at, value);
    if (way === 'moved') changed.push(() => Object.assign(value, memory.read(type, at)));
    return BigInt(at);
  }

  #made(filled, made, [own, type], start, field) {
    const memory = this.#memory, at = memory.reserve(width(type));
    if (start !== undefined) memory.write(type, at, start);
    filled.push(() => { made[own] = field ? memory.field(type, field, at) : memory.read(type, at); });
    return BigInt(at);
  }

  /** What a list call writes of so many items, with so many runs for each where it takes runs, and the index after them of a
   * list by index. */
  #listed(name, given, count, runs) {
    const entries = new Room(count), [, type] = calls[name].find(([it]) => it === 'entries');
    const said = this.call(name, { ...given, entries, ...(runs && { runs: new Room(runs * count) }) });
    return { found: this.#memory.readAll(type, entries.at, Number(said.written ?? said)), next: said.next };
  }

  /** How many items the calls of a list take, one after the other. */
  *#counts() {
    const most = Math.max(MOST, Math.floor(Number(this.#own.length ?? 0n) / BYTES_AN_ITEM));
    for (let count = FIRST; ; count = Math.min(MORE * count, most)) yield count;
  }

  /** The items of a walk by a call that lists many of them, from where it is, or of what starts one, with so many runs for each
   * where the call reads names together. `cut` returns a walk over exports with its next so many entries alone, or null at its end,
   * since that may skip entries. */
  *many(name, start, { runs = 0, cut, given = {} } = {}) {
    const walk = typeof start === 'function' ? start() : start;
    if (!walk) return;
    for (const count of this.#counts()) {
      const part = cut ? cut(walk, count) : walk;
      if (!part) return;
      const { found } = this.#listed(name, { ...given, walk: part }, count, runs);
      for (let i = 0; i < found.length; i++) yield found[i];
      if (cut) walk.exports.next = part.exports.next;
      else if (!found.length) return;
    }
  }

  /** The same of a list by index. */
  *indexed(name, given, runs = 0) {
    let next = 0n;
    for (const count of this.#counts()) {
      const listed = this.#listed(name, { ...given, next }, count, runs), { found } = listed;
      for (let i = 0; i < found.length; i++) yield found[i];
      if (!found.length) return;
      ({ next } = listed);
    }
  }

  /** The items of a walk, from where it is, or of what starts one. */
  *items(name, start, given = {}) {
    const walk = typeof start === 'function' ? start() : start;
    if (walk === undefined) throw new TypeError(`${name} needs a walk, or null where there is none`);
    while (walk) {
      const item = this.call(name, { ...given, walk });
      if (item === null) return;
      yield item;
    }
  }
}

/** A walk over debug entries without a last one that is truncated, or null. */
export const wholeEntries = (walk) => walk && { ...walk, length: walk.length - walk.length % BigInt(width('pe_c_debug_entry')) };

/** The first of some debug entries of a type, or null. */
export function firstOfType(entries, type) {
  const wanted = whole('uint32_t', type);
  for (const it of entries) if (it.data_type === wanted) return it;
  return null;
}

/** What a value is, in words. */
function kindOf(given) {
  return `a ${given && typeof given === 'object' ? given.constructor?.name ?? 'object' : given === null ? 'null' : typeof given}`;
}

/** The bytes of a file: an ArrayBuffer, or any view of one, as a Buffer. One of another realm is none of this realm's class. */
export function bytesOf(given) {
  if (ArrayBuffer.isView(given)) return new Uint8Array(given.buffer, given.byteOffset, given.byteLength);
  if (/^\[object (Shared)?ArrayBuffer\]$/.test(Object.prototype.toString.call(given))) return new Uint8Array(given);
  const path = typeof given === 'string' ? ': a file is read first, as by readFileSync, and a text is encoded' : '';
  throw new TypeError(`bytes are an ArrayBuffer or a view of one, as a Uint8Array or a Buffer, and not ${kindOf(given)}${path}`);
}

/** Puts a file into the memory of an instance: the arguments that it is for calls. */
export function placed(memory, given) {
  const bytes = bytesOf(given);
  return { bytes: BigInt(memory.put(bytes)), length: BigInt(bytes.length) };
}

/** A file that a call writes, which says how long it is where it has no room. */
export function written(caller, call, given) {
  let length;
  try {
    return caller.call(call, given) && new Uint8Array(0);
  } catch (error) {
    if (error.number !== constants.PE_C_ROOM) throw error;
    length = error.written;
  }
  const room = new Uint8Array(Number(length));
  caller.call(call, { ...given, room });
  return room;
}

/** The entry of a table of lists by its name. */
export function listOf(lists, name) {
  if (!Object.hasOwn(lists, name)) throw new TypeError(`${name} is no list: ${Object.keys(lists).join(', ')}`);
  return lists[name];
}

/** The bytes of a file in an instance of their own, and the calls of pe.h that take bytes alone. */
export class File extends Caller {
  #memory;
  #start;

  constructor(memory, own) {
    super(memory, own);
    this.#memory = memory;
    this.#start = Number(own.bytes);
    this.length = Number(own.length);
  }

  /** A walk over the elements of a range. */
  #walkIn(range) {
    for (const it of ['offset', 'length']) fieldOf(range, it, 'a range');
    return { ...range };
  }

  /** Where a range of the bytes is in the memory, which has other bytes around them. */
  #place({ offset, length }) {
    const start = Number(offset), size = Number(length);
    const isWhole = Number.isInteger(start) && Number.isInteger(size);
    if (isWhole && start >= 0 && size >= 0 && start + size <= this.length) return [this.#start + start, size];
    throw new RangeError(`${length} bytes at ${offset} are not in the ${this.length} bytes of the file`);
  }

  /** A copy of a range of the bytes. */
  slice(range) {
    return this.#memory.bytes(...this.#place(range));
  }

  /** The text of a range, in UTF-8 or ASCII. */
  utf8(range) {
    return this.#memory.textAt(...this.#place(range), utf8);
  }

  /** The text of a range, in UTF-16, up to the first zero unless it is whole. */
  utf16(range, options) {
    const { isWhole = false } = optionsOf(options, 'isWhole');
    const text = utf16.decode(this.slice(range));
    return isWhole ? text : text.replace(/\0.*$/s, '');
  }

  /** The elements of a list in a signature, or in a certificate of one. */
  elements(range) {
    return this.items('pe_c_next_element', this.#walkIn(range));
  }

  /** The attributes of a name in a signature. */
  *nameAttributes(range) {
    yield* this.items('pe_c_next_name_attribute', this.call('pe_c_name', { range: this.#walkIn(range) }));
  }

  /** The name of a section in its header. */
  sectionName(section) {
    const end = section.name.indexOf(0);
    return utf8.decode(Uint8Array.from(end < 0 ? section.name : section.name.slice(0, end)));
  }
}
