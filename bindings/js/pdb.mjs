// Program databases (PDB 7.0): the names and lines of an image that was linked with debug information. Its streams are scattered over
// blocks of the file: each that is read stands once more in the memory of the instance, and calls take that copy.
import { File, memoryOf, ownOf, placed } from './calls.mjs';
import { Image } from './image.mjs';
import { constants } from './layouts.mjs';
import { PeError, fieldOf, optionsOf, whole, width } from './memory.mjs';

const INFO_STREAM = 1, DBI_STREAM = 3, ID_STREAM = 4, NO_STREAM = 0xFFFF;
const S_PUB32 = 0x110E, PROCEDURES = [0x110F, 0x1110, 0x1146, 0x1147];
// How many times the bytes of streams are read for the names of files.
const READINGS = 4;
// How many inlined functions an RVA has at most.
const MOST_INLINED = 64;
// Lines that say of code that it has none.
const NO_LINES = [0, 0xF00F00, 0xFEEFEE];
const utf8 = new TextDecoder('utf-8', { ignoreBOM: true });

/** Writes what a call lists to room for it, by a call that says first how much that is: the address and the number of items. */
function listed(memory, name, type, words) {
  const count = memory.reserve(8), made = (at, most) => memory.make(name, [...words, BigInt(at), BigInt(most), BigInt(count)]);
  const first = made(0, 0), most = Number(memory.read('uint64_t', count));
  if (first !== constants.PE_C_ROOM) memory.isDone(name, first);
  const at = memory.reserve(most * width(type));
  if (first === constants.PE_C_ROOM) memory.isDone(name, made(at, most));
  return [BigInt(at), BigInt(most)];
}

/** What `make` returns, or null with why in `errors` where it is refused. */
function refusedIn(errors, part, make) {
  try {
    return make();
  } catch (error) {
    if (!(error instanceof PeError)) throw error;
    errors.push({ part, error });
    return null;
  }
}

/** What is made by room in the memory that is free again after it. */
function lent(memory, make) {
  const kept = memory.free;
  try {
    return make();
  } finally {
    memory.free = kept;
  }
}

/** The symbols of a kind in a copy of a stream, with an index of them; and the lines of a module. */
class Symbols extends File {
  #kind;
  #sections;
  #index;
  #lines = null;
  #files;
  #names;
  #last = { file: null, name: null };

  constructor(memory, bytes, kind, symbols, sections) {
    super(memory, placed(memory, bytes));
    [this.#kind, this.#sections] = [kind, sections];
    const own = ownOf(this);
    this.#index = listed(memory, 'pe_c_pdb_index', 'uint64_t', [kind, own.bytes, own.length, this.#range(symbols), ...sections]);
  }

  #range(range) {
    const at = memoryOf(this).reserve(width('pe_c_range'));
    memoryOf(this).write('pe_c_range', at, range);
    return BigInt(at);
  }

  /** The RVAs of its functions, in ascending order. */
  starts() {
    const [at, count] = this.#index, memory = memoryOf(this);
    return memory.readAll('uint64_t', Number(at), Number(count)).map((it) => Number(it >> 32n));
  }

  /** Reads the lines, in a range of the stream, whose files have their names at an address. */
  readLines(lines, names) {
    const own = ownOf(this), words = [own.bytes, own.length, this.#range(lines), ...this.#sections];
    this.#names = names;
    this.#files = this.call('pe_c_pdb_files', { lines }) ?? {};
    this.#lines = listed(memoryOf(this), 'pe_c_pdb_lines', 'pe_c_pdb_line_entry', words);
  }

  /** The record that a call finds of an RVA, by arrays at addresses; or null. */
  #found(name, type, words) {
    const memory = memoryOf(this);
    return lent(memory, () => {
      const at = memory.reserve(width(type));
      return memory.make(name, [...words, BigInt(at)]) === constants.PE_C_DONE ? memory.read(type, at) : null;
    });
  }

  /** The symbol of an RVA, if it has a name. */
  find(rva) {
    const own = ownOf(this), words = [this.#kind, own.bytes, own.length, ...this.#sections, ...this.#index, rva];
    const found = this.#found('pe_c_find_pdb_symbol', 'pe_c_pdb_symbol', words);
    return found && found.name.length ? found : null;
  }

  /** The line of an RVA, or null. */
  line(rva) {
    const found = this.#lines && this.#found('pe_c_find_pdb_line', 'pe_c_pdb_line', [...this.#lines, rva]);
    return found && this.#lineOf(found);
  }

  /** The functions that are inlined at an RVA of a procedure of a module, the innermost first. `ids` are the addresses and lengths of the
   * bytes of the stream of ids and of where its records start; of their files those after a bound are null, as of all lines. */
  inlined({ symbols, lines }, rva, ids) {
    const memory = memoryOf(this);
    const found = lent(memory, () => this.#inlinedAt({ symbols, lines }, rva, ids));
    let left = READINGS * (this.length + Number(this.#names[1]));
    const told = found.map((it) => {
      const hasLine = it.line_result === constants.PE_C_DONE && this.#files !== undefined, isLeft = left > 0;
      const file = hasLine && isLeft ? this.#fileName(it.file) : null;
      if (hasLine) left -= file?.length ?? Number(this.#names[1]);
      return { ...it, file, line: it.line_result === constants.PE_C_DONE ? it.line : null };
    });
    return Object.assign(told, { isLimited: left <= 0 });
  }

  #inlinedAt(module, rva, ids) {
    const memory = memoryOf(this), { bytes, length } = ownOf(this);
    const [at, procedure, room, count] = [width('pe_c_pdb_module'), width('pe_c_pdb_symbol'), MOST_INLINED * width('pe_c_pdb_inlined'), 8]
      .map((it) => memory.reserve(it));
    memory.write('pe_c_pdb_module', at, module);
    const words = [this.#kind, bytes, length, ...this.#sections, ...this.#index, rva, BigInt(procedure)];
    if (memory.make('pe_c_find_pdb_symbol', words) !== constants.PE_C_DONE) return [];
    const more = [rva, ...ids, BigInt(room), BigInt(MOST_INLINED), BigInt(count)];
    const result = memory.make('pe_c_find_pdb_inlined', [bytes, length, BigInt(at), BigInt(procedure), ...more]);
    memory.isDone('pe_c_find_pdb_inlined', result);
    return memory.readAll('pe_c_pdb_inlined', room, Number(memory.read('uint64_t', count)));
  }

  /** All lines. The names of files of a hostile module may be far longer together than their streams: then those after a bound are null. */
  allLines() {
    const [at, count] = this.#lines, found = memoryOf(this).readAll('pe_c_pdb_line_entry', Number(at), Number(count));
    let left = READINGS * (this.length + Number(this.#names[1]));
    const lines = found.map(({ line }) => {
      const isKnown = this.#last.file === line.file, told = this.#lineOf(isKnown || left > 0 ? line : { ...line, file: null });
      if (!isKnown) left -= told.file?.length ?? Number(this.#names[1]);
      return told;
    });
    return Object.assign(lines, { isLimited: left <= 0 });
  }

  #lineOf({ rva, code_size: codeSize, file, line, column }) {
    const path = file === null ? null : this.#fileName(file);
    return { rva, codeSize, file: path, line: NO_LINES.includes(line) ? null : line, column: column || null };
  }

  /** The path of a source file, or null where it is refused. Most lines have the file of the one before. */
  #fileName(file) {
    if (this.#last.file === file) return this.#last.name;
    const memory = memoryOf(this), own = ownOf(this), names = this.#names;
    const found = lent(memory, () => {
      const words = [own.bytes, own.length, this.#range(this.#files), ...names, file];
      return this.#found('pe_c_pdb_file_name', 'pe_c_range', words);
    });
    const name = found && memory.textAt(Number(names[0]) + Number(found.offset), Number(found.length), utf8);
    this.#last = { file, name };
    return name;
  }
}

export class Pdb extends File {
  #starts;
  #sections = null;
  #headerBytes = null;
  #modules = null;
  #names = null;
  #publics;
  #functions = null;
  // The bytes of the stream of ids and where its records start, once an RVA has an inlined function; and the parts that `frames` refused.
  #ids = null;
  #said = new Set();
  // What is refused of what was read.
  #errors = [];
  // The OMAP tables: where code was that a tool moved, and where it is.
  #omap;

  constructor(memory, bytes) {
    super(memory, placed(memory, bytes));
    /** pe_c_pdb_info */
    this.info = this.call('pe_c_pdb');
    const count = this.info.number_of_streams, own = ownOf(this), at = memory.reserve(8 * count), written = memory.reserve(8);
    memory.isDone('pe_c_pdb_starts', memory.make('pe_c_pdb_starts', [own.bytes, own.length, BigInt(at), BigInt(count), BigInt(written)]));
    this.#starts = [BigInt(at), BigInt(count)];
  }

  /** The GUID and the age by which an image names it: the fields of pe_c_key. */
  get key() {
    return { guid: this.info.guid, age: this.info.dbi_age };
  }

  /** Whether it is the PDB of an image, or of one with this key, pe_c_key. */
  matches(given) {
    const isImage = given instanceof Image, key = isImage ? given.call('pe_c_symbol_key') : given;
    if (isImage && key === null) return false;
    return this.info.dbi_result === constants.PE_C_DONE && this.call('pe_c_is_pdb_of', { key, pdb: this.info }) !== null;
  }

  /** Whether a tool moved the code of the image after it was linked (OMAP): see index.d.ts. */
  get isMoved() {
    const { dbi_result: result, omap_to_source: to, omap_from_source: from } = this.info;
    return result === constants.PE_C_DONE && (to !== NO_STREAM || from !== NO_STREAM);
  }

  /** Where the code at an RVA of the image was when it was linked, or where that of then is now; null where it is nowhere. */
  #moved(rva, isBack = false) {
    if (!this.isMoved) return rva;
    const { omap_to_source: to, omap_from_source: from } = this.info;
    this.#omap ??= refusedIn(this.#errors, 'OMAP', () => [to, from].map((it) => new File(memoryOf(this), placed(memoryOf(this), this.stream(it))))) ?? [];
    return this.#omap[Number(isBack)]?.call('pe_c_pdb_moved_rva', { rva }) ?? null;
  }

  /** A copy of the stream with a number. */
  stream(index) {
    const memory = memoryOf(this), own = ownOf(this), number = whole('uint32_t', index);
    return lent(memory, () => {
      const [at, length] = listed(memory, 'pe_c_pdb_stream', 'uint8_t', [own.bytes, own.length, ...this.#starts, number]);
      return memory.bytes(Number(at), Number(length));
    });
  }

  #streamOrNone(number) {
    return number === NO_STREAM ? new Uint8Array() : this.stream(number);
  }

  #checkDbi() {
    memoryOf(this).isDone('pe_c_pdb', this.info.dbi_result);
  }

  /** Where the section headers stand in the memory. */
  #sectionHeaders() {
    this.#checkDbi();
    this.#sections ??= Object.values(placed(memoryOf(this), this.#headers()));
    return this.#sections;
  }

  /** The section headers by which symbols count. */
  #headers() {
    const { original_section_headers: original, section_headers: own } = this.info;
    return this.#headerBytes ??= this.isMoved ? this.stream(original) : this.#streamOrNone(own);
  }

  /** The modules: see index.d.ts. */
  modules() {
    if (this.#modules) return this.#modules;
    this.#checkDbi();
    const memory = memoryOf(this);
    return this.#modules = lent(memory, () => {
      const dbi = new File(memory, placed(memory, this.stream(DBI_STREAM)));
      return [...dbi.many('pe_c_list_pdb_modules', { ...this.info.modules })].map(({ name, file, stream, ...it }) => (
        { ...it, name: dbi.utf8(name), file: dbi.utf8(file), stream: stream === NO_STREAM ? null : stream }));
    });
  }

  /** The symbols of some kinds in a copy of a stream. */
  #listedSymbols(bytes, symbols, kinds) {
    const memory = memoryOf(this), sections = this.#headers();
    return lent(memory, () => {
      const file = new File(memory, placed(memory, bytes)), found = [];
      for (const it of file.many('pe_c_list_pdb_symbols', { ...symbols }, { given: { sections } })) {
        if (kinds.includes(it.kind)) found.push(symbolOf(it, file));
      }
      return found;
    });
  }

  /** The public symbols, functions and others. */
  publics() {
    this.#checkDbi();
    const bytes = this.#streamOrNone(this.info.symbol_stream);
    return this.#listedSymbols(bytes, { offset: 0n, length: BigInt(bytes.length) }, [S_PUB32]);
  }

  /** The procedures of a module. */
  procedures(module) {
    return fieldOf(module, 'stream', 'of modules()') === null ? [] : this.#listedSymbols(this.stream(module.stream), module.symbols, PROCEDURES);
  }

  /** The lines of a module, by their RVAs; of several at one RVA the last counts. */
  lines(module) {
    if (fieldOf(module, 'stream', 'of modules()') === null) return Object.assign([], { isLimited: false });
    const sections = this.#sectionHeaders(), names = this.#fileNames(), memory = memoryOf(this);
    return lent(memory, () => {
      const symbols = new Symbols(memory, this.stream(module.stream), 1, {}, sections);
      symbols.readLines(module.lines, names);
      return symbols.allLines();
    });
  }

  /** Where the names of source files stand in the memory; nothing where they are refused. */
  #fileNames() {
    this.#names ??= placed(memoryOf(this), refusedIn(this.#errors, 'names of source files', () => this.#namesStream()) ?? new Uint8Array());
    return Object.values(this.#names);
  }

  #namesStream() {
    const memory = memoryOf(this), number = lent(memory, () => {
      const info = new File(memory, placed(memory, this.stream(INFO_STREAM)));
      return info.call('pe_c_pdb_named_stream', { name: new TextEncoder().encode('/names') });
    });
    return number === null ? null : this.stream(number);
  }

  /** What names RVAs: the procedures and lines of all modules, each read once. A module that is refused costs its own names alone, and
   * so does one whose stream, with those of the modules before it, has more bytes than the file: no linker writes a block for two. */
  #read() {
    if (this.#functions) return this.#functions;
    const starts = [], found = [];
    let left = this.length;
    for (const module of refusedIn(this.#errors, 'modules', () => this.modules()) ?? []) {
      if (module.stream === null) continue;
      const symbols = refusedIn(this.#errors, module.name, () => {
        // Once there are too many bytes no stream is copied: of a hostile file each module may have a long one.
        const bytes = left < 0 ? [] : this.stream(module.stream);
        left -= bytes.length;
        if (left < 0) throw this.refused('pe_c_pdb_stream', 'PE_C_PDB_STREAM_SIZE');
        return new Symbols(memoryOf(this), bytes, 1, module.symbols, this.#sectionHeaders());
      });
      if (!symbols) continue;
      for (const rva of symbols.starts()) starts.push([rva, found.length]);
      found.push({ module, symbols });
      refusedIn(this.#errors, `lines of ${module.name}`, () => symbols.readLines(module.lines, this.#fileNames()));
    }
    // Of several at one RVA, as a linker folds equal ones, that of the last module counts.
    starts.sort((one, other) => one[0] - other[0] || one[1] - other[1]);
    this.#publics = refusedIn(this.#errors, 'public symbols', () => {
      const sections = this.#sectionHeaders(), bytes = this.#streamOrNone(this.info.symbol_stream);
      return new Symbols(memoryOf(this), bytes, 0, { offset: 0n, length: BigInt(bytes.length) }, sections);
    });
    return this.#functions = { starts, modules: found };
  }

  /** The parts that are refused, of those that name RVAs, each with its PeError. */
  get damaged() {
    this.#read();
    // The tables of code that was moved are read too.
    this.#moved(0);
    return this.#errors.slice();
  }

  /** The module that may have an RVA, by the last procedure that starts at it or before it, with its symbols; or null. */
  #moduleAt(at) {
    const { starts, modules } = this.#read();
    let low = 0, high = starts.length;
    while (low < high) {
      const middle = low + high >> 1;
      if (starts[middle][0] <= at) low = middle + 1;
      else high = middle;
    }
    return low ? modules[starts[low - 1][1]] : null;
  }

  /** The function at an RVA and its line, or null: see index.d.ts. */
  find(rva, options) {
    // A text would become a number: '4096', and '' too.
    if (typeof rva !== 'number') throw new TypeError(`an RVA is a number, and not ${typeof rva === 'bigint' ? 'a BigInt' : String(rva)}`);
    const isReturn = Boolean(optionsOf(options, 'isReturn').isReturn), asked = rva - Number(isReturn);
    const at = Number.isInteger(asked) && asked >= 0 && asked <= 0xFFFFFFFF ? this.#moved(asked) : null;
    if (at === null) return null;
    const own = this.#moduleAt(at)?.symbols, found = own?.find(at) ?? null;
    const symbols = found ? own : this.#publics, symbol = found ?? this.#publics?.find(at);
    if (!symbol) return null;
    const line = found && own.line(at), none = { file: null, line: null, column: null };
    const { file, line: number, column } = line && line.line !== null ? line : none;
    // Where the start of a moved function is gone, it is by the distance.
    const offset = at + Number(isReturn) - symbol.rva, start = this.#moved(symbol.rva, true) ?? (rva - offset) >>> 0;
    return { name: symbols.utf8(symbol.name), start, offset,
      source: found ? 'procedure' : 'public', file, line: number, column, isInlined: false };
  }

  /** The functions at an RVA, the innermost first: see index.d.ts. */
  frames(rva, options = {}) {
    const own = this.find(rva, options), at = own && this.#moved(rva - Number(Boolean(options.isReturn)));
    const found = own?.source === 'procedure' ? this.#inlined(this.#moduleAt(at), at) : Object.assign([], { isLimited: false });
    const inlined = found.map(({ name, file, line }) => ({ ...own, name, file, line, column: null, isInlined: true }));
    return Object.assign(own ? [...inlined, own] : [], { isLimited: found.isLimited });
  }

  /** The functions that are inlined at an RVA of a procedure of a module. Most RVAs have none: the ids are read when one has. */
  #inlined({ module, symbols }, at) {
    const part = `inlined functions of ${module.name}`, none = Object.assign([], { isLimited: false });
    return this.#once(part, () => {
      if (!this.#ids && !symbols.inlined(module, at, [0n, 0n, 0n, 0n]).length) return none;
      this.#ids ??= this.#readIds();
      const [bytes, length] = this.#ids, found = symbols.inlined(module, at, this.#ids), memory = memoryOf(this);
      const text = ({ offset, length: size }) => memory.textAt(Number(bytes + offset), Number(size), utf8);
      for (const it of found) {
        it.name = it.name_result === constants.PE_C_DONE ? [it.scope, it.name].filter((one) => one.length).map(text).join('::') : '';
        // Without ids no function has a name, which is said once.
        for (const result of length ? [it.line_result, it.name_result] : [it.line_result]) {
          this.#once(part, () => memoryOf(this).isDone('pe_c_find_pdb_inlined', result));
        }
      }
      return found;
    }) ?? none;
  }

  /** The bytes of the stream of ids and where its records start, as addresses and lengths: of no length where it is refused. */
  #readIds() {
    return this.#once('names of inlined functions', () => {
      const memory = memoryOf(this), bytes = Object.values(placed(memory, this.stream(ID_STREAM)));
      return [...bytes, ...listed(memory, 'pe_c_pdb_ids', 'uint64_t', bytes)];
    }) ?? [0n, 0n, 0n, 0n];
  }

  /** What `make` returns, or null where it is refused: of each part `damaged` has the first error. */
  #once(part, make) {
    const errors = [], found = refusedIn(errors, part, make);
    if (errors.length && !this.#said.has(part)) this.#errors.push(...errors);
    if (errors.length) this.#said.add(part);
    return found;
  }
}

/** A symbol as index.d.ts has it. */
function symbolOf({ name, rva, size, flags, kind, section, section_offset: sectionOffset, result }, file) {
  const isDone = result === constants.PE_C_DONE;
  return { name: file.utf8(name), rva: isDone ? rva : null, size, kind, section, sectionOffset,
    isFunction: kind !== S_PUB32 || (flags & 2) !== 0, error: isDone || result === constants.PE_C_NOTHING ? 0 : result };
}
