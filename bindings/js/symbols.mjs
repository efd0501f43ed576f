// COFF symbols, of objects and of images.
import { constants } from './layouts.mjs';
import { PeError } from './memory.mjs';

/** The symbols that a COFF header leads to, or null where it leads to none. */
export function symbolsOf(file, coff) {
  const walk = file.call('pe_c_coff_symbols', { coff });
  return walk && new Symbols(file, coff, walk);
}

class Symbols {
  #file;
  #coff;
  #strings;
  #names = new WeakMap();

  constructor(file, coff, walk) {
    this.#file = file;
    this.#coff = coff;
    /** The range of the symbol table. */
    this.table = walk.table;
  }

  /** All symbols, without their auxiliary records. Their names are read together. */
  *[Symbol.iterator]() {
    const walk = { symbols: { table: this.table, next: 0n }, strings: this.#stringsOrNone() };
    for (const { symbol, name, name_result: result } of this.#file.many('pe_c_list_symbols', walk, { runs: 1 })) {
      if (result === constants.PE_C_DONE) this.#names.set(symbol, name);
      yield symbol;
    }
  }

  /** The string table as a range, an empty one also where it is refused: then names in it are. */
  #stringsOrNone() {
    try {
      return this.strings() ?? {};
    } catch (error) {
      if (!(error instanceof PeError)) throw error;
      return {};
    }
  }

  /** The symbol in an entry of the table, or null past its end. Auxiliary records have entries of their own. */
  at(index) {
    return this.#file.call('pe_c_symbol', { table: this.table, index });
  }

  /** The range of the string table, from its size field on, or null without one. */
  strings() {
    return this.#file.call('pe_c_coff_strings', { coff: this.#coff });
  }

  /** The name of a symbol. One of up to 8 bytes needs no string table. */
  name(symbol) {
    const { index, string_offset: offset } = symbol, known = this.#names.get(symbol);
    if (known) return this.#file.utf8(known);
    if (offset) this.#strings ??= this.strings() ?? {};
    return this.#file.utf8(this.#file.call('pe_c_symbol_name', { table: this.table, strings: this.#strings ?? {}, index }));
  }
}
