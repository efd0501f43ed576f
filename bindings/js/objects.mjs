// What is read as images are, and is none: COFF objects, the output of compilers, and TE images, those of firmware.
import { File, firstOfType, placed, wholeEntries } from './calls.mjs';
import { symbolsOf } from './symbols.mjs';

/** The section headers that a call writes to an array. */
function sectionsOf(file, call, given, count) {
  const room = Array.from({ length: count }, () => ({}));
  file.call(call, { ...given, room });
  return room;
}

export class Coff extends File {
  constructor(memory, bytes) {
    super(memory, placed(memory, bytes));
    /** pe_c_coff_header */
    this.header = this.call('pe_c_coff');
    /** pe_c_section, one for each section. */
    const { number_of_sections: count, size_of_optional_header: size } = this.header;
    this.sections = sectionsOf(this, 'pe_c_sections', { image: { sections_offset: 20n + BigInt(size), number_of_sections: count } }, count);
  }

  /** The symbols, or null where the header leads to none. */
  symbols() {
    return symbolsOf(this, this.header);
  }
}

export class TeImage extends File {
  constructor(memory, bytes) {
    super(memory, placed(memory, bytes));
    /** pe_c_te_image */
    this.header = this.call('pe_c_te');
    /** pe_c_section, one for each section. */
    this.sections = sectionsOf(this, 'pe_c_te_sections', { te: this.header }, this.header.number_of_sections);
  }

  /** The entries of the debug directory. The calls that take one read its record with PE_C_MAPPED. */
  *debugEntries() {
    const walk = this.call('pe_c_te_debug_entries', { te: this.header });
    if (walk) yield* this.items('pe_c_next_te_debug_entry', walk, { te: this.header });
  }

  /** The first of them of a type, IMAGE_DEBUG_TYPE_ of winnt.h, or null. */
  debugEntry(type) {
    const te = this.header, walk = wholeEntries(this.call('pe_c_te_debug_entries', { te }));
    return firstOfType(this.items('pe_c_next_te_debug_entry', walk, { te }), type);
  }
}
