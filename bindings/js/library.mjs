// The library for C, pe_c, as a WebAssembly module: records of pe.h as objects, walks as iterators, errors as
// PeError. index.mjs and browser.mjs say where the module comes from.
//
// Each file has an instance of the module of its own, which has the file, its section headers and nothing else in its
// memory. That memory never shrinks, so drop the image, and with it the instance, when the file is done.
import { Caller, File, placed } from './calls.mjs';
import { Dump } from './dump.mjs';
import { Image, modeOf } from './image.mjs';
import { abi, calls, constants, records, results, version } from './layouts.mjs';
import { Memory, PeError, whole } from './memory.mjs';
import { Coff, TeImage } from './objects.mjs';
import { Pdb } from './pdb.mjs';
import { Process } from './process.mjs';
import { blockOf, versionOf } from './resources.mjs';

export { Coff, Dump, File, Image, Pdb, PeError, Process, TeImage };
export { abi, calls, constants, records, results, version };

/** The module, compiled once for all files. */
export class Library {
  constructor(module) {
    this.module = module;
  }

  /** Reads the headers of an image: a file, or with the mode PE_C_MAPPED a module in memory. */
  open(bytes, options) {
    return new Image(new Memory(this.module), bytes, modeOf(options));
  }

  /** Reads the headers of a COFF object. Any 20 bytes are such a header: look at its machine. */
  openObject(bytes) {
    return new Coff(new Memory(this.module), bytes);
  }

  /** Reads the headers of a TE image. */
  openTe(bytes) {
    return new TeImage(new Memory(this.module), bytes);
  }

  /** Reads the header of a minidump. */
  openDump(bytes) {
    return new Dump(new Memory(this.module), bytes);
  }

  /** Reads what a PDB says of itself. */
  openPdb(bytes) {
    return new Pdb(new Memory(this.module), bytes);
  }

  /** Bytes for the calls that take nothing else, as a signature alone. */
  file(bytes) {
    const memory = new Memory(this.module);
    return new File(memory, placed(memory, bytes));
  }

  /** Why `open` refuses bytes, pe_c_failure, or null where it reads their headers. */
  failure(bytes, options) {
    return this.file(bytes).call('pe_c_image_failure', { mode: modeOf(options) });
  }

  /** Why `openTe` does. */
  teFailure(bytes) {
    return this.file(bytes).call('pe_c_te_failure');
  }

  /** The modules of a process and its memory, for stack walks. */
  process(parts) {
    return new Process(new Memory(this.module), parts);
  }

  /** Makes a call of pe.h that takes no file. */
  call(name, given = {}) {
    return this.#caller().call(name, given);
  }

  /** A block of version information and those in it, as bytes. */
  versionBlock(block) {
    return blockOf(this.#caller(), block);
  }

  /** The content of a version resource: numbers, and strings by their names. */
  versionInfo(parts) {
    return versionOf(this.#caller(), parts);
  }

  #caller() {
    return new Caller(new Memory(this.module), {});
  }

  /** The text of a result. */
  text(number) {
    return new Memory(this.module).text(whole('uint32_t', number));
  }
}
