// For Node: the module is the file pe_c.wasm beside this one.
import { readFileSync } from 'node:fs';
import { Library } from './library.mjs';
import { optionsOf } from './memory.mjs';

export * from './library.mjs';

/** Compiles the module. With `wide` it is the one with a memory of 64 bits, for files above 4 GiB, where the engine
 * has that. */
export async function load(options) {
  const { wide = false } = optionsOf(options, 'wide');
  const path = new URL(wide ? './pe_c64.wasm' : './pe_c.wasm', import.meta.url);
  return new Library(await WebAssembly.compile(readFileSync(path)));
}
