// For browsers and bundlers: the module is fetched from beside this file.
import { Library } from './library.mjs';
import { optionsOf } from './memory.mjs';

export * from './library.mjs';

/** Compiles the module. With `wide` it is the one with a memory of 64 bits, for files above 4 GiB, where the engine
 * has that. */
export async function load(options) {
  const { wide = false } = optionsOf(options, 'wide');
  const url = wide ? new URL('./pe_c64.wasm', import.meta.url) : new URL('./pe_c.wasm', import.meta.url);
  return new Library(await WebAssembly.compileStreaming(fetch(url)));
}
