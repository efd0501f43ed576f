// What hashes.c does, over the library as a WebAssembly module: for Node and for a page. The module of all_calls.c imports the
// functions of the library and its memory, so that the library's module is tried as it is; its own data stand above the library's.
// Both modules have the same kind of memory, of 32 or of 64 bits.
const PAGE = 65536, DATA = 16 << 20, MOST_CALLS = 252;
const instance = (bytes, imports) => new WebAssembly.Instance(new WebAssembly.Module(bytes), imports).exports;
const aligned = (at) => (at + 63) & ~63;

/** The lines that hashes.c prints, of the bytes of both modules, the names of all calls, and files: the name and the bytes of each. */
export function* hashes(library, calls, names, files) {
  const functions = instance(library, {}), { memory } = functions;
  const reserve = (end) => {
    const pages = Math.ceil((end - memory.buffer.byteLength) / PAGE);
    if (pages <= 0) return;
    try {
      memory.grow(pages);
    } catch (error) {
      // a memory of 64 bits counts its pages by BigInt
      if (!(error instanceof TypeError)) throw error;
      memory.grow(BigInt(pages));
    }
  };
  reserve(DATA + (8 << 20));
  const { all_calls, __heap_base } = instance(calls, { env: functions });
  const totals = aligned(Number(__heap_base.value)), bytes = totals + aligned(16 + 16 * MOST_CALLS);
  const number = (at) => new DataView(memory.buffer).getBigUint64(at, true);
  for (const [name, file] of files) {
    const room = aligned(bytes + file.length + 1);
    reserve(room + file.length + 64);
    new Uint8Array(memory.buffer).set(file, bytes);
    all_calls(...[bytes, file.length, room, file.length + 64, totals].map(BigInt));
    yield `${number(totals).toString(16).padStart(16, '0')} ${name}`;
  }
  for (const [i, name] of names.entries()) {
    const at = totals + 16 + 8 * i;
    yield `call ${name} ${number(at)} ${number(at + 8 * MOST_CALLS)}`;
  }
}
