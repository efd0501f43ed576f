// Stack walks on x64 and ARM64, through the modules of a process.
import { Caller, bytesOf, viewOf } from './calls.mjs';
import { Image } from './image.mjs';
import { constants } from './layouts.mjs';
import { PeError, fieldOf, only, whole, width } from './memory.mjs';

const ARM64 = 0xAA64;

/** Writes records side by side, and returns the address and the number of them. */
function array(memory, type, values) {
  const at = memory.reserve(values.length * width(type));
  values.forEach((it, i) => memory.write(type, at + i * width(type), it));
  return [BigInt(at), BigInt(values.length)];
}

/** The whole entries of a function table that is damaged, as Windows divides its size: those that the bytes have. */
function wholeEntries(image) {
  const { virtual_address: rva, size } = image.info.directories[constants.PE_C_DIRECTORY_EXCEPTION];
  const entry = image.info.machine === ARM64 ? 8 : 12, offset = image.call('pe_c_offset', { rva });
  if (offset === null || offset > image.length) return {};
  const length = Math.min(size, image.length - Number(offset));
  return { offset, length: length - length % entry };
}

/** A module as calls take it: its image, its function table, and the address where it is loaded; and why the table is damaged,
 * or null. */
function moduleOf(image, base) {
  try {
    return [{ image: viewOf(image), table: image.functionTable() ?? {}, base }, null];
  } catch (error) {
    if (!(error instanceof PeError)) throw error;
    return [{ image: viewOf(image), table: wholeEntries(image), base }, error];
  }
}

/** One whose image is not at hand, by its size. */
function withoutImage(memory, size, base) {
  const info = memory.reserve(width('pe_c_image_info'));
  const none = { bytes: 0n, length: 0n, sections: 0n, count: 0n, index: 0n, entries: 0n };
  memory.write('pe_c_image_info', info, { size_of_image: whole('uint32_t', size) });
  return [{ image: { ...none, image: BigInt(info) }, table: {}, base }, null];
}

/** A walk with what it starts from: a frame of no registers, or no frame at all, would be walked without a word. */
function walkOf(walk) {
  for (const it of ['registers', 'remaining']) fieldOf(walk, it, 'a walk');
  return walk;
}

/** The modules of a process and its memory, in one instance. */
export class Process extends Caller {
  constructor(memory, parts) {
    const { modules, memory: given, pieces } = only('parts of a process', ['modules', 'memory', 'pieces'], parts);
    for (const it of modules) {
      only('fields of a module', ['bytes', 'size', 'base', 'mode'], it);
      if (it.bytes && it.size !== undefined) throw new TypeError('a module has bytes or a size, and not both');
    }
    const bytes = bytesOf(given), bases = modules.map(({ base }) => whole('uint64_t', base));
    const images = modules.map((it) => (it.bytes ? new Image(memory, it.bytes, it.mode ?? constants.PE_C_STRICT) : null));
    const found = images.map((it, i) => (it ? moduleOf(it, bases[i]) : withoutImage(memory, modules[i].size, bases[i])));
    const [first, count] = array(memory, 'pe_c_module', found.map(([it]) => it));
    const [piece, pieceCount] = array(memory, 'pe_c_memory_piece', pieces);
    super(memory, {
      modules: first, module_count: count,
      memory: BigInt(memory.put(bytes)), memory_length: BigInt(bytes.length), pieces: piece, piece_count: pieceCount,
    });
    /** The images of the modules, null for one that is not at hand. */
    this.images = images;
    /** Why the function table of a module is damaged, of which the whole entries serve: null for each that is not. */
    this.damaged = found.map(([, error]) => error);
  }

  /** The frames of a stack, from the top frame on: the walk, pe_c_stack_walk, as it is after each. The one that is given is moved,
   * and says in the end why no frame follows. */
  *frames(walk) {
    while (this.call('pe_c_next_frame', { walk: walkOf(walk) })) yield structuredClone(walk);
  }

  /** The same on ARM64: pe_c_arm64_stack_walk. */
  *arm64Frames(walk) {
    while (this.call('pe_c_next_arm64_frame', { walk: walkOf(walk) })) yield structuredClone(walk);
  }
}
