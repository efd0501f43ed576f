// Minidumps, as `pe report` shows them: why the process crashed, the stacks of its threads, and its modules. A page has one file, so
// images are those that the dump has in its memory.
import { PeError, constants } from './library.mjs';

// Frames of a thread and of all of them; how many modules cost as much as a frame; how often the bytes of the dump are copied for images.
const FRAMES = 100, ALL_FRAMES = 20000, MODULES_A_FRAME = 100, READINGS = 16;
const WAYS = ['top', 'records', 'leaf', 'interrupt', 'scanned', 'frame-pointer'];
const ENDS = ['bound', 'bottom', 'no-module', 'no-function', 'records', 'long-chain', 'step', 'zero', 'no-return-address'];
const MODE = constants.PE_C_PERMISSIVE | constants.PE_C_MAPPED;

/** What a call of the library returns, or null where it is refused: the text is said in `said`. */
function attempt(said, what, call) {
  try {
    return call() ?? null;
  } catch (error) {
    if (!(error instanceof PeError)) throw error;
    said.push(`${what}: ${error.message}`);
    return null;
  }
}

/** The index of the last of these, which ascend, whose number is not above one; -1 where all are. */
function lastUpTo(all, number, numberOf) {
  let [low, high] = [0, all.length];
  while (low < high) {
    const middle = (low + high) >> 1;
    if (numberOf(all[middle]) <= number) low = middle + 1;
    else high = middle;
  }
  return low - 1;
}

/** The bytes of a module that are in the dump's memory from this run on, and how many are. */
function memoryOf({ base_of_image: base, size_of_image: size }, bytes, runs, first) {
  const found = new Uint8Array(size), end = base + BigInt(size);
  let there = 0;
  for (let i = first; i < runs.length && runs[i].start < end; i += 1) {
    const { start, offset, length } = runs[i];
    const from = start > base ? start : base, to = start + length < end ? start + length : end;
    const at = Number(offset + from - start);
    found.set(bytes.subarray(at, at + Number(to - from)), Number(from - base));
    there += Number(to - from);
  }
  return { found, there };
}

/** The modules with their names, and with an image those whose header and size are the module's. */
function modulesOf(library, dump, bytes, runs, said) {
  let left = READINGS * bytes.length;
  return attempt(said, 'modules', () => [...dump.list('modules')].map((it) => {
    const path = attempt([], '', () => dump.text(it.module_name_rva)), size = it.size_of_image;
    const module = { name: path && path.split(/[\\/]/).pop(), path, base_va: it.base_of_image, size, image: null, bytes: null };
    const first = lastUpTo(runs, module.base_va, (run) => run.start), run = runs[first];
    if (!run || module.base_va >= run.start + run.length) return module;
    if (size > left) return { ...module, image: 'too large' };
    left -= size;
    const { found, there } = memoryOf(it, bytes, runs, first);
    const info = attempt([], '', () => library.open(found, { mode: MODE }).info);
    if (info?.time_date_stamp !== it.time_date_stamp || info.size_of_image !== size) return module;
    return { ...module, image: there === size ? 'memory' : 'memory in part', bytes: found };
  })) ?? [];
}

function framesOf(process, dump, thread, most, modules, said) {
  const context = attempt(said, `registers of thread ${thread.thread_id}`, () => dump.contextOf(thread));
  if (!context || !process) return { frames: [], end: null };
  const walk = { registers: context.registers, remaining: BigInt(most) }, isArm64 = context.registers.rip === undefined;
  const frames = [...isArm64 ? process.arm64Frames(walk) : process.frames(walk)].map((it) => {
    const ip = isArm64 ? it.registers.pc : it.registers.rip;
    const before = modules[lastUpTo(modules, ip, (one) => one.base_va)];
    const module = before && ip < before.base_va + BigInt(before.size) ? before : null;
    return { ip_va: ip, module: module && module.name, offset: module && ip - module.base_va, way: WAYS[it.way],
      has_image: module && module.bytes !== null, has_called: it.has_called === 1, is_guess: it.is_guess === 1 };
  });
  return { frames, end: ENDS[walk.end] };
}

/** Says what is damaged and costs frames, but refuses nothing: function tables, lists of memory, and memory that a truncated file lacks. */
function sayDamage(said, dump, process, modules) {
  (process?.damaged ?? []).forEach((error, i) => {
    if (error) said.push(`function table of the module at 0x${modules[i].base_va.toString(16)}: ${error.message}; its whole entries serve`);
  });
  const pieces = [() => dump.list('pieces'), () => dump.fullPieces()].flatMap((list) => attempt(said, 'memory', () => [...list()]) ?? []);
  const lost = pieces.reduce((sum, it) => sum + it.lost, 0n);
  if (lost > 0n) said.push(`${lost} bytes more of memory are lost: the file is truncated`);
}

/** What is said of a minidump, the thread that crashed first. */
export function dumpFacts(library, bytes) {
  const said = [], dump = library.openDump(bytes), runs = attempt(said, 'memory', () => dump.runs()) ?? [];
  const modules = modulesOf(library, dump, bytes, runs, said), raised = attempt(said, 'exception', () => dump.exception());
  if (raised) attempt(said, "registers of the exception, in whose place stand the thread's own", () => dump.context(raised.thread_context));
  const known = modules.map(({ bytes: image, size, base_va: base }) => (image ? { bytes: image, base, mode: MODE } : { size, base }));
  const process = attempt(said, 'memory', () => library.process({ modules: known, memory: bytes, pieces: runs }));
  sayDamage(said, dump, process, modules);
  const ascending = [...modules].sort((one, other) => (one.base_va < other.base_va ? -1 : 1));
  // A frame costs a test of each module.
  const cost = 1 + Math.floor(modules.length / MODULES_A_FRAME);
  let left = ALL_FRAMES;
  const threads = attempt(said, 'threads', () => [...dump.list('threads')].map((thread) => {
    const walked = framesOf(process, dump, thread, Math.min(FRAMES, Math.floor(left / cost)), ascending, said);
    left -= walked.frames.length * cost;
    return { id: thread.thread_id, is_crashed: raised?.thread_id === thread.thread_id, ...walked };
  })) ?? [];
  threads.sort((one, other) => other.is_crashed - one.is_crashed);
  return { reason: attempt([], '', () => dump.reason()), address_va: raised?.exception_address ?? null, threads, refused: said,
    modules: modules.map(({ bytes: _, ...it }) => it) };
}
