// Minidumps: their streams, and the records of each.
import { File, listOf, placed } from './calls.mjs';
import { constants } from './layouts.mjs';
import { PeError } from './memory.mjs';
import * as names from './names.mjs';

const ARM64 = 12;
// Exceptions whose parameters say more, and what an access was.
const ACCESS_VIOLATION = 0xC0000005, IN_PAGE_ERROR = 0xC0000006, FAST_FAIL = 0xC0000409;
const ACCESSES = { 0: 'read', 1: 'write', 8: 'execution' };
const digits = (number) => `0x${number.toString(16).padStart(8, '0')}`;
const named = (number, table) => (table[number] ? `${table[number]} (${digits(number)})` : digits(number));

// The lists of a dump: the stream of each, and the call that returns the record with an index.
const LISTS = {
  threads: ['THREAD_LIST', 'thread'],
  modules: ['MODULE_LIST', 'module'],
  pieces: ['MEMORY_LIST', 'memory'],
  handles: ['HANDLE_DATA', 'handle'],
  unloadedModules: ['UNLOADED_MODULE_LIST', 'unloaded'],
  regions: ['MEMORY_INFO_LIST', 'region'],
  threadInfos: ['THREAD_INFO_LIST', 'thread_info'],
  threadNames: ['THREAD_NAMES', 'thread_name'],
};

/** The items of a list, up to what is refused. */
function* upToError(items) {
  try {
    yield* items;
  } catch (error) {
    if (!(error instanceof PeError)) throw error;
  }
}

/** A minidump. A stream that is damaged costs that stream alone. */
export class Dump extends File {
  // What was said of each kind of stream, each of which reads the directory: its range, null, or why it is refused.
  #streams = new Map();

  constructor(memory, bytes) {
    super(memory, placed(memory, bytes));
    /** pe_c_dump_info */
    this.info = this.call('pe_c_dump');
  }

  /** The entries of the directory. */
  entries() {
    return this.#records('pe_c_dump_entry_at', { directory: this.info.directory });
  }

  /** The range of the stream of a kind, PE_C_*_STREAM, or null. */
  stream(type) {
    if (!this.#streams.has(type)) this.#streams.set(type, this.#found(type));
    const found = this.#streams.get(type);
    if (found instanceof PeError) throw this.refused(found.call, found.constant);
    return found && { ...found };
  }

  #found(type) {
    try {
      return this.call('pe_c_dump_stream', { directory: this.info.directory, stream_type: type });
    } catch (error) {
      if (!(error instanceof PeError)) throw error;
      return error;
    }
  }

  /** The records of a list, none where its stream is absent: see index.d.ts for the names. */
  list(name) {
    return this.#list(...listOf(LISTS, name));
  }

  *#list(kind, record) {
    const stream = this.stream(constants[`PE_C_${kind}_STREAM`]);
    if (stream) yield* this.#records(`pe_c_dump_${record}_at`, { stream });
  }

  *#records(call, given) {
    for (let index = 0n; ; index++) {
      const found = this.call(call, { ...given, index });
      if (found === null) return;
      yield found;
    }
  }

  #one(kind, call) {
    const stream = this.stream(constants[`PE_C_${kind}_STREAM`]);
    return stream && this.call(call, { stream });
  }

  /** The exception that the dump was written for, or null. */
  exception() {
    return this.#one('EXCEPTION', 'pe_c_dump_exception');
  }

  /** Why the process crashed, in words: the exception by its name, and what its parameters say; or null. */
  reason() {
    const raised = this.exception();
    if (!raised) return null;
    const code = raised.exception_code, parameters = raised.exception_information.slice(0, raised.number_parameters).map(BigInt);
    const said = named(code, names.EXCEPTIONS), access = ACCESSES[parameters[0]];
    if ([ACCESS_VIOLATION, IN_PAGE_ERROR].includes(code) && parameters.length >= 2 && access) {
      const status = code === IN_PAGE_ERROR && parameters.length > 2 ? `, ${named(parameters[2], names.EXCEPTIONS)}` : '';
      return `${said}: ${access} at 0x${parameters[1].toString(16)}${status}`;
    }
    if (code !== FAST_FAIL || !parameters.length) return said;
    return `${said}: ${names.FAST_FAILS[parameters[0]] ?? `__fastfail(${parameters[0]})`}`;
  }

  /** The system, or null. */
  system() {
    return this.#one('SYSTEM_INFO', 'pe_c_dump_system');
  }

  /** What is known of the process, or null. */
  process() {
    return this.#one('MISC_INFO', 'pe_c_dump_process');
  }

  /** The pieces of memory of a full dump, after those of the list `pieces`. */
  *fullPieces() {
    const walk = this.#one('MEMORY64_LIST', 'pe_c_dump_memory64');
    if (walk) yield* this.items('pe_c_next_memory64', walk);
  }

  /** The text that a record leads to. */
  text(rva) {
    return this.utf16(this.call('pe_c_dump_text', { rva }), { isWhole: true });
  }

  /** The memory of both lists, and the stacks that the records of threads name, as far as the file has them: at offset 0, which full
   * dumps say of all stacks, it has its header. */
  *#memory() {
    for (const items of [this.list('pieces'), this.fullPieces()]) for (const it of upToError(items)) yield it.memory;
    for (const { stack: { start_of_memory_range: start, memory } } of upToError(this.list('threads'))) {
      const length = BigInt(Math.max(0, Math.min(memory.size, this.length - memory.rva)));
      if (memory.rva !== 0) yield { start, offset: BigInt(memory.rva), length };
    }
  }

  /** The memory of both lists, and the stacks of threads that these lack, as pieces in ascending order, apart: an address is that of the
   * first piece that has it. */
  runs() {
    const pieces = [], longest = new Map();
    for (const it of this.#memory()) {
      // No byte of a piece counts where one before it starts there too and has no fewer bytes: threads may share one stack.
      if (longest.get(it.start) >= it.length) continue;
      longest.set(it.start, it.length);
      pieces.push(it);
    }
    const room = (most) => Array.from({ length: most * pieces.length }, () => ({})), runs = room(2);
    return runs.slice(0, Number(this.call('pe_c_memory_runs', { pieces, entries: room(4), runs })));
  }

  #isArm64() {
    return this.system()?.processor_architecture === ARM64;
  }

  /** The registers at the location of a context: those of the machine that the dump names. */
  context(location) {
    return this.call(this.#isArm64() ? 'pe_c_dump_context_arm64' : 'pe_c_dump_context', { location });
  }

  /** The registers of a thread: those of the exception, if it names the thread and they can be read, else its own. */
  contextOf(thread) {
    try {
      const raised = this.exception();
      if (raised?.thread_id === thread.thread_id) return this.context(raised.thread_context);
    } catch (error) {
      // A stream that is damaged names no thread: `exception` says so, and `context` of its `thread_context`.
      if (!(error instanceof PeError)) throw error;
    }
    return this.context(thread.thread_context);
  }
}
