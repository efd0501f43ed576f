// An image: its headers and sections, all calls of pe.h over it, and its lists as iterators.
import { File, bytesOf, firstOfType, listOf, memoryOf, ownOf, placed, placeFor, viewOf, wholeEntries, written } from './calls.mjs';
import { constants } from './layouts.mjs';
import { PeError, fieldOf, only, optionsOf, whole, width } from './memory.mjs';
import { delayImportsOf, digestOf, exportsOf, importsOf, manifestOf, signaturesOf, versionsOf } from './parts.mjs';
import { recordsOf, resourcesOf } from './resources.mjs';
import { symbolsOf } from './symbols.mjs';

const ARM64 = 0xAA64;
// Bytes of an entry of the table of bound imports, and how many DLLs may have a forwarder that is refused: for each, texts are read again.
const BOUND_ENTRY = 8, MOST_REFUSED = 64;
// What names an address, by its number in pe_c_function_name; and the tables of which names are read.
const SOURCES = [null, 'symbol', 'export'], NAME_TABLES = ['functions', 'symbols', 'strings', 'exports'];

// The lists of an image: the call that starts each, the one that returns its next item or many, and for calls that read names
// together how many runs they take for each. `place` is the field of a walk that says where it stands, beside the sections that it
// keeps. The walk over exports skips names that are no text, so that it is cut in place of its end.
const LISTS = {
  debugEntries: ['pe_c_debug_entries', 'pe_c_next_debug_entry'],
  exports: ['pe_c_export_tables', 'pe_c_list_exports', { runs: 2, cut: nextNames, place: 'exports' }],
  libraries: ['pe_c_import_libraries', 'pe_c_list_libraries', { runs: 2, place: 'libraries' }],
  delayImports: ['pe_c_delay_imports', 'pe_c_list_delay_imports', { runs: 1, place: 'entries' }],
  versionBlocks: ['pe_c_version_blocks', 'pe_c_next_version_block'],
  resourceLeaves: ['pe_c_resource_leaves', 'pe_c_list_resource_leaves', { place: 'leaves' }],
  relocationBlocks: ['pe_c_relocation_blocks', 'pe_c_list_relocation_blocks', {}],
};

/** A walk over exports with the next so many entries of its name table, or null at its end. */
function nextNames({ exports: { names: { offset, length }, ...walk } }, count) {
  const end = 4n * (walk.next + BigInt(count)), names = { offset, length: end < length ? end : length };
  return 4n * walk.next < length ? { exports: { ...walk, names } } : null;
}

/** The exports that have a name, from where a walk over them is. */
export const namedExports = (image, exports) => image.many('pe_c_list_exports', { exports }, LISTS.exports[2]);

/** A walk of its own, for a list that starts anew each time. */
const copied = (walk) => structuredClone(walk);

/** The mode among options, one that pe.h has: it takes others for one of these. */
export function modeOf(options) {
  const { mode = constants.PE_C_STRICT } = optionsOf(options, 'mode');
  return checkMode(mode);
}

function checkMode(mode) {
  const { PE_C_STRICT, PE_C_PERMISSIVE, PE_C_MAPPED } = constants;
  if ([PE_C_STRICT, PE_C_PERMISSIVE, PE_C_STRICT + PE_C_MAPPED, PE_C_PERMISSIVE + PE_C_MAPPED].includes(mode)) return mode;
  throw new TypeError(`mode is PE_C_PERMISSIVE or PE_C_STRICT, or one of these + PE_C_MAPPED, and not ${String(mode)}`);
}

/** Reads the headers and the section headers: the arguments that the image is for calls, and both as objects. */
function opened(memory, bytes, mode) {
  checkMode(mode);
  const own = placed(memory, bytes), info = memory.reserve(width('pe_c_image_info')), size = width('pe_c_section');
  memory.isDone('pe_c_image', memory.make('pe_c_image', [own.bytes, own.length, mode, BigInt(info)]));
  const found = memory.read('pe_c_image_info', info), count = found.number_of_sections, table = memory.reserve(count * size);
  Object.assign(own, { image: BigInt(info), sections: BigInt(table), count: BigInt(count) });
  memory.isDone('pe_c_sections', memory.make('pe_c_sections', [own.bytes, own.length, own.image, own.sections, own.count]));
  const view = memory.reserve(width('pe_c_view'));
  memory.write('pe_c_view', view, own);
  const sections = Array.from({ length: count }, (_, i) => memory.read('pe_c_section', table + i * size));
  return { own: { ...own, view: BigInt(view) }, info: found, sections };
}

export class Image extends File {
  constructor(memory, bytes, mode) {
    const { own, info, sections } = opened(memory, bytes, mode);
    super(memory, own);
    /** pe_c_image_info */
    this.info = info;
    /** pe_c_section, one for each section. */
    this.sections = sections;
  }

  /** The items of a list of the image, none where it is absent: see index.d.ts for the names. */
  list(name) {
    const [start, next, options] = listOf(LISTS, name), place = options?.place;
    const walk = () => { const at = this.call(start); return at && place ? { [place]: at } : at; };
    return options ? this.many(next, walk, options) : this.items(next, walk);
  }

  /** Makes an index of the sections, by which calls find one among many from then on: pe_c_index. */
  index() {
    const memory = memoryOf(this), own = ownOf(this), most = 4n * own.count;
    const room = BigInt(memory.reserve(Number(most) * width('pe_c_range_entry'))), count = memory.reserve(8);
    memory.isDone('pe_c_index', memory.make('pe_c_index', [own.view, room, most, BigInt(count)]));
    memory.write('pe_c_view', Number(own.view), { ...viewOf(this), index: room, entries: memory.read('uint64_t', count) });
  }

  /** All numbers of the headers: pe_c_headers_info. */
  headers() {
    return this.call('pe_c_headers', { mode: this.info.mode });
  }

  /** The first entry of the debug directory of a type, IMAGE_DEBUG_TYPE_ of winnt.h, or null. */
  debugEntry(type) {
    return firstOfType(this.items('pe_c_next_debug_entry', wholeEntries(this.call('pe_c_debug_entries'))), type);
  }

  /** The COFF symbols, as images of mingw-w64 have them, or null. An image as loaded has none. */
  symbols() {
    return this.info.mode & constants.PE_C_MAPPED ? null : symbolsOf(this, this.headers().coff);
  }

  // ---- parts as values

  /** What is exported. */
  exports() {
    return exportsOf(this);
  }

  /** The libraries that are loaded when one of their functions is called first, as `imports` has others. */
  delayImports() {
    return delayImportsOf(this);
  }

  /** Version information in each language. */
  versions() {
    return versionsOf(this);
  }

  /** The text of the first manifest, or null. */
  manifest() {
    return manifestOf(this);
  }

  /** What the signatures say. Nothing is verified. */
  signatures() {
    return signaturesOf(this);
  }

  /** The Authenticode digest, which a signature of the image covers: a promise of its bytes. */
  digest(algorithm = 'SHA-256') {
    return digestOf(this, algorithm);
  }

  // ---- walks whose start or whose next item needs more

  /** All libraries with what is imported of each, as values; or the imports of one library, as records. */
  imports(...given) {
    if (!given.length) return importsOf(this);
    return this.many('pe_c_list_imports', copied({ imports: fieldOf(given[0], 'imports', 'of the list libraries') }), { runs: 1 });
  }

  /** Whether the RVA of a library's list is unmapped, so that `imports` has nothing. A list at the file offset 0 is not empty: the DOS
   * header starts there. */
  hasUnmappedList(library) {
    const { left } = fieldOf(library, 'imports', 'of the list libraries');
    return left.offset === 0n && left.length === 0n;
  }

  /** What the address table of a library names, up to a zero entry: until the loader has filled it, it has the entries of the lookup
   * table. */
  *addressTable({ address_table_rva: rva }) {
    const offset = this.call('pe_c_offset', { rva }), size = this.info.width === 64 ? 8n : 4n, call = 'pe_c_next_import';
    if (offset === null) throw this.refused(call, 'PE_C_UNMAPPED');
    const walk = { imports: { left: { offset, length: BigInt(this.length) - offset }, rva: BigInt(rva) } };
    for (;;) {
      const { left } = walk.imports;
      if (left.length < size) throw this.refused(call, 'PE_C_SHORT');
      if (this.slice({ offset: left.offset, length: size }).every((it) => it === 0)) return;
      yield this.call(call, { walk });
    }
  }

  /** The functions of a DLL that is loaded when it is needed. */
  delayedFunctions(delayImport) {
    return this.many('pe_c_list_delayed_functions', copied({ functions: fieldOf(delayImport, 'functions', 'of the list delayImports') }), { runs: 1 });
  }

  /** All exports by their index, with those that have no name. */
  *exportAddresses() {
    const table = this.call('pe_c_export_addresses');
    if (table) yield* this.indexed('pe_c_list_export_addresses', { table }, 1);
  }

  /** The bound imports, each with its forwarders, up to one that is refused, which is their `error`. */
  *boundImports() {
    const table = this.call('pe_c_bound_imports');
    if (!table) return;
    const options = { runs: 1, given: { table } }, call = 'pe_c_list_bound_forwarders', end = table.offset + table.length;
    const from = (offset) => this.many(call, { offset, length: end - offset }, options);
    let each = from(table.offset), refused = 0;
    for (const found of this.many('pe_c_list_bound_imports', copied(table), options)) {
      const { offset, length } = found.forwarders, forwarders = Object.assign([], { error: null });
      try {
        // The entries of all, of which the first is the DLL's own: lists of the forwarders of each would read a text that they
        // share each.
        each.next();
        while (forwarders.length < Number(length) / BOUND_ENTRY) forwarders.push(each.next().value);
      } catch (error) {
        if (!(error instanceof PeError)) throw error;
        // The entries from the next DLL on are listed anew.
        if (++refused > MOST_REFUSED) throw this.refused(call, 'PE_C_ROOM');
        forwarders.error = error;
        each = from(offset + length);
      }
      yield { ...found, forwarders };
    }
  }

  /** The certificates of the certificate table; none of an image as loaded, which has something else at the table's file offset. */
  *certificates() {
    if (this.info.mode & constants.PE_C_MAPPED) return;
    const { virtual_address: offset, size: length } = this.info.directories[constants.PE_C_DIRECTORY_SECURITY];
    yield* this.items('pe_c_next_certificate', { offset: BigInt(offset), length: BigInt(length) });
  }

  /** The entries of the Rich header. */
  *richEntries() {
    const header = this.call('pe_c_rich_header');
    if (header) yield* this.items('pe_c_next_rich_entry', header.entries, { key: header.key });
  }

  /** The relocations of a block. */
  relocations(block) {
    return this.many('pe_c_list_relocations', copied(fieldOf(block, 'entries', 'of the list relocationBlocks')), { given: { page_rva: block.page_rva } });
  }

  /** The range of the function table of an x64 or ARM64 image, or null. */
  functionTable() {
    return this.call(this.info.machine === ARM64 ? 'pe_c_arm64_table' : 'pe_c_function_table');
  }

  /** The functions of an x64 or ARM64 image, in the order of their table. */
  *functions() {
    const table = this.functionTable(), isArm64 = this.info.machine === ARM64;
    if (table) yield* this.indexed(isArm64 ? 'pe_c_list_arm64_functions' : 'pe_c_list_functions', { table });
  }

  /** What names each of these addresses without a PDB: RVAs, which return addresses are where `isReturn`. It is the last COFF symbol within
   * its function, else the export that starts it, or in an image without a function table the nearest of either; else null. `damaged` has
   * the tables of names that are refused. */
  functionNames(addresses) {
    const asked = addresses.map((it) => ({
      rva: whole('uint32_t', it.rva), is_return: Number(only('fields of an address', ['rva', 'isReturn'], it).isReturn ?? false) }));
    const sources = this.call('pe_c_name_tables'), names = asked.map(() => ({}));
    this.call('pe_c_function_names', { sources, addresses: asked, room: placeFor(sources.room), names });
    const found = names.map(({ name, start, offset, source, is_nearest: isNearest }) => source === 0 ? null : {
      name: name.length > 0n ? this.utf8(name) : null, start, offset, source: SOURCES[source], isNearest: isNearest === 1 });
    const results = NAME_TABLES.map((part) => [part, sources[`${part}_result`]]);
    const damaged = results.filter(([, it]) => it !== constants.PE_C_DONE && it !== constants.PE_C_NOTHING)
      .map(([part, it]) => ({ part, error: memoryOf(this).error('pe_c_name_tables', it) }));
    return Object.assign(found, { damaged });
  }

  /** The unwind records of an x64 function, up to the root of its chain. */
  *records(found) {
    const table = this.call('pe_c_function_table'), unwind = fieldOf(found, 'unwind', 'a function'), plan = { unwind, saved: unwind, limit: 1n };
    if (table) yield* this.items('pe_c_next_record', { plan }, { table });
  }

  /** The unwind codes of an x64 record. */
  codes(record) {
    return this.items('pe_c_next_code', copied(fieldOf(record, 'codes', 'an unwind record')));
  }

  /** The callbacks that run when a thread starts or ends, virtual addresses. */
  *tlsCallbacks() {
    const tls = this.call('pe_c_tls'), walk = tls && this.call('pe_c_tls_callbacks', { tls });
    if (walk) yield* this.items('pe_c_next_tls_callback', walk);
  }

  /** The streams of .NET metadata. */
  *metadataStreams() {
    const header = this.call('pe_c_clr_header'), metadata = header && this.call('pe_c_clr_metadata', { header });
    if (metadata) yield* this.items('pe_c_next_metadata_stream', metadata.streams);
  }

  // ---- what is written: a new file each, and the image stays

  /** The file with a certificate, or several: entries of a certificate table. */
  attach(certificate, options) {
    const { placement = constants.PE_C_AFTER } = optionsOf(options, 'placement'), { PE_C_AFTER, PE_C_IN_PLACE } = constants;
    // The call takes others for one of these.
    if (![PE_C_AFTER, PE_C_IN_PLACE].includes(placement)) throw new TypeError(`placement is PE_C_AFTER or PE_C_IN_PLACE, and not ${String(placement)}`);
    return written(this, 'pe_c_attach', { certificate: bytesOf(certificate), placement });
  }

  /** The file without its certificates. */
  detach() {
    return written(this, 'pe_c_detach', {});
  }

  /** All resources in each language, as `edit` takes them. */
  resources() {
    return resourcesOf(this);
  }

  /** The file with these resources, in any order, in place of those that it has. */
  edit(resources) {
    return written(this, 'pe_c_edit', recordsOf(resources));
  }
}
