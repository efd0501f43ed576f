// What differs between two images, as the program pe says it (`pe diff --json`): the same rows (rows.mjs, functions.mjs), but for VC
// features and what an overlay is, and the regions whose bytes differ.
import { PARTS, hex, sectionName } from './rows.mjs';

/** The rows by their names. Of several with one name each but the first has its number. */
function byName(rows) {
  const counts = new Map(), found = new Map();
  for (const [name, value] of rows) {
    const count = (counts.get(name) ?? 0) + 1;
    counts.set(name, count);
    found.set(count === 1 ? name : `${name} (${count})`, value);
  }
  return found;
}

/** What came, went and changed from the facts of one image to those of another, part by part. */
export function differences(before, after) {
  return Object.entries(PARTS).flatMap(([part, rowsOf]) => {
    const [old, now] = [before, after].map((it) => byName(rowsOf(it)));
    const gone = [...old].filter(([name, value]) => now.get(name) !== value).map(([name, value]) => (
      { part, change: now.has(name) ? 'changed' : 'removed', name, before: value, after: now.get(name) ?? null }));
    const added = [...now].filter(([name]) => !old.has(name)).map(([name, value]) => (
      { part, change: 'added', name, before: null, after: value }));
    return [...gone, ...added];
  });
}

// ---- bytes: each is of one region, as pe has them

const DOS_HEADER = 64, SECTION_HEADER = 40, DANS = 0x536e6144, RICH = 0x68636952;
const u32 = (bytes, at) => (at + 4 <= bytes.length ? new DataView(bytes.buffer, bytes.byteOffset + at, 4).getUint32(0, true) : null);

/** The start and the end of the Rich header between the DOS header and the PE signature. */
function richIn(bytes, signature) {
  let end = signature - 8;
  while (end >= DOS_HEADER && u32(bytes, end) !== RICH) end -= 1;
  if (end < DOS_HEADER) return null;
  const dans = (DANS ^ u32(bytes, end + 4)) >>> 0;
  for (let start = DOS_HEADER; start <= end - 4; start += 1) if (u32(bytes, start) === dans) return [start, end + 8];
  return null;
}

/** The regions that cover a file: name, start and end. Of two that overlap the first has the bytes. */
function regionsOf(bytes, facts) {
  const signature = u32(bytes, 60), word = (at) => u32(bytes, at) & 0xffff, optional = signature + 24;
  const sections = optional + word(signature + 20), end = sections + SECTION_HEADER * word(signature + 6);
  const hasOptional = word(signature + 20) >= 64, directories = optional + (word(optional) === 0x20b ? 112 : 96);
  const all = Math.max(end, hasOptional ? u32(bytes, optional + 60) : 0), rich = signature > DOS_HEADER ? richIn(bytes, signature) : null;
  const named = [['DOS header', 0, DOS_HEADER], ['DOS stub', DOS_HEADER, rich?.[0] ?? signature],
    ...(rich ? [['Rich header', ...rich], ['after the Rich header', rich[1], signature]] : []), ['PE headers', signature, sections],
    ['section headers', sections, end], ['header slack', end, all],
    ...facts.sections.map((it) => [`section ${sectionName(it)}`, it.file_offset, it.file_offset + it.file_size])];
  const within = (it) => Math.min(it, bytes.length), last = Math.max(...named.map((it) => within(it[2])));
  if (directories + 40 <= sections && u32(bytes, directories - 4) > 4) {
    const start = u32(bytes, directories + 32), size = u32(bytes, directories + 36);
    if (start || size) named.push(['certificates', start, start + size]);
  }
  named.sort((one, other) => within(one[1]) - within(other[1]));
  const cover = [];
  let at = 0;
  for (const [name, start, stop] of [...named, ['', bytes.length, bytes.length]]) {
    const from = Math.max(at, within(start));
    if (from > at) cover.push([at >= last ? 'overlay' : 'padding', at, from]);
    at = Math.max(from, within(stop));
    if (at > from) cover.push([name, from, at]);
  }
  return byName(cover.map(([name, start, stop]) => [name, bytes.subarray(start, stop)]));
}

/** How many bytes two parts have of each other's that differ; what one has more counts too. */
function unlike(one, other) {
  let count = Math.abs(one.length - other.length);
  for (let i = Math.min(one.length, other.length) - 1; i >= 0; i -= 1) count += one[i] !== other[i];
  return count;
}

/** Two files of which one is no image, as one region. */
export const wholeFiles = ([one, other]) => [{ name: 'file', before: one.length, after: other.length, different: unlike(one, other) }]
  .filter((it) => it.different);

/** The regions of two files that differ, in the order of their names. */
export function regions(contents, facts) {
  const [before, after] = contents.map((it, i) => regionsOf(it, facts[i])), none = new Uint8Array(0);
  return [...new Set([...before.keys(), ...after.keys()])].sort().map((name) => {
    const [one, other] = [before, after].map((it) => it.get(name) ?? none);
    return { name, before: one.length, after: other.length, different: unlike(one, other) };
  }).filter((it) => it.different);
}

/** Adds the SHA-256 of contents to what has them, as pe has it: as many bytes are read as the file has. */
async function addHash(all, contentOf, left) {
  for (const it of all) {
    const own = contentOf(it);
    it.sha256_hex = null;
    if (own.length && own.length <= left) {
      left -= own.length;
      it.sha256_hex = hex(new Uint8Array(await crypto.subtle.digest('SHA-256', own)));
    }
  }
}

/** The same of the sections and of the resources of an image. */
export async function addHashes(facts, image, bytes) {
  const leaves = image.list('resourceLeaves'), part = (start, length) => bytes.subarray(start, start + length);
  await addHash(facts.sections, (it) => part(it.file_offset, it.file_size), bytes.length);
  await addHash(facts.resources ?? [], () => {
    const { content } = leaves.next().value;
    return part(Number(content.offset), Number(content.length));
  }, bytes.length);
}
