// Functions of the function table, whose bytes are compared as `pe diff` does it. A function has the name that the image has for it, or
// the RVA of its start. Of what was linked anew most has moved: one whose name is not in both images is left out where the other image
// has its bytes anywhere.
import { PeError } from './library.mjs';
import { Budget } from './parts.mjs';
import { escaped, hex } from './rows.mjs';

const utf8 = new TextEncoder();

/** What a call returns, or null where it is refused. */
function attempt(call) {
  try {
    return call() ?? null;
  } catch (error) {
    if (!(error instanceof PeError)) throw error;
    return null;
  }
}

/** How many bytes a function has: 0 where the unwind data of ARM64 are refused, which say so. */
function lengthOf(image, it) {
  if (it.end !== undefined) return Math.max(0, it.end - it.begin);
  const said = attempt(() => image.call('pe_c_arm64_unwind_record', { function: it })
    ?? image.call('pe_c_arm64_packed_fields', { function: it }));
  return said?.function_length ?? 0;
}

/** The names of functions that start there, as far as the image has some, up to 16 times the bytes of the file. */
function namesOf(image, all) {
  const budget = new Budget(image, 0), found = attempt(() => image.functionNames(all.map(({ begin }) => ({ rva: begin })))) ?? [];
  return all.map((_, i) => {
    const name = found[i] && found[i].offset === 0 && !found[i].isNearest ? found[i].name : null;
    return name !== null && budget.takes(utf8.encode(name).length) ? escaped(name) : null;
  });
}

/** Each function with its name, and the start of the hash of its bytes. In a hostile image each of many may be the whole file: once these
 * have 16 times the bytes of the file there are no more hashes. */
async function functionsOf(image, bytes) {
  attempt(() => image.index());
  const all = attempt(() => [...image.functions()]) ?? [], names = namesOf(image, all), budget = new Budget(image), found = [];
  for (const [i, it] of all.entries()) {
    const length = lengthOf(image, it), at = budget.takes(length) ? attempt(() => image.call('pe_c_offset', { rva: it.begin })) : null;
    const own = at === null ? bytes.subarray(0, 0) : bytes.subarray(Number(at), Number(at) + length);
    const isThere = length > 0 && own.length === length;
    const hash = isThere ? hex(new Uint8Array(await crypto.subtle.digest('SHA-256', own)).subarray(0, 8)) : null;
    found.push({ name: names[i], begin: it.begin, length, hash, content: `${length} ${hash}` });
  }
  return found;
}

/** How many of these functions have each content. */
function counts(functions) {
  const found = new Map();
  functions.forEach(({ content }) => found.set(content, (found.get(content) ?? 0) + 1));
  return found;
}

/** The functions of two images as rows of a name and a value, without those that were at most moved. */
export async function functionRows(images, contents) {
  const found = [];
  for (const [i, image] of images.entries()) found.push(await functionsOf(image, contents[i]));
  const names = found.map((all) => new Set(all.map((it) => it.name)));
  const mayMove = (it) => it.hash !== null && !(it.name !== null && names.every((one) => one.has(it.name)));
  const [before, after] = found.map((all) => counts(all.filter(mayMove)));
  return found.map((all) => {
    const moved = new Map([...before].map(([content, count]) => [content, Math.min(count, after.get(content) ?? 0)]));
    const stays = (it) => {
      const left = mayMove(it) ? moved.get(it.content) ?? 0 : 0;
      if (left > 0) moved.set(it.content, left - 1);
      return left === 0;
    };
    return all.filter(stays).map(({ name, begin, length, hash }) => [name ?? `0x${begin.toString(16)}`,
      `${length} byte${length === 1 ? '' : 's'}${hash === null ? '' : `, SHA-256 ${hash}`}`]);
  });
}
