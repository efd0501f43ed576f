#!/usr/bin/env node
// pe-js [--strict] [--mapped] FILE..: a line of JSON for each file, what `facts` returns. The status is 1 where a
// file is refused, and 2 where one cannot be read, or the lines cannot be written.
import { readFileSync } from 'node:fs';
import { constants, load } from './index.mjs';
import { factsOf } from './facts.mjs';

const words = process.argv.slice(2), files = words.filter((it) => !it.startsWith('--'));
const options = new Set(words.filter((it) => it.startsWith('--')));
const unknown = [...options].filter((it) => !['--strict', '--mapped'].includes(it));
if (unknown.length || !files.length) {
  console.error('usage: pe-js [--strict] [--mapped] FILE..');
  process.exit(2);
}
const mode = (options.has('--strict') ? constants.PE_C_STRICT : constants.PE_C_PERMISSIVE)
  | (options.has('--mapped') ? constants.PE_C_MAPPED : 0);
// A number above 2^53 is a text: JSON in JavaScript has none that is so large.
const plain = (_, value) => (typeof value === 'bigint' ? String(value) : value);
// console.log would say nothing of an error. Whoever read from a pipe that is broken has seen enough, as `head` has.
process.stdout.on('error', (error) => {
  if (error.code !== 'EPIPE') console.error(`pe-js: ${error.message}`);
  process.exit(2);
});
const library = await load();
for (const path of files) {
  let bytes;
  try {
    bytes = readFileSync(path);
  } catch (error) {
    console.error(`pe-js: ${path}: ${error.message}`);
    process.exitCode = 2;
    continue;
  }
  const found = factsOf(library, bytes, path, { mode });
  if (found.error) process.exitCode ||= 1;
  process.stdout.write(`${JSON.stringify(found, plain)}\n`);
}
