// node hashes.mjs MODULE CALLS NAMES LIST: prints what hashes.c prints. CALLS is the module of all_calls.c, and NAMES is pe.json.
import fs from 'node:fs';
import { hashes } from './hashing.mjs';

const [library, calls, names, list] = process.argv.slice(2), read = (path) => fs.readFileSync(path);
function* files() {
  for (const path of read(list).toString().split('\n').filter(Boolean)) yield [path.split('/').pop(), read(path)];
}
for (const line of hashes(read(library), read(calls), Object.keys(JSON.parse(read(names)).calls), files())) console.log(line);
