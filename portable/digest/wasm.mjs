// The digest in WebAssembly: node wasm.mjs digest.wasm CORPUS
import { readFile } from 'node:fs/promises';

const QUESTIONS = 19;
const { instance: { exports } } = await WebAssembly.instantiate(await readFile(process.argv[2]), {});
const corpus = await readFile(process.argv[3]);
const told = exports.__heap_base.value, at = told + 64 & ~15;
exports.memory.grow(Math.ceil((corpus.length + 4096) / 65536) + 1);
new Uint8Array(exports.memory.buffer).set(corpus, at);
const streams = exports.digest(at, corpus.length, told);
const hex = [...new Uint32Array(exports.memory.buffer, told, 4)].map(x => x.toString(16).padStart(8, '0')).join('');
const calls = new Uint32Array(exports.memory.buffer, exports.asked.value, QUESTIONS).reduce((sum, count) => sum + count, 0);
console.log(`${streams} streams, ${calls} questions, digest ${hex}`);
