// Tries desk/heap.c alone, by random calls: heap.mjs MODULE COUNT. No two blocks may share a byte. Each has to begin
// at a multiple of 16 and to keep its bytes, and where memory ends all blocks have to stay as they were.

import fs from "node:fs";

const LIMIT = 24 << 20;
const [path, count] = process.argv.slice(2);
const module = new WebAssembly.Module(fs.readFileSync(path));
const { exports: heap } = new WebAssembly.Instance(module);
const answer = heap.desk_take(16n);
heap.desk_limit(BigInt(LIMIT));

let state = 1;
function random(below) {
  state = (Math.imul(state, 1103515245) + 12345) >>> 0;
  return Math.floor((state / 2 ** 32) * below);
}

// Mostly small, at times as large as a sixteenth of all.
function size() {
  return random(2 ** random(21)) + random(2);
}

const blocks = [];
let ends = 0;

function memory() {
  return new Uint8Array(heap.memory.buffer);
}

function expect(is, what) {
  if (!is) throw new Error(what);
}

// What a call answered: an address, or none where memory has ended.
function answered() {
  const view = new DataView(heap.memory.buffer);
  const isDone = view.getUint8(Number(answer)) === 1;
  if (!isDone) ends += 1;
  return isDone ? Number(view.getBigUint64(Number(answer) + 8, true)) : null;
}

function fill(block) {
  block.mark = 1 + random(255);
  memory().fill(block.mark, block.at, block.at + block.size);
}

function isKept({ at, size, mark }, upTo = size) {
  return memory().subarray(at, at + upTo).every((byte) => byte === mark);
}

function place(block, at) {
  expect(at % 16 === 0, `a block at ${at}`);
  expect(at + block.size <= heap.memory.buffer.byteLength, 'a block past the end');
  const apart = (other) => other === block || other.at + other.size <= at || at + block.size <= other.at;
  expect(blocks.every(apart), `a block at ${at} shares bytes`);
  block.at = at;
}

function add() {
  const block = { size: size() };
  heap.rattle_alloc(answer, BigInt(block.size), 16n);
  const at = answered();
  if (at === null) return;
  place(block, at);
  blocks.push(block);
  fill(block);
}

function change(block) {
  const old = { ...block };
  const wanted = size();
  heap.rattle_realloc(answer, BigInt(old.at), BigInt(old.size), BigInt(wanted), 16n);
  const at = answered();
  if (at === null) {
    expect(isKept(old), 'a block lost bytes where memory ended');
    return;
  }
  block.size = wanted;
  place(block, at);
  expect(isKept(block, Math.min(old.size, wanted)), 'a block lost bytes as it was changed');
  fill(block);
}

function drop(index) {
  const [block] = blocks.splice(index, 1);
  expect(isKept(block), 'a block has other bytes');
  heap.rattle_dealloc(BigInt(block.at));
}

for (let turn = 0; turn < Number(count); turn += 1) {
  const kind = random(blocks.length < 100 ? 3 : 5);
  if (kind === 0 || blocks.length === 0) add();
  else if (kind === 1 || kind === 3) change(blocks[random(blocks.length)]);
  else if (kind === 2) add();
  else drop(random(blocks.length));
}
while (blocks.length) drop(blocks.length - 1);
expect(heap.memory.buffer.byteLength <= LIMIT, 'more memory than the limit');
expect(ends > 0, 'memory never ended');
console.log(`${count} calls, ${ends} of them without memory`);
