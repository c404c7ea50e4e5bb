// Tries undo beside the changes of others, with no browser: rows, and rounds of random actions. SEED gives others.

import { Undo } from "../../desk/page/undo.js";
import { changed, changes, inverse } from "../../desk/page/difference.js";

const ROUNDS = Number(process.env.ROUNDS ?? 4000);
const BEFORE = "m n o p q r";

let failed = 0;
function check(name, holds, seen = "") {
  console.log(holds ? `ok: ${name}` : `FAILED: ${name}: ${JSON.stringify(seen)}`);
  failed += holds ? 0 : 1;
}

// Steps of typing are told apart by a clock that stands still but for pauses.
let clock = 0;
Date.now = () => clock;

// A manuscript of one section, as far as undo knows it.
class Writer {
  isReadOnly = false;
  title = { value: "", focus() {} };

  constructor(text) {
    this.live = text;
    this.sections = [this];
    this.undo = new Undo(this, { turned() {}, agrees: () => true });
  }

  apply(list) {
    this.live = changed(this.live, list);
  }

  select() {}

  edited() {}

  pauses() {
    clock += 2000;
  }

  writes(start, end, text) {
    const list = [{ start, end, text }];
    this.undo.wrote(this, inverse(this.live, list));
    this.apply(list);
  }

  types(place, text) {
    [...text].forEach((letter, at) => this.writes(place + at, place + at, letter));
  }

  // Others' changes come in, as another tab and a folder bring them.
  comes(list) {
    this.undo.cameIn(this, list);
    this.apply(list);
  }

  // The writer takes them in, and can take them out again.
  takes(list) {
    this.undo.did(this.becomes(changed(this.live, list)));
  }

  becomes(after) {
    const { live: before, undo: { lists } } = this;
    this.comes(changes(before, after));
    return { before, after, gone: [], lists };
  }

  async revise(made) {
    return this.becomes(made(this.live));
  }

  // Undoes everything, and gives what the text was before each step.
  async undoes() {
    const seen = [];
    while (this.undo.canUndo) {
      seen.push(this.live);
      await this.undo.undo();
    }
    return seen;
  }
}

const put = (place, text) => [{ start: place, end: place, text }];
const cut = (start, end) => [{ start, end, text: "" }];

// What happens to a text, and what it is when all of one's own is undone.
const ROWS = [
  ["letters that others wrote between one's own", "mn",
    (me) => (me.types(1, "ab"), me.comes(put(2, "X"))), "mXn"],
  ["letters that others wrote where one deleted what one had typed", "mn",
    (me) => (me.types(1, "ab"), me.pauses(), me.writes(1, 3, ""), me.comes(put(1, "X"))), "mXn"],
  ["one's own letters that others deleted", "mn",
    (me) => (me.types(1, "abc"), me.comes(cut(2, 3))), "mn"],
  ["letters that one deleted, and others' at that place", "mno",
    (me) => (me.writes(1, 2, ""), me.comes(put(1, "X"))), "mnXo"],
  ["a file that deletes one's own letters, and is taken out", "mn",
    (me) => (me.types(1, "abc"), me.takes(cut(2, 3))), "mn"],
  ["a file that deletes one's own letters and others'", "mn",
    (me) => (me.types(1, "abc"), me.pauses(), me.takes(cut(2, 5))), "mn"],
];

// Numbers from 0 up to below 1, by a seed: Marsaglia's xorshift32.
function random(seed) {
  let state = Math.imul(seed, 2654435761) >>> 0 || 1;
  return () => {
    state ^= state << 13;
    state ^= state >>> 17;
    state ^= state << 5;
    return (state >>> 0) / 2 ** 32;
  };
}

// One's own letters are of one alphabet, and those of others of another one. Each is written once.
const isOwn = /[\u4e00-\u9fff]/;
const OWN = 0x4e00;
const OTHERS = 0xac00;

// Some random actions. `isTaken`: what comes in is a step that can be undone too.
async function acted(seed, isTaken) {
  const next = random(seed);
  const below = (most) => Math.floor(next() * most);
  const me = new Writer(BEFORE);
  const written = { [OWN]: 0, [OTHERS]: 0 };
  const deleted = new Set();
  const letters = (alphabet, count) =>
    Array.from({ length: count }, () => String.fromCharCode(alphabet + (written[alphabet] += 1) - 1)).join("");
  const acts = [
    () => me.types(below(me.live.length + 1), letters(OWN, 1 + below(3))),
    () => {
      const start = below(me.live.length + 1);
      const end = Math.min(me.live.length, start + 1 + below(3));
      if (start < end) me.writes(start, end, letters(OWN, below(2)));
    },
    () => {
      const start = below(me.live.length + 1);
      const end = Math.min(me.live.length, start + below(4));
      for (const letter of me.live.slice(start, end)) deleted.add(letter);
      const list = [{ start, end, text: letters(OTHERS, below(3)) }];
      if (isTaken) me.takes(list);
      else me.comes(list);
    },
    () => me.undo.undo(),
    () => me.undo.redo(),
  ];
  for (let count = 3 + below(12); count > 0; count -= 1) {
    if (below(3) === 0) me.pauses();
    await acts[[0, 0, 0, 1, 1, 2, 2, 2, 3, 4][below(10)]]();
  }
  const others = Array.from({ length: written[OTHERS] }, (_, at) => String.fromCharCode(OTHERS + at));
  return { me, stays: [...others, ..."mnopqr"].filter((letter) => !deleted.has(letter)) };
}

const seed = Number(process.env.SEED ?? 1);

for (const [name, text, acts, wanted] of ROWS) {
  const me = new Writer(text);
  acts(me);
  await me.undoes();
  check(`undo beside ${name}`, me.live === wanted, me.live);
}

const stray = [];
const lost = [];
for (let at = seed; at < seed + ROUNDS; at += 1) {
  const { me, stays } = await acted(at, false);
  await me.undoes();
  if (isOwn.test(me.live)) stray.push(at);
  if (stays.some((letter) => !me.live.includes(letter))) lost.push(at);
}
check(`${ROUNDS} rounds beside others: none leaves a letter of one's own`, stray.length === 0, stray);
check("and none loses a letter of others", lost.length === 0, lost);

const other = [];
const notAgain = [];
for (let at = seed; at < seed + ROUNDS; at += 1) {
  const { me } = await acted(at, true);
  const seen = await me.undoes();
  if (me.live !== BEFORE) other.push(at);
  for (const text of seen.reverse()) {
    await me.undo.redo();
    if (me.live !== text) notAgain.push(at);
  }
}
check(`${ROUNDS} rounds with files: all are undone to the text before them`, other.length === 0, other);
check("and done again step by step", notAgain.length === 0, notAgain);

process.exit(failed ? 1 : 0);
