// What the page asks of the program, and how it reads the answers.

import { placeOfScalar } from "./difference.js";
import { inWords } from "./told.js";

const ENCODER = new TextEncoder();
const DECODER = new TextDecoder("utf-8", { ignoreBOM: true });

export function encoded(text) {
  return ENCODER.encode(text);
}

export function decoded(bytes) {
  return DECODER.decode(bytes);
}

// A command that did not succeed: why in words, and the program's own line.
export class Refused extends Error {
  constructor(words, { notes, status }) {
    super(inWords(notes));
    this.line = notes.trim();
    this.command = words[0];
    this.status = status;
  }
}

// After how long it is told that a command takes long.
const LATE = 4000;

const MOST_WORKERS = 2;

// The program, in workers of its own, so that two commands can be at work at once. `onLate` is called where a command
// takes long, and `onEnd` when it has ended.
export class Program {
  #workers = [];
  #asked = new Map();
  #last = 0;

  constructor(worker, module) {
    this.module = module;
    this.address = URL.createObjectURL(new Blob([worker], { type: "text/javascript" }));
    this.#start();
  }

  #start() {
    const worker = new Worker(this.address);
    worker.onmessage = ({ data }) => this.#answered(data);
    worker.postMessage(this.module);
    this.#workers.push(worker);
    return worker;
  }

  // The worker that has the least to do. The second one is begun when it is needed first.
  #least() {
    const asked = [...this.#asked.values()];
    const loads = this.#workers.map((worker) => asked.filter((each) => each.worker === worker).length);
    const least = Math.min(...loads);
    if (least > 0 && this.#workers.length < MOST_WORKERS) return this.#start();
    return this.#workers[loads.indexOf(least)];
  }

  // Ends the commands that are at work. What they would have written is not kept.
  stop() {
    const asked = [...this.#asked.keys()];
    for (const worker of this.#workers) worker.terminate();
    this.#workers = [];
    this.#start();
    for (const number of asked) this.#answered({ number, failure: "it was stopped." });
  }

  #answered({ number, failure, ...answer }) {
    const { done, failed, late } = this.#asked.get(number);
    this.#asked.delete(number);
    clearTimeout(late);
    if (this.#asked.size === 0) this.onEnd?.();
    if (failure === undefined) done(answer);
    else failed(new Error(`The program stopped: ${failure}`));
  }

  #ask(asked) {
    const number = (this.#last += 1);
    const worker = this.#least();
    return new Promise((done, failed) => {
      const late = setTimeout(() => this.onLate?.(), LATE);
      this.#asked.set(number, { worker, done, failed, late });
      worker.postMessage({ number, ...asked });
    });
  }

  // Runs a command. Its answer has status, output, notes, and those of the files that were written.
  async run(words, { files = [], input = new Uint8Array(0) } = {}) {
    const answer = await this.#ask({ words: words.map(String), files, input });
    return { ...answer, files: new Map(answer.files) };
  }

  // Runs a command that has to succeed. Status 3 says that some of what came in is pending or was left out.
  async does(words, given) {
    const answer = await this.run(words, given);
    if (answer.status !== 0 && answer.status !== 3) throw new Refused(words, answer);
    return answer;
  }
}

// The sections of what `arrange`, `print` or `view` prints.
export function partsOf(text) {
  const parts = [];
  for (let start = 0; start < text.length; ) {
    const next = text.indexOf("\n# ", start);
    const end = next < 0 ? text.length : next + 1;
    const line = text.indexOf("\n", start);
    parts.push({ title: text.slice(start + 2, line), text: text.slice(line + 1, Math.max(line + 1, end - 1)) });
    start = end;
  }
  return parts;
}

export function formOf(parts) {
  return parts.map(({ title, text }) => `# ${title}\n${text}\n`).join("");
}

// What `authors` prints: of each section as it is arranged its key, which tells it apart, and who wrote its letters, as
// pairs of an author and how many letters.
export function authorsOf(output) {
  const sections = [];
  for (const line of linesOf(output)) {
    const [, first, second] = /^ {0,2}(\d+) ([\d.]+)$/.exec(line);
    if (line.startsWith(" ")) sections.at(-1).runs.push([Number(first), Number(second)]);
    else sections.push({ key: second, runs: [] });
  }
  return sections;
}

// The sections of what `arrange` prints, where a text has a line like a title, by how many letters each has.
export function partsByLength(text, authored) {
  let at = 0;
  return authored.map(({ key, runs }) => {
    const line = text.indexOf("\n", at);
    const count = runs.reduce((sum, [, letters]) => sum + letters, 0);
    const end = line + 1 + placeOfScalar(text.slice(line + 1, line + 1 + 2 * count), count);
    const part = { key, title: text.slice(at + 2, line), text: text.slice(line + 1, end) };
    at = end + 1;
    return part;
  });
}

// What `list` prints: the counts, and for each section its number in the section list.
export function listOf(output) {
  const [first, ...lines] = decoded(output).split("\n");
  const [replica, hold, accepted, waiting] = first.match(/\d+/g).map(Number);
  const numbers = lines.filter(Boolean).map((line) => {
    const [, place, number] = /^(\d+)(?: \((\d+)\))? /.exec(line);
    return Number(number ?? place);
  });
  return { replica, hold, accepted, waiting, numbers };
}

// What `remarks` prints: of each comment its number, the place of its section, its passage in characters, and its text.
// The line of its passage follows, where there is one.
export function remarksOf(output) {
  const lines = linesOf(output).map((line) => /^(\d+): (\d+) (\d+) (\d+) by (\d+) (.*)$/.exec(line));
  return lines.filter(Boolean).map(([, ...words]) => {
    const [number, place, first, count, author] = words.slice(0, 5).map(Number);
    return { number, place, first, count, author, body: words[5] };
  });
}

// What `moments` prints: how many operations the file had accepted at each, and what each brought.
export function momentsOf(output) {
  return linesOf(output).map((line) => {
    const [, count, about] = /^(\d+): (.*)$/.exec(line);
    return { count: Number(count), about };
  });
}

export function versionsOf(output) {
  return linesOf(output).map((line) => {
    const [, count, name] = /^(\d+) (.*)$/.exec(line);
    return { count: Number(count), name };
  });
}

function linesOf(output) {
  return decoded(output).split("\n").slice(0, -1);
}

export function countsOf(notes) {
  return Object.fromEntries([...notes.matchAll(/(accepted|repeated|waiting|conflict|stray|full) (\d+)/g)].map(
    ([, name, count]) => [name, Number(count)],
  ));
}

// What is wrong with a title or a text of a section, in words, or "".

export function faultOfTitle(title) {
  if (title === "") return "A section needs a title.";
  if (encoded(title).length > 480) return "This title is too long to be saved.";
  return "";
}

export function hasTitles(text) {
  return /(^|\n)# /.test(text);
}

export function faultOfText(text) {
  if (!hasTitles(text)) return "";
  return "A line here begins with “# ”, which marks the title of a section. This section is saved as soon as you " +
    "change that line: put a space before it, say. Until then it is kept as a draft.";
}

// What is wrong with the titles in a text.
export function faultOfTitles(text) {
  const titles = text.split("\n").filter((line) => line.startsWith("# "));
  return titles.map((line) => faultOfTitle(line.slice(2))).find(Boolean) ?? "";
}

// Puts a space before what would be a title.
export function withoutHeadings(text) {
  return text.replace(/(^|\n)# /g, "$1 # ");
}

// Whether the bytes are a file, and not a stream: a file begins with "FGMX".
export function isFile(bytes) {
  return decoded(bytes.subarray(0, 4)) === "FGMX";
}

// Whether nothing was ever written in a file: the commit byte behind its header is closed.
export function isBlankFile(bytes) {
  return isFile(bytes) && bytes[13] !== 1;
}

export function authorOfFile(bytes) {
  return bytes.length < 9 ? 0 : new DataView(bytes.buffer, bytes.byteOffset).getUint32(5);
}
