// Tries what the page asks before it takes a file, with no browser: elements are plain objects, and the native program,
// if it was built, stands in for the one in the page.

import { spawnSync } from "node:child_process";
import fs from "node:fs";
import os from "node:os";
import path from "node:path";

// As much of a document as the questions need. A dialog that is shown goes to `answer`, which gives its return value.
class FakeElement {
  children = [];

  constructor(tag) {
    this.tag = tag;
  }

  append(...children) {
    this.children.push(...children);
  }

  setAttribute(name, value) {
    this[name] = value;
  }

  addEventListener(name, hear) {
    this[`on${name}`] = hear;
  }

  remove() {}

  showModal() {
    queueMicrotask(() => {
      this.returnValue = answer(this) ?? "no";
      this.onclose();
    });
  }

  all(tag) {
    return this.children.flatMap((child) => (child instanceof FakeElement
      ? [...(child.tag === tag ? [child] : []), ...child.all(tag)] : []));
  }

  get text() {
    return [this.textContent ?? "", ...this.children.map((child) => child.text ?? child)].join(" ");
  }
}

let answer;
globalThis.document = { createElement: (tag) => new FakeElement(tag), body: new FakeElement("body") };
globalThis.BroadcastChannel ??= class {};
const { Shelf } = await import("../../desk/page/home.js");
const { takeInFiles } = await import("../../desk/page/exchange.js");

let failed = 0;
function check(name, holds) {
  console.log(`${holds ? "ok" : "FAILED"}: ${name}`);
  failed += holds ? 0 : 1;
}

const binary = process.env.TRIED_PROGRAM ?? "bin/manuscript";

// The program over arrays, as the page calls it.
const program = {
  async run(words, { files = [], input = "" } = {}) {
    const folder = fs.mkdtempSync(path.join(os.tmpdir(), "asked-"));
    for (const [name, bytes] of files) fs.writeFileSync(path.join(folder, name), bytes);
    const { status, stdout, stderr } = spawnSync(path.resolve(binary), words.map(String), { cwd: folder, input });
    const left = new Map(fs.readdirSync(folder).map((name) => [name, new Uint8Array(fs.readFileSync(path.join(folder, name)))]));
    fs.rmSync(folder, { recursive: true });
    return { status, output: new Uint8Array(stdout), notes: stderr.toString(), files: left };
  },
  async does(words, given) {
    const answer = await this.run(words, given);
    if (answer.status !== 0 && answer.status !== 3) throw new Error(`${words[0]}: ${answer.notes}`);
    return answer;
  },
};

async function edited(bytes, input) {
  return (await program.does(["edit", "f"], { files: [["f", bytes]], input })).files.get("f");
}

async function author(number) {
  return (await program.does(["new", "f", number, 16])).files.get("f");
}

async function sent(bytes) {
  return (await program.does(["send", "f"], { files: [["f", bytes]] })).output;
}

async function merged(bytes, other) {
  return (await program.does(["merge", "f", "g"], { files: [["f", bytes], ["g", other]] })).files.get("f");
}

// What the page asks before this comes into a manuscript, and whether it takes it in where the answer is no.
async function askedFor(bytes, replica, given) {
  const seen = { asked: "", isTaken: false };
  answer = (dialog) => {
    seen.asked = dialog.text;
    return "no";
  };
  const takeIn = async () => {
    seen.isTaken = true;
    return {};
  };
  const manuscript = { program, bytes, record: { replica }, takeIn, async save() {}, async remember() {} };
  const editor = { manuscript, attempt: (work) => work(), came() {}, undo: { did() {} } };
  await takeInFiles(editor, [{ name: "given", arrayBuffer: async () => given.buffer }]);
  return seen;
}

async function whose(given) {
  let radios;
  answer = (dialog) => {
    radios = dialog.all("input");
    return "no";
  };
  const kept = [];
  const store = { records: async () => [], keep: async (record) => kept.push(record) };
  await new Shelf({ store, program }).bring({ name: "hers.ms", arrayBuffer: async () => given.buffer });
  check("whose file it is: nothing is chosen before", radios.length === 2 && !radios.some(({ checked }) => checked));
  check("and no answer is none", radios.every(({ required }) => required) && kept.length === 0);
  check("another author's stands first", radios[0].value === "other");
}

if (fs.existsSync(binary)) {
  const old = await edited(await author(1), "add 1 T\nput 1 0 AB\n");
  const later = await edited(old, "put 1 2 C\n");
  const apart = await edited(old, "put 1 2 D\n");
  const hers = await edited(await merged(await author(2), later), "put 1 0 x\n");
  await whose(hers);
  const own = /your number/;
  check("a later file of one's own is asked about", own.test((await askedFor(old, 1, later)).asked));
  check("and is left out where that is answered", !(await askedFor(old, 1, later)).isTaken);
  check("its stream too", own.test((await askedFor(old, 1, await sent(later))).asked));
  check("what another author has of it too", own.test((await askedFor(old, 1, hers)).asked));
  check("a copy that was changed is asked about", own.test((await askedFor(later, 1, apart)).asked));
  check("an earlier copy is not", (await askedFor(later, 1, old)).isTaken);
  check("another author's file is not", (await askedFor(later, 1, hers)).isTaken);
  check("nor its stream", (await askedFor(later, 1, await sent(hers))).isTaken);
  const foreign = await edited(await author(3), "add 1 U\nput 1 0 AB\n");
  const { asked } = await askedFor(old, 1, foreign);
  check("a file with no section in common is asked about", /no section in common/.test(asked));
  check("bytes that are none are left to the program", (await askedFor(old, 1, new Uint8Array([9, 9]))).isTaken);
} else {
  console.log(`not tried: what the page asks, since there is no ${binary}`);
}
process.exit(failed === 0 ? 0 : 1);
