// Exchange with other authors: by files and streams, and with the other manuscripts of this browser.

import { Refused, authorOfFile, authorsOf, countsOf, decoded, isFile, listOf } from "./commands.js";
import { ask, bytesOf, button, chosenFiles, download, element, grouped, opened, paragraph } from "./dom.js";
import { canChoose, folderPart } from "./folder.js";
import { freshKey } from "./store.js";
import { inWords } from "./told.js";
import { isTextFile, takeInText } from "./texts.js";

export const FILES = ".ms,.frames,.md,.txt,application/octet-stream";

// After how many milliseconds the store is looked at again.
const LOOKS = 2000;

// Messages between tabs. WebKit carries none between pages from the disk, so a tab in sight looks at the store too.
export class Channel {
  constructor(name, store) {
    this.hearers = new Set();
    this.line = new BroadcastChannel(name);
    this.line.onmessage = ({ data }) => this.tell(data);
    const look = () => this.look(store).catch((why) => console.warn(why));
    look();
    setInterval(() => document.hidden || look(), LOOKS);
  }

  tell(message) {
    this.hearers.forEach((hear) => hear(message));
  }

  // Tells of the manuscripts that were kept or removed since the store was looked at last.
  async look(store) {
    const records = new Map((await store.records()).map((record) => [record.id, record]));
    const before = this.records ?? records;
    this.records = records;
    for (const id of new Set([...before.keys(), ...records.keys()])) {
      const { revision, circle } = records.get(id) ?? {};
      const was = before.get(id);
      if (was?.revision !== revision || was?.circle !== circle) this.tell({ id, circle, revision });
    }
  }

  say(message) {
    this.line.postMessage(message);
  }

  // Calls `hear` for what is said from now on, until what this gives is called.
  hear(hear) {
    this.hearers.add(hear);
    return () => this.hearers.delete(hear);
  }
}

// Takes in files that were dropped or chosen, one after another. Texts come after the section where they are dropped.
export async function takeInFiles(editor, files, section) {
  for (const file of files) {
    await editor.attempt(async () => {
      const bytes = await bytesOf(file);
      if (isTextFile(file.name)) await takeInText(editor, bytes, file.name, section);
      else await takeInAsked(editor, bytes, file.name);
    });
  }
}

export async function takeInAsked(editor, bytes, name) {
  if (!(await isWanted(editor, bytes, name))) return;
  const { manuscript } = editor;
  await manuscript.save();
  await manuscript.remember(`Before “${name}” came in`);
  const answer = await manuscript.takeIn(bytes);
  editor.came(answer.counts, name, answer.since);
  editor.undo.did(answer, `This takes out what came from “${name}”, here and for the others once they take in your ` +
    "changes.");
}

// What came in can't be taken out again without deleting it for all. So the page asks first, if what comes has
// changes of this manuscript's own author that it lacks, or if a file has no section in common with it.
async function isWanted({ manuscript }, bytes, name) {
  const { isOwn, isCopy, isForeign } = await tried(manuscript, bytes);
  if (isOwn || isCopy) return isOwnWanted(manuscript, name);
  if (!isForeign) return true;
  const line = "It has no section in common with this manuscript, so it may belong to another one. What comes in " +
    "becomes part of this manuscript, and can't be taken out again without deleting it for all.";
  return ask(`Take in “${name}”?`, [paragraph(line)], { agree: "Take in" });
}

// What bytes would bring, tried by the program on a copy: their counts; whether changes of the manuscript's own
// author come that it lacks; whether they are a copy of its file with others in the place of its own; and whether a
// file has no section in common with it. What the program refuses has none of this here; `isByItself` leaves out the
// second.
export async function tried({ program, record: { replica }, bytes }, given, { isByItself = false } = {}) {
  const words = isFile(given) ? ["merge", "own.ms", "it.ms"] : ["take", "own.ms"];
  const files = [["own.ms", bytes], ["it.ms", given]];
  const taken = await program.run(words, { files, input: isFile(given) ? undefined : given });
  if (taken.status !== 0 && taken.status !== 3) return { refused: new Refused(words, taken) };
  const counts = countsOf(taken.notes);
  const isHers = isFile(given) && authorOfFile(given) === replica;
  const isOwn = !isByItself && (await hasOwnNews(program, bytes, taken.files.get("own.ms") ?? bytes));
  const isForeign = counts.accepted > 0 && (await isForeignTo(program, bytes, given));
  return { counts, isOwn, isCopy: isHers && counts.conflict > 0, isForeign };
}

// A draft of what the file said before is refused if changes of its own author came in since.
async function hasOwnNews(program, bytes, after) {
  if (after === bytes) return false;
  const { accepted } = listOf((await program.does(["list", "own.ms"], { files: [["own.ms", bytes]] })).output);
  const { output: base } = await program.does(["past", "own.ms", accepted], { files: [["own.ms", bytes]] });
  const files = [["own.ms", after], ["base.txt", base]];
  const { notes } = await program.run(["revise", "own.ms", "base.txt", accepted], { files, input: base });
  return /^own operations since /m.test(notes);
}

async function isForeignTo(program, bytes, given) {
  if (!isFile(given)) return false;
  const keys = async (file) => {
    const { output } = await program.does(["authors", "it.ms"], { files: [["it.ms", file]] });
    return authorsOf(output).map(({ key }) => key);
  };
  const [own, other] = await Promise.all([keys(bytes), keys(given)]);
  return own.length > 0 && other.length > 0 && !other.some((key) => own.includes(key));
}

function isOwnWanted({ record: { replica } }, name) {
  const lines = [
    `It has changes of author ${grouped(replica)}, which is your number, and this manuscript lacks them.`,
    "If this manuscript comes from a backup, take them in now, before you write anything here.",
    "If someone else writes with your number, or you do on another machine, cancel this. Begin a manuscript with " +
      "another number, from what you have, and go on in that one: what two write with one number never agrees again.",
  ];
  return ask(`Take in “${name}”?`, lines.map(paragraph), { agree: "Take in", isGrave: true });
}

// Keeps a manuscript together with the others of its circle, which other tabs or other authors here write.
export class Together {
  constructor(editor, channel) {
    this.editor = editor;
    this.wanted = new Set();
    this.stop = channel.hear((message) => this.heard(message));
  }

  get manuscript() {
    return this.editor.manuscript;
  }

  close() {
    this.stop();
  }

  // Another tab saved a manuscript, or let it join a circle.
  async heard({ id, circle, revision }) {
    const { id: own, record } = this.manuscript;
    const before = record.circle;
    if (id === own && revision === record.revision && circle === before) return;
    if (id === own) await this.manuscript.save();
    else if (circle === before) this.want(id);
    if (this.manuscript.record.circle !== before) this.catchUp().catch((why) => this.editor.fail(why));
  }

  // Takes in what the others of the circle have, where it is news.
  async catchUp() {
    const { record, store } = this.manuscript;
    for (const { id, circle } of await store.records()) {
      if (id !== record.id && circle === record.circle) await this.want(id);
    }
  }

  // Takes in another manuscript of this browser. What is asked for meanwhile is taken in after it, once.
  async want(id) {
    this.wanted.add(id);
    if (this.isBusy) return;
    this.isBusy = true;
    try {
      for (const next of this.wanted) {
        this.wanted.delete(next);
        await this.takeFrom(next);
      }
    } catch (why) {
      this.editor.fail(why);
    } finally {
      this.isBusy = false;
    }
  }

  async takeFrom(id) {
    const { manuscript } = this;
    const other = await manuscript.store.record(id);
    if (!other || manuscript.isClosed || manuscript.record.taken?.[id] === other.revision) return null;
    const { counts, since } = await manuscript.takeIn((await manuscript.store.file(id)).bytes);
    await manuscript.keepRecord({ taken: { ...manuscript.record.taken, [id]: other.revision } });
    if (counts.conflict || counts.stray || counts.full) this.editor.came(counts, other.name, since);
    return counts;
  }
}

export async function exchange(editor) {
  const { manuscript } = editor;
  const dialog = element("dialog", { className: "wide", "aria-label": "Exchange" });
  const take = button("Take in a file …", async () => {
    const files = await chosenFiles(FILES);
    dialog.close();
    takeInFiles(editor, files);
  }, { className: "main" });
  const send = button("Download for the others", () => editor.attempt(() => giveStream(editor)));
  const back = button("Download a backup", () => editor.attempt(() => giveFile(editor)));
  const others = element("ul", { className: "others" });
  dialog.append(
    element("h2", { textContent: "Exchange" }),
    ...(canChoose() ? [folderPart(editor, dialog)] : []),
    part("What others wrote", "Take in another author's file or stream: choose it here, or drop it on this page. " +
      "Their changes are added to yours, passages are never mixed, and what they deleted is deleted here too.", take),
    part("What you wrote", "Give the others what you have, by mail, on a stick, or in a shared folder: a stream, " +
      "which they take in.", send),
    part("Your backup", "Your own file, as this browser keeps it. Keep it for yourself: whoever writes in it writes " +
      "with your number, and that never agrees with what you write.", back),
    part("In this browser", "", others, button("Begin a copy for another author", () => {
      dialog.close();
      editor.attempt(() => copy(editor));
    })),
    element("form", { method: "dialog", className: "row end" }, element("button", { textContent: "Close" })),
  );
  const records = (await manuscript.store.records()).filter(({ id }) => id !== manuscript.id);
  others.append(...records.map((record) => otherOf(record, editor, dialog)));
  if (records.length === 0) others.append(element("li", { textContent: "There is no other manuscript here." }));
  await opened(dialog);
}

export function part(title, text, ...children) {
  const made = element("section", {}, element("h3", { textContent: title }));
  if (text) made.append(element("p", { textContent: text }));
  made.append(...children);
  return made;
}

async function giveFile({ manuscript }) {
  await manuscript.save();
  download(`${manuscript.record.name} (backup).ms`, manuscript.bytes);
  await manuscript.keepRecord({ copied: Date.now() });
}

async function giveStream({ manuscript }) {
  await manuscript.save();
  download(`${manuscript.record.name}.frames`, (await manuscript.does(["send", "manuscript.ms"])).output);
}

function otherOf(record, editor, dialog) {
  const { manuscript } = editor;
  const isTogether = element("input", { type: "checkbox", checked: record.circle === manuscript.record.circle });
  isTogether.onchange = () => editor.attempt(async () => {
    const { bytes } = await manuscript.store.file(record.id);
    if (isTogether.checked && !(await isWanted(editor, bytes, record.name))) isTogether.checked = false;
    else await join(editor, record.id, isTogether.checked);
  });
  const take = button("Take in", () => {
    dialog.close();
    editor.attempt(async () => takeInAsked(editor, (await manuscript.store.file(record.id)).bytes, record.name));
  });
  return element("li", {}, element("b", { textContent: record.name, dir: "auto" }),
    element("small", { textContent: `author ${grouped(record.replica)}` }), take,
    element("label", {}, isTogether, "Keep together"));
}

// Joins another manuscript of this browser, so that each takes in what the other saves; or leaves it.
async function join(editor, id, isTogether) {
  const { manuscript, manuscript: { store }, together } = editor;
  const circle = isTogether ? manuscript.record.circle : freshKey();
  await store.exclusively(id, async () => store.keep({ ...(await store.record(id)), circle }));
  manuscript.channel.say({ id, circle });
  if (isTogether) await together.want(id);
}

async function copy(editor) {
  const { manuscript } = editor;
  await manuscript.save();
  const { circle } = manuscript.record;
  const record = await editor.shelf.begin({ from: manuscript.bytes, name: manuscript.record.name, circle });
  if (record) editor.notice(`“${record.name}” is a manuscript of its own now, with the author number ` +
    `${grouped(record.replica)}. Open it in another tab: both are kept together.`);
}

// What bytes are: a manuscript, with its author's number and what it says, or a stream. If neither, this throws.
export async function kindOf(program, bytes) {
  if (isFile(bytes)) {
    const { output } = await program.does(["arrange", "it.ms"], { files: [["it.ms", bytes]] });
    return { isManuscript: true, author: authorOfFile(bytes), text: decoded(output) };
  }
  const answer = await program.run(["show"], { input: bytes });
  if (answer.status !== 0 && answer.status !== 3) throw new Refused(["show"], answer);
  if (bytes.length === 0) throw new Error(inWords("not a replica"));
  return { isManuscript: false };
}
