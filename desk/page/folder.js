// A folder of the writer's choice, in which the file lies beside those of the other authors: on the disk, on a stick,
// or in a folder that a service keeps in step. As `manuscript-exchange` does, the page takes in what is new in the
// others' files and puts the own file there under the author's number; all else there stays as it is.

import { authorOfFile, isFile } from "./commands.js";
import { button, bytesOf, element, grouped } from "./dom.js";
import { part, takeInAsked, tried } from "./exchange.js";

const FILE = /\.ms$/;

// How often the folder is looked at while the page is seen, and how long after a save the file is put there.
const LOOK = 5000;
const PUT = 1500;

export function canChoose() {
  return typeof globalThis.showDirectoryPicker === "function";
}

// The folder that the writer chooses; none where that is cancelled.
export async function chosenFolder() {
  try {
    return await globalThis.showDirectoryPicker({ id: "manuscript", mode: "readwrite" });
  } catch (why) {
    if (why.name === "AbortError") return null;
    throw why;
  }
}

// The files of manuscripts in a folder, in the order of their names.
export async function filesIn(folder) {
  const found = [];
  for await (const [name, entry] of folder.entries()) {
    if (entry.kind === "file" && FILE.test(name)) found.push([name, entry]);
  }
  return found.sort(([one], [other]) => (one < other ? -1 : 1));
}

export class Folder {
  constructor(editor) {
    this.editor = editor;
    this.seen = new Map();
    this.mark = element("span", { className: "place" });
    this.timer = setInterval(() => this.look(), LOOK);
    this.leave = new AbortController();
    const { signal } = this.leave;
    window.addEventListener("focus", () => this.look(), { signal });
    document.addEventListener("visibilitychange", () => this.look(), { signal });
  }

  get manuscript() {
    return this.editor.manuscript;
  }

  get handle() {
    return this.held ?? this.manuscript.record.folder ?? this.editor.shelf?.folders.get(this.manuscript.id);
  }

  close() {
    this.leave.abort();
    clearInterval(this.timer);
    clearTimeout(this.soon);
  }

  // Begins to use a folder. A browser that can't keep it asks for it again the next time.
  async use(handle) {
    this.held = handle;
    this.seen.clear();
    await this.manuscript.keepRecord({ folder: handle }).catch((why) => console.error(why));
    await this.exchange();
  }

  async leaveIt() {
    this.held = null;
    this.editor.shelf?.folders.delete(this.manuscript.id);
    await this.manuscript.keepRecord({ folder: undefined });
    this.notice?.remove();
    this.show();
  }

  // The file was saved.
  saved() {
    if (!this.handle) return;
    clearTimeout(this.soon);
    this.soon = setTimeout(() => this.exchange(), PUT);
  }

  look() {
    if (this.handle && !document.hidden) this.exchange();
  }

  // Tells where the file is. What is told already is not told again.
  show(words = "") {
    const { handle } = this;
    const told = `${handle?.name} ${words} ${this.isLocked}`;
    if (this.said === told) return;
    this.said = told;
    this.mark.replaceChildren();
    if (!handle) return;
    if (words) this.mark.append(words);
    else this.mark.append("in the folder ", element("bdi", { textContent: `“${handle.name}”` }));
    if (this.isLocked) this.mark.append(" ", button("Go on with the folder", () => this.unlock()));
  }

  async unlock() {
    await this.handle.requestPermission?.({ mode: "readwrite" });
    await this.exchange();
  }

  async isOpen() {
    const answer = await this.handle.queryPermission?.({ mode: "readwrite" });
    return answer === undefined || answer === "granted";
  }

  // Takes in what is new in the others' files, and then puts the own one. One exchange follows another.
  async exchange() {
    this.wants = true;
    if (this.isBusy) return;
    this.isBusy = true;
    try {
      while (this.wants && this.handle && !this.manuscript.isClosed) {
        this.wants = false;
        this.isLocked = !(await this.isOpen());
        if (this.isLocked) this.show("The browser asks before the page goes on with the folder.");
        else await this.exchangeOnce();
      }
    } catch (why) {
      this.failed(why);
    } finally {
      this.isBusy = false;
    }
  }

  async exchangeOnce() {
    const own = `${this.manuscript.record.replica}.ms`;
    for (const [name, entry] of await filesIn(this.handle)) if (name !== own) await this.take(name, entry);
    const isThere = await this.put(own);
    this.notice?.remove();
    this.show(isThere ? "" : "not in the folder");
  }

  failed(why) {
    console.error(why);
    this.notice?.remove();
    const words = `The folder “${this.handle?.name}” can't be used now: it may be gone, or be full. What you write is ` +
      "saved in this browser.";
    this.notice = this.editor.notice(words, { line: String(why), kind: "grave" });
    this.show("not in the folder");
  }

  // A file that is as it was is not read again. One that is replaced just now is read the next time.
  async take(name, entry) {
    const file = await entry.getFile().catch(() => null);
    const mark = file && `${file.size} ${file.lastModified}`;
    if (!file || this.seen.get(name) === mark) return;
    const bytes = await bytesOf(file).catch(() => null);
    if (!bytes) return;
    await this.takeBytes(name, bytes);
    this.seen.set(name, mark);
  }

  // What has changes under the own number, or belongs to no section here, is asked about.
  async takeBytes(name, bytes) {
    const { editor, manuscript } = this;
    await manuscript.save();
    const { refused, counts, isCopy, isForeign } = await tried(manuscript, bytes, { isByItself: true });
    const isHers = isFile(bytes) && authorOfFile(bytes) === manuscript.record.replica;
    if (refused) {
      editor.notice(`“${name}”, in the folder: ${refused.message}`, { line: refused.line, kind: "grave" });
    } else if (isCopy || isForeign || (isHers && counts.accepted > 0)) {
      this.ask(name, bytes, isForeign);
    } else if (isNews(counts, manuscript.record)) {
      const from = isFile(bytes) ? editor.nameOf(authorOfFile(bytes)) : name;
      await manuscript.remember(`Before changes of “${from}” came in`);
      const { counts: came, since } = await manuscript.takeIn(bytes);
      editor.came(came, from, since);
    }
  }

  ask(name, bytes, isForeign) {
    const why = isForeign
      ? "it has no section in common with this manuscript"
      : "it has your number, and this manuscript lacks changes that it has";
    const take = button("Take it in …", () => this.editor.attempt(() => takeInAsked(this.editor, bytes, name)));
    this.editor.notice(`“${name}”, in the folder, was not taken in: ${why}.`, { actions: [take], kind: "grave" });
  }

  // Puts the own file, and answers whether it is there. The browser writes it beside the old one, which it replaces
  // when all is there.
  async put(name) {
    const { bytes, isBlank } = this.manuscript;
    if (isBlank) return true;
    const known = await this.bytesAt(name);
    if (known && isSame(known, bytes)) return true;
    if (known?.length && !isBeginning(known, bytes) && !(await this.isIn(known, name))) return false;
    const entry = await this.handle.getFileHandle(name, { create: true });
    const stream = await entry.createWritable();
    await stream.write(bytes);
    await stream.close();
    await this.manuscript.keepRecord({ copied: Date.now() });
    return true;
  }

  // The bytes of a file of the folder, if it is there.
  async bytesAt(name) {
    const entry = await this.handle.getFileHandle(name).catch(() => null);
    return entry && bytesOf(await entry.getFile());
  }

  // Whether all that the file in the folder has is in this manuscript. Where it is not, the writer decides, and is
  // asked once.
  async isIn(known, name) {
    const mark = `${known.length} ${this.manuscript.bytes.length}`;
    if (this.told === mark) return false;
    const { refused, counts } = await tried(this.manuscript, known, { isByItself: true });
    if (!refused && !counts.accepted && !counts.conflict) return true;
    this.told = mark;
    if (refused) {
      const words = `“${name}”, in the folder, has the name of your file and is none (${refused.message}). It stays, and ` +
        "your file is not put there: move it away.";
      this.editor.notice(words, { line: refused.line, kind: "grave" });
    } else this.ask(name, known, false);
    return false;
  }
}

function isNews({ accepted, waiting, conflict, stray }, record) {
  return accepted > 0 || conflict > 0 || stray > 0 || waiting > (record.waiting ?? 0);
}

function isSame(one, other) {
  return one.length === other.length && one.every((byte, at) => byte === other[at]);
}

// Whether a file is how another one began, but for its last byte, which tells that no more follows.
function isBeginning(known, bytes) {
  return known.length <= bytes.length && isSame(known.subarray(0, -1), bytes.subarray(0, known.length - 1));
}

// The part of the exchange that tells of the folder.
export function folderPart(editor, dialog) {
  const { folder } = editor;
  const leaves = (work) => () => {
    dialog.close();
    editor.attempt(work);
  };
  const choose = button(folder.handle ? "Choose another folder …" : "Choose a folder …", leaves(async () => {
    const handle = await chosenFolder();
    if (handle) await folder.use(handle);
  }));
  const away = button("Leave the folder", leaves(() => folder.leaveIt()));
  const { replica } = editor.manuscript.record;
  const words = folder.handle
    ? `This manuscript is in the folder “${folder.handle.name}”, as “${replica}.ms”.`
    : "Choose a folder on the disk, on a stick, or one that a service keeps in step for all of you. The page puts " +
      "your file there, as often as it is saved, and takes in by itself what the others put there.";
  return part("A folder for all", words, choose, ...(folder.handle ? [away] : []));
}

// What tells of a file of a folder whose it is.
export function ownerOf(bytes) {
  return isFile(bytes) ? `author ${grouped(authorOfFile(bytes))}` : "no manuscript";
}
