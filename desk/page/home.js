// The manuscripts that the browser keeps.

import { FILES, kindOf } from "./exchange.js";
import { Refused, authorOfFile, countsOf, decoded, encoded, formOf, isFile } from "./commands.js";
import { ask, bytesOf, button, chosenFiles, download, element, field, grouped, paragraph, tell } from "./dom.js";
import { canChoose, chosenFolder, filesIn, ownerOf } from "./folder.js";
import { UNTITLED, drawnNumber, freeName, nameInput, numberInput } from "./naming.js";
import { isTextFile, nameOfText, sectionsOfText } from "./texts.js";
import { freshKey } from "./store.js";

const HOLD = 10000;

// Makes manuscripts, and removes them.
export class Shelf {
  constructor({ store, program }) {
    Object.assign(this, { store, program });
    this.folders = new Map();
  }

  // Makes a manuscript at once, for an author with a number drawn at random.
  async fresh() {
    return this.make({ name: freeName(await this.store.records()), replica: drawnNumber() });
  }

  // Asks for a name and an author number, and makes a manuscript of what `from` has: a file or a stream.
  async begin({ name, from, circle = freshKey() }) {
    const title = nameInput(name);
    const number = numberInput(drawnNumber());
    const hint = "No other author of this manuscript may have this number. It was chosen at random, so you can leave " +
      "it. On another machine you are another author, with another number.";
    const read = () => ({ name: title.value, replica: Number(number.value) });
    const body = [field("Name", title), field("Your author number", number, hint)];
    const given = await ask("New manuscript from this file", body, { agree: "Begin", read });
    return given && this.make({ ...given, from, circle });
  }

  async make({ name, replica, from, circle, folder }) {
    const made = await this.program.does(["new", "new.ms", replica, HOLD]);
    const filled = await this.filled(made.files.get("new.ms"), from);
    return this.keep({ name, replica, circle, folder, ...filled });
  }

  // Makes a manuscript at once of a text.
  async beginText(bytes, file) {
    const input = encoded(formOf(sectionsOfText(bytes, file)));
    const replica = drawnNumber();
    const made = await this.program.does(["new", "new.ms", replica, HOLD]);
    const files = [["new.ms", made.files.get("new.ms")], ["base.txt", new Uint8Array(0)]];
    const revised = await this.program.does(["revise", "new.ms", "base.txt"], { files, input });
    const name = nameOfText(file).slice(0, 120) || UNTITLED;
    return this.keep({ name, replica, bytes: revised.files.get("new.ms"), text: decoded(input), waiting: 0 });
  }

  async filled(bytes, from) {
    if (!from) return { bytes, text: "", waiting: 0 };
    const files = [["new.ms", bytes]];
    const answer = isFile(from)
      ? await this.program.does(["merge", "new.ms", "it.ms"], { files: [...files, ["it.ms", from]] })
      : await this.program.does(["take", "new.ms"], { files, input: from });
    return { bytes: answer.files.get("new.ms") ?? bytes, waiting: countsOf(answer.notes).waiting };
  }

  async keep({ name, replica, circle = freshKey(), bytes, text, waiting, folder }) {
    const now = Date.now();
    const record = { id: freshKey(), name, replica, circle, waiting, folder, revision: 1, changed: now, made: now };
    const kept = this.store.keep(record, { bytes, text });
    // A browser that can't keep a folder asks for it the next time.
    await (folder ? kept.catch(() => this.store.keep({ ...record, folder: undefined }, { bytes, text })) : kept);
    if (folder) this.folders.set(record.id, folder);
    navigator.storage?.persist?.();
    return record;
  }

  // Begins with a folder: from one's own file there, or as another author beside those that are there.
  async bringFolder() {
    const folder = await chosenFolder();
    if (!folder) return null;
    const known = [];
    for (const [name, entry] of await filesIn(folder)) {
      known.push({ name, bytes: await bytesOf(await entry.getFile()) });
    }
    const files = known.filter(({ bytes }) => isFile(bytes));
    const chosen = files.length ? await askWhose(folder, files) : "new";
    if (chosen === null) return null;
    const name = folder.name.slice(0, 120) || UNTITLED;
    if (chosen === "new") return this.make({ name, replica: drawnNumber(), from: files[0]?.bytes, folder });
    const { bytes } = files[chosen];
    const twin = (await this.store.records()).find(({ replica }) => replica === authorOfFile(bytes));
    if (twin) return this.putIntoFolder(twin, folder);
    const { text } = await kindOf(this.program, bytes);
    return this.keep({ name, replica: authorOfFile(bytes), bytes, text, folder });
  }

  // A manuscript that is here already is not opened a second time.
  async putIntoFolder({ id }, folder) {
    this.folders.set(id, folder);
    await this.store.exclusively(id, async () => this.store.keep({ ...(await this.store.record(id)), folder }))
      .catch((why) => console.error(why));
    return this.store.record(id);
  }

  // Takes a file into the list: as one's own, or as what another author wrote, from which one begins.
  async bring(file) {
    const bytes = await bytesOf(file);
    if (isTextFile(file.name)) return this.beginText(bytes, file.name);
    const kind = await kindOf(this.program, bytes);
    const name = file.name.replace(/( \(backup\))?\.(ms|frames)$/, "");
    if (!kind.isManuscript) return this.begin({ name, from: bytes });
    // None is chosen before: who presses Enter adopts no number.
    const other = element("input", { type: "radio", name: "whose", value: "other", required: true });
    const own = element("input", { type: "radio", name: "whose", value: "own", required: true });
    const twin = (await this.store.records()).find(({ replica }) => replica === kind.author);
    const warning = twin && `Careful: “${twin.name}” has this author number too. If it is the same manuscript, go on ` +
      "in one of them only. Where both are changed, they can never agree again.";
    const body = [
      paragraph(`“${file.name}” is the file of author ${grouped(kind.author)}.`),
      ...(warning ? [paragraph(warning, { className: "warning" })] : []),
      element("label", { className: "choice" }, other, "Another author's, or mine on another machine. I begin a " +
        "manuscript of my own from it, with another number."),
      element("label", { className: "choice" }, own, "A backup of my own. From now on I write in it here and nowhere " +
        "else. What was given to others since has to come in before I write."),
    ];
    const read = () => (own.checked ? "own" : "other");
    const whose = await ask("Whose file is this?", body, { agree: "Go on", read });
    if (whose === "own") return this.keep({ name, replica: kind.author, bytes, text: kind.text });
    return whose && this.begin({ name, from: bytes });
  }
}

// Asks which of the files of a folder is one's own: its place among them, or "new".
function askWhose(folder, files) {
  const choice = (value, words) => element("label", { className: "choice" },
    element("input", { type: "radio", name: "file", value, required: true }), words);
  const choices = [
    choice("new", "None of them. I write with a number of my own, and take in what is there."),
    ...files.map(({ name, bytes }, at) =>
      choice(at, `“${name}” is mine (${ownerOf(bytes)}), and nobody writes in it elsewhere.`)),
  ];
  const read = () => choices.map((label) => label.querySelector("input")).find(({ checked }) => checked).value;
  return ask(`Whose files are in “${folder.name}”?`, choices, { agree: "Begin", read });
}

// When a manuscript was copied to the disk last, and whether to remind of it: it was changed since, and the copy is
// older than some days.
const REMIND = 3 * 24 * 60 * 60 * 1000;

function copyOf({ folder, copied, changed, made = 0 }) {
  if (folder) return { words: `In the folder “${folder.name}”` };
  const isOld = changed > (copied ?? made) && Date.now() - (copied ?? made) > REMIND;
  if (!copied) return { words: "No copy on the disk yet", isOld };
  return { words: `Last copy on the disk: ${timeInWords(copied)}`, isOld };
}

function timeInWords(at) {
  return new Date(at).toLocaleString([], { dateStyle: "medium", timeStyle: "short" });
}

// What the browser answered when it was asked to keep what it has.
async function keptInWords() {
  const isKept = await navigator.storage?.persisted?.();
  if (isKept) return "The browser keeps these manuscripts until you delete the data of this page. It is no backup.";
  return "The browser did not agree to keep these manuscripts for good: it may delete them when the disk is full. " +
    "Back them up.";
}

export class Home {
  constructor({ store, shelf, channel, help }) {
    Object.assign(this, { store, shelf, channel });
    this.stop = channel.hear(() => this.fill());
    this.list = element("ul", { className: "shelf" });
    this.first = document.getElementById("first").content.cloneNode(true).firstElementChild;
    const row = element("nav", { className: "row", "aria-label": "Manuscripts" },
      button("New manuscript", () => this.go(() => shelf.fresh()), { className: "main" }),
      button("Open a file …", async () => this.bring(await chosenFiles(FILES))),
      ...(canChoose() ? [button("Open a folder …", () => this.go(() => shelf.bringFolder()))] : []),
      button("Help", help),
    );
    const two = element("p", {}, element("a", { href: "#two", textContent: "See how two authors write at one place" }));
    const bar = element("header", { className: "bar" }, element("h1", { textContent: "Manuscripts" }), row);
    this.kept = element("p", { className: "kept" });
    this.element = element("div", { className: "home" }, bar,
      element("main", {}, this.first, this.list, two, this.kept));
    this.watchDrops();
  }

  async open() {
    await this.fill();
  }

  close() {
    this.stop();
    this.leave.abort();
  }

  async fill() {
    const records = await this.store.records();
    this.first.hidden = records.length > 0;
    this.list.replaceChildren(...records.map((record) => this.itemOf(record)));
    this.kept.textContent = await keptInWords();
  }

  itemOf(record) {
    const { id, name, replica, changed } = record;
    const { words, isOld } = copyOf(record);
    const link = element("a", { href: `#open=${id}`, textContent: name, dir: "auto" });
    const about = `Changed ${timeInWords(changed)}, author number ${grouped(replica)}`;
    const facts = element("small", { textContent: about });
    const [className, textContent] = isOld ? ["copy old", `${words}. Back it up.`] : ["copy", words];
    const copy = element("small", { className, textContent });
    const acts = element("div", { className: "row" },
      button("Back up", () => this.attempt(() => this.backUp(record))),
      button("Rename", () => this.attempt(() => this.rename(record))),
      button("Remove", () => this.attempt(() => this.remove(record))),
    );
    for (const act of acts.children) act.setAttribute("aria-label", `${act.textContent} “${name}”`);
    return element("li", {}, element("div", {}, link, facts, element("br"), copy), acts);
  }

  async backUp({ id, name }) {
    download(`${name} (backup).ms`, (await this.store.file(id)).bytes);
    await this.change(id, { copied: Date.now() });
  }

  async change(id, changes) {
    await this.store.exclusively(id, async () => this.store.keep({ ...(await this.store.record(id)), ...changes }));
    await this.fill();
  }

  async rename({ id, name }) {
    const input = nameInput(name);
    const given = await ask("Rename", [field("Name", input)], { agree: "Rename", read: () => input.value });
    if (given) await this.change(id, { name: given });
  }

  async remove({ id, name }) {
    const lines = ["It is removed from this browser. Back it up first if you may want it again: " +
      "what no other file has is lost."];
    if (!(await ask(`Remove “${name}”?`, lines.map(paragraph), { agree: "Remove", isGrave: true }))) return;
    await this.store.remove(id);
    await this.fill();
  }

  async bring(files) {
    for (const file of files) await this.go(() => this.shelf.bring(file), `“${file.name}” was not opened`);
  }

  // Makes a manuscript, and opens it.
  async go(make, refusal) {
    const record = await this.attempt(make, refusal);
    if (record) location.hash = `#open=${record.id}`;
  }

  async attempt(work, refusal = "This did not work") {
    try {
      return await work();
    } catch (why) {
      const line = why instanceof Refused ? [`The program said: ${why.line}`] : [];
      await tell(refusal, why.message, ...line);
      return null;
    }
  }

  watchDrops() {
    this.leave = new AbortController();
    const { signal } = this.leave;
    document.addEventListener("dragover", (event) => event.preventDefault(), { signal });
    document.addEventListener("drop", (event) => {
      event.preventDefault();
      this.bring([...event.dataTransfer.files]);
    }, { signal });
  }
}
