// An open manuscript: its file, its sections, and what was typed and is not in the file yet.
//
// Each change of the file waits in one queue, and for other tabs that have the file open. What was typed is saved
// first. So what comes in is a change of a saved text, and it is carried over to what was typed meanwhile.

import {
  authorsOf, countsOf, decoded, encoded, faultOfTitle, formOf, isBlankFile, isFile, listOf, momentsOf,
  partsByLength, partsOf, withoutHeadings,
} from "./commands.js";
import { changes, clustersOf, movedPlace, placeOfScalar, withoutReturns } from "./difference.js";
import { ChangedElsewhere, freshKey } from "./store.js";
import { UNTITLED } from "./naming.js";
import { commentsIn, withdrawn } from "./remarks.js";

export const HOME = "manuscript.ms";
const BASE = "base.txt";
const OTHER = "other.ms";

const MOST_MOMENTS = 100;

// A draft of a section with more letters is kept at most five times a second, and not at each key.
const LONG = 100000;

function rest() {
  return new Promise((done) => setTimeout(done, 200));
}

export class Manuscript {
  // `view` shows it: place(sections), state(name, why), decorate(sections), counts(list). `makes` makes a section of a
  // part; `pause` is after how many milliseconds without typing it is saved; `coloursAll` says that one's own letters
  // are coloured too.
  constructor({ store, program, channel, record, view, makes, pause = 1000, coloursAll = false }) {
    Object.assign(this, { store, program, channel, record, view, makes, pause, coloursAll });
    this.tab = freshKey();
    this.sections = [];
    this.lost = [];
    this.mayHaveComments = true;
    this.queue = Promise.resolve();
    this.isReadOnly = false;
  }

  get id() {
    return this.record.id;
  }

  // Whether nothing was ever written in the file.
  get isBlank() {
    return isBlankFile(this.bytes);
  }

  // The sections that the file has: all but fresh ones.
  get known() {
    return this.sections.filter(({ isFresh }) => !isFresh);
  }

  // What `arrange` prints of the file.
  get text() {
    return formOf(this.known.map(({ saved }) => saved));
  }

  // Puts fresh sections to their places. A manuscript without sections has one to write in.
  addFresh(fresh = []) {
    for (const section of fresh.filter(({ isDirty }) => isDirty)) {
      const behind = this.sections.indexOf(section.behind);
      this.sections.splice(behind < 0 ? this.sections.length : behind + 1, 0, section);
    }
    if (this.sections.length > 0) return;
    this.sections.push(fresh[0] ?? this.makes({ title: "", text: "", isFresh: true }));
  }

  // Begins a section after another one, at once. It comes into the file with the next save.
  begin(behind) {
    if (behind.isFresh) behind.isWanted = true;
    const section = this.makes({ title: "", text: "", isFresh: true, isWanted: true });
    section.behind = behind;
    this.sections.splice(this.sections.indexOf(behind) + 1, 0, section);
    this.view.place(this.sections);
    this.edited();
    return section;
  }

  // Takes a fresh section away.
  unbegin(section) {
    section.isWanted = false;
    this.sections = this.sections.filter((other) => other !== section);
    this.addFresh([section]);
    this.view.place(this.sections);
    this.edited();
  }

  // Opening: the text that was kept with the file is shown at once, and then what the program prints.
  async load() {
    this.endOpen = this.store.showOpen(this.tab);
    const shown = this.show();
    this.queue = shown.catch(() => {});
    await shown;
    await this.alone(async () => this.adopt(await this.look(this.bytes)));
    await this.decorate();
    if (this.record.waiting === undefined) await this.countWaiting();
  }

  async show() {
    this.record = await this.store.record(this.id);
    const { bytes, text } = await this.store.file(this.id);
    this.bytes = bytes;
    this.sections = partsOf(text ?? (await this.printed(bytes))).map((part) => this.makes(part));
    this.addFresh();
    this.view.place(this.sections);
    this.view.state("saved");
  }

  // For a file that was opened as it is, the page does not know yet how many changes wait.
  async countWaiting() {
    const { waiting } = listOf((await this.does(["list", HOME])).output);
    await this.keepRecord({ waiting });
    this.view.counts(this);
  }

  // What can't be saved stays as a draft, which is offered when the manuscript is opened again.
  close() {
    clearTimeout(this.timer);
    const last = this.unsaved.length ? this.save() : Promise.resolve();
    this.isClosed = true;
    return last.then(() => this.endOpen?.());
  }

  // Does `work` when all that was asked before is done.
  alone(work) {
    const done = this.queue.then(() => this.store.exclusively(this.id, work));
    this.queue = done.catch(() => {});
    return done;
  }

  // Commands on the file. Those that write it give its new bytes, which are not kept yet.

  does(words, { bytes = this.bytes, files = [], input } = {}) {
    return this.program.does(words, { files: [[HOME, bytes], ...files], input });
  }

  async printed(bytes) {
    return decoded((await this.does(["arrange", HOME], { bytes })).output);
  }

  // What bytes of the file say: the text, and its sections with their keys, which tell them apart. Where a text has a
  // line like a title, what `arrange` prints has more parts than there are sections, and no draft can be made of it.
  async look(bytes) {
    const [text, authored] = await Promise.all([this.printed(bytes), this.authored(bytes)]);
    const parts = partsOf(text);
    const hasOthers = authored.some(({ runs }) => runs.some(([author]) => author !== this.record.replica));
    const isReadOnly = authored.length !== parts.length;
    const keyed = () => parts.map((part, at) => ({ ...part, key: authored[at].key }));
    return { text, sections: isReadOnly ? partsByLength(text, authored) : keyed(), isReadOnly, hasOthers };
  }

  // What bytes of the file say where they have sections that were there before, in this order. Only the text is asked
  // for, since reading who wrote what takes as long again.
  async lookFor(wanted, bytes) {
    const { isReadOnly, hasOthers } = this;
    if (isReadOnly || wanted.some(({ key }) => key === undefined)) return this.look(bytes);
    const text = await this.printed(bytes);
    if (text !== formOf(wanted.map(({ saved }) => saved))) return this.look(bytes);
    return { text, sections: wanted.map(({ key, saved }) => ({ key, ...saved })), isReadOnly, hasOthers };
  }

  // Who wrote what in bytes of the file.
  async authored(bytes) {
    if (this.lastAuthored?.bytes !== bytes) {
      const { output } = await this.does(["authors", HOME], { bytes });
      this.lastAuthored = { bytes, sections: authorsOf(output) };
    }
    return this.lastAuthored.sections;
  }

  // How many operations bytes of the file have accepted: the number of a moment.
  async accepted(bytes = this.bytes) {
    return listOf((await this.does(["list", HOME], { bytes })).output).accepted;
  }

  // The number of a section in the section list, by which scripts and comments count.
  async numberOf(section) {
    const { numbers } = listOf((await this.does(["list", HOME])).output);
    return numbers[this.placeOf(section) - 1];
  }

  // Keeps new bytes of the file in the store, and what they say. The draft that is in them is forgotten.
  async keep(bytes, text, waiting = this.record.waiting) {
    const record = { ...this.record, waiting, revision: this.record.revision + 1, changed: Date.now() };
    await this.store.keep(record, { bytes, text, tab: this.tab, after: this.record.revision });
    this.record = record;
    this.bytes = bytes;
    this.channel?.say({ id: this.id, circle: record.circle });
    this.view.kept?.();
  }

  // Gives the author of a blank file another number.
  renumber(replica) {
    return this.alone(async () => {
      await this.catchUp();
      if (!this.isBlank) throw new Error("Something is written in this manuscript, so your author number stays.");
      const { hold } = listOf((await this.does(["list", HOME])).output);
      const { files } = await this.program.does(["new", HOME, replica, hold]);
      const { record } = this;
      this.record = { ...record, replica };
      try {
        await this.keep(files.get(HOME), "");
      } catch (why) {
        this.record = record;
        throw why;
      }
    });
  }

  // Keeps the record of the manuscript, which stands beside its file.
  keepRecord(changes) {
    return this.alone(async () => {
      await this.catchUp();
      const record = { ...this.record, ...changes };
      await this.store.keep(record, { after: record.revision });
      this.record = record;
    });
  }

  // Another tab may have changed the file.
  async catchUp() {
    const record = await this.store.record(this.id);
    if (!record) throw new Error("This manuscript was removed in another tab.");
    if (record.revision === this.record.revision) {
      this.record = record;
      return false;
    }
    const { bytes } = await this.store.file(this.id);
    const found = await this.look(bytes);
    await this.settled();
    this.bytes = bytes;
    this.record = record;
    this.mayHaveComments = true;
    this.adopt(found);
    return true;
  }

  // Nothing is replaced while an input method composes.
  async settled() {
    while (this.sections.some(({ isComposing }) => isComposing)) await new Promise((done) => setTimeout(done, 30));
  }

  // Shows the sections of the file. Those that were there stay the same, with what is typed in them.
  adopt({ sections: parts, isReadOnly, hasOthers }) {
    Object.assign(this, { isReadOnly, hasOthers });
    const before = new Map(this.known.map((section, at) => [section.key ?? `at ${at}`, section]));
    const isFirst = this.known.every(({ key }) => key === undefined);
    const fresh = this.sections.filter((section) => section.isFresh);
    const after = parts.map((part, at) => {
      const name = isFirst ? `at ${at}` : part.key;
      const section = before.get(name);
      if (!section) return this.makes(part);
      before.delete(name);
      section.takeIn(part);
      return section;
    });
    for (const section of before.values()) if (section.isDirty) this.lose(section);
    this.sections = after;
    this.addFresh(fresh);
    for (const section of this.sections) section.freeze(isReadOnly);
    this.view.place(this.sections);
    this.view.counts(this);
  }

  // Another author deleted a section in which something is not saved. It becomes a new one.
  lose(section) {
    const { live, saved, ...draft } = section.draft();
    const title = faultOfTitle(live.title) ? saved.title : live.title;
    this.lost.push({ ...draft, saved, live: madeNew({ ...live, title }) });
    this.saveSoon();
    this.view.lost?.(title);
  }

  // Typing: the draft is kept at once, and is saved at a pause.
  edited() {
    this.view.state("typing");
    this.keepDraft();
    this.saveSoon();
  }

  saveSoon() {
    clearTimeout(this.timer);
    this.timer = setTimeout(() => this.save(), this.pause);
    this.isPausing = true;
  }

  // Shows whether all is saved. What can't be saved yet is held as a draft.
  showState() {
    this.view.state(this.unsaved.length === 0 ? "saved" : this.isPausing ? "typing" : "held");
  }

  get unsaved() {
    return [...this.sections.filter(({ isDirty }) => isDirty).map((section) => section.draft()), ...this.lost];
  }

  // The drafts that closed tabs left unsaved.
  async leftDrafts() {
    const open = await this.store.openTabs();
    return (await this.store.drafts(this.id)).filter(({ tab }) => tab !== this.tab && !open.has(tab));
  }

  // Those of them that can be put back as they were.
  sure(drafts) {
    const isSure = (entry) => this.sections.some((section) => section.isAsIn(entry));
    return this.isReadOnly ? [] : drafts.filter(({ sections }) => sections.every(isSure));
  }

  async putBack(drafts) {
    for (const entry of drafts.flatMap(({ sections }) => sections)) {
      const section = this.sections.find(({ key, place, saved }) =>
        entry.key ? key === entry.key : place === entry.place && saved.title === entry.saved.title,
      );
      if (section) section.putBack(entry);
      else this.lost.push({ ...entry, live: madeNew(entry.live) });
    }
    this.view.state("typing");
    await this.keepDraft();
    await this.forget(drafts);
    return this.save();
  }

  async forget(drafts) {
    for (const { tab } of drafts) await this.store.dropDraft(this.id, tab);
  }

  // Keeps what is typed beside the file. While it is being kept, what is typed waits for the next turn.
  async keepDraft() {
    this.hasNews = true;
    if (this.isKeeping) return;
    this.isKeeping = true;
    try {
      while (this.hasNews) {
        this.hasNews = false;
        const sections = this.unsaved;
        const { id: manuscript, tab } = this;
        if (sections.length) await this.store.keepDraft({ manuscript, tab, kept: Date.now(), sections });
        else await this.store.dropDraft(manuscript, tab);
        if (sections.some(({ live }) => live.text.length > LONG)) await rest();
      }
    } catch (why) {
      this.view.state("refused", why);
    } finally {
      this.isKeeping = false;
    }
  }

  // Saves what was typed. Answers whether all of it is in the file.
  async save() {
    clearTimeout(this.timer);
    this.isPausing = false;
    if (this.isReadOnly || this.isClosed) return false;
    await this.settled();
    try {
      await this.alone(async () => {
        const isNew = await this.catchUp();
        await this.saveDraft();
        if (isNew) this.decorate();
      });
      this.showState();
      return this.unsaved.length === 0;
    } catch (why) {
      if (why instanceof ChangedElsewhere) this.saveSoon();
      else this.refuse(why);
      return false;
    }
  }

  // Titles in a text that could not become sections keep no other section from being saved the next time.
  refuse(why) {
    for (const section of this.sections) section.isSplit = false;
    this.view.state("refused", why);
  }

  // The commands that bring what was typed into the file: a title by `retitle`, texts by `revise`.
  async saveDraft() {
    const { lost, text: before } = this;
    const sections = this.sections.filter(({ isFresh, isDirty }) => !isFresh || isDirty);
    const sent = sections.map((section) => (section.isDirty ? section.proposal() : section.clean()));
    const isChanged = ({ saved }, at) => saved.title !== sent[at].title || saved.text !== sent[at].text;
    if (this.isReadOnly || (lost.length === 0 && !sections.some(isChanged))) return;
    this.view.state("saving");
    const { bytes: titled, base } = await this.retitled(sections, sent);
    const made = sent.map((part) => part.parts ?? [part]);
    const parts = made.flat();
    for (const { place, live } of lost) parts.splice(Math.min(place - 1, parts.length), 0, live);
    const draft = formOf(parts);
    const bytes = await this.revised(titled, base, draft);
    const fresh = sections.filter(({ isFresh }) => isFresh);
    const isNew = lost.length || fresh.length || sent.some((part) => part.parts);
    const found = isNew ? await this.look(bytes) : null;
    await this.keep(bytes, draft);
    for (const [at, section] of sections.entries()) {
      section.setSaved(sent[at]);
      section.isSplit = false;
    }
    this.lost = this.lost.slice(lost.length);
    for (const section of fresh) enter(section, found.sections[parts.indexOf(made[sections.indexOf(section)][0])]);
    if (found) this.adopt(found);
    if (sent.some((part) => part.parts)) this.view.split?.({ before, after: found.text, gone: [] });
    this.keepDraft();
  }

  // Brings the titles of sections into the file. Gives its bytes, and what it prints then: the base of the texts.
  async retitled(sections, sent) {
    let { bytes } = this;
    const base = [];
    for (const [at, { saved, isFresh }] of sections.entries()) {
      const { title } = sent[at];
      if (isFresh) continue;
      base.push({ title, text: saved.text });
      if (saved.title === title) continue;
      bytes = written(await this.does(["retitle", HOME, base.length, title], { bytes }), bytes);
    }
    return { bytes, base: formOf(base) };
  }

  async revised(bytes, base, draft) {
    if (base === draft) return bytes;
    const files = [[BASE, encoded(base)]];
    return written(await this.does(["revise", HOME, BASE], { bytes, files, input: encoded(draft) }), bytes);
  }

  // Runs a command that changes the manuscript, once what was typed is saved. `command` may need the sections as they
  // are then. The answer has the text before and after, the sections that are gone, and what took typing back before.
  // Where no section is new and no text changes, `ordered` gives the sections after it of those before it.
  async change(command, ordered) {
    await this.settled();
    const answer = await this.alone(async () => {
      this.view.state("working");
      await this.catchUp();
      await this.saveDraft();
      const { text: before, known } = this;
      const done = await command();
      const bytes = written(done, this.bytes);
      if (bytes === this.bytes) return { ...done, before, after: before, gone: [] };
      const found = await (ordered ? this.lookFor(ordered(known), bytes) : this.look(bytes));
      await this.keep(bytes, found.text, countsOf(done.notes).waiting);
      await this.settled();
      const { lists } = this.view;
      this.adopt(found);
      const gone = known.filter((section) => !this.sections.includes(section));
      return { ...done, before, after: found.text, gone, lists };
    }).finally(() => this.showState());
    if (!ordered || this.mayHaveComments) await this.decorate({ keepsColours: Boolean(ordered) });
    return answer;
  }

  // Makes of the text what `made` makes of it.
  revise(made) {
    return this.change(() => {
      const base = this.text;
      return this.does(["revise", HOME, BASE], { files: [[BASE, encoded(base)]], input: encoded(made(base)) });
    });
  }

  placeOf(section) {
    return this.sections.indexOf(section) + 1;
  }

  move(section, place) {
    const ordered = (known) => {
      const others = known.filter((other) => other !== section);
      return [...others.slice(0, place - 1), section, ...others.slice(place - 1)];
    };
    return this.change(() => this.does(["move", HOME, this.placeOf(section), place]), ordered);
  }

  drop(section) {
    const command = async () => {
      const number = await this.numberOf(section);
      return this.does(["edit", HOME], { input: encoded(`drop ${number}\n`) });
    };
    return this.change(command, (known) => known.filter((other) => other !== section));
  }

  // Adds a section with a title after another one, or before all.
  add(title, behind) {
    return this.insert([{ title, text: "" }], behind);
  }

  insert(added, behind) {
    return this.revise(() => {
      const parts = this.known.map(({ saved }) => saved);
      parts.splice(behind ? this.placeOf(behind) : 0, 0, ...added);
      return formOf(parts);
    });
  }

  comment(section, first, count, text) {
    this.mayHaveComments = true;
    return this.change(async () => this.does(["comment", HOME, await this.numberOf(section), first, count, text]));
  }

  // Puts a space before each line of a text that begins as a title does, so that the manuscript can be written again.
  mend() {
    return this.change(async () => {
      const { numbers } = listOf((await this.does(["list", HOME])).output);
      return this.does(["edit", HOME], { input: encoded(mendingOf(this.known, numbers)) });
    });
  }

  withdraw(note) {
    return this.change(() => withdrawn(this, note));
  }

  name(version) {
    return this.change(() => this.does(["version", HOME, version]));
  }

  async versions() {
    await this.save();
    return (await this.does(["versions", HOME])).output;
  }

  // What the manuscript said at a moment, and what changed since then.

  async past(count) {
    return decoded((await this.does(["past", HOME, count])).output);
  }

  async changesSince(count) {
    await this.save();
    return decoded((await this.does(["changes", HOME, count])).output);
  }

  async moments() {
    return momentsOf((await this.does(["moments", HOME])).output);
  }

  // Remembers the moment as it is: why, and when. A moment of which nothing is new is remembered once.
  async remember(why) {
    const { remembered = [] } = this.record;
    const count = await this.accepted();
    if (count === 0 || remembered.at(-1)?.count === count) return count;
    await this.keepRecord({ remembered: [...remembered, { count, why, at: Date.now() }].slice(-MOST_MOMENTS) });
    return count;
  }

  // Takes in another author's file, or a stream. The answer has the counts of what came, and the moment before it.
  async takeIn(bytes) {
    this.mayHaveComments = true;
    let since;
    const answer = await this.change(async () => {
      since = await this.accepted();
      return isFile(bytes)
        ? this.does(["merge", HOME, OTHER], { files: [[OTHER, bytes]] })
        : this.does(["take", HOME], { input: bytes });
    });
    return { ...answer, counts: countsOf(answer.notes), since };
  }

  // Colours and comments, which are read apart from the text. Colours that are not shown are not read, and neither are
  // those that stay as they are where `keepsColours`.
  async decorate({ keepsColours = false } = {}) {
    const isColoured = this.hasOthers || this.coloursAll;
    if (this.isClosed || !(isColoured || this.mayHaveComments)) return;
    const { bytes, known } = this;
    const isNew = isColoured && !keepsColours && !this.view.hidesColours;
    const authored = isNew ? await this.authored(bytes) : null;
    const arranged = known.map(({ key, saved }) => ({ key, text: saved.text }));
    const comments = this.mayHaveComments ? await commentsIn(this, bytes, arranged) : new Map();
    if (bytes !== this.bytes || this.isClosed) return;
    for (const section of known) {
      if (authored) section.setRuns(runsOf(section, authored));
      section.setComments(comments.get(section.key) ?? []);
    }
    this.mayHaveComments = known.some((section) => section.comments.length > 0);
    this.view.decorate(known);
  }
}

// A fresh section came into the file, as the section of this key.
function enter(fresh, { key, title }) {
  fresh.key = key;
  fresh.enter(title);
}

// The script that mends the texts of sections, each of which has a number in the section list.
function mendingOf(sections, numbers) {
  return sections.flatMap(({ saved: { text } }, at) => {
    const places = [...text.matchAll(/(?<=^|\n)# /g)].map(({ index }) => clustersOf(text, 0, index).count);
    return places.reverse().map((place) => `put ${numbers[at]} ${place}  \n`);
  }).join("");
}

// A section that is made of what was typed in one that is gone, or that never was in the file.
function madeNew({ title, text }) {
  return { title: title || UNTITLED, text: withoutHeadings(text) };
}

// The bytes of the file after a command: those from before it, where it wrote none.
function written({ files }, bytes) {
  return files.get(HOME) ?? bytes;
}

function runsOf({ key, saved }, authored) {
  const { runs = [] } = authored.find((section) => section.key === key) ?? {};
  return marksOf(saved.text, runs);
}

// Who wrote what of a text, as stretches; none where the count of its letters is not that of the text.
function marksOf(text, runs) {
  const marks = [];
  let at = 0;
  for (const [author, count] of runs) {
    const end = at + placeOfScalar(text.slice(at, at + 2 * count), count);
    marks.push({ start: at, end, author });
    at = end;
  }
  if (at !== text.length) return [];
  if (!text.includes("\r")) return marks;
  const own = changes(text, withoutReturns(text));
  return marks.map((mark) => ({ ...mark, start: movedPlace(mark.start, own), end: movedPlace(mark.end, own) }));
}
