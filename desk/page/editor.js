// The page of one manuscript.

import { StoreFull } from "./store.js";
import { Folder } from "./folder.js";
import { Refused, encoded, formOf } from "./commands.js";
import { Colours, SectionList, marksOfSection } from "./list.js";
import { Manuscript } from "./manuscript.js";
import { Section } from "./section.js";
import { Together, exchange, takeInFiles } from "./exchange.js";
import { ask, button, download, element, field, grouped, paragraph } from "./dom.js";
import { comment, showComments } from "./comments.js";
import { printsBook, ways } from "./book.js";
import { countsInWords, waitingInWords } from "./told.js";
import { Finder } from "./find.js";
import { Outline } from "./outline.js";
import { Undo } from "./undo.js";
import { more } from "./naming.js";
import { putInText } from "./texts.js";
import { showChanges, showHistory } from "./history.js";

const STATES = {
  saved: "Saved",
  typing: "Writing …",
  saving: "Saving …",
  working: "Working …",
  held: "Kept as a draft",
  refused: "Not saved",
};

const PASSING = ["typing", "saving", "working"];

const TITLES = {
  ".md": "Download the text, with “# ” before each title",
  ".txt": "Download the text, with plain titles",
  ".html": "Download the text as a web page",
  Print: "Print the text as a book",
};

export class Editor {
  constructor({ store, program, channel, record, help }) {
    this.colours = new Colours();
    this.manuscript = new Manuscript({
      store, program, channel, record, view: this, makes: (part) => new Section(part, this),
    });
    this.help = help;
    this.undo = new Undo(this.manuscript, this);
    this.folder = new Folder(this);
    this.finder = new Finder(this);
    this.build();
    this.list = new SectionList(this.sections);
    this.together = new Together(this, channel);
    this.turned();
  }

  build() {
    const { name } = this.manuscript.record;
    this.mark = element("span", { className: "state", textContent: "Opening …" });
    this.notices = element("div", { className: "notices", tabIndex: -1 });
    const report = element("div", { className: "report", role: "status", "aria-atomic": "false" }, this.mark,
      this.folder.mark, this.notices);
    this.showsColours = element("input", { type: "checkbox", checked: true });
    this.showsColours.onchange = () => {
      this.paint();
      if (!this.hidesColours) this.attempt(() => this.manuscript.decorate());
    };
    const shown = element("label", {}, this.showsColours, "Show the others' colours");
    this.authors = element("ul", {}, element("li", {}, shown));
    this.legend = element("details", { className: "legend", open: true, hidden: true },
      element("summary", { textContent: "Who wrote what" }), this.authors);
    this.sections = element("div", { className: "sections" });
    this.turns = [
      button("Undo", () => this.turn("undo"), { title: "Take back what you did last (Ctrl Z)" }),
      button("Redo", () => this.turn("redo"), { title: "Do again what was taken back (Ctrl Shift Z)" }),
    ];
    const tools = element("nav", { className: "row", "aria-label": "Manuscript" },
      ...this.turns,
      button("Find", () => this.finder.show(), { title: "Find and replace in all sections (Ctrl F)" }),
      button("Exchange", () => exchange(this)),
      button("Versions", () => showHistory(this)),
      element("span", { className: "row", role: "group", "aria-label": "Take the text out" },
        ...ways(this).map(([form, take]) => button(form, take, { title: TITLES[form] }))),
      button("More", () => more(this)),
      button("Help", this.help),
    );
    // What is pressed with the mouse leaves the caret in the text.
    tools.onmousedown = (event) => event.preventDefault();
    this.title = element("h1", { textContent: name, dir: "auto", title: "Give it a name", onclick: () => more(this) });
    const home = element("a", { href: "#", textContent: "Manuscripts" });
    const bar = element("header", { className: "bar" }, home, this.title, tools);
    this.outline = new Outline();
    const main = element("main", {}, this.legend, this.sections);
    const top = element("div", { className: "top" }, bar, this.finder.element, report);
    const room = element("div", { className: "room" }, this.outline.element, main);
    this.element = element("div", { className: "editor" }, top, room);
    new ResizeObserver(() => room.style.setProperty("--top", `${top.offsetHeight}px`)).observe(top);
    this.sections.addEventListener("focusin", ({ target }) => {
      if (target.matches("input, textarea")) this.last = target;
      this.outline.show(this.sectionAt(target));
    });
    this.watchDrops();
    printsBook(this, this.leave.signal);
    this.watchKeys();
    this.watchProgram();
  }

  // What takes long can be stopped.
  watchProgram() {
    const { program } = this.manuscript;
    program.onLate = () => {
      this.lateNotice?.remove();
      const stop = button("Stop it", () => program.stop());
      const words = "This takes long. What you type meanwhile is kept as a draft.";
      this.lateNotice = this.notice(words, { actions: [stop] });
    };
    program.onEnd = () => this.lateNotice?.remove();
  }

  async open() {
    try {
      await this.manuscript.load();
      await this.offerDrafts();
      await this.together.catchUp();
      if (!this.manuscript.isBlank) await this.manuscript.remember("When it was opened");
      this.folder.look();
    } catch (why) {
      this.fail(why);
    }
  }

  close() {
    this.manuscript.close();
    this.together.close();
    this.folder.close();
    this.outline.close();
    this.colours.remove();
    this.leave.abort();
  }

  // Whether a save was refused, so that what was typed is nowhere but in this page.
  get isRefused() {
    return this.mark.dataset.state === "refused";
  }

  get isReadOnly() {
    return this.manuscript.isReadOnly;
  }

  // Goes on writing where the writer was.
  goOn() {
    if (this.last?.isConnected) this.last.focus();
    else this.manuscript.sections[0]?.focus();
  }

  // What the manuscript calls, as its view.

  kept() {
    this.folder.saved();
  }

  place(sections) {
    this.list.place(sections);
    this.outline.place(sections);
    if (!this.isPlaced && sections[0].isFresh) sections[0].focus();
    this.isPlaced = true;
  }

  showName() {
    const { name } = this.manuscript.record;
    this.title.textContent = name;
    document.title = name;
  }

  state(name, why) {
    this.showState(name);
    if (name === "refused") this.refused(why);
    else if (name === "saved") this.saveNotice?.remove();
    this.outline.count();
  }

  // A state that passes is not announced.
  showState(name) {
    if (this.mark.dataset.state === name) return;
    this.mark.setAttribute("aria-busy", PASSING.includes(name));
    this.mark.dataset.state = name;
    this.mark.textContent = STATES[name];
  }

  lost(title) {
    this.notice(`Another author deleted the section “${title}” while you wrote in it. It is a new section now, with ` +
      "what you wrote.");
  }

  counts({ record: { waiting }, isReadOnly }) {
    if (waiting !== this.waiting) {
      this.waiting = waiting;
      this.waitNotice?.remove();
      if (waiting) this.waitNotice = this.notice(waitingInWords(waiting));
    }
    if (!isReadOnly) {
      this.readNotice?.remove();
      this.readNotice = null;
    } else if (!this.readNotice) {
      const mend = button("Put a space before it", () => this.attempt(() => this.manuscript.mend()));
      this.readNotice = this.notice("A text has a line that begins with “# ”, which marks titles. So this manuscript " +
        "can be read, exchanged and downloaded here, but can't be changed until there is a space before that line.",
      { actions: [mend] });
    }
  }

  decorate(sections) {
    const authors = new Set([this.manuscript.record.replica]);
    for (const { runs, comments } of sections) {
      for (const { author } of [...runs, ...comments]) if (author) authors.add(author);
    }
    this.colours.show(authors);
    this.showLegend();
    this.paint();
  }

  paint() {
    const own = this.manuscript.record.replica;
    for (const section of this.manuscript.sections) {
      section.setMarks(marksOfSection(section, (author) => author !== own && !this.hidesColours));
      showComments(section, this);
    }
  }

  showLegend() {
    const { authors } = this.colours;
    this.legend.hidden = authors.length < 2;
    const names = authors.map((author) => button(this.nameOf(author), () => this.nameAuthor(author), {
      className: `author by-${author}`, title: `Author ${grouped(author)}: give a name`, dir: "auto",
    }));
    for (const entry of [...this.authors.children].slice(1)) entry.remove();
    this.authors.append(...names.map((entry) => element("li", {}, entry)));
  }

  get hidesColours() {
    return !this.showsColours.checked;
  }

  nameOf(author) {
    const { replica, names = {} } = this.manuscript.record;
    return names[author] ?? (author === replica ? "You" : `Author ${grouped(author)}`);
  }

  async nameAuthor(author) {
    const { names = {} } = this.manuscript.record;
    const input = element("input", { value: names[author] ?? "", maxLength: 60 });
    const body = [field("Name", input, "Only this browser shows the name: it is not in the file.")];
    const name = await ask(`Author ${grouped(author)}`, body, { agree: "Save", read: () => input.value.trim() });
    if (name === null) return;
    await this.attempt(() => this.manuscript.keepRecord({ names: { ...names, [author]: name || undefined } }));
    this.showLegend();
    this.paint();
  }

  // Notices. Each can be closed, and none is there twice.

  notice(text, { line, kind = "", actions = [] } = {}) {
    for (const known of [...this.notices.children]) if (known.firstChild.textContent === text) known.remove();
    const made = element("div", { className: `notice ${kind}` }, paragraph(text));
    if (line) made.append(element("p", {}, element("small", { textContent: "The program said: " }),
      element("code", { textContent: line })));
    const away = button("Close", () => made.remove());
    made.append(element("div", { className: "row" }, ...actions, away));
    this.notices.append(made);
    return made;
  }

  fail(why) {
    console.error(why);
    if (why instanceof StoreFull) return this.refused(why);
    return this.notice(why.message, { line: why instanceof Refused ? why.line : "", kind: "grave" });
  }

  // A save that failed. The text is in the page, and the writer can download it.
  refused(why) {
    this.saveNotice?.remove();
    const isFull = why instanceof StoreFull;
    const text = isFull
      ? "The browser has no room left, so what you wrote last is not saved. It is still in this page: download it, " +
        "or make room, then try again."
      : `What you wrote last is not saved, but it is still in this page. ${why.message}`;
    const actions = [
      button("Try again", () => this.manuscript.save(), { className: "main" }),
      button("Download the text", () => this.downloadText()),
    ];
    this.saveNotice = this.notice(text, { line: why.line, kind: "grave", actions });
    this.showState("refused");
  }

  downloadText() {
    const parts = this.manuscript.sections.map((section) => section.draft().live);
    download(`${this.manuscript.record.name}.txt`, encoded(formOf(parts)), "text/plain");
  }

  async attempt(work) {
    try {
      return await work();
    } catch (why) {
      this.fail(why);
      return null;
    }
  }

  async offerDrafts() {
    const left = await this.manuscript.leftDrafts();
    const sure = this.manuscript.sure(left);
    if (sure.length) await this.manuscript.putBack(sure);
    if (sure.length) this.notice("What you wrote last was not saved when the page closed. It is in its place again.");
    const drafts = left.filter((draft) => !sure.includes(draft));
    if (drafts.length === 0) return;
    const text = "When this manuscript was last open, something that you wrote was not saved in the file. Here it is:";
    const list = drafts.flatMap(({ sections }) => sections.map(({ live }) => live));
    const shown = element("pre", { textContent: formOf(list), tabIndex: 0 });
    const away = () => notice.remove();
    const putBack = () => this.attempt(() => this.manuscript.putBack(drafts)).then(away);
    const actions = [
      button("Put it back", putBack, { className: "main" }),
      button("Download it", () => download("draft.txt", encoded(formOf(list)), "text/plain")),
      button("Discard it", () => this.attempt(() => this.manuscript.forget(drafts)).then(away)),
    ];
    const notice = this.notice(text, { actions, kind: "draft" });
    notice.firstChild.after(shown);
  }

  // What the writer does at a section, and how it is taken back.

  edited() {
    this.manuscript.edited();
  }

  wrote(section, list) {
    this.undo.wrote(section, list);
  }

  retitled(section, title) {
    this.undo.retitled(section, title);
  }

  split(made) {
    this.undo.did(made);
  }

  cameIn(section, list) {
    this.undo.cameIn(section, list);
  }

  get lists() {
    return this.undo.lists;
  }

  turned() {
    const [undo, redo] = this.turns;
    undo.disabled = !this.undo.canUndo || this.isReadOnly;
    redo.disabled = !this.undo.canRedo || this.isReadOnly;
  }

  // "undo" or "redo".
  turn(way) {
    return this.isReadOnly ? null : this.attempt(() => this.undo[way]());
  }

  // Whether an event of an input asks to take something back or do it again.
  isTurn(event) {
    const way = { historyUndo: "undo", historyRedo: "redo" }[event.inputType];
    if (!way) return false;
    event.preventDefault();
    this.turn(way);
    return true;
  }

  undoButton() {
    return button("Undo", () => this.turn("undo"));
  }

  agrees(line) {
    return ask("Take it out again?", [paragraph(line)], { agree: "Take it out", isGrave: true });
  }

  titled(section, text) {
    return this.attempt(() => putInText(this, section, text));
  }

  does(name, section) {
    const acts = {
      up: () => this.move(section, this.manuscript.placeOf(section) - 1),
      down: () => this.move(section, this.manuscript.placeOf(section) + 1),
      comment: () => comment(this, section),
      drop: () => this.drop(section),
      add: () => this.add(section),
    };
    return this.isReadOnly ? null : this.attempt(acts[name]);
  }

  async move(section, place) {
    if (place < 1 || place > this.manuscript.sections.length) return;
    const focus = document.activeElement;
    this.undo.did(await this.manuscript.move(section, place));
    section.element.scrollIntoView({ block: "nearest" });
    if (section.element.contains(focus)) focus.focus();
  }

  // What is deleted can be had back, so nothing is asked before.
  async drop(section) {
    const { title } = section.saved;
    this.undo.did(await this.manuscript.drop(section));
    this.notice(`“${title}” was deleted.`, { actions: [this.undoButton()] });
  }

  // A section that is begun has the caret in its title.
  add(behind) {
    const section = this.manuscript.begin(behind);
    this.undo.began(section);
    section.element.scrollIntoView({ block: "nearest" });
    section.title.focus();
  }

  // Files and sections that are dropped.
  watchDrops() {
    const hasFiles = ({ dataTransfer }) => dataTransfer.types.includes("Files");
    this.leave = new AbortController();
    const { signal } = this.leave;
    document.addEventListener("dragover", (event) => {
      if (!hasFiles(event) && !this.dragged) return;
      event.preventDefault();
      document.body.classList.toggle("drop", hasFiles(event));
      this.showTarget(event);
    }, { signal });
    document.addEventListener("dragleave", () => document.body.classList.remove("drop"), { signal });
    document.addEventListener("drop", (event) => {
      document.body.classList.remove("drop");
      if (hasFiles(event)) {
        event.preventDefault();
        takeInFiles(this, [...event.dataTransfer.files], this.sectionAt(event.target));
      } else if (this.dragged) {
        event.preventDefault();
        this.dropSection(event);
      }
    }, { signal });
    this.sections.addEventListener("dragstart", (event) => {
      const section = this.sectionAt(event.target);
      if (!section || !event.target.classList?.contains("grip")) return;
      this.dragged = section;
      event.dataTransfer.effectAllowed = "move";
      event.dataTransfer.setData("text/plain", section.title.value);
      event.dataTransfer.setDragImage(section.title, 0, 0);
    });
    this.sections.addEventListener("dragend", () => this.endDrag());
  }

  sectionAt(node) {
    return this.manuscript.sections.find(({ element: article }) => article.contains(node));
  }

  // Where a section that is dragged would go: before the one under the pointer, or after it, where the pointer is in
  // its lower half.
  targetOf(event) {
    const section = this.sectionAt(event.target);
    if (!section) return null;
    const { top, height } = section.element.getBoundingClientRect();
    return { section, isBelow: event.clientY > top + height / 2 };
  }

  showTarget(event) {
    this.target?.section.element.classList.remove("before", "behind");
    this.target = this.dragged ? this.targetOf(event) : null;
    this.target?.section.element.classList.add(this.target.isBelow ? "behind" : "before");
  }

  dropSection(event) {
    const target = this.targetOf(event);
    const { dragged } = this;
    this.endDrag();
    if (!target || target.section === dragged) return;
    const from = this.manuscript.placeOf(dragged);
    const to = this.manuscript.placeOf(target.section) + (target.isBelow ? 1 : 0);
    const place = to > from ? to - 1 : to;
    if (place !== from) this.attempt(() => this.move(dragged, place));
  }

  endDrag() {
    this.target?.section.element.classList.remove("before", "behind");
    this.target = null;
    this.dragged = null;
  }

  watchKeys() {
    const keys = { ArrowUp: "up", ArrowDown: "down", KeyM: "comment" };
    const chords = {
      KeyS: () => this.manuscript.save(),
      KeyF: () => this.finder.show(),
      KeyZ: ({ shiftKey }) => this.turn(shiftKey ? "redo" : "undo"),
      KeyY: () => this.turn("redo"),
    };
    this.element.addEventListener("keydown", (event) => {
      const does = isChord(event) && chords[codeOf(event)];
      if (does && !(event.target.closest(".finder") && /Key[ZY]/.test(codeOf(event)))) {
        event.preventDefault();
        does(event);
        return;
      }
      const section = this.sectionAt(event.target);
      if (!event.altKey || !event.shiftKey || !section) return;
      const name = keys[codeOf(event)];
      if (!name) return;
      event.preventDefault();
      this.does(name, section);
    });
    document.addEventListener("visibilitychange", () => {
      if (document.hidden && this.manuscript.unsaved.length) this.manuscript.save();
    }, { signal: this.leave.signal });
  }

  came(counts, from, since) {
    const actions = counts.accepted ? [button("What came", () => this.attempt(() => showChanges(this, since)))] : [];
    const kind = counts.conflict || counts.stray ? "grave" : "";
    this.notice(`“${from}”: ${countsInWords(counts)}`, { kind, actions });
  }
}

// Whether the key of commands is held: on a Mac the control key moves the caret.
function isChord({ ctrlKey, metaKey, altKey }) {
  return !altKey && (/^Mac/.test(navigator.platform) ? metaKey : ctrlKey);
}

// The key of an event by the letter that it writes, or, where a keyboard writes other letters, by its place.
function codeOf({ key, code }) {
  return /^[a-z]$/i.test(key) ? `Key${key.toUpperCase()}` : key.length === 1 ? code : key;
}
