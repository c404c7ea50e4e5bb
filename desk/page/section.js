// A section as it is written: its title, its text, the colours under it and the comments beside it.
//
// The text stands twice in one place: in a text area, and under it in a mirror that has the colours and gives both
// their height. The text area is made when the section comes into view, so that a long manuscript opens at once.

import { carried, changed, changes, inverse, movedPlace, splice, withReturns, withoutReturns } from "./difference.js";
import { faultOfText, faultOfTitle, faultOfTitles, formOf, hasTitles, partsOf, withoutHeadings } from "./commands.js";
import { button, element } from "./dom.js";
import { Mirror } from "./mirror.js";
import { UNTITLED } from "./naming.js";

const FROM_OUTSIDE = ["insertFromPaste", "insertFromPasteAsQuotation", "insertFromDrop", "insertFromYank"];

// A longer text, or one with a longer line, has no mirror, and so no colours: a browser lays out a whole line at each
// key, and takes the more time for it the more pieces it has.
const LONGEST_MIRRORED = 150000;
const LONGEST_LINE = 8000;

export class Section {
  // `host` is told of what the writer does: edited(section), does(name, section), wrote(section, change) with what
  // takes it back, cameIn(section, changes), and titled(section, text), where a text with titles is pasted. A section
  // that is `isFresh` is not in the file yet: it comes into it with the first letter, or where it `isWanted`.
  constructor({ key, title, text, isFresh = false, isWanted = false }, host) {
    Object.assign(this, { key, isFresh, isWanted });
    this.setSaved({ title, text });
    this.live = this.shown;
    this.host = host;
    this.marks = [];
    this.found = [];
    this.runs = [];
    this.comments = [];
    this.chosen = new Set();
    this.area = null;
    this.isComposing = false;
    this.build();
  }

  build() {
    this.title = element("input", { className: "title", value: this.saved.title, dir: "auto", autocomplete: "off" });
    this.title.placeholder = UNTITLED;
    this.known = this.saved.title;
    this.title.oninput = () => {
      this.judgeTitle();
      this.host.retitled?.(this, this.known);
      this.known = this.title.value;
      this.host.edited(this);
    };
    this.title.onfocus = () => this.selectUntitled();
    this.title.onkeydown = (event) => {
      if (event.key !== "Enter" || event.isComposing) return;
      event.preventDefault();
      this.focus();
    };
    this.mirror = new Mirror();
    this.paper = element("div", { className: "paper" }, this.mirror.element);
    this.refusal = element("p", { className: "refusal", hidden: true, role: "status" });
    this.said = "";
    this.notes = element("ul", { className: "notes" });
    const body = element("div", { className: "body" }, this.paper, this.notes);
    const header = element("header", {}, this.title, this.tools());
    this.element = element("article", { className: "section" }, header, this.refusal, body, this.adder());
    this.watch(this.title);
    this.paper.onclick = () => this.focus();
    this.paint();
  }

  tools() {
    const does = (name) => () => this.host.does(name, this);
    // This is no button, since not all browsers drag one.
    const grip = { className: "grip", draggable: true, title: "Drag to another place", textContent: "⠿" };
    this.grip = element("span", { ...grip, "aria-hidden": "true" });
    this.buttons = [
      ["up", "↑", "Move up"],
      ["down", "↓", "Move down"],
      ["comment", "Comment", "Comment on the passage that is selected"],
      ["drop", "Delete", "Delete this section"],
    ].map(([name, label, title]) => button(label, does(name), { title, "aria-label": title, className: `do-${name}` }));
    this.group = element("div", { className: "tools", role: "toolbar" }, this.grip, ...this.buttons);
    this.group.hidden = this.isFresh;
    this.group.onkeydown = (event) => this.goAlong(event);
    return this.group;
  }

  // The tools are one stop of the tabulator; arrows go from one tool to the next.
  goAlong(event) {
    const steps = { ArrowRight: 1, ArrowLeft: -1 };
    const usable = this.buttons.filter(({ disabled }) => !disabled);
    const next = usable[usable.indexOf(event.target) + steps[event.key]];
    if (event.altKey || !next) return;
    event.preventDefault();
    this.stopAt(next);
    next.focus();
  }

  stopAt(tool) {
    for (const each of this.buttons) each.tabIndex = each === tool ? 0 : -1;
  }

  adder() {
    return button("+ Section", () => this.host.does("add", this), { className: "add", title: "Add a section below" });
  }

  // Input methods compose a text in several steps, between which nothing may be saved or replaced.
  watch(input) {
    input.addEventListener("compositionstart", () => {
      this.isComposing = true;
    });
    input.addEventListener("compositionend", () => {
      this.isComposing = false;
      this.host.edited(this);
    });
  }

  // Numbers the section for those who use a screen reader.
  count(place, most) {
    this.buttons[0].disabled = place === 1;
    this.buttons[1].disabled = place === most;
    const stop = this.buttons.find(({ disabled, tabIndex }) => !disabled && tabIndex === 0);
    this.stopAt(stop && this.place === place ? stop : this.buttons.find(({ disabled }) => !disabled));
    this.title.setAttribute("aria-label", `Title of section ${place}`);
    this.group.setAttribute("aria-label", `Section ${place}`);
    this.notes.setAttribute("aria-label", `Comments on section ${place}`);
    this.area?.setAttribute("aria-label", `Text of section ${place}`);
    this.place = place;
  }

  // Makes the text area, which from then on has the text.
  wake() {
    if (this.area) return;
    this.area = element("textarea", { className: "text", value: this.live, dir: "auto", rows: 1 });
    this.area.setAttribute("aria-label", `Text of section ${this.place}`);
    this.freeze(this.host.isReadOnly);
    this.area.placeholder = "Write here";
    this.area.oninput = () => this.typed();
    this.area.onbeforeinput = (event) => this.pasted(event);
    this.watch(this.area);
    this.mirror.element.setAttribute("aria-hidden", "true");
    this.paper.append(this.area);
    if (this.isLong) this.paint();
  }

  freeze(isReadOnly) {
    this.title.readOnly = isReadOnly;
    if (this.area) this.area.readOnly = isReadOnly;
  }

  focus() {
    this.wake();
    this.area.focus();
  }

  // A text with titles is not pasted before it is asked about.
  pasted(event) {
    if (this.host.isTurn?.(event)) return;
    const text = event.data ?? event.dataTransfer?.getData("text/plain") ?? "";
    if (!FROM_OUTSIDE.includes(event.inputType) || !this.host.titled || !hasTitles(withoutReturns(text))) return;
    event.preventDefault();
    this.host.titled(this, text);
  }

  // Puts a text with titles in the place of what is selected. `isSplit`: each title begins a section.
  put(text, isSplit) {
    const { selectionStart: start, selectionEnd: end } = this.area;
    const [before, after] = [this.live.slice(0, start), this.live.slice(end)];
    const lead = isSplit && text.startsWith("# ") && /[^\n]$/.test(before) ? "\n" : "";
    const closed = /(^|\n)# [^\n]*$/.test(text) && after && !after.startsWith("\n") ? `${text}\n` : text;
    const put = lead + (isSplit ? closed : withoutHeadings(text));
    const list = [{ start, end, text: after ? put : put.replace(/\n$/, "") }];
    if (isSplit) this.apply(list);
    else this.write(list);
    const place = this.live.length - after.length;
    this.area.setSelectionRange(place, place);
    this.isSplit = isSplit;
    this.host.edited(this);
  }

  split() {
    this.isSplit = true;
    this.host.edited(this);
  }

  typed() {
    const change = splice(this.live, this.area.value);
    if (!change) return;
    this.host.wrote?.(this, inverse(this.live, [change]));
    this.live = this.area.value;
    this.moveMarks([change]);
    this.paint();
    this.host.edited(this);
  }

  // Makes changes of the live text for the writer, who can take them back.
  write(list) {
    if (list.length) this.host.wrote?.(this, inverse(this.live, list));
    this.apply(list);
  }

  // Makes changes of the live text. The caret stays where it is in the text, and so does the selection.
  apply(list) {
    if (list.length === 0) return;
    this.live = changed(this.live, list);
    for (const { start, end, text } of [...list].reverse()) this.area?.setRangeText(text, start, end, "preserve");
    this.moveMarks(list);
    this.paint();
  }

  // What was saved elsewhere comes in: `part` takes the place of what was saved before, and what is not saved stays.
  takeIn({ key, title, text }) {
    if (this.title.value === this.saved.title) this.setTitle(title);
    const incoming = changes(this.shown, withoutReturns(text));
    const list = carried(incoming, changes(this.shown, this.live));
    if (list.length) this.host.cameIn?.(this, list);
    this.apply(list);
    this.setSaved({ title, text });
    this.key = key;
  }

  // A fresh section came into the file, with the title that it has there.
  enter(title) {
    this.isFresh = false;
    this.group.hidden = false;
    if (this.title.value !== "") return;
    this.setTitle(title);
    this.selectUntitled();
  }

  // What is typed into the title takes the place of “Untitled”.
  selectUntitled() {
    if (document.activeElement === this.title && this.title.value === UNTITLED) this.title.select();
  }

  // What the file has, and how a text area shows it.
  setSaved(saved) {
    this.saved = { title: saved.title, text: saved.text };
    this.shown = withoutReturns(saved.text);
  }

  setTitle(title) {
    if (this.title.value !== title) this.title.value = title;
    this.known = title;
    this.judgeTitle();
  }

  // Puts back a draft, as a change of the saved text from which it was made.
  putBack({ saved, live }) {
    if (live.title !== saved.title) this.setTitle(live.title);
    const own = changes(saved.text, this.live);
    const isThere = (change) => own.some((mine) => JSON.stringify(mine) === JSON.stringify(change));
    this.write(carried(changes(saved.text, live.text).filter((change) => !isThere(change)), own));
  }

  // Whether a draft can be put back as it was: nothing was changed here since it was begun.
  isAsIn({ key, saved }) {
    return key === this.key && !this.isDirty && saved.title === this.saved.title && saved.text === this.shown;
  }

  get isLong() {
    return this.live.length > LONGEST_MIRRORED || hasLongLine(this.live);
  }

  get isDirty() {
    return (this.isFresh && this.isWanted) || this.title.value !== this.saved.title || this.live !== this.shown;
  }

  // What is to be saved of a section in which nothing was written.
  clean() {
    this.say("");
    return this.saved;
  }

  // What is to be saved: what was written, as far as it can be. It says at the section what can't.
  proposal() {
    const title = this.title.value;
    const text = withReturns(this.saved.text, this.live);
    const known = this.isFresh ? UNTITLED : this.saved.title;
    const isKept = title === known || (this.isFresh && title === "");
    const sent = isKept || this.judgeTitle() ? known : title;
    const fault = this.isSplit ? faultOfTitles(text) : faultOfText(text);
    this.say(fault);
    if (fault) return { title: sent, text: this.saved.text };
    const parts = hasTitles(text) ? { parts: this.partsOf(sent, text) } : {};
    return { title: sent, text, ...parts };
  }

  // The sections that a text with titles makes. A fresh one that is empty before the first title makes none.
  partsOf(title, text) {
    const parts = partsOf(formOf([{ title, text }]));
    return this.isFresh && this.title.value === "" && parts[0].text === "" ? parts.slice(1) : parts;
  }

  // Marks a title that the program refuses, and gives why. It is shown while the writer is there.
  judgeTitle() {
    const { value } = this.title;
    const fault = this.isFresh && value === "" ? "" : faultOfTitle(value);
    if (fault === this.title.validationMessage) return fault;
    this.title.setCustomValidity(fault);
    if (fault && document.activeElement === this.title) this.title.reportValidity();
    return fault;
  }

  draft() {
    const saved = { title: this.saved.title, text: this.shown };
    return { key: this.key, place: this.place, saved, live: { title: this.title.value, text: this.live } };
  }

  say(refusal) {
    if (this.said === refusal) return;
    this.said = refusal;
    const begin = refusal && this.host.titled ? [button("Begin a section there", () => this.split())] : [];
    this.refusal.replaceChildren(refusal, " ", ...begin);
    this.refusal.hidden = !refusal;
  }

  // Who wrote what, and the comments, are given as places of the saved text, and move with what is typed.

  setRuns(runs) {
    this.runs = this.moved(runs);
  }

  setComments(comments) {
    this.comments = this.moved(comments);
  }

  moved(marks) {
    const own = changes(this.shown, this.live);
    return own.length ? marks.map((mark) => movedMark(mark, own)) : marks;
  }

  // Marks are stretches of the live text with a class.
  setMarks(marks) {
    this.marks = marks;
    this.paint();
  }

  // Marks what was found, and which of it is shown now.
  setFound(list, current = null) {
    const nameAt = (start) => (start === current?.start ? "found now" : "found");
    const found = list.map(({ start, end }) => ({ start, end, name: nameAt(start) }));
    const isSame = ({ start, end, name }, at) =>
      this.found[at].start === start && this.found[at].end === end && this.found[at].name === name;
    if (found.length === this.found.length && found.every(isSame)) return;
    this.found = found;
    this.paint();
  }

  // Brings a place into sight.
  reveal({ start, end }) {
    this.wake();
    const now = this.mirror.element.querySelector(".now");
    if (now) now.scrollIntoView({ block: "center" });
    else this.select(start, end);
  }

  // Does `work`, which may open a dialog. By then a browser may forget what is selected, and others may change the
  // text. A second dialog may open before the first one is over.
  async keepingSelection(work) {
    const chosen = { start: this.area.selectionStart, end: this.area.selectionEnd };
    this.chosen.add(chosen);
    try {
      return await work();
    } finally {
      this.chosen.delete(chosen);
      this.area.setSelectionRange(chosen.start, chosen.end);
    }
  }

  moveMarks(list) {
    for (const chosen of this.chosen) Object.assign(chosen, movedMark(chosen, list));
    const moved = (marks) => marks.map((mark) => movedMark(mark, list)).filter(({ start, end }) => start < end);
    this.marks = moved(this.marks);
    this.found = moved(this.found);
    this.runs = moved(this.runs);
    for (const note of this.comments) Object.assign(note, movedMark(note, list));
  }

  // The end of the mirror is one more line, so that an empty last line has a height.
  paint() {
    const isLong = this.area !== null && this.isLong;
    this.paper.classList.toggle("long", isLong);
    this.paper.classList.toggle("endless", isLong && hasLongLine(this.live));
    this.mirror.show(isLong ? "" : `${this.live}\n`, isLong ? [] : [...this.marks, ...this.found]);
  }

  select(start, end) {
    this.focus();
    this.area.setSelectionRange(start, end);
  }
}

function hasLongLine(text) {
  for (let at = 0; text.length - at > LONGEST_LINE; ) {
    const end = text.lastIndexOf("\n", at + LONGEST_LINE);
    if (end < at) return true;
    at = end + 1;
  }
  return false;
}

function movedMark(mark, list) {
  return { ...mark, start: movedPlace(mark.start, list, true), end: movedPlace(mark.end, list) };
}
