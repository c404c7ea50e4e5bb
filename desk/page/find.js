// Find and replace, over all sections. What is found is marked under the text; each place is met once, from the caret
// on, and what was put in the place of another is not met again.

import { button, element, field } from "./dom.js";

const MOST_MARKED = 10000;

export class Finder {
  constructor(editor) {
    this.editor = editor;
    this.build();
  }

  build() {
    this.word = element("input", { dir: "auto", autocomplete: "off", required: true });
    this.other = element("input", { dir: "auto", autocomplete: "off" });
    this.isWhole = element("input", { type: "checkbox" });
    this.isExact = element("input", { type: "checkbox" });
    this.told = element("span", { className: "told", role: "status" });
    const check = (input, words) => element("label", {}, input, words);
    const acts = element("div", { className: "row" },
      element("button", { textContent: "Next", className: "main" }),
      button("Previous", () => this.go(-1)),
      button("Replace", () => this.replace()),
      button("Replace all", () => this.replaceAll()),
      button("Close", () => this.close()));
    this.element = element("form", { className: "finder row", role: "search", hidden: true }, field("Find", this.word),
      field("Replace by", this.other), check(this.isWhole, "Whole words"), check(this.isExact, "Same capitals"), acts,
      this.told);
    this.element.onsubmit = (event) => {
      event.preventDefault();
      this.go(1);
    };
    for (const input of [this.word, this.isWhole, this.isExact]) input.oninput = () => this.look();
    this.element.addEventListener("keydown", (event) => this.pressed(event));
  }

  get sections() {
    return this.editor.manuscript.sections;
  }

  pressed(event) {
    if (event.key === "Escape") this.close();
    else if (event.key === "Enter" && event.shiftKey) this.go(-1);
    else return;
    event.preventDefault();
  }

  show() {
    const area = this.sections.map((section) => section.area).find((each) => each === document.activeElement);
    const chosen = area?.value.slice(area.selectionStart, area.selectionEnd) ?? "";
    this.from = this.caret();
    this.element.hidden = false;
    if (chosen && !chosen.includes("\n")) this.word.value = chosen;
    this.word.focus();
    this.word.select();
    this.look();
  }

  // Where the caret is, or the start.
  caret() {
    const at = this.sections.findIndex(({ area }) => area && area === this.editor.last);
    return at < 0 ? { section: 0, place: 0 } : { section: at, place: this.sections[at].area.selectionStart };
  }

  close() {
    this.element.hidden = true;
    for (const section of this.sections) section.setFound([]);
    const { found, at } = this;
    const match = found?.[at];
    if (match && match.section.live.slice(match.start, match.end)) match.section.select(match.start, match.end);
    else this.editor.goOn();
  }

  pattern() {
    const word = this.word.value.replace(/[\\^$.*+?()[\]{}|/]/g, "\\$&");
    const letter = "[\\p{L}\\p{N}\\p{M}]";
    const whole = this.isWhole.checked ? `(?<!${letter})${word}(?!${letter})` : word;
    return new RegExp(whole, this.isExact.checked ? "gu" : "giu");
  }

  // All places, in the order of the text.
  places() {
    if (!this.word.value) return [];
    const pattern = this.pattern();
    return this.sections.flatMap((section, number) => [...section.live.matchAll(pattern)]
      .map(({ index, 0: text }) => ({ section, number, start: index, end: index + text.length })));
  }

  // Looks anew, and shows the first place from where the search began.
  look() {
    this.found = this.places();
    const { section, place } = this.from;
    const at = this.found.findIndex(({ number, start }) => number > section || (number === section && start >= place));
    this.at = Math.max(at, 0);
    this.mark();
  }

  // Goes to the next place, or the one before; the first follows the last.
  go(step) {
    if (this.found?.[this.at]) this.from = { section: this.found[this.at].number, place: this.found[this.at].start };
    this.look();
    if (this.found.length) this.at = (this.at + step + this.found.length) % this.found.length;
    this.mark();
  }

  mark() {
    const { found, at } = this;
    for (const section of this.sections) {
      const here = found.length > MOST_MARKED ? found.slice(at, at + 1) : found;
      section.setFound(here.filter((match) => match.section === section).map(({ start, end }) => ({ start, end })),
        found[at]?.section === section ? found[at] : null);
    }
    if (!this.word.value) this.told.textContent = "";
    else this.told.textContent = found.length ? `${at + 1} of ${found.length}` : "Nothing was found.";
    found[at]?.section.reveal(found[at]);
  }

  replace() {
    const match = this.found?.[this.at];
    if (!match || this.editor.isReadOnly) return;
    match.section.write([{ start: match.start, end: match.end, text: this.other.value }]);
    this.editor.edited();
    this.from = { section: match.number, place: match.start + this.other.value.length };
    this.look();
  }

  replaceAll() {
    if (!this.word.value || this.editor.isReadOnly) return;
    const found = this.places();
    this.editor.undo.together(() => {
      for (const section of new Set(found.map((match) => match.section))) {
        const here = found.filter((match) => match.section === section);
        section.write(here.map(({ start, end }) => ({ start, end, text: this.other.value })));
      }
    });
    if (found.length) this.editor.edited();
    this.from = { section: this.sections.length, place: 0 };
    this.look();
    this.told.textContent = found.length === 1 ? "One place was replaced." : `${found.length} places were replaced.`;
  }
}
