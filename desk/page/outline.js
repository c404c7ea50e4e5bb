// The outline: the titles of the sections, and how many words each has, beside the text where there is room.

import { button, element } from "./dom.js";
import { UNTITLED } from "./naming.js";
import { counted } from "./told.js";

// Scripts that put no space between words.
const UNSPACED = /[\p{sc=Han}\p{sc=Hira}\p{sc=Kana}\p{sc=Thai}\p{sc=Laoo}\p{sc=Khmr}\p{sc=Mymr}]/u;

// How many words a text has: what begins with a letter or a digit and goes on to the next space.
export function wordsOf(text) {
  if (!UNSPACED.test(text)) return text.match(/[\p{L}\p{N}]\S*/gu)?.length ?? 0;
  const words = new Intl.Segmenter(undefined, { granularity: "word" }).segment(text);
  return Array.from(words).filter(({ isWordLike }) => isWordLike).length;
}

export class Outline {
  #entries = new Map();
  #sections = [];

  constructor() {
    this.total = element("p");
    this.list = element("ol");
    this.element = element("nav", { className: "outline", hidden: true, "aria-label": "Sections" },
      this.list, this.total);
    this.list.onkeydown = (event) => this.#goAlong(event);
  }

  place(sections) {
    this.#sections = sections;
    const known = this.#entries;
    this.#entries = new Map(sections.map((section) => [section, known.get(section) ?? this.#entryOf(section)]));
    const focused = document.activeElement;
    this.list.replaceChildren(...[...this.#entries.values()].map(({ item }) => item));
    if (this.list.contains(focused)) focused.focus();
    this.element.hidden = sections.length < 2;
    this.show(this.current);
  }

  // Shows in which section the writer is.
  show(section) {
    this.current = this.#entries.has(section) ? section : this.#sections[0];
    for (const [each, { press }] of this.#entries) {
      press.tabIndex = each === this.current ? 0 : -1;
      press.setAttribute("aria-current", each === section);
    }
    this.count();
  }

  // Counts the words of what changed, a section at a time, once nothing was typed for a while.
  count(wait = 400) {
    clearTimeout(this.timer);
    this.timer = setTimeout(() => {
      const changed = this.#sections.find((section) => this.#entries.get(section).text !== section.live);
      if (changed) Object.assign(this.#entries.get(changed), { text: changed.live, count: wordsOf(changed.live) });
      this.#tell();
      if (changed) this.count(20);
    }, wait);
  }

  close() {
    clearTimeout(this.timer);
  }

  #entryOf(section) {
    const title = element("bdi", { textContent: section.title.value || UNTITLED });
    const words = element("small");
    const press = button("", () => this.#go(section));
    press.append(title, words);
    return { item: element("li", {}, press), press, title, words, count: 0 };
  }

  #tell() {
    let sum = 0;
    for (const [section, { press, title, words, count }] of this.#entries) {
      const name = section.title.value || UNTITLED;
      sum += count;
      put(title, name);
      put(words, count.toLocaleString("en"));
      press.setAttribute("aria-label", `${name}, ${lengthInWords(count)}`);
    }
    put(this.total, lengthInWords(sum));
  }

  #go(section) {
    section.focus();
    section.element.scrollIntoView({ block: "start" });
  }

  // The outline is one stop of the tabulator; arrows go from one title to the next.
  #goAlong(event) {
    const presses = [...this.#entries.values()].map(({ press }) => press);
    const at = presses.indexOf(event.target);
    const places = { ArrowDown: at + 1, ArrowUp: at - 1, Home: 0, End: presses.length - 1 };
    const next = presses[places[event.key]];
    if (event.altKey || event.ctrlKey || !next) return;
    event.preventDefault();
    for (const press of presses) press.tabIndex = press === next ? 0 : -1;
    next.focus();
  }
}

function lengthInWords(count) {
  return counted(count, "word", "words");
}

function put(node, text) {
  if (node.textContent !== text) node.textContent = text;
}
