// Two authors side by side, together or apart: what one sees of the other, and that passages are never mixed. Nothing
// of it is kept.

import { Colours, SectionList, marksOfSection } from "./list.js";
import { Manuscript } from "./manuscript.js";
import { MemoryStore } from "./store.js";
import { Section } from "./section.js";
import { Shelf } from "./home.js";
import { button, element } from "./dom.js";
import { formOf } from "./commands.js";

const AUTHORS = [
  { name: "Ann", replica: 1 },
  { name: "Ben", replica: 2 },
];

// One author's half of the page.
class Pane {
  isReadOnly = false;

  constructor({ author, two, record }) {
    this.two = two;
    this.name = author.name;
    const { store, program } = two;
    this.manuscript = new Manuscript({
      store, program, record, view: this, makes: (part) => new Section(part, this), pause: 250, coloursAll: true,
    });
    this.sections = element("div", { className: "sections" });
    this.mark = element("span", { className: "state", role: "status" });
    const title = element("h2", { className: `author by-${author.replica}`, textContent: author.name });
    this.element = element("section", { className: "pane", "aria-label": author.name },
      element("header", {}, title, this.mark), this.sections);
    this.list = new SectionList(this.sections);
  }

  place(sections) {
    this.list.place(sections);
  }

  state(name, why) {
    this.mark.textContent = { typing: "writing …", held: "kept as a draft", refused: why?.message }[name] ?? "";
    if (name !== "saved") return;
    this.two.saved(this);
    this.manuscript.decorate();
  }

  counts() {}

  decorate(sections) {
    for (const section of sections) section.setMarks(marksOfSection(section, () => true));
  }

  edited() {
    this.two.compare();
    this.manuscript.edited();
  }

  does() {}

  get text() {
    return formOf(this.manuscript.sections.map((section) => section.draft().live));
  }
}

export class Two {
  constructor({ program, help }) {
    this.store = new MemoryStore();
    this.program = program;
    this.colours = new Colours();
    this.colours.show(AUTHORS.map(({ replica }) => replica));
    this.isTogether = true;
    this.switch = element("input", { type: "checkbox", role: "switch", checked: true, id: "together" });
    this.switch.onchange = () => this.turn(this.switch.checked);
    this.same = element("p", { className: "same", role: "status" });
    this.panes = element("div", { className: "panes" });
    const bar = element("header", { className: "bar" }, element("a", { href: "#", textContent: "Manuscripts" }),
      element("h1", { textContent: "Two authors, one manuscript" }),
      element("nav", { className: "row", "aria-label": "This page" },
        button("Begin again", () => this.begin()), button("Help", help)));
    const [apart, together] = ["Apart", "Together"].map((word) => element("span", { textContent: word }));
    apart.setAttribute("aria-hidden", "true");
    const label = element("label", { className: "switch" }, apart, this.switch, together);
    const words = document.getElementById("two").content.cloneNode(true);
    this.element = element("div", { className: "two" }, bar,
      element("main", {}, words, element("div", { className: "row middle" }, label, this.same), this.panes));
  }

  async open() {
    await this.begin();
  }

  close() {
    this.halves?.forEach(({ manuscript }) => manuscript.close());
    this.colours.remove();
  }

  // Ann begins, and Ben has what she has.
  async begin() {
    this.isReady = false;
    this.panes.hidden = true;
    this.halves?.forEach(({ manuscript }) => manuscript.close());
    const shelf = new Shelf(this);
    const records = [];
    for (const { name, replica } of AUTHORS) records.push(await shelf.make({ name, replica }));
    this.halves = AUTHORS.map((author, at) => new Pane({ author, two: this, record: records[at] }));
    this.panes.replaceChildren(...this.halves.map((pane) => pane.element));
    for (const { manuscript } of this.halves) await manuscript.load();
    const [ann] = this.halves;
    await ann.manuscript.add("The sea", null);
    ann.manuscript.sections[0].apply([{ start: 0, end: 0, text: "It was calm." }]);
    await ann.manuscript.save();
    this.isReady = true;
    this.panes.hidden = false;
    this.switch.checked = true;
    await this.turn(true);
    for (const { manuscript } of this.halves) manuscript.sections[0]?.wake();
  }

  async turn(isTogether) {
    this.isTogether = isTogether;
    if (isTogether) for (const pane of this.halves) await this.pass(pane);
    this.compare();
  }

  // What one saved, the other takes in.
  async pass(pane) {
    const other = this.halves.find((half) => half !== pane);
    await pane.manuscript.save();
    await other.manuscript.takeIn(pane.manuscript.bytes);
    this.compare();
  }

  saved(pane) {
    const { revision } = pane.manuscript.record;
    if (!this.isReady || !this.isTogether || pane.passed === revision) return;
    pane.passed = revision;
    this.pass(pane).catch((why) => pane.state("refused", why));
  }

  compare() {
    if (!this.isReady) return;
    const [ann, ben] = this.halves.map(({ text }) => text);
    const isSame = ann === ben;
    this.same.textContent = isSame ? "Both read the same." : "They have not seen each other's text yet.";
    this.same.dataset.same = isSame;
  }
}
