// What the writer did, to be taken back and done again. Typing is kept as the changes that take it back, which move
// with what others write; what moves, adds or deletes sections, as the text before and after it.

import { carried, changed, changes, inverse } from "./difference.js";

// What is typed with no longer pause is taken back together, up to so many letters.
const PAUSE = 1000;
const LONGEST = 200;

// Texts of a whole manuscript are kept for so many of the last steps.
const MOST_WHOLE = 20;

export class Undo {
  #done = [];
  #undone = [];

  // `view` is told by turned() when there is something else to take back; `manuscript` is what the steps change.
  constructor(manuscript, view) {
    Object.assign(this, { manuscript, view });
  }

  get canUndo() {
    return this.#done.length > 0;
  }

  get canRedo() {
    return this.#undone.length > 0;
  }

  // The writer changed the text of a section: `list` takes it back.
  wrote(section, list) {
    const last = this.#done.at(-1);
    const joined = !this.group && last?.kind === "text" && last.section === section && Date.now() - last.at < PAUSE &&
      list.length === 1 && last.list.length === 1 && together(last.list[0], list[0]);
    if (joined) Object.assign(last, { list: [joined], at: Date.now() });
    else this.#add({ kind: "text", section, list, at: Date.now() });
    this.#forgetUndone();
  }

  retitled(section, title) {
    const last = this.#done.at(-1);
    if (last?.kind === "title" && last.section === section && Date.now() - last.at < PAUSE) last.at = Date.now();
    else this.#add({ kind: "title", section, title, at: Date.now() });
    this.#forgetUndone();
  }

  // A section was begun, and is empty.
  began(section) {
    this.#add({ kind: "begun", section });
    this.#forgetUndone();
  }

  // A command changed the manuscript. `asks` is what to ask before it is taken back.
  did(made, asks) {
    if (made.before === made.after) return;
    this.#add({ ...wholeStep(made), asks });
    this.#forgetUndone();
  }

  // What takes typing back as it is now, each with the text that it is for.
  get lists() {
    const steps = [...this.#done, ...this.#undone].filter(({ list }) => list);
    return steps.map((step) => ({ step, list: step.list, text: step.section.live }));
  }

  // Others changed the text of a section, and what takes back moves with it. Where a step and the others write at one
  // place, what the step writes comes first, so that both orders of the two give the same text.
  cameIn(section, list) {
    for (const steps of [this.#done, this.#undone]) {
      let coming = list;
      for (let at = steps.length - 1; at >= 0 && coming.length; at -= 1) {
        const step = steps[at];
        if (step.section !== section || !step.list) continue;
        [step.list, coming] = [carried(step.list, coming), carried(coming, step.list, true)];
      }
    }
  }

  undo() {
    return this.#turn(this.#done, this.#undone);
  }

  redo() {
    return this.#turn(this.#undone, this.#done);
  }

  // What `work` does is one step.
  together(work) {
    this.group = {};
    work();
    this.group = null;
  }

  #add(step) {
    this.#done.push({ ...step, group: this.group });
    const whole = this.#done.filter(({ kind }) => kind === "whole");
    if (whole.length > MOST_WHOLE) this.#done.splice(0, this.#done.indexOf(whole[0]) + 1);
    this.view.turned();
  }

  #forgetUndone() {
    this.#undone = [];
    this.view.turned();
  }

  // Takes the last step back that still can be, one after another.
  async #turn(steps, others) {
    if (this.isTurning) return;
    this.isTurning = true;
    try {
      while (steps.length) {
        const step = steps.at(-1);
        const { group } = step;
        const isGone = this.#isGone(step);
        const made = isGone ? null : await this.#back(step);
        if (made === "kept") return;
        steps.splice(steps.indexOf(step), 1);
        if (made) others.push({ ...made, group });
        if (!isGone && !(group && steps.at(-1)?.group === group)) return;
      }
    } finally {
      this.isTurning = false;
      this.view.turned();
    }
  }

  // Whether nothing is left that could be taken back.
  #isGone({ section, list }) {
    return (section && !this.manuscript.sections.includes(section)) || list?.length === 0;
  }

  // Takes a step back, and gives the step that does it again; "kept" where the writer answers no.
  async #back(step) {
    const { kind, section } = step;
    if (kind === "text") return this.#textBack(step);
    if (kind === "title") {
      const title = section.title.value;
      section.setTitle(step.title);
      section.title.focus();
      this.manuscript.edited();
      return { ...step, title };
    }
    if (kind === "begun" && section.isFresh) {
      this.manuscript.unbegin(section);
      return null;
    }
    if (kind === "begun") return wholeStep(await this.manuscript.drop(section));
    if (step.asks && !(await this.view.agrees(step.asks))) return "kept";
    return this.#wholeBack(step);
  }

  #textBack({ section, list }) {
    const again = inverse(section.live, list);
    section.apply(list);
    const last = again.at(-1);
    if (last) section.select(last.end, last.end);
    this.manuscript.edited();
    return { kind: "text", section, list: again, at: 0 };
  }

  // What was typed in a section that is there again can be taken back too. In a text that is again what it was before,
  // so can what was deleted in between.
  async #wholeBack({ from, to, gone, lists }) {
    const known = new Set(this.manuscript.sections);
    const made = await this.manuscript.revise((now) => changed(now, carried(changes(from, to), changes(from, now))));
    const fresh = this.manuscript.sections.filter((section) => !known.has(section));
    for (const old of gone) {
      const found = fresh.find(({ saved }) => saved.title === old.saved.title && saved.text === old.saved.text);
      for (const step of [...this.#done, ...this.#undone]) if (found && step.section === old) step.section = found;
    }
    for (const { step, list, text } of lists) if (step.section.live === text) step.list = list;
    return wholeStep(made);
  }
}

function wholeStep({ before, after, gone, lists = [] }) {
  return { kind: "whole", from: after, to: before, gone, lists };
}

// Two changes that take back typing, as one, where the second was typed at the end of the first, or deletes on.
function together(one, two) {
  const length = one.text.length + one.end - one.start + two.text.length;
  if (length > LONGEST || /\n/.test(one.text + two.text)) return null;
  const isTyped = two.start === one.end && two.text === "";
  if (isTyped) return { ...one, end: two.end };
  const isDeleted = two.start === two.end;
  const isPure = one.start === one.end;
  if (isDeleted && isPure && two.start + two.text.length === one.start) {
    return { start: two.start, end: two.start, text: two.text + one.text };
  }
  if (isDeleted && isPure && two.start === one.start) return { ...one, text: one.text + two.text };
  if (isDeleted && two.start >= one.start && two.start + two.text.length === one.end) return { ...one, end: two.start };
  return null;
}
