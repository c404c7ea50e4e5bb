// The names of manuscripts and the numbers of authors: the fields in which they are given, and “More”, which shows
// those of a manuscript.

import { ask, element, field } from "./dom.js";

export const UNTITLED = "Untitled";

const MOST = 4294967295;

// A number that no other author has, but by a chance of one in billions.
export function drawnNumber() {
  return crypto.getRandomValues(new Uint32Array(1))[0] || 1;
}

// The first of “Untitled”, “Untitled 2”, ... that no manuscript has.
export function freeName(records) {
  const taken = new Set(records.map(({ name }) => name));
  for (let count = 1; ; count += 1) {
    const name = count === 1 ? UNTITLED : `${UNTITLED} ${count}`;
    if (!taken.has(name)) return name;
  }
}

export function nameInput(value) {
  return element("input", { value, required: true, maxLength: 120, dir: "auto" });
}

export function numberInput(value) {
  return element("input", { type: "number", min: 1, max: MOST, required: true, value });
}

// The name of a manuscript and its author's number, which can be changed as long as nothing is written.
export async function more(editor) {
  const { manuscript } = editor;
  await manuscript.save();
  const { record: { name, replica }, isBlank } = manuscript;
  const title = nameInput(name);
  const number = numberInput(replica);
  number.readOnly = !isBlank;
  const hint = isBlank
    ? "It was chosen at random. No other author of this manuscript may have it. It can be changed until you write."
    : "Every change that you make has this number, so it stays. On another machine you are another author, with " +
      "another number.";
  const body = [field("Name", title), field("Your author number", number, hint)];
  const read = () => ({ name: title.value, replica: Number(number.value) });
  const given = await ask("More", body, { agree: "Save", read });
  if (!given) return;
  editor.goOn();
  await editor.attempt(() => named(editor, given));
}

async function named(editor, { name, replica }) {
  const { manuscript } = editor;
  if (replica !== manuscript.record.replica) await manuscript.renumber(replica);
  if (name !== manuscript.record.name) await manuscript.keepRecord({ name });
  editor.showName();
}
