// The comments of a file: read by `remarks` and withdrawn by `withdraw`.

import { HOME } from "./manuscript.js";
import { placesOfClusters, withoutReturns } from "./difference.js";
import { remarksOf } from "./commands.js";

// Of each section, by its key, the comments on it: the passage as places of the text that is shown, the text and who
// made it. `sections` are those of the file as they are arranged, each with its key and its text.
export async function commentsIn(manuscript, bytes, sections) {
  const { output } = await manuscript.does(["remarks", HOME], { bytes });
  const found = new Map(sections.map(({ key }) => [key, []]));
  const places = new Map();
  const turns = new Map();
  for (const { place, first, count, author, body } of remarksOf(output)) {
    const { key, text } = sections[place - 1];
    if (!places.has(key)) places.set(key, placesOfClusters(text));
    const [start, end] = [first, first + count].map((cluster) => shownPlace(text, places.get(key)[cluster]));
    const turn = turns.get(`${author} ${body}`) ?? 0;
    turns.set(`${author} ${body}`, turn + 1);
    found.get(key).push({ key, start, end, body, author, turn });
  }
  return found;
}

// What withdraws a comment: the one of this author and text that stood at its turn.
export async function withdrawn(manuscript, note) {
  const { output } = await manuscript.does(["remarks", HOME]);
  const same = remarksOf(output).filter(({ author, body }) => author === note.author && body === note.body);
  const found = same[Math.min(note.turn, same.length - 1)];
  if (!found) throw new Error("This comment is not there any more.");
  return manuscript.does(["withdraw", HOME, found.number]);
}

function shownPlace(text, place) {
  return withoutReturns(text.slice(0, place)).length;
}
