// The text under a text area, with colours. Each line is an element, and a change of the text touches the lines and the
// pieces in which it is, and no others: a browser lays out anew what changed.

import { element } from "./dom.js";
import { splice } from "./difference.js";

// A line of a text: its pieces, each with the classes of the marks that it is in.
class Line {
  constructor(pieces) {
    this.pieces = pieces;
    this.key = pieces.map(({ text, name }) => `${name}\u0000${text}`).join("\u0000");
  }

  made() {
    this.element = element("div", {}, ...this.pieces.map(nodeOf));
    return this.element;
  }

  // Makes of the element of another line this one's.
  takesOver(other) {
    this.element = other.element;
    const isSame = (one, two) => one.name === two.name && one.text === two.text;
    const [front, back] = common(other.pieces, this.pieces, isSame);
    const nodes = [...this.element.childNodes].slice(front, this.element.childNodes.length - back);
    const pieces = this.pieces.slice(front, this.pieces.length - back);
    const after = this.element.childNodes[this.element.childNodes.length - back] ?? null;
    if (nodes.length === pieces.length && nodes.every((node, at) => nameOf(node) === pieces[at].name)) {
      nodes.forEach((node, at) => replaceText(node.firstChild ?? node, pieces[at].text));
      return;
    }
    for (const node of nodes) node.remove();
    for (const piece of pieces) this.element.insertBefore(nodeOf(piece), after);
  }
}

function nodeOf({ text, name }) {
  return name ? element("span", { className: name, textContent: text }) : document.createTextNode(text);
}

function nameOf(node) {
  return node.className ?? "";
}

function replaceText(node, text) {
  const change = splice(node.data, text);
  if (change) node.replaceData(change.start, change.end - change.start, change.text);
}

// How many entries two lists have in common at their front, and behind that at their end.
function common(list, others, isSame) {
  const shorter = Math.min(list.length, others.length);
  let front = 0;
  while (front < shorter && isSame(list[front], others[front])) front += 1;
  let back = 0;
  while (back < shorter - front && isSame(list.at(-1 - back), others.at(-1 - back))) back += 1;
  return [front, back];
}

export class Mirror {
  lines = [];

  constructor() {
    this.element = element("div", { className: "mirror", dir: "auto" });
  }

  // Shows a text with marks. An empty text has no lines.
  show(text, marks) {
    const lines = text ? mirrorLines(text, marks) : [];
    const [front, back] = common(this.lines, lines, (one, other) => one.key === other.key);
    const old = this.lines.slice(front, this.lines.length - back);
    const fresh = lines.slice(front, lines.length - back);
    for (let at = 0; at < front; at += 1) lines[at].element = this.lines[at].element;
    for (let at = 1; at <= back; at += 1) lines.at(-at).element = this.lines.at(-at).element;
    const kept = Math.min(old.length, fresh.length);
    for (let at = 0; at < kept; at += 1) fresh[at].takesOver(old[at]);
    for (const line of old.slice(kept)) line.element.remove();
    const after = back ? lines.at(-back).element : null;
    const made = document.createDocumentFragment();
    for (const line of fresh.slice(kept)) made.append(line.made());
    this.element.insertBefore(made, after);
    this.lines = lines;
  }
}

// The lines of a text. The line end belongs to the line.
function mirrorLines(text, marks) {
  const edges = edgesOf(text, marks);
  const coming = [...marks].sort((one, other) => one.start - other.start);
  const lines = [];
  let [pieces, open, next] = [[], [], 0];
  for (let at = 0; at + 1 < edges.length; at += 1) {
    const [from, to] = [edges[at], edges[at + 1]];
    if (open.some(({ end }) => end <= from)) open = open.filter(({ end }) => end > from);
    while (next < coming.length && coming[next].start <= from) open.push(coming[next++]);
    pieces.push({ text: text.slice(from, to), name: open.map(({ name }) => name).join(" ") });
    if (text[to - 1] !== "\n") continue;
    lines.push(new Line(pieces));
    pieces = [];
  }
  return pieces.length ? [...lines, new Line(pieces)] : lines;
}

// Where a piece may begin or end: at the ends of lines and of marks.
function edgesOf(text, marks) {
  const edges = [0, text.length];
  for (let at = text.indexOf("\n"); at >= 0; at = text.indexOf("\n", at + 1)) edges.push(at + 1);
  for (const { start, end } of marks) edges.push(start, end);
  return [...new Set(edges)].sort((one, other) => one - other);
}
