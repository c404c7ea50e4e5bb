// Earlier moments of a manuscript: versions, which have names, and what the page remembers. Each can be read, compared
// with what the manuscript says now, and restored.

import { ask, button, download, element, field, grouped, opened, paragraph } from "./dom.js";
import { encoded, faultOfTitle, partsOf, versionsOf } from "./commands.js";
import { counted } from "./told.js";

const LONGEST_NAME = 120;
const MOST_SAVES = 200;

export async function showHistory(editor) {
  const list = element("ul", { className: "versions" });
  const input = element("input", { required: true, dir: "auto" });
  const give = element("button", { textContent: "Save", className: "main" });
  const form = element("form", { className: "row" }, field("Name for the text as it is now", input), give);
  const leave = element("button", { textContent: "Close" });
  const close = element("form", { method: "dialog", className: "row end" }, leave);
  const hint = paragraph("Names belong to your file: other authors have their own. The other moments are remembered by " +
    "this browser.");
  const paper = element("div", { className: "scroll", tabIndex: 0 }, list);
  const dialog = element("dialog", { className: "wide", "aria-label": "Versions" },
    element("h2", { textContent: "Versions" }), form, hint, paper, close);
  const leaves = (work) => () => {
    dialog.close();
    return editor.attempt(work);
  };
  const fill = async () => {
    const moments = await knownMoments(editor.manuscript);
    list.replaceChildren(...moments.map((moment) => momentItem(moment, editor, leaves)));
    if (moments.length === 0) list.append(element("li", { textContent: "There is none yet." }));
    paper.replaceChildren(list, ...(await savesOf(editor, leaves)));
  };
  input.oninput = () => input.setCustomValidity(faultOfName(input.value));
  form.onsubmit = (event) => {
    event.preventDefault();
    editor.attempt(async () => {
      await editor.manuscript.name(input.value);
      input.value = "";
      await fill();
    });
  };
  await editor.attempt(fill);
  await opened(dialog);
}

function faultOfName(name) {
  return encoded(name).length > LONGEST_NAME ? "This name is too long." : faultOfTitle(name);
}

// The moments that have a name, and those that the page remembers, the last one first.
async function knownMoments(manuscript) {
  const all = [...versionsOf(await manuscript.versions()), ...(manuscript.record.remembered ?? [])];
  return all.sort((one, other) => other.count - one.count);
}

// What a save brought, in words: as “2 +11, -2, 1 notes”.
function saveInWords(about, editor) {
  return about.split(", ").map((piece) => piece.replace(/^(\d+) \+(\d+)$/, (_, author, count) =>
    `${editor.nameOf(Number(author))}: ${counted(count, "letter", "letters")}`)
    .replace(/^-(\d+)$/, (_, count) => `${grouped(Number(count))} deleted`)
    .replace(/^(\d+) sections$/, (_, count) => counted(count, "section", "sections"))
    .replace(/^(\d+) notes$/, (_, count) => counted(count, "note", "notes"))).join(", ");
}

// Each save that the file has, where the program tells them.
async function savesOf(editor, leaves) {
  const saves = (await editor.manuscript.moments()).slice(-MOST_SAVES).reverse();
  if (saves.length === 0) return [];
  const items = saves.map(({ count, about }) => momentItem({ count, why: saveInWords(about, editor) }, editor, leaves));
  const summary = element("summary", { textContent: "Each save" });
  return [element("details", {}, summary, element("ul", { className: "versions" }, ...items))];
}

function timeOf(at) {
  return new Date(at).toLocaleString([], { dateStyle: "medium", timeStyle: "short" });
}

function momentItem({ name, count, why, at }, editor, leaves) {
  const title = name ? element("b", { textContent: name, dir: "auto" }) : element("span", { textContent: why });
  const facts = `${at ? `${timeOf(at)}, ` : ""}after ${grouped(count)} changes`;
  const label = name ?? facts;
  const acts = element("div", { className: "row" },
    button("View", () => editor.attempt(() => view(label, count, editor))),
    button("Compare", () => editor.attempt(() => showChanges(editor, count, `Since “${label}”`))),
    button("Restore", leaves(() => restore(label, count, editor))));
  for (const act of acts.children) act.setAttribute("aria-label", `${act.textContent} “${label}”`);
  return element("li", {}, element("div", {}, title, " ", element("small", { textContent: facts })), acts);
}

async function view(name, count, editor) {
  const text = await editor.manuscript.past(count);
  const parts = partsOf(text).flatMap(({ title, text: body }) => [
    element("h3", { textContent: title, dir: "auto" }),
    element("div", { className: "read", textContent: body, dir: "auto" }),
  ]);
  if (parts.length === 0) parts.push(paragraph("Nothing was written then."));
  await showPaper(name, parts, button("Download", () => download(`${name}.txt`, encoded(text), "text/plain")));
}

async function showPaper(title, parts, ...acts) {
  const close = element("form", { method: "dialog", className: "row end" }, ...acts,
    element("button", { textContent: "Close", className: "main" }));
  const paper = element("div", { className: "scroll", tabIndex: 0 }, ...parts);
  const head = element("h2", { textContent: title, dir: "auto" });
  await opened(element("dialog", { className: "wide", "aria-label": title }, head, paper, close));
}

// Makes the text what it was. What came since then is deleted, and nothing is lost: it can be undone.
async function restore(name, count, editor) {
  const text = await editor.manuscript.past(count);
  const lines = [
    "The text becomes what it was then. What you and others wrote since then is deleted here, and for the others once " +
      "they take in your changes.",
    "You can undo it, and what the manuscript says now stays in this list.",
  ];
  if (!(await ask(`Restore “${name}”?`, lines.map(paragraph), { agree: "Restore" }))) return;
  await editor.manuscript.save();
  await editor.manuscript.remember(`Before “${name}” was restored`);
  editor.undo.did(await editor.manuscript.revise(() => text));
  editor.notice(`The text is again as it was in “${name}”.`, { actions: [editor.undoButton()] });
}

// What changed since a moment, as the program tells it: what is new has the colour of its author.
export async function showChanges(editor, count, title = "What came") {
  const parts = partsOf(await editor.manuscript.changesSince(count)).flatMap(({ title: head, text }) => [
    element("h3", { dir: "auto" }, ...marked(head, editor)),
    element("div", { className: "read", dir: "auto" }, ...marked(text, editor)),
  ]);
  if (parts.length === 0) parts.push(paragraph("Nothing changed since then."));
  await showPaper(title, parts);
}

const MARKS = /\{\+\+(?<fresh>.*?)\+\+\}(?:\{>>(?<author>\d+)<<\})?|\{--(?<gone>.*?)--\}|\{>>(?<note>[a-z]+)<<\}/gs;

// A text in CriticMarkup as elements.
function marked(text, editor) {
  const nodes = [];
  let at = 0;
  for (const { index, 0: mark, groups } of text.matchAll(MARKS)) {
    nodes.push(text.slice(at, index), elementOf(groups, editor));
    at = index + mark.length;
  }
  return [...nodes, text.slice(at)];
}

function elementOf({ fresh, author, gone, note }, editor) {
  if (gone !== undefined) return element("del", { textContent: gone });
  if (note !== undefined) return element("small", { textContent: `(${note})` });
  const title = author ? editor.nameOf(Number(author)) : "";
  return element("ins", { className: author ? `by by-${author}` : "", textContent: fresh, title });
}
