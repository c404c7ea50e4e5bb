// Comments: made from a passage that is selected, and shown beside the text.

import { ask, button, element, field, paragraph } from "./dom.js";
import { clustersOf, movedPlace, changes, withoutReturns } from "./difference.js";
import { encoded } from "./commands.js";

const LONGEST_COMMENT = 1024;

export async function comment(editor, section) {
  const { area } = section;
  if (!area || area.selectionStart === area.selectionEnd) {
    editor.notice("Select the passage first, then press “Comment”.");
    return;
  }
  const input = element("input", { required: true, dir: "auto" });
  input.oninput = () => {
    const isTooLong = encoded(input.value).length > LONGEST_COMMENT;
    input.setCustomValidity(isTooLong ? "This comment is too long to be saved." : "");
  };
  const passage = section.live.slice(area.selectionStart, area.selectionEnd);
  const quote = element("blockquote", { textContent: shortened(passage), dir: "auto" });
  const body = [quote, field("Comment", input)];
  const asked = () => ask("Comment on a passage", body, { agree: "Comment", read: () => input.value });
  const text = await section.keepingSelection(asked);
  if (!text) return;
  await editor.manuscript.save();
  const { first, count } = selectedIn(section);
  if (count === 0) editor.notice("This passage is not saved yet, so it can't be commented on.");
  else await editor.manuscript.comment(section, first, count, text);
  section.focus();
}

// The characters of the saved text that are selected. The selection has moved with the text.
function selectedIn({ area, live, saved }) {
  const text = withoutReturns(saved.text);
  const own = changes(live, text);
  return clustersOf(text, movedPlace(area.selectionStart, own, true), movedPlace(area.selectionEnd, own));
}

function shortened(text) {
  const letters = [...text];
  return letters.length > 120 ? `${letters.slice(0, 120).join("")} …` : text;
}

export function showComments(section, editor) {
  section.notes.replaceChildren(...section.comments.map((note) => noteOf(section, note, editor)));
}

function noteOf(section, note, editor) {
  const { start, end, body, author } = note;
  const passage = section.live.slice(start, end);
  const find = () => section.select(note.start, note.end);
  const from = author ? signatureOf(author, editor) : "";
  const quote = passage
    ? button(`“${shortened(passage)}”`, find, { className: "quote", title: "Show the passage", dir: "auto" })
    : element("i", { textContent: "The passage was deleted." });
  const made = element("li", {}, quote, element("p", { textContent: body, dir: "auto" }), from);
  if (author) made.append(button("Withdraw", () => withdraw(editor, note)));
  return made;
}

function signatureOf(author, editor) {
  const textContent = editor.nameOf(author);
  return element("b", { className: `author by-${author}`, textContent, dir: "auto" });
}

async function withdraw(editor, note) {
  const lines = [paragraph(`This removes “${note.body}” here, and for the others once they take in your changes.`)];
  if (!(await ask("Withdraw this comment?", lines, { agree: "Withdraw", isGrave: true }))) return;
  await editor.attempt(() => editor.manuscript.withdraw(note));
}
