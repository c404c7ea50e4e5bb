// Text from outside that has titles, which become sections: pasted, dropped into a text, or in a file.

import { ask, element, paragraph } from "./dom.js";
import { decoded, faultOfTitles, partsOf } from "./commands.js";
import { withoutReturns } from "./difference.js";

const TEXT_FILE = /\.(md|markdown|txt)$/i;

export function isTextFile(name) {
  return TEXT_FILE.test(name);
}

// The name of a text file, without what tells its kind.
export function nameOfText(name) {
  return name.replace(TEXT_FILE, "");
}

// The sections of a text file. What stands before its first title is a section with the name of the file.
export function sectionsOfText(bytes, name) {
  const text = withoutReturns(decoded(bytes)).replace(/^\ufeff/, "").replace(/\n?$/, "\n");
  const whole = text.startsWith("# ") ? text : `# ${nameOfText(name)}\n${text}`;
  const fault = faultOfTitles(whole);
  if (fault) throw new Error(`“${name}” was not taken in. ${fault}`);
  return partsOf(whole);
}

// Takes the sections of a text file in after a section, or at the end, where that is agreed to.
export async function takeInText(editor, bytes, name, section) {
  const parts = sectionsOfText(bytes, name);
  const { known } = editor.manuscript;
  const behind = known.includes(section) ? section : known.at(-1);
  const count = parts.length === 1 ? "one section" : `${parts.length} sections`;
  const where = behind ? `, after “${behind.title.value}”` : "";
  const lines = [paragraph(`Its text comes in as ${count}${where}.`)];
  if (!(await ask(`Take in “${name}”?`, lines, { agree: "Take in" }))) return;
  editor.undo.did(await editor.manuscript.insert(parts, behind));
  editor.notice(`“${name}”: ${count} came in.`);
}

function choice(value, label, properties) {
  const input = element("input", { type: "radio", name: "titles", value, required: true, ...properties });
  return element("label", { className: "choice" }, input, label);
}

// Asks what becomes of a text with titles that is pasted into a section. Until then it is not part of the section.
export async function putInText(editor, section, given) {
  const text = withoutReturns(given);
  const fault = faultOfTitles(text);
  const sections = choice("sections", "Each of these lines begins a section.", { checked: !fault, disabled: !!fault });
  const label = "All of it is text of this section, with a space before each “# ”.";
  const lines = choice("text", label, { checked: !!fault });
  const body = [
    paragraph("This text has lines that begin with “# ”, as titles do."),
    ...(fault ? [paragraph(fault, { className: "warning" })] : []), sections, lines,
  ];
  const read = () => (sections.firstChild.checked ? "sections" : "text");
  const asked = () => ask("Put this text in?", body, { agree: "Put it in", read });
  const answer = await section.keepingSelection(asked);
  if (answer) section.put(text, answer === "sections");
  if (answer === "sections") await editor.manuscript.save();
}
