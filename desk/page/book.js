// The manuscript as it is read elsewhere: as Markdown, plain text and HTML, and on paper.

import { download, element } from "./dom.js";
import { decoded, encoded, partsOf } from "./commands.js";

const STYLE = "body { max-width: 36rem; margin: 3rem auto; padding: 0 1rem; font: 1.1rem/1.6 Georgia, serif } " +
  "p { white-space: pre-wrap; overflow-wrap: break-word }";

// Each form has a type and makes its text of what `arrange` prints, which is Markdown already.
const FORMS = {
  md: { type: "text/markdown", made: (text) => text },
  txt: { type: "text/plain", made: (text) => partsOf(text).map(plain).join("\n") },
  html: { type: "text/html", made: (text, name) => pageOf(name, partsOf(text)) },
};

function plain({ title, text }) {
  return `${title}\n\n${text}\n`;
}

// A book of sections. A blank line ends a paragraph, and a line that ends otherwise ends there.
export function bookOf(name, parts) {
  const chapters = parts.map(({ title, text }) => element("section", {},
    element("h2", { textContent: title, dir: "auto" }),
    ...text.split(/\n{2,}/).filter(Boolean).map((lines) => element("p", { textContent: lines, dir: "auto" })),
  ));
  return element("article", { className: "book" }, element("h1", { textContent: name, dir: "auto" }), ...chapters);
}

function pageOf(name, parts) {
  const head = element("head", {}, element("meta", { charset: "utf-8" }), element("title", { textContent: name }),
    element("style", { textContent: STYLE }));
  const page = element("html", {}, head, element("body", {}, bookOf(name, parts)));
  return `<!doctype html>\n${page.outerHTML}\n`;
}

// What is saved, for the reader to keep in one of the forms.
async function give(editor, form) {
  const { manuscript, manuscript: { record: { name } } } = editor;
  await manuscript.save();
  const text = decoded((await manuscript.does(["arrange", "manuscript.ms"])).output);
  const { type, made } = FORMS[form];
  download(`${name}.${form}`, encoded(made(text, name)), type);
  if (manuscript.unsaved.length) editor.notice("What is not saved yet is not in this file.");
}

// The names of the forms, and what takes the manuscript out in each.
export function ways(editor) {
  const forms = Object.keys(FORMS).map((form) => [`.${form}`, () => editor.attempt(() => give(editor, form))]);
  return [...forms, ["Print", () => window.print()]];
}

// While the page is printed, it has a book of what is written.
export function printsBook(editor, signal) {
  let book;
  window.addEventListener("beforeprint", () => {
    const { record: { name }, sections } = editor.manuscript;
    book?.remove();
    book = bookOf(name, sections.map((section) => section.draft().live));
    editor.element.append(book);
  }, { signal });
  window.addEventListener("afterprint", () => book?.remove(), { signal });
}
