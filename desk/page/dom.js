// Elements of the page, and questions to its reader.

export function element(tag, properties = {}, ...children) {
  const made = document.createElement(tag);
  for (const [name, value] of Object.entries(properties)) {
    if (name in made) made[name] = value;
    else made.setAttribute(name, value);
  }
  made.append(...children);
  return made;
}

export function button(label, press, properties = {}) {
  return element("button", { type: "button", textContent: label, onclick: press, ...properties });
}

// Opens a dialog, and gives what `read` makes of it where it is agreed to, else null.
export function ask(title, children, { agree = "OK", refuse = "Cancel", isGrave = false, read = () => true } = {}) {
  const yes = element("button", { value: "yes", textContent: agree, className: isGrave ? "grave" : "main" });
  const no = element("button", { value: "no", type: "button", textContent: refuse });
  const form = element("form", { method: "dialog" }, element("h2", {}, ...withNames(title)), ...children);
  const dialog = element("dialog", { "aria-label": title }, form);
  form.append(element("div", { className: "row end" }, ...(refuse ? [no] : []), yes));
  no.onclick = () => dialog.close("no");
  return opened(dialog).then((answer) => (answer === "yes" ? read() : null));
}

export function tell(title, ...lines) {
  return ask(title, lines.map(paragraph), { refuse: "" });
}

export function paragraph(line, properties = {}) {
  return typeof line === "string" ? element("p", properties, ...withNames(line)) : line;
}

// A sentence whose names and titles, which stand between “ and ”, keep the direction of their own letters.
export function withNames(line) {
  return line.split(/(?<=“)(.*?)(?=”)/s).map((piece, at) => (at % 2 ? element("bdi", { textContent: piece }) : piece));
}

// Gives a field the focus that it has. Where a dialog was closed with the mouse, Chromium gives the focus back, and
// not the caret: what is typed then reaches no field.
function regainCaret(field) {
  if (!field?.matches("textarea, input")) return;
  field.blur();
  field.focus({ preventScroll: true });
}

// Shows a dialog until it is closed; it is then gone, and the focus is where it was.
export function opened(dialog) {
  document.body.append(dialog);
  dialog.showModal();
  // The caret is there again before the next key.
  dialog.addEventListener("submit", (event) => {
    if (event.defaultPrevented || event.target.method !== "dialog") return;
    event.preventDefault();
    dialog.close(event.submitter?.value ?? "");
    regainCaret(document.activeElement);
  });
  return new Promise((done) => {
    dialog.addEventListener("close", () => {
      dialog.remove();
      regainCaret(document.activeElement);
      done(dialog.returnValue);
    });
  });
}

export function field(label, input, hint) {
  const parts = [element("span", { textContent: label }), input];
  if (hint) parts.push(element("small", { textContent: hint }));
  return element("label", { className: "field" }, ...parts);
}

// Lets the reader keep bytes as a file.
export function download(name, bytes, type = "application/octet-stream") {
  const address = URL.createObjectURL(new Blob([bytes], { type }));
  const link = element("a", { href: address, download: name });
  document.body.append(link);
  link.click();
  link.remove();
  setTimeout(() => URL.revokeObjectURL(address), 60000);
}

// The files that the reader chooses.
export function chosenFiles(accept) {
  const input = element("input", { type: "file", multiple: true, accept });
  return new Promise((done) => {
    input.onchange = () => done([...input.files]);
    input.oncancel = () => done([]);
    input.click();
  });
}

export async function bytesOf(file) {
  return new Uint8Array(await file.arrayBuffer());
}

export function grouped(number) {
  return number.toLocaleString("en");
}
