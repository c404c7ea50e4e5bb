// One author: typing, what the store keeps, input methods, drafts, sections, comments and versions.

import fs from "node:fs";
import path from "node:path";
import { ALT, CONTROL, SHIFT } from "./pages.mjs";
import {
  Browser, NOTICES, SAVED, TEXTS, WRITES, add, address, arranged, authors, begin, check, group, list, pause, picture,
  same, saved, select,
} from "./checks.mjs";

const TEXT = "It was calm.\n\nThen it blew.";

// One click, and the first letter is written.
async function firstLetter(open) {
  const page = await open();
  await page.until("document.querySelector('.home')");
  await page.click("button.main");
  await page.until(WRITES);
  check("a new manuscript asks nothing", !(await page.value("document.querySelector('dialog')")));
  await picture(page, "first_minute");
  await page.type("It was calm.");
  await saved(page);
  same("what is typed first is saved, untitled", await arranged(page), "# Untitled\nIt was calm.\n");
  same("as the title shows", await page.value("document.querySelector('.title').value"), "Untitled");
  await page.value("document.querySelector('.title').focus()");
  await page.type("The sea");
  await page.press("Enter");
  await saved(page);
  same("a title takes its place", await arranged(page), "# The sea\nIt was calm.\n");
  await page.click("nav[aria-label=Manuscript] > button:nth-last-of-type(2)");
  await page.until("document.querySelector('dialog[open] input')");
  await page.value("document.querySelector('dialog input').select()");
  await page.type("The quiet sea");
  await page.click("dialog[open] button.main");
  await page.type(" It blew.");
  await saved(page);
  same("what is typed after “Save” under “More” reaches the text", await arranged(page),
    "# The sea\nIt was calm. It blew.\n");
  await page.click(".add");
  await page.type("The land\nHills.");
  await saved(page);
  same("a section is begun by one click", await arranged(page),
    "# The sea\nIt was calm. It blew.\n# The land\nHills.\n");
  const again = await open();
  await again.until(`/calm/.test(${TEXTS})`);
  check("the page starts where one was", true);
  await list(again);
  await again.until("desk.then(async ({ store }) => !(await store.lastOpened()))");
  const third = await open();
  await third.until("document.querySelector('.shelf li')");
  check("which may be the list", true);
}

// The author number is drawn, and stays from the first letter on.
async function authorNumber(open) {
  const page = await open();
  await page.until("document.querySelector('.home')");
  await page.pressButton("New manuscript");
  await page.until(WRITES);
  const number = "document.querySelector('dialog[open] input[type=number]')";
  const replica = "desk.then(async ({ shown: { manuscript } }) => new DataView(manuscript.bytes.buffer).getUint32(5))";
  const asks = async () => {
    await page.pressButton("More");
    await page.until(number);
  };
  await asks();
  same("“More” shows the author number", await page.value(`Number(${number}.value)`), await page.value(replica));
  await picture(page, "more");
  await page.value(`${number}.value = 42`);
  await page.pressButton("Save");
  await page.until(`${replica}.then((known) => known === 42)`);
  check("which can be changed", true);
  await page.until(WRITES);
  check("and then one goes on writing", true);
  await page.type("It was calm.");
  await asks();
  check("until something is written", await page.value(`${number}.readOnly`));
  await page.pressButton("Cancel");
  same("which has that number", await authors(page), "1 42.0\n  42 12\n");
  await list(page);
  await page.pressButton("New manuscript");
  await page.until(`${WRITES} && document.title === 'Untitled 2'`);
  check("another one has another name and number", (await page.value(replica)) !== 42);
}

async function typing(open) {
  const page = await open();
  await page.until("document.querySelector('.home')");
  await picture(page, "first_start");
  await begin(page);
  await page.type(TEXT);
  await saved(page);
  same("what is typed is saved", await arranged(page), `# The sea\n${TEXT}\n`);
  await picture(page, "writing");
  await page.reload();
  await page.until("document.querySelector('textarea')");
  same("and is there after a reload", (await page.value(TEXTS))[0], TEXT);
  await select(page, 0, -1);
  await page.type(" Nobody minded.");
  await saved(page);
  await page.press("z", CONTROL);
  await saved(page);
  const undone = (await page.value(TEXTS))[0];
  check("undo takes back what was typed", undone.length < TEXT.length + 15 && undone.startsWith("It was"), undone);
  same("and is saved", await arranged(page), `# The sea\n${undone}\n`);
}

async function drafts(open, browser) {
  const page = await open();
  await begin(page);
  await page.type("It was calm.");
  await saved(page);
  await page.type(" Then it blew.");
  await pause(250);
  await browser.crash();
  const other = new Browser(browser.profile);
  try {
    const again = await open("", {}, other);
    await again.until(`/in its place again/.test(${NOTICES})`);
    await picture(again, "put_back");
    await saved(again);
    same("a draft is put back by itself", await arranged(again), "# The sea\nIt was calm. Then it blew.\n");
    await again.reload();
    await again.until("document.querySelector('textarea')");
    await pause(300);
    same("once", await again.value(NOTICES), "");
  } finally {
    await other.close();
  }
}

// A draft of a section that was changed meanwhile is offered.
async function oldDraft(open, browser) {
  const page = await open();
  await begin(page);
  await page.type("It was calm.");
  await saved(page);
  await page.type(" Then it blew.");
  await pause(250);
  await browser.crash();
  const other = new Browser(browser.profile);
  try {
    const first = await open("#two", {}, other);
    await first.value(`desk.then(async ({ store, program }) => {
      const [record] = await store.records();
      const files = [["a.ms", (await store.file(record.id)).bytes]];
      const input = new TextEncoder().encode("put 1 0 Listen. \\n");
      const bytes = (await program.does(["edit", "a.ms"], { files, input })).files.get("a.ms");
      await store.keep({ ...record, revision: record.revision + 1 }, { bytes });
    })`);
    const again = await open("", {}, other);
    await again.until("document.querySelector('.notice.draft')");
    await picture(again, "draft");
    await again.pressButton("Put it back");
    await again.until("!document.querySelector('.notice.draft')");
    await saved(again);
    same("a draft of a text that was changed is offered, and put back", await arranged(again),
      "# The sea\nListen. It was calm. Then it blew.\n");
  } finally {
    await other.close();
  }
}

// The browser is killed at several moments while text is typed and saved. At most the last moments are lost.
async function kills(open, browser) {
  const page = await open();
  await begin(page);
  let { profile } = browser;
  let from = browser;
  let tab = page;
  let wanted = "";
  for (const wait of [100, 700, 1050, 1150, 1300]) {
    await select(tab, 0, -1);
    await tab.type("Some words. ");
    wanted += "Some words. ";
    await pause(wait);
    await from.crash();
    if (from !== browser) await from.close();
    from = new Browser(profile);
    tab = await open("", {}, from);
    await tab.until("document.querySelector('textarea')");
    await tab.until(SAVED);
    await pause(600);
    if (await tab.value("!!document.querySelector('.notice.draft')")) {
      await tab.pressButton("Put it back");
      await tab.until("!document.querySelector('.notice.draft')");
      await saved(tab);
    }
    same(`nothing is lost by a kill ${wait} ms after the last key`, await arranged(tab), `# The sea\n${wanted}\n`);
  }
  await from.close();
}

async function methods(open) {
  const page = await open();
  await begin(page);
  await page.type("It was ");
  await page.send("Input.imeSetComposition", { text: "か", selectionStart: 1, selectionEnd: 1 });
  await pause(1400);
  same("nothing is saved while an input method composes", await arranged(page), "# The sea\n\n");
  await page.value("desk.then(({ shown }) => void shown.manuscript.save())");
  await page.send("Input.imeSetComposition", { text: "かん", selectionStart: 2, selectionEnd: 2 });
  await page.send("Input.insertText", { text: "凪" });
  await saved(page);
  same("what it wrote is saved", await arranged(page), "# The sea\nIt was 凪\n");
  await select(page, 0, 0, -1);
  await page.type("הים היה שקט.");
  await saved(page);
  same("text from right to left is saved", await arranged(page), "# The sea\nהים היה שקט.\n");
  const side = await page.value(`getComputedStyle(document.querySelector("textarea")).direction`);
  same("and has its direction", side, "rtl");
}

async function headings(open) {
  const page = await open();
  await begin(page);
  await page.type("One.\n# Two.");
  await pause(1400);
  check("a line that would be a title is reported", await page.value("!document.querySelector('.refusal').hidden"));
  same("it is not saved", await arranged(page), "# The sea\n\n");
  await picture(page, "refusal");
  await page.value("history.back()");
  await page.until("document.querySelector('.shelf a')");
  await page.value("document.querySelector('.shelf a').click()");
  await page.until(`document.querySelector('textarea').value.length > 3`);
  check("it is there when the manuscript is opened again", true);
  await page.reload();
  await page.until("document.querySelector('textarea')?.value.length > 3");
  same("and is kept as a draft", (await page.value(TEXTS))[0], "One.\n# Two.");
  await select(page, 0, 5);
  await page.type(">");
  await saved(page);
  same("with the line changed it is saved", await arranged(page), "# The sea\nOne.\n># Two.\n");
  await page.value("document.querySelector('.title').select()");
  await page.press("Backspace");
  await pause(1400);
  same("a section without a title keeps its title", await arranged(page), "# The sea\nOne.\n># Two.\n");
}

// Titles in what is pasted, and in files, become sections where that is agreed to.
async function titlesThatComeIn(open) {
  const page = await open();
  await page.until("document.querySelector('.home')");
  await page.pressButton("New manuscript");
  await page.until(WRITES);
  const count = "document.querySelectorAll('.section').length";
  const asked = "document.querySelector('dialog[open]')";
  await page.paste("# The sea\nIt was calm.\n# The land\nHills.\n");
  await page.until(asked);
  await picture(page, "titles_asked");
  await page.pressButton("Put it in");
  await page.until(`${count} === 2`);
  await saved(page);
  same("a text with titles begins a manuscript", await arranged(page), "# The sea\nIt was calm.\n# The land\nHills.\n");
  await select(page, 0, 6);
  await page.type("!");
  await page.paste("# Storm\nIt blew.");
  await page.until(asked);
  await pause(1500);
  const written = "# The sea\nIt was! calm.\n# The land\nHills.\n";
  same("until it is answered the rest is saved", await arranged(page), written);
  await page.pressButton("Cancel");
  await pause(100);
  same("and cancelled it changes nothing", (await page.value(TEXTS))[0], "It was! calm.");
  await select(page, 0, 7);
  await page.paste("# Storm\nIt blew.");
  await page.until(asked);
  await page.value(`${asked}.querySelector("input[value=text]").click()`);
  await page.pressButton("Put it in");
  await saved(page);
  const whole = "# The sea\nIt was! # Storm\nIt blew. calm.\n# The land\nHills.\n";
  same("it may stay text", await arranged(page), whole);
  await page.paste("\n# \nNothing.");
  await page.until(asked);
  check("a title that is refused is told", /needs a title/.test(await page.value(`${asked}.innerText`)));
  await page.pressButton("Cancel");
  await pause(100);
  await select(page, 0, 0);
  await page.paste("Before.\n# Storm\n");
  await page.until(asked);
  await page.pressButton("Put it in");
  await page.until(`${count} === 3`);
  await saved(page);
  const split = "# The sea\nBefore.\n# Storm\nIt was! # Storm\nIt blew. calm.\n# The land\nHills.\n";
  same("what stands behind it is in the last section", await arranged(page), split);
  await page.drop({ name: "End.md", bytes: Buffer.from("Late.\r\n# Epilogue\r\nDone.\r\n") });
  await page.until(asked);
  await page.pressButton("Take in");
  await page.until(`${count} === 5`);
  await saved(page);
  same("a text file comes in as sections", await arranged(page), `${split}# End\nLate.\n# Epilogue\nDone.\n`);
  await select(page, 4, -1);
  await page.type("\n# Notes");
  await page.until("document.querySelector('.refusal button')");
  await page.pressButton("Begin a section there");
  await page.until(`${count} === 6`);
  await saved(page);
  check("a title that is typed begins one too", (await arranged(page)).endsWith("# Epilogue\nDone.\n# Notes\n\n"));
  await list(page);
  await page.drop({ name: "Tale.txt", bytes: Buffer.from("It was calm.") });
  await page.until(`/calm/.test(${TEXTS})`);
  same("a text file begins a manuscript", await arranged(page), "# Tale\nIt was calm.\n");
}

// A text with titles that is dropped into another one comes in where it was dropped.
async function droppedTitles(open) {
  const page = await open();
  await begin(page);
  await page.type("It was calm.\nThen it blew.");
  await saved(page);
  const start = await page.value(`(() => {
    const { x, y } = document.querySelector("textarea").getBoundingClientRect();
    return { x: x + 1, y: y + 12 };
  })()`);
  await page.dropText(start, "# Storm\nIt rained.\n");
  await page.until("document.querySelector('dialog[open]')");
  await page.pressButton("Put it in");
  await page.until("document.querySelectorAll('.section').length === 2");
  await saved(page);
  const wanted = "# The sea\n\n# Storm\nIt rained.\nIt was calm.\nThen it blew.\n";
  same("a text with titles is dropped into another", await arranged(page), wanted);
}

async function sections(open) {
  const page = await open();
  await begin(page);
  await page.type("It was calm.");
  await add(page, "The land");
  await page.type("Hills, mostly.");
  await saved(page);
  await page.press("ArrowUp", ALT | SHIFT);
  await page.until("document.querySelector('.title').value === 'The land'");
  same("a section is moved by keys", await arranged(page), "# The land\nHills, mostly.\n# The sea\nIt was calm.\n");
  await page.value("(() => { const title = document.querySelector('.title'); title.focus(); title.select(); })()");
  await page.type("Ashore");
  await saved(page);
  same("and retitled in place", await arranged(page), "# Ashore\nHills, mostly.\n# The sea\nIt was calm.\n");
  await drag(page, 0, 1);
  await page.until("document.querySelector('.title').value === 'The sea'");
  same("and dragged", await arranged(page), "# The sea\nIt was calm.\n# Ashore\nHills, mostly.\n");
  await page.value("document.querySelectorAll('.do-drop')[1].click()");
  await page.until("document.querySelectorAll('.section').length === 1");
  await page.until(SAVED);
  same("a section is deleted", await arranged(page), "# The sea\nIt was calm.\n");
}

// Drags a section by its grip below another one.
async function drag(page, from, to) {
  const [grip, below] = await page.value(`(() => {
    const all = document.querySelectorAll(".section");
    const grip = all[${from}].querySelector(".grip").getBoundingClientRect();
    const target = all[${to}].getBoundingClientRect();
    return [{ x: grip.x + grip.width / 2, y: grip.y + grip.height / 2 }, { x: target.x + 99, y: target.bottom - 4 }];
  })()`);
  await page.drag(grip, below);
}

async function comments(open) {
  const page = await open();
  await begin(page);
  await page.type("A 😀 e\u0301 calm sea.");
  await saved(page);
  await select(page, 0, 8, 12);
  await page.press("m", ALT | SHIFT);
  await page.until("document.querySelector('dialog[open] blockquote')");
  const quote = await page.value("document.querySelector('blockquote').textContent");
  same("a comment is made from a selection", quote, "calm");
  await page.type("calm? quiet?");
  await page.press("Enter");
  await page.until("document.querySelector('.notes li')");
  const passage = "document.querySelector('.notes .quote')?.textContent";
  same("and stands beside its passage", await page.value(passage), "“calm”");
  await select(page, 0, 0);
  await page.type("Listen. ");
  await saved(page);
  await picture(page, "comments");
  await page.reload();
  await page.until("document.querySelector('.notes li')");
  same("with which it moves", await page.value(passage), "“calm”");
  await page.pressButton("Withdraw");
  await page.pressButton("Withdraw");
  await page.until("!document.querySelector('.notes li')");
  same("and it is withdrawn", await page.value(`desk.then(async ({ shown: { manuscript } }) =>
    (await manuscript.does(["comments", "manuscript.ms"])).output.length)`), 0);
}

// Scripts and comments count sections as they were made, and the page shows them as they were moved.
async function moved(open) {
  const page = await open();
  await begin(page, "The quiet sea", "One");
  await page.type("one one");
  await add(page, "Two");
  await page.type("two two");
  await add(page, "Three");
  await page.type("three three");
  await saved(page);
  await page.press("ArrowUp", ALT | SHIFT);
  await page.until("document.querySelector('.title').value === 'Three'");
  const isThere = await page.value("document.activeElement.value === 'three three'");
  check("the caret stays in a section that is moved", isThere);
  await select(page, 0, 6, 11);
  await page.press("m", ALT | SHIFT);
  await page.until("document.querySelector('dialog[open] blockquote')");
  await page.type("which?");
  await page.press("Enter");
  await page.until("document.querySelector('.notes li')");
  const passage = await page.value("document.querySelector('.section .notes .quote').textContent");
  same("a comment is on the section that was moved", passage, "“three”");
  await select(page, 0, 0);
  await page.type("At first ");
  await saved(page);
  await page.value("document.querySelector('.section .notes .quote').click()");
  const shown = await page.value(`(({ value, selectionStart: start, selectionEnd: end }) =>
    value.slice(start, end))(document.activeElement)`);
  same("its passage is found where it is now", shown, "three");
  await page.value("document.querySelectorAll('.do-drop')[1].click()");
  await page.until("document.querySelectorAll('.section').length === 2");
  same("and the section that is shown is deleted", await arranged(page), "# Three\nAt first three three\n# Two\ntwo two\n");
}

// Carriage returns, which a text area does not show, and a text with a line like a title.
async function odd(open) {
  const page = await open();
  await page.until("document.querySelector('.home')");
  const made = (script) => page.value(`desk.then(async ({ program, shelf }) => {
    const bytes = (await program.does(["new", "a.ms", 7, 100])).files.get("a.ms");
    const input = new TextEncoder().encode(${JSON.stringify(script)});
    const { files } = await program.does(["edit", "a.ms"], { files: [["a.ms", bytes]], input });
    const { id } = await shelf.keep({ name: "odd", replica: 7, bytes: files.get("a.ms") });
    location.hash = "#open=" + id;
  })`);
  await made("add 1 T\nput 1 0 one\r\\ntwo\rthree\n");
  await page.until("document.querySelector('textarea')");
  await select(page, 0, 4, 7);
  await page.type("2");
  await saved(page);
  same("carriage returns stay where nothing was written", await arranged(page), "# T\none\r\n2\rthree\n");
  await made("add 1 T\nput 1 0 # 😀 one\\n# two\nadd 1 U\nput 1 0 e\u0301\\n# x\n");
  await page.until(`/can be read, exchanged and downloaded here/.test(${NOTICES})`);
  check("a text with a title in it is read only", await page.value("document.querySelector('.title').readOnly"));
  same("with its sections", await page.value("document.querySelectorAll('.section').length"), 2);
  await page.pressButton("Put a space before it");
  await page.until("!document.querySelector('.title').readOnly");
  same("and can be mended", await arranged(page), "# U\ne\u0301\n # x\n# T\n # 😀 one\n # two\n");
  await select(page, 0, 0);
  await page.type("A");
  await saved(page);
  same("and written again", await arranged(page), "# U\nAe\u0301\n # x\n# T\n # 😀 one\n # two\n");
}

async function fullStore(open) {
  const page = await open();
  await begin(page);
  await page.type("It was calm.");
  await saved(page);
  await page.value(`(() => {
    globalThis.put = IDBObjectStore.prototype.put;
    IDBObjectStore.prototype.put = () => { throw new DOMException("full", "QuotaExceededError"); };
  })()`);
  await page.type(" Then it blew.");
  await page.until("document.querySelector('.state').textContent === 'Not saved'");
  await pause(1300);
  check("a full store is reported", /no room/.test(await page.value(NOTICES)));
  await picture(page, "full_store");
  same("and the text stays", (await page.value(TEXTS))[0], "It was calm. Then it blew.");
  await page.value("IDBObjectStore.prototype.put = globalThis.put");
  await page.pressButton("Try again");
  await saved(page);
  same("with room again it is saved", await arranged(page), "# The sea\nIt was calm. Then it blew.\n");
  check("and the notice is gone", !(await page.value(NOTICES)));
}

// A disk that is really full: SMALL_DISK is a folder on one of some 50 MB, with nothing else on it.
async function fullDisk() {
  const browser = new Browser(fs.mkdtempSync(path.join(process.env.SMALL_DISK, "profile-")));
  const page = await browser.open(address(""));
  await begin(page);
  await page.type("It was calm.");
  await saved(page);
  const name = path.join(process.env.SMALL_DISK, "fills");
  const file = fs.openSync(name, "w");
  try {
    for (;;) fs.writeSync(file, Buffer.alloc(65536));
  } catch {
    await page.type(" Then it blew.");
  }
  await page.until("document.querySelector('.state').textContent === 'Not saved'");
  await pause(1500);
  check("a full disk is reported", /still in this page/.test(await page.value(NOTICES)), await page.value(NOTICES));
  same("and the text stays in the page", (await page.value(TEXTS))[0], "It was calm. Then it blew.");
  fs.closeSync(file);
  fs.rmSync(name);
  await page.pressButton("Try again");
  await saved(page);
  same("with room on it again all is saved", await arranged(page), "# The sea\nIt was calm. Then it blew.\n");
  await browser.close();
  browser.forget();
}

export async function writing() {
  await group("the first letter", firstLetter);
  await group("author number", authorNumber);
  await group("typing", typing);
  await group("drafts", drafts);
  await group("an old draft", oldDraft);
  await group("kills", kills);
  await group("input methods", methods);
  await group("headings in a text", headings);
  await group("titles that come in", titlesThatComeIn);
  await group("titles that are dropped", droppedTitles);
  await group("sections", sections);
  await group("comments", comments);
  await group("sections that were moved", moved);
  await group("odd texts", odd);
  await group("a full store", fullStore);
  if (process.env.SMALL_DISK) await group("a full disk", fullDisk);
}

