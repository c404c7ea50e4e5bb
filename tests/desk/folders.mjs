// A folder that authors share. The browser's private folder stands in for one of the disk, since the window in which
// one is chosen can't be driven. A page from the disk has none, so these tests have the page from a server.

import fs from "node:fs";
import http from "node:http";
import {
  NOTICES, SAVED, TEXTS, WRITES, arranged, begin, check, group, list, pause, picture, same, saved, select,
} from "./checks.mjs";

// The folder that the page is given.
const CHOOSE = `globalThis.showDirectoryPicker = async () =>
  (await navigator.storage.getDirectory()).getDirectoryHandle("novel", { create: true })`;

// What the files of the folder are, but for those that the browser writes beside. Where one is replaced just now, all
// are read again.
const FILES = `showDirectoryPicker().then(async function read(folder) {
  const found = {};
  for await (const [name, entry] of folder.entries()) {
    if (name.endsWith(".crswap")) continue;
    const bytes = await entry.getFile().then((file) => file.arrayBuffer()).catch(() => null);
    if (!bytes) return read(folder);
    found[name] = [...new Uint8Array(bytes)];
  }
  return found;
})`;

// A browser that asks again before a page may write there.
const ASKS = `{
  let mayWrite = false;
  FileSystemHandle.prototype.queryPermission = async () => (mayWrite ? "granted" : "prompt");
  FileSystemHandle.prototype.requestPermission = async () => {
    mayWrite = true;
    return "granted";
  };
}`;

function put(page, name, bytes) {
  return page.value(`showDirectoryPicker().then(async (folder) => {
    const stream = await (await folder.getFileHandle(${JSON.stringify(name)}, { create: true })).createWritable();
    await stream.write(Uint8Array.from(${JSON.stringify([...bytes])}));
    await stream.close();
  })`);
}

// A tab in which a folder can be chosen.
async function opened(open) {
  const page = await open("", { at: `http://127.0.0.1:${server.address().port}/` });
  await page.until("document.querySelector('.home, .editor')");
  await page.send("Page.addScriptToEvaluateOnNewDocument", { source: CHOOSE });
  await page.reload();
  return page;
}

async function authorOf(open, title, words) {
  const page = await opened(open);
  await begin(page, title, "The sea");
  await page.type(words);
  await saved(page);
  return page;
}

async function connect(page, wanted = "in the folder “novel”") {
  await page.pressButton("Exchange");
  await page.until("document.querySelector('dialog[open]')");
  await page.pressButton("Choose a folder …");
  await page.until(`document.querySelector(".place").innerText.includes(${JSON.stringify(wanted)})`);
}

const BYTES = "desk.then(({ shown: { manuscript } }) => [...manuscript.bytes])";
const NUMBER = "desk.then(({ shown: { manuscript } }) => manuscript.record.replica)";

async function shared(open) {
  const page = await authorOf(open, "Hers", "It was calm.");
  await connect(page);
  await picture(page, "folder");
  const own = `${await page.value(NUMBER)}.ms`;
  const files = await page.value(FILES);
  same("the file is put into the folder", Object.keys(files).join(), own);
  same("with its bytes", files[own].join(), (await page.value(BYTES)).join());
  await page.type(" Then it blew.");
  await saved(page);
  await page.until(`${FILES}.then(async (files) => files["${own}"].join() === (await ${BYTES}).join())`);
  check("as often as it is saved", true);
  const other = await opened(open);
  await list(other);
  await other.pressButton("Open a folder …");
  await other.until("document.querySelector('dialog[open] input[type=radio]')");
  await picture(other, "open_folder");
  await other.value("document.querySelector('dialog[open] input[value=new]').click()");
  await other.pressButton("Begin");
  await other.until("document.querySelector('textarea')?.value.length > 0");
  same("another author begins from the folder", await arranged(other), "# The sea\nIt was calm. Then it blew.\n");
  await other.until("document.querySelector('.state')?.textContent === 'Saved'");
  await select(other, 0, -1);
  await other.type(" Nobody minded.");
  await saved(other);
  await page.front();
  await page.until(`/Nobody minded/.test(${TEXTS})`, 25000);
  check("what one writes comes to the other by itself", true);
  const both = Object.keys(await page.value(FILES));
  same("each has a file there, and nothing else is", both.length, 2);
  await page.until(`/What came/.test(${NOTICES})`);
  await picture(page, "folder_came");
  await page.send("Page.addScriptToEvaluateOnNewDocument", { source: ASKS });
  await page.reload();
  await page.until("/The browser asks/.test(document.querySelector('.place')?.innerText)");
  await picture(page, "folder_asks");
  await page.pressButton("Go on with the folder");
  await page.until("/in the folder/.test(document.querySelector('.place').innerText)");
  check("the folder is known when the page is opened again", true);
  await ownFile(other, own);
}

// One's own file in a folder is opened once, and again where the browser lost what it kept.
async function ownFile(page, own) {
  const text = await arranged(page);
  const ids = "desk.then(async ({ store }) => (await store.records()).map(({ id }) => id).sort().join())";
  const open = async () => {
    await list(page);
    await page.pressButton("Open a folder …");
    await page.until("document.querySelector('dialog[open] input[type=radio]')");
    await page.value(`[...document.querySelectorAll("dialog[open] label")].find((label) =>
      label.textContent.includes(${JSON.stringify(own)})).querySelector("input").click()`);
    await page.pressButton("Begin");
    await page.until("document.querySelector('textarea')?.value.length > 0");
    await page.until(SAVED);
  };
  const before = await page.value(ids);
  await open();
  same("one's own file is not opened twice", await page.value(ids), before);
  await list(page);
  await page.value(`desk.then(async ({ store }) => {
    for (const { id } of await store.records()) await store.remove(id);
  })`);
  await open();
  same("and is there again where the browser lost it", await arranged(page), text);
  same("under its number", `${await page.value(NUMBER)}.ms`, own);
}

// What is wrong in a folder is said, and nothing is lost.
async function wrong(open) {
  const page = await authorOf(open, "Hers", "It was calm.");
  await put(page, "letter.ms", Buffer.from("Dear Ben,"));
  await put(page, "notes.txt", Buffer.from("Milk."));
  await connect(page);
  check("what is no manuscript is told", /“letter.ms”, in the folder/.test(await page.value(NOTICES)));
  const own = `${await page.value(NUMBER)}.ms`;
  const before = await page.value(BYTES);
  await page.type(" Then it blew.");
  await saved(page);
  const later = await page.value(BYTES);
  await pause(2500);
  const names = Object.keys(await page.value(FILES)).sort();
  same("other files stay", names.join(), [own, "letter.ms", "notes.txt"].sort().join());
  // A backup is opened on another machine, and the folder has more.
  await list(page);
  await page.drop({ name: "old.ms", bytes: Buffer.from(before) });
  await page.until("document.querySelector('dialog[open] input[value=own]')");
  await page.value("document.querySelector('dialog[open] input[value=own]').click()");
  await page.pressButton("Go on");
  await page.until(`${WRITES} || document.querySelector('textarea')`);
  await page.until(SAVED);
  await connect(page, "not in the folder");
  await page.until(`/it has your number/.test(${NOTICES})`);
  await picture(page, "folder_own");
  same("a file that has more is not written over", (await page.value(FILES))[own].join(), later.join());
  await page.pressButton("Take it in …");
  await page.until("document.querySelector('dialog[open]')");
  await page.pressButton("Take in");
  await page.until(`/Then it blew/.test(${TEXTS})`);
  await page.until("document.querySelector('.place').innerText.includes('in the folder “novel”')");
  check("and comes in where that is agreed to", true);
}

async function copies(open) {
  const page = await open();
  await begin(page);
  await page.type("It was calm.");
  await saved(page);
  await list(page);
  const shelf = () => page.value("document.querySelector('.shelf').innerText");
  await page.until("document.querySelector('.shelf li')");
  check("the shelf says that there is no copy", /No copy on the disk yet/.test(await shelf()));
  const told = await page.value("document.body.innerText");
  check("the answer of the browser is told", /browser (keeps|did not agree)/.test(told));
  await page.value(`desk.then(async ({ store, shown }) => {
    const [record] = await store.records();
    await store.keep({ ...record, made: record.made - 9 * 24 * 3600 * 1000 });
    await shown.fill();
  })`);
  check("and reminds", /Back it up/.test(await shelf()));
  await picture(page, "reminds");
  await page.pressButton("Back up");
  await page.until("/Last copy on the disk/.test(document.querySelector('.shelf').innerText)");
  check("a backup is told", !/Back it up/.test(await shelf()));
}

let server;

export async function folders() {
  server = http.createServer((asked, answer) => {
    answer.writeHead(200, { "Content-Type": "text/html; charset=utf-8" });
    answer.end(fs.readFileSync(process.env.DESK ?? "dist/desk.html"));
  });
  await new Promise((done) => server.listen(0, "127.0.0.1", done));
  await group("a shared folder", shared);
  await group("what is wrong in a folder", wrong);
  await group("copies", copies);
  server.close();
}
