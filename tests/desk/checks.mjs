// What the tests of the page share: what was tried, and ways to use the page as a writer does.

import fs from "node:fs";
import { pathToFileURL } from "node:url";
import { Browser as Chromium } from "./browser.mjs";
import { Firefox } from "./firefox.mjs";
import { Unable, pause } from "./pages.mjs";
import { WebKit } from "./webkit.mjs";

export const Browser = { firefox: Firefox, webkit: WebKit }[process.env.BROWSER] ?? Chromium;

let tried = 0;
let failed = 0;

export function check(name, holds, seen = "") {
  tried += 1;
  if (!holds) failed += 1;
  console.log(holds ? `ok: ${name}` : `FAILED: ${name}${seen === "" ? "" : `: ${JSON.stringify(seen)}`}`);
}

export function same(name, seen, wanted) {
  check(name, seen === wanted, { seen: String(seen).slice(0, 200), wanted: String(wanted).slice(0, 200) });
}

// Does a group of tests; one that stops counts as failed. With ONLY it does those whose names have that word.
export async function group(name, work) {
  if (!name.includes(process.env.ONLY ?? "")) return;
  const browser = new Browser();
  const tabs = [];
  const open = async (hash = "", { at, ...options } = {}, from = browser) => {
    const page = await from.open(at ? `${at}${hash}` : address(hash), options);
    tabs.push(page);
    return page;
  };
  try {
    await work(open, browser);
    const faults = tabs.flatMap((page) => page.faults);
    check(`${name}: no script fails`, faults.length === 0, faults);
  } catch (why) {
    if (why instanceof Unable) console.log(`not tried from here on: ${name}: ${why.message}`);
    else check(`${name} goes to its end`, false, String(why.stack ?? why));
  } finally {
    await browser.close();
    browser.forget();
  }
}

export function ended() {
  console.log(`${tried} tried, ${failed} failed`);
  return failed === 0 ? 0 : 1;
}

export function address(hash) {
  return `${pathToFileURL(process.env.DESK ?? "dist/desk.html")}${hash}`;
}

export function sample(name) {
  return fs.readFileSync(`samples/${name}`);
}

// A picture, where a folder for them is named.
export async function picture(page, name) {
  if (process.env.SHOTS) await page.shot(`${process.env.SHOTS}/${name}.png`);
}

export const TEXTS = "[...document.querySelectorAll('textarea')].map((area) => area.value)";
export const SAVED = "document.querySelector('.state')?.textContent === 'Saved'";
export const NOTICES = "document.querySelector('.notices').innerText";

// What the program prints of the manuscript that a tab shows.
export function arranged(page) {
  return page.value(`desk.then(async ({ shown: { manuscript } }) => new TextDecoder("utf-8", { ignoreBOM: true })
    .decode((await manuscript.does(["arrange", "manuscript.ms"])).output))`);
}

// Who wrote what of the manuscript that a tab shows, as `authors` prints it.
export function authors(page) {
  return page.value(`desk.then(async ({ shown: { manuscript } }) => new TextDecoder()
    .decode((await manuscript.does(["authors", "manuscript.ms"])).output))`);
}

export const WRITES = "document.activeElement.matches('textarea')";

// Goes to the list of manuscripts.
export async function list(page) {
  await page.until("document.querySelector('.home, .editor')");
  await page.value("location.hash = ''");
  await page.until("document.querySelector('.home')");
}

// Begins a manuscript with a section, as a writer does, and leaves the caret in its text.
export async function begin(page, name = "The quiet sea", title = "The sea") {
  await list(page);
  await page.pressButton("New manuscript");
  await page.until(WRITES);
  await page.pressButton("More");
  await page.until("document.querySelector('dialog[open]')");
  await page.value("document.querySelector('dialog input').select()");
  await page.type(name);
  await page.press("Enter");
  await page.until(`document.title === ${JSON.stringify(name)}`);
  await page.value("document.querySelector('.title').focus()");
  await page.type(title);
  await page.press("Enter");
  await page.until(WRITES);
  await saved(page);
}

export async function add(page, title) {
  const before = await page.value("document.querySelectorAll('.section').length");
  await page.pressButton("+ Section");
  await page.until(`document.querySelectorAll('.section').length === ${before + 1}`);
  await page.type(title);
  await page.press("Enter");
  await page.until(WRITES);
}

export async function saved(page) {
  await pause(60);
  await page.until(SAVED);
}

// Puts the caret, or a selection, into the text of a section.
export function select(page, number, start, end = start) {
  return page.value(`(() => {
    const area = document.querySelectorAll("textarea")[${number}];
    area.focus();
    area.setSelectionRange(...[${start}, ${end}].map((place) => (place < 0 ? area.value.length : place)));
  })()`);
}

export { pause };
