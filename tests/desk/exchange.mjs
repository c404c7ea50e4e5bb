// Two authors and more: side by side, by files and streams, and in two tabs.

import fs from "node:fs";
import path from "node:path";
import { ALT, CONTROL, SHIFT } from "./pages.mjs";
import {
  NOTICES, SAVED, TEXTS, add, arranged, authors, begin, check, group, pause, picture, same, sample, saved, select,
} from "./checks.mjs";

const SAME = "document.querySelector('.same').dataset.same === 'true'";

async function sideBySide(open) {
  const page = await open("#two");
  await page.until("document.querySelectorAll('textarea').length === 2");
  await page.value("document.getElementById('together').click()");
  const [one, other] = [" Then it blew, and all took their sails in.", " Nobody minded: they were ashore."];
  await select(page, 0, -1);
  await page.type(one);
  await select(page, 1, -1);
  await page.type(other);
  await pause(700);
  const apart = await page.value(TEXTS);
  same("apart, one reads what one wrote", apart[0], `It was calm.${one}`);
  same("and the other too", apart[1], `It was calm.${other}`);
  await picture(page, "two_apart");
  await page.value("document.getElementById('together').click()");
  await page.until(SAME);
  await pause(600);
  const [left, right] = await page.value(TEXTS);
  same("together, both read the same", left, right);
  const orders = [`It was calm.${one}${other}`, `It was calm.${other}${one}`];
  check("and each passage is whole", orders.includes(left), left);
  await picture(page, "two_together");
}

// Both write at once, each a letter in turn, while what the other wrote comes in.
async function atOnce(open) {
  const page = await open("#two");
  await page.until("document.querySelectorAll('textarea').length === 2");
  await page.until(SAME);
  const [one, other] = ["abcdefghijklmnopqrstuvwxyzabcdefghij", "ABCDEFGHIJKLMNOPQRSTUVWXYZABCDEFGHIJ"];
  await select(page, 0, 0);
  await select(page, 1, -1);
  const focus = (number) => page.value(`document.querySelectorAll("textarea")[${number}].focus()`);
  for (let at = 0; at < one.length; at += 1) {
    await focus(0);
    await page.type(one[at]);
    await focus(1);
    await page.type(other[at]);
    if (at % 6 === 5) await pause(320);
  }
  await pause(800);
  await page.until(SAME);
  const [left, right] = await page.value(TEXTS);
  same("what is typed while the other's text comes in is not lost", left, `${one}It was calm.${other}`);
  same("and both read it", right, left);
  const carets = await page.value("[...document.querySelectorAll('textarea')].map((area) => area.selectionStart)");
  same("each caret is where its author wrote last", carets.join(), [one.length, left.length].join());
}

// What an input method composes is not replaced by what comes in.
async function composing(open) {
  const page = await open("#two");
  await page.until("document.querySelectorAll('textarea').length === 2");
  await page.until(SAME);
  await select(page, 0, -1);
  await page.send("Input.imeSetComposition", { text: "か", selectionStart: 1, selectionEnd: 1 });
  await page.value(`(() => {
    const area = document.querySelectorAll("textarea")[1];
    area.setRangeText("Listen. ", 0, 0);
    area.dispatchEvent(new Event("input"));
  })()`);
  await pause(900);
  same("nothing comes in while an input method composes", (await page.value(TEXTS))[0], "It was calm.か");
  await page.send("Input.insertText", { text: "凪" });
  await pause(600);
  await page.until(SAME);
  same("and then it does", (await page.value(TEXTS))[0], "Listen. It was calm.凪");
}

async function samples(open) {
  const page = await open();
  await page.until("document.querySelector('.home')");
  await page.drop({ name: "all.frames", bytes: sample("oosterwick/all.frames") });
  await page.until("document.querySelector('dialog[open]')");
  await page.press("Enter");
  await page.until("document.querySelectorAll('.section').length > 1");
  await page.until("document.querySelector('.legend .author')");
  same("a stream begins a manuscript", await arranged(page), sample("oosterwick/manuscript.txt").toString());
  const shown = await page.value(`[...document.querySelectorAll(".section")].map((section) =>
    "# " + section.querySelector(".title").value + "\\n" + section.querySelector(".mirror").textContent).join("")`);
  same("which the page shows", shown, sample("oosterwick/manuscript.txt").toString());
  await picture(page, "oosterwick");
  await page.click(".legend summary");
  check("the list of who wrote what can be closed", !(await page.value("document.querySelector('.legend').open")));
  for (const [name, most, height] of [["on a phone", 360, 740], ["at 200 %", 550, 380]]) {
    await page.size(most, height);
    await pause(200);
    await picture(page, name === "on a phone" ? "phone" : "twice");
    const width = await page.value("document.documentElement.scrollWidth");
    check(`and shows ${name}, no wider than it is`, width <= most, width);
  }
  await page.size(1100, 760);
  await page.colours(true);
  await pause(200);
  await picture(page, "dark");
  await page.colours(false);

  await page.value("location.hash = ''");
  await page.until("document.querySelector('.shelf li')");
  await page.drop({ name: "version_1.ms", bytes: sample("version_1.ms") });
  await page.until("document.querySelector('dialog[open] input[type=radio]')");
  same("nobody's number is chosen before", await page.value("document.querySelectorAll('dialog input:checked').length"), 0);
  await page.press("Enter");
  await pause(300);
  check("and Enter adopts none", await page.value("!!document.querySelector('dialog[open] input[type=radio]')"));
  await page.value("document.querySelector('dialog[open] input[value=own]').click()");
  await page.pressButton("Go on");
  await page.until("document.querySelectorAll('.section').length > 0");
  const bytes = await page.value("desk.then(({ shown: { manuscript } }) => [...manuscript.bytes].join())");
  same("a file is imported with its bytes", bytes, [...sample("version_1.ms")].join());

  await page.value("location.hash = ''");
  await page.until("document.querySelectorAll('.shelf li').length === 2");
  await picture(page, "shelf");
  await page.drop({ name: "letter.doc", bytes: Buffer.from("Dear Ben,\n") });
  await page.until("document.querySelector('dialog[open]')");
  const told = await page.value("document.querySelector('dialog[open]').innerText");
  check("what is no manuscript is refused", /was not opened/.test(told) && /neither a manuscript/.test(told), told);
  await picture(page, "no_manuscript");
  await page.pressButton("OK");
  same("and nothing is made", await page.value("document.querySelectorAll('.shelf li').length"), 2);
}

const STREAMS = [
  "oosterwick/all.frames", "two_authors.frames", "vectors/dropped_counter.frames", "vectors/end.frames",
  "vectors/letters.frames", "vectors/stray_after_waiting.frames",
];

// No stream that the program takes is refused, and the page shows what the program prints.
const COLOURED = "[...document.querySelectorAll('.mirror .by')].map(({ textContent }) => textContent).join('|')";

// Colours stay on their letters, whatever is typed before them and wherever their section goes.
async function colours(open) {
  const page = await open();
  await begin(page);
  await page.drop({ name: "two_authors.frames", bytes: sample("two_authors.frames") });
  await page.until("document.querySelector('.mirror .by')");
  await page.until(SAVED);
  const coloured = await page.value(COLOURED);
  const at = await page.value(`[...document.querySelectorAll(".section")].findIndex((each) =>
    each.querySelector(".by"))`);
  await select(page, at, 0);
  await page.type("Here. ");
  await saved(page);
  same("colours stay on their letters", await page.value(COLOURED), coloured);
  await page.value("document.querySelector('.legend input').click()");
  same("and can be hidden", await page.value(COLOURED), "");
  await page.type("And here. ");
  await saved(page);
  await page.value("document.querySelector('.legend input').click()");
  same("and shown again", await page.value(COLOURED), coloured);
  await page.value(`desk.then(({ program }) => {
    const { run } = program;
    globalThis.asked = [];
    program.run = (words, given) => (asked.push(words[0]), run.call(program, words, given));
  })`);
  const isLast = await page.value(`${at} + 1 === document.querySelectorAll('.section').length`);
  await page.press(isLast ? "ArrowUp" : "ArrowDown", ALT | SHIFT);
  await page.until("asked.includes('move')");
  await page.until(SAVED);
  await pause(500);
  const words = (text) => text.split("|").sort().join("|");
  same("and go along with a section", words(await page.value(COLOURED)), words(coloured));
  check("for which nobody is asked who wrote what", !(await page.value("asked.includes('authors')")));
  await page.value("location.reload()");
  await pause(500);
  await page.until("document.querySelector('.mirror .by')");
  same("and are the same when it is opened again", words(await page.value(COLOURED)), words(coloured));
}

async function streams(open) {
  const page = await open();
  await page.until("document.querySelector('.home')");
  for (const name of STREAMS) {
    await page.value(`desk.then(async ({ shelf }) => {
      const from = Uint8Array.from(${JSON.stringify([...sample(name)])});
      location.hash = "#open=" + (await shelf.make({ name: ${JSON.stringify(name)}, replica: 99, from })).id;
    })`);
    await page.until(`document.title === ${JSON.stringify(name)}`);
    await page.until("document.querySelector('.state')?.textContent === 'Saved'");
    await pause(300);
    const shown = await page.value(`desk.then(({ shown: { manuscript } }) => manuscript.text)`);
    same(`${name} is shown`, shown, await arranged(page));
    check("and can be written", !(await page.value("document.querySelector('.title').readOnly")));
  }
}

async function files(open) {
  const page = await open();
  await begin(page);
  await page.type("It was calm.");
  await saved(page);
  await select(page, 0, 3);
  await page.drop({ name: "two_authors.frames", bytes: sample("two_authors.frames") });
  await page.until(`/new changes/.test(${NOTICES})`);
  check("a stream comes in", /“two_authors.frames”: [\d,]+ new changes came in/.test(await page.value(NOTICES)));
  const own = "[...document.querySelectorAll('.title')].some(({ value }) => value === 'The sea')";
  check("beside what was written", await page.value(own));
  await picture(page, "came_in");
  const before = await arranged(page);
  await page.drop({ name: "letter.doc", bytes: Buffer.from("Dear Ben,\n") });
  await page.until(`/neither a manuscript/.test(${NOTICES})`);
  check("no manuscript: refused, with the program's line", /bad frame at byte 0/.test(await page.value(NOTICES)));
  same("and changes nothing", await arranged(page), before);
}

// Changes that depend on missing ones, and some that fit nowhere.
async function waiting(open) {
  const page = await open();
  await begin(page);
  await page.drop({ name: "some.frames", bytes: sample("vectors/stray_after_waiting.frames") });
  await page.until(`/1 change waits/.test(${NOTICES}) && /1 change fits nowhere/.test(${NOTICES})`);
  check("what waits and what fits nowhere is reported", true);
  await picture(page, "waiting");
  await page.reload();
  await page.until(`/1 change waits/.test(${NOTICES})`);
  check("and that something waits when it is opened again", true);
}

// Gives what reads a file that the browser downloads.
async function downloads(browser) {
  const folder = fs.mkdtempSync(path.join(browser.profile, "downloads-"));
  await browser.send("Browser.setDownloadBehavior", { behavior: "allow", downloadPath: folder });
  return async (name) => {
    const file = path.join(folder, name);
    for (let count = 0; count < 100 && !fs.existsSync(file); count += 1) await pause(50);
    return fs.readFileSync(file);
  };
}

const FORMS = {
  md: "# The sea\nIt was <calm>.\n\nThen it blew.\n# The land\nHills.\n",
  txt: "The sea\n\nIt was <calm>.\n\nThen it blew.\n\nThe land\n\nHills.\n",
  html: '<article class="book"><h1 dir="auto">The quiet sea</h1><section><h2 dir="auto">The sea</h2>' +
    '<p dir="auto">It was &lt;calm&gt;.</p><p dir="auto">Then it blew.</p></section><section>' +
    '<h2 dir="auto">The land</h2><p dir="auto">Hills.</p></section></article>',
};

// The text for other programs, each at one press, and on paper.
async function takenOut(open, browser) {
  const page = await open();
  await begin(page);
  await page.type("It was <calm>.\n\nThen it blew.");
  await add(page, "The land");
  await page.type("Hills.");
  const read = await downloads(browser);
  for (const [form, wanted] of Object.entries(FORMS)) {
    await page.pressButton(`.${form}`);
    const text = (await read(`The quiet sea.${form}`)).toString();
    if (form !== "html") same(`the text as .${form}`, text, wanted);
    else check("the text as .html", text.startsWith("<!doctype html>") && text.includes(wanted), text);
  }
  await page.value("dispatchEvent(new Event('beforeprint'))");
  await page.send("Emulation.setEmulatedMedia", { media: "print" });
  same("on paper it has the manuscript's name, and no boxes and buttons", await page.value("document.body.innerText"),
    "The quiet sea\nThe sea\n\nIt was <calm>.\n\nThen it blew.\n\nThe land\n\nHills.");
  await picture(page, "print");
  await page.send("Emulation.setEmulatedMedia", { media: "" });
  await page.value("dispatchEvent(new Event('afterprint'))");
  check("and on the screen it is gone", !(await page.value("document.querySelector('.book')")));
}

// What is downloaded is the file, byte by byte, and another author takes it in.
async function download(open, browser) {
  const page = await open();
  await begin(page);
  await page.type("It was calm.");
  await saved(page);
  const read = await downloads(browser);
  await page.pressButton("Exchange");
  await page.until("document.querySelector('dialog[open]')");
  await page.pressButton("Download a backup");
  const bytes = await read("The quiet sea (backup).ms");
  const kept = await page.value("desk.then(({ shown: { manuscript } }) => [...manuscript.bytes])");
  same("a file is downloaded with its bytes", [...bytes].join(), kept.join());
  await page.pressButton("Close");
  await page.value("location.hash = ''");
  await page.until("document.querySelector('.shelf li')");
  await page.drop({ name: "hers.ms", bytes });
  await page.until("document.querySelector('dialog[open] input[value=other]')");
  check("a file that is here already is reported", /has this author number too/.test(
    await page.value("document.querySelector('dialog[open]').innerText")));
  await page.value("document.querySelector('dialog[open] input[value=other]').click()");
  await page.pressButton("Go on");
  await page.until("document.querySelector('dialog[open] input[type=number]')");
  await page.press("Enter");
  await page.until("document.querySelector('textarea')");
  same("another author begins from it", await arranged(page), "# The sea\nIt was calm.\n");
}

// Two copies of one file, both changed.
async function conflict(open) {
  const page = await open();
  await begin(page);
  await page.type("It was calm.");
  await saved(page);
  const copy = await page.value("desk.then(({ shown: { manuscript } }) => [...manuscript.bytes])");
  await page.type(" A");
  await saved(page);
  const mine = await arranged(page);
  await page.value("location.hash = ''");
  await page.until("document.querySelector('.shelf li')");
  await page.drop({ name: "copy.ms", bytes: Buffer.from(copy) });
  await page.until("document.querySelector('dialog[open] input[type=radio]')");
  await picture(page, "whose");
  await page.value("document.querySelector('dialog[open] input[value=own]').click()");
  await page.pressButton("Go on");
  await page.until("document.querySelector('textarea')");
  await page.until("document.querySelector('.state').textContent === 'Saved'");
  await select(page, 0, -1);
  await page.type(" B");
  await saved(page);
  const other = await page.value("desk.then(({ shown: { manuscript } }) => [...manuscript.bytes])");
  await page.value("history.back()");
  await page.until("document.querySelectorAll('.shelf li').length === 2");
  await page.value("[...document.querySelectorAll('.shelf a')].find((link) => link.textContent !== 'copy').click()");
  await page.until("document.querySelector('textarea')");
  await page.drop({ name: "copy.ms", bytes: Buffer.from(other) });
  await page.until("document.querySelector('dialog[open]')");
  check("a copy that was changed is asked about", /which is your number/.test(
    await page.value("document.querySelector('dialog[open]').innerText")));
  await page.pressButton("Take in");
  await page.until(`/Two copies of one file were changed/.test(${NOTICES})`);
  check("two copies that were both changed are reported", true);
  await picture(page, "conflict");
  same("and what one had stays", await arranged(page), mine);
}

// A second author's copy in another tab. Gives both tabs.
async function twoTabs(open) {
  const one = await open();
  await begin(one);
  await one.type("It was calm.");
  await saved(one);
  await one.pressButton("Exchange");
  await one.until("document.querySelector('dialog[open] .others li')");
  await picture(one, "exchange");
  await one.pressButton("Begin a copy for another author");
  await one.until("document.querySelector('dialog[open] input[type=number]')");
  await one.press("Enter");
  await one.until(`/of its own now/.test(${NOTICES})`);
  const id = await one.value(`desk.then(async ({ store, shown: { manuscript } }) =>
    (await store.records()).find(({ id }) => id !== manuscript.id).id)`);
  const other = await open(`#open=${id}`);
  await other.until("document.querySelector('textarea')");
  return [one, other];
}

async function tabs(open) {
  const [one, other] = await twoTabs(open);
  await select(other, 0, -1);
  await other.type(" Then it blew.");
  await one.until("document.querySelector('textarea').value === 'It was calm. Then it blew.'");
  check("what one tab saves comes into the other", true);
  await select(one, 0, 0);
  await one.type("Listen. ");
  await other.until("document.querySelector('textarea').value === 'Listen. It was calm. Then it blew.'");
  const caret = await other.value("document.querySelector('textarea').selectionStart");
  same("where the caret stays in the text", caret, "Listen. It was calm. Then it blew.".length);
  await other.press("z", CONTROL);
  const taken = await other.value("document.querySelector('textarea').value");
  same("and undo takes back what was typed there", taken, "Listen. It was calm.");
  await other.press("z", CONTROL | SHIFT);
  await saved(other);
  await one.until("document.querySelector('textarea').value === 'Listen. It was calm. Then it blew.'");
  const third = await open((await one.value("location.hash")));
  await third.until("document.querySelector('textarea')");
  await select(third, 0, -1);
  await third.type(" Nobody minded.");
  const all = "Listen. It was calm. Then it blew. Nobody minded.";
  for (const page of [one, other]) await page.until(`document.querySelector('textarea').value === '${all}'`);
  check("two tabs write one file", true);
}

// Where a browser has no locks, a save that another tab came before is done again.
async function withoutLocks(open) {
  const first = await open();
  await begin(first);
  await first.type("It was calm.");
  await saved(first);
  const pages = [];
  for (const hash of [0, 1].map(() => first.value("location.hash"))) {
    const page = await open("#two");
    const source = "Object.defineProperty(navigator, 'locks', { value: undefined })";
    await page.send("Page.addScriptToEvaluateOnNewDocument", { source });
    await page.value(`location.hash = ${JSON.stringify(await hash)}`);
    await page.reload();
    await page.until("document.querySelector('textarea')");
    pages.push(page);
  }
  for (let count = 0; count < 5; count += 1) {
    await select(pages[0], 0, 0);
    await pages[0].type("a");
    await select(pages[1], 0, -1);
    await pages[1].type("b");
    await pause(1000);
  }
  await pause(1500);
  for (const page of pages) await saved(page);
  const texts = [await arranged(pages[0]), await arranged(pages[1])];
  same("two tabs without locks write one file", texts[0], "# The sea\naaaaaIt was calm.bbbbb\n");
  same("and have the same", texts[1], texts[0]);
}

// One deletes the section in which the other writes.
async function deleted(open) {
  const [one, other] = await twoTabs(open);
  await add(one, "The land");
  await saved(one);
  await other.until("document.querySelectorAll('.section').length === 2");
  await select(other, 0, -1);
  await other.type("\n# Mine.");
  await other.until("document.querySelector('.state').textContent === 'Kept as a draft'");
  await one.value("document.querySelector('.do-drop').click()");
  await other.until(`/is a new section now/.test(${NOTICES})`);
  await saved(other);
  const kept = "# The sea\nIt was calm.\n # Mine.\n# The land\n\n";
  same("what is written in a section that another deletes is kept", await arranged(other), kept);
  await one.until("document.querySelectorAll('.section').length === 2");
  await pause(300);
  same("for both", await arranged(one), kept);
}

// Two manuscripts of one browser that began apart.
async function keptTogether(open) {
  const one = await open();
  await begin(one, "Hers", "The sea");
  await one.type("It was calm.");
  await saved(one);
  const other = await open();
  await begin(other, "His", "The land");
  await other.type("Hills, mostly.");
  await saved(other);
  await other.pressButton("Exchange");
  await other.until("document.querySelector('dialog[open] .others input')");
  await picture(other, "others");
  await other.value("document.querySelector('dialog[open] .others input').click()");
  await other.until("document.querySelectorAll('dialog[open]').length === 2");
  await other.pressButton("Cancel");
  await pause(300);
  const count = "document.querySelectorAll('.section').length";
  same("another manuscript comes in only where that is agreed to", await other.value(count), 1);
  await other.value("document.querySelector('dialog[open] .others input').click()");
  await other.until("document.querySelectorAll('dialog[open]').length === 2");
  await other.pressButton("Take in");
  await other.until(`${count} === 2`);
  await other.pressButton("Close");
  await select(other, 0, -1);
  await other.type(" Sheep.");
  // Which section is the first depends on the numbers of the authors.
  await one.until("[...document.querySelectorAll('textarea')].some(({ value }) => value.endsWith('. Sheep.'))");
  await pause(800);
  same("manuscripts that began apart are kept together", await arranged(one), await arranged(other));
}

// Random numbers that are the same in each run.
function numbers(seed) {
  let state = seed;
  return (most) => {
    state = (Math.imul(state, 1664525) + 1013904223) >>> 0;
    return Math.floor((state / 4294967296) * most);
  };
}

const WORDS = ["sea ", "calm, ", "wind ", "é", "🌊", "\n", "and ", "הים "];

async function act(page, random) {
  const sections = await page.value("document.querySelectorAll('.section').length");
  const kind = sections === 0 ? 99 : random(100);
  const at = random(Math.max(1, sections));
  if (kind < 75) {
    await page.value(`(() => {
      const section = document.querySelectorAll(".section")[${at}];
      section.querySelector(".paper").click();
      const area = section.querySelector("textarea");
      const place = Math.floor(area.value.length * ${random(1000) / 1000});
      const whole = /[\\udc00-\\udfff]/.test(area.value[place] ?? "") ? place + 1 : place;
      area.setSelectionRange(whole, whole);
    })()`);
    if (kind < 60) await page.send("Input.insertText", { text: WORDS[random(WORDS.length)] });
    else await page.press("Backspace");
  } else if (kind < 85) {
    await page.value(`desk.then(({ shown }) => shown.does(${random(2) ? "'up'" : "'down'"},
      shown.manuscript.sections[${at}])).then(() => {}, () => {})`);
  } else if (kind < 92) {
    await page.value(`(() => {
      const title = document.querySelectorAll(".title")[${at}];
      title.value = "Title " + ${random(100)};
      title.dispatchEvent(new Event("input"));
    })()`);
  } else if (kind < 95 && sections > 3) {
    await page.value(`desk.then(({ shown: { manuscript } }) =>
      manuscript.sections[${at}] && manuscript.drop(manuscript.sections[${at}])).then(() => {}, () => {})`);
  } else {
    await page.value(`desk.then(({ shown: { manuscript } }) =>
      manuscript.add("New ${random(100)}", manuscript.sections[${at}] ?? null)).then(() => {}, () => {})`);
  }
}

async function randomActions(open) {
  const pages = await twoTabs(open);
  const random = numbers(Number(process.env.SEED ?? 58));
  for (let count = 0; count < 200; count += 1) {
    await act(pages[random(2)], random);
    if (random(8) === 0) await pause(random(400));
  }
  for (let turn = 0; turn < 3; turn += 1) {
    for (const page of pages) await page.value("desk.then(({ shown: { manuscript } }) => manuscript.save())");
    await pause(700);
  }
  const still = `desk.then(({ shown: { manuscript, together } }) => !together.isBusy && !manuscript.unsaved.length)`;
  for (const page of pages) await page.until(still);
  const [one, other] = [await arranged(pages[0]), await arranged(pages[1])];
  same("200 random actions in two tabs end in equal bytes", one, other);
  check("of some length", one.length > 200, one.length);
  same("and in letters of the same authors", await authors(pages[0]), await authors(pages[1]));
  const shown = `desk.then(({ shown: { manuscript } }) => manuscript.sections.map(({ title, live }) =>
    "# " + title.value + "\\n" + live + "\\n").join(""))`;
  for (const page of pages) same("which the page shows", await page.value(shown), one);
  check("with no notice", !(await pages[0].value(NOTICES)).includes("program"), await pages[0].value(NOTICES));
}

export async function exchange() {
  await group("two authors side by side", sideBySide);
  await group("two who write at once", atOnce);
  await group("what comes in while one composes", composing);
  await group("samples", samples);
  await group("colours", colours);
  await group("streams", streams);
  await group("files", files);
  await group("download", download);
  await group("text taken out", takenOut);
  await group("what waits", waiting);
  await group("two copies", conflict);
  await group("two tabs", tabs);
  await group("kept together", keptTogether);
  await group("two tabs without locks", withoutLocks);
  await group("a section deleted by another", deleted);
  await group("random actions", randomActions);
}

