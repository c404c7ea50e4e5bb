// A manuscript of 1,000,000 letters: how long it takes to open, and a key press in it.

import { arranged, check, group, pause, picture, saved, select } from "./checks.mjs";

const LETTERS = 1000000;
const SECTIONS = 100;

const LETTERS_IN_TURNS = 100000;

const MOST_TO_OPEN = 2000;
const MOST_FOR_A_KEY = 50;

// A text area alone takes most of this.
const MOST_IN_ONE_LINE = 100;

// Makes a manuscript of so many sections in the page's store, and gives its address.
function made(page, sections) {
  return page.value(`desk.then(async ({ shelf, program, store }) => {
    const sentence = "The ferry went twice a day, once with the ebb and once against it, and nobody minded.\\n";
    const text = sentence.repeat(${LETTERS / sections}).slice(0, ${LETTERS / sections});
    const chapters = Array.from({ length: ${sections} }, (_, at) => "# Chapter " + (at + 1) + "\\n" + text + "\\n");
    const draft = chapters.join("");
    const record = await shelf.make({ name: "Large", replica: 7, circle: "large" });
    const files = [["a.ms", (await store.file(record.id)).bytes], ["b.txt", new Uint8Array(0)]];
    const input = new TextEncoder().encode(draft);
    const { files: written } = await program.does(["revise", "a.ms", "b.txt"], { files, input });
    const bytes = written.get("a.ms");
    await store.keep(record, { bytes, text: draft });
    globalThis.bytes = bytes;
    return "#open=" + record.id;
  })`);
}

// Brings the same file from outside, and tells how long that takes.
async function imported(page) {
  await page.value(`(() => {
    const dataTransfer = new DataTransfer();
    dataTransfer.items.add(new File([bytes], "large.ms"));
    globalThis.dropped = performance.now();
    document.body.dispatchEvent(new DragEvent("drop", { dataTransfer, bubbles: true, cancelable: true }));
  })()`);
  await page.until("document.querySelector('dialog[open]')");
  const read = await page.value("performance.now() - dropped");
  await page.value("document.querySelector('dialog[open] input[value=own]').click()");
  await page.value("globalThis.dropped = performance.now()");
  await page.pressButton("Go on");
  await page.until("document.querySelector('textarea')?.value.length > 0");
  const shown = await page.value("performance.now() - dropped");
  const used = `${Math.round(read)} ms to be read and ${Math.round(shown)} ms to be shown`;
  check(`from outside it takes ${used}`, shown <= MOST_TO_OPEN);
}

// Fewer and longer sections than most manuscripts have.
async function longSections(open) {
  const first = await open();
  await first.until("document.querySelector('.home')");
  for (const sections of [10, 5, 1]) {
    const { page, seen } = await opened(open, await made(first, sections));
    console.log(`note: ${sections} of ${LETTERS / sections} letters are there after ${seen} ms`);
    await pause(4000);
    await typed(page, `${sections} sections`);
  }
}

// Measures each key press from its event to the picture after it, in the page.
const WATCH = `(() => {
  globalThis.keys = [];
  document.addEventListener("keydown", ({ timeStamp }) => {
    requestAnimationFrame(() => {
      const { port1, port2 } = new MessageChannel();
      port1.onmessage = () => keys.push(performance.now() - timeStamp);
      port2.postMessage(0);
    });
  }, true);
})()`;

function median(numbers) {
  return [...numbers].sort((one, other) => one - other)[numbers.length >> 1];
}

async function opened(open, address) {
  const page = await open(address);
  await page.until("document.querySelector('textarea')?.value.length > 0");
  const seen = await page.value("performance.now()");
  await page.until("document.querySelector('.state').textContent === 'Saved'");
  return { page, seen: Math.round(seen) };
}

async function typed(page, name, most = MOST_FOR_A_KEY) {
  await page.value(WATCH);
  await select(page, 0, 5000);
  await pause(300);
  const text = "Here some words more are typed. ".repeat(3);
  for (const letter of text) {
    await page.type(letter);
    await pause(25);
  }
  await pause(200);
  const keys = await page.value("keys");
  const middle = median(keys).toFixed(1);
  const longest = Math.max(...keys).toFixed(1);
  const told = `${name}: a key press takes ${middle} ms, at most ${longest}`;
  if (page.isDrawnSlowly) console.log(`note: ${told}`);
  else check(told, median(keys) < most, keys);
  const late = keys.filter((time) => time >= most).length;
  console.log(`note: ${name}: ${late} of ${keys.length} took ${most} ms or more`);
  return text;
}

// A section that two authors wrote in turns of twenty letters. It has lines, or is one line.
function madeInTurns(page, hasLines) {
  return page.value(String.raw`desk.then(async ({ shelf, program, store }) => {
    const edit = async (bytes, script) => (await program.does(["edit", "a.ms"],
      { files: [["a.ms", bytes]], input: new TextEncoder().encode(script) })).files.get("a.ms");
    const merge = async (bytes, other) => (await program.does(["merge", "a.ms", "b.ms"],
      { files: [["a.ms", bytes], ["b.ms", other]] })).files.get("a.ms");
    const made = async (replica) => (await program.does(["new", "a.ms", replica, 10000])).files.get("a.ms");
    const turns = ${LETTERS_IN_TURNS / 40};
    const end = ${hasLines} ? "\\n" : " ";
    const words = Array.from({ length: turns }, (_, at) => "the ferry went out." + (at % 10 ? " " : end)).join("");
    const ann = await edit(await made(1), "add 1 Turns\nput 1 0 " + words + "\n");
    const puts = Array.from({ length: turns }, (_, at) => "put 1 " + (40 * at + 19) + " and twice it came in\n");
    const ben = await edit(await merge(await made(2), ann), puts.join(""));
    const record = await shelf.keep({ name: "Turns", replica: 1, bytes: await merge(ann, ben) });
    return "#open=" + record.id;
  })`);
}

async function turns(open) {
  const first = await open();
  await first.until("document.querySelector('.home')");
  for (const [name, hasLines] of [["in lines", true], ["in one line", false]]) {
    const page = await open(await madeInTurns(first, hasLines));
    const coloured = "document.querySelectorAll('.mirror .by').length > 2000";
    await page.until(hasLines ? coloured : "document.querySelector('.long')", 30000);
    await pause(2000);
    await typed(page, `two authors in turns, ${name}`, hasLines ? MOST_FOR_A_KEY : MOST_IN_ONE_LINE);
    await saved(page);
    await page.close();
  }
}

async function chapters(open) {
  const first = await open();
  await first.until("document.querySelector('.home')");
  const address = await made(first, SECTIONS);
  await imported(first);
  const { page, seen } = await opened(open, address);
  check(`1,000,000 letters are there after ${seen} ms`, seen <= MOST_TO_OPEN);
  await pause(3000);
  await picture(page, "large");
  const text = await typed(page, `${SECTIONS} sections`);
  const start = Date.now();
  await saved(page);
  console.log(`note: it was saved ${Date.now() - start} ms after the last key`);
  const after = await arranged(page);
  check("what was typed is saved", after.includes(text) && after.length > LETTERS + text.length);
  const used = await page.value("performance.memory?.usedJSHeapSize ?? 0");
  console.log(`note: the page uses ${Math.round(used / 1048576)} MiB`);
}

export async function large() {
  await group("a large file", chapters);
  await group("turns of two authors", turns);
  if (process.env.DESK_LONG) await group("long sections", longSections);
}

