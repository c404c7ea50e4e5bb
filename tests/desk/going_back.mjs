// Undo and redo, earlier moments, and find and replace.

import { ALT, CONTROL, SHIFT } from "./pages.mjs";
import {
  NOTICES, SAVED, TEXTS, WRITES, add, arranged, begin, check, group, pause, picture, same, sample, saved, select,
} from "./checks.mjs";

const text = (page) => page.value("document.querySelector('textarea').value");

// Waits until the manuscript is saved and says this.
async function says(page, name, wanted) {
  for (let count = 0; count < 60 && (await arranged(page)) !== wanted; count += 1) await pause(100);
  same(name, await arranged(page), wanted);
}

async function undo(open) {
  const page = await open();
  await begin(page);
  await page.type("It was calm.");
  await pause(1100);
  await page.type(" Then it blew.");
  await saved(page);
  await page.press("z", CONTROL);
  same("undo takes back what was typed last", await text(page), "It was calm.");
  await page.press("z", CONTROL | SHIFT);
  same("and redo does it again", await text(page), "It was calm. Then it blew.");
  await page.press("z", CONTROL);
  await page.press("z", CONTROL);
  same("undo goes back step by step", await text(page), "");
  await page.press("y", CONTROL);
  await page.press("y", CONTROL);
  await saved(page);
  for (let count = 0; count < 4; count += 1) await page.press("Backspace");
  await page.press("z", CONTROL);
  same("what was deleted comes back", await text(page), "It was calm. Then it blew.");
  const caret = await page.value("document.activeElement.selectionStart");
  same("with the caret behind it", caret, 26);
  const whole = "# The sea\nIt was calm. Then it blew.\n";
  await says(page, "and all is saved", whole);
  await add(page, "The land");
  await page.type("Hills.");
  await saved(page);
  const both = `${whole}# The land\nHills.\n`;
  await page.press("ArrowUp", ALT | SHIFT);
  await page.until("document.querySelector('.title').value === 'The land'");
  await page.until(SAVED);
  await page.press("z", CONTROL);
  await says(page, "a move is undone", both);
  await page.value("document.querySelector('.do-drop').click()");
  await page.until("document.querySelectorAll('.section').length === 1");
  await page.until(SAVED);
  await picture(page, "deleted");
  await page.value("document.querySelector('.notice button').click()");
  await says(page, "a deletion is undone", both);
  await page.value("document.querySelector('.title').focus()");
  await page.value("document.querySelector('.title').select()");
  await page.type("The ocean");
  await saved(page);
  await page.press("z", CONTROL);
  await says(page, "a title is undone", both);
  await page.pressButton("Redo");
  await says(page, "and done again", both.replace("The sea", "The ocean"));
  await page.pressButton("Undo");
  await pause(200);
  await page.pressButton("+ Section");
  await page.until("document.querySelectorAll('.section').length === 3");
  await page.press("z", CONTROL);
  await page.until("document.querySelectorAll('.section').length === 2");
  await says(page, "a section that was begun is undone", both);
}

// Undo after text of others came in.
async function undoBesideOthers(open) {
  const page = await open();
  await begin(page);
  await page.type("It was calm.");
  await saved(page);
  const before = await arranged(page);
  await page.drop({ name: "two_authors.frames", bytes: sample("two_authors.frames") });
  await page.until(`/new changes/.test(${NOTICES})`);
  await page.until(SAVED);
  check("what came in can be seen", (await page.value(NOTICES)).includes("What came"));
  await page.pressButton("What came");
  await page.until("document.querySelector('dialog[open] ins')");
  await picture(page, "what_came");
  const came = await page.value("document.querySelector('dialog[open]').innerText");
  check("with all that is new, and nothing else", !came.includes("It was calm."), came);
  await page.pressButton("Close");
  const at = await page.value("[...document.querySelectorAll('.title')].findIndex(({ value }) => value === 'The sea')");
  await page.value(`document.querySelectorAll(".paper")[${at}].click()`);
  await page.value("document.activeElement.setSelectionRange(12, 12)");
  await page.type(" Then it blew.");
  await saved(page);
  await page.press("z", CONTROL);
  await saved(page);
  check("undo of typing goes on working", (await arranged(page)).includes("# The sea\nIt was calm.\n"));
  await page.press("z", CONTROL);
  await page.until("document.querySelector('dialog[open]')");
  const asked = await page.value("document.querySelector('dialog[open]').innerText");
  check("undo of what came in asks", /for the others/.test(asked), asked);
  await page.pressButton("Cancel");
  await pause(200);
  check("and may leave it", (await page.value("document.querySelectorAll('.section').length")) > 1);
  await page.press("z", CONTROL);
  await page.until("document.querySelector('dialog[open]')");
  await page.pressButton("Take it out");
  await says(page, "or take it out", before);
  await page.until(SAVED);
  await page.press("z", CONTROL | SHIFT);
  await page.until("document.querySelectorAll('.section').length > 1");
  check("and have it again", true);
}

async function moments(open) {
  const page = await open();
  await begin(page);
  await page.type("It was calm.");
  await page.pressButton("Versions");
  await page.until("document.querySelector('dialog[open] .versions li')");
  await page.value("document.querySelector('dialog[open] input').focus()");
  await page.type("first draft");
  await page.press("Enter");
  await page.until("document.querySelector('.versions b')");
  await page.press("Escape");
  await select(page, 0, 0, 2);
  await page.type("The sea");
  await saved(page);
  await page.pressButton("Versions");
  await page.until("document.querySelector('.versions b')");
  await picture(page, "versions");
  await page.pressButton("View");
  await page.until("document.querySelector('.read')");
  const read = await page.value("document.querySelector('.read').textContent");
  same("a version has the text of its time", read, "It was calm.");
  await picture(page, "version");
  await page.pressButton("Close");
  await page.pressButton("Compare");
  await page.until("document.querySelector('dialog[open] ins')");
  const marks = await page.value(`[...document.querySelectorAll("ins, del")].map((each) => each.outerHTML.slice(0, 4) +
    each.textContent).join()`);
  const isMarked = /^(<insThe sea ?,<delIt ?|<delIt ?,<insThe sea ?)$/.test(marks);
  check("it is compared with the text of now", isMarked, marks);
  await picture(page, "compared");
  await page.pressButton("Close");
  await page.pressButton("Restore");
  await page.until("document.querySelectorAll('dialog[open]').length === 1");
  await page.pressButton("Restore");
  await says(page, "and restored", "# The sea\nIt was calm.\n");
  await page.pressButton("Undo");
  await says(page, "which is undone", "# The sea\nThe sea was calm.\n");
}

async function finding(open) {
  const page = await open();
  await begin(page);
  await page.type("Sea, sea and seaweed.");
  await add(page, "The land");
  await page.type("No sea here.");
  await saved(page);
  await select(page, 0, 0);
  await page.press("f", CONTROL);
  await page.until("!document.querySelector('.finder').hidden");
  await page.type("sea");
  const told = () => page.value("document.querySelector('.told').textContent");
  same("all places are counted once", await told(), "1 of 4");
  same("and marked", await page.value("document.querySelectorAll('.found').length"), 4);
  await picture(page, "found");
  await page.value("document.querySelectorAll('.finder input[type=checkbox]')[0].click()");
  same("whole words alone", await told(), "1 of 3");
  const seen = [];
  for (let count = 0; count < 3; count += 1) {
    seen.push(await told());
    await page.press("Enter");
  }
  same("each is met once", seen.join(), "1 of 3,2 of 3,3 of 3");
  same("and then the first again", await told(), "1 of 3");
  await page.value("document.querySelectorAll('.finder input')[1].value = 'seas and sea'");
  await page.pressButton("Replace");
  same("what was put is not met again", await told(), "2 of 3");
  await select(page, 0, 0);
  await page.press("z", CONTROL);
  same("a replacement is undone", (await page.value(TEXTS)).join("|"), "Sea, sea and seaweed.|No sea here.");
  await page.value("document.querySelectorAll('.finder input')[1].value = 'lake'");
  await page.pressButton("Replace all");
  same("all are replaced", (await page.value(TEXTS)).join("|"), "lake, lake and seaweed.|No lake here.");
  same("and counted", await told(), "3 places were replaced.");
  await page.press("Escape");
  await page.until(WRITES);
  await page.press("z", CONTROL);
  same("in one step", (await page.value(TEXTS)).join("|"), "Sea, sea and seaweed.|No sea here.");
  await says(page, "which is saved", "# The sea\nSea, sea and seaweed.\n# The land\nNo sea here.\n");
  check("no mark is left", !(await page.value("document.querySelector('.found')")));
}

// A command that takes long can be stopped, and the next one is answered.
async function stopped(open) {
  const page = await open();
  await begin(page);
  await page.type("It was calm.");
  await saved(page);
  await page.value(`desk.then(({ program }) => {
    const { postMessage } = Worker.prototype;
    Worker.prototype.postMessage = function (asked) {
      if (!asked.words?.includes("move")) postMessage.call(this, asked);
    };
  })`);
  await add(page, "The land");
  await saved(page);
  await page.press("ArrowUp", ALT | SHIFT);
  await page.until(`/This takes long/.test(${NOTICES})`);
  await picture(page, "late");
  await page.pressButton("Stop it");
  await page.until(`/it was stopped/.test(${NOTICES})`);
  same("what takes long is told, and can be stopped", await arranged(page), "# The sea\nIt was calm.\n# The land\n\n");
}

export async function goingBack() {
  await group("undo", undo);
  await group("undo beside others", undoBesideOthers);
  await group("moments", moments);
  await group("find", finding);
  await group("what takes long", stopped);
}
