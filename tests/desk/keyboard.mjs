// The page by keyboard alone, and the names that a screen reader is given.

import { SHIFT } from "./pages.mjs";
import { WRITES, add, arranged, begin, check, group, pause, picture, same, saved } from "./checks.mjs";

const FOCUSED = `(() => {
  const { activeElement: at, body } = document;
  return at === body ? "" : at.getAttribute("aria-label") ?? at.textContent;
})()`;

// Goes from one thing to the next until the one with these words has the focus.
async function goTo(page, words, modifiers = 0) {
  for (let count = 0; count < 40; count += 1) {
    await page.press("Tab", modifiers);
    if ((await page.value(FOCUSED)).includes(words)) return;
  }
  throw new Error(`${words} can't be reached by keys`);
}

async function byKeys(open) {
  const page = await open();
  await page.until("document.querySelector('.home')");
  await goTo(page, "New manuscript");
  await picture(page, "focus");
  await page.press("Enter");
  await page.until(WRITES);
  await page.type("It was calm.");
  await goTo(page, "Title of section 1", SHIFT);
  await page.type("The sea");
  await page.press("Enter");
  await page.until(WRITES);
  await saved(page);
  await goTo(page, "+ Section");
  await page.press("Enter");
  await page.type("The land");
  await page.press("Enter");
  await page.until("document.activeElement.matches('textarea') && document.querySelectorAll('.section').length === 2");
  await page.type("Hills.");
  await saved(page);
  await goTo(page, "Move up", SHIFT);
  await page.press("Enter");
  await page.until("document.querySelector('.title').value === 'The land'");
  same("a manuscript is written by keys alone", await arranged(page), "# The land\nHills.\n# The sea\nIt was calm.\n");
  await goTo(page, "Help", SHIFT);
  await page.press("Enter");
  await page.until("document.querySelector('dialog[open]')");
  await pause(100);
  await picture(page, "help");
  const help = await page.value("document.querySelector('dialog[open]').innerText");
  const isTold = /is proved/.test(help) && /Not proved, only tested/.test(help);
  check("the help says what is proved, and what is not", isTold);
  await page.press("Escape");
  await page.until("!document.querySelector('dialog[open]')");
  check("and the focus is where it was", (await page.value(FOCUSED)).includes("Help"));
}

// How many stops of the tabulator a section has, and what the tools show where.
async function tools(open) {
  const page = await open();
  await begin(page);
  await page.type("It was calm.");
  await add(page, "The land");
  await saved(page);
  await picture(page, "section");
  const stops = await page.value(`[...document.querySelectorAll(".section")].map((section) =>
    [...section.querySelectorAll("button")].filter(({ tabIndex, disabled }) => tabIndex === 0 && !disabled).length)`);
  same("a section has two stops for its tools", stops.join(), "2,2");
  const shown = await page.value(`[...document.querySelectorAll(".tools")].map((tools) =>
    getComputedStyle(tools).opacity)`);
  same("which are shown where one is", shown.join(), "0,1");
  await goTo(page, "Move up", SHIFT);
  await page.press("ArrowRight");
  check("arrows go along them", (await page.value(FOCUSED)).startsWith("Comment"), await page.value(FOCUSED));
}

// The outline beside the text: one stop, with arrows from title to title.
async function outline(open) {
  const page = await open();
  const shown = () => page.value("document.querySelector('.outline').checkVisibility()");
  await begin(page);
  await page.type("It was calm, and nobody’s ferry — none — went.");
  check("one section has no outline", !(await shown()));
  await add(page, "The land");
  await page.type("Hills. 山と海");
  await add(page, "The sky");
  await saved(page);
  const TOLD = "[...document.querySelectorAll('.outline button')].map((each) => each.ariaLabel).join('; ')";
  await pause(1000);
  same("titles and words", await page.value(TOLD), "The sea, 8 words; The sky, 0 words; The land, 4 words");
  same("and their sum", await page.value("document.querySelector('.outline p').textContent"), "12 words");
  const stops = await page.value(`[...document.querySelectorAll(".outline button")].filter(({ tabIndex }) =>
    tabIndex === 0).map(({ ariaCurrent, ariaLabel }) => ariaCurrent + " " + ariaLabel).join()`);
  same("the outline is one stop, where one is", stops, "true The sky, 0 words");
  await picture(page, "outline");
  await goTo(page, "The sea, 8 words", SHIFT);
  await page.press("ArrowDown");
  await page.press("ArrowDown");
  same("arrows go along it", await page.value(FOCUSED), "The land, 4 words");
  await page.press("Enter");
  await page.until("document.activeElement.matches('textarea')");
  same("and Enter into the text", await page.value("document.activeElement.value"), "Hills. 山と海");
  await page.size(899, 760);
  check("a narrow page has none", !(await shown()));
}

// The state and the notices are seen and announced wherever one is.
async function report(open) {
  const page = await open();
  await begin(page);
  await page.send("Input.insertText", { text: "It was calm.\n".repeat(400) });
  await saved(page);
  for (const [width, height] of [[1100, 760], [360, 740]]) {
    await page.size(width, height);
    await page.value("window.scrollTo(0, document.body.scrollHeight / 2)");
    await page.value("desk.then(({ shown }) => void shown.notice('Something came in.'))");
    await pause(200);
    const seen = await page.value(`["state", "notice"].map((name) => document.querySelector("." + name))
      .filter((each) => { const { top, bottom } = each.getBoundingClientRect(); return top >= 0 && bottom <= 400 &&
        each.closest("[role=status]"); }).length`);
    same(`the state and what came in are in sight, ${width} wide`, seen, 2);
    await picture(page, `report_${width}`);
    const wide = await page.value("document.documentElement.scrollWidth");
    check("and the page is no wider", wide <= width, wide);
  }
  await page.value("document.querySelector('.title').select()");
  await page.press("Backspace");
  const fault = await page.value("document.querySelector('.title').validationMessage");
  same("a title that is refused tells it in its field", fault, "A section needs a title.");
}

// The ratio of the brightness of two colours, as WCAG 2 defines it.
const CONTRAST = `(one, other) => {
  const part = (value) => (value <= 0.03928 ? value / 12.92 : ((value + 0.055) / 1.055) ** 2.4);
  const bright = (colour) => colour.match(/[\\d.]+/g).slice(0, 3).map((value) => part(value / 255))
    .reduce((sum, value, at) => sum + value * [0.2126, 0.7152, 0.0722][at], 0.05);
  const ratio = bright(one) / bright(other);
  return Math.max(ratio, 1 / ratio);
}`;

// Texts and edges stand out from what is behind them, by day and by night.
async function contrast(open) {
  for (const isDark of [false, true]) {
    const page = await open("", { isDark });
    await begin(page);
    const seen = await page.value(`(() => {
      const contrast = ${CONTRAST};
      const style = (name) => getComputedStyle(document.querySelector(name));
      const [paper, desk] = [style(".section").backgroundColor, style("body").backgroundColor];
      const dots = Array.from({ length: 36 }, (_, at) => {
        const dot = document.createElement("b");
        dot.style.color = "hsl(" + at * 10 + " 65% var(--author))";
        document.body.append(dot);
        const { color } = getComputedStyle(dot);
        dot.remove();
        return color;
      });
      const edges = [style("button").borderTopColor, style(".section").borderTopColor, ...dots];
      const texts = [style("body").color, style(".state").color, style("a").color];
      const least = (list) => Math.min(...list.flatMap((each) => [contrast(each, paper), contrast(each, desk)]));
      return { edges: least(edges), texts: least(texts) };
    })()`);
    check(`edges and colours stand out, ${isDark ? "dark" : "light"}`, seen.edges >= 3, seen);
    check("and texts do", seen.texts >= 4.5, seen);
    await picture(page, isDark ? "section_dark" : "section_light");
  }
}

// Names and titles keep their own direction within a sentence.
async function directions(open) {
  const page = await open();
  await begin(page, "The quiet sea", "הים");
  await page.value("document.querySelector('.do-drop').click()");
  await page.until("document.querySelector('.notice bdi')");
  const name = await page.value("document.querySelector('.notice bdi').textContent");
  same("a title in a sentence stands apart", name, "הים");
}

// Each thing that can be used has a name.
async function names(open) {
  for (const hash of ["", "#two"]) {
    const page = await open(hash);
    await page.until("document.querySelector('button')");
    await pause(400);
    const nameless = await page.value(`[...document.querySelectorAll("button, input, textarea, a")].filter((each) =>
      !(each.textContent || each.getAttribute("aria-label") || each.closest("label")?.textContent)).length`);
    same(`all of ${hash || "the list"} has names`, nameless, 0);
    const outside = await page.value(`[...document.querySelectorAll("[src], link, [href]")].filter((each) =>
      /^(https?:|\\/\\/)/.test(each.getAttribute("src") ?? each.getAttribute("href") ?? "")).length`);
    same("and no part from outside", outside, 0);
  }
}

export async function keyboard() {
  await group("by keyboard", byKeys);
  await group("tools", tools);
  await group("outline", outline);
  await group("reports", report);
  await group("contrast", contrast);
  await group("directions", directions);
  await group("names", names);
}
