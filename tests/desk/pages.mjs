// What a page of each browser has: ways to ask it, to press its buttons, and to write. A browser's own page gives `value`,
// and one that is driven by WebDriver `act`.

export const pause = (time) => new Promise((done) => setTimeout(done, time));

export const ALT = 1;
export const CONTROL = 2;
export const SHIFT = 8;

// Told by a word that a browser has no way to do: the group of tests that needs it is left out there.
export class Unable extends Error {}

export class AnyPage {
  faults = [];

  // After how many milliseconds an answer is not waited for any more.
  get late() {
    return 15000;
  }

  // Waits until an expression holds.
  async until(expression, most = this.late) {
    for (const end = Date.now() + most; Date.now() < end; await pause(20)) {
      // What is asked while the page is loaded anew may not be answered.
      if (await Promise.race([this.value(expression).catch(() => false), pause(3000)])) return;
    }
    const shown = await this.value("document.body.innerText.slice(0, 600)").catch(String);
    throw new Error(`not seen within ${most} ms: ${expression}, but ${JSON.stringify(shown)}`);
  }

  // The middle of what a selector names, which is brought into sight.
  middle(selector) {
    return this.value(`(() => {
      const found = document.querySelector(${JSON.stringify(selector)});
      found.scrollIntoView({ block: "center" });
      const { x, y, width, height } = found.getBoundingClientRect();
      return { x: Math.round(x + width / 2), y: Math.round(y + height / 2) };
    })()`);
  }

  // Presses the button with these words, in the topmost dialog if there is one.
  async pressButton(words) {
    await this.value(`(() => {
      const room = [...document.querySelectorAll("dialog[open]")].at(-1) ?? document;
      const found = [...room.querySelectorAll("button")].find((each) => each.textContent === ${JSON.stringify(words)});
      if (!found) throw new Error("no button " + ${JSON.stringify(words)});
      found.click();
    })()`);
  }

  // Drops files on the page, as { name, bytes }.
  async drop(...files) {
    const texts = files.map(({ name, bytes }) => ({ name, text: Buffer.from(bytes).toString("base64") }));
    await this.value(`(() => {
      const dataTransfer = new DataTransfer();
      for (const { name, text } of ${JSON.stringify(texts)}) {
        const bytes = Uint8Array.from(atob(text), (letter) => letter.charCodeAt(0));
        dataTransfer.items.add(new File([bytes], name));
      }
      document.body.dispatchEvent(new DragEvent("drop", { dataTransfer, bubbles: true, cancelable: true }));
    })()`);
  }
}

// The keys that have no letter, as WebDriver writes them.
const KEYS = {
  Enter: "\uE007", Tab: "\uE004", Escape: "\uE00C", Backspace: "\uE003", ArrowLeft: "\uE012", ArrowUp: "\uE013",
  ArrowRight: "\uE014", ArrowDown: "\uE015", Home: "\uE011", End: "\uE010",
};

const HELD = [[SHIFT, "\uE008"], [CONTROL, "\uE009"], [ALT, "\uE00A"]];

// A page that is driven by WebDriver: `act` does its actions, `name` is the browser's.
export class DriverPage extends AnyPage {
  get late() {
    return 20000;
  }

  // It is tried in light colours.
  colours() {}

  keys(actions) {
    return this.act([{ type: "key", id: "keys", actions }]);
  }

  async type(text) {
    for (const letter of text) {
      const value = letter === "\n" ? KEYS.Enter : letter;
      await this.keys([{ type: "keyDown", value }, { type: "keyUp", value }]);
    }
  }

  async press(key, modifiers = 0) {
    const held = HELD.filter(([bit]) => modifiers & bit).map(([, value]) => value);
    const value = KEYS[key] ?? key;
    await this.keys([
      ...held.map((each) => ({ type: "keyDown", value: each })), { type: "keyDown", value }, { type: "keyUp", value },
      ...held.map((each) => ({ type: "keyUp", value: each })),
    ]);
  }

  // Pastes a text where the caret is. Without a clipboard, the page is told of a paste as the browser does, and what it
  // lets through is put in.
  paste(text) {
    return this.value(`(() => {
      const given = { inputType: "insertFromPaste", data: ${JSON.stringify(text)}, bubbles: true, cancelable: true };
      const goes = document.activeElement.dispatchEvent(new InputEvent("beforeinput", given));
      if (goes) document.execCommand("insertText", false, given.data);
    })()`);
  }

  // Puts in a text, as an input method does.
  insert(text) {
    return this.value(`document.execCommand("insertText", false, ${JSON.stringify(text)})`);
  }

  dropText() {
    throw new Unable(`${this.name} is not told to drop a text`);
  }

  drag() {
    throw new Unable(`${this.name} is not told to drag`);
  }

  async click(selector) {
    const place = await this.middle(selector);
    const press = ["pointerDown", "pointerUp"].map((type) => ({ type, button: 0 }));
    await this.act([{ type: "pointer", id: "mouse", actions: [{ type: "pointerMove", ...place }, ...press] }]);
  }
}
