// Drives WebKitGTK's small browser by WebDriver, on a display of its own that nobody sees, with the words of browser.mjs.
// What WebDriver cannot do there is told by `Unable`: a group of tests that needs it is left out.

import { spawn } from "node:child_process";
import fs from "node:fs";
import os from "node:os";
import path from "node:path";
import { DriverPage, Unable, pause } from "./pages.mjs";

const ROOMS = ["webkit2gtk-4.1", "webkit2gtk-4.0", "webkitgtk-6.0"];

// The small browser lies among the libraries: /usr/lib/x86_64-linux-gnu/webkit2gtk-4.1/MiniBrowser, say.
function miniBrowser() {
  const folders = ["/usr/lib", "/usr/libexec", ...fs.readdirSync("/usr/lib").map((name) => `/usr/lib/${name}`)];
  const paths = folders.flatMap((folder) => ROOMS.map((room) => path.join(folder, room, "MiniBrowser")));
  return paths.find((file) => fs.existsSync(file));
}

// After how long an answer is not waited for any more.
const LATE = 120000;

const started = new Set();
process.on("exit", () => started.forEach((child) => child.kill("SIGKILL")));

function start(name, words, options) {
  const child = spawn(name, words, options);
  started.add(child);
  return child;
}

// The number of a display that nothing else uses.
async function display() {
  const child = start("Xvfb", ["-displayfd", "3", "-screen", "0", "1400x1000x24", "-nolisten", "tcp"],
    { stdio: ["ignore", "ignore", "ignore", "pipe"] });
  const number = await new Promise((done, failed) => {
    child.stdio[3].on("data", (data) => done(String(data).trim()));
    child.on("exit", () => failed(new Error("Xvfb ended")));
  });
  return { child, name: `:${number}` };
}

// Whether a text is an expression, and no statement.
function isExpression(text) {
  try {
    new Function(`return async () => (${text}\n)`);
    return true;
  } catch {
    return false;
  }
}

// Notes the faults of scripts, which WebDriver does not tell.
const NOTES_FAULTS = `if (!globalThis.seenFaults) {
  globalThis.seenFaults = [];
  addEventListener("error", ({ message }) => seenFaults.push(String(message)));
  addEventListener("unhandledrejection", ({ reason }) => seenFaults.push(String(reason)));
}`;

export class WebKit {
  #turn = Promise.resolve();
  #window;

  constructor(profile = fs.mkdtempSync(path.join(os.tmpdir(), "desk-webkit-"))) {
    this.profile = profile;
    this.ready = this.#connect();
  }

  async #connect() {
    this.display = await display();
    const env = { ...process.env, DISPLAY: this.display.name, HOME: this.profile, NO_AT_BRIDGE: "1", GDK_BACKEND: "x11",
      WEBKIT_DISABLE_COMPOSITING_MODE: "1", WEBKIT_DISABLE_DMABUF_RENDERER: "1", LIBGL_ALWAYS_SOFTWARE: "1" };
    for (let port = 20000 + Math.floor(Math.random() * 20000); !this.session; port += 1) {
      this.driver = start("WebKitWebDriver", [`--port=${port}`], { stdio: "ignore", env });
      this.address = `http://127.0.0.1:${port}`;
      await this.#begin();
    }
    await this.#post("timeouts", { script: 120000, pageLoad: 120000 });
    this.#window = await this.#call("GET", "window");
  }

  async #begin() {
    const options = { binary: miniBrowser(), args: ["--automation"] };
    const capabilities = { alwaysMatch: { "webkitgtk:browserOptions": options } };
    let why;
    for (let tries = 0; tries < 50 && this.driver.exitCode === null; tries += 1) {
      await pause(100);
      const told = await fetch(`${this.address}/session`, { method: "POST", body: JSON.stringify({ capabilities }) })
        .then((answer) => answer.json()).catch((fault) => ({ value: { message: String(fault) } }));
      this.session = told.value.sessionId;
      if (this.session) return;
      why = told.value.message;
    }
    if (this.driver.exitCode === null) throw new Error(`WebKit did not begin: ${why}`);
  }

  async #call(method, word, body) {
    const signal = AbortSignal.timeout(LATE);
    const asked = { method, signal, ...(body ? { body: JSON.stringify(body) } : {}) };
    const answer = await fetch(`${this.address}/session/${this.session}/${word}`, asked);
    const { value } = await answer.json();
    if (value?.error) throw new Error(`${value.error}: ${value.message}`);
    return value;
  }

  #post(word, body = {}) {
    return this.#call("POST", word, body);
  }

  // Asks something of one window. One question is answered after the other.
  ask(window, method, word, body) {
    const told = this.#turn.then(async () => {
      await this.ready;
      if (window && window !== this.#window) {
        await this.#post("window", { handle: window });
        this.#window = window;
      }
      return this.#call(method, word, body);
    });
    this.#turn = told.catch(() => {});
    return told;
  }

  send(method) {
    throw new Unable(`${method} is a word of Chromium`);
  }

  async open(address, { width = 1100, height = 760, isDark = false } = {}) {
    if (isDark) throw new Unable("WebKit is tried in light colours");
    const { handle } = await this.ask(undefined, "POST", "window/new", { type: "window" });
    const page = new WebKitPage(this, handle);
    await page.size(width, height);
    await page.go(address);
    return page;
  }

  async close() {
    await Promise.race([this.ready.then(() => this.#call("DELETE", "")).catch(() => {}), pause(3000)]);
    this.driver?.kill("SIGKILL");
    this.display?.child.kill("SIGKILL");
  }

  crash() {
    throw new Unable("what WebKit keeps is gone with a browser that is driven");
  }

  forget() {
    fs.rmSync(this.profile, { recursive: true, force: true, maxRetries: 5 });
  }
}

class WebKitPage extends DriverPage {
  name = "WebKit";

  // Its display has no graphics processor, and it is told not to use one: what a picture takes says nothing of others.
  isDrawnSlowly = true;

  constructor(browser, window) {
    super();
    Object.assign(this, { browser, window });
  }

  ask(method, word, body) {
    return this.browser.ask(this.window, method, word, body);
  }

  post(word, body = {}) {
    return this.ask("POST", word, body);
  }

  // Chromium's words that have one of WebDriver in their place.
  async send(method, params) {
    if (method !== "Input.insertText") throw new Unable(`${method} is a word of Chromium`);
    return this.insert(params.text);
  }

  async go(url) {
    await this.post("url", { url });
    await this.value(NOTES_FAULTS);
  }

  async reload() {
    await this.post("refresh");
    await this.value(NOTES_FAULTS);
  }

  // A window has a border and a line of buttons: it is made so much larger.
  async size(width, height) {
    const more = { width: 0, height: 0 };
    for (let tries = 0; tries < 4; tries += 1) {
      await this.post("window/rect", { width: width + more.width, height: height + more.height });
      await pause(100);
      const inner = await this.value("({ width: innerWidth, height: innerHeight })");
      if (inner.width === width && inner.height === height) return;
      more.width += width - inner.width;
      more.height += height - inner.height;
    }
    if (await this.value("innerWidth") !== width) throw new Unable(`no window of WebKit is ${width} pixels wide`);
  }

  async value(expression) {
    const does = isExpression(expression) ? `return (${expression}\n);` : expression;
    const script = `const done = arguments[0];
      (async () => { ${does} })().then(
        (value) => done(JSON.stringify({ value, faults: globalThis.seenFaults?.splice(0) })),
        (why) => done(JSON.stringify({ why: String(why?.stack ?? why) })));`;
    const { value, faults, why } = JSON.parse(await this.post("execute/async", { script, args: [] }));
    if (why) throw new Error(why);
    this.faults.push(...(faults ?? []));
    return value;
  }

  act(actions) {
    return this.post("actions", { actions });
  }

  // Each question goes to its own tab before it is asked.
  front() {}

  async shot(file) {
    const picture = await this.ask("GET", "screenshot");
    fs.writeFileSync(file.replace(/([^/]*)$/, "webkit_$1"), Buffer.from(picture, "base64"));
  }

  close() {
    return this.ask("DELETE", "window");
  }
}
