// Drives a headless Chromium by its remote debugging pipe: pages, keys, the mouse and pictures.

import { spawn } from "node:child_process";
import fs from "node:fs";
import os from "node:os";
import path from "node:path";
import { ALT, AnyPage, CONTROL, pause } from "./pages.mjs";

const NAMES = ["chromium", "chromium-browser", "google-chrome"];

export function chromium() {
  const folders = (process.env.PATH ?? "").split(":");
  const paths = folders.flatMap((folder) => NAMES.map((name) => path.join(folder, name)));
  return paths.find((file) => fs.existsSync(file));
}

// No browser outlives the tests.
const started = new Set();
process.on("exit", () => started.forEach((child) => child.kill("SIGKILL")));

export class Browser {
  #asked = new Map();
  #last = 0;
  #rest = "";
  #hearers = [];

  // Starts a browser. One with the profile of another one finds what that one kept.
  constructor(profile = fs.mkdtempSync(path.join(os.tmpdir(), "desk-"))) {
    this.profile = profile;
    const words = ["--headless=new", "--no-sandbox", "--disable-gpu", "--no-first-run", "--remote-debugging-pipe",
      "--window-size=1100,760", "--disable-background-timer-throttling", "--disable-renderer-backgrounding",
      "--disable-backgrounding-occluded-windows", `--user-data-dir=${profile}`, "about:blank"];
    this.child = spawn(chromium(), words, { stdio: ["ignore", "ignore", "ignore", "pipe", "pipe"] });
    this.child.stdio[4].on("data", (data) => this.#read(data));
    this.ended = new Promise((done) => this.child.on("exit", done));
    started.add(this.child);
  }

  #read(data) {
    const messages = (this.#rest + data).split("\0");
    this.#rest = messages.pop();
    for (const message of messages) this.#heard(JSON.parse(message));
  }

  #heard({ id, error, result, method, params, sessionId }) {
    if (!id) {
      for (const hear of this.#hearers) hear(method, params, sessionId);
      return;
    }
    const { done, failed } = this.#asked.get(id);
    this.#asked.delete(id);
    if (error) failed(new Error(JSON.stringify(error)));
    else done(result);
  }

  hear(hear) {
    this.#hearers.push(hear);
  }

  send(method, params = {}, sessionId = undefined) {
    const id = (this.#last += 1);
    return new Promise((done, failed) => {
      this.#asked.set(id, { done, failed });
      this.child.stdio[3].write(`${JSON.stringify({ id, method, params, sessionId })}\0`);
    });
  }

  // Opens a tab with a page.
  async open(address, { width = 1100, height = 760, isDark = false } = {}) {
    const { targetId } = await this.send("Target.createTarget", { url: "about:blank" });
    const { sessionId } = await this.send("Target.attachToTarget", { targetId, flatten: true });
    const page = new Page(this, sessionId, targetId);
    for (const domain of ["Page", "Runtime", "DOM"]) await page.send(`${domain}.enable`);
    await page.send("Emulation.setFocusEmulationEnabled", { enabled: true });
    await page.size(width, height);
    await page.colours(isDark);
    await page.go(address);
    return page;
  }

  async close() {
    await Promise.race([this.send("Browser.close").catch(() => {}), pause(2000)]);
    await Promise.race([this.ended, pause(3000)]);
    this.child.kill("SIGKILL");
  }

  // Ends the browser as a crash does.
  async crash() {
    this.child.kill("SIGKILL");
    await this.ended;
    await pause(300);
  }

  forget() {
    fs.rmSync(this.profile, { recursive: true, force: true, maxRetries: 5 });
  }
}

const KEYS = {
  Enter: { code: "Enter", windowsVirtualKeyCode: 13, text: "\r" },
  Tab: { code: "Tab", windowsVirtualKeyCode: 9 },
  Escape: { code: "Escape", windowsVirtualKeyCode: 27 },
  Backspace: { code: "Backspace", windowsVirtualKeyCode: 8 },
  ArrowLeft: { code: "ArrowLeft", windowsVirtualKeyCode: 37 },
  ArrowUp: { code: "ArrowUp", windowsVirtualKeyCode: 38 },
  ArrowRight: { code: "ArrowRight", windowsVirtualKeyCode: 39 },
  ArrowDown: { code: "ArrowDown", windowsVirtualKeyCode: 40 },
  Home: { code: "Home", windowsVirtualKeyCode: 36 },
  End: { code: "End", windowsVirtualKeyCode: 35 },
};

class Page extends AnyPage {
  constructor(browser, session, target) {
    super();
    Object.assign(this, { browser, session, target });
    browser.hear((method, params, from) => {
      if (from !== session) return;
      if (method === "Runtime.exceptionThrown") {
        this.faults.push(params.exceptionDetails.exception?.description ?? params.exceptionDetails.text);
      }
      if (method === "Page.javascriptDialogOpening") this.send("Page.handleJavaScriptDialog", { accept: true });
    });
  }

  send(method, params) {
    return this.browser.send(method, params, this.session);
  }

  async go(address) {
    await this.send("Page.navigate", { url: address });
    await this.until("document.readyState === 'complete'");
  }

  async reload() {
    await this.value("globalThis.isOld = true");
    await this.send("Page.reload");
    await this.until("!globalThis.isOld && document.readyState === 'complete'");
  }

  size(width, height) {
    const device = { width, height, deviceScaleFactor: 1, mobile: false };
    return this.send("Emulation.setDeviceMetricsOverride", device);
  }

  colours(isDark) {
    const features = [{ name: "prefers-color-scheme", value: isDark ? "dark" : "light" }];
    return this.send("Emulation.setEmulatedMedia", { features });
  }

  // The value of an expression in the page; promises are awaited.
  async value(expression) {
    const asked = { expression, awaitPromise: true, returnByValue: true };
    const { result, exceptionDetails: fault } = await this.send("Runtime.evaluate", asked);
    if (fault) throw new Error(fault.exception?.description ?? fault.text);
    return result.value;
  }

  // Key events, as a keyboard makes them.
  async type(text) {
    for (const letter of text) {
      if (letter === "\n") await this.press("Enter");
      else {
        const event = { text: letter, unmodifiedText: letter, key: letter };
        await this.send("Input.dispatchKeyEvent", { type: "keyDown", ...event });
        await this.send("Input.dispatchKeyEvent", { type: "keyUp", key: letter });
      }
    }
  }

  async press(key, modifiers = 0) {
    const letter = key.toUpperCase();
    const known = KEYS[key] ?? { code: `Key${letter}`, windowsVirtualKeyCode: letter.charCodeAt(0) };
    const event = { key, modifiers, ...known };
    if (modifiers & (CONTROL | ALT)) delete event.text;
    await this.send("Input.dispatchKeyEvent", { type: event.text ? "keyDown" : "rawKeyDown", ...event });
    await this.send("Input.dispatchKeyEvent", { type: "keyUp", key, modifiers, code: known.code });
  }

  // Pastes a text where the caret is, by the browser's clipboard.
  async paste(text) {
    const command = (key, commands) => this.send("Input.dispatchKeyEvent",
      { type: "rawKeyDown", key, modifiers: CONTROL, commands });
    await this.value(`(() => {
      const source = document.createElement("textarea");
      source.id = "source";
      source.at = document.activeElement;
      source.value = ${JSON.stringify(text)};
      document.body.append(source);
      source.select();
    })()`);
    await command("c", ["copy"]);
    await this.value("{ const source = document.getElementById('source'); source.at.focus(); source.remove(); }");
    await command("v", ["paste"]);
  }

  // Drops a text at a place, as from another program.
  async dropText(place, text) {
    const data = { items: [{ mimeType: "text/plain", data: text }], dragOperationsMask: 1 };
    for (const type of ["dragEnter", "dragOver", "drop"]) {
      await this.send("Input.dispatchDragEvent", { type, ...place, data });
    }
  }

  async click(selector) {
    const box = await this.middle(selector);
    const mouse = { ...box, button: "left", clickCount: 1 };
    await this.send("Input.dispatchMouseEvent", { type: "mousePressed", ...mouse });
    await this.send("Input.dispatchMouseEvent", { type: "mouseReleased", ...mouse });
  }

  // Drags what is at one place to another one, with the mouse.
  async drag(from, to) {
    await this.send("Input.setInterceptDrags", { enabled: true });
    const data = new Promise((done) => {
      this.browser.hear((method, params, session) => {
        if (method === "Input.dragIntercepted" && session === this.session) done(params.data);
      });
    });
    const left = { button: "left", clickCount: 1 };
    const mouse = (type, place) => this.send("Input.dispatchMouseEvent", { type, ...place, ...left });
    await mouse("mousePressed", from);
    await mouse("mouseMoved", { x: from.x + 10, y: from.y + 10 });
    await mouse("mouseMoved", { x: from.x + 20, y: from.y + 20 });
    const held = await Promise.race([data, pause(3000)]);
    if (!held) throw new Error("nothing is dragged");
    for (const type of ["dragEnter", "dragOver", "drop"]) {
      await this.send("Input.dispatchDragEvent", { type, ...to, data: held });
    }
    await mouse("mouseReleased", to);
    await this.send("Input.setInterceptDrags", { enabled: false });
  }

  // Shows the tab before others.
  front() {
    return this.send("Page.bringToFront");
  }

  async shot(file) {
    const { data } = await this.send("Page.captureScreenshot", { format: "png" });
    fs.writeFileSync(file, Buffer.from(data, "base64"));
  }

  close() {
    return this.browser.send("Target.closeTarget", { targetId: this.target });
  }
}
