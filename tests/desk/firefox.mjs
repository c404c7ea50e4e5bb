// Drives a headless Firefox by WebDriver BiDi, with the words of browser.mjs. What only Chromium's protocol can do is
// told by `Unable`: a group of tests that needs it is left out.

import { spawn } from "node:child_process";
import fs from "node:fs";
import os from "node:os";
import path from "node:path";
import { DriverPage, Unable, pause } from "./pages.mjs";
import { Socket } from "./socket.mjs";

const NAMES = ["firefox", "firefox-esr"];

// After how long an answer is not waited for any more.
const LATE = 90000;

export function firefox() {
  const folders = (process.env.PATH ?? "").split(":");
  const paths = folders.flatMap((folder) => NAMES.map((name) => path.join(folder, name)));
  return paths.find((file) => fs.existsSync(file));
}

const started = new Set();
process.on("exit", () => started.forEach((child) => child.kill("SIGKILL")));

const SETTINGS = {
  "remote.active-protocols": 1,
  "browser.shell.checkDefaultBrowser": false,
  "datareporting.policy.dataSubmissionEnabled": false,
  "dom.storageManager.prompt.testing": true,
  "dom.storageManager.prompt.testing.allow": true,
  "app.update.enabled": false,
  "browser.aboutwelcome.enabled": false,
  "browser.startup.page": 0,
  "dom.disable_beforeunload": true,
};

export class Firefox {
  #asked = new Map();
  #last = 0;
  hearers = [];

  constructor(profile = fs.mkdtempSync(path.join(os.tmpdir(), "desk-fox-"))) {
    this.profile = profile;
    const lines = Object.entries(SETTINGS).map(([name, value]) => `user_pref("${name}", ${JSON.stringify(value)});\n`);
    fs.writeFileSync(path.join(profile, "user.js"), lines.join(""));
    const words = ["--headless", "--no-remote", "--profile", profile, "--remote-debugging-port", "0",
      "--window-size", "1100,900", "about:blank"];
    const env = { ...process.env, HOME: profile };
    this.child = spawn(firefox(), words, { stdio: ["ignore", "ignore", "pipe"], env });
    started.add(this.child);
    this.ended = new Promise((done) => this.child.on("exit", done));
    this.ready = this.#connect();
  }

  async #connect() {
    const address = await new Promise((done, failed) => {
      let told = "";
      this.child.stderr.on("data", (data) => {
        told += data;
        const found = /WebDriver BiDi listening on (ws:\/\/\S+)/.exec(told);
        if (found) done(found[1]);
      });
      this.child.on("exit", () => failed(new Error(`Firefox ended: ${told}`)));
    });
    this.socket = new Socket(`${address}/session`, (message) => this.#heard(JSON.parse(message)));
    await this.socket.opened;
    await this.#ask("session.new", { capabilities: {} });
    await this.#ask("session.subscribe", { events: ["log.entryAdded"] });
  }

  #heard({ id, type, error, message, result, method, params }) {
    if (type === "event") {
      for (const hear of this.hearers) hear(method, params);
      return;
    }
    const { done, failed, late } = this.#asked.get(id);
    this.#asked.delete(id);
    clearTimeout(late);
    if (type === "error") failed(new Error(`${error}: ${message}`));
    else done(result);
  }

  #ask(method, params) {
    const id = (this.#last += 1);
    return new Promise((done, failed) => {
      const late = setTimeout(() => failed(new Error(`no answer to ${method}`)), LATE);
      this.#asked.set(id, { done, failed, late });
      this.socket.send(JSON.stringify({ id, method, params }));
    });
  }

  async ask(method, params) {
    await this.ready;
    return this.#ask(method, params);
  }

  send(method) {
    throw new Unable(`${method} is a word of Chromium`);
  }

  async open(address, { width = 1100, height = 760, isDark = false } = {}) {
    if (isDark) throw new Unable("Firefox is tried in light colours");
    const { context } = await this.ask("browsingContext.create", { type: "tab" });
    const page = new FirefoxPage(this, context);
    await page.size(width, height);
    await page.go(address);
    return page;
  }

  async close() {
    await Promise.race([this.ask("browser.close", {}).catch(() => {}), pause(3000)]);
    await Promise.race([this.ended, pause(3000)]);
    this.child.kill("SIGKILL");
  }

  async crash() {
    this.child.kill("SIGKILL");
    await this.ended;
    await pause(500);
  }

  forget() {
    fs.rmSync(this.profile, { recursive: true, force: true, maxRetries: 5 });
  }
}

class FirefoxPage extends DriverPage {
  name = "Firefox";

  constructor(browser, context) {
    super();
    Object.assign(this, { browser, context });
    browser.hearers.push((method, { type, level, text, source }) => {
      const isFault = source?.context === context && type === "javascript" && level === "error";
      if (isFault && !/favicon/.test(text)) this.faults.push(text);
    });
  }

  ask(method, params) {
    return this.browser.ask(method, { context: this.context, ...params });
  }

  // Chromium's words that have one of WebDriver in their place.
  async send(method, params) {
    if (method === "Input.insertText") return this.insert(params.text);
    if (method === "Page.addScriptToEvaluateOnNewDocument") {
      const functionDeclaration = `() => { ${params.source} }`;
      return this.browser.ask("script.addPreloadScript", { functionDeclaration, contexts: [this.context] });
    }
    throw new Unable(`${method} is a word of Chromium`);
  }

  async go(url) {
    await this.ask("browsingContext.navigate", { url, wait: "complete" });
  }

  async reload() {
    await this.ask("browsingContext.reload", { wait: "complete" });
  }

  size(width, height) {
    return this.ask("browsingContext.setViewport", { viewport: { width, height } });
  }

  async value(expression) {
    const told = `(async () => JSON.stringify({ value: await (0, eval)(${JSON.stringify(expression)}) }))()`;
    const { result, exceptionDetails: fault } = await this.browser.ask("script.evaluate",
      { expression: told, target: { context: this.context }, awaitPromise: true, userActivation: true });
    if (fault) throw new Error(fault.text);
    return JSON.parse(result.value).value;
  }

  act(actions) {
    return this.ask("input.performActions", { actions });
  }

  // Shows the tab before others.
  front() {
    return this.ask("browsingContext.activate", {});
  }

  // A picture, if Firefox gives one: after a change of the size it may not.
  async shot(file) {
    const shot = await Promise.race([this.ask("browsingContext.captureScreenshot", {}), pause(10000)]);
    if (shot) fs.writeFileSync(file.replace(/([^/]*)$/, "firefox_$1"), Buffer.from(shot.data, "base64"));
  }

  close() {
    return this.ask("browsingContext.close", {});
  }
}
