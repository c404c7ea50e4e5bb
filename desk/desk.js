// Where the page starts: it shows what its address asks for.

import { Channel } from "./page/exchange.js";
import { Editor } from "./page/editor.js";
import { Home, Shelf } from "./page/home.js";
import { Program } from "./page/commands.js";
import { Store } from "./page/store.js";
import { Two } from "./page/two.js";
import { element, opened, tell } from "./page/dom.js";

const LACKS_PROGRAM = "The program inside this page needs a newer browser, with 64-bit memory for WebAssembly: " +
  "Chromium or Chrome from version 133 on, or Firefox from version 134 on.";

function help() {
  const text = document.getElementById("help").content.cloneNode(true);
  const close = element("form", { method: "dialog", className: "row end" },
    element("button", { textContent: "Close", className: "main" }));
  const paper = element("div", { className: "scroll", tabIndex: 0 }, text);
  return opened(element("dialog", { className: "wide", "aria-label": "Help" }, paper, close));
}

class Desk {
  constructor(store) {
    const [worker, module] = ["worker", "module"].map((id) => document.getElementById(id).textContent);
    this.store = store;
    this.program = new Program(worker, module);
    this.channel = new Channel("manuscript", store);
    this.shelf = new Shelf(this);
    this.help = help;
    window.addEventListener("hashchange", () => this.show());
    window.addEventListener("beforeunload", (event) => {
      if (this.shown?.isRefused) event.preventDefault();
    });
  }

  // Where no address asks for more, the page starts where one was.
  async start() {
    const last = location.hash ? null : await this.store.lastOpened();
    if (last) history.replaceState(null, "", `#open=${last.id}`);
    await this.show();
  }

  async show() {
    this.shown?.close();
    this.shown = await this.pageOf(location.hash);
    this.remember(this.shown.manuscript?.id).catch((why) => console.error(why));
    document.getElementById("desk").replaceChildren(this.shown.element);
    document.title = this.shown.manuscript?.record.name ?? "Manuscripts";
    await this.shown.open();
  }

  // Remembers where one is. Nothing is lost where this fails.
  async remember(id) {
    const { before } = this;
    this.before = id;
    if (before && before !== id) await this.store.keepOpened(before, 0);
    if (id) await this.store.keepOpened(id, Date.now());
  }

  async pageOf(hash) {
    if (hash === "#two") return new Two(this);
    const id = /^#open=(.+)$/.exec(hash)?.[1];
    const record = id && (await this.store.record(id));
    return record ? Object.assign(new Editor({ ...this, record }), { shelf: this.shelf }) : new Home(this);
  }
}

async function start() {
  try {
    const desk = new Desk(await Store.open());
    desk.program.does(["show"]).catch((why) => tell("The program can't run here", LACKS_PROGRAM, String(why)));
    await desk.start();
    return desk;
  } catch (why) {
    const line = "This browser does not let the page store anything, or it is too old. A newer one may work.";
    await tell("The page could not start", line, String(why));
    return null;
  }
}

globalThis.desk = start();
