// Where the browser keeps manuscripts. A record tells of a manuscript, its file has the bytes, and a draft has what was
// typed and is not in the file yet. MemoryStore, for two.js, keeps them only while the page is open.

const NAME = "manuscript";

export class StoreFull extends Error {
  constructor() {
    super("The browser has no room left.");
  }
}

export class ChangedElsewhere extends Error {
  constructor() {
    super("This manuscript was changed in another tab at the same moment. Try again.");
  }
}

class StoreFailed extends Error {
  constructor(why) {
    super(`The browser's storage does not work now. The disk may be full. (${why?.message ?? "no reason given"})`);
  }
}

// A number that tells manuscripts and tabs apart.
export function freshKey() {
  return Array.from(crypto.getRandomValues(new Uint32Array(3)), (part) => part.toString(36)).join("-");
}

export class Store {
  static async open() {
    const store = new Store();
    await store.#connect();
    return store;
  }

  // The database, which is made where there is none. A browser may close it, as it does when the disk is full: then it
  // is opened again.
  #connect() {
    const forget = () => {
      this.opening = null;
    };
    this.opening ??= connected(forget).catch((why) => {
      forget();
      throw why;
    });
    return this.opening;
  }

  async #begin(...words) {
    try {
      return (await this.#connect()).transaction(...words);
    } catch (why) {
      if (why.name !== "InvalidStateError") throw faultOf(why);
      this.opening = null;
      return (await this.#connect()).transaction(...words);
    }
  }

  // Does `work` with the named stores in one transaction, and ends when its changes are kept. What is kept `strict` is
  // on the disk by then; drafts, which are kept at each key, survive a crash of the browser, but maybe not a power
  // failure. Where `work` throws, nothing is changed. It gets the stores, and what the first of them has under `key`.
  async #change(names, work, { durability = "strict", key } = {}) {
    const transaction = await this.#begin(names, "readwrite", { durability });
    const stores = names.map((name) => transaction.objectStore(name));
    return new Promise((done, failed) => {
      const does = (found) => {
        try {
          work(stores, found);
        } catch (why) {
          failed(faultOf(why));
          transaction.abort();
        }
      };
      transaction.oncomplete = () => done();
      transaction.onabort = () => failed(faultOf(transaction.error));
      if (key === undefined) does();
      else stores[0].get(key).onsuccess = ({ target }) => does(target.result);
    });
  }

  async #look(name, look) {
    const transaction = await this.#begin(name);
    return answered(look(transaction.objectStore(name)));
  }

  async records() {
    const all = await this.#look("records", (store) => store.getAll());
    return all.sort((one, other) => other.changed - one.changed);
  }

  record(id) {
    return this.#look("records", (store) => store.get(id));
  }

  // Keeps when a manuscript was opened last: 0 says that it was left for the list.
  keepOpened(id, opened) {
    return this.exclusively(id, async () => {
      const record = await this.record(id);
      if (record) await this.keep({ ...record, opened }, { after: record.revision });
    });
  }

  // The manuscript that was open last, if it was not left.
  async lastOpened() {
    const records = (await this.records()).filter(({ opened }) => opened);
    return records.sort((one, other) => other.opened - one.opened)[0];
  }

  // The bytes of a file, and what they say where that was known when they were kept.
  file(id) {
    return this.#look("files", (store) => store.get(id));
  }

  // Keeps a record, its file where there are bytes, and forgets the draft of a tab where one is named. What is to come
  // `after` a revision is refused after another one.
  keep(record, { bytes, text, tab, after } = {}) {
    const { id } = record;
    const change = ([records, files, drafts], found) => {
      if (after !== undefined && found?.revision !== after) throw new ChangedElsewhere();
      records.put(record);
      if (bytes) files.put({ id, bytes, text });
      if (tab) drafts.delete([id, tab]);
    };
    return this.#change(["records", "files", "drafts"], change, { key: id });
  }

  remove(id) {
    return this.#change(["records", "files", "drafts"], ([records, files, drafts]) => {
      records.delete(id);
      files.delete(id);
      drafts.delete(IDBKeyRange.bound([id], [id, []]));
    });
  }

  keepDraft(draft) {
    return this.#change(["drafts"], ([drafts]) => drafts.put(draft), { durability: "relaxed" });
  }

  dropDraft(manuscript, tab) {
    return this.#change(["drafts"], ([drafts]) => drafts.delete([manuscript, tab]), { durability: "relaxed" });
  }

  drafts(manuscript) {
    return this.#look("drafts", (store) => store.getAll(IDBKeyRange.bound([manuscript], [manuscript, []])));
  }

  // Does `work` while no other tab does any under this name.
  exclusively(name, work) {
    return navigator.locks ? navigator.locks.request(`${NAME} ${name}`, work) : work();
  }

  // Shows all tabs that a manuscript is open, until what this gives is called or the tab is gone.
  showOpen(tab) {
    let end;
    const closed = new Promise((done) => {
      end = done;
    });
    navigator.locks?.request(`${NAME} tab ${tab}`, () => closed);
    return end;
  }

  async openTabs() {
    const { held } = (await navigator.locks?.query()) ?? { held: [] };
    return new Set(held.map(({ name }) => name.replace(`${NAME} tab `, "")));
  }
}

function connected(forget) {
  const request = indexedDB.open(NAME, 1);
  request.onupgradeneeded = () => {
    request.result.createObjectStore("records", { keyPath: "id" });
    request.result.createObjectStore("files", { keyPath: "id" });
    request.result.createObjectStore("drafts", { keyPath: ["manuscript", "tab"] });
  };
  return answered(request).then((database) => {
    database.onclose = forget;
    database.onversionchange = () => database.close();
    return database;
  });
}

function answered(request) {
  return new Promise((done, failed) => {
    request.onsuccess = () => done(request.result);
    request.onerror = () => failed(faultOf(request.error));
  });
}

function faultOf(why) {
  if ([StoreFull, StoreFailed, ChangedElsewhere].some((known) => why instanceof known)) return why;
  return why?.name === "QuotaExceededError" ? new StoreFull() : new StoreFailed(why);
}

export class MemoryStore {
  #records = new Map();
  #files = new Map();

  async records() {
    return [...this.#records.values()];
  }

  async record(id) {
    return this.#records.get(id);
  }

  async file(id) {
    return this.#files.get(id);
  }

  async keep(record, { bytes, text } = {}) {
    this.#records.set(record.id, record);
    if (bytes) this.#files.set(record.id, { bytes, text });
  }

  async keepDraft() {}

  async dropDraft() {}

  async drafts() {
    return [];
  }

  exclusively(name, work) {
    return work();
  }

  showOpen() {
    return () => {};
  }

  async openTabs() {
    return new Set();
  }
}
