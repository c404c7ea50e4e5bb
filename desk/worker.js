// Runs commands of the program apart from the page, so that typing does not wait for them. The first message is the
// module. Asked with { number, words, files, input } it runs a command, and answers { number, status, output, notes,
// files }, with the files that the command wrote.

import { File, run } from "./system.js";

// A file that knows whether it was written.
class Watched extends File {
  write(offset, bytes) {
    this.isWritten = true;
    return super.write(offset, bytes);
  }
}

let ready;

async function compiled(text) {
  const packed = Uint8Array.from(atob(text.trim()), (letter) => letter.charCodeAt(0));
  // Not as a Blob: WebKit reads none in a worker of a page from the disk.
  const { readable, writable } = new DecompressionStream("gzip");
  const writer = writable.getWriter();
  const [unpacked] = await Promise.all([new Response(readable).arrayBuffer(), writer.write(packed), writer.close()]);
  return WebAssembly.compile(unpacked);
}

function ran(module, { words, files, input }) {
  const held = new Map(files.map(([name, bytes]) => [name, new Watched(bytes)]));
  const { status, output, notes } = run(module, words, { input, files: held });
  const isNew = (name) => !files.some(([known]) => known === name);
  const written = [...held].filter(([name, file]) => file.isWritten || isNew(name));
  return { status, output, notes, files: written.map(([name, file]) => [name, file.bytes.slice()]) };
}

function answer(module, asked) {
  try {
    return ran(module, asked);
  } catch (why) {
    return { failure: String(why) };
  }
}

self.onmessage = async ({ data }) => {
  if (typeof data === "string") {
    ready = compiled(data);
    return;
  }
  try {
    self.postMessage({ number: data.number, ...answer(await ready, data) });
  } catch (why) {
    self.postMessage({ number: data.number, failure: String(why) });
  }
};
