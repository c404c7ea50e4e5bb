#!/usr/bin/env node
// The program in WebAssembly as a process, for tests: node.mjs MODULE WORD..
//
// Files and streams are real ones: a file is an array of bytes, as in system.js, and what is written to it goes to the
// disk too. The environment may have:
//
//     CLOSED       the numbers of standard streams that are closed, since Node opens them before this begins
//     ARRAYS       something: the files are only byte arrays, as in a page, read from this folder and saved to it after
//     ROOM         how many bytes these files may have in all
//     IN_USE       the name of one of them that another program has locked
//     MEMORY       how many bytes of memory the program may take
//     AT, FAULT    a call that fails, and how. Each call is written to file descriptor 9, as by tests/calls.c
//
// Node 20 needs --experimental-wasm-memory64.

import { spawnSync } from "node:child_process";
import fs from "node:fs";
import { File, Store, SystemError, run } from "./system.js";
import { Watch } from "../tests/desk/watch.mjs";

// Answers what the system does, or fails as it fails.
function real(call) {
  try {
    return call();
  } catch (why) {
    if (!why.errno) throw why;
    throw Object.assign(new SystemError("EIO"), { message: why.code, number: -why.errno });
  }
}

// A file that was opened. Its bytes are read as it is opened, or, where it is to be written, as it is locked.
class RealFile extends File {
  constructor(number) {
    super();
    this.number = number;
    this.mode = real(() => fs.fstatSync(number)).mode;
  }

  load() {
    const bytes = new Uint8Array(real(() => fs.fstatSync(this.number)).size);
    let at = 0;
    for (let count = 1; count > 0 && at < bytes.length; at += count) {
      count = real(() => fs.readSync(this.number, bytes, at, bytes.length - at, at));
    }
    super.write(0, bytes.subarray(0, at));
  }

  write(offset, bytes) {
    const count = real(() => fs.writeSync(this.number, bytes, 0, bytes.length, offset));
    this.isWritten = true;
    return super.write(offset, bytes.subarray(0, count));
  }

  sync() {
    real(() => fs.fsyncSync(this.number));
  }

  // The disk has to have the bytes of the array then.
  close() {
    if (this.isWritten && Buffer.compare(fs.readFileSync(`/proc/self/fd/${this.number}`), this.bytes)) {
      throw new Error("the file on the disk has other bytes");
    }
    fs.closeSync(this.number);
  }
}

class RealStore extends Store {
  find(name) {
    return name === "/" ? super.find(name) : real(() => fs.statSync(name));
  }

  open(name, flags, mode) {
    if (name === "/") return super.open(name, flags);
    const file = new RealFile(real(() => fs.openSync(name, flags, mode)));
    if (!(flags & fs.constants.O_RDWR)) file.load();
    return file;
  }

  // A lock stays with the opened file, which is shared with flock.
  lock(name, file) {
    const stdio = ["ignore", "ignore", "ignore", file.number];
    const isLocked = spawnSync("flock", ["--exclusive", "--nonblock", "3"], { stdio }).status === 0;
    if (isLocked) file.load();
    return isLocked;
  }

  remove(name) {
    real(() => fs.unlinkSync(name));
  }

  left() {
    return Infinity;
  }
}

// The words as the system gave them: Node has made other bytes of what is not UTF-8.
function words() {
  const given = fs.readFileSync("/proc/self/cmdline").toString("latin1").split("\0").slice(0, -1);
  const first = given.length - (process.argv.length - 3);
  return given.slice(first).map((word) => Buffer.from(word, "latin1"));
}

function inputOf(number) {
  return {
    read(count) {
      const bytes = new Uint8Array(count);
      return bytes.subarray(0, real(() => fs.readSync(number, bytes)));
    },
  };
}

function outputOf(number) {
  return { write: (bytes) => real(() => fs.writeSync(number, bytes)) };
}

// The files of this folder as a page would have them.
function arrays({ ROOM = Infinity, IN_USE }) {
  const names = fs.readdirSync(".").filter((name) => fs.statSync(name).isFile());
  const files = new Map(names.map((name) => [name, new File(fs.readFileSync(name))]));
  return new Store(files, { room: Number(ROOM), inUse: new Set([IN_USE]) });
}

function save({ files }) {
  for (const [name, file] of files) fs.writeFileSync(name, file.bytes);
  for (const name of fs.readdirSync(".")) if (fs.statSync(name).isFile() && !files.has(name)) fs.unlinkSync(name);
}

const { CLOSED = "", ARRAYS, MEMORY, AT, FAULT } = process.env;
const module = new WebAssembly.Module(fs.readFileSync(process.argv[2]));
const streams = [inputOf(0), outputOf(1), outputOf(2)];
for (const number of CLOSED.split(" ").filter(Boolean)) streams[number] = undefined;
const watch = AT && new Watch(9, Number(AT), FAULT);
const files = ARRAYS ? arrays(process.env) : new RealStore();
const ended = run(module, words(), { files, streams, memory: MEMORY, around: watch?.around });
if (ARRAYS) save(files);
process.exit(ended.status);
