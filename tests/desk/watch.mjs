// Records the calls that the program in WebAssembly makes, as tests/calls.c does for the native program: it writes the
// same line for each call to a file descriptor, and makes the same call fail in the same way.

import fs from "node:fs";
import { SystemError } from "../../desk/system.js";

const ACCESS = ["to read", "to write", "to read and write", "to do nothing"];
const CREATES = 0o100;
const EXCLUSIVE = 0o200;
const CLOSES = 0o2000000;
const KNOWN = 0o3 | CREATES | EXCLUSIVE | CLOSES | 0o400;

function lastPart(path) {
  const slash = path.lastIndexOf("/");
  return slash >= 0 && slash + 1 < path.length ? path.slice(slash + 1) : path;
}

export class Watch {
  #names = new Map([0, 1, 2].map((number) => [number, ["input", "output", "notes"][number]]));
  #count = 0;
  #isFull = false;
  #isShut = false;

  constructor(log, at, fault) {
    this.log = log;
    this.at = at;
    this.fault = fault;
  }

  around = (name, given, call, system) => {
    const line = this[name]?.(system, ...given);
    if (line === undefined) return call(...given);
    this.#count += 1;
    const wanted = ["read", "write", "pread", "pwrite"].includes(name) ? Number(given[2]) : 0;
    try {
      const answer = this.#faulty(name, given, call);
      if (name === "open") this.#names.set(answer, lastPart(system.textAt(given[0])));
      if (name === "fcntl") this.#names.set(answer, this.#name(given[0]));
      if (name === "close") this.#names.delete(given[0]);
      this.#tell(name === "open" || name === "fcntl" || answer === wanted ? line : `${line} = ${answer}`);
      return answer;
    } catch (why) {
      if (why instanceof SystemError) this.#tell(`${line} = ${why.message}`);
      throw why;
    }
  };

  #tell(line) {
    fs.writeSync(this.log, `${line}\n`);
  }

  // Makes the call, or what is told in place of it.
  #faulty(name, given, call) {
    const fault = this.#count === this.at && name !== "close" ? this.fault : "";
    if (fault === "shut") this.#isShut = true;
    if (name === "open" && this.#isShut) throw new SystemError("EACCES");
    const moves = ["read", "write", "pread", "pwrite"].includes(name);
    const writes = ["write", "pwrite"].includes(name);
    if (writes && this.#isFull) throw new SystemError("ENOSPC");
    if (fault.startsWith("E")) throw new SystemError(fault);
    if (writes && fault === "none") return 0;
    if (writes && fault === "full") this.#isFull = true;
    if (!moves) return call(...given);
    const [number, pointer, count, ...rest] = given;
    const moved = fault === "part" && count > 0n ? 1n : fault === "full" ? count / 2n : count;
    return call(number, pointer, moved, ...rest);
  }

  #name(number) {
    return this.#names.get(number) ?? "a file of others";
  }

  // The lines, by the names of the calls.

  open(system, path, flags, rest) {
    const view = new DataView(system.exports.memory.buffer);
    const mode = flags & CREATES ? view.getUint32(Number(rest), true).toString(8) : "";
    const made = flags & CREATES ? `, ${flags & EXCLUSIVE ? "new" : "new or old"}, mode ${mode}` : "";
    const others = flags & ~KNOWN ? `, with ${(flags & ~KNOWN).toString(8)}` : "";
    const kept = flags & CLOSES ? "" : ", for other programs too";
    return `open ${lastPart(system.textAt(path))} ${ACCESS[flags & 3]}${made}${others}${kept}`;
  }

  fcntl(system, number, command, rest) {
    const view = new DataView(system.exports.memory.buffer);
    return `copy ${this.#name(number)} from ${view.getBigInt64(Number(rest), true)} on`;
  }

  statx(system, folder, path) {
    const name = system.textAt(path);
    return name ? `stat ${lastPart(name)}` : `stat ${this.#name(folder)} that is open`;
  }

  unlink(system, path) {
    return `unlink ${lastPart(system.textAt(path))}`;
  }

  flock(system, number, how) {
    const words = [[1, "shared"], [2, "exclusive"], [8, "no more"], [4, "at once"]];
    return ["flock", this.#name(number), ...words.filter(([bit]) => how & bit).map(([, word]) => word)].join(" ");
  }

  fsync(system, number) {
    return `fsync ${this.#name(number)}`;
  }

  fdatasync(system, number) {
    return `fdatasync ${this.#name(number)}`;
  }

  ftruncate(system, number, size) {
    return `ftruncate ${this.#name(number)} to ${size}`;
  }

  pread(system, number, pointer, count, offset) {
    return `pread ${this.#name(number)} ${count} at ${offset}`;
  }

  pwrite(system, number, pointer, count, offset) {
    return `pwrite ${this.#name(number)} ${count} at ${offset}`;
  }

  read(system, number, pointer, count) {
    return `read ${this.#name(number)} ${count}`;
  }

  write(system, number, pointer, count) {
    return `write ${this.#name(number)} ${count}`;
  }

  close(system, number) {
    return `close ${this.#name(number)}`;
  }

  getentropy(system, pointer, count) {
    return `getentropy ${count}`;
  }
}
