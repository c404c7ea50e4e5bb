// The system that the program sees in a page: words, standard streams, files and random bytes, over byte arrays. Each
// command is an instance of its own: see `run` at the end.
//
// The program calls functions of the C library (imports.txt). Each one answers here as it does on Linux. One that fails
// answers -1, and the program then asks for the number of its error. There are no sockets.

// The errors: the number and the message of each.
const ERRORS = {
  EPERM: [1, "Operation not permitted"],
  ENOENT: [2, "No such file or directory"],
  EINTR: [4, "Interrupted system call"],
  EIO: [5, "Input/output error"],
  EBADF: [9, "Bad file descriptor"],
  EAGAIN: [11, "Resource temporarily unavailable"],
  ENOMEM: [12, "Cannot allocate memory"],
  EACCES: [13, "Permission denied"],
  EEXIST: [17, "File exists"],
  ENOTDIR: [20, "Not a directory"],
  EISDIR: [21, "Is a directory"],
  EINVAL: [22, "Invalid argument"],
  ENFILE: [23, "Too many open files in system"],
  EMFILE: [24, "Too many open files"],
  EFBIG: [27, "File too large"],
  ENOSPC: [28, "No space left on device"],
  EROFS: [30, "Read-only file system"],
  EPIPE: [32, "Broken pipe"],
  ENAMETOOLONG: [36, "File name too long"],
  ENOLCK: [37, "No locks available"],
  ENOSYS: [38, "Function not implemented"],
  EAFNOSUPPORT: [97, "Address family not supported by protocol"],
};

// A call that fails.
export class SystemError extends Error {
  constructor(name) {
    super(name);
    this.number = ERRORS[name][0];
  }
}

// The words of open.
const OPEN = { access: 0o3, creates: 0o100, exclusive: 0o200, truncates: 0o1000 };

// What a path or a file descriptor stands for, where it is no file: its mode and size.
const FOLDER = { mode: 0o040755, size: 0 };
const PIPE = { mode: 0o010600, size: 0 };

// The bytes of a file. The array that holds them grows by doubling.
export class File {
  mode = 0o100644;

  constructor(bytes = new Uint8Array(0)) {
    this.array = bytes.slice();
    this.size = bytes.length;
  }

  get bytes() {
    return this.array.subarray(0, this.size);
  }

  read(offset, count) {
    return this.bytes.subarray(offset, offset + count);
  }

  // Answers how many bytes it took.
  write(offset, bytes) {
    this.#grow(offset + bytes.length);
    this.array.set(bytes, offset);
    return bytes.length;
  }

  truncate(size) {
    if (size < this.size) this.array.fill(0, size, this.size);
    this.#grow(size);
    this.size = size;
  }

  sync() {}

  close() {}

  #grow(size) {
    if (size > this.array.length) {
      const grown = new Uint8Array(Math.max(size, 2 * this.array.length));
      grown.set(this.bytes);
      this.array = grown;
    }
    this.size = Math.max(this.size, size);
  }
}

// Files by their names, in one folder. `room` is how many bytes they may have in all, and `inUse` has the names of
// those that another program has locked.
export class Store {
  constructor(files = new Map(), { room = Infinity, inUse = new Set() } = {}) {
    this.files = files;
    this.room = room;
    this.inUse = inUse;
  }

  // The file or the folder with this name, if there is one.
  find(name) {
    return name === "/" ? FOLDER : this.files.get(name);
  }

  make(name) {
    if (name.includes("/")) throw new SystemError("ENOENT");
    const file = new File();
    this.files.set(name, file);
    return file;
  }

  open(name, flags) {
    const found = this.find(name);
    if (!found && !(flags & OPEN.creates)) throw new SystemError("ENOENT");
    if (found && flags & OPEN.creates && flags & OPEN.exclusive) throw new SystemError("EEXIST");
    if (found === FOLDER && flags & OPEN.access) throw new SystemError("EISDIR");
    if (found instanceof File && flags & OPEN.truncates) found.truncate(0);
    return found ?? this.make(name);
  }

  // Whether the file is now locked for this command.
  lock(name) {
    return !this.inUse.has(name);
  }

  remove(name) {
    if (!this.files.delete(name)) throw new SystemError("ENOENT");
  }

  // How many bytes more there may be.
  left() {
    let left = this.room;
    for (const file of this.files.values()) left -= file.size;
    return Math.max(left, 0);
  }
}

// A standard stream that gives these bytes.
class Input {
  constructor(bytes) {
    this.rest = bytes;
  }

  read(count) {
    const piece = this.rest.subarray(0, count);
    this.rest = this.rest.subarray(count);
    return piece;
  }
}

// A standard stream that keeps what is written to it.
class Output {
  pieces = [];

  write(bytes) {
    this.pieces.push(bytes.slice());
    return bytes.length;
  }

  get bytes() {
    const whole = new Uint8Array(this.pieces.reduce((size, piece) => size + piece.length, 0));
    let at = 0;
    for (const piece of this.pieces) {
      whole.set(piece, at);
      at += piece.length;
    }
    return whole;
  }
}

// What one command sees. The methods are the calls, by their names in the C library, with their parameters: a pointer,
// a count and an offset are BigInts, and other parameters are plain numbers.
class System {
  error = 0;

  constructor(words, streams, store) {
    const encoder = new TextEncoder();
    this.words = ["manuscript", ...words].map((word) => (typeof word === "string" ? encoder.encode(word) : word));
    this.store = store;
    this.numbers = new Map();
    streams.forEach((stream, number) => stream && this.numbers.set(number, { stream, about: PIPE }));
  }

  // Memory of the instance. A view holds until the instance goes on.
  view(pointer, count) {
    return new Uint8Array(this.exports.memory.buffer, Number(pointer), Number(count));
  }

  textAt(pointer) {
    const rest = new Uint8Array(this.exports.memory.buffer, Number(pointer));
    return new TextDecoder().decode(rest.slice(0, rest.indexOf(0)));
  }

  // Copies bytes to memory, and answers how many.
  give(pointer, bytes) {
    this.view(pointer, bytes.length).set(bytes);
    return bytes.length;
  }

  opened(number) {
    const opened = this.numbers.get(number);
    if (!opened) throw new SystemError("EBADF");
    return opened;
  }

  fileOf(number) {
    const { file } = this.opened(number);
    if (!file) throw new SystemError("EINVAL");
    return file;
  }

  read(number, pointer, count) {
    const { stream, about } = this.opened(number);
    if (about === FOLDER) throw new SystemError("EISDIR");
    if (!stream?.read) throw new SystemError("EBADF");
    return this.give(pointer, stream.read(Number(count)));
  }

  write(number, pointer, count) {
    const { stream } = this.opened(number);
    if (!stream?.write) throw new SystemError("EBADF");
    return stream.write(this.view(pointer, count));
  }

  __write(number, pointer, count) {
    return this.write(number, pointer, count);
  }

  pread(number, pointer, count, offset) {
    return this.give(pointer, this.fileOf(number).read(Number(offset), Number(count)));
  }

  // Where there is not room for all, a part is written.
  pwrite(number, pointer, count, offset) {
    const file = this.fileOf(number);
    if (!this.opened(number).writes) throw new SystemError("EBADF");
    const fits = Math.max(file.size - Number(offset), 0) + this.store.left();
    if (count > 0n && fits === 0) throw new SystemError("ENOSPC");
    return file.write(Number(offset), this.view(pointer, Math.min(Number(count), fits)));
  }

  // The file descriptor is the least one that is free.
  open(path, flags, rest) {
    const name = this.textAt(path);
    const mode = flags & OPEN.creates ? new DataView(this.exports.memory.buffer).getUint32(Number(rest), true) : 0;
    const found = this.store.open(name, flags, mode);
    let number = 0;
    while (this.numbers.has(number)) number += 1;
    const file = found === FOLDER ? undefined : found;
    this.numbers.set(number, { file, about: found, name, writes: (flags & OPEN.access) !== 0 });
    return number;
  }

  // The one command that the program gives copies a descriptor, to the least number that is free from another one on.
  fcntl(number, command, rest) {
    const opened = this.opened(number);
    let copy = Number(new DataView(this.exports.memory.buffer).getBigInt64(Number(rest), true));
    while (this.numbers.has(copy)) copy += 1;
    this.numbers.set(copy, opened);
    return copy;
  }

  close(number) {
    this.opened(number).file?.close();
    this.numbers.delete(number);
    return 0;
  }

  statx(folder, path, flags, mask, pointer) {
    const name = this.textAt(path);
    const about = name === "" ? this.opened(folder).about : this.store.find(name);
    if (!about) throw new SystemError("ENOENT");
    this.view(pointer, 256).fill(0);
    const told = new DataView(this.exports.memory.buffer, Number(pointer));
    told.setUint32(0, 0x7ff, true); // the mask of all basic fields
    told.setUint32(16, 1, true); // links
    told.setUint16(28, about.mode, true);
    told.setBigUint64(40, BigInt(about.size), true);
    return 0;
  }

  flock(number) {
    const { name, file } = this.opened(number);
    if (!this.store.lock(name, file)) throw new SystemError("EAGAIN");
    return 0;
  }

  fsync(number) {
    this.fileOf(number).sync();
    return 0;
  }

  fdatasync(number) {
    return this.fsync(number);
  }

  ftruncate(number, size) {
    this.fileOf(number).truncate(Number(size));
    return 0;
  }

  unlink(path) {
    this.store.remove(this.textAt(path));
    return 0;
  }

  socket() {
    throw new SystemError("EAFNOSUPPORT");
  }

  getentropy(pointer, count) {
    globalThis.crypto.getRandomValues(this.view(pointer, count));
    return 0;
  }
}

// What the program's runtime needs besides the calls of the C library.
function runtimeOf(system) {
  return {
    rattle_errno: () => system.error,
    rattle_set_errno: (number) => {
      system.error = number;
    },
    // The length of a word, -1 where there is none, or -2 where there is not room for all of it.
    rattle_arg: (index, pointer, count) => {
      const word = system.words[Number(index)];
      if (!word) return -1n;
      const given = system.give(pointer, word.subarray(0, Number(count)));
      return given < word.length ? -2n : BigInt(given);
    },
    // No variable of the environment is set.
    rattle_env: () => -1n,
    rattle_env_at: () => -1n,
    __xpg_strerror_r: (number, pointer, count) => {
      const known = Object.values(ERRORS).find((error) => error[0] === number);
      const text = new TextEncoder().encode(`${known ? known[1] : `Unknown error ${number}`}\0`);
      return system.give(pointer, text.subarray(0, Number(count))) < text.length ? 34 : 0; // ERANGE
    },
    // There are no signals.
    __sysv_signal: () => 0n,
    // The features of the processor: all. The code for WebAssembly depends on none.
    __x86_get_cpuid_feature_leaf: () => {
      system.leaf ??= system.exports.desk_take(64n);
      system.view(system.leaf, 64).fill(255);
      return system.leaf;
    },
  };
}

// Calls whose answer has 64 bits.
const WIDE = new Set(["read", "write", "__write", "pread", "pwrite", "recv", "send", "rattle_lookup_host"]);

// A call of the system as the module makes it. One that is not implemented here fails with ENOSYS.
function imported(system, name, around) {
  const call = (...given) => {
    if (!(name in system)) throw new SystemError("ENOSYS");
    return system[name](...given);
  };
  const answered = (...given) => {
    try {
      return around ? around(name, given, call, system) : call(...given);
    } catch (why) {
      if (!(why instanceof SystemError)) throw why;
      system.error = why.number;
      return -1;
    }
  };
  return WIDE.has(name) ? (...given) => BigInt(answered(...given)) : answered;
}

// Runs a command of the program: its words, without the name of the program, are texts or bytes. Afterwards `files` has
// what it saved. The options, none of which is needed:
//
//     input     what the standard input gives: a Uint8Array
//     files     a Map of Files by their names, or a Store
//     room      how many bytes the files may have in all
//     inUse     a Set of the names of files that another program has locked
//     memory    how many bytes of memory the command may take
//     streams   three objects in place of the standard streams: one with `read`, two with `write`; none is a closed one
//     around    makes each call in place of the system, for tests: around(name, arguments, call, system)
//
// The answer has its status, what it printed, its diagnostics as a text, and how many bytes of memory it had.
export function run(module, words, { input, files, room, inUse, memory, streams, around } = {}) {
  const output = new Output();
  const notes = new Output();
  const store = files instanceof Store ? files : new Store(files, { room, inUse });
  const system = new System(words, streams ?? [new Input(input ?? new Uint8Array(0)), output, notes], store);
  const runtime = runtimeOf(system);
  const env = {};
  for (const { name } of WebAssembly.Module.imports(module)) {
    env[name] = runtime[name] ?? imported(system, name, around);
  }
  system.exports = new WebAssembly.Instance(module, { env }).exports;
  if (memory !== undefined) system.exports.desk_limit(BigInt(memory));
  const status = system.exports.main(0, 0n);
  return {
    status,
    output: output.bytes,
    notes: new TextDecoder("utf-8", { ignoreBOM: true }).decode(notes.bytes),
    memory: system.exports.memory.buffer.byteLength,
  };
}
