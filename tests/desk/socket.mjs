// A WebSocket over TCP, as a client has it (RFC 6455), for messages of text. That of Node 20 sends 4,096 messages and then
// no more.

import crypto from "node:crypto";
import net from "node:net";

const TEXT = 1;
const CLOSE = 8;
const PING = 9;
const PONG = 10;

export class Socket {
  #bytes = Buffer.alloc(0);
  #isOpen = false;
  #parts = [];

  // Each whole message is given to `heard`.
  constructor(address, heard) {
    const { host, hostname, port, pathname } = new URL(address);
    this.heard = heard;
    this.line = net.connect(Number(port), hostname);
    this.line.on("data", (data) => this.#read(data));
    this.opened = new Promise((done, failed) => {
      this.open = done;
      this.line.on("error", failed);
    });
    const key = crypto.randomBytes(16).toString("base64");
    const head = [`GET ${pathname} HTTP/1.1`, `Host: ${host}`, "Upgrade: websocket", "Connection: Upgrade",
      `Sec-WebSocket-Key: ${key}`, "Sec-WebSocket-Version: 13"];
    this.line.write(`${head.join("\r\n")}\r\n\r\n`);
  }

  send(text) {
    this.#send(TEXT, Buffer.from(text));
  }

  // A frame: its kind, its length in 7, 16 or 64 bits, four bytes as a mask, and the text under the mask.
  #send(kind, text) {
    const { length } = text;
    const head = Buffer.alloc(length < 126 ? 2 : length < 65536 ? 4 : 10);
    head[0] = 0x80 | kind;
    head[1] = 0x80 | (head.length === 2 ? length : head.length === 4 ? 126 : 127);
    if (head.length === 4) head.writeUInt16BE(length, 2);
    if (head.length === 10) head.writeBigUInt64BE(BigInt(length), 2);
    const mask = crypto.randomBytes(4);
    this.line.write(Buffer.concat([head, mask, text.map((byte, at) => byte ^ mask[at % 4])]));
  }

  #read(data) {
    this.#bytes = Buffer.concat([this.#bytes, data]);
    if (!this.#isOpen) this.#readHead();
    while (this.#isOpen && this.#readFrame());
  }

  #readHead() {
    const end = this.#bytes.indexOf("\r\n\r\n");
    if (end < 0) return;
    if (!/^HTTP\/1.1 101 /.test(this.#bytes.toString("latin1", 0, end))) {
      this.line.destroy(new Error(this.#bytes.toString("latin1", 0, end)));
      return;
    }
    this.#bytes = this.#bytes.subarray(end + 4);
    this.#isOpen = true;
    this.open();
  }

  // Reads a frame, if it is there whole. What a server sends has no mask.
  #readFrame() {
    const bytes = this.#bytes;
    if (bytes.length < 2) return false;
    const short = bytes[1] & 0x7f;
    const start = short < 126 ? 2 : short === 126 ? 4 : 10;
    if (bytes.length < start) return false;
    const length = start === 2 ? short : start === 4 ? bytes.readUInt16BE(2) : Number(bytes.readBigUInt64BE(2));
    if (bytes.length < start + length) return false;
    this.#bytes = bytes.subarray(start + length);
    this.#take(bytes[0] & 0x0f, (bytes[0] & 0x80) !== 0, bytes.subarray(start, start + length));
    return true;
  }

  #take(kind, isLast, text) {
    if (kind === PING) this.#send(PONG, text);
    else if (kind === CLOSE) this.line.end();
    else if (kind !== PONG) {
      this.#parts.push(text);
      if (!isLast) return;
      const whole = Buffer.concat(this.#parts).toString();
      this.#parts = [];
      this.heard(whole);
    }
  }
}
