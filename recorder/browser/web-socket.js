'use strict';
// A client of the WebSocket protocol (RFC 6455), as far as the browser's remote debugging needs it: texts, over a connection to this machine. Sockets of the
// page: page/tasks/connections.js.

const { createHash, randomBytes } = require('node:crypto');
const { EventEmitter } = require('node:events');
const net = require('node:net');

/** @typedef {{host: string, port: number}} Endpoint */

/** From RFC 6455: by it the server proves that it talks WebSocket. Then the codes of frames. */
const MAGIC = '258EAFA5-E914-47DA-95CA-C5AB0DC85B11';
const CONTINUATION = 0;
const TEXT = 1;
const CLOSE = 8;
const PING = 9;
const PONG = 10;
/** Of a frame's first byte: whether it is the last of its message, bits that no extension has agreed on, and its kind. */
const LAST = 0x80;
const RESERVED = 0x70;
const KIND = 0x0f;
const MASKED = 0x80;
const LONGEST_CONTROL = 125;
const LONGEST_HEAD = 16384;
const LONGEST_MESSAGE = 1 << 29;

/**
 * The frame of a message, masked as a client's must be.
 * @param {number} kind
 * @param {Buffer} payload
 */
function frame(kind, payload) {
  const short = payload.length < 126;
  const head = short ? Buffer.alloc(2) : payload.length < 65536 ? Buffer.alloc(4) : Buffer.alloc(10);
  head[0] = LAST | kind;
  head[1] = MASKED | (short ? payload.length : head.length === 4 ? 126 : 127);
  if (head.length === 4) head.writeUInt16BE(payload.length, 2);
  if (head.length === 10) head.writeBigUInt64BE(BigInt(payload.length), 2);
  const mask = randomBytes(4);
  const masked = Buffer.from(payload);
  for (let k = 0; k < masked.length; k++) masked[k] ^= mask[k & 3];
  return Buffer.concat([head, mask, masked]);
}

/** Bytes that came in pieces. Each byte is copied at most twice, however many pieces a message has. */
class Received {
  constructor() {
    /** @type {Buffer[]} */
    this.pieces = [];
    this.size = 0;
  }

  /**
   * Adds bytes that came.
   * @param {Buffer} piece
   */
  add(piece) {
    this.pieces.push(piece);
    this.size += piece.length;
  }

  /**
   * The first bytes, which must be there: at least `size`. Only as many pieces are joined as these bytes need.
   * @param {number} size
   */
  first(size) {
    let [count, length] = [0, 0];
    while (length < size) length += this.pieces[count++].length;
    if (count > 1) this.pieces.splice(0, count, Buffer.concat(this.pieces.slice(0, count)));
    return this.pieces[0] || Buffer.alloc(0);
  }

  /**
   * Takes the first bytes away.
   * @param {number} size
   */
  take(size) {
    const start = this.first(size);
    const rest = start.subarray(size);
    this.pieces.splice(0, 1, ...(rest.length ? [rest] : []));
    this.size -= size;
    return start.subarray(0, size);
  }
}

/** Events: `message` with a text, and `close` with the reason, once. Made by attached.js. */
class WebSocketClient extends EventEmitter {
  /**
   * Opens a connection. Fails with the reason if it can not be opened.
   * @param {Endpoint & {path: string}} place
   * @param {number} longest in milliseconds
   * @returns {Promise<WebSocketClient>}
   */
  static open({ host, port, path }, longest) {
    return new Promise((resolve, reject) => {
      const client = new WebSocketClient(host, port, path);
      const timer = setTimeout(() => client.shut('no answer'), longest);
      client.once('open', () => { clearTimeout(timer); resolve(client); });
      client.once('close', (why) => { clearTimeout(timer); reject(new Error(why)); });
    });
  }

  /**
   * @param {string} host
   * @param {number} port
   * @param {string} path
   */
  constructor(host, port, path) {
    super();
    this.key = randomBytes(16).toString('base64');
    this.isOpen = false;
    this.isShut = false;
    this.received = new Received();
    /**
     * The parts of the message that is not complete.
     * @type {Buffer[]}
     */
    this.parts = [];
    this.size = 0;
    this.socket = net.connect({ host, port });
    this.socket.setNoDelay(true);
    this.socket.on('connect', () => this.socket.write([`GET ${path} HTTP/1.1`, `Host: ${host.includes(':') ? `[${host}]` : host}:${port}`, 'Upgrade: websocket', 'Connection: Upgrade',
      `Sec-WebSocket-Key: ${this.key}`, 'Sec-WebSocket-Version: 13', '', ''].join('\r\n')));
    this.socket.on('data', (data) => this.receive(data));
    this.socket.on('error', (fault) => this.shut(fault.message));
    this.socket.on('close', () => this.shut('the connection was closed'));
  }

  /**
   * Sends a text.
   * @param {string} text
   */
  send(text) {
    this.socket.write(frame(TEXT, Buffer.from(text)));
  }

  /**
   * Closes the connection without an answer. Called by attached.js.
   * @param {string} why
   */
  shut(why) {
    if (this.isShut) return;
    this.isShut = true;
    this.socket.destroy();
    this.emit('close', why);
  }

  // ---- what comes

  /**
   * Takes bytes as they come.
   * @param {Buffer} data
   */
  receive(data) {
    this.received.add(data);
    this.receiveAll();
  }

  receiveAll() {
    while (!this.isShut && (this.isOpen ? this.receiveFrame() : this.receiveHead()));
  }

  /** Reads the server's answer to the upgrade. Returns false, as what follows is read later. */
  receiveHead() {
    const end = this.received.first(this.received.size).indexOf('\r\n\r\n');
    if (end < 0) {
      if (this.received.size > LONGEST_HEAD) this.shut('no answer of a WebSocket');
      return false;
    }
    const head = this.received.take(end + 4).toString('latin1');
    const due = createHash('sha1').update(this.key + MAGIC).digest('base64');
    const accepted = /^sec-websocket-accept: *(\S+)/im.exec(head)?.[1];
    if (!/^HTTP\/1\.1 101 /.test(head) || accepted !== due) {
      this.shut(`no WebSocket: ${head.split('\r\n')[0]}`);
      return false;
    }
    this.isOpen = true;
    this.emit('open');
    setImmediate(() => this.receiveAll()); // who waits for the connection listens by then
    return false;
  }

  /** The next frame's first byte, second byte, and the lengths of its head and payload; null if its head is not complete. */
  nextFrame() {
    if (this.received.size < 2) return null;
    const [first, second] = this.received.first(2);
    const short = second & ~MASKED;
    const head = short === 126 ? 4 : short === 127 ? 10 : 2;
    if (this.received.size < head) return null;
    const bytes = this.received.first(head);
    const payload = head === 2 ? short : head === 4 ? bytes.readUInt16BE(2) : Number(bytes.readBigUInt64BE(2));
    return { first, second, head, payload };
  }

  /** Reads a frame, if it is there as a whole. Returns whether there can be another one. */
  receiveFrame() {
    const next = this.nextFrame();
    if (!next) return false;
    const why = this.whyRefused(next);
    if (why) {
      this.shut(why);
      return false;
    }
    const { first, head, payload } = next;
    if (this.received.size < head + payload) return false;
    const bytes = this.received.take(head + payload).subarray(head);
    this.receivePayload(first & KIND, bytes, (first & LAST) !== 0);
    return true;
  }

  /**
   * Why a client must refuse a frame, or ''.
   * @param {{first: number, second: number, payload: number}} frame
   */
  whyRefused({ first, second, payload }) {
    const kind = first & KIND;
    if (first & RESERVED || second & MASKED) return 'a frame that no server may send';
    if (kind === CLOSE || kind === PING || kind === PONG) return first & LAST && payload <= LONGEST_CONTROL ? '' : 'a control frame that is too long';
    if (kind !== TEXT && kind !== CONTINUATION) return 'a message that is no text';
    if ((kind === CONTINUATION) !== this.parts.length > 0) return 'parts of messages in no order';
    return this.size + payload > LONGEST_MESSAGE ? 'a message that is too long' : '';
  }

  /**
   * Takes what a frame has: a part of a text, or of the protocol itself.
   * @param {number} kind
   * @param {Buffer} payload
   * @param {boolean} isLast
   */
  receivePayload(kind, payload, isLast) {
    if (kind === CLOSE) this.shut('the browser closed the connection');
    else if (kind === PING) this.socket.write(frame(PONG, payload));
    else if (kind !== PONG) {
      this.parts.push(payload);
      this.size += payload.length;
      if (!isLast) return;
      const text = Buffer.concat(this.parts).toString();
      this.parts = [];
      this.size = 0;
      this.emit('message', text);
    }
  }
}

module.exports = { WebSocketClient, frame };
