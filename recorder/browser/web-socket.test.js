'use strict';
// The small WebSocket client: frames of each length, in pieces, and what is no WebSocket.

const assert = require('node:assert');
const { createHash } = require('node:crypto');
const net = require('node:net');
const { after, test } = require('node:test');
const { WebSocketClient, frame } = require('./web-socket.js');
const { parseEndpoint } = require('./attached.js');

const LONGEST = 2000;
/** @type {net.Server[]} */
const servers = [];
after(() => servers.forEach((server) => server.close()));

/**
 * A server that does what a test says with each connection once its head has come.
 * @param {(socket: net.Socket, key: string) => void} answer
 */
async function serve(answer) {
  const server = net.createServer((socket) => {
    socket.on('error', () => {});
    socket.once('data', (head) => answer(socket, /Sec-WebSocket-Key: (\S+)/.exec(String(head))?.[1] || ''));
  });
  servers.push(server);
  await new Promise((resolve) => { server.listen(0, '127.0.0.1', () => resolve(undefined)); });
  return { host: '127.0.0.1', port: /** @type {net.AddressInfo} */ (server.address()).port, path: '/' };
}

/** @param {string} key */
const accept = (key) => `HTTP/1.1 101 Switching Protocols\r\nSec-WebSocket-Accept: ${createHash('sha1').update(`${key}258EAFA5-E914-47DA-95CA-C5AB0DC85B11`).digest('base64')}\r\n\r\n`;

/**
 * The frame of a server: without a mask.
 * @param {string} text
 */
function plainFrame(text, first = 0x81) {
  const payload = Buffer.from(text);
  const head = payload.length < 126 ? Buffer.from([first, payload.length]) : payload.length < 65536 ? Buffer.from([first, 126, payload.length >> 8, payload.length & 255]) : Buffer.alloc(10);
  if (head.length === 10) {
    head[0] = first;
    head[1] = 127;
    head.writeBigUInt64BE(BigInt(payload.length), 2);
  }
  return Buffer.concat([head, payload]);
}

/**
 * @param {WebSocketClient} client
 * @param {number} count
 * @returns {Promise<string[]>}
 */
const messages = (client, count) => new Promise((resolve) => {
  /** @type {string[]} */
  const all = [];
  client.on('message', (/** @type {string} */ text) => { all.push(text); if (all.length === count) resolve(all); });
});

test('texts of each length, in pieces, and one in two parts', { timeout: 20000 }, async () => {
  const texts = ['ä', 'x'.repeat(126), 'y'.repeat(65536)];
  const bytes = Buffer.concat([...texts.map((text) => plainFrame(text)), plainFrame('one ', 0x01), plainFrame('', 0x89), plainFrame('two', 0x80)]);
  const at = await serve((socket, key) => {
    socket.write(accept(key));
    for (let k = 0; k < bytes.length; k += 10007) socket.write(bytes.subarray(k, k + 10007));
  });
  const client = await WebSocketClient.open(at, LONGEST);
  assert.deepStrictEqual(await messages(client, 4), [...texts, 'one two']);
  client.shut('over');
});

/**
 * Why a client shuts the connection for some bytes.
 * @param {Buffer} bytes
 * @returns {Promise<string>}
 */
async function whyShut(bytes) {
  const at = await serve((socket, key) => socket.write(Buffer.concat([Buffer.from(accept(key)), bytes])));
  const client = await WebSocketClient.open(at, LONGEST);
  return new Promise((resolve) => { client.once('close', resolve); });
}

test('a large message takes time by its size, however many pieces it has', { timeout: 60000 }, async () => {
  const text = 'x'.repeat(80 * 1024 * 1024);
  const bytes = plainFrame(text);
  const at = await serve((socket, key) => {
    socket.write(accept(key));
    for (let k = 0; k < bytes.length; k += 16384) socket.write(bytes.subarray(k, k + 16384));
  });
  const client = await WebSocketClient.open(at, LONGEST);
  const begin = Date.now();
  const [got] = await messages(client, 1);
  assert.strictEqual(got.length, text.length);
  assert.ok(Date.now() - begin < 15000, `${Date.now() - begin} ms`);
  client.shut('over');
});

test('frames that a client refuses', { timeout: 20000 }, async () => {
  assert.match(await whyShut(frame(1, Buffer.from('masked'))), /no server may send/);
  assert.match(await whyShut(plainFrame('compressed', 0xc1)), /no server may send/);
  assert.match(await whyShut(plainFrame('kind 3', 0x83)), /no text/);
  assert.match(await whyShut(plainFrame('binary', 0x82)), /no text/);
  assert.match(await whyShut(plainFrame('rest', 0x80)), /no order/);
  assert.match(await whyShut(Buffer.concat([plainFrame('a', 0x01), plainFrame('b', 0x81)])), /no order/);
  assert.match(await whyShut(plainFrame('x'.repeat(126), 0x89)), /too long/);
  assert.match(await whyShut(plainFrame('', 0x09)), /too long/);
  assert.match(await whyShut(Buffer.from([0x81, 127, 0, 0, 1, 0, 0, 0, 0, 0])), /too long/);
});

test('what a client sends is masked', () => {
  for (const length of [3, 300, 70000]) {
    const bytes = frame(1, Buffer.alloc(length, 97));
    const head = length < 126 ? 2 : length < 65536 ? 4 : 10;
    assert.strictEqual(bytes[1] & 0x80, 0x80);
    assert.strictEqual(bytes.length, head + 4 + length);
    assert.strictEqual(bytes[head + 4] ^ bytes[head], 97);
  }
});

test('what is no WebSocket, and one that closes', { timeout: 20000 }, async () => {
  const refusing = await serve((socket) => socket.write('HTTP/1.1 404 Not Found\r\n\r\n'));
  await assert.rejects(WebSocketClient.open(refusing, LONGEST), /no WebSocket: HTTP\/1\.1 404 Not Found/);
  const wrong = await serve((socket) => socket.write('HTTP/1.1 101 Switching Protocols\r\nSec-WebSocket-Accept: abc\r\n\r\n'));
  await assert.rejects(WebSocketClient.open(wrong, LONGEST), /no WebSocket/);
  const silent = await serve(() => {});
  await assert.rejects(WebSocketClient.open(silent, 100), /no answer/);
  const closing = await serve((socket, key) => socket.end(Buffer.concat([Buffer.from(accept(key)), Buffer.from([0x88, 0])])));
  const client = await WebSocketClient.open(closing, LONGEST);
  await new Promise((resolve) => { client.once('close', resolve); });
});

test('only this machine is asked', () => {
  assert.deepStrictEqual(parseEndpoint('localhost:9222'), { host: '127.0.0.1', port: 9222 });
  assert.deepStrictEqual(parseEndpoint('127.1.2.3:80'), { host: '127.1.2.3', port: 80 });
  assert.deepStrictEqual(parseEndpoint('[::1]:9222'), { host: '::1', port: 9222 });
  for (const wrong of ['example.com:9222', '10.0.0.1:9222', '127.0.0.1', '127.0.0.1:0', '127.0.0.1:99999', 'localhost.example.com:1', '127.0.0.1.example.com:9', '', undefined]) {
    assert.strictEqual(parseEndpoint(wrong), null, String(wrong));
  }
});
