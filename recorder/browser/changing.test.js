'use strict';
// Requests that may change something on a server.

const assert = require('node:assert');
const { test } = require('node:test');
const { changing } = require('./changing.js');

test('what may change something on a server, and on which', () => {
  const asked = ['GET http://shop.example/', 'POST http://localhost/cart', 'PUT https://127.0.0.1:8443/cart', 'POST https://shop.example/cart', 'POST https://shop.example/cart'];
  const folder = { has: (/** @type {string} */ address) => address.startsWith('http://localhost/') };
  const foreign = changing(asked, folder).filter(({ isForeign }) => isForeign);
  assert.deepStrictEqual(foreign.map(({ text }) => text), ['PUT https://127.0.0.1:8443/cart', 'POST https://shop.example/cart']);
  assert.ok(changing(asked).every(({ isForeign }) => isForeign));
  assert.strictEqual(changing(asked).length, 3);
});
