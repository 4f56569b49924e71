'use strict';
// Which requests have not ended: a body that the page does not read has no end.

const assert = require('node:assert');
const { test } = require('node:test');
const { NetworkLog } = require('./network-log.js');

/** A log, and the events of its tab. */
async function logOfTab() {
  /** @type {Map<string, (params: object) => void>} */
  const listeners = new Map();
  const tab = { on: (/** @type {string} */ name, /** @type {(params: object) => void} */ call) => listeners.set(name, call), send: async () => ({}) };
  const log = new NetworkLog();
  await log.start(/** @type {import('../tab.js').Tab} */ (/** @type {unknown} */ (tab)));
  return { log, event: (/** @type {string} */ name, /** @type {object} */ params) => listeners.get(`Network.${name}`)?.(params) };
}

const request = (/** @type {string} */ requestId, /** @type {string} */ type) => ({ requestId, type, loaderId: '1', request: { url: `http://localhost/${requestId}`, method: 'GET' } });

test('the body of a fetch is waited for as long as parts of it come, that of another request to its end', async () => {
  // node:test of Node 18 has no timers of its own
  const { setTimeout: own, clearTimeout: ownClear } = globalThis;
  /** @type {Map<object, () => void>} */
  const timers = new Map();
  Object.assign(globalThis, {
    setTimeout: (/** @type {() => void} */ call) => {
      const timer = { unref: () => timer };
      timers.set(timer, call);
      return timer;
    },
    clearTimeout: (/** @type {object} */ timer) => timers.delete(timer),
  });
  const pass = () => [...timers].forEach(([timer, call]) => { timers.delete(timer); call(); });
  try {
    const { log, event } = await logOfTab();
    for (const [id, type] of [['read', 'Fetch'], ['unread', 'Fetch'], ['script', 'Script']]) event('requestWillBeSent', request(id, type));
    for (const [id, type] of [['read', 'Fetch'], ['unread', 'Fetch'], ['script', 'Script']]) event('responseReceived', { requestId: id, type });
    event('dataReceived', { requestId: 'unread' });
    event('dataReceived', { requestId: 'script' });
    event('loadingFinished', { requestId: 'read' });
    assert.deepStrictEqual([[...log.open], timers.size], [['unread', 'script'], 1]);
    pass();
    assert.deepStrictEqual([[...log.open], log.bodies.size], [['script'], 0]);
  } finally {
    Object.assign(globalThis, { setTimeout: own, clearTimeout: ownClear });
  }
});
