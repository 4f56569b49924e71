'use strict';
// What a page can get hold of: whatever it finds of the recorder writes no line of its choice to the log, and has no way to the log.

const assert = require('node:assert');
const fs = require('node:fs');
const path = require('node:path');
const { after, before, test } = require('node:test');
const { Chromium } = require('../browser/chromium.js');
const { parseOptions } = require('../recording/options.js');
const { Recorder } = require('../recording/recorder.js');
const { temporaryFolder } = require('./cleanup.js');

/** @type {Chromium} */
let browser;
before(async () => { browser = await Chromium.launch({ width: 1100, height: 800 }); });
after(() => browser.close());

/** Records a page with one script. */
async function recorded(/** @type {string} */ name, /** @type {string} */ script) {
  const file = path.join(temporaryFolder('page-reach'), `${name}.html`);
  fs.writeFileSync(file, `<!doctype html>\n<title>${name}</title>\n<p id="out"></p>\n<script>\n${script}\n</script>\n`);
  const recorder = new Recorder(file, { ...parseOptions([file]), browser });
  await recorder.record();
  const lines = [...recorder.intake.entries.map(({ text }) => text), ...recorder.intake.names.map((one) => JSON.stringify(one))];
  return { lines, said: recorder.consoleErrors, missed: recorder.intake.missed, errors: recorder.errors };
}

/** Collects what can be reached from some values: by properties, getters, prototypes and symbols; not what the page itself has. */
const WALK = `
function reach(from, found, isKnown) {
  const left = [...from];
  while (left.length) {
    const one = left.pop();
    if ((typeof one !== 'object' && typeof one !== 'function') || one === null || found.has(one) || isKnown.has(one)) continue;
    found.add(one);
    left.push(Object.getPrototypeOf(one));
    for (const key of Reflect.ownKeys(one)) {
      const descriptor = Reflect.getOwnPropertyDescriptor(one, key);
      left.push(descriptor.value, descriptor.get, descriptor.set);
    }
    for (const key of ['caller', 'arguments']) { try { left.push(one[key]); } catch {} }
    try { for (const entry of one.entries()) left.push(...entry); } catch {}
  }
  return found;
}
/** Whether something is of the recorder's log, or leads there. */
const isLog = (one) => ['line', 'sendAll', 'noteIn', 'accessNow', 'flush'].some((name) => { try { return typeof one[name] === 'function'; } catch { return false; } });
`;

test('nothing that is reached from the helpers is the log, and no function writes a line that the page chooses', async () => {
  const { lines, said } = await recorded('walk', `${WALK}
const helpers = __er;
const frame = document.createElement('iframe');
document.body.append(frame);
const ofWindow = reach([window.Object, window.Function, window.Array, window.Map, document, location, navigator, performance], new Set(), new Set([helpers, window]));
const results = [];
const scope = helpers.s(1, 2000001);
const names = ['a', 'b', 'c', 'd', 'e', 'f', 'g', 'h', 'i', 'j'];
for (const name of names) helpers.z(scope, name, 100 + name.charCodeAt(0), 1);
const kept = helpers.as(2);
results.push(scope, kept, helpers.handlerBegins(document.body, undefined, 'click'), helpers.handlerEnds(), frame.contentWindow.__er);
try { null.x; } catch (error) { results.push(error); }
const found = reach([helpers, ...results], new Set(), ofWindow);
const logs = [...found].filter(isLog);
console.error('logs ' + logs.length + ' of ' + (found.size > 40));
const forged = 'x\\nforged line';
for (const one of found) {
  if (typeof one !== 'function' || one === reach || one === isLog) continue;
  for (const args of [[forged], [forged, 1], ['x', forged], ['x', forged, 1], [1, 'x', forged], [forged, 'x', 1], [{}, 'x', forged], [forged, forged, forged, forged]]) {
    try { one(...args); } catch {}
    try { new one(...args); } catch {}
  }
}
console.error('done');
`);
  assert.deepStrictEqual(said, ['logs 0 of true', 'done']);
  assert.deepStrictEqual(lines.filter((line) => /^forged/.test(line)), []);
});

/** What a page could do as the log was a property of the helpers, and what the helpers wrote of their arguments; each is a script of one page. */
const ATTEMPTS = {
  'a note that is no JSON': "__er.recording.log.send('#{')",
  'an end of the trace': "__er.recording.log.send('end\\nwebtrace 9')",
  'an access': "__er.recording.log.line('w var 0 forged')",
  'a loss': "__er.recording.log.miss('forged')",
  'the recording for a wrong secret': "__er.recording('').log.line('w var 0 forged')",
  'a place with a line break': "__er.r('x', '1\\nw var 0 forged')",
  'a module with a line break': "__er.rm('0 x\\nw var 0 forged', 'x', 7)",
  'a scope with a number of its own': "const s = __er.s(8, '0 x\\nw var 0 forged'); __er.v(s, 'x', 9); setTimeout(() => __er.z(s, 'x', 10, 1, 2), 1)",
  'a scope that is none': "__er.v({ variable() { console.error('forged'); } }, 'x', 11)",
  'other helpers for a frame': `const taken = [];
    try { Object.defineProperty(window, '__er', { value: { recording: (secret) => { taken.push(secret); return null; } } }); } catch {}
    document.body.append(document.createElement('iframe'));
    console.error('taken ' + taken.length);`,
  'the binding': "for (const name of Object.getOwnPropertyNames(window)) { if (/^__er./.test(name)) window[name]('w var 0 forged'); }",
  'what an await keeps': "const kept = __er.as(1); kept.moment.event.awaits.recording.log.line('w var 0 forged')",
};

test('no attempt to write into the log has an effect', async () => {
  const { lines, said, missed } = await recorded('attempts', Object.values(ATTEMPTS).map((attempt) => `{ ${attempt}; }`).join('\n</script>\n<script>\n'));
  assert.deepStrictEqual(lines.filter((line) => /^[wr] var 0 forged|^(end|webtrace)/.test(line)), []);
  assert.deepStrictEqual(said.filter((line) => /forged|taken/.test(line)), ['taken 0']);
  assert.ok(!('forged' in missed));
});

/** Functions of the language in whose place a page puts others that take note of what they get. */
const TRAPS = `
const got = new Set();
const natives = { apply: Reflect.apply, add: Set.prototype.add };
function trap(owner, name) {
  const descriptor = Reflect.getOwnPropertyDescriptor(owner, name);
  if (!descriptor || !descriptor.configurable || typeof descriptor.value !== 'function') return;
  const { value } = descriptor;
  Object.defineProperty(owner, name, { ...descriptor, value: function trapped() {
    if (isOn) { natives.apply(natives.add, got, [this]); for (let k = 0; k < arguments.length; k++) natives.apply(natives.add, got, [arguments[k]]); }
    return natives.apply(value, this, arguments);
  } });
}
let isOn = false;
const owners = [Array, Array.prototype, Object, Function.prototype, Map.prototype, Set.prototype, WeakMap.prototype, WeakSet.prototype, String.prototype,
  RegExp.prototype, Reflect, JSON, Object.getPrototypeOf([][Symbol.iterator]()), Object.getPrototypeOf(new Map().entries())];
for (const owner of owners) for (const name of Reflect.ownKeys(owner)) if (name !== 'constructor') trap(owner, name);
`;

test('functions that a page puts in place of those of the language get nothing that leads to the log', async () => {
  const { said, errors } = await recorded('traps', `${WALK}
${TRAPS}
isOn = true;
document.body.addEventListener('click', () => { window.clicked = 1; });
setTimeout(() => { window.timed = 1; }, 1);
Promise.resolve().then(() => { window.settled = 1; });
document.body.append(document.createElement('iframe'));
document.body.click();
window.dispatchEvent(new Event('own'));
setTimeout(() => {
  isOn = false;
  const ways = (one) => { try { return [one, one.recording, one.log, one.page, one.awaits, one.event && one.event.awaits]; } catch { return []; } };
  const logs = [...got].filter((one) => one !== null && one !== undefined && ways(one).some((way) => way && isLog(way)));
  console.error('logs ' + logs.length + ': ' + logs.map((one) => one.constructor && one.constructor.name).join());
}, 50);
`);
  assert.deepStrictEqual([...errors, ...said], ['logs 0: ']);
});
