'use strict';
// The list without a browser: names that last, problems, what a race looks like, words that tell both sides apart.

const assert = require('node:assert');
const fs = require('node:fs');
const path = require('node:path');
const { test } = require('node:test');
const { Known } = require('./known.js');
const { Listing } = require('./listing.js');
const { linesOf } = require('./outputs.js');
const { placesOf } = require('./places.js');
const { Problems, listed } = require('./problems.js');
const { SourceText } = require('../races/source-text.js');
const { Actions } = require('../races/actions.js');
const { Words } = require('../races/words.js');
const { RULES } = require('../view/rules.js');
const { judgeLines } = require('../test/list-support.js');

const PAGE = 'http://localhost:8080/page.html';
const SCRIPT = 'setTimeout(slow, 5); setTimeout(quick, 0);\nlet x;\ncount = 1;\ncount = 2;\n';
const NAMES = {
  files: [{ address: PAGE, text: '<p id=a>\n<script>\n' }, { address: 'http://localhost:8080/app.3f9a2b71.js', text: SCRIPT }],
  elements: {}, documents: { 0: { address: PAGE } }, handlers: {}, timeouts: {}, intervals: {}, requests: {}, dispatches: {}, objects: {}, places: {}, values: {}, functions: {},
};

/** @typedef {Partial<import('./types').Names>} Given */

/**
 * @param {string[]} lines
 * @param {Given} facts
 */
async function problemsOf(lines, facts = {}) {
  const { text, report } = await judgeLines(lines);
  return new Problems(text, { ...NAMES, ...facts }, report);
}

const TIMERS = ['parse 0 2 inline', 'exec 2', 'set 1 5', 'set 2 0', 'timer 2', 'w var 0 count', 'timer 1', 'w var 0 count'];
/** @type {Given} */
const TIMER_FACTS = { elements: { 2: { tag: 'script', place: [0, 2, 1] } }, places: { 4: [1, 1, 1], 5: [1, 1, 22], 7: [1, 4, 1], 9: [1, 3, 1] } };

test('a name is the same where numbers, ports, lines and the order are others', async () => {
  const one = await problemsOf(TIMERS, { ...TIMER_FACTS, timeouts: { 1: { place: [1, 1, 1] }, 2: { place: [1, 1, 22] } } });
  const moved = { ...NAMES.files[1], address: 'http://localhost:9090/app.99aa77bb.js', text: `\n\n${SCRIPT}` };
  const other = await problemsOf(['parse 0 7 plain', 'parse 0 2 inline', 'exec 2', 'set 3 0', 'set 8 0', 'timer 3', 'w var 0 count', 'tick 1', 'w var 0 count'].flatMap((line) => (line === 'set 8 0' ? ['every 1 0'] : [line])), {
    ...TIMER_FACTS, files: [NAMES.files[0], moved], places: { 5: [1, 3, 1], 6: [1, 3, 22], 8: [1, 5, 1], 10: [1, 6, 1] },
  });
  assert.strictEqual(one.list.length, 1);
  assert.strictEqual(one.list[0].name, other.list[0].name);
  assert.match(one.ofRaces[0].name, /^[0-9a-f]{12}\.[0-9a-f]{6}$/);
});

test('both sides are told apart: by names, by columns, and as two runs', async () => {
  const named = await problemsOf(TIMERS, { ...TIMER_FACTS, timeouts: { 1: { place: [1, 1, 1], function: 'slow' }, 2: { place: [1, 1, 22], function: 'quick' } }, places: {} });
  assert.match(named.list[0].words, /written by the timeout quick set at app\.\w+\.js:1, and written by the timeout slow set at app\.\w+\.js:1;/);
  const columns = await problemsOf(TIMERS, { ...TIMER_FACTS, timeouts: { 1: { place: [1, 1, 1] }, 2: { place: [1, 1, 22] } }, places: {} });
  assert.match(columns.list[0].words, /set at app\.\w+\.js:1:22, and written by the timeout set at app\.\w+\.js:1:1;/);
  const twice = await problemsOf(TIMERS, { ...TIMER_FACTS, timeouts: { 1: { place: [1, 1, 1] }, 2: { place: [1, 1, 1] } }, places: {} });
  assert.match(twice.list[0].words, /by the first run of the timeout set at app\.\w+\.js:1, and written by the second run of the timeout/);
});

test('a problem of an object has one name in both orders, and all items of an array are one', async () => {
  const lines = (/** @type {string[]} */ first, /** @type {string[]} */ second) => ['parse 0 2 inline', 'exec 2', 'set 1 5', 'set 2 0', ...first, ...second];
  /** @type {Given} */
  const facts = { ...TIMER_FACTS, timeouts: { 1: { place: [1, 1, 1] }, 2: { place: [1, 1, 22] } } };
  const objects = (/** @type {string} */ made, /** @type {import('./types').Place} */ place) => ({ objects: { 3000000: { made, text: 'some', place } } });
  const one = await problemsOf(lines(['timer 2', 'w var 3000000 x'], ['timer 1', 'w var 3000000 x']), { ...facts, ...objects('object', [1, 4, 1]), places: { 7: [1, 4, 1], 9: [1, 3, 1] } });
  const other = await problemsOf(lines(['timer 1', 'w var 3000000 x'], ['timer 2', 'r var 3000000 x']), { ...facts, ...objects('object', [1, 3, 1]), places: { 7: [1, 3, 1], 9: [1, 4, 1] } });
  assert.strictEqual(one.list[0].name, other.list[0].name);
  assert.deepStrictEqual(other.list.map(({ look }) => look.look), ['other']);
  const items = ['w var 3000000 (items)', 'w var 3000000 0', 'w var 3000000 1'];
  const list = await problemsOf(lines(['timer 2', ...items], ['timer 1', ...items]), { ...facts, ...objects('array', [1, 4, 1]), places: { 7: [1, 4, 1], 8: [1, 4, 1], 9: [1, 4, 1], 11: [1, 3, 1], 12: [1, 3, 1], 13: [1, 3, 1] } });
  assert.deepStrictEqual(list.list.map(({ races }) => races.length), [3]);
});

test('a library that is a part of a file changes no name: the place is that of the code that calls it', async () => {
  const lines = ['parse 0 1 plain', 'parse 0 2 inline', 'exec 2', 'set 1 0', 'fire 1 1 click', 'r slot 1 click', 'close 1', 'timer 1', 'on 2', 'w slot 1 click'];
  /** @type {(place: import('./types').Place, more?: Given) => Given} */
  const facts = (place, more = {}) => ({ ...TIMER_FACTS, places: { 5: [1, 3, 1], 10: place, 11: place }, handlers: { 2: { type: 'click', place } }, ...more });
  const before = await problemsOf(lines, facts([1, 1, 1]));
  const part = { ...NAMES.files[1], isPart: true, isLibrary: true };
  const after = await problemsOf(lines, facts([1, 3, 1], { files: [...NAMES.files, part], ways: { 10: [2, 1, 1], 11: [2, 1, 1] } }));
  assert.strictEqual(before.list.length, 1);
  assert.deepStrictEqual(after.ofRaces.map(({ name }) => name), before.ofRaces.map(({ name }) => name));
  assert.match(linesOf(new Listing([after], null))[0], /app\.3f9a2b71\.js:3/);
});

test('what a key changes has one name in the event of the key and in that of the change', async () => {
  const key = ['fire 1 2 keydown', 'w var 1000002 value', 'r slot 2 keydown', 'run 1 0 1', 'close 1', 'inline 2 4 input', 'w var 1000002 value', 'close 2', 'back 2'];
  const lines = ['parse 0 2 plain', 'parse 0 3 inline', 'exec 3', 'set 1 0', 'new 0 4 plain', 'timer 1', 'r var 1000002 value', 'on 1', 'w slot 2 keydown', ...key];
  const elements = { 2: { tag: 'textarea', id: 't' }, 3: { tag: 'script' }, 4: { standsFor: 2, tag: 'textarea', id: 't' } };
  /** @type {Given} */
  const facts = { elements, handlers: { 1: { type: 'keydown', target: 2, place: [1, 1, 1] } }, dispatches: { 1: { type: 'keydown', act: 1000 } }, places: { 8: [1, 2, 1] }, timeouts: { 1: { place: [1, 1, 1] } } };
  const typed = await problemsOf(lines, { ...facts, typed: { 12: true } });
  const without = await problemsOf(lines.filter((line, k) => !/^(?:run|on)|^w slot/.test(line) && k !== 10), { ...facts, places: { 8: [1, 2, 1] } });
  const ofField = (/** @type {Problems} */ { list }) => list.filter(({ words }) => words.includes('value'));
  assert.deepStrictEqual([ofField(typed).length, ofField(without).length], [1, 1]);
  assert.strictEqual(ofField(typed)[0].name, ofField(without)[0].name);
});

test('problems at one location are one line, but where their names are asked for', async () => {
  const lines = ['parse 0 2 inline', 'exec 2', 'set 1 9', 'set 2 5', 'set 3 0', 'timer 3', 'w var 0 count', 'timer 2', 'w var 0 count', 'timer 1', 'w var 0 count'];
  /** @type {Given['places']} */
  const places = { 4: [1, 1, 1], 5: [1, 1, 22], 6: [1, 2, 1], 8: [1, 4, 1], 10: [1, 3, 1], 12: [1, 2, 1] };
  const problems = await problemsOf(lines, { ...TIMER_FACTS, timeouts: { 1: { place: [1, 1, 1] }, 2: { place: [1, 1, 22] }, 3: { place: [1, 2, 1] } }, places });
  assert.strictEqual(problems.lines().length, 3);
  const told = linesOf(new Listing([problems], null));
  const heads = (/** @type {string[]} */ all) => all.filter((line) => /^\S+ {2}/.test(line));
  assert.deepStrictEqual(heads(told).map((line) => line.replace(/ {3,}/, '   ')), ['app.3f9a2b71.js:4  `count` keeps what is written last, by the timeout at app.3f9a2b71.js:1:22 or by the timeout at app.3f9a2b71.js:2:1  other']);
  assert.ok(told.some((line) => /^ {4}[0-9a-f]{12} \(for races\.known\); in all, 3 problems: 3 races$/.test(line)), told.join('\n'));
  assert.strictEqual(heads(linesOf(new Listing([problems], new Known('', 'known')))).length, 3);
});

test('a load handler is told with its request', () => {
  const text = ['webtrace 3', 'parse 0 2 inline', 'exec 2', 'send 1', 'on 1', 'reply 1 1', 'run 1 0 1', 'w var 0 x', 'close 1', ''].join('\n');
  const words = new Words({ ...NAMES, requests: { 1: { address: 'data/one.json', place: [1, 1, 1] } }, handlers: { 1: { type: 'load', place: [1, 3, 1] } } }, new Actions(text));
  assert.strictEqual(words.action(3), 'the load handler of the request for one.json at app.3f9a2b71.js:3');
});

test('buttons without an id, messages and frames are told apart', async () => {
  /** @type {import('./types').Names} */
  const facts = { ...NAMES, documents: { 0: { address: PAGE }, 1: { address: 'http://localhost:8080/inside.html' } }, elements: { 2: { tag: 'button', place: [0, 1, 1] }, 3: { tag: 'button', place: [0, 2, 1] } }, messages: { 1: { place: [1, 3, 1] } } };
  const text = ['webtrace 3', 'parse 0 2 plain', 'parse 0 3 frame 1', 'fire 1 2 click', 'close 1', 'fire 2 3 click', 'close 2', 'fire 3 2 click', 'close 3', 'load 4 1', 'wfire 5 1 resize', 'message 1', ''].join('\n');
  const words = new Words(facts, new Actions(text));
  assert.deepStrictEqual(words.actors({ actions: [2, 4], lines: [4, 6], modes: 'ww' }, 'variable'), ['the click at button (page.html:1:1)', 'the click at button (page.html:2:1)']);
  assert.deepStrictEqual(words.actors({ actions: [2, 6], lines: [4, 8], modes: 'ww' }, 'variable'), ['the first click at button', 'the second click at button']);
  assert.deepStrictEqual(words.actors({ actions: [3, 7], lines: [5, 9], modes: 'ww' }, 'variable'), ['what the browser did behind the first click at button', 'what the browser did behind the second click at button']);
  assert.deepStrictEqual([8, 9, 10].map((number) => words.action(number)), ['the load of the window of the frame inside.html', 'the resize at the window of the frame inside.html', 'the message posted at app.3f9a2b71.js:3']);
});

test('which run it is, in words', async () => {
  const timers = Array.from({ length: 23 }, (none, k) => k + 1);
  const text = ['webtrace 3', 'parse 0 2 inline', 'exec 2', ...timers.map((k) => `set ${k} 0`), ...timers.map((k) => `timer ${k}`), ''].join('\n');
  const words = new Words({ ...NAMES, timeouts: Object.fromEntries(timers.map((k) => [k, { place: [1, 1, 1] }])) }, new Actions(text));
  const [first, last] = words.actors({ actions: [12, 24], lines: [1, 1], modes: 'ww' }, 'variable');
  assert.match(first, /^the 11th run of the timeout set at app/);
  assert.match(last, /^the 23rd run of the timeout set at app/);
});

/** A button's handler is set by a timeout; three clicks at elements around it look for it. */
const CLICKS = ['parse 0 1 plain', 'parse 0 2 plain', 'parse 0 3 inline', 'exec 3', 'set 1 0', 'timer 1', 'on 1', 'w slot 1 click/1',
  'fire 1 1 click', 'r slot 1 click/1', 'close 1', 'fire 2 2 click', 'r slot 1 click/1', 'close 2'];
/** @type {Given & Pick<import('./types').Names, 'elements'>} */
const CLICK_FACTS = {
  elements: { 1: { tag: 'button', id: 'go' }, 2: { tag: 'a', id: 'link7' }, 3: { tag: 'script', place: [0, 2, 1] } }, handlers: { 1: { type: 'click', target: 1 } },
  timeouts: { 1: { place: [1, 1, 1] } }, places: { 9: [1, 3, 1] }, dispatches: { 1: { type: 'click', act: 1000 }, 2: { type: 'click', act: 2000 } },
};

test('one problem of two clicks, told with both', async () => {
  const { list, report } = await problemsOf(CLICKS, CLICK_FACTS);
  assert.strictEqual(report.races.length, 2);
  assert.strictEqual(list.length, 1);
  assert.strictEqual(list[0].races.length, 2);
  assert.match(list[0].words, /2 such: the click at button#go, a#link7\.$/);
  assert.strictEqual(list[0].look.name, 'late handler');
});

test('a late handler of a mouse that moves is in a section of its own, at the end, if it ran and only read; if it wrote, it is often harmless', async () => {
  const late = (/** @type {string} */ access) => ['parse 0 1 plain', 'parse 0 2 async', 'parse 0 3 async', 'exec 2', 'w var 0 count', 'exec 3', 'on 1', 'w slot 1 mouseover/1', 'w var 0 count',
    'fire 1 1 mouseover', 'r slot 1 mouseover/1', 'run 1 0 1', access, 'close 1'];
  /** @type {Given} */
  const facts = { elements: { 1: { tag: 'button', id: 'go' } }, handlers: { 1: { type: 'mouseover', target: 1, place: [1, 3, 1] } }, dispatches: { 1: { type: 'mouseover', act: 1000 } }, places: { 6: [1, 3, 1], 9: [1, 3, 1], 10: [1, 4, 1] } };
  const lines = async (/** @type {string} */ access) => linesOf(new Listing([await problemsOf(late(access), facts)], null));
  const idle = await lines('r var 0 other');
  assert.match(idle[0], /^2 problems \(other: 1; late handlers that changed nothing: 1\)$/);
  assert.ok(idle.indexOf('-- late handlers that changed nothing') > idle.indexOf('-- other'));
  assert.ok(idle.includes('    recorded: the handler was there, and changed nothing that is recorded'));
  assert.match((await lines('w var 0 other'))[0], /^2 problems \(other: 1; often harmless: 1\)$/);
});

test('the place of a library\'s call is that of the page\'s own code from which it comes', async () => {
  const library = { address: 'http://localhost:8080/jquery.js', text: '\n', isLibrary: true };
  const timers = { 1: { place: /** @type {import('./types').Place} */ ([2, 1, 1]) }, 2: { place: /** @type {import('./types').Place} */ ([1, 1, 22]) } };
  const races = await problemsOf(['parse 0 2 inline', 'exec 2', 'set 2 0', 'set 3 9', 'timer 2', 'set 1 0', 'timer 1', 'w var 0 count', 'timer 3', 'w var 0 count'],
    { ...TIMER_FACTS, files: [...NAMES.files, library], timeouts: { ...timers, 3: { place: [2, 1, 9] } }, places: { 4: [1, 1, 22], 5: [2, 1, 9], 7: [2, 1, 1], 9: [2, 1, 5], 11: [2, 1, 7] } });
  const [head, first] = linesOf(new Listing([races], null));
  assert.match(head, /^app\.3f9a2b71\.js:1 {2}`count` keeps what is written last/);
  assert.match(first, /jquery\.js:1:5 {2}timeout, scheduled at jquery\.js:1:1 \(from app\.3f9a2b71\.js:1:22\)$/);
});

test('a user\'s act has the place of the element at which it is', async () => {
  const { elements } = CLICK_FACTS;
  const problems = await problemsOf(CLICKS, { ...CLICK_FACTS, elements: { ...elements, 2: { ...elements[2], place: [0, 1, 1] } }, places: { 3: [0, 1, 3], ...CLICK_FACTS.places } });
  assert.deepStrictEqual(problems.report.races.map((race, k) => placesOf(problems, k)), [[[1, 3, 1], null], [[1, 3, 1], [0, 1, 1]]]);
  const made = await problemsOf(CLICKS, { ...CLICK_FACTS, places: { 2: [0, 1, 3], ...CLICK_FACTS.places } });
  assert.deepStrictEqual(placesOf(made, 0)[1], [0, 1, 3]);
});

const looksOf = async (/** @type {string[]} */ lines, /** @type {Given} */ facts = {}) => (await problemsOf(lines, facts)).list.map(({ look }) => [look.name, look.seen]);

test('a field written over what a user typed', async () => {
  const lines = ['parse 0 1 plain', 'parse 0 2 inline', 'exec 2', 'set 1 0', 'fire 1 1 input', 'w var 1000001 value', 'close 1', 'timer 1', 'w var 1000001 value'];
  const [[name, seen]] = await looksOf(lines, { elements: { 1: { tag: 'input' } }, dispatches: { 1: { type: 'input', act: 1001 } } });
  assert.strictEqual(name, 'overwritten field');
  assert.match(seen, /here the user came first, and it was written over$/);
});

test('a use before the definition, in either order', async () => {
  const lines = (/** @type {string} */ first, /** @type {string} */ second) => ['parse 0 1 async', 'parse 0 2 async', 'exec 1', first, 'exec 2', second];
  assert.match((await looksOf(lines('r var 0 x', 'w var 0 x'), { values: { 5: '-' } }))[0].join(), /use before definition.*here nothing was found/);
  assert.match((await looksOf(lines('w var 0 x', 'r var 0 x'), { values: { 7: 'o' } }))[0].join(), /use before definition.*in the other order nothing is found/);
  assert.strictEqual((await looksOf(lines('r var 0 x', 'w var 0 x'), { values: { 5: 'o' } }))[0][0], 'other');
});

test('the same value, overwriting replies, a flag that both ask', async () => {
  const writes = ['parse 0 1 async', 'parse 0 2 async', 'exec 1', 'w var 0 x', 'exec 2', 'w var 0 x'];
  assert.strictEqual((await looksOf(writes, { values: { 5: 's1a1', 7: 's1a1' } }))[0][0], 'same value');
  assert.strictEqual((await looksOf(writes, { values: { 5: 'o', 7: 'o' } }))[0][0], 'other');
  const replies = ['parse 0 1 inline', 'exec 1', 'send 1', 'send 2', 'reply 1 2', 'w var 0 x', 'close 1', 'reply 2 1', 'w var 0 x', 'close 2'];
  assert.strictEqual((await looksOf(replies))[0][0], 'overwriting replies');
  const flag = ['parse 0 1 async', 'parse 0 2 async', 'exec 1', 'r var 0 ready', 'w var 0 loaded', 'exec 2', 'r var 0 loaded', 'w var 0 ready'];
  const looks = await looksOf(flag, { values: { 5: 'false', 6: 'true', 8: 'true', 9: 'true' } });
  assert.deepStrictEqual(looks.map(([name]) => name), ['flag that both ask', 'flag that both ask']);
});

test('objects and closures: a use before the definition, a flag, a counter, the same value put back', async () => {
  const at = (/** @type {string} */ mode, /** @type {string} */ name) => `${mode} var 3000000 ${name}`;
  const lines = (/** @type {string[]} */ first, /** @type {string[]} */ second) => ['parse 0 1 async', 'parse 0 2 async', 'exec 1', ...first, 'exec 2', ...second];
  const objects = { 3000000: { made: 'object', text: 'app' } };
  const look = async (/** @type {string[]} */ first, /** @type {string[]} */ second, /** @type {Given} */ facts) => (await looksOf(lines(first, second), { objects, ...facts })).map(([name]) => name);
  assert.deepStrictEqual(await look([at('w', 'x')], [at('r', 'x')], { values: { 5: 'o' }, befores: { 5: '-' } }), ['use before definition']);
  assert.deepStrictEqual(await look([at('r', 'x')], [at('w', 'x')], { values: { 7: 'o' }, befores: { 7: 'null' } }), ['use before definition']);
  assert.deepStrictEqual(await look([at('w', 'x')], [at('r', 'x')], { values: { 5: 'o' }, befores: { 5: 'o' } }), ['other']);
  assert.deepStrictEqual(await look([at('w', 'x')], [at('r', 'x')], { values: { 5: 'o' } }), ['other']);
  assert.deepStrictEqual(await look([at('r', 'a'), at('w', 'b')], [at('r', 'b'), at('w', 'a')], { values: { 6: 'true', 9: 'true' }, befores: { 6: 'false', 9: 'false' } }), ['flag that both ask', 'flag that both ask']);
  assert.deepStrictEqual(await look([at('r', 'n'), at('w', 'n')], [at('r', 'n'), at('w', 'n')], { values: { 6: 'n1x1', 9: 'n1y1' }, befores: { 6: 'n1w1', 9: 'n1x1' }, files: [{ address: PAGE, text: 'n++;\nif (n++) go();\n{ app.n--; }\n' }], places: { 5: [0, 1, 1], 6: [0, 1, 1], 8: [0, 3, 7], 9: [0, 3, 7] } }), ['counter']);
  assert.deepStrictEqual(await look([at('w', 'x')], [at('r', 'x')], { values: { 5: 'true', 7: 'true' }, befores: { 5: 'false' }, kept: { 7: true } }), ['same value']);
});

test('what is lost has a line where another race covers it, one of each kind', async () => {
  const lines = ['parse 0 1 inline', 'exec 1', 'send 1', 'send 2', 'reply 1 1', 'w var 0 open', 'w var 0 list', 'w var 0 more', 'close 1',
    'reply 2 2', 'r var 0 open', 'w var 0 list', 'w var 0 more', 'close 2'];
  const problems = await problemsOf(lines, { ...NAMES, values: { 7: 'o', 8: 'o', 9: 'o', 12: 'o', 13: 'o', 14: 'o' }, befores: { 7: 'o' } });
  assert.strictEqual(problems.report.groups.length, 1);
  const listing = new Listing([problems], null);
  assert.deepStrictEqual(listing.lines.map(({ look, words }) => [look.name, /^"(\w+)"/.exec(words)?.[1]]), [['overwriting replies', 'list'], ['other', 'open']]);
  assert.deepStrictEqual(listing.problems.map(({ hasLine }) => hasLine), [true, false, true]);
});

test('a line looks as the worst race that it covers, and has its words', async () => {
  const lines = ['parse 0 1 plain', 'parse 0 2 async', 'exec 2', 'w var 0 ready', 'on 1', 'w slot 1 click/1', 'fire 1 1 click', 'r var 0 ready', 'r slot 1 click/1', 'close 1'];
  const problems = await problemsOf(lines, { elements: { 1: { tag: 'button', id: 'go' } }, handlers: { 1: { type: 'click', target: 1 } }, values: { 5: 'o', 9: 'o' }, befores: { 5: 'o' } });
  assert.strictEqual(problems.report.groups.length, 1);
  const listing = new Listing([problems], null);
  const [{ line }] = listing.told();
  const { sentence, details } = listing.entryOf(line);
  assert.strictEqual(sentence, 'A click at button#go is lost until its handler is registered');
  assert.deepStrictEqual(details[0], ['cause', 'The script may write `ready` before or after the click at button#go reads it at page.html']);
  assert.strictEqual(line.look.name, 'late handler');
  assert.match(line.words, /^"ready"/);
  assert.match(line.look.seen, /^and covered by it, a handler that comes late: .*: The handler "click of button#go" is set by .* and looked for by the click at button#go; nothing orders them\.$/);
});

test('where a variable is counted, and nobody uses the value', () => {
  const lines = ['n++;', 'app.n--', '++n;', '{ ++app.n; }', 'if (n++) go();', 'x = n++;', '() => n++', 'for (;; n++) go();', 'n++, go();',
    'if (ok) n++;', '} else n--;', 'else app.n++', 'if (ok) ++n;', 'if (ok) --app.n;', 'do n++; while (ok)', '(ok) + n++;', 'x = ok ? n++ : 0;'];
  const text = new SourceText({ ...NAMES, files: [{ address: PAGE, text: lines.join('\n') }] });
  const isCount = lines.map((line, k) => text.isCount([0, k + 1, line.search(/n(?![a-z])/) + 1]));
  assert.deepStrictEqual(isCount, [...Array(4).fill(true), ...Array(5).fill(false), ...Array(6).fill(true), false, false]);
  assert.ok(text.isCount([0, 3, 1]));
});

test('a place in a minified file: only the text near it is read', () => {
  const before = 'function f(a){if(a.b)return a.c(1,2)+a.d};'.repeat(50000);
  const text = new SourceText({ ...NAMES, files: [{ address: PAGE, text: `${before}n++;app.n--;x=n++` }] });
  const column = before.length + 1;
  const begin = process.cpuUsage();
  for (let k = 0; k < 3000; k++) assert.deepStrictEqual([0, 'n++;app.'.length, 'n++;app.n--;x='.length].map((more) => text.isCount([0, 1, column + more])), [true, true, false]);
  const { user } = process.cpuUsage(begin);
  assert.ok(user < 3e6, `${user} microseconds`);
});

test('the first ticks of two intervals of one delay', async () => {
  const lines = ['parse 0 1 inline', 'exec 1', 'every 1 50', 'every 2 50', 'tick 1', 'w var 0 x', 'tick 2', 'w var 0 x'];
  const intervals = { 1: { why: 'setInterval' }, 2: { why: 'setInterval' } };
  assert.deepStrictEqual((await looksOf(lines, { intervals }))[0], ['first ticks of intervals', 'the first ticks of two intervals of 50 ms, which come in the order in which they were set']);
  assert.strictEqual((await looksOf(lines.map((line) => line.replace('every 2 50', 'every 2 40')), { intervals }))[0][0], 'other');
});

test('two acts of a user stand at the end', async () => {
  const lines = ['parse 0 1 plain', 'parse 0 2 plain', 'parse 0 3 async', 'exec 3', 'on 1', 'on 2', 'fire 1 1 click', 'run 1 0 1', 'w var 0 x', 'close 1', 'fire 2 2 click', 'run 2 0 2', 'w var 0 x', 'close 2'];
  const facts = { dispatches: { 1: { type: 'click', act: 1000 }, 2: { type: 'click', act: 2000 } } };
  assert.strictEqual((await looksOf(lines, facts))[0][0], 'act against act');
});

test('what several races have in common is told once', () => {
  const reply = (/** @type {string} */ file, /** @type {number} */ line) => `the load handler of the request for ${file} at page.html:${line}, by way of jquery.js:1`;
  assert.strictEqual(listed([reply('a', 1), reply('b', 2)]), 'the load handler of the request for a at page.html:1, b at page.html:2, by way of jquery.js:1.');
  assert.strictEqual(listed(['a', 'b', 'c', 'd', 'e'].map((name) => `the click at ${name}`)), 'the click at a, b, c, d, ..');
});

test('the steps\' words know all rules, those of the document and of the program', () => {
  const textOf = (/** @type {string[]} */ ...names) => fs.readFileSync(path.join(__dirname, '..', '..', ...names), 'utf8');
  const told = [...textOf('docs', 'rules.md').matchAll(/^\| (\d+) \| /gm)].map(([, number]) => number);
  assert.deepStrictEqual(Object.keys(RULES), told);
  const betweenEvents = [...textOf('crates', 'er_history', 'specs', 'Rules.antt').matchAll(/ \((\d+), \w+(?: v)?\)/g)].map(([, number]) => number);
  const betweenPieces = ['22', '23'];
  assert.deepStrictEqual(Object.keys(RULES), [...betweenEvents, ...betweenPieces].sort((a, b) => Number(a) - Number(b)));
});
