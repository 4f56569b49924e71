'use strict';
// User flows of the Recorder panel, and selectors as Playwright writes them, as steps.

const assert = require('node:assert');
const { test } = require('node:test');
const { parseFlow } = require('./flow.js');
const { whereOf, recordedWhere } = require('./selector.js');
const { parseStep } = require('./step.js');

/** @param {object[]} steps */
const parse = (...steps) => parseFlow('--flow', 'dir/a.json', JSON.stringify({ title: 't', steps }));

test('the page, the view and the steps', () => {
  const flow = parse({ type: 'setViewport', width: 800, height: 600, deviceScaleFactor: 1 }, { type: 'navigate', url: 'http://h/', assertedEvents: [{ type: 'navigation' }] },
    { type: 'click', target: 'main', selectors: [['aria/Search'], ['#go'], ['xpath///*[@id="go"]']], offsetX: 1, offsetY: 1 },
    { type: 'change', value: '10:30', selectors: [['text/at'], ['input[name="at"]']] }, { type: 'waitForElement', selectors: ['#x'] },
    { type: 'keyDown', key: 'Enter' }, { type: 'keyUp', key: 'Enter' });
  assert.deepStrictEqual([flow.page, flow.viewport, flow.isOfMany], ['http://h/', { width: 800, height: 600 }, false]);
  assert.deepStrictEqual(flow.steps.map(({ kind, text, said, from }) => [kind, text, said, from]), [
    ['click', '', 'click aria/Search', 'step 3 of a.json'], ['change', '10:30', 'change text/at', 'step 4 of a.json'], ['waitForElement', '', 'waitForElement #x', 'step 5 of a.json'],
    ['keyDown', '', 'keyDown Enter', 'step 6 of a.json'], ['keyUp', '', 'keyUp Enter', 'step 7 of a.json'],
  ]);
});

test('a flow that loads other pages', () => {
  const start = { type: 'navigate', url: 'http://h/', assertedEvents: [{ type: 'navigation' }] };
  assert.strictEqual(parse(start, { type: 'navigate', url: 'http://h/2' }).isOfMany, true);
  assert.strictEqual(parse(start, { type: 'click', selectors: ['#a'], assertedEvents: [{ type: 'navigation', url: 'http://h/3' }] }).isOfMany, true);
});

test('what cannot be done is refused with its step', () => {
  /** @type {[object[], RegExp][]} */
  const wrong = [
    [[{ type: 'customStep', name: 'x' }], /^--flow: step 1 of a\.json: a step of type "customStep" is not supported; delete it, or use click, /],
    [[{ type: 'click', selectors: [] }], /step 1 of a\.json: it has no selectors/],
    [[{ type: 'click', selectors: ['#a'] }, { type: 'click', selectors: ['#a'], target: 'http://popup/' }], /step 2 of a\.json: it is in another window/],
    [[{ type: 'keyDown' }], /it has no key/], [[{ type: 'change', selectors: ['#a'] }], /it has no value/], [[{ type: 'waitForExpression' }], /it has no expression/],
    [[{ type: 'click', selectors: ['#a'], button: 'left' }], /there is no mouse button left/],
  ];
  for (const [steps, said] of wrong) assert.throws(() => parse(...steps), { message: said });
  assert.throws(() => parseFlow('--flow', 'a.json', 'x'), { message: /a\.json has no steps$/ });
});

test('selectors of a flow', () => {
  assert.deepStrictEqual(recordedWhere([['aria/Save it[role="button"]'], ['#host', '#in'], 'pierce/#in', 'text/Save'], [1, 0]), { frame: [1, 0], selectors: [
    [{ by: 'role', value: 'button', name: 'Save it', fit: 'all' }], [{ by: 'css', value: '#host' }, { by: 'css', value: '#in' }], [{ by: 'deep', value: '#in' }],
    [{ by: 'text', value: 'Save', fit: 'has' }],
  ] });
});

test('selectors of --do', () => {
  /** @type {[string, object[]][]} */
  const cases = [
    ['#go', [{ by: 'css', value: '#go' }]], ['css=a > b', [{ by: 'css', value: 'a > b' }]], ['//a', [{ by: 'xpath', value: '//a' }]],
    ['text=Log in', [{ by: 'text', value: 'Log in', fit: 'part' }]], ['text="Log in"', [{ by: 'text', value: 'Log in', fit: 'all' }]], ['text=/log ?in/i', [{ by: 'text', value: '/log ?in/i', fit: 'pattern' }]],
    ['role=button', [{ by: 'role', value: 'button', name: null, fit: 'all' }]], ['role=button[name="a >> b"]', [{ by: 'role', value: 'button', name: 'a >> b', fit: 'all' }]],
    ["role=link[name='x'i]", [{ by: 'role', value: 'link', name: 'x', fit: 'same' }]], ['role=link[name*="x"]', [{ by: 'role', value: 'link', name: 'x', fit: 'part' }]],
    ['#host >>> .in >> text=a', [{ by: 'css', value: '#host' }, { by: 'css', value: '.in' }, { by: 'text', value: 'a', fit: 'part' }]],
  ];
  for (const [said, parts] of cases) assert.deepStrictEqual(whereOf(said), { selectors: [parts], frame: [] }, said);
  assert.throws(() => parseStep('--do', 'click:role=button[nome="x"]'), { message: /^--do: a role is written role=ROLE or role=ROLE\[name="NAME"\]: role=button/ });
  assert.throws(() => parseStep('--do', 'click:#a >> '), { message: /^--do: a part of the selector is empty/ });
  assert.throws(() => parseStep('--do', 'drag:#a'), { message: /^--do takes click:SELECTOR, hover:SELECTOR, type:SELECTOR:TEXT, select:SELECTOR:OPTION, upload:SELECTOR:FILE, press:SELECTOR:KEY, key:KEY or wait:MS: drag:#a$/ });
});

test('the text of a step is after the last colon, or after a selector in quotes', () => {
  assert.deepStrictEqual([parseStep('--do', 'select:#a:b:c').target, parseStep('--do', 'press:\'role=textbox[name="a:b"]\':Control+A').text], ['#a:b', 'Control+A']);
});
