'use strict';
// What the pages with one race look like (replay-cases.js), in a real browser: what is seen there fits what a replay finds to differ.

const assert = require('node:assert');
const { after, before, test } = require('node:test');
const { Chromium } = require('../browser/chromium.js');
const { Problems } = require('../list/problems.js');
const { partOf } = require('../list/rank.js');
const { IDLE, LOOKS } = require('../list/patterns/table.js');
const { recordPage } = require('./support.js');
const { judgeText } = require('./list-support.js');
const { cases, isAt } = require('./replay-cases.js');

/**
 * The looks that are right for a location, in whichever order the run has it. A flag is seen where each side did both; where the second one took the
 * other branch the trace does not show it.
 * @type {{[location: string]: string[]}}
 */
const DUE = {
  '#offer': ['use before definition'], theme: ['other'], shown: ['overwriting replies'], price: ['use before definition', 'other'], 'load of img#dot': ['late handler of the page'],
  'click of button#buy': ['late handler'], 'value of input#field': ['overwritten field'], greeting: ['use before definition', 'other'], width: ['use before definition', 'other'],
  settings: ['use before definition', 'other'], plugin: ['use before definition'], renderFound: ['use before definition'], isLoaded: ['flag that both ask', 'other'],
  steps: ['act against act'], state: ['act against act'],
  // what an object's or a closure's variables held is not recorded
  'price of the closure of shop() at race-closure.html:5': ['other'], 'total of cart, the object first used at race-property.html': ['other'],
  'the items of list, the array first used at race-items.html': ['other'], 'the content of p#out': ['other'],
  'isOpen of page, the object first used at race-put-back.html': ['other'],
};

/**
 * What the objects and closures of look-objects.html look like, by the begin of their location.
 * @type {[location: RegExp, look: string][]}
 */
const DUE_OF_OBJECTS = [
  [/^render of /, 'use before definition'], [/^count of /, 'counter'], [/^isReady of the closure of shop/, 'flag that both ask'],
  [/^last of the closure of shop/, 'first ticks of intervals'], [/^name of /, 'same value'],
];

/** @type {Chromium} */
let browser;
before(async () => { browser = await Chromium.launch({ width: 1100, height: 800 }); });
after(async () => { await browser.close(); });

for (const { page, words, location } of cases) {
  test(`${page} ${(words || []).join(' ')}`, { timeout: 150000 }, async () => {
    const trace = await recordPage(browser, page, words, undefined, false);
    const report = await judgeText(trace.text);
    const problems = new Problems(trace.text, JSON.parse(trace.names.toJson({})), report);
    const looks = report.races.map((race, k) => ({ text: problems.words.location(race.location).text, look: problems.ofRaces[k].look }))
      .filter(({ text }) => isAt(text, location)).map(({ look }) => look);
    assert.ok(looks.length > 0, `no race at ${location}`);
    const [best] = looks.sort((a, b) => a.rank - b.rank);
    if (process.env.SHOW) console.error(page, location, best.name, '|', best.seen);
    assert.ok(DUE[location].includes(best.name), `${best.name}: ${best.seen}`);
  });
}

test('look-objects.html', { timeout: 150000 }, async () => {
  const trace = await recordPage(browser, 'look-objects.html', [], undefined, false);
  const report = await judgeText(trace.text);
  const problems = new Problems(trace.text, JSON.parse(trace.names.toJson({})), report);
  const found = report.races.map((race, k) => [problems.words.location(race.location).text, problems.ofRaces[k].look.name]);
  for (const [location, look] of DUE_OF_OBJECTS) {
    const looks = [...new Set(found.filter(([text]) => location.test(text)).map(([, name]) => name))];
    assert.deepStrictEqual(looks, [look], `${location}: ${JSON.stringify(found)}`);
  }
});

// The address runs in a task of its own, which no rule puts after another act; the user's click requested it all the same.
test('look-address.html', { timeout: 150000 }, async () => {
  const trace = await recordPage(browser, 'look-address.html', ['--do', 'click:#close', '--do', 'click:#open'], undefined, false);
  const report = await judgeText(trace.text);
  const problems = new Problems(trace.text, JSON.parse(trace.names.toJson({})), report);
  const looks = report.races.map((race, k) => [problems.words.location(race.location).text, problems.ofRaces[k].look.name]);
  assert.deepStrictEqual(looks.filter(([text]) => text === 'isClosed'), [['isClosed', 'act against act']]);
});

/**
 * Late handlers that change nothing in the recording, and what the user does: which are near the end of the list, and which look alike and are lost acts.
 * @type {[page: string, words: string[], due: {[location: string]: string}][]}
 */
const OF_IDLE = [
  ['look-idle.html', ['--do', 'wait:300', '--do', 'click:#link'], { 'mouseover of a#link': IDLE, 'click of the document': IDLE }],
  ['look-idle-asks.html', ['--do', 'wait:300', '--do', 'click:#delete'], { 'click of a#delete': LOOKS.late.part }],
  ['look-idle-marks.html', ['--do', 'wait:300', '--do', 'type:#text:a', '--do', 'click:#note'], { 'change of form#form': LOOKS.late.part }],
];

for (const [page, words, due] of OF_IDLE) {
  test(page, { timeout: 150000 }, async () => {
    const trace = await recordPage(browser, page, words, undefined, false);
    const problems = new Problems(trace.text, JSON.parse(trace.names.toJson({})), await judgeText(trace.text));
    const found = problems.report.races.map((race, k) => ({ text: problems.words.location(race.location).text, look: problems.ofRaces[k].look }));
    for (const [location, part] of Object.entries(due)) {
      const looks = found.filter(({ text }) => text === location).map(({ look }) => look);
      assert.deepStrictEqual([...new Set(looks.map((look) => partOf(look)))], [part], `${location}: ${found.map(({ text }) => text)}`);
      assert.ok(looks.every(({ here }) => /changed nothing that is recorded/.test(here)), looks.map(({ here }) => here).join());
    }
  });
}
