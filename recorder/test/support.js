'use strict';
// What the tests share: recording a page of pages/, reading a trace with names in place of numbers, and asking the program.

const { spawnSync } = require('node:child_process');
const fs = require('node:fs');
const path = require('node:path');
require('./cleanup.js');
const { Recorder } = require('../recording/recorder.js');
const { parseOptions } = require('../recording/options.js');
const { writeFiles, namesFile } = require('../recording/files.js');
const { Replay, withEnd, chance } = require('../replay/replay.js');
const { verdictInWords, worstOf } = require('../replay/verdict.js');
const { Accesses } = require('../trace/accesses.js');
const { Names } = require('../trace/names.js');
const { Spelling, NEWEST_VERSION } = require('../trace/spelling.js');
const { Actions } = require('../races/actions.js');
const { PROGRAM, judge: judgeFile } = require('../races/program.js');
const { Words } = require('../races/words.js');
const { isAt } = require('./replay-cases.js');

const LONGEST_ANSWER = 60000;
const PAGES = path.join(__dirname, 'pages');

/**
 * @typedef {import('../browser/chromium.js').Chromium} Chromium
 * @typedef {ReturnType<typeof traceOf>} Trace
 * @typedef {import('../trace/names.js').Names} TraceNames
 * @typedef {import('../races/types').Race} Race
 * @typedef {string|number} Digits a number, or the word of a record for it
 */

/** One whose page may ask where it is on the globe, and gets an answer. */
class RecorderSomewhere extends Recorder {
  async prepareTab() {
    await super.prepareTab();
    const tab = this.openTab();
    await this.browser?.send('Browser.grantPermissions', { permissions: ['geolocation'], browserContextId: tab.contextId });
    await tab.send('Emulation.setGeolocationOverride', { latitude: 1, longitude: 2, accuracy: 3 });
  }
}

/**
 * Records a page of pages/ in a browser that runs: all of it, and what the rules leave. With `isWhole` false it is recorded as a user does.
 * @param {Chromium} browser
 * @param {string} page
 * @param {string[]} words options
 */
async function recordPage(browser, page, words = [], version = NEWEST_VERSION, isWhole = true) {
  const options = parseOptions([...words, ...(isWhole ? ['--keep'] : []), page]);
  const recorder = new RecorderSomewhere(/^https?:/.test(page) ? page : path.resolve(PAGES, page), { ...options, browser });
  await recorder.record();
  return readTrace(recorder, version);
}

/**
 * Records a page, and runs it again with the first race at a location reversed.
 * @param {Chromium} browser
 * @param {string} page
 * @param {string[]} words options
 * @param {string} location in words
 * @param {string} folder
 */
async function replayPage(browser, page, words, location, folder) {
  const parsed = parseOptions([...words, page]);
  const options = { ...parsed, browser, fixed: chance(parsed) };
  const recorder = new Recorder(/^https?:/.test(page) ? page : path.resolve(PAGES, page), withEnd(options));
  await recorder.record();
  recorder.browser = browser;
  const own = fs.mkdtempSync(path.join(folder, 'page-'));
  const traceFile = path.join(own, 'page.trace');
  writeFiles(recorder, options, traceFile);
  const { report, fault } = await judgeFile(traceFile);
  if (!report) throw new Error(`no report: ${fault}`);
  const inWords = new Words(JSON.parse(fs.readFileSync(namesFile(traceFile), 'utf8')), new Actions(fs.readFileSync(traceFile, 'utf8')));
  const number = report.races.findIndex((race) => isAt(inWords.location(race.location).text, location));
  if (number < 0) throw new Error(`no race at ${location}: ${report.races.map((race) => inWords.race(race)).join('; ')}`);
  const replay = new Replay(recorder, options, traceFile, report);
  await replay.runFreely();
  const result = await replay.reverse(report.races[number], number + 1);
  await replay.close();
  return { result, said: verdictInWords(result), worst: worstOf(result)?.name, race: inWords.race(report.races[number]), replay };
}

/**
 * The trace that the rules leave, and in `whole` the one of the whole recording; `readable` are the records of the whole one.
 * @param {Recorder} recorder
 * @param {number} version
 */
function readTrace(recorder, version) {
  const accesses = new Accesses(recorder.intake.entries);
  const whole = traceOf(recorder, accesses.whole(), version);
  const short = traceOf(recorder, accesses.entries(), version);
  return { ...short, left: short.readable, readable: whole.readable, whole, errors: recorder.errors, losses: recorder.losses() };
}

/**
 * @param {Recorder} recorder
 * @param {import('../trace/accesses.js').Entry[]} entries
 * @param {number} version
 */
function traceOf(recorder, entries, version) {
  const spelling = new Spelling(entries, version);
  const records = spelling.records();
  /**
   * The names, if some files are those of libraries.
   * @param {RegExp|null} libraries
   */
  const namesOf = (libraries) => {
    const names = new Names(recorder.sources, recorder.intake.names, libraries);
    names.addRecords(records);
    return names;
  };
  const lines = records.map(({ text }) => text);
  const names = namesOf(null);
  return {
    text: `webtrace ${version}\n${lines.map((line) => `${line}\n`).join('')}end\n`,
    records,
    /** What the recorder itself must never write. */
    wrong: recorder.intake.garbled + spelling.refused,
    lines,
    names,
    namesOf,
    readable: lines.map((line) => readable(line, names)),
  };
}

// ---- names in place of numbers

/**
 * @param {Digits} number
 * @param {TraceNames} names
 * @returns {string}
 */
function elementName(number, names) {
  const facts = names.lists.elements[number] || {};
  if (facts.standsFor) return elementName(facts.standsFor, names);
  if (facts.tag === 'HTMLDocument') return 'document';
  if (facts.tag === 'Window') return 'window';
  return `${facts.tag || '?'}${facts.id ? `#${facts.id}` : ''}`;
}

/**
 * An object by the text at which it was first met; a scope by its function.
 * @param {import('../list/types').ObjectFacts} facts
 */
function objectName({ scope, text, made, name }) {
  if (scope !== undefined) return `the closure of ${scope || '?'}`;
  if (made === 'prototype') return `${name}.prototype`;
  return text || made || '?';
}

/**
 * @param {Digits} number
 * @param {TraceNames} names
 */
const handlerName = (number, names) => names.lists.handlers[number]?.function || names.lists.handlers[number]?.type || '?';

/**
 * A location in words: `count`, `#menu`, `click of button#buy`, `value of input#q`.
 * @param {string} location
 * @param {TraceNames} names
 */
function locationName(location, names) {
  const [kind, digits, name] = location.split(' ');
  const number = Number(digits);
  if (kind === 'elem') return `#${name}`;
  if (kind === 'slot') return `${name.replace(/\/\d+$/, '')} of ${elementName(number, names)}`;
  if (number >= 3000000) return `${name} of ${objectName(names.objects[number] || {})}`;
  if (number >= 1000000 && number < 2000000) return `${name} of ${elementName(number - 1000000, names)}`;
  return name;
}

/**
 * A record with names in place of numbers; the numbers of documents, groups and dispatches are left out.
 * @param {string} line
 * @param {TraceNames} names
 */
function readable(line, names) {
  const [word, a, b, c, d] = line.split(' ');
  switch (word) {
    case 'parse': case 'new': return `${word} ${elementName(b, names)} ${c}`;
    case 'exec': return `exec ${elementName(a, names)}`;
    case 'eload': return `eload ${elementName(b, names)}`;
    case 'fire': case 'inline': return `${word} ${elementName(b, names)} ${c}`;
    case 'wfire': return `wfire ${c}`;
    case 'run': return `run ${handlerName(c, names)}`;
    case 'on': return `on ${handlerName(a, names)}`;
    case 'r': case 'w': return `${word} ${locationName([a, b, c, d].filter(Boolean).join(' '), names)}`;
    case 'dcl': case 'load': case 'reply': return word;
    case 'set': case 'every': return `${word} ${b}`;
    default: return word;
  }
}

// ---- the program

/**
 * What the program reports of a trace.
 * @param {Trace} trace
 */
function judge(trace) {
  const answer = spawnSync(PROGRAM, [], { input: trace.text, encoding: 'utf8', maxBuffer: 1 << 28, timeout: LONGEST_ANSWER });
  if (trace.wrong) return { refused: `${trace.wrong} lines of the log are wrong`, races: [] };
  const races = [...answer.stdout.matchAll(/^race \d+ (\d+) (\d+) (\w\w) \d+ \d+ (.*)$/gm)];
  return {
    refused: /^refused .*$/m.exec(answer.stdout)?.[0] || (answer.stdout.startsWith('report') ? '' : answer.stderr || 'no report'),
    races: races.map(([, , , , location]) => locationName(location, trace.names)),
  };
}

/**
 * The program's report of a trace; it has no races if the trace is refused.
 * @param {Pick<Trace, 'text'>} trace
 * @returns {{races: Race[]}}
 */
function reportOf(trace) {
  const { stdout } = spawnSync(PROGRAM, ['--json'], { input: trace.text, encoding: 'utf8', maxBuffer: 1 << 28, timeout: LONGEST_ANSWER });
  return { races: [], ...JSON.parse(stdout) };
}

/** Words that note where the two sides of a race differ only in their numbers. */
class NotingWords extends Words {
  isNumbered = false;

  /** @param {string} words @param {number} number */
  asNumbered(words, number) {
    this.isNumbered = true;
    return super.asNumbered(words, number);
  }
}

/**
 * What runs or happens in an action: the kind of record, and its code's place, or what it is at.
 * @param {import('../races/actions.js').Action} action
 * @param {import('../list/types').Names} names
 */
function codeOf(action, names) {
  const [word, , target, type] = action.words;
  const place = names.places[action.line];
  if (place) return `${word} ${place}`;
  const number = word === 'exec' ? action.words[1] : target;
  const { standsFor } = names.elements[number] || {};
  const { source, tag, id, place: own } = names.elements[standsFor || number] || {};
  return `${word.replace('inline', 'fire')} ${source || tag || number} ${id} ${own} ${type}`;
}

/**
 * Who makes the two accesses of each race, in words; `isNumbered` if only their numbers tell them apart, and `isOneCode` if they are the same.
 * @param {Trace} trace
 */
function actorsOf(trace) {
  const names = JSON.parse(trace.names.toJson({}));
  const words = new NotingWords(names, new Actions(trace.text.replace(/end\n$/, '')));
  return reportOf(trace).races.map((race) => {
    words.isNumbered = false;
    const actors = words.actors(race, words.location(race.location).kind);
    const [first, second] = race.actions.map((number) => codeOf(words.actions.list[words.actions.list[number].first], names));
    return { actors, isNumbered: words.isNumbered, isOneCode: first === second };
  });
}

/**
 * The first of the records that is not there after the one before it, or null if all are there in order.
 * @param {string[]} readableLines
 * @param {string[]} due
 */
function firstMissing(readableLines, due) {
  let at = 0;
  for (const record of due) {
    const found = readableLines.indexOf(record, at);
    if (found < 0) return record;
    at = found + 1;
  }
  return null;
}

module.exports = { recordPage, replayPage, judge, reportOf, actorsOf, firstMissing, PAGES };
