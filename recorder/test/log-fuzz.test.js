'use strict';
// Logs that a page could have written: lines of a recorded page that are changed, moved and repeated, and random ones. Nothing throws, and the
// analyzer takes each trace that comes of them.

const assert = require('node:assert');
const { spawnSync } = require('node:child_process');
const path = require('node:path');
const { after, before, test } = require('node:test');
const { Chromium } = require('../browser/chromium.js');
const { parseOptions } = require('../recording/options.js');
const { Recorder } = require('../recording/recorder.js');
const { PROGRAM } = require('../races/program.js');
const { Accesses } = require('../trace/accesses.js');
const { Intake } = require('../trace/intake.js');
const { keepWithin } = require('../trace/limits.js');
const { Names } = require('../trace/names.js');
const { FORMS } = require('../trace/records.js');
const { Spelling, NEWEST_VERSION } = require('../trace/spelling.js');
const { PAGES } = require('./support.js');

const SEED = 20240229;
const LOGS = 40;
const LINES = 250;
/** Together they have every kind of record. */
const PAGES_OF_LOGS = ['messages.html', 'frames.html', 'inline-click.html', 'defer.html'];
const WORDS = [...FORMS.map(({ word }) => word), 'look', 'captures', 'module', 'is', 'asked', 'came', 'at', 'in', 'all', 'same', 'early', 'beside', 'into', 'end', 'webtrace', 'constructor'];
const TOKENS = ['plain', 'inline', 'sync', 'defer', 'async', 'image', 'frame', 'var', 'elem', 'slot', 'unknown', 'known', 'own', 'first', 'k', 'r', 'w', 'click', '%FF', '%20', '__proto__', '\u001b[2J', ''];

/** A generator of numbers that gives the same ones each time. */
class Chance {
  /** @param {number} seed */
  constructor(seed) {
    this.state = seed;
  }

  /** @param {number} most */
  below(most) {
    this.state = (Math.imul(this.state, 1664525) + 1013904223) >>> 0;
    return Math.floor((this.state / 2 ** 32) * most);
  }

  /** @param {string[]} list */
  of(list) {
    return list[this.below(list.length)];
  }

  token() {
    return this.below(3) ? String(this.below(8)) : this.below(20) ? this.of(TOKENS) : String(this.below(2 ** 33));
  }

  randomLine() {
    return [this.of(WORDS), ...Array.from({ length: this.below(5) }, () => this.token())].join(' ');
  }

  /** @param {string} line */
  changed(line) {
    const tokens = line.split(/(?<=[ \t":,])/);
    const at = this.below(tokens.length);
    switch (this.below(4)) {
      case 0: tokens[at] = this.token() + (/[ \t":,]$/.exec(tokens[at])?.[0] || ''); break;
      case 1: tokens.splice(at, 1); break;
      case 2: tokens.splice(at, 0, `${this.token()} `); break;
      default: return line.slice(0, this.below(line.length)) + String.fromCharCode(this.below(300)) + line.slice(this.below(line.length));
    }
    return tokens.join('');
  }

  /**
   * A log: much of the page's own, in its order, so that deep states are met.
   * @param {string[]} lines
   */
  log(lines) {
    const start = this.below(4) ? 0 : this.below(lines.length);
    /** @type {string[]} */
    const log = [];
    for (let k = 0; log.length < LINES; k++) {
      const line = lines[(start + k) % lines.length];
      const what = this.below(12);
      if (what === 0) log.push(this.randomLine());
      else if (what === 1) log.push(this.changed(line));
      else if (what === 2) log.push(line, this.of(lines));
      else if (what !== 3) log.push(line);
    }
    return log;
  }
}

/**
 * The trace and the names of a log.
 * @param {import('../trace/names.js').Texts} sources
 * @param {string[]} lines
 * @param {Chance} chance
 */
function readLog(sources, lines, chance) {
  const intake = new Intake({ countSites: () => sources.sites.length });
  intake.take(lines.join('\n'));
  const accesses = new Accesses(intake.entries);
  const version = 1 + chance.below(NEWEST_VERSION);
  const { records } = keepWithin(new Spelling(chance.below(2) ? accesses.whole() : accesses.entries(), version).records());
  const names = new Names(sources, intake.names, /min/);
  names.addRecords(records);
  const json = names.toJson({ missed: intake.missed });
  return { text: [`webtrace ${version}`, ...records.map(({ text }) => text), 'end', ''].join('\n'), json, records };
}

/**
 * The lines of a page's log, and the texts of its marks.
 * @param {Chromium} browser
 * @param {string} page
 */
async function recordLog(browser, page) {
  const recorder = new Recorder(path.join(PAGES, page), { ...parseOptions(['--keep', page]), browser });
  await recorder.record();
  const { intake: { entries, names, garbled }, sources } = recorder;
  assert.strictEqual(garbled, 0);
  const lines = [...entries.map(({ text, place = '', found = '', stack = '' }) => [text, place, found, stack].join('\t')), ...names.map((fact) => `#${JSON.stringify(fact)}`)];
  return { sources, lines };
}

/** @type {Chromium} */
let browser;
before(async () => { browser = await Chromium.launch({ width: 1100, height: 800 }); });
after(() => browser.close());

test('changed logs of pages are traces', { timeout: 300000 }, async () => {
  const chance = new Chance(SEED);
  let kept = 0;
  for (const page of PAGES_OF_LOGS) {
    const { sources, lines } = await recordLog(browser, page);
    for (let k = 0; k < LOGS / PAGES_OF_LOGS.length; k++) {
      const log = k % 4 === 3 ? Array.from({ length: LINES }, () => chance.randomLine()) : chance.log(lines);
      const { text, json, records } = readLog(sources, log, chance);
      kept += records.length;
      assert.ok(!/[\u007f-\u009f\u202a-\u202e]|[^\n\u0020-\uffff]/.test(json), 'names with commands for a terminal');
      const { stdout, stderr } = spawnSync('/bin/sh', ['-c', `${PROGRAM} check`], { input: text, encoding: 'utf8', timeout: 60000 });
      assert.match(stdout, /^(?!refused)./, `${page}, log ${k}: ${stdout} ${stderr}\n${refusedLine(text, stdout)}`);
    }
  }
  assert.ok(kept > LOGS * 10, `${kept} records`);
});

/**
 * The lines up to the one that the analyzer refused.
 * @param {string} text
 * @param {string} stdout
 */
function refusedLine(text, stdout) {
  const line = Number(/^refused (\d+)/.exec(stdout)?.[1] || 0);
  return text.split('\n').slice(Math.max(0, line - 60), line).join('\n');
}
