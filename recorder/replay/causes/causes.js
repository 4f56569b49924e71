'use strict';
// What a replay can hold back so that an action comes later: going back from the action, each thing that the network, the clock, the parser or the user
// decides. The nearest comes first.

const { FIRST_FOREIGN_TIMEOUT, LETTERS_OF_ACT } = require('../../common/numbers.js');
const { explain } = require('../../races/links.js');
const { Callbacks } = require('./callbacks.js');
const { Files } = require('./files.js');
const { RunFacts, wholeAct } = require('./run-facts.js');

/** @typedef {import('./run-facts.js').Action} Action */
/** @typedef {import('../types').Cause} Cause */

/** How many actions are looked at on the way back from one. */
const LONGEST_WAY = 60;

/** Made for each recorded run: by recorded.js and suite-loads.js. */
class Causes {
  /**
   * @param {import('../../races/keys.js').Keys} keys of the run
   * @param {import('./run-facts.js').Log} log
   * @param {import('../types').Act[]} acts what the user did
   * @param {(file: number) => {address: string, text: string}} sourceOf the text of a file
   */
  constructor(keys, log, acts, sourceOf) {
    this.run = new RunFacts(keys, log, acts, sourceOf);
    this.list = this.run.list;
    this.callbacks = new Callbacks(this.run);
    this.files = new Files(this.run);
    /**
     * The analyzer's answers on pairs of actions.
     * @type {Map<string, ReturnType<typeof explain>>}
     */
    this.said = new Map();
  }

  /**
   * What can be held back for an action.
   * @param {number} number
   * @returns {Cause[]}
   */
  of(number) {
    /** @type {Cause[]} */
    const causes = [];
    /** @type {Set<number>} */
    const seen = new Set();
    for (let at = /** @type {number|undefined} */ (number); at !== undefined && !seen.has(at) && seen.size < LONGEST_WAY;) {
      seen.add(at);
      const { found, from } = this.step(this.list[at]);
      for (const cause of found) if (cause) causes.push(cause);
      at = from;
    }
    return causes;
  }

  /**
   * What can be held back for an action itself, and the action from which it comes.
   * @param {Action} action
   * @returns {{found: (Cause|null)[], from: number|undefined}}
   */
  step(action) {
    const { callbacks, files } = this;
    const [word, a, b] = action.words;
    const from = action.origins[0]?.action;
    switch (word) {
      case 'back': return { found: [], from: action.first };
      case 'run': return { found: [callbacks.observer(action)], from: action.dispatch?.number };
      case 'close': return { found: [], from: action.dispatch?.number };
      case 'inline': return { found: [], from: action.number - 1 };
      case 'parse': return { found: [files.parser(action), files.frameFile(a)], from };
      case 'exec': return { found: files.script(action), from };
      case 'timer': return { found: [callbacks.callback('set', a, action)], from };
      case 'tick': return { found: [this.isImport(a) ? files.imported(action) : callbacks.tick(a, action)], from };
      case 'anim': return { found: [callbacks.callback('ask', a, action)], from };
      case 'message': return { found: [callbacks.callback('post', a, action)], from };
      case 'reply': return { found: [files.reply(b) || callbacks.answer(b, action)], from };
      case 'eload': return { found: [files.file(b, action) || callbacks.event(b, action)], from };
      case 'dcl': return { found: [files.endOfPage(b, action), files.frameFile(b)], from: files.makerOfFrame(b) };
      case 'load': return { found: this.ofLoad(b, action), from: files.makerOfFrame(b) };
      case 'fire': return { found: [this.act(a) || callbacks.event(b, action)], from };
      case 'wfire': return { found: [this.act(a)], from };
      default: return { found: [], from: undefined };
    }
  }

  /**
   * Whether an interval is the run of a module that `import()` requested.
   * @param {string} number
   */
  isImport(number) {
    return Number(number) < FIRST_FOREIGN_TIMEOUT && this.run.names.intervals[number]?.why === 'import()';
  }

  /**
   * @param {string} document
   * @param {Action} action
   */
  ofLoad(document, action) {
    const { files } = this;
    return [files.load(document, action), files.endOfPage(document, this.run.firstOf('dcl', document) || action), files.frameFile(document)];
  }

  /**
   * The user's act that caused a dispatch.
   * @param {string} dispatch
   * @returns {Cause|null}
   */
  act(dispatch) {
    const act = this.run.actOfDispatch(dispatch);
    const letter = act % LETTERS_OF_ACT;
    const done = this.run.acts.find(({ number }) => number === wholeAct(act));
    const first = this.run.first(([word, of]) => /^w?fire$/.test(word) && this.run.actOfDispatch(of) === act);
    if (!done || !first) return null;
    return { means: 'act', act, after: 0, action: first.number, words: `the user's "${done.said}" comes later${letter ? ` from letter ${letter} on` : ''}` };
  }

  // ---- what is allowed to be held back for a race

  /**
   * The causes of an action that another action, which has to come before, does not need by the analyzer's order. Called by replay/recorded.js.
   * @param {string} traceFile
   * @param {number} held
   * @param {number} other
   * @returns {Promise<{causes: Cause[], why: string}>} `why` says why there are none
   */
  async toDelay(traceFile, held, other) {
    const all = this.of(held);
    const needed = this.run.actsBefore(other);
    const { words } = this.run;
    /** @type {Cause[]} */
    const causes = [];
    let why = all.length ? '' : `nothing that brings ${words.action(held)} can be kept back`;
    for (const cause of all) {
      if (isNeeded(cause, needed)) why = why || 'both come from one act of the user';
      else if (await this.isBefore(traceFile, cause.action, other)) why = why || `what brings ${words.action(held)} has to come before ${words.action(other)}`;
      else causes.push(moved(cause, Math.max(0, ...needed)));
    }
    return { causes: distinct(causes), why };
  }

  /**
   * Whether the analyzer's order puts an action before another one, or they are one. Called by replay/recorded.js.
   * @param {string} traceFile
   * @param {number} from
   * @param {number} to
   */
  async isBefore(traceFile, from, to) {
    if (from >= to) return from === to;
    const pair = `${from} ${to} ${traceFile}`;
    const said = this.said.get(pair) || explain(traceFile, from, to);
    this.said.set(pair, said);
    return (await said).steps !== null;
  }
}

/**
 * Whether an act that is to be held back, or a later letter of it, is one of those needed.
 * @param {Cause} cause
 * @param {Set<number>} needed
 */
const isNeeded = ({ means, act = 0 }, needed) => means === 'act' && [...needed].some((one) => wholeAct(one) === wholeAct(act) && one >= act);

/**
 * An act that has to come after a later act is moved there as a whole.
 * @param {Cause} cause
 * @param {number} last the last act that is needed
 */
function moved(cause, last) {
  const { means, act = 0 } = cause;
  return means === 'act' && last > act ? { ...cause, act: wholeAct(act), after: wholeAct(last) } : cause;
}

/** @param {Cause[]} causes */
const distinct = (causes) => causes.filter((one, k) => causes.findIndex(({ words }) => words === one.words) === k);

module.exports = { Causes };
