'use strict';
// Which other races came in the other order in the run of a race, and which of its differences are at what these write. A late handler that ran and only read
// makes no difference but that its event was lost.

const { HandlerRuns } = require('../../races/handler-runs.js');

/** @typedef {import('../../races/types').Race} Race */
/** @typedef {import('../../races/keys.js').Keys} Keys */
/** @typedef {import('../types').Difference} Difference */
/** @typedef {import('../types').Turned} Turned */
/** @typedef {Pick<import('../types').Run, 'name'|'keys'>} Run */
/** @typedef {{words: string, isReader: boolean}} RunOfHandler a handler that ran in an event, as a difference has it, and whether it only read */

/** Differences whose subject is a location in words (races/thing-words.js). */
const AT_LOCATION = new Set(['field', 'storage', 'element']);

/** Made by `Replay`. */
class Along {
  /**
   * @param {import('./orders.js').Orders} orders of the recorded run
   * @param {Keys} keys of that run
   */
  constructor(orders, keys) {
    this.orders = orders;
    this.keys = keys;
    /** @type {WeakMap<Keys, HandlerRuns>} */
    this.runs = new WeakMap();
  }

  /**
   * What a run in which a race was reversed says of other races. Called by replay/replay.js.
   * @param {Run} run
   * @param {Race} race
   * @param {number} number of the race
   * @param {Difference[]} differences
   * @returns {Turned}
   */
  of(run, race, number, differences) {
    const races = this.orders.turnedWith(run, race);
    const handlers = new Map([number, ...races].map((one) => [one, this.handlersOf(this.orders.report.races[one - 1], run)]));
    const isReader = (/** @type {number} */ one) => !!handlers.get(one)?.length && !!handlers.get(one)?.every((ran) => ran.isReader);
    const isAt = (/** @type {number} */ one, /** @type {Difference} */ difference) => difference.kind === 'event'
      ? !!handlers.get(one)?.some(({ words }) => words === difference.subject) : this.isWrittenBy(this.orders.report.races[one - 1], difference);
    return { races, readers: [number, ...races].filter(isReader), owners: differences.map((difference) => [number, ...races].filter((one) => isAt(one, difference))) };
  }

  /**
   * Whether both sides of a race write what differs.
   * @param {Race} race
   * @param {Difference} difference
   */
  isWrittenBy({ modes, location }, { kind, subject }) {
    return modes === 'ww' && AT_LOCATION.has(kind) && this.keys.words.location(location).text === subject;
  }

  /**
   * The runs of a late handler, in the recorded run and in another one. Nothing if the race is no such handler's.
   * @param {Race} race
   * @param {Run} run
   * @returns {RunOfHandler[]}
   */
  handlersOf(race, run) {
    const k = race.modes.indexOf('r');
    const [, handler = ''] = /^slot \d+ [^/ ]*\/(\d+)$/.exec(race.location) || [];
    if (k < 0 || !handler) return [];
    const key = this.keys.handler(handler);
    const there = run.keys.find(this.orders.sidesOf(race)[k]);
    return [this.runOf(this.keys, race.actions[k], key), there && this.runOf(run.keys, there.action, key)].flatMap((one) => one || []);
  }

  /**
   * The run of a handler in an event of a run, if it ran there.
   * @param {Keys} keys
   * @param {number} action that starts the dispatch
   * @param {string} key of the handler
   * @returns {RunOfHandler|null}
   */
  runOf(keys, action, key) {
    const runs = this.runs.get(keys) || new HandlerRuns(keys.actions, keys.names.handlers);
    this.runs.set(keys, runs);
    const handler = runs.handlersOf(action).find((one) => keys.handler(one) === key);
    if (handler === undefined) return null;
    return { words: `${keys.words.action(action)}: ${keys.words.action(runs.runOf(action, handler))}`, isReader: runs.isUnchanged(action, handler) };
  }
}

module.exports = { Along };
