'use strict';
// Callbacks (of timers, frames, messages, observers) and events that a replay can hold back.

const { FIRST_FOREIGN_TIMEOUT, FIRST_LONE_MODULE } = require('../../common/numbers.js');

/** @typedef {import('./run-facts.js').Action} Action */
/** @typedef {import('../types').Cause} Cause */

const TASK_OBSERVERS = new Set(['IntersectionObserver', 'ResizeObserver', 'PerformanceObserver']);

/** A part of `Causes`. */
class Callbacks {
  /** @param {import('./run-facts.js').RunFacts} run */
  constructor(run) {
    this.run = run;
  }

  /**
   * The callback of a tick; null if it has none that can wait. Called by causes.js.
   * @param {string} number
   * @param {Action} action
   */
  tick(number, action) {
    if (Number(number) >= FIRST_LONE_MODULE) return null;
    if (Number(number) >= FIRST_FOREIGN_TIMEOUT) return this.callback('set', String(Number(number) - FIRST_FOREIGN_TIMEOUT), action);
    const why = this.run.names.intervals[number]?.why;
    return why === 'setInterval' || why === 'requestIdleCallback' ? this.callback('every', number, action) : null;
  }

  /**
   * A callback is identified by the place of the code that requested it, in the browser's copy, by the way of the calls that led there, and by which one it is
   * of the callbacks with both. Called by causes.js.
   * @param {string} word
   * @param {string|number} number
   * @param {Action|undefined} action
   * @returns {Cause|null}
   */
  callback(word, number, action) {
    const asked = this.run.askedBy(word);
    const found = asked.find((one) => one.number === String(number));
    if (!found || !action) return null;
    const { place, way } = found;
    const same = asked.filter((one) => one.place === place && one.way === way);
    const first = word === 'every' ? this.run.first((words) => words[0] === 'tick' && words[1] === String(number)) || action : action;
    const words = `${this.run.words.action(action.number)} is put off`;
    return { means: 'callback', word, place, way, nth: same.indexOf(found) + 1, of: same.length, action: first.number, words };
  }

  /**
   * The callbacks of an observer are tasks, except those of a mutation observer. Called by causes.js.
   * @param {Action} action
   */
  observer({ words: [, dispatch, , handler] }) {
    if (!TASK_OBSERVERS.has(this.run.names.handlers[handler]?.type || '')) return null;
    return this.callback('on', handler, this.run.first((words) => words[0] === 'fire' && words[1] === dispatch));
  }

  // ---- events of the browser

  /**
   * An event at an element, or at another object, as a worker. Called by causes.js.
   * @param {string} element
   * @param {Action} action
   * @returns {Cause|null}
   */
  event(element, action) {
    const { names } = this.run;
    const { tag, id = '', source = '' } = names.elements[this.run.real(element)] || {};
    const { type } = names.dispatches[action.words[1]] || {};
    if (!type || !tag) return null;
    if (!/^[a-z]/.test(tag)) return this.eventAt(Number(element), type, action);
    const isAtElement = (/** @type {string} */ at) => {
      const other = names.elements[this.run.real(at)];
      return !!other && other.tag === tag && (other.id || '') === id && (other.source || '') === source;
    };
    const nth = this.countEvents(action, type, ([word, , at]) => (word === 'fire' || word === 'eload') && isAtElement(at));
    return { means: 'event', word: 'event', event: { type, nth, tag, id, source }, action: action.number, words: this.held(action) };
  }

  /**
   * What is held back, in words.
   * @param {Action} action
   */
  held(action) {
    return `${this.run.words.action(action.number)} is kept back`;
  }

  /**
   * An event at an object is identified by the first handler that the page gave to the object.
   * @param {number} target
   * @param {string} type
   * @param {Action} action
   * @returns {Cause|null}
   */
  eventAt(target, type, action) {
    const handler = this.run.askedBy('on').find(({ number }) => this.run.names.handlers[number]?.target === target);
    const cause = handler && this.callback('on', handler.number, action);
    if (!cause || !cause.place) return null;
    const nth = this.countEvents(action, type, (words) => this.targetOf(words) === target);
    return { ...cause, means: 'event', event: { type, nth }, words: this.held(action) };
  }

  /**
   * How many events of a type came up to an action, of those whose words pass a test.
   * @param {Action} action
   * @param {string} type
   * @param {(words: string[]) => boolean} test
   */
  countEvents({ number }, type, test) {
    return this.run.list.filter((one) => one.number <= number && this.run.names.dispatches[one.words[1]]?.type === type && test(one.words)).length;
  }

  /**
   * The object at which an event came: the target of the first handler that ran in it.
   * @param {string[]} words
   */
  targetOf([word, dispatch, element]) {
    if (word === 'fire') return Number(element);
    if (word !== 'reply') return undefined;
    const ran = this.run.first((words) => words[0] === 'run' && words[1] === dispatch);
    return ran && this.run.names.handlers[ran.words[3]]?.target;
  }

  /**
   * The answer of a reader, a stream or a database: an event, and no file. Called by causes.js.
   * @param {string} request
   * @param {Action} action
   */
  answer(request, action) {
    const { method = '', of } = this.run.names.requests[request] || {};
    if (/^IDB(Database|ObjectStore|Index)\./.test(method)) return this.transaction(String(of || request));
    const target = this.targetOf(action.words);
    const { type } = this.run.names.dispatches[action.words[1]] || {};
    return target === undefined || !type || type === 'upgradeneeded' ? null : this.eventAt(target, type, action);
  }

  /**
   * All requests of a transaction wait for another transaction with the same stores.
   * @param {string} number
   * @returns {Cause|null}
   */
  transaction(number) {
    const isOfIt = (/** @type {string} */ request) => request === number || String(this.run.names.requests[request]?.of) === number;
    const cause = this.callback('send', number, this.run.first((words) => words[0] === 'reply' && isOfIt(words[2])));
    return cause && { ...cause, words: 'the transaction of the database waits' };
  }
}

module.exports = { Callbacks };
