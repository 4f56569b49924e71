'use strict';
// The actions that run the handlers of events, and which of them do nothing that the trace has but reads.

/** A part of `IdleHandlers` (list) and of `Along` (replays). */
class HandlerRuns {
  /**
   * @param {import('./actions.js').Actions} actions
   * @param {{[number: string]: {ends?: number}}} facts of the handlers
   */
  constructor(actions, facts = {}) {
    this.facts = facts;
    this.actions = actions;
    /** @type {Map<string, number>} by dispatch and handler, the first action that runs it */
    this.runs = new Map();
    /** @type {Map<string, string[]>} by dispatch, the handlers that run in it */
    this.handlers = new Map();
    for (const { number, words: [word, dispatch, , handler] } of actions.list) {
      if (word !== 'run' || this.runs.has(`${dispatch} ${handler}`)) continue;
      this.runs.set(`${dispatch} ${handler}`, number);
      this.handlers.set(dispatch, [...this.handlers.get(dispatch) || [], handler]);
    }
    /** @type {Map<number, boolean>} by the action of a run, whether it did nothing that the trace has but reads */
    this.unchanged = new Map();
  }

  /**
   * The action that runs a handler of an event; -1 if none does.
   * @param {number} number of the action that starts the dispatch
   * @param {string} handler
   */
  runOf(number, handler) {
    const run = this.runs.get(`${this.actions.list[number].words[1]} ${handler}`) ?? -1;
    return run > number ? run : -1;
  }

  /**
   * The handlers that run in an event.
   * @param {number} number of the action that starts the dispatch
   */
  handlersOf(number) {
    return (this.handlers.get(this.actions.list[number].words[1]) || []).filter((handler) => this.runOf(number, handler) >= 0);
  }

  /**
   * Whether a handler of an event ran and did nothing that the trace has but reads.
   * @param {number} number of the action that starts the dispatch
   * @param {string} handler
   */
  isUnchanged(number, handler) {
    const run = this.runOf(number, handler);
    if (run < 0) return false;
    let isOne = this.unchanged.get(run);
    if (isOne === undefined) this.unchanged.set(run, isOne = this.hasOnlyReads(run));
    return isOne;
  }

  /**
   * Whether a run of a handler did nothing that the trace has but reads.
   * @param {number} run its action
   */
  hasOnlyReads(run) {
    const { list, lines } = this.actions;
    const next = list[run + 1];
    if (!next || !['run', 'close'].includes(next.words[0]) || next.words[1] !== list[run].words[1]) return false;
    return lines.slice(list[run].line, next.line - 1).every((line) => line.startsWith('r ') || this.isEnd(line));
  }

  /**
   * Whether a line stands for a call that clears a callback which has run.
   * @param {string} line
   */
  isEnd(line) {
    return line.startsWith('on ') && this.facts[line.slice(3)]?.ends !== undefined;
  }
}

module.exports = { HandlerRuns };
