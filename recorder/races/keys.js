'use strict';
// Keys of the accesses and actions of a run, by which they are found in another run of the page. The same callback, event handler, timer or request is found
// again by its place, name and count.

const { NamedRun } = require('./named-run.js');
const { isByValue, nameOf } = require('./spelled-locations.js');

/** @typedef {import('./types').Found} Found */
/** @typedef {import('./actions.js').Action} Action */

/** Made for each trace that is compared with another run, as in replays. */
class Keys extends NamedRun {
  /**
   * @param {string} text a trace
   * @param {import('./types').NamesOfTrace} names of that trace (the texts of files are not needed)
   * @param {boolean} isLoose whether names do not contain the code that requested a thing
   */
  constructor(text, names, isLoose = false) {
    super(text, names, isLoose);
    /** @type {Keys|null} */
    this.looser = null;
    /**
     * The accesses of each name.
     * @type {Map<string, [key: string, action: number, line: number][]>}
     */
    this.ofNames = new Map();
    /**
     * The actions of each key.
     * @type {Map<string, number[]>|null}
     */
    this.byKey = null;
  }

  /**
   * The keys of this run by looser names. Called by replay/replay.js and replay/reversal.js.
   * @returns {Keys}
   */
  loose() {
    this.looser = this.looser || new Keys(this.text, this.names, true);
    return this.looser;
  }

  /**
   * The number of the user's act that caused an event, or caused another event that led to it, as a press leads to a click; 0 if there is no such act. Called
   * by replay/found/compare.js.
   * @param {Action} action
   */
  actOf(action) {
    const { list } = this.actions;
    for (let one = /** @type {Action|null} */ (action); one;) {
      const [word, dispatch] = one.words;
      if (word === 'fire' || word === 'wfire') return this.names.dispatches[dispatch]?.act || 0;
      if (word === 'back') one = list[one.first];
      else one = word === 'inline' ? list[one.number - 1] : one.dispatch;
    }
    return 0;
  }

  // ---- accesses

  /**
   * The key of an access, by which another run has it too.
   * @param {{location: string, mode: string, action: number, line: number}} access
   */
  access(access) {
    const { location, mode, action, line } = this.asDone(access);
    if (isByValue(location)) return `access ${this.location(location, mode)} | ${this.action(action)}`;
    const isLookUp = location.startsWith('slot') && mode === 'r';
    const place = isLookUp ? '' : this.place(this.placeInName(line));
    return `${mode} ${this.location(location, mode)} | ${this.action(action)} | ${place}`;
  }

  /**
   * An access where it is done: the write of a field in the event of a key is that of the `input` event that follows. Called by list/lasting.js.
   * @template {{location: string, action: number, line: number}} T
   * @param {T} access
   * @returns {T}
   */
  asDone(access) {
    if (!this.names.typed?.[access.line]) return access;
    const { list, lines } = this.actions;
    const text = `w ${access.location}`;
    for (const { number, line, words } of list.slice(access.action + 1)) {
      if (words[0] !== 'inline' || words[3] !== 'input') continue;
      const own = lines.indexOf(text, line) + 1;
      if (own && own < (list[number + 1]?.line ?? Infinity)) return { ...access, action: number, line: own };
    }
    return access;
  }

  /**
   * All accesses of a name, once for each action, in the order of the trace.
   * @param {string} name
   */
  accessesOf(name) {
    const known = this.ofNames.get(name);
    if (known) return known;
    const found = this.findAccesses(name);
    this.ofNames.set(name, found);
    return found;
  }

  /**
   * All accesses whose location has this name, each with its key, its action and its line in the trace (from 1).
   * @param {string} name
   */
  findAccesses(name) {
    /** @type {[key: string, action: number, line: number][]} */
    const found = [];
    const { lines, list } = this.actions;
    let action = -1;
    const inAction = new Set();
    lines.forEach((text, k) => {
      if (list[action + 1]?.line === k + 1) {
        action++;
        inAction.clear();
      }
      if (!/^[rw] /.test(text)) return;
      const [mode, kind, number, spelled] = text.split(' ');
      if (nameOf(kind, spelled) !== name) return;
      const key = this.access({ location: `${kind} ${number} ${spelled}`, mode, action, line: k + 1 });
      if (inAction.has(key)) return;
      inAction.add(key);
      found.push([key, action, k + 1]);
    });
    return found;
  }

  /**
   * What an access is in any run: its key, and which of the accesses with this key it is. Called by replay/found/orders.js.
   * @param {{location: string, mode: string, action: number, line: number}} access
   * @returns {import('./types').AccessIdentity}
   */
  identify({ location, mode, action, line }) {
    const [kind, , spelled] = location.split(' ');
    const name = nameOf(kind, spelled);
    const key = this.access({ location, mode, action, line });
    const same = this.accessesOf(name).filter(([one]) => one === key);
    return {
      key,
      mode,
      kind,
      name,
      nth: Math.max(same.findIndex(([, of]) => of === action), 0) + 1,
      ...this.identifyAction(action),
      isLookUp: location.startsWith('slot') && mode === 'r',
    };
  }

  /**
   * What an action is in any run: its key, and which of the actions with this key it is. Called by replay/found/lawful.js.
   * @param {number} action
   */
  identifyAction(action) {
    const actionKey = this.action(action);
    return { actionKey, nthAction: this.numbersOf(actionKey).indexOf(action) + 1 };
  }

  /**
   * The actions that have a key, in the order of the trace.
   * @param {string} actionKey
   */
  numbersOf(actionKey) {
    this.byKey = this.byKey || this.sortByKey();
    return this.byKey.get(actionKey) || [];
  }

  /** The actions by their keys: several can have one. */
  sortByKey() {
    /** @type {Map<string, number[]>} */
    const byKey = new Map();
    for (const { number } of this.actions.list) {
      const key = this.action(number);
      const known = byKey.get(key);
      if (known) known.push(number);
      else byKey.set(key, [number]);
    }
    return byKey;
  }

  /**
   * Where an access is in this run, or null. A lookup of handlers where none was ever set is its event. Called by replay/due.js, replay/found/orders.js and
   * replay/reversal.js.
   * @param {import('./types').AccessIdentity} access
   * @returns {Found|null}
   */
  find({ key, nth, name, isLookUp, actionKey, nthAction }) {
    const found = this.accessesOf(name).filter(([one]) => one === key)[nth - 1];
    if (found) return { action: found[1], line: found[2] };
    return isLookUp ? this.findAction({ actionKey, nthAction }) : null;
  }

  /**
   * Where the action of an access is in this run, whether or not it makes the access. Called by replay/due.js, replay/found/lawful.js and replay/reversal.js.
   * @param {import('./types').ActionIdentity} action
   * @returns {Found|null}
   */
  findAction({ actionKey, nthAction }) {
    const number = this.numbersOf(actionKey)[nthAction - 1];
    return number === undefined ? null : { action: number, line: this.actions.list[number].line };
  }
}

module.exports = { Keys };
